"""What helpers show on a terminal, and only there: a line that tells how far they are, and colours."""
from __future__ import annotations

import os
import sys
import time
from collections.abc import Iterator

OFTEN = 0.5  # seconds between two looks of the line


class StatusLine:
    """A line of standard error that is drawn again and again, where that is a terminal."""

    def __init__(self) -> None:
        self.is_shown = sys.stderr is not None and sys.stderr.isatty() and os.environ.get("TERM") != "dumb"
        self.shown = 0.0

    def is_due(self) -> bool:
        return self.is_shown and time.monotonic() - self.shown >= OFTEN

    def draw(self, line: str = "") -> None:
        """What it has from now on; a terminal that went away is no trouble."""
        if self.is_shown:
            self.shown = time.monotonic() if line else 0.0
            try:
                columns = os.get_terminal_size(sys.stderr.fileno()).columns or 80
                sys.stderr.write(f"\r\x1b[K{line[: columns - 1]}")
                sys.stderr.flush()
            except OSError:
                self.is_shown = False


def steps(text: str, count: int) -> Iterator[int]:
    """The numbers of so many steps; a line says how many are done."""
    line = StatusLine()
    try:
        for at in range(count):
            yield at
            if line.is_due():
                line.draw(f"{text}: {at + 1} of {count}")
    finally:
        line.draw()


def is_colored(word: str) -> bool:
    """Whether standard output has colours, by the word of --color: auto, always or never."""
    return word == "always" or word == "auto" and sys.stdout.isatty() and not os.environ.get("NO_COLOR")
