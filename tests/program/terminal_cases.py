"""What a terminal is told, and what it isn't given: the cases of a pseudo terminal.

A case is its name, its words, what stands on which terminal, the exit status and what is wanted there.
"""
import os
import pty
import select
import subprocess
import termios
from collections.abc import Iterator, Sequence
from typing import Any

from ..base import LIMIT

Case = tuple[str, bool, object]
SENTENCE = "dexasm: a .dex file isn't for a terminal: use --output FILE or a pipe\n"


class Terminal:
    """A pseudo terminal, and what is written to it."""

    def __init__(self) -> None:
        self.ours, self.theirs = pty.openpty()
        modes = termios.tcgetattr(self.theirs)
        modes[1] &= ~termios.OPOST  # a line feed stays one
        termios.tcsetattr(self.theirs, termios.TCSANOW, modes)

    def read(self) -> str:
        """What has been written, once the program has ended."""
        os.close(self.theirs)
        parts = []
        while select.select([self.ours], [], [], 0)[0]:
            try:
                part = os.read(self.ours, 65536)
            except OSError:  # (EIO: the other end is closed)
                break
            if not part:
                break
            parts.append(part)
        os.close(self.ours)
        return b"".join(parts).decode("utf8", "replace")


def seen(
    words: Sequence[str], given: bytes = b"", terminals: Sequence[str] = (), at: str | None = None
) -> tuple[int, bytes, str]:
    """Status, standard output and standard error of these words, where those named in `terminals` are terminals."""
    made = {name: Terminal() for name in terminals}
    streams: dict[str, Any] = {
        name: made[name].theirs if name in made else subprocess.PIPE for name in ("stdout", "stderr")
    }
    running = subprocess.Popen(words, stdin=subprocess.PIPE, cwd=at, **streams)
    try:
        out, said = running.communicate(given, LIMIT)
    except subprocess.TimeoutExpired:
        running.kill()
        out, said = running.communicate()
    texts = {"stdout": out, "stderr": said}
    for name, terminal in made.items():
        texts[name] = terminal.read().encode()
    return running.returncode, texts["stdout"] or b"", (texts["stderr"] or b"").decode("utf8", "replace")


def cases_of(program: str, folder: str, empty: bytes, refused: bytes) -> Iterator[Case]:
    """Each case as its name, whether it is so, and what was seen. `empty` is a file of no classes, `refused` one that
    breaks rule 8."""
    listing, line = b"dex 035 listing 2\n", "dexasm: refused 8 Checksum at 8\n"
    path = os.path.join(folder, "terminal")
    os.mkdir(path)
    for name, given in (("a.dex", empty), ("-", listing), ("a.txt", listing)):
        with open(os.path.join(path, name), "wb") as file:
            file.write(given)
    cases = (
        ("strip to a terminal", ("strip", "a.dex"), b"", ("stdout",), (2, b"", SENTENCE)),
        ("assemble to a terminal", ("assemble",), listing, ("stdout",), (2, b"", SENTENCE)),
        ("strip --output - to a terminal", ("strip", "-", "-o", "-"), empty, ("stdout", "stderr"), (2, b"", SENTENCE)),
        ("strip of no file to a terminal", ("strip", "none.dex"), b"", ("stdout",), (2, b"", SENTENCE)),
        ("strip to OUT, from a terminal's session", ("strip", "a.dex", "-o", "b.dex"), b"", ("stdout", "stderr"),
         (0, b"", "")),
        ("strip to a pipe", ("strip", "a.dex"), b"", ("stderr",), (0, empty, "")),
        ("check on a terminal", ("check", "a.dex"), b"", ("stdout", "stderr"), (0, b"ok\n", "")),
        ("list on a terminal", ("list", "a.dex"), b"", ("stdout", "stderr"), (0, listing, "")),
        ("a refusal on a terminal", ("check",), refused, ("stderr",), (1, b"", line + "  the Adler-32 differs\n")),
        ("a refusal, with the answer's terminal alone", ("check",), refused, ("stdout",), (1, b"", line)),
        ("a refused listing on a terminal", ("assemble", "-o", "c.dex"), b"dex 035 listing 2\nnop\n", ("stderr",),
         (1, b"", "dexasm: refused 103 Order at 2\n  the line may not stand here\n")),
        ("FILE isn't there, on a terminal", ("check", "none"), b"", ("stderr",),
         (3, b"", "dexasm: cannot read\n  No such file or directory (os error 2)\n")),
        ("FILE isn't there", ("check", "none"), b"", (), (3, b"", "dexasm: cannot read\n")),
        ("FILE is a folder, on a terminal", ("check", "."), b"", ("stderr",),
         (3, b"", "dexasm: cannot read\n  Is a directory (os error 21)\n")),
        ("OUT in no folder, on a terminal", ("strip", "a.dex", "-o", "none/b.dex"), b"", ("stderr",),
         (3, b"", "dexasm: cannot write\n  No such file or directory (os error 2)\n")),
        ("OUT in a full device, on a terminal", ("list", "a.dex", "-o", "/dev/full"), b"", ("stderr",),
         (3, b"", "dexasm: cannot write\n  No space left on device (os error 28)\n")),
        ("- is standard input", ("check", "-"), empty, (), (0, b"ok\n", "")),
        ("-o - is standard output", ("list", "a.dex", "-o", "-"), b"", (), (0, listing, "")),
        ("--output=- is standard output", ("strip", "-", "--output=-"), empty, (), (0, empty, "")),
        ("./- is a file", ("assemble", "./-"), b"", (), (0, empty, "")),
        ("-o ./- is a file", ("list", "a.dex", "-o", "./-"), b"", (), (0, b"", "")),
        ("-oOUT", ("list", "a.dex", "-od.txt"), b"", (), (0, b"", "")),
    )
    want: tuple[int, bytes, str] | bytes
    for what, words, given, terminals, want in cases:
        got = seen([program, *words], given, terminals, path)
        yield what, got == want, got
    for name, want in (("b.dex", empty), ("-", listing), ("d.txt", listing)):
        with open(os.path.join(path, name), "rb") as file:
            yield f"{name} is written", file.read() == want, name
    left = sorted(os.listdir(path))
    yield "nothing else is made", left == ["-", "a.dex", "a.txt", "b.dex", "d.txt"], left
    yield from closed_stream(program, path)


def closed_stream(program: str, path: str) -> Iterator[Case]:
    """Standard input that is closed, and standard output that is full, with the system's words on a terminal."""
    for what, words, shell, want in (
        ("a closed standard input", ("check",), '"$@" <&-',
         (3, "dexasm: cannot read\n  Bad file descriptor (os error 9)\n")),
        ("a full standard output", ("list", "a.dex"), '"$@" >/dev/full',
         (3, "dexasm: cannot write\n  No space left on device (os error 28)\n"))
    ):
        status, _, said = seen(["sh", "-c", shell, "sh", program, *words], b"", ("stderr",), path)
        yield f"{what}, on a terminal", (status, said) == want, (status, said)
