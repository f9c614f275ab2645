"""The files of a helper: how they are read, named in a line, and written."""
from __future__ import annotations

import sys

from dexasm.cli.errors import CliError, reason
from dexasm.cli.sanitize import escaped


STDIN = (None, "-", b"-")  # paths that are standard input
_stdin_read = False


def read_stdin() -> bytes:
    global _stdin_read
    if sys.stdin is None:
        raise CliError("standard input: it is closed")
    if _stdin_read:
        raise CliError("standard input can only be read once")
    _stdin_read = True
    return sys.stdin.buffer.read()


def read_file(path: str | bytes | None) -> bytes:
    """The bytes of a file, or of standard input where there is no path or it is `-`."""
    try:
        if path is None or path in STDIN:
            return read_stdin()
        with open(path, "rb") as file:
            return file.read()
    except (OSError, ValueError) as error:
        raise CliError(f"{display_name(path)}: {reason(error) if isinstance(error, OSError) else error}") from None


def display_name(path: str | bytes | None) -> str:
    return "standard input" if path in STDIN else escaped(path or "")


def write_output(path: str, data: bytes) -> None:
    """Write an answer to a file, or to standard output if the path is `-`."""
    if path != "-":
        write_file(path, data)
        return
    sys.stdout.buffer.write(data)
    sys.stdout.buffer.flush()


def write_file(path: str | bytes, data: bytes, through: bool = True, name: str | None = None) -> None:
    """Brings an answer to a file by the command's rules (dexasm/deliver.py has them); with through=False only where
    nothing is or a file of one name, so that nothing else is written through it. `name` is the file's in messages.
    """
    from dexasm import deliver as rules

    name = name or escaped(path)
    try:
        rules.deliver(path, data, through=through)
    except rules.Kept as kept:
        raise CliError(f"{name}: {reason(kept)}; the whole answer is in {escaped(kept.part)}") from None
    except OSError as error:
        raise CliError(f"{name}: {reason(error)}") from None
