"""The paths that a helper is given, and the files that lie below them."""
from __future__ import annotations

import os
import re
import stat
import sys
from collections.abc import Callable, Iterator

from dexasm.cli.errors import CliError, reason
from dexasm.cli.filetypes import ARCHIVES_BEGIN, DEX, is_archive_name, is_dex_name
from dexasm.cli.sanitize import escaped

# A listing by its first line, or without it by the next one; comments, blank lines and a byte order mark may precede.
LISTING = re.compile(
    rb"(?:\xef\xbb\xbf)?(?:[ \t]*(?:#.*)?\r?\n)*[ \t]*(?:(?P<version>dex 035\b)|dex +[0-9]|class +L\S+; +[0-9])"
)
SNIFFED_BYTES = 4096  # bytes in which it has to begin

OnError = Callable[[bytes, OSError], None]
OnOther = Callable[[bytes, bytes], None]


def expand_paths(words: list[str]) -> Iterator[bytes]:
    """The paths that were named; `-` for those on standard input, each with a NUL after it."""
    for word in words:
        yield from (os.fsencode(word),) if word != "-" else read_paths(word)


def read_paths(path: str) -> Iterator[bytes]:
    """The paths in a file, or on standard input if it is `-`, each with a NUL after it."""
    if path == "-":
        if sys.stdin is None:
            raise CliError("standard input: it is closed")
        yield from split_paths(sys.stdin.buffer.read1)  # type: ignore[attr-defined]
        return
    try:
        with open(path, "rb") as file:
            yield from split_paths(file.read1)
    except OSError as error:
        raise CliError(f"{escaped(path)}: {reason(error)}") from None


def split_paths(read: Callable[[int], bytes]) -> Iterator[bytes]:
    rest = b""
    while more := read(1 << 16):
        *paths, rest = (rest + more).split(b"\0")
        yield from filter(None, paths)
    if rest:
        yield rest


def excluding(patterns: list[str]) -> Callable[[bytes], str | None]:
    """A function that returns which of these patterns a path matches. A pattern without a slash is that of a name, of
    the file or of a folder above it; one with a slash that of a whole path, or of its first folders.
    """
    import fnmatch

    rows = [(re.compile(fnmatch.translate(one.removeprefix("./").strip("/"))), one) for one in patterns]
    names = [row for row in rows if "/" not in row[1].strip("/")]
    wholes = [row for row in rows if row not in names]

    def excluded_by(path: bytes) -> str | None:
        parts = [part for part in os.fsdecode(path).split("/") if part not in ("", ".")]
        fronts = ("/".join(parts[: count + 1]) for count in range(len(parts)))
        found = (text for row, text in names for part in parts if row.match(part))
        return next(found, None) or next((text for front in fronts for row, text in wholes if row.match(front)), None)

    return excluded_by


def walk(path: bytes, wrong: OnError, other: OnOther | None = None) -> Iterator[tuple[bytes, bool, int]]:
    """The files of a path, each with whether it was named itself and its size; no link below it is followed. `other` is
    called with the path and what stands below it that is neither a file nor a folder.
    """
    try:
        status = os.stat(path)
    except OSError as error:
        wrong(path, error)
        return
    if not stat.S_ISDIR(status.st_mode):
        yield path, True, status.st_size
        return
    due = [path]
    while due:
        at = due.pop()
        try:
            with os.scandir(at) as found:
                entries = sorted(found, key=lambda entry: entry.name)
        except OSError as error:
            wrong(at, error)
            continue
        due += [entry.path for entry in reversed(entries) if entry.is_dir(follow_symlinks=False)]
        yield from files_of(path, entries, other)


def files_of(top: bytes, entries: list[os.DirEntry[bytes]], other: OnOther | None) -> Iterator[tuple[bytes, bool, int]]:
    for entry in entries:
        if entry.is_file(follow_symlinks=False):
            yield entry.path, False, size_of(entry)
        elif other is not None and not entry.is_dir(follow_symlinks=False):
            other(top, entry.path)


def size_of(entry: os.DirEntry[bytes]) -> int:
    try:
        return entry.stat(follow_symlinks=False).st_size
    except OSError:
        return 0


# ---- what is looked at below a folder


def has_known_name(path: bytes) -> bool:
    """Whether a path is that of a .dex file or an archive, by its name."""
    name = os.fsdecode(path)
    return is_dex_name(name) or is_archive_name(name)


def sniff(path: bytes) -> bool | None:
    """Whether a file begins as a .dex file, an archive or a listing does; None if it looks like a listing but for its
    first line.
    """
    at = os.open(path, os.O_RDONLY | os.O_NONBLOCK | os.O_NOCTTY)
    try:
        front = os.read(at, SNIFFED_BYTES) if stat.S_ISREG(os.fstat(at).st_mode) else b""
    finally:
        os.close(at)
    if front[: len(DEX)] in (DEX, *ARCHIVES_BEGIN):
        return True
    listing = LISTING.match(front)
    return None if listing and not listing["version"] else listing is not None


def describe_skipped(top: bytes, path: bytes) -> tuple[bool, str]:
    """Of what stands below a folder and is neither file nor folder: whether something could pass unseen in it, and what
    it is.
    """
    is_one = has_known_name(path)
    if not os.path.islink(path):
        return is_one, "no file"
    try:
        there = os.stat(path)
    except FileNotFoundError:
        return is_one, "a link to nothing"
    place, here = os.path.realpath(path), os.path.realpath(top)
    is_here = (place + b"/").startswith(here.rstrip(b"/") + b"/")
    if stat.S_ISDIR(there.st_mode):
        return not is_here, "a link to a folder, which isn't followed"
    if not stat.S_ISREG(there.st_mode):
        return is_one, "a link to no file"
    is_one = is_one or bool(sniff(path))
    is_seen = is_here and (has_known_name(place) or bool(sniff(place)))
    return is_one and not is_seen, "a link to a file, which isn't followed"
