"""Cuts a listing into a file for each class, so that git and diff show changes class by class; or joins these again.

usage: dexasm-split [--quiet] [FILE] FOLDER
       dexasm-split --join FOLDER

FILE is a listing, or a .dex file, which is listed first; without FILE it is a listing from standard input. With --join
the same listing goes to standard output, byte for byte. A listing has no annotations and no debug information: a line
says how many of a .dex file are dropped, unless --quiet is given.

The class LHello/World; goes to FOLDER/Hello/World.txt. A name that is too long for a file, that begins with a minus or
a name of this command's, or that only differs from another one's in upper and lower case, goes to FOLDER/@/ with a hash
of the name. FOLDER/order lists the files in the order of their classes, one a line; what is before the first class is
in FOLDER/head, what is after the last one in FOLDER/tail. FOLDER has to be new, empty, or made by this command: then
files of classes that are gone are removed.

A listing that dexasm refuses (one that was cut, or is none) changes nothing, nor does a folder whose order names
another place, or that leads to one by a link: nothing outside FOLDER is read, written or removed. A file of a class may
be edited, and keeps its mode and its owner when it is written again; one that may not be written changes nothing.

All is written into FOLDER/.dexasm-split first, so that a full disk changes nothing, and then put in place; signals to
end wait meanwhile. A run that is killed then leaves FOLDER/.dexasm-split/unfinished: such a folder is not joined until
dexasm-split has run again.

Exit status: 0 done, 1 the listing or the file is refused, 2 a usage error, 3 something cannot be read or written, 4 out
of memory.
"""
from __future__ import annotations

import contextlib
import errno
import fcntl
import hashlib
import os
import re
import stat
from collections.abc import Iterator

from dexasm.analysis.extras import report_dropped
from dexasm.canonical import NoListing
from dexasm.cli.core import run_job, run_or_fail, unescape
from dexasm.cli.errors import CliError, reason
from dexasm.cli.filetypes import DEX
from dexasm.cli.inputs import read_input
from dexasm.cli.io import write_output
from dexasm.cli.main import Parser, command
from dexasm.cli.sanitize import escaped


OWN = ("order", "head", "tail")
ASIDE = ".dexasm-split"  # where files are made, by numbers, before they are put in place
UNFINISHED = "unfinished"  # in there while they are: the order that is being put in place
PART = re.compile(r"[A-Za-z0-9$_%-]{1,200}")  # a part of a class's path: what isn't ASCII is %uXXXX there
LONGEST = 1000  # characters of a path
LISTED = re.compile(r"[!-~]{1,255}")  # a part of a path that order may list, if it doesn't begin with a dot


class Folder:
    """FOLDER, in which each step of a path is taken without following a link."""

    def __init__(self, path: str, is_made: bool = False) -> None:
        try:
            if is_made:
                os.makedirs(path, exist_ok=True)
            self.path, self.top = path, os.open(path, os.O_RDONLY | os.O_DIRECTORY)
        except OSError as error:
            raise CliError(f"{escaped(path)}: {reason(error)}") from None
        self.lock(fcntl.LOCK_EX if is_made else fcntl.LOCK_SH)

    def lock(self, kind: int) -> None:
        """Against another run of this command, until this one ends. (Some systems of files know no locks.)"""
        try:
            fcntl.flock(self.top, kind | fcntl.LOCK_NB)
        except BlockingIOError:
            raise CliError(f"{escaped(self.path)}: another dexasm-split is at work in it") from None
        except OSError:
            pass

    def wrong(self, path: str, why: str) -> CliError:
        return CliError(f"{escaped(os.path.join(self.path, path))}: {why}")

    def open_parent(self, path: str, is_made: bool = False) -> int | None:
        """The folder in which that file stands, or None if it isn't there."""
        at = os.dup(self.top)
        for part in path.split("/")[:-1]:
            try:
                if is_made and not exists(part, at):
                    os.mkdir(part, dir_fd=at)
                inner = os.open(part, os.O_RDONLY | os.O_DIRECTORY | os.O_NOFOLLOW, dir_fd=at)
            except FileNotFoundError:
                return None
            except OSError as error:
                is_link = error.errno in (errno.ELOOP, errno.ENOTDIR)
                raise self.wrong(path, "the path has a link or a file in it" if is_link else reason(error)) from None
            finally:
                os.close(at)
            at = inner
        return at

    def open(self, path: str, flags: int = os.O_RDONLY) -> int | None:
        """A file of this folder, or None if it isn't there."""
        parent = self.open_parent(path)
        if parent is None:
            return None
        try:
            at = os.open(path.split("/")[-1], flags | os.O_NOFOLLOW | os.O_NONBLOCK | os.O_NOCTTY, dir_fd=parent)
        except FileNotFoundError:
            return None
        except OSError as error:
            raise self.wrong(path, "a link" if error.errno == errno.ELOOP else reason(error)) from None
        finally:
            os.close(parent)
        if not stat.S_ISREG(os.fstat(at).st_mode):
            os.close(at)
            raise self.wrong(path, "no file")
        return at

    def get(self, path: str) -> bytes | None:
        """The bytes of a file of this folder, or None if it isn't there."""
        at = self.open(path)
        if at is None:
            return None
        with os.fdopen(at, "rb") as file:
            return file.read()

    def listed(self, name: str = "order") -> list[str] | None:
        """The paths in order, whoever wrote it: each is one of this folder, and none comes twice. None where there is
        no order.
        """
        order = self.get(name)
        if order is None:
            return None
        paths = order.decode("latin1").removesuffix("\n").split("\n") if order else []
        for path in paths:
            parts = path.split("/")
            is_ours = path.endswith(".txt") and parts[0].lower() not in OWN
            if not is_ours or not all(LISTED.fullmatch(part) and part[0] != "." for part in parts):
                raise self.wrong(name, f"it names what is no file of the folder: {escaped(path[:200])}")
            parent = self.open_parent(path)
            if parent is not None:
                os.close(parent)
        if len(set(paths)) < len(paths):
            raise self.wrong(name, "it names a file twice")
        return paths

    def unfinished(self) -> list[str] | None:
        """The paths that a run that was ended put in place, or some of them. None where none was ended so."""
        return self.listed(f"{ASIDE}/{UNFINISHED}")

    def remove(self, path: str) -> None:
        """Takes a file away, and the folders that are empty then; a link is taken away itself."""
        while path:
            parent = self.open_parent(path)
            if parent is None:
                return
            try:
                mode = os.stat(path.split("/")[-1], dir_fd=parent, follow_symlinks=False).st_mode
                (os.rmdir if stat.S_ISDIR(mode) else os.unlink)(path.split("/")[-1], dir_fd=parent)
            except FileNotFoundError:
                pass
            except OSError as error:
                if error.errno in (errno.ENOTEMPTY, errno.EEXIST):
                    return
                raise
            finally:
                os.close(parent)
            path = path.rpartition("/")[0]

    def put_all(self, files: dict[str, bytes], gone: set[str]) -> None:
        """Writes the files that aren't there as they are, and removes those that are gone. All are written beside the
        others before that, so that a full disk changes nothing. (What is gone goes first, for where two names that
        differ in case are one.)
        """
        changed = {path: data for path, data in files.items() if self.get(path) != data}
        at = self.open_aside()
        try:
            places = [
                (path, data, self.put_aside(str(number), path, data, at))
                for number, (path, data) in enumerate(changed.items())
            ]
            if changed or gone or exists(UNFINISHED, at):
                self.take_places(places, gone, files["order"], at)
        finally:
            with contextlib.suppress(OSError):
                empty(at)
                os.close(at)
                os.rmdir(ASIDE, dir_fd=self.top)

    def take_places(self, places: list[tuple[str, bytes, bool]], gone: set[str], order: bytes, at: int) -> None:
        """The files that were made aside come into their places. While they do, and where that goes wrong, the folder
        says that it isn't whole.
        """
        put_new(UNFINISHED + ".new", order, at)
        os.rename(UNFINISHED + ".new", UNFINISHED, src_dir_fd=at, dst_dir_fd=at)
        try:
            for path in gone:
                self.remove(path)
            for number, (path, data, is_equal) in enumerate(places):
                if is_equal or not self.overwrite(path, data):
                    self.put_in_place(str(number), path, at)
            os.unlink(UNFINISHED, dir_fd=at)
        except OSError as error:
            why = f"{reason(error)}; it isn't whole now, so dexasm-split has to run again"
            raise CliError(f"{escaped(self.path)}: {why}") from None

    def open_aside(self) -> int:
        """The folder in which files are made; what a run that was ended left in it goes, but that it was ended."""
        if not exists(ASIDE, self.top):
            os.mkdir(ASIDE, dir_fd=self.top)
        try:
            at = os.open(ASIDE, os.O_RDONLY | os.O_DIRECTORY | os.O_NOFOLLOW, dir_fd=self.top)
        except OSError as error:
            raise self.wrong(ASIDE, f"it is no folder of this command: {reason(error)}") from None
        if not all(name.isdigit() or name.startswith(UNFINISHED) for name in os.listdir(at)):
            os.close(at)
            raise self.wrong(ASIDE, "it holds other files")
        empty(at)
        return at

    def put_aside(self, name: str, path: str, data: bytes, at: int) -> bool:
        """Make a file that is to take this path, if the one there may be written; return whether it has its owner, mode
        and access control list.
        """
        like = self.open(path, os.O_RDWR)
        try:
            return put_new(name, data, at, like)
        finally:
            if like is not None:
                os.close(like)

    def overwrite(self, path: str, data: bytes) -> bool:
        """Write to the file itself; return False if it is gone."""
        from dexasm import deliver as rules

        file = self.open(path, os.O_RDWR)
        if file is None:
            return False
        try:
            rules.overwrite(file, data)
        finally:
            os.close(file)
        return True

    def put_in_place(self, name: str, path: str, at: int) -> None:
        parent = self.open_parent(path, is_made=True)
        if parent is None:  # (somebody took away what was made)
            raise FileNotFoundError(errno.ENOENT, os.strerror(errno.ENOENT))
        try:
            os.replace(name, path.split("/")[-1], src_dir_fd=at, dst_dir_fd=parent)
        finally:
            os.close(parent)


def put_new(name: str, data: bytes, at: int, like: int | None = None) -> bool:
    """Make a file that isn't there yet; return whether it has the owner, mode and access control list of `like`."""
    from dexasm import deliver as rules

    return rules.fill(rules.new_file(name, rules.PUBLIC if like is None else rules.PRIVATE, at), like, data)


def empty(at: int) -> None:
    """Takes away what was made aside, but not that a run was ended."""
    for name in os.listdir(at):
        if name != UNFINISHED:
            os.unlink(name, dir_fd=at)


def exists(name: str, at: int) -> bool:
    try:
        os.stat(name, dir_fd=at, follow_symlinks=False)
    except FileNotFoundError:
        return False
    return True


def pieces(listing: bytes) -> tuple[bytes, list[bytes], bytes]:
    """What stands before the first class, each class with what stands before it, and what stands after the last one."""
    ends = [found.end() for found in re.finditer(rb"^ *end +class *(?:\n|\Z)", listing, re.MULTILINE)]
    first = re.search(rb"^ *class ", listing, re.MULTILINE)
    at = first.start() if first and ends else len(listing)
    classes: list[bytes]
    head, classes = listing[:at], []
    for end in ends:
        classes.append(listing[at:end])
        at = end
    return head, classes, listing[at:]


def path_of(piece: bytes, taken: set[str]) -> str:
    """Where a class goes; `taken` has the paths that there are, in lower case."""
    found = re.search(rb"^ *class +(\S+)", piece, re.MULTILINE)
    if found is None:
        raise NoListing(piece)
    name = unescape(found[1].decode("ascii"))
    name = "".join(char if char < "\x7f" else f"%u{ord(char):04x}" for char in name)[1:-1]
    parts, path = name.split("/"), name
    is_plain = all(PART.fullmatch(part) for part in parts) and len(name) <= LONGEST
    if not is_plain or name[0] == "-" or parts[0].lower() in OWN or path.lower() in taken:
        path = f"@/{parts[-1][:60]}@{hashlib.sha256(name.encode('ascii')).hexdigest()[:16]}"
    while path.lower() in taken:
        path += "@"
    taken.add(path.lower())
    return path + ".txt"


def as_listing(data: bytes, name: str) -> bytes:
    """The listing that was given, or that of the .dex file; what dexasm takes for no listing is refused in its own
    words.
    """
    if data.startswith(DEX):
        return run_or_fail("list", data=data, name=name)
    result = run_job("assemble", "--align", data=data)
    refusal = result.refusal()
    # (from 80 on, below 100: a listing whose program no file can hold)
    if result.status and not (refusal and 80 <= refusal[0] < 100):
        why = " (was the file refused that was listed?)" if not data else ""
        raise CliError(f"{name}: {result.message()}{why}: nothing was changed", result.status)
    return data


def split(listing: bytes, path: str) -> None:
    head, classes, tail = pieces(listing)
    taken: set[str] = set()
    files = {path_of(piece, taken): piece for piece in classes}
    folder = Folder(path, is_made=True)
    old, result = folder.listed(), folder.unfinished()
    if old is None and result is None and set(os.listdir(folder.top)) - {ASIDE}:
        raise CliError(f"{escaped(path)}: it holds other files and no order: nothing was changed")
    order = "".join(file + "\n" for file in files).encode("ascii")
    gone = {*(old or ()), *(result or ())}.difference(files)
    from dexasm.deliver import blocked_signals

    with blocked_signals():
        folder.put_all({**files, "head": head, "tail": tail, "order": order}, gone)


def join(path: str) -> Iterator[bytes]:
    folder = Folder(path)
    if folder.unfinished() is not None:
        raise CliError(f"{escaped(path)}: it isn't whole, since a dexasm-split was ended in it: it has to run again")
    paths = folder.listed()
    if paths is None:
        raise CliError(f"{escaped(path)}: it has no order: dexasm-split hasn't made it")
    parts = ["head", *paths, "tail"]
    for part in parts:
        data = folder.get(part)
        if data is None:
            raise folder.wrong(part, "no such file")
        yield data


@command()
def main(parser: Parser) -> int:
    parser.add_argument("--join", action="store_true")
    parser.add_argument("--quiet", "-q", action="store_true")
    parser.add_argument("paths", nargs="+")
    args = parser.parse_args()
    if len(args.paths) > (1 if args.join else 2):
        parser.error("too many words")
    folder = args.paths[-1]
    if not args.join and len(args.paths) == 1 and os.path.isfile(folder):
        raise CliError(f"{escaped(folder)}: it is a file, and the FOLDER to write is missing")
    if args.join:
        write_output("-", b"".join(join(folder)))
        return 0
    file = args.paths[0] if len(args.paths) == 2 else None
    source = read_input(file)
    split(as_listing(source.data, source.name), folder)
    if not args.quiet:
        report_dropped(parser.prog, source.name, source.data)
    return 0
