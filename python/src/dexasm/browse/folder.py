"""A folder of pages that is made whole: beside its place, and put there in one step when it is complete."""
from __future__ import annotations

import contextlib
import ctypes
import errno
import os
import re
import shutil
import signal
import tempfile

from dexasm import deliver as rules
from dexasm.cli.errors import CliError, reason
from dexasm.cli.io import write_file
from dexasm.cli.sanitize import escaped

# All that dexasm-browse writes into a folder. What holds anything else isn't its own.
FILES = re.compile(
    r"(?:index|help)\.html|style\.css|script\.js|icon\.svg|(?:class|package|strings)/\d+(?:-\d+)?\.html|search/\d+\.js"
)
INNER = ("class", "package", "strings", "search")
MARK = b'<meta name="generator" content="dexasm-browse">'
ENDING = (signal.SIGINT, signal.SIGTERM, signal.SIGHUP)
AT_FDCWD, RENAME_EXCHANGE = -100, 2  # of Linux (include/uapi/linux/fcntl.h and fs.h)
# How a system refuses to exchange two names because it can't. (EPERM: by a filter of calls that doesn't know this one.)
CANT_EXCHANGE = (errno.ENOSYS, errno.EINVAL, errno.EOPNOTSUPP, errno.EPERM)


def is_ours(path: str) -> bool:
    """Whether a folder holds nothing but pages of an earlier run."""
    for at, folders, names in os.walk(path):
        if any(os.path.islink(os.path.join(at, name)) for name in (*folders, *names)):
            return False
        inner = os.path.relpath(at, path)
        if not all(FILES.fullmatch(name if inner == "." else f"{inner}/{name}") for name in names):
            return False
        if inner != "." and not names and not folders:
            return False
    with open(os.path.join(path, "index.html"), "rb") as file:
        return MARK in file.read(4096)


class Folder:
    """Where the pages are written until all are: begin, put each, finish. Leaving it by an error, or by a signal to
    end, leaves nothing beside FOLDER, which is as it was.
    """

    def __init__(self, path: str) -> None:
        self.path = os.path.realpath(path)
        self.name = escaped(path)
        self.part = ""
        self.check()

    def check(self) -> None:
        try:
            if self.path == os.path.realpath("."):
                # (it is replaced, so whoever stands in it would see nothing of what takes its place)
                raise CliError(f"{self.name}: it is the folder that this runs in; another one is wanted")
            if os.path.lexists(self.path) and (not os.path.isdir(self.path) or os.listdir(self.path)):
                if not os.path.isdir(self.path) or not is_ours(self.path):
                    raise CliError(f"{self.name}: it is there, and is no folder that dexasm-browse made")
            if os.path.lexists(self.path) and not all(
                os.access(at, os.W_OK | os.X_OK) for at, _, _ in os.walk(self.path)  # (as of a file that is replaced)
            ):
                raise CliError(f"{self.name}: {os.strerror(errno.EACCES)}")
        except OSError as error:
            raise CliError(f"{self.name}: {reason(error)}") from None

    def __enter__(self) -> Folder:
        for number in ENDING:
            if signal.getsignal(number) in (signal.SIG_DFL, signal.default_int_handler):
                signal.signal(number, interrupt)
        return self

    def begin(self) -> None:
        """Makes the folder beside, which is nobody else's until it takes its place."""
        with rules.blocked_signals():
            folder, name = os.path.split(self.path)
            # (a name of 255 bytes has no room for more)
            prefix = f".{os.fsdecode(os.fsencode(name)[:100])}."
            try:
                self.part = tempfile.mkdtemp(dir=folder, prefix=prefix, suffix=".part")
                for inner in INNER:
                    os.mkdir(os.path.join(self.part, inner))
            except OSError as error:
                raise CliError(f"{self.name}: {reason(error)}") from None

    def put(self, name: str, text: str) -> int:
        """Writes a page; answers its bytes."""
        data = text.encode("utf8")
        write_file(os.path.join(self.part, name), data, name=self.name)
        return len(data)

    def finish(self) -> None:
        """Puts the pages into their place, in one step where the system has one; those of an earlier run are gone."""
        with rules.blocked_signals():
            self.check()  # (something may have come in the meantime)
            try:
                self.copy_metadata()
                self.replace()
            except OSError as error:
                raise CliError(f"{self.name}: {reason(error)}") from None
            finally:
                self.remove()

    def __exit__(self, *_: object) -> None:
        with rules.blocked_signals():
            self.remove()

    def remove(self) -> None:
        """Takes away what stands beside: the pages that aren't complete, or those of an earlier run."""
        if self.part:
            shutil.rmtree(self.part, ignore_errors=True)
            shutil.rmtree(f"{self.part}.old", ignore_errors=True)
            shutil.rmtree(f"{self.part}.new", ignore_errors=True)
        self.part = ""

    def copy_metadata(self) -> None:
        """The new folder looks as the old one, or as what is new there, and all in it has its owner."""
        like = self.path
        if not os.path.lexists(like):
            like = f"{self.part}.new"
            os.mkdir(like)
        new = os.open(self.part, os.O_RDONLY | os.O_DIRECTORY | os.O_NOFOLLOW)
        try:
            old = os.open(like, os.O_RDONLY | os.O_DIRECTORY | os.O_NOFOLLOW)
            try:
                self.copy_owner(os.fstat(new), os.fstat(old))
                if not rules.copy_metadata(new, old):
                    raise CliError(f"{self.name}: its owner, mode or access control list cannot be kept")
            finally:
                os.close(old)
        finally:
            os.close(new)

    def copy_owner(self, new: os.stat_result, old: os.stat_result) -> None:
        """What is in the folder to the owner of the folder that it replaces, who couldn't remove it otherwise."""
        if (new.st_uid, new.st_gid) == (old.st_uid, old.st_gid):
            return
        for at, folders, names in os.walk(self.part):
            for name in (*folders, *names):
                with contextlib.suppress(OSError):
                    os.chown(os.path.join(at, name), old.st_uid, old.st_gid, follow_symlinks=False)

    def replace(self) -> None:
        if not os.path.lexists(self.path):
            os.rename(self.part, self.path)
        elif not has_exchanged(self.part, self.path):
            replace_by_two(self.part, self.path)


def has_exchanged(one: str, other: str) -> bool:
    """Whether the two have each other's place, which they take in one step; False where the system has no such step."""
    try:
        call = ctypes.CDLL(None, use_errno=True).renameat2
    except (AttributeError, OSError):
        return False
    if call(AT_FDCWD, os.fsencode(one), AT_FDCWD, os.fsencode(other), ctypes.c_uint(RENAME_EXCHANGE)) == 0:
        return True
    number = ctypes.get_errno()
    if number in CANT_EXCHANGE:
        return False
    raise OSError(number, os.strerror(number))


def replace_by_two(part: str, path: str) -> None:
    """In two steps, between which no signal to end comes. (One that can't be held back leaves the old pages beside.)"""
    if not os.listdir(path):
        os.rename(part, path)
        return
    old = f"{part}.old"
    os.rename(path, old)
    try:
        os.rename(part, path)
    except OSError:
        os.rename(old, path)
        raise


def interrupt(*_: object) -> None:
    """The run ends, and takes away what it made; no other signal to end disturbs it in that."""
    for number in ENDING:
        if signal.getsignal(number) is interrupt:
            signal.signal(number, nothing)
    raise KeyboardInterrupt


def nothing(*_: object) -> None:
    pass
