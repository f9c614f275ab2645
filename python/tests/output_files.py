"""Files that are written over: their rights, lists and attributes, disks that are full, folders that are shut."""
import contextlib
import errno
import functools
import importlib.util
import os
import pathlib
import resource
import signal
import stat
import struct
import subprocess
from collections.abc import Callable, Iterator, Sequence
from types import ModuleType
from typing import Any

from .cli.support import ESC, TOP, HelperTest, get, put, room

OLD, NEW = b"old " * 5000, b"new!" * 6000
NOBODY, SOMEBODY = 65534, 12345
ACL, DEFAULT = "system.posix_acl_access", "system.posix_acl_default"
MODULE = os.path.join(TOP, "python/src/dexasm/deliver.py")
LATE = 20  # seconds
Out = str | bytes | os.PathLike[str]


@functools.cache
def loaded() -> ModuleType:
    spec = importlib.util.spec_from_file_location("dexasm_deliver", MODULE)
    assert spec is not None and spec.loader is not None
    made = importlib.util.module_from_spec(spec)
    spec.loader.exec_module(made)
    return made


def outcome(out: Out, given: bytes, words: dict[str, Any]) -> str:
    module = loaded()
    try:
        module.deliver(out, given, **words)
    except OSError as error:
        kept = getattr(error, "part", "")
        return errno.errorcode.get(error.errno, str(error)) + (f" kept in {kept}" if kept else "")
    except BaseException as error:
        return repr(error)
    return "done"


def made(
    at: str, name: str = "out", given: bytes = OLD, mode: int = 0o644, user: int | None = None, group: int | None = None
) -> str:
    path = put(at, name, given)
    os.chown(path, *(0 if one is None else one for one in (user, group)))
    os.chmod(path, mode)
    return path


def mode_of(path: str) -> int:
    return stat.S_IMODE(os.lstat(path).st_mode)


def acl(*entries: tuple[int, int, int]) -> bytes:
    """An access control list: (tag, rights, whose)."""
    return struct.pack("<I", 2) + b"".join(struct.pack("<HHI", *entry) for entry in entries)


def acl_of(path: str, name: str = ACL) -> bytes | None:
    try:
        return os.getxattr(path, name)
    except OSError:
        return None


NO_ONE = 0xFFFFFFFF
U, NAMED, G, NAMED_GROUP, MASK, O = 1, 2, 4, 8, 16, 32


def listed(user: int, named: int, group: int, mask: int, other: int, whose: int = NOBODY) -> bytes:
    """An ACL with one named user."""
    return acl((U, user, NO_ONE), (NAMED, named, whose), (G, group, NO_ONE), (MASK, mask, NO_ONE), (O, other, NO_ONE))


def shut(path: str, sign: str, flag: str) -> None:
    subprocess.run(["chattr", sign + flag, path], check=True, capture_output=True)


@contextlib.contextmanager
def shut_by(flag: str, *paths: str) -> Iterator[None]:
    """With this attribute of the file system: i lets nothing change, a lets only grow."""
    try:
        for path in paths:
            shut(path, "+", flag)
        yield
    finally:
        for path in paths:
            shut(path, "-", flag)


@contextlib.contextmanager
def mounted(at: str, *words: str) -> Iterator[None]:
    subprocess.run(["mount", *words, at], check=True, capture_output=True)
    try:
        yield
    finally:
        subprocess.run(["umount", "-l", at], capture_output=True)


def only(at: str, *names: str) -> bool | list[str]:
    return sorted(os.listdir(at)) == sorted(names) or sorted(os.listdir(at))


def holds(path: str, *wanted: bytes) -> bool | bytes:
    return get(path) in wanted or get(path)[:60]


def is_root() -> bool:
    return os.geteuid() == 0


@contextlib.contextmanager
def full(name: str, size: int) -> Iterator[str]:
    at = room(name)
    with mounted(at, "-t", "tmpfs", "-o", f"size={size}k", "none"):
        yield at


class OutTest(HelperTest):
    """Bringing an answer to OUT, by `ran`, which others have in another way."""

    by = "deliver"  # what is named before each sub-test
    keeps_owner = True  # of a file whose owner can't be given to another: it is written in place

    def room(self, name: str) -> str:
        return room(f"{self.by} {name}")

    def ran(
        self, out: Out, given: bytes = NEW, user: int = 0, groups: Sequence[int] = (), mask: int = 0o022,
        most: int | None = None, before: Callable[[], Any] | None = None, at: str | None = None, **words: Any
    ) -> str:
        """How deliver ends in a process of its own, as this user: "done", the name of an error, or how it was ended."""
        loaded()  # (another user may not read it)
        reads, writes = os.pipe()
        child = os.fork()
        if child == 0:
            try:
                os.close(reads)
                os.chdir(at or "/")
                os.umask(mask)
                signal.alarm(LATE)
                if most:
                    resource.setrlimit(resource.RLIMIT_FSIZE, (most, most))
                    signal.signal(signal.SIGXFSZ, signal.SIG_DFL)
                if before:
                    before()
                if user:
                    os.setgroups(groups)
                    os.setgid(user)
                    os.setuid(user)
                os.write(writes, outcome(out, given, words).encode())
            finally:
                os._exit(0)
        os.close(writes)
        with os.fdopen(reads) as file:
            said = file.read()
        _, status = os.waitpid(child, 0)
        return said if not os.WIFSIGNALED(status) else f"signal {os.WTERMSIG(status)}"

    def says(self, what: str, seen: object, want: object, *truths: object) -> None:
        self.check_equal(f"{self.by}, {what}", (seen, [truth for truth in truths if truth is not True]), (want, []))

    def test_plain(self) -> None:
        """A new file, one that is there, links, names, and what is given."""
        at = self.room("plain")
        for mask in (0o022, 0, 0o027, 0o077, 0o777):
            seen = self.ran(f"{at}/new", mask=mask)
            right = mode_of(f"{at}/new") == 0o666 & ~mask
            self.says(
                f"a new file by the umask {mask:o}", seen, "done", right, holds(f"{at}/new", NEW), only(at, "new")
            )
            os.remove(f"{at}/new")
        for mode in (0o644, 0o600, 0o640, 0o755, 0o666, 0o444, 0o200, 0o7777, 0o604):
            out = made(at, mode=mode)
            before = os.stat(out)
            seen = self.ran(out, mask=0)
            is_new = os.stat(out).st_ino != before.st_ino
            self.says(f"mode {mode:o}", seen, "done", mode_of(out) == mode, is_new, holds(out, NEW), only(at, "out"))
            os.remove(out)
        for name in ("sp ace", "a\nb", f"{ESC}[31m", "-x", "\xe9", os.fsdecode(b"n\xff"), "out.0.part", "n" * 248):
            for old in (None, OLD):
                if old is not None:
                    made(at, name)
                seen = self.ran(name, at=at)
                self.says(f"a name {name[:20]!r}", seen, "done", holds(f"{at}/{name}", NEW), only(at, name))
            os.remove(f"{at}/{name}")
        for name in ("n" * 255, "n" * 250, os.fsdecode(b"\xff" * 255)):
            for old in (None, OLD):
                if old is not None:
                    made(at, name, mode=0o640)
                seen, want = self.ran(name, at=at), 0o644 if old is None else 0o640
                self.says(f"a name of {len(os.fsencode(name))} bytes", seen, "done", holds(f"{at}/{name}", NEW),
                          only(at, name))
                self.says("its mode", mode_of(f"{at}/{name}"), want)
                seen = self.ran(name, NEW * 9, at=at, most=len(NEW) * 2)
                self.says("such a name, a write that fails", seen, "EFBIG", holds(f"{at}/{name}", NEW), only(at, name))
            os.remove(f"{at}/{name}")
            seen = self.ran(name, at=at, most=20)
            self.says("such a name, new, a write that fails", seen, "EFBIG", only(at))
        self.says("a name of 256 bytes", self.ran("n" * 256, at=at), "ENAMETOOLONG", only(at))
        self.says("an empty name", self.ran("", at=at), "ENOENT", only(at))
        self.says("a name with a zero", self.ran("a\0b", at=at)[:10], "ValueError", only(at))
        self.says("a folder that isn't there", self.ran("no/out", at=at), "ENOENT", only(at))
        for given in (b"", bytearray(NEW), memoryview(NEW), NEW * 500):
            out = made(at)
            self.says(f"{type(given).__name__} of {len(given)}", self.ran(out, given), "done", holds(out, bytes(given)))
        path: Any  # (mypy joins these two to object)
        for path in (os.fsencode(f"{at}/out"), pathlib.Path(at, "out")):
            self.says(f"a path that is {type(path).__name__}", self.ran(path), "done", holds(f"{at}/out", NEW))
        with open(f"{at}/out", "rb") as reader:
            os.truncate(f"{at}/out", 7)
            self.says("OUT that is being read", self.ran(f"{at}/out"), "done", len(reader.read()) == 7)

    def test_names(self) -> None:
        """Two names stay two names of one file; the answer stands beside before it is written there."""
        at = self.room("names")
        out = made(at, mode=0o640)
        os.link(out, f"{at}/other")
        seen = self.ran(out)
        self.says("two names", seen, "done", os.path.samefile(out, f"{at}/other"), holds(out, NEW),
                  only(at, "out", "other"))
        self.says("two names, their mode", mode_of(out), 0o640)
        self.says("two names, a shorter answer", self.ran(out, b"short"), "done", holds(f"{at}/other", b"short"),
                  only(at, "out", "other"))
        if not is_root():
            return
        with full(f"{self.by} full", 64) as at:
            out = made(at, given=OLD)
            os.link(out, f"{at}/other")
            seen = self.ran(out, NEW * 2)
            whole = [name for name in os.listdir(at) if ".part" in name and get(at, name) == NEW * 2]
            is_so = holds(out, OLD) is True and only(at, "out", "other") or bool(whole)
            self.says("two names, a full disk", seen.split()[0], "ENOSPC", is_so)
            os.remove(f"{at}/other")
            self.says("one name, a full disk", self.ran(out, NEW * 4), "ENOSPC", holds(out, OLD), only(at, "out"))
            self.says(
                "no name, a full disk", self.ran(f"{at}/new", NEW * 4), "ENOSPC", holds(out, OLD), only(at, "out")
            )
        # Where the part has room and OUT has none: the part stays, whole, and the error says where it is.
        with full(f"{self.by} kept", 64) as at:
            out = made(at, given=b"o" * 4096)
            os.link(out, f"{at}/other")
            answer = b"n" * 33000
            seen = self.ran(out, answer)
            self.says("two names, room for one", seen, f"ENOSPC kept in {out}.0.part", holds(f"{out}.0.part", answer))

    def test_rights(self) -> None:
        """What an ACL, a mode or an owner didn't let somebody do, they may not do afterwards."""
        at = self.room("rights")
        out = made(at)
        try:
            os.setxattr(out, ACL, listed(6, 6, 0, 6, 0))
            os.setxattr(out, "user.x", b"1")
        except OSError:
            return
        for what, one in (
            ("a named user", listed(6, 6, 0, 6, 0)),
            ("a mask", listed(6, 7, 6, 4, 4)),
            ("somebody kept out", listed(6, 0, 4, 4, 4)),
            ("a named group",
             acl((U, 6, NO_ONE), (G, 0, NO_ONE), (NAMED_GROUP, 6, 7), (MASK, 6, NO_ONE), (O, 0, NO_ONE))),
        ):
            out = made(at)
            os.setxattr(out, ACL, one)
            mode = mode_of(out)
            self.says(f"an ACL, {what}", self.ran(out), "done", acl_of(out) == one, mode_of(out) == mode,
                      holds(out, NEW))
            os.remove(out)
        out = made(at)
        values = {"user.empty": b"", "user.bytes": bytes(range(256)), "user.\xe9": b"x"}
        for name, value in values.items():
            os.setxattr(out, name, value)
        seen = self.ran(out)
        self.says("attributes", seen, "done", {name: os.getxattr(out, name) for name in os.listxattr(out)} == values)
        os.remove(out)
        # A folder that gives what is new in it an ACL: to a new file as to any, and not to one that has none.
        os.setxattr(at, DEFAULT, listed(7, 7, 0, 7, 0))
        out = made(at)
        os.removexattr(out, ACL)
        os.chmod(out, 0o660)
        self.says("a folder's ACL isn't OUT's", self.ran(out), "done", acl_of(out) is None, mode_of(out) == 0o660,
                  holds(out, NEW))
        for default in (
            listed(7, 7, 0, 7, 0), listed(7, 4, 5, 6, 4), acl((U, 7, NO_ONE), (G, 5, NO_ONE), (O, 1, NO_ONE))
        ):
            os.setxattr(at, DEFAULT, default)
            put(at, "as any", b"")
            seen = self.ran(f"{at}/new", mask=0o077)
            is_so = mode_of(f"{at}/new") == mode_of(f"{at}/as any") and acl_of(f"{at}/new") == acl_of(f"{at}/as any")
            self.says("a new file by a folder's ACL", seen, "done", is_so, holds(f"{at}/new", NEW))
            os.remove(f"{at}/new")
            os.remove(f"{at}/as any")

    def test_users(self) -> None:
        """Other users' files and folders, as somebody who isn't root."""
        if not is_root():
            return
        at = self.room("users")
        os.chmod(at, 0o777)
        for above in (os.path.dirname(at),):
            os.chmod(above, os.stat(above).st_mode | 0o011)
        out = made(at, mode=0o640, user=NOBODY, group=SOMEBODY)
        seen, there = self.ran(out), os.stat(out)
        self.says("root keeps the owner", seen, "done",
                  (there.st_uid, there.st_gid, mode_of(out)) == (NOBODY, SOMEBODY, 0o640))
        for mode in (0o444, 0o400, 0o000, 0o555):
            for user in (NOBODY, 0):
                out = made(at, mode=mode, user=user)
                before = os.stat(out).st_ino
                seen = self.ran(out, user=NOBODY)
                self.says(f"mode {mode:o} of {user}", seen, "EACCES", os.stat(out).st_ino == before, holds(out, OLD),
                          only(at, "out"))
        out = made(at, mode=0o200, user=NOBODY)
        self.says("mode 200", self.ran(out, user=NOBODY), "done", mode_of(out) == 0o200, holds(out, NEW))
        for mode, want in ((0o666, 0o666), (0o662, 0o622), (0o6777, 0o777), (0o2776, 0o766), (0o606, 0o606)):
            out = made(at, mode=mode, user=0, group=SOMEBODY)
            seen, there = self.ran(out, user=NOBODY), os.stat(out)
            owner = (0, SOMEBODY, f"{mode & 0o777:o}") if self.keeps_owner else (NOBODY, NOBODY, f"{want:o}")
            is_so = (there.st_uid, there.st_gid, f"{mode_of(out):o}") == owner and only(at, "out") is True
            self.says(f"another's file of mode {mode:o}", seen, "done", is_so or f"{mode_of(out):o}", holds(out, NEW))
            os.remove(out)
        out = made(at, mode=0o660, user=0, group=SOMEBODY)
        seen, there = self.ran(out, user=NOBODY, groups=[SOMEBODY]), os.stat(out)
        self.says("a file of one's group", seen, "done", (there.st_gid, mode_of(out)) == (SOMEBODY, 0o660),
                  holds(out, NEW))
        os.remove(out)
        out = made(at, mode=0o600, user=0, group=SOMEBODY)
        with contextlib.suppress(OSError):
            os.setxattr(out, ACL, listed(6, 6, 6, 6, 0))
            seen, there = self.ran(out, user=NOBODY), os.stat(out)
            entries = dict((tag, may) for tag, may, _ in struct.iter_unpack("<HHI", (acl_of(out) or b"\0" * 4)[4:]))
            rights = (SOMEBODY, 6) if self.keeps_owner else (NOBODY, 0)
            is_so = (there.st_gid, entries.get(G)) == rights
            self.says("another's file by an ACL", seen, "done", is_so, holds(out, NEW))
        os.remove(out)
        folder = self.room("users/sticky")
        os.chmod(folder, 0o1777)
        out = made(folder, mode=0o666, user=SOMEBODY)
        seen = self.ran(out, user=NOBODY)
        self.says(
            "a sticky folder", seen, "done", os.stat(out).st_uid == SOMEBODY, holds(out, NEW), only(folder, "out")
        )
        seen = self.ran(out, NEW * 9, user=NOBODY, most=len(NEW) + 500)
        self.says("a sticky folder, no room", seen, "EFBIG", holds(out, NEW), only(folder, "out"))
        folder = self.room("users/closed")
        out = made(folder, mode=0o666)
        os.chmod(folder, 0o755)
        seen = self.ran(out, user=NOBODY)
        self.says("a closed folder", seen, "done", os.stat(out).st_uid == 0, holds(out, NEW), only(folder, "out"))
        for most in (len(NEW) - 7, 7, len(NEW) + 500):
            seen = self.ran(out, NEW * 2, user=NOBODY, most=most)
            self.says(f"a closed folder, {most} bytes fit", seen, "EFBIG", holds(out, NEW), only(folder, "out"))
        self.says("a closed folder, shorter", self.ran(out, b"short", user=NOBODY), "done", holds(out, b"short"))
        self.says("a closed folder, a new file", self.ran(f"{folder}/new", user=NOBODY), "EACCES", only(folder, "out"))
        os.chmod(folder, 0o333)
        self.says("a folder that isn't read", self.ran(out, user=NOBODY), "done", holds(out, NEW), only(folder, "out"))
        os.chmod(folder, 0o666)
        self.says("a folder that isn't entered", self.ran(out, user=NOBODY), "EACCES", holds(out, NEW),
                  only(folder, "out"))

    def test_shut(self) -> None:
        """Files and folders that the system keeps from changing, and mount points."""
        at = self.room("shut")
        out = made(at)
        try:
            with shut_by("i", out):
                self.says("an immutable file", self.ran(out), "EPERM", holds(out, OLD), only(at, "out"))
            with shut_by("a", out):
                self.says("a file that only grows", self.ran(out), "EPERM", holds(out, OLD), only(at, "out"))
        except (OSError, subprocess.CalledProcessError):
            return
        with shut_by("i", at):
            self.says("an immutable folder", self.ran(out), "done", holds(out, NEW), only(at, "out"))
            self.says("an immutable folder, no room", self.ran(out, OLD * 9, most=70000), "EFBIG", holds(out, NEW),
                      only(at, "out"))
        seen: str | tuple[str, str]
        with shut_by("a", at):
            seen = self.ran(out, OLD), self.ran(f"{at}/new", NEW)
            self.says("a folder that only grows", seen, ("done", "done"), holds(out, OLD), holds(f"{at}/new", NEW))
        at = self.room("mounted")
        out, real = made(at, given=b""), made(at, "real", mode=0o640)
        with mounted(out, "--bind", real):
            seen = self.ran(out)
            self.says("a mount point", seen, "done", holds(real, NEW), mode_of(real) == 0o640, only(at, "out", "real"))
            seen = self.ran(out, OLD * 9, most=len(NEW) + 100)
            self.says("a mount point, no room", seen, "EFBIG", holds(real, NEW), only(at, "out", "real"))
        os.mkdir(f"{at}/ro")
        put(at, "ro/out", OLD)
        with mounted(f"{at}/ro", "--bind", f"{at}/ro"):
            subprocess.run(["mount", "-o", "remount,bind,ro", f"{at}/ro"], check=True, capture_output=True)
            self.says("read only", (self.ran(f"{at}/ro/out"), self.ran(f"{at}/ro/new")), ("EROFS", "EROFS"),
                      only(f"{at}/ro", "out"))
