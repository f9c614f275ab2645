"""Writes a file OUT as the command dexasm does, and keeps its owner, mode and access control list (ACL).

At each moment OUT holds what it held or all of the output, or all of the output is in a file beside it:

- An OUT that is a regular file with one name, or does not exist, is replaced. The output is written to OUT.0.part
  beside it (OUT.1.part if that name is taken) and renamed over OUT when it is complete; if OUT existed, it is on the
  disk before that. The part is private until it has the owner, the mode, the ACL and the extended attributes of OUT. A
  new file has the mode and the ACL that the system gives new files in that folder.
- A link stays, and its target is written; a link to nothing leads to a new file.
- An OUT that may not be written stays as it is, and the call fails, also if its folder would let it be replaced.
- An OUT that can be written but not replaced by an equal one (one of several names, a mount point, another user's file)
  is written in place, once OUT.0.part is complete; so there has to be room for both. If writing fails, OUT.0.part
  stays: Kept names it.
- A device and a pipe are written as they are, and so is a file in a folder that takes no new file. In such a folder the
  old content comes back if the output can't all be written, but not if the run is killed meanwhile.
- After any other failure OUT is as it was and nothing is beside it. Each failure is an OSError.
- SIGINT, SIGTERM and SIGHUP wait until a file is written; only SIGKILL can leave a part of the output in OUT.0.part. A
  file that grows beyond the limit of its size (SIGXFSZ) is a write that fails.
- Nothing is written through a name that another user could have put beside OUT: the part is new, or the call fails.

Other processes that write OUT at the same time aren't covered. (The helpers use what is below for folders too, by
`blocked_signals`, `new_file`, `fill` and `copy_metadata`.)
"""
from __future__ import annotations

import contextlib
import errno
import os
import signal
import stat
from collections.abc import Iterator

__all__ = ["Kept", "deliver"]

Path = str | bytes | os.PathLike[str] | os.PathLike[bytes]

TURNS = 100  # how often OUT is opened, if it is another file each time
PARTS = 1 << 32  # how many names beside OUT are tried
PRIVATE, PUBLIC = 0o600, 0o666  # modes of new files: PUBLIC as far as the umask or the folder's ACL lets
MOST_KEPT = 1 << 28  # bytes that are put back if a file can only be written in place
# How a new file is refused if the folder takes none of this name.
CLOSED = (errno.EACCES, errno.EPERM, errno.EROFS, errno.ENAMETOOLONG)
# How a rename is refused if OUT keeps its place: a mount point, another user's file in a sticky folder.
FIXED = (errno.EBUSY, errno.EPERM, errno.EACCES)
# How the system says that a file has no such attribute.
WITHOUT = (errno.ENODATA, errno.EOPNOTSUPP, errno.ENOSYS)
ENDING = frozenset((signal.SIGINT, signal.SIGTERM, signal.SIGHUP))
ACL = "system.posix_acl_access"
# What isn't copied: the ACL, which is given apart; a program's rights, which any write takes away; sums of the content.
APART = (ACL, "security.capability", "security.evm", "security.ima")


class Kept(OSError):
    """OUT didn't take the answer, which stands whole in the file `part`. OUT may hold a part of it."""

    def __init__(self, error: OSError, part: bytes) -> None:
        super().__init__(error.errno, error.strerror)
        self.part = os.fsdecode(part)

    def __str__(self) -> str:
        return f"{super().__str__()}: the whole answer is in {self.part!r}"


def deliver(path: Path, answer: bytes, *, through: bool = True) -> None:
    """Write the answer to the file, as above. With through=False a link, a file of several names, a device and a pipe
    are refused with ELOOP, EMLINK or ENXIO and stay as they are.
    """
    place, file = resolve(os.fsencode(path), through)
    if file is None:
        with blocked_signals():
            write_at(place, None, answer)
        return
    is_replaced = False
    try:
        if stat.S_ISREG(os.fstat(file).st_mode):
            with blocked_signals():
                is_replaced = write_at(place, file, answer)
        else:
            write_all(file, answer)
    finally:
        # (where the old file fails to be closed that another one has replaced, nothing is lost of the answer)
        with contextlib.suppress(*[OSError] * is_replaced):
            os.close(file)


@contextlib.contextmanager
def blocked_signals() -> Iterator[None]:
    """Signals that end a process wait meanwhile, and a limit on file sizes ends none, in the calling thread: a program
    with more threads blocks these signals in the others itself.
    """
    before = signal.pthread_sigmask(signal.SIG_BLOCK, ())
    try:
        signal.pthread_sigmask(signal.SIG_BLOCK, ENDING | {signal.SIGXFSZ})
        yield
    finally:
        if signal.SIGXFSZ not in before:
            # (the write that it is about has failed, and was told)
            while signal.sigtimedwait((signal.SIGXFSZ,), 0) is not None:
                pass
        signal.pthread_sigmask(signal.SIG_SETMASK, before)


def resolve(out: bytes, through: bool) -> tuple[bytes, int | None]:
    """The path of OUT without a link at its end (empty if there is none), and OUT, open for writing; None for nothing."""
    for _ in range(TURNS):
        is_link, there = stat_target(out)
        if not through:
            require_plain_file(is_link, there)
        if there is None:
            place = os.path.realpath(out) if is_link else out
            if is_absent(place):
                return place, None
            continue
        try:
            file = open_target(out, is_link, there)
        except FileNotFoundError:
            continue
        try:
            if os.path.samestat(os.fstat(file), there):
                return real_place(out, is_link, there), file
        except BaseException:
            os.close(file)
            raise
        os.close(file)
    raise OSError(errno.EBUSY, os.strerror(errno.EBUSY))


def stat_target(out: bytes) -> tuple[bool, os.stat_result | None]:
    """Whether it is a link; and the status of what it is or refers to, or None for nothing.

    (The system follows the link, so one that it doesn't follow for safety, as in a sticky folder, is an error.)
    """
    try:
        itself = os.lstat(out)
    except FileNotFoundError:
        return False, None
    if not stat.S_ISLNK(itself.st_mode):
        return False, itself
    try:
        return True, os.stat(out)
    except FileNotFoundError:
        return True, None


def is_absent(place: bytes) -> bool:
    """Whether nothing is there, not even a link. (One that can't be read is the end of the path that Python makes.)"""
    try:
        os.lstat(place)
    except FileNotFoundError:
        return True
    return False


def require_plain_file(is_link: bool, there: os.stat_result | None) -> None:
    """An error for all but a file of one name, or none."""
    number = 0
    if is_link:
        number = errno.ELOOP
    elif there is not None and not stat.S_ISREG(there.st_mode):
        number = errno.ENXIO
    elif there is not None and there.st_nlink > 1:
        number = errno.EMLINK
    if number:
        raise OSError(number, os.strerror(number))


def open_target(out: bytes, is_link: bool, there: os.stat_result) -> int:
    """OUT for writing, a regular file for reading too if that is allowed. (A pipe that is open for both never waits.)"""
    flags = os.O_NOCTTY | (0 if is_link else os.O_NOFOLLOW)
    if stat.S_ISREG(there.st_mode):
        with contextlib.suppress(PermissionError):
            return os.open(out, os.O_RDWR | flags)
    return os.open(out, os.O_WRONLY | flags)


def real_place(out: bytes, is_link: bool, there: os.stat_result) -> bytes:
    """The path of what is there; empty if there is none, as of a file that was removed and is open: /proc/self/fd/1."""
    if not is_link:
        return out
    try:
        place = os.path.realpath(out, strict=True)
        return place if os.path.samestat(os.lstat(place), there) else b""
    except FileNotFoundError:
        return b""


def write_at(place: bytes, file: int | None, output: bytes) -> bool:
    """Write to that place, where this file is or none; return whether another file is there now."""
    is_shared = file is not None and os.fstat(file).st_nlink > 1
    beside = new_part(place, PUBLIC if file is None else PRIVATE) if place else None
    if beside is None:
        write_in_place(place, file, output)
        return False
    part, new = beside
    with removed_on_failure(part):
        is_equal = fill(new, file, output, is_kept=file is not None)
        if is_equal and not is_shared and try_rename(part, place):
            return True
    copy_into(part, place, file, output)
    return False


def new_part(place: bytes, mode: int) -> tuple[bytes, int] | None:
    """A new file beside, and its name; None if the folder takes none of this name."""
    for number in range(PARTS):
        part = b"%b.%d.part" % (place, number)
        try:
            return part, new_file(part, mode)
        except FileExistsError:
            continue
        except OSError as error:
            if error.errno in CLOSED:
                return None
            raise
    raise FileExistsError(errno.EEXIST, os.strerror(errno.EEXIST))


def new_file(path: bytes | str, mode: int = PRIVATE, folder: int | None = None) -> int:
    """A file where nothing was, not even a link."""
    return os.open(path, os.O_WRONLY | os.O_CREAT | os.O_EXCL | os.O_NOFOLLOW, mode, dir_fd=folder)


@contextlib.contextmanager
def removed_on_failure(path: bytes) -> Iterator[None]:
    try:
        yield
    except BaseException:
        with contextlib.suppress(OSError):
            os.unlink(path)
        raise


def fill(new: int, like: int | None, output: bytes, is_kept: bool = False) -> bool:
    """Write all of the output to a new file, to the disk if it is to be kept, and close it. Return whether it has the
    owner, the mode and the ACL of the file `like`, if there is one.
    """
    try:
        is_equal = like is None or copy_metadata(new, like)
        write_all(new, output)
        if is_kept:
            os.fsync(new)
        return is_equal
    finally:
        os.close(new)


def write_all(file: int, output: bytes) -> None:
    """All the bytes, however few the system takes at a time."""
    left = memoryview(output)
    while left:
        count = os.write(file, left)
        if count == 0:
            raise OSError(errno.EIO, os.strerror(errno.EIO))
        left = left[count:]


def try_rename(part: bytes, place: bytes) -> bool:
    """Whether the part has taken OUT's place; it hasn't where OUT keeps it."""
    try:
        os.rename(part, place)
    except OSError as error:
        if error.errno in FIXED:
            return False
        raise
    return True


def copy_into(part: bytes, place: bytes, file: int | None, output: bytes) -> None:
    """The bytes of the part in OUT. Where they don't fit there, the part stays."""
    try:
        if file is None:
            put_new(place, output)
        else:
            overwrite(file, output)
            os.fsync(file)
    except OSError as error:
        raise Kept(error, part) from error
    with contextlib.suppress(OSError):
        os.unlink(part)


def write_in_place(place: bytes, file: int | None, output: bytes) -> None:
    """The answer in OUT itself, with nothing beside it. Where it doesn't fit, what OUT held comes back."""
    if file is None:
        put_new(place, output)
        return
    old = read_all(file)
    try:
        overwrite(file, output)
    except BaseException:
        if old is not None:
            restore(file, old)
        raise


def put_new(place: bytes, output: bytes) -> None:
    new = new_file(place, PUBLIC)
    with removed_on_failure(place):
        fill(new, None, output)


def overwrite(file: int, output: bytes) -> None:
    # (it isn't cut before it is written, so that its room is still there for what comes back)
    write_all(file, output)
    os.ftruncate(file, len(output))


def restore(file: int, old: bytes) -> None:
    # (where a limit on the size of files stops it, what stands behind that limit wasn't written before either)
    with contextlib.suppress(OSError):
        os.lseek(file, 0, os.SEEK_SET)
        write_all(file, old)
    with contextlib.suppress(OSError):
        os.ftruncate(file, len(old))


def read_all(file: int) -> bytes | None:
    """What an open file holds; None where it may not be read, or is too much to be kept."""
    if os.fstat(file).st_size > MOST_KEPT:
        return None
    held_bytes = bytearray()
    try:
        while piece := os.pread(file, 1 << 20, len(held_bytes)):
            held_bytes += piece
    except OSError:
        return None
    return bytes(held_bytes)


def copy_metadata(new: int, like: int) -> bool:
    """Give an open file or folder, which is private, the owner, the ACL and the mode of another one, and the attributes
    that the system lets. Return whether it has the former; if not, it is as private as before or lets the same.
    """
    there = os.fstat(like)
    try:
        acl, now = attribute(like, ACL), os.fstat(new)
        if (now.st_uid, now.st_gid) != (there.st_uid, there.st_gid):
            os.fchown(new, there.st_uid, there.st_gid)
        if acl is not None:
            os.setxattr(new, ACL, acl)
        elif attribute(new, ACL) is not None:
            os.removexattr(new, ACL)
        copy_attributes(new, like)
        if os.fstat(new).st_mode != there.st_mode:
            os.fchmod(new, stat.S_IMODE(there.st_mode))
        now = os.fstat(new)
        owner_and_mode = now.st_uid, now.st_gid, now.st_mode
        return owner_and_mode == (there.st_uid, there.st_gid, there.st_mode) and attribute(new, ACL) == acl
    except OSError:
        return False


def copy_attributes(new: int, like: int) -> None:
    """As far as the system lets."""
    with contextlib.suppress(OSError):
        for name in os.listxattr(like):
            if name not in APART:
                with contextlib.suppress(OSError):
                    os.setxattr(new, name, os.getxattr(like, name))


def attribute(file: int, name: str) -> bytes | None:
    try:
        return os.getxattr(file, name)
    except OSError as error:
        if error.errno in WITHOUT:
            return None
        raise
