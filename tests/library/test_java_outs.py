"""How the binding for Java brings answers to files: by the tests of the module for Python, which has the same rules, in
one process; with its calls of the C library failed one by one; and with those of the system failed, or ended by a
signal, by strace."""
import concurrent.futures
import contextlib
import errno
import os
import re
import resource
import subprocess
import threading
from collections.abc import Sequence
from typing import Any
from urllib.parse import quote, unquote

from python.tests import output_files, write_cases
from python.tests.cli import support
from ..base import LIMIT
from ..matchers import EMPTY, Above
from .java import QUICK, Java, JavaTest, made

NAMES = {os.strerror(number): name for number, name in errno.errorcode.items()}
# The calls by which an answer is brought. Each is failed by the first of these errors, and some by more.
CALLS = ("open", "close", "statx", "readlink", "rename", "unlink", "write", "pread", "lseek", "ftruncate", "fsync",
         "fchown", "fchmod", "flistxattr", "fgetxattr", "fsetxattr", "fremovexattr")
ERRORS = ("ENOSPC", "EIO", "EACCES", "EPERM")
MORE = {"open": (*ERRORS, "EEXIST", "ENOENT", "EROFS"), "rename": (*ERRORS, "EBUSY"), "write": (*ERRORS, "EINTR"),
        "fsync": (*ERRORS, "EINTR"), "fchown": ERRORS, "fchmod": ERRORS}
# Access control lists, and what the owner, the group and the others may do with a file that can't have them: whom a
# list names may do no more as one of the group or the others, and the mask holds for all that it names and the group.
LISTS = ((output_files.listed(6, 6, 6, 4, 4), 0o644), (output_files.listed(6, 7, 6, 4, 6), 0o644),
         (output_files.listed(6, 0, 4, 4, 4), 0o600), (output_files.listed(6, 4, 6, 6, 6), 0o644),
         (output_files.listed(6, 6, 0, 6, 0), 0o600))
# How bringing ends where some of these failed.
TOLD = {(call, error): error for call in ("write", "fsync", "rename") for error in ("ENOSPC", "EIO")}
TOLD |= {("close", "ENOSPC"): "ENOSPC", ("write", "EINTR"): "done", ("fsync", "EINTR"): "done"}
# Each call, but when it was asked to fail for this thread; a write fails when half of it is done.
FAILING = """#define _GNU_SOURCE
#include <dlfcn.h>
#include <errno.h>
#include <string.h>
#include <sys/types.h>
static __thread char failing[16];
static __thread int left, error;
void fail_call(const char *name, int nth, int number) { strncpy(failing, name, 15), left = nth, error = number; }
int has_failed() { return *failing = 0, left <= 0; }
static int fails(const char *name) {
  if (strcmp(name, failing) || --left) return 0;
  return errno = error, 1;
}
#define CALL(type, name, given, passed) type name given { \\
  type (*call) given = (type (*) given)dlsym(RTLD_NEXT, #name); return fails(#name) ? -1 : call passed; }
CALL(int, open, (const char *path, int flags, mode_t mode), (path, flags, mode))
CALL(int, close, (int file), (file))
CALL(int, statx, (int at, const char *path, int flags, unsigned mask, void *room), (at, path, flags, mask, room))
CALL(ssize_t, readlink, (const char *path, char *room, size_t length), (path, room, length))
CALL(int, rename, (const char *from, const char *to), (from, to))
CALL(int, unlink, (const char *path), (path))
CALL(ssize_t, pread, (int file, void *room, size_t length, off_t at), (file, room, length, at))
CALL(off_t, lseek, (int file, off_t at, int whence), (file, at, whence))
CALL(int, ftruncate, (int file, off_t length), (file, length))
CALL(int, fsync, (int file), (file))
CALL(int, fchown, (int file, uid_t user, gid_t group), (file, user, group))
CALL(int, fchmod, (int file, mode_t mode), (file, mode))
CALL(ssize_t, flistxattr, (int file, char *room, size_t length), (file, room, length))
CALL(ssize_t, fgetxattr, (int file, const char *name, void *room, size_t length), (file, name, room, length))
CALL(int, fsetxattr, (int file, const char *name, const void *value, size_t length, int flags),
  (file, name, value, length, flags))
CALL(int, fremovexattr, (int file, const char *name), (file, name))
ssize_t write(int file, const void *bytes, size_t length) {
  ssize_t (*call)(int, const void *, size_t) = (ssize_t (*)(int, const void *, size_t))dlsym(RTLD_NEXT, "write");
  if (!fails("write")) return call(file, bytes, length);
  if (error != EINTR) call(file, bytes, length / 2);
  return errno = error, -1;
}
"""
# What strace does with calls on the part: fails them, or ends the process.
INJECTED = (*(f"{call}:error={error}" for call in ("openat", "fchown", "fchmod", "write") for error in ERRORS),
            *(f"{call}:error={error}" for call in ("fsync", "rename") for error in ERRORS), "write:retval=0",
            *(f"{call}:signal=SIGKILL" for call in ("write", "fsync", "rename")),
            *(f"{call}:signal={name}" for call in ("openat", "write") for name in ("SIGTERM", "SIGINT", "SIGHUP")))


class Process:
    """Outs of bindings/java/test: one process that brings answers to files, as output_files.py of the tests of the module for
    Python asks."""

    def __init__(self, words: list[str], env: dict[str, str]) -> None:
        self.process = subprocess.Popen(words, stdin=subprocess.PIPE, stdout=subprocess.PIPE, env=env)
        self.timer = threading.Timer(5 * LIMIT, self.process.kill)
        self.timer.start()
        self.given = os.path.join(support.scratch(), "given to Java")

    def __enter__(self) -> "Process":
        return self

    def __exit__(self, *_: object) -> None:
        assert self.process.stdin is not None and self.process.stdout is not None  # (both are pipes)
        self.process.stdin.close()
        self.process.wait()
        self.process.stdout.close()
        self.timer.cancel()

    def ran(
        self, out: str | bytes | os.PathLike[str], given: bytes = output_files.NEW, user: int = 0,
        groups: Sequence[int] = (), mask: int = 0o022, most: int | None = None, at: str | None = None, fault: str = ""
    ) -> str:
        """How bringing it ends: "done", or the name of an error; with a zero after it if the fault was met."""
        assert self.process.stdin is not None and self.process.stdout is not None  # (both are pipes)
        with open(self.given, "wb") as file:
            file.write(given)
        paths = [quote(os.fsencode(path)) for path in (at or "/", out, self.given)]
        cells = [str(user), " ".join(map(str, groups)), f"{mask:o}", *paths, fault]
        _, most_at_all = resource.prlimit(self.process.pid, resource.RLIMIT_FSIZE)
        resource.prlimit(self.process.pid, resource.RLIMIT_FSIZE, (most or most_at_all, most_at_all))
        self.process.stdin.write("\t".join(cells).encode() + b"\n")
        self.process.stdin.flush()
        line = self.process.stdout.readline().decode("ascii").rstrip("\n")
        why, part, met = unquote(line.replace("+", " ")).split("\0")
        return NAMES.get(why.split(": the whole")[0], why) + (part and f" kept in {part}") + (met and "\0")


def words_of(java: Java, *more: str) -> list[str]:
    return ["java", *QUICK, f"-Ddexasm.library={java.library}/libdexasm.so", "-cp", java.path(), *more]


class Traced(write_cases.Room):
    """A folder in which OUT stands, and a process of its own that writes it under strace."""

    def run_java(self, java: Java, injected: str | None = None) -> tuple[int, list[str], str]:
        log, part = f"{self.home}/log", f"{self.real}.0.part"
        words = ["strace", "-qq", "-f", "-s", "0", "-o", log, "-P", part, "-P", "/it begins"]
        words += ["-e", f"trace={write_cases.CALLS},statx"]
        if injected and "signal" in injected:
            # (what comes after the call waits, so that a process that ends by the signal would end before it)
            slow = ",".join(call for call in ("fsync", "rename") if not injected.startswith(call))
            words += ["-e", f"inject={injected}", "-e", f"inject={slow}:delay_enter=300000"]
        else:
            words += ["--seccomp-bpf", *(["-e", f"inject={injected}"] if injected else [])]  # (no signal comes by that)
        words += words_of(java, "dexasm.Outs", self.out, f"{self.home}/given")
        done = subprocess.run(words, stdin=subprocess.DEVNULL, capture_output=True, timeout=5 * LIMIT, env=java.env)
        calls = support.get(log).decode("utf8", "replace").splitlines()
        return done.returncode if done.returncode < 128 else 128 - done.returncode, calls, done.stderr.decode("latin1")


class JavaFaults(JavaTest):
    def setUp(self) -> None:
        super().setUp()
        os.chmod(support.scratch(), 0o711)  # (for the cases of another user)

    def test_faults(self) -> None:
        """Each call of the C library, failed in turn: OUT is what it was or the answer, or that stands whole beside."""
        failing = self.java.compiled_c("failing.so", FAILING)
        if failing is None:
            self.skipTest("no C compiler here: no calls are failed")
        with Process(words_of(self.java, "dexasm.Outs"), self.java.env | {"LD_PRELOAD": failing}) as process:
            self.check_lists(process)
            for name, setting in write_cases.SETTINGS.items():
                if os.geteuid() and (setting.user or name in ("a mount point", "an immutable folder")):
                    continue
                try:
                    write_cases.Room(name).end()
                except (OSError, subprocess.CalledProcessError):
                    continue  # (none can be set up here)
                count = sum(self.fail_each(process, name, call) for call in CALLS)
                self.check_equal(f"Java: OUT, {name}, calls are failed", count, Above(10))

    def check_lists(self, process: Process) -> None:
        """An access control list that can't be given."""
        out = output_files.made(support.room("lists"))
        for given, mode in LISTS:
            try:
                os.setxattr(out, output_files.ACL, given)
            except OSError:
                return
            seen = process.ran(out, fault=f"fsetxattr 1 {errno.EOPNOTSUPP}")
            self.check_equal(f"Java: OUT, a list that can't be given, {mode:o}",
                             (seen, output_files.acl_of(out), output_files.mode_of(out)), ("done\0", None, mode))

    def fail_each(self, process: Process, name: str, call: str) -> int:
        """How many runs have met what was to fail."""
        count = 0
        for error in MORE.get(call, ERRORS[:1]):
            for nth in range(1, 100):
                room = write_cases.Room(name)
                try:
                    fault = f"{call} {nth} {getattr(errno, error)}"
                    ended, *is_met = process.ran(room.out, mask=0, user=room.setting.user, fault=fault).split("\0")
                    wrong = room.wrong(0 if ended == "done" else 3, f"{call}:{error}", "")
                    if is_met and (call, error) in TOLD:
                        wrong = wrong or (None if ended.split()[0] == TOLD[call, error] else "it isn't told so")
                finally:
                    room.end()
                self.check_equal(f"Java: OUT, {name}, {call} {nth} ends with {error}", wrong, None)
                if not is_met:
                    break
                count += 1
        return count

    def traced(self, injected: str | None = None) -> tuple[str | None, list[str]]:
        """What is wrong with what a run leaves, and its calls."""
        room = Traced("one name")
        try:
            status, calls, told = room.run_java(self.java, injected)
            signal = re.search("SIG[A-Z]+", injected or "")
            is_met = injected is None or any((signal[0] if signal else "INJECTED") in call for call in calls)
            return room.wrong(status, injected, told) or (None if is_met else "nothing was injected"), calls
        except subprocess.TimeoutExpired:
            return "late", []
        finally:
            room.end()

    def test_traced(self) -> None:
        if not support.can_trace():
            self.skipTest("no strace here, or it may not trace")
        wrong, calls = self.traced()
        order = write_cases.order_wrong("one name", calls) if wrong is None else None
        self.check_equal("Java: OUT, the order of its calls", (wrong, order), (EMPTY, None))
        with concurrent.futures.ThreadPoolExecutor(os.cpu_count() or 1) as pool:
            for injected, (seen, _) in zip(INJECTED, pool.map(self.traced, INJECTED)):
                self.check_equal(f"Java: OUT, {injected}", seen, None)


class JavaOut(output_files.OutTest):
    """The tests of the module for Python, of the binding for Java."""

    by = "Java: OUT"
    keeps_owner = False  # (it replaces such a file, and gives no right that the old one did not)

    def setUp(self) -> None:
        super().setUp()
        java = made()
        os.chmod(support.scratch(), 0o711)
        stack = contextlib.ExitStack()
        self.process = stack.enter_context(Process(words_of(java, "dexasm.Outs"), java.env))
        self.addCleanup(stack.close)

    def ran(self, *words: Any, **options: Any) -> str:
        return self.process.ran(*words, **options)
