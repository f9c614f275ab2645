"""dexasm/deliver.py, by which all Python around the command writes a file: whatever stands at OUT, in whatever folder,
OUT is as it was or has the whole answer, nobody may do more with it than before, and nothing else is touched.

test_deliver_calls.py fails its calls one by one.
"""
import contextlib
import os
import signal
import socket
import stat
import threading
import time
import unittest.mock
from typing import Any

from dexasm import deliver
from . import output_files
from .output_files import LATE, NEW, OLD, holds, loaded, made, mode_of, only, outcome
from .cli.support import get, put, seen_in


def wait_for(child: int) -> int | str:
    """How it ended, within a time."""
    for _ in range(LATE * 20):
        found, status = os.waitpid(child, os.WNOHANG)
        if found:
            return os.waitstatus_to_exitcode(status)
        time.sleep(0.05)
    os.kill(child, signal.SIGKILL)
    os.waitpid(child, 0)
    return "late"


def change(at: str) -> None:
    """OUT is a link, a file or a pipe, and another one each time."""
    for turn in range(1 << 30):
        with contextlib.suppress(OSError):
            if turn % 3 == 0:
                os.symlink("precious", f"{at}/next")
            elif turn % 3 == 1:
                put(at, "next", OLD)
            else:
                os.mkfifo(f"{at}/next")
            os.replace(f"{at}/next", f"{at}/out")


class Deliver(output_files.OutTest):
    def test_links(self) -> None:
        """A link stays and what it leads to is written; what others put beside OUT isn't touched."""
        at = self.room("links")
        made(at, "d/real", mode=0o640)
        os.symlink("d/real", f"{at}/one")
        os.symlink("one", f"{at}/out")
        seen = self.ran("out", at=at)
        links = os.readlink(f"{at}/out"), os.readlink(f"{at}/one")
        self.says("a link to a link", seen, "done", links == ("one", "d/real"), holds(f"{at}/d/real", NEW),
                  only(f"{at}/d", "real"))
        self.says("its mode", mode_of(f"{at}/d/real"), 0o640)
        os.symlink("d/none", f"{at}/nothing")
        seen = self.ran("nothing", at=at, most=20)
        self.says("a link to nothing, a write that fails", seen, "EFBIG", os.path.islink(f"{at}/nothing"),
                  only(f"{at}/d", "real"))
        seen = self.ran("nothing", at=at)
        is_so = os.path.islink(f"{at}/nothing") and holds(f"{at}/d/none", NEW)
        self.says("a link to nothing", seen, "done", is_so, only(f"{at}/d", "real", "none"))
        os.symlink("none/none", f"{at}/far")
        self.says("a link to nothing in no folder", self.ran("far", at=at), "ENOENT", os.path.islink(f"{at}/far"))
        os.symlink("loop", f"{at}/loop")
        self.says("a link to itself", self.ran("loop", at=at), "ELOOP", os.path.islink(f"{at}/loop"))
        os.symlink("d", f"{at}/to folder")
        for out in ("d", "to folder", ".", "d/", "to folder/"):
            self.says(f"a folder, {out}", self.ran(out, at=at), "EISDIR", only(f"{at}/d", "real", "none"))
        self.says("a file as a folder", self.ran("d/real/", at=at) in ("ENOTDIR", "ENOENT"), True,
                  holds(f"{at}/d/real", NEW))
        at = self.room("beside")
        out, precious = made(at), put(at, "precious", b"precious")
        os.symlink("precious", f"{at}/out.0.part")
        os.symlink("nothing", f"{at}/out.1.part")
        os.mkdir(f"{at}/out.2.part")
        os.mkfifo(f"{at}/out.3.part")
        os.link(precious, f"{at}/out.4.part")
        for number in range(5, 150):
            os.symlink("precious", f"{at}/out.{number}.part")
        before = {name: seen for name, seen in seen_in(at).items() if name != "out"}
        for what in (OLD, None):
            inode = os.stat(out).st_ino if what else 0
            if not what:
                os.remove(out)
            seen = self.ran(out)
            after = seen_in(at)
            is_so = after.pop("out") == NEW and after == before and os.stat(out).st_ino != inode
            self.says("150 names beside are taken", seen, "done", is_so)
        for through, name, want in (
            (False, "out", "done"), (False, "out.0.part", "ELOOP"), (False, "out.1.part", "ELOOP"),
            (False, "out.3.part", "ENXIO"), (False, "out.4.part", "EMLINK"), (False, "new", "done")
        ):
            seen = self.ran(f"{at}/{name}", through=through)
            self.says(f"through nothing else, {name}", seen, want, holds(precious, b"precious"),
                      not os.path.exists(f"{at}/nothing"))

    def test_devices(self) -> None:
        """Devices, pipes and sockets are written as they are."""
        at = self.room("devices")
        self.says("a device", (self.ran("/dev/null"), self.ran("/dev/full")), ("done", "ENOSPC"),
                  stat.S_ISCHR(os.stat("/dev/null").st_mode))
        os.mkfifo(f"{at}/pipe")
        took: list[bytes] = []
        reader: Any  # (a thread, and then the number of a file)
        reader = threading.Thread(target=lambda: took.append(get(at, "pipe")))
        reader.start()
        seen = self.ran(f"{at}/pipe")
        reader.join(LATE)
        self.says("a pipe", seen, "done", took == [NEW], stat.S_ISFIFO(os.stat(f"{at}/pipe").st_mode), only(at, "pipe"))
        reader = os.open(f"{at}/pipe", os.O_RDONLY | os.O_NONBLOCK)
        threading.Timer(0.3, os.close, (reader,)).start()
        seen = self.ran(f"{at}/pipe", NEW * 90, before=lambda: os.close(reader))
        self.says("a pipe that is closed", seen, "EPIPE", only(at, "pipe"))
        with socket.socket(socket.AF_UNIX) as one:
            os.chdir(at)
            one.bind("socket")
        self.says("a socket", self.ran(f"{at}/socket"), "ENXIO", only(at, "pipe", "socket"))
        for what in ("pipe", "file", "removed"):
            reads, writes = os.pipe()
            with open(f"{at}/stdout", "w+b") as file:
                number = writes if what == "pipe" else file.fileno()
                if what == "removed":
                    os.remove(f"{at}/stdout")
                seen = self.ran("/proc/self/fd/1", b"to stdout", before=lambda: os.dup2(number, 1))
                os.close(writes)
                file.seek(0)
                given = os.read(reads, 99) if what == "pipe" else get(at, "stdout") if what == "file" else file.read()
                os.close(reads)
            self.says(f"/dev/stdout, a {what}", (seen, given), ("done", b"to stdout"))
        put(at, "stdout", b"")
        child = os.fork()
        if child == 0:
            try:
                loaded().deliver(f"{at}/pipe", NEW)
            finally:
                os._exit(0)
        time.sleep(0.3)
        os.kill(child, signal.SIGTERM)
        ended = wait_for(child)
        self.says("a pipe that nobody reads is left by a signal", ended, -signal.SIGTERM)

    def test_signals(self) -> None:
        """What a signal finds is whole; the mask and the handlers are afterwards what they were."""
        at = self.room("signals")
        out, module = made(at), loaded()
        came: list[bytes] = []
        before = signal.signal(signal.SIGTERM, lambda *_: came.append(get(out)))
        try:
            real_write = os.write

            def write(file: int, given: Any) -> int:
                os.kill(os.getpid(), signal.SIGTERM)
                return real_write(file, given[:1000])

            os.write = write
            try:
                module.deliver(out, NEW)
            finally:
                os.write = real_write
        finally:
            signal.signal(signal.SIGTERM, before)
        self.says("a signal that is handled comes afterwards", came, [NEW])
        self.says("the mask", signal.pthread_sigmask(signal.SIG_BLOCK, ()), set())
        with contextlib.suppress(OSError):
            module.deliver(f"{at}/none/out", NEW)
        self.says("the mask, after a failure", signal.pthread_sigmask(signal.SIG_BLOCK, ()), set())
        out = made(at, "limited")
        self.says("a limit that kills", self.ran(out, most=1000), "EFBIG", holds(out, OLD), only(at, "out", "limited"))

    def test_umask(self) -> None:
        """The umask isn't set to learn it: another thread would make a file with the wrong mode meanwhile."""
        at = self.room("umask")
        before = os.umask(0o027)
        self.addCleanup(os.umask, before)
        with unittest.mock.patch("os.umask", side_effect=AssertionError("set")):
            deliver.deliver(f"{at}/new", NEW)
        self.check_equal("a new file by the umask", mode_of(f"{at}/new"), 0o640)

    def test_changing(self) -> None:
        """Somebody changes OUT all the time: nothing is written through it, and nothing waits."""
        at = self.room("changing")
        precious = put(at, "precious", b"precious")
        child = os.fork()
        if child == 0:
            signal.alarm(LATE)
            change(at)
        seen, end = [], time.monotonic() + 2
        try:
            while time.monotonic() < end:
                seen.append(outcome(f"{at}/out", NEW, {"through": False}))
        finally:
            os.kill(child, signal.SIGKILL)
            os.waitpid(child, 0)
        left = [name for name in os.listdir(at) if name.endswith(".part")]
        is_so = len(seen) > 20 and {"done", "ELOOP"} <= set(seen) and holds(precious, b"precious")
        self.says("OUT that changes", set(seen) - {"done", "ELOOP", "ENXIO", "EBUSY"}, set(), is_so, not left)
