"""The module for Python over libdexasm: the buffers that the library is given, too small, of no bytes, with room after
the answer; names; 1,000 calls in a limited memory, and several threads."""
import ctypes
import os
import resource
import shutil
import sys
import threading
from collections.abc import Callable
from typing import Any

import dexasm
from dexasm import _native as calls
from tests import TOP
from tests.base import MEGABYTE
from tests.matchers import EMPTY, Begins, Has, Matches
from tests.library.calls import JOBS, LISTINGS, LibraryTest, run

ANSWERED, REFUSED, MEMORY, TOO_SMALL = 0, 1, 4, 5
CANARY = 0xA5


# No part is read before it is asked for, then that one alone, wherever one is by then; and no other name is there.
PARTS = """
import os, sys
import dexasm
try: dexasm.check(b"")
except dexasm.Refused as refused: refused.number, str(refused)
parts = lambda: sorted(name for name in sys.modules if name.startswith("dexasm."))
print(parts())
os.chdir("/")
dexasm.Type
print(parts())
print(set(dexasm.__all__) | {"code", "faultline"} <= set(dir(dexasm)), dexasm.code.Insn is dexasm.Insn)
print(getattr(dexasm, "Nothing", "no"))
"""


def pages() -> int:
    with open("/proc/self/statm", encoding="ascii") as file:
        return int(file.read().split()[0])


def raised(call: Callable[[bytes], object], given: bytes) -> str:
    try:
        return f"answered {call(given)!r:.30}"
    except dexasm.Refused as refused:
        return str(refused.args[0])
    except MemoryError:
        return "out of memory"


class Binding(LibraryTest):
    by_library: Any

    @classmethod
    def setUpClass(cls) -> None:
        super().setUpClass()
        cls.by_library = calls.Library(ctypes.CDLL(os.environ["DEXASM_LIBRARY"])).calls

    def call(self, job: str, given: bytes, capacity: int, room: int) -> tuple[int, bytes, int, tuple[int, int]]:
        """The call itself, into the front of a room that is full of one byte: status, room, length needed, fault."""
        out = (ctypes.c_char * room).from_buffer(bytearray([CANARY]) * room)
        needed, fault = ctypes.c_size_t(12345), calls.Fault(54321, 98765)
        align = (True,) if job == "align" else (False,) if job == "assemble" else ()
        name = "assemble" if job == "align" else job
        by = getattr(self.by_library, f"dexasm_{name}")
        status = by(given, len(given), *align, out, capacity, ctypes.byref(needed), ctypes.byref(fault))
        return status, bytes(out), needed.value, (fault.code, fault.place)

    def test_buffers(self) -> None:
        """Each capacity about the length of the answer: whole or not at all, and nothing after it."""
        for path in self.paths:
            with open(path, "rb") as file:
                given = file.read()
            for job in JOBS[1:]:
                status, made, said = self.command(job, path)
                room = len(made) + 64
                untouched = bytes([CANARY]) * room
                for capacity in sorted({0, 1, max(len(made) - 1, 0), len(made), len(made) + 1, len(made) + 32}):
                    got = self.call(job, given, capacity, room)
                    what = f"{job} of {path} into {capacity} bytes"
                    if status:
                        self.check_equal(what, got[:3], (REFUSED, untouched, 0))
                        self.check_equal(what, said, Matches(rf"dexasm: refused {got[3][0]} \w+ at {got[3][1]}\n"))
                    elif capacity < len(made):
                        self.check_equal(what, got, (TOO_SMALL, untouched, len(made), (0, 0)))
                    else:
                        self.check_equal(what, got, (ANSWERED, made + untouched[len(made) :], len(made), (0, 0)))

    def test_texts(self) -> None:
        """The names of the faults and the version, into buffers of each size."""
        for code, want in [*((code, dexasm.fault_name(code)) for code in range(0, 260)), (65535, "Unknown")]:
            for capacity in (0, len(want) - 1, len(want), len(want) + 1):
                out = (ctypes.c_char * 64).from_buffer(bytearray([CANARY]) * 64)
                needed = ctypes.c_size_t()
                status = self.by_library.dexasm_fault_name(code, out, capacity, ctypes.byref(needed))
                put = want.encode() if capacity >= len(want) else b""
                self.check_equal(f"the name of {code} into {capacity} bytes", (status, needed.value, bytes(out)),
                                 ((ANSWERED if put else TOO_SMALL), len(want), put + bytes([CANARY]) * (64 - len(put))))
        names = [dexasm.fault_name(code) for code in (1, 8, 73, 86, 118, 255, 256)]
        self.check_equal("names of faults", names,
                         ["TooShort", "Checksum", "Register", "Misaligned", "Register", "Memory", "Unknown"])
        wide = [dexasm.fault_name(code) for code in (-1, 1 << 16, (1 << 16) + 1, 1 << 64)]
        self.check_equal("names of numbers that no fault has", wide, ["Unknown"] * 4)
        number = dexasm.version().encode()
        for capacity in (0, len(number) - 1, len(number), len(number) + 1):
            out = ctypes.create_string_buffer(len(number) + 3)
            needed = ctypes.c_size_t()
            status = self.by_library.dexasm_version(out, capacity, ctypes.byref(needed))
            answer = (ANSWERED, number) if capacity >= len(number) else (TOO_SMALL, b"")
            got = (status, out.value, needed.value)
            self.check_equal(f"the version into {capacity} bytes", got, (*answer, len(number)))

    def once(self) -> None:
        """Each job on each file, by the Python binding."""
        jobs: tuple[Callable[[bytes], object], ...] = (dexasm.check, dexasm.list, dexasm.assemble, dexasm.strip)
        for path in self.paths:
            with open(path, "rb") as file:
                given = file.read()
            for job in jobs:
                try:
                    job(given)
                except dexasm.Refused:
                    pass

    def test_python(self) -> None:
        """What the module does beside its calls: names, and a library that isn't there."""
        words: list[str] | str
        env = {**os.environ, "PYTHONPATH": os.path.join(TOP, "python", "src"), "PYTHONDONTWRITEBYTECODE": "1"}
        words = [sys.executable, "-c",
                 "from dexasm import *; import builtins; print(list is builtins.list, strip.__name__)"]
        got = run(*words, env=env)
        self.check_equal("Python: all names leave `list` as it is", got, (0, b"True strip\n", ""))
        got = run(sys.executable, "-c", PARTS, env=env, cwd=TOP)
        self.check_equal("Python: its parts are read when they are asked for", got,
                         (0, b"['dexasm._native']\n['dexasm._native', 'dexasm.names']\nTrue True\nno\n", ""))
        shutil.copytree(os.path.join(TOP, "python/src/dexasm"), f"{self.work}/alone/dexasm",
                        ignore=shutil.ignore_patterns("__pycache__"))
        alone = {name: value for name, value in env.items() if name not in ("DEXASM_LIBRARY", "DEXASM_COMMAND")} | {
            "PYTHONPATH": f"{self.work}/alone", "PATH": "/none"
        }
        status, _, said = run(sys.executable, "-c", "import dexasm; dexasm.version()", env=alone)
        self.check_equal("Python: without a library", (status, said),
                         (1, Has("ImportError", "DEXASM_LIBRARY", "tools/build library")))

    def test_memory(self) -> None:
        """1,000 calls and more in a limited memory, where no call keeps any; and a call that can't have what it
        needs."""
        many = b"dex 035\n" + b"".join(b"class LA%06d; 0x1\nend class\n" % at for at in range(100000))
        for _ in range(3):
            self.once()
        before = pages()
        size = before * resource.getpagesize()
        soft, hard = resource.getrlimit(resource.RLIMIT_AS)
        resource.setrlimit(resource.RLIMIT_AS, (size + 8 * MEGABYTE, hard))
        try:
            rounds = 1000 // (4 * len(self.paths)) + 1
            for _ in range(rounds):
                self.once()
            self.check("1,000 calls take no more memory", pages() - before <= MEGABYTE // resource.getpagesize(),
                       f"{before} {pages()}")
            file = dexasm.assemble(LISTINGS["one class"])
            self.check_equal("a listing that takes more memory than there is", self.call("assemble", many, 0, 8)[::3],
                             (MEMORY, (255, 0)))
            self.check_equal("the next call has memory again", dexasm.list(file), LISTINGS["one class"])
        finally:
            resource.setrlimit(resource.RLIMIT_AS, (soft, hard))

    def test_refused_in_little_memory(self) -> None:
        """What is refused is refused where there isn't room for an answer that could be that long."""
        for first in (b"", b"dex\n035\0"):
            given = first + bytes(60 * MEGABYTE)
            soft, hard = resource.getrlimit(resource.RLIMIT_AS)
            resource.setrlimit(resource.RLIMIT_AS, (pages() * resource.getpagesize() + 100 * MEGABYTE, hard))
            try:
                for job in ("list", "strip", "assemble", "check"):
                    seen = raised(getattr(dexasm, job), given)
                    self.check_equal(f"{job} of 60 MB, refused", seen, Begins("refused "))
            finally:
                resource.setrlimit(resource.RLIMIT_AS, (soft, hard))

    def test_threads(self) -> None:
        """Calls of several threads at once don't disturb one another."""
        text = LISTINGS["a class with branches"]
        wrong: list[bytes] = []

        def many() -> None:
            for _ in range(100):
                made = dexasm.assemble(text)
                if dexasm.list(made) != text or dexasm.strip(made) != made:
                    wrong.append(made)

        threads = [threading.Thread(target=many) for _ in range(4)]
        for each in threads:
            each.start()
        for each in threads:
            each.join()
        self.check_equal("four threads at once", wrong, EMPTY)
