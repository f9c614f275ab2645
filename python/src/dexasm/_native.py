"""Finds libdexasm or the command dexasm, runs jobs by it, and knows how it was built.

Each job raises `Refused` if dexasm refuses its input, MemoryError if memory runs out, ImportError if there is neither a
library nor a command, and OSError if the command fails otherwise. The first of these is taken:

- the library that the variable DEXASM_LIBRARY names, the command that the variable DEXASM_COMMAND names;
- libdexasm.so beside this file, or the one that tools/build made in this repository, or the one of an unpacked package,
  or the system's;
- `dexasm` on the PATH, or the one that came with this package.

It is imported at the first call.
"""
from __future__ import annotations

import ctypes
import os
import re
from typing import Any, NamedTuple

from dexasm import Refused

DONE, REFUSED, MEMORY = 0, 1, 4
LARGE = 1 << 20  # bytes of output
HERE = os.path.dirname(os.path.realpath(__file__))
SOURCES = os.path.dirname(HERE)  # the folder that has the package
PROVED, QUICK, UNKNOWN = "proved", "quick", "unknown"


def _top() -> tuple[str, bool]:
    """The folder that has all that came along, and whether it is a checkout of the repository."""
    folder, name = os.path.split(SOURCES)
    if name == "src" and os.path.basename(folder) == "python":
        return os.path.dirname(folder), True
    if name in ("site-packages", "dist-packages"):
        return os.path.dirname(os.path.dirname(folder)), False
    return SOURCES, False  # (as by `pip install --target`)


TOP, IS_CHECKOUT = _top()
PROGRAM = os.path.join(TOP, *(() if IS_CHECKOUT else ("bin",)), "dexasm")
LIBRARIES = (
    os.path.join(HERE, "libdexasm.so"),
    os.path.join(TOP, "crates", "dexasm_c", "out", "built", "libdexasm.so"),
    os.path.join(TOP, "lib", "libdexasm.so.0"),
)
PROVED_BY = os.path.join(TOP, "share", "doc", "dexasm", "PROVED-BY")  # of a package


class Fault(ctypes.Structure):
    _fields_ = [("code", ctypes.c_uint16), ("place", ctypes.c_uint64)]


def output_buffer(capacity: int) -> Any:
    """Room for an answer. Of much of it none is taken from the machine before it is written to."""
    if capacity < LARGE:
        return ctypes.create_string_buffer(capacity)
    import mmap

    try:
        memory = mmap.mmap(-1, capacity, mmap.MAP_PRIVATE | mmap.MAP_ANONYMOUS)
    except OSError:
        raise MemoryError("dexasm: out of memory") from None
    return (ctypes.c_char * capacity).from_buffer(memory)


class Library:
    """libdexasm."""

    def __init__(self, library: ctypes.CDLL) -> None:
        size, fault = ctypes.c_size_t, ctypes.POINTER(Fault)
        source, out = [ctypes.c_char_p, size], [ctypes.c_char_p, size, ctypes.POINTER(size)]
        for name, arguments in {
            "check": [*source, fault],
            "list": [*source, *out, fault],
            "assemble": [*source, ctypes.c_bool, *out, fault],
            "strip": [*source, *out, fault],
            "fault_name": [ctypes.c_uint16, *out],
            "version": out,
        }.items():
            call = getattr(library, f"dexasm_{name}")
            call.argtypes, call.restype = arguments, ctypes.c_uint32
        self.calls, self.name = library, library._name

    @property
    def path(self) -> str:
        """Its file: as it was named, or where the system found it."""
        if os.path.exists(self.name):
            return os.path.abspath(self.name)
        with open("/proc/self/maps", encoding="utf8", errors="surrogateescape") as maps:
            paths = (row.rstrip("\n").split(maxsplit=5)[-1] for row in maps)
            found = next((path for path in paths if os.path.basename(path).startswith("libdexasm.so")), None)
        if found is None:
            raise OSError(f"{self.name}: the system doesn't say where it is")
        return found

    def text(self, call: Any, *arguments: int) -> str:
        """A short text that the library tells."""
        out, needed = ctypes.create_string_buffer(64), ctypes.c_size_t()
        call(*arguments, out, len(out), ctypes.byref(needed))
        return out.raw[: needed.value].decode("ascii")

    def raise_for_status(self, status: int, fault: Fault) -> None:
        if status == REFUSED:
            raise Refused(fault.code, self.fault_name(fault.code), fault.place)
        if status == MEMORY:
            raise MemoryError("dexasm: out of memory")

    def run(self, job: str, data: bytes, align: bool = False) -> bytes:
        """The output of a job. If it is longer than was guessed the job is done again, and where there isn't even room
        for the guess: what is refused is refused then too.
        """
        call, fault = getattr(self.calls, f"dexasm_{job}"), Fault()
        if job == "check":
            self.raise_for_status(call(data, len(data), ctypes.byref(fault)), fault)
            return b"ok\n"
        guess = {"list": 6 * len(data), "assemble": len(data) + 4096}.get(
            job, len(data)
        ) + 64  # (real files take up to 5)
        try:
            out = output_buffer(guess)
        except MemoryError:
            out = output_buffer(1)
        while True:
            needed, words = ctypes.c_size_t(), (align,) if job == "assemble" else ()
            status = call(data, len(data), *words, out, len(out), ctypes.byref(needed), ctypes.byref(fault))
            self.raise_for_status(status, fault)
            if status == DONE:
                return ctypes.string_at(out, needed.value)
            out = output_buffer(needed.value)

    def fault_name(self, number: int) -> str:
        # (ctypes would cut one that is longer, to the number of another fault)
        return self.text(self.calls.dexasm_fault_name, number if 0 <= number < 1 << 16 else 0)

    def version(self) -> str:
        return self.text(self.calls.dexasm_version)


class Command:
    """The command dexasm, run for each call."""

    def __init__(self, path: str) -> None:
        self.path = path

    def run(self, job: str, data: bytes, align: bool = False) -> bytes:
        """The command's output of a job."""
        import subprocess

        try:
            done = subprocess.run([self.path, job, *["--align"] * align], input=data, capture_output=True)
        except OSError as error:
            raise OSError(f"{self.path} doesn't run: {error.strerror}") from None
        line = done.stderr.decode("utf8", "replace").strip().rpartition("\n")[2]
        refused = re.search(r"refused (\d{1,5}) (\w+) at (\d{1,20})\b", line)
        if done.returncode == REFUSED and refused:
            raise Refused(int(refused[1]), refused[2], int(refused[3]))
        if done.returncode == MEMORY:
            raise MemoryError("dexasm: out of memory")
        if done.returncode < 0:
            raise OSError(f"{self.path} was killed by signal {-done.returncode}")
        if done.returncode:
            raise OSError(
                f"{self.path} ended with status {done.returncode}" + (f": {ascii(line)[1:-1]}" if line else "")
            )
        if not is_output(job, done.stdout):
            raise OSError(f"{self.path}: unexpected output of `{job}`")
        return done.stdout

    def fault_name(self, number: int) -> str:
        raise NotImplementedError("fault_name asks libdexasm, which isn't here")

    def version(self) -> str:
        return self.run("--version", b"").decode("ascii").split()[-1]


def is_output(job: str, data: bytes) -> bool:
    """Whether the bytes begin and end as the command's output of a job: of another program's nothing is read."""
    if job == "check":
        return data == b"ok\n"
    if job == "list":
        return data.startswith(b"dex 035 listing 2\n") and data.endswith(b"\n") and data.isascii()
    if job == "--version":
        return re.fullmatch(rb"dexasm [!-~]+\n", data) is not None
    return data.startswith(b"dex\n") and int.from_bytes(data[32:36], "little") == len(data)


# ---- which one


def find_library() -> ctypes.CDLL | None:
    path = next(filter(os.path.exists, LIBRARIES), "libdexasm.so.0")
    try:
        return ctypes.CDLL(path)
    except OSError:
        if os.path.isabs(path):
            raise
        return None


def find_command() -> str:
    """The path of the command that DEXASM_COMMAND names, or of the one on the PATH, or of the one that came along."""
    import shutil

    named = os.environ.get("DEXASM_COMMAND")
    for name in [named] if named else ["dexasm", PROGRAM]:
        if path := shutil.which(name):
            return os.path.abspath(path)
    if named:
        raise ImportError(f"DEXASM_COMMAND names no command: {ascii(named)[1:-1]}")
    raise ImportError(
        "neither libdexasm nor the command dexasm is found: DEXASM_LIBRARY or DEXASM_COMMAND may name its file; "
        "`tools/build library` makes the library, `tools/quick library` makes one without its proof in 3 to 20 minutes"
    )


def find_core() -> Library | Command:
    """The library or command that this module's calls run."""
    if named := os.environ.get("DEXASM_LIBRARY"):
        return Library(ctypes.CDLL(named))
    library = None if os.environ.get("DEXASM_COMMAND") else find_library()
    return Command(find_command()) if library is None else Library(library)


# ---- how it was built


class Build(NamedTuple):
    """Which library or command runs; `build` is proved, quick (the same source without its proof) or unknown."""

    version: str
    build: str
    sha256: str

    def __str__(self) -> str:
        return f"output of the {self.build} build with the SHA-256 {self.sha256}"


def build_of(core: Library | Command) -> Build:
    import hashlib

    path = core.path
    if _is_launcher(os.path.realpath(path)):
        path = _run_by_launcher(path)
    with open(path, "rb") as file:
        sha = hashlib.sha256(file.read()).hexdigest()
    return Build(core.version(), _kind_of_build(os.path.realpath(path), sha), sha)


def _is_launcher(path: str) -> bool:
    """Whether it is the script of a checkout, which runs a program of it."""
    with open(path, "rb") as file:
        return os.path.isdir(os.path.join(os.path.dirname(path), "crates", "dexasm")) and file.read(2) == b"#!"


def _run_by_launcher(path: str) -> str:
    """The program that the launcher of a checkout runs."""
    import subprocess

    done = subprocess.run([path], env={**os.environ, "DEXASM_WHICH": "1"}, stdout=subprocess.PIPE)
    program = done.stdout.rstrip(b"\n").partition(b" ")[2]
    if done.returncode or not program:
        raise OSError(f"{path} ended with status {done.returncode}")
    return os.fsdecode(program)


def _kind_of_build(path: str, sha: str) -> str:
    """By the folder in which tools/build or tools/quick put it, or by the sums in the PROVED-BY of its package."""
    folder = os.path.dirname(path)
    if os.path.exists(os.path.join(folder, "NOT-PROVED")):
        return QUICK
    place = folder.split(os.sep)[-4:]
    if place[0] == "crates" and place[2] == "out" and place[3] in ("built", "quick"):
        return PROVED if place[3] == "built" else QUICK
    if not os.path.exists(PROVED_BY):
        return UNKNOWN
    with open(PROVED_BY, encoding="utf8", errors="replace") as file:
        text = file.read()
    return PROVED if text.startswith("Proved and built of ") and sha in text.split() else UNKNOWN
