"""What all tests share: the class that they are made by, how a command is run, and what is limited."""
import os
import resource
import shutil
import subprocess
import tempfile
import unittest
from collections.abc import Callable
from typing import Any

MEGABYTE = 1 << 20
LIMIT = 120  # seconds for a command
LONGEST = 1500  # characters of what is told to have been seen
COMPARED = 20000  # characters of two values that differ, above which unittest doesn't look where
Ended = tuple[int | str, bytes, str]  # status, or "late"; standard output; standard error


class TestCase(unittest.TestCase):
    """A test shows many things, each with a name: one that isn't so is a sub-test that fails, which doesn't keep the
    others from being tried."""

    more = 0  # what was shown without a sub-test of its own

    def check(self, what: object, is_so: object, seen: object = "") -> None:
        """That it is so; else what was seen is shown."""
        if is_so:
            self.more += 1
            return
        with self.subTest(what):
            self.fail(str(seen)[:LONGEST])

    def check_equal(self, what: object, got: object, want: object) -> None:
        """That this was got; else both are shown."""
        if is_equal(got, want):
            self.more += 1
            return
        with self.subTest(what):
            if got != want and len(repr((got, want))) > COMPARED:
                self.fail(f"{repr(got)[:LONGEST]} != {repr(want)[:LONGEST]}")
            self.assertEqual(got, want)

    def check_raises(self, what: object, kind: type[Exception], call: Callable[..., object], *words: Any) -> str:
        """That a call raises an error of this kind; the error's text."""
        try:
            returned = call(*words)
        except kind as error:
            self.more += 1
            return str(error)
        self.check_equal(what, returned, kind)
        return ""

    def need(self, program: str, without: str) -> None:
        """Ends the test, as one that isn't tried to its end, where a program isn't there."""
        if not shutil.which(program):
            self.skipTest(f"no {program} here: {without}")

    def new_folder(self) -> str:
        """A folder that goes when the test ends."""
        made = tempfile.mkdtemp(prefix="dexasm-test-")
        self.addCleanup(shutil.rmtree, made, ignore_errors=True)
        return made


def is_equal(got: object, want: object) -> bool:
    """Whether they are; not, where comparing them fails, which the sub-test then tells."""
    try:
        return bool(got == want)
    except Exception:
        return False


def ended(words: Any, limit: float = LIMIT, **options: Any) -> Ended:
    """Status, standard output, standard error of words; of a command that takes longer than the limit, in seconds,
    which no test wants, "late" and nothing."""
    try:
        done = subprocess.run(words, timeout=limit, **options)
    except subprocess.TimeoutExpired:
        return "late", b"", f"no answer within {limit} s"
    return done.returncode, done.stdout, (done.stderr or b"").decode("utf8", "replace")


def limited(size: int) -> Callable[[], None]:
    """For a process that begins: so much memory and no more."""
    return lambda: resource.setrlimit(resource.RLIMIT_AS, (size, size))


def compiler() -> list[str]:
    """cc, or the toolchain's clang and linker where there is none."""
    if found := shutil.which("cc"):
        return [found]
    kit = subprocess.run(["rt", "doc"], stdout=subprocess.PIPE, text=True, check=True).stdout.strip()
    tool = os.path.join(os.path.dirname(kit), "toolchain", "bin")
    return [f"{tool}/clang", f"--ld-path={tool}/ld.lld"]


def get(path: str) -> bytes:
    with open(path, "rb") as file:
        return file.read()


def can_trace(limit: float = 60) -> bool:
    """Whether strace is there, and may trace."""
    try:
        return ended(["strace", "-qq", "-o", "/dev/null", "true"], limit, stderr=subprocess.DEVNULL)[0] == 0
    except OSError:
        return False
