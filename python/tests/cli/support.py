"""What the tests of the helpers share: the rooms that they are tried in, and how they are run there."""
import atexit
import collections
import concurrent.futures
import contextlib
import functools
import importlib.util
import os
import pty
import re
import resource
import shutil
import signal
import subprocess
import sys
import tempfile
import unittest.mock
from collections.abc import Callable, Collection, Iterable, Sequence
from typing import Any, TypeVar

from tests import TOP as TOP, config
from tests.base import LIMIT as LIMIT, TestCase, can_trace as is_strace_there
from tests.matchers import Like
from ..cases import TEXTS

TOOLS = os.path.join(TOP, "python", "bin")
Ended = tuple[int | str, str, str]  # status, or "late"; standard output; standard error
Case = TypeVar("Case", bound=tuple[Any, ...])
Answer = TypeVar("Answer")
ESC = "\x1b"
NO_PAGES = "pages need jinja2"  # what is said where it isn't

# As somebody wrote it: comments, classes whose names differ only in case, one in a package and one of the package's
# name.
LISTING = TEXTS["support LISTING"].encode()
HEAD = b"dex 035 listing 2\n"
# Names of files that a shell, a program or a terminal could take for something else.
NAMES = ("sp ace", "qu'o\"te", "$(touch PWNED)", "`touch PWNED`", "a|;e touch PWNED #", "a&b", "new\nline", "-x",
         "--help", "*", f"{ESC}[31mred", "\\n%s{}")


class HelperTest(TestCase):
    """A test of what is run as a command; each by this very Python."""

    @classmethod
    def setUpClass(cls) -> None:
        super().setUpClass()
        # (a gate in the background ignores SIGINT, one by nohup SIGHUP, and what it starts would too)
        signal.signal(signal.SIGINT, signal.default_int_handler)
        if signal.getsignal(signal.SIGHUP) == signal.SIG_IGN:
            signal.signal(signal.SIGHUP, lambda *_: None)

    def need_trace(self) -> None:
        """Ends the test, as one that isn't tried, where nothing can be traced."""
        if not can_trace():
            self.skipTest("no strace here, or it may not trace: no calls are failed")

    def use_program(self) -> None:
        """Has the module in this process run the program that is tried, until the test ends."""
        named = unittest.mock.patch.dict(os.environ, {"DEXASM_COMMAND": config.program()} | os.environ)
        named.start()
        self.addCleanup(named.stop)


@functools.cache
def scratch() -> str:
    """The folder of all tests, which goes when they end."""
    made = os.path.realpath(tempfile.mkdtemp(prefix="try helpers "))
    atexit.register(shutil.rmtree, made, ignore_errors=True)
    os.mkdir(os.path.join(made, "bin"))
    os.symlink(config.program(), os.path.join(made, "bin", "dexasm"))
    return made


@functools.cache
def environment() -> dict[str, str]:
    """What a command is given: the program that is tried first on its PATH, and the helpers."""
    ways = [path("bin"), TOOLS, os.path.dirname(sys.executable), os.environ["PATH"]]
    kept = {name: value for name, value in os.environ.items() if not name.startswith(("DEXASM", "GIT_", "PYTHON"))}
    named = {"DEXASM_COMMAND": path("bin", "dexasm")}  # (no library that is built here)
    named |= {name: os.environ[name] for name in ("PYTHONPYCACHEPREFIX",) if name in os.environ}  # (of tools/try)
    return kept | named | {"PATH": os.pathsep.join(ways), "LANG": "C.UTF-8", "HOME": scratch(), "NO_PWNED": "1"}


def path(*parts: str) -> str:
    return os.path.join(scratch(), *parts)


def room(name: str, files: dict[str, bytes] | None = None) -> str:
    """A new folder for one test, with these files."""
    os.makedirs(path(name))
    puts(path(name), files or {})
    return path(name)


def puts(into: str, files: dict[str, bytes]) -> None:
    for name, given in files.items():
        put(into, name, given)


def put(into: str, name: str, given: bytes) -> str:
    at = os.path.join(into, name)
    os.makedirs(os.path.dirname(at), exist_ok=True)
    with open(at, "wb") as file:
        file.write(given)
    return at


def get(*parts: str) -> bytes:
    with open(os.path.join(*parts), "rb") as file:
        return file.read()


def seen_in(folder: str) -> dict[str, str | bytes]:
    """All that is below a folder: each path with its bytes, where a link leads, or what else it is."""
    found: dict[str, str | bytes] = {}
    for at, folders, names in os.walk(folder):
        for name in (*folders, *names):
            one = os.path.join(at, name)
            kind: str | bytes = (
                os.readlink(one) if os.path.islink(one) else get(one) if os.path.isfile(one) else "folder"
                if os.path.isdir(one) else "other"
            )
            found[os.path.relpath(one, folder)] = kind
    return found


def run(words: Sequence[str], given: bytes = b"", at: str | None = None, most: int | None = None, **env: str) -> Ended:
    """Status, standard output, standard error of words; `most` bytes can be written to a file."""
    limit: Any = most and (lambda: resource.setrlimit(resource.RLIMIT_FSIZE, (most, most)))
    try:
        done = subprocess.run(words, input=given, capture_output=True, timeout=LIMIT, cwd=at or scratch(),
                              env={**environment(), **env}, preexec_fn=limit)
    except subprocess.TimeoutExpired:
        return "late", "", ""
    said = done.stderr.decode("latin1")
    if NO_PAGES in said:
        raise unittest.SkipTest(f"{NO_PAGES}, which this Python hasn't got: no page is looked at")
    return done.returncode, done.stdout.decode("latin1"), said


def has_pages() -> bool:
    """Whether pages can be made here."""
    return importlib.util.find_spec("jinja2") is not None


def tool(name: str, *words: str, **options: Any) -> Ended:
    return run([os.path.join(TOOLS, name), *words], **options)


def traced(name: str, *words: str, inject: Iterable[str], **options: Any) -> Ended:
    """A helper with a call of the system failed, or a signal sent at it, as strace takes it: `rename:error=EIO`."""
    injected = [*inject]
    calls = ",".join(dict.fromkeys(one.partition(":")[0] for one in injected))
    traces = ["strace", "-qq", "-f", "-o", "/dev/null", "-e", f"trace={calls}"]
    traces += [] if any("signal=" in one for one in injected) else ["--seccomp-bpf"]  # (no signal comes by that)
    faults = [word for one in injected for word in ("-e", f"inject={one}")]
    return run([*traces, *faults, os.path.join(TOOLS, name), *words], **options)


# Calls that make, change, name or remove a file.
CALLS = (
    "open,openat,mkdir,mkdirat,rename,renameat,renameat2,write,fsync,fchmod,fchown,chown,ftruncate,fsetxattr,unlink,"
    "unlinkat,rmdir"
)


def calls_of(name: str, *words: str, begins: str, **options: Any) -> list[tuple[str, int]]:
    """Such calls of a helper's own process, from the line of strace on that first has this text: each with which of its
    name it is. (Of what is opened, what may be made and folders.)
    """
    with tempfile.NamedTemporaryFile() as log:
        traces = ["strace", "-qq", "-f", "-o", log.name, "-e", f"trace={CALLS}"]
        run([*traces, os.path.join(TOOLS, name), *words], **options)
        lines = log.read().decode("utf8", "replace").splitlines()
    counts: collections.Counter[str]
    found: list[tuple[str, int]]
    own, counts, found, is_begun = lines[0].split()[0], collections.Counter(), [], False
    for line in lines:
        called = re.match(rf"{own} +([a-z0-9]+)\(", line)
        if called is None:
            continue
        counts[called[1]] += 1
        is_begun = is_begun or begins in line
        if is_begun and (not called[1].startswith("open") or "O_CREAT" in line or "O_DIRECTORY" in line):
            found.append((called[1], counts[called[1]]))
    return found


def in_turn(do: Callable[..., Answer], cases: Collection[Case]) -> list[tuple[Case, Answer]]:
    """What each case gives, several at a time, in their order."""
    with concurrent.futures.ThreadPoolExecutor(os.cpu_count() or 1) as pool:
        return list(zip(cases, pool.map(lambda case: do(*case), cases)))


@functools.cache
def can_trace() -> bool:
    return is_strace_there()


def library() -> dict[str, Any]:
    """The environment of a helper that has the library that is tried, where there is one."""
    return {"DEXASM_LIBRARY": config.shared_library()} if config.shared_library() else {}


def on_terminal(at: str, name: str, *words: str, **env: str) -> tuple[int, str]:
    """Status of a helper whose three streams are a terminal, and what that is sent."""
    ours, theirs = pty.openpty()
    streams: dict[str, Any] = dict.fromkeys(("stdin", "stdout", "stderr"), theirs)
    everything = {**environment(), **library(), "TERM": "xterm", **env}
    shown = b""
    with subprocess.Popen([os.path.join(TOOLS, name), *words], cwd=at, env=everything, **streams) as running:
        os.close(theirs)
        with contextlib.suppress(OSError), open(ours, "rb", buffering=0) as file:  # (EIO where its end is closed)
            while more := file.read(4096):
                shown += more
        status = running.wait(LIMIT)
    return status, shown.decode("utf8")


def shell(text: str, at: str, **options: Any) -> Ended:
    """What bash makes of a text, as of one that is typed."""
    return run(["bash", "-c", text], at=at, **options)


def dexasm(*words: str, given: bytes = b"") -> bytes:
    out: bytes = subprocess.run([config.program(), *words], input=given, capture_output=True, timeout=LIMIT).stdout
    return out


def assembled(text: bytes) -> bytes:
    return dexasm("assemble", given=text)


def classes(*names: str) -> bytes:
    """A listing of so many classes without anything in them."""
    return HEAD + b"".join(b"class %s 0x1\nend class\n" % name.encode("ascii") for name in names)


class Line(Like):
    """A single line that begins so, has nothing that a terminal obeys, and isn't of an unexpected error."""

    def fits(self, value: Any) -> object:
        is_plain = value.endswith("\n") and value[:-1].isprintable()
        return is_plain and value.startswith(self.parts[0]) and not re.search("Traceback|: unexpected [A-Z]", value)
