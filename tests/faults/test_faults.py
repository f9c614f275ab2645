"""The built program with each call of the system failed, or ended by a signal, in turn: OUT isn't lost. dexasm-close
too, from the call that first names OUT on. (Not the launcher, a script with calls of its own.)

Every call after FILE is opened is made to fail once with each of some errors, and once the program is killed, and once
interrupted, at that call, in each setting of OUT: absent, present, with two names, behind a link, a mount point (as
root alone). Each time OUT is what it was, or the answer, or the whole answer stands beside it; nothing else is touched,
and after a failure nothing is left. And in a run that is left alone the calls come in the order that keeps OUT: the
part is new and stands beside OUT, nobody else may open it until it has OUT's mode, it is whole and on the disk before
it takes OUT's place, and nothing is written in place before that. It needs strace; where that is missing, or may not
trace, nothing is tried.

(The part helpers does so with dexasm-split, dexasm-browse and deliver.py itself, in more settings, and the part library
with the jar.)

A folder that takes no new file is tried too, as root alone: one that is somebody else's, and one with the attribute i.
There OUT is written in place, and may be lost, as README says. A line says in how many runs it was; nothing else is.
"""
import collections
import concurrent.futures
import os
import re
import shutil
import stat
import subprocess
import sys
import tempfile
from collections.abc import Iterator
from typing import Any, NamedTuple

from .. import TOP, sought, config
from ..base import LIMIT, TestCase, can_trace
from ..samples import without_classes

ERRORS = ("EIO", "ENOSPC", "EINTR", "EACCES", "EBUSY")
SIGNALS = ("SIGKILL", "SIGINT")
# What asks for memory (the part memory has its turn there), and what no program can see fail.
LEFT_OUT = {"brk", "mmap", "munmap", "mremap", "madvise", "mprotect", "futex", "exit_group", "exit"}
OLD, MODE = b"old", 0o640
CLOSED = ("a closed folder", "an immutable folder")
SETTINGS = ("absent", "present", "two names", "a link", "a mount point", *CLOSED)
OF_ROOT = ("a mount point", *CLOSED)
NOBODY = 65534
LOST = "OUT is lost"
# Where OUT can be replaced in one step, it is never in between.
IN_ONE_STEP = {"absent", "present", "a link"}


FILE, ANSWER = without_classes(1000), without_classes()
# A file whose sums don't hold, and what dexasm-close makes of it.
WRONG = FILE[:8] + bytes(24) + FILE[32:]


class Subject(NamedTuple):
    """What is run: its words but OUT, FILE, what comes to OUT, what the names of its calls that are failed begin after,
    in which settings, how its calls end, and its environment."""

    name: str
    words: list[str]
    file: bytes
    answer: bytes
    begins: str
    settings: tuple[str, ...]
    ends: list[str]
    env: dict[str, str] | None


SOME, FEW = ["error=ENOSPC", "signal=SIGKILL", "signal=SIGTERM"], ("absent", "present", "two names")


def program_of(program: str) -> Subject:
    every = [f"error={error}" for error in ERRORS] + [f"signal={name}" for name in SIGNALS]
    return Subject("", [program, "strip"], FILE, ANSWER, '"in.dex"', SETTINGS, every, None)


def environment(program: str) -> dict[str, str]:
    return {**os.environ, "DEXASM_COMMAND": program, "PYTHONPATH": os.path.join(TOP, "python/src")}


def close_of(program: str) -> Subject:
    words = [sys.executable, "-B", os.path.join(TOP, "python/bin/dexasm-close")]
    return Subject("dexasm-close, ", words, WRONG, FILE, '"out"', FEW, SOME, environment(program))


def get(path: str) -> bytes | None:
    try:
        with open(path, "rb") as file:
            return file.read()
    except FileNotFoundError:
        return None


def put(path: str, given: bytes, mode: int = 0o644) -> None:
    with open(path, "wb") as file:
        file.write(given)
    os.chmod(path, mode)


def give(*paths: str) -> None:
    """To a user who isn't root, if this is root."""
    if os.geteuid():
        raise OSError("it wants root")
    for path in paths:
        os.chown(path, NOBODY, NOBODY)


def set_up(setting: str, home: str, file: bytes) -> str:
    """Makes FILE, and OUT as the setting has it; answers the path that the part stands beside."""
    put(f"{home}/in.dex", file)
    out, real = f"{home}/out", f"{home}/d/real"
    os.mkdir(f"{home}/d")
    if setting in ("present", "two names"):
        put(out, OLD, MODE)
    if setting == "two names":
        os.link(out, f"{home}/other")
    if setting in ("a link", "a mount point", *CLOSED):
        put(real, OLD, MODE)
    if setting in CLOSED:
        os.symlink("d/real", out)
        if setting == "an immutable folder":
            subprocess.run(["chattr", "+i", f"{home}/d"], check=True, stderr=subprocess.DEVNULL)
        else:
            give(home, f"{home}/in.dex", real)
        return real
    if setting == "a link":
        os.symlink("d/real", out)
        return real
    if setting == "a mount point":
        put(out, b"")
        subprocess.run(["mount", "--bind", real, out], check=True, stderr=subprocess.DEVNULL)
    return out


class Ended(NamedTuple):
    """How a run ended: its status, its calls, what is wrong with what it left, and with the order of its calls."""

    status: int | None
    log: list[str]
    wrong: str | None
    order_wrong: str | None


def found_wrong(subject: Subject, setting: str, home: str, beside: str, status: int, is_remove: bool) -> str | None:
    """What is wrong with what a run left, or None."""
    out, before = get(f"{home}/out"), None if setting == "absent" else OLD
    folder = os.path.dirname(beside)
    part_name = re.compile(re.escape(os.path.basename(beside)) + r"\.[0-9]+\.part")
    parts = [name for name in os.listdir(folder) if part_name.fullmatch(name)]
    held = [get(f"{folder}/{name}") or b"" for name in parts]
    known = {"in.dex", "out", "d", "log"} | ({"other"} if setting == "two names" else set())
    known |= {name for name in parts if folder == home}
    known_below = {"real"} | {name for name in parts if folder != home}
    if set(os.listdir(home)) - known or set(os.listdir(f"{home}/d")) - known_below:
        return f"another name: {sorted(os.listdir(home))} {sorted(os.listdir(home + '/d'))}"
    if get(f"{home}/in.dex") != subject.file:
        return "FILE was touched"
    if out not in (before, subject.answer) and (setting in IN_ONE_STEP or subject.answer not in held):
        return f"{LOST}: it has {out!r:.40}, beside it {[len(part) for part in held]} bytes"
    if setting in ("a link", *CLOSED) and not os.path.islink(f"{home}/out"):
        return "the link is no link"
    if setting == "two names" and not os.path.samefile(f"{home}/out", f"{home}/other"):
        return "the two names are of two files"
    if out == subject.answer and before is not None and stat.S_IMODE(os.stat(f"{home}/out").st_mode) != MODE:
        return "OUT has another mode"
    for name, bytes_held in zip(parts, held):
        if bytes_held and before is not None and stat.S_IMODE(os.stat(f"{folder}/{name}").st_mode) != MODE:
            return "a part holds bytes in another mode than OUT's"
    if status == 0 and (out != subject.answer or parts and not is_remove):
        return f"status 0, OUT {out!r:.40}, {parts}"
    if status in (1, 3, -15) and parts and not is_remove and (setting in IN_ONE_STEP or held != [subject.answer]):
        return f"status {status}, and left beside OUT: {parts}"
    return None if status in (0, 3, -9, -2, -15) else f"status {status}"


def calls_of(subject: Subject, log: list[str]) -> Iterator[tuple[str, int, str]]:
    """(call, which of its name it is, line), from the call on that names what it begins with."""
    counts, is_begun = collections.Counter[str](), False
    for line in log:
        call = re.match(r"([a-z_0-9]+)\(", line)
        if call is None:
            continue
        counts[call[1]] += 1
        if is_begun and call[1] not in LEFT_OUT:
            yield call[1], counts[call[1]], line
        is_begun = is_begun or subject.begins in line and (subject.name != "" or call[1] in ("open", "openat"))


def order_wrong(subject: Subject, setting: str, home: str, beside: str, log: list[str]) -> str | None:
    """What is wrong with the order of the calls of a run that was left alone, or None."""
    part: str | None = None
    number: int | None = None
    written, is_kept, moved = 0, False, False
    for call, _, line in calls_of(subject, log):
        result = re.search(r"= (-?[0-9]+)", line)
        value = int(result[1]) if result else -1
        if call in ("open", "openat", "creat") and ("O_CREAT" in line or "O_TRUNC" in line or call == "creat"):
            path = sought(r'"([^"]*)"', line)[1]
            if "O_EXCL" in line:
                if not re.fullmatch(re.escape(beside) + r"\.[0-9]+\.part", os.path.join(home, path)):
                    return f"a file that isn't beside OUT: {line}"
                if setting != "absent" and ", 0600)" not in line:
                    return f"others may open the part: {line}"
                if value >= 0:
                    part, number = path, value
            elif (
                value >= 0 and setting not in CLOSED
                and (written < len(subject.answer) or setting != "absent" and not is_kept)
            ):
                return f"written in place before the answer stands beside: {line}"
            elif value >= 0:
                number, written, is_kept = value, 0, False
        elif call == "write" and line.startswith(f"write({number},") and value > 0:
            written, is_kept = written + value, False
            if moved:
                return f"written after it took OUT's place: {line}"
        elif call in ("fsync", "fdatasync") and line.startswith(f"{call}({number})") and value == 0:
            is_kept = written == len(subject.answer)
        elif call.startswith("rename"):
            if part is None or f'"{part}"' not in line or written < len(subject.answer):
                return f"moved before it is whole: {line}"
            if setting != "absent" and not is_kept:
                return f"moved before the disk has it: {line}"
            moved = moved or value == 0
        elif call.startswith("unlink") and setting != "absent" and not is_kept:
            return f"taken away before the disk has OUT: {line}"
    return None if (part is None) == (setting in CLOSED) else f"beside OUT: {part}"


def faults_of(subject: Subject, log: list[str]) -> Iterator[str]:
    for call, which, _ in calls_of(subject, log):
        for how in subject.ends + (["retval=0"] if call == "write" else []):
            yield f"{call}:{how}:when={which}"


class Faults(TestCase):
    def setUp(self) -> None:
        if not can_trace():
            self.skipTest("strace is missing here, or may not trace")
        self.program, self.scratch = config.program(), os.path.realpath(self.new_folder())
        os.chmod(self.scratch, 0o711)  # (for a run as another user)

    def ran(self, subject: Subject, setting: str, injected: str | None = None) -> Ended:
        """Runs the subject with OUT in this setting; answers how it ended, its calls, and what is wrong."""
        home = tempfile.mkdtemp(dir=self.scratch)
        try:
            beside = set_up(setting, home, subject.file)
            inject = ["-e", "inject=" + injected] if injected else []
            words = ["strace", "-qq", "-s", "0", "-o", "log", *inject, *subject.words, "in.dex", "--output", "out"]
            try:
                user: dict[str, Any] = (
                    {"user": NOBODY, "group": NOBODY, "extra_groups": ()} if setting == "a closed folder" else {}
                )
                done = subprocess.run(words, cwd=home, stdin=subprocess.DEVNULL, capture_output=True, timeout=LIMIT,
                                      env=subject.env, **user)
            except subprocess.TimeoutExpired:
                return Ended(None, [], f"no end within {LIMIT} s", None)
            status = {137: -9, 130: -2, 143: -15}.get(done.returncode, done.returncode)
            log = (get(f"{home}/log") or b"").decode("utf8", "replace").splitlines()
            is_remove = (
                injected is not None and injected.startswith("unlink") or status == -9
                or status == -2 and not subject.name
            )
            order = None if injected else order_wrong(subject, setting, home, beside, log)
            return Ended(status, log, found_wrong(subject, setting, home, beside, status, is_remove), order)
        finally:
            if setting == "an immutable folder":
                subprocess.run(["chattr", "-i", f"{home}/d"], stderr=subprocess.DEVNULL)
            if setting == "a mount point":
                # (lazily: a process that another thread begins may hold OUT for a moment)
                subprocess.run(["umount", "-l", f"{home}/out"], stderr=subprocess.DEVNULL)
            shutil.rmtree(home, ignore_errors=True)

    def tried_in(
        self, subject: Subject, setting: str, pool: concurrent.futures.Executor
    ) -> list[tuple[str, str | None]]:
        """What came of each run in this setting: what was done, and what is wrong."""
        alone = self.ran(subject, setting)
        wrong = alone.wrong or alone.order_wrong or (None if alone.status == 0 else f"status {alone.status}")
        runs = {
            injected: pool.submit(self.ran, subject, setting, injected) for injected in faults_of(subject, alone.log)
        }
        return [("left alone", wrong), *((injected, ended.result().wrong) for injected, ended in runs.items())]

    def check_settings(self, subject: Subject) -> None:
        with concurrent.futures.ThreadPoolExecutor(os.cpu_count() or 1) as pool:
            for setting in subject.settings:
                try:
                    seen = self.tried_in(subject, setting, pool)
                except (OSError, subprocess.CalledProcessError):
                    if setting not in OF_ROOT:
                        raise
                    print(f"OUT {setting} isn't tried, since none can be made here")
                    continue
                self.check_seen(subject, setting, seen)

    def check_seen(self, subject: Subject, setting: str, seen: list[tuple[str, str | None]]) -> None:
        lost = [what for what, wrong in seen if setting in CLOSED and (wrong or "").startswith(LOST)]
        if setting in CLOSED:
            print(f"OUT in {setting}: {len(lost)} of {len(seen)} runs lost it")
        for what, wrong in seen:
            if what not in lost:
                self.check_equal(f"{subject.name}OUT {setting}, {what}", wrong, None)

    def test_program(self) -> None:
        self.check_settings(program_of(self.program))

    def test_close(self) -> None:
        """dexasm-close."""
        self.check_settings(close_of(self.program))
