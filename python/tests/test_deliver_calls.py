"""dexasm/deliver.py with each of its calls of the system failed, or ended by a signal, in turn (the part faults does so
with the command): OUT is what it was or the answer, whole, or the whole answer stands beside it; after a failure, and
after a signal that can be held back, nothing else is left. It needs strace."""
import collections
import concurrent.futures
import os
import re
import subprocess
import sys
from collections.abc import Iterator

from tests.matchers import ANY, SOME, Above
from .write_cases import BEGINS, SETTINGS, Room, order_wrong
from .cli.support import TOP, HelperTest, get, put, room, run, scratch

# What each call is failed and ended by; of some more, since what follows hangs on the error.
ENDS = ("error=ENOSPC", "signal=SIGKILL", "signal=SIGTERM")
MORE = {"openat": ("error=EACCES", "error=EEXIST", "error=ENOENT"),
        "rename": ("error=EPERM", "error=EBUSY", "error=EIO", "signal=SIGHUP", "signal=SIGINT"),
        "write": ("retval=0", "error=EIO", "error=EINTR", "signal=SIGHUP", "signal=SIGINT")}


def ran_once(name: str, injected: str | None = None) -> tuple[str | None, list[str]]:
    """What is wrong, and the calls."""
    one = Room(name)
    try:
        status, log, told = one.run(injected)
        return one.wrong(status, injected, told) or (f"status {status}" if not injected and status else None), log
    except subprocess.TimeoutExpired:
        return "late", []
    finally:
        one.end()


def faults_of(log: list[str]) -> Iterator[str]:
    """Each call after the answer was read, failed and ended."""
    counts: collections.Counter[str]
    counts, begun = collections.Counter(), False
    for line in log:
        call = re.match(r"\d+ +([a-z_0-9]+)\(", line)
        if call is None:
            continue
        counts[call[1]] += 1
        if begun:
            for how in ENDS + MORE.get(call[1], ()):
                yield f"{call[1]}:{how}:when={counts[call[1]]}"
        begun = begun or BEGINS in line


DELIVERS = "import sys; sys.path.insert(0, sys.argv[1]); from dexasm.deliver import deliver; deliver('OUT', b'new')"


class DeliverCalls(HelperTest):
    def test_close(self) -> None:
        """The old file fails to be closed that was replaced, as on a disk of the network: OUT has the answer, and that is
        no failure. One that was written itself is one."""
        self.need_trace()
        words = [sys.executable, "-B", "-c", DELIVERS, os.path.join(TOP, "python", "src")]
        for names, status in ((1, 0), (2, 1)):
            at = room(f"deliver close {names}")
            out = put(at, "OUT", b"old")
            for number in range(1, names):
                os.link(out, f"{out}{number}")
            log = os.path.join(at, "log")
            run(["strace", "-qq", "-o", log, "-e", "trace=close", *words], at=at)
            put(at, "OUT", b"old")
            count = get(log).count(b"close(")  # (the last one is OUT's)
            seen = run(
                ["strace", "-qq", "-o", "/dev/null", "-e", f"inject=close:error=EIO:when={count}", *words], at=at
            )
            self.check_equal(
                f"deliver, close of a file with {names} names fails", (seen[0], get(out)), (status, b"new")
            )


    def test_calls(self) -> None:
        self.need_trace()
        os.chmod(scratch(), os.stat(scratch()).st_mode | 0o011)
        with concurrent.futures.ThreadPoolExecutor(os.cpu_count() or 1) as pool:
            for name, setting in SETTINGS.items():
                if os.geteuid() and (setting.user or name in ("a mount point", "an immutable folder")):
                    continue
                try:
                    alone, log = ran_once(name)
                except (OSError, subprocess.CalledProcessError):
                    continue
                self.check_equal(f"deliver, {name}, left alone", alone, None)
                self.check_equal(f"deliver, {name}, the order", (log, order_wrong(name, log)), (SOME, None))
                runs = {injected: pool.submit(ran_once, name, injected) for injected in faults_of(log)}
                for injected, ended in runs.items():
                    wrong, calls = ended.result()
                    signal_of = re.search("SIG[A-Z]+", injected)
                    met = [call for call in calls if signal_of is None or signal_of[0] in call]
                    self.check_equal(f"deliver, {name}, {injected}", (wrong, met), (None, SOME if signal_of else ANY))
                self.check_equal(f"deliver, {name}, calls are failed", len(runs), Above(20))
