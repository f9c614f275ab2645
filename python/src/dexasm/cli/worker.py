"""What a worker runs (pool.py starts it): jobs of one class, each within its limits of time and memory."""
from __future__ import annotations

import json
import os
import resource
import signal
import stat
import sys
from typing import TYPE_CHECKING, Any

from dexasm.cli.errors import MEMORY

if TYPE_CHECKING:
    import io

CLOCK = 10  # a job may take so many times its processor seconds by the clock
WATCHING = 1 << 18  # bytes of stack for the thread that waits for the end of its parent
REASONS = {
    "time": "it takes longer than --seconds",
    "memory": "it takes more than --memory",
    "killed": "its worker was killed",
}


def opened_file(path: bytes) -> io.BufferedReader:
    """The file, if it is one: nothing waits for who writes into a pipe, and no device is read."""
    at = os.open(path, os.O_RDONLY | os.O_NONBLOCK | os.O_NOCTTY)
    if not stat.S_ISREG(os.fstat(at).st_mode):
        os.close(at)
        raise OSError(0, "no file")
    return os.fdopen(at, "rb")


def watch(jobs: int) -> None:
    """End this worker, with what it runs, as soon as no process is left that could send it a job."""
    import _thread
    import select

    def wait() -> None:
        poll = select.poll()
        poll.register(jobs, 0)
        poll.poll()  # (for the other end to be closed, which is reported in any case)
        os.killpg(0, signal.SIGKILL)

    _thread.stack_size(WATCHING)
    _thread.start_new_thread(wait, ())
    _thread.stack_size(0)


def set_timers(processor: float, clock: float) -> None:
    """Set how long the job may take, by the processor and by the clock; a timer that runs out ends the worker."""
    signal.setitimer(signal.ITIMER_PROF, processor)
    signal.setitimer(signal.ITIMER_REAL, clock)


def work() -> None:
    """Read jobs until the input ends or memory runs out. What all jobs need is read before the first, whose time and
    memory it doesn't count in.
    """
    kind, seconds, memory = sys.argv[-3], float(sys.argv[-2]), int(sys.argv[-1])
    jobs, results = sys.stdin.buffer, os.fdopen(os.dup(1), "wb")
    os.dup2(2, 1)
    watch(jobs.fileno())
    known = json.loads(jobs.readline())

    def put(result: dict[str, Any]) -> None:
        results.write(json.dumps(result).encode("ascii") + b"\n")
        results.flush()

    try:
        from importlib import import_module

        import dexasm

        module, _, name = kind.partition(":")
        runner = getattr(import_module(module), name)(known)
        put({"version": dexasm.version()})
    except (ImportError, OSError, AttributeError) as error:
        put({"error": str(error)})
        return
    resource.setrlimit(resource.RLIMIT_AS, (memory, memory))
    resource.setrlimit(resource.RLIMIT_CORE, (0, 0))
    while line := jobs.readline():
        try:
            put(timed(runner, json.loads(line), seconds))
        except MemoryError:
            os._exit(MEMORY)


def timed(runner: Any, job: dict[str, Any], seconds: float) -> dict[str, Any]:
    """The result of a job, and how much is left of the time that it was given."""
    runner.prepare(job)
    set_timers(*job.get("left", (seconds, CLOCK * seconds)))
    result: dict[str, Any] = runner.run(job)
    left = signal.getitimer(signal.ITIMER_PROF)[0], signal.getitimer(signal.ITIMER_REAL)[0]
    set_timers(0, 0)
    return {**result, "left": left}
