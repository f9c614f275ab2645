"""Workers: processes with limits of time and memory. Each takes one job at a time and returns one result.

Jobs and results are lines of JSON on a worker's standard input and output; worker.py is what it runs. A worker that has
ended is replaced for the next job.
"""
from __future__ import annotations

import contextlib
import json
import os
import signal
import subprocess
import sys
import threading
import weakref
from collections.abc import Callable
from typing import Any

from dexasm._native import SOURCES
from dexasm.cli.errors import MEMORY, CliError

TRIES = 3  # how often a job is run whose worker is killed by another process
ENDS = {-signal.SIGPROF: "time", -signal.SIGALRM: "time", MEMORY: "memory"}
# (the folder of the package is not searched for other modules, nor is the working directory, as `python3 -m` would)
PROGRAM = (
    "import sys; sys.path[:] = [sys.argv[1], *filter(None, sys.path)]; import dexasm; del sys.path[0]\n"
    "from dexasm.cli.worker import work; work()"
)
Job = dict[str, Any]
workers: weakref.WeakSet[Worker] = weakref.WeakSet()
ending = threading.Event()


class Lost(Exception):
    """A job ended its worker: by the limit of `time` or `memory`, or `killed`. `is_last` is what `is_spent` returned."""

    def __init__(self, status: str, is_last: bool) -> None:
        super().__init__(status)
        self.status, self.is_last = status, is_last


class Worker:
    def __init__(self, kind: str, seconds: float, memory: int, known: Any) -> None:
        """`kind` is the class that runs jobs, as module:class; it is made of `known`, which is JSON too."""
        self.words, self.known = [kind, str(seconds), str(memory)], known
        self.process: subprocess.Popen[bytes] | None = None
        self.results = 0  # of this process
        workers.add(self)

    def run(self, job: Job, is_spent: Callable[[str | None], bool] = lambda status: False) -> Job:
        """Return the result of a job. A job whose worker is killed is run again, unless `is_spent` says so."""
        killed = 0
        while True:
            if self.process is None:
                self.start()
            self.send(job)
            result = self.receive()
            if result is not None:
                self.results += 1
                return result
            status, killed = ENDS.get(self.wait_status()), killed + 1
            is_last = is_spent(status)
            # (what a process holds of other jobs counts as its memory, so a new one runs this job again)
            if is_last or not (status is None and killed < TRIES or status == "memory" and self.results):
                raise Lost(status or "killed", is_last)

    def start(self) -> None:
        for _ in range(TRIES):
            self.spawn()
            self.send(self.known)
            found = self.receive()
            if found is not None and "version" in found:
                return
            why = f"it ended with status {self.wait_status()}" if found is None else str(found["error"])
            self.stop()
            if found is not None:
                break
        from dexasm.cli.sanitize import escaped

        raise CliError(f"a worker doesn't start: {escaped(why)}")

    def spawn(self) -> None:
        if ending.is_set():
            raise CliError("no worker is begun any more")
        self.results = 0
        self.process = subprocess.Popen(
            [sys.executable, "-B", "-c", PROGRAM, SOURCES, *self.words],
            stdin=subprocess.PIPE,
            stdout=subprocess.PIPE,
            stderr=subprocess.DEVNULL,
            start_new_session=True,
        )

    def send(self, job: Any) -> None:
        assert self.process is not None and self.process.stdin is not None
        with contextlib.suppress(OSError):  # (it has ended, which reading will tell)
            self.process.stdin.write(json.dumps(job).encode("ascii") + b"\n")
            self.process.stdin.flush()

    def receive(self) -> Job | None:
        """The worker's next result, or None if it has ended."""
        assert self.process is not None and self.process.stdout is not None
        line = self.process.stdout.readline()
        if not line.endswith(b"\n"):
            return None
        result: Job = json.loads(line)
        return result

    def wait_status(self) -> int:
        """The exit status of a worker that sends no more."""
        assert self.process is not None
        with contextlib.suppress(subprocess.TimeoutExpired):
            self.process.wait(1)
        return self.stop()

    def stop(self) -> int:
        """End the worker and what it started; return its exit status."""
        process, self.process = self.process, None
        if process is None:
            return 0
        end(process)
        close(process)
        return process.returncode


def end(process: subprocess.Popen[bytes]) -> None:
    """End a worker and what it started, also if it has ended itself."""
    with contextlib.suppress(ProcessLookupError):
        os.killpg(process.pid, signal.SIGKILL)
    process.wait()


def end_all() -> None:
    """End the workers of this process, whatever they do; no other ones are started."""
    ending.set()
    for worker in [*workers]:
        process = worker.process
        if process is not None and process.poll() is None:
            end(process)


def close(process: subprocess.Popen[bytes]) -> None:
    """Close the pipes to a worker."""
    for pipe in (process.stdin, process.stdout):
        with contextlib.suppress(OSError):
            pipe.close()  # type: ignore[union-attr]


def close_all() -> None:
    """Close the pipes to all of them, when they have ended and no thread reads these any more."""
    for worker in [*workers]:
        if worker.process is not None:
            close(worker.process)
