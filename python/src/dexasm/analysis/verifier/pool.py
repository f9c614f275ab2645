"""Workers of dexasm-lint --code: processes that each check some of a program's classes within a limit of time.

They are forked, so they have the program already. Results are JSON, one message for each part of the classes.
"""
from __future__ import annotations

import json
import multiprocessing
import os
import signal
from collections.abc import Iterator
from itertools import accumulate
from multiprocessing.connection import Connection

from dexasm.analysis.verifier.report import Checker, Finding
from dexasm.cli.errors import MEMORY, CliError
from dexasm.cli.pool import ENDS
from dexasm.cli.worker import CLOCK, REASONS
from dexasm.program import Program

PARTS = 4  # times as many parts as workers
FORK = multiprocessing.get_context("fork")
Rows = tuple[int, int]  # of classes, from and to


class Worker:
    def __init__(self, checker: Checker, due: list[Rows], seconds: float) -> None:
        self.results, results = FORK.Pipe(duplex=False)
        self.process = FORK.Process(target=work, args=(checker, due, seconds, results), daemon=True)
        self.process.start()
        results.close()

    def result(self) -> list[Finding]:
        """The next one; if the worker ended before it, why."""
        try:
            return [Finding._make(one) for one in json.loads(self.results.recv_bytes())]
        except EOFError:
            self.process.join()
            raise CliError(REASONS[ENDS.get(self.process.exitcode or 0, "killed")]) from None

    def stop(self) -> None:
        self.process.kill()
        self.process.join()
        self.results.close()


def work(checker: Checker, due: list[Rows], seconds: float, results: Connection) -> None:
    """What a worker does. A timer that runs out ends it."""
    for one in (signal.SIGINT, signal.SIGPROF, signal.SIGALRM):
        signal.signal(one, signal.SIG_DFL)
    signal.setitimer(signal.ITIMER_PROF, seconds)
    signal.setitimer(signal.ITIMER_REAL, CLOCK * seconds)
    try:
        for first, end in due:
            found = [finding for row in range(first, end) for finding in checker.check(row)]
            results.send_bytes(json.dumps(found).encode())
    except MemoryError:
        os._exit(MEMORY)
    except BrokenPipeError:
        os._exit(0)


def check_by_workers(program: Program, jobs: int, is_boot_skipped: bool, seconds: float) -> Iterator[Finding]:
    """What is wrong in the code of a program, in the order of its classes. Each worker may take so many seconds of the
    processor, and CLOCK times as many by the clock.
    """
    checker, due = Checker(program, is_boot_skipped), parts(program, PARTS * jobs)
    workers: list[Worker] = []
    try:
        workers += [Worker(checker, due[first::jobs], seconds) for first in range(min(jobs, len(due)))]
        for number in range(len(due)):
            yield from workers[number % len(workers)].result()
    finally:
        for worker in workers:
            worker.stop()


def parts(program: Program, count: int) -> list[Rows]:
    """The classes in parts of about the same length of code."""
    ends = [*accumulate(sum(len(str(method.code)) for method in one.methods) for one in program.classes)]
    found: list[Rows] = []
    first = 0
    for row, end in enumerate(ends):
        if end * count >= ends[-1] * (len(found) + 1):
            found.append((first, row + 1))
            first = row + 1
    return found
