"""What dexasm-corpus add does: it walks, has the files looked at, here or by Dask, and writes what was found."""
from __future__ import annotations

import concurrent.futures
import contextlib
import logging
import os
import secrets
import stat
import threading
import time
from collections.abc import Callable, Iterator
from typing import TYPE_CHECKING, Any

from dexasm.cli.discovery import expand_paths, walk
from dexasm.cli.errors import FAILED, CliError, reason
from dexasm.cli.main import print_error
from dexasm.cli.sanitize import escaped
from dexasm.cli.terminal import StatusLine
from dexasm.cli.pool import close_all, end_all
from dexasm.corpus.database import Corpus
from dexasm.corpus.extract import KEY, run_batch

if TYPE_CHECKING:
    from dexasm.corpus.verify import VerifiedCorpus

MANY, MUCH = 64, 16 << 20  # files and bytes of a batch
GONE = "the scheduler is gone: the same command continues when there is one"
SOON, LATE = 30, 600  # seconds for which a scheduler and its workers are waited for, at first and when all were killed
AGAIN = 10  # how often it goes on after workers of Dask were killed
Jobs = list[tuple[object, ...]]


class Counts:
    """What was found, of paths and of the files that weren't in before; on a terminal it is shown as it comes."""

    def __init__(self) -> None:
        self.paths = self.bytes = self.new = self.refused = self.limits = self.unread = self.status = 0
        self.is_bad = False  # a path can't be read, or its file isn't accepted
        self.all: int | None = None
        self.begun, self.line = time.monotonic(), StatusLine()

    def take(self, found: tuple[Any, ...]) -> None:
        """What was found at a path."""
        if found[0] == "unread":
            self.unread += 1
            self.is_bad = True
            return
        self.paths += 1
        self.bytes += found[4]
        self.is_bad = self.is_bad or found[0] == "file" and found[5] != "ok"

    def show(self, jobs: int) -> None:
        """One line, at most twice a second; of names nothing is in it."""
        if not self.line.is_due():
            return
        taken = time.monotonic() - self.begun
        left = f", {taken / jobs * max(self.all - jobs, 0):.0f} s left" if self.all and jobs else ""
        self.line.draw(f"{self.paths} paths, {self.bytes / 1e6 / taken:.1f} MB/s, {self.refused} files refused{left}")

    def end(self) -> None:
        taken = time.monotonic() - self.begun
        print(
            f"{self.paths} paths, {self.unread} not read; {self.new} new files, {self.refused} refused,"
            f" {self.limits} past a limit: {self.bytes / 1e6:.1f} MB in {taken:.1f} s"
        )


# ---- jobs


def batches(files: Iterator[tuple[bytes, bool, int]], prepare: Callable[..., tuple[object, ...]]) -> Iterator[Jobs]:
    jobs: Jobs = []
    much = 0
    for path, is_named, size in files:
        jobs.append(prepare(path, is_named))
        much += size
        if len(jobs) == MANY or much >= MUCH:
            yield jobs
            jobs, much = [], 0
    if jobs:
        yield jobs


# ---- who looks


class LocalPool:
    """Workers of this machine."""

    def __init__(self, options: Any, known: bytes) -> None:
        self.most = 2 * options.processes
        self.settings = secrets.token_hex(8), options.seconds, options.memory, known
        self.pool = concurrent.futures.ThreadPoolExecutor(options.processes)

    def prepare(self, path: bytes, is_named: bool) -> tuple[object, ...]:
        return path, is_named

    def submit(self, jobs: Jobs) -> Any:
        try:
            return self.pool.submit(run_batch, jobs, *self.settings)
        except RuntimeError as error:
            raise CliError(f"no worker can be started: {escaped(str(error))}") from None

    def wait(self, due: dict[Any, Jobs]) -> Iterator[tuple[Any, list[Any] | None]]:
        """Those that are done, and what they found; at the latest after half a second."""
        for one in concurrent.futures.wait(due, 0.5, concurrent.futures.FIRST_COMPLETED).done:
            yield one, one.result()

    def close(self) -> None:
        end_all()
        self.pool.shutdown(wait=True, cancel_futures=True)
        close_all()


class DaskPool:
    """Workers of a scheduler of Dask."""

    def __init__(self, options: Any, known: bytes) -> None:
        try:
            import distributed
        except ImportError as error:
            raise CliError(f"--scheduler needs the module distributed, of Dask: {escaped(str(error))}") from None
        logging.disable()  # (what goes wrong is one line of ours)
        self.dask, self.is_sent, self.most_bytes = distributed, options.send, options.memory
        self.scheduler, self.known = options.scheduler, known
        self.settings = secrets.token_hex(8), options.seconds, options.memory
        self.lost = 0  # how often workers were killed with what they had
        with self.failing():
            self.client = distributed.Client(options.scheduler, timeout=SOON)
        self.equip(SOON)
        self.most = 3 * max(sum(self.client.nthreads().values()), 1)

    @contextlib.contextmanager
    def failing(self) -> Iterator[None]:
        """What a scheduler answers that doesn't do what is asked is told in a line."""
        try:
            yield
        except (OSError, ValueError, TimeoutError, RuntimeError, TypeError) as error:
            raise CliError(f"{escaped(self.scheduler)}: {escaped(str(error)) or type(error).__name__}") from None

    def equip(self, patience: int) -> None:
        """Gives the workers, and those that come, the keys of the files that are in."""
        with self.failing():
            self.held = self.client.scatter(self.known, broadcast=True, hash=False, timeout=patience)

    def prepare(self, path: bytes, is_named: bool) -> tuple[object, ...]:
        if not self.is_sent:
            return path, is_named
        try:
            at = os.open(path, os.O_RDONLY | os.O_NONBLOCK | os.O_NOCTTY)
            with os.fdopen(at, "rb") as file:
                if stat.S_ISREG(os.fstat(at).st_mode) and os.fstat(at).st_size < self.most_bytes:
                    return path, is_named, file.read()
        except OSError:
            pass
        return path, is_named  # (the worker tells what is wrong with it)

    def submit(self, jobs: Jobs) -> Any:
        try:
            return self.client.submit(run_batch, jobs, *self.settings, self.held, pure=False)
        except Exception:  # (a bare one, where the client has closed itself)
            self.check_scheduler()
            raise

    def check_scheduler(self) -> None:
        """Whether the scheduler is still there."""
        if self.client.status != "running":
            raise CliError(GONE)

    def wait(self, due: dict[Any, Jobs]) -> Iterator[tuple[Any, list[Any] | None]]:
        with contextlib.suppress(TimeoutError, self.dask.TimeoutError, concurrent.futures.CancelledError):
            self.dask.wait([*due], timeout=0.5, return_when="FIRST_COMPLETED")
        self.check_scheduler()
        is_lost = False
        for one in [one for one in due if one.done()]:
            try:
                yield one, one.result()
            except (self.dask.scheduler.KilledWorker, concurrent.futures.CancelledError):
                self.check_scheduler()
                if not is_lost:
                    is_lost = True
                    self.lose()
                yield one, None
            except ModuleNotFoundError as error:
                raise CliError(
                    f"a worker of Dask hasn't this version of the package dexasm: {escaped(str(error))}"
                ) from None

    def lose(self) -> None:
        """After workers were killed: where all that had the keys are gone, what needs these was cancelled."""
        self.lost += 1
        if self.lost > AGAIN:
            raise CliError("workers of Dask were killed too often")
        if self.held.status != "finished":
            self.equip(LATE)

    def close(self) -> None:
        # (a scheduler that is gone doesn't answer: what led here is told, not that)
        with contextlib.suppress(OSError, TimeoutError, self.dask.TimeoutError):
            self.client.close(timeout=5)


# ---- the whole


def add(corpus: Corpus, options: Any) -> Counts:
    """Has all files looked at, and writes what was found in the order in which it comes."""
    counts = Counts()

    def wrong(path: bytes, error: OSError) -> None:
        counts.line.draw()
        print_error(f"dexasm-corpus: {escaped(os.fsdecode(path))}: {reason(error)}")
        counts.status = FAILED

    files = (file for path in expand_paths(options.paths) for file in walk(path, wrong))
    if counts.line.is_shown and "-" not in options.paths:
        with contextlib.suppress(RuntimeError):  # (no thread can be started: then the files aren't counted)
            threading.Thread(target=count, args=(counts, options.paths), daemon=True).start()
    known = corpus.known(KEY, options.again)
    where: LocalPool | DaskPool = DaskPool(options, known) if options.scheduler else LocalPool(options, known)
    try:
        put_all(corpus, counts, batches(files, where.prepare), where)
    finally:
        counts.line.draw()
        where.close()
    counts.end()
    return counts


def count(counts: Counts, paths: list[str]) -> None:
    counts.all = sum(1 for path in expand_paths(paths) for _ in walk(path, lambda *_: None))


def put_all(corpus: Corpus | VerifiedCorpus, counts: Counts, work: Iterator[Jobs], where: LocalPool | DaskPool) -> None:
    due: dict[Any, Jobs] = {}
    jobs = 0
    while True:
        while len(due) < where.most and (batch := next(work, None)):
            due[where.submit(batch)] = batch
        if not due:
            return
        found = []
        for one, results in where.wait(due):
            batch = due.pop(one)
            if results is None:
                due[where.submit(batch)] = batch
                continue
            jobs += len(batch)
            found += results
        states = corpus.put_all(found)  # of files that weren't in
        counts.new, counts.refused = counts.new + len(states), counts.refused + states.count("refused")
        counts.limits += len([one for one in states if one not in ("ok", "refused")])
        for one in found:
            counts.take(one)
        counts.show(jobs)
