"""Asks of many files whether they are accepted, for dexasm-check: in a few workers (job.py is what they run),
which take many files each and have limits of memory and of time.
"""
from __future__ import annotations

import collections
import time
from collections.abc import Callable, Generator, Iterable, Iterator
from typing import Any

from dexasm.cli.discovery import describe_skipped, has_known_name, sniff, walk
from dexasm.cli.errors import reason
from dexasm.cli.filetypes import is_dex_name
from dexasm.cli.pool import Lost, Worker, close_all, end_all
from dexasm.cli.sanitize import escaped
from dexasm.cli.verdict import Verdict
from dexasm.cli.worker import REASONS

WORKERS = 8  # that may end at one archive
MANY, MUCH = 1024, 4 << 20  # files and bytes that a worker is given at once
AHEAD = 4  # times as much as the workers do is given out before
# So many bytes are worth a further worker, which takes as long to begin as the first one takes for most of them; a file
# counts some more than its own.
ENOUGH, EACH = 16 << 20, 2 << 10
LINTED = 32  # times as much time a file takes with --lint, so that workers are given so much less
SOON = 0.5  # seconds after which the one who waits looks up


# ---- one file


class Archive:
    """What is left of the time and memory that an archive may need, with all that is in it, and of its workers."""

    def __init__(self, memory: int, left: list[float]) -> None:
        self.memory, self.left, self.workers = memory, left, 0
        self.job: dict[str, Any] = {}
        self.started = 0.0

    def is_spent(self, status: str | None) -> bool:
        """Whether nothing is left after a worker ended at an entry."""
        self.workers += 1
        taken = time.monotonic() - self.started
        self.job["left"] = self.left = [left - taken for left in self.left]
        return status == "time" or self.workers >= WORKERS or min(self.left) <= 0


class CheckClient:
    """Checks files, one after the other, by a worker."""

    def __init__(self, options: Any) -> None:
        known = {"program": options.program, "lint": options.lint}
        self.memory, self.worker = options.memory, Worker("dexasm.cli.job:Job", options.seconds, options.memory, known)

    def check_file(self, path: bytes) -> Iterator[Verdict]:
        try:
            result = self.worker.run({"path": path.decode("latin1")})
        except Lost as lost:
            yield Verdict(path, "", None, lost.status, why=REASONS[lost.status])
            return
        if "entries" not in result:
            yield from verdicts_of(path, "", result)
            return
        archive, is_empty = Archive(self.memory, result["left"]), True
        for verdict in self.check_entries(path, archive, [], result["entries"]):
            is_empty = False
            yield verdict
        if is_empty:
            # (a .jar needn't have any, and each project of Gradle has one that hasn't)
            status = "failed" if path.lower().endswith(b".apk") else "empty"
            yield Verdict(path, "", "archive", status, why="no .dex file in it")

    def check_entries(
        self, path: bytes, archive: Archive, within: list[str], entries: list[tuple[str, int]]
    ) -> Generator[Verdict, None, bool]:
        """Verdicts of an archive's entries; `within` is its name if it is in another one. Returns whether the archive is
        spent.
        """
        for name, size in entries:
            names, entry = [*within, name], "!".join([*within, name])
            kind = "dex" if is_dex_name(name) else "archive"
            if kind == "archive" and within:
                yield Verdict(path, entry, kind, "skipped", why="an archive two archives deep")
                continue
            if size > archive.memory:  # (an entry's size as the directory has it)
                yield Verdict(path, entry, kind, "memory", why=REASONS["memory"])
                continue
            archive.memory -= size
            try:
                result = self.run(path, archive, names)
            except Lost as lost:
                end = ": the rest of the archive is not checked" if lost.is_last else ""
                yield Verdict(path, entry, None, lost.status, why=REASONS[lost.status] + end)
                if lost.is_last:
                    return True
                continue
            if "entries" not in result:
                yield from verdicts_of(path, entry, result)
            elif (yield from self.check_entries(path, archive, names, result["entries"])):
                return True
        return False

    def run(self, path: bytes, archive: Archive, names: list[str]) -> dict[str, Any]:
        archive.job = {"path": path.decode("latin1"), "names": names, "left": archive.left}
        archive.started = time.monotonic()
        result = self.worker.run(archive.job, archive.is_spent)
        archive.left = result["left"]
        return result

    def stop(self) -> None:
        self.worker.stop()


def verdicts_of(path: bytes, entry: str, result: dict[str, Any]) -> Iterator[Verdict]:
    """The rules that are broken, or what is said of the file."""
    for fields in result.get("findings") or [result["verdict"]]:
        yield Verdict(path, entry, **fields)


# ---- all of them


NO_FIRST_LINE = "looks like a listing, but does not begin with `dex 035 listing 2`: not checked"


def find_inputs(
    paths: Iterable[bytes], excluded_by: Callable[[bytes], str | None] = lambda path: None
) -> Iterator[tuple[bytes, int] | Verdict]:
    """The files of the paths with their sizes; of a folder those that are called as .dex files or archives are, or begin
    as these do. What can't be read is a verdict, and so is what is excluded, and what stands below a folder and is
    neither file nor folder.
    """
    verdicts: list[Verdict] = []

    def wrong(path: bytes, error: OSError) -> None:
        verdicts.append(Verdict(path, "", None, "failed", why=reason(error)))

    def other(top: bytes, path: bytes) -> None:
        try:
            is_wrong, why = describe_skipped(top, path)
        except OSError as error:
            wrong(path, error)
        else:
            verdicts.append(Verdict(path, "", None, "failed" if is_wrong else "skipped", why=why))

    for path in paths:
        for file, is_named, size in walk(path, wrong, other):
            is_one: bool | None = is_named or has_known_name(file)
            try:
                is_one = is_one or sniff(file)  # (None if it only looks like a listing)
            except OSError as error:
                wrong(file, error)
            pattern = excluded_by(file) if is_one else None
            if pattern is not None:
                verdicts.append(Verdict(file, "", None, "skipped", why=f"excluded by --exclude {escaped(pattern)}"))
                is_one = False
            if is_one is None:
                verdicts.append(Verdict(file, "", "listing", "skipped", why=NO_FIRST_LINE))
            while verdicts:
                yield verdicts.pop(0)
            if is_one:
                yield file, size
        while verdicts:
            yield verdicts.pop(0)


def batches(found: Iterable[tuple[bytes, int] | Verdict], is_linted: bool) -> Iterator[list[bytes] | Verdict]:
    enough = MUCH // LINTED if is_linted else MUCH
    paths: list[bytes] = []
    much = 0
    for one in found:
        if paths and (isinstance(one, Verdict) or len(paths) == MANY or much >= enough):
            yield paths
            paths, much = [], 0
        if isinstance(one, Verdict):
            yield one
        else:
            paths.append(one[0])
            much += one[1]
    if paths:
        yield paths


def count_workers(found: list[tuple[bytes, int] | Verdict], options: Any) -> int:
    """How many workers these files are worth."""
    much = sum(EACH + one[1] for one in found if not isinstance(one, Verdict)) * (LINTED if options.lint else 1)
    count: int = min(options.jobs, 1 + much // ENOUGH)
    return count


def check_all(found: list[tuple[bytes, int] | Verdict], options: Any, wait: Callable[[], None]) -> Iterator[Verdict]:
    """Verdicts in the order of what was found. `wait` is called now and then while none is there."""
    workers = count_workers(found, options)
    yield from check_in_turn(found, options, wait) if workers == 1 else check_in_parallel(found, options, wait, workers)


def check_in_turn(
    found: Iterable[tuple[bytes, int] | Verdict], options: Any, wait: Callable[[], None]
) -> Iterator[Verdict]:
    """By one worker."""
    checker = CheckClient(options)
    wait()
    try:
        for one in batches(found, options.lint):
            if isinstance(one, Verdict):
                yield one
            else:
                yield from (verdict for path in one for verdict in checker.check_file(path))
    finally:
        checker.stop()


def check_in_parallel(
    found: Iterable[tuple[bytes, int] | Verdict], options: Any, wait: Callable[[], None], workers: int
) -> Iterator[Verdict]:
    """By several workers."""
    import concurrent.futures

    idle: list[CheckClient] = []

    def check(paths: list[bytes]) -> list[Verdict]:
        checker = idle.pop() if idle else CheckClient(options)
        try:
            verdicts = [verdict for path in paths for verdict in checker.check_file(path)]
        except BaseException:
            checker.stop()
            raise
        idle.append(checker)
        return verdicts

    pool = concurrent.futures.ThreadPoolExecutor(workers)
    due: collections.deque[Any] = collections.deque()
    work = batches(found, options.lint)
    try:
        while True:
            while len(due) < AHEAD * workers and (batch := next(work, None)) is not None:
                due.append(batch if isinstance(batch, Verdict) else pool.submit(check, batch))
            if not due:
                return
            first = due.popleft()
            if isinstance(first, Verdict):
                yield first
                continue
            while concurrent.futures.wait([first], SOON).not_done:
                wait()
            yield from first.result()
    finally:
        end_all()
        pool.shutdown(wait=True, cancel_futures=True)
        close_all()
