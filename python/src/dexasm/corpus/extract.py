"""Reads what a corpus keeps of .dex files: the jobs of a worker (cli/pool.py), and who sends them."""
from __future__ import annotations

import base64
import contextlib
import json
import os
import re
from collections.abc import Iterator
from typing import Any

from dexasm.cli.errors import CliError, reason
from dexasm.cli.filetypes import DEX, ZIP
from dexasm.cli.job import Job as FileJob
from dexasm.cli.pool import Lost, Worker
from dexasm.cli.worker import REASONS, opened_file

KEY = 16  # bytes of a SHA-256 by which a worker knows the files that are in
CALL = re.compile(r"^invoke-.* (\S+)$", re.M)
TEXT = re.compile(r'^const-string\S* v\d+ "(.*)"$', re.M)


# ---- in the worker


class Job(FileJob):
    """Runs jobs: a path, whether it was named itself, and the name of an entry of the archive that it is. The archive
    stays open for the jobs that follow.
    """

    entries = "dex_entries"

    def __init__(self, known: str) -> None:
        super().__init__({"program": False, "lint": False})
        self.known = base64.b64decode(known)
        for name in ("hashlib", "collections", "dexasm.cli.zip_read", "dexasm.program"):
            __import__(name)

    def prepare(self, job: dict[str, Any]) -> None:
        pass

    def run(self, job: dict[str, Any]) -> dict[str, Any]:
        """Return the entries of an archive, or what is known of a file: `seen` if it is in; with `digest` no more than
        its SHA-256 and size.
        """
        try:
            data = self.read(job["path"], [job["entry"]]) if "entry" in job else self.read_file(job)
        except CliError as failed:
            return {"unread": ["failed", failed.line.removeprefix(": ")]}
        except OSError as error:
            return {"unread": ["failed", reason(error)]}
        if not isinstance(data, bytes):
            return data
        import hashlib

        sha = hashlib.sha256(data).digest()
        if has_key(self.known, sha):
            return {"seen": [sha.hex(), len(data)]}
        return {"file": [sha.hex(), len(data), *([] if job.get("digest") else check_bytes(data))]}

    def read_file(self, job: dict[str, Any]) -> bytes | dict[str, Any]:
        """The bytes of a .dex file, or a result: the entries of an archive, or nothing."""
        self.close()
        self.file = opened_file(job["path"].encode("latin1"))
        first = self.file.peek(len(DEX))[: len(DEX)]
        if first.startswith(ZIP):
            return self.open(self.file, job["path"])
        with self.file:
            return self.file.read() if first == DEX or job["is_named"] else {}


def check_bytes(data: bytes) -> list[object]:
    """Status, fault, its name and place, and the program of a file."""
    import dexasm

    try:
        return ["ok", None, None, None, program_facts(data)]
    except dexasm.Refused as refused:
        return ["refused", refused.number, refused.name, refused.place, None]


def program_facts(data: bytes) -> tuple[str, int, list[tuple[object, ...]]]:
    """SHA-256 and size of the stripped bytes, and the classes."""
    import hashlib

    import dexasm

    stripped = dexasm.strip(data)
    sha, size = hashlib.sha256(stripped).hexdigest(), len(stripped)
    del stripped
    return sha, size, [class_facts(text) for text in dexasm.Program.read(data).classes.texts()]


def class_facts(text: str) -> tuple[object, ...]:
    """A class: the SHA-256 of its text, name, superclass, flags, and as JSON its members, calls and strings. Names
    and strings are as the listing spells them.
    """
    import hashlib
    from collections import Counter

    from dexasm.classes import Class
    from dexasm.names import quoted, spelled

    one = Class.of_text(text)
    name = spelled(one.name)
    members = []
    calls: Counter[tuple[str, str]] = Counter()
    strings: Counter[tuple[str, str]] = Counter()
    for kind, fields in (("s", one.statics), ("i", one.instances)):
        for field in fields:
            ref = f"{name}->{spelled(field.name)}:{spelled(field.type)}"
            members.append((kind, ref, field.flags))
            for value in field.value.all() if field.value else ():
                if value.kind == "string":
                    strings[ref, quoted(value.value)[1:-1]] += 1
    for kind, methods in (("d", one.directs), ("v", one.virtuals)):
        for method in methods:
            ref = f"{name}->{spelled(method.name)}{spelled(method.proto)}"
            members.append((kind, ref, method.flags))
            if method.code:
                code = str(method.code)
                calls.update((ref, called) for called in CALL.findall(code))
                strings.update((ref, literal) for literal in TEXT.findall(code))
    rows = members, [(*key, count) for key, count in calls.items()], [(*key, count) for key, count in strings.items()]
    sha = hashlib.sha256(text.encode("ascii")).hexdigest()
    return sha, name, one.superclass and spelled(one.superclass), one.flags, json.dumps(rows)


def has_key(known: bytes, sha: bytes) -> bool:
    """Whether the sorted keys have this one."""
    low, high, key = 0, len(known) // KEY, sha[:KEY]
    while low < high:
        middle = (low + high) // 2
        found = known[KEY * middle : KEY * middle + KEY]
        if found == key:
            return True
        low, high = (middle + 1, high) if found < key else (low, middle)
    return False


# ---- who sends them


class CorpusClient:
    """Reads files by a worker."""

    def __init__(self, seconds: float, memory: int, known: bytes) -> None:
        keys = base64.b64encode(known).decode("ascii")
        self.memory, self.worker = memory, Worker("dexasm.corpus.extract:Job", seconds, memory, keys)

    def run(self, path: bytes, is_named: bool, data: bytes | None = None) -> Iterator[tuple[Any, ...]]:
        """What is found of a path: `seen`, `file` or `unread`, each with the path and the entry after it."""
        with contextlib.ExitStack() as stack:
            place = path
            if data is not None:
                file = stack.enter_context(os.fdopen(os.memfd_create("sent"), "w+b"))
                file.write(data)
                file.flush()
                place = b"/proc/%d/fd/%d" % (os.getpid(), file.fileno())
            job = {"path": place.decode("latin1"), "is_named": is_named or path.endswith(b".dex")}
            result = self.result(job)
            yield from findings(path, "", result)
            for entry, size in result.get("entries", ()):
                if size > self.memory:
                    yield "unread", path, entry, "memory", REASONS["memory"]  # (as it says itself)
                else:
                    yield from findings(path, entry, self.result(job | {"entry": entry}))

    def result(self, job: dict[str, Any]) -> dict[str, Any]:
        """The result of a job. A file at which a worker ended by a limit is known by its SHA-256, if that can be read."""
        try:
            return self.worker.run(job)
        except Lost as lost:
            status = lost.status
        try:
            result = self.worker.run(job | {"digest": True})
        except Lost:
            return {"unread": [status, REASONS[status]]}
        return result | {"file": [*result["file"], status, None, None, None, None]} if "file" in result else result

    def stop(self) -> None:
        self.worker.stop()


def findings(path: bytes, entry: str, result: dict[str, Any]) -> Iterator[tuple[Any, ...]]:
    """What a result says of a file, with the path and the entry."""
    for what in ("seen", "file", "unread"):
        if what not in result:
            continue
        first, *rest = result[what]
        if what != "unread":
            first = bytes.fromhex(first)
        if what == "file" and rest[-1] is not None:
            sha, size, classes = rest[-1]
            rest[-1] = bytes.fromhex(sha), size, [(bytes.fromhex(text), *more) for text, *more in classes]
        yield (what, path, entry, first, *rest)


# ---- where a scheduler has the workers

idle: dict[tuple[object, ...], list[CorpusClient]] = {}


def run_batch(
    jobs: list[tuple[Any, ...]], run: str, seconds: float, memory: int, known: bytes
) -> list[tuple[Any, ...]]:
    """What is found of several paths; its worker stays for the next ones of this run."""
    for old in [key for key in idle if key[0] != run]:
        for client in idle.pop(old, []):
            client.stop()
    mine = idle.setdefault((run, seconds, memory), [])
    client = mine.pop() if mine else CorpusClient(seconds, memory, known)
    try:
        found = [one for job in jobs for one in client.run(*job)]
    except BaseException:
        client.stop()
        raise
    mine.append(client)
    return found
