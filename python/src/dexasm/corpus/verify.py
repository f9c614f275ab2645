"""What dexasm-corpus merge --verify does: of another database it takes no more than where its files are, and looks at
these itself.
"""
from __future__ import annotations

import contextlib
import os
import stat
from collections.abc import Iterator
from typing import Any

from dexasm.cli.errors import REFUSED, CliError
from dexasm.cli.sanitize import escaped
from dexasm.corpus.database import WRONG, Corpus, connected, kept, refuse_strange, why
from dexasm.corpus.extract import KEY
from dexasm.corpus.ingest import Counts, LocalPool, batches, put_all

CLAIMS = "select sha256, path, entry from file left join path on file = id"
Claims = set[tuple[Any, ...]]


class VerifiedCorpus:
    """Takes of what is found what the other databases say is there: the bytes of that sum, at that place."""

    def __init__(self, corpus: Corpus, claims: Claims) -> None:
        self.corpus, self.claims = corpus, claims
        self.files: set[bytes] = set()

    def put_all(self, found: list[tuple[Any, ...]]) -> list[str]:
        mine = [one for one in found if one[0] != "unread" and (one[3], kept(one[1]), one[2]) in self.claims]
        self.files.update(one[3] for one in mine)
        return self.corpus.put_all(mine)


def claims_of(path: str) -> Claims:
    """The files of a database, and where they are."""
    name = escaped(path)
    try:
        with contextlib.closing(connected(path)) as db:
            refuse_strange(db, name)
            return {*db.execute(CLAIMS)}
    except WRONG as error:
        raise CliError(f"{name}: {why(error)}") from None


def present_files(claims: Claims) -> Iterator[tuple[bytes, bool, int]]:
    """The files that stand where the other databases say."""
    paths = {path for _, path, _ in claims if isinstance(path, (str, bytes))}
    for path in sorted(path.encode("utf8") if isinstance(path, str) else path for path in paths):
        with contextlib.suppress(OSError, ValueError):
            there = os.stat(path)
            if stat.S_ISREG(there.st_mode):
                yield path, True, there.st_size


def verify(corpus: Corpus, paths: list[str], options: Any) -> int:
    """Takes in what of the other databases' files is at hand; answers the status, which is another one if not all are."""
    claims = [claims_of(path) for path in paths]
    verified, counts = VerifiedCorpus(corpus, set().union(*claims)), Counts()
    where = LocalPool(options, corpus.known(KEY, False))
    try:
        put_all(verified, counts, batches(present_files(verified.claims), where.prepare), where)
    finally:
        counts.line.draw()
        where.close()
    status = 0
    for path, those in zip(paths, claims):
        files = {sha for sha, _, _ in those}
        left = len(files - verified.files)
        status = REFUSED if left else status
        summary = f"{len(files)} files, {len(files) - left} checked again"
        print(f"{escaped(path)}: {summary}, {left} not at hand: not verified, and left out")
    return status
