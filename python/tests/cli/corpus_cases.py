"""Corpora: programs of which they are made, and what is asked of them."""
import functools
import json
import os
import sqlite3
from typing import Any

from tests.matchers import ANY
from ..cases import TEXTS
from .archive_files import archive
from .support import HEAD, LISTING, NAMES, HelperTest, Line, assembled, dexasm, get, put, puts, room, scratch, tool

LIBRARY = TEXTS["corpus_cases LIBRARY"].encode()
APP = b"""class Lapp/Main; 0x1
super Ll/A;
static k Ljava/lang/String; 0x9 = string "key"
static o Ljava/lang/String; 0x9 = string "once"
end class
"""
WIDE = "\uff1d1"  # (some spreadsheets take the wide forms of =1 too)


def asked(at: str, job: str, *words: str, **options: Any) -> Any:
    """What a query answers, as JSON."""
    status, out, said = tool("dexasm-corpus", job, "--json", *words, at=at, **options)
    return json.loads(out) if (status, said) == (0, "") else (status, said)


def sums(at: str, file: str = "c.db") -> Any:
    found = asked(at, "sum", file)
    return {row["table"]: (row["rows"], row["sum"]) for row in found} if isinstance(found, list) else found


def rows(at: str, words: str, file: str = "c.db") -> list[Any]:
    db = sqlite3.connect(os.path.join(at, file))
    try:
        return db.execute(words).fetchall()
    finally:
        db.close()


@functools.cache
def bomb() -> bytes:
    """An archive that is small until it is unpacked."""
    entries = ("classes.dex", assembled(LISTING)), ("classes2.dex", bytes(400 << 20)), ("classes3.dex", b"")
    return archive(*entries, compression=8)


def strange(at: str) -> None:
    """A folder of files that are meant to do harm."""
    file = assembled(LISTING)
    for name in (*NAMES, "'; drop table file; --"):
        put(at, f"d/{name}.dex", file)
    for name in NAMES[:3]:
        put(at, f"d/{name}.apk", archive(("classes.dex", file), ("classes2.dex", file[:-1])))
    puts(at, {
        os.fsdecode(b"d/n\xff.dex"): file, "d/empty.dex": b"", "d/other": b"no file", "d/begins": file[:100],
        "d/bad.apk": archive(("classes.dex", file))[:-30], "d/bomb.apk": bomb(),
        "d/encrypted.apk": archive(("classes.dex", file)).replace(
            b"PK\1\2\x14\x03\x14\0\0\0", b"PK\1\2\x14\x03\x14\0\1\0"
        )
    })
    os.mkfifo(os.path.join(at, "d", "fifo.dex"))
    os.symlink("/dev/zero", os.path.join(at, "d", "zero.dex"))
    os.symlink("..", os.path.join(at, "d", "loop"))
    with open(os.path.join(at, "d", "sparse.dex"), "wb") as sparse:
        sparse.truncate(1 << 40)


@functools.cache
def slow(classes: int = 16000) -> bytes:
    """A file of so many classes, which takes a second for 15,000 to 40,000."""
    one = b"class LA%d; 0x1\ndirect m ()V 0x9\ncode 0 0 0\ninvoke-static { } LA;->m()V\nreturn-void\n"
    one += b"end code\nend class\n"
    return assembled(HEAD + b"".join(one % number for number in range(classes)))


def programs(at: str) -> tuple[bytes, bytes]:
    """Three programs in five files, one of them refused besides, and an archive."""
    first, second = assembled(HEAD + LIBRARY % 1), assembled(HEAD + LIBRARY % 2)
    puts(at, {
        "f/a.dex": first,
        "f/b.dex": dexasm("strip", given=first) if dexasm("strip", given=first) != first else first + b"",
        "f/c.dex": second, "f/d.dex": assembled(HEAD + LIBRARY % 1 + APP), "f/e.dex": first[:-1],
        "f/x.apk": archive(("classes.dex", first), ("classes2.dex", second[:40]))
    })
    return first, second


def padded(file: bytes) -> bytes:
    """The same program in another file: an unused string makes it longer; without a tool for that its link data do."""
    made = bytearray(file + bytes(4))
    made[32:36] = len(made).to_bytes(4, "little")
    data = int.from_bytes(file[104:108], "little") + 4
    made[104:108] = data.to_bytes(4, "little")
    path = put(room(f"padded {len(os.listdir(scratch()))}"), "a.dex", bytes(made))
    tool("dexasm-close", "--in-place", path)
    return get(path)


class CorpusTest(HelperTest):
    """A test of a corpus."""

    def added(self, what: str, at: str, *words: str, want: int = 0, says: str | None = None, **options: Any) -> str:
        seen = tool("dexasm-corpus", "add", *words, at=at, **options)
        self.check_equal(f"add {what}", seen, (want, ANY, "" if says is None else Line(says)))
        return seen[1]
