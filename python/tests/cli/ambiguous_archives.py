"""Archives from which readers could take different entries, and honest ones, made by a seed."""
import random
import struct
import zlib
from collections.abc import Callable, Iterator

from .android_zip import END, END64, LOCAL, LOCATOR, LONG, ROW, SHORT
from .archive_files import archive, streamed

NAMES = "classes.dex", "classes2.dex"
HEADERS = b"PK\3\4", b"PK\1\2", b"PK\5\6"
# Fields of a header, of a row and of the end record that say where something is, how long it is or how it is stored.
FIELDS = ([(6, 2), (8, 2), (14, 4), (18, 4), (22, 4), (26, 2), (28, 2)],
          [(8, 2), (10, 2), (16, 4), (20, 4), (24, 4), (28, 2), (30, 2), (32, 2), (34, 2), (42, 4)],
          [(4, 2), (6, 2), (8, 2), (10, 2), (12, 4), (16, 4), (20, 2)])


class Parts:
    """An archive in parts: the entries, the rows of its directory, and the end record's fields."""

    def __init__(self, entries: list[tuple[str, bytes]], method: int, base: int = 0) -> None:
        self.local, self.rows, self.count = b"", b"", len(entries)
        for name, given in entries:
            packer = zlib.compressobj(9, zlib.DEFLATED, -zlib.MAX_WBITS)
            packed = packer.compress(given) + packer.flush() if method else given
            same = zlib.crc32(given), len(packed), len(given), len(name)
            offset = base + len(self.local)
            self.local += LOCAL.pack(b"PK\3\4", 20, 0, method, 0, 33, *same, 0) + name.encode() + packed
            row = ROW.pack(b"PK\1\2", 20, 20, 0, method, 0, 33, *same, 0, 0, 0, 0, 0, offset)
            self.rows += row + name.encode()

    def end(self, begin: int, **other: int) -> bytes:
        count = other.get("count", self.count)
        size = other.get("size", len(self.rows))
        return END.pack(b"PK\5\6", 0, 0, other.get("on_disk", count), count, size, begin, other.get("comment", 0))

    def end64(self, begin: int, place: int, **other: int) -> bytes:
        count, size = other.get("count", self.count), other.get("size", len(self.rows))
        record = END64.pack(b"PK\6\6", 44, 45, 45, 0, 0, count, count, size, begin)
        return record + LOCATOR.pack(b"PK\6\7", 0, other.get("at", place), other.get("disks", 1))

    def whole(self) -> bytes:
        return self.local + self.rows + self.end(len(self.local))


def pair(random_: random.Random) -> tuple[Parts, Parts]:
    """A good and an evil archive with the same names, one behind the other."""
    size, count, method = random_.choice((40, 80, 300)), random_.choice((1, 1, 2)), random_.choice((0, 8))
    evil_size = size if random_.random() < 0.7 else size + random_.randrange(1, 90)
    evil = Parts([(name, b"EVIL" * (evil_size // 4)) for name in NAMES[:count]], method)
    # (a reader that shifts all offsets so that the last directory counts shifts by the first one)
    bases = len(evil.local), len(evil.local) - len(evil.rows), len(evil.whole())
    base = random_.choices(bases, (1, 3, 1))[0]
    good = Parts([(name, b"good" * (size // 4)) for name in NAMES[:count]], method, base)
    return evil, good


def two_directories(random_: random.Random) -> bytes:
    evil, good = pair(random_)
    local = evil.local + good.local
    gap = bytes(random_.choice((0, 0, 0, 0, 0, 4)))
    begins = len(local), len(local) + len(evil.rows) + len(gap), 0, len(evil.local)
    begin = random_.choices(begins, (6, 2, 1, 1))[0]
    rows = evil.rows + gap + good.rows
    return local + rows + good.end(begin, count=random_.choice((*3 * [good.count], 1, 3)))


def with_zip64(random_: random.Random) -> bytes:
    evil, good = pair(random_)
    local = evil.local + good.local
    order = random_.choice(((evil, good), (good, evil)))
    table = order[0].rows + order[1].rows
    begins = len(local), len(local) + len(order[0].rows)
    place = len(local) + len(table)
    other: dict[str, int] = {"count": SHORT} if random_.random() < 0.3 else {}
    other |= {"size": LONG} if random_.random() < 0.3 else {}
    begin = random_.choice((*begins, LONG))
    more = {"at": random_.choice((place, place, place, 0, place - 1)), "disks": random_.choice((1, 1, 1, 0, 2))}
    end64 = order[1].end64(random_.choice(begins), place, **more)
    return local + table + end64 + order[0].end(begin, **other)


def honest_zip64(random_: random.Random) -> bytes:
    good = Parts([(name, b"good" * 30) for name in NAMES], random_.choice((0, 8)))
    begin, place = len(good.local), len(good.local) + len(good.rows)
    ones: dict[str, int] = {"count": SHORT} if random_.random() < 0.5 else {}
    ones |= {"size": LONG} if random_.random() < 0.5 else {}
    end = good.end(random_.choice((begin, LONG)), **ones)
    return good.local + good.rows + good.end64(begin, place) + end


def behind_another(random_: random.Random) -> bytes:
    evil, good = pair(random_)
    good = good if random_.random() < 0.5 else Parts([(NAMES[0], b"good" * random_.choice((10, 75)))], 0)
    first, second = (evil, good) if random_.random() < 0.8 else (good, evil)
    return first.whole() + second.local + second.rows + second.end(len(second.local))


def with_front(random_: random.Random) -> bytes:
    front = random_.choice((b"PK\5\6", b"PK\7\10", b"PK\3\4" + bytes(26), b"dex\n", b"#!/bin/sh\n", bytes(30)))
    good = Parts([(NAMES[0], b"good" * 20)], 0, random_.choice((0, len(front))))
    return front + good.local + good.rows + good.end(random_.choice((0, len(front))) + len(good.local))


def with_tail(random_: random.Random) -> bytes:
    evil, good = pair(random_)
    local = evil.local + good.local
    tail = random_.choice((b"\n", evil.end(len(local)), bytes(22), b"PK\5\6", evil.rows + evil.end(len(local))))
    comment = random_.choice((0, len(tail), SHORT))
    begin = len(local) + len(evil.rows)
    return local + evil.rows + good.rows + good.end(begin, comment=comment) + tail


def with_fields(random_: random.Random) -> bytes:
    """Some fields are others, in an archive with one directory or with two."""
    out = bytearray(random_.choice((two_directories, with_zip64, honest))(random_))
    for _ in range(random_.choice((1, 1, 2))):
        kind = random_.randrange(3)
        places = [at for at in range(len(out) - 4) if out[at : at + 4] == HEADERS[kind]]
        if places:
            at, size = random_.choice(FIELDS[kind])
            old = int.from_bytes(out[(where := random_.choice(places) + at) : where + size], "little")
            limit = 1 << 8 * size
            new = random_.choice((old + 1, old - 1, old ^ 1 << random_.randrange(8 * size), 0, limit - 1))
            out[where : where + size] = (new % limit).to_bytes(size, "little")
    return bytes(out)


def damaged(random_: random.Random) -> bytes:
    out = bytearray(random_.choice((two_directories, with_zip64, behind_another, honest_zip64))(random_))
    for _ in range(random_.choice((1, 2, 4))):
        out[random_.randrange(len(out))] = random_.randrange(256)
    return bytes(out)


def honest(random_: random.Random) -> bytes:
    entries = [(name, b"good" * random_.randrange(200)) for name in (*NAMES, "res/x")]
    if random_.random() < 0.5:
        return streamed(*entries)
    return archive(*entries, compression=random_.choice((0, 8)))


MAKERS: dict[str, Callable[[random.Random], bytes]] = {
    maker.__name__: maker
    for maker in (
        two_directories, with_zip64, honest_zip64, behind_another, with_front, with_tail, with_fields, damaged, honest
    )
}


def made(seed: int, count: int) -> Iterator[tuple[str, int, bytes]]:
    """So many archives, of each kind in turn: its kind, its number and its bytes."""
    for number in range(count):
        kind = [*MAKERS][number % len(MAKERS)]
        try:
            yield kind, number, MAKERS[kind](random.Random(f"{seed} {number}"))
        except struct.error:
            continue  # (a field that its place can't have)
