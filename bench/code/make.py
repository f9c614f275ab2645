#!/usr/bin/env python3
"""Writes a .dex file with so many code items.

Each item takes 256 bytes and has instructions in about the shares that they have in real programs: moves, constants,
fields, calls, branches, a switch in one of twelve items and a try in one of eight. A thousand items are made, and then
repeated.
"""
import argparse
import os
import random
import struct
import sys

sys.path.insert(0, os.path.join(os.path.dirname(os.path.abspath(__file__)), "..", "hostile"))
from shapes import File  # noqa: E402

STRIDE = 256


def plain(draw):
    """An instruction that leads nowhere else, as its units."""
    a, b, c = draw.randrange(16), draw.randrange(16), draw.randrange(256)
    kind = draw.choices(range(14), (12, 10, 6, 14, 6, 16, 12, 5, 4, 5, 3, 2, 3, 2))[0]
    return [
        [0x0c | c << 8],  # move-result-object
        [0x12 | a << 8 | b << 12],  # const/4
        [0x13 | c << 8, draw.randrange(65536)],  # const/16
        [0x54 | a << 8 | b << 12, 0],  # iget-object
        [0x5b | a << 8 | b << 12, 0],  # iput-object
        [0x6e | 0x2000, 0, a | b << 4],  # invoke-virtual of two registers
        [0x70 | 0x1000, 0, a],  # invoke-direct of one
        [0x1a | c << 8, draw.randrange(5)],  # const-string
        [0x07 | a << 8 | b << 12],  # move-object
        [0x22 | c << 8, draw.randrange(3)],  # new-instance
        [0xD8 | a << 8, b | c << 8],  # add-int/lit8
        [0x90 | a << 8, b | c << 8],  # add-int
        [0x14 | c << 8, draw.randrange(65536), draw.randrange(65536)],  # const
        [0x46 | a << 8, b | c << 8],  # aget-object
    ][kind]


def units_of(draw, count):
    """Instructions of so many units: the units, and the addresses of all that are no payloads."""
    switch = draw.randrange(12) == 0
    room = count - (1 + (3 + 12 if switch else 0))
    parts, at, starts, branches = [], 0, [], []
    while at < room:
        starts.append(at)
        if draw.randrange(7) == 0 and room - at >= 2:
            part = [draw.choice((0x38, 0x39)) | draw.randrange(256) << 8, 0]
            branches.append((len(parts), at))
        elif draw.randrange(30) == 0:
            part = [0x28]
            branches.append((len(parts), at))
        else:
            part = plain(draw)
            if len(part) > room - at:
                part = [0]
        parts.append(part)
        at += len(part)
    if switch:
        starts.append(at)
        parts.append([0x2B, 0, 0])
        switch_at, switch_part = at, len(parts) - 1
        at += 3
    starts.append(at)
    parts.append([0x0E])
    at += 1
    if switch:
        if at % 2:
            starts.append(at)
            parts.append([0])
            at += 1
        parts[switch_part][1:] = [at - switch_at, 0]
        part = [0x0100, 3, 0, 0]
        for _ in range(3):
            offset = (draw.choice(starts) - switch_at) % 2**32
            part += [offset % 65536, offset // 65536]
        parts.append(part)
        at += len(part)
        while at < count:
            starts.append(at)
            parts.append([0])
            at += 1
    for number, begin in branches:
        to = draw.choice([start for start in starts if start != begin])
        if len(parts[number]) == 2:
            parts[number][1] = (to - begin) % 65536
        else:
            parts[number][0] |= (to - begin) % 256 << 8
    return [unit for part in parts for unit in part], starts


def item(draw):
    tries = int(draw.randrange(8) == 0)
    count = 112 if tries else 120
    units, starts = units_of(draw, count)
    assert len(units) == count, len(units)
    out = struct.pack("<HHHHII", 256, 1, 2, tries, 0, count) + struct.pack(f"<{count}H", *units)
    if tries:
        begin = draw.choice(starts)
        out += struct.pack("<IHH", begin, draw.randrange(1, count - begin + 1), 1)
        out += bytes([1, 0x7F, 1, draw.choice(starts), draw.choice(starts)])
    return out.ljust(STRIDE, b"\0")


class Codes(File):
    """A file of five strings, three types, a prototype, a field, a method, and code items that no method has."""

    ORDER = "texts", "codes"

    def __init__(self, items):
        super().__init__()
        self.field("LA;", "a", "I")
        self.method("LA;", "b", self.proto("V"))
        self.items = items

    def codes(self, begin):
        return self.items, len(self.items) // STRIDE, {}


def main():
    words = argparse.ArgumentParser(description=__doc__, formatter_class=argparse.RawDescriptionHelpFormatter)
    words.add_argument("count", metavar="ITEMS", type=int)
    words.add_argument("out", metavar="FILE")
    given = words.parse_args()
    draw = random.Random(35)
    made = b"".join(item(draw) for _ in range(1000))
    file = Codes((made * (given.count // 1000 + 1))[: given.count * STRIDE])
    file.index()
    file.write(given.out)


if __name__ == "__main__":
    main()
