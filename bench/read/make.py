#!/usr/bin/env python3
"""Makes .dex files of version 035 to be read.

apps     so many classes in the shape of real apps, 20 methods with bodies a class; 1,500 make 10 MB with 60,000 strings
falling  so many classes, each the superclass of the next one, in falling order of their types
members  one class of a long name with so many fields

The same count gives the same file.
"""
import argparse
import os
import random
import struct
import sys

sys.path.insert(0, os.path.join(os.path.dirname(os.path.abspath(__file__)), "..", "hostile"))
from shapes import File, new_class, sleb, uleb  # noqa: E402


def body_of(rng, calls, fields, texts):
    """A body of about a hundred units: blocks of const, field access, call, test and branch, some with a switch or a try."""
    blocks = rng.randrange(4, 14)
    picks = [(rng.choice(calls), rng.choice(fields), rng.choice(texts)) for _ in range(blocks)]
    switch, tried = rng.random() < 0.1, rng.random() < 0.2

    def made(file):
        units = []
        for call, field, text in picks:
            units += [0x0012 | 0x1000]  # const/4 v0, 1
            units += [0x011A, file.string_at[text]]  # const-string v1
            units += [0x0062 | 0x0200, file.field_at[field]]  # sget-object v2
            units += [0x2070, file.method_at[call], 0x0021]  # invoke-direct {v1, v2}
            units += [0x0038, 4]  # if-eqz v0, +4
            units += [0x0090, 0x0001]  # add-int v0, v1, v0
        covered = len(units)
        if switch:
            units += [0x002B, 4 if len(units) % 2 == 0 else 5, 0]  # packed-switch v0
            units += [0x000E]  # return-void
            if len(units) % 2:
                units += [0x0000]
            targets = [0, 1 - covered, 3 - covered]
            targets = [n if n else -covered for n in targets]
            units += [0x0100, len(targets), 0, 0]
            for n in targets:
                units += [n & 0xFFFF, n >> 16 & 0xFFFF]
        else:
            units += [0x000E]
        tries = 1 if tried else 0
        item = struct.pack("<HHHHII", 3, 0, 2, tries, 0, len(units)) + struct.pack(f"<{len(units)}H", *units)
        if tries:
            if len(units) % 2:
                item += b"\0\0"
            item += struct.pack("<IHH", 0, covered, 1)
            item += uleb(1) + sleb(1) + uleb(file.type_at["Ljava/lang/Exception;"]) + uleb(covered)
        return item

    return made


def apps(count):
    rng, file = random.Random(35), File()
    word = lambda: "".join(rng.choice("abcdefghijklmnopqrstuvwxyz") for _ in range(rng.randrange(4, 12)))
    above = file.type("Ljava/lang/Object;")
    file.type("Ljava/lang/Exception;")
    pool = sorted({word() for _ in range(13000)})
    texts = sorted({file.text(" ".join(rng.choices(pool, k=rng.randrange(2, 7)))) for _ in range(30 * count)})
    owners = sorted({f"Lcom/{word()}/{word()}/{word().capitalize()};" for _ in range(count)})
    kinds = ["I", "J", "Z", "[B", "Ljava/lang/String;"] + owners[:200]
    protos = [file.proto("V"), file.proto("V", "I"), file.proto("I", "Ljava/lang/String;"), file.proto("Ljava/lang/String;", "I", "J")]
    protos += [file.proto("V", rng.choice(kinds), rng.choice(kinds)) for _ in range(400)]
    calls = [file.method(rng.choice(owners), rng.choice(pool), rng.choice(protos)) for _ in range(10 * count)]
    fields = [file.field(rng.choice(owners), rng.choice(pool), rng.choice(kinds)) for _ in range(5 * count)]
    for owner in owners:
        c = new_class(file.type(owner), above)
        c["statics"] = [(f, 9) for f in {file.field(owner, rng.choice(pool), "I") for _ in range(4)}]
        c["instances"] = [(f, 2) for f in {file.field(owner, rng.choice(pool), rng.choice(kinds)) for _ in range(4)}]
        c["values"] = [rng.randrange(1 << 31) for _ in c["statics"]]
        for kind, many in (("directs", 8), ("virtuals", 12)):
            owned = {file.method(owner, rng.choice(pool), rng.choice(protos)) for _ in range(many)}
            owned -= {m for m, _, _ in c["directs"]}
            c[kind] = [(m, 2 if kind == "directs" else 1, body_of(rng, calls, fields, texts)) for m in sorted(owned)]
        file.classes.append(c)
    return file


def falling(count):
    file, above = File(), "Ljava/lang/Object;"
    for i in reversed(range(count)):
        file.classes.append(new_class(file.type(f"LA{i:05};"), file.type(above)))
        above = f"LA{i:05};"
    return file


def members(count):
    file, owner = File(), "L" + "a" * 2000 + ";"
    c = new_class(file.type(owner), None)
    c["statics"] = [(file.field(owner, f"f{i:05}", "I"), 9) for i in range(count)]
    file.classes.append(c)
    return file


SHAPES = {"apps": apps, "falling": falling, "members": members}


def main():
    words = argparse.ArgumentParser(description=__doc__, formatter_class=argparse.RawDescriptionHelpFormatter)
    words.add_argument("shape", metavar="SHAPE", choices=SHAPES)
    words.add_argument("count", metavar="COUNT", type=int)
    words.add_argument("out", metavar="OUT")
    given = words.parse_args()
    file = SHAPES[given.shape](given.count)
    file.index()
    file.write(given.out)


if __name__ == "__main__":
    main()
