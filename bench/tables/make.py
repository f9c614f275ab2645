#!/usr/bin/env python3
"""Writes a .dex file whose tables are large.

KIND is `strings` (so many short strings and nothing else), `long-class` (so many fields, or with `methods` methods, of
one class whose descriptor has 100,000 units) or `long-name` (so many fields, or methods, of one name of 100,000 units,
each of another class).
"""
import argparse
import os
import sys

sys.path.insert(0, os.path.join(os.path.dirname(os.path.abspath(__file__)), "..", "hostile"))
from shapes import File  # noqa: E402

LONG = "a" * 99998
KINDS = ("strings", "long-class", "long-name", "long-class-methods", "long-name-methods")


def file_of(kind, count):
    file = File()
    for i in range(count):
        if kind == "strings":
            file.text(f"s{i:06}")
            continue
        owner, name = (f"L{LONG};", f"n{i:06}") if kind.startswith("long-class") else (f"Ln{i:06};", LONG)
        if kind.endswith("methods"):
            file.method(owner, name, file.proto("I"))
        else:
            file.field(owner, name, "I")
    return file


def main():
    words = argparse.ArgumentParser(description=__doc__, formatter_class=argparse.RawDescriptionHelpFormatter)
    words.add_argument("kind", metavar="KIND", choices=KINDS, help=", ".join(KINDS))
    words.add_argument("rows", metavar="ROWS", type=int)
    words.add_argument("out", metavar="FILE")
    given = words.parse_args()
    file = file_of(given.kind, given.rows)
    file.index()
    file.write(given.out)


if __name__ == "__main__":
    main()
