#!/usr/bin/env python3
"""Makes a .dex file of version 035 whose methods share one code item, or have as many distinct ones.

One class LA; with the direct methods m00000()V and on; each code is const v0, a number (0 where shared), then nops,
then return-void.
"""
import argparse
import os
import struct
import sys

sys.path.insert(0, os.path.join(os.path.dirname(os.path.abspath(__file__)), "..", "hostile"))
from shapes import File, new_class  # noqa: E402


def body(number, instructions):
    """A code of so many instructions, to a multiple of four bytes."""
    units = struct.pack("<Hi", 0x0014, number) + b"\0\0" * (instructions - 2) + b"\x0e\0"
    item = struct.pack("<HHHHII", 1, 0, 0, 0, 0, len(units) // 2) + units
    item += b"\0" * (-len(item) % 4)
    return lambda file: item


def file_of(shape, methods, instructions):
    file = File()
    shared = body(0, instructions)
    one = new_class(file.type("LA;"), None)
    for i in range(methods):
        made = shared if shape == "shared" else body(i, instructions)
        one["directs"].append((file.method("LA;", f"m{i:05}", file.proto("V")), 9, made))
    file.classes.append(one)
    return file


def main():
    words = argparse.ArgumentParser(description=__doc__, formatter_class=argparse.RawDescriptionHelpFormatter)
    words.add_argument("shape", metavar="SHAPE", choices=("shared", "distinct"))
    words.add_argument("methods", metavar="METHODS", type=int)
    words.add_argument("instructions", metavar="INSTRUCTIONS", type=int)
    words.add_argument("out", metavar="OUT")
    given = words.parse_args()
    file = file_of(given.shape, given.methods, given.instructions)
    file.index()
    file.write(given.out)


if __name__ == "__main__":
    main()
