"""Test vectors, tests/vectors: small inputs and the line that is expected of each, for readers in any language. Each
fault has one that is named by it alone; the other worked examples and the edge cases are named by what they are too.

`python3 -m tests.oracle.vectors`, at the top of the repository, writes the folder from the worked examples and edge
cases (whose results are worked out by hand from docs/FORMAT.md and docs/LISTING.md) and from those below. The test in
test_oracle.py fails if the folder isn't as it would be written.
"""
import os
import re
import shutil
import struct
import zlib
from collections.abc import Iterator
from typing import NamedTuple

from .. import TOP
from .edge_cases import edge_cases
from .examples import NO_CLASSES, ONE_METHOD, Example, changed, class_row, examples, with_code
from .making import file_of
from .pages import Refusal
from .textexamples import text_examples

FOLDER = os.path.join(TOP, "tests", "vectors")
LARGEST = 300_000  # bytes of a fault's smallest input
SMALL = 4096  # bytes of the others
HEAD = """# Each line is NAME COMMAND: STATUS LINE. `dexasm COMMAND NAME` exits with STATUS and prints LINE: `ok` on standard output,
# or a refusal on standard error. COMMAND is check for a .dex file and assemble for a listing. The rules are those of
# docs/FORMAT.md and docs/LISTING.md. No listing breaks 111; the limits 80 to 84 and 87 to 90 need much larger inputs.
# Written by `python3 -m tests.oracle.vectors`.
"""


class Vector(NamedTuple):
    name: str
    command: str
    data: bytes
    expected: str  # a line, or ok


def with_signature(data: bytes, signature: bytes) -> bytes:
    """The file with another signature, and the checksum that belongs to it."""
    changed_file = bytearray(data)
    changed_file[12:32] = signature
    changed_file[8:12] = struct.pack("<I", zlib.adler32(changed_file[12:]))
    return bytes(changed_file)


def swapped(data: bytes, at: int, width: int) -> bytes:
    """The file with the row at this place after the row behind it."""
    one, other = data[at : at + width], data[at + width : at + 2 * width]
    return changed(data, (at, (other + one).hex()))


def more_files() -> Iterator[Example]:
    """Faults that no worked example has."""
    yield "another first byte", changed(NO_CLASSES, (0, "00")), ("Magic", 0)
    yield "header_size", changed(NO_CLASSES, (36, "71")), ("HeaderSize", 36)
    yield "endian_tag", changed(NO_CLASSES, (40, "12345678")), ("Endian", 40)
    yield "link_size", changed(NO_CLASSES, (44, "01")), ("Linked", 44)
    yield "signature", with_signature(NO_CLASSES, bytes(20)), ("Signature", 12)
    # (rows of ONE_METHOD: 0x70 strings, 0x80 types, 0x8c prototypes, 0x98 methods, 0xa0 classes)
    yield "a type's string past the table", changed(ONE_METHOD, (0x80, "04000000")), ("TypeIndex", 0x80)
    yield "a type named m", changed(ONE_METHOD, (0x88, "03000000")), ("TypeText", 0x88)
    yield "a shorty past the table", changed(ONE_METHOD, (0x8C, "04000000")), ("ProtoIndex", 0x8C)
    yield "a method's name past the table", changed(ONE_METHOD, (0x9C, "04000000")), ("MethodIndex", 0x98)
    yield "a method of V", changed(ONE_METHOD, (0x98, "0200")), ("MethodKind", 0x98)
    yield "a superclass past the table", changed(ONE_METHOD, (0xA8, "03000000")), ("ClassIndex", 0xA0)
    yield "a class V", changed(ONE_METHOD, (0xA0, "02000000")), ("ClassKind", 0xA0)
    yield "a method of the superclass", changed(ONE_METHOD, (0x98, "0100")), ("MemberOwner", 0xA0)
    yield "a string past the table in code", with_code(bytes.fromhex("1a0004000e00")), ("OperandIndex", 0xD0)
    yield "a class its own superclass", changed(ONE_METHOD, (0xA8, "00000000")), ("ClassOrder", 0xA0)
    yield "three units of an array, of width 3", with_code(bytes.fromhex("000303000000")), ("Cut", 0xD0)
    yield "an array of width 3", with_code(bytes.fromhex("0003030000000000")), ("Payload", 0xD0)
    yield from more_tables()


def more_tables() -> Iterator[Example]:
    fields = file_of([{"type": "LA;", "statics": [("a", "I", 9), ("b", "I", 9)]}])
    row = struct.unpack_from("<I", fields, 84)[0]
    kind = struct.unpack_from("<H", fields, row + 2)[0]
    yield "a field's name past the table", changed(fields, (row + 4, "ffff0000")), ("FieldIndex", row)
    yield "a field of I", changed(fields, (row, kind.to_bytes(2, "little").hex())), ("FieldKind", row)
    yield "two fields the wrong way round", swapped(fields, row, 8), ("FieldOrder", row + 8)
    methods = [("m", ("V", ()), 9, None), ("n", ("V", ("I",)), 9, None)]
    data = file_of([{"type": "LA;", "directs": methods}])
    protos, row = (struct.unpack_from("<I", data, at)[0] for at in (76, 92))
    yield "two prototypes the wrong way round", swapped(data, protos, 12), ("ProtoOrder", protos + 12)
    yield "two methods the wrong way round", swapped(data, row, 8), ("MethodOrder", row + 8)
    members = struct.unpack_from("<I", data, class_row(data, 0) + 24)[0]
    yield "a method twice", changed(data, (members + 7, "00")), ("MemberOrder", class_row(data, 0))


def smallest(found: dict[int, Vector], number: int, one: Vector) -> None:
    if len(one.data) <= LARGEST and (number not in found or len(one.data) < len(found[number].data)):
        found[number] = one


def of_files() -> Iterator[Vector]:
    """The smallest worked example for each fault, and the other small files."""
    found, others = dict[int, Vector](), list[Vector]()
    worked = [*examples(), *more_files()]
    for i, (what, data, answer) in enumerate([*worked, *edge_cases()]):
        refusal = Refusal("file", *answer) if answer else None
        name = f"{refusal.number:03}-{refusal.name}" if refusal else "ok"
        expected = str(refusal).rstrip("\n") if refusal else "ok"
        if refusal and i < len(worked):
            smallest(found, refusal.number, Vector(f"{name}.dex", "check", data, expected))
        if len(data) <= SMALL:
            others.append(Vector(f"{name}-{slug(what)}.dex", "check", data, expected))
    yield from found.values()
    known = {one.data for one in found.values()} | {NO_CLASSES, ONE_METHOD}
    yield from (one for one in others if one.data not in known)


def slug(what: str) -> str:
    """What an example is, as a part of a name."""
    return re.sub(r"[^a-z0-9]+", "-", what.lower()).strip("-")


def of_texts() -> Iterator[Vector]:
    """The smallest listing for each fault."""
    found = dict[int, Vector]()
    for _, data, is_aligned, fault in text_examples(False):
        if fault and not is_aligned:
            refusal = Refusal(*fault)
            name = f"{refusal.number:03}-{refusal.name}.txt"
            smallest(found, refusal.number, Vector(name, "assemble", data, str(refusal).rstrip("\n")))
    yield from found.values()


def vectors() -> list[Vector]:
    """All of them: those of two files that are accepted, then the others by name."""
    accepted = [("no-classes.dex", NO_CLASSES), ("one-method.dex", ONE_METHOD)]
    others = {one.name: one for one in (*of_files(), *of_texts())}
    return [Vector(name, "check", data, "ok") for name, data in accepted] + sorted(others.values())


def manifest(found: list[Vector]) -> str:
    lines = [f"{one.name} {one.command}: {0 if one.expected == 'ok' else 1} {one.expected}\n" for one in found]
    return HEAD + "".join(lines)


def contents() -> dict[str, bytes]:
    """The files of the folder by their names."""
    found = vectors()
    return {one.name: one.data for one in found} | {"MANIFEST": manifest(found).encode("ascii")}


def main() -> None:
    shutil.rmtree(FOLDER, ignore_errors=True)
    os.makedirs(FOLDER)
    for name, data in contents().items():
        with open(os.path.join(FOLDER, name), "wb") as file:
            file.write(data)


if __name__ == "__main__":
    main()
