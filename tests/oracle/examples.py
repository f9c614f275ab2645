"""Worked examples: files by hand, what each shows, and its answer, a fault's name and place or None."""
import struct
from collections.abc import Iterator, Sequence

from .making import Parts, closed, file_of

Example = tuple[str, bytes, tuple[str, int] | None]

# The file of no classes: a header and a map of two entries.
NO_CLASSES = closed(b"dex\n035\0" + bytes(24) + struct.pack("<6I", 140, 0x70, 0x12345678, 0, 0, 0x70) + bytes(48)
                    + struct.pack("<2I", 28, 0x70) + bytes.fromhex("""
    02 00 00 00 00 00 00 00 01 00 00 00 00 00 00 00
    00 10 00 00 01 00 00 00 70 00 00 00
"""))

# One class, LA; of Ljava/lang/Object;, with one method, m()V, that is one return-void: from byte 0x20 on.
ONE_METHOD = closed(b"dex\n035\0" + bytes(24) + bytes.fromhex("""
    78 01 00 00 70 00 00 00 78 56 34 12 00 00 00 00
    00 00 00 00 fc 00 00 00 04 00 00 00 70 00 00 00
    03 00 00 00 80 00 00 00 01 00 00 00 8c 00 00 00
    00 00 00 00 00 00 00 00 01 00 00 00 98 00 00 00
    01 00 00 00 a0 00 00 00 b8 00 00 00 c0 00 00 00
    d2 00 00 00 d7 00 00 00 eb 00 00 00 ee 00 00 00
    00 00 00 00 01 00 00 00 02 00 00 00 02 00 00 00
    02 00 00 00 00 00 00 00 00 00 00 00 03 00 00 00
    00 00 00 00 01 00 00 00 01 00 00 00 00 00 00 00
    ff ff ff ff 00 00 00 00 f1 00 00 00 00 00 00 00
    01 00 00 00 00 00 00 00 00 00 00 00 01 00 00 00
    0e 00 03 4c 41 3b 00 12 4c 6a 61 76 61 2f 6c 61
    6e 67 2f 4f 62 6a 65 63 74 3b 00 01 56 00 01 6d
    00 00 00 01 00 00 09 c0 01 00 00 00 0a 00 00 00
    00 00 00 00 01 00 00 00 00 00 00 00
    01 00 00 00 04 00 00 00 70 00 00 00
    02 00 00 00 03 00 00 00 80 00 00 00
    03 00 00 00 01 00 00 00 8c 00 00 00
    05 00 00 00 01 00 00 00 98 00 00 00
    06 00 00 00 01 00 00 00 a0 00 00 00
    01 20 00 00 01 00 00 00 c0 00 00 00
    02 20 00 00 04 00 00 00 d2 00 00 00
    00 20 00 00 01 00 00 00 f1 00 00 00
    00 10 00 00 01 00 00 00 fc 00 00 00
"""))
CODE, UNITS, MEMBERS, MAP = 0xC0, 0xD0, 0xF1, 0xFC  # places in ONE_METHOD


def changed(data: bytes | bytearray, *changes: tuple[int, str]) -> bytes:
    """The file with other bytes, as (place, hex), and the checksums that belong to them."""
    data = bytearray(data)
    for at, text in changes:
        there = bytes.fromhex(text)
        data[at : at + len(there)] = there
    return closed(data)


def with_code(
    units: bytes, registers: int = 1, ins: int = 0, tries: Sequence[tuple[int, int, int]] = (), handlers: bytes = b""
) -> bytes:
    """ONE_METHOD with another code: `tries` as (first unit, units, handler_off). What stands after it moves."""
    item = struct.pack("<4H2I", registers, ins, 0, len(tries), 0, len(units) // 2) + units
    if tries:
        item += bytes(len(units) % 4) + b"".join(struct.pack("<IHH", *each) for each in tries) + handlers
    texts, members, its_map = ONE_METHOD[UNITS + 2 : MEMBERS], ONE_METHOD[MEMBERS : MAP - 3], ONE_METHOD[MAP:]
    data = bytearray(ONE_METHOD[:CODE] + item)
    texts_off = len(data)
    members_off = texts_off + len(texts)
    data += texts + members
    data += bytes(-len(data) % 4)
    map_off = len(data)
    data += its_map
    moved = texts_off - UNITS - 2
    for place, number in (
        (32, len(data)), (52, map_off), (104, len(data) - CODE), (0xB8, members_off),
        (map_off + 96, texts_off), (map_off + 108, members_off), (map_off + 120, map_off),
    ):
        struct.pack_into("<I", data, place, number)
    for place in range(0x70, 0x80, 4):
        struct.pack_into("<I", data, place, struct.unpack_from("<I", data, place)[0] + moved)
    return closed(data)


def with_rows(count: int, place: int, width: int) -> bytes:
    """NO_CLASSES with so many rows of zeros, in the table whose size field stands at `place`."""
    map_off = 112 + count * width
    data = bytearray(NO_CLASSES[:112] + bytes(count * width) + NO_CLASSES[112:])
    for at, number in (
        (place, count), (place + 4, 112), (32, len(data)), (52, map_off), (108, map_off), (map_off + 24, map_off),
    ):
        struct.pack_into("<I", data, at, number)
    return closed(data)


def headers_and_tables() -> Iterator[Example]:
    yield "a file of no classes", NO_CLASSES, None
    yield "one class with one method", ONE_METHOD, None
    yield "nothing", b"", ("TooShort", 0)
    yield "a byte less than a header", NO_CLASSES[:111], ("TooShort", 111)
    yield "a byte less than file_size", NO_CLASSES[:139], ("FileSize", 32)
    yield "a byte more than file_size", NO_CLASSES + b"\0", ("FileSize", 32)
    yield "65535 types, of which the map has none", with_rows(65535, 64, 4), ("MapMissing", 64)
    yield "65536 types", with_rows(65536, 64, 4), ("TooManyRows", 64)
    yield "65536 prototypes", with_rows(65536, 72, 12), ("TooManyRows", 72)
    yield "version 037", changed(NO_CLASSES, (4, "303337")), ("Version", 4)
    yield "a byte changed after the checksum", NO_CLASSES[:-1] + b"\1", ("Checksum", 8)
    for what, at, text, answer in (
        ("a half word of the map that isn't looked at", MAP + 6, "07", None),
        ("a second header in the map", MAP + 16, "00", ("MapEntry", MAP + 16)),
        ("an entry of size 0", MAP + 92, "00", ("MapEntry", MAP + 88)),
        ("entries that don't rise", MAP + 108, "d2", ("MapEntry", MAP + 100)),
        ("a map of no entries", MAP, "00", ("MapMissing", 52)),
        ("a map without its own entry", MAP, "09", ("MapMissing", 52)),
        ("more entries than the data section has", MAP, "0b", ("MapPlace", 52)),
        ("a data section of size 0", 104, "00", ("MapPlace", 52)),
        ("a table that isn't aligned", 0x3C, "72", ("SectionRange", 56)),
        ("a table of 4294967295 rows", 80, "ffffffff", ("SectionRange", 80)),
        ("link_off", 48, "ffffffff", None),
        ("the offset of a table without rows", 84, "ffffffff", None),
        ("annotations_off", 0xB4, "ffffffff", None),
        ("debug_info_off", CODE + 8, "ffffffff", None),
        ("a string outside its section", 0x70, "c0", ("StringPlace", 0x70)),
        ("a string that doesn't end", 0xEE, "02", ("StringSpelling", 0x7C)),
        ("a unit of one byte spelled in two", 0xD2, "024cc1bb", ("StringSpelling", 0x70)),
        ("a unit of two bytes spelled in three", 0xD2, "01e08181", ("StringSpelling", 0x70)),
        ("strings that don't rise", 0xEF, "55", ("StringOrder", 0x7C)),
        ("types that don't rise", 0x84, "00", ("TypeOrder", 0x84)),
        ("a shorty of another prototype", 0x8C, "03", ("Shorty", 0x8C)),
        ("a list that isn't in a section of lists", 0x94, "c0", ("ParameterList", 0x8C)),
        ("interfaces that aren't in a section of lists", 0xAC, "c0", ("InterfaceList", 0xA0)),
        ("class data outside its section", 0xB8, "d2", ("ClassData", 0xA0)),
        ("4294967295 static fields", MEMBERS, "ffffffff0f", ("ClassData", 0xA0)),
        ("4294967296 static fields", MEMBERS, "8080808010000100000900", ("ClassData", 0xA0)),
        ("a count of six bytes", MEMBERS, "808080808000000000", ("ClassData", 0xA0)),
        ("a method without a row", MEMBERS + 4, "01", ("MemberIndex", 0xA0)),
        ("values outside their section", 0xBC, "f1", ("Values", 0xA0)),
    ):
        yield what, changed(ONE_METHOD, (at, text)), answer


def class_row(data: bytes, i: int) -> int:
    """Where the row of a class stands."""
    begin: int = struct.unpack_from("<I", data, 100)[0]
    return begin + 32 * i


def classes() -> Iterator[Example]:
    data = file_of([{"type": "LB;"}, {"type": "LA;", "super": "LB;"}])
    first, second = class_row(data, 0), class_row(data, 1)
    swapped = changed(data, (first, data[second : second + 32].hex()), (second, data[first:second].hex()))
    yield "a superclass that an earlier row defines", data, None
    yield "a superclass that a later row defines", swapped, ("ClassOrder", first)
    data = file_of([{"type": "LA;", "interfaces": ("LB;",), "virtuals": [("m", ("V", ("I",)), 1, None)]}])
    row, parameters = class_row(data, 0), struct.unpack_from("<I", data, 76)[0] + 8
    shared = changed(data, (row + 12, data[parameters : parameters + 4].hex()))
    yield "a list of parameters, used as one of interfaces", shared, ("InterfaceList", row)
    fields, numbers = [("a", "I", 9), ("b", "I", 9)], [("int", 1), ("int", 2)]
    data = file_of([{"type": "LA;", "statics": fields, "values": numbers},
                    {"type": "LB;", "statics": fields[:1], "values": numbers[:1]}])
    first, second = class_row(data, 0), class_row(data, 1)
    shared = changed(data, (second + 28, data[first + 28 : first + 32].hex()))
    yield "two values for one static field", shared, ("TooManyValues", second)
    methods = [("m", ("V", ()), 9, None), ("n", ("V", ()), 0xFFFFFFFF, None)]
    data = file_of([{"type": "LA;", "directs": methods}], extra=[("method", ("LA;", "a", ("V", ())))])
    second = data.index(bytes.fromhex("01ffffffff0f"))  # the difference and the flags of n
    further = changed(data, (second, "ffffffff0f01"))
    yield "an index that would be 0 again in 32 bits", further, ("MemberIndex", class_row(data, 0))


def codes() -> Iterator[Example]:
    for what, at, text, answer in (
        ("a code at an odd offset", MEMBERS + 6, "c1", ("CodePlace", 0xC1)),
        ("a code after the file's end", MEMBERS + 7, "7f", ("CodePlace", 0x3FC0)),
        ("no units", CODE + 12, "00", ("EmptyCode", CODE)),
        ("more ins than registers", CODE + 2, "02", ("Register", CODE)),
        ("the one register", UNITS, "0f00", None),
        ("a register that the code doesn't have", UNITS, "0f01", ("Register", UNITS)),
    ):
        yield what, changed(ONE_METHOD, (at, text)), answer
    for what, text, name in (
        ("an opcode that isn't used", "3e00", "Opcode"),
        ("the low byte 00 of no payload", "0004", "NonZero"),
        ("goto/16 with a bit set", "29010100", "NonZero"),
        ("goto/16 with a bit set, cut", "2901", "Cut"),
        ("six registers", "6e6000000000", "RegisterCount"),
        ("six registers, cut", "6e60", "Cut"),
        ("a packed-switch-payload, cut in its head", "0001", "Cut"),
        ("an array of width 3, cut in its head", "00030300", "Cut"),
        ("an array of width 3", "0003030000000000", "Payload"),
        ("an array, cut after its head", "00030800ffffffff", "Cut"),
        ("a key twice", "00020200" + "05000000" * 2 + "00000000" * 2, "Payload"),
        ("goto to itself", "2800", "BranchZero"),
    ):
        yield what, with_code(bytes.fromhex(text)), (name, UNITS)
    for what, text, answer in (
        ("goto/32 to itself", "2a0000000000", None),
        ("a nop before a return", "00000e00", None),
        ("a payload at an odd unit", "00000001", ("Payload", UNITS + 2)),
        ("a switch and its payload", "2b00040000000000" + "000101000000000000000000", None),
        ("a target that is a payload", "2b00040000000000" + "000101000000000004000000", ("BranchTarget", UNITS + 8)),
        ("a payload of two switches", "2b0006000000" + "2b0003000000" + "0001000000000000", ("PayloadUse", UNITS + 12)),
        ("a payload of two kinds", "2b0006000000" + "2c0003000000" + "0001000000000000", ("PayloadUse", UNITS + 6)),
    ):
        yield what, with_code(bytes.fromhex(text)), answer
    for what, registers, text, answer in (
        ("a call with no registers, from 65535 on", 0, "77000000ffff", None),
        ("a call with the last register", 65535, "77010000feff", None),
        ("a call with a register after the last", 65535, "77020000feff", ("Register", UNITS)),
    ):
        yield what, with_code(bytes.fromhex(text), registers), answer


def tries() -> Iterator[Example]:
    units = bytes.fromhex("12003800030028fe0e00")  # const/4, if-eqz of two units, goto, return-void
    for what, count, off, to, answer in (
        ("a try that ends within an instruction", 1, 1, 4, None),
        ("a try of whole instructions", 3, 1, 4, None),
        ("a try to the end", 4, 1, 4, None),
        ("a try of no units", 0, 1, 4, ("Try", UNITS + 12)),
        ("a try that ends after the units", 5, 1, 4, ("Try", UNITS + 12)),
        ("handler_off at no handler", 3, 0, 4, ("Handler", UNITS + 20)),
        ("a handler within an instruction", 3, 1, 2, ("Handler", UNITS + 20)),
    ):
        yield what, with_code(units, tries=[(1, count, off)], handlers=bytes([1, 0, to])), answer
    nops = bytes.fromhex("0e00" * 8)
    handlers = bytes.fromhex("017f020507")
    yield "a handler of one type and one for all others", with_code(nops, tries=[(0, 1, 1)], handlers=handlers), None


def values() -> Iterator[Example]:
    for depth, innermost in ((64, True), (65, True), (64, False), (65, False)):
        value: Parts = ("array", [("null",)] if innermost else [])
        for _ in range(depth - 1):
            value = ("array", [value])
        data = file_of([{"type": "LA;", "statics": [("a", "I", 9)], "values": [value]}])
        off = struct.unpack_from("<I", data, class_row(data, 0) + 28)[0]
        answer = None if depth == 64 else ("ValueDepth", off + 1 + 2 * 64)
        yield f"{depth} arrays, {'a null' if innermost else 'nothing'} in the innermost", data, answer
    data = file_of([{"type": "LA;", "statics": [("a", "I", 9)], "values": [("long", 1 << 60)]}])
    off = struct.unpack_from("<I", data, class_row(data, 0) + 28)[0]
    for head in ("42", "20", "5f", "15", "1d", "3e", "3c"):
        yield f"a value's head {head}", changed(data, (off + 1, head)), ("ValueKind", off + 1)


def examples() -> Iterator[Example]:
    for group in (headers_and_tables, classes, codes, tries, values):
        yield from group()
