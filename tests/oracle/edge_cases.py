"""Worked examples that tell two readings of docs/FORMAT.md apart: small files, each with what the page says of it, a
fault's name and place or None. A reader that takes a sentence otherwise, or forgets a rule, differs on one of them."""
import struct
from collections.abc import Iterable, Iterator, Sequence

from .examples import CODE, MAP, MEMBERS, ONE_METHOD, UNITS, Example, changed, class_row, with_code
from .making import Draft, Layout, Made, closed, file_of

Entry = tuple[int, ...]  # of the map: kind, size, offset
ENTRIES: list[Entry] = [struct.unpack_from("<H2xII", ONE_METHOD, MAP + 4 + 12 * k) for k in range(10)]
RETURN: Made = {"registers": 1, "ins": 0, "outs": 0, "instructions": [(0x0E, 0)]}
VOID = ("V", ())
CUT = "01" + "1c01" * 64  # an array of values in which 64 arrays begin, each in the one before


class Handmade(Draft):
    """A file whose items of some sections are these bytes, in place of what the classes have there."""

    def __init__(
        self, classes: list[Made], items: dict[str, Sequence[str]], blocks: list[int | str] | None = None,
        has_empty: bool = False
    ) -> None:
        super().__init__(classes, Layout(), ())
        self.items, self.has_empty = items, has_empty
        self.blocks = blocks or self.blocks
        self.data: bytes = self.file()

    def items_of(self, section: str) -> Iterable[tuple[object, bytes]]:
        made = super().items_of(section)
        if section not in self.items:
            return made
        return [(key, bytes.fromhex(item)) for (key, _), item in zip(made, self.items[section], strict=True)]


def u4(data: bytes, at: int) -> int:
    number: int = struct.unpack_from("<I", data, at)[0]
    return number


def with_entries(*added: Entry, at: int = len(ENTRIES), gap: int = 0) -> bytes:
    """ONE_METHOD with more entries of the map, and eight bytes after it; `gap`: bytes before the map."""
    entries = [*ENTRIES[:at], *added, *ENTRIES[at:]]
    if gap:
        entries[-1] = (0x1000, 1, MAP + gap)
    rows = b"".join(struct.pack("<HHII", kind, 0, *rest) for kind, *rest in entries)
    data = bytearray(ONE_METHOD[:MAP] + bytes(gap) + struct.pack("<I", len(entries)) + rows + bytes(8))
    for place, number in ((32, len(data)), (52, MAP + gap), (104, len(data) - CODE)):
        struct.pack_into("<I", data, place, number)
    return closed(data)


def header_and_map() -> Iterator[Example]:
    for what, changes, answer in (
        ("a table within the header", [(0x3C, "6c")], ("SectionRange", 56)),
        ("a data section within the header", [(104, "0c01"), (108, "6c")], ("SectionRange", 104)),
        ("a data section a byte longer than the file", [(104, "b9")], ("SectionRange", 104)),
        ("a data section at an odd offset and of an odd size", [(104, "b9"), (108, "bf")], None),
        ("tables within the data section", [(104, "0801"), (108, "70")], None),
        ("an empty data section after the end of the file", [(104, "00"), (108, "ffffffff")], ("MapPlace", 52)),
        ("a map that ends after the data section", [(104, "b4")], ("MapPlace", 52)),
        ("a map before the data section", [(104, "78"), (108, "0001")], ("MapPlace", 52)),
        ("a header of size 2", [(MAP + 8, "02")], ("MapEntry", MAP + 4)),
        ("a header at 4", [(MAP + 12, "04")], ("MapEntry", MAP + 4)),
        ("a table that begins within the header in the map", [(MAP + 24, "6c")], ("MapEntry", MAP + 16)),
        ("a table with another size in the map", [(MAP + 20, "03")], ("MapEntry", MAP + 16)),
        ("a table before the one that it follows", [(MAP + 36, "6c")], ("MapEntry", MAP + 16)),
        ("two tables that overlap", [(0x44, "7c"), (MAP + 36, "7c")], ("MapEntry", MAP + 16)),
        ("two maps", [(MAP + 116, "02")], ("MapEntry", MAP + 112)),
        ("a map at another offset in the map", [(MAP + 120, "0001")], ("MapEntry", MAP + 112)),
        ("a string whose end is in the next section", [(MAP + 108, "f0")], ("StringSpelling", 0x7C)),
    ):
        yield what, changed(ONE_METHOD, *changes), answer
    last, end = MAP + 124, MAP + 136  # the place of one more entry, where the map with it ends
    for what, entry, answer in (
        ("hidden API data after the map", (0xF000, 1, end), None),
        ("a section that begins within the map", (0xF000, 1, end - 4), ("MapEntry", MAP + 112)),
        ("a section before the map, after it in the map", (0xF000, 1, MAP - 2), ("MapEntry", MAP + 112)),
        ("a section at the end of the data section", (0xF000, 1, end + 8), ("MapEntry", last)),
        ("call sites", (0x0007, 1, end), ("MapEntry", last)),
        ("an unknown kind", (0x2007, 1, end), ("MapEntry", last)),
        ("an entry of a table without rows", (0x0004, 1, end), ("MapEntry", last)),
    ):
        yield what, with_entries(entry), answer
    yield "a section before the data section", with_entries((0xF000, 1, 0x10), at=1), ("MapEntry", MAP + 16)
    twice = with_entries((0xF000, 1, end + 12), (0xF000, 1, end + 16))
    yield "a data kind twice", twice, ("MapEntry", last + 12)
    yield "a map at an even offset", with_entries(gap=2), ("MapPlace", 52)
    yield from ends_of_sections()


def ends_of_sections() -> Iterator[Example]:
    """A section ends where the next entry of any kind begins, or where the data section does."""
    method: Made = {"type": "LA;", "directs": [("mmmm", VOID, 9, RETURN)]}
    before = Handmade([method], {}, [0, 1, 2, 3, 4, "lists", "codes", "strings", 5, "members", "map"])
    text = before.offsets["strings"]["mmmm"]
    longer = changed(before.data, (text, "05" + "6d" * 5))
    yield "a string whose end is in the next table", longer, ("StringSpelling", 0x78)
    after = Handmade([method], {}, [0, 1, 2, 3, 4, "lists", "codes", "members", "map", "strings", 5]).data
    cut = changed(after, (104, (u4(after, 104) - 1).to_bytes(4, "little").hex()))
    yield "a string whose end is after the data section", cut, ("StringSpelling", 0x78)


def numbers_and_strings() -> Iterator[Example]:
    for what, changes, answer in (
        ("a zero byte as a unit", [(0xEF, "00")], ("StringSpelling", 0x7C)),
        ("a string that ends in 1", [(0xF0, "01")], ("StringSpelling", 0x7C)),
        ("a string twice", [(0x7C, "eb")], ("StringOrder", 0x7C)),
        ("a string at the end of its section", [(0x7C, "f1")], ("StringPlace", 0x7C)),
        ("a count of two bytes that needs one", [(MEMBERS, "80000001000009c001")], None),
    ):
        yield what, changed(ONE_METHOD, *changes), answer
    handler = "8180808000" + "ffffffff7f" + "80808080008080808000" + "8080808000"  # one, -1, a type and an address, all
    data = with_code(bytes.fromhex("0e00"), tries=[(0, 1, 5)], handlers=bytes.fromhex(handler))
    yield "LEB128 numbers of five bytes that need one", data, None
    data = with_code(bytes.fromhex("0e00"), tries=[(0, 1, 1)], handlers=bytes.fromhex("01808080801000"))
    yield "a handler of 4294967296 types", data, ("Handler", UNITS + 12)
    texts = ("\0", "\ud800", "\udc00", "\ud800\udc00", "\uffff", "\u07ff", "\u0800")
    yield "strings of each form of unit", file_of([], extra=[("string", text) for text in texts]), None
    for what, text, units in (
        ("a first byte of four bytes", "\u1000", "f18080"),
        ("a second byte of three without its bits", "\u1000", "e1c080"),
        ("a third byte of three without its bits", "\u1000", "e180c0"),
        ("a second byte of two without its bits", "\u00e9", "c3e9"),
    ):
        data = file_of([], extra=[("string", text)])
        yield what, changed(data, (u4(data, 0x70) + 1, units)), ("StringSpelling", 0x70)


def texts_that_name() -> Iterator[Example]:
    first_and_last = "$-_09AZaz\u00a1\u1fff\u2010\u2027\u2030\ud7ff\ue000\uffef"
    names = [*first_and_last, "\ud800\udc00", "\udbff\udfff", "<x>"]
    statics = [(name, "I", 9) for name in names]
    yield "names of the first and last units", file_of([{"type": "LA;", "statics": statics}]), None
    for what, name in (
        ("a space", " "), ("U 00A0", "\u00a0"), ("U 2000", "\u2000"), ("U 200F", "\u200f"), ("U 2028", "\u2028"),
        ("U 202F", "\u202f"), ("U FFF0", "\ufff0"), ("half a pair", "\ud800"), ("nothing in brackets", "<>"),
    ):
        data = file_of([{"type": "LA;", "statics": [(name, "I", 9)]}])
        yield f"a name of {what}", data, ("FieldKind", u4(data, 84))
    for what, text, fault in (
        ("255 dimensions", "[" * 255 + "I", None), ("256 dimensions", "[" * 256 + "I", "TypeText"),
        ("arrays of V", "[V", "TypeText"), ("a class without a name", "L;", "TypeText"),
        ("a class with an empty part", "LA//B;", "TypeText"), ("a class that ends in an empty part", "LA/;", "TypeText")
    ):
        data = file_of([], extra=[("type", text)])
        yield f"a type of {what}", data, (fault, u4(data, 68)) if fault else None


def rows_that_name() -> Iterator[Example]:
    data = changed(ONE_METHOD, (0x8C, "03"), (0x94, "c0"))
    yield "a wrong shorty and no list of parameters", data, ("ParameterList", 0x8C)
    data = file_of([{"type": "LA;", "directs": [("m", ("V", ("I", "I")), 9, None)]}])
    row = u4(data, 76)
    moved = changed(data, (row + 8, (u4(data, row + 8) + 2).to_bytes(4, "little").hex()))
    yield "a list of parameters at an even offset", moved, ("ParameterList", row)
    data = file_of([], extra=[("proto", ("V", ("V",)))])
    yield "a parameter V", data, ("ParameterList", u4(data, 76))
    protos = [VOID, ("[I", ()), ("V", ("I", "I")), ("V", ("J",))]
    yield "prototypes by their types", file_of([], extra=[("proto", proto) for proto in protos]), None
    members: list[tuple[str, object]] = [("field", ("LA;", "a", "J")), ("field", ("LA;", "b", "I"))]
    members += [("method", ("LA;", "a", ("V", ("J",)))), ("method", ("LA;", "b", VOID))]
    members.append(("method", ("[LA;", "<x>", VOID)))
    yield "members by their names, and one of an array", file_of([], extra=members), None
    for what, kind, name, fault, place in (
        ("a field of an array", "field", ("[LA;", "a", "I"), "FieldKind", 84),
        ("a field of type V", "field", ("LA;", "a", "V"), "FieldKind", 84),
        ("a method of I", "method", ("I", "m", VOID), "MethodKind", 92),
    ):
        data = file_of([], extra=[(kind, name)])
        yield what, data, (fault, u4(data, place))
    data = file_of([], extra=members)
    for what, fault, place in (("a field row twice", "FieldOrder", 84), ("a method row twice", "MethodOrder", 92)):
        row = u4(data, place)
        yield what, changed(data, (row + 8, data[row : row + 8].hex())), (fault, row + 8)


def classes() -> Iterator[Example]:
    yield "a source file past the table", changed(ONE_METHOD, (0xB0, "04000000")), ("ClassIndex", 0xA0)
    both = changed(ONE_METHOD, (0xA8, "00"), (0xAC, "c0"))
    yield "a class its own superclass, with no list of interfaces", both, ("InterfaceList", 0xA0)
    a, b = {"type": "LA;"}, {"type": "LB;"}
    rows: tuple[tuple[str, list[Made], str, int], ...] = (
        ("a superclass of an earlier and a later row", [b, {**a, "super": "LB;"}, b], "ClassOrder", 1),
        ("an interface of a later row", [{**a, "interfaces": ("LB;",)}, b], "ClassOrder", 0),
        ("a class twice", [a, a], "ClassOrder", 1),
        ("an interface twice", [{**a, "interfaces": ("LB;", "LB;")}], "InterfaceList", 0),
        ("an array as an interface", [{**a, "interfaces": ("[LB;",)}], "InterfaceList", 0),
        ("an array as a superclass", [{**a, "super": "[LB;"}], "ClassKind", 0),
        ("an array as a class", [{"type": "[LA;"}], "ClassKind", 0),
    )
    for what, made, fault, i in rows:
        data = file_of(made)
        yield what, data, (fault, class_row(data, i))
    yield from members()


def members() -> Iterator[Example]:
    fields = [(name, "I", 9) for name in "abc"]
    listed: Made = {"type": "LA;", "statics": fields[:2], "instances": fields[2:]}
    yield "instance fields after two static fields", file_of([listed]), None
    methods = [("m", VOID, 9, None)]
    twice: Made = {"type": "LA;", "statics": fields, "instances": fields, "directs": methods, "virtuals": methods}
    yield "members in both lists", file_of([twice]), None
    yield "lists, values and members of size 0", Handmade([{"type": "LA;"}], {}, has_empty=True).data, None
    made: Made = {"type": "LA;", "directs": [*methods, ("n", VOID, 9, None)]}
    first, second, third = "000900", "000900", "050900"
    data = Handmade([made], {"members": ["00000300" + first + second + third]}).data
    yield "a method twice, then one without a row", data, ("MemberOrder", class_row(data, 0))
    of_both: list[Made] = [{"type": "LA;", "directs": methods}, {"type": "LB;", "directs": methods}]
    data = Handmade(of_both, {"members": ["00000200" + "010900" + third, "00000100" + "010900"]}).data
    yield "a method of another class, then one without a row", data, ("MemberOwner", class_row(data, 0))


def with_values(*arrays: str, statics: int = 1, instances: int = 0) -> tuple[bytes, int]:
    """A class for each array of values, with so many fields; and where the first array is."""
    fields = [(name, "I", 9) for name in "abcdefgh"]
    group = {"statics": fields[:statics], "instances": fields[:instances], "values": [("null",)]}
    draft = Handmade([{"type": f"L{name};", **group} for name, _ in zip("AB", arrays)], {"arrays": arrays})
    return draft.data, draft.offsets["arrays"][0]


def values() -> Iterator[Example]:
    for what, array, name, at in (
        ("more values than fields, none of them there", "7f", "TooManyValues", None),
        ("a size without a value", "01", "Values", None),
        ("an array of 127 values, the first of no type", "011c7f15", "ValueKind", 3),
        ("64 arrays, an array with an argument in them", CUT + "3c", "ValueKind", 129),
        ("64 arrays, an array without a size in them", CUT + "1c", "ValueDepth", 129),
        ("an int of eight bytes, cut", "01e4", "ValueKind", 1),
        ("a char of three bytes", "0143" + "00" * 3, "ValueKind", 1),
        ("an int of five bytes", "0184" + "00" * 5, "ValueKind", 1),
        ("a float of five bytes", "0190" + "00" * 5, "ValueKind", 1),
        ("a string's index of five bytes", "0197" + "00" * 5, "ValueKind", 1),
        ("a value's type 05", "010500", "ValueKind", 1),
        ("an enum past the fields", "011b01", "ValueKind", 1),
        ("a string past the table as a value", "01177f", "ValueKind", 1),
    ):
        data, off = with_values(array)
        yield what, data, (name, class_row(data, 0) if at is None else off + at)
    data, _ = with_values("021e1e", instances=1)
    yield "two values for a static and an instance field", data, ("TooManyValues", class_row(data, 0))
    data, off = with_values("0115", "021e1e")
    yield "a value of no type, then too many values", data, ("ValueKind", off + 1)
    data, _ = with_values("05" + "240100" + "370000" + "e6" + "ff" * 8 + "234100" + "7100000000", statics=5)
    yield "values of more bytes than needed", data, None


def with_codes(*codes: str, statics: str = "", group: str = "directs") -> tuple[bytes, list[int]]:
    """A class with a direct method for each code, the last in this group; and where the codes are."""
    methods = [(name, VOID, 9, RETURN) for name, _ in zip("mn", codes)]
    made: Made = {"type": "LA;", "directs": methods[:1], group: methods if group == "directs" else methods[1:]}
    if statics:
        made |= {"statics": [("a", "I", 9)], "values": [("null",)]}
    draft = Handmade([made], {"codes": codes, "arrays": [statics]} if statics else {"codes": codes})
    return draft.data, list(draft.offsets["codes"].values())


def item(units: str, ins: int = 0) -> str:
    """The code item of these units, of one register."""
    return struct.pack("<4H2I", 1, ins, 0, 0, 0, len(units) // 4).hex() + units


def order_of_steps() -> Iterator[Example]:
    fields = [("a", "I", 9)]
    rows: list[Made] = [{"type": "LA;", "statics": fields, "values": [("null",)]}, {"type": "LA;"}]
    draft = Handmade(rows, {"arrays": ["0115"]})
    yield "a value of no type, then a class twice", draft.data, ("ClassOrder", class_row(draft.data, 1))
    data, _ = with_codes(item("3e00"), statics="0115")
    yield "no opcode, and a value of no type", data, ("ValueKind", u4(data, class_row(data, 0) + 28) + 1)
    data, places = with_codes(item("0f010000"), item("3e000000"))
    yield "a register in one code, no opcode in the next", data, ("Opcode", places[1] + 16)
    data, places = with_codes(item("0f010000"), item("0e000000", ins=2))
    yield "a register in one code, more ins than registers in the next", data, ("Register", places[0] + 16)
    data, places = with_codes(item("3e000000"), item("3e000000"), group="virtuals")
    yield "no opcode in a direct and a virtual method", data, ("Opcode", places[0] + 16)
    at = [data.rindex(bytes.fromhex(uleb(place))) for place in places]
    swapped = changed(data, *zip(at, map(uleb, reversed(places))))
    yield "a direct method's code after a virtual one's", swapped, ("Opcode", places[1] + 16)
    data, places = with_codes("0000" + item("0e00"))
    moved = changed(data, (data.rindex(bytes.fromhex(uleb(places[0]))), uleb(places[0] + 2)))
    yield "a code at an even offset", moved, ("CodePlace", places[0] + 2)


def uleb(number: int) -> str:
    """A number of two bytes."""
    return bytes([number & 0x7F | 0x80, number >> 7]).hex()


def codes() -> Iterator[Example]:
    for what, changes, answer in (
        ("any number of outs", [(CODE + 4, "ffff")], None),
        ("tries that run past the section", [(CODE + 6, "01")], ("CodePlace", CODE)),
        ("no units, and tries that run past the section", [(CODE + 6, "64"), (CODE + 12, "00")], ("CodePlace", CODE)),
        ("more ins than registers, and such a register", [(CODE + 2, "02"), (UNITS, "0f01")], ("Register", CODE)),
    ):
        yield what, changed(ONE_METHOD, *changes), answer
    yield from order_of_steps()
    for what, text, answer in (
        ("an array of width 3 that is cut", "00030300ffffffff", ("Payload", 0)),
        ("an array of 2 to the 32nd bytes", "0003080000000020", ("Cut", 0)),
        ("move/16 with a bit set", "030100000000", ("NonZero", 0)),
        ("an index without a row, then no opcode", "1a0004003e00", ("Opcode", 4)),
        ("goto to itself, then to no instruction", "28002810", ("BranchZero", 0)),
        ("a payload that no switch has", "0001000000000000" + "0e00", ("PayloadUse", 0)),
        ("an unused payload, then an instruction of none", "0001000000000000" + "260010000000", ("PayloadUse", 0)),
        ("wrong targets, the payloads in the other order",
            "2b0010000000" + "2b0007000000" + "0000" * 4 + "00010100" + "00" * 4 + "7f000000"
            "00010100" + "00" * 4 + "7f000000", ("BranchTarget", 20)),
        ("keys that rise as signed numbers",
            "2c0004000000" + "0000" + "00020200ffffffff00000000" + "03000000" * 2, None),
        ("a key after the largest", "2b0004000000" + "0000" + "00010200ffffff7f" + "03000000" * 2, None),
        ("an array of one byte", "260004000000" + "0000" + "00030100010000003e00", None),
        ("arrays of no and of two users",
            "260008000000" + "260005000000" + "0000" * 2 + "0003010000000000" + "0003010000000000", None),
        ("registers past the count", "6e0f0000ffff" + "0e00", None),
        ("a wide value in the last register", "16000000" + "0e00", None),
        ("types of any kind", "22000200" + "23000000" + "1c000200" + "1f000200" + "20000200" + "240000000000", None),
    ):
        yield what, with_code(bytes.fromhex(text)), answer and (answer[0], UNITS + answer[1])
    data = with_code(bytes.fromhex("77020000ffff"), 65535)
    yield "a call with registers past 65535", data, ("Register", UNITS)


def tries() -> Iterator[Example]:
    units = bytes.fromhex("12003800030028fe0e00")  # const/4, if-eqz of two units, goto, return-void
    for what, items, handlers, answer in (
        ("a try within an instruction", [(2, 1, 1)], "010004", ("Try", 12)),
        ("a try that begins within the one before", [(0, 3, 1), (1, 2, 1)], "010004", ("Try", 20)),
        ("no handlers", [(0, 1, 1)], "", ("Handler", 20)),
        ("a handler whose end is in the next section", [(0, 1, 1)], "0100", ("Handler", 20)),
        ("an unused handler at no instruction", [(0, 1, 1)], "020004010002", ("Handler", 20)),
    ):
        data = with_code(units, tries=items, handlers=bytes.fromhex(handlers))
        yield what, data, answer and (answer[0], UNITS + answer[1])
    data = with_code(units, tries=[(0, 1, 1)], handlers=bytes.fromhex("010004"))
    yield "padding that isn't 0", changed(data, (UNITS + 10, "ffff")), None
    units = bytes.fromhex("0e000000" + "0003010000000000")
    data = with_code(units, tries=[(2, 4, 1)], handlers=bytes.fromhex("017f000202"))
    yield "a try and its handlers at a payload", data, None


def edge_cases() -> Iterator[Example]:
    groups = header_and_map, numbers_and_strings, texts_that_name, rows_that_name, classes, values, codes, tries
    for group in groups:
        yield from group()
