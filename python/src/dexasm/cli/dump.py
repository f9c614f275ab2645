"""The bytes of a .dex file, each once, with what they are: for dexasm-info --hex.

What the program has is taken apart first; what it doesn't need (debug information, annotations) fills places between,
and what is left is said to be so (hidden-API data isn't read). An item that begins within another one has the bytes
that are left of it."""
from __future__ import annotations

import heapq
from collections.abc import Callable, Iterable, Iterator
from contextlib import suppress
from functools import partial
from typing import TYPE_CHECKING

from dexasm import dexfile as dex
from dexasm.analysis.xref import flag_words
from dexasm.cli.core import read_program
from dexasm.cli.sanitize import shortened
from dexasm.cli.tables import MAP_TYPES, ROWS, Readable, as_text, has_tables, header, map_place
from dexasm.flags import CLASS_FLAGS, FIELD_FLAGS, METHOD_FLAGS
from dexasm.names import quoted, spelled

if TYPE_CHECKING:
    from dexasm.program import Program

WIDTH = 8  # bytes a line
MOST_DESCRIBED = 1 << 16  # rows whose names are kept; those of strings are kept by the tables
UNNEEDED: dict[dex.Read, str] = {
    dex.read_debug: "debug_info_item",
    dex.read_directory: "annotations_directory_item",
    dex.read_list: "annotation_set_ref_list",
    dex.read_set: "annotation_set_item",
    dex.read_annotation: "annotation_item",
}
ENUM, CHAR = 0x1B, 0x03
NUMBERS = {0x00: "byte", 0x02: "short", 0x04: "int", 0x06: "long"}
BITS = {0x10: ("float", 4), 0x11: ("double", 8)}
LISTS = (
    ("static field", "field", FIELD_FLAGS),
    ("instance field", "field", FIELD_FLAGS),
    ("direct method", "method", METHOD_FLAGS),
    ("virtual method", "method", METHOD_FLAGS),
)
CLASS_FIELDS = (
    "class_idx access_flags superclass_idx interfaces_off source_file_idx annotations_off class_data_off"
    " static_values_off"
).split()

Piece = tuple[int, int, str]  # begin, end, what it is
Parts = Callable[[], Iterable[Piece]]


class Dump:
    """The items of a file by where they are: `needed` are those of the program, `others` the rest."""

    def __init__(self, data: bytes, lines_at: dict[int, Callable[[], list[str]]]) -> None:
        self.data, self.lines_at, self.tables = data, lines_at, Readable(data)
        self.needed: dict[tuple[int, int, str], Parts] = {}
        self.others: dict[tuple[int, int, str], Parts] = {}
        self.followed: set[tuple[dex.Read, int]] = set()
        self.described: dict[tuple[str, int], tuple[str, int]] = {}  # each with the bytes that are read for it
        fields = [at + size for _, at, size, _ in header(data)]
        self.add(0, max(fields, default=0), MAP_TYPES[0], self.header)
        if not has_tables(data):
            return
        if place := map_place(data):
            self.add(place[0], place[0] + 4 + 12 * place[1], "map_list", partial(self.map_list, *place))
        for table, _, size in dex.TABLES:
            begin = self.tables.at[table]
            for row in range(self.tables.rows[table]):
                at = begin + size * row
                self.add(at, at + size, ROWS[table], partial(self.row, table, row, at))
        for read, rows in (
            (self.string, self.tables.rows["string"]),
            (lambda row: self.type_list(self.tables.numbers("proto", row, "<III")[2]), self.tables.rows["proto"]),
            (self.class_items, self.tables.rows["class"]),
        ):
            for row in range(rows):
                with suppress(dex.Malformed):
                    read(row)

    def add(self, begin: int, end: int, heading: str, parts: Parts) -> None:
        if begin < end <= len(self.data):
            self.needed.setdefault((begin, end, heading), parts)

    def string(self, row: int) -> None:
        begin = self.tables.numbers("string", row, "<I")[0]
        text = self.tables.text(row)
        reader = dex.Reader(self.data, begin)
        units = reader.uleb()
        end = dex.end_of_text(self.data, reader.at) + 1
        line = f"string {row}, utf16_size {units}: {shortened(quoted(text))}"
        self.add(begin, end, MAP_TYPES[0x2002], lambda: [(begin, end, line)])

    def type_list(self, at: int) -> None:
        types = self.tables.types_at(at)
        end = at + 4 + 2 * len(types)
        if at:
            self.add(at, end, MAP_TYPES[0x1001], lambda: self.type_list_parts(at))

    def class_items(self, row: int) -> None:
        """What a class's row leads to; where one of it can't be read the others are."""
        _, _, _, interfaces, _, annotations, members, statics = self.tables.numbers("class", row, "<8I")
        reads: tuple[Callable[[], None], ...] = (
            lambda: self.type_list(interfaces),
            lambda: self.class_data(members, row),
            lambda: self.static_values(statics),
            lambda: self.follow(dex.read_directory, annotations),
        )
        for read in reads:
            with suppress(dex.Malformed):
                read()

    def class_data(self, at: int, row: int) -> None:
        if not at:
            return
        end, codes = at, []
        for _, end, _, index, code in self.members(at):
            codes += [(code, index)] if code else []
        self.add(at, end, f"{MAP_TYPES[0x2000]} of {self.describe('class', row)}", lambda: self.class_data_parts(at))
        for code, index in codes:
            with suppress(dex.Malformed):
                self.code(code, index)

    def members(self, at: int) -> Iterator[tuple[int, int, int | None, int, int]]:
        """The numbers of a class's data: begin, end, of a member which list it is in, its row, and where its code is;
        of a count None and the count."""
        left = [max(0, self.tables.left)]
        reader = dex.Reader(self.data, at, left)
        counts = []
        for _ in LISTS:
            begin = reader.at
            counts.append(reader.uleb())
            yield begin, reader.at, None, counts[-1], 0
        for number, count in enumerate(counts):
            index = 0
            for _ in range(count):
                begin = reader.at
                index += reader.uleb()
                reader.uleb()
                code = reader.uleb() if number > 1 else 0
                yield begin, reader.at, number, index, code
        self.tables.charge(reader.at - at)

    def code(self, at: int, index: int) -> None:
        count = dex.unpack("<I", self.data, at + 12)[0]
        self.tables.charge(16 + 2 * count)
        end, debug = self.code_end(at, count)
        heading = f"{MAP_TYPES[0x2001]} of {self.describe('method', index)}"
        self.add(at, end, heading, lambda: self.code_parts(at, count, end))
        self.follow(dex.read_debug, debug)

    def code_end(self, at: int, count: int) -> tuple[int, int]:
        """Where a code ends, and where its debug information is; of one that can't be read behind its instructions."""
        try:
            code = dex.Code(self.data, at)
            return code.end, code.debug
        except dex.Malformed:
            return min(len(self.data), at + 16 + 2 * count), 0

    def static_values(self, at: int) -> None:
        if at:
            reader = dex.Reader(self.data, at, [max(0, self.tables.left)])
            for _ in dex.values(reader, reader.uleb()):
                pass
            self.tables.charge(reader.at - at)
            self.add(at, reader.at, MAP_TYPES[0x2005], lambda: self.value_parts(at))

    def follow(self, read: dex.Read, at: int) -> None:
        """An item that the program doesn't need, and those that it leads to."""
        due = [(read, at)]
        while due:
            read, at = due.pop()
            if not at or (read, at) in self.followed:
                continue
            self.followed.add((read, at))
            reader = dex.Reader(self.data, at, [max(0, self.tables.left)])
            try:
                due += read(reader)
                self.tables.charge(reader.at - at)
            except dex.Malformed:
                continue
            self.others[at, reader.at, UNNEEDED[read]] = partial(unchecked, at, reader.at)

    # ---- parts

    def describe(self, table: str, row: int) -> str:
        """What a row names, as a listing has it."""
        left = self.tables.left
        if (known := self.described.get((table, row))) and known[1] <= left:
            self.tables.charge(known[1])
            return known[0]
        name = self.tables.name_or_none(table, row)
        text = "not read" if name is None else shortened(quoted(name) if table == "string" else spelled(name))
        if name is not None and table != "string" and len(self.described) < MOST_DESCRIBED:
            self.described[table, row] = text, left - self.tables.left
        return text

    def header(self) -> Iterator[Piece]:
        for name, at, size, value in header(self.data):
            yield at, at + size, f"{name} {as_text(name, value)}"

    def map_list(self, at: int, count: int) -> Iterator[Piece]:
        yield at, at + 4, f"size {dex.unpack('<I', self.data, at)[0]}"
        for entry in range(at + 4, at + 4 + 12 * count, 12):
            kind, unused, size, offset = dex.unpack("<HHII", self.data, entry)
            yield entry, entry + 2, f"type 0x{kind:04x}, {MAP_TYPES.get(kind, 'unknown')}"
            yield entry + 2, entry + 4, f"unused {unused}"
            yield entry + 4, entry + 8, f"size {size}"
            yield entry + 8, entry + 12, f"offset 0x{offset:x}"

    def row(self, table: str, row: int, at: int) -> Iterator[Piece]:
        if table == "class":
            yield from self.class_row(row, at)
            return
        text = self.describe(table, row)
        forms = {"string": "at 0x{0:x}: ", "type": "string {0}: ", "proto": "shorty string {0}: "}
        number = dex.unpack("<I", self.data, at)[0]
        yield at, at + self.tables.row[table], f"{table} {row}, {forms.get(table, '').format(number)}{text}"

    def class_row(self, row: int, at: int) -> Iterator[Piece]:
        numbers = self.tables.numbers("class", row, "<8I")
        for number, name, begin in zip(numbers, CLASS_FIELDS, range(at, at + 32, 4)):
            text = f"0x{number:x}" if name.endswith(("_off", "_flags")) or number == dex.ABSENT else str(number)
            if name == "access_flags":
                text += f" {flag_words(number, CLASS_FLAGS)}"
            elif name.endswith("_idx") and number != dex.ABSENT:
                table = "string" if name == "source_file_idx" else "type"
                text += f", {self.describe(table, number)}"
            yield begin, begin + 4, f"{name} {text}".rstrip()

    def type_list_parts(self, at: int) -> Iterator[Piece]:
        types = self.tables.types_at(at)
        yield at, at + 4, f"size {len(types)}"
        for begin, type_ in zip(range(at + 4, at + 4 + 2 * len(types), 2), types):
            yield begin, begin + 2, f"type {type_}, {self.describe('type', type_)}"

    def class_data_parts(self, at: int) -> Iterator[Piece]:
        counts = iter(("static_fields_size", "instance_fields_size", "direct_methods_size", "virtual_methods_size"))
        for begin, end, number, index, code in self.members(at):
            if number is None:
                yield begin, end, f"{next(counts)} {index}"
                continue
            word, table, words = LISTS[number]
            reader = dex.Reader(self.data, begin)
            reader.uleb()
            flags = reader.uleb()
            name = self.describe(table, index)
            access = f"0x{flags:x} {flag_words(flags, words)}".rstrip()
            yield begin, end, f"{word} {name}, {access}" + (f", code at 0x{code:x}" if code else "")

    def code_parts(self, at: int, count: int, end: int) -> Iterator[Piece]:
        names = ("registers_size", "ins_size", "outs_size", "tries_size")
        numbers = dex.unpack("<4H2I", self.data, at)
        for number, name in enumerate(names):
            yield at + 2 * number, at + 2 * number + 2, f"{name} {numbers[number]}"
        yield at + 8, at + 12, f"debug_info_off 0x{numbers[4]:x}"
        yield at + 12, at + 16, f"insns_size {count} units"
        yield from self.insns(at, count)
        behind = at + 16 + 2 * count
        if numbers[3]:
            if count % 2:
                yield behind, behind + 2, "padding"
                behind += 2
            yield from self.tries(behind, numbers[3])

    def insns(self, at: int, count: int) -> Iterator[Piece]:
        units, first = dex.units_of(self.data, at), at + 16
        lines = iter(self.lines_at[at]()) if at in self.lines_at else iter(())
        for begin, end in dex.steps(units):
            if end > count:
                raise dex.Malformed
            text = next(lines, None) or self.instruction(units, begin)
            yield first + 2 * begin, first + 2 * end, f"{begin:04x}: {text}"

    def instruction(self, units: tuple[int, ...], at: int) -> str:
        """An instruction that no listing has."""
        op, table = units[at] & 0xFF, dex.INDEX[units[at] & 0xFF]
        if units[at] in dex.PAYLOADS:
            return dex.PAYLOADS[units[at]]
        if table is None:
            return f"opcode {op:02x}"
        index = dex.index_at(units, at)
        return f"opcode {op:02x}, {table} {index}, {self.describe(table, index)}"

    def tries(self, at: int, count: int) -> Iterator[Piece]:
        for begin in range(at, at + 8 * count, 8):
            first, covered, handler = dex.unpack("<IHH", self.data, begin)
            text = f"try_item: units {first:04x} to before {first + covered:04x}, handler at {handler} of the list"
            yield begin, begin + 8, text
        at += 8 * count
        reader = dex.Reader(self.data, at)
        handlers = reader.uleb()
        yield at, reader.at, f"encoded_catch_handler_list, size {handlers}"
        for _ in range(handlers):
            begin, size = reader.at, reader.sleb()
            caught: list[str] = []
            for _ in range(abs(size)):
                name = self.describe("type", reader.uleb())
                caught.append(f"{name} at {reader.uleb():04x}")
            caught += [f"all else at {reader.uleb():04x}"] if size <= 0 else []
            yield begin, reader.at, f"encoded_catch_handler: {', '.join(caught)}"

    def value_parts(self, at: int) -> Iterator[Piece]:
        reader = dex.Reader(self.data, at)
        count = reader.uleb()
        yield at, reader.at, f"size {count}"
        for begin, head, number in dex.values(reader, count):
            yield begin, reader.at, self.value(head, number)

    def value(self, head: int, number: int) -> str:
        kind, size = head & 0x1F, (head >> 5) + 1
        if kind in NUMBERS:
            return f"{NUMBERS[kind]} {number - (1 << 8 * size if number >> (8 * size - 1) else 0)}"
        if kind in BITS:
            word, most = BITS[kind]
            return f"{word} {number << 8 * max(0, most - size):0{2 * most}x}"
        if kind in dex.VALUE_INDEX:
            table = dex.VALUE_INDEX[kind]
            return f"{'enum' if kind == ENUM else table} {number}, {self.describe(table, number)}"
        if kind == dex.ARRAY:
            return f"array of {number}"
        words = {dex.NULL: "null", dex.BOOLEAN: "true" if number else "false", CHAR: f"char {number}"}
        return words.get(kind, f"value of type 0x{kind:02x}")

    # ---- the order of the file

    def pieces(self) -> Iterator[tuple[int, int, str, str]]:
        """Each byte of the file once: begin, end, the item's name, and what it is."""
        needed = dex.disjoint((*item, 0) for item in sorted(self.needed))
        others = dex.disjoint((*item, 1) for item in sorted(self.others))
        at = 0
        for begin, end, kind, other in heapq.merge(needed, dex.between(needed, others)):
            if begin > at:
                yield at, begin, "", unused(self.data, at, begin)
            parts = (self.others if other else self.needed).get((begin, end, kind))
            cut = [(begin, end, "what is left of one that begins or ends elsewhere")]
            for first, last, text in whole(begin, end, parts() if parts else cut):
                yield first, last, kind, text
            at = end
        if at < len(self.data):
            yield at, len(self.data), "", unused(self.data, at, len(self.data))


def whole(begin: int, end: int, parts: Iterable[Piece]) -> Iterator[Piece]:
    """The parts of an item, to its end also where they can't be read."""
    at = begin
    try:
        for first, last, text in parts:
            if first != at or last > end:
                break
            yield first, last, text
            at = last
    except dex.Malformed:
        pass
    if at < end:
        yield at, end, "can't be read"


def unchecked(begin: int, end: int) -> list[Piece]:
    return [(begin, end, "not checked")]


def unused(data: bytes, begin: int, end: int) -> str:
    is_padding = end - begin < 4 and not any(data[begin:end])
    return "padding" if is_padding else "nothing that is read here refers to it"


def code_lines(data: bytes, name: str) -> dict[int, Callable[[], list[str]]]:
    """Of each code of an accepted file, by where it is: its instructions as the listing has them, each behind the label
    that leads to it."""
    program, tables = read_program(data, name), dex.Tables(data)
    found: dict[int, Callable[[], list[str]]] = {}
    for row in range(tables.count["class"]):
        places = [code for code, _ in tables.codes_of(row, None)]
        for number, at in enumerate(places):
            found.setdefault(at, partial(lines_at, program, row, number))
    return found


def lines_at(program: Program, row: int, number: int) -> list[str]:
    """A line for each instruction of that code of a class, in their order."""
    codes = [method.code for method in program.classes[row].methods if method.code is not None]
    found, label = [], ""
    for line in str(codes[number]).split("\n")[1:]:
        if line.startswith(("try ", "end code")):
            break
        if line.startswith(":"):
            label = f"{line} "
        else:
            found.append(label + line)
            label = ""
    return found


def dump(data: bytes, name: str, refusal: tuple[int, str, int] | None, low: int, high: int) -> Iterator[str]:
    """The lines of the bytes from `low` to before `high` of a file of that name; the fault of a refused one is a line
    before its place."""
    dumper = Dump(data, {} if refusal else code_lines(data, name))
    mark = f">>>>>>>>  refused {refusal[0]} {refusal[1]} at 0x{refusal[2]:x}" if refusal else ""
    place, before = refusal[2] if refusal else -1, ""
    for begin, end, kind, text in dumper.pieces():
        if end <= low or begin >= high:
            continue
        if kind != before and kind:
            yield f"          {kind}"
        before = kind
        if low <= begin and end <= min(begin + WIDTH, high) and not begin <= place < end:  # (as most are)
            yield f"{begin:08x}  {data[begin:end].hex(' '):<23}  {text}".rstrip()
            continue
        for at in range(max(begin, low), min(end, high), WIDTH):
            last = min(at + WIDTH, end, high)
            if at <= place < last:
                yield mark
            yield f"{at:08x}  {data[at:last].hex(' '):<23}  {text}".rstrip()
            text = ""
    if place >= len(data) and low <= len(data) <= high:
        yield mark
