"""Changes files so that their faults are many and near the edges of the rules, and closes them again."""
import collections
import random
import struct
import zlib
from collections.abc import Callable, Iterator
from typing import Any

from . import examples
from . import faults
from . import programs
from .making import Layout, Made, Parts, closed, file_of, sleb128, uleb128

Spot = tuple[int, int]  # place and width
# Columns of the tables: bytes and label of each, by the table's kind.
COLUMNS = {
    faults.STRINGS: ((4, "string row"),), faults.TYPES: ((4, "type row"),),
    faults.PROTOS: ((4, "shorty"), (4, "return type"), (4, "offset of a list")),
    faults.FIELDS: ((2, "owner"), (2, "field type"), (4, "name")),
    faults.METHODS: ((2, "owner"), (2, "prototype"), (4, "name")),
    faults.CLASSES: ((4, "class"), (4, "flags"), (4, "superclass"), (4, "offset of a list"), (4, "source file"),
                     (4, "ignored"), (4, "offset of members"), (4, "offset of values")),
}
# How often each label is chosen, where not once; 'cut', 'map edit' and 'any byte' are changes of a kind of their own.
WEIGHTS: collections.defaultdict[str, float] = collections.defaultdict(lambda: 3, {
    "magic": 1, "sums": 1, "map count": 2, "ignored": 0.5, "flags": 1, "source file": 2, "string end": 2, "padding": 1,
    "row": 6, "list type": 5, "difference": 6, "values": 9, "opcode": 6, "high byte": 6, "branch": 6, "switch": 5,
    "index": 5, "payload head": 5, "payload": 6, "handlers": 6, "handler size": 5, "cut": 1.5, "map edit": 4,
    "any byte": 2,
})
HOSTILE = (0, 1, 0x7F, 0x80, 0xFF, 0xFFFF, 0x7FFF, 0x8000, 0x7FFFFFFF, 0x80000000, 0xFFFFFFFF, 0xFFFFFFFE, 2, 3, 4)
MAY_BE_0 = ("branch", "difference", "insns_size", "tries_size", "insn_count", "offset of values", "offset of members")
AWKWARD = {
    "text": (0, 1, 0x41, 0x7F, 0x80, 0x9F, 0xA0, 0xBF, 0xC0, 0xC1, 0xC2, 0xDF, 0xE0, 0xED, 0xEF, 0xF0, 0xF4, 0xFF),
    "number": (0, 1, 2, 7, 8, 0x0F, 0x10, 0x1F, 0x3F, 0x40, 0x70, 0x78, 0x7F, 0x80, 0x81, 0xC0, 0xFF, 0xFF, 0x80),
    "value": (0, 2, 0x22, 3, 0x23, 0x43, 4, 0x64, 0x84, 6, 0xE6, 0x10, 0x70, 0x90, 0x11, 0xF1, 0x17, 0x77, 0x97, 0x18,
              0x19, 0x1A, 0x1B, 0x1C, 0x3C, 0x1E, 0x3E, 0x1F, 0x3F, 0x5F, 1, 0x15, 0x16, 0x1D, 0x12, 5, 0xFF),
}
# Which of them are awkward in the bytes of each label.
AWKWARD_IN = {"string count": "text", "string byte": "text", "string end": "text", "values": "value",
              "handlers": "number", "members count": "number", "difference": "number", "member flags": "number",
              "code offset": "number", "values count": "number", "handler size": "number"}


# -------------------------------------------------------------------------------------------------- what can be changed


class Spots:
    """The fields of an accepted file: under each label the place and width of each. And of each row, each two entries
    of class data that are neighbours, and each instruction, its fields: (label, place, width)."""

    of: dict[str, list[Spot]]
    together: dict[str, list[list[tuple[str, int, int]]]]

    def __init__(self, data: bytes) -> None:
        self.data, self.file = data, faults.read(data)
        self.of, self.together = collections.defaultdict(list), collections.defaultdict(list)
        self.in_head_and_map()
        self.in_tables()
        for row in self.file.classes:
            self.in_class(row)
        for code in self.file.codes:
            self.in_code(code)

    def put(self, label: str, at: int, width: int = 1) -> None:
        self.of[label].append((at, width))

    def put_bytes(self, label: str, at: int, end: int) -> None:
        for place in range(at, end):
            self.put(label, place)

    def put_number(
        self, label: str, at: int, end: int, read: Callable[[bytes, int, int], tuple[int, int] | None] = faults.uleb128
    ) -> tuple[int, int]:
        number, after = read(self.data, at, end)  # type: ignore[misc]  # (an accepted file has a number there)
        self.put_bytes(label, at, after)
        return number, after

    def in_head_and_map(self) -> None:
        self.put_bytes("magic", 0, 8)
        self.put_bytes("sums", 8, 32)
        for at in range(32, 56, 4):
            self.put("head", at, 4)
        for at in range(56, 112, 8):
            self.put("size", at, 4)
            self.put("offset", at + 4, 4)
        off = self.file.map_off
        self.put("map count", off, 4)
        for at in range(off + 4, off + 4 + 12 * faults.u32(self.data, off), 12):
            self.put("map kind", at, 2)
            self.put("ignored", at + 2, 2)
            self.put("map size", at + 4, 4)
            self.put("map offset", at + 8, 4)

    def in_tables(self) -> None:
        for kind, columns in COLUMNS.items():
            for i in range(self.file.size(kind)):
                at = self.file.row(kind, i)
                self.put(f"row {kind}", at, faults.TABLES[kind][1])
                fields = []
                for width, label in columns:
                    self.put(label, at, width)
                    fields.append((label, at, width))
                    at += width
                self.together[f"row {kind}"].append([field for field in fields if field[0] not in ("ignored", "flags")])
        for i in range(self.file.size(faults.STRINGS)):
            at = faults.u32(self.data, self.file.row(faults.STRINGS, i))
            # (an accepted file has a number here, too)
            end = self.data.index(0, faults.uleb128(self.data, at, len(self.data))[1])  # type: ignore[index]
            self.put("string count", at)
            self.put_bytes("string byte", at + 1, end)
            self.put("string end", end)
        rows = [self.file.row(faults.PROTOS, i) for i in range(self.file.size(faults.PROTOS))]
        lists = [faults.u32(self.data, row + 8) for row in rows]
        for off in lists + [row.interfaces for row in self.file.classes]:
            if off:
                self.put("list size", off, 4)
                for j in range(faults.u32(self.data, off)):
                    self.put("list type", off + 4 + 2 * j, 2)

    def in_class(self, row: faults.ClassRow) -> None:
        if row.class_data:
            at, end = row.class_data, self.file.section[faults.CLASS_DATA][1]
            for _ in range(4):
                _, at = self.put_number("members count", at, end)
            before: list[tuple[str, int, int]] = []
            for members in row.members:
                for member in members:
                    entry: list[tuple[str, int, int]] = []
                    for label, _ in zip(("difference", "member flags", "code offset"), member):
                        entry += [(label, at, 1)] * (label == "difference")
                        _, at = self.put_number(label, at, end)
                    self.together["members"].append(before + entry)
                    before = entry
        if row.values:
            end = self.file.section[faults.ARRAY_OF_VALUES][1]
            self.put("values count", row.values)
            self.put_bytes("values", row.values + 1, faults.behind_array(self.file, row, row.values, end, None, 0))

    def in_code(self, code: faults.Code) -> None:
        for label, there in (("registers", 0), ("ins_size", 2), ("ignored", 4), ("tries_size", 6)):
            self.put(label, code.off + there, 2)
        self.put("ignored", code.off + 8, 4)
        self.put("insns_size", code.off + 12, 4)
        for each in code.instructions:
            self.in_instruction(code.place(each.at), each)
        self.put_bytes("padding", code.place(code.length), code.tries_off)
        for at in range(code.tries_off, code.handlers_off, 8):
            for label, there, width in (("start_addr", 0, 4), ("insn_count", 4, 2), ("handler_off", 6, 2)):
                self.put(label, at + there, width)
        if code.tries:
            self.in_handlers(code)

    def in_instruction(self, at: int, each: faults.Instruction) -> None:
        self.put("opcode", at)
        self.put("high byte", at + 1)
        tail = [("unit", at + there, 2) for there in range(2, 2 * each.size, 2)][:2]
        self.together["instruction"].append([("opcode", at, 1), ("high byte", at + 1, 1), *tail])
        if each.form == "10t":
            self.put("branch", at + 1)
        elif each.form in faults.BRANCH_FORMATS:
            self.put("branch", at + 2, 4 if each.form == "30t" else 2)
        elif each.form == "31t":
            self.put("switch", at + 2, 4)
        elif each.form not in faults.UNITS:
            self.put("payload head", at, 2)
            self.put("payload head", at + 2, 2)
            for there in range(4, 2 * each.size - 3, 4):
                self.put("payload", at + there, 4)
        else:
            for there in range(2, 2 * each.size, 2):
                self.put("index" if there == 2 and each.form in faults.INDEX_FORMATS else "unit", at + there, 2)

    def in_handlers(self, code: faults.Code) -> None:
        end = self.file.section[faults.CODE][1]
        count, at = self.put_number("handlers", code.handlers_off, end)
        for _ in range(count):
            size, at = self.put_number("handler size", at, end, faults.sleb128)
            for _ in range(2 * abs(size) + (size <= 0)):
                _, at = self.put_number("handlers", at, end)


# ------------------------------------------------------------------------------------------------------- single changes


def get(data: bytearray, at: int, width: int) -> int:
    return int.from_bytes(data[at : at + width], "little")


def put(data: bytearray, at: int, width: int, number: int) -> None:
    data[at : at + width] = (number & (1 << 8 * width) - 1).to_bytes(width, "little")


def new_number(rng: random.Random, data: bytearray, label: str, at: int, width: int, peers: list[Spot]) -> int:
    """Another number for a field: hostile, that of another field of its kind, a neighbour of what it was, or any."""
    old = get(data, at, width)
    if label in MAY_BE_0 and rng.random() < 0.25:
        return 0
    if AWKWARD_IN.get(label) and rng.random() < 0.3:
        return rng.choice(AWKWARD[AWKWARD_IN[label]])
    way = rng.randrange(8)
    if way <= 1:
        return rng.choice(HOSTILE)
    if way <= 3:
        return get(data, *rng.choice(peers))
    if way == 4:
        return old + rng.choice((-16, -12, -8, -4, -3, -2, -1, 1, 2, 3, 4, 8, 12, 16, 32))
    if way == 5:
        return old ^ 1 << rng.randrange(8 * width)
    return rng.randrange(24 if way == 6 else 1 << 8 * width)


def edit_map(rng: random.Random, data: bytearray) -> None:
    """Deletes, doubles or swaps entries of the map; the count follows, now and then not."""
    at = get(data, 52, 4)
    count = min(get(data, at, 4), 40)  # an earlier change may have made it huge
    entries = [bytes(data[at + 4 + 12 * i : at + 16 + 12 * i]) for i in range(count)]
    i, j, way = rng.randrange(count), rng.randrange(count), rng.randrange(4)
    if way <= 1:
        del entries[i]
    elif way == 2:
        entries[i], entries[j] = entries[j], entries[i]
    else:
        entries[i] = entries[j]
    if rng.random() < 0.9:
        put(data, at, 4, len(entries))
    body = b"".join(entries)
    data[at + 4 : at + 4 + len(body)] = body


def cut(rng: random.Random, data: bytearray) -> None:
    """Cuts the file or lengthens it; file_size follows half the times."""
    if rng.random() < 0.3:
        del data[rng.randrange(112) :]
    elif rng.random() < 0.5:
        del data[rng.randrange(max(112, len(data) - 200), len(data)) :]
    else:
        data += bytes(rng.randrange(1, 9))
    if len(data) >= 112 and rng.random() < 0.5:
        put(data, 32, 4, len(data))


def swap_rows(rng: random.Random, data: bytearray, peers: list[Spot]) -> None:
    """One row becomes another one's copy, or they change places."""
    (at, width), (other, _) = rng.choice(peers), rng.choice(peers)
    mine, its = bytes(data[at : at + width]), bytes(data[other : other + width])
    data[at : at + width] = its
    if rng.random() < 0.6:
        data[other : other + width] = mine


def change(rng: random.Random, data: bytearray, spots: Spots) -> None:
    labels = list(spots.of) + ["cut", "map edit", "any byte"]
    weights = [WEIGHTS["row" if label.startswith("row ") else label] for label in labels]
    label = rng.choices(labels, weights)[0]
    if label == "cut":
        cut(rng, data)
    elif label == "map edit":
        edit_map(rng, data)
    elif label == "any byte":
        data[rng.randrange(32, len(data))] = rng.choice(HOSTILE[:5] + (rng.randrange(256),))
    elif label.startswith("row "):
        swap_rows(rng, data, spots.of[label])
    else:
        at, width = rng.choice(spots.of[label])
        put(data, at, width, new_number(rng, data, label, at, width, spots.of[label]))


# -------------------------------------------------------------------------------------------------- changes of a sample


def of_fields(rng: random.Random, spots: Spots) -> bytes:
    """One to three changes. Now and then the checksum, or it and the signature, are as they were."""
    data = bytearray(spots.data)
    for _ in range(rng.choice((1, 1, 1, 1, 1, 2, 2, 3))):
        try:
            change(rng, data, spots)
        except (IndexError, ValueError):
            pass  # an earlier change took the place away
        if len(data) < 112:
            return bytes(data)
    way = rng.random()
    if way < 0.01:
        return bytes(data)
    if way < 0.02:
        data[8:12] = struct.pack("<I", zlib.adler32(data[12:]))
        return bytes(data)
    return closed(data)


def of_neighbours(rng: random.Random, spots: Spots) -> bytes:
    """Two or three fields within 48 bytes: which fault of a row, an item or an entry is the first."""
    data = bytearray(spots.data)
    all_spots = [(label, spot) for label, found in spots.of.items() if not label.startswith("row ") for spot in found]
    _, (centre, _) = rng.choice(all_spots)
    near = [(label, spot) for label, spot in all_spots if abs(spot[0] - centre) <= 48 and spot[0] >= 32]
    for label, (at, width) in rng.sample(near, min(len(near), rng.choice((2, 2, 3)))):
        put(data, at, width, new_number(rng, data, label, at, width, spots.of[label]))
    return closed(data)


def of_pairs(rng: random.Random, spots: Spots) -> bytes:
    """Two fields of one row, of two members' entries or of one instruction: which of two faults is told."""
    data = bytearray(spots.data)
    if not spots.together:  # no row
        return bytes(data)
    fields = rng.choice(spots.together[rng.choice(list(spots.together))])
    for label, at, width in rng.sample(fields, min(len(fields), 2)):
        put(data, at, width, new_number(rng, data, label, at, width, spots.of[label] or [(at, width)]))
    return closed(data)


def of_borders(rng: random.Random, spots: Spots) -> bytes:
    """An offset or a size that leads to a border of a section, a table, the data section or the file, or beside it."""
    data, file = bytearray(spots.data), spots.file
    borders = [len(data), 0x70, file.data_off, file.data_off + file.data_size, file.map_off]
    borders += [border for section in file.section.values() for border in section]
    for kind, (size, off) in file.table.items():
        borders += [off, off + size * faults.TABLES[kind][1]] if size else []
    labels = ("string row", "offset of a list", "offset of members", "offset of values", "map offset", "offset", "size",
              "head")
    label = rng.choice([label for label in labels if label in spots.of])
    at, width = rng.choice(spots.of[label])
    border = rng.choice(borders)
    if label == "size":
        at, border = 104, border - file.data_off
    elif label == "head":
        at = 52
    put(data, at, width, border + rng.choice((0, 0, 0, 0, -1, 1, -2, 2, -4, 4)))
    if label == "map offset" and get(data, at - 8, 2) in faults.TABLES and rng.random() < 0.5:
        put(data, faults.TABLES[get(data, at - 8, 2)][0] + 4, 4, get(data, at, 4))  # the header's offset goes with it
    return closed(data)


def of_runs(rng: random.Random, spots: Spots) -> bytes:
    """Neighbouring bytes of strings, members, values or handlers, each of those that are awkward there."""
    data = bytearray(spots.data)
    labels = [label for label in AWKWARD_IN if label in spots.of]
    if labels:
        label = rng.choice(labels)
        at = rng.choice(spots.of[label])[0]
        for place in range(at, min(at + rng.randrange(1, 6), len(data))):
            data[place] = rng.choice(AWKWARD[AWKWARD_IN[label]])
    return closed(data)


# ----------------------------------------------------------------------------------------------- files without a sample

EDGES = (0x20, 0x23, 0x24, 0x25, 0x2C, 0x2D, 0x2E, 0x2F, 0x30, 0x39, 0x3A, 0x3B, 0x3C, 0x3E, 0x40, 0x41, 0x5A, 0x5B,
         0x5E, 0x5F, 0x60, 0x61, 0x7A, 0x7B, 0x7F, 0x80, 0xA0, 0xA1, 0x7FF, 0x800, 0x1FFF, 0x2000, 0x200F, 0x2010,
         0x2027, 0x2028, 0x202F, 0x2030, 0xD7FF, 0xD800, 0xDBFF, 0xDC00, 0xDFFF, 0xE000, 0xFFEF, 0xFFF0, 0xFFFF)
PAIRS = ("\ud800\udc00", "\udbff\udfff", "\udc00\ud800", "\ud800\ud800\udc00", "\ud83d\ude00")
ODD_TYPES = ("L", "[", "V", "LA", "[[", "[V", "LV;", "L/a;", "La/;", "La//b;", "L;", "I;", "II", "A", "[L;", "LA;;")


def odd_name(rng: random.Random) -> str:
    """A few units at the edges of what a SimpleName has."""
    ways: tuple[Callable[[], str], ...]
    ways = (lambda: rng.choice(PAIRS), lambda: chr(rng.choice(EDGES)), lambda: rng.choice("ab<>/;[L"))
    return "".join(rng.choice(ways)() for _ in range(rng.randrange(1, 4)))


def odd_type(rng: random.Random) -> str:
    ways: tuple[Callable[[], str], ...]
    ways = (lambda: "L" + odd_name(rng) + ";", lambda: rng.choice(ODD_TYPES),
            lambda: "[" * rng.choice((1, 2, 254, 255, 256, 257)) + rng.choice(("I", "LA;", "V", "LA", odd_name(rng))))
    return rng.choice(ways)()


def of_names(rng: random.Random) -> bytes | None:
    """A class with a field or a method whose name or type is at the edge of its grammar."""
    name, text = rng.choice((("a", odd_type(rng)), (odd_name(rng), "[I")))
    if rng.random() < 0.4:
        name = rng.choice(("<%s>", "<%s", "%s>", "<<%s>>", "<%s>>")) % (name if rng.random() < 0.7 else "")
    made: Made = {"type": "LA;"}
    if rng.random() < 0.5:
        made["virtuals"] = [(name, ("V", (text,) if rng.random() < 0.5 else ()), 1, None)]
    else:
        made["instances"] = [(name, text, 1)]
    extra: list[tuple[str, Any]] = [("string", odd_name(rng)), ("type", text)]
    if rng.random() < 0.2:
        extra.append(("method", (text, "m", ("V", ()))))
    return file_of([made], Layout(rng, 0.2), extra)


def random_unit(rng: random.Random) -> int:
    return rng.choice((0, 1, 0xFFFF, 0xFFFE, *map(rng.randrange, (4, 8, 256, 65536))))


def units_of_any(rng: random.Random, before: int) -> list[int]:
    """An instruction whose operands nobody chose, after so many units."""
    opcode = rng.choice(sorted(faults.OPCODES) if rng.random() < 0.6 else (0,) + programs.WITH_TARGETS)
    if rng.random() < 0.05:
        opcode = rng.randrange(256)
    form = faults.OPCODES.get(opcode, ("10x",))[0]
    high = rng.choice((0, 1, 2, 3, 0x10, 0x50, 0x60, 0xFF, rng.randrange(256)))
    rest = [random_unit(rng) for _ in range(faults.UNITS[form] - 1)]
    offset = rng.randrange(-before, 12)
    if form in faults.ZERO_HIGH_BYTE and rng.random() < 0.95:
        high = 0
    if form == "10t":
        high = offset & 0xFF
    elif form in faults.BRANCH_FORMATS + ("31t",) and rng.random() < 0.8:
        rest = [offset & 0xFFFF, offset >> 16 & 0xFFFF][: len(rest)]
    elif form in faults.INDEX_FORMATS and rng.random() < 0.85:
        rest = [0, 0][: 2 if form == "31c" else 1] + rest[2 if form == "31c" else 1 :]
    return [opcode | high << 8] + rest


def units_of_payload(rng: random.Random) -> list[int]:
    count, way = rng.randrange(4), rng.randrange(3)
    targets = [unit for _ in range(count) for unit in (rng.randrange(-8, 12) & 0xFFFF, rng.choice((0, 0xFFFF)))]
    if way == 0:
        return [0x100, count, random_unit(rng), 0] + targets
    if way == 1:
        keys = [rng.randrange(-50, 50) for _ in range(count)]
        keys = sorted(keys) if rng.random() < 0.8 else keys
        return [0x200, count] + [unit for key in keys for unit in (key & 0xFFFF, key >> 16 & 0xFFFF)] + targets
    width = rng.choice((1, 2, 4, 8, 8, 3, 0))
    return [0x300, width, count, 0] + [random_unit(rng) for _ in range((count * width + 1) // 2)]


def random_handlers(rng: random.Random, length: int) -> tuple[bytes, list[int]]:
    """A list of handlers, of numbers that are right now and then, and where each begins."""
    count, layout = rng.randrange(4), Layout(rng, 0.5)
    listed, begins = uleb128(count, layout), []
    for _ in range(count):
        begins.append(len(listed))
        size = rng.choice((-2, -1, 0, 1, 2))
        listed += sleb128(size, layout)
        for _ in range(2 * abs(size) + (size <= 0)):
            listed += uleb128(rng.choice((0, 0, 0, rng.randrange(4), rng.randrange(length + 2))), layout)
    if rng.random() < 0.3:
        at = rng.randrange(len(listed))
        piece = bytes(rng.choice(AWKWARD["number"]) for _ in range(rng.randrange(1, 6)))
        listed = listed[:at] + piece + listed[at + len(piece) if rng.random() < 0.5 else at :]
    return listed, begins


def of_units(rng: random.Random) -> bytes:
    """A code of instructions, payloads, tries and handlers that nobody chose."""
    units: list[int] = []
    for _ in range(rng.randrange(1, 9)):
        units += units_of_any(rng, len(units))
    for _ in range(rng.randrange(3)):
        units += [0] * (len(units) % 2 if rng.random() < 0.9 else 0) + units_of_payload(rng)
    if rng.random() < 0.1:
        del units[rng.randrange(1, len(units) + 1) :]
    tries, at = [], 0
    handlers, begins = random_handlers(rng, len(units))
    for _ in range(rng.choice((0, 0, 1, 2, 3))):
        start, count = at + rng.choice((0, 0, 1, 2, -1)), rng.randrange(4)
        handler = rng.choice(begins) if begins and rng.random() < 0.9 else rng.randrange(12)
        tries.append((start & 0xFFFFFFFF, count, handler))
        at = start + count
    registers, ins = rng.choice((0, 1, 2, 16, 256, 65535, 65535, 65535, 65535)), rng.choice((0, 0, 0, 1, 2))
    return examples.with_code(struct.pack(f"<{len(units)}H", *units), registers, ins, tries, handlers)


def of_depths(rng: random.Random) -> bytes | None:
    """Values with arrays in arrays, about as many as there may be."""
    value: Parts = programs.random_value(rng, 3) if rng.random() < 0.5 else ("array", [])
    for _ in range(rng.choice((62, 63, 64, 64, 65, 66, 70, 200))):
        beside = [programs.random_value(rng, 3)] if rng.random() < 0.2 else []
        value = ("array", rng.choice((beside + [value], [value] + beside)))
    values = [programs.random_value(rng) for _ in range(rng.randrange(3))] + [value]
    statics = [(f"f{i}", "I", 9) for i in range(len(values))]
    return file_of([{"type": "LA;", "statics": statics, "values": values}], Layout(rng, rng.choice((0, 0.3))))


def of_many_rows(rng: random.Random) -> bytes:
    """About as many types or prototypes as there may be, of zeros."""
    count = rng.choice((65535, 65536, 65537))
    width, place = rng.choice(((4, 64), (12, 72)))
    return examples.with_rows(count, place, width)


# ---------------------------------------------------------------------------------------------------------- all of them


def random_sample(rng: random.Random) -> bytes | None:
    """A file of a random program."""
    layout = Layout(rng, rng.choice((0, 0, 0.3, 0.6, 0.9)))
    return file_of(programs.random_classes(rng), layout, programs.random_extra(rng))


def random_samples(rng: random.Random, count: int) -> list[bytes]:
    return [data for data in (random_sample(rng) for _ in range(count)) if data is not None]


def mutated(rng: random.Random, samples: list[Spots]) -> Iterator[bytes]:
    """Files without end; the samples are the spots of accepted files."""
    own = of_names, of_units, of_depths, of_many_rows, random_sample
    of_sample = of_fields, of_runs, of_borders, of_neighbours, of_pairs
    while True:
        if rng.random() < 0.23:
            data = rng.choices(own, (7, 13, 1, 0.1, 1))[0](rng)
        else:
            data = rng.choices(of_sample, (46, 8, 9, 8, 12))[0](rng, rng.choice(samples))
        if data is not None:
            yield data
