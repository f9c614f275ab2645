"""Makes .dex files of programs, plainly or at random: sections in any order, long spellings, shared items.

A class is a dict of type, flags, super, interfaces, source, statics, values, instances, directs and virtuals; only
the type has to be there. A field is (name, type, flags), a method (name, (return, parameters), flags, code or
None), a value (kind, ..) as value_bytes takes it. A code is a dict of registers, ins, outs, instructions and tries.
An instruction is (opcode, high byte, units ..), where ("string", s), ("type", t), ("field", (class, name, type))
and ("method", (class, name, prototype)) stand for indices, and ("to", k, units) for the way to the k-th
instruction; or it is a payload: ("packed", first key, [k ..]), ("sparse", [key ..], [k ..]), ("array", width,
bytes). A try is (k, k after it, [(type, k) ..], k of all others or None).
"""
import hashlib
import random
import struct
import zlib
from collections.abc import Callable, Iterable, Iterator, Sequence
from typing import Any

from .faults import NONE, OPCODES, UNITS

Made = dict[str, Any]  # a class or a code
Parts = tuple[Any, ...]  # an instruction, a payload or a value
Try = tuple[int, int, Sequence[tuple[str, int]], int | None]
Proto = tuple[str, tuple[str, ...]]

WIDTHS = (4, 4, 12, 8, 8, 32)  # of the rows of the six tables
KIND_OF = {"lists": 0x1001, "codes": 0x2001, "strings": 0x2002, "arrays": 0x2005, "members": 0x2000, "map": 0x1000}
# Sections that nothing looks into, of random bytes: annotations, debug information, hidden-API data.
NOT_LOOKED_AT = {"other 0": 0x2003, "other 1": 0x2006, "other 2": 0x2004, "other 3": 0xF000}
ALIGNED = ("lists", "codes", "map")


def closed(data: bytes | bytearray) -> bytes:
    """The file with the signature and the checksum that belong to its bytes."""
    data = bytearray(data)
    data[12:32] = hashlib.sha1(data[32:]).digest()
    data[8:12] = struct.pack("<I", zlib.adler32(data[12:]))
    return bytes(data)


# What a layout chooses, each by its name: the odd choice of "order" has tables and sections in any order, and so on.
CHOICES = ("order", "section order", "string order", "item order", "unknown sections", "gaps", "sharing", "empty items",
           "numbers", "values", "padding", "handler order", "tries", "debug_info_off", "junk")


class Layout:
    """How a file is laid out: with rng, each choice is the odd one with the probability `odd`; without it, none is.
    With `only`, a choice, no other is."""

    rng: random.Random | Any  # (None where no choice is odd: only what follows an odd one uses it)

    def __init__(self, rng: random.Random | None = None, odd: float = 0.0, only: str | None = None) -> None:
        self.rng, self.odd, self.only = rng, odd, only

    def chance(self, choice: str, share: float = 1.0) -> bool:
        if self.rng is None or self.only not in (None, choice):
            return False
        return self.rng.random() < self.odd * share


# ------------------------------------------------------------------------------------------------------------ spellings


def sevens(parts: list[int], filler: int, layout: Layout) -> bytes:
    """Seven bits a byte, now and then with more bytes than needed."""
    while len(parts) < 5 and layout.chance("numbers", 1 / 8):
        parts.append(filler)
    return bytes(part | 0x80 for part in parts[:-1]) + bytes(parts[-1:])


def uleb128(number: int, layout: Layout) -> bytes:
    parts = [number & 0x7F]
    while number > 0x7F:
        number >>= 7
        parts.append(number & 0x7F)
    return sevens(parts, 0, layout)


def sleb128(number: int, layout: Layout) -> bytes:
    parts = [number & 0x7F]
    while not -0x40 <= number < 0x40:
        number >>= 7
        parts.append(number & 0x7F)
    return sevens(parts, 0x7F if number < 0 else 0, layout)


def mutf8(text: str) -> bytes:
    out = bytearray()
    for unit in map(ord, text):
        if 1 <= unit <= 0x7F:
            out.append(unit)
        elif unit <= 0x7FF:
            out += bytes([0xC0 | unit >> 6, 0x80 | unit & 0x3F])
        else:
            out += bytes([0xE0 | unit >> 12, 0x80 | unit >> 6 & 0x3F, 0x80 | unit & 0x3F])
    return bytes(out)


# ---------------------------------------------------------------------------------------------------------------- names


def shorty(proto: Proto) -> str:
    return "".join("L" if text[0] in "L[" else text for text in (proto[0], *proto[1]))


class Names:
    """The names that a program needs, and after `freeze` the index of each."""

    index: dict[str, dict[Any, int]]

    def __init__(self) -> None:
        self.of: dict[str, set[Any]] = {kind: set() for kind in ("string", "type", "proto", "field", "method")}

    def add(self, kind: str, name: Any) -> None:
        self.of["field" if kind == "enum" else kind].add(name)
        if kind == "type":
            self.add("string", name)
        elif kind == "proto":
            self.add("string", shorty(name))
            for text in (name[0], *name[1]):
                self.add("type", text)
        elif kind in ("field", "enum", "method"):
            self.add("type", name[0])
            self.add("string", name[1])
            self.add("proto" if kind == "method" else "type", name[2])

    def add_value(self, value: Parts) -> None:
        if value[0] in ("string", "type", "field", "method", "enum"):
            self.add(*value)
        if value[0] == "array":
            for each in value[1]:
                self.add_value(each)

    def add_code(self, code: Made) -> None:
        for instruction in code["instructions"]:
            for part in instruction[1:]:
                if isinstance(part, tuple) and part[0] != "to":
                    self.add(*part)
        for _, _, catches, _ in code.get("tries", ()):
            for text, _ in catches:
                self.add("type", text)

    def add_class(self, made: Made) -> None:
        for text in (made["type"], made.get("super"), *made.get("interfaces", ())):
            if text:
                self.add("type", text)
        if made.get("source") is not None:
            self.add("string", made["source"])
        for name, text, _ in (*made.get("statics", ()), *made.get("instances", ())):
            self.add("field", (made["type"], name, text))
        for value in made.get("values", ()):
            self.add_value(value)
        for name, proto, _, code in (*made.get("directs", ()), *made.get("virtuals", ())):
            self.add("method", (made["type"], name, proto))
            if code:
                self.add_code(code)

    def freeze(self) -> None:
        """Tables in the order that rows have: each kind by the indices of those before it."""
        index: dict[str, dict[Any, int]]
        index = self.index = {}
        orders: tuple[tuple[str, Callable[[Any], Any]], ...] = (
            ("string", lambda text: text),
            ("type", lambda text: index["string"][text]),
            ("proto", lambda name: (index["type"][name[0]], [index["type"][text] for text in name[1]])),
            ("field", lambda name: (index["type"][name[0]], index["string"][name[1]], index["type"][name[2]])),
            ("method", lambda name: (index["type"][name[0]], index["string"][name[1]], index["proto"][name[2]])),
        )
        for kind, order in orders:
            index[kind] = {name: i for i, name in enumerate(sorted(self.of[kind], key=order))}
        index["enum"] = index["field"]


# --------------------------------------------------------------------------------------------------------------- values


def signed_value(kind: int, number: int, most: int, layout: Layout) -> bytes:
    width = 1
    while not -(1 << 8 * width - 1) <= number < 1 << 8 * width - 1 or (width < most and layout.chance("values", 1 / 4)):
        width += 1
    return bytes([width - 1 << 5 | kind]) + number.to_bytes(width, "little", signed=True)


def unsigned_value(kind: int, number: int, most: int, layout: Layout) -> bytes:
    width = 1
    while number >= 1 << 8 * width or (width < most and layout.chance("values", 1 / 4)):
        width += 1
    return bytes([width - 1 << 5 | kind]) + number.to_bytes(width, "little")


def value_bytes(names: Names, value: Parts, layout: Layout) -> bytes:
    kind, held = value[0], value[1] if len(value) > 1 else None
    if kind in ("byte", "short", "int", "long"):
        head, most = {"byte": (0x00, 1), "short": (0x02, 2), "int": (0x04, 4), "long": (0x06, 8)}[kind]
        return signed_value(head, held, most, layout)
    if kind in ("float", "double"):
        high: bytes = held.to_bytes(4 if kind == "float" else 8, "little")
        while len(high) > 1 and high[0] == 0 and not layout.chance("values"):
            high = high[1:]
        return bytes([len(high) - 1 << 5 | (0x10 if kind == "float" else 0x11)]) + high
    if kind == "char":
        return unsigned_value(0x03, held, 2, layout)
    if kind in ("string", "type", "field", "method", "enum"):
        head = {"string": 0x17, "type": 0x18, "field": 0x19, "method": 0x1A, "enum": 0x1B}[kind]
        return unsigned_value(head, names.index[kind][held], 4, layout)
    if kind == "array":
        return b"\x1c" + array_bytes(names, held, layout)
    return {"null": b"\x1e", "boolean": b"\x3f" if held else b"\x1f"}[kind]


def array_bytes(names: Names, values: Sequence[Parts], layout: Layout) -> bytes:
    return uleb128(len(values), layout) + b"".join(value_bytes(names, value, layout) for value in values)


# ----------------------------------------------------------------------------------------------------------------- code


def units_of(instruction: Parts) -> int:
    """How many units an instruction takes."""
    if instruction[0] == "packed":
        return 4 + 2 * len(instruction[2])
    if instruction[0] == "sparse":
        return 2 + 4 * len(instruction[1])
    if instruction[0] == "array":
        return 4 + (len(instruction[2]) + 1) // 2
    return UNITS[OPCODES[instruction[0]][0]]


def addresses_of(instructions: Iterable[Parts]) -> list[int]:
    addresses = [0]
    for instruction in instructions:
        addresses.append(addresses[-1] + units_of(instruction))
    return addresses


def payload_bytes(payload: Parts, addresses: list[int], base: int) -> bytes:
    data: bytes
    if payload[0] == "array":
        _, width, data = payload
        return struct.pack("<HHI", 0x0300, width, len(data) // width) + data + bytes(len(data) % 2)
    offsets = b"".join(struct.pack("<i", addresses[k] - base) for k in payload[2])
    if payload[0] == "packed":
        return struct.pack("<HHi", 0x0100, len(payload[2]), payload[1]) + offsets
    return struct.pack(f"<HH{len(payload[1])}i", 0x0200, len(payload[1]), *payload[1]) + offsets


def instruction_bytes(names: Names, instruction: Parts, at: int, addresses: list[int]) -> bytes:
    opcode, high, *rest = instruction
    if isinstance(high, tuple):  # the way of goto, in the byte beside the opcode
        high = addresses[high[1]] - at
    out = bytes([opcode, high & 0xFF])
    for part in rest:
        if not isinstance(part, tuple):
            out += struct.pack("<H", part & 0xFFFF)
        elif part[0] == "to":
            out += ((addresses[part[1]] - at) & ((1 << 16 * part[2]) - 1)).to_bytes(2 * part[2], "little")
        else:
            out += names.index[part[0]][part[1]].to_bytes(4 if OPCODES[opcode][0] == "31c" else 2, "little")
    return out


def tries_bytes(names: Names, tries: Sequence[Try], addresses: list[int], layout: Layout) -> bytes:
    """The try_items and the list of handlers."""
    handlers = list(dict.fromkeys((tuple(catches), other) for _, _, catches, other in tries))
    if layout.chance("handler order"):
        layout.rng.shuffle(handlers)
    catches: Sequence[tuple[str, int]]
    listed, begins, items = uleb128(len(handlers), layout), {}, b""
    for catches, other in handlers:
        begins[catches, other] = len(listed)
        listed += sleb128(len(catches) if other is None else -len(catches), layout)
        for text, k in catches:
            listed += uleb128(names.index["type"][text], layout) + uleb128(addresses[k], layout)
        if other is not None:
            listed += uleb128(addresses[other], layout)
    for first, after, catches, other in tries:
        length = addresses[after] - addresses[first]
        items += struct.pack("<IHH", addresses[first], length, begins[tuple(catches), other])
    return items + listed


def code_bytes(names: Names, code: Made, layout: Layout) -> bytes:
    instructions, tries = code["instructions"], code.get("tries", ())
    addresses = addresses_of(instructions)
    switch_of = {each[2][1]: addresses[k] for k, each in enumerate(instructions) if each[0] in (0x2B, 0x2C)}
    out = struct.pack("<4H2I", code["registers"], code["ins"], code["outs"], len(tries), 0, addresses[-1])
    for k, instruction in enumerate(instructions):
        if isinstance(instruction[0], str):
            out += payload_bytes(instruction, addresses, switch_of.get(k, addresses[k]))
        else:
            out += instruction_bytes(names, instruction, addresses[k], addresses)
    if not tries:
        return out
    if addresses[-1] % 2:
        out += b"\xaa\x55" if layout.chance("padding") else b"\0\0"
    return out + tries_bytes(names, tries, addresses, layout)


# -------------------------------------------------------------------------------------------------------------- members


def member_lists(names: Names, made: Made) -> Iterator[tuple[str, list[tuple[int, int, int]]]]:
    """The four lists of members with their indices, in their order: (index, flags, number in its list of the class)."""
    for group in ("statics", "instances", "directs", "virtuals"):
        index = names.index["field" if group in ("statics", "instances") else "method"]
        members = enumerate(made.get(group, ()))
        yield group, sorted((index[made["type"], each[0], each[1]], each[2], j) for j, each in members)


def members_bytes(names: Names, i: int, made: Made, codes: dict[Any, int], layout: Layout) -> bytes:
    """The class_data_item, with the offsets that codes have so far."""
    lists = dict(member_lists(names, made))
    out = b"".join(uleb128(len(members), layout) for members in lists.values())
    for group, members in lists.items():
        before = 0
        for index, flags, j in members:
            out += uleb128(index - before, layout) + uleb128(flags, layout)
            if group in ("directs", "virtuals"):
                out += uleb128(codes.get((i, group, j), 0), layout)
            before = index
    return out


# ----------------------------------------------------------------------------------------------------------- the layout


class Draft:
    """A file that is laid out until no offset changes: how long class data is depends on the offsets of codes."""

    place: dict[int | str, int]
    pieces: list[tuple[int, bytes]]

    def __init__(self, classes: list[Made], layout: Layout, extra: Iterable[tuple[str, Any]]) -> None:
        self.classes, self.layout = classes, layout
        self.names = Names()
        for kind, name in extra:
            self.names.add(kind, name)
        for made in classes:
            self.names.add_class(made)
        self.names.freeze()
        self.sizes = [len(self.names.index[kind]) for kind in ("string", "type", "proto", "field", "method")]
        self.sizes.append(len(classes))
        self.blocks = self.ordered_blocks()
        self.has_shared, self.has_empty = layout.chance("sharing"), layout.chance("empty items")
        self.offsets: dict[str, dict[Any, int]] = {section: {} for section in KIND_OF}
        self.place, self.pieces = {}, []

    def ordered_blocks(self) -> list[int | str]:
        """Tables by their numbers, sections by their names, in the order in which they stand in the file."""
        tables, sections = list(range(6)), ["lists", "codes", "strings", "arrays", "members", "map"]
        if self.layout.chance("unknown sections"):
            sections += [other for other in NOT_LOOKED_AT if self.layout.rng.random() < 0.3]
        blocks = tables + sections
        if self.layout.chance("order"):
            self.layout.rng.shuffle(blocks)
        elif self.layout.chance("section order"):
            self.layout.rng.shuffle(sections)
            blocks = tables + sections
        return blocks

    def items_of(self, section: str) -> Iterable[tuple[Any, bytes]]:
        """The items of a section: what refers to each, and its bytes."""
        names, layout = self.names, self.layout
        if section == "lists":
            lists = [(proto, proto[1]) for proto in names.index["proto"]]
            lists += [(i, made.get("interfaces", ())) for i, made in enumerate(self.classes)]
            for key, types in lists:
                if types or self.has_empty:
                    indices = [names.index["type"][text] for text in types]
                    yield key, struct.pack(f"<I{len(types)}H", len(types), *indices)
        elif section == "codes":
            for i, made in enumerate(self.classes):
                for group in ("directs", "virtuals"):
                    for j, method in enumerate(made.get(group, ())):
                        if method[3]:
                            yield (i, group, j), code_bytes(names, method[3], layout)
        elif section == "strings":
            texts = list(names.index["string"])
            if layout.chance("string order"):
                layout.rng.shuffle(texts)
            for text in texts:
                yield text, uleb128(len(text), layout) + mutf8(text) + b"\0"
        elif section == "arrays":
            for i, made in enumerate(self.classes):
                if made.get("values") or self.has_empty:
                    yield i, array_bytes(names, made.get("values", ()), layout)
        elif section == "members":
            for i, made in enumerate(self.classes):
                if any(made.get(group) for group in ("statics", "instances", "directs", "virtuals")) or self.has_empty:
                    yield i, members_bytes(names, i, made, self.offsets["codes"], layout)
        else:
            yield None, bytes(layout.rng.randrange(256) for _ in range(layout.rng.randrange(1, 20)))

    def put_section(self, section: str, at: int) -> int:
        """Its items from here on; where items are shared, one of equal bytes is not written twice."""
        written: dict[bytes, int]
        offsets, written = self.offsets.setdefault(section, {}), {}
        for key, item in self.items_of(section):
            if section in ALIGNED:
                at += -at % 4
            if self.has_shared and section != "strings" and item in written:
                offsets[key] = written[item]
                continue
            written[item] = offsets[key] = at
            self.pieces.append((at, item))
            at += len(item)
        return at

    def lay_out(self) -> int:
        """Places everything once; answers where it ends."""
        at, self.pieces = 0x70, []
        for block in self.blocks:
            if isinstance(block, int):
                at += -at % 4
                self.place[block] = at
                at += self.sizes[block] * WIDTHS[block]
                continue
            if self.layout.chance("gaps", 1 / 2):
                at += self.layout.rng.randrange(1, 9)
            if block in ALIGNED:
                at += -at % 4
            self.place[block] = at
            at = at + 4 + 12 * len(self.map_entries()) if block == "map" else self.put_section(block, at)
        return at

    def map_entries(self) -> list[tuple[int, int, int]]:
        entries = [(0, 1, 0)]
        for block in self.blocks:
            if isinstance(block, int):
                if self.sizes[block]:
                    entries.append((block + 1, self.sizes[block], self.place.get(block, 0)))
            elif block == "map":
                entries.append((0x1000, 1, self.place.get(block, 0)))
            elif block in NOT_LOOKED_AT or self.offsets[block]:
                entries.append(({**KIND_OF, **NOT_LOOKED_AT}[block], 1, self.place.get(block, 0)))
        return sorted(entries, key=lambda entry: entry[2])

    def table_bytes(self, table: int) -> bytes:
        names, offsets = self.names.index, self.offsets
        if table == 0:
            return b"".join(struct.pack("<I", offsets["strings"][text]) for text in names["string"])
        if table == 1:
            return b"".join(struct.pack("<I", names["string"][text]) for text in names["type"])
        if table == 2:
            shorties, types, lists = names["string"], names["type"], offsets["lists"]
            return b"".join(
                struct.pack("<III", shorties[shorty(proto)], types[proto[0]], lists.get(proto, 0))
                for proto in names["proto"]
            )
        if table == 5:
            return b"".join(self.class_row(i, made) for i, made in enumerate(self.classes))
        kind, last = ("field", "type") if table == 3 else ("method", "proto")
        return b"".join(
            struct.pack("<HHI", names["type"][owner], names[last][third], names["string"][name])
            for owner, name, third in names[kind]
        )

    def class_row(self, i: int, made: Made) -> bytes:
        types, strings = self.names.index["type"], self.names.index["string"]
        above = types[made["super"]] if made.get("super") else NONE
        source = strings[made["source"]] if made.get("source") is not None else NONE
        lists, members, values = (self.offsets[section].get(i, 0) for section in ("lists", "members", "arrays"))
        return struct.pack("<8I", types[made["type"]], made.get("flags", 1), above, lists, source, 0, members, values)

    def header(self, length: int, data_off: int, data_end: int) -> bytes:
        pairs = [(size, self.place[table] if size else 0) for table, size in enumerate(self.sizes)]
        pairs.append((data_end - data_off, data_off))
        numbers = [length, 0x70, 0x12345678, 0, 0, self.place["map"]] + [number for pair in pairs for number in pair]
        return b"dex\n035\0" + bytes(24) + struct.pack("<20I", *numbers)

    def file(self) -> bytes | Any:  # (those of a plain layout settle)
        """The bytes of the file, or None where its offsets don't settle."""
        state = self.layout.rng.getstate() if self.layout.rng else None
        for _ in range(12):
            if state:
                self.layout.rng.setstate(state)
            before = repr((self.offsets, self.place))
            length = self.lay_out()
            if repr((self.offsets, self.place)) == before:
                break
        else:
            return None
        entries = self.map_entries()
        its_map = struct.pack("<I", len(entries))
        its_map += b"".join(struct.pack("<HHII", kind, 0, size, off) for kind, size, off in entries)
        pieces = self.pieces + [(self.place["map"], its_map)]
        pieces += [(self.place[table], self.table_bytes(table)) for table in range(6)]
        data = bytearray(length)
        data_off = min(self.place[block] for block in self.blocks if isinstance(block, str))
        data_end = max(at + len(piece) for at, piece in pieces[: len(self.pieces) + 1])
        for at, piece in pieces + [(0, self.header(length, data_off, data_end))]:
            data[at : at + len(piece)] = piece
        return closed(data)


def file_of(classes: list[Made], layout: Layout | None = None, extra: Iterable[tuple[str, Any]] = ()) -> bytes | Any:
    """The file of these classes, or None where its offsets don't settle; `extra`: (kind, name) of what nothing uses."""
    return Draft(classes, layout or Layout(), extra).file()
