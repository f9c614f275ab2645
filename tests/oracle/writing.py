"""The written file: a second reading of FORMAT's "The written file", by hand.

`write(classes)` answers the bytes of the file of a program that keeps the rules, or a Refusal (80 to 89; a program of
more than 4 GB, 90, isn't looked for). `align(classes)` answers the program with its payloads at even addresses.
"""
import copy
import hashlib
import struct
import zlib
from collections.abc import Iterable, Iterator, Sequence
from typing import Any

from .faults import ARRAY_OF_VALUES, CLASS_DATA, CODE, MAP, NONE, STRING_DATA, TYPE_LIST, is_array_type, is_class_type
from .model import Class, Code, Field, Instruction, Method, Name, Payload, Proto, REGISTER_BITS, Try, Value, WITH_NAME
from .model import WITH_TARGET, addresses_of, form_of, kind_of_name, units_of
from .pages import Refusal
from .rules import fits_signed

MOST_ROWS = 65535
Rank = dict[str, dict[Any, int]]  # of each kind of name that of each

# ------------------------------------------------------------------------------------------ Names: what a program needs


def shorty(proto: Proto) -> str:
    result, parameters = proto
    return "".join("L" if is_class_type(text) or is_array_type(text) else text for text in (result, *parameters))


class Needs:
    """The names that a program needs, and the rank of each: a kind of name is string, type, proto, field or method."""

    def __init__(self, classes: Iterable[Class]) -> None:
        self.names: dict[str, set[Any]] = {kind: set() for kind in ("string", "type", "proto", "field", "method")}
        for made in classes:
            self.mention_class(made)
        self.rank = {kind: {name: i for i, name in enumerate(sorted(names))} for kind, names in self.names.items()}

    def mention(self, kind: str, name: Name) -> None:
        """The name and its parts."""
        if name in self.names[kind]:
            return
        self.names[kind].add(name)
        if kind == "type":
            self.mention("string", name)
        elif kind == "proto":
            self.mention("string", shorty(name))
            self.mention_types(name[0], *name[1])
        elif kind == "field":
            self.mention("string", name[1])
            self.mention_types(name[0], name[2])
        elif kind == "method":
            self.mention("string", name[1])
            self.mention_types(name[0])
            self.mention("proto", name[2])

    def mention_types(self, *types: str) -> None:
        for text in types:
            self.mention("type", text)

    def mention_class(self, made: Class) -> None:
        each: Field | Method
        self.mention_types(made.type, *made.interfaces, *([] if made.superclass is None else [made.superclass]))
        if made.source is not None:
            self.mention("string", made.source)
        for each in made.statics + made.instances:
            self.mention("field", (made.type, each.name, each.type))
        for each in made.directs + made.virtuals:
            self.mention("method", (made.type, each.name, each.proto))
        for value in made.values:
            self.mention_value(value)
        for code in made.codes():
            self.mention_code(code)

    def mention_value(self, value: Value) -> None:
        kind, held = value
        if kind == "array":
            for each in held:
                self.mention_value(each)
        elif kind in ("string", "type", "field", "method", "enum"):
            self.mention("field" if kind == "enum" else kind, held)

    def mention_code(self, code: Code) -> None:
        for each in code.instructions:
            if isinstance(each, Instruction) and each.name is not None:
                self.mention(kind_of_name(each.opcode), each.name)
        for one in code.tries:
            self.mention_types(*(text for text, _ in one.catches))


# -------------------------------------------------------------------------------------------------- Numbers and strings


def uleb128(number: int) -> bytes:
    out = bytearray()
    while number > 0x7F:
        out.append(number & 0x7F | 0x80)
        number >>= 7
    return bytes(out) + bytes([number])


def sleb128(number: int) -> bytes:
    out = bytearray()
    while not -0x40 <= number <= 0x3F:
        out.append(number & 0x7F | 0x80)
        number >>= 7
    return bytes(out) + bytes([number & 0x7F])


def string_item(text: str) -> bytes:
    """A string_data_item. In Python's surrogatepass a unit is what MUTF-8 has for it, but for the unit 0."""
    units = b"".join(b"\xc0\x80" if unit == "\0" else unit.encode("utf8", "surrogatepass") for unit in text)
    return uleb128(len(text)) + units + b"\0"


# --------------------------------------------------------------------------------------------------------------- Values

HEADS = {"byte": 0x00, "short": 0x02, "char": 0x03, "int": 0x04, "long": 0x06, "float": 0x10, "double": 0x11,
         "string": 0x17, "type": 0x18, "field": 0x19, "method": 0x1A, "enum": 0x1B}
SIGNED = ("byte", "short", "int", "long")
FLOATING = {"float": 4, "double": 8}


def value_item(rank: Rank, value: Value) -> bytes:
    """An encoded_value in its shortest form."""
    data: bytes
    kind, held = value
    if kind == "array":
        return b"\x1c" + values_item(rank, held)
    if kind in ("null", "false", "true"):
        return {"null": b"\x1e", "false": b"\x1f", "true": b"\x3f"}[kind]
    if kind in SIGNED:
        data = next(held.to_bytes(n, "little", signed=True) for n in range(1, 9) if fits_signed(held, 8 * n))
    elif kind in FLOATING:
        data = held.to_bytes(FLOATING[kind], "little").lstrip(b"\0") or b"\0"
    else:
        number = held if kind == "char" else rank["field" if kind == "enum" else kind][held]
        data = number.to_bytes(8, "little").rstrip(b"\0") or b"\0"
    return bytes([HEADS[kind] | len(data) - 1 << 5]) + data


def values_item(rank: Rank, values: list[Value]) -> bytes:
    """An encoded_array."""
    return uleb128(len(values)) + b"".join(value_item(rank, value) for value in values)


# --------------------------------------------------------------------------------------------------------- Instructions

OFFSET_BITS = {"10t": 8, "20t": 16, "21t": 16, "22t": 16, "30t": 32, "31t": 32}


def fields_of(rank: Rank, each: Instruction, offset: int) -> Sequence[tuple[Any, int]]:
    """The parts of an instruction after its opcode, from the low bits on: (number, bits)."""
    form, registers = form_of(each.opcode), each.registers
    index = rank[kind_of_name(each.opcode)][each.name] if form in WITH_NAME else None
    if form == "35c":
        c, d, e, f, g = registers + (0,) * (5 - len(registers))
        return (g, 4), (len(registers), 4), (index, 16), (c, 4), (d, 4), (e, 4), (f, 4)
    if form == "3rc":
        return (each.count, 8), (index, 16), (registers[0], 16)
    parts = list(zip(registers, REGISTER_BITS[form]))
    if form in ("10x", "20t", "30t", "32x"):
        parts.insert(0, (0, 8))  # the byte beside the opcode
    bits = {"11n": 4, "22b": 8, "31i": 32, "51l": 64, "31c": 32}.get(form, 16)
    if form in WITH_TARGET:
        parts.append((offset, OFFSET_BITS[form]))
    elif each.literal is not None:
        parts.append((each.literal, bits))
    elif index is not None:
        parts.append((index, bits))
    return parts


def instruction_item(rank: Rank, each: Instruction, offset: int) -> bytes:
    number, width = each.opcode, 8
    for part, bits in fields_of(rank, each, offset):
        number |= (part & (1 << bits) - 1) << width
        width += bits
    return number.to_bytes(width // 8, "little")


def payload_item(each: Payload, offsets: list[int]) -> bytes:
    if each.kind == "array":
        head = struct.pack("<HHI", 0x0300, each.width, len(each.data) // each.width)
        return head + each.data + bytes(len(each.data) % 2)
    head = struct.pack("<HH", 0x0100 if each.kind == "packed" else 0x0200, len(offsets))
    return head + struct.pack(f"<{len(each.keys)}i{len(offsets)}i", *each.keys, *offsets)


def bases_of(code: Code, addresses: list[int]) -> dict[int, int]:
    """From where the targets of each payload of a switch count: its switch."""
    return {each.target: addresses[k] for k, each in enumerate(code.instructions)
            if isinstance(each, Instruction) and form_of(each.opcode) == "31t"}


# ----------------------------------------------------------------------------------------------------------- Code items


def handler_item(rank: Rank, one: Try, addresses: list[int]) -> bytes:
    """An encoded_catch_handler."""
    count = len(one.catches)
    out = sleb128(count if one.other is None else -count)
    for text, k in one.catches:
        out += uleb128(rank["type"][text]) + uleb128(addresses[k])
    return out if one.other is None else out + uleb128(addresses[one.other])


def handlers_of(rank: Rank, code: Code, addresses: list[int]) -> tuple[bytes, list[int]]:
    """The list of handlers, and where each try's begins."""
    items = [handler_item(rank, one, addresses) for one in code.tries]
    distinct = list(dict.fromkeys(items))
    listed, begins = uleb128(len(distinct)), {}
    for item in distinct:
        begins[item] = len(listed)
        listed += item
    return listed, [begins[item] for item in items]


def code_item(rank: Rank, code: Code) -> bytes:
    addresses = addresses_of(code.instructions)
    bases = bases_of(code, addresses)
    out = struct.pack("<4H2I", code.registers, code.ins, code.outs, len(code.tries), 0, addresses[-1])
    for k, each in enumerate(code.instructions):
        if isinstance(each, Payload):
            out += payload_item(each, [addresses[target] - bases[k] for target in each.targets])
        else:
            out += instruction_item(rank, each, 0 if each.target is None else addresses[each.target] - addresses[k])
    if not code.tries:
        return out
    listed, begins = handlers_of(rank, code, addresses)
    out += bytes(addresses[-1] % 2 * 2)
    for one, begin in zip(code.tries, begins):
        first, after = addresses[one.first], addresses[one.after]
        out += struct.pack("<IHH", first, min(after - first, 0xFFFF), begin)
    return out + listed


# ----------------------------------------------------------------------------------------------------------- Class data


def class_data_item(rank: Rank, made: Class, code_offs: Iterable[int]) -> bytes:
    """A class_data_item; `code_offs` has the offset of each code of the class, in their order."""
    code_offs = iter(code_offs)
    groups: Any  # lists of fields, then of methods
    groups = made.statics, made.instances, made.directs, made.virtuals
    out = b"".join(uleb128(len(members)) for members in groups)
    for members in groups[:2]:
        before = 0
        for each in members:
            index = rank["field"][made.type, each.name, each.type]
            out += uleb128(index - before) + uleb128(each.flags)
            before = index
    for members in groups[2:]:
        before = 0
        for each in members:
            index = rank["method"][made.type, each.name, each.proto]
            off = 0 if each.code is None else next(code_offs)
            out += uleb128(index - before) + uleb128(each.flags) + uleb128(off)
            before = index
    return out


# --------------------------------------------------------------------------------------------- The written file: faults


def has_far_name(rank: Rank, codes: list[Code], kind: str) -> bool:
    """Whether an instruction has 16 bits for an index of this kind that doesn't fit them."""
    return any(
        isinstance(each, Instruction) and form_of(each.opcode) in WITH_NAME and form_of(each.opcode) != "31c"
        and kind_of_name(each.opcode) == kind and rank[kind][each.name] > 0xFFFF
        for code in codes for each in code.instructions
    )


def has_far_branch(codes: list[Code]) -> bool:
    for code in codes:
        addresses = addresses_of(code.instructions)
        for k, each in enumerate(code.instructions):
            if isinstance(each, Instruction) and each.target is not None:
                if not fits_signed(addresses[each.target] - addresses[k], OFFSET_BITS[form_of(each.opcode)]):
                    return True
    return False


def is_misaligned(codes: list[Code]) -> bool:
    return any(
        isinstance(each, Payload) and address % 2 == 1
        for code in codes for each, address in zip(code.instructions, addresses_of(code.instructions))
    )


def has_long_try(codes: list[Code]) -> bool:
    for code in codes:
        addresses = addresses_of(code.instructions)
        if any(addresses[one.after - 1] - addresses[one.first] > 65534 for one in code.tries):
            return True
    return False


def has_far_handler(rank: Rank, codes: list[Code]) -> bool:
    return any(
        begin > 65535 for code in codes if code.tries
        for begin in handlers_of(rank, code, addresses_of(code.instructions))[1]
    )


def limit_fault(classes: list[Class], needs: Needs) -> Refusal | None:
    """The refusal of a program that breaks a limit; None where it fits."""
    rank, types, protos = needs.rank, len(needs.names["type"]), len(needs.names["proto"])
    if types > MOST_ROWS:
        return Refusal("written", "TooManyTypes", types)
    if protos > MOST_ROWS:
        return Refusal("written", "TooManyProtos", protos)
    for name, breaks in (
        ("StringOutOfReach", lambda codes: has_far_name(rank, codes, "string")),
        ("FieldOutOfReach", lambda codes: has_far_name(rank, codes, "field")),
        ("MethodOutOfReach", lambda codes: has_far_name(rank, codes, "method")),
        ("BranchOutOfReach", has_far_branch),
        ("Misaligned", is_misaligned),
        ("TryTooLong", has_long_try),
        ("TooManyTries", lambda codes: any(len(code.tries) > 65535 for code in codes)),
        ("HandlerTooFar", lambda codes: has_far_handler(rank, codes)),
    ):
        for i, made in enumerate(classes):
            if breaks(made.codes()):  # type: ignore[no-untyped-call]  # (a lambda)
                return Refusal("written", name, i)
    return None


# ------------------------------------------------------------------------------------------ The written file: its parts


class Data:
    """The data section: items one after the other, and of each kind how many there are and where the first stands."""

    entries: list[list[int]]

    def __init__(self, begin: int) -> None:
        self.begin, self.bytes, self.entries = begin, bytearray(), []

    def put(self, kind: int, item: bytes, alignment: int) -> int:
        """Where the item stands."""
        self.bytes += bytes(-(self.begin + len(self.bytes)) % alignment)
        off = self.begin + len(self.bytes)
        self.bytes += item
        if self.entries and self.entries[-1][0] == kind:
            self.entries[-1][1] += 1
        else:
            self.entries.append([kind, 1, off])
        return off

    def put_once(self, kind: int, items: list[bytes], alignment: int) -> list[int]:
        """Where each item stands: an empty one nowhere, equal ones at one place."""
        offs = {b"": 0}
        for item in items:
            if item not in offs:
                offs[item] = self.put(kind, item, alignment)
        return [offs[item] for item in items]


def type_list_item(rank: Rank, types: Sequence[str]) -> bytes:
    return struct.pack(f"<I{len(types)}H", len(types), *(rank["type"][text] for text in types)) if types else b""


def table_sizes(needs: Needs, classes: list[Class]) -> list[int]:
    return [len(needs.names[kind]) for kind in ("string", "type", "proto", "field", "method")] + [len(classes)]


WIDTHS = (4, 4, 12, 8, 8, 32)


def put_data(classes: list[Class], needs: Needs, data: Data) -> tuple[list[int], list[int], list[tuple[int, int, int]]]:
    """Puts all items but the map; answers the offsets of lists of parameters and of strings, and those of classes."""
    rank, protos = needs.rank, sorted(needs.names["proto"])
    lists = [type_list_item(rank, proto[1]) for proto in protos]
    lists += [type_list_item(rank, made.interfaces) for made in classes]
    list_offs = data.put_once(TYPE_LIST, lists, 4)
    codes = [[code_item(rank, code) for code in made.codes()] for made in classes]
    code_offs: Iterator[int] | list[list[int]]
    code_offs = iter(data.put_once(CODE, [item for items in codes for item in items], 4))
    code_offs = [[next(code_offs) for _ in items] for items in codes]
    string_offs = [data.put(STRING_DATA, string_item(text), 1) for text in sorted(needs.names["string"])]
    arrays = [values_item(rank, made.values) if made.values else b"" for made in classes]
    array_offs = data.put_once(ARRAY_OF_VALUES, arrays, 1)
    data_offs = []
    for made, offs in zip(classes, code_offs):
        has_members = made.statics or made.instances or made.directs or made.virtuals
        data_offs.append(data.put(CLASS_DATA, class_data_item(rank, made, offs), 1) if has_members else 0)
    return list_offs[: len(protos)], string_offs, list(zip(list_offs[len(protos) :], data_offs, array_offs))


def tables_of(classes: list[Class], needs: Needs, list_offs: list[int], string_offs: list[int], class_offs: list[
    tuple[int, int, int]
]) -> Iterator[bytes]:
    """The bytes of the six tables."""
    rank, names = needs.rank, {kind: sorted(names) for kind, names in needs.names.items()}
    yield b"".join(struct.pack("<I", off) for off in string_offs)
    yield b"".join(struct.pack("<I", rank["string"][text]) for text in names["type"])
    yield b"".join(struct.pack("<III", rank["string"][shorty(proto)], rank["type"][proto[0]], off)
                   for proto, off in zip(names["proto"], list_offs))
    for kind, third in (("field", "type"), ("method", "proto")):
        yield b"".join(struct.pack("<HHI", rank["type"][owner], rank[third][held], rank["string"][name])
                       for owner, name, held in names[kind])
    yield b"".join(
        struct.pack("<8I", rank["type"][made.type], made.flags,
                    NONE if made.superclass is None else rank["type"][made.superclass], lists,
                    NONE if made.source is None else rank["string"][made.source], 0, members, values)
        for made, (lists, members, values) in zip(classes, class_offs))


def header_and_tables(sizes: list[int]) -> tuple[list[int], int]:
    """Where each table stands, 0 where it has no rows, and where they end."""
    offs, at = [], 0x70
    for size, width in zip(sizes, WIDTHS):
        offs.append(at if size else 0)
        at += size * width
    return offs, at


def closed(data: bytes) -> bytes:
    """The file with its signature and its checksum."""
    data = data[:12] + hashlib.sha1(data[32:]).digest() + data[32:]
    return data[:8] + struct.pack("<I", zlib.adler32(data[12:])) + data[12:]


def file_of(classes: list[Class], needs: Needs) -> bytes:
    sizes = table_sizes(needs, classes)
    table_offs, data_off = header_and_tables(sizes)
    data = Data(data_off)
    offs = put_data(classes, needs, data)
    tables = b"".join(tables_of(classes, needs, *offs))
    entries: Any  # tuples, and the lists of `data`
    entries = [(0, 1, 0)] + [(kind, size, off) for kind, (size, off) in enumerate(zip(sizes, table_offs), 1) if size]
    entries += data.entries
    map_off = data_off + len(data.bytes) + -(data_off + len(data.bytes)) % 4
    entries.append((MAP, 1, map_off))
    item = struct.pack("<I", len(entries))
    item += b"".join(struct.pack("<HHII", kind, 0, size, off) for kind, size, off in entries)
    data.put(MAP, item, 4)
    header = struct.pack("<6I", data_off + len(data.bytes), 0x70, 0x12345678, 0, 0, map_off)
    header += b"".join(struct.pack("<II", size, off) for size, off in zip(sizes, table_offs))
    header += struct.pack("<II", len(data.bytes), data_off)
    return closed(b"dex\n035\0" + bytes(24) + header + tables + bytes(data.bytes))


def write(classes: list[Class]) -> bytes | Refusal:
    """The bytes of the file of the program, or the refusal."""
    needs = Needs(classes)
    return limit_fault(classes, needs) or file_of(classes, needs)


# ------------------------------------------------------------------------------------------------------------ `--align`


def aligned_code(code: Code) -> Code:
    """The code with a nop before each payload that would stand at an odd address."""
    made: list[Instruction | Payload]
    made, numbers, address = [], [], 0
    for each in code.instructions:
        if isinstance(each, Payload) and address % 2 == 1:
            made.append(Instruction(0x00))
            address += 1
        numbers.append(len(made))
        made.append(copy.copy(each))
        address += units_of(each)
    numbers.append(len(made))
    return moved_code(code, made, numbers)


def moved_code(code: Code, instructions: list[Instruction | Payload], numbers: list[int]) -> Code:
    """These instructions, and the tries of the code, with the number that each instruction has now."""
    for each in instructions:
        if isinstance(each, Payload):
            each.targets = tuple(numbers[target] for target in each.targets)
        elif each.target is not None:
            each.target = numbers[each.target]
    tries = copy.deepcopy(code.tries)
    for one in tries:
        one.first, one.after = numbers[one.first], numbers[one.after]
        one.catches = [(text, numbers[k]) for text, k in one.catches]
        one.other = None if one.other is None else numbers[one.other]
    return type(code)(code.registers, code.ins, code.outs, instructions, tries)


def align(classes: list[Class]) -> list[Class]:
    classes = copy.deepcopy(classes)
    for made in classes:
        for method in made.directs + made.virtuals:
            if method.code is not None:
                method.code = aligned_code(method.code)
    return classes
