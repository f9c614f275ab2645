"""The program that a file without faults means (FORMAT), from what faults.py has read of it."""
import struct
from collections.abc import Iterable
from typing import Any

from . import faults
from .faults import FIELDS, METHODS, NONE, PROTOS, UNITS, signed, sleb128, uleb128
from .model import Class, Code, Field, Instruction, LITERAL_BITS, Method, Name, Payload, Proto, REGISTER_BITS, Try
from .model import Value, WITH_NAME, WITH_TARGET, kind_of_name

PAYLOAD_KINDS = {faults.PACKED: "packed", faults.SPARSE: "sparse", faults.FILL: "array"}


class Names:
    """What the rows of each table name; an index that isn't there can't occur in a file without faults."""

    def __init__(self, file: faults.File) -> None:
        self.string, self.type = file.strings, file.types
        self.proto = [self.proto_of(file, i) for i in range(file.size(PROTOS))]
        self.field = [self.member_of(file, FIELDS, i, self.type) for i in range(file.size(FIELDS))]
        self.method = [self.member_of(file, METHODS, i, self.proto) for i in range(file.size(METHODS))]

    def types_at(self, file: faults.File, off: int) -> tuple[str, ...]:
        # (no fault, so there is a list, and so on below)
        return tuple(self.type[index] for index in faults.type_list(file, off))  # type: ignore[union-attr]

    def proto_of(self, file: faults.File, i: int) -> Proto:
        _, result, off = struct.unpack_from("<III", file.data, file.row(PROTOS, i))
        return self.type[result], self.types_at(file, off)

    def member_of(self, file: faults.File, table: int, i: int, third: list[Any]) -> tuple[str, str, Any]:
        owner, held, name = struct.unpack_from("<HHI", file.data, file.row(table, i))
        return self.type[owner], self.string[name], third[held]


# --------------------------------------------------------------------------------------------------------------- Values

KINDS = {0x00: "byte", 0x02: "short", 0x03: "char", 0x04: "int", 0x06: "long", 0x10: "float", 0x11: "double",
         0x17: "string", 0x18: "type", 0x19: "field", 0x1A: "method", 0x1B: "enum"}


def value_at(names: Names, data: bytes, at: int) -> tuple[Value, int]:
    """The value that stands here, and the place after it."""
    kind: int | str
    kind, argument = data[at] & 0x1F, data[at] >> 5
    if kind == faults.ARRAY:
        values, at = array_at(names, data, at + 1)
        return ("array", values), at
    if kind in (faults.NULL, faults.BOOLEAN):
        return ("null" if kind == faults.NULL else ("false", "true")[argument], None), at + 1
    kind, after = KINDS[kind], at + 2 + argument
    number = int.from_bytes(data[at + 1 : after], "little")
    if kind in ("byte", "short", "int", "long"):
        number = signed(number, 8 * (argument + 1))
    elif kind in ("float", "double"):
        number <<= 8 * ((4 if kind == "float" else 8) - argument - 1)
    elif kind != "char":
        return (kind, getattr(names, "field" if kind == "enum" else kind)[number]), after
    return (kind, number), after


def array_at(names: Names, data: bytes, at: int) -> tuple[list[Value], int]:
    count, at = uleb128(data, at, len(data))  # type: ignore[misc]  # (no fault)
    values = []
    for _ in range(count):
        value, at = value_at(names, data, at)
        values.append(value)
    return values, at


# --------------------------------------------------------------------------------------------------------- Instructions


def fields_of(number: int, bits: Iterable[int]) -> list[int]:
    """The parts of a number, from its low bits on."""
    parts = []
    for width in bits:
        parts.append(number & (1 << width) - 1)
        number >>= width
    return parts


OFFSET_BITS = {"10t": 8, "20t": 16, "21t": 16, "22t": 16, "30t": 32, "31t": 32}


def instruction_of(names: Names, code: faults.Code, each: faults.Instruction, number_at: dict[int, int]) -> Instruction:
    """An instruction; `number_at` has the number of the instruction at each address."""
    rest: list[int] | int
    units = code.units[each.at : each.at + each.size]
    behind_opcode = sum(unit << 16 * i for i, unit in enumerate(units)) >> 8
    form = each.form
    if form == "35c":
        g, count, index, *rest = fields_of(behind_opcode, (4, 4, 16, 4, 4, 4, 4))
        return Instruction(each.opcode, tuple((rest + [g])[:count]), name=name_of(names, each, index))
    if form == "3rc":
        count, index, first = fields_of(behind_opcode, (8, 16, 16))
        return Instruction(each.opcode, (first,), count, name=name_of(names, each, index))
    if form in ("10x", "20t", "30t", "32x"):
        behind_opcode >>= 8
    bits = REGISTER_BITS[form]
    made = Instruction(each.opcode, tuple(fields_of(behind_opcode, bits)))
    rest = behind_opcode >> sum(bits)
    if form in LITERAL_BITS:
        made.literal = signed(rest, LITERAL_BITS[form])
    elif form in WITH_TARGET:
        made.target = number_at[each.at + signed(rest, OFFSET_BITS[form])]
    elif form in WITH_NAME:
        made.name = name_of(names, each, rest)
    return made


def name_of(names: Names, each: faults.Instruction, index: int) -> Name:
    return getattr(names, kind_of_name(each.opcode))[index]


def payload_of(code: faults.Code, each: faults.Instruction, base: int | None, number_at: dict[int, int]) -> Payload:
    kind = PAYLOAD_KINDS[each.form]
    targets = tuple(number_at[base + offset] for offset in each.offsets)  # type: ignore[operator]  # (arrays have none)
    if kind == "packed":
        return Payload(kind, (code.i32(each.at + 2),), targets)
    if kind == "sparse":
        return Payload(kind, tuple(code.i32(each.at + 2 + 2 * j) for j in range(len(targets))), targets)
    width = code.units[each.at + 1]
    size = width * (code.i32(each.at + 2) & 0xFFFFFFFF)
    data = struct.pack(f"<{each.size - 4}H", *code.units[each.at + 4 : each.at + each.size])
    return Payload(kind, width=width, data=data[:size])


# ---------------------------------------------------------------------------------------------------------------- Codes


def handler_at(
    names: Names, data: bytes, at: int, number_at: dict[int, int]
) -> tuple[list[tuple[str, int]], int | None]:
    """The catches of the handler here, and where all else goes, None for nowhere."""
    size, at = sleb128(data, at, len(data))  # type: ignore[misc]  # (no fault)
    catches, other = [], None
    for _ in range(abs(size)):
        index, at = uleb128(data, at, len(data))  # type: ignore[misc]  # (no fault)
        address, at = uleb128(data, at, len(data))  # type: ignore[misc]  # (no fault)
        catches.append((names.type[index], number_at[address]))
    if size <= 0:
        other = number_at[uleb128(data, at, len(data))[0]]  # type: ignore[index]  # (no fault)
    return catches, other


def try_at(names: Names, data: bytes, code: faults.Code, at: int, number_at: dict[int, int]) -> Try:
    """A try covers the instructions whose address lies in its range."""
    start, count, handler = struct.unpack_from("<IHH", data, at)
    after = sum(each.at < start + count for each in code.instructions)
    return Try(number_at[start], after, *handler_at(names, data, code.handlers_off + handler, number_at))


def code_of(names: Names, data: bytes, code: faults.Code) -> Code:
    number_at = {each.at: k for k, each in enumerate(code.instructions)}
    switch_of = {each.at + faults.offset_of(code, each): each.at for each in code.instructions if each.form == "31t"}
    made = Code(code.registers, code.ins, code.outs)
    for each in code.instructions:
        if each.form in UNITS:
            made.instructions.append(instruction_of(names, code, each, number_at))
        else:
            made.instructions.append(payload_of(code, each, switch_of.get(each.at), number_at))
    for at in range(code.tries_off, code.handlers_off, 8):
        made.tries.append(try_at(names, data, code, at, number_at))
    return made


# -------------------------------------------------------------------------------------------------------------- Classes


def class_of(names: Names, file: faults.File, row: faults.ClassRow, code_at: dict[int, Code]) -> Class:
    flags = faults.u32(file.data, row.row + 4)
    made = Class(names.type[row.type], flags, interfaces=list(names.types_at(file, row.interfaces)))
    made.superclass = None if row.superclass == NONE else names.type[row.superclass]
    made.source = None if row.source == NONE else names.string[row.source]
    to: Any  # a list of fields or of methods
    for members, to in zip(row.members, (made.statics, made.instances, made.directs, made.virtuals)):
        index = 0
        for difference, flags, *code_off in members:
            index += difference
            _, name, kind = (names.method if code_off else names.field)[index]
            if code_off:
                to.append(Method(name, kind, flags, code_at.get(code_off[0])))
            else:
                to.append(Field(name, kind, flags))
    if row.values:
        made.values = array_at(names, file.data, row.values)[0]
    return made


def read(data: bytes) -> list[Class]:
    """The classes that the file means. The file has no fault."""
    file = faults.read(data)
    names = Names(file)
    code_at = {code.off: code_of(names, data, code) for code in file.codes}
    return [class_of(names, file, row, code_at) for row in file.classes]
