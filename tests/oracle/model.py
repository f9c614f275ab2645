"""A program as Python objects: what a listing says and what a file means (LISTING, FORMAT "In memory").

A text has a character of 0 to 0xffff for each unit of UTF-16, as in faults.py. A type is its descriptor, a prototype
(return type, parameters), a field (class, name, type), a method (class, name, prototype). A value is (kind, what it
holds), with the kinds of LISTING's "Values"; `null`, `true` and `false` hold None.
"""
import dataclasses
from collections.abc import Callable, Iterable, Sequence
from typing import Any

from .faults import FIELDS, METHODS, OPCODES, STRINGS, TYPES

Proto = tuple[str, tuple[str, ...]]
FieldName = tuple[str, str, str]
MethodName = tuple[str, str, Proto]
Name = Any  # a string, a type, a prototype or one of these: its kind stands beside it
Value = tuple[str, Any]


@dataclasses.dataclass
class Instruction:
    """An opcode with its operands. The target is the number of an instruction; of 3rc there is the first register."""

    opcode: int
    registers: tuple[int, ...] = ()
    # None where the opcode's format has none: it says which are there, which mypy can't follow. A target may be a label
    # or a payload at first, until each instruction has its number.
    count: int | Any = None
    literal: int | Any = None
    target: int | Any = None
    name: Name = None


@dataclasses.dataclass
class Payload:
    """`kind` is packed, sparse or array. A packed one has its first key alone; targets are numbers of instructions."""

    kind: str
    keys: tuple[int, ...] = ()
    targets: tuple[int, ...] = ()
    width: int = 0
    data: bytes = b""


@dataclasses.dataclass
class Try:
    """Instructions from `first` to `after`; catches as (type, instruction); the instruction for all else, or None."""

    first: int
    after: int
    catches: list[tuple[str, int]]
    other: int | None = None


@dataclasses.dataclass
class Code:
    registers: int
    ins: int
    outs: int
    instructions: list[Instruction | Payload] = dataclasses.field(default_factory=list)
    tries: list[Try] = dataclasses.field(default_factory=list)


@dataclasses.dataclass
class Field:
    name: str
    type: str
    flags: int


@dataclasses.dataclass
class Method:
    name: str
    proto: Proto
    flags: int
    code: Code | None = None


@dataclasses.dataclass
class Class:
    type: str
    flags: int
    superclass: str | None = None
    interfaces: list[str] = dataclasses.field(default_factory=list)
    source: str | None = None
    statics: list[Field] = dataclasses.field(default_factory=list)
    values: list[Value] = dataclasses.field(default_factory=list)
    instances: list[Field] = dataclasses.field(default_factory=list)
    directs: list[Method] = dataclasses.field(default_factory=list)
    virtuals: list[Method] = dataclasses.field(default_factory=list)

    def codes(self) -> list[Code]:
        """In the order in which a file has them: direct methods before virtual ones."""
        return [method.code for method in self.directs + self.virtuals if method.code is not None]


# --------------------------------------------------------------------------------------------------- "Dalvik bytecode"


def mnemonics() -> dict[int, str]:
    """The mnemonic of each opcode, of the page's table "Summary of bytecode set", read from above."""
    widths = ("", "-wide", "-object")
    kinds = ("", "-wide", "-object", "-boolean", "-byte", "-char", "-short")
    calls = ("invoke-virtual", "invoke-super", "invoke-direct", "invoke-static", "invoke-interface")
    tests = ("eq", "ne", "lt", "ge", "gt", "le")
    whole = ("add", "sub", "mul", "div", "rem", "and", "or", "xor", "shl", "shr", "ushr")
    binary = [f"{name}-{of}" for of in ("int", "long") for name in whole]
    binary += [f"{name}-{of}" for of in ("float", "double") for name in whole[:5]]
    of = {0x00: "nop", 0x0D: "move-exception", 0x0E: "return-void", 0x1A: "const-string", 0x1B: "const-string/jumbo"}
    put: Callable[[int, Sequence[str]], None] = lambda first, names: of.update(
        zip(range(first, first + len(names)), names)
    )
    put(0x01, [f"move{width}{size}" for width in widths for size in ("", "/from16", "/16")])
    put(0x0A, [f"move-result{width}" for width in widths])
    put(0x0F, [f"return{width}" for width in widths])
    put(0x12, ["const/4", "const/16", "const", "const/high16"])
    put(0x16, ["const-wide/16", "const-wide/32", "const-wide", "const-wide/high16"])
    put(0x1C, ["const-class", "monitor-enter", "monitor-exit", "check-cast", "instance-of", "array-length"])
    put(0x22, ["new-instance", "new-array", "filled-new-array", "filled-new-array/range", "fill-array-data", "throw"])
    put(0x28, ["goto", "goto/16", "goto/32", "packed-switch", "sparse-switch"])
    put(0x2D, ["cmpl-float", "cmpg-float", "cmpl-double", "cmpg-double", "cmp-long"])
    put(0x32, [f"if-{test}" for test in tests] + [f"if-{test}z" for test in tests])
    put(0x44, [f"a{way}{kind}" for way in ("get", "put") for kind in kinds])
    put(0x52, [f"i{way}{kind}" for way in ("get", "put") for kind in kinds])
    put(0x60, [f"s{way}{kind}" for way in ("get", "put") for kind in kinds])
    put(0x6E, calls)
    put(0x74, [f"{call}/range" for call in calls])
    put(0x7B, ["neg-int", "not-int", "neg-long", "not-long", "neg-float", "neg-double"])
    numbers = ("int", "long", "float", "double")
    put(0x81, [f"{source}-to-{to}" for source in numbers for to in numbers if to != source])
    put(0x8D, ["int-to-byte", "int-to-char", "int-to-short"])
    put(0x90, binary)
    put(0xB0, [f"{name}/2addr" for name in binary])
    put(0xD0, ["add-int/lit16", "rsub-int"] + [f"{name}-int/lit16" for name in whole[2:8]])
    put(0xD8, [f"{name}-int/lit8" for name in ("add", "rsub") + whole[2:]])
    return of


MNEMONICS = mnemonics()
OPCODE_OF = {mnemonic: opcode for opcode, mnemonic in MNEMONICS.items()}
KIND_OF_TABLE = {STRINGS: "string", TYPES: "type", FIELDS: "field", METHODS: "method"}


def form_of(opcode: int) -> str:
    form: str = OPCODES[opcode][0]
    return form


def kind_of_name(opcode: int) -> str:
    """What an instruction's index names: string, type, field or method."""
    return KIND_OF_TABLE[OPCODES[opcode][1]]


# The bits of each register of a format, in the order of the page "Dalvik Executable instruction formats"; those of its
# literal, which is signed; and whether it has a target or a name. 35c has up to five registers of four bits.
REGISTER_BITS = {
    "10x": (), "12x": (4, 4), "11n": (4,), "11x": (8,), "10t": (), "20t": (), "22x": (8, 16), "21t": (8,), "21s": (8,),
    "21h": (8,), "21c": (8,), "23x": (8, 8, 8), "22b": (8, 8), "22t": (4, 4), "22s": (4, 4), "22c": (4, 4), "30t": (),
    "32x": (16, 16), "31i": (8,), "31t": (8,), "31c": (8,), "3rc": (16,), "51l": (8,),
}
LITERAL_BITS = {"11n": 4, "21s": 16, "21h": 16, "22b": 8, "22s": 16, "31i": 32, "51l": 64}
WITH_TARGET = ("10t", "20t", "30t", "21t", "22t", "31t")
WITH_NAME = ("21c", "22c", "31c", "35c", "3rc")
# The payload that each of these needs.
NEEDED_PAYLOAD = {0x2B: "packed", 0x2C: "sparse", 0x26: "array"}


def units_of(instruction: Instruction | Payload) -> int:
    """How many units an instruction takes (FORMAT "Instructions")."""
    if isinstance(instruction, Instruction):
        return int(form_of(instruction.opcode)[0])
    if instruction.kind == "packed":
        return 4 + 2 * len(instruction.targets)
    if instruction.kind == "sparse":
        return 2 + 4 * len(instruction.targets)
    return 4 + (len(instruction.data) + 1) // 2


def addresses_of(instructions: Iterable[Instruction | Payload]) -> list[int]:
    """The address of each instruction, and at the end that after the last."""
    addresses = [0]
    for each in instructions:
        addresses.append(addresses[-1] + units_of(each))
    return addresses
