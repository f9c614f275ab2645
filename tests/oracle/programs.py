"""Programs at random: classes with members, values of every type, codes of every format, for making.file_of."""
import random
from collections.abc import Callable
from typing import Any

from .faults import FIELDS, METHODS, OPCODES, STRINGS, TYPES, UNITS
from .making import Made, Parts, Proto, Try, addresses_of, units_of

OF_TYPES = ("Z", "B", "S", "C", "I", "J", "F", "D", "[I", "[[J", "[LA;", "[[[Z", "LA;", "LB;", "Lp/C-d;",
            "Ljava/lang/Object;", "Ljava/lang/Throwable;", "L\u00e9t\u00e9;", "L\ud83d\ude00/x;")
REFERENCES = tuple(text for text in OF_TYPES if text[0] in "L[")
OF_CLASSES = tuple(text for text in OF_TYPES if text[0] == "L")
WORDS = ("a", "b", "m", "n", "<init>", "<clinit>", "x-y", "v0", "\u4e2d", "\ud800\udc00z", "$", "_")
TEXTS = ("", "a b", "\0", "\ud800", "\x7f\x80\u07ff\u0800", "L;", "\uffff", "V V", "no/name", "~~{}")
NUMBERS = {"byte": (-128, -1, 0, 127), "short": (-32768, -1, 0, 127, 128, 32767), "char": (0, 255, 256, 65535),
           "int": (-1 << 31, -1, 0, 128, 1 << 16, (1 << 31) - 1), "long": (-1 << 63, -1, 0, 1 << 40, (1 << 63) - 1),
           "float": (0, 0x3F800000, 1, 0x80000000), "double": (0, 1, 0x3FF0000000000000), "boolean": (False, True)}


def random_field(rng: random.Random) -> tuple[str, str, str]:
    return rng.choice(OF_CLASSES), rng.choice(WORDS), rng.choice(OF_TYPES)


def random_proto(rng: random.Random) -> Proto:
    parameters = tuple(rng.choice(OF_TYPES) for _ in range(rng.choice((0, 0, 1, 1, 2, 3))))
    return rng.choice(OF_TYPES + ("V",)), parameters


def random_method(rng: random.Random) -> tuple[str, str, Proto]:
    return rng.choice(REFERENCES), rng.choice(WORDS), random_proto(rng)


def random_name(rng: random.Random, kind: str) -> Any:
    """A string, a type, a field or a method, as an index of this kind names it."""
    if kind == "string":
        return rng.choice(TEXTS + WORDS)
    if kind == "type":
        return rng.choice(OF_TYPES + ("V",))
    return random_method(rng) if kind == "method" else random_field(rng)


def random_value(rng: random.Random, depth: int = 0) -> Parts:
    kinds = [*NUMBERS, "string", "type", "field", "method", "enum", "null"] + ["array"] * (2 if depth < 3 else 0)
    kind = rng.choice(kinds)
    if kind in NUMBERS:
        return kind, rng.choice(NUMBERS[kind])
    if kind == "null":
        return ("null",)
    if kind == "array":
        return kind, [random_value(rng, depth + 1) for _ in range(rng.randrange(4))]
    return kind, random_name(rng, kind)


# ---------------------------------------------------------------------------------------------------------------- codes

KIND_OF_TABLE = {STRINGS: "string", TYPES: "type", FIELDS: "field", METHODS: "method"}
WITH_TARGETS = (0x24, 0x25, 0x26, 0x28, 0x29, 0x2A, 0x2B, 0x2C, 0x32, 0x38, 0x6E, 0x74)


def random_payload(rng: random.Random, opcode: int, instructions: int) -> Parts:
    """A payload for this instruction; `instructions` is how many instructions a switch may lead to."""
    if opcode == 0x2B:
        return "packed", rng.choice((0, -5, 0x7FFFFFFF)), [rng.randrange(instructions) for _ in range(rng.randrange(4))]
    if opcode == 0x2C:
        keys = sorted(rng.sample((-1 << 31, -7, 0, 1, 9, 100, (1 << 31) - 1), rng.randrange(4)))
        return "sparse", keys, [rng.randrange(instructions) for _ in keys]
    width = rng.choice((1, 2, 4, 8))
    return "array", width, bytes(rng.randrange(256) for _ in range(width * rng.randrange(4)))


def with_payloads(rng: random.Random, opcodes: list[int]) -> tuple[list[Parts], dict[int, int]]:
    """The instructions as (opcode,), payloads at even units after them; and which payload each leads to."""
    made: list[Parts]
    made, payload_of, shared = [(opcode,) for opcode in opcodes], {}, None
    length = sum(UNITS[OPCODES[opcode][0]] for opcode in opcodes)
    for k, opcode in enumerate(opcodes):
        if OPCODES[opcode][0] != "31t":
            continue
        if opcode == 0x26 and shared is not None and rng.random() < 0.3:
            payload_of[k] = shared
            continue
        if length % 2:
            made.append((0x00, 0))
            length += 1
        payload_of[k] = len(made)
        if opcode == 0x26:
            shared = len(made)
        made.append(random_payload(rng, opcode, len(opcodes)))
        length += units_of(made[-1])
    return made, payload_of


class Operands:
    """Operands for an instruction, of registers that the code has and of instructions that it may lead to."""

    def __init__(self, rng: random.Random, registers: int) -> None:
        self.rng, self.registers = rng, registers

    def low(self) -> int:
        return self.rng.randrange(min(self.registers, 16))

    def byte(self) -> int:
        return self.rng.randrange(min(self.registers, 256))

    def pair(self) -> int:
        return self.low() << 4 | self.low()

    def number(self) -> int:
        return self.rng.randrange(65536)

    def listed(self, index: tuple[str, Any] | None) -> Parts:
        """Of 35c: registers that aren't counted may be anything."""
        count = self.rng.randrange(6)
        listed = [self.low() if i < count else self.rng.choice((0, 0, self.rng.randrange(16))) for i in range(5)]
        return count << 4 | listed[4], index, listed[0] | listed[1] << 4 | listed[2] << 8 | listed[3] << 12

    def ranged(self, index: tuple[str, Any] | None) -> Parts:
        """Of 3rc: with no registers the first may be anything."""
        count = self.rng.choice((0, self.rng.randrange(min(self.registers, 255) + 1)))
        return count, index, self.rng.randrange(self.registers - count + 1) if count else self.number()

    def of(self, form: str, index: tuple[str, Any] | None, target: int) -> Parts:
        """The high byte and the units after it."""
        makers: dict[str, Callable[[], Parts]] = {
            "10x": lambda: (0,), "12x": lambda: (self.pair(),), "11x": lambda: (self.byte(),),
            "11n": lambda: (self.rng.randrange(16) << 4 | self.low(),), "10t": lambda: (("to", target),),
            "20t": lambda: (0, ("to", target, 1)), "30t": lambda: (0, ("to", target, 2)),
            "21t": lambda: (self.byte(), ("to", target, 1)), "22t": lambda: (self.pair(), ("to", target, 1)),
            "31t": lambda: (self.byte(), ("to", target, 2)),
            "22x": lambda: (self.byte(), self.rng.randrange(self.registers)),
            "32x": lambda: (0, self.rng.randrange(self.registers), self.rng.randrange(self.registers)),
            "21s": lambda: (self.byte(), self.number()), "21h": lambda: (self.byte(), self.number()),
            "21c": lambda: (self.byte(), index), "31c": lambda: (self.byte(), index),
            "22c": lambda: (self.pair(), index), "22s": lambda: (self.pair(), self.number()),
            "23x": lambda: (self.byte(), self.byte() << 8 | self.byte()),
            "22b": lambda: (self.byte(), self.rng.randrange(256) << 8 | self.byte()),
            "31i": lambda: (self.byte(), self.number(), self.number()),
            "51l": lambda: (self.byte(), *(self.number() for _ in range(4))), "35c": lambda: self.listed(index),
            "3rc": lambda: self.ranged(index)
        }
        return makers[form]()


def random_tries(rng: random.Random, instructions: int) -> list[Try]:
    tries: list[Try]
    tries, at = [], 0
    while at < instructions and len(tries) < 4 and rng.random() < 0.6:
        at += rng.randrange(2)
        if at >= instructions:
            break
        after = rng.randrange(at + 1, min(instructions, at + 6) + 1)
        catches = [(rng.choice(OF_TYPES + ("V",)), rng.randrange(instructions)) for _ in range(rng.randrange(3))]
        other = rng.randrange(instructions) if not catches or rng.random() < 0.5 else None
        tries.append((at, after, catches, other))
        at = after
    return tries


def random_code(rng: random.Random) -> Made:
    registers = rng.choice((1, 2, 3, 5, 16, 17, 255, 256, 257, 65535))
    pools = [WITH_TARGETS if rng.random() < 0.25 else sorted(OPCODES) for _ in range(rng.randrange(1, 14))]
    opcodes = [rng.choice(pool) for pool in pools]
    made, payload_of = with_payloads(rng, opcodes)
    addresses, operands = addresses_of(made), Operands(rng, registers)
    targets = [k for k, each in enumerate(made) if not isinstance(each[0], str)]
    for k in targets[: len(opcodes)]:
        opcode, form = made[k][0], OPCODES[made[k][0]][0]
        others = [t for t in targets if t != k and (form != "10t" or -128 <= addresses[t] - addresses[k] <= 127)]
        if form in ("10t", "20t", "21t", "22t") and not others:
            return random_code(rng)  # a branch that could lead to itself alone
        index = None
        if len(OPCODES[opcode]) > 1:
            kind = KIND_OF_TABLE[OPCODES[opcode][1]]
            index = kind, random_name(rng, kind)
        target = payload_of[k] if k in payload_of else rng.choice(others or targets)
        made[k] = (opcode, *operands.of(form, index, target))
    return {"registers": registers, "ins": rng.randrange(min(registers, 6) + 1), "outs": rng.choice((0, 3, 65535)),
            "instructions": made, "tries": random_tries(rng, len(made))}


# -------------------------------------------------------------------------------------------------------------- classes


def with_flags_and_code(rng: random.Random, name: str, proto: Proto) -> tuple[str, Proto, int, Made | None]:
    return name, proto, rng.choice((0, 1, 9, 0x10001)), random_code(rng) if rng.random() < 0.85 else None


def random_class(rng: random.Random, name: str, earlier: list[str]) -> Made:
    above = sorted({*earlier, "Ljava/lang/Object;", "Lp/C-d;", "L\u00e9t\u00e9;", "Ljava/lang/Throwable;"})
    fields = [sorted({(rng.choice(WORDS), rng.choice(OF_TYPES)) for _ in range(rng.randrange(5))}) for _ in range(2)]
    methods = [sorted({(rng.choice(WORDS), random_proto(rng)) for _ in range(rng.randrange(4))}) for _ in range(2)]
    statics, instances = ([(*field, rng.randrange(300)) for field in each] for each in fields)
    directs, virtuals = ([with_flags_and_code(rng, *method) for method in each] for each in methods)
    return {"type": name, "flags": rng.randrange(1 << 16), "super": rng.choice(above + [None]),
            "interfaces": tuple(rng.sample(above, rng.choice((0, 0, 1, 2)))),
            "source": rng.choice((None, "", "A.java")),
            "statics": statics, "values": [random_value(rng) for _ in range(rng.randrange(len(statics) + 1))],
            "instances": instances, "directs": directs, "virtuals": virtuals}


def random_classes(rng: random.Random) -> list[Made]:
    names = [f"Lq/{letter};" for letter in "STUVWX"[: rng.randrange(1, 5)]]
    names += rng.sample(("LA;", "LB;"), rng.randrange(3))
    rng.shuffle(names)
    return [random_class(rng, name, names[:i]) for i, name in enumerate(names)]


def random_extra(rng: random.Random) -> list[tuple[str, Any]]:
    """Names that nothing uses."""
    kinds = [kind for kind in ("string", "type", "field", "method") for _ in range(rng.randrange(4))]
    return [(kind, random_name(rng, kind)) for kind in kinds]
