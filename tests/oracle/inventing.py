"""Programs at random, as model.py has them: for the texts and for the files that are compared.

With `odd` above 0 a choice breaks a rule with that probability; otherwise the rules of programs are kept, but for
branches that may be out of reach and payloads that may be misaligned, which are no rules but limits.
"""
import random
from collections.abc import Callable
from typing import Any

from .faults import GOTO_32, OPCODES
from .model import Class, Code, Field, FieldName, Instruction, LITERAL_BITS, Method, MethodName, NEEDED_PAYLOAD, Name
from .model import Payload, Proto, REGISTER_BITS, Try, Value, WITH_NAME, WITH_TARGET, form_of, kind_of_name
from .mutating import EDGES, PAIRS
from .writing import aligned_code

LETTERS = "abcmnxyzABCLIVZ0179$-_"
NAME_EDGES = "\u00a1\u00e9\u1fff\u2010\u2027\u2030\u4e2d\ud7ff\ue000\uffef"
TEXT_EDGES = " \"\\#\x7f\0\n\t\x80\u07ff\u0800\ud800\udfff\uffff{}:@=;/()<>" + "".join(map(chr, EDGES))
WITH_TARGETS = [opcode for opcode in sorted(OPCODES) if form_of(opcode) in WITH_TARGET]
CALLS = [opcode for opcode in sorted(OPCODES) if form_of(opcode) in ("35c", "3rc")]


def edge_number(rng: random.Random, low: int, high: int) -> int:
    """A number of this range, often near its borders or where its shortest spelling changes."""
    edges = [0, 1, -1, low, high, low + 1, high - 1, 5, -7]
    edges += [sign * (1 << bits) + d for bits in (7, 8, 15, 16, 31, 32, 63) for sign in (1, -1) for d in (-1, 0)]
    return rng.choice([edge for edge in edges if low <= edge <= high] + [rng.randint(low, high)] * 3)


class Inventor:
    """Names from pools of its own, so that a program uses the same ones now and then."""

    def __init__(self, rng: random.Random, odd: float = 0.0) -> None:
        self.rng, self.odd = rng, odd
        self.members = [self.new_member() for _ in range(5)]
        self.classes = [self.new_class() for _ in range(4)] + ["LA;", "Ljava/lang/Object;"]
        self.types = [self.new_type() for _ in range(6)] + self.classes
        self.texts = [self.new_text() for _ in range(4)] + self.members[:1] + self.types[:1]

    def chance(self, share: float) -> bool:
        return self.rng.random() < share

    def is_odd(self, share: float = 1.0) -> bool:
        return self.odd > 0 and self.rng.random() < self.odd * share

    # names

    def simple_name(self) -> str:
        rng = self.rng
        length = rng.choice((1, 1, 1, 2, 2, 3, 8)) if self.chance(0.98) else rng.choice((33, 127, 128, 300))
        units: Callable[[], str]
        units = lambda: rng.choice((rng.choice(LETTERS),) * 6 + (rng.choice(NAME_EDGES), rng.choice(PAIRS[:2])))
        return "".join(units() for _ in range(length))

    def new_member(self) -> str:
        return self.rng.choice(("%s", "%s", "%s", "<%s>")) % self.simple_name()

    def new_class(self) -> str:
        return "L" + "/".join(self.simple_name() for _ in range(self.rng.choice((1, 1, 2, 3)))) + ";"

    def new_type(self) -> str:
        text = self.rng.choice("ZBSCIJFD") if self.chance(0.6) else self.rng.choice(self.classes)
        return "[" * self.rng.choice((0, 0, 0, 0, 1, 1, 2, 255)) + text

    def new_text(self) -> str:
        length = self.rng.choice((0, 1, 2, 3, 5)) if self.chance(0.95) else self.rng.choice((127, 128, 200))
        units: Callable[[], str]
        units = lambda: self.rng.choice((self.rng.choice(LETTERS), self.rng.choice(TEXT_EDGES)))
        return "".join(units() for _ in range(length))

    def class_type(self) -> str:
        return self.type() if self.is_odd(0.1) else self.rng.choice(self.classes)

    def type(self) -> str:
        return "V" if self.is_odd(0.1) else self.rng.choice(self.types)

    def any_type(self) -> str:
        return "V" if self.chance(0.1) else self.type()

    def proto(self) -> Proto:
        count = self.rng.choice((0, 0, 1, 1, 2, 3)) if self.chance(0.98) else 300
        return self.any_type(), tuple(self.type() for _ in range(count))

    def field(self) -> FieldName:
        return self.class_type(), self.rng.choice(self.members), self.type()

    def method(self) -> MethodName:
        owner = self.class_type()
        return "[" + owner if self.chance(0.1) else owner, self.rng.choice(self.members), self.proto()

    def name(self, kind: str) -> Name:
        if kind == "string":
            return self.rng.choice(self.texts)
        return {"type": self.any_type, "field": self.field, "enum": self.field, "method": self.method}[kind]()

    # values

    def value(self, depth: int = 0) -> Value:
        kinds = ["byte", "short", "char", "int", "long", "float", "double", "string", "type", "field", "method", "enum",
                 "null", "true", "false"] + ["array"] * (3 if depth < 3 else 0)
        kind = self.rng.choice(kinds)
        bits = {"byte": 8, "short": 16, "int": 32, "long": 64}
        if kind in bits:
            return kind, edge_number(self.rng, -(1 << bits[kind] - 1), (1 << bits[kind] - 1) - 1)
        if kind == "char":
            return kind, edge_number(self.rng, 0, 0xFFFF)
        if kind in ("float", "double"):
            size = 4 if kind == "float" else 8
            zeros = self.rng.randrange(size + 1)
            return kind, int.from_bytes(bytes(zeros) + self.rng.randbytes(size - zeros), "little")
        if kind in ("null", "true", "false"):
            return kind, None
        if kind == "array":
            return kind, [self.value(depth + 1) for _ in range(self.rng.randrange(4))]
        return kind, self.name(kind)

    def deep_value(self) -> Value:
        """An array about as deep as it may be."""
        value = self.rng.choice((("array", []), self.value(3)))
        for _ in range(self.rng.choice((61, 62, 63) if self.odd == 0 else (62, 63, 64, 65))):
            beside = [self.value(3)] if self.chance(0.1) else []
            value = "array", self.rng.choice((beside + [value], [value] + beside))
        return value

    # codes

    def register(self, bits: int, registers: int) -> int:
        above = min(registers + self.is_odd(), 1 << bits)
        return self.rng.choice((self.rng.randrange(above), above - 1)) if above else 0

    def instruction(self, opcode: int, registers: int) -> Instruction:
        """Without its target."""
        form, made = form_of(opcode), Instruction(opcode)
        if form == "35c":
            count = self.rng.randrange(6 if registers or self.is_odd() else 1)
            made.registers = tuple(self.register(4, registers) for _ in range(count))
        elif form == "3rc":
            made.count = self.rng.choice((0, 1, self.rng.randrange(256)))
            if not self.is_odd():
                made.count = min(made.count, registers)
            first = self.rng.randint(0, max(0, registers - made.count))
            made.registers = (first if made.count else self.rng.randrange(65536),)
        else:
            made.registers = tuple(self.register(bits, registers) for bits in REGISTER_BITS[form])
        if form in LITERAL_BITS:
            half = 1 << LITERAL_BITS[form] - 1
            made.literal = edge_number(self.rng, -half, half - 1)
        if form in WITH_NAME:
            made.name = self.name(kind_of_name(opcode))
        return made

    def payload(self, opcode: int) -> Payload:
        """What this instruction needs; the targets of a switch are chosen afterwards, but how many they are is not."""
        kind, count = NEEDED_PAYLOAD[opcode], self.rng.randrange(5)
        if kind == "array":
            width = self.rng.choice((1, 2, 4, 8))
            return Payload(kind, width=width, data=self.rng.randbytes(width * count + self.is_odd()))
        if kind == "packed":
            return Payload(kind, (edge_number(self.rng, -1 << 31, (1 << 31) - 1),), (0,) * count)
        keys = sorted({edge_number(self.rng, -1 << 31, (1 << 31) - 1) for _ in range(count)})
        if self.is_odd() and keys:
            keys.append(self.rng.choice(keys))
        return Payload(kind, tuple(keys), (0,) * len(keys))

    def instructions(self, registers: int) -> list[Instruction | Payload]:
        """Instructions, payloads among them or after them, and which payload each needs."""
        pool: Callable[[], list[int]]
        pool = lambda: self.rng.choice((WITH_TARGETS, CALLS, sorted(OPCODES), sorted(OPCODES)))
        made: list[Any]  # instructions, and their payloads soon
        made = [self.instruction(self.rng.choice(pool()), registers) for _ in range(self.rng.randrange(1, 12))]
        if self.chance(0.02):
            nops = self.rng.choice((120, 127, 200)) if self.chance(0.99) else 32770
            made[1:1] = [Instruction(0x00) for _ in range(nops)]
        if not registers and not self.is_odd():
            made = [each for each in made if not each.registers or each.count == 0] or [Instruction(0x00)]
        arrays: list[Payload] = []
        for each in list(made):
            if each.opcode not in NEEDED_PAYLOAD:
                continue
            if each.opcode == 0x26 and arrays and self.chance(0.3):
                each.target = self.rng.choice(arrays)
                continue
            each.target = self.payload(each.opcode)
            if each.opcode == 0x26:
                arrays.append(each.target)
            made.insert(len(made) if self.chance(0.7) else self.rng.randrange(len(made) + 1), each.target)
        if self.chance(0.05):
            made.insert(self.rng.randrange(len(made) + 1), self.payload(0x26))
        if self.is_odd():
            made.append(self.payload(0x2B))
        places = {id(each): k for k, each in enumerate(made)}
        for each in made:
            if isinstance(each, Instruction) and isinstance(each.target, Payload):
                each.target = places[id(each.target)]
        return made

    def choose_targets(self, made: list[Instruction | Payload]) -> None:
        """Targets of branches and of switches: any instruction but payloads, and of most branches themselves."""
        right = [k for k, each in enumerate(made) if isinstance(each, Instruction)]
        for k, each in enumerate(made):
            if isinstance(each, Payload):
                each.targets = tuple(self.target(made, right) for _ in each.targets)
            elif form_of(each.opcode) in WITH_TARGET and each.target is None:
                others = [other for other in right if other != k] if each.opcode != GOTO_32 else right
                if not others and not self.is_odd():
                    made[k] = Instruction(0x00)
                else:
                    each.target = self.target(made, others or right)
        for each in made:
            if isinstance(each, Instruction) and each.opcode in NEEDED_PAYLOAD and self.is_odd():
                each.target = self.rng.randrange(len(made))

    def target(self, made: list[Instruction | Payload], right: list[int]) -> int:
        if self.is_odd():
            return self.rng.randrange(len(made))
        near = [k for k in (right[0], right[-1]) if len(right) < 100]
        return self.rng.choice(near + [self.rng.choice(right)] * 3)

    def tries(self, length: int) -> list[Try]:
        tries: list[Try]
        tries, at, count = [], 0, self.rng.choice((0, 0, 1, 2, 3, 6))
        handlers = [self.handler(length) for _ in range(2)]
        while at < length and len(tries) < count:
            first = min(at + self.rng.choice((0, 0, 1, 3)), length - 1)
            if self.is_odd():
                first = max(0, first - 1)
            after = self.rng.choice((length, self.rng.randint(first + 1 - self.is_odd(), length)))
            if len(tries) < count - 1:
                after = min(after, first + 3)
            catches, other = self.rng.choice(handlers) if self.chance(0.5) else self.handler(length)
            tries.append(Try(first, after, list(catches), other))
            at = after
        return tries

    def handler(self, length: int) -> tuple[list[tuple[str, int]], int | None]:
        count = self.rng.choice((0, 1, 1, 2, 3)) if self.chance(0.99) else 70
        catches = [(self.any_type(), self.rng.randrange(length)) for _ in range(count)]
        has_other = self.chance(0.5) if catches or self.is_odd() else True
        return catches, self.rng.randrange(length) if has_other else None

    def code(self) -> Code:
        registers = self.rng.choice((0, 1, 2, 3, 5, 15, 16, 17, 255, 256, 257, 65535))
        made = self.instructions(registers)
        self.choose_targets(made)
        ins = self.rng.randint(0, min(registers, 5)) + self.is_odd()
        code = Code(registers, ins, self.rng.choice((0, 3, 65535)), made, self.tries(len(made)))
        return aligned_code(code) if self.chance(0.95) and not self.odd else code

    # classes

    def methods(self, shared: list[Code]) -> list[Method]:
        made = []
        for name, proto in sorted({(self.rng.choice(self.members),
            self.proto()) for _ in range(self.rng.randrange(4))}):
            code = None
            if self.chance(0.8):
                code = self.rng.choice(shared) if shared and self.chance(0.2) else self.code()
                shared.append(code)
            made.append(Method(name, proto, self.flags(), code))
        return made

    def fields(self) -> list[Field]:
        fields = sorted({(self.rng.choice(self.members), self.type()) for _ in range(self.rng.randrange(6))})
        return [Field(name, text, self.flags()) for name, text in fields]

    def flags(self) -> int:
        return self.rng.choice((0, 1, 9, 0x7F, 0x80, 0x10001, 0xFFFFFFFF, self.rng.randrange(1 << 32)))

    def made_class(self, name: str, above: list[str], shared: list[Code]) -> Class:
        made = Class(name, self.flags())
        made.superclass = self.rng.choice(above + [None])
        made.interfaces = self.rng.sample(above, min(len(above), self.rng.choice((0, 0, 1, 2, 3))))
        made.source = self.rng.choice((None, self.name("string")))
        made.statics, made.instances = self.fields(), self.fields()
        made.values = [self.value() for _ in range(self.rng.randint(0, len(made.statics)))]
        if made.values and self.chance(0.03):
            made.values[-1] = self.deep_value()
        made.directs, made.virtuals = self.methods(shared), self.methods(shared)
        return made

    def program(self) -> list[Class]:
        """Classes, each below those that it extends; with odd choices also the other way round."""
        names = list(dict.fromkeys(self.new_class() for _ in range(self.rng.choice((0, 1, 1, 1, 2, 3)))))
        names += self.rng.sample(self.classes, self.rng.choice((0, 0, 0, 1)))
        names = list(dict.fromkeys(names))
        outside = [text for text in dict.fromkeys(self.classes) if text not in names]
        shared: list[Code]
        classes, shared = [], []
        for i, name in enumerate(names):
            if self.is_odd():
                name = self.rng.choice(names + ["I", "[LA;"])
            above = outside + (names if self.is_odd() else names[:i])
            classes.append(self.made_class(name, above, shared))
        return classes


def invented(rng: random.Random, odd: float = 0.0) -> list[Class]:
    return Inventor(rng, odd).program()
