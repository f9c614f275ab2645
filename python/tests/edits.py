"""Laws of programs as objects in Python, and edits at random: what is written is what it was edited to, or nothing."""
import copy
import itertools
import random
from typing import Any

import dexasm
from dexasm import Catch, Field, Insn, Label, Method, Program, Proto, Refused, Try, Type, Value
from tests.base import TestCase
from tests.oracle.loose import random_files
from .bad_values import EVIL, MNEMONICS, WRONG


def made_files(rng: random.Random, count: int) -> list[bytes]:
    """So many files that are accepted, made at random."""
    return [*itertools.islice((data for data, _ in random_files(rng) if is_accepted(data)), count)]


def is_accepted(data: bytes) -> bool:
    try:
        dexasm.check(data)
        return True
    except Refused:
        return False


class Edits:
    """Edits of a program at random, some of them harmful."""

    def __init__(self, rng: random.Random, program: Program) -> None:
        self.rng, self.program = rng, program
        self.classes = [*program.classes]
        self.codes = [method.code for one in self.classes for method in one.methods if method.code is not None]
        self.pool = [insn for code in self.codes for insn in code.insns]

    def one(self) -> None:
        kinds = (
            [self.edit_class, self.edit_member] + [self.edit_insn] * 4 * bool(self.codes)
            + [self.edit_try] * bool(self.codes)
        )
        self.rng.choice(kinds)()

    def text(self, was: Any) -> Any:
        others = [str(one.name) for one in self.classes] + ["I", "[J", "V", "()V", "(I)V", "a", "b", "LNew;"]
        return self.rng.choice([was, was, *others, self.rng.choice(EVIL), self.rng.choice(WRONG)])

    def number(self) -> Any:
        return self.rng.choice(
            [0, 1, 2, 3, -1, 15, 16, 255, 256, 32767, -32768, 65535, 65536, 1 << 31, 1 << 40, "1", True]
        )

    def edit_class(self) -> None:
        one, rng = self.rng.choice(self.classes), self.rng
        slot = rng.choice(["name", "superclass", "source", "flags", "interfaces", "order", "drop", "twice"])
        if slot in ("name", "superclass", "source"):
            setattr(one, slot, self.text(getattr(one, slot)))
        elif slot == "flags":
            one.flags = self.number()
        elif slot == "interfaces":
            one.interfaces.append(self.text(one.name))
        elif slot == "order":
            self.program.classes.append(self.program.classes.pop(rng.randrange(len(self.program.classes))))
        elif slot == "drop":
            del self.program.classes[rng.randrange(len(self.program.classes))]
        else:
            self.program.classes.append(copy.deepcopy(one))

    def edit_member(self) -> None:
        rng, one = self.rng, self.rng.choice(self.classes)
        members: list[Any] = rng.choice([one.statics, one.instances, one.directs, one.virtuals])
        if not members or rng.random() < 0.2:
            members.append(
                Field("new", Type("I"), 1) if members in (one.statics, one.instances)
                else Method("new", Proto("()V"), 1)
            )
            return
        member = rng.choice(members)
        slot = rng.choice(["name", "flags", "drop", "order", "proto" if isinstance(member, Method) else "type", "more"])
        if slot == "drop":
            members.remove(member)
        elif slot == "order":
            rng.shuffle(members)
        elif slot == "flags":
            member.flags = self.number()
        elif slot == "more":
            more = rng.choice([
                None, Value("int", self.number()), Value("string", self.text("a")), Value("array", [Value("null")]),
                Value("type", self.text("I"))
            ])
            setattr(member, "code" if isinstance(member, Method) else "value",
                    rng.choice([None, *self.codes]) if isinstance(member, Method) else more)
        else:
            setattr(member, slot, self.text(getattr(member, slot)))

    def edit_insn(self) -> None:
        rng, code = self.rng, self.rng.choice(self.codes)
        insns = code.insns
        labels = [*code.labels()]
        way = rng.randrange(7)
        if way == 0 or not insns:
            new = copy.copy(rng.choice(self.pool + [Insn("nop"), Insn(rng.choice(MNEMONICS))]))
            new.target = Label(rng.choice([*insns, None])) if new.target is not None else None
            insns.insert(rng.randint(0, len(insns)), new)
        elif way == 1:
            code.replace(rng.choice(insns), *[Insn("nop")] * rng.randrange(3))
        elif way == 2 and labels:
            rng.choice(labels).insn = rng.choice([*insns, None])
        elif way == 3:
            del insns[rng.randrange(len(insns))]
        else:
            insn = rng.choice(insns)
            slot = rng.choice(["mnemonic", "registers", "literal", "name", "text", "count", "mnemonic"])
            values = {"mnemonic": rng.choice(self.pool).mnemonic, "registers": (self.number(),) * rng.randrange(4),
                      "name": self.text(insn.name)}
            setattr(insn, slot, values.get(slot, self.text(insn.text) if slot == "text" else self.number()))

    def edit_try(self) -> None:
        rng, code = self.rng, self.rng.choice(self.codes)
        places = [*code.insns, None]
        code.tries.insert(0,
                          Try(Label(rng.choice(places)), Label(rng.choice(places)),
                              [Catch(Type("LE;"), Label(rng.choice(places)))] * rng.randrange(2)))
        if rng.random() < 0.5:
            del code.tries[1:]


ZEROS = {"Z": "false", "F": "float 00000000", "D": "double 0000000000000000", "J": "long 0", "B": "byte 0",
         "S": "short 0", "C": "char 0", "I": "int 0"}


def parts(one: dexasm.Class) -> tuple[str, list[str]]:
    """A class's lines by members, sorted. A static field's value that is its type's zero is as none."""
    heads, *members = one.parts()
    found = []
    for member, text in members:
        if (
            isinstance(member, Field) and text.startswith("static") and member.value is not None
            and str(member.value) == ZEROS.get(member.type, "null")
        ):
            text = text.partition(" = ")[0] + "\n"
        found.append(text)
    return heads[1], sorted(found)


class LawsTest(TestCase):
    """A test that programs keep these laws, and edits too."""

    def check_laws(self, what: str, data: bytes) -> None:
        """A file that is read and written is its stripped one, and each class read and written anew has the same
        lines."""
        text, program = dexasm.list(data), Program.read(data)
        self.check(f"{what}: its text", str(program) == text == str(Program.parse(text)))
        self.check_equal(f"{what}: as it came", program.write(), dexasm.strip(data))
        for at, was in enumerate([*program.classes.texts()]):
            one = program.classes[at]
            self.check_equal(f"{what}: {one.name}, read", str(one), was)
            for method in one.methods:
                if method.code is not None:
                    method.code.insns.sort(key=lambda _: 0)
            self.check_equal(f"{what}: {one.name}, read whole", str(one), was)
        self.check_equal(f"{what}: written anew", program.write(), dexasm.strip(data))

    def check_edit(self, what: str, rng: random.Random, data: bytes) -> bool:
        """A program that was edited is written as what it was edited to, or not at all."""
        program = Program.read(data)
        edits = Edits(rng, program)
        try:
            for _ in range(rng.choice((1, 1, 1, 2, 5))):
                if len(program.classes):
                    edits.one()
            file = program.write()
        except ValueError as error:
            self.check_equal(f"{what}: why", str(error).isascii() and str(error).isprintable(), True)
            return False
        self.check_equal(f"{what}: what it was edited to",
                         (is_accepted(file), [*map(parts, Program.read(file).classes)]),
                         (True, [*map(parts, program.classes)]))
        return True
