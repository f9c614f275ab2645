"""Tries dexasm.Program: what is put into a program by harm or by mistake, laws of what is read and written, and edits
at random.

Laws are tried on 20 files that are made, or as many as are asked for, and on those below a folder that is named, and by
200 edits: config.py says how these are named. tools/try objects tries more.
"""
import copy
import glob
import itertools
import os
import pickle
import random
import re
import shutil
import subprocess
import sys
import tempfile
from collections.abc import Callable
from typing import Any

import dexasm
from dexasm import (
    ArrayData, Catch, Class, Code, Field, FieldRef, Insn, Label, Method, MethodRef, PackedSwitch, Program, Proto,
    Refused, SparseSwitch, Try, Type, Value, code, formats
)
from tests import TOP, config
from tests.matchers import Begins, Has, Lacks, Other, That
from .cases import TEXTS
from . import edits
from .edits import is_accepted, made_files
from .bad_values import EVIL, MEMBERS, MNEMONICS, WRONG
from .binding_case import ModuleTest

Change = Callable[[Any, Any], Any]  # of a program and its class, also to what their types forbid
REFERENCES = TEXTS["test_objects REFERENCES"]
HELLO = TEXTS["test_objects HELLO"]


def changed(change: Change) -> str | ValueError | KeyError:
    """The program above after a change: its listing, or what was raised."""
    program = Program.parse(HELLO)
    try:
        change(program, program["LHello;"])
        return dexasm.list(program.write())
    except (ValueError, KeyError) as error:
        return error


# ---- harm


def at_first(insn: Any) -> Change:
    return lambda _, hello: hello.method("get").code.insns.insert(0, insn)


def set_in(path: str, value: Any) -> Change:
    """A change that gives one slot another value."""

    def change(_: Program, hello: Any) -> None:
        code, name = hello.method("pick").code, hello.statics[0]
        at = {"hello": hello, "name": name, "value": name.value, "get": hello.method("get"), "code": code}
        at |= {"switch": code.insns[0], "const": code.insns[1], "payload": code.insns[3]}
        at |= {"try": code.tries[0], "catch": code.tries[0].catches[0]}
        one, slot = path.split(".")
        setattr(at[one], slot, value)

    return change


def units(text: str) -> list[int]:
    given = text.encode("utf-16-le", "surrogatepass")
    return [given[at] | given[at + 1] << 8 for at in range(0, len(given), 2)]


def plain(unit: int) -> str:
    return "\\" + chr(unit) if chr(unit) in '"\\' else chr(unit)


def nested(depth: int) -> Value:
    value = Value("array", [])
    for _ in range(depth):
        value = Value("array", [value])
    return value


RING = Value("array", [])
RING.value.append(RING)
WRONG_VALUES: tuple[Any, ...] = (
    Value([], 1),  # type: ignore[arg-type]  # (which is tried)
    Value("int\nx", 1), Value("int", "1"), Value("int", 1 << 40), Value("boolean", 1), Value("null", 1), Value("float", -1), Value("float", 1 << 32), Value("type", "LA; x"), Value("enum", "LA;->a()V"), Value("array", 5), Value("array", ["int 3"]), Value("} int", 1), nested(70), RING, "int 3", "int 3\nend class", 5, []
)
VALUES = [Value("int", -3), Value("boolean", False), Value("float", 0x7F800001), Value("enum", FieldRef("LA;->a:LA;"))]
WORDS = "array { int -3 false float 7f800001 enum LA;->a:LA; array { } }"


CALLS = [Insn("invoke-static/range", 0, count=2, name="LA;->m(II)V"),
         Insn("invoke-static", 0, 1, name=MethodRef("LA;->m(II)V")), Insn("invoke-static", name="LA;->m()V")]
# (labels of the second method, when two instructions come before all)
PICKED: tuple[tuple[str, str], ...] = (("v1 :L3", "v1 :L5"), (":L1\nconst", ":L3\nconst"),
                                       (":L2\nreturn-void\n:L3", ":L4\nreturn-void\n:L5"), ("0 :L1 :L2", "0 :L3 :L4"))
PICKED += (("try :L1 :L2", "try :L3 :L4"), ("Exception; :L2", "Exception; :L4"), ("catchall :L2", "catchall :L4"))


def replaced(code: Code, at: int, *by: Insn) -> None:
    code.replace(code.insns[at], *by)


MADE = TEXTS["test_objects MADE"]


def class_of_objects() -> Class:
    """A class of nothing but objects, each of its kind."""
    nop, end, array = Insn("nop"), Insn("return-void"), ArrayData(2, b"\1\0\2\0")
    packed, sparse = PackedSwitch(-1, [Label(nop)]), SparseSwitch([-5, 7], [Label(nop), Label(end)])
    insns = [nop, Insn("const/4", 0, literal=-8), Insn("fill-array-data", 0, target=Label(array))]
    insns += [Insn("packed-switch", 0, target=Label(packed)), Insn("sparse-switch", 0, target=Label(sparse))]
    insns += [end, array, packed, sparse]
    code = Code(1, 0, 0, insns, [Try(Label(nop), Label(), [Catch(Type("LE;"), Label(end))], Label(nop))])
    made = Class(Type("LA;"), instances=[Field("f", Type("[[J"), 0x2)])
    made.directs.append(Method("m", Proto("()V"), 0x9, code))
    return made


def inserted(method: str, at: int, insn: Insn) -> Change:
    """A change that puts an instruction into a method of this name."""
    return lambda _, hello: hello.method(method).code.insns.insert(at, insn)


def branch_to_itself(_: Program, hello: Any) -> None:
    branch = hello.method("get").code.insns[1]
    branch.target.insn = branch


def branch_to_end(_: Program, hello: Any) -> None:
    hello.method("get").code.insns[1].target.insn = None


def try_of_nothing(_: Program, hello: Any) -> None:
    one = hello.method("pick").code.tries[0]
    one.end = one.start


def field_twice(_: Program, hello: Class) -> None:
    hello.statics.append(hello.statics[0])


def class_twice(program: Program, hello: Class) -> None:
    program.classes.append(hello)


WIDE = Insn("const/16", 0, literal=42000)
# A change, and the fault's number, the member and the instruction that it has to lead to.
PLACES: dict[str, tuple[Change, int, str | None, int | None]] = {
    "a number": (inserted("pick", 1, WIDE), 102, "pick(I)V", 1),
    "a register": (inserted("pick", 2, Insn("move", 0, 7)), 118, "pick(I)V", 2),
    "a branch to itself": (branch_to_itself, 115, "get(Z)I", 1),
    "a branch to the end": (branch_to_end, 105, "get(Z)I", 1),
    "a name": (inserted("get", 3, Insn("sget", 0, name="[LA;->a:I")), 110, "get(Z)I", 3),
    "a payload": (inserted("get", 0, PackedSwitch(0, [])), 116, "get(Z)I", 0),
    "a try": (try_of_nothing, 117, "pick(I)V", None),
    "a code at an odd address": (inserted("pick", 0, Insn("nop")), 86, "pick(I)V", 4),
    "a code of no instruction": (set_in("get.code", Code()), 114, "get(Z)I", None),
    "flags": (set_in("get.flags", -1), 102, "get(Z)I", None),
    "a field": (set_in("name.type", "V"), 110, "name:V", None),
    "a field twice": (field_twice, 104, "name:Ljava/lang/String;", None),
    "a superclass": (set_in("hello.superclass", "[I"), 110, None, None),
    "a class twice": (class_twice, 112, None, None),
}


def both(change: Change) -> Change:
    """A change of the second of two classes, so that the first is led by."""

    def second(program: Program, hello: Class) -> None:
        program.classes.insert(0, Class(Type("LFirst;"), 0x1, statics=[Field("name", Type("I"))]))
        change(program, hello)

    return second


# ---- pages


def run(words: list[str], at: str) -> str:
    """What these words print, in a folder where `names` are commands."""
    ways = {
        "PATH": f"{at}/bin:{os.environ['PATH']}",
        "PYTHONPATH": os.path.join(TOP, "python", "src"),
        "PYTHONDONTWRITEBYTECODE": "1",
        "PYTHONUNBUFFERED": "1",  # so that lines come in their order
    }
    done = subprocess.run(words, cwd=at, env={**os.environ, **ways}, stdin=subprocess.DEVNULL, stdout=subprocess.PIPE,
                          stderr=subprocess.STDOUT)
    said: str = done.stdout.decode()
    return said


def page(name: str) -> list[tuple[str, str]]:
    with open(os.path.join(TOP, name), encoding="utf8") as file:
        return re.findall(r"^```(\w+)\n(.*?)^```$", file.read(), re.S | re.M)


CALLED = TEXTS["test_objects CALLED"]


USER = """
from dexasm import Class, Insn, Label, Program, Type

program = Program.read(b"")
one: Class = program["LA;"]
one.superclass = Type("LB;")
for insn in one.method("m()V").insns:
    number: int | None = insn.literal
    label: Label | None = insn.target
program.classes.append(one)
made: bytes = program.write()
"""


def list_of(path: str) -> str:
    with open(path, "rb") as file:
        return dexasm.list(file.read())


def renamed(insn: Insn, mnemonic: Any) -> Insn:
    insn.mnemonic = mnemonic
    return insn


def is_plain(error: object) -> bool:
    return str(error).isascii() and str(error).isprintable()


class ObjectsTest(ModuleTest):
    def is_refused(self, what: str, change: Change) -> None:
        """That nothing is written after a change: a ValueError, of which Refused is one kind, tells why in one line."""
        seen = changed(change)
        self.check_equal(f"{what} is refused", (isinstance(seen, ValueError), seen), (True, That(is_plain)))

    def becomes(self, what: str, old: str, new: str, change: Change, *labels: tuple[str, str]) -> None:
        """That a change of the program is this change of its listing, these of its labels, and no other."""
        want = HELLO.replace(old, new, 1)
        for label, other in labels:
            head, tail = want.split("direct pick")
            want = (
                f"{head}direct pick{tail.replace(label, other)}" if label in dict(PICKED)
                else f"{head.replace(label, other)}direct pick{tail}"
            )
        seen = changed(change)
        self.check_equal(what, (HELLO, seen), (Has(old), want))


class Words(ObjectsTest):
    """Names, numbers and texts."""

    def test_names(self) -> None:
        """In no slot of a name or a number does a text become a word or a line more."""
        types = "hello.name", "hello.superclass", "name.type", "catch.type"
        for path in (*types, "name.name", "get.name", "get.proto", "const.name"):
            for evil in (*EVIL, *WRONG):
                is_right = (
                    evil is None if path in ("hello.superclass", "const.name")
                    else evil in MEMBERS and path in ("name.name", "get.name")
                )
                if not is_right:
                    self.is_refused(f"{path} = {ascii(evil)}", set_in(path, evil))
        for path in (
            "hello.flags", "name.flags", "get.flags", "code.registers", "code.ins", "code.outs", "payload.first",
            "const.literal"
        ):
            for evil in (*EVIL, 1.5, b"1", [], 1 << 40, -1 << 40, "1", "0x1"):
                self.is_refused(f"{path} = {ascii(evil)}", set_in(path, evil))
        for evil in (*EVIL, *WRONG, Label(Insn("nop")), Label()):
            self.is_refused(f"a target {ascii(evil)}",
                            set_in("switch.target", evil) if evil is not None else set_in("try.start", evil))
            self.is_refused(f"a register {ascii(evil)}",
                            at_first(Insn("const/4", 300 if evil is True else evil, literal=0)))
            if not isinstance(evil, Label):
                self.is_refused(f"interfaces {ascii(evil)}", lambda _, hello: hello.interfaces.append(evil))
        forged = str.__new__(Type, "LA; 0x1\nend class")
        for path in types[1:]:
            self.is_refused(f"{path}, forged", set_in(path, forged))

    def test_makers(self) -> None:
        """A text that isn't of a name's form makes none."""
        for kind in (Type, Proto, FieldRef, MethodRef):
            for evil in (*EVIL, *WRONG):
                if (kind, evil) == (MethodRef, "LA;->m()V"):
                    continue
                what = f"{kind.__name__} of {ascii(evil)}"
                self.check_equal(what, self.check_raises(what, ValueError, kind, evil), That(is_plain))

    def test_insns(self) -> None:
        for evil in (*MNEMONICS, *WRONG, "no-such", "packed-switch-payload", "sparse-switch-payload"):
            self.is_refused(f"a mnemonic {ascii(evil)}", lambda *_: Insn(evil))
            self.is_refused(f"a mnemonic {ascii(evil)} that is set", at_first(renamed(Insn("nop"), evil)))
            named = Insn("const-class", 0, name="LX;")
            self.is_refused(f"a mnemonic {ascii(evil)} with a name", at_first(renamed(named, evil)))
        for evil in (5, None, "nop", [], Label(), Class(Type("LA;"))):
            self.is_refused(f"an instruction {ascii(evil)}", at_first(evil))
            self.is_refused(f"a try {ascii(evil)}", lambda _, hello: hello.method("get").code.tries.append(evil))
            if evil is not None:
                self.is_refused(f"a code {ascii(evil)}", set_in("get.code", evil))
            for members in ("statics", "instances", "directs", "virtuals"):
                self.is_refused(f"{members} {ascii(evil)}", lambda _, hello: getattr(hello, members).append(evil))
        nop = Insn("nop")
        self.is_refused("a label of what stands twice", lambda _, hello: hello.method("get").code.insns.extend(
            [nop, nop, Insn("goto", target=Label(nop))]
        ))
        self.is_refused("keys without targets", at_first(SparseSwitch([1], [])))
        self.is_refused("data that is no bytes", at_first(ArrayData(1, "00\nnop")))  # type: ignore[arg-type]  # (which is tried)

    def test_operands(self) -> None:
        """What an instruction doesn't take is refused when it is made, with what it takes; what is missing may come."""
        made: tuple[Callable[[], Insn], ...] = (
            lambda: Insn("const-strng", 0), lambda: Insn("return-void", 0), lambda: Insn("add-int", 0, 1),
            lambda: Insn("move", 0, 1, literal=3), lambda: Insn("sget", 0, text="x"),
            lambda: Insn("invoke-static", *range(6)), lambda: Insn("goto", target=Label(), count=1)
        )
        wants = ("no mnemonic: 'const-strng'; near it: const-string, ", "return-void takes no operand: 1 register here",
                 "add-int takes vA vB vC: 2 registers here", "move takes vA vB, and no literal: 3",
                 "sget takes vA FIELD, and no text: 'x'", "invoke-static takes { registers } METHOD: 6 registers here",
                 "goto takes :LABEL, and no count: 1")
        for make, want in zip(made, wants):
            self.check_equal(want, self.check_raises(want, ValueError, make), Begins(want))
        for mnemonic in formats.MNEMONICS:
            form = formats.format_of(mnemonic)
            assert form is not None
            insn = Insn(mnemonic, *range(len(form.registers)))
            self.check_equal(f"{mnemonic}, what is missing may come", insn.mnemonic, mnemonic)

    def test_texts(self) -> None:
        """Any text is one text."""
        evil: Any
        for evil in (*EVIL, "\ud83d\ude00", "\ude00\ud83d", "\U0001f600", "a\x7f\x80", "\\u0041", '\\"'):
            word = "".join(f"\\u{unit:04x}" for unit in units(evil))
            canonical = re.sub(r"\\u00([2-7]\d|[2-6][a-f]|7[a-e])", lambda found: plain(int(found[1], 16)), word)
            self.becomes(f"a source {ascii(evil)}", '"Hello.java"', f'"{canonical}"', set_in("hello.source", evil))
            self.becomes(f"a value {ascii(evil)}", '"the answer"', f'"{canonical}"', set_in("value.value", evil))
            insert = at_first(Insn("const-string", 0, text=evil))
            head = "code 2 1 0\n"
            seen = changed(insert)
            self.check_equal(f"a constant {ascii(evil)}", (isinstance(seen, str), seen),
                             (True, Has(f'{head}const-string v0 "{canonical}"\nconst/16')))
            program = Program.parse(HELLO)
            insert(program, program["LHello;"])
            again = Program.read(program.write())["LHello;"].method("get").insns[0].text
            assert again is not None  # (it is that of a const-string)
            self.check_equal(f"a constant {ascii(evil)} is read again", (units(again), again),
                             (units(evil), Lacks("\ud83d\ude00")))
        for evil in (5, b"a", [], True):
            self.is_refused(f"a source {evil!a}", set_in("hello.source", evil))
            self.is_refused(f"a value {evil!a}", set_in("value.value", evil))
            self.is_refused(f"a constant {evil!a}", at_first(Insn("const-string", 0, text=evil)))

    def test_values(self) -> None:
        for evil in WRONG_VALUES:
            self.is_refused(f"a value {evil!a:.60}", set_in("name.value", evil))
        field = Field("a", "I", 0, Value("int", 1))  # type: ignore[arg-type]  # (a text is taken too)
        self.is_refused("a value of an instance field", lambda _, hello: hello.instances.append(field))
        array = Value("array", [*VALUES, Value("array", [])])
        self.becomes("an array", 'string "the answer"', WORDS, set_in("name.value", array))
        kinds = [one.kind for one in array.all()]
        self.check_equal("all values of an array", kinds, ["array", "int", "boolean", "float", "enum", "array"])
        self.check_equal("the number of bits", (Value("float", 0x3F800000).number, Value("double", 0xBFF << 52).number),
                         (1.0, -1.0))
        self.check_raises("all values of a ring", ValueError, lambda: [*itertools.islice(RING.all(), 10**6)])

    def test_bytes(self) -> None:
        """What is no bytes is no file."""
        job: Any
        evil: Any
        for job in (dexasm.check, dexasm.list, dexasm.strip, dexasm.assemble, Program.read):
            for evil in (5, 0, True, None, [1, 2], 1.5, {}):
                self.check_raises(f"{job.__name__} of {evil!a}", TypeError, job, evil)
        file = dexasm.assemble(HELLO)
        for given in (bytearray(file), memoryview(file), memoryview(b"".join(bytes([byte, 0]) for byte in file))[::2]):
            self.check_equal("bytes of another kind", dexasm.list(given), HELLO)
        for text in ("\ud800", "dex 035 listing 2\n\ud800", "\u00e9"):
            seen = self.check_raises("a text of another kind", Refused, dexasm.assemble, text)
            self.check_equal("a text of another kind", seen, Begins("refused 100 "))


class Kept(ModuleTest):
    def test_long_lines(self) -> None:
        """Names are kept for the next such name, but no long ones: a file can't make the module large."""
        for length, is_kept in ((10, True), (1000, False)):
            name = f'L{"k" * length};'
            listing = f"dex 035 listing 2\nclass LA; 1\ndirect m ()V 9\ncode 1 0 0\nnew-instance v0 {name}\nreturn-void\nend code\nend class\n"
            found = Program.parse(listing)["LA;"].method("m()V").code
            names = [insn.name for insn in found.insns] if found else []
            self.check_equal(f"a name of {length}", names, [name, None])
            self.check_equal(f"kept, {length}", name in code._OPERANDS, is_kept)


class Changes(ObjectsTest):
    def test_changes(self) -> None:
        """A few changes, each with what becomes of the listing."""
        self.becomes("a constant", "v0 41", "v0 42",
                     lambda _, hello: setattr(hello.method("get(Z)I").code.insns[0], "literal", 42))
        self.becomes("a name", "direct get (Z)I", "direct fetch (Z)I", set_in("get.name", "fetch"))
        self.becomes("a name that isn't ASCII", "class LHello;", "class LH\\u00e9/\\ud83d\\ude00;",
                     set_in("hello.name", "LH\u00e9/\U0001f600;"))
        self.becomes(
            "a call of a range, and one of two registers",
            "code 2 1 0\n",
            "code 2 1 0\ninvoke-static/range v0 2 LA;->m(II)V\ninvoke-static { v0 v1 } LA;->m(II)V\n"
            "invoke-static { } LA;->m()V\n",
            lambda _, hello: hello.method("get").code.insns.__setitem__(slice(0, 0), CALLS),
            (":L3", ":L6"),
        )
        self.becomes(
            "one more moves branches, payloads and tries", "code 2 1 1\n", "code 2 1 1\nnop\nnop\n",
            lambda _, hello: hello.method("pick").code.insns.__setitem__(slice(0, 0), [Insn("nop"), Insn("nop")]),
            *PICKED
        )

    def test_replacing(self) -> None:
        """Branches to what is replaced; classes more and none."""
        self.becomes(
            "what led to an instruction leads to those in its place", ":L3\nreturn v0", ":L3\nconst/4 v0 0\nreturn v0",
            lambda _, hello: replaced(hello.method("get").code, 3, Insn("const/4", 0, literal=0), Insn("return", 0))
        )
        self.becomes("what led to one that is taken away leads to the next", "v1 :L3\nadd-int/lit8 v0 v0 -1\n:L3\n",
                     "v1 :L2\n:L2\n", lambda _, hello: replaced(hello.method("get").code, 2))
        self.becomes("a class more", "end code\nend class\n", "end code\nend class\nclass LB; 0x1\nend class\n",
                     lambda program, _: program.classes.append(Class(Type("LB;"))))
        self.becomes("other classes", HELLO[18:], "", lambda program, _: setattr(program, "classes", []))
        self.becomes("no class", HELLO[18:], "", lambda program, _: program.classes.clear())
        self.becomes("a field's value", ' = string "the answer"', "", set_in("name.value", None))

    def test_made(self) -> None:
        program = Program([class_of_objects()])
        self.check_equal("a program that is made", (str(program), dexasm.list(program.write())), (MADE, MADE))
        read: Any = Program.parse(MADE)["LA;"].method("m").code
        array, packed, sparse = read.insns[6:]
        seen = type(array), type(packed), type(sparse), array.data, packed.first, sparse.keys, read.tries[0].end.insn
        want = ArrayData, PackedSwitch, SparseSwitch, b"\1\0\2\0", -1, [-5, 7], None
        self.check_equal("payloads are read", seen, want)
        start = read.tries[0].start
        self.check_equal("one label a place", (packed.targets[0] is start, start.insn is read.insns[0]), (True, True))

    def test_copies(self) -> None:
        made: Any = class_of_objects()
        first = made.directs[0].code.insns[0]
        copies = copy.deepcopy(made), pickle.loads(pickle.dumps(made)), Class.of_text(str(made))
        self.check_equal("copies",
                         [one for one in copies if not (one == made and one.directs[0].code.insns[0] is not first)], [])
        copies[0].directs[0].code.insns[1].literal = 3
        self.check_equal("a copy's change is its own", (copies[0], str(Program([made]))), (Other(made), MADE))

    def test_kinds(self) -> None:
        """What names tell."""
        one, inner = Type("[[Ljava/lang/String;"), Type("[I").element
        seen = one.element, one.pretty, Type("V").pretty, inner and inner.element
        self.check_equal("a type", seen, ("[Ljava/lang/String;", "java.lang.String[][]", "void", None))
        self.check_equal("a package", (Type("La/b/C;").package, Type("LC;").package, Type("I").package, one.package),
                         ("a.b", "", "", ""))
        proto = Proto("(I[[JLx/Y;[Z)V")
        self.check_equal("a prototype", (proto.parameters, proto.returns, Proto("()[I").parameters),
                         (("I", "[[J", "Lx/Y;", "[Z"), "V", ()))
        method, field = MethodRef.of("[LA;", "<init>", "(I)V"), FieldRef.of("La-;", "x-", "[LB;")
        self.check_equal("a method's parts", (method, method.owner, method.name, method.proto),
                         ("[LA;-><init>(I)V", "[LA;", "<init>", "(I)V"))
        self.check_equal("a field's parts", (field, field.owner, field.name, field.type),
                         ("La-;->x-:[LB;", "La-;", "x-", "[LB;"))
        known: dict[str, int] = {method: 1}
        self.check_equal("names hash", (known["[LA;-><init>(I)V"], pickle.loads(pickle.dumps(method))), (1, method))

    def test_near(self) -> None:
        """What is told of a class that isn't there, and the text of a member."""
        program = Program.parse(HELLO)
        hello = program["LHello;"]
        for asked, want in (
            ("Hello", "no class 'Hello'; near it: 'LHello;'"),
            ("LHelo;", "no class 'LHelo;'; near it: 'LHello;'"),
            ("a.b.hello", "no class 'a.b.hello'; near it: 'LHello;'"),
            ("LZ;\x1b[31m", "no class 'LZ;\\x1b[31m'"),
            (5, "no class 5"),
            ("x" * 10000, "no class " + "'" + "x" * 20),
        ):
            what = f"a class that is near {asked!r:.30}"
            self.check_equal(what, self.check_raises(what, KeyError, program.__getitem__, asked), Begins(want))
        get = hello.method("get(Z)I")
        listed = f"direct get (Z)I 0x9\n{get.code}"
        self.check_equal("a method's text is its listing", (str(get), str(program)), (listed, Has(listed)))
        self.check_equal("a field's text is its listing", str(program), Has(str(hello.fields[0])))
        plain = str(Method("m", Proto("()V"), 0x101)), str(Method("<init>", Proto("()V"), 0x100))
        self.check_equal("the lists of methods", plain, ("virtual m ()V 0x101\n", "direct <init> ()V 0x100\n"))

    def test_finding(self) -> None:
        """How classes and members are found."""
        program = Program.parse(HELLO)
        hello = program["LHello;"]
        self.check_equal("names of members", (hello.ref(hello.methods[0]), hello.ref(hello.fields[0])),
                         ("LHello;->get(Z)I", "LHello;->name:Ljava/lang/String;"))
        self.check_equal("a class is found",
                         ([one in program for one in ("LHello;", "LB;", 5)], program["LHello;"] is hello),
                         ([True, False, False], True))
        for find, wrong in (
            (program.__getitem__, "LB;"), (hello.method, "get(I)I"), (hello.method, "put"), (hello.field, "name:I")
        ):
            self.check_raises(f"no {wrong}", KeyError, find, wrong)
        hello.directs.append(Method("get", Proto("()V")))
        self.check("a method is found", hello.method("get()V") is hello.directs[-1])
        self.check_raises("a name of two methods", KeyError, hello.method, "get")
        hello.name = Type("LB;")
        self.check_equal("a class of another name", (program["LB;"] is hello, "LHello;" in program), (True, False))
        program.classes.append(Class(Type("LB;"), 0x10))
        program.classes.append(Class(Type("LC;")))
        self.check_equal(
            "classes behind", (program["LB;"] is hello, program["LC;"] is program.classes[2]), (True, True)
        )
        del program.classes[1:]
        self.check_equal("classes that are gone", ("LC;" in program, program["LB;"] is hello), (False, True))
        program.classes.insert(0, Class(Type("LHello;")))
        self.check_equal("a class in front",
                         (program["LHello;"] is program.classes[0], program.classes[1] is hello,
                          [*program.classes.names()]),
                         (True, True, ["LHello;", "LB;"]))

    def test_references(self) -> None:
        """Each name and text that a program has, in the order of its listing, and by what."""
        program = Program.of_listing(REFERENCES)
        seen = [tuple(one) for one in program.references()]
        main, array = "LA;->m(I)V", "[LB;"
        want = [
            ("LB;", False, "LA;", "superclass"),
            ("LI;", False, "LA;", "interface"),
            ("I", False, "LA;->n:I", "type"),
            (array, False, "LA;->s:[LB;", "type"),
            ("a \u00e9", True, "LA;->s:[LB;", "value"),
            ("LC;->f:I", False, "LA;->s:[LB;", "value"),
            ("(I)V", False, main, "prototype"),
            ("x \"y\"", True, main, "const-string"),
            ("LB;->go()V", False, main, "invoke-static"),
            (array, False, main, "check-cast"),
            ("LE;", False, main, "catch"),
            ("(J)V", False, "LA;->none(J)V", "prototype"),
        ]
        self.check_equal("references of a program", seen, want)

    def test_units(self) -> None:
        """The sizes of instructions and payloads ("Dalvik Executable instruction formats", "Dalvik bytecode")."""
        end = Label()
        for insn, units in (
            (Insn("nop"), 1), (Insn("goto/16", target=end), 2), (Insn("const-string/jumbo", 0, text=""), 3),
            (Insn("invoke-static", name="LA;->m()V"), 3), (Insn("const-wide", 0, literal=1), 5),
            (PackedSwitch(0, [end] * 3), 10), (SparseSwitch([1, 2, 3], [end] * 3), 14), (ArrayData(1, b"abc"), 6),
            (ArrayData(8, bytes(16)), 12)
        ):
            self.check_equal(f"units of {insn!r}", insn.units, units)

    def test_places(self) -> None:
        """A refusal says in which class, member and instruction it stands."""
        seen: Any
        for what, (change, number, member, insn) in PLACES.items():
            seen = changed(both(change))
            place = (seen.number, seen.class_name, seen.member, seen.insn) if isinstance(seen, Refused) else seen
            want = (number, "LHello;", member and f"LHello;->{member}", insn)
            self.check_equal(f"the place of {what}", place, want)
        seen = changed(inserted("pick", 1, WIDE))
        said = "LHello;->pick(I)V, instruction 1: 42000: a number from -32768 to 32767 is expected here; const takes more"
        self.check_equal("its line", str(seen), f"refused 102 Number at {seen.place}: {said}")
        again = pickle.loads(pickle.dumps(seen))
        self.check_equal("it is pickled whole", (str(again), again.insn, again.member),
                         (str(seen), 1, "LHello;->pick(I)V"))
        self.check_equal("where there is no program", str(Refused(8, "Checksum", 8)), "refused 8 Checksum at 8")


# Commands over the programs of docs/cookbook, and what they print.
COOKBOOK = (
    ("python3 make-hello.py hello.dex", ""),
    ("wc -c <hello.dex", "620\n"),
    ("cp hello.dex broken.dex; printf 'X' | dd of=broken.dex bs=1 seek=200 conv=notrunc status=none", ""),
    ("python3 verdict.py hello.dex broken.dex", "hello.dex: ok\nbroken.dex: 8 Checksum at 8\nError: 1 refused\n"),
    ("python3 callers.py hello.dex 'Ljava/io/PrintStream;->println(Ljava/lang/String;)V'",
     "LMain;->main([Ljava/lang/String;)V\n"),
    ("python3 retext.py hello.dex hello 'good evening, \"all\"' evening.dex", ""),
    ("python3 verdict.py evening.dex", "evening.dex: ok\n"),
    ("python3 changed.py hello.dex evening.dex", "changed LMain;\n"),
    ("python3 changed.py hello.dex hello.dex", ""),
)


class Pages(ObjectsTest):
    """The pages of the module, and its types."""

    def test_readme(self) -> None:
        """The examples of the module's page, as they stand there."""
        examples = [text for kind, text in page("python/README.md") if kind == "python"]
        text = CALLED
        with tempfile.TemporaryDirectory() as at:
            with open(f"{at}/a.dex", "wb") as file:
                file.write(dexasm.assemble(text))
            place, *answers = [run([sys.executable, "-c", example], at) for example in examples]
            made = [list_of(f"{at}/{name}.dex") for name in ("patched", "renamed")]
        said = (
            "refused 118 Register at 0: LHello;->m()V, instruction 0: v9 of 2 registers\n5; 9; v9; v9 of 2 registers\n"
        )
        self.check_equal("README: a place", place, said)
        self.check_equal("README: examples, under twenty lines each",
                         (len(examples), [example for example in examples if example.count("\n") >= 20]), (5, []))
        self.check_equal("README: a constant", (answers[0], made[0]), ("", text.replace("v0 41", "v0 42")))
        self.check_equal("README: a method", (answers[1], made[1]),
                         ("", text.replace("get (Z)I", "fetch (Z)I").replace("->get(Z)I", "->fetch(Z)I")))
        self.check_equal("README: calls", answers[2], "LHello;->pick(I)V calls LHello;->get(Z)I\n")
        self.check_equal("README: packages", answers[3], "2 ''\n1 'a'\n")

    def test_types(self) -> None:
        """mypy finds nothing to say of the module, nor of one that uses it, and something of one that uses it
        wrongly."""
        if not shutil.which("mypy"):
            self.skipTest("no mypy here: the types of the module aren't tried")
        with tempfile.TemporaryDirectory() as at:
            for name, text in (("user", USER), ("wrong", USER.replace("number: int", "number: str"))):
                with open(f"{at}/{name}.py", "w", encoding="ascii") as file:
                    file.write(text)
            module = glob.glob(os.path.join(glob.escape(TOP), "python/src/dexasm/*.py"))
            words = ["mypy", "--strict", "--python-version", "3.10", "--cache-dir", f"{at}/cache"]
            seen = run([*words, *module, "user.py"], at)
            self.check_equal("mypy of the module", seen, Begins("Success: "))
            seen = run([*words, *module, "wrong.py"], at)
            self.check_equal("mypy of a wrong use", seen, Begins("wrong.py:8: error: ") & Has("Found 1 error"))

    def test_cookbook(self) -> None:
        """The cookbook's programs, each on what those before it made."""
        folder = os.path.join(TOP, "docs", "cookbook")
        names = {name for name in os.listdir(folder) if name.endswith(".py")}
        self.check_equal("cookbook: each program is run", names,
                         {name for step in COOKBOOK for name in names if name in step[0]})
        with tempfile.TemporaryDirectory() as at:
            os.mkdir(f"{at}/bin")
            os.symlink(sys.executable, f"{at}/bin/python3")
            for name in names:
                shutil.copy(f"{folder}/{name}", at)
            for command, want in COOKBOOK:
                seen = run(["bash", "-c", command], at)
                self.check_equal(f"cookbook: {command}", seen, want)


class Laws(ModuleTest, edits.LawsTest):
    """On programs that are made at random, and on those of a folder."""

    def test_laws(self) -> None:
        made = made_files(random.Random(config.seed()), config.count(20))
        for at, data in enumerate(made):
            self.check_laws(f"seed {config.seed()}, file {at}", data)

    def test_files(self) -> None:
        if not config.files():
            self.skipTest("no folder of .dex files is named: DEXASM_TESTS_FILES")
        for path in sorted(glob.glob(os.path.join(glob.escape(config.files()), "**", "*.dex"), recursive=True)):
            with open(path, "rb") as file:
                data = file.read()
            if is_accepted(data):
                self.check_laws(path, data)

    def test_edits(self) -> None:
        rng, count = random.Random(config.seed()), config.edits(200)
        made = made_files(rng, config.count(20))
        written = sum(self.check_edit(f"seed {config.seed()}, edit {at}", rng, rng.choice(made)) for at in range(count))
        self.check("edits of both kinds", count // 5 < written < count, written)
        print(f"{len(made)} made files, {written} of {count} edits written")
