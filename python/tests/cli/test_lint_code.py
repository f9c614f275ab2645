"""dexasm-lint --code: for each rule of "Dalvik bytecode constraints" codes that break it, and beside each the one that
keeps it; the laws of the kinds; hostile files first.

A row of ROWS, which are in cases/lint_code.txt, has the rule, the method and its code, a line between two slashes.
`WRONG => RIGHT` is an instruction that breaks the rule and what stands there in the code that keeps it, maybe nothing.
A method is static, but `<init>` and one with `this` before it. LT; is its class, a subclass of LB;; classes LX; aren't
in the file.
"""
from __future__ import annotations

import itertools
import json
import os
import re
import signal
from collections.abc import Iterable, Iterator
from typing import Any

from dexasm import program as programs
from dexasm.analysis.verifier import dataflow, lattice as kinds, method as verify, pool, report as lint_code
from dexasm.analysis.verifier.hierarchy import Hierarchy
from dexasm.analysis.verifier.operands import RegisterLine
from dexasm.analysis.verifier.report import Finding
from dexasm.analysis.verifier.rules import CODE_RULES
from dexasm.analysis.verifier.transfer import step_of
from dexasm.cli.errors import CliError
from dexasm.cli.worker import REASONS as SAYS
from dexasm.code import Insn, Label, PackedSwitch
from tests.matchers import EMPTY, SOME, Above, Begins, Below, Either, Has
from ..cases import TEXTS, cases
from .support import ESC, HEAD, TOP, HelperTest, assembled, dexasm, get, library, put, puts, room, tool

Row = tuple[Any, ...]  # rule, method, code, and of some the number of the instruction that is told of
PUBLIC, STATIC, CONSTRUCTOR = 0x1, 0x8, 0x10001
RULES = {rule: page for rule, (page, _) in CODE_RULES.items()}
CASES = cases("lint_code")
ROWS: tuple[Row, ...] = tuple((*row[:3], *map(int, row[3:])) for row in CASES["rows"])
# Codes that a device takes, and of which something could be told; codes, and what is said of them, with types and
# places in backquotes.
FINE, SAID = CASES["fine"], CASES["said"]
WORLD = TEXTS["test_lint_code WORLD"]
CLASS = """class L{0}; 0x1
super LB;
instance f I 0x1
static s I 0x9
direct p ()V 0x102
direct q ()V 0x109
{1}virtual v ()V 0x101
end class
"""


def side(text: str, at: int) -> str:
    """The wrong code of a row's text, or the right one."""
    return " / ".join(part.split(" => ")[at] if " => " in part else part for part in text.split(" / "))


def listing(at: int, rows: Iterable[tuple[int, Row]] = ROWS) -> str:  # type: ignore[assignment]  # (all give theirs)
    """A class for each row, with its code that is wrong (at 0) or right (at 1)."""
    return HEAD.decode() + WORLD + "".join(class_of(number, head, code, at) for number, (_, head, code, *_) in rows)


def class_of(number: int, head: str, code: str, at: int) -> str:
    words = head.partition(" => ")
    sizes = words[2] if at and words[1] else " ".join(words[0].split()[-3:])
    names = words[0].split()[:-3]
    name, flags = "t", PUBLIC if "this" in names else PUBLIC | STATIC
    if "<init>" in names:
        name, flags = "<init>", CONSTRUCTOR
    lines = (line.strip() for line in side(code, at).replace("LT;", f"LT{number};").split(" / "))
    body = "".join(f"{line}\n" for line in lines if line)
    kind = "virtual" if "this" in names else "direct"
    text = f"{kind} {name} {names[-1].replace('LT;', f'LT{number};')} {flags:#x}\ncode {sizes}\n{body}end code\n"
    return CLASS.format(f"T{number}", text)


def place_of(row: Row) -> int | None:
    """The number of the instruction of a row that is told of."""
    if len(row) > 3:
        place: int = row[3]
        return place
    lines = [line for line in row[2].split(" / ") if not line.startswith((":", "try", "catch"))]
    return next((at for at, line in enumerate(lines) if " => " in line), None)


def lint(text: str, *words: str, at: str) -> tuple[int | str, list[dict[str, Any]], str]:
    """What --json tells of a listing."""
    put(at, "a.txt", text.encode())
    status, out, said = tool("dexasm-lint", "--code", "--json", *words, "a.txt", at=at)
    return status, [json.loads(line) for line in out.splitlines()], said


END = " / return-void"


# ---- what an instruction takes, by its name

TYPES = {"int": (kinds.INT,), "float": (kinds.FLOAT,), "long": kinds.LONG, "double": kinds.DOUBLE}
GIVEN: dict[str, tuple[kinds.RegType, ...]] = {**TYPES, "object": (kinds.REFERENCE,), "nothing": (kinds.UNSET,)}
NARROW = {"byte": kinds.BYTE, "char": kinds.CHAR, "short": kinds.SHORT}


def named_insns() -> Iterator[tuple[str, tuple[str, ...], str]]:
    """Each instruction of arithmetic on "Dalvik bytecode", the types that it takes, and the type that it answers."""
    for type_ in TYPES:
        for name in ("add", "sub", "mul", "div", "rem"):
            yield f"{name}-{type_}", (type_, type_), type_
            yield f"{name}-{type_}/2addr", (type_, type_), type_
        yield f"neg-{type_}", (type_,), type_
        yield from ((f"{type_}-to-{other}", (type_,), other) for other in TYPES if other != type_)
    for type_ in ("int", "long"):
        yield f"not-{type_}", (type_,), type_
        for name in ("and", "or", "xor", "shl", "shr", "ushr"):
            second = "int" if "sh" in name else type_
            yield f"{name}-{type_}", (type_, second), type_
            yield f"{name}-{type_}/2addr", (type_, second), type_
    for name in ("add", "mul", "div", "rem", "and", "or", "xor"):
        yield from ((f"{name}-int/{form}", ("int",), "int") for form in ("lit8", "lit16"))
    yield from ((f"{name}-int/lit8", ("int",), "int") for name in ("rsub", "shl", "shr", "ushr"))
    yield "rsub-int", ("int",), "int"
    yield from ((f"int-to-{name}", ("int",), name) for name in NARROW)
    for name, type_ in (("cmpl", "float"), ("cmpg", "float"), ("cmpl", "double"), ("cmpg", "double"), ("cmp", "long")):
        yield f"{name}-{type_}", (type_, type_), "int"
    yield from ((f"if-{name}", ("int", "int"), "") for name in ("lt", "ge", "gt", "le"))
    yield from ((f"if-{name}z", ("int",), "") for name in ("lt", "ge", "gt", "le"))
    yield from ((f"{name}-switch", ("int",), "") for name in ("packed", "sparse"))


def is_taken(made: kinds.Lattice, mnemonic: str, given: tuple[str, ...], answers: str) -> bool:
    """Whether an instruction takes these types, and then answers that one."""
    told: list[Any]
    line, told = [kinds.ZERO] * 9 + [kinds.ANY], []
    for at, type_ in enumerate(given):
        line[2 * at : 2 * at + len(GIVEN[type_])] = GIVEN[type_]
    registers = [2 * at for at in range(len(given))]
    to = [] if mnemonic.endswith("/2addr") or not answers else [6]
    insn = of_name(mnemonic, *to, *registers, literal=7 if "/lit" in mnemonic or mnemonic == "rsub-int" else None)
    if mnemonic.endswith("-switch"):
        insn.target = Label(PackedSwitch(0, []))
    step_of(mnemonic).run(Nothing(made, told), insn, line, 0)
    at = 6 if to else 0
    want = TYPES.get(answers) or (NARROW.get(answers),)
    return not told and (not answers or tuple(line[at : at + len(want)]) == want)


def of_name(mnemonic: str, *registers: int, **more: Any) -> Insn:
    return Insn(mnemonic, *registers, **more)


# ---- the laws of the kinds

PARENTS = {"LA;": "LB;", "LB;": "LC;", "LC;": None, "LD;": "LB;", "LE;": None, "[I": None, kinds.OBJECT: None}


def all_kinds() -> tuple[kinds.Lattice, list[kinds.RegType]]:
    """Kinds of a small program, all there are of them but for more types and more new objects."""
    made = kinds.Lattice(PARENTS.get)
    objects = [kinds.RegType("new", "", "LA;", place) for place in (1, 2)] + [kinds.RegType("this", "", "LA;")]
    return made, [*kinds.BASE, *map(made.ref, PARENTS), *objects]


def longest(one: kinds.RegType, ups: dict[kinds.RegType, list[kinds.RegType]]) -> int:
    return 1 + max((longest(up, ups) for up in ups[one] if up is not one), default=0)


def insns() -> Iterator[Insn]:
    """Instructions over a line of v0, and v1 and v2 that are given."""
    moves = ("move", "move-object", "move-wide", "neg-int", "neg-long", "neg-float", "neg-double", "int-to-long")
    for mnemonic in (*moves, "add-int/2addr", "xor-int/2addr", "array-length", "if-eq"):
        yield of_name(mnemonic, 0, 1)
    for mnemonic in ("and-int", "add-int", "cmp-long", "aget", "aget-object", "aget-byte", "aget-wide", "aput"):
        yield of_name(mnemonic, 0, 1, 2)
        yield of_name(mnemonic, 0, 2, 1)
    yield of_name("instance-of", 0, 1, name="LA;")
    yield of_name("check-cast", 1, name="LA;")


def rises(made: kinds.Lattice, insn: Insn, low: Iterable[kinds.RegType], high: Iterable[kinds.RegType]) -> bool:
    before: list[kinds.RegType]
    after: list[kinds.RegType]
    is_told: list[Any]
    before, after, is_told = [], [], []
    for given, left, told in ((low, before, is_told), (high, after, [])):
        left += [kinds.ZERO, *given, kinds.ZERO, kinds.ZERO, kinds.ANY]
        step_of(insn.mnemonic).run(Nothing(made, told), insn, left, 0)
    return bool(is_told) or all(made.join(one, two) is two for one, two in zip(before, after))


class Crashing:
    """Takes the place of a program that is looked at: at its second class the worker is ended so."""

    def __init__(self, how: int | None) -> None:
        self.how = how

    def check(self, row: int) -> list[Finding]:
        if row and self.how:
            os.kill(os.getpid(), self.how)
        return [Finding(0, 0, -1, "ins-count", "x", -1)]


class Nothing:
    """Takes the place of a method."""

    registers = 9

    def __init__(self, made: kinds.Lattice, told: list[Any]) -> None:
        self.kinds, self.told, self.classes = made, told, Hierarchy(Program())  # type: ignore[arg-type]  # (a stand-in)

    def report(self, *what: Any) -> None:
        self.told.append(what)

    def wrong(self, line: RegisterLine, register: int, *_: object) -> None:
        self.told.append(register)
        line[register] = kinds.ANY

    def wrong_pair(self, line: RegisterLine, register: int, *_: object) -> None:
        self.told.append(register)
        line[register] = line[register + 1] = kinds.ANY

    wrong_type = wrong


class Program:
    classes = ()


# ---- lines, forms, places


LISTED = b"""# a comment \x1b[31m
dex 035 listing 2

class LA; 0x1
  super   Ljava/lang/Object;
virtual v (I)V 0x401
direct m (Ljava/lang/String;I)V 0x9
  code 3 2 0
# before
      if-eqz  v2 :x
  move-object v0   v1
  goto :y
:x
  const/4 v0 1
:y
    add-int v0 v2  v0
    neg-int v1 v1
  return-void
end code
end class
"""


# ---- hostile files


def code(proto: str, sizes: str, body: str, name: str = "m") -> str:
    return f"direct {name} {proto} 0x9\ncode {sizes}\n{body}end code\n"


def of_class(text: str, name: str = "LA;") -> str:
    return f"dex 035 listing 2\nclass {name} 0x1\nsuper Ljava/lang/Object;\n{text}end class\n"


def hostile() -> Iterator[tuple[str, str, int | None, str]]:
    """What, a listing, the status, and the beginning of what is told."""
    far = (min((n * 7919 + 13) % 16000 + n // 16000 * 16000, 65535) for n in range(65535))
    many = "".join(f":L{n}\nif-eqz v0 :L{to if to != n else n + 1}\n" for n, to in enumerate(far))
    yield "65,535 branches", of_class(code("(I)V", "1 1 0", f"{many}:L65535\nreturn-void\n")), 0, "ok"
    body = "".join(f"const/16 v{n % 256} {n}\nmove/16 v{n} v{n % 256}\n" for n in range(256, 20000))
    yield "65,535 registers", of_class(code("()V", "65535 0 0", f"{body}return-void\n")), 0, "ok"
    body = "".join(f":L{n}\nif-eqz v0 :L{n + 2 - n % 2}\nmove/16 v{n + 2} v1\n" for n in range(8000))
    body = f"const/4 v0 0\nconst/4 v1 0\n{body}:L8000\n:L8001\nreturn-void\n"
    yield "registers by blocks", of_class(code("()V", "65535 0 0", body)), 3, "error: it has too many"
    ways = "".join(
        f":B{n}\nmove/from16 v{(n + 1) % 250} v{n % 250}\nint-to-short v{n * 3 % 16} v0\nif-eqz v0 :B"
        f"{n - 1 if n else 1}\n" for n in range(9000)
    )
    body = "".join(f"const/16 v{n} 0\n" for n in range(250))
    yield "deep joins", of_class(code("()V", "250 0 0", f"{body}goto/32 :B8999\n{ways}return-void\n")), None, ""
    tries = "".join(f":S{n}\ninvoke-static {{ }} LX;->m()V\nconst/16 v{n % 250} {n}\n" for n in range(5000))
    ends = "".join(f"try :S{n} :S{n + 1}\ncatchall :H\n" for n in range(5000))
    yield "tries", of_class(code("()V", "250 0 0", f"{tries}:S5000\n:H\nreturn-void\n{ends}")), 0, "ok"
    sets = ("const/16 v{} 300", 'const-string v{} "x"')
    calls = "".join("invoke-static { } LX;->m()V\n" + sets[n % 2].format(n % 9) + "\n" for n in range(10000))
    ends = "".join(f":H{n}\nreturn-void\n" for n in range(3000))
    ends += "try :S :E\n" + "".join(f"catch LX; :H{n}\n" for n in range(3000))
    yield "calls by handlers", of_class(code("()V", "9 0 0", f":S\n{calls}:E\nreturn-void\n{ends}")), 3, "error: it has"
    body = "".join(f"neg-int v0 v{n % 2 + 1}\n:L{n}\nif-eqz v0 :L{n + 1}\n" for n in range(5000))
    text = code("(LX;LX;)V", "3 2 0", f"{body}:L5000\nreturn-void\n")
    yield "a complaint at each place", of_class(text), 1, "error: v1 holds"
    text = "".join(code("(LX;)V", "1 1 0", "neg-int v0 v0\nreturn-void\n", f"m{n}") for n in range(10000))
    yield "a complaint in each method", of_class(text), 1, "error: v0 holds"
    up = "".join(f"class LC{n}; 0x1\nsuper LC{n - 1};\nend class\n" for n in range(1, 3000))
    text = code("(LC2999;)LC0;", "1 1 0", "return-object v0\n")
    yield "a long line of classes", of_class("", "LC0;") + up + of_class(text)[len("dex 035 listing 2\n") :], 0, "ok"
    evil = r"L\u2066\u061c;"
    text = code(f"({evil})V", "1 1 0", "neg-int v0 v0\nreturn-void\n", r"\u2067")
    yield "marks", of_class(text, evil), 1, r"holds a reference (\u2066\u061c, a parameter)"
    long = f"L{'m' * 60000};"
    yield "a long name", of_class(code(f"({long})V", "1 1 0", "neg-int v0 v0\nreturn-void\n"), long), 1, "mmm..."
    yield "names of commands", of_class(
        code("(La/$(touch;)V".replace("(touch", "touch"), "1 1 0", "neg-int v0 v0\n" "return-void\n")
    ), 1, "(a.$touch, a parameter)"


class LintCode(HelperTest):
    def test_rows(self) -> None:
        """Each rule: what breaks it is told, at its place and once, and what keeps it isn't."""
        at, rows = room("lint code"), [*enumerate(ROWS)]
        status, told, said = lint(listing(0, rows), at=at)
        self.check_equal("--code, wrong codes", (status, said), (1, ""))
        found: dict[str, list[tuple[str, int]]] = {}
        for one in told:
            found.setdefault(one["class"], []).append((one["rule"], one["instruction"]))
        for number, row in rows:
            seen = found.get(f"LT{number};")
            self.check_equal(f"--code {row}", seen, [(row[0], place_of(row))])
        status, told, said = lint(listing(1, rows), at=at)
        self.check_equal("--code, right codes", (status, said, told[0]["status"]), (0, "", "ok"))
        tried = [row[0] for row in ROWS]
        few = [rule for rule in RULES if tried.count(rule) < 3]
        self.check_equal("--code, three codes of each rule", few, EMPTY)

    def test_loops(self) -> None:
        """What is wrong is told in a loop too, to whose beginning the register comes back as one that was told of."""
        rows = [
            (number, (rule, head, f":again / {text[: -len(END)]} / goto/32 :again", *more))
            for number, (rule, head, text, *more) in enumerate(ROWS)
            if text.endswith(END) and text[0] != ":" and rule != "constructor-return"
        ]
        _, told, said = lint(listing(0, rows), at=room("lint loops"))
        found: dict[str, set[int]] = {}
        for one in told:
            found.setdefault(one["class"], set()).add(one["instruction"])
        self.check_equal("--code, loops", (len(rows), said), (Above(60), ""))
        for number, row in rows:
            self.check_equal(f"--code, a loop of {row}", found.get(f"LT{number};", ()), Has(place_of(row)))

    def test_fine(self) -> None:
        """What a device takes isn't told of."""
        rows = [(number, ("", head, text)) for number, (head, text) in enumerate(FINE)]
        status, told, said = lint(listing(1, rows), at=room("lint fine"))
        seen = [(one["class"], one["instruction"], one["why"]) for one in told if one["status"] != "ok"]
        self.check_equal("--code, codes that a device takes", (status, seen, said), (0, [], ""))

    def test_said(self) -> None:
        """What is said where a register is set on some ways, and where it is an array on some; of handlers and calls."""
        rows = [(number, ("", head, text)) for number, (head, text, _) in enumerate(SAID)]
        self.use_program()
        told = [one.text for one in lint_code.check_program(programs.Program.parse(listing(0, rows)))]
        self.check_equal("--code, sentences", told, [said for *_, said in SAID])

    def test_named(self) -> None:
        """Each such instruction takes the types that its name says, and no other ones, and answers that of its name."""
        made, count = all_kinds()[0], 0
        for mnemonic, takes, answers in named_insns():
            count += 1
            every = itertools.product(GIVEN, repeat=len(takes))
            seen = [given for given in every if is_taken(made, mnemonic, given, answers)]
            self.check_equal(f"--code, {mnemonic}", seen, [takes])
        self.check_equal("--code, instructions of arithmetic", count, 119)

    def test_laws(self) -> None:
        """The join is that of a lattice: no order of ways makes a difference, and a loop comes to an end."""
        made, every = all_kinds()
        join = made.join
        pairs, triples = [*itertools.product(every, repeat=2)], itertools.product(every, repeat=3)
        self.check_equal("kinds, idempotent", [one for one in every if join(one, one) is not one], [])
        self.check_equal("kinds, commutative",
                         [(one, two) for one, two in pairs if join(one, two) is not join(two, one)], [])
        wrong = [
            some for some in triples if join(join(some[0], some[1]), some[2]) is not join(some[0], join(*some[1:]))
        ]
        self.check_equal("kinds, associative", wrong, EMPTY)
        ups = {one: [two for two in every if join(one, two) is two] for one in every}
        self.check("kinds, no way is longer than ten", max(longest(one, ups) for one in every) <= 10)
        for low, high, joined in (
            ("zero", "reference", "reference"), ("zero", "null", "null"), ("constant", "float", "float"),
            ("int", "float", "conflict"), ("int", "reference", "conflict"), ("wide low", "long low", "long low"),
            ("long low", "double low", "conflict"), ("unset", "zero", "unset"), ("unset", "conflict", "unset"),
            ("unset", "new", "unset"), ("unset", "any", "any"), ("conflict", "any", "any"), ("new", "null", "conflict")
        ):
            first, second = (next(kind for kind in every if kind.base == base) for base in (low, high))
            self.check_equal(f"kinds, {low} and {high}", join(first, second).base, joined)
        types = [("LA;", "LD;", "LB;"), ("LA;", "LC;", "LC;"), ("LA;", "LE;", None), ("LA;", kinds.OBJECT, None)]
        seen = [join(made.ref(one), made.ref(two)).type for one, two, _ in types]
        self.check_equal("kinds, classes", seen, [both for *_, both in types])
        ranges = {one: kinds.constant(one).range for one in (1, 2, -1, 128, -129, 32768, 65536, -32769)}
        told = ["boolean", "0 to 127", "byte", "0 to 32767", "short", "char", "int", "int"]
        self.check_equal("kinds, ranges", ([*ranges.values()], kinds.constant(0) is kinds.ZERO), (told, True))

    def test_monotone(self) -> None:
        """What an instruction leaves only rises where what it takes does, unless something was told of the lower."""
        made, every = all_kinds()
        below = [(one, two) for one in every for two in every if made.join(one, two) is two]
        some = (kinds.ZERO, kinds.INT, kinds.LONG[1], kinds.WIDE[1], kinds.CONFLICT, kinds.ANY)
        seconds = [pair for pair in below if pair[0] in some and pair[1] in some]
        lines = [(low, high) for low, high in itertools.product(below, seconds)]
        for insn in insns():
            wrong = [line for line in lines if not rises(made, insn, *zip(*line))]
            self.check_equal(f"kinds, {insn} is monotone", wrong, EMPTY)

    def test_places(self) -> None:
        """Line and column of a listing as somebody wrote it, in both forms; of a file the instruction and its
        address."""
        at = room("lint places", {"a.txt": LISTED})
        status, out, said = tool("dexasm-lint", "--code", "a.txt", at=at)
        want = [
            "a.txt:16:20: error: v0 holds a reference (java.lang.String, from line 11) on one way to here and a constant "
            "(from line 14) on another, and add-int takes an int: set it alike on each way (ways-differ, B1, B7)",
            "a.txt:17:16: error: v1 holds a reference (java.lang.String, a parameter), and neg-int takes an int "
            "(register-kind, B1)",
        ]
        self.check_equal("--code, a listing", (status, out.splitlines(), said), (1, want, ""))
        put(at, "a.dex", assembled(LISTED))
        status, out, said = tool("dexasm-lint", "--code", "a.dex", at=at)
        member = "a.dex: LA;->m(Ljava/lang/String;I)V:"
        seen = [line.partition(" error: ")[0] for line in out.splitlines()]
        self.check_equal("--code, a file", seen, [f"{member} 4 (0x05):", f"{member} 5 (0x07):"])
        self.check_equal("--code, a file's ways", out, Has("from instruction 1) on one way", "from instruction 3)"))
        first = b"dex 035\nclass LA; 0x1\nsuper Ljava/lang/Object;\ndirect m ()V 0x9\ncode 1 0 0\n0: nop\n1:  neg-int v0 v0\n2: return-void\n"
        got = tool("dexasm-lint", "--code", "-", at=at, given=first + b"end code\nend class\n")
        self.check_equal("--code, the first form", got[:2], (1, Begins("standard input:7:16: error: ")))

    def test_forms(self) -> None:
        """JSON, SARIF, workers: each tells the same."""
        at = room("lint forms")
        status, told, said = lint(listing(0, [*enumerate(ROWS)]), at=at)
        plain = tool("dexasm-lint", "--code", "a.txt", at=at)[1].splitlines()
        lines = [
            f"a.txt:{one['line']}:{one['column']}: error: {one['why']} ({one['rule']}, {one['page']})" for one in told
        ]
        self.check_equal("--code, JSON and lines", plain, lines)
        seen: list[Any] = [one for one in told if one["page"] != RULES[one["rule"]] or not one["sentence"]]
        self.check_equal("--code, JSON's pages", (told, seen), (SOME, EMPTY))
        sarif = json.loads(tool("dexasm-lint", "--code", "--sarif", "a.txt", at=at)[1])["runs"][0]
        rules = [one["id"] for one in sarif["tool"]["driver"]["rules"]]
        regions = [one["locations"][0]["physicalLocation"]["region"] for one in sarif["results"]]
        seen = [
            (rules[one["ruleIndex"]], region["startLine"], region["startColumn"], one["message"]["text"])
            for one, region in zip(sarif["results"], regions)
        ]
        self.check_equal("--code, SARIF", seen, [(one["rule"], one["line"], one["column"], one["why"]) for one in told])
        self.check_equal("--code, SARIF's name", sarif["tool"]["driver"]["name"], "dexasm-lint")
        for env in (dict[str, str](), library()):
            got = tool("dexasm-lint", "--code", "--jobs", "3", "a.txt", "a.txt", at=at, **env)
            self.check_equal(f"--code --jobs 3 {env}", (got[0], got[1].splitlines()), (1, plain * 2))
        put(at, "a.dex", assembled(listing(0, [*enumerate(ROWS)]).encode()))
        sarif = json.loads(tool("dexasm-lint", "--code", "--sarif", "a.dex", at=at)[1])["runs"][0]["results"]
        names = [one["locations"][0]["logicalLocations"][0]["fullyQualifiedName"] for one in sarif]
        seen = [(name, one["message"]["text"].partition(" (0x")[0]) for name, one in zip(names, sarif)]
        want: list[tuple[str | None, ...]] = [("t(ILjava/lang/String;)V", "instruction 0"), ("t(F)V", "instruction 0")]
        self.check_equal("--code, SARIF of a file", (seen[:2], len(seen)), (want, len(ROWS)))
        puts(at, {
            "b.txt": HEAD + b"class LA; 0x10000\nsuper LB;\nend class\n",
            "c.txt": HEAD + b"class LA; 0x1\nsuper LB;\nend class\n"
        })
        status, out, said = tool("dexasm-lint", "--code", "--json", "none", "b.txt", "c.txt", at=at)
        seen = [(one["file"], one["status"], one["rule"]) for one in map(json.loads, out.splitlines())]
        want = [("none", "failed", None), ("b.txt", "broken", "class-flags"), ("c.txt", "ok", None)]
        self.check_equal("--code, files", (status, seen, said.count("\n")), (3, want, 1))
        for words in (("--jobs", "0"), ("--jobs",), ("--json", "--sarif"), ("--cod",)):
            got = tool("dexasm-lint", *words, "c.txt", at=at)
            self.check_equal(words, got, (2, "", Has("usage: ")))

    def test_hostile(self) -> None:
        """None takes long, and no line has what a terminal obeys."""
        at = room("lint hostile code")
        for what, text, wanted, begin in hostile():
            put(at, "a.txt", text.encode())
            spent = os.times()
            status, out, said = tool("dexasm-lint", "--code", "a.txt", at=at)
            taken = os.times().children_user - spent.children_user
            ends = Either(0, 3) if wanted is None else wanted
            self.check_equal(f"--code, {what}", (status, out, said), (ends, Has(begin), ""))
            most = 10000 if "each method" in what else 5
            self.check_equal(f"--code, {what}: lines",
                             (out.count("\n") <= most, out[:-1].replace("\n", "").isprintable(),
                              [line for line in out.splitlines() if len(line) >= 600]),
                             (True, True, []))
            self.check_equal(f"--code, {what}: seconds", taken, Below(20))
        put(at, "a.dex", assembled([text for what, text, *_ in hostile() if what == "marks"][0].encode()))
        out = tool("dexasm-lint", "--code", "a.dex", at=at)[1]
        self.check_equal("--code, marks of a file", out, Begins(r"a.dex: L\u2066\u061c;->\u2067(L\u2066"))
        puts(at, {"bad.txt": HEAD + b"class LA; 0x1\nbad\n", ESC: HEAD + b"class LA; 0x1\nsuper LB;\nend class\n"})
        status, out, said = tool("dexasm-lint", "--code", "bad.txt", ESC, at=at)
        self.check_equal("--code, a file that is refused", (status, out, said),
                         (1, "\\x1b: ok\n", "dexasm-lint: bad.txt: dexasm: refused 100 Word at 3\n"))

    def test_seconds(self) -> None:
        """--seconds ends each worker, and the other files go on."""
        at = room("lint seconds")
        body = "add-int/lit8 v0 v0 1\n" * 2000
        methods = (f"direct m ()V 0x9\ncode 1 0 0\nconst v0 {n}\n{body}return-void\nend code\n" for n in range(60))
        text = "".join(f"class L{n}; 0x1\nsuper Ljava/lang/Object;\n{one}end class\n" for n, one in enumerate(methods))
        puts(at, {"a.txt": HEAD + text.encode(), "b.txt": HEAD + b"class LA; 0x1\nsuper LB;\nend class\n"})
        for jobs in ("1", "3"):
            seen = tool("dexasm-lint", "--code", "--seconds", "0.05", "--jobs", jobs, "a.txt", "b.txt", at=at)
            want = (3, "b.txt: ok\n", "dexasm-lint: a.txt: it takes longer than --seconds\n")
            self.check_equal(f"--code --jobs {jobs}, a file that takes long", seen, want)
            seen = tool("dexasm-lint", "--code", "--jobs", jobs, "a.txt", at=at)
            self.check_equal(f"--code --jobs {jobs}, the same with time", seen, (0, "a.txt: ok\n", ""))

    def test_killed(self) -> None:
        """A worker that is killed or out of memory is a line, and ends no other file."""
        told = [[0, 0, -1, "ins-count", "x", -1]]
        for how, want in ((None, told), (signal.SIGKILL, "its worker was killed"), (signal.SIGPROF, SAYS["time"])):
            worker = pool.Worker(Crashing(how), [(0, 1), (1, 2)], 60)  # type: ignore[arg-type]  # (a stand-in)
            seen = [[*one] for one in worker.result()]
            self.check_equal("the first part", seen, told)
            try:
                rest: object = [[*one] for one in worker.result()]
            except CliError as failed:
                rest = failed.line
            worker.stop()
            self.check_equal(f"the second one, {how}", rest, want)

    def test_boot(self) -> None:
        """A class that the boot class path has too is taken as the file has it, and with --skip-boot as if it weren't
        there.
        """
        is_boot = dict.fromkeys(("Ljava/util/Timer;", "Ljavax/net/B;", "Landroid/app/A;", "Ldalvik/a/B;"), True)
        is_boot |= dict.fromkeys(("Lorg/json/A;", "Lorg/w3c/dom/A;", "Lorg/xml/sax/a/B;", "Lsun/misc/A;"), True)
        is_boot |= dict.fromkeys(("Landroid/support/a/B;", "Landroidx/a/B;", "Ljavassist/A;", "Lorg/jsonx/A;"), False)
        is_boot |= dict.fromkeys(("Ljavax/inject/A;", "Landroid/databinding/A;", "Landroid/arch/A;"), False)
        is_boot |= dict.fromkeys(("La/Ljava/util/A;", "Ljava;", "Lsun;"), False)
        wrong = code("(F)V", "1 1 0", "neg-int v0 v0\nreturn-void\n")
        shadows = "".join(of_class(wrong, name).partition("\n")[2].replace("0x1\n", "0x401\n", 1) for name in is_boot)
        at, text = room("lint boot"), of_class("") + shadows
        for number, name in enumerate(is_boot):
            made = code("()V", "1 0 0", f"new-instance v0 {name}\nreturn-void\n")
            text += of_class(made, f"LM{number};").partition("\n")[2]
        both = {(name, "register-kind") for name in is_boot} | {(f"LM{at};", "new-type") for at in range(len(is_boot))}
        kept = {(name, "register-kind") for name, is_so in is_boot.items() if not is_so}
        kept |= {(f"LM{at};", "new-type") for at, is_so in enumerate(is_boot.values()) if not is_so}
        for words, want in (((), both), (("--skip-boot",), kept), (("--skip-boot", "--jobs", "2"), kept)):
            status, told, said = lint(text, *words, at=at)
            seen = {(one["class"], one["rule"]) for one in told}
            self.check_equal(f"--code {words}, the boot class path", (status, seen, said), (1, want, ""))

    def test_shared(self) -> None:
        """A code that methods share is judged once for each signature, and told of in each method."""
        self.use_program()
        same = "code 1 1 1\nneg-int v0 v0\nreturn-void\nend code\n"
        asks = "code 1 1 1\ninvoke-direct { v0 } LQ;->p()V\nreturn-void\nend code\n"
        text = HEAD.decode()
        for name in ("LA;", "LB;", "LC;"):
            text += f"class {name} 0x1\nsuper Ljava/lang/Object;\n"
            text += "".join(f"direct {m} {proto} 0x9\n{same}" for m in "mn" for proto in ("(F)V", "(I)V"))
            text += f"direct o (LQ;)V 0x9\n{asks}"
            text += "".join(f"virtual {m} ()V 0x1\n{same}" for m in "vw") + "end class\n"
        program, looked = programs.Program.parse(text), list[str]()

        class Counted(verify.Method):
            def check(self) -> list[verify.Violation]:
                looked.append(f"{'' if self.is_static else self.class_name}{self.parameters}")
                return super().check()

        vars(lint_code)["Method"] = Counted
        try:
            told = [*lint_code.check_program(program)]
        finally:
            vars(lint_code)["Method"] = verify.Method
        self.check_equal("--code, codes that are shared", len(looked), 1 + 1 + 3 + 3)
        seen = [(one.row, program.classes[one.row].methods[one.method].signature, one.rule) for one in told]
        wrong = [("m(F)V", "register-kind"), ("n(F)V", "register-kind"), ("v()V", "register-kind")]
        want = [(row, *one) for row in range(3) for one in (*wrong, ("w()V", "register-kind"))]
        self.check_equal("--code, methods that share codes", seen, want)

    def test_bounds(self) -> None:
        """A method beyond what is looked at isn't called right."""
        self.use_program()
        program = programs.Program.of_listing(dexasm("list", given=assembled(LISTED)).decode("ascii"))
        for bounds in (("MOST_WORK", "MOST_EACH"), ("MOST_CELLS",)):
            kept = {name: getattr(dataflow, name) for name in bounds}
            try:
                vars(dataflow).update(dict.fromkeys(bounds, 1))
                told = [one.rule for one in lint_code.check_program(program)]
            finally:
                vars(dataflow).update(kept)
            self.check_equal(f"--code, bounds {bounds}", told, [lint_code.UNREAD])

    def test_page(self) -> None:
        """docs/VERIFIERS.md and the help have each rule of code, the page with its numbers, and no other; each is
        tried."""
        helped = re.findall(r"^  ([a-z][a-z-]+)  ", tool("dexasm-lint", "--help")[1].partition("With --code")[2], re.M)
        rows = re.findall(r"^\| ([AB]\d.*?|code_item) \| (`.*`) \|$", get(TOP, "docs/VERIFIERS.md").decode(), re.M)
        rules = RULES
        self.check_equal("the help has each rule of code", helped, [*rules])
        numbers = {word: number for number, words in rows for word in re.findall("[a-z-]+", words)}
        self.check_equal("VERIFIERS has each rule of code", numbers, rules)
        tried = {row[0] for row in ROWS}
        self.check_equal("each rule of code is tried", tried, {*rules})
