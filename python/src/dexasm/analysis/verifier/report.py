"""What is wrong in a program, for dexasm-lint and dexasm-check --lint: from a file to lines, with the place of what is
wrong in its code in the listing where one was given.
"""
from __future__ import annotations

import re
from collections.abc import Iterator
from hashlib import blake2b
from itertools import accumulate
from typing import TYPE_CHECKING, Any, NamedTuple

from dexasm.analysis.verifier.dataflow import TooMuch
from dexasm.analysis.verifier.hierarchy import BOOT, Hierarchy
from dexasm.analysis.verifier.lattice import NO_ARRAY, Lattice, RegType
from dexasm.analysis.verifier.method import MOST_REPORTED, Method, Violation
from dexasm.analysis.verifier.rules import PAGES, SENTENCES
from dexasm.analysis.verifier.structure_rules import STATIC, violations
from dexasm.analysis.xref import reread
from dexasm.cli.sanitize import LONGEST
from dexasm.cli.verdict import Verdict
from dexasm.names import spelled, type_of

if TYPE_CHECKING:
    from dexasm import classes as members
    from dexasm.code import Code
    from dexasm.listing import source as listed
    from dexasm.program import Program

UNREAD = "unread"  # in place of a rule: the method wasn't looked at to its end
TOO_MUCH = "it has too many registers and paths to be checked"
MARKED = re.compile(r"`(=?)([^`]*)`")


class Finding(NamedTuple):
    """What is wrong at an instruction of a method, both by number; the place is -1 where it is all of the method. In
    the text types, with a = as a listing has them, and places stand in backquotes.
    """

    row: int
    method: int
    place: int
    rule: str
    text: str
    register: int


# ---- in words

DESCRIPTIONS = {
    "zero": "0",
    "null": "null",
    "constant": "a constant",
    "float": "a float",
    "reference": "a reference",
    "new": "a new object",
    "this": "the object under construction",
    "long": "half of a long",
    "double": "half of a double",
    "wide": "half of a constant of 64 bits",
    "conflict": "one kind on one way to here and another one on another",
    "unset": "nothing",
}


def describe(kind: RegType, *more: str) -> str:
    """A kind in words, in brackets its type and more that is known."""
    text = DESCRIPTIONS.get(kind.base.partition(" ")[0], "")
    if kind.base == "int":
        text = "an int" if kind.range == "int" else f"a {kind.range}"
        text = f"an int from {kind.range}" if " " in kind.range else text
    known = [f"`{kind.type}`"] if kind.type and kind.base != "this" else []
    known += more
    return f"{text} ({', '.join(known)})" if known else text


def describe_origin(way: tuple[int, RegType], kind: RegType | None = None) -> str:
    """What a way brings, and from where."""
    place, brought = way
    return describe(kind or brought, f"from `{place}`" if place >= 0 else "a parameter")


def held_text(wrong: Violation) -> str:
    """What the register of a complaint holds."""
    register, ways = f"v{wrong.register}", sorted(wrong.ways, key=lambda way: way[1].base == "unset")
    if wrong.kind.base == "unset" and len(ways) < 2:
        return f"{register} isn't set on any way to here"
    if wrong.kind.base not in ("unset", "conflict") and not (wrong.kind is NO_ARRAY and len(ways) == 2):
        return f"{register} holds {describe_origin(ways[0], wrong.kind) if ways else describe(wrong.kind)}"
    if len(ways) < 2:
        return f"{register} holds {describe(wrong.kind)}"
    if ways[1][1].base == "unset":
        return f"{register} is set on one way to here, to {describe_origin(ways[0])}, and not on another"
    return f"{register} holds {describe_origin(ways[0])} on one way to here and {describe_origin(ways[1])} on another"


def sentence(wrong: Violation, mnemonic: str) -> str:
    """What is wrong, and what to do where that is plain."""
    if wrong.register < 0 or wrong.rule == "constructor-call":
        return wrong.text
    register, state = wrong.register, held_text(wrong)
    if wrong.rule == "pair-broken" and not wrong.kind.base.endswith(("low", "high")):
        state = f"v{register - 1} and v{register} are no pair any more: {state}"
    if wrong.rule == "return-range" and wrong.kind.base == "constant":
        return f"{state}, and the method answers {wrong.text}: write a constant of its range"
    if wrong.rule == "return-range":
        mend = "and-int/lit8 with 1" if wrong.text == "a boolean" else f"int-to-{wrong.text[2:]}"
        return f"{state}, and the method answers {wrong.text}: {mend} makes it one"
    end = f"{mnemonic} takes {wrong.text}"
    if wrong.rule == "uninitialized-use":
        owner = "" if wrong.kind.base == "this" else f"`={wrong.kind.type}`->"
        return f"{state}, and {end}: first call invoke-direct {{ v{register} .. }} {owner}<init>"
    if wrong.rule == "register-unset" or wrong.rule == "ways-differ":
        return f"{state}, and {end}: set it alike on each way"
    if wrong.rule in ("receiver-type", "argument-type", "stored-type", "return-type", "throw-type"):
        return f"{state}, and {end}: if it is one, a check-cast before says so"
    return f"{state}, and {end}"


# ---- the methods


Found = tuple[int, str, str, int]  # place, rule, text and register, as Told has them


class Checker:
    """A program, whose methods are looked at by class. A code that several methods have is looked at once for each
    signature, and once for each class where its own class makes a difference.
    """

    def __init__(self, program: Program, is_boot_skipped: bool = False) -> None:
        self.is_boot_skipped = is_boot_skipped
        self.classes = Hierarchy(program, self.is_skipped)
        self.kinds = Lattice(self.classes.parents)
        self.program = program
        self.known: dict[tuple[bytes, str], tuple[Found, ...]] = {}  # by code and signature, and by class or ""

    def is_skipped(self, name: str) -> bool:
        return self.is_boot_skipped and BOOT.match(name) is not None

    def check(self, row: int) -> Iterator[Finding]:
        one = self.program.classes[row]
        if self.is_skipped(one.name):
            return
        for at, method in enumerate(one.methods):
            if method.code is not None:
                for found in self.check_method(one, method, method.code):
                    yield Finding(row, at, *found)

    def check_method(self, one: members.Class, method: members.Method, code: Code) -> tuple[Found, ...]:
        """What is wrong in a method that has this code."""
        kind = "static" if method.flags & STATIC else "init" if method.name == "<init>" else ""
        text = str(code)
        identity = f"{kind}{method.proto}\n{text}".encode("utf-8", "surrogatepass")
        key = blake2b(identity, digest_size=16).digest()
        known = self.known.get((key, ""), self.known.get((key, one.name)))
        if known is None:
            checked = Method(self.classes, self.kinds, one, method, code.of_text(text))
            known = (*method_findings(checked),)
            self.known[key, one.name if checked.is_owner_asked else ""] = known
        return known


def method_findings(method: Method) -> Iterator[Found]:
    """What is wrong in a method, in words."""
    try:
        found = method.check()
    except TooMuch:
        yield -1, UNREAD, TOO_MUCH, -1
        return
    for number, wrong in enumerate(found[:MOST_REPORTED], 1):
        text = sentence(wrong, method.insns[wrong.place].mnemonic if wrong.place >= 0 else "")
        if number == MOST_REPORTED < len(found):
            text += f"; {len(found) - MOST_REPORTED} more in this method"
        yield wrong.place, wrong.rule, text, wrong.register


def check_program(program: Program, is_boot_skipped: bool = False) -> Iterator[Finding]:
    """What is wrong in the code of a program, in the order of its classes, maybe without those whose names the boot
    class path has.
    """
    checker = Checker(program, is_boot_skipped)
    for row in range(len(program.classes)):
        yield from checker.check(row)


# ---- where it is


class Places:
    """Names the places of what is told: lines of the listing that was given, or else instructions."""

    def __init__(self, path: bytes, kind: str, program: Program, listing: bytes | None) -> None:
        from dexasm.listing import source

        self.listed = source
        self.path, self.kind, self.program = path, kind, program
        self.read = source.Listing(listing) if listing is not None else None
        self.row = -1  # of the class that was looked at last, its methods, and their codes as the listing has them
        self.methods: tuple[Any, ...] = ()
        self.codes: dict[tuple[str, str, str], listed.Code] = {}
        self.text, self.units = "", list[int]()  # of the code whose addresses were asked for last

    def open(self, row: int) -> None:
        decoded = self.listed.decoded
        one = self.program.classes[row]
        self.row, self.methods = row, one.methods
        read = self.read.class_at(row) if self.read else None
        self.codes = {}
        for member in read.members if read else ():
            line, code = member.line, member.code
            if code is not None:
                self.codes[line.key, decoded(line.words[1]), decoded(line.words[2])] = code

    def verdict(self, finding: Finding) -> Verdict:
        if self.row != finding.row:
            self.open(finding.row)
        one, method = self.program.classes[finding.row], self.methods[finding.method]
        key = "direct" if finding.method < len(one.directs) else "virtual"
        lines = self.codes.get((key, method.name, method.proto))
        line = column = address = None
        if lines is not None:
            at = lines.insns[finding.place] if finding.place >= 0 else lines.head
            line, column = at.number, self.column(at, finding.register)
        elif finding.place >= 0:
            address = self.addresses(method.code)[finding.place]
        return Verdict(
            self.path,
            "",
            self.kind,
            "failed" if finding.rule == UNREAD else "broken",
            line=line,
            column=column,
            class_=spelled(one.name),
            member=spelled(method.signature),
            instruction=finding.place if finding.place >= 0 else None,
            why=MARKED.sub(lambda found: self.named(found, lines), finding.text),
            rule=None if finding.rule == UNREAD else finding.rule,
            page=PAGES.get(finding.rule),
            register=finding.register if finding.register >= 0 else None,
            address=address,
        )

    def addresses(self, code: Code) -> list[int]:
        """Those of a code's instructions. The last code's are kept: methods that share one are told of alike."""
        text = str(code)
        if text != self.text:
            self.text, self.units = text, [*accumulate((insn.units for insn in reread(code).insns), initial=0)]
        return self.units

    def named(self, found: re.Match[str], lines: listed.Code | None) -> str:
        """A type or a place in words."""
        if found[2].isdecimal():
            at = int(found[2])
            return f"instruction {at}" if lines is None else f"line {lines.insns[at].number}"
        type_ = type_of(found[2])
        return self.listed.short_name(type_ if found[1] else type_.pretty)

    def column(self, line: listed.Line, register: int) -> int:
        """That of the register, as what is read and not what is written; of the second of a pair that of the first."""
        words = {self.listed.register_of(word): word for word in self.listed.registers(line)}
        return (words.get(register) or words.get(register - 1) or line.words[0]).column


def member_of(verdict: Verdict) -> list[str]:
    """The class and, where it is known, the member, as a listing spells them."""
    return [word for word in (verdict.class_, verdict.member) if word]


def code_findings(
    path: bytes, kind: str, data: bytes, program: Program, found: Iterator[Finding] | None = None
) -> Iterator[Verdict]:
    """What is wrong in the code of a file: what was found, or is found here."""
    places = Places(path, kind, program, data if kind == "listing" else None)
    return map(places.verdict, check_program(program) if found is None else found)


def structure_findings(path: bytes, kind: str, program: Program) -> Iterator[Verdict]:
    """Which rules of files a program breaks: each as the help of dexasm-lint has it, and by what."""
    for one in program.classes:
        for member, rule, by in violations(one):
            known = Verdict(path, "", kind, "broken", rule=rule, page=PAGES[rule])
            name, why = member and spelled(member), f"{SENTENCES[rule]}: {by}"
            yield known._replace(class_=spelled(one.name), member=name, why=why)


def format_line(name: str, verdict: Verdict, error: str = "error:") -> str:
    """A line for people: where the listing was given its line, otherwise the member and the instruction."""
    member = "->".join(word if len(word) <= LONGEST else f"{word[:LONGEST]}..." for word in member_of(verdict))
    at = f"{name}: {member}"
    if verdict.line is not None:
        at = f"{name}:{verdict.line}:{verdict.column}"
    elif verdict.instruction is not None:
        at += f": {verdict.instruction} (0x{verdict.address:02x})"
    end = f"({verdict.rule}, {verdict.page})" if verdict.rule else f"(in {member})"
    return f"{at}: {error} {verdict.why} {end}"
