"""The lines of a listing as somebody wrote it, with the numbers of lines and columns: for diagnostics.py.

What is read was found of a listing's form (docs/LISTING.md) by the library, but for the last line where that one is
refused; so nothing is judged here. A word keeps its column, and its quotes where it is a text.
"""
from __future__ import annotations

import re
from bisect import bisect_right
from collections.abc import Iterable, Iterator
from dataclasses import dataclass, field
from typing import NamedTuple

from dexasm.formats import Format, format_of
from dexasm.names import spelled, unquoted, unspelled

PAYLOADS = ("packed-switch-payload", "sparse-switch-payload", "array-payload")
_WORD = re.compile(r'"(?:[^"\\]|\\.)*"|[^ ]+')


class Kind(NamedTuple):
    """What a word has to be. `size` is how many bits a number or the number of a register has, or how many hexadecimal
    digits there are.
    """

    name: str
    size: int = 0
    is_signed: bool = False


_TARGET, _COUNT, _INT = Kind("target"), Kind("number", 16), Kind("number", 32, True)
# What follows the first word of a line that is no instruction.
MEMBERS = {
    "static": ("NAME", "TYPE", "FLAGS"),
    "instance": ("NAME", "TYPE", "FLAGS"),
    "direct": ("NAME", "PROTOTYPE", "FLAGS"),
    "virtual": ("NAME", "PROTOTYPE", "FLAGS"),
}
KEYWORDS = {"class": ("TYPE", "FLAGS"), "super": ("TYPE",), "implements": ("TYPE",), "source": ("TEXT",), **MEMBERS}
KEYWORDS |= {"code": ("REGISTERS", "INS", "OUTS"), "try": (":FROM", ":TO"), "catch": ("TYPE", ":LABEL")}
KEYWORDS |= {"catchall": (":LABEL",)}
_KINDS = {name.upper(): Kind(name) for name in ("name", "type", "text", "field", "method")}
_KINDS |= {"PROTOTYPE": Kind("proto"), "FLAGS": Kind("number", 32)}
_KINDS |= {**dict.fromkeys(KEYWORDS["code"], _COUNT), **dict.fromkeys((":FROM", ":TO", ":LABEL"), _TARGET)}
VALUES = {"byte": Kind("number", 8, True), "short": Kind("number", 16, True), "char": _COUNT, "int": _INT}
VALUES |= {"long": Kind("number", 64, True), "float": Kind("digits", 8), "double": Kind("digits", 16)}
VALUES |= {name: Kind(name.replace("string", "text")) for name in ("string", "type", "field", "method")}
VALUES |= {"enum": Kind("field")}


class Word(NamedTuple):
    text: str
    column: int  # from 1


class Line(NamedTuple):
    number: int  # from 1
    words: tuple[Word, ...]  # of an instruction of the first form without its number

    @property
    def key(self) -> str:
        return self.words[0].text if self.words else ""


class Diagnostic(NamedTuple):
    """A line where something is wrong, the word if it is one, and why."""

    line: Line
    word: Word | None = None
    why: str = ""


class Slot(NamedTuple):
    """A word that says something, and what it has to be."""

    word: Word
    kind: Kind


@dataclass
class Try:
    line: Line
    handlers: list[Line] = field(default_factory=list)


@dataclass
class Code:
    head: Line
    end: int = 0  # the number of its last line, 0 where it isn't read
    insns: list[Line] = field(default_factory=list)
    tries: list[Try] = field(default_factory=list)
    labels: dict[str, int] = field(default_factory=dict)

    def add(self, line: Line) -> None:
        if line.key[:1] == ":":
            self.labels[line.key] = len(self.insns)
        elif line.key == "try":
            self.tries.append(Try(line))
        elif line.key not in ("catch", "catchall"):
            self.insns.append(line)
        elif self.tries:
            self.tries[-1].handlers.append(line)

    def place(self, word: Word) -> int:
        """The number of the instruction to which a target leads, that of the end is one more than the last's."""
        return number_of(word.text[1:]) if word.text[0] == "@" else self.labels[word.text]

    def is_payload(self, place: int) -> bool:
        return self.insns[place].key in PAYLOADS


@dataclass
class Member:
    line: Line
    code: Code | None = None


@dataclass
class Class:
    head: Line
    end: int = 0
    above: list[Line] = field(default_factory=list)  # superclass, interfaces, source file
    members: list[Member] = field(default_factory=list)

    def codes(self) -> Iterator[Code]:
        return (member.code for member in self.members if member.code is not None)

    def member_at(self, number: int) -> Member | None:
        """The member that has a line."""
        for member in [member for member in self.members if member.line.number <= number][-1:]:
            if number == member.line.number or member.code is not None and not 0 < member.code.end < number:
                return member
        return None

    def lines(self) -> Iterator[Line]:
        """Each line that names something."""
        yield from (self.head, *self.above)
        for member in self.members:
            yield member.line
            if member.code is not None:
                yield from member.code.insns
                yield from (handler for one in member.code.tries for handler in one.handlers)


class Listing:
    def __init__(self, data: bytes) -> None:
        self.rows = data.split(b"\n")
        rows = (row.split() for row in self.rows if row.strip(b" ") and row.lstrip(b" ")[:1] != b"#")
        first: list[bytes] = next(rows, [])
        self.is_first_form = first[2:] != [b"listing", b"2"]
        # The number of the line with which each class begins.
        self.heads = [at for at, row in enumerate(self.rows, 1) if row.lstrip(b" ")[:6] == b"class "]

    def text(self, number: int) -> str:
        """A line's characters; bytes that are none stand as surrogates."""
        return self.rows[number - 1].decode("utf8", "surrogateescape")

    def words(self, number: int) -> list[Word]:
        return [Word(word[0], word.start() + 1) for word in _WORD.finditer(self.text(number))]

    def line(self, number: int) -> Line:
        words = self.words(number)
        if words and words[0].text[:1] == "#":
            words = []
        has_number = self.is_first_form and len(words) > 1 and words[0].text[-1] == ":"
        return Line(number, tuple(words[1:] if has_number else words))

    def is_first(self, number: int) -> bool:
        """Whether no line before this one has words."""
        return not any(self.line(other).words for other in range(1, number))

    def index_at(self, number: int) -> int:
        """The number of the class that has a line, from 0."""
        return bisect_right(self.heads, number) - 1

    def class_at(self, index: int, last: int | None = None) -> Class | None:
        """The class of this number from 0, up to its end or to a line."""
        return self._class(self.heads[index], last) if 0 <= index < len(self.heads) else None

    def classes(self) -> Iterator[Class]:
        return map(self._class, self.heads)

    def _class(self, head: int, last: int | None = None) -> Class:
        result, code = Class(self.line(head)), None
        for number in range(head + 1, (last or len(self.rows)) + 1):
            line = self.line(number)
            if line.key == "end":
                if code is None:
                    result.end = number
                    break
                code.end, code = number, None
            elif code is not None and line.words:
                code.add(line)
            elif line.key in MEMBERS:
                result.members.append(Member(line))
            elif line.key == "code" and result.members:
                code = result.members[-1].code = Code(line)
            elif line.words:
                result.above.append(line)
        return result


def number_of(text: str) -> int:
    """The number that a word says."""
    sign, digits = ("-", text[1:]) if text[:1] == "-" else ("", text)
    base = 16 if digits[:2] == "0x" else 10
    return int(sign + (digits[2 * (base == 16) :].lstrip("0") or "0"), base)


def register_of(word: Word) -> int:
    return number_of(word.text[1:])


def decoded(word: Word) -> str:
    """The name, the type or the text that a word says."""
    return unquoted(word.text) if word.text[0] == '"' else unspelled(word.text)


def short_name(name: str) -> str:
    """A name for a message: as a listing spells it, the beginning of a long one."""
    word = spelled(name)
    return word if len(word) <= 60 else f"{word[:57]}..."


def plural(count: int, noun: str) -> str:
    return f"{count} {noun}" + "s" * (count != 1)


def operands(form: Format) -> list[tuple[str, Kind]]:
    """What follows a mnemonic, but for registers in braces, in the listing's order: each with its name in messages."""
    found = [(f"v{'ABC'[at]}", Kind("register", bits)) for at, bits in enumerate(form.registers)]
    found += [("count", Kind("number", 8))] * form.is_range
    found += [("number", Kind("number", form.literal, True))] * (form.literal > 0)
    found += [(":LABEL", _TARGET)] * (form.target > 0)
    return found + [(form.name.upper(), Kind(form.name))] * (form.name != "")


def slots(line: Line) -> list[Slot]:
    """What the words of a line have to be; those that are neither names, numbers nor texts are left out."""
    words, key, form = line.words[1:], line.key, format_of(line.key)
    kinds: Iterable[Kind] = ()
    if key[:1] == ":":
        words, kinds = line.words[:1], (Kind("label"),)
    elif key in KEYWORDS:
        found = [Slot(word, _KINDS[label]) for word, label in zip(words, KEYWORDS[key])]
        return found + [Slot(word, VALUES[kind.text]) for kind, word in _pairs(words[4:])]
    elif key == "array-payload":
        kinds = _COUNT, Kind("bytes")
    elif key in PAYLOADS:
        kinds = (_INT, *[_TARGET] * len(words)) if key == PAYLOADS[0] else (_INT, _TARGET) * len(words)
    elif form is not None:
        kinds = [kind for _, kind in operands(form)]
        if form.is_list:
            end = next((at for at, word in enumerate(words) if word.text == "}"), 0)
            kinds = [Kind("register", 4)] * (end - 1) + [*kinds]
            words = words[1:end] + words[end + 1 :]
    return list(map(Slot, words, kinds))


def _pairs(words: tuple[Word, ...]) -> Iterator[tuple[Word, Word]]:
    """The kind and the operand of each value in these words."""
    rest = iter(words)
    for word in rest:
        if word.text in VALUES and (operand := next(rest, None)) is not None:
            yield word, operand


def registers(line: Line) -> list[Word]:
    """The words of an instruction that name registers."""
    return [slot.word for slot in slots(line) if slot.kind.name == "register"]
