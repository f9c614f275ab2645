"""The lines of a class's members as the listing has them, as HTML in which each name is a link to its definition, and
what these lines use, noted as they are made. The text of the elements is the listing's, character by character.

Names stand in the words of the listing, so all is ASCII: what a browser could obey is an escape there."""
from __future__ import annotations

import functools
from array import array
from collections.abc import Callable, Iterator
from typing import TYPE_CHECKING, Any

from dexasm import names
from dexasm.analysis.xref import CLASS_IN, Xref, reread
from dexasm.pages.markup import as_html
from dexasm.pages.templates import Markup, joined, part

if TYPE_CHECKING:
    from dexasm.classes import Field, Method, Value
    from dexasm.code import Insn, Label, Try

    Users = dict[Any, array[int]]  # by a number or a name
    Named = tuple[Markup, Users, int | str]

STRINGS_A_PAGE = 500


def spelled(name: str) -> Markup:
    return as_html(names.spelled(name))


@functools.lru_cache(maxsize=4096)
def literal(value: int | str) -> Markup:
    return part("literal")(value)


class CodeRenderer:
    """Makes the lines of members, and notes who uses what. Links are those of a page beside the classes' pages."""

    def __init__(self, xref: Xref) -> None:
        self.uses = xref
        self.names: dict[str, Named] = {}  # each name's HTML, and where its users are noted
        self.mnemonics: dict[str, tuple[Markup, str, str, bool]] = {}
        self.strings: dict[str, int] = {}  # each string's number, in the order in which they are met
        # The users of each member, class and string, and of each name that the program doesn't define: the number of a
        # method in the upper 32 bits, and that of an instruction.
        self.of_member: dict[int, array[int]] = {}
        self.of_class: dict[int, array[int]] = {}
        self.of_string: dict[int, array[int]] = {}
        self.of_other: dict[str, array[int]] = {}
        # Of each method the methods of the program that it calls, how often, and how many calls lead out of it; and how
        # many instructions it has.
        self.calls: dict[int, dict[int, int]] = {}
        self.calls_outside: dict[int, int] = {}
        self.insns: dict[int, int] = {}

    # ---- names

    def type_(self, name: str) -> Markup:
        row = self.uses.rows.get(name)
        return spelled(name) if row is None else part("link")(f"{row}.html", spelled(name))

    def types(self, text: str) -> Markup:
        """A type or a prototype."""
        return joined("", (self.type_(one) if one[:1] == "L" else one for one in CLASS_IN.split(text)))

    def name(self, name: str) -> Named:
        """A type, a field or a method: as HTML, where it is noted, and as what."""
        found = self.names.get(name)
        if found is None:
            found = self.names[name] = self.member(name) if "->" in name else self.class_(name)
        return found

    def class_(self, name: str) -> Named:
        row = self.uses.rows.get(name.lstrip("["))
        if row is None:
            return self.types(name), self.of_other, str(name)
        return self.types(name), self.of_class, row

    def member(self, name: str) -> Named:
        owner, _, signature = name.partition("->")
        number = self.uses.resolve(owner, signature)
        cut = signature.find("(") if "(" in signature else signature.find(":")
        to = ""
        if number is not None:
            row, at = self.uses.place(number)
            to = f"{row}.html#{at}"
        html = part("owner_member")(self.types(owner), to, spelled(signature[:cut]), self.types(signature[cut:]))
        if number is None:
            return html, self.of_other, str(name)
        return html, self.of_member, number

    def text(self, text: str, user: int, place: int) -> Markup:
        """A string, as a link to where it is used."""
        number = self.strings.setdefault(text, len(self.strings))
        note(self.of_string, number, user << 32 | place)
        to = f"../strings/{number // STRINGS_A_PAGE}.html#{number}"
        return part("string")(to, as_html(names.quoted(text)))

    # ---- lines

    def field(self, number: int, word: str, field: Field) -> Markup:
        line = part("declared")(word, spelled(field.name), self.types(field.type), f"{field.flags:#x}")
        return line if field.value is None else line + " = " + joined(" ", self.value(field.value, number))

    def value(self, value: Value, user: int) -> Iterator[Markup | str]:
        """The words of an initial value, which is at most 64 deep."""
        if value.kind == "array":
            yield "array {"
            for one in value.value:
                yield from self.value(one, user)
            yield "}"
        elif value.kind == "string":
            yield joined(" ", ("string", self.text(value.value, user, 0)))
        elif value.kind in ("type", "field", "method", "enum"):
            html, where, what = self.name(value.value)
            note(where, what, user << 32)
            yield joined(" ", (value.kind, html))
        else:
            kind, _, words = str(value).partition(" ")
            yield part("value")(kind, words)

    def method(self, number: int, at: int, word: str, method: Method, places: Iterator[tuple[int, int]]) -> Markup:
        """A method's lines: the elements of its instructions have ids, `3.0` the first of member 3, and say where each
        is in the file and in its code.
        """
        head = part("declared")(word, spelled(method.name), self.types(method.proto), f"{method.flags:#x}")
        if method.code is None:
            return head
        code = reread(method.code)
        lines = [head, part("sizes")(code.registers, code.ins, code.outs)]
        rows: list[tuple[int, str, Markup | str]] = []  # each instruction's number, where it is, and its words
        insns = code.insns
        numbers = {id(insn): place for place, insn in enumerate(insns)}
        numbers[id(None)] = len(insns)  # (a label's instruction, where it is the end)
        marks = {numbers[id(label.insn)] for label in code.labels()}

        @functools.cache
        def link_to(place: int) -> Markup:
            return part("link")(f"#{at}.{place}", f":L{place}")

        def lead(label: Label) -> Markup:
            return link_to(numbers[id(label.insn)])

        for place, (insn, (offset, address)) in enumerate(zip(insns, places)):
            if place in marks:
                rows.append((place, "", ""))
            rows.append((place, f"{offset:06x} {address:04x}", self.insn(insn, lead, number, place)))
        lines.append(part("insns")(at, rows))
        if len(insns) in marks:
            lines.append(part("mark")(len(insns), f"{at}.{len(insns)}"))
        lines += self.tries(code.tries, lead, number, numbers)
        self.insns[number] = len(insns)
        lines.append(part("line")(("end code",)))
        return joined("\n", lines)

    def tries(
        self, tries: list[Try], lead: Callable[[Label], Markup], number: int, numbers: dict[int, int]
    ) -> Iterator[Markup]:
        for one in tries:
            yield part("line")(("try", lead(one.start), lead(one.end)))
            for catch in one.catches:
                html, where, what = self.name(catch.type)
                note(where, what, number << 32 | numbers[id(catch.target.insn)])
                yield part("line")(("catch", html, lead(catch.target)))
            if one.catch_all is not None:
                yield part("line")(("catchall", lead(one.catch_all)))

    def insn(self, insn: Insn, lead: Callable[[Label], Markup], user: int, place: int) -> Markup:
        """The words of an instruction, in the order of the listing."""
        mnemonic = insn.mnemonic
        if mnemonic[-8:] == "-payload":
            return joined(" ", payload(insn, lead))
        shape = self.mnemonics.get(mnemonic)
        if shape is None:
            shape = self.mnemonics[mnemonic] = shape_of(mnemonic)
        registers = f" v{' v'.join(map(str, insn.registers))}" if insn.registers else ""
        words: list[Markup | str] = [shape[0] + f"{shape[1]}{registers}{shape[2]}"]
        if insn.literal is not None:
            words.append(literal(insn.literal))
        if insn.count is not None:
            words.append(literal(insn.count))
        if insn.target is not None:
            words.append(lead(insn.target))
        if insn.name is not None:
            html, where, what = self.names.get(insn.name) or self.name(insn.name)
            note(where, what, user << 32 | place)
            if shape[3]:
                self.call(user, what)
            words.append(html)
        if insn.text is not None:
            words.append(self.text(insn.text, user, place))
        return joined(" ", words)

    def call(self, user: int, to: int | str) -> None:
        if isinstance(to, str):
            self.calls_outside[user] = self.calls_outside.get(user, 0) + 1
        else:
            calls = self.calls.setdefault(user, {})
            calls[to] = calls.get(to, 0) + 1


def note(where: Users, what: int | str, use: int) -> None:
    xref = where.get(what)
    if xref is None:
        xref = where[what] = array("Q")
    xref.append(use)


def shape_of(mnemonic: str) -> tuple[Markup, str, str, bool]:
    """A mnemonic as HTML, what stands before and after its registers, and whether it calls."""
    has_braces = mnemonic.startswith(("invoke-", "filled-new-array")) and not mnemonic.endswith("/range")
    return (
        part("mnemonic")(mnemonic),
        *((" {", " }") if has_braces else ("", "")),
        mnemonic.startswith("invoke-"),
    )


def payload(insn: Any, lead: Callable[[Label], Markup]) -> Iterator[Markup]:
    """The words of what stands among instructions and is none."""
    yield part("mnemonic")(insn.word)
    if insn.word == "packed-switch-payload":
        yield literal(insn.first)
        yield from map(lead, insn.targets)
    elif insn.word == "sparse-switch-payload":
        for key, target in zip(insn.keys, insn.targets):
            yield joined(" ", (literal(key), lead(target)))
    else:
        yield literal(f"{insn.width}{' ' if insn.data else ''}{insn.data.hex()}")
