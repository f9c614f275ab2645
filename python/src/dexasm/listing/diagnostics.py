"""Where in a listing a refusal of `assemble` stands: the line, the word and why.

The library answers a line of a text, and of a class that breaks a rule of programs or a limit only its number. The
rules are asked here once more, of that class alone and in the library's order, so the place is found only where the
first that is broken is the one that the library named.
"""
from __future__ import annotations

import contextlib
from collections.abc import Callable, Iterator
from typing import NamedTuple

from dexasm.formats import format_of
from dexasm.listing.limits import LIMITS, OF_CLASS, one_too_many
from dexasm.listing.slots import in_line, target_missing

from dexasm.listing.source import (
    PAYLOADS, Class, Code, Diagnostic, Line, Listing, Member, Slot, Word, decoded, number_of, plural, register_of,
    registers, short_name, slots,
)  # fmt: skip
from dexasm.listing.syntax import malformed_line
from dexasm.names import FieldRef, MethodRef, Proto, Type

OF_LINES, OF_COUNTS, OF_RULES = range(100, 107), range(80, 82), range(110, 119)
_DEEPEST, _MOST_TARGETS, _GOTO_32 = 64, 65535, "goto/32"
_PAYLOAD_OF = dict(zip(("packed-switch", "sparse-switch", "fill-array-data"), PAYLOADS))
_WIDTHS = 1, 2, 4, 8

Ref = FieldRef | MethodRef


class Place(NamedTuple):
    """A place in a listing: what isn't known is None; `why` is a text without a capital or a full stop, or empty.

    Lines and columns count from 1, instructions in their code from 0. `word` is as the listing spells it;
    `class_line` and `member_line` are those with which the class and the member begin.
    """

    line: int
    column: int | None
    class_name: Type | None
    member: Ref | None
    insn: int | None
    word: str | None
    why: str
    class_line: int | None = None
    member_line: int | None = None

    def sentence(self) -> str:
        """The word and why, in a line that no terminal obeys; "" where neither is known."""
        word = short_name(self.word or "")
        return self.why if not word or self.why.startswith(word) else f"{word}: {self.why}" if self.why else word


def of(listing: bytes, number: int, place: int, align: bool = False) -> Place | None:
    """The place of this refusal in the listing that was refused; None where it isn't found in it."""
    try:
        read = Listing(listing)
        if number in OF_LINES:
            return _of_line(read, number, place)
        if number in OF_COUNTS:
            found = one_too_many(read, Type if number == 80 else Proto)
            return found and _placed(read, read.index_at(found.line.number), found)
        one = read.class_at(place)
        if one is None:
            return None
        if number in OF_RULES:
            rule, found = next(_violations(read, one, place), (0, None))
            found = found if rule == number else None
        elif number in OF_CLASS:
            found = Diagnostic(one.head, None, OF_CLASS[number])
        else:
            found = next(LIMITS[number](one, align), None)
        return found and _placed(read, place, found)
    except (ValueError, LookupError, AttributeError):
        return None  # (another text than the one that was refused)


def _of_line(read: Listing, number: int, place: int) -> Place | None:
    if not 0 < place <= len(read.rows):
        return None
    line, index = read.line(place), read.index_at(place)
    found: Diagnostic | None
    if number == 100:
        found = malformed_line(read, place)
    elif number == 105:
        one = read.class_at(index)
        found = target_missing(one, line) if one else None
    else:
        # (a line that begins a class in the wrong place is in the one before it, and 106 is of what comes before it)
        before = read.class_at(index - (number == 103 and line.key == "class"), place - (number != 106))
        found = in_line(read, number, line, before)
    return _placed(read, index, found or Diagnostic(line), place)


def _placed(read: Listing, index: int, found: Diagnostic, last: int | None = None) -> Place:
    """The class, the member and the instruction of a line."""
    number, one = found.line.number, read.class_at(index, last)
    column, word = (found.word.column, found.word.text) if found.word else (None, None)
    if one is None or 0 < one.end < number:
        return Place(number, column, None, None, None, word, found.why)
    member = one.member_at(number)
    insns = member.code.insns if member and member.code else ()
    insn = next((at for at, each in enumerate(insns) if each.number == number), None)
    member_line = member.line.number if member else None
    return Place(number, column, *_named(one, member), insn, word, found.why, one.head.number, member_line)


def _named(one: Class, member: Member | None) -> tuple[Type | None, Ref | None]:
    """The names of a class and of a member, where their lines say one."""
    name: Type | None = None
    ref: Ref | None = None
    with contextlib.suppress(ValueError, LookupError):
        name = Type(decoded(one.head.words[1]))
        if member:
            key, of_member, of_type = member.line.key, *map(decoded, member.line.words[1:3])
            is_field = key in ("static", "instance")
            ref = FieldRef.of(name, of_member, of_type) if is_field else MethodRef.of(name, of_member, of_type)
    return name, ref


# ---- the rules of programs


def _violations(read: Listing, one: Class, index: int) -> Iterator[tuple[int, Diagnostic]]:
    """The rules that a class breaks, in the order in which they are asked, and where. (A listing can't break 111.)"""
    yield from ((110, found) for found in _names(one))
    yield from ((112, found) for found in _order(read, one, index))
    yield from ((113, found) for found in _values(one))
    rules: tuple[Callable[[Code], Iterator[Diagnostic]], ...] = _operands, _targets, _payload_uses, _tries, _registers
    for number, rule in enumerate(rules, 114):
        yield from ((number, found) for code in one.codes() for found in rule(code))


def _names(one: Class) -> Iterator[Diagnostic]:
    for line in one.lines():
        for slot in slots(line):
            if why := _wrong_name(line, slot):
                yield Diagnostic(line, slot.word, why)


def _wrong_name(line: Line, slot: Slot) -> str:
    """Why a name can't stand there, though its word is of the right form; "" where it can."""
    kind = slot.kind.name
    if kind not in ("type", "proto", "field", "method"):
        return ""
    text, why = decoded(slot.word), "a parameter can't be of type V"
    if kind == "type":
        if line.key in ("class", "super", "implements"):
            return "" if text[0] == "L" else "no class: a class's name is L..;"
        is_field = line.key == "instance" or line.key == "static" and slot.word is line.words[2]
        return "a field can't be of type V" if is_field and text == "V" else ""
    if kind == "field":
        field = FieldRef(text)
        if field.owner[0] != "L":
            return f"{short_name(field.owner)} is no class, and only classes have fields"
        return "a field can't be of type V" if field.type == "V" else ""
    if kind == "method":
        method = MethodRef(text)
        if method.owner[0] not in "L[":
            return f"{short_name(method.owner)} is neither a class nor an array"
        text = method.proto
    return why if "V" in Proto(text).parameters else ""


def _order(read: Listing, one: Class, index: int) -> Iterator[Diagnostic]:
    """What a class says of its place among the others: they are known by their names, the last of a name counts."""
    own, places = decoded(one.head.words[1]), dict[str, int]()
    for at, number in enumerate(read.heads):
        name = decoded(read.line(number).words[1])
        if name == own and at < index:
            yield Diagnostic(one.head, one.head.words[1], f"{short_name(own)} was defined at line {number}")
        places[name] = at
    for line in (line for line in one.above if line.key != "source"):
        name, what = decoded(line.words[1]), "superclass" if line.key == "super" else "interface"
        if name == own:
            yield Diagnostic(line, line.words[1], f"{short_name(own)} is its own {what}")
        elif places.get(name, -1) > index:
            later = f"{short_name(name)} is defined after it, at line {read.heads[places[name]]}"
            yield Diagnostic(line, line.words[1], f"the {what} of {short_name(own)} must be before it: {later}")


def _values(one: Class) -> Iterator[Diagnostic]:
    why = f"an array is in {_DEEPEST} others: a value is more than {_DEEPEST} deep"
    for member in one.members:
        depth = 0
        for word in member.line.words[5:]:
            depth += (word.text == "{") - (word.text == "}")
            if depth > _DEEPEST:
                yield Diagnostic(member.line, word, why)
                break


def _operands(code: Code) -> Iterator[Diagnostic]:
    if not code.insns:
        yield Diagnostic(code.head, None, "the code has no instruction")
    for line in code.insns:
        words = line.words[1:]
        if line.key == "array-payload":
            width, data = number_of(words[0].text), len(words[1].text) // 2 if len(words) > 1 else 0
            if width not in _WIDTHS:
                yield Diagnostic(line, words[0], f"{width} bytes an element: 1, 2, 4 or 8")
            elif data % width:
                yield Diagnostic(line, words[1], f"{data} bytes of elements of {width}")
        elif line.key in PAYLOADS:
            targets = _target_words(line)
            if len(targets) > _MOST_TARGETS:
                yield Diagnostic(line, targets[_MOST_TARGETS], f"{len(targets)} targets: {_MOST_TARGETS} at most")
            keys = [word for word, kind in slots(line) if kind.name == "number"]
            for low, high in zip(keys, keys[1:]):
                if number_of(low.text) >= number_of(high.text):
                    yield Diagnostic(line, high, "the keys don't rise: each has to be above the one before")


def _targets(code: Code) -> Iterator[Diagnostic]:
    for at, line in enumerate(code.insns):
        for word in _target_words(line) if line.key not in _PAYLOAD_OF else ():
            place = code.place(word)
            if code.is_payload(place):
                yield Diagnostic(line, word, "it leads to a payload")
            elif place == at and line.key != _GOTO_32:
                yield Diagnostic(line, word, f"it leads to the instruction itself, which only {_GOTO_32} may")


def _target_words(line: Line) -> list[Word]:
    return [word for word, kind in slots(line) if kind.name == "target"]


def _payload_uses(code: Code) -> Iterator[Diagnostic]:
    users = dict[int, int]()
    for line in (line for line in code.insns if line.key in _PAYLOAD_OF):
        word = _target_words(line)[0]
        place = code.place(word)
        users[place] = users.get(place, 0) + 1
        wanted, there = _PAYLOAD_OF[line.key], code.insns[place].key
        if there != wanted:
            yield Diagnostic(line, word, f"it has to lead to {wanted}, not to {there}")
    for at, line in enumerate(code.insns):
        if line.key in PAYLOADS[:2] and users.get(at, 0) != 1:
            yield Diagnostic(line, None, f"{users.get(at, 0)} instructions lead to this payload: exactly one has to")


def _tries(code: Code) -> Iterator[Diagnostic]:
    before = 0
    for one in code.tries:
        begin, end = one.line.words[1:3]
        first, after = code.place(begin), code.place(end)
        if first >= after:
            yield Diagnostic(one.line, end, "the try covers nothing")
        elif first < before:
            yield Diagnostic(one.line, begin, "it overlaps the try before it")
        elif not one.handlers:
            yield Diagnostic(one.line, None, "the try has neither catch nor catchall")
        before = after


def _registers(code: Code) -> Iterator[Diagnostic]:
    _, most, ins, _ = code.head.words
    count = number_of(most.text)
    of_them = f"of {plural(count, 'register')}"
    if number_of(ins.text) > count:
        yield Diagnostic(code.head, ins, f"{number_of(ins.text)} ins {of_them}")
    for line in code.insns:
        form = format_of(line.key)
        for word in registers(line):
            first = register_of(word)
            last = first + number_of(line.words[2].text) - 1 if form and form.is_range else first
            if last >= max(count, first):
                yield Diagnostic(line, word, f"{word.text}{f' up to v{last}' * (last > first)} {of_them}")
