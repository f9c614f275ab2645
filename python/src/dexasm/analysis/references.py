"""What a program names, and where: for dexasm-query uses, outside and find."""
from __future__ import annotations

import functools
import re
from collections import Counter
from collections.abc import Callable, Iterator
from typing import TYPE_CHECKING, Any, NamedTuple

from dexasm.analysis.xref import Xref, classes_in, descriptor_of, unescaped
from dexasm.cli.errors import USAGE, CliError
from dexasm.cli.sanitize import escaped
from dexasm.cli.show import PATTERN, pattern

if TYPE_CHECKING:
    from dexasm.classes import Reference
    from dexasm.program import Program

    Rows = list[dict[str, Any]]

# ---- uses


def find_uses(program: Program, names: list[str], is_text: bool) -> dict[str, Rows]:
    """Of each name or text that was asked for, who has it and how, in the order of the listing, with how often."""
    wanted = {one: matcher(program, one, is_text) for one in names}
    found: dict[str, Counter[Reference]] = {one: Counter() for one in names}
    for mention in program.references():
        for one, is_meant in wanted.items():
            if mention.is_text == is_text and is_meant(mention.name):
                found[one][mention] += 1
    missing = next((one for one in names if not found[one]), None)
    if missing is not None:
        raise CliError(f"{escaped(missing)}: nothing of the file {'has that text' if is_text else 'names that'}", USAGE)
    return {
        one: [{"name": each.name, "by": each.by, "how": each.how, "times": times} for each, times in rows.items()]
        for one, rows in found.items()
    }


def matcher(program: Program, wanted_name: str, is_text: bool) -> Callable[[str], bool]:
    """Whether a name, or a text, is one that was asked for."""
    if is_text:
        return functools.partial(matches, wanted_name)
    owner, is_member, wanted = unescaped(wanted_name).partition("->")
    owner = descriptor_of(owner)
    if is_member:
        return functools.lru_cache(None)(functools.partial(is_member_of, Xref(program), owner, wanted))
    return functools.lru_cache(None)(lambda name: any(matches(owner, each) for each in classes_in(name)))


def is_member_of(known: Xref, owner: str, wanted: str, name: str) -> bool:
    """Whether a name is that of a member, of a class or of one that inherits it from there in this program."""
    of, is_member, signature = name.partition("->")
    if not is_member or not (matches(wanted, signature) or matches(wanted, re.split("[(:]", signature)[0])):
        return False
    number = known.resolve(of, signature)
    return matches(owner, of) or number is not None and matches(owner, str(known.classes[known.row_of(number)].name))


def matches(wanted: str, name: str) -> bool:
    """Whether a name, or a text, is this one, or of this pattern."""
    return wanted == name or PATTERN.search(wanted) is not None and pattern(wanted).fullmatch(name) is not None


# ---- outside


def outside(program: Program) -> dict[str, dict[str, Any]]:
    """Each class that is named and isn't there, with who names it, and its members; and of a class that is there the
    members that neither it nor what it inherits from here has."""
    known = Xref(program)
    found: dict[str, dict[str, Any]] = {}

    @functools.lru_cache(None)
    def lists_of(name: str) -> list[dict[str, None]]:
        """Where those are noted who have this name."""
        owner, is_member, signature = name.partition("->")
        missing = [one for one in dict.fromkeys(classes_in(name)) if one not in known.rows]
        lists = [found.setdefault(one, {"by": {}, "members": {}})["by"] for one in missing]
        if is_member and owner.startswith("L") and known.resolve(owner, signature) is None:
            members = found.setdefault(owner, {"by": {}, "members": {}})["members"]
            lists.append(members.setdefault(signature, {}))
        return lists

    for mention in program.references():
        for users in () if mention.is_text else lists_of(mention.name):
            users[mention.by] = None
    return {name: listed(found[name]) for name in sorted(found)}


def listed(row: dict[str, Any]) -> dict[str, Any]:
    members = row["members"]
    return {"by": [*row["by"]], "members": {signature: [*members[signature]] for signature in sorted(members)}}


# ---- find


def find(program: Program, patterns: list[str]) -> dict[str, list[str]]:
    """The names and the texts of a program in which a text stands, or that a pattern with * and ? is all of."""
    forms = [pattern(one if PATTERN.search(one) else f"*{one}*") for one in patterns]
    found: dict[str, dict[str, None]] = {"classes": {}, "fields": {}, "methods": {}, "strings": {}}

    def look(kind: str, text: str) -> None:
        if any(form.fullmatch(text) for form in forms):
            found[kind][text] = None

    for one in program.classes:
        look("classes", str(one.name))
        for field in one.fields:
            look("fields", str(one.ref(field)))
        for method in one.methods:
            look("methods", str(one.ref(method)))
    for mention in dict.fromkeys(mention[:2] for mention in program.references()):
        name, is_text = mention
        if is_text:
            look("strings", name)
        elif "->" in name:
            look("methods" if "(" in name else "fields", name)
        else:
            for each in classes_in(name):
                look("classes", each)
    return {kind: sorted(names) for kind, names in found.items()}


# ---- find --insns

NUMBER = re.compile(r"-?(?:0x[0-9A-Fa-f]{1,16}|[0-9]{1,20})")
HIGH = {"const/high16": 16, "const-wide/high16": 48}  # how far a literal is shifted in its number
INTEGERS = ("byte", "short", "char", "int", "long")


def find_insns(program: Program, patterns: list[str]) -> dict[str, Rows]:
    """The instructions of each mnemonic or pattern, or with each number, and the fields with that initial value."""
    found: dict[str, Counter[Numbered]] = {one: Counter() for one in patterns}
    forms: dict[str, frozenset[int] | re.Pattern[str]]
    forms = {one: number_of(one) if NUMBER.fullmatch(one) else pattern(one) for one in patterns}
    is_of = functools.lru_cache(None)(lambda form, how: form.fullmatch(how) is not None)
    for each, times in numbered(program):
        number = each.number
        numbers = () if number is None else (number, number << HIGH.get(each.how, 0))
        for one, form in forms.items():
            if not form.isdisjoint(numbers) if isinstance(form, frozenset) else is_of(form, each.how):
                found[one][each] += times
    return {one: [each._asdict() | {"times": times} for each, times in rows.items()] for one, rows in found.items()}


class Numbered(NamedTuple):
    """An instruction, by its mnemonic, or an initial value ("value"): who has it, and its number if it has one."""

    by: str
    how: str
    number: int | None


def numbered(program: Program) -> Iterator[tuple[Numbered, int]]:
    """Each with how often a method, or a value, has it."""
    for one in program.classes:
        for field in one.statics:
            for value in field.value.all() if field.value else ():
                if value.kind in INTEGERS:
                    yield Numbered(str(one.ref(field)), "value", value.value), 1
        for method in one.methods:
            by = str(one.ref(method))
            for (how, number), times in Counter((insn.mnemonic, insn.literal) for insn in method.insns).items():
                yield Numbered(by, how, number), times


def number_of(word: str) -> frozenset[int]:
    """A number of the command line; one beyond what is signed is also the negative number of these bits."""
    number = int(word, 0) if "x" in word else int(word)
    return frozenset((number, *(number - (1 << bits) for bits in (32, 64) if 1 << bits - 1 <= number < 1 << bits)))
