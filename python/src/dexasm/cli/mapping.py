"""The mapping of R8 or ProGuard: what it says of classes and of their members."""
from __future__ import annotations

import re
from collections.abc import Iterator
from typing import NamedTuple

from dexasm import names
from dexasm.cli.errors import CliError
from dexasm.cli.sanitize import escaped

CLASS = re.compile(r"(\S+) -> (\S+):\s*")
FIELD = re.compile(r"\s+(\S+) ([^\s().]+) -> (\S+)\s*")
METHOD = re.compile(r"\s+(?:\d+:\d+:)?(\S+) ([^\s().]+)\(([^\s()]*)\)(?::\d+)?(?::\d+)? -> (\S+)\s*")
# (a method of another class, which was inlined, has that class before its name)
INLINED = re.compile(r"\s+(?:\d+:\d+:)?\S+ [^\s()]+\.[^\s().]+\([^\s()]*\)(?::\d+)?(?::\d+)? -> \S+\s*")
PRIMITIVES = {java: letter for letter, java in names.PRIMITIVES.items()}


class MemberMapping(NamedTuple):
    """A member: its name before and after, and its type, or its prototype, as it was before."""

    old: str
    new: str
    type: str


class ClassMapping(NamedTuple):
    """A class: its name before and after, and its members."""

    old: str
    new: str
    members: list[MemberMapping]


def descriptor(java: str) -> str:
    """A type of Java's form as FORMAT has it."""
    inner = java.rstrip("[]")
    return "[" * java.count("[]") + (PRIMITIVES.get(inner) or f"L{inner.replace('.', '/')};")


def parse_mapping(text: str, name: str) -> list[ClassMapping]:
    """The classes of a mapping. A line that is none of a mapping's is refused with its number."""
    found: list[ClassMapping] = []
    for number, line in enumerate(text.split("\n"), 1):
        if not line.strip() or line.lstrip().startswith("#") or INLINED.fullmatch(line):
            continue
        if one := CLASS.fullmatch(line):
            found.append(ClassMapping(descriptor(one[1]), descriptor(one[2]), []))
        elif found and (member := member_of(line)):
            found[-1].members.append(member)
        else:
            raise CliError(f"{name}:{number}: no line of a mapping: {escaped(line[:80])}")
    return found


def member_of(line: str) -> MemberMapping | None:
    if one := METHOD.fullmatch(line):
        parameters = "".join(map(descriptor, filter(None, one[3].split(","))))
        return MemberMapping(one[2], one[4], f"({parameters}){descriptor(one[1])}")
    if one := FIELD.fullmatch(line):
        return MemberMapping(one[2], one[3], descriptor(one[1]))
    return None


def inverted(classes: list[ClassMapping]) -> Iterator[ClassMapping]:
    """The mapping that takes it back: types are those after."""
    new = {one.old: one.new for one in classes}

    def after(type_: str) -> str:
        return re.sub(r"L[^;]*;", lambda found: new.get(found[0], found[0]), type_)

    for one in classes:
        yield ClassMapping(
            one.new, one.old, [MemberMapping(each.new, each.old, after(each.type)) for each in one.members]
        )
