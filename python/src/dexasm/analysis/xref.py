"""What a program has, by numbers, and who uses it: for dexasm-browse and dexasm-graph.

Each field and each method of the program has a number; those of a class follow one another, fields before methods, in
the order of the listing."""
from __future__ import annotations

import re
from bisect import bisect_right
from collections.abc import Iterator
from typing import TYPE_CHECKING

from dexasm.cli.errors import USAGE, CliError
from dexasm.cli.sanitize import escaped
from dexasm.flags import FIELD_FLAGS, METHOD_FLAGS

if TYPE_CHECKING:
    from dexasm.classes import Class, Field, Method
    from dexasm.code import Code
    from dexasm.program import Program

ABOVE = 64  # superclasses and interfaces of a class that are looked through for a member
CLASS_IN = re.compile(r"(L[^;]*;)")  # in a type or a prototype
TYPES_BEHIND = re.compile(r"[(:]")  # a member's own name, in which an L says nothing


def classes_in(name: str) -> list[str]:
    """The classes that a name has: a type, a prototype or a member."""
    owner, is_member, signature = name.partition("->")
    return CLASS_IN.findall(owner + TYPES_BEHIND.split(signature, maxsplit=1)[1] if is_member else name)


def unescaped(word: str) -> str:
    """A name of the command line, which may have the escapes of a listing."""
    from dexasm.names import unspelled

    try:
        return unspelled(word)
    except ValueError:
        return word


def descriptor_of(word: str) -> str:
    """A class as FORMAT has it: `LA;` or `com.x.A`."""
    return word if word.endswith(";") else f"L{word.replace('.', '/')};"


def flag_words(flags: int, table: dict[int, str]) -> str:
    return " ".join(word for bit, word in table.items() if flags & bit)


class Xref:
    """The classes of a program by row, their members by number, and who uses each, by method and instruction."""

    def __init__(self, program: Program) -> None:
        self.classes = [*program.classes]
        self.rows: dict[str, int] = {}
        self.first: list[int] = []  # of each class the number of its first member
        self.members: list[tuple[Field | Method, ...]] = []  # of each class
        self.by_signature: list[dict[str, int]] = []
        self.heirs: dict[int, list[int]] = {}
        self.count = 0
        self.found: dict[tuple[int, str], int | None] = {}
        for row, one in enumerate(self.classes):
            self.rows.setdefault(str(one.name), row)
            self.add(one)
        # Of each class its superclass and its interfaces, those that the program has.
        names = [(*filter(None, (one.superclass,)), *one.interfaces) for one in self.classes]
        self.above = [[*dict.fromkeys(self.rows[name] for name in some if name in self.rows)] for some in names]
        self.orders: dict[int, list[int]] = {}
        for row, rows in enumerate(self.above):
            for above in rows:
                self.heirs.setdefault(above, []).append(row)

    def add(self, one: Class) -> None:
        members: tuple[Field | Method, ...] = (*one.fields, *one.methods)
        numbers: dict[str, int] = {}
        for at, member in enumerate(members):
            numbers.setdefault(member.signature, self.count + at)
        self.first.append(self.count)
        self.members.append(members)
        self.by_signature.append(numbers)
        self.count += len(members)

    def row_of(self, number: int) -> int:
        """The class of a member."""
        return bisect_right(self.first, number) - 1

    def place(self, number: int) -> tuple[int, int]:
        """The class of a member, and its number in it."""
        row = self.row_of(number)
        return row, number - self.first[row]

    def member(self, number: int) -> Field | Method:
        row, at = self.place(number)
        return self.members[row][at]

    def order(self, row: int) -> list[int]:
        """Where a class's members are looked for: in it, in its superclasses, then in the interfaces of all these."""
        if row in self.orders:
            return self.orders[row]
        found, at = [row], row
        while len(found) < ABOVE:
            above = self.classes[at].superclass
            at = self.rows.get(above, row) if above is not None else row
            if at in found:
                break
            found.append(at)
        visited = set(found)
        for at in found:
            more = [one for one in self.above[at][:ABOVE] if one not in visited][: ABOVE - len(found)]
            visited.update(more)
            found += more
        self.orders[row] = found
        return found

    def resolve(self, owner: str, signature: str) -> int | None:
        """The member that a name leads to: the class's own, or one that it inherits in this program."""
        row = self.rows.get(owner)
        if row is None:
            return None
        own = self.by_signature[row].get(signature)
        if own is not None:
            return own
        key = row, signature
        if key not in self.found:
            self.found[key] = self.inherited(row, signature)
        return self.found[key]

    def inherited(self, row: int, signature: str) -> int | None:
        found = (self.by_signature[at].get(signature) for at in self.order(row))
        return next((number for number in found if number is not None), None)

    def full_name(self, number: int) -> str:
        """A member's name with its class, as FORMAT has it."""
        row, at = self.place(number)
        return f"{self.classes[row].name}->{self.members[row][at].signature}"

    def methods(self) -> Iterator[tuple[int, Method]]:
        """Each method that has code: its number and the method."""
        for row, first in enumerate(self.first):
            for at, member in enumerate(self.members[row]):
                if getattr(member, "code", None) is not None:
                    yield first + at, member  # type: ignore[misc]  # (a field has no code)


def reread(code: Code) -> Code:
    """The code once more, unread: what is read of it is let go with it, and the code stays as it was."""
    return type(code).of_text(str(code))


def title(member: Field | Method) -> str:
    """A member as Java has it: `get(boolean)`, `count`."""
    if not hasattr(member, "proto"):
        return member.name
    # (types without their packages)
    return f"{member.name}({', '.join(one.pretty.rpartition('.')[2] for one in member.proto.parameters)})"


def heading(member: Field | Method) -> str:
    """A member with its flags and its types."""
    if not hasattr(member, "proto"):
        return f"{flag_words(member.flags, FIELD_FLAGS)} {member.type.pretty} {member.name}".strip()
    proto = member.proto
    words = [flag_words(member.flags, METHOD_FLAGS), proto.returns.pretty, member.name]
    return f"{' '.join(filter(None, words))}({', '.join(one.pretty for one in proto.parameters)})"


def find(xref: Xref, name: str) -> list[int]:
    """The methods that a word names: `LHello;->get(Z)I`, or `LHello;->get` for all of this name."""
    owner, _, signature = name.partition("->")
    row = xref.rows.get(owner)
    if row is None:
        return []
    part = "signature" if "(" in signature else "name"
    members = enumerate(xref.members[row], xref.first[row])
    return [number for number, one in members if hasattr(one, "proto") and getattr(one, part) == signature]


def method_of(xref: Xref, name: str, has_code: bool = False) -> int:
    """The method that a word of the command line names, which may have the escapes of a listing."""
    found = find(xref, unescaped(name))
    text = escaped(name)
    if len(found) != 1:
        count = f"{len(found)} methods" if found else "no method"
        raise CliError(f"{text} names {count} of the file; a whole name is as LHello;->get(Z)I", USAGE)
    if has_code and xref.member(found[0]).code is None:  # type: ignore[union-attr]  # (`find` finds methods)
        raise CliError(f"{text} has no code in this file", USAGE)
    return found[0]
