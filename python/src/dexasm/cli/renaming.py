"""Which names a program's classes and members are to get, and whether they can: for dexasm-rename."""
from __future__ import annotations

import functools
from collections.abc import Callable
from typing import TYPE_CHECKING, TypeVar

from dexasm.analysis.xref import CLASS_IN, Xref, classes_in, descriptor_of, unescaped
from dexasm.cli.errors import REFUSED, USAGE, CliError
from dexasm.cli.sanitize import escaped
from dexasm.names import FieldRef, MethodRef, Proto, Type, member

if TYPE_CHECKING:
    from dexasm.classes import Class, Field, Method, Value
    from dexasm.code import Code
    from dexasm.program import Program

OBJECT = "Ljava/lang/Object;"


def refusal(message: str) -> CliError:
    return CliError(message, REFUSED)


def class_name(word: str) -> str:
    """A class's name, `com.x.A` or `Lcom/x/A;`, as FORMAT has it."""
    try:
        return str(Type(descriptor_of(word)))
    except ValueError:
        raise CliError(f"{escaped(word)} is no name of a class", USAGE) from None


class Names:
    """The new names, as far as they are known; a name that is asked for twice has to be the same."""

    def __init__(self, program: Program) -> None:
        self.uses = Xref(program)
        self.classes: dict[str, str] = {}
        self.members: dict[int, str] = {}  # by their numbers
        self.unsure: set[str] = set()  # classes that inherit from outside what one of their methods may override
        self.seen_above: set[int] = set()  # rows whose classes from outside are in `unsure`, with all above them
        self.seen_below: set[int] = set()  # the same of all below them
        self.families: dict[str, dict[int, set[int]]] = {}  # by signature, of each virtual method of the program

    # ---- what is asked for

    def request(self, old: str, new: str) -> None:
        """One of the words OLD=NEW."""
        old, new = unescaped(old), unescaped(new)
        if "->" in old:
            self.request_member(old, new)
        elif old.endswith(".*"):
            self.request_package(old, new)
        else:
            self.request_class(class_name(old), class_name(new))

    def request_class(self, old: str, new: str) -> None:
        if old not in self.uses.rows:
            raise CliError(f"{escaped(old)} is no class of the file", USAGE)
        if self.classes.setdefault(old, new) != new:
            raise refusal(f"{escaped(old)} is to be {escaped(self.classes[old])} and {escaped(new)}")

    def request_package(self, old: str, new: str) -> None:
        if not new.endswith(".*"):
            raise CliError(f"{escaped(new)} is no package, which ends in .*", USAGE)
        before, after = (f"L{one[:-2].replace('.', '/')}/" for one in (old, new))
        found = [name for name in self.uses.rows if name.startswith(before)]
        if not found:
            raise CliError(f"{escaped(old)}: the file has no class of that package", USAGE)
        for name in found:
            self.request_class(name, class_name(after + name[len(before) :]))

    def request_member(self, old: str, new: str) -> None:
        owner, _, wanted = old.partition("->")
        row = self.uses.rows.get(class_name(owner))
        members = [(number, self.uses.member(number)) for number in (self.numbers(row) if row is not None else ())]
        found = [number for number, one in members if wanted in (one.signature, one.name)]
        if len(found) != 1:
            how = f"{len(found)} members" if found else "no member"
            raise CliError(f"{escaped(old)} names {how} of the file; a whole name is as LHello;->get(Z)I", USAGE)
        self.set_member(found[0], new)

    def set_member(self, number: int, new: str) -> None:
        """Gives a member its name, and what it overrides or what overrides it."""
        try:
            member(new)
        except ValueError:
            raise CliError(f"{escaped(new)} is no name of a member", USAGE) from None
        if "<" in new + self.uses.member(number).name:
            raise CliError(f"{escaped(self.uses.full_name(number))}: a constructor keeps its name", USAGE)
        for one in self.family(number):
            if self.members.setdefault(one, new) != new:
                both = f"{escaped(self.members[one])} and {escaped(new)}"
                raise refusal(f"{escaped(self.uses.full_name(one))} is to be {both}: they override one another")

    # ---- families

    def family(self, number: int) -> set[int]:
        """A member; of a virtual method all methods of this program that some class defines or inherits beside it."""
        row, _ = self.uses.place(number)
        signature = self.uses.member(number).signature
        if row not in self.virtuals.get(signature, {}):
            return {number}
        if signature not in self.families:
            self.families[signature] = self.families_of(self.virtuals[signature])
        found = self.families[signature][number]
        rows = [self.uses.row_of(one) for one in found]
        self.note_outside(rows, self.uses.above.__getitem__, self.seen_above)
        self.note_outside(rows, self.heirs, self.seen_below)
        return found

    @functools.cached_property
    def virtuals(self) -> dict[str, dict[int, int]]:
        """By signature the rows of the classes with such a virtual method, and its number there."""
        found: dict[str, dict[int, int]] = {}
        for row, one in enumerate(self.uses.classes):
            for method in one.virtuals:
                found.setdefault(method.signature, {})[row] = self.uses.by_signature[row][method.signature]
        return found

    def families_of(self, numbers: dict[int, int]) -> dict[int, set[int]]:
        """The families of the methods of one signature, by their rows: what meets in a class below is one."""
        families = {row: {number} for row, number in numbers.items()}
        meets = {row: row for row in numbers}  # of each row below, a row whose method is there too
        due = [*numbers] if len(numbers) > 1 else []
        for at in due:
            for heir in self.heirs(at):
                if heir not in meets:
                    meets[heir] = meets[at]
                    due.append(heir)
                    continue
                small, large = sorted((families[meets[at]], families[meets[heir]]), key=len)
                if small is not large:
                    large |= small
                    families.update((self.uses.row_of(number), large) for number in small)
        return {number: families[row] for row, number in numbers.items()}

    def heirs(self, row: int) -> list[int]:
        return self.uses.heirs.get(row, [])

    def note_outside(self, rows: list[int], of: Callable[[int], list[int]], visited: set[int]) -> None:
        """Notes from which classes outside the program these rows inherit, and those above or below them."""
        due = [row for row in rows if row not in visited]
        visited.update(due)
        for at in due:
            one = self.uses.classes[at]
            above = [str(name) for name in (one.superclass, *one.interfaces) if name is not None]
            self.unsure.update(name for name in above if name not in self.uses.rows and name != OBJECT)
            more = [row for row in of(at) if row not in visited]
            visited.update(more)
            due += more

    # ---- whether they can

    def check(self, named: set[str]) -> None:
        """Refuses names that would be two things' at once; `named` are all classes that the program names."""
        taken = {name: name for name in named if name not in self.uses.rows}
        for name in self.uses.rows:
            new = self.classes.get(name, name)
            other = taken.setdefault(new, name)
            if other != name:
                raise refusal(self.clash(name, new, other))
        self.check_members()

    def clash(self, name: str, new: str, other: str) -> str:
        """What is wrong with a new name that another class has, or gets."""
        if other not in self.uses.rows:
            return f"{escaped(name)} can't be {escaped(new)}, which the file names"
        if name == new:
            return f"{escaped(other)} can't be {escaped(new)}, which is there"
        return f"{escaped(name)} can't be {escaped(new)}, as {escaped(other)} is to be"

    def check_members(self) -> None:
        """Of a class, and of those above and below it, no other member may have a new name."""
        renamed: dict[str, dict[int, int]] = {}
        for number in sorted(self.members):
            rows = renamed.setdefault(self.signature(number), {})
            other = rows.setdefault(self.uses.row_of(number), number)
            if other != number:
                raise refusal(self.member_clash(number, other))
        kept: dict[str, dict[int, int]] = {}
        for row, numbers in enumerate(self.uses.by_signature):
            for signature in renamed.keys() & numbers.keys():
                if numbers[signature] not in self.members:
                    kept.setdefault(signature, {})[row] = numbers[signature]
        for signature, rows in kept.items():
            self.check_below(renamed[signature], rows)
            self.check_below(rows, renamed[signature])

    def check_below(self, above: dict[int, int], others: dict[int, int]) -> None:
        """Refuses members of which the ones, by their rows, are in classes above those of the others."""
        found = dict(above)
        due = [*above]
        for at in due:
            if at in others:
                pair = found[at], others[at]
                raise refusal(self.member_clash(*(pair if pair[0] in self.members else pair[::-1])))
            more = [row for row in self.heirs(at) if row not in found]
            found.update((row, found[at]) for row in more)
            due += more

    def member_clash(self, number: int, other: int) -> str:
        what = f"{escaped(self.uses.full_name(number))} can't be {escaped(self.signature(number))}"
        return f"{what}, as {escaped(self.uses.full_name(other))} is, or is to be"

    def numbers(self, row: int) -> range:
        """The members of a class."""
        return range(self.uses.first[row], self.uses.first[row] + len(self.uses.members[row]))

    def signature(self, number: int) -> str:
        """A member's signature with the name that it gets; its types are as they were."""
        one = self.uses.member(number)
        return self.members.get(number, one.name) + one.signature[len(one.name) :]


# ---- the renamed program

Form = TypeVar("Form", Type, Proto)


class Renaming:
    """What each name becomes. Members are looked up by the names that were, so the program changes last."""

    def __init__(self, names: Names) -> None:
        self.names = names
        self.ref: Callable[[str], FieldRef | MethodRef] = functools.lru_cache(None)(self.ref_of)
        self.changes: Callable[[str], bool] = functools.lru_cache(None)(self.is_changed)

    def is_changed(self, name: str) -> bool:
        owner, is_member, signature = name.partition("->")
        number = self.names.uses.resolve(owner, signature) if is_member else None
        return number in self.names.members or not self.names.classes.keys().isdisjoint(classes_in(name))

    def typed(self, name: Form) -> Form:
        """A type, or a prototype."""
        classes = self.names.classes
        if classes.keys().isdisjoint(CLASS_IN.findall(name)):
            return name
        new = CLASS_IN.sub(lambda found: classes.get(found[1], found[1]), name)
        return type(name)(new)

    def ref_of(self, name: str) -> FieldRef | MethodRef:
        """A member, by whichever class it is named."""
        owner, _, signature = name.partition("->")
        number = self.names.uses.resolve(owner, signature)
        is_method = "(" in signature
        old, _, of = signature.partition("(" if is_method else ":")
        new = old if number is None else self.names.members.get(number, old)
        if is_method:
            return MethodRef.of(self.typed(Type(owner)), new, self.typed(Proto(f"({of}")))
        return FieldRef.of(self.typed(Type(owner)), new, self.typed(Type(of)))

    def operand(self, name: Type | FieldRef | MethodRef) -> Type | FieldRef | MethodRef:
        return self.typed(name) if isinstance(name, Type) else self.ref(str(name))

    def value(self, value: Value | None) -> None:
        for one in value.all() if value else ():
            if one.kind in ("type", "field", "enum", "method"):
                one.value = self.operand(one.value)

    def field(self, number: int, one: Field) -> None:
        self.value(one.value)
        one.name, one.type = self.names.members.get(number, one.name), self.typed(one.type)

    def code(self, code: Code) -> None:
        """(One that names nothing that changes stays unread.)"""
        from dexasm.code import mentions

        if not any(self.changes(name) for name, is_text, _ in mentions(code) if not is_text):
            return
        for insn in code.insns:
            if insn.name is not None:
                insn.name = self.operand(insn.name)
        for catch in (catch for each in code.tries for catch in each.catches):
            catch.type = self.typed(catch.type)

    def method(self, number: int, one: Method) -> None:
        if one.code is not None:
            self.code(one.code)
        one.name, one.proto = self.names.members.get(number, one.name), self.typed(one.proto)

    def heads(self, one: Class) -> None:
        one.superclass = None if one.superclass is None else self.typed(one.superclass)
        one.interfaces = [self.typed(name) for name in one.interfaces]
        one.name = self.typed(one.name)


def rename(program: Program, names: Names) -> Program:
    """The program under its new names, in the order in which it was."""
    renaming, uses = Renaming(names), names.uses
    for row, one in enumerate(uses.classes):
        first = uses.first[row]
        for at, field in enumerate(one.fields):
            renaming.field(first + at, field)
        for at, method in enumerate(one.methods, len(one.fields)):
            renaming.method(first + at, method)
    for one in uses.classes:
        renaming.heads(one)
    return program
