"""What a program's classes say of one another, for dexasm-lint --code: whether a type can be taken for another one, and
what a field or a method is that code names.

A class that isn't in the file may be anything: whatever would rest on it is taken as right."""
from __future__ import annotations

import re
from collections.abc import Callable
from typing import TYPE_CHECKING, Any, NamedTuple

from dexasm.analysis.verifier.lattice import OBJECT, THROWABLE
from dexasm.analysis.verifier.structure_rules import ABSTRACT, INTERFACE, PRIVATE

if TYPE_CHECKING:
    from dexasm.classes import Class
    from dexasm.names import MethodRef
    from dexasm.program import Program

DEEPEST = 64  # superclasses of a class that are followed
# Packages of which ART 14 has the classes, as far as they have exceptions.
FOUND = re.compile(
    r"L(?:java/(?:io|lang(?!/(?:instrument|management|module)/)|net(?!/http/)|nio|security|sql|text|time|util)"
    r"|javax/(?:crypto|net)|android(?!/(?:arch|databinding|support)/)|org/(?:json|w3c/dom|xml/sax))/"
)
# What the boot class path has: a device takes its own class of such a name, and not the file's.
BOOT = re.compile(
    r"L(?:java|javax/(?:crypto|net|security|sql|xml)|android(?!/(?:arch|databinding|support)/)|dalvik|libcore|sun"
    r"|org/(?:json|w3c/dom|xml/sax))/"
)
DIRECT = 1 << 32  # beside the flags of a method: it stands among the direct ones


class Call(NamedTuple):
    """A method that code names: `words` are the registers that its parameters take, without the object."""

    owner: str
    name: str
    parameters: tuple[str, ...]
    returns: str
    words: int


class Hierarchy:
    """Those of a program, without those that `is_shadowed` names, which are taken as if the file didn't have them."""

    def __init__(self, program: Program, is_shadowed: Callable[[str], bool] = lambda name: False) -> None:
        self.rows: dict[str, Class] = {}
        self.found: set[str] = set()
        self.depths: dict[str | None, int] = {}
        self.incompatible: dict[tuple[str, str], bool] = {}
        self.calls: dict[str, Call] = {}
        self.fields: dict[str, tuple[str, str, str]] = {}
        self.members: dict[str, dict[str, Any]] = {}
        for one in program.classes:
            if is_shadowed(one.name):
                continue
            self.rows.setdefault(one.name, one)
            if all(map(self.is_found, filter(None, (one.superclass, *one.interfaces)))):
                self.found.add(one.name)
            # (a superclass stands before its classes)
            self.depths.setdefault(one.name, self.depths.get(one.superclass, 0) + 1)

    def parents(self, name: str) -> str | None:
        """The superclass of a class, but Object, as far as the file has it."""
        one = self.rows.get(name)
        if one is None or one.superclass == OBJECT or self.depths[name] > DEEPEST:
            return None
        return one.superclass

    def is_found(self, type_: str) -> bool:
        """Whether a device that has the file surely finds a type: its class, and all that are above it."""
        name = type_.lstrip("[")
        return name[0] != "L" or name in self.found or name not in self.rows and FOUND.match(name) is not None

    def is_own(self, owner: str, ref: str) -> bool:
        """Whether a class itself, and no superclass of it, has the field that a name means, where it is given."""
        named, _, signature = ref.partition("->")
        return named == owner and signature in self.members_by_signature(owner, self.fields_of)

    def is_interface(self, name: str) -> bool | None:
        """None where the file doesn't have the class."""
        one = self.rows.get(name)
        return None if one is None else bool(one.flags & INTERFACE)

    def is_abstract(self, name: str) -> bool:
        one = self.rows.get(name)
        return one is not None and bool(one.flags & (INTERFACE | ABSTRACT))

    def is_never(self, name: str, wanted: str) -> bool:
        """Whether a class can't be of another class, which is none of its superclasses and no interface."""
        for _ in range(DEEPEST):
            if name == wanted:
                return False
            if name == OBJECT:
                return True
            one = self.rows.get(name)
            if one is None or one.superclass is None:
                return False
            name = one.superclass
        return False

    def is_incompatible(self, actual: str, wanted: str) -> bool:
        """Whether a value of a reference type can't be taken for one of another."""
        if actual == wanted or wanted == OBJECT:
            return False
        key = actual, wanted
        if key not in self.incompatible:
            self.incompatible[key] = self.compute_incompatible(actual, wanted)
        return self.incompatible[key]

    def compute_incompatible(self, actual: str, wanted: str) -> bool:
        depth = 0
        while actual[depth] == wanted[depth] == "[":
            depth += 1
        actual, wanted = actual[depth:], wanted[depth:]
        if actual == wanted or wanted == OBJECT and actual[0] in "L[":
            return False
        if actual[0] not in "L[" or wanted[0] != "L":
            return True
        # (each reference may be given where an interface is wanted)
        if wanted == THROWABLE and wanted not in self.rows:
            return actual[0] == "[" or self.is_never(actual, wanted)
        if self.is_interface(wanted) is not False:
            return False
        return actual[0] == "[" or self.is_never(actual, wanted)

    def field(self, ref: str) -> tuple[str, str, str]:
        """Owner, type and list (static, instance or none known) of a field that code names."""
        found = self.fields.get(ref)
        if found is None:
            owner, _, signature = ref.partition("->")
            lists = self.member(owner, signature, self.fields_of)
            found = self.fields[ref] = owner, signature.partition(":")[2], str(lists or "")
        return found

    def call(self, ref: MethodRef) -> Call:
        found = self.calls.get(ref)
        if found is None:
            parameters = tuple(map(str, ref.proto.parameters))
            words = len(parameters) + sum(one in "JD" for one in parameters)
            found = Call(str(ref.owner), ref.name, parameters, str(ref.proto.returns), words)
            self.calls[ref] = found
        return found

    def method(self, ref: str) -> int | None:
        """The flags of the method that a name leads to, with LISTED where it stands among the direct ones; None where
        the file doesn't say.
        """
        owner, _, signature = ref.partition("->")
        found: int | None = self.member(owner, signature, self.methods_of)
        return found

    def member(self, owner: str, signature: str, of: Callable[[Class], dict[str, Any]]) -> Any:
        """What a class has under a signature, or else the nearest of its superclasses."""
        for depth in range(DEEPEST):
            one = self.rows.get(owner)
            if one is None:
                return None
            found = self.members_by_signature(owner, of).get(signature)
            if found is not None:
                # (what a superclass has for itself isn't what is meant)
                return None if depth and of == self.methods_of and found & (PRIVATE | DIRECT) else found
            if one.superclass is None:
                return None
            owner = one.superclass
        return None

    def members_by_signature(self, owner: str, of: Callable[[Class], dict[str, Any]]) -> dict[str, Any]:
        """What a class of the file has, by signature."""
        if owner + of.__name__ not in self.members:
            self.members[owner + of.__name__] = of(self.rows[owner])
        return self.members[owner + of.__name__]

    def fields_of(self, one: Class) -> dict[str, str]:
        """Those of a class, the list of each; a name that is in both isn't told."""
        lists = {field.signature: "static" for field in one.statics}
        for field in one.instances:
            lists[field.signature] = "" if field.signature in lists else "instance"
        return lists

    def methods_of(self, one: Class) -> dict[str, int]:
        flags = {method.signature: method.flags & ~DIRECT for method in one.virtuals}
        return flags | {method.signature: method.flags & ~DIRECT | DIRECT for method in one.directs}
