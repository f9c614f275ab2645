"""The kinds of what a register can hold, and how two of them join where ways meet: for dexasm-lint --code.

They are a lattice: of two kinds the join is the least one that is above both. At its bottom are constants that an
instruction can still take in several ways; near the top is CONFLICT, of which nothing may be read; above that is UNSET,
which may not even be moved; above that is ANY, which nothing is said of: what an array of unknown elements gives, and a
register that was complained about already."""
from __future__ import annotations

import itertools
from collections.abc import Callable, Iterator

OBJECT, THROWABLE, CLASS = "Ljava/lang/Object;", "Ljava/lang/Throwable;", "Ljava/lang/Class;"
# The ranges that are told apart, each in those that have it; of two the join is the first that has both.
RANGES = {
    "boolean": (0, 1),
    "0 to 127": (0, 0x7F),
    "byte": (-0x80, 0x7F),
    "0 to 32767": (0, 0x7FFF),
    "short": (-0x8000, 0x7FFF),
    "char": (0, 0xFFFF),
    "int": (-0x80000000, 0x7FFFFFFF),
}
SIDES = ("low", "high")


class RegType:
    """What a register can hold. Each kind is there once, so that two are equal where they are one object.

    `range` is that of an int or a constant (of a reference, what is known of it besides its type), `type` the
    descriptor of a reference, None where it isn't known, `place` that of the new-instance, and `other`, of the first
    half of a pair, the second. The others say as what it may be read: an object is a reference, or new and without its
    constructor; a single one is an int or a float.
    """

    __slots__ = (
        *("base", "range", "type", "place", "other", "is_int", "is_float", "is_ref", "is_object", "is_single"),
        *("is_long", "is_double", "is_wide"),
    )

    def __init__(self, base: str, range_: str = "", type_: str | None = None, place: int = -1) -> None:
        self.base, self.range, self.type, self.place = base, range_, type_, place
        self.other: RegType | None = None
        self.is_int = base in ("any", "zero", "constant", "int")
        self.is_float = base in ("any", "zero", "constant", "float")
        self.is_ref = base in ("any", "zero", "null", "reference")
        self.is_object = self.is_ref or base in ("new", "this")
        self.is_single = self.is_int or self.is_float
        self.is_long = base in ("any", "long low", "wide low")
        self.is_double = base in ("any", "double low", "wide low")
        self.is_wide = self.is_long or self.is_double

    def __repr__(self) -> str:
        return " ".join(filter(None, (self.base, self.range, self.type, "" if self.place < 0 else f"@{self.place}")))


ANY, CONFLICT, UNSET = RegType("any"), RegType("conflict"), RegType("unset")
ZERO, NULL, FLOAT, REFERENCE = RegType("zero"), RegType("null"), RegType("float"), RegType("reference")
# What references without a common class join to: it is no array, unless all of them are arrays of references.
NO_ARRAY, REFERENCES = RegType("reference", "no array"), RegType("reference", "array of references")
CONSTANTS = {name: RegType("constant", name) for name in RANGES}
INTS = {name: RegType("int", name) for name in RANGES}
HALVES = {(base, side): RegType(f"{base} {side}") for base in ("long", "double", "wide") for side in SIDES}
LONG, DOUBLE, WIDE = (tuple(HALVES[base, side] for side in SIDES) for base in ("long", "double", "wide"))
for first, second in (LONG, DOUBLE, WIDE):
    first.other = second
ANY.other = ANY
BASE: tuple[RegType, ...] = (ANY, CONFLICT, UNSET, ZERO, NULL, FLOAT, REFERENCES, NO_ARRAY, REFERENCE)
BASE += (*CONSTANTS.values(), *INTS.values(), *HALVES.values())
INT, BOOLEAN, BYTE, SHORT, CHAR = (INTS[name] for name in ("int", "boolean", "byte", "short", "char"))
NUMBERS = {"Z": BOOLEAN, "B": BYTE, "S": SHORT, "C": CHAR, "I": INT, "F": FLOAT}
PAIRS = {"J": LONG, "D": DOUBLE}


def common_range(one: str, other: str) -> str:
    """The narrowest range that has two ranges."""
    low = min(RANGES[one][0], RANGES[other][0])
    high = max(RANGES[one][1], RANGES[other][1])
    return next(name for name, (least, most) in RANGES.items() if least <= low and high <= most)


def constant(number: int) -> RegType:
    """The kind of a constant of 32 bits."""
    if number == 0:
        return ZERO
    return next(CONSTANTS[name] for name, (least, most) in RANGES.items() if least <= number <= most)


UPWARDS = {NULL: REFERENCES, REFERENCES: NO_ARRAY, NO_ARRAY: REFERENCE}


def above(one: RegType) -> Iterator[RegType]:
    """The kinds just above one of those that each file has; CONFLICT, UNSET and ANY are above all."""
    if one is ZERO:
        yield from (NULL, FLOAT, CONSTANTS["boolean"])
    elif one in UPWARDS:
        yield UPWARDS[one]
    elif one.base == "constant":
        yield from (FLOAT, INTS[one.range])
        yield from (CONSTANTS[name] for name in RANGES if name != one.range and common_range(name, one.range) == name)
    elif one.base == "int":
        yield from (INTS[name] for name in RANGES if name != one.range and common_range(name, one.range) == name)
    elif one.base.startswith("wide"):
        yield from (HALVES[base, one.base[5:]] for base in ("long", "double"))


def all_above(one: RegType) -> list[RegType]:
    """The kind, and all above it but CONFLICT, UNSET and ANY."""
    found = [one]
    for kind in found:
        found += [up for up in above(kind) if up not in found]
    return found


def table() -> dict[tuple[RegType, RegType], RegType]:
    """The join of each two of the kinds that each file has."""
    ups = {kind: all_above(kind) for kind in BASE if kind not in (ANY, UNSET, CONFLICT)}
    return {(one, other): joined(ups, one, other) for one, other in itertools.product(BASE, BASE)}


def joined(ups: dict[RegType, list[RegType]], one: RegType, other: RegType) -> RegType:
    if one is other:
        return one
    for top in (ANY, UNSET):
        if top in (one, other):
            return top
    shared = [kind for kind in ups.get(one, ()) if kind in ups.get(other, ())]
    return next((kind for kind in shared if set(shared) <= set(ups[kind])), CONFLICT)


JOINS = table()


def shape(one: RegType) -> RegType:
    """What is known of a reference besides its class."""
    if one.type is None:
        return one
    return REFERENCES if one.type[0] == "[" and one.type[1] in "L[" else NO_ARRAY


class Lattice:
    """The kinds of a program: besides those that each has, references by their types and objects whose constructor
    wasn't called. `parents` leads from a class to its superclass, or to None where what is above isn't asked.
    """

    def __init__(self, parents: Callable[[str], str | None]) -> None:
        self.parents = parents
        self.refs: dict[str, RegType] = {}
        self.joins = dict(JOINS)

    def ref(self, type_: str) -> RegType:
        kind = self.refs.get(type_)
        if kind is None:
            kind = self.refs[type_] = RegType("reference", "", type_)
        return kind

    def of(self, type_: str) -> RegType:
        """What a register holds that has a value of this type; of a pair the first one."""
        if type_[0] in "L[":
            return self.ref(type_)
        return NUMBERS[type_] if type_ in NUMBERS else PAIRS[type_][0]

    def join(self, one: RegType, other: RegType) -> RegType:
        if one is other:
            return one
        found = self.joins.get((one, other))
        if found is None:
            found = self.compute_join(one, other)
            if found.base == "reference":  # (objects without a constructor are of one method alone, and aren't kept)
                self.joins[one, other] = self.joins[other, one] = found
        return found

    def compute_join(self, one: RegType, other: RegType) -> RegType:
        """The join of two, of which one has a type."""
        for top in (ANY, UNSET):
            if top in (one, other):
                return top
        for kind, with_ in ((one, other), (other, one)):
            if kind in (ZERO, NULL) and with_.base == "reference":
                return with_
        if one.base != "reference" or other.base != "reference":
            return CONFLICT
        if one.type and other.type:
            # the nearest class that both are of, as far as it isn't Object
            ups, others = [*self.line(one.type)], {*self.line(other.type)}
            found = next((name for name in ups if name in others), None)
            if found is not None:
                return self.ref(found)
        return JOINS[shape(one), shape(other)]

    def line(self, name: str | None) -> Iterator[str]:
        while name is not None:
            yield name
            name = self.parents(name)
