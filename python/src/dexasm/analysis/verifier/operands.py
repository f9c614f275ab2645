"""What the steps of dexasm-lint --code ask of registers, and how they leave values in them.

`line` has the kinds of the registers, and the method is told what is wrong (method.py has both)."""
from __future__ import annotations

from collections.abc import Callable, Sequence
from operator import attrgetter
from typing import TYPE_CHECKING

from dexasm.analysis.verifier.lattice import ANY, NUMBERS, PAIRS, RegType

if TYPE_CHECKING:
    from dexasm.analysis.verifier.method import Method

RegisterLine = list[RegType]


Require = Callable[["Method", RegisterLine, int, int], None]


def single(attribute: str, wanted: str) -> Require:
    """Checks that a register has such a kind."""
    is_one: Callable[[RegType], bool] = attrgetter(attribute)

    def require(method: Method, line: RegisterLine, register: int, place: int) -> None:
        if not is_one(line[register]):
            method.wrong(line, register, place, wanted)

    return require


def pair(attribute: str, wanted: str) -> Require:
    """Checks that two registers have the halves of such a pair."""
    is_one: Callable[[RegType], bool] = attrgetter(attribute)

    def require(method: Method, line: RegisterLine, register: int, place: int) -> None:
        kind = line[register]
        if not is_one(kind) or line[register + 1] is not kind.other:
            method.wrong_pair(line, register, place, wanted)

    return require


require_int, require_reference = single("is_int", "an int"), single("is_ref", "a reference")
require_wide = pair("is_wide", "a long or a double")
REQUIRE = dict.fromkeys("ZBSCI", require_int)
REQUIRE |= {"F": single("is_float", "a float"), "J": pair("is_long", "a long"), "D": pair("is_double", "a double")}
# R: a reference; O: also a new object whose constructor wasn't called.
REQUIRE |= {"R": require_reference, "O": single("is_object", "a reference")}


def require_type(method: Method, line: RegisterLine, register: int, place: int, type_: str, rule: str) -> None:
    """Asks that a register has a value that can be one of this type."""
    if type_[0] not in "L[":
        REQUIRE[type_](method, line, register, place)
        return
    kind = line[register]
    if not kind.is_ref:
        method.wrong(line, register, place, f"a reference (`{type_}`)")
    elif kind.type is not None and method.classes.is_incompatible(kind.type, type_):
        method.wrong_type(line, register, place, type_, rule)


def put(method: Method, line: RegisterLine, register: int, place: int, type_: str) -> None:
    """Leaves a value of this type in a register, and of a pair in the next one too."""
    if type_ in PAIRS:
        put_pair(method, line, register, place, PAIRS[type_])
    else:
        line[register] = NUMBERS[type_] if type_ in NUMBERS else method.kinds.ref(type_)


def put_pair(method: Method, line: RegisterLine, register: int, place: int, halves: Sequence[RegType]) -> None:
    if register + 1 == method.registers:
        method.report(place, "pair-outside", f"v{register} is the last register of the code: a pair needs two")
        line[register] = ANY
    else:
        line[register], line[register + 1] = halves


def put_some(method: Method, line: RegisterLine, to: int, place: int, some: Sequence[RegType]) -> None:
    if len(some) == 2:
        put_pair(method, line, to, place, some)
    else:
        line[to] = some[0]
