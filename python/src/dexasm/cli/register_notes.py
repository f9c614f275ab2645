"""The kinds of registers before each instruction, as dexasm-lint --code follows them: for dexasm-query show --kinds."""
from __future__ import annotations

from typing import TYPE_CHECKING

from dexasm.analysis.verifier.dataflow import TooMuch
from dexasm.analysis.verifier.hierarchy import Hierarchy
from dexasm.analysis.verifier.lattice import UNSET, Lattice, RegType
from dexasm.analysis.verifier.method import Method
from dexasm.names import spelled

if TYPE_CHECKING:
    from dexasm import classes as members
    from dexasm.program import Program

DESCRIPTIONS = {
    "zero": "0", "null": "null", "float": "float", "conflict": "several kinds", "wide low": "64 bits", "wide high": "..",
    "long low": "long", "long high": "..", "double low": "double", "double high": "..", "any": "anything",
    "unset": "nothing",
}  # fmt: skip


def describe(kind: RegType) -> str:
    """A kind in a few words, a class as a listing has it."""
    if kind.type is not None and kind.base in ("reference", "new", "this"):
        return f"{'' if kind.base == 'reference' else kind.base + ' '}{spelled(kind.type)}"
    if kind.base in ("int", "constant"):
        return kind.range if kind.base == "int" else f"constant {kind.range}"
    return DESCRIPTIONS.get(kind.base, kind.base)


class Registers:
    """What the registers of a program's methods have."""

    def __init__(self, program: Program) -> None:
        self.classes = Hierarchy(program)
        self.kinds = Lattice(self.classes.parents)

    def notes(self, one: members.Class, method: members.Method) -> list[str]:
        """Of each instruction a comment that says which registers have another kind before it than before the one
        above; "" where none has, or where no way leads there."""
        if method.code is None:
            return []
        flow = Method(self.classes, self.kinds, one, method, method.code)
        notes = [""] * len(flow.insns)
        try:
            old: list[RegType] = [UNSET] * flow.registers
            for place, line in sorted(flow.states()):
                changed = [f"v{at} {describe(kind)}" for at, kind in enumerate(line) if kind is not old[at]]
                notes[place] = f"# {', '.join(changed)}" if changed else ""
                old = line
        except TooMuch:
            return ["# too many registers and ways to be followed", *notes[1:]]
        return notes
