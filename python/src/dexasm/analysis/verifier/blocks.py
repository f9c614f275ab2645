"""The control-flow graph of a code, for dexasm-lint --code: its basic blocks, and where they lead."""
from __future__ import annotations

from bisect import bisect_right
from collections.abc import Iterator
from typing import TYPE_CHECKING

from dexasm.analysis.verifier.lattice import THROWABLE

if TYPE_CHECKING:
    from dexasm.analysis.verifier.transfer import Step
    from dexasm.code import Code, Insn, Label, Try

    Places = dict[int, int]  # the number of each instruction, by its id


class Graph:
    """Basic blocks by number. `starts` has the place of each block's first instruction and, last, the code's end."""

    def __init__(self, code: Code, steps: list[Step]) -> None:
        insns = code.insns
        places = {id(insn): place for place, insn in enumerate(insns)} | {id(None): len(insns)}
        # Of each branch and switch where it leads.
        self.targets = {place: [*targets(insn, places)] for place, insn in enumerate(insns) if is_branch(insn)}
        tries = [covered(one, places) for one in code.tries]
        of_tries = (place for first, end, handlers in tries for place in (first, end, *handlers))
        self.starts = sorted({0, len(insns), *self.starts_of(insns, steps), *of_tries})
        self.blocks = {start: block for block, start in enumerate(self.starts)}
        # Of each block the blocks of its handlers.
        self.handlers: list[tuple[int, ...]] = [()] * len(self.starts)
        for first, end, handlers in tries:
            count = self.blocks[end] - self.blocks[first]
            into = tuple(self.blocks[place] for place in handlers)
            self.handlers[self.blocks[first] : self.blocks[end]] = [into] * count
        # Where handlers begin, and what they catch.
        self.catches = [(places[id(one.target.insn)], str(one.type)) for each in code.tries for one in each.catches]
        last = [one.catch_all for one in code.tries if one.catch_all is not None]
        self.catches += [(place_of(label, places), THROWABLE) for label in last]

    def starts_of(self, insns: list[Insn], steps: list[Step]) -> Iterator[int]:
        """Where blocks begin for what instructions are and where they lead."""
        for place, insn in enumerate(insns):
            yield from self.targets.get(place, ())
            if steps[place].ends or place in self.targets:
                yield place + 1
            if insn.mnemonic[-8:] == "-payload":
                yield place

    def block_at(self, place: int) -> int:
        """The block that has an instruction."""
        return bisect_right(self.starts, place) - 1


def is_branch(insn: Insn) -> bool:
    return insn.target is not None and insn.mnemonic != "fill-array-data"


def targets(insn: Insn, places: Places) -> Iterator[int]:
    """Where a branch or a switch leads, each place once."""
    labels = insn.target.insn.targets if insn.mnemonic[-7:] == "-switch" else (insn.target,)  # type: ignore[union-attr]
    return iter(dict.fromkeys(place_of(label, places) for label in labels))


def place_of(label: Label, places: Places) -> int:
    return places[id(label.insn)]


def covered(one: Try, places: Places) -> tuple[int, int, list[int]]:
    """Where a try begins and ends, and where its handlers begin."""
    labels = [catch.target for catch in one.catches] + ([] if one.catch_all is None else [one.catch_all])
    handlers = [*dict.fromkeys(place_of(label, places) for label in labels)]
    return place_of(one.start, places), place_of(one.end, places), handlers
