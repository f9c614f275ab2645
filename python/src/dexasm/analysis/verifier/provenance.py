"""Where a register has its kind from, for what dexasm-lint --code says of it."""
from __future__ import annotations

import itertools
from typing import TYPE_CHECKING

from dexasm.analysis.verifier.lattice import CONFLICT, NO_ARRAY, UNSET, RegType

if TYPE_CHECKING:
    from dexasm.analysis.verifier.dataflow import Flow

MOST_WAYS = 64  # places that are looked at for where a register has its kind from


class Origins:
    """What each instruction of a method writes, and from where each block is reached."""

    def __init__(self, flow: Flow) -> None:
        self.method, self.graph = flow.method, flow.graph
        self.wrote: dict[int, dict[int, RegType]] = {}  # by place and register
        self.sources: list[list[int]] = [[] for _ in self.graph.starts]  # the blocks that lead to each
        self.covered: dict[int, list[int]] = {}  # of a handler's block those from which it is reached
        self.reached: dict[tuple[int, int], list[tuple[int, int]]] = {}
        with self.method.silence():
            self.before_all = self.method.entry_state() or []
            for block, line in enumerate(flow.before):
                if line is not None:
                    self.note(block, line[:])

    def note(self, block: int, line: list[RegType]) -> None:
        method, graph = self.method, self.graph
        for place in range(graph.starts[block], method.end_of(block)):
            step, insn = method.steps[place], method.insns[place]
            step.run(method, insn, line, place)
            if step.writes:
                first = insn.registers[0]
                self.wrote[place] = {register: line[register] for register in range(first, first + 1 + step.is_wide)}
        if block in method.cut:
            return
        last = graph.starts[block + 1] - 1
        for to in [*graph.targets.get(last, ()), *([] if method.steps[last].ends else [last + 1])]:
            self.sources[graph.blocks[to]].append(block)
        for handler in graph.handlers[block]:
            self.covered.setdefault(handler, []).append(block)

    def ways(self, place: int, register: int, joined: RegType) -> list[tuple[int, RegType]]:
        """The places that this register can have its kind from: one each of two kinds that differ as it says."""
        found = sorted(self.of(place, register).items())
        pairs = itertools.combinations(found if joined in (CONFLICT, UNSET, NO_ARRAY) else (), 2)
        apart = (pair for pair in pairs if self.method.kinds.join(pair[0][1], pair[1][1]) is joined)
        return [*next(apart, found[:1])]

    def of(self, place: int, register: int) -> dict[int, RegType]:
        """What was written into this register, by the places that lead here, -1 for the method's beginning."""
        found: dict[int, RegType] = {}
        visited: set[tuple[int, int]] = set()
        due = [(self.graph.block_at(place), place)]
        while due and len(found) < MOST_WAYS:
            block, end = due.pop()
            places = range(end - 1, self.graph.starts[block] - 1, -1)  # the last that writes it, before another one
            at = next((at for at in places if register in self.wrote.get(at, ())), -1)
            if at >= 0:
                found[at] = self.wrote[at][register]
                continue
            if block == 0:
                found[-1] = self.before_all[register]
            more = [one for one in self.reached_from(block, register) if one not in visited]
            visited.update(more)
            due += more
        return found

    def reached_from(self, block: int, register: int) -> list[tuple[int, int]]:
        """Blocks and places in them, or their ends, from where a block is reached with what this register has there."""
        if (block, register) not in self.reached:
            found = [(before, self.graph.starts[before + 1]) for before in self.sources[block]]
            covered = self.covered.get(block, ())
            found += [(before, at) for before in covered for at in self.throwing(before, register)]
            self.reached[block, register] = found
        return self.reached[block, register]

    def throwing(self, block: int, register: int) -> list[int]:
        """The places of a block that can throw, one for each way in which it has this register there."""
        found: list[int] = []
        is_new = True
        for place in range(self.graph.starts[block], self.graph.starts[block + 1]):
            if is_new and self.method.steps[place].throws:
                found.append(place)
                is_new = False
            is_new = is_new or register in self.wrote.get(place, ())
        return found
