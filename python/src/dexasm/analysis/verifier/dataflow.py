"""Follows the kinds of a method's registers through its blocks until they change no more, for dexasm-lint --code.

An edge leads to a handler from before each covered instruction that can throw.
"""
from __future__ import annotations

import heapq
from collections.abc import Iterator
from typing import TYPE_CHECKING

from dexasm.analysis.verifier.lattice import ANY, REFERENCE, RegType

if TYPE_CHECKING:
    from dexasm.analysis.verifier.blocks import Graph
    from dexasm.analysis.verifier.method import Method

MOST_CELLS = 1 << 25  # kinds that are kept: registers by blocks
STEP = 16  # registers that can be joined while one instruction is run
MOST_WORK, MOST_EACH = 1 << 20, 2400  # joined registers for a method, and more for each of its instructions


class TooMuch(Exception):
    """A method has too many blocks and registers, or its edges join too often."""


class Flow:
    """The kinds of the registers before each block of a method; None where no edge leads to it."""

    def __init__(self, method: Method) -> None:
        self.method = method
        self.graph: Graph = method.graph
        self.before: list[list[RegType] | None] = [None] * len(self.graph.starts)
        self.due: list[int] = []  # blocks
        self.is_due = [False] * len(self.graph.starts)
        self.cells = self.work = 0
        line = method.entry_state()
        if line is None:
            return
        self.merge(line, 0)
        while self.due:
            block = heapq.heappop(self.due)
            self.is_due[block] = False
            self.run(block, [*(self.before[block] or ())])

    def merge(self, line: list[RegType], block: int) -> None:
        """Joins these kinds with those before a block."""
        old = self.before[block]
        if old is None:
            self.cells += len(line)
            if self.cells > MOST_CELLS:
                raise TooMuch
            self.before[block] = line[:]
        elif old == line:
            return
        else:
            join, self.work = self.method.kinds.join, self.work + len(line)
            joined = [one if one is other else join(one, other) for one, other in zip(old, line)]
            if joined == old:
                return
            self.before[block] = joined
        if not self.is_due[block]:
            self.is_due[block] = True
            heapq.heappush(self.due, block)

    def spend(self, work: int) -> None:
        self.work += work
        if self.work > MOST_WORK + MOST_EACH * len(self.method.insns):
            raise TooMuch

    def places(self, block: int, line: list[RegType]) -> range:
        """The places of a block's instructions, which cost work."""
        first, end = self.graph.starts[block], self.method.end_of(block)
        self.spend(STEP * (end - first) + len(line) // 4)
        return range(first, end)

    def run(self, block: int, line: list[RegType]) -> None:
        """Runs the instructions of a block, and joins the kinds after it with those before its successors."""
        method, handlers = self.method, self.graph.handlers[block]
        before: list[RegType] | None = None
        for place in self.places(block, line):
            step = method.steps[place]
            if handlers and step.throws and line != before:
                self.spend(len(handlers) * (len(line) // 2 + STEP))
                before = line[:]
                self.merge_all(line, handlers)
            step.run(method, method.insns[place], line, place)
        for to, after in self.edges(block, line):
            self.merge(after, self.graph.blocks[to])

    def merge_all(self, line: list[RegType], blocks: tuple[int, ...]) -> None:
        for block in blocks:
            self.merge(line, block)

    def report(self, block: int, line: list[RegType]) -> None:
        """Runs a block once more, so that all that is wrong in it is reported."""
        method = self.method
        unknown = {one for one in range(method.registers) if line[one] is ANY}
        for place in self.places(block, line):
            lost = method.hidden(place, line, unknown) if unknown else []
            method.steps[place].run(method, method.insns[place], line, place)
            method.report_hidden(lost)
        for _ in self.edges(block, line):
            pass

    def edges(self, block: int, line: list[RegType]) -> Iterator[tuple[int, list[RegType]]]:
        """Where the flow leads behind a block, and with which kinds. An edge that may not be is told."""
        if block in self.method.cut:
            return
        method, last = self.method, self.graph.starts[block + 1] - 1
        true, refined = self.refined(block, last, line)
        if not method.steps[last].ends:
            if last + 1 == len(method.insns):
                text = "the flow runs past the last instruction: a return, a throw or a goto has to end it"
                method.report(last, "falls-off", text)
            else:
                method.check_edge(last, last + 1)
                yield last + 1, refined if true == last + 1 else line
        for to in self.graph.targets.get(last, ()):
            method.check_edge(last, to)
            yield to, refined if true == to else line

    def refined(self, block: int, last: int, line: list[RegType]) -> tuple[int, list[RegType]]:
        """Where it goes on if the instance-of before a branch is true, and what is known there: a device takes the
        object for one of that class, so nothing is said of its type.
        """
        insns, targets = self.method.insns, self.graph.targets
        insn, place = insns[last], last - 1
        if insn.mnemonic not in ("if-eqz", "if-nez") or place < self.graph.starts[block]:
            return -1, line
        test = insns[place]
        to = targets[last][0] if insn.mnemonic == "if-nez" else last + 1
        if test.mnemonic != "instance-of" or test.registers[0] != insn.registers[0] or targets[last] == [last + 1]:
            return -1, line
        kind = line[test.registers[1]]
        if kind.base != "reference":
            return -1, line
        return to, [REFERENCE if one is kind else one for one in line]
