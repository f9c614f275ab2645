"""Finds what a device's verifier of methods refuses in one method: for dexasm-lint --code.

blocks.py has its blocks, transfer.py and object_transfer.py what instructions take and leave, dataflow.py the kinds of
its registers before each block, provenance.py where a register has its kind from. In ART a kind is a RegType, a line a
RegisterLine, and a step a case of MethodVerifier's CodeFlowVerifyInstruction. A register that is wrong is reported
once: after that it has the kind ANY.
"""
from __future__ import annotations

import contextlib
from collections.abc import Iterator
from typing import TYPE_CHECKING, NamedTuple

from dexasm.analysis.verifier.blocks import Graph
from dexasm.analysis.verifier.dataflow import Flow
from dexasm.analysis.verifier.hierarchy import Hierarchy
from dexasm.analysis.verifier.lattice import ANY, OBJECT, PAIRS as WIDE_TYPES, THROWABLE, UNSET, Lattice, RegType
from dexasm.analysis.verifier.operands import put_pair
from dexasm.analysis.verifier.provenance import Origins
from dexasm.analysis.verifier.structure_rules import STATIC
from dexasm.analysis.verifier.transfer import step_of

if TYPE_CHECKING:
    from dexasm import classes as members
    from dexasm.code import Code

MOST_REPORTED = 5  # lines about one method
RULES = {
    "unset": "register-unset",
    "conflict": "ways-differ",
    "new": "uninitialized-use",
    "this": "uninitialized-use",
}


class Violation(NamedTuple):
    """What is wrong at an instruction, or in all of a method where the place is -1. A type in the text stands in
    braces; `kind` is what the register has, and `ways` are the places that it has it from, -1 of a parameter.
    """

    place: int
    rule: str
    text: str
    register: int = -1
    kind: RegType = UNSET
    ways: tuple[tuple[int, RegType], ...] = ()


Violations = dict[tuple[int, str, int], Violation]  # by place, rule and register


class Findings:
    """What is wrong in a method. While blocks are followed a register has the kinds of some edges alone, so findings
    are tentative; they are found again when each block is run once more, but for those of `lost`.
    """

    def __init__(self, registers: int) -> None:
        self.registers = registers
        self.tentative: Violations = {}
        self.final: Violations = {}
        self.current = self.tentative
        self.mentioned: set[int] = set()  # registers with a final finding
        self.at: dict[int, list[Violation]] = {}  # tentative findings by place, when the final ones are looked for

    @property
    def is_suspect(self) -> bool:
        """Whether anything was found while blocks were followed."""
        return bool(self.tentative)

    @contextlib.contextmanager
    def silence(self) -> Iterator[None]:
        """What is told meanwhile isn't kept."""
        before, self.current = self.current, {}
        yield
        self.current = before

    def report(self, place: int, rule: str, text: str, register: int = -1, kind: RegType = UNSET) -> None:
        self.current.setdefault((place, rule, register), Violation(place, rule, text, register, kind))
        if self.current is self.final:
            self.mentioned.add(register)

    def hidden(self, place: int, line: list[RegType], unknown: set[int]) -> list[Violation]:
        """Tentative findings at an instruction that a loop hides, since it led back a register of which something was
        told. (What is wrong on one way is wrong on all together.) `unknown` are those at the block's beginning; one of
        which something was told before isn't told of again.
        """

        def is_lost(wrong: Violation) -> bool:
            # (of a pair that is told of at its second register the first one may be it)
            pair = (wrong.register - 1, wrong.register)[wrong.rule != "pair-broken" :]
            is_new = self.mentioned.isdisjoint(pair)
            return wrong.register < 0 or is_new and any(one in unknown and line[one] is ANY for one in pair)

        return [wrong for wrong in self.at.get(place, ()) if is_lost(wrong)]

    def report_hidden(self, lost: list[Violation]) -> None:
        for wrong in lost:
            self.report(wrong.place, wrong.rule, wrong.text, wrong.register, wrong.kind or UNSET)

    def wrong(self, line: list[RegType], register: int, place: int, wanted: str) -> None:
        """A register isn't what the instruction takes."""
        kind, rule = line[register], "register-kind"
        if kind.base in RULES:
            rule = RULES[kind.base]
        elif kind.base.endswith(("low", "high")):
            rule = "pair-broken"
        self.wrong_as(line, register, place, rule, wanted)

    def wrong_as(self, line: list[RegType], register: int, place: int, rule: str, wanted: str) -> None:
        """The same, by this rule."""
        self.report(place, rule, wanted, register, line[register])
        line[register] = ANY

    def wrong_pair(self, line: list[RegType], register: int, place: int, wanted: str) -> None:
        first, second = line[register : register + 2]
        if first is not ANY and second is not ANY:
            rule, kind = RULES.get(first.base, "register-kind"), first
            if register + 1 == self.registers:
                self.report(place, "pair-outside", f"v{register} is the last register of the code: a pair needs two")
            elif first.other is not None and second is not first.other:
                self.report(place, "pair-broken", wanted, register + 1, second)
            elif first.base.endswith("high"):
                self.report(place, "pair-broken", wanted, register, first)
            else:
                self.report(place, rule, wanted, register, kind)
        line[register] = line[register + 1] = ANY

    def wrong_type(self, line: list[RegType], register: int, place: int, type_: str, rule: str) -> None:
        """A reference isn't of the class or the array that is wanted."""
        self.wrong_as(line, register, place, rule, "an array" if type_ == "[" else f"`{type_}`")


class Method(Findings):
    """One method of a class. The line of a block is the kind of each register, one more that no instruction names, and
    last, in a constructor, whether another one was called: its object's kind.
    """

    def __init__(
        self, classes: Hierarchy, kinds: Lattice, one: members.Class, method: members.Method, code: Code
    ) -> None:
        super().__init__(code.registers)
        self.classes, self.kinds, self.code = classes, kinds, code
        self.class_name, self.above = str(one.name), one.superclass
        self.is_owner_asked = False
        self.returns, self.name = str(method.proto.returns), method.name
        self.is_static = bool(method.flags & STATIC)
        self.is_init = method.name == "<init>" and not self.is_static and self.class_name != OBJECT
        self.parameters = method.proto.parameters
        self.insns = code.insns
        self.steps = [step_of(insn.mnemonic) for insn in self.insns]
        self.graph = Graph(code, self.steps)
        self.news: dict[int, RegType] = {}
        # What each handler catches; those of what is no Throwable; the blocks of those that name no class which a
        # device surely finds: where it doesn't, what is behind the move-exception counts as unreachable.
        self.caught: dict[int, RegType] = {}
        self.never: dict[int, str] = {}
        self.cut = self.read_catches()

    def read_catches(self) -> set[int]:
        known = set()
        for place, type_ in self.graph.catches:
            kind = self.kinds.ref(type_)
            self.caught[place] = self.kinds.join(self.caught[place], kind) if place in self.caught else kind
            if self.classes.is_found(type_):
                known.add(place)
                if self.classes.is_incompatible(type_, THROWABLE):
                    self.never.setdefault(place, type_)
        unsure = (at for at in self.caught.keys() - known if self.insns[at].mnemonic == "move-exception")
        return {self.graph.blocks[at] for at in unsure}

    def end_of(self, block: int) -> int:
        """The place behind what is run of a block."""
        return self.graph.starts[block] + 1 if block in self.cut else self.graph.starts[block + 1]

    # ---- what steps ask

    @property
    def owner(self) -> str:
        """The class of the method. What is told without asking for it holds in each class."""
        self.is_owner_asked = True
        return self.class_name

    def new(self, place: int, type_: str) -> RegType:
        kind = self.news.get(place)
        if kind is None:
            kind = self.news[place] = RegType("new", "", type_, place)
        return kind

    def result_type(self, place: int) -> str | None:
        """The type that the instruction before this one answers, None where it is no call."""
        insn = self.insns[place - 1] if place else None
        if insn is None or insn.mnemonic[:7] not in ("invoke-", "filled-"):
            return None
        if insn.mnemonic[0] == "f":
            return str(insn.name)
        return self.classes.call(insn.name).returns  # type: ignore[arg-type]

    def check_outs(self, place: int, count: int) -> None:
        """That the outs are enough for a call of so many registers."""
        if count <= self.code.outs:
            return
        text = f"outs of the code are {self.code.outs}, and the call takes {count}"
        self.report(place, "outs-short", f"{text}: write {count} as the third number of the line that says code")

    def entry_state(self) -> list[RegType] | None:
        """The kinds at the method's beginning: the parameters are in the last registers."""
        words = [] if self.is_static else [self.owner]
        words += map(str, self.parameters)
        needed = sum(2 if word in WIDE_TYPES else 1 for word in words)
        if needed != self.code.ins:
            text = f"ins of the code are {self.code.ins}, and the method's parameters take {needed}"
            self.report(-1, "ins-count", f"{text}: write {needed} as the second number of the line that says code")
            return None
        line = [UNSET] * (self.registers + 2)
        line[-1] = ANY
        at = self.registers - needed
        for word in words:
            if word in WIDE_TYPES:
                put_pair(self, line, at, -1, WIDE_TYPES[word])
                at += 1
            else:
                line[at] = self.kinds.of(word)
            at += 1
        if self.is_init:
            this = RegType("this", "", self.owner)
            line[self.registers - needed] = line[-1] = this
        return line

    def check_edge(self, place: int, to: int) -> None:
        """That the instruction at `to` may be reached from the one at this place."""
        mnemonic = self.insns[to].mnemonic
        if mnemonic[:5] != "move-":
            return
        if mnemonic == "move-exception" and to in self.caught:
            text = "this handler is also reached as no handler"
            self.report(to, "exception-place", f"{text}, from `{place}`: move-exception takes what was thrown")
        elif mnemonic[:11] == "move-result" and to != place + 1:
            text = f"{mnemonic} is led to from `{place}`: the call has to come before it on each way"
            self.report(to, "result-place", text)

    # ---- all of it

    def check(self) -> list[Violation]:
        """What is wrong, in the order of the code."""
        flow = Flow(self)
        if not self.is_suspect:
            return []
        self.current = self.final
        for wrong in self.tentative.values():
            self.at.setdefault(wrong.place, []).append(wrong)
        if self.entry_state() is not None:
            for block, line in enumerate(flow.before):
                if line is not None:
                    flow.report(block, line[:])
        found = sorted(self.final.values(), key=lambda wrong: wrong.place)
        if not any(wrong.register >= 0 for wrong in found[:MOST_REPORTED]):
            return found
        origins = Origins(flow)
        return [
            wrong._replace(ways=tuple(origins.ways(wrong.place, wrong.register, wrong.kind)))
            if at < MOST_REPORTED and wrong.register >= 0
            else wrong
            for at, wrong in enumerate(found)
        ]

    def states(self) -> Iterator[tuple[int, list[RegType]]]:
        """The kinds of the registers before each instruction that a way leads to."""
        for block, before in enumerate(Flow(self).before):
            line = [*(before or ())]
            for place in range(self.graph.starts[block], self.end_of(block) if line else 0):
                yield place, line[: self.registers]
                self.steps[place].run(self, self.insns[place], line, place)
