"""What dexasm-merge --fit does: strings beyond the 65,536th are loaded by const-string/jumbo, and a branch that doesn't
reach goes further.
"""
from __future__ import annotations

from collections import Counter
from typing import TYPE_CHECKING

from dexasm.code import Code, Insn, Label
from dexasm.dexfile import Tables
from dexasm.formats import format_of

if TYPE_CHECKING:
    from dexasm.program import Program

NEAR = 1 << 16  # strings that const-string reaches
JUMBO = "const-string/jumbo"
OTHERWISE = {"if-eq": "if-ne", "if-lt": "if-ge", "if-gt": "if-le"}
OTHERWISE |= {no: yes for yes, no in OTHERWISE.items()}
OTHERWISE |= {f"{yes}z": f"{no}z" for yes, no in OTHERWISE.items()}
FURTHER = {"goto": "goto/16", "goto/16": "goto/32"}
FAR = 127  # units that each branch reaches


def fit(program: Program, far: set[str] | None) -> Counter[str]:
    """Changes the codes of a program; `far` are the texts that const-string doesn't reach, None for all. Answers what
    was done, how often."""
    done: Counter[str] = Counter()
    for one in program.classes:
        for method in one.methods:
            text = str(method.code or "")
            has_branches = text.count("\n") > FAR // 5 and ("goto" in text or "\nif-" in text)
            if method.code is not None and ("const-string" in text or has_branches):
                for insn in method.code.insns:
                    if insn.mnemonic == "const-string" and (far is None or insn.text in far):
                        insn.mnemonic = JUMBO
                        done[f"const-string by {JUMBO}"] += 1
                reach(method.code, done)
    return done


def reach(code: Code, done: Counter[str]) -> None:
    """Has each branch go as far as it has to. What grows may push another target out of reach, so this is asked again
    until nothing grows."""
    while True:
        places, at = {}, 0
        for insn in code.insns:
            at += is_payload(insn) and at % 2  # (assemble --align puts a nop there)
            places[id(insn)] = at
            at += insn.units
        short = [insn for insn in code.insns if not reaches(insn, places)]
        if not short:
            return
        for insn in short:
            done[grow(code, insn)] += 1


def is_payload(insn: Insn) -> bool:
    return insn.mnemonic.endswith("-payload")


def reaches(insn: Insn, places: dict[int, int]) -> bool:
    form = format_of(insn.mnemonic)
    if insn.target is None or insn.target.insn is None or form is None or form.target == 32:
        return True
    offset = places[id(insn.target.insn)] - places[id(insn)]
    return -(1 << form.target - 1) <= offset < 1 << form.target - 1


def grow(code: Code, insn: Insn) -> str:
    """Has a branch go further; answers what was done."""
    if insn.mnemonic in FURTHER:
        old, insn.mnemonic = insn.mnemonic, FURTHER[insn.mnemonic]
        return f"{old} by {insn.mnemonic}"
    # (an `if` that goes to the next instruction where it went on before, and a goto after it)
    after = code.insns[next(at for at, one in enumerate(code.insns) if one is insn) + 1]
    far = Insn("goto/32", target=insn.target)
    code.replace(insn, turned := Insn(OTHERWISE[insn.mnemonic], *insn.registers, target=Label(after)), far)
    return f"{insn.mnemonic[:2]} by {turned.mnemonic[:2]} around goto/32"


def far_texts(file: bytes) -> set[str]:
    """The strings of a file that const-string doesn't reach."""
    tables = Tables(file)
    return {tables.text(index) for index in range(NEAR, tables.count["string"])}
