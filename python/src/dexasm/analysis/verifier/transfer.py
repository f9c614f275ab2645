"""What each instruction takes of a method's registers and what it leaves in them: for dexasm-lint --code.

A step is given the method (method.py has it), the instruction, the kinds of the registers and the instruction's
number. It asks what the page "Dalvik bytecode constraints" asks of the instruction, changes the kinds, and tells the
method what is wrong; a register that was told of has no kind any more that anything is said of."""
from __future__ import annotations

import functools
import re
from collections.abc import Callable
from itertools import permutations
from typing import TYPE_CHECKING, Any, NamedTuple

from dexasm.analysis.verifier import lattice as kinds, object_transfer as objects
from dexasm.analysis.verifier.lattice import ANY, CONFLICT, INT, NUMBERS, PAIRS, THROWABLE, WIDE

from dexasm.analysis.verifier.operands import (
    REQUIRE, RegisterLine, put, put_pair, require_int, require_type, require_wide,
)  # fmt: skip

if TYPE_CHECKING:
    from dexasm.analysis.verifier.method import Method
    from dexasm.code import Insn

ADD = r"(?:add|sub|mul|div|rem)"
SHIFT = r"(?:sh[lr]|ushr)"
TYPES = {"int": "I", "long": "J", "float": "F", "double": "D"}
# The instructions of which no more is asked than kinds: the register that is written and its type, and each that is
# read with the type (O is any object, also one whose constructor wasn't called; R a reference). One row a family.
ARITHMETIC = (
    (rf"(?:{ADD}|{SHIFT})-int", "0=I 1I 2I"),
    (rf"(?:{ADD}|and|or|xor)-long", "0=J 1J 2J"),
    (rf"{SHIFT}-long", "0=J 1J 2I"),
    (rf"{ADD}-float", "0=F 1F 2F"),
    (rf"{ADD}-double", "0=D 1D 2D"),
)
ROWS = (
    *ARITHMETIC,
    *((f"{names}/2addr", row[:4] + f"0{row[5]} 1{row[8]}") for names, row in ARITHMETIC),
    *((f"{one}-to-{other}", f"0={TYPES[other]} 1{TYPES[one]}") for one, other in permutations(TYPES, 2)),
    *((f"int-to-{narrow}", f"0={narrow[0].upper()} 1I") for narrow in ("byte", "char", "short")),
    *((f"neg-{of}", f"0={TYPES[of]} 1{TYPES[of]}") for of in TYPES),
    (r"not-int", "0=I 1I"),
    (r"not-long", "0=J 1J"),
    (rf"(?:(?:add|mul|div|rem)|{SHIFT})-int/lit(?:8|16)|rsub-int(?:/lit8)?", "0=I 1I"),
    (r"nop|goto(?:/16|/32)?", ""),
    (r"const-string(?:/jumbo)?", "0=Ljava/lang/String;"),
    (r"const-class", "0=Ljava/lang/Class;"),
    (r"monitor-(?:enter|exit)", "0O"),
    (r"sparse-switch", "0I"),
    (r"cmp[lg]-float", "0=I 1F 2F"),
    (r"cmp[lg]-double", "0=I 1D 2D"),
    (r"cmp-long", "0=I 1J 2J"),
    (r"if-(?:lt|ge|gt|le)", "0I 1I"),
    (r"if-(?:lt|ge|gt|le)z", "0I"),
)
ANSWERS = {"": "ZBSCIF", "-wide": "JD", "-object": "L[", "-void": "V"}
# Which can throw: only from these does a way lead to a handler.
THROWS = re.compile(
    r"const-(?:string.*|class)|monitor-.*|check-cast|instance-of|array-length|new-.*|filled-.*|fill-.*|throw|"
    r"[ais](?:get|put).*|invoke-.*|(?:div|rem)-(?:int|long).*"
)
ENDS = re.compile(r"return.*|throw|goto.*|.*-payload")


class Step(NamedTuple):
    run: Callable[..., None]
    throws: bool
    ends: bool
    writes: bool  # its first register, or that and the next
    is_wide: bool


# ---- steps by rows


def by_row(row: str) -> tuple[Callable[..., None], str]:
    """The step of a row of ROWS, and the type that it writes."""
    words = row.split()
    written = words.pop(0)[2:] if words and words[0][1] == "=" else ""
    sources = [(int(word[0]), REQUIRE[word[1]]) for word in words]
    if written and not sources:

        def step(method: Method, insn: Insn, line: RegisterLine, place: int) -> None:
            line[insn.registers[0]] = method.kinds.ref(written)

    elif written in PAIRS:

        def step(method: Method, insn: Insn, line: RegisterLine, place: int) -> None:
            registers = insn.registers
            for at, ask in sources:
                ask(method, line, registers[at], place)
            put_pair(method, line, registers[0], place, PAIRS[written])

    elif written:
        result = NUMBERS[written]

        def step(method: Method, insn: Insn, line: RegisterLine, place: int) -> None:
            registers = insn.registers
            for at, ask in sources:
                ask(method, line, registers[at], place)
            line[registers[0]] = result

    else:

        def step(method: Method, insn: Insn, line: RegisterLine, place: int) -> None:
            for at, ask in sources:
                ask(method, line, insn.registers[at], place)

    return step, written


# ---- moves and constants


def move(method: Method, insn: Insn, line: RegisterLine, place: int) -> None:
    """An int, a float or a reference, whichever the mnemonic says."""
    to, source = insn.registers
    kind, is_object = line[source], insn.mnemonic[4:5] == "-"
    if not (kind.is_object if is_object else kind.is_single) and kind is not CONFLICT:
        method.wrong(line, source, place, "a reference" if is_object else "an int or a float")
    line[to] = line[source]


def move_wide(method: Method, insn: Insn, line: RegisterLine, place: int) -> None:
    to, source = insn.registers
    require_wide(method, line, source, place)
    put_pair(method, line, to, place, line[source : source + 2])


def move_result(method: Method, insn: Insn, line: RegisterLine, place: int) -> None:
    to = insn.registers[0]
    ending = insn.mnemonic[len("move-result") :]
    answered = method.result_type(place)
    if answered is None:
        text = f"{insn.mnemonic} is not after a call: it must follow the call whose result it takes"
        method.report(place, "result-place", text)
    elif answered[0] not in ANSWERS[ending]:
        text = "answers nothing" if answered == "V" else f"answers `{answered}`"
        right = next(right for right, types in ANSWERS.items() if answered[0] in types)
        mend = "take this instruction out" if answered == "V" else f"write move-result{right}"
        method.report(place, "result-kind", f"the call before it {text}: {mend}")
    else:
        put(method, line, to, place, answered)
        return
    line[to] = ANY
    if ending == "-wide":
        put_pair(method, line, to, place, (ANY, ANY))


def move_exception(method: Method, insn: Insn, line: RegisterLine, place: int) -> None:
    kind = method.caught.get(place)
    if kind is None:
        method.report(place, "exception-place", "move-exception isn't the first instruction of a handler")
    elif place == 0:
        text = "this handler is also the beginning of the method: move-exception takes what was thrown"
        method.report(place, "exception-place", text)
    elif place in method.never:
        text = f"the handler is of `{method.never[place]}`, which is no Throwable: nothing like it is thrown"
        method.report(place, "catch-type", text)
    line[insn.registers[0]] = kind or ANY


def const(method: Method, insn: Insn, line: RegisterLine, place: int) -> None:
    number: Any = insn.literal  # (which each has)
    line[insn.registers[0]] = kinds.constant(number << 16 if insn.mnemonic == "const/high16" else number)


def const_wide(method: Method, insn: Insn, line: RegisterLine, place: int) -> None:
    put_pair(method, line, insn.registers[0], place, WIDE)


def bits(method: Method, insn: Insn, line: RegisterLine, place: int) -> None:
    """and, or, xor: of two booleans a boolean."""
    registers = insn.registers
    sources = registers[-2:] if insn.literal is None else registers[1:]
    is_boolean = insn.literal is None or insn.literal in (0, 1)
    for register in sources:
        require_int(method, line, register, place)
        kind = line[register]
        is_boolean = is_boolean and (kind is kinds.ZERO or kind.range == "boolean")
    line[registers[0]] = kinds.BOOLEAN if is_boolean else INT


# ---- the end of a method


def leave(method: Method, line: RegisterLine, place: int, insn: Insn, types: str) -> bool:
    """Whether a return is of its method's kind; a constructor has to have called another one before."""
    if method.returns[0] not in types:
        right = next(right for right, found in ANSWERS.items() if method.returns[0] in found)
        text = f"the method answers `{method.returns}`: return{right} is for that"
        method.report(place, "return-kind", text)
        return False
    if method.is_init and line[-1].base not in ("any", "reference"):
        text = "the constructor returns without having called another one on each way: invoke-direct"
        owner = method.above or method.owner
        method.report(place, "constructor-return", f"{text} {{ v.. }} `={owner}`-><init>")
    return True


def return_(method: Method, insn: Insn, line: RegisterLine, place: int) -> None:
    types, type_ = ANSWERS[insn.mnemonic[6:]], method.returns
    if not leave(method, line, place, insn, types) or type_ == "V":
        return
    register = insn.registers[0]
    require_type(method, line, register, place, type_, "return-type")
    kind = line[register]
    if type_ in "ZBSC" and kind.range and not (kind.base == "int" and kind.range == "int"):
        wanted = NUMBERS[type_].range
        # (compilers write methods that answer a byte as a boolean; a constant has to be one)
        is_byte = type_ == "Z" and kind.base == "int" and kinds.common_range(kind.range, "byte") == "byte"
        if kinds.common_range(kind.range, wanted) != wanted and not is_byte:
            method.wrong_as(line, register, place, "return-range", f"a {wanted}")


def throw(method: Method, insn: Insn, line: RegisterLine, place: int) -> None:
    require_type(method, line, insn.registers[0], place, THROWABLE, "throw-type")


# ---- branches


def packed_switch(method: Method, insn: Insn, line: RegisterLine, place: int) -> None:
    require_int(method, line, insn.registers[0], place)
    keys: Any = insn.target.insn  # type: ignore[union-attr]  # (a switch leads to its payload)
    last = keys.first + len(keys.targets) - 1
    if last > kinds.RANGES["int"][1]:
        text = f"the keys of its payload go from {keys.first} to {last}, which is no int"
        method.report(place, "switch-keys", text)


def if_equal(method: Method, insn: Insn, line: RegisterLine, place: int) -> None:
    """Two ints or two references."""
    one, other = (line[register] for register in insn.registers)
    if one.is_object and other.is_object or one.is_int and other.is_int:
        return
    first, second = insn.registers
    if not (one.is_object or one.is_int):
        method.wrong(line, first, place, "an int or a reference")
    elif not (other.is_object or other.is_int):
        method.wrong(line, second, place, "an int or a reference")
    else:
        method.wrong(line, second, place, "an int" if one.is_int else "a reference")


def if_zero(method: Method, insn: Insn, line: RegisterLine, place: int) -> None:
    kind = line[insn.registers[0]]
    if not kind.is_object and not kind.is_int:
        method.wrong(line, insn.registers[0], place, "an int or a reference")


def payload(method: Method, insn: Insn, line: RegisterLine, place: int) -> None:
    text = "the flow runs into this payload: put a goto or a return before it"
    method.report(place, "payload-reached", text)


# ---- the table

SPECIAL = (
    (r"move(?:-object)?(?:/from16|/16)?", move),
    (r"move-wide(?:/from16|/16)?", move_wide),
    (r"move-result(?:-wide|-object)?", move_result),
    (r"move-exception", move_exception),
    (r"const(?:/4|/16|/high16)?", const),
    (r"const-wide(?:/16|/32|/high16)?", const_wide),
    (r"(?:and|or|xor)-int(?:/2addr|/lit8|/lit16)?", bits),
    (r"return(?:-\w+)?", return_),
    (r"throw", throw),
    (r"packed-switch", packed_switch),
    (r"if-(?:eq|ne)", if_equal),
    (r"if-(?:eq|ne)z", if_zero),
    (r"check-cast", objects.check_cast),
    (r"instance-of", objects.instance_of),
    (r"new-instance", objects.new_instance),
    (r"array-length", objects.array_length),
    (r"new-array", objects.new_array),
    (r"filled-new-array(?:/range)?", objects.filled_new_array),
    (r"fill-array-data", objects.fill_array),
    (r"aget(?:-\w+)?", objects.aget),
    (r"aput(?:-\w+)?", objects.aput),
    (r"[is](?:get|put)(?:-\w+)?", objects.field),
    (r"invoke-\w+(?:/range)?", objects.invoke),
    (r"[a-z]+(?:-switch)?-payload", payload),
)
WRITES = re.compile(r"move.*|const.*|check-cast|instance-of|new-.*|array-length|[ais]get.*|(?:and|or|xor)-int.*")
WIDE_WRITES = re.compile(r".*-wide.*")


@functools.cache
def step_of(mnemonic: str) -> Step:
    """The step of a mnemonic."""
    throws, ends = bool(THROWS.fullmatch(mnemonic)), bool(ENDS.fullmatch(mnemonic))
    for pattern, row in ROWS:
        if re.fullmatch(pattern, mnemonic):
            run, written = by_row(row)
            return Step(run, throws, ends, bool(written), written in PAIRS)
    run = next(run for pattern, run in SPECIAL if re.fullmatch(pattern, mnemonic))
    writes = bool(WRITES.fullmatch(mnemonic))
    return Step(run, throws, ends, writes, writes and bool(WIDE_WRITES.fullmatch(mnemonic)))
