"""Where the binding for Java finds a refusal in a listing: each line is that of a mark in the
text, and of texts at random the one that the module for Python finds, which asks the rules and not the library.
"""
import itertools
import random
from collections.abc import Iterator
from typing import Any

from python.tests.diagnostic_cases import BODIES, CLASS, CODE, HEAD, filled, large, marked, refusal_of, refused, surrounded
from ..base import MEGABYTE
from ..oracle.texts import random_texts

# Whose line is the very one; of the others it is that, or the member's, or the class's.
EXACT = (82, 85, 87, 88, 110, 112, 113, 114, 115, 117, 118)
# Of which the module for Python knows the class alone: how the line begins that is at fault, the last such line.
AT_LINE = {82: "const-string v0 ", 87: "try ", 88: "try "}
END = "end code", "end class"
FIRST = "dex 035", "class L\\u0041; 1", "direct \\u006d ()V 0", "code 1 0 0"
LABEL = ":" + "n" * 32
CAUGHT = ":a", "nop", ":b", "  try   :a   :b", "catchall :a", "«»try :a :b", "catchall :a"
LONG_LABELS = f'const-string v0 ":a {LABEL}"', f"if-eqz v0 {LABEL}", "nop", LABEL
BEFORE = "class LB; 0", "end class", "class LA; 0", "super LB;", "end class"
# Texts that could lead astray: lines in which a class or a code seems to begin or to end, lines of a megabyte, bytes
# that
# are no text, no line feed at the end; escapes in names, numbers spelled in odd ways, labels of 32 characters.
HOSTILE = (
    [f"# class LB; 0 \x80\xff{'x' * MEGABYTE}", HEAD, "# end class", CLASS, *CODE, "# end code", "move v0 «v4»", *END],
    [HEAD, CLASS, 'source "end class"', f'static a I 0 = string "{"x " * MEGABYTE}"', *CODE, "move v0 «v4»", *END],
    [HEAD, " " * MEGABYTE, CLASS, *CODE, f"{' ' * MEGABYTE}move v0 «v4»", "  end   code", " end   class "],
    [*FIRST, "0x00: nop", "0001:   move v0 «v1»", *END],
    [*FIRST, "0: goto «@0»", "  1:  nop", *END],
    [*FIRST, "0: goto «@129»", *(f"{at}: nop" for at in range(1, 130)), *END],
    [HEAD, CLASS, *CODE, "nop", "goto «:n_»", *filled(128), ":n_", "nop", *END],
    [HEAD, CLASS, *CODE, *LONG_LABELS, "goto «:b»", *filled(128), ":b", "nop", *END],
    [HEAD, CLASS, *CODE, *CAUGHT, *END],
    [HEAD, *BEFORE, "   class   «LA;»   0x0001", "super LB;", "end class"],
)


def texts() -> Iterator[tuple[int, list[str]]]:
    for number in BODIES.keys() - set(range(100, 107)):
        for lines in itertools.chain.from_iterable(surrounded(body) for body, _ in BODIES[number]):
            yield number, lines
    for number, lines in large():
        if number in AT_LINE:
            yield number, marked_at(lines, AT_LINE[number])
        elif number == 114:
            yield number, lines
    for lines in HOSTILE:
        yield 0, [*lines]


def marked_at(lines: list[str], front: str) -> list[str]:
    """The lines with the mark at the last that begins so."""
    plain = [line.replace("«»", "") for line in lines]
    at = max(at for at, line in enumerate(plain) if line.startswith(front))
    return [*plain[:at], f"«»{plain[at]}", *plain[at + 1 :]]


def marks() -> Iterator[tuple[bytes, bool, list[int], str]]:
    """Text, whether aligned, the lines that may be told, and class and member where both are spelled alike."""
    for number, lines in texts():
        text, (line, _, _) = marked(lines)
        given = text.encode("latin1")[: -1 if number == 0 else None]
        seen = refusal_of(given)
        where: Any = seen.where
        told = [line] if seen.number in EXACT else allowed(where)
        names = "" if number == 0 else f"{where.class_name.spelled} {where.member.spelled if where.member else 'null'}"
        yield given, False, told, names if told == [line] and number not in AT_LINE else ""


def at_random(seed: int, count: int) -> Iterator[tuple[bytes, bool, list[int], str]]:
    for text, align in itertools.islice(random_texts(random.Random(seed)), count):
        given = text if isinstance(text, bytes) else text.encode("latin1")  # type: ignore[attr-defined]  # (all bytes)
        seen = refused(given, align)
        if seen is not None and seen.where is not None and seen.number not in AT_LINE:
            where = seen.where
            yield given, align, [where.line] if seen.number in (*EXACT, *range(100, 107)) else allowed(where), ""


def allowed(where: Any) -> list[int]:
    return sorted({line for line in (where.line, where.member_line, where.class_line) if line})
