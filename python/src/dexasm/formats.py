"""The formats of instructions: how many units, and what stands in the words after a mnemonic (docs/LISTING.md)."""
from __future__ import annotations

import functools
from typing import NamedTuple

from dexasm.opcodes import ROWS


class Format(NamedTuple):
    """Its units, the bits of its registers, of its literal and of the offset to its target, and what it names.

    A call that lists its registers has `is_list` and no bits of its own: up to five registers of 4 bits.
    """

    units: int
    registers: tuple[int, ...] = ()
    literal: int = 0
    target: int = 0
    name: str = ""
    is_list: bool = False
    is_range: bool = False


# "Dalvik Executable instruction formats".
_FORMATS = {
    "10x": Format(1),
    "12x": Format(1, (4, 4)),
    "11n": Format(1, (4,), literal=4),
    "11x": Format(1, (8,)),
    "10t": Format(1, target=8),
    "20t": Format(2, target=16),
    "22x": Format(2, (8, 16)),
    "21t": Format(2, (8,), target=16),
    "21s": Format(2, (8,), literal=16),
    "21h": Format(2, (8,), literal=16),
    "21c": Format(2, (8,)),
    "23x": Format(2, (8, 8, 8)),
    "22b": Format(2, (8, 8), literal=8),
    "22t": Format(2, (4, 4), target=16),
    "22s": Format(2, (4, 4), literal=16),
    "22c": Format(2, (4, 4)),
    "30t": Format(3, target=32),
    "32x": Format(3, (16, 16)),
    "31i": Format(3, (8,), literal=32),
    "31t": Format(3, (8,), target=32),
    "31c": Format(3, (8,)),
    "35c": Format(3, is_list=True),
    "3rc": Format(3, (16,), is_range=True),
    "51l": Format(5, (8,), literal=64),
}
# Each mnemonic's row: itself, the name of its format, and where that has one the table of its index.
_ROWS = {row.partition(" ")[0]: row.split() for row in ROWS if row}


MNEMONICS = tuple(_ROWS)


@functools.cache
def _format(form: str, table: str = "") -> Format:
    return _FORMATS[form]._replace(name="text" if table == "string" else table)


def format_of(mnemonic: str) -> Format | None:
    """The format of a mnemonic; None of a word that is none."""
    row = _ROWS.get(mnemonic)
    return None if row is None else _format(*row[1:])
