"""The table of opcodes for Python, python/src/dexasm/opcodes.py, and the page docs/OPCODES.md, from the rows of
crates/dex_insn/src/opcodes.rt."""
import re
import textwrap

from .making import Made, Missing
from .mnemonics import OPCODES

MADE, PAGE = "python/src/dexasm/opcodes.py", "docs/OPCODES.md"
ROW = re.compile(r'^    (?:row!\("([^"]+)" F(\w+)(?: (\w+))?\)|None), // ([0-9a-f]{2})$', re.M)
FAST = "\u00a0"  # a blank at which no line breaks: those are between rows
HEAD = '''"""The opcodes of version 035 by their numbers, written by tools/generate from crates/dex_insn/src/opcodes.rt: mnemonic,
format, and where the format has an index what it is of. The row of an unused one is empty.
"""
ROWS = (
'''

# Each format: its units, the low byte of the first on the right, and its operands as a listing has them.
FORMATS = {
    "10x": ("`00\\|op`", "none"),
    "12x": ("`B\\|A\\|op`", "`vA vB`"),
    "11n": ("`B\\|A\\|op`", "`vA #B`, `B` signed"),
    "11x": ("`AA\\|op`", "`vAA`"),
    "10t": ("`AA\\|op`", "target `AA`, signed"),
    "20t": ("`00\\|op` `AAAA`", "target `AAAA`, signed"),
    "22x": ("`AA\\|op` `BBBB`", "`vAA vBBBB`"),
    "21t": ("`AA\\|op` `BBBB`", "`vAA`, target `BBBB`, signed"),
    "21s": ("`AA\\|op` `BBBB`", "`vAA #BBBB`, `BBBB` signed"),
    "21h": ("`AA\\|op` `BBBB`", "`vAA #BBBB`, `BBBB` signed: the high 16 bits of the value"),
    "21c": ("`AA\\|op` `BBBB`", "`vAA`, index `BBBB`"),
    "23x": ("`AA\\|op` `CC\\|BB`", "`vAA vBB vCC`"),
    "22b": ("`AA\\|op` `CC\\|BB`", "`vAA vBB #CC`, `CC` signed"),
    "22t": ("`B\\|A\\|op` `CCCC`", "`vA vB`, target `CCCC`, signed"),
    "22s": ("`B\\|A\\|op` `CCCC`", "`vA vB #CCCC`, `CCCC` signed"),
    "22c": ("`B\\|A\\|op` `CCCC`", "`vA vB`, index `CCCC`"),
    "30t": ("`00\\|op` `AAAA` low, high", "target `AAAAAAAA`, signed"),
    "32x": ("`00\\|op` `AAAA` `BBBB`", "`vAAAA vBBBB`"),
    "31i": ("`AA\\|op` `BBBB` low, high", "`vAA #BBBBBBBB`, signed"),
    "31t": ("`AA\\|op` `BBBB` low, high", "`vAA`, payload at `BBBBBBBB`, signed"),
    "31c": ("`AA\\|op` `BBBB` low, high", "`vAA`, index `BBBBBBBB`"),
    "35c": ("`A\\|G\\|op` `BBBB` `F\\|E\\|D\\|C`", "the first `A` of `{ vC vD vE vF vG }`, index `BBBB`"),
    "3rc": ("`AA\\|op` `BBBB` `CCCC`", "`vCCCC` and the `AA - 1` registers after it, index `BBBB`"),
    "51l": ("`AA\\|op`, four units `BBBB` from low to high", "`vAA #B`, 64 bits, signed"),
}
TOP_OF_PAGE = """\
# Opcodes of version 035

This page is the reference for the instructions of a code item: their formats, and the 218 opcodes with their mnemonics.
[FORMAT](FORMAT.md#instructions) has the rules of instructions and payloads, [LISTING](LISTING.md) their form in a
listing. Written by `tools/generate` from `crates/dex_insn/src/opcodes.rt`.

## Formats

The first unit is on the left, and so are the high bits of each unit. A letter is four bits, `00` must be zero, `op` is
the opcode. An index is that of a row of the table that the opcode names. A target counts units from the first unit of
the instruction.

| Format | Units | Operands |
|---|---|---|
"""
OPCODES_OF_PAGE = """
## Opcodes

| Opcode | Mnemonic | Format | Index of |
|---|---|---|---|
"""
END_OF_PAGE = """
The opcodes `%s` are unused.

---

Back to the [README](../README.md).
"""


def page(rows: list[tuple[str, str, str, str]]) -> str:
    """docs/OPCODES.md."""
    if unknown := {form for _, form, _, _ in rows if form} ^ set(FORMATS):
        raise Missing(f"the formats {', '.join(sorted(unknown))} are in one of {OPCODES} and {__name__} alone")
    formats = "".join(f"| {form} | {units} | {operands} |\n" for form, (units, operands) in FORMATS.items())
    used = "".join(f"| `{op}` | `{name}` | {form} | {table.lower()} |\n" for name, form, table, op in rows if name)
    unused = "`, `".join(runs([int(op, 16) for name, _, _, op in rows if not name]))
    return TOP_OF_PAGE + formats + OPCODES_OF_PAGE + used + END_OF_PAGE % unused


def runs(numbers: list[int]) -> list[str]:
    """Rising numbers in hexadecimal, those that follow one another as a range."""
    begins = [one for one in numbers if one - 1 not in numbers]
    ends = [one for one in numbers if one + 1 not in numbers]
    return [f"{begin:02x}" if begin == end else f"{begin:02x} to {end:02x}" for begin, end in zip(begins, ends)]


def made() -> Made:
    with open(OPCODES, encoding="utf8") as file:
        rows = ROW.findall(file.read())
    if [int(number, 16) for *_, number in rows] != list(range(256)):
        raise Missing(f"{OPCODES} doesn't have a row for each opcode")
    texts = [f'"{" ".join(filter(None, (mnemonic, form, table.lower())))}",' for mnemonic, form, table, _ in rows]
    joined = " ".join(text.replace(" ", FAST) for text in texts)
    lines = textwrap.wrap(joined, 115, break_on_hyphens=False, break_long_words=False)
    module = HEAD + "".join(f"    {line}\n" for line in lines).replace(FAST, " ") + ")\n"
    return Made({MADE: module, PAGE: page(rows)}, [])
