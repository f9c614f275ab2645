"""What docs/FORMAT.md and docs/LISTING.md say of each fault: its name, a sentence, and what its place is."""
from __future__ import annotations

import os

from dexasm.cli.fault_table import FAULTS

# Faults whose place is a line, how many are needed, a class of a program.
OF_LINES, OF_COUNTS, OF_CLASSES = range(100, 110), range(80, 82), (*range(82, 90), *range(110, 120))
# What mends a limit, where there is no listing that tells more.
REMEDIES = {
    80: "a file has no more than 65535 types: the program has to be split",
    81: "a file has no more than 65535 prototypes: the program has to be split",
    82: "`const-string/jumbo` reaches each string",
    83: "no instruction reaches further: the program has to be split",
    84: "no instruction reaches further: the program has to be split",
    85: "`goto/16` and `goto/32` reach further than `goto`, the opposite `if` over a `goto/32` further than an `if`",
    86: "`dexasm assemble --align` puts a nop before each such payload",
    87: "two tries with the same handlers cover what one can't",
}
# What stands alone where the pages' sentence leans on the one before it, or on a helper that says this.
STANDALONE = {
    9: "the SHA-1 differs: the file was changed after it was signed, or D8 before 1.6.20 wrote it",
    100: "the line isn't of the listing's form: a character or an escape that can't be, a text that isn't closed, an "
    "unknown first word, mnemonic or keyword, or words too many or too few for the line",
    102: "a word is not what this line needs at its place: a number in range, a register, bits, bytes or, in "
    "the first form, a target",
}


# The page that has a section for each fault: in a checkout, and in a package.
PAGE = "docs/ERRORS.md"
_ABOVE = os.path.dirname(os.path.dirname(os.path.dirname(os.path.dirname(os.path.abspath(__file__)))))
_PLACES = os.path.join(_ABOVE, "..", PAGE), os.path.join(_ABOVE, "../../share/doc/dexasm", PAGE)


def page_path() -> str | None:
    """Where the page is on this machine."""
    return next((os.path.normpath(path) for path in _PLACES if os.path.isfile(path)), None)


def section(number: int, name: str) -> str:
    """The section of a fault, after the page."""
    return f"#{number}-{name.lower()}"


# Of each number its name, the sentence of its row, and what its place is.
SENTENCES = FAULTS | {number: (FAULTS[number][0], text, FAULTS[number][2]) for number, text in STANDALONE.items()}
