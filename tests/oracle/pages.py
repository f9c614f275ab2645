"""The numbers and names of faults, as the tables of docs/FORMAT.md and docs/LISTING.md have them."""
import dataclasses
import os
import re

from .. import TOP

DOCS = os.path.join(TOP, "docs")
# The tables of faults: what each is called here, its page, and the heading above it.
TABLES_OF_FAULTS = {"file": ("FORMAT.md", "Faults of a file"), "written": ("FORMAT.md", "The written file"),
                    "rules": ("FORMAT.md", "The rules of a program"), "listing": ("LISTING.md", "Faults")}


def numbers_of_faults(table: str) -> dict[str, int]:
    """The number of each fault of a table, by its name."""
    page, heading = TABLES_OF_FAULTS[table]
    with open(os.path.join(DOCS, page), encoding="utf8") as file:
        section = file.read().split(f"\n## {heading}\n")[1].split("\n## ")[0]
    return {name: int(number) for number, name in re.findall(r"^\| (\d+) \| (\w+) \|", section, re.MULTILINE)}


NUMBERS = {table: numbers_of_faults(table) for table in TABLES_OF_FAULTS}


@dataclasses.dataclass(frozen=True)
class Refusal:
    """An answer in place of what was asked for: a fault of one of the tables, and its place."""

    table: str
    name: str
    place: int

    @property
    def number(self) -> int:
        return NUMBERS[self.table][self.name]

    def __str__(self) -> str:
        """As the program says it."""
        return f"dexasm: refused {self.number} {self.name} at {self.place}\n"


class Refused(Exception):
    """Ends a reading with its refusal."""

    def __init__(self, table: str, name: str, place: int) -> None:
        super().__init__(table, name, place)
        self.refusal = Refusal(table, name, place)
