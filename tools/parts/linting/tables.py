"""Tables of Markdown. A line with a bar, outside code, belongs to a table: a head, a rule below it, and rows, all with as
many cells, each on a line of its own that begins and ends with a bar. A reflow makes prose of a table; that is found
where a rule stands inside a line, or where a line with a bar belongs to no table."""
import re
from collections.abc import Iterator

from . import Seen
from .links import pages, read, without_code

# A rule stands in a line of its own; between other words it is what is left of one.
RULE = re.compile(r"\|(?:\s*:?-{3,}:?\s*\|)+")
BAR = re.compile(r"(?<!\\)\|")
BETWEEN = re.compile(r"(?:^|(?<=\s))\|(?=\s|$)")  # a bar that stands between cells, and not in |n|


def without_spans(line: str) -> str:
    """A line without its pieces of code, which may have bars."""
    return re.sub(r"`[^`]*`", "", line)


def cells_of(row: str) -> int:
    """How many cells a row has; a bar in a piece of code is none, but for those of a table it has to be written so."""
    return len(BAR.findall(row)) - 1


def tables_of(lines: list[str]) -> Iterator[tuple[int, list[str]]]:
    """Each run of lines that begin with a bar, and the number of its first line."""
    begin, run = 0, list[str]()
    for number, line in enumerate([*lines, ""], 1):
        if line.lstrip().startswith("|"):
            begin = begin if run else number
            run.append(line.strip())
        elif run:
            yield begin, run
            run = []


def wrong_in_table(page: str, begin: int, rows: list[str]) -> Iterator[str]:
    """What is wrong with a run of lines that should be a table."""
    if len(rows) < 2 or RULE.fullmatch(rows[1]) is None:
        yield f"{page}:{begin} is no table: it has no rule below its head"
        return
    for number, row in enumerate(rows, begin):
        if not row.endswith("|"):
            yield f"{page}:{number} is a row of a table and ends with no bar"
        elif cells_of(row) != cells_of(rows[0]):
            yield f"{page}:{number} has {cells_of(row)} cells, and the head of its table {cells_of(rows[0])}"
        elif number != begin + 1 and RULE.search(without_spans(row)):
            yield f"{page}:{number} has a rule of a table inside a row"


def wrong_in_prose(page: str, lines: list[str]) -> Iterator[str]:
    """What is left of tables in lines that don't begin with a bar."""
    for number, line in enumerate(lines, 1):
        plain = without_spans(line)
        if not line.lstrip().startswith("|") and (RULE.search(plain) or BETWEEN.search(plain)):
            yield f"{page}:{number} has bars of a table, and is no row of one"


def look() -> Seen:
    wrong, count = [], 0
    for page in pages():
        lines = without_code(read(page)).split("\n")
        found = list(tables_of(lines))
        count += len(found)
        wrong += [line for begin, rows in found for line in wrong_in_table(page, begin, rows)]
        wrong += wrong_in_prose(page, lines)
    return Seen(wrong, f"{count} tables")
