"""Shows what takes the space of a .dex file, or what two builds of one differ by: bytes by package, class, method or
string, to the byte.

usage: dexasm-size [--by package|class|method|string] [--sort COLUMN] [--json|--csv|--csv-raw] [--html OUT] FILE
       dexasm-size [--by package|class|method|string] [--sort COLUMN] [--json|--csv|--csv-raw] [--html OUT] A B
       dexasm-size --count [--by package|class] [--sort COLUMN] [--json|--csv|--csv-raw] FILE [B]

There is a row for each package (or class, method, string), with the columns below. Each byte is in one row and in one
column from code to unused, so all rows add up to the file.

  total    all of it
  code     code items
  strings  strings, with their rows
  tables   rows of types, prototypes, fields, methods and classes, lists of types, class data; of the file its header
           and its map
  values   initial values of static fields
  debug    debug information and annotations, as far as they can be followed: dexasm ignores them
  unused   names that the program does not need, and bytes that nothing refers to
  strip    what `dexasm strip` takes away: how many bytes fewer this row has in the stripped file

A name belongs to the class that needs it, if only one does. What several classes need or share is the row (several
classes), names that none needs are the row (no class), and header, map and gaps are the row (the file). A method has
its code and its debug information, if no other method has these too; all else of its class stays in the class's row. A
string has its row and its item, and what is no string is one row.

FILE, A and B may be archives: the rows are those of all their classes*.dex, added up by name; app.apk!classes2.dex is
one of them alone. Of A and B each row that changed is shown, what changed most first, by names where two changed alike.
The columns are the differences, with a sign; the bytes of the row before, in A, and after, in B; and the kind of
change: came (added), went (removed), grew, shrank, or moved (as many bytes, in other columns). Those that are as they
were are one row. So the rows add up: before to A, after to B, and change to the difference of the two.

--sort COLUMN puts the rows in the order of that column, `name` by name; of A and B in that of its differences. --html
OUT writes one page in place of the table, which needs nothing from the network: of FILE with a picture of the packages,
their classes and what these consist of, and tables of the 2,000 largest that sort; of A and B with such tables by
package, class, method and string.

--count has rows of the file's tables in place of bytes (instructions reach 65,536 methods and fields, and a file can
have 65,535 types): how many `methods` and `fields` the classes of each package have that the file names, how many of
these methods it has (`defined`), its `types`, arrays by their elements, and its `strings`, of the class that needs
them, if only one does. With B the columns are what B has more, and the number of methods before, in FILE, and after,
in B.

--json and --csv have the rows that a table has, but for those that add others up. With --csv a cell that a spreadsheet
could take for a formula has an apostrophe before it; --csv-raw is for programs that are not spreadsheets. Strings are
cut at 400 characters and the length follows, and in the name of a method 1,000 of the class, the name and the
parameters; what is alike then is one row.

Exit status: 0 done, 1 a file is refused, 2 a usage error, 3 something cannot be read or written, 4 out of memory.
"""
from __future__ import annotations

import json
import os
from argparse import Namespace
from collections.abc import Callable, Iterable, Iterator, Sequence
from typing import Any

from dexasm.analysis.sizes import (
    BY,
    COLUMNS,
    COUNTED,
    HEADS,
    Change,
    Changes,
    added,
    by_package,
    bytes_of,
    counts_of,
    rows_of,
)
from dexasm.cli.core import run_job, run_or_fail
from dexasm.cli.inputs import Input, read_inputs
from dexasm.cli.io import write_file
from dexasm.cli.main import Parser, command, print_error
from dexasm.cli.sanitize import escaped, shortened
from dexasm.cli.tabular import add_forms, write_csv
from dexasm.dexfile import Dex

Numbers = list[int | None]  # in the order of COLUMNS
Row = tuple[str, Numbers]

TABLES = {"Packages": "package", "Classes": "class", "Methods": "method", "Strings": "string"}  # of a page for two


def aligned(lines: Sequence[Sequence[str]], by: str) -> None:
    """Lines of cells as a table, the names in their last column, of which long strings are cut."""
    visible: Callable[[str], str] = (lambda name: shortened(escaped(name))) if by == "string" else escaped
    widths = [max(map(len, column)) for column in list(zip(*lines))[:-1]]
    for line in lines:
        print("  ".join([*(word.rjust(width) for word, width in zip(line, widths)), visible(line[-1])]))


def table(rows: list[Row], columns: int = len(COLUMNS)) -> Iterator[list[str]]:
    """The rows as lines, and a last line that adds them up."""
    numbers_of = [numbers for _, numbers in rows] or [[0] * columns]
    total = [None if None in column else sum(column) for column in zip(*numbers_of)]
    for name, numbers in [*rows, ("all", total)]:
        yield [*("-" if number is None else str(number) for number in numbers), name]


def change_line(row: Change) -> list[str]:
    return [*(f"{number:+d}" if number else "0" for number in row.numbers), *map(str, row.cells()[-4:])]


def print_rows(
    args: Namespace, heads: Sequence[str], rows: list[list[Any]], lines: Iterable[Sequence[str]], **fields: Any
) -> None:
    """Rows in the requested form; as a table they are these lines, but where a page takes their place."""
    if args.json:
        print(json.dumps(fields | {"rows": [dict(zip(heads, row)) for row in rows]}, indent=1))
    elif args.csv or args.csv_raw:
        write_csv(heads, rows, args.csv_raw)
    elif args.html is None:
        aligned([heads, *lines], args.by)


def accepted_inputs(path: str) -> Iterator[Input]:
    """The files of a path, which dexasm accepts."""
    for source in read_inputs(path):
        run_or_fail("check", data=source.data, name=source.name)
        yield source


def with_stripped(source: Input, prog: str) -> tuple[bytes, bytes | None]:
    stripped = run_job("strip", data=source.data)
    if stripped.status:
        print_error(f"{prog}: {source.name}: it can't be stripped, so the column strip is empty: {stripped.message()}")
    return source.data, None if stripped.status else stripped.output


def total_of(rows: Iterable[dict[str, Any]]) -> dict[str, Any]:
    """The rows of several files, those of one name added up."""
    found: dict[str, Any] = {}
    for some in rows:
        for name, numbers in some.items():
            found[name] = added(found[name], numbers) if name in found else numbers
    return found


def one_file(path: str, args: Namespace, prog: str) -> None:
    inputs = [*accepted_inputs(path)]
    size, files = sum(len(one.data) for one in inputs), [with_stripped(one, prog) for one in inputs]
    rows: dict[str, Numbers] | list[Row]
    # (first the page, which nobody has to read what is printed for)
    if args.html is not None:
        rows = total_of(rows_of(*both) for both in files)
        from dexasm.pages.size_page import html_page

        write_file(args.html, html_page(os.path.basename(path), COLUMNS, rows, by_package(rows)).encode("utf8"))
    heads = *COLUMNS, "name"
    at, found = heads.index(args.sort), total_of(rows_of(*both, args.by) for both in files)
    rows = sorted(found.items(), key=lambda row: (0 if args.sort == "name" else -(row[1][at] or 0), row[0]))
    cells = [[*numbers, name] for name, numbers in rows]
    print_rows(args, heads, cells, table(rows), file=path, bytes=size)


def two_files(old: str, new: str, args: Namespace) -> None:
    files = [[Dex(source.data) for source in accepted_inputs(path)] for path in (old, new)]

    def of(by: str, column: str = HEADS[0]) -> Changes:
        before, after = (total_of(bytes_of(dex, by) for dex in some) for some in files)
        return Changes(before, after, column)

    if args.html is not None:
        names = os.path.basename(old), os.path.basename(new)
        from dexasm.pages.size_page import changes_page

        write_file(args.html, changes_page(names, {title: of(by) for title, by in TABLES.items()}).encode("utf8"))
    found = of(args.by, HEADS[0] if args.sort == COLUMNS[0] else args.sort)
    cells, total = [row.cells() for row in found.rows], found.total
    fields = {"before": {"file": old, "bytes": total.before}, "after": {"file": new, "bytes": total.after}}
    lines = map(change_line, [*found.rows, *found.rest, total])
    print_rows(args, HEADS, cells, lines, **fields, change=total.after - total.before)


def print_counts(args: Namespace) -> None:
    """The rows of the tables of a file, or of two and what they differ by."""
    files = [total_of(counts_of(Dex(source.data), args.by) for source in accepted_inputs(path)) for path in args.files]
    none = [0] * len(COUNTED)
    heads: tuple[str, ...] = (*COUNTED, "name")
    rows = {name: files[0].get(name, none) for name in dict.fromkeys(name for some in files for name in some)}
    if len(files) == 2:
        heads = (*COUNTED, "before", "after", "name")
        rows = {name: difference(old, files[1].get(name, none)) for name, old in rows.items()}
        rows = {name: numbers for name, numbers in rows.items() if any(numbers[: len(COUNTED)])}
    at = 0 if args.sort == COLUMNS[0] else heads.index(args.sort)
    order = sorted(rows.items(), key=lambda row: (0 if args.sort == "name" else -abs(row[1][at]), row[0]))
    lines = table([(name, [*numbers]) for name, numbers in order], len(heads) - 1)
    print_rows(args, heads, [[*numbers, name] for name, numbers in order], lines, files=args.files)


def difference(old: list[int], new: list[int]) -> list[int]:
    """What the second has more, in each column, and the methods of both."""
    return [*(b - a for a, b in zip(old, new)), old[0], new[0]]


def check_args(parser: Parser, args: Namespace) -> None:
    """Whether the words fit together."""
    if len(args.files) > 2:
        parser.error("there is one FILE, or A and B")
    if args.count and (args.html is not None or args.by not in ("package", "class")):
        parser.error("--count is by package or class, and takes no --html")
    if args.sort not in ((*COUNTED, COLUMNS[0], "name") if args.count else (*COLUMNS, "name")):
        parser.error(
            f"--sort {args.sort} is for {'another table than' if args.count else ''} --count".replace("  ", " ")
        )
    if args.sort == "strip" and len(args.files) == 2:
        parser.error("--sort strip is for one FILE: of two it isn't asked")


@command()
def main(parser: Parser) -> int:
    parser.add_argument("--by", choices=BY, default=BY[0])
    parser.add_argument("--sort", choices=[*dict.fromkeys((*COLUMNS, *COUNTED, "name"))], default=COLUMNS[0])
    parser.add_argument("--html", metavar="OUT")
    parser.add_argument("--count", action="store_true")
    add_forms(parser)
    parser.add_argument("files", nargs="+")
    args = parser.parse_args()
    check_args(parser, args)
    if args.count:
        print_counts(args)
    elif len(args.files) == 1:
        one_file(args.files[0], args, parser.prog)
    else:
        old, new = args.files
        two_files(old, new, args)
    return 0
