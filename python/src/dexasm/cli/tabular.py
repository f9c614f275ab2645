"""Rows that a helper prints: as a table, as JSON, or as CSV of which a spreadsheet computes nothing."""
from __future__ import annotations

import argparse
import csv
import json
import os
import sys
from collections.abc import Iterable, Sequence

from dexasm.cli.sanitize import escaped

SHORT = 60  # characters of a column of a table
# As a cell begins that a spreadsheet computes (OWASP, "CSV Injection"); some take the wide forms too.
FORMULA = ("=", "+", "-", "@", "\t", "\r", "\uff1d", "\uff0b", "\uff0d", "\uff20")


def add_forms(parser: argparse.ArgumentParser) -> None:
    """The words for the forms, of which one at most is asked for."""
    form = parser.add_mutually_exclusive_group()
    for word in ("--json", "--csv", "--csv-raw"):
        form.add_argument(word, action="store_true")


def write_csv(heads: Sequence[str], rows: Iterable[Sequence[object]], is_raw: bool) -> None:
    """Rows as CSV; texts in them are escaped."""
    shown = ([escaped(value) if isinstance(value, str) else value for value in row] for row in rows)
    writer = csv.writer(sys.stdout, lineterminator="\n")
    writer.writerow(heads)
    # (so that no spreadsheet takes a cell for a formula)
    safe = ([f"'{one}" if isinstance(one, str) and one.startswith(FORMULA) else one for one in row] for row in shown)
    writer.writerows(shown if is_raw else safe)


def print_rows(args: argparse.Namespace, heads: Sequence[str], rows: Iterable[Sequence[object]]) -> None:
    """Rows as a table, as JSON or as CSV. Names and strings are as a listing spells them, so only paths are escaped."""
    rows = (["" if one is None else os.fsdecode(one) if isinstance(one, bytes) else one for one in row] for row in rows)
    if args.json:
        print(json.dumps([dict(zip(heads, row)) for row in rows], indent=1))
        return
    if args.csv or args.csv_raw:
        write_csv(heads, rows, args.csv_raw)
        return
    lines = [heads, *([escaped(str(value)) for value in row] for row in rows)]
    widths = [min(max(len(line[at]) for line in lines), SHORT) for at in range(len(heads))]
    for line in lines:
        print("  ".join(word.ljust(width) for word, width in zip(line, widths)).rstrip())
