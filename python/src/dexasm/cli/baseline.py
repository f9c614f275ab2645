"""What is known already, for dexasm-check --baseline: verdicts that an earlier --json printed."""
from __future__ import annotations

import json
from typing import TYPE_CHECKING, Any

from dexasm.cli.errors import CliError
from dexasm.cli.io import read_file
from dexasm.cli.reporters import name_of
from dexasm.cli.sanitize import escaped

if TYPE_CHECKING:
    from dexasm.cli.verdict import Verdict

# What has to be the same; where the file is only moved to another line, nothing is.
FIELDS = ("kind", "number", "name", "place", "line", "class", "member", "instruction", "rule")
KNOWN = ("refused", "broken")  # statuses of what is wrong with a file, and not with its reading

Key = tuple[Any, ...]


def read_baseline(path: str) -> set[Key]:
    """The verdicts in a file of JSON lines."""
    found = set[Key]()
    for number, line in enumerate(read_file(path).split(b"\n"), 1):
        if not line.strip():
            continue
        try:
            one = json.loads(line)
            if not (isinstance(one["file"], str) and isinstance(one["status"], str)):
                raise ValueError
            if one["status"] in (*KNOWN, "known"):
                found.add((one["file"], *(one.get(field) for field in FIELDS)))
        except (ValueError, TypeError, LookupError, RecursionError):
            raise CliError(f"{escaped(path)}: line {number} is no verdict of --json") from None
    return found


def without_known(verdict: Verdict, known: set[Key]) -> Verdict:
    """The verdict, accepted if it is known."""
    if verdict.status not in KNOWN:
        return verdict
    fields = verdict._asdict() | {"class": verdict.class_}
    is_known = (name_of(verdict), *(fields.get(field) for field in FIELDS)) in known
    return verdict._replace(status="known") if is_known else verdict
