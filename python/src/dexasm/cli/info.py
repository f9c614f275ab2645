"""Tells what is in a .dex file: header, map, tables, sections; and byte by byte.

usage: dexasm-info [--json] [FILE]
       dexasm-info --hex [FROM..TO] [FILE]

Of an accepted file it prints

  file      its bytes and their SHA-256; what its program is: the SHA-256 of what `dexasm strip` writes, which is the
            same for all files of one program, and how many bytes that takes away
  header    each field, as the page "Dalvik Executable format" names it
  map       each entry
  tables    how many rows, the limit, and how many more there can be: of types and prototypes in a file, of fields,
            methods and strings within what an instruction can name (`const-string/jumbo` names any string)
  sections  where each is, its bytes and its share; all of them are the file
  bytes     what the bytes are, as `dexasm-size` tells them
  annotations and debug information
            how many annotations there are of each visibility (build, runtime, system), and how many methods with debug
            information; `list`, `assemble` and `strip` drop all of these

A refused file is no program: of it there are the header, the map, and the rows of each table that lie in the file, each
marked as read or not, as it leads to what it names. The command's line follows on standard error.

With --json all of that is one JSON object. --hex prints every byte, or those from the offset FROM to before TO (either
may be left out), each once, with what it is: fields, rows, strings, and each instruction behind its address in units of
16 bits. Offsets are in hexadecimal. Of a refused file it shows what can be read, and the fault is marked.

FILE is standard input where it is left out or `-`. Of an archive each classes*.dex is printed, with a line before it
that names it (in JSON a line with `entry` for each); app.apk!classes2.dex is one of them alone.

Exit status: 0 the file is accepted, 1 it is refused, 2 a usage error, 3 something cannot be read or written, 4 out of
memory.
"""
from __future__ import annotations

import json
import re
import sys
from argparse import Namespace
from collections.abc import Iterable, Iterator
from typing import Any

from dexasm.analysis.extras import extras_of
from dexasm.cli.core import run_job
from dexasm.cli.dump import dump
from dexasm.cli.errors import REFUSED, CliError
from dexasm.cli.filetypes import ZIP
from dexasm.cli.inputs import Input, read_inputs
from dexasm.cli.main import Parser, command, print_error
from dexasm.cli.tables import ROWS, as_text, hashes, header, line_of, map_entries, rows_read, sections, tables
from dexasm.dexfile import KINDS, Dex, sizes


RANGE = re.compile(r"(0x[0-9A-Fa-f]{1,16}|[0-9]{1,19})?\.\.(0x[0-9A-Fa-f]{1,16}|[0-9]{1,19})?")


def share(part: int, whole: int) -> str:
    return f"{100 * part / whole:5.1f} %" if whole else "-"


def facts(data: bytes, refusal: tuple[int, str, int] | None, prog: str, name: str) -> dict[str, Any]:
    """What is told of the file."""
    details: dict[str, Any] = {"file": hashes(data), "header": {}, "map": map_entries(data)}
    for field, _, _, value in header(data):
        details["header"][field] = value.hex() if isinstance(value, bytes) else value
    if refusal:
        number, fault, place = refusal
        return {"refused": {"number": number, "name": fault, "place": place}} | details | {"tables": rows_read(data)}
    stripped = run_job("strip", data=data)
    if stripped.status:
        print_error(f"{prog}: {name}: it can't be stripped: {stripped.message()}")
    details["program"] = None if stripped.status else hashes(stripped.output)
    details |= {"tables": tables(data), "sections": sections(data)}
    taken = zip(*sizes(Dex(data))[1].values())
    extras = extras_of(data)
    details["annotations"], details["debug_methods"] = dict(zip(extras._fields, extras[:3])), extras.debug
    return {"refused": None} | details | {"bytes": dict(zip(KINDS, map(sum, taken)))}


def file_lines(details: dict[str, Any]) -> Iterator[str]:
    size, program = details["file"]["size"], details.get("program")
    yield "file"
    yield f"  bytes    {size}"
    yield f"  SHA-256  {details['file']['sha256']}"
    if program:
        taken = size - program["size"]
        yield f"  program  {program['sha256']}"
        yield f"  strip    takes {taken} bytes away ({share(taken, size).strip()}), leaves {program['size']}"


def header_lines(data: bytes) -> Iterator[str]:
    yield "header"
    for field, at, _, value in header(data):
        yield f"  {at:3}  {field:<15}  {as_text(field, value)}"
    yield "map"
    for entry in map_entries(data):
        yield f"  0x{entry['offset']:08x}  {entry['size']:10}  {entry['name']}"


def lines(details: dict[str, Any], data: bytes) -> Iterator[str]:
    """The lines of an accepted file."""
    yield from file_lines(details)
    yield from header_lines(data)
    yield "tables"
    for name, one in details["tables"].items():
        beyond = one["rows"] - one["limit"]
        left = f"{one['left']} more" if beyond <= 0 else f"{beyond} out of reach"
        limit = f" of {one['limit']:5} that {one['of']}, {left}" if name != "class_defs" else ""
        yield f"  {name:<10}  {one['rows']:7}{limit}"
    size = details["file"]["size"]
    yield "sections"
    for one in details["sections"]:
        yield f"  0x{one['offset']:08x}  {one['size']:10}  {share(one['size'], size)}  {one['name']}"
    yield "bytes"
    for kind, count in details["bytes"].items():
        yield f"  {kind:<8}  {count:10}  {share(count, size)}"
    yield "annotations and debug information"
    for visibility, count in details["annotations"].items():
        yield f"  {visibility:<8}  {count:10}  annotations"
    yield f"  debug     {details['debug_methods']:10}  methods"


def refused_lines(details: dict[str, Any], data: bytes) -> Iterator[str]:
    """The lines of a refused file: each row that lies in it, read or not."""
    yield from file_lines(details)
    yield from header_lines(data)
    for table, name in ROWS.items():
        rows, read = details["tables"][name].values()
        yield f"{name}: {sum(row is not None for row in read)} of {rows} can be read"
        for at, row in enumerate(read):
            yield f"  {at:5}  {'not read' if row is None else f'read      {line_of(table, row)}'}"


def parse_range(parser: Parser, args: Namespace) -> tuple[int, int | None]:
    """The bytes that --hex asks for. A word after it that is no range is the file."""
    found = RANGE.fullmatch(args.hex)
    if not found:
        if args.file is not None:
            parser.error(f"no range of bytes: {args.hex}")
        args.file = args.hex
    begin, end = (found[1], found[2]) if found else (None, None)
    low = int(begin or "0", 0 if "x" in (begin or "") else 10)
    high = int(end, 0 if "x" in end else 10) if end else None
    if high is not None and high < low:
        parser.error(f"the range ends before it begins: {args.hex}")
    return low, high


def report(args: Namespace, source: Input, prog: str, low: int, high: int | None) -> int:
    """Prints what is in one file, and answers the status."""
    data, name = source.data, source.name
    if data.startswith(ZIP):
        raise CliError(f"{name}: a zip archive, whose .dex files can be read where it is a file that is named")
    result = run_job("check", data=data)
    refusal = result.refusal()
    if result.status and not refusal:
        raise CliError(f"{name}: {result.message()}", result.status)
    if args.hex is not None:
        found: Iterable[str] = dump(data, name, refusal, low, len(data) if high is None else high)
    else:
        details = facts(data, refusal, prog, name)
        details |= {"entry": source.entry} if source.entry else {}
        found = (
            [json.dumps(details)] if args.json else refused_lines(details, data) if refusal else lines(details, data)
        )
    sys.stdout.writelines(f"{line}\n" for line in found)
    if refusal:
        sys.stdout.flush()
        print_error(f"{prog}: {name}: {result.message()}")
        return REFUSED
    return 0


@command()
def main(parser: Parser) -> int:
    kinds = parser.add_mutually_exclusive_group()
    kinds.add_argument("--json", action="store_true")
    kinds.add_argument("--hex", nargs="?", const="..", metavar="FROM..TO")
    parser.add_argument("file", nargs="?")
    args = parser.parse_args()
    low, high = parse_range(parser, args) if args.hex is not None else (0, None)
    path, statuses = None if args.file == "-" else args.file, [0]
    for data in read_inputs(path):
        if data.entry and not args.json:
            print(data.name)
        statuses.append(report(args, data, parser.prog, low, high))
    return max(statuses)
