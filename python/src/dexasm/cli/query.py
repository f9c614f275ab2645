"""Prints what a .dex file has, as JSON or as a part of its listing: an example to start from.

usage: dexasm-query classes|strings|calls|fields [FILE]
       dexasm-query tables [--lines] FILE [TABLE ..]
       dexasm-query show [--addresses] [--kinds] FILE NAME ..
       dexasm-query uses [--strings] FILE NAME ..
       dexasm-query outside [FILE]
       dexasm-query find [--insns] FILE PATTERN ..

  classes  each class with its flags, superclass, interfaces and members
  strings  each string that code or a value has, and where: "LA;->m()V" or "LA;"
  calls    each method of the file, and the methods that it calls, in the order of the code
  fields   each field of the file, and each other one that code names, with the methods that read and write it
  tables   the rows of the file's tables, in its order: of strings, types, protos, fields, methods or classes, all of
           them if none is named; with --lines a line for each, its table, its index and what it says
  show     the listing of these classes (LA; or com.x.A) or members (LA;->m()V, LA;->f:I, or LA;->m for all of that
           name; m alone for those of all classes) alone, which can be assembled. In a NAME a * matches any characters
           and a ? one: com.x.*, LA;->get*
  uses     references to each NAME, with kind and count: who calls a method, reads or writes a field, names a class or
           has it in another name. NAME is as for `show`, but that a member has its class, and it need not be of the
           file; a member is also what the file's classes inherit from there. With --strings each NAME is a text: who
           has it
  outside  each class that the file names and has not, with who names it, and its members with who names these; and of
           the file's own classes the members that they inherit from such a class
  find     the classes, fields, methods and strings of the file, and those that it names, that contain PATTERN; with
           a * or a ? it is a pattern for all of the name or text. With --insns each PATTERN is a mnemonic (const-*) or
           a number (8332, 0x7f010000, -1): the instructions with it, and the fields with that initial value, by whom
           and how often

With --addresses each line of `show` follows blanks, and an instruction behind its offset in the file and its
address in units of 16 bits, both in hexadecimal, as dexdump has them. With --kinds a comment above an instruction says
which registers have another kind there than above, as `dexasm-lint --code` follows them.

All but `tables` walk the objects of the module for Python (dexasm.Program), so each query is a few lines. FILE may be a
listing too; `tables` and addresses are then those of the file that dexasm makes of it. Of an archive all classes*.dex
are one program; `tables` and addresses want one of them, app.apk!classes2.dex, where there are several. Names and
strings are decoded alike: what a listing writes as an escape is the character here, and JSON writes it as its own
escape. `access` has the words for flags.

Exit status: 0 done, 1 the file is refused, 2 a usage error, or a name that names nothing, 3 something cannot be read or
written, 4 out of memory.
"""
from __future__ import annotations

import json
from argparse import Namespace
from collections.abc import Callable, Iterable
from typing import TYPE_CHECKING, Any

from dexasm.analysis import references as mentions
from dexasm.analysis.xref import flag_words
from dexasm.cli.core import as_dex, program_of, read_program, run_or_fail
from dexasm.cli.inputs import read_input
from dexasm.cli.main import Parser, command
from dexasm.cli.show import show
from dexasm.cli.tables import line_of, row_of
from dexasm.dexfile import Tables
from dexasm.flags import CLASS_FLAGS

if TYPE_CHECKING:
    from dexasm.program import Program

    Query = Callable[[Program], dict[str, Any]]

TABLES = {
    "strings": "string",
    "types": "type",
    "protos": "proto",
    "fields": "field",
    "methods": "method",
    "classes": "class",
}


def classes(program: Program) -> dict[str, Any]:
    return {
        one.name: {
            "flags": one.flags,
            "access": flag_words(one.flags, CLASS_FLAGS),
            "superclass": one.superclass,
            "interfaces": one.interfaces,
            "fields": [field.signature for field in one.fields],
            "methods": [method.signature for method in one.methods],
        }
        for one in program.classes
    }


def strings(program: Program) -> dict[str, list[str]]:
    found: dict[str, list[str]] = {}
    for one in program.references():
        if one.is_text:
            found.setdefault(one.name, []).append(one.by.partition("->")[0] if one.how == "value" else one.by)
    return found


def calls(program: Program) -> dict[str, list[str]]:
    found: dict[str, list[str]] = {str(one.ref(method)): [] for one in program.classes for method in one.methods}
    for one in program.references():
        if one.how.startswith("invoke-"):
            found[one.by].append(one.name)
    return found


def fields(program: Program) -> dict[str, dict[str, list[str]]]:
    found: dict[str, dict[str, dict[str, None]]] = {
        str(one.ref(field)): {"reads": {}, "writes": {}} for one in program.classes for field in one.fields
    }
    kinds = {"iget": "reads", "sget": "reads", "iput": "writes", "sput": "writes"}
    for one in program.references():
        kind = kinds.get(one.how[:4])
        if kind:
            found.setdefault(one.name, {"reads": {}, "writes": {}})[kind][one.by] = None
    return {name: {kind: [*methods] for kind, methods in users.items()} for name, users in found.items()}


def tables(path: str | None, names: list[str]) -> dict[str, list[str | dict[str, Any]]]:
    source = read_input(path)
    data = as_dex(source.data, source.name)
    run_or_fail("check", data=data, name=source.name)
    read = Tables(data)
    rows = {name: range(read.count[TABLES[name]]) for name in names or TABLES}
    return {name: [row_of(read, TABLES[name], row) for row in rows[name]] for name in rows}


QUERIES: dict[str, Query] = {
    "classes": classes, "strings": strings, "calls": calls, "fields": fields, "outside": mentions.outside,
}  # fmt: skip
# What takes names behind FILE, and what these are.
NAMED = {"show": "names of classes or members", "uses": "names, or texts with --strings", "find": "patterns"}
OPTIONS = {"addresses": "show", "kinds": "show", "lines": "tables", "strings": "uses", "insns": "find"}  # of what


def output_lines(args: Namespace, file: str | None, names: list[str]) -> Iterable[str]:
    """The lines of the answer."""
    if args.query == "show" and args.addresses:
        source = read_input(file)
        data = as_dex(source.data, source.name)
        return [*show(read_program(data, source.name), names, data, args.kinds)]
    if args.query == "show":
        return [*show(program_of(file), names, None, args.kinds)]
    found = run_query(args, file, names)
    if not args.lines:
        return [json.dumps(found, indent=1)]
    return (f"{name} {at} {line_of(TABLES[name], row)}" for name, rows in found.items() for at, row in enumerate(rows))


def run_query(args: Namespace, file: str | None, names: list[str]) -> dict[str, Any]:
    """What JSON says."""
    if args.query == "tables":
        return tables(file, names)
    if args.query == "uses":
        return mentions.find_uses(program_of(file), names, args.strings)
    if args.query == "find":
        program = program_of(file)
        if args.insns:
            return mentions.find_insns(program, names)
        return mentions.find(program, names)
    return QUERIES[args.query](program_of(file))


@command()
def main(parser: Parser) -> int:
    for option in OPTIONS:
        parser.add_argument(f"--{option}", action="store_true")
    parser.add_argument("query", choices=[*QUERIES, "tables", *NAMED])
    parser.add_argument("rest", nargs="*")
    args = parser.parse_intermixed_args()  # (an option may follow the query)
    file, names = args.rest[0] if args.rest else None, args.rest[1:]
    for option, query in OPTIONS.items():
        if getattr(args, option) and args.query != query:
            parser.error(f"--{option} is of {query} alone")
    if args.query in QUERIES and names:
        parser.error(f"{args.query} takes one FILE")
    if args.query == "tables" and not set(names) <= set(TABLES):
        parser.error(f"a table is one of: {', '.join(TABLES)}")
    if args.query in NAMED and not names:
        parser.error(f"{args.query} takes a FILE, and {NAMED[args.query]}")
    for line in output_lines(args, file, names):
        print(line)
    return 0
