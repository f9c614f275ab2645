"""Renames classes, packages and members of a program, by word or by a mapping of R8 or ProGuard.

usage: dexasm-rename [--quiet] FILE OLD=NEW .. --output OUT
       dexasm-rename [--quiet] --mapping MAP [--forward] FILE [OLD=NEW ..] --output OUT

  com.x.A=com.y.B   a class, with all that names it; Lcom/x/A;=Lcom/y/B; is the same
  com.x.*=com.y.*   the classes of a package and of those below it
  com.x.A->m=n      a member, of which the class has one alone of that name, or a whole one: LA;->m()V=n, LA;->f:I=n

A virtual method is renamed with all that it overrides in this program and all that override it there, and a member
wherever code names it by an heir too. What the program does not define keeps its name, so a method that overrides one
of a class from outside should keep its own: a line names such classes that a renamed method's class inherits from.
A constructor keeps its name. A new name that a class, a member of the class or one above or below it already has is
refused, and so is a class that the file only names.

--mapping undoes the renaming of R8 or ProGuard: classes and members that are called as MAP has it on the right get the
names on its left; with --forward it is the other way. What MAP has and FILE has not is left out, and a line reports how
much.

Texts are left as they are. Where one has an old name as a word, as reflection would have it, a line names it.

Members and classes stay in their order, so what is renamed and renamed back is the same to the byte. OUT is the file as
`dexasm assemble` writes it, without debug information and annotations (a line reports how many are dropped, unless
--quiet is given), by the command's own rules for OUT; FILE may be a listing too, `-` is standard input and output, and
OUT may be FILE. A refusal changes nothing.

Exit status: 0 done, 1 FILE is refused, or a name, 2 a usage error, or a name that names nothing, 3 something cannot be
read or written, 4 out of memory.
"""
from __future__ import annotations

import re
from argparse import Namespace
from collections.abc import Iterable
from typing import TYPE_CHECKING

from dexasm.analysis.extras import report_dropped
from dexasm.analysis.xref import classes_in
from dexasm.cli.core import program_of_input, run_or_fail
from dexasm.cli.errors import FAILED
from dexasm.cli.inputs import read_input
from dexasm.cli.io import display_name, read_file, write_output
from dexasm.cli.main import Parser, command, print_error
from dexasm.cli.mapping import inverted, parse_mapping
from dexasm.cli.renaming import Names, rename
from dexasm.cli.sanitize import escaped

if TYPE_CHECKING:
    from dexasm.program import Program

WORD = re.compile(r"[\w$/.;-]+")
MOST_REPORTED = 20  # texts


def requested_names(program: Program, args: Namespace, pairs: list[tuple[str, str]]) -> Names:
    """The names that things get. Those of a mapping come first."""
    names = Names(program)
    if args.mapping is not None:
        by_mapping(names, args)
    for old, new in pairs:
        names.request(old, new)
    return names


def by_mapping(names: Names, args: Namespace) -> None:
    text = read_file(args.mapping).decode("utf8", "surrogateescape")
    classes = parse_mapping(text, display_name(args.mapping))
    missing = 0
    for one in classes if args.forward else inverted(classes):
        row = names.uses.rows.get(one.old)
        if row is None:
            missing += 1 + len(one.members)
            continue
        if one.old != one.new:
            names.request_class(one.old, one.new)
        numbers = names.uses.by_signature[row]
        for member in one.members:
            number = numbers.get(f"{member.old}{'' if member.type.startswith('(') else ':'}{member.type}")
            missing += number is None
            if number is not None and member.old != member.new and number not in names.members:
                names.set_member(number, member.new)
    if missing:
        print_error(f"dexasm-rename: {display_name(args.mapping)}: {missing} of its classes and members aren't there")


def mentioned(program: Program) -> tuple[set[str], dict[str, None]]:
    """The classes that a program names, and its texts in their order."""
    named, texts = set[str](), dict[str, None]()
    for one in program.references():
        if one.is_text:
            texts[one.name] = None
        else:
            named.add(one.name)
    return {one for name in named for one in classes_in(name)}, texts


def print_warnings(texts: Iterable[str], names: Names) -> None:
    """What may need a look: texts that have an old name, and classes from outside that are inherited from."""
    for name in sorted(names.unsure):
        print_error(f"dexasm-rename: a renamed method's class inherits from {escaped(name)}, which isn't there")
    old = {form for name in names.classes for form in (name, name[1:-1], name[1:-1].replace("/", "."))}
    found = [text for text in texts if not old.isdisjoint(WORD.findall(text))]
    for text in found[:MOST_REPORTED]:
        print_error(f"dexasm-rename: a text has an old name, and stays: {escaped(text[:100])}")
    if len(found) > MOST_REPORTED:
        print_error(f"dexasm-rename: {len(found) - MOST_REPORTED} more texts have one")


@command(unread=FAILED)
def main(parser: Parser) -> int:
    parser.add_argument("--mapping", metavar="MAP")
    parser.add_argument("--forward", action="store_true")
    parser.add_argument("--quiet", "-q", action="store_true")
    parser.add_argument("--output", "-o", metavar="OUT", required=True)
    parser.add_argument("file", metavar="FILE")
    parser.add_argument("names", metavar="OLD=NEW", nargs="*")
    args = parser.parse_intermixed_args()
    if args.forward and args.mapping is None:
        parser.error("--forward is for --mapping")
    pairs = [(old, new) for old, is_pair, new in (one.partition("=") for one in args.names) if is_pair]
    if len(pairs) < len(args.names) or args.mapping is None and not pairs:
        parser.error("names are given as OLD=NEW")
    source = read_input(args.file)
    program = program_of_input(source)
    names = requested_names(program, args, pairs)
    named, texts = mentioned(program)
    names.check(named)
    print_warnings(texts, names)
    result = run_or_fail("assemble", data=str(rename(program, names)).encode("ascii"), name=source.name)
    if not args.quiet:
        report_dropped(parser.prog, source.name, source.data, result)
    write_output(args.output, result)
    return 0
