"""Shows what differs between the programs of two .dex files, by class and by member.

usage: dexasm-diff [--names] [--json] [--color auto|always|never] A B
       dexasm-diff --textconv FILE

A and B are .dex files or listings, or archives, of which all classes*.dex are one program; app.apk!classes2.dex is one
of them alone. Debug information and annotations are no part of a program. A class or a member that
only one of them has is shown whole, one that both have by the lines that differ, with three lines around each change.
Labels are numbered one after the other in each code, so that an instruction more or less changes no line but its own.
With --names each class and member is one line: `-` only in A, `+` only in B, `!` in both, but different. Colours are
shown on a terminal, if NO_COLOR is not set. A last line reports classes in another order.

With --json each of these is a line of JSON: class, member (null: the class, or its lines before the members), change
(removed, added, changed, or order with both null), and lines, each with its mark in front (`-`, `+`, a blank, or `@`
between groups), which --names leaves out. Names are as in a listing.

With --textconv it prints one file's listing with labels numbered so: for git, which compares such texts
(docs/RECIPES.md). A file that dexasm refuses is then its refusal and its SHA-256. Anything else that goes wrong has a
status of its own, so that git keeps nothing of it.

Exit status, as of diff: 0 the same program, 1 another one, 2 trouble: a file that is refused or cannot be read, or a
usage error. Two files that are refused are never the same. With --textconv: 0 done, 2 trouble.
"""
from __future__ import annotations

import difflib
import hashlib
import re
import sys
from collections.abc import Iterable, Iterator
from typing import TYPE_CHECKING

from dexasm.cli.core import program_of, run_job
from dexasm.cli.errors import REFUSED, CliError
from dexasm.cli.inputs import Input, read_inputs
from dexasm.cli.main import Parser, command
from dexasm.cli.sanitize import escaped
from dexasm.cli.terminal import is_colored

if TYPE_CHECKING:
    from dexasm.classes import Class as ProgramClass
    from dexasm.program import Program

    Marked = tuple[str, str]  # a mark and a line
    Part = tuple[str, str, Iterable[Marked]]  # its name, its mark, and its lines with theirs

AROUND = 3  # lines
MOST = 20000  # lines of a code between its first and its last change that are compared one by one
LABEL = re.compile(r"(?:^|(?<= )):L\d+(?= |$)")
SIDES = {"-": "only in the first", "+": "only in the second", "!": "in both"}
CHANGES = {"-": "removed", "+": "added", "!": "changed", "@": "order"}
COLORS = {"-": "\x1b[31m", "+": "\x1b[32m", "@": "\x1b[36m", "!": "\x1b[33m"}


def renumbered(lines: list[str]) -> list[str]:
    """A member's lines with its labels numbered in the order in which they mark its code."""
    marks = [line for line in lines if line.startswith(":")]
    numbers = {mark: f":L{number}" for number, mark in enumerate(marks)}
    # (a line with a text has no label)
    return [line if '"' in line else LABEL.sub(lambda found: numbers.get(found[0], found[0]), line) for line in lines]


class Class:
    """A class's lines before its members, and those of each member by its kind and its name with its type."""

    members: dict[tuple[str, str], list[str]]

    def __init__(self, one: ProgramClass) -> None:
        from dexasm.names import spelled

        (_, heads), *members = one.parts()
        self.heads, self.members = heads.splitlines(), {}
        for member, text in members:
            assert member is not None  # (only the first part is no member's)
            key = text.partition(" ")[0], spelled(member.signature)
            self.members[key] = renumbered(text.splitlines())

    def lines(self) -> list[str]:
        return self.heads + [line for lines in self.members.values() for line in lines] + ["end class"]


class Classes:
    """The classes of a program, each by its name; one is read only where it differs."""

    def __init__(self, program: Program) -> None:
        from dexasm.names import spelled

        self.classes, self.texts = program.classes, [*program.classes.texts()]
        self.names = {spelled(name): at for at, name in enumerate(program.classes.names())}

    def text(self, name: str) -> str:
        return self.texts[self.names[name]]

    def read(self, name: str) -> Class:
        return Class(self.classes[self.names[name]])


def changes(old: list[str], new: list[str]) -> Iterator[Marked]:
    """The lines that differ with some around them, each with its mark."""
    first = next((at for at, (a, b) in enumerate(zip(old, new)) if a != b), min(len(old), len(new)))
    same = next(
        (at for at, (a, b) in enumerate(zip(reversed(old[first:]), reversed(new[first:]))) if a != b),
        min(len(old), len(new)) - first,
    )
    begin, tail = max(first - AROUND, 0), max(same - AROUND, 0)
    old, new = old[begin : len(old) - tail], new[begin : len(new) - tail]
    if len(old) + len(new) > MOST:
        # (difflib takes the product of both lengths)
        yield from [("-", line) for line in old] + [("+", line) for line in new]
        return
    for number, group in enumerate(difflib.SequenceMatcher(None, old, new).get_grouped_opcodes(AROUND)):
        if number:
            yield "@", ".."
        for what, i, j, k, l in group:
            if what == "equal":
                yield from ((" ", line) for line in old[i:j])
            else:
                yield from ((mark, line) for mark, lines in (("-", old[i:j]), ("+", new[k:l])) for line in lines)


def mark_all(mark: str, lines: list[str]) -> Iterator[Marked]:
    return ((mark, line) for line in lines)


def parts(old: Class, new: Class) -> Iterator[Part]:
    """What differs between two classes of one name: each part's name, its mark, and its lines with their marks."""
    if old.heads != new.heads:
        yield "", "!", changes(old.heads, new.heads)
    for key in [*old.members, *(key for key in new.members if key not in old.members)]:
        one, other = old.members.get(key), new.members.get(key)
        if other is None:
            assert one is not None  # (one of both has it)
            yield f"->{key[1]}", "-", mark_all("-", one)
        elif one is None:
            yield f"->{key[1]}", "+", mark_all("+", other)
        elif one != other:
            yield f"->{key[1]}", "!", changes(one, other)


def differences(old: Classes, new: Classes) -> Iterator[Part]:
    """What differs between two programs, by class and member."""
    for name in [*old.names, *(name for name in new.names if name not in old.names)]:
        if name not in new.names:
            yield name, "-", mark_all("-", old.read(name).lines())
        elif name not in old.names:
            yield name, "+", mark_all("+", new.read(name).lines())
        elif old.text(name) != new.text(name):
            found = parts(old.read(name), new.read(name))
            yield from ((name + part, mark, lines) for part, mark, lines in found)
    both = [name for name in new.names if name in old.names]
    if [name for name in old.names if name in new.names] != both:
        yield "the classes of both are in a different order", "@", ()


def compare(a: str, b: str, is_short: bool, has_colors: bool) -> int:
    """Prints what differs and answers the status."""

    def say(mark: str, line: str) -> None:
        print(f"{COLORS[mark]}{line}\x1b[0m" if has_colors and mark in COLORS else line)

    is_same = True
    for name, mark, lines in differences(Classes(program_of(a)), Classes(program_of(b))):
        if is_same and not is_short:
            print(f"--- {escaped(a)}\n+++ {escaped(b)}")
        is_same = False
        if is_short or mark == "@":
            say(mark, f"{mark} {name}")
            continue
        say("@", f"@@ {name} {SIDES[mark]} @@")
        for kind, line in lines:
            say(kind, kind + line)
    return 0 if is_same else 1


def compare_as_json(a: str, b: str, is_short: bool) -> int:
    """Prints what differs as lines of JSON and returns the status."""
    import json

    is_same = True
    for name, mark, lines in differences(Classes(program_of(a)), Classes(program_of(b))):
        is_same = False
        class_, _, member = name.partition("->") if mark != "@" else ("", "", "")
        found: dict[str, object] = {"class": class_ or None, "member": member or None, "change": CHANGES[mark]}
        print(json.dumps(found if is_short else found | {"lines": [kind + line for kind, line in lines]}))
    return 0 if is_same else 1


def textconv(path: str) -> int:
    """Of an archive one file after the other."""
    return max(convert(file) for file in read_inputs(path))


def convert(file: Input) -> int:
    data = file.data
    result = run_job("list", data=data)
    if result.status == REFUSED and result.refusal():
        print(f"{escaped(result.error_lines[-1])}\n{hashlib.sha256(data).hexdigest()}")
    elif result.status:
        raise CliError(f"{file.name}: {result.message()}", 2)
    else:
        from dexasm.program import Program

        program = Program.of_listing(result.output.decode("ascii"))
        print("dex 035 listing 2")
        sys.stdout.writelines(line + "\n" for one in program.classes for line in Class(one).lines())
    return 0


@command(trouble=2, unread=2)
def main(parser: Parser) -> int:
    parser.add_argument("--names", action="store_true")
    parser.add_argument("--color", choices=("auto", "always", "never"), default="auto")
    parser.add_argument("--textconv", action="store_true")
    parser.add_argument("--json", action="store_true")
    parser.add_argument("paths", nargs="+")
    args = parser.parse_args()
    if len(args.paths) != (1 if args.textconv else 2):
        parser.error("two files are needed, A and B (with --textconv one, FILE)")
    if args.textconv:
        return textconv(args.paths[0])
    a, b = args.paths
    if args.json:
        return compare_as_json(a, b, args.names)
    return compare(a, b, args.names, is_colored(args.color))
