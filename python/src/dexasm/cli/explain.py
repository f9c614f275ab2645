"""Explains what a refusal of dexasm means, and shows what is at its place.

usage: dexasm-explain [--json] [FILE]

It reads what dexasm printed from standard input, as in `dexasm check FILE 2>&1 | dexasm-explain FILE`. For each line
`.. refused N NAME at P` it prints the line, the sentence that docs/FORMAT.md or docs/LISTING.md has for N, and, with
FILE, the bytes, the line or the class at P, the class or the method that has it, and what is often the reason: a comma
between registers, an archive, a file of another version, who wrote such a signature, the character that a name cannot
have, the member that is there twice, the number that is encoded too long. Of a listing it prints the line, the word and
what is expected there, also where P is only a class that breaks a rule of programs or a limit, or a count. Other lines
are printed as they are, but for what a terminal would obey. FILE may be an archive, as in `dexasm-apk check app.apk
2>&1 | dexasm-explain app.apk`: each line then names one of its .dex files.

With --json it prints a line of JSON for each refusal, and nothing else: `number`, `name`, `place`; `sentence` and
`place_is`, as the pages have them; `found`, lines of what is there; `hints`; `page`, the section of docs/ERRORS.md; and
`line`, `column`, `class`, `member`, `instruction` (its number in its code, from 0) and `word` where they are known,
else null.

Exit status: 0 done, 2 a usage error, 3 something cannot be read or written.
"""
from __future__ import annotations

import contextlib
import json
import re
import sys
from collections.abc import Iterator
from typing import TYPE_CHECKING, Any

from dexasm.cli.core import REFUSAL, run_job
from dexasm.cli.errors import CliError
from dexasm.cli.faults import OF_CLASSES, OF_COUNTS, OF_LINES, PAGE, REMEDIES, SENTENCES, page_path, section
from dexasm.cli.file_hints import file_hints
from dexasm.cli.filetypes import DEX
from dexasm.cli.inputs import Input, read_inputs, split_entry
from dexasm.cli.io import display_name, read_file
from dexasm.cli.main import Parser, command
from dexasm.cli.sanitize import escaped, shortened
from dexasm.dexfile import Malformed, Tables

if TYPE_CHECKING:
    from dexasm.listing.diagnostics import Place


AROUND = 16  # bytes a row
OF_ROWS, OF_CODES = range(40, 50), range(60, 80)  # faults whose place is a class row's, or in a code
# Faults of names: the table, and which characters are of the name's form too.
OF_NAMES = {24: ("type", "[/;"), 31: ("field", ""), 34: ("method", "")}


def bytes_at(data: bytes, place: int) -> Iterator[str]:
    """Two rows of bytes, the first of which has the place."""
    first = place - place % AROUND
    for at in (first, first + AROUND):
        if at < len(data):
            row = data[at : at + AROUND]
            text = "".join(chr(byte) if 0x20 <= byte < 0x7F else "." for byte in row)
            mark = "".join("^^ " if at + i == place else "   " for i in range(len(row))).rstrip()
            yield f"{at:08x}  {row.hex(' '):<47}  {text}"
            if mark:
                yield f"          {mark}"


# ---- files


# What a SimpleName of version 035 is made of (docs/FORMAT.md), and what version 040 added.
SIMPLE = re.compile("[A-Za-z0-9$_\u00a1-\u1fff\u2010-\u2027\u2030-\ud7ff\ue000-\uffef\U00010000-\U0010ffff-]")
SPACES = re.compile("[ \u00a0\u2000-\u200a\u202f]")


def character_hint(name: str, others: str) -> str | None:
    """The first character of a name that no name can have; `others` are those of its form."""
    if name[:1] == "<" and name[-1:] == ">" and not others:
        name = name[1:-1]
    at = next((at for at, char in enumerate(name) if not SIMPLE.match(char) and char not in others), None)
    if at is None:
        return None if name else "the name is empty"
    since = "names can have since version 040 alone" if SPACES.match(name[at]) else "no name can have"
    return f"the name {shortened(escaped(name))} has U+{ord(name[at]):04X} at its character {at + 1}, which {since}"


class Explanation:
    """What is known of one refusal."""

    def __init__(self, number: int, name: str, place: int) -> None:
        """(The attributes are in the order of the JSON.)"""
        own_name, sentence, place_is = SENTENCES[number]
        self.number, self.name, self.place = number, name, place
        self.sentence, self.place_is = sentence, place_is
        self.found: list[str] = []
        self.hints: list[str] = []
        self.page = (page_path() or PAGE) + section(number, own_name)
        self.line: int | None = None
        self.column: int | None = None
        self.class_: str | None = None
        self.member: str | None = None
        self.instruction: int | None = None
        self.word: str | None = None

    def at_line(self, data: bytes) -> None:
        rows = data.split(b"\n")
        if not 0 < self.place <= len(rows):
            return
        self.line = self.place
        if self.number in (101, 102):
            from dexasm.listing.syntax import common_mistakes

            is_first = not any(row.split() and row.split()[0][:1] != b"#" for row in rows[: self.place - 1])
            text = rows[self.place - 1].decode("utf8", "surrogateescape")
            self.hints += (why for _, why in common_mistakes(text, is_first))
        self.found.append(f"{self.line}: {cut(rows[self.line - 1])}")
        self.set_location(locate(self.number, self.place, data))

    def at_class(self, data: bytes) -> None:
        """What is at fault in the class of this number, or where a count was too great."""
        from dexasm.listing.source import Listing

        is_file = data.startswith(DEX)
        if is_file:
            data = run_job("list", data=data).output
        where, heads = locate(self.number, self.place, data), Listing(data).heads
        if where:
            numbers = sorted(filter(None, {where.class_line, where.member_line, where.line}))
        elif self.number not in OF_COUNTS and self.place < len(heads):
            numbers = [heads[self.place]]
        else:
            return
        rows = data.split(b"\n")
        name = (rows[numbers[0] - 1].split()[1:2] or [b"?"])[0].decode("latin1")
        self.line, self.class_ = numbers[-1], escaped(name)
        self.found += [("" if is_file else f"{number}: ") + cut(rows[number - 1]) for number in numbers]
        self.set_location(where)
        if is_file:
            self.line = self.column = None

    def set_location(self, where: Place | None) -> None:
        """Takes what is known of the place in a listing."""
        if where is None:
            return
        self.class_ = where.class_name and where.class_name.spelled
        self.member = where.member and where.member.spelled.partition("->")[2]
        self.column, self.instruction, self.word = where.column, where.insn, where.word and escaped(where.word)
        if where.why:
            # (of a line that isn't of the form what is wrong is often no word)
            self.hints = [hint for hint in self.hints if hint != where.why]
            self.hints.append(shortened(escaped(where.why if self.number == 100 else where.sentence())))

    def in_file(self, data: bytes) -> None:
        """The class whose row it is, or the method whose code has the place, if this is the file that was refused."""
        try:
            tables = Tables(data)
            if self.number in OF_NAMES:
                table, others = OF_NAMES[self.number]
                row = (self.place - tables.at[table]) // tables.row[table]
                string = tables.numbers(table, row, "<I" if table == "type" else "<HHI")[-1]
                hint = character_hint(tables.text(string), others)
                self.hints += [hint] if hint else []
            elif self.number in OF_ROWS:
                self.in_row(tables, (self.place - tables.at["class"]) // 32, [4 * len(data)])
            else:
                left, rows = [4 * len(data)], range(tables.count["class"])
                codes = ((code, index, row) for row in rows for code, index in tables.codes_of(row, left))
                if found := max((one for one in codes if one[0] <= self.place), default=None):
                    _, index, row = found
                    self.class_, self.member = escaped(tables.class_name(row)), escaped(tables.method_name(index))
        except (Malformed, MemoryError):
            self.class_ = self.member = None

    def in_row(self, tables: Tables, row: int, left: list[int]) -> None:
        """The class of a row, the member that it has twice, and the number that is spelled too far."""
        self.class_ = escaped(tables.class_name(row))
        if self.number == 47:
            member = tables.twice(row, left)
            self.member = member and escaped(member)
            merged = "as dx writes it where ProGuard merged interfaces"
            self.hints += [f"the class has {shortened(self.member)} twice in a list, {merged}"] if self.member else []
        elif self.number == 44:
            far = tables.too_far(row, left)
            self.hints += [f"the number at 0x{far[0]:x}, {far[1].hex(' ')}, is none of 32 bits"] if far else []

    def inspect(self, data: bytes) -> None:
        """Looks at what was refused."""
        if self.number in OF_LINES:
            self.at_line(data)
        elif self.number in (*OF_COUNTS, *OF_CLASSES):
            self.at_class(data)
        elif self.number < 80:
            self.found += bytes_at(data, self.place)
            self.hints += file_hints(self.number, data)
            if data.startswith(DEX) and self.number in (*OF_NAMES, *OF_ROWS, *OF_CODES):
                self.in_file(data)

    def lines(self) -> Iterator[str]:
        yield f"  {self.number}: {self.sentence}."
        yield f"  The place is {self.place_is}: {self.place}{f' (0x{self.place:x})' if self.number < 80 else ''}."
        yield from (f"    {line}" for line in self.found)
        if self.class_ and self.number not in (*OF_COUNTS, *OF_CLASSES) or self.member:
            yield f"  In {self.class_}{f'->{self.member}' if self.member else ''}."
        yield from (f"  Hint: {hint}." for hint in self.hints)
        yield f"  More: {self.page}"

    def json(self) -> dict[str, Any]:
        return {name.rstrip("_"): value for name, value in vars(self).items()}


def locate(number: int, place: int, listing: bytes) -> Place | None:
    """The place in a listing, which was assembled with --align or without, as the module for Python finds it."""
    from dexasm.listing.diagnostics import of

    return of(listing, number, place) or of(listing, number, place, True)


def cut(line: bytes) -> str:
    return shortened(escaped(line))


def explain_refusal(number: int, name: str, place: int, data: bytes | None) -> Explanation:
    """What is known of a refusal, maybe of these bytes."""
    one = Explanation(number, name, place)
    if data is not None:
        one.inspect(data)
    if one.number in REMEDIES and not one.hints:
        one.hints.append(REMEDIES[one.number])
    return one


def explain_line(line: str, inputs: list[Input]) -> Explanation | None:
    """What is known of the refusal that a line has: of several files that whose entry of the archive is before it."""
    found = REFUSAL.match(line)
    if found is None or int(found[1]) not in SENTENCES:
        return None
    before = line[: found.start(1)]
    named = [one.data for one in inputs[1:] if re.search(rf"(?:^|!|\s){re.escape(one.entry)}:", before)]
    data = named[0] if len(named) == 1 else inputs[0].data if inputs else None
    return explain_refusal(int(found[1]), found[2], int(found[3]), data)


def inputs_with_archive(path: str | None) -> list[Input]:
    """The file, and the .dex files that it has as an archive, where these can be read."""
    archive, entry = split_entry(path)
    if path is None or archive is None or entry is not None:
        return [*read_inputs(path)] if path is not None else []
    found = [Input(display_name(path), "", read_file(path))]
    with contextlib.suppress(CliError):
        found += read_inputs(path)
    return found


@command()
def main(parser: Parser) -> int:
    parser.add_argument("--json", action="store_true")
    parser.add_argument("file", nargs="?")
    args = parser.parse_args()
    if args.file == "-":
        parser.error("- is standard input, which has the refusals")
    inputs = inputs_with_archive(args.file)
    if sys.stdin is None:
        raise CliError("standard input: it is closed")
    for row in sys.stdin.buffer.read().decode("utf8", "surrogateescape").removesuffix("\n").split("\n"):
        one = explain_line(row, inputs)
        if args.json:
            if one:
                print(json.dumps(one.json()))
            continue
        print(escaped(row))
        for line in one.lines() if one else ():
            print(line)
    return 0
