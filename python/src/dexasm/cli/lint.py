"""Checks rules of Android's verifiers that `dexasm check` does not test.

usage: dexasm-lint [--code [--skip-boot] [--jobs N] [--seconds N]] [--allow-empty] [--json|--sarif] [FILE..]

`dexasm check` says `ok` of a file that keeps docs/FORMAT.md; Android's verifier of .dex files asks a few things more of
a program, of flags, lists of members, names, values and outs. For each member that breaks one there is a line: FILE,
the class or member, the rule's word, what is wrong and by what, and the page and its part that the rule belongs to. A
file in which none is broken is `FILE: ok`. The rules:

{FILE_RULES}

They are those of ART 14 for version 035, which docs/VERIFIERS.md lists with all else that it asks.

With --code the code of each method is checked too, as a device does later: what kind of value each register holds on
each way, and what each instruction takes. For each place that breaks a rule of the page "Dalvik bytecode constraints"
there is a line, at most five of a method. Of a listing it has line and column, otherwise the member, the instruction's
number and its address in units:

  a.txt:9:12: error: v3 holds a reference (java.lang.String, from line 7), and add-int takes an int (register-kind, B1)
  a.dex: LA;->m(I)V: 7 (0x0a): error: v3 holds ..

A class that isn't in the file is assumed correct; one that is, is taken as the file has it,
also where a device has its own of that name (--skip-boot). Code behind a handler of a class that a device may not find
isn't checked, as then on the device. The rules:

{CODE_RULES}

  --json    a line of JSON for each: file, uri, kind (dex, listing), status, rule, page, line, column, class, member,
            instruction, address, register, sentence, why; what isn't known is null. The status is broken, ok (of a
            file), refused or failed (it can't be checked)
  --sarif   one document of SARIF 2.1.0, which has what is broken
  --skip-boot  takes a class of a package that the boot class path has (java, javax.net, android, dalvik, sun, org.json
            ..) for one that isn't in the file, as a device does, and doesn't check its code
  --jobs N  has --code look by N workers, each at some of a file's classes
  --seconds N  so long --code may take for a file, each worker of its processor (600, or a fraction such as 0.5; ten
            times as much by the clock); what isn't checked by then has a line that says so

FILE is a .dex file or a listing, `-` or none at all standard input; or an archive, of which each classes*.dex is
checked, or app.apk!classes2.dex. One without a classes*.dex is a line and status 3, unless --allow-empty is given. One
that dexasm refuses has dexasm's own line on standard error, and the others go on. A method with so many registers and
ways that it isn't checked to its end has a line that says so.

Exit status: 0 no rule is broken, 1 one is, or a file is refused; 2 wrong words; 3 something can't be read, written or
checked to its end; 4 out of memory. Of several files it is the highest.
"""
from __future__ import annotations

import os
import sys
from argparse import Namespace
from collections.abc import Iterator
from typing import Any

from dexasm.analysis.verifier.report import code_findings, format_line, member_of, structure_findings
from dexasm.analysis.verifier.rules import CODE_RULES, FILE_RULES, manual
from dexasm.cli.core import is_listing, program_of_input
from dexasm.cli.errors import FAILED, MEMORY, REFUSED, CliError
from dexasm.cli.inputs import Input, read_inputs, split_entry
from dexasm.cli.io import display_name
from dexasm.cli.main import Parser, command, positive_number, print_error, seconds as in_seconds
from dexasm.cli.reporters import Json, Sarif, Text, exit_status, sentence_of
from dexasm.cli.sanitize import escaped
from dexasm.cli.verdict import Verdict


PARTS = {"{FILE_RULES}": manual(FILE_RULES), "{CODE_RULES}": manual(CODE_RULES)}  # of the manual above
ENDS = {REFUSED: "refused", MEMORY: "memory"}


class Lines(Text):
    """Lines for people: of a rule of files the class or member, of one of code the place."""

    def lines(self, verdict: Verdict) -> list[str]:
        name = display_name(verdict.path)
        name += f"!{escaped(verdict.entry)}" if verdict.entry else ""
        if verdict.status == "ok":
            return [f"{name}: ok"]
        if verdict.class_ is None:
            return []  # (which standard error has)
        if verdict.rule in FILE_RULES:
            return [f"{name}: {'->'.join(member_of(verdict))}: {verdict.rule}: {verdict.why} ({verdict.page})"]
        return [format_line(name, verdict)]


class LintJson(Json):
    fields = ("rule", "page", "line", "column", "class_", "member", "instruction", "address", "register")

    def extra_fields(self, verdict: Verdict) -> dict[str, Any]:
        return {"sentence": sentence_of(verdict) if verdict.rule else None, "why": verdict.why}


class LintSarif(Sarif):
    tool = "dexasm-lint"


FORMS: dict[str, type[Text]] = {"json": LintJson, "sarif": LintSarif}


def check_file(path: str, args: Namespace) -> Iterator[Verdict]:
    """What is known of one file."""
    file = os.fsencode(split_entry(path)[0] or path)
    for source in read_inputs(path, is_empty_allowed=args.allow_empty):
        is_ok = True
        for verdict in check_input(file, source, args):
            is_ok = False
            yield verdict._replace(entry=source.entry)
        if is_ok:
            yield Verdict(file, source.entry, kind_of(source), "ok")


def kind_of(source: Input) -> str:
    return "listing" if is_listing(source.data) else "dex"


def check_input(file: bytes, source: Input, args: Namespace) -> Iterator[Verdict]:
    """The rules that a file breaks, or an entry of an archive."""
    data, name = source.data, source.name
    program = program_of_input(source)
    yield from structure_findings(file, kind_of(source), program)
    if not args.code:
        return
    from dexasm.analysis.verifier.pool import check_by_workers

    try:
        found = check_by_workers(program, args.jobs, args.skip_boot, args.seconds)
        yield from code_findings(file, kind_of(source), data, program, found)
    except CliError as failed:
        raise CliError(f"{name}: {failed.line}", failed.status) from None


def parse_args(parser: Parser) -> Namespace:
    form = parser.add_mutually_exclusive_group()
    for name in FORMS:
        form.add_argument(f"--{name}", dest="form", action="store_const", const=name)
    parser.add_argument("--code", action="store_true")
    parser.add_argument("--skip-boot", action="store_true")
    parser.add_argument("--allow-empty", action="store_true")
    parser.add_argument("--jobs", type=positive_number, default=1)
    parser.add_argument("--seconds", type=in_seconds, default=600)
    parser.add_argument("files", nargs="*", metavar="FILE")
    return parser.parse_args()


@command(unread=FAILED)
def main(parser: Parser) -> int:
    args = parse_args(parser)
    form = FORMS[args.form]() if args.form else Lines()
    status = 0
    for path in args.files or "-":
        try:
            for verdict in check_file(path, args):
                status = max(status, exit_status(verdict))
                form.print(form.lines(verdict))
        except CliError as failed:
            sys.stdout.flush()
            print_error(f"{parser.prog}: {failed.line}")
            status = max(status, failed.status)
            end = ENDS.get(failed.status, "failed")
            form.print(form.lines(Verdict(os.fsencode(path), "", None, end, why=failed.line)))
    form.print(form.end(status))
    return status
