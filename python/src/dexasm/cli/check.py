"""Checks many files, and reports as text, JSON, SARIF, GitHub annotations or JUnit.

usage: dexasm-check [--lint] [--explain] [--quiet] [--allow-empty] [--exclude GLOB].. [--baseline FILE]
                    [--color auto|always|never] [--jobs N] [--seconds N] [--memory SIZE] [--paths-from FILE] PATH..
       dexasm-check --json [--program] [--lint] [--quiet] [..] PATH..
       dexasm-check --sarif|--github|--junit [--lint] [--quiet] [..] PATH..

PATH is a .dex file, a zip archive, of which each *.dex is checked, or a listing, which is assembled. Files named *.dex
are read as .dex files, those named *.apk, *.jar, *.zip, *.aar, *.aab and *.apks as archives, in any case, and others by
their first bytes. Archives in an archive are checked too, one deep. Of a folder it is each file below that has such a
name, or begins as a .dex file, an archive or a listing (`dex 035`) does; a file that looks like a listing but for its
first line has a line. A link there is not followed: each has a line, and so have pipes and devices; it is an error
where something could pass unseen (what it leads to has such a name, begins so or is a folder, and lies elsewhere). `-`
is standard input. There is a line for each, in the order of the paths:

  a.dex: ok
  a.dex:0x0c: error: 9 Signature: the SHA-1 differs
  app.apk!classes2.dex: ok
  app.aab!base/dex/classes.dex: ok
  x.txt:12:8: error: 102 Number: v16: v0 to v15 here; move/from16 or move/16 takes more

The place follows the name: the byte of a file, or line and column of a listing, or the number of the class if no line
is known. A file that cannot be read has such a line too, and the others are checked; so has a file to which an archive
is appended. An archive without a *.dex is accepted, unless it is called *.apk. If nothing was checked, a line on
standard error reports it and the status is 3.

  --allow-empty  accepts that
  --paths-from FILE  reads paths from FILE too, from standard input if it is `-`, each with a NUL after it
  --exclude GLOB  leaves out files that GLOB matches, and prints a line for each: by their name or a folder's above
             them, or by the whole path if GLOB has a slash
  --baseline FILE  accepts what is in FILE, as an earlier run with --json printed it: the same fault at the same place
  --lint     of what dexasm accepts, what a device would still refuse: each place where it breaks a rule of dexasm-lint
             (with its --code, whose manual has them) is such a line, and where none does it is `ok`:
             x.txt:9:12: error: v3 holds 0.., and .. (register-kind, B1)
  --explain  prints below each refusal what dexasm-explain prints: the rule, the bytes or lines there, and the usual
             cause
  --quiet    leaves out what is accepted
  --json     a line of JSON for each: file, uri, kind (dex, listing, archive), status, number, name, place, line,
             column, class, member, instruction, sentence, why, program, dexasm; what is not known is null. The status
             is ok, refused, empty (an archive without a *.dex), skipped (a link or no file, or an archive two deep,
             which is accepted), failed (it cannot be read), time, memory, killed or known (by --baseline). dexasm has
             version, build (proved, quick or unknown) and sha256 of what runs. With --lint also address, register, rule
             and page, and the status broken
  --program  has program say the SHA-256 of the stripped bytes: equal where two files are one program; and annotations
             and debug_methods, how many annotations of each visibility and how many methods with debug information the
             file has beside that
  --sarif    one document of SARIF 2.1.0, which has what is not accepted (also archives that cannot be read), as notes
             what was skipped or cannot be read, and dexasm as above
  --github   what is not accepted, and what was skipped, as commands of a workflow of GitHub, which shows it at the file
  --junit    one document as JUnit writes it, for other servers
  --color    on a terminal, unless NO_COLOR is set, the verdicts have colours; always and never say so of each output

The files are checked by up to --jobs N workers (as many as there are processors): one for some thousands of small
files or some megabytes, and another for each that many more. Each file, an archive with all that is in it, may take
--seconds N of its processor (60, or a fraction such as 0.5; ten times as much by the clock) and --memory SIZE (2G); one
at which a worker is stopped has a line. On a terminal a line shows the progress. Without libdexasm each
file is a run of dexasm, which takes longer. --version prints which build runs and its SHA-256; with DEXASM=proved in
the environment only a proved one does.

Exit status: 0 all are accepted, 1 one is refused or breaks a rule, 2 a usage error, 3 one cannot be read or takes too
long, or a method is not checked to its end, 4 one takes more than --memory. Of several it is the highest.
"""
from __future__ import annotations

import os
import sys
from argparse import Namespace
from collections.abc import Callable
from typing import IO, TYPE_CHECKING

from dexasm.cli.core import core_build
from dexasm.cli.discovery import excluding, read_paths
from dexasm.cli.errors import FAILED, MEMORY, CliError
from dexasm.cli.faults import PAGE, page_path
from dexasm.cli.main import Parser, Version, byte_count, command, positive_number, print_error, seconds
from dexasm.cli.reporters import ACCEPTED, GitHub, JUnit, Json, Sarif, Text, exit_status, is_of_member
from dexasm.cli.scheduler import check_all, find_inputs
from dexasm.cli.terminal import StatusLine, is_colored

if TYPE_CHECKING:
    from dexasm.cli.verdict import Verdict

NOTHING = "no .dex files, archives or listings found (use --allow-empty to accept this)"
FORMS: dict[str, type[Text]] = {"json": Json, "sarif": Sarif, "github": GitHub, "junit": JUnit}


class ExplainedText(Text):
    """Lines, and below each refusal what dexasm-explain knows of it."""

    def lines(self, verdict: Verdict) -> list[str]:
        lines = super().lines(verdict)
        if verdict.number is None or verdict.name is None or verdict.place is None:
            return lines
        from dexasm.cli.explain import explain_refusal

        data = bytes_of(verdict)
        return [*lines, *explain_refusal(verdict.number, verdict.name, verdict.place, data).lines()]


def bytes_of(verdict: Verdict) -> bytes | None:
    """The bytes that were refused; None of what can't be read any more, or is in an archive in an archive."""
    from dexasm.cli.inputs import read_input
    from dexasm.cli.worker import opened_file

    try:
        if verdict.entry:
            return read_input(verdict.path + b"!" + os.fsencode(verdict.entry)).data
        with opened_file(verdict.path) as file:
            return file.read()
    except (CliError, OSError):
        return None


class Progress:
    """Prints verdicts in a form, and knows the status and how far it is."""

    def __init__(self, form: Text, is_quiet: bool, count: int) -> None:
        self.form, self.is_quiet, self.count = form, is_quiet, count
        self.status = self.done = self.bad = 0
        self.has_checked = False  # at anything
        self.last: tuple[bytes, str] | None = None  # path and entry
        self.line = StatusLine()

    def wait(self) -> None:
        if self.line.is_due():
            sys.stdout.flush()
            self.line.draw(f"{self.done} of {self.count} files, {self.bad} not accepted")

    def add(self, verdict: Verdict) -> None:
        is_bad, file = verdict.status not in ACCEPTED, (verdict.path, verdict.entry)
        if self.last is None or verdict.path != self.last[0]:
            self.done += 1  # (an archive counts once, with all that is in it)
        if not is_of_member(verdict) or file != self.last:
            self.bad += is_bad
        self.last = file
        self.status = max(self.status, exit_status(verdict))
        self.has_checked = self.has_checked or verdict.status != "skipped"
        if is_bad or not self.is_quiet:
            self.print(self.form.lines(verdict))
        self.wait()

    def print(self, lines: list[str]) -> None:
        if lines:
            self.line.draw()
            self.form.print(lines)

    def end(self, is_empty_allowed: bool) -> int:
        """Tells where nothing was looked at, and what comes last; answers the status."""
        if not self.has_checked and not is_empty_allowed:
            self.status = FAILED
            self.print(self.form.nothing(NOTHING))
        self.print(self.form.end(self.status))
        if not self.has_checked and not is_empty_allowed:
            sys.stdout.flush()
            print_error(f"dexasm-check: {NOTHING}")
        return self.status


class Build(Version):
    """Prints the version, and which build of dexasm answers."""

    def text(self, prog: str) -> str:
        return f"{super().text(prog)}\n{core_build()}"


def acceptance(baseline: str | None) -> Callable[[Verdict], Verdict]:
    """A function that returns a verdict, as accepted if it is in this file."""
    if baseline is None:
        return lambda verdict: verdict
    from dexasm.cli.baseline import read_baseline, without_known

    known = read_baseline(baseline)
    return lambda verdict: without_known(verdict, known)


def spooled_input(most: int) -> IO[bytes]:
    """Standard input as a file without a name, which workers can read."""
    import tempfile

    if sys.stdin is None:
        raise CliError("standard input: it is closed")
    file = tempfile.TemporaryFile()
    source = sys.stdin.buffer
    while file.tell() <= most and (data := source.read1(1 << 20)):  # type: ignore[attr-defined]
        file.write(data)
    if file.tell() > most:
        raise CliError("standard input: it is longer than --memory", MEMORY)
    file.flush()
    return file


def parse_args(parser: Parser) -> Namespace:
    form = parser.add_mutually_exclusive_group()
    for name in FORMS:
        form.add_argument(f"--{name}", dest="form", action="store_const", const=name)
    parser.add_argument("--program", action="store_true")
    parser.add_argument("--lint", action="store_true")
    parser.add_argument("--explain", action="store_true")
    parser.add_argument("--quiet", action="store_true")
    parser.add_argument("--allow-empty", action="store_true")
    parser.add_argument("--color", choices=("auto", "always", "never"), default="auto")
    parser.add_argument("--jobs", type=positive_number, default=os.cpu_count())
    parser.add_argument("--seconds", type=seconds, default=60)
    parser.add_argument("--memory", type=byte_count, default=2 << 30)
    parser.add_argument("--version", action=Build)
    parser.add_argument("--paths-from", metavar="FILE")
    parser.add_argument("--exclude", action="append", default=[])
    parser.add_argument("--baseline", metavar="FILE")
    parser.add_argument("paths", nargs="*", metavar="PATH")
    args = parser.parse_args()
    if not args.paths and args.paths_from is None:
        parser.error("the following arguments are required: PATH")
    if [*args.paths, args.paths_from].count("-") > 1:
        parser.error("- is standard input, which is read once")
    if args.program and args.form != "json":
        parser.error("--program is for --json")
    if args.explain and args.form is not None:
        parser.error("--explain is for lines, without --json, --sarif, --github and --junit")
    return args


def form_of(args: Namespace) -> Text:
    if args.form is None:
        return (ExplainedText if args.explain else Text)(is_colored(args.color))
    return Json(args.lint, args.program) if args.form == "json" else FORMS[args.form]()


@command(unread=FAILED)
def main(parser: Parser) -> int:
    args = parse_args(parser)
    form = form_of(args)
    accepted = acceptance(args.baseline)
    stdin = spooled_input(args.memory) if "-" in args.paths else None
    name = os.fsencode(f"/proc/{os.getpid()}/fd/{stdin.fileno()}") if stdin else b"-"
    paths = [name if path == "-" else os.fsencode(path) for path in args.paths]
    paths += read_paths(args.paths_from) if args.paths_from else ()
    found = [*find_inputs(paths, excluding(args.exclude))]
    if form.has_build or os.environ.get("DEXASM") == "proved":
        form.build = core_build()
    progress = Progress(form, args.quiet, len(found))
    try:
        for verdict in check_all(found, args, progress.wait):
            named = verdict._replace(path=b"-") if verdict.path == name else verdict
            progress.add(accepted(named))
    finally:
        progress.line.draw()
    status = progress.end(args.allow_empty)
    if progress.bad and args.form is None and not args.quiet and sys.stdout.isatty():
        sys.stdout.flush()
        print_error(f"dexasm-check: {page_path() or PAGE} has what each number means; --explain prints more")
    return status
