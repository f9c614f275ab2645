"""Makes one .dex file of several: it has the classes of all of them.

usage: dexasm-merge [--same] [--fit] [--quiet] FILE.. --output OUT
       dexasm-merge --replace [--fit] [--quiet] FILE FILE.. --output OUT

Each FILE is a .dex file or a listing, an archive, whose classes*.dex are meant, or app.apk!classes2.dex; `-` is
standard input, and as OUT standard output. The classes are in the order in which they are given, except that the
superclass and the interfaces of a class are put before it, as the format requires. OUT is the file of the merged
program as `dexasm assemble` writes it: like `dexasm strip`, this leaves out debug information and annotations. A line
says how many, unless --quiet is given.

A class that two files define is refused, and both files are named. With --same a class that is the same text in all of
them is taken once. With --replace a class of a later file takes the place of the one before: `dexasm-merge --replace
a.dex class.txt --output a.dex` puts back a class that `dexasm-query show` listed and that was edited. A later file that
replaces nothing is an error. Cyclic inheritance is refused, with the names of the classes. What does not fit into one
file is refused with the number of the limit, the class and its file, and what goes beyond: 80 and 81 are too many types
and prototypes, 82 to 84 strings, fields and methods that an instruction does not reach.

With --fit longer instructions are used where 82 or 85 would be refused, that of one file too: const-string/jumbo for
strings beyond the 65,536th, goto/16 and goto/32 for a goto that does not reach, and an `if` around a goto/32 for an
`if` that does not; payloads are aligned again. (A listing that is refused for these has to be as `list` prints it.) A
line says what was changed, and how often. Nothing else is, and what fits stays as it is.

OUT is written by the command's own rules, once the whole answer is there. A refusal changes nothing, and OUT may be one
of the files.

Exit status: 0 done, 1 a file or the program of all is refused, 2 a usage error, 3 something cannot be read or written,
4 out of memory.
"""
from __future__ import annotations

from argparse import Namespace
from typing import TYPE_CHECKING

from dexasm.analysis.extras import report_dropped
from dexasm.cli.core import is_listing, program_of_input, run_job
from dexasm.cli.errors import FAILED, USAGE, CliError
from dexasm.cli.inputs import Input, read_inputs
from dexasm.cli.io import write_output
from dexasm.cli.main import Parser, command, print_error
from dexasm.cli.merger import FAR_BRANCH, FAR_STRING, Merger

if TYPE_CHECKING:
    from dexasm.program import Program


def merge(args: Namespace, paths: list[str | None], prog: str) -> bytes:
    """The file of the classes of all files."""
    whole = Merger(args.same, args.replace)
    inputs = [(number, source) for number, path in enumerate(paths) for source in read_inputs(path)]
    for number, source in inputs:
        program = far_listing(source) if args.fit and is_listing(source.data) else program_of_input(source)
        if args.replace and number and whole.classes.keys().isdisjoint(program.classes.names()):
            raise CliError(f"{source.name}: no class of it is in a file before it, so it replaces nothing", USAGE)
        whole.add(source.name, program)
    file = whole.file(args.fit)
    for _, source in () if args.quiet else inputs:
        report_dropped(prog, source.name, source.data)
    if whole.done:
        done = (f"{what} ({count:,})" for what, count in sorted(whole.done.items()))
        print_error(f"{prog}: made to fit: {', '.join(done)}")
    return file


def far_listing(source: Input) -> Program:
    """The program of a listing, also of one that is refused for a string or a target out of reach, if it is spelled as
    `list` prints it."""
    refusal = run_job("assemble", data=source.data).refusal()
    if refusal and refusal[0] in (FAR_STRING, FAR_BRANCH):
        from dexasm.program import Program

        try:
            return Program.of_listing(source.data.decode("ascii"))
        except ValueError:
            pass  # (what is refused is told as of any listing)
    return program_of_input(source)


@command(unread=FAILED)
def main(parser: Parser) -> int:
    which = parser.add_mutually_exclusive_group()
    which.add_argument("--same", action="store_true")
    which.add_argument("--replace", action="store_true")
    parser.add_argument("--fit", action="store_true")
    parser.add_argument("--quiet", "-q", action="store_true")
    parser.add_argument("--output", "-o", metavar="OUT", required=True)
    parser.add_argument("files", metavar="FILE", nargs="+")
    args = parser.parse_args()
    paths = [None if path == "-" else path for path in args.files]
    if paths.count(None) > 1:
        parser.error("standard input can only be read once")
    output = merge(args, paths, parser.prog)
    write_output(args.output, output)
    return 0
