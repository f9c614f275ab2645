"""Recomputes the signature and the checksum of a .dex file, and changes nothing else.

usage: dexasm-close FILE --output OUT
       dexasm-close --in-place FILE
       dexasm-close --check FILE

A .dex file begins with the SHA-1 of its bytes from 32 on, its signature, and the Adler-32 of those from 12 on, its
checksum. D8 before 1.6.20, in the Android Gradle plugin 3.0 to 3.5, signed the bytes up to 52 before the end alone, so
dexasm refuses its files with 9 Signature. A file that was edited by hand has to be closed too. A closed file was not
changed by accident since, and no more: whether its maker meant it so can only be judged by the signature that it came
with, so run --check first.

FILE is closed into OUT, or in place with --in-place; `-` is standard input and output. A line on standard error has
each sum that changes, old and new, unless --quiet is given. What has no such header, or is not as long as its header
says, is refused. --check says what would change and changes nothing. A file is replaced when its answer is complete, by
the command's own rules. As FILE an archive with one classes*.dex, or app.apk!classes2.dex, does too, with --output or
--check. `dexasm-apk --close` does it with each .dex file that it takes out of an archive.

Exit status: 0, and with --check that both sums hold; 1 with --check where one does not, or the file is refused; 2 wrong
words; 3 reading or writing failed; 4 out of memory.
"""
from __future__ import annotations


from dexasm.checksums import header_problem, mismatches, with_checksums
from dexasm.cli.errors import FAILED, REFUSED, USAGE, CliError
from dexasm.cli.inputs import read_input
from dexasm.cli.io import write_file, write_output
from dexasm.cli.main import Parser, command, print_error


@command(unread=FAILED)
def main(parser: Parser) -> int:
    parser.add_argument("file", metavar="FILE")
    parser.add_argument("--output", "-o", metavar="OUT")
    parser.add_argument("--in-place", action="store_true")
    parser.add_argument("--quiet", "-q", action="store_true")
    parser.add_argument("--check", action="store_true")
    args = parser.parse_args()
    if args.check + args.in_place + (args.output is not None) != 1:
        parser.error("give one of --output OUT, --in-place and --check")
    path = None if args.file == "-" else args.file
    found = read_input(path)
    data = found.data
    if why := header_problem(data):
        raise CliError(f"{found.name}: {why}", REFUSED)
    if args.check:
        lines = mismatches(data)
        for line in lines or ["both sums hold"]:
            print(f"{found.name}: {line}")
        return REFUSED if lines else 0
    if found.entry and args.in_place:
        raise CliError(f"{found.name}: an archive is not changed in place: use --output", USAGE)
    if args.in_place:
        write_file(args.file, with_checksums(data))
    else:
        write_output(args.output, with_checksums(data))
    for line in [] if args.quiet else mismatches(data):
        print_error(f"dexasm-close: {found.name}: {line}")
    return 0
