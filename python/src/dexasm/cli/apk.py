"""Checks, lists, strips, extracts or replaces each classes*.dex of an .apk, a .jar or another zip archive.

usage: dexasm-apk [--close] [--allow-empty] check|list|strip|extract ARCHIVE [FOLDER]
       dexasm-apk [--close] [--quiet] replace ARCHIVE FILE.. --output OUT

check and list write the name of the .dex file before each line: `classes2.dex: ok`. With FOLDER the listings go to
FOLDER/classes.txt and so on, one for each .dex file; strip and extract want it, and write FOLDER/classes.dex and so on,
stripped or as it is (extract does not validate, so a refused file is extracted too). What is
refused, or cannot be read out of the archive, is a line on standard error with the same name before it, and the others
go on. Nothing else of the archive is read, and nothing outside FOLDER is written: a link there, a file with another
name, and what is no file are lines too. After `--` a word is a file whatever it begins with.

With --close each .dex file whose signature or checksum does not hold is closed first, as by `dexasm-close`, and a line
on standard error reports that, and what did not hold: D8 before 1.6.20 signed its files in a way that dexasm refuses.
The others are taken as they are, and so is what has no header or another length. The archive is not changed.

An entry is not read if it is encrypted or has the flag of it (Android ignores the flag), if its sum is wrong or its
method unknown, or if another entry has its name (Android refuses such an archive). Each .dex file is held in memory. A
file to which an archive is appended, and an archive in which other tools can find other entries, are refused (status
3). An archive without classes*.dex is an error (status 3) too, unless --allow-empty is given. `dexasm-check` also
checks other names: *.dex in other folders, archives in the archive.

replace writes OUT, the archive with its classes.dex exchanged for a FILE of that name, and so on, if dexasm accepts it.
Each other entry stays byte for byte, at the place that zipalign asks for where it is not compressed (4 bytes, 16 KB for
lib/*.so); signatures are left out, since they do not hold any more: META-INF/*.SF, *.RSA, *.DSA and *.EC, of an
application their MANIFEST.MF, and the block of Android's own. OUT has to be signed, as by apksigner. It is written by
the command's rules, once it is whole; ARCHIVE stays, unless it is OUT. If FILE has less annotations or debug
information than the entry that it replaces, a line reports how much is dropped, unless --quiet is given.

Exit status: 0, or the highest of dexasm's; 2 a usage error; 3 no archive, no classes*.dex in it, or one that cannot be
read or written.
"""
from __future__ import annotations

import contextlib
import os
import stat
import sys
from argparse import Namespace
from collections.abc import Container
from typing import TYPE_CHECKING

from dexasm.checksums import header_problem, mismatches, with_checksums
from dexasm.cli.core import run_job, run_or_fail
from dexasm.cli.errors import FAILED, USAGE, CliError, reason
from dexasm.cli.io import read_file, write_file
from dexasm.cli.main import Parser, command, print_error
from dexasm.cli.sanitize import escaped
from dexasm.cli.zip_read import NAME, dex_entries, open_archive, read_entry

if TYPE_CHECKING:
    from zipfile import ZipFile, ZipInfo


def output_path(job: str, folder: str | None, name: str) -> str | None:
    """Where the answer goes, or None for standard output. What would be written elsewhere isn't written."""
    if folder is None:
        return None
    place = os.path.join(folder, name.removesuffix("dex") + "txt" if job == "list" else name)
    try:
        there = os.lstat(place)
    except FileNotFoundError:
        return place
    except OSError as error:
        raise CliError(f"{escaped(place)}: {reason(error)}") from None
    if stat.S_ISLNK(there.st_mode):
        raise CliError(f"{escaped(place)} is a link, so it isn't written")
    if not stat.S_ISREG(there.st_mode):
        raise CliError(f"{escaped(place)} is no file, so it isn't written")
    if there.st_nlink > 1:
        raise CliError(f"{escaped(place)} has another name too, so it isn't written")
    return place


def fix_checksums(data: bytes, name: str) -> bytes:
    """The bytes with sums that hold, if they have a header and its length; what didn't hold is told."""
    wrong = [] if header_problem(data) else mismatches(data)
    if wrong:
        print_error(f"{name}: dexasm-apk: closed: {'; '.join(wrong)}")
    return with_checksums(data) if wrong else data


def run_entry_job(
    job: str, archive: ZipFile, folder: str | None, name: str, entries: list[ZipInfo], closes: bool
) -> int:
    """The job on one .dex file; answers the status."""
    try:
        place, data = output_path(job, folder, name), read_entry(archive, entries)
        if job == "extract" and place is not None:
            write_file(place, fix_checksums(data, name) if closes else data, through=False)
            return 0
        result = run_job(job, data=fix_checksums(data, name) if closes else data)
        if place is not None and result.status == 0:
            write_file(place, result.output, through=False)
    except CliError as failed:
        print_error(f"{name}: dexasm-apk: {failed.line}")
        return failed.status
    line: bytes | str  # (of the answer, and of what was told)
    for line in result.output.splitlines() if place is None else ():
        print(f"{name}: {line.decode('ascii', 'backslashreplace')}")
    for line in result.error_lines:
        sys.stdout.flush()
        print_error(f"{name}: {escaped(line)}")
    return result.status


def replace(parser: Parser, args: Namespace) -> int:
    """Writes the archive with these files in it."""
    if args.output is None or not args.rest:
        parser.error("replace wants FILEs, and --output OUT")
    from dexasm.analysis.extras import report_dropped
    from dexasm.cli.zip_write import replace_entries

    files: dict[str, bytes] = {}
    for path in args.rest:
        entry, data = os.path.basename(path), read_file(path)
        if NAME.fullmatch(entry) is None or entry in files:
            why = "it is given twice" if entry in files else "no classes*.dex"
            raise CliError(f"{escaped(path)}: {why}: name it as the entry that it replaces, as in classes.dex", USAGE)
        files[entry] = fix_checksums(data, escaped(path)) if args.close else data
        run_or_fail("check", data=files[entry], name=escaped(path))
    replaced = {} if args.quiet else entries_called(args.archive, files)
    write_file(args.output, replace_entries(args.archive, files))
    for name, data in replaced.items():
        report_dropped(parser.prog, name, data, files[name])
    return 0


def entries_called(path: str, names: Container[str]) -> dict[str, bytes]:
    """The .dex files of an archive that have such a name and can be read."""
    found: dict[str, bytes] = {}
    with open_archive(path) as archive:
        for name, entries in dex_entries(archive):
            with contextlib.suppress(CliError):  # (what can't be read of an entry is reported as it is replaced)
                found |= {name: read_entry(archive, entries)} if name in names else {}
    return found


@command(unread=FAILED)
def main(parser: Parser) -> int:
    parser.add_argument("--close", action="store_true")
    parser.add_argument("--allow-empty", action="store_true")
    parser.add_argument("--quiet", "-q", action="store_true")
    parser.add_argument("--output", "-o", metavar="OUT")
    parser.add_argument("job", choices=("check", "list", "strip", "extract", "replace"))
    parser.add_argument("archive")
    parser.add_argument("rest", nargs="*")
    args = parser.parse_intermixed_args()  # (an option may stand behind the files)
    if args.job == "replace":
        return replace(parser, args)
    if args.output is not None or args.quiet:
        parser.error("--output and --quiet are of replace alone")
    if len(args.rest) > 1:
        parser.error("too many words")
    args.folder = args.rest[0] if args.rest else None
    if args.job in ("strip", "extract") and args.folder is None:
        parser.error(f"{args.job} wants a FOLDER")
    if args.job == "check" and args.folder is not None:
        parser.error("check takes one ARCHIVE and no FOLDER: dexasm-check checks many files")
    with open_archive(args.archive) as archive:
        entries = dex_entries(archive)
        if not entries and not args.allow_empty:
            raise CliError(f"{escaped(args.archive)}: no classes*.dex in it")
        if args.folder is not None:
            try:
                os.makedirs(args.folder, exist_ok=True)
            except OSError as error:
                raise CliError(f"{escaped(args.folder)}: {reason(error)}", FAILED) from None
        ends = (run_entry_job(args.job, archive, args.folder, name, found, args.close) for name, found in entries)
        return max(ends, default=0)
