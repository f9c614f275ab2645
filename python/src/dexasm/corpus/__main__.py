"""Indexes many .dex files in a database and queries it: which are one program, which have a class, what calls what.

usage: dexasm-corpus add [--processes N] [--seconds N] [--memory SIZE] [--again] [--strict] [--allow-empty] DATABASE
                         PATH..
       dexasm-corpus add --scheduler ADDRESS [--trust] [--send] [..] DATABASE PATH..
       dexasm-corpus refused|same [--json|--csv|--csv-raw] DATABASE
       dexasm-corpus classes [--json|--csv|--csv-raw] DATABASE [NAME]
       dexasm-corpus callers|strings [--pattern] [--json|--csv|--csv-raw] DATABASE WORD
       dexasm-corpus libraries [--classes] [--json|--csv|--csv-raw] --known DATABASE DATABASE
       dexasm-corpus merge [--verify] [--processes N] [--seconds N] [--memory SIZE] DATABASE FROM..
       dexasm-corpus sum [--json|--csv|--csv-raw] DATABASE

  add        reads .dex files, and the classes*.dex of archives, and keeps what they have. In a folder these are
             the files that begin as one or are called *.dex; no link is followed there. `-` reads paths from standard
             input, each with a NUL after it. A known file (of the same SHA-256) only gets another path.
             Where no such file is there, a line reports it and the status is 3, unless --allow-empty is given
  refused    the files that are not accepted, by fault, and the paths that cannot be read
  same       each path of a program that has several: the stripped bytes of these files are the same, and those
             of one SHA-256 in the column `file` are copies to the byte
  classes    classes that several programs have with the same text; of NAME where each of its texts is
  callers    who calls a method, LA;->m(I)V; with --pattern as GLOB of SQLite has it, as in 'Ljava/net/*'
  strings    who uses a string
  libraries  which programs of --known are in those of DATABASE: how many of their classes are the same, have the
             same name and another text (changed), or are not there; --classes tells each class
  merge      takes databases into one, in whatever order, and trusts them. With --verify it takes no more
             from them than where files are: those that are still there, with the same SHA-256, it reads itself as `add`
             does, and the others are counted and left out
  sum        of each table its rows and a checksum of its content: equal where the content is, whatever the order of
             files

Names and strings are printed as in a listing. With --csv a cell that a spreadsheet could take for a formula,
since it begins with =, +, -, @ (or the wide form of one), a tab or a return, has an apostrophe before it; --csv-raw is
for programs that are not spreadsheets. The database is one of SQLite, and docs/CORPUS.md has its tables. One with other
tables, views or triggers is refused; still, the content of a database is as true as its maker.

Each file is read by one of --processes N workers (as many as there are processors) which may take --seconds N of its
processor for it (60, or a fraction such as 0.5; ten times as much by the clock) and --memory SIZE (2G). A file at which
it is stopped is a row with the status time, memory or killed, which --again reads again. After an interruption run the
same command again: nothing is lost or duplicated. With --scheduler the workers are those of Dask, and --send sends them
the bytes of the files, where they have not got the folder. A process that replies at ADDRESS can run programs here and
there; so it is tls://, with the certificates of Dask's own configuration (distributed.comm.tls), or a tcp:// of this
machine, 127.0.0.1 or localhost, at which another user of this machine could reply first. Any other one is taken with
--trust only.

Exit status: 0 done, 1 with --strict where a file is not accepted or a path cannot be read, or with --verify where a
file is left out, 2 a usage error, 3 something cannot be read or written, 4 out of memory.
"""
from __future__ import annotations

import os
import re
from argparse import Namespace

from dexasm.cli.errors import REFUSED, CliError
from dexasm.cli.main import Parser, byte_count, command, positive_number, seconds
from dexasm.cli.sanitize import escaped
from dexasm.cli.tabular import add_forms, print_rows
from dexasm.corpus import queries
from dexasm.corpus.database import WRONG, Corpus, connected, total, why
from dexasm.corpus.ingest import add
from dexasm.corpus.verify import verify


# Addresses of Dask at which nobody from elsewhere can answer: with certificates, or on this machine.
SAFE = re.compile(r"tls://.+|(?:tcp://)?(?:127(?:\.[0-9]{1,3}){3}|localhost|\[::1\]):[0-9]{1,5}")


def merge(args: Namespace) -> int:
    for path in args.others:
        connected(path).close()
    corpus = Corpus(args.database)
    if args.verify:
        return verify(corpus, args.others, args)
    for path in args.others:
        corpus.merge(path)
    return 0


def run_query(args: Namespace) -> int:
    db = connected(args.database)
    if args.job == "sum":
        rows, whole = total(db)
        print_rows(args, ["table", "rows", "sum"], [*rows, ("all", sum(row[1] for row in rows), whole)])
    else:
        print_rows(args, *queries.QUERIES[args.job](db, args))
    return 0


def parse_args(main_parser: Parser) -> Namespace:
    jobs = main_parser.add_subparsers(  # type: ignore[call-overload]  # (what argparse only calls needn't be a class)
        dest="job", required=True, parser_class=lambda **_: type(main_parser)(main_parser.program)
    )
    by = {name: jobs.add_parser(name) for name in ("add", "merge", "sum", *queries.QUERIES)}
    for name, parser in by.items():
        parser.prog = main_parser.prog
        parser.add_argument("database")
        if name not in ("add", "merge"):
            add_forms(parser)
    by["add"].add_argument("paths", nargs="+")
    for name in ("add", "merge"):
        by[name].add_argument("--processes", type=positive_number, default=os.cpu_count())
        by[name].add_argument("--seconds", type=seconds, default=60)
        by[name].add_argument("--memory", type=byte_count, default=2 << 30)
    by["add"].add_argument("--scheduler")
    for word in ("--again", "--strict", "--allow-empty", "--send", "--trust"):
        by["add"].add_argument(word, action="store_true")
    by["merge"].add_argument("others", nargs="+")
    by["merge"].add_argument("--verify", action="store_true")
    by["classes"].add_argument("name", nargs="?")
    for name in ("callers", "strings"):
        by[name].add_argument("word")
        by[name].add_argument("--pattern", action="store_true")
    by["libraries"].add_argument("--known", required=True)
    by["libraries"].add_argument("--classes", action="store_true")
    return main_parser.parse_args()


def check_address(parser: Parser, args: Namespace) -> None:
    """Whether the words say whom this trusts."""
    if args.scheduler is None and (args.send or args.trust):
        parser.error("--send and --trust are for --scheduler")
    if args.scheduler == "":
        parser.error("--scheduler needs an address")
    if args.scheduler is not None and not args.trust and not SAFE.fullmatch(args.scheduler):
        parser.error("who answers at that --scheduler can run programs here: it wants tls:// or --trust")


@command()
def main(parser: Parser) -> int:
    args = parse_args(parser)
    if args.job == "add":
        check_address(parser, args)
    try:
        if args.job == "add":
            counts = add(Corpus(args.database), args)
            if not (counts.paths or counts.unread or counts.status or args.allow_empty):
                raise CliError("no .dex files or archives with one found (use --allow-empty to accept this)")
            return counts.status or (REFUSED if args.strict and counts.is_bad else 0)
        return (merge if args.job == "merge" else run_query)(args)
    except WRONG as error:
        raise CliError(f"{escaped(args.database)}: {why(error)}") from None
