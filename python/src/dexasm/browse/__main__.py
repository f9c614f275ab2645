"""Writes a folder of pages about a .dex file: what is in it, how big it is, who calls whom, where branches go.

usage: dexasm-browse FILE --output FOLDER [--graphs METHOD|all]

FOLDER/index.html opens in any browser, from the disk or from a web server, and needs no network. It has
numbers, a picture of the packages (click one to go into it) and the largest methods and classes; a page for each class
with the code of its methods as `dexasm list` prints it, in which each name and label is a link to its place, and each
instruction follows its offset in the file and its address; of each member which others use it and what it calls; the
strings, with where they are used; and a search over classes, members and strings. Pages stay below two megabytes: what
would be larger continues on further pages, but a single line is not cut.

FILE may be a listing too, or an archive: all its classes*.dex are one set of pages then, with their packages and
classes by file, and a name leads to its class in whichever of them that is, of several to the first, which is the one
that a device takes. app.apk!classes2.dex is one of them alone.

FOLDER is a new or an empty folder, or one that dexasm-browse made before, which is replaced in one step when the new
pages are complete, and keeps its mode and its owner; any other is refused. --graphs METHOD puts a picture of the flow
of a method, as 'LHello;->get(Z)I', on the page of its class; --graphs all does it for all methods. That needs graphviz.

Exit status: 0 done, 1 the file is refused, 2 a usage error, 3 something cannot be read or written, 4 out of memory.
"""
from __future__ import annotations

import os

from dexasm.cli.inputs import read_inputs
from dexasm.cli.main import Parser, command


@command()
def main(parser: Parser) -> int:
    parser.add_argument("file")
    parser.add_argument("--output", metavar="FOLDER", required=True)
    parser.add_argument("--graphs", metavar="METHOD|all")
    args = parser.parse_args()
    from dexasm.browse.build import Browse
    from dexasm.browse.folder import Folder

    folder = Folder(args.output)
    pages = Browse([*read_inputs(args.file)], os.path.basename(args.file), parser.prog)
    if args.graphs is not None:
        pages.picture(args.graphs)
    with folder:
        folder.begin()
        pages.write(folder)
        folder.finish()
    return 0
