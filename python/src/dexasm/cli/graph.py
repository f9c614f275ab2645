"""Draws the flow of a method of a .dex file, or who calls whom.

usage: dexasm-graph [--format dot|svg|json] FILE METHOD
       dexasm-graph --calls [--from METHOD|--to METHOD] [--depth N] [--format dot|svg|json] FILE

The flow is the method's blocks of instructions and the edges between them: `next` is the fall-through to the following
block, `taken` a branch, `switch` a branch of a payload with its keys, `handler` an exception with its type. METHOD is a
name like 'LHello;->get(Z)I', or 'LHello;->get' if the class has one method of that name.

--calls draws each method and those that it calls, with how often; --from METHOD only those that this one reaches, --to
METHOD only those that reach this one, --depth N at most N calls away. With --to METHOD may be a whole name that the file
does not have. The target of a call is the method that the named class has or inherits in this file; methods that the
file does not have are dashed, in JSON `outside`.

The output is in the language of graphviz unless --format is given. svg needs graphviz, which is
given a minute. FILE may be a listing too, an archive, of which all classes*.dex are one program, or
app.apk!classes2.dex.

Exit status: 0 done, 1 the file is refused, 2 a usage error, 3 something cannot be read or written, 4 out of memory.
"""
from __future__ import annotations

import json

from dexasm.cli.core import program_of
from dexasm.cli.errors import USAGE
from dexasm.cli.main import Parser, UsageError, command


@command()
def main(parser: Parser) -> int:
    parser.add_argument("--calls", action="store_true")
    parser.add_argument("--from", dest="start")
    parser.add_argument("--to", dest="goal")
    parser.add_argument("--depth", type=int)
    parser.add_argument("--format", choices=("dot", "svg", "json"), default="dot")
    parser.add_argument("file")
    parser.add_argument("method", nargs="?")
    args = parser.parse_args()
    ends = [end for end in (args.start, args.goal) if end is not None]
    if args.calls == (args.method is not None) or not args.calls and ends:
        raise UsageError(f"{parser.usage_text}\n{parser.prog}: either METHOD or --calls", USAGE)
    if len(ends) > 1:
        raise UsageError(f"{parser.usage_text}\n{parser.prog}: either --from or --to", USAGE)
    if args.depth is not None and (not ends or args.depth < 0):
        raise UsageError(
            f"{parser.usage_text}\n{parser.prog}: --depth is a number from 0 on, with --from or --to", USAGE
        )
    from dexasm.analysis.cfg import as_dot, as_json, callers, calls, flow, render_svg
    from dexasm.analysis.xref import Xref, method_of

    xref = Xref(program_of(args.file))
    if args.goal is not None:
        graph = callers(xref, args.goal, args.depth)
    elif args.calls:
        graph = calls(xref, None if args.start is None else method_of(xref, args.start), args.depth)
    else:
        graph = flow(xref, method_of(xref, args.method, has_code=True))
    if args.format == "json":
        print(json.dumps(as_json(graph), indent=1))
    else:
        dot = "\n".join(as_dot(graph)) + "\n"
        print(dot if args.format == "dot" else render_svg(dot), end="")
    return 0
