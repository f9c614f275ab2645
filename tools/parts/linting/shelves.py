"""Whether each definition stands on its shelf: what a public contract of a crate that users name rests on, and what a
theorem does, in specs/ of its crate, all else in specs/inner/; and whether docs/STATEMENT.md and docs/DEFINITIONS.md say
what the definitions are that the promises rest on.
"""
import re

from ..believed import definitions
from ..generating import statement
from ..generating.making import Missing, is_there
from . import Seen

# Where definitions of the product stand: what only tests and samples name isn't looked at.
SPECS = re.compile(r"crates/(?!\w+_(?:tests|samples)/)\w+/specs/(inner/)?(?!Lib\.antt|inner\.antt)")


def look() -> Seen:
    known = definitions()
    promised = known.reached(known.promised())
    found, seen = list[str](), 0
    for path, one in sorted(known.files.items()):
        place = SPECS.match(path)
        for name, parts in one.blocks.items() if place else ():
            seen += 1
            if " " in name or ((path, name) in promised) != (place is not None and place[1] is not None):
                continue
            why = "is promised, and stands in specs/inner" if (path, name) in promised else "is no part of a promise: its place is specs/inner"
            found.append(f"{path}:{parts[0][0] + 1}: {name} {why}")
    return Seen(found + stale(), f"{len(promised)} of {seen} definitions are what promises rest on")


def stale() -> list[str]:
    """The pages that say something else than the definitions do."""
    try:
        return [f"{path} says other than the definitions what promises rest on: look at the change, then run tools/generate statement"
                for path, text in statement.made().texts.items() if not is_there(path, text)]
    except Missing as why:
        return [str(why)]
