"""docs/FILES.md, the table of layers in docs/MAP.md, and the pictures docs/crates.svg and docs/layout.svg; and whether
each crate, file and function that MAP.md and PROVED.md name is there.

FILES.md has a row for each fault: where specs/ say when it stands, where src/ answers it, the tests that expect it, and
the wrong bodies that change a function that answers it. A fault that no definition and no function has is missing. The
layers are those of MAP.md, what they stand on is in crates.txt. The picture of the written file is made of FORMAT.md's words; where they say it no more,
nothing is written.
"""
from .making import Made, Missing
from .named import MAP, layers, named_in_vain
from .pages import costs, files_page
from .pictures import layers_picture, layout_picture
from .tree import crates, read

COSTS = "<!-- costs: written by tools/generate -->\n", "<!-- end of costs -->\n"


def map_page() -> str:
    """docs/MAP.md with the table of today."""
    page, by_layer = read(MAP), layers()
    if unknown := {name for names in by_layer.values() for name in names}.difference(crates()):
        raise Missing(f"{MAP} names crates that aren't there: {', '.join(sorted(unknown))}")
    begin, end = (page.find(mark) for mark in COSTS)
    if begin < 0 or end < begin:
        raise Missing(f"{MAP} has no place for {COSTS[0].strip()}")
    return page[:begin] + COSTS[0] + costs(by_layer) + page[end:]


def made() -> Made:
    files, missing = files_page()
    missing += named_in_vain()
    texts = {MAP: map_page(), "docs/FILES.md": files}
    texts |= {"docs/crates.svg": layers_picture(layers()), "docs/layout.svg": layout_picture()}
    return Made(texts, missing)
