"""The pages of dexasm-browse that are no class's: the overview, packages, strings, how to read it, and the index."""
from __future__ import annotations

import json
from collections.abc import Callable, Iterable, Iterator
from typing import TYPE_CHECKING, Any, NamedTuple

from dexasm.analysis.sizes import COLUMNS
from dexasm.analysis.xref import Xref, title
from dexasm.browse.classes import Classes
from dexasm.browse.code import STRINGS_A_PAGE
from dexasm.browse.html import collapsible, facts, in_quotes, link, plural, quoted
from dexasm.browse.pagination import Cuts, Part, file_of, others, paged
from dexasm.pages.markup import LONGEST, number, table, text, visible
from dexasm.pages.size_page import Node, picture, tree_of
from dexasm.pages.templates import Markup, joined, page, part

if TYPE_CHECKING:
    from dexasm.browse.files import Files

LARGEST = 50  # classes, methods and packages that the overview shows
SHARD = 4000  # names in a script of the index


class Place(NamedTuple):
    """Where a package stands: its whole name, the number of the one that it is in, and of several files its own."""

    node: Node
    path: str
    outer: int
    file: str


def over(trees: list[Node], names: list[str]) -> Node:
    """A tree of trees, which get these names."""
    top = Node("")
    for tree, name in zip(trees, names):
        tree.name = name
        top.inner[name, "file"] = tree
        top.total += tree.total
    return top


class Packages:
    """The packages of a file as a tree, a page for each, and which class is in which. Of several files each is a tree
    by itself, and all that the top of the tree has.
    """

    def __init__(self, xref: Xref, files: Files) -> None:
        self.numbers: dict[int, int] = {}
        self.places: list[Place] = []
        self.of_row: dict[int, int] = {}  # the package of each class
        self.row_of: dict[int, int] = {}  # the class of a node
        self.are_several = files.are_several
        trees = [tree_of(file.sizes) for file in files]
        self.tree = over(trees, [file.entry for file in files]) if self.are_several else trees[0]
        if self.are_several:
            self.add(Place(self.tree, "", 0, ""))
        for file, tree in zip(files, trees):
            rows = {str(xref.classes[row].name): row for row in range(file.first, file.end)}
            self.add_all(Place(tree, "", 0, tree.name), rows)

    def add(self, place: Place) -> int:
        at = self.numbers[id(place.node)] = len(self.places)
        self.places.append(place)
        return at

    def add_all(self, top: Place, rows: dict[str, int]) -> None:
        """A file's packages, of whose classes these are the rows."""
        due = [top]
        for place in due:
            at = self.add(place)
            for inner in place.node.rows():
                if inner.kinds is None:
                    due.append(Place(inner, f"{place.path}/{inner.name}" if place.path else inner.name, at, place.file))
                elif inner.full in rows:
                    row = self.row_of[id(inner)] = rows[inner.full]
                    self.of_row[row] = at

    def lead(self, root: str) -> Callable[[Node], str]:
        """What tells the page of a node, from a page at the top (root is "") or below a folder."""

        def to(node: Node) -> str:
            if node.kinds is None:
                return f"{root}package/{self.numbers[id(node)]}.html"
            row = self.row_of.get(id(node))
            return f"{root}class/{row}.html" if row is not None else ""

        return to

    def name(self, node: Node, root: str) -> Markup:
        to = self.lead(root)(node)
        is_file = node.kinds is None and not self.places[self.numbers[id(node)]].path
        label = text(node.name if is_file else node.name.replace("/", ".") + (".*" if node.kinds is None else ""))
        return link(to, label) if to else label

    def lines(self, node: Node, root: str) -> Iterator[Markup]:
        for inner in node.rows():
            yield part("row")((inner.total,), self.name(inner, root))

    def largest(self) -> Markup:
        """The largest rows of the overview, which leads to the others."""
        rows = [*self.lines(self.tree, "")]
        if len(rows) <= LARGEST:
            return self.holds(rows, 0)
        return self.holds(rows[:LARGEST], 0) + part("paragraph")(link("package/0.html", f"All {len(rows):,} rows"))

    def path(self, at: int) -> str:
        place = self.places[at]
        return (place.path.replace("/", ".") or "(all packages)") + (f" of {place.file}" if place.file else "")

    def link(self, at: int, root: str = "../") -> Markup:
        return link(f"{root}package/{at}.html", text(self.path(at)))

    def pages(self, at: int) -> Iterator[Markup]:
        """What each page of a package has."""
        node, path, outer, file = self.places[at]
        size = part("bytes_in")(plural(node.total, "byte"), self.link(outer) if at else "")
        shown = Part(0, -1, joined("\n", [size, picture(node, self.lead("../"))]))
        cut = paged([shown, *(Part(place, -1, one) for place, one in enumerate(self.lines(node, "../"), 1))])
        names = [file_of(at, here) for here in range(len(cut))]
        for here, parts in enumerate(cut):
            lead = others("Pages of this package", names, here)
            html = [one.html for one in parts]
            top = html.pop(0) if here == 0 else ""
            yield part("package")(path.replace("/", "."), file, lead, top, self.holds(html, at))

    def holds(self, rows: list[Markup], at: int) -> Markup:
        what = "file" if self.are_several and at == 0 else "package or class"
        return table("What it holds, by bytes", ("bytes", what), rows)


def overview(
    name: str, numbers: Iterable[tuple[str, int]], packages: Packages, classes: Classes, code_sizes: dict[int, int]
) -> Markup:
    return page(
        "overview",
        file=name,
        facts=facts((label, number(count)) for label, count in numbers),
        picture=picture(packages.tree, packages.lead("")),
        methods=largest_methods(classes, code_sizes),
        classes=largest_classes(classes),
        packages=packages.largest(),
        are_several=packages.are_several,
    )


def largest_methods(classes: Classes, code_sizes: dict[int, int]) -> Markup:
    insns, xref = classes.coder.insns, classes.coder.of_member

    def rows() -> Iterator[Markup]:
        order = sorted(code_sizes, key=lambda method: (-code_sizes[method], method))
        for method in order[:LARGEST]:
            users = len({use >> 32 for use in xref.get(method, ())})
            yield part("row")((code_sizes[method], insns[method], users), classes.member_link(method, root="class/"))

    return table("By the bytes of their code", ("bytes", "instructions", "used by", "method"), rows())


def largest_classes(classes: Classes) -> Markup:
    names = [one.name for one in classes.uses.classes]
    taken: list[list[Any]] = [classes.files.of(row).sizes[name] for row, name in enumerate(names)]

    def rows() -> Iterator[Markup]:
        for row in sorted(range(len(names)), key=lambda row: (-taken[row][0], names[row], row))[:LARGEST]:
            yield part("row")(taken[row], classes.class_link(row, "class/"))

    return table("By their bytes; strip is what dexasm strip takes away", (*COLUMNS, "class"), rows())


def strings_cut(classes: Classes, found: list[str], cuts: Cuts) -> list[tuple[str, list[Part]]]:
    """The pages of strings: each string with where it is used."""
    pages = []
    for first in range(0, max(1, len(found)), STRINGS_A_PAGE):
        some = enumerate(found[first : first + STRINGS_A_PAGE], first)
        cut = paged(Part(at, -1, string_row(classes, at, string)) for at, string in some)
        cuts.add("strings", first // STRINGS_A_PAGE, cut)
        pages += [(file_of(first // STRINGS_A_PAGE, at), parts) for at, parts in enumerate(cut)]
    return pages


def string_row(classes: Classes, at: int, string: str) -> Markup:
    users = classes.users(classes.coder.of_string[at], "../class/")
    users_html = joined(", ", users) if len(users) < 5 else collapsible(plural(len(users), "member"), users, 0)
    return part("string_row")(at, quoted(string, 1000), users_html)


def strings(parts: list[Part], count: int, lead: Markup) -> Markup:
    """A page of strings."""
    rows = joined("\n", (one.html for one in parts))
    ends = {"first": parts[0].at, "last": parts[-1].at} if parts else {}
    return page("strings", count_here=len(parts), count=count, lead=lead, rows=rows, **ends)


def reading(are_several: bool) -> Markup:
    return page("help", longest=LONGEST, are_several=are_several)


def shards(classes: Classes, pages: list[list[int]], found: list[str], cuts: Cuts) -> Iterator[str]:
    """The index as scripts: of each page of a class the class's name, the page's, the number of its first member, the
    members' names, and of several files its own; and strings. `pages` has of each class the numbers of the members with
    which its pages begin.
    """
    xref = classes.uses
    rows, count = [], 0
    for at, one in enumerate(xref.classes):
        ends = [*pages[at][1:], len(xref.members[at])]
        for cut, (first, end) in enumerate(zip(pages[at], ends)):
            names = [visible(title(member)) for member in xref.members[at][first:end]]
            row = [visible(one.name.pretty), file_of(at, cut), first, names]
            rows.append([*row, visible(classes.files.name(at))] if classes.files.are_several else row)
            count += 1 + len(names)
            if count >= SHARD:
                yield script(rows, [])
                rows, count = [], 0
    yield script(rows, [])
    for first in range(0, len(found), SHARD):
        some = enumerate(found[first : first + SHARD], first)
        places = ((one, f"{cuts.file('strings', at // STRINGS_A_PAGE, at)}#{at}") for at, one in some)
        yield script([], [[in_quotes(one), place] for one, place in places])


def script(rows: list[Any], found: list[list[str]]) -> str:
    """A call with JSON in ASCII, in which no "<" can end a script or begin a comment."""
    arguments = ", ".join(json.dumps(one, separators=(",", ":")) for one in (rows, found))
    return f"dexasmIndex({arguments});\n".replace("<", "\\u003c")
