"""The page of dexasm-size: a treemap as SVG, and tables that sort. Nothing on it comes from elsewhere."""
from __future__ import annotations

import unicodedata
from collections.abc import Callable, Iterable, Iterator
from typing import Any

from dexasm.analysis.sizes import HEADS, Change, Changes, total_change
from dexasm.pages.markup import table, text, visible
from dexasm.pages.templates import Markup, joined, page, part, read

Place = tuple[float, float, float, float]  # left, top, width and height

WIDTH, HEIGHT = 1200, 720
DEEPEST = 8  # levels of packages: what lies deeper is drawn in the deepest one, by its whole name
LEAST = 24  # pixels of a rectangle that is drawn, or more where the picture would have more bytes than MOST
MOST = 900_000
SLICED = 400  # pixels of a class that has a slice for each kind; a smaller one has the colour of its largest kind
MOST_ROWS = 2000  # of a table, which has a row for all that are smaller
HEAD, LETTER = 15, 7  # pixels: the height of a label, the width of a letter
KINDS = {
    "code": ("#8ab6e0", "code"),
    "strings": ("#f6b26b", "strings"),
    "tables": ("#a8dba0", "tables"),
    "values": ("#c9a6d8", "values"),
    "debug": ("#ef8a8c", "debug information and annotations"),
    "unused": ("#bdbdbd", "unused"),
}


class Node:
    """A package or a class: its name, its bytes, and what it holds."""

    full: str  # the whole name of a class

    def __init__(self, name: str) -> None:
        self.name, self.total = name, 0
        self.inner: dict[tuple[str, str], Node] = {}
        self.kinds: list[Any] | None = None

    def rows(self) -> list[Node]:
        return sorted(self.inner.values(), key=lambda node: (-node.total, node.name))


def tree_of(rows: dict[str, list[Any]]) -> Node:
    """The packages, their packages and classes; a package that holds nothing but another one is one with it."""
    top = Node("")
    for name, numbers in rows.items():
        if numbers[0] == 0:
            continue
        parts = [name] if name.startswith("(") else name[1:-1].split("/", DEEPEST)
        at = top
        at.total += numbers[0]
        for inner in parts[:-1]:
            at = at.inner.setdefault((inner, "package"), Node(inner))
            at.total += numbers[0]
        leaf = at.inner[parts[-1], "class"] = Node(parts[-1])
        leaf.total, leaf.kinds, leaf.full = numbers[0], numbers[1:-1], name
    return collapse(top)


def collapse(node: Node) -> Node:
    """(At most DEEPEST deep.)"""
    node.inner = {key: collapse(inner) for key, inner in node.inner.items()}
    only = next(iter(node.inner.values())) if len(node.inner) == 1 else None
    if only and only.kinds is None and node.name:
        only.name = f"{node.name}/{only.name}"
        return only
    return node


def squares(nodes: Iterable[Node], x: float, y: float, width: float, height: float) -> Iterator[tuple[Node, Place]]:
    """Places for the nodes, greatest first, each as near to a square as its row lets it be ("Squarified Treemaps",
    Bruls and others, 2000).
    """
    left = sum(node.total for node in nodes)
    nodes = list(nodes)
    while nodes and left > 0 and width > 0 and height > 0:
        side, scale = min(width, height), width * height / left
        taken, count = 0, 0
        worst = float("inf")
        for node in nodes:
            # (the row's thickness if this one is in it, and how far the first and the last are from squares)
            more = taken + node.total
            thick = more * scale / side
            ratio = max(
                max(thick / (one * scale / thick), one * scale / thick / thick) for one in (nodes[0].total, node.total)
            )
            if ratio > worst:
                break
            worst, taken, count = ratio, more, count + 1
        thick, at = taken * scale / side, 0.0
        for node in nodes[:count]:
            long = node.total * scale / thick
            yield node, (x, y + at, thick, long) if width >= height else (x + at, y, long, thick)
            at += long
        x, width, y, height = (
            (x + thick, width - thick, y, height) if width >= height else (x, width, y + thick, height - thick)
        )
        nodes, left = nodes[count:], left - taken


def label(name: str, x: float, y: float, width: float) -> Markup:
    """A name in its rectangle: it is cut by an estimate of its width, and nothing of it stands beyond the edge."""
    if width < 4 * LETTER:
        return Markup()
    text, most = visible(name), int(width / LETTER)
    for at, char in enumerate(text):
        most -= 2 if unicodedata.east_asian_width(char) in "WF" else 1
        if most < 0:
            text = f"{text[: max(at - 1, 1)]}…"
            break
    return part("label")(x, y, width - 1, HEAD, text)


def linked(node: Node, lead: Callable[[Node], str] | None, drawn: Markup) -> Markup:
    """What is drawn of a node, as a link where it leads to a page. (By keyboard the tables lead there.)"""
    to = lead and lead(node)
    return part("led")(to, drawn) if to else drawn


def slices(node: Node, kinds: list[Any], x: float, y: float, width: float, height: float) -> Iterator[Markup]:
    rect = part("rect")
    if width * height < SLICED:
        largest = kinds.index(max(kinds))
        yield rect(x, y, width, height, [*KINDS.values()][largest][0], True)
        return
    at = 0.0
    for (color, _), number in zip(KINDS.values(), kinds):
        share = number / node.total
        if number and width >= height:
            yield rect(x + at, y, width * share, height, color)
        elif number:
            yield rect(x, y + at, width, height * share, color)
        at += share * max(width, height)
    yield rect(x, y, width, height, "none", True)
    if height > 14:
        yield label(node.name, x, y, width)


def draw(
    node: Node, x: float, y: float, width: float, height: float, lead: Callable[[Node], str] | None, least: float
) -> Iterator[Markup]:
    """A node and those in it, but for rectangles of fewer pixels than `least`."""
    if width * height < least:
        return
    if node.kinds is not None:
        sizes = ", ".join(f"{kind} {number:,}" for kind, number in zip(KINDS, node.kinds) if number)
        shown = joined("", slices(node, node.kinds, x, y, width, height))
        yield linked(node, lead, part("drawn")(node.full, node.total, sizes, shown))
        return
    has_head = bool(node.name) and height > 3 * HEAD and width > 40
    if node.name:
        shown = part("rect")(x, y, width, height, "#dddddd", True)
        shown += label(node.name, x, y, width) if has_head else ""
        yield linked(node, lead, part("drawn")(node.name, node.total, None, shown))
    top, edge = (HEAD, 2) if has_head else (0, 0)
    for inner, place in squares(node.rows(), x + edge, y + top, width - 2 * edge, height - top - edge):
        yield from draw(inner, *place, lead, least)


def picture(node: Node, lead: Callable[[Node], str] | None = None) -> Markup:
    """The treemap of a node, and what its colours mean. `lead` tells the page of a node, if there is one."""
    least: float = LEAST
    parts = [*draw(node, 0, 0, WIDTH, HEIGHT, lead, least)]
    while sum(len(one.encode("utf8")) for one in parts) > MOST:
        least *= 1.5
        parts = [*draw(node, 0, 0, WIDTH, HEIGHT, lead, least)]
    cut = f"{least:,.0f}" if least > LEAST else ""
    return part("picture")(cut, WIDTH, HEIGHT, joined("\n", parts), [*KINDS.values()])


def total_of(rows: Iterable[list[Any]]) -> list[int | None]:
    return [None if None in column else sum(column) for column in zip(*rows)]


def sums(columns: Iterable[str], rows: dict[str, list[Any]]) -> Markup:
    """A table of rows by their names, with a row that adds them up; those that are too many are one."""
    row = part("row")
    order = sorted(rows.items(), key=lambda one: (-one[1][0], one[0]))
    lines = [row(numbers, text(name)) for name, numbers in order[:MOST_ROWS]]
    if rest := [numbers for _, numbers in order[MOST_ROWS:]]:
        lines.append(row(total_of(rest), f"({len(rest):,} more)"))
    return table("By their bytes", (*columns, "name"), lines, row(total_of(rows.values()), "all"))


def page_of(template: str, title: str, **values: object) -> str:
    """A page of dexasm-size that nothing of somebody else's making is obeyed on."""
    return str(page(template, title=title, style=read("pages.css"), script=read("pages.js"), **values))


def html_page(name: str, columns: Iterable[str], rows: dict[str, list[Any]], packages: dict[str, list[Any]]) -> str:
    total = sum(numbers[0] for numbers in rows.values())
    tables = ("Packages", sums(columns, packages)), ("Classes", sums(columns, rows))
    return page_of("size_one", name, total=total, picture=picture(tree_of(rows)), tables=tables)


# ---- the page of two builds


def change_row(one: Change) -> Markup:
    return part("change")(one.numbers, one.before, one.after, one.what, one.name)


def change_table(found: Changes) -> Markup:
    """A table of what changed; those that are too many are one row."""
    rows, more = found.rows[:MOST_ROWS], found.rows[MOST_ROWS:]
    rest = [total_change(more, f"({len(more):,} more)")] if more else []
    return table("By their change", HEADS, map(change_row, [*rows, *rest, *found.rest]), change_row(found.total))


def changes_page(names: tuple[str, str], tables: dict[str, Changes]) -> str:
    """The page of two files of these names."""
    total = next(iter(tables.values())).total
    found = [(title, change_table(changes)) for title, changes in tables.items()]
    return page_of("size_two", f"{names[0]}, {names[1]}", names=names, total=total, tables=found)
