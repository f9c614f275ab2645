"""The flow of a method (its blocks, and where each leads) and who calls whom: as graphs, and what graphviz makes of
them.
"""
from __future__ import annotations

import re
import shutil
import subprocess
import xml.etree.ElementTree as xml
from bisect import bisect_left
from collections.abc import Iterator
from typing import TYPE_CHECKING, Any

from dexasm.analysis.xref import Xref, method_of, reread
from dexasm.cli.errors import CliError
from dexasm.names import spelled

if TYPE_CHECKING:
    from dexasm.code import Code, Insn, Label

    Callee = int | str

MOST_EDGES = 1_000_000
MOST_DRAWN = 2000  # edges of a picture on a page
MOST_LINES, LONGEST = 40, 100  # lines of a block in a picture, and characters of a line
MOST_KEYS = 8  # keys of a switch at an edge
SECONDS = 60  # for a picture
NO_PICTURE = "what graphviz answers is no picture"
ENDS = ("return", "throw", "goto")
COLORS = {"next": "#57606a", "taken": "#1a7f37", "switch": "#7a3e9d", "handler": "#9a3412", "call": "#57606a"}
LOOKS = {"taken": " penwidth=2.5", "handler": " style=dashed"}  # (each kind is told without its colour too)
SVG = "{http://www.w3.org/2000/svg}"
LINK = "{http://www.w3.org/1999/xlink}href"
# What a page takes of a picture; where each stands, and no colours: those are the page's.
ELEMENTS = {"svg", "g", "a", "polygon", "path", "text"}
ATTRIBUTES = {"viewBox", "width", "height", "class", "transform", "points", "d", "x", "y", "text-anchor", "font-size"}


class Graph:
    """Nodes, each with its lines, and edges: from, to, kind, and what stands at it."""

    def __init__(self, name: str) -> None:
        self.name = name
        self.nodes: list[dict[str, Any]] = []
        self.edges: dict[tuple[int, int, str, str], int] = {}

    def add_edge(self, a: int, b: int, kind: str, label: str = "", times: int = 1) -> None:
        key = a, b, kind, label
        self.edges[key] = self.edges.get(key, 0) + times
        if len(self.edges) > MOST_EDGES:
            raise CliError(f"the graph has more than {MOST_EDGES:,} edges")


class Flow:
    """Makes the graph of a code: `next` leads to the block behind, `taken` where a branch leads, `switch` where a
    payload does, by its keys, and `handler` from each block that a try covers, by the exception's type.
    """

    def __init__(self, name: str, code: Code) -> None:
        self.code = code = reread(code)
        lines = [line for line in str(code).split("\n")[1:] if line[:1] != ":"]
        self.insns, self.graph = code.insns, Graph(name)
        self.places = {id(insn): place for place, insn in enumerate(self.insns)} | {id(None): len(self.insns)}
        self.entered: set[int] = set()  # instructions that something leads to
        starts = sorted({0, *self.starts()})
        self.blocks: dict[int, int] = {}
        ends: list[int] = []
        for first, end in zip(starts, [*starts[1:], len(self.insns)]):
            if first < end and not self.is_payload(first) and not self.is_padding(first, end):
                self.blocks[first] = len(self.graph.nodes)
                self.graph.nodes.append({"first": first, "lines": lines[first:end]})
                ends.append(end)
        for block, end in enumerate(ends):
            self.leave(block, end)
        self.handle()

    def place(self, label: Label) -> int:
        return self.places[id(label.insn)]

    def is_payload(self, place: int) -> bool:
        return self.insns[place].mnemonic.endswith("-payload")

    def is_padding(self, first: int, end: int) -> bool:
        """Whether these are nops that put a payload at its address, and nothing leads to them."""
        is_before = first > 0 and end < len(self.insns) and self.is_payload(end) and first not in self.entered
        return is_before and all(insn.mnemonic == "nop" for insn in self.insns[first:end])

    def targets(self, insn: Insn) -> list[tuple[int, str, str]]:
        """Where an instruction leads, besides what comes next."""
        if insn.target is None or insn.mnemonic == "fill-array-data":
            return []
        if not insn.mnemonic.endswith("-switch"):
            return [(self.place(insn.target), "taken", "")]
        payload: Any = insn.target.insn  # (a switch leads to its payload)
        keys: dict[int, list[str]] = {}
        for at, target in enumerate(payload.targets):
            key = payload.keys[at] if hasattr(payload, "keys") else payload.first + at
            keys.setdefault(self.place(target), []).append(str(key))
        more = {target: f" .. {len(found)} keys" * (len(found) > MOST_KEYS) for target, found in keys.items()}
        return [(to, "switch", ", ".join(found[:MOST_KEYS]) + more[to]) for to, found in keys.items()]

    def starts(self) -> Iterator[int]:
        """Where blocks begin."""
        for place, insn in enumerate(self.insns):
            found = [target for target, _, _ in self.targets(insn)]
            self.entered.update(found)
            yield from found
            if found or insn.mnemonic.startswith(ENDS):
                yield place + 1
            if self.is_payload(place):
                yield place
                yield place + 1
        for one in self.code.tries:
            found = [self.place(label) for label in one.labels()]
            self.entered.update(found[2:])
            yield from found

    def leave(self, block: int, end: int) -> None:
        insn = self.insns[end - 1]
        if not insn.mnemonic.startswith(ENDS) and end in self.blocks:
            self.graph.add_edge(block, self.blocks[end], "next")
        for target, kind, label in self.targets(insn):
            if target in self.blocks:
                self.graph.add_edge(block, self.blocks[target], kind, label)

    def handle(self) -> None:
        starts = [node["first"] for node in self.graph.nodes]
        for one in self.code.tries:
            first, end = self.place(one.start), self.place(one.end)
            found: list[tuple[str, Label]] = [(catch.type, catch.target) for catch in one.catches]
            found += [("any", one.catch_all)] if one.catch_all is not None else []
            for block in range(bisect_left(starts, first), bisect_left(starts, end)):
                for type_, label in found:
                    self.graph.add_edge(block, self.blocks[self.place(label)], "handler", str(type_))


def flow(xref: Xref, number: int) -> Graph:
    """The flow of a method that has code."""
    method: Any = xref.member(number)
    return Flow(xref.full_name(number), method.code).graph


class Calls:
    """Makes a graph of methods: each is its number, or its name where the file doesn't have it."""

    def __init__(self, xref: Xref) -> None:
        self.uses, self.graph = xref, Graph("calls")
        self.places: dict[Callee, int] = {}

    def node(self, to: Callee) -> int:
        if to not in self.places:
            self.places[to] = len(self.graph.nodes)
            name = to if isinstance(to, str) else self.uses.full_name(to)
            self.graph.nodes.append({"name": name, "outside": isinstance(to, str), "lines": [spelled(name)]})
        return self.places[to]

    def called(self, number: int) -> Iterator[Callee]:
        """What a method calls, in the order of its code."""
        code = getattr(self.uses.member(number), "code", None)
        for insn in reread(code).insns if code is not None else ():
            if insn.mnemonic.startswith("invoke-"):
                owner, _, signature = str(insn.name).partition("->")
                to = self.uses.resolve(owner, signature)
                yield str(insn.name) if to is None else to


def calls(xref: Xref, start: int | None = None, depth: int | None = None) -> Graph:
    """Who calls whom, from a method on so many calls deep, or all."""
    builder = Calls(xref)
    due = [start] if start is not None else [number for number, _ in xref.methods()]
    depths = dict.fromkeys(due, 0)
    for number in due:
        here = builder.node(number)
        if depth is not None and depths[number] >= depth:
            continue
        for to in builder.called(number):
            builder.graph.add_edge(here, builder.node(to), "call")
            if isinstance(to, int) and to not in depths:
                depths[to] = depths[number] + 1
                due.append(to)
    return builder.graph


def callers(xref: Xref, name: str, depth: int | None = None) -> Graph:
    """Who calls a method, and who calls these, so many calls up."""
    builder = Calls(xref)
    by: dict[Callee, dict[int, int]] = {}  # of each method who calls it, how often
    for number, _ in xref.methods():
        for to in builder.called(number):
            some = by.setdefault(to, {})
            some[number] = some.get(number, 0) + 1
    goal: Callee = name if name in by else method_of(xref, name)
    due, depths = [goal], {goal: 0}
    for to in due:
        here = builder.node(to)
        if depth is not None and depths[to] >= depth:
            continue
        for number, times in by.get(to, {}).items():
            builder.graph.add_edge(builder.node(number), here, "call", times=times)
            if number not in depths:
                depths[number] = depths[to] + 1
                due.append(number)
    return builder.graph


# ---- what is written


def as_json(graph: Graph) -> dict[str, Any]:
    nodes = [
        {key: value for key, value in node.items() if key != "lines" or "name" not in node} for node in graph.nodes
    ]
    edges = [
        {"from": a, "to": b, "kind": kind}
        | ({"label": label} if label else {})
        | ({"times": n} if kind == "call" else {})
        for (a, b, kind, label), n in graph.edges.items()
    ]
    return {"name": graph.name, "nodes": nodes, "edges": edges}


def in_dot(text: str) -> str:
    """A text in quotes, cut where it is long. (graphviz takes character references in it.)"""
    text = text if len(text) <= LONGEST else f"{text[:LONGEST]}..."
    return text.replace("&", "&amp;").replace("\\", "\\\\").replace('"', '\\"')


def as_dot(graph: Graph, link: str = "") -> Iterator[str]:
    """The graph in the language of graphviz. `link` and a node's first instruction are where a node leads."""
    yield f'digraph "{in_dot(spelled(graph.name))}" {{'
    yield 'bgcolor="transparent" node [shape=box fontname="monospace" fontsize=10 style=filled fillcolor="#ffffff"]'
    yield 'edge [fontname="monospace" fontsize=10]'
    for at, node in enumerate(graph.nodes):
        first = node.get("first")
        lines = [
            in_dot(line if first is None else f"{first + n} {line}")
            for n, line in enumerate(node["lines"][:MOST_LINES])
        ]
        lines += [f"{len(node['lines']) - MOST_LINES} more"] if len(node["lines"]) > MOST_LINES else []
        more = f' href="{link}{first}"' if link else ""
        more += ' style="filled,dashed"' if node.get("outside") else ""
        label = "".join(f"{line}\\l" for line in lines)
        yield f'n{at} [label="{label}"{more}]'
    for (a, b, kind, label), times in graph.edges.items():
        text = label or (f"{times} times" if times > 1 else "")
        look = f'class="{kind}" color="{COLORS[kind]}"{LOOKS.get(kind, "")}'
        yield f'n{a} -> n{b} [{look} label="{in_dot(text)}"]'
    yield "}"


def graphviz() -> str:
    """The path of graphviz's command."""
    program = shutil.which("dot")
    if program is None:
        raise CliError("graphviz isn't there: its command dot draws the pictures (Debian: graphviz)")
    return program


def render_svg(dot: str) -> str:
    """The picture that graphviz makes, as SVG."""
    try:
        done = subprocess.run([graphviz(), "-Tsvg"], input=dot.encode("ascii"), capture_output=True, timeout=SECONDS)
    except subprocess.TimeoutExpired:
        raise CliError(f"graphviz drew for more than {SECONDS} seconds: the graph is too large for a picture") from None
    if done.returncode:
        raise CliError(f"graphviz ended with status {done.returncode}")
    try:
        picture = done.stdout.decode("utf8")
        if xml.fromstring(picture).tag == f"{SVG}svg":
            return picture
    except (ValueError, xml.ParseError):
        pass
    raise CliError(NO_PICTURE)


def embeddable_svg(svg: str) -> str:
    """A picture as a part of a page: only what a picture needs, without names, colours and scripts."""
    top = xml.fromstring(svg)
    try:
        sanitize_svg(top)
        return xml.tostring(top, encoding="unicode")
    except RecursionError:
        raise CliError(NO_PICTURE) from None


def sanitize_svg(element: xml.Element) -> None:
    to = element.get(LINK)
    element.attrib = {name: value for name, value in element.attrib.items() if name in ATTRIBUTES}
    if to and re.fullmatch(r"#\d+\.\d+", to):
        element.set("href", to)
    element.tag, element.tail = element.tag.removeprefix(SVG), None
    if element.tag != "text":
        element.text = None
    for inner in [*element]:
        if inner.tag.removeprefix(SVG) in ELEMENTS:
            sanitize_svg(inner)
        else:
            element.remove(inner)
