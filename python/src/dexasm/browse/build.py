"""Makes the pages of dexasm-browse: each member's lines first, with what they use, and then the pages."""
from __future__ import annotations

import zlib
from collections.abc import Iterable, Iterator
from typing import TYPE_CHECKING, Any

from dexasm.analysis.cfg import MOST_DRAWN, as_dot, embeddable_svg, flow, graphviz, render_svg
from dexasm.analysis.xref import Xref, method_of
from dexasm.browse.classes import Classes
from dexasm.browse.code import CodeRenderer
from dexasm.browse.files import Files
from dexasm.browse.folder import Folder
from dexasm.browse.html import Frame, plural
from dexasm.browse.pages import Packages, overview, reading, shards, strings, strings_cut
from dexasm.browse.pagination import Cuts, Part, file_of, others
from dexasm.cli.errors import CliError
from dexasm.cli.terminal import steps
from dexasm.pages.markup import plain, text
from dexasm.pages.templates import Markup, part, read

if TYPE_CHECKING:
    from dexasm.cli.inputs import Input

TOO_LARGE = "it is too large"
MOST_OF_PICTURE = 500_000  # bytes of a picture on a page


def lines_of(
    xref: Xref, coder: CodeRenderer, row: int, places: Iterator[Iterator[tuple[int, int]]]
) -> Iterator[Markup]:
    """The HTML of each member's lines; of each code that the class has there are the places of its instructions."""
    one, first = xref.classes[row], xref.first[row]
    words = ["static"] * len(one.statics) + ["instance"] * len(one.instances)
    words += ["direct"] * len(one.directs) + ["virtual"] * len(one.virtuals)
    members: tuple[Any, ...] = xref.members[row]  # (what they are the words say)
    for at, (word, member) in enumerate(zip(words, members)):
        if hasattr(member, "proto"):
            yield coder.method(first + at, at, word, member, iter(()) if member.code is None else next(places))
        else:
            yield coder.field(first + at, word, member)


def compress(texts: Iterable[str]) -> bytes:
    """(The texts have no zero.)"""
    return zlib.compress("\0".join(texts).encode("utf8"), 1)


def decompress(data: bytes) -> list[str]:
    return zlib.decompress(data).decode("utf8").split("\0")


class Browse:
    """What the pages of a file, or of all files of an archive, are made of."""

    def __init__(self, inputs: list[Input], shown: str, prog: str) -> None:
        """`shown` is the name on the pages."""
        self.shown, self.files = shown, Files(inputs)
        for file in self.files:
            file.measure(prog)
        self.uses = Xref(self.files.program())
        self.coder = CodeRenderer(self.uses)
        self.classes = Classes(self.uses, self.coder, self.files)
        sizes = (size for file in self.files for size in file.code_sizes)
        self.code_sizes = dict(zip((number for number, _ in self.uses.methods()), sizes, strict=True))
        self.packages = Packages(self.uses, self.files)
        self.pictured: set[int] = set()

    def picture(self, method: str) -> None:
        """Asks for a picture of a method's flow, or of all."""
        if method == "all":
            self.pictured = {number for number, _ in self.uses.methods()}
        else:
            self.pictured = {method_of(self.uses, method, has_code=True)}
        graphviz()

    def write(self, folder: Folder) -> None:
        count = len(self.uses.classes)
        packed_classes = []
        for row in steps("reading", count):
            packed_classes.append(compress(lines_of(self.uses, self.coder, row, self.files.of(row).places(row))))
        cuts = Cuts()
        firsts: list[list[int]] = []
        for row in steps("laying out", count):
            packed_classes[row] = self.lay_out(row, decompress(packed_classes[row]), cuts, firsts)
        found = [*self.coder.strings]
        texts = strings_cut(self.classes, found, cuts)
        index = [*shards(self.classes, firsts, found, cuts)]
        frame = Frame(self.shown, len(index))
        for at, script in enumerate(index):
            folder.put(f"search/{at}.js", script)
        for row in steps("writing", count):
            title = plain(self.uses.classes[row].name.pretty, 80)
            for at, body in enumerate(decompress(packed_classes[row])):
                name = file_of(row, at)
                folder.put(f"class/{name}", frame.page(title, cuts.turned(Markup(body), "class", row, name)))
        self.put_strings(folder, frame, cuts, texts, len(found))
        self.put_others(folder, frame, cuts)

    def lay_out(self, row: int, lines: list[str], cuts: Cuts, firsts: list[list[int]]) -> bytes:
        """What the pages of a class have. Where it is cut is noted, and with which member each page begins."""
        at = self.packages.of_row.get(row)
        taken = self.files.of(row).size_of(self.uses.classes[row].name)
        package = self.packages.link(at) if at is not None else Markup()
        methods = range(self.uses.first[row], self.uses.first[row] + len(self.uses.members[row]))
        hint = self.pictured.isdisjoint(methods) and not self.coder.insns.keys().isdisjoint(methods)
        pages = [*self.classes.pages(row, lines, package, taken, self.extra, hint)]
        cut = [parts for parts, _ in pages]
        cuts.add("class", row, cut)
        # (the first member that has its heading on each page)
        firsts.append([parts[0].at + (parts[0].place >= 0) if parts else 0 for parts in cut])
        return compress(body for _, body in pages)

    def extra(self, number: int) -> Markup:
        """What is said of a method, besides who uses it."""
        if number not in self.coder.insns:
            return part("soft")("No code in this file.")
        size = f"{plural(self.code_sizes[number], 'byte')}, {plural(self.coder.insns[number], 'instruction')}."
        return part("paragraph")(size, self.flow_of(number) if number in self.pictured else "")

    def flow_of(self, number: int) -> Markup:
        """The picture of a method's flow, unless it is a single block."""
        graph = flow(self.uses, number)
        if len(graph.nodes) < 2:
            return part("soft")("Its flow is a single block.")
        if len(graph.edges) > MOST_DRAWN:
            return part("no_picture")(TOO_LARGE)
        try:
            picture = embeddable_svg(render_svg("\n".join(as_dot(graph, f"#{self.uses.place(number)[1]}."))))
        except CliError as failed:
            return part("no_picture")(text(failed.line))
        if len(picture) > MOST_OF_PICTURE:
            return part("no_picture")(TOO_LARGE)
        count = plural(len(graph.nodes), "block")
        return part("flow")(count, self.classes.titled(number, plain), Markup(picture))  # (for_page made it of numbers)

    def put_strings(
        self, folder: Folder, frame: Frame, cuts: Cuts, pages: list[tuple[str, list[Part]]], count: int
    ) -> None:
        names = [name for name, _ in pages]
        for at, (name, parts) in enumerate(pages):
            body = strings(parts, count, others("Pages of strings", names, at))
            folder.put(f"strings/{name}", frame.page(Markup("Strings"), cuts.turned(body, "strings")))

    def put_others(self, folder: Folder, frame: Frame, cuts: Cuts) -> None:
        for at in range(len(self.packages.places)):
            title = plain(self.packages.path(at), 80)
            for page, body in enumerate(self.packages.pages(at)):
                folder.put(f"package/{file_of(at, page)}", frame.page(title, body))
        first = overview(self.shown, self.numbers(), self.packages, self.classes, self.code_sizes)
        folder.put("index.html", frame.page(Markup("Overview"), cuts.turned(first, ""), ""))
        folder.put(
            "help.html",
            frame.page(Markup("How to read it"), reading(self.files.are_several), ""),
        )
        folder.put("style.css", read("pages.css") + read("browse.css"))
        folder.put("script.js", read("pages.js") + read("browse.js"))
        folder.put("icon.svg", read("icon.svg"))

    def numbers(self) -> Iterator[tuple[str, int]]:
        xref, coder = self.uses, self.coder
        fields = sum(len(one.fields) for one in xref.classes)
        if self.files.are_several:
            yield "files", len(self.files.all)
        yield "bytes", sum(len(file.data) for file in self.files)
        yield "classes", len(xref.classes)
        yield "fields", fields
        yield "methods", xref.count - fields
        yield "methods with code", len(coder.insns)
        yield "instructions", sum(coder.insns.values())
        yield "strings in use", len(coder.strings)
        taken = [file.stripped for file in self.files if file.stripped is not None]
        if len(taken) == len(self.files.all):
            yield "bytes that strip takes away", sum(taken)
