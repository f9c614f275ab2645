"""dexasm-graph: the graphs of a small program by hand, and what graphviz makes of names and strings, on the pages of
dexasm-browse too.
"""
import html
import json
import os
import re

from tests import sought
from tests.matchers import Above, Begins, Has, Lacks
from .browse_pages import CODE, PARTS, BrowseTest, hostile
from .support import ESC, Line, assembled, put, room, run, tool


class Graph(BrowseTest):
    def test_graph(self) -> None:
        """The flow of a method, by hand."""
        at = room("graph", {"a.dex": assembled(CODE)})
        method = "Lp/q/Hello;->get(Z)I"
        status, out, said = tool("dexasm-graph", "--format", "json", "a.dex", method, at=at)
        made = json.loads(out) if status == 0 else {"nodes": [], "edges": []}
        self.check_equal("the blocks", [(node["first"], len(node["lines"])) for node in made["nodes"]],
                         [(0, 2), (2, 1), (3, 3), (6, 1), (7, 2)])
        edges = {(edge["from"], edge["to"], edge["kind"], edge.get("label", "")) for edge in made["edges"]}
        want = {(0, 1, "next", ""), (0, 3, "taken", ""), (1, 2, "next", ""), (1, 2, "switch", "5, 7"),
                (1, 3, "switch", "6"), (2, 3, "taken", ""), (2, 4, "handler", "Ljava/lang/Exception;"),
                (2, 3, "handler", "any")}
        self.check_equal("the edges", edges, want)

    def test_calls(self) -> None:
        at = room("graph calls", {"a.dex": assembled(CODE)})
        calls = json.loads(tool("dexasm-graph", "--calls", "--format", "json", "a.dex", at=at)[1])
        names = [node["name"] for node in calls["nodes"]]
        edges = {(names[edge["from"]][11:], names[edge["to"]], edge["times"]) for edge in calls["edges"]}
        want = {("->get(Z)I", "Lp/q/Hello;->ask(I)V", 1), ("->ask(I)V", "Lp/q/Hello;->get(Z)I", 2),
                ("->ask(I)V", "Lp/Base;->stay()V", 1), ("->ask(I)V", "Lp/q/Hello;->hashCode()I", 1)}
        self.check_equal("--calls", edges, want)
        outside = [node["name"] for node in calls["nodes"] if node["outside"]]
        self.check_equal("--calls, what is outside", outside, ["Lp/q/Hello;->hashCode()I"])
        for depth, count in ((0, 1), (1, 2), (2, 4)):
            words = ("--calls", "--from", "Lp/q/Hello;->get", "--depth", str(depth), "--format", "json", "a.dex")
            found = json.loads(tool("dexasm-graph", *words, at=at)[1])["nodes"]
            self.check_equal(f"--calls --depth {depth}", len(found), count)

    def test_callers(self) -> None:
        """Who leads to a method, up to so many calls; the method may be one that the file doesn't have."""
        at = room("graph callers", {"a.dex": assembled(CODE)})
        get, ask, stay, outside = "->get(Z)I", "->ask(I)V", "Lp/Base;->stay()V", "Lp/q/Hello;->hashCode()I"
        both = {(get, ask, 1), (ask, get, 2)}
        for words, want in (
            (("--to", "Lp/Base;->stay()V"), {*both, (ask, stay, 1)}),
            (("--to", "Lp/Base;->stay", "--depth", "1"), {(ask, stay, 1)}),
            (("--to", outside), {*both, (ask, outside, 1)}),
            (("--to", outside, "--depth", "0"), set()),
        ):
            made = json.loads(tool("dexasm-graph", "--calls", *words, "--format", "json", "a.dex", at=at)[1])
            names = [node["name"].removeprefix("Lp/q/Hello;") for node in made["nodes"]]
            names = [outside if name == "->hashCode()I" else name for name in names]
            edges = {(names[edge["from"]], names[edge["to"]], edge["times"]) for edge in made["edges"]}
            self.check_equal(f"--calls {' '.join(words)}", edges, want)
        seen = tool("dexasm-graph", "--calls", "--to", f"Lx;->{ESC}[31my()V", "a.dex", at=at)
        self.check_equal("--calls --to a method that nobody calls", seen,
                         (2, "", Line("dexasm-graph: Lx;->\\x1b[31my()V names no method of the file")))

    def test_words(self) -> None:
        at, method = room("graph words"), "Lp/q/Hello;->get(Z)I"
        put(at, "a.dex", assembled(CODE))
        for words in (
            ("a.dex",), ("--calls", "a.dex", method), ("--from", method, "a.dex"), ("--calls", "--depth", "2", "a.dex"),
            ("--to", method, "a.dex"), ("--calls", "--from", method, "--to", method, "a.dex"),
            ("--calls", "--from", method, "--depth", "-1", "a.dex"), ("--format", "png", "a.dex", method)
        ):
            seen = tool("dexasm-graph", *words, at=at)
            self.check_equal(f"{words!r}", seen, (2, "", Begins("usage: dexasm-graph ")))
        for word in ("", "Lp/Base;->run", f"{ESC}[31m", "\\u"):
            seen = tool("dexasm-graph", "--", "a.dex", word, at=at)
            self.check_equal(f"the method {word!r}", seen, (2, "", Line("dexasm-graph: ")))

    def test_pictures(self) -> None:
        """What graphviz makes of names and strings, where it is."""
        texts: list[str] | str
        at = room("graph pictures", {"a.dex": hostile()})
        methods = [f"L{part};->{part}" for part in PARTS if len(part) < 256]
        dots = [tool("dexasm-graph", "--", "a.dex", method, at=at) for method in methods[2:6]]
        self.check_equal("hostile names", [seen for seen in dots if not (seen[0] == 0 and seen[1].isascii())], [])
        self.need("dot", "no picture is drawn")
        for method, (_, dot, _) in zip(methods[2:6], dots):
            svg = run(["dot", "-Tsvg"], given=dot.encode("ascii"), at=at)[1]
            texts = [html.unescape(text) for text in re.findall(r"<text[^>]*>(.*?)</text>", svg)]
            want = [
                html.unescape(line).replace('\\"', '"').replace("\\\\", "\\")
                for line in sought(r'n0 \[label="(.*)\\l"\]', dot)[1].split("\\l")
            ]
            self.check_equal(f"a picture of {method!r}", (texts, svg), (want, Lacks("<script")))
        put(at, "b.dex", assembled(CODE))
        seen = tool("dexasm-browse", "b.dex", "--output", "out", "--graphs", "all", at=at)
        found = self.pages(os.path.join(at, "out"))
        texts = "".join(found["class/1.html"].texts)
        self.check_equal("dexasm-browse --graphs all, its words", texts,
                         Has('0 const-string v0 "a\\\\b&amp;\\"<script>"'))
        self.check_equal("dexasm-browse --graphs all", (seen, found["class/1.html"].elements.count("polygon")),
                         ((0, "", ""), Above(5)))
        seen = tool("dexasm-browse", "a.dex", "--output", "all", "--graphs", "all", at=at)
        self.check_equal("dexasm-browse --graphs all, hostile names", seen, (0, "", ""))
        self.pages(os.path.join(at, "all"))
