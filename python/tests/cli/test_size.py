"""dexasm-size: its rows add up to the file, and of two files to their difference, whatever the files, and its page
holds nothing of somebody else's making.
"""
import csv
import hashlib
import html.parser
import io
import json
import os
import re
import struct
import sys
import xml.etree.ElementTree
import zlib
from typing import Any

from dexasm.dexfile import INDEX, UNITS
from tests import sought
from tests.matchers import ANY, EMPTY, Above, Begins, Below, Ends, Has, Lacks, Other
from ..cases import TEXTS
from .support import (
    ESC, HEAD, LISTING, NAMES, TOP, HelperTest, Line, assembled, classes, dexasm, get, put, puts, room, run, seen_in,
    shell, tool
)

Row = dict[str, Any]  # as JSON has it
COUNTED = TEXTS["test_size COUNTED"].encode()
COLUMNS = ["total", "code", "strings", "tables", "values", "debug", "unused", "strip"]


def rows_of(out: str) -> tuple[dict[str, list[int]], list[int], bool]:
    """The rows of a table by their names, and whether each adds up and all do."""
    lines = out.splitlines()
    rows = {line.split(None, 8)[8]: [int(number) for number in line.split(None, 8)[:8]] for line in lines[1:]}
    total = rows.pop("all")
    is_so = lines[0].split() == [*COLUMNS, "name"] and all(row[0] == sum(row[1:7]) for row in rows.values())
    return rows, total, is_so and [sum(column) for column in zip(*rows.values())] == total


def closed(file: bytes) -> bytes:
    file = file[:12] + hashlib.sha1(file[32:]).digest() + file[32:]
    return file[:8] + struct.pack("<I", zlib.adler32(file[12:])) + file[12:]


class Page(html.parser.HTMLParser):
    """The elements of a page, and what they lead to."""

    def __init__(self, text: str) -> None:
        super().__init__()
        self.elements: set[str]
        self.leads: list[tuple[str, str | None]]
        self.elements, self.leads = set(), []
        self.feed(text)

    def handle_starttag(self, tag: str, attributes: list[tuple[str, str | None]]) -> None:
        self.elements.add(tag)
        self.leads += [
            (name, value) for name, value in attributes
            if name in ("src", "href", "srcset", "data", "action") or name.startswith("on")
        ]


# ---- two files

DIFFERENCES = ["change", *COLUMNS[1:7]]
HEADS = [*DIFFERENCES, "before", "after", "what", "name"]


def told_of(at: str, *words: str, **options: Any) -> dict[str, Any]:
    """What --json tells of two files."""
    seen = tool("dexasm-size", "--json", *words, at=at, **options)
    told: dict[str, Any] = json.loads(seen[1]) if (seen[0], seen[2]) == (0, "") else {"rows": [], "seen": seen}
    return told


def word_of(row: Row) -> str:
    """What a row did, as far as its numbers tell."""
    if row["what"] in ("came", "went"):
        return "came" if not row["before"] and row["after"] >= 0 and row["what"] == "came" else "went"
    return "grew" if row["change"] > 0 else "shrank" if row["change"] < 0 else "moved"


def is_exact(row: Row) -> bool:
    is_sum = row["change"] == row["after"] - row["before"] == sum(row[kind] for kind in DIFFERENCES[1:])
    is_gone = row["what"] not in ("came", "went") or row["before" if row["what"] == "came" else "after"] == 0
    is_so: bool = is_sum and is_gone and row["what"] == word_of(row) and list(row) == HEADS
    return is_so


def grown_rows(out: str) -> tuple[list[list[int]], list[int], bool]:
    """The rows of a table for two files, and whether each and all add up; of the names only that they are there."""
    head, *lines = out.splitlines()
    rows = [[int(cell) for cell in line.split()[:9]] for line in lines]
    signs = all(re.fullmatch(r"0|[+-][1-9][0-9]*", cell) for line in lines for cell in line.split()[:7])
    *rows, total = rows
    is_so = all(row[0] == sum(row[1:7]) == row[8] - row[7] for row in (*rows, total))
    return rows, total, is_so and signs and head.split() == HEADS and [sum(one) for one in zip(*rows)] == total


def shape(at: str, name: str, n: int) -> bytes:
    run([sys.executable, "-B", os.path.join(TOP, "bench/hostile/shapes.py"), name, str(n), "shape"], at=at)
    return get(at, "shape")


METHOD = b'direct %s ()V 0x9\ncode 1 0 0\nconst-string v0 "%s"\n%sreturn-void\nend code\n'


def classes_of(**methods: bytes) -> bytes:
    """A class by each name, with these lines."""
    return HEAD + b"".join(b"class Lp/%s; 1\n%send class\n" % (name.encode(), of) for name, of in methods.items())


def grown(at: str, old: bytes, new: bytes, *words: str) -> list[tuple[str, str, int]]:
    """What changed between two listings: each row's name, what it did, and by how many bytes."""
    puts(at, {"old.dex": assembled(old), "new.dex": assembled(new)})
    return [(row["name"], row["what"], row["change"]) for row in told_of(at, *words, "old.dex", "new.dex")["rows"]]


class Size(HelperTest):
    def adds_up(self, what: str, file: bytes, at: str) -> dict[str, list[int]]:
        put(at, "file.dex", file)
        found: dict[str, dict[str, list[int]]]
        found, stripped = {}, len(dexasm("strip", given=file))
        for by in ("class", "package"):
            status, out, said = tool("dexasm-size", "--by", by, "file.dex", at=at)
            rows, total, is_so = rows_of(out) if status == 0 else ({}, [0] * 8, False)
            self.check_equal(f"--by {by}, {what}", (is_so, total[0], total[7], said),
                             (True, len(file), len(file) - stripped, ""))
            # (of names that none needs nothing is left when the file is stripped)
            nobody = rows.get("(no class)", [0] * 8)
            self.check_equal(f"--by {by}, {what}: all that is needed has a class", nobody[0], nobody[7])
            found[by] = rows
        for by in ("method", "string"):
            status, out, said = tool("dexasm-size", "--by", by, "--json", "file.dex", at=at)
            told = json.loads(out) if status == 0 else {"rows": []}
            sums = [sum(row[column] for row in told["rows"]) for column in COLUMNS]
            self.check_equal(
                f"--by {by} --json, {what}",
                (sums[0] == sum(sums[1:7]) == len(file) == told.get("bytes"), sums[7],
                 [row for row in told["rows"] if row["total"] != sum(row[kind] for kind in COLUMNS[1:7])], said),
                (True, len(file) - stripped, [], "")
            )
        return found["class"]

    def test_sums(self) -> None:
        at = room("size")
        rows = self.adds_up("a listing", assembled(LISTING), at)
        self.check_equal("each class has a row", (list(rows)[-1], {"LA;", "La;", "Lp/q/B;", "Lp;"}),
                         (Other(""), Below(set(rows))))
        self.adds_up("no class", assembled(HEAD), at)
        for shape, n in (
            ("calls", 400), ("handlers", 40), ("prototypes", 60), ("overlapping", 200), ("shared_code", 60),
            ("overlapping_codes", 6)
        ):
            run([sys.executable, "-B", os.path.join(TOP, "bench/hostile/shapes.py"), shape, str(n), "shape"], at=at)
            self.adds_up(f"the shape {shape}", get(at, "shape"), at)

    def test_opcodes(self) -> None:
        """How long each instruction is and which table its index is of, as the table of opcodes has it."""
        text = get(TOP, "crates/dex_insn/src/opcodes.rt").decode()
        rows = re.findall(r'row!\("[^"]*" F(\d)\w+(?: (\w+))?\), // ([0-9a-f]{2})', text)
        wrong = [
            op for units, kind, op in rows
            if UNITS[int(op, 16)] != int(units) or INDEX[int(op, 16)] != (kind.lower() or None)
        ]
        self.check_equal("the opcodes", (len(rows), wrong), (218, EMPTY))

    def test_by_hand(self) -> None:
        """The sizes of a small file, worked out by hand from docs/FORMAT.md."""
        at = room("size by hand")
        method = b'direct m ()V 0x9\ncode 1 0 0\nconst-string v0 "%s"\nreturn-void\nend code\n'
        text = (
            HEAD + b"class La/A; 1\n" + method % b"only" + b"end class\nclass La/B; 1\n" + method % b"of B alone"
            + b"static i I 9 = int 77\nend class\n"
        )
        rows = self.adds_up("two classes", assembled(text), at)
        # Each code has a head of 16 bytes and 3 units; A's names are its own: "La/A;" (row 4, size 1, 5 characters, 0)
        # and
        # "only".
        self.check("code", rows["La/A;"][1] == rows["La/B;"][1] == 16 + 2 * 3, rows)
        self.check_equal("strings", (rows["La/A;"][2], rows["La/B;"][2]), (11 + 10, 11 + 16 + 7 + 7))
        # The value 77 is an array of one value of one byte.
        self.check_equal("values", (rows["La/A;"][4], rows["La/B;"][4]), (0, 3))
        # "V", "m" (7 bytes each); the type V, the prototype ()V. A's own: its type, its method, its class row, its
        # class
        # data.
        self.check_equal("what both need", rows["(several classes)"][2:4], [7 + 7, 4 + 12])
        # header, 112 bytes; the map: a count and entries of 12 bytes of header, six tables but fields .. (fields are
        # there), code, texts, values, class data and the map.
        self.check_equal("the file", rows["(the file)"][3], 112 + 4 + 12 * 12)

    def test_unneeded(self) -> None:
        """Debug information and annotations that lead nowhere."""
        at, file = room("size unneeded"), assembled(LISTING)
        row, code = struct.unpack_from("<I", file, 100)[0], file.index(struct.pack("<HHHHII", 1, 0, 0, 0, 0, 6))
        for place in (1, 113, len(file) - 1, len(file), len(file) + 9, 0xFFFFFFFF, code + 3):
            wild = bytearray(file)
            struct.pack_into("<I", wild, code + 8, place)
            struct.pack_into("<I", wild, row + 20, place)
            rows = self.adds_up(f"debug information at {place}", closed(bytes(wild)), at)
            self.check_equal(f"code is code, with debug information at {place}", rows["LA;"][1], 16 + 12)

    def test_page(self) -> None:
        at = room("size page", {"a.dex": assembled(LISTING)})
        for name in (*NAMES, "<script>alert(1)<!--", 'x" onload="y', "\u202eabc", "]]>", "a</title>"):
            put(at, name, assembled(LISTING))
            seen = tool("dexasm-size", "--html", "out.html", "--", name, at=at)
            text = get(at, "out.html").decode()
            page, svg = Page(text), sought(r'<svg class="map".*</svg>(?=</div><ul)', text, re.S)[0]
            self.check_equal(f"--html, a file of the name {name!r}", (seen, text), ((0, ANY, ""), Lacks(ESC, "\u202e")))
            self.check_equal(f"--html, nothing of the name {name!r} is obeyed", (page.leads, page.elements <= set(
                "html head meta title style body h1 p svg g rect text div ul li h2 table caption thead tr th tbody td tfoot"
                " script code".split()
            ), text), (EMPTY, True, Lacks("://")))
            xml.etree.ElementTree.fromstring(svg)
        self.check_equal("--html, it leaves nothing beside", {name for name in seen_in(at) if name.endswith(".part")},
                         set())
        deep = (
            HEAD + b"".join(b"class L%sC%d; 1\nend class\n" % (b"p/" * n, n) for n in range(0, 1500, 50))
            + b"class L%s; 1\nend class\n" % (b"n" * 60000)
        )
        put(at, "deep.dex", assembled(deep))
        seen = tool("dexasm-size", "--html", "deep.html", "deep.dex", at=at)
        self.check_equal("--html, packages in packages", seen, (0, ANY, ""))

    def test_page_alone(self) -> None:
        """With --html no table is printed, but the rows where a form of them is asked for."""
        at = room("size page alone", {"a.dex": assembled(LISTING)})
        for words in (("a.dex",), ("a.dex", "a.dex")):
            seen = tool("dexasm-size", "--html", "out.html", *words, at=at)
            self.check_equal(f"--html {words}, no table beside", seen, (0, "", ""))
            seen = tool("dexasm-size", "--json", "--html", "out.html", *words, at=at)
            self.check_equal(f"--json --html {words}", seen[:2], (0, Begins("{")))

    def test_many(self) -> None:
        """A table of more rows than a page can have: those that are left out are one."""
        at, file = room("size many"), assembled(classes(*(f"Lc{n}/D;" for n in range(2100))))
        put(at, "a.dex", file)
        seen = tool("dexasm-size", "--html", "out.html", "a.dex", at=at)
        bodies = re.findall(r"<tbody>(.*?)</tbody>", get(at, "out.html").decode(), re.S)
        rows = [re.findall(r"<tr><td>([\d,]+)</td>.*<td>(.*?)</td></tr>", body) for body in bodies]
        totals = [sum(int(total.replace(",", "")) for total, _ in some) for some in rows]
        # (2,100 classes or their packages, and three rows of what is no class's)
        self.check_equal(
            "--html, many rows",
            (seen[0], [len(some) for some in rows], [some for some in rows if some[-1][1] != "(103 more)"]),
            (0, [2001, 2001], [])
        )
        self.check_equal("--html, many rows add up", totals, [len(file)] * 2)

    def test_ends(self) -> None:
        file = assembled(LISTING)
        at = room("size ends", {"a.dex": file, "bad": file[:-1], "a.apk": b"PK\3\4" + bytes(300)})
        for words, status in (
            (("bad",), 1), (("none",), 3), (("a.apk",), 3), ((f"{ESC}[31m",), 3), ((".",), 3),
            (("--html", "none/out.html", "a.dex"), 3), (("--html", ".", "a.dex"), 3)
        ):
            seen = tool("dexasm-size", *words, at=at)
            self.check_equal(f"{words!r}", seen, (status, ANY, Line("dexasm-size: ")))
        put(at, "out.html", b"old")
        self.check_equal("no room",
                         (tool("dexasm-size", "--html", "out.html", "a.dex", at=at, most=2000)[0], get(at, "out.html")),
                         (3, b"old"))
        self.check_equal("nothing is left beside", set(seen_in(at)), {"a.dex", "bad", "a.apk", "out.html"})
        wrong = ("--sort", "x", "a.dex"), ("--by", ESC, "a.dex"), (), ("a", "b", "c"), ("--html",)
        for words in (*wrong, ("--json", "--csv", "a.dex"), ("--sort", "strip", "a.dex", "a.dex")):
            seen = tool("dexasm-size", *words, at=at)
            self.check_equal(f"{words!r}", seen, (2, "", Begins("usage: dexasm-size ") & Lacks(ESC)))

    def test_sorted(self) -> None:
        """The order of the rows, and pipes that nobody reads."""
        at = room("size sorted", {"a.dex": assembled(LISTING)})
        by_name = list(rows_of(tool("dexasm-size", "--by", "class", "--sort", "name", "a.dex", at=at)[1])[0])
        by_code = rows_of(tool("dexasm-size", "--by", "class", "--sort", "code", "a.dex", at=at)[1])[0]
        codes = [row[1] for row in by_code.values()]
        self.check_equal("--sort", (by_name, codes, next(iter(by_code))),
                         (sorted(by_name), sorted(codes, reverse=True), "LA;"))

    def test_out(self) -> None:
        """OUT of --html is written by the command's rules."""
        at = room("size out", {"a.dex": assembled(LISTING)})
        out = put(at, "out", b"old")
        os.chmod(out, 0o600)
        os.link(out, os.path.join(at, "other"))
        seen = tool("dexasm-size", "--html", "out", "a.dex", at=at)
        self.check_equal("--html, two names",
                         (seen[0], os.path.samefile(out, os.path.join(at, "other")), get(out),
                          os.stat(out).st_mode & 0o777),
                         (0, True, Begins(b"<!"), 0o600))
        seen = tool("dexasm-size", "--html", "/dev/full", "a.dex", at=at)
        self.check_equal("--html, a full device", seen, (3, ANY, Line("dexasm-size: /dev/full: No space")))

    def changes_add_up(self, what: str, old: bytes, new: bytes, at: str, table: str) -> None:
        """The rows of a pair of files by whatever they are told, as JSON, and by that word as a table."""
        puts(at, {"old.dex": old, "new.dex": new})
        for by in ("package", "class", "method", "string"):
            told = told_of(at, "--by", by, "old.dex", "new.dex")
            sizes = told.get("before"), told.get("after"), told.get("change")
            want = {"file": "old.dex", "bytes": len(old)}, {"file": "new.dex", "bytes": len(new)}, len(new) - len(old)
            self.check_equal(f"A B --by {by} --json, {what}",
                             (sizes, sum(row["change"] for row in told["rows"]), all(map(is_exact, told["rows"]))),
                             (want, len(new) - len(old), True))
            order = [(-abs(row["change"]), row["name"]) for row in told["rows"]]
            self.check_equal(f"A B --by {by}, {what}: what changed most is first", order, sorted(order))
            if by != table:
                continue
            status, out, said = tool("dexasm-size", "--by", by, "old.dex", "new.dex", at=at)
            rows, total, is_so = grown_rows(out) if status == 0 else ([], [0] * 9, False)
            self.check_equal(f"A B --by {by}, {what}",
                             (is_so, total[7:], total[0], [row[0] for row in rows][: len(told["rows"])], said),
                             (True, [len(old), len(new)], len(new) - len(old), [row["change"] for row in told["rows"]],
                              ""))

    def test_counts(self) -> None:
        """Rows of tables by package and class add up to the tables, of one file and of what two differ by."""
        at = room("size counts", {
            "a.dex": assembled(HEAD + COUNTED), "b.dex": assembled(HEAD + COUNTED.replace(b"Lp/B;", b"Lq/B;"))
        })
        heads = "methods", "defined", "fields", "types", "strings"
        want = {"p": [3, 2, 1, 2], "java/lang": [0, 0, 0, 1], "(no class)": [0, 0, 0, 2]}
        status, out, said = tool("dexasm-size", "--count", "--json", "a.dex", at=at)
        rows = {row.pop("name"): row for row in json.loads(out)["rows"]}
        seen = {name: [*row.values()][:-1] for name, row in rows.items()}
        self.check_equal("--count, by hand", {name: seen.get(name) for name in want}, want)
        data = get(at, "a.dex")
        tables = [int.from_bytes(data[place : place + 4], "little") for place in (88, 80, 64, 56)]
        sums = [sum(row[head] for row in rows.values()) for head in heads if head != "defined"]
        self.check_equal("--count, the tables", sums, tables)
        out = tool("dexasm-size", "--count", "--by", "class", "--csv", "a.dex", "b.dex", at=at)[1]
        want_lines = ["2,1,1,1,2,0,2,Lq/B;", "-2,-1,-1,-1,-2,2,0,Lp/B;"]
        lines = out.splitlines()[1:]
        self.check("--count of two", {*want_lines} <= {*lines}, lines)
        for words in ("--count --by method", "--count --html o", "--count --sort code", "--sort fields"):
            status, out, said = tool("dexasm-size", *words.split(), "a.dex", at=at)
            self.check_equal(words, (status, out, said), (2, "", Begins("usage: ")))

    def test_changes(self) -> None:
        """The sum of the rows is the difference of the sizes, of each pair and both ways."""
        at, file = room("size changes"), assembled(LISTING)
        wild = bytearray(file)
        struct.pack_into("<I", wild, struct.unpack_from("<I", file, 100)[0] + 20, 113)
        pairs = {
            "a listing and nothing": (file, assembled(HEAD)),
            "nothing and a listing": (assembled(HEAD), file),
            "annotations that lead nowhere": (file, closed(bytes(wild))),
            "codes that are shared": (shape(at, "shared_code", 40), shape(at, "shared_code", 60)),
            "lists that overlap": (shape(at, "overlapping", 60), shape(at, "prototypes", 20)),
            "codes that overlap": (shape(at, "overlapping_codes", 6), file),
            "calls and handlers": (shape(at, "calls", 60), shape(at, "handlers", 20)),
        }
        for number, (what, (old, new)) in enumerate(pairs.items()):
            self.changes_add_up(what, old, new, at, ("package", "class", "method", "string")[number % 4])

    def test_changes_by_hand(self) -> None:
        """Worked out by hand from docs/FORMAT.md: a row of a string has 4 bytes and its item 2 and its characters, a
        row of a type 4, of a class 32; a code 16 and 2 for each unit, a code begins at a multiple of 4."""
        at = room("size changes by hand")
        old = classes_of(A=METHOD % (b"m", b"only", b""), B=b"")
        new = classes_of(A=METHOD % (b"m", b"only more", b"nop\nnop\n"), C=b"")
        text, of_class = 5, 4 + 2 + 5 + 4 + 32  # (" more"; "Lp/B;")
        for by, want in (
            ("class", [("Lp/B;", "went", -of_class), ("Lp/C;", "came", of_class), ("Lp/A;", "grew", text + 4)]),
            ("package", [("p", "grew", text + 4)]),
            ("method", [("Lp/B;", "went", -of_class), ("Lp/C;", "came", of_class), ("Lp/A;", "grew", text)]),
        ):
            found = grown(at, old, new, "--by", by)
            want += [("Lp/A;->m()V", "grew", 4)] * (by == "method")
            self.check_equal(f"A B --by {by}, by hand", [one for one in found if one[0][0] != "("], want)
        found = grown(at, old, new, "--by", "string")
        want = [('"only more"', "came", 15), ('"Lp/B;"', "went", -11), ('"Lp/C;"', "came", 11), ('"only"', "went", -10)]
        self.check_equal("A B --by string, by hand", [one for one in found if one[0][0] == '"'], want)
        one, other = (classes_of(A=METHOD % (b"m", said, b"")) for said in (b"x", b"y"))
        found = grown(at, one, other, "--by", "class")
        self.check_equal("A B, another string of as many bytes", found, [])
        one, other = (classes_of(A=METHOD % (b"m", *of)) for of in ((b"longer", b""), (b"lo", b"nop\nnop\n")))
        found = grown(at, one, other)
        self.check_equal("A B, four bytes of a string that are now of code", found, [("p", "moved", 0)])
        # (both have two methods with one code: it is the class's)
        twice = [METHOD % (name, b"x", b"nop\n" * n) for name, n in ((b"m", 0), (b"n", 1), (b"n", 0))]
        found = grown(at, classes_of(A=twice[0] + twice[1]), classes_of(A=twice[0] + twice[2]), "--by", "method")
        want = [("Lp/A;->n()V", "shrank", -24), ("Lp/A;", "grew", 22), ("Lp/A;->m()V", "shrank", -22)]
        self.check_equal("A B, a code that is shared now", [one for one in found if one[0][0] != "("], want)
        abstract = b"virtual n ()V 0x401\n"
        found = grown(at, classes_of(A=b""), classes_of(A=abstract), "--by", "method")
        self.check_equal("A B, a method without code came", found, Has(("Lp/A;->n()V", "came", 0)))
        found = grown(at, classes_of(A=abstract), classes_of(A=METHOD % (b"n", b"x", b"")), "--by", "method")
        self.check_equal("A B, a method got its code", found, Has(("Lp/A;->n()V", "grew", 22)))

    def test_same_files(self) -> None:
        """Of one program nothing changed, whatever its path; and what isn't the program is told too."""
        at, file = room("size same"), assembled(LISTING)
        put(at, "a.dex", file)
        os.symlink("a.dex", os.path.join(at, "b.dex"))
        for by in ("package", "class", "method", "string"):
            told = told_of(at, "--by", by, "a.dex", "a.dex" if by == "class" else "b.dex")
            self.check_equal(f"--by {by} of a file twice", (told["rows"], told.get("change")), ([], 0))
        seen = tool("dexasm-size", "a.dex", "b.dex", at=at)
        cells = [line.split() for line in seen[1].splitlines()[1:]]
        want = [["0"] * 7 + [str(len(file))] * 2 + rest for rest in (["(5", "unchanged)"], ["all"])]
        self.check_equal("of a file twice", (seen, cells), ((0, ANY, ""), want))
        put(at, "c.dex", assembled(HEAD))
        for column in ("total", "code", "tables", "unused", "name"):
            rows = told_of(at, "--by", "class", "--sort", column, "a.dex", "c.dex")["rows"]
            key = "change" if column == "total" else column
            order = [(0 if key == "name" else -abs(row[key]), row["name"]) for row in rows]
            self.check_equal(f"A B --sort {column}", (len(rows), order), (Above(4), sorted(order)))

    def test_changes_names(self) -> None:
        """Names that a terminal, a browser or a spreadsheet would obey, of packages, methods, strings and files."""
        at = room("size changes names")
        names = ["-x", "\\uff1dx", "x\\u2060x", "x"]
        body = b'static s Ljava/lang/String; 0x9 = string "%s"\nend class\n'
        strings: tuple[str, ...]
        strings = r"\u001b[31mred", r"=cmd|' /C calc'!A0", r"<script>alert(1)</script>", r"a\u202eb", r"\ud83d", r"'\""
        strings = *strings, "z" * 5000
        text = b"".join(
            b"class L%s/A; 1\n" % name.encode() + body % said.encode() for name, said in zip(names, strings)
        )
        text += b"".join(b"class Ls%d; 1\n" % at + body % said.encode() for at, said in enumerate(strings))
        put(at, "a.dex", assembled(HEAD))
        found: Page | set[str]
        for number, name in enumerate((*NAMES, "<script>alert(1)<!--", "=1.dex")):
            put(at, name, assembled(HEAD + text))
            by = ("package", "string")[number % 2]
            tool("dexasm-size", "--html", "out.html", "--", "a.dex", name, at=at)
            seen = tool("dexasm-size", "--by", by, "--", "a.dex", name, at=at)
            lines = seen[1].encode("latin1").decode("utf8").splitlines()
            self.check_equal(
                f"A B --by {by}, the file {name!r}",
                (seen, [line for line in lines if not (line.isprintable() and len(line) < 400)], len(lines)),
                ((0, ANY, ""), [], Above(9))
            )
            page, found = get(at, "out.html").decode(), Page(get(at, "out.html").decode())
            ours = "html head meta title style body h1 h2 p i div table caption thead tr th tbody td tfoot script"
            self.check_equal(f"A B --html, nothing of {name!r} is obeyed",
                             (found.leads, found.elements <= {*ours.split()}, page.count("<script>"), page),
                             (EMPTY, True, 1, Lacks("://", ESC, "\u202e")))
        told = told_of(at, "--", name := NAMES[-2], "a.dex")
        self.check_equal(f"A B --json, the file {name!r}", told.get("before", {}).get("file"), name)
        self.check_equal("A B, no name is run", os.listdir(at), Lacks("PWNED"))
        for form, want in (("--csv", {"'-x", "'\uff1dx"}), ("--csv-raw", {"-x", "\uff1dx"})):
            seen = tool("dexasm-size", form, "a.dex", "=1.dex", at=at)
            head, *rows = csv.reader(io.StringIO(seen[1].encode("latin1").decode("utf8")))
            self.check_equal(f"A B {form}",
                             (seen, head, want, {row[-1] for row in rows}, sum(int(row[0]) for row in rows)),
                             ((0, ANY, ""), HEADS, Below({row[-1] for row in rows}), Has("x"),
                              len(get(at, "=1.dex")) - len(get(at, "a.dex"))))
        found = {row["name"] for row in told_of(at, "--by", "string", "a.dex", "=1.dex")["rows"]}
        want = {f'"{said}"' for said in strings[:-1]} | {f'"{"z" * 400}".. (5000 units)'}
        self.check_equal("A B, strings as a listing spells them", want, Below(found))

    def test_changes_page(self) -> None:
        """The tables of the page: 2,000 rows and one for the others, and each adds up to the difference."""
        old, new = assembled(HEAD), assembled(classes(*(f"Lc{n}/D;" for n in range(2100))))
        at = room("size changes page", {"a.dex": old, "b.dex": new})
        seen = tool("dexasm-size", "--html", "out.html", "a.dex", "b.dex", at=at)
        page = get(at, "out.html").decode()
        cells = r"<tr><td>([^<]*)</td>(?:<td>[^<]*</td>)*<td>([^<]*)</td></tr>"
        bodies = [re.findall(cells, one) for one in page.split("<tbody>")[1:]]
        changes = [[int(cell.replace(",", "")) for cell, _ in rows] for rows in bodies]
        # (2,100 classes or their packages and three rows of what is no class's, of which two didn't change; "L" is one
        # of
        # the strings)
        counts = [len(rows) for rows in bodies]
        self.check_equal("A B --html, many rows", (seen[0], counts), (0, [2003] * 3 + [2002]))
        self.check_equal("A B --html, its tables add up",
                         (len(changes),
                          [rows for rows in changes if not (sum(rows[:-1]) == rows[-1] == len(new) - len(old))]),
                         (4, []))
        self.check_equal("A B --html, what is left out is one row",
                         ([rows[-1][1] for rows in bodies], bodies[1][2000][1]), (["all"] * 4, Ends(" more)")))
        self.check_equal("A B --html, both sizes", page, Has(f"{len(old):,} bytes", f"{len(new):,} bytes: +"))

    def test_changes_ends(self) -> None:
        """One of two that is refused, no file, an archive, and an OUT that stays."""
        file = assembled(LISTING)
        at = room("size changes ends",
                  {"a.dex": file, "bad": file[:-1], "a.apk": b"PK\3\4" + bytes(300), "out.html": b"old"})
        before = seen_in(at)
        for words, status, says in (
            (("a.dex", "bad"), 1, "bad: dexasm: refused 4 FileSize"),
            (("bad", "a.dex"), 1, "bad: dexasm: refused 4 FileSize"),
            (("a.dex", f"{ESC}none"), 3, "\\x1bnone: No such file"),
            (("a.apk", "a.dex"), 3, "a.apk: no zip archive can be read"),
            (("a.dex", "a.apk"), 3, "a.apk: no zip archive can be read"),
            (("a.dex", "."), 3, ".: Is a directory"),
            (("--html", "none/out", "a.dex", "a.dex"), 3, "none/out: No such file"),
        ):
            seen = tool("dexasm-size", *(() if "--html" in words else ("--html", "out.html")), *words, at=at)
            self.check_equal(
                f"A B {words!r}", (seen, seen_in(at)), ((status, "", Line(f"dexasm-size: {says}")), before)
            )
        seen = tool("dexasm-size", "--html", "out.html", "a.dex", "a.dex", at=at, most=2000)
        self.check_equal("A B, no room for the page", (seen[0], seen_in(at)), (3, before))
        seen = shell("dexasm-size <(cat a.dex) <(cat a.dex)", at)
        self.check_equal("A B, pipes", seen, (0, Ends(" all\n"), ""))

    def test_long_names(self) -> None:
        """Methods that share a name of 60,000 characters: each row is short, and they still add up."""
        at, name = room("size long names"), b"Lx" + b"y" * 60000 + b";"
        many = b"".join(b"virtual m%d (%s%s)V 0x401\n" % (n, name, name) for n in range(300))
        puts(at, {"a.dex": assembled(HEAD), "b.dex": assembled(HEAD + b"class %s 1\n%send class\n" % (name, many))})
        seen = tool("dexasm-size", "--by", "method", "--json", "a.dex", "b.dex", at=at)
        told = json.loads(seen[1]) if seen[0] == 0 else {"rows": []}
        self.check_equal("A B, long names",
                         (len(told["rows"]), sum(row["change"] for row in told["rows"]), len(seen[1])),
                         (Above(300), told["change"], Below(300 * 3500)))
