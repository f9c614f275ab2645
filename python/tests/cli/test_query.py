"""dexasm-query: its answers, with no library anywhere, and one line where there is none."""
import json
import os
import re
import shutil
from typing import Any

from dexasm.flags import CLASS_FLAGS, FIELD_FLAGS, METHOD_FLAGS
from tests.matchers import Has, Lacks
from ..cases import TEXTS
from .support import ESC, HEAD, LISTING, TOP, HelperTest, Line, assembled, dexasm, get, put, room, run, tool

NAMED = TEXTS["test_query NAMED"].encode()


KINDS = TEXTS["test_query KINDS"].encode()
MENTIONS = TEXTS["test_query MENTIONS"].encode()
ADDRESSED = TEXTS["test_query ADDRESSED"].encode()


class Query(HelperTest):
    def test_insns(self) -> None:
        """find --insns: mnemonics, literals as they are and as high16 has them, initial values."""
        at = room("query insns")
        body = b"code 2 0 0\nconst/16 v0 8332\nconst/16 v1 8332\nconst/high16 v0 0x7f01\nconst/4 v0 -1\nreturn-void\n"
        text = b"class LA; 0x1\nstatic f I 0x9 = int 8332\ndirect m ()V 0x9\n" + body + b"end code\nend class\n"
        put(at, "a.txt", HEAD + text)
        by, high = "LA;->m()V", {"by": "LA;->m()V", "how": "const/high16", "number": 0x7F01, "times": 1}
        same = {"by": by, "how": "const/16", "number": 8332, "times": 2}
        minus = {"by": by, "how": "const/4", "number": -1, "times": 1}
        for word, want in {
            "8332": [{"by": "LA;->f:I", "how": "value", "number": 8332, "times": 1}, same],
            "0x7f010000": [high],
            "-1": [minus],
            "0xffffffff": [minus],
            "const/h*": [high],
            "const/16": [same],
            "16": [],
            "nop": [],
        }.items():
            status, out, said = tool("dexasm-query", "find", "--insns", "a.txt", "--", word, at=at)
            with self.subTest(word):
                self.assertEqual((status, said, json.loads(out)), (0, "", {word: want}))
        seen = tool("dexasm-query", "classes", "--insns", "a.txt", at=at)
        self.assertEqual((seen[0], "--insns is of find alone" in seen[2]), (2, True))

    def test_answers(self) -> None:
        at = room("query", {"a.dex": assembled(LISTING), "a.txt": LISTING})
        for file in ("a.dex", "a.txt"):
            asked = {
                what: json.loads(tool("dexasm-query", what, file, at=at)[1]) for what in ("classes", "strings", "calls")
            }
            a = {"flags": 1, "access": "public", "superclass": "Ljava/lang/Object;", "interfaces": [],
                 "fields": ["s:Ljava/lang/String;", "i:I"], "methods": ["m()V"]}
            self.check_equal(f"classes of {file}", (asked["classes"]["LA;"], asked["classes"]["La;"]["interfaces"]),
                             (a, ["LI;"]))
            self.check_equal(f"strings of {file}", asked["strings"], {"a\u00e9": ["LA;"], 'x "y" z': ["LA;->m()V"]})
            self.check_equal(f"calls of {file}", asked["calls"], {"LA;->m()V": ["LA;->m()V"], "La;->n(I)V": []})
        one = tool("dexasm-query", "calls", given=assembled(LISTING), at=at)
        self.check_equal("standard input", (one, one[0]), (tool("dexasm-query", "calls", "a.dex", at=at), 0))

    def test_names(self) -> None:
        """Names and strings that aren't ASCII."""
        at = room("query names", {"names.dex": assembled(HEAD + NAMED)})
        found = tool("dexasm-query", "classes", "names.dex", at=at)[1]
        one = {"flags": 1, "access": "public", "superclass": "Lx\u00e9;", "interfaces": [],
               "fields": ["f\u00e9:L\u00e9;", "s:Ljava/lang/String;"], "methods": ["m\u00e9(L\u00e9;)V"]}
        self.check_equal(
            "names are decoded", (json.loads(found), found.isascii()), ({"L\u00e9/\U0001f600;": one}, True)
        )
        found = tool("dexasm-query", "calls", "names.dex", at=at)[1]
        self.check_equal("names in calls", json.loads(found), {
            "L\u00e9/\U0001f600;->m\u00e9(L\u00e9;)V": ["L\u00e9;->m\u00e9(L\u00e9;)V"]
        })
        found = tool("dexasm-query", "strings", "names.dex", at=at)[1]
        self.check_equal("strings", (json.loads(found), found.isascii()),
                         ({"\u00e9\U0001f600\ud800\0\u202e": ["L\u00e9/\U0001f600;"]}, True))

    def test_ends(self) -> None:
        file = assembled(LISTING)
        at = room("query ends", {"damaged.dex": file[:-1], "a.dex": file, "a.apk": b"PK\3\4" + bytes(300)})
        os.mkdir(os.path.join(at, "folder"))
        for what, status, begins in (
            ("damaged.dex", 1, "dexasm-query: damaged.dex: dexasm: refused 4 FileSize at 32"),
            ("none", 3, "dexasm-query: none: No such file"),
            ("a.apk", 3, "dexasm-query: a.apk: no zip archive can be read"),
            ("folder", 3, "dexasm-query: folder: Is a directory"),
            ("", 3, "dexasm-query: : No such file"),
            (f"{ESC}[31m\n", 3, "dexasm-query: \\x1b[31m\\x0a: No such"),
            ("\udcff", 3, "dexasm-query: \\xff: No such"),
        ):
            seen = tool("dexasm-query", "calls", what, at=at)
            self.check_equal(f"{what!r}", seen, (status, "", Line(begins)))

    def test_commands(self) -> None:
        """Where nothing is given, and where a library or the package isn't there."""
        at, file = room("query commands"), assembled(LISTING)
        put(at, "a.dex", file)
        seen = tool("dexasm-query", "calls", at=at)
        self.check_equal(
            "nothing", seen, (1, "", Line("dexasm-query: standard input: dexasm: refused 1 TooShort at 0"))
        )
        seen = tool("dexasm-query", "calls", "a.dex", at=at, DEXASM_LIBRARY="/none")
        self.check_equal(
            "a named library that isn't there", seen, (3, "", Line("dexasm-query: a.dex: dexasm: /none: "))
        )
        shutil.copytree(os.path.join(TOP, "python/bin"), os.path.join(at, "alone", "bin"))
        seen = run([os.path.join(at, "alone/bin/dexasm-query"), "calls", "a.dex"], at=at)
        self.check_equal("no module", seen, (3, "", Line("dexasm-query: the package dexasm isn't there")))

    def test_addresses(self) -> None:
        """Offsets and addresses as dexdump has them, where it is; those of a small method by hand."""
        at = room("query addresses", {"b.dex": dexasm("assemble", "--align", given=ADDRESSED)})
        status, out, said = tool("dexasm-query", "show", "--addresses", "b.dex", "LB;", at=at)
        ours = re.findall(r"^([0-9a-f]{8}) ([0-9a-f]{4}) ", out, re.M)
        self.check_equal("show --addresses", (status, len(ours)), (0, 16))
        self.check_equal("show --addresses, by hand", out, Has("\n00000146 0003 return-void\n"))
        rest = "".join(f"{line[14:]}\n" for line in out.splitlines())
        self.check_equal("show --addresses, its lines", rest, dexasm("list", given=get(at, "b.dex")).decode())
        told = tool("dexasm-info", "--hex", "b.dex", at=at)[1]
        hexed = re.findall(r"^([0-9a-f]{8})  [0-9a-f ]{23}  ([0-9a-f]{4}): ", told, re.M)
        self.check_equal("dexasm-info --hex has these addresses", hexed, ours)
        self.need("dexdump", "addresses are looked at by hand alone")
        told = run(["dexdump", "-d", "b.dex"], at=at)[1]
        theirs = re.findall(r"^([0-9a-f]{6}): [0-9a-f. ]+\|([0-9a-f]{4}): ", told, re.M)
        self.check_equal("show --addresses, as dexdump", [(f"00{one}", unit) for one, unit in theirs], ours)

    def test_show(self) -> None:
        """Each class, each member and all that a name can say is a listing that assembles, of just these."""
        file = dexasm("assemble", "--align", given=ADDRESSED)
        at = room("query show", {"b.dex": file, "names.dex": assembled(HEAD + NAMED)})
        for words, has in (
            (("b.dex", "LB;"), 3), (("b.dex", "LB;->t"), 1), (("b.dex", "LB;->t(I)I", "LB;->g"), 2),
            (("b.dex", "LB;->f:J"), 0), (("b.dex", "LB;->t", "LB;"), 3),
            (("names.dex", "L\\u00e9/\\ud83d\\ude00;->m\\u00e9"), 1), (("names.dex", "L\u00e9/\U0001f600;"), 1)
        ):
            status, out, said = tool("dexasm-query", "show", *words, at=at)
            again = dexasm("list", given=dexasm("assemble", given=out.encode("latin1"))).decode("latin1")
            self.check_equal(f"show {words}", (status, said, again, out.count("end code")), (0, "", out, has))
        for words in (
            ("b.dex", "LZ;"), ("b.dex", "LB;->z"), ("b.dex", f"{ESC}[31m\n"), ("b.dex", ""), ("b.dex", "\\u12")
        ):
            seen = tool("dexasm-query", "show", *words, at=at)
            self.check_equal(f"show {words}", seen, (2, "", Line("dexasm-query: ") & Has("names nothing of the file")))
        for words in (("show", "b.dex"), ("show",), ("tables", "b.dex", "none"), ("calls", "b.dex", "LB;"),
                      ("calls", "--addresses", "b.dex"), ("calls", "--lines", "b.dex")):  # fmt: skip
            seen = tool("dexasm-query", *words, at=at)
            self.check_equal(f"{words}, wrong words", seen, (2, "", Has("usage: ")))

    def test_show_by_words(self) -> None:
        """A dotted name, a bare name of a member, a pattern: what they find is what whole names find, in its order."""
        at = room("query show by words")
        text = HEAD + b"class Lcom/x/Y; 0x1\nstatic n I 0x9\ndirect get (I)V 0x109\nvirtual get ()V 0x101\nend class\n"
        text += b"class Lcom/x/Z; 0x1\nvirtual get ()V 0x101\nvirtual set ()V 0x101\nend class\nclass LY; 0x1\nend class\n"
        put(at, "a.dex", assembled(text))
        every, y, z = "Lcom/x/Y; Lcom/x/Z; LY;".split(), "Lcom/x/Y;->{}", "Lcom/x/Z;->{}"
        for words, whole in (
            (["com.x.Y"], [every[0]]),
            (["Y"], ["LY;"]),
            (["com/x/Y"], [every[0]]),
            (["get"], [y.format("get"), z.format("get()V")]),
            (["get(I)V"], [y.format("get(I)V")]),
            (["com.x.Y->get"], [y.format("get")]),
            (["com.x.*"], every[:2]),
            (["*"], every),
            (["L*/x/?;"], every[:2]),
            (["com.x.?->?et()V"], [y.format("get()V"), z.format("get()V"), z.format("set")]),
            (["*t()V", "n"], [y.format("get()V"), y.format("n:I"), z.format("get"), z.format("set")]),
            (["n", "com.x.Y"], [every[0]]),
        ):
            seen = tool("dexasm-query", "show", "a.dex", *words, at=at)
            want = tool("dexasm-query", "show", "a.dex", *whole, at=at)
            self.check_equal(f"show {words}", (seen, seen[0]), (want, 0))
        for word, near in (
            ("com.x.y", "near it: Lcom/x/Y;, LY;"), ("com.z.Z", "near it: Lcom/x/Z;"),
            ("Lcom/x/ZY;", "near it: Lcom/x/"), ("[", "a whole name is as"), ("*" * 40 + "!", "a whole name is as"),
            ("[a-z]*", "a whole name is as"), ("x" * 5000, "a whole name is as"), (f"{ESC}[31m*", "a whole name is as")
        ):
            seen = tool("dexasm-query", "show", "a.dex", word, at=at)
            self.check_equal(f"show {word[:60]}", seen, (2, "", Line("dexasm-query: ") & Has(near)))

    def found(self, at: str, *words: str) -> Any:
        status, out, said = tool("dexasm-query", *words, at=at)
        self.check_equal(f"{' '.join(words)[:60]!a}", (status, said), (0, ""))
        return json.loads(out) if status == 0 else {}

    def test_kinds(self) -> None:
        """What registers have stands above instructions, by hand, and the listing is still one."""
        at = room("query kinds", {"a.txt": HEAD + KINDS})
        seen = tool("dexasm-query", "show", "--kinds", "a.txt", "LHello;", at=at)
        told = [
            (note[2:], line) for note, line in zip(seen[1].split("\n"), seen[1].split("\n")[1:]) if note.startswith("#")
        ]
        want = [
            ("v1 this LHello;", "invoke-direct { v1 } Ljava/lang/Object;-><init>()V"),
            ("v1 LHello;", "new-instance v0 LHello;"), ("v0 new LHello;", "return-void"),
            ("v2 boolean, v3 long, v4 ..", "const/16 v0 41"), ("v0 constant 0 to 127", "if-eqz v2 :L6"),
            ("v0 64 bits, v1 ..", "add-long/2addr v0 v3"), ("v0 long, v1 ..", "const/4 v0 0"),
            ("v0 0", 'const-string v1 "x"'), ("v0 constant 0 to 127, v1 nothing", "return v0")
        ]
        self.check_equal("show --kinds", told, want)
        put(at, "b.txt", seen[1].encode())
        self.check_equal("show --kinds, assembled", assembled(get(at, "b.txt")), assembled(HEAD + KINDS))
        both = tool("dexasm-query", "show", "--kinds", "--addresses", "a.txt", "LHello;", at=at)[1].splitlines()
        plain = tool("dexasm-query", "show", "--addresses", "a.txt", "LHello;", at=at)[1].splitlines()
        self.check_equal("show --kinds --addresses", [one for one in both if one.strip()[:1] != "#"], plain)
        seen = tool("dexasm-query", "calls", "--kinds", "a.txt", at=at)
        self.check_equal("calls --kinds", seen, (2, "", Has("--kinds is of show alone")))

    def test_uses(self) -> None:
        """Who has a name or a text, how and how often, by the names of heirs too."""
        at = room("query uses", {"a.txt": HEAD + MENTIONS})
        get = [("LA;->get(Z)I", "LB;->m([LA;)V", "invoke-static", 2),
               ("LB;->get(Z)I", "LB;->m([LA;)V", "invoke-static", 1)]
        n = [("LA;->n:I", "LB;->m([LA;)V", "sput", 1)]
        named = [("LA;", "LB;", "superclass", 1), ("([LA;)V", "LB;->m([LA;)V", "prototype", 1), get[0], *n]
        for asked, want in (
            ("LA;->get", get), ("LA;->get(Z)I", get), ("A->g*", get), ("LB;->get(Z)I", get[1:]), ("LA;->n:I", n),
            ("A", named), ("LE?;", [("LEx;", "LB;->m([LA;)V", "catch", 1)]),
            ("LI;", [("LI;", "LB;", "interface", 1), ("LX;->toURL(LI;)V", "LB;->m([LA;)V", "invoke-static", 1)])
        ):
            rows = self.found(at, "uses", "a.txt", asked).get(asked, [])
            told = [(row["name"], row["by"], row["how"], row["times"]) for row in rows]
            self.check_equal(f"uses {asked}", told, want)
        text = [("a b", "LA;->s:Ljava/lang/String;", "value", 1), ("a b", "LB;->m([LA;)V", "const-string", 1)]
        for asked in ("a b", "a?b"):
            rows = self.found(at, "uses", "--strings", "a.txt", asked)[asked]
            self.check_equal(f"uses --strings {asked}", [tuple(row.values()) for row in rows], text)
        for asked in (f"L{ESC}[31m;", "LA;->none", "a b"):
            seen = tool("dexasm-query", "uses", "a.txt", asked, at=at)
            self.check_equal(f"uses {asked!a}", seen, (2, "", Line("dexasm-query: ") & Lacks(ESC)))

    def test_outside(self) -> None:
        """What a file names and hasn't, by class and member, with who names it."""
        at = room("query outside", {"a.txt": HEAD + MENTIONS})
        m = "LB;->m([LA;)V"
        want = {"LEx;": {"by": [m], "members": {}}, "LI;": {"by": ["LB;", m], "members": {}},
                "LX;": {"by": [m], "members": {"toURL(LI;)V": [m]}},
                "Ljava/lang/String;": {"by": ["LA;->s:Ljava/lang/String;"], "members": {}},
                "LB;": {"by": [], "members": {"hashCode()I": [m]}}}
        seen = self.found(at, "outside", "a.txt")
        self.check_equal("outside", seen, {name: want[name] for name in sorted(want)})
        self.check_equal("outside, in order", [*seen], sorted(want))

    def test_find(self) -> None:
        """Names and texts in which a text stands, or that a pattern is all of; no other letter of it means anything."""
        at = room("query find", {"a.txt": HEAD + MENTIONS, "n.txt": HEAD + NAMED})
        for asked, want in (
            (("get",), {"methods": ["LA;->get(Z)I", "LB;->get(Z)I"]}),
            (("*:I",), {"fields": ["LA;->n:I"]}),
            (("LE?;", "a b"), {"classes": ["LEx;"], "strings": ["a b"]}),
            (("[LA;",), {"methods": ["LB;->m([LA;)V"]}),
            (("LE.;", "none", "[A-Z]x"), {}),
        ):
            found = {kind: names for kind, names in self.found(at, "find", "a.txt", *asked).items() if names}
            self.check_equal(f"find {asked}", found, want)
        none = self.found(at, "find", "n.txt", "\U0001f600*")["classes"]
        turned = self.found(at, "find", "n.txt", "*\u202e")["strings"]
        self.check_equal("find, other letters", (none, turned), ([], ["\xe9\U0001f600\ud800\0\u202e"]))

    def test_tables(self) -> None:
        file = dexasm("assemble", "--align", given=ADDRESSED)
        at = room("query tables", {"b.dex": file, "bad.dex": file[:-1], "names.dex": assembled(HEAD + NAMED)})
        found = json.loads(tool("dexasm-query", "tables", "b.dex", at=at)[1])
        want = {
            "types": ["I", "J", "LB;", "Ljava/lang/Object;", "V"],
            "protos": ["(I)I", "()J", "()V"],
            "fields": ["LB;->f:J", "LB;->n:I"],
            "methods": ["LB;-><init>()V", "LB;->g()J", "LB;->t(I)I", "Ljava/lang/Object;-><init>()V"],
            "classes": [{"class": "LB;", "flags": 17, "access": "public final", "superclass": "Ljava/lang/Object;",
                         "interfaces": [], "source": None}],
        }  # fmt: skip
        self.check_equal("tables", (found | want, found["strings"]), (found, sorted(found["strings"])))
        seen = json.loads(tool("dexasm-query", "tables", "b.dex", "fields", at=at)[1])
        self.check_equal("tables, one", seen, {"fields": want["fields"]})
        strings = json.loads(tool("dexasm-query", "tables", "names.dex", "strings", at=at)[1])["strings"]
        self.check_equal("tables, a text of any characters", strings, Has("\u00e9\U0001f600\ud800\0\u202e"))
        seen = tool("dexasm-query", "tables", "--lines", "b.dex", "fields", "classes", at=at)
        lines = "fields 0 LB;->f:J\nfields 1 LB;->n:I\nclasses 0 LB; 0x11 public final super Ljava/lang/Object;\n"
        self.check_equal("tables --lines", seen, (0, lines, ""))
        status, out, said = tool("dexasm-query", "tables", "--lines", "names.dex", at=at)
        count = sum(len(one) for one in json.loads(tool("dexasm-query", "tables", "names.dex", at=at)[1]).values())
        self.check_equal("tables --lines, hostile names",
                         (status, said, out.count("\n"), out.replace("\n", "").isprintable(), out.isascii()),
                         (0, "", count, True, True))
        seen = tool("dexasm-query", "tables", "bad.dex", at=at)
        self.check_equal("tables, a refused file", seen,
                         (1, "", Line("dexasm-query: bad.dex: dexasm: refused 4 FileSize")))
        seen = json.loads(tool("dexasm-query", "fields", "b.dex", at=at)[1])
        want = {"LB;->n:I": {"reads": ["LB;->t(I)I"], "writes": ["LB;->t(I)I"]},
                "LB;->f:J": {"reads": ["LB;->g()J"], "writes": []}}
        self.check_equal("fields", seen, want)

    def test_flags(self) -> None:
        """The words for flags are those of the table in LISTING."""

        rows = re.findall(r"^\| `(0x\d+)` \|(.*)\|(.*)\|(.*)\|$", get(TOP, "docs/LISTING.md").decode(), re.M)
        tables = [
            {int(bit, 16): cell.strip() for bit, *cells in rows if (cell := cells[at]).strip()} for at in range(3)
        ]
        self.check_equal("the words for flags", (tables, len(rows)), ([CLASS_FLAGS, FIELD_FLAGS, METHOD_FLAGS], 17))
