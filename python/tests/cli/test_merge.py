"""dexasm-merge: what was cut is joined to the same bytes, each class after what it needs; what has no order, stands
twice or fits no file is refused by name, and then nothing is written.
"""
import os
import re
import sys
from collections.abc import Iterator
from typing import Any

from tests.matchers import ANY, Begins, Below, Either, Ends, Has, Lacks
from ..cases import TEXTS
from .recipe_cases import TEXT
from .support import (
    ESC, HEAD, LISTING, NAMES, TOP, Ended, HelperTest, Line, assembled, classes, dexasm, get, put, puts, room, run,
    seen_in, shell, tool, traced
)

STRANGE = r"L\u2067a\u2060;"  # it turns what follows, and has what nobody sees
ORDER = "@ the classes of both are in a different order\n"


def below(name: str, *above: str) -> bytes:
    """A class that needs others: the first is its superclass, the rest are interfaces."""
    words = [b"super %s\n" % above[0].encode()] if above else []
    words += [b"implements %s\n" % one.encode() for one in above[1:]]
    return b"class %s 0x1\n%send class\n" % (name.encode("ascii"), b"".join(words))


def listing(*parts: bytes) -> bytes:
    return HEAD + b"".join(parts)


def order_of(file: bytes | None) -> list[str]:
    """The classes of a file, in their order."""
    return re.findall(r"^class (\S+)", dexasm("list", given=file or b"").decode(), re.M)


def merged(at: str, *texts: bytes, same: bool = False) -> tuple[bytes | None, Ended]:
    """What dexasm-merge makes of these listings as .dex files, and how it ended."""
    names = [f"{number}.dex" for number, _ in enumerate(texts)]
    for name, text in zip(names, texts):
        put(at, name, assembled(text))
    if os.path.exists(os.path.join(at, "out")):
        os.remove(os.path.join(at, "out"))
    seen = tool("dexasm-merge", *["--same"] * same, *names, "--output", "out", at=at)
    return get(at, "out") if os.path.exists(os.path.join(at, "out")) else None, seen


def wholes(at: str) -> Iterator[tuple[str, bytes]]:
    """Files to be cut, by what they are."""
    yield "as somebody wrote it", assembled(LISTING)
    yield "a recipe's", assembled(TEXT)
    yield "no class", assembled(HEAD)
    yield "many classes", assembled(classes(*(f"La{n % 7}/B{n};" for n in range(300))))
    yield "a chain", assembled(listing(*(below(f"Lc{n};", f"Lc{n - 1};") for n in range(200))))
    above = [("Lb;", "La;", "Li;", "Lj;"), ("Lc;", "Lb;", "Lj;"), ("Ld;", "La;"), ("Le;", "Ld;", "Lk;", "Li;")]
    yield "a tree", assembled(classes("La;", "Li;", "Lj;", "Lk;") + b"".join(below(*one) for one in above))
    long = b"class L%s; 0x1\nend class\n" % (b"x" * 60000)
    yield "names with escapes", assembled(HEAD + long + classes(STRANGE, r"L\ud83d\ude00;", "L-rf;")[len(HEAD) :])
    for shape, n in ("calls", 300), ("handlers", 40), ("shared_code", 60), ("prototypes", 40), ("overlapping_codes", 5):
        run([sys.executable, "-B", os.path.join(TOP, "bench/hostile/shapes.py"), shape, str(n), "shape"], at=at)
        yield f"the shape {shape}", get(at, "shape")


def many_types(name: bytes, count: int) -> bytes:
    """A class that needs so many types besides its own and V, as parameters of one method."""
    types = b"".join(b"L%s%d;" % (name, n) for n in range(count))
    return b"class L%s; 0x1\nvirtual m (%s)V 0x401\nend class\n" % (name, types)


# dexasm-merge where nothing is looked for in a listing, as in one of more than 8 MiB.
UNLOOKED = """
import os, runpy, sys
sys.path.insert(0, os.path.join(sys.argv[1], "python/src"))
from dexasm.cli import merger
merger.LARGEST_DIAGNOSED = 0
program = os.path.join(sys.argv.pop(1), "python/bin/dexasm-merge")
runpy.run_path(program, run_name="__main__")
"""


# An `if` and a goto to the end of 32,768 nops, and a goto/16 back.
FAR = TEXTS["test_merge FAR"].encode() % (b"nop\n" * 32768)


class Merge(HelperTest):
    def refused(self, what: str, says: str, *texts: bytes, at: str, same: bool = False) -> None:
        """These listings are refused in this line, and nothing is written."""
        out, seen = merged(at, *texts, same=same)
        self.check_equal(f"{what}", (seen, seen[2], out, [name for name in seen_in(at) if "part" in name]),
                         ((1, "", f"dexasm-merge: {says}\n"), Line("dexasm-merge: "), None, []))

    def cut(self, at: str, file: bytes) -> list[bytes]:
        """The texts of a file's classes, as dexasm-split cuts it."""
        put(at, "whole.dex", file)
        seen = tool("dexasm-split", "whole.dex", "classes", at=at)
        self.check_equal("dexasm-split, for dexasm-merge", seen, (0, "", ""))
        names = get(at, "classes", "order").decode("ascii").split()
        return [get(at, "classes", name) for name in names]

    def test_replace(self) -> None:
        """--replace: an edited class goes back to its place; a file that replaces nothing changes nothing."""
        at = room("merge replace")
        first, last = b"class LA; 0x1\nend class\n", b"class LC; 0x1\nend class\n"
        put(at, "a.dex", assembled(HEAD + first + b"class LB; 0x1\nend class\n" + last))
        edited = b"class LB; 0x11\nend class\n"
        puts(at, {
            "b.txt": HEAD + edited + b"class LD; 0x1\nend class\n", "none.txt": HEAD + b"class LE; 0x1\nend class\n"
        })
        before = get(at, "a.dex")
        for words, status in (("a.dex none.txt", 2), ("--same a.dex b.txt", 2), ("a.dex gone.txt", 3)):
            seen = tool("dexasm-merge", "--replace", *words.split(), "--output", "a.dex", at=at)
            with self.subTest(words):
                self.assertEqual((seen[0], seen[1], get(at, "a.dex")), (status, "", before))
        seen = tool("dexasm-merge", "--replace", "a.dex", "b.txt", "--output", "a.dex", at=at)
        self.assertEqual(seen, (0, "", ""))
        want = assembled(HEAD + first + edited + last + b"class LD; 0x1\nend class\n")
        self.assertEqual(get(at, "a.dex"), want)

    def test_joined(self) -> None:
        """In runs of classes, in their order, it is the bytes of the whole file's `strip`."""
        for number, (what, file) in enumerate(wholes(room("merge shapes"))):
            at, want = room(f"merge joined {number}"), dexasm("strip", given=file)
            texts = self.cut(at, file)
            third = len(texts) // 3 + 1
            runs = [texts[:third], texts[third : 2 * third], texts[2 * third :]]
            out, seen = merged(at, *(listing(*one) for one in runs))
            self.check_equal(f"{what}, in three files", (seen, out == want != b""), ((0, "", ""), True))
        seen = tool("dexasm-merge", *(f"{n}.dex" for n in range(3)), "-o", "-", at=at)
        self.check_equal("on standard output", (seen[0], seen[1].encode("latin1"), seen[2]), (0, want, ""))

    def test_another_order(self) -> None:
        """Where the cut kept no order the classes are the same, each after what it needs, and nothing else moves."""
        at = room("merge order")
        file = assembled(
            listing(*(below(f"Lc{n};", f"Lc{n - 1};") for n in range(60)), *classes("La;", "Lz;").split(HEAD))
        )
        texts = self.cut(at, file)
        for what, parts in (
            ("every other class", (texts[::2], texts[1::2])),
            ("the other way round", (texts[1::2], texts[::2])),
            ("the last first", (texts[30:], texts[:30])),
            ("each alone, the last first", [[one] for one in reversed(texts)]),
        ):
            out, seen = merged(at, *(listing(*one) for one in parts))
            differs = tool("dexasm-diff", "--names", "whole.dex", "out", at=at)
            self.check_equal(f"{what}", (seen, differs[1], dexasm("check", given=out or b"")),
                             ((0, "", ""), (ORDER if differs[0] else ""), b"ok\n"))
            again, _ = merged(at, *(listing(*one) for one in parts))
            self.check_equal(f"{what}, the same again", out, again)

    def test_order(self) -> None:
        """The order by hand: as the classes are given, but what a class needs before it, superclass first."""
        at = room("merge order by hand")
        want: str | list[str]
        for texts, want in (
            ((below("LA;", "LB;"), below("LC;") + below("LB;")), "LB; LA; LC;"),
            ((below("LA;", "LX;", "LI;", "LJ;"), below("LJ;") + below("LI;", "LJ;") + below("LK;")), "LJ; LI; LA; LK;"),
            # (each file needs the other one)
            ((below("LA;", "LB;") + below("LC;"), below("LB;", "LC;")), "LC; LB; LA;"),
            ((below("LB;", "LC;"), below("LA;", "LB;") + below("LC;")), "LC; LB; LA;"),
            ((below("LA;", "LB;"), below("LB;", "LC;"), below("LC;", "LD;"), below("LD;")), "LD; LC; LB; LA;"),
            # (one name of the superclass and of two interfaces isn't asked for twice)
            ((below("LA;", "LB;", "LB;"), below("LB;")), "LB; LA;"),
            ((below("LD;"), below("LA;"), below("LC;")), "LD; LA; LC;"),
            ((b"", below("LA;"), b""), "LA;"),
            ((b"", b""), ""),
        ):
            out, seen = merged(at, *map(listing, texts))
            self.check_equal(f"in order: {want}", (seen, order_of(out)), ((0, "", ""), want.split()))
        count = 8000
        chain = [below(f"Lc{n};", f"Lc{n + 1};") for n in range(count)]
        out, seen = merged(at, listing(*chain[::2]), listing(*chain[1::2]))
        want = [f"Lc{n};" for n in reversed(range(count))]
        self.check_equal("a long chain over two files", (seen, order_of(out)), ((0, "", ""), want))

    def test_twice(self) -> None:
        """A class of two files: by name, or with --same once where it is the same."""
        at = room("merge twice")
        one, other = below("LA;"), b"class LA; 0x11\nend class\n"
        self.refused("a class of two files", "0.dex and 1.dex both define LA;", listing(one),
                     listing(below("LB;"), one), at=at)
        three = listing(one), listing(one), listing(one)
        self.refused("a class of three files", "0.dex and 1.dex both define LA;", *three, at=at)
        out, seen = merged(at, *three, same=True)
        self.check_equal("--same, a class of three files", (seen, out), ((0, "", ""), assembled(three[0])))
        says = "0.dex and 2.dex both define LA;, and differently"
        texts = listing(one), listing(one), listing(other)
        self.refused("--same, where the third is another one", says, *texts, at=at, same=True)
        out, seen = merged(at, listing(below("LB;"), one), listing(one, below("LC;")), same=True)
        self.check_equal("--same, its place is the first", order_of(out or b""), ["LB;", "LA;", "LC;"])
        says = f"0.dex and 1.dex both define {STRANGE}"
        self.refused("a name that turns what follows", says, listing(below(STRANGE)), listing(below(STRANGE)), at=at)
        long = "L" + "x" * 60000 + ";"
        says = f"0.dex and 1.dex both define {long[:160]} .."
        self.refused("a long name", says, listing(below(long)), listing(below(long)), at=at)
        before = seen_in(at)
        for words in ("0.dex", "0.dex"), ("0.dex", "./0.dex"):
            seen = tool("dexasm-merge", *words, "--output", "out", at=at)
            says = f"dexasm-merge: {words[0]} and {words[1]} both define L"
            self.check_equal(words, seen, (1, "", Line(says)))
        seen = tool("dexasm-merge", "--same", "0.dex", "./0.dex", "--output", "-", at=at)
        self.check_equal("--same, a file twice", (seen, seen[1].encode("latin1"), seen_in(at)),
                         ((0, ANY, ""), get(at, "0.dex"), before))

    def test_cycles(self) -> None:
        """Superclasses and interfaces that go round over several files: by name."""
        at, says = room("merge cycles"), "a cycle of superclasses or interfaces: "
        a, b = listing(below("LA;", "LB;")), listing(below("LB;", "LA;"))
        self.refused("a cycle", f"{says}LA; in 0.dex, LB; in 1.dex, and LA; again", a, b, at=at)
        self.refused("a cycle, the other way", f"{says}LB; in 0.dex, LA; in 1.dex, and LB; again", b, a, at=at)
        interfaces = listing(below("LA;", "LX;", "LI;")), listing(below("LX;"), below("LI;", "LY;", "LA;"))
        self.refused("a cycle of interfaces", f"{says}LA; in 0.dex, LI; in 1.dex, and LA; again", *interfaces, at=at)
        # (LO; is none of it, though it leads there)
        texts = listing(below("LO;", "LA;")), a, listing(below("LB;", "LC;")), listing(below("LC;", "LA;"))
        names = "LA; in 1.dex, LB; in 2.dex, LC; in 3.dex, and LA; again"
        self.refused("a cycle that another class needs", says + names, *texts, at=at)
        ring = [below(f"Lc{n};", f"Lc{(n + 1) % 4000};") for n in range(4000)]
        names = ", ".join(f"Lc{n}; in {n % 2}.dex" for n in range(4))
        says += f"{names}, .. (4000 classes), and Lc0; again"
        self.refused("a long cycle", says, listing(*ring[::2]), listing(*ring[1::2]), at=at)
        says = f"a cycle of superclasses or interfaces: {STRANGE} in 0.dex, LB; in 1.dex, and {STRANGE} again"
        self.refused("a cycle of a strange name", says, listing(below(STRANGE, "LB;")), listing(below("LB;", STRANGE)),
                     at=at)

    def test_limits(self) -> None:
        """As many types as a file can have, over two files, and one more; a string that no instruction reaches."""
        at = room("merge limits")
        out, seen = merged(at, listing(many_types(b"a", 32766)), listing(many_types(b"b", 32766)))
        types = int.from_bytes(out[64:68], "little") if out else 0
        self.check_equal("65,535 types", (seen, types), ((0, "", ""), 65535))
        out, seen = merged(at, listing(many_types(b"a", 32766)), listing(many_types(b"b", 32767)))
        says = "dexasm-merge: dexasm: refused 80 TooManyTypes at 65536: Lb;->m(Lb0;Lb1;"
        self.check_equal("65,536 types", (seen, len(seen[2]), out), (
            (1, "",
             Line(says) & Ends("; is one more than 65535 types: the program has to be split\n") & Has(" in 1.dex: ")),
            Below(500), None
        ))
        strings = b" ".join(b'string "a%05d"' % n for n in range(65500))
        values = b"class La; 0x1\nstatic s [Ljava/lang/String; 0x9 = array { %s }\nend class\n" % strings
        code = b"".join(b'const-string v0 "b%03d"\n' % n for n in range(100))
        code = b"class Lb; 0x1\ndirect m ()V 0x9\ncode 1 0 0\n%sreturn-void\nend code\nend class\n" % code
        out, seen = merged(at, listing(values), listing(code))
        says = "dexasm-merge: dexasm: refused 82 StringOutOfReach at 1: Lb; in 1.dex: a string "
        self.check_equal("a string out of reach", (seen, out),
                         ((1, "", Line(says) & Ends("const-string/jumbo reaches each string\n")), None))
        seen = run([sys.executable, "-B", "-c", UNLOOKED, TOP, "0.dex", "1.dex", "--output", "out"], at=at)
        says = "dexasm-merge: dexasm: refused 82 StringOutOfReach at 1: Lb; in 1.dex: "
        says += "`const-string/jumbo` reaches each string\n"
        self.check_equal("a string out of reach that isn't looked for", seen, (1, "", says))

    def test_fit(self) -> None:
        """Strings and branches out of reach: what longer instructions help is made so, and nothing else."""
        at = room("merge fit")
        strings = b" ".join(b'string "a%05d"' % n for n in range(65500))
        put(at, "a.txt",
            listing(b"class La; 0x1\nstatic s [Ljava/lang/String; 0x9 = array { %s }\nend class\n" % strings))
        code = b"".join(b'const-string v0 "%c%03d"\n' % (b"Zb"[n % 2], n) for n in range(100))
        put(at, "b.txt",
            listing(b"class Lb; 0x1\ndirect m ()V 0x9\ncode 1 0 0\n%sreturn-void\nend code\nend class\n" % code))
        seen = tool("dexasm-merge", "--fit", "a.txt", "b.txt", "--output", "ab.dex", at=at)
        says = "dexasm-merge: made to fit: const-string by const-string/jumbo (50)"
        text = dexasm("list", given=get(at, "ab.dex")).decode()
        short = text.count('const-string v0 "Z'), text.count('const-string/jumbo v0 "b'), text.count("const-string")
        self.check_equal("--fit, far strings", seen, (0, "", Line(says)))
        self.check_equal("--fit, those that are near stay", short, (50, 50, 100))
        put(at, "far.txt", listing(FAR))
        seen = tool("dexasm-merge", "--fit", "far.txt", "--output", "far.dex", at=at)
        says = "dexasm-merge: made to fit: goto by goto/16 (1), goto/16 by goto/32 (2), if by if around goto/32 (1)"
        text = dexasm("list", given=get(at, "far.dex")).decode()
        self.check_equal("--fit, far targets", seen, (0, "", Line(says)))
        want = ["if-nez v0 :L2", "goto/32 :L32771", ":L2", "goto/32 :L32771", "nop"]
        self.check_equal("--fit, an if around a goto", text.split("\n")[5:10], want)
        seen = tool("dexasm-merge", "far.txt", "--output", "no.dex", at=at)
        self.check_equal("without --fit", (seen, os.path.exists(os.path.join(at, "no.dex"))),
                         ((1, ANY, Has("85 ")), False))
        seen = tool("dexasm-merge", "--fit", "b.txt", "--output", "b.dex", at=at)
        self.check_equal("--fit, what fits stays as it is", (seen, get(at, "b.dex")),
                         ((0, "", ""), assembled(get(at, "b.txt"))))

    def test_ends(self) -> None:
        """What is no .dex file, isn't there or can't be written: one line, and all stays as it is."""
        at = room("merge ends", {"a.dex": assembled(classes("LA;")), "b.dex": assembled(classes("LB;"))})
        put(at, "bad.dex", get(at, "a.dex")[:-1])
        puts(at, {
            "empty": b"", "a.apk": b"PK\3\4" + bytes(300), "text": b"class LA; 0x1\nend class\n", "other": b"a text\n",
            "cut.txt": classes("LC;")[:-4], "out": b"old", "fake": b"#!/bin/sh\nkill -11 $$\n"
        })
        os.chmod(os.path.join(at, "fake"), 0o755)
        before = seen_in(at)
        words: tuple[str, ...]
        for words, status, says in (
            (("a.dex", "bad.dex"), 1, "bad.dex: dexasm: refused 4 FileSize at 32"),
            (("empty", "a.dex"), 1, "empty: dexasm: refused 1 TooShort at 0"),
            (("a.dex", "text"), 1, "text: dexasm: refused 103 Order at 1"),
            (("a.dex", "other"), 1, "other: dexasm: refused 1 TooShort"),
            (("a.dex", "cut.txt"), 1, "cut.txt: dexasm: refused 10"),
            (("a.dex", "a.apk"), 3, "a.apk: no zip archive can be read"),
            (("a.dex", f"{ESC}none"), 3, "\\x1bnone: No such file"),
            (("a.dex", "."), 3, ".: Is a directory"),
        ):
            seen = tool("dexasm-merge", *words, "--output", "out", at=at)
            self.check_equal(f"{words!r}", (seen, seen_in(at)), ((status, "", Line(f"dexasm-merge: {says}")), before))
        for out, says in (("none/out", "none/out: No such file"), (".", ".: "), ("/dev/full", "/dev/full: No space")):
            seen = tool("dexasm-merge", "a.dex", "b.dex", "--output", out, at=at)
            self.check_equal(f"into {out}", (seen, seen_in(at)), ((3, "", Line(f"dexasm-merge: {says}")), before))
        seen = tool("dexasm-merge", "a.dex", "b.dex", "--output", "out", at=at, most=64)
        self.check_equal("no room", (seen, seen_in(at)), ((3, "", Line("dexasm-merge: out")), before))
        wrong = (), ("a.dex",), ("--output", "out"), ("a.dex", "--output"), (f"--{ESC}",)
        for words in (*wrong, ("-", "-", "--output", "out")):
            seen = tool("dexasm-merge", *words, at=at)
            self.check_equal(f"{words!r}", (seen, seen_in(at)),
                             ((2, "", Begins("usage: dexasm-merge ") & Lacks(ESC)), before))

    def test_out(self) -> None:
        """OUT may be one of the files, a link to one, a file of several names, a pipe; names stay names."""
        at = room("merge out")
        a, b, both = (assembled(classes(*names)) for names in (("LA;",), ("LB;",), ("LA;", "LB;")))
        for out in ("a.dex", "b.dex", "link", "other"):
            puts(at, {"a.dex": a, "b.dex": b})
            make: Any  # (mypy joins these two to what can't be called)
            for name, make in (("link", os.symlink), ("other", os.link)):
                if os.path.lexists(os.path.join(at, name)):
                    os.remove(os.path.join(at, name))
                make("b.dex" if name == "link" else os.path.join(at, "b.dex"), os.path.join(at, name))
            seen = tool("dexasm-merge", "a.dex", "b.dex", "--output", out, at=at)
            self.check_equal(f"into {out}, one of the files",
                             (seen, get(at, out), os.path.islink(os.path.join(at, "link")), set(seen_in(at))),
                             ((0, "", ""), both, True, {"a.dex", "b.dex", "link", "other"}))
        puts(at, {"a.dex": a, "b.dex": assembled(classes("LB;", "LA;"))})
        before = seen_in(at)
        seen = tool("dexasm-merge", "a.dex", "b.dex", "--output", "a.dex", at=at)
        self.check_equal("into one of the files, refused", (seen[0], seen_in(at)), (1, before))
        put(at, "b.dex", b)
        for name in NAMES:
            put(at, name, a)
            seen = tool("dexasm-merge", f"--output={name}", "--", "b.dex", name, at=at)
            self.check_equal(f"{name!r}", (seen, order_of(get(at, name))), ((0, "", ""), ["LB;", "LA;"]))
        seen = tool("dexasm-merge", "--output", "n", "--", f"{ESC}[31mred", "new\nline", at=at)
        says = "dexasm-merge: \\x1b[31mred and new\\x0aline both define LB;\n"
        self.check_equal("names that a terminal would obey", (seen, os.listdir(at)), ((1, "", says), Lacks("n")))
        self.check_equal("no name is run", os.listdir(at), Lacks("PWNED"))
        put(at, "both", both)
        text = "mkfifo p q; cat p >got & cat a.dex >q & dexasm-merge q b.dex --output p; echo $?; wait; cmp got both"
        seen = shell(text, at)
        self.check_equal("pipes as FILE and as OUT", seen, (0, "0\n", ""))
        seen = shell("dexasm-merge - b.dex -o - <a.dex | cmp - both; echo ${PIPESTATUS[*]}", at)
        self.check_equal("standard input and output", seen, (0, "0 0\n", ""))
        seen = shell("dexasm-merge a.dex b.dex -o - >&-; echo $?; dexasm-merge - b.dex -o n <&-; echo $?; ls n", at)
        self.check_equal("closed streams", (seen[1:], seen[2].count("dexasm-merge: ")),
                         (("3\n3\n", Lacks("Traceback")), 2))
        seen = shell("dexasm-merge a.dex b.dex -o n >&-; echo $?; ls n", at)
        self.check_equal("a closed standard output, and an OUT", seen[1], "3\n")
        seen = shell("( sleep 0.3; dexasm-merge a.dex b.dex -o - ) | true; echo ${PIPESTATUS[0]}", at)
        self.check_equal("nobody reads its answer", seen, (0, "3\n", ""))

    def test_listings(self) -> None:
        """Listings are merged as the files that they are; debug information and annotations aren't."""
        at = room("merge listings", {"a.txt": b"# mine\n" + classes("LA;"), "b.dex": assembled(classes("LB;"))})
        seen = tool("dexasm-merge", "a.txt", "b.dex", "--output", "out", at=at)
        self.check_equal("a listing", (seen, get(at, "out")), ((0, "", ""), assembled(classes("LA;", "LB;"))))
        seen = tool("dexasm-merge", "a.txt", "--output", "out", at=at)
        self.check_equal("one file", (seen, get(at, "out")), ((0, "", ""), assembled(classes("LA;"))))
        os.chmod(os.path.join(at, "out"), 0o640)
        seen = tool("dexasm-merge", "a.txt", "b.dex", "--output", "out", at=at)
        mode = os.stat(os.path.join(at, "out")).st_mode & 0o777
        self.check_equal("OUT keeps its mode", (seen, mode), ((0, "", ""), 0o640))

    def test_ended(self) -> None:
        """Ended by a signal, or refused by the system, at a call: OUT is old or new, and nothing is beside it."""
        self.need_trace()
        both = assembled(classes("LA;", "LB;"))
        for number, (call, fault) in enumerate(
            (call, fault) for call in ("write", "fsync", "fchmod", "rename")
            for fault in ("signal=SIGTERM", "error=EIO")
        ):
            at = room(f"merge ended {number}", {"a.dex": assembled(classes("LA;")), "b.dex": assembled(classes("LB;"))})
            got = traced("dexasm-merge", "a.dex", "b.dex", "--output", "a.dex", at=at, inject=[f"{call}:{fault}"])
            # (where the mode can't be given to a new file, OUT is overwritten)
            self.check_equal(f"{fault} at {call}", (get(at, "a.dex"), sorted(os.listdir(at)), got[0] == 0, got[2]),
                             (Either(assembled(classes("LA;")), both), ["a.dex", "b.dex"],
                              ((call, fault) == ("fchmod", "error=EIO")), Lacks("Traceback")))
