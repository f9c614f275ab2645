"""dexasm-rename: by word and by mapping, there and back, and what it refuses; names of strangers stay names."""
import os

from tests.matchers import Has, Lacks
from ..cases import TEXTS
from .support import ESC, HEAD, LISTING, NAMES, HelperTest, Line, assembled, dexasm, get, put, puts, room, shell, tool

PROGRAM = TEXTS["test_rename PROGRAM"].encode()
# What the listing is after `B` is `q.Base` and its members have other names: by hand, but for what stays.
RENAMED = (
    PROGRAM.replace(b"Lp/B;", b"Lq/Base;").replace(b"see p.B, Lq/Base; and", b"see p.B, Lp/B; and")
    .replace(b"Lp/A;->f:", b"Lp/A;->ff:").replace(b"static f ", b"static ff ")
    .replace(b"Lp/A;->m()V", b"Lp/A;->mm()V").replace(b"Lp/I;->m()V", b"Lp/I;->mm()V")
    .replace(b"virtual m ", b"virtual mm ", 2)
)  # fmt: skip
MAPPING = """# compiler: R8
com.x.Iface -> p.I:
    void run() -> m
com.x.Base$Inner -> p.B:
# {"id":"sourceFile","fileName":"Base.java"}
    com.x.Base$Inner self -> f
    1:3:void com.x.Gone.inlined(int[],java.lang.String):7:9 -> m
    1:3:void run():11 -> m
    4:4:void <init>():5:5 -> <init>
    int gone(int[]) -> z
com.x.Main -> p.A:
    1:9:com.x.Base$Inner[] take(com.x.Base$Inner):3:11 -> k
com.x.NotThere -> p.Z:
    int n -> a
"""
BACK = ("q.Base=p.B", "p.I->mm=m", "q.Base->ff=f")
WORDS = ("p.B=q.Base", "Lp/I;->m=mm", "Lp/B;->f:Lp/B;=ff")


class Rename(HelperTest):
    def listed(self, at: str, name: str) -> bytes:
        return dexasm("list", given=get(at, name))

    def test_words(self) -> None:
        """Classes and members by word; back again it is the same to the byte."""
        at = room("rename words", {"a.dex": assembled(HEAD + PROGRAM)})
        seen = tool("dexasm-rename", "a.dex", *WORDS, "--output", "b.dex", at=at)
        text = "dexasm-rename: a text has an old name, and stays: see p.B, Lp/B; and xp.B"
        self.check_equal("dexasm-rename", seen, (0, "", Line(text)))
        self.check_equal("what it makes", get(at, "b.dex"), assembled(HEAD + RENAMED))
        seen = tool("dexasm-rename", "b.dex", *BACK, "--output", "b.dex", at=at)
        self.check_equal("back", (seen[0], get(at, "b.dex")), (0, get(at, "a.dex")))
        seen = tool("dexasm-rename", "a.dex", "p.*=r.s.*", "--output", "c.dex", at=at)
        want = self.listed(at, "a.dex").replace(b"Lp/", b"Lr/s/").replace(b"p.B, Lr/s/B;", b"p.B, Lp/B;")
        self.check_equal("a package", (seen[0], self.listed(at, "c.dex")), (0, want))

    def test_mapping(self) -> None:
        """What R8 did is taken back, and done again."""
        at = room("rename mapping", {"a.dex": assembled(HEAD + PROGRAM), "map.txt": MAPPING.encode()})
        seen = tool("dexasm-rename", "--mapping", "map.txt", "a.dex", "--output", "b.dex", at=at)
        text = self.listed(at, "b.dex").decode()
        for part in (
            "class Lcom/x/Iface;", "virtual run ()V", "class Lcom/x/Base$Inner;", "static self Lcom/x/Base$Inner;",
            "virtual take (Lcom/x/Base$Inner;)[Lcom/x/Base$Inner;", "Lcom/x/Main;->run()V", "direct <init> ()V"
        ):
            self.check_equal(f"--mapping: {part}", text, Has(part))
        self.check_equal("--mapping, what isn't there", seen[2],
                         Has("map.txt: 3 of its classes and members aren't there"))
        seen = tool("dexasm-rename", "--mapping", "map.txt", "--forward", "b.dex", "--output", "c.dex", at=at)
        self.check_equal("--mapping --forward", (seen[0], get(at, "c.dex")), (0, get(at, "a.dex")))
        for line in (f"{ESC}[31m -> x", "    int n -> a -> b", "p.A ->", "    int n"):
            put(at, "bad.txt", f"p.A -> p.B:\n{line}\n".encode())
            seen = tool("dexasm-rename", "--mapping", "bad.txt", "a.dex", "--output", "d.dex", at=at)
            self.check_equal(f"a mapping with {line!a}", (seen, os.path.exists(os.path.join(at, "d.dex"))),
                             ((3, "", Line("dexasm-rename: bad.txt:2: no line of a mapping: ")), False))

    def test_refused(self) -> None:
        """What would be two things' name at once, what isn't there, and what has no other name: OUT stays as it was."""
        at = room("rename refused")
        same = b"virtual same (Lp/B;)[Lp/B; 0x401\nvirtual k "
        more = PROGRAM.replace(b"static f ", b"static g Lp/B; 0x9\nstatic f ").replace(b"virtual k ", same)
        puts(at, {"a.dex": assembled(HEAD + more), "o.dex": b"old"})
        for words, status, says in (
            (("p.B=p.A",), 1, "Lp/B; can't be Lp/A;"), (("p.B=x.Y", "p.A=x.Y"), 1, "Lp/A; can't be Lx/Y;"),
            (("p.B=out.Side",), 1, "Lp/B; can't be Lout/Side;, which the file names"),
            (("p.B=x.Y", "p.B=x.Z"), 1, "Lp/B; is to be Lx/Y; and Lx/Z;"),
            (("p.I->m=a", "p.B->m=b"), 1, "is to be a and b: they override one another"),
            (("p.A->k=same",), 1, "Lp/A;->k(Lp/B;)[Lp/B; can't be same(Lp/B;)[Lp/B;, as Lp/A;->same(Lp/B;)[Lp/B; is"),
            (("p.B->g=f",), 1, "can't be f:Lp/B;, as Lp/B;->f:Lp/B; is"), (("p.B->f=t",), 1, "as Lp/A;->t:Lp/B; is"),
            (("p.B-><init>=n",), 2, "a constructor keeps its name"),
            (("p.B->m=<init>",), 2, "a constructor keeps its name"),
            (("q.None=q.Other",), 2, "Lq/None; is no class of the file"),
            (("out.Side=x.Y",), 2, "is no class of the file"), (("p.B->none=n",), 2, "names no member of the file"),
            (("z.*=y.*",), 2, "has no class of that package"), (("p.*=y",), 2, "is no package"),
            (("p.B=a b",), 2, "is no name of a class"), (("p.B->m=a b",), 2, "is no name of a member"),
            (("p.B",), 2, "OLD=NEW"), (("--forward", "p.B=q.B"), 2, "--forward is for --mapping"), ((), 2, "OLD=NEW")
        ):
            seen = tool("dexasm-rename", "a.dex", *words, "--output", "o.dex", at=at)
            self.check_equal(f"{' '.join(words)}", (seen, get(at, "o.dex")), ((status, "", Has(says)), b"old"))

    def test_outside(self) -> None:
        """What a renamed method may override, from outside, is told by name."""
        at = room("rename outside", {"a.dex": assembled(HEAD + PROGRAM)})
        seen = tool("dexasm-rename", "a.dex", "out.C->m=n", "--output", "b.dex", at=at)
        says = "dexasm-rename: a renamed method's class inherits from Lout/Side;, which isn't there"
        self.check_equal("a class from outside", seen, (0, "", Line(says)))
        self.check_equal("no other method", self.listed(at, "b.dex").count(b"virtual m "), 2)

    def test_families(self) -> None:
        """Methods that meet in a class below are renamed together, from whichever of them it begins."""
        at = room("rename families")
        method = b"virtual m ()V 0x1\ncode 1 1 0\nreturn-void\nend code\n"
        begin = b"class L%s; 0x%x\nsuper L%s;\n"
        alone = begin % (b"D", 1, b"java/lang/Object") + method + b"end class\n"
        base = begin % (b"B", 1, b"java/lang/Object") + method + b"end class\n"
        face = begin % (b"I", 0x601, b"java/lang/Object") + b"virtual m ()V 0x401\nend class\n"
        heir = begin % (b"C", 1, b"B") + b"implements LI;\nend class\n"
        put(at, "a.dex", assembled(HEAD + alone + base + face + heir))
        for word in ("B->m=n", "I->m=n"):
            seen = tool("dexasm-rename", "a.dex", word, "--output", "b.dex", at=at)
            text = self.listed(at, "b.dex")
            with self.subTest(word):
                self.assertEqual((seen, text.count(b"virtual n "), text.count(b"virtual m ")), ((0, "", ""), 2, 1))

    def test_chain(self) -> None:
        """Time grows with the file, not with its square: a chain of classes, each with methods of its own."""
        at, classes, lines = room("rename chain"), [], []
        for number in range(4000):
            above = f"LC{number - 1:06};" if number else "Ljava/lang/Object;"
            bodies = "".join(f"virtual m{one} ()V 0x1\ncode 1 1 0\nreturn-void\nend code\n" for one in (number, "x"))
            classes.append(f"class LC{number:06}; 0x1\nsuper {above}\n{bodies}end class\n")
            lines.append(f"C{number:06} -> C{number:06}:\n    void m{number}() -> n{number}\n    void mx() -> nx\n")
        puts(at, {"a.dex": assembled(HEAD + "".join(classes).encode()), "map.txt": "".join(lines).encode()})
        seen = shell("ulimit -t 15; dexasm-rename --mapping map.txt --forward a.dex --output b.dex", at)
        self.assertEqual(seen, (0, "", ""))
        self.assertEqual(self.listed(at, "b.dex").count(b"virtual n"), 8000)

    def test_strangers(self) -> None:
        """Files of evil names, a file that is refused, a listing, a pipe; nothing is obeyed."""
        at, file = room("rename strangers"), assembled(LISTING)
        for name in NAMES:
            put(at, f"{name}.dex", file)
            seen = tool("dexasm-rename", f"./{name}.dex", "LA;=Lx;", "--output", f"./{name}.dex", at=at)
            self.check_equal(f"{name!a}", (seen[0], self.listed(at, f"{name}.dex")), (0, Has(b"class Lx;")))
        put(at, "cut.dex", file[:-1])
        seen = tool("dexasm-rename", "cut.dex", "LA;=Lx;", "--output", "cut.dex", at=at)
        self.check_equal("a file that is refused", (seen, get(at, "cut.dex")),
                         ((1, "", Line("dexasm-rename: cut.dex: dexasm: refused ")), file[:-1]))
        put(at, "a.txt", LISTING)
        seen = tool("dexasm-rename", "a.txt", f"LA;=L{ESC};", "--output", "no.dex", at=at)
        self.check_equal("a name that is none", seen, (2, "", Lacks(ESC)))
        seen = tool("dexasm-rename", "a.txt", r"LA;=L\u00e9/\ud83d\ude00;", "--output", "e.dex", at=at)
        self.check_equal("other letters", self.listed(at, "e.dex"), Has(b"class L\\u00e9/\\ud83d\\ude00;"))
