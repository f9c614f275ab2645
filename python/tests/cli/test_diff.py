"""dexasm-diff: what differs is told by class and member, and two files that are refused are never the same."""
import hashlib
import json
from typing import Any

from tests.matchers import Begins, Has, Lacks
from .shell_runs import fake
from .support import ESC, HEAD, LISTING, NAMES, Ended, HelperTest, Line, assembled, on_terminal, put, puts, room, tool


# A method of 73 labels, and the same with one instruction more at its begin.
LABELS = "".join(f":L{2 * n}\nif-eqz v0 :L{(14 * n + 2) % 144}\nnop\n" for n in range(73))
METHOD = b"class LA; 0x1\ndirect m ()V 0x9\ncode 1 0 0\n%sreturn-void\nend code\nend class\n"


def diff(at: str, *words: str, **options: Any) -> Ended:
    return tool("dexasm-diff", *words, at=at, **options)


class Diff(HelperTest):
    def test_json(self) -> None:
        """--json: a line for each class and member that differs, and one for the order."""
        at = room("diff json")
        old = b"class LA; 0x1\nend class\nclass LB; 0x1\nstatic f I 0x9\nend class\n"
        new = b"class LB; 0x11\nstatic g I 0x9\nend class\nclass LA; 0x1\nend class\nclass LC; 0x1\nend class\n"
        puts(at, {"a.txt": HEAD + old, "b.txt": HEAD + new})
        want: list[dict[str, object]] = [
            {"class": "LB;", "member": None, "change": "changed", "lines": ["-class LB; 0x1", "+class LB; 0x11"]},
            {"class": "LB;", "member": "f:I", "change": "removed", "lines": ["-static f I 0x9"]},
            {"class": "LB;", "member": "g:I", "change": "added", "lines": ["+static g I 0x9"]},
            {"class": "LC;", "member": None, "change": "added", "lines": ["+class LC; 0x1", "+end class"]},
            {"class": None, "member": None, "change": "order", "lines": []},
        ]
        status, out, said = tool("dexasm-diff", "--json", "a.txt", "b.txt", at=at)
        self.assertEqual((status, said, [json.loads(line) for line in out.splitlines()]), (1, "", want))
        status, out, said = tool("dexasm-diff", "--json", "--names", "a.txt", "b.txt", at=at)
        for one in want:
            del one["lines"]
        self.assertEqual((status, said, [json.loads(line) for line in out.splitlines()]), (1, "", want))
        self.assertEqual(tool("dexasm-diff", "--json", "a.txt", "a.txt", at=at), (0, "", ""))

    def test_programs(self) -> None:
        at = room("diff", {"a.dex": assembled(LISTING), "a.txt": LISTING})
        self.check_equal("the same", diff(at, "a.dex", "a.txt"), (0, "", ""))
        put(
            at, "b.txt",
            LISTING.replace(b'x \\"y', b':L1 \\"y').replace(
                b"class Lp/q/B; 0x1\nend class\n", b"class LNew; 0x1\nend class\n"
            ).replace(b"virtual n (I)V", b"virtual n (J)V")
        )
        status, out, _ = diff(at, "a.dex", "b.txt")
        wants = (
            "--- a.dex\n+++ b.txt\n@@ LA;->m()V in both @@\n",
            '\n-const-string v0 "x \\"y\\" z"\n+const-string v0 ":L1 \\"y\\" z"\n',
            "@@ La;->n(I)V only in the first @@\n-virtual n (I)V 0x1\n",
            "@@ La;->n(J)V only in the second @@\n+virtual n (J)V 0x1\n",
            "@@ Lp/q/B; only in the first @@\n-class Lp/q/B; 0x1\n-end class\n",
            "@@ LNew; only in the second @@\n",
        )
        self.check_equal("members and classes", (status, [want for want in wants if want not in out]), (1, []))
        names = "! LA;->m()V\n- La;->n(I)V\n+ La;->n(J)V\n- Lp/q/B;\n+ LNew;\n"
        self.check_equal("--names", diff(at, "--names", "a.dex", "b.txt"), (1, names, ""))

    def test_labels(self) -> None:
        """Labels are numbered one after the other; a text stays as it is."""
        out: Ended | str
        at = room("diff labels", {
            "labels": HEAD + METHOD % LABELS.encode(), "nop": HEAD + METHOD % (b"nop\n" + LABELS.encode())
        })
        status, out, said = diff(at, "labels", "nop")
        changed = [line for line in out.splitlines()[3:] if line[0] in "+-"]
        self.check_equal("one instruction more is one line more", (status, said, changed), (1, "", ["+nop"]))
        many = [HEAD + METHOD % (b"nop\n" * n + b"const/4 v0 1\n" * n + b"nop\n" * n) for n in (9000, 9001)]
        puts(at, {"long": many[0], "longer": many[1]})
        self.check_equal("a long code", diff(at, "long", "longer")[0], 1)
        text = HEAD + METHOD % b'const-string v0 ":L7 \\u001b[31m"\n:L7\nnop\ngoto :L7\n'
        put(at, "text", text)
        out = tool("dexasm-diff", "--textconv", "text", at=at)
        self.check_equal("a text that looks like a label", out[:2], (0, Begins("dexasm: refused 2 Magic")))
        put(at, "text.dex", assembled(text))
        out = tool("dexasm-diff", "--textconv", "text.dex", at=at)[1]
        self.check_equal("its labels", out, Has('":L7 \\u001b[31m"\n:L0\nnop\ngoto :L0\n'))

    def test_order(self) -> None:
        """Another order, other flags, colours."""
        at = room("diff order", {
            "order": HEAD + b"class LB; 0x1\nend class\nclass LA; 0x1\nend class\n",
            "other": HEAD + b"class LA; 0x1\nend class\nclass LB; 0x1\nend class\n",
            "flags": HEAD + b"class LB; 0x11\nend class\nclass LA; 0x1\nend class\n",
        })
        seen = diff(at, "order", "other")
        self.check_equal("another order", seen,
                         (1, "--- order\n+++ other\n@ the classes of both are in a different order\n", ""))
        seen = diff(at, "order", "flags")
        self.check_equal("flags", seen[:2], (1, Has("@@ LB; in both @@\n-class LB; 0x1\n+class LB; 0x11\n")))
        colors = diff(at, "--color", "always", "order", "flags")[1]
        self.check_equal("colours", (colors, diff(at, "order", "flags")[1]),
                         (Has(f"{ESC}[31m-class LB; 0x1{ESC}[0m\n"), Lacks(ESC)))
        for env, want in ((dict[str, str](), Has(f"{ESC}[31m-class")), ({"NO_COLOR": "1"}, Lacks(ESC))):
            shown = on_terminal(at, "dexasm-diff", "order", "flags", **env)
            self.check_equal(f"colours on a terminal, {env}", shown, (1, want))

    def test_trouble(self) -> None:
        """Whatever goes wrong is 2, and never 'the same'."""
        file = assembled(LISTING)
        at = room("diff trouble", {
            "a.dex": file, "bad1": file[:-1], "bad2": file[:-1], "a.apk": b"PK\3\4" + bytes(300),
            "bad.txt": LISTING + b"foo\n"
        })
        for words in (
            ("bad1", "bad2"), ("bad1", "bad1"), ("a.dex", "bad1"), ("bad1", "a.dex"), ("none", "none"),
            ("a.dex", f"{ESC}[31m"), ("a.apk", "a.apk"), ("bad.txt", "bad.txt"), ("/dev/null", "/dev/null"), (".", "."),
            ("--textconv", "none"), ("--textconv", "--", "-x")
        ):
            seen = diff(at, *words)
            self.check_equal(f"{words!r}", seen, (2, "", Line("dexasm-diff: ")))

    def test_usage(self) -> None:
        """Words that it doesn't take."""
        at = room("diff usage", {"a.dex": assembled(LISTING)})
        for words in (
            (), ("a.dex",), ("a.dex", "a.dex", "a.dex"), ("--color", "a.dex", "a.dex"),
            ("--textconv", "a.dex", "a.dex"), (f"--{ESC}", "a.dex", "a.dex")
        ):
            seen = diff(at, *words)
            self.check_equal(f"{words!r}", seen, (2, "", Begins("usage: dexasm-diff ") & Lacks(ESC)))

    def test_texts(self) -> None:
        """--textconv where dexasm isn't there or is killed, and of a refused file."""
        file = assembled(LISTING)
        at = room("diff commands", {"a.dex": file, "bad1": file[:-1]})
        for command in ("/none", fake(at, "fake", "kill -9 $$")):
            seen = diff(at, "--textconv", "a.dex", DEXASM_COMMAND=command)
            self.check_equal(f"by {command}", seen, (2, "", Line("dexasm-diff: ")))
        seen = diff(at, "--textconv", "bad1")
        self.check_equal("the text of a refused file", seen,
                         (0, f"dexasm: refused 4 FileSize at 32\n{hashlib.sha256(file[:-1]).hexdigest()}\n", ""))

    def test_names(self) -> None:
        """Names of files that a terminal or a parser of words could take for something else."""
        at, file = room("diff names"), assembled(LISTING)
        put(at, "a.dex", file)
        for name in NAMES:
            put(at, name, file)
            seen = diff(at, "--", name, "a.dex")
            self.check_equal(f"a file of the name {name!r}", seen, (0, "", ""))
        put(at, f"b{ESC}[31m", LISTING.replace(b"0x9\n", b"0xa\n"))
        seen = diff(at, "a.dex", f"b{ESC}[31m")
        self.check_equal("a name of escapes", seen[:2], (1, Begins("--- a.dex\n+++ b\\x1b[31m\n") & Lacks(ESC)))
