"""Helpers whose output is more than a pipe or a limit takes, and over a command or a graphviz that answers what is no
answer: a line and a status, and no traceback. (test_contract.py has what all of them promise.)
"""
import os
import re
import shlex
import sys

from tests.matchers import ANY, SOME, Above, Has, That
from .archive_files import archive
from .browse_pages import CODE
from .support import HEAD, LISTING, TOP, HelperTest, Line, assembled, environment, has_pages, put, room, shell
from .shell_runs import each, fake, is_line


def prepared(name: str) -> str:
    """A room with two files."""
    at = room(name, {"a.dex": assembled(LISTING), "b.dex": assembled(HEAD + b"class LA; 0x1\nend class\n")})
    return at


class Streams(HelperTest):
    def test_unread(self) -> None:
        """More than a pipe holds, of which one byte is read: what answers by its status doesn't say that all is
        well."""
        many = b"".join(b"class L%s%d; 0x1\nend class\n" % (b"x" * 99, n) for n in range(3000))
        at = room("streams unread", {
            "a.dex": assembled(HEAD + many), "b.dex": assembled(HEAD),
            "told": b"dexasm: refused 1 TooShort at 7\n" * 9000,
            "a.apk": archive(("classes.dex", assembled(HEAD + many)))
        })
        shell("dexasm-split a.dex classes", at)
        wants = {"diff --names a.dex b.dex": 2, "apk list a.apk": 3, "explain <told": 0,
                 "graph --calls --from none a.dex": 2, "query classes a.dex": 0, "split --join classes": 0}
        if has_pages():
            wants["size --csv --by class a.dex --html page.html"] = 0
        texts = {f"dexasm-{words} | head -c 1; exit ${{PIPESTATUS[0]}}": want for words, want in wants.items()}
        for text, seen in each(texts, at):
            has_output = "none" not in text
            want = (texts[text], has_output, "" if has_output else ANY)
            self.check_equal(text, (seen[0], len(seen[1]), seen[2]), want)
        self.check_equal("dexasm-size, its page was written nevertheless",
                         os.path.exists(os.path.join(at, "page.html")), has_pages())

    def test_limit(self) -> None:
        """A file that may not grow that much is one that can't be written, for whatever is printed."""
        at = room("streams limit", {
            "a.dex": assembled(HEAD + b"".join(b"class L%s%d; 0x1\nend class\n" % (b"x" * 99, n) for n in range(300))),
            "told": b"x" * 9000 + b"\n"
        })
        way, python = (shlex.quote(one) for one in (os.path.join(TOP, "python/src"), sys.executable))
        for name, command in {
            "dexasm-query": "dexasm-query classes a.dex",
            "dexasm-explain": "dexasm-explain <told",
            "dexasm-close": "dexasm-close a.dex --output -",
            "dexasm": f"PYTHONPATH={way} {python} -B -m dexasm list a.dex",
        }.items():
            for text, seen in each([f"ulimit -f 4; {command} >out; echo $?; stat -c %s out"], at):
                self.check_equal(f"{text}, a limit on files", seen, (0, "3\n4096\n", Line(f"{name}: ")))

    def test_unexpected(self) -> None:
        """A command whose output can't be parsed is one line, and the status of what failed."""
        at = prepared("streams unexpected")
        listing = shlex.quote(put(at, "given", HEAD + b"class LA; 0x1\nvirtual m\nend class\n"))
        commands = {"unexpected output of `": fake(at, "nothing", "true"),
                    "ended with status 7": fake(at, "seven", "exit 7"),
                    "unexpected output": fake(at, "other", f"cat {listing}")}
        words = ["query calls a.dex", "lint a.dex", "size --by string a.dex b.dex", "merge a.dex --output merged"]
        words += ["graph --calls a.dex", "diff a.dex b.dex"] + ["browse a.dex --output pages"] * has_pages()
        for said, path in commands.items():
            for text, seen in each([f"dexasm-{one}" for one in words], at, DEXASM_COMMAND=path):
                # (what dexasm-browse says before)
                line = re.sub(r"^.*: it can't be stripped, so .*\n", "", seen[2])
                # (two classes of one text are the same without being read)
                is_same = text.startswith("dexasm-diff") and path.endswith("other")
                want = (0, "") if is_same else (2 if "diff" in text else 3, That(is_line) & Has(said))
                self.check_equal(f"{text} by {os.path.basename(path)}", (seen[0], line), want)

    def test_graphviz(self) -> None:
        """Over a graphviz that answers what is no picture."""
        at, svg = room("streams graphviz"), "http://www.w3.org/2000/svg"
        put(at, "a.dex", assembled(CODE))
        for number, given in enumerate(
            (b"", b"<svg", b"<svg>\xff</svg>", b"\x1b]0;x\a", b"<html/>", b"<svg/>",
             f'<!DOCTYPE svg [<!ENTITY a "x">]><svg xmlns="{svg}"><g>&b;</g></svg>'.encode(),
             f'<svg xmlns="{svg}">'.encode() + b"<g>" * 20000 + b"</g>" * 20000 + b"</svg>")
        ):
            put(at, f"{number}/given", given)
            fake(at, f"{number}/dot", f"cat >/dev/null; cat {number}/given")
            ways = os.pathsep.join([os.path.join(at, str(number)), environment()["PATH"]])
            for text, seen in each(["dexasm-graph --format svg a.dex 'Lp/q/Hello;->get(Z)I'"], at, PATH=ways):
                self.check_equal(f"{text}, by a graphviz that answers {given[:60]!r}", seen,
                                 (0, SOME, "") if number == 7 else (3, "", That(is_line)))
            words = f"dexasm-browse a.dex --output {number}/pages --graphs all; grep -rl 'No picture of' {number}/pages"
            for text, seen in each([words] * has_pages(), at, PATH=ways):
                self.check_equal(f"{text}, by a graphviz that answers {given[:60]!r}", seen,
                                 (0, f"{number}/pages/class/1.html\n", ""))

    def test_long_lines(self) -> None:
        """Lines without end, of which whatever grows with the square would take minutes."""
        at = prepared("streams long lines")
        for line in (
            "a", "refused 1 ", "refused 1 X at 1: ", "refused 1 X at 1", " ", "dexasm: refused 8 Checksum at "
        ):
            put(at, "long", (line * (1000000 // len(line)) + "\n").encode())
            status, out, said = shell("ulimit -t 8; dexasm-explain b.dex <long", at)
            self.check_equal(f"dexasm-explain, {line!r} again and again", (status, said, len(out)),
                             (0, "", Above(990000)))
