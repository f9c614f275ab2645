"""dexasm-browse and dexasm-graph: nothing of a file is obeyed by a browser or as a path, the pages say what the listing
says, and FOLDER is whole or isn't there; what a real browser makes of them, where there is one.
"""
import json
import os
import re
import shutil
import signal
import subprocess
import sys
import time
from typing import Any

from tests.matchers import ANY, EMPTY, SOME, Above, Begins, Below, Either, Has, Lacks, Other
from ..output_files import ACL, acl_of, listed, mode_of
from .archive_files import FLAGS, SIZE, archive, changed
from .browse_pages import CODE, ONE, PARTS, SHOWN, STRINGS, TWO, BrowseTest, Page, browse, hostile
from .support import (
    ESC, HEAD, LIMIT, LISTING, NAMES, TOOLS, TOP, Ended, Line, assembled, calls_of, dexasm, environment, get, in_turn,
    on_terminal, path, put, room, run, seen_in, tool, traced
)


def is_index(script: str) -> bool:
    """Whether a script is one call with two lists, in which nothing ends a script."""
    called = re.fullmatch(r"dexasmIndex\((.*)\);\n", script)
    return (
        called is not None and "<" not in script and all(isinstance(one, list) for one in json.loads(f"[{called[1]}]"))
    )


def facts_of(page: bytes) -> dict[str, int]:
    """The names and the numbers of a page's facts."""
    rows = re.findall(r"<dt>(.*?)</dt><dd>(.*?)</dd>", page.decode("utf8"))
    return {name: int(said.replace(",", "")) for name, said in rows if re.fullmatch(r"[\d,]+", said)}


def users_of(page: bytes) -> dict[int, int]:
    """Of each member of a class, by its place, how many use it."""
    parts = re.split(r'<h3 id="(\d+)">', page.decode("utf8"))
    counts = (
        (int(at), re.search(r"<summary>Used by ([\d,]+) member", part)) for at, part in zip(parts[1::2], parts[2::2])
    )
    return {at: int(found[1].replace(",", "")) if found else 0 for at, found in counts}


def inherited(classes: dict[str, Any], method: str) -> str:
    """The method that a call leads to: superclasses first, then interfaces."""
    owner, _, name = method.partition("->")
    above = [owner] if owner in classes else []
    while above and classes[above[-1]]["superclass"] in classes:
        above.append(classes[above[-1]]["superclass"])
    for one in above:
        above += [other for other in classes[one]["interfaces"] if other in classes and other not in above]
    return next((f"{one}->{name}" for one in above if name in classes[one]["methods"]), method)


# ---- where they are put


# What ends in one line, and its status.
ENDS = (
    (("bad", "--output", "new"), 1), (("none", "--output", "new"), 3), ((".", "--output", "new"), 3),
    (("a.apk", "--output", "new"), 3), (("a.dex", "--output", "file"), 3), (("a.dex", "--output", "mine"), 3),
    (("a.dex", "--output", "alike"), 3), (("a.dex", "--output", "holed"), 3), (("a.dex", "--output", "link"), 3),
    (("a.dex", "--output", "."), 3), (("a.dex", "--output", "no/such"), 3), (("a.dex", "--output", f"{ESC}[31m/x"), 3),
    (("a.dex", "--output", "x" * 256), 3), (("a.dex", "--output", ""), 3),
    (("a.dex", "--output", "new", "--graphs", "LA;->none"), 2)
)


def ended(at: str, number: int) -> tuple[list[str], int, bytes]:
    """A run that is ended when its first page stands: the folders beside, its status, and what it told."""
    words = [os.path.join(TOOLS, "dexasm-browse"), "many.dex", "--output", "out"]
    # (a gate in the background ignores SIGINT, and what it starts would too)
    heeds = lambda: signal.signal(signal.SIGINT, signal.SIG_DFL)
    done = subprocess.Popen(words, cwd=at, env=environment(), stderr=subprocess.PIPE, preexec_fn=heeds)
    ends = time.monotonic() + LIMIT
    parts: list[str] = []
    while time.monotonic() < ends and not parts and done.poll() is None:
        parts = [name for name in os.listdir(at) if name.endswith(".part")]
        parts = [name for name in parts if os.path.exists(os.path.join(at, name, "class", "0.html"))]
    done.send_signal(number)
    said = done.communicate(timeout=LIMIT)[1]
    return parts, done.returncode, said


# Where a system can't exchange two names in one step: the call that fails then, and others with which of each.
WITHOUT_STEP = (("rename", 8, "renameat2:error=EINVAL"), ("rename", 9, "renameat2:error=EINVAL"),
                ("renameat2", 2, "renameat2:error=ENOSYS:when=1"))
ENDED_BY = ("signal=SIGKILL", "signal=SIGTERM", "error=EIO")


def ended_at(call: str, number: int, before: str, how: str) -> tuple[Ended, dict[str, str | bytes] | None, list[str]]:
    """A run that is ended at this call, or in which it fails: what it said, what is in FOLDER, and what is beside."""
    at = room(f"browse ended {call} {number} {before[:16]} {how}")
    for name in ("a.dex", "b.dex"):
        os.symlink(path(f"browse ended/{name}"), os.path.join(at, name))
    shutil.copytree(path("browse ended/old"), os.path.join(at, "out"))
    inject = [*filter(None, [before]), f"{call}:{how}:when={number}"]
    seen = traced("dexasm-browse", "b.dex", "--output", "out", at=at, inject=inject)
    out = os.path.join(at, "out")
    return seen, seen_in(out) if os.path.isdir(out) else None, sorted(set(os.listdir(at)) - {"a.dex", "b.dex", "out"})


class Browse(BrowseTest):
    def test_hostile(self) -> None:
        at, file = room("browse hostile"), hostile()
        seen = browse(at, file)
        self.check_equal("hostile names", seen, (0, "", ""))
        found = self.pages(os.path.join(at, "out"))
        self.says_listing("hostile names", found, file)
        strings = "".join(found["strings/0.html"].texts)
        for string, shown in STRINGS.items():
            self.check_equal(f"the string {ascii(string)}", strings, Has(f'"{shown}"'))
        self.check_equal("a long string is cut", strings, Has(f'"{"<" * 1000}" ... (65,535 characters)'))
        text = "".join(text for page in found.values() for text in page.texts)
        for part in PARTS[:-1]:
            shown = SHOWN.get(part) or "".join(char if char.isprintable() else ascii(char)[1:-1] for char in part)
            self.check_equal(f"the name {ascii(part)[:60]}", text, Has(f"{shown[:100]}"))
        longest = max(len(one) for name, page in found.items() for one in page.texts if not name.startswith("class/"))
        self.check_equal("no other page has a long name whole", longest, Below(1200))
        index = [
            get(at, "out", "search", name).decode("ascii") for name in os.listdir(os.path.join(at, "out", "search"))
        ]
        self.check_equal("the index is data", [one for one in index if not is_index(one)], [])

    def test_names(self) -> None:
        """Files and folders whose names are meant to do harm."""
        at = room("browse names", {"a.dex": assembled(LISTING)})
        for name in (NAMES[2], NAMES[6], NAMES[10], "<script>alert(1)<!--", "\u202eabc", "x" * 255):
            file = browse(at, assembled(LISTING), name=name)
            text = "".join(self.pages(os.path.join(at, "out"))["index.html"].texts)
            shown = "".join(char if char.isprintable() else f"\\x{ord(char):02x}" for char in name)[:90]
            shown = "\\u202eabc" if name == "\u202eabc" else shown
            self.check_equal(f"a file of the name {name[:60]!r}", (file, text), ((0, "", ""), Has(shown)))
            os.remove(os.path.join(at, name))
            seen = tool("dexasm-browse", f"--output={name}", "a.dex", at=at)
            self.check_equal(f"a folder of the name {name[:60]!r}", seen, (0, "", ""))
        self.check_equal("nothing is left beside", [one for one in os.listdir(at) if one.endswith(".part")], EMPTY)

    def beside_dexdump(self, what: str, found: dict[str, bytes], numbers: dict[str, int], file: bytes, at: str) -> None:
        """(Its lines of instructions have an address behind a bar; those of members their class.)"""
        put(at, "dumped.dex", file)
        out = run(["dexdump", "-d", "dumped.dex"], at=at)[1]
        members: dict[str, int]
        members, head = {}, ""
        for line in out.splitlines():
            # (a string may have any line, but hardly these)
            begins = re.match(r"  ((?:Static|Instance|Direct|Virtual) (?:fields|methods)) +-$", line)
            head = begins[1].split()[1] if begins else head
            members[head] = members.get(head, 0) + bool(re.match(r"    #\d+ +: \(in L", line))
        want = {"classes": len(re.findall(r"^Class #\d+ ", out, re.M)), "fields": members.get("fields", 0),
                "methods": members.get("methods", 0), "instructions": len(re.findall(r"\|[0-9a-f]{4}: ", out))}
        self.check(f"{what}: numbers as dexdump's", want.items() <= numbers.items(), (want, numbers))
        theirs = re.findall(r"^([0-9a-f]{6,}): [0-9a-f. ]+\|([0-9a-f]{4}): ", out, re.M)
        ours = [tuple(place.split(" ")) for given in found.values() for place in Page(given.decode("utf8")).places]
        self.check_equal(f"{what}: addresses as dexdump's", sorted(ours), sorted(theirs))

    def beside_query(self, what: str, found: dict[str, bytes], file: bytes, at: str) -> None:
        """Classes, strings and calls as dexasm-query has them; a call of a method that is inherited leads to that."""
        put(at, "asked.dex", file)
        asked = {
            one: json.loads(tool("dexasm-query", one, "asked.dex", at=at)[1]) for one in ("classes", "strings", "calls")
        }
        callers: dict[str, set[str]] = {}
        for method, called in asked["calls"].items():
            for one in called:
                callers.setdefault(inherited(asked["classes"], one), set()).add(method)
        wrong: list[tuple[str, list[int]] | dict[str, int]] = []
        for row, (name, one) in enumerate(asked["classes"].items()):
            users = users_of(found[f"class/{row}.html"])
            methods = [f"{name}->{method}" for method in one["methods"]]
            seen = [users[len(one["fields"]) + at] for at in range(len(methods))]
            wrong += [(name, seen)] * (seen != [len(callers.get(method, ())) for method in methods])
        numbers = facts_of(found["index.html"])
        wrong += [numbers] * (numbers["strings in use"] != len(asked["strings"]))
        self.check_equal(f"{what}: calls and strings as dexasm-query's", wrong, EMPTY)

    def test_numbers(self) -> None:
        at = room("browse numbers")
        # (dexdump knows no arrays among values)
        files = {"a small program": assembled(re.sub(rb"static many .*\n", b"", CODE)), "the hostile names": hostile()}
        run([sys.executable, "-B", os.path.join(TOP, "bench/hostile/shapes.py"), "calls", "400", "shape"], at=at)
        files["a shape"] = get(at, "shape")
        calls = ["".join(f"invoke-static {{ }} LA;->m{n}()V\n" for n in range(method)) for method in range(5)]
        methods = (f"direct m{n} ()V 0x9\ncode 0 0 0\n{some}return-void\nend code\n" for n, some in enumerate(calls))
        files["many users"] = assembled(HEAD + f"class LA; 0x1\n{''.join(methods)}end class\n".encode("ascii"))
        for what, file in files.items():
            self.check_equal(what, browse(at, file), (0, "", ""))
            found: dict[str, Any] = {
                name: given for name, given in seen_in(os.path.join(at, "out")).items() if name.endswith(".html")
            }
            numbers = facts_of(found["index.html"])
            stripped = len(file) - len(dexasm("strip", given=file))
            self.check_equal(f"{what}: bytes", (numbers["bytes"], numbers["bytes that strip takes away"]),
                             (len(file), stripped))
            self.beside_query(what, found, file, at)
            if shutil.which("dexdump"):
                self.beside_dexdump(what, found, numbers, file, at)
        self.need("dexdump", "no page is looked at beside it")

    def test_by_hand(self) -> None:
        """What is said of a small program, by hand."""
        at, file = room("browse by hand"), assembled(CODE)
        self.check_equal("a small program", browse(at, file), (0, "", ""))
        found = self.pages(os.path.join(at, "out"))
        self.says_listing("a small program", found, file)
        base, hello = (get(at, "out", "class", f"{row}.html").decode() for row in (0, 1))
        for what, is_so in (
            ("a superclass is a link", '<dt>superclass</dt><dd><a href="0.html">p.Base</a></dd>' in hello),
            ("and its heirs", '<dt>inherited by</dt><dd><a href="1.html">p.q.Hello</a></dd>' in base),
            ("a call of an inherited method leads to it", '-&gt;<a href="0.html#1">stay</a>()V' in hello),
            ("what the file doesn't have isn't a link", "-&gt;hashCode()I" in hello),
            ("used by leads to the line", '<a href="1.html#2.1">p.q.Hello.ask(int)</a>' in base),
            ("calls of one method are counted", '<a href="1.html#2.3">p.q.Hello.ask(int)</a> (2 times)' in hello),
            ("calls", "Calls 2 methods of this file, and 1 outside this file" in hello),
            ("a branch leads to its line", '<b>if-eqz</b> v3 <a href="#3.6">:L6</a>' in hello),
            (
                "so does a payload",
                '<i>5</i> <a href="#3.3">:L3</a> <a href="#3.6">:L6</a> <a href="#3.3">:L3</a>' in hello,
            ),
            ("and a handler", '<li>catch Ljava/lang/Exception; <a href="#3.7">:L7</a>' in hello),
            ("values of fields", 'string <a class="s" href="../strings/0.html#1">&quot;the answer&quot;</a>' in hello),
            ("types in values", 'type <a href="0.html">Lp/Base;</a> null true int <i>-3</i> }' in hello),
            # A head of 16 bytes, 28 units, a try of 8, handlers: a count, a size, and three numbers.
            ("bytes of a code", "85 bytes, 11 instructions." in hello),
            (
                "flags in words",
                "public abstract void run(int)" in base and "<h1>public abstract class p.Base</h1>" in base,
            ),
        ):
            self.check(f"{what}", is_so, hello[-4000:])

    def test_files(self) -> None:
        """Several files of an archive, by hand: names lead from file to file, and classes stand by file."""
        at, files = room("browse files"), [assembled(one) for one in (ONE, TWO, HEAD)]
        zipped = archive(*zip(("classes.dex", "classes2.dex", "classes3.dex"), files))
        self.check_equal("an archive", browse(at, zipped, name="a.apk"), (0, "", ""))
        found = self.pages(os.path.join(at, "out"))
        a, twin, other, b = (get(at, "out", "class", f"{row}.html").decode() for row in range(4))
        for what, want, page in (
            ("a call into the second file", 'Lp/q/B;</a>-&gt;<a href="3.html#0">n</a>()V', a),
            ("and back", '<a href="0.html">Lp/A;</a>-&gt;<a href="0.html#0">m</a>()V', b),
            ("what a class of the other has", '<a href="3.html">Lp/q/B;</a>-&gt;<a href="0.html#0">m</a>()V', b),
            ("a superclass of the other file", '<dt>superclass</dt><dd><a href="0.html">p.A</a></dd>', b),
            ("its heirs", '<dt>inherited by</dt><dd><a href="3.html">p.q.B</a></dd>', a),
            ("used from the other file", '<a href="3.html#0.2">p.q.B.n()</a> (2 times)', a),
            ("a class of both files is the first's", '-&gt;<a href="1.html#0">t</a>()V', a),
            ("from the second too", '-&gt;<a href="1.html#0">t</a>()V', b),
            ("its twin isn't asked for what it hasn't", "-&gt;u()V", b),
            ("the first has its twin", 'also defined in</dt><dd><a href="2.html">p.Twin (classes2.dex)</a>', twin),
            ("and the other way", 'also defined in</dt><dd><a href="1.html">p.Twin (classes.dex)</a>', other),
            ("what isn't used", "Nothing in these files uses it by name.", other),
            ("calls", "Calls 2 methods of these files, and 1 outside these files", b),
            ("calls of the first", "Calls 2 methods of these files<", a),
            ("a string of both files", '<a class="s" href="../strings/0.html#0">&quot;both&quot;</a>', a),
            ("is one", '<a class="s" href="../strings/0.html#0">&quot;both&quot;</a>', b),
            ("a package has its file", '<dd><a href="../package/5.html">p.q of classes2.dex</a></dd>', b),
        ):
            self.check_equal(f"several files: {what}", page, Has(want))
        self.check_index(at, files)
        classes = [one for one in found if one.startswith("class/")]
        self.check_equal("several files: pages", len(classes), 4)

    def check_index(self, at: str, files: list[bytes]) -> None:
        """What the pages beside those of classes say of these files."""
        index, helped = (get(at, "out", name).decode() for name in ("index.html", "help.html"))
        tops = [get(at, "out", "package", f"{number}.html").decode() for number in range(6)]
        script = get(at, "out", "search", "0.js").decode("ascii")
        for what, want, page in (
            ("the files", "<h2>Files</h2>", index),
            ("a file", '<a href="package/3.html">classes2.dex</a>', index),
            ("all files", "<h1>All packages</h1>", tops[0]),
            ("a file's packages", "<h1>All packages of classes.dex</h1>", tops[1]),
            ("a package of a file", "<h1>Package p.q of classes2.dex</h1>", tops[5]),
            ("its classes", "class/3.html", tops[5]),
            ("which of two is taken", "the one of the first is what a device takes", helped),
            ("the index", '["p.Twin","2.html",0,["t()","u()"],"classes2.dex"]', script),
        ):
            self.check_equal(f"several files: {what}", page, Has(want))
        numbers = facts_of(index.encode())
        told = {"files": 3, "bytes": sum(map(len, files)), "classes": 4, "methods": 5, "strings in use": 2}
        self.check("several files: numbers", told.items() <= numbers.items(), (told, numbers))

    def test_files_alike(self) -> None:
        """The pages of several files have the lines and the places that those of each have; a page that is too large is
        cut there too, and nothing of a name is obeyed.
        """
        at = room("browse files alike")
        insns = 'const-string v0 "%s"\n' % ("x" * 60) * 12_000
        large = f"class Lp/Large; 0x1\ndirect a ()V 0x9\ncode 1 0 0\n{insns}return-void\nend code\nend class\n"
        large += "class Lp/Uses; 0x1\ndirect b ()V 0x9\ncode 0 0 0\ninvoke-static { } Lp/Large;->a()V\nreturn-void\n"
        files = [hostile(), assembled(HEAD + f"{large}end code\nend class\n".encode()), assembled(CODE), hostile()]
        alone: dict[str, list[str]] = {"lines": [], "places": []}
        for number, file in enumerate(files):
            self.check_equal(f"file {number}", browse(at, file), (0, "", ""))
            self.add_lines(alone, at)
        names = ["classes.dex", "classes2.dex", "classes03.dex", f"classes{'9' * 200}.dex"]
        seen = browse(at, archive(*zip(names, files)), name="a.apk")
        self.check_equal("four files", seen, (0, "", ""))
        self.pages(os.path.join(at, "out"))
        together: dict[str, list[str]] = {"lines": [], "places": []}
        self.add_lines(together, at)
        for what, said in alone.items():
            self.check_equal(f"four files: {what}", (together[what], said), (said, SOME))
        sizes = {name: len(given) for name, given in seen_in(os.path.join(at, "out")).items()}
        large_pages = [name for name in sizes if re.fullmatch(rf"class/{len(PARTS)}-\d+\.html", name)]
        self.check_equal("four files: a page is cut", (len(large_pages), max(sizes.values())),
                         (Above(0), Below(2_000_000)))

    def add_lines(self, found: dict[str, list[str]], at: str) -> None:
        """The lines of the code that pages have, but for where labels lead, and the places of the file."""
        given = seen_in(os.path.join(at, "out", "class"))
        for name in sorted(given, key=lambda name: [int(number) for number in re.findall(r"\d+", name)]):
            page = Page(bytes(given[name]).decode("utf8"))  # type: ignore[arg-type]  # (all are files)
            found["lines"] += page.lines
            found["places"] += page.places

    def test_files_many(self) -> None:
        """A class that many files define: each of its pages has links to a few of the others, so all stay small."""
        at, file = room("browse files many"), assembled(HEAD + b"class LA; 0x1\nend class\n")
        zipped = archive(*((f"classes{number}.dex", file) for number in range(100, 160)))
        self.check_equal("60 files", browse(at, zipped, name="a.apk"), (0, "", ""))
        found = self.pages(os.path.join(at, "out"))
        for row in (0, 5, 59):
            text = get(at, "out", "class", f"{row}.html").decode()
            links = re.findall(r'<a href="(\d+)\.html">A \(classes\d+\.dex\)</a>', text)
            self.check_equal(f"60 files: the class of file {row}",
                             (len(set(links) - {str(row)}) == len(links) == 10, text), (True, Has("and 49 more")))
        sizes = [len(given) for given in seen_in(os.path.join(at, "out", "class")).values()]
        self.check_equal("60 files: sizes", (len(sizes), max(sizes), len(found)), (60, Below(4000), Above(120)))

    def test_files_wrong(self) -> None:
        """One of the files can't be shown: a line that names it, and no pages."""
        at, file = room("browse files wrong"), assembled(LISTING)
        good = archive(("classes.dex", file), ("classes2.dex", file))
        put(at, "old/index.html", b'<meta name="generator" content="dexasm-browse">')
        before = seen_in(os.path.join(at, "old"))
        one, two = "classes.dex", "classes2.dex"
        for what, given, status, says in (
            ("cut", archive((one, file), (two, file[:-1])), 1, "!classes2.dex: dexasm: refused 4 FileSize"),
            ("no file", archive((one, file), (two, b"")), 1, "!classes2.dex: dexasm: refused 1 TooShort"),
            ("twice", archive((one, file), (one, file), (two, file)), 3, "!classes.dex: it is there more than once"),
            ("encrypted", changed(good, two, *FLAGS, 1), 3, "!classes2.dex: it is encrypted"),
            ("longer than it says", changed(good, two, *SIZE, 9), 3, "!classes2.dex: it can't be read"),
            ("an archive in it", archive((one, good), (two, file)), 3, "!classes.dex: a zip archive"),
            ("none", archive(("lib/classes.dex", file)), 3, ": no classes*.dex in it, but others: "),
        ):
            put(at, "a.apk", given)
            seen = tool("dexasm-browse", "a.apk", "--output", "old", at=at)
            self.check_equal(f"several files: {what}", seen, (status, "", Line("dexasm-browse: a.apk") & Has(says)))
        self.check_equal("what fails changes nothing", seen_in(os.path.join(at, "old")), before)
        beside = set(os.listdir(at)) - {"a.apk", "old"}
        self.check_equal("several files: nothing is left", beside, EMPTY)

    def test_folder(self) -> None:
        file = assembled(LISTING)
        at = room("browse folder", {
            "a.dex": file, "bad": file[:-1], "a.apk": b"PK\3\4" + bytes(300), "file": b"mine",
            "mine/index.html": b"mine", "alike/index.html": b'<meta name="generator" content="dexasm-browse">',
            "alike/class/0.html/mine": b"mine"
        })
        os.symlink("mine", os.path.join(at, "link"))
        os.mkdir(os.path.join(at, "holed"))
        os.mkdir(os.path.join(at, "holed", "class"))
        before = seen_in(at)
        for words, status in ENDS:
            seen = tool("dexasm-browse", *words, at=at)
            self.check_equal(f"{words!r}"[:99], seen, (status, "", Line("dexasm-browse: ")))
        seen = tool("dexasm-browse", "a.dex", "--output", "new", at=at, most=2000)
        self.check_equal("no room", seen, (3, ANY, Line("dexasm-browse: ")))
        self.check_equal("what fails changes nothing", seen_in(at), before)
        refused = tool("dexasm-browse", "bad", "--output", "new", at=at)[2]
        self.check_equal("a refusal is dexasm's", refused, "dexasm-browse: bad: dexasm: refused 4 FileSize at 32\n")
        for words in ((), ("a.dex",), ("a.dex", "--output"), ("a", "b", "--output", "c"), ("a.dex", "--out", "new")):
            seen = tool("dexasm-browse", *words, at=at)
            self.check_equal(f"{words!r}", seen, (2, "", Begins("usage: dexasm-browse ")))

    def test_again(self) -> None:
        """A folder of an earlier run, and an empty one, are replaced; one that somebody put something into isn't."""
        at = room("browse again")
        os.mkdir(os.path.join(at, "out"))
        self.check_equal("an empty folder", browse(at, hostile()), (0, "", ""))
        self.check_equal("once more", browse(at, assembled(LISTING)), (0, "", ""))
        first = seen_in(os.path.join(at, "out"))
        self.check_equal("nothing of the earlier run stays", len([one for one in first if one.startswith("class/")]), 4)
        self.check_equal("and again", browse(at, assembled(LISTING)), (0, "", ""))
        self.check_equal("the same pages of the same file", seen_in(os.path.join(at, "out")), first)
        mode = os.stat(os.path.join(at, "out")).st_mode & 0o777
        self.check_equal("others may read the pages", mode, 0o755)
        put(at, "out/class/mine.txt", b"mine")
        seen = browse(at, assembled(LISTING))
        self.check_equal("a folder with something else", (seen[0], get(at, "out/class/mine.txt")), (3, b"mine"))

    def test_cut(self) -> None:
        """A run that is ended in the midst of it."""
        at = room("browse cut", {"a.dex": assembled(LISTING)})
        tool("dexasm-browse", "a.dex", "--output", "out", at=at)
        before = seen_in(os.path.join(at, "out"))
        methods = "".join(f"direct m{n} ()V 0x9\ncode 0 0 0\nreturn-void\nend code\n" for n in range(10))
        many = "".join(f"class Lp/C{n}; 0x1\n{methods}end class\n" for n in range(400))
        put(at, "many.dex", assembled(HEAD + many.encode("ascii")))
        for number in (signal.SIGINT, signal.SIGTERM, signal.SIGKILL):
            for _ in range(5):
                parts, status, said = ended(at, number)
                if status != 0:
                    break
                # (it was quicker than this one: once more)
                tool("dexasm-browse", "a.dex", "--output", "out", at=at)
            self.check_equal(f"ended by signal {number}", (len(parts), status, said), (1, Other(0) & Other(1), b""))
            self.check_equal("the pages that were there stay", seen_in(os.path.join(at, "out")), before)
            left = [name for name in os.listdir(at) if name.endswith(".part")]
            if number != signal.SIGKILL:
                self.check_equal("nothing is left beside", left, [])

    def test_looks(self) -> None:
        """The folder that replaces another one looks as that did, and what is in it is its owner's."""
        at = room("browse looks")
        file, out = assembled(LISTING), os.path.join(at, "out")
        seen: Ended | tuple[Ended, Ended]
        for mode in (0o700, 0o750, 0o2770, 0o1777):
            os.makedirs(out, exist_ok=True)
            os.chmod(out, mode)
            for what in ("an empty folder", "pages"):
                seen = browse(at, file)
                self.check_equal(f"{what} of mode {mode:o}",
                                 (seen, mode_of(out), os.path.exists(os.path.join(out, "index.html"))),
                                 ((0, "", ""), mode, True))
            shutil.rmtree(out)
        os.mkdir(out)
        try:
            os.setxattr(out, ACL, listed(7, 7, 0, 7, 0))
            os.setxattr(out, "user.x", b"x")
        except OSError:
            pass
        else:
            seen = browse(at, file), browse(at, file)
            self.check_equal("an ACL", (seen, acl_of(out), os.getxattr(out, "user.x")),
                             (((0, "", ""),) * 2, listed(7, 7, 0, 7, 0), b"x"))
        shutil.rmtree(out)
        if os.geteuid() == 0:
            os.mkdir(out)
            os.chown(out, 65534, 12345)
            seen = browse(at, file), browse(at, file)
            owners = {
                (os.stat(one).st_uid, os.stat(one).st_gid) for one in (out, f"{out}/class", f"{out}/class/0.html")
            }
            self.check_equal("an owner", (seen, owners), (((0, "", ""),) * 2, {(65534, 12345)}))
        left = [name for name in os.listdir(at) if "part" in name]
        self.check_equal("nothing is beside", left, EMPTY)

    def test_ended(self) -> None:
        """Ended at each call, or with each one failed, also where a system can't exchange two names: FOLDER is old or
        new."""
        self.need_trace()
        at = room("browse ended", {"a.dex": assembled(LISTING), "b.dex": assembled(HEAD)})
        tool("dexasm-browse", "a.dex", "--output", "old", at=at)
        tool("dexasm-browse", "b.dex", "--output", "new", at=at)
        wanted = [seen_in(os.path.join(at, name)) for name in ("old", "new")]
        shutil.copytree(os.path.join(at, "old"), os.path.join(at, "out"))
        calls = calls_of("dexasm-browse", "b.dex", "--output", "out", begins=f'{at}/out"', at=at)
        self.check_equal("calls are failed", len(calls), Above(40))
        cases = [(call, number, "", how) for call, number in calls for how in ENDED_BY]
        cases += [("renameat2", 1, "", f"signal={name}") for name in ("SIGINT", "SIGHUP")]
        cases += [(*one, how) for one in WITHOUT_STEP for how in ENDED_BY]
        for (call, number, before, how), (seen, out, beside) in in_turn(ended_at, cases):
            what, is_killed = f"{before} {how} at {call} {number}", "KILL" in how
            # (where there is no step for it, a run that is killed between the two leaves the old pages beside)
            is_beside = is_killed and before and any(name.endswith(".old") for name in beside)
            self.check_equal(what, (seen[2], is_beside or out), (Lacks("Traceback"), Either(True, *wanted)))
            is_left = beside and not is_killed and not call.startswith(("unlink", "rmdir"))
            self.check_equal(f"{what}: beside", is_left, EMPTY)

    def test_progress(self) -> None:
        """On a terminal a line says how far it is; elsewhere there is nothing."""
        at = room("browse progress", {"a.dex": assembled(LISTING)})
        seen = on_terminal(at, "dexasm-browse", "a.dex", "--output", "out")
        self.check_equal("a terminal", seen, (0, Has("writing: 1 of ")))
