"""dexasm-split: it cuts and joins each listing, and nothing outside its folder is read, written or removed; a folder
that isn't whole isn't joined.
"""
import fcntl
import os
import shutil
from collections.abc import Iterable
from typing import Any

from tests.matchers import ANY, SOME, Above, Below, Either, Has, Lacks
from .fake_commands import fakes
from .support import (
    ESC, HEAD, LISTING, Ended, HelperTest, Line, assembled, calls_of, classes, dexasm, get, in_turn, path, put, puts,
    room, scratch, seen_in, shell, tool, traced
)

GOOD = classes("LA;", "Lb/B;")


def good(name: str) -> str:
    """A room with a secret, and a folder beside it that dexasm-split made."""
    at = room(f"split {name}", {"secret.txt": b"secret", "away/precious.txt": b"precious"})
    tool("dexasm-split", "classes", given=GOOD, at=at)
    return at


def clean(at: str, names: Iterable[str] = ("A.txt", "b", "b/B.txt", "head", "order", "tail")) -> bool:
    return sorted(seen_in(os.path.join(at, "classes"))) == sorted(names)


NEW = HEAD + b"# new\n" + classes("LA;", "LC;", "Lb/D;")[len(HEAD) :].replace(b"0x1", b"0x11") + b"# the end\n"
NEW_NAMES = ("A.txt", "C.txt", "b", "b/D.txt", "head", "order", "tail")


def ended_at(call: str, number: int, how: str) -> tuple[Ended, Ended, bool, tuple[Ended, Ended, bool]]:
    """A run that is ended at this call, or in which it fails: what it said, what is joined then, whether nothing is
    left but one of the two listings; and the same of the next run, which is left alone."""
    at = room(f"split ended {call} {number} {how}")
    shutil.copytree(path("split ended old"), at, dirs_exist_ok=True)
    seen = traced("dexasm-split", "classes", given=NEW, at=at, inject=[f"{call}:{how}:when={number}"])
    joined, is_clean = tool("dexasm-split", "--join", "classes", at=at), clean(at) or clean(at, NEW_NAMES)
    again = tool("dexasm-split", "classes", given=NEW, at=at), tool("dexasm-split", "--join", "classes", at=at)
    return seen, joined, is_clean, (*again, clean(at, NEW_NAMES))


class Split(HelperTest):
    def changes_nothing(self, what: str, status: int, *words: str, given: bytes = b"", at: str, **options: Any) -> None:
        """Such a run ends with one line and this status, and all in the room is as it was."""
        before = seen_in(at)
        seen = tool("dexasm-split", *words, given=given, at=at, **options)
        self.check_equal(what, (seen, seen_in(at)), ((status, "", Line("dexasm-split: ")), before))

    def comes_back(self, what: str, listing: bytes) -> dict[str, Any]:
        """Cut and joined it is the same listing."""
        at = room(f"split back {what}")
        cut, joined = tool("dexasm-split", "classes", given=listing, at=at), tool(
            "dexasm-split", "--join", "classes", at=at
        )
        self.check_equal(f"{what}: cut", cut, (0, "", ""))
        self.check_equal(f"{what}: joined", (joined, joined[1].encode("latin1")), ((0, ANY, ""), listing))
        self.check_equal(f"{what}: it stays in its folder", os.listdir(at), ["classes"])
        return seen_in(os.path.join(at, "classes"))

    def test_names(self) -> None:
        """Names of classes that make trouble as names of files."""
        printed = dexasm("list", given=assembled(LISTING))
        found = self.comes_back("as it was written", LISTING)
        self.check_equal("a class has a file", (found["p/q/B.txt"], found),
                         (b"\n# between\nclass Lp/q/B; 0x1\nend class\n", Has("p.txt")))
        for what, listing in (
            ("as it is printed", printed), ("without a class", HEAD), ("without a line feed at its end", printed[:-1]),
            ("the first form", b"dex 035\n")
        ):
            self.comes_back(what, listing)
        self.comes_back("a number and names in upper and lower case",
                        classes("La/2;", "La/b;", "La/B;", "LA/b;", "LA/B;"))
        found = self.comes_back("names of its own files",
                                classes("Lorder/A;", "Lhead/A;", "Ltail/A;", "Lorder;", "LOrder/A;", "LHEAD;"))
        self.check_equal("order is its own", found["order"].count(b"\n"), 6)
        self.comes_back("names that begin each other", classes("La;", "La/a;", "La/a/a;", "Laa;", "La/a/a/a/b;"))
        long = [f"L{'n' * n};" for n in (199, 200, 201, 254, 255, 256, 1000, 5000)]
        found = self.comes_back("names of 255 bytes and more", classes(*long, f"L{'d/' * 3000}e;", f"L{'d/' * 3000}f;"))
        self.check_equal("no part of a path is too long", max(len(part) for one in found for part in one.split("/")),
                         Below(250))
        found = self.comes_back("names that begin with a minus", classes("L-rf;", "L--join;", "La/-b;"))
        self.check_equal("no file is an option", ([name for name in found if name[0] == "-"], found),
                         ([], Has("a/-b.txt")))
        escapes = classes(r"L\u0061b;", r"\u004cB\u003b", r"L\u00e9;", r"L\ud83d\ude00;", r"L\u1f600;")
        self.comes_back("names with escapes", escapes)
        self.comes_back("many classes", classes(*(f"La{n % 7}/B{n};" for n in range(300))))

    def test_refused(self) -> None:
        """What is no listing changes nothing."""
        at = good("refused")
        at_lib = os.path.join(at, "some")
        self.changes_nothing("a class that leads up", 1, "classes", given=classes("L../../evil;"), at=at)
        self.changes_nothing("a class that leads to the top", 1, "classes", given=classes(f"L{at_lib}/x;"), at=at)
        self.changes_nothing("what a refused file leaves in the pipe", 1, "classes", at=at)
        for size in (1, len(HEAD) + 5, len(GOOD) - 4):
            self.changes_nothing(f"a listing that is cut after {size} bytes", 1, "classes", given=GOOD[:size], at=at)
        self.changes_nothing("a refused line", 1, "classes", given=GOOD + b"foo\n", at=at)
        self.changes_nothing("bytes", 1, "classes", given=bytes(range(256)), at=at)
        put(at, "damaged.dex", assembled(GOOD)[:-1])
        self.changes_nothing("a refused file", 1, "damaged.dex", "classes", at=at)
        self.changes_nothing("no such file", 3, "none.dex", "classes", given=GOOD, at=at)
        self.changes_nothing("no dexasm", 3, "classes", given=GOOD, at=at, DEXASM_COMMAND="/none")
        self.changes_nothing("no room for its order", 3, "classes",
                             given=classes("LA;", *(f"LB{n};" for n in range(900))), at=at, most=4096)
        self.changes_nothing("no room for a class", 3, "classes", at=at, most=4096,
                             given=classes("LZ;", "LA;")[:-10] + b"super L%s;\nend class\n" % (b"s" * 5000))
        put(at, "file", b"x")
        self.changes_nothing("a file as FOLDER", 3, "file", given=GOOD, at=at)
        put(at, "mine/order.txt", b"")
        self.changes_nothing("a folder of other files", 3, "mine", given=GOOD, at=at)
        self.changes_nothing("no folder to join", 3, "--join", f"no{ESC}ne", at=at)
        self.changes_nothing("a folder to join that it hasn't made", 3, "--join", "mine", at=at)

    def test_order(self) -> None:
        """An order that somebody else wrote leads nowhere."""
        orders = ("../away/precious.txt", "{at}/secret.txt", "{at}/away/precious.txt", "b/../../secret.txt",
                  "./../secret.txt", "b/./B.txt", ".git/x.txt", "b//B.txt", "", "head", "order/x.txt", "HEAD.txt/../x",
                  "A", "A.txt\nA.txt", "A.txt\n\nb/B.txt", "\xff.txt", "a\0b.txt", f"{ESC}]0;x\x07.txt", "a b.txt",
                  "A.txt\r")
        for number, order in enumerate(orders):
            at = good(f"order {number}")
            put(at, "classes/order", (order.replace("{at}", at) + "\n").encode("latin1"))
            self.changes_nothing(f"an order of {order!r}", 3, "classes", given=classes("LC;"), at=at)
            self.changes_nothing(f"an order of {order!r}, joined", 3, "--join", "classes", at=at)

    def test_links(self) -> None:
        """Links in the folder aren't followed, and what is there is left alone."""
        for what, name, to in (
            ("a folder", "b", "../away"), ("a file", "A.txt", "../secret.txt"), ("its order", "order", "../secret.txt"),
            ("its head", "head", "../secret.txt"), ("nothing", "A.txt", "../new.txt"),
            ("a folder that is new", "n", "../away")
        ):
            at = good(f"link of {what}")
            if os.path.isdir(os.path.join(at, "classes", name)):
                os.rename(os.path.join(at, "classes", name), os.path.join(at, "moved"))
            elif name != "n":
                os.remove(os.path.join(at, "classes", name))
            os.symlink(to, os.path.join(at, "classes", name))
            self.changes_nothing(f"a link in place of {what}", 3, "classes",
                                 given=classes("LA;", "Lb/B;", "Lb/precious;", "Ln/x;"), at=at)
            if name != "n":
                self.changes_nothing(f"a link in place of {what}, joined", 3, "--join", "classes", at=at)
        at = good("link of old")
        put(at, "classes/order", b"A.txt\nb/B.txt\nb/precious.txt\n")
        os.rename(os.path.join(at, "classes", "b"), os.path.join(at, "moved"))
        os.symlink("../away", os.path.join(at, "classes", "b"))
        self.changes_nothing("a link on the way to a class that is gone", 3, "classes", given=classes("LA;"), at=at)
        at = good("names")
        os.remove(os.path.join(at, "classes", "A.txt"))
        os.link(os.path.join(at, "secret.txt"), os.path.join(at, "classes", "A.txt"))
        seen = tool("dexasm-split", "classes", given=GOOD, at=at)
        self.check_equal("a second name of a file outside", (seen, get(at, "secret.txt")), ((0, "", ""), b"secret"))
        at = good("pipe")
        os.remove(os.path.join(at, "classes", "A.txt"))
        os.mkfifo(os.path.join(at, "classes", "A.txt"))
        self.changes_nothing("a pipe in place of a file", 3, "classes", given=GOOD, at=at)
        self.changes_nothing("a pipe in place of a file, joined", 3, "--join", "classes", at=at)

    def test_again(self) -> None:
        """A folder that is there already."""
        at = good("again")
        mine = put(at, "classes/README", b"mine")
        before = os.stat(os.path.join(at, "classes", "A.txt")).st_mtime_ns
        self.check_equal("fewer classes", tool("dexasm-split", "classes", given=classes("LA;"), at=at), (0, "", ""))
        found = seen_in(os.path.join(at, "classes"))
        self.check_equal("what is gone is removed, with its folder", set(found),
                         {"A.txt", "README", "order", "head", "tail"})
        self.check_equal("other files stay", get(mine), b"mine")
        self.check_equal("what is the same isn't written", os.stat(os.path.join(at, "classes", "A.txt")).st_mtime_ns,
                         before)
        put(at, "a.dex", assembled(GOOD))
        self.check_equal("a .dex file", tool("dexasm-split", "a.dex", "classes", at=at), (0, "", ""))
        joined = tool("dexasm-split", "--join", "classes", at=at)[1].encode()
        self.check_equal("its listing", joined, dexasm("list", given=assembled(GOOD)))
        seen = shell(
            "set -o pipefail; dexasm-split --join classes | true; echo $?; dexasm-split --join classes >&-; echo $?", at
        )
        self.check_equal("nobody reads what is joined", seen[1:], ("0\n3\n", Lacks("Traceback")))
        for name in ("-x", "a\nb", f"{ESC}[31m"):
            self.check_equal(f"a folder {name!r}",
                             (tool("dexasm-split", "--", name, given=GOOD, at=at)[0], scratch(),
                              os.path.isdir(os.path.join(at, name))),
                             (0, SOME, True))

    def test_renamed(self) -> None:
        """Classes that have others' names, but for the case, and folders' names."""
        at = room("split renamed")
        for names in (("LFoo;", "La/b;"), ("Lfoo;", "LA/b;"), ("Lfoo/a;", "LA;")):
            tool("dexasm-split", "classes", given=classes(*names), at=at)
            joined = tool("dexasm-split", "--join", "classes", at=at)
            self.check_equal(f"again as {names}", joined, (0, classes(*names).decode(), ""))
            texts = {name for name in seen_in(os.path.join(at, "classes")) if name.endswith(".txt")}
            self.check_equal(f"the files of {names}", texts, {f"{name[1:-1]}.txt" for name in names})

    def test_no_answer(self) -> None:
        at = good("no answer")
        put(at, "a.dex", assembled(GOOD))
        for name, fake in [*fakes(at)]:
            for words, given in (("classes",), classes("LA;")), (("a.dex", "classes"), b""), (("new",), GOOD):
                self.changes_nothing(f"a command that answers {name}", 3, *words, given=given, at=at,
                                     DEXASM_COMMAND=fake)

    def test_edits(self) -> None:
        """Files of classes are there to be edited; they keep their mode, and so does what is new."""
        at = good("edits")
        listing = GOOD.replace(b"class LA; 0x1\n", b"class LA; 0x1\n# mine\n")
        put(at, "classes/A.txt", b"class LA; 0x1\n# mine\nend class\n")
        joined = tool("dexasm-split", "--join", "classes", at=at)
        self.check_equal("an edited file is joined", joined, (0, listing.decode(), ""))
        os.chmod(os.path.join(at, "classes/A.txt"), 0o600)
        os.chmod(os.path.join(at, "classes/b/B.txt"), 0o755)
        other = GOOD.replace(b"end class", b"# more\nend class")
        cut = tool("dexasm-split", "classes", given=other, at=at)
        modes = [os.stat(os.path.join(at, "classes", name)).st_mode & 0o7777 for name in ("A.txt", "b/B.txt", "order")]
        self.check_equal("files keep their mode", (cut, modes), ((0, "", ""), [0o600, 0o755, 0o644]))
        joined = tool("dexasm-split", "--join", "classes", at=at)
        self.check_equal("what was edited is gone", joined, (0, other.decode(), ""))

    def test_aside(self) -> None:
        """FOLDER/.dexasm-split is this command's: what others put there isn't followed or removed, nor is it joined."""
        there: tuple[tuple[str, str, str | bytes], ...] = (
            ("a link", ".dexasm-split", "../away"),
            ("a file", ".dexasm-split", b"mine"),
            ("another file in it", ".dexasm-split/precious", b"mine"),
            ("an order that leads away", ".dexasm-split/unfinished", b"../away/precious.txt\n"),
            ("a link in place of its order", ".dexasm-split/unfinished", "../../away/precious.txt"),
        )
        for what, name, kind in there:
            at = good(f"aside {what}")
            if isinstance(kind, str):
                os.makedirs(os.path.dirname(os.path.join(at, "classes", name)), exist_ok=True)
                os.symlink(kind, os.path.join(at, "classes", name))
            else:
                put(at, f"classes/{name}", kind)
            self.changes_nothing(f"{what} aside", 3, "classes", given=classes("LA;"), at=at)
            if "order" in what:
                self.changes_nothing(f"{what} aside, joined", 3, "--join", "classes", at=at)
        at = good("aside of old")
        put(at, "classes/.dexasm-split/7", b"a part")
        seen = tool("dexasm-split", "classes", given=GOOD, at=at)
        self.check_equal("what an ended run left goes", (seen, clean(at)), ((0, "", ""), True))
        at = good("aside unfinished")
        puts(at, {"classes/.dexasm-split/unfinished": b"A.txt\nold/C.txt\n", "classes/old/C.txt": b"of the ended run"})
        self.changes_nothing("a folder that isn't whole, joined", 3, "--join", "classes", at=at)
        seen = tool("dexasm-split", "classes", given=GOOD, at=at)
        self.check_equal("after an ended run", (seen, clean(at)), ((0, "", ""), True))
        with open(os.path.join(at, "classes/order"), "rb"):
            top = os.open(os.path.join(at, "classes"), os.O_RDONLY)
            fcntl.flock(top, fcntl.LOCK_EX)
            self.changes_nothing("another one at work", 3, "classes", given=classes("LA;"), at=at)
            self.changes_nothing("another one at work, joined", 3, "--join", "classes", at=at)
            os.close(top)

    def test_ended(self) -> None:
        """Ended at each call, or with each one failed: what is joined is the old listing or the new one, or nothing
        is."""
        self.need_trace()
        calls = calls_of("dexasm-split", "classes", given=NEW, begins='"classes"', at=good("ended"))
        self.check_equal("calls are failed", len(calls), Above(30))
        good("ended old")
        cases = [(*one, how) for one in calls for how in ("signal=SIGKILL", "signal=SIGTERM", "error=EIO")]
        # (what holds back one signal to end holds back the others)
        cases += [(*one, f"signal={name}") for one in calls if one[0] == "renameat" for name in ("SIGINT", "SIGHUP")]
        for (call, number, how), (seen, (status, joined, told), is_clean, again) in in_turn(ended_at, cases):
            what = f"{how} at {call} {number}"
            whole = (0, Either(GOOD.decode(), NEW.decode()), "")
            refused = (3, "", Line("dexasm-split: classes: it isn't whole"))
            self.check_equal(f"{what}, joined", (status, joined, told), Either(whole, refused))
            if "KILL" not in how and "error" not in how:
                self.check_equal(f"{what}, nothing is left", (status, is_clean), (0, True))
            if status == seen[0] == 0:
                self.check_equal(f"{what}, status 0 is new", joined, NEW.decode())
            self.check_equal(f"{what}, and again", again, ((0, "", ""), (0, NEW.decode(), ""), True))
