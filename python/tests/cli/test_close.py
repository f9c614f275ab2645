"""dexasm-close: signature and checksum anew and nothing else, of files that are of the length that they say."""
import hashlib
import os

from tests.matchers import ANY, Either, Has, Lacks, Other
from ..output_files import ACL, acl_of, full, listed, made, mode_of, shut_by
from .support import ESC, LISTING, NAMES, HelperTest, Line, assembled, can_trace, get, put, room, seen_in, tool, traced
from .signatures import resigned

SHORT = 0x70  # bytes of a header


class Close(HelperTest):
    def test_sums(self) -> None:
        """What is closed is what assemble wrote; what D8 before 1.6.20 signed is told apart from what was changed."""
        at = room("close")
        good = assembled(LISTING)
        old = resigned(good, hashlib.sha1(good[32:-52]).digest())
        for name, given, told in (
            ("d8.dex", old, "as D8 before 1.6.20 wrote it"),
            ("zero.dex", resigned(good, bytes(20)), "never signed"),
            ("hand.dex", resigned(good, b"x" * 20), "changed after it was signed"),
            ("sum.dex", good[:8] + b"abcd" + good[12:], "checksum at 8"),
        ):
            put(at, name, given)
            looked = tool("dexasm-close", "--check", name, at=at)
            self.check_equal(f"--check {name}", (looked, get(at, name)), ((1, Has(told), ""), given))
            lines = "".join(f"dexasm-close: {line}\n" for line in looked[1].splitlines())
            closed = tool("dexasm-close", name, at=at)
            self.check_equal(f"{name} alone", (closed[0], get(at, name)), (2, given))
            closed = tool("dexasm-close", name, "--output", "out.dex", at=at)
            self.check_equal(f"{name} into OUT", closed, (0, "", lines))
            self.check_equal("FILE and OUT", (get(at, "out.dex"), get(at, name)), (good, given))
            closed = tool("dexasm-close", "--quiet", name, "--output", "out.dex", at=at)
            self.check_equal(f"--quiet {name}", closed, (0, "", ""))
            closed = tool("dexasm-close", "--in-place", name, at=at)
            self.check_equal(f"{name} in place", (closed, get(at, name)), ((0, "", lines), good))
        looked = tool("dexasm-close", "--check", "d8.dex", at=at)
        self.check_equal("--check, nothing to change", looked, (0, "d8.dex: both sums hold\n", ""))
        piped = tool("dexasm-close", "-q", "-", "--output", "-", given=old, at=at)
        self.check_equal("standard input and output", piped, (0, good.decode("latin1"), ""))

    def test_refused(self) -> None:
        """What is no .dex file of its length stays as it is."""
        at = room("close refused")
        good = assembled(LISTING)
        for name, given in (
            ("empty", b""), ("zip", b"PK\3\4" + bytes(200)), ("text", LISTING), ("front", good[: SHORT - 1]),
            ("cut", good[:-1]), ("longer", good + b"\0"), ("magic", b"dey" + good[3:]),
            ("version", good[:4] + b"abc" + good[7:]), ("turned", good[:32] + good[32:36][::-1] + good[36:])
        ):
            put(at, name, given)
            before = seen_in(at)
            for words in (("--in-place", name), (name, "--output", "out"), ("--check", name)):
                got = tool("dexasm-close", *words, at=at)
                status = 3 if name == "zip" else 1  # (it begins as an archive, and none can be read)
                self.check_equal(f"{' '.join(words)}", (got, seen_in(at)),
                                 ((status, "", Line(f"dexasm-close: {name}: ")), before))

    def test_names(self) -> None:
        """Names that a shell or a terminal could take for something else, links, and wrong words."""
        at = room("close names")
        good = assembled(LISTING)
        for name in NAMES:
            put(at, name, resigned(good, bytes(20)))
            got = tool("dexasm-close", "-q", "--in-place", "--", name, at=at)
            self.check_equal(f"{name!r}", (got, get(at, name)), ((0, "", ""), good))
        os.symlink("sp ace", os.path.join(at, "link"))
        put(at, "sp ace", resigned(good, bytes(20)))
        got = tool("dexasm-close", "-q", "--in-place", "link", at=at)
        self.check_equal("a link stays one", (got, os.path.islink(os.path.join(at, "link")), get(at, "sp ace")),
                         ((0, "", ""), True, good))
        for words in (
            ("none", "--in-place"), (".", "--in-place"), ("sp ace", "--output", "none/out"), ("sp ace", "--output", ".")
        ):
            got = tool("dexasm-close", *words, at=at)
            self.check_equal(words, got, (3, "", Line("dexasm-close: ")))
        put(at, "a", good)
        both = ("--in-place", "a", "--output", "b"), ("--in-place", "--check", "a")
        for words in (
            *both, (), ("a",), ("a", "b"), ("--check", "a", "--output", "b"), ("--chek", "a"), (f"--{ESC}[31m",)
        ):
            got = tool("dexasm-close", *words, at=at)
            self.check_equal(f"{words!r}", got, (2, "", Lacks(ESC) & Has("usage: ")))
        got = tool("dexasm-close", "sp ace", "--output", "out", at=at, most=64)
        left = sorted(os.listdir(at))
        self.check_equal("a full disk", (got[0], left, [it for it in left if "part" in it]), (3, Lacks("out"), []))

    def test_out(self) -> None:
        """OUT is written by the command's rules: its names, its owner, its ACL, and what may not be written."""
        at = room("close out")
        good = assembled(LISTING)
        wrong = resigned(good, bytes(20))
        put(at, "in.dex", wrong)
        for words, out in ((("-q", "in.dex", "--output", "out"), "out"), (("-q", "--in-place", "in.dex"), "in.dex")):
            made(at, out, wrong, 0o640)
            os.link(os.path.join(at, out), os.path.join(at, "other"))
            got = tool("dexasm-close", *words, at=at)
            self.check_equal(f"{words}, two names",
                             (got, get(at, "other") == good == get(at, out), mode_of(f"{at}/{out}")),
                             ((0, "", ""), True, 0o640))
            os.remove(os.path.join(at, "other"))
            put(at, "in.dex", wrong)
        out = made(at, "out", b"old", 0o640)
        try:
            os.setxattr(out, ACL, listed(6, 6, 0, 6, 0))
            os.setxattr(out, "user.x", b"x")
        except OSError:
            pass
        else:
            got = tool("dexasm-close", "-q", "in.dex", "--output", "out", at=at)
            self.check_equal("an ACL", (got, acl_of(out), os.getxattr(out, "user.x"), get(out)),
                             ((0, "", ""), listed(6, 6, 0, 6, 0), b"x", good))
        os.symlink("to/nothing", os.path.join(at, "link"))
        os.mkdir(os.path.join(at, "to"))
        got = tool("dexasm-close", "-q", "in.dex", "--output", "link", at=at)
        self.check_equal("a link to nothing", (got, os.path.islink(os.path.join(at, "link")), get(at, "to/nothing")),
                         ((0, "", ""), True, good))
        if os.geteuid() == 0:
            self.check_root(at, good)
        if can_trace():
            self.check_ended(good, wrong)

    def check_root(self, at: str, good: bytes) -> None:
        """As root: another's file, a closed folder, a full disk."""
        out = made(at, "theirs", b"old", 0o600, 65534, 12345)
        got = tool("dexasm-close", "-q", "in.dex", "--output", "theirs", at=at)
        there = os.stat(out)
        self.check_equal("the owner", (got, there.st_uid, there.st_gid), ((0, "", ""), 65534, 12345))
        put(at, "shut/in.dex", get(at, "in.dex"))
        with shut_by("i", os.path.join(at, "shut")):
            got = tool("dexasm-close", "-q", "--in-place", "shut/in.dex", at=at)
            self.check_equal("an immutable folder", (got, get(at, "shut/in.dex")), ((0, "", ""), good))
        with full("close full", 64) as small:
            put(small, "in.dex", get(at, "in.dex"))
            os.link(os.path.join(small, "in.dex"), os.path.join(small, "other"))
            put(small, "fill", bytes(60 * 1024))
            got = tool("dexasm-close", "--in-place", "in.dex", at=small)
            self.check_equal("two names, a full disk",
                             (got, get(small, "in.dex") == get(at, "in.dex") == get(small, "other"),
                              len(os.listdir(small))),
                             ((3, ANY, Line("dexasm-close: in.dex: No space left on device")), True, 3))

    def check_ended(self, good: bytes, wrong: bytes) -> None:
        """Ended by a signal at a call: FILE is old or new, and nothing is beside it."""
        for number, one in enumerate(("write", "fsync", "fchmod", "rename")):
            for name in ("SIGTERM", "SIGHUP", "SIGINT"):
                at = room(f"close ended {number} {name}", {"in.dex": wrong})
                got = traced("dexasm-close", "--in-place", "in.dex", at=at, inject=[f"{one}:signal={name}"])
                self.check_equal(f"{name} at {one}", (get(at, "in.dex"), os.listdir(at), got),
                                 (Either(wrong, good), ["in.dex"], (Other(0), ANY, Lacks("Traceback"))))
