"""dexasm-apk: each thing that can be wrong with an archive has a line and a status of its own, and nothing else is read
or written.
"""
import hashlib
import os
import random
import zipfile
from collections.abc import Callable
from typing import Any

from tests.matchers import EMPTY, Begins, Either, Has, Lacks
from ..output_files import ACL, acl_of, listed
from .archive_files import CRC, FLAGS, METHOD, archive, changed
from .fake_commands import fakes
from .support import ESC, LISTING, Ended, HelperTest, Line, assembled, dexasm, get, put, room, seen_in, shell, tool
from .signatures import resigned

SECRET = b"secret"


class Apk(HelperTest):
    def says(self, what: str, want: tuple[int, str], *words: str, at: str, begins: str = "", **options: Any) -> None:
        """Status, standard output, and one line on standard error, which begins so."""
        seen = tool("dexasm-apk", *words, at=at, **options)
        self.check_equal(what, seen, (*want, Line(begins) if begins else ""))

    def test_good(self) -> None:
        at, file = room("apk good"), assembled(LISTING)
        damaged = file[:200] + bytes([file[200] ^ 1]) + file[201:]
        entries = (("classes.dex", file), ("classes10.dex", file), ("classes2.dex", damaged),
                   ("lib/classes3.dex", b"no"), ("xclasses.dex", b"no"))
        put(at, "a.apk", archive(*entries, compression=zipfile.ZIP_DEFLATED))
        refusal = "classes2.dex: dexasm: refused 8 Checksum at 8\n"
        self.says("check", (1, "classes.dex: ok\nclasses10.dex: ok\n"), "check", "a.apk", at=at, begins=refusal)
        listing = dexasm("list", given=file).decode()
        named = "".join(
            f"{name}: {line}\n" for name in ("classes.dex", "classes10.dex") for line in listing.splitlines()
        )
        self.says("list", (1, named), "list", "a.apk", at=at, begins=refusal)
        self.says("list into a folder", (1, ""), "list", "a.apk", "listed", at=at, begins=refusal)
        self.check_equal("what it listed", seen_in(os.path.join(at, "listed")), {
            name: listing.encode() for name in ("classes.txt", "classes10.txt")
        })
        self.says("strip", (1, ""), "strip", "a.apk", "stripped", at=at, begins=refusal)
        self.check_equal("what it stripped", get(at, "stripped/classes.dex"), dexasm("strip", given=file))
        put(at, "order.apk",
            archive(*((f"classes{n}.dex", file) for n in ("10", "2", "", "9" * 5000)), ("classes\u0663.dex", b"x")))
        out = tool("dexasm-apk", "check", "order.apk", at=at)[1]
        self.check_equal("by their numbers", [line.split(".")[0][7:9] for line in out.splitlines()],
                         ["", "2", "10", "99"])
        put(at, "long.apk", archive(("classes" + "9" * 300 + ".dex", file)))
        self.says("a name too long for a file", (3, ""), "strip", "long.apk", "out", at=at, begins="classes999")

    def test_close(self) -> None:
        """--close: what D8 signed and what has a wrong checksum is closed, with a line; the others stand as they
        are."""
        seen: Ended | dict[str, str | bytes]
        at, file = room("apk close"), assembled(LISTING)
        old = resigned(file, hashlib.sha1(file[32:-52]).digest())
        entries = (old, file, file[:8] + b"\x1b[31" + file[12:], b"no file")
        zipped = archive(
            *((f"classes{number or ''}.dex", given) for number, given in enumerate(entries)), ("x", SECRET)
        )
        put(at, "a.apk", zipped)
        begins = ("classes.dex: dexasm-apk: closed: signature at 12: ",
                  "classes2.dex: dexasm-apk: closed: checksum at 8: ", "classes3.dex: dexasm: refused 1 TooShort at 7")
        for words, out in (
            (("check", "a.apk"), "classes.dex: ok\nclasses1.dex: ok\nclasses2.dex: ok\n"),
            (("strip", "a.apk", "out"), ""),
        ):
            seen = tool("dexasm-apk", "--close", *words, at=at)
            lines = seen[2].splitlines()
            self.check_equal(
                f"--close {words[0]}",
                (seen, len(lines), [(line, begin) for line, begin in zip(lines, begins) if not line.startswith(begin)],
                 lines[0]),
                ((1, out, Lacks(ESC)), 3, [], Has("as D8 before 1.6.20 wrote it"))
            )
        stripped = dexasm("strip", given=file)
        wants = {f"out/classes{number or ''}.dex": stripped for number in range(3)}
        seen = seen_in(at)
        self.check_equal("--close, what it wrote", seen, {"a.apk": zipped, "out": "folder", **wants})
        seen = tool("dexasm-apk", "check", "a.apk", at=at)
        self.check_equal("without --close", seen[2], Has("classes.dex: dexasm: refused 9 Signature at 12\n"))

    def test_wrong(self) -> None:
        """Entries that can't be read: the others go on."""
        at, file = room("apk wrong"), assembled(LISTING)
        good = archive(("classes.dex", file), ("classes2.dex", file))
        for what, wrong, words in (
            ("encrypted, or says so", changed(good, "classes.dex", *FLAGS, 1), "it is encrypted, or says so"),
            (
                "a wrong sum", changed(good, "classes.dex", *CRC, 1),
                "it can't be read: Bad CRC-32 for file 'classes.dex'"
            ),
            ("a wrong method", changed(good, "classes.dex", *METHOD, 99), "its method of compression is unknown: 99"),
            ("a method that it isn't", changed(good, "classes.dex", *METHOD, 8), "it can't be read: "),
            ("twice", archive(("classes.dex", file), ("classes2.dex", file), ("classes.dex", file)),
             "it is there more than once"),
            ("another name in its own header", good.replace(b"classes.dex", b"classeX.dex", 1), "it can't be read: "),
        ):
            put(at, "x.apk", wrong)
            begins = f"classes.dex: dexasm-apk: {words}"
            self.says(what, (3, "classes2.dex: ok\n"), "check", "x.apk", at=at, begins=begins)
            self.says(f"{what}, strip", (3, ""), "strip", "x.apk", f"out {what}", at=at, begins=begins)
            self.check_equal(f"{what}: it isn't written", os.listdir(os.path.join(at, f"out {what}")), ["classes2.dex"])

    def test_none(self) -> None:
        """No archive, or none that has such files."""
        file = assembled(LISTING)
        at = room("apk none", {
            "a.dex": file, "empty.apk": b"", "other.apk": archive(("x", b"")),
            "cut.apk": archive(("classes.dex", file))[:-30]
        })
        os.mkdir(os.path.join(at, "folder.apk"))
        for what, words in (
            ("none.apk", "No such file"), ("a.dex", "no zip archive can be read: a .dex file"), ("empty.apk", "no zip"),
            ("cut.apk", "no zip"), ("other.apk", "no classes*.dex in it"), ("folder.apk", "Is a directory"),
            ("*.apk", "No such file"), (f"{ESC}[31m.apk", "No such file"), ("\udcff.apk", "No such file"),
            ("a\nb.apk", "No such file"), ("", "No such file")
        ):
            shown = what.replace(ESC, "\\x1b").replace("\udcff", "\\xff").replace("\n", "\\x0a")
            self.says(f"the archive {what!r}", (3, ""), "check", what, at=at, begins=f"dexasm-apk: {shown}: {words}")

    def test_others(self) -> None:
        """Names that look like others, and dexasm that isn't there."""
        file = assembled(LISTING)
        at = room("apk others", {
            "ok.apk": archive(("classes.dex", file)), "file": b"x", "*.apk": archive(("classes.dex", file))
        })
        self.says("an archive of the name *.apk", (0, "classes.dex: ok\n"), "check", "*.apk", at=at)
        put(at, "-x.apk", archive(("classes.dex", file)))
        self.says("an archive of the name -x.apk", (0, "classes.dex: ok\n"), "check", "--", "-x.apk", at=at)
        self.says("a file as FOLDER", (3, ""), "list", "ok.apk", "file", at=at, begins="dexasm-apk: file: ")
        self.says("no dexasm", (3, ""), "check", "ok.apk", at=at,
                  begins="classes.dex: dexasm-apk: DEXASM_COMMAND names no command", DEXASM_COMMAND="no/ne")
        seen = shell("dexasm-apk list ok.apk | true; echo ${PIPESTATUS[0]}; dexasm-apk check ok.apk >&-; echo $?", at)
        self.check_equal("nobody reads", seen[1:], (Either("0\n3\n", "3\n3\n"), Lacks("Traceback")))

    def test_folder(self) -> None:
        """FOLDER: nothing outside it is written."""
        at, file = room("apk folder"), assembled(LISTING)
        names = ("../classes.dex", "/classes3.dex", "a/classes.dex", "classes\n.dex", f"classes{ESC}.dex",
                 "classes.dex/", "CLASSES.DEX")
        put(at, "slip.apk", archive(("classes.dex", file), *((name, SECRET) for name in names)))
        self.says("names that lead elsewhere", (0, "classes.dex: ok\n"), "check", "slip.apk", at=at)
        self.says("names that lead elsewhere, strip", (0, ""), "strip", "slip.apk", "deep/out", at=at)
        self.check_equal("it writes into FOLDER alone", set(seen_in(at)),
                         {"slip.apk", "deep", "deep/out", "deep/out/classes.dex"})
        put(at, "victim", SECRET)
        os.mkdir(os.path.join(at, "linked"))
        os.symlink("../victim", os.path.join(at, "linked", "classes.dex"))
        begins = "classes.dex: dexasm-apk: linked/classes.dex is a link"
        self.says("a link in FOLDER", (3, ""), "strip", "slip.apk", "linked", at=at, begins=begins)
        self.check_equal("a link isn't followed", get(at, "victim"), SECRET)

    def test_words(self) -> None:
        """FOLDER looks like an option, or is wanted and isn't there."""
        at, file = room("apk words"), assembled(LISTING)
        put(at, "slip.apk", archive(("classes.dex", file)))
        usage = "usage: dexasm-apk [--close] [--allow-empty] check|list|strip|extract ARCHIVE [FOLDER]\n"
        for words in (
            ("strip", "slip.apk", "-o-"), ("strip", "slip.apk", "--output=x"), ("strip", "slip.apk"),
            ("check", "slip.apk", "out"), ("check", f"-{ESC}")
        ):
            seen = tool("dexasm-apk", *words, at=at)
            self.check_equal(f"{words!r}", seen, (2, "", Begins(usage) & Lacks(ESC)))
        self.says("a folder that looks like an option", (0, ""), "strip", "--", "slip.apk", "-o-", at=at)
        self.check_equal("that folder", get(at, "-o-/classes.dex"), dexasm("strip", given=file))
        seen = tool("dexasm-apk", "list", "slip.apk", os.fsdecode(b"n\xff"), at=at)
        self.check_equal("a folder whose name is no text",
                         (seen, os.path.exists(os.path.join(at, os.fsdecode(b"n\xff/classes.txt")))),
                         ((0, "", ""), True))

    def test_random(self) -> None:
        """Archives that are changed at random: a status, and no traceback."""
        at, random_, file = room("apk random"), random.Random(1), assembled(LISTING)
        good, wrong = archive(("classes.dex", file), ("classes2.dex", file), compression=zipfile.ZIP_DEFLATED), []
        places = [at for at, byte in enumerate(good) if at < 60 or at > len(good) - 200]
        for _ in range(25):
            zipped = bytearray(good)
            for _ in range(random_.randint(1, 4)):
                zipped[random_.choice(places)] = random_.randrange(256)
            put(at, "x.apk", bytes(zipped))
            seen = tool("dexasm-apk", "check", "x.apk", at=at)
            if seen[0] not in (0, 1, 3) or "Traceback" in seen[2] or (seen[0] == 0) != (seen[2] == ""):
                wrong.append((bytes(zipped), seen))
        self.check_equal("archives changed at random", wrong, EMPTY)

    def test_no_answer(self) -> None:
        """A command that answers nothing, or what is no answer: nothing passes, and nothing is written."""
        file = assembled(LISTING)
        at = room("apk no answer", {"a.apk": archive(("classes.dex", file)), "out/classes.dex": b"old"})
        before = seen_in(at)
        for name, fake in fakes(room("apk fakes")):
            for words in (("check", "a.apk"), ("list", "a.apk"), ("list", "a.apk", "out"), ("strip", "a.apk", "out")):
                what = f"{words} by a command that answers {name}"
                self.says(what, (3, ""), *words, at=at, begins="classes.dex: ", DEXASM_COMMAND=fake)
            self.check_equal(f"a command that answers {name}: nothing is written", seen_in(at), before)

    def test_out(self) -> None:
        """What stands in FOLDER: it is written by the command's rules, and nothing else through it."""
        at, file = room("apk out"), assembled(LISTING)
        put(at, "a.apk", archive(("classes.dex", file)))
        secret, out = put(at, "secret", SECRET), os.path.join(at, "out", "classes.dex")
        os.mkdir(os.path.dirname(out))
        makes: tuple[tuple[str, Callable[[], None]], ...] = (
            ("has another name too", lambda: os.link(secret, out)),
            ("is no file", lambda: os.mkfifo(out)),
            ("is no file", lambda: os.mkdir(out)),
            ("is a link", lambda: os.symlink("none", out)),
            ("is a link", lambda: os.symlink("/dev/null", out)),
        )
        for what, make in makes:
            make()
            begins = f"classes.dex: dexasm-apk: out/classes.dex {what}, so it isn't written"
            self.says(f"a place that {what}", (3, ""), "strip", "a.apk", "out", at=at, begins=begins)
            self.check_equal(f"a place that {what} stays", (get(secret), os.listdir(at + "/out")),
                             (SECRET, ["classes.dex"]))
            (os.rmdir if os.path.isdir(out) and not os.path.islink(out) else os.remove)(out)
        put(at, "out/classes.dex", b"old")
        os.chmod(out, 0o600)
        try:
            os.setxattr(out, ACL, listed(6, 6, 0, 6, 0))
        except OSError:
            pass
        old = acl_of(out), os.stat(out).st_mode
        self.says("a file with an ACL", (0, ""), "strip", "a.apk", "out", at=at)
        self.check_equal("its ACL", ((acl_of(out), os.stat(out).st_mode), get(out)), (old, dexasm("strip", given=file)))
        begins = "classes.dex: dexasm-apk: out/classes.dex: File too large"
        self.says("no room", (3, ""), "strip", "a.apk", "out", at=at, begins=begins, most=20)
        self.check_equal("no room, what was there", get(out), dexasm("strip", given=file))
