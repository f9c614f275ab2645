"""An archive in place of a .dex file, for each helper that takes one: what is told is that of the file itself, of all
files where that can be, or a line that says which one to name. And dexasm-apk extract and replace.
"""
import io
import os
import re
import shutil
import struct
import subprocess
import zipfile
from typing import Any

from tests.matchers import ANY, EMPTY, Begins, Either, Has, Lacks, Other
from .archive_files import CRC, FLAGS, archive, changed, hostile, streamed
from .support import ESC, HEAD, Ended, HelperTest, Line, assembled, get, has_pages, put, puts, room, run, seen_in
from .support import shell, tool

A = HEAD + b'class LA; 0x1\nsuper LO;\ndirect m ()V 0x9\ncode 1 0 0\nconst-string v0 "a"\nreturn-void\nend code\nend class\n'
B = A.replace(b"LA;", b"LB;").replace(b"direct m", b"direct n")
CHANGED = A.replace(b'"a"', b'"b"')
# What each helper is asked, of a FILE.
ASKED = {"info": "--json {}", "lint": "--code {}", "size": "{}", "query": "classes {}", "graph": "{} LA;->m()V",
         "diff": "{} a.dex", "close": "--check {}", "split": "{} cut", "merge": "{} --output -",
         "browse": "{} --output pages"}
SECRET = b"secret"


def asked(name: str, file: str, at: str, **env: Any) -> Ended:
    for folder in ("cut", "pages"):
        shutil.rmtree(os.path.join(at, folder), ignore_errors=True)
    return tool(f"dexasm-{name}", *(word.replace("{}", file) for word in ASKED[name].split(" ")), at=at, **env)


def made(seen: Ended, at: str, file: str) -> object:
    """What was told and made, without the file's own name."""
    said = [str(part).replace(file, "FILE").replace('"entry": "classes.dex"', "").replace(", }", "}") for part in seen]
    pages = {path: str(given).replace(file, "FILE") for path, given in seen_in(at).items() if path.startswith("cut/")}
    return said, pages


def raw(zipped: bytes) -> dict[str, tuple[bytes, int, tuple[Any, ...]]]:
    """Of each entry its compressed bytes, where they begin, and what the directory says of it."""
    found: dict[str, tuple[bytes, int, tuple[Any, ...]]] = {}
    with zipfile.ZipFile(io.BytesIO(zipped)) as read:
        for one in read.infolist():
            lengths = struct.unpack_from("<2H", zipped, one.header_offset + 26)
            begin = one.header_offset + 30 + sum(lengths)
            data = zipped[begin : begin + one.compress_size]
            told = one.compress_type, one.CRC, one.file_size, one.date_time, one.external_attr, one.comment
            found[one.filename] = data, begin, told
        assert read.testzip() is None
    return found


def application(*dexes: bytes) -> bytes:
    """An application as a build makes one, with signatures of the first scheme."""
    out = io.BytesIO()
    with zipfile.ZipFile(out, "w") as zipped:
        zipped.comment = b"a comment"
        zipped.writestr("AndroidManifest.xml", b"\3\0\x08\0" + bytes(100), zipfile.ZIP_DEFLATED)
        for number, data in enumerate(dexes, 1):
            kind = zipfile.ZIP_STORED if number % 2 else zipfile.ZIP_DEFLATED
            zipped.writestr(f"classes{number if number > 1 else ''}.dex", data, kind)
        zipped.writestr("res/caf\u00e9.xml", b"x" * 1000, zipfile.ZIP_DEFLATED)
        zipped.writestr("../out", SECRET)
        zipped.writestr("resources.arsc", b"x" * 77)
        zipped.writestr("lib/x86/liba.so", b"\x7fELF" * 50)
        for name in ("MANIFEST.MF", "CERT.SF", "cert.rsa", "A.EC", "SIG-X", "services/x"):
            zipped.writestr(f"META-INF/{name}", b"x")
    return out.getvalue()


class Inputs(HelperTest):
    def test_one(self) -> None:
        """An archive with one .dex file, and one that is named, are as the file itself."""
        file = assembled(A)
        at = room("inputs one", {
            "a.dex": file, "one.apk": archive(("x", b"x"), ("classes.dex", file)),
            "two.apk": archive(("classes.dex", file), ("classes2.dex", assembled(B))), "no!classes.dex": file
        })
        for name in ASKED:
            if name == "browse" and not has_pages():
                continue
            want = made(asked(name, "a.dex", at), at, "a.dex")
            for given in ("one.apk", "one.apk!classes.dex", "two.apk!classes.dex", "no!classes.dex"):
                seen = asked(name, given, at)
                shown = given if "!" in given else f"{given}!classes.dex"
                told = made(tuple(str(part).replace(shown, given) for part in seen), at, given)  # type: ignore[arg-type]
                self.check_equal(f"dexasm-{name} {given}", seen, (Either(0, 1) if name == "diff" else 0, ANY, ""))
                if name not in ("browse", "diff", "size"):
                    self.check_equal(f"dexasm-{name} {given}, the same", normal(told), normal(want))

    def test_all(self) -> None:
        """An archive with several: all of them, or the names of which one has to be given."""
        at = room("inputs all")
        one, two = assembled(A), assembled(B)
        puts(at, {
            "two.apk": archive(("classes.dex", one), ("classes2.dex", two)),
            "new.apk": archive(("classes.dex", assembled(CHANGED)), ("classes2.dex", two)), "a.dex": one, "b.dex": two
        })
        seen = tool("dexasm-info", "two.apk", at=at)
        self.check_equal("dexasm-info, all", seen[1], Begins("two.apk!classes.dex\n") & Has("classes2.dex\nfile"))
        want = "two.apk!classes.dex: ok\ntwo.apk!classes2.dex: ok\n"
        self.check_equal("dexasm-lint, all", tool("dexasm-lint", "two.apk", at=at), (0, want, ""))
        for query in ("classes", "calls", "strings"):
            seen = tool("dexasm-query", query, "two.apk", at=at)
            self.check_equal(f"dexasm-query {query}, all", seen[:2], (0, Has('"LA;', '"LB;')))
        seen = tool("dexasm-query", "show", "two.apk", "LB;->n", at=at)
        self.check_equal("dexasm-query show, all", seen[:2], (0, Has("class LB;") & Lacks("class LA;")))
        seen = tool("dexasm-size", "--json", "--by", "class", "two.apk", at=at)
        both = f'"bytes": {len(one) + len(two)}'
        self.check_equal("dexasm-size, all", seen[:2], (0, Has(both, "LA;", "LB;")))
        seen = tool("dexasm-size", "--by", "method", "two.apk", "new.apk", at=at)
        self.check_equal("dexasm-size, two applications", seen, (0, Has("all"), ""))
        seen = tool("dexasm-diff", "--names", "two.apk", "new.apk", at=at)
        self.check_equal("dexasm-diff, two applications", seen, (1, "! LA;->m()V\n", ""))
        self.check_equal("dexasm-diff, the same", tool("dexasm-diff", "two.apk", "two.apk", at=at), (0, "", ""))
        tool("dexasm-merge", "two.apk", "--output", "m.dex", at=at)
        tool("dexasm-merge", "a.dex", "b.dex", "--output", "n.dex", at=at)
        self.check_equal("dexasm-merge, all", get(at, "m.dex"), get(at, "n.dex"))
        for words in ("query tables two.apk", "query show --addresses two.apk LA;", "split two.apk cut"):
            self.is_told(words, 2, "two.apk: it has 2 .dex files: name one, as two.apk!classes.dex", at)
        self.is_told("close --in-place two.apk!classes.dex", 2, "use --output", at)
        seen = tool("dexasm-explain", "two.apk", given=b"classes2.dex: dexasm: refused 8 Checksum at 8\n", at=at)
        self.check_equal("dexasm-explain, by its entry", seen[:2], (0, Has("  Hint: it is ")))
        seen = tool("dexasm-explain", "two.apk", given=b"dexasm: refused 2 Magic at 0\n", at=at)
        self.check_equal("dexasm-explain, the archive itself", seen[:2], (0, Has("it is a zip archive")))

    def is_told(self, words: str, status: int, says: str, at: str) -> None:
        name, *rest = words.split(" ")
        seen = tool(f"dexasm-{name}", *rest, at=at)
        self.check_equal(f"dexasm-{words}", seen, (status, ANY, Line(f"dexasm-{name}: ") & Has(says)))

    def test_wrong(self) -> None:
        """Archives that lie, entries that aren't there, names that a terminal obeys: a line, and nothing is made."""
        at, file = room("inputs wrong"), assembled(A)
        good = archive(("classes.dex", file), ("classes2.dex", file))
        cases = {
            "sum.apk": (changed(good, "classes.dex", *CRC, 7), 3, "it can't be read: "),
            "crypt.apk": (changed(good, "classes.dex", *FLAGS, 1), 3, "it is encrypted"),
            "twice.apk": (archive(("classes.dex", file), ("classes.dex", file)), 3, "it is there more than once"),
            "none.apk": (archive(("x", b"")), 3, "no classes*.dex in it"),
            "cut.apk": (good[:-30], 3, "no zip archive can be read"),
            "big.apk": (changed(good, "classes.dex", 22, "<I", 1 << 30), 3, "it can't be read: "),
        }
        names = [name for name in ASKED if name not in ("browse", "diff")]
        for number, (path, (given, status, says)) in enumerate(cases.items()):
            put(at, path, given)
            for name in (names[number], names[-1 - number]):
                # (an archive whose one entry is to be read, or no such one)
                seen = asked(name, path if path in ("none.apk", "cut.apk") else f"{path}!classes.dex", at)
                said = seen[2].splitlines()[-1:] or [""]
                self.check_equal(f"dexasm-{name} {path}", (seen, said[0]),
                                 ((status, ANY, Lacks("unexpected")), Has(says)))
        put(at, "good.apk", archive(("classes.dex", file), (f"{ESC}[31m.dex", file)))
        for entry in ("none.dex", f"{ESC}[31m", "", "../x", "classes.dex!x", "\udcff"):
            seen = tool("dexasm-query", "classes", f"good.apk!{entry}", at=at)
            self.check_equal(f"dexasm-query good.apk!{entry!r}", seen, (3, "", Line("dexasm-query: ")))
        seen = tool("dexasm-query", "classes", f"good.apk!{ESC}[31m.dex", at=at)
        self.check_equal("dexasm-query, an entry of escapes", (seen[0], seen[1] + seen[2]), (0, Lacks(ESC)))
        put(at, "a.aab", archive(("base/dex/classes.dex", file), (f"{ESC}[31m.dex", file)))
        says = "a.aab: no classes*.dex in it, but others: name one, as a.aab!\\x1b[31m.dex"
        self.is_told("info a.aab", 3, says, at)
        seen = tool("dexasm-info", "a.aab!base/dex/classes.dex", at=at)
        self.check_equal("dexasm-info, an entry of an .aab", seen, (0, ANY, ""))
        seen = tool("dexasm-lint", "none.apk", "--allow-empty", at=at)
        self.check_equal("dexasm-lint --allow-empty", seen, (0, "", ""))
        seen = tool("dexasm-info", given=good, at=at)
        self.check_equal("dexasm-info, an archive on standard input", seen, (3, ANY, Has("a zip archive")))


    def test_hostile_archives(self) -> None:
        """Archives that lie, through each helper: what can't be read passes in none, and nothing is made elsewhere."""
        at, file = room("inputs hostile"), assembled(A)
        put(at, "a.dex", file)
        names = [name for name in ASKED if name != "browse" or has_pages()]
        names.append("check")
        for number, (what, (given, is_good)) in enumerate(hostile(file).items()):
            put(at, "a.apk", given)
            seen: dict[str, Ended] = {"check": tool("dexasm-check", "a.apk", at=at)}
            for name in (names[number % len(names)], names[(number + 3) % len(names)], "info"):
                seen[name] = asked(name, "a.apk", at) if name in ASKED else seen["check"]
            for name, (status, out, said) in seen.items():
                is_fine = status == (1 if name == "diff" and status == 1 else 0)
                is_so = is_good is None or is_fine == is_good and (is_good or bool(out + said))
                shown = said if out.startswith("dex\n035\0") else f"{out}\n{said}"  # (a file on standard output is no text)
                self.check_equal(f"dexasm-{name} of an archive: {what}",
                                 (is_so, re.search("Traceback|: unexpected |\x1b|##\\[|^ *::", shown, re.M), status),
                                 (True, EMPTY, Other("late")))
        left = sorted(set(os.listdir(at)) - {"a.apk", "a.dex", "cut", "pages"})
        self.check_equal("of hostile archives nothing is made elsewhere", left, EMPTY)


# What Python prints where it fails itself: its compiler ends with a ValueError, its interpreter with a SystemError.
PYTHON_FAILS = "Fatal Python error|frozen site|field '.*' is required for|returned NULL without setting an exception"


class Memory(HelperTest):
    def test_little(self) -> None:
        """Less memory than a helper's modules need: never status 1, which means refused, and a last line."""
        at = room("little memory", {"a.dex": assembled(A)})
        words = "check a.dex", "query classes a.dex", "corpus add c.db a.dex", "browse a.dex --output out", "lint a.dex"
        for kilobytes in range(16500, 26000, 1500):
            for word in words:
                status, out, said = shell(f"ulimit -v {kilobytes}; dexasm-{word}", at)
                if status in (134, 139, -6, -11) or re.search(PYTHON_FAILS, said):
                    continue
                with self.subTest(word, kilobytes=kilobytes):
                    self.assertIn(status, (0, 3, 4))
                    lines = (out + said).splitlines()
                    self.assertTrue(not status or lines[-1].startswith(("dexasm", "a.dex: error: ")), lines[-1:])


class Replacing(HelperTest):
    def test_extract(self) -> None:
        """As they are, the refused ones too; with --close closed."""
        at, file = room("extract"), assembled(A)
        put(at, "a.apk", archive(("classes.dex", file), ("classes2.dex", b"no file"), ("../classes3.dex", SECRET)))
        self.check_equal("dexasm-apk extract", tool("dexasm-apk", "extract", "a.apk", "out", at=at), (0, "", ""))
        want = {"out/classes.dex": file, "out/classes2.dex": b"no file"}
        seen = {path: given for path, given in seen_in(at).items() if path.startswith("out/")}
        self.check_equal("dexasm-apk extract, what it wrote", seen, want)
        seen_words = tool("dexasm-apk", "extract", "a.apk", at=at)
        self.check_equal("dexasm-apk extract, no FOLDER", seen_words, (2, ANY, Has("wants a FOLDER")))

    def test_replace(self) -> None:
        """The entry is exchanged; each other one has its bytes, and its place is aligned; the signatures are gone."""
        at, old, new = room("replace"), assembled(A), assembled(CHANGED)
        given = application(old, old)
        puts(at, {"app.apk": given, "new/classes.dex": new, "new/classes2.dex": new})
        for files in (["new/classes.dex"], ["new/classes2.dex"], ["new/classes.dex", "new/classes2.dex"]):
            seen = tool("dexasm-apk", "replace", "app.apk", *files, "--output", "out.apk", at=at)
            self.check_equal(f"dexasm-apk replace {files}", seen, (0, "", ""))
            self.is_replaced(given, get(at, "out.apk"), {os.path.basename(file): new for file in files})
        zipped = bytes(get(at, "out.apk"))
        seen = tool("dexasm-apk", "replace", "out.apk", "new/classes.dex", "-o", "out.apk", at=at)
        self.check_equal("dexasm-apk replace, again", (seen, get(at, "out.apk")), ((0, "", ""), zipped))
        self.check("dexasm-apk replace, nothing outside", not os.path.exists(os.path.join(at, "..", "out")))
        jar = archive(("META-INF/MANIFEST.MF", b"x"), ("META-INF/A.SF", b"x"), ("classes.dex", old))
        put(at, "a.jar", jar)
        tool("dexasm-apk", "replace", "a.jar", "new/classes.dex", "--output", "b.jar", at=at)
        self.check_equal(
            "dexasm-apk replace, a .jar", [*raw(get(at, "b.jar"))], ["META-INF/MANIFEST.MF", "classes.dex"]
        )

    def is_replaced(self, before: bytes, after: bytes, files: dict[str, bytes]) -> None:
        was, now = raw(before), raw(after)
        gone = re.compile(r"META-INF/(?:MANIFEST\.MF|CERT\.SF|cert\.rsa|A\.EC|SIG-X)")
        self.check_equal("its entries", [*now], [name for name in was if not gone.fullmatch(name)])
        with zipfile.ZipFile(io.BytesIO(after)) as read:
            self.check_equal("its comment", read.comment, b"a comment")
            for name, (data, begin, told) in now.items():
                if told[0] == zipfile.ZIP_STORED:
                    self.check_equal(f"{name} is aligned", begin % (16384 if name.endswith(".so") else 4), 0)
                if name in files:
                    self.check_equal(f"{name} in it", (read.read(name), told[0]), (files[name], was[name][2][0]))
                else:
                    self.check_equal(f"{name} in it", (data, told), was[name][::2])

    def replaced(self, name: str) -> str:
        """A folder with an archive out.apk, one file of which was replaced."""
        at = room(name, {"app.apk": application(assembled(A)), "classes.dex": assembled(CHANGED)})
        tool("dexasm-apk", "replace", "app.apk", "classes.dex", "--output", "out.apk", at=at)
        return at

    def test_zipalign(self) -> None:
        self.need("zipalign", "it isn't asked about alignment")
        at = self.replaced("replace zipalign")
        for words in (["-c", "4"], ["-c", "-p", "4"]):
            seen = run(["zipalign", *words, "out.apk"], at=at)
            self.check_equal(f"zipalign {words}", seen[0], 0)

    def test_apksigner(self) -> None:
        for program in ("apksigner", "keytool"):
            self.need(program, "nothing is signed")
        at = self.replaced("replace apksigner")
        key = "-genkeypair -keystore k -storepass secret -keypass secret -alias a -keyalg RSA -dname CN=a -validity 9"
        run(["keytool", *key.split()], at=at)
        sign = "sign --ks k --ks-pass pass:secret --min-sdk-version 21 out.apk"
        for text in (sign, "verify --min-sdk-version 21 out.apk"):
            seen = run(["apksigner", *text.split()], at=at)
            self.check_equal(f"apksigner {text.split()[0]}", seen[0], 0)
        put(at, "classes.dex", assembled(A))
        tool("dexasm-apk", "replace", "out.apk", "classes.dex", "--output", "again.apk", at=at)
        self.check_equal("of a signed one nothing is left of its signatures", get(at, "again.apk"),
                         Lacks(b"APK Sig Block"))
        seen = run(["apksigner", "verify", "--min-sdk-version", "21", "again.apk"], at=at)
        self.check_equal("apksigner verify, before it is signed anew", seen[0], Other(0))

    def test_hostile(self) -> None:
        """What can't be copied entry by entry, and files that can't go in: a line, and OUT is as it was."""
        at, file = room("replace hostile"), assembled(A)
        good = archive(("classes.dex", file), ("x", b"data"))
        puts(at, {
            "classes.dex": file, "bad/classes.dex": file[:-1], "classes3.dex": file, "OUT": SECRET, "good.apk": good
        })
        local, row = good.index(b"PK\3\4", 4), good.index(b"PK\1\2", good.index(b"PK\1\2") + 1)
        overlap = bytearray(good)
        struct.pack_into("<2I", overlap, row + 20, len(good), len(good))
        elsewhere = bytearray(good)
        struct.pack_into("<I", elsewhere, row + 42, local + 1)
        for what, given, words, status, says in (
            ("a file that is refused", good, ["bad/classes.dex"], 1, "bad/classes.dex: dexasm: refused "),
            ("an entry that isn't there", good, ["classes3.dex"], 3, "classes3.dex is in it not at all"),
            ("no classes*.dex", good, ["good.apk"], 2, "name it as the entry that it replaces"),
            ("a file twice", good, ["classes.dex", "./classes.dex"], 2, "it is given twice"),
            ("an entry twice", archive(("classes.dex", file), ("classes.dex", file)), ["classes.dex"], 3,
             "more than once"),
            ("entries that overlap", bytes(overlap), ["classes.dex"], 3, "its entries overlap"),
            ("a header elsewhere", bytes(elsewhere), ["classes.dex"], 3, "its own header isn't that of the directory"),
            ("another name", good.replace(b"x", b"y", 1), ["classes.dex"], 3, "its own header isn't"),
            ("another front", file + good, ["classes.dex"], 3, "it begins as a .dex file"),
            ("no archive", b"no archive", ["classes.dex"], 3, "no zip archive can be read"),
            ("a cut one", good[:-9], ["classes.dex"], 3, "no zip archive can be read"),
            *(
                (f"flag {bit}", changed(good, "classes.dex", *FLAGS, 1 << bit), ["classes.dex"], 3, "it is encrypted")
                for bit in (0, 5, 6, 13)
            ),
        ):
            put(at, "a.apk", given)
            seen = tool("dexasm-apk", "replace", "a.apk", *words, "--output", "OUT", at=at)
            self.check_equal(f"dexasm-apk replace, {what}", (seen, get(at, "OUT")),
                             ((status, "", Line("dexasm-apk: ") & Has(says)), SECRET))
        for words in (
            ["replace", "good.apk"], ["replace", "good.apk", "classes.dex"], ["check", "good.apk", "-o", "x"]
        ):
            seen = tool("dexasm-apk", *words, at=at)
            self.check_equal(f"dexasm-apk {words}", seen, (2, ANY, Begins("usage: ")))
        seen = tool("dexasm-apk", "replace", "good.apk", "classes.dex", "-o", "OUT", at=at, most=20)
        self.check_equal("dexasm-apk replace, no room", (seen[0], get(at, "OUT")), (3, SECRET))

    def test_descriptors(self) -> None:
        """Entries whose sizes stand behind their data, as streams are written, and with fields of their own."""
        at, file = room("replace descriptors"), assembled(A)

        extra = zipfile.ZipInfo("z")
        extra.extra = struct.pack("<2H4s", 0x5455, 4, b"time")
        puts(at, {"a.apk": streamed(("classes.dex", file), (extra, b"data")), "classes.dex": file})
        seen = tool("dexasm-apk", "replace", "a.apk", "classes.dex", "--output", "b.apk", at=at)
        made = get(at, "b.apk")
        self.check_equal("dexasm-apk replace, sizes behind", (seen, raw(made)["z"][0]), ((0, "", ""), b"data"))
        self.check_equal("dexasm-apk replace, fields stay", made, Has(b"UT\4\0time") & Lacks(b"PK\7\x08"))
        self.need("unzip", "it isn't asked about sizes behind")
        self.check_equal("unzip -t", subprocess.run(["unzip", "-tq", os.path.join(at, "b.apk")]).returncode, 0)


def normal(told: object) -> str:
    return re.sub(r"[\s,]+|entry.*?dex", " ", str(told))
