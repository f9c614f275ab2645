"""dexasm-check: what is left out, what is known already, where paths come from, and what a refused file is at sight."""
import json
import os

from .archive_files import archive
from .support import ESC, HEAD, NAMES, TOP, HelperTest, Line, assembled, get, put, room
from .test_check import checked, damaged, faults, is_safe
from .test_extras import annotated

GOOD = HEAD + b"class LA; 0x1\nsuper Ljava/lang/Object;\nend class\n"
NO_SUPER = HEAD + b"class LA; 0x1\nend class\n"
VERSIONED = "3 Version: its version is 037, made for a newer Android; where you make it, ask for version 035: d8 "
# Files that are none, and what is said of each.
AT_SIGHT = (
    (b"", "1 TooShort: the file is empty"),
    (b" \n\n", "1 TooShort: the file has no text"),
    (b"hello world\n", "1 TooShort: it is a text"),
    (b"hello world\n" * 20, "2 Magic: it is a text"),
    (b".class public LA;\n.super Ljava/lang/Object;\n", "1 TooShort: it is smali: smali assemble --api 23 makes "),
    (b"# a comment\n\n.class public LA;\n.super Ljava/lang/Object;\n" * 9, "2 Magic: it is smali: "),
    (b"package a.b;\nclass A {}\n", "1 TooShort: it is Java source: javac and d8 make "),
    (b"/* a ** b */ // c\n\npublic final class A {}\n", "1 TooShort: it is Java source"),
    (HEAD.decode().encode("utf-16"), "1 TooShort: it is a text in UTF-16: save it in ASCII"),
    (HEAD.decode().encode("utf-16-be"), "1 TooShort: there are fewer than 112 bytes"),
    (b"\xca\xfe\xba\xbe" + bytes(200), "2 Magic: it is a Java class file: d8 or dx makes "),
    (b"\x7fELF" + bytes(200), "2 Magic: it is an ELF file "),
    (b"\xff" * 200, "2 Magic: bytes 0 to 3 or byte 7 differ"),
    (b"#" * 200000, "2 Magic: it is a text"),
    (b"/*" * 100000, "2 Magic: it is a text"),
    (b"public a " * 30000, "2 Magic: it is a text"),
)


class CheckOptions(HelperTest):
    def test_at_sight(self) -> None:
        """What a file is that is none, in the line and in JSON."""
        at = room("check at sight")
        for number, (data, says) in enumerate(AT_SIGHT):
            with self.subTest(data[:40]):
                put(at, f"{number}", data)
                seen = checked(f"{number}", at=at)
                self.assertEqual((seen[0], seen[2]), (1, ""))
                self.assertRegex(seen[1], f"^{number}:0x[0-9a-f]+: error: ")
                self.assertIn(f": error: {says}", seen[1])
                told = json.loads(checked("--json", f"{number}", at=at)[1])
                line = f"{told['number']} {told['name']}: {told['why'] or told['sentence']}"
                self.assertEqual(line[: len(says)], says)
        put(at, "v37", get(TOP, "tests/vectors/003-Version.dex"))
        self.assertIn(VERSIONED, checked("v37", at=at)[1])
        put(at, "unsigned", get(TOP, "tests/vectors/009-Signature.dex"))
        self.assertIn(": error: 9 Signature: never signed: `dexasm-close` ", checked("unsigned", at=at)[1])

    def test_exclude(self) -> None:
        """By name, by a folder's name, by path; each with a line."""
        at, file = room("check exclude"), assembled(GOOD)
        for name in (
            "a/x.dex", "a/fixtures/bad.dex", "fixtures/bad.dex", "bad.dex", *(f"n/{name}.dex" for name in NAMES)
        ):
            put(at, name, damaged(file) if name.endswith("bad.dex") else file)
        for patterns, left in (
            (["fixtures", "bad.dex"], 3), (["./fixtures/", "*bad*"], 3), (["bad.*"], 3), (["*/bad.dex", "bad.dex"], 3),
            (["a/fixtures", "fixtures/*", "/bad.dex", "bad.dex"], 3), (["?ad.dex", "[!a-z]*"], 3),
            (["*"], 4 + len(NAMES))
        ):
            with self.subTest(patterns):
                seen = checked(*(word for one in patterns for word in ("--exclude", one)), ".", at=at)
                lines = seen[1].splitlines()
                out = [line for line in lines if ": excluded by --exclude " in line]
                self.assertTrue(is_safe(seen[1]), seen)
                self.assertEqual(len(lines), 4 + len(NAMES))
                is_all = patterns == ["*"]
                self.assertEqual(seen[0], 3 if is_all else 0, seen)
                self.assertGreaterEqual(len(out), left)
        self.assertEqual(checked("--exclude", "b", "bad.dex", at=at)[0], 1)
        seen = checked("--json", "--exclude", f"{ESC}[31m*", "--exclude", "bad*", "bad.dex", "a/x.dex", at=at)
        told = [json.loads(line) for line in seen[1].splitlines()]
        self.assertEqual([(one["status"], one["why"]) for one in told],
                         [("skipped", "excluded by --exclude bad*"), ("ok", None)])
        self.assertEqual(checked("--exclude", "bad*", "bad.dex", at=at)[0], 3)

    def test_baseline(self) -> None:
        """What was printed by --json is accepted, and nothing else."""
        file = assembled(GOOD)
        at = room("check baseline", {
            "a.dex": damaged(file), "b.apk": archive(("classes.dex", file), ("classes2.dex", damaged(file))),
            "c.txt": NO_SUPER, "d.txt": HEAD + b"nop\n"
        })
        words = "--lint", "a.dex", "b.apk", "c.txt", "d.txt", "none"
        put(at, "known", checked("--json", *words, at=at)[1].encode())
        seen = checked("--baseline", "known", *words, at=at)
        self.assertEqual(seen[0], 3)  # (what can't be read isn't known)
        self.assertEqual([line.partition(": ")[2][:6] for line in seen[1].splitlines()],
                         ["known:", "ok", "known:", "LA;: k", "known:", "error:"])
        self.assertEqual(checked("--baseline", "known", *words[:-1], at=at)[0], 0)
        document = json.loads(checked("--sarif", "--baseline", "known", *words[:-1], at=at)[1])
        self.assertEqual([*faults(document)], [])
        results = document["runs"][0]["results"]
        self.assertEqual([[one["kind"] for one in result["suppressions"]] for result in results], [["external"]] * 4)
        self.assertEqual(checked("--github", "--baseline", "known", *words[:-1], at=at), (0, "", ""))
        self.assertIn('failures="0" errors="0" skipped="4"',
                      checked("--junit", "--baseline", "known", *words[:-1], at=at)[1])
        put(at, "c.txt", b"# a line before\n" + HEAD + b"nop\n")
        self.assertEqual(checked("--baseline", "known", "c.txt", at=at)[0], 1)
        put(at, "e.dex", damaged(file))
        self.assertEqual(checked("--baseline", "known", "e.dex", at=at)[0], 1)
        put(at, "a.dex", file[:-1])
        self.assertEqual(checked("--baseline", "known", "a.dex", at=at)[0], 1)

    def test_hostile_baseline(self) -> None:
        at = room("check hostile baseline", {"a.dex": assembled(GOOD)})
        for data in (
            b"x", b"[]", b"1\n", b'{"status": "refused"}', b'{"status": []}', b"[" * 100000, b"\xff", b"null",
            b'{"status": "refused", "file": {}}'
        ):
            with self.subTest(data[:20]):
                put(at, "known", data)
                seen = checked("--baseline", "known", "a.dex", at=at)
                self.assertEqual(seen[:2], (3, ""), seen)
                self.assertEqual(seen[2], Line("dexasm-check: known: line 1 is no verdict of --json"))
        self.assertEqual(checked("--baseline", "none", "a.dex", at=at)[0], 3)
        put(at, "known", b"")
        self.assertEqual(checked("--baseline", "known", "a.dex", at=at), (0, "a.dex: ok\n", ""))

    def test_input(self) -> None:
        """Standard input is a file like others; nothing of it is left."""
        at, file = room("check input"), assembled(GOOD)
        os.mkdir(os.path.join(at, "tmp"))
        put(at, "a.dex", file)
        for given, want in (
            (file, (0, "-: ok\n", "")), (GOOD, (0, "-: ok\n", "")), (b"", (1, "-:0x00: error: 1 TooShort: ", "")),
            (file[:99], (1, "-:0x63: error: 1 TooShort: ", "")),
            (archive(("classes.dex", file)), (0, "-!classes.dex: ok\n", ""))
        ):
            seen = checked("-", at=at, given=given, TMPDIR="tmp")
            self.assertEqual((seen[0], seen[1][: len(want[1])], seen[2]), want)
        self.assertEqual(checked("a.dex", "-", "a.dex", at=at, given=file, TMPDIR="tmp")[1],
                         "a.dex: ok\n-: ok\na.dex: ok\n")
        seen = checked("--memory", "1M", "-", at=at, given=bytes(3 << 20), TMPDIR="tmp")
        self.assertEqual(seen, (4, "", "dexasm-check: standard input: it is longer than --memory\n"))
        self.assertEqual(os.listdir(os.path.join(at, "tmp")), [])
        self.assertEqual(checked("-", at=at, given=file, TMPDIR="none")[0], 0)

    def test_paths_from(self) -> None:
        file = assembled(GOOD)
        at = room("check paths", {"a.dex": file, "b\n.dex": damaged(file), "paths": b"a.dex\0b\n.dex\0\0none"})
        for words, given in ((["paths"], b""), (["-"], get(at, "paths"))):
            seen = checked("--paths-from", *words, at=at, given=given)
            self.assertEqual(seen[0], 3)
            self.assertEqual([line.split(":")[0] for line in seen[1].splitlines()], ["a.dex", "b\\x0a.dex", "none"])
        for words in (["-", "-"], ["-", "a.dex", "-"]):
            self.assertEqual(checked("--paths-from", *words, at=at)[:2], (2, ""))
        self.assertEqual(checked("--paths-from", "none", at=at),
                         (3, "", "dexasm-check: none: No such file or directory\n"))
        self.assertEqual(checked(at=at)[:2], (2, ""))

    def test_counts(self) -> None:
        """--program counts what a file has beside its program."""
        at = room("check counts", {"a.dex": annotated(), "b.dex": damaged(annotated())})
        told = [json.loads(line) for line in checked("--json", "--program", "a.dex", "b.dex", at=at)[1].splitlines()]
        self.assertEqual([one["annotations"] for one in told], [{"build": 1, "runtime": 2, "system": 1}, None])
        self.assertEqual([one["debug_methods"] for one in told], [1, None])
        self.assertNotIn("annotations", checked("--json", "a.dex", at=at)[1])
