"""dexasm-explain: what it says of each refusal, whatever stands at its place."""
import hashlib
import json
import re
import struct
import zlib
from collections.abc import Iterable
from typing import Any

from tests import config
from tests.matchers import ANY, EMPTY, Begins, Has, Lacks
from .archive_files import archive
from .patched_files import PatchedTest
from .support import ESC, HEAD, LISTING, TOP, Line, assembled, get, put, puts, room, run, shell, tool

PAGES = "".join(get(TOP, f"docs/{name}.md").decode() for name in ("FORMAT", "LISTING"))
NUMBERS = sorted({int(number) for number in re.findall(r"^\| (\d+) \| [A-Z]\w+ \|", PAGES, re.M)})
CLASS = b"class LA; 0x1\nsuper Ljava/lang/Object;\n"


def closed(file: bytes) -> bytes:
    file = file[:12] + hashlib.sha1(file[32:]).digest() + file[32:]
    return file[:8] + struct.pack("<I", zlib.adler32(file[12:])) + file[12:]


# Members that are refused, each by its fault.
METHOD = b"direct b ()V 0x9\ncode 1 0 0\n%send code\n"
MEMBERS = (
    ("110 Name", b"direct b (V[I)V 0x9\n", "b(V[I)V"),
    ("114 Operand", METHOD % b"", "b()V"),
    ("115 Target", METHOD % b":L0\ngoto :L0\n", "b()V"),
    ("116 PayloadUse", METHOD % b":L0\nfill-array-data v0 :L0\n", "b()V"),
    ("117 Try", METHOD % b":L0\nreturn-void\ntry :L0 :L0\ncatchall :L0\n", "b()V"),
    ("118 Register", METHOD.replace(b"()V", b"(I)V") % b"return v7\n", "b(I)V"),
    ("86 Misaligned", METHOD % b":L0\npacked-switch v0 :L1\n:L1\npacked-switch-payload 0 :L0\n", "b()V"),
    ("85 BranchOutOfReach", METHOD % (b"goto :L9\n" + b"nop\n" * 200 + b":L9\nreturn-void\n"), "b()V"),
)


class Explain(PatchedTest):
    def explained(self, at: str, words: Iterable[str], given: bytes) -> str:
        """What is told of a file by the line that dexasm told."""
        put(at, "file", given)
        told = run([config.program(), *words, "file"], at=at)[2]
        status, out, said = tool("dexasm-explain", "file", given=told.encode(), at=at)
        self.check_equal("ends well", (status, said, out), (0, "", Begins(told)))
        return out

    def says(self, what: str, at: str, words: Iterable[str], given: bytes, *wants: str) -> None:
        out = self.explained(at, words, given)
        self.check_equal(what, [want for want in wants if want not in out], [])

    def test_files(self) -> None:
        at, file = room("explain files"), assembled(LISTING)
        for what, given, words in (
            ("nothing", b"", "the file is empty"),
            ("a text", b"hello", "it is a text"),
            ("an archive", b"PK\3\4" + bytes(200), "dexasm-apk"),
            ("a short archive", b"PK\3\4", "it is a zip archive"),
            ("a class of Java", b"\xca\xfe\xba\xbe" + bytes(200), "it is a Java class file"),
            ("an .odex file", b"dey\n036\0" + bytes(200), "it is an .odex file"),
            ("a listing", LISTING[19:], "it is a listing"),
            ("another version", file[:4] + b"037" + file[7:], "its version is 037, made for a newer Android"),
            ("a version of escapes", file[:4] + b"\x1b[m" + file[7:], "its version is \\x1b[m"),
            ("bytes after the end", file + b"x", f"file_size is {len(file)}, and the file has {len(file) + 1} bytes"),
            ("a byte that was changed", file[:200] + b"\xff" + file[201:], "that of the bytes is"),
            ("a signature", file[:8] + struct.pack("<I", zlib.adler32(bytes(20) + file[32:])) + bytes(20) + file[32:],
             "that of the bytes is"),
        ):
            self.says(what, at, ["check"], given, "  The place is ", "  Hint: ", words)
        old = file[:12] + hashlib.sha1(file[32:-52]).digest() + file[32:]
        self.says("a signature of D8", at, ["check"], old[:8] + struct.pack("<I", zlib.adler32(old[12:])) + old[12:],
                  "9: ", "as D8 before 1.6.20 wrote it")
        self.says("the bytes there", at, ["check"], file[:-1], "    00000020  d8 02 00 00 70", "\n              ^^\n")

    def test_rows(self) -> None:
        """The class of a row, and the method of a code."""
        at, text = (
            room("explain rows"),
            HEAD + CLASS + b"end class\nclass Lb/C; 1\ndirect k (I[J)La/D; 9\ncode 4 4 0\n%send code\nend class\n",
        )
        file = assembled(text % b"nop\nnop\nreturn-object v3\n")
        rows, code = struct.unpack_from("<I", file, 100)[0], file.index(struct.pack("<HHHHII", 4, 4, 0, 0, 0, 3))
        for what, place, form, number, want in (
            ("a source file", rows + 16, "<I", 0x7FFFFFFF, "40 ClassIndex"),
            ("a superclass", rows + 32 + 8, "<I", 0x7FFFFFFF, "40 ClassIndex"),
            ("an opcode", code + 18, "<H", 0x00FF, "62 Opcode"),
            ("registers", code, "<H", 3, "73 Register"),
            ("no unit", code + 12, "<I", 0, "61 EmptyCode"),
        ):
            changed = bytearray(file)
            struct.pack_into(form, changed, place, number)
            where = "LA;" if place < rows + 32 else "Lb/C;" if "40" in want else "Lb/C;->k(I[J)La/D;"
            self.says(what, at, ["check"], closed(bytes(changed)), f"refused {want} at ", f"\n  In {where}.\n")

    def test_members(self) -> None:
        """The character that a name can't have, the member that stands twice, the number that is spelled too far."""
        at, stricter = room("explain members"), {what.split(": ")[1]: file for what, file, _ in self.stricter_files()}
        space = "the name a b has U+0020 at its character 2, which names can have since version 040 alone"
        for what, file, number, want in (
            ("a space", stricter["a space in a name"], 34, f"  Hint: {space}."),
            ("an escape", self.replaced(b"\x03a_b\0", b"\x03a\x1bb\0"), 34,
             "the name a\\x1bb has U+001B at its character 2"),
            ("a type", self.replaced(b"\x03LZ;\0", b"\x03L\x7f;\0"), 24,
             "the name L\\x7f; has U+007F at its character 2"),
            ("a field", self.replaced(b"\x01f\0", b"\x01|\0"), 31,
             "the name | has U+007C at its character 1, which no name"),
            ("twice", stricter["a member twice"], 47, "the class has a_b()V twice in a list, as dx"),
            ("twice, where", stricter["a member twice"], 47, "  In LB;->a_b()V.\n"),
            ("too far", stricter["a fifth byte"], 44, "81 80 80 80 11, is none of 32 bits"),
        ):
            self.says(what, at, ["check"], file, f"refused {number} ", want)
        told = b"".join(b"dexasm: refused %d N at %d\n" % (number, place) for number in (24, 31, 34, 44, 47)
                        for place in (0, 112, 240, 2**31, 2**32, 10**19))  # fmt: skip
        for name, file in stricter.items():
            for end in (len(file), 300, 112, 60):
                seen = tool("dexasm-explain", put(at, "file", file[:end]), given=told, at=at)
                self.check_equal(f"{name}, other places, {end} bytes", seen, (0, ANY, ""))

    def test_lines(self) -> None:
        """The causes of 100, and the words of 102."""
        at, line = room("explain lines"), b"direct m ()V 0x9\ncode 2 0 0\n"
        for what, text, words in (
            ("commas", b"add-int v0, v0, v1", "there is a comma at column 11"),
            ("a tab", b"nop\t", "there is a tab at column 4"),
            ("CRLF", b"nop\r", "the line ends in a carriage return (CRLF)"),
            ("a comment at the end", b"nop # why", "a comment needs its own line"),
            ("smali", b".line 3", "it is smali"),
            ("smali's method", b".method public static main([Ljava/lang/String;)V", "it is smali"),
            ("a letter", 'const-string v0 "\u00e9"'.encode(), "the bytes c3 a9 at column 18 are none of a listing"),
            ("an open text", b'const-string v0 "a', "a text isn't closed"),
            ("an escape", rb'const-string v0 "a\n"', "in a text a backslash begins"),
            ("words after a text", b'const-string v0 "a"b', "a space has to follow a text"),
        ):
            self.says(what, at, ["assemble"], HEAD + CLASS + line + text + b"\n", f"  Hint: {words}", "  In LA;->m()V.")
        for what, text, words in (
            ("a word for a flag", b"class LZ; public\n", "flags are a number: public is 0x1 (docs/LISTING.md"),
            ("words for flags", b"class LZ; public final\n", "flags are a number: public final is 0x11 ("),
            (
                "one of a field", CLASS + b"static i I 9\nstatic j I volatile\n",
                "flags are a number: volatile is 0x40 ("
            ),
            ("one of a method", CLASS + b"direct m ()V static bridge\n", "flags are a number: static bridge is 0x48 ("),
            ("a word of a class alone", CLASS + b"direct m ()V interface\n", "  102: a word is not what this line needs"),
        ):
            self.says(what, at, ["assemble"], HEAD + text, words)
        found = self.explained(at, ["assemble"], HEAD + CLASS + b"direct m ()V interface\n")
        self.check_equal("no hint of a flag that a method can't have", found, Lacks("flags are"))
        for what, text, words in (
            ("a byte order mark", b"\xef\xbb\xbf" + HEAD, "a byte order mark"),
            ("a first line of another version", b"dex 038\n", "a listing begins with"),
            ("no first line", b"\n# it\nnop\n", "the first line has to be"),
            ("CRLF in the first line", b"dex 035 listing 2\r\n", "carriage return"),
        ):
            self.says(what, at, ["assemble"], text, "100: the line isn't of the listing's form", words)
        self.says("a number", at, ["assemble"], HEAD + CLASS + b"instance i I x\n",
                  "102: a word is not what this line needs at its place", "4: instance i I x", "In LA;->i:I")
        self.says("a long line", at, ["assemble"], HEAD + b'\\"' * 500000, "  100: ", " ..\n")
        self.says("a line of escapes", at, ["assemble"], HEAD + f"nop {ESC}]0;x\x07\u202e\x9b".encode(),
                  "nop \\x1b]0;x\\x07")
        self.check_equal("no escape is shown", self.explained(at, ["assemble"], HEAD + f"n{ESC}op\n".encode()),
                         Lacks(ESC))

    def test_classes(self) -> None:
        """The line of a class, and of the member that is at fault, which stands between others."""
        at, good = room("explain classes"), b"direct a ()V 0x9\ncode 1 0 0\nreturn-void\nend code\nstatic f I 0x9\n"
        other = b"# first\nclass LZ; 1\ndirect m ()V 0x9\ncode 1 0 0\nreturn-void\nend code\nend class\n\n"
        after = good.replace(b"a ()V", b"z ()V").replace(b" f I", b" g I") + b"end class\n"
        for number, member, where in MEMBERS:
            out = self.explained(at, ["assemble"], HEAD + other + CLASS + good + member + after)
            first = member.decode().split("\n")[0]
            wants = (
                f"refused {number} at 1\n", "   10: class LA; 0x1\n", f"    17: {first}\n", f"  In LA;->{where}.\n"
            )
            self.check_equal(f"the place of {number}", [want for want in wants if want not in out], [])
        out = self.explained(at, ["assemble"],
                             HEAD + other + CLASS + b"implements LL;\n" + after + b"class LL; 1\nend class\n")
        self.check_equal("the place of 112", out, Has("refused 112 ClassOrder at 1\n", "   10: class LA; 0x1\n"))

    def test_words(self) -> None:
        """The line, the word and why: of lines and of classes, of a file that is listed, and of a text that isn't
        it."""
        at, line = room("explain words"), b"direct m ()V 0x9\ncode 2 0 0\n%b\nend code\nend class\n"
        for what, text, number, says_line, hint in (
            ("a register", b"move v16 v0", 102, "6: move v16 v0", "v16: v0 to v15 here; move/from16 or move/16 takes"),
            ("a literal", b"const/4 v0 9", 102, "6: const/4 v0 9", "9: a number from -8 to 7 is expected here; const/16 or"),
            ("a label", b"nop\ngoto :q", 105, "7: goto :q", ":q is no label of this code"),
            ("a register too high", b"nop\nmove v0 v3", 118, "7: move v0 v3", "v3 of 2 registers"),
            (
                "a branch", b"goto :a\n" + b"nop\n" * 200 + b":a\nnop", 85, "6: goto :a",
                ":a: it leads 201 units on: goto"
            ),
            ("a payload", b"nop\narray-payload 1", 86, "7: array-payload 1",
             "the payload is at the odd address 1: a nop"),
        ):
            given = HEAD + CLASS + line.replace(b"%b", text)
            self.says(what, at, ["assemble"], given, f"refused {number} ", f"    {says_line}\n", f"  Hint: {hint}",
                      "In LA;->m()V")
        later = HEAD + b"class LA; 1\nsuper LB;\nend class\nclass LB; 1\nend class\n"
        hint = "LB;: the superclass of LA; must be before it: LB; is defined after it, at line 5"
        self.says("a later superclass", at, ["assemble"], later, "    2: class LA; 1\n    3: super LB;\n",
                  f"  Hint: {hint}.\n")
        for number, hint in ((82, "const-string/jumbo"), (85, "goto/32"), (87, "two tries")):
            out = tool("dexasm-explain", given=b"dexasm: refused %d N at 0\n" % number)[1]
            self.check_equal(f"what mends {number}", out, Has("  Hint: ", hint))
        far = b"goto :a\narray-payload 1\n" + b"nop\n" * 122 + b":a\nnop"
        given = HEAD + CLASS + line.replace(b"%b", far)
        wants = "refused 85 ", "    6: goto :a\n", "leads 128 units on"
        self.says("a branch by --align", at, ["assemble", "--align"], given, *wants)

    def test_other_classes(self) -> None:
        """Classes that the file doesn't have, those of a .dex file, and without dexasm."""
        at = room("explain other classes")
        self.check_equal("--align", tool("dexasm-explain", given=b"dexasm: refused 86 Misaligned at 0\n")[1],
                         Has("`dexasm assemble --align`"))
        told = b"dexasm: refused 118 Register at 7\n"
        put(at, "short", LISTING)
        self.check_equal("a class that isn't there", tool("dexasm-explain", "short", given=told, at=at)[0], 0)
        put(at, "a.dex", assembled(LISTING))
        out = tool("dexasm-explain", "a.dex", given=b"dexasm: refused 89 HandlerTooFar at 1\n", at=at)[1]
        self.check_equal("the class of a file", out, Has("class La; 0x1"))
        without = tool("dexasm-explain", "a.dex", given=b"dexasm: refused 89 HandlerTooFar at 1\n", at=at,
                       DEXASM_COMMAND="/none")
        self.check_equal("no dexasm", without, (3, ANY, Line("dexasm-explain: DEXASM_COMMAND names")))

    def test_input(self) -> None:
        """Lines that are none of dexasm's."""
        at = room("explain input", {"file": LISTING})
        for what, given, want in (
            ("other lines", b"ok\n", "ok\n"),
            ("nothing", b"", ""),
            ("no line feed", b"ok", "ok\n"),
            ("a fault that isn't", b"refused 7777 X at 1\n", "refused 7777 X at 1\n"),
            ("escapes", f"a{ESC}[31m\x9b\u202eb\x07\n".encode(), "a\\x1b[31m\\x9b\\u202eb\\x07\n"),
            ("bytes", b"\xff\n", "\\xff\n"),
            ("a return", b"a\rb\n", "a\\x0db\n"),
            ("digits", b"refused " + b"9" * 9000 + b" X at 1\n", "refused " + "9" * 9000 + " X at 1\n"),
        ):
            seen = tool("dexasm-explain", "file", given=given, at=at)
            self.check_equal(what, seen, (0, want or "\n" if given == b"" else want, ""))
        out = tool("dexasm-explain", "file", given=b"x: refused 8 Checksum at 18446744073709551615\n", at=at)
        self.check_equal("a place past the end", out[:2], (0, Has("  8: ")))
        out = tool("dexasm-explain",
                   given=b"refused 1 TooShort at 0: x: dexasm: refused 8 Checksum at 8: the Adler-32 differs\n", at=at)
        self.check_equal("a name that looks like a refusal", out[1], Has("\n  8: ") & Lacks("\n  1: "))

    def test_names(self) -> None:
        """Names of files, and pipes that nobody reads."""
        at = room("explain names", {"file": LISTING})
        for name in ("none", f"{ESC}[31m", "a\nb"):
            seen = tool("dexasm-explain", name, given=b"ok\n", at=at)
            self.check_equal(f"no file {name!r}", seen, (3, "", Line("dexasm-explain: ")))
        put(at, "-x", b"")
        self.check_equal("-x", tool("dexasm-explain", "--", "-x", given=b"dexasm: refused 1 TooShort at 0\n", at=at)[0],
                         0)

    def test_json(self) -> None:
        at = room("explain json", {"file": HEAD + CLASS + b"nop, x\n"})
        told: bytes | tuple[Any, ...] | list[Any]
        told = f"{ESC}x: dexasm: refused 100 Word at 4\nok\ndexasm: refused 8 Checksum at 8\n".encode()
        status, out, said = tool("dexasm-explain", "--json", "file", given=told, at=at)
        first, second = (json.loads(line) for line in out.splitlines())
        fields = ["number", "name", "place", "sentence", "place_is", "found", "hints", "page", "line", "column",
                  "class", "member"]
        fields += ["instruction", "word"]
        self.check_equal("--json", (status, said, list(first), list(second)), (0, "", fields, fields))
        told = (first["number"], first["name"], first["place"], first["line"], first["found"], len(first["hints"]))
        self.check_equal("--json, a line", (told, first["hints"][0]),
                         ((100, "Word", 4, 4, ["4: nop, x"], 1), Has("column 4")))
        self.check_equal("--json, escapes", out, Lacks(ESC))
        put(at, "file", HEAD + CLASS + METHOD % b"nop\nmove v0 v9\n" + b"end class\n")
        out = tool("dexasm-explain", "--json", "file", given=b"dexasm: refused 118 Register at 0\n", at=at)[1]
        told = [
            json.loads(out)[field] for field in ("line", "column", "class", "member", "instruction", "word", "hints")
        ]
        self.check_equal("--json, a class", told, [7, 9, "LA;", "b()V", 1, "v9", ["v9 of 1 register"]])

    def test_others(self) -> None:
        """Refusals of another file than the one that is named: an answer, whatever stands there."""
        at, file = room("explain others"), assembled(LISTING)
        told = "".join(
            f"dexasm: refused {number} N at {place}\n" for number in NUMBERS for place in (0, 1, 5, 1 << 40)
        ).encode()
        for name, given in (
            ("bytes", bytes(range(256)) * 9),
            ("nothing", b""),
            ("a cut listing", LISTING[:140]),
            ("a cut file", file[:-9]),
            ("a file", file),
            ("words", b"class\ndirect\ndirect m\ncode\nend code\nclass LA;\nvirtual a b c d\nend class\n" * 3),
            ("no letters", b"class \xff\xfe \x1b\ndirect \x9b \xff\n"),
        ):
            put(at, "file", given)
            seen = tool("dexasm-explain", "file", given=told, at=at)
            self.check_equal(f"another file: {name}", (seen, seen[1].count("\nrefused")), ((0, Lacks(ESC), ""), 0))

    def test_check(self) -> None:
        """dexasm-check --explain prints the same lines below each refusal."""
        at = room("explain check")
        file = assembled(LISTING)
        puts(at, {
            "cut.dex": file[:-1], "a.txt": HEAD + b"class LA; 0x1\nsuper LA;\nend class\n",
            "b.txt": HEAD + b"class LA; 0x1\nmetod m\nend class\n",
            "a.apk": archive(("classes.dex", file), ("classes2.dex", file[:9])), "ok.dex": file
        })
        inner = archive(("x.dex", b"dex"))
        put(at, "nested.zip", archive(("a.jar", inner)))
        refusals = {"cut.dex": "check", "a.txt": "assemble", "b.txt": "assemble"}
        wants = {
            name: shell(f"dexasm {job} {name} 2>&1 | dexasm-explain {name}", at)[1] for name, job in refusals.items()
        }
        wants["a.apk"] = shell("dexasm-apk check a.apk 2>&1 | dexasm-explain a.apk", at)[1].partition("ok\n")[2]
        for name, want in wants.items():
            status, out, said = tool("dexasm-check", "--explain", "--quiet", name, at=at)
            lines = [text.partition("\n")[2] for text in (out, want)]
            self.check_equal(f"dexasm-check --explain {name}", (status, lines[0], said), (1, lines[1], ""))
            self.check_equal("and there are some", out, Has("\n  The place is "))
        seen = tool("dexasm-check", "--explain", "ok.dex", "none", "nested.zip", at=at)
        want = "ok.dex: ok\nnone: error: No such file or directory\n"
        self.check_equal("dexasm-check --explain, what isn't refused, and an archive in an archive", seen,
                         (3, Begins(f"{want}nested.zip!a.jar!x.dex:"), ""))
        for form in ("--json", "--sarif", "--github", "--junit"):
            seen = tool("dexasm-check", "--explain", form, "ok.dex", at=at)
            self.check_equal(f"dexasm-check --explain {form}", seen, (2, "", Has("--explain is for lines")))

    def test_pages(self) -> None:
        """Each fault of the pages has a sentence that stands alone."""
        at = room("explain pages")
        told = "".join(f"dexasm: refused {number} Name at 0\n" for number in NUMBERS)
        out = [
            json.loads(line) for line in tool("dexasm-explain", "--json", given=told.encode(), at=at)[1].splitlines()
        ]
        self.check_equal("each number", ([one["number"] for one in out], [one for one in out if not (one["sentence"])]),
                         (NUMBERS, []))
        self.check_equal("no sentence leans on another", [one for one in out if one["sentence"].startswith("the same")],
                         EMPTY)
