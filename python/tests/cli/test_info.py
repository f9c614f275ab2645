"""dexasm-info: each byte once and as the page has it, and refused files of every fault, of which none is a program."""
import hashlib
import json
import os
import random
import re
import struct
import threading
import time
from collections.abc import Iterable

from dexasm.cli.dump import Dump, dump
from dexasm.cli.tables import Readable, rows_read, sections, tables
from tests.matchers import ANY, EMPTY, SOME, Below, Has, Lacks
from tests.oracle import examples, making, mutating
from .support import (
    ESC, HEAD, LISTING, NAMES, TOP, Ended, HelperTest, Line, assembled, dexasm, get, put, puts, room, tool
)

ROW = re.compile(r"([0-9a-f]{8})  ((?:[0-9a-f]{2} )*[0-9a-f]{2})(?:  |$)")
LARGE = 4000  # bytes of an example that takes no time


def bytes_in(lines: Iterable[str]) -> tuple[bytes | None, int | None]:
    """The bytes that the lines of --hex have, if each begins where the one before ends, and where the first begins."""
    first: int | None
    found, first = b"", None
    for line in lines:
        row = ROW.match(line)
        if row:
            first = int(row[1], 16) if first is None else first
            if int(row[1], 16) != first + len(found):
                return None, first
            found += bytes.fromhex(row[2])
    return found, first


def of_examples() -> list[tuple[str, bytes, tuple[str, int] | None]]:
    """Each worked example: what it shows, its bytes, and its fault or None."""
    return [(said, data, answer) for said, data, answer in examples.examples()]


def strings(count: int, at: int | None = None) -> bytes:
    """A file of so many strings; with `at` all are one text, which is as long as the file."""
    rows = 112 + 4 * count
    texts = [b"\4" + b"%04x" % n + b"\0" for n in range(count)] if at is None else [b"\xff\xff\x03" + b"x" * 8 * count]
    places = [at or rows + 6 * n for n in range(count)]
    data = struct.pack(f"<{count}I", *places) + b"".join(texts)
    head = b"dex\n035\0" + bytes(24) + struct.pack("<9I", 112 + len(data), 112, 0x12345678, 0, 0, 0, count, 112, 0)
    return head + bytes(112 - len(head)) + data


class Info(HelperTest):
    def test_page(self) -> None:
        """The fields of a small file, as the page "Dalvik Executable format" names them, and what stands in it."""
        at = room("info", {"one.dex": examples.ONE_METHOD})
        status, out, said = tool("dexasm-info", "--hex", "one.dex", at=at)
        self.check_equal(
            "--hex, each byte", (status, said, bytes_in(out.splitlines())[0]), (0, "", examples.ONE_METHOD)
        )
        for line in (
            "00000020  78 01 00 00              file_size 376",
            "00000028  78 56 34 12              endian_tag 0x12345678",
            "00000080  00 00 00 00              type 0, string 0: LA;",
            "0000008c  02 00 00 00 02 00 00 00  proto 0, shorty string 2: ()V",
            "00000098  00 00 00 00 03 00 00 00  method 0, LA;->m()V",
            "000000a0  00 00 00 00              class_idx 0, LA;",
            "000000a4  01 00 00 00              access_flags 0x1 public",
            "000000b0  ff ff ff ff              source_file_idx 0xffffffff",
            "000000c0  01 00                    registers_size 1",
            "000000cc  01 00 00 00              insns_size 1 units",
            "000000d0  0e 00                    0000: return-void",
            '000000d2  03 4c 41 3b 00           string 0, utf16_size 3: "LA;"',
            "000000f3  01                       direct_methods_size 1",
            "000000f5  00 09 c0 01              direct method LA;->m()V, 0x9 public static, code at 0xc0",
            "000000f9  00 00 00                 padding",
            "00000100  00 00                    type 0x0000, header_item",
        ):
            self.check_equal(f"--hex, {line!r}", out, Has(f"\n{line}\n"))
        told = json.loads(tool("dexasm-info", "--json", "one.dex", at=at)[1])
        fields = dict(zip(list(told["header"])[3:], struct.unpack_from("<20I", examples.ONE_METHOD, 32)))
        self.check_equal("--json, the header", (len(fields), told["header"] | fields), (20, told["header"]))
        self.check_equal("--json, the map", [one["type"] for one in told["map"]],
                         [0, 1, 2, 3, 5, 6, 0x2001, 0x2002, 0x2000, 0x1000])
        sizes = sum(one["size"] for one in told["sections"]), sum(told["bytes"].values()), told["file"]["size"]
        self.check_equal("--json, sizes", (told["refused"], *sizes), (None, 376, 376, 376))

    def test_program(self) -> None:
        """Two files of one program have one hash, that of what strip writes."""
        at, one = room("info program"), examples.ONE_METHOD
        other = making.closed(one + bytes(8))
        other = examples.changed(other, (0x20, struct.pack("<I", len(other)).hex()))
        stripped = hashlib.sha256(dexasm("strip", given=one)).hexdigest()
        for name, data in (("one", one), ("other", other)):
            put(at, name, data)
            told = json.loads(tool("dexasm-info", "--json", name, at=at)[1])
            self.check_equal(f"the program of {name}", (told["program"], told["file"]["sha256"]),
                             ({"size": 376, "sha256": stripped}, hashlib.sha256(data).hexdigest()))
        out = tool("dexasm-info", "other", at=at)[1]
        self.check_equal("what strip takes", out, Has("  strip    takes 8 bytes away (2.1 %), leaves 376\n"))

    def test_limits(self) -> None:
        """What can still be named, with as many rows as there may be: the counts of the header are all that is
        asked."""
        data = bytearray(examples.NO_CLASSES)
        for place, count in ((56, 65537), (64, 65535), (72, 0), (80, 65536), (88, 65000)):
            struct.pack_into("<I", data, place, count)
        left = {name: one["left"] for name, one in tables(bytes(data)).items()}
        want = {
            "string_ids": 0, "type_ids": 0, "proto_ids": 65535, "field_ids": 0, "method_ids": 536, "class_defs": 65535
        }
        self.check_equal("what can still be named", left, want)

    def test_each_byte(self) -> None:
        """Of each example and of random programs every byte once, whatever is shared, cut or left over."""
        given = [(said, data) for said, data, fault in of_examples() if fault is None and len(data) < LARGE]
        rng = random.Random(5)
        given += [(f"random program {at}", data) for at, data in enumerate(mutating.random_samples(rng, 25))]
        for said, data in given:
            found = [*Dump(data, {}).pieces()]
            lost = [what for _, _, _, what in found if what == "can't be read"]
            self.check_equal(f"--hex, each byte of {said}", ([0, *(end for _, end, _, _ in found)], lost),
                             ([*(begin for begin, _, _, _ in found), len(data)], []))
            parts = sections(data)
            self.check_equal(
                f"the sections of {said}",
                (
                    sum(one["size"] for one in parts),
                    [
                        (one, next_) for one, next_ in zip(parts, parts[1:])
                        if one["offset"] + one["size"] != next_["offset"]
                    ]
                ),
                (len(data), [])
            )
        at = room("info random")
        for number, (_, data) in enumerate(given[-2:]):
            put(at, f"{number}.dex", data)
            seen = tool("dexasm-info", "--hex", f"{number}.dex", at=at)
            self.check_equal(f"--hex, random program {number}", (seen[:2], bytes_in(seen[1].splitlines())[0]),
                             ((0, Lacks("opcode")), data))

    def test_faults(self) -> None:
        """A refused file of every fault: its bytes once, the fault marked at its place, and no word of a program."""
        at, asked = room("info faults"), set()
        for said, data, fault in of_examples():
            if fault is None or len(data) > LARGE:
                continue
            name, place = fault
            lines = list(dump(data, "a.dex", (7, name, place), 0, len(data)))
            marks = [i for i, line in enumerate(lines) if line.startswith(">>>>>>>>  refused 7 ")]
            behind = ROW.match(lines[marks[0] + 1]) if marks and marks[0] + 1 < len(lines) else None
            row = int(behind[1], 16) if behind and place < len(data) else place
            self.check_equal(f"--hex, {said}", (bytes_in(lines)[0], len(marks)), (data, 1))
            self.check(f"--hex, {said}: the row behind the mark", row <= place < row + 8, lines[-3:])
            json.dumps(rows_read(data))
            asked.add(name)
            put(at, f"{name}.dex", data)
        self.check("examples of many faults", len(asked) >= 30, sorted(asked))
        for name in ("ClassData", "Checksum", "Opcode", "StringPlace"):
            plain, told = tool("dexasm-info", f"{name}.dex", at=at), tool("dexasm-info", "--json", f"{name}.dex", at=at)
            line = Line(f"dexasm-info: {name}.dex: dexasm: refused ") & Has(f" {name} at ")
            self.check_equal(name, (plain, told[:2]), ((1, Lacks("program"), line), (1, Lacks("program"))))
            self.check_equal(name, json.loads(told[1])["refused"]["name"], name)

    def test_rows(self) -> None:
        """Which rows of a refused file can be read: those that lie in it and lead to what they name."""
        one = examples.ONE_METHOD
        for said, data, table, want in (
            ("a wrong checksum", one[:8] + b"wxyz" + one[12:], "type_ids", ["LA;", "Ljava/lang/Object;", "V"]),
            ("cut behind the first string", one[:0xD7], "string_ids", ["LA;", None, None, None]),
            ("a string that is nowhere", one[:0x74] + b"\xff" * 4 + one[0x78:], "type_ids", ["LA;", None, "V"]),
            ("a type's row that is nowhere", one[:0x84] + b"\xff" * 4 + one[0x88:], "type_ids", ["LA;", None, "V"]),
            ("a table that runs on", one[:0x60] + struct.pack("<2I", 9, 0x158) + one[0x68:], "class_defs", [None]),
            ("a table behind the end", one[:0x44] + struct.pack("<I", 0xFFFFFFFC) + one[0x48:], "type_ids", []),
            ("other first bytes", b"dey\n" + one[4:], "type_ids", []),
            ("a header alone", one[:111], "string_ids", []),
        ):
            found = rows_read(data)[table]["read"]
            self.check_equal(f"rows of {said}", found, want)
        row = rows_read(one[:-1])["class_defs"]["read"]
        want = {"class": "LA;", "flags": 1, "access": "public", "superclass": "Ljava/lang/Object;", "interfaces": [],
                "source": None}
        self.check_equal("the class list", row, [want])

    def test_cut(self) -> None:
        """Cut at each length, and each number of a small file as large as it can be: nothing but what can be read."""
        wrong: list[int | tuple[int, str]]
        file, wrong = examples.ONE_METHOD, []
        large = [file[:at] + b"\xff" * 4 + file[at + 4 :] for at in range(0, len(file) - 3, 4)]
        for data in (*(file[:length] for length in range(len(file))), *large):
            try:
                found = bytes_in(dump(data, "a.dex", (4, "FileSize", 32), 0, len(data)))[0]
                json.dumps(rows_read(data))
                if found != data:
                    wrong.append(len(data))
            except Exception as error:
                wrong.append((len(data), repr(error)))
        self.check_equal("cut and changed anywhere", wrong, EMPTY)

    def test_overlap(self) -> None:
        """Tables that lie on each other, on the header and on the map: each byte is said once."""
        file = assembled(LISTING)
        for place in (60, 68, 76, 84, 92, 100, 52, 108):
            for to in (0, 0x70, 52, 0xB0, len(file) - 4, len(file)):
                data = file[:place] + struct.pack("<I", to) + file[place + 4 :]
                found = bytes_in(dump(data, "a.dex", (10, "SectionRange", 56), 0, len(data)))[0]
                self.check_equal(f"--hex, the offset at {place} is {to}", found, data)

    def test_linear(self) -> None:
        """60,000 strings, also all of them one text without an end: the time grows with the file."""
        for said, at, want in (("strings", None, 60000), ("one text", 112 + 4 * 60000, 0)):
            data, begin = strings(60000, at), time.process_time()
            read = sum(one is not None for one in rows_read(data)["string_ids"]["read"])
            last = [line for line in dump(data, "a.dex", (13, "MapEntry", 52), 0, len(data))][-1]
            taken = time.process_time() - begin
            self.check_equal(f"60,000 rows of {said}", (read, ROW.match(last), taken), (want, SOME, Below(15)))
        data = strings(20000)
        many = Readable(data[:112] + struct.pack("<I", 112 + 80000) * 20000 + b"\xff\x7f" + b"y" * 16000 + b"\0")
        read = sum(many.name_or_none("string", row) is not None for row in range(20000))
        self.check("a long text 20,000 times is let be", 0 < read < 1000, read)

    def test_names(self) -> None:
        """What a terminal obeys, in names of files and in what is read."""
        at, value = room("info names"), b'string "\\u001b[31m\\u202e\\u000a"'
        seen: Ended | str
        text = assembled(HEAD + b"class LA; 1\nstatic s I 1 = " + value + b"\nend class\n")
        bad = text.replace(b"LA;", b"L\x1b\n")
        puts(at, {"good.dex": text, "bad.dex": bad})
        for words, status in ((("good.dex",), 0), (("bad.dex",), 1)):
            for more in ((), ("--hex",), ("--json",)):
                seen = tool("dexasm-info", *more, *words, at=at)
                self.check_equal(
                    f"{more} {words}, what a terminal obeys",
                    (
                        seen[0],
                        [
                            line for line in (seen[1] + seen[2]).splitlines()
                            if not (line.isprintable() and line.isascii())
                        ]
                    ),
                    (status, [])
                )
        seen = tool("dexasm-info", "--hex", "good.dex", at=at)[1]
        self.check_equal("--hex, a text is as in a listing", seen, Has('"\\u001b[31m\\u202e\\u000a"'))
        for name in (NAMES[2], NAMES[6], NAMES[7], NAMES[10]):
            put(at, name, text)
            seen = tool("dexasm-info", "--json", "--", name, at=at)
            self.check_equal(f"a file of the name {name!r}", (seen, json.loads(seen[1])), ((0, ANY, ""), SOME))
        put(at, f"{ESC}[2J\n", b"")
        seen = tool("dexasm-info", f"{ESC}[2J\n", at=at)
        self.check_equal("a refused file of such a name", seen,
                         (1, ANY, Line("dexasm-info: \\x1b[2J\\x0a: dexasm: refused 1 TooShort at 0")))

    def test_ends(self) -> None:
        file = assembled(LISTING)
        at = room("info ends", {"a.dex": file, "a.apk": b"PK\3\4" + bytes(300), "a.txt": LISTING})
        os.mkdir(os.path.join(at, "folder"))
        for words, status, begins in (
            (("folder",), 3, "dexasm-info: folder: Is a directory"),
            (("a.apk",), 3, "dexasm-info: a.apk: no zip archive can be read"),
            (("--hex", "a.apk"), 3, "dexasm-info: a.apk: no zip archive can be read"),
            (("--hex", "a..b"), 3, "dexasm-info: a..b: No such file"),
        ):
            seen = tool("dexasm-info", *words, at=at)
            self.check_equal(words, seen, (status, "", Line(begins)))
        seen = tool("dexasm-info", "a.txt", at=at)
        self.check_equal("a listing is no file", (seen, seen[1].replace(": 0 of 0 can be read", "")),
                         ((1, ANY, Line("dexasm-info: a.txt: dexasm: refused 2 Magic")), Lacks("can be read")))
        for words in (
            ("--json", "--hex", "a.dex"), ("--hex", "9..3", "a.dex"), ("--hex", "x", "a.dex"), ("a.dex", "b")
        ):
            seen = tool("dexasm-info", *words, at=at)
            self.check_equal(words, seen, (2, "", Has("usage: ")))

    def test_streams(self) -> None:
        """Standard input, with and without -, and a FIFO."""
        at, file = room("info streams"), assembled(LISTING)
        put(at, "a.dex", file)
        want = tool("dexasm-info", "a.dex", at=at)
        self.check_equal("a file", want, (0, ANY, ""))
        for words in ((), ("-",)):
            seen = tool("dexasm-info", *words, given=file, at=at)
            self.check_equal(f"{words}, standard input", seen, want)
        pipe = os.path.join(at, "pipe")
        os.mkfifo(pipe)
        threading.Thread(target=lambda: open(pipe, "wb").write(file), daemon=True).start()
        seen = tool("dexasm-info", "pipe", at=at)
        self.check_equal("a FIFO", seen, want)

    def test_range(self) -> None:
        """A range has exactly its bytes."""
        file = assembled(LISTING)
        at = room("info range", {"a.dex": file, "bad.dex": file[:8] + b"wxyz" + file[12:]})
        for said, low, high in (("0x9..0x1b", 9, 27), ("..5", 0, 5), ("700..", 700, None), ("300..300", 0, 0),
                                ("0..99999", 0, None), ("9999999999..", 0, 0)):  # fmt: skip
            seen = tool("dexasm-info", "--hex", said, "a.dex", at=at)
            found = bytes_in(seen[1].splitlines())[0]
            self.check_equal(f"--hex {said}", (seen[0], found), (0, file[low:high]))
        for said, marks in (("0..0x10", 1), ("0x10..0x20", 0), ("8..9", 1)):
            seen = tool("dexasm-info", "--hex", said, "bad.dex", at=at)
            self.check_equal(f"--hex {said}, the fault",
                             (seen[0], seen[1].count(">>>>>>>>  refused 8 Checksum at 0x8\n")), (1, marks))

    def test_file_of_format(self) -> None:
        """docs/one-method.txt is what is printed of a file."""
        at = room("info page")
        put(at, "a.dex", get(TOP, "tests/vectors/one-method.dex"))
        shown = tool("dexasm-info", "--hex", "a.dex", at=at)
        self.assertEqual(shown, (0, get(TOP, "docs/one-method.txt").decode(), ""))
