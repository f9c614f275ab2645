"""Tries where a refusal of a listing is found: the line, the word and why, beside what the library answers.

In a text below the word at fault stands between « and »; a line at fault as a whole begins with «». The lines that
are wanted are read off these marks, not off what is answered. Programs at random come from the part oracle.
"""
import itertools
import random
import time

from dexasm import formats
from dexasm.listing import diagnostics as faultline
from tests.oracle.model import LITERAL_BITS, MNEMONICS, REGISTER_BITS, WITH_NAME, WITH_TARGET, form_of, kind_of_name
from tests.oracle.texts import random_texts
from tests import config
from tests.matchers import EMPTY, SOME, Below, Has, Lacks, Other
from .diagnostic_cases import BODIES, CLASS, CODE, FORMS, HEAD, filled, in_code, large, marked, refusal_of, refused
from .diagnostic_cases import surrounded
from .binding_case import ModuleTest

HEADED = b"dex 035\nclass LA; 1\ndirect m ()V 9\ncode 1 0 0\n%b\nend code\nend class\n"
RULES = (110, *range(112, 119))
# What is known of these refusals beside their line.
NEEDED = dict.fromkeys((101, 102, 104, 105), ("word",)) | dict.fromkeys((100, 103), ("column", "word", "why"))


class FaultLines(ModuleTest):
    def check_marked(self, what: str, number: int, lines: list[str], says: str = "") -> None:
        text, want = marked(lines)
        seen = refusal_of(text)
        place = seen.where and (seen.line, seen.column, seen.word)
        self.check_equal(f"the line of {number}, {what}", (seen.number, place, str(seen)), (number, want, Has(says)))

    def test_bodies(self) -> None:
        for number, bodies in BODIES.items():
            for body, says in bodies:
                for way, lines in enumerate(surrounded(body)):
                    # (what is said names lines of the first text)
                    what = f"{' / '.join(body)[:200]}, in {way}"
                    self.check_marked(what, number, lines, says if way == 0 else "")

    def test_order(self) -> None:
        """Lines in the wrong place before any class, and what is missing at the end."""
        for lines, says in (
            (["«class» LA; 0", "end class"], "class: the first line has to be `dex 035 listing 2`"),
            (["# a comment", "", "«class» LA; 0", "end class"], "class: the first line has to be `dex 035 listing 2`"),
            ([HEAD, "«super» LA;"], "super: `class TYPE FLAGS` has to begin a class before it"),
            ([HEAD, "«end» class"], "end: `class TYPE FLAGS` has to begin a class before it"),
            ([HEAD, CLASS, "end class", "«static» a I 0"], "static: `class TYPE FLAGS` has to begin a class before it"),
        ):
            self.check_marked(f"{lines}", 103, lines, says)
        for lines, says in (
            ([HEAD, "«»" + CLASS], "`end class` is missing behind it: line 2 begins a class"),
            ([HEAD, CLASS, *CODE, "nop", "«»end code"], "`end class` is missing behind it: line 2 begins a class"),
            ([HEAD, CLASS, CODE[0], "«»" + CODE[1]], "`end code` is missing behind it: line 4 begins a code"),
            ([HEAD, CLASS, *CODE, "«»nop"], "`end code` is missing behind it: line 4 begins a code"),
        ):
            self.check_marked(f"{lines}", 106, lines, says)

    def test_forms(self) -> None:
        """What is said of a line that isn't of the form: its word, and what stands there."""
        for lines, says in FORMS:
            text, want = marked(lines)
            seen = refusal_of(text)
            place = seen.number, seen.line, seen.column, seen.word
            self.check_equal(f"what is said of {lines[-3:]}",
                             (place, seen.why, str(seen).isascii(), str(seen).isprintable()),
                             ((100, *want), Other(None) & Has(says), True, True))
        for mnemonic in formats.MNEMONICS:
            seen = refusal_of("\n".join([HEAD, CLASS, *in_code(f"{mnemonic} v0 v0 v0 v0 v0 v0 v0"), "end class"]))
            self.check_equal(f"what {mnemonic} takes", (seen.number, str(seen.why)), (100, Has(f"{mnemonic} ")))

    def test_form_hostile(self) -> None:
        """Long lines, and whatever bytes: a word and a reason, soon."""
        many = b" ".join([b"v0"] * 500000)
        for row in (many, b"nop " + many, b"nop" * 100000, b"{" * 100000, b'"' * 99999, b'\\"' * 50000, b"=" * 9999):
            begun = time.process_time()
            seen = refusal_of(b"dex 035 listing 2\n" + CLASS.encode() + b"\n" + row + b"\nend class\n")
            self.check_equal(f"a row as {row[:9]!r}", (seen.number, seen.word, seen.why, len(str(seen))),
                             (100, Other(None), SOME, Below(1000)))
            self.check_equal(f"a row as {row[:9]!r}, its time", time.process_time() - begun, Below(5))
        random_ = random.Random(config.seed())
        words = [b"nop", b"static", b"=", b"{", b"}", b"int", b'"a"', b'"', b"\\", b"\t", b"\xff", b"#", b"//", b",",
                 b":a"]
        words += [b"v0", b"LA;->a:I", b"LA;->m()V", b"invoke-static", b"array", b"end", b"class", b".line", b"5", b"I",
                  b"->"]
        for number in range(3000):
            row = b" ".join(random_.choice(words) for _ in range(random_.randint(1, 9)))
            row = row.replace(b" ", b"", random_.randint(0, 3)) if number % 3 == 0 else row
            for around in (b"dex 035 listing 2\nclass LA; 1\n%b\nend class\n", b"%b\n", HEADED):
                refusal = refused(around.replace(b"%b", row))
                if refusal is not None and refusal.number == 100:
                    self.check_equal(
                        f"the row {row!r}",
                        ((refusal.line, refusal.column, refusal.word, refusal.why), bool(refusal.word and refusal.why),
                         str(refusal).isascii(), str(refusal).isprintable()),
                        (Lacks(None), SOME, True, True)
                    )

    def test_twice(self) -> None:
        """A class that was defined, and what --align moves."""
        for names in (["LA;"], ["LB;", "LA;", "LC;"], ["LA;", "LA;"], ["LA;", "LB;", "LB;"]):
            lines, defined = [HEAD], set[str]()
            for name in [*names, "LA;"]:
                is_first = name in defined and not any("«" in line for line in lines)
                lines += [f"class «{name}» 0" if is_first else f"class {name} 0", "end class"]
                defined.add(name)
            self.check_marked(f"{names}", 112, lines, "was defined at line ")
        far = in_code("goto «:a»", "array-payload 1", *filled(122), ":a", "nop")
        text, want = marked([HEAD, CLASS, *far, "end class"])
        seen = refusal_of(text, True)
        place = seen.number, seen.line, seen.column, seen.word
        self.check_equal("the line of 85 with --align", place, (85, *want))

    def test_first_form(self) -> None:
        faults = (115, "1: goto «@1»"), (118, "0x1: move v0 «v7»"), (105, "1: goto «@0x7»"), (102, "1: goto «a»")
        for number, line in (*faults, (103, "«7:» return-void")):
            self.check_marked(line, number,
                              ["dex 035", CLASS, *CODE, "0: nop", line, "2: return-void", "end code", "end class"])

    def test_random(self) -> None:
        """What is found of texts at random is the number that the library answers, and no other; nothing is a
        traceback."""
        found = dict[int, int]()
        count, seed = 10000, config.seed()
        for at, (text, align) in enumerate(itertools.islice(random_texts(random.Random(seed)), count)):
            seen = refused(text, align)
            if seen is None:
                others = [number for number in (*RULES, 85, 86) if faultline.of(text, number, 0, align)]
                self.check_equal(f"nothing is found of what is accepted, text {at} of seed {seed}", others, EMPTY)
                continue
            found[seen.number] = found.get(seen.number, 0) + 1
            said = str(seen)
            lacks = [name for name in NEEDED.get(seen.number, ()) if getattr(seen, name) in (None, "")]
            lacks += ["where"] * (seen.where is None and (seen.number, seen.place) != (106, 0))
            rules = RULES if seen.number in RULES else ()
            others = [number for number in rules if number != seen.number and faultline.of(text, number, seen.place)]
            self.check_equal(f"the place of text {at} of seed {seed}",
                             (lacks, others, said.isascii(), said.isprintable()), ([], [], True, True))
            other = at % 120, at % 7
            self.check("another refusal", isinstance(faultline.of(text, *other), faultline.Place | None), other)
        missing = [number for number in RULES if number not in found and number != 113]
        if count >= 1000:
            self.check_equal("texts at random have each rule", missing, [])

    def test_formats(self) -> None:
        """The formats, beside the second reading."""
        for opcode, mnemonic in MNEMONICS.items():
            form = form_of(opcode)
            name = kind_of_name(opcode).replace("string", "text") if form in WITH_NAME else ""
            want = int(form[0]), REGISTER_BITS.get(form, ()), LITERAL_BITS.get(form, 0), form in WITH_TARGET, name
            seen: formats.Format | tuple[int, tuple[int, ...], int, bool, str]
            seen = formats.format_of(mnemonic) or formats.Format(0)
            seen = seen.units, seen.registers, seen.literal, seen.target > 0, seen.name
            self.check_equal(f"the format of {mnemonic}", seen, want)

    def test_lazily(self) -> None:
        """Nothing is looked for before it is asked for; another text than the refused one has no place."""
        calls: list[tuple[bytes, int, int, bool]]
        calls, of = [], faultline.of

        def noted(listing: bytes, number: int, place: int, align: bool = False) -> faultline.Place | None:
            calls.append((listing, number, place, align))
            return of(listing, number, place, align)

        faultline.of = noted
        try:
            # (the code has 4 registers)
            seen = refusal_of("\n".join([HEAD, CLASS, *in_code("move v0 v9"), "end class", ""]))
            self.check_equal("the place isn't looked for unasked", (seen.number, calls), (118, EMPTY))
            self.check_equal("it is looked for once", (seen.line, seen.column, str(seen), len(calls)), (5, 9, SOME, 1))
        finally:
            faultline.of = of
        code = b"dex 035\nclass LA; 1\ncode x y z\ndirect m ()V 0\ncode 1 1\ntry\ncatch\nmove\nend code\nend class\n"
        for text in (b"", b"\n", b"class", b"class \xff\x00\ndirect\ncode\nend code\n", code):
            found = [
                (number, faultline.of(text, number, place)) for number in range(256) for place in (0, 1, 2, 1 << 40)
            ]
            by_class = 82, 83, 84, 87, 88, 89  # (whose place is the class)
            places = [each for each in found if each[1] is not None and each[0] not in (*range(100, 107), *RULES, *by_class)]
            self.check_equal(f"another text: {text!r}", places, EMPTY)

    def test_large(self) -> None:
        """Each large text so often, with more lines before what is at fault; they name no further type or prototype."""
        for number, (head, name, *rest) in large():
            for way in range(10):
                fields = [f"static f{at} I 0" for at in range(way)]
                self.check_marked(f"of many, {way}", number, [*["#"] * way, head, name, *fields, *rest])
