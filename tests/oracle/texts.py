"""Listings at random: of invented programs, spelled in all the ways that LISTING allows, and changed so that most have
a fault, near the edges of the rules."""
import os
import random
import re
from collections.abc import Iterable, Iterator

from .inventing import Inventor, invented
from .listing import Bytes, NOT_WRITTEN, Printer, needed_labels, zero_of
from .model import Class, Code, MNEMONICS, Method, OPCODE_OF, form_of

LABEL_UNITS = "ABLZabz019_"


class LoosePrinter(Printer):
    """Spells each thing in one of the ways that the page allows; `loose` is how often it isn't as `print` has it."""

    def __init__(self, rng: random.Random, form: int, loose: float) -> None:
        super().__init__(form)
        self.rng, self.loose = rng, loose

    def chance(self, share: float = 1.0) -> bool:
        return self.rng.random() < self.loose * share

    def any_case(self, digits: str) -> str:
        if not self.chance():
            return digits
        return "".join(self.rng.choice((digit.lower(), digit.upper())) for digit in digits)

    def number(self, number: int, is_signed: bool) -> str:
        sign = "-" if number < 0 or number == 0 and is_signed and self.chance(0.2) else ""
        zeros = "0" * self.rng.choice((1, 2, 30)) if self.chance(0.2) else ""
        if self.chance(0.5):
            return sign + "0x" + zeros + self.any_case(f"{abs(number):x}")
        return sign + zeros + str(abs(number))

    def flags(self, flags: int) -> str:
        return self.number(flags, False) if self.chance() else super().flags(flags)

    def register(self, register: int) -> str:
        return "v" + self.number(register, False)

    def bits(self, bits: int, digits: int) -> str:
        return self.any_case(super().bits(bits, digits))

    def bytes(self, data: bytes) -> str:
        return self.any_case(data.hex())

    def escape(self, unit: str) -> str:
        return "\\u" + self.any_case(f"{ord(unit):04x}")

    def name(self, units: str) -> str:
        if not self.chance(0.2):
            return NOT_WRITTEN.sub(lambda found: self.escape(found[0]), units)
        share = self.rng.choice((0.05, 0.3, 1))
        return "".join(self.escape(unit) if not " " <= unit <= "~" or self.rng.random() < share else unit
                       for unit in units)

    def text(self, units: str) -> str:
        share = self.rng.choice((0.05, 0.3, 1)) if self.chance(0.2) else 0
        said = ""
        for unit in units:
            if not " " <= unit <= "~" or self.rng.random() < share:
                said += self.escape(unit)
            else:
                said += "\\" + unit if unit in '"\\' else unit
        return f'"{said}"'

    def target(self, k: int) -> str:
        if self.form == 1:
            return "@" + self.number(k, False)
        return self.rng.choice(self.labels_of[k])

    def instruction_number(self, k: int) -> str:
        return self.number(k, False) + ":"

    def begin_code(self, code: Code) -> None:
        """Labels for each place that needs one, for some more than one, and some that nothing uses."""
        taken: set[str]
        needed, taken = needed_labels(code), set()
        self.labels_of: dict[int, list[str]] = {}
        for k in range(len(code.instructions) + 1):
            count = (k in needed) + (self.rng.choice((1, 2)) if self.chance(0.1) else 0)
            self.labels_of[k] = [self.new_label(k, taken) for _ in range(count)]

    def new_label(self, k: int, taken: set[str]) -> str:
        label = f":L{k}"
        while label in taken or self.chance(0.5):
            length = self.rng.choice((1, 2, 3, 31, 32))
            label = ":" + "".join(self.rng.choice(LABEL_UNITS) for _ in range(length))
            if label not in taken:
                break
        taken.add(label)
        return label

    def labels(self, k: int) -> list[str]:
        return self.labels_of[k]

    def head_lines(self, made: Class) -> list[list[str]]:
        """Superclass and source file stand anywhere among the interfaces."""
        lines = list(super().head_lines(made))
        for line in list(lines):
            if line[0] != "implements" and self.chance():
                lines.remove(line)
                lines.insert(self.rng.randrange(len(lines) + 1), line)
        return lines

    def is_value_written(self, made: Class, i: int) -> bool:
        if i + 1 < len(made.values) and made.values[i] == zero_of(made.statics[i].type):
            return not self.chance(0.7)
        return super().is_value_written(made, i)

    def member_blocks(self, made: Class) -> list[list[list[str]]]:
        blocks = list(super().member_blocks(made))
        if self.chance():
            self.rng.shuffle(blocks)
        return blocks

    def spaces(self, least: int) -> str:
        return " " * (least + (self.rng.choice((1, 1, 2, 9)) if self.chance(0.2) else 0))

    def spaced(self, words: list[str]) -> Bytes:
        text = self.spaces(0) + words[0]
        for word in words[1:]:
            text += self.spaces(1) + word
        return (text + self.spaces(0)).encode("ascii")

    def says_nothing(self) -> Iterator[Bytes]:
        """Lines that say nothing, most times none."""
        while self.chance(0.1):
            comment = bytes(self.rng.choice(b"ab \t\r\"\\\xff\x00") for _ in range(self.rng.randrange(9)))
            yield self.spaces(0).encode() + (b"#" + comment if self.chance(0.5) else b"")

    def listing(self, classes: Iterable[Class]) -> Bytes:
        lines = []
        for words in self.lines(classes):
            lines += [*self.says_nothing(), self.spaced(words)]
        lines += self.says_nothing()
        end = b"" if self.chance(0.3) and lines[-1] else b"\n"
        return b"\n".join(lines) + end


def loosely_printed(rng: random.Random, classes: Iterable[Class]) -> bytes:
    return LoosePrinter(rng, rng.choice((1, 2)), rng.choice((0, 0.2, 0.5, 1))).listing(classes)


# ------------------------------------------------------------------------------------------------------ words and lines

EDGES_OF_NUMBERS = sorted({sign * (1 << bits) + d for bits in (0, 3, 4, 7, 8, 15, 16, 31, 32, 63, 64)
                           for sign in (1, -1) for d in (-1, 0, 1)})
NUMBERS = [str(number) for number in EDGES_OF_NUMBERS] + [hex(number) for number in EDGES_OF_NUMBERS] + """
    -0 00 0x 0x0 0X1 -0x80 +1 1.0 0xg 1_0 -- - 0b1 1e3 0x-1 --1 -0x0 000000000000000000000000001 0xAbC 3f800000 3F800000
    3f80000 3f8000000 3ff0000000000000 3ff000000000000 00 0 ff 0ff 00ff7f zz 0x00 12345678 123456789abcdef0
    """.split()
REGISTERS = [f"v{register}" for register in (0, 1, 2, 4, 15, 16, 17, 255, 256, 257, 65534, 65535, 65536, 4294967296)]
REGISTERS += ["v", "v-0", "v-1", "v0x0", "v00", "V0", "v0x", "p0", "v1,", "vv0", "v 0"]
TARGETS = [":L0", ":L1", ":L2", ":L3", ":L4", ":a", ":", ":-", "::", ":" + "a" * 32, ":" + "a" * 33, ":L\\u0030",
           ":L0:"]
TARGETS += ["@0", "@1", "@2", "@3", "@", "@-1", "@0x0", "@00", "@4294967295", "@4294967296", "@a", "0:", "1:", "00:",
            "0x0:"]
TEXTS = ['""', '"a"', '"a b"', r'"\u00e9"', r'"\uD83D"', r'"\x"', r'"\u12"', '"a', '"a"b"', '"', r'"\"', r'"\\"', '"#"',
         '"{"', '"}"', '"="', '"class"', 'a"b"', r'"\u000g"', '"a"b', r'"\"', '"\t"', r'"\u0000"', '""""', '"" ""', "#",
         "'a'"]
NAMES = ["a", "m", "v0", "<init>", "<a", "a>", "<>", "<<a>>", "a.b", "a-b", "-", "->", "$", "_", "0", r"\u0041",
         r"\u004", r"a\u00e9", "\\", r"\u0020", r"\u00a0", r"\u00a1", r"\ud83d\ude00", r"\ud83d", r"\ude00\ud83d",
         r"\uffef", r"\ufff0", r"\u2028", r"\U0041", "a:b", "a(b", "a;b", "a[", "a/b", "=", "{", "}", "a=", "x" * 300,
         r"\u002d"]
TYPES = ["V", "I", "Z", "J", "[I", "[V", "[[LA;", "L;", "LA;", "LA", "L/a;", "La/;", "La//b;", "La/b;", "[",
         "[" * 255 + "I", "[" * 256 + "I", "Q", "II", "LA;I", "A", r"\u0049", r"\u004cA;", r"LA\u003b", r"L\u00e9;",
         r"L\u0020;", "LLA;;", "L<a>;", "Ljava/lang/Object;", "LB;", "L-;", "[L;", "L\\;", "LV;"]
PROTOS = ["()V", "(V)V", "()", "(I)", "(I", "I)V", "(IJ)V", "(LA;[I)LB;", "()[V", "([V)V", "()()V", "(I)V)",
          r"\u0028)V", "(I J)V", r"(\u0049)V", "(LA)V", "([)V", "(I)VV", "((I))V", "(" + "I" * 300 + ")V",
          "([LA;[[IJ)[LA;", "(Q)V"]
FIELDS = ["LA;->a:I", "I->a:I", "[I->a:I", "LA;->a:V", "LA->a:I", "LA;->a", "LA;->:I", "LA;a:I", "LA;->a:I:I",
          "LA;-->a:I", "LA;->-:I", "LA;->->:I", "LA;->a:[I", r"LA;\u002d>a:I", "LA;->a:", "->a:I", "LA;->a:LB;",
          "LA;:a->I", "LA;->a(I)V"]
METHODS = ["LA;->a()V", "I->a()V", "[I->a()V", "LA;->a(V)V", "LA;->()V", "LA;->a", "LA;->a()", "LA;->a:()V",
           "LA;->a(I)V", "LA;->a(IJ[LB;)LA;", "LA;->a()V()V", "V->a()V", r"LA;->\u0061()V", "LA;->a(V",
           "LA;-><init>()V", "LA;->a(()V)V"]
KEYWORDS = """
    dex 035 036 listing 2 class super implements source static instance direct virtual code end try catch catchall = { }
    byte short char int long float double string type field method enum null true false array packed-switch-payload
    sparse-switch-payload array-payload boolean Class END annotation 1
    """.split()
GROUPS = [NUMBERS, REGISTERS, TARGETS, TEXTS, NAMES, TYPES, PROTOS, FIELDS, METHODS, KEYWORDS,
          sorted(MNEMONICS.values())]
with open(os.path.join(os.path.dirname(__file__), "lines.txt"), encoding="ascii") as _file:
    LINES = _file.read().splitlines()

# -------------------------------------------------------------------------------------------------------------- changes


def any_word(rng: random.Random, words: list[str]) -> str:
    """A word of the text, or one of a list of awkward ones."""
    return rng.choice(words) if words and rng.random() < 0.4 else rng.choice(rng.choice(GROUPS))


def group_of(word: str) -> list[str]:
    """Words of the same kind as this one, as far as it can be seen."""
    patterns = (("v[0-9]", REGISTERS), ("[:@]", TARGETS), ("-?[0-9]", NUMBERS), ('"', TEXTS), (r"\(", PROTOS),
                (r".*->.*\(", METHODS), (".*->", FIELDS), (r"[L\[]|.$", TYPES))
    for pattern, group in patterns:
        if re.match(pattern, word):
            return group
    if word in OPCODE_OF:
        return [other for other, opcode in OPCODE_OF.items() if form_of(opcode) == form_of(OPCODE_OF[word])]
    return KEYWORDS if word in KEYWORDS else NAMES


def beside(rng: random.Random, word: str) -> str:
    """The word with its last number changed by a little, or with something cut off or added."""
    found = re.search(r"\d+(?=\D*$)", word)
    if found and rng.random() < 0.6:
        number = max(0, int(found[0]) + rng.choice((-1, 1, 1, 2, -2, 16, 256, 65536)))
        return word[: found.start()] + str(number) + word[found.end() :]
    at = rng.randrange(len(word) + 1)
    other_case = word.swapcase() if word.isascii() else ""
    return rng.choice((word[:at], word[at:], word + word[:at], "-" + word, other_case, f'"{word}"'))


def change_word(rng: random.Random, lines: list[bytes]) -> None:
    at = rng.randrange(len(lines))
    words = lines[at].decode("latin1").split(" ")
    others = [word for line in rng.sample(lines, min(4, len(lines))) for word in line.decode("latin1").split(" ")]
    i, way = rng.randrange(len(words)), rng.randrange(9)
    if way <= 2:
        words[i] = rng.choice(group_of(words[i])) if rng.random() < 0.75 else any_word(rng, others)
    elif way <= 4:
        words[i] = beside(rng, words[i])
    elif way == 5:
        del words[i]
    elif way == 6:
        words.insert(i, any_word(rng, words))
    elif way == 7:
        j = rng.randrange(len(words))
        words[i], words[j] = words[j], words[i]
    else:
        words.append(any_word(rng, words))
    lines[at] = " ".join(words).encode("latin1")


def change_line(rng: random.Random, lines: list[bytes]) -> None:
    at, other, way = rng.randrange(len(lines)), rng.randrange(len(lines)), rng.randrange(10)
    if way <= 3:
        lines.insert(at, rng.choice(LINES).encode())
    elif way == 4:
        lines[at] = rng.choice(LINES).encode()
    elif way == 5:
        del lines[at]
    elif way == 6:
        lines.insert(other, lines[at])
    elif way == 7:
        lines[at], lines[other] = lines[other], lines[at]
    elif way == 8:
        lines.insert(other, lines.pop(at))
    elif rng.random() < 0.3:
        del lines[at:]
    else:
        lines.insert(min(len(lines), at + 1), lines[at])


AWKWARD = b" \"\\#:@={}()[];<>->/.,vxXLVI0123456789aAfFgu_\t\r\x00\x7f"


def change_character(rng: random.Random, lines: list[bytes]) -> None:
    at = rng.randrange(len(lines))
    line, way = lines[at], rng.randrange(4)
    place = rng.randrange(len(line) + 1)
    made = bytes([rng.choice(AWKWARD)]) if rng.random() < 0.8 else bytes([rng.randrange(0x20, 0x7F)])
    if way == 0:
        lines[at] = line[:place] + made + line[place:]
    elif way == 1:
        lines[at] = line[:place] + line[place + 1 :]
    elif way == 2:
        lines[at] = line[:place] + line[place : place + 1] + line[place:]
    else:
        lines[at] = line[:place] + made + line[place + 1 :]


def change_bytes(rng: random.Random, lines: list[bytes]) -> None:
    data = bytearray(b"\n".join(lines))
    for _ in range(rng.choice((1, 1, 2, 5))):
        at = rng.randrange(len(data) + 1)
        way = rng.randrange(4)
        if way == 0:
            data[at : at + 1] = bytes([rng.randrange(256)])
        elif way == 1:
            data[at:at] = bytes([rng.choice((0x0A, 0x0A, 0x20, 0x0D, 0x22, rng.randrange(256)))])
        elif way == 2:
            del data[at : at + rng.choice((1, 1, 2, 30))]
        else:
            other = rng.randrange(len(data) + 1)
            data[at:at] = data[other : other + rng.randrange(60)]
    lines[:] = bytes(data).split(b"\n")


def change_form(rng: random.Random, lines: list[bytes]) -> None:
    lines[0] = rng.choice((b"dex 035", b"dex 035 listing 2", b"dex 035 listing", b"dex 035 listing 1", b"dex", b"#"))


CHANGES = change_word, change_line, change_character, change_bytes, change_form


def changed(rng: random.Random, text: bytes) -> bytes:
    """The text with one to three changes."""
    lines = text.split(b"\n")
    for _ in range(rng.choice((1, 1, 1, 1, 2, 3))):
        rng.choices(CHANGES, (60, 24, 10, 4, 1))[0](rng, lines)
        if not lines:
            lines.append(b"")
    return b"\n".join(lines)


def random_lines(rng: random.Random) -> bytes:
    """A text of lines that nobody put in order, but for their beginning."""
    lines = [b"dex 035" if rng.random() < 0.5 else b"dex 035 listing 2", b"class LA; 1"]
    if rng.random() < 0.7:
        lines += [b"direct m ()V 0", b"code 4 0 0"]
    lines += [rng.choice(LINES).encode() for _ in range(rng.randrange(1, 6))]
    if rng.random() < 0.7:
        lines += [b"end code", b"end class"]
    return b"\n".join(lines) + b"\n"


class SmallInventor(Inventor):
    """Short codes and few members, so that a change meets something that matters."""

    def code(self) -> Code:
        code = super().code()
        return code if len(code.instructions) <= 12 else self.code()

    def methods(self, shared: list[Code]) -> list[Method]:
        return super().methods(shared)[:2]


def random_texts(rng: random.Random) -> Iterator[tuple[bytes, bool]]:
    """Texts without end, each with whether it's assembled with --align: of programs, in any spelling, most changed."""
    pool: list[bytes] = []
    while True:
        way = rng.random()
        if way < 0.05:
            text = loosely_printed(rng, invented(rng, rng.choice((0, 0, 0.03))))
        elif way < 0.11 or len(pool) < 20:
            text = loosely_printed(rng, SmallInventor(rng, rng.choice((0, 0.02, 0.06))).program())
            pool.append(text)
        elif way < 0.19:
            text = random_lines(rng)
        else:
            text = changed(rng, rng.choice(pool[-200:]))
        yield text, rng.random() < 0.15
