"""The listing of a program: a second reading of docs/LISTING.md, by hand.

`parse(data)` answers the classes that a listing says, in either form, or a Refusal; `print_listing(classes)` answers
the bytes of the listing that is written. Nothing here is meant to be quick. The headings between the functions are
LISTING's, or say which of its faults are asked.
"""
import collections
import functools
import re
from collections.abc import Callable, Iterable, Iterator, Sequence
from typing import Any

from .faults import is_descriptor, is_member_name
from .model import Class, Code, Field, FieldName, Instruction, LITERAL_BITS, MNEMONICS, Method, MethodName, Name
from .model import OPCODE_OF, Payload, Proto, REGISTER_BITS, Try, Value, WITH_NAME, WITH_TARGET, form_of, kind_of_name
from .pages import Refusal, Refused
from .rules import rule_fault

Bytes = bytes  # (in Printer, whose own `bytes` stands before it)
Reader = Callable[[str], Any]  # answers what a word says, None where it isn't what is read
FIRST_LINES = {("dex", "035"): 1, ("dex", "035", "listing", "2"): 2}  # which form each begins

# ------------------------------------------------------------------------------------------------------ Lines and words

Word = collections.namedtuple("Word", "said is_text")  # a text is without its quotes and its escapes
PIECE_OF_TEXT = re.compile(r'[ !#-\[\]-~]|\\["\\]|\\u[0-9A-Fa-f]{4}')


class WrongWord(Exception):
    """Fault 100, Word."""


def lines_of(data: bytes) -> list[bytes]:
    lines = data.split(b"\n")
    return lines if lines[-1] else lines[:-1]


def says_nothing(line: bytes) -> bool:
    return line.lstrip(b" ")[:1] in (b"", b"#")


def unit_of(piece: str) -> str:
    if piece.startswith("\\u"):
        return chr(int(piece[2:], 16))
    return piece[-1]


def text_at(line: str, at: int) -> tuple[str, int]:
    """The text that begins here with its quote, and the place after it. The line has a space at its end."""
    units, at = [], at + 1
    while line[at : at + 1] != '"':  # at the end of the line no piece matches
        piece = PIECE_OF_TEXT.match(line, at)
        if piece is None:
            raise WrongWord
        units.append(unit_of(piece[0]))
        at = piece.end()
    if line[at + 1] != " ":
        raise WrongWord
    return "".join(units), at + 1


def words_of(line: Any) -> list[Word]:  # (bytes, then their text)
    if not re.fullmatch(b"[ -~]*", line):
        raise WrongWord
    line, words, at = line.decode("ascii") + " ", [], 0
    while at < len(line):
        if line[at] == " ":
            at += 1
        elif line[at] == '"':
            text, at = text_at(line, at)
            words.append(Word(text, True))
        else:
            end = line.index(" ", at)
            words.append(Word(line[at:end], False))
            at = end
    return words


# --------------------------------------------------------------------------------------------------- What a word can be


def number_of(text: str, low: int, high: float) -> int | None:
    """The number of this range that the word says; None where it says none."""
    if not re.fullmatch("-?([0-9]+|0x[0-9A-Fa-f]+)" if low < 0 else "[0-9]+|0x[0-9A-Fa-f]+", text):
        return None
    digits = text.removeprefix("-")
    number = int(digits, 16 if digits.startswith("0x") else 10)
    number = -number if text.startswith("-") else number
    return number if low <= number <= high else None


def number_in(bits: int, is_signed: bool = False) -> Callable[[str], int | None]:
    low, high = (-(1 << bits - 1), (1 << bits - 1) - 1) if is_signed else (0, (1 << bits) - 1)
    return lambda text: number_of(text, low, high)


def register_in(bits: int) -> Callable[[str], int | None]:
    return lambda text: number_of(text[1:], 0, (1 << bits) - 1) if text.startswith("v") else None


def label_of(text: str) -> str | None:
    return text[1:] if re.fullmatch(":[A-Za-z0-9_]{1,32}", text) else None


def number_target_of(text: str) -> int | None:
    return number_of(text[1:], 0, 0xFFFFFFFF) if text.startswith("@") else None


def bits_in(digits: int) -> Callable[[str], int | None]:
    return lambda text: int(text, 16) if re.fullmatch("[0-9A-Fa-f]{%d}" % digits, text) else None


def bytes_of(text: str) -> bytes | None:
    return bytes.fromhex(text) if re.fullmatch("([0-9A-Fa-f]{2})+", text) else None


def units_said(text: str) -> str | None:
    """The units of a name or a descriptor, any of which may be escaped; None where an escape is malformed."""
    if not re.fullmatch(r"([^\\]|\\u[0-9A-Fa-f]{4})*", text):
        return None
    return re.sub(r"\\u(....)", lambda found: chr(int(found[1], 16)), text)


def name_in(units: str) -> str | None:
    return units if is_member_name(units) else None


def type_in(units: str) -> str | None:
    return units if is_descriptor(units) else None


def types_of(units: str) -> tuple[str, ...] | None:
    """The descriptors that stand here without anything between them; None where something else does."""
    types = re.findall(r"\[*(?:L[^;]*;|.)", units, re.DOTALL)
    return tuple(types) if "".join(types) == units and all(map(is_descriptor, types)) else None


def proto_in(units: str) -> Proto | None:
    found = re.fullmatch(r"\(([^)]*)\)(.*)", units, re.DOTALL)
    if found is None:
        return None
    proto = type_in(found[2]), types_of(found[1])
    return None if None in proto else proto  # type: ignore[return-value]  # (no part of it is None)


def field_in(units: str) -> FieldName | None:
    owner, _, rest = units.partition("->")
    name, _, kind = rest.partition(":")
    field = type_in(owner), name_in(name), type_in(kind)
    return None if None in field else field  # type: ignore[return-value]  # (as above)


def method_in(units: str) -> MethodName | None:
    owner, _, rest = units.partition("->")
    name, bracket, proto = rest.partition("(")
    method = type_in(owner), name_in(name), proto_in(bracket + proto)
    return None if None in method else method  # type: ignore[return-value]  # (as above)


def said_in(reader: Reader) -> Reader:
    """Reads the units that a word says: any of them may be escaped, those between names too."""
    def read(text: str) -> Any:
        units = units_said(text)
        return None if units is None else reader(units)

    return read


# What each slot takes: the fault of another word, and how it is read. A text is read already.
SLOTS: dict[str, tuple[str | Any, Reader]] = {
    "name": ("Name", said_in(name_in)), "type": ("Name", said_in(type_in)), "proto": ("Name", said_in(proto_in)),
    "field": ("Name", said_in(field_in)), "method": ("Name", said_in(method_in)), "label": ("Name", label_of),
    "@": ("Number", number_target_of), "bytes": ("Number", bytes_of), "flags": ("Number", number_in(32)),
    "size": ("Number", number_in(16)), "count": ("Number", number_in(8)), "width": ("Number", number_in(16)),
    **{f"register of {bits} bits": ("Number", register_in(bits)) for bits in (4, 8, 16)},
    **{f"literal of {bits} bits": ("Number", number_in(bits, True)) for bits in (4, 8, 16, 32, 64)},
    "byte": ("Number", number_in(8, True)), "short": ("Number", number_in(16, True)), "char": ("Number", number_in(16)),
    "int": ("Number", number_in(32, True)), "long": ("Number", number_in(64, True)),
    "float": ("Number", bits_in(8)), "double": ("Number", bits_in(16)), "text": (None, str), "string": (None, str),
}

# ---------------------------------------------------------------------------------------- The lines: 100, of their form

Line = collections.namedtuple("Line", "key slots number", defaults=((), None))  # a slot is (its kind, its word)
Slots = list[tuple[str, Word]]
SHAPES = {
    "class": ("type", "flags"), "super": ("type",), "implements": ("type",), "source": ("text",),
    "instance": ("name", "type", "flags"), "direct": ("name", "proto", "flags"), "virtual": ("name", "proto", "flags"),
    "code": ("size", "size", "size"), "try": ("target", "target"), "catch": ("type", "target"), "catchall": ("target",)
}
PAYLOADS = ("packed-switch-payload", "sparse-switch-payload", "array-payload")
WITHOUT_OPERAND = ("null", "true", "false")
WITH_OPERAND = ("byte", "short", "char", "int", "long", "float", "double", "string", "type", "field", "method", "enum")


def is_key(word: Word, key: str) -> bool:
    return word == Word(key, False)


def filled(kinds: Sequence[str], words: list[Word], target: str | Any) -> Slots:
    """The slots of a line that has just these."""
    if len(kinds) != len(words):
        raise WrongWord
    slots = [(target if kind == "target" else "field" if kind == "enum" else kind, word)
             for kind, word in zip(kinds, words)]
    if any(word.is_text != (kind in ("text", "string")) for kind, word in slots):
        raise WrongWord
    return slots


def value_slots(words: list[Word]) -> Slots:
    """The words of a value: a keyword or a closing brace is ("key", word), an operand its slot."""
    slots, depth, at = [], 0, 0
    while at == 0 or depth > 0:
        if at >= len(words) or words[at].is_text:
            raise WrongWord
        key = words[at].said
        operand = words[at + 1 : at + 2]
        if key == "}" and depth > 0:
            depth, at, operand = depth - 1, at + 1, []
        elif key == "array" and operand and is_key(operand[0], "{"):
            depth, at, operand = depth + 1, at + 2, []
        elif key in WITHOUT_OPERAND:
            at, operand = at + 1, []
        elif key in WITH_OPERAND:
            at += 2
        else:
            raise WrongWord
        slots.append(("key", Word(key, False)))
        if key in WITH_OPERAND:
            slots += filled([key], operand, None)
    if at < len(words):
        raise WrongWord
    return slots


def static_line(words: list[Word]) -> Line:
    slots = filled(("name", "type", "flags"), words[:3], None)
    if len(words) == 3:
        return Line("static", slots)
    if not is_key(words[3], "="):
        raise WrongWord
    return Line("static", slots + value_slots(words[4:]))


def instruction_slots(opcode: int, words: list[Word], target: str) -> Slots:
    form = form_of(opcode)
    kinds = []
    if form == "35c":
        if not words or not is_key(words[0], "{") or Word("}", False) not in words or words.index(Word("}", False)) > 6:
            raise WrongWord
        count = words.index(Word("}", False)) - 1
        kinds, words = ["register of 4 bits"] * count, words[1 : count + 1] + words[count + 2 :]
    else:
        kinds = [f"register of {bits} bits" for bits in REGISTER_BITS[form]]
    if form == "3rc":
        kinds.append("count")
    if form in LITERAL_BITS:
        kinds.append(f"literal of {LITERAL_BITS[form]} bits")
    if form in WITH_TARGET:
        kinds.append("target")
    if form in WITH_NAME:
        kinds.append(kind_of_name(opcode))
    return filled(kinds, words, target)


def instruction_line(words: list[Word], target: str, number: int | None = None) -> Line:
    """A line of an instruction or of a payload; `words` are without its number."""
    if not words or words[0].is_text:
        raise WrongWord
    key, rest = words[0].said, words[1:]
    if key in OPCODE_OF:
        return Line(key, instruction_slots(OPCODE_OF[key], rest, target), number)
    if key == "packed-switch-payload":
        return Line(key, filled(["int"] + ["target"] * (len(rest) - 1), rest, target), number)
    if key == "sparse-switch-payload":
        return Line(key, filled(["int", "target"] * (len(rest) // 2), rest, target), number)
    if key == "array-payload":
        return Line(key, filled(["width", "bytes"] if len(rest) == 2 else ["width"], rest, target), number)
    raise WrongWord


def line_of(words: list[Word], form: int | None) -> Line:
    """Which line these words are, and what stands in its slots; until the form is told, the lines are of the first."""
    key, target = words[0], "label" if form == 2 else "@"
    said = tuple(word.said for word in words)
    if key.is_text:
        raise WrongWord
    if said in FIRST_LINES and not any(word.is_text for word in words) and not (form == 1 and len(said) > 2):
        return Line("dex", (), FIRST_LINES[said])
    if said in (("end", "code"), ("end", "class")) and not words[1].is_text:
        return Line(" ".join(said))
    if key.said in SHAPES:
        return Line(key.said, filled(SHAPES[key.said], words[1:], target))
    if key.said == "static":
        return static_line(words[1:])
    if form != 2:
        number = number_of(key.said[:-1], 0, float("inf")) if key.said.endswith(":") else None
        if number is None:
            raise WrongWord
        return instruction_line(words[1:], target, number)
    if key.said.startswith(":"):
        if len(words) > 1:
            raise WrongWord
        return Line(":", [("label", key)])
    return instruction_line(words, target)


# --------------------------------------------------------------------------------------------------- 103, 104, 105, 106

MEMBERS = ("static", "instance", "direct", "virtual")
IN_CLASS = ("head", "members", "method")  # before the members, among them, after a method
IN_CODE = ("instructions", "try", "catchall")  # before the tries, after a try and its catches, after a catchall
# Where a line may stand. What isn't here is an instruction.
PLACES = {"dex": ("start",), "class": ("outside",), "super": ("head",), "implements": ("head",), "source": ("head",),
          **{member: IN_CLASS for member in MEMBERS}, "code": ("method",), "try": IN_CODE, "catch": ("try",),
          "catchall": ("try",), "end code": IN_CODE, "end class": IN_CLASS}


class Twice(Exception):
    """Fault 104."""


class CodeDraft:
    """A code, and the number of the instruction that each of its labels marks."""

    labels: dict[str, int]

    def __init__(self, code: Code) -> None:
        self.code, self.labels = code, {}

    def place(self, target: int | str) -> int | Any:  # (None for a label that isn't there; after `is_there` none is)
        return self.labels.get(target) if isinstance(target, str) else target

    def is_there(self, target: int | str, may_be_behind: bool) -> bool:
        place, length = self.place(target), len(self.code.instructions)
        return place is not None and (place < length or place == length and may_be_behind)

    def settle(self) -> None:
        """Numbers in place of labels."""
        for each in self.code.instructions:
            if isinstance(each, Payload):
                each.targets = tuple(map(self.place, each.targets))
            elif each.target is not None:
                each.target = self.place(each.target)
        for one in self.code.tries:
            one.first, one.after = self.place(one.first), self.place(one.after)
            one.catches = [(text, self.place(target)) for text, target in one.catches]
            one.other = None if one.other is None else self.place(one.other)


def value_of(slots: Sequence[Any]) -> Value:
    """The value that the slots say, which are those of value_slots, read."""
    outer: list[list[Value]]
    values: list[Value]
    outer, values = [], []
    at = 0
    while at < len(slots):
        key, at = slots[at], at + 1
        if key == "array":
            outer.append(values)
            values = []
        elif key == "}":
            outer[-1].append(("array", values))
            values = outer.pop()
        elif key in WITHOUT_OPERAND:
            values.append((key, None))
        else:
            values.append((key, slots[at]))
            at += 1
    return values[0]


def zero_of(text: str) -> Value:
    """What a static field of this type has where it has no value, in an array that goes on (LISTING "Values")."""
    kinds = {"B": "byte", "S": "short", "C": "char", "I": "int", "J": "long", "F": "float", "D": "double"}
    if text in kinds:
        return kinds[text], 0
    return ("false" if text == "Z" else "null"), None


def static_values(fields: list[tuple[tuple[str, str], Value | None]]) -> list[Value]:
    """The values of the statics up to the last one that is given, as (name, type) and what is given."""
    while fields and fields[-1][1] is None:
        fields = fields[:-1]
    return [zero_of(text) if value is None else value for (_, text), value in fields]


class Draft:
    """What the lines so far have said."""

    form: int | None
    needs: list[tuple[int, CodeDraft, Any, bool]]
    values: dict[tuple[str, str], Value | None]
    given: set[tuple[Any, ...]]
    method: Method
    code: CodeDraft | Any  # (None before the first)
    codes: list[CodeDraft]

    def __init__(self) -> None:
        self.state, self.form = "start", None
        self.classes: list[Class] = []
        self.needs = []  # (line, code, target, whether it may be the place after the last instruction)
        self.values, self.given, self.code, self.codes = {}, set(), None, []

    def may_stand(self, line: Line) -> bool:
        if line.key in PLACES:
            return self.state in PLACES[line.key]
        return self.state == "instructions" and line.number in (None, len(self.code.code.instructions))

    def give_once(self, *what: Any) -> None:
        if what in self.given:
            raise Twice
        self.given.add(what)

    def add(self, number: int, line: Line, read: list[Any]) -> None:
        """Adds a line, of which the slots have been read."""
        key = line.key
        if key == "dex":
            self.form, self.state = line.number, "outside"
        elif key == "class":
            self.classes.append(Class(*read))
            self.values, self.given, self.state = {}, set(), "head"
        elif key in ("super", "source", "implements"):
            self.add_to_head(key, read[0])
        elif key in MEMBERS:
            self.add_member(key, *read)
        elif key == "code":
            self.code = CodeDraft(Code(*read))
            self.codes.append(self.code)
            self.method.code, self.state = self.code.code, "instructions"
        elif key == "end code":
            self.state = "members"
        elif key == "end class":
            self.end_class()
        else:
            self.add_to_code(number, key, read)

    def add_to_head(self, key: str, what: str) -> None:
        self.give_once(key, what if key == "implements" else None)
        if key == "super":
            self.classes[-1].superclass = what
        elif key == "source":
            self.classes[-1].source = what
        else:
            self.classes[-1].interfaces.append(what)

    def add_member(self, key: str, name: str, kind: Any, flags: int, *value: Sequence[Any]) -> None:
        self.give_once(key, name, kind)
        made = self.classes[-1]
        self.state = "members"
        if key == "static":
            made.statics.append(Field(name, kind, flags))
            self.values[name, kind] = value_of(value) if value else None
        elif key == "instance":
            made.instances.append(Field(name, kind, flags))
        else:
            self.method, self.state = Method(name, kind, flags), "method"
            (made.directs if key == "direct" else made.virtuals).append(self.method)

    def end_class(self) -> None:
        made = self.classes[-1]
        for fields in made.statics, made.instances:
            fields.sort(key=lambda each: (each.name, each.type))
        for methods in made.directs, made.virtuals:
            methods.sort(key=lambda each: (each.name, each.proto))
        made.values = static_values(sorted(self.values.items()))
        self.state = "outside"

    def add_to_code(self, number: int, key: str, read: list[Any]) -> None:
        code, needed = self.code.code, []
        if key == ":":
            self.give_once(len(self.codes), read[0])
            self.code.labels[read[0]] = len(code.instructions)
        elif key == "try":
            code.tries.append(Try(*read, []))  # type: ignore[call-arg]  # (two are read)
            needed, self.state = [(read[0], False), (read[1], True)], "try"
        elif key == "catch":
            code.tries[-1].catches.append(tuple(read))  # type: ignore[arg-type]  # (two, too)
            needed = [(read[1], False)]
        elif key == "catchall":
            code.tries[-1].other, self.state = read[0], "catchall"
            needed = [(read[0], False)]
        else:
            code.instructions.append(payload_of(key, read) if key in PAYLOADS else instruction_of(key, read))
            made: Any = code.instructions[-1]  # (which of both it is the key says)
            targets = made.targets if key in PAYLOADS else [made.target] * (made.target is not None)
            needed = [(target, False) for target in targets]
        self.needs += [(number, self.code, *need) for need in needed]


def payload_of(key: str, read: list[Any]) -> Payload:
    if key == "packed-switch-payload":
        return Payload("packed", tuple(read[:1]), tuple(read[1:]))
    if key == "sparse-switch-payload":
        return Payload("sparse", tuple(read[::2]), tuple(read[1::2]))
    return Payload("array", width=read[0], data=b"".join(read[1:]))


def instruction_of(key: str, read: list[Any]) -> Instruction:
    opcode = OPCODE_OF[key]
    form, rest = form_of(opcode), list(read)
    count = len(rest) - 1 if form == "35c" else len(REGISTER_BITS[form])
    made = Instruction(opcode, tuple(rest[:count]))
    rest = rest[count:]
    if form == "3rc":
        made.count = rest.pop(0)
    if form in LITERAL_BITS:
        made.literal = rest.pop(0)
    if form in WITH_TARGET:
        made.target = rest.pop(0)
    if form in WITH_NAME:
        made.name = rest.pop(0)
    return made


# --------------------------------------------------------------------------------------------------------------- Faults


@functools.lru_cache(1 << 14)
def line_said(line: bytes, form: int | None) -> Line | None:
    """The line that these bytes say; None where their words aren't one's."""
    try:
        return line_of(words_of(line), form)
    except WrongWord:
        return None


@functools.lru_cache(1 << 16)
def read_slot(kind: str, said: str) -> Any:
    """What the word says in this slot; None where it isn't what the slot takes."""
    return SLOTS[kind][1](said)


def ask_line(draft: Draft, number: int, line: Any) -> None:  # (bytes, then what they say)
    """Adds a line that says something: 100, 103, then its words from the left (101, 102), then 104."""
    line = line_said(line, draft.form)
    if line is None:
        raise Refused("listing", "Word", number)
    if not draft.may_stand(line):
        raise Refused("listing", "Order", number)
    read = []
    for kind, word in line.slots:
        if kind == "key":
            read.append(word.said)
            continue
        value = read_slot(kind, word.said)
        if value is None:
            raise Refused("listing", SLOTS[kind][0], number)
        read.append(value)
    try:
        draft.add(number, line, read)
    except Twice:
        raise Refused("listing", "Twice", number) from None


def classes_of(data: bytes) -> list[Class]:
    lines, draft = lines_of(data), Draft()
    for number, line in enumerate(lines, 1):
        if not says_nothing(line):
            ask_line(draft, number, line)
    if draft.state != "outside":
        raise Refused("listing", "NotEnded", len(lines))
    for number, code, target, may_be_behind in draft.needs:
        if not code.is_there(target, may_be_behind):
            raise Refused("listing", "Target", number)
    for code in draft.codes:
        code.settle()
    return draft.classes


def parse(data: bytes) -> list[Class] | Refusal:
    """The classes that the listing says; where it has a fault, the refusal."""
    try:
        classes = classes_of(data)
    except Refused as refused:
        return refused.refusal
    return rule_fault(classes) or classes


# -------------------------------------------------------------------------------------------------- what `print` writes

NOT_WRITTEN = re.compile("[^ -~]")  # what doesn't stand for itself


def escaped(found: re.Match[str]) -> str:
    return f"\\u{ord(found[0]):04x}"


class Printer:
    """Writes a listing in one of the two forms; `print` writes the second. The first methods spell words."""

    def __init__(self, form: int = 2) -> None:
        self.form = form

    def number(self, number: int, is_signed: bool) -> str:
        return str(number)

    def flags(self, flags: int) -> str:
        return hex(flags)

    def register(self, register: int) -> str:
        return f"v{register}"

    def bits(self, bits: int, digits: int) -> str:
        return f"{bits:0{digits}x}"

    def bytes(self, data: bytes) -> str:
        return data.hex()

    def name(self, units: str) -> str:
        return NOT_WRITTEN.sub(escaped, units)

    def text(self, units: str) -> str:
        quoted = units.replace("\\", "\\\\").replace('"', '\\"')
        return f'"{NOT_WRITTEN.sub(escaped, quoted)}"'

    def target(self, k: int) -> str:
        return f"@{k}" if self.form == 1 else f":L{k}"

    def instruction_number(self, k: int) -> str:
        return f"{k}:"

    def begin_code(self, code: Code) -> None:
        self.needed = needed_labels(code)

    def labels(self, k: int) -> list[str]:
        """The labels that mark the place k."""
        return [f":L{k}"] if k in self.needed else []

    def proto(self, proto: Proto) -> str:
        return self.name(f"({''.join(proto[1])}){proto[0]}")

    def named(self, kind: str, name: Name) -> str:
        """A name in the slot of its kind."""
        if kind == "string":
            return self.text(name)
        if kind == "type":
            return self.name(name)
        owner, member, held = name
        if kind == "method":
            return self.name(f"{owner}->{member}") + self.proto(held)
        return self.name(f"{owner}->{member}:{held}")

    def value_words(self, value: Value) -> list[str]:
        kind, held = value
        if kind == "array":
            return ["array", "{", *(word for each in held for word in self.value_words(each)), "}"]
        if kind in WITHOUT_OPERAND:
            return [kind]
        if kind in ("float", "double"):
            return [kind, self.bits(held, 8 if kind == "float" else 16)]
        return [kind, self.number(held, kind != "char") if isinstance(held, int) else self.named(kind, held)]

    def payload_words(self, each: Payload) -> list[str]:
        if each.kind == "array":
            return ["array-payload", self.number(each.width, False)] + ([self.bytes(each.data)] if each.data else [])
        targets = map(self.target, each.targets)
        keys = [self.number(key, True) for key in each.keys]
        if each.kind == "packed":
            return ["packed-switch-payload", *keys, *targets]
        return ["sparse-switch-payload", *(word for pair in zip(keys, targets) for word in pair)]

    def instruction_words(self, each: Instruction | Payload) -> list[str]:
        if isinstance(each, Payload):
            return self.payload_words(each)
        registers = list(map(self.register, each.registers))
        if form_of(each.opcode) == "35c":
            registers = ["{", *registers, "}"]
        words = [MNEMONICS[each.opcode], *registers]
        if each.count is not None:
            words.append(self.number(each.count, False))
        if each.literal is not None:
            words.append(self.number(each.literal, True))
        if each.target is not None:
            words.append(self.target(each.target))
        if each.name is not None:
            words.append(self.named(kind_of_name(each.opcode), each.name))
        return words

    def code_lines(self, code: Code) -> Iterator[list[str]]:
        self.begin_code(code)
        yield ["code", *(self.number(size, False) for size in (code.registers, code.ins, code.outs))]
        for k, each in enumerate(code.instructions):
            if self.form == 1:
                yield [self.instruction_number(k), *self.instruction_words(each)]
            else:
                yield from ([label] for label in self.labels(k))
                yield self.instruction_words(each)
        if self.form == 2:
            yield from ([label] for label in self.labels(len(code.instructions)))
        for one in code.tries:
            yield ["try", self.target(one.first), self.target(one.after)]
            for text, k in one.catches:
                yield ["catch", self.name(text), self.target(k)]
            if one.other is not None:
                yield ["catchall", self.target(one.other)]
        yield ["end", "code"]

    def head_lines(self, made: Class) -> Iterable[list[str]]:
        if made.superclass is not None:
            yield ["super", self.name(made.superclass)]
        for text in made.interfaces:
            yield ["implements", self.name(text)]
        if made.source is not None:
            yield ["source", self.text(made.source)]

    def is_value_written(self, made: Class, i: int) -> bool:
        return i < len(made.values)

    def member_blocks(self, made: Class) -> Iterable[list[list[str]]]:
        """The lines of each member."""
        each: Field | Method
        for i, each in enumerate(made.statics):
            value = ["=", *self.value_words(made.values[i])] if self.is_value_written(made, i) else []
            yield [["static", self.name(each.name), self.name(each.type), self.flags(each.flags), *value]]
        for each in made.instances:
            yield [["instance", self.name(each.name), self.name(each.type), self.flags(each.flags)]]
        for key, methods in (("direct", made.directs), ("virtual", made.virtuals)):
            for each in methods:
                line = [key, self.name(each.name), self.proto(each.proto), self.flags(each.flags)]
                yield [line, *([] if each.code is None else self.code_lines(each.code))]

    def class_lines(self, made: Class) -> Iterator[list[str]]:
        yield ["class", self.name(made.type), self.flags(made.flags)]
        yield from self.head_lines(made)
        for block in self.member_blocks(made):
            yield from block
        yield ["end", "class"]

    def lines(self, classes: Iterable[Class]) -> Iterator[list[str]]:
        """The words of each line."""
        yield ["dex", "035"] if self.form == 1 else ["dex", "035", "listing", "2"]
        for made in classes:
            yield from self.class_lines(made)

    def listing(self, classes: Iterable[Class]) -> Bytes:
        return "".join(" ".join(words) + "\n" for words in self.lines(classes)).encode("ascii")


def needed_labels(code: Code) -> set[int]:
    """The numbers of instructions before which a label stands, and the one after the last where a try ends there."""
    labels: set[int] = set()
    for each in code.instructions:
        if isinstance(each, Payload):
            labels.update(each.targets)
        elif each.target is not None:
            labels.add(each.target)
    for one in code.tries:
        labels.update((one.first, one.after), (k for _, k in one.catches), [] if one.other is None else [one.other])
    return labels


def print_listing(classes: Iterable[Class], form: int = 2) -> bytes:
    return Printer(form).listing(classes)
