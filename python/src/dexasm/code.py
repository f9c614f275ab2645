"""Codes: instructions, labels and tries as objects, read from the lines of a listing and written as such lines."""
from __future__ import annotations

import functools
import re
from collections.abc import Callable, Iterable, Iterator
from dataclasses import dataclass, field
from typing import Any

from dexasm.canonical import canonical_reader
from dexasm.formats import MNEMONICS, Format, format_of
from dexasm.names import (
    FieldRef,
    MethodRef,
    Type,
    number,
    operand,
    operand_of,
    preview,
    quoted,
    spelled,
    type_of,
    unquoted,
    unspelled,
)

_MNEMONIC = re.compile(
    r"(?!(?:dex|class|super|implements|source|static|instance|direct|virtual|code|try|catch|catchall|end)\Z)"
    r"[a-z][a-z0-9/-]*"
)


@dataclass(slots=True, eq=False)
class Label:
    """A place in a code: before an instruction, or the end where that is None. Two labels are never equal."""

    insn: Insn | None = None

    def __repr__(self) -> str:
        return f"Label(before {self.insn.mnemonic!a})" if self.insn is not None else "Label(the end)"


@dataclass(slots=True, init=False)
class Insn:
    """An instruction: its mnemonic and its operands, of which most are None.

    `literal` is the number that stands in the instruction (of const/high16 its 16 bits), `target` where it leads,
    `name` what it names, `text` the text of a const-string, `count` how many registers a range takes.
    """

    mnemonic: str
    registers: tuple[int, ...]
    literal: int | None
    target: Label | None
    name: Type | FieldRef | MethodRef | None
    text: str | None
    count: int | None

    def __init__(
        self,
        mnemonic: str,
        *registers: int,
        literal: int | None = None,
        target: Label | None = None,
        name: str | None = None,
        text: str | None = None,
        count: int | None = None,
    ) -> None:
        self.mnemonic, self.registers, self.literal, self.target = mnemonic, registers, literal, target
        self.name = name if name is None or isinstance(name, (Type, FieldRef, MethodRef)) else operand(name)
        self.text, self.count = text, count
        self._check_operands()

    def _check_operands(self) -> None:
        """Refuses at once a mnemonic that is none, and operands that it doesn't take. (What is missing may come yet.)"""
        form = _form(self.mnemonic)
        registers = len(self.registers)
        operands = {name: getattr(self, name) for name in ("literal", "target", "name", "text", "count")}
        taken = {"literal": form.literal, "target": form.target, "count": form.is_range}
        taken |= {"name": form.name not in ("", "text"), "text": form.name == "text"}
        wrong = next((name for name, value in operands.items() if value is not None and not taken[name]), None)
        if wrong is not None:
            raise ValueError(f"{takes(self.mnemonic)}, and no {wrong}: {preview(operands[wrong])}")
        if registers > 5 if form.is_list else registers != len(form.registers):
            raise ValueError(f"{takes(self.mnemonic)}: {registers} register{'s' * (registers != 1)} here")

    def __repr__(self) -> str:
        arguments = [ascii(self.mnemonic), *map(ascii, self.registers)]
        for slot in ("literal", "target", "name", "text", "count"):
            if getattr(self, slot) is not None:
                arguments.append(f"{slot}={getattr(self, slot)!r}")
        return f"{type(self).__name__}({', '.join(arguments)})"

    def labels(self) -> Iterable[Label]:
        """All labels that it leads to."""
        return (self.target,) if self.target is not None else ()

    @property
    def units(self) -> int:
        """Its size in 16-bit code units."""
        return _form(self.mnemonic).units


def _fill(
    insn: Insn,
    mnemonic: str,
    registers: tuple[int, ...],
    literal: int | None = None,
    target: Label | None = None,
    name: Type | FieldRef | MethodRef | None = None,
    text: str | None = None,
    count: int | None = None,
) -> Insn:
    """Fills an instruction with what a listing says, which nobody looks at again."""
    insn.mnemonic, insn.registers, insn.literal, insn.target = mnemonic, registers, literal, target
    insn.name, insn.text, insn.count = name, text, count
    return insn


def _form(mnemonic: object) -> Format:
    form = format_of(mnemonic) if isinstance(mnemonic, str) else None
    if form is None:
        from dexasm.listing.syntax import near

        hint = near(mnemonic, MNEMONICS) if isinstance(mnemonic, str) else ""
        raise ValueError(f"no mnemonic: {preview(mnemonic)}{hint}")
    return form


def takes(mnemonic: str) -> str:
    """What an instruction takes, as a listing has it."""
    from dexasm.listing import syntax

    return syntax.takes(mnemonic, syntax.labels_of(_form(mnemonic)))


class _Payload(Insn):
    """What stands among instructions and is none; it has no operands of one."""

    __slots__ = ()
    word = ""

    def __init__(self) -> None:
        _fill(self, self.word, ())


@dataclass(slots=True, init=False)
class PackedSwitch(_Payload):
    """The payload of a packed-switch: the keys from the first on, and a target for each."""

    word = "packed-switch-payload"
    first: int
    targets: list[Label]

    def __init__(self, first: int, targets: Iterable[Label]) -> None:
        _Payload.__init__(self)
        self.first, self.targets = first, [*targets]

    def labels(self) -> Iterable[Label]:
        return self.targets

    @property
    def units(self) -> int:
        return 4 + 2 * len(self.targets)


@dataclass(slots=True, init=False)
class SparseSwitch(_Payload):
    """The payload of a sparse-switch: keys, which rise, and a target for each."""

    word = "sparse-switch-payload"
    keys: list[int]
    targets: list[Label]

    def __init__(self, keys: Iterable[int], targets: Iterable[Label]) -> None:
        _Payload.__init__(self)
        self.keys, self.targets = [*keys], [*targets]

    def labels(self) -> Iterable[Label]:
        return self.targets

    @property
    def units(self) -> int:
        return 2 + 4 * len(self.targets)


@dataclass(slots=True, init=False)
class ArrayData(_Payload):
    """The payload of a fill-array-data: bytes an element, and the elements' bytes, low byte first."""

    word = "array-payload"
    width: int
    data: bytes

    def __init__(self, width: int, data: bytes) -> None:
        _Payload.__init__(self)
        self.width, self.data = width, data

    @property
    def units(self) -> int:
        return 4 + (len(self.data) + 1) // 2


@dataclass(slots=True)
class Catch:
    """A handler of one type of exceptions."""

    type: Type
    target: Label


@dataclass(slots=True)
class Try:
    """What is covered, from a label to another one (its instruction isn't covered), and its handlers in their order."""

    start: Label
    end: Label
    catches: list[Catch] = field(default_factory=list)
    catch_all: Label | None = None

    def labels(self) -> Iterator[Label]:
        yield self.start
        yield self.end
        for catch in self.catches:
            yield catch.target
        if self.catch_all is not None:
            yield self.catch_all


class Code:
    """The code of a method: its registers, its instructions and its tries, which are read when they are asked for."""

    __slots__ = ("registers", "ins", "outs", "_text", "_insns", "_tries")

    def __init__(
        self, registers: int = 0, ins: int = 0, outs: int = 0, insns: Iterable[Insn] = (), tries: Iterable[Try] = ()
    ) -> None:
        self.registers, self.ins, self.outs = registers, ins, outs
        self._text: str | None = None  # the lines behind the first, from the end of that one on
        self._insns, self._tries = [*insns], [*tries]

    @classmethod
    def of_text(cls, text: str) -> Code:
        """From the lines that a listing has of it, `code` the first and `end code` the last, as `list` writes them."""
        code, end = cls.__new__(cls), text.index("\n")
        code.registers, code.ins, code.outs = map(int, text[len("code ") : end].split(" "))
        code._text = text[end:]
        return code

    @property
    def insns(self) -> list[Insn]:
        self._read()
        return self._insns

    @insns.setter
    def insns(self, value: Iterable[Insn]) -> None:
        self._read()
        self._insns = [*value]

    @property
    def tries(self) -> list[Try]:
        self._read()
        return self._tries

    @tries.setter
    def tries(self, value: Iterable[Try]) -> None:
        self._read()
        self._tries = [*value]

    def replace(self, insn: Insn, *by: Insn) -> None:
        """Puts others, or none, in an instruction's place. What led there leads to the first of them or to the next."""
        insns = self.insns
        at = next((at for at, one in enumerate(insns) if one is insn), None)
        if at is None:
            raise ValueError(f"no instruction of this code: {preview(insn)}")
        insns[at : at + 1] = by
        heir = insns[at] if at < len(insns) else None
        for label in self.labels():
            if label.insn is insn:
                label.insn = heir

    def labels(self) -> Iterator[Label]:
        """Each label that an instruction, a payload or a try has, as often as it has it."""
        for insn in self.insns:
            yield from insn.labels()
        for one in self.tries:
            yield from one.labels()

    def __str__(self) -> str:
        head = f"code {number(self.registers)} {number(self.ins)} {number(self.outs)}"
        return head + (self._text if self._text is not None else "\n".join(["", *_lines(self), "end code\n"]))

    def __repr__(self) -> str:
        return f"Code({self.registers!a}, {self.ins!a}, {self.outs!a}, ..)"

    def __eq__(self, other: object) -> bool:
        return isinstance(other, Code) and str(self) == str(other)

    __hash__ = None  # type: ignore[assignment]

    def __reduce__(self) -> tuple[object, tuple[str]]:
        # (a copy has instructions and labels of its own, however they lead to one another)
        return Code.of_text, (str(self),)

    def _read(self) -> None:
        if self._text is not None:
            self._insns, self._tries = _read_lines(self._text)
            self._text = None


# A line that ends with a name or a text, which no other word of a code begins like; and `catch`, which has a label last.
_MENTIONS = re.compile(r'\n([a-z][^ \n]*) [v0-9{} ]*([A-Z\["].*)')

Mention = tuple[str, bool, str]


def mentions(code: Code) -> Iterable[Mention]:
    """Each name and text of a code, whether it is a text, and the mnemonic or `catch`. The code stays unread."""
    if code._text is None:
        return _mentions(code)
    return [
        (unquoted(word), True, how)
        if word[0] == '"'
        else (unspelled(word.partition(" ")[0] if how == "catch" else word), False, how)
        for how, word in _MENTIONS.findall(code._text)
    ]


def _mentions(code: Code) -> Iterator[Mention]:
    for insn in code.insns:
        if insn.name is not None:
            yield str(insn.name), False, insn.mnemonic
        elif insn.text is not None:
            yield insn.text, True, insn.mnemonic
    for one in code.tries:
        yield from ((str(catch.type), False, "catch") for catch in one.catches)


# ---- reading

_NEW = Insn.__new__
_MOST_KEPT, _LONGEST_KEPT = 1 << 15, 256  # words or lines, and characters of one

Registers = tuple[int, ...]


class _Cache(dict[str, Any]):
    """The meaning of words, each read once. It drops all when it is full and keeps no long ones: no file makes it large."""

    def __init__(self, read: Callable[[str], Any]) -> None:
        self.read = read

    def __missing__(self, word: str) -> Any:
        found = self.read(word)
        if len(word) <= _LONGEST_KEPT:
            if len(self) >= _MOST_KEPT:
                self.clear()
            self[word] = found
        return found


def _kind(key: str) -> str:
    """What the last word of a line with this first word is; "" if that is a register or the first word itself."""
    if key.endswith("-payload") or key in ("try", "catch", "catchall"):
        return key
    form = _form(key)
    if form.name:
        return "text" if form.name == "text" else "name"
    return "target" if form.target else "literal" if form.literal else ""


def _read_registers(words: str) -> tuple[Registers, int | None]:
    """The registers of the words before a name or a target, and of a range how many it has."""
    mnemonic, *rest = words.split(" ")
    if rest[:1] == ["{"]:
        rest = rest[1:-1]
    count = int(rest.pop()) if rest and rest[-1].isdigit() else None
    return tuple([int(word[1:]) for word in rest]), count


def _read_plain(line: str) -> tuple[str, Registers, int | None]:
    """The mnemonic, the registers and the literal of a line that has nothing else."""
    mnemonic, *words = line.split(" ")
    literal = int(words.pop()) if _KINDS[mnemonic] else None
    return mnemonic, tuple([int(word[1:]) for word in words]), literal


_KINDS, _OPERANDS, _REGISTERS, _PLAIN = _Cache(_kind), _Cache(operand_of), _Cache(_read_registers), _Cache(_read_plain)


@canonical_reader
def _read_lines(text: str) -> tuple[list[Insn], list[Try]]:
    insns: list[Insn] = []
    tries: list[Try] = []
    labels: dict[str, Label] = {}
    here: Label | None = None
    if not text.endswith("\nend code\n"):
        raise ValueError("no end")
    for line in text[1 : -len("end code\n")].split("\n")[:-1]:
        plain = _PLAIN.get(line)
        if plain is not None:
            insn = _NEW(Insn)
            insn.mnemonic, insn.registers, insn.literal = plain
            insn.target = insn.name = insn.text = insn.count = None
        elif line[0] == ":":
            here = _label(labels, line)
            continue
        else:
            found = _read_line(line, labels, tries)
            if found is None:
                continue
            insn = found
        if here is not None:
            here.insn, here = insn, None
        insns.append(insn)
    return insns, tries


def _label(labels: dict[str, Label], word: str) -> Label:
    label = labels.get(word)
    if label is None:
        label = labels[word] = Label()
    return label


def _read_line(line: str, labels: dict[str, Label], tries: list[Try]) -> Insn | None:
    """The instruction of a line; None of a line of tries."""
    mnemonic = line.partition(" ")[0]
    kind = _KINDS[mnemonic]
    if kind == "" or kind == "literal":
        return _fill(_NEW(Insn), *_PLAIN[line])
    head, _, last = line.partition(' "') if kind == "text" else line.rpartition(" ")
    if kind == "name":
        registers, count = _REGISTERS[head]
        return _fill(_NEW(Insn), mnemonic, registers, None, None, _OPERANDS[last], None, count)
    if kind == "target":
        return _fill(_NEW(Insn), mnemonic, _REGISTERS[head][0], None, _label(labels, last))
    if kind == "text":
        return _fill(_NEW(Insn), mnemonic, _REGISTERS[head][0], text=unquoted(f'"{last}'))
    if kind[-8:] == "-payload":
        return _read_payload(line.split(" "), labels)
    _read_try(line.split(" "), labels, tries)
    return None


def _read_try(words: list[str], labels: dict[str, Label], tries: list[Try]) -> None:
    if words[0] == "try":
        tries.append(Try(_label(labels, words[1]), _label(labels, words[2])))
    elif words[0] == "catch":
        tries[-1].catches.append(Catch(type_of(words[1]), _label(labels, words[2])))
    else:
        tries[-1].catch_all = _label(labels, words[1])


def _read_payload(words: list[str], labels: dict[str, Label]) -> Insn:
    if words[0] == PackedSwitch.word:
        return PackedSwitch(int(words[1]), [_label(labels, word) for word in words[2:]])
    if words[0] == SparseSwitch.word:
        return SparseSwitch(map(int, words[1::2]), [_label(labels, word) for word in words[2::2]])
    return ArrayData(int(words[1]), bytes.fromhex(words[2]) if len(words) > 2 else b"")


# ---- writing


class _LabelNumbers:
    """Where the labels of a code stand, and how they are spelled."""

    def __init__(self, insns: list[Insn]) -> None:
        self.end, self.used = len(insns), set[int]()
        self.places = {id(insn): at for at, insn in enumerate(insns)}
        self.twice = set[int]()
        if len(self.places) < len(insns):
            self.twice = {id(insn) for at, insn in enumerate(insns) if self.places[id(insn)] != at}

    def word(self, label: Label) -> str:
        if not isinstance(label, Label):
            raise ValueError(f"no Label: {preview(label)}")
        at = self.end
        if label.insn is not None:
            if id(label.insn) not in self.places:
                raise ValueError(f"a label leads to no instruction of its code: {preview(label.insn)}")
            if id(label.insn) in self.twice:
                raise ValueError(f"a label marks an instruction that is in the code twice: {preview(label.insn)}")
            at = self.places[id(label.insn)]
        self.used.add(at)
        return f":L{at}"


def _lines(code: Code) -> Iterator[str]:
    """The lines after the first and before the last."""
    insns, tries = code.insns, code.tries
    places = _LabelNumbers(insns)
    written = [_insn_line(insn, places) for insn in insns]
    ends = [line for one in tries for line in _try_lines(one, places)]
    for at, line in enumerate(written):
        if at in places.used:
            yield f":L{at}"
        yield line
    if places.end in places.used:
        yield f":L{places.end}"
    yield from ends


@functools.lru_cache(maxsize=512)
def _mnemonic(word: str) -> str:
    if not _MNEMONIC.fullmatch(word):
        raise ValueError(f"no mnemonic: {preview(word)}")
    return word


@functools.lru_cache(maxsize=512)
def _has_braces(mnemonic: str) -> bool:
    return mnemonic.startswith(("invoke-", "filled-new-array")) and not mnemonic.endswith("/range")


def _insn_line(insn: Insn, places: _LabelNumbers) -> str:
    if isinstance(insn, _Payload):
        return " ".join(_payload_words(insn, places))
    if not isinstance(insn, Insn):
        raise ValueError(f"no Insn: {preview(insn)}")
    if not isinstance(insn.mnemonic, str):
        raise ValueError(f"no mnemonic: {preview(insn.mnemonic)}")
    words = [_mnemonic(insn.mnemonic)]
    registers = [f"v{number(register)}" for register in insn.registers]
    words += ["{", *registers, "}"] if _has_braces(insn.mnemonic) else registers
    for numeral in (insn.literal, insn.count):
        if numeral is not None:
            words.append(number(numeral))
    if insn.target is not None:
        words.append(places.word(insn.target))
    if insn.name is not None:
        name = insn.name
        words.append(spelled(name if isinstance(name, (Type, FieldRef, MethodRef)) else operand(name)))
    if insn.text is not None:
        words.append(quoted(insn.text))
    return " ".join(words)


def _payload_words(insn: Insn, places: _LabelNumbers) -> list[str]:
    if isinstance(insn, PackedSwitch):
        return [insn.word, number(insn.first), *map(places.word, insn.targets)]
    if isinstance(insn, SparseSwitch):
        if len(insn.keys) != len(insn.targets):
            raise ValueError(f"{len(insn.keys)} keys and {len(insn.targets)} targets of a sparse-switch-payload")
        pairs = zip(map(number, insn.keys), map(places.word, insn.targets))
        return [insn.word, *(word for pair in pairs for word in pair)]
    if not isinstance(insn, ArrayData) or not isinstance(insn.data, (bytes, bytearray)):
        raise ValueError(f"no payload: {preview(insn)}")
    return [insn.word, number(insn.width), *([insn.data.hex()] if insn.data else [])]


def _try_lines(one: Try, places: _LabelNumbers) -> Iterator[str]:
    if not isinstance(one, Try):
        raise ValueError(f"no Try: {preview(one)}")
    yield f"try {places.word(one.start)} {places.word(one.end)}"
    for catch in one.catches:
        yield f"catch {spelled(Type(catch.type))} {places.word(catch.target)}"
    if one.catch_all is not None:
        yield f"catchall {places.word(one.catch_all)}"
