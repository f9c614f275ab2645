"""Classes, their members and values as objects, read from the lines of a listing and written as such lines."""
from __future__ import annotations

import dataclasses
import re
import struct
from collections.abc import Callable, Iterator, Sequence
from dataclasses import dataclass
from typing import Any, ClassVar, NamedTuple, TypeVar

from dexasm.canonical import canonical_reader
from dexasm.code import Code, Insn, mentions
from dexasm.names import (
    FieldRef,
    MethodRef,
    Proto,
    Type,
    flags,
    member,
    number,
    operand_of,
    preview,
    proto_of,
    quoted,
    spelled,
    type_of,
    unquoted,
    unspelled,
)

_PRIVATE, _STATIC = 0x2, 0x8
_DEPTH = 65  # a value more than 64 deep is refused; one that is in itself has no end
_WORD = re.compile(r'"(?:[^"\\]|\\.)*"|[^ ]+')
_NUMBERS = ("byte", "short", "char", "int", "long")
_DIGITS = {"float": 8, "double": 16}
_NAMED: dict[str, Callable[[str], str]] = {"type": Type, "field": FieldRef, "enum": FieldRef, "method": MethodRef}


@dataclass(slots=True)
class Value:
    """An initial value of a static field: its kind, and what it is.

    That is an int for byte, short, char, int and long; the bits, as an int, for float and double; a str for string, a
    name for type, field, enum and method, a bool for boolean, None for null, and a list of Values for array.
    """

    kind: str
    value: Any = None

    @property
    def number(self) -> float:
        """Of float and double the number that the bits are."""
        size = ">f" if self.kind == "float" else ">d"
        return float(struct.unpack(size, bytes.fromhex(_bits(self)))[0])

    def all(self) -> Iterator[Value]:
        """This one, and of an array those in it, however deep."""
        due = [(self, 0)]
        while due:
            one, depth = due.pop()
            yield one
            if one.kind == "array":
                _check_depth(depth)
                due += ((inner, depth + 1) for inner in reversed(one.value))

    def __str__(self) -> str:
        return " ".join(_value_words(self, 0))


@dataclass(slots=True)
class Field:
    """A field of a class; its value is what a static one begins with."""

    name: str
    type: Type
    flags: int = 0
    value: Value | None = None

    @property
    def signature(self) -> str:
        """`count:I`"""
        return f"{self.name}:{self.type}"

    def __str__(self) -> str:
        """Its line of a listing; it stands among the static fields if its flags say so."""
        return _field_line("static" if self.flags & _STATIC else "instance", self)


@dataclass(slots=True)
class Method:
    """A method of a class, with its code where it has any."""

    name: str
    proto: Proto
    flags: int = 0
    code: Code | None = None

    @property
    def signature(self) -> str:
        """`get(Z)I`"""
        return f"{self.name}{self.proto}"

    def __str__(self) -> str:
        """Its lines of a listing; it stands among the direct methods if its flags or its name say so."""
        is_direct = self.flags & (_STATIC | _PRIVATE) or self.name.startswith("<")
        return _method_lines("direct" if is_direct else "virtual", self)

    @property
    def insns(self) -> Sequence[Insn]:
        """The instructions of its code, none where it has no code."""
        return self.code.insns if self.code is not None else ()


@dataclass(slots=True)
class Class:
    """A class: its name, what stands before its members, and its members in four lists."""

    renamed: ClassVar[object] = object()  # another one after each renaming of a class

    name: Type
    flags: int = 0x1
    superclass: Type | None = None
    interfaces: list[Type] = dataclasses.field(default_factory=list)
    source: str | None = None
    statics: list[Field] = dataclasses.field(default_factory=list)
    instances: list[Field] = dataclasses.field(default_factory=list)
    directs: list[Method] = dataclasses.field(default_factory=list)
    virtuals: list[Method] = dataclasses.field(default_factory=list)

    def __setattr__(self, name: str, value: object) -> None:
        if name == "name" and hasattr(self, "name"):
            Class.renamed = object()  # (one store: threads can lose an increment)
        object.__setattr__(self, name, value)

    @classmethod
    def of_text(cls, text: str) -> Class:
        """From the lines that a listing has of it, as `list` writes them."""
        return _read_class(text)

    @property
    def fields(self) -> tuple[Field, ...]:
        """Static fields, then instance fields."""
        return (*self.statics, *self.instances)

    @property
    def methods(self) -> tuple[Method, ...]:
        """Direct methods, then virtual ones."""
        return (*self.directs, *self.virtuals)

    def field(self, signature: str) -> Field:
        """The field of this signature, `count:I`, or of this name, if there is one such; otherwise KeyError."""
        return _only(self.fields, signature, ":")

    def method(self, signature: str) -> Method:
        """The method of this signature, `get(Z)I`, or of this name, if there is one such; otherwise KeyError."""
        return _only(self.methods, signature, "(")

    def ref(self, one: Field | Method) -> FieldRef | MethodRef:
        """The name of a member of this class."""
        if isinstance(one, Field):
            return FieldRef.of(self.name, one.name, one.type)
        return MethodRef.of(self.name, one.name, one.proto)

    def references(self) -> Iterator[Reference]:
        """Each name and text that the class has besides its own name and its members', in the order of its listing."""
        owner = str(self.name)
        if self.superclass is not None:
            yield Reference(str(self.superclass), False, owner, "superclass")
        yield from (Reference(str(name), False, owner, "interface") for name in self.interfaces)
        for field in self.fields:
            by = str(self.ref(field))
            yield Reference(str(field.type), False, by, "type")
            for one in field.value.all() if field.value else ():
                if one.kind == "string" or one.kind in _NAMED:
                    yield Reference(str(one.value), one.kind == "string", by, "value")
        for method in self.methods:
            by = str(self.ref(method))
            yield Reference(str(method.proto), False, by, "prototype")
            if method.code is not None:
                for name, is_text, how in mentions(method.code):
                    yield Reference(name, is_text, by, how)

    def parts(self) -> Iterator[tuple[Field | Method | None, str]]:
        """The lines of the class before its members, with None, and those of each member."""
        yield None, "".join(f"{line}\n" for line in _heads(self))
        for word, fields in (("static", self.statics), ("instance", self.instances)):
            for one in fields:
                yield one, _field_line(word, one)
        for word, methods in (("direct", self.directs), ("virtual", self.virtuals)):
            for method in methods:
                yield method, _method_lines(word, method)

    def __str__(self) -> str:
        return "".join([*(text for _, text in self.parts()), "end class\n"])


class Reference(NamedTuple):
    """A name, or a text, which class or member has it, and how: as `superclass`, `interface`, `type`, `prototype`, `value`
    or `catch`, or in an instruction, by its mnemonic.
    """

    name: str
    is_text: bool
    by: str
    how: str


Member = TypeVar("Member", Field, Method)


def _only(members: tuple[Member, ...], signature: str, mark: str) -> Member:
    found = [one for one in members if (one.signature if mark in signature else one.name) == signature]
    if len(found) != 1:
        raise KeyError(f"{signature}: there are {len(found)}" if found else signature)
    return found[0]


# ---- reading


@canonical_reader
def _read_class(text: str) -> Class:
    """The class of its lines, which are parted behind each code."""
    if not text.endswith("\nend class\n"):
        raise ValueError("no end")
    name, bits = text[len("class ") : text.index("\n")].split(" ")
    result = Class(type_of(name), int(bits, 16))
    *parts, last = text[text.index("\n") + 1 : -len("end class\n")].split("\nend code\n")
    for part in parts:
        at = part.index("\ncode ") + 1
        _read_members(result, part[: at - 1])
        (result.virtuals or result.directs)[-1].code = Code.of_text(f"{part[at:]}\nend code\n")
    _read_members(result, last.removesuffix("\n"))
    return result


def _read_members(result: Class, text: str) -> None:
    """What lines of a class say that are no code's."""
    for line in text.split("\n") if text else ():
        key, _, rest = line.partition(" ")
        if key == "virtual" or key == "direct":
            name, proto, bits = rest.split(" ")
            to = result.virtuals if key == "virtual" else result.directs
            to.append(Method(unspelled(name), proto_of(proto), int(bits, 16)))
        elif key == "static" or key == "instance":
            (result.statics if key == "static" else result.instances).append(_read_field(rest))
        elif key == "super":
            result.superclass = type_of(rest)
        elif key == "implements":
            result.interfaces.append(type_of(rest))
        elif key == "source":
            result.source = unquoted(rest)
        else:
            raise ValueError(line)


def _read_field(rest: str) -> Field:
    words, _, value_text = rest.partition(" = ")
    name, of, bits = words.split(" ")
    value = _read_value(iter(_WORD.findall(value_text))) if value_text else None
    return Field(unspelled(name), type_of(of), int(bits, 16), value)


def _read_value(words: Iterator[str], kind: str = "") -> Value:
    kind = kind or next(words)
    if kind in _NUMBERS:
        return Value(kind, int(next(words)))
    if kind in _DIGITS:
        return Value(kind, int(next(words), 16))
    if kind == "string":
        return Value(kind, unquoted(next(words)))
    if kind in _NAMED:
        return Value(kind, operand_of(next(words)))
    if kind == "array":
        next(words)
        return Value(kind, [_read_value(words, word) for word in iter(words.__next__, "}")])
    return Value("null") if kind == "null" else Value("boolean", kind == "true")


# ---- writing


def _heads(one: Class) -> Iterator[str]:
    yield f"class {spelled(Type(one.name))} {flags(one.flags)}"
    if one.superclass is not None:
        yield f"super {spelled(Type(one.superclass))}"
    for interface in one.interfaces:
        yield f"implements {spelled(Type(interface))}"
    if one.source is not None:
        yield f"source {quoted(one.source)}"


def _field_line(word: str, one: Field) -> str:
    if not isinstance(one, Field):
        raise ValueError(f"no Field: {preview(one)}")
    if one.value is None:
        return f"{word} {spelled(member(one.name))} {spelled(Type(one.type))} {flags(one.flags)}\n"
    if word != "static":
        raise ValueError(f"an instance field has no value: {preview(one.name)}")
    words = " ".join(_value_words(one.value, 0))
    return f"{word} {spelled(member(one.name))} {spelled(Type(one.type))} {flags(one.flags)} = {words}\n"


def _method_lines(word: str, one: Method) -> str:
    if not isinstance(one, Method):
        raise ValueError(f"no Method: {preview(one)}")
    if one.code is not None and not isinstance(one.code, Code):
        raise ValueError(f"no Code: {preview(one.code)}")
    code = "" if one.code is None else str(one.code)
    return f"{word} {spelled(member(one.name))} {spelled(Proto(one.proto))} {flags(one.flags)}\n{code}"


def _check_depth(depth: int) -> None:
    if depth > _DEPTH:
        raise ValueError("a value is more than 64 deep, or in itself")


def _bits(one: Value) -> str:
    digits = _DIGITS[one.kind]
    number(one.value)
    if not 0 <= one.value < 1 << 4 * digits:
        raise ValueError(f"no bits of a {one.kind}: {preview(one.value)}")
    return f"{int(one.value):0{digits}x}"


def _value_words(one: Value, depth: int) -> list[str]:
    _check_depth(depth)
    if not isinstance(one, Value) or not isinstance(one.kind, str):
        raise ValueError(f"no Value: {preview(one)}")
    if one.kind in _NUMBERS:
        return [one.kind, number(one.value)]
    if one.kind in _DIGITS:
        return [one.kind, _bits(one)]
    if one.kind == "string":
        return [one.kind, quoted(one.value)]
    if one.kind in _NAMED:
        return [one.kind, spelled(_NAMED[one.kind](one.value))]
    if one.kind == "array" and isinstance(one.value, (list, tuple)):
        return ["array", "{", *(word for inner in one.value for word in _value_words(inner, depth + 1)), "}"]
    if one.kind == "null" and one.value is None:
        return ["null"]
    if one.kind == "boolean" and isinstance(one.value, bool):
        return ["true" if one.value else "false"]
    raise ValueError(f"no value: {preview(one)}")
