"""Names as values, and the words of a listing that say them (docs/LISTING.md, "What a word can be").

A name is a str of its own kind: it compares and hashes as the text that FORMAT gives it, `LA;->show(I)V`, without the
escapes of a listing. A text that isn't of a name's form makes no name: ValueError.
"""
from __future__ import annotations

import functools
import json
import re
from operator import index
from typing import Any, TypeVar

_SIMPLE = r"[A-Za-z0-9$\-_\u00a1-\u1fff\u2010-\u2027\u2030-\ud7ff\ue000-\uffef\U00010000-\U0010ffff]+"
_MEMBER = rf"(?:{_SIMPLE}|<{_SIMPLE}>)"
_TYPE = rf"(?:V|\[{{0,255}}(?:[ZBSCIJFD]|L{_SIMPLE}(?:/{_SIMPLE})*;))"
_PROTO = rf"\((?:{_TYPE})*\){_TYPE}"
_PLAIN_MEMBER = re.compile(r"[A-Za-z0-9_$]+|<init>|<clinit>")
_JAVA = "void boolean byte short char int long float double"
PRIMITIVES = dict(zip("VZBSCIJFD", _JAVA.split()))  # as Java names them

NameT = TypeVar("NameT", bound="Name")


@functools.cache
def _pattern(form: str) -> re.Pattern[str]:
    """(Compiled at the first use, since that takes a while.)"""
    return re.compile(form)


class Name(str):
    """What names have in common; none is of this kind itself."""

    __slots__ = ()
    form: str  # a regular expression

    def __new__(cls: type[NameT], text: str) -> NameT:
        if type(text) is cls:
            return text
        if not isinstance(text, str) or not _pattern(cls.form).fullmatch(text):
            raise ValueError(f"no {cls.__name__}: {preview(text)}")
        return str.__new__(cls, text)

    @property
    def spelled(self) -> str:
        """As a listing writes it: ASCII, so that no terminal obeys any of it."""
        return spelled(self)

    def __repr__(self) -> str:
        return f"{type(self).__name__}({ascii(str(self))})"


class Type(Name):
    """A type by its descriptor: `I`, `[Ljava/lang/String;`."""

    __slots__ = ()
    form = _TYPE

    @property
    def element(self) -> Type | None:
        """Of an array the type of its elements."""
        return _unchecked(Type, self[1:]) if self[0] == "[" else None

    @property
    def pretty(self) -> str:
        """As Java has it: `java.lang.String[]`."""
        inner = self.lstrip("[")
        name = inner[1:-1].replace("/", ".") if inner[0] == "L" else PRIMITIVES[inner]
        return name + "[]" * (len(self) - len(inner))

    @property
    def package(self) -> str:
        """Of a class the package, `java.lang`; otherwise, and outside of packages, ""."""
        return self[1:].rpartition("/")[0].replace("/", ".") if self[0] == "L" else ""


class Proto(Name):
    """A prototype: `(I[J)V`."""

    __slots__ = ()
    form = _PROTO

    @property
    def parameters(self) -> tuple[Type, ...]:
        return tuple(_unchecked(Type, found) for found in _pattern(_TYPE).findall(self, 1, self.index(")")))

    @property
    def returns(self) -> Type:
        return _unchecked(Type, self[self.index(")") + 1 :])


class MemberRef(Name):
    """What names of fields and methods have in common; none is of this kind itself."""

    __slots__ = ()
    behind: str  # what follows the member's own name

    @property
    def owner(self) -> Type:
        return _unchecked(Type, self.partition("->")[0])

    @property
    def name(self) -> str:
        return self.partition("->")[2].partition(self.behind)[0]


class FieldRef(MemberRef):
    """A field: `LA;->count:I`."""

    __slots__ = ()
    form, behind = rf"{_TYPE}->{_MEMBER}:{_TYPE}", ":"

    @classmethod
    def of(cls, owner: str, name: str, type: str) -> FieldRef:
        return _unchecked(cls, f"{Type(owner)}->{member(name)}:{Type(type)}")

    @property
    def type(self) -> Type:
        return _unchecked(Type, self.partition(":")[2])


class MethodRef(MemberRef):
    """A method: `LA;->show(I)V`."""

    __slots__ = ()
    form, behind = rf"{_TYPE}->{_MEMBER}{_PROTO}", "("

    @classmethod
    def of(cls, owner: str, name: str, proto: str) -> MethodRef:
        return _unchecked(cls, f"{Type(owner)}->{member(name)}{Proto(proto)}")

    @property
    def proto(self) -> Proto:
        return _unchecked(Proto, self[self.index("(") :])


def member(name: str) -> str:
    """The name of a field or of a method, if it is one."""
    if isinstance(name, str) and (_PLAIN_MEMBER.fullmatch(name) or _pattern(_MEMBER).fullmatch(name)):
        return name
    raise ValueError(f"no name of a member: {preview(name)}")


def operand(text: str) -> Type | FieldRef | MethodRef:
    """What an instruction names, its kind told by its form."""
    if not isinstance(text, str):
        raise ValueError(f"no name: {preview(text)}")
    if "->" not in text:
        return Type(text)
    return MethodRef(text) if "(" in text else FieldRef(text)


def preview(value: object) -> str:
    """What was given, in a line: its beginning, without what a terminal obeys."""
    text = ascii(value)
    return text if len(text) <= 80 else f"{text[:77]}..."


# ---- words of a listing

_STRANGE = re.compile(r"[^!-\[\]-~]")
_ESCAPED = re.compile(r"[^ !#-\[\]-~]")


def _unchecked(kind: type[NameT], text: str) -> NameT:
    """A name of a text that is known to be one."""
    return str.__new__(kind, text)


def _units(found: re.Match[str]) -> str:
    char = found[0]
    if char in '"\\':
        return f"\\{char}"
    digits = char.encode("utf-16-be", "surrogatepass").hex()
    return "".join(f"\\u{digits[at : at + 4]}" for at in range(0, len(digits), 4))


def spelled(name: str) -> str:
    """A name as a word: none of its characters ends the word or the line."""
    return (
        _STRANGE.sub(lambda found: "\\u005c" if found[0] == "\\" else _units(found), name)
        if _STRANGE.search(name)
        else str(name)
    )


def quoted(text: str) -> str:
    """A text as a word."""
    if not isinstance(text, str):
        raise ValueError(f"no text: {preview(text)}")
    return f'"{_ESCAPED.sub(_units, text)}"'


def number(value: Any) -> str:
    """A number as a word."""
    try:
        return int.__repr__(index(value))
    except TypeError:
        raise ValueError(f"no number: {preview(value)}") from None


def flags(value: Any) -> str:
    """Flags as a word."""
    number(value)
    return hex(index(value))


def unspelled(word: str) -> str:
    """The name that a word says. Two surrogates that are a pair are one character; a lone one stays."""
    return str(json.loads(f'"{word}"')) if "\\" in word else word


def unquoted(word: str) -> str:
    """The text that a word says."""
    return str(json.loads(word)) if "\\" in word else word[1:-1]


def type_of(word: str) -> Type:
    return _unchecked(Type, unspelled(word))


def proto_of(word: str) -> Proto:
    return _unchecked(Proto, unspelled(word))


def operand_of(word: str) -> Type | FieldRef | MethodRef:
    """What a word of an instruction names."""
    name = unspelled(word) if "\\" in word else word
    if "->" not in name:
        return _unchecked(Type, name)
    return _unchecked(MethodRef, name) if "(" in name else _unchecked(FieldRef, name)
