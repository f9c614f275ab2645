"""Programs as objects: read from a .dex file, changed, and written.

The library is the judge: a program is read from the listing that `list` writes, and written by `assemble`, so that what
is written keeps every rule, and what doesn't raises Refused. Nothing here may be used by two threads at once.
"""
from __future__ import annotations

import re
from collections.abc import Iterable, Iterator, MutableSequence
from typing import Any, overload

import dexasm
from dexasm.canonical import NoListing, canonical_reader
from dexasm.classes import Class, Reference
from dexasm.names import Type, preview, unspelled

HEAD = "dex 035 listing 2\n"
# How many near names are told, of what length at most, and how many are compared letter by letter.
MOST_NEAR, LONGEST_NEAR, MOST_COMPARED = 3, 200, 5000
_END = "\nend class\n"


class Classes(MutableSequence[Class]):
    """The classes of a program, in their order. Until one is asked for it is the text that it came with."""

    __slots__ = ("_text", "_rows", "_changed", "_index")

    @canonical_reader
    def __init__(self, text: str) -> None:
        self._text = text
        self._rows: list[Class | tuple[int, int]] = []
        self._changed = 0
        self._index: tuple[tuple[object, int], dict[str, int]] = (None, -1), {}
        at = len(HEAD)
        while at < len(text):
            end = text.index(_END, at) + len(_END)
            self._rows.append((at, end))
            at = end

    def __len__(self) -> int:
        return len(self._rows)

    def __iter__(self) -> Iterator[Class]:
        at = 0
        while at < len(self._rows):
            yield self._read(at)
            at += 1

    @overload
    def __getitem__(self, at: int) -> Class:
        ...

    @overload
    def __getitem__(self, at: slice) -> list[Class]:
        ...

    def __getitem__(self, at: int | slice) -> Class | list[Class]:
        if isinstance(at, slice):
            return [self._read(one) for one in range(len(self._rows))[at]]
        return self._read(at)

    def __setitem__(self, at: Any, value: Any) -> None:
        self._changed += 1
        if isinstance(at, slice):
            self._rows[at] = [_checked(one) for one in value]
        else:
            self._rows[at] = _checked(value)

    def __delitem__(self, at: int | slice) -> None:
        self._changed += 1
        del self._rows[at]

    def insert(self, at: int, value: Class) -> None:
        is_indexed = at == len(self._rows) and self._index[0] == (Class.renamed, self._changed)
        self._changed += 1
        self._rows.insert(at, _checked(value))
        if is_indexed:
            # (so that whoever adds many and looks for each has it quick)
            self._index[1].setdefault(value.name, at)
            self._index = (Class.renamed, self._changed), self._index[1]

    def __repr__(self) -> str:
        return f"<{len(self)} classes>"

    def names(self) -> Iterator[Type]:
        """The classes' names; none is read for it."""
        return map(self._type, self._rows)

    def texts(self) -> Iterator[str]:
        """The lines of each class. One that wasn't read has them as they came."""
        return (self._text[row[0] : row[1]] if isinstance(row, tuple) else str(row) for row in self._rows)

    def place(self, name: str) -> int | None:
        """Where the class of this name is."""
        now = Class.renamed, self._changed
        if self._index[0] != now:
            # (of two that have one name the first)
            self._index = now, {self._name(row): at for at, row in reversed([*enumerate(self._rows)])}
        return self._index[1].get(name)

    def _read(self, at: int) -> Class:
        row = self._rows[at]
        if isinstance(row, tuple):
            row = self._rows[at] = Class.of_text(self._text[row[0] : row[1]])
        return row

    def _name(self, row: Class | tuple[int, int]) -> str:
        return row.name if isinstance(row, Class) else self._name_in_text(row[0])

    @canonical_reader
    def _name_in_text(self, at: int) -> str:
        begin = at + len("class ")
        return unspelled(self._text[begin : self._text.index(" ", begin)])

    def _type(self, row: Class | tuple[int, int]) -> Type:
        return Type(row.name) if isinstance(row, Class) else self._type_in_text(row[0])

    @canonical_reader
    def _type_in_text(self, at: int) -> Type:
        return Type(self._name_in_text(at))


class NoClass(KeyError):
    """A program has no class of this name; the message says which names are near."""

    def __init__(self, name: object, classes: Classes) -> None:
        super().__init__(name)
        self._classes = classes

    def __str__(self) -> str:
        found = near_names(str(self.args[0]), [str(name) for name in self._classes.names()])
        return f"no class {preview(self.args[0])}" + (f"; near it: {', '.join(map(preview, found))}" if found else "")

    def __reduce__(self) -> tuple[object, ...]:
        return KeyError, (str(self),)


def near_names(name_wanted: str, names: list[str]) -> list[str]:
    """Names of classes that somebody could have meant: by another spelling (com.x.Y, com/x/Y), of another package, or
    with letters that differ.
    """
    bare = name_wanted.removeprefix("L").removesuffix(";")
    for spelled in (f"L{name_wanted.replace('.', '/')};", f"L{bare.replace('.', '/')};"):
        if spelled in names:
            return [spelled]
    last = re.split("[./]", bare)[-1].lower()
    alike = [name for name in names if name[1:-1].rpartition("/")[2].lower() == last]
    if alike or len(bare) > LONGEST_NEAR:
        return alike[:MOST_NEAR]
    import difflib

    return difflib.get_close_matches(name_wanted, names[:MOST_COMPARED], MOST_NEAR, 0.75)


def _checked(value: object) -> Class:
    if not isinstance(value, Class):
        raise TypeError(f"no Class: {preview(value)}")
    return value


class Program:
    """What a .dex file says: its classes.

    `str` of a program is its listing: of one that wasn't changed, as `list` writes it.
    """

    __slots__ = ("_classes",)

    def __init__(self, classes: Iterable[Class] = ()) -> None:
        self._classes = Classes(HEAD)
        self._classes.extend(classes)

    @property
    def classes(self) -> Classes:
        return self._classes

    @classes.setter
    def classes(self, value: Iterable[Class]) -> None:
        self._classes[:] = [*value]

    @classmethod
    def read(cls, data: dexasm.Data) -> Program:
        """The program of a file."""
        return cls.of_listing(dexasm.list(data))

    @classmethod
    def parse(cls, text: str | dexasm.Data) -> Program:
        """The program of a listing, in whatever form: it is assembled and read."""
        return cls.read(dexasm.assemble(text))

    @classmethod
    def of_listing(cls, text: str) -> Program:
        """The program of a listing that `list` wrote. It isn't looked at again: `parse` takes other texts."""
        if not text.startswith(HEAD):
            raise NoListing("no listing as list writes it")
        program = cls()
        program._classes = Classes(text)
        return program

    def references(self) -> Iterator[Reference]:
        """Each name and text that its classes have, in the order of its listing."""
        return (found for one in self.classes for found in one.references())

    def write(self, align: bool = False) -> bytes:
        """The file of the program. Where it breaks a rule this raises Refused, which says where in the program."""
        return dexasm.assemble(str(self), align)

    def __getitem__(self, name: str) -> Class:
        """The class of this name."""
        place = self.classes.place(name)
        if place is None:
            raise NoClass(name, self.classes)
        return self.classes[place]

    def __contains__(self, name: object) -> bool:
        return isinstance(name, str) and self.classes.place(name) is not None

    __iter__ = None  # (neither names nor classes: `classes` has these)

    def __str__(self) -> str:
        return "".join([HEAD, *self.classes.texts()])

    def __repr__(self) -> str:
        return f"<Program of {len(self.classes)} classes>"

    def __eq__(self, other: object) -> bool:
        return isinstance(other, Program) and str(self) == str(other)

    __hash__ = None  # type: ignore[assignment]

    def __reduce__(self) -> tuple[object, tuple[str]]:
        return Program.of_listing, (str(self),)
