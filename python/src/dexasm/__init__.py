"""Checks, lists, assembles and strips .dex files (Dalvik Executable, version 035), by libdexasm.

    >>> import dexasm
    >>> dexasm.check(open("hello.dex", "rb").read())
    >>> text = dexasm.list(open("hello.dex", "rb").read())
    >>> made = dexasm.assemble(text)

Program has a file's program as objects: it is read, changed and written. One may not be used by two threads at once.

What is refused raises Refused, with the fault's number, name and place; want of memory raises MemoryError. The library
is looked for at the first call: the one that the variable DEXASM_LIBRARY names, or libdexasm.so beside this file, or
the one that tools/build made in this repository, or the system's. Where there is none, or where only the variable
DEXASM_COMMAND names a command, each call runs the command: the named one, or `dexasm` on the PATH, or the one that came
with this package. Where there is neither, a call is an ImportError.
`from dexasm import *` leaves out `list`, so that Python's own stays.
"""
from __future__ import annotations

TYPE_CHECKING = False  # (as in typing, which takes as long to read as all that is here)
if TYPE_CHECKING:
    from collections.abc import Iterable
    from typing import Any

    from dexasm._native import Command, Library
    from dexasm.classes import Class, Field, Method, Reference, Value
    from dexasm.code import ArrayData, Catch, Code, Insn, Label, PackedSwitch, SparseSwitch, Try
    from dexasm.listing.diagnostics import Place
    from dexasm.names import FieldRef, MethodRef, Proto, Type
    from dexasm.program import Program

__all__ = ["Refused", "assemble", "check", "fault_name", "strip", "version"]
__all__ += ["ArrayData", "Catch", "Class", "Code", "Field", "FieldRef", "Insn", "Label", "Method", "MethodRef"]
__all__ += ["PackedSwitch", "Place", "Program", "Proto", "Reference", "SparseSwitch", "Try", "Type", "Value"]

Data = bytes | bytearray | memoryview

# What stands in which part. A part is read when it is first asked for: reading all takes several times as long as the
# rest of this module, and whoever only checks or strips needs none.
_PARTS = {
    "code": ("ArrayData", "Catch", "Code", "Insn", "Label", "PackedSwitch", "SparseSwitch", "Try"),
    "classes": ("Class", "Field", "Method", "Reference", "Value"),
    "faultline": ("Place",),
    "formats": (),
    "names": ("FieldRef", "MethodRef", "Proto", "Type"),
    "program": ("Program",),
}
_PART_OF = {name: part for part, names in _PARTS.items() for name in names}

_core: Library | Command | None = None


class Refused(ValueError):
    """The bytes are refused: the number and the name of a rule that is broken, and the place where it is.

    The place is a byte of a file, a line of a listing from 1, or a class of a program from 0 (of 80 and 81 how many
    are needed, of 90 it is 0): docs/FORMAT.md says which by the number. Where a listing or a Program was refused,
    `where` says more: line and column, from 1, class, member, the number of an instruction from 0, the word at fault
    and why, of which each is an attribute of the refusal too, None where it isn't known. It is looked for when it is
    asked for, and of a Program it is a place in `str` of it.
    """

    line: int | None
    column: int | None
    class_name: Type | None
    member: FieldRef | MethodRef | None
    insn: int | None
    word: str | None
    why: str | None

    def __init__(self, number: int, name: str, place: int, where: Place | None = None) -> None:
        super().__init__(f"refused {number} {name} at {place}")  # (the line of the command)
        self.number, self.name, self.place, self._where = number, name, place, where
        self._listing: tuple[bytes, bool] | None = None

    @property
    def where(self) -> Place | None:
        if self._listing is not None:
            from dexasm.listing.diagnostics import of

            self._where, self._listing = of(self._listing[0], self.number, self.place, self._listing[1]), None
        return self._where

    def __getattr__(self, name: str) -> Any:
        """What the place says, None where it isn't known."""
        if name not in Refused.__annotations__:
            raise AttributeError(f"{type(self).__name__!r} object has no attribute {name!r}")
        return getattr(self.where, name) if self.where else None

    def __str__(self) -> str:
        where, parts = self.where, [str(self.args[0])]
        if where is not None and where.class_name is not None:
            from dexasm.names import spelled

            at = "" if where.insn is None else f", instruction {where.insn}"
            parts.append(f"{spelled(where.member or where.class_name)}{at}")
        if where is not None and where.sentence():
            parts.append(where.sentence())
        return ": ".join(parts)

    def __reduce__(self) -> tuple[type[Refused], tuple[object, ...]]:
        return Refused, (self.number, self.name, self.place, self.where)


def core() -> Library | Command:
    """The library or the command that the calls run. It is looked for once, at the first call."""
    global _core
    if _core is None:
        from dexasm._native import find_core

        _core = find_core()
    return _core


def _bytes(data: Data) -> bytes:
    """What is given, if it is bytes: anything else is a TypeError."""
    return data if type(data) is bytes else memoryview(data).tobytes()


def check(data: Data) -> None:
    """Returns if the bytes are a file that keeps every rule of the format."""
    content = _bytes(data)
    core().run("check", content)


def list(data: Data) -> str:
    """The listing of a file's program."""
    content = _bytes(data)
    return core().run("list", content).decode("ascii")


def assemble(text: str | Data, align: bool = False) -> bytes:
    """The file of a listed program; with align a nop is put before each payload that would stand at an odd address."""
    content = text.encode("utf8", "surrogatepass") if isinstance(text, str) else _bytes(text)
    try:
        return core().run("assemble", content, align)
    except Refused as refused:
        refused._listing = content, align
        raise


def strip(data: Data) -> bytes:
    """A file's program, written again without what it doesn't need."""
    content = _bytes(data)
    return core().run("strip", content)


def fault_name(number: int) -> str:
    """The name of a fault's number. Only the library tells it: without one this is a NotImplementedError, and Refused has the name."""
    return core().fault_name(number)


def version() -> str:
    """The version of the library, or of the command."""
    return core().version()


if not TYPE_CHECKING:  # (by which a checker of types would take any name for one of this module)

    def __getattr__(name: str) -> Any:
        """A part, or what stands in one."""
        from importlib import import_module

        part = name if name in _PARTS else _PART_OF.get(name)
        if part is None:
            raise AttributeError(f"module {__name__!r} has no attribute {name!r}")
        read = import_module(f"dexasm.{part}")
        if part == name:
            return read
        globals()[name] = found = getattr(read, name)
        return found


def __dir__() -> Iterable[str]:
    return sorted({*globals(), *_PARTS, *_PART_OF})
