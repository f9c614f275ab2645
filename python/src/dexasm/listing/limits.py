"""Which line of a class breaks a limit of the written file (docs/FORMAT.md, "The written file"): for diagnostics.py."""
from __future__ import annotations

from collections.abc import Callable, Iterator

from dexasm.formats import format_of
from dexasm.listing.source import PAYLOADS, Class, Code, Diagnostic, Line, Listing, Word, decoded, short_name, slots
from dexasm.names import FieldRef, MethodRef, Proto, Type, operand, preview

_MOST = 65535
_REACHING = {
    "goto": "goto/16 reaches 32767 units on and 32768 back, goto/32 each instruction",
    "goto/16": "goto/32 reaches each instruction",
}
_OPPOSITE = {"eq": "ne", "ne": "eq", "lt": "ge", "ge": "lt", "gt": "le", "le": "gt"}

Name = Type | Proto | FieldRef | MethodRef


def one_too_many(read: Listing, wanted: type[Type] | type[Proto]) -> Diagnostic | None:
    """Where a type or a prototype is named with which there are more than a file's table may have."""
    distinct = set[Name]()
    for one in read.classes():
        owner = Type(decoded(one.head.words[1]))
        mentions = ((line, word, name) for line in one.lines() for word, name in _mentions(owner, line))
        for line, word, name in mentions:
            if isinstance(name, wanted) and name not in distinct:
                distinct.add(name)
                if len(distinct) > _MOST:
                    what = f"one more than {_MOST} {'types' if wanted is Type else 'prototypes'}"
                    return Diagnostic(line, word, f"{short_name(name)} is {what}: the program has to be split")
    return None


def _mentions(owner: Type, line: Line) -> Iterator[tuple[Word, Name]]:
    """Each name of a line where it is, and the names that are parts of it."""
    found: list[tuple[Word, Name]] = []
    for word, kind in slots(line):
        if kind.name in ("type", "proto", "field", "method"):
            found.append((word, Proto(decoded(word)) if kind.name == "proto" else operand(decoded(word))))
    if line.key in ("static", "instance"):
        found.append((line.words[1], FieldRef.of(owner, decoded(line.words[1]), decoded(line.words[2]))))
    elif line.key in ("direct", "virtual"):
        found.append((line.words[1], MethodRef.of(owner, decoded(line.words[1]), decoded(line.words[2]))))
    return ((word, part) for word, name in found for part in _parts(name))


def _parts(name: Name) -> Iterator[Name]:
    """A name and the types and prototypes in it."""
    yield name
    if isinstance(name, Proto):
        yield from (name.returns, *name.parameters)
    elif isinstance(name, FieldRef):
        yield from (name.owner, name.type)
    elif isinstance(name, MethodRef):
        yield from (name.owner, *_parts(name.proto))


def _starts(code: Code, align: bool) -> list[int]:
    """The address of each instruction of a code; with `align` a nop stands before payloads at odd ones."""
    starts, at = [], 0
    for place, line in enumerate(code.insns):
        at += at % 2 if align and code.is_payload(place) else 0
        starts.append(at)
        at += _units_of(line)
    return starts


def _units_of(line: Line) -> int:
    if line.key == "array-payload":
        return 4 + (len(line.words[2].text) // 2 + 1) // 2 if len(line.words) > 2 else 4
    if line.key in PAYLOADS:
        targets = sum(kind.name == "target" for _, kind in slots(line))
        return 4 + 2 * targets if line.key == "packed-switch-payload" else 2 + 4 * targets
    form = format_of(line.key)
    if form is None:
        raise ValueError(f"no mnemonic: {preview(line.key)}")
    return form.units


def _branches(one: Class, align: bool) -> Iterator[Diagnostic]:
    for code in one.codes():
        starts = _starts(code, align)
        for start, line in zip(starts, code.insns):
            form = format_of(line.key)
            if form is None or not form.target:
                continue
            word = slots(line)[-1].word
            offset = starts[code.place(word)] - start
            if not -(1 << form.target - 1) <= offset < 1 << form.target - 1:
                way, key = "back" if offset < 0 else "on", line.key
                further = _REACHING.get(key) or (
                    f"if-{_OPPOSITE[key[3:5]]}{key[5:]} over a goto/32 reaches each instruction"
                )
                yield Diagnostic(line, word, f"it leads {abs(offset)} units {way}: {further}")


def _misaligned(one: Class, align: bool) -> Iterator[Diagnostic]:
    for code in one.codes():
        for at, (start, line) in enumerate(zip(_starts(code, align), code.insns)):
            if code.is_payload(at) and start % 2:
                why = f"the payload is at the odd address {start}: a nop before it, or --align, mends it"
                yield Diagnostic(line, None, why)


LIMITS: dict[int, Callable[[Class, bool], Iterator[Diagnostic]]] = {85: _branches, 86: _misaligned}
# What names the class alone: where in it depends on how the writer lays out tables and handlers.
_FAR = f"a %s that an instruction names has an index above {_MOST}: %s"
OF_CLASS = {
    82: _FAR % ("string", "const-string/jumbo reaches each string"),
    83: _FAR % ("field", "no instruction reaches further, so the program has to be split"),
    84: _FAR % ("method", "no instruction reaches further, so the program has to be split"),
    87: f"the last instruction of a try begins more than {_MOST - 1} units after its first: two tries cover it",
    88: f"one of its codes has more than {_MOST} tries: a method has to be split",
    89: f"the handlers of one of its codes take more than {_MOST} bytes: its tries need fewer catches",
}
