"""Some classes or members of a program as a listing of their own, for dexasm-query show."""
from __future__ import annotations

import fnmatch
import functools
import re
from collections.abc import Callable, Iterable, Iterator
from typing import TYPE_CHECKING

from dexasm.analysis.xref import descriptor_of, unescaped
from dexasm.cli.errors import USAGE, CliError
from dexasm.cli.sanitize import escaped
from dexasm.dexfile import Tables, addresses

if TYPE_CHECKING:
    from dexasm.classes import Class, Field, Method
    from dexasm.program import Program

    Notes = Callable[[Class, Method], Iterable[str]]

PATTERN = re.compile(r"[*?]")  # (which no name has)
HEAD = "dex 035 listing 2"
BLANK = " " * len("00000000 0000 ")
# First words of lines that are no instruction; what else stands in a class has none of these.
OTHERS = {
    "class", "super", "implements", "source", "static", "instance", "direct", "virtual", "code", "try", "catch", "catchall", "end",
}  # fmt: skip


def select(program: Program, names: list[str]) -> dict[int, set[str] | None]:
    """Of each class that the names name, by its place: the members' signatures, or None for all of it."""
    found: dict[int, set[str] | None] = {}
    for name in names:
        named = dict(matching(program, name))
        if not named:
            raise CliError(no_match(program, name), USAGE)
        for place, members in named.items():
            already = found.setdefault(place, set())
            found[place] = None if members is None or already is None else already | members
    return found


def matching(program: Program, name: str) -> Iterator[tuple[int, set[str] | None]]:
    """What a name names: a class (LA; or com.x.A), members of one (LA;->m()V, com.x.A->m), or else members of whatever
    class (m, m()V); in each a * and a ? stand for other characters.
    """
    owner, is_member, wanted = unescaped(name).partition("->")
    places = [*places_of(program, owner)]
    if is_member:
        for place in places:
            members = members_of(program, place, wanted)
            if members:
                yield place, members
    elif places:
        yield from ((place, None) for place in places)
    else:
        for place in range(len(program.classes)):
            members = members_of(program, place, owner)
            if members:
                yield place, members


def places_of(program: Program, owner: str) -> Iterator[int]:
    """The places of the classes of a name."""
    spelled = descriptor_of(owner)
    if not PATTERN.search(owner):
        place = program.classes.place(spelled)
        if place is not None:
            yield place
        return
    form = pattern(spelled)
    yield from (place for place, name in enumerate(program.classes.names()) if form.fullmatch(name))


def members_of(program: Program, place: int, wanted: str) -> set[str]:
    """The signatures of a class's members of a name, or a signature."""
    one = program.classes[place]
    both: tuple[Field | Method, ...] = (*one.fields, *one.methods)
    if not PATTERN.search(wanted):
        return {each.signature for each in both if wanted in (each.signature, each.name)}
    form = pattern(wanted)
    return {each.signature for each in both if form.fullmatch(each.signature) or form.fullmatch(each.name)}


@functools.lru_cache(maxsize=256)
def pattern(text: str) -> re.Pattern[str]:
    """A pattern, in which no other character means anything (an array's name has a bracket)."""
    return re.compile(fnmatch.translate(text.replace("[", "[[]")))


def no_match(program: Program, word: str) -> str:
    from dexasm.program import near_names

    near = near_names(word.partition("->")[0], [str(name) for name in program.classes.names()])
    hint = f"near it: {', '.join(map(escaped, near))}" if near else "a whole name is as LHello;->get(Z)I"
    return f"{escaped(word)} names nothing of the file; {hint}"


def show(program: Program, names: list[str], data: bytes | None = None, has_kinds: bool = False) -> Iterator[str]:
    """Their listing, in the order of the file. With the file's bytes each line stands behind blanks, and an instruction
    behind its offset in the file and its address in units; with has_kinds what registers have stands above it."""
    tables = Tables(data) if data is not None else None
    blank = BLANK if tables else ""
    notes: Notes = lambda one, method: []
    if has_kinds:
        from dexasm.cli.register_notes import Registers

        notes = Registers(program).notes
    yield blank + HEAD
    for place, members in sorted(select(program, names).items()):
        one = program.classes[place]
        codes = [code for code, _ in tables.codes_of(place, None)] if tables else []
        places = dict(zip((id(method) for method in one.methods if method.code is not None), codes))
        for member, text in one.parts():
            if member is None or members is None or member.signature in members:
                at = places.get(id(member))
                above = notes(one, member) if getattr(member, "code", None) is not None else []  # type: ignore[arg-type]
                yield from annotate(text, [] if data is None or at is None else addresses(data, at), above, blank)
        yield f"{blank}end class"


def annotate(text: str, places: Iterable[tuple[int, int]], notes: Iterable[str], blank: str) -> Iterator[str]:
    """The lines of a member; of an instruction first what is said of its registers, and where it is."""
    lines, at, note = iter(text.splitlines()), iter(places), iter(notes)
    for line in lines:
        word = line.partition(" ")[0]
        if word in OTHERS or line.startswith(":"):
            yield blank + line
            continue
        if comment := next(note, ""):
            yield blank + comment
        offset, address = next(at, (None, None))
        yield blank + line if offset is None else f"{offset:08x} {address:04x} {line}"
