"""The bytes of a file by package, class, method and string, as dexasm-size tells them and dexasm-browse draws them."""
from __future__ import annotations

from collections.abc import Callable, Iterable, Iterator
from typing import NamedTuple, TypeVar

from dexasm.dexfile import FILE, KINDS, NOBODY, SEVERAL, Dex, sizes

Number = TypeVar("Number", int, "int | None")

COLUMNS = ("total", *KINDS, "strip")
OTHERS = {SEVERAL: "(several classes)", NOBODY: "(no class)", FILE: "(the file)"}
BY = ("package", "class", "method", "string")
LONGEST = 1000  # characters in the name of a method of its class, its own name and its parameters
LONGEST_STRING = 400  # characters
Claim = tuple[int, int, int]  # where it begins and ends, and its kind
Rows = dict[str, list[int]]  # the bytes of each kind by a name


class Methods:
    """Methods as a listing names them. What is too long is cut, so that a long name which many share isn't written many
    times; methods that are alike then are one row.
    """

    def __init__(self, dex: Dex) -> None:
        self.dex = dex
        self.texts: dict[int, str] = {}
        self.lists: dict[int, str] = {}

    def text(self, string: int) -> str:
        if string not in self.texts:
            text, has_more = self.dex.beginning(string, LONGEST)
            self.texts[string] = text + ".." * bool(has_more)
        return self.texts[string]

    def type(self, index: int) -> str:
        return self.text(self.dex.numbers("type", index, "<I")[0])

    def parameters(self, at: int) -> str:
        """(As many as have LONGEST characters, or one more.)"""
        if at not in self.lists:
            types, text = iter(self.dex.types_at(at)), ""
            while len(text) <= LONGEST and (one := next(types, None)) is not None:
                text += self.type(one)
            self.lists[at] = text if len(text) <= LONGEST else f"{text[:LONGEST]}.."
        return self.lists[at]

    def name(self, index: int) -> str:
        owner, proto, name = self.dex.numbers("method", index, "<HHI")
        _, output, at = self.dex.numbers("proto", proto, "<III")
        return f"{self.type(owner)}->{self.text(name)}({self.parameters(at)}){self.type(output)}"


def spelled(dex: Dex, string: int) -> str:
    """A string as a listing spells it; of a long one the beginning, and its UTF-16 units."""
    from dexasm.names import quoted

    text, units = dex.beginning(string, LONGEST_STRING)
    return quoted(text) + (f".. ({units} units)" if units else "")


def parts_of(claims: Iterable[tuple[str, Claim]]) -> dict[Claim, str]:
    """Of each claim the part that it belongs to, if it belongs to one alone; `claims` are of a name and a claim."""
    parts: dict[Claim, str | None] = {}
    for name, claim in claims:
        if parts.setdefault(claim, name) != name:
            parts[claim] = None
    return {claim: name for claim, name in parts.items() if name is not None}


def bytes_by_method(dex: Dex) -> Rows:
    """Of each class what is no method's, and of each method its code and its debug information, if no other has it."""
    names, rows = Methods(dex), range(dex.count["class"])
    codes = {index: code for row in rows for table, index, _, code in dex.members(row, None) if table == "method"}
    called = {index: names.name(index) for index in codes}
    with_code = ((called[index], code) for index, code in codes.items() if code)
    claims = ((name, claim) for name, code in with_code for claim in dex.claims_of_code(code))
    # (debug information can be what several classes have, as something else too)
    shared = {claim for claim, owner in dex.claims.items() if owner == SEVERAL}
    parts = {claim: name for claim, name in parts_of(claims).items() if claim not in shared}
    return {name: [0] * len(KINDS) for name in called.values()} | named(dex, parts)


def bytes_by_string(dex: Dex) -> Rows:
    """Of each string its row and its item, as a listing spells it; all else is one row."""
    strings = ((spelled(dex, one), one) for one in range(dex.count["string"]))
    found = named(dex, parts_of((name, claim) for name, one in strings for claim in dex.claims_of_string(one)))
    rest = [sum(column) for column in zip(*(numbers for name, numbers in found.items() if name[0] != '"'))]
    return {name: numbers for name, numbers in found.items() if name[0] == '"'} | {"(all but strings)": rest}


def named(dex: Dex, parts: dict[Claim, str] | None = None) -> Rows:
    """The bytes of each kind by the name of the class, in the order of the file, of what is no class's, and of parts."""
    names, taken = sizes(dex, parts)
    return {name_of(names, owner): found for owner, found in taken.items()}


def name_of(names: list[str], owner: int | str) -> str:
    return owner if isinstance(owner, str) else OTHERS.get(owner) or names[owner]


def bytes_of(dex: Dex, by: str = "class") -> Rows:
    """The bytes of each kind by package, class, method or string."""
    if by == "package":
        return by_package(named(dex))
    rows_by: dict[str, Callable[[Dex], Rows]] = {"class": named, "method": bytes_by_method, "string": bytes_by_string}
    return rows_by[by](dex)


def rows_of(data: bytes, stripped: bytes | None, by: str = "class") -> dict[str, list[int | None]]:
    """Each name with its numbers, in the order of COLUMNS; what strip takes away is None where there is no stripped
    file. (Of the two files one is in memory at a time.)
    """
    left = bytes_of(Dex(stripped), by) if stripped is not None else None
    return {
        name: [sum(found), *found, None if left is None else sum(found) - sum(left.get(name, ()))]
        for name, found in bytes_of(Dex(data), by).items()
    }


def package_of(name: str) -> str:
    """A class's package as its descriptor has it; what is no class's stays."""
    return name if name.startswith("(") else name[1:-1].rpartition("/")[0] or "(no package)"


def added(one: list[Number], other: list[Number]) -> list[Number]:
    return [None if a is None else a + b for a, b in zip(one, other)]  # type: ignore[operator]


def by_package(rows: dict[str, list[Number]]) -> dict[str, list[Number]]:
    found: dict[str, list[Number]] = {}
    for name, numbers in rows.items():
        package = package_of(name)
        found[package] = added(found[package], numbers) if package in found else numbers
    return found


# ---- rows of tables

COUNTED = ("methods", "defined", "fields", "types", "strings")
METHODS, DEFINED, FIELDS, TYPES, STRINGS = range(len(COUNTED))
Counts = dict[str, list[int]]


def owners(dex: Dex) -> Iterator[tuple[str, int]]:
    """Whose each row is, and in which column it counts: a member's is the class that it names, a type's is that of its
    elements, a string's the class that needs it, if only one does."""
    names = Methods(dex)
    for table, column in (("method", METHODS), ("field", FIELDS)):
        for row in range(dex.count[table]):
            yield names.type(dex.numbers(table, row, "<H")[0]), column
    for row in range(dex.count["type"]):
        yield names.type(row), TYPES
    for owner in dex.owners.of["string"]:
        yield name_of(dex.names, owner), STRINGS
    for row, name in enumerate(dex.names):
        for table, *_ in dex.members(row, None):
            if table == "method":
                yield name, DEFINED


def counts_of(dex: Dex, by: str) -> Counts:
    """The numbers of each package, or class, in the order of COUNTED."""
    found: Counts = {}
    for owner, column in owners(dex):
        element = owner.lstrip("[")
        name = element if element.startswith(("L", "(")) else OTHERS[NOBODY]
        numbers = found.setdefault(package_of(name) if by == "package" else name, [0] * len(COUNTED))
        numbers[column] += 1
    return found


# ---- two builds

HEADS = ("change", *KINDS, "before", "after", "what", "name")


class Change(NamedTuple):
    """A row: by how many bytes it changed in all and in each kind, its bytes before and after, and in a word what it
    did.
    """

    numbers: list[int]
    before: int
    after: int
    what: str
    name: str

    def cells(self) -> list[int | str]:
        """In the order of HEADS."""
        return [*self.numbers, self.before, self.after, self.what, self.name]


def change(name: str, old: list[int] | None, new: list[int] | None) -> Change:
    before, after = old or [0] * len(KINDS), new or [0] * len(KINDS)
    kinds = [b - a for a, b in zip(before, after)]
    total = sum(kinds)
    if old is None or new is None:
        what = "came" if old is None else "went"
    elif total:
        what = "grew" if total > 0 else "shrank"
    else:
        what = "moved" if any(kinds) else ""
    return Change([total, *kinds], sum(before), sum(after), what, name)


def total_change(rows: list[Change], name: str) -> Change:
    """Rows as one, which has no word: all its numbers are theirs added up."""
    numbers = [sum(column) for column in zip(*(row.numbers for row in rows))] or [0] * (1 + len(KINDS))
    return Change(numbers, sum(row.before for row in rows), sum(row.after for row in rows), "", name)


class Changes:
    """The rows that changed, what changed most first, and all others as one."""

    def __init__(self, old: Rows, new: Rows, column: str = "change") -> None:
        found = [change(name, old.get(name), new.get(name)) for name in {**old, **new}]
        at = HEADS.index(column)
        # (what changed most in that column comes first)
        size: dict[str, int] = {row.name: 0 if column == "name" else -abs(row.numbers[at]) for row in found}
        self.rows = sorted((row for row in found if row.what), key=lambda row: (size[row.name], row.name))
        same = [row for row in found if not row.what]
        self.rest = [total_change(same, f"({len(same)} unchanged)")] if same else []
        self.total = total_change(found, "all")
