"""The classes of several programs as one program: for dexasm-merge."""
from __future__ import annotations

from collections import Counter
from typing import Any, NamedTuple

from dexasm.cli.core import JobResult, parse_program, run_job
from dexasm.cli.errors import REFUSED, CliError
from dexasm.cli.faults import OF_COUNTS, REMEDIES
from dexasm.cli.sanitize import shortened

FAR_STRING, FAR_BRANCH = 82, 85  # the faults that longer instructions help
MOST = 4  # classes of a cycle that are named
LARGEST_DIAGNOSED = 8 << 20  # bytes of a listing in which the word is looked for that is one too many: that takes 20 s


class ClassText(NamedTuple):
    """A class: its lines, and the file that has it."""

    text: str
    file: str


class Merger:
    """Classes by their names, in the order in which they are given. `takes_same` is whether one may come again as it
    is, `replaces` whether a later one takes the place of an earlier one.
    """

    def __init__(self, takes_same: bool, replaces: bool = False) -> None:
        self.takes_same, self.replaces = takes_same, replaces
        self.classes: dict[str, ClassText] = {}
        self.done: Counter[str] = Counter()  # what was made to fit

    def add(self, file: str, program: Any) -> None:
        """The classes of a file of that name."""
        for name, text in zip(program.classes.names(), program.classes.texts()):
            there = None if self.replaces else self.classes.get(name)
            if there and not (self.takes_same and there.text == text):
                differs = ", and differently" if self.takes_same else ""
                raise CliError(f"{there.file} and {file} both define {short_name(name)}{differs}", REFUSED)
            self.classes[name] = there or ClassText(text, file)

    def file(self, is_fitted: bool = False) -> bytes:
        """The bytes of the .dex file of all of them; with is_fitted of a program that has longer instructions where
        these are what it lacks."""
        from dexasm.program import HEAD

        order = Order(self.classes).whole()
        listing = "".join([HEAD, *(self.classes[name].text for name in order)]).encode("ascii")
        result = run_job("assemble", data=listing)
        refusal = result.refusal()
        if is_fitted and refusal and refusal[0] in (FAR_STRING, FAR_BRANCH):
            listing = self.widened(listing)
            result = run_job("assemble", "--align", data=listing)
        if result.status:
            raise CliError(self.why(result, listing, order), result.status)
        return result.output

    def widened(self, listing: bytes) -> bytes:
        """The listing of the program with as few longer instructions as it needs. Which strings are far is asked of a
        file in which none is loaded by a short one: it has the same strings."""
        from dexasm.cli.widen import far_texts, fit

        first = parse_program(listing.decode("ascii"), "all")
        fit(first, None)
        result = run_job("assemble", "--align", data=str(first).encode("ascii"))
        program = parse_program(listing.decode("ascii"), "all")
        self.done = fit(program, far_texts(result.output) if not result.status else None)
        return str(program).encode("ascii")

    def why(self, result: JobResult, listing: bytes, order: list[str]) -> str:
        """A line that says what doesn't fit, and which class of which file has it."""
        refusal = result.refusal()
        if refusal is None:
            return result.message()
        from dexasm.listing.diagnostics import of

        number, _, place = refusal
        where = of(listing, number, place) if len(listing) <= LARGEST_DIAGNOSED else None
        name = where.class_name if where else order[place] if number not in OF_COUNTS and place < len(order) else None
        parts = [result.message()]
        if name in self.classes:
            parts.append(f"{short_name(where and where.member or name)} in {self.classes[name].file}")
        parts.append(shortened(where.sentence()) if where else REMEDIES.get(number, ""))
        return ": ".join(filter(None, parts))


class Order:
    """The classes in an order in which each stands after its superclass and its interfaces. One that stands so already
    stays, and what a class needs comes right before it.
    """

    def __init__(self, classes: dict[str, ClassText]) -> None:
        self.classes = classes
        self.placed: dict[str, None] = {}

    def whole(self) -> list[str]:
        for name in self.classes:
            if name not in self.placed:
                self.place(name)
        return [*self.placed]

    def needs(self, name: str) -> list[str]:
        """What has to stand before a class, the last of them first."""
        from dexasm.classes import Class

        one = Class.of_text(self.classes[name].text)
        above = [*([] if one.superclass is None else [one.superclass]), *one.interfaces]
        return [each for each in reversed(above) if each in self.classes]

    def place(self, name: str) -> None:
        """A class, after what it needs that isn't placed yet. (A chain may be as long as the program.)"""
        way = {name: self.needs(name)}
        while way:
            name, due = next(reversed(way.items()))
            if not due:
                way.popitem()
                self.placed[name] = None
                continue
            above = due.pop()
            if above in way:
                raise CliError(self.cycle([*way], above), REFUSED)
            if above not in self.placed:
                way[above] = self.needs(above)

    def cycle(self, way: list[str], first: str) -> str:
        way = way[way.index(first) :]
        rest = [f".. ({len(way)} classes)"] if len(way) > MOST else []
        names = [f"{short_name(name)} in {self.classes[name].file}" for name in way[:MOST]]
        return f"a cycle of superclasses or interfaces: {', '.join([*names, *rest])}, and {short_name(first)} again"


def short_name(name: Any) -> str:
    """A name as a listing spells it, the beginning of a long one."""
    from dexasm.names import spelled

    return shortened(spelled(name))
