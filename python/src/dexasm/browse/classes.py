"""The page of a class: what it is, its members with their lines, who uses each, and what each calls."""
from __future__ import annotations

from array import array
from collections import Counter
from collections.abc import Callable, Iterator
from typing import TYPE_CHECKING

from dexasm.analysis.xref import Xref, flag_words, heading, title
from dexasm.browse.code import CodeRenderer
from dexasm.browse.html import collapsible, facts, limited, link, plural
from dexasm.browse.pagination import Part, file_of, member, others, paged
from dexasm.flags import CLASS_FLAGS
from dexasm.pages.markup import text
from dexasm.pages.templates import Markup, joined, part

if TYPE_CHECKING:
    from dexasm.browse.files import Files
    from dexasm.names import Type

LONG = 300  # characters of a heading
MOST_TWINS = 10  # classes of one name to which each of them has links
RUNS_IT = "The runtime calls it when the class is first used."


class Classes:
    """The pages of classes, and the links that lead to them from other pages."""

    def __init__(self, xref: Xref, coder: CodeRenderer, files: Files) -> None:
        self.uses, self.coder, self.files = xref, coder, files
        self.titles: dict[int, Markup] = {}
        self.twins: dict[str, list[int]] = {}  # the classes of a name that several files have
        for row, one in enumerate(xref.classes):
            if xref.rows[one.name] != row:
                self.twins.setdefault(one.name, [xref.rows[one.name]]).append(row)

    def class_link(self, row: int, root: str = "") -> Markup:
        return link(f"{root}{row}.html", text(self.uses.classes[row].name.pretty) + text(self.apart(row)))

    def apart(self, row: int) -> str:
        """The file of a class of a name that several files have."""
        return f" ({self.files.name(row)})" if self.uses.classes[row].name in self.twins else ""

    def title(self, number: int) -> Markup:
        """A member with its class, as HTML, cut where it is long."""
        if number not in self.titles:
            self.titles[number] = self.titled(number, text)
        return self.titles[number]

    def titled(self, number: int, render: Callable[[str, int], Markup]) -> Markup:
        """The same by `text`, or by `plain` where no element may stand."""
        row, at = self.uses.place(number)
        owner, member = self.uses.classes[row].name.pretty, title(self.uses.members[row][at])
        return part("dotted")(render(owner, 80), render(member, 80)) + render(self.apart(row), 80)

    def member_link(self, number: int, place: int | None = None, root: str = "") -> Markup:
        row, at = self.uses.place(number)
        line = "" if place is None else f".{place}"
        return link(f"{root}{row}.html#{at}{line}", self.title(number))

    def users(self, found: array[int] | None, root: str = "") -> list[Markup | str]:
        """Who uses something: each member once, as a link to where it does so first."""
        count = Counter(use >> 32 for use in found or ())
        first: dict[int, int] = {}
        for use in found or ():
            first.setdefault(use >> 32, use & 0xFFFFFFFF)
        links = (
            self.member_link(user, self.line_of(user, first[user]), root) + (f" ({times} times)" if times > 1 else "")
            for user, times in count.items()
        )
        return limited(links, len(count))

    def line_of(self, user: int, place: int) -> int | None:
        return place if hasattr(self.uses.member(user), "proto") else None

    def used_by(self, found: array[int] | None, caption: str = "Used by") -> Markup:
        count = len({use >> 32 for use in found or ()})
        return collapsible(f"{caption} {plural(count, 'member')}", self.users(found))

    # ---- the page

    def type_link(self, name: Type) -> Markup:
        row = self.uses.rows.get(name)
        return text(name.pretty) if row is None else self.class_link(row)

    def facts(self, row: int, package: Markup, taken: str) -> Markup:
        one = self.uses.classes[row]
        heirs = self.uses.heirs.get(row, [])
        # (as many as there are files, on the pages of as many)
        found = self.twins.get(one.name, [row])
        near = [twin for twin in found[: MOST_TWINS + 1] if twin != row][:MOST_TWINS]
        interfaces = limited(map(self.type_link, one.interfaces), len(one.interfaces))
        return facts(
            (
                ("name in the file", part("code")(text(one.name, LONG))),
                ("package", package),
                ("also defined in", joined(", ", limited(map(self.class_link, near), len(found) - 1))),
                ("superclass", self.type_link(one.superclass) if one.superclass is not None else ""),
                ("interfaces", joined(", ", interfaces)),
                ("source file", text(one.source) if one.source is not None else ""),
                ("bytes", taken),
                ("inherited by", joined(", ", limited(map(self.class_link, heirs), len(heirs)))),
            )
        )

    def pages(
        self, row: int, lines: list[str], package: Markup, taken: str, extra: Callable[[int], Markup], hint: bool
    ) -> Iterator[tuple[list[Part], Markup]]:
        """What each page of a class has. `lines` has the HTML of each member's lines, `extra` what is added to a
        method, and `hint` is whether something is said of pictures.
        """
        cut = paged(self.parts(row, lines, extra))
        names = [file_of(row, at) for at in range(len(cut))]
        for at, parts in enumerate(cut):
            lead = others("Pages of this class", names, at)
            head = "" if at else joined("\n", self.head(row, package, taken))
            where = " on this page" if lead else ""
            body = joined("\n", self.body(parts, len(self.uses.classes[row].fields), where, hint))
            yield parts, part("class_page")(self.heading(row), lead, head, body)

    def heading(self, row: int) -> Markup:
        one = self.uses.classes[row]
        kind = "interface" if one.flags & 0x200 else "class"
        words = flag_words(one.flags & ~0x200, CLASS_FLAGS)
        return text(f"{words} {kind} {one.name.pretty}".strip(), LONG)

    def head(self, row: int, package: Markup, taken: str) -> Iterator[Markup]:
        """What stands on a class's first page, before its members."""
        yield self.facts(row, package, taken)
        yield self.used_by(self.coder.of_class.get(row), "Named in code or values by")

    def parts(self, row: int, lines: list[str], extra: Callable[[int], Markup]) -> Iterator[Part]:
        first = self.uses.first[row]
        for at, one in enumerate(self.uses.members[row]):
            listed = link(f"#{at}", text(title(one)))
            lead = joined("", self.about(first + at, extra))
            yield from member(at, listed, text(heading(one), LONG), lead, lines[at])

    def body(self, parts: list[Part], fields: int, where: str, hint: bool) -> Iterator[Markup]:
        """The members of a page: their names first."""
        for is_method, noun in ((False, "field"), (True, "method")):
            names: list[Markup | str] = [one.listed for one in parts if one.listed and (one.at >= fields) == is_method]
            yield collapsible(plural(len(names), noun) + where, names, 20)
        shown = -1
        for one in parts:
            if (one.at >= fields) > shown:
                shown = one.at >= fields
                yield part("members")(shown, hint)
            yield one.html

    def about(self, number: int, extra: Callable[[int], Markup]) -> Iterator[Markup]:
        """What stands between a member's heading and its lines."""
        if hasattr(self.uses.member(number), "proto"):
            yield extra(number)
        used = self.used_by(self.coder.of_member.get(number))
        is_first = self.uses.member(number).name == "<clinit>"
        yield used or part("soft")(RUNS_IT if is_first else f"Nothing in {self.files.these} uses it by name.")
        calls = self.coder.calls.get(number, {})
        called = (self.member_link(to) + (f" ({times} times)" if times > 1 else "") for to, times in calls.items())
        outside, these = self.coder.calls_outside.get(number, 0), self.files.these
        more = f", and {outside:,} outside {these}" if outside else ""
        yield collapsible(f"Calls {plural(len(calls), 'method')} of {these}{more}", limited(called, len(calls)))
