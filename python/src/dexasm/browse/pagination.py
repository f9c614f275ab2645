"""Pages that would be too large for a browser, cut into several: `class/7.html` goes on in `class/7-1.html`, and links
lead to the one that has their place.
"""
from __future__ import annotations

import re
from bisect import bisect_right
from collections.abc import Iterable, Iterator
from typing import NamedTuple

from dexasm.pages.templates import Markup, part

MOST = 1_000_000  # bytes of what a page lists; with what stands around it a page has less than 2 MB
NEAR = 20  # pages before and behind one to which it has links
LINK = re.compile(r'href="(?:([./a-z]*?)(\d+)\.html)?#(\d+)(?:\.(\d+))?"')
PLACE = re.compile(r'<li(?: class="l")? id="\d+\.(\d+)"')


class Part(NamedTuple):
    """What stands together on a page: of a member, or of a string, by its number, from an instruction on (-1 is its
    heading); and what the list at the top of the page says of it.
    """

    at: int
    place: int
    html: Markup
    listed: Markup = Markup()

    def bytes(self) -> int:
        return len(self.html.encode("utf8")) + len(self.listed.encode("utf8"))


def member(at: int, listed: Markup, heading: Markup, lead: Markup, lines: str) -> Iterator[Part]:
    """A member: its heading, what stands before its lines, and its lines; these in several parts where they are long.
    (What a single line has stays together.)
    """
    start, place = -1, 0
    kept: list[str] = []
    size = len(lead.encode("utf8"))
    for line in lines.split("\n"):
        if kept and size + len(line) > MOST:
            yield part_of(at, start, listed, heading, lead, kept)
            start, kept, size = place, [], 0
        kept.append(line)
        size += len(line)
        found = PLACE.match(line)
        place = int(found[1]) + 1 if found else place
    yield part_of(at, start, listed, heading, lead, kept)


def part_of(at: int, start: int, listed: Markup, heading: Markup, lead: Markup, lines: list[str]) -> Part:
    body = Markup("\n".join(lines))
    if start < 0:
        return Part(at, -1, part("member")(at, heading, lead, body), listed)
    return Part(at, start, part("rest")(start, heading, body))


def paged(parts: Iterable[Part]) -> list[list[Part]]:
    """The parts of each page; the first page is there in any case."""
    pages: list[list[Part]] = [[]]
    size = 0
    for one in parts:
        count = one.bytes()
        if pages[-1] and size + count > MOST:
            pages.append([])
            size = 0
        pages[-1].append(one)
        size += count
    return pages


def file_of(number: int, at: int) -> str:
    """The name of a page of so many."""
    return f"{number}-{at}.html" if at else f"{number}.html"


def others(label: str, names: list[str], here: int) -> Markup:
    """Links to the pages of something that has several: to those around the one that is so far, the first and the last."""
    if len(names) < 2:
        return Markup()
    near = range(max(here - NEAR, 0), min(here + NEAR + 1, len(names)))
    links: list[tuple[int | str, str | None]] = []  # what each says, and where it leads: not at all, or not from here
    last = -1
    for at in sorted({0, *near, len(names) - 1}):
        links += [("..", None)] * (at > last + 1)
        links.append((at + 1, "" if at == here else names[at]))
        last = at
    return part("others")(label, links)


class Cuts:
    """Where pages are cut, and what links to their places are then."""

    def __init__(self) -> None:
        self.starts: dict[tuple[str, int], list[tuple[int, int]]] = {}

    def add(self, folder: str, number: int, pages: list[list[Part]]) -> None:
        if len(pages) > 1:
            self.starts[folder, number] = [(page[0].at, page[0].place) for page in pages]

    def file(self, folder: str, number: int, at: int, place: int = -1) -> str:
        starts = self.starts.get((folder, number), ())
        return file_of(number, max(bisect_right(starts, (at, place)) - 1, 0))

    def turned(self, html: Markup, folder: str, number: int | None = None, own: str = "") -> Markup:
        """A page's HTML with its links as the cuts have them; `own` is its name, and `number` whose page it is."""
        if not self.starts:
            return html

        def lead(found: re.Match[str]) -> str:
            way, to, at, place = found.groups()
            if to is None and (folder, number) not in self.starts:
                return found[0]
            to_folder = way.strip("./") if way else ""
            whose = number if to is None else int(to)
            assert whose is not None  # (what has places of its own has a number)
            file = self.file(to_folder or folder, whose, int(at), int(place or -1))
            anchor = f"{at}.{place}" if place else at
            return f'href="#{anchor}"' if not way and file == own else f'href="{way or ""}{file}#{anchor}"'

        return Markup(LINK.sub(lead, str(html)))
