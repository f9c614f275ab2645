"""What dexasm-browse's pages have in common: strings as text, links, lists, and the frame of a page."""
from __future__ import annotations

from collections.abc import Iterable
from itertools import islice

from dexasm.cli.sanitize import escaped
from dexasm.pages.markup import LONGEST, as_html, unpiled
from dexasm.pages.templates import Markup, page, part

MOST_OF_LIST = 1000  # items of a list
BYTES_OF_LIST = 200_000
# Of a string in quotes: what a listing escapes, and surrogates that `escaped` would take for bytes of a file's name.
QUOTED = {34: '\\"', 92: "\\\\"} | {unit: f"\\u{unit:04x}" for unit in range(0xDC80, 0xDD00)}


def in_quotes(string: str, most: int = LONGEST) -> str:
    """A string in quotes and escaped as in a listing, but with the characters that can be seen; no HTML yet."""
    beginning = string[:most].translate(QUOTED)
    more = f" ... ({len(string):,} characters)" if len(string) > most else ""
    return f'"{unpiled(escaped(beginning))}"{more}'


def quoted(string: str, most: int = LONGEST) -> Markup:
    return as_html(in_quotes(string, most))


def link(to: str, text: Markup | str) -> Markup:
    return part("link")(to, text)


def plural(count: int, one: str, many: str = "") -> str:
    return f"{count:,} {one if count == 1 else many or one + 's'}"


def facts(rows: Iterable[tuple[str, Markup | str]]) -> Markup:
    return part("facts")(rows)


def collapsible(caption: str, items: list[Markup | str], most_open: int = 10) -> Markup:
    """A list that is folded away where it is long."""
    return part("folded")(caption, items, len(items) <= most_open) if items else Markup()


def limited(items: Iterable[Markup], count: int) -> list[Markup | str]:
    """As many of so many items as a page has room for, and how many more there are."""
    shown: list[Markup | str] = []
    size = 0
    for item in islice(items, MOST_OF_LIST):
        size += len(item.encode("utf8"))
        if size > BYTES_OF_LIST:
            break
        shown.append(item)
    return shown if len(shown) == count else [*shown, f"and {count - len(shown):,} more"]


class Frame:
    """What stands around each page of a folder."""

    def __init__(self, name: str, shards: int) -> None:
        self.name, self.shards = name, shards

    def page(self, title: Markup, body: Markup, root: str = "../") -> str:
        """A page; `root` leads to the top of the folder."""
        return str(page("browse", title=title, file=self.name, root=root, shards=self.shards, body=body))
