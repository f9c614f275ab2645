"""Names of somebody else's making on pages: what can't be seen, what looks as another name, and what runs from right to
left. `text`, `plain` and `drawn_text` are filters of the templates.
"""
from __future__ import annotations

import html
import re
import unicodedata
from collections.abc import Iterable

from dexasm.cli.sanitize import escape_char, escaped
from dexasm.pages.templates import Markup, part

LONGEST = 120  # characters of a name where it isn't the listing's own line
MARKS = 4  # that may stand on one character ("Unicode Security Mechanisms", UTS 39, 5.4: no more nonspacing marks)
# The blocks of scripts that are written from right to left (DerivedBidiClass.txt, R, AL and AN), but for the digits
# that run from left to right.
RIGHT_TO_LEFT = re.compile(
    "[\u0590-\u06ef\u06fa-\u08ff\ufb1d-\ufdff\ufe70-\ufeff\U00010800-\U00010fff\U0001e800-\U0001efff]+"
)


def cut(text: str, most: int = LONGEST) -> str:
    return text if len(text) <= most else f"{text[:most]}... ({len(text):,} characters)"


def unpiled(text: str) -> str:
    """The text with at most MARKS marks on a character, and none on what is no letter and no digit, as a name's marks
    would stand on what is before the name; the others stand as escapes.
    """
    if text.isascii():
        return text
    parts, count, is_base = [], 0, False
    for char in text:
        kind = unicodedata.category(char)
        count = count + 1 if kind in ("Mn", "Me") else 0
        is_base = is_base if kind[0] == "M" else char.isalnum()
        parts.append(escape_char(char) if count > MARKS or kind[0] == "M" and not is_base else char)
    return "".join(parts)


def visible(name: str, most: int = LONGEST) -> str:
    """A name as a reader is to see it, no HTML yet: what can't be seen stands as an escape, and so does all that isn't
    ASCII where the Unicode standard has another form of the same name (NFC), since the two look alike.
    """
    name = cut(name, most)
    if not unicodedata.is_normalized("NFC", name):
        return "".join(char if " " <= char <= "~" else escape_char(char) for char in name)
    return unpiled(escaped(name))


def as_html(text: str) -> Markup:
    """A text of which nothing is obeyed."""
    return Markup(html.escape(text))


def with_bidi(name: str, most: int, apart: str) -> Markup:
    """A name as HTML, in which letters that run from right to left stand apart, in the form of `apart`. (Of a Markup
    re.sub would escape what it puts in.)
    """
    return Markup(RIGHT_TO_LEFT.sub(apart, html.escape(visible(name, most))))


def plain(name: str, most: int = LONGEST) -> Markup:
    """A name where no element may stand: a title, an attribute."""
    return as_html(visible(name, most))


def text(name: str, most: int = LONGEST) -> Markup:
    """A name as HTML: what is long is cut, and its parts stand in the order of the file."""
    return with_bidi(name, most, r'<bdi dir="ltr">\g<0></bdi>')


def drawn_text(name: str) -> Markup:
    """The same in a picture."""
    return with_bidi(name, LONGEST, r"<tspan>\g<0></tspan>")


def number(count: int | None) -> str:
    return "-" if count is None else f"{count:,}"


def signed(count: int) -> str:
    return f"{count:+,}" if count else "0"


def table(caption: str, heads: Iterable[str], rows: Iterable[Markup], total: Markup | str = "") -> Markup:
    """Rows of numbers with a name at the end; `total` is the row below them."""
    return part("table")(caption, heads, Markup("\n").join(rows), total)
