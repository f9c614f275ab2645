"""Text of strangers as a terminal can be shown it: without what a terminal obeys, and without what nobody sees."""
from __future__ import annotations

import re

LONGEST = 160  # characters of a line that are shown where a line is a sign of more
# What nobody sees though it counts as printable: Default_Ignorable_Code_Point of the Unicode Character Database
# (DerivedCoreProperties.txt; unicodedata doesn't have it), and signs that are blank: a Braille pattern without dots, a
# filler of Khitan, blanks of Egyptian, a notehead that isn't drawn.
INVISIBLE = re.compile(
    "[\u00ad\u034f\u061c\u115f\u1160\u17b4\u17b5\u180b-\u180f\u200b-\u200f\u202a-\u202e\u2060-\u206f\u2800\u3164"
    "\ufe00-\ufe0f\ufeff\uffa0\ufff0-\ufff8\U00013441\U00013442\U00016fe4\U0001bca0-\U0001bca3\U0001d159"
    "\U0001d173-\U0001d17a\U000e0000-\U000e0fff]"
)
# What runners of continuous integration take for a command in a line of output, whoever wrote it: `##[..]` of GitHub
# and Azure, `##vso[..]` of Azure, `##teamcity[..]`, anywhere; `::` of GitHub at the beginning.
COMMANDS = re.compile(r"(?<=#)#(?=[\w.-]*\[)|^(?P<blank>\s*):(?=:)")
TEXT, JSON, XML = "\\x{:02x}", "\\u{:04x}", "&#{};"  # a character, as texts and documents can have it


def without_commands(line: str, form: str = TEXT) -> str:
    """A line of output without a command of a runner in it: one of its characters stands as the form has it."""
    if "##" not in line and "::" not in line:
        return line
    return COMMANDS.sub(lambda found: (found["blank"] or "") + form.format(ord(found[0][-1])), line)


def escaped(text: str | bytes) -> str:
    """The text without what a terminal obeys: escapes, other control characters, and marks that turn its direction; and
    without what nobody sees.
    """
    if isinstance(text, bytes):
        text = text.decode("utf8", "surrogateescape")
    if text.isprintable() and not INVISIBLE.search(text):
        return text
    return "".join(char if char.isprintable() and not INVISIBLE.match(char) else escape_char(char) for char in text)


def escape_char(char: str) -> str:
    """One character in hexadecimal digits; a byte that is no text stands as such a byte."""
    number = ord(char)
    if 0xDC80 <= number < 0xDD00:
        return f"\\x{number - 0xDC00:02x}"
    return f"\\x{number:02x}" if number < 0x100 else f"\\u{number:04x}" if number < 0x10000 else f"\\U{number:08x}"


def shortened(text: str) -> str:
    """The beginning of a long line."""
    return text if len(text) <= LONGEST else text[:LONGEST] + " .."
