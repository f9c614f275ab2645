"""What dexasm-browse writes, as a program reads it, and files whose names are meant to do harm."""
import html
import html.parser
import os
import re
from typing import Any

from tests.matchers import EMPTY
from ..cases import TEXTS
from .support import HEAD, Ended, HelperTest, assembled, dexasm, put, seen_in, tool


# Each with how its page shows it: what can't be seen stands as an escape.
STRINGS = {
    "<script>alert(1)</script>": "<script>alert(1)</script>",
    "</script><script>alert(1)": "</script><script>alert(1)",
    "<!--": "<!--",
    "-->": "-->",
    "]]>": "]]>",
    "<![CDATA[": "<![CDATA[",
    "'\"": "'\\\"",
    '" onload="alert(1)': '\\" onload=\\"alert(1)',
    "&lt;b&gt;": "&lt;b&gt;",
    "&#60;b": "&#60;b",
    "</title></style></textarea>": "</title></style></textarea>",
    "<img src=x onerror=alert(1)>": "<img src=x onerror=alert(1)>",
    "<svg/onload=alert(1)>": "<svg/onload=alert(1)>",
    "javascript:alert(1)": "javascript:alert(1)",
    "`${alert(1)}`": "`${alert(1)}`",
    "\\": "\\\\",
    "\\u202e": "\\\\u202e",
    "\u202eabc": "\\u202eabc",
    "\u2066\u2069\u061c": "\\u2066\\u2069\\u061c",
    "\u200b\u200d\ufeff": "\\u200b\\u200d\\ufeff",
    "\u2028\u2029": "\\u2028\\u2029",
    "\0": "\\x00",
    "\n\r\t": "\\x0a\\x0d\\x09",
    "\x1b[31m": "\\x1b[31m",
    "\x7f\x80\x9f": "\\x7f\\x80\\x9f",
    "\xa0\xad": "\\xa0\\xad",
    "\ud800": "\\ud800",
    "\udc00\ud800": "\\udc00\\ud800",
    "\udc80": "\\udc80",
    "\ue000\U0010ffff": "\\ue000\\U0010ffff",
    "\u00e9\u4e2d\U0001f600": "\u00e9\u4e2d\U0001f600",
    "": "",
    " ": " ",
    "../../etc/passwd": "../../etc/passwd",
    "file:///etc/passwd": "file:///etc/passwd",
    "__proto__": "__proto__",
    "constructor": "constructor",
    "%s%n{}": "%s%n{}",
    "\\N\\l\\G": "\\\\N\\\\l\\\\G",
    "n1 -> n2 [URL=x]": "n1 -> n2 [URL=x]",
}
LONG = "<" * 65535
# Names of classes and of members: some differ only in case, some are words of systems and of languages, some have marks
# of direction, and two have 255 and 60,000 characters.
PARTS = (
    "CON con nul AUX a A \u00e9 e\u0301 index __proto__ constructor toString hasOwnProperty then script - -- --help $ "
    "\u2066x \u061cx \ufeffx \u00adx \ue000x \u3164 \U000e0001x"
).split() + ["b" * 255, "c" * 60000]
# What can be printed and isn't seen, or looks as another name.
SHOWN = {"\u3164": "\\u3164", "e\u0301": "e\\u0301"}


def spelled(text: str) -> bytes:
    """A text in a listing: every unit as an escape."""
    units = text.encode("utf-16-be", "surrogatepass")
    return "".join(f"\\u{units[at:at + 2].hex()}" for at in range(0, len(units), 2)).encode("ascii")


def hostile() -> bytes:
    """A file whose names and strings are meant to do harm. Each class calls the one before it."""
    classes = []
    for at, part in enumerate(PARTS):
        name, last = spelled(part), spelled(PARTS[at - 1])
        values = b"".join(b'const-string v0 "%s"\n' % spelled(one) for one in [*STRINGS, LONG][at :: len(PARTS)])
        classes.append(
            b'class L%s; 0x1\nsuper Ljava/lang/Object;\nsource "%s"\n' % (name, spelled([*STRINGS][at % len(STRINGS)]))
            + b'static %s Ljava/lang/String; 0x9 = string "%s"\n' % (name, spelled([*STRINGS][at]))
            + b"direct %s (L%s;)V 0x9\ncode 2 1 1\n%s" % (name, name, values)
            + b"invoke-static { v1 } L%s;->%s(L%s;)V\nsget-object v0 L%s;->%s:Ljava/lang/String;\n" % ((last,) * 5)
            + b"return-void\nend code\nend class\n"
        )
    return assembled(HEAD + b"".join(classes))


class Page(html.parser.HTMLParser):
    """A page: its elements and attributes, ids, links, places in the file, the lines of its code, and its text."""

    VOID = {"meta", "link", "input", "rect", "polygon", "path"}

    def __init__(self, text: str) -> None:
        super().__init__()
        self.elements: list[str]
        self.attributes: set[str]
        self.ids: list[str]
        self.links: list[str]
        self.places: list[str]
        self.lines: list[str]
        self.texts: list[str]
        self.elements, self.attributes, self.ids, self.links, self.places = [], set(), [], [], []
        self.lines, self.texts = [], []
        self.depth = 0
        self.is_code = False
        self.feed(text)
        self.close()

    def handle_starttag(self, tag: str, attributes: list[tuple[str, str | None]]) -> None:
        self.elements.append(tag)
        given: dict[str, Any] = dict(attributes)
        self.attributes |= set(given)
        self.ids += [given["id"]] if "id" in given else []
        self.links += [given[name] for name in ("href", "src") if name in given]
        self.places += [given["data-at"]] if "data-at" in given else []
        if tag == "ol":
            self.is_code = given.get("class") == "code"
        elif tag == "li" and self.is_code:
            self.lines.append("")

    def handle_endtag(self, tag: str) -> None:
        if tag == "ol":
            self.is_code = False

    def handle_data(self, text: str) -> None:
        self.texts.append(text)
        if self.is_code and self.lines:
            self.lines[-1] += text.rstrip("\n")


ELEMENTS = set(
    "html head meta title link script body a header nav div label input section p ol li main h1 h2 h3 dl dt dd code "
    "details summary ul svg g rect text table caption thead tr th tbody td strong q polygon path b i small bdi".split()
    + ["tspan"]
)
ATTRIBUTES = set(
    "lang charset http-equiv content name rel href src defer data-root data-shards class aria-label hidden for id type "
    "autocomplete spellcheck placeholder role tabindex viewbox aria-hidden width height fill x y stroke scope open "
    "points d transform text-anchor font-size dir start data-at".split()
)
POLICY = "default-src 'none'; style-src 'self'; script-src 'self'; img-src 'self'; base-uri 'none'; form-action 'none'"
LINK = re.compile(
    r"(?:(?:\.\./)?(?:(?:class|package|strings)/)?(?:\d+(?:-\d+)?|index|help)\.html)?"
    r"(?:#(?:\d+(?:\.\d+)?|main|graphs))?"
)
PLACE = re.compile(r"[0-9a-f]{6,8} [0-9a-f]{4,8}")
OWN = re.compile(r"(?:\.\./)?(?:style\.css|script\.js|icon\.svg)")
FILES = re.compile(
    r"(?:index|help)\.html|style\.css|script\.js|icon\.svg|(?:class|package|strings)/\d+(?:-\d+)?\.html|search/\d+\.js"
)


def code_lines(listing: bytes) -> list[str]:
    """The lines of a listing that a member has."""
    heads = ("dex ", "class ", "super ", "implements ", "source ", "end class")
    return [line for line in listing.decode("ascii").splitlines() if not line.startswith(heads)]


def numbers_of(name: str) -> list[int]:
    return [int(number) for number in re.findall(r"\d+", name)]


# Two files of an archive that lead into each other, each with a class p.Twin. Both call a method that it has in both.
ONE = TEXTS["browse_pages ONE"].encode()
TWO = TEXTS["browse_pages TWO"].encode()


def browse(at: str, file: bytes, *words: str, name: str = "a.dex", **options: Any) -> Ended:
    put(at, name, file)
    return tool("dexasm-browse", *words, "--output", "out", "--", name, at=at, **options)


CODE = TEXTS["browse_pages CODE"].encode()


class BrowseTest(HelperTest):
    """A test of pages."""

    def pages(self, at: str) -> dict[str, Page]:
        """The pages below a folder by their paths; checks that each is only what it may be, and leads to what is
        there."""
        files: dict[str, Any] = {name: given for name, given in seen_in(at).items() if given != "folder"}
        wrong: list[str | tuple[str, str]] = [name for name in files if not FILES.fullmatch(name)]
        found = {name: Page(given.decode("utf8")) for name, given in files.items() if name.endswith(".html")}
        ids = {name: set(page.ids) for name, page in found.items()}
        for name, page in found.items():
            text = files[name].decode("utf8")
            wrong += [(name, one) for one in set(page.elements) - ELEMENTS]
            wrong += [(name, one) for one in page.attributes - ATTRIBUTES]
            wrong += [(name, "ids")] * (len(page.ids) != len(set(page.ids)))
            wrong += [(name, place) for place in page.places if not PLACE.fullmatch(place)]
            wrong += [(name, "h1")] * (page.elements.count("h1") != 1)
            wrong += [(name, "policy")] * (f'http-equiv="Content-Security-Policy" content="{POLICY}"' not in text)
            wrong += [(name, "hidden")] * (not all(char.isprintable() or char == "\n" for char in text))
            wrong += [(name, "script")] * (len(re.findall(r"<script", text)) != 1)
            for link in page.links:
                to, _, anchor = link.partition("#")
                file = os.path.normpath(os.path.join(os.path.dirname(name), to)) if to else name
                if OWN.fullmatch(link):
                    wrong += [(name, link)] * (file not in files)
                elif not LINK.fullmatch(link) or file not in found or anchor and anchor not in ids[file]:
                    wrong.append((name, link))
        self.check_equal(f"dexasm-browse, all of {at} is only what it may be", wrong, EMPTY)
        return found

    def says_listing(self, what: str, found: dict[str, Page], file: bytes) -> None:
        """Whether the pages of the classes have the lines of the listing; a page that is cut goes on in others."""
        names = sorted((name for name in found if name.startswith("class/")), key=numbers_of)
        lines = [line for name in names for line in found[name].lines]
        want = code_lines(dexasm("list", given=file))
        wrong = next(((a[:99], b[:99]) for a, b in zip(lines, want) if a != b), None)
        self.check_equal(f"{what}: the code is the listing's", (wrong, len(lines)), (None, len(want) or 1))
