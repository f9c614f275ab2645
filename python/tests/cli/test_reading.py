"""What a reader sees of the pages of dexasm-size and of dexasm-browse: names that deceive, pages that are cut, and what
a browser shows in a narrow and in a wide window, in light and in dark.
"""
import html.parser
import json
import os
import re
import shutil
import subprocess
import unicodedata
from collections.abc import Callable, Sequence
from typing import Any

from dexasm.cli.sanitize import escaped
from tests import sought
from tests.matchers import EMPTY, SOME, Above, Below, Has, Lacks
from . import browser
from .browse_pages import BrowseTest, browse, numbers_of, spelled
from .support import HEAD, LISTING, assembled, get, room, seen_in, tool


# What nobody sees: of Default_Ignorable_Code_Point, and a Braille pattern without dots.
UNSEEN = (
    "\u3164 \u115f \u1160 \uffa0 \u2800 \u034f \ufe00 \ufe0f \U000e0100 \U000e01ef \u17b4 \u17b5 \u180b \U000e0041"
).split()
PILE = "z" + "\u0335" * 20  # 20 strokes through a letter, which no other form of it has
HEBREW = "Lcom/\u05d0\u05d1\u05d2/\u05d3\u05d4\u05d5;"
IN_ORDER = 'Lcom/<bdi dir="ltr">\u05d0\u05d1\u05d2</bdi>/<bdi dir="ltr">\u05d3\u05d4\u05d5</bdi>;'
MOST = 2_000_000  # bytes of a page


def class_of(name: str, *members: str) -> bytes:
    lines = "".join(f"direct {member} ()V 0x9\ncode 0 0 0\nreturn-void\nend code\n" for member in members)
    return b"class %s 0x1\n%send class\n" % (spelled(name), lines.encode("ascii"))


def deceiving() -> bytes:
    """A file of names that look like nothing, like one another, or turned."""
    text = HEAD + class_of(HEBREW, r"\u05d6\u05d7", r"\u05d6\u06f1", r"\u06f1\u05d6")
    text += b"".join(class_of(f"Lx{char};", spelled(f"y{char}").decode()) for char in UNSEEN)
    return assembled(text + b"".join(class_of(f"L{name};") for name in ("caf\u00e9", "cafe\u0301", PILE, "w/\u0335w")))


def shown(char: str) -> str:
    return ascii(char)[1:-1]


class Turned(html.parser.HTMLParser):
    """The letters of a page that run from right to left, where nothing keeps them apart from what is around them."""

    KEPT = ("bdi", "tspan", "title", "code")

    def __init__(self, text: str) -> None:
        super().__init__()
        self.inner: list[str]
        self.found: list[str]
        self.inner, self.found = [], []
        self.feed(text)

    def handle_starttag(self, tag: str, _: object) -> None:
        self.inner += [tag] if tag in self.KEPT else []

    def handle_endtag(self, tag: str) -> None:
        if tag in self.KEPT:
            self.inner.pop()

    def handle_data(self, text: str) -> None:
        # (what is in <code> but no <bdi> is a string, which is a text and no name)
        if not self.inner and any(unicodedata.bidirectional(char) in ("R", "AL", "AN") for char in text):
            self.found.append(text)


# ---- pages that are cut


def large() -> bytes:
    """A class of 500 methods, another one that has a method of 25,000 lines, and 900 packages; names have 1,100 bytes
    on a page.
    """
    wide = r"\udb40\udd00" * 110
    pad = [f"m{n:04}{wide}" for n in range(500)]
    calls = f"invoke-static {{ }} Lp/Big;->{pad[-1]}()V\n"
    lines = ":l{0}\n" + "const/16 v0 7\n" * 4999 + "if-eqz v0 :l{0}\n"
    lines = "".join(lines.format(n) for n in range(5))
    text = "class Lp/Big; 0x1\n"
    text += "".join(f"direct {one} ()V 0x9\ncode 0 0 0\n{calls}return-void\nend code\n" for one in pad)
    text += f"end class\nclass Lp/Long; 0x1\ndirect a (I)V 0x9\ncode 1 1 0\n{lines}{calls}goto/32 :l1\n"
    text += "end code\ndirect b ()V 0x9\ncode 0 0 0\nreturn-void\nend code\nend class\n"
    text += "".join(f"class L{n:05}{wide}/C; 0x1\nend class\n" for n in range(900))
    return assembled(HEAD + text.encode("ascii"))


def listed(at: str) -> list[tuple[str, str, str]]:
    """The entries of the index: each member's name, and where it leads."""
    found: list[tuple[str, str, str]] = []
    for name in os.listdir(os.path.join(at, "search")):
        rows, _ = json.loads(f"[{sought(r'^dexasmIndex.(.*).;$', get(at, 'search', name).decode().strip())[1]}]")
        for _, page, first, names in rows:
            found += [(one, f"class/{page}", str(first + n)) for n, one in enumerate(names)]
    return found


# ---- in a browser


def many() -> bytes:
    """A file of 340 classes with long names, of which one has a method of 59 blocks and one of three."""
    flow = "".join(f":b{n}\ninvoke-static {{ }} La/b;->c()V\nif-eqz v0 :b{n // 9 * 7}\n" for n in range(1, 60))
    text = f"class La/b; 0x1\ndirect c ()V 0x9\ncode 1 0 0\n:b0\nnop\n{flow}return-void\nend code\n"
    text += "direct d (I)V 0x9\ncode 1 1 0\nif-eqz v0 :e\nnop\n:e\nreturn-void\nend code\nend class\n"
    for n in range(339):
        text += f"class Lcom/WWWexample{n % 7}/application/internal/MMMView{n:03}$NotificationCompatDelegate; 0x1\n"
        text += f"instance a{'W' * (n % 50)} I 2\nend class\n"
    return assembled(HEAD + text.encode("ascii"))


def size_to(page: browser.Browser, width: int) -> None:
    page.call("Emulation.setDeviceMetricsOverride", width=width, height=800, deviceScaleFactor=1, mobile=False)


# Of each table: letters that have room beside each other in the column of names, and how far to the right it stands.
COLUMNS = """[...document.querySelectorAll('table')].map((table) => {
  const cell = table.tBodies[0].rows[0].lastElementChild, text = document.createElement('span');
  text.textContent = '0'; cell.append(text);
  const letter = text.getBoundingClientRect().width, place = cell.getBoundingClientRect();
  text.remove();
  return [place.width / letter, place.left, place.right];
})"""
# Labels that stand out of their rectangle, where nothing clips them.
LABELS = """(() => {
  const end = ({x, y, width, height}) => [x + width, y + height];
  const out = [...document.querySelectorAll('.map text, body > svg text')].filter((text) => {
    const svg = text.parentElement, clips = svg.tagName === 'svg' && getComputedStyle(svg).overflow !== 'visible';
    const edge = end([...(clips ? svg.parentElement : svg).querySelectorAll(':scope > rect')].pop().getBBox());
    const value = (name) => svg[name].baseVal.value;
    const place = clips ? [value('x') + value('width'), value('y') + value('height')] : end(text.getBBox());
    return place[0] > edge[0] || place[1] > edge[1] + 1;
  });
  return out.length;
})()"""
SCROLLS = """(() => {
  const box = document.querySelector('.map, body > svg').parentElement, said = box.previousElementSibling ?? box;
  return [box.scrollWidth > box.clientWidth + 1, said.textContent.includes('scrolls') && said.checkVisibility()];
})()"""


def within(box: Sequence[float], place: Sequence[float]) -> bool:
    """Whether something is within a box, but for a pixel: left, top, right, bottom."""
    inner, outer = (*place[:2], *box[2:]), (*box[:2], *place[2:])
    return all(one - two >= -1 for one, two in zip(inner, outer))


RECT = "(({left, top, right, bottom}) => [left, top, right, bottom])"


# Where the letters of a text stand, from left to right.
PLACES = """(of) => [...document.querySelectorAll(of)].flatMap((one) => {
  const walker = document.createTreeWalker(one, NodeFilter.SHOW_TEXT), found = [];
  for (let node = walker.nextNode(); node; node = walker.nextNode()) {
    for (let at = 0; at < node.data.length; at += 1) {
      const range = document.createRange();
      range.setStart(node, at); range.setEnd(node, at + 1);
      found.push([range.getBoundingClientRect().left, node.data[at]]);
    }
  }
  return found;
})"""


class Pages(BrowseTest):
    def test_escaped(self) -> None:
        """What is printed of a name, by the standard's own list where perl has it."""
        wrong: list[str] | list[int] = [char for char in UNSEEN if escaped(f"x{char}y") != f"x{shown(char)}y"]
        self.check_equal("names, what nobody sees is an escape", wrong, EMPTY)
        words = "for (0..0x10ffff) { print qq($_ ) if ($_ < 0xd800 || $_ > 0xdfff) && chr =~ /\\p{DI}/ }"
        kept = "\u00e9\u4e2d\U0001f600\u05d0\u0e01\u0e38 x"
        self.check_equal("names, what is seen stays", escaped(kept), kept)
        self.need("perl", "the standard's own list isn't looked at")
        listed = subprocess.run(["perl", "-e", words], capture_output=True).stdout.split()
        wrong = [int(one) for one in listed if escaped(chr(int(one))) == chr(int(one))]
        self.check_equal("names, all of Default_Ignorable_Code_Point", (len(listed), wrong), (Above(4000), EMPTY))

    def test_names(self) -> None:
        """Names that deceive, on each page and in the table."""
        at = room("pages names")
        seen = browse(at, deceiving(), name="names.dex"), tool("dexasm-size", "--html", "s.html", "names.dex", at=at)
        self.check_equal("pages, names that deceive", (seen[0], seen[1][0]), ((0, "", ""), 0))
        self.pages(os.path.join(at, "out"))
        files = {
            name: given.decode("utf8")  # type: ignore[union-attr]  # (each is a file)
            for name, given in seen_in(at).items()
            if name.endswith((".html", ".js"))
        }
        wrong: list[tuple[str, str]] | list[str]
        wrong = [(name, shown(char)) for name, text in files.items() for char in UNSEEN if char in text]
        self.check_equal("pages, what nobody sees is on none", wrong, EMPTY)
        overview, size = files["out/index.html"], files["s.html"]
        table = tool("dexasm-size", "--by", "class", "names.dex", at=at)[1].encode("latin1").decode("utf8")
        wrong = [shown(char) for char in UNSEEN if not all(f"x{shown(char)}" in one for one in (overview, size, table))]
        self.check_equal("pages, it is an escape", wrong, EMPTY)
        for what, text in (("dexasm-browse", overview), ("dexasm-size", size)):
            two = re.findall(r"L?caf[^<:;]*", text)
            self.check_equal(f"{what}, two forms of a name", (any("\u00e9" in one for one in two), text),
                             (True, Has("e\\u0301")))
            pile = "z" + "\u0335" * 4 + "\\u0335" * 16
            self.check_equal(f"{what}, marks that pile up", text, Has(pile) & Lacks("\u0335" * 5))
            self.check_equal(f"{what}, a mark that begins a name", text, Has("\\u0335w") & Lacks("\u0335w"))
        turned = {
            name: found for name, text in files.items() if name.endswith("html") and (found := Turned(text).found)
        }
        self.check_equal("pages, letters from right to left are kept apart", turned, EMPTY)
        row = next(text for text in files.values() if "name in the file" in text and "\u05d0" in text)
        self.check_equal("a name in the order of the file", row, Has(f"<code>{IN_ORDER}</code>"))
        self.check_equal("dexasm-size, a name in the order of the file", size, Has(f"<td>{IN_ORDER}</td>"))

    def test_cut(self) -> None:
        """Pages are cut where they would be large, each name is on one, and each link leads to the right one."""
        at, file = room("pages cut"), large()
        out = os.path.join(at, "out")
        seen = browse(at, file)
        self.check_equal("a large file", seen, (0, "", ""))
        found = self.pages(out)
        self.says_listing("a large file", found, file)
        sizes = {name: os.path.getsize(os.path.join(out, name)) for name in found}
        self.check_equal("no page is large", max(sizes.values()), Below(MOST))
        cut = {f"{kind}-1.html" for kind in ("class/0", "class/1", "package/0")} | {"class/0-2.html"}
        self.check("pages are cut", cut <= set(found), sorted(found)[:9])
        self.check_equal("an overview of many packages", sizes["index.html"], Below(MOST // 2))
        text = get(out, "class/1-1.html").decode()
        starts = re.findall(r'<ol class="code" start="(\d+)">(?:<li class="l">:L\d+\n)?<li id="0\.(\d+)"', text)
        self.check_equal("lines go on by their numbers", (len(starts), starts[0][0]), (1, starts[0][1]))
        on: dict[str, list[tuple[str, str]]] = {}
        for name in sorted(found, key=numbers_of):
            if name.startswith("class/0"):
                for one in re.findall(r'<h3 id="(\d+)">[^<]* (m\d{4})', get(out, name).decode("utf8")):
                    on.setdefault(one[1], []).append((name, one[0]))
        self.check_equal("each method is on one page", [*map(len, on.values())], [1] * 500)
        index = {name[:5]: (page, number) for name, page, number in listed(out) if name.startswith("m")}
        self.check_equal("the index leads there", index, {name: places[0] for name, places in on.items()})
        texts = (get(out, name).decode() for name in found if name.startswith("package/0"))
        rows = sorted(one for text in texts for one in re.findall(r"<td><a[^>]*>(\d{5})", text))
        self.check_equal("each package is on one page", rows, [f"{n:05}" for n in range(900)])
        if browser.found():
            self.search_cut(out, index["m0499"])
        again = browse(at, assembled(LISTING))
        left = [name for name in seen_in(out) if "-" in name]
        self.check_equal("cut pages are replaced", (again, left), ((0, "", ""), EMPTY))
        browser.needed()

    def search_cut(self, out: str, place: tuple[str, str]) -> None:
        """A browser finds what is on a page that goes on, and a link there leads to another one of them."""
        top = f"file://{out.replace(' ', '%20')}"
        with browser.Browser() as page:
            page.open(f"{top}/index.html")
            page.run("document.getElementById('search').focus()")
            page.type("m0499")
            page.until("document.querySelector('#hits a') !== null")
            page.run("document.querySelector('#hits a').click()")
            where = json.dumps(f"{top}/{place[0]}#{place[1]}")
            target = "document.querySelector(':target')?.textContent.includes('m0499')"
            seen = page.until(f"location.href === {where} && {target}")
            self.check("in a browser, a search finds what is on a page that goes on", seen, page.run("location.href"))
            page.open(f"{top}/class/0-1.html")
            page.run(f"[...document.querySelectorAll('ol a')].find((one) => one.href.endsWith('#{place[1]}')).click()")
            self.check("in a browser, a call leads to another page", page.until(f"location.href === {where}"), place)
            size_to(page, 400)
            page.open(f"{top}/class/1-1.html")
            high = page.run("document.querySelector('ol[start] li[id]').getBoundingClientRect().height")
            self.check("in a browser, a number of five digits stands in one line", 0 < high < 30, high)

    def test_hint(self) -> None:
        """How a picture is asked for is said where there is none of it, and something to draw."""
        at, file = room("pages hint"), assembled(LISTING)
        hint, method = "--graphs METHOD", ("--graphs", "LA;->m()V")
        for words, want in (((), [True, False]), (method, [False, False]), (("--graphs", "all"), [False, False])):
            if words:
                self.need("dot", "no picture is asked for")
            browse(at, file, *words)
            seen = [hint in get(at, "out", "class", f"{row}.html").decode() for row in range(2)]
            self.check_equal(f"{words}, how a picture is asked for", seen, want)

    def test_sights(self) -> None:
        """What is seen of the pages at 400 and at 1280 pixels, in light and in dark."""
        browser.needed()
        at = room("pages sights", {"many.dex": many(), "names.dex": deceiving()})
        has_flows = shutil.which("dot") is not None
        tool("dexasm-size", "--html", "size.html", "many.dex", at=at)
        tool("dexasm-size", "--html", "names.html", "names.dex", at=at)
        tool("dexasm-size", "--html", "grown.html", "names.dex", "many.dex", at=at)
        tool("dexasm-browse", "many.dex", "--output", "many", *(("--graphs", "all") if has_flows else ()), at=at)
        tool("dexasm-browse", "names.dex", "--output", "names", at=at)
        top = f"file://{at.replace(' ', '%20')}"
        with browser.Browser() as page:
            for name in ("size", "many/index", "many/package/0"):
                for width in (400, 1280):
                    self.look(page, top, name, width)
            for width in (400, 1280):
                self.fits(page, top, "grown", width)
            self.sorts(page, top, "grown")
            if has_flows:
                for width in (400, 1280):
                    self.flows(page, f"{top}/many/class/0.html", width)
            for name in ("names", "names/index", "names/class/0"):
                for width in (400, 1280):
                    size_to(page, width)
                    page.open(f"{top}/{name}.html")
                    page.keep(f"{name}-{width}")
            self.order(page, f"{top}/names")
            outside = [url for url in page.asked if not url.startswith((f"{top}/", "about:"))]
            self.check_equal("the pages, nothing beyond the folder is asked for", (page.asked, outside), (SOME, EMPTY))
            self.check_equal("the pages, the console is empty", page.told, [])

    def fits(self, page: browser.Browser, top: str, name: str, width: int) -> None:
        """Whether a page of tables is no wider than the window, and their names are in sight."""
        size_to(page, width)
        page.open(f"{top}/{name}.html")
        wide = page.run("document.documentElement.scrollWidth")
        self.check(f"{name} at {width}, no wider than the window", wide <= width, wide)
        columns = page.run(COLUMNS)
        self.check_equal(
            f"{name} at {width}, names have 12 letters in a line, in sight",
            (
                columns,
                [
                    (count, left, right) for count, left, right in columns
                    if not (count >= 12 and 0 <= left and right <= width)
                ]
            ),
            (SOME, [])
        )
        page.keep(f"{name}-{width}")

    def sorts(self, page: browser.Browser, top: str, name: str) -> None:
        """A click on a head puts the numbers in their order, the greatest first, and another one turns it."""
        page.open(f"{top}/{name}.html")
        for head, is_turned in ((0, False), (0, True), (7, False)):
            cells = f"[...document.querySelector('tbody').rows].map((row) => row.cells[{head}].textContent)"
            page.run(f"document.querySelectorAll('th')[{head}].click()")
            numbers = [int(cell.replace(",", "")) for cell in page.run(cells)]
            self.check_equal(f"{name}, sorted by column {head}", numbers, sorted(numbers, reverse=not is_turned))

    def look(self, page: browser.Browser, top: str, name: str, width: int) -> None:
        self.fits(page, top, name, width)
        high = page.run("document.documentElement.scrollHeight")
        self.check_equal(f"{name} at {width}, no higher than its rows need", high, Below(60_000))
        self.check_equal(f"{name} at {width}, labels in their box", page.run(LABELS), 0)
        scrolls, is_said = page.run(SCROLLS)
        want = (width == 400,) * 2
        self.check_equal(f"{name} at {width}, the picture scrolls and says so", (scrolls, is_said), want)
        for is_dark in (False, True):
            page.scheme(is_dark)
            ground, ink = page.run("['backgroundColor', 'color'].map((name) => getComputedStyle(document.body)[name])")
            lights = [sum(numbers_of(color)[:3]) for color in (ground, ink)]
            self.check_equal(f"{name}, {'dark' if is_dark else 'light'}", lights[0] < lights[1], is_dark)

    def flows(self, page: browser.Browser, url: str, width: int) -> None:
        """A flow opens in sight, and buttons, keys and the wheel make it larger and smaller."""
        size_to(page, width)
        page.open(url)
        box: Callable[[int], str] = lambda at: f"document.querySelectorAll('.flow')[{at}]"
        rect: Callable[[str], Any] = lambda of: page.run(f"{RECT}({of}.getBoundingClientRect())")
        wide: Callable[[], Any] = lambda: page.run(f"{box(0)}.querySelector('svg').getBoundingClientRect().width")
        block = f"{box(0)}.querySelector('.node')"
        press: Callable[[str], Any] = lambda said: page.run(
            f"[...document.querySelectorAll('button')].find((one) => one.textContent === '{said}').click()"
        )
        is_so = within(rect(box(0)), rect(block)) or rect(block)[2] - rect(block)[0] > width * 0.8
        in_sight = rect(block)[0] >= rect(box(0))[0] and rect(block)[1] >= rect(box(0))[1]
        self.check_equal(f"a flow of many blocks at {width}, its first block is seen", (is_so, in_sight), (True, SOME))
        self.check(f"a flow of few blocks at {width}, all is seen",
                   within(rect(box(1)), rect(f"{box(1)}.querySelector('svg')")))
        page.keep(f"flow-{width}")
        was = [wide()]
        page.run(f"{box(0)}.focus()")
        acts: tuple[Callable[[], Any], ...] = (lambda: page.key("+", "Equal", "+"), lambda: page.key("-", "Minus", "-"),
                                               lambda: press("Larger"), lambda: page.wheel(f"{box(0)}", -100),
                                               lambda: page.key("0", "Digit0", "0"))
        for act in acts:
            act()
            was.append(wide())
        larger, smaller, button, wheel, whole = was[1:]
        self.check_equal(f"a flow at {width}, keys", (larger > was[0] > 0, abs(smaller - was[0])), (True, Below(1)))
        self.check_equal(f"a flow at {width}, a button and the wheel", (button, wheel), (Above(smaller), Above(button)))
        place = rect(f"{box(0)}.querySelector('svg')")
        self.check_equal(f"a flow at {width}, all of it", (within(rect(box(0)), place), whole), (True, Below(was[0])))
        press("First block")
        self.check_equal(f"a flow at {width}, back to its first block", abs(wide() - was[0]), Below(1))

    def order(self, page: browser.Browser, top: str) -> None:
        """Names with letters from right to left: their parts stand from left to right."""
        size_to(page, 1280)
        page.open(f"{top}/class/0.html")
        found = page.run(f"({PLACES})('dd code')")
        line = "".join(char for _, char in sorted(found))
        # (the letters of a word run from right to left)
        self.check_equal("a name in the file, in a browser", line, "Lcom/\u05d2\u05d1\u05d0/\u05d5\u05d4\u05d3;")
        page.run("document.getElementById('search').focus()")
        page.type("com")
        page.until("document.querySelector('#hits li') !== null")
        found = page.run(f"({PLACES})('#hits li:first-child a')")
        line = "".join(char for _, char in sorted(found))
        self.check_equal("what is found, in a browser", line, "com.\u05d2\u05d1\u05d0.\u05d5\u05d4\u05d3")
