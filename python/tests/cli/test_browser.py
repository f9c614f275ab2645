"""The pages of dexasm-browse in a real browser, where there is one, and the contrast of their colours."""
import functools
import http.server
import os
import re
import threading
from collections.abc import Iterator

from dexasm.pages.size_page import KINDS
from tests.matchers import EMPTY, SOME, Above
from . import browser
from .archive_files import archive
from .browse_pages import CODE, ONE, PARTS, TWO, hostile
from .support import TOP, HelperTest, assembled, get, room, tool

HTTP = "http://localhost:"


def contrast(one: str, other: str) -> float:
    def light(color: str) -> float:
        parts: Iterator[float] | list[float]
        parts = (int(color[at : at + 2], 16) / 255 for at in (1, 3, 5))
        parts = [part / 12.92 if part <= 0.03928 else ((part + 0.055) / 1.055) ** 2.4 for part in parts]
        return 0.2126 * parts[0] + 0.7152 * parts[1] + 0.0722 * parts[2]

    high, low = sorted((light(one), light(other)), reverse=True)
    return (high + 0.05) / (low + 0.05)


class Quiet(http.server.SimpleHTTPRequestHandler):
    def log_message(self, *_: object) -> None:
        pass


class Walk(HelperTest):
    def test_contrast(self) -> None:
        """The colours of the style by WCAG 2: 4.5 to 1 of what is read, 3 to 1 of lines."""
        style = "".join(
            get(TOP, "python/src/dexasm", name).decode("ascii") for name in ("pages/pages.css", "pages/browse.css")
        )
        blocks = re.findall(r":root \{(.*?)\}", style, re.S)
        colors = [dict(re.findall(r"--(\w+): (#[0-9a-f]{6});", block)) for block in blocks]
        others = (
            set(re.findall(r"#[0-9a-f]{3,8}\b", style)) - {color for one in colors for color in one.values()}
            - {"#111111"}
        )
        self.check_equal("the pages, colours stand in one place", (len(colors), others), (2, EMPTY))
        color: dict[str, str] | str
        for which, color in zip(("light", "dark"), colors):
            for ground in ("page", "box", "mark"):
                for ink in ("ink", "soft", "link", "word", "number", "string", "label"):
                    ratio = contrast(color[ink], color[ground])
                    self.check(f"the pages, {which}: {ink} on {ground}", ratio >= 4.5, ratio)
            for line in ("soft", "flow", "word", "number"):
                self.check(f"the pages, {which}: a line of {line}", contrast(color[line], color["box"]) >= 3)

        for color, said in KINDS.values():
            self.check(f"the picture: words on {said}", contrast("#111111", color) >= 4.5)

    def test_browser(self) -> None:
        """A walk from the largest method to what it calls and back, a search, and the keyboard."""
        browser.needed()
        at = room("browse browser", {
            "a.dex": assembled(CODE), "evil.dex": hostile(),
            "two.apk": archive(("classes.dex", assembled(ONE)), ("classes2.dex", assembled(TWO)))
        })
        for name, file in (("a", "a.dex"), ("evil", "evil.dex"), ("two", "two.apk")):
            tool("dexasm-browse", file, "--output", name, at=at)
        top = f"file://{at.replace(' ', '%20')}"
        with browser.Browser() as page:
            self.walk(page, f"{top}/a")
            self.keyboard(page, f"{top}/a")
            for name in ("index", "class/0", f"class/{len(PARTS) - 1}", "strings/0", "package/0"):
                page.open(f"{top}/evil/{name}.html")
            page.run("document.getElementById('search').focus()")
            page.type("script")
            self.check("in a browser, names of evil are found",
                       page.until("document.querySelectorAll('#hits a').length > 1"))
            page.open(f"{top}/two/index.html")
            page.run("document.getElementById('search').focus()")
            page.type("twin")
            seen = page.until("document.getElementById('hits').textContent.includes('(a class) of classes2.dex')")
            self.check("in a browser, what is found has its file", seen)
            self.widths(page, f"{top}/a")
            self.over_http(page, at)
            own = tuple(f"{top}/{name}/" for name in ("a", "evil", "two"))
            outside = [url for url in page.asked if not url.startswith((*own, "about:", HTTP))]
            self.check_equal("in a browser, nothing beyond the folder is asked for", (page.asked, outside),
                             (SOME, EMPTY))
            self.check_equal("in a browser, its console is empty", page.told, [])

    def walk(self, page: browser.Browser, top: str) -> None:
        page.open(f"{top}/index.html")
        first = (
            "[...document.querySelectorAll('caption')].find((one) => one.textContent.includes('code')).parentElement"
        )
        page.run(f"{first}.querySelector('tbody a').click()")
        self.check("in a browser, the largest method", page.until("location.href.endsWith('/class/1.html#3')"),
                   page.run("location.href"))
        page.run("document.querySelector('[id=\"3.4\"] a:last-of-type').click()")
        self.check("in a browser, from a call to its definition", page.until("location.hash === '#2'"),
                   page.run("location.href"))
        page.run('[...document.querySelectorAll(\'h3[id="2"] ~ details a[href$="#3.4"]\')][0].click()')
        self.check("in a browser, and back by used by", page.until("document.querySelector(':target')?.id === '3.4'"))
        page.run("document.querySelector('[id=\"3.1\"] a').click()")
        seen = page.until("document.querySelector(':target')?.textContent.startsWith('return v0')")
        self.check("in a browser, a branch leads to its line", seen, page.run("location.href"))
        page.open(f"{top}/index.html")
        page.run(
            "document.querySelector('.map a[href^=\"package\"]').dispatchEvent(new MouseEvent('click', {bubbles: true}))"
        )
        self.check("in a browser, a click into a package", page.until("location.pathname.includes('/package/')"),
                   page.run("location.href"))

    def over_http(self, page: browser.Browser, at: str) -> None:
        """The same pages from a web server."""
        handler = functools.partial(Quiet, directory=os.path.join(at, "a"))
        with http.server.ThreadingHTTPServer(("localhost", 0), handler) as server:
            threading.Thread(target=server.serve_forever, daemon=True).start()
            page.open(f"{HTTP}{server.server_port}/index.html")
            page.run("document.getElementById('search').focus()")
            page.type("ask")
            seen = page.until("document.querySelector('#hits a')?.textContent")
            self.check_equal("in a browser, a search from a web server", seen, "ask(int)")
            page.open("about:blank")
            server.shutdown()

    def keyboard(self, page: browser.Browser, top: str) -> None:
        """The search by keys alone, and what Tab reaches."""
        page.call("Emulation.setDeviceMetricsOverride", width=800, height=300, deviceScaleFactor=1, mobile=False)
        page.open(f"{top}/class/1.html")
        page.run("scrollTo(0, 1e6)")
        page.key("/", "Slash", "/")
        page.type("hello.as")
        seen = page.until("document.querySelector('#hits a')?.textContent")
        self.check_equal("in a browser, a search finds a method", seen, "ask(int)")
        page.run("scrollTo(0, 1e6)")
        place = page.run("document.querySelector('#hits a').getBoundingClientRect().top / innerHeight")
        self.check("in a browser, what is found is seen wherever one reads", 0 < place < 1, place)
        page.key("Tab")
        page.key("Enter", text="\r")
        seen = page.until("location.href.endsWith('/class/1.html#2')")
        self.check("in a browser, Tab and Enter lead to it", seen, page.run("location.href"))
        page.open(f"{top}/index.html")
        all_of = "[...document.querySelectorAll('a[href]:not([tabindex]), summary, input, th')]"
        count = page.run(f"window.due = new Set({all_of}.filter((one) => one.checkVisibility())); due.size")
        for _ in range(count + 5):
            page.key("Tab")
            page.run("due.delete(document.activeElement)")
        self.check_equal("in a browser, Tab reaches everything", (count, page.run("due.size")), (Above(10), 0))

    def widths(self, page: browser.Browser, top: str) -> None:
        """No page is wider than its window."""
        for width in (1280, 400):
            page.call("Emulation.setDeviceMetricsOverride", width=width, height=800, deviceScaleFactor=1, mobile=False)
            for name in ("index.html", "class/1.html", "strings/0.html", "help.html"):
                page.open(f"{top}/{name}")
                seen = page.run("document.documentElement.scrollWidth")
                self.check(f"in a browser, {name} at {width}", seen <= width, seen)
