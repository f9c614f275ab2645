"""Which links of the documents lead nowhere: to a file that isn't there, or to a heading that the page doesn't
have. Links to other hosts aren't followed. Also which page README doesn't name, which page of docs/ doesn't
lead back to README, which page begins with its readers and not with what it is, and where prose is wider than 120
columns or a page of docs/ with more than 7,500 words.
"""
import glob
import os
import re
from collections.abc import Iterator

from . import Seen

WIDTH, WORDS = 120, 7500
LONG = {"docs/FORMAT.md", "docs/LISTING.md", "docs/FILES.md", "docs/OPCODES.md"}  # to be looked up in, or generated
CODE = re.compile(r"^ *```.*?^ *```", re.S | re.M)


def pages() -> list[str]:
    folders = ("docs", "bindings", "python", "bench")
    found = [path for folder in folders for path in glob.glob(f"{folder}/**/*.md", recursive=True)]
    return sorted(glob.glob("*.md") + found)


def read(path: str) -> str:
    with open(path, encoding="utf8") as file:
        return file.read()


def without_code(text: str) -> str:
    """A text with its blocks of code empty, each other line where it is."""
    return CODE.sub(lambda found: "\n" * found[0].count("\n"), text)


def anchors(text: str) -> set[str]:
    """The headings of a page as links name them."""
    heads = re.findall(r"^#+ (.*)$", without_code(text), re.M)
    return {re.sub(r"[^\w\- ]", "", head.lower()).replace(" ", "-") for head in heads}


def lost(page: str) -> Iterator[str]:
    """The links of a page that lead nowhere."""
    text = re.sub(r"`[^`\n]*`", "", without_code(read(page)))
    for target in re.findall(r"\]\(([^)\s]+)\)", text):
        if re.match(r"\w+:", target):
            continue
        path, _, anchor = target.partition("#")
        path = os.path.normpath(os.path.join(os.path.dirname(page), path)) if path else page
        if not os.path.exists(path):
            yield f"{page} leads to {target}, which isn't there"
        elif anchor and path.endswith(".md") and anchor not in anchors(read(path)):
            yield f"{page} leads to {target}, and {path} has no such heading"


def unshapely(page: str) -> Iterator[str]:
    """What is wrong with the form of a page: its first line, its width (tables and code apart), its length."""
    lines = without_code(read(page)).split("\n")
    for number, line in enumerate(lines, 1):
        if len(line) > WIDTH and not line.lstrip().startswith("|"):
            yield f"{page}:{number} has {len(line)} columns, more than {WIDTH}"
    if page.startswith("docs/") or "/" not in page and page != "CHANGELOG.md":
        first = next((line for line in lines if line and not line.startswith("#")), "")
        if first.startswith("For "):
            yield f"{page} begins with its readers: it has to begin with what it is"
    if page.startswith("docs/") and page not in LONG and len(read(page).split()) > WORDS:
        yield f"{page} has {len(read(page).split())} words, more than {WORDS}"


def look() -> Seen:
    found = [line for page in pages() for line in (*lost(page), *unshapely(page))]
    named = read("README.md")
    for page in pages():
        if page != "README.md" and f"({page})" not in named:
            found.append(f"README.md doesn't name {page}")
        if page.startswith("docs/") and "(../README.md)" not in read(page):
            found.append(f"{page} doesn't lead to README.md")
    return Seen(found, f"{len(pages())} pages")
