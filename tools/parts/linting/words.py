"""Words of a private language in the pages, the manuals, the help of the command and the messages of the helpers: each
has a word of the field in its place, which the message names. Code is left out, and pages that are history (CHANGELOG,
bench/LOG) or generated from names in the code.
"""
import ast
import glob
import os
import re
from collections.abc import Iterator

from . import Seen
from .links import pages, read, without_code

# What is refused, and what a reader knows instead.
PRIVATE = {
    r"whoever": "readers who, users who, the person who",
    r"nobody|somebody": "no caller, another process, a user",
    r"anew|once more": "again",
    r"stands?|stood": "is, is at, is stored at, appears in",
    r"(?:is|are|was|were|be|been) (?:told|asked)": "is printed, is reported, is checked, is requested",
    r"answered": "returned, reported",
    r"it answers|answers to|nothing answers": "returns, the result",
    r"looked at|looks? at|looking at": "checked, read, inspected, ignored",
    r"spells?|spelled": "encodes, is written",
    r"exactly (?:if|where)": "if and only if, exactly when",
    r"(?:is|are) believed": "this project assumes",
    r"what is called": "a file named",
    r"what comes of": "the result of",
}  # fmt: skip
REFUSED = {re.compile(rf"\b(?:{words})\b", re.I): instead for words, instead in PRIVATE.items()}
HISTORY = {"CHANGELOG.md", "bench/LOG.md"}
GENERATED = {"docs/DEFINITIONS.md", "docs/FILES.md"}
# Where a word is defined or quoted, by page: a part of the line that has it.
EXCEPTIONS = {
    "docs/READING-PROOFS.md": ("| spells |", "| stands |", "| holds, breaks |"),  # the table that defines them, for the specs
}
HELP, SOURCES = "crates/dexasm_plan/src/texts.rt", "python/src/dexasm/**/*.py"
VIEW = re.compile(r"\b(?:from|view) spelled\b")  # a name in SQL


def plain(text: str) -> str:
    """A text without code, comments and what links lead to; each line is where it was."""
    text = re.sub(r"<!--.*?-->", lambda found: "\n" * found[0].count("\n"), without_code(text), flags=re.S)
    return re.sub(r"`[^`\n]*`|\]\([^)\s]*\)", " ", text)


def private_words(page: str) -> Iterator[str]:
    """A line for each private word of a page."""
    text = read(page)
    lines = text.split("\n")
    for number, line in enumerate(plain(text).split("\n"), 1):
        if any(part in lines[number - 1] for part in EXCEPTIONS.get(page, ())):
            continue
        for word, instead in found_in(line):
            yield f"{page}:{number}: {word}: write {instead}"


def found_in(text: str) -> Iterator[tuple[str, str]]:
    """The private words of a text, each with what to write."""
    return ((word, instead) for words, instead in REFUSED.items() for word in words.findall(plain(text)))


def strings(path: str) -> Iterator[tuple[int, str]]:
    """The strings of a module of Python with their lines, but for docstrings."""
    nodes = [*ast.walk(ast.parse(read(path), path))]
    alone = {id(node.value) for node in nodes if isinstance(node, ast.Expr)}
    texts = (node for node in nodes if isinstance(node, ast.Constant) and id(node) not in alone)
    return ((node.lineno, VIEW.sub("", node.value)) for node in texts if isinstance(node.value, str))


def printed() -> Iterator[tuple[str, int, str]]:
    """What the command and the helpers can print, with its place."""
    for path in sorted(glob.glob(SOURCES, recursive=True)):
        yield from ((path, number, text) for number, text in strings(path))
    if os.path.exists(HELP):
        lines = enumerate(read(HELP).split("\n"), 1)
        yield from ((HELP, number, line) for number, line in lines if not line.startswith("//"))


def private_messages() -> Iterator[str]:
    """A line for each private word of a message."""
    return (f"{path}:{number}: {word}: write {instead}" for path, number, text in printed() for word, instead in found_in(text))


def look() -> Seen:
    looked = [*(page for page in pages() if page not in HISTORY | GENERATED), *sorted(glob.glob("docs/man/*"))]
    wrong = [*(line for page in looked for line in private_words(page)), *private_messages()]
    return Seen(wrong, f"the words of {len(looked)} pages and manuals, of the help and the messages")
