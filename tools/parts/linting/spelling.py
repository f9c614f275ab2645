"""Misspelled words in the documents and the words of the help, by aspell's British English with the words of
tools/data/words.txt. It leaves out code, what links lead to, and what no dictionary has: words with digits, an
underscore or a capital inside. Where aspell isn't installed, codespell looks, which knows the commonest misspellings
alone; where neither is, nothing is looked at.
"""
import glob
import re
import shutil
import subprocess

from . import Seen

WORDS = "tools/data/words.txt"
TEXTS = "crates/dexasm_plan/src/texts.rt"
DICTIONARY = "en_GB-ize"
NEITHER = f"neither aspell with {DICTIONARY} nor codespell is installed (Debian: aspell aspell-en, codespell)"


def pages() -> list[str]:
    deep = [path for folder in ("bindings", "bench") for path in glob.glob(f"{folder}/**/*.md", recursive=True)]
    return sorted(glob.glob("*.md") + glob.glob("docs/*.md") + glob.glob("python/*.md") + deep) + [TEXTS]


def plain(text: str) -> str:
    """A text without its code and what no dictionary has; each line stays where it is."""
    text = re.sub(r"```.*?```|<!--.*?-->", lambda found: "\n" * found[0].count("\n"), text, flags=re.S)
    text = re.sub(r"`[^`\n]*`|\]\([^)\s]*\)|https?://\S+|<\w+>|U\+\w+|\w*\(crate\).*=", " ", text)
    return re.sub(r"[\w./-]*(?:[\d_./][\w/]|[a-z][A-Z])[\w./-]*", " ", text)


def own_words() -> set[str]:
    with open(WORDS, encoding="utf8") as file:
        return set(file.read().lower().split())


def by_aspell(text: str, own: set[str]) -> set[str]:
    words = ["aspell", "list", f"--lang={DICTIONARY}", "--encoding=utf-8"]
    said = subprocess.run(words, input=text, capture_output=True, text=True, check=True).stdout
    return {word for word in said.split() if word.lower().removesuffix("'s") not in own}


def by_codespell(text: str, own: set[str]) -> set[str]:
    """(Its status is the number of words found, and it says `word ==> another` of each.)"""
    said = subprocess.run(["codespell", "-"], input=text, capture_output=True, text=True).stdout
    return {word for word in re.findall(r"^\t?(\S+) ==> ", said, re.M) if word.lower() not in own}


def has_aspell() -> bool:
    if not shutil.which("aspell"):
        return False
    return DICTIONARY in subprocess.run(["aspell", "dicts"], capture_output=True, text=True).stdout.split()


def look() -> Seen:
    if has_aspell():
        misspelled, by = by_aspell, "aspell"
    elif shutil.which("codespell"):
        misspelled, by = by_codespell, "codespell"
    else:
        return Seen([], missing=NEITHER)
    own, found = own_words(), []
    for page in pages():
        with open(page, encoding="utf8") as file:
            text = plain(file.read())
        wrong = misspelled(text, own)
        for number, line in enumerate(text.split("\n"), 1):
            found += [f"{page}:{number}: {word}" for word in sorted(wrong) if re.search(rf"\b{re.escape(word)}\b", line)]
    return Seen(found, f"the words of {len(pages())} pages, by {by}")
