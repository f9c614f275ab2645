"""What docs/MAP.md and docs/PROVED.md name by hand and isn't there."""
import os
import re

from .making import Missing
from .tree import INSIDE, crates, names_of_files, read, words_of

MAP, PROVED = "docs/MAP.md", "docs/PROVED.md"
MISTAKES = "| Mistake | Wrong bodies |\n"
TO_SEE, BY_LAYER, AFTER = "\n## The crates to see\n", "\n## Crates, from the bottom up\n", "\n## "

NAME_OR_FILE = re.compile(r"\b([a-z]\w*)\b(?!\.)|`(?:specs/|src/)?(\w+\.(?:antt|rt))`")


def section(page: str, head: str) -> str:
    """What stands below a heading of a page."""
    begin = page.find(head)
    if begin < 0:
        raise Missing(f"{MAP} has no heading {head.strip()}")
    end = page.find(AFTER, begin + len(head))
    return page[begin + len(head) : end if end >= 0 else len(page)]


def rows(text: str, head: str) -> list[list[str]]:
    """The cells of the rows of a text's tables, but for their heads, whose first cell is this."""
    found = [[cell.strip() for cell in row.split("|")] for row in re.findall(r"^\|(.*)\|$", text, re.M)]
    return [row for row in found if row[0] != head and not row[0].startswith("---")]


def layers() -> dict[str, list[str]]:
    """The crates of each layer, as MAP has them, the lowest first; a row without a layer goes on with the last one."""
    found, layer = dict[str, list[str]](), ""
    for row in rows(section(read(MAP), BY_LAYER), "Layer"):
        layer = row[0] or layer
        found.setdefault(layer, []).extend(row[1].split(", "))
    return found


def named_in_vain() -> list[str]:
    """What both pages name and isn't there: crates, files, and the items of crates."""
    known, vain = set(crates()), []
    for page in (MAP, PROVED):
        text = re.sub(r"<!-- (\w+): written.*?<!-- end of \1 -->", "", read(page), flags=re.S)
        for crate, item in re.findall(r"`(dex\w*)::(\w+)", text):
            if not is_there(item, [crate] if crate in known else []):
                vain.append(f"{page} names {crate}::{item}, which isn't there")
        for file in re.findall(r"`(?:specs/|src/)?(\w+\.(?:antt|rt))`", text):
            if file not in names_of_files():
                vain.append(f"{page} names {file}, which isn't there")
        for path in re.findall(r"`((?:tools|docs|bench|contrib|python)/[\w./-]+)[ `]", text):
            if not os.path.exists(path):
                vain.append(f"{page} names {path}, which isn't there")
        for tool, part in re.findall(r"`(tools/(?:try|lint|generate)) ([a-z]+)[ `]", text):
            if not re.search(rf'"{part}": ', read(tool)):
                vain.append(f"{page} names the part {part} of {tool}, which isn't there")
    return vain + crates_in_vain(known) + files_in_vain(known) + promised_in_vain(known) + mistakes_in_vain()


def crates_in_vain(known: set[str]) -> list[str]:
    """The crates that the first tables of MAP name and that aren't there, and those that they don't name and are."""
    named = [name for names in layers().values() for name in names]
    seen = rows(section(read(MAP), TO_SEE), "Crate")
    cells = [re.sub("`[^`]*`", "", row[2]) for row in seen if len(row) == 3]
    rooms = {room for cell in cells for room in re.findall(r"\b[a-z]+_[a-z_]+\b", cell)}
    lost = (set(named) | {row[0] for row in seen} | rooms) - known
    twice = {name for name in named if named.count(name) > 1}
    vain = [f"{MAP} names the crate {name}, which isn't there" for name in sorted(lost)]
    vain += [f"{MAP} names the crate {name} in two layers" for name in sorted(twice)]
    return vain + [f"{MAP} doesn't say what the crate {name} is for" for name in sorted(known - set(named))]


def files_in_vain(known: set[str]) -> list[str]:
    """The files that MAP says are a crate's, and aren't: of the crate before them, or of the last one that their row's
    definition names."""
    vain, defined, home = [], 0, ""
    for row in re.findall(r"^\|(.*)\|$", read(MAP), re.M):
        cells = [cell.strip() for cell in row.split("|")]
        defined = cells.index("Defined") if "Defined" in cells else defined
        words = re.findall(r"\b[a-z]\w*\b", re.sub("`[^`]*`", "", cells[min(defined, len(cells) - 1)]))
        home = next((name for name in reversed(words) if name in known), home)
        for cell in cells:
            crate = home
            for name, file in NAME_OR_FILE.findall(re.sub(r"`[^`.]*`", "", cell)):
                crate = name if name in known else crate
                if file and not any(os.path.exists(f"crates/{crate}/{part}/{file}") for part in ("specs", "specs/inner", "src")):
                    vain.append(f"{MAP} names {file} of {crate}, which isn't there")
    return vain


def without_mistakes(page: str) -> str:
    """PROVED without its table of mistakes."""
    begin = page.index(MISTAKES)
    return page[:begin] + page[page.index("\n\n", begin) :]


def mistakes_in_vain() -> list[str]:
    """The wrong bodies that PROVED names beside a mistake and that the gate doesn't have."""
    page, vain = read(PROVED), []
    table = page[page.index(MISTAKES) :].split("\n\n", 1)[0]
    for row in rows(table, "Mistake"):
        crate = ""
        for name, edit in re.findall(r"(?:(\w+) )?`([\w-]+)`", row[1]):
            crate = name or crate
            if not os.path.exists(f"crates/{crate}/{INSIDE}/{edit}.edit"):
                vain.append(f"{PROVED} names {edit}, which {crate} doesn't have in {INSIDE}/")
    return vain


def is_there(item: str, names: list[str]) -> bool:
    """Whether one of these crates has the word."""
    return any(item in words_of(name) for name in names)


def promised_in_vain(known: set[str]) -> list[str]:
    """The functions, clauses and definitions that PROVED says carry a promise and that its crate doesn't have: of what
    is named without a crate the one before is meant, or any if there is none."""
    vain = []
    for row in re.findall(r"^\| .* \| (.*) \|$", without_mistakes(read(PROVED)), re.M):
        names = sorted(known)
        for word in re.findall(r"`([\w:]+)`", row):
            crate, _, item = word.rpartition("::")
            if crate.split("::")[0] in known:
                names = [crate.split("::")[0]]
            if not is_there(item, names):
                where = names[0] if len(names) == 1 else "no crate"
                vain.append(f"{PROVED} names {word}, which {where} doesn't have")
    return vain
