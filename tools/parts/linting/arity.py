"""The calls in examples of docstrings. Each call in each block of code, of rooms and of the heads of files too, has to
give a function of the crates as many arguments as it takes, and to bind the parts of a result that is a tuple, each by
a name. A call is looked up among the functions of that name in the example's own crate, or where it has none in all.

And the line for `crates.txt` in each program of docs/cookbook in Rattle has to have the crates that the program names.
"""
import collections
import glob
import os
import re
from collections.abc import Iterator
from typing import NamedTuple

from . import Seen

COOKBOOK, PROGRAMS = "docs/COOKBOOK.md", "docs/cookbook/*.rs"
TEXT = r'"(?:\\.|[^"\\])*"'
BRACKET = re.compile(rf"{TEXT}|[()\[\]{{}}]", re.S)
INNERMOST = re.compile(r"\([^()\[\]{}]*\)|\[[^()\[\]{}]*\]|\{[^()\[\]{}]*\}|(?<!-)<[^<>()\[\]{}]*>")
TAKES = re.compile(r"^[ \t]*(?:pub(?:\(\w+\))? )?fn (\w+)(?:<.*?>)?(?=\()", re.M)
IS_SELF = re.compile(r"&?(?:'\w+ )?(?:mut )?self")
CALL = re.compile(r"(?P<dot>\.|::|(?<![\w.:!]))(?P<name>\b[a-z_]\w*)\(")
PROGRAM = re.compile(r"//! `([\w-]+).*\n//!\n//! In crates\.txt: `(\w+): ([\w ]+)`\.\n")


class Takes(NamedTuple):
    """How many arguments a function takes beside self, and how many parts the tuple has that it gives."""

    is_method: bool
    most: int
    parts: int


Known = dict[str, dict[str, set[Takes]]]


def bracket_end(text: str, at: int) -> int | None:
    """Where the bracket ends that a text opens at a place: the place of its last byte, or None."""
    depth = 0
    for found in BRACKET.finditer(text, at):
        depth += {"(": 1, "[": 1, "{": 1, ")": -1, "]": -1, "}": -1}.get(found[0], 0)
        if depth == 0:
            return found.start()
    return None


def parts_of(text: str) -> list[str]:
    """The parts of a list between commas, but for commas in brackets and in texts."""
    without = re.sub(TEXT, "_", text)
    while (shorter := INNERMOST.sub("_", without)) != without:
        without = shorter
    return [part.strip() for part in without.split(",") if part.strip()]


def sources() -> Iterator[tuple[str, str, str]]:
    """The crate, the path and the text of each file of code."""
    for at, folders, files in sorted(os.walk("crates")):
        folders[:] = sorted(it for it in folders if it != "out")
        for name in sorted(files):
            if name.endswith(".rt") and "/src" in at:
                with open(f"{at}/{name}", encoding="utf8") as it:
                    yield at.split("/")[1], f"{at}/{name}", it.read()


def taken_by(code: str, at: int) -> Takes:
    """What the function takes whose bracket opens at this place of its code."""
    end = bracket_end(code, at) or at
    arguments = parts_of(code[at + 1 : end])
    is_method = bool(arguments) and IS_SELF.fullmatch(arguments[0]) is not None
    tuple_at = re.compile(r"\s*->\s*(?:Result<)?(?=\()").match(code, end + 1)
    parts = len(parts_of(code[tuple_at.end() + 1 : bracket_end(code, tuple_at.end())])) if tuple_at else 0
    return Takes(is_method, len(arguments) - is_method, parts)


def functions() -> Known:
    """What each function takes, by name and by crate."""
    known: Known = collections.defaultdict(lambda: collections.defaultdict(set))
    for crate, _, text in sources():
        code = re.sub(r"//.*", "", text)
        for found in TAKES.finditer(code):
            known[found[1]][crate].add(taken_by(code, found.end()))
    return known


def blocks() -> Iterator[tuple[str, str, int, str]]:
    """The crate, the path, the number of the first line and the code without comments of each block of code in a comment."""
    for crate, path, text in sources():
        lines: list[str] | None = None
        first = 0
        for number, line in enumerate(text.splitlines(), 1):
            said = re.match(r"[ \t]*//[/!] ?(.*)", line)
            if said and said[1].startswith("```"):
                if lines is not None:
                    yield crate, path, first, "\n".join(lines)
                lines, first = ([], number + 1) if lines is None else (None, 0)
            elif said and lines is not None:
                lines.append(re.sub(r"//.*", "", said[1]))
            elif not said:
                lines = None


def is_call_right(found: re.Match[str], text: str, takes: Takes) -> bool:
    """Whether a call in this text is one of a function that takes this."""
    end = bracket_end(text, found.end() - 1)
    given = len(parts_of(text[found.end() : end])) if end else -1
    is_taken = given in (takes.most, takes.most + (takes.is_method and found["dot"] != "."))
    if not is_taken or (found["dot"] == "." and not takes.is_method):
        return False
    is_bound = re.match(r"\??;", text[end + 1 :]) if end else None
    bound = re.search(r"\blet (?:mut )?(\w+|\([^()=]*\)) =\s*(?:[\w:]+::)?$", text[: found.start("name")])
    return not (is_bound and bound and takes.parts) or len(parts_of(bound[1].strip("()"))) == takes.parts


def choices_of(known: Known, crate: str, found: re.Match[str]) -> set[Takes]:
    """What the functions take that a call may be one of."""
    homes = known.get(found["name"], {})
    own = homes.get(crate) if found["dot"] != "::" else None
    choices = own or {takes for home in homes.values() for takes in home}
    return {takes for takes in choices if takes.is_method} if found["dot"] == "." else choices


def look_at_calls() -> tuple[int, list[str]]:
    """Looks at each call of each block: how many, and which are wrong."""
    known, looked, wrong = functions(), 0, []
    for crate, path, first, text in blocks():
        for found in CALL.finditer(text):
            choices = choices_of(known, crate, found)
            if not choices or re.search(r"\bfn $", text[: found.start()]):
                continue
            looked += 1
            if not any(is_call_right(found, text, takes) for takes in choices):
                line = first + text[: found.start()].count("\n")
                counts = " or ".join(str(takes.most) for takes in sorted(choices))
                wrong.append(f"{path}:{line}: {found['name']} takes {counts}, or is bound otherwise")
    return looked, wrong


def repository_crates() -> set[str]:
    with open("crates.txt", encoding="utf8") as it:
        return {line.split(":")[0].split()[0] for line in it if ":" in line and not line.startswith("#")}


def module_name(program: str) -> str:
    return program.replace("-", "_")


def crates_used(lines: list[str], known: set[str]) -> list[str]:
    """The crates that lines of code name: those of `use` lines, and those of paths."""
    named = [re.findall(r"\b([a-z]\w*)::|^use (\w+)", line.split("//")[0]) for line in lines]
    return sorted({word for found in named for words in found for word in words if word in known})


def programs() -> dict[str, str]:
    """The texts of the cookbook's programs in Rattle, by path."""
    found = dict[str, str]()
    for path in sorted(glob.glob(PROGRAMS)):
        with open(path, encoding="utf8") as it:
            found[path] = it.read()
    return found


def look_at_lines(known: set[str] | None = None) -> tuple[int, list[str]]:
    """Whether each program of the cookbook names the crates that it uses: of how many, and which don't. Without the
    toolchain's crates only those here, and those of the line, are known."""
    found, wrong = programs(), []
    for path, text in found.items():
        head = PROGRAM.match(text)
        name, said = (head[2], head[3].split()) if head else ("", [])
        used = crates_used(text.splitlines(), known or repository_crates() | set(said))
        if head is None or module_name(head[1]) != name or said != used:
            wrong.append(f"{path}: crates.txt has {name}: {' '.join(said)}, and it uses {' '.join(used)}")
    if not found:
        wrong.append(f"{PROGRAMS}: no program is there")
    return len(found), wrong


def look() -> Seen:
    looked, wrong = look_at_calls()
    programs, more = look_at_lines()
    return Seen(wrong + more, f"{looked} calls in examples, {programs} lines of crates.txt")
