"""The tree as tools/generate reads it: crates, what they stand on, files, functions, wrong bodies. Paths begin at the top of
the repository."""
import collections
import functools
import glob
import os
import re
from collections.abc import Iterator

from .. import sought

# A function from its head to the brace that ends it, which stands where the head begins.
FUNCTION = re.compile(r"^([ \t]*)(?:pub(?:\(\w+\))? )?fn (\w+).*?^\1\}$", re.M | re.S)
INSIDE, OUTSIDE = "must-fail", "more-wrong-bodies"
Function = tuple[str, str | None]  # its file, and its name


@functools.cache
def read(path: str) -> str:
    with open(path, encoding="utf8") as file:
        return file.read()


@functools.cache
def stands_on() -> dict[str, list[str]]:
    """Each crate of crates.txt, in its order, with the crates that it uses; libraries from elsewhere left out."""
    rows = [line.split(":", 1) for line in read("crates.txt").split("\n") if ":" in line and not line.startswith("#")]
    names = {row[0].split()[0]: row[1].split() for row in rows}
    return {name: [other for other in used if other in names] for name, used in names.items()}


def crates() -> list[str]:
    return list(stands_on())


def closed(edges: dict[str, list[str]], name: str) -> set[str]:
    """All that can be reached from there."""
    found: set[str] = set()
    left = list(edges[name])
    while left:
        one = left.pop()
        if one not in found:
            found.add(one)
            left += edges[one]
    return found


def above() -> dict[str, set[str]]:
    """The crates that stand on each crate, on others between or not."""
    found: dict[str, set[str]] = collections.defaultdict(set)
    for name in crates():
        for other in closed(stands_on(), name):
            found[other].add(name)
    return {name: found[name] for name in crates()}


def lines_of_crate(name: str) -> int:
    """How many lines of code, definitions and proofs a crate has."""
    paths = glob.glob(f"crates/{name}/src/**/*.rt", recursive=True)
    for part in ("specs", "proofs"):
        paths += glob.glob(f"crates/{name}/{part}/**/*.antt", recursive=True)
    return sum(read(path).count("\n") for path in paths)


@functools.cache
def files_of(name: str) -> list[str]:
    """The files of a crate's specs/ and src/."""
    kinds = ("specs", "antt"), ("src", "rt")
    found = [glob.glob(f"crates/{name}/{part}/**/*.{end}", recursive=True) for part, end in kinds]
    return [path for paths in found for path in sorted(paths) if os.path.basename(path) != "Lib.antt"]


@functools.cache
def words_of(name: str) -> set[str]:
    """The words of a crate's code and definitions."""
    return {word for path in files_of(name) for word in re.findall(r"\w+", read(path))}


@functools.cache
def names_of_files() -> set[str]:
    """The names of all files of code and definitions."""
    folders = glob.glob("crates/*/specs/") + glob.glob("crates/*/src/")
    return {name for folder in folders for _, _, names in os.walk(folder) for name in names}


def first_line(path: str) -> str:
    """The comment that a file opens with, up to the first full stop."""
    lines = []
    for line in read(path).split("\n"):
        comment = re.match(r"\s*(?://!|///|//|--)\s?(.*)", line)
        if not comment:
            break
        lines.append(comment[1].strip())
    text = " ".join(lines).split("```")[0]
    text = re.split(r"(?<=[a-z0-9)\"`])\.(?:\s|$)", text + " ")[0].strip().rstrip(".:")
    return text.replace("|", "\\|") or "?"


def lines_of(path: str) -> Iterator[tuple[int, str]]:
    """The lines of a file that are no comments, with their numbers."""
    for number, line in enumerate(read(path).split("\n"), 1):
        if not line.lstrip().startswith(("--", "//")):
            yield number, line


@functools.cache
def functions(text: str) -> list[tuple[int, int, str]]:
    """Where each function of a text begins and ends, and its name."""
    return [(found.start(), found.end(), found[2]) for found in FUNCTION.finditer(text)]


def function_at(text: str, place: int) -> str | None:
    """The name of the function that a place of a file's text stands in, if it stands in one."""
    return next((name for begin, end, name in functions(text) if begin <= place < end), None)


def edits(folder: str) -> Iterator[tuple[str, str, str]]:
    """The name, the text and the changed file of each wrong body in folders of this name."""
    for path in sorted(glob.glob(f"crates/*/{folder}/*.edit")):
        text = read(path)
        file = f"crates/{path.split('/')[1]}/{sought(r'^file: (.*)$', text, re.M)[1].strip()}"
        yield os.path.basename(path)[: -len(".edit")], text, file


def edits_by_function() -> dict[Function, list[str]]:
    """The names of the wrong bodies of each function, (file, function): the gate's, then the others in italics."""
    found: dict[Function, list[str]] = collections.defaultdict(list)
    for folder, shown in ((INSIDE, "{}"), (OUTSIDE, "*{}*")):
        for name, text, file in edits(folder):
            code = read(file)
            for old in re.findall(r"^old: (.*)$", text, re.M):
                bodies = found[file, function_at(code, code.find(old))]
                if shown.format(name) not in bodies:
                    bodies.append(shown.format(name))
    return found


@functools.cache
def code_of(name: str) -> dict[str, list[tuple[str, str]]]:
    """The functions of a crate by their names, each with its file and its body."""
    found: dict[str, list[tuple[str, str]]] = collections.defaultdict(list)
    for path in files_of(name):
        if path.endswith(".rt"):
            text = read(path)
            for begin, end, function in functions(text):
                found[function].append((path, text[text.find("{", begin, end) : end]))
    return found


@functools.cache
def calls_of(function: Function) -> list[Function]:
    """The functions of the same crate that a function calls."""
    file, name = function
    known = code_of(file.split("/")[1])
    bodies = [body for path, body in known.get(name or "", []) if path == file]
    called = [word for body in bodies for word in re.findall(r"\b(\w+)\(", body) if word != name]
    return [(path, word) for word in dict.fromkeys(called) for path, _ in known.get(word, [])]


@functools.cache
def callers_of(function: Function) -> list[Function]:
    """The functions of the same crate that call a function."""
    crate = function[0].split("/")[1]
    every = [(path, name) for name, places in code_of(crate).items() for path, _ in places]
    return [other for other in every if function in calls_of(other)]
