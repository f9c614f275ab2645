"""docs/FILES.md, and the tables of docs/MAP.md that tools/generate writes."""
import re

from .tree import (
    Function, above, callers_of, calls_of, crates, edits_by_function, files_of, first_line, function_at, lines_of,
    lines_of_crate, read,
)

RESERVED = {"NOT_YET"}  # faults that are never answered
NO_ANSWERS = {"dex_base", "bench"}  # crates that name faults and answer none of the table
# How definitions name the number of a fault.
NUMBER = (
    r"(?:\bon [\w.]+|Breaks N c|BreaksLimit N c|Breaks b i|differences k|LimitBreaks p|code =|code ≡|broken|base"
    r"|slot s then|else(?= \d\d)|code_of \w+ =) (\d+)\b(?! [-+*/])"
)
HEAD = """# Faults, one by one

This page has, for each fault, its definition, the function that returns it, its tests and its wrong bodies.
[MAP](MAP.md) has the rules by the headings of FORMAT and LISTING.

## Faults

Wrong bodies change a function that returns the fault, otherwise one that it calls or that calls it. Those in italics
are in `more-wrong-bodies/`; the gate tries the others.

| Fault | Defined | Returned | Tests | Wrong bodies |
|---|---|---|---|---|
"""
END = "\n---\n\nBack to the [README](../README.md).\n"


def faults() -> dict[int, tuple[str, str]]:
    """The faults by number: their names in the code and in answers."""
    names = dict(re.findall(r"row!\(fault::(\w+), \"(\w+)\"", read("crates/dex_base/src/fault_names.rt")))
    consts = re.findall(r"pub const (\w+): u16 = (\d+);", read("crates/dex_base/src/fault.rt"))
    return {int(number): (const, names[const]) for const, number in consts}


class Places:
    """Where each fault is defined, answered and tested, and which functions answer it."""

    def __init__(self) -> None:
        self.known = faults()
        self.by_const = {const: number for number, (const, _) in self.known.items()}
        self.defined: dict[int, list[str]] = {it: [] for it in self.known}
        self.answered: dict[int, list[str]] = {it: [] for it in self.known}
        self.tested: dict[int, list[str]] = {it: [] for it in self.known}
        self.functions: dict[int, list[Function]] = {it: [] for it in self.known}
        for name in crates():
            for path in files_of(name):
                self.add_file(name, path)

    def numbers(self, crate: str, path: str, line: str) -> list[int]:
        """The faults that a line of a file names."""
        if path.endswith(".antt"):
            found = [int(number) for number in re.findall(NUMBER, line)] if crate != "dex_base" else []
        else:
            consts = re.findall(r"\bfault::(\w+)", line) if crate not in NO_ANSWERS else []
            found = [self.by_const[const] for const in consts if const in self.by_const]
        return [number for number in found if number in self.known]

    def add_file(self, crate: str, path: str) -> None:
        text = read(path)
        begins = [0, 0, *(found.end() for found in re.finditer("\n", text))]  # where each line begins, from line 1 on
        place = self.defined if path.endswith(".antt") else self.tested if crate.endswith("_tests") else self.answered
        for at, line in lines_of(path):
            for number in self.numbers(crate, path, line):
                if place is self.answered:
                    self.functions[number].append((path, function_at(text, begins[at])))
                shown = path[len("crates/") :]
                if place is self.answered and (name := function_at(text, begins[at])):
                    shown += f" `{name}`"
                if shown not in place[number]:
                    place[number].append(shown)


def rows_of_faults() -> tuple[str, list[str]]:
    """The rows of the table of faults, and which faults no definition or no function has."""
    places, bodies, missing, out = Places(), edits_by_function(), [], []
    for number, (const, name) in sorted(places.known.items()):
        if const in RESERVED:
            continue
        if not places.defined[number] or not places.answered[number]:
            what = "answered by no function" if places.defined[number] else "defined nowhere"
            missing.append(f"fault {number} {name} is {what}")
        tried = bodies_near(places.functions[number], bodies)
        parts = places.defined[number], places.answered[number], places.tested[number], tried
        out.append(f"| {number} {name} | {' | '.join('<br>'.join(part) for part in parts)} |\n")
    return "".join(out), missing


def share(names: set[str], lines: dict[str, int]) -> str:
    """How much of all lines these crates have."""
    part = round(100 * sum(lines[name] for name in names) / sum(lines.values()))
    return f"{part} %" if part else "less than 1 %"


def bodies_near(functions: list[Function], bodies: dict[Function, list[str]]) -> list[str]:
    """The wrong bodies of these functions; if they have none, of those that they call in two steps, or else of those that
    call them so."""
    for steps in (calls_of, callers_of):
        near, found = functions, list[str]()
        for _ in range(3):
            found += [edit for function in near for edit in bodies.get(function, [])]
            if found and steps is calls_of:
                break
            near = list(dict.fromkeys(other for function in near for other in steps(function)))
        if found:
            return list(dict.fromkeys(found))
    return []


def list_of_files() -> str:
    """What each file of specs/ and src/ holds, as its first line says."""
    return "".join(f"{path}: {first_line(path)}\n" for name in crates() for path in files_of(name))


def files_page() -> tuple[str, list[str]]:
    """docs/FILES.md, and what is missing in the tree."""
    rows, missing = rows_of_faults()
    paths = [path for name in crates() for path in files_of(name)]
    missing += [f"a file opens with no comment: {path}" for path in paths if first_line(path) == "?"]
    return HEAD + rows + END, missing


def costs(layers: dict[str, list[str]]) -> str:
    """The table of what a change in a layer has proved again, from its lowest crate up."""
    lines, upper = {name: lines_of_crate(name) for name in crates()}, above()
    out = ["\n| Layer | Lines in it | Crates above its lowest | Proved again with these |\n|---|---|---|---|\n"]
    for layer, names in layers.items():
        lowest = max(names, key=lambda name: len(upper[name]))
        count = sum(lines[name] for name in names)
        out.append(f"| {layer} | {count:,} | {len(upper[lowest])} | {share({lowest} | upper[lowest], lines)} |\n")
    return "".join(out) + "\n"
