"""What a promise rests on: the definitions that the clauses of a contract name, those that these name, and so on.

A definition is reached by its name, in its own file or through an import. A name that a definition binds itself (an
argument, a field, what λ or let binds) is none of these, nor is a field after a dot. The lines of a definition are
counted without blanks, comments and imports.
"""
import functools
import re
from collections.abc import Iterable, Iterator
from typing import NamedTuple

from .definitions import File, Owner, Owners, owners_of, read_files
from .generating.tree import crates

WORDS = re.compile(r"[^\s(){}\[\],;:λ→=\"`|×¬.]+(?:\.[^\s(){}\[\],;:λ→=\"`|×¬.]+)*")
VARIABLE = re.compile(r"[a-zα-ω]['₀-₉a-z_0-9]*$")
CLAUSE = re.compile(r"\s*(?:ensures|requires)\s*(\w+)?\s*(\{)?")
BINDERS = (
    re.compile(r"[({]([^(){}:]+?)\s:"),
    re.compile(r"λ ([^.]*)\."),
    re.compile(r"(?m)^\s*let\s+(\S+)"),
)
FIELDS = re.compile(r"(?m)^\s+(?:pub )?([^\s(){}:,;]+)\s*:")

# The crates that users name; libdexasm isn't one for programs in Rattle.
FRONTS = (
    *("dex_base", "dex_insn", "dex_program", "dex_names", "dex_container", "dex_tables", "dex_value", "dex_code"),
    *("dex_file", "dex_listing", "dexasm_command"),
)
LIBRARY = "dexasm_c"
# Where the theorems beside the contracts of calls stand.
THEOREMS = (
    ("crates/file_write/src/laws.rt", "written_is_read"),
    ("crates/file_write/src/laws.rt", "one_file"),
    ("crates/file_write/src/laws.rt", "stripped_alike_exactly_if_meaning_alike"),
    ("crates/file_write/src/laws.rt", "stripped_stays"),
    ("crates/file_strip/src/least_laws.rt", "no_refusal_in_vain"),
    ("crates/dexasm_run/src/laws.rt", "one_outcome"),
    ("crates/dexasm_run/src/laws.rt", "one_answer"),
    ("crates/listing_laws/src/laws.rt", "what_is_printed_is_read_again"),
    ("crates/dexasm_command/src/laws.rt", "out_is_never_lost"),
    ("crates/dexasm_command/src/laws.rt", "statuses_have_meanings"),
)


class Rests(NamedTuple):
    """How much a promise rests on."""

    definitions: int
    lines: int
    files: int
    crates: int


class Definitions:
    """All files, and what each of their definitions names."""

    def __init__(self) -> None:
        self.files: dict[str, File] = read_files()
        self.owners: Owners = owners_of(self.files)

    def contract(self, path: str, name: str) -> list[str]:
        """A public function from its head to its body."""
        lines = self.files[path].lines
        begin = next(i for i, line in enumerate(lines) if re.match(rf"\s*pub fn {name}\b", line))
        body = len(lines[begin]) - len(lines[begin].lstrip())
        end = next(i for i in range(begin, len(lines)) if re.match(rf" {{{body}}}(?:{{|{{}})$", lines[i]))
        return lines[begin:end]

    def clauses(self, path: str, name: str, labels: Iterable[str] | None = None) -> str:
        """The clauses of a public function, or those with these labels."""
        found, is_one = [], False
        for line in self.contract(path, name):
            head = CLAUSE.match(line)
            if head:
                is_one = labels is None or (head[1] or "") in labels
            if is_one:
                found.append(line)
        return "\n".join(found)

    def named_in(self, one: File, text: str, bound: set[str]) -> Iterator[Owner | None]:
        """The definitions that a text of a file names, but for the names that it binds."""
        for word in WORDS.finditer(text):
            name, *members = word[0].split(".")
            if name in bound:
                continue
            if name in one.aliases and members:
                yield self.owners.get((one.aliases[name], members[0]))
            elif name in one.names:
                yield self.owners.get(one.names[name])
            else:
                yield self.owners.get((one.path, name))
        for name, there in [*one.names.items(), *((block, (one.path, block)) for block in one.blocks)]:
            if "◌" in name and all(part in text for part in name.split("◌")):
                yield self.owners.get(there)

    def named_by(self, owner: Owner) -> Iterator[Owner]:
        """The definitions that a definition names."""
        one = self.files[owner[0]]
        text = one.text_of(owner[1])
        bound = bound_in(one, owner[1], text)
        for part, fields in by_field(one, owner[1], text):
            yield from filter(None, self.named_in(one, part, bound | fields))

    def named_in_clauses(self, path: str, text: str) -> Iterator[Owner]:
        bound = {name for binder in BINDERS for part in binder.findall(text) for name in part.split()}
        yield from filter(None, self.named_in(self.files[path], text, {name for name in bound if VARIABLE.match(name)}))

    def reached(self, begins: Iterable[Owner]) -> set[Owner]:
        """All that is reached from these, with them."""
        found, left = set[Owner](), list(begins)
        while left:
            owner = left.pop()
            if owner not in found and "/specs/" in owner[0]:
                found.add(owner)
                left.extend(self.named_by(owner))
        return found

    def lines_of(self, owner: Owner) -> int:
        return sum(1 for line in self.files[owner[0]].text_of(owner[1]).split("\n") if line.strip())

    def rests(self, reached: set[Owner]) -> Rests:
        files = {path for path, _ in reached}
        return Rests(len(reached), sum(map(self.lines_of, reached)), len(files), len({path.split("/")[1] for path in files}))

    def in_order(self, reached: set[Owner]) -> list[tuple[str, list[str]]]:
        """The files of what is reached, in the order in which one reads them, and the definitions of each: what is named stands before
        what names it."""
        by_file = dict[str, list[str]]()
        for path, name in sorted(reached, key=lambda owner: (owner[0], self.files[owner[0]].blocks[owner[1]][0][0])):
            by_file.setdefault(path, []).append(name)
        found = dict[str, list[str]]()

        def add(path: str) -> None:
            for below in sorted({there for there, _ in self.files[path].names.values()} | set(self.files[path].aliases.values())):
                if below in by_file and below not in found and crate_of(below) == crate_of(path):
                    add(below)
            found.setdefault(path, by_file[path])

        for crate in crates():
            for path in by_file:
                if crate_of(path) == crate:
                    add(path)
        return list(found.items())

    def exported(self, front: str) -> Iterator[tuple[str, str]]:
        """The items that a front hands on or has, each by the crate in which it stands."""
        text = "\n".join(self.files[f"crates/{front}/src/lib.rt"].lines)
        for crate, several, one in re.findall(r"(?m)^pub use (\w+)::(?:\{([^}]*)\}|(\w+));", text):
            for name in re.findall(r"\w+", several or one):
                yield (crate if crate in crates() else front), name
        for name in re.findall(r'(?m)^pub extern "C" fn (\w+)', text):
            yield front, name

    def promised_by(self, front: str) -> Iterator[Owner]:
        """What the public contracts of a front name."""
        for crate, name in self.exported(front):
            for path, one in self.files.items():
                if path.startswith(f"crates/{crate}/src/"):
                    for text in said_of(one, name):
                        yield from self.named_in_clauses(path, text)

    def promised(self) -> set[Owner]:
        """What the public contracts of all fronts name, and the theorems."""
        found = {owner for front in (*FRONTS, LIBRARY) for owner in self.promised_by(front)}
        for path, name in THEOREMS:
            found.update(self.named_in_clauses(path, self.clauses(path, name)))
        return found


def said_of(one: File, name: str) -> Iterator[str]:
    """What a file of code says of an item: the clauses of a function, of what is implemented for a type, of a trait."""
    function = re.compile(rf'pub (?:const |extern "C" )?fn {name}\b')
    block = re.compile(rf"(?:impl\b.*\b{name}\b.*|pub trait {name}\b.*)\{{$")
    for begin, line in enumerate(one.lines):
        if function.match(line):
            yield clauses_in(up_to(one.lines, begin, {"{", "{}"}))
        elif block.match(line):
            yield clauses_in(up_to(one.lines, begin, {"}"}))


def up_to(lines: list[str], begin: int, ends: set[str]) -> list[str]:
    """The lines behind one, up to the first of these."""
    return lines[begin + 1 : next(i for i in range(begin, len(lines)) if lines[i] in ends)]


def clauses_in(lines: list[str]) -> str:
    """The clauses and ghost members among lines of code."""
    found, is_one = [], False
    for line in lines:
        if re.match(r"\s*(?:ensures|requires|ghost (?!use))", line):
            is_one = True
        elif not line.strip() or re.match(r"\s*(?:\{|\{\}|pub|fn|///|#\[)(?:\s|$)", line):
            is_one = False
        if is_one:
            found.append(line)
    return "\n".join(found)


def crate_of(path: str) -> str:
    return path.split("/")[1]


def bound_in(one: File, name: str, text: str) -> set[str]:
    """The names that a definition binds itself."""
    bound = {word for binder in BINDERS for part in binder.findall(text) for word in re.findall(r"[^\s(){},]+", part)}
    for line in text.split("\n"):
        head = re.match(rf"\s*{re.escape(name)}\s([^=≡:]*)\s=(?:\s|$)", line)
        bound.update(re.findall(r"[^\s(){},.]+", head[1]) if head else ())
    return {word for word in bound if VARIABLE.match(word)}


def by_field(one: File, name: str, text: str) -> Iterator[tuple[str, set[str]]]:
    """The parts of a definition, each with the fields that are bound there: of a record a field is in what comes after
    it, so its own type may name a definition that is called as it is."""
    if all(kind not in ("record", "data") for _, _, kind in one.blocks[name]):
        yield text, set()
        return
    ends = [found.start() for found in FIELDS.finditer(text)]
    fields: set[str] = set()
    for begin, end in zip([0, *ends], [*ends, len(text)]):
        part = text[begin:end]
        found = FIELDS.match(part)
        behind = part[found.end() :] if found else part
        yield behind, set(fields)
        if found and VARIABLE.match(found[1]):
            fields.add(found[1])


@functools.cache
def definitions() -> Definitions:
    return Definitions()
