"""The lemmas and definitions below crates/*/proofs and crates/*/specs that nothing reaches, the imports that nothing uses
or whose module doesn't stand in the crate that they name, the entries of crates.txt that no file of their crate names,
and public functions that only tests call.

What reaches: contracts and tactics in *.rt, and what answers a goal (Answers.antt, Invariants.antt, Proof.antt). From
there it follows names file by file, through imports; where a name could be either of two it takes both. It is found too
if crates.txt has more than MOST_PATHS paths from a crate down to one that lists none: some builds of the toolchain walk
each of them.
"""
import collections
import functools
import os
import re
from collections.abc import Iterator

from .. import TOP
from ..definitions import WORD, File, Owner, Owners, handed_on_in, named_in, owners_of, read_files
from . import Seen

CITED = re.compile(r"(?:using|unfolding|simp|with|rewriting)\(([^()]*)\)")
MOST_PATHS = 67000
# The crates that hand on what stands in the crates that they are made of.
FRONTS = {"dex_program", "dex_tables", "dex_code", "dex_file", "dex_listing", "dexasm_command"}
# What only these call is called by nothing.
APART = re.compile(r"crates/(?:\w+_(?:tests|samples)|bench|example)/")
# The crate that has what is promised.
SURFACE = "crates/surface_tests/"
# What is for those who use the library: to compare names, to put them into an arena, and to ask a program's rules by hash.
FOR_USERS = {"str_eq", "proto_eq", "field_ref_eq", "method_ref_eq", "field_ref_cmp", "method_ref_cmp", "alloc_descs", "alloc_proto"}
FOR_USERS |= {"well_formed_in"}
# What rattle makes of a file of code: its types and contracts, and of a function its goals.
MADE = re.compile(r"specs\.(?:declared|contracts)\.(\w+)|proofs\.(\w+)\..*\b(?:Goals|Given|Statement|Code)$")



def roots_of(files: dict[str, File], owners: Owners) -> Iterator[Owner | None]:
    by_name = collections.defaultdict(list)
    for (_, name), owner in owners.items():
        by_name[name].append(owner)
    for path, one in files.items():
        if one.is_root:
            yield from named_in(one, one.body, owners)
        for cited in CITED.findall(one.body) if one.is_code else ():
            for name in cited.split(","):
                yield from by_name[name.strip().split("::")[-1]]
        for block in one.blocks:
            if " " in block or "◌" in block:
                yield (path, block)


def reached_of(files: dict[str, File], owners: Owners) -> set[Owner]:
    reached, left = set(), [it for it in roots_of(files, owners) if it]
    while left:
        owner = left.pop()
        if owner not in reached:
            reached.add(owner)
            one = files[owner[0]]
            left.extend(it for it in named_in(one, one.text_of(owner[1]), owners) if it)
    return reached


def is_named(name: str, one: File, words: set[str]) -> bool:
    return all(part in one.body for part in name.split("◌")) if "◌" in name or name == "[]" else name in words


def read_crates() -> dict[str, list[str]]:
    """The entries of each crate in crates.txt."""
    with open(os.path.join(TOP, "crates.txt"), encoding="utf-8") as it:
        lines = [line.split("#")[0].partition(":") for line in it if line.split("#")[0].strip()]
    return {head.split()[0]: entries.split() for head, _, entries in lines}


def astray(files: dict[str, File], crates: dict[str, list[str]]) -> Iterator[str]:
    """Imports of modules that don't stand in the crate that they name, what is handed on, entries that no file of their crate names, and
    too many paths."""
    named, handed_on = collections.defaultdict(set), handed_on_in(files)
    for path, one in sorted(files.items()):
        if path.endswith("/src/lib.rt") and path.split("/")[1] not in FRONTS:
            yield from (f"{path}: hands on what stands in {of}" for of in re.findall(r"(?m)^pub use (\w+)::", one.body) if of in crates)
        named[path.split("/")[1]].update(re.findall(r"\b([a-z]\w*)(?:::|\.(?:specs|proofs)\b)", "\n".join(one.lines)))
        for i, _, module, _, _ in one.imported():
            steps = module.split(".")[1:]
            if len(steps) < 2 or steps[0] not in crates:
                continue
            made = MADE.match(".".join(steps[1:]))
            file = f"crates/{steps[0]}/src/{made.group(1) or made.group(2)}.rt" if made else f"crates/{'/'.join(steps)}.antt"
            if file not in files and file not in handed_on:
                yield f"{path}:{i + 1}: no {'.'.join(steps[1:])} stands in {steps[0]}"
    for name, entries in crates.items():
        yield from (f"crates.txt: no file of {name} names {entry}" for entry in entries if entry not in named[name] | {"staticlib"})

    @functools.cache
    def paths_below(name: str) -> int:
        return 1 + sum(paths_below(entry) for entry in crates[name] if entry in crates)

    paths = sum(paths_below(name) for name in crates)
    if paths > MOST_PATHS:
        yield f"crates.txt: {paths} paths, more than {MOST_PATHS}"


def code_of(one: File) -> Iterator[tuple[int, str]]:
    """The lines of a file of code, but for imports, comments and contracts."""
    for i, line in enumerate(one.lines):
        if i not in one.uses and not re.match(r"\s*(?://|ghost |requires|ensures|pub use )", line):
            yield i, line


def uncalled(files: dict[str, File]) -> Iterator[str]:
    """Public functions that no crate of the product calls, and that aren't promised. A law has no body, or stands among laws; what a
    function of the same name calls is called by nobody else yet."""
    known = FOR_USERS | {word for path, one in files.items() if path.startswith(SURFACE) for word in re.findall(r"\w+", "\n".join(one.lines))}
    public, called = {}, set()
    for path, one in sorted(files.items()):
        if not one.is_code or APART.match(path):
            continue
        inside = ""
        for i, line in code_of(one):
            head = re.match(r"\s*(?:pub(?:\(crate\))? )?fn (\w+)", line)
            inside = head.group(1) if head else inside
            called |= set(re.findall(r"\w+", line)) - {inside}
            ends = next((each.strip() for each in one.lines[i:] if each.rstrip().endswith(("{", "{}"))), "")
            if head and line.lstrip().startswith("pub fn") and ends != "{}" and not path.endswith("laws.rt"):
                public[head.group(1)] = f"{path}:{i + 1}"
    yield from (f"{place}: nothing calls {name}" for name, place in public.items() if name not in called | known)


def look() -> Seen:
    files = read_files()
    owners = owners_of(files)
    reached = reached_of(files, owners)
    found = [*astray(files, read_crates()), *uncalled(files)]
    for path, one in sorted(files.items()):
        for block, parts in one.blocks.items():
            if (path, block) not in reached and " " not in block and re.search(r"/(proofs|specs)/", path):
                found.append(f"{path}:{parts[0][0] + 1}: {block} is used by nothing")
        if not one.is_code and not path.endswith("/Lib.antt"):
            mentioned = set(WORD.findall(one.body))
            found += [f"{path}:{i + 1}: {here} is imported and not used" for i, here, _, _, is_public in one.imported() if not is_public and not is_named(here, one, mentioned)]
    return Seen(found, f"{sum(len(one.blocks) for one in files.values())} definitions and lemmas")
