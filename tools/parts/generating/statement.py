"""docs/STATEMENT.md's quotations of contracts and its table of what each promise rests on, those of docs/READING-PROOFS.md,
and docs/DEFINITIONS.md, which lists the definitions of four promises in the order in which one reads them. `tools/generate statement PROMISE` prints
the definitions themselves."""
from collections.abc import Iterator, Sequence
from textwrap import wrap
from typing import NamedTuple

from ..believed import Definitions, Rests, crate_of, definitions
from ..definitions import Owner
from .making import Made, Missing
from .tree import read

PAGE, LISTS, READING = "docs/STATEMENT.md", "docs/DEFINITIONS.md", "docs/READING-PROOFS.md"
READ, CHECK = ("crates/file_read/src/reading.rt", "read"), ("crates/file_read/src/checking.rt", "check")
WRITE, STRIP = ("crates/file_write/src/writing.rt", "write"), ("crates/file_write/src/writing.rt", "strip")
PARSE, PRINT = ("crates/listing_parse/src/listing.rt", "parse"), ("crates/listing_print/src/blocks.rt", "print")
SERVE = ("crates/dexasm_command/src/serving.rt", "serve")
LAWS = "crates/file_write/src/laws.rt"
# What the page quotes, by the names of the places.
QUOTED = {
    "read": READ,
    "write": WRITE,
    "check": CHECK,
    "strip": STRIP,
    "written_is_read": (LAWS, "written_is_read"),
    "one_file": (LAWS, "one_file"),
    "stripped_alike": (LAWS, "stripped_alike_exactly_if_meaning_alike"),
    "no_refusal_in_vain": ("crates/file_strip/src/least_laws.rt", "no_refusal_in_vain"),
    "one_outcome": ("crates/dexasm_run/src/laws.rt", "one_outcome"),
    "answer": ("crates/dexasm_run/src/answers.rt", "answer"),
    "printed_is_read": ("crates/listing_laws/src/laws.rt", "what_is_printed_is_read_again"),
    "parse": PARSE,
    "print": PRINT,
    "out_is_never_lost": ("crates/dexasm_command/src/laws.rt", "out_is_never_lost"),
}
# The definitions that some of these only name.
SAID_BY = {
    "one_outcome": ("crates/dexasm_run/specs/Once.antt", "OneOutcome"),
    "out_is_never_lost": ("crates/dexasm_command/specs/Statuses.antt", "OutIsNeverLost"),
}
# What docs/READING-PROOFS.md takes apart: a contract, a definition and a proof.
LAW = ("crates/dex_container/src/laws.rt", "one_fault")
DEFINITION = ("crates/dex_container/specs/Faults.antt", "IsFrameFault")
PROOF = "crates/dex_container/proofs/OneFault.antt"
MEANS = ("crates/file_read/specs/Means.antt", "Means")
IN_MEMORY = ("crates/program_types/specs/View.antt", "program")
FORMED = ("crates/program_rules/specs/WellFormed.antt", "WellFormed")
TEXT = ("crates/listing_parse/specs/Texts.antt", "ListingText")
FITS = ("crates/file_limits/specs/Limits.antt", "Fits")
LEAST, PACKED = ("crates/file_write/specs/Least.antt", "HoldsExactly"), ("crates/file_write/specs/Packed.antt", "Packed")


class Promise(NamedTuple):
    """What is promised, the calls in whose contracts it stands, and the definitions that say it."""

    said: str
    calls: tuple[tuple[str, str], ...] = ()
    definitions: tuple[Owner, ...] = ()


# The rows of the table.
PROMISES = (
    Promise("a file is accepted if and only if the format relates a program to it", definitions=(MEANS,)),
    Promise("and a well-formed program that fits is written and reads back", definitions=(MEANS, IN_MEMORY, FORMED, FITS)),
    Promise("and its file has exactly the needed names, and is packed", definitions=(MEANS, IN_MEMORY, FORMED, FITS, LEAST, PACKED)),
    Promise("all that `read`, `write` and `strip` promise, with each refusal", (READ, WRITE, STRIP)),
    Promise("a text is a listing of a well-formed program (`ListingText`)", definitions=(TEXT, FORMED)),
    Promise("all that `parse` promises", (PARSE,)),
    Promise("all that `print` promises", (PRINT,)),
    Promise("all six calls", (READ, CHECK, WRITE, STRIP, PARSE, PRINT)),
    Promise("the whole command", (SERVE,)),
)
# The lists: each has what those before it don't have. The last has what the theorems on the command name besides.
READ_IN_ORDER = {
    "means": PROMISES[0], "packed": PROMISES[2], "listing": Promise("listings", (PARSE, PRINT)),
    "command": Promise("the command", (SERVE,), tuple(SAID_BY.values())),
}  # fmt: skip


def reached(known: Definitions, promise: Promise) -> set[Owner]:
    begins = list(promise.definitions)
    for path, name in promise.calls:
        begins += known.named_in_clauses(path, known.clauses(path, name))
    return known.reached(begins)


def placed(page: str, name: str, text: str, path: str = PAGE) -> str:
    """The page with the text at the place that has this name."""
    marks = f"<!-- {name}: written by tools/generate -->\n", f"<!-- end of {name} -->\n"
    begin, end = (page.find(mark) for mark in marks)
    if begin < 0 or end < begin:
        raise Missing(f"{path} has no place for {name}")
    return page[:begin] + marks[0] + text + page[end:]


def quoted(known: Definitions, name: str) -> str:
    """A contract, and the definition that it only names."""
    path, function = QUOTED[name]
    lines = [line.rstrip() for line in known.contract(path, function)]
    if name in SAID_BY:
        there, definition = SAID_BY[name]
        lines += ["", *known.files[there].text_of(definition).strip().split("\n")]
    return f"[{crate_of(path)}](../{path})\n\n{block('rust', lines)}"


def block(kind: str, lines: Sequence[str]) -> str:
    return f"```{kind}\n" + "\n".join(lines) + "\n```\n"


def table(known: Definitions) -> str:
    lines = ["| Promise | Definitions | Lines | Files | Crates |", "|---|---|---|---|---|"]
    for promise in PROMISES:
        rests: Rests = known.rests(reached(known, promise))
        lines.append(f"| {promise.said} | {rests.definitions:,} | {rests.lines:,} | {rests.files} | {rests.crates} |")
    return "\n".join(lines) + "\n"


def statement(known: Definitions) -> str:
    page = placed(read(PAGE), "rests", table(known))
    for name in QUOTED:
        page = placed(page, name, quoted(known, name))
    return page


def reading(known: Definitions) -> str:
    """docs/READING-PROOFS.md with the law, the definition and the proof of today."""
    path, name = DEFINITION
    defined = known.files[path].text_of(name).strip().split("\n")
    proof = [line for line in read(PROOF).strip().split("\n") if not line.startswith(("--", "use "))]
    page = placed(read(READING), "law", block("rust", [line.rstrip() for line in known.contract(*LAW)]), READING)
    page = placed(page, "definition", block("text", defined), READING)
    return placed(page, "proof", block("text", "\n".join(proof).strip().split("\n")), READING)


def new_in(known: Definitions, name: str) -> set[Owner]:
    """What a list has that those before it don't."""
    found: set[Owner] = set()
    for other, promise in READ_IN_ORDER.items():
        more = reached(known, promise) - found
        if other == name:
            return more
        found |= more
    raise Missing(f"no list {name}: {', '.join(READ_IN_ORDER)}")


def rows(known: Definitions, name: str) -> Iterator[str]:
    yield from ("", f"## {name}", "")
    for path, names in known.in_order(new_in(known, name)):
        shown = ", ".join(f"`{each}`" for each in names)
        short = path.removeprefix("crates/").replace("/specs/", "/").removesuffix(".antt")
        yield from wrap(f"- [{short}](../{path}): {shown}", 120, subsequent_indent="  ", break_on_hyphens=False)


def lists(known: Definitions) -> str:
    head = read(LISTS).split("\n## ")[0].rstrip()
    lines = [line for name in READ_IN_ORDER for line in rows(known, name)]
    return "\n".join([head, *lines, "", "---", "", "Back to the [README](../README.md).", ""])


def made() -> Made:
    known = definitions()
    return Made({PAGE: statement(known), LISTS: lists(known), READING: reading(known)}, [])


def printed(name: str) -> str:
    """The definitions of a list, file by file, each with its comment."""
    known, parts = definitions(), list[str]()
    for path, names in known.in_order(new_in(known, name)):
        lines, one = read(path).split("\n"), known.files[path]
        aliases = [lines[at] for at, use in one.uses.items() if use[3] is None and use[4] in one.aliases]
        parts.append("\n".join([f"---- {path}", *headed(lines), *aliases, ""]))
        scopes = sorted((begin, end) for found in one.blocks.values() for begin, end, kind in found if kind in ("module", "mutual"))
        for each in names:
            begin, end = one.blocks[each][0][0], one.blocks[each][-1][1]
            while scopes and scopes[0][0] < begin:
                scope = scopes.pop(0)
                if lines[begin].startswith("  ") and not (scopes and scopes[0][0] < begin):
                    parts.append("\n".join(commented(lines, *scope)))
            parts.append("\n".join(commented(lines, begin, end)))
    return "\n".join(parts)


def headed(lines: list[str]) -> list[str]:
    """The comment at the head of a file."""
    return lines[: next(i for i, line in enumerate(lines) if not line.startswith("--"))]


def commented(lines: list[str], begin: int, end: int) -> list[str]:
    """The lines of a definition with the comment above it, without that of the next."""
    while begin and lines[begin - 1].lstrip().startswith("--"):
        begin -= 1
    while end > begin and (not lines[end - 1].strip() or lines[end - 1].lstrip().startswith("--")):
        end -= 1
    return [*lines[begin:end], ""]
