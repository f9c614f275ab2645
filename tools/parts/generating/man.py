"""The manual pages and the completions of shells: docs/man/dexasm.1 from the words of the help,
crates/dexasm_plan/src/texts.rt, and the tables of faults of docs/FORMAT.md and docs/LISTING.md; docs/man/dexasm-listing.5
from docs/LISTING.md; a page of each helper of python/ from its docstring, which is its help; contrib/completion/
from the help of the command and the parsers of the helpers; the files of python/bin. And whether the tables name each fault as the code does.
"""
import argparse
import ast
import contextlib
import functools
import importlib
import json
import re
import sys
import textwrap
from collections.abc import Container
from types import ModuleType
from typing import NoReturn

from .. import helpers as programs, sought
from .making import Made, Missing, Program
from .opcodes import FAST

TEXTS = "crates/dexasm_plan/src/texts.rt"
NUMBERS, NAMES = "crates/dex_base/src/fault.rt", "crates/dex_base/src/fault_names.rt"
FORMAT, LISTING = "docs/FORMAT.md", "docs/LISTING.md"
# Names of faults that no call answers yet.
TO_COME = {"200"}
LAUNCHER = "dexasm-check"  # which each other file of python/bin runs, under its own name
HELPER = """\
#!/usr/bin/env python3
\"\"\"%s, by the launcher beside this file.\"\"\"
from os.path import dirname, join, realpath

LAUNCHER = join(dirname(realpath(__file__)), "dexasm-check")
with open(LAUNCHER, encoding="utf8") as file:
    launcher = compile(file.read(), LAUNCHER, "exec")
exec(launcher, {"__file__": LAUNCHER, "HELPER": "%s"})
"""
JOBS = ("check", "list", "assemble", "strip")
FAULT_TABLE = """\
\"\"\"The faults, written by tools/generate from docs/FORMAT.md and docs/LISTING.md: the name of each number, the sentence
of its row, and what its place is.
\"\"\"
FAULTS = {
"""

# What the texts don't say.
OUT_PART = (
    "The output while it is being written, beside OUT (.1.part and so on if that name is taken). It replaces OUT when it is complete, or, if OUT cannot "
    "be replaced (several hard links, a mount point, another user's file in a sticky folder), OUT is then overwritten. A run that is killed may leave "
    "it: in these cases it may be the only complete copy, otherwise it can be deleted. OUT loses its access control list and extended attributes; to "
    "keep them, let the shell write: 'dexasm strip FILE > OUT'. A file that is replaced is synced to the disk first, which takes some milliseconds. "
    "SECURITY.md has the exceptions."
)
# What the launcher of a repository heeds.
PROVED = (
    "For the launcher ./dexasm in the repository: with the value \\fBproved\\fR it runs only the proved program, which it builds first if necessary. "
    "Without it the quick program, the same source without its proof, runs until tools/build has been run. A helper that reports the build exits "
    "with an error if it is not proved."
)
WHICH = "For the launcher too: if it is not empty, no program runs, and standard output names the one that would, 'proved' or 'quick', and its path."
# What the C library heeds.
TUNABLES = (
    "The GNU C library allocates the command's memory. If /sys/kernel/mm/transparent_hugepage/enabled is 'always' or 'madvise', "
    "\\fBglibc.malloc.hugetlb=1:glibc.malloc.top_pad=67108864:glibc.malloc.mmap_threshold=4194304\\fR makes it use huge pages: on large "
    "files each command then needs about a tenth less time, and up to 1.6 times the memory (docs/MEASURED.md)."
)
# The lists of faults, each with what its places are.
FAULTS = (
    ("Faults of a file. The place is a byte of it, from 0:", FORMAT, (*range(80), 255)),
    ("Faults of a listing. The place is a line, from 1:", LISTING, range(100, 110)),
    ("Rules of a program, checked in a listing that has none of these. The place is the number of a class in the listing, from 0:",
     FORMAT, range(110, 120)),
    ("Limits of a written file. The place is the number of a class in the listing, from 0; of 80 and 81 it is how many are needed, of 90 it is 0:",
     FORMAT, range(80, 91)),
)
STATUSES = (
    ("0", "the output was written, or help or the version was requested"),
    ("1", "the file or the listing is refused; standard error has the number, name and place of the fault, as in 'dexasm: refused 8 Checksum at 8'."
     " On a terminal a second line explains it"),
    ("2", "a bad command line; standard error explains it and shows the usage (unless an argument is not UTF-8). A .dex file that would"
     " go to a terminal counts too: nothing is read or written"),
    ("3", "reading or writing failed; standard error has 'dexasm: cannot read' or 'dexasm: cannot write'. On a terminal a second line"
     " has the system's reason; elsewhere 'ls -l' of the file and 'df' of its folder show it. A pipe whose reader ends early is a failure too"),
    ("4", "out of memory"),
    ("70", "only of the launcher ./dexasm in the repository: there is no program, or its commit is unknown; standard error has the reason"),
)
WORDS = (
    "For users of smali, baksmali, dexdump, javap or objdump: `dexasm list` disassembles, `dexasm check` verifies, `dexasm-info` dumps headers and bytes. "
    "The first part of docs/RECIPES.md has the others (in a package share/doc/dexasm/docs/RECIPES.md)."
)
# What each helper heeds.
COMMAND = (
    "The command that the helper runs, if \\fBDEXASM_LIBRARY\\fR names no library for it. Without both it is the library that came with "
    "the helper or the system's, or \\fBdexasm\\fR on the PATH."
)


def texts() -> dict[str, str]:
    """The constants by name. A backslash at a line's end takes the line's end and the blanks after it away, as in Rust."""
    with open(TEXTS, encoding="ascii") as file:
        found = re.findall(r'const (\w+): &str =\s*"((?:[^"\\]|\\.|\\\n)*)";', file.read())
    return {name: ast.literal_eval('"""' + re.sub(r"\\\n\s*", "", text) + '"""') for name, text in found}


def plain(text: str) -> str:
    """Text as roff has it: no line of it is a request."""
    text = text.replace("\\", "\\e").replace("-", "\\-")
    return "\n".join("\\&" + line if line[:1] in (".", "'") else line for line in text.split("\n"))


def title(name: str, section: int, part: str, said: dict[str, str]) -> list[str]:
    """What a page begins with. Its date is that of the last release, so that one source makes one page."""
    with open("CHANGELOG.md", encoding="utf8") as file:
        date = sought(r"^## \[[\d.]+\] - (\d{4}-\d\d-\d\d)$", file.read(), re.M)[1]
    return ['.\\" Written by tools/generate.', f'.TH {name} {section} "{date}" "{said["HEAD"]}" "{part}"']


def tidied(text: str) -> str:
    """Without the paragraphs that would begin nothing: after a heading, and before a tagged or a bulleted one."""
    return re.sub(r"^\.PP\n(?=\.[TI]P)", "", re.sub(r"^(\.SH .*\n)\.PP\n", r"\1", text, flags=re.M), flags=re.M)


def paragraphs(text: str) -> list[str]:
    """The paragraphs of a text, without its example."""
    return [plain(part) for part in text.split("\n\n") if not part.startswith("Example: ")]


def example(text: str) -> str:
    return sought(r"Example: (.*)", text)[1]


def page(said: dict[str, str]) -> str:
    options = {
        "-o, --output OUT": said["OUTPUT"],
        "-h, --help": "Print help, on standard output",
        "-V, --version": "Print the version, on standard output",
    }
    out = title("DEXASM", 1, "User Commands", said)
    out += [".SH NAME", "dexasm \\- " + plain(said["TOOL"][:1].lower() + said["TOOL"][1:])]
    out += [".SH SYNOPSIS"]
    for job in JOBS:
        align = " [\\fB\\-\\-align\\fR]" if job == "assemble" else ""
        out += [f"\\fBdexasm {job}\\fR [\\fIFILE\\fR] [\\fB\\-\\-output\\fR \\fIOUT\\fR]{align}", ".br"]
    out[-1:] = [".br", "\\fBdexasm\\fR [\\fIcommand\\fR] \\fB\\-\\-help\\fR", ".SH DESCRIPTION"]
    out.append("\n.PP\n".join(part for part in paragraphs(said["TOOL_MORE"]) if not part.startswith("Exit status")))
    out += [".SH COMMANDS"]
    for job in JOBS:
        name = job.upper()
        out += [".TP", f"\\fB{job}\\fR", plain(said[name]) + "."] + [".br\n" + part for part in paragraphs(said[name + "_MORE"])]
    out += [".SH OPTIONS", ".TP", "\\fIFILE\\fR", plain(said["FILE"]) + "."]
    for option, text in options.items():
        out += [".TP", f"\\fB{plain(option)}\\fR", plain(text) + "."]
    out += [".TP", "\\fB\\-\\-align\\fR", plain(said["ALIGN"]) + ". Only of \\fBassemble\\fR."]
    out += [".SH FILES", ".TP", "\\fIOUT\\fR.0.part", OUT_PART]
    out += [".SH ENVIRONMENT", ".TP", "\\fBDEXASM\\fR", PROVED, ".TP", "\\fBDEXASM_WHICH\\fR", WHICH]
    out += [".TP", "\\fBGLIBC_TUNABLES\\fR", TUNABLES]
    out += [".SH EXIT STATUS"]
    for status, text in STATUSES:
        out += [".TP", f"\\fB{status}\\fR", plain(text) + "."]
    out += [".SH FAULTS", "Each refusal has the number of a fault, its name, and its place. The lists are in the order of the checks."]
    for what, path, numbers in FAULTS:
        out += [".PP", what, *rows_of(path, numbers)]
    out += [".SH EXAMPLES", ".nf"]
    out += [plain(example(said[job.upper() + "_MORE"])) for job in JOBS] + [".fi"]
    pages = [f"\\fB{plain(name)}\\fR({section})" for name, section in [("dexasm-listing", 5), *((name, 1) for name in helpers()), ("dexdump", 1)]]
    out += [".SH SEE ALSO", ", ".join(pages) + ".", ".PP", inline(WORDS)]
    return "\n".join(out) + "\n"


def faults(path: str) -> list[tuple[str, str, str, str]]:
    """The rows of a document's tables of faults: number, name, meaning, place."""
    with open(path, encoding="utf8") as file:
        return re.findall(r"^\| (\d+) \| ([A-Z]\w+) \| (.*) \| (.*) \|$", file.read(), re.M)


def rows_of(path: str, numbers: Container[int]) -> list[str]:
    out = []
    for number, name, meaning, place in faults(path):
        if int(number) not in numbers:
            continue
        out += [".TP", f"\\fB{number} {name}\\fR", inline(f"{meaning}. Place: {place}.")]
    return out


def fault_table() -> str:
    """A module with the rows of all faults for the helpers, which read no page."""
    rows = {int(number): words for path in (FORMAT, LISTING) for number, *words in faults(path)}
    lines = []
    for number, (name, sentence, place) in sorted(rows.items()):
        parts = re.findall(r".{1,90}(?:\s|$)", sentence)
        due = [f'{number}: ("{name}",', *map(json.dumps, parts[:-1]), f"{json.dumps(parts[-1])},", f"{json.dumps(place)}),"]
        lines += textwrap.wrap(" ".join(one.replace(" ", FAST) for one in due), 116, break_on_hyphens=False, break_long_words=False)
    return FAULT_TABLE + "".join(f"    {line}\n" for line in lines).replace(FAST, " ") + "}  # fmt: skip\n"


def inline(text: str) -> str:
    """A line of a document as roff: code is bold, and of a link the words stay."""
    return re.sub(r"`([^`]*)`", r"\\fB\1\\fR", plain(re.sub(r"\[([^][]*)\]\([^()]*\)", r"\1", text)))


def listing_page(said: dict[str, str]) -> str:
    """docs/LISTING.md as a page of section 5, without its last part, which is for those who work on dexasm."""
    with open(LISTING, encoding="ascii") as file:
        text = file.read().split("## Where each rule is defined")[0]
    out = title("DEXASM-LISTING", 5, "File Formats", said)
    out += [".SH NAME", "dexasm\\-listing \\- a program of a .dex file as text", ".SH DESCRIPTION"]
    is_code, is_table = False, False
    for line in text.split("\n")[1:]:
        if line.startswith("```"):
            is_code = not is_code
            out.append(".PP\n.nf" if is_code else ".fi")
        elif is_code:
            out.append(plain(line))
        elif line.startswith("## "):
            out.append(".SH " + plain(line[3:].upper()))
        elif line.startswith("|"):
            out += table_row(line, not is_table)
        elif line.startswith("- "):
            out += [".IP \\(bu 2", inline(line[2:])]
        elif line:
            out.append(inline(line.strip()))
        else:
            out.append(".PP")
        is_table = line.startswith("|")
    return tidied("\n".join(out).replace("\n.PP\n.SH", "\n.SH").replace(".PP\n.PP", ".PP").removesuffix("\n.PP") + "\n")


def table_row(line: str, is_head: bool) -> list[str]:
    """A row as a tagged paragraph; heads and rules are left out."""
    cells = [cell.strip() for cell in re.split(r"(?<!\\)\|", line.strip("|"))]
    if is_head or set(line) <= set("|- "):
        return []
    return [".TP", inline(cells[0]), inline("; ".join(cell for cell in cells[1:] if cell))]


def helpers() -> dict[str, str]:
    """The manuals of the helpers by their names."""
    modules = {name: module_of(name) for name in programs()}
    from dexasm.cli.main import docstring

    return {name: docstring(module).strip() for name, module in modules.items()}


def module_of(name: str) -> ModuleType:
    """The module of a helper, of this checkout."""
    if "python/src" not in sys.path:
        sys.path.insert(0, "python/src")
    return importlib.import_module(programs()[name].removeprefix("python/src/").removesuffix(".py").replace("/", "."))


def uses_of(doc: str) -> list[str]:
    """A helper's lines of usage."""
    return [line.strip() for line in sought(r"^usage: (.*(?:\n +.*)*)", doc, re.M)[1].split("\n")]


def helper_page(name: str, doc: str, said: dict[str, str]) -> str:
    """The page of a helper: what it does, its usage, its paragraphs, and its statuses, which its last paragraph has."""
    what, _, *parts, statuses = doc.split("\n\n")
    out = title(name.upper(), 1, "User Commands", said)
    out += [".SH NAME", f"{plain(name)} \\- {plain(what[:1].lower() + what[1:].rstrip('.').replace(chr(10), ' '))}", ".SH SYNOPSIS"]
    out.append("\n.br\n".join(f"\\fB{plain(name)}\\fR {plain(use.removeprefix(name).strip())}" for use in uses_of(doc)))
    out.append(".SH DESCRIPTION")
    for part in parts:
        out += helper_rows(part) if part.startswith("  ") else [inline(part), ".PP"]
    out += [".SH EXIT STATUS", inline(statuses.removeprefix("Exit status: "))]
    out += [".SH ENVIRONMENT", ".TP", "\\fBDEXASM_COMMAND\\fR", COMMAND]
    out += [".SH SEE ALSO", "\\fBdexasm\\fR(1), \\fBdexasm\\-listing\\fR(5)"]
    return tidied("\n".join(out).replace("\n.PP\n.SH", "\n.SH") + "\n")


def helper_rows(part: str) -> list[str]:
    """Lines of a word and what it is: tagged paragraphs, and a plain one after them."""
    out = []
    for line in re.sub(r"\n {4,}", " ", part).split("\n"):
        word, text = sought(r"^  (\S+) +(.*)$", line).groups()
        out += [".TP", f"\\fB{plain(word)}\\fR", inline(text)]
    return out + [".PP"]


@functools.cache
def helper_words(name: str) -> tuple[list[str], dict[str, list[str]]]:
    """What a helper's first word can be, and its options: each with the words that may follow, FILE for any file, or nothing."""
    first: list[str] = []
    options: dict[str, list[str]] = {"--help": [], "--version": []}
    for action in declared(name):
        words = [*map(str, action.choices or ())] or ["FILE"] * (action.metavar in ("OUT", "FOLDER"))
        words = words or [word for word in str(action.metavar).split("|") if word.islower()]  # (METHOD is any word)
        if not action.option_strings and action.choices and not first:
            first = words
        options |= {option: words for option in action.option_strings if option.startswith("--")}
    return first, options


def declared(name: str) -> list[argparse.Action]:
    """The words that a helper declares, those of its jobs too."""
    module = module_of(name)
    from dexasm.cli import main

    class Declared(Exception):
        pass

    class Recorder(main.Parser):
        def parse_args(self, *_: object) -> NoReturn:  # type: ignore[override]
            raise Declared

        parse_intermixed_args = parse_args  # type: ignore[assignment]

    parser = Recorder(module)
    with contextlib.suppress(Declared):
        main.declarations[module.__name__](parser)
    jobs = [job for action in parser._actions if isinstance(action.choices, dict) for job in action.choices.values()]
    found = [action for one in (parser, *jobs) for action in one._actions]
    doc = helpers()[name]
    words = {option for action in found for option in action.option_strings if option.startswith("--")}
    told = set(re.findall(r"(?<![\w-])--[a-z]+(?:-[a-z]+)*", " ".join(uses_of(doc))))
    if lost := sorted(told - words) + sorted(word for word in words - told - {"--help", "--version"} if word not in doc):
        raise Missing(f"{name}: its manual and its parser differ in {', '.join(lost)}")
    return found


def options_of(job: str, said: dict[str, str]) -> list[tuple[str, str, bool]]:
    """The options of a job: what they are called, what they do, whether a file follows. --output, alone, has a short name too, -o."""
    align = [("--align", said["ALIGN"], False)] if job == "assemble" else []
    return [("--output", said["OUTPUT"], True), *align, ("--help", "Print help", False)]


def bash(said: dict[str, str]) -> str:
    """Words for bash."""
    cases = [f"    {job}) words='{' '.join(option for option, _, _ in options_of(job, said))}' ;;" for job in JOBS]
    own, follow = [], []
    for name in helpers():
        first, options = helper_words(name)
        own.append(f"    {name}) first='{' '.join(first)}' options='{' '.join(options)}' ;;")
        follow += [f"    {name}/{option}) words='{' '.join(words)}' ;;" for option, words in options.items() if words and words != ["FILE"]]
    return "\n".join([
        "# shellcheck shell=bash",
        "# Completion of dexasm and its helpers for bash, written by tools/generate: source it, or put it into /etc/bash_completion.d.",
        "_dexasm() {",
        "  local word=${COMP_WORDS[COMP_CWORD]} words",
        "  case ${COMP_WORDS[1]-} in",
        *cases,
        f"    *) words='{' '.join(JOBS)} --help --version' ;;",
        "  esac",
        "  if ((COMP_CWORD == 1)) || [[ $word == -* ]]; then",
        '    mapfile -t COMPREPLY < <(compgen -W "$words" -- "$word")',
        "  else",
        '    mapfile -t COMPREPLY < <(compgen -f -- "$word")',
        "  fi",
        "}",
        "_dexasm_helper() {",
        "  local name=${COMP_WORDS[0]##*/} word=${COMP_WORDS[COMP_CWORD]} first='' options='' words=''",
        "  case $name in",
        *own,
        "  esac",
        "  case $name/${COMP_WORDS[COMP_CWORD - 1]} in",
        *follow,
        '    *) if [[ $word == -* ]]; then words=$options; elif ((COMP_CWORD == 1)); then words=$first; fi ;;',
        "  esac",
        '  if [ -n "$words" ]; then',
        '    mapfile -t COMPREPLY < <(compgen -W "$words" -- "$word")',
        "  else",
        '    mapfile -t COMPREPLY < <(compgen -f -- "$word")',
        "  fi",
        "}",
        "complete -o filenames -F _dexasm dexasm",
        f"complete -o filenames -F _dexasm_helper {' '.join(helpers())}",
    ]) + "\n"


def zsh(said: dict[str, str]) -> str:
    """Words for zsh."""

    def quoted(text: str) -> str:
        return re.sub(r"([\[\]:])", r"\\\1", text.replace("'", "'\\''"))

    out = [f"#compdef dexasm {' '.join(helpers())}"]
    out += ["# Completion of dexasm and its helpers for zsh, written by tools/generate: put it into a folder of $fpath.", "_dexasm() {"]
    out += ["  case ${words[1]:t} in"]
    for name in helpers():
        first, options = helper_words(name)
        rules = ["'" + option + rule(words) + "'" for option, words in options.items()]
        rules += [f"'1:what:({' '.join(first)})'"] if first else []
        out.append(f"    {name}) _arguments {' '.join(rules)} '*:file:_files'; return ;;")
    out += ["  esac", "  local -a jobs", "  jobs=("]
    out += [f"    '{job}:{quoted(said[job.upper()])}'" for job in JOBS] + ["  )"]
    out += ["  if ((CURRENT == 2)); then", "    _describe command jobs", "    _arguments '--help[Print help]' '--version[Print version]'", "    return", "  fi"]
    out += ["  case $words[2] in"]
    for job in JOBS:
        rules = [
            f"'(-o --output)'{{-o,--output=}}'[{quoted(text)}]:file:_files'" if is_file else f"'{option}[{quoted(text)}]'"
            for option, text, is_file in options_of(job, said)
        ]
        out += [f"    {job}) _arguments {' '.join(rules)} '*:file:_files' ;;"]
    return "\n".join(out + ["  esac", "}", '_dexasm "$@"']) + "\n"


def rule(words: list[str]) -> str:
    """What follows an option of a helper, as zsh's _arguments has it; an equals sign may stand before it."""
    return "=:file:_files" if words == ["FILE"] else f"=:word:({' '.join(words)})" if words else ""


def fish(said: dict[str, str]) -> str:
    """Words for fish."""

    def quoted(text: str) -> str:
        return text.replace("\\", "\\\\").replace("'", "\\'")

    out = ["# Completion of dexasm and its helpers for fish, written by tools/generate: put it into ~/.config/fish/completions."]
    out += [f"complete -c dexasm -n __fish_use_subcommand -f -a {job} -d '{quoted(said[job.upper()])}'" for job in JOBS]
    out += ["complete -c dexasm -n __fish_use_subcommand -f -s V -l version -d 'Print version'", "complete -c dexasm -s h -l help -d 'Print help'"]
    for job in JOBS:
        for option, text, is_file in options_of(job, said)[:-1]:
            takes = "-r -F -s o" if is_file else "-f"
            out += [f"complete -c dexasm -n '__fish_seen_subcommand_from {job}' {takes} -l {option[2:]} -d '{quoted(text)}'"]
    for name in helpers():
        first, options = helper_words(name)
        out += [f"complete -c {name} -n __fish_use_subcommand -a '{' '.join(first)}'"] if first else []
        for option, words in options.items():
            takes = " -r -F" if words == ["FILE"] else f" -x -a '{' '.join(words)}'" if words else ""
            out.append(f"complete -c {name} -l {option[2:]}{takes}")
    return "\n".join(out) + "\n"


def misnamed() -> list[str]:
    """The faults that the documents name otherwise than the code, or not at all."""
    with open(NUMBERS, encoding="utf8") as file:
        numbers = dict(re.findall(r"pub const (\w+): u16 = (\d+);", file.read()))
    with open(NAMES, encoding="utf8") as file:
        rows = re.findall(r'row!\((?:fault::)?(\w+), "(\w+)"', file.read())
    named = {numbers.get(number, number): name for number, name in rows}
    told = {number: name for path in (FORMAT, LISTING) for number, name, _, _ in faults(path)}
    return [number for number in sorted({*named, *told}, key=int) if number not in TO_COME and named.get(number) != told.get(number)]


def look_at_version(said: dict[str, str]) -> None:
    """That the help, the version and the CHANGELOG speak of one version."""
    if said["HEAD"] != f"dexasm {said['VERSION']}":
        raise Missing(f"{TEXTS}: HEAD doesn't have VERSION")
    section = "Unreleased" if said["VERSION"].endswith("-dev") else said["VERSION"]
    with open("CHANGELOG.md", encoding="utf8") as file:
        if f"## [{section}]" not in file.read():
            raise Missing(f"CHANGELOG.md has no section [{section}]")


def made() -> Made:
    said = texts()
    pages = {"docs/man/dexasm.1": page(said), "docs/man/dexasm-listing.5": listing_page(said)}
    pages |= {f"docs/man/{name}.1": helper_page(name, doc, said) for name, doc in helpers().items()}
    pages |= {f"contrib/completion/{name}": words(said) for name, words in (("dexasm.bash", bash), ("_dexasm", zsh), ("dexasm.fish", fish))}
    pages |= {f"python/bin/{name}": Program(HELPER % (name, name)) for name in helpers() if name != LAUNCHER}
    pages["python/src/dexasm/cli/fault_table.py"] = fault_table()
    if misnamed():
        raise Missing(f"{FORMAT} and {LISTING} don't name these faults as {NAMES} does: {', '.join(misnamed())}")
    look_at_version(said)
    if wide := [path for path, text in pages.items() if not text.isascii()]:
        raise Missing(f"no manual page has other characters than ASCII: {', '.join(wide)}")
    return Made(pages, [])
