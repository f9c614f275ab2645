"""The definitions below crates/*/specs and the lemmas below crates/*/proofs, file by file, and how they name each other."""
import os
import re
from collections.abc import Iterator

from . import TOP

ANSWERS = {"Answers.antt", "Invariants.antt", "Proof.antt"}
WORD = re.compile(r"[^\s(){}\[\],;.:λ→=\"`|]+")
USE = re.compile(r"^\s*(?:ghost )?(pub )?use ([\w.]+)(?:\.\{(.*)\})?(?: as ([^\s;]+))?\s*;?\s*$")
HEAD = re.compile(r"^\s*(?:(?:abbrev|unfoldable|opaque|pub)\s+)*(?:(record|data|module|ruleset|mutual|infix\w*)(?:\s+|$))?([^\s(){}:,;]*)")
FIELD = re.compile(r"^\s+(?:pub\s+)?([^\s(){}:,;]+)\s*(?:\([^)]*\))?\s*:")


# A definition, by its file and its name there; whose a name of a file is.
Owner = tuple[str, str]
Owners = dict[tuple[str, str], Owner]
# Where a definition's parts begin and end, and what kind each is.
Blocks = dict[str, list[tuple[int, int, str | None]]]


class File:
    """A file's lines without comments, what its imports name, and where each of its definitions stands."""

    def __init__(self, path: str, text: str) -> None:
        self.path = path
        self.is_code = path.endswith(".rt")
        self.is_root = self.is_code or "/proofs/" in path and os.path.basename(path) in ANSWERS
        self.lines = [line if self.is_code else line.split("--")[0] for line in text.split("\n")]
        self.uses = {i: use for i, line in enumerate(self.lines) if (use := USE.match(line))}
        self.names: dict[str, tuple[str, str]] = {}
        self.aliases: dict[str, str] = {}
        self.blocks: Blocks = {}
        self.body = "\n".join(line for i, line in enumerate(self.lines) if i not in self.uses)

    def imported(self) -> Iterator[tuple[int, str, str, str | None, str | None]]:
        """(line, name here, module, name there, whether it is handed on) of each import; a whole module has no name there."""
        for i, use in self.uses.items():
            is_public, module, names, alias = use.groups()
            if names is None:
                yield i, alias or module.split(".")[-1], module, None, is_public
                continue
            for name in filter(None, (part.strip() for part in names.split(","))):
                there, _, here = name.partition(" as ")
                yield i, here or there, module, there, is_public

    def read_imports(self, files: dict[str, "File"], handed_on: dict[str, str]) -> None:
        for _, here, module, there, _ in self.imported():
            target = file_of(module)
            target = handed_on.get(target, target)
            if target in files and there is None:
                self.aliases[here] = target
            elif target in files and there is not None:
                self.names[here] = (target, there)

    def read_blocks(self) -> None:
        """A definition goes from its head to the next one; `unfolding` before a head belongs to it."""
        heads, inside, pending = [], False, None
        for i, line in enumerate(self.lines):
            if not line.strip() or i in self.uses or line.lstrip()[0] in "]})":
                continue
            indent = len(line) - len(line.lstrip())
            if indent == 0:
                inside = re.match(r"(abbrev |unfoldable )?(module|mutual)\b", line) is not None
            if indent != 0 and not (inside and indent == 2):
                continue
            head = HEAD.match(line)
            kind, name = (head[1], head[2]) if head else (None, "")
            if name == "unfolding":
                pending = i if pending is None else pending
            elif kind or name:
                heads.append((i if pending is None else pending, kind, name))
                pending = None
        for (begin, kind, name), after in zip(heads, [*(head[0] for head in heads[1:]), len(self.lines)]):
            # what opens a scope, or says how an operator is read, is no definition: what it mentions is used
            key = name if kind in (None, "record", "data", "ruleset") else f"{begin} {kind}"
            self.blocks.setdefault(key, []).append((begin, after, kind))

    def text_of(self, block: str) -> str:
        return "\n".join(self.lines[i] for begin, end, _ in self.blocks[block] for i in range(begin, end) if i not in self.uses)


def read_files() -> dict[str, File]:
    files = {}
    for folder, below, names in os.walk(os.path.join(TOP, "crates")):
        below[:] = [name for name in below if name != "out"]
        for name in names:
            if name.endswith((".antt", ".rt")):
                path = os.path.relpath(os.path.join(folder, name), TOP)
                with open(os.path.join(folder, name), encoding="utf-8") as it:
                    files[path] = File(path, it.read())
    handed_on = handed_on_in(files)
    for one in files.values():
        one.read_imports(files, handed_on)
        if not one.is_root and not one.path.endswith(("/Lib.antt", "/specs/inner.antt")):
            one.read_blocks()
    return files


def file_of(module: str) -> str:
    """The file in which a module would stand."""
    return "crates/" + "/".join(module.split(".")[1:]) + ".antt"


def handed_on_in(files: dict[str, File]) -> dict[str, str]:
    """Where the modules stand that crates hand on, by the file that each would have there."""
    found = {}
    for path, one in files.items():
        if path.endswith("/specs/Lib.antt"):
            for _, here, module, there, _ in one.imported():
                if there is None:
                    found[f"{os.path.dirname(path)}/{here}.antt"] = file_of(module)
    for path in found:
        while found[path] in found:
            found[path] = found[found[path]]
    return found


def owners_of(files: dict[str, File]) -> Owners:
    """The definition that each name of a file belongs to: its own, that of its fields and constructors, and what it hands on."""
    owners = {}
    for path, one in files.items():
        for block, parts in one.blocks.items():
            owners[path, block] = (path, block)
            for begin, end, kind in parts:
                for line in one.lines[begin + 1:end] if kind in ("data", "record") else ():
                    field = FIELD.match(line)
                    if field:
                        owners.setdefault((path, field.group(1)), (path, block))
    for path, one in files.items():
        for _, here, _, there, is_public in one.imported():
            if is_public and there is not None and (owner := owners.get(one.names.get(here, ("", "")))):
                owners.setdefault((path, here), owner)
    return owners


def named_in(one: File, text: str, owners: Owners) -> Iterator[Owner | None]:
    """The definitions that a text of a file names."""
    for word in WORD.finditer(text):
        name = word.group(0)
        yield owners.get((one.path, name))
        yield owners.get(one.names[name]) if name in one.names else None
        if name in one.aliases:
            member = WORD.match(text, word.end() + 1) if text[word.end():word.end() + 1] == "." else None
            yield owners.get((one.aliases[name], member.group(0))) if member else None
    for name, there in one.names.items():
        if "◌" in name and all(part in text for part in name.split("◌")):
            yield owners.get(there)
