"""The colours of listings in editors, from the rows of crates/dex_insn/src/opcodes.rt: vim's syntax file, and a
TextMate grammar with the package.json by which VS Code and IntelliJ find it.

Both have the patterns below. At a place in a line the first one that matches counts (in vim the last, so vim's are the
other way round). A pattern has only what means the same in both languages, once `for_vim` has rewritten its groups.
"""
import json
import re

from .making import Made
from .mnemonics import OPCODES, ROW
from .tree import read

VIM, FOLDER = "contrib/vim/syntax/dexasm.vim", "contrib/vscode"
TEXTS = "crates/dexasm_plan/src/texts.rt"
END = r"(?=\s|$)"  # of a word
BEGIN = r"(?<=\s)"
VALUES = "byte short char int long float double string type field method enum null true false array".split()
PAYLOADS = ["packed-switch-payload", "sparse-switch-payload", "array-payload"]
VIM_HEAD = """" Vim syntax file for listings of dexasm (dexasm-listing(5)). Written by tools/generate.
if exists('b:current_syntax')
  finish
endif
syn case match
"""


def patterns(mnemonics: list[str]) -> list[tuple[str, str, str, str]]:
    """Of each kind of word its name, its scope in TextMate, its group in vim, and its pattern."""
    opcodes = "|".join(mnemonics + PAYLOADS)
    return [
        ("Version", "keyword.control.directive", "PreProc", r"^\s*dex\s+035(?:\s.*|$)"),
        ("Comment", "comment.line.number-sign", "Comment", r"^\s*#.*$"),
        ("Block", "keyword.control", "Structure", rf"^\s*(?:class|code|end\s+class|end\s+code){END}"),
        ("Member", "storage.type", "Keyword",
            rf"^\s*(?:super|implements|source|static|instance|direct|virtual|try|catch|catchall){END}"),
        ("Place", "constant.numeric.line", "LineNr", rf"^\s*(?:\d+|0x[0-9a-fA-F]+):{END}"),
        ("Target", "entity.name.label", "Label", rf"(?:^\s*|{BEGIN}):\w+{END}"),
        ("Target", "entity.name.label", "Label", rf"{BEGIN}\@(?:0x[0-9a-fA-F]+|\d+){END}"),
        ("Opcode", "keyword.operator", "Statement", rf"(?:^|(?<=:))\s*(?:{opcodes}){END}"),
        ("Text", "string.quoted.double", "String", rf'{BEGIN}"(?:[^"\\]|\\.)*"'),
        ("Register", "variable.parameter", "Identifier", rf"{BEGIN}v\d+{END}"),
        ("Number", "constant.numeric", "Number", rf"{BEGIN}-?(?:0x[0-9a-fA-F]+|\d+){END}"),
        ("Type", "entity.name.type", "Type", rf"{BEGIN}\[*(?:L[^ ;]*;|[ZBSCIJFDV])(?=\s|$|-\>)"),
        ("Value", "constant.language", "Constant",
            rf"{BEGIN}(?<!static )(?<!instance )(?<!direct )(?<!virtual )(?:{'|'.join(VALUES)}){END}"),
    ]


def for_vim(pattern: str) -> str:
    """The pattern in vim's language, very magic."""
    pattern = re.sub(r"\(\?(<?[=!])([^()]*)\)", r"%(\2)@\1", pattern)
    return r"\v" + pattern.replace("(?:", "%(").replace("/", r"\/")


def vim(rows: list[tuple[str, str, str, str]]) -> str:
    lines = [f"syn match dexasm{name} /{for_vim(pattern)}/" for name, _, _, pattern in reversed(rows)]
    links = dict.fromkeys(f"hi def link dexasm{name} {group}" for name, _, group, _ in rows)
    return VIM_HEAD + "\n".join([*lines, *links, "let b:current_syntax = 'dexasm'\n"])


def as_json(value: object) -> str:
    return json.dumps(value, indent=2) + "\n"


def grammar(rows: list[tuple[str, str, str, str]]) -> str:
    found = [{"name": f"{scope}.dexasm", "match": pattern} for _, scope, _, pattern in rows]
    return as_json({"comment": "Written by tools/generate.", "name": "dexasm listing", "scopeName": "source.dexasm",
                    "patterns": found})


def package(version: str) -> str:
    """What VS Code reads: the language, its grammar, and how a line of dexasm-check names a place."""
    matcher = {"regexp": r"^(.+?):(\d+):(\d+): error: (.*)$", "file": 1, "line": 2, "column": 3, "message": 4}
    return as_json({
        "name": "dexasm-listing", "displayName": "Listings of dexasm", "version": version, "publisher": "dexasm",
        "description": "Colours for listings of dexasm, and the problem matcher $dexasm-check",
        "license": "Apache-2.0", "engines": {"vscode": "^1.75.0"},
        "contributes": {
            "languages": [{"id": "dexasm", "extensions": [".dex.txt"], "firstLine": r"^\s*dex\s+035\b",
                           "configuration": "./language-configuration.json"}],
            "grammars": [{"language": "dexasm", "scopeName": "source.dexasm", "path": "./dexasm.tmLanguage.json"}],
            "problemMatchers": [{"name": "dexasm-check", "owner": "dexasm", "severity": "error",
                                 "fileLocation": ["autoDetect", "${workspaceFolder}"], "pattern": matcher}],
        },
    })


def made() -> Made:
    rows = patterns([mnemonic for mnemonic, _ in ROW.findall(read(OPCODES)) if mnemonic])
    version = re.search(r'VERSION: &str = "(.+)"', read(TEXTS))
    if version is None:
        return Made({}, [f"{TEXTS} has no version"])
    return Made({
        VIM: vim(rows), f"{FOLDER}/dexasm.tmLanguage.json": grammar(rows),
        f"{FOLDER}/package.json": package(version[1]),
        f"{FOLDER}/language-configuration.json": as_json({"comments": {"lineComment": "#"}, "brackets": [["{", "}"]]}),
    }, [])
