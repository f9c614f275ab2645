"""What contrib has for editors: the colours of each kind of word in the TextMate grammar, in vim the same, and how they
find the places that dexasm-check prints."""
import json
import os
import re
import shutil
import subprocess
import tempfile
import unittest
from typing import Any

from .. import TOP

GRAMMAR = os.path.join(TOP, "contrib/vscode/dexasm.tmLanguage.json")
PACKAGE = os.path.join(TOP, "contrib/vscode/package.json")
OPCODES = os.path.join(TOP, "crates/dex_insn/src/opcodes.rt")
# The scope of each kind of word in the grammar, and its name in vim's syntax file.
KINDS = {
    "keyword.control.directive.dexasm": "Version", "comment.line.number-sign.dexasm": "Comment",
    "keyword.control.dexasm": "Block", "storage.type.dexasm": "Member", "constant.numeric.line.dexasm": "Place",
    "entity.name.label.dexasm": "Target", "keyword.operator.dexasm": "Opcode", "string.quoted.double.dexasm": "Text",
    "variable.parameter.dexasm": "Register", "constant.numeric.dexasm": "Number", "entity.name.type.dexasm": "Type",
    "constant.language.dexasm": "Value",
}
# Lines, and the coloured words of each with their kinds.
LINES = (
    ("dex 035 listing 2", "Version dex 035 listing 2"),
    ("  # class LA; 0x1", "Comment   # class LA; 0x1"),
    ("class LHello; 0x11", "Block class", "Type LHello;", "Number 0x11"),
    ("  super [Ljava/lang/Object;", "Member   super", "Type [Ljava/lang/Object;"),
    ('source "a v0 \\" :L1 #"', "Member source", 'Text "a v0 \\" :L1 #"'),
    ("static count I 0x9 = int -3", "Member static", "Type I", "Number 0x9", "Value int", "Number -3"),
    ("static int [J 0x9 = array { long 0x10 null }", "Member static", "Type [J", "Number 0x9", "Value array",
     "Value long", "Number 0x10", "Value null"),
    ("static f LE; 0x9 = enum LE;->A:LE;", "Member static", "Type LE;", "Number 0x9", "Value enum", "Type LE;"),
    ("direct return (I)V 0x9", "Member direct", "Number 0x9"),
    ("virtual nop ()V 1", "Member virtual", "Number 1"),
    ("code 2 1 0", "Block code", "Number 2", "Number 1", "Number 0"),
    ("const/high16 v15 -0x80", "Opcode const/high16", "Register v15", "Number -0x80"),
    ("if-eqz v0 :done", "Opcode if-eqz", "Register v0", "Target :done"),
    (":done", "Target :done"),
    (" 0x1f: if-eqz v1 @3", "Place  0x1f:", "Opcode  if-eqz", "Register v1", "Target @3"),
    ("invoke-static { v0 v1 } LA;->show(II)V", "Opcode invoke-static", "Register v0", "Register v1", "Type LA;"),
    ('const-string/jumbo v0 "caf\\u00e9"', "Opcode const-string/jumbo", "Register v0", 'Text "caf\\u00e9"'),
    ("sparse-switch-payload 1 :a", "Opcode sparse-switch-payload", "Number 1", "Target :a"),
    ("try :a :b", "Member try", "Target :a", "Target :b"),
    ("catchall :b", "Member catchall", "Target :b"),
    ("end code", "Block end code"),
    ("end  class", "Block end  class"),
    ("iff v0x 0x",),
    ("movement",),
)


FAULT = "app/a b.txt:5:9: error: 118 Register: v9 of 2 registers: 3"
PARTS = ["app/a b.txt", "5", "9", "118 Register: v9 of 2 registers: 3"]
needs_vim = unittest.skipUnless(shutil.which("vim"), "vim isn't installed: its files aren't tried")


def patterns() -> list[tuple[str, re.Pattern[str]]]:
    with open(GRAMMAR, encoding="utf8") as file:
        return [(KINDS[one["name"]], re.compile(one["match"], re.A)) for one in json.load(file)["patterns"]]


def kinds_in(line: str, rows: list[tuple[str, re.Pattern[str]]]) -> list[str]:
    """The kind of each character, as an editor finds them: the pattern that matches first, of several the first."""
    kinds, at = [""] * len(line), 0
    while found := [(match.start(), k, match) for k, (_, row) in enumerate(rows) if (match := row.search(line, at))]:
        _, k, match = min(found, key=lambda one: one[:2])
        kinds[match.start() : match.end()] = [rows[k][0]] * (match.end() - match.start())
        at = match.end() if match.end() > match.start() else match.end() + 1
    return kinds


def words_of(line: str, kinds: list[str]) -> list[str]:
    """The words of one kind each."""
    begins = [i for i, kind in enumerate(kinds) if kind and (i == 0 or kinds[i - 1] != kind)]
    ends = [next((k for k in range(i, len(line)) if kinds[k] != kinds[i]), len(line)) for i in begins]
    return [f"{kinds[i]} {line[i:end]}" for i, end in zip(begins, ends)]


def from_vim(script: str, lines: list[str]) -> Any:
    """What a script of vim leaves in `found`, with these lines in a file listing.dex.txt that it edits."""
    head = f"set nocompatible\nset runtimepath^={TOP}/contrib/vim\nsyntax on\nedit listing.dex.txt\n"
    with tempfile.TemporaryDirectory() as folder:
        for name, text in (
            ("listing.dex.txt", "\n".join(lines) + "\n"),
            ("script", f"{head}{script}call writefile([json_encode(found)], 'found')\nquit!\n"),
        ):
            with open(os.path.join(folder, name), "w", encoding="ascii") as file:
                file.write(text)
        words = ["vim", "-e", "-s", "-n", "-i", "NONE", "-u", "NONE", "-S", "script"]
        subprocess.run(words, cwd=folder, stdin=subprocess.DEVNULL, timeout=60, capture_output=True, check=False)
        with open(os.path.join(folder, "found"), encoding="ascii") as file:
            return json.load(file)


class EditorsTest(unittest.TestCase):
    def test_grammar(self) -> None:
        rows = patterns()
        for line, *words in LINES:
            with self.subTest(line):
                self.assertEqual(words_of(line, kinds_in(line, rows)), words)

    def test_mnemonics(self) -> None:
        """Each mnemonic is one as a whole, and no other word is."""
        with open(OPCODES, encoding="utf8") as file:
            mnemonics = re.findall(r'row!\("([^"]+)"', file.read())
        self.assertEqual(len(mnemonics), 218)
        rows = patterns()
        for mnemonic in mnemonics:
            self.assertEqual(set(kinds_in(mnemonic, rows)), {"Opcode"}, mnemonic)
            self.assertEqual(set(kinds_in(f"{mnemonic}x", rows)), {""}, mnemonic)

    @needs_vim
    def test_vim(self) -> None:
        """vim has the same kinds, character by character."""
        script = """let found = []
for l in range(1, line('$'))
  call add(found, map(range(1, col([l, '$']) - 1), 'synIDattr(synID(' . l . ', v:val, 0), "name")'))
endfor
"""
        rows, lines = patterns(), [line for line, *_ in LINES]
        for line, names in zip(lines, from_vim(script, lines), strict=True):
            with self.subTest(line):
                kinds = [name.removeprefix("dexasm") for name in names]
                self.assertEqual(words_of(line, kinds), words_of(line, kinds_in(line, rows)))

    def test_places(self) -> None:
        """The problem matcher finds the place in a line of dexasm-check."""
        with open(PACKAGE, encoding="utf8") as file:
            pattern = json.load(file)["contributes"]["problemMatchers"][0]["pattern"]
        found = re.match(pattern["regexp"], FAULT)
        assert found is not None
        self.assertEqual([found[pattern[part]] for part in ("file", "line", "column", "message")], PARTS)

    @needs_vim
    def test_vim_places(self) -> None:
        script = f"compiler! dexasm\ncgetexpr ['a.txt: ok', '{FAULT}']\nlet found = getqflist()\n" \
                 "call map(found, '[bufname(v:val.bufnr), v:val.lnum, v:val.col, v:val.text, v:val.type]')\n"
        self.assertEqual(from_vim(script, []), [[PARTS[0], 5, 9, PARTS[3], "e"]])
