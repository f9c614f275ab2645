"""The program beside the second reading (comparing.py says how), and the test vectors."""
import os
import re
import subprocess
import sys

from .. import config
from ..base import TestCase, get
from . import faults, vectors
from .comparing import CheckComparison, Comparison, FileComparison, TextComparison
from .pages import DOCS, NUMBERS, Refusal


class SecondReading(TestCase):
    """Each comparison is one test: its cases are too many for a sub-test each, which those that differ are."""

    def setUp(self) -> None:
        self.program = config.program()
        self.addCleanup(sys.setrecursionlimit, sys.getrecursionlimit())
        self.addCleanup(sys.set_int_max_str_digits, sys.get_int_max_str_digits())
        sys.setrecursionlimit(10000)  # a value may be more than 64 deep before it's refused
        sys.set_int_max_str_digits(0)  # a number may have many zeros

    def compare(self, name: str, comparison: Comparison) -> None:
        comparison.run()
        failed = len(comparison.differing)
        self.more += comparison.tried - failed
        for what, said in comparison.differing:
            self.check(what, False, said)
        print(f"{name}: {comparison.tried} tried, {failed} failed; {comparison.summary()}", flush=True)

    def test_check(self) -> None:
        self.compare("check", CheckComparison(self.program))

    def test_texts(self) -> None:
        self.compare("texts", TextComparison(self.program))

    def test_files(self) -> None:
        self.compare("files", FileComparison(self.program))


class Vectors(TestCase):
    def test_program(self) -> None:
        """The program does what the manifest of tests/vectors expects."""
        for one in vectors.vectors():
            path = os.path.join(vectors.FOLDER, one.name)
            done = subprocess.run([config.program(), one.command, path], capture_output=True, text=True)
            with self.subTest(one.name):
                wanted = (0, "ok\n", "") if one.expected == "ok" else (1, "", f"{one.expected}\n")
                self.assertEqual((done.returncode, done.stdout, done.stderr), wanted)

    def test_second_reading(self) -> None:
        """The second reading expects of each file what the manifest does."""
        for one in vectors.vectors():
            if one.command == "check":
                found = faults.fault(one.data)
                with self.subTest(one.name):
                    self.assertEqual(f"{Refusal('file', *found)}".rstrip() if found else "ok", one.expected)

    def test_folder(self) -> None:
        """tests/vectors is as it would be written."""
        self.assertEqual({name: get(os.path.join(vectors.FOLDER, name)) for name in sorted(os.listdir(vectors.FOLDER))},
                         dict(sorted(vectors.contents().items())))

    def test_errors(self) -> None:
        """docs/ERRORS.md has a section for each fault, and in it the vector that is named by it, with its place."""
        with open(os.path.join(DOCS, "ERRORS.md"), encoding="utf8") as page:
            sections = re.findall(r"^### (\d+ \w+)\n(.*?)(?=^#|^---)", page.read(), re.M | re.S)
        texts = {head: " ".join(text.split()) for head, text in sections}
        named = {f"{number} {name}" for table in NUMBERS.values() for name, number in table.items()}
        self.assertEqual(set(texts), named)
        refused = [one for one in vectors.vectors() if re.fullmatch(r"\d+-\w+\.\w+", one.name)]
        self.assertEqual({one.command for one in refused if one.name.endswith(".dex")}, {"check"})
        self.assertEqual({one.command for one in refused if one.name.endswith(".txt")}, {"assemble"})
        for one in refused:
            with self.subTest(one.name):
                fault, _, place = one.expected.removeprefix("dexasm: refused ").partition(" at ")
                self.assertIn(f"[Example](../tests/vectors/{one.name}): at {place}.", texts[fault])
