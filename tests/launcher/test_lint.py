"""`tools/lint words` refuses words of a private language in pages, manuals, help and messages, and in no code."""
import os
import shutil
import subprocess
import sys
import tempfile
import unittest

from .. import TOP

PAGE, HELP = "README.md", "crates/dexasm_plan/src/texts.rt"
MANUAL, HELPER = "docs/man/dexasm-x.1", "python/src/dexasm/cli/x.py"


def linted(path: str, text: str) -> tuple[int, str]:
    """Status and messages of `tools/lint words` over a repository with one file."""
    with tempfile.TemporaryDirectory() as folder:
        os.mkdir(os.path.join(folder, "tools"))
        shutil.copy(os.path.join(TOP, "tools", "lint"), os.path.join(folder, "tools"))
        parts = os.path.join(TOP, "tools", "parts")
        shutil.copytree(parts, os.path.join(folder, "tools", "parts"),
                        ignore=shutil.ignore_patterns("out", "__pycache__"))
        os.makedirs(os.path.join(folder, os.path.dirname(path)), exist_ok=True)
        with open(os.path.join(folder, path), "w", encoding="utf8") as file:
            file.write(f"{text}\n")
        done = subprocess.run([sys.executable, "tools/lint", "words"], cwd=folder, capture_output=True, text=True)
        return done.returncode, done.stderr


class LintTest(unittest.TestCase):
    def test_private_word(self) -> None:
        for path, text, word in (
            (PAGE, "The number stands there.", "stands"), (PAGE, "Whoever reads this.", "Whoever"),
            (PAGE, "It is made anew.", "anew"), (PAGE, "Nothing is\ntold, all is told.", "is told"),
            (PAGE, "It succeeds exactly if it fits.", "exactly if"), (MANUAL, ".PP\nIt stands there.", "stands"),
            (HELP, 'pub(crate) const LIST: &str = "Prints what stands there";', "stands"),
            (HELPER, 'raise Failed(f"{path}: a link stands on the way")', "stands"),
            (HELPER, 'WHY = {1: "nothing was looked at"}', "looked at"),
        ):
            with self.subTest(path=path, word=word):
                status, messages = linted(path, text)
                self.assertEqual(status, 1, messages)
                self.assertRegex(messages, rf"{path}:\d: {word}: write ")

    def test_plain_words_and_code(self) -> None:
        for path, text in (
            (PAGE, "The number is at offset 8."), (PAGE, "Run `./test --anew`."), (PAGE, "```\nstands\n```"),
            (HELP, "/// The help of `list` stands here."), (HELPER, '"""What stands there."""\nstands = "is there"'),
            (HELPER, 'QUERY = "select text from spelled"'),
        ):
            with self.subTest(path=path, text=text):
                self.assertEqual(linted(path, text), (0, ""))


if __name__ == "__main__":
    unittest.main()
