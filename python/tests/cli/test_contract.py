"""What every helper promises, whatever it does: each case below is a test of each entry point, as in
test_full_output_of_dexasm_merge. A new helper needs a row in HELPERS.
"""
import os
import shlex
import tempfile
from collections.abc import Callable

from tests.matchers import Begins, Lacks

from .archive_files import archive
from .shell_runs import fake

from .support import (
    ESC, HEAD, LISTING, NAMES, TOOLS, Ended, HelperTest, Line, assembled, has_pages, in_turn, puts, room, run, shell,
    tool
)

# For each helper words with which it succeeds, where {} is the file that it reads; its name, and the words after that.
HELPERS = {
    "apk": ("check -- {}", "a.apk"), "browse": ("--output pages -- {}", "a.dex"), "check": ("-- {}", "a.dex"),
    "close": ("--check -- {}", "a.dex"), "corpus": ("sum -- {}", "c.db"), "diff": ("--names -- {} b.dex", "a.dex"),
    "explain": ("-- {} <refusal", "a.dex"), "graph": ("--calls -- {}", "a.dex"), "info": ("-- {}", "a.dex"),
    "lint": ("-- {}", "lint.dex"), "merge": ("--output merged -- {} c.txt", "b.dex"),
    "query": ("classes -- {}", "a.dex"), "rename": ("--output renamed -- {} A=Z", "a.dex"), "size": ("-- {}", "a.dex"),
    "split": ("-- {} split", "a.dex")
}
FAILED = {"diff": 2}  # the status where something can't be read or written, if it isn't 3
DIFFERENT = {"diff": 1}  # that of a run that goes well, if it isn't 0
SILENT = ("browse", "merge", "rename", "split")  # on standard output
# Commands in place of dexasm, by what they do, and the status of a helper over them.
COMMANDS = {"kill -9 $$": 3, "exit 70": 3, "exit 1": 3, "true": 3, "echo x": 3, "exec cat given": 3,
            "echo dexasm: out of memory >&2; exit 4": 4}
WITHOUT = ("close", "corpus", "explain")  # what runs no command with these words
UNREAD = "( sleep 0.3; {} ) | true; exit ${{PIPESTATUS[0]}}"
PLAIN = {"PYTHONOPTIMIZE": "2", "PYTHONSAFEPATH": "1"}  # no docstrings, and no module beside the program

Case = Callable[["Contract", str], None]


def words_of(name: str, file: str | None = None) -> str:
    words, given = HELPERS[name]
    return f"dexasm-{name} {words.format(shlex.quote(given if file is None else file))}"


class Contract(HelperTest):
    """Each method `case_..` is a case."""

    at: str
    files: list[str]

    @classmethod
    def setUpClass(cls) -> None:
        """Puts all that the words name into a folder."""
        super().setUpClass()
        at = cls.at = room("contract")
        file = assembled(LISTING)
        puts(at, {
            "a.dex": file, "b.dex": assembled(HEAD + b"class LA; 0x1\nend class\n"),
            "lint.dex": assembled(HEAD + b"class LA; 0x1\nsuper Ljava/lang/Object;\nend class\n"),
            "c.txt": HEAD + b"class LB; 0x1\nsuper LA;\nend class\n", "a.apk": archive(("classes.dex", file)),
            "refusal": b"dexasm: refused 1 TooShort at 7\n", "given": HEAD + b"class LA; 0x1\nvirtual m\nend class\n"
        })
        shell("dexasm-corpus add --processes 1 c.db a.dex", at)
        cls.files = os.listdir(at)

    def ended(self, text: str, **env: str) -> Ended:
        return shell(text, self.at, **env)

    def assert_line(self, seen: Ended, status: int, name: str) -> None:
        """A status, nothing on standard output, and a line on standard error."""
        self.assertEqual(seen[:2], (status, ""), seen[2])
        self.assertEqual(seen[2], Line(f"dexasm-{name}: "))

    def case_help(self, name: str) -> None:
        """The same without docstrings."""
        seen = self.ended(f"dexasm-{name} --help")
        self.assertEqual((seen[0], seen[2]), (0, ""))
        self.assertRegex(seen[1], rf"^\S[^\n]*[.:]?\n(?s:.*)usage: dexasm-{name} (?s:.*)Exit status")
        self.assertEqual(self.ended(f"dexasm-{name} -h"), seen)
        self.assertEqual(self.ended(f"dexasm-{name} --help", **PLAIN), seen)

    def case_version(self, name: str) -> None:
        for word in ("--version", "-V"):
            seen = self.ended(f"dexasm-{name} {word}")
            self.assertEqual((seen[0], seen[2]), (0, ""))
            self.assertRegex(seen[1], rf"^dexasm-{name} [0-9]+\.[0-9]+\.[0-9]+(-\w+)?\n")

    def case_bad_option(self, name: str) -> None:
        seen = self.ended(words_of(name).replace(" -- ", " --versoin -- "))
        self.assertEqual(seen[:2], (2, ""))
        self.assertRegex(seen[2], rf"^usage: dexasm-{name} ")
        self.assertIn(f"\ndexasm-{name}: unrecognized arguments: --versoin", seen[2])
        self.assertTrue(seen[2].endswith("\n  tip: a similar argument exists: '--version'\n"), seen[2])

    def case_no_words(self, name: str) -> None:
        """Either what is missing, or standard input, which is empty here."""
        seen = run([os.path.join(TOOLS, f"dexasm-{name}")], at=self.at)
        self.assertIn(seen[0], (0, 1, 2), seen)
        self.assertNotIn("Traceback", seen[2])

    def case_missing_file(self, name: str) -> None:
        seen = self.ended(words_of(name, "none"))
        self.assertEqual(seen[0], FAILED.get(name, 3), seen)
        if name == "check":
            self.assertEqual(seen[1:], ("none: error: No such file or directory\n", ""))
        else:
            self.assert_line(seen, FAILED.get(name, 3), name)
            self.assertIn("none", seen[2])

    def copied(self) -> str:
        """Another folder with the same files."""
        at = tempfile.mkdtemp(dir=self.at)
        for name in self.files:
            os.link(os.path.join(self.at, name), os.path.join(at, name))
        return at

    def case_hostile_name(self, name: str) -> None:
        """As those of files that are there, and of such that aren't."""

        def seen_of(file: str) -> tuple[Ended, Ended, list[str]]:
            at = self.copied()
            os.link(os.path.join(at, HELPERS[name][1]), os.path.join(at, file))
            there = shell(words_of(name, file), at)
            os.unlink(os.path.join(at, file))
            return there, shell(words_of(name, file), at), os.listdir(at)

        status, lacks = DIFFERENT.get(name, 0), Lacks(ESC, "Traceback")
        for (file,), seen in in_turn(seen_of, [(file,) for file in NAMES]):
            with self.subTest(file):
                missing = (FAILED.get(name, 3), lacks, lacks)
                self.assertEqual(seen, ((status, lacks, lacks), missing, Lacks("PWNED")))

    def case_full_output(self, name: str) -> None:
        seen = self.ended(f"rm -rf split; {words_of(name)} >/dev/full")
        if name in SILENT:
            self.assertEqual(seen, (0, "", ""))
        else:
            self.assert_line(seen, FAILED.get(name, 3), name)

    def case_closed_output(self, name: str) -> None:
        self.assert_line(self.ended(f"rm -rf split; {words_of(name)} >&-"), FAILED.get(name, 3), name)

    def case_closed_input(self, name: str) -> None:
        if name in ("apk", "corpus"):
            self.skipTest("no file of it can be standard input")
        text = "dexasm-explain" if name == "explain" else f"rm -rf split; {words_of(name, '-')}"
        seen = self.ended(f"{text} <&-")
        self.assert_line(seen, FAILED.get(name, 3), name)
        self.assertIn("standard input: it is closed", seen[2])

    def case_unread_output(self, name: str) -> None:
        seen = self.ended(UNREAD.format(f"rm -rf split; {words_of(name)}"))
        self.assertEqual(seen, (DIFFERENT.get(name, 0), "", ""))

    def case_no_streams(self, name: str) -> None:
        """Nothing can be said, so that the status alone says it."""
        wants = (0,) if name in SILENT else (FAILED.get(name, 3),)
        seen = self.ended(f"rm -rf split; {words_of(name)} >/dev/full 2>/dev/full")
        self.assertIn(seen[0], wants)
        seen = self.ended(f"{words_of(name)} >&- 2>&- <&-")
        self.assertIn(seen[0], (2, 3))
        self.assertEqual(self.ended(f"dexasm-{name} --none 2>/dev/full")[0], 2)

    def case_full_help(self, name: str) -> None:
        """As a Python writes it that has a buffer, and one that has none, as in most images of containers."""
        for word in ("--help", "--version"):
            for env in (dict[str, str](), {"PYTHONUNBUFFERED": "1"}):
                with self.subTest(word, **env):
                    self.assert_line(self.ended(f"dexasm-{name} {word} >/dev/full", **env), FAILED.get(name, 3), name)
        self.assertEqual(self.ended(UNREAD.format(f"dexasm-{name} --help")), (0, "", ""))

    def case_commands(self, name: str) -> None:
        """Over a dexasm that isn't there, or whose output can't be parsed: a line, and the status of a failure."""
        if name in WITHOUT:
            self.skipTest("it runs no command")

        def seen_of(does: str, _: int) -> tuple[Ended, list[str]]:
            at = self.copied()
            path = does if does[0] == "/" else fake(at, "fake", does)
            return shell(words_of(name), at, DEXASM_COMMAND=path), os.listdir(at)

        begins = "classes.dex: dexasm" if name == "apk" else f"dexasm-{name}: "
        for (does, status), seen in in_turn(seen_of, COMMANDS.items()):
            with self.subTest(does):
                # (a worker tells no reason why it doesn't start)
                status = 3 if name == "check" else FAILED.get(name, status)
                # (these don't parse a listing)
                is_text = "given" in does and name in ("diff", "split")
                want = (0, "", "") if is_text else (status, "", Line(begins))
                self.assertEqual(seen, (want, Lacks("merged", "pages", "renamed")))

    def case_hostile_option(self, name: str) -> None:
        seen = run([os.path.join(TOOLS, f"dexasm-{name}"), f"--{ESC}[31m\n"], at=self.at)
        self.assertEqual(seen, (2, "", Begins(f"usage: dexasm-{name} ") & Lacks(ESC)))

    def case_plain_python(self, name: str) -> None:
        """A Python without docstrings, and one that says what isn't closed."""
        for env in (PLAIN, {"PYTHONWARNINGS": "error::ResourceWarning"}):
            with self.subTest(**env):
                seen = self.ended(f"rm -rf split; {words_of(name)}", **env)
                self.assertEqual((seen[0], seen[2]), (DIFFERENT.get(name, 0), ""))


class Options(HelperTest):
    """Options of all helpers, which one parser reads."""

    def test_entry_points(self) -> None:
        """Each entry point has a row here."""
        self.assertEqual(sorted(os.listdir(TOOLS)), [f"dexasm-{name}" for name in HELPERS])

    def test_twice(self) -> None:
        """An option is given once, but for those that are lists."""
        at = room("contract twice", {"a.dex": assembled(LISTING)})
        for words in (
            "merge -o x --output y a.dex", "check -q a.dex -q", "check --jobs 1 --jobs=2 a.dex", "info --json --json a"
        ):
            with self.subTest(words):
                seen = shell(f"dexasm-{words}", at)
                self.assertEqual(seen[:2], (2, ""))
                self.assertIn(": cannot be used multiple times\n", seen[2])
        seen = tool("dexasm-check", "--exclude", "b", "--exclude", "c", "a.dex", at=at)
        self.assertEqual(seen, (0, "a.dex: ok\n", ""))

    def test_short(self) -> None:
        """-o and -q, as the command has them."""
        at = room("contract short", {"a.dex": assembled(LISTING)})
        for words in (
            "close -q a.dex -o b.dex", "merge -q a.dex -o c.dex", "rename -q a.dex A=Z -o d.dex", "check -q a.dex"
        ):
            self.assertEqual(shell(f"dexasm-{words}", at), (0, "", ""), words)
        self.assertEqual(sorted(os.listdir(at)), ["a.dex", "b.dex", "c.dex", "d.dex"])


def add_tests() -> None:
    """A method for each case and helper."""
    cases = {name.removeprefix("case_"): case for name, case in vars(Contract).items() if name.startswith("case_")}
    for helper in HELPERS:
        for name, case in cases.items():
            if helper != "browse" or has_pages():
                method = f"test_{name}_of_dexasm_{helper}"
                setattr(Contract, method, lambda self, case=case, helper=helper: case(self, helper))


add_tests()
