"""The built program with one request for memory refused: the first, the second, and so on, until a run ends without a
refusal. (Not the launcher, a script with requests of its own.)

A run with a refused request ends with status 4 and its line, with nothing written, or with the right answer; a run
without one gives the right answer. By the program of crates/bench single calls are tried too: `parse`, `print_1`,
`Tables::read`, `read_code`, `Needed` with its `freeze`, and `read`, `write`, `strip`, `align_all`, `print` and `run`;
each gives the right sum, or is told as 255. And `put_uleb`, `put_sleb`, `put_mutf8`, `put_insn`, `put_array` and
`put_code`, each on a Vec that has no room left, which is as it was after a refusal. What is counted is the requests
that were refused."""
import itertools
import os
import subprocess

from .. import TOP, config
from ..base import LIMIT, TestCase, compiler, get
from ..samples import BRANCHES, NUMBERED, ODD, ONE_CLASS

LINE = b"dexasm: out of memory\n"
MOST = 50  # failures, after which a call isn't tried further
Got = tuple[int | str, bytes, bytes | None, bytes]  # status, standard output, OUT, standard error


# How bench tells that a call, or the making of what it works on, was refused memory.
TOLD = (b"refused 255 at 0\n", b"fault 255\n", b"no memory\n")
PUTS = ("put_uleb", "put_sleb", "put_mutf8", "put_insn", "put_array", "put_code")


class MemoryTest(TestCase):
    """A test of the program with requests refused, by a library that a folder of its own has."""

    def setUp(self) -> None:
        self.program, self.folder = config.program(), self.new_folder()
        source = os.path.join(os.path.dirname(os.path.abspath(__file__)), "refuse.c")
        words = [*compiler(), "-O2", "-shared", "-fPIC", "-o", os.path.join(self.folder, "refuse.so"), source]
        subprocess.run(words, check=True)

    def ran(
        self, words: list[str], given: bytes, out: str | None, refused_at: int = 0, of: str | None = None
    ) -> tuple[Got, bool]:
        """Status, standard output, OUT's bytes, standard error, and whether a request was refused; of the program, or
        of another one."""
        reads, writes = os.pipe()
        # (by a path without a space, where the loader would cut it)
        env = {**os.environ}
        if refused_at:
            env |= {"LD_PRELOAD": "./refuse.so", "REFUSE_AT": str(refused_at), "REFUSE_TO": str(writes)}
        if out and os.path.exists(out):
            os.remove(out)
        try:
            done = subprocess.run([of or self.program, *words], input=given, capture_output=True, env=env,
                                  cwd=self.folder, pass_fds=[writes], timeout=LIMIT)
        except subprocess.TimeoutExpired:
            # (it counts as an end that isn't right, and as the last one of this call)
            os.close(reads)
            os.close(writes)
            return ("late", b"", None, f"no answer within {LIMIT} s".encode()), False
        os.close(writes)
        was_refused = os.read(reads, 1) == b"!"
        os.close(reads)
        made = get(out) if out and os.path.exists(out) else None
        return (done.returncode, done.stdout, made, done.stderr), was_refused


class Commands(MemoryTest):
    """Each command of the program, on a small program and on one with tries."""

    def sweep(self, what: str, words: list[str], given: bytes = b"", out: str | None = None) -> None:
        """Every request of this call, refused in turn, up to a run without a refusal."""
        right, failed = self.ran(words, given, out)[0], 0
        for at in itertools.count(1):
            got, was_refused = self.ran(words, given, out, at)
            is_left = out is not None and any(name.endswith(".part") for name in os.listdir(self.folder))
            is_right = (got == right or was_refused and got == (4, b"", None, LINE)) and not is_left
            if was_refused or not is_right:
                seen = f"{got[0]} {got[1][:60]!r} {got[3][:200]!r}{', and a file beside OUT' * is_left}"
                self.check(f"{what}: request {at}", is_right, seen)
            failed += not is_right
            if not was_refused or failed > MOST:
                return

    def sweep_commands(self, name: str, listing: bytes) -> None:
        out = os.path.join(self.folder, "out")
        (status, file, _, said), _ = self.ran(["assemble"], listing, None)
        self.assertEqual(status, 0, said)
        for job, given in (("check", file), ("list", file), ("strip", file), ("assemble", listing)):
            self.sweep(f"{job} {name}", [job], given)
            self.sweep(f"{job} {name} with OUT", [job, "--output", out], given, out)
            self.sweep(f"{job} {name} with OUT in place", [job, "--output", os.devnull], given)
        self.sweep(f"assemble --align {name}", ["assemble", "--align"], listing)

    def test_small(self) -> None:
        self.sweep_commands("small", NUMBERED.encode())

    def test_tries(self) -> None:
        self.sweep_commands("tries", BRANCHES.encode())

    def test_align(self) -> None:
        self.sweep("assemble --align", ["assemble", "--align"], ODD.encode())

    def test_words(self) -> None:
        for words in ("--help", "check --help", "--version", "no-job", "list --all", ""):
            self.sweep(words or "no words", words.split())


class Calls(MemoryTest):
    """Single calls, by the program of crates/bench."""

    def setUp(self) -> None:
        self.bench = config.bench()
        super().setUp()
        self.file = get(os.path.join(TOP, "crates/bench/stdin"))

    def sweep(self, words: list[str], given: bytes = b"") -> None:
        """Every request of a run of bench, refused in turn, those of its start too."""
        (status, right, _, said), _ = self.ran(words, given, None, of=self.bench)
        self.assertTrue(status == 0 and right not in TOLD, f"{right!r} {said[:200]!r}")
        failed = 0
        for at in itertools.count(1):
            (status, got, _, said), was_refused = self.ran(words, given, None, at, of=self.bench)
            is_told = status == 0 and got in TOLD or status == 1 and got == b""
            is_right = (status, got) == (0, right) or was_refused and is_told
            if was_refused or not is_right:
                what = f"bench {' '.join(words)}: request {at}"
                self.check(what, is_right, f"{status} {got[:60]!r} {said[:200]!r}")
            failed += not is_right
            if not was_refused or failed > MOST:
                return

    def test_parse(self) -> None:
        self.sweep(["listing", "parse", "1", "2"])

    def test_print(self) -> None:
        self.sweep(["listing", "print", "1", "2"])

    def test_tables(self) -> None:
        self.sweep(["tables", "1"], self.file)

    def test_code(self) -> None:
        self.sweep(["code", "1"], self.file)

    def test_needed(self) -> None:
        self.sweep(["needed", "method", "20", "random"])

    def test_whole(self) -> None:
        """Whole files and programs; the jobs of `run` into a writer that has room."""
        for listing in (BRANCHES, ONE_CLASS):
            (status, file, _, said), _ = self.ran(["assemble"], listing.encode(), None)
            self.assertEqual(status, 0, said)
            for name in ("read", "write", "strip", "align_all", "print", "run-check", "run-list", "run-strip"):
                self.sweep(["calls", name], file)
            self.sweep(["calls", "run-assemble"], listing.encode())

    def test_puts(self) -> None:
        """The calls that append: that call alone which was refused says so, and that its Vec is as it was."""
        (status, right, _, said), _ = self.ran(["puts"], b"", None, of=self.bench)
        lines, kept = right.decode().splitlines(), set[str]()
        begins = [(line.split()[0], line.split()[2:3]) for line in lines]
        self.assertEqual((status, begins), (0, [(name, ["bytes,"]) for name in PUTS]), said[:200])
        failed = 0
        for at in itertools.count(1):
            (status, got, _, said), was_refused = self.ran(["puts"], b"", None, at, of=self.bench)
            others = [line for line in got.decode().splitlines() if line not in lines]
            as_it_was = [name for name in PUTS if others == [f"{name} refused 255, as it was"]]
            not_begun = [name for name in PUTS if others == [f"{name} not begun"]]
            if was_refused and status == 0:
                is_right = len(got.splitlines()) == len(lines) and bool(as_it_was or not_begun or not others)
            else:
                is_right = was_refused and (status, got) == (1, b"") or (status, got) == (0, right)
            if was_refused or not is_right:
                self.check(f"bench puts: request {at}", is_right, f"{status} {others} {said[:200]!r}")
            kept.update(as_it_was)
            failed += not is_right
            if not was_refused or failed > MOST:
                break
        self.assertEqual(kept, set(PUTS), "which of them were refused memory")
