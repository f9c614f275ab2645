"""The proofs say that the program does what the definitions below specs/ say, not that those are the rules of
docs/FORMAT.md and docs/LISTING.md. This compares it with a second reading of both pages, written apart from the
definitions, by hand. Where the two differ, one of them or a page is wrong; where they agree, both may be wrong in the
same way.

There are three comparisons, each on worked examples (those of files with their edge cases) and on cases made at random:
  check  `check` with faults.py, on files changed at random, most of them at fault (3000 of them)
  texts  `assemble` and `list` with listing.py and writing.py, on listings, most of them at fault (1500); where large
         ones are asked for also on those that are at the edges of the limits of a file, which takes a minute or two
  files  `strip` and `list` with reading.py, writing.py and listing.py, on files without fault (500), among them one
         program spelled in nineteen ways
The files of `check` are made of random programs, and of those .dex files below a folder that is named that have no
fault and at most 64 KB; larger ones are compared as they are. `files` compares the .dex files below it too. A case on
which the two differ is kept in a temporary folder, and a line says what each answers. config.py says by what these are
named.
"""
import collections
import itertools
import os
import random
import subprocess
import tempfile
from collections.abc import Iterator
from typing import Any

from .. import config
from ..base import LIMIT
from . import faults
from .edge_cases import edge_cases
from .examples import examples
from .listing import parse, print_listing
from .loose import file_examples, random_files
from .mutating import Spots, mutated, random_samples
from .pages import NUMBERS, Refusal
from .reading import read
from .spelled import spelled
from .textexamples import text_examples
from .texts import random_texts
from .writing import align, write

LARGEST = 1 << 16  # bytes of a file below FOLDER that is changed
OK = b"ok\n"
Answer = bytes | str


def answer_of(program: str, words: list[str], data: bytes) -> Answer:
    """What the program writes; where it refuses, its line as a text; where it does neither as the manual says, how."""
    try:
        done = subprocess.run([program, *words], input=data, capture_output=True, timeout=LIMIT)
    except subprocess.TimeoutExpired:
        return f"no answer within {LIMIT} s"
    if (done.returncode, done.stderr) == (0, b""):
        return done.stdout
    if (done.returncode, done.stdout) == (1, b""):
        return done.stderr.decode("latin1")
    return f"status {done.returncode}, {done.stdout[:60]!r}, {done.stderr[:200]!r}"


def shown(answer: Answer) -> str:
    return answer.strip() if isinstance(answer, str) else f"{len(answer)} bytes"


class Comparison:
    """Cases of one of the three comparisons, how many differed, and which faults there were."""

    folder: str | None
    counts: collections.Counter[tuple[str, str] | None]

    def __init__(self, program: str, tables: list[str]) -> None:
        self.program, self.tables = program, tables
        self.tried, self.folder = 0, None
        self.differing: list[tuple[str, str]] = []
        self.counts = collections.Counter()

    def keep(self, data: bytes, suffix: str) -> str:
        self.folder = self.folder or tempfile.mkdtemp(prefix="oracle-")
        path = os.path.join(self.folder, f"{len(self.differing)}{suffix}")
        with open(path, "wb") as file:
            file.write(data)
        return path

    def are_one(self, what: str, data: bytes, suffix: str, answers: list[tuple[str, Answer]]) -> bool:
        """Whether the answers, as (whose, answer), are one; where they aren't, the case is noted and kept."""
        if all(answer == answers[0][1] for _, answer in answers):
            return True
        said = "; ".join(f"{whose}: {shown(answer)}" for whose, answer in answers)
        self.differing.append((what, f"{said}; kept in {self.keep(data, suffix)}"))
        return False

    def run(self) -> None:
        """Compares all cases."""
        raise NotImplementedError

    def summary(self) -> str:
        names = [(table, name) for table in self.tables for name in NUMBERS[table] if name not in ("Memory", "TooBig")]
        missing = [f"{NUMBERS[table][name]} {name}" for table, name in names if (table, name) not in self.counts]
        return f"{self.counts[None]} accepted; faults that no case had: {', '.join(missing) or 'none'}"


class CheckComparison(Comparison):
    def __init__(self, program: str) -> None:
        super().__init__(program, ["file"])
        self.samples: list[Spots] = []

    def line(self, answer: tuple[str, int] | None) -> Answer:
        """How the program says this answer."""
        return OK if answer is None else str(Refusal("file", *answer))

    def compare(self, what: str, data: bytes, *given: tuple[str, int] | None) -> None:
        """Whether the program, the second reading, and the answer that an example has are one."""
        self.tried += 1
        reading = faults.fault(data)
        self.counts[reading and ("file", reading[0])] += 1
        answers = [("program", answer_of(self.program, ["check"], data)), ("second reading", self.line(reading))]
        self.are_one(what, data, ".dex", answers + [("example", self.line(each)) for each in given])

    def compare_sample(self, what: str, data: bytes, *given: tuple[str, int] | None) -> None:
        """The same of a file that is changed afterwards, where it has no fault and isn't too large."""
        self.compare(what, data, *given)
        if len(data) <= LARGEST and faults.fault(data) is None:
            self.samples.append(Spots(data))

    def run(self) -> None:
        for what, data, answer in examples():
            self.compare_sample(what, data, answer)
        for what, data, answer in edge_cases():
            self.compare(what, data, answer)
        for path, data in files_below(config.files()):
            self.compare_sample(path, data)
        seed = config.seed()
        rng = random.Random(seed)
        for i, data in enumerate(random_samples(rng, 100)):
            self.compare_sample(f"sample {i} of seed {seed}", data)
        for i, data in enumerate(itertools.islice(mutated(rng, self.samples), config.count(3000))):
            self.compare(f"file {i} of seed {seed}", data)


class TextComparison(Comparison):
    def __init__(self, program: str) -> None:
        super().__init__(program, ["listing", "rules", "written"])

    def compare(self, what: str, text: bytes, is_aligned: bool, *given: tuple[str, str, int] | None) -> None:
        """Whether both refuse the text with one line or make one file of it, and list that file in one way."""
        self.tried += 1
        words = ["assemble"] + ["--align"] * is_aligned
        classes: Any = parse(text)
        if is_aligned and not isinstance(classes, Refusal):
            classes = align(classes)
        reading: Any = classes if isinstance(classes, Refusal) else write(classes)
        is_refused = isinstance(reading, Refusal)
        self.counts[(reading.table, reading.name) if is_refused else None] += 1
        answers = [("program", answer_of(self.program, words, text))]
        answers.append(("second reading", str(reading) if is_refused else reading))
        for example in given:
            answers.append(("example", str(Refusal(*example)) if example else b"" if is_refused else reading))
        what = " ".join([what, *words[1:]])
        if self.are_one(what, text, ".txt", answers) and not is_refused:
            listed = answer_of(self.program, ["list"], reading)
            self.are_one(f"{what}, listed", text, ".txt", [("program", listed), ("second reading",
                print_listing(classes))])

    def run(self) -> None:
        for what, text, is_aligned, answer in text_examples(config.is_large()):
            self.compare(what, text, is_aligned, answer)
        seed = config.seed()
        cases = random_texts(random.Random(seed))
        for i, (text, is_aligned) in enumerate(itertools.islice(cases, config.count(1500))):
            self.compare(f"text {i} of seed {seed}", text, is_aligned)


class FileComparison(Comparison):
    def __init__(self, program: str) -> None:
        super().__init__(program, [])

    def compare(self, what: str, data: bytes, *wanted: bytes | Refusal) -> None:
        """Whether both write one file of what this file means, the wanted one, and list it in one way."""
        self.tried += 1
        classes = read(data)
        written: Any = write(classes)
        is_refused = isinstance(written, Refusal)
        self.counts[(written.table, written.name) if is_refused else None] += 1
        stripped = answer_of(self.program, ["strip"], data)
        answers = [("program", stripped), ("second reading", str(written) if is_refused else written)]
        self.are_one(f"{what}, stripped", data, ".dex", answers + [("the wanted file", each) for each in wanted])
        listed = answer_of(self.program, ["list"], data)
        self.are_one(f"{what}, listed", data, ".dex", [("program", listed), ("second reading", print_listing(classes))])

    def run(self) -> None:
        found = [*((path, data) for path, data in files_below(config.files())),
                 *((f"example: {what}", data) for what, data, _ in (*examples(), *edge_cases())),
                 *((f"example: {what}", data) for what, data in file_examples())]
        for what, data in found:
            if faults.fault(data) is None:
                self.compare(what, data)
        classes, files = spelled()
        written = write(classes)
        if len({written, *(data for _, data in files)}) <= len(files):
            self.differing.append(("spelled otherwise", "two of the files are one"))
        for what, data in files:
            self.compare(f"spelled otherwise: {what}", data, written)
        seed = config.seed()
        cases = random_files(random.Random(seed))
        for i, (data, is_packed) in enumerate(itertools.islice(cases, config.count(500))):
            self.compare(f"file {i} of seed {seed}", data, *[data] * is_packed)


def files_below(folder: str) -> Iterator[tuple[str, bytes]]:
    """The .dex files of a folder, each as its path and its bytes."""
    for at, folders, names in os.walk(folder):
        folders.sort()
        for name in sorted(names):
            if name.endswith(".dex"):
                path = os.path.join(at, name)
                with open(path, "rb") as file:
                    yield path, file.read()
