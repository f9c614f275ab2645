"""The .dex files that the pages are of, of which an archive can have several: whose class is whose, and its bytes."""
from __future__ import annotations

from bisect import bisect_right
from collections.abc import Iterable, Iterator
from typing import TYPE_CHECKING

from dexasm.analysis.sizes import rows_of
from dexasm.cli.core import as_dex, concatenate, read_program, run_job
from dexasm.cli.errors import FAILED, CliError
from dexasm.cli.main import print_error
from dexasm.dexfile import KINDS, Tables, addresses, code_sizes

if TYPE_CHECKING:
    from dexasm.cli.inputs import Input
    from dexasm.program import Program


class File:
    """One of them. Its classes have the rows from `first` on among those of all."""

    def __init__(self, source: Input, first: int) -> None:
        self.name, self.entry, self.first = source.name, source.entry, first
        self.data = as_dex(source.data, source.name)
        self.program = read_program(self.data, source.name)
        self.end = first + len(self.program.classes)

    def measure(self, prog: str) -> None:
        """Its bytes: by class and what is no class's, and of each method that has code."""
        stripped = run_job("strip", data=self.data)
        if stripped.status == FAILED:
            raise CliError(f"{self.name}: {stripped.message()}")
        if stripped.status:
            print_error(f"{prog}: {self.name}: it can't be stripped, so nothing is said of that: {stripped.message()}")
        self.tables = Tables(self.data)
        self.sizes = rows_of(self.data, None if stripped.status else stripped.output)
        self.code_sizes = [size for row in code_sizes(self.tables) for size in row]
        self.stripped = None if stripped.status else len(self.data) - len(stripped.output)

    def size_of(self, name: str) -> str:
        """What a class takes, in words."""
        total, *taken, strip = self.sizes[name]
        kinds = ", ".join(f"{kind} {count:,}" for kind, count in zip(KINDS, taken) if count)
        return f"{total:,} ({kinds})" + (f"; strip takes away {strip:,}" if strip else "")

    def places(self, row: int) -> Iterator[Iterator[tuple[int, int]]]:
        """Where the instructions of each code of a class are."""
        return (addresses(self.data, code) for code, _ in self.tables.codes_of(row - self.first, None))


class Files:
    """All of them, in the order in which a device looks for a class."""

    def __init__(self, data: Iterable[Input]) -> None:
        self.all: list[File] = []
        for one in data:
            self.all.append(File(one, self.all[-1].end if self.all else 0))
        self.firsts = [file.first for file in self.all]
        self.are_several = len(self.all) > 1
        self.these = "these files" if self.are_several else "this file"

    def __iter__(self) -> Iterator[File]:
        return iter(self.all)

    def program(self) -> Program:
        return concatenate([file.program for file in self.all])

    def of(self, row: int) -> File:
        """The file of a class. (One without classes has the same first row as the next.)"""
        return self.all[bisect_right(self.firsts, row) - 1]

    def name(self, row: int) -> str:
        """The name of a class's file, where there are several."""
        return self.of(row).entry if self.are_several else ""
