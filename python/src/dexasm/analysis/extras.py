"""Annotations and debug information of .dex files, which dexasm never writes: counts, and what is dropped."""
from __future__ import annotations

from collections.abc import Iterable
from typing import NamedTuple

from dexasm.cli.filetypes import DEX
from dexasm.cli.main import print_error
from dexasm.dexfile import Malformed, Read, Reader, Tables, read_annotation, read_directory, unpack


DEBUG_INFO_OFF = 8  # in a code_item


class Extras(NamedTuple):
    """How many annotations of each visibility there are, and methods with debug information."""

    build: int = 0
    runtime: int = 0
    system: int = 0
    debug: int = 0

    def lost(self, after: Extras) -> Extras:
        """How many less there are in another file."""
        return Extras(*(max(0, one - other) for one, other in zip(self, after)))

    def __str__(self) -> str:
        kinds = [f"{count} {name}" for name, count in zip(self._fields, self[:3]) if count]
        parts = [f"{', '.join(kinds)} annotations"] if kinds else []
        plural = "" if self.debug == 1 else "s"
        return " and ".join(parts + ([f"debug information of {self.debug} method{plural}"] if self.debug else []))


class Counter:
    """Counts the extras of a file that dexasm accepts. It does not check annotations, so they can be anything: each
    item is read once, and only a few bytes for each byte of the file.
    """

    def __init__(self, data: bytes) -> None:
        self.tables, self.data, self.left = Tables(data), data, [4 * len(data)]
        self.found: dict[tuple[Read, int], tuple[int, int, int]] = {}

    def whole(self) -> Extras:
        rows = range(self.tables.count["class"])
        codes = (code for row in rows for code, _ in self.tables.codes_of(row, None))
        debug = sum(unpack("<I", self.data, code + DEBUG_INFO_OFF) != (0,) for code in codes)
        places = (self.tables.numbers("class", row, "<8I")[5] for row in rows)
        return Extras(*total(self.annotations(read_directory, at) for at in places), debug)

    def annotations(self, read: Read, at: int) -> tuple[int, int, int]:
        """Those of an item and of all to which it refers, which is at most four levels deep."""
        if at == 0:
            return 0, 0, 0
        if (read, at) not in self.found:
            try:
                self.found[read, at] = self.counted(read, Reader(self.data, at, self.left))
            except Malformed:
                self.found[read, at] = 0, 0, 0
        return self.found[read, at]

    def counted(self, read: Read, reader: Reader) -> tuple[int, int, int]:
        if read is read_annotation:
            visibility = reader.byte()
            return int(visibility == 0), int(visibility == 1), int(visibility == 2)
        return total(self.annotations(of, at) for of, at in read(reader))


def total(counts: Iterable[tuple[int, int, int]]) -> tuple[int, int, int]:
    build = runtime = system = 0
    for one in counts:
        build, runtime, system = build + one[0], runtime + one[1], system + one[2]
    return build, runtime, system


def extras_of(data: bytes) -> Extras:
    """Those of a .dex file; none of what is no file that can be read, as a listing."""
    if not data.startswith(DEX):
        return Extras()
    try:
        return Counter(data).whole()
    except Malformed:
        return Extras()


def report_dropped(prog: str, name: str, before: bytes, after: bytes = b"") -> None:
    """Print a line on what a file has and the one made from it does not, if that is anything."""
    lost = extras_of(before).lost(extras_of(after))
    if any(lost):
        print_error(f"{prog}: {name}: {lost} dropped")
