"""Runs jobs of dexasm for a helper, and reads its inputs: files, listings, programs as objects."""
from __future__ import annotations

import functools
import os
import re
from typing import TYPE_CHECKING, NamedTuple

import dexasm
from dexasm.cli.errors import FAILED, MEMORY, REFUSED, CliError
from dexasm.cli.filetypes import DEX, ZIP
from dexasm.cli.inputs import Input, read_inputs
from dexasm.cli.sanitize import escaped

if TYPE_CHECKING:
    from dexasm._native import Build
    from dexasm.program import Program

REFUSAL = re.compile(r".*\brefused (\d{1,5}) (\w+) at (\d{1,20})(?:: .*)?$")


class JobResult(NamedTuple):
    """The result of a job: the command's exit status, its output, its line on standard error, and the refusal."""

    status: int
    output: bytes = b""
    line: str = ""
    refused: dexasm.Refused | None = None

    @property
    def error_lines(self) -> list[str]:
        return [f"dexasm: {self.line}"] if self.status else []

    def message(self) -> str:
        """Its line, which says why there is no output."""
        return f"dexasm: {escaped(self.line)}"

    def refusal(self) -> tuple[int, str, int] | None:
        """Number, name and place of a refusal, or None."""
        return (self.refused.number, self.refused.name, self.refused.place) if self.refused else None


def run_job(job: str, *words: str, data: bytes = b"") -> JobResult:
    """Runs a job over these bytes, `assemble` maybe with --align."""
    try:
        return JobResult(0, dexasm.core().run(job, data, "--align" in words))
    except dexasm.Refused as refused:
        return JobResult(REFUSED, line=refused.args[0], refused=refused)
    except MemoryError:
        return JobResult(MEMORY, line="out of memory")
    except ImportError as error:
        raise CliError(escaped(str(error))) from None
    except OSError as error:
        return JobResult(FAILED, line=str(error))


def run_or_fail(job: str, *words: str, data: bytes, name: str) -> bytes:
    """The output of a job over the bytes of a file of that name; where there is none, dexasm's line and status."""
    result = run_job(job, *words, data=data)
    if result.status:
        raise CliError(f"{name}: {result.message()}", result.status)
    return result.output


@functools.cache
def core_build() -> Build:
    """Which library or command runs the jobs; with DEXASM=proved in the environment only one known to be proved."""
    from dexasm._native import PROVED, build_of

    try:
        core = dexasm.core()
        found = build_of(core)
    except (ImportError, OSError, AttributeError) as error:
        raise CliError(f"no dexasm: {escaped(str(error))}") from None
    if os.environ.get("DEXASM") == PROVED and found.build != PROVED:
        raise CliError(f"DEXASM={PROVED}, but {escaped(core.path)} is the {found.build} build")
    return found


# How a listing begins, and one that lacks its first line or has a byte order mark before it.
LISTING = re.compile(rb"(?:\xef\xbb\xbf)?(?: *(?:#.*)?\r?\n)* *(?:dex +\w|class +L)")


def is_listing(data: bytes) -> bool:
    """Whether the bytes begin as a listing does, be it a right one or not."""
    return not data.startswith(DEX) and LISTING.match(data) is not None


def as_dex(data: bytes, name: str) -> bytes:
    """The .dex file of the bytes of a file of that name; of a listing the one that dexasm makes of it."""
    if is_listing(data):
        data = run_or_fail("assemble", data=data, name=name)
    if data.startswith(ZIP):
        raise CliError(f"{name}: a zip archive: name it as a file, since a stream of one can't be read")
    return data


def unescape(word: str) -> str:
    """A name or a text as it is: in a listing each character may stand as an escape. A lone surrogate stays one."""
    import json

    text: str = json.loads(word if word.startswith('"') else f'"{word}"')
    return text


def program_of(path: str | bytes | None) -> Program:
    """The program of a file, of a listing, or of all .dex files of an archive, as an object of the module for Python."""
    return concatenate([program_of_input(file) for file in read_inputs(path)])


def program_of_input(source: Input) -> Program:
    return read_program(as_dex(source.data, source.name), source.name)


def concatenate(programs: list[Program]) -> Program:
    """The classes of all as one program, in their order; a class may be there more than once."""
    if len(programs) == 1:
        return programs[0]
    from dexasm.program import HEAD, Program

    return Program.of_listing(HEAD + "".join(str(program).removeprefix(HEAD) for program in programs))


def read_program(data: bytes, name: str) -> Program:
    """The program of the bytes of a file of that name, by what dexasm lists of it."""
    return parse_program(run_or_fail("list", data=data, name=name).decode("ascii"), name)


def parse_program(listing: str, name: str) -> Program:
    """The program of what dexasm listed of a file of that name."""
    from dexasm.program import Program

    try:
        return Program.of_listing(listing)
    except ValueError:
        raise CliError(f"{name}: dexasm: unexpected output of `list`") from None
