"""What a worker of dexasm-check does: checks a file, lists the entries of an archive, or checks one of these.

It is started at each run, and mostly checks .dex files alone: what these don't need is imported where it is needed.
"""
from __future__ import annotations

from collections.abc import Iterator
from typing import IO, TYPE_CHECKING, Any

from dexasm.cli.errors import CliError, reason
from dexasm.cli.filetypes import ZIP, is_archive_name, is_dex_name
from dexasm.cli.worker import opened_file

if TYPE_CHECKING:
    import io
    import zipfile

    Result = dict[str, Any]
    Entries = dict[str, list[zipfile.ZipInfo]]


class Job:
    """Runs jobs: a path, and the names of an entry of the archive that it is, two in an archive in an archive. An archive
    stays open for the jobs that follow, so that its directory is read once.
    """

    # What archives and listings need, and the rules of dexasm-lint, read before the time of a job begins.
    more = "dexasm.cli.zip_read", "dexasm.cli.faults", "dexasm.listing.diagnostics"
    rules = "dexasm.program", "dexasm.analysis.verifier.report"
    entries = "checkable_entries"  # of zip_read: those of an archive

    def __init__(self, known: dict[str, bool]) -> None:
        self.is_hashed, self.is_linted = known["program"], known["lint"]
        self.file: io.BufferedReader | None = None
        self.archives: dict[tuple[str, ...], tuple[zipfile.ZipFile, Entries]] = {}  # by the path and a name in it

    def prepare(self, job: Result) -> None:
        is_dex = job["path"].lower().endswith(".dex")
        for name in (() if is_dex else self.more) + (self.rules if self.is_linted else ()):
            __import__(name)

    def run(self, job: Result) -> Result:
        """Return the entries of an archive; otherwise a verdict, and the rules of dexasm-lint that are broken."""
        path, names = job["path"], job.get("names", [])
        kind: str | None = "archive" if names else None
        try:
            if names and is_dex_name(names[-1]):
                kind = None
                return self.check(self.read(path, names), "dex")
            if names:
                return self.open_inner(path, names)
            self.close()
            self.file = opened_file(path.encode("latin1"))
            kind = kind_of(path.encode("latin1"), self.file)
            if kind == "archive":
                return self.open(self.file, path)
            with self.file:
                return self.check(self.file.read(), kind)
        except CliError as failed:
            return {"verdict": {"kind": kind, "status": "failed", "why": failed.line.removeprefix(": ")}}
        except OSError as error:
            return {"verdict": {"kind": kind, "status": "failed", "why": reason(error)}}

    def close(self) -> None:
        self.archives.clear()
        if self.file is not None:
            self.file.close()

    def open(self, file: IO[bytes], *key: str) -> Result:
        """Open an archive, and return the names of its entries with their sizes, as its directory has them."""
        from dexasm.cli import zip_read

        archive = zip_read.open_archive("", file)
        entries = dict(getattr(zip_read, self.entries)(archive))
        self.archives[key] = archive, entries
        return {"entries": [[name, found[0].file_size] for name, found in entries.items()]}

    def open_inner(self, path: str, names: list[str]) -> Result:
        """Open an archive in the archive, in place of the one before."""
        import io

        self.archives = {key: opened for key, opened in self.archives.items() if len(key) == 1}
        return self.open(io.BytesIO(self.read(path, names)), path, *names)

    def read(self, path: str, names: list[str]) -> bytes:
        """The bytes of an entry. The archive is opened if this worker took the place of another one."""
        from dexasm.cli.zip_read import read_entry

        key = path, *names[:-1]
        if (path,) not in self.archives:
            self.close()
            self.file = opened_file(path.encode("latin1"))
            self.open(self.file, path)
        if key not in self.archives:
            self.open_inner(path, names[:-1])
        archive, entries = self.archives[key]
        if names[-1] not in entries:
            raise CliError("it is not there any more")
        return read_entry(archive, entries[names[-1]])

    def check(self, data: bytes, kind: str | None) -> Result:
        dex, verdict = check_bytes(data, kind, self.is_hashed)
        result: Result = {"verdict": verdict, "findings": []}
        if dex is not None and self.is_linted:
            more = {"program": verdict["program"]}
            result["findings"] = [found | more for found in lint_findings(data, dex, str(verdict["kind"]))]
        return result


def kind_of(path: bytes, file: io.BufferedReader) -> str | None:
    """What a file is, by its name, and of other names by its first bytes; None if all have to be read for that."""
    name = path.decode("utf8", "surrogateescape")
    if is_dex_name(name):
        return "dex"
    return "archive" if is_archive_name(name) or file.peek(len(ZIP)).startswith(ZIP) else None


def check_bytes(data: bytes, kind: str | None, is_hashed: bool) -> tuple[bytes | None, dict[str, object]]:
    """The .dex file of these bytes, where it is accepted, and what the library says."""
    import dexasm

    if kind is None:
        from dexasm.cli.core import is_listing

        kind = "listing" if is_listing(data) else "dex"
    try:
        if kind == "listing":
            dex = dexasm.assemble(data)
        else:
            dexasm.check(data)
            dex = data
    except dexasm.Refused as refused:
        fault = {"number": refused.number, "name": refused.name, "place": refused.place}
        known = listing_location(data, refused) if kind == "listing" else {}
        if kind != "listing":
            from dexasm.cli.file_hints import IN_SUMMARY, summary

            known = {"why": summary(refused.number, data)} if refused.number in IN_SUMMARY else {}
        return None, {"kind": kind, "status": "refused", **fault, **known}
    verdict: dict[str, object] = {"kind": kind, "status": "ok", "program": None}
    if is_hashed:
        from dexasm.analysis.extras import extras_of

        verdict |= {"program": program_hash(dex), "extras": extras_of(dex)._asdict()}
    return dex, verdict


def lint_findings(data: bytes, dex: bytes, kind: str) -> Iterator[dict[str, object]]:
    """Which rules of dexasm-lint a program breaks, and where."""
    import dexasm
    from dexasm.analysis.verifier.report import code_findings, structure_findings

    program = dexasm.Program.read(dex)
    for found in (structure_findings(b"", kind, program), code_findings(b"", kind, data, program)):
        for verdict in found:
            yield {name: known for name, known in verdict._asdict().items() if name not in ("path", "entry")}


def program_hash(data: bytes) -> str | None:
    """The SHA-256 of the stripped bytes. A few accepted files can't be stripped (89, 90), and have none."""
    import hashlib

    import dexasm

    try:
        return hashlib.sha256(dexasm.strip(data)).hexdigest()
    except dexasm.Refused:
        return None


def listing_location(data: bytes, refused: Any) -> dict[str, object]:
    """Where in a listing a fault is, as far as that is known."""
    where = refused.where
    if where is not None:
        class_, member = (name and name.spelled for name in (where.class_name, where.member))
        place = {"line": where.line, "class_": class_, "member": member and member.partition("->")[2]}
        return {"column": where.column or 1, "instruction": where.insn, "why": where.sentence() or None} | place
    from dexasm.cli.faults import OF_LINES

    if refused.number not in OF_LINES:
        return {}
    row = data.split(b"\n", refused.place)[refused.place - 1] if refused.place else b""
    return {"line": refused.place, "column": len(row) - len(row.lstrip(b" ")) + 1}
