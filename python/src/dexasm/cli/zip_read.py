"""The .dex files of an archive, for the helpers: each that can't be read has a reason."""
from __future__ import annotations

import re
import struct
import zipfile
import zlib
from collections.abc import Callable
from typing import IO

from dexasm.cli.errors import CliError, reason
from dexasm.cli.filetypes import ARCHIVES_BEGIN, DEX, is_archive_name, is_dex_name
from dexasm.cli.sanitize import escaped


NamedEntries = tuple[str, list[zipfile.ZipInfo]]  # a name, and the entries that have it

# The records at the end of an archive (APPNOTE.TXT 4.3.14 to 4.3.16).
END, END64, LOCATOR = struct.Struct("<4s4H2IH"), struct.Struct("<4sQ2H2I4Q"), struct.Struct("<4sIQI")
END_BEGINS, END64_BEGINS, LOCATOR_BEGINS = b"PK\5\6", b"PK\6\6", b"PK\6\7"
UNKNOWN = 0xFFFF, 0xFFFF, 0xFFFF, 0xFFFF, 0xFFFFFFFF, 0xFFFFFFFF  # fields that the zip64 record has instead
LONGEST_COMMENT = 0xFFFF
LOCAL_SIZE = 30  # of a local header without name and extra field

NAME = re.compile(r"classes([0-9]*)\.dex")
ENCRYPTED = 1
# What zipfile raises where an archive is none, or an entry of it.
READ_ERRORS = (
    zipfile.BadZipFile,
    zlib.error,
    EOFError,
    struct.error,
    ValueError,
    OverflowError,
    IndexError,
    OSError,
)


def open_archive(path: str, file: IO[bytes] | None = None) -> zipfile.ZipFile:
    """Open an archive by its name or from a file. Archives in which readers find different entries are refused."""
    name = escaped(path)
    try:
        archive = zipfile.ZipFile(path if file is None else file)
    except OSError as error:
        raise CliError(f"{name}: {reason(error)}") from None
    except (*READ_ERRORS, NotImplementedError) as error:
        hint = "a .dex file, which dexasm itself takes" if file is None and is_dex(path) else escaped(str(error))
        raise CliError(f"{name}: no zip archive can be read: {hint}") from None
    try:
        why = ambiguity(archive)
    except OSError as error:
        why = reason(error)
    if why is not None:
        archive.close()
        raise CliError(f"{name}: {why}")
    return archive


def ambiguity(archive: zipfile.ZipFile) -> str | None:
    """Why readers can find different entries in an archive, or None.

    zipfile takes the directory that ends at the end record, and any zip64 record. Android goes by the end record's
    offset and count, and looks for a zip64 record only if a field is all ones. Other tools read from the front.
    """
    file = archive.fp
    assert file is not None  # (it is open)
    file.seek(0)
    first = file.read(len(DEX))  # (that of an archive without entries is its end record)
    if first not in ARCHIVES_BEGIN:
        what = "a .dex file" if first == DEX else "something else"
        return f"it begins as {what}, and the archive follows it: tools that read from the front see a different file"
    size = file.seek(0, 2)
    file.seek(max(0, size - LONGEST_COMMENT - END.size - LOCATOR.size - END64.size))
    tail = file.read()
    why = directory_mismatch(tail, size - len(tail), archive.infolist())
    return why and f"ambiguous zip archive: {why}, so that other tools can read different files"


def directory_mismatch(tail: bytes, start: int, rows: list[zipfile.ZipInfo]) -> str | None:
    """What of an archive's last bytes, from offset `start` on, does not match the rows of its directory."""
    at = tail.rfind(END_BEGINS, 0, len(tail) - END.size + len(END_BEGINS))
    if at < 0:
        return "the end record is cut"
    _, *fields, comment = END.unpack_from(tail, at)
    end = start + at  # where the directory has to end
    if at + END.size + comment != len(tail):
        return "data after the end record"
    at64 = at - LOCATOR.size - END64.size
    if tail[at64 + END64.size : at].startswith(LOCATOR_BEGINS) and tail[at64:at].startswith(END64_BEGINS) and at64 >= 0:
        end = start + at64
        wide = END64.unpack_from(tail, at64)[4:]
        offset = LOCATOR.unpack_from(tail, at64 + END64.size)[2]
        if offset != end or any(one not in pair for one, *pair in zip(fields, UNKNOWN, wide)):
            return "the zip64 end record contradicts the end record"
        fields = [*wide]
    disk, first_disk, on_disk, count, length, begin = fields
    if disk or first_disk or on_disk != count:
        return "one part of several"
    if begin + length != end:
        return "the directory is not where the end record says"
    if count != len(rows):
        return f"the end record counts {count} entries of {len(rows)}"
    if min((row.header_offset for row in rows), default=begin):
        return "data before the first entry"
    return None


def is_dex(path: str) -> bool:
    with open(path, "rb") as file:
        return file.read(len(DEX)) == DEX


def entries_by_name(archive: zipfile.ZipFile, is_one: Callable[[str], object]) -> list[NamedEntries]:
    """Its entries of such names: the classes*.dex in the order of their numbers, then the others."""
    entries: dict[str, list[zipfile.ZipInfo]] = {}
    for entry in archive.infolist():
        if is_one(entry.filename):
            entries.setdefault(entry.filename, []).append(entry)
    return sorted(entries.items(), key=lambda named: sort_key(named[0]))


def sort_key(name: str) -> tuple[bool, int, str]:
    # (by the number's digits: there may be more of them than Python makes a number of)
    is_other = NAME.fullmatch(name) is None
    return is_other, 0 if is_other else len(name), name


def dex_entries(archive: zipfile.ZipFile) -> list[NamedEntries]:
    """Its classes*.dex, which Android runs."""
    return entries_by_name(archive, NAME.fullmatch)


def checkable_entries(archive: zipfile.ZipFile) -> list[NamedEntries]:
    """All that are called *.dex, in whatever folder, and the archives in it."""
    return entries_by_name(archive, lambda name: is_dex_name(name) or is_archive_name(name))


def read_entry(archive: zipfile.ZipFile, entries: list[zipfile.ZipInfo]) -> bytes:
    """The bytes of the entries of one name, of which there has to be one; no more of them than it says are made."""
    one = entries[0]
    if len(entries) > 1:
        raise CliError("it is there more than once")
    if one.flag_bits & ENCRYPTED:
        raise CliError("it is encrypted, or says so")
    if one.header_offset + LOCAL_SIZE + one.compress_size > archive.start_dir:
        raise CliError("its compressed size reaches beyond the archive's entries")
    # (the methods that Android and Java know; those of others tell no bound of what they make of a few bytes)
    if one.compress_type not in (zipfile.ZIP_STORED, zipfile.ZIP_DEFLATED):
        raise CliError(f"its method of compression is unknown: {one.compress_type}")
    try:
        with archive.open(one) as file:
            data = file.read(one.file_size + 1)
    except (NotImplementedError, RuntimeError) as error:
        raise CliError(f"it can't be read: {escaped(str(error))}") from None
    except READ_ERRORS as error:
        raise CliError(f"it can't be read: {escaped(str(error)) or type(error).__name__}") from None
    if len(data) != one.file_size:
        raise CliError(f"it can't be read: it has {len(data)} bytes, and says {one.file_size}")
    return data
