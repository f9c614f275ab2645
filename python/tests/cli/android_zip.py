"""What Android reads from an archive: by its own libziparchive, where Debian's is installed, and by a model of it.

The model follows system/libziparchive/zip_archive.cc of AOSP (FindCentralDirectoryInfo, ParseZipArchive, FindEntry), in
the version that knows zip64 records; Debian's (29.0.6) does not.
"""
import contextlib
import ctypes
import functools
import os
import struct
import zlib
from collections.abc import Callable, Iterator

Entries = dict[str, bytes | None]  # the bytes of each entry; None if it cannot be read
Reader = Callable[[bytes, tuple[str, ...]], Entries | None]  # None if the archive is refused

LIBRARY = "/usr/lib/x86_64-linux-gnu/android/libziparchive.so.0"
ENTRY_SIZE, LENGTH_AT = 256, 24  # more than a ZipEntry has; where its uncompressed length is
LONGEST = 1 << 16  # bytes of an entry in these tests
END, ROW, LOCAL = struct.Struct("<4s4H2IH"), struct.Struct("<4s6H3I5H2I"), struct.Struct("<4s5H3I2H")
END64, LOCATOR = struct.Struct("<4sQ2H2I4Q"), struct.Struct("<4sIQI")
SHORT, LONG = 0xFFFF, 0xFFFFFFFF


class Refused(Exception):
    """The model refuses an archive or an entry."""


def need(is_so: object) -> None:
    if not is_so:
        raise Refused


OPEN, CLOSE = "_Z21OpenArchiveFromMemoryPKvmPKcPP10ZipArchive", "_Z12CloseArchiveP10ZipArchive"
FIND = "_Z9FindEntryP10ZipArchiveSt17basic_string_viewIcSt11char_traitsIcEEP8ZipEntry"
EXTRACT = "_Z15ExtractToMemoryP10ZipArchiveP8ZipEntryPhj"


@functools.cache
def library() -> ctypes.CDLL | None:
    try:
        loaded = ctypes.CDLL(LIBRARY)
    except OSError:
        return None
    pointer, size, text = ctypes.c_void_p, ctypes.c_size_t, ctypes.c_char_p
    for name, types in (
        (OPEN, [text, size, text, pointer]),
        (CLOSE, [pointer]),
        (FIND, [pointer, size, text, text]),  # (a string_view is passed as a size and a pointer)
        (EXTRACT, [pointer, text, text, ctypes.c_uint32]),
    ):
        getattr(loaded, name).argtypes = types
    return loaded


@contextlib.contextmanager
def silence() -> Iterator[None]:
    """Without the lines that libziparchive logs on standard error."""
    kept, nowhere = os.dup(2), os.open(os.devnull, os.O_WRONLY)
    os.dup2(nowhere, 2)
    try:
        yield
    finally:
        os.dup2(kept, 2)
        os.close(kept)
        os.close(nowhere)


def read_by_library(data: bytes, names: tuple[str, ...]) -> Entries | None:
    loaded, handle = library(), ctypes.c_void_p()
    assert loaded is not None
    with silence():
        is_open = getattr(loaded, OPEN)(data, len(data), b"archive", ctypes.byref(handle)) == 0
        found = {name: entry_by_library(loaded, handle, name.encode()) for name in names} if is_open else None
        getattr(loaded, CLOSE)(handle)
    return found


def entry_by_library(loaded: ctypes.CDLL, handle: ctypes.c_void_p, name: bytes) -> bytes | None:
    entry, out = ctypes.create_string_buffer(ENTRY_SIZE), ctypes.create_string_buffer(LONGEST)
    if getattr(loaded, FIND)(handle, len(name), name, entry):
        return None
    length = int.from_bytes(entry.raw[LENGTH_AT : LENGTH_AT + 4], "little")
    if length > LONGEST or getattr(loaded, EXTRACT)(handle, entry, out, length):
        return None
    return out.raw[:length]


def read_by_model(data: bytes, names: tuple[str, ...]) -> Entries | None:
    try:
        begin, rows = directory(data)
    except (Refused, struct.error):
        return None
    found: Entries = {}
    for name in names:
        try:
            found[name] = content(data, begin, name.encode(), rows[name.encode()])
        except (Refused, KeyError, struct.error, zlib.error):
            found[name] = None
    return found


def directory(data: bytes) -> tuple[int, dict[bytes, tuple[int, ...]]]:
    """Where the directory begins, and of each name what its row says."""
    at = data.rfind(b"PK\5\6", max(0, len(data) - SHORT - END.size), len(data) - END.size + 4)
    need(at >= 0)
    _, _, _, on_disk, count, size, begin, comment = END.unpack_from(data, at)
    need(at + END.size + comment == len(data))
    if SHORT in (on_disk, count) or LONG in (size, begin):
        need(at >= LOCATOR.size)
        sign, _, place, _ = LOCATOR.unpack_from(data, at - LOCATOR.size)
        need(sign == b"PK\6\7" and place + END64.size <= at - LOCATOR.size)
        sign, *_, on_disk, count, size, begin = END64.unpack_from(data, place)
        need(sign == b"PK\6\6" and on_disk == count and begin + size <= place)
    else:
        need(begin + size <= at)
    need(count == 0 or data.startswith(b"PK\3\4"))
    rows: dict[bytes, tuple[int, ...]] = {}
    for name, row in rows_of(data[begin : begin + size], count):
        need(name not in rows and b"\0" not in name and row[-1] < begin)
        rows[name] = row
    return begin, rows


def rows_of(table: bytes, count: int) -> Iterator[tuple[bytes, tuple[int, ...]]]:
    at = 0
    for _ in range(count):
        sign, *row = ROW.unpack_from(table, at)
        method, crc, packed, size, name_size, extra_size, comment_size = row[3], *row[6:12]
        name_at, at = at + ROW.size, at + ROW.size + name_size + extra_size + comment_size
        need(sign == b"PK\1\2" and at <= len(table))
        name, extra = table[name_at : name_at + name_size], table[name_at + name_size : at - comment_size]
        yield name, (method, crc, *wide(extra, size, packed, row[-1]))


def wide(extra: bytes, *numbers: int) -> list[int]:
    """The numbers of a row, of which those that are all ones are in its zip64 field."""
    if LONG not in numbers:
        return [*numbers]
    at = 0
    while True:
        kind, size = struct.unpack_from("<HH", extra, at)
        need(at + 4 + size <= len(extra))
        if kind == 1:
            field = extra[at + 4 : at + 4 + size]
            due = struct.unpack_from(f"<{numbers.count(LONG)}Q", field)
            rest = iter(due)
            return [next(rest) if number == LONG else number for number in numbers]
        at += 4 + size


def content(data: bytes, begin: int, name: bytes, row: tuple[int, ...]) -> bytes:
    method, crc, size, packed, offset = row
    sign, _, flags, _, _, _, own_crc, own_packed, own_size, name_size, extra_size = LOCAL.unpack_from(data, offset)
    need(sign == b"PK\3\4" and data[offset + LOCAL.size :].startswith(name) and name_size == len(name))
    is_own = flags & 8 or LONG in (own_packed, own_size) or (own_crc, own_packed, own_size) == (crc, packed, size)
    at = offset + LOCAL.size + name_size + extra_size
    need(is_own and at + packed <= begin and (method, size) in ((0, packed), (8, size)) and size <= LONGEST)
    raw = data[at : at + packed]
    found = zlib.decompressobj(-zlib.MAX_WBITS).decompress(raw, size + 1) if method else raw
    need(len(found) == size and zlib.crc32(found) == crc)
    return found


def readers() -> dict[str, Reader]:
    """The readers that can be asked here."""
    found: dict[str, Reader] = {"the model": read_by_model}
    return found | ({"libziparchive": read_by_library} if library() else {})
