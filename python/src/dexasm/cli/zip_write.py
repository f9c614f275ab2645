"""An archive with some of its .dex files exchanged, for dexasm-apk replace: what else is in it stays, byte for byte.

The entries are written one after the other, with headers of their own, so that nothing lies between them: not the block
with Android's signatures, which doesn't hold any more. Entries that aren't compressed begin where zipalign wants them.
"""
from __future__ import annotations

import re
import struct
import zlib
from typing import IO, TYPE_CHECKING, NamedTuple

from dexasm.cli.errors import CliError
from dexasm.cli.sanitize import escaped
from dexasm.cli.zip_read import ENCRYPTED, END, END_BEGINS, READ_ERRORS, open_archive

if TYPE_CHECKING:
    from zipfile import ZipFile, ZipInfo

LOCAL, ROW = struct.Struct("<4s5H3I2H"), struct.Struct("<4s6H3I5H2I")
LOCAL_BEGINS, ROW_BEGINS = b"PK\3\4", b"PK\1\2"
STORED, DEFLATED, UTF8 = 0, 8, 0x800
UNREADABLE = ENCRYPTED | 0x20 | 0x40 | 0x2000  # flags of what readers refuse: encrypted in any form, or a patch
AFTER, LEVEL = 0x8, 0x6  # flags: sizes stand behind the data; how it was deflated
MOST, MOST_ENTRIES = (1 << 32) - 1, (1 << 16) - 1
# A signature of a .jar, as Android's first scheme has it; and the list of sums that it is of.
SIGNATURE = re.compile(r"META-INF/(?:[^/]+\.(?:SF|RSA|DSA|EC)|SIG-[^/]+)", re.IGNORECASE)
MANIFEST, OF_APP = "META-INF/MANIFEST.MF", "AndroidManifest.xml"
# Where what isn't compressed begins, and the extra field that fills up to there (apksigner's own).
ALIGNED, PAGES, FILLS = 4, 16384, 0xD935
NATIVE = re.compile(r"lib/.*\.so")


class Entry(NamedTuple):
    """An entry as it is written: what the directory says of it, its name and its extra field, and its bytes, which have
    that sum and that size when they aren't compressed.
    """

    info: ZipInfo
    name: bytes
    extra: bytes
    data: bytes
    crc: int
    size: int


def replace_entries(path: str, files: dict[str, bytes]) -> bytes:
    """The archive with these entries exchanged, and without its signatures."""
    name = escaped(path)
    try:
        with open_archive(path) as archive:
            return rewrite(archive, files)
    except CliError as failed:
        raise CliError(failed.line if failed.line.startswith(f"{name}: ") else f"{name}: {failed.line}") from None
    except (*READ_ERRORS, UnicodeError) as error:
        raise CliError(f"{name}: it can't be read: {escaped(str(error)) or type(error).__name__}") from None


def rewrite(archive: ZipFile, files: dict[str, bytes]) -> bytes:
    infos = archive.infolist()
    check_replaceable(archive, infos, files)
    kept = [info for info in infos if not SIGNATURE.fullmatch(info.filename)]
    # (that of an application has its list of sums for signatures alone)
    if len(kept) < len(infos) and any(info.filename == OF_APP for info in infos):
        kept = [info for info in kept if info.filename != MANIFEST]
    out, offsets = bytearray(), dict[int, tuple[int, Entry]]()
    assert archive.fp is not None  # (it is open)
    for info in sorted(kept, key=lambda one: one.header_offset):
        entry = read_local_entry(archive.fp, info)
        if info.filename in files:
            entry = with_data(entry, files[info.filename])
        offsets[id(info)] = len(out), entry
        append_entry(out, entry)
    begin = len(out)
    for info in kept:
        append_row(out, *offsets[id(info)])
    if len(out) > MOST:
        raise CliError("it would be larger than 4 GB, which this doesn't write")
    comment = archive.comment
    out += END.pack(END_BEGINS, 0, 0, len(kept), len(kept), len(out) - begin, begin, len(comment)) + comment
    return bytes(out)


def check_replaceable(archive: ZipFile, infos: list[ZipInfo], files: dict[str, bytes]) -> None:
    """Refuses what can't be copied entry by entry, and files that aren't there once."""
    names = [info.filename for info in infos]
    for file in files:
        if names.count(file) != 1:
            raise CliError(f"{escaped(file)} is in it {'more than once' if file in names else 'not at all'}")
    assert archive.fp is not None
    size = archive.fp.seek(0, 2)
    if sum(info.compress_size for info in infos) > size:
        raise CliError("its entries overlap")
    if len(infos) > MOST_ENTRIES or any(max(info.file_size, info.header_offset) >= MOST for info in infos):
        raise CliError("it is an archive of more than 4 GB or 65,535 entries, which this doesn't write")


def read_local_entry(file: IO[bytes], info: ZipInfo) -> Entry:
    """An entry as it stands in the archive."""
    file.seek(info.header_offset)
    begins, *_, name_length, extra_length = LOCAL.unpack(file.read(LOCAL.size))
    name, extra = file.read(name_length), file.read(extra_length)
    shown = escaped(info.filename)
    if begins != LOCAL_BEGINS or name != info.orig_filename.encode("utf8" if info.flag_bits & UTF8 else "cp437"):
        raise CliError(f"{shown}: its own header isn't that of the directory")
    data = file.read(info.compress_size)
    if len(data) != info.compress_size:
        raise CliError(f"{shown}: the archive ends in it")
    return Entry(info, name, without_padding(extra), data, info.CRC, info.file_size)


def without_padding(extra: bytes) -> bytes:
    """An extra field without what fills it up to a place: zeros, or a part that says so."""
    at, kept = 0, b""
    while at + 4 <= len(extra):
        kind, size = struct.unpack_from("<HH", extra, at)
        if kind == 0 or at + 4 + size > len(extra):
            break
        if kind != FILLS:
            kept += extra[at : at + 4 + size]
        at += 4 + size
    return kept


def with_data(entry: Entry, data: bytes) -> Entry:
    """An entry with another file's bytes, compressed or not as the old one."""
    if entry.info.flag_bits & UNREADABLE or entry.info.compress_type not in (STORED, DEFLATED):
        raise CliError(f"{escaped(entry.info.filename)}: it is encrypted or a patch, or its compression is unknown")
    entry.info.flag_bits &= ~LEVEL
    stored = data
    if entry.info.compress_type == DEFLATED:
        deflater = zlib.compressobj(9, zlib.DEFLATED, -zlib.MAX_WBITS)
        stored = deflater.compress(data) + deflater.flush()
    return entry._replace(data=stored, crc=zlib.crc32(data), size=len(data))


def padded_extra(entry: Entry, at: int) -> bytes:
    """The extra field of an entry whose name ends at this place of the archive."""
    if entry.info.compress_type != STORED:
        return entry.extra
    unit = PAGES if NATIVE.fullmatch(entry.info.filename) else ALIGNED
    place = at + len(entry.extra)
    if place % unit == 0:
        return entry.extra
    zeros = -(place + 6) % unit
    extra = entry.extra + struct.pack("<3H", FILLS, 2 + zeros, unit) + bytes(zeros)
    if len(extra) > MOST_ENTRIES:
        raise CliError(f"{escaped(entry.info.filename)}: its extra field is too long")
    return extra


def header_fields(entry: Entry) -> tuple[int, ...]:
    """What both headers of an entry say."""
    info = entry.info
    year, month, day, hour, minute, second = info.date_time
    time, date = hour << 11 | minute << 5 | second // 2, year - 1980 << 9 | month << 5 | day
    flags = info.flag_bits & ~AFTER
    return flags, info.compress_type, time, date, entry.crc, len(entry.data), entry.size


def append_entry(out: bytearray, entry: Entry) -> None:
    extra = padded_extra(entry, len(out) + LOCAL.size + len(entry.name))
    needs = entry.info.extract_version | entry.info.reserved << 8
    out += (
        LOCAL.pack(LOCAL_BEGINS, needs, *header_fields(entry), len(entry.name), len(extra))
        + entry.name
        + extra
        + entry.data
    )


def append_row(out: bytearray, offset: int, entry: Entry) -> None:
    """An entry's row of the directory."""
    info = entry.info
    by, needs = info.create_version | info.create_system << 8, info.extract_version | info.reserved << 8
    lengths = len(entry.name), len(info.extra), len(info.comment)
    out += ROW.pack(
        ROW_BEGINS, by, needs, *header_fields(entry), *lengths, 0, info.internal_attr, info.external_attr, offset
    )
    out += entry.name + info.extra + info.comment
