"""What stands in the bytes of a .dex file, accepted or not: header, map, tables and sections, for dexasm-info.

Nothing here trusts the bytes: what doesn't lie in them isn't read, and no more is read in all than a number of bytes
for each byte of the file, so that what leads to one place again and again costs no more than what doesn't."""
from __future__ import annotations

import hashlib
from collections.abc import Callable, Iterator
from typing import Any, TypeVar

from dexasm.analysis.xref import flag_words
from dexasm.cli.filetypes import DEX
from dexasm.dexfile import ABSENT, HEADER, MAP_OFF, TABLES, Malformed, Reader, Tables, unpack
from dexasm.flags import CLASS_FLAGS
from dexasm.names import quoted, spelled


Found = TypeVar("Found")

# The header's fields and their bytes ("Dalvik Executable format", header_item).
FIELDS = (
    ("magic", 8), ("checksum", 4), ("signature", 20), ("file_size", 4), ("header_size", 4), ("endian_tag", 4),
    ("link_size", 4), ("link_off", 4), ("map_off", 4), ("string_ids_size", 4), ("string_ids_off", 4),
    ("type_ids_size", 4), ("type_ids_off", 4), ("proto_ids_size", 4), ("proto_ids_off", 4), ("field_ids_size", 4),
    ("field_ids_off", 4), ("method_ids_size", 4), ("method_ids_off", 4), ("class_defs_size", 4),
    ("class_defs_off", 4), ("data_size", 4), ("data_off", 4),
)  # fmt: skip
IN_HEXADECIMAL = ("checksum", "header_size", "endian_tag")
# The map's kinds ("Dalvik Executable format", type codes).
MAP_TYPES = {
    0x0000: "header_item",
    0x0001: "string_id_item",
    0x0002: "type_id_item",
    0x0003: "proto_id_item",
    0x0004: "field_id_item",
    0x0005: "method_id_item",
    0x0006: "class_def_item",
    0x1000: "map_list",
    0x1001: "type_list",
    0x1002: "annotation_set_ref_list",
    0x1003: "annotation_set_item",
    0x2000: "class_data_item",
    0x2001: "code_item",
    0x2002: "string_data_item",
    0x2003: "debug_info_item",
    0x2004: "annotation_item",
    0x2005: "encoded_array_item",
    0x2006: "annotations_directory_item",
    0xF000: "hiddenapi_class_data_item",
}
ROWS = {"string": "string_ids", "type": "type_ids", "proto": "proto_ids", "field": "field_ids", "method": "method_ids",
        "class": "class_defs"}  # fmt: skip
# How many rows the file can have, or an instruction of 16 bits can name.
LIMITS = {
    "string": (65536, "const-string can name"),
    "type": (65535, "a file can have"),
    "proto": (65535, "a file can have"),
    "field": (65536, "an instruction can name"),
    "method": (65536, "an instruction can name"),
}
BUDGET, LEAST = 64, 1 << 20  # bytes that are read for each byte of the file, and of a small one


class Readable(Tables):
    """The tables of any bytes. What doesn't lie in them is Malformed."""

    def __init__(self, data: bytes) -> None:
        super().__init__(data if has_tables(data) else bytes(HEADER))
        self.data, self.left = data, BUDGET * len(data) + LEAST
        # (a table that runs past the end has the rows that lie in the file)
        self.rows = {name: min(self.count[name], max(0, len(data) - self.at[name]) // size) for name, _, size in TABLES}
        self.texts: dict[int, tuple[str, int]] = {}  # of strings, each with its bytes
        self.room = len(data)  # for as many bytes of these

    def charge(self, count: int) -> None:
        self.left -= count
        if self.left < 0:
            raise Malformed

    def numbers(self, table: str, index: int, form: str) -> tuple[int, ...]:
        if index >= self.rows[table]:
            raise Malformed
        return super().numbers(table, index, form)

    def text(self, string: int) -> str:
        """(Each time its bytes count as read.)"""
        if string in self.texts:
            text, size = self.texts[string]
            self.charge(size)
            return text
        reader = Reader(self.data, self.numbers("string", string, "<I")[0])
        # (a unit of UTF-16 takes at most three bytes)
        end = self.data.find(0, reader.at, reader.at + 3 * reader.uleb() + 6)
        if end < 0:
            raise Malformed
        self.charge(end - reader.at)
        text = super().text(string)
        if end - reader.at <= self.room:
            self.room -= end - reader.at
            self.texts[string] = text, end - reader.at
        return text

    def types_at(self, at: int) -> tuple[int, ...]:
        self.charge(2 * unpack("<I", self.data, at)[0] if at else 0)
        return super().types_at(at)

    def name_or_none(self, table: str, index: int) -> str | None:
        return or_none(self.name, table, index)


def or_none(read: Callable[..., Found], *words: Any) -> Found | None:
    """What is read; None where it can't be."""
    try:
        return read(*words)
    except Malformed:
        return None


def has_tables(data: bytes) -> bool:
    """Whether the bytes begin as those of a .dex file, with a whole header."""
    return data.startswith(DEX) and len(data) >= HEADER


def header(data: bytes) -> Iterator[tuple[str, int, int, int | bytes]]:
    """The fields that lie in the bytes, if they begin as those of a .dex file: name, place, size, and the number or, of
    magic and signature, the bytes."""
    at = 0
    for name, size in FIELDS if data.startswith(DEX) else ():
        if at + size > len(data):
            return
        found = data[at : at + size]
        yield name, at, size, int.from_bytes(found, "little") if size == 4 else found
        at += size


def as_text(name: str, value: int | bytes) -> str:
    """A field of the header as a line has it."""
    if isinstance(value, bytes):
        return value.hex(" ") if name == "magic" else value.hex()
    if name in IN_HEXADECIMAL or name.endswith("_off"):
        return f"0x{value:x}" if name != "checksum" else f"{value:08x}"
    return str(value)


def map_place(data: bytes) -> tuple[int, int] | None:
    """Where the map stands and how many of its entries lie in the bytes, if its count does."""
    if not has_tables(data):
        return None
    at = unpack("<I", data, MAP_OFF)[0]
    if at + 4 > len(data):
        return None
    return at, min(unpack("<I", data, at)[0], (len(data) - at - 4) // 12)


def map_entries(data: bytes) -> list[dict[str, Any]]:
    """The map's entries that lie in the bytes."""
    at, count = map_place(data) or (0, 0)
    found = (unpack("<HHII", data, at + 4 + 12 * i) for i in range(count))
    return [
        {"type": kind, "name": MAP_TYPES.get(kind, f"unknown 0x{kind:04x}"), "size": size, "offset": offset}
        for kind, _, size, offset in found
    ]


def sections(data: bytes) -> list[dict[str, Any]]:
    """The file from its begin to its end: each section, by the map, and what lies between two."""
    entries, found, at = map_entries(data), [], 0
    row_size = {kind: size for kind, (_, _, size) in enumerate(TABLES, 1)} | {0: HEADER}
    begins = [*(entry["offset"] for entry in entries[1:]), len(data)]

    def add(name: str, begin: int, end: int) -> int:
        if end > begin:
            found.append({"name": name, "offset": begin, "size": end - begin})
        return end

    for entry, after in zip(entries, begins):
        at = add("(between sections)", at, entry["offset"])
        end = at + row_size[entry["type"]] * entry["size"] if entry["type"] in row_size else after
        if entry["name"] == "map_list":
            end = at + 4 + 12 * len(entries)
        at = add(entry["name"], at, end)
    add("(between sections)", at, len(data))
    return found


def tables(data: bytes) -> dict[str, dict[str, Any]]:
    """How many rows each table has, the limit, and how many may still be added within it."""
    count, found = Readable(data).count, {}
    for table, name in ROWS.items():
        limit, of = LIMITS.get(table, (count["type"], "the types of this file"))
        found[name] = {"rows": count[table], "limit": limit, "of": of, "left": max(0, limit - count[table])}
    return found


def row_of(tables: Tables, table: str, row: int) -> str | dict[str, Any]:
    """What a row says: a name, of a class what stands before its members."""
    if table != "class":
        return tables.name(table, row)
    type_, flags, parent, interfaces, source = tables.numbers("class", row, "<8I")[:5]
    return {
        "class": tables.type_name(type_),
        "flags": flags,
        "access": flag_words(flags, CLASS_FLAGS),
        "superclass": None if parent == ABSENT else tables.type_name(parent),
        "interfaces": [tables.type_name(one) for one in tables.types_at(interfaces)],
        "source": None if source == ABSENT else tables.text(source),
    }


def line_of(table: str, row: str | dict[str, Any]) -> str:
    """What a row says, in the words of a listing."""
    if isinstance(row, str):
        return quoted(row) if table == "string" else spelled(row)
    words = [spelled(row["class"]), f"0x{row['flags']:x}", row["access"]]
    words += [f"super {spelled(row['superclass'])}"] if row["superclass"] is not None else []
    words += [f"implements {spelled(one)}" for one in row["interfaces"]]
    words += [f"source {quoted(row['source'])}"] if row["source"] is not None else []
    return " ".join(filter(None, words))


def rows_read(data: bytes) -> dict[str, dict[str, Any]]:
    """Of refused bytes each table: how many rows its header says, and each of those that lie in the file, None where it
    can't be read."""
    readable, found = Readable(data), {}
    for table, name in ROWS.items():
        read = [or_none(row_of, readable, table, row) for row in range(readable.rows[table])]
        found[name] = {"rows": readable.count[table], "read": read}
    return found


def hashes(data: bytes) -> dict[str, Any]:
    return {"size": len(data), "sha256": hashlib.sha256(data).hexdigest()}
