"""Which fault a .dex file has: a second reading of docs/FORMAT.md, by hand.

`fault(data)` is None for a file that is accepted, and else a fault's name and its place. It asks rule by rule, in the
order of FORMAT's "Faults of a file", and nothing here is meant to be quick. The headings between the functions are
FORMAT's; the pages in quotes are those of FORMAT's first table.

A text has a character of 0 to 0xffff for each unit of UTF-16, surrogates as they stand, so that texts compare by units.
"""
from __future__ import annotations

import functools
import hashlib
import struct
import zlib
from typing import Any

NONE = 0xFFFFFFFF  # the index that stands where a class row names no superclass or no source file

# Kinds of entries of the map, and the tables by their kind: the place of the size field in the header, bytes of a row.
HEADER, STRINGS, TYPES, PROTOS, FIELDS, METHODS, CLASSES = range(7)
MAP, TYPE_LIST, CLASS_DATA, CODE, STRING_DATA, ARRAY_OF_VALUES = 0x1000, 0x1001, 0x2000, 0x2001, 0x2002, 0x2005
KINDS = {*range(7), *range(0x1000, 0x1004), *range(0x2000, 0x2007), 0xF000}
TABLES = {STRINGS: (56, 4), TYPES: (64, 4), PROTOS: (72, 12), FIELDS: (80, 8), METHODS: (88, 8), CLASSES: (96, 32)}


class Fault(Exception):
    def __init__(self, name: str, place: int) -> None:
        super().__init__(name, place)
        self.name, self.place = name, place


def u16(data: bytes, at: int) -> int:
    return int.from_bytes(data[at : at + 2], "little")


def u32(data: bytes, at: int) -> int:
    return int.from_bytes(data[at : at + 4], "little")


def signed(number: int, bits: int) -> int:
    return number - (1 << bits) if number >> (bits - 1) & 1 else number


# ------------------------------------------------------------------------------------------ Numbers and strings in data


def leb128(data: bytes, at: int, end: int) -> tuple[int, int, int] | None:
    """The sum of one to five bytes below `end`, how many they are, and the last of them; None where they don't end."""
    total = 0
    for i in range(5):
        if at + i >= end:
            return None
        byte = data[at + i]
        total += (byte & 0x7F) << 7 * i
        if byte < 0x80:
            return total, i + 1, byte
    return None


def uleb128(data: bytes, at: int, end: int) -> tuple[int, int] | None:
    """The number and the place after it; None where none is spelled."""
    got = leb128(data, at, end)
    if got is None or got[0] > 0xFFFFFFFF:
        return None
    return got[0], at + got[1]


def sleb128(data: bytes, at: int, end: int) -> tuple[int, int] | None:
    got = leb128(data, at, end)
    if got is None:
        return None
    number, used, last = got
    if last & 0x40:
        number -= 1 << 7 * used
    return (number, at + used) if -0x80000000 <= number <= 0x7FFFFFFF else None


def utf16_unit(data: bytes, at: int, end: int) -> tuple[int, int] | None:
    """The unit of which the one spelling in MUTF-8 stands here, and the place after it; None for another form."""
    first = data[at]
    if 1 <= first <= 0x7F:
        return first, at + 1
    if first >> 5 == 0b110 and at + 2 <= end and data[at + 1] >> 6 == 0b10:
        unit = (first & 0x1F) << 6 | data[at + 1] & 0x3F
        return (unit, at + 2) if unit == 0 or unit >= 0x80 else None
    if first >> 4 == 0b1110 and at + 3 <= end and data[at + 1] >> 6 == 0b10 and data[at + 2] >> 6 == 0b10:
        unit = (first & 0x0F) << 12 | (data[at + 1] & 0x3F) << 6 | data[at + 2] & 0x3F
        return (unit, at + 3) if unit >= 0x800 else None
    return None


def string_data(data: bytes, at: int, end: int) -> str | None:
    """The text of the string_data_item here; None where none stands below `end`."""
    got = uleb128(data, at, end)
    if got is None:
        return None
    count, at = got
    units: list[str] = []
    while len(units) < count:
        got = utf16_unit(data, at, end) if at < end else None
        if got is None:
            return None
        units.append(chr(got[0]))
        at = got[1]
    return "".join(units) if at < end and data[at] == 0 else None


# ------------------------------------------------------------------------------------------------------ Texts that name


def is_name_unit(unit: int) -> bool:
    if chr(unit) in "$-_":
        return True
    if chr(unit).isascii():
        return chr(unit).isalnum()
    ranges = (0xA1, 0x1FFF), (0x2010, 0x2027), (0x2030, 0xD7FF), (0xE000, 0xFFEF)
    return any(low <= unit <= high for low, high in ranges)


@functools.lru_cache(1 << 16)
def is_simple_name(text: str) -> bool:
    at = 0
    while at < len(text):
        if "\ud800" <= text[at] <= "\udbff" and "\udc00" <= text[at + 1 : at + 2] <= "\udfff":
            at += 2  # a code point above U+FFFF: all of them are allowed
        elif is_name_unit(ord(text[at])):
            at += 1
        else:
            return False
    return text != ""


def is_member_name(text: str) -> bool:
    if len(text) >= 2 and text[0] == "<" and text[-1] == ">":
        return is_simple_name(text[1:-1])
    return is_simple_name(text)


def is_descriptor(text: str) -> bool:
    if text == "V":
        return True
    base = text.lstrip("[")
    if len(text) - len(base) > 255:
        return False
    if len(base) == 1:
        return base in "ZBSCIJFD"
    return base[:1] == "L" and base[-1:] == ";" and all(is_simple_name(part) for part in base[1:-1].split("/"))


def is_class_type(text: str) -> bool:
    return text.startswith("L")


def is_array_type(text: str) -> bool:
    return text.startswith("[")


def shorty_letter(text: str) -> str:
    return "L" if is_class_type(text) or is_array_type(text) else text


# ---------------------------------------------------------------------------------------------------------- Header, Map


class File:
    """The bytes; size and offset of each table; begin and end of the section of each kind of data that the map has."""

    # What the rules below read of the rows.
    strings: list[str]
    types: list[str]
    field_owners: list[int]
    method_owners: list[int]
    classes: list[ClassRow]
    codes: list[Code]

    def __init__(self, data: bytes) -> None:
        self.data = data
        self.table = {kind: (u32(data, place), u32(data, place + 4)) for kind, (place, _) in TABLES.items()}
        self.data_size, self.data_off = u32(data, 104), u32(data, 108)
        self.map_off = u32(data, 52)
        self.section: dict[int, tuple[int, int]] = {}

    def size(self, kind: int) -> int:
        return self.table[kind][0]

    def row(self, kind: int, i: int) -> int:
        return self.table[kind][1] + TABLES[kind][1] * i

    def is_inside(self, kind: int, off: int) -> bool:
        begin, end = self.section.get(kind, (0, 0))
        return begin <= off < end


def ask_header(data: bytes) -> None:
    if len(data) < 112:
        raise Fault("TooShort", len(data))
    for name, place, is_so in (
        ("Magic", 0, data[:4] == b"dex\n" and data[7] == 0),
        ("Version", 4, data[4:7] == b"035"),
        ("FileSize", 32, u32(data, 32) == len(data)),
        ("HeaderSize", 36, u32(data, 36) == 0x70),
        ("Endian", 40, u32(data, 40) == 0x12345678),
        ("Linked", 44, u32(data, 44) == 0),
        ("Checksum", 8, u32(data, 8) == zlib.adler32(data[12:])),
        ("Signature", 12, data[12:32] == hashlib.sha1(data[32:]).digest()),
    ):
        if not is_so:
            raise Fault(name, place)


def ask_ranges(file: File) -> None:
    """The six tables, then the data section: the order of their size fields."""
    for kind, (place, width) in TABLES.items():
        size, off = file.table[kind]
        if size > 0 and (off % 4 != 0 or off < 0x70 or off + size * width > len(file.data)):
            raise Fault("SectionRange", place)
    if file.data_size > 0 and (file.data_off < 0x70 or file.data_off + file.data_size > len(file.data)):
        raise Fault("SectionRange", 104)
    for kind in TYPES, PROTOS:
        if file.size(kind) > 65535:
            raise Fault("TooManyRows", TABLES[kind][0])


def map_entries(file: File) -> list[tuple[int, int, int]]:
    """The entries of the map, as kind, size and offset."""
    begin = file.data_off
    end = begin + file.data_size
    off = file.map_off
    # The offset of a data section of size 0 isn't looked at: nothing is within it.
    if file.data_size == 0 or off % 4 != 0 or off < begin or off + 4 > end:
        raise Fault("MapPlace", 52)
    after = off + 4 + 12 * u32(file.data, off)
    if after > end:
        raise Fault("MapPlace", 52)
    return [(u16(file.data, at), u32(file.data, at + 4), u32(file.data, at + 8)) for at in range(off + 4, after, 12)]


def is_entry_broken(file: File, entries: list[tuple[int, int, int]], i: int) -> bool:
    """Whether the entry breaks a rule, read with those before it and with the next one's offset."""
    kind, size, off = entries[i]
    following = entries[i + 1][2] if i + 1 < len(entries) else len(file.data)
    if kind not in KINDS or size == 0 or any(before[0] == kind for before in entries[:i]):
        return True
    if i == 0 and (kind, size, off) != (HEADER, 1, 0):
        return True
    if i > 0 and off <= entries[i - 1][2]:
        return True
    if kind == MAP and (size != 1 or off != file.map_off or off + 4 + 12 * len(entries) > following):
        return True
    if kind in TABLES:
        if file.size(kind) == 0 or (size, off) != file.table[kind] or off + TABLES[kind][1] * size > following:
            return True
    return kind >= 0x1000 and not file.data_off <= off < file.data_off + file.data_size


def ask_map(file: File) -> None:
    """The rules of the map; with it the sections of the data kinds."""
    entries = map_entries(file)
    for i in range(len(entries)):
        if is_entry_broken(file, entries, i):
            raise Fault("MapEntry", file.map_off + 4 + 12 * i)
    present = {kind for kind, _, _ in entries}
    if MAP not in present:
        raise Fault("MapMissing", 52)
    for kind, (place, _) in TABLES.items():
        if file.size(kind) > 0 and kind not in present:
            raise Fault("MapMissing", place)
    end = file.data_off + file.data_size
    for (kind, _, off), following in zip(entries, [off for _, _, off in entries[1:]] + [end]):
        if kind >= 0x1000:
            file.section[kind] = off, min(following, end)


def framed(data: bytes) -> File:
    """The file, where no fault of header, map and checksums stands."""
    ask_header(data)
    file = File(data)
    ask_ranges(file)
    ask_map(file)
    return file


# --------------------------------------------------------------------------------------------- The five tables of names


def ask_strings(file: File) -> None:
    file.strings = []
    for i in range(file.size(STRINGS)):
        row = file.row(STRINGS, i)
        off = u32(file.data, row)
        if not file.is_inside(STRING_DATA, off):
            raise Fault("StringPlace", row)
        text = string_data(file.data, off, file.section[STRING_DATA][1])
        if text is None:
            raise Fault("StringSpelling", row)
        if i > 0 and text <= file.strings[-1]:
            raise Fault("StringOrder", row)
        file.strings.append(text)


def ask_types(file: File) -> None:
    file.types = []
    before = -1
    for i in range(file.size(TYPES)):
        row = file.row(TYPES, i)
        string = u32(file.data, row)
        if string >= len(file.strings):
            raise Fault("TypeIndex", row)
        if not is_descriptor(file.strings[string]):
            raise Fault("TypeText", row)
        if string <= before:
            raise Fault("TypeOrder", row)
        before = string
        file.types.append(file.strings[string])


def type_list(file: File, off: int) -> list[int] | None:
    """The types' indices of the list at this offset; None where none stands or one of them is no row's."""
    if off == 0:
        return []
    if off % 4 != 0 or not file.is_inside(TYPE_LIST, off):
        return None
    end = file.section[TYPE_LIST][1]
    if off + 4 > end or off + 4 + 2 * u32(file.data, off) > end:
        return None
    types = [u16(file.data, off + 4 + 2 * j) for j in range(u32(file.data, off))]
    return types if all(index < len(file.types) for index in types) else None


def ask_protos(file: File) -> None:
    before = None
    for i in range(file.size(PROTOS)):
        row = file.row(PROTOS, i)
        shorty, answer, off = struct.unpack_from("<III", file.data, row)
        if shorty >= len(file.strings) or answer >= len(file.types):
            raise Fault("ProtoIndex", row)
        parameters = type_list(file, off)
        if parameters is None or any(file.types[index] == "V" for index in parameters):
            raise Fault("ParameterList", row)
        if file.strings[shorty] != "".join(shorty_letter(file.types[index]) for index in [answer] + parameters):
            raise Fault("Shorty", row)
        if before is not None and (answer, parameters) <= before:
            raise Fault("ProtoOrder", row)
        before = answer, parameters


def ask_fields(file: File) -> None:
    file.field_owners = []
    before = None
    for i in range(file.size(FIELDS)):
        row = file.row(FIELDS, i)
        owner, kind, name = struct.unpack_from("<HHI", file.data, row)
        if owner >= len(file.types) or kind >= len(file.types) or name >= len(file.strings):
            raise Fault("FieldIndex", row)
        if not is_class_type(file.types[owner]) or file.types[kind] == "V" or not is_member_name(file.strings[name]):
            raise Fault("FieldKind", row)
        if before is not None and (owner, name, kind) <= before:
            raise Fault("FieldOrder", row)
        before = owner, name, kind
        file.field_owners.append(owner)


def ask_methods(file: File) -> None:
    file.method_owners = []
    before = None
    for i in range(file.size(METHODS)):
        row = file.row(METHODS, i)
        owner, proto, name = struct.unpack_from("<HHI", file.data, row)
        if owner >= len(file.types) or proto >= file.size(PROTOS) or name >= len(file.strings):
            raise Fault("MethodIndex", row)
        is_reference = is_class_type(file.types[owner]) or is_array_type(file.types[owner])
        if not is_reference or not is_member_name(file.strings[name]):
            raise Fault("MethodKind", row)
        if before is not None and (owner, name, proto) <= before:
            raise Fault("MethodOrder", row)
        before = owner, name, proto
        file.method_owners.append(owner)


# ----------------------------------------------------------------------------------------------- class rows, Class data


class ClassRow:
    """The eight numbers of a row, as "Dalvik Executable format" has them, and the members in their four lists."""

    def __init__(self, data: bytes, row: int) -> None:
        self.row = row
        numbers: tuple[int, ...] = struct.unpack_from("<8I", data, row)
        self.type, _, self.superclass, self.interfaces, self.source, _, self.class_data, self.values = numbers
        self.members: list[list[list[int]]] = [[], [], [], []]  # static and instance fields, direct and virtual methods


def ask_class_names(file: File, row: ClassRow) -> None:
    if row.type >= len(file.types):
        raise Fault("ClassIndex", row.row)
    if row.superclass != NONE and row.superclass >= len(file.types):
        raise Fault("ClassIndex", row.row)
    if row.source != NONE and row.source >= len(file.strings):
        raise Fault("ClassIndex", row.row)
    if not is_class_type(file.types[row.type]):
        raise Fault("ClassKind", row.row)
    if row.superclass != NONE and not is_class_type(file.types[row.superclass]):
        raise Fault("ClassKind", row.row)


def interface_list(file: File, row: ClassRow) -> list[int]:
    types = type_list(file, row.interfaces)
    if types is None or not all(is_class_type(file.types[index]) for index in types) or len(set(types)) < len(types):
        raise Fault("InterfaceList", row.row)
    return types


def ask_class_order(
    row: ClassRow, i: int, interfaces: list[int], first_row: dict[int, int], last_row: dict[int, int]
) -> None:
    """A row from this one on must not define what stands above, not even where an earlier row defines it too."""
    above = interfaces if row.superclass == NONE else interfaces + [row.superclass]
    if first_row[row.type] < i or any(last_row.get(index, -1) >= i for index in above):
        raise Fault("ClassOrder", row.row)


def read_class_data(file: File, row: ClassRow) -> None:
    """The members as they are spelled: the difference, the flags, and of a method the offset of its code."""
    if row.class_data == 0:
        return
    if not file.is_inside(CLASS_DATA, row.class_data):
        raise Fault("ClassData", row.row)
    at, end = row.class_data, file.section[CLASS_DATA][1]

    def number() -> int:
        nonlocal at
        got = uleb128(file.data, at, end)
        if got is None:
            raise Fault("ClassData", row.row)
        at = got[1]
        return got[0]

    counts = [number() for _ in range(4)]
    for members, count, numbers in zip(row.members, counts, (2, 2, 3, 3)):
        while len(members) < count:
            members.append([number() for _ in range(numbers)])


def ask_members(file: File, row: ClassRow) -> None:
    """Entry by entry. An index is a sum of differences, as high as it gets."""
    for k, members in enumerate(row.members):
        owners, index = file.field_owners if k < 2 else file.method_owners, 0
        for j, member in enumerate(members):
            index += member[0]
            if index >= len(owners):
                raise Fault("MemberIndex", row.row)
            if owners[index] != row.type:
                raise Fault("MemberOwner", row.row)
            if j > 0 and member[0] == 0:
                raise Fault("MemberOrder", row.row)


def ask_classes(file: File) -> None:
    file.classes = [ClassRow(file.data, file.row(CLASSES, i)) for i in range(file.size(CLASSES))]
    first_row: dict[int, int]
    first_row, last_row = {}, {}
    for i, row in enumerate(file.classes):
        first_row.setdefault(row.type, i)
        last_row[row.type] = i
    for i, row in enumerate(file.classes):
        ask_class_names(file, row)
        interfaces = interface_list(file, row)
        ask_class_order(row, i, interfaces, first_row, last_row)
        read_class_data(file, row)
        ask_members(file, row)


# --------------------------------------------------------------------------------------------------------------- Values

# The greatest argument of each type, and the table whose rows a type's indices name.
GREATEST_ARGUMENT = {0x00: 0, 0x02: 1, 0x03: 1, 0x04: 3, 0x06: 7, 0x10: 3, 0x11: 7, 0x17: 3, 0x18: 3, 0x19: 3, 0x1A: 3,
                     0x1B: 3, 0x1C: 0, 0x1E: 0, 0x1F: 1}
NAMED_TABLE = {0x17: STRINGS, 0x18: TYPES, 0x19: FIELDS, 0x1A: METHODS, 0x1B: FIELDS}
ARRAY, NULL, BOOLEAN = 0x1C, 0x1E, 0x1F


def behind_value(file: File, row: ClassRow, at: int, end: int, arrays_around: int) -> int:
    """The place after the value that stands here."""
    if at >= end:
        raise Fault("Values", row.row)
    kind, argument = file.data[at] & 0x1F, file.data[at] >> 5
    if kind not in GREATEST_ARGUMENT or argument > GREATEST_ARGUMENT[kind]:
        raise Fault("ValueKind", at)
    if kind == ARRAY:
        if arrays_around >= 64:
            raise Fault("ValueDepth", at)
        return behind_array(file, row, at + 1, end, None, arrays_around + 1)
    if kind in (NULL, BOOLEAN):
        return at + 1
    after = at + 2 + argument
    if after > end:
        raise Fault("Values", row.row)
    index = int.from_bytes(file.data[at + 1 : after], "little")
    if kind in NAMED_TABLE and index >= file.size(NAMED_TABLE[kind]):
        raise Fault("ValueKind", at)
    return after


def behind_array(file: File, row: ClassRow, at: int, end: int, most: int | None, arrays_around: int) -> int:
    """The place after the encoded_array that stands here; it has at most `most` values, where that isn't None."""
    got = uleb128(file.data, at, end)
    if got is None:
        raise Fault("Values", row.row)
    count, at = got
    if most is not None and count > most:
        raise Fault("TooManyValues", row.row)
    for _ in range(count):
        at = behind_value(file, row, at, end, arrays_around)
    return at


def ask_values(file: File) -> None:
    for row in file.classes:
        if row.values == 0:
            continue
        if not file.is_inside(ARRAY_OF_VALUES, row.values):
            raise Fault("Values", row.row)
        behind_array(file, row, row.values, file.section[ARRAY_OF_VALUES][1], len(row.members[0]), 0)


# --------------------------------------------------------------------------------------------- Instructions, Code items

# The formats of "Dalvik Executable instruction formats": their first digit is how many units they take. Then those that
# have bits which the page writes as Ø.
FORMATS = "10x 12x 11n 11x 10t 20t 22x 21t 21s 21h 21c 23x 22b 22t 22s 22c 30t 32x 31i 31t 31c 35c 3rc 51l"
UNITS = {form: int(form[0]) for form in FORMATS.split()}
ZERO_HIGH_BYTE = ("10x", "20t", "30t", "32x")
INDEX_FORMATS = ("21c", "22c", "31c", "35c", "3rc")
BRANCH_FORMATS = ("10t", "20t", "30t", "21t", "22t")
GOTO_32 = 0x2A
# The opcodes of "Dalvik bytecode": first, last, format, and the table that an index is of.
OPCODE_RANGES: tuple[tuple[Any, ...], ...] = (
    (0x00, 0x00, "10x"), (0x01, 0x01, "12x"), (0x02, 0x02, "22x"), (0x03, 0x03, "32x"), (0x04, 0x04, "12x"),
    (0x05, 0x05, "22x"), (0x06, 0x06, "32x"), (0x07, 0x07, "12x"), (0x08, 0x08, "22x"), (0x09, 0x09, "32x"),
    (0x0A, 0x0D, "11x"), (0x0E, 0x0E, "10x"), (0x0F, 0x11, "11x"), (0x12, 0x12, "11n"), (0x13, 0x13, "21s"),
    (0x14, 0x14, "31i"), (0x15, 0x15, "21h"), (0x16, 0x16, "21s"), (0x17, 0x17, "31i"), (0x18, 0x18, "51l"),
    (0x19, 0x19, "21h"), (0x1A, 0x1A, "21c", STRINGS), (0x1B, 0x1B, "31c", STRINGS), (0x1C, 0x1C, "21c", TYPES),
    (0x1D, 0x1E, "11x"), (0x1F, 0x1F, "21c", TYPES), (0x20, 0x20, "22c", TYPES), (0x21, 0x21, "12x"),
    (0x22, 0x22, "21c", TYPES), (0x23, 0x23, "22c", TYPES), (0x24, 0x24, "35c", TYPES), (0x25, 0x25, "3rc", TYPES),
    (0x26, 0x26, "31t"), (0x27, 0x27, "11x"), (0x28, 0x28, "10t"), (0x29, 0x29, "20t"), (0x2A, 0x2A, "30t"),
    (0x2B, 0x2C, "31t"), (0x2D, 0x31, "23x"), (0x32, 0x37, "22t"), (0x38, 0x3D, "21t"), (0x44, 0x51, "23x"),
    (0x52, 0x5F, "22c", FIELDS), (0x60, 0x6D, "21c", FIELDS), (0x6E, 0x72, "35c", METHODS),
    (0x74, 0x78, "3rc", METHODS), (0x7B, 0x8F, "12x"), (0x90, 0xAF, "23x"), (0xB0, 0xCF, "12x"), (0xD0, 0xD7, "22s"),
    (0xD8, 0xE2, "22b"),
)
OPCODES = {op: (form, *table) for first, last, form, *table in OPCODE_RANGES for op in range(first, last + 1)}
# Payloads have a format of their own here. Which one each high byte begins, and which one an instruction needs.
PACKED, SPARSE, FILL = "packed-switch", "sparse-switch", "array"
PAYLOADS = {1: PACKED, 2: SPARSE, 3: FILL}
NEEDED_PAYLOAD = {0x2B: PACKED, 0x2C: SPARSE, 0x26: FILL}


class Instruction:
    def __init__(self, at: int, opcode: int, form: str, size: int) -> None:
        self.at, self.opcode, self.form, self.size = at, opcode, form, size
        self.offsets: list[int] = []  # of a switch's payload


class Code:
    """A code_item: its numbers, where its parts begin, its units, and the instructions by their addresses."""

    registers: int
    ins: int
    outs: int
    tries: int
    units: tuple[int, ...]
    instructions: list[Instruction]
    by_address: dict[int, Instruction]

    def __init__(self, file: File, off: int) -> None:
        self.off = off
        self.registers, self.ins, self.outs, self.tries = struct.unpack_from("<4H", file.data, off)
        self.length = u32(file.data, off + 12)
        padding = 2 if self.tries > 0 and self.length % 2 == 1 else 0
        self.tries_off = off + 16 + 2 * self.length + padding
        self.handlers_off = self.tries_off + 8 * self.tries

    def place(self, address: int) -> int:
        return self.off + 16 + 2 * address

    def i32(self, address: int) -> int:
        return signed(self.units[address] | self.units[address + 1] << 16, 32)

    def is_target(self, address: int) -> bool:
        return address in self.by_address and self.by_address[address].form in UNITS


def code_parts(file: File, off: int) -> Code:
    end = file.section.get(CODE, (0, 0))[1]
    if off % 4 != 0 or not file.is_inside(CODE, off) or off + 16 > end:
        raise Fault("CodePlace", off)
    code = Code(file, off)
    if code.handlers_off > end:
        raise Fault("CodePlace", off)
    if code.length == 0:
        raise Fault("EmptyCode", off)
    code.units = struct.unpack_from(f"<{code.length}H", file.data, off + 16)
    return code


def payload(code: Code, at: int, form: str) -> Instruction:
    """The payload that begins here. What can be wrong is asked in the order of its units."""
    left, place = code.length - at, code.place(at)
    if at % 2 == 1:
        raise Fault("Payload", place)
    if left < (2 if form == SPARSE else 4):
        raise Fault("Cut", place)
    count = code.units[at + 1]
    if form == FILL and count not in (1, 2, 4, 8):  # of an array this unit is the width
        raise Fault("Payload", place)
    if form == PACKED:
        size = 4 + 2 * count
    elif form == SPARSE:
        size = 2 + 4 * count
    else:
        size = 4 + (count * (code.units[at + 2] | code.units[at + 3] << 16) + 1) // 2
    if left < size:
        raise Fault("Cut", place)
    made = Instruction(at, 0x00, form, size)
    if form == SPARSE:
        keys = [code.i32(at + 2 + 2 * j) for j in range(count)]
        if any(key >= following for key, following in zip(keys, keys[1:])):
            raise Fault("Payload", place)
    if form != FILL:  # the offsets stand at the end
        made.offsets = [code.i32(at + size - 2 * (count - j)) for j in range(count)]
    return made


def instruction(code: Code, at: int) -> Instruction:
    opcode, high = code.units[at] & 0xFF, code.units[at] >> 8
    if opcode not in OPCODES:
        raise Fault("Opcode", code.place(at))
    if opcode == 0x00 and high in PAYLOADS:
        return payload(code, at, PAYLOADS[high])
    form = OPCODES[opcode][0]
    if at + UNITS[form] > code.length:
        raise Fault("Cut", code.place(at))
    if form in ZERO_HIGH_BYTE and high != 0:
        raise Fault("NonZero", code.place(at))
    if form == "35c" and high >> 4 > 5:
        raise Fault("RegisterCount", code.place(at))
    return Instruction(at, opcode, form, UNITS[form])


def read_instructions(code: Code) -> None:
    code.instructions, at = [], 0
    while at < code.length:
        code.instructions.append(instruction(code, at))
        at += code.instructions[-1].size
    code.by_address = {each.at: each for each in code.instructions}


def ask_indices(file: File, code: Code) -> None:
    for each in code.instructions:
        if each.form in INDEX_FORMATS:
            index = code.units[each.at + 1]
            if each.form == "31c":
                index |= code.units[each.at + 2] << 16
            if index >= file.size(OPCODES[each.opcode][1]):
                raise Fault("OperandIndex", code.place(each.at))


def offset_of(code: Code, each: Instruction) -> int:
    if each.form == "10t":
        return signed(code.units[each.at] >> 8, 8)
    if each.form in ("30t", "31t"):
        return code.i32(each.at + 1)
    return signed(code.units[each.at + 1], 16)


def ask_branches(code: Code) -> None:
    for each in code.instructions:
        if each.form in BRANCH_FORMATS:
            offset = offset_of(code, each)
            if offset == 0 and each.opcode != GOTO_32:
                raise Fault("BranchZero", code.place(each.at))
            if not code.is_target(each.at + offset):
                raise Fault("BranchTarget", code.place(each.at))


def ask_payload_use(code: Code) -> dict[int, int]:
    """Answers which switch has each payload. A user of a payload is an instruction of its kind that leads to it."""
    users: dict[int, list[int]]
    users, wrong = {}, set()
    for each in code.instructions:
        if each.form == "31t":
            target = code.by_address.get(each.at + offset_of(code, each))
            if target is None or target.form != NEEDED_PAYLOAD[each.opcode]:
                wrong.add(each.at)
            else:
                users.setdefault(target.at, []).append(each.at)
    for each in code.instructions:
        is_unused = each.form in (PACKED, SPARSE) and len(users.get(each.at, [])) != 1
        if each.at in wrong or is_unused:
            raise Fault("PayloadUse", code.place(each.at))
    return {address: switches[0] for address, switches in users.items()}


def ask_switches(code: Code, switch_of: dict[int, int]) -> None:
    """Payload by payload, by their addresses; targets count from the switch."""
    for each in code.instructions:
        if not all(code.is_target(switch_of[each.at] + offset) for offset in each.offsets):
            raise Fault("BranchTarget", code.place(each.at))


def ask_tries(file: File, code: Code) -> None:
    end = 0
    for at in range(code.tries_off, code.handlers_off, 8):
        start, count = u32(file.data, at), u16(file.data, at + 4)
        if start not in code.by_address or count == 0 or start + count > code.length or start < end:
            raise Fault("Try", at)
        end = start + count


def handler_begins(file: File, code: Code) -> set[int] | None:
    """Where the handlers begin, from the list's begin; None where one of them is wrong, used or not."""
    at, end = code.handlers_off, file.section[CODE][1]
    got = uleb128(file.data, at, end)
    if got is None:
        return None
    count, at = got
    begins = set()
    for _ in range(count):
        begins.add(at - code.handlers_off)
        got = sleb128(file.data, at, end)
        if got is None:
            return None
        pairs, at = abs(got[0]), got[1]
        for j in range(2 * pairs + (got[0] <= 0)):
            got_number = uleb128(file.data, at, end)
            if got_number is None:
                return None
            number, at = got_number
            is_type = j % 2 == 0 and j < 2 * pairs
            if not (number < len(file.types) if is_type else number in code.by_address):
                return None
    return begins


def ask_handlers(file: File, code: Code) -> None:
    if code.tries == 0:
        return
    begins = handler_begins(file, code)
    used = {u16(file.data, at + 6) for at in range(code.tries_off, code.handlers_off, 8)}
    if begins is None or not used <= begins:
        raise Fault("Handler", code.handlers_off)


def ask_codes(file: File) -> None:
    """Each code once, where it is first named: class by class, direct methods before virtual ones."""
    members = [member for row in file.classes for members in row.members[2:] for member in members]
    file.codes = []
    for off in dict.fromkeys(off for _, _, off in members if off != 0):
        code = code_parts(file, off)
        read_instructions(code)
        ask_indices(file, code)
        ask_branches(code)
        ask_switches(code, ask_payload_use(code))
        ask_tries(file, code)
        ask_handlers(file, code)
        file.codes.append(code)


def registers_of(code: Code, each: Instruction) -> list[int]:
    """The registers that an instruction names, none for a payload."""
    units, form = code.units[each.at : each.at + each.size], each.form
    high, a, b = units[0] >> 8, units[0] >> 8 & 0xF, units[0] >> 12
    if form in ("12x", "22t", "22s", "22c"):
        return [a, b]
    if form == "11n":
        return [a]
    if form in ("11x", "21t", "21s", "21h", "21c", "31i", "31t", "31c", "51l"):
        return [high]
    if form == "22x":
        return [high, units[1]]
    if form == "32x":
        return [units[1], units[2]]
    if form == "23x":
        return [high, units[1] & 0xFF, units[1] >> 8]
    if form == "22b":
        return [high, units[1] & 0xFF]
    if form == "35c":
        return [units[2] & 0xF, units[2] >> 4 & 0xF, units[2] >> 8 & 0xF, units[2] >> 12, a][:b]
    if form == "3rc":
        return list(range(units[2], units[2] + high))
    return []


def ask_registers(file: File) -> None:
    for code in file.codes:
        if code.ins > code.registers:
            raise Fault("Register", code.off)
        for each in code.instructions:
            if any(register >= code.registers for register in registers_of(code, each)):
                raise Fault("Register", code.place(each.at))


# ----------------------------------------------------------------------------------------------------- Faults of a file


def read(data: bytes) -> File:
    """The file, where it has no fault."""
    file = framed(data)
    names = ask_strings, ask_types, ask_protos, ask_fields, ask_methods
    for ask in (*names, ask_classes, ask_values, ask_codes, ask_registers):
        ask(file)
    return file


def fault(data: bytes) -> tuple[str, int] | None:
    try:
        read(data)
    except Fault as found:
        return found.name, found.place
    return None
