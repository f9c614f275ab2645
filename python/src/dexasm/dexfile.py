"""Which byte of a .dex file is whose: for dexasm-size. The file is one that dexasm accepts, so each table and item of
its program is there. (What is read of a refused one raises one of NO_FILE where that isn't so.)

What the program doesn't need (annotations, debug information) dexasm doesn't look at, so it can be anything: there each
number is asked whether it leads into the file."""
from __future__ import annotations

import functools
import re
import struct
from collections.abc import Callable, Iterable, Iterator, Sequence
from itertools import accumulate
from operator import itemgetter
from typing import Any, TypeVar

from dexasm.opcodes import ROWS

Parsed = TypeVar("Parsed")
Kind = TypeVar("Kind", int, str)
Owner = TypeVar("Owner")
Claim = tuple[int, int, int]  # begin, end and kind
Links = Sequence[tuple["Read", int]]  # what an item that isn't needed refers to, and how that is read
Read = Callable[["Reader"], Links]

HEADER, MAP_OFF = 112, 52
LONGEST_CHARACTER = 6  # bytes in MUTF-8: two surrogates
TABLES = (("string", 56, 4), ("type", 64, 4), ("proto", 72, 12), ("field", 80, 8), ("method", 88, 8), ("class", 96, 32))
ABSENT = 0xFFFFFFFF
# Whose a byte is: a class's, by its row from 0 on; several classes'; no class's; the file's own.
SEVERAL, NOBODY, FILE = -1, -2, -3
# What a byte is: the last two are what no program has.
KINDS = ("code", "strings", "tables", "values", "debug", "unused")
CODE, STRINGS, TABLE, VALUES, DEBUG, UNUSED = range(len(KINDS))

JUMBO = 0x1B
# The units of each opcode ("Dalvik bytecode"), and which table its index, its second unit, is of.
UNITS = bytes(int(row.split()[1][0]) if row else 1 for row in ROWS)
INDEX: list[str | None] = [row.split()[2] if row.count(" ") == 2 else None for row in ROWS]
# Encoded values: those that are an index, and those without bytes of a number.
VALUE_INDEX = {0x17: "string", 0x18: "type", 0x19: "field", 0x1A: "method", 0x1B: "field"}
ARRAY, ANNOTATION, NULL, BOOLEAN = 0x1C, 0x1D, 0x1E, 0x1F
# Debug information: how many numbers follow an opcode.
DEBUG_NUMBERS = {1: 1, 2: 1, 3: 3, 4: 4, 5: 1, 6: 1, 9: 1}


class Malformed(Exception):
    """The bytes aren't those of a file that dexasm accepts: what is followed leads out of them, or too much is."""


def unpack(form: str, data: bytes, at: int) -> tuple[int, ...]:
    """The numbers at a place."""
    try:
        if at >= 0:
            return struct.unpack_from(form, data, at)
    except (struct.error, OverflowError):
        pass
    raise Malformed


def end_of_text(data: bytes, at: int) -> int:
    """The place of the NUL that ends a string's characters."""
    end = data.find(0, at)
    if end < 0:
        raise Malformed
    return end


class Reader:
    """Numbers from a place on; for what dexasm doesn't look at, `left` has how many bytes may still be read."""

    def __init__(self, data: bytes, at: int, left: list[int] | None = None) -> None:
        self.data, self.at, self.left = data, at, left
        self.far: int | None = None  # where the first number that `wide` read begins that is none of 32 bits

    def byte(self) -> int:
        if self.left:
            self.left[0] -= 1
        if self.at >= len(self.data) or self.left and self.left[0] < 0:
            raise Malformed
        self.at += 1
        return self.data[self.at - 1]

    def words(self, count: int) -> tuple[int, ...]:
        """Numbers of four bytes."""
        found = unpack(f"<{count}I", self.data, self.at)
        if self.left:
            self.left[0] -= 4 * count
        self.at += 4 * count
        return found

    def skip_to(self, end: int) -> None:
        """Goes on behind bytes that are read."""
        if self.left:
            self.left[0] -= end - self.at
            if self.left[0] < 0:
                raise Malformed
        self.at = end

    def match(self, pattern: re.Pattern[bytes]) -> bool:
        """Reads what the pattern matches here, and answers whether that is anything."""
        found = pattern.match(self.data, self.at)
        if found:
            self.skip_to(found.end())
        return found is not None

    def number(self, size: int) -> int:
        """One of so many bytes."""
        found = self.data[self.at : self.at + size]
        if len(found) < size:
            raise Malformed
        self.skip_to(self.at + size)
        return int.from_bytes(found, "little")

    def uleb(self) -> int:
        number, _, end = leb_at(self.data, self.at)
        if self.left:
            self.skip_to(end)
        self.at = end
        return number

    def sleb(self) -> int:
        number, bits, end = leb_at(self.data, self.at)
        self.skip_to(end)
        return number - (1 << bits) if number >> (bits - 1) else number

    def wide(self) -> int:
        """As uleb; a number that is none of 32 bits is noted, and is 0."""
        begin = self.at
        number = 0
        for shift in range(0, 35, 7):
            byte = self.byte()
            number |= (byte & 0x7F) << shift
            if byte < 0x80:
                break
        if byte < 0x80 and number < 1 << 32:
            return number
        self.far = begin if self.far is None else self.far
        return 0


def leb_at(data: bytes, at: int) -> tuple[int, int, int]:
    """The LEB128 number there without its sign, how many bits it has, and the place behind it."""
    number, bits = 0, 0
    for byte in data[at : at + 5]:
        number |= (byte & 0x7F) << bits
        bits += 7
        if byte < 0x80:
            return number, bits, at + bits // 7
    raise Malformed


def ulebs(data: bytes, at: int, count: int) -> tuple[list[int], int]:
    """So many numbers from a place on, and the place behind them."""
    found: list[int] = []
    for _ in range(count):
        number, _, at = leb_at(data, at)
        found.append(number)
    return found, at


PAYLOADS = {0x0100: "packed-switch-payload", 0x0200: "sparse-switch-payload", 0x0300: "array-payload"}
HEADS = {0x0100: 2, 0x0200: 2, 0x0300: 4}  # units of each that say how long it is


def steps(units: Sequence[int]) -> Iterator[tuple[int, int]]:
    """Each instruction and each payload: its first unit's place, and the place behind it."""
    at = 0
    while at < len(units):
        begin, unit = at, units[at]
        if at + HEADS.get(unit, 1) > len(units):
            raise Malformed
        if unit == 0x0100:
            at += 4 + 2 * units[at + 1]
        elif unit == 0x0200:
            at += 2 + 4 * units[at + 1]
        elif unit == 0x0300:
            at += 4 + (units[at + 1] * (units[at + 2] | units[at + 3] << 16) + 1) // 2
        else:
            at += UNITS[unit & 0xFF]
        yield begin, at


def units_of(data: bytes, code: int) -> tuple[int, ...]:
    """The units of the code that is there."""
    return unpack(f"<{unpack('<I', data, code + 12)[0]}H", data, code + 16)


def addresses(data: bytes, code: int) -> Iterator[tuple[int, int]]:
    """Of each instruction and each payload of the code that is there: its offset in the file, and its address in units."""
    return ((code + 16 + 2 * at, at) for at, _ in steps(units_of(data, code)))


def index_at(units: Sequence[int], at: int) -> int:
    """The index that an instruction has."""
    is_jumbo = units[at] & 0xFF == JUMBO
    if at + 1 + is_jumbo >= len(units):
        raise Malformed
    return units[at + 1] | (units[at + 2] << 16 if is_jumbo else 0)


def insns(units: Sequence[int]) -> Iterator[tuple[int, int]]:
    """Each instruction that isn't a payload: its opcode and its first unit's place."""
    return ((units[at] & 0xFF, at) for at, _ in steps(units) if units[at] not in PAYLOADS)


def _opcodes(units: int, has_index: bool) -> bytes:
    """A pattern for those of so many units."""
    known = (op for op, row in enumerate(ROWS) if row and op not in (0, JUMBO) and UNITS[op] == units)
    return b"[%s]" % b"".join(b"\\x%02x" % op for op in known if (INDEX[op] is not None) == has_index)


@functools.cache
def _indexed() -> re.Pattern[bytes]:
    """At most 1,000 instructions without an index, then one with an index, the end, one more or what is none."""
    plain = rb"\x00\x00|%s.|%s.{3}|%s.{5}|%s.{9}" % (*(_opcodes(units, False) for units in (1, 2, 3, 5)),)
    index = rb"(%s).(..)|(%s).(..)..|\x1b.(....)" % (*(_opcodes(units, True) for units in (2, 3)),)
    return re.compile(rb"(?s)(?:%s){0,1000}(?:%s|\Z|(?=%s)|(.))" % (plain, index, plain))


def mentions_of(data: bytes, at: int, count: int) -> set[tuple[str, int]]:
    """What so many units of code mention. (Code with payloads is read step by step.)"""
    found = _indexed().findall(data[at : at + 2 * count])
    if any(other for *_, other in found):
        units = unpack(f"<{count}H", data, at)
        return {(table, index_at(units, i)) for op, i in insns(units) if (table := INDEX[op])}
    return {
        (INDEX[(op or long or b"\x1b")[0]] or "", int.from_bytes(index or other or far, "little"))
        for op, index, long, other, far, _ in found
        if op or long or far
    }


class TypeList:
    """A type_list: where it ends, and its types."""

    kind = TABLE

    def __init__(self, data: bytes, at: int) -> None:
        count = unpack("<I", data, at)[0]
        self.begin, self.end = at, at + 4 + 2 * count
        self.mentions = {("type", type_) for type_ in unpack(f"<{count}H", data, at + 4)}


class Values:
    """The encoded_array of a class's static values."""

    kind = VALUES

    def __init__(self, data: bytes, at: int) -> None:
        reader = Reader(data, at)
        self.begin, self.mentions = at, read_values(reader, reader.uleb())
        self.end = reader.at


class Code:
    """A code_item: where it ends, which names it mentions, and where its debug information is."""

    kind = CODE

    def __init__(self, data: bytes, at: int) -> None:
        self.begin = at
        _, _, _, tries, self.debug, count = unpack("<HHHHII", data, at)
        self.end = at + 16 + 2 * count
        self.mentions = mentions_of(data, at + 16, count)
        if tries:
            self.read_handlers(Reader(data, self.end + 2 * (count % 2) + 8 * tries))

    def read_handlers(self, reader: Reader) -> None:
        for _ in range(reader.uleb()):
            size = reader.sleb()
            for _ in range(abs(size)):
                self.mentions.add(("type", reader.uleb()))
                reader.uleb()
            if size <= 0:
                reader.uleb()
        self.end = reader.at


def values(reader: Reader, count: int, has_names: bool = False) -> Iterator[tuple[int, int, int]]:
    """Reads so many encoded values, one by one, however deep: the place of each, its head, and its number, which of an
    array or an annotation is how many follow."""
    due = [[count, has_names]]
    while due:
        if due[-1][0] == 0:
            due.pop()
            continue
        due[-1][0] -= 1
        begin = reader.at
        if due[-1][1]:
            reader.uleb()
        head = reader.byte()
        kind, number = head & 0x1F, head >> 5
        if kind == ARRAY:
            number = reader.uleb()
            due.append([number, False])
        elif kind == ANNOTATION:
            reader.uleb()
            number = reader.uleb()
            due.append([number, True])
        elif kind not in (NULL, BOOLEAN):
            number = reader.number(number + 1)
        yield begin, head, number


def read_values(reader: Reader, count: int, has_names: bool = False) -> set[tuple[str, int]]:
    """Reads so many encoded values, and answers the names that they mention."""
    found = ((head & 0x1F, number) for _, head, number in values(reader, count, has_names))
    return {(VALUE_INDEX[kind], number) for kind, number in found if kind in VALUE_INDEX}


class Owners:
    """Whose each row of a table is."""

    def __init__(self, counts: dict[str, int]) -> None:
        self.of = {table: [NOBODY] * count for table, count in counts.items()}

    def give(self, table: str, index: int, owner: int) -> None:
        old = self.of[table][index]
        self.of[table][index] = owner if old in (NOBODY, owner) else SEVERAL


def from_mutf8(spelled: bytes) -> str:
    if spelled.isascii():
        return spelled.decode("ascii")
    try:
        text = spelled.replace(b"\xc0\x80", b"\0").decode("utf8", "surrogatepass")
    except UnicodeDecodeError:
        raise Malformed from None
    return text.encode("utf-16-le", "surrogatepass").decode("utf-16-le", "surrogatepass")


class Tables:
    """The six tables of a file, and what their rows name."""

    def __init__(self, data: bytes) -> None:
        self.data = data
        self.at: dict[str, int] = {}
        self.count: dict[str, int] = {}
        self.row: dict[str, int] = {}
        for name, place, size in TABLES:
            self.count[name], self.at[name] = unpack("<II", data, place)
            self.row[name] = size

    def row_numbers(self, table: str, form: str) -> Iterator[tuple[Any, ...]]:
        """The numbers of each row of a table, which is in the file."""
        begin, end = self.at[table], self.at[table] + self.count[table] * self.row[table]
        return struct.iter_unpack(form, memoryview(self.data)[begin:end])

    def numbers(self, table: str, index: int, form: str) -> tuple[int, ...]:
        return unpack(form, self.data, self.at[table] + index * self.row[table])

    def text(self, string: int) -> str:
        """A string as it is, from MUTF-8."""
        reader = Reader(self.data, self.numbers("string", string, "<I")[0])
        reader.uleb()
        return from_mutf8(self.data[reader.at : end_of_text(self.data, reader.at)])

    def beginning(self, string: int, most: int) -> tuple[str, int]:
        """The first characters of a string, so many at most; and how many units it has if it has more, or else 0. What
        lies behind them isn't looked at, since strings can overlap.
        """
        reader = Reader(self.data, self.numbers("string", string, "<I")[0])
        units, begin = reader.uleb(), reader.at
        end = self.data.find(0, begin, begin + LONGEST_CHARACTER * (most + 1))
        if end < 0:
            end = begin + LONGEST_CHARACTER * (most + 1)
            while self.data[end] & 0xC0 == 0x80:
                end -= 1
        text = from_mutf8(self.data[begin:end])
        return text[:most], units if len(text) > most else 0

    def type_name(self, index: int) -> str:
        return self.text(self.numbers("type", index, "<I")[0])

    def class_name(self, row: int) -> str:
        return self.type_name(self.numbers("class", row, "<I")[0])

    def proto_name(self, index: int) -> str:
        _, returns, at = self.numbers("proto", index, "<III")
        return f"({''.join(map(self.type_name, self.types_at(at)))}){self.type_name(returns)}"

    def types_at(self, at: int) -> tuple[int, ...]:
        """The types of a type_list in their order; 0 is the place of none."""
        count = unpack("<I", self.data, at)[0] if at else 0
        return unpack(f"<{count}H", self.data, at + 4) if count else ()

    def method_name(self, index: int) -> str:
        """A method as a listing names it, without its class."""
        _, proto, name = self.numbers("method", index, "<HHI")
        return self.text(name) + self.proto_name(proto)

    def field_name(self, index: int) -> str:
        """A field as a listing names it, without its class."""
        _, type_, name = self.numbers("field", index, "<HHI")
        return f"{self.text(name)}:{self.type_name(type_)}"

    def name(self, table: str, index: int) -> str:
        """What a row names, as a listing does, with its class."""
        if table == "string":
            return self.text(index)
        if table == "proto":
            return self.proto_name(index)
        if table in ("field", "method"):
            owner = self.type_name(self.numbers(table, index, "<HHI")[0])
            return f"{owner}->{self.field_name(index) if table == 'field' else self.method_name(index)}"
        return self.type_name(index) if table == "type" else self.class_name(index)

    def members(self, row: int, left: list[int] | None) -> Iterator[tuple[str, int, int | None, int]]:
        """Of each member of a class: its table, its own row, what that is above the one before in its list (None of the
        first), and where its code is.
        """
        reader = Reader(self.data, self.numbers("class", row, "<8I")[6], left)
        counts = [reader.uleb() for _ in range(4)] if reader.at else [0] * 4
        for table, count in zip(("field", "field", "method", "method"), counts):
            index = 0
            for number in range(count):
                above = reader.uleb()
                index += above
                reader.uleb()
                yield table, index, above if number else None, reader.uleb() if table == "method" else 0

    def codes_of(self, row: int, left: list[int] | None) -> Iterator[tuple[int, int]]:
        """Of each method of a class that has one: where its code is, and its own row."""
        return ((code, index) for _, index, _, code in self.members(row, left) if code)

    def twice(self, row: int, left: list[int] | None) -> str | None:
        """The first member of a class that is the one before once more, or None."""
        for table, index, above, _ in self.members(row, left):
            if above == 0:
                return self.field_name(index) if table == "field" else self.method_name(index)
        return None

    def too_far(self, row: int, left: list[int] | None) -> tuple[int, bytes] | None:
        """Where the first number of a class's data begins that isn't one of 32 bits, and its bytes; or None."""
        reader = Reader(self.data, self.numbers("class", row, "<8I")[6], left)
        due = [reader.wide() for _ in range(4)] if reader.at else []
        for each, count in zip((2, 2, 3, 3), due):
            for _ in range(each * count if reader.far is None else 0):
                reader.wide()
                if reader.far is not None:
                    break
        return (reader.far, self.data[reader.far : reader.far + 5]) if reader.far else None


class Dex(Tables):
    """A file whose bytes are told apart: `claims` has begin, end and kind of each item, and whose it is."""

    def __init__(self, data: bytes) -> None:
        super().__init__(data)
        self.claims: dict[Claim, int] = {}
        self.left = [4 * len(data)]
        self.items: dict[tuple[Callable[[bytes, int], Any], int], Any] = {}
        self.item_owners: dict[TypeList | Values | Code, int] = {}
        self.followed: dict[tuple[Read, int], tuple[int, Links]] = {}
        self.owners = Owners(self.count)
        self.claim(0, HEADER, TABLE, FILE)
        begin = unpack("<I", data, MAP_OFF)[0]
        self.claim(begin, begin + 4 + 12 * unpack("<I", data, begin)[0], TABLE, FILE)
        self.names = [self.read_class(row) for row in range(self.count["class"])]
        self.read_names()

    def claim(self, begin: int, end: int, kind: int, owner: int) -> None:
        """An item that several have is nobody's alone."""
        old = self.claims.setdefault((begin, end, kind), owner)
        if old != owner:
            self.claims[begin, end, kind] = SEVERAL

    def item(self, read: Callable[[bytes, int], Parsed], at: int) -> Parsed:
        """What `read` makes of the item there, which is read once."""
        if (read, at) not in self.items:
            self.items[read, at] = read(self.data, at)
        item: Parsed = self.items[read, at]
        return item

    def give_all(self, item: TypeList | Values | Code, owner: int) -> None:
        """Gives the owner an item that several may have, and what it mentions; once it is several classes', no more is
        to be given.
        """
        old = self.item_owners.get(item)
        if old in (owner, SEVERAL):
            return
        self.item_owners[item] = owner = owner if old is None else SEVERAL
        self.claim(item.begin, item.end, item.kind, owner)
        for table, index in item.mentions:
            self.owners.give(table, index, owner)

    def read_class(self, row: int) -> str:
        """A class row and what it leads to; answers the class's name."""
        type_, _, parent, interfaces, source, annotations, members, values = self.numbers("class", row, "<8I")
        give = self.owners.give
        self.claim(self.at["class"] + 32 * row, self.at["class"] + 32 * row + 32, TABLE, row)
        give("type", type_, row)
        if parent != ABSENT:
            give("type", parent, row)
        if source != ABSENT:
            give("string", source, row)
        if interfaces:
            self.give_all(self.item(TypeList, interfaces), row)
        if members:
            self.read_members(members, row)
        if values:
            self.give_all(self.item(Values, values), row)
        if annotations:
            self.unneeded(read_directory, annotations, row)
        return self.text(self.numbers("type", type_, "<I")[0])

    def read_members(self, at: int, row: int) -> None:
        counts, end = ulebs(self.data, at, 4)
        for table, each, count in zip(("field", "field", "method", "method"), (2, 2, 3, 3), counts):
            numbers, end = ulebs(self.data, end, each * count)
            for index in accumulate(numbers[::each]):
                self.owners.give(table, index, row)
            for at_code in filter(None, numbers[2::3] if table == "method" else ()):
                code = self.item(Code, at_code)
                self.give_all(code, row)
                if code.debug:
                    self.unneeded(read_debug, code.debug, row)
        self.claim(at, end, TABLE, row)

    def read_names(self) -> None:
        """The rows of the five tables, and what they lead to: a name is whose the names with it are."""
        give, of = self.owners.give, self.owners.of
        for table, part in (("field", "type"), ("method", "proto")):
            for (class_, type_, name), owner in zip(self.row_numbers(table, "<HHI"), of[table]):
                if owner != NOBODY:
                    give("type", class_, owner)
                    give(part, type_, owner)
                    give("string", name, owner)
        for (shorty, returns, parameters), owner in zip(self.row_numbers("proto", "<III"), of["proto"]):
            if owner != NOBODY:
                give("string", shorty, owner)
                give("type", returns, owner)
            if parameters and owner != NOBODY:
                self.give_all(self.item(TypeList, parameters), owner)
            elif parameters:
                self.claim(parameters, self.item(TypeList, parameters).end, UNUSED, NOBODY)
        for (name,), owner in zip(self.row_numbers("type", "<I"), of["type"]):
            if owner != NOBODY:
                give("string", name, owner)
        for table, _, size in TABLES[:5]:
            kind = STRINGS if table == "string" else TABLE
            for index, owner in enumerate(of[table]):
                begin = self.at[table] + size * index
                self.claim(begin, begin + size, kind if owner != NOBODY else UNUSED, owner)
        for (at,), owner in zip(self.row_numbers("string", "<I"), of["string"]):
            self.claim(at, self.end_of_string(at), STRINGS if owner != NOBODY else UNUSED, owner)

    def end_of_string(self, at: int) -> int:
        return end_of_text(self.data, ulebs(self.data, at, 1)[1]) + 1

    def string_data(self, index: int) -> tuple[int, int]:
        """Where a string's item begins, and where it ends."""
        at = self.numbers("string", index, "<I")[0]
        return at, self.end_of_string(at)

    # ---- parts of what a class has

    def claims_of_string(self, index: int) -> tuple[Claim, Claim]:
        """Those of a string: its row, and its item."""
        kind = STRINGS if self.owners.of["string"][index] != NOBODY else UNUSED
        row = self.at["string"] + self.row["string"] * index
        return (row, row + self.row["string"], kind), (*self.string_data(index), kind)

    def claims_of_code(self, at: int) -> list[Claim]:
        """Those of a code: its item, and its debug information where that could be followed."""
        code = self.item(Code, at)
        end = self.followed.get((read_debug, code.debug), (code.debug,))[0]
        return [(at, code.end, CODE)] + [(code.debug, end, DEBUG)] * (end > code.debug > 0)

    # ---- what dexasm doesn't look at

    def unneeded(self, read: Read, at: int, row: int) -> None:
        """Claims an item that the program doesn't need, and those that it leads to."""
        due = [(read, at)]
        while due:
            read, at = due.pop()
            if at:
                due += self.follow(read, at, row)

    def follow(self, read: Read, at: int, row: int) -> Links:
        """Claims one such item, which is read once; answers what it leads to, and how that is read."""
        if (read, at) not in self.followed:
            self.followed[read, at] = at, ()
            reader = Reader(self.data, at, self.left)
            try:
                found = read(reader)
                self.followed[read, at] = reader.at, found
            except Malformed:
                pass
        end, found = self.followed[read, at]
        self.left[0] -= 1 + len(found)
        if self.left[0] < 0 or end == at:
            return ()
        self.claim(at, end, DEBUG, row)
        return found


def read_debug(reader: Reader) -> Links:
    """A debug_info_item."""
    reader.uleb()
    for _ in range(reader.uleb()):
        reader.uleb()
    while reader.match(_debug_opcodes()):
        pass
    if reader.byte():
        raise Malformed
    return ()


@functools.cache
def _debug_opcodes() -> re.Pattern[bytes]:
    """Opcodes of debug information with their numbers, of which a long item has many."""
    number = rb"(?:[\x80-\xff]{0,4}[\x00-\x7f])"
    single = b"".join(b"\\x%02x" % op for op in range(1, 256) if op not in DEBUG_NUMBERS)
    pairs = b"".join(b"\\x%02x" % op for op, count in DEBUG_NUMBERS.items() if count == 1)
    form = rb"(?:[%s]|[%s]%s|\x03%s{3}|\x04%s{4}){1,1000}"
    return re.compile(form % (single, pairs, number, number, number))


def read_directory(reader: Reader) -> Links:
    """An annotations_directory_item: sets of the class, its fields and methods, and lists of sets of parameters."""
    of_class, fields, methods, parameters = reader.words(4)
    sets = (of_class, *reader.words(2 * (fields + methods))[1::2])
    lists = reader.words(2 * parameters)[1::2]
    return [(read_set, at) for at in sets] + [(read_list, at) for at in lists]


def read_list(reader: Reader) -> Links:
    """An annotation_set_ref_list."""
    return [(read_set, at) for at in reader.words(*reader.words(1))]


def read_set(reader: Reader) -> Links:
    """An annotation_set_item."""
    return [(read_annotation, at) for at in reader.words(*reader.words(1))]


def read_annotation(reader: Reader) -> Links:
    """An annotation_item."""
    reader.byte()
    reader.uleb()
    read_values(reader, reader.uleb(), has_names=True)
    return ()


def disjoint(claims: Iterable[tuple[int, int, Kind, Owner]]) -> list[tuple[int, int, Kind, Owner]]:
    """The same items, which are sorted by their places, without bytes that an item before them has."""
    found, at = [], 0
    for item in claims:
        begin, end, kind, owner = item
        if end > max(begin, at):
            found.append(item if begin >= at else (at, end, kind, owner))
            at = end
    return found


def between(
    taken: list[tuple[int, int, Kind, Owner]], rest: list[tuple[int, int, Kind, Owner]]
) -> Iterator[tuple[int, int, Kind, Owner]]:
    """Those parts of `rest` that lie between what is taken."""
    bounds = zip([0, *(end for _, end, _, _ in taken)], [*(begin for begin, _, _, _ in taken), 1 << 64])
    at = 0
    for low, high in [(low, high) for low, high in bounds if low < high]:
        while at < len(rest) and rest[at][0] < high:
            begin, end, kind, owner = rest[at]
            if min(end, high) > max(begin, low):
                yield max(begin, low), min(end, high), kind, owner
            if end > high:
                break
            at += 1


def sizes(dex: Dex, parts: dict[Claim, str] | None = None) -> tuple[list[str], dict[int | str, list[int]]]:
    """Each class's name, and the bytes of each kind that a class, several of them, none or the file itself has; and
    those that one of `parts` has, where it has a claim to itself.

    Each byte is counted once: as the program's, if it has it, and as the first item's. So all of them are the file's
    length.
    """
    parts = parts or {}
    items: list[tuple[int, int, int, int | str]] = [(*claim, owner) for claim, owner in dex.claims.items()]
    if parts:
        items = [(*item[:3], parts.get(item[:3], item[3])) for item in items]
    items.sort(key=itemgetter(0, 1, 2))
    program = disjoint([item for item in items if item[2] < DEBUG])
    rest = disjoint([item for item in items if item[2] >= DEBUG])
    owners = *range(len(dex.names)), SEVERAL, NOBODY, FILE, *parts.values()
    taken = {owner: [0] * len(KINDS) for owner in owners}
    for begin, end, kind, owner in (*program, *between(program, rest)):
        taken[owner][kind] += end - begin
    taken[FILE][UNUSED] += len(dex.data) - sum(sum(found) for found in taken.values())
    return dex.names, taken


def code_sizes(tables: Tables) -> list[list[int]]:
    """Of each class, by its row, how many bytes the code item of each of its methods takes that has one, in their
    order.
    """

    @functools.cache  # (many may share one)
    def size(at: int) -> int:
        return Code(tables.data, at).end - at

    return [[size(at) for at, _ in tables.codes_of(row, None)] for row in range(tables.count["class"])]
