"""A file that no listing can say: each is changed in place and closed anew."""
import hashlib
import struct
from collections.abc import Callable, Iterator

from ..cases import TEXTS
from .support import HEAD, HelperTest, assembled
from .signatures import resigned

TEXT = (HEAD + TEXTS["patched_files TEXT"].encode())
# Places of offsets in the header.
MAP_OFF, STRINGS, TYPES, PROTOS, FIELDS, METHODS, CLASSES = 52, 60, 68, 76, 84, 92, 100


class Patched:
    """A file that is changed in place and closed anew."""

    def __init__(self) -> None:
        self.file = bytearray(assembled(TEXT))

    def offset(self, field: int) -> int:
        at: int = struct.unpack_from("<I", self.file, field)[0]
        return at

    def type_of(self, name: bytes) -> int:
        """The index of a type: strings and types are few, so their rows are walked."""
        for index in range(self.offset(TYPES - 4)):
            string = struct.unpack_from("<I", self.file, self.offset(TYPES) + 4 * index)[0]
            at = struct.unpack_from("<I", self.file, self.offset(STRINGS) + 4 * string)[0]
            if self.file[at + 1 : self.file.index(0, at)] == name:
                return index
        raise KeyError(name)

    def closed(self) -> bytes:
        file = bytes(self.file)
        return resigned(file, hashlib.sha1(file[32:]).digest())


Place = Callable[[Patched], int]  # in a file


def with_number(place: int | Place, form: str, number: int) -> bytes:
    """The file with another number at a place, which may depend on the file."""
    one = Patched()
    struct.pack_into(form, one.file, place(one) if callable(place) else place, number)
    return one.closed()


def swapped(field: int, row: int, size: int) -> bytes:
    """The file with two rows of a table in the other order."""
    one = Patched()
    at = one.offset(field) + row * size
    one.file[at : at + 2 * size] = one.file[at + size : at + 2 * size] + one.file[at : at + size]
    return one.closed()


def with_super(name: bytes) -> bytes:
    """LA with another superclass."""
    one = Patched()
    struct.pack_into("<I", one.file, one.offset(CLASSES) + 8, one.type_of(name))
    return one.closed()


def with_interface(name: bytes) -> bytes:
    """LA with another interface than LZ."""
    one = Patched()
    list_ = struct.unpack_from("<I", one.file, one.offset(CLASSES) + 12)[0]
    struct.pack_into("<H", one.file, list_ + 4, one.type_of(name))
    return one.closed()


def map_entry(number: int) -> Place:
    return lambda one: one.offset(MAP_OFF) + 4 + 12 * number


def code(one: Patched) -> int:
    """Where the only code is."""
    return one.file.index(struct.pack("<HHHHII", 2, 0, 0, 0, 0, 21))


class PatchedTest(HelperTest):
    """A test of files that are changed in place."""

    def replaced(self, old: bytes, new: bytes) -> bytes:
        """The file with other bytes, which it has once."""
        one = Patched()
        self.check_equal(f"dexasm-lint, {old!r} is there once", one.file.count(old), 1)
        one.file[:] = one.file.replace(old, new)
        return one.closed()

    def stricter_files(self) -> Iterator[tuple[str, bytes, int]]:
        """The rules in which dexasm is stricter than ART 14."""
        plain = Patched().closed()
        yield "stricter: order of classes", swapped(CLASSES, 0, 32), 42
        yield "stricter: a shared payload", with_number(lambda one: code(one) + 18, "<I", 14), 70
        yield "stricter: a space in a name", self.replaced(b"\x03a_b\0", b"\x03a b\0"), 34
        yield "stricter: a fifth byte", self.replaced(b"\x81\x80\x80\x80\x01", b"\x81\x80\x80\x80\x11"), 44
        yield "stricter: a source file", with_number(lambda one: one.offset(CLASSES) + 16, "<I", 0x7FFFFFFF), 40
        yield "stricter: bytes after the end", plain + bytes(22), 4
        yield "stricter: a link section", with_number(44, "<I", 16), 7
        yield "stricter: a member twice", self.replaced(b"\x01\x81\x80\x80\x80\x01", b"\x00\x81\x80\x80\x80\x01"), 47
        yield "stricter: a signature of zeros", resigned(plain, bytes(20)), 9
