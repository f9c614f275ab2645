"""Archives that are made by hand."""
import io
import struct
import warnings
import zipfile
from typing import Any


def archive(*entries: tuple[str, bytes], **options: Any) -> bytes:
    """An archive of these names and bytes."""
    made = io.BytesIO()
    with warnings.catch_warnings(), zipfile.ZipFile(made, "w", **options) as zipped:
        warnings.simplefilter("ignore")
        for name, given in entries:
            zipped.writestr(zipfile.ZipInfo(name), given)
    return made.getvalue()


def changed(zipped: bytes, name: str, place: int, form: str, number: int) -> bytes:
    """A field of an entry is another one, in its own header and in the directory; `place` is that in its own header."""
    out, text = bytearray(zipped), name.encode()
    for head, at_name, shift in ((b"PK\3\4", 30, 0), (b"PK\1\2", 46, 2)):
        at = -1
        while (at := zipped.find(head, at + 1)) >= 0:
            if zipped[at + at_name : at + at_name + len(text)] == text:
                struct.pack_into(form, out, at + place + shift, number)
    return bytes(out)


FLAGS, METHOD, CRC, SIZE = (6, "<H"), (8, "<H"), (14, "<I"), (22, "<I")


def streamed(*entries: tuple[str | zipfile.ZipInfo, bytes]) -> bytes:
    """An archive whose entries have their sizes behind their data, as of a stream."""

    class Stream(io.RawIOBase):
        made = b""

        def writable(self) -> bool:
            return True

        def write(self, more: Any) -> int:
            self.made += bytes(more)
            return len(more)

    out: Any = Stream()
    with zipfile.ZipFile(out, "w", zipfile.ZIP_DEFLATED) as zipped:
        for name, given in entries:
            zipped.writestr(name, given)
    return bytes(out.made)


def hostile(file: bytes) -> dict[str, tuple[bytes, bool | None]]:
    """Archives that lie or are made to do harm, with one classes*.dex that is this file or says so; and whether it can
    be read (None: one reader says this, and another that).
    """
    name, good = "classes.dex", archive(("classes.dex", file))
    end = good[good.rindex(b"PK\5\6") :]
    two = archive((name, file), ("x.dex", file))
    at = two.rindex(b"PK\1\2")
    return {
        "a folder above": (archive((name, file), ("../classes2.dex", file), ("..\\classes3.dex", file)), True),
        "a folder at the top": (archive((name, file), ("/classes2.dex", file), ("C:\\classes2.dex", file)), True),
        "digits of Arabic": (archive((name, file), ("classes\u0662.dex", file)), True),
        "a folder of the name": (archive((name, file), ("classes.dex/", b""), ("classes.dex/x.dex", file)), True),
        "commands of a runner": (archive((name, file), ("##[error]x.dex", file), ("::error::x.dex", file)), True),
        "names that a terminal obeys": (archive((name, file), ("\x1b[31m.dex", file), ("\u202excod.dex", file)), True),
        "sizes behind the data": (streamed((name, file)), True),
        "a NUL in a name": (archive(("classes.dex_", file)).replace(b".dex_", b".dex\0"), None),
        "two end records": (good + end, None),
        "an end record in the comment": (good[:-2] + struct.pack("<H", len(end)) + end, None),
        "twice": (archive((name, file), (name, file)), False),
        "encrypted": (changed(good, name, *FLAGS, 1), False),
        "encrypted, and strongly": (changed(good, name, *FLAGS, 0x41), False),
        "an unknown method": (changed(good, name, *METHOD, 99), False),
        "another sum": (changed(good, name, *CRC, 7), False),
        "longer than it says": (changed(streamed((name, file)), name, *SIZE, 9), False),
        "shorter than it says": (changed(good, name, *SIZE, 3 << 30), False),
        "another name in its header": (good.replace(b"classes.dex", b"classeX.dex", 1), False),
        "a header elsewhere": (two[: at + 42] + struct.pack("<I", 7) + two[at + 46 :], None),
        "a directory elsewhere": (good[:-6] + struct.pack("<I", 1 << 31) + good[-2:], False),
        "a bomb": (streamed((name, bytes(20 << 20))), False),
    }
