"""What a refused file often is, by its bytes: for dexasm-explain, and for the lines of dexasm-check."""
from __future__ import annotations

import re
import struct
import zlib
from collections.abc import Iterator

from dexasm.checksums import signature_of, signature_origin
from dexasm.cli.discovery import LISTING
from dexasm.cli.sanitize import escaped


HEADS = (
    (b"PK", "it is a zip archive (an .apk or a .jar): dexasm-apk reads the .dex files in it"),
    (b"dey\n", "it is an .odex file, which an old Android made on the device: the .dex file has to be taken out of it"),
    (b"cdex", "it is a compact .dex file, which Android made on the device"),
    (b"\x7fELF", "it is an ELF file (an .oat, .odex or .so): the .dex file has to be taken out of it"),
    (b"\xca\xfe\xba\xbe", "it is a Java class file: d8 or dx makes a .dex file of it"),
    (b"dex 035", "it is a listing: dexasm assemble makes a .dex file of it"),
    (b"\xff\xfe", "it is a text in UTF-16: save it in ASCII"),
    (b"\xfe\xff", "it is a text in UTF-16: save it in ASCII"),
)
LOOKED_AT = 4096  # bytes of a text
SMALI = re.compile(rb"\s*(?:#[^\n]*\n\s*)*\.(?:class|super|source|method|field|implements)\s")
JAVA = re.compile(
    rb"(?:package|import)\s+[\w.*]+\s*;|(?:public|final|abstract)\s+(?:\w+\s+)*(?:class|interface|enum)\s"
)
COMMENTS = re.compile(rb"(?:\s|//[^\n]*\n|/\*(?:[^*]|\*(?!/))*\*/)*")
IN_SUMMARY = (1, 2, 3, 9)  # faults whose sentence says less than the first hint


def text_hint(data: bytes) -> str | None:
    """What text this is."""
    front = data[:LOOKED_AT].removeprefix(b"\xef\xbb\xbf")
    if not front.strip():
        return "the file has no text" if front else "the file is empty"
    if SMALI.match(front):
        return "it is smali: smali assemble --api 23 makes a .dex file of it"
    comments = COMMENTS.match(front)
    if JAVA.match(front, comments.end() if comments else 0):
        return "it is Java source: javac and d8 make a .dex file of it"
    listing = LISTING.match(front)
    if listing and not listing["version"]:
        return "it looks like a listing, whose first line is `dex 035 listing 2`"
    return "it is a text" if all(byte in b"\t\n\r" or 0x20 <= byte < 0x7F for byte in front) else None


def file_hints(number: int, data: bytes) -> Iterator[str]:
    """What is often the reason why these bytes are refused by this number."""
    if number in (1, 2):
        head = next((hint for head, hint in HEADS if data.startswith(head)), None) or text_hint(data)
        if head:
            yield head
    elif number == 3:
        version = escaped(data[4:7])
        yield f"its version is {version}" + (", made for a newer Android" if b"036" < data[4:7] < b"100" else "")
        yield "where you make it, ask for version 035: d8 --min-api 23, or smali assemble --api 23"
    elif number == 4 and len(data) >= 36:
        yield f"file_size is {struct.unpack_from('<I', data, 32)[0]}, and the file has {len(data)} bytes"
    elif number == 8 and len(data) >= 32:
        is_there = struct.unpack_from("<I", data, 8)[0]
        yield f"it is {is_there:08x}, and that of the bytes is {zlib.adler32(data[12:]):08x}"
    elif number == 9 and len(data) >= 32:
        yield f"it is {data[12:32].hex()}, and that of the bytes is {signature_of(data).hex()}"
        yield f"{signature_origin(data)}: `dexasm-close` computes both sums again"


def summary(number: int, data: bytes) -> str | None:
    """What stands behind a fault of a file in place of its sentence."""
    if number == 3:
        return "; ".join(file_hints(number, data))
    hints = [*file_hints(number, data)] if number in IN_SUMMARY else []
    return hints[-1] if hints else None
