"""The signature and the checksum of a .dex file: whether they hold, who wrote them so, and both anew."""
import hashlib
import re
import zlib

MAGIC = re.compile(rb"dex\n[0-9]{3}\0")
HEADER = 0x70
OLD_D8 = 52  # bytes at the end that D8 before 1.6.20 left out of the signature: those that it took for the map


def header_problem(data: bytes) -> "str | None":
    """Why these bytes can't be closed: they have no header, or aren't as long as it says."""
    if not MAGIC.match(data) or len(data) < HEADER:
        return "no .dex file: its first bytes are no header"
    size = int.from_bytes(data[32:36], "little")
    return None if size == len(data) else f"its header says {size} bytes, and it has {len(data)}"


def signature_of(data: bytes) -> bytes:
    """The signature that the bytes ask for, as it stands at 12."""
    return hashlib.sha1(data[32:]).digest()


def with_checksums(data: bytes) -> bytes:
    """The bytes with both sums anew."""
    rest = signature_of(data) + data[32:]
    return data[:8] + zlib.adler32(rest).to_bytes(4, "little") + rest


def signature_origin(data: bytes) -> str:
    """How a signature that doesn't hold came to be there, as far as the bytes tell."""
    if data[12:32] == hashlib.sha1(data[32:-OLD_D8]).digest():
        return "signed as D8 before 1.6.20 wrote it"
    return "changed after it was signed, or never signed" if any(data[12:32]) else "never signed"


def mismatches(data: bytes) -> "list[str]":
    """A line for each sum that doesn't hold."""
    signature, lines = signature_of(data), []
    if data[12:32] != signature:
        lines.append(
            f"signature at 12: {data[12:32].hex()}, its bytes have {signature.hex()}; {signature_origin(data)}"
        )
    if zlib.adler32(data[12:]) != int.from_bytes(data[8:12], "little"):
        lines.append(f"checksum at 8: {data[8:12][::-1].hex()}, its bytes have {zlib.adler32(data[12:]):08x}")
    elif lines:
        lines.append(f"checksum at 8: holds, and is {with_checksums(data)[8:12][::-1].hex()} with that signature")
    return lines
