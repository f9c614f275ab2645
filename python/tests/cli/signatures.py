"""Files that are signed otherwise."""
import zlib


def resigned(given: bytes, signature: bytes) -> bytes:
    """The file with this signature, its checksum mended, as a tool leaves it that signs otherwise."""
    given = given[:12] + signature + given[32:]
    return given[:8] + zlib.adler32(given[12:]).to_bytes(4, "little") + given[12:]
