"""Samples of listings and of files."""
import hashlib
import struct
import zlib

# One class with one method, in the form in which it is printed, and in the first form.
ONE_CLASS = """dex 035 listing 2
class LA; 0x1
super Ljava/lang/Object;
direct m ()V 0x9
code 1 0 0
return-void
end code
end class
"""
NUMBERED = ONE_CLASS.replace(" listing 2", "").replace("return-void", "0: return-void")
# A class with a value and a code of branches and a try.
BRANCHES = """dex 035 listing 2
class LB; 0x1
super Ljava/lang/Object;
static s Ljava/lang/String; 0x9 = string "a\\u00e9"
direct m ()V 0x9
code 1 0 0
const/4 v0 0
:L1
if-eqz v0 :L3
goto :L1
:L3
return-void
try :L1 :L3
catchall :L3
end code
end class
"""
# A payload at an odd address.
ODD = """dex 035
class LA; 0x1
direct m ()V 0x9
code 1 0 0
0: packed-switch v0 @1
1: packed-switch-payload 0 @0
end code
end class
"""


def closed(rest: bytes) -> bytes:
    """A file with its signature and its checksum, from the bytes after them."""
    signed = hashlib.sha1(rest).digest() + rest
    return b"dex\n035\0" + struct.pack("<I", zlib.adler32(signed)) + signed


def without_classes(size: int = 140) -> bytes:
    """The file of the program without classes; a longer one has zeros after its map, which strip takes off."""
    header = struct.pack("<6I", size, 0x70, 0x12345678, 0, 0, 0x70) + bytes(48) + struct.pack("<2I", size - 0x70, 0x70)
    its_map = struct.pack("<I", 2) + struct.pack("<HHII", 0, 0, 1, 0) + struct.pack("<HHII", 0x1000, 0, 1, 0x70)
    return closed(header + its_map + bytes(size - 140))
