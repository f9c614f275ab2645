"""Flags as Java's words ("Dalvik Executable format", access_flags)."""
BOTH = {0x1: "public", 0x2: "private", 0x4: "protected", 0x8: "static", 0x10: "final"}
CLASS_FLAGS = {**BOTH, 0x200: "interface", 0x400: "abstract", 0x1000: "synthetic", 0x2000: "annotation", 0x4000: "enum"}
FIELD_FLAGS = {**BOTH, 0x40: "volatile", 0x80: "transient", 0x1000: "synthetic", 0x4000: "enum"}
METHOD_FLAGS = {
    **BOTH,
    0x20: "synchronized",
    0x40: "bridge",
    0x80: "varargs",
    0x100: "native",
    0x400: "abstract",
    0x800: "strictfp",
    0x1000: "synthetic",
    0x10000: "constructor",
    0x20000: "declared-synchronized",
}
