#!/usr/bin/env python3
"""Makes input that is meant to be slow: a listing or a .dex file of version 035. And the class File, by which the
make.py of the folders beside this one write theirs.

Each function below is a shape, and its first line says what it is. The same N gives the same input. `run` times them.
"""
from __future__ import annotations

import argparse
import hashlib
import struct
import zlib
from collections.abc import Callable, Iterable, Sequence
from typing import Any

Proto = tuple[str, tuple[str, ...]]
FieldName = tuple[str, str, str]
MethodName = tuple[str, str, Proto]
Class = dict[str, Any]


# ---- what makes a file, here and for the make.py of the folders beside this one

def uleb(n: int) -> bytes:
    out = bytearray()
    while n >= 0x80:
        out.append(n & 0x7F | 0x80)
        n >>= 7
    out.append(n)
    return bytes(out)


def sleb(n: int) -> bytes:
    out = bytearray()
    while not -64 <= n < 64:
        out.append(n & 0x7F | 0x80)
        n >>= 7
    out.append(n & 0x7F)
    return bytes(out)


class File:
    """Names by content; classes as dicts; written by `write`, once `index` has given them numbers."""

    ORDER = "codes", "texts"  # which of these stands before the other

    strings: set[str]
    types: set[str]
    protos: set[Proto]
    fields: set[FieldName]
    methods: set[MethodName]

    def __init__(self) -> None:
        self.strings, self.types, self.protos, self.fields, self.methods = set(), set(), set(), set(), set()
        self.classes: list[Class] = []

    def text(self, s: str) -> str:
        self.strings.add(s)
        return s

    def type(self, t: str) -> str:
        self.text(t)
        self.types.add(t)
        return t

    def proto(self, ret: str, *params: str) -> Proto:
        letter: Callable[[str], str] = lambda t: t if len(t) == 1 else "L"
        self.text("".join(letter(t) for t in (ret,) + params))
        proto = (self.type(ret), tuple(self.type(t) for t in params))
        self.protos.add(proto)
        return proto

    def field(self, owner: str, name: str, kind: str) -> FieldName:
        field = (self.type(owner), self.text(name), self.type(kind))
        self.fields.add(field)
        return field

    def method(self, owner: str, name: str, proto: Proto) -> MethodName:
        method = (self.type(owner), self.text(name), proto)
        self.methods.add(method)
        return method

    def index(self) -> None:
        """The indices of all names."""
        self.string_at = {s: i for i, s in enumerate(sorted(self.strings))}
        self.type_at = {t: i for i, t in enumerate(sorted(self.types))}
        key: Callable[[Any], Any]
        key = lambda p: (self.type_at[p[0]], [self.type_at[t] for t in p[1]])
        self.proto_at = {p: i for i, p in enumerate(sorted(self.protos, key=key))}
        key = lambda f: (self.type_at[f[0]], self.string_at[f[1]], self.type_at[f[2]])
        self.field_at = {f: i for i, f in enumerate(sorted(self.fields, key=key))}
        key = lambda m: (self.type_at[m[0]], self.string_at[m[1]], self.proto_at[m[2]])
        self.method_at = {m: i for i, m in enumerate(sorted(self.methods, key=key))}

    def texts(self, begin: int) -> tuple[bytearray, list[int]]:
        """The string_data_items from the place `begin` on, and where each begins."""
        data, places = bytearray(), []
        for s in self.string_at:
            places.append(begin + len(data))
            data.extend(uleb(len(s)) + s.encode("ascii") + b"\0")
        return data, places

    def codes(self, begin: int) -> tuple[bytearray, int, dict[MethodName, int]]:
        """The code_items from the place `begin` on, how many, and where that of each method begins: methods with one body share its item."""
        data, at, made = bytearray(), {}, {}
        for method, _, body in (m for c in self.classes for m in c["directs"] + c["virtuals"] if m[2] is not None):
            if body not in made:
                data.extend(bytes(-(begin + len(data)) % 4))
                made[body] = begin + len(data)
                data.extend(body(self))
            at[method] = made[body]
        return data, len(made), at

    def write(self, path: str) -> None:
        kind: int | str
        lists_of: list[list[tuple[int, ...]]]
        rest: list[int] | bytes
        rows = [(1, 4, len(self.string_at)), (2, 4, len(self.type_at)), (3, 12, len(self.proto_at)), (4, 8, len(self.field_at)),
                (5, 8, len(self.method_at)), (6, 32, len(self.classes))]
        at, entries, header = 0x70, [(0, 1, 0)], []
        for kind, width, count in rows:
            header += [count, at if count else 0]
            if count:
                entries.append((kind, count, at))
            at += width * count
        begin, data = at, bytearray()

        def align(n: int) -> None:
            data.extend(bytes(-(begin + len(data)) % n))

        def section(kind: int, count: int) -> None:
            if count:
                entries.append((kind, count, begin + len(data)))

        lists = {p[1] for p in self.proto_at if p[1]} | {c["interfaces"] for c in self.classes if c["interfaces"]}
        section(0x1001, len(lists))
        list_at = {}
        for types in sorted(lists):
            align(4)
            list_at[types] = begin + len(data)
            data.extend(struct.pack("<I", len(types)) + b"".join(struct.pack("<H", self.type_at[t]) for t in types))
        for part in self.ORDER:
            if part == "codes":
                align(4)
                codes, count, code_at = self.codes(begin + len(data))
                section(0x2001, count)
                data.extend(codes)
            else:
                section(0x2002, len(self.string_at))
                texts, text_at = self.texts(begin + len(data))
                data.extend(texts)
        section(0x2000, len(self.classes))
        class_at = []
        for c in self.classes:
            class_at.append(begin + len(data))
            lists_of = [sorted((self.field_at[f], flags) for f, flags in c[k]) for k in ("statics", "instances")]
            lists_of += [sorted((self.method_at[m], flags, code_at.get(m, 0)) for m, flags, _ in c[k]) for k in ("directs", "virtuals")]
            data.extend(b"".join(uleb(len(l)) for l in lists_of))
            for members in lists_of:
                last = 0
                for index, *rest in members:
                    data.extend(uleb(index - last) + b"".join(uleb(n) for n in rest))
                    last = index
        arrays = [c for c in self.classes if c["values"]]
        section(0x2005, len(arrays))
        array_at = {}
        for c in arrays:
            array_at[c["ty"]] = begin + len(data)
            data.extend(uleb(len(c["values"])))
            for n in c["values"]:
                data.extend(bytes([0x64]) + struct.pack("<I", n))
        align(4)
        map_off = begin + len(data)
        entries.append((0x1000, 1, map_off))
        data.extend(struct.pack("<I", len(entries)) + b"".join(struct.pack("<HHII", k, 0, n, o) for k, n, o in entries))
        tables = bytearray(b"".join(struct.pack("<I", o) for o in text_at))
        tables += b"".join(struct.pack("<I", self.string_at[t]) for t in self.type_at)
        for ret, params in self.proto_at:
            shorty = "".join(t if len(t) == 1 else "L" for t in (ret,) + params)
            tables += struct.pack("<III", self.string_at[shorty], self.type_at[ret], list_at.get(params, 0))
        for owner, name, kind in self.field_at:
            tables += struct.pack("<HHI", self.type_at[owner], self.type_at[kind], self.string_at[name])
        for owner, name, proto in self.method_at:
            tables += struct.pack("<HHI", self.type_at[owner], self.proto_at[proto], self.string_at[name])
        for c, place in zip(self.classes, class_at):
            above = self.type_at[c["superclass"]] if c["superclass"] else 0xFFFFFFFF
            tables += struct.pack("<8I", self.type_at[c["ty"]], 1, above, list_at.get(c["interfaces"], 0), 0xFFFFFFFF, 0, place, array_at.get(c["ty"], 0))
        size = begin + len(data)
        fields = [size, 0x70, 0x12345678, 0, 0, map_off] + header + [len(data), begin]
        rest = struct.pack("<20I", *fields) + bytes(tables) + bytes(data)
        signed = hashlib.sha1(rest).digest() + rest
        with open(path, "wb") as out:
            out.write(b"dex\n035\0" + struct.pack("<I", zlib.adler32(signed)) + signed)


def new_class(ty: str, superclass: str | None) -> Class:
    return {"ty": ty, "superclass": superclass, "interfaces": (), "statics": [], "instances": [], "directs": [], "virtuals": [], "values": []}


# ---- files

def code(units: Sequence[int], outs: int = 0, tries: bytes = b"", count: int = 0, registers: int = 1) -> bytes:
    """A code_item; `tries` are its try_items and handlers."""
    item = struct.pack("<HHHHII", registers, 0, outs, count, 0, len(units)) + struct.pack(f"<{len(units)}H", *units)
    return item + (b"\0\0" if count and len(units) % 2 else b"") + tries


def file_of_body(file: File, body: Callable[[File], bytes]) -> File:
    """The file of one class LA; with one direct method whose body is made once all indices are known."""
    c = new_class(file.type("LA;"), None)
    c["directs"] = [(file.method("LA;", "m", file.proto("V")), 9, body)]
    file.classes.append(c)
    return file


def calls(n: int) -> File:
    """n / 4 calls of methods, at most 60,000, of a class whose name has n units"""
    file, owner = File(), "L" + "a" * n + ";"
    called = [file.method(owner, f"m{i:06}", file.proto("V")) for i in range(min(n // 4, 60000))]
    body = lambda file: code([u for i in range(n // 4) for u in (0x0071, file.method_at[called[i % len(called)]], 0)] + [0x0E])
    return file_of_body(file, body)


def handlers(n: int) -> File:
    """n tries with one handler of n / 4 catches"""
    file = File()
    caught = file.type("LE;")

    def body(file: File) -> bytes:
        tries = b"".join(struct.pack("<IHH", i, 1, 1) for i in range(n))
        one = (uleb(file.type_at[caught]) + uleb(0)) * (n // 4)
        return code([0] * n + [0x0E], tries=tries + uleb(1) + sleb(n // 4) + one, count=n)

    return file_of_body(file, body)


def prototypes(n: int) -> File:
    """n prototypes with one list of n parameters"""
    file = File()
    types = tuple(file.type(f"LT{i:05};") for i in range(n))
    c = new_class(file.type("LA;"), None)
    c["virtuals"] = [(file.method("LA;", "m", file.proto(t, *types)), 0x401, None) for t in types]
    file.classes.append(c)
    return file


class Overlapping(File):
    """A file whose long texts lie in one run of bytes, each after its own count of units, which is part of the texts before it."""

    def lay(self, n: int) -> list[str]:
        """The run, from its end on: a count of r units may stand where its bytes are characters too."""
        parts, size, units, begins, text = [b"\0"], 1, 0, [], ""
        while units < n:
            low, middle, high = units % 128, units // 128 % 128, units // 16384
            if low < 64 and 0 < middle and high == 0:
                bytes_, chars, count = bytes((0xC2, 0x80 + low, middle)), chr(0x80 + low) + chr(middle), 2
            elif low < 64 and middle < 64 and 0 < high:
                bytes_, chars, count = bytes((0xE1, 0x80 + low, 0x80 + middle, high)), chr(0x1000 + 64 * low + middle) + chr(high), 3
            else:
                parts.append(b"a")
                text, size, units = "a" + text, size + 1, units + 1
                continue
            begins.append((self.text(text), size + count))
            parts.append(bytes_)
            text, size, units = chars + text, size + len(bytes_), units + 2
        self.run, self.from_end = b"".join(reversed(parts)), dict(begins)
        return [text for text, _ in begins]

    def texts(self, begin: int) -> tuple[bytearray, list[int]]:
        data, places = bytearray(self.run), []
        for s in self.string_at:
            if s in self.from_end:
                places.append(begin + len(self.run) - self.from_end[s])
            else:
                places.append(begin + len(data))
                data.extend(uleb(len(s)) + s.encode("ascii") + b"\0")
        return data, places


def overlapping(n: int) -> File:
    """n / 4 texts that overlap in one run of n units"""
    file = Overlapping()
    texts = file.lay(n)
    return file_of_body(file, lambda file: code([u for t in texts for u in (0x001A, file.string_at[t])] + [0x0E]))


def file_of_methods(file: File, n: int, body: Callable[[int], Any]) -> File:
    """The file of one class LA; with n direct methods, of which number k has the body that body(k) answers."""
    c = new_class(file.type("LA;"), None)
    c["directs"] = [(file.method("LA;", f"m{k:06}", file.proto("V")), 9, body(k)) for k in range(n)]
    file.classes.append(c)
    return file


def shared_code(n: int) -> File:
    """n methods, one code of n units"""
    one = lambda file: code([0] * (n - 1) + [0x0E])
    return file_of_methods(File(), n, lambda k: one)


class Nested(File):
    """A file whose codes lie in one another: after the header of each come 248 nops, then the next one's header, which its units hold too:
    return-wide v0, nops, const/4 and a nop."""

    def codes(self, begin: int) -> tuple[bytearray, int, dict[MethodName, int]]:
        methods = [m for m, _, _ in self.classes[0]["directs"]]
        sizes = [256 * (len(methods) - k) + 0x12 for k in range(len(methods))]
        data, at = bytearray(), {}
        for method, size in zip(methods, sizes):
            at[method] = begin + len(data)
            data.extend(struct.pack("<HHHHII", 16, 0, 0, 0, 0, size) + bytes(2 * 248))
        data.extend(bytes(2 * (8 + 0x12 - 1)) + struct.pack("<H", 0x0E))
        return data, len(methods), at


def overlapping_codes(n: int) -> File:
    """n codes that lie in one another, each of 256 units more than the next one, at most 254"""
    return file_of_methods(Nested(), n, lambda k: k)


# ---- listings

def listing_of_body(lines: Iterable[str], registers: int = 1) -> str:
    return "\n".join(["dex 035", "class LA; 0x1", "direct m ()V 0x9", f"code {registers} 0 0", *lines, "end code", "end class", ""])


def payloads(n: int) -> str:
    """n packed-switches in one body, their payloads in turned order"""
    lines = [f"{k}: packed-switch v0 @{2 * n + 1 - k}" for k in range(n)] + [f"{n}: return-void", f"{n + 1}: nop"]
    return listing_of_body(lines + [f"{n + 2 + k}: packed-switch-payload 0 @0" for k in range(n)])


def members(n: int) -> str:
    """n / 4 fields of a class whose name has n units"""
    return "\n".join(["dex 035", "class L" + "a" * n + "; 0x1", *(f"static f{i:06} I 0x9" for i in range(n // 4)), "end class", ""])


def collisions(n: int) -> str:
    """n texts that have one hash where hashes begin with the fixed seed"""
    low64, multiplier = (1 << 64) - 1, 0x9E3779B97F4A7C15

    def mixed(state: int, word: int) -> int:
        product = (state ^ word) * (multiplier ^ 16)
        return product & low64 ^ product >> 64

    begin, lines = mixed(0x243F6A8885A308D3, 8), []
    for k in range(n):
        words = (k + 1, mixed(begin, k + 1))  # the second word makes the state 0 before it is mixed
        text = "".join(f"\\u{word >> shift & 0xFFFF:04x}" for word in words for shift in (0, 16, 32, 48))
        lines.append(f'{k}: const-string/jumbo v0 "{text}"')
    return listing_of_body(lines + [f"{n}: return-void"])


def long_types(n: int) -> str:
    """n calls of methods of n types of 1,100 units, which differ in the first few alone"""
    return listing_of_body([f"{k}: invoke-static {{ }} L{k:07}{'a' * 1091};->m()V" for k in range(n)] + [f"{n}: return-void"])


def nulls(n: int) -> str:
    """an array of n values of one byte"""
    return "\n".join(["dex 035", "class LA; 0x1", "static f [I 0x9 = array { " + "null " * n + "}", "end class", ""])


def nops(n: int) -> str:
    """n nops in one body"""
    return listing_of_body([f"{k}: nop" for k in range(n)] + [f"{n}: return-void"])


def deep(n: int) -> str:
    """n arrays, each in the one before it: refused"""
    return "\n".join(["dex 035", "class LA; 0x1", "static f [I 0x9 = " + "array { " * n + "} " * n, "end class", ""])


def braces(n: int) -> str:
    """n opening braces in a call: refused"""
    return listing_of_body(["0: invoke-static " + "{ " * n + "LA;->m()V"])


def blanks(n: int) -> str:
    """n empty lines"""
    return "dex 035\n" + "\n" * n


def comments(n: int) -> str:
    """n lines of a comment"""
    return "dex 035\n" + "# nothing\n" * n


def tries(n: int) -> str:
    """n tries with one handler"""
    lines = [f"{k}: nop" for k in range(n)] + [f"{n}: return-void"]
    return listing_of_body(lines + [line for k in range(n) for line in (f"try @{k} @{k + 1}", "catchall @0")])


def targets(n: int) -> str:
    """a switch with n targets"""
    return listing_of_body(["0: packed-switch v0 @2", "1: return-void", "2: packed-switch-payload 0" + " @1" * n])


def labels(n: int) -> str:
    """a code of n labels, and n / 2 codes of one label after it"""
    many = [line for k in range(n) for line in (f":L{k}", "nop")]
    few = [line for k in range(n // 2) for line in (f"direct m{k} ()V 0x9", "code 1 0 0", ":a", "goto/32 :a", "end code")]
    head = ["dex 035 listing 2", "class LA; 0x1", "direct a ()V 0x9", "code 1 0 0"]
    return "\n".join([*head, *many, "return-void", "end code", *few, "end class", ""])


def interfaces(n: int) -> str:
    """n interfaces of one class, in falling order"""
    return "\n".join(["dex 035", "class LA; 0x1", *(f"implements LI{i:06};" for i in reversed(range(n))), "end class", ""])


def chain(n: int) -> str:
    """n classes, each the superclass of the next one, in falling order of their types"""
    lines, above = ["dex 035"], "Ljava/lang/Object;"
    for i in reversed(range(n)):
        lines += [f"class LC{i:06}; 0x1", f"super {above}", "end class"]
        above = f"LC{i:06};"
    return "\n".join(lines + [""])


# ---- what `run` times: the shapes, each with N

SHAPES: list[tuple[Callable[[int], File | str], int]] = [
    (payloads, 20000), (members, 32000), (calls, 32000), (handlers, 2000), (collisions, 10000), (long_types, 1000), (prototypes, 500),
    (overlapping, 8000), (shared_code, 2000), (overlapping_codes, 120),
    (nulls, 2000000), (nops, 500000), (deep, 500000), (braces, 500000), (blanks, 1000000), (comments, 500000), (tries, 32767),
    (targets, 32767), (interfaces, 32000), (labels, 40000), (chain, 30000),
]


if __name__ == "__main__":
    known = {shape.__name__: shape for shape, _ in SHAPES}
    words = argparse.ArgumentParser(description=__doc__, formatter_class=argparse.RawDescriptionHelpFormatter)
    words.add_argument("shape", metavar="SHAPE", choices=known, help=", ".join(known))
    words.add_argument("n", metavar="N", type=int)
    words.add_argument("out", metavar="OUT")
    given = words.parse_args()
    made = known[given.shape](given.n)
    if isinstance(made, str):
        with open(given.out, "w") as out:
            out.write(made)
    else:
        made.index()
        made.write(given.out)
