"""Annotations and debug information: dexasm-info counts them, and what drops them says so."""
import hashlib
import json
import os
import struct

from .archive_files import archive
from .support import HEAD, HelperTest, assembled, get, put, room, tool
from .signatures import resigned

TEXT = HEAD + b"class LA; 0x1\nsuper Ljava/lang/Object;\ndirect m ()V 0x9\ncode 0 0 0\nreturn-void\nend code\n"
TEXT += b"end class\n"
DEBUG = b"\1\0\0"  # a line_start, no names of parameters, and the end
BUILD, RUNTIME, SYSTEM = 0, 1, 2
FILE_SIZE, CLASSES, DATA_SIZE = 32, 100, 104
LINE = "1 build, 2 runtime, 1 system annotations and debug information of 1 method dropped\n"


def annotated(directory_at: int | None = None) -> bytes:
    """A file of which the class has three annotations, and its method one of them again; both counted by hand."""
    file = bytearray(assembled(TEXT))
    file += bytes(-len(file) % 4)
    at = len(file)
    for visibility in (BUILD, RUNTIME, SYSTEM):
        file += bytes((visibility, 0, 0, 0))  # an annotation of the type 0 without elements, and one byte that fills up
    of_class = len(file)
    file += struct.pack("<4I", 3, at, at + 4, at + 8)
    of_method = len(file)
    file += struct.pack("<2I", 1, at + 4)
    directory = len(file)
    file += struct.pack("<6I", of_class, 0, 1, 0, 0, of_method)
    debug = len(file)
    file += DEBUG + b"\0"
    struct.pack_into("<I", file, struct.unpack_from("<I", file, CLASSES)[0] + 20, directory_at or directory)
    code = file.index(struct.pack("<4H2IH", 0, 0, 0, 0, 0, 1, 0x0E))  # (return-void alone)
    struct.pack_into("<I", file, code + 8, debug)
    struct.pack_into("<I", file, FILE_SIZE, len(file))
    struct.pack_into("<I", file, DATA_SIZE, struct.unpack_from("<I", file, DATA_SIZE)[0] + len(file) - at)
    return resigned(bytes(file), hashlib.sha1(file[32:]).digest())


class ExtrasTest(HelperTest):
    def test_counts(self) -> None:
        at = room("extras counts", {"a.dex": annotated()})
        told = json.loads(tool("dexasm-info", "--json", "a.dex", at=at)[1])
        self.assertEqual((told["annotations"], told["debug_methods"]), ({"build": 1, "runtime": 2, "system": 1}, 1))
        lines = tool("dexasm-info", "a.dex", at=at)[1].splitlines()
        counts = [line.split()[:2] for line in lines[lines.index("annotations and debug information") + 1 :]]
        self.assertEqual(counts, [["build", "1"], ["runtime", "2"], ["system", "1"], ["debug", "1"]])
        put(at, "wild.dex", annotated(directory_at=0x7FFFFFF0))
        told = json.loads(tool("dexasm-info", "--json", "wild.dex", at=at)[1])
        self.assertEqual((sum(told["annotations"].values()), told["debug_methods"]), (0, 1))

    def test_dropped(self) -> None:
        """A line on standard error, which --quiet silences; nothing of what has none."""
        at = room("extras dropped", {
            "classes.dex": annotated(), "new/classes.dex": assembled(TEXT),
            "app.apk": archive(("classes.dex", annotated())), "plain.apk": archive(("classes.dex", assembled(TEXT)))
        })
        cases = {
            "apk replace app.apk new/classes.dex -o o.apk": "dexasm-apk: classes.dex: ",
            "merge classes.dex -o o.dex": "dexasm-merge: classes.dex: ",
            "merge app.apk -o o.dex": "dexasm-merge: app.apk!classes.dex: ",
            "rename classes.dex A=B -o o.dex": "dexasm-rename: classes.dex: ",
            "split classes.dex folder": "dexasm-split: classes.dex: ",
            "apk replace app.apk classes.dex -o o.apk": "",
            "apk replace plain.apk classes.dex -o o.apk": "",
            "merge new/classes.dex -o o.dex": "",
            "split --join folder": "",
        }
        for words, begin in cases.items():
            helper, *rest = words.split()
            with self.subTest(words):
                status, _, said = tool(f"dexasm-{helper}", *rest, at=at)
                self.assertEqual((status, said), (0, begin and begin + LINE))
                self.assertEqual(tool(f"dexasm-{helper}", "--quiet", *rest, at=at)[::2], (0, ""))
        self.assertEqual(get(at, "o.dex"), assembled(TEXT))
        self.assertTrue(os.path.exists(os.path.join(at, "folder", "order")))
