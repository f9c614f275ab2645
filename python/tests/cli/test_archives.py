"""Archives: no reader of Android's takes other bytes from one that the helpers read."""
import collections
import io

from dexasm.cli.errors import CliError
from dexasm.cli.zip_read import dex_entries, open_archive, read_entry
from tests import config

from .ambiguous_archives import NAMES, Parts, made
from .android_zip import LONG, ROW, Entries, readers
from .archive_files import archive
from .support import LISTING, HelperTest, Line, assembled, put, puts, room, tool

COUNT = 5000
HONEST = "honest", "honest_zip64"


def read(data: bytes) -> Entries | None:
    """What the helpers read of an archive."""
    found: Entries = {}
    try:
        with open_archive("", io.BytesIO(data)) as zipped:
            for name, entries in dex_entries(zipped):
                try:
                    found[name] = read_entry(zipped, entries)
                except CliError:
                    found[name] = None
    except CliError:
        return None
    return found


class Archives(HelperTest):
    def test_android(self) -> None:
        """What is read is what Android reads; honest archives are read."""
        counts: collections.Counter[tuple[str, bool]] = collections.Counter()
        asked = readers()
        for kind, number, data in made(config.seed(), config.count(COUNT)):
            ours = read(data)
            counts[kind, ours is not None] += 1
            for reader, ask in asked.items():
                ours, theirs = ours or {}, ask(data, NAMES) or {}
                both = [name for name in NAMES if None not in (ours.get(name), theirs.get(name))]
                other = [name for name in both if ours[name] != theirs[name]]
                with self.subTest(f"{kind}, number {number}, by {reader}"):
                    self.assertEqual(other, [])
        for kind in HONEST:
            with self.subTest(kind):
                self.assertEqual(counts[kind, False], 0)
        self.assertGreater(sum(counts[kind, False] for kind, is_read in counts if not is_read), COUNT // 3)

    def test_lines(self) -> None:
        """An ambiguous archive has a line and status 3, by itself or in another archive, and nothing of it is read."""
        at, file = room("archives ambiguous"), assembled(LISTING)
        evil = Parts([("classes.dex", file[:-1] + b"\0")], 0)
        good = Parts([("classes.dex", file)], 0, len(evil.local))
        local, size = evil.local + good.local, len(evil.rows)
        whole = archive(("classes.dex", file))
        two64 = local + good.rows + evil.rows
        cases = {
            "directory is not where": local + evil.rows + good.rows + good.end(len(local)),
            "zip64 end record contradicts": two64 + evil.end64(len(local) + size, len(two64)) + good.end(len(local)),
            "counts 2 entries of 1": whole[:-14] + b"\2\0\2\0" + whole[-10:],
            "one part of several": whole[:-18] + b"\1\0\1\0" + whole[-14:],
            "data after the end record": whole + b"\n",
        }
        front = Parts([("classes.dex", file)], 0, 4)
        cases["data before the first entry"] = b"PK\7\10" + front.local + front.rows + front.end(4 + len(front.local))
        for words, data in cases.items():
            puts(at, {"a.apk": data, "nest.zip": archive(("a.apk", data))})
            for command in ("apk check a.apk", "check a.apk", "check nest.zip", "query classes a.apk"):
                helper, *rest = command.split()
                status, out, said = tool(f"dexasm-{helper}", *rest, at=at)
                with self.subTest(words, command=command):
                    self.assertEqual((status, (out + said).count("\n")), (3, 1))
                    self.assertIn(words, out + said)
                    self.assertNotIn("classes.dex: ok", out)

    def test_entry(self) -> None:
        """An entry that claims more bytes than the archive has: a line of its own, and the others go on."""
        at, file = room("archives entry"), assembled(LISTING)
        parts = Parts([("classes.dex", file), ("classes2.dex", file)], 8)
        field = (1).to_bytes(2, "little") + (16).to_bytes(2, "little") + 2 * (1 << 62).to_bytes(8, "little")
        size = ROW.size + len("classes.dex")
        row, rest = parts.rows[:size], parts.rows[size:]
        row = row[:20] + LONG.to_bytes(4, "little") * 2 + row[28:30] + len(field).to_bytes(2, "little") + row[32:]
        parts.rows = row + field + rest
        put(at, "a.apk", parts.whole())
        status, out, said = tool("dexasm-apk", "check", "a.apk", at=at)
        self.assertEqual((status, out), (3, "classes2.dex: ok\n"))
        self.assertEqual(said, Line("classes.dex: dexasm-apk: its compressed size"))
