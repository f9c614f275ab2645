"""The four commands on every .dex file below a folder, which tools/try --files names, as a table.

Of each file: check; list; assemble of the listing; check of that; strip. Wrong is: a listing of an accepted file that
isn't assembled though the file is stripped, an assembled file that isn't accepted or has another listing, a stripped
file that isn't the assembled one or that a second strip changes. Where dexdump is installed, 'dexdump -d' shows the
same classes, fields, methods and instructions of the stripped file as of the file; debug information, annotations,
offsets and indices aside.

The table has sizes in bytes and the seconds of all commands together; the line after it counts the files, those that
are accepted, and those that dexdump shows alike. It is wrong too that no file is accepted."""
import os
import re
import shutil
import subprocess
import time

from .. import config
from ..base import LIMIT, TestCase, ended

OWN = re.compile(r"dexasm: refused (\d+) (\w+) at (\d+)\n")
Row = dict[str, object]
COLUMNS = ("file", "bytes", "check", "listing", "stripped", "dexdump", "seconds")


class Wrong(Exception):
    pass


def wrong_unless(is_so: bool, what: str) -> None:
    if not is_so:
        raise Wrong(what)


def dump(path: str) -> list[str]:
    """What dexdump -d says of the program, without what another file of the same program says otherwise."""
    done = subprocess.run(["dexdump", "-d", path], stdout=subprocess.PIPE, stderr=subprocess.DEVNULL, timeout=5 * LIMIT)
    kept, is_debug = [], False
    for line in done.stdout.decode("utf8", "replace").split("\n"):
        if re.match(r"\s+(positions|locals)\s+:", line):
            is_debug = True
            continue
        if is_debug and re.match(r"\s+0x[0-9a-f]{4}", line):
            continue
        is_debug = False
        if re.match(
            r"(Processing|Opened)|Class #\d+ annotations|Annotations on|\s+VISIBILITY_|\s+empty-annotation-set|#\d+$",
            line,
        ):
            continue
        line = re.sub(r"^[0-9a-f]+: ", "", line)  # where the code stands
        line = re.sub(r"^([0-9a-f]{4} ?)+\s*(\.\.\.)?\s*\|", "|", line)  # its units
        line = re.sub(r"^\s*\|\[[0-9a-f]+\]", "|", line)
        line = re.sub(r"(string|type|field|method|proto)@[0-9a-f]+", r"\1", line)
        line = re.sub(r"^(\s+source_file_idx\s+: )\d+", r"\1", line)
        kept.append(line)
    wrong_unless(done.returncode == 0 and any(kept), f"dexdump: status {done.returncode}")
    return kept


class Real(TestCase):
    def setUp(self) -> None:
        self.program, self.top, self.folder = config.program(), config.files(), self.new_folder()
        if not self.top:
            self.skipTest("no folder of .dex files is named: DEXASM_TESTS_FILES")

    def ran(self, *words: str) -> tuple[bytes | None, str | None]:
        """What the program answers, or its line where it refuses."""
        status, out, said = ended([self.program, *words], 5 * LIMIT, stdout=subprocess.PIPE, stderr=subprocess.PIPE)
        if status == 0 and said == "":
            return out, None
        if status == 1 and OWN.fullmatch(said) and out == b"":
            return None, said[len("dexasm: refused ") :].strip()
        raise Wrong(f"{words[0]}: status {status}, {said.strip()[:200]!r}")

    def put(self, name: str, given: bytes) -> str:
        path = os.path.join(self.folder, name)
        with open(path, "wb") as file:
            file.write(given)
        return path

    def row_of(self, path: str) -> Row:
        """A row of the table: what stands in its columns."""
        begin = time.monotonic()
        row: Row = {"file": os.path.relpath(path, self.top), "bytes": os.path.getsize(path)}
        out, fault = self.ran("check", path)
        row["check"] = "ok" if fault is None else fault
        if fault is not None:
            for job in ("list", "strip"):
                wrong_unless(self.ran(job, path) == (None, fault), f"{job} isn't refused as check is")
            return row
        wrong_unless(out == b"ok\n", "check answers something else")
        listing, _ = self.ran("list", path)
        if listing is None:
            raise Wrong("a file that is accepted isn't listed")
        row["listing"] = len(listing)
        made, unmade = self.ran("assemble", self.put("listing.txt", listing))
        stripped, unstripped = self.ran("strip", path)
        wrong_unless(unmade == unstripped, "assemble and strip aren't refused for the same reason")
        if made is None or stripped is None:
            row["stripped"] = unmade
            return row
        wrong_unless(made == stripped, "strip gives another file than the listing")
        row["stripped"] = len(stripped)
        again = self.put("stripped.dex", stripped)
        wrong_unless(self.ran("check", again) == (b"ok\n", None), "what is written isn't accepted")
        wrong_unless(self.ran("list", again) == (listing, None), "what is written has another listing")
        wrong_unless(self.ran("strip", again) == (stripped, None), "a second strip changes the file")
        row["seconds"] = f"{time.monotonic() - begin:.2f}"
        if shutil.which("dexdump"):
            row["dexdump"] = "same" if dump(path) == dump(again) else "differs"
        return row

    def test_files(self) -> None:
        names = ((at, name) for at, _, names in os.walk(self.top) for name in names)
        paths = sorted(os.path.join(at, name) for at, name in names if name.endswith(".dex"))
        print("| " + " | ".join(COLUMNS) + " |\n|" + "---|" * len(COLUMNS), flush=True)
        rows = [self.check_file(path) for path in paths]
        accepted = sum(row.get("check") == "ok" for row in rows)
        compared = sum(row.get("dexdump") == "same" for row in rows)
        print(f"{len(paths)} files, {accepted} accepted, {compared} compared with dexdump")
        self.assertTrue(accepted, "no file is accepted")

    def check_file(self, path: str) -> Row:
        """A row of the table, which is printed; a sub-test of this file."""
        row: Row = {"file": os.path.relpath(path, self.top)}
        with self.subTest(path):
            try:
                row = self.row_of(path)
            except Wrong as why:
                row["check"] = f"WRONG: {why}"
            print("| " + " | ".join(str(row.get(column, "")) for column in COLUMNS) + " |", flush=True)
            self.assertFalse(str(row["check"]).startswith("WRONG"), row["check"])
            self.assertNotEqual(row.get("dexdump"), "differs", "dexdump shows another program")
        return row
