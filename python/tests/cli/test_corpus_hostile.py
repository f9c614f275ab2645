"""dexasm-corpus over databases that strangers made or that are damaged: each is refused in a line, and nothing that
stands in them is obeyed, on a terminal or in a spreadsheet either.
"""
import contextlib
import csv
import hashlib
import io
import os
import random
import re
import shlex
import shutil
import sqlite3
import struct
from collections.abc import Callable, Iterable, Iterator

from tests import sought
from tests.matchers import ANY, SOME, Either, Ends, Has, Lacks, Other, That
from .archive_files import archive
from .corpus_cases import WIDE, CorpusTest, asked, padded, programs, rows, sums
from .support import ESC, HEAD, TOOLS, TOP, Ended, Line, assembled, get, put, puts, room, run, shell, tool
from .shell_runs import each, is_line


# What a stranger adds to a database, and what becomes of whoever obeys it.
SCHEMAS = {
    "a trigger that deletes": "create trigger t after insert on file begin delete from file; end",
    "a trigger that ignores": "create trigger t before insert on file begin select raise(ignore); end",
    "a trigger that never ends": "create trigger t after insert on path begin insert into string(text) with recursive"
    " c(x) as (select 1 union all select x + 1 from c) select x from c; end",
    "a view that never ends": "drop table unread; create view unread(path, entry, status, reason) as with recursive"
    " c(x) as (select 1 union all select x + 1 from c) select x, '', '', '' from c",
    "a table more": "create table other(x)",
    "an index more": "create index other on file(size)",
    "a table less": "drop table path",
    "an index less": "drop index use_by_string",
    "another column": "alter table path add column x",
    "another form": "drop table unread; create table unread(path, entry, status, reason)",
}
CALLER = b"""class L%s; 0x1
direct m ()V 0x9
code 0 0 0
invoke-static { } Lx/Y;->%s()V
return-void
end code
end class
"""
SHA = "x'" + 32 * "ab" + "'"
ROWS = {
    "a sum that is a number": "insert into file(sha256, size, status) values (7, 1, 'ok')",
    "a sum that is a text": f"insert into file(sha256, size, status) values ('{'a' * 32}', 1, 'ok')",
    "a sum that is a fraction": "insert into file(sha256, size, status) values (0.5, 1, 'ok')",
    "a sum that is short": "insert into file(sha256, size, status) values (x'00', 1, 'ok')",
    "an unknown status": f"insert into file(sha256, size, status) values ({SHA}, 1, 'fine')",
    "a status that is a number": f"insert into file(sha256, size, status) values ({SHA}, 1, 7)",
    "a size that is a text": f"insert into file(sha256, size, status) values ({SHA}, 'x', 'ok')",
}


def changed(at: str, name: str, words: str) -> None:
    """A database that has what somebody else wrote into it."""
    shutil.copy(os.path.join(at, "c.db"), os.path.join(at, name))
    db = sqlite3.connect(os.path.join(at, name))
    db.executescript(words)
    db.execute("pragma journal_mode = delete")
    db.close()


def hot_journal(database: str, victim: str) -> bytes:
    """A rollback journal without a page, whose super-journal is a file of the user: SQLite deletes what is named so
    (https://sqlite.org/fileformat2.html#the_rollback_journal).
    """
    magic, name = bytes.fromhex("d9d505f920a163d7"), os.path.abspath(victim).encode()
    header = (magic + struct.pack(">5I", 0, 1, os.path.getsize(database) // 4096, 512, 4096)).ljust(512, b"\0")
    return header + struct.pack(">I", 0x40000000 // 4096 + 1) + name + struct.pack(">II", len(name), sum(name)) + magic


def limited(texts: Iterable[str], at: str) -> Iterator[tuple[str, Ended]]:
    """Each with a few seconds of the processor."""
    yield from each([f"ulimit -t 20; {text}" for text in texts], at)


def here(at: str, name: str) -> bool:
    return os.path.exists(os.path.join(at, name))


SIDES = "-journal", "-wal", "-shm"

# ---- what is printed

# Strings and names of files that a spreadsheet could take for formulas, and what `--csv` makes of them.
CELLS = {"=1+1": "'=1+1", "+1+1": "'+1+1", "-1": "'-1", "@SUM(1)": "'@SUM(1)", "'=1": "'=1", "1=1": "1=1"}
CELLS |= {"=HYPERLINK(A1)": "'=HYPERLINK(A1)"}


# ---- schedulers

# Addresses at which somebody else could answer, and at which nobody else can.
OTHERS = (
    "tcp://10.0.0.1:8786", "10.0.0.1:8786", "tcp://example.org:8786", "localhost.example.org:8786",
    "tcp://127.0.0.1@example.org:8786", "tcp://127.0.0.1.example.org:8786", "tcp://0.0.0.0:8786",
    "ucx://127.0.0.1:8786", "ws://10.0.0.1:8786", "inproc://127.0.0.1/1/1", "tcp://127.0.0.1:8786,tcp://10.0.0.1:8786",
    "tcp://[::2]:8786", "tcp://127.0.0.1:8786\nx", "tls:10.0.0.1:8786", "x tls://10.0.0.1:8786"
)
OURS = ("tcp://127.0.0.1:1", "127.0.0.1:1", "localhost:1", "tcp://[::1]:1", "tls://10.0.0.1:1")


class HostileCorpus(CorpusTest):
    def prepared(self, name: str) -> str:
        at = room(name)
        programs(at)
        self.added("for strangers", at, "--processes", "1", "c.db", "f")
        return at

    def test_schemas(self) -> None:
        """Triggers and views aren't obeyed: what has any is refused, whatever is asked of it, and stays as it is."""
        at = self.prepared("hostile schemas")
        others = ("refused e.db", "sum e.db", "merge e.db c.db", "merge m.db e.db", "libraries --known e.db c.db")
        for number, (name, words) in enumerate(SCHEMAS.items()):
            changed(at, "e.db", words)
            before = get(at, "e.db")
            jobs = "add --processes 1 e.db f", others[number % 5], others[(number + 2) % 5]
            texts = [f"dexasm-corpus {job}" for job in jobs]
            for text, seen in limited(texts, at):
                self.check_equal(f"{text}, a database with {name}", seen,
                                 (3, "", Line("dexasm-corpus: e.db: its tables, indexes, ")))
            self.check_equal(f"a database with {name} stays", (get(at, "e.db"), here(at, "m.db")), (before, False))

    def test_rows(self) -> None:
        """Rows that dexasm-corpus doesn't write."""
        at = self.prepared("hostile rows")
        for number, (name, words) in enumerate(ROWS.items()):
            changed(at, "e.db", words)
            for text, seen in limited(
                [f"dexasm-corpus add --processes 1 {word} e.db f" for word in ("--again", "")], at
            ):
                self.check_equal(f"{text}, a database with {name}", seen,
                                 (3, "", Line("dexasm-corpus: e.db: its table file has rows ")))
            job = ("refused e.db", "same e.db", "sum e.db", "merge m.db e.db")[number % 4]
            for text, seen in limited([f"dexasm-corpus {job}"], at):
                line = Either("", Line("dexasm-corpus: "))
                self.check_equal(f"{text}, a database with {name}", seen, (Either(0, 3), ANY, line))

    def test_damages(self) -> None:
        """Bytes that were changed: a line that names the damaged database, or an answer."""
        at = self.prepared("hostile damages")
        changed(at, "plain.db", "vacuum")
        file = get(at, "plain.db")
        puts(at, {
            "0.db": file.replace(b"TABLE string(", b"TABLE str\xffng ", 1),
            "1.db": file.replace(b"TABLE string(", b"TABLE 'stri\x9b", 1)
        })
        random_ = random.Random(7)
        for number in range(2, 20):
            damaged = bytearray(file)
            for _ in range(random_.choice((1, 3, 30))):
                damaged[random_.randrange(100, len(file) if number % 3 else 4096)] = random_.randrange(256)
            put(at, f"{number}.db", damaged[: random_.choice((None, None, random_.randrange(len(file))))])
        jobs = ("add --processes 1 {} f", "strings --pattern {} '*'", "sum {}", "merge {}.m {}",
                "callers --pattern {} '*'")
        texts = [f"dexasm-corpus {jobs[number % 5].format(*[f'{number}.db'] * 2)}" for number in range(20)]
        texts += [f"dexasm-corpus {job.format(*['0.db'] * 2)}" for job in jobs[1:]]
        for text, seen in limited(texts, at):
            line = That(is_line) & Lacks("unexpected", ".m:")
            self.check_equal(f"{text}, damaged", seen, Either((0, ANY, ""), (3, ANY, line)))

    def test_names(self) -> None:
        """A message names the database that it is about."""
        at = self.prepared("hostile names")
        changed(at, "less.db", "drop table path")
        file = get(at, "c.db")
        put(at, "rotten.db", file[:4096] + b"\xff" * (len(file) - 4096))
        for bad in ("less.db", "rotten.db"):
            for words in ("merge {} c.db", "merge c.db {}", "libraries --known {} c.db", "libraries --known c.db {}"):
                words = words.format(bad)
                seen = tool("dexasm-corpus", *words.split(), at=at)
                self.check_equal(words, seen, (3, ANY, Line(f"dexasm-corpus: {bad}: ")))

    def test_side_files(self) -> None:
        """SQLite deletes the file that a journal names, and writes into the -wal and -shm that it finds: neither is
        opened unless it can be the user's own."""
        at = self.prepared("side files")
        shutil.copy(os.path.join(at, "c.db"), os.path.join(at, "k.db"))
        victim, database = os.path.join(at, "victim"), os.path.join(at, "c.db")
        os.symlink("c.db", os.path.join(at, "link.db"))
        jobs = ["add --processes 1 c.db f", "sum c.db", "classes link.db", "libraries --known c.db k.db"]
        jobs += ["merge c.db k.db", "merge k.db c.db", "merge --verify k.db c.db", "add --processes 1 link.db f"]
        kinds: dict[str, Callable[[str], object]] = {
            "hard link": lambda side: os.link(victim, side),
            "symbolic link": lambda side: os.symlink(victim, side),
            "pipe": os.mkfifo,
            "folder": os.mkdir,
            "hot journal": lambda side: put(at, side, hot_journal(database, victim)),
        }
        if os.geteuid() == 0:
            kinds["file of another user"] = lambda side: os.chown(put(at, side, b""), 65534, -1)
        cases = [(kind, end) for kind in kinds for end in SIDES if kind != "hot journal" or end == "-journal"]
        for number, (kind, end) in enumerate(cases):
            put(at, "victim", b"all that I have\n" * 300)
            kinds[kind](database + end)
            for job in (jobs[number % len(jobs)], jobs[(number + 3) % len(jobs)]):
                status, out, said = tool("dexasm-corpus", *job.split(), at=at)
                with self.subTest(kind=kind, side=end, job=job):
                    self.assertEqual((status, out, get(at, "victim")), (3, "", b"all that I have\n" * 300))
                    self.assertRegex(said, rf"\Adexasm-corpus: .*c\.db{end}: .*; remove it.*\n\Z")
            (os.rmdir if kind == "folder" else os.remove)(database + end)
        self.assertEqual(tool("dexasm-corpus", *jobs[1].split(), at=at)[0], 0)

    def test_no_journal(self) -> None:
        """dexasm-corpus itself makes no rollback journal, which it would refuse after a kill."""
        self.need_trace()
        at = self.prepared("no journal")
        changed(at, "plain.db", "vacuum")
        for words in ("add --processes 1 new.db f", "add --processes 1 plain.db f", "merge other.db plain.db"):
            strace = ["strace", "-qq", "-f", "-e", "trace=openat,open", "-o", "log"]
            status = run([*strace, os.path.join(TOOLS, "dexasm-corpus"), *words.split()], at=at)[0]
            log = get(at, "log").decode()
            with self.subTest(words):
                self.assertEqual((status, "-wal" in log, "-journal" in log), (0, True, False))

    def test_only_asked(self) -> None:
        """What only asks opens its databases to be read."""
        at = self.prepared("hostile asked")
        self.need_trace()
        for words in ("same c.db", "sum c.db", "libraries --known k.db c.db", "merge m.db k.db"):
            shutil.copy(os.path.join(at, "c.db"), os.path.join(at, "k.db"))
            strace = ["strace", "-qq", "-f", "-e", "trace=openat,open", "-o", "log"]
            run([*strace, os.path.join(TOOLS, "dexasm-corpus"), *words.split()], at=at)
            opens = [line for line in get(at, "log").decode().splitlines() if '/c.db"' in line or '/k.db"' in line]
            self.check_equal(words, (opens, [line for line in opens if "O_RDONLY" not in line]), (SOME, []))

    def test_cells(self) -> None:
        """What a spreadsheet takes for a formula begins with an apostrophe, in each column; --csv-raw has it as it
        is."""
        at = room("hostile cells")
        for number, name in enumerate((*CELLS, "\t=1", "\r=1", WIDE)):
            text = "".join(f"\\u{ord(char):04x}" for char in name)
            body = f'class LA{number}; 0x1\nstatic s Ljava/lang/String; 0x9 = string "{text}"\nend class\n'
            put(at, f"{name}.dex", assembled(HEAD + body.encode("ascii")))
        shell("printf '%s\\0' * | dexasm-corpus add --processes 1 c.db -", at)
        spelled = {("\\u0009=1", "\\x09=1.dex"), ("\\u000d=1", "\\x0d=1.dex")}
        for form, cells, before in (("--csv", CELLS.values(), "'"), ("--csv-raw", CELLS, "")):
            seen = tool("dexasm-corpus", "strings", form, "--pattern", "c.db", "*", at=at)
            got = {(row[0], row[3].encode("latin1").decode()) for row in [*csv.reader(io.StringIO(seen[1]))][1:]}
            want = spelled | {(cell, f"{cell}.dex") for cell in cells} | {("\\uff1d1", f"{before}{WIDE}.dex")}
            self.check_equal(form, got, want)

    def test_sqlite(self) -> None:
        """RECIPES' queries by SQLite's own program: a path is obeyed by no terminal and looks like no other row."""
        self.need("sqlite3", "the queries of RECIPES aren't tried by it")
        at = room("hostile paths")
        names = (f"{ESC}]0;owned\a{ESC}[31m\nforged|row", "a\u202eb", "a'b\"c", "\x9b31m", os.fsdecode(b"n\xff"))
        programs(at)
        put(at, "g.dex", padded(get(at, "f/a.dex")))
        for name in names:
            put(at, f"f/{name}.dex", get(at, "f/e.dex"))
            put(at, f"f/{name}2.dex", get(at, "f/a.dex"))
        self.added("hostile paths", at, "--processes", "1", "corpus.db", "f", "g.dex")
        head, *queries = re.split(r"^# .*\n", get(TOP, "docs/corpus-queries.sh").decode(), flags=re.M)
        for query in queries:
            status, out, said = shell(f"{head}{query}", at)
            words = sought(r"\"([^\"]*)\"", query)[1]
            self.check_equal(
                f"RECIPES by sqlite3: {words[:60]}",
                (status, said, out.isascii(), [line for line in out.splitlines() if not line.isprintable()],
                 out.count("\n") == len(rows(at, words, "corpus.db")) > 0),
                (0, "", True, [], True)
            )

    def test_hashes(self) -> None:
        """Hashes that lie, and texts that stand twice: what is merged is found by its text all the same."""
        at = self.prepared("hostile hashes")
        want = sums(at)
        lies = "update {0} set hash = 7; insert into {0}(hash, text) select 8, text from {0}"
        changed(at, "e.db", ";".join(lies.format(table) for table in ("word", "string")))
        for text, seen in limited(["dexasm-corpus merge m.db e.db", "dexasm-corpus merge m.db e.db c.db"], at):
            self.check_equal(f"{text}, hashes that lie", (seen, sums(at, "m.db")), ((0, "", ""), want))
        found, right = (asked(at, "callers", name, "Ll/B;->take(Ljava/lang/String;)V") for name in ("m.db", "c.db"))
        self.check("callers, after a merge of hashes that lie", found == right != [], (found, right))
        lost = "insert into name(class, member) select max(id) + 1, min(id) from word"
        changed(at, "n.db", lost)
        for text, seen in limited(["dexasm-corpus merge o.db n.db"], at):
            self.check_equal(f"{text}, a member of no class", (seen, sums(at, "o.db")), ((0, "", ""), want))

    def test_believed(self) -> None:
        """A row that tells of one file what another one has: merge believes it, and merge --verify looks itself."""
        at = room("hostile rows of files")
        for name in "ab":
            put(at, f"{name}.dex", assembled(HEAD + CALLER % (name.upper().encode(), name.encode())))
        put(at, "x.apk", archive(("classes.dex", get(at, "a.dex")), ("classes2.dex", get(at, "b.dex")[:-1])))
        put(at, "gone.dex", assembled(HEAD))
        self.added("two", at, "--processes", "1", "true.db", "a.dex", "b.dex", "x.apk")
        self.added("two and one", at, "--processes", "1", "lies.db", "a.dex", "b.dex", "x.apk", "gone.dex")
        os.remove(os.path.join(at, "gone.dex"))
        sha = hashlib.sha256(get(at, "a.dex")).hexdigest()
        lies = (
            f"update file set program = (select program from file where sha256 <> x'{sha}' and status = 'ok')"
            f" where sha256 = x'{sha}'",
            "update file set status = 'ok', program = 1 where status = 'refused'",
            "update call set callee = 1",
            "insert into path select id, x'00', '' from file union all select id, 'a.dex', 'classes7.dex' from file"
            " union all select id, '/dev/zero', '' from file union all select id, 'true.db', '' from file"
            " union all select id, 7, '' from file union all select id, 'a' || char(0) || 'b', '' from file",
        )
        with contextlib.closing(sqlite3.connect(os.path.join(at, "lies.db"), isolation_level=None)) as db:
            for words in lies:
                db.execute(words)
        seen = tool("dexasm-corpus", "merge", "believed.db", "lies.db", at=at)
        self.check_equal("merge believes", (seen, sums(at, "believed.db")), ((0, "", ""), Other(sums(at, "true.db"))))
        seen = tool("dexasm-corpus", "merge", "--verify", "--processes", "1", "own.db", "lies.db", at=at)
        want = "lies.db: 4 files, 3 checked again, 1 not at hand: not verified, and left out\n"
        self.check_equal("merge --verify, what it says", seen, (1, want, ""))
        self.check_equal("merge --verify, what it takes", sums(at, "own.db"), sums(at, "true.db"))
        self.check_at_hand(at)

    def check_at_hand(self, at: str) -> None:
        """Another file stands at the place of one; then several databases at once."""
        put(at, "b.dex", get(at, "a.dex"))
        seen = tool("dexasm-corpus", "merge", "--verify", "--processes", "1", "less.db", "true.db", at=at)
        want = "true.db: 3 files, 2 checked again, 1 not at hand: not verified, and left out\n"
        paths = rows(at, "select path, entry from path", "less.db")
        self.check_equal("merge --verify, another file at its place", (seen, paths),
                         ((1, want, ""), Lacks(("b.dex", "")) & Has(("a.dex", ""))))
        for status, left, files in (
            (0, 0, ["less.db"]), (0, 0, ["less.db", "less.db"]), (1, 1, ["less.db", "true.db"])
        ):
            name = f"{len(files)}{left}.db"
            seen = tool("dexasm-corpus", "merge", "--verify", name, *files, at=at)
            want = "less.db: 2 files, 2 checked again, 0 not at hand: not verified, and left out\n" * (
                len(files) - left
            )
            want += "true.db: 3 files, 2 checked again, 1 not at hand: not verified, and left out\n" * left
            self.check_equal(f"merge --verify of {files}", (seen, sums(at, name)),
                             ((status, want, ""), sums(at, "less.db")))

    def test_addresses(self) -> None:
        """Who answers at another machine's address could run programs here: nobody is asked there without --trust."""
        at = room("hostile addresses", {"a.dex": assembled(HEAD)})
        # (in place of Dask: a module that tells who is asked)
        puts(at, {
            "m/distributed/__init__.py": b"def Client(address, **_):\n    raise OSError('asked ' + ascii(address))\n",
            "m/distributed/diagnostics/__init__.py": b"", "m/distributed/diagnostics/plugin.py": b"UploadFile = None\n"
        })
        for address in (*OTHERS, *OURS):
            texts = [
                f"dexasm-corpus add {word} --scheduler {shlex.quote(address)} c.db a.dex" for word in ("", "--trust")
            ]
            for text, seen in each(texts, at, PYTHONPATH=os.path.join(at, "m")):
                asked = (3, "", Line("dexasm-corpus: ") & Has("asked "))
                refused = (2, "", Ends("it wants tls:// or --trust\n"))
                self.check_equal(text, seen, asked if "--trust" in text or address in OURS else refused)
        for words in ("--trust c.db a.dex", "--send c.db a.dex"):
            seen = tool("dexasm-corpus", "add", *words.split(), at=at)
            self.check_equal(f"add {words}", seen, (2, "", Ends("are for --scheduler\n")))
