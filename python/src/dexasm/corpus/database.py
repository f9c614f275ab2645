"""The database of dexasm-corpus: its schema, what writes it, and the sum of what it holds.

Row numbers are this database's own. What a row says is told by SHA-256 and by names, so that the same files make the
same content in whatever order they come.
"""
from __future__ import annotations

import contextlib
import functools
import hashlib
import json
import os
import sqlite3
import stat
import time
from collections.abc import Callable, Iterator
from typing import Any, TypeVar
from urllib.parse import quote

from dexasm.cli.errors import CliError, reason
from dexasm.cli.sanitize import escaped

APPLICATION, VERSION = 0x64786361, 2  # ("dxca")
Answer = TypeVar("Answer")
BUSY = 600  # seconds for which another writer is waited for
NAMES = 500_000  # that are kept in memory with their numbers
SCHEMA = """
create table word(id integer primary key, hash integer not null, text text not null);
create table name(id integer primary key, class integer not null references word,
  member integer not null references word, unique(class, member));
create table string(id integer primary key, hash integer not null, text text not null);
create table program(id integer primary key, sha256 blob not null unique, size integer not null);
create table file(id integer primary key, sha256 blob not null unique, size integer not null, status text not null,
  fault integer, fault_name text, place integer, program integer references program);
create table path(file integer not null references file, path not null, entry text not null,
  primary key(file, path, entry)) without rowid;
create table unread(path not null, entry text not null, status text not null, reason text not null,
  primary key(path, entry)) without rowid;
create table class(id integer primary key, sha256 blob not null, name integer not null references word,
  superclass integer references word, flags integer not null);
create table has(program integer not null references program, class integer not null references class,
  primary key(program, class)) without rowid;
create table member(class integer not null references class, name integer not null references name,
  kind text not null, flags integer not null, primary key(class, name, kind)) without rowid;
create table call(class integer not null references class, caller integer not null references name,
  callee integer not null references name, places integer not null,
  primary key(class, caller, callee)) without rowid;
create table use(class integer not null references class, member integer not null references name,
  string integer not null references string, places integer not null,
  primary key(class, member, string)) without rowid;
create index word_by_hash on word(hash);
create index string_by_hash on string(hash);
create index path_by_path on path(path);
create index file_of_program on file(program) where program is not null;
create index file_by_fault on file(fault, status) where status <> 'ok';
create index class_by_sha256 on class(substr(sha256, 1, 8));
create index class_by_name on class(name);
create index class_in_program on has(class);
create index member_by_name on member(name);
create index call_by_callee on call(callee);
create index use_by_string on use(string);
create view spelled as select n.id, c.text || '->' || m.text text
  from name n join word c on c.id = class join word m on m.id = member;
"""
# Whether two classes have one sum, and whether one has a sum, found by its first bytes.
SAME = "substr({0}.sha256, 1, 8) = substr({1}.sha256, 1, 8) and {0}.sha256 = {1}.sha256"
SAME_AS = "substr(sha256, 1, 8) = substr(?1, 1, 8) and sha256 = ?1"
# How a type and a member are spelled.
TYPE, MEMBER = "(select text from word where id = {})", "(select text from spelled where id = {})"
# What SQLite raises where a database is damaged; its message may be no text.
WRONG = (sqlite3.Error, UnicodeDecodeError)
TABLES = "select type, name, tbl_name, sql from {}.sqlite_master"
# What each table says without row numbers.
CONTENT = {
    "word": "select text from word",
    "name": "select text from spelled",
    "string": "select text from string",
    "program": "select sha256, size from program",
    "file": "select f.sha256, f.size, status, fault, fault_name, place, p.sha256 from file f"
    " left join program p on p.id = program",
    "path": "select sha256, path, entry from path join file on id = file",
    "unread": "select path, entry, status, reason from unread",
    "class": f"select sha256, {TYPE.format('name')}, {TYPE.format('superclass')}, flags from class",
    "has": "select p.sha256, c.sha256 from has join program p on p.id = program join class c on c.id = class",
    "member": f"select sha256, {MEMBER.format('m.name')}, kind, m.flags from member m join class c on c.id = class",
    "call": f"select sha256, {MEMBER.format('caller')}, {MEMBER.format('callee')}, places from call join class c on c.id = class",
    "use": f"select sha256, {MEMBER.format('member')}, s.text, places from use join class c on c.id = class"
    " join string s on s.id = string",
}
# Of a file that ended twice in different ways the first of these stays: what the file is, then what limits did.
RANKS = ("ok", "refused", "memory", "time", "killed")
# A row of `file` of which this writes none.
STRANGE = (
    "select 1 from file where typeof(sha256) <> 'blob' or length(sha256) <> 32 or typeof(size) <> 'integer'"
    f" or status not in {RANKS} limit 1"
)
# Of two reasons why a path isn't read the lesser stays.
FIRST_REASON = (
    "on conflict do update set status = excluded.status, reason = excluded.reason"
    " where (excluded.status, excluded.reason) < (unread.status, unread.reason)"
)
# Texts that another database has and this one hasn't. (Its own hashes aren't believed: a text with a wrong one would not be
# found again.)
NEW_TEXTS = """
insert into main.{0}(hash, text) select digest(text), text from (select distinct text from other.{0}) o
  where not exists (select 1 from main.{0} m where m.hash = digest(o.text) and m.text = o.text);
"""
# Numbers of another database's rows, and the rows: words first, then names, so that what stands on them finds them.
MERGE = f"""
{NEW_TEXTS.format("word")}{NEW_TEXTS.format("string")}
insert or ignore into main.program(sha256, size) select sha256, size from other.program;
create temp table words as select o.id, m.id new from other.word o
  join main.word m on m.hash = digest(o.text) and m.text = o.text;
create temp table strings as select o.id, m.id new from other.string o
  join main.string m on m.hash = digest(o.text) and m.text = o.text;
create temp table programs as select o.id, m.id new from other.program o join main.program m using(sha256);
create unique index temp.words_id on words(id, new);
create unique index temp.strings_id on strings(id, new);
create unique index temp.programs_id on programs(id, new);
insert or ignore into main.name(class, member) select c.new, w.new from other.name o join words c on c.id = o.class
  join words w on w.id = o.member;
create temp table names as select o.id, m.id new from other.name o join words c on c.id = o.class
  join words w on w.id = o.member join main.name m on m.class = c.new and m.member = w.new;
create unique index temp.names_id on names(id, new);
insert into main.class(sha256, name, superclass, flags) select sha256, n.new, s.new, flags from other.class c
  join words n on n.id = name left join words s on s.id = superclass where not exists (select 1 from main.class m
  where {SAME.format("m", "c")}) group by sha256;
create temp table classes as select o.id, m.id new from other.class o join main.class m on {SAME.format("m", "o")};
create unique index temp.classes_id on classes(id, new);
insert or ignore into main.has select p.new, c.new from other.has join programs p on p.id = program
  join classes c on c.id = class;
insert or ignore into main.member select c.new, n.new, kind, flags from other.member join classes c on c.id = class
  join names n on n.id = name;
insert or ignore into main.call select c.new, n.new, m.new, places from other.call join classes c on c.id = class
  join names n on n.id = caller join names m on m.id = callee;
insert or ignore into main.use select c.new, n.new, s.new, places from other.use join classes c on c.id = class
  join names n on n.id = member join strings s on s.id = string;
"""
DONE = "".join(f"drop table temp.{table};" for table in ("words", "names", "strings", "programs", "classes"))


def kept(path: bytes) -> str | bytes:
    """A path as it stands in the database: a text, or bytes where it is none."""
    try:
        return path.decode("utf8")
    except UnicodeDecodeError:
        return path


def digest(text: str | bytes) -> int:
    """By what a text is found: the first six bytes of its SHA-256. An index of whole texts would have each text again."""
    data = text if isinstance(text, bytes) else text.encode("utf8", "surrogatepass")
    return int.from_bytes(hashlib.sha256(data).digest()[:6], "big", signed=True)


def database_uri(path: str, mode: str) -> str:
    """The URI by which SQLite opens this file, also one named `:memory:`, if the files beside it are safe."""
    check_side_files(path)
    return f"file:{quote(os.path.join(os.getcwdb(), os.fsencode(path)))}?mode={mode}"


def check_side_files(path: str) -> None:
    """Refuse a database beside which SQLite would delete or overwrite a file of the user.

    A rollback journal can name any file, which SQLite deletes before anything else; dexasm-corpus writes none. SQLite
    writes into the `-wal` and `-shm` that it finds, so each has to be one that it made itself.
    """
    database = os.path.realpath(path)  # (SQLite follows links before it appends these names)
    owners = {os.geteuid(), *(found.st_uid for found in [status_of(database)] if found)}
    for suffix in ("-journal", "-wal", "-shm"):
        found = status_of(database + suffix)
        if found is None:
            continue
        shown = escaped((database if os.path.islink(path) else path) + suffix)
        if suffix == "-journal":
            why = "a rollback journal, which SQLite would apply; remove it if you do not know its origin"
            raise CliError(f"{shown}: {why}")
        if not stat.S_ISREG(found.st_mode) or found.st_nlink > 1:
            raise CliError(f"{shown}: not a regular file with one name, and SQLite would write into it; remove it")
        if found.st_uid not in owners:
            raise CliError(f"{shown}: belongs to another user, and SQLite would apply it; remove it")


def status_of(path: str) -> os.stat_result | None:
    """The status of a file, not of a link's target, or None if there is none."""
    try:
        return os.lstat(path)
    except FileNotFoundError:
        return None
    except OSError as error:
        raise CliError(f"{escaped(path)}: {reason(error)}") from None


def connected(path: str, is_made: bool = False) -> sqlite3.Connection:
    """The database: to be read, or to be written and made where it isn't there."""
    name = escaped(path)
    if not is_made and not os.path.isfile(path):
        raise CliError(f"{name}: no such database")
    try:
        uri = database_uri(path, "rwc" if is_made else "ro")
        db = sqlite3.connect(uri, timeout=BUSY, isolation_level=None, check_same_thread=False, uri=True)
        # (what SQLite's own page on databases of strangers asks for: www.sqlite.org/security.html)
        db.execute("pragma trusted_schema = off")
        db.execute("pragma cell_size_check = on")
        db.create_function("digest", 1, digest, deterministic=True)
        if is_made:
            patient(lambda: made(db))
        patient(lambda: look(db, "main", name))
    except WRONG as error:
        raise CliError(f"{name}: {why(error)}") from None
    return db


@contextlib.contextmanager
def attached(db: sqlite3.Connection, path: str, name: str) -> Iterator[None]:
    """Another database, to be read beside this one by that name."""
    db.execute(f"attach ? as {name}", (database_uri(path, "ro"),))
    try:
        look(db, name, escaped(path))
        yield
    finally:
        with contextlib.suppress(sqlite3.Error):
            db.execute(f"detach {name}")


def look(db: sqlite3.Connection, which: str, name: str) -> None:
    """Looks whether it is a database of this version that has nothing else: what triggers and views do, its maker says."""
    application, version = whose(db, which)
    if application != APPLICATION:
        raise CliError(f"{name}: no database of dexasm-corpus")
    if version != VERSION:
        has = f"{name}: its tables are of version {version}, and those of this dexasm-corpus of version {VERSION}"
        raise CliError(f"{has}: make a new one with dexasm-corpus add")
    if {*db.execute(TABLES.format(which))} != tables():
        raise CliError(f"{name}: its tables, indexes, views and triggers aren't those of dexasm-corpus")


def refuse_strange(db: sqlite3.Connection, name: str) -> None:
    if db.execute(STRANGE).fetchone():
        raise CliError(f"{name}: its table file has rows that dexasm-corpus doesn't write")


@functools.cache
def tables() -> set[tuple[str | None, ...]]:
    """What a database has that this makes."""
    with contextlib.closing(sqlite3.connect(":memory:")) as db:
        db.executescript(SCHEMA)
        return {*db.execute(TABLES.format("main"))}


def why(error: Exception) -> str:
    """An error of SQLite in its own words, where these are words."""
    return "it is damaged" if isinstance(error, UnicodeDecodeError) else escaped(str(error))


def is_damaged(path: str) -> bool:
    """Whether SQLite finds anything wrong with a database."""
    try:
        with contextlib.closing(connected(path)) as db:
            return bool(db.execute("pragma quick_check(1)").fetchone() != ("ok",))
    except (*WRONG, CliError):
        return True


def patient(call: Callable[[], Answer]) -> Answer:
    """What the call answers, asked again while another command has the database: SQLite doesn't wait by itself while
    the journal's mode changes, since two that wait for one another would wait for ever."""
    until = time.monotonic() + BUSY
    while True:
        try:
            return call()
        except sqlite3.OperationalError as error:
            if "locked" not in str(error) or time.monotonic() > until:
                raise
            time.sleep(0.02)


def whose(db: sqlite3.Connection, which: str = "main") -> tuple[int, int]:
    """Whose database it is, and the version of its tables."""
    words = f"pragma {which}.application_id", f"pragma {which}.user_version"
    return db.execute(words[0]).fetchone()[0], db.execute(words[1]).fetchone()[0]


def is_empty(db: sqlite3.Connection) -> bool:
    return not db.execute("select count(*) from sqlite_master").fetchone()[0]


def made(db: sqlite3.Connection) -> None:
    """Makes the tables in what is empty, where no other command did meanwhile; otherwise nothing."""
    if whose(db) != (0, 0) or not is_empty(db):
        return
    use_wal(db)
    with written(db):
        if is_empty(db):
            for statement in SCHEMA.split(";")[:-1]:
                db.execute(statement)
            db.execute(f"pragma application_id = {APPLICATION}")
            db.execute(f"pragma user_version = {VERSION}")


def use_wal(db: sqlite3.Connection) -> None:
    """Switch to write-ahead logging, without a rollback journal that a kill could leave behind."""
    if db.execute("pragma journal_mode").fetchone() == ("wal",):
        return
    db.execute("pragma journal_mode = memory")  # (the switch itself writes one page, in one call)
    if db.execute("pragma journal_mode = wal").fetchone() != ("wal",):
        raise CliError("SQLite cannot use a write-ahead log here")


@contextlib.contextmanager
def written(db: sqlite3.Connection) -> Iterator[None]:
    """One transaction, of which nothing stays where it doesn't end well."""
    db.execute("begin immediate")
    try:
        yield
        db.execute("commit")
    except BaseException:
        if db.in_transaction:
            db.execute("rollback")
        raise


class Corpus:
    """Writes what was found, a batch a transaction."""

    def __init__(self, path: str) -> None:
        self.db, self.path = connected(path, is_made=True), path
        patient(lambda: use_wal(self.db))
        self.db.execute("pragma synchronous = normal")
        self.db.execute("pragma cache_size = -262144")
        self.forget()

    def forget(self) -> None:
        """Forgets which numbers names and texts have: those that a transaction gave them are gone with it."""
        self.numbers: dict[str, dict[str, int]] = {"word": {}, "string": {}, "name": {}}

    def known(self, key: int, is_again: bool) -> bytes:
        """The first bytes of each SHA-256 of a file that isn't looked at again, sorted."""
        refuse_strange(self.db, escaped(self.path))
        where = " where status in ('ok', 'refused')" if is_again else ""
        return b"".join(sha[:key] for sha, in self.db.execute(f"select sha256 from file{where} order by sha256"))

    def put_all(self, found: list[tuple[Any, ...]]) -> list[str]:
        """One transaction; answers the status of each file that wasn't in before."""
        put: dict[str, Callable[..., bool]] = {"file": self.put_file, "seen": self.put_seen, "unread": self.put_unread}
        try:
            with written(self.db):
                return [one[5] for one in found if put[one[0]](kept(one[1]), *one[2:])]
        except BaseException:
            self.forget()
            raise

    def put_unread(self, path: str | bytes, entry: str, status: str, reason: str) -> bool:
        is_read = "select 1 from path where path = ?1 and (entry = ?2 or ?2 = '')"
        words = f"insert into unread select ?1, ?2, ?3, ?4 where not exists ({is_read}) {FIRST_REASON}"
        self.db.execute(words, (path, entry, status, reason))
        return False

    def put_seen(self, path: str | bytes, entry: str, sha: bytes, size: int) -> bool:
        file = self.db.execute("select id from file where sha256 = ?", (sha,)).fetchone()
        if file:
            self.put_path(file[0], path, entry)
        return False

    def put_path(self, file: int | None, path: str | bytes, entry: str) -> None:
        self.db.execute("insert or ignore into path values (?, ?, ?)", (file, path, entry))
        self.db.execute("delete from unread where path = ? and entry in (?, '')", (path, entry))

    def put_file(
        self,
        path: str | bytes,
        entry: str,
        sha: bytes,
        size: int,
        status: str,
        fault: int | None,
        fault_name: str | None,
        place: int | None,
        program: tuple[bytes, int, list[tuple[Any, ...]]] | None,
    ) -> bool:
        there = self.db.execute("select id, status from file where sha256 = ?", (sha,)).fetchone()
        row = status, fault, fault_name, place, self.program(*program) if program else None
        if there is None:
            words = "insert into file(sha256, size, status, fault, fault_name, place, program)"
            file = self.db.execute(f"{words} values (?, ?, ?, ?, ?, ?, ?)", (sha, size, *row)).lastrowid
        else:
            file = there[0]
            if RANKS.index(status) < RANKS.index(there[1]):
                words = "status = ?, fault = ?, fault_name = ?, place = ?, program = ?"
                self.db.execute(f"update file set {words} where id = ?", (*row, file))
        self.put_path(file, path, entry)
        return there is None

    def program(self, sha: bytes, size: int, classes: list[tuple[Any, ...]]) -> int | None:
        """The number of a program."""
        there = self.db.execute("select id from program where sha256 = ?", (sha,)).fetchone()
        if there:
            known: int = there[0]
            return known
        number = self.db.execute("insert into program(sha256, size) values (?, ?)", (sha, size)).lastrowid
        rows = sorted((number, self.one_class(*one)) for one in classes)
        self.db.executemany("insert into has values (?, ?)", rows)
        return number

    def one_class(self, sha: bytes, name: str, superclass: str | None, flags: int, rows: str) -> int | None:
        """The number of a class."""
        there = self.db.execute(f"select id from class where {SAME_AS}", (sha,)).fetchone()
        if there:
            known: int = there[0]
            return known
        of = self.name
        row = sha, self.text("word", name), superclass and self.text("word", superclass), flags
        at = self.db.execute("insert into class(sha256, name, superclass, flags) values (?, ?, ?, ?)", row).lastrowid
        members, calls, strings = json.loads(rows)
        for table, found in (
            ("member", [(at, of(ref), kind, bits) for kind, ref, bits in members]),
            ("call", [(at, of(caller), of(callee), count) for caller, callee, count in calls]),
            ("use", [(at, of(ref), self.text("string", value), count) for ref, value, count in strings]),
        ):
            self.db.executemany(f"insert into {table} values (?, ?, ?, ?)", found)
        return at

    def name(self, ref: str) -> int:
        """The number of a member, whose class and whose own name stand apart."""
        found = self.numbers["name"].get(ref)
        if found is None:
            owner, _, member = ref.partition("->")
            row = self.text("word", owner), self.text("word", member)
            found = self.row_of("name", ref, "class = ? and member = ?", "(class, member)", row)
        return found

    def text(self, table: str, text: str) -> int:
        """The number of a text in a table of texts."""
        found = self.numbers[table].get(text)
        if found is None:
            found = self.row_of(table, text, "hash = ? and text = ?", "(hash, text)", (digest(text), text))
        return found

    def row_of(self, table: str, word: str, where: str, columns: str, row: tuple[Any, ...]) -> int:
        """The number of a row that is there, or is put there; it is kept for the next time."""
        there = self.db.execute(f"select id from {table} where {where}", row).fetchone()
        found: int | None = there[0] if there else None
        if found is None:
            found = self.db.execute(f"insert into {table}{columns} values (?, ?)", row).lastrowid
        assert found is not None  # (a row that was put in has a number)
        numbers = self.numbers[table]
        if len(numbers) >= NAMES:
            numbers.clear()
        numbers[word] = found
        return found

    def merge(self, path: str) -> None:
        """Takes another database in, in one transaction; itself it has."""
        if os.path.samefile(path, self.path):
            return
        try:
            with attached(self.db, path, "other"), written(self.db):
                for statement in (MERGE + DONE).split(";")[:-1]:
                    self.db.execute(statement)
                self.merge_files()
        except WRONG as error:
            raise CliError(f"{escaped(path if is_damaged(path) else self.path)}: {why(error)}") from None

    def merge_files(self) -> None:
        """Files, of which one may have ended otherwise there, and paths: what is unread here may be read there."""
        rank = "case {}.status " + " ".join(f"when '{word}' then {at}" for at, word in enumerate(RANKS)) + " end"
        row = "size, status, fault, fault_name, place, program"
        new = "select f.sha256, f.size, status, fault, fault_name, place, m.id from other.file f"
        new += " left join other.program p on p.id = f.program left join main.program m on m.sha256 = p.sha256"
        self.db.execute(
            f"insert into main.file(sha256, {row}) {new} where true on conflict(sha256) do update set"
            " status = excluded.status, fault = excluded.fault, fault_name = excluded.fault_name,"
            " place = excluded.place, program = excluded.program"
            f" where {rank.format('excluded')} < {rank.format('file')}"
        )
        self.db.execute(
            "insert or ignore into main.path select m.id, path, entry from other.path join other.file f on f.id = file"
            " join main.file m on m.sha256 = f.sha256"
        )
        self.db.execute(
            f"insert into main.unread select path, entry, status, reason from other.unread where true {FIRST_REASON}"
        )
        self.db.execute(
            "delete from main.unread where exists (select 1 from main.path p where p.path = unread.path"
            " and (p.entry = unread.entry or unread.entry = ''))"
        )


def sums(db: sqlite3.Connection) -> Iterator[tuple[str, int, int]]:
    """Of each table its rows, and the sum of the SHA-256 of what each says."""
    for table, words in CONTENT.items():
        rows = total = 0
        for row in db.execute(words):
            rows += 1
            total += int.from_bytes(hashlib.sha256(repr(row).encode("ascii", "backslashreplace")).digest(), "big")
        yield table, rows, total % (1 << 256)


def total(db: sqlite3.Connection) -> tuple[list[tuple[str, int, str]], str]:
    """The sum of each table, and one over all of them."""
    found = [(table, rows, f"{number:064x}") for table, rows, number in sums(db)]
    whole = "".join(f"{table} {rows} {number}\n" for table, rows, number in found)
    return found, hashlib.sha256(whole.encode()).hexdigest()
