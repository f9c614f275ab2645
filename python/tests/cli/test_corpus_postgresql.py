"""The tables of dexasm-corpus in PostgreSQL, by the commands of CORPUS as they stand there."""
import glob
import os
import shutil
import subprocess
import tempfile

from .corpus_cases import CorpusTest, programs, rows
from .recipe_cases import blocks
from .support import LISTING, NAMES, assembled, put

TABLES = "word name string program file path unread class has member call use".split()
# A server for one folder, which nobody reaches from elsewhere, and what is asked of it at the end.
BEGIN = """{ "$BIN/initdb" -D d -A trust -E UTF8 &&
"$BIN/pg_ctl" -w -D d -l server.log -o "-k '$PWD' -c listen_addresses=''" start; } >begun.log 2>&1 || exit 77
"""
COUNT = "psql -Atd corpus -c 'select count(*) from {}'\n"
PATHS = "psql -Atd corpus -c \"select encode(path, 'hex') from path\"\n"
END = '"$BIN/pg_ctl" -D d -m fast stop >ended.log\n'


def in_postgresql(at: str, server: str) -> tuple[int, list[str], str]:
    """The status, 77 where no server begins, the words that come of CORPUS' commands and of what is asked then, and what
    is said. A server wants no root."""
    words = BEGIN + blocks("docs/CORPUS.md")["Beyond one file of SQLite"][0]
    words += "".join(COUNT.format(table) for table in TABLES) + PATHS + END
    user = ["setpriv", "--reuid=nobody", "--clear-groups"] if os.geteuid() == 0 else []
    if user:
        shutil.chown(at, "nobody")
    there = {**os.environ, "PGHOST": at, "HOME": at, "LC_ALL": "C.UTF-8", "BIN": server}
    done = subprocess.run([*user, "bash", "-c", words], cwd=at, env=there, capture_output=True, text=True, timeout=900)
    return done.returncode, done.stdout.split(), done.stderr


class PostgresqlTest(CorpusTest):
    def test_tables(self) -> None:
        """Each table has its rows, and each path its bytes, whatever it is called."""
        servers = sorted(glob.glob("/usr/lib/postgresql/*/bin"))
        if not servers or not all(map(shutil.which, ("psql", "sqlite3", "setpriv"))):
            self.skipTest("no PostgreSQL, or no sqlite3, here: its tables")
        at = tempfile.mkdtemp(prefix="dexasm-pg-", dir="/tmp")  # (the path of a socket is short)
        self.addCleanup(shutil.rmtree, at, ignore_errors=True)
        programs(at)
        for name in (*NAMES, os.fsdecode(b"n\xff"), "a\tb\\", "\\.", '"'):
            put(at, f"f/{name}.dex", assembled(LISTING))
        self.added("for PostgreSQL", at, "--processes", "1", "corpus.db", "f")
        want = [str(rows(at, f"select count(*) from {table}", "corpus.db")[0][0]) for table in TABLES]
        paths = sorted(path for path, in rows(at, "select lower(hex(path)) from path", "corpus.db"))
        status, seen, said = in_postgresql(at, servers[-1])
        if status in (77, 127) or "setpriv: " in said:
            self.skipTest("no server of PostgreSQL begins here: its tables")
        self.check_equal("CORPUS: the rows of tables in PostgreSQL", seen[: len(TABLES)], want)
        self.check_equal("CORPUS: paths in PostgreSQL", sorted(seen[len(TABLES) :]), paths)
        self.check_equal("CORPUS: PostgreSQL has nothing to say", said, "")
