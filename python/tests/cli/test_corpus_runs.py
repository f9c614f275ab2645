"""How runs of dexasm-corpus end: killed, interrupted, without room or memory, beside another one, on a terminal, over
Dask. Whatever happens, the database is whole, and the same command goes on.
"""
from __future__ import annotations

import fcntl
import functools
import json
import os
import pty
import random
import re
import select
import shutil
import signal
import sqlite3
import struct
import subprocess
import sys
import termios
import time
import unittest
from collections.abc import Callable
from typing import Any, TypeVar

from tests.matchers import ANY, EMPTY, SOME, Begins, Either, Ends, Matches, Other
from .corpus_cases import APP, LIBRARY, CorpusTest, asked, programs, rows, slow, strange, sums
from .support import (
    ESC, HEAD, LIMIT, LISTING, TOOLS, TOP, Line, assembled, environment, get, put, room, run, scratch, tool
)

CORPUS = os.path.join(TOOLS, "dexasm-corpus")
PATIENCE = LIMIT  # for what a run does meanwhile
BAR = re.compile(r"\d+ paths, \d+\.\d MB/s, \d+ files refused(, \d+ s left)?")
GONE = "dexasm-corpus: the scheduler is gone: "
Seen = TypeVar("Seen")


def begun(at: str, *words: str, python: str = sys.executable, **streams: Any) -> subprocess.Popen[bytes]:
    """A run that goes on beside the test."""
    streams = {"stdout": subprocess.DEVNULL, "stderr": subprocess.PIPE, **streams}
    return subprocess.Popen([python, CORPUS, *words], cwd=at, env=environment(), **streams)


def kill(process: int, by: int = signal.SIGKILL) -> None:
    try:
        os.kill(process, by)
    except ProcessLookupError:
        pass


def waited(seen: Callable[[], Seen]) -> Seen | None:
    """What is seen first, within the patience."""
    for _ in range(PATIENCE * 20):
        if found := seen():
            return found
        time.sleep(0.05)
    return None


def is_whole(at: str, file: str = "c.db") -> bool:
    return rows(at, "pragma integrity_check", file) == [("ok",)] and not rows(at, "pragma foreign_key_check", file)


@functools.cache
def file_of(number: int) -> bytes:
    """A file that shares a class with those of other numbers."""
    return assembled(HEAD + LIBRARY % number + APP * (number % 2))


def workers() -> list[int]:
    """The workers of this test, by what their command line says."""
    found = []
    for one in filter(str.isdigit, os.listdir("/proc")):
        try:
            words = get("/proc", one, "cmdline").split(b"\0")
            environment = get("/proc", one, "environ")
        except OSError:
            continue
        if b"dexasm.corpus.extract:Job" in words and os.fsencode(scratch()) in environment:
            found.append(int(one))
    return found


def is_alive(process: int) -> bool:
    for _ in range(50):
        try:
            if get("/proc", str(process), "stat").rpartition(b")")[2].split()[0] == b"Z":
                return False
        except OSError:
            return False
        time.sleep(0.1)
    return True


# ---- a terminal


def seen_on(master: int, running: subprocess.Popen[bytes], is_closed: bool) -> bytes:
    """What a terminal got until the run ended, or until its first bar, after which it is closed."""
    got = b""
    while True:
        if select.select([master], [], [], 0.2)[0]:
            try:
                got += os.read(master, 1 << 16)
            except OSError:
                return got
        elif running.poll() is not None:
            return got
        if is_closed and BAR.search(got.decode("latin1")):
            return got


def on_terminal(at: str, columns: int, *words: str, is_closed: bool = False, **env: str) -> tuple[int, str, str]:
    """Status, standard output, and what a terminal so wide got of a run."""
    master, slave = pty.openpty()
    fcntl.ioctl(slave, termios.TIOCSWINSZ, struct.pack("HHHH", 24, columns, 0, 0))
    everything = {**environment(), "TERM": "xterm", **env}
    words = (sys.executable, CORPUS, "add", *words)
    running = subprocess.Popen(words, cwd=at, env=everything, stdout=subprocess.PIPE, stderr=slave)
    os.close(slave)
    got = seen_on(master, running, is_closed)
    os.close(master)
    out = running.communicate(timeout=PATIENCE)[0]
    return running.returncode, out.decode("latin1"), got.decode("latin1")


# ---- Dask


def dask() -> str:
    """The Python that has Dask."""
    for python in (sys.executable, "/usr/bin/python3"):
        if shutil.which(python) and run([python, "-c", "import distributed"])[0] == 0:
            return python
    raise unittest.SkipTest("no Dask here: it isn't tried")


class Cluster:
    """A scheduler of Dask and its workers, each with a nanny, in a folder."""

    def __init__(self, python: str, at: str, workers: int, protocol: str = "tcp", **env: str) -> None:
        self.begun: list[subprocess.Popen[bytes]]
        self.python, self.at, self.begun = python, at, []
        sources = {"PYTHONPATH": os.path.join(TOP, "python", "src"), "PYTHONDONTWRITEBYTECODE": "1"}
        self.env = {**environment(), **sources, **env}
        file = os.path.join(at, "address.json")
        if os.path.exists(file):
            os.remove(file)
        self.begin("scheduler", "--host", "127.0.0.1", "--port", "0", "--protocol", protocol)
        for _ in range(workers):
            self.begin("worker", "--nthreads", "1", "--local-directory", "w")
        waited(lambda: os.path.exists(file) and get(file).endswith(b"}"))
        self.address = json.loads(get(file))["address"]

    def begin(self, who: str, *words: str) -> None:
        words = (*words, "--no-dashboard", "--scheduler-file", "address.json")
        quiet: dict[str, Any] = {"stdout": subprocess.DEVNULL, "stderr": subprocess.DEVNULL, "start_new_session": True}
        words = (self.python, "-m", f"distributed.cli.dask_{who}", *words)
        self.begun.append(subprocess.Popen(words, cwd=self.at, env=self.env, **quiet))

    def add(self, *words: str, **streams: Any) -> subprocess.Popen[bytes]:
        return begun(self.at, "add", "--scheduler", self.address, *words, python=self.python, **streams)

    def __enter__(self) -> Cluster:
        return self

    def __exit__(self, *_: object) -> None:
        for one in self.begun:
            try:
                os.killpg(one.pid, signal.SIGKILL)
            except ProcessLookupError:
                pass
            one.wait()


def nannied(looker: int) -> int:
    """The worker of Dask that has a worker of ours."""
    return int(get("/proc", str(looker), "stat").rpartition(b")")[2].split()[1])


class CorpusRuns(CorpusTest):
    def many(self, at: str, count: int) -> Any:
        """A folder of so many files that share classes, and what they make."""
        for number in range(count):
            put(at, f"d/{number}.dex", file_of(number))
        self.added("all at once", at, "whole.db", "d")
        return sums(at, "whole.db")

    def test_killed(self) -> None:
        """Workers and the writer are killed at random moments; the same command goes on."""
        at, random_ = room("corpus killed"), random.Random(3)
        want = self.many(at, 120)
        for who in ("writer", "worker") * 3:
            running = begun(at, "add", "--processes", "2", "c.db", "d")
            time.sleep(random_.uniform(0.1, 0.6))
            for one in ([running.pid] if who == "writer" else workers())[:1]:
                kill(one)
            said = running.communicate(timeout=PATIENCE)[1]
            self.check_equal(f"its {who} is killed", (running.returncode, said), (Either(0, -signal.SIGKILL), b""))
        self.added("what was left", at, "c.db", "d")
        self.check_equal("killed, and gone on", (sums(at), is_whole(at)), (want, True))
        self.check_equal("no worker stays", [one for one in workers() if is_alive(one)], EMPTY)

    def test_beside(self) -> None:
        """Two commands make and fill one database."""
        at = room("corpus beside")
        want = self.many(at, 70)
        running = [begun(at, "add", "--processes", "1", "c.db", "d") for _ in range(2)]
        said = [one.communicate(timeout=PATIENCE)[1] for one in running]
        ends = [one.returncode for one in running]
        self.check_equal("two at once", (ends, said), ([0, 0], [b"", b""]))
        self.check_equal("two at once, their sum", (sums(at), is_whole(at)), (want, True))

    def test_held(self) -> None:
        """Another command has the database, which is still empty: this one waits."""
        at = room("corpus held", {"a.dex": assembled(LISTING)})
        db = sqlite3.connect(os.path.join(at, "c.db"), isolation_level=None)
        db.execute("pragma journal_mode = memory")  # (as dexasm-corpus has it; a journal beside it would be refused)
        db.execute("begin immediate")
        running = begun(at, "add", "c.db", "a.dex")
        time.sleep(1)
        waits = running.poll() is None
        db.execute("rollback")
        db.close()
        said = running.communicate(timeout=PATIENCE)[1]
        self.check_equal("while another one has the database",
                         (waits, running.returncode, said, rows(at, "select count(*) from file")),
                         (SOME, 0, b"", [(1,)]))

    def test_interrupted(self) -> None:
        """Control-C while it looks at a file, and while it waits for paths."""
        at = room("corpus interrupted", {"slow.dex": slow()})
        for what, path in (("a file", b"slow.dex\0"), ("paths", b"")):
            # (a shell may have begun this test without that signal)
            obeyed: dict[str, Any]
            obeyed = {"stdin": subprocess.PIPE, "preexec_fn": lambda: signal.signal(signal.SIGINT, signal.SIG_DFL)}
            running = begun(at, "add", "--processes", "1", "c.db", "-", **obeyed)
            assert running.stdin is not None  # (a pipe)
            running.stdin.write(path * 200)
            running.stdin.flush()
            waited(lambda: workers() if path else os.path.exists(os.path.join(at, "c.db-wal")))
            time.sleep(0.3)
            kill(running.pid, signal.SIGINT)
            said = running.communicate(timeout=PATIENCE)[1]
            self.check_equal(f"interrupted at {what}", (running.returncode, said, is_whole(at)), (130, b"", True))
            self.check_equal("interrupted, no worker stays", [one for one in workers() if is_alive(one)], EMPTY)

    def test_no_room(self) -> None:
        """A database that can't grow: what is in it stays, and with room the same command goes on."""
        at = room("corpus no room")
        want = self.many(at, 120)
        self.added("without room for tables", at, "none.db", "d", want=3, says="dexasm-corpus: none.db: ", most=9000)
        self.added("with room at last", at, "none.db", "d")
        self.check_equal("tables after there was no room", sums(at, "none.db"), want)
        self.added("few", at, "c.db", "d/1.dex")
        least, most = (os.path.getsize(os.path.join(at, name)) for name in ("c.db", "whole.db"))
        self.added("without room", at, "c.db", "d", want=3, says="dexasm-corpus: c.db: ", most=(least + most) // 2)
        self.check_equal("without room", (is_whole(at), sums(at)), (True, Other(want)))
        self.added("with room", at, "c.db", "d")
        self.check_equal("with room", (sums(at), is_whole(at)), (want, True))

    def test_memory(self) -> None:
        """An answer that memory doesn't suffice for ends with status 4 and a line."""
        at = room("corpus memory", {"a.dex": assembled(LISTING)})
        self.added("a file", at, "c.db", "a.dex")
        db = sqlite3.connect(os.path.join(at, "c.db"))
        db.execute("update string set text = ? where id = 1", ("x" * (8 << 20),))
        db.executemany("insert into path select id, ?, '' from file", [(f"{number}.dex",) for number in range(30)])
        db.commit()
        db.close()
        for form in ((), ("--csv",), ("--json",)):
            limited = ["bash", "-c", 'ulimit -v 200000; exec "$@"', "-", sys.executable, CORPUS]
            seen = run([*limited, "strings", "--pattern", *form, "c.db", "*"], at=at)
            self.check_equal(f"no memory {form}", seen, (4, "", "dexasm-corpus: out of memory\n"))

    def test_names(self) -> None:
        """A database is the file of that very name."""
        at = room("corpus names")
        names: tuple[str, ...]
        names = ":memory:", "file:c.db?mode=memory", "%41?mode=memory#.db", f"new\nline{ESC}[31m.db"
        names += (os.fsdecode(b"b\xff.db"),)
        put(at, "a.dex", assembled(LISTING))
        for name in names:
            self.added(f"to {name!r}", at, name, "a.dex")
            self.check(f"a database called {name!r}", os.path.isfile(os.path.join(at, name)))
        seen = tool("dexasm-corpus", "merge", "all.db", *names, at=at)
        self.check_equal("merge of such names", (seen, sums(at, "all.db")), ((0, "", ""), sums(at, names[0])))
        seen = tool("dexasm-corpus", "merge", names[-1], names[-1], at=at)
        self.check_equal("merge with itself", (seen, sums(at, names[-1])), ((0, "", ""), sums(at, "all.db")))
        found = asked(at, "libraries", "--known", names[-1], "all.db")
        self.check_equal("--known of such a name", [row["percent"] for row in found], [100.0])
        seen = tool("dexasm-corpus", "merge", "new.db", "all.db", f"{ESC}none", at=at)
        self.check_equal("merge of none", (seen, os.path.exists(os.path.join(at, "new.db"))),
                         ((3, ANY, Line("dexasm-corpus: \\x1bnone: no such database")), False))
        self.added("no name", at, "", "a.dex", want=3, says="dexasm-corpus: : unable to open")
        closed = ["bash", "-c", 'exec "$@" <&-', "-", sys.executable, CORPUS, "add", "all.db", "-"]
        seen = run(closed, at=at)
        self.check_equal("no standard input", seen, (3, "", "dexasm-corpus: standard input: it is closed\n"))

    def test_terminal(self) -> None:
        """The bar has numbers alone, is no wider than the terminal, and is gone in the end."""
        at = room("corpus terminal")
        for name in (
            f"{ESC}[31mred\n",
            *range(130),
        ):  # (more than two batches, so that the bar is there before they end)
            put(at, f"d/{name}.dex", b"")
        none = f"{ESC}]0;none\a"
        got: str | tuple[int, str, str]
        status, out, got = on_terminal(at, 100, "--processes", "1", "c.db", "d", none)
        *lines, last = got.split("\r\n")
        bars = [bar for bar in re.split(r"\r\x1b\[K", got.replace("\r\n", "")) if bar]
        said = "dexasm-corpus: \\x1b]0;none\\x07: No such file or directory"
        self.check_equal("a terminal", (status, out), (3, Begins("131 paths, 0 not read; 1 new files, 1 refused")))
        self.check_equal("a bar", (bars[0], [bar for bar in bars if not (BAR.fullmatch(bar) or bar == said)]),
                         (Matches(BAR), []))
        self.check_equal("a line beside the bar", [line.rpartition(f"{ESC}[K")[2] for line in lines], [said])
        self.check_equal("the bar is gone", last, Ends(f"\r{ESC}[K"))
        bars = re.split(r"\r\x1b\[K", on_terminal(at, 20, "narrow.db", "d")[2])
        self.check_equal("a narrow terminal", max(map(len, bars)), 19)
        got = on_terminal(at, 100, "dumb.db", "d", TERM="dumb")
        self.check_equal("a terminal that obeys nothing", got, (0, ANY, ""))
        put(at, "slow.dex", slow(48000))
        status, out, got = on_terminal(at, 100, "--seconds", "600", "gone.db", "slow.dex", is_closed=True)
        self.check_equal("a terminal that goes away", (status, out, BAR.search(got)),
                         (0, Begins("1 paths, 0 not read; 1 new files"), SOME))

    def test_dask(self) -> None:
        """Scheduler and two workers of Dask: the same content, with the folder and without."""
        python = dask()
        at = room("corpus dask")
        programs(at)
        strange(at)
        self.added("here", at, "--memory", "300M", "here.db", "f", "d")
        want = sums(at, "here.db")
        with Cluster(python, at, 2) as cluster:
            for words in ((), ("--send",)):
                file = f"dask{len(words)}.db"
                running = cluster.add("--memory", "300M", *words, file, "f", "d")
                said = running.communicate(timeout=PATIENCE)[1]
                self.check_equal(f"by Dask {words}", (running.returncode, said, sums(at, file)), (0, b"", want))

    def test_dask_tls(self) -> None:
        """Over TLS, with the certificates of Dask's own configuration; who has none isn't let in."""
        python = dask()
        self.need("openssl", "Dask over TLS isn't tried")
        at = room("corpus dask tls")
        programs(at)
        new = "openssl req -x509 -newkey rsa:2048 -nodes -keyout key.pem -out cert.pem -days 2 -subj /CN=dask"
        self.check_equal("openssl makes a certificate", run(["bash", "-c", new], at=at)[0], 0)
        prefix, key, cert = "DASK_DISTRIBUTED__COMM__TLS__", os.path.join(at, "key.pem"), os.path.join(at, "cert.pem")
        has = {f"{prefix}CA_FILE": cert}
        for who in ("SCHEDULER", "WORKER", "CLIENT"):
            has |= {f"{prefix}{who}__KEY": key, f"{prefix}{who}__CERT": cert}
        self.added("here", at, "here.db", "f")
        with Cluster(python, at, 1, "tls", **has) as cluster:
            self.check_equal("Dask over TLS", cluster.address, Begins("tls://"))
            env: Any  # (mypy joins the dictionaries to object)
            for what, env, status, says in (
                ("them", has, 0, ""), ("none", {}, 3, f"dexasm-corpus: {cluster.address}: ")
            ):
                words = [python, CORPUS, "add", "--scheduler", cluster.address, f"{what}.db", "f"]
                seen = run(words, at=at, **env)
                self.check_equal(f"Dask over TLS, with {what}", seen, (status, ANY, Line(says) if says else ""))
            self.check_equal("Dask over TLS, the sum", sums(at, "them.db"), sums(at, "here.db"))

    def test_dask_killed(self) -> None:
        """A worker of Dask is killed, then the scheduler, each while it looks at a file and others wait."""
        python = dask()
        at = room("corpus dask killed", {"d/slow.dex": slow(8000)})
        want = self.many(at, 70)
        said: bytes | str
        with Cluster(python, at, 1) as cluster:
            running = cluster.add("--seconds", "600", "c.db", "d")
            looker = waited(workers)
            if looker:
                kill(nannied(looker[0]))
            said = running.communicate(timeout=PATIENCE)[1]
            self.check_equal("a worker of Dask is killed", (running.returncode, said), (0, b""))
            self.check_equal("a worker of Dask is killed, the sum", (sums(at), is_whole(at)), (want, True))
            before = {*workers()}
            running = cluster.add("--seconds", "600", "gone.db", "d")
            self.check_equal("by Dask once more", waited(lambda: {*workers()} - before), Other(None))
            cluster.begun[0].kill()
            said = running.communicate(timeout=PATIENCE)[1].decode("latin1")
            self.check_equal("the scheduler is killed", (running.returncode, said, is_whole(at, "gone.db")),
                             (3, Line(GONE), True))
        self.added("what Dask left", at, "--seconds", "600", "gone.db", "d")
        self.check_equal("what Dask left, the sum", sums(at, "gone.db"), want)
