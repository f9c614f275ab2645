"""dexasm-corpus: what strangers' files do to it first, then its answers, and that nothing is lost or doubled; how its
runs end is in test_corpus_runs.py."""
import csv
import hashlib
import io
import os
import re
import sqlite3
from collections.abc import Callable
from typing import Any

import shapes
from tests.matchers import Above, Begins, Below, Has, Lacks
from .archive_files import archive
from .corpus_cases import APP, LIBRARY, WIDE, CorpusTest, asked, padded, programs, rows, slow, strange, sums
from .recipe_cases import TEXT, blocks
from .support import ESC, HEAD, LISTING, NAMES, TOP, Line, assembled, dexasm, get, put, puts, room, shell, tool


ALL = ("word", "name", "string", "program", "file", "path", "unread", "class", "has", "member", "call", "use")


def write_shape(made: str | shapes.File, at: str, name: str) -> None:
    """What bench/hostile makes, as a file: a listing is assembled, if it can be."""
    if isinstance(made, str):
        put(at, name, assembled(made.encode("ascii")))
        return
    made.index()
    made.write(os.path.join(at, name))


class Corpus(CorpusTest):
    def test_strangers(self) -> None:
        """Each ends as a row, and nothing in a name is obeyed."""
        at = room("corpus strangers")
        strange(at)
        out = self.added("a folder of strangers", at, "--memory", "300M", "c.db", "d")
        count = len(NAMES) + 1 + 2 * 3 + 1 + 2 + 2
        self.check_equal("strangers", out, Begins(f"{count} paths, "))
        self.check_equal("strangers, no name is obeyed", os.listdir(at), Lacks("PWNED"))
        unread = {(str(path), entry, status) for path, entry, status, _ in rows(at, "select * from unread")}
        want = {("d/bad.apk", "", "failed"), ("d/bomb.apk", "classes2.dex", "memory"),
                ("d/encrypted.apk", "classes.dex", "failed"), ("d/sparse.dex", "", "memory")}
        self.check_equal("paths that can't be read", unread, want)
        paths = {path for path, in rows(at, "select path from path where entry = ''")}
        self.check_equal("a path that is no text", paths, Has(b"d/n\xff.dex", "d/'; drop table file; --.dex"))
        words = (("callers", "LA;->m()V"), ("strings", "a\u00e9"), ("classes", "LA;"),
                 ("strings", "'; drop table file; --"))
        for job, word in words:
            for form in ((), ("--csv",), ("--json",)):
                seen = tool("dexasm-corpus", job, *form, "c.db", word, at=at)
                shown = [] if word[0] == "'" or form == ("--json",) else ["\\xff.dex"]
                self.check_equal(f"{job} of strangers, {form}", seen, (0, Lacks(ESC) & Has(*shown), ""))
        seen = tool("dexasm-corpus", "refused", "c.db", at=at)
        self.check_equal("refused of strangers", seen[1], Has("TooShort") & Lacks(ESC))
        self.added("what isn't there", at, "c.db", f"{ESC}none", want=3, says="dexasm-corpus: \\x1bnone: No such file")
        self.added("strictly", at, "--strict", "c.db", "d/empty.dex", want=0)
        self.added("strictly, anew", at, "--strict", "new.db", "d/empty.dex", want=1)

    def test_shapes(self) -> None:
        """What is meant to be slow, in small: each ends as a row."""
        at = room("corpus shapes")
        os.mkdir(os.path.join(at, "d"))
        shape: Callable[[int], Any]  # (it makes a listing's text, or a File)
        for shape, many in shapes.SHAPES:
            write_shape(shape(many // 16), os.path.join(at, "d"), f"{shape.__name__}.dex")
        self.added("what is meant to be slow", at, "--seconds", "2", "--memory", "400M", "c.db", "d")
        found = dict(rows(at, "select path, status from path join file on id = file"))
        self.check_equal("shapes", set(found), {f"d/{shape.__name__}.dex" for shape, _ in shapes.SHAPES})

    def test_limits(self) -> None:
        """Time and memory: of each file, and of those in an archive the others go on. Then once more."""
        at, file = room("corpus limits"), assembled(LISTING)
        put(at, "slow.apk", archive(("classes.dex", slow()), ("classes2.dex", file)))
        write_shape(shapes.calls(32000), at, "huge.dex")
        self.added("past the limit of time", at, "--seconds", "0.1", "c.db", "slow.apk")
        self.added("past the limit of memory", at, "--memory", "300M", "c.db", "huge.dex")
        found = dict(rows(at, "select path || entry, status from path join file on id = file"))
        want = {"slow.apkclasses.dex": "time", "slow.apkclasses2.dex": "ok", "huge.dex": "memory"}
        self.check_equal("limits", found, want)
        self.added("past limits, twice", at, "--seconds", "60", "--memory", "300M", "c.db", "slow.apk", "huge.dex")
        self.check_equal("what was in isn't looked at again",
                         dict(rows(at, "select path || entry, status from path join file on id = file")), want)
        self.added("past limits, --again", at, "--again", "c.db", "slow.apk")
        found = dict(rows(at, "select path || entry, status from path join file on id = file"))
        self.check_equal("--again", found, {**want, "slow.apkclasses.dex": "ok"})

    def test_answers(self) -> None:
        at = room("corpus answers")
        first, second = programs(at)
        self.added("a folder", at, "c.db", "f")
        sha: Callable[[bytes], str] = lambda given: hashlib.sha256(given).hexdigest()
        files = dict(rows(at, "select lower(hex(sha256)), status from file"))
        want: dict[str, str] | list[tuple[Any, ...]]
        want = {sha(one): "ok" for one in (first, second, get(at, "f/d.dex"))}
        want |= {sha(one): "refused" for one in (first[:-1], second[:40])}
        self.check_equal("files", files, want)
        stripped = {found for found, in rows(at, "select lower(hex(sha256)) from program")}
        self.check_equal("programs", stripped, {sha(dexasm("strip", given=get(at, f"f/{one}.dex"))) for one in "acd"})
        listing = dexasm("list", given=first).decode()
        text = listing[listing.index("class Ll/B;") :]
        found = asked(at, "classes", "c.db")
        other = listing[len(HEAD) : listing.index("class Ll/B;")]
        want = [("Ll/B;", sha(text.encode()), 3), ("Ll/A;", sha(other.encode()), 2)]
        self.check_equal("classes", [tuple(row.values()) for row in found], want)
        found = asked(at, "refused", "c.db")
        self.check_equal("refused", [(row["fault"], row["name"], row["files"]) for row in found],
                         [(1, "TooShort", 1), (4, "FileSize", 1)])
        found = asked(at, "callers", "c.db", "Ll/B;->take(Ljava/lang/String;)V")
        want = [("Ll/A;->m()V", 2, path) for path in ("f/a.dex", "f/b.dex", "f/c.dex", "f/d.dex", "f/x.apk")]
        self.check_equal("callers", [(row["caller"], row["places"], row["path"]) for row in found], want)
        self.check_equal("callers by a pattern", asked(at, "callers", "--pattern", "c.db", "Ll/[B];->*"), found)
        found = [(row["member"], row["path"]) for row in asked(at, "strings", "c.db", "key")]
        self.check_equal("strings", (found, len(found)), (Has(("Lapp/Main;->k:Ljava/lang/String;", "f/d.dex")), 6))
        found = asked(at, "classes", "c.db", "Lapp/Main;")
        self.check_equal("a class", [(row["superclass"], row["flags"], row["path"]) for row in found],
                         [("Ll/A;", 1, "f/d.dex")])
        seen = tool("dexasm-corpus", "callers", "--csv", "c.db", "Ll/B;->take(Ljava/lang/String;)V", at=at)
        self.check_equal("--csv", [row[3] for row in csv.reader(io.StringIO(seen[1]))][:2], ["path", "f/a.dex"])
        put(at, "g.dex", padded(first))
        self.added("one program once more", at, "c.db", "g.dex")
        found = [row["path"] + row["entry"] for row in asked(at, "same", "c.db")]
        self.check_equal("same", sorted(found), ["f/a.dex", "f/b.dex", "f/x.apkclasses.dex", "g.dex"])

    def test_same(self) -> None:
        """Copies to the byte are one program at several paths, whatever these are called, in each form; what stands at
        one path, or is refused, isn't there."""
        at, copy, one, names = room("corpus same"), assembled(LISTING), assembled(HEAD + APP), [*NAMES, "=1+1", WIDE]
        for name in names:
            put(at, f"{name}.dex", copy)
        puts(at, {
            "two.apk": archive(("classes.dex", copy), ("classes2.dex", copy)), "other.dex": padded(copy),
            "alone.dex": one, "cut1.dex": copy[:-1], "cut2.dex": copy[:-1]
        })
        shell("printf '%s\\0' * | dexasm-corpus add --processes 1 c.db - && dexasm-corpus merge m.db c.db", at)
        sha: Callable[[bytes], str] = lambda given: hashlib.sha256(given).hexdigest()
        program, entries = sha(dexasm("strip", given=copy)), [("two.apk", "classes.dex"), ("two.apk", "classes2.dex")]
        want = [
            (program, sha(copy), len(copy), *place) for place in [*((f"{name}.dex", "") for name in names), *entries]
        ]
        want.append((program, sha(get(at, "other.dex")), len(copy) + 4, "other.dex", ""))
        found: list[Any]
        for file in ("c.db", "m.db"):
            found = [tuple(row.values()) for row in asked(at, "same", file)]
            self.check_equal(f"same, copies in {file}", sorted(found), sorted(want))
            self.check_equal(f"same, copies together in {file}", found, sorted(found))
        seen = tool("dexasm-corpus", "same", "c.db", at=at)
        self.check_equal("same, a line for each copy", (seen, seen[1].count("\n")),
                         ((0, Lacks(ESC) & Has("\\x1b[31mred.dex"), ""), len(want) + 1))
        for form, before in (("--csv", "'"), ("--csv-raw", "")):
            seen = tool("dexasm-corpus", "same", form, "c.db", at=at)
            head, *found = csv.reader(io.StringIO(seen[1].encode("latin1").decode("utf8")))
            cells = {row[3] for row in found}
            self.check_equal(f"same {form}",
                             ({f"{before}=1+1.dex", f"{before}{WIDE}.dex", f"{before}-x.dex", "\\x1b[31mred.dex"}, head,
                              len(found), seen[1]),
                             (Below(cells), ["program", "file", "size", "path", "entry"], len(want), Lacks(ESC)))
        self.added("alone", at, "alone.db", "alone.dex")
        self.check_equal("same, of one file at one path", asked(at, "same", "alone.db"), [])
        os.link(os.path.join(at, "alone.dex"), os.path.join(at, "copy.dex"))
        self.added("alone, twice", at, "alone.db", "alone.dex", "copy.dex", "copy.dex", "./copy.dex")
        found = [row["path"] for row in asked(at, "same", "alone.db")]
        self.check_equal("same, a path that is added twice", found, ["./copy.dex", "alone.dex", "copy.dex"])

    def test_order(self) -> None:
        """The same content in whatever order, by however many workers, in parts that are merged."""
        at = room("corpus order")
        programs(at)
        strange(at)
        self.added("all", at, "--processes", "3", "--memory", "300M", "c.db", "f", "d")
        want = sums(at)
        self.check_equal("sum", (isinstance(want, dict), set(want), want["call"][0]), (True, {*ALL, "all"}, Above(0)))
        self.added("all, twice", at, "--memory", "300M", "c.db", "d", "f")
        self.check_equal("twice", sums(at), want)
        paths = b"\0".join(os.fsencode(f"f/{name}") for name in sorted(os.listdir(os.path.join(at, "f")), reverse=True))
        self.added("half", at, "--processes", "1", "one.db", "-", given=paths)
        self.added("other half", at, "--memory", "300M", "two.db", "d")
        for order in (("one.db", "two.db"), ("two.db", "one.db", "one.db")):
            file = f"{len(order)}.db"
            seen = tool("dexasm-corpus", "merge", file, *order, at=at)
            self.check_equal(f"merge {order}", (seen, sums(at, file)), ((0, "", ""), want))
        db = sqlite3.connect(os.path.join(at, "2.db"))
        db.execute("update member set flags = flags + 1 where kind = 'v'")
        db.commit()
        db.close()
        changed = sums(at, "2.db")
        self.check_equal("a sum tells what changed", {table for table in want if changed[table] != want[table]},
                         {"member", "all"})

    def test_libraries(self) -> None:
        """Classes of a known library that stayed the same, that changed, and that aren't there."""
        at = room("corpus libraries")
        other = (LIBRARY % 5).replace(b"Ll/", b"Lk/")
        puts(at, {
            "known/l.dex": assembled(HEAD + LIBRARY % 1), "known/k.dex": assembled(HEAD + other),
            "apps/one.dex": assembled(HEAD + LIBRARY % 2 + APP),
            "apps/two.dex": assembled(HEAD + LIBRARY % 1 + APP + other.partition(b"class Lk/B;")[0]),
            "apps/none.dex": assembled(HEAD + APP)
        })
        self.added("libraries", at, "known.db", "known")
        self.added("apps", at, "c.db", "apps")
        found: list[Any]
        found = [tuple(row.values()) for row in asked(at, "libraries", "--known", "known.db", "c.db")]
        want: list[tuple[Any, ...]]
        want = [("apps/one.dex", "", "known/l.dex", "", 1, 1, 0, 50.0),
                ("apps/two.dex", "", "known/l.dex", "", 2, 0, 0, 100.0),
                ("apps/two.dex", "", "known/k.dex", "", 1, 0, 1, 50.0)]
        self.check_equal("libraries", found, want)
        found = asked(at, "libraries", "--classes", "--known", "known.db", "c.db")
        found = [(row["path"], row["class"], row["state"]) for row in found]
        want = [("one", "Ll/A;", "changed"), ("one", "Ll/B;", "same"), ("two", "Lk/A;", "same")]
        want += [("two", "Lk/B;", "missing"), ("two", "Ll/A;", "same"), ("two", "Ll/B;", "same")]
        self.check_equal("libraries by class", found, [(f"apps/{one}.dex", *rest) for one, *rest in want])

    def test_wrong(self) -> None:
        """Other programs' databases, files that are none, and words."""
        at = room("corpus wrong", {
            "a.dex": assembled(LISTING),
            "text.db": b"no database, but long enough to be looked at as if it were one " * 40
        })
        newer = "pragma application_id = 1685611361; pragma user_version = 99; create table t(x)"
        older = "pragma application_id = 1685611361; pragma user_version = 1; create table name(id integer primary key)"
        empty = "pragma application_id = 7"
        words: str | tuple[str, ...]
        for file, words in (
            ("other.db", "create table t(x)"), ("newer.db", newer), ("older.db", older), ("empty.db", empty)
        ):
            db = sqlite3.connect(os.path.join(at, file))
            db.executescript(words)
            db.close()
        for file, says in (
            ("other.db", "other.db: no database of dexasm-corpus"),
            ("empty.db", "empty.db: no database of dexasm-corpus"),
            ("newer.db", "newer.db: its tables are of version 99"),
            ("older.db",
             "older.db: its tables are of version 1, and those of this dexasm-corpus of version 2: make a new one"),
            ("text.db", "text.db: file is not a database"),
        ):
            before = get(at, file)
            self.added(file, at, file, "a.dex", want=3, says=f"dexasm-corpus: {says}")
            seen = tool("dexasm-corpus", "same", file, at=at)
            self.check_equal(f"same of {file}", seen, (3, "", Line(f"dexasm-corpus: {says}")))
            self.check_equal(f"{file} stays", get(at, file), before)
        seen = tool("dexasm-corpus", "same", f"{ESC}none", at=at)
        self.check_equal("no database", seen, (3, "", Line("dexasm-corpus: \\x1bnone: no such database")))
        self.check("a query makes none", not os.path.exists(os.path.join(at, f"{ESC}none")))
        self.added("a folder that isn't there", at, "no/c.db", "a.dex", want=3,
                   says="dexasm-corpus: no/c.db: unable to open")
        self.added("no dexasm", at, "c.db", "a.dex", want=3, says="dexasm-corpus: a worker doesn't start: ",
                   DEXASM_LIBRARY="/none.so")
        for words in (
            (), ("add",), ("add", "c.db"), ("add", "--memory", "x", "c.db", "a.dex"),
            ("add", "--seconds", "nan", "c.db", "a.dex"), ("add", "--seconds", "1e9", "c.db", "a.dex"),
            ("add", "--send", "c.db", "a.dex"), ("add", "--scheduler", "", "c.db", "a.dex"), ("what", "c.db"), ("same",)
        ):
            seen = tool("dexasm-corpus", *words, at=at)
            self.check_equal(f"words {words}", seen, (2, "", Begins("usage: dexasm-corpus add ")))

    def test_page(self) -> None:
        """Each query of the page runs as it is, over a corpus that has something for it."""
        at = room("corpus page")
        programs(at)
        put(at, "g.dex", padded(get(at, "f/a.dex")))
        self.added("for RECIPES", at, "corpus.db", "f", "g.dex")
        found = re.findall(r"^ask \"([^\"]*)\"", get(TOP, "docs/corpus-queries.sh").decode(), re.M)
        self.check_equal("RECIPES: queries of a corpus", len(found), 9)
        for words in found:
            self.check_equal(f"RECIPES: {words[:60]}", len(rows(at, words, "corpus.db")), Above(0))
        schema = get(TOP, "docs/corpus.sql").decode()
        made = sorted(words for words, in rows(at, "select sql from sqlite_master where sql is not null", "corpus.db"))
        plain: Callable[[list[str]], list[str]] = lambda words: sorted(
            re.sub(r"\s+", " ", one).strip().lower() for one in words if one.strip()
        )
        told = plain(re.sub(r"--.*", "", schema).split(";"))
        self.check_equal("CORPUS: its tables are those of a database", told, plain(made))

    def test_recipes(self) -> None:
        """The commands of RECIPES as they stand there, in a folder of evil names, but for those of a batch system."""
        at, recipes = os.path.join(room("corpus recipes"), "d"), blocks("docs/RECIPES.md")["A corpus"]
        put(at, "a.dex", assembled(TEXT))
        for name in NAMES:
            put(at, f"{name}.dex", assembled(TEXT))
        status, out, said = shell(recipes[0], at)
        wants = f"{len(NAMES) + 1} paths, 0 not read; 1 new files", "LHello;->ask()V", "the answer,LHello;->name:", "a.dex", "same"
        self.check_equal("RECIPES: a corpus", (status, said, [word for word in wants if word not in out]), (0, "", []))
        self.check_equal("RECIPES: a corpus, no name is obeyed", (os.listdir(at), out), (Lacks("PWNED"), Lacks(ESC)))
