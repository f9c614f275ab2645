"""The queries of dexasm-corpus: each answers the heads of its columns, and the rows."""
from __future__ import annotations

import sqlite3
from collections.abc import Callable, Iterable
from typing import Any

from dexasm.cli.errors import CliError
from dexasm.cli.sanitize import escaped
from dexasm.corpus.database import MEMBER, TYPE, WRONG, attached, connected, digest, is_damaged, why

Answer = tuple[list[str], Iterable[tuple[Any, ...]]]

REFUSED = """
select status, fault, fault_name, count(distinct f.id), min(path), entry from file f left join path on file = f.id
where status <> 'ok' group by status, fault, fault_name
union all select 'unread, ' || status, null, reason, count(*), min(path), entry from unread group by status, reason
order by 4 desc, 1, 2, 3
"""
SAME = """
select lower(hex(p.sha256)), lower(hex(f.sha256)), f.size, path, entry from program p
join file f on f.program = p.id left join path on path.file = f.id
where p.id in (select program from file left join path on path.file = file.id where program is not null
  group by program having count(*) > 1)
order by 1, 2, 4, 5
"""
SEVERAL = f"""
select {TYPE.format("c.name")}, lower(hex(sha256)), count(*) programs from has join class c on c.id = class
group by class having programs > 1 order by 3 desc, 1, 2
"""
CLASS = f"""
select {TYPE.format("c.name")}, lower(hex(c.sha256)), {TYPE.format("c.superclass")}, c.flags, path, entry from class c
join has on class = c.id join file f on f.program = has.program join path on path.file = f.id
where c.name = ? order by 2, 5, 6
"""
CALLERS = f"""
select {MEMBER.format("callee")}, {MEMBER.format("caller")}, places, path, entry from call
join has on has.class = call.class join file f on f.program = has.program join path on path.file = f.id
where callee {{}} order by 1, 2, 4, 5
"""
STRINGS = f"""
select s.text, {MEMBER.format("member")}, places, path, entry from string s join use on string = s.id
join has on has.class = use.class join file f on f.program = has.program join path on path.file = f.id
where {{}} order by 1, 2, 4, 5
"""
FIND = "select id from word where hash = ? and text = ?"
# Of each known program and each class of it the programs that have this class, and those that have one of its name.
# (`cross join` keeps the order, from the smaller database on.)
KNOWN = """
create temp table same(program integer, library integer, class integer, primary key(program, library, class))
  without rowid;
create temp table named(program integer, library integer, class integer, primary key(program, library, class))
  without rowid;
insert or ignore into same select h.program, k.program, k.class from known.has k
  cross join known.class kc on kc.id = k.class cross join main.class c on substr(c.sha256, 1, 8) = substr(kc.sha256, 1, 8)
  and c.sha256 = kc.sha256
  cross join main.has h on h.class = c.id;
create temp table pair as select distinct program, library from same;
create unique index temp.pairs on pair(library, program);
insert or ignore into named select h.program, k.program, k.class from known.has k
  cross join known.class kc on kc.id = k.class cross join known.word kw on kw.id = kc.name
  cross join main.word w on w.hash = digest(kw.text) and w.text = kw.text cross join main.class c on c.name = w.id
  cross join main.has h on h.class = c.id cross join pair on pair.library = k.program and pair.program = h.program;
create temp table placed as select program library, min(path) path, entry from known.file
  join known.path on known.path.file = known.file.id where program is not null group by program;
"""
LIBRARIES = """
with alike as (select program, library, count(*) count from same group by 1, 2),
called as (select program, library, count(*) count from named group by 1, 2),
whole as (select program library, count(*) count from known.has group by 1)
select a.path, a.entry, l.path, l.entry, alike.count, called.count - alike.count, whole.count - called.count,
round(100.0 * alike.count / whole.count, 1) from alike join called using(program, library) join whole using(library)
join placed l using(library) join main.file f on f.program = alike.program join main.path a on a.file = f.id
order by 1, 2, 5 desc, 3, 4
"""
BY_CLASS = """
select a.path, a.entry, l.path, l.entry, n.text,
case when same.class is not null then 'same' when named.class is not null then 'changed' else 'missing' end
from pair p cross join placed l on l.library = p.library cross join main.file f on f.program = p.program
cross join main.path a on a.file = f.id cross join known.has k on k.program = p.library
cross join known.class c on c.id = k.class cross join known.word n on n.id = c.name
left join same on same.program = p.program and same.library = p.library and same.class = k.class
left join named on named.program = p.program and named.library = p.library and named.class = k.class
order by 1, 2, 3, 4, 5
"""


def spelled(word: str, is_name: bool) -> str:
    """A word as a listing spells it: a name, or a string without its quotes."""
    if word.isascii() and word.isprintable() and not set(word) & set('\\" '):
        return word
    from dexasm import names

    return names.spelled(word) if is_name else names.quoted(word)[1:-1]


def word_of(db: sqlite3.Connection, word: str) -> int | None:
    """The number of a type, or of a member without its class, that a database has."""
    found = db.execute(FIND, (digest(word), word)).fetchone()
    return found and int(found[0])


def name_of(db: sqlite3.Connection, name: str) -> int | None:
    """The number of a member that a database has."""
    owner, _, member = spelled(name, True).partition("->")
    found = db.execute("select id from name where class = ? and member = ?", (word_of(db, owner), word_of(db, member)))
    row = found.fetchone()
    return row and int(row[0])


def classes(db: sqlite3.Connection, options: Any) -> Answer:
    if options.name is None:
        return ["class", "sha256", "programs"], db.execute(SEVERAL)
    return ["class", "sha256", "superclass", "flags", "path", "entry"], db.execute(
        CLASS, (word_of(db, spelled(options.name, True)),)
    )


def callers(db: sqlite3.Connection, options: Any) -> Answer:
    if options.pattern:
        rows = db.execute(
            CALLERS.format("in (select id from spelled where text glob ?)"), (spelled(options.word, True),)
        )
    else:
        rows = db.execute(CALLERS.format("= ?"), (name_of(db, options.word),))
    return ["method", "caller", "places", "path", "entry"], rows


def strings(db: sqlite3.Connection, options: Any) -> Answer:
    text = spelled(options.word, False)
    if options.pattern:
        rows = db.execute(STRINGS.format("s.text glob ?"), (text,))
    else:
        rows = db.execute(STRINGS.format("s.hash = ? and s.text = ?"), (digest(text), text))
    return ["string", "member", "places", "path", "entry"], rows


def libraries(db: sqlite3.Connection, options: Any) -> Answer:
    connected(options.known).close()
    try:
        with attached(db, options.known, "known"):
            for statement in KNOWN.split(";")[:-1]:
                db.execute(statement)
            rows = db.execute(BY_CLASS if options.classes else LIBRARIES).fetchall()
    except WRONG as error:
        raise CliError(
            f"{escaped(options.known if is_damaged(options.known) else options.database)}: {why(error)}"
        ) from None
    heads = ["path", "entry", "library", "library_entry"]
    return [*heads, *(("class", "state") if options.classes else ("same", "changed", "missing", "percent"))], rows


QUERIES: dict[str, Callable[[sqlite3.Connection, Any], Answer]] = {
    "refused": lambda db, _: (["status", "fault", "name", "files", "first", "entry"], db.execute(REFUSED)),
    "same": lambda db, _: (["program", "file", "size", "path", "entry"], db.execute(SAME)),
    "classes": classes,
    "callers": callers,
    "strings": strings,
    "libraries": libraries,
}
