#!/usr/bin/env bash
ask() { sqlite3 -readonly -cmd '.mode tcl' corpus.db "$1"; }
# files by status
ask "select status, count(*), sum(size) from file group by status"
# refused files with the place of their fault
ask "select path, fault_name, place from file join path on file = id
  where status = 'refused'"
# names of classes that have several texts
ask "select text, count(*) from class c join word n on n.id = name
  group by name having count(*) > 1"
# the classes that most programs have
ask "select text, count(*) from has join class c on c.id = class join word n on n.id = name
  group by class order by 2 desc limit 20"
# subclasses of a class
ask "select distinct n.text from class join word s on s.id = superclass
  join word n on n.id = name where s.text = 'Ll/A;'"
# which files call methods of a package
ask "select distinct path, text from spelled n join call on callee = n.id
  join has h on h.class = call.class join file f on f.program = h.program join path on file = f.id
  where text glob 'Ll/*'"
# methods that a class declares native or abstract (flags 0x100, 0x400), or static ones (0x8)
ask "select text from member m join spelled n on n.id = m.name
  where kind in ('d', 'v') and flags & 0x508"
# classes that one program has and another one hasn't
ask "select text from has join class c on c.id = class join word n on n.id = name
  where program = (select program from file join path on file = id where path = 'f/d.dex')
  and class not in (select class from has
    where program = (select program from file join path on file = id where path = 'f/a.dex'))"
# pairs of programs by the classes that they share
ask "select a.program, b.program, count(*) from has a join has b using(class)
  where a.program < b.program group by 1, 2 order by 3 desc limit 20"
