-- The tables of a database of dexasm-corpus; docs/CORPUS.md explains them.
create table word(id integer primary key, hash integer not null, text text not null);   -- LA;  m(I)V  f:I
create table name(id integer primary key, class integer not null references word,
  member integer not null references word, unique(class, member));
create table string(id integer primary key, hash integer not null, text text not null);
create table program(id integer primary key, sha256 blob not null unique, size integer not null);   -- stripped
create table file(id integer primary key, sha256 blob not null unique, size integer not null, status text not null,
  fault integer, fault_name text, place integer, program integer references program);
create table path(file integer not null references file, path not null, entry text not null,
  primary key(file, path, entry)) without rowid;
create table unread(path not null, entry text not null, status text not null, reason text not null,
  primary key(path, entry)) without rowid;
create table class(id integer primary key, sha256 blob not null, name integer not null references word,
  superclass integer references word, flags integer not null);
create table has(program integer not null references program, class integer not null references class,
  primary key(program, class)) without rowid;
create table member(class integer not null references class, name integer not null references name,
  kind text not null, flags integer not null, primary key(class, name, kind)) without rowid;
create table call(class integer not null references class, caller integer not null references name,
  callee integer not null references name, places integer not null,
  primary key(class, caller, callee)) without rowid;
create table use(class integer not null references class, member integer not null references name,
  string integer not null references string, places integer not null,
  primary key(class, member, string)) without rowid;
create index word_by_hash on word(hash);
create index string_by_hash on string(hash);
create index path_by_path on path(path);
create index file_of_program on file(program) where program is not null;
create index file_by_fault on file(fault, status) where status <> 'ok';
create index class_by_sha256 on class(substr(sha256, 1, 8));
create index class_by_name on class(name);
create index class_in_program on has(class);
create index member_by_name on member(name);
create index call_by_callee on call(callee);
create index use_by_string on use(string);
create view spelled as select n.id, c.text || '->' || m.text text
  from name n join word c on c.id = class join word m on m.id = member;
