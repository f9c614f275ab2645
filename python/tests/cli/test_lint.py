"""dexasm-lint: the cases of ART 14's own test of its verifier, written anew from what they are, and hostile files.

A row of ROWS has a test's name, what it is about, how many cases of it ART has, the rule that has to be told of each or
None where ART takes the file (made version 035, its sums right), and the classes. They are all in one listing. What a
listing can't say stands in `changed_files`.
"""
import itertools
import os
import re
from collections.abc import Callable, Iterator

from tests.matchers import Begins, Has, Lacks
from .patched_files import (
    CLASSES, FIELDS, MAP_OFF, METHODS, PROTOS, STRINGS, TYPES, Patched, PatchedTest, Place, code, map_entry, swapped,
    with_interface, with_number, with_super
)
from .support import ESC, HEAD, NAMES, TOP, Line, assembled, dexasm, get, put, puts, room, tool

PUBLIC, PRIVATE, PROTECTED, STATIC, FINAL, SYNCHRONIZED = 1, 2, 4, 8, 0x10, 0x20
BRIDGE = VOLATILE = 0x40
VARARGS = TRANSIENT = 0x80
NATIVE, INTERFACE, ABSTRACT, STRICT, SYNTHETIC, ENUM = 0x100, 0x200, 0x400, 0x800, 0x1000, 0x4000
CONSTRUCTOR, DECLARED_SYNCHRONIZED = 0x10000, 0x20000
ONE_OF = "one-of-public-protected-private"
CODE = "code 1 1 0\nreturn-void\nend code\n"
SEVERAL = (PRIVATE | PROTECTED, PRIVATE | PUBLIC, PROTECTED | PUBLIC, PRIVATE | PROTECTED | PUBLIC)
IGNORED_OF_METHODS = 0xFFFF & ~0x1DFF
IGNORED_OF_FIELDS = 0xFFFF & ~(0xDF | SYNTHETIC | ENUM)
ALL = 165  # cases of ART's test

Body = tuple[int, str]  # a class's flags and its members
Flags = int | tuple[int, None]  # of a method, which with None has no code


def methods(flags: int = PUBLIC, /, **changed: Flags) -> Body:
    """The class MethodFlags: a change is a method's flags, or these and None where it has no code."""
    of = {"clinit": CONSTRUCTOR | STATIC, "init": CONSTRUCTOR | PUBLIC, "foo": PRIVATE, "bar": PUBLIC} | changed
    lines = []
    for name, one in of.items():
        bits, has_code = (one[0], False) if isinstance(one, tuple) else (one, True)
        kind, text = "virtual" if name == "bar" else "direct", f"<{name}>" if name.endswith("init") else name
        code = CODE.replace("1 1", "1 0") if bits & STATIC else CODE
        lines.append(f"{kind} {text} ()V {bits:#x}\n{code * has_code}")
    return flags, "".join(lines)


def interface(foo: int, has_code: bool = False) -> Body:
    """The interface InterfaceMethodFlags."""
    clinit = f"direct <clinit> ()V {CONSTRUCTOR | STATIC:#x}\n{CODE.replace('1 1', '1 0')}"
    return PUBLIC | INTERFACE | ABSTRACT, f"{clinit}virtual foo ()V {foo:#x}\n{CODE * has_code}"


def fields(foo: int = PUBLIC, bar: int = PUBLIC | STATIC) -> Body:
    """The class FieldFlags."""
    return PUBLIC, f"instance foo I {foo:#x}\nstatic bar I {bar:#x}\n"


def interface_field(flags: int, kind: str = "static") -> Body:
    return PUBLIC | INTERFACE | ABSTRACT, f"{kind} foo I {flags:#x}\n"


def named(kind: str, name: str, proto: str, flags: int, code: str = CODE) -> Body:
    return PUBLIC, f"{kind} {name} {proto} {flags:#x}\n{code}"


def sums(*bits: int) -> list[int]:
    """Each sum of some of the bits."""
    return [sum(some) for count in range(1, len(bits) + 1) for some in itertools.combinations(bits, count)]


BOTH = ("clinit", "init")
FIXED = {"clinit": CONSTRUCTOR | STATIC, "init": CONSTRUCTOR | PUBLIC, "foo": PRIVATE, "bar": PUBLIC}
INTERFACE_FIELD = PUBLIC | STATIC | FINAL
ROWS: tuple[tuple[str, str, int, str | None, list[Body]], ...] = (
    ("InitCachingWithUnicode", "OK", 1, None,
     [named("direct", r"\u00e9\ud83d\ude00", "()V", STATIC, CODE.replace("1 1", "1 0"))]),
    ("MethodAccessFlagsBase", "OK", 1, None, [methods(), methods(foo=PRIVATE | DECLARED_SYNCHRONIZED)]),
    ("MethodAccessFlagsConstructors", "OK", 8, None,
     [methods(init=PUBLIC, clinit=STATIC)]
     + [methods(init=CONSTRUCTOR | one) for one in (0, PRIVATE, PROTECTED, PUBLIC, STRICT, VARARGS, SYNTHETIC)]),
    ("MethodAccessFlagsConstructors", "has code, but is marked native or abstract", 4, "code-unwanted",
     [methods(**{name: FIXED[name] | bit}) for name in BOTH for bit in (NATIVE, ABSTRACT)]),
    ("MethodAccessFlagsConstructors", "has no code, but is not marked native or abstract", 2, "code-missing",
     [methods(**{name: (FIXED[name], None)}) for name in BOTH]),
    ("MethodAccessFlagsConstructors", "must not be abstract or native", 3, None,
     [methods(clinit=(FIXED["clinit"] | NATIVE, None))]
     + [methods(init=(FIXED["init"] | bit, None)) for bit in (NATIVE, ABSTRACT)]),
    ("MethodAccessFlagsConstructors", "must not be abstract or native, and static", 1, "abstract-flags",
     [methods(clinit=(FIXED["clinit"] | ABSTRACT, None))]),
    ("MethodAccessFlagsConstructors", "only one of public/protected/private", 4, ONE_OF,
     [methods(init=CONSTRUCTOR | several) for several in SEVERAL]),
    ("MethodAccessFlagsConstructors", "not flagged correctly wrt/ static", 1, "init-flags",
     [methods(init=CONSTRUCTOR | STATIC)]),
    ("MethodAccessFlagsConstructors", "flagged inappropriately", 3, "init-flags",
     [methods(init=CONSTRUCTOR | bit) for bit in (FINAL, SYNCHRONIZED, BRIDGE)]),
    ("MethodAccessFlagsMethods", "is marked constructor, but doesn't match name", 2, "constructor-flag",
     [methods(**{name: FIXED[name] | CONSTRUCTOR}) for name in ("foo", "bar")]),
    ("MethodAccessFlagsMethods", "has code, but is marked native or abstract", 4, "code-unwanted",
     [methods(**{name: FIXED[name] | bit}) for name in ("foo", "bar") for bit in (NATIVE, ABSTRACT)]),
    ("MethodAccessFlagsMethods", "has no code, but is not marked native or abstract", 2, "code-missing",
     [methods(**{name: (FIXED[name], None)}) for name in ("foo", "bar")]),
    ("MethodAccessFlagsMethods", "has disallowed access flags", 12, "abstract-flags",
     [methods(**{name: (FIXED[name] | ABSTRACT | bit, None)})
      for name, bits in (("foo", (PRIVATE, STATIC)), ("bar", (FINAL, FINAL | SYNTHETIC)))
      for bit in (*bits, FINAL, NATIVE, STRICT, SYNCHRONIZED)]),
    ("MethodAccessFlagsMethods", "only one of public/protected/private", 8, ONE_OF,
     [methods(**{name: several}) for name in ("foo", "bar") for several in SEVERAL]),
    ("MethodAccessFlagsIgnoredOK", "OK", 4, None,
     [methods(**{name: FIXED[name] | IGNORED_OF_METHODS}) for name in FIXED]),
    ("B28552165", "only one of public/protected/private", 1, ONE_OF, [methods(foo=PRIVATE | PUBLIC | PROTECTED)]),
    ("MethodAccessFlagsInterfaces", "OK", 5, None,
     [interface(PUBLIC | ABSTRACT | bits) for bits in (0, VARARGS, BRIDGE, SYNTHETIC, DECLARED_SYNCHRONIZED)]),
    ("MethodAccessFlagsInterfaces", "is not public", 3, None,
     [interface(ABSTRACT), interface(PROTECTED | ABSTRACT), interface(0, True)]),
    ("MethodAccessFlagsInterfaces", "has no code, but is not marked native or abstract", 1, "code-missing",
     [interface(PUBLIC)]),
    ("MethodAccessFlagsInterfaces", "not in expected list 0", 2, "method-list",
     [interface(PUBLIC | ABSTRACT | STATIC), interface(PRIVATE | ABSTRACT)]),
    ("MethodAccessFlagsInterfaces", "has disallowed access flags", 15, "abstract-flags",
     [interface(PUBLIC | ABSTRACT | bits) for bits in sums(FINAL, SYNCHRONIZED, NATIVE, STRICT)]),
    ("FieldAccessFlagsBase", "OK", 1, None, [fields()]),
    ("FieldAccessFlagsWrongList", "not in expected list", 2, "field-list",
     [fields(foo=PUBLIC | STATIC), fields(bar=PUBLIC)]),
    ("FieldAccessFlagsPPP", "OK", 2, None, [fields(foo=0), fields(bar=STATIC)]),
    ("FieldAccessFlagsPPP", "only one of public/protected/private", 8, ONE_OF,
     [one for several in SEVERAL for one in (fields(foo=several), fields(bar=STATIC | several))]),
    ("FieldAccessFlagsIgnoredOK", "OK", 2, None,
     [fields(foo=PUBLIC | IGNORED_OF_FIELDS), fields(bar=PUBLIC | STATIC | IGNORED_OF_FIELDS)]),
    ("FieldAccessFlagsVolatileFinal", "may not be volatile and final", 2, "volatile-and-final",
     [fields(foo=PUBLIC | VOLATILE | FINAL), fields(bar=PUBLIC | STATIC | VOLATILE | FINAL)]),
    ("FieldAccessFlagsInterface", "OK", 14, None,
     [interface_field(INTERFACE_FIELD | bits) for bits in (0, SYNTHETIC, *sums(VOLATILE, TRANSIENT, ENUM))]
     + [interface_field(STATIC | bits) for bits in (FINAL, PUBLIC, PROTECTED | FINAL, PRIVATE | FINAL, SYNTHETIC)]),
    ("FieldAccessFlagsInterface", "is not public final static", 4, None,
     [interface_field(STATIC | bits) for bits in (FINAL, PUBLIC, PROTECTED | FINAL, PRIVATE | FINAL)]),
    ("FieldAccessFlagsInterface", "has disallowed flag", 7, None,
     [interface_field(INTERFACE_FIELD | bits) for bits in sums(VOLATILE, TRANSIENT, ENUM)]),
    ("FieldAccessFlagsInterfaceNonStatic", "OK", 1, None, [interface_field(PUBLIC | FINAL, "instance")]),
    ("FieldAccessFlagsInterfaceNonStatic", "is not public final static", 1, None,
     [interface_field(PUBLIC | FINAL | SYNTHETIC, "instance")]),
    ("BadStaticMethodName", "Bad method name", 1, "method-name",
     [named("direct", "<bad_name>", "(II)V", PUBLIC | STATIC, CODE.replace("1 1", "2 2"))]),
    ("BadVirtualMethodName", "Bad method name", 1, "method-name",
     [named("virtual", "<bad_name>", "(II)V", PUBLIC, CODE.replace("1 1", "3 3"))]),
    ("BadClinitSignature", "must have descriptor ()V", 1, "constructor-signature",
     [named("direct", "<clinit>", "(II)V", CONSTRUCTOR | STATIC, CODE.replace("1 1", "2 2"))]),
    ("BadClinitSignatureAgain", "must have descriptor ()V", 1, "constructor-signature",
     [named("direct", "<clinit>", "()I", CONSTRUCTOR | STATIC, "code 1 0 0\nreturn v0\nend code\n")]),
    ("BadInitSignature", "must be void", 1, "constructor-signature",
     [named("direct", "<init>", "()I", CONSTRUCTOR | PUBLIC, "code 1 1 0\nreturn v0\nend code\n")]),
    ("BadStaticFieldInitialValuesArray", "unexpected static field initial value type", 1, "value-type",
     [(PUBLIC, 'static c C 0x18 = char 99\nstatic i I 0x18 = string "s"\nstatic s Ljava/lang/String; 0x18 = null\n')]),
    ("GoodStaticFieldInitialValuesArray", "OK", 1, None,
     [(PUBLIC, "static b B 0x18 = byte 1\nstatic c C 0x18 = char 99\nstatic d D 0x18 = double 3fe3333333333333\n"
       "static f F 0x18 = float 3f000000\nstatic i I 0x18 = int 3\nstatic j J 0x18 = long 4\n"
       'static l1 [I 0x18 = null\nstatic l2 Ljava/lang/String; 0x18 = string "s"\n'
       "static l3 Ljava/lang/Class; 0x18 = type Ljava/lang/String;\nstatic s S 0x18 = short 2\n"
       "static z Z 0x18 = true\n")]),
    # What ART's test has no case of, by what its verifier says.
    ("Outs", "outs_size > registers_size", 0, "outs-size",
     [named("virtual", "m", "()V", PUBLIC, CODE.replace("1 1 0", outs)) for outs in ("1 1 6", "6 1 7")]),
    ("Outs", "OK", 0, None,
     [named("virtual", "m", "()V", PUBLIC, CODE.replace("1 1 0", outs)) for outs in ("1 1 5", "6 1 6")]),
    ("Lists", "virtual method with same index as direct method", 0, "in-both-lists",
     [(PUBLIC, f"direct m ()V 0x2\n{CODE}virtual m ()V 0x1\n{CODE}")]),
    ("Flags", "Invalid class flags", 0, "class-flags", [(0x10001, "")]),
    ("Flags", "Bad field access_flags", 0, "field-flags", [fields(foo=0x20001)]),
    ("Flags", "Bad method access_flags", 0, "method-flags", [methods(bar=0x40001)]),
    ("Lists", "in the virtual list", 0, "method-list",
     [(PUBLIC, f"direct m ()V 0x1\n{CODE}"), (PUBLIC, f"virtual <init> ()V 0x1\n{CODE}")]),
    ("Values", "aborts", 0, "value-kind",
     [(PUBLIC, f"static a {type_} 0x18 = {value}\n") for type_, value in (
         ("LX;", "enum LX;->a:LX;"), ("LX;", "field LX;->a:LX;"), ("LX;", "method LX;->a()V"),
         ("[I", "array { int 1 }"), ("I", "array { }"))]),
    ("Values", "types", 0, "value-type",
     [(PUBLIC, f"static a {type_} 0x18 = {value}\n") for type_, value in (
         ("LX;", "int 0"), ("Z", "int 1"), ("I", "true"), ("J", "int 1"), ("I", "null"), ("C", "short 1"),
         ("[I", "byte 1"), ("F", "double 0000000000000000"), ("I", "type LX;"))]),
)  # fmt: skip


def lines_by_class(out: str) -> dict[str | None, set[str | None]]:
    """The rules that were told of each class."""
    told: dict[str | None, set[str | None]] = {}
    for line in out.splitlines():
        found = re.fullmatch(r"cases\.dex: (L\w+;)(?:->\S+)?: ([a-z-]+): .* \(dex-format, \w+\)", line)
        told.setdefault(found[1] if found else None, set()).add(found[2] if found else None)
    return told


class Lint(PatchedTest):
    def test_cases(self) -> None:
        """Each case alone is refused where ART refuses it, for its reason, and not where ART takes it."""
        wants: dict[str, tuple[str, str | None]]
        at, text, wants = room("lint cases"), [HEAD.decode()], {}
        for number, (test, about, count, rule, cases) in enumerate(ROWS):
            self.check(f"as many cases of {test}: {about}", len(cases) >= count, len(cases))
            for which, (flags, body) in enumerate(cases):
                name = f"L{test}{number}x{which};"
                wants[name] = f"{test}, {about}, {which}", rule
                text.append(f"class {name} {flags:#x}\nsuper Ljava/lang/Object;\n{body}end class\n")
        file = assembled("".join(text).encode("ascii"))
        put(at, "cases.dex", file)
        status, out, said = tool("dexasm-lint", "cases.dex", at=at)
        told = lines_by_class(out)
        self.check_equal("all cases", (status, said, set(told) - set(wants)), (1, "", set()))
        for name, (what, rule) in wants.items():
            seen = told.get(name, set())
            self.check_equal(what, seen, Has(rule) if rule else set())
        piped = tool("dexasm-lint", "-", at=at, given=dexasm("strip", given=file))[1]
        self.check_equal("a strip", piped, out.replace("cases.dex", "standard input"))

    def test_superclass(self) -> None:
        """Of all classes java.lang.Object alone has no superclass."""
        at = room("lint superclass")
        classes = b"class Ljava/lang/Object; 0x1\nend class\nclass LB; 0x1\nsuper LA;\nend class\n"
        puts(at, {"good.txt": HEAD + classes, "bad.txt": HEAD + classes + b"class LI; 0x601\nend class\n"})
        said = "a class other than java.lang.Object has no superclass: `super Ljava/lang/Object;` gives it one"
        want = f"good.txt: ok\nbad.txt: LI;: superclass-missing: {said} (dex-format, class_def_item)\n"
        self.check_equal("superclasses", tool("dexasm-lint", "good.txt", "bad.txt", at=at), (1, want, ""))

    def changed_files(self) -> Iterator[tuple[str, bytes, int | None]]:
        """Of each file that a listing can't say: its test or rule, its bytes, and dexasm's fault of it, or None."""
        row: Callable[[int, int], Place] = lambda field, by: lambda one: one.offset(field) + by
        plain = Patched().closed()
        yield from ((f"Checksum {number}", plain, None) for number in range(4))
        # (neither looks at debug information, which ART refuses)
        yield "DebugInfoTypeIdxTest", with_number(lambda one: code(one) + 8, "<I", 0x71), None
        yield "MethodId class", with_number(row(METHODS, 0), "<H", 0xFFFF), 33
        yield "MethodId proto", with_number(row(METHODS, 2), "<H", 0xFFFF), 33
        yield "MethodId name", with_number(row(METHODS, 4), "<I", 0xFFFFFFFF), 33
        for field in (STRINGS, TYPES, PROTOS, FIELDS, METHODS, CLASSES, MAP_OFF):
            fault = 12 if field == MAP_OFF else 10
            yield f"SectionAlignment {field}", with_number(field, "<I", Patched().offset(field) + 1), fault
        for number in range(2):
            yield f"ProtoOrdering {number}", swapped(PROTOS, number, 12), 29
        for what, name in (("itself", b"LA;"), ("one another", b"LB;"), ("circular", b"LC;")):
            yield f"Superclass {what}", with_super(name), 42
            yield f"Interface {what}", with_interface(name), 42
        for number, kind in enumerate((7, 8, 7, 8)):
            yield f"InvokeCustomDexSamples {number}", with_number(map_entry(7 + number), "<H", kind), 13
        yield from self.stricter_files()

    def test_changed(self) -> None:
        """Files that a listing can't say: with dexasm's own refusal, or fine."""
        at, wants = room("lint files"), []
        for number, (what, file, fault) in enumerate(self.changed_files()):
            put(at, f"{number}.dex", file)
            wants.append((f"{number}.dex", what, fault))
        cases = sum(count for _, _, count, _, _ in ROWS) + sum(not what.startswith("stricter") for _, what, _ in wants)
        self.check_equal("all of ART's cases", cases, ALL)
        status, out, said = tool("dexasm-lint", *(name for name, _, _ in wants), at=at)
        told = dict(re.findall(r"^dexasm-lint: (\d+\.dex): dexasm: refused (\d+) \w+ at \d+$", said, re.M))
        self.check_equal("files that are refused", (status, len(told)), (1, said.count("\n")))
        for name, what, fault in wants:
            seen = told.get(name), bool(re.search(rf"^{name}: (?!ok$)", out, re.M))
            # (c's flags are those by which a LEB128 number takes five bytes)
            self.check_equal(what, seen, (str(fault), False) if fault else (None, True))

    def test_hostile(self) -> None:
        """Texts that look like lines, names as long as they can be, marks that turn a terminal's direction."""
        at, long = room("lint hostile"), "m" * 65535
        evil = r"\u2066\u061c"
        text = f"""class L{evil}; 0x1
super Ljava/lang/Object;
source "\\u000adirect foo ()V 0x5"
static code I 0x9
static a Ljava/lang/String; 0x9 = string "\\u000acode 9 9 9 = int"
static direct I 0x9 = int 1
direct class ()V 0x9
code 1 0 0
const-string v0 "\\u000avirtual foo ()V 0x5"
const-string v0 "virtual foo ()V 0x5"
const-string v0 "\\u001b[31m"
return-void
end code
"""
        put(at, "fine.txt", HEAD + f"{text}end class\n".encode())
        seen = tool("dexasm-lint", "fine.txt", at=at)
        self.check_equal("texts that look like lines", seen, (0, "fine.txt: ok\n", ""))
        wrong = "".join(f"virtual {name} ()V 0x5\n{CODE}" for name in (long, evil))
        put(at, "bad.txt", HEAD + f"{text}{wrong}end class\n".encode())
        status, out, said = tool("dexasm-lint", "bad.txt", at=at)
        begins = [f"bad.txt: L{evil};->{name}()V: {ONE_OF}: " for name in (long, evil)]
        self.check_equal("long and turning names", (status, said, out.isascii(), out.splitlines()),
                         (1, "", True, [*map(Begins, begins)]))
        for name in NAMES:
            put(at, name, HEAD)
        status, out, said = tool("dexasm-lint", "--", *NAMES, at=at)
        self.check_equal("names of files", (status, said, out.count(": ok\n") == out.count("\n") == len(NAMES), out),
                         (0, "", True, Lacks(ESC) & Has("\\x1b[31mred")))

    def test_words(self) -> None:
        """What can't be read, and words that are wrong; the other files go on."""
        at = room("lint words", {"ok.txt": HEAD, "four": b"#!/bin/sh\nexit 4\n"})
        os.chmod(os.path.join(at, "four"), 0o755)
        four, none = {"DEXASM_COMMAND": os.path.join(at, "four")}, {"DEXASM_COMMAND": "no/ne"}
        rows: tuple[tuple[tuple[str, ...], int, dict[str, str]], ...] = (
            (("none", "ok.txt"), 3, {}), ((".", "ok.txt"), 3, {}), (("", "ok.txt"), 3, {}), (("ok.txt",), 4, four),
            (("ok.txt",), 3, none)
        )
        for words, status, env in rows:
            got = tool("dexasm-lint", *words, at=at, **env)
            self.check_equal(f"{words} {env}", got, (status, "ok.txt: ok\n" * (len(words) - 1), Line("dexasm-lint: ")))
        put(at, "a.zip", b"PK\3\4" + bytes(99))
        got = tool("dexasm-lint", "a.zip", "ok.txt", at=at)
        self.check_equal("an archive", got, (3, "ok.txt: ok\n", Has("no zip archive")))
        for words in (("--rules",), (f"--{ESC}[31m",), ("-x",)):
            got = tool("dexasm-lint", *words, at=at)
            self.check_equal(f"{words!r}", got, (2, "", Lacks(ESC) & Has("usage: ")))

    def test_page(self) -> None:
        """docs/VERIFIERS.md and the help have each rule, and no other, and a case of each is tried."""
        own = tool("dexasm-lint", "--help")[1].partition("With --code")[0]
        rules = re.findall(r"^  ([a-z][a-z-]+)  ", own, re.M)
        rows = re.findall(r"^\| \d+ \| `([a-z-]+)` \|", get(TOP, "docs/VERIFIERS.md").decode(), re.M)
        self.check_equal("VERIFIERS and the help have each rule", rules, rows)
        tried = {rule for _, _, _, rule, _ in ROWS if rule} | {"superclass-missing"}  # (by test_superclass)
        self.check_equal("each rule is tried", set(rules), tried)
