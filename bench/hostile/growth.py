#!/usr/bin/env python3
"""Makes listings such as honest tools write, with N of something, to see whether time grows faster than N.

usage: bench/hostile/growth.py SHAPE N OUT       SHAPE is THING[:NAMES[:ORDER[:FORM]]], as in calls:front:random:2
       bench/hostile/growth.py --list            all things, names and orders

THING   what there is N of (a row of THINGS)
NAMES   how the N names differ (a row of NAMES; default: end)
ORDER   their order in the listing: rising (default), falling, random, pipe (rising, then falling)
FORM    1 or 2 (default: 2): which form of the listing

The same words give the same bytes. A name depends on its number alone, not on N.
"""
from __future__ import annotations

import random
import re
import sys
from collections.abc import Callable, Iterable, Iterator

# ---------------------------------------------------------------- names

FILL = "com/acme/generated/service/RequestMessageOfTheServiceBuilder"  # 60 characters
WORDS = """
    Account Action Address Alarm Album Anchor Audio Badge Banner Battery Bitmap Bucket Button Cache Camera Canvas
    Channel Chart Client Cloud Color Config Contact Cookie Crash Cursor Data Debug Device Dialog Draft Drawer Editor
    Event Export Feature Filter Folder Font Form Gallery Game Graph Group Header Image Import Index Input Intent
    Invite Item Job Journal Key Label Layer Layout Light List Local Login Logger Map Market Media Menu Message
    Metric Model Music Network Note Notice Offer Order Page Panel Parser Payment Phone Photo Player Policy Power
    Price Print Profile Push Query Queue Radio Rating Reader Record Region Report Request Resource Result Review
    Route Rule Scan Scene Screen Search Secure Sensor Server Session Setting Share Shop Signal Sketch Slider Social
    Sound Source Space Stage Stats Store Story Stream Style Survey Sync System Table Tag Task Text Theme Thread
    Ticket Timer Token Tool Topic Track Train Travel Tree Update Upload User Value Video View Voice Wallet Watch
    Weather Web Widget Window Wizard Work Writer Zone Zoom
""".split()
LETTERS = "abcdefghijklmnopqrstuvwxyz"


def mixed(i: int, salt: int = 0) -> int:
    """A fixed hash of a number, for names that look random."""
    x = (i + 1) * 0x9E3779B97F4A7C15 + salt * 0xD1B54A32D192ED03 & (1 << 64) - 1
    x ^= x >> 31
    x = x * 0xBF58476D1CE4E5B9 & (1 << 64) - 1
    return x ^ x >> 29


def letters_of(i: int) -> str:
    """a, b, .. z, aa, ab, ..: bijective"""
    out = ""
    i += 1
    while i:
        i -= 1
        out = LETTERS[i % 26] + out
        i //= 26
    return out


def random_letters(i: int) -> str:
    return "".join(LETTERS[(mixed(i, salt) >> 5 * k) % 26] for salt in (0, 1) for k in range(12))


def of_words(i: int) -> str:
    k = len(WORDS)
    return f"{WORDS[i % k].lower()}/{WORDS[i // k % k]}{WORDS[i // k // k % k]}"


def permuted(i: int) -> str:
    parts, out = ["aaa", "bbb", "ccc", "ddd", "eee", "fff", "ggg", "hhh", "iii"], []
    while parts:
        out.append(parts.pop(i % len(parts)))
        i //= len(parts) + 1
    return "/".join(out)


def char(c: int) -> str:
    """A supplementary character."""
    return f"\\u{0xD800 + (c >> 10):04x}\\u{0xDC00 + (c & 1023):04x}"


def put_at(at: int) -> Callable[[int], str]:
    return lambda i: f"{FILL[:at]}{i:07}{FILL[at:]}"


NAMES: dict[str, tuple[str, Callable[[int], str]]] = {
    "front": ("digits in front of 60 equal characters", lambda i: f"v{i:07}/{FILL}"),
    **{f"eighth{k}": (f"digits after {k} eighths", put_at(at)) for k, at in ((1, 8), (2, 15), (3, 23))},
    "middle": ("digits in the middle", put_at(30)),
    **{f"eighth{k}": (f"digits after {k} eighths", put_at(at)) for k, at in ((5, 38), (6, 45), (7, 53))},
    "end": ("digits at the end", put_at(60)),
    "package": ("as a generator writes: com/acme/gen/v0000001/RequestMessageOfTheService$Builder",
        lambda i: f"com/acme/gen/v{i:07}/RequestMessageOfTheService$Builder"),
    "lambda": ("classes of one length with lambdas: com/acme/app/feature/Screen0000001$$ExternalSyntheticLambda0",
        lambda i: f"com/acme/app/feature/Screen{i:07}$$ExternalSyntheticLambda0"),
    "words": ("packages and classes of three words: com/acme/account/CacheDialogFragment_MembersInjector",
        lambda i: f"com/acme/{of_words(i)}Fragment_MembersInjector"),
    "renamed": ("as a renamer writes: a/b/c/d, a path of one letter each, then one suffix",
        lambda i: "/".join(letters_of(i)) + "/C"),
    "short": ("a, b, .. z, aa, .. as a renamer writes", letters_of),
    "rclass": ("com/acme/lib0000001/R$string", lambda i: f"com/acme/lib{i:07}/R$string"),
    "nested": ("com/acme/Outer0000001$Inner$Deeper$EvenDeeper$Companion",
        lambda i: f"com/acme/Outer{i:07}$Inner$Deeper$EvenDeeper$Companion"),
    "twolevel": ("of N names some square root share the first half and some square root the second",
        lambda i: f"com/acme/module{i // 256:05}/feature/common/base/Element{i % 256:05}$Builder"),
    "random": ("24 letters that look random", random_letters),
    "hex": ("a hash in hexadecimal digits, and a suffix", lambda i: f"com/acme/{mixed(i):016x}/Generated$Proxy"),
    "binary": ("24 letters of two kinds", lambda i: "".join("ab"[i >> k & 1] for k in range(24))),
    "permuted": ("the order of nine parts of a path", permuted),
    "length": ("each name is the one before and one letter more (N up to some thousands: names grow)",
        lambda i: "".join(LETTERS[mixed(k, 7) % 26] for k in range(i + 1))),
    "equal_letters": ("a, aa, aaa, ..: by length alone", lambda i: "a" * (i + 1)),
    "long": ("10,000 equal characters, then digits", lambda i: f"{'a' * 10000}{i:07}"),
    "longfront": ("digits, then 10,000 equal characters", lambda i: f"n{i:07}{'a' * 10000}"),
    "longmiddle": ("digits between 5,000 and 5,000 equal characters", lambda i: f"{'a' * 5000}{i:07}{'a' * 5000}"),
    "supplementary": ("ten supplementary characters, of which two differ",
        lambda i: char(0x1234) * 4 + char(i % 700 + 1) + char(i // 700 + 1) + char(0x1234) * 4),
    "unicode": ("characters of two bytes, differing in front",
        lambda i: "".join(f"\\u{0x400 + (i >> 4 * k & 15):04x}" for k in range(6)) + "\\u0416" * 20),
}

# ---------------------------------------------------------------- listings

AIM = re.compile(r"( |^)(:[A-Za-z0-9_]+)(?= |$)")


class Body:
    """A code: its first line, instructions with :labels in them, labels by the instruction that they mark, tries."""

    def __init__(self, head: str) -> None:
        self.head, self.insns, self.tries = head, list[str](), list[str]()
        self.marks: dict[str, int] = {}

    def put(self, line: str) -> None:
        if line.startswith(":"):
            self.marks[line] = len(self.insns)
        elif line.startswith(("try ", "catch ", "catchall ")):
            self.tries.append(line)
        else:
            self.insns.append(line)

    def with_labels(self) -> Iterator[str]:
        at: dict[int, list[str]] = {}
        for label, k in self.marks.items():
            at.setdefault(k, []).append(label)
        for k, text in enumerate(self.insns):
            yield from at.get(k, ())
            yield text
        yield from at.get(len(self.insns), ())
        yield from self.tries

    def with_numbers(self) -> Iterator[str]:
        def number(label: re.Match[str]) -> str:
            return f"{label[1]}@{self.marks.get(label[2], len(self.insns) + 6)}"  # past the end, where there is none
        for k, text in enumerate(self.insns):
            yield f"{k}: {AIM.sub(number, text) if ':' in text and '->' not in text else text}"
        for text in self.tries:
            yield AIM.sub(number, text)


class Job:
    """N, the numbers in their order, and their names."""

    def __init__(self, n: int, names: str, order: str) -> None:
        self.n, self.name = n, NAMES[names][1]
        self.numbers = list(range(n))
        if order == "falling":
            self.numbers.reverse()
        elif order == "random":
            random.Random(5).shuffle(self.numbers)
        elif order == "pipe":
            self.numbers = self.numbers[::2] + self.numbers[1::2][::-1]
        elif order != "rising":
            sys.exit(f"no order {order}")

    def ty(self, i: int) -> str:
        return "L" + self.name(i) + ";"

    def member(self, i: int) -> str:
        """The name without what a member's name can't have."""
        return self.name(i).replace("/", "_")

    def label(self, i: int) -> str:
        return ":" + self.member(i).replace("$", "_")[-31:]


def in_form(form: int, lines: Iterable[str]) -> Iterator[str]:
    """The lines of a listing of the second form, in this form."""
    body = None
    yield "dex 035" if form == 1 else "dex 035 listing 2"
    for line in (line for text in lines for line in text.split("\n")):
        if line.startswith("code "):
            body = Body(line)
        elif body is None:
            yield line
        elif line != "end code":
            body.put(line)
        else:
            yield from (body.head, *(body.with_numbers() if form == 1 else body.with_labels()), line)
            body = None


# ---------------------------------------------------------------- what a row of the table can be

Text = Callable[[Job, int], str]  # the lines for a number
Part = str | Callable[[Job], Iterable[str]]
Thing = tuple[str, Callable[[Job], Iterable[str]]]  # what it is, and the lines of a listing of the second form
OBJECT = "Ljava/lang/Object;"


def code(*lines: str, registers: int = 1, ins: int = 0, outs: int = 0) -> str:
    return "\n".join((f"code {registers} {ins} {outs}", *lines, "end code"))


def in_class(lines: Iterable[str], ty: str = "LA;", above: str = OBJECT, flags: str = "0x1") -> Iterator[str]:
    yield f"class {ty} {flags}\nsuper {above}"
    yield from lines
    yield "end class"


def listed(text: Text) -> Callable[[Job], Iterable[str]]:
    """For each number, in the order of the listing."""
    return lambda j: (text(j, i) for i in j.numbers)


def rising(text: Text) -> Callable[[Job], Iterable[str]]:
    return lambda j: (text(j, i) for i in range(j.n))


def in_bodies(insns: list[str], outs: int = 0) -> Iterator[str]:
    """Static methods of LA; with these instructions, 1,000 in each."""
    starts = range(0, max(len(insns), 1), 1000)
    return in_class(f"direct m{b // 1000:05} ()V 0x9\n" + code(*insns[b:b + 1000], "return-void", outs=outs)
                    for b in starts)


def mentions(what: str, insn: Text, times: int = 1, outs: int = 0) -> Thing:
    """Code with an instruction for each number."""
    return what, lambda j: in_bodies([insn(j, i) for i in j.numbers] * times, outs)


def members(what: str, *parts: Part) -> Thing:
    """One class of these lines."""
    return what, lambda j: in_class(of_parts(j, parts))


def of_parts(j: Job, parts: Iterable[Part]) -> Iterator[str]:
    for part in parts:
        yield from (part,) if isinstance(part, str) else part(j)


def classes(what: str, text: Text | None = None, ty: Text = Job.ty, above: str = OBJECT, flags: str = "0x1") -> Thing:
    """A class for each number."""
    return what, lambda j: (line for i in j.numbers
                            for line in in_class([text(j, i)] if text else [], ty(j, i), above, flags))


def numbered(j: Job, i: int) -> str:
    return f"LC{i:07};"


def array(elements: Iterable[str], name: str = "x", ty: str = "[I") -> str:
    return f"static {name} {ty} 0x9 = array {{ {' '.join(elements)} }}"


def values(what: str, ty: str, element: Text) -> Thing:
    """One static array with an element for each number."""
    return what, lambda j: in_class([array((element(j, i) for i in j.numbers), ty=ty)])


def one_code(what: str, *parts: Part, registers: int = 1, outs: int = 0) -> Thing:
    """One code of these lines."""
    def lines(j: Job) -> Iterator[str]:
        return in_class(["direct m ()V 0x9", f"code {registers} 0 {outs}", *of_parts(j, parts), "end code"])
    return what, lines


NOPS = rising(lambda j, i: f":L{i}\nnop")
END: Part = lambda j: (f":L{j.n}", "return-void")
EVEN_AFTER_NOPS: Part = lambda j: ["nop"] * (j.n % 2)  # so that a payload can follow
EVEN_AFTER_SWITCHES: Part = lambda j: ["nop"] * ((3 * j.n + 1) % 2)
FIVE = ("onStart", "onStop", "onError", "onNext", "onComplete")
STRING = "Ljava/lang/String;"


def own_long_type(j: Job) -> Iterator[str]:
    t = "L" + "a" * j.n + ";"
    return in_class((f"virtual m{i:07} ({t})V 0x401" for i in range(j.n // 64)), t)


def interfaces_all(j: Job) -> Iterator[str]:
    for i in j.numbers:
        yield from in_class([], j.ty(i), flags="0x601")
    yield from in_class((f"implements {j.ty(i)}" for i in j.numbers), "LZ;")


def chain(j: Job) -> Iterator[str]:
    for above, i in zip([OBJECT, *map(j.ty, j.numbers)], j.numbers):
        yield from in_class([], j.ty(i), above)


def chain_wrong(j: Job) -> Iterator[str]:
    for above, i in zip([*map(j.ty, j.numbers[1:]), OBJECT], j.numbers):
        yield from in_class([], j.ty(i), above)


def tree(j: Job) -> Iterator[str]:
    for k, i in enumerate(j.numbers):
        yield from in_class([], j.ty(i), j.ty(j.numbers[(k - 1) // 2]) if k else OBJECT)


def value_tree(j: Job) -> Iterator[str]:
    parts = [f"int {i}" for i in j.numbers]
    while len(parts) > 1:
        parts = [f"array {{ {' '.join(parts[k:k + 2])} }}" for k in range(0, len(parts), 2)]
    return in_class([array(parts)])


def labels_codes(j: Job) -> Iterator[str]:
    first = [f":L{i}\ngoto/32 :L{j.n - 1 - i}" for i in j.numbers]
    small = code(":z", "nop", ":a", "if-eqz v0 :a2", "goto :z", ":a2", "return-void")
    yield from in_class(["direct a ()V 0x9", code(*first, "return-void"),
                         *(f"direct m{i:07} ()V 0x9\n{small}" for i in range(j.n))])


def sparse_payload(j: Job) -> Iterator[str]:
    keys = sorted({mixed(i) % (1 << 32) - (1 << 31) for i in range(j.n)})
    yield "sparse-switch-payload " + " ".join(f"{k} :L{i}" for k, i in zip(keys, j.numbers))


def enum(j: Job) -> Iterator[str]:
    names = [j.member(i).upper() for i in j.numbers]
    constants = (f'new-instance v0 LE;\nconst-string/jumbo v1 "{name}"\nconst v2 {k}\n'
                 f"invoke-direct {{ v0 v1 v2 }} LE;-><init>({STRING}I)V\n"
                 f"sput-object v0 LE;->{name}:LE;\naput-object v0 v3 v2" for k, name in enumerate(names))
    init = code(f"const v0 {j.n}", "new-array v3 v0 [LE;", *constants, "return-void", registers=5, outs=3)
    fields = (f"static {name} LE; 0x4019" for name in names)
    lines = ["static $VALUES [LE; 0x101a", *fields, "direct <clinit> ()V 0x10008", init]
    return in_class(lines, "LE;", "Ljava/lang/Enum;", "0x4011")


def long_insn(j: Job, i: int) -> str:
    return f":L{i}\n" + (
        f"if-eqz v0 :L{max(i - 1000, 0) if i else 12}",
        f'const-string/jumbo v1 "text {i % 1000}"',
        f"invoke-virtual {{ v1 v2 }} LA;->m{i % 500}(I)V",
        f"iget v3 v4 LA;->f{i % 300}:I",
        f"goto/32 :L{min(i + 500, j.n - 1) if i < j.n - 1 else 0}",
        "add-int v0 v1 v2", "const/16 v5 77", "move-result v1", "add-int/lit8 v1 v2 5", "aget v1 v2 v3", "const/4 v1 3",
        "nop")[i % 12]


def long_tries(j: Job) -> Iterator[str]:
    for i in range(0, j.n - 20, 100):
        yield f"try :L{i + 5} :L{i + 15}\ncatch Ljava/io/IOException; :L1\ncatchall :L{i + 16 if i < 60000 else 2}"


def after_big_code(j: Job) -> Iterator[str]:
    def method(number: int, n: int) -> Iterator[str]:
        yield f"direct m{number:07} ()V 0x9\ncode 1 0 0"
        yield from (f":L{k}\npacked-switch v0 :P{k}" for k in range(n))
        yield from (f":L{n}", "return-void", *["nop"] * ((3 * n + 1) % 2))
        yield from (f":P{k}\npacked-switch-payload 0 :L{k} :L{n}" for k in range(n))
        yield from (f"try :L{k} :L{k + 1}\ncatchall :L{n}" for k in range(min(n, 65000)))
        yield "end code"
    return in_class(line for i in range(-1, j.n) for line in method(i + 1, j.n if i < 0 else 1))


def after_big_class(j: Job) -> Iterator[str]:
    for i in range(-1, j.n):
        n = j.n if i < 0 else 1
        yield from in_class([*(f"implements LI{k:07};" for k in range(n)),
                             *(f"static f{k:07} I 0x9 = int {k + 1}" for k in range(n)),
                             *(f"virtual m{k:07} ()V 0x401" for k in range(n))], f"LC{i + 1:07};")


def after_big_value(j: Job) -> Iterator[str]:
    return in_class(array((f'string "s{i + k}"' for k in range(j.n if i < 0 else 1)), f"f{i + 1:07}")
                    for i in range(-1, j.n))


def lambda_of(j: Job, i: int) -> str:
    t = j.ty(i)
    return f"""implements Ljava/lang/Runnable;
instance f$0 {OBJECT} 0x1011
direct <init> ({OBJECT})V 0x10001
code 2 2 1
invoke-direct {{ v0 }} {OBJECT}-><init>()V
iput-object v1 v0 {t}->f$0:{OBJECT}
return-void
end code
virtual run ()V 0x11
code 2 1 1
iget-object v0 v1 {t}->f$0:{OBJECT}
invoke-virtual {{ v0 }} {OBJECT}->toString(){STRING}
return-void
end code"""


def object_of(j: Job, i: int) -> str:
    t = j.ty(i)
    return f"""implements Lkotlin/jvm/functions/Function1;
static INSTANCE {t} 0x19
direct <clinit> ()V 0x10008
code 1 0 1
new-instance v0 {t}
invoke-direct {{ v0 }} {t}-><init>()V
sput-object v0 {t}->INSTANCE:{t}
return-void
end code
direct <init> ()V 0x10000
code 2 1 2
const/4 v0 1
invoke-direct {{ v1 v0 }} Lkotlin/jvm/internal/Lambda;-><init>(I)V
return-void
end code
virtual invoke ({OBJECT}){OBJECT} 0x1
code 2 2 0
return-object v1
end code"""


def message_of(j: Job, i: int) -> str:
    t = j.ty(i)
    u = t[:-1] + "$Builder;"
    return f"""class {t} 0x1
super {OBJECT}
direct newBuilder (){u} 0x9
code 1 0 0
invoke-static {{ }} {u}->create(){u}
move-result-object v0
return-object v0
end code
end class
class {u} 0x1
super {OBJECT}
direct create (){u} 0x9
code 1 0 1
new-instance v0 {u}
return-object v0
end code
virtual build (){t} 0x1
code 2 1 1
invoke-virtual {{ v1 }} {u}->buildPartial(){t}
move-result-object v0
return-object v0
end code
virtual mergeFrom ({t}){u} 0x1
code 2 2 1
return-object v0
end code
end class"""


def factory_of(j: Job, i: int) -> str:
    t = j.ty(i)
    u = t[:-1] + "_Factory;"
    return f"""class {u} 0x1
super {OBJECT}
implements Ldagger/internal/Factory;
instance aProvider Ljavax/inject/Provider; 0x12
direct create (Ljavax/inject/Provider;Ljavax/inject/Provider;){u} 0x9
code 3 2 3
new-instance v0 {u}
return-object v0
end code
direct newInstance (){t} 0x9
code 1 0 1
new-instance v0 {t}
return-object v0
end code
virtual get (){OBJECT} 0x1
code 2 1 1
invoke-static {{ }} {u}->newInstance(){t}
move-result-object v0
return-object v0
end code
end class"""


def implementer_of(j: Job, i: int) -> str:
    t = j.ty(i)
    return "\n".join((
        *in_class((f"virtual {name} ()V 0x401" for name in FIVE), t, flags="0x601"),
        *in_class((f"implements {t}", *(f"virtual {name} ()V 0x1\n" + code("return-void", ins=1) for name in FIVE)),
                  t[:-1] + "Impl;")))


FORMS = {
    "10x": "nop", "12x": "move v0 v1", "11n": "const/4 v0 {s4}", "11x": "throw v0", "22x": "move/from16 v0 v1",
    "32x": "move/16 v0 v1", "21s": "const/16 v0 {s15}", "21h": "const/high16 v0 {s15}", "31i": "const v0 {s31}",
    "51l": "const-wide v0 {s63}", "21c": "const-class v0 LA;", "22c": "instance-of v0 v1 LA;",
    "31c": 'const-string/jumbo v0 "text"', "35c": "invoke-static {{ v0 v1 v2 v3 v4 }} LA;->m(IIIII)V",
    "3rc": "invoke-static/range v0 5 LA;->m(IIIII)V", "23x": "add-int v0 v1 v2", "22b": "add-int/lit8 v0 v1 {s7}",
    "22s": "add-int/lit16 v0 v1 {s15}", "21c_field": "sget v0 LA;->field:I", "22c_field": "iget v0 v1 LA;->field:I",
    "35c_none": "invoke-static {{ }} LA;->m()V", "35c_new": "filled-new-array {{ v0 v1 }} [I",
}


def of_format(key: str, insn: str) -> Thing:
    def text(_: Job, i: int) -> str:
        x = mixed(i)
        return insn.format(s4=x % 16 - 8, s7=x % 256 - 128, s15=x % 65536 - 32768, s31=x % (1 << 32) - (1 << 31),
                           s63=x - (1 << 63))
    what = f"one code of N instructions of format {key}: {insn}"
    return one_code(what, listed(text), "return-void", registers=8, outs=5)


SMALI = "cond goto try_start try_end catch switch_data array".split()
ESCAPED = "\\u00e9"
THIRTY = STRING * 15, "I" * 14
THINGS: dict[str, Thing] = {
    # names that code mentions
    "calls": mentions("calls of one method name, of N classes",
        lambda j, i: f"invoke-static {{ }} {j.ty(i)}->build()V"),
    "calls_twice": mentions("the same, each in two places: first all, then all again",
        lambda j, i: f"invoke-static {{ }} {j.ty(i)}->build()V", times=2),
    "calls_own": mentions("calls of N methods of one class, with one prototype",
        lambda j, i: f"invoke-static {{ }} LB;->{j.member(i)}()V"),
    "calls_return": mentions("calls of one name of one class with N return types",
        lambda j, i: f"invoke-static {{ }} LB;->m(){j.ty(i)}"),
    "calls_param": mentions("calls of one name of one class with N prototypes: the one in the middle of 30 parameters",
        lambda j, i: f"invoke-static {{ }} LB;->m({j.ty(i).join(THIRTY)})V"),
    "calls_both": mentions("calls of one name, of N classes, each with its own return type: as a builder's build()",
        lambda j, i: f"invoke-static {{ }} {j.ty(i)}->build(){j.ty(i).replace('$Builder', '')}"),
    "calls_array": mentions("calls of clone() of N array types",
        lambda j, i: f"invoke-virtual {{ v0 }} [{j.ty(i)}->clone(){OBJECT}", outs=1),
    "reads": mentions("reads of one field name, of N classes", lambda j, i: f"sget v0 {j.ty(i)}->instance:I"),
    "reads_own": mentions("reads of N fields of one class, with one type",
        lambda j, i: f"sget v0 LB;->{j.member(i)}:I"),
    "reads_type": mentions("reads of one field name of one class with N types",
        lambda j, i: f"sget-object v0 LB;->f:{j.ty(i)}"),
    "reads_both": mentions("reads of INSTANCE of N classes, each of its own class's type (Kotlin objects)",
        lambda j, i: f"sget-object v0 {j.ty(i)}->INSTANCE:{j.ty(i)}"),
    "types": mentions("const-class of N types", lambda j, i: f"const-class v0 {j.ty(i)}"),
    "arrays": mentions("const-class of N array types", lambda j, i: f"const-class v0 [[{j.ty(i)}"),
    "strings": mentions("N strings, each named once in code", lambda j, i: f'const-string/jumbo v0 "{j.name(i)}"'),
    "strings_growing": mentions("N strings, each the one before and a letter more (N up to some thousands)",
        lambda j, i: f'const-string/jumbo v0 "{"a" * (i + 1)}"'),
    "members_all": mentions("N methods that one code calls, of N / 64 classes (N up to 65,535)",
        lambda j, i: f"invoke-static {{ }} {j.ty(i // 64)}->m{i % 64:02}()V"),
    "escapes": ("one string of N escaped characters",
        lambda j: in_bodies([f'const-string/jumbo v0 "{ESCAPED * j.n}"'])),
    "string_long": ("one string of N characters", lambda j: in_bodies([f'const-string/jumbo v0 "{"a" * j.n}"'])),

    # names that classes define
    "classes": classes("N empty classes"),
    "sources": ("N classes, each with a source file of its own", lambda j: (line for k, i in enumerate(j.numbers)
        for line in in_class([f'source "{j.name(i)}.java"'], f"LC{k:07};"))),
    "defined": classes("N classes, each with a method of one name", lambda j, i: "virtual build ()V 0x401"),
    "defined_fields": classes("N classes, each with a field of one name", lambda j, i: "static instance I 0x9"),
    "defined_many": ("N / 50 classes, each with the same 50 methods", lambda j: (line for i in j.numbers if i % 50 == 0
        for line in in_class((f"virtual method{k:02} (I)V 0x401" for k in range(50)), j.ty(i // 50)))),
    "methods": members("one class that defines N methods, with one prototype",
        listed(lambda j, i: f"virtual {j.member(i)} ()V 0x401")),
    "methods_return": members("one class that defines N methods of one name with N return types",
        listed(lambda j, i: f"virtual m (){j.ty(i)} 0x401")),
    "methods_param": members("one class that defines N methods of one name: the parameter in the middle of 30 differs",
        listed(lambda j, i: f"virtual m ({j.ty(i).join(THIRTY)})V 0x401")),
    "methods_last": members("one class that defines N methods of one name: the last of 100 parameters differs",
        listed(lambda j, i: f"virtual m ({'I' * 99}{j.ty(i)})V 0x401")),
    "methods_first": members("one class that defines N methods of one name: the first parameter differs",
        listed(lambda j, i: f"virtual m ({j.ty(i)}{'I' * 14})V 0x401")),
    "fields": members("one class that defines N static fields of one type, without values",
        listed(lambda j, i: f"static {j.member(i)} I 0x9")),
    "instances": members("one class that defines N instance fields of one type",
        listed(lambda j, i: f"instance {j.member(i)} I 0x1")),
    "fields_type": members("one class that defines N static fields of one name with N types",
        listed(lambda j, i: f"static f {j.ty(i)} 0x9")),
    "constants": members("one class with N static fields of type int, each with a value",
        listed(lambda j, i: f"static {j.member(i)} I 0x19 = int {0x7F000000 + i}")),
    "own_long": ("a class with a name of N units that defines N / 4 methods and N / 4 fields", lambda j: in_class(
        [*(f"static f{i:07} I 0x9" for i in range(j.n // 4)), *(f"virtual m{i:07} ()V 0x401" for i in range(j.n // 4))],
        "L" + "a" * j.n + ";")),
    "own_long_type": ("a class with a name of N units and N / 64 methods that take it (each line has the name)",
        own_long_type),

    # interfaces, inheritance
    "interfaces": members("one class with N interfaces", listed(lambda j, i: f"implements {j.ty(i)}")),
    "interfaces_all": ("N interfaces, each defined, then a class that implements all", interfaces_all),
    "interfaces_turned": classes("N classes with the same 100 interfaces, in each turned by one place more",
        lambda j, i: "\n".join(f"implements LI{(k + i) % 100:03};" for k in range(100))),
    "interfaces_each": classes("N classes with ten interfaces each, of which one differs",
        lambda j, i: "\n".join(f"implements {j.ty(i) if k == 5 else f'LI{k};'}" for k in range(10)), numbered),
    "chain": ("N classes, each the superclass of the next", chain),
    "chain_wrong": ("the same, each class before its superclass: refused with 112", chain_wrong),
    "chain_last_wrong": ("the same as chain, but the last class names one that comes after it: refused with 112",
        lambda j: (*chain(j), *in_class([], "LY;", "LZ;"), *in_class([], "LZ;"))),
    "tree": ("N classes, the superclass of each being one before it, at half the number", tree),
    "star": ("N classes, all of one superclass that is defined first",
        lambda j: (*in_class([], "LBase;"), *(line for i in j.numbers for line in in_class([], j.ty(i), "LBase;")))),

    # values
    "value_strings": values("one static array of N strings", f"[{STRING}", lambda j, i: f'string "{j.name(i)}"'),
    "value_types": values("one static array of N types", "[Ljava/lang/Class;", lambda j, i: f"type {j.ty(i)}"),
    "value_fields": values("one static array of N fields of one name, of N classes", "[I",
        lambda j, i: f"field {j.ty(i)}->f:I"),
    "value_enums": values("one static array of N enum values of one class", "[LE;",
        lambda j, i: f"enum LE;->{j.member(i)}:LE;"),
    "value_methods": values("one static array of N methods of one name, of N classes", "[I",
        lambda j, i: f"method {j.ty(i)}->m()V"),
    "value_ints": values("one static array of N ints", "[I", lambda j, i: f"int {mixed(i) % (1 << 31)}"),
    "value_longs": members("N static fields with a long each",
        listed(lambda j, i: f"static f{i:07} J 0x9 = long {mixed(i) >> 1}")),
    "value_deep": ("a static array of N / 60 arrays, each nested 60 deep",
        lambda j: in_class([array(["array { " * 60 + "null " + "} " * 60] * (j.n // 60))])),
    "value_small_arrays": values("a static array of N arrays of one int", "[[I", lambda j, i: f"array {{ int {i} }}"),
    "value_last": members("N static fields, of which only the last in order has a value",
        listed(lambda j, i: f"static f{i:07} I 0x9{' = int 7' * (i == j.n - 1)}")),
    "value_equal": classes("N classes with one and the same array of 20 strings",
        lambda j, i: array((f'string "text{k}"' for k in range(20)), ty=f"[{STRING}")),
    "value_nearly": classes("N classes with an array of 20 ints, of which the first differs",
        lambda j, i: array(f"int {k or i + 1000}" for k in range(20)), numbered),
    "value_tree": ("a static array that holds two arrays, each two again, down to N ints", value_tree),
    "value_empty_arrays": ("a static array of N empty arrays",
        lambda j: in_class([array(["array { }"] * j.n, ty="[[I")])),
    "value_pairs": ("a static array of N / 60 arrays of an int and such an array, 60 deep", lambda j: in_class([array(
        ["".join(f"array {{ int {k} " for k in range(60)) + "} " * 59 + "}"] * (j.n // 60))])),
    "value_each": classes("N classes, each with a static array of three ints of its own",
        lambda j, i: array(f"int {i + k}" for k in (1, 2, 3)), numbered),
    "string_table": values("N strings of 8 to 23 letters that look random, in one static array", f"[{STRING}",
        lambda j, i: f'string "{random_letters(i)[:8 + mixed(i) % 16]}"'),

    # instructions of each format, branches, labels
    **{f"insn_{key}": of_format(key, insn) for key, insn in FORMS.items()},
    "goto_next": one_code("N gotos, each to the next instruction", rising(lambda j, i: f"goto :L{i + 1}\n:L{i + 1}"),
        "return-void"),
    "goto_zigzag": one_code("N goto/32: the k-th leads to the k-th from the end",
        rising(lambda j, i: f":L{i}\ngoto/32 :L{j.n - 1 - i}"), "return-void"),
    "goto_random": one_code("N goto/32 to places in the listing's order",
        rising(lambda j, i: f":L{i}\ngoto/32 :L{j.numbers[i]}"), "return-void"),
    "goto_first": one_code("N goto/32 that lead to the first instruction", ":L0\nnop",
        lambda j: ["goto/32 :L0"] * (j.n - 1), "return-void"),
    "goto_last": one_code("N goto/32 that lead to the last instruction", lambda j: ["goto/32 :end"] * j.n,
        ":end\nreturn-void"),
    "ifs": one_code("N if-eqz, each back to one at most 10,000 before it",
        rising(lambda j, i: f":L{i}\nif-eqz v0 :L{i - min(i, 10000) if i else 1}"), "return-void"),
    "ifs_two": one_code("N if-eq of two registers, each over the next instruction",
        rising(lambda j, i: f"if-eq v0 v1 :L{i}\nnop\n:L{i}"), "return-void", registers=2),
    "labels": one_code("N labels with names, each used once, in any order, by goto/32",
        listed(lambda j, i: f"{j.label(i)}\nnop"), listed(lambda j, i: f"goto/32 {j.label(i)}")),
    "labels_before": one_code("the same, used before they are defined", listed(lambda j, i: f"goto/32 {j.label(i)}"),
        listed(lambda j, i: f"{j.label(i)}\nnop"), "return-void"),
    "labels_far": one_code("N labels with names, each used by goto/32 in the other half of the code",
        rising(lambda j, i: f":label{i:07}\ngoto/32 :label{(i + j.n // 2) % j.n:07}"), "return-void"),
    "labels_smali": one_code("N labels as baksmali names them: :cond_0, :goto_1f, used by goto/32, each before its own",
        rising(lambda j, i: f"goto/32 :{SMALI[i % 7]}_{i // 7:x}\nnop\n:{SMALI[i % 7]}_{i // 7:x}"), "return-void"),
    "labels_one_place": one_code("N labels that mark one instruction (form 2)", rising(lambda j, i: f"goto/32 :L{i}"),
        listed(lambda j, i: f":L{i}"), "return-void"),
    "labels_unused": one_code("N labels that nothing uses (form 2)", listed(lambda j, i: f":L{i}\nnop"), "return-void"),
    "labels_codes": ("one code of N labels, then N codes of two labels", labels_codes),

    # switches, payloads
    "switch_packed": one_code("one packed-switch with N targets, all different (N up to 65,535)", "packed-switch v0 :P",
        NOPS, "return-void", EVEN_AFTER_NOPS, ":P",
        lambda j: ["packed-switch-payload 0 " + " ".join(f":L{i}" for i in j.numbers)]),
    "switch_same": one_code("one packed-switch with N targets, all the same",
        "packed-switch v0 :P\n:L\nreturn-void\n:P", lambda j: ["packed-switch-payload 0" + " :L" * j.n]),
    "switch_sparse": one_code("one sparse-switch with N keys and targets, all different", "sparse-switch v0 :P", NOPS,
        "return-void", EVEN_AFTER_NOPS, ":P", sparse_payload),
    "switches_end": one_code("N packed-switches, the payloads of three targets each at the end, in the listing's order",
        rising(lambda j, i: f":L{i}\npacked-switch v0 :P{i}"), END, EVEN_AFTER_SWITCHES,
        listed(lambda j, i: f":P{i}\npacked-switch-payload 0 :L{i} :L{i + 1} :L0")),
    "switches_sparse": one_code("N sparse-switches, the payloads of two keys each at the end, in the listing's order",
        rising(lambda j, i: f":L{i}\nsparse-switch v0 :P{i}"), END, EVEN_AFTER_SWITCHES,
        listed(lambda j, i: f":P{i}\nsparse-switch-payload -5 :L{i} 77 :L{i + 1}")),
    "switches_between": one_code("N packed-switches, each followed by its payload", rising(lambda j, i:
        f":L{i}\npacked-switch v0 :P{i}\ngoto :L{i + 1}\n:P{i}\npacked-switch-payload 0 :L{i} :L{i + 1}"), END),
    "switches_codes": members("N codes with a packed-switch of four targets each", listed(lambda j, i: "\n".join((
        f"direct m{i:07} ()V 0x9", code("packed-switch v0 :P", *(f":L{k}\nnop" for k in range(4)), "return-void", ":P",
                                        "packed-switch-payload 0 :L0 :L1 :L2 :L3"))))),
    "datas": one_code("N fill-array-data with a payload of their own of 8 bytes",
        rising(lambda j, i: f"fill-array-data v0 :P{i}"), "return-void", EVEN_AFTER_SWITCHES,
        listed(lambda j, i: f":P{i}\narray-payload 4 {i:08x}{i:08x}")),
    "datas_one": one_code("N fill-array-data of one payload", lambda j: ["fill-array-data v0 :P"] * j.n, "return-void",
        EVEN_AFTER_SWITCHES, ":P\narray-payload 4 0000000100000002"),
    "data_long": one_code("one array payload of N bytes", "fill-array-data v0 :P\nreturn-void\n:P",
        lambda j: ["array-payload 1 " + "".join(f"{mixed(i) & 255:02x}" for i in range(j.n))]),

    # tries
    "tries_one_handler": one_code("N tries of one instruction, all with one catch-all", NOPS, END,
        rising(lambda j, i: f"try :L{i} :L{i + 1}\ncatchall :L{j.n}")),
    "tries_own_handler": one_code("N tries of one instruction, each with a catch-all of its own (N up to some 16,000)",
        NOPS, END, rising(lambda j, i: f"try :L{i} :L{i + 1}\ncatchall :L{j.numbers[i]}")),
    "tries_types": one_code("N tries, each catches a type of its own (N up to some 10,000)", NOPS, END,
        rising(lambda j, i: f"try :L{i} :L{i + 1}\ncatch {j.ty(j.numbers[i])} :L{j.n}")),
    "tries_two_handlers": one_code("N tries of one instruction, by turns with two catch-alls", NOPS,
        lambda j: (f":L{j.n}\nnop\n:L{j.n + 1}", "return-void"),
        rising(lambda j, i: f"try :L{i} :L{i + 1}\ncatchall :L{j.n + i % 2}")),
    "catches": one_code("one try with N catches, each of another type", ":L0\nnop\n:L1\nreturn-void\ntry :L0 :L1",
        listed(lambda j, i: f"catch {j.ty(i)} :L1")),
    "catches_same": one_code("one try with N catches of one type", ":L0\nnop\n:L1\nreturn-void\ntry :L0 :L1",
        listed(lambda j, i: "catch LE; :L1")),
    "tries_codes": members("N codes with a try and two catches each", listed(lambda j, i: "\n".join((
        f"direct m{i:07} ()V 0x9", code(":a", "nop", ":b", "return-void", "try :a :b", "catch Ljava/io/IOException; :b",
                                        "catch Ljava/lang/Exception; :b"))))),

    # codes
    "codes_equal": members("N methods with one and the same code of 20 instructions", listed(lambda j, i:
        f"direct {j.member(i)} ()V 0x9\n" + code(*(f"const/16 v0 {k}" for k in range(19)), "return-void"))),
    "codes_nearly": members("N methods with codes of 20 instructions that differ in the tenth", listed(lambda j, i:
        f"direct m{i:07} ()V 0x9\n" + code(*(f"const v0 {i if k == 10 else k}" for k in range(19)), "return-void"))),
    "codes_first": members("N methods with codes of 20 instructions that differ in the first", listed(lambda j, i:
        f"direct m{i:07} ()V 0x9\n" + code(*(f"const v0 {k or i}" for k in range(19)), "return-void"))),
    "codes_small": members("N methods with a code of one instruction",
        listed(lambda j, i: f"direct m{i:07} ()V 0x9\n" + code("return-void"))),
    "codes_getters": members("N methods that read a field of their own each",
        rising(lambda j, i: f"instance f{i:07} I 0x1"), listed(lambda j, i: f"virtual get{i:07} ()I 0x1\n"
            + code(f"iget v0 v1 LA;->f{i:07}:I", "return v0", registers=2, ins=1))),

    # shapes of real programs
    "r_classes": classes("N R classes of 2,000 int fields with the same names", lambda j, i: "\n".join(
        f"static abc_item_{k:04}_{WORDS[k % len(WORDS)].lower()} I 0x19 = int {0x7F000000 + k}" for k in range(2000)),
        flags="0x11"),
    "r_fields": ("one R class of N int fields with values, named as resources are", lambda j: in_class(
        (f"static abc_{WORDS[mixed(i) % len(WORDS)]}_{WORDS[i % len(WORDS)]}_{i}".lower()
         + f" I 0x19 = int {0x7F080000 + i}" for i in j.numbers), "Lcom/acme/app/R$id;", flags="0x11")),
    "lambdas": classes("N classes with a field, a constructor and run(), as a compiler writes for lambdas", lambda_of,
        flags="0x1011"),
    "objects": classes("N Kotlin objects: a static INSTANCE of the own type, <clinit>, <init>, invoke(Object)Object",
        object_of, above="Lkotlin/jvm/internal/Lambda;", flags="0x10"),
    "builders": ("N messages with N builders: newBuilder(), build(), mergeFrom(), as protobuf writes",
        listed(message_of)),
    "enum": ("an enum of N constants: fields, <clinit> with $VALUES", enum),
    "method_long": one_code("one method of N instructions of many kinds, with branches, a switch and tries",
        rising(long_insn), "return-void", long_tries, registers=8, outs=5),
    "dagger": ("N factories: create(Provider, Provider), get()Object, newInstance() of the type that it makes",
        listed(factory_of)),
    "accessors": members("a class with N synthetic access$000, access$001, ..: each with a prototype of one class",
        listed(lambda j, i: f"direct access${i:07} (LA;)I 0x1008\n" + code("const/4 v0 0", "return v0", ins=1))),
    "implementers": ("N interfaces with the same five methods each, and for each a class that implements it",
        listed(implementer_of)),
    "classes_codes": classes("N classes with one method of four instructions, all of one name and prototype",
        lambda j, i: f"direct main ([{STRING})V 0x9\n" + code(f"invoke-static {{ }} {j.ty(i)}->run()V",
            f'const-string/jumbo v0 "{j.name(i)}"', "return-void", registers=2, ins=1, outs=1)),

    # text
    "comments": ("N comment lines", listed(lambda j, i: f"# {j.name(i)}")),
    "blank": ("N empty lines", listed(lambda j, i: "")),
    "spaces": members("N lines of a class, each indented by 40 spaces and with 20 between the words",
        listed(lambda j, i: " " * 40 + (" " * 20).join(("static", f"f{i:07}", "I", "0x9")))),

    # much at once, then little often: what isn't given back after the first
    "after_big_code": ("one code with N switches, tries and labels, then N codes with one switch, try and label each",
        after_big_code),
    "after_big_class": ("a class with N fields, values, methods and interfaces, then N classes with one of each",
        after_big_class),
    "after_big_value": ("a static array of N strings, then N static arrays of one", after_big_value),
    "after_long_line": ("a string of N characters, then N short ones", lambda j: in_bodies(
        [f'const-string/jumbo v0 "{text}"' for text in ("a" * j.n, *(f"s{i}" for i in j.numbers))])),

    # with --align
    "align_datas": one_code("N fill-array-data, each with a payload of 5 units, which --align moves",
        rising(lambda j, i: f":L{i}\nfill-array-data v0 :P{i}"), "return-void",
        listed(lambda j, i: f":P{i}\narray-payload 1 {i & 255:02x}{i >> 8 & 255:02x}")),
    "align_between": one_code("N times a switch, a goto over its payload, and the payload, at odd addresses",
        rising(lambda j, i: f":L{i}\npacked-switch v0 :P{i}\ngoto/16 :L{i + 1}\n:P{i}\n"
                            f"packed-switch-payload 0 :L{i} :L{i + 1}"), END),

    # mistakes
    "fault_last_twice": members("N fields, and the last again: refused with 104", lambda j: (
        f"static {j.member(i)} I 0x9" for i in (*j.numbers, j.numbers[-1]))),
    "fault_no_label": one_code("N gotos to labels that aren't there: refused with 105",
        rising(lambda j, i: f"goto/32 :L{i}"), "return-void"),
    "fault_cut": ("N classes without the last line: refused with 106", lambda j: [*classes("")[1](j)][:-1]),
    "fault_interface_twice": members("N interfaces and the first again: refused with 104",
        lambda j: (f"implements {j.ty(i)}" for i in j.numbers + j.numbers[:1])),
    "fault_class_twice": ("N classes and the first again: refused with 112",
        lambda j: (line for i in j.numbers + j.numbers[:1] for line in in_class([], j.ty(i)))),
}

# what `run` times: shapes that generators, renamers and annotation processors write, each with N
NATURAL = [
    ("calls:package", 5000), ("calls:front", 5000), ("calls:nested", 4000), ("calls:words", 8000),
    ("calls:twolevel", 8000), ("calls:end", 16000), ("calls:renamed", 4000), ("calls:lambda", 4000),
    ("calls:middle", 4000), ("calls_twice:package", 4000), ("calls_return:package", 4000),
    ("calls_param:package", 2000), ("calls_both:package", 4000), ("calls_array:package", 4000),
    ("reads:package", 4000), ("reads_type:package", 4000),
    ("reads_both:package", 4000), ("defined:package", 4000), ("defined_fields:package", 4000),
    ("methods_return:package", 4000), ("methods_param:package", 2000), ("methods_first:package", 4000),
    ("fields_type:package", 4000), ("value_fields:package", 4000), ("value_methods:package", 4000),
    ("lambdas:front", 2500), ("objects:nested", 2000), ("builders", 2000), ("dagger", 2000), ("implementers", 1000),
    ("own_long", 64000), ("r_classes", 80), ("r_fields", 15000), ("methods_last:package", 2000),
    ("interfaces_turned:package", 1000), ("value_tree", 100000), ("value_empty_arrays", 200000), ("value_pairs", 60000),
    ("value_enums:package", 16000), ("value_each", 15000), ("labels_far", 50000), ("tries_two_handlers", 15000),
]


def main() -> None:
    if sys.argv[1:] == ["--list"]:
        rows = [f"  {name:18} {what}" for name, (what, _) in THINGS.items()]
        names = [f"  {name:18} {what}" for name, (what, _) in NAMES.items()]
        print("\n".join(["THING", *rows, "NAMES", *names, "ORDER", "  rising falling random pipe"]))
        return
    if len(sys.argv) != 4:
        sys.exit(__doc__)
    thing, kind, order, form = (*sys.argv[1].split(":"), "", "", "")[:4]
    job = Job(int(sys.argv[2]), kind or "end", order or "rising")
    with open(sys.argv[3], "w", encoding="ascii") as f:
        f.writelines(f"{line}\n" for line in in_form(int(form or 2), THINGS[thing][1](job)))


if __name__ == "__main__":
    main()
