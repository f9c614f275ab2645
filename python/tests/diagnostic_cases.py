"""Listings at fault, with a mark where the fault is."""
import itertools
from collections.abc import Iterable, Iterator

import dexasm

from .cases import cases

HEAD, CLASS, CODE = "dex 035 listing 2", "class LA; 0x1", ("direct m ()V 0x9", "code 4 0 0")
LONG = 65536
Marked = tuple[int, int | None, str | None]  # the line, the column, the word; the last two are None of a whole line


def in_code(*lines: str) -> list[str]:
    return [*CODE, *lines, "end code"]


def filled(number: int, each: str = "nop") -> list[str]:
    return [each] * number


CASES = cases("diagnostics")
DEEP, DIGITS = "array { " * 64, ("1" * 5000, "9" * 5000)
# By number what a text file has no words for.
LONG_BODIES = {
    113: [[f"static a I 0 = {DEEP}array «{{»" + " }" * 65], [f"static a I 0 = {DEEP}array «{{» null" + " }" * 65]],
    85: [in_code("goto «:a»", *filled(127), ":a", "nop"), in_code(":a", *filled(129), "goto «:a»")],
    101: [[f"direct a «({'int' * 5000})V» 0"]],
    102: [in_code(f"const v0 «{DIGITS[0]}.5»"), [f"static a I {'0' * 5000}1", f"static b I «{DIGITS[1]}»"]],
}
FAR = "goto/16 reaches 32767 units"
# Of each number bodies of the class LA;, and what its message has to say of them. LZ; is defined after it, LB; is
# defined before or nowhere.
Body = tuple[list[str], str]
BODIES: dict[int, list[Body]] = {
    number: [(body, FAR if number == 85 else "") for body in bodies] for number, bodies in LONG_BODIES.items()
}
for _number, _rows in ((int(part), rows) for part, rows in CASES.items() if part.isdigit()):
    for _kind, _text, *_says in _rows:
        _body = _text.split(" / ")
        BODIES.setdefault(_number, []).append((in_code(*_body) if _kind == "code" else _body, "".join(_says)))
# What is said of lines that aren't of the form (100), and of whole texts.
FORMS = [([HEAD, CLASS, *in_code(line), "end class"], says) for line, says in CASES["forms of code"]]
FORMS += [([HEAD, CLASS, line, "end class"], says) for line, says in CASES["forms of classes"]]
FORMS += [(text.split(" / "), says) for text, says in CASES["texts"]]
FORMS += [([HEAD, CLASS, *in_code("«nop\tv0»"), "end class"], "there is a tab at column 4"),
          ([HEAD, CLASS, *in_code("«nop\r»"), "end class"], "the line ends in a carriage return (CRLF)"),
          (["«\ufeffdex» 035 listing 2"], "a byte order mark"), (["«\r»"], "the line ends in a carriage return")]
MEMBER = "virtual z (I)V 1", "code 2 1 0", "return-void", "end code"


def surrounded(body: list[str]) -> Iterator[list[str]]:
    """The body in classes of five kinds, as lines of a whole text."""
    after = "class LZ; 0", "end class"
    yield [HEAD, CLASS, *body, "end class", *after]
    yield [HEAD, "class LB; 1", *MEMBER, "end class", CLASS, *body, *MEMBER, "end class", *after]
    commented = [line for each in body for line in ("", f"   {each}  ", "# «»")]
    yield ["# first", HEAD, CLASS, *commented, "  end   class", *after]
    if body[0].split(" ")[0] not in ("super", "implements"):
        yield [HEAD, CLASS, *MEMBER, "static f I 0", *body, "end class", *after]
        before = [HEAD, "class LB; 1", "end class", "", CLASS, 'source "code"', *MEMBER, "static f I 0"]
        yield [*before, *body, "end class", *after]


def marked(lines: list[str]) -> tuple[str, Marked]:
    """The text, and the line, the column and the word that are marked in it; the last two are None of a whole line."""
    for number, line in enumerate(lines, 1):
        if line.lstrip().startswith("«»") or "«" in line and not line.startswith("#"):
            begin, end = line.index("«"), line.index("»")
            place = number, begin + 1, line[begin + 1 : end]
            text = "\n".join(lines).replace("# «»", "#").replace("«", "").replace("»", "") + "\n"
            return text, place if place[2] else (number, None, None)
    raise ValueError("nothing is marked")


def refusal_of(text: str | bytes, align: bool = False) -> dexasm.Refused:
    if (refusal := refused(text, align)) is None:
        raise AssertionError("the listing is accepted")
    return refusal


def refused(text: str | bytes, align: bool = False) -> dexasm.Refused | None:
    try:
        dexasm.assemble(text, align)
    except dexasm.Refused as refusal:
        return refusal
    return None


def large() -> Iterator[tuple[int, list[str]]]:
    """Of each limit of a table or of a list one text."""

    def value(kind: str, names: Iterable[str], *lines: str, head: str = f"«»{CLASS}") -> list[str]:
        words = " ".join(f"{kind} {name}" for name in names)
        return [HEAD, head, f"static a I 0 = array {{ {words} }}", *lines, "end class"]

    types = [f"L{at};" for at in range(LONG - 3)]
    yield 80, value("type", types, "static b «LB;» 0", head=CLASS)
    protos = ["".join(each) for each in itertools.islice(itertools.product("BCDFIJSZ", repeat=6), LONG)]
    named = [f"LB;->a({each})V" for each in protos[1:]]
    yield 81, value("method", named, "virtual m «()V» 0", "virtual n (I)V 0", head=CLASS)
    strings = [f'"{at:05}"' for at in range(LONG)]
    yield 82, value("string", strings, *in_code("nop", 'const-string/jumbo v0 "I"', 'const-string v0 "I"'))
    fields = [f"LA;->{at:05}:I" for at in range(LONG)]
    yield 83, value("field", fields, *in_code("sget v0 LA;->65535:I", "sget v0 LA;->a:I"))
    methods = [f"LA;->{at:05}()V" for at in range(LONG)]
    yield 84, value("method", methods, *in_code("nop", "invoke-static { } LA;->m()V"))
    wide = filled(13106, "const-wide v0 0") + filled(5)
    far = in_code(":a", *wide, "const-wide v0 0", ":c", "try :a :c", "catchall :a")
    yield 87, [HEAD, f"«»{CLASS}", *far, "end class"]
    each = [line for at in range(LONG) for line in (f"try @{at} @{at + 1}", "catchall @0")]
    nops = [f"{at}: nop" for at in range(LONG)]
    yield 88, ["dex 035", f"«»{CLASS}", *in_code(*nops, *each), "end class"]
    first = [":a", "nop", ":b", "nop", ":c", "nop", ":d", "try :a :b", *filled(20000, "catch LA; :a")]
    second = ["try :b :c", *filled(12765, "catch LA; :a"), "try :c :d", "catchall :a"]
    yield 89, [HEAD, f"«»{CLASS}", *in_code(*first, *second), "end class"]
    payload = "packed-switch-payload 0" + " :a" * 65535 + " «:a»"
    yield 114, [HEAD, CLASS, *in_code(":a", "packed-switch v0 :p", "nop", ":p", payload), "end class"]
