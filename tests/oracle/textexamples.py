"""Worked examples: listings by hand, what each shows, whether it's assembled with --align, and its answer: a fault as
its table, name and place, or None. Those of a few lines are in listings.txt."""
import codecs
import functools
import itertools
import os
from collections.abc import Callable, Iterable, Iterator

from ..cases import cases
from .listing import print_listing
from .model import Class, Code, Instruction, LITERAL_BITS, MNEMONICS, Method, NEEDED_PAYLOAD, Payload, REGISTER_BITS
from .model import WITH_NAME, WITH_TARGET, form_of, kind_of_name, units_of
from .pages import DOCS

Fault = tuple[str, str, int]
Example = tuple[str, bytes, Fault | None]
SECOND, FIRST = "dex 035 listing 2", "dex 035"
CLASS = "class LA; 0x1"


def listing_of(*lines: str) -> bytes:
    return "".join(line + "\n" for line in lines).encode("latin1")


def in_class(*lines: str, form: str = SECOND) -> bytes:
    """The first of the lines is the third."""
    return listing_of(form, CLASS, *lines, "end class")


def in_code(*lines: str, registers: int = 4, form: str = SECOND) -> bytes:
    """The first of the lines is the fifth."""
    return in_class("direct m ()V 0x9", f"code {registers} 0 0", *lines, "end code", form=form)


def of_the_page() -> Iterator[Example]:
    """The listings that stand in LISTING itself."""
    with open(os.path.join(DOCS, "LISTING.md"), encoding="utf8") as page:
        blocks = page.read().split("```")[1::2]
    for i, block in enumerate(block for block in blocks if block.startswith("\ndex 035")):
        yield f"listing {i}", block[1:].encode("ascii"), None


def operands_of(opcode: int) -> Instruction:
    """Operands that the format takes, near the edges of its fields where it has some."""
    form = form_of(opcode)
    made = Instruction(opcode, tuple((1 << min(bits, 15)) - 1 for bits in REGISTER_BITS.get(form, (4, 3, 2, 1, 4))))
    if form in LITERAL_BITS:
        made.literal = -1 << LITERAL_BITS[form] - 1
    if form == "3rc":
        made.count = 255
    if form in WITH_NAME:
        names = {"string": "\ud800\"\\\0", "type": "[[LB;", "field": ("LB;", "<f>", "J"),
                 "method": ("[I", "<m>", ("V", ("[J", "LB;", "Z")))}
        made.name = names[kind_of_name(opcode)]
    return made


def instructions() -> Iterator[Example]:
    """Each of the 218 opcodes in a code of its own, which has what it leads to."""
    for opcode, mnemonic in MNEMONICS.items():
        each, nop = operands_of(opcode), Instruction(0x00)
        made: list[Instruction | Payload] = [each, nop, nop]
        if opcode in NEEDED_PAYLOAD:
            made += [nop] * (sum(map(units_of, made)) % 2)
            each.target = len(made)
            made.append({
                "array": Payload("array", width=2, data=b"\1\2\3\xff"),
                "packed": Payload("packed", (0x7FFFFFFF,), (1, 2)),
                "sparse": Payload("sparse", (-0x80000000, 0x7FFFFFFF), (2, 1)),
            }[NEEDED_PAYLOAD[opcode]])
        elif form_of(opcode) in WITH_TARGET:
            each.target = 2
        code = Code(65535, 3, 5, made)
        yield mnemonic, print_listing([Class("LA;", 1, virtuals=[Method("m", ("V", ()), 1, code)])]), None


def values() -> Iterator[Example]:
    for what, text, answer in (
        ("an array 64 deep", "array { " * 63 + "array { }" + " }" * 63, None),
        ("an array 65 deep", "array { " * 64 + "array { }" + " }" * 64, ("rules", "Values", 0)),
        ("a null in 64 arrays", "array { " * 64 + "null" + " }" * 64, None),
        ("a null in 65 arrays", "array { " * 65 + "null" + " }" * 65, ("rules", "Values", 0)),
    ):
        yield what, in_class(f"static a I 0 = {text}"), answer


def aligned() -> Iterator[Example]:
    """With --align: targets and tries keep the instructions that they name."""
    yield "a payload at an odd address", in_code("fill-array-data v0 :p", ":p", "array-payload 1 00"), None
    yield "a try up to a payload", in_code(":a", "nop", ":p", "array-payload 1", ":b", "try :a :p", "catchall :p",
                                           "try :p :b", "catchall :a"), None
    yield "payloads of odd data", in_code("nop", *["array-payload 1 00"] * 3), None
    nops = ["nop"] * 126
    yield "a branch that a nop puts out of reach", in_code("goto :a", *nops, "array-payload 1"), (
        "listing", "Target", 5
    )
    far = ["goto :a", "array-payload 1", *["nop"] * 122, ":a", "nop"]
    yield "a branch that a nop puts out of reach", in_code(*far), ("written", "BranchOutOfReach", 0)


LONG = 65536


def many_values(kind: str, names: Iterable[str], *lines: str) -> bytes:
    return in_class(f"static a I 0 = array {{ {' '.join(f'{kind} {name}' for name in names)} }}", *lines)


def code_lines(*lines: str) -> tuple[str, ...]:
    return "direct m ()V 0", "code 1 0 0", *lines, "end code"


def limits() -> Iterator[Example]:
    """Each limit, and what is just within it. The class LA; needs types too: LA;, and I of the static field."""
    types = [f"L{i};" for i in range(LONG - 3)]
    yield "65535 types", many_values("type", types), None
    yield "65536 types", many_values("type", types + ["LB;"]), ("written", "TooManyTypes", 65536)
    protos = ["".join(each) for each in itertools.islice(itertools.product("BCDFIJSZ", repeat=6), LONG)]
    methods = [f"LA;->a({each})V" for each in protos]
    yield "65535 prototypes", many_values("method", methods[1:]), None
    yield "65536 prototypes", many_values("method", methods), ("written", "TooManyProtos", 65536)
    strings = [f'"{i:05}"' for i in range(LONG)]
    # Of the strings that the class needs, all are above: I, LA;, V, a, m.
    yield "the string 65535", many_values("string", strings, *code_lines('const-string v0 "65535"')), None
    yield "the string 65536", many_values("string", strings, *code_lines('const-string v0 "I"')), ("written",
        "StringOutOfReach", 0)
    yield "the string 65536 of 32 bits", many_values("string", strings, *code_lines('const-string/jumbo v0 "I"')), None
    fields = [f"LA;->{i:05}:I" for i in range(LONG)]
    yield "the field 65535", many_values("field", fields, *code_lines("sget v0 LA;->65535:I")), None
    yield "the field 65536", many_values("field", fields, *code_lines("sget v0 LA;->a:I")), ("written",
        "FieldOutOfReach", 0)
    methods = [f"LA;->{i:05}()V" for i in range(LONG)]
    yield "the method 65535", many_values("method", methods, *code_lines("invoke-static { } LA;->65535()V")), None
    yield "the method 65536", many_values("method", methods, *code_lines("invoke-static { } LA;->m()V")), (
        "written", "MethodOutOfReach", 0)


def reaches() -> Iterator[Example]:
    far = "written", "BranchOutOfReach", 0
    for what, branch, reach in (("goto", "goto :a", 127), ("goto/16", "goto/16 :a", 32767), ("if", "if-eqz v0 :a",
        32767)):
        size = 1 if what == "goto" else 2
        nops = ["nop"] * (reach - size)
        yield f"{what} as far as it reaches", in_code(branch, *nops, ":a", "nop"), None
        yield f"{what} further", in_code(branch, *nops, "nop", ":a", "nop"), far
        back = ["nop"] * (reach + 1)
        yield f"{what} back as far as it reaches", in_code(":a", *back, branch), None
        yield f"{what} further back", in_code(":a", *back, "nop", branch), far
    yield "a payload at an odd address", in_code("nop", "array-payload 1"), ("written", "Misaligned", 0)
    yield "86 in a class, 85 in the next", in_code("nop", "array-payload 1") + listing_of(
        "class LB; 0", "direct m ()V 0", "code 0 0 0", "goto :a", *["nop"] * 127, ":a", "nop", "end code", "end class"
    ), ("written", "BranchOutOfReach", 1)


def tries() -> Iterator[Example]:
    tail = [":c", "try :a :c", "catchall :a"]
    wide = [":a", *["const-wide v0 0"] * 13106]  # 65530 units
    yield "a last instruction at 65534", in_code(*wide, *["nop"] * 4, "const-wide v0 0", *tail), None
    yield "a last instruction at 65535", in_code(*wide, *["nop"] * 5, "const-wide v0 0", *tail), ("written",
        "TryTooLong", 0)
    nops = [f"{k}: nop" for k in range(LONG)]
    each = [line for k in range(LONG) for line in (f"try @{k} @{k + 1}", "catchall @0")]
    yield "65535 tries", in_code(*nops, *each[:-2], form=FIRST), None
    yield "65536 tries", in_code(*nops, *each, form=FIRST), ("written", "TooManyTries", 0)
    # A handler: its count of three bytes, then 20000 pairs of two bytes; the next one of 12 more pairs or of 13.
    first = [":a", "nop", ":b", "nop", ":c", "nop", ":d", "try :a :b", *["catch LA; :a"] * 20000]
    for pairs, last in ((12764, None), (12765, ("written", "HandlerTooFar", 0))):
        second = ["try :b :c", *["catch LA; :a"] * pairs, "try :c :d", "catchall :a"]
        yield f"a handler after two of 20000 and {pairs} pairs", in_code(*first, *second), last


# By the headings of LISTING, in their order; those of listings.txt come first.
SMALL: dict[str, Callable[[], Iterator[Example]] | None] = {
    "of_the_page": of_the_page, "lines_and_words": None, "what_a_word_can_be": None, "the_lines": None,
    "instructions": instructions, "labels": None, "values": values, "faults": None, "the_first_form": None,
    "rules_of_programs": None, "reaches": reaches
}
LARGE: dict[str, Callable[[], Iterator[Example]] | None] = {"limits": limits, "tries": tries}


def of_rows(rows: Iterable[tuple[str, ...]]) -> Iterator[Example]:
    """The examples of a part of listings.txt."""
    wrap: dict[str, Callable[..., bytes]] = {
        "text": listing_of, "class": in_class, "code": in_code, "first code": functools.partial(in_code, form=FIRST)
    }
    for what, kind, text, *fault in rows:
        table, name, place = ("listing", *fault[0].split())[-3:] if fault else ("", "", "")
        given = text.split(" / ") if text else []
        escaped = codecs.decode(text, "unicode_escape").encode("latin1") if kind == "bytes" else b""
        yield what, escaped or wrap[kind](*given), (table, name, int(place)) if fault else None


def text_examples(has_large: bool) -> Iterator[tuple[str, bytes, bool, Fault | None]]:
    """Those of some limits are large, and take a minute."""
    rows = cases(os.path.join(os.path.dirname(__file__), "listings.txt"))
    for group, maker in {**SMALL, **(LARGE if has_large else {})}.items():
        for what, text, answer in (*of_rows(rows.get(group, [])), *(maker() if maker else ())):
            yield f"{group}: {what}", text, False, answer
    for what, text, answer in aligned():
        yield f"aligned: {what}", text, True, answer
