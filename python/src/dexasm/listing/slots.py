"""Which word of a listing's line is at fault (docs/LISTING.md, "Faults"): for diagnostics.py."""
from __future__ import annotations

import re

from dexasm.formats import format_of
from dexasm.listing.hints import hint
from dexasm.listing.source import KEYWORDS, Class, Diagnostic, Kind, Line, Listing, Slot, decoded, number_of, slots
from dexasm.listing.syntax import FIRST_LINE, flag_words
from dexasm.names import FieldRef, MethodRef, Name, Proto, Type, member as member_name

_NAME, _NUMBER, _ORDER, _TWICE, _NOT_ENDED = 101, 102, 103, 104, 106
_NAMES: dict[str, type[Name]] = {"type": Type, "proto": Proto, "field": FieldRef, "method": MethodRef}
_WHAT = {
    "name": "a name of a member, as a or <init>",
    "type": "a type, as I or [Ljava/lang/String;",
    "proto": "a prototype, as (I[J)V",
    "field": "a field, as LA;->count:I",
    "method": "a method, as LA;->show(I)V",
    "label": "a label, as :L3",
}
_ESCAPED = re.compile(r"(?:[^\\]|\\u[0-9A-Fa-f]{4})*")
_DIGITS = re.compile(r"-?(?:[0-9]+|0x[0-9A-Fa-f]+)")
_DOTTED = re.compile(r"[A-Za-z_$][\w$]{0,99}(?:\.[A-Za-z_$][\w$]{0,99}){1,20}", re.ASCII)  # a class as Java writes it
_LOOKS = {"label": ":[A-Za-z0-9_]{1,32}", "bytes": "(?:[0-9A-Fa-f]{2})+", "text": "(?s:.*)"}
_BEFORE_NUMBER = {"register": "v", "@": "@", "number": ""}
# Which instruction takes a greater register or literal than this one.
_WIDER = (
    (r"(move(?:-wide|-object)?)", r"\1/from16 or \1/16"),
    (r"(move(?:-wide|-object)?)/from16", r"\1/16"),
    (r"(invoke-\w+|filled-new-array)", r"\1/range"),
    (r"const/4", "const/16 or const"),
    (r"const/16", "const"),
    (r"const-wide/16", "const-wide/32 or const-wide"),
    (r"const-wide/32", "const-wide"),
    (r"(\w+-\w+)/2addr", r"\1"),
    (r"rsub-int/lit8", "rsub-int"),
    (r"((?:add|mul|div|rem|and|or|xor)-int)/lit8", r"\1/lit16"),
)


def in_line(read: Listing, number: int, line: Line, before: Class | None) -> Diagnostic | None:
    """The word at fault of a line that has a fault of words, that says something twice or stands where it may not."""
    if number == _TWICE:
        return _duplicate(line, before) if before else None
    if number == _ORDER:
        return _misplaced(read, line, before)
    if number == _NOT_ENDED:
        return _not_ended(line, before)
    target = Kind("@", 32) if read.is_first_form else Kind("label")
    code = before.members[-1].code if before and before.members else None
    for slot in slots(line) if number in (_NAME, _NUMBER) else ():
        slot = Slot(slot.word, target) if slot.kind.name == "target" else slot
        if not _fits(slot):
            is_name = slot.kind.name in _WHAT
            why = hint(line, slot, code) or _why(line, slot)
            return Diagnostic(line, slot.word, why) if is_name == (number == _NAME) else None
    return None


def _misplaced(read: Listing, line: Line, before: Class | None) -> Diagnostic:
    """Why a line may not stand there, by what is begun before it and isn't ended."""
    word, code = line.words[0], before.members[-1].code if before and before.members else None
    if line.key == "dex":
        why = "the first line is repeated"
    elif read.is_first(line.number):
        why = FIRST_LINE
    elif before is None or before.end:
        why = "`class TYPE FLAGS` has to begin a class before it"
    elif code is None or code.end:
        why = _IN_CLASS.get(line.key, _IN_CLASS[""]).format(before.head.number)
    elif line.key not in (*KEYWORDS, "end") and not code.tries and read.is_first_form:
        word = read.words(line.number)[0]
        why = f"the number before it has to be {len(code.insns)}: instructions are numbered from 0"
    elif line.key in ("catch", "catchall"):
        why = "expected `try` or `end code` after `catchall`" if code.tries else "it needs a `try` before it"
    elif line.key in (*KEYWORDS, "end"):
        why = f"`end code` is missing before it: line {code.head.number} begins a code"
    else:
        why = "instructions are not allowed after the first `try` of a code"
    return Diagnostic(line, word, why)


# Why a line is not allowed in a class, outside of a code; "" is any other.
_IN_CLASS = {
    "class": "`end class` is missing before it: line {} begins a class",
    "end": "no code is begun that it could end",
    "code": "it must follow the line of its method",
    **dict.fromkeys(("super", "implements", "source"), "it must be before the members of its class"),
    "": "it must be in a code: `code REGISTERS INS OUTS` after the line of a method begins one",
}


def _not_ended(line: Line, before: Class | None) -> Diagnostic | None:
    """What the text lacks at its end; no word is at fault."""
    if before is None or before.end:
        return None
    code = before.members[-1].code if before.members else None
    what, head = ("code", code.head) if code is not None and not code.end else ("class", before.head)
    return Diagnostic(line, None, f"`end {what}` is missing behind it: line {head.number} begins a {what}")


def target_missing(one: Class, line: Line) -> Diagnostic | None:
    """The first target of a line that leads to no instruction; what a try covers may end after the last one."""
    member = one.member_at(line.number)
    if member is None or member.code is None:
        return None
    code = member.code
    for at, (word, kind) in enumerate(slots(line)):
        if kind.name == "target":
            most = len(code.insns) - (line.key != "try" or at == 0)
            if word.text[0] == ":" and word.text not in code.labels:
                return Diagnostic(line, word, f"{word.text} is no label of this code")
            if code.place(word) > most:
                return Diagnostic(line, word, f"{word.text} is after the last instruction")
    return None


def _fits(slot: Slot) -> bool:
    """Whether a word is what its slot takes."""
    text, (kind, size, _) = slot.word.text, slot.kind
    if kind in _BEFORE_NUMBER:
        return text.startswith(_BEFORE_NUMBER[kind]) and _is_number(text[len(_BEFORE_NUMBER[kind]) :], slot.kind)
    if kind in _LOOKS or kind == "digits":
        return re.fullmatch(_LOOKS.get(kind, f"[0-9A-Fa-f]{{{size}}}"), text) is not None
    try:
        name = decoded(slot.word) if _ESCAPED.fullmatch(text) else ""
        _NAMES[kind](name) if kind in _NAMES else member_name(name)
    except ValueError:
        return False
    return True


def _is_number(text: str, kind: Kind) -> bool:
    if not _DIGITS.fullmatch(text) or text[0] == "-" and not kind.is_signed:
        return False
    try:
        return number_of(text) in _range(kind)
    except ValueError:
        return False  # (more digits than Python takes)


def _range(kind: Kind) -> range:
    """The numbers of a slot."""
    half = 1 << kind.size - 1
    return range(-half, half) if kind.is_signed else range(2 * half)


def _why(line: Line, slot: Slot) -> str:
    """What the slot takes, and which instruction takes more."""
    text, (kind, size, is_signed) = slot.word.text, slot.kind
    if "," in text and text[0] != '"':
        return "it has a comma: separate words by spaces, as in `add-int v0 v1 v2`"
    if kind == "type" and _DOTTED.fullmatch(text):
        return f"it isn't a type: L{text.replace('.', '/')}; is"
    if kind in _WHAT:
        return f"it isn't {_WHAT[kind]}"
    if kind == "number":
        flags = next(flag_words(" ".join(word.text for word in line.words)), None)
        numbers = _range(slot.kind)
        more = _wider(line.key) if is_signed else ""
        return flags[1] if flags else f"a number from {numbers[0]} to {numbers[-1]} is expected here{more}"
    if kind == "register":
        return f"v0 to v{_range(slot.kind)[-1]} here{_wider(line.key)}"
    if kind == "digits":
        return f"{size} hexadecimal digits are expected here"
    return "a target is @ and the number of an instruction" if kind == "@" else "two hexadecimal digits for each byte"


def _wider(mnemonic: str) -> str:
    form = format_of(mnemonic)
    for narrow, wide in _WIDER if form else ():
        if found := re.fullmatch(narrow, mnemonic):
            return f"; {found.expand(wide)} takes more"
    return "; a move/from16 before it brings a higher one there" if form and form.registers and not form.literal else ""


def _duplicate(line: Line, before: Class) -> Diagnostic | None:
    """What was said before; a label may be another code's too."""
    if line.key[:1] == ":":
        return Diagnostic(line, line.words[0], "the code has this label already")
    own = _unique_key(line)
    for other in (*before.above, *(member.line for member in before.members)):
        if _unique_key(other) == own:
            return Diagnostic(line, line.words[1], f"line {other.number} says one already")
    return None


def _unique_key(line: Line) -> tuple[str, ...]:
    """What may be told once."""
    count = {"super": 0, "source": 0, "implements": 1}.get(line.key, 2)
    return line.key, *map(decoded, line.words[1 : count + 1])
