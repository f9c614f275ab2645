"""Why a line isn't of a listing's form (fault 100 of docs/LISTING.md): which word, and what stands there instead.

The library says that a line isn't; nothing is judged here, and each line that is refused gets a word and a reason.
"""
from __future__ import annotations

import difflib
import itertools
import re
from collections.abc import Iterator

from dexasm.flags import CLASS_FLAGS, FIELD_FLAGS, METHOD_FLAGS
from dexasm.formats import MNEMONICS, Format, format_of
from dexasm.listing.hints import of_first_word, quoted
from dexasm.listing.source import KEYWORDS, MEMBERS, PAYLOADS, VALUES, Diagnostic, Line, Listing, Word, operands, plural

MOST_CHECKED = 4000  # characters of a line that are looked through
LONGEST_NEAR = 40  # characters of a word that others are near to
MOST_LISTED = 5  # registers of a call
NUMBER = r"-?(?:[0-9]+|0x[0-9A-Fa-f]+)"
TYPE = r"\[*(?:[VZBSCIJFD]|L[^;]+;)"
# The form of a word in a place of this name; others are numbers.
PATTERNS = {
    "v": "v[0-9]+",
    ":": "[:@].*",
    "TEXT": '".*',
    "TYPE": TYPE,
    "PROTOTYPE": r"\(.*\).*",
    "NAME": r"[^;()\[\]/:\"]+",
    "FIELD": rf"{TYPE}->[^(:]+:{TYPE}",
    "METHOD": rf"{TYPE}->[^(:]+\([^)]*\){TYPE}",
    "BYTES": "(?:[0-9A-Fa-f]{2})+",
}
# What stands here for a directive of smali.
SMALI = {
    ".class": "`class LA; 0x1` begins a class, with its flags as a number",
    **{f".{word}": f"`{word} {' '.join(KEYWORDS[word])}`, without a dot" for word in ("super", "implements", "source")},
    ".field": "`static NAME TYPE FLAGS` or `instance NAME TYPE FLAGS`",
    ".method": "`direct NAME PROTOTYPE FLAGS` or `virtual ..`, and behind it `code REGISTERS INS OUTS`",
    ".registers": "`code REGISTERS INS OUTS` behind the method's line",
    ".locals": "`code REGISTERS INS OUTS` behind the method's line, and REGISTERS counts the parameters' too",
    ".end": "`end code` ends a method's code, and `end class` the class",
    ".packed-switch": "`packed-switch-payload FIRST :T ..`",
    ".sparse-switch": "`sparse-switch-payload KEY :T ..`",
    ".array-data": "`array-payload WIDTH BYTES`",
    ".catch": "`try :FROM :TO` behind the instructions, and below it `catch TYPE :LABEL`",
    ".catchall": "`try :FROM :TO` behind the instructions, and below it `catchall :LABEL`",
}
DROPPED = "debug information and annotations are no part of a listing: leave the line out"
FIRST_LINE = "the first line has to be `dex 035 listing 2`"
TEXTS_ALONE = re.compile(r'"(?:[^"\\]|\\.)*"')
CONSTANTS = ("null", "true", "false")  # values of one word

Found = tuple[Word, str]  # the word at fault, and why


def malformed_line(read: Listing, number: int) -> Diagnostic:
    """The word at fault of a line that isn't of the listing's form, and why."""
    text, is_first = read.text(number), read.is_first(number)
    words = [*words_of(text)] or [Word(text, 1)]
    mistake = next(common_mistakes(text, is_first), None)
    word, why = (word_at(text, mistake[0]), mistake[1]) if mistake else _structure(read, words, is_first)
    return Diagnostic(Line(number, tuple(words)), word, why)


def words_of(text: str) -> Iterator[Word]:
    for found in re.finditer(r'"(?:[^"\\]|\\.)*"?|[^ ]+', text[:MOST_CHECKED]):
        yield Word(found[0], found.start() + 1)


def word_at(text: str, at: int) -> Word:
    """The word that has this character, from there on where it is in a text."""
    end, begin = text.find(" ", at), text.rfind(" ", 0, at) + 1
    if '"' in text[begin:at]:
        begin = at
    return Word(text[begin : end if end >= 0 else len(text)] or text[at:], begin + 1)


# ---- what is often wrong, in characters


def common_mistakes(text: str, is_first: bool) -> Iterator[tuple[int, str]]:
    """What is often the reason why a line isn't of the listing's form, and where; a very long one isn't looked through."""
    if len(text) > MOST_CHECKED:
        return
    begin, end = int(text.startswith("\ufeff")), len(text) - text.endswith("\r")
    if begin:
        yield 0, "the line begins with a byte order mark (ef bb bf): save the text without one"
    if end < len(text):
        yield end, "the line ends in a carriage return (CRLF): a listing has line feeds alone (dos2unix, or sed 's/\\r$//')"
    text = text[begin:end]
    bare = TEXTS_ALONE.sub(lambda found: '"' + "_" * (len(found[0]) - 2) + '"', text)
    mistakes = itertools.chain(flag_words(bare), _characters(bare, text), _lines(bare, is_first))
    yield from ((at + begin, why) for at, why in mistakes)


def _characters(bare: str, text: str) -> Iterator[tuple[int, str]]:
    if "\t" in bare:
        at = bare.index("\t")
        yield at, f"there is a tab at column {at + 1}: separate words by spaces"
    if other := re.search(r"[^\t -~]", text):
        digits = other[0].encode("utf8", "surrogateescape").hex(" ")
        which = ("the bytes {} at column {} are" if " " in digits else "the byte {} at column {} is").format
        yield other.start(), f"{which(digits, other.start() + 1)} none of a listing: write it as \\uXXXX"
    comment = re.search(r"(?<=[^ ] )//|(?<!^)#", bare.replace("\t", " "))
    if comment and bare[: comment.start()].strip(" "):
        yield comment.start(), "a comment needs its own line: it cannot follow other words"
    yield from _texts(bare, text)
    if "," in bare:
        at = bare.index(",")
        yield at, f"there is a comma at column {at + 1}: separate words by spaces, as in `add-int v0 v1 v2`"


def _texts(bare: str, text: str) -> Iterator[tuple[int, str]]:
    if bare.count('"') % 2:
        yield bare.rindex('"'), "a text isn't closed: it ends at the next quote that has no backslash before it"
        return
    if behind := re.search(r'"_*"([^ \r])', bare):
        yield behind.start(1), 'a space has to follow a text, and a quote in a text is \\"'
    for found in TEXTS_ALONE.finditer(text):
        if wrong := re.search(r'(?<!\\)(?:\\\\)*\\(?!u[0-9A-Fa-f]{4}|["\\])', found[0]):
            yield found.start() + wrong.end() - 1, 'in a text a backslash begins \\", \\\\ or \\uXXXX, and nothing else'
            return


def _lines(bare: str, is_first: bool) -> Iterator[tuple[int, str]]:
    at = len(bare) - len(bare.lstrip(" "))
    if smali := re.match(r" *(\.[a-z-]+)(?: |$)", bare):
        yield at, f"it is smali: here {SMALI[smali[1]]}" if smali[1] in SMALI else f"it is smali: {DROPPED}"
    if re.match(r" *(?:;|//|/\*)", bare):
        yield at, "a comment begins with #"
    if re.match(r" *dex(?:\s|$)", bare) and not re.fullmatch(r" *dex +035(?: +listing +2)? *", bare):
        yield at, "a listing begins with `dex 035 listing 2`, or with `dex 035`, and no other version"
    elif is_first and not re.match(r" *dex\b", bare):
        yield at, FIRST_LINE


def flag_words(bare: str) -> Iterator[tuple[int, str]]:
    """Words of Java where flags stand, and the number that they are."""
    words = [*words_of(bare)]
    first, table = FLAGS_AT.get(words[0].text if words else "", (len(words), {}))
    bits = {word: bit for bit, word in table.items()}
    flags = itertools.takewhile(lambda word: word.text != "=", words[first:])  # (enum is a kind of value too)
    if found := [word for word in flags if word.text in bits]:
        names, number = " ".join(word.text for word in found), sum({bits[word.text] for word in found})
        yield found[0].column - 1, f"flags are a number: {names} is 0x{number:x} (docs/LISTING.md has a table of them)"


# Of each line with flags which of its words they are, and what those are in Java.
FLAGS_AT: dict[str, tuple[int, dict[int, str]]] = {"class": (2, CLASS_FLAGS)}
FLAGS_AT |= {"static": (3, FIELD_FLAGS), "instance": (3, FIELD_FLAGS)}
FLAGS_AT |= {"direct": (3, METHOD_FLAGS), "virtual": (3, METHOD_FLAGS)}


# ---- what is wrong with its words


def _structure(read: Listing, words: list[Word], is_first: bool) -> Found:
    first, *words = words
    if read.is_first_form and re.fullmatch(f"{NUMBER}:", first.text) and words:
        first, *words = words
    elif read.is_first_form and (first.text[-1:] == ":" or first.text[:1] == ":" or _is_insn(first.text)):
        return first, FIRST_LINE if is_first else _of_first_form(first.text)
    key = first.text
    if key[:1] == ":":
        return words[0] if words else first, "a label has a line of its own"
    if key == "end":
        is_ended = len(words) > 1 and words[0].text in ("class", "code")
        return (words or [first])[is_ended], "`end code` or `end class`" + ", and nothing behind it" * bool(words)
    if key in KEYWORDS:
        return _keyword(first, words)
    if _is_insn(key):
        return _insn(first, words)
    return first, "a text can't begin a line" if key[:1] == '"' else _unknown(key, not words)


def _is_insn(key: str) -> bool:
    return key in PAYLOADS or format_of(key) is not None


def _of_first_form(key: str) -> str:
    if key[:1] == ":":
        return "labels are of the form that begins with `dex 035 listing 2`"
    if key[-1:] == ":":
        return "in the form that begins with `dex 035` the word before the colon is a number"
    return f"in the form that begins with `dex 035` each instruction has its number before it: `0: {key}`"


def _unknown(key: str, is_alone: bool) -> str:
    known = (*MNEMONICS, *PAYLOADS, *KEYWORDS, "end", "dex")
    meant = of_first_word(key, is_alone, lambda word: word in known)
    others = f"; {meant}" if meant else near(key, known)
    if not others and is_alone and re.fullmatch(r"\w{1,32}", key, re.ASCII):
        others = f"; a label is written :{key}"
    return f"no mnemonic or keyword{others}"


def near(word: str, words: tuple[str, ...]) -> str:
    """Which of the words are near this one, to be said behind what it isn't."""
    found = difflib.get_close_matches(word, words, 3, 0.6) if len(word) <= LONGEST_NEAR else []
    return f"; near it: {', '.join(found)}" if found else ""


def _keyword(first: Word, words: list[Word]) -> Found:
    key, wanted, is_method = first.text, [*KEYWORDS[first.text]], first.text in ("direct", "virtual")
    looks = r"([^(:]+)(\(.*)" if is_method else "([^(:]+):(.+)"
    if glued := re.fullmatch(looks, words[0].text) if key in MEMBERS and words else None:
        return words[0], f"a name and its {'prototype' if is_method else 'type'} are two words: {glued[1]} {glued[2]}"
    at = next((at for at, word in enumerate(words) if word.text == "="), -1)
    if key in MEMBERS and len(words) > 2 and at >= 0:
        if at == 3:
            return _value(words[3], words[4:]) if key == "static" else (words[3], "only a static field has a value")
        words = words[:at]
    elif key == "static" and len(words) > 3 and _fits("FLAGS", words[2]):
        is_value = words[3].text in (*VALUES, "array", *CONSTANTS)
        return words[3], "`=` is missing before a value" if is_value else "only `= VALUE` may follow the flags"
    return _compared(takes(key, wanted), first, words, wanted)


# ---- values


def _value(before: Word, words: list[Word]) -> Found:
    """What is wrong with the words of a value."""
    depth, is_whole, rest = 0, False, iter(words)
    for word in rest:
        if is_whole:
            return word, "expected a single value after `=`"
        before, text = word, word.text
        if text == "}" and depth:
            depth -= 1
        elif text == "array":
            before, depth = next(rest, word), depth + 1
            if before.text != "{":
                return before, "an array is `array { VALUE .. }`: braces are words of their own"
        elif text in VALUES:
            operand = next(rest, None)
            if operand is None or (operand.text[:1] == '"') != (text == "string"):
                meant = quoted(operand.text) if operand and text == "string" else None
                return operand or word, meant or f"expected {OPERANDS.get(text, 'a number')} after `{text}`"
            before = operand
        elif text not in CONSTANTS:
            return word, _without_kind(text)
        is_whole = depth == 0
    return before, "a } is missing" if depth else "a value is missing behind `=`"


NAMED = ("field", "method", "type")
OPERANDS = {"string": "a text in quotes", "enum": "a field", **{one: f"a {one}" for one in NAMED}}
OPERANDS |= {"float": "bits: 8 hexadecimal digits", "double": "bits: 16 hexadecimal digits"}


def _without_kind(text: str) -> str:
    kinds = ("int", NUMBER), ("string", PATTERNS["TEXT"]), *((one, PATTERNS[one.upper()]) for one in NAMED)
    kind = next((kind for kind, looks in kinds if re.fullmatch(looks, text)), None)
    if kind is not None:
        return f"a value has its kind before it, as in `{kind} {text[:LONGEST_NEAR]}`"
    if len(text) > 1 and (text[0] in "{}" or text[-1] in "{}"):
        return "braces are words of their own: `array { int 1 }`"
    return f"no kind of a value{near(text, (*VALUES, 'array', *CONSTANTS))}"


# ---- instructions


def labels_of(form: Format) -> list[str]:
    """What stands behind a mnemonic, in the listing's order."""
    return ["{ registers }"] * form.is_list + [label for label, _ in operands(form)]


def takes(key: str, wanted: list[str]) -> str:
    return f"{key} takes {' '.join(wanted) or 'no operand'}"


def _insn(first: Word, words: list[Word]) -> Found:
    key, form = first.text, format_of(first.text)
    if form is None:
        return _payload(first, words)
    wanted = labels_of(form)
    usage = takes(key, wanted)
    if glued := next((word for word in words if len(word.text) > 1 and re.match(r"\{|[^\"].*[{}]$", word.text)), None):
        inner = glued.text.strip("{}").replace(",", " ")
        return glued, f"braces are words of their own, as in `{{ {inner or 'v0'} }}`"
    if parted := _split_name(form, words):
        return parted
    if form.is_list:
        return _call(usage, first, words, wanted)
    if brace := next((word for word in words if word.text in ("{", "}")), None):
        first_and_count = f", but the first register and how many{_range_of(words)}" if form.is_range else ""
        return brace, f"no braces here{first_and_count}: {usage}"
    return _compared(usage, first, words, wanted)


def _range_of(words: list[Word]) -> str:
    """The registers between braces as the first one and their count, where they rise by one."""
    listed = [word.text for word in words if re.fullmatch("v[0-9]{1,5}", word.text)]
    numbers = [int(register[1:]) for register in listed]
    is_ended = len(numbers) == 2 and any(word.text == ".." for word in words)
    if not numbers or not is_ended and numbers != [*range(numbers[0], numbers[0] + len(numbers))]:
        return ""
    count = numbers[-1] - numbers[0] + 1
    return f", as in {listed[0]} {count}" if count > 0 else ""


def _split_name(form: Format, words: list[Word]) -> Found | None:
    """A field or a method in several words."""
    if form.name not in ("field", "method"):
        return None
    look = re.compile(PATTERNS[form.name.upper()])
    for at, word in enumerate(words):
        following = words[at + 1].text if words[at + 1 : at + 2] else ""
        arrow = "" if "->" in word.text or following.startswith("->") else "->"
        if arrow and not re.fullmatch(TYPE, word.text):
            continue
        for count in (2, 3, 4):
            parts = [part.text for part in words[at : at + count]]
            if word.text[:1] not in "L[" or len(parts) < count or arrow and any("->" in part for part in parts):
                break
            parts[:2] = [arrow.join(parts[:2])] if arrow else parts[:2]
            for joined in ("".join(parts), ":".join(parts)):
                if look.fullmatch(joined) and len(joined) <= MOST_CHECKED and not look.fullmatch(word.text):
                    return word, f"a {form.name} is one word: {joined}"
    return None


def _call(usage: str, first: Word, words: list[Word], wanted: list[str]) -> Found:
    """What is wrong with a call that lists its registers."""
    if not words or words[0].text != "{":
        registers = " ".join(word.text for word in words if _fits("v", word)) or "v0"
        return (words or [first])[0], f"braces are missing: {first.text} {{ {registers} }} {wanted[1]}"
    end = next((at for at, word in enumerate(words) if word.text == "}"), None)
    if end is None:
        wrong = next((word for word in words[1:] if not _fits("v", word)), words[-1])
        return wrong, f"a }} is missing before it: {usage}"
    if end - 1 > MOST_LISTED:
        why = f"{end - 1} registers: {first.text}/range takes more than {MOST_LISTED}"
        return words[1 + MOST_LISTED], why
    if text := next((word for word in words[1:end] if word.text[:1] == '"'), None):
        return text, "expected a register, not a text"
    behind = words[end + 1 :]
    wrong, _ = _compared(usage, words[end], behind, wanted[1:])
    return wrong, f"{usage}: {plural(len(behind), 'word')} behind the braces"


def _payload(first: Word, words: list[Word]) -> Found:
    if first.text == "array-payload":
        wanted = ["WIDTH", "BYTES"]
        return _compared(takes(first.text, wanted), first, words, wanted)
    usage = takes(first.text, ["FIRST :T .." if first.text == PAYLOADS[0] else "KEY :T KEY :T .."])
    if text := next((word for word in words if word.text[:1] == '"'), None):
        return text, f"{usage}, and no text"
    return (words or [first])[-1], f"{usage}: {plural(len(words), 'word')} here"


# ---- words beside what is wanted


def _compared(usage: str, first: Word, words: list[Word], wanted: list[str]) -> Found:
    """The word that is one too few or too many, or of another kind."""
    for word, kind in zip(words, wanted):
        if kind == "TEXT" and word.text[:1] != '"':
            return word, f"{quoted(word.text) or 'expected a text in quotes'}: {usage}"
        if kind != "TEXT" and word.text[:1] == '"':
            return word, f"{kind} is expected here, not a text: {usage}"
    at = next((at for at, (word, kind) in enumerate(zip(words, wanted)) if not _fits(kind, word)), len(words))
    here = f"{usage}: {plural(len(words), 'word')} here"
    if len(words) < len(wanted):
        missing = wanted[min(at, len(wanted) - 1)]
        return [*words, (words or [first])[-1]][at], f"{here}, and {missing} is missing"
    if len(words) > len(wanted):
        return words[min(at, len(wanted))], f"{here}, and this one is too many"
    return [*words, first][at], f"{usage}, and these words aren't that"


def _fits(kind: str, word: Word) -> bool:
    """Whether a word looks as what is wanted at its place."""
    return re.fullmatch(PATTERNS.get(kind, PATTERNS.get(kind[0], NUMBER)), word.text, re.S) is not None
