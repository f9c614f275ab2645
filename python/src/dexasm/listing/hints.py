"""What a word that is smali's or Java's is in a listing: for slots.py and syntax.py."""
from __future__ import annotations

import re
import struct
from collections.abc import Callable
from typing import TYPE_CHECKING

from dexasm import names
from dexasm.formats import MNEMONICS
from dexasm.names import Proto, Type

if TYPE_CHECKING:
    from dexasm.listing.source import Code, Line, Slot

PRIMITIVES = {java: letter for letter, java in names.PRIMITIVES.items()}
PRIMITIVES |= {"String": "Ljava/lang/String;", "Object": "Ljava/lang/Object;"}
_JAVA = re.compile(rf"(?<![\w/$])(?:{'|'.join(PRIMITIVES)})(?![\w/$])", re.ASCII)
_LONGEST = 200  # characters of a word that is rewritten
_FLOAT = re.compile(r"-?[0-9]{1,40}(?:\.[0-9]{1,40}(?:[eE][-+]?[0-9]{1,3})?[fFdD]?|[fFdD])")


def _is_type(text: str, kind: type[Type] | type[Proto] = Type) -> bool:
    try:
        kind(text)
    except ValueError:
        return False
    return True


def hint(line: Line, slot: Slot, code: Code | None) -> str | None:
    """What is meant by a word that its slot doesn't take, where that is plain."""
    text, kind = slot.word.text, slot.kind
    if len(text) > _LONGEST:
        return None
    if kind.name == "register":
        return _of_parameter(text, code)
    if kind.name == "number":
        return _of_number(text, kind.size if line.key.startswith("const") else 0)
    if kind.name == "type":
        return _of_type(text)
    return _of_proto(line, text) if kind.name == "proto" else None


def _of_parameter(text: str, code: Code | None) -> str | None:
    found = re.fullmatch("p([0-9]{1,5})", text)
    if found is None:
        return None
    why = "parameters are the last registers here, without names of their own"
    head = code.head.words[:4] if code else ()
    try:
        registers, ins = (int(word.text, 0) for word in head[1:3]) if head else (0, 0)
    except ValueError:
        return why
    is_one, at = int(found[1]) < ins <= registers, registers - ins + int(found[1])
    return f"{why}: with `{' '.join(word.text for word in head)}` {text} is v{at}" if is_one else why


def _of_number(text: str, size: int) -> str | None:
    """`size` is how many bits a constant has, 0 of another number."""
    if re.fullmatch(r"'[ -~]'", text):
        return f"a character is a number: {text} is {ord(text[1])}"
    if re.fullmatch(r"\+[0-9]+", text):
        return f"a number has no plus sign: {text[1:]}"
    if re.fullmatch(r"(?:-?[0-9]+|-?0x[0-9A-Fa-f]+)[lL]", text):
        return f"a number has no letter behind it: {text[:-1]}"
    if size not in (32, 64) or not _FLOAT.fullmatch(text):
        return None
    form, whole = ("<f", "<i") if size == 32 else ("<d", "<q")
    try:
        bits: int = struct.unpack(whole, struct.pack(form, float(text.rstrip("fFdD"))))[0]
    except OverflowError:
        return None
    return f"a floating-point number is written as its bits: {bits:#x}"


def _of_type(text: str) -> str | None:
    if text[-1:] != ";" and _is_type(f"{text};"):
        return f"`;` is missing at the end: {text};"
    if re.fullmatch(r"\[*L[\w$.]+;", text, re.ASCII) and _is_type(text.replace(".", "/")):
        return f"packages are separated by /: {text.replace('.', '/')}"
    return f"{text} is {PRIMITIVES[text]}" if text in PRIMITIVES else _of_java(text, Type)


def _of_proto(line: Line, text: str) -> str | None:
    if re.fullmatch("-?(?:0x)?[0-9A-Fa-f]+", line.words[1].text) and line.words[3].text[:1] == "(":
        return "the order is NAME PROTOTYPE FLAGS: flags come last"
    if text[-1:] == ")" and _is_type(f"{text}V", Proto):
        return f"the return type is missing, as in {text}V"
    turned = _arrays_turned(r"L[^;\[\]()]+;|[ZBCSIJFD]", text)
    if turned != text and _is_type(turned, Proto):
        return f"the [ of an array comes first: {turned}"
    dotted = re.sub(r"L[\w$.]+;", lambda found: found[0].replace(".", "/"), text)
    if dotted != text and _is_type(dotted, Proto):
        return f"packages are separated by /: {dotted}"
    return _of_java(text, Proto)


def _arrays_turned(type_: str, text: str) -> str:
    """A text with the brackets before each type that follow it."""
    return re.sub(rf"({type_})((?:\[\])+)", lambda found: "[" * (len(found[2]) // 2) + found[1], text)


def _of_java(text: str, kind: type[Type] | type[Proto]) -> str | None:
    """Of a word with types as Java names them these types, and the whole word."""
    named = dict.fromkeys(_JAVA.findall(text))
    turned = _arrays_turned(r"[^\[\](),]+", text)
    turned = _JAVA.sub(lambda found: PRIMITIVES[found[0]], turned).replace(",", "")
    if not named or not _is_type(turned, kind):
        return None
    return f"{' and '.join(f'{name} is {PRIMITIVES[name]}' for name in named)}: {turned}"


def of_first_word(key: str, is_alone: bool, known: Callable[[str], bool]) -> str | None:
    """Of a word that is no mnemonic and no keyword; `known` says which words are."""
    if known(key.lower()):
        return f"a {'mnemonic' if key.lower() in MNEMONICS else 'keyword'} is lower-case: {key.lower()}"
    return f"a label is written :{key[:-1]}" if is_alone and re.fullmatch(r"\w{1,31}:", key, re.ASCII) else None


def quoted(text: str) -> str | None:
    """A text in the quotes of a character."""
    return f'a text is in double quotes: "{text[1:-1]}"' if re.fullmatch("'[^'\"\\\\]*'", text) else None
