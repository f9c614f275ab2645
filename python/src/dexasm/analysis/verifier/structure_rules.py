"""What Android's verifier of .dex files asks of a program of version 035 and dexasm doesn't: for dexasm-lint.

The rules (rules.py) are those of ART 14 (libdexfile, dex_file_verifier.cc; of superclass-missing
runtime/class_linker.cc) that a file can break which dexasm accepts, and still breaks when it is stripped. What that
verifier asks of later versions alone, and only warns of in 035 (members of interfaces, constructors without code), is
none of them.
"""
from __future__ import annotations

from collections.abc import Iterator
from typing import TYPE_CHECKING

from dexasm.analysis.verifier.lattice import OBJECT
from dexasm.names import spelled

if TYPE_CHECKING:
    from dexasm.classes import Class, Field, Method

    Violation = tuple[str | None, str, str]  # the signature of a member, None of the class itself; a rule; and by what

PUBLIC, PRIVATE, PROTECTED, STATIC, FINAL, SYNCHRONIZED = 0x1, 0x2, 0x4, 0x8, 0x10, 0x20
VOLATILE, VARARGS, NATIVE, INTERFACE, ABSTRACT, STRICT, SYNTHETIC = 0x40, 0x80, 0x100, 0x200, 0x400, 0x800, 0x1000
CONSTRUCTOR, DECLARED_SYNCHRONIZED = 0x10000, 0x20000
JAVA_FLAGS = 0xFFFF
METHOD_FLAGS = JAVA_FLAGS | CONSTRUCTOR | DECLARED_SYNCHRONIZED
# Of these bits alone more is asked of a method; the others are let be.
METHOD_BITS = 0x1DFF
INIT_FLAGS = PUBLIC | PRIVATE | PROTECTED | VARARGS | STRICT | SYNTHETIC
NOT_ABSTRACT = PRIVATE | STATIC | FINAL | SYNCHRONIZED | NATIVE | STRICT
SHORT_OUTS = 5  # a call that lists its registers can name one several times, so that it needs no such many of them
CONSTRUCTORS = ("<init>", "<clinit>")
# The kind of a value, and the type of a field that it fits; reference types are L here.
VALUE_TYPES = {"byte": "B", "short": "S", "char": "C", "int": "I", "long": "J", "float": "F", "double": "D"}
VALUE_TYPES |= {"boolean": "Z", "null": "L", "string": "L", "type": "L"}


def violations(one: Class) -> Iterator[Violation]:
    """The rules that a class breaks, in the order of its members."""
    if one.flags & ~JAVA_FLAGS:
        yield None, "class-flags", f"{one.flags:#x}"
    if one.superclass is None and one.name != OBJECT:
        yield None, "superclass-missing", f"`super {OBJECT}` gives it one"
    for at, field in enumerate(one.fields):
        for rule in of_field(field, at < len(one.statics), one.flags):
            yield field.signature, rule, f"{field.flags:#x}"
        yield from of_value(field)
    direct = {method.signature for method in one.directs}
    for at, method in enumerate(one.methods):
        for rule in of_method(method, at < len(one.directs)):
            yield method.signature, rule, f"{method.flags:#x}"
        yield from of_code(method)
        if at >= len(one.directs) and method.signature in direct:
            yield method.signature, "in-both-lists", f"{method.flags:#x}"


def is_one_of(flags: int) -> bool:
    """Whether at most one of public, protected and private is set."""
    access = flags & (PUBLIC | PROTECTED | PRIVATE)
    return access & (access - 1) == 0


def of_field(field: Field, is_static: bool, class_flags: int) -> Iterator[str]:
    """What the flags of a field break."""
    flags = field.flags
    if flags & ~JAVA_FLAGS:
        yield "field-flags"
    if not is_one_of(flags):
        yield "one-of-public-protected-private"
    if flags & VOLATILE and flags & FINAL and not class_flags & INTERFACE:
        yield "volatile-and-final"
    if bool(flags & STATIC) != is_static:
        yield "field-list"


def of_method(method: Method, is_direct: bool) -> Iterator[str]:
    """What the flags of a method break."""
    is_constructor, flags = method.name in CONSTRUCTORS, method.flags
    if flags & ~METHOD_FLAGS:
        yield "method-flags"
    if not is_one_of(flags):
        yield "one-of-public-protected-private"
    if flags & CONSTRUCTOR and not is_constructor:
        yield "constructor-flag"
    if (is_constructor or bool(flags & (STATIC | PRIVATE))) != is_direct:
        yield "method-list"
    if method.code is None:
        if not flags & (NATIVE | ABSTRACT):
            yield "code-missing"
        if flags & ABSTRACT and flags & NOT_ABSTRACT:
            yield "abstract-flags"
        return
    if flags & (NATIVE | ABSTRACT):
        yield "code-unwanted"
    if method.name == "<init>" and flags & METHOD_BITS & ~(INIT_FLAGS | NATIVE | ABSTRACT):
        yield "init-flags"


def of_code(method: Method) -> Iterator[Violation]:
    """What a method's name and the numbers of its code break."""
    name, proto, code = method.name, method.proto, method.code
    if name.startswith("<") and name not in CONSTRUCTORS:
        yield method.signature, "method-name", spelled(name)
    if name == "<clinit>" and proto != "()V" or name == "<init>" and not proto.endswith(")V"):
        yield method.signature, "constructor-signature", spelled(proto)
    if code and code.outs > max(SHORT_OUTS, code.registers):
        yield method.signature, "outs-size", f"{code.outs} outs, {code.registers} registers"


def of_value(field: Field) -> Iterator[Violation]:
    """What the value of a static field breaks."""
    if field.value is None:
        return
    kind = field.value.kind
    word = str(field.value) if kind == "boolean" else kind
    if kind not in VALUE_TYPES:
        yield field.signature, "value-kind", word
    elif VALUE_TYPES[kind] != ("L" if field.type[0] in "L[" else field.type):
        yield field.signature, "value-type", f"{word} in {spelled(field.type)}"
