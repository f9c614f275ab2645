"""What the instructions on objects, arrays, fields and calls take of a method's registers and what they leave in them:
steps of dexasm-lint --code, as transfer.py has them."""
from __future__ import annotations

from collections.abc import Sequence
from typing import TYPE_CHECKING, Any

from dexasm.analysis.verifier import lattice as kinds
from dexasm.analysis.verifier.hierarchy import DIRECT, Call
from dexasm.analysis.verifier.lattice import ANY, CLASS, CONSTANTS, INT, NO_ARRAY, NUMBERS, OBJECT, REFERENCES, WIDE
from dexasm.analysis.verifier.operands import (
    REQUIRE,
    RegisterLine,
    put,
    put_some,
    require_int,
    require_reference,
    require_type,
    require_wide,
)
from dexasm.analysis.verifier.structure_rules import PRIVATE, STATIC

if TYPE_CHECKING:
    from dexasm.analysis.verifier.method import Method
    from dexasm.code import Insn

    Named = Any  # an Insn whose name or target is asked for: by its class each may be None

# The elements, or the fields, that an instruction of this ending takes.
ELEMENTS = {"": "IF", "-wide": "JD", "-object": "L[", "-boolean": "Z", "-byte": "B", "-char": "C", "-short": "S"}
# What an instruction of this ending gives of an array that is null: its elements can be ints or floats, but no objects.
EMPTY: dict[str, Sequence[kinds.RegType]] = {"": (CONSTANTS["boolean"],), "-wide": WIDE, "-object": (kinds.NULL,)}
EMPTY |= {ending: (NUMBERS[types],) for ending, types in ELEMENTS.items() if types in NUMBERS}
SOME = "L"  # in place of an element's type: it is a reference
WIDTHS = {"Z": 1, "B": 1, "S": 2, "C": 2, "I": 4, "F": 4, "J": 8, "D": 8}


def check_cast(method: Method, insn: Insn, line: RegisterLine, place: int) -> None:
    register = insn.registers[0]
    require_reference(method, line, register, place)
    line[register] = cast_to(method, insn, place)


def instance_of(method: Method, insn: Insn, line: RegisterLine, place: int) -> None:
    require_reference(method, line, insn.registers[1], place)
    cast_to(method, insn, place)
    line[insn.registers[0]] = kinds.BOOLEAN


def cast_to(method: Method, insn: Named, place: int) -> kinds.RegType:
    if insn.name[0] in "L[":
        return method.kinds.ref(str(insn.name))
    method.report(place, "cast-type", f"`{insn.name}` is no class and no array, so that no reference is of it")
    return ANY


def new_instance(method: Method, insn: Insn, line: RegisterLine, place: int) -> None:
    type_ = str(insn.name)
    why = ""
    if type_[0] != "L":
        why = "is no class: new-array makes arrays" if type_[0] == "[" else "is no class"
    elif type_ == CLASS:
        why = "has no objects that code makes: const-class names one"
    elif method.classes.is_abstract(type_):
        why = "is an interface" if method.classes.is_interface(type_) else "is abstract"
    if why:
        method.report(place, "new-type", f"`{type_}` {why}")
    # (where it runs again, its first object is in no register any more, since on the first way it wasn't in any)
    line[insn.registers[0]] = ANY if why else method.new(place, type_)


def array_length(method: Method, insn: Insn, line: RegisterLine, place: int) -> None:
    to, register = insn.registers
    array_of(method, insn, line, register, place)
    line[to] = INT


def new_array(method: Method, insn: Insn, line: RegisterLine, place: int) -> None:
    to, register = insn.registers
    require_int(method, line, register, place)
    line[to] = method.kinds.ref(str(insn.name)) if is_array(method, insn, place) else ANY


def is_array(method: Method, insn: Named, place: int) -> bool:
    if insn.name[0] == "[":
        return True
    method.report(place, "array-type", f"`{insn.name}` is no array: an array of it is `=[{insn.name}`")
    return False


def filled_new_array(method: Method, insn: Named, line: RegisterLine, place: int) -> None:
    if not is_array(method, insn, place):
        return
    if insn.name[1] in "JD":
        text = f"`{insn.name}` has elements of two registers each: new-array makes such an array"
        method.report(place, "array-type", text)
        return
    for register in argument_registers(insn):
        require_type(method, line, register, place, str(insn.name[1:]), "stored-type")


def array_of(method: Method, insn: Insn, line: RegisterLine, register: int, place: int) -> str:
    """The type of the elements of an array, SOME of references without a common class, "" where it isn't known."""
    kind = line[register]
    if not kind.is_ref:
        method.wrong(line, register, place, "an array")
    elif kind is REFERENCES:
        return SOME
    elif kind.type is not None and kind.type[0] == "[":
        return kind.type[1:]
    elif kind.type is not None or kind is NO_ARRAY:
        method.wrong_type(line, register, place, "[", "array-kind")
    return ""


def array_with(element: str) -> str:
    return "an array of references" if element == SOME else f"an array `[{element}`"


def fill_array(method: Method, insn: Named, line: RegisterLine, place: int) -> None:
    register = insn.registers[0]
    element = array_of(method, insn, line, register, place)
    if element and (element not in WIDTHS or WIDTHS[element] != insn.target.insn.width):
        width = WIDTHS.get(element)
        right = f"its elements have {width} bytes" if width else "its elements are references"
        text = f"v{register} is {array_with(element)}: {right}, and the payload's have {insn.target.insn.width}"
        method.report(place, "array-data", text)


def aget(method: Method, insn: Insn, line: RegisterLine, place: int) -> None:
    to, array, index = insn.registers
    element = element_of(method, insn, line, array, place, insn.mnemonic[4:])
    require_int(method, line, index, place)
    if element == SOME:
        line[to] = kinds.REFERENCE
    elif element:
        put(method, line, to, place, element)
    elif line[array].base in ("zero", "null"):
        put_some(method, line, to, place, EMPTY[insn.mnemonic[4:]])
    elif insn.mnemonic == "aget-object":
        line[to] = kinds.REFERENCE if line[array] is not ANY else ANY
    else:
        put_some(method, line, to, place, (ANY, ANY) if insn.mnemonic == "aget-wide" else (ANY,))


def element_of(method: Method, insn: Insn, line: RegisterLine, array: int, place: int, ending: str) -> str:
    """The type of the elements of an array that the instruction takes, "" where it isn't known or another one."""
    element = array_of(method, insn, line, array, place)
    if element and element[0] not in ELEMENTS[ending]:
        right = next(right for right, types in ELEMENTS.items() if element[0] in types)
        text = f"v{array} is {array_with(element)}: {insn.mnemonic[:4]}{right} is for that"
        method.report(place, "array-kind", text)
        line[array] = ANY
        return ""
    return element


def aput(method: Method, insn: Insn, line: RegisterLine, place: int) -> None:
    value, array, index = insn.registers
    ending = insn.mnemonic[4:]
    element = element_of(method, insn, line, array, place, ending)
    require_int(method, line, index, place)
    if ending == "-object":
        require_reference(method, line, value, place)
    elif element:
        REQUIRE[element](method, line, value, place)
    elif ending == "-wide":
        require_wide(method, line, value, place)
    elif ending:
        require_int(method, line, value, place)
    elif not line[value].is_single:
        method.wrong(line, value, place, "an int or a float")


# ---- fields


def field_of(method: Method, insn: Named, place: int, is_static: bool) -> tuple[str, str]:
    """Owner and type of the field, no type where it isn't the instruction's."""
    owner, type_, listed = method.classes.field(insn.name)
    ending = insn.mnemonic[4:]
    if listed and (listed == "static") != is_static:
        text, first = ("a static", "s") if listed == "static" else ("an instance", "i")
        method.report(place, "field-static", f"the field is {text} one: {first}{insn.mnemonic[1:]} is for that")
    if type_[0] not in ELEMENTS[ending]:
        right = next(right for right, types in ELEMENTS.items() if type_[0] in types)
        method.report(place, "field-type", f"the field is `{type_}`: {insn.mnemonic[:4]}{right} is for that")
        return owner, ""
    return owner, type_


def object_of(method: Method, insn: Named, line: RegisterLine, place: int, owner: str) -> None:
    """Asks for the object that has the field."""
    register = insn.registers[1]
    kind = line[register]
    if kind.base == "this" and insn.mnemonic[1] == "p" and method.classes.is_own(method.owner, insn.name):
        return  # (a constructor may set what its class itself has before it calls another one)
    require_type(method, line, register, place, owner, "receiver-type")


def field(method: Method, insn: Insn, line: RegisterLine, place: int) -> None:
    """A get or a put."""
    register, is_static = insn.registers[0], insn.mnemonic[0] == "s"
    owner, type_ = field_of(method, insn, place, is_static)
    if not is_static:
        object_of(method, insn, line, place, owner)
    if insn.mnemonic[1] == "p":
        if type_:
            require_type(method, line, register, place, type_, "stored-type")
    elif type_:
        put(method, line, register, place, type_)
    else:
        put_some(method, line, register, place, (ANY, ANY) if insn.mnemonic.endswith("-wide") else (ANY,))


# ---- calls


def argument_registers(insn: Insn) -> tuple[int, ...] | range:
    """The registers that a call is given."""
    if insn.count is None:
        return insn.registers
    return range(insn.registers[0], insn.registers[0] + insn.count)


def invoke(method: Method, insn: Named, line: RegisterLine, place: int) -> None:
    kind = insn.mnemonic[7:].partition("/")[0]
    call = method.classes.call(insn.name)
    registers = argument_registers(insn)
    if not is_named(method, kind, call, place):
        return
    is_kind_right(method, insn, kind, call, place)
    needed = call.words + (kind != "static")
    if len(registers) != needed:
        takes = f"{needed} register{'s' * (needed != 1)}" + ("" if kind == "static" else ", its object among them")
        method.report(place, "argument-count", f"the method takes {takes}, and the call gives {len(registers)}")
        return
    method.check_outs(place, len(registers))
    arguments(method, line, place, call, registers[kind != "static" :])
    if call.name == "<init>" and kind == "direct":
        initialize(method, line, registers[0], place, call)
    elif kind != "static":
        receiver = OBJECT if kind == "interface" else call.owner
        require_type(method, line, registers[0], place, receiver, "receiver-type")


def arguments(method: Method, line: RegisterLine, place: int, call: Call, registers: Sequence[int]) -> None:
    at = 0
    for type_ in call.parameters:
        register = registers[at]
        at += 1
        if type_ in "JD":
            if registers[at] != register + 1:
                text = f"v{register} and v{registers[at]} are given for `{type_}`: the second has to be v{register + 1}"
                method.report(place, "pair-broken", text)
                at += 1
                continue
            at += 1
        require_type(method, line, register, place, type_, "argument-type")


def initialize(method: Method, line: RegisterLine, register: int, place: int, call: Call) -> None:
    """A constructor is called: its object is one in each register that has it."""
    kind = line[register]
    if kind is ANY:
        line[-1] = ANY
        return
    if kind.base not in ("new", "this"):
        if kind.is_ref:
            text = f"v{register} holds no new object: a constructor is called once, on what new-instance made"
            method.report(place, "constructor-call", text, register)
            line[register] = ANY
        else:
            method.wrong(line, register, place, "a new object")
        return
    if method.classes.is_incompatible(kind.type, call.owner):  # type: ignore[arg-type]  # (what is new has a type)
        method.wrong_type(line, register, place, call.owner, "receiver-type")
        return
    initialized = method.kinds.ref(kind.type)  # type: ignore[arg-type]  # (as above)
    line[:] = [initialized if one is kind else one for one in line]


def is_named(method: Method, kind: str, call: Call, place: int) -> bool:
    """Whether code may name the method in such a call."""
    if call.name[0] != "<" or call.name == "<init>" and kind == "direct":
        return True
    right = "invoke-direct calls it" if call.name == "<init>" else "only the system calls it"
    method.report(place, "call-init", f"{call.name} is named: {right}")
    return False


def wrong_by_owner(owner: str, is_interface: bool | None, flags: int | None, kind: str) -> str:
    """What is wrong with a call since it names the method of an interface, or of a class that is none."""
    if is_interface is False and kind == "interface":
        return f"`{owner}` is no interface: invoke-virtual calls its methods"
    if not is_interface or flags is not None and flags & STATIC:
        return ""
    if flags is not None and flags & PRIVATE:
        return f"the method is private, and `{owner}` an interface: no instruction of version 035 calls it"
    if kind in ("interface", "super") or kind == "static" and flags is None:
        return ""  # (what the file doesn't show may be static; invoke-super is taken by ART)
    return f"`{owner}` is an interface: invoke-interface calls its methods"


def is_kind_right(method: Method, insn: Named, kind: str, call: Call, place: int) -> None:
    """Asks for the kind of call that the method is of, as far as the file has its class."""
    flags = method.classes.method(insn.name)
    text = wrong_by_owner(call.owner, method.classes.is_interface(call.owner), flags, kind)
    if text:
        method.report(place, "call-kind", text)
        return
    if flags is None:
        if kind == "direct" and call.name != "<init>" and method.classes.is_incompatible(method.owner, call.owner):
            text = f"invoke-direct calls methods of the class itself and its superclasses, and `{call.owner}` is none"
            method.report(place, "call-kind", text)
        return
    right = "static" if flags & STATIC else "direct" if flags & DIRECT else "virtual"
    if right != {"super": "virtual", "interface": "virtual"}.get(kind, kind):
        text = f"the method is {right}: invoke-{right} calls it"
        if flags & PRIVATE and method.owner != call.owner:
            text = f"the method is private to `{call.owner}`: no other class can call it"
        method.report(place, "call-kind", text)
