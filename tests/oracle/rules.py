"""Which rule of programs is broken (FORMAT "The rules of a program"): the lowest class, and its lowest number."""
from collections.abc import Callable, Iterable, Sequence
from typing import Any

from .faults import GOTO_32, is_array_type, is_class_type, is_descriptor, is_member_name
from .model import Class, Code, FieldName, Instruction, LITERAL_BITS, MNEMONICS, MethodName, NEEDED_PAYLOAD, Name
from .model import Payload, Proto, REGISTER_BITS, Value, WITH_NAME, form_of, kind_of_name
from .pages import Refusal

DEEPEST = 64
MOST_TARGETS = 65535
Places = tuple[dict[str, int], dict[str, int]]

# ----------------------------------------------------------------------------------------------------------- 110: names


def is_class(text: str) -> bool:
    return is_descriptor(text) and is_class_type(text)


def is_right_proto(proto: Proto) -> bool:
    result, parameters = proto
    return is_descriptor(result) and all(is_descriptor(text) and text != "V" for text in parameters)


def is_right_field(field: FieldName) -> bool:
    owner, name, text = field
    return is_class(owner) and is_member_name(name) and is_descriptor(text) and text != "V"


def is_right_method(method: MethodName) -> bool:
    owner, name, proto = method
    is_owner = is_descriptor(owner) and (is_class_type(owner) or is_array_type(owner))
    return is_owner and is_member_name(name) and is_right_proto(proto)


def is_right_name(kind: str, name: Name) -> bool:
    checks: dict[str, Callable[[Any], bool]]
    checks = {"type": is_descriptor, "field": is_right_field, "enum": is_right_field, "method": is_right_method}
    return kind not in checks or checks[kind](name)


def has_wrong_value_name(values: Iterable[Value]) -> bool:
    rest = list(values)
    while rest:
        kind, held = rest.pop()
        if kind == "array":
            rest.extend(held)
        elif not is_right_name(kind, held):
            return True
    return False


def has_wrong_code_name(code: Code) -> bool:
    for each in code.instructions:
        if isinstance(each, Instruction) and form_of(each.opcode) in WITH_NAME:
            if not is_right_name(kind_of_name(each.opcode), each.name):
                return True
    return any(not is_descriptor(text) for one in code.tries for text, _ in one.catches)


def breaks_name(made: Class) -> bool:
    above = made.interfaces + ([] if made.superclass is None else [made.superclass])
    fields = [(made.type, each.name, each.type) for each in made.statics + made.instances]
    methods = [(made.type, each.name, each.proto) for each in made.directs + made.virtuals]
    return (
        not all(map(is_class, [made.type, *above])) or not all(map(is_right_field, fields))
        or not all(map(is_right_method, methods)) or has_wrong_value_name(made.values)
        or any(map(has_wrong_code_name, made.codes()))
    )


# ------------------------------------------------------------------------------------------------ 111 to 113: the class


def rises(keys: Sequence[Any]) -> bool:
    return all(key < following for key, following in zip(keys, keys[1:]))


def breaks_member_order(made: Class) -> bool:
    fields: list[list[Any]]
    fields = [[(each.name, each.type) for each in members] for members in (made.statics, made.instances)]
    methods = [[(each.name, each.proto) for each in members] for members in (made.directs, made.virtuals)]
    return not all(map(rises, fields + methods))


def places_of(classes: Iterable[Class]) -> Places:
    """The first and the last class of each name."""
    first: dict[str, int]
    first, last = {}, {}
    for i, made in enumerate(classes):
        first.setdefault(made.type, i)
        last[made.type] = i
    return first, last


def breaks_class_order(made: Class, i: int, places: Places) -> bool:
    first, last = places
    above = made.interfaces + ([] if made.superclass is None else [made.superclass])
    return (
        first[made.type] < i or any(last.get(text, -1) >= i for text in above)
        or len(set(made.interfaces)) < len(made.interfaces)
    )


def is_too_deep(value: Value) -> bool:
    """Whether a value is more than 64 deep: an array is one deeper than the deepest in it, an empty one 1 deep."""
    level, depth = [value], 0
    while level:
        level = [held for kind, helds in level if kind == "array" for held in helds or [("null", None)]]
        depth += 1
    return depth - 1 > DEEPEST


def breaks_values(made: Class) -> bool:
    return len(made.values) > len(made.statics) or any(map(is_too_deep, made.values))


# ---------------------------------------------------------------------------------------------------- 114: the operands


def fits(number: int, bits: int) -> bool:
    return 0 <= number < 1 << bits


def fits_signed(number: int, bits: int) -> bool:
    return -(1 << bits - 1) <= number < 1 << bits - 1


def is_right_instruction(each: Instruction) -> bool:
    if each.opcode not in MNEMONICS:
        return False
    form = form_of(each.opcode)
    if form == "35c":
        return len(each.registers) <= 5 and all(fits(register, 4) for register in each.registers)
    bits = REGISTER_BITS[form]
    if len(bits) != len(each.registers) or not all(map(fits, each.registers, bits)):
        return False
    if form == "3rc" and not fits(each.count, 8):
        return False
    return form not in LITERAL_BITS or fits_signed(each.literal, LITERAL_BITS[form])


def is_right_payload(each: Payload) -> bool:
    if each.kind == "array":
        is_width = each.width in (1, 2, 4, 8) and len(each.data) % each.width == 0
        return is_width and fits(len(each.data) // each.width, 32)
    if len(each.targets) > MOST_TARGETS or not all(fits_signed(key, 32) for key in each.keys):
        return False
    if each.kind == "packed":
        return len(each.keys) == 1
    return len(each.keys) == len(each.targets) and rises(each.keys)


def breaks_operand(code: Code) -> bool:
    if not 0 < len(code.instructions) <= 0x7FFFFFFF:
        return True
    return not all(
        is_right_instruction(each) if isinstance(each, Instruction) else is_right_payload(each)
        for each in code.instructions
    )


# ------------------------------------------------------------------------------------ 115 and 116: targets, payload use


def is_target(code: Code, k: int) -> bool:
    """An instruction that isn't a payload."""
    return 0 <= k < len(code.instructions) and isinstance(code.instructions[k], Instruction)


def breaks_target(code: Code) -> bool:
    for k, each in enumerate(code.instructions):
        if isinstance(each, Instruction):
            if each.target is None or each.opcode in NEEDED_PAYLOAD:
                continue
            if not is_target(code, each.target) or (each.target == k and each.opcode != GOTO_32):
                return True
        elif not all(is_target(code, target) for target in each.targets):
            return True
    return False


def breaks_payload_use(code: Code) -> bool:
    users = [0] * len(code.instructions)
    for each in code.instructions:
        if isinstance(each, Instruction) and each.opcode in NEEDED_PAYLOAD:
            if not 0 <= each.target < len(code.instructions) or is_target(code, each.target):
                return True
            # (what is no target in its bounds is a payload)
            if code.instructions[each.target].kind != NEEDED_PAYLOAD[each.opcode]:  # type: ignore[union-attr]
                return True
            users[each.target] += 1
    return any(
        not isinstance(each, Instruction) and each.kind != "array" and count != 1
        for each, count in zip(code.instructions, users)
    )


# ---------------------------------------------------------------------------------------- 117 and 118: tries, registers


def breaks_try(code: Code) -> bool:
    end, length = 0, len(code.instructions)
    for one in code.tries:
        handlers = [k for _, k in one.catches] + ([] if one.other is None else [one.other])
        if not end <= one.first < one.after <= length or not handlers:
            return True
        if not all(0 <= k < length for k in handlers):
            return True
        end = one.after
    return False


def registers_of(each: Instruction) -> Sequence[int]:
    """The registers that an instruction names (FORMAT "Code items")."""
    if form_of(each.opcode) == "3rc":
        return range(each.registers[0], each.registers[0] + each.count)
    return each.registers


def breaks_register(code: Code) -> bool:
    if code.ins > code.registers:
        return True
    return any(
        register >= code.registers
        for each in code.instructions if isinstance(each, Instruction) for register in registers_of(each)
    )


# ------------------------------------------------------------------------------------------------------------------ all


def fault_of_class(made: Class, i: int, places: Places) -> str | None:
    codes = made.codes()
    for name, is_broken in (
        ("Name", lambda: breaks_name(made)),
        ("MemberOrder", lambda: breaks_member_order(made)),
        ("ClassOrder", lambda: breaks_class_order(made, i, places)),
        ("Values", lambda: breaks_values(made)),
        ("Operand", lambda: any(map(breaks_operand, codes))),
        ("Target", lambda: any(map(breaks_target, codes))),
        ("PayloadUse", lambda: any(map(breaks_payload_use, codes))),
        ("Try", lambda: any(map(breaks_try, codes))),
        ("Register", lambda: any(map(breaks_register, codes))),
    ):
        if is_broken():  # type: ignore[no-untyped-call]  # (a lambda)
            return name
    return None


def rule_fault(classes: Iterable[Class]) -> Refusal | None:
    """The refusal of a program that breaks a rule; None where it keeps them."""
    places = places_of(classes)
    for i, made in enumerate(classes):
        name = fault_of_class(made, i, places)
        if name is not None:
            return Refusal("rules", name, i)
    return None
