"""The tables by which crates/dex_insn/src/named.rt finds the opcode of a mnemonic, from the rows of opcodes.rt beside it.

A mnemonic has the slot (high + SHIFTS[low]) % 256, where high are the bits of its sum from the 32nd on and low the six highest. Mnemonics
of one low share a shift. Of these groups the largest come first, of equally large ones that of the lowest opcode; each takes the least
shift with which its mnemonics have slots of their own that no group before it has. A slot that stays free has the highest unused opcode.
A mnemonic of fewer than four bytes has none: nop is the only one, and the code says so.
"""
import re

from .making import Made, Missing

OPCODES, NAMED = "crates/dex_insn/src/opcodes.rt", "crates/dex_insn/src/named.rt"
ROW = re.compile(r'^    (?:row!\("([^"]+)" [^)]+\)|None), // ([0-9a-f]{2})$', re.M)


def sum_of(text: bytes) -> int:
    end = len(text) - 4
    first, middle, last = (int.from_bytes(text[at:at + 4], "little") for at in (0, end // 2, end))
    return (first + 3 * middle + 9 * last + len(text)) * 0x9E3779B97F4A7C15 % 2**64


def tables(mnemonics: list[str]) -> tuple[list[int], list[int]]:
    """SHIFTS and SLOTS of the mnemonics by opcode; that of an unused opcode is empty."""
    groups: dict[int, list[tuple[int, int]]] = {}
    for opcode, mnemonic in enumerate(mnemonics):
        if len(mnemonic) >= 4:
            number = sum_of(mnemonic.encode())
            groups.setdefault(number >> 58, []).append((number >> 32, opcode))
    free = max(opcode for opcode, mnemonic in enumerate(mnemonics) if not mnemonic)
    shifts, slots = [0] * 64, [free] * 256
    for low, group in sorted(groups.items(), key=lambda each: -len(each[1])):
        tried = [[(high + shift) % 256 for high, _ in group] for shift in range(256)]
        fitting = [len(set(own)) == len(group) and all(slots[slot] == free for slot in own) for own in tried]
        if not any(fitting):
            raise Missing("no shifts give each mnemonic a slot of its own")
        shifts[low] = fitting.index(True)
        for slot, (_, opcode) in zip(tried[shifts[low]], group):
            slots[slot] = opcode
    return shifts, slots


def made() -> Made:
    with open(OPCODES, encoding="utf8") as opcodes, open(NAMED, encoding="utf8") as named:
        rows, text = ROW.findall(opcodes.read()), named.read()
    if [int(number, 16) for _, number in rows] != list(range(256)):
        raise Missing(f"{OPCODES} doesn't have a row for each opcode")
    for name, form, numbers in zip(("SHIFTS", "SLOTS"), ("d", "#04x"), tables([mnemonic for mnemonic, _ in rows])):
        lines = [", ".join(format(number, form) for number in numbers[i:i + 16]) for i in range(0, len(numbers), 16)]
        text, count = re.subn(rf"(static {name}: [^=]*= )\[[^\]]*\];", r"\1[\n    " + ",\n    ".join(lines) + ",\n];", text)
        if count != 1:
            raise Missing(f"{NAMED} has no table {name}")
    return Made({NAMED: text}, [])
