"""Files without fault that say what they say in another way than "The written file" does: for `strip` and `list`.

A program of model.py is made one of making.py, whose layouts are loose already: sections in any order, long spellings,
items shared or not, names that nothing uses. Here handlers are looser too, and what isn't looked at is junk.
"""
import random
import struct
from collections.abc import Iterable, Iterator, Sequence
from typing import Any

from .examples import with_code
from .inventing import invented
from .making import Draft, Layout, Made, Names, Parts, Try, WIDTHS, addresses_of, closed, code_bytes, sleb128, uleb128
from .model import Class, Code, Instruction, LITERAL_BITS, Payload, REGISTER_BITS, Value, WITH_NAME, form_of
from .model import kind_of_name
from .mutating import random_sample
from .pages import Refusal
from .programs import random_extra
from .texts import SmallInventor
from .writing import write

Handler = tuple[tuple[tuple[str, int], ...], int | None]

# --------------------------------------------------------------------------------------- a program, as making.py has it


def packed_units(parts: Iterable[tuple[int, int]]) -> list[int]:
    """The high byte and the units after it of these parts, as (number, bits) from the low bits on."""
    number = width = 0
    for part, bits in parts:
        number |= (part & (1 << bits) - 1) << width
        width += bits
    return [number & 0xFF] + [number >> at & 0xFFFF for at in range(8, width, 16)]


def made_instruction(rng: random.Random, each: Instruction) -> Parts:
    form = form_of(each.opcode)
    name = (kind_of_name(each.opcode), each.name) if form in WITH_NAME else None
    if form == "35c":
        junk = tuple(rng.choice((0, rng.randrange(16))) for _ in range(5 - len(each.registers)))
        c, d, e, f, g = each.registers + junk
        return (each.opcode, len(each.registers) << 4 | g, name, c | d << 4 | e << 8 | f << 12)
    if form == "3rc":
        return (each.opcode, each.count, name, each.registers[0])
    parts = list(zip(each.registers, REGISTER_BITS[form]))
    if form in ("10x", "20t", "30t", "32x"):
        parts.insert(0, (0, 8))
    if form in LITERAL_BITS:
        parts.append((each.literal, LITERAL_BITS[form]))
    units: list[Any] = packed_units(parts)
    if form == "10t":
        units = [("to", each.target)]
    elif each.target is not None:
        units.append(("to", each.target, 2 if form in ("30t", "31t") else 1))
    elif name is not None:
        units.append(name)
    return (each.opcode, *units)


def made_payload(each: Payload) -> Parts:
    if each.kind == "array":
        return each.kind, each.width, each.data
    return each.kind, each.keys[0] if each.kind == "packed" else list(each.keys), list(each.targets)


def made_code(rng: random.Random, code: Code) -> Made:
    instructions = [made_instruction(rng, each) if isinstance(each, Instruction) else made_payload(each)
                    for each in code.instructions]
    tries = [(one.first, one.after, one.catches, one.other) for one in code.tries]
    return {"registers": code.registers, "ins": code.ins, "outs": code.outs, "instructions": instructions,
        "tries": tries}


def made_value(value: Value) -> Parts:
    kind, held = value
    if kind in ("true", "false"):
        return "boolean", kind == "true"
    if kind == "array":
        return kind, [made_value(each) for each in held]
    return (kind,) if kind == "null" else value


def made_class(rng: random.Random, made: Class) -> Made:
    fields = [[(each.name, each.type, each.flags) for each in members] for members in (made.statics, made.instances)]
    methods = [[(each.name, each.proto, each.flags, each.code and made_code(rng, each.code)) for each in members]
               for members in (made.directs, made.virtuals)]
    return {"type": made.type, "flags": made.flags, "super": made.superclass, "interfaces": tuple(made.interfaces),
            "source": made.source, "statics": fields[0], "values": [made_value(value) for value in made.values],
            "instances": fields[1], "directs": methods[0], "virtuals": methods[1]}


# ----------------------------------------------------------------------------------------------------------- its layout


def loose_handlers(rng: random.Random, tries: Sequence[Try], addresses: list[int]) -> tuple[list[Handler], list[int]]:
    """Handlers in any order, each for one try or for several, and some that no try has; and which each try has."""
    handlers: list[Handler]
    handlers, of_try = [], []
    for _, _, catches, other in tries:
        handler = tuple(catches), other
        if handler not in handlers or rng.random() < 0.2:
            handlers.append(handler)
        of_try.append(rng.choice([i for i, each in enumerate(handlers) if each == handler]))
    for handler in list(handlers):
        if rng.random() < 0.2:
            handlers.append((handler[0][1:], rng.randrange(len(addresses) - 1)))
    order = list(range(len(handlers)))
    rng.shuffle(order)
    return [handlers[i] for i in order], [order.index(i) for i in of_try]


def loose_tries_bytes(names: Names, tries: Sequence[Try], addresses: list[int], layout: Layout) -> bytes | None:
    """The try_items, which may end within an instruction, and the handlers; None where an offset doesn't fit."""
    handlers, of_try = loose_handlers(layout.rng, tries, addresses)
    listed, begins, items = uleb128(len(handlers), layout), [], b""
    for catches, other in handlers:
        begins.append(len(listed))
        listed += sleb128(len(catches) if other is None else -len(catches), layout)
        for text, k in catches:
            listed += uleb128(names.index["type"][text], layout) + uleb128(addresses[k], layout)
        if other is not None:
            listed += uleb128(addresses[other], layout)
    for (first, after, _, _), i in zip(tries, of_try):
        least, most = addresses[after - 1] - addresses[first] + 1, addresses[after] - addresses[first]
        length = layout.rng.choice((min(most, 65535), layout.rng.randint(least, min(most, 65535))))
        if begins[i] > 65535:
            return None
        items += struct.pack("<IHH", addresses[first], length, begins[i])
    return items + listed


class LooseDraft(Draft):
    def items_of(self, section: str) -> list[tuple[Any, bytes]]:
        """The same items in another order; codes with looser tries."""
        items = list(super().items_of(section))
        if section == "codes":
            codes = {(i, group, j): method[3] for i, made in enumerate(self.classes)
                     for group in ("directs", "virtuals") for j, method in enumerate(made[group])}
            items = [(key, self.loose_code(codes[key], item)) for key, item in items]
        if section != "other" and self.layout.chance("item order", 1 / 2):
            self.layout.rng.shuffle(items)
        return items

    def loose_code(self, code: Made, item: bytes) -> bytes:
        """The code_item with other tries, and something for its debug information."""
        if code["tries"] and self.layout.chance("tries"):
            addresses = addresses_of(code["instructions"])
            tries = loose_tries_bytes(self.names, code["tries"], addresses, self.layout)
            if tries is not None:
                plain = code_bytes(self.names, {**code, "tries": ()}, self.layout)
                padding = self.layout.rng.randbytes(addresses[-1] % 2 * 2)
                item = plain[:6] + struct.pack("<H", len(code["tries"])) + plain[8:] + padding + tries
        if self.layout.chance("debug_info_off", 1 / 2):
            item = item[:8] + self.layout.rng.randbytes(4) + item[12:]
        return item

    def file(self) -> bytes | Any:
        data = super().file()
        if data is None or not self.layout.chance("junk"):
            return data
        data = bytearray(data)
        self.put_junk_between(data)
        self.put_junk_in_fields(data)
        return closed(data)

    def put_junk_between(self, data: bytearray) -> None:
        """What nothing refers to."""
        used = [(0, 0x70)] + [(at, at + len(item)) for at, item in self.pieces]
        used += [(self.place[table], self.place[table] + self.sizes[table] * WIDTHS[table]) for table in range(6)]
        used.append((self.place["map"], self.place["map"] + 4 + 12 * len(self.map_entries())))
        at = 0
        for begin, end in sorted(used):
            if begin > at:
                data[at:begin] = self.layout.rng.randbytes(begin - at)
            at = max(at, end)

    def put_junk_in_fields(self, data: bytearray) -> None:
        """Fields that aren't looked at, and now and then a data section that begins at the header's end."""
        rng = self.layout.rng
        places = [48] + [60 + 8 * table for table in range(6) if self.sizes[table] == 0]
        places += [self.place[5] + 32 * i + 20 for i in range(self.sizes[5])]
        for at in places:
            data[at : at + 4] = rng.randbytes(4)
        entries = self.place["map"] + 4
        for at in range(entries, entries + 12 * len(self.map_entries()), 12):
            data[at + 2 : at + 4] = rng.randbytes(2)
            if int.from_bytes(data[at : at + 2], "little") > 0x1000:
                struct.pack_into("<I", data, at + 4, rng.randrange(1, 1 << 32))
        if rng.random() < 0.3:
            struct.pack_into("<II", data, 104, len(data) - 0x70, 0x70)


def loose_file(rng: random.Random, classes: list[Class]) -> bytes | None:
    """A file of this program, laid out loosely; None where its offsets don't settle."""
    layout = Layout(rng, rng.choice((0.3, 0.6, 0.9)))
    return LooseDraft([made_class(rng, made) for made in classes], layout, random_extra(rng)).file()


def file_examples() -> Iterator[tuple[str, bytes]]:
    """Files by hand: what each shows, and its bytes."""
    nops = bytes(8)
    # Handlers of LA; (type 0) at unit 0: of 20000 pairs, of 12800 pairs, and of all else.
    long, longer, short = sleb128(12800, Layout()) + bytes(25600), sleb128(20000, Layout()) + bytes(40000), b"\0\0"
    listed = b"\3" + short + long + longer
    tries = [(0, 1, 3 + len(long)), (1, 1, 3), (2, 1, 1)]
    yield "handlers that are too long in the order of first use", with_code(nops, tries=tries, handlers=listed)
    yield "the same in another order", with_code(nops, tries=[(0, 1, 1), *tries[1:2], (2, 1, 3 + len(long))],
        handlers=listed)
    yield "a handler that no try has", with_code(nops, tries=tries[2:], handlers=listed)
    yield "equal handlers", with_code(nops, tries=[(0, 1, 1), (1, 1, 3)], handlers=b"\2" + short + short)
    yield "a try that ends within an instruction", with_code(
        bytes.fromhex("180001000000000000000e00"), tries=[(0, 1, 1)], handlers=b"\1" + short)
    yield "a try of 65535 units that ends within an instruction", with_code(
        bytes(2 * 65534) + bytes.fromhex("18000100000000000000"), tries=[(0, 65535, 1)], handlers=b"\1" + short)
    yield "a try with a tail that is left out", with_code(
        bytes(2 * 65535) + bytes.fromhex("0e00"), tries=[(0, 65535, 1)], handlers=b"\1" + short)


def random_files(rng: random.Random) -> Iterator[tuple[bytes, bool]]:
    """Files without end, each with whether it's packed: of one program several, since making it is slow."""
    while True:
        if rng.random() < 0.05:
            data = random_sample(rng)
            if data is not None:
                yield data, False
        classes = invented(rng) if rng.random() < 0.2 else SmallInventor(rng).program()
        written = write(classes)
        if isinstance(written, Refusal):
            continue
        yield written, True
        for _ in range(4):
            data = loose_file(rng, classes)
            if data is not None:
                yield data, False
