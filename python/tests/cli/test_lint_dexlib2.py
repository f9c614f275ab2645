"""dexasm-lint --code beside dexlib2's MethodAnalyzer (Debian: libsmali-java), on codes of instructions at random: what
each register holds before each instruction, and that what dexlib2 refuses is told of.

dexlib2 asks little of kinds; it follows them for other uses."""
import collections
import os
import random
import shutil
from collections.abc import Iterator

from dexasm.analysis.verifier.dataflow import Flow
from dexasm.analysis.verifier.hierarchy import Hierarchy
from dexasm.analysis.verifier.lattice import Lattice, RegType
from dexasm.analysis.verifier.method import Method
from dexasm.program import Program
from tests.matchers import EMPTY, Above
from .support import HEAD, TOP, HelperTest, assembled, dexasm, put, room, run

JARS = [f"/usr/share/java/{name}.jar" for name in ("dexlib2", "guava", "jsr305", "smali-util")]
METHODS, LENGTH, REGISTERS = 400, 14, 7
# dexlib2's numbers of kinds: 0 unknown, 1 not set, 2 null, 3 to 9 ranges, 10 an int, 11 a float, 12 to 15 halves of a
# long and of a double, 16 and 17 new objects, 18 a reference, 19 a conflict. A wide constant is a long there.
NUMBERS = {
    "unset": {1},
    "conflict": {1, *range(10, 14), 19},  # (of an int and a float, and of a long and a double, it makes one)
    "zero": {2},
    "null": {2, 18},
    "constant": {*range(2, 12)},
    "int": {*range(2, 11)},
    "float": {10, 11},
    "long low": {12},
    "long high": {13},
    "double low": {12, 14},
    "double high": {13, 15},
    "wide low": {12, 14},
    "wide high": {13, 15},
    "new": {16},
    "this": {17},
    "reference": {18},
}
# A, B, C are registers, W begins a pair, T is a target.
INSNS = (
    "const/4 A 0", "const/4 A 1", "const/16 A 300", "const-wide/16 W 7", 'const-string A "x"', "new-instance A LX;",
    "invoke-direct { A } LX;-><init>()V", "add-int A B C", "add-long W W W", "add-float A B C", "int-to-float A B",
    "int-to-long W A", "long-to-int A W", "long-to-double W W", "move A B", "move-object A B", "move-wide W W",
    "if-eqz A :T", "if-eqz A :T", "if-eq A B :T", "if-nez A :T", "goto/32 :T", "check-cast A [I", "aget A B C",
    "array-length A B", "new-array A B [J", "iget A B LX;->f:I", "iput-object A B LX;->o:LX;", "sget-wide W LX;->j:J",
    "sget-object A LX;->o:LX;", "sget A LX;->g:F", "instance-of A B LX;", "invoke-static { A } LX;->m(I)V", "nop",
    "move-result A", "throw A", "cmp-long A W W", "and-int A B C"
)


def words_of(insn: str, chance: random.Random) -> str:
    """An instruction with registers at random."""
    kinds = {"A": REGISTERS, "B": REGISTERS, "C": REGISTERS, "W": REGISTERS - 1}
    return " ".join(f"v{chance.randrange(kinds[word])}" if word in kinds else word for word in insn.split(" "))


def body(chance: random.Random) -> str:
    """A code of instructions at random, of which some are covered."""
    lines = []
    for at in range(LENGTH):
        to = (at + chance.randrange(1, LENGTH)) % LENGTH
        lines += [f":L{at}", words_of(chance.choice(INSNS), chance).replace(":T", f":L{to}")]
    lines += [f":L{LENGTH}", "return-void"]
    if chance.random() < 0.5:
        first, end = sorted(chance.sample(range(LENGTH), 2))
        lines += [f"try :L{first} :L{end}", f"catchall :L{chance.randrange(LENGTH)}"]
    return "".join(f"{line}\n" for line in lines)


def listing(seed: int) -> bytes:
    chance = random.Random(seed)
    protos = [("()V", 0), ("(IF)V", 2), ("(JLX;)V", 3), ("([ID)V", 3)]
    text = ""
    for number in range(METHODS):
        proto, ins = chance.choice(protos)
        text += f"direct m{number} {proto} 0x9\ncode {REGISTERS} {ins} 4\n{body(chance)}end code\n"
    return HEAD + f"class LT; 0x1\nsuper Ljava/lang/Object;\n{text}end class\n".encode()


def theirs(at: str, file: bytes) -> tuple[dict[str, list[list[int]]], set[str]]:
    """Of each method what each register holds before each instruction, and whether it is refused."""
    put(at, "a.dex", file)
    way = os.pathsep.join([*JARS, at])
    source = os.path.join(TOP, "python/tests/cli/Registers.java")
    run(["javac", "-nowarn", "-cp", way, "-d", at, source], at=at)
    found: dict[str, list[list[int]]]
    lines: list[list[int]]
    found, lines, refused = {}, [], set()
    for line in run(["java", "-cp", way, "Registers", "a.dex"], at=at)[1].splitlines():
        if line[0] == "M":
            lines = found[line[2:]] = []
            name = line[2:]
        elif line[0] == "I":
            lines.append([*map(int, line.split()[1:])])
        else:
            refused.add(name)
    return found, refused


def states(method: Method) -> Iterator[tuple[int, list[RegType]]]:
    """The kinds of the registers before each instruction that a way leads to."""
    starts = method.graph.starts
    for block, line in enumerate(Flow(method).before):
        for place in range(starts[block], starts[block + 1]) if line else ():
            assert line is not None  # (what no way leads to has no places here)
            yield place, line
            line = [*line]
            method.steps[place].run(method, method.insns[place], line, place)


def differences(method: Method, rows: list[list[int]]) -> Iterator[tuple[str, int] | None]:
    """Where two differ: kind and dexlib2's number, None where they agree. What was told of, and what dexlib2 doesn't
    know, isn't compared, nor a conflict there that comes of what was told.
    """
    ignored = (0, 19) if method.is_suspect else (0,)
    pairs = ((kind, row) for place, line in states(method) for kind, row in zip(line, rows[place]))
    for kind, number in pairs:
        if kind.base != "any" and number not in ignored:
            yield (kind.base, number) if number not in NUMBERS[kind.base] else None


class BesideDexlib2(HelperTest):
    def test_beside(self) -> None:
        if not all(map(os.path.exists, JARS)) or not shutil.which("javac") or not shutil.which("java"):
            self.skipTest("dexlib2 isn't tried here: no javac, or no libsmali-java")
        self.use_program()
        file = assembled(listing(20))
        found, refused = theirs(room("lint dexlib2"), file)
        program = Program.of_listing(dexasm("list", given=file).decode("ascii"))
        seen: collections.Counter[tuple[str, int] | None]
        alone: list[str]
        classes, seen, alone = Hierarchy(program), collections.Counter(), []
        kinds = Lattice(classes.parents)
        for one in program["LT;"].directs:
            assert one.code is not None
            method = Method(classes, kinds, program["LT;"], one, one.code)
            is_told = bool(method.check())
            if one.name in refused:
                alone += [] if is_told else [one.name]
            else:
                seen.update(differences(method, found[one.name]))
        self.check_equal("dexlib2 and dexasm-lint, as many as are compared", (len(found), seen[None]),
                         (METHODS, Above(5000)))
        self.check_equal("dexlib2 and dexasm-lint, registers", set(seen), {None})
        self.check_equal("dexlib2 and dexasm-lint, what one refuses alone", (len(refused), alone), (Above(20), EMPTY))
