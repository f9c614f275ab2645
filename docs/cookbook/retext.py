"""retext FILE OLD NEW OUT writes FILE to OUT with the string NEW wherever it has the constant OLD."""
import sys
from pathlib import Path
from dexasm import Program

file, old, new, out = sys.argv[1:]
program = Program.read(Path(file).read_bytes())
for one in program.classes:
    one.source = new if one.source == old else one.source
    for value in [value for field in one.statics if field.value for value in field.value.all()]:
        if value.kind == "string" and value.value == old:
            value.value = new
    for insn in [insn for method in one.methods for insn in method.insns if insn.text == old]:
        insn.text = new
Path(out).write_bytes(program.write())
