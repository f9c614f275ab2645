"""callers FILE METHOD prints each method of FILE whose code calls METHOD."""
import sys
from pathlib import Path
from dexasm import MethodRef, Program

callee = MethodRef(sys.argv[2])
for one in Program.read(Path(sys.argv[1]).read_bytes()).classes:
    for method in one.methods:
        if any(insn.name == callee for insn in method.insns):
            print(one.ref(method).spelled)
