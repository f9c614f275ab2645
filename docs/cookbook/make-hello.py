"""make-hello OUT writes a .dex file with one class, whose main prints "hello"."""
import sys
from pathlib import Path
from dexasm import Class, Code, Insn, Method, Program, Proto, Type

insns = [
    Insn("sget-object", 0, name="Ljava/lang/System;->out:Ljava/io/PrintStream;"),
    Insn("const-string", 1, text="hello"),
    Insn("invoke-virtual", 0, 1, name="Ljava/io/PrintStream;->println(Ljava/lang/String;)V"),
    Insn("return-void"),
]
# v2 has the argument of main; a call passes two registers at most.
code = Code(registers=3, ins=1, outs=2, insns=insns)
method = Method("main", Proto("([Ljava/lang/String;)V"), 0x9, code)  # public static
program = Program([Class(Type("LMain;"), superclass=Type("Ljava/lang/Object;"), directs=[method])])
Path(sys.argv[1]).write_bytes(program.write())
