"""The module for Python where there is no library: it runs the command, with the same answers and errors."""
import os
import shutil
import sys
from typing import Any

from tests import config
from tests.matchers import ANY, Has
from .cli.support import LISTING, TOP, Ended, HelperTest, assembled, dexasm, put, puts, room, run

CALLS = """
import dexasm
file = open("a.dex", "rb").read()
print(dexasm.check(file), dexasm.list(file) == open("a.txt").read(), dexasm.strip(file) == file)
print(dexasm.assemble(open("odd.txt").read(), align=True)[:4])
for wrong in (file[:-1], b""):
    try:
        dexasm.list(wrong)
    except dexasm.Refused as refused:
        print(refused.number, refused.name, refused.place)
program = dexasm.Program.read(file)
print(str(program) == open("a.txt").read(), program.write() == file)
program["LA;"].method("m").code.insns[0].registers = (1,)
try:
    program.write()
except dexasm.Refused as refused:
    print(refused)
print(dexasm.version())
try:
    dexasm.fault_name(8)
except NotImplementedError:
    print("no library")
"""
FAILS = """
import dexasm, sys
try:
    getattr(dexasm, sys.argv[1])(b"")
except (OSError, MemoryError) as error:
    print(type(error).__name__, error)
"""
OBJECTS = "refused 118 Register at 0: LA;->m()V, instruction 0: v1 of 1 register\n"
ODD = b"""dex 035
class LA; 1
direct m ()V 9
code 1 0 0
0: packed-switch v0 @1
1: packed-switch-payload 0 @0
end code
end class
"""


def python(at: str, *words: str, **env: Any) -> Ended:
    return run([sys.executable, "-B", *words], at=at, PYTHONPATH=os.path.join(at, "modules"), **env)


class Command(HelperTest):
    def test_module(self) -> None:
        at = room("python")
        shutil.copytree(os.path.join(TOP, "python/src/dexasm"), os.path.join(at, "modules", "dexasm"))
        file = assembled(LISTING)
        file = dexasm("strip", given=file)
        puts(at, {"a.dex": file, "a.txt": dexasm("list", given=file), "odd.txt": ODD})
        version = dexasm("--version").decode().split()[-1]
        want = f"None True True\nb'dex\\n'\n4 FileSize 32\n1 TooShort 0\nTrue True\n{OBJECTS}{version}\n"
        seen = python(at, "-c", CALLS)
        self.check_equal("Python over the command", seen, (0, want + "no library\n", ""))
        if config.shared_library():
            seen = python(at, "-c", CALLS, DEXASM_LIBRARY=config.shared_library(), DEXASM_COMMAND="/none")
            self.check_equal("Python over the library", seen, (0, want, ""))
        seen = python(at, "-c", "import dexasm; dexasm.version()", DEXASM_COMMAND="/none")
        self.check_equal("Python with neither", seen,
                         (1, ANY, Has("ImportError: DEXASM_COMMAND names no command: /none")))
        for words, ended in (
            (("check", "a.dex"), (0, "ok\n", "")), (("list", "cut"), (1, "", "dexasm: refused 1 TooShort at 7\n"))
        ):
            put(at, "cut", b"dex 034")
            self.check_equal(f"python -m dexasm {words}", python(at, "-m", "dexasm", *words), ended)
        seen = python(at, "-m", "dexasm", "check", "a.dex", DEXASM_COMMAND="/none")
        self.check_equal("python -m dexasm without the command", seen,
                         (3, "", "dexasm: DEXASM_COMMAND names no command: /none\n"))
        fake = put(at, "fake", b'#!/bin/sh\n[ "$1" = check ] && exit 70\n[ "$1" = strip ] && kill -9 $$\necho dexasm: out of memory >&2\nexit 4\n')
        os.chmod(fake, 0o755)
        for job, want in (
            ("check", f"OSError {fake} ended with status 70"),
            ("strip", f"OSError {fake} was killed by signal 9"),
            ("list", "MemoryError dexasm: out of memory"),
        ):
            seen = python(at, "-c", FAILS, job, DEXASM_COMMAND="./fake")
            self.check_equal(f"Python over a command that fails, {job}", seen, (0, f"{want}\n", ""))
