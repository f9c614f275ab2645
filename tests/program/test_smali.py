"""docs/FROM-SMALI.md: its example, by smali itself, and each row of its table that has a line of an instruction."""
import os
import re
import shutil
import subprocess

from .. import TOP, sought, config
from ..base import TestCase, get

PAGE = get(os.path.join(TOP, "docs", "FROM-SMALI.md")).decode()
# A listing around each of these lines of the page, which are in a method with ten registers.
LINES = ("const/4 v0 5", "const-wide v0 5", "const v0 1069547520", "const/high16 v0 1",
         "invoke-static { v0 v1 } LA;->f(II)V", "invoke-static/range v4 6 LA;->f(IIIIII)V", "iget v0 v2 LA;->n:I",
         r'const-string v0 "a\u000a"')


class FromSmali(TestCase):
    def setUp(self) -> None:
        self.program = config.program()

    def test_example(self) -> None:
        """smali's file of the example is listed as the page has it."""
        if not shutil.which("smali"):
            self.skipTest("no smali here (Debian: libsmali-java)")
        folder = self.new_folder()
        with open(os.path.join(folder, "Hello.smali"), "w", encoding="ascii") as file:
            file.write(sought(r"```smali\n(.*?)```", PAGE, re.S)[1])
        words = ["smali", "assemble", "--api", "23", "Hello.smali", "--output", "hello.dex"]
        subprocess.run(words, cwd=folder, check=True, stdout=subprocess.DEVNULL)
        listed = subprocess.run([self.program, "list", "hello.dex"], cwd=folder, stdout=subprocess.PIPE, check=True)
        self.assertEqual(listed.stdout.decode("ascii"), sought(r"```text\n(.*?)```", PAGE, re.S)[1])

    def test_lines(self) -> None:
        """Each line of an instruction that the table shows is one."""
        for line in LINES:
            text = f"dex 035 listing 2\nclass LB; 0x1\ndirect m ()V 0x9\ncode 10 0 6\n{line}\nreturn-void\nend code\nend class\n"
            done = subprocess.run([self.program, "assemble"], input=text.encode("ascii"), capture_output=True)
            with self.subTest(line):
                self.assertIn(f"`{line}`", PAGE)
                self.assertEqual((done.returncode, done.stderr), (0, b""))
