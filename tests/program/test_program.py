"""The built program from outside: words, help, each exit status with its line, files and pipes, big inputs."""
import os
import re
import resource
import shutil
import signal
import stat
import struct
import subprocess
import sys
import time
from collections.abc import Callable, Sequence
from typing import Any

from shapes import File, code, file_of_body, shared_code, sleb, uleb
from .. import TOP, sought, config
from ..base import LIMIT, MEGABYTE, Ended, TestCase, ended, get, limited
from ..matchers import Begins, Either, Ends, Has, Lacks, Other
from ..samples import NUMBERED, ODD, closed, without_classes
from ..samples import ONE_CLASS as LISTING
from . import out_cases, terminal_cases

TEXTS = os.path.join(TOP, "crates/dexasm_plan/src/texts.rt")
CANNOT_READ, CANNOT_WRITE = "dexasm: cannot read\n", "dexasm: cannot write\n"
JOBS = ("check", "list", "assemble", "strip")

# The file of LISTING from byte 0x20 on, worked out by hand from the format: header, tables, data, map.
ONE_CLASS = bytes(32) + bytes.fromhex(
    """
78 01 00 00 70 00 00 00 78 56 34 12 00 00 00 00
00 00 00 00 fc 00 00 00 04 00 00 00 70 00 00 00
03 00 00 00 80 00 00 00 01 00 00 00 8c 00 00 00
00 00 00 00 00 00 00 00 01 00 00 00 98 00 00 00
01 00 00 00 a0 00 00 00 b8 00 00 00 c0 00 00 00
d2 00 00 00 d7 00 00 00 eb 00 00 00 ee 00 00 00
00 00 00 00 01 00 00 00 02 00 00 00 02 00 00 00
02 00 00 00 00 00 00 00 00 00 00 00 03 00 00 00
00 00 00 00 01 00 00 00 01 00 00 00 00 00 00 00
ff ff ff ff 00 00 00 00 f1 00 00 00 00 00 00 00
01 00 00 00 00 00 00 00 00 00 00 00 01 00 00 00
0e 00 03 4c 41 3b 00 12 4c 6a 61 76 61 2f 6c 61
6e 67 2f 4f 62 6a 65 63 74 3b 00 01 56 00 01 6d
00 00 00 01 00 00 09 c0 01 00 00 00 0a 00 00 00
00 00 00 00 01 00 00 00 00 00 00 00
01 00 00 00 04 00 00 00 70 00 00 00
02 00 00 00 03 00 00 00 80 00 00 00
03 00 00 00 01 00 00 00 8c 00 00 00
05 00 00 00 01 00 00 00 98 00 00 00
06 00 00 00 01 00 00 00 a0 00 00 00
01 20 00 00 01 00 00 00 c0 00 00 00
02 20 00 00 04 00 00 00 d2 00 00 00
00 20 00 00 01 00 00 00 f1 00 00 00
00 10 00 00 01 00 00 00 fc 00 00 00
"""
)
with open(TEXTS, encoding="ascii") as texts:
    VERSION = sought(r'VERSION: &str = "([^"]*)"', texts.read()).group(1)


def as_nobody() -> None:
    os.setgroups([])
    os.setgid(65534)
    os.setuid(65534)


def changed(at: int, given: bytes, size: int | None = None) -> bytes:
    """The file of LISTING with these bytes at a place, or cut to a size, closed again."""
    file = bytearray(ONE_CLASS)
    file[at : at + len(given)] = given
    if size is not None:
        file = file[:size]
        file[32:36] = struct.pack("<I", size)
    return closed(bytes(file[32:]))


def of_handlers(order: Sequence[int]) -> File:
    """A file with three tries and a handler for each: of 1 catch, of 30,000 and of 5,000, which begin in the list at 1,
    4 and 60007."""

    def body(file: File) -> bytes:
        caught = uleb(file.type_at["LE;"]) + uleb(0)
        handlers = uleb(3) + b"".join(sleb(n) + caught * n for n in (1, 30000, 5000))
        return code([0] * 4 + [0x0E],
                    tries=b"".join(struct.pack("<IHH", i, 1, at) for i, at in enumerate(order)) + handlers, count=3)

    file = File()
    file.type("LE;")
    return file_of_body(file, body)


def code_off_of(file: bytes) -> int | None:
    """The offset of the code of the one method, as its class data at 0xf1 spells it."""
    number = shift = 0
    for byte in file[0xF7:]:
        number |= (byte & 0x7F) << shift
        shift += 7
        if byte < 0x80:
            return number
    return None


# Two faults of one row, entry or instruction: the bytes of the file that are changed, and the fault that is told of the
# two.
PAIRS = (
    ("d5=3a 80=01 84=00", "24 TypeText at 132"),
    ("8c=09 94=01", "26 ProtoIndex at 140"),
    ("98=02 9a=01", "33 MethodIndex at 152"),
    ("a0=02 a8=09", "40 ClassIndex at 160"),
    ("a0=02 ac=01", "41 ClassKind at 160"),
    ("ac=01 a8=00", "43 InterfaceList at 160"),
    ("a8=00 b8=ff", "42 ClassOrder at 160"),
    ("a8=00 f5=01", "42 ClassOrder at 160"),
    ("f3=02 f4=00 f5=01 f6=00 f7=00 f8=00 f9=00 fa=00", "45 MemberIndex at 160"),
    ("d0=29 d1=01", "63 Cut at 208"),
    ("d0=6e d1=60", "63 Cut at 208"),
)


class ProgramTest(TestCase):
    """A test of the program, with a folder of its own."""

    def setUp(self) -> None:
        self.program, self.folder = config.program(), self.new_folder()

    def dexasm(self, *words: str | bytes, given: bytes = b"", **options: Any) -> Ended:
        """Runs the program; answers status, standard output, standard error."""
        if "stdin" not in options:
            options["input"] = given
        options.setdefault("stdout", subprocess.PIPE)
        return ended([self.program, *words], LIMIT, stderr=subprocess.PIPE, **options)

    def answers(self, what: str, want: bytes, *words: str, **options: Any) -> None:
        """It answers these bytes, status 0, and nothing on standard error."""
        status, out, said = self.dexasm(*words, **options)
        self.check_equal(what, (status, out, said), (0, want, ""))

    def tells(self, what: str, status: int, line: str, *words: str, **options: Any) -> None:
        """It ends with this status and this line, and answers nothing."""
        got, out, said = self.dexasm(*words, **options)
        self.check_equal(what, (got, out or b"", said), (status, b"", line))

    def misuses(self, what: str, *words: str) -> None:
        """Wrong words: status 2, clap's text, which shows where the usage is."""
        status, out, said = self.dexasm(*words)
        self.check_equal(what, (status, out, said, [char for char in said if not (char.isprintable() or char == "\n")]),
                         (2, b"", Begins("error: ") & Ends("For more information, try '--help'.\n"), []))

    def in_folder(self, *names: str) -> str:
        return os.path.join(self.folder, *names)

    def put(self, name: str, given: bytes) -> str:
        with open(self.in_folder(name), "wb") as file:
            file.write(given)
        return self.in_folder(name)


class Words(ProgramTest):
    def test_words(self) -> None:
        words: list[str] | str
        for what, *words in (
            ("no words",),
            ("another command", "disassemble"),
            ("help as a command", "help"),
            ("an option before the command", "--output", "x", "check"),
            ("two files", "check", "a", "b"),
            ("--output without a file", "check", "--output"),
            ("--output twice", "check", "--output", "a", "--output", "b"),
            ("another option", "list", "--all"),
            ("--align of check", "check", "--align"),
            ("--align of list", "list", "--align"),
            ("--align of strip", "strip", "--align"),
            ("--align with a value", "assemble", "--align=yes"),
            ("--align twice", "assemble", "--align", "--align"),
        ):
            self.misuses(what, *words)
        self.misuses("a wrong word that a terminal would obey", "\x1b[31mred")
        self.misuses("an option that it would", "check", "--\x1b]0;title\x07\u009b")
        status, out, said = self.dexasm(b"check", b"\xff.dex")
        self.check_equal("words that aren't UTF-8", (status, out, said), (2, b"", Begins("dexasm: ")))
        for words in (["--help"], ["-h"]) + tuple([job, flag] for job in JOBS for flag in ("--help", "-h")):
            status, out, said = self.dexasm(*words)
            text = out.decode()
            self.check_equal(" ".join(words), (status, said, text),
                             (0, "", Has("Usage: dexasm", "Example: dexasm", "version 035")))
        for flag in ("--version", "-V"):
            self.answers(flag, f"dexasm {VERSION}\n".encode(), flag)
        self.misuses("--version of a command", "check", "--version")
        text = self.dexasm("--help")[1].decode()
        self.check_equal("--help begins with the version", text, Begins(f"dexasm {VERSION}\n"))
        self.check_equal("--help names each command", [job for job in JOBS if f"\n  {job} " not in text], [])
        with open("/dev/full", "wb") as full:
            self.tells("--help to a full device", 3, CANNOT_WRITE, "--help", stdout=full)
            self.tells("--version to a full device", 3, CANNOT_WRITE, "--version", stdout=full)
        for what, end in (("closed", ">&-"), ("full", "> /dev/full")):
            for words, status in (("disassemble", 2), ("check --all", 2), ("check no-such-file", 3)):
                done = subprocess.run(["sh", "-c", f'"$0" {words} 2{end}', self.program], stdout=subprocess.PIPE)
                self.check_equal(f"{words}, where standard error is {what}", (done.returncode, done.stdout),
                                 (status, b""))

    def test_terminals(self) -> None:
        """What a terminal is told: the table of terminal_cases.py."""
        empty = without_classes()
        damaged = empty[:8] + bytes(4) + empty[12:]
        for what, is_so, seen in terminal_cases.cases_of(os.path.abspath(self.program), self.folder, empty, damaged):
            self.check(what, is_so, repr(seen)[:300])

    def shell(self, command: str, home: str, given: bytes | None = None) -> tuple[int | str, str]:
        """What bash prints of this command in that folder, where `dexasm` is the program."""
        env = {**os.environ,
               "PATH": os.pathsep.join([self.in_folder("bin"), os.path.join(TOP, "python/bin"), os.environ["PATH"]])}
        status, out, _ = ended(["bash", "-c", command], LIMIT, cwd=home, env=env, input=given, stdout=subprocess.PIPE,
                               stderr=subprocess.STDOUT)
        return status, out.decode()

    def test_readme(self) -> None:
        """README's session and recipes, as they stand there."""
        os.mkdir(self.in_folder("bin"))
        os.symlink(self.program, self.in_folder("bin", "dexasm"))
        home = self.in_folder("session")
        os.mkdir(home)
        with open(os.path.join(TOP, "README.md"), encoding="utf8") as file:
            text = file.read()
        session = sought(r"```console\n(.*?)```", text, re.S).group(1)
        for step in re.split(r"^\$ ", session, flags=re.M)[1:]:
            command, _, rest = step.partition("\n")
            is_typed = command.startswith("cat >")
            _, said = self.shell(command, home, rest.encode() if is_typed else None)
            self.check_equal(f"README: {command}", said, "" if is_typed else rest)
        made, recipes = sought(r"```bash\n(.*?)```", text, re.S).group(1).split("\n\n")
        self.check_equal("README: the files of the recipes", self.shell(f"set -e\n{made}", home), (0, ""))
        wants = ("  SHA-256  ", "end class\n", "-const/16 v0 41\n+const/16 v0 43\n", "all\n", "", "classes.dex: ok\n",
                 "a.dex: ok\n", "a.txt:7:10: error: 118 Register: v9 of 2 registers",
                 "  8: the Adler-32 differs: the file was damaged or changed.\n", "a.dex: ok\n", "differ", "")
        commands = [line for line in recipes.splitlines() if not line.startswith("#")]
        self.check_equal("README: as many recipes as are tried", len(commands), len(wants))
        for recipe, want in zip(commands, wants):
            _, said = self.shell(recipe, home)
            self.check_equal(f"README: {recipe}", said, Has(want) & Lacks("No such file"))


class Answers(ProgramTest):
    def test_answers(self) -> None:
        empty = without_classes()
        file = self.dexasm("assemble", given=LISTING.encode())[1]
        path = self.put("a.dex", file)
        listing = self.put("a.txt", LISTING.encode())
        self.answers("check of a file without classes", b"ok\n", "check", given=empty)
        self.answers("check of an assembled listing", b"ok\n", "check", given=file)
        self.check_equal("the assembled listing", file, closed(ONE_CLASS[32:]))
        self.answers("check FILE", b"ok\n", "check", path)
        self.answers("list", LISTING.encode(), "list", given=file)
        self.answers("list FILE", LISTING.encode(), "list", path)
        self.answers("assemble FILE", file, "assemble", listing)
        self.answers("strip of what is stripped", file, "strip", given=file)
        self.answers("strip FILE", file, "strip", path)
        self.answers("list of a file without classes", b"dex 035 listing 2\n", "list", given=empty)
        self.answers("assemble of no classes", empty, "assemble", given=b"dex 035 listing 2\n")
        self.answers("assemble of the first form", file, "assemble", given=NUMBERED.encode())
        self.answers("assemble --align where nothing is odd", file, "assemble", "--align", given=LISTING.encode())
        aligned = self.dexasm("assemble", "--align", given=ODD.encode())[1]
        self.answers("assemble --align moves", b"ok\n", "check", given=aligned)
        text = self.dexasm("list", given=aligned)[1].decode()
        self.check_equal("a nop stands before the payload", text,
                         Has("\n:L0\npacked-switch v0 :L2\nnop\n:L2\npacked-switch-payload 0 :L0\n"))
        for job, given, want in (
            ("check", path, b"ok\n"), ("list", path, LISTING.encode()), ("assemble", listing, file),
            ("strip", path, file)
        ):
            made = self.put("out", b"x" * 100000)
            self.answers(f"{job} --output", b"", job, given, "--output", made)
            self.check_equal(f"{job} --output: what is written", get(made), want)
            os.remove(made)
            self.answers(f"{job} --output=, from standard input", b"", job, f"--output={made}", given=get(given))
            self.check_equal(f"{job} --output=: what is written", get(made), want)
        same = self.put("same", without_classes(1000))
        self.answers("strip with OUT that is FILE", b"", "strip", same, "--output", same)
        self.check_equal("OUT that is FILE is written anew", get(same), empty)
        os.link(same, self.in_folder("name"))
        self.answers(
            "list with OUT that is another name of FILE", b"", "list", same, "--output", self.in_folder("name")
        )
        self.check_equal("OUT that is another name of FILE", get(same), b"dex 035 listing 2\n")

    def test_refusals(self) -> None:
        file = self.dexasm("assemble", given=LISTING.encode())[1]
        changed = file[:-1] + b"\1"
        for what, line, job, given in (
            ("nothing", "1 TooShort at 0", "check", b""),
            ("another version", "3 Version at 4", "check", file[:4] + b"037" + file[7:]),
            ("a changed byte", "8 Checksum at 8", "check", changed),
            ("list of a changed byte", "8 Checksum at 8", "list", changed),
            ("strip of a changed byte", "8 Checksum at 8", "strip", changed),
            ("list of a listing", "2 Magic at 0", "list", b"dex 035\n".ljust(112, b"#")),
            ("assemble of a file", "100 Word at 1", "assemble", file),
            (
                "a listing that isn't ended", "106 NotEnded at 7", "assemble",
                LISTING.replace("end class\n", "").encode()
            ),
            (
                "a rule of programs", "115 Target at 0", "assemble",
                LISTING.replace("return-void", ":a\ngoto :a").encode()
            ),
            ("a payload at an odd address", "86 Misaligned at 0", "assemble", ODD.encode()),
        ):
            self.tells(what, 1, f"dexasm: refused {line}\n", job, given=given)
            same = self.put("same", given)
            self.tells(f"{what}, with OUT that is FILE", 1, f"dexasm: refused {line}\n", job, same, "--output", same)
            self.check_equal(f"{what}: OUT that is FILE is as it was", get(same), given)
            self.tells(f"{what}, with OUT", 1, f"dexasm: refused {line}\n", job, same, "--output",
                       self.in_folder("none"))
            self.check(f"{what}: OUT isn't made", not os.path.exists(self.in_folder("none")))

    def test_texts(self) -> None:
        """Listings as editors and other tools leave them, and files that are named otherwise."""
        crlf, at_line = LISTING.replace("\n", "\r\n"), LISTING.splitlines()
        for what, line, given in (
            ("lines that end with CR", "100 Word at 1", crlf.encode()),
            ("a byte order mark", "100 Word at 1", b"\xef\xbb\xbf" + LISTING.encode()),
            ("a tab", "100 Word at 2", LISTING.replace("class LA;", "class\tLA;").encode()),
            ("a byte above ASCII", "100 Word at 2", LISTING.encode().replace(b"class LA;", b"class L\xc3\xa4;")),
            ("a zero byte", "100 Word at 2", LISTING.encode().replace(b"class LA;", b"class LA\0;")),
            ("no text", "106 NotEnded at 0", b""),
            ("an empty line alone", "106 NotEnded at 1", b"\n"),
        ):
            self.tells(f"assemble of {what}", 1, f"dexasm: refused {line}\n", "assemble", given=given)
        made = self.dexasm("assemble", given=LISTING.encode())[1]
        for what, given in (
            ("no line feed at the end", LISTING.rstrip("\n").encode()),
            ("comments of any bytes", b"# \xc3\xa4 \0 \r\n" + LISTING.replace("\n", "\n# \u00e4\n").encode()),
            ("spaces before, between and after",
             "".join(f"  {line.replace(' ', '   ')} \n\n" for line in at_line).encode()),
        ):
            self.answers(f"assemble of {what}", made, "assemble", given=given)
        link = self.in_folder("dangling")
        os.symlink("no-such", link)
        for name in ("", link, self.folder + "/"):
            self.tells(f"check of a file named {name!r}", 3, CANNOT_READ, "check", "--", name)
        os.remove(link)
        nothing = self.put("nothing", b"")
        for job in JOBS:
            line = "106 NotEnded at 0" if job == "assemble" else "1 TooShort at 0"
            self.tells(f"{job} of an empty FILE", 1, f"dexasm: refused {line}\n", job, nothing)

    def test_ends(self) -> None:
        empty, path = without_classes(), self.put("empty.dex", without_classes())
        for job in JOBS:
            self.tells(f"{job} of no such file", 3, CANNOT_READ, job, self.in_folder("no-such"))
            self.tells(f"{job} of a folder", 3, CANNOT_READ, job, self.folder)
            with open(self.folder + "/w", "wb") as file:
                self.tells(f"{job} of an input that can't be read", 3, CANNOT_READ, job, stdin=file)
            self.tells(f"{job} of a folder, with OUT", 3, CANNOT_READ, job, self.folder, "--output",
                       self.in_folder("none"))
            self.check(f"{job} of a folder: OUT isn't made", not os.path.exists(self.in_folder("none")))
        for job, given in (("check", empty), ("list", empty), ("assemble", b"dex 035\n"), ("strip", empty)):
            self.tells(f"{job} to a folder", 3, CANNOT_WRITE, job, "--output", self.folder, given=given)
            self.tells(f"{job} below no such folder", 3, CANNOT_WRITE, job, "--output", self.in_folder("no", "such"),
                       given=given)
            self.tells(f"{job} to no name", 3, CANNOT_WRITE, job, "--output", "", given=given)
            self.tells(f"{job} to OUT that is full", 3, CANNOT_WRITE, job, "--output", "/dev/full", given=given)
            with open("/dev/full", "wb") as full:
                self.tells(f"{job} to a full device", 3, CANNOT_WRITE, job, given=given, stdout=full)
            with open(path, "rb") as file:
                self.tells(f"{job} to an output that can't be written", 3, CANNOT_WRITE, job, given=given, stdout=file)
            self.answers(f"{job} to OUT that is a device", b"", job, "--output", "/dev/null", given=given)
        os.mkfifo(self.in_folder("pipe"))
        feeder = subprocess.Popen(["sh", "-c", 'cat "$1" > "$2"', "sh", path, self.in_folder("pipe")])
        self.answers("check of a named pipe", b"ok\n", "check", self.in_folder("pipe"))
        feeder.wait()
        reader = subprocess.Popen(["cat", self.in_folder("pipe")], stdout=subprocess.PIPE)
        self.answers("strip to a named pipe", b"", "strip", "--output", self.in_folder("pipe"), given=empty)
        self.check_equal("the pipe has the answer", reader.communicate()[0], empty)
        slow = subprocess.Popen([self.program, "check"], stdin=subprocess.PIPE, stdout=subprocess.PIPE)
        assert slow.stdin is not None  # (a pipe)
        for at in range(0, 140, 35):
            slow.stdin.write(empty[at : at + 35])
            slow.stdin.flush()
            time.sleep(0.05)
        self.check_equal("an input that comes in pieces", (slow.communicate()[0], slow.returncode), (b"ok\n", 0))


class Out(ProgramTest):
    def test_out(self) -> None:
        """OUT is as it was whatever fails, and what it was beside its bytes stays."""
        empty = without_classes()
        home = self.in_folder("home")
        os.mkdir(home)
        out, link = os.path.join(home, "out.dex"), os.path.join(home, "link")

        def is_alone(*names: str) -> None:
            self.check_equal(f"nothing is left beside {names}", sorted(os.listdir(home)), sorted(names))

        self.put("home/out.dex", b"kept")
        os.chmod(out, 0o640)
        inode = os.stat(out).st_ino
        self.answers("strip over a file", b"", "strip", "--output", out, given=empty)
        self.check_equal("OUT has its mode", (get(out), stat.S_IMODE(os.stat(out).st_mode)), (empty, 0o640))
        self.check_equal("OUT is another file", os.stat(out).st_ino, Other(inode))
        os.symlink("out.dex", link)
        self.answers("list through a link", b"", "list", "--output", link, given=empty)
        self.check_equal("the link stays", (os.path.islink(link), get(out)), (True, b"dex 035 listing 2\n"))
        os.remove(out)
        self.answers("strip through a link that leads nowhere", b"", "strip", "--output", link, given=empty)
        self.check_equal("the file is made where it leads", (os.path.islink(link), get(out)), (True, empty))
        os.remove(link)
        self.put("home/out.dex.0.part", b"of somebody else")
        self.answers("strip where the first name is taken", b"", "strip", "--output", out, given=empty)
        self.check_equal("what is of somebody else stays", get(out + ".0.part"), b"of somebody else")
        for number in range(100):
            self.put(f"home/out.dex.{number}.part", b"of a run that was killed")
        self.put("home/out.dex", b"kept")
        self.tells("a refusal where a hundred names are taken", 1, "dexasm: refused 1 TooShort at 0\n", "strip",
                   "--output", out)
        self.check_equal("OUT is as it was where a hundred names are taken", get(out), b"kept")
        self.answers("strip where a hundred names are taken", b"", "strip", "--output", out, given=empty)
        self.check_equal("OUT is written where a hundred names are taken", (get(out), len(os.listdir(home))),
                         (empty, 101))
        for number in range(100):
            os.remove(f"{out}.{number}.part")
        is_alone("out.dex")
        # What is written in place: as it was after a refusal too.
        second = os.path.join(home, "second")
        self.put("home/out.dex", b"kept")
        os.link(out, second)
        self.tells("a refusal over a file with two names", 1, "dexasm: refused 1 TooShort at 0\n", "strip", "--output",
                   out)
        self.check_equal("a file with two names is as it was", get(out), b"kept")
        self.answers("strip over a file with two names", b"", "strip", "--output", out, given=empty)
        self.check_equal("both names have the answer", (get(second), os.stat(out).st_ino),
                         (empty, os.stat(second).st_ino))
        os.remove(second)
        is_alone("out.dex")
        # No room: a file may not grow beyond 64 bytes.
        self.put("home/out.dex", b"kept")

        def limit() -> None:
            signal.signal(signal.SIGXFSZ, signal.SIG_IGN)
            resource.setrlimit(resource.RLIMIT_FSIZE, (64, 64))

        self.tells("strip where there is no room", 3, CANNOT_WRITE, "strip", "--output", out, given=empty,
                   preexec_fn=limit)
        self.check_equal("OUT is as it was where there is no room", get(out), b"kept")
        is_alone("out.dex")
        if os.geteuid() == 0:
            self.check_out_as_another(empty, home, out)
            self.check_closed_doors()

    def test_out_cases(self) -> None:
        """What a command leaves, by what OUT is: the table of out_cases.py, with an answer of half a megabyte."""
        classes = "".join(f"class LA{number}; 0x1\nend class\n" for number in range(10000))
        answer = self.dexasm("assemble", given=("dex 035 listing 2\n" + classes).encode())[1]
        # (what strip takes off: zeros after the map)
        data_size = struct.unpack_from("<I", answer, 104)[0]
        sizes = [struct.pack("<I", size + 1000) for size in (len(answer), data_size)]
        longer = closed(sizes[0] + answer[36:104] + sizes[1] + answer[108:] + bytes(1000))
        mine = self.in_folder("tried-by-all")
        os.chmod(self.folder, 0o755)
        os.chmod(shutil.copy(self.program, mine), 0o755)
        out_cases.check_all(self.check, mine, self.folder, longer, answer)

    def run_as_nobody(self, *words: str, given: bytes = b"") -> Ended:
        """As a user who owns nothing here; by a copy of the program, which that user can reach."""
        mine = self.in_folder("program")
        if not os.path.exists(mine):
            os.chmod(self.folder, 0o755)
            os.chmod(shutil.copy(self.program, mine), 0o755)
        return ended([mine, *words], LIMIT, input=given, capture_output=True, preexec_fn=as_nobody)

    def check_out_as_another(self, empty: bytes, home: str, out: str) -> None:
        def strips() -> tuple[int | str, str]:
            status, _, said = self.run_as_nobody("strip", "--output", out, given=empty)
            return status, said

        for mode, folder_mode, want, is_written in (
            (0o444, 0o755, (3, CANNOT_WRITE), False), (0o666, 0o755, (0, ""), True),
            (0o444, 0o777, (3, CANNOT_WRITE), False)
        ):
            self.put("home/out.dex", b"kept")
            os.chmod(out, mode)
            os.chmod(home, folder_mode)
            said = strips()
            self.check_equal(f"OUT of mode {mode:o} in a folder of mode {folder_mode:o}", (said, get(out)),
                             (want, (empty if is_written else b"kept")))
        self.check_out_in_place(empty, home, out, strips)
        os.chown(out, 65534, 65534)
        os.chmod(out, 0o644)
        self.answers("strip over a file of another user", b"", "strip", "--output", out, given=empty)
        owner = os.stat(out)
        self.check_equal("OUT has its owner", (owner.st_uid, owner.st_gid, get(out)), (65534, 65534, empty))
        os.chmod(home, 0o755)

    def check_out_in_place(
        self, empty: bytes, home: str, out: str, strips: Callable[[], tuple[int | str, str]]
    ) -> None:
        """What can be written and not replaced: another user's file in a sticky folder, a mount point."""
        self.put("home/out.dex", b"kept")
        os.chmod(out, 0o666)
        os.chmod(home, 0o1777)
        said = strips()
        # (where the system protects such files, nobody may write them)
        ends = Either(((0, ""), empty), ((3, CANNOT_WRITE), b"kept"))
        self.check_equal("OUT is another user's, in a sticky folder", ((said, get(out)), os.listdir(home)),
                         (ends, ["out.dex"]))
        source = self.put("mounted", b"kept")
        if subprocess.run(["mount", "--bind", source, out], stderr=subprocess.DEVNULL).returncode == 0:
            self.answers("OUT is a mount point", b"", "strip", "--output", out, given=empty)
            subprocess.run(["umount", "-l", out], check=True)
            self.check_equal("OUT is a mount point: it was written", (get(source), os.listdir(home)),
                             (empty, ["out.dex"]))
            self.check_out_in_full(home, out)

    def check_out_in_full(self, home: str, out: str) -> None:
        """A mount point whose disk has no room: the answer isn't lost."""
        disk, part = os.path.join(home, "disk"), out + ".0.part"
        os.mkdir(disk)
        if (
            subprocess.run(
                ["mount", "-t", "tmpfs", "-o", "size=4k", "tmpfs", disk], stderr=subprocess.DEVNULL
            ).returncode != 0
        ):
            return
        self.put("home/disk/file", b"kept")
        subprocess.run(["mount", "--bind", os.path.join(disk, "file"), out], check=True)
        classes = "".join(f"class LA{number}; 0x1\nend class\n" for number in range(1000))
        text = ("dex 035 listing 2\n" + classes).encode()
        self.tells("OUT is on a full disk", 3, CANNOT_WRITE, "assemble", "--output", out, given=text)
        self.answers("the file that stays is the answer", get(part), "assemble", given=text)
        for place in (out, disk):
            subprocess.run(["umount", "-l", place], check=True)
        os.remove(part)
        os.rmdir(disk)

    def check_closed_doors(self) -> None:
        """Files and folders that another user may not read, search or write."""
        home = self.in_folder("doors")
        os.mkdir(home)
        file, out = self.put("doors/a.dex", without_classes()), os.path.join(home, "none")
        refused, done = (3, b"", CANNOT_READ), (0, b"ok\n", "")
        cases = ((0o644, 0o755, done), (0o600, 0o755, refused), (0o644, 0o711, done), (0o644, 0o600, refused))
        for mode, folder_mode, want in cases:
            os.chmod(file, mode)
            os.chmod(home, folder_mode)
            said = self.run_as_nobody("check", file)
            self.check_equal(f"a FILE of mode {mode:o} in a folder of mode {folder_mode:o}", said, want)
        for mode in (0o600, 0o755):
            os.chmod(home, mode)
            said = self.run_as_nobody("strip", "--output", out, given=without_classes())
            self.check_equal(f"a new OUT in a folder of mode {mode:o}", said, (3, b"", CANNOT_WRITE))
        os.chmod(home, 0o777)
        os.chmod(file, 0o600)
        said = self.run_as_nobody("strip", file, "--output", out)
        self.check_equal("a FILE that can't be read: OUT isn't made", (said, os.path.exists(out)), (refused, False))


class Faults(ProgramTest):
    def test_hostile(self) -> None:
        """Sizes, offsets and counts that lie: each is told, in no more memory than a file takes."""
        ends = (112, 128, 140, 152, 160, 192, 376)
        for first, end, place in zip(ends, ends[1:], (56, 64, 72, 88, 96, 104)):
            for size in range(first, end):
                self.tells(f"cut to {size} bytes", 1, f"dexasm: refused 10 SectionRange at {place}\n", "check",
                           given=changed(0, b"", size))
        sizes = {56: 268, 64: 280, 72: 292, 88: 304, 96: 316}
        for at, place in sizes.items():
            self.tells(f"no rows by {at}", 1, f"dexasm: refused 13 MapEntry at {place}\n", "check",
                       given=changed(at, bytes(4)))
        self.tells("no data section", 1, "dexasm: refused 12 MapPlace at 52\n", "check", given=changed(104, bytes(4)))
        for at in (56, 64, 72, 80, 88, 96, 104):
            self.tells(f"the most rows by {at}", 1, f"dexasm: refused 10 SectionRange at {at}\n", "check",
                       given=changed(at, b"\xff" * 4))
        self.tells("a link section", 1, "dexasm: refused 7 Linked at 44\n", "check", given=changed(44, b"\xff" * 4))
        for at in (48, 84, 0xB4, 0xC8):
            self.answers(f"strip of an offset that isn't looked at, {at}", changed(0, b""), "strip",
                         given=changed(at, b"\xff" * 4))
        for count, line in (
            (0, "14 MapMissing"), (9, "14 MapMissing"), (11, "12 MapPlace"), (0xFFFFFFFF, "12 MapPlace")
        ):
            self.tells(f"a map of {count} entries", 1, f"dexasm: refused {line} at 52\n", "check",
                       given=changed(0xFC, struct.pack("<I", count)))
        for at, byte, line in (
            (0x70, 0xC0, "20 StringPlace at 112"), (0x94, 0xC0, "28 ParameterList at 140"),
            (0xAC, 0xC0, "43 InterfaceList at 160"), (0xB8, 0xD2, "44 ClassData at 160"),
            (0xBC, 0xF1, "48 Values at 160"), (0xF7, 0xD4, "60 CodePlace at 212")
        ):
            self.tells(f"an item elsewhere, by {at:#x}", 1, f"dexasm: refused {line}\n", "check",
                       given=changed(at, bytes([byte])))
        most = changed(0xF1, b"\xff\xff\xff\xff\x0f")
        self.tells("4294967295 static fields", 1, "dexasm: refused 44 ClassData at 160\n", "check", given=most,
                   preexec_fn=limited(48 * MEGABYTE))
        for rows, line in ((65536, "11 TooManyRows at 64"), (65535, "12 MapPlace at 52")):
            header = (
                struct.pack("<6I", 262256, 0x70, 0x12345678, 0, 0, 0) + bytes(8) + struct.pack("<2I", rows, 0x70)
                + bytes(40)
            )
            self.tells(f"{rows} types", 1, f"dexasm: refused {line}\n", "check", given=closed(header + bytes(262144)))

    def test_limits(self) -> None:
        """The limits that a program can break which a file means: strip tells them, and check doesn't ask."""
        path = self.in_folder("limit.dex")

        def write(file: File) -> None:
            file.index()
            file.write(path)

        # in the order of first use the last of them begins at 70006
        write(of_handlers((4, 60007, 1)))
        self.answers("check of handlers of which the first is used last", b"ok\n", "check", path)
        self.tells("strip of them", 1, "dexasm: refused 89 HandlerTooFar at 0\n", "strip", path)
        write(of_handlers((1, 4, 60007)))
        self.answers("strip of handlers in the order of first use", get(path), "strip", path)
        # 47,000 times the plain sum of one, of 26 + 2 * 47,000 bytes
        write(shared_code(47000))
        self.answers("check of 47,000 methods with one code", b"ok\n", "check", path)
        self.tells("strip of them", 1, "dexasm: refused 90 TooBig at 0\n", "strip", path)

    def test_pairs(self) -> None:
        """Of two faults of one row, entry or instruction the first in FORMAT's order is told, by check, list and strip
        alike."""
        for bytes_there, line in PAIRS:
            file = bytearray(ONE_CLASS)
            for at, byte in (each.split("=") for each in bytes_there.split()):
                file[int(at, 16)] = int(byte, 16)
            for job in ("check", "list", "strip"):
                self.tells(f"{job} of {bytes_there}", 1, f"dexasm: refused {line}\n", job,
                           given=closed(bytes(file[32:])))

    def test_each_byte(self) -> None:
        """Each byte of the file from 0x20 on, made 0, 7f, 80 and ff: a program, or a fault at a place of the file or
        where a code is said to be."""
        for at in range(0x20, len(ONE_CLASS)):
            for byte in (0, 0x7F, 0x80, 0xFF):
                file = changed(at, bytes([byte]))
                status, out, said = self.dexasm("check", given=file)
                fault = re.fullmatch(r"dexasm: refused (\d+) \w+ at (\d+)\n", said)
                is_so = (status, out, said) == (0, b"ok\n", "")
                if status == 1 and fault:
                    number, place = map(int, fault.groups())
                    is_so = place == code_off_of(file) if number == 60 else place <= 376
                self.check(f"byte {at:#x} made {byte:#x}", is_so, f"{status} {said!r}")
        self.tells("byte 0xf8 made 7f", 1, "dexasm: refused 60 CodePlace at 16320\n", "check",
                   given=changed(0xF8, b"\x7f"))


class Big(ProgramTest):
    def test_memory(self) -> None:
        """An input of 64 MB where 48 MB can be had."""
        path = self.put("long", bytes(64 * MEGABYTE))
        for job in JOBS:
            line = "dexasm: out of memory\n"
            self.tells(f"{job} of more than there is memory", 4, line, job, path, preexec_fn=limited(48 * MEGABYTE))
            self.tells(f"{job} of more, with OUT", 4, line, job, path, "--output", self.in_folder("none"),
                       preexec_fn=limited(48 * MEGABYTE))
            self.check(f"{job} of more: OUT isn't made", not os.path.exists(self.in_folder("none")))
        os.remove(path)

    def test_big(self) -> None:
        """10 MB in the shape of an app, through each command."""
        path = self.in_folder("big.dex")
        subprocess.run([sys.executable, "bench/read/make.py", "apps", "1500", path], check=True)
        text, again, small = self.in_folder("big.txt"), self.in_folder("again.dex"), self.in_folder("small.dex")
        self.answers("check of 10 MB", b"ok\n", "check", path)
        self.answers("list of 10 MB", b"", "list", path, "--output", text)
        listing = get(text)
        self.answers("list of 10 MB to a pipe", listing, "list", path)
        self.answers("assemble of 10 MB", b"", "assemble", text, "--output", again)
        self.answers("check of 10 MB assembled", b"ok\n", "check", again)
        self.answers("list of 10 MB assembled", listing, "list", again)
        self.answers("strip of 10 MB", b"", "strip", path, "--output", small)
        self.check_equal("strip gives what its listing gives", get(again), get(small))
        self.answers("a second strip changes nothing", get(small), "strip", small)
        reader = subprocess.Popen([self.program, "list", path], stdout=subprocess.PIPE, stderr=subprocess.PIPE)
        assert reader.stdout is not None and reader.stderr is not None  # (pipes)
        begin = reader.stdout.read(1000)
        reader.stdout.close()
        said = reader.stderr.read().decode()
        status = reader.wait()
        self.check_equal("a pipe that closes", (status, said, begin), (3, CANNOT_WRITE, listing[:1000]))
        with open("/dev/full", "wb") as full:
            self.tells("list of 10 MB to a full device", 3, CANNOT_WRITE, "list", path, stdout=full)
        for job, given, megabytes in (
            ("check", path, 26), ("list", path, 150), ("strip", path, 30), ("assemble", text, 200)
        ):
            line, limit = "dexasm: out of memory\n", limited(megabytes * MEGABYTE)
            self.tells(f"{job} of 10 MB with {megabytes} MB", 4, line, job, given, preexec_fn=limit)
            self.tells(f"{job} of 10 MB with {megabytes} MB, with OUT", 4, line, job, given, "--output",
                       self.in_folder("none"), preexec_fn=limit)
            self.check(
                f"{job} of 10 MB with {megabytes} MB: OUT isn't made", not os.path.exists(self.in_folder("none"))
            )
