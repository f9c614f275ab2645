"""The binding for Java beside the command: the class Dexasm in one process, the jar as command, a library or a JNA that
isn't there, the places of refusals, and the examples."""
import glob
import os
import re
import shutil

import jars_of_dexasm
from .. import TOP, sought
from ..base import get
from ..matchers import ANY, EMPTY, ONE_LINE, SOME, Above, Begins, Ends, Has, Lacks, Matches
from ..program import out_cases
from .calls import JOBS, put, run
from .java import JAVA, QUICK, JavaTest
from .places import at_random, marks

SMALL = ("-Xmx8m", "-XX:MaxDirectMemorySize=16m")
# Words, with the status that the command has for them; FILE is a file that is right.
WORDS: tuple[tuple[str | bytes, ...], ...] = (
    (), ("help",), ("--bad",), ("check", "--bad"), ("check", "-x"), ("check", "FILE", "FILE"),
    ("check", "--align", "FILE"), ("list", "FILE", "--output"), ("list", "--output", "--align"),
    ("list", "--output=out", "--output", "out"), ("assemble", "--align", "--align"), ("check", "--", "--output"),
    ("check", "-"), ("check", "FILE/"), ("check", ""), ("check", "."), ("check", b"\xff"),
    ("check", "FILE", "--output", b"\xff"), ("check", "--", "FILE"), ("list", "FILE"), ("list", "--output=o", "FILE"),
    ("strip", "--", "FILE"), ("assemble", "FILE"), ("check",), ("strip",), ("list", "FILE", "--output", "/dev/full"),
    ("list", "FILE", "--output", "new/"), ("list", "FILE", "--output", "tmp"),  # (there is a folder /tmp)
    ("list", "FILE", "--output", "a+b %41"), ("--version",), ("-V", "check"), ("check", "FILE", "-V"),
)  # fmt: skip
HOSTILE = ("check", "--\x1b[31m\n\u202e\x07")
# Commands over the programs of docs/cookbook, in their order, and what they print.
COOKBOOK = (
    ("MakeHello hello.dex", ""),
    ("Verdict hello.dex broken.dex", "hello.dex: ok\nbroken.dex: 8 Checksum at 8\n"),
    ("Callers hello.dex 'Ljava/io/PrintStream;->println(Ljava/lang/String;)V'", "LMain;->main([Ljava/lang/String;)V\n"),
    ("Retext hello.dex hello 'good evening, \"all\"' evening.dex", ""),
    ("Verdict evening.dex", "evening.dex: ok\n"),
    ("Changed hello.dex evening.dex", "changed LMain;\n"),
    ("Changed hello.dex hello.dex", ""),
)
# A library of another version, or with a call too few; and one whose strip says that the answer is 2^40 bytes long, and
# whose list is out of memory.
VERSION_ELSE = """#include <stddef.h>
#include <string.h>
#define CALL(name) int dexasm_##name() { return 0; }
CALL(check) CALL(list) CALL(assemble) CALL(strip) CALL(fault_name)
int dexasm_version(char *out, size_t capacity, size_t *needed) { memcpy(out, "9.8.7", 5); return (*needed = 5, 0); }
"""
TOO_LONG = """#include <stddef.h>
#include <string.h>
#define CALL(name) int dexasm_##name() { return 0; }
CALL(check) CALL(assemble) CALL(fault_name)
int dexasm_list() { return 4; }
int dexasm_strip(void *in, size_t length, void *out, size_t capacity, size_t *needed) { *needed = 1UL << 40; return 5; }
int dexasm_version(char *out, size_t capacity, size_t *needed) {
  return (memcpy(out, "%(version)s", %(length)d), *needed = %(length)d, 0);
}
"""


def blocks(page: str, kind: str) -> list[str]:
    """The blocks of code of a page."""
    with open(os.path.join(TOP, page), encoding="utf8") as file:
        return re.findall(rf"^```{kind}\n(.*?)^```$", file.read(), re.S | re.M)


def programs() -> dict[str, str]:
    """The programs of the binding's page, the class's comment and the cookbook, by the class's name."""
    with open(f"{JAVA}/src/dexasm/Dexasm.java", encoding="utf8") as file:
        comment = sought(r"<pre>\{@code\n(.*?)^ \* \}</pre>", file.read(), re.S | re.M)[1]
    texts = blocks("bindings/java/README.md", "java")
    texts += [get(path).decode() for path in sorted(glob.glob(os.path.join(glob.escape(TOP), "docs/cookbook/*.java")))]
    texts.append(re.sub(r"^ \* ?", "", comment, flags=re.M))
    return {sought(r"public class (\w+)", text)[1]: text for text in texts}


class JavaBinding(JavaTest):
    def check_cases(self, paths: list[str]) -> None:
        """Each job on each file, in one process; and with too small a heap."""
        folder = os.path.join(self.java.folder, "cases")
        os.makedirs(folder)
        lines = []
        for at, path in enumerate(paths):
            shutil.copy(path, f"{folder}/{at}")
            for job in JOBS:
                status, made, said = run(self.java.program, *(["assemble", "--align"] if job == "align" else [job]),
                                         path)
                put(f"{folder}/{at}.{job}", b"" if job == "check" else made)
                lines.append(f"{job}\t{at}\t{said.strip().removeprefix('dexasm: ') if status else ''}\t{at}.{job}")
        put(f"{folder}/cases", "\n".join(lines).encode())
        number = run(self.java.program, "--version")[1].decode().split()[1]
        for what, words in (("its tries", (folder, number)), ("a small heap", ("small", folder))):
            options = SMALL if words[0] == "small" else ()
            status, out, said = self.java.run(*options, "-XX:+UseSerialGC", "-cp", self.java.path(), "Tries", *words)
            self.check_equal(f"Java: {what}", (status, out), (0, Matches(rb"[1-9]\d* tried, 0 failed\n")))

    def session(self) -> list[str]:
        """README's session: its listing, the file of it, and that with a byte changed, refused as the page says."""
        with open(os.path.join(TOP, "README.md"), encoding="utf8") as file:
            page = file.read()
        typed = sought(r"^\$ cat > hello.txt\n(.*?)^\$ ", page, re.S | re.M)[1]
        listing = put(f"{self.java.folder}/hello.txt", typed.encode())
        made = run(self.java.program, "assemble", listing)[1]
        broken = put(f"{self.java.folder}/broken.dex", made[:200] + b"X" + made[201:])
        line = sought(r"^\$ dexasm check hello.dex\n(dexasm: .*\n)", page, re.M)[1]
        got = run(self.java.command, "check", broken, env=self.java.env)
        self.check_equal("Java: README's session", got, (1, b"", line))
        return [listing, put(f"{self.java.folder}/hello.dex", made), broken]

    def test_cases(self) -> None:
        self.check_cases([*self.paths, *self.session()])
        self.check_ends()

    def test_places(self) -> None:
        """Where a refusal is found in a listing: what places.py has."""
        folder = os.path.join(self.java.folder, "places")
        os.makedirs(folder)
        rows = []
        for at, (text, align, lines, names) in enumerate([*marks(), *at_random(seed=2, count=120)]):
            put(f"{folder}/{at}", text)
            rows.append(f"{at}\t{int(align)}\t{' '.join(map(str, lines))}\t{names}")
        put(f"{folder}/places", "\n".join(rows).encode("ascii"))
        words = ("-Xmx1g", "-XX:+UseSerialGC", "-cp", self.java.path(), "Tries", "places", folder)
        status, out, said = self.java.run(*words)
        self.check_equal("Java: the places of refusals", (status, out, len(rows)),
                         (0, Ends(b" tried, 0 failed\n"), Above(250)))

    def test_words(self) -> None:
        """The jar's main beside the command: status, standard output, and of a refusal or a failure the line."""
        said: str | bool
        for words in WORDS:
            asked: list[str | bytes] = [
                word.replace("FILE", self.right) if isinstance(word, str) else word for word in words
            ]
            folder = os.path.join(self.java.folder, "words")
            ends = []
            for program in (self.java.program, self.java.command):
                os.makedirs(folder)
                status, out, said = run(program, *asked, cwd=folder, env=self.java.env)
                left = {name: get(f"{folder}/{name}") for name in os.listdir(folder)}
                ends.append((status, out, said if status != 2 else bool(said), left))
                shutil.rmtree(folder)
            self.check_equal(f"Java: the words {words}", ends[0], ends[1])
        status, out, said = run(self.java.command, *HOSTILE, env=self.java.env)
        self.check_equal("Java: words that a terminal obeys", (status, out, said, said.isascii()),
                         (2, EMPTY, Has(r"--\u{1b}[31m\u{a}\u{202e}\u{7}") & Lacks("\x1b"), True))
        where = {"cwd": self.java.folder, "env": self.java.env | {"LC_ALL": "C"}}
        got = run(self.java.command, "list", self.right, "--output", "\u00e9", **where)
        is_made = os.path.exists(f"{self.java.folder}/??")
        self.check_equal("Java: a name that the locale can't spell", (got[:2], is_made), ((2, b""), EMPTY))
        status, out, _ = run(self.java.command, "--help", env=self.java.env)
        said = all(f" {word} ".encode() in out for word in ("check", "--align", "70"))
        self.check_equal("Java: help", (status, said), (0, SOME))

    def check_ends(self) -> None:
        """Standard output that fails, and memory that runs out."""
        with open("/dev/full", "wb") as full:
            got = run(self.java.command, "list", self.right, stdout=full, env=self.java.env)
        self.check_equal("Java: standard output is full", got, (3, ANY, "dexasm: cannot write\n"))
        big = f"{self.java.folder}/cases/big"
        got = self.java.run(*SMALL, "-jar", self.java.jar, "check", big)
        self.check_equal("Java: no room for FILE", got, (4, b"", "dexasm: out of memory\n"))
        with open(self.right, "rb") as file:
            got = run(self.java.command, "check", stdin=file, env=self.java.env)
        self.check_equal("Java: standard input", got, (0, b"ok\n", ""))

    def test_streams(self) -> None:
        """Standard streams that are closed, and OUT that leads to one of them or to a pipe."""
        folder = os.path.join(self.java.folder, "streams")
        os.makedirs(folder)
        os.symlink("/proc/self/fd/1", f"{folder}/link")
        os.mkfifo(f"{folder}/pipe")
        listing = run(self.java.program, "list", self.right)[1]
        for words, want in (
            ("check <&-", (3, b"", "dexasm: cannot read\n")),
            ('check <"$1"', (0, b"ok\n", "")),
            ('list "$1" >&-', (3, b"", "dexasm: cannot write\n")),
            ('strip "$1" >&-', (3, b"", "dexasm: cannot write\n")),
            ('list "$1" --output /dev/full 2>&-', (3, b"", "")),
            ('list "$1" --output link | cat', (0, listing, "")),
            ('list "$1" --output /dev/fd/3 && cat /dev/fd/3', (0, listing, "")),  # (a file that was removed)
            ('list "$1" --output pipe & sleep 1; kill $!; wait $!', (143, b"", "")),  # (nobody reads it)
        ):
            got = run("bash", "-c", f'exec 3<>gone; rm gone; "$0" {words}', self.java.command, self.right,
                      env=self.java.env, cwd=folder)
            self.check_equal(f"Java: {words}", got, want)
        left = sorted(os.listdir(folder)), os.path.islink(f"{folder}/link")
        self.check_equal("Java: a link to standard output stays", left, (["link", "pipe"], True))

    def test_libraries(self) -> None:
        """A library that isn't there, is none, lacks a call or is another one, and no JNA: one line, and status 70."""
        number = run(self.java.program, "--version")[1].decode().split()[1]
        libraries = [("isn't there", f"{self.java.folder}/none.so", "isn't there"),
                     ("is no library", self.right, "ELF header")]
        for name, text, line in (
            ("lacks a call", VERSION_ELSE.replace("CALL(strip)", ""), "dexasm_strip"),
            ("has another version", VERSION_ELSE, "is of version 9.8.7"),
        ):
            made = self.java.compiled_c(f"{name.replace(' ', '-')}.so", text)
            libraries += [(name, made, line)] if made else []
        for name, library, line in libraries:
            for options, env in (
                ([f"-Ddexasm.library={library}"], dict[str, str]()), (list[str](), {"DEXASM_LIBRARY": library})
            ):
                status, out, said = self.java.run(*QUICK, *options, "-jar", self.java.jar, "strip", self.right, env=env)
                self.check_equal(f"Java: a library that {name}", (status, out, said),
                                 (70, b"", Begins(f"dexasm: no libdexasm {number}: ") & ONE_LINE & Has(line)))
        long = self.java.compiled_c("long.so", TOO_LONG % {"version": number, "length": len(number)})
        for job in ("strip", "list") if long else ():
            assert long is not None  # (there are no jobs without)
            got = self.java.run(*QUICK, "-jar", self.java.jar, job, self.right, env={"DEXASM_LIBRARY": long})
            self.check_equal(f"Java: out of memory in {job}", got, (4, b"", "dexasm: out of memory\n"))
        got = self.java.run(*QUICK, "-cp", f"{self.java.folder}/alone", "dexasm.Main", "check", self.right)
        self.check_equal("Java: no JNA", got, (70, b"", Matches(r"dexasm: JNA isn't there: .*\n")))
        shutil.copy(f"{self.java.library}/libdexasm.so", f"{self.java.folder}/libdexasm.so.0")
        words = ("-cp", f"{self.java.folder}/alone{os.pathsep}{jars_of_dexasm.jna()}", "dexasm.Main", "check",
                 self.right)
        got = self.java.run(*QUICK, *words, env={"LD_LIBRARY_PATH": self.java.folder})
        self.check_equal("Java: the system's library", got, (0, b"ok\n", ""))

    def test_outs(self) -> None:
        """What is left, by what OUT is: the table of program/out_cases.py, with an answer of half a megabyte."""
        listing = "dex 035 listing 2\n" + "".join(f"class LA{number}; 0x1\nend class\n" for number in range(10000))
        answer = run(self.java.program, "assemble", put(f"{self.java.folder}/many.txt", listing.encode()))[1]
        # (strip drops what is added)
        longer = answer[:32] + (len(answer) + 1000).to_bytes(4, "little") + answer[36:] + bytes(1000)
        path = put(f"{self.java.folder}/longer.dex", longer)
        given = run(f"{TOP}/python/bin/dexasm-close", path, "--output", "-")[1]
        status, made, _ = run(self.java.command, "strip", put(path, given), env=self.java.env)
        self.check_equal("Java: strip of a longer file", (status, made == answer != given), (0, True))

        def check(what: str, is_so: bool, seen: object) -> None:
            self.check(f"Java: {what}", is_so, seen)

        out_cases.check_all(check, self.java.command, self.java.folder, given, answer)

    def test_examples(self) -> None:
        """The examples compile; those of the cookbook print what the page says, run as it says."""
        is_so: bool | re.Match[bytes] | None
        folder = os.path.join(self.java.folder, "examples")
        os.makedirs(folder)
        for name, text in programs().items():
            put(f"{folder}/{name}.java", text.encode())
        jars_of_dexasm.javac(folder, sorted(f"{folder}/{name}" for name in os.listdir(folder)), self.java.jar)
        os.symlink(self.java.jar, f"{folder}/dexasm.jar")
        for line, want in COOKBOOK:
            command = f"java -cp .:dexasm.jar {line}"
            status, out, said = run("bash", "-c", command, cwd=folder, env=self.java.env)
            self.check_equal(f"Java: the cookbook's {line}", out.decode() + said, want)
            if line.startswith("MakeHello"):
                made = get(f"{folder}/hello.dex")
                self.check_equal("Java: the cookbook's hello.dex has as many bytes as the page says", len(made), 620)
                put(f"{folder}/broken.dex", made[:200] + b"X" + made[201:])
        by, small = f"{folder}{os.pathsep}{self.java.jar}", f"{folder}/small.dex"
        got = self.java.run(*QUICK, "-cp", by, "StripOne", self.right, small)
        self.check_equal("Java: the example of its README", (got, get(small)),
                         ((0, b"", ""), run(self.java.program, "strip", self.right)[1]))
        status, out, said = self.java.run(*QUICK, "-cp", by, "Small", self.right)
        self.check_equal("Java: the example of the class", (status, out), (0, Matches(rb"\d+ bytes, stripped \d+\n")))
