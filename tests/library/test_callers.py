"""libdexasm from C, Python and Rust: each job on files right, damaged and empty, beside the command.

What a caller answers has to be what the command answers: status, answer and line, byte by byte. Rust is tried where
cargo is, valgrind is asked about the caller in C where it is. Java is tried by test_java.py, the buffers by the tests
of the module for Python."""
import os
import shutil
from collections.abc import Callable

import dexasm
from .. import TOP
from ..base import Ended, compiler, get
from ..matchers import Has
from .calls import JOBS, LISTINGS, LibraryTest, run

Words = dict[str, list[str]]  # of each caller, by its name


def checked(given: bytes) -> bytes:
    dexasm.check(given)
    return b"ok\n"


# The module's calls, with the command's output of each.
MODULE: dict[str, Callable[[bytes], bytes]] = {
    "check": checked, "list": lambda given: dexasm.list(given).encode("ascii"), "assemble": dexasm.assemble,
    "align": lambda given: dexasm.assemble(given, align=True), "strip": dexasm.strip
}
# Where a version stands, and how.
VERSIONS = (
    ("crates/dexasm_c/include/dexasm.h", 'DEXASM_VERSION "{}"'),
    ("bindings/rust/Cargo.toml", '\nversion = "{}"\n'),
    # (a version that isn't released yet, as Python writes it)
    ("python/pyproject.toml", '\nversion = "{python}"\n'),
    ("bindings/java/src/dexasm/Library.java", 'String VERSION = "{}";\n'),
    # (as Maven writes it)
    ("bindings/java/pom.xml", "\n  <version>{maven}</version>\n"),
)

# The caller in C, once for each pair of a job and a file: what it prints and its status are written to files.
EACH = r"""
#define main run_one
#include "example.c"
#undef main

static void print_to(FILE *stream, int number, const char *end) {
  char name[32];
  snprintf(name, sizeof name, "%d.%s", number, end);
  if (!freopen(name, "wb", stream)) exit(98);
}

int main(int argc, char **argv) {
  for (int at = 1; at + 1 < argc; at += 2) {
    print_to(stdout, at / 2, "out");
    print_to(stderr, at / 2, "err");
    int status = run_one(3, (char *[]){argv[0], argv[at], argv[at + 1], NULL});
    print_to(stdout, at / 2, "status");
    printf("%d\n", status);
  }
  return 0;
}
"""


class CallersTest(LibraryTest):
    def example(self, kind: str) -> tuple[str, Ended]:
        """The caller in C with the static library or with the shared one: where it is, and how its compiling ended."""
        libraries = {"static": [f"{self.library}/libdexasm.a"],
                     "shared": [f"{self.library}/libdexasm.so", f"-Wl,-rpath,{self.library}"]}
        made = os.path.join(self.work, f"example-{kind}")
        words = ["-O2", "-Wall", "-Wextra", "-Werror", "-I", self.library, f"{TOP}/bindings/c/example.c"]
        return made, run(*compiler(), *words, *libraries[kind], "-o", made)

    def module(self, job: str, path: str) -> Ended:
        """What the module for Python returns or raises, as the command has it."""
        try:
            return 0, MODULE[job](get(path)), ""
        except dexasm.Refused as refused:
            return 1, b"", f"dexasm: {refused.args[0]}\n"

    def check_answers(self, callers: Words) -> None:
        """Of each file and of none."""
        for path in self.paths:
            for job in JOBS:
                want = self.command(job, path)
                for name, words in callers.items():
                    self.check_equal(f"{name}: {job} of {path}", run(*words, job, path), want)
        for name, words in callers.items():
            for job in JOBS:
                got = run(*words, job, os.path.join(self.work, "not there"))
                self.check_equal(f"{name}: {job} of no file", got, (3, b"", "dexasm: cannot read\n"))


class Callers(CallersTest):
    def test_samples(self) -> None:
        """The command assembles the listings, of which the files are made."""
        for name in LISTINGS:
            path = os.path.join(self.work, name.replace(" ", "-"))
            status, _, said = self.command("align", path)
            self.check_equal(f"the command's align of {path}", status, 0)

    def test_c(self) -> None:
        callers: Words = {}
        for kind in ("static", "shared"):
            made, (status, _, said) = self.example(kind)
            self.check_equal(f"the caller in C compiles, {kind}", (status, said), (0, ""))
            callers[f"C, {kind}"] = [made]
        self.check_answers(callers)

    def test_header(self) -> None:
        text = b'#include "dexasm.h"\nint main(void) { return (int)sizeof(dexasm_fault) - 16; }\n'
        header, made = self.put("header.c", text), f"{self.work}/header"
        for standard in ("-std=c99", "-std=c11"):
            words = [standard, "-Wall", "-Wextra", "-Wpedantic", "-Werror", "-I", self.library, header, "-o", made]
            status, _, said = run(*compiler(), *words)
            self.check_equal(f"the header is {standard}", (status, run(made)[0]), (0, 0))

    def test_rust(self) -> None:
        if not shutil.which("cargo"):
            self.skipTest("no cargo here: the crate for Rust isn't tried")
        env = {**os.environ, "CARGO_TARGET_DIR": f"{self.work}/target", "DEXASM_LIB": self.library}
        crate = os.path.join(self.work, "rust")
        shutil.copytree(os.path.join(TOP, "bindings/rust"), crate)
        status, out, said = run("cargo", "test", "--offline", cwd=crate, env=env)
        self.check_equal("the tests of the crate for Rust", (status, out), (0, Has(b"5 passed")))
        status, _, said = run("cargo", "build", "--offline", "--examples", cwd=crate, env=env)
        self.check_equal("the example of the crate for Rust", status, 0)
        self.check_answers({"Rust": [f"{self.work}/target/debug/examples/run"]})

    def test_python(self) -> None:
        for path in self.paths:
            for job in JOBS:
                self.check_equal(f"Python: {job} of {path}", self.module(job, path), self.command(job, path))
        version = f"dexasm {dexasm.version()}\n".encode()
        self.check_equal("Python: the version", (0, version, ""), run(self.program, "--version"))

    def test_versions(self) -> None:
        """What each binding says of its version is what the command says."""
        number = run(self.program, "--version")[1].decode().split()[1]
        python, maven = number.replace("-dev", ".dev0"), number.replace("-dev", "-SNAPSHOT")
        for path, line in VERSIONS:
            with open(os.path.join(TOP, path), encoding="ascii") as file:
                self.check_equal(f"{path}: the version", file.read(),
                                 Has(line.format(number, python=python, maven=maven)))

    def test_valgrind(self) -> None:
        """valgrind reports nothing about the caller in C, which does all jobs in one process."""
        if not shutil.which("valgrind"):
            self.skipTest("no valgrind here")
        source, made = self.put("each.c", EACH.encode()), f"{self.work}/each"
        paths = ["-I", self.library, "-I", f"{TOP}/bindings/c", source, f"{self.library}/libdexasm.a", "-o", made]
        status, _, said = run(*compiler(), "-O2", "-g", "-Wall", "-Wextra", "-Werror", *paths)
        self.assertEqual(status, 0, said)
        pairs = [(job, path) for path in self.paths for job in JOBS]
        words = ["valgrind", "-q", "--error-exitcode=99", "--leak-check=full", "--errors-for-leak-kinds=all", made]
        seen = run(*words, *(word for pair in pairs for word in pair), cwd=self.work)
        self.check_equal("valgrind: all jobs", seen, (0, b"", ""))
        for number, (job, path) in enumerate(pairs):
            out, line, ended = (self.get(f"{number}.{end}") for end in ("out", "err", "status"))
            self.check_equal(f"{job} of {path}", (int(ended), out, line.decode()), self.command(job, path))
