"""The packages, each unpacked elsewhere and tried there. What needs a tool that isn't here isn't tried."""
import glob
import hashlib
import os
import re
import shutil
import subprocess
import sys
import tempfile
import zipfile
from collections.abc import Iterator
from typing import Any

from parts.packing.packages import pack
from parts.packing.packing import GLIBC, HELPERS
from parts.packing.wheel import backend
from .. import TOP, sought, config
from ..base import LIMIT, TestCase, ended, get
from ..matchers import EMPTY, SOME, Above, Has

LISTING = b"dex 035 listing 2\nclass LHello; 0x1\nsuper Ljava/lang/Object;\nend class\n"

# Pages that speak of how dexasm is made, and so of its toolchain; no other page of a package does.
OF_MAKING = {f"docs/{name}.md" for name in ("COOKBOOK", "DECISIONS", "FILES", "MAP", "MEASURED", "PROVED")} | {
    "bench/LOG.md", "CHANGELOG.md"
}
TOOLCHAIN = re.compile(r"(?<![\w.-])rt(?![\w.-])|tools/(?:build|quick)|(?<![./])\./dexasm(?![\w-])|<!--")
# What the lines of docs/PACKAGE.md are for.
PATHS = """dexasm --version && dexasm-close --version && python3 -B -c 'import dexasm; print(dexasm.version())'
if command -v pkg-config >/dev/null; then pkg-config --modversion dexasm; else echo none; fi
if command -v man >/dev/null; then man -w dexasm-check | sed "s=^$PWD/=="; else echo none; fi
complete -p dexasm | cut -c1-8
"""
LEFT_OUT = ("PYTHONPATH", "DEXASM_LIBRARY", "DEXASM_COMMAND")  # of the environment of a wheel
NO_PAGES = "pages need jinja2 (Debian: python3-jinja2; pip: dexasm[pages])"
# A helper over the module that they share, over a page, and over both modules.
HELPED = (
    ("dexasm assemble hello.txt | dexasm-query calls", '{\n "LHello;->get(Z)I": []\n}\n'),
    ("dexasm check hello.dex 2>&1 | dexasm-explain hello.dex | sed -n 2p",
     "  8: the Adler-32 differs: the file was damaged or changed.\n"),
    ("dexasm assemble hello.txt --output good.dex && dexasm-size good.dex --html size.html && head -c 15 size.html",
     "<!DOCTYPE html>"),
    (
        "dexasm-info --hex 0..4 good.dex | tail -n 1",
        "00000000  64 65 78 0a              magic 64 65 78 0a 30 33 35 00\n"
    ),
    ("dexasm-merge --same good.dex good.dex --output both.dex && cmp good.dex both.dex", ""),
    ("dexasm-size good.dex both.dex | tail -n 1 | grep -o all$", "all\n"),
    ("dexasm-browse good.dex --output pages && ls pages/class", "0.html\n"),
)

# Helpers of an environment: over the command, the library, a page, and both modules.
INSTALLED = (
    ("dexasm list hello.dex | dexasm-query classes | head -n 2", '{\n "LHello;": {\n'),
    ("dexasm-check --json hello.dex | grep -o '\"ok\"'", '"ok"\n'),
    ("echo 'dexasm: refused 8 Checksum at 8' | dexasm-explain | sed -n 2p",
     "  8: the Adler-32 differs: the file was damaged or changed.\n"),
    ("dexasm-lint --code hello.dex", "hello.dex: ok\n"),
    ("dexasm-corpus add a.db hello.dex | cut -d, -f1,2 && rm a.db", "1 paths, 0 not read; 1 new files\n"),
)

# By what a package is tried too, where it is.
BY = ("pkg-config", "cc", "cargo")

# The module's answer of a file with one class.
PROGRAM = """
import dexasm
file = open("hello.dex", "rb").read()
program = dexasm.Program.read(file)
print(program.classes[0].name, program.write() == dexasm.strip(file))
"""


def session() -> Iterator[tuple[str, str]]:
    """README's session: each command with what it prints, or with what is typed into it."""
    text = sought(r"```console\n(.*?)```", get(f"{TOP}/README.md").decode(), re.S)[1]
    for step in re.split(r"^\$ ", text, flags=re.M)[1:]:
        command, _, rest = step.partition("\n")
        yield command, rest


def as_nobody(home: str) -> list[str]:
    """Words before a command that root gives, by which nobody gives it; the folder is nobody's then."""
    if os.geteuid() != 0 or not shutil.which("setpriv"):
        return []
    os.chown(home, 65534, 65534)
    return ["setpriv", "--reuid=65534", "--regid=65534", "--clear-groups", "--no-new-privs"]


def headings(text: str) -> set[str]:
    """The headings of a page as links name them."""
    heads = re.findall(r"^#+ (.*)$", re.sub(r"^```.*?^```", "", text, flags=re.S | re.M), re.M)
    return {re.sub(r"[^\w\- ]", "", head.lower()).replace(" ", "-") for head in heads}


class PackageTest(TestCase):
    """Packages, and a file that `check` accepts."""

    folder: str
    made: list[str]
    sample: bytes
    library: str

    @classmethod
    def setUpClass(cls) -> None:
        """Packs what is tried, but where packages are named."""
        super().setUpClass()
        program, cls.library = config.program(), config.library()
        cls.folder = config.packages() or tempfile.mkdtemp(prefix="dexasm-test-")
        if not config.packages():
            cls.addClassCleanup(shutil.rmtree, cls.folder, ignore_errors=True)
            pack(program, cls.library, cls.folder)
        cls.made = [
            path for path in sorted(glob.glob(f"{glob.escape(cls.folder)}/*")) if not path.endswith("SHA256SUMS")
        ]
        words = [program, "assemble"]
        cls.sample = subprocess.run(words, input=LISTING, stdout=subprocess.PIPE, check=True).stdout

    def packages(self, ending: str) -> list[str]:
        if not (found := [path for path in self.made if path.endswith(ending)]):
            self.skipTest(f"no {ending} is made here")
        return found

    def runs(self, what: str, *words: str, want: str | None = None, **options: Any) -> None:
        """Whether these words end well, and print what is wanted."""
        status, said, why = ended(words, 3 * LIMIT, stdout=subprocess.PIPE, stderr=subprocess.STDOUT, **options)
        told = said.decode("utf8", "replace")
        seen = why if status == "late" else told[-600:]
        self.check_equal(what, (status, seen) if want is None else told, (0, seen) if want is None else want)

    def check_session(self, what: str, folder: str, home: str) -> None:
        """README's session with the program below that folder, and the library by Python."""
        drop = as_nobody(home)
        places = {"PATH": f"{folder}/bin:/usr/local/bin:/usr/bin:/bin", "HOME": home, "LANG": "C.UTF-8"}
        env = {**places, "DEXASM_LIBRARY": f"{folder}/lib/libdexasm.so.0",
               "PYTHONPATH": f"{folder}/lib/python3/dist-packages"}
        steps = [*session(), ("/usr/bin/env python3 -B -m dexasm check hello.dex", "dexasm: refused 8 Checksum at 8\n"),
                 *HELPED]
        no_pages = ended(["python3", "-c", "import jinja2"], env=env, stderr=subprocess.DEVNULL)[0] != 0
        if no_pages:
            print(f"tests/package: {what}: no jinja2 here, so no page is looked at", file=sys.stderr)
        for command, rest in steps:
            by = "dexasm-browse" if "-browse" in command else "dexasm-size" if "--html" in command else ""
            if no_pages and by:
                rest = f"{by}: {NO_PAGES}\n"
            is_typed = command.startswith("cat >")
            given, want = (rest.encode(), "") if is_typed else (b"", rest)
            self.runs(f"{what}: {command}", *drop, "bash", "-c", command, want=want, cwd=home, env=env, input=given)

    def need_each(self, *programs: str) -> None:
        """Tells at a test's end what wasn't here."""
        for program in programs:
            self.need(program, "no package is tried with it")

    def check_c(self, what: str, folder: str, room: str) -> None:
        """A caller in C, as pkg-config says that it is compiled."""
        if not shutil.which("pkg-config") or not shutil.which("cc"):
            return
        env = {**os.environ, "PKG_CONFIG_PATH": f"{folder}/lib/pkgconfig:{folder}/share/pkgconfig",
               "LD_LIBRARY_PATH": f"{folder}/lib"}
        source, made = f"{folder}/share/doc/dexasm/examples/example.c", f"{room}/example"
        compile = f"cc -Wall -Werror {source} $(pkg-config --cflags --libs dexasm) -o {made}"
        self.runs(f"{what}: by pkg-config and cc", "bash", "-c", compile, env=env, cwd=room)
        self.runs(f"{what}: the caller in C", made, "check", f"{room}/hello.dex", want="ok\n", env=env)

    def check_rust(self, what: str, folder: str, room: str) -> None:
        """The crate in the package, by cargo."""
        if not shutil.which("cargo"):
            return
        shutil.copytree(f"{folder}/share/doc/dexasm/rust", f"{room}/rust")
        env = {**os.environ, "DEXASM_LIB": f"{folder}/lib"}
        words = ["cargo", "run", "--quiet", "--offline", "--example", "run", "check", f"{room}/hello.dex"]
        self.runs(f"{what}: by cargo", *words, want="ok\n", env=env, cwd=f"{room}/rust")

    def check_java(self, what: str, folder: str, room: str) -> None:
        """The jar in the package, with the package's library."""
        jar = f"{folder}/share/java/dexasm.jar"
        if not os.path.exists(jar):
            return
        env = {**os.environ, "DEXASM_LIBRARY": f"{folder}/lib/libdexasm.so.0"}
        self.runs(f"{what}: by java", "java", "-jar", jar, "check", f"{room}/hello.dex", want="ok\n", env=env)

    def check_jar(self, path: str) -> None:
        """The jar that has the library inside; of the sources whether they are there."""
        what = os.path.basename(path)
        with tempfile.TemporaryDirectory() as room:
            with open(f"{room}/hello.dex", "wb") as file:
                file.write(self.sample)
            env = {name: value for name, value in os.environ.items() if name not in ("CLASSPATH", "DEXASM_LIBRARY")}
            if path.endswith("-sources.jar"):
                self.check_equal(f"{what}: the sources", zipfile.ZipFile(path).namelist(), Has("dexasm/Dexasm.java"))
            else:
                self.runs(
                    f"{what}: by java", "java", "-jar", path, "check", "hello.dex", want="ok\n", env=env, cwd=room
                )

    def check_glibc(self, what: str, folder: str) -> None:
        """That no younger C library is asked for than the package says."""
        for place, most in GLIBC.items():
            asked = [
                tuple(map(int, found.split(b".")))
                for found in re.findall(rb"\0GLIBC_(\d+\.\d+)", get(f"{folder}/{place}"))
            ]
            self.check_equal(f"{what}: {place} asks for glibc {most}", (asked, max(asked) <= most), (SOME, True))

    def check_links(self, what: str, folder: str) -> None:
        """That each link of a page leads to what is packed, and to a heading that is there; and that there are some."""
        pages = sorted(glob.glob(f"{glob.escape(folder)}/share/doc/dexasm/**/*.md", recursive=True))
        pages += glob.glob(f"{glob.escape(folder)}/README.md")
        lost, count = [], 0
        for page in pages:
            text = re.sub(r"^```.*?^```|`[^`\n]*`", "", get(page).decode(), flags=re.S | re.M)
            for target in re.findall(r"\]\((?!\w+:)([^)\s]+)\)", text):
                to, _, anchor = target.partition("#")
                there, count = os.path.join(os.path.dirname(page), to) if to else page, count + 1
                if not os.path.exists(there) or anchor and anchor not in headings(get(there).decode()):
                    lost.append(f"{os.path.relpath(page, folder)}: {target}")
        self.check_equal(f"{what}: links", (count, lost), (Above(50), EMPTY))
        names = {os.path.relpath(page, f"{folder}/share/doc/dexasm") for page in pages}
        self.check(f"{what}: pages", {"README.md", "SECURITY.md", "CHANGELOG.md", "docs/PROVED.md"} <= names, names)

    def check_readers(self, what: str, folder: str) -> None:
        """That what a reader of a package meets speaks of no toolchain, which isn't there, and says where what lies."""
        doc = f"{folder}/share/doc/dexasm"
        pages = {
            os.path.relpath(page, doc): get(page).decode()
            for page in glob.glob(f"{glob.escape(doc)}/**/*.md", recursive=True)
        }
        pages |= {
            name: get(f"{folder}/{name}").decode() for name in ("README.md",) if os.path.exists(f"{folder}/{name}")
        }
        told = {name: TOOLCHAIN.findall(page) for name, page in pages.items() if name not in OF_MAKING}
        self.check_equal(f"{what}: no page wants a toolchain", (len(told), any(told.values())), (Above(10), False))
        self.check_equal(f"{what}: README says where what lies", pages["README.md"],
                         Has("\n## Install\n", "PKG_CONFIG_PATH"))

    def check_paths(self, what: str, path: str, top: str, room: str) -> None:
        """The lines of docs/PACKAGE.md for the archive, as they stand there, in a folder that has it."""
        lines = sought(r"^```bash\n(.*?)^```$", get(f"{TOP}/docs/PACKAGE.md").decode(), re.S | re.M)[1]
        os.mkdir(f"{room}/sp ace")
        shutil.copy(path, f"{room}/sp ace")
        number = top.removeprefix("dexasm-").removesuffix("-linux-x86_64")
        env = {"PATH": "/usr/local/bin:/usr/bin:/bin", "HOME": room, "LANG": "C.UTF-8"}
        want = f"dexasm {number}\ndexasm-close {number}\n{number}\n"
        want += f"{number if shutil.which('pkg-config', path=env['PATH']) else 'none'}\n"
        want += f"{'share/man/man1/dexasm-check.1' if shutil.which('man', path=env['PATH']) else 'none'}\ncomplete\n"
        self.runs(
            f"{what}: the lines of PACKAGE", "bash", "-c", lines + PATHS, want=want, cwd=f"{room}/sp ace", env=env
        )

    def check_package(self, path: str) -> None:
        """A .tar.gz or a .deb; `sample` is a file that `check` accepts."""
        what = os.path.basename(path)
        with tempfile.TemporaryDirectory() as room:
            os.chmod(room, 0o755)
            words = ["tar", "-xzf", path, "-C", room] if path.endswith(".gz") else ["dpkg-deb", "-x", path, room]
            self.runs(f"{what}: unpacked", *words)
            top = what.removesuffix(".tar.gz") if path.endswith(".gz") else "usr"
            folder, home = os.path.join(room, top), os.path.join(room, "home")
            os.mkdir(home)
            with open(f"{room}/hello.dex", "wb") as file:
                file.write(self.sample)
            self.check_session(what, folder, home)
            self.check_glibc(what, folder)
            self.check_links(what, folder)
            self.check_readers(what, folder)
            if path.endswith(".gz"):
                self.check_paths(what, path, top, room)
            self.check_c(what, folder, room)
            self.check_rust(what, folder, room)
            self.check_java(what, folder, room)
            if path.endswith(".deb") and shutil.which("lintian"):
                self.runs(f"{what}: by lintian", "lintian", "--allow-root", "--fail-on", "error", path, cwd=room)

    def check_wheels(self, wheel: str) -> None:
        """The wheel, and the one that pip makes of the folder, each in an environment of its own; nothing of the
        network."""
        with tempfile.TemporaryDirectory() as room:
            with open(f"{room}/hello.dex", "wb") as file:
                file.write(self.sample)
            env = {name: value for name, value in os.environ.items() if name not in LEFT_OUT}
            with zipfile.ZipFile(wheel) as held:
                by_end = {name.rpartition("/")[2]: name for name in held.namelist()}
                told = held.read(by_end["METADATA"]).decode()
                proved_by = held.read(by_end["PROVED-BY"]).decode()
            links = re.findall(r"\]\((?!https?:|#)[^)]*\)", told)
            self.check_equal("what the wheel says of itself", (told, links, TOOLCHAIN.search(told)),
                             (Has("## Programs as objects"), EMPTY, EMPTY))
            by_backend = ["-m", "venv", "--system-site-packages"]
            from_folder = ["--no-build-isolation", "--no-deps", "--ignore-installed", f"{TOP}/python"]
            build = "proved" if proved_by.startswith("Proved and built of ") else "unknown"
            for what, made, given, options, answers in (
                (os.path.basename(wheel), [sys.executable, "-m", "venv"], [wheel], env, build),
                (
                    "python",
                    [backend() or "", *by_backend],
                    from_folder,
                    {**env, "DEXASM_LIBRARY": f"{self.library}/libdexasm.so", "DEXASM_COMMAND": config.program()},
                    "unknown",  # (nothing beside the library says whether it was proved)
                ),
            ):
                place = f"{room}/{len(options)}"
                self.runs(f"{what}: an environment", *made, place, env=env)
                install = ["-m", "pip", "install", "--quiet", "--no-index", "--disable-pip-version-check", *given]
                self.runs(f"{what}: by pip", f"{place}/bin/python", *install, env=options, cwd=room)
                self.check_installed(what, place, room, env, answers)

    def check_installed(self, what: str, place: str, room: str, env: dict[str, str], build: str) -> None:
        """What pip put into an environment: the module, the commands, their pages; and which build answers there."""
        python = f"{place}/bin/python"
        self.runs(f"{what}: check", python, "-m", "dexasm", "check", "hello.dex", want="ok\n", env=env, cwd=room)
        self.runs(f"{what}: its command", f"{place}/bin/dexasm", "check", "hello.dex", want="ok\n", env=env, cwd=room)
        self.check_equal(f"{what}: its command is the program",
                         (get(f"{place}/bin/dexasm"), os.access(f"{place}/bin/dexasm", os.X_OK)),
                         (get(config.program()), SOME))
        typed = "import dexasm, pathlib; print(pathlib.Path(dexasm.__file__).with_name('py.typed').exists())"
        self.runs(f"{what}: its types", python, "-c", typed, want="True\n", env=env, cwd=room)
        self.runs(f"{what}: programs", python, "-c", PROGRAM, want="LHello; True\n", env=env, cwd=room)
        self.runs(f"{what}: a helper as a module", python, "-m", "dexasm.tools.check", "hello.dex",
                  want="hello.dex: ok\n", env=env, cwd=room)
        pages = {os.path.basename(path) for path in glob.glob(f"{glob.escape(place)}/share/man/man1/*.1")}
        self.check_equal(f"{what}: manual pages", pages, {f"{name}.1" for name in ("dexasm", *HELPERS)})
        number = sought(r'^version = "(.*)"$', get(f"{TOP}/python/pyproject.toml").decode(), re.M)[1].replace(
            ".dev0", "-dev"
        )
        sha = hashlib.sha256(get(f"{self.library}/libdexasm.so")).hexdigest()
        answering = {"dexasm-check": f"output of the {build} build with the SHA-256 {sha}\n"}
        for name in HELPERS:
            want = f"{name} {number}\n{answering.get(name, '')}"
            self.runs(f"{what}: {name}", f"{place}/bin/{name}", "--version", want=want, env=env, cwd=room)
        alone = {**env, "PATH": f"{place}/bin:/usr/bin:/bin"}
        for command, want in INSTALLED:
            self.runs(f"{what}: {command}", "bash", "-c", command, want=want, cwd=room, env=alone)


class Packages(PackageTest):
    def test_archive(self) -> None:
        for path in self.packages(".tar.gz"):
            self.check_package(path)
        self.need_each(*BY)

    def test_deb(self) -> None:
        for path in self.packages(".deb"):
            self.check_package(path)
        self.need_each(*BY, "lintian")

    def test_wheel(self) -> None:
        for path in self.packages(".whl"):
            self.check_wheels(path)

    def test_jars(self) -> None:
        for path in self.packages(".jar"):
            self.check_jar(path)

    def test_again(self) -> None:
        """Packing the same files again gives the same bytes."""
        if config.packages():
            self.skipTest("these packages are there already")
        with tempfile.TemporaryDirectory() as again:
            sums = pack(config.program(), self.library, again)
        self.check_equal("packed again", sums, get(f"{self.folder}/SHA256SUMS").decode())
