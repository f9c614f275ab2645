"""What stands in the packages, and how each is packed: the same files give the same bytes."""
import email.utils
import gzip
import hashlib
import io
import os
import re
import subprocess
import sys
import tarfile
import tempfile
from collections.abc import Callable, Iterator

from .. import TOP, get, helpers, sought

sys.path[:0] = [os.path.join(TOP, "python"), os.path.join(TOP, "bindings/java")]

import jars_of_dexasm
from described import CHECKOUT, LINK

HELPERS = [*helpers()]
# Where each file goes below the package's top, or below /usr.
FILES = {
    "docs/man/dexasm.1": "share/man/man1/dexasm.1",
    **{f"docs/man/{name}.1": f"share/man/man1/{name}.1" for name in HELPERS},
    "docs/man/dexasm-listing.5": "share/man/man5/dexasm-listing.5",
    "contrib/completion/dexasm.bash": "share/bash-completion/completions/dexasm",
    "contrib/completion/_dexasm": "share/zsh/site-functions/_dexasm",
    "contrib/completion/dexasm.fish": "share/fish/vendor_completions.d/dexasm.fish",
    "README.md": "share/doc/dexasm/README.md",
    "CHANGELOG.md": "share/doc/dexasm/CHANGELOG.md",
    "SECURITY.md": "share/doc/dexasm/SECURITY.md",
    "bench/LOG.md": "share/doc/dexasm/bench/LOG.md",
    "bindings/c/README.md": "share/doc/dexasm/c/README.md",
    "bindings/c/example.c": "share/doc/dexasm/examples/example.c",
    "bindings/java/README.md": "share/doc/dexasm/java/README.md",
    "python/README.md": "share/doc/dexasm/python/README.md",
    "python/HELPERS.md": "share/doc/dexasm/python/HELPERS.md",
    "LICENSE": "share/doc/dexasm/copyright",
}
# What goes there with all that lies below it.
FOLDERS = {
    "bindings/rust": "share/doc/dexasm/rust",
    "contrib/vim": "share/vim/vimfiles",
    "contrib/vscode": "share/doc/dexasm/vscode",
    "crates/example/src": "share/doc/dexasm/examples/rattle",
    "docs": "share/doc/dexasm/docs",
    "python/bin": "bin",
    "python/src/dexasm": "lib/python3/dist-packages/dexasm",
}
# Where a shell looks for the words of each command: one file has those of all.
COMPLETIONS = {"share/bash-completion/completions/%s": "dexasm", "share/fish/vendor_completions.d/%s.fish": "dexasm.fish"}
LEFT_OUT = ("target", "man", "__pycache__", "Cargo.lock", ".gitignore")  # what is made, and what goes elsewhere
# The oldest C library that has what the program and libdexasm.so ask for.
GLIBC = {"bin/dexasm": (2, 34), "lib/libdexasm.so.0": (2, 17)}

# What says where tools/generate writes in a page.
MARKS = re.compile(r"<!-- (?:end of \w+|\w+: written by tools/generate) -->\n")

# For pkg-config, wherever the package lies.
PC = """prefix=${pcfiledir}/../..
Name: dexasm
Description: checks, lists, assembles and strips .dex files
Version: %s
Libs: -L${prefix}/lib -ldexasm
Cflags: -I${prefix}/include
"""
# What Debian wants beside the files: the licence by its place, and why lintian is not followed.
COPYRIGHT = """Format: https://www.debian.org/doc/packaging-manuals/copyright-format/1.0/
Upstream-Name: dexasm

Files: *
Copyright: 2026 the authors of dexasm
License: Apache-2.0
 On Debian systems the text is in /usr/share/common-licenses/Apache-2.0.
"""
OVERRIDES = """# The bytes are those that the proof was built to, and PROVED-BY has their sums.
dexasm: unstripped-binary-or-object
# Program, library and header are one package, and nobody's but the authors'.
dexasm: package-name-doesnt-match-sonames
dexasm: link-to-shared-library-in-wrong-package
"""


# Where each file goes, its bytes and its mode; what a link leads to where that is a text.
Held = dict[str, tuple[bytes | str, int]]


class Failed(Exception):
    """Why there is no package."""


def output(*words: str) -> str:
    done = subprocess.run(words, cwd=TOP, stdout=subprocess.PIPE, stderr=subprocess.PIPE)
    return done.stdout.decode().strip() if done.returncode == 0 else ""


def version() -> str:
    return sought(r'VERSION: &str = "([^"]*)"', get(f"{TOP}/crates/dexasm_plan/src/texts.rt").decode())[1]


def for_dpkg(number: str) -> str:
    """The version as Debian orders it: 0.5.0-dev is before 0.5.0."""
    return number.replace("-dev", "~dev")


def proved_by(program: str, library: list[str], is_given: bool) -> str:
    """What was proved, by what, and what it came to; what is given by --of was built nobody says where."""
    commit = output("git", "rev-parse", "HEAD") or "unknown"
    changed = " with changes that aren't committed" if output("git", "status", "--porcelain", "-uno") else ""
    made_by = os.path.join(os.path.dirname(program), "toolchain")
    compiler = get(made_by).decode().strip() if os.path.exists(made_by) else "unknown"
    sums = "".join(f"{hashlib.sha256(get(path)).hexdigest()}  {os.path.basename(path)}\n" for path in (program, *library))
    built = f"Proved and built of commit {commit}{changed},\nby the toolchain {compiler}.\nPROVED.md says what that means.\n"
    given = f"Packed at commit {commit}{changed}.\nThe program and the library were given: of which commit they are isn't known here.\n"
    return f"{given if is_given else built}\n{sums}"


def below(folder: str, place: str) -> Iterator[tuple[str, tuple[bytes, int]]]:
    """The files below a folder, where they go."""
    for at, folders, names in os.walk(f"{TOP}/{folder}"):
        folders[:] = sorted(set(folders).difference(LEFT_OUT))
        for name in sorted(set(names).difference(LEFT_OUT)):
            path = os.path.join(at, name)
            mode = 0o755 if os.access(path, os.X_OK) else 0o644
            yield place + path.removeprefix(f"{TOP}/{folder}"), (packed_page(path) or get(path), mode)


def packed_page(path: str) -> bytes:
    """A page without what needs the repository, and without the marks of what is generated; README has there what
    docs/PACKAGE.md says. Nothing of what is no page."""
    if not path.endswith(".md"):
        return b""
    text, instead = get(path).decode(), ""
    if path == f"{TOP}/README.md":
        page = get(f"{TOP}/docs/PACKAGE.md").decode().partition("\n\n")[2].rpartition("\n---\n")[0].strip()
        instead = relinked(page, "docs/PACKAGE.md", {name: name for name in places()}, "README.md") + "\n\n"
    made: str = MARKS.sub("", CHECKOUT.sub(lambda _: instead, text))
    return made.encode()


def places() -> dict[str, str]:
    """Where each file and folder goes that is packed as it stands here, by its path."""
    found = {**FILES, **FOLDERS}
    for folder, place in FOLDERS.items():
        found.update({folder + goes.removeprefix(place): goes for goes, _ in below(folder, place)})
    return found


def relinked(text: str, path: str, known: dict[str, str], goes: str | None = None) -> str:
    """A page's text with its links from where the page goes to where their targets go. To what isn't packed none leads:
    the words stay."""
    here = os.path.dirname(goes or known[path])

    def moved(found: re.Match[str]) -> str:
        mark, words, target = found.groups()
        if target is None or re.match(r"\w+:|#", target):
            return found[0]
        to, _, anchor = target.partition("#")
        there = os.path.normpath(os.path.join(os.path.dirname(path), to))
        if there not in known:
            return words
        return f"{mark}[{words}]({os.path.relpath(known[there], here)}{'#' * bool(anchor)}{anchor})"

    made: str = LINK.sub(moved, text)
    return made


def bytes_of(held: Held, place: str) -> bytes:
    """What goes to a place that is no link."""
    given = held[place][0]
    assert isinstance(given, bytes)
    return given


def linked(held: Held, goes: Callable[[str], str] = lambda place: place) -> Held:
    """The same files, the links of each page led to where the files go."""
    known = {path: goes(place) for path, place in places().items()}
    pages = {place: path for path, place in known.items() if path.endswith(".md")}
    made = dict(held)
    for place in pages.keys() & held.keys():
        made[place] = relinked(bytes_of(held, place).decode(), pages[place], known).encode(), held[place][1]
    return made


def contents(program: str, library: str, is_given: bool) -> Held:
    """Where each file goes, its bytes and its mode; what a link leads to where that is a text."""
    if os.path.exists(f"{library}/NOT-PROVED"):
        raise Failed(f"{library} holds a library without its proof, which isn't packed")
    parts = [f"{library}/{name}" for name in ("libdexasm.a", "libdexasm.so", "dexasm.h")]
    held: Held = {
        "bin/dexasm": (get(program), 0o755),
        "lib/libdexasm.a": (get(parts[0]), 0o644),
        "lib/libdexasm.so.0": (get(parts[1]), 0o644),
        "lib/libdexasm.so": ("libdexasm.so.0", 0o777),
        "include/dexasm.h": (get(parts[2]), 0o644),
        "lib/pkgconfig/dexasm.pc": ((PC % version()).encode(), 0o644),
        "share/doc/dexasm/PROVED-BY": (proved_by(program, parts, is_given).encode(), 0o644),
    }
    for path, place in FOLDERS.items():
        held.update(below(path, place))
    for path, place in FILES.items():
        held[place] = packed_page(f"{TOP}/{path}") or get(f"{TOP}/{path}"), 0o644
    held.update({place % name: (to, 0o777) for place, to in COMPLETIONS.items() for name in HELPERS})
    return held


def java_of(library: bytes, time: int) -> tuple[Held, dict[str, bytes]]:
    """The jar for a system that has the library, which goes where Debian has jars, and the jars that stand alone, by
    name. None is made where there is no javac or no JNA, and that is said."""
    why_not = jars_of_dexasm.why_not()
    if why_not:
        print(f"tools/package: {why_not} here: no jar is made", file=sys.stderr)
        return {}, {}
    try:
        classes = jars_of_dexasm.compiled()
    except jars_of_dexasm.Failed as why:
        raise Failed(str(why)) from why
    name = f"dexasm-{jars_of_dexasm.version()}.jar"
    held: Held = {f"share/java/{name}": (jars_of_dexasm.jar(classes, time), 0o644), "share/java/dexasm.jar": (name, 0o777)}
    return held, jars_of_dexasm.jars(classes, library, time)


def pack_tar(held: Held, top: str, path: str, time: int) -> None:
    """The same bytes for the same files: sorted, with the commit's time, of nobody in particular."""
    held, packed = linked(held), io.BytesIO()
    readme, known = packed_page(f"{TOP}/README.md").decode(), places()
    held["README.md"] = relinked(readme, "README.md", known, "README.md").encode(), 0o644
    with tarfile.open(fileobj=packed, mode="w", format=tarfile.USTAR_FORMAT) as tar:
        for place in sorted(held):
            given, mode = held[place]
            entry = tarfile.TarInfo(f"{top}/{place}")
            entry.mode, entry.mtime = mode, time
            if isinstance(given, str):
                entry.type, entry.linkname = tarfile.SYMTYPE, given
                tar.addfile(entry)
            else:
                entry.size = len(given)
                tar.addfile(entry, io.BytesIO(given))
    with open(path, "wb") as file, gzip.GzipFile("", "wb", 9, file, mtime=time) as zipped:
        zipped.write(packed.getvalue())


def authors() -> str:
    """Whose package it is: those of the commit."""
    return output("git", "log", "-1", "--format=%an <%ae>") or "the authors of dexasm <root@localhost>"


def zipped(given: bytes) -> bytes:
    return gzip.compress(given, 9, mtime=0)


def for_debian(held: Held, number: str, time: int) -> Held:
    """The same files as Debian has them: manual pages zipped, a changelog, the licence by its place."""
    when = email.utils.formatdate(time)
    news = f"dexasm ({number}) unstable; urgency=low\n\n  * See CHANGELOG.md beside this file.\n\n -- {authors()}  {when}\n"
    moved: Held = {"share/doc/dexasm/changelog.gz": (zipped(news.encode()), 0o644)}
    for place, (given, mode) in held.items():
        if place.startswith("share/man/"):
            place, given = f"{place}.gz", zipped(bytes_of(held, place))
        elif place.startswith("lib/pkgconfig/"):
            place = place.replace("lib/", "share/")
        elif place.endswith("/copyright"):
            given = COPYRIGHT.encode()
        moved[place] = given, mode
    moved["share/lintian/overrides/dexasm"] = OVERRIDES.encode(), 0o644
    return linked(moved, lambda place: f"{place}.gz" if place.startswith("share/man/") else place)


def control_of(held: Held, number: str) -> dict[str, str]:
    """What Debian's tools are told of the package: each file's name and text."""
    size = sum(len(given) for given, _ in held.values()) // 1024 + 1
    sums = [(hashlib.md5(given).hexdigest(), place) for place, (given, _) in sorted(held.items()) if not isinstance(given, str)]
    control = f"""Package: dexasm
Version: {number}
Architecture: amd64
Depends: libc6 (>= 2.34), python3:any
Recommends: python3-jinja2
Suggests: libjna-java
Section: devel
Priority: optional
Installed-Size: {size}
Maintainer: {authors()}
Description: checks, lists, assembles and strips .dex files
 Dalvik Executable files of version 035: a program, helpers around it, and a
 library for C, Python, Rust and Java. What they promise is proved.
"""
    return {
        "control": control,
        "md5sums": "".join(f"{sum}  usr/{place}\n" for sum, place in sums),
        "shlibs": "libdexasm 0 dexasm\n",
        "triggers": "activate-noawait ldconfig\n",
    }


def put_files(folder: str, held: Held) -> None:
    """Writes them below the folder, each with its mode; a text is a link to what it says."""
    for place, (given, mode) in held.items():
        at = os.path.join(folder, place)
        os.makedirs(os.path.dirname(at), exist_ok=True)
        if isinstance(given, str):
            os.symlink(given, at)
            continue
        with open(at, "wb") as file:
            file.write(given)
        os.chmod(at, mode)
    for at, _, _ in os.walk(folder):
        os.chmod(at, 0o755)  # (whatever the umask is)


# Python leaves compiled modules beside the package's own if root imports it; with them the folder would stay.
PRERM = """#!/bin/sh
set -e
if command -v py3clean > /dev/null; then
    py3clean -p dexasm
fi
"""


def pack_deb(held: Held, path: str, number: str, time: int) -> None:
    """A .deb of the same files below /usr."""
    held = for_debian(held, number, time)
    with tempfile.TemporaryDirectory() as root:
        os.chmod(root, 0o755)
        put_files(f"{root}/usr", held)
        control: Held = {name: (text.encode(), 0o644) for name, text in control_of(held, number).items()}
        put_files(f"{root}/DEBIAN", {**control, "prerm": (PRERM.encode(), 0o755)})
        env = {**os.environ, "SOURCE_DATE_EPOCH": str(time)}
        words = ["dpkg-deb", "--root-owner-group", "-Zgzip", "--build", root, path]
        done = subprocess.run(words, env=env, stdout=subprocess.PIPE, stderr=subprocess.STDOUT)
        if done.returncode:
            raise Failed(f"dpkg-deb: {done.stdout.decode()}")
