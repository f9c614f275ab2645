"""Makes the jars for Java: dexasm-VERSION.jar, with libdexasm.so in it, and dexasm-VERSION-sources.jar.

usage: python3 bindings/java/jars_of_dexasm.py FOLDER     anywhere; the jars are made in FOLDER

It needs javac 11 or later, and JNA's jar: the one that the variable JNA_JAR names, or Debian's (libjna-java). The
library is the file that the variable DEXASM_LIBRARY names, or the one that tools/build library has made in this
repository. tools/package makes the same jars.
"""
from __future__ import annotations

import io
import os
import re
import shutil
import subprocess
import sys
import tempfile
import time
import zipfile
from collections.abc import Iterable

HERE = os.path.dirname(os.path.abspath(__file__))
BUILT = os.path.join(HERE, "..", "..", "crates", "dexasm_c", "out", "built", "libdexasm.so")
EARLIEST = 315532800  # the first second that a zip archive can hold
SOURCES = os.path.join(HERE, "src", "dexasm")
RELEASE = "11"  # the oldest Java that the classes run on
# JNA is looked for beside the jar, then where Debian has it. Java 24 and later ask which jar may call native code.
MANIFEST = """Manifest-Version: 1.0
Automatic-Module-Name: dexasm
Class-Path: jna.jar /usr/share/java/jna.jar
Enable-Native-Access: ALL-UNNAMED
Implementation-Title: dexasm
Implementation-Version: %s
Main-Class: dexasm.Main

"""


class Failed(Exception):
    """Why there is no jar."""


def get(*path: str) -> bytes:
    with open(os.path.join(*path), "rb") as file:
        return file.read()


def zipped(files: Iterable[tuple[str, bytes]], when: int) -> bytes:
    """The bytes of a zip archive of these files, in this order, each with this time and of nobody in particular."""
    packed = io.BytesIO()
    with zipfile.ZipFile(packed, "w", zipfile.ZIP_DEFLATED) as archive:
        for place, given in files:
            entry = zipfile.ZipInfo(place, time.gmtime(max(when, EARLIEST))[:6])
            entry.external_attr, entry.compress_type = 0o100644 << 16, zipfile.ZIP_DEFLATED
            archive.writestr(entry, given)
    return packed.getvalue()


def version() -> str:
    """As Maven writes it: 0.5.0-SNAPSHOT is before 0.5.0."""
    found = re.search(r"<artifactId>dexasm</artifactId>\s*<version>(.*?)</version>", get(HERE, "pom.xml").decode())
    if found is None:
        raise Failed("pom.xml names no version")
    return found[1]


def jna() -> str:
    return os.environ.get("JNA_JAR") or "/usr/share/java/jna.jar"


def why_not() -> str | None:
    """What is missing for jars to be made; None if nothing is."""
    if not shutil.which("javac"):
        return "no JDK"
    return None if os.path.exists(jna()) else "no JNA"


def sources() -> list[str]:
    return sorted(os.path.join(SOURCES, name) for name in os.listdir(SOURCES) if name.endswith(".java"))


def javac(classes: str, paths: list[str], by: str, *more: str) -> None:
    """Compiles into a folder, by the classes of a jar; what javac has to say of these files is a failure."""
    words = ["javac", "--release", RELEASE, "-Xlint:all,-path", "-Werror", "-encoding", "UTF-8", *more]
    done = subprocess.run([*words, "-cp", by, "-d", classes, *paths], stdout=subprocess.PIPE, stderr=subprocess.STDOUT)
    if done.returncode:
        raise Failed(f"javac: {done.stdout.decode('utf8', 'replace')}")


def compiled() -> dict[str, bytes]:
    """The classes, by where they stand in the jar."""
    with tempfile.TemporaryDirectory() as folder:
        javac(folder, sources(), jna(), "-Xdoclint:all/protected")
        return {f"dexasm/{name}": get(folder, "dexasm", name) for name in os.listdir(f"{folder}/dexasm")}


def jar(files: dict[str, bytes], when: int) -> bytes:
    """The bytes of a jar: the same for the same files and the same time. Java wants the manifest first."""
    licence = get(HERE, "..", "..", "LICENSE")
    head = [("META-INF/MANIFEST.MF", (MANIFEST % version()).encode()), ("META-INF/LICENSE", licence)]
    return zipped([*head, *sorted(files.items())], when)


def with_library(classes: dict[str, bytes], library: bytes) -> dict[str, bytes]:
    """The files of a jar that has the library where JNA looks for it."""
    return {**classes, "linux-x86-64/libdexasm.so": library}


def jars(classes: dict[str, bytes], library: bytes, when: int) -> dict[str, bytes]:
    """The jars, by name."""
    texts = {f"dexasm/{os.path.basename(path)}": get(path) for path in sources()}
    made = jar(with_library(classes, library), when)
    return {f"dexasm-{version()}.jar": made, f"dexasm-{version()}-sources.jar": jar(texts, when)}


def main(words: list[str]) -> int:
    if len(words) != 1 or words[0].startswith("-"):
        print("usage: jars_of_dexasm.py FOLDER", file=sys.stderr)
        return 2
    path = os.environ.get("DEXASM_LIBRARY") or BUILT
    try:
        if why_not():
            raise Failed(f"{why_not()} here")
        if not os.path.exists(path):
            there = f"libdexasm.so isn't at {os.path.normpath(path)}"
            raise Failed(f"{there}: `tools/build library` makes it, or DEXASM_LIBRARY names its file")
        os.makedirs(words[0], exist_ok=True)
        for name, given in jars(compiled(), get(path), int(os.environ.get("SOURCE_DATE_EPOCH", EARLIEST))).items():
            with open(os.path.join(words[0], name), "wb") as file:
                file.write(given)
            print(os.path.join(words[0], name))
    except Failed as why:
        print(f"jars_of_dexasm.py: {why}", file=sys.stderr)
        return 1
    return 0


if __name__ == "__main__":
    sys.exit(main(sys.argv[1:]))
