"""The packages: a .tar.gz, a .deb where dpkg-deb is, a wheel where hatchling is, jars where javac and JNA are, and
SHA256SUMS, which has the sums of the packages, and of the program and the library in them, so that whoever builds these
compares. tests/package unpacks each elsewhere, and tries it there."""
import hashlib
import os
import shutil
import subprocess
import sys

from .. import TOP, get
from .packing import Failed, bytes_of, contents, for_dpkg, java_of, output, pack_deb, pack_tar, version
from .wheel import MISSING, backend, wheel_of

PROGRAM, LIBRARY = f"{TOP}/crates/dexasm/out/built/dexasm", f"{TOP}/crates/dexasm_c/out/built"  # by tools/build


def built() -> tuple[str, str]:
    """Program and library of this commit."""
    if subprocess.run(["tools/build", "library"], cwd=TOP).returncode:
        raise Failed("not built")
    return PROGRAM, LIBRARY


def pack(program: str, library: str, folder: str, is_given: bool = True) -> str:
    """Make the packages in this folder and return their sums. Only `built` knows what program and library are, so a
    caller that names them itself leaves `is_given`, whatever their paths.
    """
    number, time = version(), int(output("git", "log", "-1", "--format=%ct") or 0)
    top = f"dexasm-{number}-linux-x86_64"
    held, made = contents(program, library, is_given), [f"{folder}/{top}.tar.gz"]
    jar, jars = java_of(bytes_of(held, "lib/libdexasm.so.0"), time)
    held.update(jar)
    pack_tar(held, top, made[0], time)
    if shutil.which("dpkg-deb"):
        made.append(f"{folder}/dexasm_{for_dpkg(number)}_amd64.deb")
        pack_deb(held, made[1], for_dpkg(number), time)
    if backend() is None:
        print(f"tools/package: {MISSING}: no wheel is made", file=sys.stderr)
        alone = jars
    else:
        proved_by = bytes_of(held, "share/doc/dexasm/PROVED-BY")
        wheel = wheel_of(bytes_of(held, "bin/dexasm"), bytes_of(held, "lib/libdexasm.so.0"), proved_by, time)
        alone = dict([wheel]) | jars
    for name, whole in alone.items():
        made.append(f"{folder}/{name}")
        with open(made[-1], "wb") as file:
            file.write(whole)
    sums = "".join(f"{hashlib.sha256(get(path)).hexdigest()}  {os.path.basename(path)}\n" for path in made)
    # (sha256sum --check passes over such lines)
    sums += "".join(f"# {hashlib.sha256(bytes_of(held, place)).hexdigest()}  {place}\n" for place in ("bin/dexasm", "lib/libdexasm.a", "lib/libdexasm.so.0"))
    with open(f"{folder}/SHA256SUMS", "w", encoding="ascii") as file:
        file.write(sums)
    return sums


def packed(given: tuple[str, str] | None, folder: str) -> int:
    """Packs into a folder, and has what was packed tried; prints the sums."""
    program, library = given or built()
    folder = os.path.abspath(folder)
    os.makedirs(folder, exist_ok=True)
    sums = pack(program, library, folder, is_given=given is not None)
    words = [sys.executable, f"{TOP}/tools/try", "package", f"--program={program}", f"--library={library}"]
    env = {**os.environ, "DEXASM_TESTS_PACKAGES": folder}
    if subprocess.run(words, env=env, stdout=subprocess.DEVNULL).returncode:
        return 1
    print(sums, end="")
    return 0
