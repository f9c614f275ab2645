"""What is written in Python: names that nothing uses or has, by pyflakes; types, by mypy with the settings of both
pyproject.toml; and the format of the package, by black. What isn't installed isn't run."""
import glob
import os
import shutil
import subprocess

from . import Seen

FOLDERS = ("tools", "tests", "python", "bindings", "bench")
# The settings of mypy, each with the folder in which it runs: of the package, of the tests, of the tools.
PROJECTS = (("python", "pyproject.toml"), (".", "tests/mypy.ini"), (".", "pyproject.toml"))
PACKAGE = "python/src"
FLAKES = ("pyflakes3", "pyflakes")
KNOWN = "tools/parts/out/mypy"  # what mypy has found before, which takes it a minute


def is_python(path: str) -> bool:
    """Whether a file is Python, by its name or by its first line."""
    if path.endswith(".py"):
        return True
    if "." in os.path.basename(path) or not os.access(path, os.X_OK):
        return False
    with open(path, "rb") as file:
        return file.readline().rstrip() == b"#!/usr/bin/env python3"


def sources() -> list[str]:
    found = [path for folder in FOLDERS for path in glob.glob(f"{folder}/**/*", recursive=True)]
    return sorted(path for path in found if os.path.isfile(path) and is_python(path) and not os.path.islink(path))


def by_flakes(command: str, paths: list[str]) -> list[str]:
    """What pyflakes finds, but for what a line marked noqa is said to want so."""
    said = subprocess.run([command, *paths], capture_output=True, text=True)
    return [line for line in (said.stdout + said.stderr).splitlines() if line and not is_excused(line)]


def is_excused(line: str) -> bool:
    """Whether the line of a file that this is told of has the word noqa."""
    path, _, rest = line.partition(":")
    number = rest.partition(":")[0]
    if not number.isdecimal() or not os.path.isfile(path):
        return False
    with open(path, encoding="utf8") as file:
        lines = file.read().split("\n")
    return int(number) <= len(lines) and "# noqa" in lines[int(number) - 1]


def by_mypy(folder: str, settings: str) -> list[str]:
    """What mypy finds in a folder by these settings, which say where it looks."""
    known = os.path.join(os.path.abspath(KNOWN), folder, os.path.dirname(settings))
    words = ["mypy", "--no-error-summary", "--config-file", settings, "--cache-dir", known]
    said = subprocess.run(words, capture_output=True, text=True, cwd=folder)
    lines = (said.stdout + said.stderr).splitlines()
    return [os.path.normpath(os.path.join(folder, line)) for line in lines] if said.returncode else []


def by_black() -> list[str]:
    """The files of the package that aren't in black's format, by the settings of its pyproject.toml."""
    said = subprocess.run(["black", "--check", PACKAGE], capture_output=True, text=True)
    return [line for line in said.stderr.splitlines() if line.startswith(("would reformat", "error"))]


def look() -> Seen:
    paths, wrong, by = sources(), [], []
    if command := next(filter(shutil.which, FLAKES), None):
        by.append("pyflakes")
        wrong += by_flakes(command, paths)
    if shutil.which("mypy"):
        by.append("mypy")
        wrong += [line for project in PROJECTS for line in by_mypy(*project)]
    if shutil.which("black"):
        by.append("black")
        wrong += by_black()
    if not by:
        return Seen([], missing="neither pyflakes nor mypy is installed (Debian: pyflakes3, mypy)", is_needed=False)
    lacking = [name for name in ("pyflakes", "mypy", "black") if name not in by]
    said = f"{len(paths)} files of Python, by {' and '.join(by)}"
    return Seen(wrong, said + (f"; {lacking[0]} isn't installed here" if lacking else ""))
