"""What is tried, as the variables DEXASM_TESTS_.. of the environment say, which tools/try sets:

  PROGRAM, LIBRARY, BENCH   the program, the folder of the library, the program of crates/bench
  FILES                     a folder: the .dex files below it are tried too
  SEED, COUNT, EDITS        of cases made at random: the same seed gives the same, so many are made
  LARGE                     also those that take minutes
  PACKAGES                  a folder of packages, which are made where none is named

Where no program is named, it is what tools/build has made, or else tools/quick, and so with the library; where there is
none, what asks for it is skipped. (Beside a program that is named there is no library but the one that is named.)
"""
import os
import unittest

from . import TOP

PROGRAMS = ("crates/dexasm/out/built/dexasm", "crates/dexasm/out/quick/dexasm")
LIBRARIES = ("crates/dexasm_c/out/built", "crates/dexasm_c/out/quick")


def named(name: str) -> str:
    return os.environ.get(f"DEXASM_TESTS_{name}", "")


def made(places: tuple[str, ...]) -> str:
    """The first of these places where something was made, or nothing."""
    paths = (os.path.join(TOP, place) for place in places)
    return next(filter(os.path.exists, paths), "")


def program() -> str:
    found = named("PROGRAM") or made(PROGRAMS)
    if not found:
        raise unittest.SkipTest("no program is built: tools/build makes it, or tools/quick one without its proof")
    return os.path.abspath(found)


def library() -> str:
    """The folder with libdexasm.a, libdexasm.so and dexasm.h."""
    found = named("LIBRARY") or (made(LIBRARIES) if not named("PROGRAM") else "")
    if not found:
        raise unittest.SkipTest(
            "no library: tools/build library makes it, or tools/quick library one without its proof"
        )
    return os.path.abspath(found)


def shared_library() -> str:
    """The path of libdexasm.so, or nothing where none is tried."""
    try:
        return os.path.join(library(), "libdexasm.so")
    except unittest.SkipTest:
        return ""


def bench() -> str:
    found = named("BENCH")
    if not found:
        raise unittest.SkipTest("the program of crates/bench isn't named: DEXASM_TESTS_BENCH")
    return os.path.abspath(found)


def files() -> str:
    """A folder, or nothing."""
    return os.path.abspath(named("FILES")) if named("FILES") else ""


def seed() -> int:
    return int(named("SEED") or 1)


def count(usual: int) -> int:
    """How many cases are made, where so many are without a word."""
    return int(named("COUNT") or usual)


def edits(usual: int) -> int:
    return int(named("EDITS") or usual)


def is_large() -> bool:
    return named("LARGE") != ""


def packages() -> str:
    """A folder, or nothing."""
    return named("PACKAGES")
