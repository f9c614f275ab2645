"""specs/Lib.antt of the crates that users name: each hands on the definitions that its public contracts rest on, so that
whoever proves something about a program of their own names that crate alone. Its own modules stand there by hand.

A definition of a crate that crates.txt lists for a front is handed on from there, all others from another front that is
listed, or from a listed crate that hands them on itself: each crate that a line of crates.txt names costs rt the paths
below it. A name that two modules have is preceded by that of its crate.
"""
import collections
import os

from ..believed import FRONTS, crate_of, definitions
from .making import Made
from .tree import crates, read, stands_on

# It would hand on all others' definitions, on which rt would spend minutes for each crate above it.
COMMAND = "dexasm_command"


def names(front: str) -> dict[str, str]:
    """The files of definitions that a front hands on, by the names that it gives them."""
    known = definitions()
    files = {path for path, _ in known.reached(known.promised_by(front))}
    files |= {path for path in known.files if path.startswith(f"crates/{front}/specs/")}
    often = collections.Counter(map(module_of, files))
    order = crates()
    others = sorted((path for path in files if crate_of(path) != front), key=lambda path: (order.index(crate_of(path)), path))
    return {path: module_of(path) if often[module_of(path)] == 1 else camel(crate_of(path)) + module_of(path) for path in others}


def module_of(path: str) -> str:
    return os.path.basename(path).removesuffix(".antt")


def camel(crate: str) -> str:
    return "".join(word.capitalize() for word in crate.split("_"))


def own_lines(crate: str) -> str:
    """The lines of a crate's specs/Lib.antt, if it has definitions."""
    lib = f"crates/{crate}/specs/Lib.antt"
    return read(lib) if os.path.exists(lib) else ""


def handed_on(front: str, path: str, name: str) -> str | None:
    """The line that hands a file on; None where no crate that is listed has it."""
    listed = stands_on()[front]
    if crate_of(path) in listed:
        there, module = crate_of(path), module_of(path)
    else:
        there = next((other for other in listed if other in FRONTS and path in names(other)), "")
        if not there:
            line = f"pub use Rattle.{crate_of(path)}.specs.{module_of(path)}\n"
            by = next((other for other in listed if other not in FRONTS and line in own_lines(other)), None)
            return by and f"pub use Rattle.{by}.specs.{module_of(path)}" + (f" as {name}" if name != module_of(path) else "")
        module = names(there)[path]
    return f"pub use Rattle.{there}.specs.{module}" + (f" as {name}" if name != module else "")


def made() -> Made:
    texts, missing = dict[str, str](), list[str]()
    for front in FRONTS:
        if front == COMMAND:
            continue
        lib = f"crates/{front}/specs/Lib.antt"
        own = [line for line in read(lib).split("\n") if line.startswith("pub mod ")] if os.path.exists(lib) else []
        lines = {path: handed_on(front, path, name) for path, name in names(front).items()}
        missing += [f"crates.txt lists nothing for {front} that has {path}" for path, line in lines.items() if line is None]
        text = "\n".join([*own, *filter(None, lines.values())])
        if text:
            texts[lib] = f"{text}\n"
    return Made(texts, missing)
