"""dexasm-check without a library beside it, and what GitHub's runner reads of its lines."""
import functools
import os
import re
import shutil

from .support import TOP, room

# What GitHub's runner undoes (actions/runner, ActionCommand.cs), in its order.
RUNNER = (("%0D", "\r"), ("%0A", "\n"), ("%3A", ":"), ("%2C", ","), ("%25", "%"))


@functools.cache
def alone() -> str:
    """The helpers without any library beside them: over the command."""
    at = room("check alone")
    for folder in ("python/bin", "python/src"):
        shutil.copytree(os.path.join(TOP, folder), os.path.join(at, folder), ignore=shutil.ignore_patterns("*.so*"))
    return os.path.join(at, "python", "bin")


def properties(line: str) -> dict[str, str]:
    """The properties of a command, as GitHub's runner reads them; {} of what is none."""
    head = re.match(r"::error ([^\n]*?)::", line)
    found: dict[str, str] = {}
    for one in head[1].split(",") if head else ():
        name, _, value = one.partition("=")
        for said, is_meant in RUNNER:
            value = value.replace(said, is_meant)
        found[name] = value
    return found
