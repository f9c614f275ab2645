"""Tests of the built program and library from outside, each part in a folder of its own. `tools/try PART` runs a part
on a given program; `python3 -m unittest`, at the top of the repository, on the one that is built: see config.py."""
import os
import re
import sys

TOP = os.path.dirname(os.path.dirname(os.path.abspath(__file__)))
# What is tried stands before what is installed.
sys.path[:0] = [os.path.join(TOP, place) for place in ("python/src", "tools", "bindings/java", "bench/hostile")]


def sought(pattern: str, text: str, flags: int = 0) -> re.Match[str]:
    """What a text that has to have it has first of this form."""
    found = re.search(pattern, text, flags)
    if found is None:
        raise ValueError(f"nothing there has the form {pattern}: {text[:80]!r}")
    return found
