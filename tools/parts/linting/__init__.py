"""What tools/lint looks at: one module for each part of it."""
from typing import NamedTuple


class Seen(NamedTuple):
    """What a look has found: lines that say what is wrong, and a line that says what was looked at. Where nothing could
    be looked at, it says why, and whether that fails under --strict."""

    wrong: list[str]
    said: str = ""
    missing: str = ""
    is_needed: bool = True
