"""What dexasm-check and dexasm-lint know of a file, an entry of an archive, or a place of a program."""
from __future__ import annotations

from typing import NamedTuple


class Verdict(NamedTuple):
    """What is known of a file, or of an entry of an archive. The status is `ok`, `refused`, `empty` (an archive without
    a .dex file), or why it wasn't looked at: `skipped` (and it needn't be), `failed`, `time`, `memory`, `killed`. For
    dexasm-lint it is what is known of a place of a program: `broken`, with the rule's word and the part of the page
    that it belongs to.
    """

    path: bytes
    entry: str
    kind: str | None
    status: str
    number: int | None = None
    name: str | None = None
    place: int | None = None
    line: int | None = None
    column: int | None = None
    class_: str | None = None
    member: str | None = None
    instruction: int | None = None
    program: str | None = None
    why: str | None = None
    rule: str | None = None
    page: str | None = None
    register: int | None = None
    address: int | None = None
    extras: dict[str, int] | None = None  # how many annotations of each visibility, and methods with debug information
