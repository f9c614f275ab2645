"""Commands that aren't dexasm."""
import os
from collections.abc import Iterator

from .support import put


# As a command that answers nothing, or what is no answer, does.
NO_ANSWERS = {
    "nothing": b"#!/bin/sh\n",
    "nothing, status 1": b"#!/bin/sh\nexit 1\n",
    "a crash": b"#!/bin/sh\nkill -11 $$\n",
    "a crash after an answer": b"#!/bin/sh\necho ok\nkill -11 $$\n",
    "bytes": b"#!/bin/sh\nhead -c 300 /dev/urandom\n",
    "a front": b"#!/bin/sh\nprintf 'dex\\n035\\0'\n",
    "another line": b"#!/bin/sh\necho fine\n",
    "its words are wrong": b"#!/bin/sh\necho 'usage: other' >&2\nexit 2\n",
}


def fakes(at: str) -> Iterator[tuple[str, str]]:
    """Commands that aren't dexasm, by what they answer."""
    for name, text in NO_ANSWERS.items():
        fake = put(at, f"fakes/{name}", text)
        os.chmod(fake, 0o755)
        yield name, fake
