"""What a shell makes of many commands, several at a time."""
import concurrent.futures
import os
import re
from collections.abc import Collection, Iterator

from .support import Ended, put, shell


def each(texts: Collection[str], at: str, **env: str) -> Iterator[tuple[str, Ended]]:
    """What bash makes of each of the texts, several at a time."""
    with concurrent.futures.ThreadPoolExecutor(4) as pool:
        yield from zip(texts, pool.map(lambda text: shell(text, at, **env), texts))


def is_line(said: str) -> bool:
    """One line, be it of a failure that nobody thought of."""
    return said.count("\n") == 1 and said[:-1].isprintable() and not re.search("Traceback|Exception", said)


def fake(at: str, name: str, does: str) -> str:
    path = put(at, name, f"#!/bin/sh\n{does}\n".encode())
    os.chmod(path, 0o755)
    return path
