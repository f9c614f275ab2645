"""What each part of tools/generate gives, and how it is written or compared."""
import os
from typing import NamedTuple


class Missing(Exception):
    """What a text is made of isn't there, so that no text of its part can be made."""


class Program(str):
    """The text of a file that can be run."""


class Made(NamedTuple):
    """The texts of a part by their paths, and what is wrong in what they are made of."""

    texts: dict[str, str]
    wrong: list[str]


def is_there(path: str, text: str) -> bool:
    """Whether the file has this text, and can be run if it is to."""
    try:
        with open(path, encoding="utf8") as file:
            return file.read() == text and (not isinstance(text, Program) or os.access(path, os.X_OK))
    except FileNotFoundError:
        return False


def write(path: str, text: str) -> None:
    os.makedirs(os.path.dirname(path), exist_ok=True)
    with open(f"{path}.new", "w", encoding="utf8") as file:
        file.write(text)
    if isinstance(text, Program):
        os.chmod(f"{path}.new", 0o755)
    os.replace(f"{path}.new", path)
