"""What the tools in the folder above are made of. They all work at the top of the repository, where their paths begin."""
import os
import re

TOP = os.path.dirname(os.path.dirname(os.path.dirname(os.path.abspath(__file__))))


def helpers() -> dict[str, str]:
    """The file of each helper by its command, as python/pyproject.toml has the commands: that with its `main`."""
    with open(f"{TOP}/python/pyproject.toml", encoding="ascii") as file:
        rows = re.findall(r'^(dexasm-[a-z]+) = "([\w.]+):main"$', file.read(), re.M)
    return {name: f"python/src/{module.replace('.', '/')}.py" for name, module in rows}


def sought(pattern: str, text: str, flags: int = 0) -> re.Match[str]:
    """What a text that has to have it has first of this form."""
    found = re.search(pattern, text, flags)
    if found is None:
        raise ValueError(f"nothing there has the form {pattern}: {text[:80]!r}")
    return found


def get(path: str) -> bytes:
    with open(path, "rb") as file:
        return file.read()
