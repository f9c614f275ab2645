"""The recipes of the pages, and files of names that are meant to do harm."""
import os
import re
from typing import Any

from ..cases import TEXTS
from .support import ESC, HEAD, NAMES, TOP, assembled, get, put

TEXT = (HEAD + TEXTS["recipe_cases TEXT"].encode())
# All of these at once, for where a recipe has one file.
EVIL = f"sp ace'q\"$(touch PWNED)`touch PWNED`&a|;e touch PWNED #\nnew{ESC}[31m*"
TURNED = "a\u202exed."  # what follows such a mark is shown from right to left
# Git's cache of texts wants a name too.
IDENTITY: dict[str, Any] = {f"GIT_{who}_{what}": "a" for who in ("AUTHOR", "COMMITTER") for what in ("NAME", "EMAIL")}


def blocks(page: str) -> dict[str, list[str]]:
    """The recipes of a page by the headings that they stand under."""
    parts = re.split(r"^## (.*)$", get(TOP, page).decode(), flags=re.M)
    return {head: re.findall(r"```bash\n(.*?)```", text, re.S) for head, text in zip(parts[1::2], parts[2::2])}


def many(at: str) -> int:
    """Files of evil names, every other one refused; answers how many are."""
    for number, name in enumerate(
        ("ok", *NAMES, "{}", "{= touch PWNED =}", "t\ta\t0\t0", EVIL, f"\n1\t:\t1\t1\t0\t0\t0\t0\t{ESC}x", "b", TURNED)
    ):
        put(at, f"{name}.dex", assembled(TEXT)[: -1 if number % 2 else None])
    os.symlink("/dev/zero", os.path.join(at, "link.dex"))
    return (number + 1) // 2
