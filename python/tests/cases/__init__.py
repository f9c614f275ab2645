"""The tables of cases of this folder: tests/cases.py describes their form."""
import os
import re

from tests.cases import Case as Case, cases as cases_of


def cases(name: str) -> dict[str, list[Case]]:
    """The cases of a file of this folder, by part."""
    return cases_of(os.path.join(os.path.dirname(__file__), f"{name}.txt"))


def texts(name: str) -> dict[str, str]:
    """The texts of a file of this folder, each below a line with its name in square brackets."""
    with open(os.path.join(os.path.dirname(__file__), f"{name}.txt"), encoding="utf8") as file:
        parts = re.split(r"^\[(.*)\]\n", file.read(), flags=re.M)
    return {
        key: text.removesuffix("\n") if text.endswith("\n\n") else text for key, text in zip(parts[1::2], parts[2::2])
    }


TEXTS = texts("listings")
