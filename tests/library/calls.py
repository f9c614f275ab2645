"""What the tests of the library share: the files that are tried, and what the command answers of each."""
import os
import shutil
import subprocess
import tempfile
from typing import Any

from .. import config
from ..base import LIMIT, Ended, TestCase, ended, get
from ..samples import BRANCHES, ODD, ONE_CLASS

JOBS = ("check", "list", "assemble", "align", "strip")
LISTINGS = {"one class": ONE_CLASS, "a class with branches": BRANCHES, "a payload at an odd address": ODD}


def run(*words: str | bytes, **options: Any) -> Ended:
    """Status, standard output, standard error."""
    streams: dict[str, Any] = {"stdin": subprocess.DEVNULL, "stdout": subprocess.PIPE, "stderr": subprocess.PIPE}
    return ended(words, 5 * LIMIT, **(streams | options))


def put(path: str, given: bytes) -> str:
    with open(path, "wb") as file:
        file.write(given)
    return path


class LibraryTest(TestCase):
    """A test of the library beside the command, with samples in a folder of its own."""

    program: str
    library: str
    work: str
    paths: list[str]

    @classmethod
    def setUpClass(cls) -> None:
        super().setUpClass()
        cls.program, cls.library = config.program(), config.library()
        os.environ["DEXASM_LIBRARY"] = os.path.join(cls.library, "libdexasm.so")
        cls.work = tempfile.mkdtemp(prefix="dexasm-test-")
        cls.addClassCleanup(shutil.rmtree, cls.work, ignore_errors=True)
        cls.paths = cls.samples()

    @classmethod
    def command(cls, job: str, path: str) -> Ended:
        """What the command answers."""
        return run(cls.program, *(["assemble", "--align"] if job == "align" else [job]), path)

    @classmethod
    def put(cls, name: str, given: bytes) -> str:
        return put(os.path.join(cls.work, name.replace(" ", "-")), given)

    @classmethod
    def get(cls, name: str) -> bytes:
        return get(os.path.join(cls.work, name))

    @classmethod
    def samples(cls) -> list[str]:
        """The files that are tried: listings, what they are assembled to, and what no job takes."""
        none = {"nothing": b"", "no file": b"dex 034", "a line feed": b"\n", "zeros": bytes(4096)}
        paths = [cls.put(name, given) for name, given in none.items()]
        for name, text in LISTINGS.items():
            paths.append(cls.put(name, text.encode()))
            file = cls.command("align", paths[-1])[1]
            paths.append(cls.put(f"{name} assembled", file))
            paths.append(cls.put(f"{name} damaged", file[:200] + bytes([file[200] ^ 1]) + file[201:]))
            paths.append(cls.put(f"{name} cut", file[:-1]))
            paths.append(cls.put(f"{name} refused", text.replace("class L", "class ").encode()))
        return paths
