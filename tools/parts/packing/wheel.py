"""The wheel, by the backend that python/pyproject.toml names. Where no Python here has it, none is made, and that is said."""
import functools
import os
import subprocess
import sys
import tempfile

from .. import TOP, get, sought
from .packing import Failed

MISSING = "no Python here has hatchling (Debian: python3-hatchling)"
BUILD = "import sys; from hatchling.build import build_wheel; print(build_wheel(sys.argv[1]))"


@functools.cache
def backend() -> str | None:
    """A Python that has the backend: this one, or Debian's."""
    for python in (sys.executable, "/usr/bin/python3"):
        if os.path.exists(python) and subprocess.run([python, "-c", "import hatchling"], stderr=subprocess.DEVNULL).returncode == 0:
            return python
    return None


def wheel_of(program: bytes, library: bytes, proved_by: bytes, when: int) -> tuple[str, bytes]:
    """Its name and its bytes: the same for the same files and the same time."""
    python = backend()
    assert python is not None
    with tempfile.TemporaryDirectory() as room:
        for made, given in (("dexasm", program), ("libdexasm.so", library), ("PROVED-BY", proved_by)):
            with open(f"{room}/{made}", "wb") as file:
                file.write(given)
        os.chmod(f"{room}/dexasm", 0o755)
        named = {"DEXASM_COMMAND": f"{room}/dexasm", "DEXASM_LIBRARY": f"{room}/libdexasm.so"}
        env = {**os.environ, **named, "SOURCE_DATE_EPOCH": str(when), "PYTHONDONTWRITEBYTECODE": "1"}
        words = [python, "-c", BUILD, room]
        done = subprocess.run(words, cwd=f"{TOP}/python", env=env, stdout=subprocess.PIPE, stderr=subprocess.STDOUT)
        said = done.stdout.decode("utf8", "replace")
        if done.returncode:
            raise Failed(f"hatchling: {said}")
        name = sought(r"^(\S+\.whl)$", said, 8)[1]
        return name, get(f"{room}/{name}")
