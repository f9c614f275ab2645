"""Whether the code and the definitions are laid out as `rt fmt` does it. The gate refuses a crate that isn't, but only when
its turn comes, which may be an hour after it began.
"""
import glob
import os
import shutil
import subprocess

from . import Seen

FORMS = ("src/**/*.rt", "specs/**/*.antt", "proofs/**/*.antt")


def formatter() -> str | None:
    """The compiler beside `rt`, whose fmt can look without writing."""
    rt = shutil.which("rt")
    beside = os.path.join(os.path.dirname(os.path.realpath(rt)), "rattle") if rt else ""
    return beside if os.path.isfile(beside) else shutil.which("rattle")


def look() -> Seen:
    rattle = formatter()
    if rattle is None:
        return Seen([], missing="no command rattle beside rt")
    files = sorted(file for form in FORMS for file in glob.glob(f"crates/*/{form}", recursive=True))
    done = subprocess.run([rattle, "fmt", "--check", *files], stdout=subprocess.PIPE, stderr=subprocess.STDOUT, text=True)
    found = [f"{line}: run rt fmt in its crate" for line in done.stdout.splitlines() if " is not in the layout" in line]
    if done.returncode and not found:
        found = [done.stdout.strip()[:500] or f"rattle fmt ended with {done.returncode}"]
    return Seen(found, f"the layout of {len(files)} files")
