"""OUT as it may stand, and what is wrong with what a run leaves of it."""
import os
import re
import shutil
import stat
import subprocess
import sys
import tempfile
from typing import NamedTuple

from .output_files import ACL, MODULE, NEW, NOBODY, OLD, acl_of, listed, shut
from .cli.support import LIMIT, get, put, scratch

CALLS = (
    "access,openat,open,creat,newfstatat,fstat,read,write,pwrite64,lseek,fsync,fchmod,chmod,fchown,chown,fsetxattr,"
    "setxattr,fgetxattr,flistxattr,fremovexattr,ftruncate,close,rename,renameat,renameat2,unlink,unlinkat"
)
MODE, NAME, BEGINS = 0o640, "n" * 255, '"/it begins"'
# (MODULE, OUT, the answer, the user)
DRIVER = """
import importlib.util, os, signal, sys
signal.signal(signal.SIGINT, signal.SIG_DFL)
spec = importlib.util.spec_from_file_location("dexasm_deliver", sys.argv[1])
made = importlib.util.module_from_spec(spec)
spec.loader.exec_module(made)
os.umask(0)
if sys.argv[4] != "0":
    os.setgroups([])
    os.setgid(int(sys.argv[4]))
    os.setuid(int(sys.argv[4]))
with open(sys.argv[3], "rb") as file:
    given = file.read()
os.access("/it begins", 0)
try:
    made.deliver(sys.argv[2], given)
except OSError as error:
    sys.exit(3)
"""


# Whether OUT can be replaced in one step, whether its bytes stand beside before it is written, and who writes it.
class Setting(NamedTuple):
    in_one_step: bool = True
    beside: bool = True
    user: int = 0
    old: bytes | None = OLD


SETTINGS = {
    "one name": Setting(),
    "no file": Setting(old=None),
    "a link": Setting(),
    "a link to nothing": Setting(old=None),
    "an ACL": Setting(),
    "two names": Setting(in_one_step=False),
    "a mount point": Setting(in_one_step=False),
    "a sticky folder": Setting(in_one_step=False, user=NOBODY),
    "a closed folder": Setting(in_one_step=False, beside=False, user=NOBODY),
    "an immutable folder": Setting(in_one_step=False, beside=False),
    "a long name": Setting(in_one_step=False, beside=False),
    "a long name, new": Setting(in_one_step=False, beside=False, old=None),
}
LISTED = listed(6, 6, 0, 6, 0)


class Room:
    """A folder in which OUT stands as a setting has it."""

    def __init__(self, name: str) -> None:
        self.name, self.setting = name, SETTINGS[name]
        self.home = tempfile.mkdtemp(dir=scratch())
        os.chmod(self.home, 0o711)
        put(self.home, "given", NEW)
        self.at = f"{self.home}/d"
        os.mkdir(self.at)
        self.out = f"{self.at}/{NAME if 'long' in name else 'out'}"
        self.real = f"{self.at}/real" if "a link" in name else self.out
        if self.setting.old is not None:
            put(self.at, os.path.basename(self.real), OLD)
            os.chmod(self.real, 0o666 if self.setting.user else MODE)
        self.known = {os.path.basename(self.out), os.path.basename(self.real)}
        self.set_up()

    def set_up(self) -> None:
        if "a link" in self.name:
            os.symlink("real", self.out)
        elif self.name == "an ACL":
            os.setxattr(self.out, ACL, LISTED)
            os.setxattr(self.out, "user.x", b"x")
        elif self.name == "two names":
            os.link(self.out, f"{self.at}/other")
            self.known.add("other")
        elif self.name == "a mount point":
            self.real = put(self.home, "real", OLD)
            os.chmod(self.real, MODE)
            subprocess.run(["mount", "--bind", self.real, self.out], check=True, capture_output=True)
        elif self.name == "a sticky folder":
            os.chmod(self.at, 0o1777)
        elif self.name == "an immutable folder":
            shut(self.at, "+", "i")

    def end(self) -> None:
        if self.name == "a mount point":
            subprocess.run(["umount", "-l", self.out], capture_output=True)
        elif self.name == "an immutable folder":
            shut(self.at, "-", "i")
        shutil.rmtree(self.home, ignore_errors=True)

    def run(self, injected: str | None = None) -> tuple[int, list[str], str]:
        """How it ended, and its calls."""
        words = ["strace", "-qq", "-f", "-s", "0", "-o", f"{self.home}/log", "-e", f"trace={CALLS}"]
        words += [] if "signal" in (injected or "") else ["--seccomp-bpf"]  # (no signal comes by that)
        words += ["-e", f"inject={injected}"] if injected else []
        words += [sys.executable, "-I", "-S", "-B", "-c", DRIVER, MODULE, self.out, f"{self.home}/given"]
        words += [str(self.setting.user)]
        env = {"PATH": os.environ["PATH"], "LANG": "C.UTF-8"}
        done = subprocess.run(words, stdin=subprocess.DEVNULL, capture_output=True, timeout=LIMIT, env=env)
        told = done.stderr.decode("utf8", "replace")
        status = done.returncode if done.returncode < 128 else 128 - done.returncode
        return status, get(self.home, "log").decode("utf8", "replace").splitlines(), told

    def wrong(self, status: int, injected: str | None, told: str) -> str | None:
        """What is wrong with what a run left, or None."""
        parts = {name: get(self.at, name) for name in os.listdir(self.at) if name not in self.known}
        out = get(self.out) if os.path.exists(self.out) else None
        signal_of = re.search("signal=(SIG[A-Z]+)", injected or "")
        is_killed = signal_of is not None and signal_of[1] == "SIGKILL"
        is_unlink = injected is not None and injected.startswith("unlink")
        whole = NEW in parts.values()
        is_lost = out not in (self.setting.old, NEW) and not (whole and not self.setting.in_one_step)
        if is_lost and not (is_killed and not self.setting.beside):
            return f"OUT is lost: {None if out is None else len(out)} bytes, {[*map(len, parts.values())]} beside"
        if status not in (0, 3) and not signal_of or "Traceback" in told:
            return f"status {status} {told[-300:]}"
        if status == 0 and (out != NEW or parts and not is_unlink):
            return f"status 0, {out and len(out)!r} bytes, beside {[*parts]}"
        if any(
            not name.startswith(f"{os.path.basename(self.real)}.") for name in parts if self.real.startswith(self.at)
        ):
            return f"another name: {[*parts]}"
        if parts and not is_killed and not is_unlink and not (whole and not self.setting.in_one_step and status == 3):
            return f"left beside: {[*parts]}"
        return self.wrong_rights(parts)

    def wrong_rights(self, parts: dict[str, bytes]) -> str | None:
        old = 0o666 if self.setting.user or self.setting.old is None else MODE
        paths = [self.out] * os.path.exists(self.out) + [f"{self.at}/{name}" for name in parts]
        for path in paths:
            mode = stat.S_IMODE(os.stat(path).st_mode)
            if self.name == "an ACL":
                has = acl_of(path)
                if has not in (None, LISTED) or has is None and mode & 0o077:
                    return f"an ACL that it hadn't, or mode {mode:o} without it"
            elif mode & ~old:
                return f"mode {mode:o} for {old:o}"
            elif path == self.out and self.setting.old is not None and mode != old:
                return f"OUT has mode {mode:o} for {old:o}"
        if "a link" in self.name and not os.path.islink(self.out):
            return "the link is no link"
        if self.name == "two names" and not os.path.samefile(self.out, f"{self.at}/other"):
            return "the names are of two files"
        if get(self.home, "given") != NEW:
            return "what was given was touched"
        return None


def order_wrong(name: str, log: list[str]) -> str | None:
    """What is wrong with the order of the calls of a run that was left alone: the part is nobody else's when it is
    made in place of another file, and it is whole and on the disk before it takes that one's place.
    """
    text = "\n".join(log[[at for at, line in enumerate(log) if BEGINS in line][0] :])
    made = re.search(r"openat\(.*O_EXCL.*, 0([0-7]+)\) = (\d+)", text)
    if made is None:
        return None if not SETTINGS[name].beside else "no part"
    if made[1] != ("666" if SETTINGS[name].old is None else "600"):
        return f"the part is made with mode {made[1]}"
    wrote, synced, moved = (text.find(one) for one in (f"write({made[2]},", f"fsync({made[2]})", "rename"))
    if SETTINGS[name].old is not None and not made.start() < wrote < synced:
        return f"not synced: {made.start()} {wrote} {synced}"
    if moved >= 0 and moved < max(wrote, synced):
        return "moved before it is whole"
    return None
