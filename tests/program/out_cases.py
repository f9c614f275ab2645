"""What a command leaves, by what OUT is: a table of cases, each in a folder of its own.

A case is its name, what makes it, the exit status and the line on standard error that are wanted, what of the folder is
looked at, and what stands there, in words: `answer` is the whole one, `old` what the file held, `front` a beginning of
the answer. Cases of another user, and those on a disk of their own, are left out where they can't be set up."""
# (what makes a case may do several things: a tuple of what they answer, which is nothing)
# mypy: disable-error-code="func-returns-value"
import os
import shutil
import stat
import subprocess
import tempfile
from collections.abc import Callable
from typing import IO, Any

from ..base import LIMIT, get

READ, WRITE = "dexasm: cannot read\n", "dexasm: cannot write\n"
USER = 1000
Check = Callable[[str, bool, object], None]
Make = Callable[["Home"], object]
Case = tuple[str, Make, int, str, tuple[str, ...], str | None]


class CantBeMade(Exception):
    """No such case can be set up here."""


class Home:
    """The folder of one case, with FILE in it."""

    reader: subprocess.Popen[bytes]  # (where OUT is a pipe)

    def __init__(self, folder: str, given: bytes, answer: bytes) -> None:
        self.mounts: list[str]
        self.path, self.given, self.answer, self.mounts = folder, given, answer, []
        self.put("in.dex", given)

    def at(self, name: str) -> str:
        return os.path.join(self.path, name)

    def put(self, name: str, given: bytes = b"old", mode: int = 0o644, owner: int | None = None) -> None:
        with open(self.at(name), "wb") as file:
            file.write(given)
        os.chmod(self.at(name), mode)
        if owner is not None:
            os.chown(self.at(name), owner, owner)

    def folder(self, name: str, mode: int = 0o755, owner: int | None = None) -> None:
        os.mkdir(self.at(name))
        os.chmod(self.at(name), mode)
        if owner is not None:
            os.chown(self.at(name), owner, owner)

    def mount(self, place: str, *words: str) -> None:
        done = subprocess.run(["mount", *words, self.at(place)], stderr=subprocess.DEVNULL)
        if done.returncode != 0:
            raise CantBeMade()
        self.mounts.append(place)

    def disk(self, options: str, **files: bytes) -> None:
        """A disk of its own at `c`."""
        self.folder("c")
        self.mount("c", "-t", "tmpfs", "-o", options, "tmpfs")
        for name, given in files.items():
            self.put(f"c/{name}", given)

    def unmount(self) -> None:
        while self.mounts:
            subprocess.run(["umount", "-l", self.at(self.mounts.pop())], stderr=subprocess.DEVNULL)

    def show(self, name: str) -> str:
        """What stands there, in a word."""
        try:
            mode = os.lstat(self.at(name)).st_mode
        except (FileNotFoundError, NotADirectoryError):
            return "absent"
        if not stat.S_ISREG(mode):
            return "link" if stat.S_ISLNK(mode) else "folder" if stat.S_ISDIR(mode) else "device"
        held = get(self.at(name))
        for word, bytes_of_it in (("old", b"old"), ("answer", self.answer), ("empty", b""), ("input", self.given)):
            if held == bytes_of_it:
                return word
        return "front" if self.answer.startswith(held) else f"{len(held)} bytes"

    def looks(self, *names: str) -> str:
        """What stands at these names, and each part in their folders."""
        folders = {os.path.dirname(name) for name in names}
        found = [
            os.path.join(folder, name) for folder in sorted(folders) for name in sorted(os.listdir(self.at(folder)))
        ]
        parts = [name for name in found if name.endswith(".part") and name not in names]
        return "; ".join(f"{name[:12]} {self.show(name)}" for name in [*names, *parts])


def pipe_with_reader(home: Home) -> None:
    os.mkfifo(home.at("out"))
    with open(home.at("got"), "wb") as got:
        home.reader = subprocess.Popen(["cat", home.at("out")], stdout=got)


def bind(home: Home, source: str, place: str) -> None:
    home.put(source)
    home.put(place)
    home.mount(place, "--bind", home.at(source))


def taken(home: Home, count: int) -> None:
    home.put("out")
    for number in range(count):
        home.put(f"out.{number}.part")


def loop(home: Home) -> None:
    os.symlink("b", home.at("out"))
    os.symlink("out", home.at("b"))


def chain(home: Home) -> None:
    home.folder("d")
    os.symlink("d/b", home.at("out"))
    os.symlink("c", home.at("d/b"))


def linked(home: Home, name: str = "out", other: str = "other", given: bytes = b"old") -> None:
    home.put(name, given)
    os.link(home.at(name), home.at(other))


def leads(home: Home, target: str, is_there: bool = True, second: str | None = None) -> None:
    if is_there:
        home.put(target)
    if second:
        os.link(home.at(target), home.at(second))
    os.symlink(target, home.at("out"))


def room_for_one(home: Home) -> None:
    home.disk(f"size={(len(home.answer) + 400000) // 4096 * 4}k")
    linked(home, "c/out", "c/other", b"x" * 300000)


def read_only(home: Home) -> None:
    home.disk("size=4m", out=b"old")
    subprocess.run(["mount", "-o", "remount,ro", home.at("c")], check=True)


LONG = "o" * 255
# (name, what makes it, status, line, what is looked at, what stands there; OUT where it isn't `out`)
CASES: tuple[Case | tuple[str, Make, int, str, tuple[str, ...], str | None, str], ...] = (
    ("OUT absent", lambda home: None, 0, "", ("out",), "out answer"),
    (
        "OUT with a mode and an owner of its own", lambda home: home.put("out", mode=0o640), 0, "", ("out",),
        "out answer"
    ),
    ("OUT with two names", linked, 0, "", ("out", "other"), "out answer; other answer"),
    ("OUT a link to a file", lambda home: leads(home, "real"), 0, "", ("out", "real"), "out link; real answer"),
    ("OUT a link to a file with two names", lambda home: leads(home, "real", second="r2"), 0, "", ("out", "real", "r2"),
     "out link; real answer; r2 answer"),
    ("OUT a link to nothing", lambda home: leads(home, "real", False), 0, "", ("out", "real"), "out link; real answer"),
    ("OUT a link to a link to nothing", chain, 0, "", ("out", "d/b", "d/c"), "out link; d/b link; d/c answer"),
    ("OUT a loop of links", loop, 3, WRITE, ("out", "b"), "out link; b link"),
    ("OUT a link to /dev/null", lambda home: os.symlink("/dev/null", home.at("out")), 0, "", ("out",), "out link"),
    ("OUT a folder", lambda home: home.folder("out"), 3, WRITE, ("out",), "out folder"),
    ("OUT in a folder that is missing", lambda home: None, 3, WRITE, ("in.dex",), "in.dex input", "no/out"),
    ("OUT without a name", lambda home: None, 3, WRITE, ("in.dex",), "in.dex input", ""),
    ("OUT a folder's name, absent", lambda home: None, 3, WRITE, ("out",), "out absent", "out/"),
    ("OUT a file's number that isn't open", lambda home: None, 3, WRITE, ("in.dex",), "in.dex input", "/dev/fd/99"),
    ("OUT a full device", lambda home: None, 3, WRITE, ("in.dex",), "in.dex input", "/dev/full"),
    ("FILE refused, OUT there", lambda home: (home.put("out"), home.put("in.dex", b"dex")), 1,
     "dexasm: refused 1 TooShort at 3\n", ("out",), "out old"),
    ("FILE refused, OUT absent", lambda home: home.put("in.dex", b"dex"), 1, "dexasm: refused 1 TooShort at 3\n",
     ("out",), "out absent"),
    ("FILE missing, OUT there", lambda home: (home.put("out"), os.remove(home.at("in.dex"))), 3, READ, ("out",),
     "out old"),
    ("FILE a folder, OUT there", lambda home: (home.put("out"), os.remove(home.at("in.dex")), home.folder("in.dex")), 3,
     READ, ("out",), "out old"),
    ("a part's name taken", lambda home: taken(home, 1), 0, "", ("out",), "out answer; out.0.part old"),
    ("a part's name taken by a link to nothing",
     lambda home: (home.put("out"), os.symlink("zz", home.at("out.0.part"))), 0, "", ("out", "zz"),
     "out answer; zz absent; out.0.part link"),
    ("a hundred and fifty parts' names taken", lambda home: taken(home, 150), 0, "", ("out", "out.150.part"), None),
    ("OUT with the longest name, there", lambda home: home.put(LONG), 0, "", (LONG,), "oooooooooooo answer", LONG),
    ("OUT with the longest name, absent", lambda home: None, 0, "", (LONG,), "oooooooooooo answer", LONG),
    ("OUT a named pipe with a reader", pipe_with_reader, 0, "", ("out", "got"), "out device; got answer"),
)
# As root, on disks of their own.
DISKS: tuple[Case, ...] = (
    ("a full disk, OUT there", lambda home: home.disk("size=64k", out=b"old"), 3, WRITE, ("c/out",), "c/out old"),
    ("a full disk, OUT absent", lambda home: home.disk("size=64k"), 3, WRITE, ("c/out",), "c/out absent"),
    ("a full disk, OUT with two names", lambda home: (home.disk("size=64k"), linked(home, "c/out", "c/other")), 3,
     WRITE, ("c/out", "c/other"), "c/out old; c/other old"),
    ("a disk with room for one answer, OUT with two names", room_for_one, 3, WRITE, ("c/out", "c/other"),
     "c/out front; c/other front; c/out.0.part answer"),
    ("a folder that takes no file more, OUT there", lambda home: home.disk("nr_inodes=2", out=b"old"), 3, WRITE,
     ("c/out",), "c/out old"),
    ("a disk that is read only, OUT there", read_only, 3, WRITE, ("c/out",), "c/out old"),
    ("OUT a mount point", lambda home: (home.folder("c"), bind(home, "real", "c/out")), 0, "", ("c/out", "real"),
     "c/out answer; real answer"),
)
# As another user.
OTHERS: tuple[tuple[str, Make, int, str, str], ...] = (
    ("its own file in another's folder", lambda home: (home.folder("c"), home.put("c/out", owner=USER)), 0, "",
     "c/out answer"),
    ("a file of root in its own folder", lambda home: (home.folder("c", owner=USER), home.put("c/out")), 3, WRITE,
     "c/out old"),
    ("a file of root that all may write, in its own folder",
     lambda home: (home.folder("c", owner=USER), home.put("c/out", mode=0o666)), 0, "", "c/out answer"),
    ("OUT absent in root's folder", lambda home: home.folder("c"), 3, WRITE, "c/out absent"),
    ("its own file that may not be written", lambda home: (home.folder("c"), home.put("c/out", mode=0o444, owner=USER)),
     3, WRITE, "c/out old"),
    ("OUT in a folder that it can't search", lambda home: (home.folder("c", 0o700), home.put("c/out", mode=0o666)), 3,
     WRITE, "c/out old"),
)


def as_user() -> None:
    os.setgroups([])
    os.setgid(USER)
    os.setuid(USER)


def check_one(
    check: Check, program: str, folder: str, given: bytes, answer: bytes, case: Case, out: str = "out", **options: Any
) -> None:
    """Sets one case up, runs strip, and looks at what it left."""
    name, make, status, line, looked_at, want = case
    home = Home(tempfile.mkdtemp(dir=folder), given, answer)
    os.chmod(home.path, 0o755)
    try:
        make(home)
        words = [program, "strip", "in.dex", "--output", out]
        where: dict[str, Any] = {"cwd": home.path, "stdin": subprocess.DEVNULL, "timeout": LIMIT}
        done = subprocess.run(words, capture_output=True, **where, **options)
        if hasattr(home, "reader"):
            home.reader.wait(LIMIT)
        said = done.stderr.decode("utf8", "replace")
        end = (done.returncode, done.stdout, said)
        check(f"{name}: its end", end == (status, b"", line), f"{done.returncode} {done.stdout[:60]!r} {said[:200]!r}")
        seen = home.looks(*looked_at) if want is not None else " ".join(home.show(part) for part in looked_at)
        check(f"{name}: what it left", seen == (want or "answer absent"), seen)
    except CantBeMade:
        pass
    finally:
        home.unmount()
        shutil.rmtree(home.path, ignore_errors=True)


def check_others(check: Check, program: str, folder: str, given: bytes, answer: bytes) -> None:
    """What the table has no column for: other words, and OUT that is standard output or FILE."""
    home = Home(tempfile.mkdtemp(dir=folder), given, answer)

    def ends(
        name: str, want: tuple[int, bytes, bytes | bool], *words: str, stdout: int | IO[bytes] = subprocess.PIPE
    ) -> None:
        where: dict[str, Any] = {"cwd": home.path, "stdin": subprocess.DEVNULL, "timeout": LIMIT}
        done = subprocess.run([program, *words], stdout=stdout, stderr=subprocess.PIPE, **where)
        seen = (done.returncode, done.stdout or b"", done.returncode == 2 or done.stderr)
        check(name, seen == want, f"{done.returncode} {seen[1][:60]!r} {done.stderr[:200]!r}")

    ends("OUT standard output, a pipe", (0, answer, b""), "strip", "in.dex", "--output", "/dev/stdout")
    with open(home.at("stdout"), "wb") as file:
        ends("OUT standard output, a file", (0, b"", b""), "strip", "in.dex", "--output", "/dev/stdout", stdout=file)
    check("OUT standard output, a file: what it left", home.looks("stdout") == "stdout answer", home.looks("stdout"))
    ends("OUT a null device", (0, b"", b""), "strip", "in.dex", "--output", "/dev/null")
    home.put("out")
    ends("wrong words, OUT there", (2, b"", True), "strap", "in.dex", "--output", "out")
    check("wrong words: what they left", home.looks("out") == "out old", home.looks("out"))
    linked(home, "same", "other", given)
    ends("FILE that is OUT, with two names", (0, b"", b""), "strip", "same", "--output", "same")
    left = home.looks("same", "other")
    check("FILE that is OUT, with two names: what it left", left == "same answer; other answer", left)
    shutil.rmtree(home.path, ignore_errors=True)


def check_all(check: Check, program: str, folder: str, given: bytes, answer: bytes) -> None:
    """Each case; `answer` is what strip gives of the file `given`, and has more than 64 KB."""
    for case in CASES:
        check_one(check, program, folder, given, answer, case[:6], *case[6:])
    check_others(check, program, folder, given, answer)
    if os.geteuid() != 0:
        return
    for case in DISKS:
        check_one(check, program, folder, given, answer, case, "c/out")
    for name, make, status, line, want in OTHERS:
        case = ("another user, " + name, make, status, line, ("c/out",), want)
        check_one(check, program, folder, given, answer, case, "c/out", preexec_fn=as_user)
