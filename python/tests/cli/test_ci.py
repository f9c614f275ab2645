"""The hook for git and the workflow of docs/ci, as they stand there: on files whose names are meant to do harm, and
where git, dexasm or the disk fails. What they couldn't look at ends in failure.
"""
import json
import os
import re
import shlex
import shutil
from collections.abc import Callable, Iterable
from typing import Any

from tests import config
from tests.matchers import ANY, ONE_LINE, SOME, Begins, Has, Lacks, Other
from .archive_files import archive, changed
from .ci_lines import alone, properties
from .recipe_cases import EVIL, IDENTITY, TEXT, TURNED, many
from .support import TOP, Ended, HelperTest, assembled, environment, get, put, puts, room, run, shell

HOOK = os.path.join(TOP, "docs/ci/pre-commit")
COMMIT = ("git", "commit", "-qm", "a")
# Names of files and archives that are looked at, and of one that isn't.
LOOKED_AT = ("X.DEX", "x.dEx", "x.apk", "X.APK", "x.jar", "X.Jar", "x.zip", "X.ZIP")


def repository(name: str, hooks: Iterable[str] = ("pre-commit",)) -> str:
    """A folder with a repository that has the hook."""
    at = room(name)
    shell("git init -q . && mkdir -p .git/hooks", at)
    for hook in hooks:
        shutil.copy(HOOK, os.path.join(at, ".git/hooks", hook))
    return at


def staged(at: str, name: str, given: bytes) -> Ended:
    put(at, name, given)
    return run(["git", "add", "-A"], at=at)


def committed(at: str, *words: str, **env: Any) -> Ended:
    return run([*COMMIT, *words], at=at, **IDENTITY, **env)


def count(at: str) -> str:
    """How many commits there are."""
    return run(["git", "rev-list", "--count", "--all"], at=at)[1].strip()


def refused(given: bytes, name: str) -> bytes:
    """A file that is refused, as a name of its kind has it."""
    return given if name.lower().endswith(".dex") else archive(("classes.dex", given))


def failing(name: str, program: str, *words: str) -> str:
    """A folder with a program that fails where one of its words is one of these, or whatever they are."""
    path = os.path.join(room(name), os.path.basename(program))
    is_one = " || ".join(f'[ "$word" = {word} ]' for word in words) or "true"
    with open(path, "w", encoding="utf8") as file:
        file.write(f'#!/bin/bash\nfor word; do if {is_one}; then exit 9; fi; done\nexec {shlex.quote(program)} "$@"\n')
    os.chmod(path, 0o755)
    return os.path.dirname(path)


def before(folder: str) -> dict[str, Any]:
    return {"PATH": os.pathsep.join([folder, environment()["PATH"]])}


def worked(step: str, at: str, **env: Any) -> Ended:
    """The step, as GitHub has bash run it."""
    env = {"RUNNER_TEMP": os.path.dirname(step), **env}
    return run(["bash", "--noprofile", "--norc", "-eo", "pipefail", step], at=at, **env)


def uploaded(step: str) -> list[Any]:
    """The results of the report that the workflow uploads."""
    found: list[Any] = json.loads(get(os.path.dirname(step), "dexasm.sarif"))["runs"][0]["results"]
    return found


# ---- the line of README


PROVED = "DEXASM=proved "


def line_of_readme() -> str:
    """The line that README has for CI, but without DEXASM=proved, by which a build that isn't proved stops it."""
    lines = [line for line in get(TOP, "README.md").decode().splitlines() if line.endswith("> dexasm.sarif || exit 1")]
    assert len(lines) == 1 and lines[0].startswith(PROVED)
    return lines[0].removeprefix(PROVED)


def build(at: str, before: str = "", **env: Any) -> Ended:
    """A build's script with that line, in a folder; `before` runs bash otherwise."""
    if config.shared_library():
        env = {"DEXASM_LIBRARY": config.shared_library(), **env}
    most = env.pop("most", None)
    words = [*shlex.split(before), "bash", "-c", f"{line_of_readme()}\necho went on\n"]
    return run(words, at=at, most=most, **env)


def inner(name: str, given: bytes) -> Callable[[str, bytes], object]:
    """Puts an archive there that has this file beside a good one."""

    def puts(at: str, file: bytes) -> None:
        put(at, f"inner/{name}", archive(("classes.dex", file), ("base/dex/classes2.dex", given)))

    return puts


def put_link(at: str, file: bytes) -> None:
    put(os.path.dirname(at), "elsewhere", file[:-1])
    os.symlink("../elsewhere", os.path.join(at, "link"))


def put_lying(at: str, file: bytes) -> None:
    """An archive whose entry says that it is shorter than it is."""
    put(at, "app.apk", changed(archive(("classes.dex", file)), "classes.dex", 22, "<I", len(file) - 1))


# What a build has in its folder beside a good file: a name, and what puts it there.
BROKEN: dict[str, Callable[[str, bytes], object]] = {
    "an .apk in a folder": inner("app.apk", b"no file"),
    "an .aab": inner("app.aab", b"no file"),
    "an .apk in an .apks": lambda at, file: put(at, "a.apks", archive(("a.apk", archive(("classes.dex", file[:-1]))))),
    "a link": put_link,
    "a link that leads nowhere": lambda at, file: os.symlink("none", os.path.join(at, "a.apk")),
    "a .dex file called .dat": lambda at, file: put(at, "inner/file.dat", file[:-1]),
    "an archive called .dat": lambda at, file: put(at, "inner/file.dat", archive(("classes.dex", file[:-1]))),
    "a lying archive": put_lying,
    "an archive cut short": lambda at, file: put(at, "app.apk", archive(("classes.dex", file))[:-9]),
    "an archive behind a file": lambda at, file: put(at, "app.apk", file + archive(("classes.dex", file))),
}


class ReadmeLine(HelperTest):
    """The build that README's line has to stop, and the one that goes on."""

    def is_stopped(self, what: str, seen: Ended, at: str = "") -> None:
        self.check_equal(f"README's line, {what}", seen, (1, "", Lacks("Traceback")))
        if at:
            document = json.loads(get(at, "dexasm.sarif"))
            found, run_of = document["runs"][0]["results"], document["runs"][0]["invocations"][0]
            why = found or not run_of["executionSuccessful"] and run_of["toolExecutionNotifications"]
            self.check_equal(f"README's line, {what}: the report says so", why, SOME)

    def test_broken(self) -> None:
        """What is in the folder beside a good file."""
        file = assembled(TEXT)
        for number, (what, change) in enumerate(BROKEN.items()):
            at = os.path.join(room(f"readme {number}"), "build")
            put(at, "good.dex", file)
            if number == 0:
                self.check_equal("README's line, a good file", build(at), (0, "went on\n", ""))
            change(at, file)
            self.is_stopped(what, build(at), at)
        at = room("readme good", {"a.aab": archive(("base/dex/classes.dex", file))})
        self.check_equal("README's line, a good archive", build(at), (0, "went on\n", ""))

    def test_nothing_there(self) -> None:
        at = room("readme empty")
        self.is_stopped("an empty folder", build(at), at)
        put(at, "text.txt", b"a text")
        os.mkdir(os.path.join(at, "inner"))
        self.is_stopped("nothing to look at", build(at))
        os.symlink("text.txt", os.path.join(at, "link"))
        self.is_stopped("a link to what needn't be looked at", build(at))

    def test_unreadable(self) -> None:
        """A file that may not be read, and a folder. (Root may read all, but without that capability.)"""
        before = ""
        if os.geteuid() == 0:
            before = "setpriv --bounding-set=-dac_override,-dac_read_search --inh-caps=-all"
            if shutil.which("setpriv") is None or run([*before.split(), "true"])[0] != 0:
                self.skipTest("root may read all files here, and setpriv can't take that away")
        for what, name in (("a file", "x.dex"), ("a file of another name", "x.dat"), ("a folder", "inner")):
            at = room(f"readme unreadable {name}", {
                "good.dex": assembled(TEXT), "inner/x.dex" if name == "inner" else name: assembled(TEXT)
            })
            os.chmod(os.path.join(at, name), 0)
            self.is_stopped(f"{what} that may not be read", build(at, before), at)
            os.chmod(os.path.join(at, name), 0o700)

    def test_surroundings(self) -> None:
        """What runs fails: a worker is killed, there is no room for the report, and dexasm isn't there."""
        at = room("readme surroundings", {"good.dex": assembled(TEXT)})
        does = b'#!/bin/sh\n[ "$1" = --version ] && exec dexasm "$@"\nkill -9 $PPID\n'
        killer = put(room("readme killer"), "dexasm", does)
        os.chmod(killer, 0o755)
        helpers = os.pathsep.join([alone(), environment()["PATH"]])
        self.is_stopped("a worker is killed", build(at, PATH=helpers, DEXASM_LIBRARY="", DEXASM_COMMAND=killer), at)
        self.is_stopped("no room for the report", build(at, most=100))
        self.is_stopped("no dexasm-check on the PATH", build(at, PATH="/usr/bin:/bin"))
        ways = os.pathsep.join([alone(), "/usr/bin", "/bin"])
        self.is_stopped("no dexasm on the PATH", build(at, PATH=ways, DEXASM_LIBRARY="", DEXASM_COMMAND=""))
        self.is_stopped("no such library", build(at, PATH=ways, DEXASM_LIBRARY="/none"))
        seen = build(at)
        self.check_equal("README's line, nothing fails", seen, (0, "went on\n", ""))


class ContinuousIntegration(HelperTest):
    def test_names(self) -> None:
        """The hook looks at what is staged."""
        seen: Ended | tuple[Ended, Ended]
        for name in ("a", EVIL, "-x", "0:a", "/b", "./c", ":(top)d", TURNED):
            at = repository(f"hook {name!r}".replace("/", "_"))
            path = name.lstrip("./") + ".dex" if name in ("./c", "/b") else f"{name}.dex"
            seen = staged(at, path, assembled(TEXT)), committed(at)
            self.check_equal(f"hook, {path!r} is accepted", seen[1][0], 0)
            staged(at, path, b"no file")
            put(at, path, assembled(TEXT))
            seen = committed(at)
            self.check_equal(f"hook, {path!r} is refused as it is staged",
                             (seen, seen[2][:-1].isprintable(), os.listdir(at)),
                             ((1, ANY, Has("error: 1 TooShort: ") & ONE_LINE), True, Lacks("PWNED")))

    def test_kinds(self) -> None:
        """A name in any case, archives too, and what is no file; what has no .dex file in it isn't kept out."""
        seen: Ended | tuple[Ended, Ended]
        for number, name in enumerate(LOOKED_AT):
            at = repository(f"hook kind {number}")
            staged(at, name, refused(b"no file", name))
            seen = committed(at)
            self.check_equal(f"hook, {name}", (seen, count(at)),
                             ((1, ANY, Has(f"pre-commit: {name}", "1 TooShort: ")), "0"))
            staged(at, name, refused(assembled(TEXT), name))
            seen = committed(at)
            self.check_equal(f"hook, {name}, accepted", (seen, count(at)), ((0, ANY, ""), "1"))
        at = repository("hook other kinds")
        staged(at, "gradle-wrapper.jar", archive(("a.class", b"x")))
        staged(at, "x.zip", archive())
        staged(at, "x.dexx", b"no file")
        self.check_equal("hook, archives without a .dex file, other names", (committed(at)[0], count(at)), (0, "1"))
        staged(at, "x.jar", b"no archive")
        seen = committed(at)
        self.check_equal("hook, no archive", seen, (1, ANY, Has("x.jar: ")))
        at = repository("hook link")
        put(at, "blob", b"no file")
        os.symlink("blob", os.path.join(at, "a.dex"))
        run(["git", "add", "-A"], at=at)
        seen = committed(at)
        self.check_equal("hook, a link", (seen, count(at)), ((1, ANY, Has("a.dex: ")), "0"))
        at = repository("hook link of a file's bytes")
        put(at, "good", assembled(TEXT))
        seen = shell("git update-index --add --cacheinfo 120000,$(git hash-object -w good),a.dex", at), committed(at)
        self.check_equal("hook, a link whose bytes are a file", (seen[1][0], count(at)), (1, "0"))

    def test_merged(self) -> None:
        """What a merge brings, by the hook's other name."""
        at = repository("hook merge", ("pre-commit", "pre-merge-commit"))
        staged(at, "a.dex", assembled(TEXT))
        seen = [committed(at), run(["git", "checkout", "-qb", "theirs"], at=at)]
        staged(at, "b.dex", b"no file")
        seen += [committed(at, "--no-verify"), run(["git", "checkout", "-q", "-"], at=at)]
        staged(at, "c", b"")
        seen += [committed(at), run(["git", "merge", "-qm", "b", "theirs"], at=at, **IDENTITY)]
        said = seen[-1][2]
        self.check_equal("hook, a merge", (seen[-1][0], said, count(at), [one[0] for one in seen[:-1]]),
                         (1, Begins("pre-merge-commit: ") & Has("b.dex:0x07: error: 1 TooShort: "), "3", [0] * 5))

    def test_hook_fails(self) -> None:
        """Whatever git can't do, or dexasm or the disk, ends in failure."""
        at = repository("hook fails")
        staged(at, "a.dex", assembled(TEXT))
        hook, git = [os.path.join(at, ".git/hooks/pre-commit")], shutil.which("git")
        assert git is not None  # (the repository was made by it)
        self.check_equal("hook, by itself", run(hook, at=at), (0, "", ""))
        for word in ("rev-parse", "hash-object", "diff-index", "cat-file"):
            seen = run(hook, at=at, **before(failing(f"hook git {word}", git, word)))
            # (without rev-parse, all files count as new)
            self.check_equal(f"hook, git {word} fails", seen[0], 0 if word == "rev-parse" else Other(0))
        seen = run(hook, at=at, **before(failing("hook git", git)))
        self.check_equal("hook, git fails", seen[0], Other(0))
        put(at, "b.dex", b"no file")
        run(["git", "add", "-A"], at=at)
        for setting in ("diff.orderFile=/none", "diff.external=/none", "diff.relative=true", "core.quotePath=false"):
            seen = run(["git", "-c", setting, *COMMIT[1:]], at=at, **IDENTITY)
            self.check_equal(f"hook, {setting}", (seen, count(at)), ((Other(0), ANY, Has("b.dex:0x07: ")), "0"))
        for name in ("GIT_LITERAL_PATHSPECS", "GIT_ICASE_PATHSPECS", "GIT_GLOB_PATHSPECS", "GIT_NOGLOB_PATHSPECS"):
            seen = committed(at, **{name: "1"})
            self.check_equal(f"hook, {name}", (seen, count(at)), ((Other(0), ANY, Has("b.dex:0x07: ")), "0"))
        seen = run(hook, at=room("hook nowhere"))
        self.check_equal("hook, no repository", seen[0], Other(0))
        seen = committed(at, TMPDIR="/none")
        self.check_equal("hook, no folder for what it looks at", (seen[0], count(at)), (Other(0), "0"))
        run(["git", "rm", "-qf", "b.dex"], at=at)
        os.mkdir(os.path.join(at, "without"))
        os.symlink("/bin/true", os.path.join(at, "without", "dexasm"))
        ways = os.pathsep.join([alone(), os.path.join(at, "without")])
        seen = committed(at, **before(ways), DEXASM_COMMAND="")  # (which stands before the PATH)
        self.check_equal("hook, a dexasm that answers nothing", (seen[0], count(at)), (Other(0), "0"))
        seen = committed(at, PATH=os.path.dirname(git))
        self.check_equal("hook, no dexasm", (seen[0], count(at)), (1, "0"))
        seen = run(["bash", "-c", 'ulimit -f 0; exec "$@"', "-", *COMMIT], at=at, **IDENTITY)
        self.check_equal("hook, no room for what it looks at", (seen[0], count(at)), (Other(0), "0"))

    def step_of(self) -> str:
        """The step of the workflow that looks, as a file."""
        text = get(TOP, "docs/ci/github-actions.yml").decode()
        found = re.findall(r"^ {8}run: \|\n((?: {10}.*\n)+)", text, re.M)
        steps = [re.sub(r"^ {10}", "", step, flags=re.M) for step in found]
        self.check_equal("workflow, its steps", (len(steps), [step for step in steps if "${{" in step]), (2, []))
        return put(room("workflow step"), "step", steps[1].encode())

    def test_workflow(self) -> None:
        """The steps of the workflow, as bash runs them there, but the one that installs."""
        step, at = self.step_of(), room("workflow")
        bad = many(at) + 1  # (a link)
        puts(at, {"a.apk": archive(("classes.dex", assembled(TEXT))), "b.apk": b"no archive"})
        for number, name in enumerate(LOOKED_AT):
            put(at, f"{number}/{name}", refused(b"no file", name))
        run(["git", "init", "-q", "."], at=at)
        run(["git", "add", "-A"], at=at)
        status, out, said = worked(step, at)
        lines = out.encode("latin1").decode("utf8").splitlines()
        others = [line for line in lines if not line.isprintable() or line[:9] != "refused: " and not properties(line)]
        self.check_equal("workflow, status and standard error", (status, said), (3, ""))  # (of an archive that is none)
        self.check_equal("workflow, what is refused", (len(lines), others, os.listdir(at)),
                         (bad + 1 + len(LOOKED_AT), [], Lacks("PWNED")))
        names = [one["locations"][0]["physicalLocation"]["artifactLocation"]["uri"] for one in uploaded(step)]
        self.check_equal("workflow, what is uploaded", len(names), bad + len(LOOKED_AT))  # (all but the link)
        self.check_equal("workflow, an archive that is uploaded", names.count("b.apk"), 1)
        good = room("workflow good", {"a.dex": assembled(TEXT), "gradle-wrapper.jar": archive(("a.class", b"x"))})
        run(["git", "init", "-q", "."], at=good)
        run(["git", "add", "-A"], at=good)
        self.check_equal("workflow, all is accepted", worked(step, good), (0, "", ""))
        self.check_equal("workflow, nothing to upload", uploaded(step), [])
        self.check_workflow_fails(step, good)

    def check_workflow_fails(self, step: str, good: str) -> None:
        """What it couldn't look at ends in failure."""
        git = shutil.which("git")
        assert git is not None  # (the repository was made by it)
        seen = worked(step, room("workflow nowhere"))
        self.check_equal("workflow, no repository", seen[0], Other(0))
        seen = worked(step, good, GIT_TEST_ASSUME_DIFFERENT_OWNER="1")
        self.check_equal("workflow, another one's repository", seen[0], Other(0))
        seen = worked(step, good, **before(failing("workflow git", git, "ls-files")))
        self.check_equal("workflow, git ls-files fails", seen[0], Other(0))
        seen = worked(step, good, TMPDIR="/none")
        self.check_equal("workflow, no folder for the list", seen[0], Other(0))
        seen = worked(step, good, PATH=os.path.dirname(git))
        self.check_equal("workflow, no dexasm", seen[0], 127)
        seen = worked(step, good, RUNNER_TEMP="/none")
        self.check_equal("workflow, no folder for the report", seen[0], Other(0))
        os.mkdir(os.path.join(good, "without"))
        os.symlink("/bin/true", os.path.join(good, "without", "dexasm"))
        ways = os.pathsep.join([alone(), os.path.join(good, "without")])
        seen = worked(step, good, **before(ways), DEXASM_COMMAND="", DEXASM_LIBRARY="")
        self.check_equal("workflow, a dexasm that answers nothing", seen[0], 3)
        os.remove(os.path.join(good, "a.dex"))
        seen = worked(step, good)
        self.check_equal("workflow, a file that isn't there", seen[:2], (1, Has("a.dex")))
