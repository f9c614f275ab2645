"""The recipes of README and docs/RECIPES.md, as they stand there, on files whose names are meant to do harm."""
import hashlib
import os
import re
import shlex
import subprocess

from tests import config
from tests.matchers import ANY, EMPTY, SOME, Above, Either, Has, Lacks, Other
from .archive_files import archive
from .ssh_logins import Logins, are_there
from .recipe_cases import EVIL, IDENTITY, TEXT, blocks, many
from .support import ESC, HEAD, TOP, HelperTest, assembled, dexasm, environment, get, put, puts, room, seen_in, shell
from .signatures import resigned

LOGGED = re.compile(r"^\d+\t\S+\t[\d.]+\t.*dexasm check .*\.dex", re.M)  # a row of parallel's log


def with_names(block: str, name: str) -> str:
    """The recipe with another name before each .dex, .apk, .html and .txt, as a shell takes it; a line of what is told,
    in a comment, stays as it is.
    """
    return re.sub(r"(?<![\w.*'/])(\w+)(\.(?:dex|apk|html|stripped|txt))\b(?!:\d)",
                  lambda found: shlex.quote(f"{name}{found[1]}{found[2]}"), block)


def prepared(what: str, name: str) -> str:
    """A room with an archive, two files, one of another constant, and a listing with a wrong register."""
    at = room(f"recipe {what}")
    file = assembled(TEXT)
    other = assembled(TEXT.replace(b"v0 41", b"v0 42").replace(b"return v0", b"nop\nnop\nreturn v0"))
    for one, given in (("a", file), ("b", other), ("hello", file[:-1]), ("classes", file)):
        put(at, f"{name}{one}.dex", given)
    puts(at, {
        f"{name}a.txt": TEXT.replace(b"const/16 v0 41", b"const/16 v9 41"),
        f"{name}app.apk": archive(("classes.dex", file), ("classes2.dex", b"no file"))
    })
    return at


def killing(at: str) -> str:
    """A folder with a dexasm that is killed by a signal the first time that it checks a file of a name with `ok`."""
    once = shlex.quote(os.path.join(at, "once"))
    put(
        at,
        "kill/dexasm",
        f"#!/bin/sh\ncase $2 in *ok*) [ -e {once} ] || {{ : >{once}; kill -9 $$; }} ;; esac\n".encode()
        + f'exec {shlex.quote(config.program())} "$@"\n'.encode(),
    )
    os.chmod(os.path.join(at, "kill/dexasm"), 0o755)
    return os.path.join(at, "kill")


def recipes_of_readme() -> list[str]:
    """The commands of README's recipes, without those that make their files."""
    _, commands = blocks("README.md")["Recipes"][0].split("\n\n")
    return [line for line in commands.splitlines() if not line.startswith("#")]


class Recipes(HelperTest):
    def test_blocks(self) -> None:
        """Each recipe of one file, by a plain name and by an evil one."""
        found = blocks("docs/RECIPES.md")
        wants = {
            ("Inspecting a file", 0): ('digraph "calls" {', 'n0 [label="LHello;->ask()V\\l"]'),
            ("An .apk", 0): ("classes.dex: ok\n", "classes2.dex: dexasm: refused 1 TooShort at 7\n"),
            ("What a refusal means", 0): ("ok\n", "both sums hold\n"),
            ("A file for a device", 0): ("ok\n", "a.dex: ok\n"),
            ("A file for a device", 1): ("edit.txt: ok\n",),
            ("Two files", 0): ("@@ LHello;->get(Z)I in both @@\n", "\n-const/16 v0 41\n+const/16 v0 42\n"),
            ("Two files", 1): ("differ",),
            ("What takes the space", 0): ("  LHello;\n", "  grew  LHello;->get(Z)I\n", "  all\n"),
        }
        for (head, which), words in wants.items():
            text = found[head][which]
            for name in ("", EVIL):
                at = prepared(f"{head} {which} {bool(name)}", name)
                _, out, said = shell(with_names(text, name), at)
                self.check_equal(f"RECIPES: {head}, {which}, {'an evil name' if name else 'as it stands'}",
                                 ([word for word in words if word not in out + said],
                                  [one for one in seen_in(at) if "PWNED" == one], said),
                                 ([], [], Lacks("Traceback")))
        for line in recipes_of_readme():
            for name in ("", EVIL):
                at = prepared(f"README {line[:26]} {bool(name)}".replace("/", ""), name)
                status, out, said = shell(with_names(line, name), at)
                refusal = ": error: 118 Register: v9 of 2 registers (in get(Z)I, instruction "
                prints = Has(refusal) if line.startswith("dexasm-check a.txt") else ANY
                self.check_equal(f"README: {line}, {'an evil name' if name else 'as it stands'}",
                                 (status, out, said, [*seen_in(at)]),
                                 (Either(0, 1), prints, Lacks("Traceback", "cannot"), Lacks("PWNED")))

    def test_order(self) -> None:
        """The recipes of the page in their order in one folder, on the files that its first block makes there."""
        at, found = room("recipes in order"), blocks("docs/RECIPES.md")
        made = shell("set -e\n" + found.pop("Files to try them on")[0], at)
        self.check_equal("RECIPES: the files of the recipes", made, (0, "", ""))
        for head in ("Many files", "A corpus"):
            found[head] = found[head][:1]  # the others need other programs, and machines
        found["Versions of a file in git"].pop(0)
        for head, texts in found.items():
            for number, text in enumerate(texts):
                _, _, said = shell("".join(line for line in text.splitlines(True) if "apksigner" not in line), at)
                self.check_equal(f"RECIPES: in order: {head}, {number}",
                                 re.search(r"Traceback|No such file|cannot|usage:", said), EMPTY)

    def test_application(self) -> None:
        """An archive in place of a file, and a patched file put back, by plain names and by evil ones."""
        _, several, back = blocks("docs/RECIPES.md")["An .apk"]
        file, other = assembled(TEXT), assembled(HEAD + b"class LOther; 0x1\nsuper LHello;\nend class\n")
        changed = assembled(TEXT.replace(b"v0 41", b"v0 42"))
        back = "".join(line for line in back.splitlines(True) if not line.startswith("apksigner"))
        for name in ("", EVIL):
            at = room(f"application {bool(name)}", {
                f"{name}app.apk": archive(("classes.dex", file), ("classes2.dex", other), ("x", b"x")),
                f"{name}new.apk": archive(("classes.dex", changed), ("classes2.dex", other))
            })
            _, out, said = shell(with_names(several, name), at)
            wants = "!classes2.dex: ok\n", "class LHello; 0x1\n", "@@ LHello;->get(Z)I in both @@\n", "unchanged)"
            self.check_equal(f"RECIPES: archives, {name!r}",
                             ([want for want in wants if want not in out], said, seen_in(at)), ([], "", Lacks("PWNED")))
            seen = shell(f"set -e\n{with_names(back, name)}", at)
            self.check_equal(f"RECIPES: a patched file, {name!r}", (seen, seen_in(at)), ((0, "", ""), Lacks("PWNED")))
            words = ("dexasm-diff", "--", f"{name}new.apk", f"{name}patched.apk")
            seen = shell(" ".join(map(shlex.quote, words)), at)
            self.check_equal(f"RECIPES: what was patched, {name!r}", seen, (0, "", ""))

    def test_merged(self) -> None:
        """Several files in one, by plain names and by evil ones: each command as it stands, on files that are for
        it."""
        lines = blocks("docs/RECIPES.md")["Several files in one"][0]
        first, second = assembled(TEXT), assembled(HEAD + b"class LOther; 0x1\nsuper LHello;\nend class\n")
        for name in ("", EVIL):
            at = room(f"merged {bool(name)}", {
                f"{name}a.dex": first, f"{name}other.dex": second,
                f"{name}app.apk": archive(("classes.dex", second), ("classes2.dex", first))
            })
            seen = shell(f"set -e\n{with_names(lines, name)}", at)
            listed = {one: dexasm("list", given=get(at, f"{name}{one}.dex")) for one in ("ab", "app", "a")}
            other = b"class LOther; 0x1\nsuper LHello;\nend class\n"
            self.check_equal(f"RECIPES: several files in one, {name!r}",
                             (seen, {listed["ab"], listed["app"]}, seen_in(at)),
                             ((0, "", ""), {listed["a"] + other}, Lacks("PWNED")))

    def test_words(self) -> None:
        """Each command of the table of other tools' words ends well, and writes no more than it says."""
        part = get(TOP, "docs/RECIPES.md").decode().partition("## Coming from other tools\n")[2].partition("\n## ")[0]
        rows = [row.strip("|").replace("\\|", "\0").split("|") for row in re.findall(r"^\| .* \|$", part, re.M)[1:]]
        commands = [one.replace("\0", "|") for row in rows for one in re.findall(r"`(dexasm[- ][^`]*)`", row[1])]
        for command in commands:
            at = prepared(f"word {command[:24]}".replace("/", ""), "")
            puts(at, {"a.txt": TEXT, "mapping.txt": b"com.x.Hi -> Hello:\n"})
            status, out, said = shell(command, at)
            wrote = [one for one in ("c.dex", "pages", "listings") if os.path.exists(os.path.join(at, one))]
            # (one entry of the archive is refused, and the two files differ)
            want = 1 if command.startswith(("dexasm-apk", "dexasm-diff")) else 0
            self.check_equal(f"RECIPES: {command}", (status, out or wrote, said), (want, SOME, Lacks("Traceback")))
            self.check_equal(f"RECIPES: {command}: its files", [one for one in wrote if one not in command], [])
        helpers = {command.split()[0] for command in commands}
        self.check_equal("RECIPES: words of other tools", (len(commands), len(rows), len(helpers)),
                         (Above(15), Above(12), Above(9)))

    def test_signed(self) -> None:
        """The commands for a file that D8 before 1.6.20 signed: it is explained, closed and stripped."""
        explain, _, told, close, strip = blocks("docs/RECIPES.md")["What a refusal means"][0].splitlines()
        file = assembled(TEXT)
        for name in ("", EVIL):
            at = room(f"signed {bool(name)}", {f"{name}a.dex": resigned(file, hashlib.sha1(file[32:-52]).digest())})
            seen = [shell(with_names(line, name), at) for line in (explain, told, close, strip)]
            self.check_equal(f"RECIPES, {explain}", seen[0][1],
                             Has("refused 9 Signature", "signed as D8 before 1.6.20 wrote it"))
            self.check_equal(f"RECIPES, {told}", seen[1][0], 1)
            files = get(at, f"{name}closed.dex"), get(at, f"{name}stripped.dex")
            self.check_equal(f"RECIPES, {close}; {strip}", (*seen[2:], files),
                             ((0, "", ANY), (0, "", ""), (file, dexasm("strip", given=file))))

    def test_same(self) -> None:
        """No recipe says that two files are the same that are both refused."""
        recipes = [blocks("docs/RECIPES.md")["Two files"][0], blocks("docs/RECIPES.md")["Two files"][1]]
        recipes += [line for line in recipes_of_readme() if re.match("dexasm-diff|.*&& cmp", line)]
        self.check_equal("recipes that compare", len(recipes), 4)
        for number, recipe in enumerate(recipes):
            at = room(f"same {number}")
            for name in ("a.dex", "b.dex"):
                put(at, name, b"no file")
            seen = shell(recipe, at)
            self.check_equal(f"{recipe!r} of two files that are refused", seen,
                             (Other(0), ANY, Has("refused 1 TooShort")))
            for name in ("a.dex", "b.dex"):
                put(at, name, assembled(TEXT))
            seen = shell(recipe, at)
            self.check_equal(f"{recipe!r} of one file twice", seen, (0, "", ""))

    def test_git(self) -> None:
        """git diff: by what changed, of refused files, and where dexasm isn't found."""
        block = blocks("docs/RECIPES.md")["Versions of a file in git"][0]
        for name in ("a", EVIL, "--help", "-x", ":0:x", '"'):
            at, file = room(f"git {name!r}".replace("/", "")), f"{name}.dex"
            put(at, file, assembled(TEXT))
            seen = shell(f"git init -q . && {block}\ngit add -A && git commit -qm a", at, **IDENTITY)
            put(at, file, assembled(TEXT.replace(b"v0 -1\n", b"v0 -2\nnop\n")))
            said = shell("git diff", at, **IDENTITY)
            changed = [
                line for line in said[1].splitlines() if line[:1] in ("-", "+") and line[:3] not in ("---", "+++")
            ]
            self.check_equal(f"git diff of {file!r}", (seen[0], changed),
                             (0, ["-add-int/lit8 v0 v0 -1", "+add-int/lit8 v0 v0 -2", "+nop"]))
            self.check_equal(f"git diff of {file!r}: the method", (said[1], os.listdir(at)),
                             (Has(" @@ direct get (Z)I 0x9\n"), Lacks("PWNED")))
            put(at, file, b"no file")
            self.check_equal(f"git diff of {file!r}, refused", shell("git diff", at, **IDENTITY)[1],
                             Has("\n+dexasm: refused 1 TooShort at 7\n"))
        put(at, file, assembled(TEXT.replace(b"v0 41", b"v0 43")))
        shell("git add -A && git commit -qm b", at, **IDENTITY)
        without = shell("git show", at, **IDENTITY, DEXASM_COMMAND="/none")
        self.check_equal("git show without dexasm", without, (Other(0), ANY, Has("DEXASM_COMMAND names no command")))
        seen = shell("git show", at, **IDENTITY)
        self.check_equal("git show keeps nothing of it", seen[:2], (0, Has("\n+const/16 v0 43\n") & Lacks("names no")))
        without = shell("git config diff.dex.textconv no-such-command && git show", at, **IDENTITY)
        self.check_equal("git show without the helper", without[0], Other(0))

    def test_split(self) -> None:
        block = blocks("docs/RECIPES.md")["Versions of a file in git"][1]
        for name in ("", EVIL):
            at = prepared(f"split {bool(name)}", name)
            seen = shell(with_names(block, name), at)
            self.check_equal(f"RECIPES: split and joined, {name!r}", (seen, get(at, f"{name}a.dex"), seen_in(at)),
                             ((0, "", ""), get(at, f"{name}joined.dex"), Lacks("PWNED")))

    def test_many(self) -> None:
        """Each refused file has one line, which nothing on a terminal obeys."""
        at = room("many")
        refused = many(at)
        put(at, os.fsdecode(b"n\xff.dex"), b"no file")
        status, out, said = shell(blocks("docs/RECIPES.md")["Many files"][0], at)
        lines = out.splitlines()
        self.check_equal(
            "RECIPES: many files",
            (
                status, said, len(lines),
                [
                    line for line in lines
                    if not (re.fullmatch(r".*\.dex'?: status 1: dexasm:\\ refused\\ .*", line) and line.isprintable())
                ],
                os.listdir(at)
            ),
            (Either(0, 123), "", refused + 1, [], Lacks("PWNED"))
        )
        fake = room("many killed", {"bin/dexasm": b"#!/bin/sh\nkill -9 $$\n"})
        os.chmod(os.path.join(fake, "bin/dexasm"), 0o755)
        put(fake, "a.dex", assembled(TEXT))
        _, out, _ = shell(f"PATH={shlex.quote(fake)}/bin:$PATH\n" + blocks("docs/RECIPES.md")["Many files"][0], fake)
        self.check_equal("RECIPES: many files, a run that is killed", out, Has("./a.dex: status 137: "))

    def resumed(self, what: str, at: str, refused: int, **env: str) -> None:
        """The recipe, twice: the job that was killed is told and done again."""
        block = blocks("docs/RECIPES.md")["Many files"][1]
        _, first, said = shell(block, at, **env)
        self.check_equal(f"RECIPES: {what}: a job that was killed is told", (len(LOGGED.findall(first)), first),
                         (refused + 1, Has("check ./ok.dex")))
        self.check_equal(f"RECIPES: {what}: nothing is obeyed", (os.listdir(at), first), (Lacks("PWNED"), Lacks(ESC)))
        _, second, said = shell(block, at, **env)
        again = re.findall(r"^(\d+)\tok$", second, re.M)
        self.check_equal(f"RECIPES: {what}: it is done again, alone", (len(again), len(LOGGED.findall(second))),
                         (1, refused))

    def test_parallel(self) -> None:
        self.need("parallel", "its recipe isn't tried")
        at = room("parallel")
        refused = many(at)
        put(at, "machines", b":\n")
        env = {"PATH": os.pathsep.join([killing(at), environment()["PATH"]]), "PARALLEL_HOME": os.path.join(at, "home")}
        os.mkdir(env["PARALLEL_HOME"])
        put(at, "home/will-cite", b"")
        self.resumed("parallel", at, refused, **env)
        if not are_there():
            self.skipTest("no sshd here, no ssh or no rsync: logins aren't tried")
        self.check_logins(env["PARALLEL_HOME"])

    def check_logins(self, home: str) -> None:
        """The same over two logins."""
        at = room("logins")
        for name, given in (("ok", assembled(TEXT)), (EVIL, assembled(TEXT)), ("sp ace", assembled(TEXT)[:-1])):
            put(at, f"{name}.dex", given)
        try:
            with Logins(2, killing(at)) as logins:
                put(at, "machines", "".join(f"{name}\n" for name in logins.names).encode())
                self.resumed("parallel over two logins", at, 1, PARALLEL_SSH=" ".join(logins.ssh), PARALLEL_HOME=home)
                hosts = {line.split("\t")[1] for line in get(at, "check.log").decode().splitlines()[1:]}
                self.check_equal("RECIPES: parallel: both logins were used", hosts, set(logins.names))
        except (OSError, subprocess.SubprocessError) as error:
            self.skipTest(f"logins by sshd aren't tried here: {error}")

    def test_page(self) -> None:
        """Each recipe is tried."""
        known = {"Files to try them on": 1, "Inspecting a file": 1, "An .apk": 3, "What a refusal means": 1,
                 "A file for a device": 2, "Two files": 2, "Versions of a file in git": 2, "What takes the space": 1,
                 "Several files in one": 1, "Many files": 2, "A corpus": 3}
        found = {head: len(texts) for head, texts in blocks("docs/RECIPES.md").items() if texts}
        self.check_equal("RECIPES: as many recipes as are tried", found, known)
