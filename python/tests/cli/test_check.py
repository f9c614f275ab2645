"""dexasm-check: files, folders, archives and lists that are meant to do harm, in each of its forms, by the library and
by the command; what can't be looked at is told, and the others go on.
"""
import hashlib
import io
import json
import os
import re
import shlex
import signal
import socket
import stat
import struct
import subprocess
import sys
import time
import zipfile
from collections.abc import Callable, Iterator
from typing import Any
from urllib.parse import unquote_to_bytes
from xml.etree import ElementTree

from tests import sought, config
from tests.matchers import ANY, EMPTY, ONE_LINE, Above, Begins, Below, Either, Ends, Has, Lacks, Like, Other, That
from ..cases import TEXTS
from .archive_files import CRC, FLAGS, archive, changed
from .ci_lines import alone, properties
from .support import (
    ESC, HEAD, LIMIT, LISTING, NAMES, TOOLS, TOP, Ended, HelperTest, assembled, classes, dexasm, environment, get,
    library, on_terminal, put, puts, room, run
)
from .shell_runs import fake

EVIL = (
    *(os.fsencode(name) for name in NAMES), b"::error::x", b" ::error file=b::x", b"##[error]x", b"a%0Ab%25%3A,c:d",
    b'<a b="c">&amp;]]>\'', b'{"a": "b\\u0000"}\\', b"no utf8 \xff\xfe", b"surrogate \xed\xa0\x80\xed\xb0\x80",
    "turned \u202exed \u200b".encode(), "caf\u00e9 \U0001f600".encode(), b"\r return", b"\x9b31m \x7f \x01 \xc2\x9b"
)
FORMS = ("", "--json", "--sarif", "--github", "--junit")
# Of the schema of SARIF 2.1.0, which takes no other properties: what an object has to have, and what else it may.
SARIF: dict[str, tuple[set[str], set[str]]] = {
    "log": ({"version", "runs"}, {"$schema"}),
    "run": ({"tool"}, {"invocations", "columnKind", "results"}),
    "tool": ({"driver"}, set()),
    "driver": ({"name"}, {"rules", "version", "properties"}),
    "rule": ({"id"}, {"name", "shortDescription", "helpUri", "help"}),
    "invocation": ({"executionSuccessful"}, {"exitCode", "toolExecutionNotifications"}),
    "result": ({"message"}, {"ruleId", "ruleIndex", "level", "locations", "suppressions"}),
    "suppression": ({"kind"}, {"justification"}),
    "notification": ({"message"}, {"descriptor", "level", "locations"}),
    "descriptor": ({"id"}, set()),
    "message": ({"text"}, set()),
    "location": (set(), {"physicalLocation", "logicalLocations"}),
    "physicalLocation": ({"artifactLocation"}, {"region"}),
    "artifactLocation": (set(), {"uri"}),
    "region": (set(), {"startLine", "startColumn", "byteOffset"}),
    "logicalLocation": (set(), {"fullyQualifiedName"}),
}
BUILD = "output of the (?:proved|quick|unknown) build with the SHA-256 [0-9a-f]{64}"
HELP_URI = re.compile("file:///[^#]*#[0-9]+-[a-z]+")
URI = re.compile(r"(?:[A-Za-z0-9._~!$&'()*+,;=@/:-]|%[0-9A-F]{2})+")


def checked(*words: str, at: str, given: bytes = b"", **env: Any) -> Ended:
    """Status, output and errors; by the library, where there is one."""
    return run([os.path.join(TOOLS, "dexasm-check"), *words], given, at, **{**library(), **env})


def by_command(*words: str, at: str, given: bytes = b"", **env: Any) -> Ended:
    return run([os.path.join(alone(), "dexasm-check"), *words], given, at, **env)


def damaged(file: bytes, at: int = 100) -> bytes:
    return file[:at] + bytes([file[at] ^ 1]) + file[at + 1 :]


def is_safe(out: str) -> bool:
    """Lines that no terminal obeys, and no runner of GitHub."""
    lines = out.encode("latin1").decode("utf8").split("\n")
    return lines[-1] == "" and all(
        line.isprintable() and not line.lstrip().startswith("::") and "##[" not in line for line in lines
    )


# ---- what a device would refuse

LINTED = (HEAD + TEXTS["test_check LINTED"].encode())
VALUE = "a static field's value is of another type: long in I"
USED = (
    "v0 holds a new object (java.lang.Object, from {}), and add-int takes an int: first call invoke-direct {{ v0 .. }} "
)
USED += "Ljava/lang/Object;-><init>"
IN_FILE = (f"LA;->n:I: error: {VALUE} (value-type, dex-format, class_def_item)",
           f"LA;->m(I)V: 1 (0x02): error: {USED.format('instruction 0')} (uninitialized-use, B6, B8)")
IN_TEXT = (f": {IN_FILE[0]}", f":8:17: error: {USED.format('line 7')} (uninitialized-use, B6, B8)")


def linted(at: str) -> tuple[tuple[str, ...], list[str]]:
    """Files of which some break rules of dexasm-lint, and what is told of them."""
    good = LINTED.replace(b"long", b"int").replace(b"v0 v0", b"v2 v2")
    bad = assembled(LINTED)
    puts(at, {
        "a.txt": LINTED, "b.txt": good, "c.txt": LINTED.replace(b"v0 v0", b"v9 v0"), "d.dex": bad,
        "e.dex": damaged(bad),
        "f.apk": archive(("classes.dex", bad), ("classes2.dex", assembled(good)), ("classes3.dex", bad))
    })
    told = [f"a.txt{line}" for line in IN_TEXT] + ["b.txt: ok"]
    told += ["c.txt:8:14: error: 118 Register: v9 of 3 registers (in m(I)V, instruction 1)"]
    told += [f"d.dex: {line}" for line in IN_FILE] + ["e.dex:0x08: error: 8 Checksum: the Adler-32 differs"]
    told += [f"f.apk!classes.dex: {line}" for line in IN_FILE] + ["f.apk!classes2.dex: ok"]
    told += [f"f.apk!classes3.dex: {line}" for line in IN_FILE] + ["none: error: No such file or directory"]
    return ("a.txt", "b.txt", "c.txt", "d.dex", "e.dex", "f.apk", "none"), told


# A worker that is killed at its second file once, and three times at the third: no rule is reported twice.
TOLD_ONCE = """
import sys
sys.path.insert(0, sys.argv[1])
from dexasm.cli.scheduler import CheckClient
class asked: jobs, seconds, memory, program, lint = 1, 60, 1 << 30, False, True
wrong, ok = {"kind": "dex", "status": "broken"}, {"kind": "dex", "status": "ok"}
says = [[wrong], None, [wrong, wrong], None, None, None, []]
says = [one if one is None else {"findings": one, "verdict": ok} for one in says]
client = CheckClient(asked)
client.worker.start = lambda: setattr(client.worker, "process", 1)
client.worker.send = lambda job: None
client.worker.receive = lambda: says.pop(0)
client.worker.wait_status = lambda: setattr(client.worker, "process", None)
print(*[one.status for path in (b"a", b"b", b"c", b"d") for one in client.check_file(path)])
"""


# ---- names


def put_inputs(at: str, file: bytes) -> None:
    """A file of each kind, accepted or not."""
    puts(at, {
        "a.dex": file, "f/B.DeX": damaged(file), "f/other": b"no file", "x.txt": LISTING,
        "y.txt": b"\n" + HEAD + b"class LA; 0x1\n   super 7\nend class\n",
        "z.txt": HEAD + b"class LB; 0x1\nend class\n" + b"class LA; 0x1\nsuper LA;\nend class\n",
        "app.apk": archive(("classes2.dex", b"no file"), ("classes.dex", file), ("lib/classes3.dex", b"x")),
        "n.jar": archive(("a.class", b"x")), "n.APK": archive(("a.class", b"x"))
    })


def evil(name: str) -> str:
    """A room with a refused file of each name, in a folder f."""
    at = room(name)
    os.mkdir(os.path.join(at, "f"))
    for one in EVIL:
        with open(os.path.join(os.fsencode(at), b"f", one + b".dex"), "wb") as file:
            file.write(b"no file")
    return at


def listed() -> list[bytes]:
    """The names, as they are given: by themselves, without a folder before them."""
    return sorted(one + b".dex" for one in EVIL)


def of_names(form: str, at: str) -> Ended:
    """What is told of the names, each by itself, by standard input."""
    given = b"".join(name + b"\0" for name in listed())
    words = ["--quiet", *([form] if form else []), "--paths-from", "-"]
    return checked(*words, at=os.path.join(at, "f"), given=given)


def faults(document: dict[str, Any]) -> Iterator[str]:
    """What breaks a rule of the schema."""
    yield from wrong("log", document)
    if document["version"] != "2.1.0" or not document["$schema"].endswith("sarif-schema-2.1.0.json"):
        yield "version"
    for one in document["runs"]:
        yield from wrong("run", one)
        rules = one["tool"]["driver"]["rules"]
        yield from (fault for rule in rules for fault in wrong("rule", rule))
        yield from (fault for rule in rules for fault in wrong("message", rule.get("help", {"text": ""})))
        yield from (rule["helpUri"] for rule in rules if not HELP_URI.fullmatch(rule.get("helpUri", "file:///#1-x")))
        if len({rule["id"] for rule in rules}) < len(rules):
            yield "rules of one id"
        for result in one["results"]:
            yield from located("result", result)
            yield from (fault for one in result.get("suppressions", ()) for fault in wrong("suppression", one))
            if rules[result["ruleIndex"]]["id"] != result["ruleId"]:
                yield f"ruleIndex {result}"
        for invocation in one["invocations"]:
            yield from wrong("invocation", invocation)
            if not isinstance(invocation["executionSuccessful"], bool):
                yield "executionSuccessful"
            for note in invocation["toolExecutionNotifications"]:
                yield from located("notification", note)


def wrong(kind: str, given: dict[str, Any]) -> Iterator[str]:
    must, may = SARIF[kind]
    if not must <= given.keys() <= must | may:
        yield f"{kind}: {sorted(given)}"


def located(kind: str, given: dict[str, Any]) -> Iterator[str]:
    yield from wrong(kind, given)
    yield from wrong("message", given["message"])
    if given["level"] not in ("none", "note", "warning", "error"):
        yield f"level {given['level']}"
    for one in given.get("locations", ()):
        place = one["physicalLocation"]
        for name, part in (("location", one), ("physicalLocation", place)):
            yield from wrong(name, part)
        yield from wrong("artifactLocation", place["artifactLocation"])
        yield from (fault for logical in one.get("logicalLocations", ()) for fault in wrong("logicalLocation", logical))
        if not URI.fullmatch(place["artifactLocation"]["uri"]):
            yield f"uri {place}"
        region = place.get("region", {"startLine": 1})
        yield from wrong("region", region)
        if min(region.get("startLine", 1), region.get("startColumn", 1), region.get("byteOffset", 0) + 1) < 1:
            yield f"region {region}"


# What a runner of GitHub, Azure or TeamCity takes for a command: each stands in every place of a file that is named.
RUNNERS = "##[add-mask]", "::error::x", "##vso[task.complete]x", "##teamcity[x]", " ::stop-commands::x", "###[x]##[y]"
IN_TEXTS = (
    b"class L%s; 0x1\n%s\nend class\n",
    b"class L%s; %s\nend class\n",
    b"class LA; 0x1\nsuper %s\nend class\n",
    b"class LA; 0x1\nstatic %s I 0x9\nend class\n",
    b"class LA; 0x1\nstatic a I 0x9 = int %s\nend class\n",
    b"class LA; 0x1\nsource \"%s\"\nsource \"%s\"\nend class\n",
    b"class LA; 0x1\ndirect m ()V 0x9\ncode 1 0 0\ngoto %s\nend code\nend class\n",
    b"class LA; 0x1\ndirect m ()V 0x9\ncode 1 0 0\ngoto :L%s\nend code\nend class\n",
    b"class LA; 0x1\ndirect m ()V 0x9\ncode 1 0 0\n%s v0 v0\nend code\nend class\n",
    b"class LA; 0x1\ndirect m ()V 0x9\ncode 1 0 0\nconst-string v%s \"%s\"\nend code\nend class\n",
    b"class LA; 0x1\ndirect m ()V 0x9\ncode 1 0 0\ninvoke-static { } L%s;->%s()V\nend code\nend class\n",
    b"class LA; 0x1\ndirect m ()V 0x9\ncode 1 0 0\nconst-string v0 \"%s\"\nadd-int v0 v0 v0\nend code\nend class\n",
    b"class L\\u0023#[x]; 0x1\nstatic \\u003a:%s I 0x9 = long 1\nend class\n",
)


def put_all(at: str, number: int, evil: str) -> list[str]:
    """Files with this text in every place: names of files, words of listings, entries of archives, headers."""
    file, text = assembled(LISTING), evil.encode()
    paths = [f"{evil}.dex", f"{number}/x{evil}.txt", f"{evil}.apk", f"{evil}none"]
    puts(at, {
        paths[0]: b"no file", paths[1]: b"no listing",
        paths[2]: archive((f"{evil}.dex", b"no file"), (f"a/{evil}.jar", b"x"), (f"{evil}/b.dex", file))
    })
    for place, form in enumerate(IN_TEXTS):
        paths.append(f"{number}/{place}.txt")
        put(at, paths[-1], HEAD + form.replace(b"%s", text))
    good = archive(("classes.dex", file))
    for place, bad in enumerate((good.replace(b"classes.dex", (text * 3)[:11], 1), text + good, good[:-4] + text)):
        paths.append(f"{number}/{place}.apk")
        put(at, paths[-1], bad)
    return paths


def named_by_junit(out: str) -> list[str | None]:
    return [case.get("name") for case in ElementTree.fromstring(out).findall("testsuite/testcase")]


def is_command(line: str, form: str) -> bool:
    """Whether a runner takes a line for a command that isn't of the form itself."""
    is_ours = form == "--github" and line.startswith(("::error ", "::notice ")) and "::" in line[8:]
    return re.search(r"##[\w.-]*\[", line) is not None or line.lstrip().startswith("::") and not is_ours


def words_of(process: str) -> list[bytes]:
    try:
        return get("/proc", process, "cmdline").split(b"\0")[:-1]
    except OSError:
        return []


def sleeping(seconds: bytes) -> list[str]:
    return [one for one in os.listdir("/proc") if one.isdigit() and words_of(one) == [b"sleep", seconds]]


def wait_for(is_so: Callable[[], bool]) -> None:
    for _ in range(400):
        if is_so():
            return
        time.sleep(0.05)


CHANGES = """
import os, sys
sys.path.insert(0, sys.argv[1])
from dexasm.cli.scheduler import check_all, find_inputs
class asked: jobs, seconds, memory, program, lint = 1, 60, 1 << 30, False, False
found = [*find_inputs([b"f"])]
os.remove("f/a.dex")
os.remove("f/b.dex"); os.mkfifo("f/b.dex")
os.truncate("f/c.dex", 50)
os.remove("f/d.dex"); os.mkdir("f/d.dex")
for one in check_all(found, asked, lambda: None): print(one.path.decode(), one.status, one.number, one.why)
"""


WORKERS = """
import sys
sys.path.insert(0, sys.argv[1])
from dexasm.cli.scheduler import count_workers
from dexasm.cli.verdict import Verdict
class asked: lint = False
for found, jobs in (([], 4), ([(b"a", 500)] * 1000, 4), ([(b"a", 500)] * 20000, 4), ([(b"a", 500)] * 20000, 2),
    ([(b"a", 1 << 40)], 4), ([(b"a", 1 << 40)], 1), ([Verdict(b"a", "", None, "failed")] * 100000, 4)):
    asked.jobs = jobs
    print(count_workers(found, asked))
asked.jobs, asked.lint = 4, True
print(count_workers([(b"a", 500)] * 1000, asked))
"""


class Check(HelperTest):
    def test_verdicts(self) -> None:
        """Each kind of input, its line and the status, by the library and by the command alike."""
        at, file = room("check verdicts"), assembled(LISTING)
        put_inputs(at, file)
        words: tuple[str, ...] | str
        words = ("a.dex", "f", "x.txt", "y.txt", "app.apk", "n.jar", "n.APK", "none")
        want: str | int
        want = (
            "a.dex: ok\n"
            "f/B.DeX:0x08: error: 8 Checksum: the Adler-32 differs\n"
            "x.txt: ok\n"
            "y.txt:4:10: error: 101 Name: 7: it isn't a type, as I or [Ljava/lang/String; (in LA;)\n"
        )
        rest = (
            "app.apk!classes.dex: ok\n"
            "app.apk!classes2.dex:0x07: error: 1 TooShort: it is a text\n"
            "app.apk!lib/classes3.dex:0x01: error: 1 TooShort: it is a text\n"
            "n.jar: no .dex file in it\n"
            "n.APK: error: no .dex file in it\n"
            "none: error: No such file or directory\n"
        )
        seen = checked(*words, at=at)
        self.check_equal("verdicts", seen, (3, Begins(want) & Ends(rest), ""))
        self.check_equal("verdicts by the command", by_command(*words, at=at), seen)
        quiet = "".join(line for line in seen[1].splitlines(True) if ": error: " in line)
        self.check_equal("--quiet", checked("--quiet", *words, at=at), (3, quiet, ""))
        for words, want in (("a.dex", 0), ("n.jar", 0), ("f", 1), ("app.apk", 1), ("f none", 3), ("n.APK", 3)):
            seen = checked(*words.split(), at=at)
            self.check_equal(f"{words}, its status", seen[0], want)
        seen = checked("z.txt", at=at)
        want = "z.txt:5:7: error: 112 ClassOrder: LA; is its own superclass (in LA;)\n"
        self.check_equal("a class", seen, (1, want, ""))

    def test_places(self) -> None:
        """Where in a listing a rule is broken: in words, and each part of it for machines."""
        at = room("check places")
        code = (
            b"class LA; 0x1\ndirect m\\u0041 (I)V 0x8\ncode 2 1 0\n  const/4 v0 1\n  move v0 v9\nend code\nend class\n"
        )
        puts(at, {"x.txt": HEAD + code, "w.txt": HEAD + code.replace(b"v9", b"v16")})
        where = " (in mA(I)V, instruction 1)\n"
        want: str | dict[str, Any]
        want = f"x.txt:6:11: error: 118 Register: v9 of 2 registers{where}"
        want += f"w.txt:6:11: error: 102 Number: v16: v0 to v15 here; move/from16 or move/16 takes more{where}"
        for how, runs in (("the library", checked), ("the command", by_command)):
            seen = runs("x.txt", "w.txt", at=at)
            self.check_equal(f"places by {how}", seen, (1, want, ""))
        told = json.loads(checked("--json", "x.txt", at=at)[1])
        want = {"line": 6, "column": 11, "class": "LA;", "member": "mA(I)V", "instruction": 1, "place": 0}
        self.check_equal("--json, a place", {name: told[name] for name in want}, want)

    def test_names_decide(self) -> None:
        """A listing, an archive or no archive under the name of something else isn't accepted."""
        at, file = room("check kinds"), assembled(LISTING)
        zipped = archive(("classes.dex", file))
        for name, given, want in (
            ("list.dex", LISTING, ":0x00: error: 2 Magic: "),
            ("zip.DEX", zipped, ":0x00: error: 2 Magic: "),
            ("dex.apk", file, ": error: no zip archive can be read: "),
            ("list.JAR", LISTING, ": error: no zip archive can be read: "),
            ("inner.apk", archive(("classes.dex", LISTING)), "!classes.dex:0x00: error: 2 Magic: "),
            ("nested.apk", archive(("classes.dex", zipped)), "!classes.dex:0x"),
            ("no first line", classes("LA;").partition(b"\n")[2],
             ":1:1: error: 103 Order: class: the first line has to "),
            ("a mark", b"\xef\xbb\xbf" + LISTING,
             ":1:1: error: 100 Word: \\ufeff#: the line begins with a byte order mark (ef bb bf): "),
            ("classy", b"classy LA;", ":0x0a: error: 1 TooShort: "),
            ("empty", b"", ":0x00: error: 1 TooShort: "),
            ("empty.zip", b"", ": error: no zip archive can be read: "),
        ):
            put(at, name, given)
            seen = checked(name, at=at)
            self.check_equal(name, seen, (Either(1, 3), Begins(name + want) & ONE_LINE, ""))
        put(at, "zip", zipped)
        self.check_equal("zip", checked("zip", at=at), (0, "zip!classes.dex: ok\n", ""))

    def test_programs(self) -> None:
        """The program's sum, of a file, of one that isn't packed, and of a listing."""
        at, file = room("check programs"), assembled(LISTING)
        longer = file + b"\0\0\0\0"
        for place, form, number in ((104, "<I", struct.unpack_from("<I", file, 104)[0] + 4), (32, "<I", len(longer))):
            longer = longer[:place] + struct.pack(form, number) + longer[place + 4 :]
        put(at, "longer", longer)
        run([os.path.join(TOOLS, "dexasm-close"), "longer", "--output", "longer.dex"], at=at)
        puts(at, {"a.dex": file, "a.txt": LISTING, "b.dex": damaged(file)})
        want = hashlib.sha256(dexasm("strip", given=file)).hexdigest()
        for how, runs in (("the library", checked), ("the command", by_command)):
            seen = runs("--json", "--program", "a.dex", "a.txt", "longer.dex", "b.dex", at=at)
            found = [json.loads(line)["program"] for line in seen[1].splitlines()]
            self.check_equal(f"--program by {how}", (found, seen[0]), ([want] * 3 + [None], 1))

    def test_lint(self) -> None:
        """What dexasm accepts and a device would refuse, with each thing that is refused in its place."""
        at = room("check lint")
        names, told = linted(at)
        want: tuple[int, str, str] | int
        for how, runs in (("the library", checked), ("the command", by_command)):
            for jobs in ("1", "4"):
                seen = runs("--lint", "--jobs", jobs, *names, at=at)
                want = (3, "".join(f"{line}\n" for line in told), "")
                self.check_equal(f"--lint by {how}, --jobs {jobs}", seen, want)
        for words, want in (("--lint d.dex", 1), ("--lint b.txt", 0), ("--lint --quiet b.txt", 0), ("d.dex", 0)):
            self.check_equal(f"{words}, its status", checked(*words.split(), at=at)[0], want)
        both = run([os.path.join(TOOLS, "dexasm-lint"), "--code", "a.txt", "d.dex"], at=at)[1].splitlines()
        self.check_equal("dexasm-lint --code tells the same of code", [line for line in told if line in both],
                         both[1::2])
        shown = on_terminal(at, "dexasm-check", "--lint", "a.txt", "b.txt", "d.dex")[1]
        self.check_equal("--lint on a terminal", shown, Has(f"LA;->n:I: {ESC}[1;31merror:{ESC}[0m a static"))

    def test_lint_forms(self) -> None:
        """The same for machines."""
        at = room("check lint forms")
        linted(at)
        found = [*map(json.loads, checked("--lint", "--json", "--program", "a.txt", "d.dex", at=at)[1].splitlines())]
        place = ("status", "line", "column", "class", "member", "instruction", "address", "register", "rule", "number")
        want: list[Any]
        want = [("broken", None, None, "LA;", "n:I", None, None, None, "value-type", None),
                ("broken", 8, 17, "LA;", "m(I)V", 1, None, 0, "uninitialized-use", None),
                ("broken", None, None, "LA;", "n:I", None, None, None, "value-type", None),
                ("broken", None, None, "LA;", "m(I)V", 1, 2, 0, "uninitialized-use", None)]
        seen = [tuple(one[name] for name in place) for one in found]
        self.check_equal("--lint --json", seen, want)
        sentence = "an object is used before its constructor is called"
        self.check_equal("--lint --json, sentences", [found[n]["sentence"] for n in (1, 3)], [sentence] * 2)
        sum_ = hashlib.sha256(dexasm("strip", given=get(at, "d.dex"))).hexdigest()
        self.check_equal("--lint --program", [one["program"] for one in found], [sum_] * 4)
        without = json.loads(checked("--json", "--program", "d.dex", at=at)[1])
        self.check_equal("--json without --lint", {*found[0]} - {*without}, {"address", "register", "rule", "page"})
        document = json.loads(checked("--lint", "--sarif", "a.txt", "d.dex", "f.apk", at=at)[1])
        results = document["runs"][0]["results"]
        self.check_equal("--lint --sarif, the schema", ([*faults(document)], len(results)), ([], 8))
        self.check_equal("--lint --sarif", results[1]["message"]["text"], USED.format("line 7"))
        lines = checked("--lint", "--github", "a.txt", "b.txt", "d.dex", at=at)[1].splitlines()
        said = USED.format("instruction 0")
        want = [
            f"::error file=a.txt,title=value-type::a.txt: {VALUE} (in LA;->n:I)",
            f"::error file=a.txt,line=8,col=17,title=uninitialized-use::a.txt:8:17: {USED.format('line 7')} (in LA;->m(I)V)",
            f"::error file=d.dex,title=value-type::d.dex: {VALUE} (in LA;->n:I)",
            f"::error file=d.dex,title=uninitialized-use::d.dex: instruction 1 (0x02): {said} (in LA;->m(I)V)",
        ]
        self.check_equal("--lint --github", lines, want)
        out = checked("--lint", "--junit", "a.txt", "b.txt", "d.dex", at=at)[1]
        cases = [(case.get("name"), len(case)) for case in ElementTree.fromstring(out).findall("testsuite/testcase")]
        want = [("a.txt", 1), ("a.txt:8:17", 1), ("b.txt", 0), ("d.dex", 1), ("d.dex", 1)]
        self.check_equal("--lint --junit", cases, want)

    def test_lint_limits(self) -> None:
        """A program that takes too long to be linted, and one at which the worker is killed: what was told stays,
        once."""
        at = room("check lint limits")
        linted(at)
        program = shlex.quote(config.program())
        # (the command is asked twice of a file with --lint: whether it is accepted, and for its listing)
        does = '[ "$1" = list ] || exec {0} "$@"\ncat >"$0.$$"\n{1}\nexec {0} "$@" <"$0.$$"'
        slow = fake(at, "slow/dexasm", does.format(program, "sleep 611"))
        seen = by_command("--lint", "--seconds", "0.3", "d.dex", "none", at=at, DEXASM_COMMAND=slow)
        want = "d.dex: error: it takes longer than --seconds\nnone: error: No such file or directory\n"
        self.check_equal("--lint, too slow", seen, (3, want, ""))
        killed = fake(at, "killed/dexasm", does.format(program, "kill -9 $PPID"))
        seen = by_command("--lint", "d.dex", "b.txt", at=at, DEXASM_COMMAND=killed)
        want = "d.dex: error: its worker was killed\nb.txt: error: its worker was killed\n"
        self.check_equal("--lint, killed", seen, (3, want, ""))
        seen = run([sys.executable, "-B", "-c", TOLD_ONCE, os.path.join(TOP, "python", "src")], at=at)
        self.check_equal("--lint, told once", seen, (0, "broken broken broken killed ok\n", ""))
        head = LINTED.replace(b"add-int v1 v0 v0", b"nop").replace(b"long 5", b"int 5")
        many = head.replace(
            b"end class",
            b"end class\n" + b"".join(
                b"class LB%d; 0x1\nsuper Ljava/lang/Object;\nstatic n I 0x9 = long 5\nend class\n" % number
                for number in range(3000)
            ),
            1
        ).replace(b"\n\n", b"\n")
        put(at, "many.txt", many)
        status, out, said = checked("--lint", "many.txt", at=at)
        self.check_equal("--lint, many", (status, said, out.count("\n")), (1, "", 3000))

    def test_names(self) -> None:
        """Names that a terminal, GitHub's runner, or a reader of JSON, XML or SARIF could take for something else."""
        at = evil("check names")
        names = listed()
        status, out, said = of_names("", at)
        self.check_equal("names", (status, said, out, out.count("\n")), (1, "", That(is_safe), len(names)))
        status, out, said = of_names("--json", at)
        found = [json.loads(line) for line in out.splitlines()]
        uris = [unquote_to_bytes(one["uri"]) for one in found]
        self.check_equal("--json, names", (status, said, uris, out.isascii()), (1, "", names, True))
        self.check_equal("--json, names are texts",
                         ([one for one in found if re.search("[\ud800-\udfff]", one["file"])], found[0].keys()),
                         ([], found[-1].keys()))
        status, out, said = of_names("--github", at)
        lines = out.encode("latin1").decode("utf8").splitlines()
        self.check_equal("--github, names", (status, said, len(lines)), (1, "", len(names)))
        for line, name in zip(lines, names):
            shown = name.decode("utf8", "replace")
            # (a command has no escape for #)
            is_escaped = not shown.isprintable() or any(part in name for part in (b"##[", b"\xff", b"\xed", b"\x9b"))
            want = shown if not is_escaped else Either(shown, Has("\\"))
            self.check_equal(f"--github, {name!r}", (properties(line).get("file"), line.isprintable()), (want, True))
        status, out, said = of_names("--junit", at)
        cases = ElementTree.fromstring(out).findall("testsuite/testcase")
        self.check_equal("--junit, names",
                         (status, said, len(cases), [case for case in cases if not case.attrib["name"].isprintable()],
                          out.isascii()),
                         (1, "", len(names), [], True))

    def test_commands_of_runners(self) -> None:
        """Whatever a stranger gives (names of files and entries, words of listings, what libraries say of an archive)
        no line of any form holds a command of a CI runner, and none is lost of what JSON, SARIF and JUnit say.
        """
        at = room("check runners")
        names = [put_all(at, number, evil) for number, evil in enumerate(RUNNERS)]
        paths = [path for those in names for path in those]
        for form in FORMS:
            seen = checked(*[form] * bool(form), "--lint", "--", *paths, at=at)
            lines = [line for part in seen[1:] for line in str(part).splitlines()]
            bad = [line for line in lines if is_command(line, form)]
            self.check_equal(f"{form}, runners", (bad, len(lines)), ([], Above(20)))
            if form in ("--json", "--junit"):
                files = [json.loads(line)["file"] for line in lines] if form == "--json" else named_by_junit(seen[1])
                # (of a rule of a member JUnit has the line in the name)
                given = {path for path in paths if path.endswith((".dex", ".txt", "none")) and "/11." not in path}
                lost = given - {*files}
                self.check_equal(f"{form} says the very names", lost, set())
        self.check_skipped_runners(at)
        out = by_command("--", *paths, at=at)[1]
        self.check_equal("runners, by the command", [line for line in out.splitlines() if is_command(line, "")], [])
        for words in (("--json", "--##[x]"), ("--color", "##vso[x]", "a"), ("--jobs", "::x", "a"), ("--##[a]",)):
            seen = checked(*words, at=at)
            bad = [line for line in seen[2].splitlines() if is_command(line, "")]
            self.check_equal(f"{words}, its usage", (seen[0], bad), (2, []))
        for name in ("dexasm-lint", "dexasm-info", "dexasm-apk"):
            for path in (path for those in names for path in those[:3]):
                seen = run([os.path.join(TOOLS, name), *["check"] * (name == "dexasm-apk"), "--", path], at=at)
                bad = [line for line in seen[2].splitlines() if is_command(line, "")]
                self.check_equal(f"{name} {path!r}, standard error", bad, [])

    def check_skipped_runners(self, at: str) -> None:
        """The same of links below a folder, which each form tells, though they are no errors."""
        put(at, "links/a.dex", assembled(LISTING))
        for evil in RUNNERS:
            os.symlink("a.dex", os.path.join(at, "links", evil))
        for form in FORMS:
            status, out, said = checked(*[form] * bool(form), "links", at=at)
            bad = [line for line in out.splitlines() if is_command(line, form)]
            told = len(re.findall(r"a link to a file, which isn't followed", out.replace("&apos;", "'")))
            self.check_equal(f"{form}, links that are called as commands of runners", (status, said, bad, told),
                             (0, "", [], len(RUNNERS) * (2 if form == "--json" else 1)))

    def test_sarif(self) -> None:
        """The document keeps the schema's rules, and says the very names; of an archive's entry it has no region."""
        at = evil("check sarif")
        status, out, said = of_names("--sarif", at)
        document = json.loads(out)
        results = document["runs"][0]["results"]
        uris = [one["locations"][0]["physicalLocation"]["artifactLocation"]["uri"] for one in results]
        self.check_equal("--sarif, names", (status, said, [*map(unquote_to_bytes, uris)]), (1, "", listed()))
        puts(at, {
            "y.txt": HEAD + b"class LA; 0x1\nsuper 7\nend class\n",
            "a.apk": archive(("classes.dex", damaged(assembled(LISTING))), ("classes2.dex", assembled(LISTING)))
        })
        whole = os.path.join(at, "f", "-x.dex")
        status, out, said = checked("--sarif", "./y.txt", "a.apk", "none", whole, at=at)
        other = json.loads(out)
        self.check_equal("--sarif, the schema", [*faults(document), *faults(other)], [])
        results, invocation = other["runs"][0]["results"], other["runs"][0]["invocations"][0]
        places = [one["locations"][0]["physicalLocation"] for one in results]
        want = [{"artifactLocation": {"uri": "y.txt"}, "region": {"startLine": 3, "startColumn": 7}},
                {"artifactLocation": {"uri": "a.apk"}},
                {"artifactLocation": {"uri": "file://" + whole.replace(" ", "%20")}, "region": {"byteOffset": 7}}]
        self.check_equal("--sarif, places", (places, status), (want, 3))
        rules = [one["ruleId"] for one in results]
        self.check_equal("--sarif, what couldn't be read",
                         (rules, invocation["executionSuccessful"], invocation["exitCode"]),
                         (["101", "8", "1"], False, 3))
        seen = checked("--sarif", "--jobs", "1", "a.apk", at=at)
        self.check("--sarif, all could", json.loads(seen[1])["runs"][0]["invocations"][0]["executionSuccessful"])

    def test_no_files(self) -> None:
        """Pipes, devices, sockets, loops of links, what isn't there: a line each, and the others go on."""
        at, file = room("check no files"), assembled(LISTING)
        put(at, "a.dex", file)
        os.mkfifo(os.path.join(at, "fifo.dex"))
        os.symlink("loop", os.path.join(at, "loop"))
        os.symlink("a.dex", os.path.join(at, "link.dex"))
        with socket.socket(socket.AF_UNIX) as listening:
            listening.bind(os.path.relpath(os.path.join(at, "socket.dex")))
        words = ("fifo.dex", "loop", "/dev/zero", "socket.dex", "", "n" * 300, "a.dex/b", "a.dex", "link.dex")
        for how, runs in (("the library", checked), ("the command", by_command)):
            status, out, said = runs(*words, at=at)
            lines = out.splitlines()
            self.check_equal(f"no files, by {how}",
                             (lines[-2:], [line for line in lines[:-2] if ": error: " not in line], status, said,
                              len(lines)),
                             (["a.dex: ok", "link.dex: ok"], [], 3, "", 9))
    def test_below_a_folder(self) -> None:
        """Links, pipes and devices below a folder: each has a line, and is an error where something could pass unseen."""
        file = assembled(LISTING)
        at = room("check below a folder", {"d/x.DEX": file, "d/other.txt": b""})
        os.mkfifo(os.path.join(at, "d", "fifo.dex"))
        for name, to in (("up", ".."), ("top", "/"), ("l.dex", "/etc/passwd")):
            os.symlink(to, os.path.join(at, "d", name))
        puts(at, {"d/inner/b.dex": file, "d/blob": b"no file", "e/c": file, "e/text": b"a text"})
        os.mkfifo(os.path.join(at, "d", "fifo"))
        for name, to in (("here", "inner"), ("same.dex", "x.DEX"), ("z.apk", "blob"), ("none", "none")):
            os.symlink(to, os.path.join(at, "d", name))
        for name, to in (("none.dex", "none"), ("out", "../e/c"), ("text", "../e/text"), ("zero.jar", "/dev/zero")):
            os.symlink(to, os.path.join(at, "d", name))
        want = """d/fifo: no file
d/fifo.dex: error: no file
d/here: a link to a folder, which isn't followed
d/l.dex: error: a link to a file, which isn't followed
d/none: error: Too many levels of symbolic links
d/none.dex: error: Too many levels of symbolic links
d/out: error: a link to a file, which isn't followed
d/same.dex: a link to a file, which isn't followed
d/text: a link to a file, which isn't followed
d/top: error: a link to a folder, which isn't followed
d/up: error: a link to a folder, which isn't followed
d/x.DEX: ok
d/z.apk: error: a link to a file, which isn't followed
d/zero.jar: error: a link to no file
d/inner/b.dex: ok
"""
        seen = checked("d", at=at)
        self.check_equal("what is below a folder", (seen[0], *seen[1:]), (3, want, ""))
        quiet = "".join(line for line in want.splitlines(True) if ": error: " in line)
        self.check_equal("--quiet, below a folder", checked("--quiet", "d", at=at), (3, quiet, ""))
        found = [json.loads(line) for line in checked("--json", "d", at=at)[1].splitlines()]
        told = {one["status"] for one in found if one["file"] in ("d/fifo", "d/here", "d/same.dex", "d/text")}
        self.check_equal("--json, below a folder", (told, len(found)), ({"skipped"}, 15))
        self.check_forms_below(at)

    def check_forms_below(self, at: str) -> None:
        """What SARIF and GitHub's form tell of the same folder."""
        document = json.loads(checked("--sarif", "d", at=at)[1])
        notes = document["runs"][0]["invocations"][0]["toolExecutionNotifications"]
        skipped = [one["locations"][0]["physicalLocation"] for one in notes if one["level"] == "note"]
        names = [one["artifactLocation"]["uri"] for one in skipped]
        self.check_equal("--sarif, below a folder", (names, len(notes), [*faults(document)]),
                         (["d/fifo", "d/here", "d/same.dex", "d/text"], 13, []))
        lines = checked("--github", "d", at=at)[1].splitlines()
        notices = [line for line in lines if line.startswith("::notice file=d/")]
        self.check_equal("--github, below a folder", (len(notices), len(lines)), (4, 13))

    def test_below(self) -> None:
        """What is looked at below a folder: names, and how other files begin; all below it is, or has a line."""
        at, file = room("check below"), assembled(LISTING)
        kinds = ("a.apk", "b.JAR", "c.zip", "d.aar", "e.aab", "f.Apks", "begins like one")
        for name in kinds:
            put(at, f"f/{name}", archive(("x/y.Dex", damaged(file))))
        puts(at, {"f/a.dex": file, "f/dex": file})
        for name, given in (("text", b"PK, a text"), ("empty", b""), ("short", b"de"), ("L.java", b"class Lamp {}\n")):
            put(at, f"f/{name}", given)
        headless = LISTING.replace(b"dex 035 listing 2\n", b"")
        for name, given in (("a.dex.txt", LISTING), ("bad.txt", LISTING + b"x\n"), ("headless", headless)):
            put(at, f"f/{name}", given)
        put(at, "f/037.txt", LISTING.replace(b"dex 035", b"dex 037"))
        want = [f"f/{name}!x/y.Dex:0x08: error: 8 " for name in kinds] + ["f/a.dex: ok", "f/dex: ok", "f/a.dex.txt: ok"]
        want += [f"f/bad.txt:{len(LISTING.splitlines()) + 1}:1: error: 100 "]
        want = sorted([*want, "f/headless: looks like a listing, but ", "f/037.txt: looks like a listing, but "])
        status, out, said = checked("f", at=at)
        lines = sorted(out.splitlines())
        self.check_equal("below a folder",
                         (len(lines), [(line, begin) for line, begin in zip(lines, want) if not line.startswith(begin)],
                          status, said),
                         (len(want), [], 1, ""))
        if os.geteuid():
            os.chmod(os.path.join(at, "f/text"), 0)
            seen = checked("f", at=at)
            self.check_equal("what can't be opened", seen[:2], (3, Has("f/text: error: Perm")))

    def test_nested(self) -> None:
        """Archives in an archive, one deep; what is wrong with one of them has a line, and the others go on."""
        at, file = room("check nested"), assembled(LISTING)
        two = archive(("classes.dex", file), ("deep.zip", archive(("x.dex", b"no file"))))
        aab = archive(("base/dex/classes.dex", file), ("base/lib.jar", archive(("classes2.dex", damaged(file)))))
        wrong = archive(("a.jar", b"no archive"), ("b.jar", file + two), ("c.jar", archive(("d.class", b"x"))))
        for name, given, status, lines in (
            ("a.apks", archive(("splits/base.apk", two)), 0, ["splits/base.apk!classes.dex: ok"]),
            ("b.aab", aab, 1, ["base/dex/classes.dex: ok", "base/lib.jar!classes2.dex:0x08: error: 8 Ch"]),
            ("c.zip", wrong, 3, ["a.jar: error: no zip", "b.jar: error: it begins as a .dex"]),
            ("d.apks", archive(("a.apk", archive(("x", b"")))), 0, ["d.apks: no .dex file in it"]),
        ):
            put(at, name, given)
            seen = checked(name, at=at)
            told = [one.removeprefix(f"{name}!") for one in seen[1].splitlines() if "two archives deep" not in one]
            self.check_equal(name, (seen[0], told, seen[2]), (status, [*map(Begins, lines)], ""))
        deep = "a.apks!splits/base.apk!deep.zip: an archive two archives deep\n"
        self.check_equal("two deep", checked("a.apks", at=at)[1], Has(deep))

    def test_fronts(self) -> None:
        """A file that begins as something else, with an archive behind that, is refused as a whole."""
        at, file = room("check fronts"), assembled(LISTING)
        good = archive(("classes.dex", file))
        for name, front, what in (("a.apk", file, "a .dex file"), ("b.jar", b"#!/bin/sh\n", "something else")):
            put(at, name, front + good)
            want = f"{name}: error: it begins as {what}, and the archive follows it: "
            seen = checked(name, at=at)
            self.check_equal(f"{name}, its front", seen, (3, Begins(want) & ONE_LINE, ""))
            seen = run([os.path.join(TOOLS, "dexasm-apk"), "check", name], at=at)
            self.check_equal(f"dexasm-apk {name}, its front", seen,
                             (3, "", Begins(f"dexasm-apk: {name}: it begins as ") & ONE_LINE))

    def test_folders(self) -> None:
        """A folder that can't be read: one that is too deep for a name, and one of no rights."""
        file = assembled(LISTING)
        at = room("check folders", {"f/a.dex": file, "f/z.dex": file})
        here = os.open(os.path.join(at, "f"), os.O_RDONLY | os.O_DIRECTORY)
        for _ in range(18):
            os.mkdir("d" * 250, dir_fd=here)
            inner = os.open("d" * 250, os.O_RDONLY | os.O_DIRECTORY, dir_fd=here)
            os.close(here)
            here = inner
        os.close(here)
        seen = checked("f", at=at)
        lines = seen[1].splitlines()
        self.check_equal("a folder that is too deep", (seen, lines[:2], lines[2], len(lines)),
                         ((3, ANY, ""), ["f/a.dex: ok", "f/z.dex: ok"], Ends(": error: File name too long"), 3))
        put(at, "g/a.dex", file)
        os.mkdir(os.path.join(at, "g", "b"), 0)
        put(at, "g/c/d.dex", file)
        want = "g/a.dex: ok\ng/b: error: Permission denied\ng/c/d.dex: ok\n"
        if os.geteuid():
            seen = checked("g", at=at)
            self.check_equal("a folder without rights", seen, (3, want, ""))
        os.chmod(os.path.join(at, "g", "b"), stat.S_IRWXU)

    def test_archives(self) -> None:
        """Archives that lie, and what is no archive: a line each, with the entry where it is known."""
        at, file = room("check archives"), assembled(LISTING)
        good, two = archive(("classes.dex", file)), archive(("classes.dex", file), ("classes2.dex", file))
        cases = {
            "encrypted.apk": (
                changed(two, "classes.dex", *FLAGS, 1), "!classes.dex: error: it is encrypted, or says so"
            ),
            "sum.apk": (changed(two, "classes.dex", *CRC, 7), "!classes.dex: error: it can't be read: "),
            "twice.apk": (archive(("classes.dex", file), ("classes.dex", file)),
                          "!classes.dex: error: it is there more "),
            "cut.apk": (good[:-30], ": error: no zip archive can be read: "),
            "text.zip": (f"{ESC}[31m".encode(), ": error: no zip archive can be read: "),
        }
        for name, (given, want) in cases.items():
            put(at, name, given)
            status, out, said = checked(name, at=at)
            self.check_equal(f"{name}", (status, said, out, f"{name}!classes2.dex: ok\n" in out),
                             (3, "", Begins(name + want) & That(is_safe), len(given) == len(two)))

    def test_bombs(self) -> None:
        """What grows past --memory, or says so, or is as large: told as that, fast, and the others go on."""
        at, file = room("check bombs"), assembled(LISTING)
        made = io.BytesIO()
        with zipfile.ZipFile(made, "w", zipfile.ZIP_DEFLATED) as zipped:
            with zipped.open("classes.dex", "w") as entry:
                for _ in range(40):
                    entry.write(bytes(10 << 20))
            zipped.writestr("classes2.dex", file)
        put(at, "bomb.apk", made.getvalue())
        with open(os.path.join(at, "sparse.dex"), "wb") as sparse:
            sparse.truncate(1 << 40)
        put(at, "a.dex", file)
        want = "it takes more than --memory\n"
        want = f"bomb.apk!classes.dex: error: {want}bomb.apk!classes2.dex: ok\nsparse.dex: error: {want}a.dex: ok\n"
        for jobs in ("1", "3"):
            seen = checked("--memory", "250M", "--jobs", jobs, "bomb.apk", "sparse.dex", "a.dex", at=at)
            self.check_equal(f"bombs, --jobs {jobs}", seen, (4, want, ""))

    def test_archives_limits(self) -> None:
        """An archive has --seconds and --memory once, whatever its entries say, and ends soon."""
        at, file = room("check archives limits"), assembled(LISTING)
        count = 65000
        many = archive(*((f"{number}.dex", b"") for number in range(count)))
        # (each entry says 3 GB in the directory)
        size = re.compile(b"(PK\1\2.{20})\0\0\0\0", re.S)
        put(at, "many.apk", size.sub(lambda found: found[1] + struct.pack("<I", 3 << 30), many))
        begun = time.monotonic()
        status, out, said = checked("many.apk", at=at)
        taken = time.monotonic() - begun
        lines = out.splitlines()
        self.check_equal("65,000 entries that say 3 GB",
                         (len(lines), [line for line in lines if not line.endswith(": it takes more than --memory")],
                          status, said),
                         (count, [], 4, ""))
        self.check_equal("65,000 entries, its time", taken, Below(60))
        bomb = io.BytesIO()
        with zipfile.ZipFile(bomb, "w", zipfile.ZIP_DEFLATED) as zipped:
            zipped.writestr("big.dex", bytes(100 << 20))
        for number, given in enumerate((b"", file)):
            entries = [(f"{number}.zip", bomb.getvalue()) for number in range(9)]
            put(at, f"{number}.zip", archive(*entries, ("z/classes.dex", given)))
        status, out, said = checked("--memory", "400M", "1.zip", at=at)
        told = [line.rpartition(": ")[2] for line in out.splitlines()]
        self.check_equal("a sum of memory", (told.count("it takes more than --memory"), out, status, said),
                         (Above(5), Ends("1.zip!z/classes.dex: ok\n"), 4, ""))
        seen = checked("--seconds", "0.02", "--lint", "1.zip", "none", at=at)
        late: Like = Has("it takes longer than --seconds: the rest of the archive is not checked\n")
        late |= Has("1.zip: error: it takes longer than --seconds\n")
        self.check_equal("a sum of time", seen[:2], (3, late & Ends("directory\n")))

    def test_lying_sizes(self) -> None:
        """An entry that is larger than it says, or smaller: no more is inflated than it says."""
        at, file = room("check lying sizes"), assembled(LISTING)
        small = 1000
        made = io.BytesIO()
        with zipfile.ZipFile(made, "w", zipfile.ZIP_DEFLATED) as zipped:
            zipped.writestr("classes.dex", bytes(300 << 20))
            zipped.writestr("classes2.dex", file)
        for name, says in (("less.apk", small), ("more.apk", (300 << 20) + 5)):
            put(at, name, changed(made.getvalue(), "classes.dex", 22, "<I", says))
            seen = checked("--memory", "1G", name, at=at)
            begin = f"{name}!classes.dex: error: it can't be read: "
            self.check_equal(name, seen, (3, Begins(begin) & Ends("classes2.dex: ok\n"), ""))
        seen = checked("--memory", "150M", "less.apk", at=at)
        self.check_equal("no more than it says", seen[:2], (3, Lacks("--memory")))
        for method in (zipfile.ZIP_BZIP2, zipfile.ZIP_LZMA):
            made = io.BytesIO()
            with zipfile.ZipFile(made, "w", method) as zipped:
                zipped.writestr("classes.dex", file)
            put(at, "a.zip", made.getvalue())
            want = f"a.zip!classes.dex: error: its method of compression is unknown: {int(method)}\n"
            self.check_equal(f"method {method}", checked("a.zip", at=at), (3, want, ""))

    def check_none_left(self, what: str, seconds: bytes) -> None:
        """That no such `sleep` runs any more."""
        left = sleeping(seconds)
        self.check_equal(f"{what}, nothing is left running", left, [])
        for one in left:
            os.kill(int(one), signal.SIGKILL)

    def test_ended(self) -> None:
        """However a helper is ended, its workers end, with what they run."""
        at = room("check ended")
        program = shlex.quote(config.program())
        command = fake(at, "fake/dexasm", f'[ "$1" != check ] && exec {program} "$@"\n: >"$0.begun"\nsleep 619')
        put(at, "a.dex", assembled(LISTING))
        for ends in (signal.SIGTERM, signal.SIGHUP, signal.SIGKILL):
            env = {**environment(), "DEXASM_COMMAND": command}
            begun = subprocess.Popen([os.path.join(alone(), "dexasm-check"), "a.dex"], cwd=at, env=env)
            wait_for(lambda: os.path.exists(f"{command}.begun"))
            os.remove(f"{command}.begun")
            begun.send_signal(ends)
            begun.wait(LIMIT)
            wait_for(lambda: not sleeping(b"619"))
            self.check_none_left(f"ended by {ends.name}", b"619")

    def test_limits(self) -> None:
        """A file that takes too long, and one at which the worker is killed: the others go on, and nothing is left."""
        at, file = room("check limits"), assembled(LISTING)
        program = shlex.quote(config.program())
        does = (
            'cat >"$0.$$"; if grep -q SLOW "$0.$$"; then sleep 613; elif grep -q KILL "$0.$$"; then kill -9 $PPID; fi'
        )
        command = fake(at, "fake/dexasm",
                       f'[ "$1" != check ] && exec {program} "$@"\n{does}\nexec {program} "$@" <"$0.$$"')
        for name, given in (("a", file), ("b", b"SLOW"), ("c", file), ("d", b"KILL"), ("e", file)):
            put(at, f"{name}.dex", given)
        seen = by_command("--seconds", "0.2", *(f"{name}.dex" for name in "abcde"), at=at, DEXASM_COMMAND=command)
        want = "b.dex: error: it takes longer than --seconds\nc.dex: ok\nd.dex: error: its worker was killed\n"
        self.check_equal("limits", seen, (3, f"a.dex: ok\n{want}e.dex: ok\n", ""))
        self.check_none_left("limits", b"613")

    def test_interrupted(self) -> None:
        """Control-C while a file is looked at: its status, no line, and nothing is left running."""
        at = room("check interrupted")
        program, slow = shlex.quote(config.program()), '[ "$1" != check ] && exec {} "$@"\n: >"$0.begun"\nsleep 617'
        command = fake(at, "fake/dexasm", slow.format(program))
        put(at, "a.dex", assembled(LISTING))
        env = {**environment(), "DEXASM_COMMAND": command}
        streams: dict[str, Any] = {"stdin": subprocess.DEVNULL, "stdout": subprocess.PIPE, "stderr": subprocess.PIPE}
        # (a shell may have begun this test without that signal)
        obeyed: dict[str, Any] = {"preexec_fn": lambda: signal.signal(signal.SIGINT, signal.SIG_DFL)}
        begun = subprocess.Popen([os.path.join(alone(), "dexasm-check"), "a.dex"], cwd=at, env=env, **streams, **obeyed)
        wait_for(lambda: os.path.exists(f"{command}.begun"))
        begun.send_signal(signal.SIGINT)
        try:
            said = begun.communicate(timeout=20)
        except subprocess.TimeoutExpired:
            begun.kill()
            said = begun.communicate()
        self.check_equal("interrupted", (begun.returncode, *said), (130, b"", b""))
        self.check_none_left("interrupted", b"617")

    def test_changes(self) -> None:
        """Files that become something else after they were found."""
        at = room("check changes")
        for name in "abcde":
            put(at, f"f/{name}.dex", assembled(LISTING))
        env: dict[str, Any] = {"DEXASM_LIBRARY": config.shared_library()} if config.shared_library() else {}
        share = os.path.join(TOP, "python", "src")
        seen = run([sys.executable, "-B", "-c", CHANGES, share], at=at, **env)
        want = (
            "f/a.dex failed None No such file or directory\nf/b.dex failed None no file\nf/c.dex refused 1 None\n"
            "f/d.dex failed None no file\nf/e.dex ok None None\n"
        )
        self.check_equal("files that change", seen, (0, want, ""))

    def test_many(self) -> None:
        """100,000 paths on standard input, most of which aren't there; each has its line, in that order."""
        at, count = room("check many"), 100000
        put(at, "a.dex", assembled(LISTING))
        names = ["a.dex" if number % 1000 == 0 else str(number) for number in range(count)]
        status, out, said = checked("--paths-from", "-", at=at, given="\0".join(names).encode())
        lines = out.splitlines()
        self.check_equal("100,000 paths",
                         ([(line, name) for line, name in zip(lines, names) if not line.startswith(f"{name}: ")],
                          status, said, len(lines)),
                         ([], 3, "", count))
        self.check_equal("their verdicts", lines.count("a.dex: ok"), count // 1000)
        for given, want in ((b"", 3), (b"\0\0\0", 3), (b"a.dex", 0), (b"a.dex\n", 3), (os.urandom(5000), 3)):
            seen = checked("--paths-from", "-", at=at, given=given)
            self.check_equal(f"{given[:9]!r} on standard input", seen[:2], (want, That(is_safe)))

    def test_workers(self) -> None:
        """A further worker is for what is worth one; the lines are the same (try_order)."""
        share = os.path.join(TOP, "python", "src")
        seen = run([sys.executable, "-B", "-c", WORKERS, share], at=room("check workers"))
        self.check_equal("how many workers", seen, (0, "1\n1\n4\n2\n4\n1\n1\n4\n", ""))

    def test_order(self) -> None:
        """Whatever the number of workers, and however long each file takes, the lines are the same."""
        at = room("check order")
        for number in range(40):
            size = (1, 400, 30)[number % 3]
            text = HEAD + b"".join(b"class L%s%d; 0x1\nend class\n" % (b"x" * 60, n) for n in range(size))
            put(at, f"f/{number:02}.dex", assembled(text) if number % 7 else b"no file")
        # (more than a worker is given at once)
        names = [f"f/{number % 40:02}.dex" for number in range(0, 40 * 77, 7)] * 5
        one, many = (checked("--jobs", jobs, *names, at=at) for jobs in ("1", "4"))
        told = [line.partition(":")[0] for line in many[1].splitlines()]
        self.check_equal("the order", (told, one, one[0]), (names, many, 1))

    def test_commands(self) -> None:
        """Over a command whose output can't be parsed: nothing is accepted, and each has a line."""
        at = room("check commands", {"a.dex": assembled(LISTING)})
        given = [("true", "/bin/true"), ("a signal", fake(at, "fake/signal", "kill -11 $$"))]
        given += [("nothing that runs", put(at, "fake/no", b"no program")), ("nothing there", os.path.join(at, "none"))]
        ready = f'[ "$1" = --version ] && exec {shlex.quote(config.program())} --version\n'
        for number, (name, command) in enumerate(given):
            seen = by_command("a.dex", at=at, DEXASM_COMMAND=command)
            self.check_equal(f"by {name}", seen, (3, "", Begins("dexasm-check: a worker doesn't start: ") & ONE_LINE))
            later = fake(at, f"later/{number}", f'{ready}exec {shlex.quote(command)} "$@"')
            seen = by_command("a.dex", "a.dex", at=at, DEXASM_COMMAND=later)
            lines = seen[1].splitlines()
            self.check_equal(f"by {name} later",
                             (seen, len(lines), [line for line in lines if ": error: " not in line]),
                             ((3, That(is_safe), ""), 2, []))

    def test_words(self) -> None:
        at = room("check words", {"a.dex": assembled(LISTING)})
        for words in (
            "", "--json --sarif a.dex", "--program a.dex", "--sarif --program a.dex", "--jobs 0 a.dex",
            "--jobs -1 a.dex", "--jobs 9999999999 a.dex", "--seconds nan a.dex", "--seconds inf a.dex",
            "--memory 1 a.dex", "--memory 5X a.dex", "--color sometimes a.dex", "--jso a.dex", "--lint"
        ):
            seen = checked(*words.split(), at=at)
            self.check_equal(words, seen, (2, "", Begins("usage: dexasm-check ")))
        self.check_equal("no .dex file in a folder", checked(at, at=room("check empty")), (0, f"{at}/a.dex: ok\n", ""))

    def test_nothing(self) -> None:
        """Where nothing is looked at that isn't accepted: not in any form, and not without a line."""
        at = room("check nothing")
        os.mkdir(os.path.join(at, "empty"))
        put(at, "others/a.txt", b"a text")
        os.symlink("a.txt", os.path.join(at, "others", "link"))
        for form in FORMS:
            by_input = ["--paths-from", "-"]
            for words, given in (
                (["empty"], b""), (["others"], b""), (by_input, b""), (by_input, b"\0\0"), ([*by_input, "empty"], b"")
            ):
                seen = checked(*[form] * bool(form), *words, at=at, given=given)
                self.check_equal(f"{form} {words}", seen,
                                 (3, ANY, Begins("dexasm-check: no .dex files") & ONE_LINE))
                if form == "--sarif":
                    done = json.loads(seen[1])["runs"][0]["invocations"][0]
                    notes = [note["descriptor"]["id"] for note in done["toolExecutionNotifications"]]
                    want = 3, [*["skipped"] * (words == ["others"]), "nothing"]
                    self.check_equal(f"--sarif {words}", (done["exitCode"], notes), want)
                    self.check_equal("--sarif, the schema", [*faults(json.loads(seen[1]))], [])
                if form == "--junit":
                    suite = ElementTree.fromstring(seen[1]).find("testsuite")
                    assert suite is not None
                    self.check_equal(f"--junit {words}", (suite.get("errors"), suite.get("tests"), len(suite)),
                                     ("1", str(len(suite)), Above(0)))
                seen = checked(*[form] * bool(form), "--allow-empty", *words, at=at, given=given)
                self.check_equal(f"{form} --allow-empty {words}", seen, (0, ANY, ""))
        self.check_equal("what isn't there", checked("none", "--allow-empty", at=at)[0], 3)
        put(at, "a.zip", archive(("x", b"")))
        self.check_equal("an archive was looked at", checked(".", at=at)[0], 0)
        for name, asks in (("dexasm-corpus", ("add", "c.db", "others")), ("dexasm-apk", ("check", "a.zip"))):
            for more, status in (((), 3), (("--allow-empty",), 0)):
                seen = run([os.path.join(TOOLS, name), *asks, *more], at=at, **library())
                self.check_equal(f"{name} {asks} {more}, nothing to look at", (seen[0], seen[2].count("\n")),
                                 (status, int(status > 0)))

    def test_terminal(self) -> None:
        """Colours where they are asked for, and a line of progress that is gone at the end."""
        file = assembled(LISTING)
        at = room("check terminal", {"a.dex": file, "b.dex": damaged(file)})
        plain = "a.dex: ok\nb.dex:0x08: error: 8 Checksum: the Adler-32 differs\n"
        colored = (
            f"a.dex: {ESC}[32mok{ESC}[0m\nb.dex:0x08: {ESC}[1;31merror:{ESC}[0m 8 Checksum: the Adler-32 differs\n"
        )
        for word, want in (("auto", plain), ("never", plain), ("always", colored)):
            seen = checked("--color", word, "a.dex", "b.dex", at=at)
            self.check_equal(f"--color {word}", seen, (1, want, ""))
        for env, want in (({"NO_COLOR": ""}, colored), ({"NO_COLOR": "1"}, plain)):
            shown = on_terminal(at, "dexasm-check", "a.dex", "b.dex", **env)[1]
            self.check_equal(f"on a terminal, {env}",
                             ([line for line in want.splitlines() if line not in shown], "[32m" in shown),
                             ([], want == colored))
            self.check_equal(f"on a terminal, {env}, the line goes", re.search(r"of 2 files[^\r]*$", shown), EMPTY)

    def test_hooks_file(self) -> None:
        """The hook of pre-commit.com: which names it takes, and what it does with them."""
        text = get(TOP, ".pre-commit-hooks.yaml").decode()
        field = dict(re.findall(r"^[ -] (\w+): (.*)$", text, re.M))
        pattern = re.compile(field["files"])
        self.check_equal(".pre-commit-hooks.yaml takes links", field["types_or"], "[file, symlink]")
        for name in ("a.dex", "f/X.DEX", "x.apk", "X.Jar", "a.zip", "--seconds=9.dex", "a.aar", "b.AAB", "c.apks"):
            self.check_equal(f".pre-commit-hooks.yaml takes {name}", pattern.search(name), Other(None))
        for name in ("a.dexx", "a.apk.txt", "dex", "adex"):
            self.check_equal(f".pre-commit-hooks.yaml leaves {name}", pattern.search(name), None)
        at = room("check hooks file")
        entry = shlex.split(field["entry"])
        names = ("a.dex", "--seconds=9.dex", "-x.dex", "new\nline.dex")
        for name in names:
            put(at, name, assembled(LISTING))
        words = [os.path.join(TOP, entry[0]), *entry[1:], *names]
        self.check_equal(".pre-commit-hooks.yaml, accepted", (run(words, at=at), field["language"]),
                         ((0, "", ""), "script"))
        put(at, "-x.dex", b"no file")
        seen = run(words, at=at)
        self.check_equal(".pre-commit-hooks.yaml, refused", seen[:2], (1, Begins("-x.dex:0x07: error: 1 ")))

    def test_build(self) -> None:
        """Which build answers: by where it lies, or by the sums of its package. With DEXASM=proved no other one does."""
        at, program = room("check build"), get(config.program())
        put(at, "a.dex", assembled(LISTING))
        sha, version = hashlib.sha256(program).hexdigest(), dexasm("--version").decode().split()[-1]
        proved_by = os.path.join(os.path.dirname(os.path.dirname(alone())), "share/doc/dexasm/PROVED-BY")
        put(at, "other/NOT-PROVED", b"")
        for place, said, want in (
            ("crates/dexasm/out/built/dexasm", "", "proved"),
            ("crates/dexasm/out/quick/dexasm", "", "quick"),
            ("dexasm", "", "quick"),  # (the launcher, which runs that one)
            ("bin/dexasm", "", "unknown"),
            ("other/dexasm", f"Proved and built of commit x\n{sha}  dexasm\n", "quick"),
            ("bin/dexasm", f"Proved and built of commit x\n{sha}  dexasm\n", "proved"),
            ("bin/dexasm", f"Packed at commit x\n{sha}  dexasm\n", "unknown"),
            ("bin/dexasm", f"Proved and built of commit x\n{sha[::-1]}  dexasm\n", "unknown"),
        ):
            if place == "dexasm":
                os.remove(os.path.join(at, "crates/dexasm/out/built/dexasm"))
            put(at, place, get(TOP, "dexasm") if place == "dexasm" else program)
            os.chmod(os.path.join(at, place), 0o755)
            put("/", proved_by[1:], said.encode())
            env: dict[str, Any] = {"DEXASM_COMMAND": os.path.join(at, place)}
            told = json.loads(by_command("--json", "a.dex", at=at, **env)[1])["dexasm"]
            self.check_equal(f"{place} {said[:9]}", told, {"version": version, "build": want, "sha256": sha})
            seen = by_command("a.dex", at=at, **env, DEXASM="proved")
            # (the launcher would make a proved one, which it can't here)
            why = Has("status 70" if place == "dexasm" else f" is the {want} build")
            expected = (0, "a.dex: ok\n", "") if want == "proved" else (3, "", why)
            self.check_equal(f"{place} {said[:9]}, DEXASM=proved", seen, expected)
        os.remove(proved_by)

    def test_version(self) -> None:
        """Each helper tells the version, which is the command's; a command that tells none is a line."""
        want = sought(r"dexasm (\S+)\n", dexasm("--version").decode())[1]
        for name in sorted(os.listdir(TOOLS)):
            seen = run([os.path.join(TOOLS, name), "--version"])
            lines = seen[1].splitlines()
            is_build = name == "dexasm-check" and re.fullmatch(BUILD, lines.pop()) is not None
            self.check_equal(f"{name} --version", (seen, lines), ((0, ANY, ""), [f"{name} {want}"]))
            self.check_equal(f"{name} --version, its build", is_build, name == "dexasm-check")
        seen = run([os.path.join(TOOLS, "dexasm-check"), "--version"], DEXASM_COMMAND="/bin/true")
        self.check_equal("--version by /bin/true", seen, (3, "", ONE_LINE))
