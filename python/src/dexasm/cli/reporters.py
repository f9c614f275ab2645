"""The forms in which dexasm-check and dexasm-lint tell verdicts: lines for people, and JSON, SARIF, JUnit and GitHub's
for machines.

Names of files and what is in them are anybody's. Each form escapes what its reader would obey; what a runner of
continuous integration would, which reads each of them, stands in no line that `Text.print` prints.
"""
from __future__ import annotations

import os
import re
from typing import TYPE_CHECKING, Any

from dexasm.cli.errors import FAILED, MEMORY, REFUSED
from dexasm.cli.faults import OF_CLASSES, OF_COUNTS, PAGE, SENTENCES, page_path, section
from dexasm.cli.sanitize import JSON, TEXT, XML, escaped, without_commands
from dexasm.cli.verdict import Verdict

if TYPE_CHECKING:
    from dexasm._native import Build

# (what isn't here couldn't be looked at)
STATUSES = {"ok": 0, "empty": 0, "skipped": 0, "known": 0, "refused": REFUSED, "broken": REFUSED, "memory": MEMORY}
ACCEPTED = ("ok", "empty", "skipped", "known")
CHECKED = ("ok", "empty")  # and accepted
NOWHERE = (90, 255)  # whose place is none
OK, BAD, PLAIN = "\x1b[32m", "\x1b[1;31m", "\x1b[0m"
SCHEMA = "https://docs.oasis-open.org/sarif/sarif/v2.1.0/errata01/os/schemas/sarif-schema-2.1.0.json"
# What GitHub's runner undoes (actions/toolkit, command.ts).
ERROR, NOTICE = "::error ", "::notice "
GITHUB = {"%": "%25", "\r": "%0D", "\n": "%0A", ":": "%3A", ",": "%2C"}


def exit_status(verdict: Verdict) -> int:
    return STATUSES.get(verdict.status, FAILED)


def name_of(verdict: Verdict) -> str:
    """Its path, and the entry of the archive after a `!`; bytes that are no text stand as \\xff."""
    path = verdict.path.decode("utf8", "backslashreplace")
    return f"{path}!{verdict.entry}" if verdict.entry else path


def bare(path: bytes) -> bytes:
    """A path without `./` before it."""
    return re.sub(rb"^(?:\./+)+", b"", path)


def uri_of(path: bytes) -> str:
    """The very path, as RFC 3986 spells it."""
    from urllib.parse import quote

    return ("file://" if path.startswith(b"/") else "") + quote(bare(path))


def sentence_of(verdict: Verdict) -> str | None:
    """What is wrong, as the pages and the help have it, or why it wasn't looked at."""
    if verdict.rule is not None:
        from dexasm.analysis.verifier.rules import SENTENCES as RULES

        return RULES.get(verdict.rule)
    if verdict.number is None:
        return verdict.why
    return SENTENCES.get(verdict.number, ("", "", ""))[1] or None


def place_of(verdict: Verdict) -> str:
    """The place after a name: line and column, or the byte of a file."""
    if verdict.line is not None:
        return f":{verdict.line}" + (f":{verdict.column}" if verdict.column is not None else "")
    if verdict.kind == "dex" and verdict.place is not None and verdict.number not in NOWHERE:
        return f":0x{verdict.place:02x}"
    return ""


def message_of(verdict: Verdict) -> str:
    """What is wrong, in short: why this word can't stand there, or the beginning of the pages' sentence."""
    if verdict.number is None:
        at = "" if verdict.address is None else f"instruction {verdict.instruction} (0x{verdict.address:02x}): "
        return at + escaped(verdict.why or "")
    sentence = escaped(sentence_of(verdict) or "")
    short = escaped(verdict.why) if verdict.why else sentence.partition(": ")[0]
    return f"{verdict.number} {verdict.name}" + (f": {short}" if short else "") + location_suffix(verdict)


def is_of_member(verdict: Verdict) -> bool:
    """Whether it is of a member of a program that is accepted, as dexasm-lint tells it."""
    return verdict.number is None and verdict.class_ is not None


def full_message(verdict: Verdict) -> str:
    """A message that says where in the program it is."""
    return message_of(verdict) + (location_suffix(verdict) if is_of_member(verdict) else "")


def location_suffix(verdict: Verdict) -> str:
    """Where in the program it is."""
    if verdict.number in OF_COUNTS:
        return f" ({verdict.place} are needed)"
    named = verdict.member or verdict.class_
    if is_of_member(verdict):
        return f" (in {escaped('->'.join(filter(None, (verdict.class_, verdict.member))))})"
    if named is not None:
        part = f", instruction {verdict.instruction}" if verdict.instruction is not None else ""
        return f" (in {escaped(named)}{part})"
    return f" (class {verdict.place}, from 0)" if verdict.number in OF_CLASSES and verdict.line is None else ""


class Text:
    """A line for each, as compilers have it."""

    form = TEXT  # in which a character stands that mustn't be itself
    has_build = False
    build: Build | None = None  # of dexasm, where it was asked which one answers

    def __init__(self, has_colors: bool = False) -> None:
        self.ok, self.bad, self.plain = (OK, BAD, PLAIN) if has_colors else ("", "", "")

    def lines(self, verdict: Verdict) -> list[str]:
        name = escaped(name_of(verdict))
        if verdict.status == "ok":
            return [f"{name}: {self.ok}ok{self.plain}"]
        is_known = verdict.status == "known"
        if verdict.status in ACCEPTED and not is_known:
            return [f"{name}: {self.ok}{verdict.why}{self.plain}"]
        error = f"{self.ok}known:{self.plain}" if is_known else f"{self.bad}error:{self.plain}"
        if is_of_member(verdict):
            from dexasm.analysis.verifier.report import format_line

            return [format_line(name, verdict, error)]
        return [f"{name}{place_of(verdict)}: {error} {message_of(verdict)}"]

    def nothing(self, why: str) -> list[str]:
        """What is told where nothing was looked at, beside the line on standard error."""
        return []

    def end(self, status: int) -> list[str]:
        return []

    def print(self, lines: list[str]) -> None:
        """Prints lines, each without what a runner of continuous integration takes for a command, whoever wrote it."""
        if lines:
            print(*map(self.without_commands, lines), sep="\n")

    def without_commands(self, line: str) -> str:
        return without_commands(line, self.form)


class Json(Text):
    """A line of JSON for each."""

    form = JSON
    has_build = True
    fields: tuple[str, ...] = ("number", "name", "place", "line", "column", "class_", "member", "instruction")

    def __init__(self, is_linted: bool = False, is_counted: bool = False) -> None:
        super().__init__()
        self.fields += ("address", "register", "rule", "page") if is_linted else ()
        self.is_counted = is_counted

    def lines(self, verdict: Verdict) -> list[str]:
        import json

        found = {"file": name_of(verdict), "uri": uri_of(verdict.path), "kind": verdict.kind, "status": verdict.status}
        for field in self.fields:
            found[field.rstrip("_")] = getattr(verdict, field)
        build = {} if self.build is None else {"dexasm": self.build._asdict()}
        return [json.dumps(found | self.extra_fields(verdict) | build)]

    def extra_fields(self, verdict: Verdict) -> dict[str, Any]:
        fields = {"sentence": sentence_of(verdict), "why": verdict.why, "program": verdict.program}
        return fields | (counted_fields(verdict.extras) if self.is_counted else {})


def counted_fields(extras: dict[str, int] | None) -> dict[str, Any]:
    """What a file has that its program hasn't, as dexasm-info has it."""
    if extras is None:
        return {"annotations": None, "debug_methods": None}
    counts = dict(extras)
    return {"debug_methods": counts.pop("debug"), "annotations": counts}


class GitHub(Text):
    """A command of GitHub's workflows for each that isn't accepted, and for each that was skipped."""

    def lines(self, verdict: Verdict) -> list[str]:
        if verdict.status in (*CHECKED, "known"):
            return []
        words = {"file": bare(verdict.path).decode("utf8", "surrogateescape")}
        if not verdict.entry and verdict.line is not None:
            words |= {"line": str(verdict.line)}
            words |= {"col": str(verdict.column)} if verdict.column is not None else {}
        words["title"] = f"{verdict.number} {verdict.name}" if verdict.number else verdict.rule or "not checked"
        head = ",".join(f"{name}={escape_command(text)}" for name, text in words.items())
        message = escape_command(f"{name_of(verdict)}{place_of(verdict)}: {full_message(verdict)}", "%\r\n")
        return [f"{NOTICE if verdict.status in ACCEPTED else ERROR}{head}::{message}"]

    def nothing(self, why: str) -> list[str]:
        return [f"{ERROR}title=not checked::{why}"]

    def without_commands(self, line: str) -> str:
        # (each line of this form begins as one of the two, by what it is)
        begin = NOTICE if line.startswith(NOTICE) else ERROR
        return begin + without_commands(line.removeprefix(begin))


def escape_command(text: str, special: str = "%\r\n:,") -> str:
    """A text in such a command: escaped is what the command's form takes, and what a terminal obeys."""
    return "".join(GITHUB[char] if char in special else escaped(char) for char in text)


class JUnit(Text):
    """One document, as JUnit's own reports are."""

    form = XML

    def __init__(self) -> None:
        from xml.etree import ElementTree

        self.xml, self.suite = ElementTree, ElementTree.Element("testsuite", name="dexasm-check")
        self.counts = dict.fromkeys(("tests", "failures", "errors", "skipped"), 0)

    def lines(self, verdict: Verdict) -> list[str]:
        name = escaped(name_of(verdict)) + (place_of(verdict) if is_of_member(verdict) else "")
        case = self.xml.SubElement(self.suite, "testcase", classname="dexasm-check", name=name)
        self.counts["tests"] += 1
        kinds = {"ok": None, "refused": "failure", "broken": "failure", **dict.fromkeys(ACCEPTED[1:], "skipped")}
        kind = kinds.get(verdict.status, "error")
        if kind is not None:
            self.counts["skipped" if kind == "skipped" else f"{kind}s"] += 1
            element = self.xml.SubElement(case, kind, message=full_message(verdict))
            if kind != "skipped":
                element.set("type", verdict.name or verdict.rule or verdict.status)
                element.text = Text().lines(verdict)[0]
        return []

    def nothing(self, why: str) -> list[str]:
        case = self.xml.SubElement(self.suite, "testcase", classname="dexasm-check", name="input")
        self.xml.SubElement(case, "error", message=why, type="nothing")
        self.counts["tests"] += 1
        self.counts["errors"] += 1
        return []

    def end(self, status: int) -> list[str]:
        for name, count in self.counts.items():
            self.suite.set(name, str(count))
        suites = self.xml.Element("testsuites")
        suites.append(self.suite)
        self.xml.indent(suites, " ")
        document: bytes = self.xml.tostring(suites, "us-ascii", xml_declaration=True)
        return document.decode("ascii").split("\n")


# What SARIF says of the rules that stand for an archive, or an entry, that was not checked.
UNREAD = {
    "failed": "an archive or an entry of it cannot be read",
    "time": "an archive or an entry of it needs more than --seconds",
    "memory": "an archive or an entry of it needs more than --memory",
    "killed": "a worker was killed while it checked an archive or an entry of it",
}


class Sarif(Text):
    """One document, of SARIF 2.1.0."""

    form = JSON
    has_build = True
    tool = "dexasm-check"

    def __init__(self) -> None:
        self.rules: dict[str, int] = {}
        self.results: list[dict[str, Any]] = []
        self.notes: list[dict[str, Any]] = []

    def lines(self, verdict: Verdict) -> list[str]:
        if verdict.status in CHECKED:
            return []
        prefix = f"{verdict.entry}{place_of(verdict)}: " if verdict.entry else ""
        level = "note" if verdict.status in ACCEPTED else "error"
        result = {"level": level, "message": {"text": prefix + message_of(verdict)}, "locations": [location(verdict)]}
        rule = verdict.rule if verdict.number is None else str(verdict.number)
        if verdict.status == "known":
            result["suppressions"] = [{"kind": "external", "justification": "--baseline"}]
        if rule is None:
            self.notes.append({"descriptor": {"id": verdict.status}, **result})
        if rule is None and level == "error" and (verdict.kind == "archive" or verdict.entry):
            rule = verdict.status  # (viewers of results show no notes)
        if rule is not None:
            at = self.rules.setdefault(rule, len(self.rules))
            self.results.append({"ruleId": rule, "ruleIndex": at, **result})
        return []

    def nothing(self, why: str) -> list[str]:
        self.notes.append({"descriptor": {"id": "nothing"}, "level": "error", "message": {"text": why}})
        return []

    def rule_fields(self, rule: str) -> dict[str, Any]:
        """A rule's name, its sentence, and of a fault the section of the page on faults: as a URI if it is here."""
        name, more = rule, dict[str, Any]()
        if rule.isdecimal():
            name, sentence, _ = SENTENCES.get(int(rule), ("Unknown", "", ""))
            part, path = section(int(rule), name), page_path()
            more = {} if path is None else {"helpUri": uri_of(os.fsencode(path)) + part}
            more["help"] = {"text": PAGE + part}
        else:
            from dexasm.analysis.verifier.rules import SENTENCES as RULES

            sentence = (RULES | UNREAD).get(rule, "")
        return {"id": rule, "name": name, **({"shortDescription": {"text": sentence}} if sentence else {}), **more}

    def end(self, status: int) -> list[str]:
        import json

        driver: dict[str, Any] = {"name": self.tool, "rules": [*map(self.rule_fields, self.rules)]}
        if self.build is not None:
            driver |= {"version": self.build.version, "properties": {"dexasm": self.build._asdict()}}
        ended = {"executionSuccessful": status in (0, REFUSED), "exitCode": status}
        run = {
            "tool": {"driver": driver},
            "invocations": [ended | {"toolExecutionNotifications": self.notes}],
            "columnKind": "unicodeCodePoints",
            "results": self.results,
        }
        return [json.dumps({"$schema": SCHEMA, "version": "2.1.0", "runs": [run]}, indent=1)]


def location(verdict: Verdict) -> dict[str, Any]:
    """Where it is, for SARIF; of an entry of an archive the archive, since a region would be one of the archive's."""
    place: dict[str, Any] = {"artifactLocation": {"uri": uri_of(verdict.path)}}
    if not verdict.entry and verdict.line:
        place["region"] = {"startLine": verdict.line, **({"startColumn": verdict.column} if verdict.column else {})}
    elif not verdict.entry and place_of(verdict):
        place["region"] = {"byteOffset": verdict.place}
    names = [name for name in (verdict.entry, verdict.member or verdict.class_) if name]
    logical = {"logicalLocations": [{"fullyQualifiedName": escaped("!".join(names))}]} if names else {}
    return {"physicalLocation": place, **logical}
