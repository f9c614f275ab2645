"""The messages of commits: a subject of at most 72 characters, one blank line, and a body that says why."""
import subprocess

from . import Seen

LONGEST = 72


def wrong_with(message: str) -> list[str]:
    """What is wrong with a commit's message."""
    lines = message.rstrip("\n").split("\n")
    wrong = []
    if len(lines[0]) > LONGEST:
        wrong.append(f"its subject has {len(lines[0])} characters, more than {LONGEST}")
    if len(lines) > 1 and lines[1]:
        wrong.append("its second line isn't blank")
    if len(lines) < 3 or not any(lines[2:]):
        wrong.append("it has no body")
    elif not lines[2]:
        wrong.append("two blank lines or more stand below its subject")
    return wrong


def look(base: str) -> Seen:
    """Of the commits after BASE, merges apart."""
    words = ["git", "log", "--no-merges", "--format=%h%x00%B%x01", "--end-of-options", f"{base}..HEAD", "--"]
    done = subprocess.run(words, capture_output=True, text=True)
    if done.returncode:
        return Seen([f"no commit is found from {base}: {done.stderr.strip()}"])
    found = [each.lstrip("\n").split("\0", 1) for each in done.stdout.split("\1") if each.strip()]
    wrong = [f"{commit}: {line}" for commit, message in found for line in wrong_with(message)]
    return Seen(wrong, f"{len(found)} commits")
