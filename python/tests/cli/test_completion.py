"""The completions of shells: the words of each helper, and names of files that stay names."""
import os
from collections.abc import Sequence

from tests.matchers import Lacks
from .support import NAMES, TOP, HelperTest, put, room, run, shell

COMPLETION = f"{TOP}/contrib/completion"
BASH = """. {file}
COMP_WORDS=({words}) COMP_CWORD={at}
{function}
printf '%s\\0' "${{COMPREPLY[@]}}"
"""


def completed(at: str, words: Sequence[str], function: str = "_dexasm_helper") -> list[str] | tuple[int | str, str]:
    """What bash offers for the last one of these words, as a shell has them."""
    file = f"'{COMPLETION}/dexasm.bash'"
    text = BASH.format(file=file, words=" ".join(words), at=len(words) - 1, function=function)
    status, out, said = shell(text, at)
    return sorted(out.split("\0")[:-1]) if (status, said) == (0, "") else (status, said)


class Completion(HelperTest):
    def test_bash(self) -> None:
        at = room("completion")
        for words, want in (
            (("dexasm-apk", "''"), ["check", "extract", "list", "replace", "strip"]),
            (("dexasm-query", "c"), ["calls", "classes"]),
            (("dexasm-info", "--h"), ["--help", "--hex"]),
            (("dexasm-diff", "--color", "a"), ["always", "auto"]),
            (("dexasm-size", "--by", "''"), ["class", "method", "package", "string"]),
            (("dexasm-merge", "--"), ["--fit", "--help", "--output", "--quiet", "--replace", "--same", "--version"]),
            (("dexasm-size", "--s"), ["--sort"]),
            (("dexasm-split", "--"), ["--help", "--join", "--quiet", "--version"]),
            (("dexasm-browse", "--graphs", "''"), ["all"]),
            (("dexasm-graph", "--format", "s"), ["svg"]),
            (("dexasm-explain", "--j"), ["--json"]),
            (("/a/b/dexasm-apk", "s"), ["strip"]),
        ):
            self.check_equal(f"bash completes {words!r}", completed(at, words), want)
        self.check_equal("bash completes dexasm", completed(at, ("dexasm", "str"), "_dexasm"), ["strip"])
        # (bash reads what it is offered by lines)
        names = [name for name in NAMES if "\n" not in name]
        for name in names:
            put(at, name, b"")
        found = completed(at, ("dexasm-diff", "a.dex", "''"))
        self.check_equal("bash completes files", found, sorted(os.fsencode(name).decode("latin1") for name in names))
        for word in ("'$(touch PWNED)'", "'`touch PWNED`'", "'a|;e touch'", "'$(touch'", "'*'"):
            completed(at, ("dexasm-diff", "a.dex", word))
            completed(at, ("dexasm", "list", word), "_dexasm")
        self.check_equal("bash runs no name", os.listdir(at), Lacks("PWNED"))

    def test_zsh(self) -> None:
        self.need("zsh", "its completions aren't read")
        seen = run(["zsh", "-n", f"{COMPLETION}/_dexasm"])
        self.check_equal("zsh reads its completions", seen, (0, "", ""))

    def test_fish(self) -> None:
        self.need("fish", "its completions aren't tried")
        text = f"source '{COMPLETION}/dexasm.fish'; complete -C 'dexasm-diff --color a'; complete -C 'dexasm-query c'"
        seen = run(["fish", "--no-config", "-c", text], at=room("completion fish"))
        self.check_equal("fish completes", (seen[0], {"always", "auto", "calls", "classes"} <= set(seen[1].split())),
                         (0, True))
