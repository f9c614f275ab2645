"""dexasm-lint --code beside ART's own test of its verifier of methods, test/800-smali (ART 14; 81 cases).

Each row of CASES, which are in cases/lint_art.txt, has the name that src/Main.java gives a case, what it expects there
to be thrown, and what lint tells ("" for nothing); then a method of a class LT; and its code, written anew for what the
case is to show, in the form of test_lint_code's rows, or a whole class, a line between two slashes. A case that expects a VerifyError is told of, and
one that expects anything else isn't, but for those of RUNTIME: docs/VERIFIERS.md says why. Classes do/not/.. are none of
the file's and none of a device's.
"""
from __future__ import annotations

import re

from tests.matchers import EMPTY, Has
from ..cases import cases
from .support import HEAD, TOP, HelperTest, get, room
from .test_lint_code import WORLD, class_of, lint

VERIFY, NULL = "VerifyError", "NullPointerException"
# Those of which lint tells something though ART lets the class be: an error comes where the instruction runs.
RUNTIME = {"b/21869691": "call-kind"}
MORE = """class LN; 0x1
super Ljava/lang/Object;
virtual a ()V 0x401
end class
class LA; 0x401
super Ljava/lang/Object;
virtual a (I)I 0x401
end class
"""
CASES = cases("lint_art")["cases"]


def listing() -> str:
    """A class for each case."""
    made = [HEAD.decode(), WORLD, MORE]
    for number, (_, _, _, head, code) in enumerate(CASES):
        if head == "class":
            made.append(code.replace("LT;", f"LT{number};").replace(" / ", "\n") + "\n")
        else:
            made.append(class_of(number, head, code, 0))
    return "".join(made)


class LintArt(HelperTest):
    def test_cases(self) -> None:
        """What ART's test expects to end in a VerifyError is told of, by the rule that it is for, and nothing else."""
        _, told, said = lint(listing(), at=room("lint art"))
        found: dict[str, set[str]] = {}
        for one in told:
            found.setdefault(one["class"], set()).add(one["rule"])
        self.check_equal("--code, ART's cases", (len(CASES), said), (81, ""))
        for number, (name, expected, rule, *_) in enumerate(CASES):
            is_told = expected == VERIFY or name in RUNTIME
            self.check_equal(f"the case {name} expects what it is to be told", bool(rule), is_told)
            self.check_equal(f"--code, ART's case {name}", found.get(f"LT{number};", set()), {rule} - {""})

    def test_page(self) -> None:
        """docs/VERIFIERS.md has each case that doesn't agree, and how many there are of both."""
        page = re.sub(r"\s+", " ", get(TOP, "docs/VERIFIERS.md").decode())
        wrong = [name for name in RUNTIME if f"`{name}`" not in page]
        self.check_equal("VERIFIERS has the cases that don't agree", wrong, EMPTY)
        refused = sum(expected == VERIFY for _, expected, *_ in CASES)
        said = f"of its {len(CASES)} cases {refused} end in a VerifyError"
        self.check_equal("VERIFIERS says how many cases ART's test has", page, Has(said))
