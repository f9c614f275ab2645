"""Values to compare with where a part of a value is wanted: `(3, "", Begins("usage: "))` equals status, output and
errors of a usage error. A comparison that fails shows both sides."""
import re
from typing import Any
from unittest.mock import ANY as ANY  # noqa: F401  # (a matcher of all that there is)


class Like:
    """Equals each value that fits."""

    def __init__(self, *parts: Any) -> None:
        self.parts = parts

    def fits(self, value: Any) -> object:
        raise NotImplementedError

    def __eq__(self, value: object) -> bool:
        return bool(self.fits(value))

    def __and__(self, more: Any) -> "Like":
        return Both(self, more)

    def __or__(self, more: Any) -> "Like":
        return Either(self, more)

    def __repr__(self) -> str:
        return f"{type(self).__name__}({', '.join(map(repr, self.parts))})"


class Both(Like):
    """A value that fits each part."""

    def fits(self, value: Any) -> object:
        return all(value == part for part in self.parts)


class Either(Like):
    """A value that is one of these, or fits it."""

    def fits(self, value: Any) -> object:
        return any(value == part for part in self.parts)


class Has(Like):
    def fits(self, value: Any) -> object:
        return all(part in value for part in self.parts)


class Lacks(Like):
    def fits(self, value: Any) -> object:
        return not any(part in value for part in self.parts)


class Begins(Like):
    def fits(self, value: Any) -> object:
        return value[: len(self.parts[0])] == self.parts[0]


class Ends(Like):
    def fits(self, value: Any) -> object:
        return value.endswith(self.parts[0])


class Matches(Like):
    """A text of this form, from end to end."""

    def fits(self, value: Any) -> object:
        return re.fullmatch(self.parts[0], value, *self.parts[1:])


class Above(Like):
    def fits(self, value: Any) -> object:
        return value > self.parts[0]


class Below(Like):
    def fits(self, value: Any) -> object:
        return value < self.parts[0]


class Other(Like):
    """A value that differs."""

    def fits(self, value: Any) -> object:
        return value != self.parts[0]


class That(Like):
    """A value for which a function is true."""

    def __repr__(self) -> str:
        return str(self.parts[0].__name__)

    def fits(self, value: Any) -> object:
        return bool(self.parts[0](value))


def is_empty(value: Any) -> bool:
    return not value


def is_line(value: Any) -> bool:
    return bool(value.endswith("\n") and value.count("\n") == 1)


SOME, EMPTY, ONE_LINE = That(bool), That(is_empty), That(is_line)
