"""Text that isn't a listing as `list` writes it."""
from __future__ import annotations

import functools

TYPE_CHECKING = False  # (as in typing, which takes a while to read)
if TYPE_CHECKING:
    from collections.abc import Callable
    from typing import ParamSpec, TypeVar

    Params = ParamSpec("Params")
    Result = TypeVar("Result")


class NoListing(ValueError):
    """A text is no listing as `list` writes it. (Its parts are read when they are asked for, so this may come late.)"""


def canonical_reader(reads: Callable[Params, Result]) -> Callable[Params, Result]:
    """Has a function that reads such a text raise NoListing of another one."""

    @functools.wraps(reads)
    def read(*args: Params.args, **named: Params.kwargs) -> Result:
        try:
            return reads(*args, **named)
        except (ValueError, LookupError, StopIteration):
            raise NoListing("no listing as list writes it") from None

    return read
