"""The templates of pages, by jinja2. What isn't markup of theirs is escaped where it stands (autoescape); what names of
somebody else's making need besides, for what isn't seen and what runs from right to left, are filters (markup.py).
"""
from __future__ import annotations

import functools
import os
from collections.abc import Callable, Iterable
from typing import Any

from dexasm.cli.errors import CliError


try:
    from jinja2 import Environment, FileSystemLoader, StrictUndefined
    from markupsafe import Markup as Markup, escape
except ImportError:
    raise CliError("pages need jinja2 (Debian: python3-jinja2; pip: dexasm[pages])") from None

HERE = os.path.dirname(os.path.abspath(__file__))


@functools.cache
def environment() -> Environment:
    from dexasm.pages import markup

    templates = Environment(
        loader=FileSystemLoader(os.path.join(HERE, "templates")),
        autoescape=True,
        undefined=StrictUndefined,
        trim_blocks=True,
        lstrip_blocks=True,
        keep_trailing_newline=False,
    )
    templates.filters.update(name=markup.text, plain=markup.plain, number=markup.number, drawn=markup.drawn_text)
    templates.filters.update(tenth="{:.1f}".format, signed=markup.signed)
    return templates


@functools.cache
def part(name: str) -> Callable[..., Markup]:
    """A macro of parts.html."""
    found: Any = getattr(environment().get_template("parts.html").module, name)
    return found  # type: ignore[no-any-return]


def page(name: str, **values: object) -> Markup:
    """A whole page, or what stands on one, by its template."""
    return Markup(environment().get_template(f"{name}.html").render(values))


def joined(between: str, parts: Iterable[Markup | str]) -> Markup:
    """Parts with something between them, which has nothing to be escaped; of the parts what is no markup is escaped.
    (As Markup.join, which makes each part anew.)
    """
    return Markup(between.join([one if type(one) is Markup else escape(one) for one in parts]))


def read(name: str) -> Markup:
    """A file that stands beside: a style, a script or a picture."""
    with open(os.path.join(HERE, name), encoding="ascii") as file:
        return Markup(file.read())
