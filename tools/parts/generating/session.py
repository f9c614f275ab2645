"""A recording of README's session, docs/session.svg: its lines appear one after the other. The session is run by
tests/program/test_program.py, so what the picture shows is what happens."""
import html
import re

from .making import Made, Missing
from .pictures import MONO
from .tree import read

PICTURE, PAGE = "docs/session.svg", "README.md"
SESSION = re.compile(r"^## A session\n[^`]*^```console\n(.*?)^```$", re.M | re.S)
BACK, PROMPT, TYPED, PRINTED = "#1f2328", "#7ee787", "#f0f3f6", "#9ea7b3"
LINE, SIZE, LEFT = 18, 13, 14  # pixels
PAUSE, LISTED = 1.2, 0.15  # seconds before a command, before each other line
HEAD = """<!-- Written by tools/generate. -->
<svg xmlns="http://www.w3.org/2000/svg" width="{width}" height="{height}" viewBox="0 0 {width} {height}" role="img">
<title>{title}</title>
<style>
text {{ font: {size}px {font}; white-space: pre }}
@media (prefers-reduced-motion: no-preference) {{
  text {{ animation: 0.1s backwards appear }}
  @keyframes appear {{ from {{ opacity: 0 }} }}
}}
</style>
<rect width="{width}" height="{height}" rx="6" fill="{back}"/>
"""


def session() -> list[str]:
    found = SESSION.search(read(PAGE))
    if found is None:
        raise Missing(f"{PAGE} has no session")
    return found[1].splitlines()


def recording(lines: list[str]) -> str:
    """Each line as a text that appears at its time; without animation all are there."""
    width = 2 * LEFT + max(map(len, lines)) * SIZE * 5 // 8
    parts = [HEAD.format(width=width, height=LINE * (len(lines) + 1), title="A session: assemble, check, list, edit",
                         size=SIZE, font=MONO, back=BACK)]
    seconds, is_typed = 0.0, False
    for number, line in enumerate(lines, 1):
        is_command = line.startswith("$ ")
        is_typed = line.startswith("$ cat >") or (is_typed and not is_command)
        seconds += PAUSE if is_command else LISTED
        shown = html.escape(line.removeprefix("$ "), quote=False)
        if is_command:
            shown = f'<tspan fill="{PROMPT}">$ </tspan>{shown}'
        color = TYPED if is_command or is_typed else PRINTED
        parts.append(f'<text x="{LEFT}" y="{LINE * number + 4}" fill="{color}" style="animation-delay: {seconds:.2f}s">'
                     f"{shown}</text>\n")
    return "".join(parts) + "</svg>\n"


def made() -> Made:
    return Made({PICTURE: recording(session())}, [])
