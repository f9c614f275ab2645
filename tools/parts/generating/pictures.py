"""The pictures of the documents, as SVG: the layers of the crates, and how a written file is laid out."""
import html
import re
import textwrap
from dataclasses import dataclass, field

from .making import Missing
from .tree import closed, read, stands_on

FORMAT = "docs/FORMAT.md"
SANS, MONO = "DejaVu Sans, Verdana, sans-serif", "DejaVu Sans Mono, Menlo, Consolas, monospace"
TEXT, GREY, LINE, ACCENT = "#1f2328", "#57606a", "#8c959f", "#0b62a8"
HEADS = {ACCENT: "offset", LINE: "index"}  # of arrows, by their colour
FILLS = {"plain": "#f6f8fa", "lane": "#eef4fb"}
FILLS |= {"header": "#fff8e5", "table": "#eaf5ea", "data": "#eef4fb", "map": "#f6eefb"}


@dataclass
class Box:
    """A layer's place: its left end, its top, its width and height, and the lines of names in it."""

    x: int
    y: int = 0
    width: int = 0
    height: int = 0
    lines: list[str] = field(default_factory=list)


def text(x: int, y: int, words: str, size: int = 13, **options: str) -> str:
    """A line of text; options are attributes, with - for _."""
    more = "".join(f' {name.replace("_", "-")}="{value}"' for name, value in options.items())
    family = "" if "font_family" in options else f' font-family="{SANS}"'
    color = "" if "fill" in options else f' fill="{TEXT}"'
    return f'<text x="{x}" y="{y}" font-size="{size}"{family}{color}{more}>{html.escape(words, quote=False)}</text>\n'


def rectangle(x: int, y: int, width: int, height: int, fill: str) -> str:
    return f'<rect x="{x}" y="{y}" width="{width}" height="{height}" rx="4" fill="{FILLS[fill]}" stroke="{LINE}"/>\n'


def arrow(way: str, color: str) -> str:
    return f'<path d="{way}" stroke="{color}" fill="none" marker-end="url(#{HEADS[color]})"/>\n'


def picture(width: int, height: int, title: str, parts: list[str]) -> str:
    """A whole SVG, on white, so that it can be read on a dark page too."""
    head = (
        f'<svg xmlns="http://www.w3.org/2000/svg" width="{width}" height="{height}" viewBox="0 0 {width} {height}"'
        f' role="img">\n<title>{html.escape(title, quote=False)}</title>\n'
        f'<rect width="{width}" height="{height}" fill="#ffffff"/>\n'
    )
    for color, name in HEADS.items():
        head += f'<marker id="{name}" viewBox="0 0 8 8" refX="7" refY="4" markerWidth="7" markerHeight="7"'
        head += ' orient="auto">'
        head += f'<path d="M0 0L8 4L0 8z" fill="{color}"/></marker>\n'
    return "<!-- Written by tools/generate. -->\n" + head + "".join(parts) + "</svg>\n"


# The layers of the crates.

WIDTH, LEFT, LANE, GAP, PAD = 900, 580, 250, 34, 10  # of the picture, its tower, its right lane, and between boxes


def edges_of(layers: dict[str, list[str]]) -> dict[str, list[str]]:
    """Which layers each layer stands on."""
    layer_of = {name: layer for layer, names in layers.items() for name in names}
    found: dict[str, list[str]] = {layer: [] for layer in layers}
    for name, others in stands_on().items():
        for other in others:
            here, there = layer_of.get(name), layer_of.get(other)
            if here and there and here != there and there not in found[here]:
                found[here].append(there)
    for layer in layers:
        if layer in closed(found, layer):
            raise Missing(f"the layer {layer} of docs/MAP.md stands on itself, by {', '.join(found[layer])}")
    return found


def direct(edges: dict[str, list[str]]) -> dict[str, list[str]]:
    """The edges that no way through other layers stands for."""
    below = {layer: closed(edges, layer) for layer in edges}
    return {here: [to for to in there if not any(to in below[by] for by in there)] for here, there in edges.items()}


def levels_of(edges: dict[str, list[str]]) -> dict[str, int]:
    """How many layers lie below each at most, one below the other."""
    found: dict[str, int] = {}
    while len(found) < len(edges):
        for layer, below in edges.items():
            if layer not in found and all(other in found for other in below):
                found[layer] = 1 + max((found[other] for other in below), default=-1)
    return found


def lay_out(layers: dict[str, list[str]], edges: dict[str, list[str]]) -> tuple[dict[str, Box], int]:
    """A box for each layer, the lowest at the bottom, and the height of all. What is used from further above than the
    next level goes into the right lane, as high as the levels that it passes; the others share the width of their
    level, which is that of the picture where the lane is empty."""
    level, boxes = levels_of(edges), {}
    top = {layer: min((level[by] for by in edges if layer in edges[by]), default=level[layer] + 1) for layer in layers}
    lane = [layer for layer in layers if top[layer] > level[layer] + 1]
    y = 40
    for at in range(max(level.values()), -1, -1):
        here = [layer for layer in layers if level[layer] == at and layer not in lane]
        is_lane_used = any(level[layer] <= at < top[layer] for layer in lane)
        whole = LEFT if is_lane_used else WIDTH - 2 * PAD
        width = (whole - PAD * (len(here) - 1)) // len(here)
        for number, layer in enumerate(here):
            names = textwrap.wrap(" ".join(layers[layer]), (width - 2 * PAD) // 8, break_on_hyphens=False)
            boxes[layer] = Box(PAD + number * (width + PAD), y, width, 0, names)
        height = 32 + 17 * max(len(boxes[layer].lines) for layer in here)
        for layer in here:
            boxes[layer].height = height
        for layer in lane:
            if level[layer] <= at < top[layer]:
                box = boxes.setdefault(layer, Box(WIDTH - PAD - LANE, y, LANE, 0, layers[layer]))
                box.height = y + height - box.y
        y += height + GAP
    return boxes, y - GAP + PAD


def arrow_between(upper: Box, lower: Box) -> str:
    """From the bottom of a box to the top of one below it, straight down where they lie above one another."""
    left, right = max(upper.x, lower.x), min(upper.x + upper.width, lower.x + lower.width)
    if left < right:
        begin = end = (left + right) // 2
    elif upper.x < lower.x:
        begin, end = upper.x + upper.width - 30, lower.x + 30
    else:
        begin, end = upper.x + 30, lower.x + lower.width - 30
    return arrow(f"M{begin} {upper.y + upper.height}L{end} {lower.y - 2}", ACCENT)


def layers_picture(layers: dict[str, list[str]]) -> str:
    """The layers of the crates, each on those that its arrows lead to."""
    edges = direct(edges_of(layers))
    boxes, height = lay_out(layers, edges)
    out = [text(PAD, 24, "Each layer of crates stands on those that its arrows lead to, and on what lies below them")]
    for layer, box in boxes.items():
        out.append(rectangle(box.x, box.y, box.width, box.height, "lane" if box.width == LANE else "plain"))
        out.append(text(box.x + PAD, box.y + 19, layer, 14, font_weight="bold"))
        for number, line in enumerate(box.lines):
            out.append(text(box.x + PAD, box.y + 37 + 17 * number, line, font_family=MONO))
    out += [arrow_between(boxes[here], boxes[there]) for here in edges for there in edges[here]]
    return picture(WIDTH, height, "The layers of the crates", out)


# The written file.

# Which part refers to which, by the words of FORMAT that say so.
REFERS = (
    ("string_ids", "texts", "| string_data_off | the offset of a string_data_item |"),
    ("proto_ids", "type lists", "| parameters_off | the offset of a type_list, or 0 for no parameters |"),
    ("class_defs", "type lists", "| interfaces_off | the offset of a type_list"),
    ("class_defs", "class data", "| class_data_off | the offset of a class_data_item"),
    ("class_defs", "static values", "| static_values_off | the offset of an encoded_array_item"),
    ("class data", "code items", "code_off: the offset of a code_item"),
    ("header", "the map", "| map_off | the offset of the map |"),
)
OF_FIELDS, OF_METHODS = (
    f"| {table}_ids | 0 | u2 | class_idx | the index of a type | | | 2 | u2 | {second}"
    " | | | 4 | u4 | name_idx | the index of a string |"
    for table, second in (("field", "type_idx | the index of a type"), ("method", "proto_idx | the index of a prototype"))
)
INDEXES = (
    ("type_ids", "string_ids", "| descriptor_idx | the index of a string"),
    ("proto_ids", "string_ids", "| shorty_idx | the index of a string |"),
    ("proto_ids", "type_ids", "| return_type_idx | the index of a type |"),
    ("field_ids", "type_ids", OF_FIELDS),
    ("field_ids", "string_ids", OF_FIELDS),
    ("method_ids", "type_ids", OF_METHODS),
    ("method_ids", "proto_ids", OF_METHODS),
    ("method_ids", "string_ids", OF_METHODS),
    ("class_defs", "type_ids", "| class_idx | the index of a class type |"),
    ("class_defs", "string_ids", "| source_file_idx | the index of a string"),
)
INDEXES_TOO = "type lists, code, values and class", "data have indices of rows, too"
SAID_OF_INDEXES = (
    "entry k: the index of a type",
    "An index must be that of a row of its table",
    "an index of its table, unsigned",
    "field_idx_diff, access_flags",
)
ALIGNED = {
    "type lists": "A **type_list** must be aligned",
    "code items": "A **code_item** must be aligned",
    "the map": "The map_list is at map_off. It must be aligned",
}
ROW = 34


def found_in(page: str, words: str) -> str:
    """The words, which the page has to have, in whatever lines."""
    if " ".join(words.split()) not in " ".join(page.split()):
        raise Missing(f"{FORMAT} doesn't say any more: {' '.join(words.split())}")
    return words


def parts_of_file() -> list[tuple[str, str, str]]:
    """Each part of a written file in its order, as FORMAT has it: its kind, its name, and what is said of it."""
    page = read(FORMAT)
    said = re.search(r"^Header; (string_ids, [^;]*); (type lists .*?), the map\.", page, re.M | re.S)
    sizes = re.findall(r"^\| \d+ \| u4, u4 \| (\w+)_size, \w+_off \| rows of (\d+) bytes", page, re.M)
    size = re.search(r"^## Header \((\d+) bytes\)$", page, re.M)
    if not (said and sizes and size):
        raise Missing(f"{FORMAT} doesn't say the parts of a written file, or the sizes of rows, as this reads them")
    tables, rows = said[1].split(", "), [row for _, row in sizes]
    if [table for table, _ in sizes] != tables:
        raise Missing(f"{FORMAT} names the tables in two orders")
    parts = [("header", "header", f"{size[1]} bytes")]
    parts += [("table", name, f"rows of {row} bytes") for name, row in zip(tables, rows)]
    for part in re.split(r", (?![^(]*\))", " ".join(said[2].split())) + ["the map"]:
        name, _, more = part.partition(" (")
        aligned = "4-aligned" if name in ALIGNED and found_in(page, ALIGNED[name]) else ""
        said_of_it = "; ".join(filter(None, (more.rstrip(")"), aligned)))
        parts.append(("map" if name == "the map" else "data", name, said_of_it))
    return parts


def arrows(page: str, places: dict[str, int], edges: tuple[tuple[str, str, str], ...], x: int, side: int, color: str) -> str:
    """The arrows of one side of the file, those of one part below one another, the longer the further out."""
    out, leaving, coming = [], dict.fromkeys(places, 0), dict.fromkeys(places, 0)
    for here, there, words in edges:
        found_in(page, words)
        begin, end = places[here] - 8 + 5 * leaving[here], places[there] + 2 + 4 * coming[there]
        leaving[here] += 1
        coming[there] += 1
        out_to = x + side * (30 + abs(end - begin) // 3)
        out.append(arrow(f"M{x} {begin}C{out_to} {begin} {out_to} {end} {x} {end}", color))
    return "".join(out)


def layout_picture() -> str:
    """How a written file is laid out, and which part refers to which."""
    page, parts, left, width = read(FORMAT), parts_of_file(), 230, 560
    top, out = 64, list[str]()
    places: dict[str, int] = {}
    for kind, name, more in parts:
        y = top + ROW * len(places)
        out.append(rectangle(left, y, width, ROW, kind))
        out.append(text(left + 12, y + 22, name, 14, font_weight="bold"))
        out.append(text(left + width - 12, y + 22, more, 12, fill=GREY, text_anchor="end"))
        places[name] = y + ROW // 2
    first = next(places[name] for kind, name, _ in parts if kind == "data") - ROW // 2
    end = top + ROW * len(parts)
    out += [arrows(page, places, INDEXES, left, -1, LINE), arrows(page, places, REFERS, left + width, 1, ACCENT)]
    out.append(text(10, 24, "A written file, from its first byte to its last", 15, font_weight="bold"))
    out.append(text(left - 12, 56, "indices of rows", 12, fill=GREY, text_anchor="end"))
    out.append(text(left + width + 12, 56, "offsets in the file", 12, fill=GREY))
    said = ["the data section,", "to the end of the file", ""]
    said += INDEXES_TOO if all(found_in(page, it) for it in SAID_OF_INDEXES) else ()
    out += [text(10, first + 18 + 16 * number, line, 12, fill=GREY) for number, line in enumerate(said)]
    out.append(f'<path d="M{left - 8} {first + 2}h-8V{end - 2}h8" stroke="{LINE}" fill="none"/>\n')
    return picture(940, end + 14, "The layout of a written file", out)
