"""Tables of cases as text: a part begins with [NAME], a case is a line, ` | ` separates its fields."""

Case = tuple[str, ...]


def cases(path: str) -> dict[str, list[Case]]:
    """The cases of a file, by part."""
    found: dict[str, list[Case]] = {}
    with open(path, encoding="utf8") as file:
        lines = [line.rstrip("\n") for line in file]
    for line in lines:
        if line[:1] == "[" and line[-1:] == "]" and " | " not in line:
            part = found.setdefault(line[1:-1], [])
        elif line and line[0] != "#":
            part.append(tuple(line.split(" | ")))
    return found
