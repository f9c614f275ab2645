"""What a helper is given: a .dex file or a listing, or the .dex files of an archive."""
from __future__ import annotations

import os
import stat
from collections.abc import Iterator
from typing import NamedTuple

from dexasm.cli.errors import USAGE, CliError
from dexasm.cli.filetypes import ARCHIVES_BEGIN, DEX, is_dex_name
from dexasm.cli.io import display_name, read_file
from dexasm.cli.sanitize import escaped

Path = str | bytes | None


class Input(NamedTuple):
    """One of them: its name in messages, the entry of an archive that it is or "", and its bytes."""

    name: str
    entry: str
    data: bytes


def read_inputs(path: Path, is_one: bool = False, is_empty_allowed: bool = False) -> Iterator[Input]:
    """The file of a path, or each classes*.dex of the archive that it is; of APP.apk!classes2.dex that entry alone. With
    is_one an archive of several is refused, since one of them has to be named.
    """
    archive, entry = split_entry(path)
    if archive is None:
        yield Input(display_name(path), "", read_file(path))
        return
    from dexasm.cli.zip_read import dex_entries, entries_by_name, open_archive, read_entry

    with open_archive(archive) as zipped:
        found = dex_entries(zipped) if entry is None else entries_by_name(zipped, lambda name: name == entry)
        name = escaped(archive)
        if not found and not is_empty_allowed:
            others = entries_by_name(zipped, is_dex_name) if entry is None else []
            hint = f", but others: name one, as {name}!{escaped(others[0][0])}" if others else ""
            raise CliError(f"{name}: no {'classes*.dex' if entry is None else escaped(entry)} in it{hint}")
        if is_one and len(found) > 1:
            raise CliError(f"{name}: it has {len(found)} .dex files: name one, as {name}!{found[0][0]}", USAGE)
        for one, entries in found:
            shown = f"{name}!{escaped(one)}"
            try:
                data = read_entry(zipped, entries)
            except CliError as failed:
                raise CliError(f"{shown}: {failed.line}") from None
            yield Input(shown, one, data)


def read_input(path: Path) -> Input:
    """The file of a path, or the one .dex file of an archive."""
    return next(read_inputs(path, is_one=True))


def split_entry(path: Path) -> tuple[str | None, str | None]:
    """The archive of a path, and the entry that the path names in it; None of each that there isn't."""
    if path is None:
        return None, None
    name = os.fsdecode(path)
    if is_archive(name):
        return name, None
    archive, _, entry = name.rpartition("!")
    if not os.path.lexists(name) and is_archive(archive):
        return archive, entry
    return None, None


def is_archive(path: str) -> bool:
    """Whether a file begins as an archive does. What can't be read is told by who reads it."""
    try:
        if not stat.S_ISREG(os.stat(path).st_mode):
            return False
        with open(path, "rb") as file:
            return file.read(len(DEX)) in ARCHIVES_BEGIN
    except (OSError, ValueError):
        return False
