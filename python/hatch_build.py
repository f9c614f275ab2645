"""What hatchling can't be told by pyproject.toml of the wheel: the library, the command and the manual pages are in the
repository around this folder; its tag is the platform's; and README is as `described` has it.

Library and command are the files that the variables DEXASM_LIBRARY and DEXASM_COMMAND name, or those that tools/build
has made. The command is a script of the wheel, as it is: pip puts it into the environment's bin. A file PROVED-BY beside
the library, which tools/package writes, goes along: helpers know by it which build they have.
"""
from __future__ import annotations

import glob
import os
import runpy
from typing import Any

from hatchling.builders.hooks.plugin.interface import BuildHookInterface
from hatchling.metadata.plugin.interface import MetadataHookInterface

TOP = os.path.dirname(os.path.dirname(os.path.abspath(__file__)))
# What pip checks: a Linux with glibc 2.34 or later, where the command starts (the library needs 2.17).
TAG = "py3-none-manylinux_2_34_x86_64"


def built(crate: str, name: str, variable: str) -> str:
    """The path of what tools/build made, or of what the variable names."""
    path = os.environ.get(variable) or os.path.join(TOP, "crates", crate, "out", "built", name)
    if not os.path.exists(path):
        raise SystemExit(f"{name} isn't at {path}: `tools/build library` makes it, or {variable} names its file")
    return os.path.abspath(path)


class Wheel(BuildHookInterface[Any]):
    """Puts into the wheel what stands outside this folder."""

    def initialize(self, version: str, build_data: dict[str, Any]) -> None:
        if self.target_name != "wheel":
            raise SystemExit("there is no source distribution: the library is built in the repository, by `tools/build library`")
        build_data["pure_python"], build_data["tag"] = False, TAG
        if version == "editable":  # (which finds these in the repository)
            return
        named = f"dexasm-{self.metadata.version}"
        share = f"{named}.data/data/share"
        library = built("dexasm_c", "libdexasm.so", "DEXASM_LIBRARY")
        command = built("dexasm", "dexasm", "DEXASM_COMMAND")
        files = {library: "dexasm/libdexasm.so", command: f"{named}.data/scripts/dexasm"}
        files[f"{TOP}/LICENSE"] = f"{named}.dist-info/LICENSE"
        proved_by = os.path.join(os.path.dirname(library), "PROVED-BY")
        if os.path.exists(proved_by):
            files[proved_by] = f"{share}/doc/dexasm/PROVED-BY"
        for path in sorted(glob.glob(f"{TOP}/docs/man/*.[15]")):
            files[path] = f"{share}/man/man{path[-1]}/{os.path.basename(path)}"
        build_data["force_include"].update(files)


class Readme(MetadataHookInterface):
    """README as it is in the wheel."""

    def update(self, metadata: dict[str, Any]) -> None:
        described = runpy.run_path(os.path.join(self.root, "described.py"))["described"]
        with open(os.path.join(self.root, "README.md"), encoding="utf8") as file:
            metadata["readme"] = {"content-type": "text/markdown", "text": described(file.read())}
