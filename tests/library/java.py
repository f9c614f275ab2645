"""The binding for Java, compiled: the jar with the library inside. Where a tool is missing nothing of it is tried."""
import atexit
import functools
import os
import shutil
import tempfile
import unittest
from typing import Any

import jars_of_dexasm
from .. import TOP, config
from ..base import Ended
from .calls import LibraryTest, put, run

JAVA = os.path.join(TOP, "bindings", "java")
QUICK = ("-XX:TieredStopAtLevel=1", "-XX:+UseSerialGC", "-XX:-UsePerfData", "-Xshare:auto")  # for short runs


class Java:
    """The jar with the library inside, compiled in a folder of its own."""

    def __init__(self, program: str, library: str, folder: str) -> None:
        self.program, self.library, self.folder = program, library, folder
        left = {"DEXASM_LIBRARY", "CLASSPATH", "JAVA_TOOL_OPTIONS", "JDK_JAVA_OPTIONS", "_JAVA_OPTIONS"}
        self.env = {name: value for name, value in os.environ.items() if name not in left} | {"LC_ALL": "C.UTF-8"}
        self.jar, self.classes = os.path.join(folder, "dexasm.jar"), os.path.join(folder, "classes")
        os.makedirs(self.classes)

    def compile(self) -> None:
        classes = jars_of_dexasm.compiled()
        with open(f"{self.library}/libdexasm.so", "rb") as file:
            put(self.jar, jars_of_dexasm.jar(jars_of_dexasm.with_library(classes, file.read()), 0))
        os.makedirs(f"{self.folder}/alone/dexasm")
        for place, given in classes.items():
            put(f"{self.folder}/alone/{place}", given)
        tests = [f"{JAVA}/test/{name}.java" for name in ("Tries", "Outs")]
        jars_of_dexasm.javac(self.classes, tests, f"{self.jar}{os.pathsep}{jars_of_dexasm.jna()}")
        script = f'#!/bin/sh\nexec java {" ".join(QUICK)} -jar {self.jar} "$@"\n'
        self.command = put(f"{self.folder}/command", script.encode())
        os.chmod(self.command, 0o755)

    def run(self, *words: str, env: dict[str, str] | None = None, **options: Any) -> Ended:
        return run("java", *words, env=self.env | (env or {}), **options)

    def path(self, *more: str) -> str:
        return os.pathsep.join([self.classes, self.jar, *more])

    def compiled_c(self, name: str, text: str) -> str | None:
        """A library of its own; None where there is no compiler."""
        made = os.path.join(self.folder, name)
        words = ["cc", "-w", "-shared", "-fPIC", "-o", made, put(f"{made}.c", text.encode())]
        return made if shutil.which("cc") and run(*words)[0] == 0 else None


@functools.cache
def made() -> Java:
    """The jar, made once, in a folder that goes in the end."""
    if why_not := jars_of_dexasm.why_not():
        raise unittest.SkipTest(f"Java isn't tried: {why_not}")
    folder = os.path.realpath(tempfile.mkdtemp(prefix="dexasm-test-"))
    atexit.register(shutil.rmtree, folder, ignore_errors=True)
    os.chmod(folder, 0o755)  # (for the cases of another user)
    java = Java(config.program(), config.library(), os.path.join(folder, "java"))
    java.compile()
    os.chmod(java.folder, 0o755)
    return java


class JavaTest(LibraryTest):
    """A test of the binding for Java; `right` is a file that is right."""

    java: Java
    right: str

    @classmethod
    def setUpClass(cls) -> None:
        super().setUpClass()
        cls.java = made()
        cls.right = os.path.join(cls.work, "a-class-with-branches-assembled")
