"""How packages are made: whatever the umask is, and what PROVED-BY claims of a program that is named."""
import os
import subprocess
import sys
import unittest
from unittest import mock

sys.dont_write_bytecode = True  # the repository has no files of its own making

from parts.packing import packages
from parts.packing.packing import Held, pack_deb
from tests.base import TestCase, get

HELD: Held = {"bin/dexasm": (b"a program", 0o755), "share/doc/dexasm/copyright": (b"a licence", 0o644),
              "lib/libdexasm.so": ("libdexasm.so.0", 0o777)}


class Packing(TestCase):
    def test_umask(self) -> None:
        """The same .deb under each umask, and each folder in it can be entered."""
        self.need("dpkg-deb", "no .deb is made")
        folder, made = self.new_folder(), set()
        for umask in (0o022, 0o077, 0o027, 0o000):
            before = os.umask(umask)
            try:
                pack_deb(HELD, f"{folder}/{umask}.deb", "1.0", 0)
            finally:
                os.umask(before)
            made.add(get(f"{folder}/{umask}.deb"))
        self.assertEqual(len(made), 1)
        lines = subprocess.run(["dpkg-deb", "-c", f"{folder}/{0o077}.deb"], stdout=subprocess.PIPE, text=True).stdout
        folders = [line.split()[0] for line in lines.splitlines() if line.startswith("d")]
        self.assertEqual({*folders}, {"drwxr-xr-x"})

    def test_removal(self) -> None:
        """The .deb takes away what Python compiled, before its files are removed."""
        self.need("dpkg-deb", "no .deb is made")
        folder = self.new_folder()
        pack_deb(HELD, f"{folder}/a.deb", "1.0", 0)
        subprocess.run(["dpkg-deb", "-e", f"{folder}/a.deb", f"{folder}/control"], check=True)
        put_at = f"{folder}/bin/py3clean"
        os.mkdir(f"{folder}/bin")
        with open(put_at, "w", encoding="ascii") as file:
            file.write(f'#!/bin/sh\necho "$@" > {folder}/words\n')
        os.chmod(put_at, 0o755)
        env = {**os.environ, "PATH": f"{folder}/bin:{os.environ['PATH']}"}
        subprocess.run([f"{folder}/control/prerm", "remove"], env=env, check=True)
        self.assertEqual(get(f"{folder}/words"), b"-p dexasm\n")
        subprocess.run([f"{folder}/control/prerm", "remove"], env={**os.environ, "PATH": "/nowhere"}, check=True)

    def test_given(self) -> None:
        """A program named by --of is not called proved, also where tools/build puts its own."""
        own = packages.PROGRAM, packages.LIBRARY
        for given, is_given in ((("program", "library"), True), (own, True), (None, False)):
            with (
                self.subTest(given),
                mock.patch.object(packages, "built", lambda: (packages.PROGRAM, packages.LIBRARY)),
                mock.patch.object(packages, "pack", return_value="") as pack,
                mock.patch.object(subprocess, "run", return_value=mock.Mock(returncode=0)),
            ):
                packages.packed(given, self.new_folder())
                self.assertEqual(pack.call_args.kwargs, {"is_given": is_given})


if __name__ == "__main__":
    unittest.main()
