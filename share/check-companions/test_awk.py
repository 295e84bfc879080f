"""The scripts that use awk, under each awk that is installed."""

import filecmp
import os
import shutil
import subprocess
import tempfile
import unittest
from pathlib import Path

BIN = Path(__file__).resolve().parent.parent.parent / "bin"
SOURCE = BIN.parent / "examples" / "programs" / "squares" / "source.txt"


def awks():
    """How each awk that is here is called, by its name."""
    busybox = shutil.which("busybox")
    found = {name: f'exec {path} "$@"' for name in ("mawk", "gawk", "original-awk") if (path := shutil.which(name))}
    return {**found, **({"busybox": f'exec {busybox} awk "$@"'} if busybox else {})}


@unittest.skipIf(not awks(), "no mawk, gawk, original-awk or busybox is installed")
class EachAwk(unittest.TestCase):
    def run_under(self, call, *words):
        """What a script prints under an awk that is called so."""
        with tempfile.TemporaryDirectory() as folder:
            awk = Path(folder) / "awk"
            awk.write_text(f"#!/bin/sh\n{call}\n")
            awk.chmod(0o755)
            environment = {**os.environ, "PATH": f"{folder}:{os.environ['PATH']}"}
            return subprocess.run(words, env=environment, stdin=subprocess.DEVNULL, capture_output=True, text=True, timeout=120, check=True).stdout

    def test_an_installation_has_the_same_files(self):
        with tempfile.TemporaryDirectory() as folder:
            trees = {}
            for name, call in awks().items():
                trees[name] = Path(folder) / name
                self.run_under(call, BIN / "install", trees[name])
            first, *others = trees.values()
            files = sorted(str(path.relative_to(first)) for path in first.rglob("*") if path.is_file())
            for tree in others:
                self.assertEqual(filecmp.cmpfiles(first, tree, files, shallow=False)[1:], ([], []), tree.name)

    def test_the_exhibit_types_the_same(self):
        typed = {self.run_under(call, BIN / "exhibit", SOURCE, "--pace", "900", "--times", "1") for call in awks().values()}
        self.assertEqual(len(typed), 1)
