"""mypy prints nothing: with --strict on the package pgo_tools and on its scripts, with --check-untyped-defs on the checks.

Either Python here may have mypy.
"""
import os
import pathlib
import subprocess
import sys
import unittest
from typing import Optional

from common import CONTRIB, DONE, TOP, Case, run


def python_with(module: str) -> Optional[str]:
    """Returns the first Python that has this module."""
    for python in (sys.executable, "/usr/bin/python3"):
        if os.path.exists(python) and not subprocess.run([python, "-c", f"import {module}"], capture_output=True, check=False).returncode:
            return python
    return None


class Types(Case):
    def passes(self, *words: object, folder: pathlib.Path) -> None:
        python = python_with("mypy")
        if not python:
            self.skipTest("there is no mypy")
        ran = run(python, "-m", "mypy", "--cache-dir", self.folder, *words, folder=folder, limit=500)
        self.assertEqual(ran.status, DONE, ran.out.decode())

    def strict(self, *words: object) -> None:
        self.passes("--strict", *words, folder=CONTRIB)

    def test_package(self) -> None:
        self.strict("-p", "pgo_tools")

    def test_scripts(self) -> None:
        """Each is a module of its own, named as its file."""
        found = [path for path in sorted(CONTRIB.iterdir()) if path.is_file() and b"python3" in path.read_bytes().partition(b"\n")[0]]
        self.assertGreater(len(found), 7)
        self.strict("--scripts-are-modules", *found)

    def test_checks(self) -> None:
        """Where the configuration of pyproject.toml says where modules are."""
        self.passes("--check-untyped-defs", "--exclude", "^checks/by_hand/", "checks", folder=TOP)


if __name__ == "__main__":
    unittest.main()
