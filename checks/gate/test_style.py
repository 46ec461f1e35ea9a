"""flake8 prints nothing by the configuration in .flake8. Either Python here may have it."""
import pathlib
import unittest
from typing import List

from common import DONE, TOP, Case, run
from test_types import python_with


def scripts_in(folder: pathlib.Path) -> List[pathlib.Path]:
    """Returns the scripts of Python without an ending of a name, which flake8 does not find by itself."""
    found = [path for path in sorted(folder.rglob("*")) if path.is_file() and not path.suffix]
    return [path for path in found if b"python3" in path.read_bytes().partition(b"\n")[0]]


class Style(Case):
    def test_all(self) -> None:
        python = python_with("flake8")
        if not python:
            self.skipTest("there is no flake8")
        folders = ("contrib", "checks", "bench")
        scripts = [path.relative_to(TOP) for folder in folders for path in scripts_in(TOP / folder)]
        self.assertGreater(len(scripts), 20)
        ran = run(python, "-m", "flake8", *folders, "setup.py", *scripts, folder=TOP, limit=500)
        self.assertEqual(ran.status, DONE, ran.out.decode())


if __name__ == "__main__":
    unittest.main()
