"""`pip install .` in a virtual environment: the same commands as `make install`, which run there and find the programs as they do now."""
import os
import shutil
import subprocess
import sys
import unittest
from typing import Any, Optional

from common import DONE, PGO, TOP, TEXT, WORDS, Case, needs, run, takes

NEEDS = "import setuptools, pip, venv, wheel"


def python_with_pip() -> Optional[str]:
    """The first Python that has all that builds the package, without the network."""
    for python in (sys.executable, "/usr/bin/python3"):
        if os.path.exists(python) and not subprocess.run([python, "-c", NEEDS], capture_output=True, check=False).returncode:
            return python
    return None


@takes(15)
class Package(Case):
    def setUp(self) -> None:
        super().setUp()
        python = python_with_pip()
        if not python:
            self.skipTest("there is no Python with pip, setuptools, venv and wheel")
        # pip builds in the folder of the sources.
        sources = self.folder / "sources"
        shutil.copytree(TOP / "contrib", sources / "contrib", ignore=shutil.ignore_patterns("__pycache__", "*.egg-info"))
        for name in ("pyproject.toml", "setup.py", "README.md", "LICENSE", "crates/pgo_cli/src/about.rt", "bench/repair/recorder.c"):
            self.file(f"sources/{name}", (TOP / name).read_bytes())
        self.passes(run(python, "-m", "venv", "--without-pip", "--system-site-packages", self.folder / "venv"))
        words = ["--no-build-isolation", "--no-index", "--no-deps", "--disable-pip-version-check", "--quiet"]
        self.passes(run(self.folder / "venv" / "bin" / "python", "-m", "pip", "install", *words, sources, limit=300))

    def passes(self, ran) -> None:
        self.assertEqual(ran.status, DONE, (ran.out + ran.err).decode(errors="replace"))

    @needs("make", "install")
    def test_the_same_commands(self) -> None:
        self.passes(run("make", "-C", TOP, "install", f"DESTDIR={self.folder / 'stage'}", "PREFIX=/usr"))
        commands = {name for name in self.names("stage/usr/bin") if name not in ("pgo", "pgo-cold")}
        self.assertEqual({name for name in self.names("venv/bin") if name.startswith("pgo")}, commands)
        for name in sorted(commands):
            with self.subTest(name):
                by_pip, by_make = (run(self.folder / place / name, "--help") for place in ("venv/bin", "stage/usr/bin"))
                self.expect(by_pip, DONE, by_make.out)

    def test_the_recorder_is_there(self) -> None:
        source = self.folder / "venv" / "share" / "pgo" / "recorder.c"
        self.assertEqual(source.read_bytes(), (TOP / "bench" / "repair" / "recorder.c").read_bytes())

    def test_the_version_is_that_of_the_program(self) -> None:
        code = "import importlib.metadata; print('pgo', importlib.metadata.version('pgo-tools'))"
        ran = run(self.folder / "venv" / "bin" / "python", "-c", code)
        self.expect(ran, DONE, run(TOP / "release" / "pgo", "--version").out)

    def test_a_profile(self) -> None:
        """pgo is found on the PATH, or where the variable PGO says; without it a line says so."""
        bin_folder = self.folder / "bin"
        bin_folder.mkdir()
        (bin_folder / "pgo").symlink_to(PGO)
        words = [self.folder / "venv" / "bin" / "pgo-profile", "--base", WORDS, TEXT, "prof"]
        found = f"{bin_folder}:/usr/bin:/bin"
        variables: Any
        for variables in ({"PGO": None, "PATH": found}, {"PGO": PGO, "PATH": "/usr/bin:/bin"}):
            self.passes(self.run_here(*words, environment={"PGO_COLD": None, **variables}))
            self.assertIn(b"count_word", (self.folder / "prof").read_bytes())
        ran = self.run_here(*words, environment={"PGO": None, "PGO_COLD": None, "PATH": "/usr/bin:/bin"})
        self.tells(ran, 127, "there is no pgo beside this script")


if __name__ == "__main__":
    unittest.main()
