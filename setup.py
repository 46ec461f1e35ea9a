"""Gives the package the version that `pgo --version` prints, from the one place that has it; pyproject.toml has all else."""
import pathlib
import re

from setuptools import setup

ABOUT = pathlib.Path(__file__).resolve().parent / "crates" / "pgo_cli" / "src" / "about.rt"
VERSION = re.compile(r'^const VERSION: &\[u8\] = b"pgo (\S+)\\n";$', re.M)

found = VERSION.search(ABOUT.read_text(encoding="utf-8"))
if not found:
    raise SystemExit(f"{ABOUT} has no version")
setup(version=found[1])
