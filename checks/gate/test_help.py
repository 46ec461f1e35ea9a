"""Each script that people call says what it does, asked by --help: on its output, at once, and without a word of an error."""
import os
import pathlib
import subprocess
import unittest

from common import Case, TOP

FOLDERS = ("bench", "bench/repair", "bench/repair/programs", "checks", "checks/by_hand", "checks/by_hand/edits", "checks/by_hand/fuzz",
           "checks/by_hand/hostile", "checks/by_hand/system", "contrib", "demo")


class Help(Case):
    """Of each script in these folders."""

    def test_help(self):
        scripts = [path for folder in FOLDERS for path in sorted(pathlib.Path(TOP, folder).iterdir())
                   if path.is_file() and os.access(path, os.X_OK) and path.read_bytes()[:2] == b"#!"]
        self.assertGreater(len(scripts), 20)
        for path in scripts:
            with self.subTest(script=os.path.relpath(path, TOP)):
                ran = subprocess.run([path, "--help"], capture_output=True, stdin=subprocess.DEVNULL, timeout=20, check=False)
                self.assertEqual((ran.returncode, ran.stderr), (0, b""))
                self.assertGreater(len(ran.stdout), 60)


if __name__ == "__main__":
    unittest.main()
