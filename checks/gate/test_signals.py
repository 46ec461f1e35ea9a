"""A signal that comes while a folder or a file is made or taken away: nothing of it stays. Ctrl-C while a script still
reads its modules ends it without a traceback."""
import signal
import unittest

from common import CONTRIB, DONE, Case, python, run

# At the call that it names a signal comes, once that is done or ahead of it.
SCRIPT = """
import os, shutil, signal, sys, tempfile
from pgo_tools import cli
from pgo_tools.cli import files

def disturbed(call):
    def made(*words, **how):
        if sys.argv[2] == "before":
            os.kill(os.getpid(), signal.SIGTERM)
        told = call(*words, **how)
        if sys.argv[2] == "behind":
            os.kill(os.getpid(), signal.SIGTERM)
        return told
    return made

def main(argv):
    module, name = {"mkdtemp": tempfile, "rmtree": shutil, "open": os}[argv[0]], argv[0]
    setattr(module, name, disturbed(getattr(module, name)))
    with files.scratch_folder("new.", ".") if name != "open" else files.put_in_place("new"):
        pass
    cli.put("whole")

cli.run(main)
"""

# In the place of a module that all scripts read: Ctrl-C comes, and if it is passed over, the module itself follows.
MODULE = """
import os, signal, sys
os.kill(os.getpid(), signal.SIGINT)
sys.path.remove(os.path.dirname(__file__))
del sys.modules["argparse"]
import argparse
"""


class Early(Case):
    def setUp(self):
        super().setUp()
        self.file("argparse.py", MODULE)

    def help_of(self, script, **how):
        return run(script, "--help", environment={"PYTHONPATH": str(self.folder)}, **how)

    def test_no_traceback(self):
        scripts = [path for path in CONTRIB.iterdir() if path.is_file() and path.name != "release"]
        self.assertGreater(len(scripts), 8)
        for script in scripts:
            with self.subTest(script.name):
                self.expect(self.help_of(script), -signal.SIGINT)

    def test_who_passes_it_over_still_does(self):
        ran = self.help_of(CONTRIB / "hot", prepare=lambda: signal.signal(signal.SIGINT, signal.SIG_IGN))
        self.assertEqual((ran.status, ran.err), (DONE, b""))


class Signals(Case):
    def test_nothing_stays(self):
        for name in ("mkdtemp", "rmtree", "open"):
            for when in ("before", "behind"):
                with self.subTest(name, when=when):
                    ran = python("-c", SCRIPT, name, when, folder=self.folder, environment={"PYTHONPATH": str(CONTRIB)})
                    self.expect(ran, 143)
                    self.assertEqual(self.names(), [])


if __name__ == "__main__":
    unittest.main()
