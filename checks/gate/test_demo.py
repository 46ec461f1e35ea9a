"""demo/demo: from the demo's source to a faster program, and what it says where a program lacks."""
import os
import re
import shutil
import signal
import subprocess
import time
import unittest

from common import DONE, TOP, Case

DEMO = TOP / "demo" / "demo"
NO_PROGRAM = 127
ROW = re.compile(rb"\| with it \| [0-9,]+ \(([-+][0-9.]+)%\) \| [0-9,]+ \([-+][0-9.]+%\) \|\n\Z")
IS_WHOLE = all(map(shutil.which, ("clang", "cc", "qemu-x86_64")))


class Demo(Case):
    @unittest.skipUnless(IS_WHOLE, "clang, cc or qemu-x86_64 is not there")
    def test_the_profile_gains(self):
        ran = self.run_here(DEMO, environment={"TMPDIR": str(self.folder)})
        self.assertEqual(ran.status, DONE, ran.said)
        row = ROW.search(ran.out)
        assert row, ran.out
        self.assertLess(float(row[1]), 0)
        self.assertEqual(self.names(), [])

    @unittest.skipUnless(IS_WHOLE, "clang, cc or qemu-x86_64 is not there")
    def test_a_signal_leaves_nothing(self):
        started = subprocess.Popen(
            [DEMO], env={**os.environ, "TMPDIR": str(self.folder)}, stdout=subprocess.PIPE, stderr=subprocess.PIPE, start_new_session=True
        )
        assert started.stdout
        started.stdout.readline()
        started.send_signal(signal.SIGTERM)
        started.communicate(timeout=60)
        self.assertEqual(started.returncode, 128 + signal.SIGTERM)
        time.sleep(0.1)
        self.assertEqual(self.names(), [])

    @unittest.skipUnless(IS_WHOLE, "clang, cc or qemu-x86_64 is not there")
    def test_a_compiler_of_the_folder(self):
        self.file("bin/mine", "#!/bin/sh\necho called >&2\nexit 9\n").chmod(0o755)
        for words in (["--clang=bin/mine"], ["--clang=mine"]):
            ran = self.run_here(DEMO, *words, environment={"PATH": f"bin:{os.environ['PATH']}"})
            self.tells(ran, 1, "^demo: called demo: .*/bin/mine ended with 9$")

    def test_a_missing_program_is_named(self):
        self.tells(self.run_here(DEMO, "--clang=not-there"), NO_PROGRAM, "^demo: there is no ")


if __name__ == "__main__":
    unittest.main()
