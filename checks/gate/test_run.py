"""checks/run on a few small tests, with pytest and without it: what it counts, what it prints, and how a signal ends it."""
import contextlib
import itertools
import os
import pathlib
import shutil
import signal
import subprocess
import sys
import time
import unittest

from common import TOP, Case, Ran, kill_group

# The runners: with pytest, if it is here, and without it.
WAYS = ((), ("--plain",))
TESTS = '''
import unittest
import common

class Few(common.Case):
    def test_one(self):
        pass

    def test_three_parts(self):
        for part in range(3):
            with self.subTest("part", number=part):
                pass

    @common.needs("a-tool-of-no-system")
    def test_skipped(self):
        pass

    def test_half_skipped(self):
        for part in range(2):
            with self.subTest("part", number=part):
                if part:
                    self.skipTest("only half of it is tried here")

@common.takes(100)
class Long(common.Case):
    def test_long(self):
        pass

    def test_long_too(self):
        pass
'''
BAD = '''
import unittest
import common

class Bad(common.Case):
    def test_two_of_three(self):
        for part in range(3):
            with self.subTest("part", number=part):
                self.assertEqual(part % 2, 1, "an even part")

    def test_behind_parts(self):
        with self.subTest("a good part"):
            pass
        self.fail("behind its parts")

class Broken(unittest.TestCase):
    @classmethod
    def setUpClass(cls):
        raise OSError("nothing to begin with")

    def test_it(self):
        pass
'''
HANGS = '''
import common

class Hangs(common.Case):
    def hang(self):
        self.file("begun")
        self.run_here("sh", "-c", "sleep 7654 & sleep 7654; :", limit=600)

    test_one = hang
    test_two = hang
    test_three = hang
'''


class Runs(Case):
    def setUp(self) -> None:
        super().setUp()
        self.file("tmp/none")
        for name in ("checks/run", "pyproject.toml", *(f"checks/gate/{it}.py" for it in ("common", "conftest", "plain"))):
            self.file(name)
            shutil.copy(TOP / name, self.folder / name)

    def checks(self, *words: str, status: int = 0) -> str:
        """What checks/run prints on the small tests."""
        ran = self.run_here(sys.executable, "checks/run", "-j2", *words, environment={"TMPDIR": str(self.folder / "tmp")})
        self.assertEqual(ran.status, status, ran.out.decode() + ran.said)
        self.assertEqual(self.names("tmp"), ["none"])
        self.assertEqual([path for path in self.folder.rglob("__pycache__")], [])
        return ran.out.decode()

    def test_what_is_counted(self) -> None:
        self.file("checks/gate/test_few.py", TESTS)
        calls = (((), 5), (("--all",), 7), (("test_few.Long.test_long", "test_few.Few.test_one"), 2))
        for way, (words, passed) in itertools.product(WAYS, calls):
            with self.subTest(way=way, words=words):
                said = self.checks(*way, *words)
                skipped = 0 if passed == 2 else 2
                self.assertEqual(said.splitlines()[-1], f"checks: {passed} passed, 0 failed, {skipped} skipped")
                for reason in ("there is no a-tool-of-no-system", "only half of it is tried here"):
                    self.assertEqual(f"skipped: {reason}: test_few" in said, skipped == 2, said)

    def test_what_fails(self) -> None:
        """Each part that fails is told, and those that passed are counted."""
        self.file("checks/gate/test_bad.py", BAD)
        for way in WAYS:
            with self.subTest(way=way):
                said = self.checks(*way, status=1)
                self.assertEqual(said.splitlines()[-1], "checks: 2 passed, 4 failed, 0 skipped")
                for part in ("an even part", "number=0", "number=2", "behind its parts", "nothing to begin with"):
                    self.assertIn(part, said)
                self.assertNotIn("number=1", said)

    def test_no_such_test(self) -> None:
        for way in WAYS:
            with self.subTest(way=way):
                ran = self.run_here(sys.executable, "checks/run", *way, "test_nothing.Nothing")
                self.assertNotEqual(ran.status, 0)

    def sleeping(self) -> "list[str]":
        """The processes below this case's folder: those that the tests that hang have started."""
        found = []
        for link in pathlib.Path("/proc").glob("[0-9]*/cwd"):
            with contextlib.suppress(OSError):
                found += [link.parent.name] if os.readlink(link).startswith(f"{self.folder}/tmp/") else []
        return found

    def test_a_signal_ends_all(self) -> None:
        """No process and no folder of a test is left."""
        self.file("checks/gate/test_hangs.py", HANGS)
        for way, number in itertools.product(WAYS, (signal.SIGINT, signal.SIGTERM)):
            with self.subTest(way=way, number=number.name):
                ran = self.ended_by(number, *way)
                self.assertNotIn(ran.status, (0, 1), ran.out + ran.err)
                self.assertEqual(self.names("tmp"), ["none"])
                self.assertEqual(self.sleeping(), [])

    def ended_by(self, number: signal.Signals, *way: str) -> Ran:
        """How a run ends to which a signal is sent when its tests hang."""
        started = subprocess.Popen(
            [sys.executable, self.folder / "checks" / "run", "-j2", *way], env={**os.environ, "TMPDIR": str(self.folder / "tmp")},
            stdin=subprocess.DEVNULL, stdout=subprocess.PIPE, stderr=subprocess.PIPE, start_new_session=True,
        )
        end = time.monotonic() + 60
        while time.monotonic() < end and len(self.sleeping()) < 6:
            time.sleep(0.1)
        started.send_signal(number)
        try:
            out, err = started.communicate(timeout=30)
        finally:
            kill_group(started.pid)
        return Ran(started.returncode, out, err)


if __name__ == "__main__":
    unittest.main()
