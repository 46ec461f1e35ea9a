"""contrib/compare: how much alike two profiles are, what became hot or cold, and the bounds by which a farm keeps the old one."""
import fcntl
import gzip
import signal
import struct
import subprocess
import termios
import time
import unittest

from common import CONTRIB, DONE, FAILED, BAD_WORDS, MISSING, REFUSED, READ_FAULT, Case, needs_file, into_closed_pipe, on_closed_output, python, WRITE_FAULT

COMPARE = CONTRIB / "compare"

# Of 100 counts: 60 on a line of main, 30 on one that was inlined there, 10 on another function.
OLD = "main:90:1\n 1: 60\n 4: f:30\n  1: 30\nother:10:2\n 3.2: 10\n# build 1\n"
# Of 1000 counts: 200 and 300 on the first two, 500 on a new function.
NEW = "fresh:500:9\n 7: 500 main:3\nmain:500:4\n 1: 200\n 4: f:300\n  1: 300\n"


class Compare(Case):
    def setUp(self):
        super().setUp()
        self.file("old", OLD)
        self.file("new", NEW)

    def compare(self, *words, **how):
        return self.run_here(COMPARE, *words, **how)

    def test_known_shares(self):
        ran = self.compare("old", "new")
        self.expect(ran, DONE, (
            # 20 of main's own line, 30 of the inlined one; by functions 50 of main.
            "lines 50.0% alike, functions 50.0%\n"
            "total 100 and 1000, 1000.0% as much\n"
            "\n"
            "became hot: 1\n"
            "in A   in B  function\n"
            "0.0%  50.0%  fresh\n"
            "\n"
            "became cold: 1\n"
            " in A  in B  function\n"
            "10.0%  0.0%  other\n"
            "\n"
            "hot functions whose lines differ most\n"
            # 40% of main's counts on its own line, and a third of them on the inlined one.
            "alike   in A   in B  function\n"
            "73.3%  90.0%  50.0%  main\n"))

    def test_scale_makes_no_difference(self):
        self.file("ten", OLD.replace("60", "600").replace("30", "300").replace(" 10\n", " 100\n"))
        self.expect(self.compare("old", "ten", "--least=100"), DONE, "lines 100.0% alike, functions 100.0%\ntotal 100 and 1000, 1000.0% as much\n")
        self.expect(self.compare("old", "old", "--least=100", "--least-total=100"), DONE, "lines 100.0% alike, functions 100.0%\ntotal 100 and 100, 100.0% as much\n")

    def test_large_numbers(self):
        most = 2**64 - 1
        self.file("a", f"a:0:1\n 1: {most}\n 2: {most - 1}\n")
        self.file("b", f"a:0:1\n 1: {most - 1}\n 2: {most}\n")
        self.tells(self.compare("a", "b", "--least=100"), FAILED, "the lines are 99.9% alike, less than 100%")

    def test_bounds(self):
        for words, status, said in (
            (["--least=50"], DONE, "^$"), (["--least=50.1"], FAILED, "the lines are 50.0% alike, less than 50.1%"),
            (["--least-total=1000"], BAD_WORDS, "a number from 0 to 100"), (["--least-total=100"], DONE, "^$"), (["--least=nan"], BAD_WORDS, "a number from 0 to 100"),
            (["--least=0", "--top=1"], DONE, "^$"), (["--top=0"], BAD_WORDS, "a number from 1 up"),
        ):
            with self.subTest(words):
                self.tells(self.compare("old", "new", *words), status, said)
        self.tells(self.compare("new", "old", "--least-total=10"), DONE, "^$")
        self.tells(self.compare("new", "old", "--least-total=10.1", "--least=60"), FAILED, "50.0% alike.*old has 10.0% of the counts of new, less than 10.1%")

    def test_places_are_apart(self):
        """The same offset below another call, or with another discriminator, is another line."""
        self.file("a", "m:0:1\n 1: 5\n 2: f:5\n  1: 5\n")
        self.file("b", "m:0:1\n 1.1: 5\n 3: f:5\n  1: 5\n")
        self.tells(self.compare("a", "b", "--least=1"), FAILED, "the lines are 0.0% alike")

    def test_files(self):
        self.file("empty")
        self.file("comments", "# ranges 1\n")
        self.file("heads", "main:0:5\n")
        self.file("bad", "main:1:1\n 1: 2\r\n")
        self.file("cut", "main:10:1\n 1: 10\n 2")
        self.file("packed", gzip.compress(OLD.encode()))
        for words, status, said in (
            (["old", "cut"], REFUSED, r"cut: refused at 3: BadLine what helps: it is the last line, and was cut off: take it away \(sed '\$d'\)"),
            (["old", "gone"], MISSING, "gone"), (["gone", "new"], MISSING, "gone"), (["old", "empty"], FAILED, "empty: the profile is empty"),
            (["comments", "new"], FAILED, "comments: the profile is empty"), (["heads", "new"], FAILED, "heads: the profile is empty"),
            (["old", "bad"], REFUSED, "bad: refused at 2: BadLine"), (["old", "."], READ_FAULT, "directory"), (["old"], BAD_WORDS, "usage"),
            (["old", "new", "old"], BAD_WORDS, "usage"),
        ):
            with self.subTest(words):
                self.tells(self.compare(*words), status, said)
        self.expect(self.compare("old", "packed", "--least=100"), DONE, self.compare("old", "old").out)

    def test_names(self):
        self.file("odd", "_Z3fooi:7:1\n 1: 7\na\x1bb:1:1\n 1: 1\n".replace("\x1b", "\u202e"))
        ran = self.compare("old", "odd")
        self.assertEqual(ran.status, DONE)
        self.assertIn(b"\\xe2\\x80\\xae", ran.out)

    def test_a_system_without_its_devices(self):
        """As in a root folder of little more than the script. A stand-in names a device that is not there."""
        calls = "import os, runpy, sys; os.devnull = 'none'; del sys.argv[0]; runpy.run_path(sys.argv[0], run_name='__main__')"
        self.expect(python("-c", calls, COMPARE, "old", "old", folder=self.folder), DONE, self.compare("old", "old").out)

    def test_a_name_with_a_line_feed(self):
        self.expect(self.compare("bad\ncompare: all is good", "old"), MISSING, b"", b"compare: bad\\x0acompare: all is good: No such file or directory\n")

    def test_a_signal_while_it_says_what_is_wrong(self):
        """Nobody reads the error output, which a long name fills."""
        with subprocess.Popen([COMPARE, "x" * 100000, "old"], cwd=self.folder, stdout=subprocess.PIPE, stderr=subprocess.PIPE) as started:
            end = time.monotonic() + 60
            while self.held(started.stderr) < 1 << 16 and started.poll() is None and time.monotonic() < end:
                time.sleep(0.01)
            started.terminate()
            try:
                self.assertEqual(started.wait(timeout=20), 128 + signal.SIGTERM)
            finally:
                started.kill()
            assert started.stderr
            self.assertNotIn(b"Traceback", started.stderr.read())

    def held(self, pipe):
        """How many bytes wait in a pipe."""
        return struct.unpack("i", fcntl.ioctl(pipe, termios.FIONREAD, bytes(4)))[0]

    @needs_file("/dev/full")
    def test_outputs(self):
        self.ends_on_full_device("compare", COMPARE, "old", "new")
        self.tells(on_closed_output(COMPARE, "old", "new", folder=self.folder), WRITE_FAULT, "output: it is closed")
        self.tells(into_closed_pipe(COMPARE, "old", "new", folder=self.folder), WRITE_FAULT, "^$")


if __name__ == "__main__":
    unittest.main()
