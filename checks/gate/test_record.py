"""contrib/pgo-record: the recorder is built once, safely, and the program runs as by itself, with its words, streams
and status."""
import os
import re
import shutil
import signal
import stat
import subprocess
import time

from common import BAD_WORDS, CONTRIB, DONE, FAILED, MISSING, REFUSED, TOP, WRITE_FAULT, Case, needs, run, found_in

RECORD = CONTRIB / "pgo-record"
NO_PROGRAM = 127
SOURCE = r"""
#include <stdio.h>
#include <stdlib.h>
#include <string.h>
#include <unistd.h>
int main(int argc, char **argv)
{
    volatile unsigned long n = 100000;
    int letter;
    for (int k = 0; k < argc; k++)
        puts(argv[k]);
    while ((letter = getchar()) != EOF)
        putchar(letter);
    while (n--)
        ;
    if (argc > 1 && !strcmp(argv[1], "broken")) {
        for (int k = 0; k < 100000; k++)
            puts("more");
        fflush(stdout);
        return 9;
    }
    if (argc > 1 && !strcmp(argv[1], "sleep"))
        sleep(60);
    return argc > 1 ? atoi(argv[1]) : 0;
}
"""


@needs("qemu-x86_64", "gcc")
class Record(Case):
    def setUp(self):
        super().setUp()
        self.file("own.c", SOURCE)
        made = run("gcc", "-O1", "-g", "-Wl,--build-id", "-o", "own", "own.c", folder=self.folder)
        self.assertEqual(made.status, DONE, made.said)
        self.cache = self.folder / "cache"

    def record(self, *words, **how):
        environment = {"XDG_CACHE_HOME": str(self.cache), **how.pop("environment", {})}
        return run(RECORD, *words, folder=self.folder, environment=environment, **how)

    def built(self):
        return sorted((self.cache / "pgo").iterdir())

    def refused(self, status, said, *words, **how):
        ran = self.record(*words, **how)
        self.assertEqual((ran.status, ran.out), (status, b""), ran.said)
        self.assertIn(said, ran.said)
        self.assertNotIn("Traceback", ran.said)

    def test_the_program_runs_as_by_itself(self):
        words = ("./own", "7", "--help", "-o", "a b", "--")
        ran = self.record("-q", *words, given=b"in\n")
        self.assertEqual((ran.status, ran.err), (7, b""))
        self.assertEqual(ran.out, "\n".join([*words, "in\n"]).encode())

    def test_a_profile_of_the_recording(self):
        ran = self.record("./own")
        self.assertEqual(ran.status, DONE, ran.said)
        step = found_in(r"recording to recorded\.txt; when the program has ended: (.*)", ran.said)[1]
        self.assertRegex(ran.said, r"recorder: instructions \d+ branches \d+ inside \d+ samples \d+\n")
        made = run("sh", "-c", step, folder=self.folder)
        self.assertEqual((made.status, made.err), (DONE, b""), made.said)
        self.assertRegex((self.folder / "own.prof").read_text(), r"(?m)^main:[1-9]")

    def test_period_depth_and_name(self):
        sizes = []
        for words in (["-c", "99"], ["--period=99", "--depth=4"], ["-c999"]):
            ran = self.record("-q", "-o", "a,b=c.txt", *words, "./own")
            self.assertEqual(ran.status, DONE, ran.said)
            lines = (self.folder / "a,b=c.txt").read_bytes().splitlines()
            sizes.append((sum(line.startswith(b" ") for line in lines), lines[-1].count(b"/P/")))
        (samples, depth), (same, four), (fewer, _) = sizes
        self.assertEqual((samples, depth, four), (same, 32, 4))
        self.assertTrue(5 * fewer < samples < 20 * fewer, sizes)

    def test_it_is_built_once_for_the_user_alone(self):
        self.assertEqual(self.record("-q", "./own").status, DONE)
        [first] = self.built()
        self.assertEqual([stat.S_IMODE(path.stat().st_mode) for path in (first.parent, first)], [0o700, 0o700])
        when = first.stat().st_mtime_ns
        # Without a compiler, too.
        tools = self.only_tools("qemu-x86_64", "env", "python3")
        ran = self.record("-q", "./own", environment=tools)
        self.assertEqual(ran.status, DONE, ran.said)
        self.assertEqual([(path, path.stat().st_mtime_ns) for path in self.built()], [(first, when)])
        shutil.rmtree(self.cache)
        self.refused(NO_PROGRAM, "there is no C compiler", "./own", environment=tools)
        (self.folder / "tools" / "qemu-x86_64").unlink()
        self.refused(NO_PROGRAM, "there is no qemu-x86_64", "./own", environment=tools)

    def test_a_folder_that_others_may_write_is_not_used(self):
        (self.cache / "pgo").mkdir(parents=True)
        os.chmod(self.cache / "pgo", 0o777)
        self.refused(FAILED, "is no folder that you alone may write", "./own")
        (self.cache / "pgo").rmdir()
        (self.folder / "away").mkdir(mode=0o700)
        (self.cache / "pgo").symlink_to(self.folder / "away")
        self.refused(FAILED, "is no folder that you alone may write", "./own")
        self.assertEqual(list((self.folder / "away").iterdir()), [])

    def test_a_failed_build_leaves_nothing(self):
        tools = self.folder / "tools"
        tools.mkdir()
        compiler = tools / "cc"
        compiler.write_text("#!/bin/sh\necho 'x.c: error: no header' >&2\nexit 1\n")
        compiler.chmod(0o755)
        path = {"PATH": f"{tools}:{os.environ['PATH']}"}
        self.refused(FAILED, "cc cannot build the recorder: x.c: error: no header", "./own", environment=path)
        self.assertEqual(self.built(), [])

    def test_calls_at_once_share_one_recorder(self):
        calls = [subprocess.Popen([RECORD, "-q", "-o", f"{k}.txt", "./own"], cwd=self.folder, stdin=subprocess.DEVNULL,
                                  stdout=subprocess.DEVNULL, env={**os.environ, "XDG_CACHE_HOME": str(self.cache)})
                 for k in range(4)]
        self.assertEqual([call.wait(60) for call in calls], [DONE] * 4)
        self.assertEqual(len(self.built()), 1)

    def test_no_file_of_another_kind_is_replaced(self):
        before = (self.folder / "own.c").read_bytes()
        self.refused(BAD_WORDS, "own.c is no recording of branches", "-o", "own.c", "./own")
        self.assertEqual((self.folder / "own.c").read_bytes(), before)
        self.refused(BAD_WORDS, "own is no recording of branches", "-o", "own", "./own")
        self.refused(WRITE_FAULT, "none/x: No such file or directory", "-o", "none/x", "./own")
        self.refused(WRITE_FAULT, "own.c/x: Not a directory", "-o", "own.c/x", "./own")
        self.refused(WRITE_FAULT, "cache: Is a directory", "-o", "cache", "./own")
        # As a signal leaves it that ends the program before the first line is whole.
        self.file("recorded.txt", b"\n" * 99)
        for _ in range(2):
            self.assertEqual(self.record("-q", "./own").status, DONE)

    def test_into_a_pipe(self):
        """Nothing opens the pipe before the recorder does: its reader would see an end."""
        os.mkfifo(self.folder / "pipe")
        with subprocess.Popen(["cat", "pipe"], cwd=self.folder, stdout=subprocess.PIPE) as reader:
            try:
                ran = self.record("-q", "-o", "pipe", "./own")
                read = reader.communicate(timeout=60)[0]
            finally:
                reader.kill()
        self.assertEqual((ran.status, ran.err), (DONE, b""))
        self.assertTrue(read.startswith(b"PERF_RECORD_MMAP2 ") and read.count(b"\n ") > 10, read[:200])
        ran = self.record("-q", "-o", "/dev/stderr", "./own")
        self.assertEqual((ran.status, ran.out), (DONE, b"./own\n"))
        self.assertEqual(ran.err.count(b"\n "), read.count(b"\n "))

    def test_no_home_folder(self):
        self.refused(FAILED, "there is no home folder", "./own", environment={"XDG_CACHE_HOME": None, "HOME": ""})
        self.assertEqual(self.names(), ["own", "own.c"])

    def test_wrong_words(self):
        self.file("script", "#!/bin/sh\necho\n")
        self.refused(BAD_WORDS, "no program is given")
        self.refused(BAD_WORDS, "--bogus", "--bogus", "./own")
        self.refused(BAD_WORDS, "a number from 1 up, and not 0", "-c", "0", "./own")
        self.refused(BAD_WORDS, "--depth is at most 1023", "--depth=1024", "./own")
        self.refused(MISSING, "no such program: nosuch", "nosuch")
        self.refused(MISSING, "what helps: ./own", "own")
        self.refused(REFUSED, "record its interpreter: pgo-record /bin/sh ./script", "./script")
        self.refused(REFUSED, "own.c is no program for x86-64", "./own.c")
        (self.folder / "own").chmod(0o644)
        self.refused(REFUSED, "what helps: chmod +x ./own", "./own")
        self.assertEqual(self.names(), ["own", "own.c", "script"])

    def test_signals_and_pipes_are_the_programs(self):
        self.assertEqual(self.record("-q", "./own").status, DONE)
        text = self.folder / "recorded.txt"
        text.unlink()
        for number in (signal.SIGTERM, signal.SIGINT, signal.SIGKILL):
            environment = {**os.environ, "XDG_CACHE_HOME": str(self.cache)}
            with subprocess.Popen([RECORD, "-q", "-c", "99", "./own", "sleep"], cwd=self.folder, env=environment,
                                  stdin=subprocess.DEVNULL, stdout=subprocess.DEVNULL) as ran:
                end = time.monotonic() + 60
                while time.monotonic() < end and not (text.exists() and text.stat().st_size > 1 << 17):
                    time.sleep(0.01)
                ran.send_signal(number)
                self.assertEqual(ran.wait(20), -number)
            self.assertGreater(text.read_bytes().count(b"\n "), 50)
            text.unlink()
        broken = run("sh", "-c", '"$0" -q ./own broken </dev/null | head -1', RECORD, folder=self.folder,
                     environment={"XDG_CACHE_HOME": str(self.cache)})
        self.assertEqual((broken.out, broken.err), (b"./own\n", b""))

    def test_help_fits_the_page(self):
        told, page = self.record("--help").out.decode(), (TOP / "docs" / "pgo-record.1").read_text().replace("\\-", "-")
        for option in ("-o", "--output", "-c", "--period", "--depth", "-q", "--quiet", "-h", "--help"):
            self.assertIn(option, told)
            self.assertIn(option, page)
        self.assertEqual(set(re.findall(r"--[a-z]+\b", told)), {"--output", "--period", "--depth", "--quiet", "--help"})
