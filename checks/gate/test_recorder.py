"""bench/repair/recorder.c: threads that run at once count as those that run one after another; no line of its text is
cut, with many threads, with forked processes, and if a signal ends the program or the program runs another one; and
load lines show where each file with code was loaded, so that profiles of several binaries can be made of one text."""
import random
import re
import signal
import subprocess
import time

from common import CONTRIB, DONE, FAILED, PGO, TOP, Case, needs, run, found_in, path_of

PERIOD = 499
LINE = re.compile(rb" *[0-9a-f]+( 0x[0-9a-f]+/0x[0-9a-f]+/P/-/-/0//- )*|PERF_RECORD_MMAP2 .*")
# What is left of a line that a signal cuts.
CUT = re.compile(rb"(#.*)?")
SUMS = re.compile(rb"^recorder: instructions (\d+) branches (\d+) inside (\d+) samples (\d+)$", re.M)
SOURCE = r"""
#include <pthread.h>
#include <signal.h>
#include <stdlib.h>
#include <string.h>
#include <sys/wait.h>
#include <unistd.h>
static unsigned long n;
__attribute__((noinline)) static unsigned long step(unsigned long x) { return x & 1 ? x * 3 + 1 : x / 2; }
static void *work(void *none)
{
    unsigned long x = 12345;
    for (unsigned long k = 0; k < n; k++)
        x = step(x) + k;
    return (void *)x;
}
/* Of four forked processes one closes all files first, as those do that go to the background. */
static void fork_four(void)
{
    for (int k = 0; k < 4; k++)
        if (!fork()) {
            for (int at = 3; k == 1 && at < 1024; at++)
                close(at);
            exit(work(NULL) == &n);
        }
}
/* Forked processes of two threads that are killed while they run. */
static void kill_forty(void)
{
    for (int k = 0; k < 40; k++) {
        pthread_t other;
        int child = fork();
        if (child < 0)
            exit(2);
        if (!child) {
            n = ~0ul;
            pthread_create(&other, NULL, work, NULL);
            exit(work(NULL) == &n);
        }
        usleep(20000);
        kill(child, SIGKILL);
        wait(NULL);
    }
}
int main(int argc, char **argv)
{
    int threads = atoi(argv[2]), joined = !strcmp(argv[1], "joined");
    pthread_t all[64];
    n = strtoul(argv[3], NULL, 10);
    if (!strcmp(argv[1], "fork"))
        fork_four();
    if (!strcmp(argv[1], "killed"))
        kill_forty();
    for (int k = 0; k < threads; k++) {
        pthread_create(&all[k], NULL, work, NULL);
        if (joined)
            pthread_join(all[k], NULL);
    }
    for (int k = 0; k < threads && !joined; k++)
        pthread_join(all[k], NULL);
    while (wait(NULL) > 0)
        ;
    if (!strcmp(argv[1], "exec"))
        execl("/bin/true", "true", (char *)NULL);
    return argc != 4;
}
"""
# A program with a library of its own, a plugin that it loads, and code that it writes itself.
MAIN = r"""
#include <dlfcn.h>
#include <string.h>
#include <sys/mman.h>
long area(long n);
__attribute__((noinline)) static long own(long n) { long sum = 0; while (n--) sum += n & 3 ? n : 1; return sum; }
int main(void)
{
    void *plugin = dlopen("./plugin.so", RTLD_NOW);
    long (*volume)(long) = plugin ? (long (*)(long))dlsym(plugin, "volume") : 0;
    char *code = mmap(0, 4096, PROT_READ | PROT_WRITE, MAP_PRIVATE | MAP_ANONYMOUS, -1, 0);
    long sum = volume ? own(100000) + area(100000) + volume(100000) : 0;
    memcpy(code, "\xb8\x01\0\0\0\xc3", 6);
    for (int k = 0; k < 3; k++) {
        mprotect(code, 4096, PROT_READ | PROT_WRITE);
        mprotect(code, 4096, PROT_READ | PROT_EXEC);
        sum += ((int (*)(void))code)();
    }
    if (plugin)
        dlclose(plugin);
    return sum == 0;
}
"""
AREA = "long area(long n) { long sum = 0; while (n--) sum += n & 7 ? n : 2; return sum; }\n"
VOLUME = "long volume(long n) { long sum = 0; while (n--) sum += n & 1 ? n : 3; return sum; }\n"
LOAD = re.compile(r"^PERF_RECORD_MMAP2 1/1: \[0x[0-9a-f]+\(0x[0-9a-f]+\) @ (?:0|0x[0-9a-f]+) (.*)\]: r-xp (.*)$", re.M)


@needs("qemu-x86_64", "gcc")
class Recorder(Case):
    def setUp(self):
        super().setUp()
        self.compile("-O2", "-shared", "-fPIC", "-o", "recorder.so", TOP / "bench" / "repair" / "recorder.c")

    def compile(self, *words):
        made = run("gcc", *words, folder=self.folder)
        self.assertEqual(made.status, DONE, made.said)


class Versions(Recorder):
    """The version of the plugins' interface that the emulator asks for. Stand-ins load the recorder as the emulator does."""

    LOADER = r"""
#include <dlfcn.h>
#include <stdio.h>
%s
int main(void)
{
    void *recorder = dlopen("./recorder.so", RTLD_LAZY | RTLD_LOCAL);
    int *version = recorder ? dlsym(recorder, "qemu_plugin_version") : 0;
    return version ? *version : 0;
}
"""

    def test_of_the_emulator(self):
        for added, version in (("", 1), ("int qemu_plugin_num_vcpus(void) { return 1; }", 2)):
            self.file("loader.c", self.LOADER % added)
            self.compile("-rdynamic", "-o", "loader", "loader.c", "-ldl")
            self.assertEqual(self.run_here("./loader").status, version)


class Objects(Recorder):
    """Load lines of a program, its library and its plugin."""

    def setUp(self):
        super().setUp()
        self.compile_all(AREA)

    def compile_all(self, area):
        for name, source in (("main.c", MAIN), ("area.c", area), ("volume.c", VOLUME)):
            self.file(name, source)
        shared = ("-O1", "-g", "-Wl,--build-id", "-shared", "-fPIC", "-o")
        self.compile(*shared, "libarea.so", "area.c")
        self.compile(*shared, "plugin.so", "volume.c")
        self.compile("-O1", "-g", "-Wl,--build-id,-rpath,$ORIGIN", "-o", "main", "main.c", "libarea.so", "-ldl")

    def record(self):
        ran = self.run_here("qemu-x86_64", "-plugin", "./recorder.so,out=text,branches=99", "./main")
        self.assertEqual(ran.status, DONE, ran.said)
        return LOAD.findall((self.folder / "text").read_text())

    def profile(self, *words):
        return self.run_here(CONTRIB / "pgo-profile", *words, "main", "text", "prof")

    def functions(self):
        lines = (self.folder / "prof").read_text().splitlines()
        return {line.partition(":")[0] for line in lines if not line.startswith((" ", "#"))}

    def build(self, name):
        told = run("readelf", "-n", self.folder / name).out.decode()
        return found_in("Build ID: ([0-9a-f]+)", told)[1]

    def test_each_file_with_code_has_one_line(self):
        loads = self.record()
        for name in ("main", "libarea.so", "plugin.so"):
            path = (self.folder / name).resolve()
            self.assertEqual([build for build, at in loads if at == str(path)], [f"<{self.build(name)}>"], name)
        files = [at for _, at in loads if at.startswith("/") and at != "//anon"]
        self.assertEqual(len(files), len(set(files)))
        self.assertTrue(any("/ld-linux" in at or "/ld-2" in at for at in files), files)
        self.assertTrue(any("/libc" in at for at in files), files)
        self.assertEqual([at for at in files if "recorder" in at or "glib" in at], [])
        # What the program writes itself may run twice more, at the same place.
        self.assertEqual([at for _, at in loads].count("//anon"), 1)

    def test_one_profile_of_all(self):
        self.record()
        made = self.profile("--also=libarea.so", "--also=plugin.so")
        self.assertEqual((made.status, made.err), (DONE, b""), made.said)
        self.assertLessEqual({"own", "area", "volume"}, self.functions())
        text = made.out.decode()
        shares = [int(share) for share in re.findall(r"(\d+)%", text.splitlines()[0])]
        self.assertEqual(len(shares), 3, text)
        self.assertTrue(all(share > 25 for share in shares), text)

    def test_no_code_without_a_file_is_offered_as_the_program(self):
        self.record()
        self.file("other.c", "int main(void) { return 0; }\n")
        self.compile("-O1", "-g", "-o", "other", "other.c")
        made = self.run_here(CONTRIB / "pgo-profile", "other", "text", "prof")
        self.assertNotEqual(made.status, DONE)
        self.assertIn('--map="', made.said)
        self.assertNotIn("//anon", made.said)

    def test_the_build_id_finds_a_file_of_another_name(self):
        self.record()
        (self.folder / "plugin.so").rename(self.folder / "renamed")
        made = self.profile("--also=renamed")
        self.assertEqual(made.status, DONE, made.said)
        self.assertIn("volume", self.functions())

    def test_another_build_is_refused(self):
        self.record()
        self.compile_all(AREA.replace("2;", "5;"))
        made = self.profile("--also=libarea.so")
        self.assertEqual((made.status, (self.folder / "prof").exists()), (FAILED, False), made.said)
        self.assertIn("libarea.so is " + self.build("libarea.so"), made.said)

    def test_a_program_without_a_loader(self):
        self.file("plain.c", 'int main(void) { volatile int n = 100000; while (n--) ; return 0; }\n')
        for words in (["-static"], ["-static-pie"], ["-no-pie"]):
            with self.subTest(words=words):
                self.compile("-O1", "-Wl,--build-id", *words, "-o", "main", "plain.c")
                loads = self.record()
                path = str((self.folder / "main").resolve())
                self.assertEqual([build for build, at in loads if at == path], [f"<{self.build('main')}>"])


class Threads(Recorder):
    """Samples of threads and processes."""

    def setUp(self):
        super().setUp()
        self.file("threads.c", SOURCE)
        self.compile("-O1", "-g", "-pthread", "-o", "threads", "threads.c")

    def words(self, *words, period=PERIOD):
        return ["qemu-x86_64", "-plugin", f"./recorder.so,out=text,branches={period}", "./threads", *words]

    def text_is_whole(self, cut=False):
        """The number of samples in the text. Each line is whole, or blank or a comment if a signal may have cut it."""
        text = (self.folder / "text").read_bytes()
        self.assertTrue(text.endswith(b"\n"), text[-200:])
        lines = text.splitlines()
        self.assertEqual([line for line in lines if not (LINE.fullmatch(line) or cut and CUT.fullmatch(line))], [])
        counted = self.run_here(PGO, "counts", "text")
        self.assertEqual(counted.status, DONE, counted.said)
        return sum(line.startswith(b" ") for line in lines)

    def ended_by(self, number, seconds, *words, period):
        """The number of samples of a run that a signal ends some time after its first samples."""
        program, *rest = self.words(*words, period=period)
        words = (path_of(program), *rest)
        text = self.folder / "text"
        text.unlink(missing_ok=True)
        with subprocess.Popen(words, cwd=self.folder, stderr=subprocess.DEVNULL) as ran:
            end = time.monotonic() + 60
            while time.monotonic() < end and not (text.exists() and text.stat().st_size > 1 << 16):
                time.sleep(0.01)
            time.sleep(seconds)
            ran.send_signal(number)
            self.assertEqual(ran.wait(20), -number)
        return self.text_is_whole(cut=True)

    def sums(self, *words):
        """Instructions, branches, those inside and samples, of all processes."""
        ran = self.run_here(*self.words(*words))
        self.assertEqual(ran.status, DONE, ran.said)
        each = [[int(number) for number in found] for found in SUMS.findall(ran.err)]
        for _, branches, inside, _ in each:
            self.assertLessEqual(inside, branches)
        total = [sum(column) for column in zip(*each)]
        self.assertEqual(self.text_is_whole(), total[3])
        self.assertLess(abs(total[3] * PERIOD / total[1] - 1), 0.05, each)
        return total, len(each)

    def test_threads_at_once_count_as_one_after_another(self):
        for threads, n in (("4", "300000"), ("64", "10000")):
            with self.subTest(threads=threads):
                (one, _), (other, _) = self.sums("joined", threads, n), self.sums("concurrent", threads, n)
                for a, b in zip(one, other):
                    self.assertLess(abs(a / b - 1), 0.02, (one, other))

    def test_each_forked_process_counts_and_samples_for_itself(self):
        (_, branches, inside, _), processes = self.sums("fork", "4", "100000")
        self.assertEqual(processes, 5)
        (_, single, single_inside, _), _ = self.sums("joined", "8", "100000")
        self.assertLess(abs(inside / single_inside - 1), 0.02)
        self.assertLess(abs(branches / single - 1), 0.05)

    def test_many_threads_after_a_fork(self):
        (_, branches, inside, _), processes = self.sums("fork", "64", "10000")
        self.assertEqual(processes, 5)
        (_, single, single_inside, _), _ = self.sums("joined", "64", "10000")
        # The four forked processes add a sixteenth.
        self.assertLess(abs(inside / single_inside * 16 / 17 - 1), 0.02)
        self.assertLess(abs(branches / single * 16 / 17 - 1), 0.05)

    def test_a_signal_loses_no_line_that_was_finished(self):
        for number in (signal.SIGTERM, signal.SIGKILL):
            with self.subTest(signal=number.name):
                self.assertGreater(self.ended_by(number, 0.5, "concurrent", "1", "1000000000000", period=9999), 30)

    def test_no_signal_cuts_a_line(self):
        """At a short period nearly each signal meets a line that is being written."""
        for number in (signal.SIGTERM, signal.SIGKILL) * 8:
            seconds = random.uniform(0, 0.3)
            self.assertGreater(self.ended_by(number, seconds, "concurrent", "8", "1000000000000", period=50), 0)

    def test_a_forked_process_that_is_killed_cuts_no_line(self):
        ran = self.run_here(*self.words("killed", "8", "10000", period=50))
        self.assertEqual(ran.status, DONE, ran.said)
        [samples] = [int(found[3]) for found in SUMS.findall(ran.err)]
        self.assertGreaterEqual(self.text_is_whole(cut=True), samples)

    def test_a_program_that_runs_another_one_keeps_its_samples(self):
        ran = self.run_here(*self.words("exec", "4", "100000"))
        self.assertEqual((ran.status, SUMS.findall(ran.err)), (DONE, []), ran.said)
        samples = self.text_is_whole()
        (_, _, _, same), _ = self.sums("concurrent", "4", "100000")
        self.assertLess(abs(samples / same - 1), 0.02)

    def test_a_full_disk_is_told_once(self):
        words = self.words("joined", "4", "10000")
        words[2] = "./recorder.so,out=/dev/full,branches=499"
        ran = self.run_here(*words)
        self.assertEqual(ran.status, DONE)
        told = b"recorder: /dev/full: No space left on device; lines are missing\n"
        self.assertEqual(ran.err.count(told), 1, ran.said)
