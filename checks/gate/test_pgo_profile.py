"""contrib/pgo-profile: what it makes of good input in each of its forms, what it finds by itself, and what it says of what goes wrong
for people."""
import bz2
import gzip
import lzma
import os
import re
import shutil
import struct
import subprocess
import unittest
from typing import Any

from common import COLD, CONTRIB, PGO, TEXT, TOP, WORDS, Case, into_closed_pipe, needs, on_closed_output, python, terminated
from common import found_in

from growing import DEMO, demo_with
from make import STRING, abbreviation

from pgo_tools.elf import Elf

SCRIPT = CONTRIB / "pgo-profile"
LOAD = "words 7 PERF_RECORD_MMAP2 7/7: [0x401000(0x1000) @ 0x1000 08:02 5 0]: r-xp {}\n"
ONE = TEXT.read_bytes().split(b"\n")[0] + b"\n"


# pgo-profile where so many bytes are free in each folder.
WITH_ROOM = """
import collections, runpy, shutil, sys
room = collections.namedtuple("Usage", "free")(int(sys.argv[1]))
shutil.disk_usage = lambda _: room
del sys.argv[:2]
runpy.run_path(sys.argv[0], run_name="__main__")
"""


def load_line(name, build=None):
    """A load line of the demo's code, as perf prints it with the number of a build or without."""
    line = LOAD.format(name)
    return line.replace("08:02 5 0", f"<{build}>") if build else line


def expected():
    """The profile of the demo as pgo prints it."""
    places = (TOP / "checks/gate/program/words.expected", TOP / "checks/program/words.expected")
    return next(each for each in places if each.is_file()).read_text()


def without_cold(text):
    """The lines of a profile but those that pgo-cold adds, and the number of the build."""
    lines = text.splitlines(keepends=True)
    return "".join(line for line in lines if not re.match(r" +[0-9.]+: (0|[^ :]+:0)$", line) and not line.startswith("# build"))


class Profiles(Case):
    """Cases that make `prof` in a folder of its own."""

    def make(self, *words, **how):
        """Runs it: a profile is there only with status 0, and nothing else is left."""
        folder = self.folder / "made"
        shutil.rmtree(folder, ignore_errors=True)
        folder.mkdir()
        ran = self.run_here(SCRIPT, *words, folder / "prof", **how)
        left = os.listdir(folder)
        self.assertEqual(left, ["prof"] if ran.status == 0 else [], ran.said)
        self.made = (folder / "prof").read_text() if left else ""
        if left:
            self.assertRegex(self.made, r"(?m)^[^#]")
        return ran

    def judge(self, status, pattern, *words, **how):
        """It ends so, and its error output has the pattern (none: it is empty)."""
        ran = self.make(*words, **how)
        if pattern:
            self.tells(ran, status, pattern)
        else:
            self.expect(ran, status, ran.out, b"")
        return ran

    def build(self, name, *words, source=TOP / "demo/words.c", cc="cc"):
        """A program of the demo's source or another, or a skipped case."""
        ran = self.run_here(cc, "-w", *words, source, "-o", name)
        if ran.status:
            self.skipTest(f"{cc} {' '.join(words)} does not build: {ran.said[:100]}")
        return self.folder / name


class Demo(Profiles):
    def test_profile(self):
        ran = self.judge(0, "", "--base", WORDS, TEXT)
        self.assertEqual(without_cold(self.made), expected())
        self.assertRegex(self.made, r"(?m)^ .*: 0$")
        lines = ran.out.decode().splitlines()
        self.assertRegex(lines[0], r"^.*/prof: 3 functions; 85% of 4768 branches are of .*/words$")
        self.assertRegex(lines[1], r"^build with: clang -g -fdebug-info-for-profiling -fprofile-sample-use=.*/prof, and ")
        self.assertEqual(len(lines), 2)

    def test_no_option_is_needed(self):
        self.judge(0, "", WORDS, TEXT)
        self.assertEqual(without_cold(self.made), expected())
        self.judge(0, "without --base compilers miss lines.*the same with --base", "--no-base", WORDS, TEXT)

    def test_ends_with_the_number_of_the_build(self):
        self.judge(0, "", WORDS, TEXT)
        self.assertRegex(self.made.splitlines()[-1], r"^# build [0-9a-f]{40}$")
        made = self.file("made.prof", self.made)
        self.assertEqual(self.run_here(PGO, "merge", "1", made).status, 0)

    @needs("cc")
    def test_ends_so_whatever_the_program(self):
        """Without a build ID it is a number of the code."""
        numbers = set()
        for words in (["-O1"], ["-O1"], ["-O2"]):
            program = self.build("program", *words, "-g", "-no-pie", "-Wl,--build-id=none")
            found = self.run_here("sh", "-c", "nm program | sed -n 's/ T main$//p'").out.decode().strip()
            branch = f"0x{found}/0x{found} " * 2 + "\n"
            self.make("--other-build", "--no-base", program, self.file("text", branch * 300).name)
            self.assertRegex(self.made.splitlines()[-1], r"^# build [0-9a-f]{64}$")
            numbers.add(self.made.splitlines()[-1])
        self.assertEqual(len(numbers), 2)

    def test_a_profile_that_was_there_stays(self):
        self.file("kept", "old:1:1\n")
        self.file("empty")
        ran = self.run_here(SCRIPT, "--base", WORDS, "empty", "kept")
        self.tells(ran, 1, "kept stays as it was: empty is empty")
        self.assertEqual(((self.folder / "kept").read_text(), self.names()), ("old:1:1\n", ["empty", "kept"]))

    def test_a_closed_output(self):
        ran = on_closed_output(SCRIPT, WORDS, TEXT, "prof", folder=self.folder)
        self.tells(ran, 6, "^pgo-profile: output: it is closed$")
        self.assertEqual(self.names(), ["prof"])

    def test_a_closed_pipe_is_quiet(self):
        self.expect(into_closed_pipe(SCRIPT, WORDS, TEXT, "prof", folder=self.folder), 6)
        self.assertEqual(self.names(), ["prof"])

    def test_a_signal(self):
        os.mkfifo(self.folder / "text")
        self.file("prof", "old:1:1\n")
        os.mkdir(self.folder / "tmp")
        words = ["env", f"TMPDIR={self.folder}/tmp", SCRIPT, WORDS, "text", "prof"]
        ran = terminated(*words, folder=self.folder, until=lambda: any(each.startswith("pgo-profile.") for each in self.names("tmp")))
        self.assertNotIn("Traceback", ran.said)
        self.assertEqual((ran.status, self.names("tmp"), (self.folder / "prof").read_text()), (143, [], "old:1:1\n"))


class Forms(Profiles):
    """Every form in which a recording comes gives the same profile."""

    def same(self, *words, **how):
        self.judge(0, "", *words, **how)
        self.assertEqual(without_cold(self.made), expected())

    def test_packed(self):
        text = TEXT.read_bytes()
        pack: Any
        for name, pack in (("gz", gzip.compress), ("xz", lzma.compress), ("bz2", bz2.compress)):
            with self.subTest(name):
                self.same(WORDS, self.file(f"text.{name}", pack(text)))
                self.judge(5, "packed, and damaged or cut off", WORDS, self.file("cut", pack(text)[:-20]))

    @needs("zstd")
    def test_packed_by_zstd(self):
        packed = subprocess.run(["zstd", "-qc", TEXT], stdout=subprocess.PIPE, check=True).stdout
        self.same(WORDS, self.file("text.zst", packed))
        self.judge(5, "packed, and damaged or cut off", WORDS, self.file("cut", packed[:-20]))

    def test_a_pipe(self):
        self.same(WORDS, "/dev/stdin", given=TEXT.read_bytes())
        self.same(WORDS, "/dev/stdin", given=gzip.compress(TEXT.read_bytes()))
        with open(TEXT, "rb") as file:
            self.same(WORDS, "/dev/stdin", given=file)

    def recording(self):
        maker = next(each for each in (TOP / "checks/gate/using/perf_data.py", TOP / "checks/using/perf_data.py") if each.is_file())
        self.assertEqual(self.run_here("python3", maker, TEXT, "/srv/app/words", "perf.data").status, 0)
        return self.folder / "perf.data"

    @needs("perf")
    def test_a_recording(self):
        path = self.recording()
        self.same(WORDS, path)
        self.same(WORDS, "/dev/stdin", given=path.read_bytes())
        self.same("--pid=7", WORDS, path)
        self.same("--comm=words", WORDS, path)
        self.judge(1, "has no branches of --comm=other.*-F comm,pid", "--comm=other", WORDS, path)
        self.judge(4, "at 1: BadLine.*it is a recording: perf script -i bad .*perf script says: ", WORDS, self.file("bad", path.read_bytes()[:200]).name)

    def test_a_recording_without_perf(self):
        path = self.recording()
        self.judge(4, "at 1: BadLine.*it is a recording: perf script -i perf.data .*there is no perf here", WORDS, path.name,
                   environment=self.only_tools("python3", "env"))

    def test_a_recording_of_another_user(self):
        """A stand-in for perf says what perf says of such a file, and the remedy has the option that it asks for."""
        said = "File perf.data not owned by current user or root (use -f to override)"
        self.judge(4, "it is a recording: perf script -f -i 'perf data' -F ip,brstack", WORDS, self.file("perf data", b"PERFILE2").name,
                   environment=self.with_perf(f"echo '{said}' >&2\nexit 255"))

    def test_a_recording_without_branches(self):
        said = "Samples for 'cycles:u' event do not have BRANCH_STACK attribute set. Cannot print 'brstack' field."
        self.judge(4, "BadLine.*it was recorded without branches: perf record -b; .*pgo-record", WORDS,
                   self.file("perf.data", b"PERFILE2").name, environment=self.with_perf(f'echo "{said}" >&2\nexit 255'))
        self.judge(1, "perf.data has no branches.*perf record -b.*pgo-record", WORDS, "perf.data",
                   environment=self.with_perf("case $1 in script) echo 401036 ;; esac"))

    def with_perf(self, script):
        """The environment in which this stands for perf."""
        os.makedirs(self.folder / "bin", exist_ok=True)
        self.file("bin/perf", f"#!/bin/sh\n{script}\n").chmod(0o755)
        return {"PATH": f"{self.folder}/bin:{os.environ['PATH']}"}

    def test_perf_in_another_language(self):
        """A stand-in for perf prints the demo's text where it is asked to print what its manual says."""
        perf = self.with_perf(f'[ "$LC_ALL" = C ] && case $1 in script) cat "{TEXT}" ;; esac')
        self.judge(0, "", WORDS, self.file("perf.data", b"PERFILE2"), environment={**perf, "LC_ALL": "C.UTF-8"})

    def test_a_name_that_is_no_text(self):
        name = self.folder / os.fsdecode(b"\xff.txt")
        name.write_bytes(TEXT.read_bytes())
        self.judge(5, "read fault: file 2 .*what helps: a name in UTF-8", WORDS, name)

    def test_the_numbers_of_builds_that_a_recording_has(self):
        """A stand-in for perf prints the demo's text with a load line, and says of which build the file was."""
        number = found_in(r"# build (.*)", self.run_here(SCRIPT, WORDS, TEXT, "made.prof") and (self.folder / "made.prof").read_text())[1]
        self.file("text", load_line("/srv/app/words") + TEXT.read_text())
        for build, status, said in ((number, 0, ""), ("0123456789", 1, "the build 0123456789 ran, and .*words is ")):
            perf = self.with_perf(f'case $1 in script) cat "{self.folder}/text" ;; *) echo {build} /srv/app/words ;; esac')
            self.judge(status, said, WORDS, self.file("perf.data", b"PERFILE2"), environment=perf)

    def test_samples_of_a_text_are_not_chosen(self):
        self.judge(2, "--pid=7: .*words.txt is no recording", "--pid=7", WORDS, TEXT)

    def test_no_room_for_a_copy(self):
        packed = self.file("text.gz", gzip.compress(TEXT.read_bytes()))
        self.judge(6, "write fault in .*TMPDIR", WORDS, packed, prepare=lambda: limit_files(50000))

    def test_a_packed_text_without_an_end(self):
        """It is unpacked up to the line that pgo refuses, which is told as of the text itself."""
        endless = gzip.compress(ONE + bytes(1 << 24)) + gzip.compress(bytes(1 << 24) + b"\n") * 4
        self.judge(4, r"refused: file 2 at 2: LineTooLong \(endless.gz\)", WORDS, self.file("endless.gz", endless).name,
                   prepare=lambda: limit_files(1 << 20))
        self.same(WORDS, self.file("longest.gz", gzip.compress(b"#" * 65536 + b"\n" + TEXT.read_bytes())))

    def test_half_of_the_room_is_left(self):
        """Also where what takes the room is good: many lines over again, and debugging information that is packed."""
        text = self.file("text.gz", gzip.compress(TEXT.read_bytes()))
        for room, status in ((TEXT.stat().st_size * 2 - 2, 6), (TEXT.stat().st_size * 2, 0)):
            ran = self.with_room(room, WORDS, text)
            self.tells(ran, status, "write fault in .*text.gz takes more than half of the room that is free.*TMPDIR" if status else "^$")

    def test_half_of_the_room_is_left_by_a_recording(self):
        """A stand-in for perf prints lines without an end, and one line, of which no more is taken than what pgo refuses."""
        recording = self.file("perf.data", b"PERFILE2")
        for prints, status, said in (("yes '#'", 6, "write fault in .*perf.data takes more than half of the room that is free.*TMPDIR"),
                                     ("tr '\\0' x </dev/zero", 4, r"refused: file 2 at 1: LineTooLong \(.*perf.data\)")):
            with self.subTest(prints):
                ran = self.with_room(1 << 23, WORDS, recording, environment=self.with_perf(f"case $1 in script) exec {prints} ;; esac"), prepare=lambda: limit_files(1 << 24))
                self.tells(ran, status, said)

    def test_perf_that_is_ended_leaves_no_half_text(self):
        """A stand-in for perf is ended by SIGPIPE with its text half printed, of which all was taken; by another it is an end of its own
        where no more is taken."""
        recording = self.file("perf.data", b"PERFILE2")
        for prints, said in (("head -n 1 \"%s\"; kill -PIPE $$" % TEXT, "it is a recording: .*perf script says: nothing, and ends with -13$"),
                             ("tr '\\0' x </dev/zero; exit 3", r"refused: file 2 at 1: LineTooLong \(.*perf.data\)")):
            with self.subTest(prints):
                self.judge(4, said, WORDS, recording, environment=self.with_perf(f"case $1 in script) {prints} ;; esac"))

    @needs("objcopy")
    def test_half_of_the_room_is_left_by_a_program(self):
        shutil.copy(WORDS, self.folder / "packed")
        self.assertEqual(self.run_here("objcopy", "--compress-debug-sections", "packed").status, 0)
        self.tells(self.with_room(1000, "packed", TEXT), 6, "write fault in .*packed takes more than half of the room.*TMPDIR")
        self.tells(self.with_room(1 << 20, "packed", TEXT), 0, "^$")

    def test_a_program_that_would_be_too_large_is_not_unpacked(self):
        """A section says that it is packed, and makes the program as large as pgo takes it, or larger: without what was packed. A stand-in
        for objcopy tells its calls."""
        os.mkdir(self.folder / "bin")
        self.file("bin/objcopy", f"#!/bin/sh\necho called >>'{self.folder}/calls'\nexit 1\n").chmod(0o755)
        data = bytearray(WORDS.read_bytes())
        section = DEMO.section(".debug_info")
        header = data.index(struct.pack("<QQ", section.offset, section.size), struct.unpack_from("<Q", data, 40)[0]) - 24
        data[header + 9] |= 8
        left = (1 << 30) - len(data) + section.size
        for size, calls in ((left, True), (left + 1, False)):
            struct.pack_into("<IIQ", data, section.offset, 1, 0, size)
            ran = self.with_room(1 << 40, self.file("large", data), TEXT, environment={"PATH": f"{self.folder}/bin:{os.environ['PATH']}"})
            self.tells(ran, 4, "Compressed .*large")
            self.assertEqual("calls" in self.names(), calls)
            self.file("calls").unlink()

    def with_room(self, room, *words, **how):
        """Runs it where so many bytes are free in each folder."""
        return python("-c", WITH_ROOM, str(room), SCRIPT, *words, "prof", folder=self.folder, **how)

    def test_a_text_without_a_last_line_feed(self):
        self.judge(0, r"cut.txt does not end with a line feed.*print the text again.*sed -i '\$d' cut.txt", WORDS, self.file("cut.txt", TEXT.read_bytes()[:-1]).name)


def limit_files(size):
    """No file gets larger, in the process that is begun."""
    import resource
    import signal
    signal.signal(signal.SIGXFSZ, signal.SIG_IGN)
    resource.setrlimit(resource.RLIMIT_FSIZE, (size, size))


class Words(Profiles):
    """What the words, the files and the place of the profile may be."""

    def test_misspelt(self):
        rows = [
            ("it takes three files.* here are 4", [WORDS, TEXT, "extra"]),
            ("there is no option -o: the third file is the profile", [WORDS, TEXT, "-o"]),
            ("there is no option --edges", ["--edges", WORDS, TEXT]),
            ("the name stands behind --map= without a space", ["--map=", WORDS, TEXT]),
            ("the name stands behind --map= without a space", ["--map", "/srv/app/words", WORDS, TEXT]),
            ("the number stands behind --pid= without a space", ["--pid", "7", WORDS, TEXT]),
            ("the number stands behind --pid=", ["--pid=words", WORDS, TEXT]),
            ("--map stands twice", ["--map=a", "--map=b", WORDS, TEXT]),
            ("options stand in front of the files: --base", [WORDS, TEXT, "--base"]),
            ("--base and --no-base do not go together", ["--base", "--no-base", WORDS, TEXT]),
            ("--also=.* is .* once more, and would count twice", [f"--also={WORDS}", WORDS, TEXT]),
            ("--also=.* is .* once more, and would count twice", ["--map=a", "--map=b", "--map=b", "--also=x", "--also=x", WORDS, TEXT]),
            ("a file has no name", ["", TEXT]),
        ]
        for said, words in rows:
            with self.subTest(said):
                self.judge(2, f"^usage: .*pgo-profile: {said}", *words)

    def test_places(self):
        def judge(status, said, out, *words):
            self.tells(self.run_here(SCRIPT, *(words or (WORDS, TEXT)), out), status, said)
        judge(6, "none/prof was not made: there is no folder .*none what helps: mkdir -p .*none", "none/prof")
        os.mkfifo(self.folder / "pipe")
        judge(6, "it is a device or a pipe", "pipe")
        os.mkdir(self.folder / "there")
        judge(6, "it is a folder", "there")
        judge(6, "it is the name of a folder", "new/")
        judge(2, "- is no name of one", "-")
        os.symlink("there/prof", self.folder / "link")
        judge(0, "^$", "link")
        judge(0, "^$", "link")
        self.assertTrue((self.folder / "link").is_symlink())
        self.assertEqual(self.names("there"), ["prof"])
        os.symlink("there/none/prof", self.folder / "astray")
        judge(6, "there is no folder .*none", "astray")
        own = self.file("own", WORDS.read_bytes())
        judge(2, "it is the program or the text: own", "own", "own", TEXT)
        self.assertEqual(own.read_bytes(), WORDS.read_bytes())
        for taken in (TEXT.read_bytes(), load_line("/srv/app/words"), gzip.compress(b"4011c0"), b"PERFILE2", WORDS.read_bytes()):
            # Two recordings and no profile: the second one stays.
            judge(2, "taken stays as it was: it is a program or a recording.*several recordings", self.file("taken", taken).name)
        for taken in (b"int main(void) {}\n", b"# words\nall:\n\tcc words.c\n", b"\x81\xff\0", b"#!/bin/sh\nexit\n"):
            judge(2, "taken stays as it was: it is no profile in text, and would be lost.*another name", self.file("taken", taken).name)
            self.assertEqual((self.folder / "taken").read_bytes(), taken)
        for profile in (b"", b"# branches 0\n", b"# made\n\nmain:7:1\n 1: 7\n"):
            judge(0, "^$", self.file("taken", profile).name)
        (self.folder / "taken").unlink()
        self.file("-text", TEXT.read_bytes())
        judge(0, "^$", "-prof", WORDS, "-text")
        self.assertEqual(self.names(), ["-prof", "-text", "astray", "link", "own", "pipe", "there"])

    def test_files(self):
        rows = [
            (3, "no such file: 1", ["none", TEXT]), (3, "no such file: 2", [WORDS, "none"]), (3, "no such file: 2 .*/dev/stdin", [WORDS, "-"]),
            (4, "NotElf.*the program first.*words is a program, and .*words.txt is none", [TEXT, WORDS]), (5, "read fault: file 2 .*this is a folder", [WORDS, "made"]),
            (4, "at 1: BadLine.*it is a program", [WORDS, WORDS]),
        ]
        words: Any
        for status, said, words in rows:
            with self.subTest(said):
                self.judge(status, said, *words)
        for said, raw in (("is a recording", b"PERFILE2h\0\0\0"), ("is a script", b"#!/bin/sh\nexec words\n"), ("is a static library", b"!<arch>\n"),
                          ("is empty", b""), ("is packed", gzip.compress(WORDS.read_bytes()))):
            with self.subTest(said):
                self.judge(4, f"NotElf.*bad {said}", self.file("bad", raw).name, TEXT)
        tar = b"words.txt".ljust(257, b"\0") + b"ustar  \0"
        for said, raw in (("a zip archive", b"PK\3\4\n\r"), ("a tar archive", tar), ("packed by lz4", b"\x04\x22\x4d\x18\nwords 7"), ("iconv", b"\xff\xfe4\0\n\0")):
            with self.subTest(said):
                self.judge(4, rf"BadLine \(bad\).*{said}", WORDS, self.file("bad", raw).name)
        self.judge(4, "BadLine.*it is no text", WORDS, self.file("bad", b"\xaa\0\n").name)
        self.judge(4, "NotElf.*words.c is a source file: the program that was built of it", TOP / "demo/words.c", TEXT)
        self.judge(4, "BadLine.*it is a source file: the text that perf script", WORDS, TOP / "demo/words.c")

    def test_no_room(self):
        whole = len(self.run_here(PGO, "profile", "--base", WORDS, TEXT).out)
        self.judge(6, "made/prof was not made: write fault", WORDS, TEXT, prepare=lambda: limit_files(whole))

    def test_programs_that_are_ended(self):
        """A signal is no status, and is told."""
        self.judge(6, "made/prof was not made: write fault: .*higher ulimit -f", WORDS, TEXT, prepare=lambda: limit_files(100))
        shutil.copy(WORDS, self.folder / "another")
        # One program takes pgo-cold alone, several take both.
        for name, variable, words in (("pgo", "PGO", ("--also=another", WORDS, TEXT)), ("pgo-cold", "PGO_COLD", (WORDS, TEXT))):
            with self.subTest(name):
                fake = self.file(f"fake/{name}", "#!/bin/sh\nkill -9 $$\n")
                fake.chmod(0o755)
                self.judge(1, f"made/prof was not made: {name} was ended by signal 9", *words, environment={variable: str(fake)})

    def test_alone(self):
        shutil.copy(SCRIPT, self.folder)
        ran = self.run_here("./pgo-profile", WORDS, TEXT, "prof", environment={"PYTHONPATH": None})
        self.tells(ran, 127, "there is no pgo_tools beside this script, or in ../share/pgo")
        os.makedirs(self.folder / "share/pgo")
        os.makedirs(self.folder / "bin")
        os.symlink(CONTRIB / "pgo_tools", self.folder / "share/pgo/pgo_tools")
        os.rename(self.folder / "pgo-profile", self.folder / "bin/pgo-profile")
        ran = self.run_here("bin/pgo-profile", WORDS, TEXT, "prof", environment={"PGO": None, "PATH": "/usr/bin:/bin"})
        self.tells(ran, 127, "there is no pgo beside this script")
        self.assertEqual(self.run_here("bin/pgo-profile", WORDS, TEXT, "prof").status, 0)


class Lines(Profiles):
    """Lines that are refused, by how they look."""

    def test_looks(self):
        rows = [
            ("           words            4011c0 0x4011ce/0x401160/P/-/-/23/\n", "no fields in front"),
            ("    7            4011c0 0x4011ce/0x401160/P/-/-/23/\n", "no fields in front"),
            ("cycles:HG:            4011c0 0x4011ce/0x401160/P/-/-/23/\n", "no fields in front"),
            ("           words     7       4999 cycles:HG:            4011c0 main+0x80 (/srv/app/words)\n", "no fields in front"),
            ("           4011c0 main 0x4011ce/0x401160/P/-/-/23/\n", "no names beside"),
            ("           4011c0main+0x8e/main+0x20/P/-/-/23/ main+0x8e/main+0x20/P/-/-/23/\n", "without sym or dso"),
            ("           4011c0[unknown]/[unknown]/P/-/-/23/ [unknown]/[unknown]/P/-/-/23/\n", "without sym or dso"),
            ("main:184:1\n", "it is a profile"), ("func main\n", "it is a block text"),
            ("           4011c0 (/srv/app/words) 0x4011ce(/srv/app/words)/0x401160(/srv/app/words)/P/-/-/23/\n", "without sym or dso"),
            ("0xe8@perf.data [0x20]: event: 3\n", "without -D"), (".  0000:  03 00 00 00 02 00 20 00  ...... .\n", "without -D"),
            ("401036 0x1/0x2\r\n", "the CR at its end"), ("           4011c0 0x4011ce/0x401160\r\n", "the CR at its end"),
            ("           4011c0 0x4011ce/zzz\n", "prints no such line"),
            ("\tmain:\n", "brstack and not brstackinsn"), ("\t0000000000401160\tinsn: 55 48 \t# PRED\n", "brstack and not brstackinsn"),
            ("Warning:\n", "perf's own message"), ("Processed 12 events and lost 3 chunks!\n", "perf's own message"),
            ("401036 0x1234567890123456789012/0x401160/P/-/-/23\n", "an address of more than 64 bits"),
            ("1234567890123456789012 0x4011ce/0x401160\n", "an address of more than 64 bits"),
        ]
        for line, said in rows:
            with self.subTest(line):
                self.judge(4, f"at 2: BadLine.*{said}", WORDS, self.file("bad", ONE + line.encode() + ONE))
        self.judge(4, r"at 2: BadLine.*was cut off: take it away \(sed '\$d'\)", WORDS, self.file("bad", ONE + b"           4011c0 0x4011ce/0x401160/P/-/-/23/  0x4011"))
        # A last line that is whole was not cut off.
        self.judge(4, "at 2: BadLine.*prints no such line", WORDS, self.file("bad", ONE + b"           4011c0 0x4011ce/zzz\n"))
        self.judge(4, "at 2: BadLine.*more than 64 bits", WORDS, self.file("bad", ONE + b"401036 0x1234567890123456789012/0x401160"))
        crlf = "PERF_RECORD_MMAP2 7/7: [0x401000(0x1000) @ 0x1000 08:02 5 0]: r-xp /srv/app/words\n401036 0x1/0x2\r\n"
        self.judge(4, "at 2: BadLine.*the CR at its end", WORDS, self.file("bad", crlf))

    def test_joined_lines(self):
        self.judge(4, "at 2: TooManyEntries.*what helps: the text as perf printed it, its lines not joined$", WORDS,
                   self.file("bad", ONE + b"401036" + b" 0x4011ce/0x401160" * 1025 + b"\n"))

    def test_no_byte_of_a_line_reaches_the_terminal_raw(self):
        ran = self.judge(4, "BadLine", WORDS, self.file("bad", ONE + b"\x1b]0;title\x07 \x9b1m\n"))
        self.assertNotRegex(ran.err, rb"[\x00-\x09\x0b-\x1f\x7f-\xff]")


class Empty(Profiles):
    """A profile of nothing: what was wrong, and what helps."""

    def test_texts(self):
        self.judge(1, "empty is empty", WORDS, self.file("empty").name)
        self.judge(1, "alone has no branches.*perf record -b", WORDS, self.file("alone", "401036\n401040\n").name)
        offsets = re.sub(r"0x40([0-9a-f]*)", r"0x\1", TEXT.read_text())
        self.judge(1, "none of 4768 branches.*not brstackoff", WORDS, self.file("offsets", offsets))
        elsewhere = re.sub(r"0x([0-9a-f]+)/0x([0-9a-f]+)", r"0x55d0\1/0x55d0\2", TEXT.read_text())
        self.judge(1, "none of .* branches is of .*the binary that ran", WORDS, self.file("elsewhere", elsewhere))

    def test_the_kernel(self):
        kernel = b"           401330" + b" 0xffffffff81000010/0xffffffff81000000" * 32 + b"\n"
        raw = TEXT.read_bytes()
        self.judge(0, "9600 of 14368 branches are of the kernel.*perf record -b -e cycles:u", WORDS, self.file("text", raw + kernel * 300))
        self.judge(0, "", WORDS, self.file("text", raw + kernel * 20))

    def test_interrupts_are_no_other_binary(self):
        """They lead from any instruction into the kernel."""
        strange = b"".join(b"           401330 %#x/0xffffffff81000000\n" % at for at in range(0x401160, 0x4013f0, 4))
        self.judge(0, "", WORDS, self.file("text", TEXT.read_bytes() + strange * 9))
        inside = strange.replace(b"0xffffffff81000000", b"0x401160")
        self.judge(1, "start where .* has no branch: another binary ran", WORDS, self.file("text", TEXT.read_bytes() + inside * 9))

    def test_another_machine(self):
        """The demo as if it were a program for AArch64, whose instructions begin at multiples of four."""
        program = bytearray(WORDS.read_bytes())
        program[18:20] = (183).to_bytes(2, "little")
        said = "arm is a program for AArch64, and of .* start where it can have no instruction: the samples are of another machine"
        self.judge(1, said, self.file("arm", bytes(program)).name, TEXT)
        self.judge(0, said, "--other-build", "arm", TEXT)
        elsewhere = re.sub(r"0x([0-9a-f]+)/0x([0-9a-f]+)", r"0x55d0\1/0x55d0\2", TEXT.read_text())
        self.judge(1, said, "arm", self.file("elsewhere", elsewhere))
        even = re.sub(r"0x([0-9a-f]+)[0-9a-f]/0x([0-9a-f]+)[0-9a-f]", r"0x\g<1>0/0x\g<2>0", TEXT.read_text())
        self.assertNotIn(b"another machine", self.make("arm", self.file("even", even)).err)

    @needs("objcopy", "strip")
    def test_a_debug_file_that_is_missing(self):
        shutil.copy(WORDS, self.folder / "whole")
        self.run_here("objcopy", "--only-keep-debug", "whole", "words.debug")
        self.run_here("objcopy", "--strip-all", "--add-gnu-debuglink=words.debug", "whole", "words")
        os.unlink(self.folder / "words.debug")
        self.judge(1, "its debug file words.debug is not there.*words.debug beside it, or below /usr/lib/debug", "words", TEXT)

    def test_the_section_of_a_fault(self):
        """An entry of the demo's first unit with a number of no abbreviation."""
        program = bytearray(WORDS.read_bytes())
        at = next(each.offset for each in Elf(str(WORDS)).sections if each.name == ".debug_info")
        program[at + 12] = 0x7F
        self.judge(4, r"UnknownAbbrev \(bad\), byte 0xc of .debug_info, in the unit at 0x0 what helps", self.file("bad", bytes(program)).name, TEXT)

    @needs("cc")
    def test_programs(self):
        rows = [("has no debugging information .*build with -g", ["-no-pie"]), ("it is stripped .*before strip", ["-no-pie", "-s"]), ("split, or of DWARF 2 or 3", ["-no-pie", "-gdwarf-2"]), ("split", ["-no-pie", "-g", "-gsplit-dwarf"])]
        for said, flags in rows:
            with self.subTest(said):
                self.judge(1, said, self.build("program", "-O1", *flags), TEXT)


class Names(Profiles):
    """By which name a program was loaded: given, or found."""

    def loaded(self, *lines):
        return self.file("loaded", "".join(lines) + TEXT.read_text()).name

    def test_given(self):
        self.judge(0, "", "--map=/srv/app/words", WORDS, self.loaded(load_line("/srv/app/words")))
        self.judge(1, 'no load line has this name: words .*--map="/srv/app/words"', "--map=words", WORDS, "loaded")
        self.judge(1, "no load line has this name.*show-mmap-events", "--map=/srv/app/words", WORDS, TEXT)
        replaced = self.loaded(load_line("/srv/app/words (deleted)"))
        self.judge(1, r'no load line has this name: /srv/app/words .*--map="/srv/app/words \(deleted\)"', "--map=/srv/app/words", WORDS, replaced)
        self.judge(0, "", "--map=/srv/app/words (deleted)", WORDS, replaced)

    def independent(self):
        """A position-independent program, and lines of a text in which it was loaded far away: a call of main's, many times."""
        program = self.build("program", "-O1", "-g", "-fPIE", "-pie")
        told = self.run_here("objdump", "-d", "--no-show-raw-insn", program).out.decode()
        main = found_in(r"<main>:(.*?)\n\n", told + "\n\n", re.DOTALL)[1]
        start = int(found_in(r"([0-9a-f]+):", main)[1], 16)
        call = int(found_in(r"([0-9a-f]+):\tcall", main)[1], 16)
        base = 0x10000000000
        branch = f"0x{base + call:x}/0x{base + start:x}"
        text = f"{branch} {branch}\n" * 300
        line = f"program 7 PERF_RECORD_MMAP2 7/7: [0x{base:x}(0x10000) @ 0 %s]: r-xp %s\n"
        return program, line, text

    @needs("objdump", "cc")
    def test_one_program_twice(self):
        """One name is given and the other one found, or own addresses are those of the load line. Two names are two loads."""
        program, line, text = self.independent()
        loads = [line % ("08:02 5 0", name) for name in ("/srv/app/program", "/srv/old/program")]
        one, two = self.file("one", loads[0] + text).name, self.file("two", "".join(loads) + text).name
        fixed = self.file("fixed", load_line("/srv/app/words") + TEXT.read_text()).name
        self.judge(2, "--also=program is .* once more, and would count twice", "--map=/srv/app/program", "--also=program", program, one)
        self.judge(2, "--also=.* is .* once more, and would count twice", "--map=/srv/app/words", f"--also={WORDS}", WORDS, fixed)
        self.judge(0, "no branch is of /srv/app/program, though", "--map=/srv/app/program", "--map=/srv/old/program", "--also=program", program, two)

    @needs("objdump", "cc", "objcopy")
    def test_a_debug_file(self):
        """A debug file lies at other offsets than the program that was loaded, so its profile would be of wrong lines."""
        program, line, text = self.independent()
        self.run_here("objcopy", "--only-keep-debug", program, "program.debug")
        self.file("loaded", line % ("08:02 5 0", "/srv/app/program") + text)
        self.file("kept", "old:1:1\n")
        for words in (["--map=/srv/app/program", "program.debug"], ["--map=/srv/app/program", "--other-build", "program.debug"]):
            with self.subTest(words):
                self.tells(self.run_here(SCRIPT, *words, "loaded", "kept"), 1, "kept stays as it was: .*(is a debug file|though it was loaded).*eu-unstrip")
        self.assertEqual((self.folder / "kept").read_text(), "old:1:1\n")

    @needs("objdump", "cc")
    def test_found(self):
        program, line, text = self.independent()
        number = re.search(r"Build ID: ([0-9a-f]+)", self.run_here("readelf", "-n", program).out.decode())
        one, plain = line % ("08:02 5 0", "/srv/app/program"), "08:02 5 0"
        self.judge(0, "", program, self.file("loaded", one + text).name)
        self.judge(0, "", program, self.file("loaded", line % (plain, "/usr/lib/libc.so.6") + one + text).name)
        self.judge(0, "", program, self.file("loaded", line % (plain, "/srv/app/program (deleted)") + text).name)
        two = self.file("loaded", line % (plain, "/srv/old/program") + one + text).name
        self.judge(1, "load lines have 2 names that fit .*--map=\"/srv/app/program\" --map=\"/srv/old/program\"", program, two)
        self.judge(0, "", "--map=/srv/app/program", program, two)
        many = self.file("loaded", "".join(line % (plain, f"/srv/{number:03}/program") for number in range(100)) + text).name
        self.judge(1, 'load lines have 100 names that fit .*--map="/srv/004/program" and 95 more$', program, many)
        self.judge(1, 'no load line has this name: none .*--map="/srv/004/program" and 95 more$', "--map=none", program, many)
        other = self.file("loaded", line % (plain, "/srv/app/service") + text).name
        self.judge(1, 'is position-independent.*--map="/srv/app/service"', program, other)
        self.judge(1, "is position-independent.*show-mmap-events", program, TEXT)
        self.judge(1, "is position-independent", program, "/dev/stdin", given=TEXT.read_bytes())
        if number:
            elsewhere = line.replace("0x10000000000", "0x20000000000") % ("<0123>", "/srv/app/program")
            by_number = line % (f"<{number[1]}>", "/srv/app/service") + elsewhere
            self.judge(0, "", program, self.file("loaded", by_number + text).name)
            self.assertIn("main:", self.made)


class Builds(Profiles):
    """Another build than the one that ran."""

    @needs("objdump", "cc", "readelf")
    def test_numbers(self):
        program = self.build("program", "-O1", "-g", "-no-pie", "-Wl,--build-id")
        number = found_in(r"Build ID: ([0-9a-f]+)", self.run_here("readelf", "-n", program).out.decode())[1]
        told = self.run_here("objdump", "-d", program).out.decode()
        main = found_in(r"([0-9a-f]+) <main>:(.*?)\n\n", told, re.DOTALL)
        call = found_in(r"([0-9a-f]+):\t[^\n]*call", main[2])[1]
        branch = f"0x{call}/0x{main[1]} " * 2 + "\n"
        text = branch * 300
        good = load_line("/srv/program", number)
        named = ["--map=/srv/program", "program"]
        self.judge(0, "", *named, self.file("loaded", good + text).name)
        self.judge(0, "", *named, self.file("loaded", load_line("/srv/programs", "0123") + good + text).name)
        for words in (named, ["program"]):
            self.judge(1, "was not made: the build 0123 ran, and program is ", *words, self.file("both", good + load_line("/srv/program", "0123") + text).name)
            bad = self.file("loaded", load_line("/srv/program", "0123") + text).name
            self.judge(1, "was not made: the build 0123 ran, and program is .*or --other-build", *words, bad)
            self.judge(0, "made/prof again: the build 0123 ran, and program is ", "--other-build", *words, bad)
        self.file("kept", "old:1:1\n")
        self.tells(self.run_here(SCRIPT, *named, "loaded", "kept"), 1, "kept stays as it was: the build 0123 ran")
        self.assertEqual((self.folder / "kept").read_text(), "old:1:1\n")

    @needs("cc")
    def test_branches(self):
        self.build("program", "-O1", "-g", "-no-pie")
        strange = "start where program has no branch.*the binary that ran"
        self.judge(1, f"was not made: .*{strange}.*or --other-build", "program", TEXT)
        self.judge(1, f"was not made: .*{strange}.*or --other-build", "program", "/dev/stdin", given=TEXT.read_bytes())
        self.judge(0, f"made/prof again: .*{strange}", "--other-build", "program", TEXT)
        self.file("kept", "old:1:1\n")
        self.tells(self.run_here(SCRIPT, "program", TEXT, "kept"), 1, "kept stays as it was: of the .* start where program has no branch")
        self.assertEqual((self.folder / "kept").read_text(), "old:1:1\n")

    @needs("cc", "readelf")
    def test_the_build_id_decides(self):
        """Branches that start where a program has none are nothing to go by, if the load lines have the build ID of this very program."""
        program = self.build("program", "-O1", "-g", "-no-pie", "-Wl,--build-id")
        number = found_in(r"Build ID: ([0-9a-f]+)", self.run_here("readelf", "-n", program).out.decode())[1]
        self.judge(0, "", program, self.file("loaded", load_line("/srv/program", number) + TEXT.read_text()).name)
        two = load_line("/srv/program", number) + load_line("/srv/program", "0123")
        self.judge(1, "was not made: the build 0123 ran", program, self.file("loaded", two + TEXT.read_text()).name)

    @needs("cc")
    def test_a_kernel(self):
        """A kernel changes its code while it runs, so strange branches are a warning."""
        source = self.file("kernel.c", "volatile int sum;\nint work(int n) { while (n) sum += n--; return sum; }\nvoid _start(void) { work(3); }\n")
        high = ["-mcmodel=kernel", "-fno-pic", "-nostdlib", "-static", "-Wl,-Ttext=0xffffffff81001000"]
        self.build("vmlinux", "-O1", "-g", "-no-pie", *high, source=source)
        branches = "".join(f"0xffffffff810010{at:02x}/0xffffffff81001000 " for at in range(16)) + "\n"
        self.judge(0, "[0-9][0-9] most frequent branches .* start where vmlinux has no branch", "vmlinux", self.file("text", branches * 50).name)


class Information(Profiles):
    """Debugging information that is packed, or stands in a file of its own."""

    def set_up(self, *flags):
        self.build("program", "-O1", "-g", "-no-pie", *flags)

    @needs("cc", "objcopy", "strip")
    def test_without_tools(self):
        self.set_up("-gz")
        bare = self.only_tools("python3", "env")
        self.judge(4, "Compressed.*objcopy --decompress-debug-sections program program.plain", "program", TEXT, environment=bare)
        self.run_here("strip", "-o", "stripped", "program")
        self.judge(1, "has no debugging information", "stripped", TEXT)

    @needs("cc", "objcopy")
    def test_packed(self):
        self.set_up("-gz")
        self.judge(0, "start where program has no branch", "--other-build", "program", TEXT)

    @needs("objcopy", "eu-unstrip")
    def test_a_debug_file(self):
        shutil.copy(WORDS, self.folder / "whole")
        self.run_here("objcopy", "--only-keep-debug", "--compress-debug-sections", "whole", "words.debug")
        self.run_here("objcopy", "--strip-all", "--add-gnu-debuglink=words.debug", "whole", "words")
        self.judge(0, "", "words", TEXT)
        self.assertEqual(without_cold(self.made), expected())
        os.mkdir(self.folder / ".debug")
        os.rename(self.folder / "words.debug", self.folder / ".debug/words.debug")
        self.judge(0, "", "words", TEXT)
        self.build("other", "-g", "-no-pie")
        self.run_here("objcopy", "--only-keep-debug", "other", ".debug/words.debug")
        self.judge(1, "has no debugging information", "words", TEXT)

    @needs("cc", "objcopy", "readelf", "nm")
    def test_a_debug_file_alone(self):
        self.set_up()
        self.run_here("objcopy", "--only-keep-debug", "program", "program.debug")
        loaded = self.file("loaded", load_line("/srv/program") + TEXT.read_text()).name
        self.judge(1, "no branch is of /srv/program, though it was loaded.*eu-unstrip", "--map=/srv/program", "program.debug", loaded)


@needs("clang-14")
class Spoiled(Profiles):
    """Builds by which a profile is worth nothing, and recordings that are too short."""

    def sources(self):
        """Compilers, each with a program of C and one of C++."""
        source = self.file("words.cc", "extern \"C\" {\n#include \"words.c\"\n}\n")
        shutil.copy(TOP / "demo/words.c", self.folder)
        for cc in filter(shutil.which, ("clang-14", "clang-19")):
            yield from ((cc, "C", TOP / "demo/words.c"), (cc, "C++", source))

    def test_options(self):
        for cc, name, path in self.sources():
            for flags, is_good in ((["-g"], False), (["-gmlt"], False), (["-g", "-fdebug-info-for-profiling"], True),
                                   (["-gmlt", "-fdebug-info-for-profiling"], True)):
                with self.subTest(f"{cc} {name} {flags}"):
                    self.one_build(cc, path, flags, is_good)

    def program(self, cc, path, flags):
        more = ["-x", "c++", "-fpermissive"] if str(path).endswith(".cc") else []
        return self.build("program", "-O2", "-no-pie", *flags, *more, source=path, cc=cc)

    def one_build(self, cc, path, flags, is_good):
        program = self.program(cc, path, flags)
        text = self.text_of(program)
        said = "built without -fdebug-info-for-profiling.*-g -fdebug-info-for-profiling on the build that is sampled"
        self.judge(0, "" if is_good else said, program.name, text)

    def text_of(self, program):
        """A text in which each instruction of the program's own functions that branches was sampled, with all before it."""
        told = self.run_here("objdump", "-d", "--no-show-raw-insn", program).out.decode()
        lines = []
        for body in re.findall(r"<(?:main|count_word|insert|_Z[^>]*|[a-z_]*word[a-z_]*|by_times|next_random|make_text)>:\n(.*?)\n\n", told, re.DOTALL):
            rows = re.findall(r"^ *([0-9a-f]+):\t(\S+)", body, re.MULTILINE)
            ends = [at for at, what in rows if what.startswith(("j", "call", "ret"))]
            if ends:
                lines.append("".join(f" 0x{at}/0x{rows[0][0]}" for at in reversed(ends)))
        return self.file("text", ("\n".join(lines) + "\n") * 100).name

    def test_few_samples_of_each_compiler(self):
        for cc, name, path in self.sources():
            with self.subTest(f"{cc} {name}"):
                program = self.program(cc, path, ["-g", "-fdebug-info-for-profiling"])
                sample = (self.folder / self.text_of(program)).read_text().split("\n")[0]
                self.judge(0, "too few samples: .*record longer", program.name, self.file("few", sample + "\n"))

    def test_few_samples(self):
        self.judge(0, "too few samples: .* times as many: record longer", WORDS, self.file("few", b" ".join(ONE.split()[:4]) + b"\n"))
        # A loop in one sample: each of its lines was met often, by branches that hang together.
        again = "           401330" + " 0x4013df/0x401397" * 32 + "\n"
        self.judge(0, "too few samples: 288 branches in all", WORDS, self.file("few", again * 9))


class Several(Profiles):
    """A program and its libraries, in one profile."""

    @needs("objdump", "cc")
    def test_two(self):
        self.build("program", "-O1", "-g", "-no-pie")
        ran = self.make("--other-build", "--also=program", WORDS, TEXT)
        self.assertEqual(ran.status, 0)
        self.assertRegex(ran.out.decode(), r"85% of 4768 branches are of .*words, [0-9]+% of program\n")
        self.assertRegex(self.made, r"\n# also build [0-9a-f]+\n# build [0-9a-f]+\n\Z")
        merged = self.file("merged", self.made)
        self.assertEqual(self.run_here(PGO, "summary", merged).status, 0)

    def keeps_cold_lines(self):
        """The pgo-cold that is tried keeps lines of count 0 of functions that its binary has not."""
        text = self.file("cold.prof", "elsewhere:1:1\n 1: 1\n 2: 0\n")
        return b" 2: 0\n" in self.run_here(COLD, WORDS, text).out

    @needs("gcc", "nm")
    def test_lines_of_count_0_of_both(self):
        if not self.keeps_cold_lines():
            self.skipTest("this pgo-cold drops the lines of count 0 that another one added")
        source = self.file("shape.c", "int shape(int n)\n{\n    if (n > 5)\n        return n * 2;\n    if (n < -7)\n        n = n / 3;\n    return n + 1;\n}\n")
        self.build("libshape.so", "-O1", "-g", "-shared", "-fPIC", source=source, cc="gcc")
        told = self.run_here("nm", "libshape.so").out.decode()
        start = 0x20000000000 + int(found_in(r"([0-9a-f]+) T shape", told)[1], 16)
        load = "words 7 PERF_RECORD_MMAP2 7/7: [0x20000000000(0x10000) @ 0 08:02 6 0]: r-xp /srv/app/libshape.so\n"
        samples = f"0x{start + 1:x}/0x{start:x} 0x{start + 1:x}/0x{start:x}\n" * 50
        ran = self.make("--also=libshape.so", WORDS, self.file("loaded", load + TEXT.read_text() + samples))
        self.assertEqual(ran.status, 0, ran.said)
        for name in ("shape", "main"):
            self.assertRegex(self.made, rf"(?m)^{name}:[0-9:]+\n(?: .*\n)* +[0-9.]+: 0$")

    def test_one_of_nothing(self):
        self.file("other", WORDS.read_bytes())
        self.judge(0, "no load line has this name: /srv/none", "--map=/srv/app/words", "--map=/srv/none", "--also=other", WORDS,
                   self.file("loaded", load_line("/srv/app/words") + TEXT.read_text()))
        self.assertEqual(without_cold(self.made)[: expected().index("#")], expected()[: expected().index("#")])


class Shares(Profiles):
    """Programs of several compilers."""

    @needs("gcc", "clang-14")
    def test_two_makers(self):
        self.file("a.c", "int other(int); int main(int n, char **w) { int s = 0; for (int i = 0; i < 99; i++) s += other(i); return s & 1; }\n")
        self.file("b.c", "int other(int n) { return n * 3 + 1; }\n")
        for cc, name in (("gcc", "a"), ("clang-14", "b")):
            self.assertEqual(self.run_here(cc, "-O1", "-g", "-c", f"{name}.c").status, 0)
        self.assertEqual(self.run_here("gcc", "-no-pie", "a.o", "b.o", "-o", "both").status, 0)
        told = self.run_here("nm", "both").out.decode()
        main = int(found_in(r"([0-9a-f]+) T main", told)[1], 16)
        self.judge(0, r"several compilers made both \((clang|gcc) \d+%, (clang|gcc) \d+%\)", "both", self.file("text", f"0x{main + 4:x}/0x{main:x}\n" * 50))

    def test_many_makers(self):
        table = abbreviation(1, 0x11, 0, (0x25, STRING)) + b"\0"
        units = [b"%03d made it\0" % number for number in range(100)]
        units = [struct.pack("<IHIBB", 8 + len(each), 4, DEMO.section(".debug_abbrev").size, 8, 1) + each for each in units]
        many = self.file("many", demo_with(info=b"".join(units), abbrev=table)["bin"])
        self.judge(0, r"several compilers made .*many \(clang \d+%, 000 [^,]*, 001 [^,]*, 002 [^,]*, 003 [^,]*, and 96 more\)", many, TEXT)

    @needs("gcc")
    def test_gcc_with_base(self):
        self.build("program", "-O1", "-g", "-no-pie", cc="gcc")
        self.judge(0, "gcc made program, and --base is for binaries of clang and rustc.*without --base", "--other-build", "--base", "program", TEXT)


if __name__ == "__main__":
    unittest.main()
