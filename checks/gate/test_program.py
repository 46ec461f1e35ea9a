"""The built program on real files: its output, its error output and its exit status, byte by byte.

The expected bytes are worked out by hand, but for the demo's, which another program counted. What it writes of binaries of which each
byte is known is tried by test_known.py.
"""
import os
import random
import re
import shutil
import unittest
from typing import Any

from common import (
    BAD_WORDS, BLOCKS, DONE, HERE, MISSING, NO_MEMORY, PGO, READ_FAULT, REFUSED, TEXT, TOP, USAGE, WORDS, WRITE_FAULT, Case, into_closed_pipe,
    needs, needs_file, on_closed_output, python, takes, within, found_in)

import make

TWO = (
    "401036 0x401038/0x401036/P/-/-/1 0x40100c/0x401020/P/-/-/1 0x401034/0x401000/P/-/-/1\n"
    "401036 0x401038/0x401036/P/-/-/1 0x401004/0x401010/P/-/-/1\n"
)
TWO_COUNTS = "0x401004 0x401010 1\n0x40100c 0x401020 1\n0x401034 0x401000 1\n0x401038 0x401036 2\n# branches 5\n"
EXPECTED = HERE / "program"
LITTLE = "ulimit -v 16000"


def bytes_of(path):
    with open(path, "rb") as file:
        return file.read()


def profile_lines(text):
    return b"".join(line for line in text.splitlines(keepends=True) if not line.startswith(b"#"))


class Program(Case):
    """Cases of the built program, in a folder of files."""

    def pgo(self, *words, **how):
        return self.run_here(PGO, *words, **how)

    def answers(self, title, status, out, err, *words, **how):
        self.expects(title, self.pgo(*words, **how), status, out, err)

    def counts(self, title, text, out):
        self.file("text", text)
        self.answers(title, DONE, out, "", "counts", "text")

    def refuses(self, title, at, kind, text):
        """The text is refused there."""
        self.file("text", text)
        self.answers(title, REFUSED, "", f"refused: file 1 at {at}: {kind}\n", "counts", "text")

    def misspelt(self, *words):
        self.answers(f"the words {' '.join(words)}", BAD_WORDS, b"", USAGE, *words)


class Counts(Program):
    def test_good_texts(self):
        self.counts("two samples", TWO, TWO_COUNTS)
        self.counts("an empty text", "", "# branches 0\n")
        self.counts("no line feed at the end", "0x1/0x2", "0x1 0x2 1\n# branches 1\n")
        self.counts("tabs and blank lines", "\t401036\t0x1/0x2\t \t0x3/0x4\t\n \t \n\n", "0x1 0x2 1\n0x3 0x4 1\n# branches 2\n")
        self.counts(
            "comments, records and a CR behind a slash",
            "# a comment 0x1/0x2\n0x1/0x2/P\r\nserver PERF_RECORD_MMAP2 4711\n0x1/0x2\n", "0x1 0x2 2\n# branches 2\n",
        )
        self.counts(
            "digits of either case, and leading zeros",
            "0xABCDEF/0xabcdef\n0x00000000000000000000aBcDeF/0xffffffffffffffff\n",
            "0xabcdef 0xabcdef 1\n0xabcdef 0xffffffffffffffff 1\n# branches 2\n",
        )
        self.counts("an instruction pointer alone", "401036\n0x401036\n", "# branches 0\n")
        self.counts(
            "by numbers, the source first", "0x10/0x1\n0x9/0x10\n0x9/0x2\n0x10/0x1/P//\n",
            "0x9 0x2 1\n0x9 0x10 1\n0x10 0x1 2\n# branches 4\n",
        )
        entries = "  0x401038/0xffffffff81e00010/P/-/-/0//-  0xffffffff81e01020/0x401036/M/-/-/12//-" * 16
        self.counts(
            "a line as perf prints it", f"          401036{entries}\n",
            "0x401038 0xffffffff81e00010 16\n0xffffffff81e01020 0x401036 16\n# branches 32\n",
        )
        self.counts("the most entries", " 0x1/0x2" * 1024, "0x1 0x2 1024\n# branches 1024\n")
        self.counts("the longest line", " " * 65536, "# branches 0\n")
        self.answers("the demo", DONE, bytes_of(EXPECTED / "demo.expected"), "", "counts", TOP / "demo" / "branches.txt")

    def test_bad_lines(self):
        self.refuses("a bad field", 3, "BadLine", TWO + "401036 zz\n0x1\n")
        self.refuses("the first of several", 1, "BadLine", "401036 zz\n" + TWO + "401036 zz\n0x1\n")
        self.refuses("a bad line far down", 20000, "BadLine", "401036 0x1/0x2\n" * 19999 + "401036 0x1/2\n")
        self.refuses("a CR behind a number", 1, "BadLine", "0x1/0x2\r\n")
        self.refuses("a # behind a space", 1, "BadLine", " # 0x1/0x2\n")
        self.refuses("a prefix alone", 1, "BadLine", "0x\n")
        self.refuses("an instruction pointer in a later place", 1, "BadLine", "0x1/0x2 401036\n")
        self.refuses("a target past 64 bits", 1, "BadLine", "0x1/0x10000000000000000\n")
        self.refuses("a capital X", 2, "BadLine", "\n0X1/0x2\n")
        self.refuses("too many entries", 1, "TooManyEntries", " 0x1/0x2" * 1025)
        self.refuses("too many entries, and a bad one", 1, "BadLine", " 0x1/0x2" * 1025 + " zz\n")
        self.refuses("too long a blank line", 1, "LineTooLong", " " * 65537)
        self.refuses("too long a bad line", 1, "LineTooLong", " " * 65537 + "zz\n")
        self.refuses("too long a line of too many entries", 1, "LineTooLong", " 0x1/0x2" * 8193)
        self.refuses("too long a comment", 2, "LineTooLong", "0x1/0x2\n#" + " " * 65536 + "\n")
        self.refuses("a byte order mark", 1, "BadLine", b"\xef\xbb\xbf0x1/0x2\n")
        self.refuses("a compressed text", 1, "BadLine", b"\x1f\x8b\x08\0\0\0\0\0\0\3\n")
        self.refuses("a text of NULs", 1, "LineTooLong", bytes(100000))

    def test_little_memory(self):
        self.file("text", "".join(f"0x{k:x}/0x{k:x}\n" for k in range(1, 300001)))
        ran = self.run_here(*within(LITTLE, PGO, "counts", "text"))
        self.expects("branches that memory does not hold", ran, NO_MEMORY, "", "no memory\n")

    def piped(self, title, pipe, status, out, err):
        """What is printed of the input, which a pipe of the shell gives; `program` stands for the call."""
        script = pipe.replace("program", '"$0" counts /dev/stdin')
        self.expects(title, self.run_here("sh", "-c", script, PGO, limit=600), status, out, err)

    def test_pipes(self):
        self.answers("a pipe", DONE, TWO_COUNTS, "", "counts", "/dev/stdin", given=TWO.encode())
        self.piped(
            "a pipe that waits within a last line without a line feed", "{ printf '0x1/0x2\n0x1/'; sleep 1; printf '0x2'; } | program",
            DONE, "0x1 0x2 2\n# branches 2\n", "",
        )
        self.piped("a pipe without end whose first line is bad", "yes zz | program", REFUSED, "", "refused: file 1 at 1: BadLine\n")

    @takes(20)
    def test_a_gigabyte_in_little_memory(self):
        line = "401036  0x401038/0x401036/P/-/-/1//-  0x40100c/0x401020/P/-/-/1"
        self.piped(
            "lines", f"yes '{line}' | head -c 1073741888 | ({LITTLE} && program)", DONE,
            "0x40100c 0x401020 16777217\n0x401038 0x401036 16777217\n# branches 33554434\n", "",
        )

    def test_a_line_of_a_gigabyte_in_little_memory(self):
        self.piped(
            "one line", f"{{ printf '0x1/0x2\n'; head -c 1073741824 /dev/zero; }} | ({LITTLE} && program)", REFUSED, "",
            "refused: file 1 at 2: LineTooLong\n",
        )


class Words(Program):
    def test_words(self):
        self.file("text", TWO)
        words: Any
        for words in [
            [], ["count", "text"], ["counts"], ["counts", "text", "text"], ["counts", "--base"], ["where", "text", "401000", "--base"],
            ["where", "text", "xyz"], ["--help", "nothing"], ["--help", "--help"], ["--help", "counts", "where"], ["-h", "counts"],
            ["counts", "--help"], ["--help", "notelf"], ["--version", "counts"],
        ]:
            self.misspelt(*words)

    def test_help(self):
        told = bytes_of(EXPECTED / "help.expected")
        self.answers("the version", DONE, "pgo 1.0.0\n", "", "--version")
        self.answers("the help", DONE, told, "", "--help")
        self.answers("the help by a letter", DONE, told, "", "-h")
        self.answers(
            "the help on a kind", DONE,
            "NotElf64Little: an ELF file of 32 bits, or big-endian.\nWhat helps: a program of 64 bits, little-endian.\n", "",
            "--help", "NotElf64Little",
        )
        for command in ("counts", "where", "profile", "build", "check", "make", "merge", "summary", "lift"):
            files = command in ("counts", "where", "profile", "build")
            with self.subTest(f"the help on {command}"):
                ran = self.pgo("--help", command)
                self.assertEqual((ran.status, ran.err), (DONE, b""))
                text = ran.out.decode()
                self.assertRegex(text, rf"(?m)^pgo {command} .*(PERF|HEX|CFG)$" if files else rf"(?m)^pgo {command} ")
                self.assertRegex(text, rf"(?m)^  pgo {command} .*demo/" if files else rf"(?m)^  pgo {command} ")


@needs("cc", "nm", "strip", "objcopy", "readelf")
class Compiled(Program):
    """Binaries that are compiled here."""

    def setUp(self):
        super().setUp()
        self.file("program.c", "int next(int n) { return n + 1; }\nint main(void) { return next(0); }\n")

    def made(self, *options, out="binary"):
        if self.run_here("cc", *options, "program.c", "-o", out).status:
            self.skipTest(f"cc does not take {' '.join(options)}")

    def address(self, name):
        """The address of a function of the binary."""
        return found_in(rf"^([0-9a-f]+) \w {name}$", self.run_here("nm", "binary").out.decode(), re.M)[1]

    def finds(self, title, status, out, err, *words):
        """What it answers, without what depends on the compiler: lines, and places in the file."""
        ran = self.pgo(*words)
        ran = ran._replace(out=re.sub(rb"(?m)^main [0-9.]*$", b"main", ran.out), err=re.sub(rb" at [0-9]*:", b":", ran.err))
        self.expects(title, ran, status, out, err)

    def test_versions(self):
        for version in (4, 5):
            with self.subTest(f"DWARF {version}"):
                self.made("-g", f"-gdwarf-{version}", "-static", "-no-pie")
                main = self.address("main")
                self.finds("a function", DONE, "main\n", "", "where", "binary", main)
                self.finds("bases", DONE, "main\n", "", "where", "--base", "binary", f"0x{main}")
                self.answers("an address of no function", DONE, "outside\n", "", "where", "binary", "0")
                self.run_here("strip", "-o", "stripped", "binary")
                self.answers("no debugging information", DONE, "outside\n", "", "where", "stripped", main)
                if self.run_here("objcopy", "--compress-debug-sections", "binary", "packed").status:
                    self.skipTest("objcopy does not compress sections")
                self.finds("compressed sections", REFUSED, "", "refused: file 1: Compressed\n", "where", "packed", main)
                self.run_here("objcopy", "--decompress-debug-sections", "packed")
                self.finds("sections that were compressed", DONE, "main\n", "", "where", "packed", main)

    def test_relocatable(self):
        self.made("-g", "-c", out="part.o")
        self.answers("a relocatable file", REFUSED, "", "refused: file 1 at 16: BadType\n", "where", "part.o", "0")

    def profiled(self, title, out, *options):
        """The profile of the binary and the text `loaded`, with the number of units left out."""
        ran = self.pgo("profile", *options, "binary", "loaded")
        self.expects(title, ran._replace(out=re.sub(rb"# units read [0-9]*", b"# units read N", ran.out)), DONE, out, "")

    def maps(self, title, *options):
        """A program that was run 2^40 bytes further up than its file says. The profile has one call of `next` from `main` with
        `--map=/srv/program`, and none with another name or without one."""
        self.made("-g", *options)
        headers = self.run_here("readelf", "-lW", "binary").out.decode()
        at, start, _, _, length = found_in(r"LOAD\s+(\S+)\s+(\S+)\s+(\S+)\s+(\S+)\s+(\S+)\s+R E", headers).groups()
        up = 1 << 40
        call, callee = up + int(self.address("main"), 16), up + int(self.address("next"), 16)
        load = f"[{up + int(start, 16):#x}({length}) @ {int(at, 16):#x} 08:02 5 0]"
        self.file("loaded", f"program 7 PERF_RECORD_MMAP2 7/7: {load}: r-xp /srv/program\n{call:#x}/{callee:#x}\n")
        rest = "# ranges ran 0\n# ranges reversed 0\n# ranges outside 0\n# ranges crossing 0\n# units read N passed 0\n"
        none = "# branches 1\n# entries 0\n# inside 0\n# unmapped FromOutside "
        called = "main:0:0\n 0: 0 next:1\nnext:0:1\n# branches 1\n# entries 1\n# inside 0\n"
        self.profiled(title, called + rest, "--map=/srv/program")
        self.profiled(f"{title}, another file", f"{none}0x0 0x0 1\n{rest}", "--map=/srv/other")
        self.profiled(f"{title}, without a map", f"{none}{call:#x} {callee:#x} 1\n{rest}")

    def test_maps(self):
        with self.subTest("a position-independent program"):
            self.maps("a position-independent program", "-fPIE", "-pie")
        with self.subTest("a program at a fixed address"):
            self.maps("a program at a fixed address", "-fno-pie", "-no-pie")


NONE = (
    "# branches 0\n# entries 0\n# inside 0\n# ranges ran 0\n# ranges reversed 0\n# ranges outside 0\n# ranges crossing 0\n"
    "# units read 1 passed 0\n"
)


class Profiles(Program):
    def setUp(self):
        super().setUp()
        self.file("empty")
        self.file("bad", "0x1/0x2\nzz\n")

    def test_the_demo(self):
        told = bytes_of(EXPECTED / "words.expected")
        self.answers("the profile of the demo", DONE, told, "", "profile", "--base", WORDS, TEXT)
        self.answers("a branch text through a pipe", DONE, told, "", "profile", "--base", WORDS, "/dev/stdin", given=bytes_of(TEXT))
        self.answers("a profile of no samples", DONE, NONE, "", "profile", WORDS, "empty")

    def test_faults(self):
        (self.folder / "branches").mkdir()
        for title, status, said, *words in [
            ("neither file is there", MISSING, "no such file: 1", "not_there", "not_there"),
            ("the binary is not there", MISSING, "no such file: 1", "not_there", "empty"),
            ("the branch text is not there", MISSING, "no such file: 2", WORDS, "not_there"),
            ("a folder in place of a branch text", READ_FAULT, "read fault: file 2", WORDS, "branches"),
            ("a bad line behind a good binary", REFUSED, "refused: file 2 at 2: BadLine", WORDS, "bad"),
            ("a bad binary before a bad line", REFUSED, "refused: file 1 at 0: NotElf", "bad", "bad"),
            ("a bad binary before a missing text", REFUSED, "refused: file 1 at 0: NotElf", "bad", "not_there"),
        ]:
            self.answers(title, status, "", f"{said}\n", "profile", *words)

    def test_options(self):
        words = str(WORDS)
        for spelled in [
            ["profile", "--map=", words, "empty"], ["profile", "--map", words, "empty"], ["profile", "--map=a", "--map=b", words, "empty"],
            ["profile", "--base", "--base", words, "empty"], ["profile", "--bases", words, "empty"], ["profile", words, "empty", "--base"],
            ["counts", "--map=a", "empty"], ["profile", words], ["profile", words, "empty", "empty"],
        ]:
            self.misspelt(*spelled)
        self.answers("both options, in either order", DONE, NONE, "", "profile", "--map=a", "--base", WORDS, "empty")
        self.answers("both options, in the other order", DONE, NONE, "", "profile", "--base", "--map=a", WORDS, "empty")

    def test_little_memory(self):
        with open(self.folder / "huge", "wb") as file:
            file.truncate(500 * 1024 * 1024)
        ran = self.run_here(*within(LITTLE, PGO, "profile", "huge", "not_there"))
        self.expects("a binary that memory does not hold", ran, NO_MEMORY, "", "no memory\n")
        self.file("many", "".join(f"0x{k:x}/0x{k:x}\n" for k in range(1, 300001)))
        ran = self.run_here(*within(LITTLE, PGO, "profile", WORDS, "many"))
        self.expects("samples that memory does not hold", ran, NO_MEMORY, "", "no memory\n")

    def test_tables_that_overlap(self):
        """Units that each refer to another tail of one table of abbreviations, and to another tail of one list of attributes: of the
        second the most that there is room for, and one more."""
        self.file("tails", make.tails_of_a_table(6000))
        self.answers("tables that end in one another", DONE, "outside\n", "", "where", "tails", "401000")
        self.file("tails", make.tails_of_a_list(2895))
        self.answers("tables that overlap", DONE, "outside\n", "", "where", "tails", "401000")
        self.file("tails", make.tails_of_a_list(2896))
        self.answers("tables that overlap too much", NO_MEMORY, "", "no memory\n", "where", "tails", "401000")


class Repairs(Program):
    """Repairs of the demo under bounds drawn at random, judged by a second program: counts, prices and cuts."""

    def bounded(self, draw):
        for line in bytes_of(BLOCKS).decode().splitlines():
            at, more = draw.random(), ""
            if line.startswith(("block", "edge")):
                never, least, most = at < 0.08, at < 0.2, at < 0.35
                more = " never" if never else f" lo={draw.randrange(40)}" if least else f" hi={draw.randrange(400)}" if most else ""
            yield f"{line}{more}\n"

    def test_under_bounds(self):
        for seed in range(1, 11):
            blocks = self.file("bounded", "".join(self.bounded(random.Random(seed))))
            ran = self.pgo("build", "--base", WORDS, TEXT, blocks)
            self.expects(f"built by seed {seed}", ran, DONE, ran.out, "")
            built = self.file("built", ran.out)
            judged = python(TOP / "checks" / "repairs", blocks, built)
            self.expects(f"the repairs of seed {seed}", judged, DONE, "11 passed, 0 failed\n", "")
            self.answers(f"the repairs of seed {seed}, checked", DONE, "checked 11\n", "", "check", blocks, built)


class Written(Program):
    """Merges and lifted profiles of what `profile` and `build` wrote, and faults in them."""

    def setUp(self):
        super().setUp()
        self.profile = self.pgo("profile", "--base", WORDS, TEXT).out
        self.built = self.pgo("build", "--base", "--edges", WORDS, TEXT, BLOCKS).out
        self.file("words.prof", self.profile)
        self.file("words.built", self.built)
        (self.folder / "branches").mkdir()

    def test_merges(self):
        lines = profile_lines(self.profile)
        self.answers("the profile of the demo, merged alone", DONE, lines, "", "merge", "1", "words.prof")
        self.answers("what build writes of the demo, merged alone", DONE, lines, "", "merge", "1", "words.built")
        five = self.pgo("merge", "3", "words.prof", "2", "words.built").out
        self.answers("the profile of the demo, five times", DONE, five, "", "merge", "5", "words.prof")
        self.answers("merged files in another order", DONE, five, "", "merge", "2", "words.built", "3", "words.prof")
        self.answers("a profile through a pipe", DONE, lines, "", "merge", "1", "/dev/stdin", given=self.profile)
        self.answers("a folder in place of a profile", READ_FAULT, "", "read fault: file 2\n", "merge", "1", "words.prof", "1", "branches")
        self.answers("a folder summed up", READ_FAULT, "", "read fault: file 1\n", "summary", "branches")
        self.answers("a binary in place of a profile", REFUSED, "", "refused: file 1 at 1: BadLine\n", "merge", "1", WORDS)

    def test_little_memory(self):
        self.file("many", "".join(f"f{k}:0:1\n" for k in range(1, 300001)))
        ran = self.run_here(*within(LITTLE, PGO, "merge", "1", "many"))
        self.expects("a profile that memory does not hold", ran, NO_MEMORY, "", "no memory\n")

    def lift(self, *words, **how):
        return self.pgo("lift", *words, **how)

    def test_lifted(self):
        of_demo = ["--base", WORDS, BLOCKS]
        lifted = self.lift(*of_demo, "words.built")
        self.expects("the demo, lifted", lifted, DONE, lifted.out, "")
        second = python(EXPECTED / "lifts.py", PGO, *of_demo, "words.built", folder=self.folder)
        self.expects("the demo, lifted by a second program", second, DONE, lifted.out, "")
        self.file("lifted", lifted.out)
        self.answers("what is lifted of the demo is a profile", DONE, lifted.out, "", "merge", "1", "lifted")
        self.expects("a built text through a pipe", self.lift(*of_demo, "/dev/stdin", given=self.built), DONE, lifted.out, "")

    def test_faults_of_lifts(self):
        end = self.profile.count(b"\n") + 1
        ran = self.lift("--base", WORDS, BLOCKS, "words.prof")
        self.expects("a profile in place of a built text", ran, REFUSED, "", f"refused: file 3 at {end}: Missing\n")
        ran = self.lift(WORDS, BLOCKS, "branches")
        self.expects("a folder in place of a built text", ran, READ_FAULT, "", "read fault: file 3\n")
        ran = self.lift(WORDS, BLOCKS, "words.built/x")
        self.expects("a built text below a file", ran, READ_FAULT, "", "read fault: file 3\n")
        with open(self.folder / "large", "wb") as file:
            file.truncate(268435457)
        ran = self.lift(WORDS, BLOCKS, "large")
        self.expects("a built text that is too large", ran, REFUSED, "", "refused: file 3 at 268435456: FileTooLarge\n")

    @needs_file("/dev/full")
    def test_full_device(self):
        for words in (
            ["merge", "1", "words.prof"], ["lift", str(WORDS), str(BLOCKS), "words.built"], ["counts", str(TEXT)],
            ["profile", "--base", str(WORDS), str(TEXT)],
        ):
            with open("/dev/full", "wb") as full:
                self.expects(f"a full device, for {words[0]}", self.pgo(*words, output=full), WRITE_FAULT, "", "write fault\n")

    @needs("llvm-profdata")
    def test_profdata_shows_it(self):
        self.file("lifted", self.lift("--base", WORDS, BLOCKS, "words.built").out)
        for name in ("words.prof", "lifted"):
            with self.subTest(name):
                ran = self.run_here("llvm-profdata", "show", "--sample", name)
                self.assertEqual((ran.status, ran.err), (DONE, b""))
                self.assertIn(b"Function: count_word:", ran.out)

    @needs("clang")
    def test_clang_takes_it(self):
        self.file("lifted", self.lift("--base", WORDS, BLOCKS, "words.built").out)
        for name in ("words.prof", "lifted"):
            words = ["-O2", "-g", "-fdebug-info-for-profiling", f"-fprofile-sample-use={name}", "-c", TOP / "demo" / "words.c", "-o", "words.o"]
            self.expects(f"clang takes {name}", self.run_here("clang", *words), DONE)


class Files(Program):
    """Files and the output, where a call fails."""

    def test_names(self):
        (self.folder / "link").symlink_to("text")
        (self.folder / "folder").mkdir()
        missing, fault = "no such file: 1\n", "read fault: file 1\n"
        self.answers("a missing file", MISSING, "", missing, "counts", "text")
        self.answers("an empty name", MISSING, "", missing, "counts", "")
        self.answers("a link to nothing", MISSING, "", missing, "counts", "link")
        self.answers("a folder in place of a file", READ_FAULT, "", fault, "counts", "folder")
        self.file("odd\tname \xc4", TWO)
        self.answers("a name with odd characters", DONE, TWO_COUNTS, "", "counts", "odd\tname \xc4")
        self.answers("a name that is no text", READ_FAULT, "", fault, "counts", os.fsdecode(b"not\xfftext"))
        self.file("text", TWO)
        self.answers("a path through a file", READ_FAULT, "", fault, "counts", "text/")
        self.answers("a file below a file", READ_FAULT, "", fault, "counts", "text/text")
        self.answers("a branch text below a file", READ_FAULT, "", "read fault: file 2\n", "profile", WORDS, "text/text")
        self.answers("a name that is too long", READ_FAULT, "", fault, "counts", "0" * 300)
        self.answers("a link", DONE, TWO_COUNTS, "", "counts", "link")
        with open(self.folder / "text", "rb") as file:
            self.answers("the standard input as a file", DONE, TWO_COUNTS, "", "counts", "/dev/stdin", given=file)

    def test_outputs(self):
        text = self.file("text", TWO)
        self.expects("a pipe whose reader has gone", into_closed_pipe(PGO, "counts", text), WRITE_FAULT, "", "write fault\n")
        self.expects("a closed standard output", on_closed_output(PGO, "counts", text), WRITE_FAULT, "", "write fault\n")

    def test_permission(self):
        text = self.file("text", TWO)
        text.chmod(0)
        words = [PGO, "counts", text]
        if os.getuid() == 0:
            if not shutil.which("setpriv"):
                self.skipTest("root reads every file, and there is no setpriv")
            self.folder.chmod(0o755)
            own = self.file("program", bytes_of(PGO))
            own.chmod(0o755)
            words = ["setpriv", "--reuid=65534", "--regid=65534", "--clear-groups", own, "counts", text]
        self.expects("a file without read permission", self.run_here(*words), READ_FAULT, "", "read fault: file 1\n")


if __name__ == "__main__":
    unittest.main()
