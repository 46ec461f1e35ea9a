"""contrib/merge-tree: sums by any tree, and what it says and leaves behind where something goes wrong on the way."""
import json
import os
import pathlib
import resource
import signal
import subprocess
import time
import unittest
from typing import Any, Dict, List

from common import CONTRIB, DONE, FAILED, BAD_WORDS, MISSING, NO_MEMORY, PGO, READ_FAULT, REFUSED, TOP, WRITE_FAULT, Case, needs, needs_file
from common import on_closed_output, python, run, takes, terminated
import sums

TREE = CONTRIB / "merge-tree"
# By this a process takes what the script calls, to change something of it first.
FROM_CONTRIB = """sys.dont_write_bytecode = True
from pgo_tools import cli
from pgo_tools.commands.merge_tree import work as main"""
MODULES = {"PYTHONPATH": str(CONTRIB)}
FLEET = TOP / "bench" / "fleet.py"
HALF = "a:0:9223372036854775808\n"
BAD = "a:0:1\n 1: 1\r\n"
ONE, TWO = "a" * 40, "b" * 40


def lines(*names):
    """A list of names as merge-tree reads it."""
    return "".join(f"{name}\n" for name in names).encode()


def profile(number, build=""):
    """A small profile whose numbers are its own."""
    end = f"# build {build}\n" if build else ""
    return f"main:{number + 1}:{number}\n 1: {number}\n 2: 1 f:{number}\nf_{number % 7}:{number}:1\n 3: {number}\n{end}"


# A sum of an earlier night.
OLD = "old:7:1\n 1: 7\n"


class Tree(Case):
    """A case with some small profiles, p/0 and so on."""

    count = 20

    def setUp(self):
        super().setUp()
        for number in range(self.count):
            self.file(f"p/{number}", profile(number + 1))
        self.files = [f"p/{number}" for number in range(self.count)]

    def merge(self, *words, **how):
        return self.run_here(TREE, *words, **how)

    def expected(self, *pairs):
        """The sum of pairs of a weight and a file, by a chain of merges."""
        made = self.file("chain")
        for weight, name in pairs:
            ran = self.run_here(PGO, "merge", "1", made, str(weight), name)
            self.expect(ran, DONE, ran.out)
            made.write_bytes(ran.out)
        return made.read_bytes()

    def sum_of(self, names):
        return self.expected(*((1, name) for name in names))

    def manifest(self, name="out.manifest"):
        return json.loads((self.folder / name).read_text())

    def pgo_that(self, *commands):
        """A pgo that notes each call in the file `calls`, and does something of a shell before it."""
        path = self.file("fake/pgo", "\n".join(["#!/bin/sh", f"echo \"$$ $*\" >>'{self.folder}/calls'", *commands, f"exec '{PGO}' \"$@\"", ""]))
        path.chmod(0o755)
        return {"PGO": str(path)}

    def calls(self):
        """The processes of the pgo above."""
        path = self.folder / "calls"
        return [int(line.split()[0]) for line in path.read_text().splitlines()] if path.exists() else []

    def nothing_out(self):
        """There is no sum, nor a piece of one."""
        self.assertEqual([name for name in self.names() if name.startswith("out") and name != "out.tree"], [])

    def plan(self, *words, size=4):
        ran = self.merge("--plan=tree", f"--part-size={size}", "-o", "out", *words, *self.files)
        self.expect(ran, DONE)

    def make(self, *parts):
        for part in parts:
            self.expect(self.merge(f"--part={part}", "tree"), DONE)


@takes(20)
class Sums(Tree):
    """Whichever tree, the bytes are the same."""

    def test_a_thousand(self):
        ran = python(FLEET, "1000", "12", "fleet", folder=self.folder)
        self.expect(ran, DONE)
        names = sorted(f"fleet/{name}" for name in self.names("fleet"))
        whole = self.merge(*names)
        self.expect(whole, DONE, self.sums_by_a_second_program(names))
        self.expect(self.merge("-j3", given=lines(*reversed(names))), DONE, whole.out)
        self.expect(self.merge("--part-size=100", given=lines("", *names[:500], " ", *names[500:])), DONE, whole.out)

    def sums_by_a_second_program(self, names):
        made: Dict[Any, int] = {}
        for name in names:
            sums.add(made, sums.read((self.folder / name).read_bytes()), 1)
        return sums.text_of(made)

    def test_trees_of_other_sizes(self):
        for count, size in ((1, 8), (8, 8), (9, 8), (20, 2), (17, 3), (7, 64), (20, 64)):
            with self.subTest(count=count, size=size):
                names = self.files[:count]
                self.expect(self.merge(f"--part-size={size}", *names), DONE, self.sum_of(names))

    def test_names(self):
        odd = b"p/odd \"$HOME' : \\ \n\303\244\377me"
        with open(os.path.join(os.fsencode(self.folder), odd), "wb") as file:
            file.write(profile(9).encode())
        self.file("-dash", profile(8))
        self.file("3 small", profile(7))
        whole = self.sum_of(["p/8", "p/7", "p/6"])
        self.expect(self.merge("-0", given=b"\0".join([odd, b"-dash", b"3 small"])), DONE, whole)
        self.expect(self.merge("-o", "out", "--", os.fsdecode(odd), "-dash", "3 small"), DONE)
        self.assertEqual((self.folder / "out").read_bytes(), whole)

    def test_a_name_of_blanks(self):
        self.file(" ", profile(9))
        self.expect(self.merge("-0", given=b" \0p/0\0\0"), DONE, self.sum_of([" ", "p/0"]))

    def test_weights_of_a_list(self):
        self.expect(self.merge(given=b"3\tp/0\n1\tp/1\np/2\n65535\tp/3\n"), DONE, self.expected((3, "p/0"), (1, "p/1"), (1, "p/2"), (65535, "p/3")))
        for weight in ("0", "65536", "99999999999"):
            self.tells(self.merge(given=f"{weight}\tp/0\n".encode()), BAD_WORDS, f"p/0: a weight of {weight}.*from 1 to 65535")
        self.tells(self.merge(given=b"-1\tp/0\n"), MISSING, "no such file")

    def test_a_line_that_is_a_name_and_a_weight(self):
        self.file("3\tp/0", profile(30))
        for end in "\n\0":
            words = ["-0"] * (end == "\0")
            self.tells(self.merge(*words, given=f"3\tp/0{end}p/1{end}".encode()), BAD_WORDS,
                       "3.x09p/0: a file has this name, which looks like a name with a weight what helps: ./ before")
        self.expect(self.merge(given=b"./3\tp/0\np/1\n"), DONE, self.sum_of(["3\tp/0", "p/1"]))
        self.tells(self.merge(given=b"p/0\t3\np/1\n"), MISSING, "p/0.x093: no such file")
        self.file("p/0\t3", profile(31))
        self.tells(self.merge(given=b"p/0\t3\np/1\n"), BAD_WORDS,
                   "p/0.x093: a file has this name, which looks like a name with a weight what helps: the weight before")
        self.expect(self.merge("p/0\t3", "p/1"), DONE, self.sum_of(["p/0\t3", "p/1"]))
        self.expect(self.merge(given=b"3\t./p/0\n"), DONE, self.expected((3, "p/0")))
        self.expect(self.merge("3\tp/0", "p/1"), DONE, self.sum_of(["3\tp/0", "p/1"]))
        self.expect(self.merge("--fetch=cp", given=b"3\tp/0\n"), DONE, self.expected((3, "p/0")))

    def test_numbers_of_thousands_of_digits(self):
        """Python refuses to read such: zeros in front are none, others are those of no profile."""
        zeros = "0" * 5000
        self.file("zeros", f"main:1:{zeros}2\n 1: {zeros}3\n")
        self.expect(self.merge("zeros", "p/0"), DONE, self.sum_of(["zeros", "p/0"]))
        self.expect(self.merge(given=f"{zeros}3\tp/0\n".encode()), DONE, self.expected((3, "p/0")))
        for line, text in ((1, f"main:1:{'1' * 5000}\n 1: 1\n"), (2, f"main:1:1\n 1: {'1' * 5000}\n"), (2, f"main:1:1\n 1: {10**20}\n")):
            self.file("long", text)
            self.tells(self.merge("long", *self.files), REFUSED, f"long: refused at {line}: BadLine")
            self.tells(self.merge("-o", "out", "--skip-bad=5", "long", *self.files), DONE, f"left out: .*long: refused at {line}: BadLine")
            self.assertEqual((self.folder / "out").read_bytes(), self.sum_of(self.files))
        self.tells(self.merge(given=f"{'9' * 5000}\tp/0\n".encode()), BAD_WORDS, "p/0: a weight of 9999.*from 1 to 65535")

    def test_a_sum_in_place(self):
        (self.folder / "out").write_text(OLD)
        (self.folder / "out").chmod(0o640)
        self.expect(self.merge("-o", "out", given=b"2\tp/0\n" + lines(*self.files[1:])), DONE)
        self.assertEqual((self.folder / "out").read_bytes(), self.expected((2, "p/0"), *((1, name) for name in self.files[1:])))
        self.assertEqual((self.folder / "out").stat().st_mode & 0o777, 0o640)
        told = self.manifest()
        self.assertEqual([(each["name"], each["weight"], each["size"]) for each in told["files"]], [
            (str(self.folder / name), 1 + (name == "p/0"), (self.folder / name).stat().st_size) for name in self.files])
        digest = self.run_here("sha256sum", "p/3", "out").out.split()
        self.assertEqual(told["files"][3]["sha256"].encode(), digest[0])
        self.assertEqual(told["sha256"].encode(), digest[2])
        total = sum(2 * number + 1 for number in range(1, 21)) + 3
        self.assertEqual((told["total_in"], told["total"], told["heads_in"], told["heads"]), (total, total, 210 + 20 + 2, 210 + 20 + 2))
        self.assertEqual((told["left_out"], told["merged"], told["files_listed"]), ([], 20, 20))
        self.assertFalse((self.folder / "out.tree").exists())
        self.assertEqual([name for name in self.names() if "new" in name], [])


class Refusals(Tree):
    """What is wrong is named with its place, and there is no sum."""

    def refused(self, status, said, *words, **how):
        """Nothing is printed, and exactly this is said."""
        self.expect(self.merge(*words, **how), status, b"", said)
        (self.folder / "out").write_text(OLD)
        ran = self.merge("-o", "out", *words, **how)
        self.assertEqual((ran.status, (self.folder / "out").read_text()), (status, OLD))

    def test_what_is_no_profile_stays(self):
        for text in ("int main(void) { return 0; }\n", "\x7fELF\2\1\1"):
            (self.folder / "out").write_text(text)
            self.tells(self.merge("-o", "out", "p/0"), BAD_WORDS, "out is no profile in text, and would be lost")
            self.assertEqual((self.folder / "out").read_text(), text)

    def test_files(self):
        self.file("bad", BAD)
        self.file("half", HALF)
        self.file("empty")
        self.file("comments", "# branches 0\n\n")
        os.mkfifo(self.folder / "pipe")
        here = self.folder
        for status, said, words in (
            (MISSING, f"{here}/gone: no such file", ["p/0", "p/1", "gone", "p/2"]),
            (MISSING, f"{here}/p/0/x: not a directory", ["p/0/x"]),
            (REFUSED, f"{here}/bad: refused at 2: BadLine", [*self.files, "bad"]),
            (READ_FAULT, f"{here}/p: read fault: it is a folder", ["p/0", "p"]),
            (READ_FAULT, f"{here}/pipe: read fault: it is no file", ["pipe", "p/0"]),
            (REFUSED, f"{here}/empty: empty: no line of it says anything (--empty-ok takes such)", [*self.files, "empty"]),
            (REFUSED, f"{here}/comments: empty: no line of it says anything (--empty-ok takes such)", [*self.files, "comments"]),
        ):
            with self.subTest(said):
                self.refused(status, f"merge-tree: {said}\n", *words)

    def test_each_file_is_named(self):
        self.file("bad", BAD)
        self.file("worse", "\0")
        here = self.folder
        self.refused(REFUSED, f"merge-tree: {here}/bad: refused at 2: BadLine\nmerge-tree: {here}/worse: refused at 1: BadLine\nmerge-tree: {here}/gone: no such file\n",
                     *self.files[:4], "bad", "p/4", "worse", *self.files[5:], "gone")

    def test_what_helps(self):
        for content, helps in ((b"\x1f\x8b\x08\0", "it is packed"), (b"PERFILE2", "it is a recording"), (b"\x7fELF\2\1\1", "it is a program")):
            with self.subTest(helps):
                self.tells(self.merge("p/0", self.file("bad", content).name), REFUSED, f"bad: refused at 1: BadLine.*what helps: {helps}")
        # Of many files that are of one kind mostly, it is told once.
        for name in ("bad", "other"):
            self.file(name, b"\x1f\x8b\x08\0")
        said = "bad: refused at 1: BadLine what helps: it is packed.* merge-tree: \\S+other: refused at 1: BadLine$"
        self.tells(self.merge("bad", "other"), REFUSED, said)

    def test_a_launcher_that_says_something_first(self):
        self.file("bad", BAD)
        self.file("pgo", f'#!/bin/sh\necho "pgo: something" >&2\nexec "{PGO}" "$@"\n').chmod(0o755)
        self.tells(self.merge("p/0", "bad", environment={"PGO": str(self.folder / "pgo")}), REFUSED, "^merge-tree: .*/bad: refused at 2: BadLine$")

    def test_sums_that_are_too_large(self):
        self.file("half", HALF)
        self.file("other", HALF)
        for words in ([*self.files[:7], "half", "other"], ["half", "other", "p/0"], ["--skip-bad=100", "half", "other", *self.files]):
            self.tells(self.merge(*words), REFUSED, "CountTooLarge.*smaller weights")
        self.tells(self.merge("--skip-bad=100", given=b"2\thalf\n"), REFUSED, "half and those before it: refused at 1: CountTooLarge")

    def test_a_sum_on_the_way_that_is_too_large(self):
        ran = self.merge("-j1", "--skip-bad=100", *self.files, environment=self.pgo_that(
            f"[ \"$(wc -l <'{self.folder}/calls')\" -le 3 ] || {{ echo 'refused: file 1 at 268435456: FileTooLarge' >&2; exit 4; }}"))
        self.tells(ran, REFUSED, "the sum of .*/p/0 to .*/p/7: refused at 268435456: FileTooLarge")
        self.expect(ran, REFUSED, b"", ran.err)

    def test_a_file_that_is_too_large(self):
        with open(self.folder / "large", "wb") as file:
            file.truncate((1 << 28) + 1)
        self.tells(self.merge("p/0", "large"), REFUSED, "large: refused at 268435456: FileTooLarge")

    def test_a_file_twice(self):
        (self.folder / "link").symlink_to("p/3")
        os.link(self.folder / "p/3", self.folder / "hard")
        for other in ("p/3", "./p/3", "link", "hard"):
            self.refused(BAD_WORDS, f"merge-tree: {self.folder / other} is listed twice"
                         + (f", as {self.folder}/p/3 too" if other in ("link", "hard") else "")
                         + "\n  what helps: each file once; --add-weights takes it as often as its lines say together\n", *self.files, other)
        whole = self.expected((7, "p/3"), (1, "p/4"))
        self.expect(self.merge("--add-weights", given=b"p/3\n2\tp/3\np/4\n4\tlink\n"), DONE, whole)
        self.tells(self.merge("--add-weights", given=b"65535\tp/3\np/3\n"), BAD_WORDS, "p/3: its weights add up to 65536")

    def test_its_own_output(self):
        (self.folder / "p/3").rename(self.folder / "out")
        self.tells(self.merge("-o", "out", "p/0", "out"), BAD_WORDS, "out is listed to be merged, too")
        (self.folder / "link").symlink_to("out")
        self.tells(self.merge("-o", "out", "p/0", "link"), BAD_WORDS, "out is listed to be merged, too: .*link")

    def test_words(self):
        words: Any
        for said, words in (
            ("there is no file to merge", []), ("a number from 1 up, and not 0", ["-j", "0", "p/0"]), ("--resume needs -o", ["--resume", "p/0"]),
            ("a number from 0 to 100", ["--skip-bad=101", "p/0"]), ("a number from 0 to 100", ["--skip-bad=nan", "p/0"]),
            ("at least two", ["--part-size=1", "p/0"]), ("a tree needs -o", ["--plan=tree", "p/0"]), ("one folder", ["--run", "a", "b"]),
            ("No closing quotation", ["--fetch='", "p/0"]), ("not allowed with", ["--run", "--part=1.0", "tree"]),
        ):
            with self.subTest(said):
                self.tells(self.merge(*words), BAD_WORDS, said)

    def test_outputs(self):
        self.tells(self.merge("-o", "p", *self.files), WRITE_FAULT, "p: it is a folder")
        self.tells(self.merge("-o", "none/out", *self.files), WRITE_FAULT, "none/out.tree: nothing can be written there")
        self.file("out.tree", "kept")
        self.tells(self.merge("-o", "out", *self.files), WRITE_FAULT, "out.tree is there, and is no tree of merge-tree")
        self.file("other.tree/kept")
        self.tells(self.merge("-o", "other", *self.files), WRITE_FAULT, "other.tree is there, and is no tree of merge-tree")
        self.assertEqual(self.names("other.tree"), ["kept"])
        self.tells(self.merge("-o", "new/", *self.files), WRITE_FAULT, "new/: it is the name of a folder")
        self.assertIn(b"it is a device or a pipe", run("sh", "-c", f"'{TREE}' -o /dev/stdout p/0 2>&1 | cat", folder=self.folder).out)

    def test_profiles_that_are_named_as_parts(self):
        for names in (["12.01.prof", "12.02.prof"], ["1.0.prof", "1.0.manifest", "lock"], ["sum"], ["merge-tree.old"], ["tree", "1.0.prof"]):
            with self.subTest(names=names):
                for name in names:
                    self.file(f"months.tree/{name}", profile(1))
                for words in (["-o", "months"], ["-o", "months", "--resume"], ["-o", "out", "--plan=months.tree"]):
                    self.tells(self.merge(*words, "p/0"), WRITE_FAULT, "months.tree is there, and is no tree of merge-tree")
                    self.assertEqual(self.names("months.tree"), sorted(names))
                for name in names:
                    (self.folder / "months.tree" / name).unlink()

    def test_a_folder_that_is_named_as_a_file_of_a_tree(self):
        self.file("out.tree/1.0.prof/kept")
        self.tells(self.merge("-o", "out", *self.files), WRITE_FAULT, "out.tree is there, and is no tree of merge-tree")
        self.assertEqual(self.names("out.tree/1.0.prof"), ["kept"])

    def test_files_in_the_folder_of_the_tree(self):
        self.expect(self.merge("-o", "out", "--plan=months.tree", *self.files), DONE)
        self.file("months.tree/1.0.prof", profile(1))
        for words in (["-o", "months", "months.tree/1.0.prof"], ["--plan=months.tree", "-o", "months.tree/sum", "p/0"], ["--plan=.", "-o", "sum", "p/0"]):
            with self.subTest(words=words):
                self.tells(self.merge(*words), BAD_WORDS, "is the folder of the tree, and has files that go in or come out")
        self.assertEqual(self.names("months.tree"), ["1.0.prof", "lock", "tree"])

    def test_a_folder_of_the_tree_that_is_the_sum(self):
        (self.folder / "link").symlink_to("out")
        for name in ("out", "out.manifest", "p/../out", "link"):
            with self.subTest(name):
                self.tells(self.merge(f"--plan={name}", "-o", "out", *self.files), BAD_WORDS, "is the folder of the tree, and has files that go in or come out")
        self.assertEqual(self.names(), ["link", "p"])

    def test_a_manifest_that_is_another_file(self):
        self.file("a.manifest", profile(1))
        self.tells(self.merge("-o", "a", "a.manifest", "p/0"), BAD_WORDS, "a.manifest is listed to be merged, too")
        self.file("jar.manifest", "Manifest-Version: 1.0\n")
        for words in (["p/0"], ["--fetch=cp", "p/0"]):
            self.tells(self.merge("-o", "jar", *words), BAD_WORDS, "jar.manifest is no manifest of merge-tree, and would be lost")
        self.file("folder.manifest/kept")
        self.tells(self.merge("-o", "folder", "p/0"), WRITE_FAULT, "folder.manifest: it is a folder")
        self.tells(self.merge("-o", "a" * 240, "p/0"), WRITE_FAULT, "the name is too long to have a manifest beside it")
        self.assertEqual(self.names(), ["a.manifest", "folder.manifest", "jar.manifest", "p"])

    def test_what_came_to_its_place_meanwhile(self):
        self.expect(self.merge("-o", "out", "--plan=tree", *self.files), DONE)
        self.file("out", "int main(void) { return 0; }\n")
        self.tells(self.merge("--run", "tree"), BAD_WORDS, "out is no profile in text, and would be lost")
        self.assertEqual((self.folder / "out").read_text(), "int main(void) { return 0; }\n")

    def test_names_that_are_nothing(self):
        for words in (["-o", ""], ["-o", "out", "--plan="], ["--part=", "tree"]):
            with self.subTest(words=words):
                self.tells(self.merge(*words, *self.files), BAD_WORDS, "a name, and not nothing")
        self.assertEqual(self.names(), ["p"])

    def test_a_list_with_the_other_end(self):
        self.tells(self.merge(given=b"p/0\0p/1\0"), BAD_WORDS, "the list has NULs what helps: -0")

    def test_names_in_another_locale(self):
        name = os.fsdecode("p/é".encode())
        self.file(name, profile(1))
        plain = {"LC_ALL": "C", "PYTHONUTF8": "0", "PYTHONCOERCECLOCALE": "0"}
        self.expect(self.merge(given=lines(name), environment=plain), DONE, self.sum_of([name]))

    def test_a_name_with_a_line_feed(self):
        name = "bad\nmerge-tree: all profiles are good"
        self.file(name, "no profile\n")
        self.tells(self.merge("-o", "out", name, name), BAD_WORDS, r"^merge-tree: .*/bad.x0amerge-tree: all profiles are good is listed twice what helps: each file once")
        for words in (["-o", "out"], ["-o", "out", "--skip-bad=100"], ["-o", "out", "--plan=tree"], ["--part=1.0"]):
            ran = self.merge(*words, *(["tree"] if words == ["--part=1.0"] else ["p/0", name]))
            self.assertNotIn("\nmerge-tree: all", "\n" + ran.said, words)

    def test_a_folder_that_was_only_made(self):
        self.file("out.tree/lock")
        self.file("out.tree/tree.7.0.new", "{")
        self.expect(self.merge("-o", "out", *self.files), DONE)
        self.assertFalse((self.folder / "out.tree").exists())

    @needs_file("/dev/full")
    def test_a_full_device(self):
        self.ends_on_full_device("merge-tree", TREE, "p/0")

    def test_a_closed_output(self):
        self.tells(on_closed_output(TREE, "p/0", folder=self.folder), WRITE_FAULT, "output: it is closed")

    def test_no_pgo(self):
        alone = self.folder / "alone"
        alone.mkdir()
        self.run_here("cp", "-r", TREE, CONTRIB / "pgo_tools", alone)
        self.tells(self.run_here(alone / "merge-tree", "p/0", environment={"PGO": None, "PATH": "/usr/bin:/bin"}), 127, "there is no pgo")

    def test_no_memory(self):
        self.tells(self.merge("p/0", environment=self.pgo_that("echo 'no memory' >&2; exit 7")), NO_MEMORY, "no memory")


class Closed(Tree):
    """Streams that the caller closed."""

    count = 6

    def test_a_part(self):
        for closed in ([0], [1], [2], [0, 1], [1, 2], [0, 2], [0, 1, 2]):
            with self.subTest(closed=closed):
                self.expect(self.merge("--plan=tree", "-o", "out", *self.files), DONE)
                ran = self.merge("--part=1.0", "tree", prepare=lambda: list(map(os.close, closed)), limit=20)
                self.assertEqual((ran.status, (self.folder / "out").read_bytes()), (DONE, self.sum_of(self.files)))
                for name in ("out", "out.manifest"):
                    (self.folder / name).unlink()


class BadFiles(Tree):
    """--skip-bad leaves out what is no profile, and nothing else."""

    count = 196

    def test_one_of_196(self):
        (self.folder / "p/77").write_text(BAD)
        good = [name for name in self.files if name != "p/77"]
        whole = self.sum_of(good)
        ran = self.merge("--skip-bad", *self.files)
        self.expect(ran, DONE, whole, f"merge-tree: left out: {self.folder}/p/77: refused at 2: BadLine\n")
        self.tells(self.merge("-o", "out", "--skip-bad", *self.files), DONE, "p/77: refused at 2: BadLine")
        self.assertEqual((self.folder / "out").read_bytes(), whole)
        told = self.manifest()
        self.assertEqual((told["merged"], told["bad"], len(told["files"])), (195, 1, 195))
        self.assertEqual([(each["name"], each["why"]) for each in told["left_out"]], [(f"{self.folder}/p/77", "refused at 2: BadLine")])
        self.assertEqual(told["total_in"], told["total"])

    def test_more_than_so_many(self):
        (self.folder / "p/0").write_text(BAD)
        (self.folder / "p/1").write_text("")
        (self.folder / "p/195").unlink()
        ran = self.merge("-o", "out", "--skip-bad", *self.files)
        self.tells(ran, REFUSED, "p/0: refused at 2: BadLine.*p/1: empty.*p/195: no such file.*3 of 196 files are bad, more than 1%.*--skip-bad=PERCENT")
        self.nothing_out()
        fake = self.pgo_that()
        self.tells(self.merge("-o", "out", "--resume", "--skip-bad=1.6", *self.files, environment=fake), DONE, "p/0: refused.*p/1: empty.*p/195: no such file")
        self.assertEqual(self.calls(), [])
        self.assertEqual((self.folder / "out").read_bytes(), self.sum_of(self.files[2:195]))

    def test_a_whole_part(self):
        for name in self.files[:9]:
            (self.folder / name).write_text(BAD)
        self.tells(self.merge("-o", "out", "--skip-bad=5", *self.files), DONE, "p/8: refused")
        self.assertEqual((self.folder / "out").read_bytes(), self.sum_of(self.files[9:]))

    def test_all(self):
        for name in self.files[:9]:
            (self.folder / name).write_text(BAD)
        self.tells(self.merge("-o", "out", "--skip-bad=100", *self.files[:9]), FAILED, "nothing was merged")
        self.nothing_out()

    def test_empty_files(self):
        for name in self.files[:9]:
            (self.folder / name).write_text("")
        self.expect(self.merge("--empty-ok", *self.files), DONE, self.sum_of(self.files))
        self.tells(self.merge("--empty-ok", *self.files[:9]), FAILED, "the sum is empty")

    def test_one_that_is_larger_than_profiles_may_be(self):
        """Nothing of it is held: it has no line, and no bytes on the disk."""
        with open(self.file("large"), "wb") as large:
            large.truncate((1 << 28) + 1)
        ran = self.merge("--skip-bad=50", "large", "p/0", prepare=lambda: resource.setrlimit(resource.RLIMIT_AS, (400 << 20,) * 2))
        self.tells(ran, DONE, "left out: .*large: refused at 268435456: FileTooLarge")
        self.assertEqual(ran.out, self.sum_of(["p/0"]))

    def test_one_of_many_builds(self):
        self.file("many", profile(1) + "".join(f"# build {number}{'0' * 500}\n" for number in range(10000)))
        ran = self.merge("--skip-bad=50", "many", "p/0")
        self.tells(ran, DONE, "it is of several builds")
        self.assertLess(len(ran.said), 4096)

    def test_a_number_of_many_zeros(self):
        name = self.file("zeros", b"x:" + b"0" * 4000000 + b"y\n")
        used = resource.getrusage(resource.RUSAGE_CHILDREN).ru_utime
        self.tells(self.merge(name.name), REFUSED, "zeros: refused at 1: BadLine")
        self.assertLess(resource.getrusage(resource.RUSAGE_CHILDREN).ru_utime - used, 2)


class Slow(Tree):
    """--most-seconds names the file that takes too long."""

    count = 12

    def test_a_file_that_takes_too_long(self):
        """A stand-in for pgo is slow with one file, in whatever company."""
        self.file("p/5", "slow:1:1\n 1: 1\n")
        slow = self.pgo_that(
            "shift", "for word; do", "    case $word in", "    /dev/fd/*) ! grep -q ^slow: \"$word\" || while :; do :; done ;;",
            "    esac", "done", "set -- merge \"$@\"")
        begun = time.monotonic()
        said = "p/5: it takes more than 1 second of a processor .--most-seconds."
        words = ["-o", "out", "--most-seconds=1", "--part-size=2", *self.files]
        self.tells(self.merge(*words, environment=slow), REFUSED, said)
        self.nothing_out()
        ran = self.merge("--resume", "--skip-bad=10", *words, environment=slow)
        self.tells(ran, DONE, f"left out: .*{said}")
        rest = [name for name in self.files if name != "p/5"]
        self.assertEqual((self.folder / "out").read_bytes(), self.sum_of(rest))
        self.assertEqual([each["name"] for each in self.manifest()["left_out"]], [str(self.folder / "p/5")])
        self.assertLess(time.monotonic() - begun, 60)
        # By itself or in a part of a plan.
        self.expect(self.merge("-o", "out", "--plan=tree", "--most-seconds=1", "--part-size=2", *self.files), DONE)
        self.tells(self.merge("--part=1.2", "tree", environment=slow), REFUSED, said)

    def test_a_sum_that_takes_too_long(self):
        """Each file alone is fast."""
        slow = self.pgo_that("[ $# -le 3 ] || while :; do :; done")
        ran = self.merge("--most-seconds=1", "--part-size=2", "--skip-bad=100", *self.files[:2], environment=slow)
        self.tells(ran, FAILED, "the sum of .*/p/0 to .*/p/1 takes more than 1 second of a processor")

    def test_what_is_fast_is_not_refused(self):
        self.expect(self.merge("--most-seconds=1", *self.files), DONE, self.sum_of(self.files))
        self.tells(self.merge("--most-seconds=0", *self.files), BAD_WORDS, "a number from 1 up, and not 0")


class Builds(Tree):
    """Profiles of several builds are kept apart."""

    def setUp(self):
        super().setUp()
        for number in range(self.count):
            (self.folder / f"p/{number}").write_text(profile(number + 1, ONE if number < 15 else TWO))

    def test_one_build(self):
        ran = self.merge(*self.files[:15])
        self.expect(ran, DONE, self.sum_of(self.files[:15]) + f"# build {ONE}\n".encode())
        self.expect(self.merge("-o", "out", *self.files[:15]), DONE)
        self.assertEqual((self.folder / "out").read_bytes(), ran.out)
        self.assertEqual((self.manifest()["build"], self.manifest()["size"]), (ONE, len(ran.out)))

    def test_several_builds(self):
        ran = self.merge("-o", "out", *self.files)
        self.tells(ran, FAILED, f"of 2 builds: {ONE} .15 files., {TWO} .5 files..*--build=ID")
        self.nothing_out()
        self.tells(self.merge("-o", "out", f"--build={TWO}", *self.files), DONE, f"left out: 15 of 20 files, of other builds: .*p/0: it is of the build {ONE}")
        self.assertEqual((self.folder / "out").read_bytes(), self.sum_of(self.files[15:]) + f"# build {TWO}\n".encode())
        self.assertEqual((len(self.manifest()["left_out"]), self.manifest()["bad"]), (15, 0))
        self.expect(self.merge("--build=any", *self.files), DONE, self.sum_of(self.files))
        self.tells(self.merge("--build=none", *self.files), FAILED, "nothing was merged")

    def test_a_line_that_does_not_stand_at_the_end(self):
        path = self.folder / "p/3"
        path.write_text(f"# build {TWO}\n" + profile(3) + "# ranges 1\n" * 1000)
        self.tells(self.merge(*self.files[:15]), FAILED, "several builds")
        self.tells(self.merge(*[name for name in self.files[:15] if name not in ("p/0", "p/1", "p/2")], "--part-size=2"), FAILED, "several builds")
        path.write_bytes(profile(3, ONE).replace("\n", "\r\n").encode())
        self.tells(self.merge(*self.files[:15]), REFUSED, "p/3: refused at 1: BadLine")
        path.write_text(f"# build {TWO}\n" + profile(3, ONE))
        self.tells(self.merge(*self.files[:15]), REFUSED, "p/3: it is of several builds")

    def test_files_that_tell_no_build(self):
        """Where most files tell one, a file that does not is a bad one."""
        (self.folder / "p/3").write_text(profile(3))
        for build in ("", "any"):
            ran = self.merge(f"--build={build}", *self.files[:15])
            self.tells(ran, REFUSED, "p/3: it tells no build at its end, as most files do: it was cut off")
        ran = self.merge("--skip-bad=10", *self.files[:15])
        self.tells(ran, DONE, "left out: .*p/3: it tells no build")
        rest = [name for name in self.files[:15] if name != "p/3"]
        self.assertEqual(ran.out, self.sum_of(rest) + f"# build {ONE}\n".encode())
        self.tells(self.merge(f"--build={ONE}", *self.files[:15]), DONE, "left out: 1 of 15 files.*p/3: it tells no build")

    def test_few_files_that_tell_a_build(self):
        for number in range(2, 7):
            (self.folder / f"p/{number}").write_text(profile(number))
        self.tells(self.merge(*self.files[:7]), FAILED, f"several builds: {ONE}, none")
        self.expect(self.merge("--build=any", *self.files[:7]), DONE, self.sum_of(self.files[:7]))

    def test_a_file_that_was_cut_off_between_lines(self):
        """At whatever line: nothing of it goes in without a word."""
        text = (self.folder / "p/3").read_text().splitlines(keepends=True)
        for kept in range(len(text)):
            (self.folder / "p/3").write_text("".join(text[:kept]))
            ran = self.merge("-o", "out", *self.files[:15])
            self.tells(ran, REFUSED, "p/3: (it tells no build|empty)")
            self.nothing_out()
        self.expect(self.merge("-o", "out", "--plan=tree", "--part-size=4", *self.files[:15]), DONE)
        self.tells(self.merge("--part=1.0", "tree"), REFUSED, "p/3: it tells no build")


class Steps(Tree):
    """A part of the next step is believed only where it is as it was made."""

    def setUp(self):
        super().setUp()
        self.plan()
        self.make("1.0", "1.1", "1.2", "1.3", "1.4")
        self.whole = self.sum_of(self.files)

    def refused_until_again(self, part, pattern):
        """The next step refuses a part, and takes it once it was made anew."""
        ran = self.merge("--part=2.0", "tree")
        self.tells(ran, FAILED, f"tree/{part}.prof.*{pattern}.*--part={part} .*tree makes it anew")
        self.assertNotEqual(self.merge("--part=3.0", "tree").status, DONE)
        self.nothing_out()
        self.make(part, "2.0", "2.1", "3.0")
        self.assertEqual((self.folder / "out").read_bytes(), self.whole)

    def test_parts(self):
        self.make("2.0", "2.1", "3.0", "1.0", "2.0", "3.0")
        self.assertEqual((self.folder / "out").read_bytes(), self.whole)

    def test_a_part_that_was_cut_off_at_a_line(self):
        path = self.folder / "tree/1.2.prof"
        path.write_bytes(b"".join(path.read_bytes().splitlines(keepends=True)[:-1]))
        self.refused_until_again("1.2", "it has [0-9]* bytes, and its manifest says")

    def test_an_empty_part(self):
        (self.folder / "tree/1.0.prof").write_text("")
        self.refused_until_again("1.0", "it has 0 bytes")

    def test_a_part_with_another_number(self):
        path = self.folder / "tree/1.2.prof"
        path.write_bytes(path.read_bytes().replace(b"1", b"2"))
        self.refused_until_again("1.2", "its bytes are others")

    def test_a_part_without_a_manifest(self):
        (self.folder / "tree/1.2.manifest").unlink()
        self.refused_until_again("1.2", "it was not made to its end")

    def test_half_a_manifest(self):
        path = self.folder / "tree/1.2.manifest"
        path.write_text(path.read_text()[:300])
        self.refused_until_again("1.2", "it was not made to its end")

    def test_a_part_that_was_not_made(self):
        (self.folder / "tree/1.2.manifest").unlink()
        (self.folder / "tree/1.2.prof").unlink()
        self.refused_until_again("1.2", "it was not made to its end")

    def test_a_folder_in_place_of_a_part(self):
        (self.folder / "tree/1.2.prof").unlink()
        (self.folder / "tree/1.2.prof").mkdir()
        self.tells(self.merge("--part=2.0", "tree"), FAILED, "1.2.prof: it is a folder")
        self.nothing_out()

    def test_a_part_of_another_number(self):
        for kind in ("prof", "manifest"):
            (self.folder / f"tree/1.2.{kind}").write_bytes((self.folder / f"tree/1.1.{kind}").read_bytes())
        self.refused_until_again("1.2", "another night or another list")

    def test_a_part_of_last_night(self):
        stale = {kind: (self.folder / f"tree/1.2.{kind}").read_bytes() for kind in ("prof", "manifest")}
        self.plan()
        self.make("1.0", "1.1", "1.3", "1.4")
        for kind, content in stale.items():
            (self.folder / f"tree/1.2.{kind}").write_bytes(content)
        self.refused_until_again("1.2", "another night or another list")

    def test_a_part_of_another_build(self):
        for name in self.files[8:12]:
            (self.folder / name).write_text(profile(5, ONE))
        self.make("1.2")
        self.tells(self.merge("--part=2.0", "tree"), FAILED, f"several builds: {ONE}, none")
        self.nothing_out()

    def test_a_manifest_that_is_gone_at_last(self):
        self.make("2.0", "2.1", "3.0")
        (self.folder / "out").unlink()
        (self.folder / "tree/1.2.manifest").unlink()
        self.tells(self.merge("--part=3.0", "tree"), FAILED, "2.0.prof: .*--part=2.0 .* makes it anew")
        self.assertFalse((self.folder / "out").exists())
        self.expect(self.merge("--run", "tree"), DONE)
        self.assertEqual((self.folder / "out").read_bytes(), self.whole)

    def test_damaged_descriptions(self):
        self.plan()
        path = self.folder / "tree/tree"
        told = json.loads(path.read_text())
        choices: List[Dict[str, Any]] = [{"skip_bad": "1"}, {"skip_bad": -1}, {"skip_bad": 101}, {"fetch": "cp"}]
        changes: List[Dict[str, Any]] = [
            {"width": 1}, {"width": 0}, {"width": "4"}, {"files": []}, {"files": [["p/0", "1"]]}, {"files": [[7, 1]]}, {"out": "a\0b"},
            {"id": None}, {"out": "\ud800"}, {"files": [["\ud800", 1]]}, *({"choices": {**told["choices"], **bad}} for bad in choices),
        ]
        for damaged in [*(json.dumps({**told, **change}) for change in changes), "[" * 200000]:
            with self.subTest(damaged[-60:]):
                path.write_text(damaged)
                self.tells(self.merge("--run", "tree", limit=20), FAILED, "tree/tree describes no tree")

    def test_damaged_manifests(self):
        """What is of another kind than what merge-tree writes is no manifest: its part is made anew."""
        self.make("2.0", "2.1", "3.0")
        (self.folder / "out").unlink()
        held = {name: (self.folder / "tree" / name).read_text() for name in ("1.0.manifest", "3.0.manifest")}
        change: Any
        for name, change in (("1.0.manifest", {"files": [{"total": "1"}]}), ("1.0.manifest", {"files": [{"weight": None}]}), ("1.0.manifest", {"merged": "4"}),
                             ("3.0.manifest", {"build": "\ud800"}), ("3.0.manifest", {"total": []})):
            with self.subTest(name=name, change=change):
                told = json.loads(held[name])
                files = [{**entry, **change["files"][0]} for entry in told["files"]] if "files" in change else told.get("files", [])
                self.file(f"tree/{name}", json.dumps({**told, **change, "files": files}))
                self.expect(self.merge("--run", "tree", limit=20), DONE)
                self.assertEqual((self.folder / "out").read_bytes(), self.whole)

    def test_a_nested_manifest(self):
        self.plan()
        self.file("tree/1.0.manifest", "[" * 200000)
        self.expect(self.merge("--run", "tree"), DONE)
        self.file("out.manifest", "[" * 200000)
        self.tells(self.merge("-o", "out", "--resume", *self.files), BAD_WORDS, "out.manifest is no manifest of merge-tree")

    def test_no_such_part_or_tree(self):
        for part in ("4.0", "1.5", "0.0", "x", "1.-1"):
            self.tells(self.merge(f"--part={part}", "tree"), BAD_WORDS, "has no part .*1.0 to 1.4, 2.0 to 2.1, 3.0 to 3.0")
        self.tells(self.merge("--part=1.0", "p"), FAILED, "p holds no tree")
        self.file("tree/tree", "{}")
        self.tells(self.merge("--run", "tree"), FAILED, "describes no tree")

    def test_what_is_missing_is_made_here(self):
        (self.folder / "tree/1.2.prof").write_text("")
        self.expect(self.merge("--run", "tree"), DONE)
        self.assertEqual((self.folder / "out").read_bytes(), self.whole)


class Resumed(Tree):
    """A call that was ended goes on where it stopped."""

    def resumed(self, most, *words):
        """The sum is made with at most so many merges."""
        (self.folder / "calls").unlink(missing_ok=True)
        self.expect(self.merge("-o", "out", "--resume", "--part-size=2", *words, *self.files, environment=self.pgo_that()), DONE)
        self.assertLessEqual(len(self.calls()), most)
        calls, made = len(self.calls()), (self.folder / "out").read_bytes()
        self.assertEqual(made, self.sum_of(self.files))
        self.assertFalse((self.folder / "out.tree").exists())
        return calls

    def stopped(self, files=None):
        """A call that stops at a file that is not there."""
        ran = self.merge("-o", "out", "--part-size=2", *(files or [*self.files[:-1], "gone"]))
        self.tells(ran, MISSING, "gone: no such file")
        self.nothing_out()

    def test_what_is_merged_is_not_merged_anew(self):
        self.stopped()
        self.assertEqual(self.resumed(6), 5)
        self.assertEqual(self.resumed(0), 0)

    def test_what_was_left_behind_the_last_step(self):
        self.resumed(100)
        self.expect(self.merge("-o", "out", "--plan=out.tree", *self.files), DONE)
        self.file("out.tree/1.0.prof.7.0.new", "half")
        self.assertEqual(self.resumed(0), 0)
        self.file("out.tree/mine", "kept")
        self.expect(self.merge("-o", "out", "--resume", "--part-size=2", *self.files), DONE)
        self.assertEqual(self.names("out.tree"), ["mine"])

    def test_a_file_that_changed(self):
        self.stopped()
        (self.folder / "p/0").write_text(profile(100))
        # The parts of the files that went with it into one sum are gone: those are made anew too.
        self.assertGreater(self.resumed(20), 6)

    def test_a_file_that_changed_behind_the_end(self):
        self.resumed(100)
        (self.folder / "p/0").write_text(profile(100))
        self.assertGreater(self.resumed(100), 20)

    def test_a_file_that_comes_late(self):
        (self.folder / "p/0").rename(self.folder / "held")
        self.tells(self.merge("-o", "out", "--part-size=2", "--skip-bad", *self.files), MISSING, "1 of 20 files are bad, more than 1%")
        (self.folder / "held").rename(self.folder / "p/0")
        self.assertGreater(self.resumed(21, "--skip-bad"), 5)

    def test_anew(self):
        self.stopped()
        fake = self.pgo_that()
        self.expect(self.merge("-o", "out", "--part-size=2", *self.files, environment=fake), DONE)
        self.assertGreater(len(self.calls()), 20)

    def test_a_part_that_was_cut_off(self):
        self.stopped()
        cut = [name for name in self.names("out.tree") if name.endswith(".prof")]
        for name in cut:
            path = self.folder / "out.tree" / name
            path.write_bytes(path.read_bytes()[:-10])
        self.resumed(100)

    def test_what_comes_into_the_folder_meanwhile(self):
        ran = self.merge("-o", "out", "-j1", "--part-size=2", *self.files, environment=self.pgo_that(f"echo kept >'{self.folder}/out.tree/mine'"))
        self.expect(ran, DONE)
        self.assertEqual(self.names("out.tree"), ["mine"])
        self.assertEqual((self.folder / "out").read_bytes(), self.sum_of(self.files))

    def when(self, *lines_of_it):
        """A call in a process where something is done between two of its steps, as another call would."""
        started = "import fcntl, os, shutil, sys\nsys.argv[0] = sys.argv[1]\n" + FROM_CONTRIB + "\n"
        script = self.file("when.py", "\n".join([started, *lines_of_it, "os._exit(cli.ended(main, sys.argv[2:]))", ""]))
        return python(script, TREE, "-j1", "-o", "out", *self.files[:3], folder=self.folder, environment={"PGO": PGO, **MODULES})

    def test_a_tree_that_another_takes_away_and_a_third_makes(self):
        """The lock that was opened is then none of the tree's."""
        ran = self.when("real = fcntl.flock", "def lock(*words):", "    shutil.rmtree('out.tree')", "    os.mkdir('out.tree')",
                        "    open('out.tree/lock', 'w').close()", "    open('out.tree/1.0.prof', 'w').close()", "    real(*words)", "fcntl.flock = lock")
        self.tells(ran, FAILED, "another merge-tree is at work in .*out.tree")
        self.assertEqual(self.names("out.tree"), ["1.0.prof", "lock"])
        self.nothing_out()

    def test_a_file_system_without_locks(self):
        ran = self.when("import errno", "def lock(*words):", "    raise OSError(errno.ENOLCK, 'No locks available')", "fcntl.flock = lock")
        self.tells(ran, WRITE_FAULT, "out.tree/lock cannot be locked .No locks available.")
        self.nothing_out()

    def test_a_tree_that_another_takes_away(self):
        ran = self.when("real = os.open", "def opened(path, *words, **how):", "    if str(path).endswith('/lock'):", "        os.rmdir('out.tree')",
                        "    return real(path, *words, **how)", "os.open = opened")
        self.tells(ran, FAILED, "another merge-tree is at work in .*out.tree")

    def test_a_tree_that_another_takes_away_while_it_is_looked_at(self):
        """It is gone in front of the look, or behind it; or its description is."""
        gone, description = "shutil.rmtree('out.tree')", "os.unlink('out.tree/tree')"
        at_start = ["real = os.path.islink", "def link(path):", "    os.path.islink = real", f"    {gone}", "    return real(path)", "os.path.islink = link"]
        listing = ["real = os.scandir", "def listed(path):", "    os.scandir, found = real, list(real(path))", "    {}", "    return found", "os.scandir = listed"]
        for lines, status, said in ((at_start, FAILED, "another merge-tree is at work in .*out.tree"),
                                    ([each.format(gone) for each in listing], FAILED, "another merge-tree is at work in .*out.tree"),
                                    ([each.format(description) for each in listing], DONE, "^$")):
            with self.subTest(lines[3]):
                self.expect(self.merge("--plan=out.tree", "-o", "out", *self.files[:3]), DONE)
                self.tells(self.when(*lines), status, said)

    def test_a_tree_that_another_begins_where_this_one_ends(self):
        ran = self.when("real = os.unlink", "def gone(path, **how):", "    real(path, **how)", "    if os.path.basename(path) == 'lock':",
                        "        open('out.tree/lock', 'w').close()", "os.unlink = gone")
        self.tells(ran, DONE, "^$")
        self.assertEqual((self.folder / "out").read_bytes(), self.sum_of(self.files[:3]))
        self.assertEqual(self.names("out.tree"), ["lock"])

    def test_two_at_once(self):
        wait = self.pgo_that(f"while [ ! -e '{self.folder}/go' ]; do sleep 0.02; done")
        first = subprocess.Popen([TREE, "-o", "out", *self.files], cwd=self.folder, env={**os.environ, **wait}, stderr=subprocess.PIPE)
        while not self.calls():
            time.sleep(0.01)
        second = self.merge("-o", "out", "--resume", *self.files)
        self.file("go")
        self.assertEqual(first.wait(), 0)
        assert first.stderr
        first.stderr.close()
        self.tells(second, FAILED, "another merge-tree is at work in .*out.tree")
        self.assertEqual((self.folder / "out").read_bytes(), self.sum_of(self.files))


class InTheWay(Tree):
    """Links and pipes where it writes and reads: no file is written through one, and it waits for none."""

    count = 3

    def refused(self, status, pattern, *words):
        self.tells(self.merge("-o", "out", *words, *self.files, limit=20), status, pattern)
        self.assertFalse((self.folder / "out").exists())

    def test_links(self):
        self.file("others", "precious")
        self.file("folder/others", "precious")
        for name, there in (("lock", "others"), ("tree", "others"), ("1.0.prof", "others"), ("1.0.manifest", "others"), ("merge-tree.1", "folder")):
            with self.subTest(name):
                (self.folder / "out.tree").mkdir()
                (self.folder / "out.tree" / name).symlink_to(self.folder / there)
                for words in ((), ("--resume",)):
                    self.refused(WRITE_FAULT, "out.tree is there, and is no tree of merge-tree", *words)
                (self.folder / "out.tree" / name).unlink()
                (self.folder / "out.tree").rmdir()
        self.assertEqual([(self.folder / name).read_text() for name in ("others", "folder/others")], ["precious"] * 2)

    def test_a_link_for_its_lock(self):
        self.file("others", "precious")
        self.expect(self.merge("-o", "out", "--plan=tree", *self.files), DONE)
        (self.folder / "tree/lock").unlink()
        (self.folder / "tree/lock").symlink_to(self.folder / "others")
        self.tells(self.merge("--run", "tree"), READ_FAULT, "lock: Too many levels of symbolic links")
        self.assertEqual((self.folder / "others").read_text(), "precious")

    def test_pipes(self):
        (self.folder / "out.tree").mkdir()
        for name in ("lock", "tree", "1.0.manifest"):
            os.mkfifo(self.folder / "out.tree" / name)
            self.refused(WRITE_FAULT, "out.tree is there, and is no tree of merge-tree", "--resume")
            (self.folder / "out.tree" / name).unlink()
        os.mkfifo(self.folder / "out.manifest")
        self.refused(WRITE_FAULT, "out.manifest: it is a device or a pipe", "--resume")
        os.mkfifo(self.folder / "out.tree/tree")
        self.tells(self.merge("--run", "out.tree", limit=20), READ_FAULT, "out.tree/tree: it is no file")


@takes(20)
class Ended(Tree):
    """Ended by any signal nothing runs on, and what is done stays."""

    # Some merges are made, the others wait for ever.
    WAITS = "[ \"$(wc -l <\"${0%/fake/pgo}/calls\")\" -le 3 ] || exec sleep 600"

    def gone(self, pid):
        """No such process runs."""
        try:
            with open(f"/proc/{pid}/stat", encoding="ascii", errors="replace") as file:
                return file.read().rsplit(")", 1)[1].split()[0] in "ZX"
        except (FileNotFoundError, ProcessLookupError):
            return True

    def until_both_wait(self):
        """Two jobs have come to merges that wait."""
        seen, since, end = 0, time.monotonic(), time.monotonic() + 60
        while (seen < 4 or time.monotonic() < since + 0.5) and time.monotonic() < end:
            if len(self.calls()) > seen:
                seen, since = len(self.calls()), time.monotonic()
            time.sleep(0.02)

    def test_signals(self):
        for by in (signal.SIGTERM, signal.SIGINT, signal.SIGHUP, signal.SIGQUIT, signal.SIGKILL):
            with self.subTest(by.name):
                (self.folder / "calls").unlink(missing_ok=True)
                for name in ("out", "out.manifest"):
                    (self.folder / name).unlink(missing_ok=True)
                environment = {**os.environ, **self.pgo_that(self.WAITS)}
                started = subprocess.Popen([TREE, "-j2", "-o", "out", "--part-size=2", *self.files], cwd=self.folder, env=environment, stderr=subprocess.PIPE)
                self.until_both_wait()
                started.send_signal(by)
                said = started.communicate(timeout=20)[1]
                self.assertEqual((started.returncode, said), (-by if by == signal.SIGKILL else 128 + by, b""))
                end = time.monotonic() + 5
                while not all(map(self.gone, self.calls())) and time.monotonic() < end:
                    time.sleep(0.02)
                self.assertTrue(all(map(self.gone, self.calls())))
                self.nothing_out()
                done = len(self.calls()) - 2
                (self.folder / "calls").unlink()
                self.expect(self.merge("-o", "out", "--resume", "--part-size=2", *self.files, environment=self.pgo_that()), DONE)
                # Ten parts of files, five above, three, two and one, without those that were done.
                self.assertEqual(len(self.calls()), 21 - done)
                self.assertEqual((self.folder / "out").read_bytes(), self.sum_of(self.files))

    def test_what_is_printed_leaves_nothing(self):
        held = self.folder / "held"
        held.mkdir()
        environment = {**os.environ, **self.pgo_that(self.WAITS), "TMPDIR": str(held)}
        started = subprocess.Popen([TREE, "-j2", "--part-size=2", *self.files], cwd=self.folder, env=environment, stdout=subprocess.PIPE, stderr=subprocess.PIPE)
        self.until_both_wait()
        started.terminate()
        self.assertEqual((started.communicate(timeout=20), started.returncode), ((b"", b""), 128 + signal.SIGTERM))
        self.assertEqual(self.names("held"), [])

    def test_a_part_that_is_killed(self):
        ran = self.merge("-o", "out", "-j1", "--part-size=2", *self.files,
                         environment=self.pgo_that("[ \"$(wc -l <\"${0%/fake/pgo}/calls\")\" -le 3 ] || kill -KILL $PPID"))
        self.tells(ran, FAILED, "part 1.[23] was ended by signal 9.*--resume")
        self.nothing_out()
        self.expect(self.merge("-o", "out", "--resume", "--part-size=2", *self.files), DONE)
        self.assertEqual((self.folder / "out").read_bytes(), self.sum_of(self.files))

    def test_a_merge_that_is_killed(self):
        ran = self.merge("-o", "out", "--part-size=2", *self.files, environment=self.pgo_that("kill -KILL $$"))
        self.tells(ran, FAILED, "pgo was ended by signal 9")
        self.nothing_out()

    def test_killed_at_each_step(self):
        """At the N-th change of a file a part is killed: nothing is in place but a whole sum, and the next call makes it."""
        ran = python(self.file("driver.py", DRIVER), TREE, *self.files[:4], folder=self.folder, limit=400,
                     environment={"PGO": PGO, **MODULES})
        self.expect(ran, DONE, ran.out)
        self.assertGreater(int(ran.out), 20)
        self.assertEqual((self.folder / "out").read_bytes(), self.sum_of(self.files[:4]))
        self.assertEqual(self.manifest()["merged"], 4)


# Runs merge-tree again and again, and kills the process that makes the N-th change to a file, of all of them together; behind each
# a call with --resume. Prints how often. All sums have to be the first one's.
DRIVER = """
import os, signal, sys
tree, files = sys.argv[1], sys.argv[2:]
sys.argv[0] = tree
""" + FROM_CONTRIB + """
OPEN, step = os.open, 0

def counted(real):
    def change(*words, **how):
        if real is not OPEN or words[1] & os.O_CREAT:
            os.write(count, b".")
            if os.fstat(count).st_size == step:
                os.kill(os.getpid(), signal.SIGKILL)
        return real(*words, **how)
    return change

def call(killed, *words):
    global count
    pid = os.fork()
    if pid:
        return os.waitpid(pid, 0)[1]
    cli.hear()
    if killed:
        os.dup2(os.open("/dev/null", os.O_WRONLY), 2)
        count = os.open("changes", os.O_RDWR | os.O_CREAT | os.O_TRUNC | os.O_APPEND)
        for name in ("replace", "unlink", "mkdir", "rmdir", "open"):
            setattr(os, name, counted(getattr(os, name)))
    os._exit(cli.ended(main, ["-j1", "-o", "out", "--part-size=2", *words, *files]))

def out():
    with open("out", "rb") as file:
        return file.read()

assert call(False) == 0
whole = out()
while True:
    step += 1
    for name in ("out", "out.manifest"):
        os.unlink(name)
    if call(True) == 0:
        break
    assert not os.path.exists("out") or out() == whole, step
    assert call(False, "--resume") == 0 and out() == whole and not os.path.exists("out.tree"), step
print(step - 1)
"""


class Rooms(Tree):
    """Where there is no room, that is said with the status of a write fault, and what is done stays."""

    @needs("prlimit")
    def test_a_limit_on_files(self):
        self.expect(python(FLEET, "9", "400", "fleet", folder=self.folder), DONE)
        names = [f"fleet/{number}.prof" for number in range(1, 10)]
        whole = self.merge(*names)
        self.expect(whole, DONE, whole.out)
        for limit in (len(whole.out) - 1, 20000, 100):
            ran = self.run_here("prlimit", f"--fsize={limit}", TREE, "-o", "out", *names)
            self.tells(ran, WRITE_FAULT, "room|File too large|larger than files may be")
            self.nothing_out()
        self.expect(self.merge("-o", "out", "--resume", *names), DONE)
        self.assertEqual((self.folder / "out").read_bytes(), whole.out)

    def test_a_limit_on_open_files(self):
        """A good file that cannot be opened for want of room is not left out as a bad one."""
        whole, ended = self.sum_of(self.files), set()
        for limit in (8, 10, 12, 14, 16, 18, 20, 24, 64):
            ran = self.merge("--skip-bad=100", "--part-size=20", "-j1", *self.files, prepare=lambda: resource.setrlimit(resource.RLIMIT_NOFILE, (limit, limit)))
            self.assertTrue(ran.status or ran.out == whole, (limit, ran))
            ended.add(ran.status)
        self.assertIn(DONE, ended)
        self.assertGreater(len(ended), 1)

    @needs("unshare", "mount")
    def test_a_full_disk(self):
        if run("unshare", "-m", "true").status:
            self.skipTest("unshare -m is not allowed")
        self.expect(python(FLEET, "64", "60", "fleet", folder=self.folder), DONE)
        names = [f"fleet/{number}.prof" for number in range(1, 65)]
        self.merge(*names)
        for pages in (6, 10, 14, 20, 30):
            (self.folder / "disk").mkdir(exist_ok=True)
            script = f"mount -t tmpfs -o size={4 * pages}k none disk && '{TREE}' -o disk/out {' '.join(names)}; status=$?; ls disk >left; exit $status"
            ran = self.run_here("unshare", "-m", "sh", "-c", script)
            if ran.status == DONE:
                break
            self.tells(ran, WRITE_FAULT, "room|No space left")
            self.assertIn((self.folder / "left").read_text(), ("out.tree\n", ""))
        self.assertGreater(pages, 6)

    def test_last_nights_sum_stays_with_its_manifest(self):
        """There is room for the tree, which is elsewhere, and none for the sum."""
        if run("unshare", "-m", "true").status:
            self.skipTest("unshare -m is not allowed")
        self.file("large", "".join(f"f{number}:1:0\n 1: 1\n" for number in range(10000)))
        calls = f"'{TREE}' -o disk/out p/0 && '{TREE}' --plan=tree -o disk/out p/0 large && cp disk/* old && {{ '{TREE}' --run tree; status=$?; }}"
        (self.folder / "disk").mkdir()
        (self.folder / "old").mkdir()
        (self.folder / "new").mkdir()
        ran = self.run_here("unshare", "-m", "sh", "-c", f"mount -t tmpfs -o size=64k none disk && {calls} && cp disk/* new; exit $status")
        self.tells(ran, WRITE_FAULT, "No space left|room")
        for name in ("out", "out.manifest"):
            self.assertEqual((self.folder / "new" / name).read_bytes(), (self.folder / "old" / name).read_bytes())


class Changing(Tree):
    """A file that changes while it is read is none that is whole."""

    def test_a_file_that_grows(self):
        fake = self.pgo_that("echo ' 9: 9' >>p/3")
        self.tells(self.merge(*self.files[:5], environment=fake), READ_FAULT, "p/3: it changed while it was read")

    def test_a_file_that_gets_a_further_name(self):
        """A snapshot by hard links is no change."""
        fake = self.pgo_that("ln p/3 \"snapshot.$$\"")
        self.expect(self.merge(*self.files[:5], environment=fake), DONE, self.sum_of(self.files[:5]))

    def test_a_sum_that_loses_something(self):
        fake = self.pgo_that(f"'{PGO}' \"$@\" | sed '$d'; exit 0")
        ran = self.merge("-o", "out", *self.files[:5], environment=fake)
        self.tells(ran, FAILED, "total of [0-9]* went in, and [0-9]* came out")
        self.nothing_out()


# Runs merge-tree, whose part is told to end once the command that it started has started another one, before it knows its number.
WHILE_STARTED = """
import os, signal, subprocess, sys, time
sys.argv[0] = sys.argv[1]
""" + FROM_CONTRIB + """
real = subprocess.Popen

def begun(*words, **how):
    started = real(*words, **how)
    while not os.path.exists("sleeps") or not os.path.getsize("sleeps"):
        time.sleep(0.01)
    os.kill(os.getpid(), signal.SIGTERM)
    return started

subprocess.Popen = begun
os._exit(cli.ended(main, sys.argv[2:]))
"""


class Fetched(Tree):
    """Files that a command brings."""

    def test_a_copy(self):
        self.expect(self.merge("--fetch=cp", "--part-size=10", *self.files), DONE, self.sum_of(self.files))
        script = self.file("bring it", '#!/bin/sh\nset -eu\n[ "$1" = -v ]\ncp "p/${2#store://}" "$3"\n')
        script.chmod(0o755)
        self.expect(self.merge(f"--fetch='{script}' -v", *(f"store://{number}" for number in range(20))), DONE, self.sum_of(self.files))

    def script(self, name, *lines_of_it):
        path = self.file(name, "\n".join(["#!/bin/sh", *lines_of_it, ""]))
        path.chmod(0o755)
        return f"--fetch={path}"

    def test_what_the_command_has(self):
        """It runs in the caller's environment, and reads nothing of the caller's input."""
        fetch = self.script("get", '[ "$LC_ALL" = C.UTF-8 ] && [ -z "$(cat)" ] && cp "$1" "$2"')
        ran = self.merge(fetch, *self.files, given=b"typed ahead", environment={"LC_ALL": "C.UTF-8"})
        self.expect(ran, DONE, self.sum_of(self.files))

    def test_a_copy_that_is_a_link(self):
        (self.folder / "elsewhere").mkdir()
        (self.folder / "p/link").symlink_to(self.folder / "elsewhere")
        ran = self.merge("--fetch=cp -P", "--skip-bad=50", "p/link", "p/0", "p/1")
        self.tells(ran, DONE, "left out: p/link: read fault: cp brought a link")
        self.assertEqual((ran.out, self.names("elsewhere")), (self.sum_of(["p/0", "p/1"]), []))

    def test_a_copy_that_goes_on_with_what_is_there(self):
        fetch = self.script("get", '[ ! -e "$2" ] || exit 0', 'cp "$1" "$2"', '[ "$1" != p/0 ]')
        ran = self.merge(fetch, "--skip-bad=50", *self.files)
        self.tells(ran, DONE, "left out: p/0: read fault")
        self.assertEqual(ran.out, self.sum_of(self.files[1:]))

    def test_a_copy_of_a_folder(self):
        self.file("p/folder/kept")
        ran = self.merge("--fetch=cp -r", "--skip-bad=50", "p/folder", *self.files)
        self.tells(ran, DONE, "left out: p/folder: read fault: it is a folder")
        self.assertEqual(ran.out, self.sum_of(self.files))

    def test_a_name_that_is_an_option(self):
        self.tells(self.merge("--fetch=cp", "--", "--help"), BAD_WORDS, "--help: the name begins with -")

    def test_a_signal(self):
        """What the command started itself ends, too."""
        fetch = self.script("get", f"sleep 600 & echo $! >'{self.folder}/sleeps'", "wait")
        ran = terminated(TREE, fetch, "-o", "out", "p/0", folder=self.folder, until=lambda: (self.folder / "sleeps").exists() and bool((self.folder / "sleeps").read_text()))
        self.assertEqual(ran.status, 128 + signal.SIGTERM)
        self.assertTrue(self.ends(int((self.folder / "sleeps").read_text())), "it goes on")

    def test_a_signal_while_it_is_started(self):
        """It comes between the command's first steps and those of the process that waits for it."""
        fetch = self.script("get", f"sleep 40 & echo $! >'{self.folder}/sleeps'", "wait")
        script = self.file("when.py", WHILE_STARTED)
        ran = python(script, TREE, fetch, "-o", "out", "p/0", folder=self.folder, limit=20,
                     environment={"PGO": PGO, **MODULES})
        self.tells(ran, FAILED, "part 1.0 was ended before its end")
        self.assertTrue(self.ends(int((self.folder / "sleeps").read_text())), "it goes on")

    def test_a_part_that_is_killed(self):
        """Its command ends, though nobody is left to end it."""
        fetch = self.script("get", f"echo $$ >'{self.folder}/sleeps'", "kill -9 $PPID", "exec sleep 40")
        self.tells(self.merge(fetch, "-o", "out", "p/0", limit=20), FAILED, "part 1.0 was ended by signal 9")
        self.assertTrue(self.ends(int((self.folder / "sleeps").read_text())), "it goes on")

    def ends(self, pid):
        """A process ends soon; one that does not is ended."""
        for _ in range(100):
            if not os.path.exists(f"/proc/{pid}") or " Z " in pathlib.Path(f"/proc/{pid}/stat").read_text():
                return True
            time.sleep(0.05)
        os.kill(pid, signal.SIGKILL)
        return False

    def test_a_copy_that_fails(self):
        self.tells(self.merge("--fetch=cp", *self.files, "gone"), READ_FAULT, "gone: read fault: cp ended with 1: .*No such file")
        says = self.script("get", "echo one >&2", "echo two >&2", "exit 3")
        self.tells(self.merge(says, "p/0"), READ_FAULT, "p/0: read fault: .*/get ended with 3: one; two$")
        self.tells(self.merge("--fetch=true", *self.files[:2]), READ_FAULT, "p/0: read fault: true ended with 0")
        self.tells(self.merge("--fetch=cp", "p/0", "p/0"), BAD_WORDS, "listed twice")
        self.tells(self.merge("--fetch=no-such-command", "p/0"), 127, "there is no program no-such-command")


if __name__ == "__main__":
    unittest.main()
