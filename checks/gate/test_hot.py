"""contrib/hot: its tables, and that no program or profile has it read, run or print what it should not."""
import json
import os
import pathlib
import random
import re
import signal
import subprocess
import sys
import time
from typing import List

from common import (BAD_WORDS, BLOCKS, CONTRIB, DONE, FAILED, HERE, MISSING, PGO, REFUSED, TEXT, TOP, WORDS, WRITE_FAULT, Case, into_closed_pipe,
                    needs, needs_file, on_closed_output, run)

SCRIPT = CONTRIB / "hot"
PROFILE = next(it for it in (HERE / "program/words.expected", TOP / "checks/program/words.expected") if it.exists())


class Tables(Case):
    def test_functions_and_lines(self):
        ran = run(SCRIPT, PROFILE)
        self.assertEqual((ran.status, ran.said), (DONE, ""))
        self.assertRegex(ran.out, rb"(?m)^51.0%   6932      543  count_word$")
        self.assertRegex(ran.out, rb"(?m)^19.9%   2704  compare \+2$")

    @needs("llvm-dwarfdump")
    def test_their_source(self):
        ran = run(SCRIPT, f"--bin={WORDS}", PROFILE)
        self.assertRegex(ran.out, rb"compare \+2 *words.c:45 *for \(int i = 0; i < a_length && i < b_length; i\+\+\)")

    @needs("llvm-dwarfdump", "strip")
    def test_a_stripped_program(self):
        subprocess.run(["strip", "-o", self.folder / "bare", WORDS], check=True)
        self.tells(self.run_here(SCRIPT, "--bin=bare", PROFILE), DONE, "bare tells of none of these functions")

    def test_json(self):
        told = json.loads(run(SCRIPT, "--json", "--top=2", PROFILE).out)
        self.assertEqual([it["name"] for it in told["functions"]], ["count_word", "main"])
        self.assertEqual({key: told["lines"][0][key] for key in ("name", "offset", "count")}, {"name": "compare", "offset": 2, "count": 2704})

    def test_long_names_are_cut_in_the_middle(self):
        names = [f"{'a' * 80}_{end}" for end in ("first", "second")]
        out = self.run_here(SCRIPT, self.file("long", "".join(f"{it}:5:1\n 1: 5\n" for it in names))).out.decode()
        for name in names:
            self.assertRegex(out, rf"(?m) a+\.\.a+_{name[81:]}( |$)")

    def test_packed_texts_and_the_input(self):
        expected = run(SCRIPT, PROFILE).out
        self.assertEqual(run(SCRIPT, "-", given=PROFILE.read_bytes()).out, expected)
        self.file("words.prof", PROFILE.read_bytes())
        subprocess.run(["gzip", "-n", self.folder / "words.prof"], check=True)
        self.assertEqual(self.run_here(SCRIPT, "words.prof.gz").out, expected)

    def test_what_llvm_profgen_says_of_functions_is_passed_over(self):
        self.assertEqual(self.run_here(SCRIPT, self.file("gen", "f:5:1\n 1: 5\n !CFGChecksum: 7\n !Attributes: 1\n")).status, DONE)


class Names(Case):
    """Demangled names: what is cut of them, and what never is. Stand-ins for demanglers say what each name is."""

    LONG = "std::map<std::string, std::vector<int> >"

    def shown(self, names, *words, tool="llvm-cxxfilt"):
        """The functions that are printed where these are what a demangler makes of _Z0, _Z1 and so on."""
        mangled = [name if name.startswith("_") else f"_Z{k}" for k, name in enumerate(names)]
        known = names if isinstance(names, dict) else dict(zip(mangled, names))
        stand_in = self.file(f"bin/{tool}", f"#!{sys.executable}\nimport sys\nfor it in sys.stdin:\n    print({known!r}.get(it.strip(), it.strip()))\n")
        stand_in.chmod(0o755)
        profile = self.file("prof", "".join(f"{name}:{100 - k}:1\n 1: {100 - k}\n" for k, name in enumerate(mangled)))
        ran = self.run_here(SCRIPT, *words, profile, environment={"PATH": f"{stand_in.parent}:{os.environ['PATH']}"})
        self.assertEqual((ran.status, ran.said), (DONE, ""))
        if "--json" in words:
            return [it["shown"] for it in json.loads(ran.out)["functions"]]
        return re.findall(r"(?m)^ *[0-9.]+% +[0-9]+ +1  (.*)$", ran.out.decode())

    def test_arguments_are_cut_first(self):
        for whole, short in (
            (f"app::Store::put({self.LONG} const&, int)", "app::Store::put(..)"),
            (f"app::Store::put({self.LONG} const&, int) const", "app::Store::put(..) const"),
            (f"void app::Store::put<int>({self.LONG} const&, int)", "void app::Store::put<int>(..)"),
            (f"{self.LONG} app::Store::put<int>({self.LONG} const&, int)", "app::Store::put<int>(..)"),
            (f"{self.LONG} app::Store<{self.LONG}>::put<int>({self.LONG})", "app::Store<..>::put<..>(..)"),
            (f"(anonymous namespace)::Store::put({self.LONG} const&)", "(anonymous namespace)::Store::put(..)"),
            (f"app::operator<< <char>({self.LONG} const&, std::ostream&)", "app::operator<< <char>(..)"),
            (f"app::Store::operator()({self.LONG} const&, std::ostream&)", "app::Store::operator()(..)"),
            (f"app::Store<{self.LONG}>::operator bool({self.LONG}) const", "app::Store<..>::operator bool(..) const"),
            (f"app::Store::operator->({self.LONG} const&, std::ostream&)", "app::Store::operator->(..)"),
            (f"app::Store::put({self.LONG} const&, int) (.cold)", "app::Store::put(..) (.cold)"),
            (f"app::Store::put({self.LONG} const&, int)::{{lambda({self.LONG})#1}}::operator()(int) const",
             "app::Store::put(..)::{lambda(..)#1}::operator()(..) const"),
            (f"{'deep::' * 20}Store::put({self.LONG})", "..::" + "deep::" * 7 + "Store::put(..)"),
            (f"<app::Store as core::iter::FromIterator<{self.LONG}, alloc::Global>>::from_iter", "<..>::from_iter"),
        ):
            with self.subTest(whole):
                self.assertEqual(self.shown([whole]), [short])
                self.assertEqual(self.shown([whole], "--wide"), [whole])
                self.assertEqual(self.shown([whole], "--json"), [whole])

    def test_names_that_fit_are_whole(self):
        names = ["app::Store::put(int)", "app::Store::put(long)", "f(", "a > b", "operator", "<", "main"]
        self.assertEqual(self.shown(names), names)

    def test_brackets_that_do_not_pair(self):
        for name in ("f(" + "x" * 80, "f" * 80 + ">", "(" * 90, "a<(" * 40 + ">)" * 20):
            with self.subTest(name):
                (shown,) = self.shown([name])
                self.assertEqual((len(shown), shown[:4], shown[-4:]), (60, name[:4], name[-4:]))

    def test_names_that_would_be_alike_are_told_apart(self):
        kinds = ("int", "long", "short")
        shown = self.shown([f"app::Store::put({self.LONG} const&, {kind})" for kind in kinds])
        self.assertEqual(shown, [f"app::Store::put(..) [..const&, {kind})]" for kind in kinds])
        handlers = [f"std::_Function_handler<void (), app::run({self.LONG})::{{lambda()#{k}}}>::_M_invoke(std::_Any_data const&)" for k in (1, 2)]
        self.assertEqual(self.shown(handlers), [f"..::_Function_handler<..>::_M_invoke(..) [..ambda()#{k}}}>::..]" for k in (1, 2)])

    def test_two_names_that_are_demangled_alike(self):
        for words in ((), ("--wide",)):
            self.assertEqual(self.shown(["app::Store::Store()"] * 2, *words), ["app::Store::Store() [_Z0]", "app::Store::Store() [_Z1]"])

    def test_rust_names_by_rustfilt(self):
        names = {"_ZN3app5store17h0123456789abcdefE": "app::store", "_RNvC3app4main": "app::main"}
        self.assertEqual(self.shown(names, tool="rustfilt"), ["app::store", "app::main"])

    @needs("c++filt")
    def test_without_another_demangler(self):
        """c++filt alone is on the PATH, with what the script needs."""
        profile = self.file("prof", "_ZN3app5Store3putEi:5:1\n 1: 5\n")
        self.assertIn(b"app::Store::put(int)", self.run_here(SCRIPT, profile, environment=self.only_tools("c++filt", "python3", "env")).out)


class Options(Case):
    """A profile that was made without an option that it needed."""

    def test_a_profile_without_base(self):
        self.file("raw", run(PGO, "profile", WORDS, TEXT).out)
        self.file("own", run(PGO, "profile", "--base", WORDS, TEXT).out)
        merge = CONTRIB / "merge-tree"
        for call, name in (([SCRIPT, "raw"], "raw"), ([CONTRIB / "compare", "own", "raw"], "raw"), ([merge, "raw"], "the sum"),
                           ([merge, "-o", "sum", "raw"], ".*sum")):
            with self.subTest(call):
                ran = self.run_here(*call)
                self.assertEqual(ran.status, DONE)
                self.assertRegex(ran.said, rf"\A[a-z-]+: {name} looks as if made of a clang binary without --base, .*\n\Z")
        others: List[List[object]] = [[SCRIPT, "own"], [SCRIPT, PROFILE], [CONTRIB / "compare", "own", "own"], [merge, "own"]]
        for call in others:
            with self.subTest(call):
                ran = self.run_here(*call)
                self.assertEqual((ran.status, ran.said), (DONE, ""))

    def test_discriminators(self):
        for discs, is_packed in (([2] * 9, False), ([2] * 10, True), ([2] * 10 + [3], False), ([4096], True), ([4095], False), ([4096, 1], False), ([0] * 20, False)):
            with self.subTest(discs=discs):
                lines = "".join(f" {k}.{disc}: 5\n" for k, disc in enumerate(discs, 1))
                self.assertEqual("without --base" in self.run_here(SCRIPT, self.file("prof", f"f:5:1\n{lines}")).said, is_packed)

    def test_an_empty_profile_of_a_program_at_other_addresses(self):
        moved = re.sub(rb"0x4(0[0-9a-f]{4})\b", rb"0x5555554\1", TEXT.read_bytes())
        self.file("empty", run(PGO, "profile", "--base", WORDS, self.file("moved", moved)).out)
        self.file("own", run(PGO, "profile", "--base", WORDS, TEXT).out)
        for call in ([SCRIPT, "empty"], [CONTRIB / "compare", "own", "empty"]):
            self.tells(self.run_here(*call), FAILED, "empty.* none of its [0-9]+ branches is in the program: --map=NAME")
        self.tells(self.run_here(CONTRIB / "merge-tree", "empty"), REFUSED, "no branch is in the program: for want of --map=NAME")
        self.tells(self.run_here(SCRIPT, self.file("none")), FAILED, "pgo-profile tells why")


class Libraries(Case):
    """Lines of a library say whose they are."""

    PROFILE = "_Z4workv:100:1\n 1: 10\n 3: _ZNSt6vectorIiE4pushEi:90\n  2: 90\nmain:10:0\n 7: _ZNSt6vectorIiE4pushEi:10\n  2: 10\n"

    def test_the_calls_through_which_a_line_of_a_library_ran(self):
        out = self.run_here(SCRIPT, self.file("prof", self.PROFILE)).out.decode()
        self.assertRegex(out, r"(?m)^90.9%    100  std::vector<int>::push\(int\) \+2$|^90.9%    100  _ZNSt6vector\S+ \+2$")
        self.assertRegex(out, r"(?m)^ +90.0%    of it by (work\(\)|_Z4workv) \+3$\n^ +10.0%    of it by main \+7$")

    def test_the_caller_is_the_nearest_that_is_of_no_library(self):
        text = "main:10:0\n 7: own:10\n  4: _ZNSt6vectorIiE4pushEi:10\n   1: _ZSt4moveIiEvT_:10\n    2: 10\n"
        told = json.loads(self.run_here(SCRIPT, "--json", self.file("prof", text)).out)
        self.assertEqual([(it["name"], it["offset"], it["count"]) for it in told["lines"][0]["callers"]], [("own", 4, 10)])


class Blocks(Case):
    """--blocks: the hottest blocks of a repair."""

    def setUp(self):
        super().setUp()
        ran = run(PGO, "build", "--base", "--edges", WORDS, TEXT, BLOCKS)
        self.assertEqual(ran.status, DONE, ran.said)
        self.file("built", ran.out)

    def test_the_hottest_blocks(self):
        ran = self.run_here(SCRIPT, "--top=2", f"--blocks={BLOCKS}", "built")
        self.assertEqual((ran.status, ran.said), (DONE, ""))
        self.assertRegex(ran.out, rb"(?m)^ 7.7%    762     762  count_word 7  0x4013b0$")
        told = json.loads(self.run_here(SCRIPT, "--json", "--top=3", f"--blocks={BLOCKS}", "-", given=(self.folder / "built").read_bytes()).out)
        self.assertEqual([it["count"] for it in told["blocks"]], [762, 686, 542])

    def test_their_source(self):
        tools = ("llvm-symbolizer", "addr2line")
        for tool in tools:
            with self.subTest(tool=tool):
                path = os.pathsep.join(self.without(it) for it in tools if it != tool)
                ran = self.run_here(SCRIPT, f"--bin={WORDS}", f"--blocks={BLOCKS}", "built", environment={"PATH": path or os.environ["PATH"]})
                if "source lines need" in ran.said:
                    self.skipTest(f"there is no {tool}")
                self.assertRegex(ran.out, rb"count_word 7 +0x4013b0  words.c:45  for \(int i = 0")

    def without(self, hidden):
        """A folder with links to all programs on the PATH but these."""
        folder = self.folder / f"no-{hidden}"
        folder.mkdir()
        for place in os.environ["PATH"].split(os.pathsep):
            for name in os.listdir(place) if os.path.isdir(place) else ():
                if not name.startswith(hidden) and not (folder / name).is_symlink():
                    (folder / name).symlink_to(os.path.join(place, name))
        return str(folder)

    def test_refusals(self):
        self.tells(self.run_here(SCRIPT, f"--blocks={self.file('none')}", "built"), FAILED, "_init has other blocks in .*none")
        self.tells(self.run_here(SCRIPT, f"--blocks={BLOCKS}", PROFILE), FAILED, "no repair stands there")
        cut = (self.folder / "built").read_bytes()
        self.file("cut", cut[: cut.index(b"# end")])
        self.tells(self.run_here(SCRIPT, f"--blocks={BLOCKS}", "cut"), REFUSED, "the repair of _init is not whole")


class Another(Case):
    """Another llvm-dwarfdump in front."""

    def tool(self, lines):
        path = self.file("bin/llvm-dwarfdump", f"#!/bin/sh\n{lines}\n")
        path.chmod(0o755)
        return {"PATH": f"{path.parent}:{os.environ['PATH']}"}


class Strangers(Another):
    """A program names any file as its source. In what is not to come out stands the word secret."""

    def setUp(self):
        super().setUp()
        self.text = "\n".join(["the secret word"] * 100)
        for name in ("outside.c", "home/.ssh/id_rsa", "home/.env", "home/src/.git/config", "home/src/own.c"):
            self.file(name, self.text)
        (self.folder / "home/linked.c").symlink_to("../outside.c")
        (self.folder / "home/links").symlink_to("..")
        (self.folder / "home/inside.c").symlink_to("src/own.c")
        os.mkfifo(self.folder / "home/fifo.c")
        (self.folder / "home/folder.c").mkdir()

    def shown(self, names, *words):
        """What is printed of functions that begin in these files."""
        told = [f"0x{k}: DW_TAG_subprogram\n  DW_AT_name\t(\"f{k}\")\n  DW_AT_decl_file\t(\"{name}\")\n  DW_AT_decl_line\t({k + 1})\n"
                for k, name in enumerate(names)]
        self.file("named", "".join(told))
        held = self.tool(f"cat {self.folder}/named")
        profile = self.file("prof", "".join(f"f{k}:{100 - k}:1\n 0: 5\n" for k in range(len(names))))
        environment = {"MINE": "secret\n" * 99, **held}
        ran = run(SCRIPT, "--top=50", "--bin=./words", *words, profile, folder=self.folder / "home", environment=environment, limit=120)
        self.assertEqual((ran.status, ran.said), (DONE, ""))
        for k, name in enumerate(names):
            self.assertRegex(ran.out.decode(), rf"(?m) f{k} \+0 +{re.escape(os.path.basename(name))}:{k + 1}( |$)")
        return ran.out

    def test_files_that_are_shown_to_nobody(self):
        names = [
            f"{self.folder}/outside.c", "../outside.c", "src/../../outside.c", "links/outside.c", "linked.c", f"{self.folder}/home/linked.c",
            "/etc/passwd", "fifo.c", "folder.c", ".ssh/id_rsa", ".env", "src/.git/config", "a/" * 3000 + "x",
        ]
        for words in ((), ("--source=src",), ("--source=folder.c",), ("--source=none",)):
            with self.subTest(words=words):
                out = self.shown(names, *words)
                self.assertNotIn(b"secret", out)
                self.assertNotIn(b"root:", out)
        self.assertNotIn(b"secret", self.shown(["/proc/self/environ", "/dev/stdin", "/dev/zero", "/sys/kernel/notes"], "--source=/"))

    def test_files_below_the_folders(self):
        own = ["src/own.c", "/build/of/somebody/src/own.c", "inside.c", f"{self.folder}/home/src/own.c"]
        self.assertEqual(self.shown(own).count(b"  the secret word\n"), 2 * len(own))
        self.assertEqual(self.shown(["own.c"], "--source=src").count(b"  the secret word\n"), 2)
        self.assertEqual(self.shown(["../outside.c"], "--source=..").count(b"  the secret word\n"), 2)

    def test_control_bytes_of_names_and_sources(self):
        self.file("home/controls.c", "\n".join(["\x1b]0;owned\x07 \x9b1m\r"] * 100))
        out = self.shown(["controls.c"])
        self.assertNotIn(b"\x1b", out)
        self.assertIn(rb"\x1b]0;owned\x07", out)
        self.file("\x1b[2J")
        ran = self.run_here(SCRIPT, "--bin=\x1b[2J", PROFILE, environment=self.tool("echo oh; exit 1"))
        self.tells(ran, REFUSED, r"^hot: \\x1b\[2J: llvm-dwarfdump fails")

    @needs("llvm-dwarfdump")
    def test_a_program_that_names_another_file(self):
        raw = WORDS.read_bytes()
        self.file("home/words", raw.replace(b"\0words.c\0", b"\0../et.c\0"))
        self.file("et.c", self.text)
        ran = run(SCRIPT, "--bin=words", PROFILE, folder=self.folder / "home")
        self.assertIn(b"et.c:45", ran.out)
        self.assertNotIn(b"secret", ran.out)

    @needs("llvm-dwarfdump")
    def test_programs_with_bytes_changed(self):
        good = WORDS.read_bytes()
        for seed in range(8):
            drawn, raw = random.Random(seed), bytearray(good)
            for _ in range(50):
                raw[drawn.randrange(12000, len(raw))] = drawn.randrange(256)
            with self.subTest(seed=seed):
                ran = self.run_here(SCRIPT, f"--bin={self.file('drawn', bytes(raw))}", PROFILE, limit=120)
                self.assertNotIn("Traceback", ran.said)
                self.assertIn(ran.status, (DONE, REFUSED))


class Tools(Another):
    def test_no_name_reaches_it_as_an_option(self):
        held = self.tool('printf "%s\\n" "$@" >words')
        profile = self.file("prof", "@x:9:1\n 1: 9\n-o:5:1\n 1: 5\n")
        for name in ("@x", "-x", "--help"):
            self.file(name, WORDS.read_bytes())
            self.assertEqual(self.run_here(SCRIPT, f"--bin={name}", profile, environment=held).status, DONE)
            self.assertEqual((self.folder / "words").read_text().split(), ["--name=-o", "--name=@x", f"./{name}"])

    def test_what_it_prints_is_no_program(self):
        for said in ("yes | head -c 3000000", "head -c 100000 /dev/urandom", "printf '0x1: DW_TAG_subprogram\\n DW_AT_decl_line\\t(99999999999999)\\n'"):
            ran = self.run_here(SCRIPT, f"--bin={WORDS}", PROFILE, environment=self.tool(said), limit=120)
            self.tells(ran, DONE, "tells of none of these functions")

    def test_it_ends_with_the_script(self):
        mark = self.folder / "pid"
        held = {**os.environ, **self.tool(f"echo $$ >{mark}; exec sleep 100")}
        words = [str(SCRIPT), f"--bin={WORDS}", str(PROFILE)]
        for by in (signal.SIGTERM, signal.SIGHUP, signal.SIGINT, signal.SIGQUIT):
            with self.subTest(by=by.name), subprocess.Popen(words, env=held, stderr=subprocess.PIPE) as script:
                while not (mark.exists() and mark.read_text().strip()):
                    time.sleep(0.01)
                script.send_signal(by)
                assert script.stderr
                self.assertEqual((script.wait(60), script.stderr.read()), (128 + by, b""))
                left = pathlib.Path(f"/proc/{mark.read_text().strip()}")
                mark.unlink()
                self.assertFalse(left.exists())


class Words(Case):
    def test_refusals(self):
        self.tells(run(SCRIPT, "--top=0", PROFILE), BAD_WORDS, "at least one of each is printed")
        self.tells(self.run_here(SCRIPT, "none"), MISSING, "^hot: none: No such file or directory$")
        self.tells(self.run_here(SCRIPT, self.file("empty")), FAILED, "^hot: the profile is empty")
        self.tells(self.run_here(SCRIPT, self.file("binary", b"\252\0profile\n")), REFUSED, "binary: refused at 1: BadLine .*llvm-profdata merge")
        for text, said in (("f:1:1\r\n", "CR at its end"), ("401036 0x1/0x2\n", "a recording"), ("func f\n", "a block text"), ("\x7fELF\n", "a program")):
            self.tells(self.run_here(SCRIPT, self.file("other", text)), REFUSED, f"other: refused at 1: BadLine .*{said}")
        self.tells(self.run_here(SCRIPT, WORDS, PROFILE), BAD_WORDS, "one profile: the program stands behind --bin=")
        self.tells(self.run_here(SCRIPT, "--bin=none", PROFILE), MISSING, "^hot: none: No such file or directory$")
        self.tells(self.run_here(SCRIPT, self.folder), 5, "Is a directory")

    def test_names_and_numbers_of_strangers(self):
        many = "9" * 400
        cases = [f"f:{many}:1\n", f"f:1:1\n 1: {many}\n", f"f:1:1\n {many}: 1\n", "f:1:1\n" + " " * 300 + "1: 1\n", "\0:1:1\n", "f:1\n", " 1: 1\n"]
        for text in cases:
            with self.subTest(text=text[:30]):
                self.tells(self.run_here(SCRIPT, self.file("odd", text)), REFUSED, "odd: refused at [0-9]: ")
        deep = "f:1:1\n" + "".join(f"{' ' * k}1: f{k}:1\n" for k in range(1, 256)) + " " * 256 + "1: 1\n"
        self.assertEqual(self.run_here(SCRIPT, self.file("deep", deep)).status, DONE)
        ran = self.run_here(SCRIPT, self.file("raw", b"f\xff\xc2\x9b\xe2\x80\xae:18446744073709551615:1\n 1: 18446744073709551615\n"))
        self.assertEqual((ran.status, ran.said), (DONE, ""))
        self.assertIn(rb"f\xff\xc2\x9b\xe2\x80\xae", ran.out)
        json.loads(self.run_here(SCRIPT, "--json", "raw").out)

    @needs_file("/dev/full")
    def test_a_full_device(self):
        self.ends_on_full_device("hot", SCRIPT, PROFILE)
        self.ends_on_full_device("hot", SCRIPT, "--json", PROFILE)

    def test_a_closed_output(self):
        self.tells(on_closed_output(SCRIPT, PROFILE), WRITE_FAULT, "^hot: output: it is closed$")

    def test_a_closed_pipe_is_quiet(self):
        self.expect(into_closed_pipe(SCRIPT, PROFILE), WRITE_FAULT)
