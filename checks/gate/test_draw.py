"""contrib/draw: graphs and pictures of repairs, and that no name, number or source of a stranger breaks them."""
import io
import os
import re
import xml.dom.minidom

from common import (BAD_WORDS, BLOCKS, CONTRIB, DONE, FAILED, MISSING, PGO, REFUSED, TEXT, TOP, WORDS, WRITE_FAULT, Case, into_closed_pipe, needs,
                    needs_file, on_closed_output, run, found_in)
from pgo_tools.cli import Trouble
from pgo_tools.texts import block_text, repair_text

SCRIPT = CONTRIB / "draw"
NAMES = [line.split()[1] for line in BLOCKS.read_text().splitlines() if line.startswith("func ")]


def repair(name, count, edges, least=5):
    """The repair of a function with so many blocks, all of which ran as often."""
    lines = [f"# function {name} flow"] + [f"# block {k} weight {least} count {least} in 0 out 0" for k in range(count)]
    return "\n".join(lines + [f"# edge {a} {b} weight {least} count {least}" for a, b in edges] + ["# end 0", ""])


class Repairs(Case):
    """The repair of the demo."""

    built: bytes

    @classmethod
    def setUpClass(cls):
        ran = run(PGO, "build", "--base", "--edges", WORDS, TEXT, BLOCKS)
        assert ran.status == DONE, ran.said
        cls.built = ran.out

    def setUp(self):
        super().setUp()
        self.file("built", self.built)

    def test_a_graph(self):
        ran = self.run_here(SCRIPT, "count_word", "built")
        self.assertEqual((ran.status, ran.said), (DONE, ""))
        edges = found_in(r"(?ms)^func count_word$.*?^end$", BLOCKS.read_text())[0].count("\nedge ")
        self.assertEqual([len(re.findall(it, ran.out)) for it in (rb"(?m)^  b\d+ \[", rb"(?m)^  b\d+ -> b")], [18, edges])
        self.assertIn('b0 -> b1 [label="523 → 534" color="#c0392b"'.encode(), ran.out)
        self.assertEqual(self.run_here(SCRIPT, "count_word", given=self.built).out, ran.out)

    def test_the_picture_of_the_documents(self):
        self.expect(self.run_here(SCRIPT, "--svg", "count_word", "built"), DONE, (TOP / "docs/count_word.svg").read_bytes())

    def test_pictures_of_all_functions(self):
        for name in NAMES:
            with self.subTest(name=name):
                ran = self.run_here(SCRIPT, "--svg", f"--blocks={BLOCKS}", name, "built")
                self.assertEqual((ran.status, ran.said), (DONE, ""))
                xml.dom.minidom.parseString(ran.out)

    def test_the_line_at_which_each_block_begins(self):
        ran = self.run_here(SCRIPT, "--svg", f"--blocks={BLOCKS}", f"--bin={WORDS}", "count_word", "built")
        if "llvm-symbolizer" in ran.said:
            self.skipTest("there is no llvm-symbolizer and no addr2line")
        self.assertIn(b">words.c:45<", ran.out)
        self.assertIn(b">for (int i = 0; i &lt; a_length &amp;&amp; i &lt; b_l", ran.out)
        graph = self.run_here(SCRIPT, f"--blocks={BLOCKS}", f"--bin={WORDS}", "count_word", "built").out
        self.assertIn(b"\\nwords.c:45\\nfor (int i = 0; i < a_length && i < b_l", graph)
        self.tells(self.run_here(SCRIPT, f"--bin={WORDS}", "count_word", "built"), BAD_WORDS, "--bin needs the addresses")

    def test_words(self):
        self.tells(self.run_here(SCRIPT, "other", "built"), FAILED, "^draw: it has no function other; those that ran most: count_word ")
        self.tells(self.run_here(SCRIPT, "--number=2", "main", "built"), FAILED, "it has 1 function main$")
        self.tells(self.run_here(SCRIPT), BAD_WORDS, "it takes a function")
        self.tells(self.run_here(SCRIPT, "--least=nan", "main", "built"), BAD_WORDS, "--least is a number from 0 to 100")
        self.tells(self.run_here(SCRIPT, "main", "none"), MISSING, "^draw: none: No such file or directory$")

    @needs_file("/dev/full")
    def test_a_full_device(self):
        self.ends_on_full_device("draw", SCRIPT, "--svg", "main", "built")

    def test_a_closed_output(self):
        self.tells(on_closed_output(SCRIPT, "main", self.folder / "built"), WRITE_FAULT, "^draw: output: it is closed$")

    def test_a_closed_pipe_is_quiet(self):
        self.expect(into_closed_pipe(SCRIPT, "main", self.folder / "built"), WRITE_FAULT)

    def test_a_signal_ends_it(self):
        os.mkfifo(self.folder / "pipe")
        writing = []

        def is_read():
            try:
                writing.append(os.open(self.folder / "pipe", os.O_WRONLY | os.O_NONBLOCK))
            except OSError:
                return False
            return True

        ran = self.leaves_nothing_behind(SCRIPT, "main", "pipe", until=is_read)
        self.assertEqual((ran.status, ran.said), (128 + 15, ""))
        os.close(writing[0])


class Cuts(Case):
    CUT = "# function loop cut 0\n# block 0 weight 5 in 1 out 0\n# block 1 weight 0 in 1 out 1\n# end 1 0\n"
    BLOCKS = "func loop\nblock 0 0x1 0x2\nblock 1 0x2 0x3\nedge 0 1\nedge 1 0\nend\n"

    def test_a_cut(self):
        self.file("built", self.CUT)
        self.file("blocks", self.BLOCKS)
        graph = self.run_here(SCRIPT, "--blocks=blocks", "loop", "built").out.decode()
        self.assertRegex(graph, r'b0 .*in the cut: entered"')
        self.assertRegex(graph, r'b1 .*in the cut: entered and left"')
        self.assertEqual(graph.count("->"), 2)
        self.assertEqual(self.run_here(SCRIPT, "--blocks=blocks", "--svg", "loop", "built").out.count(b'stroke="#7d3c98"'), 3)
        self.tells(self.run_here(SCRIPT, "loop", "built"), DONE, "the edges of a cut stand in the block text alone")

    def test_other_block_texts(self):
        self.file("built", self.CUT)
        other = "loop has other blocks there .*the block text of which the repair was made"
        for text, status, said in [
            ("func loop\nblock 0 0x1 0x2\nend\n", FAILED, other), ("", FAILED, other),
            ("func loop\nblock 0 0x1 0x2\nblock 1 0x2 0x3\nblock 2 0x3 0x4\nend\n", FAILED, other),
            ("func loop\nblock 0 0x1 0x2\nblock 1 0x2 0x3\nedge 0 2\nend\n", REFUSED, "blocks: refused at 4: EdgeEnd"),
            ("func loop\nblock 0 0x1 0x2\nblock 1 0x2 0x3\nedge 0 \u00b9\nend\n", REFUSED, "blocks: refused at 4: BadLine"),
        ]:
            with self.subTest(text=text):
                self.file("blocks", text)
                ran = self.run_here(SCRIPT, "--blocks=blocks", "loop", "built")
                self.tells(ran, status, said)
                self.assertEqual(ran.out, b"")

    def test_more_blocks_or_edges_than_a_function_has(self):
        block, edge = "# block {} weight 1 count 1 in 0 out 0\n", "# edge 0 0 weight 1 count 1\n"
        blocks = "".join(block.format(k) for k in range(block_text.MOST_BLOCKS + 1))
        edges = block.format(0) + edge * (block_text.MOST_EDGES + 1)
        for lines, most in ((blocks, block_text.MOST_BLOCKS), (edges, block_text.MOST_EDGES + 1)):
            with self.subTest(most=most):
                text = io.BytesIO(f"# function loop flow\n{lines}# end 0\n".encode())
                with self.assertRaisesRegex(Trouble, f"line {most + 2} is none of a repair"):
                    list(repair_text.functions(text))

    def test_repairs_that_are_none(self):
        for text, said in [
            ("# function loop flow\n# block 0 weight 5\n", "line 2 is none of a repair: '# block 0 weight 5'"),
            ("# function loop flow\n# block 0 weight 5 count 5 in 0 out 0\n", "the repair of loop is not whole"),
            ("# function loop cut 0\n# block 0 weight 5 in 1 out 0\n# end 1\n", "line 3 is none of a repair: '# end 1'"),
            ("# function loop flow\n# block 0 weight 5 in 1 out 0\n# end 1\n", "line 2 is none of a repair"),
            (repair("loop", 1, [(0, 1)]), "line 3 is none of a repair"),
            (repair("loop", 1, []).replace("count 5", f"count {'9' * 400}"), "line 2 is none of a repair"),
            (repair("loop", 1, []).replace("count 5", f"count {'9' * 5000}"), "line 2 is none of a repair"),
            (repair("loop", 1, []).replace("out 0", f"out -{'9' * 5000}"), "line 2 is none of a repair"),
        ]:
            with self.subTest(text=text[:80]):
                ran = self.run_here(SCRIPT, "loop", self.file("built", text))
                self.tells(ran, REFUSED, said)
                self.assertEqual(ran.out, b"")


class Strangers(Case):
    """Names and numbers that break what reads graphs and pictures."""

    ODD = [b'f"];evil[label="', b"f\\", b'f\\"', b"</text><script>x</script>", b"&lt;", b"'><x", b"\xff\xfe", b"\x1b[2Jf", b"\xc2\x9bf", b"\xef\xbf\xbe",
           b"\xe2\x80\xaeabc", b"a" * 5000, b"-d", b"--svg", b"@x", b"\\N\\G", b"]]>", b"%n%s"]

    def drawn(self, name, *words):
        self.file("built", b"# function NAME flow\n# block 0 weight ? count 5 in 0 out 0\n# end 0\n".replace(b"NAME", name))
        ran = self.run_here(SCRIPT, *words, "--", name, "built")
        self.assertEqual((ran.status, ran.said), (DONE, ""))
        ran.out.decode("utf-8")
        self.assertNotRegex(ran.out, rb"[\x00-\x08\x0b-\x1f\x7f]")
        return ran.out

    def test_names_in_pictures(self):
        for name in self.ODD:
            with self.subTest(name=name[:20]):
                out = self.drawn(name, "--svg")
                tree = xml.dom.minidom.parseString(out)
                self.assertEqual({it.tagName for it in tree.getElementsByTagName("*")}, {"svg", "defs", "marker", "path", "rect", "text"})
                self.assertLess(float(tree.documentElement.getAttribute("width")), 2000)

    def test_names_in_graphs(self):
        for name in self.ODD:
            with self.subTest(name=name[:20]):
                # Quotes that no backslash stands before, a pair of which may stand before: none but those of the graph's own words.
                for line in self.drawn(name).decode().splitlines():
                    self.assertEqual(len(re.findall(r'(?<!\\)(?:\\\\)*"', line)) % 2, 0, line)
                    self.assertNotRegex(re.sub(r'"(?:[^"\\]|\\.)*"', "", line), r"evil|label=[^ \]]")

    @needs("dot")
    def test_graphviz_reads_the_graphs(self):
        for name in self.ODD:
            with self.subTest(name=name[:20]):
                told = run("dot", "-Tplain", given=self.drawn(name))
                self.assertEqual(told.status, DONE, told.said)
                self.assertNotRegex(told.out, rb"(?m)^node \"?evil")

    def test_great_counts(self):
        most = str((1 << 64) - 1)
        text = repair("f", 2, [(0, 1), (1, 1)]).replace("weight 5 count 5", f"weight 1 count {most}").replace("# end 0", "# end " + "9" * 38)
        text = text.replace("# block 0 weight 1", "# block 0 weight " + "0" * 5000 + "1")
        self.file("built", text)
        for words in ((), ("--svg",)):
            ran = self.run_here(SCRIPT, *words, "f", "built")
            self.assertEqual((ran.status, ran.said), (DONE, ""))
            self.assertIn(most.encode(), ran.out)

    def test_bytes_of_anything(self):
        for given in (b"\0" * 1000, bytes(range(256)) * 40, b"# function \n", b"# function f flow\n" * 2, b"\xfd7zXZ\0damaged", b"\x1f\x8bdamaged"):
            with self.subTest(given=given[:20]):
                ran = self.run_here(SCRIPT, "f", self.file("odd", given))
                self.assertNotIn("Traceback", ran.said)
                self.assertIn(ran.status, (FAILED, REFUSED, 5))

    def test_names_as_they_are_printed(self):
        self.file("built", repair("_ZN4json5Value4pushEi", 1, []) + repair("_ZN4json5Value4pushEl", 1, []))
        shown = "json::Value::push(int)"
        ran = self.run_here(SCRIPT, "_ZN4json5Value4pushEi", "built")
        if shown.encode() not in ran.out:
            self.skipTest("there is no demangler")
        self.assertEqual(self.run_here(SCRIPT, shown, "built").out, ran.out)
        self.tells(self.run_here(SCRIPT, "json::Value::push", "built"), FAILED, "it has no function json::Value::push; ")

    def test_names_that_hot_cuts(self):
        """Arguments that are cut away, and two names that show where they differ."""
        one, other = (f"_ZN4json5Value4pushE{'St4pairIiiE' * 8}{end}" for end in "il")
        self.file("built", repair(one, 1, []) + repair(other, 1, []))
        ran = self.run_here(SCRIPT, one, "built")
        if b"json::Value::push" not in ran.out:
            self.skipTest("there is no demangler")
        self.tells(self.run_here(SCRIPT, "json::Value::push(..)", "built"), FAILED, "several functions are called ")
        profile = self.file("prof", "".join(f"{name}:5:1\n 1: 5\n" for name in (one, other)))
        lines = self.run_here(CONTRIB / "hot", profile).out.decode().split("\n")
        shown = [line.split("1  ", 1)[1] for line in lines if " 1  json" in line]
        self.assertEqual(len(set(shown)), 2, lines)
        for name, mangled in zip(shown, (one, other)):
            self.assertEqual(self.run_here(SCRIPT, name, "built").out, self.run_here(SCRIPT, mangled, "built").out)


class Pictures(Case):
    def test_the_text_of_an_edge_to_its_own_block_is_covered_by_no_block(self):
        for count, edges in ((1, [(0, 0)]), (4, [(0, 1), (0, 2), (0, 3), (1, 1), (2, 2), (3, 3)])):
            text = repair("f", count, edges).replace("# edge 1 1 weight 5 count 5", "# edge 1 1 weight 123456 count 987654")
            tree = xml.dom.minidom.parseString(self.run_here(SCRIPT, "--svg", "f", self.file("built", text)).out)
            blocks, drawn = [], 0
            for it in tree.getElementsByTagName("rect"):
                x, y, width, height = (float(it.getAttribute(name) or 0) for name in ("x", "y", "width", "height"))
                if it.getAttribute("rx"):
                    blocks.append((x, y, x + width, y + height))
            for it in tree.getElementsByTagName("text"):
                told, x, y = it.firstChild.data, float(it.getAttribute("x")), float(it.getAttribute("y"))
                if not re.fullmatch("[0-9]+( → [0-9]+)?", told):
                    continue
                drawn += 1
                half = 3.5 * len(told)
                for left, top, right, low in blocks:
                    self.assertTrue(x + half <= left or x - half >= right or y <= top or y - 11 >= low, (told, x, y, left, top, right, low))
            self.assertEqual(drawn, len(edges))

    def test_large_functions_take_no_time_by_the_square_of_their_blocks(self):
        chain, star = [(k, k + 1) for k in range(3999)], [(0, k) for k in range(1, 4000)]
        for name, edges in (("chain", chain), ("star", star), ("both", sorted({*chain, *star}))):
            path = self.file(name, repair(name, 4000, edges))
            # Time of a processor, as others may have the rest of it.
            words = ["python3", "-c", "import resource as r, subprocess as s, sys; s.run(sys.argv[1:], stdout=s.DEVNULL, check=True); "
                     "print(r.getrusage(r.RUSAGE_CHILDREN).ru_utime)", SCRIPT, "--svg", name, path]
            # The least of five, as tests beside it on a core make a run take longer.
            self.assertTrue(any(float(run(*words, limit=300).out) < 3 for _ in range(5)), name)
