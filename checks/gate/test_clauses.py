"""The clauses of both programs' `run` are those of the call that they share, word for word, and the calls of each part are there."""
import re
import unittest

from common import TOP, found_in

# Each part's calls, by which docs/PROMISES can be believed part by part. Not all of them are called by the programs.
CALLS = """
    byte_view: new at left u8 u16 u24 u32 u64 uleb sleb cstr take sub
    text_scan: new next hex prefixed decimal wide signed push_number push_signed push_hex
    key_types: new add get len place stretch entry_name
    elf_sections: read section runs
    dwarf_forms: kind read_value
    dwarf_abbrev: read_table find
    dwarf_strings: text address
    dwarf_info: read_units entry_at
    dwarf_ranges: ranges_of
    line_program: rows
    row_table: make row_at cuts
    inline_tree: make
    context_map: make segments
    branch_counts: new branches ranges total add_branch add_stack
    branch_stacks: new read_text feed finish
    range_counts: sweep at max_in
    branch_class: classify classify_range
    profile_tree: build from_counts count
    profile_text: read write
    profile_merge: new add tree summary
    line_lift: lift
    cfg_text: read
    block_weights: weights
    flow_network: net_of arcs block_count edge_count leaving entering cost cut_sums
    flow_solver: solve
    flow_scaling: solve_scaled fits
    dual_check: first_bad accepts accepts_cut
    repair_text: write read
    case_maker: make
    pgo_run: run
"""


def clauses(path, asked, answered):
    """The clauses of a file's top call by their names, where `asked` is what its words ask for and `answered` what they come to."""
    text = (TOP / path).read_text(encoding="utf-8")
    head = text[found_in(r"^pub(?:\(crate\))? fn run\w*<", text, re.M).start():]
    head = re.sub(r"//[^\n]*", "", head[:head.index("\n{\n")])
    head = " ".join(head.replace(answered, "ANSWER").replace(asked, "ASKED").replace("TheCommand", "Command").split())
    return {name: fact.strip() for name, fact in re.findall(r"ensures (\w+) \{(.*?)\}\s*(?=ensures|$)", head)}


class Clauses(unittest.TestCase):
    def test_each_program_promises_what_both_do(self):
        both = clauses("crates/program_edge/src/top_call.rt", "P.asked (texts_of words.now)",
                       "answer_of_words files (P.asked (texts_of words.now))")
        self.assertEqual(len(both), 16)
        pgo = clauses("crates/pgo_run/src/program.rt", "command_of (texts_of words.now)", "answer_of files (texts_of words.now)")
        self.assertEqual(pgo, both)
        cold = clauses("crates/pgo_cold/src/program.rt", "cold_of (texts_of words.now)",
                       "answer_of_words files (cold_of (texts_of words.now))")
        self.assertEqual(cold, both)

    def test_each_main_calls_the_run_that_has_them(self):
        for path, call in (("pgo_cli", "pgo_run::run"), ("pgo_cold", "program::run")):
            with self.subTest(path):
                text = (TOP / "crates" / path / "src" / "main.rt").read_text(encoding="utf-8")
                self.assertRegex(text, rf"\) -> Status \{{\s*{call}\(alloc, words, inputs, out\)\s*\}}")

    def test_each_part_has_its_calls(self):
        for line in CALLS.strip().split("\n"):
            crate, names = line.strip().split(": ")
            text = "".join(path.read_text(encoding="utf-8") for path in sorted((TOP / "crates" / crate / "src").glob("**/*.rt")))
            # The methods of a trait have no `pub` of their own, where it is defined and where a type has it.
            text = re.sub(r"(?ms)^(pub trait|impl[^\n]* for) .*?^}", lambda trait: trait[0].replace("    fn ", "    pub fn "), text)
            for name in names.split():
                with self.subTest(f"{crate}::{name}"):
                    self.assertTrue(re.search(rf"(?m)^ *pub fn {name}\b", text), "it is not there, or no longer public")


if __name__ == "__main__":
    unittest.main()
