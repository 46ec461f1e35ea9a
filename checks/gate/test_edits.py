"""Holds the must-fail edits to what the documents say of them: each wrong body that has a name of its own is tried by the gate, in
the crate that docs/PROMISES.md names, and each edit, also of those that are tried by hand, can be applied to today's sources.

It proves nothing: `rt ci` tries the edits of crates/*/must-fail, and checks/by_hand/edits/run the others.
"""
import re
import unittest
from pathlib import Path

TOP = Path(__file__).resolve().parents[2]

# The wrong bodies that are never given up, whatever else is thinned out, by their crates.
NAMED = {
    "range_counts": {"range_without_its_last_address"},
    "branch_counts": {"newer_target_with_older_source"},
    "profile_lists": {"sums_hits_of_a_location"},
    "inline_tree": {"no_inlines_below_a_lexical_block"},
    "line_program": {"discriminator_outlives_its_row"},
    "entry_facts": {"high_pc_is_always_an_address"},
    "profile_report": {"drops_unmapped_branches"},
    "branch_class": {"lists_entries_as_unmapped"},
    "flow_balance": {"raises_blocks_to_their_largest_neighbour", "weights_as_counts", "zeros_as_every_repair", "cut_for_every_loop"},
    "dual_check": {"checks_conservation_alone"},
    "dwarf_info": {"refuses_at_the_units_start"},
    "context_map": {"samples_go_to_the_outermost_function"},
    "pgo_run": {"always_a_read_fault", "always_a_write_fault", "always_usage", "always_no_such_file", "always_one_refusal",
                "always_check_failed", "done_after_a_failed_call", "writes_before_the_last_file_is_judged"},
    "io_edge": {"done_without_finish"},
    "program_edge": {"writes_another_text"},
    "pgo_cold": {"always_usage", "writes_the_plain_profile"},
}
# The one that a test refuses, since no clause says when memory is refused.
TESTED = ("run_tests", "good_words_are_done")


def named():
    """The wrong bodies that are never given up, each as its crate and its name."""
    return {(crate, name) for crate, names in NAMED.items() for name in names}


def edits():
    """Each edit with its crate: those of the gate, then those that are tried by hand."""
    for path in sorted(TOP.glob("crates/*/must-fail/*.edit")):
        yield path.parts[-3], path
    for path in sorted(TOP.glob("checks/by_hand/edits/*/*.edit")):
        yield path.parts[-2], path


def parts(path):
    """The file that an edit changes, and its pairs of an old and a new text."""
    lines = path.read_text(encoding="utf-8").splitlines()
    said = [line.partition(":") for line in lines]
    name = [text.strip() for key, _, text in said if key == "file"]
    old = [text.removeprefix(" ") for key, _, text in said if key == "old"]
    new = [text.removeprefix(" ") for key, _, text in said if key == "new"]
    return name, old, new


class Edits(unittest.TestCase):
    def test_named_wrong_bodies_stand(self):
        there = {(path.parts[-3], path.stem) for path in TOP.glob("crates/*/must-fail/*.edit")}
        self.assertEqual(named() - there, set())
        crate, test = TESTED
        self.assertIn(f"fn {test}(", (TOP / f"crates/{crate}/src/of_pgo_run.rt").read_text(encoding="utf-8"))

    def test_the_table_of_promises_names_them(self):
        page = (TOP / "docs/PROMISES.md").read_text(encoding="utf-8")
        rows = re.findall(r"^\| [^|]+ \| `([a-z_]+)` \| `([a-z_]+)` \|", page, re.M)
        self.assertEqual(sorted(rows), sorted(named() | {TESTED}))

    def test_each_can_be_applied(self):
        for crate, path in edits():
            with self.subTest(crate=crate, edit=path.stem):
                name, old, new = parts(path)
                self.assertEqual(len(name), 1)
                self.assertEqual(len(old), len(new))
                text = (TOP / "crates" / crate / name[0]).read_text(encoding="utf-8")
                for before, after in zip(old, new):
                    self.assertEqual(text.count(before), 1, before)
                    text = text.replace(before, after)


if __name__ == "__main__":
    unittest.main()
