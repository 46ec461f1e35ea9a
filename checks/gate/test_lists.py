#!/usr/bin/env python3
"""Plants mistakes in a house of three crates, and sees that checks/lists names each."""
import os
import resource
import subprocess
import sys
import tempfile
import unittest

LISTS = os.path.join(os.path.dirname(os.path.dirname(os.path.abspath(__file__))), "lists")
CITES = {"low": "", "middle": "low::one();", "high": "low::one(); middle::two();"}


def lay_out(top, text):
    """Puts into a folder crates that cite as `CITES` says, and this crates.txt."""
    for name, code in CITES.items():
        os.makedirs(f"{top}/crates/{name}/src")
        with open(f"{top}/crates/{name}/src/lib.rt", "w", encoding="utf-8") as file:
            file.write(f"//! A crate.\n{code}\n")
    with open(f"{top}/crates.txt", "w", encoding="utf-8") as file:
        file.write(text)


def said_of(text):
    """The status of checks/lists and what it prints."""
    with tempfile.TemporaryDirectory() as top:
        lay_out(top, text)
        done = subprocess.run([sys.executable, LISTS, f"--top={top}"], capture_output=True, text=True, check=False)
        return done.returncode, done.stdout


def written_of(text, **how):
    """What `checks/lists --write` leaves of this crates.txt, with its status and the names of all that stands there then."""
    with tempfile.TemporaryDirectory() as top:
        lay_out(top, text)
        done = subprocess.run([sys.executable, LISTS, "--write", f"--top={top}"], capture_output=True, check=False, **how)
        with open(f"{top}/crates.txt", encoding="utf-8") as file:
            return done.returncode, file.read(), sorted(os.listdir(top))


class Lists(unittest.TestCase):
    def test_what_is_in_order_passes(self):
        self.assertEqual(said_of("# ground\nlow:\n\n# profile\nmiddle: low\nhigh: low middle\n"), (0, ""))

    def test_a_citation_below_a_later_heading_is_refused(self):
        said = "crates.txt: high cites middle, which stands under the later heading profile: move one of the two\n"
        self.assertEqual(said_of("# ground\nlow:\nhigh: low middle\n\n# profile\nmiddle: low\n"), (1, said))

    def test_a_citation_of_a_later_line_is_refused(self):
        said = "crates.txt: high cites middle, which stands on line 4: move one of the two\n"
        self.assertEqual(said_of("# ground\nlow:\nhigh: low middle\nmiddle: low\n"), (1, said))

    def test_what_is_not_cited_is_refused(self):
        said = "crates.txt: middle lists high, which no file of it cites\n"
        self.assertEqual(said_of("# ground\nlow:\nhigh: low middle\nmiddle: low high\n")[0], 1)
        self.assertIn(said, said_of("# ground\nlow:\nmiddle: low high\nhigh: low middle\n")[1])

    def test_what_is_not_cited_is_left_out(self):
        text = "# ground\nlow:\nmiddle: low\nhigh: low middle\n"
        self.assertEqual(written_of(text.replace("middle: low", "middle: low high")), (0, text, ["crates", "crates.txt"]))

    def test_what_cannot_be_written_leaves_what_was_there(self):
        text = "# ground\nlow:\nmiddle: low high\nhigh: low middle\n"
        how = {"preexec_fn": lambda: resource.setrlimit(resource.RLIMIT_FSIZE, (8, 8))}
        self.assertEqual(written_of(text, **how), (1, text, ["crates", "crates.txt"]))

    def test_what_is_not_listed_is_refused(self):
        said = "crates.txt: high cites middle and does not list it\n"
        self.assertEqual(said_of("# ground\nlow:\nmiddle: low\nhigh: low\n"), (1, said))


if __name__ == "__main__":
    unittest.main()
