"""The layout, what crates list and say of themselves, and documents that say the same and lead to what is there."""
import re
import unittest

from common import TOP, Case, needs, needs_file, python, run

# Where pages are named: themselves, scripts, checks and the code.
NAMING = ("README.md", "CHANGELOG.md", "SECURITY.md", "docs/*.md", "pgo", "Makefile", "contrib/*", "contrib/*/*.py", "contrib/*/*/*.py", "checks/*", "checks/gate/*.py", "checks/gate/program/*.py",
          "bench/*", "bench/*/*", "crates/*/src/*.rt", "crates/*/specs/*.antt")
PAGE = re.compile(r"\bdocs/(\w+\.(?:md|1|svg))\b")
LINK = re.compile(r"\]\(([^)#:]+)\)")
SECTION = re.compile(r'\b([A-Z]+\.md)\)?,? \(?"([^"\n]+)"')


def texts():
    """Each text file that may name a page, with its text."""
    for pattern in NAMING:
        for path in sorted(TOP.glob(pattern)):
            if path.is_file():
                yield path, path.read_bytes().decode("utf-8", "replace")


class Documents(Case):
    def passes(self, ran):
        self.assertEqual(ran.status, 0, (ran.out + ran.err).decode(errors="replace"))

    @needs("awk", "find")
    def test_columns(self):
        self.passes(run(TOP / "checks" / "columns"))

    @needs("git")
    @needs_file(TOP / ".git")
    def test_line_ends(self):
        """No clone turns line feeds into other ends."""
        told = run("git", "check-attr", "text", "--", "pgo", "crates.txt", "crates/refusal/src/lib.rt", "docs/FORMATS.md", folder=TOP)
        self.assertEqual([line.rpartition(b" ")[2] for line in told.out.splitlines()], [b"unset"] * 4)

    def test_lists(self):
        self.passes(python(TOP / "checks" / "lists"))

    def test_manual(self):
        self.passes(python(TOP / "checks" / "manual"))

    def test_rooms(self):
        self.passes(python(TOP / "checks" / "rooms"))

    def test_parts(self):
        self.passes(python(TOP / "checks" / "parts"))

    def test_reading(self):
        self.passes(python(TOP / "checks" / "reading"))
        shown = python(TOP / "checks" / "reading", "--print", "3")
        self.passes(shown)
        self.assertIn(b"-- Counts that conserve within bounds and cost at most what all others cost that do.\npub record AreLeast ", shown.out)

    def test_reading_has_the_traits(self):
        """Part 1 prints the two traits with every word of a crate that their clauses use."""
        shown = python(TOP / "checks" / "reading", "--print", "1")
        self.passes(shown)
        text = shown.out.decode()
        for opening in ("pub trait Inputs {", "pub trait Sink {", "pub struct OpenFailed;", "pub struct ReadFailed;", "pub struct WriteFailed;"):
            self.assertEqual(text.count(f"\n{opening}"), 1, opening)
        for name in ("Opens", "HasCause", "HasCauseWhere", "Rises", "IsTaken"):
            self.assertEqual(text.count(f"\nabbrev pub {name} : ") + text.count(f"\npub record {name} "), 1, name)

    def test_reading_counts_what_it_prints(self):
        """Each part has as many lines as its title says, without empty lines and the headings of files; and the share of comments is theirs."""
        page = (TOP / "docs" / "TRUST.md").read_text(encoding="utf-8")
        lines: "list[str]" = []
        for number, said in re.findall(r"^### (\d+)\. .*: ([\d,]+) lines$", page, re.M):
            printed = python(TOP / "checks" / "reading", "--print", number).out.decode().splitlines()
            there = [line for line in printed if line and not line.startswith(("-- ---- ", "// ---- "))]
            self.assertEqual(f"{len(there):,}", said, f"part {number}")
            lines += there if int(number) <= 7 else []
        self.assertNotIn("Why: ", "\n".join(lines))
        self.assertIn("pub enum Kind { .. }", lines)
        comments = sum(line.lstrip().startswith(("--", "//")) for line in lines)
        self.assertIn(f"\nSo far {len(lines):,} lines, for `build`; {100 * comments / len(lines):.0f}% of them are comments.\n", page)

    def test_limits(self):
        self.passes(python(TOP / "checks" / "limits"))

    def test_decisions(self):
        self.passes(python(TOP / "checks" / "decisions"))

    def test_pages_are_there(self):
        """Each page that a text names, and each file to which a page links."""
        for path, text in texts():
            named = {TOP / "docs" / page for page in PAGE.findall(text)}
            if path.suffix == ".md":
                named |= {path.parent / link for link in LINK.findall(text)}
            self.assertEqual([str(it) for it in sorted(named) if not it.exists()], [], str(path))

    def test_sections_are_there(self):
        """Each section that a text names behind its page."""
        for path, text in texts():
            for page, section in SECTION.findall(text):
                where = TOP / page if page == "README.md" else TOP / "docs" / page
                opens = re.compile(rf"^(?:#+ |- \*\*|\*\*){re.escape(section)}", re.M)
                self.assertRegex(where.read_text(encoding="utf-8"), opens, f"{path} names it")


if __name__ == "__main__":
    unittest.main()
