"""compare A B: how much alike two profiles are, by function and in all, and what became hot or cold from A to B.

With --least the script ends with 1 where they are less alike than that, so that a farm keeps last night's profile where
this one is thin or of something else. docs/USING.md ("A fleet") shows it in use.
"""
import argparse
import gc
from fractions import Fraction
from typing import List, NoReturn, Optional

from pgo_tools import cli
from pgo_tools.cli import files
from pgo_tools.cli import words as words_of
from pgo_tools.reports.alike import Compared, Profile, compared, percent, read, report
from pgo_tools.texts import packed
from pgo_tools.texts import report as report_text


class Words(argparse.Namespace):
    """The words of a call."""

    old: str
    new: str
    least: Optional[float]
    least_total: Optional[float]
    top: int


def parser() -> argparse.ArgumentParser:
    made = argparse.ArgumentParser(
        prog=cli.name(), allow_abbrev=False, description="Tell how much alike two profiles are.", epilog="""
        Two profiles are as much alike as the sum, over all lines, of the smaller of the two shares that a line has in
        them: 100% where all shares are the same, however many samples there are, and 0% where no line is in both. Hot
        are the functions that make up 99% of the counts. The status is 1 where a bound is not reached.""")
    made.add_argument("old", metavar="A", help="a profile's text, last night's")
    made.add_argument("new", metavar="B", help="a profile's text, this night's")
    made.add_argument("--least", metavar="PERCENT", type=words_of.percent,
                      help="end with 1 where the lines are less alike than that")
    made.add_argument("--least-total", metavar="PERCENT", type=words_of.percent,
                      help="end with 1 where the counts of B are less than so much of those of A")
    made.add_argument("--top", metavar="N", type=words_of.at_least_one, default=10,
                      help="how many functions are printed of each kind (default: 10)")
    return made


def judged(old: Profile, new: Profile, found: Compared, words: Words) -> int:
    """The status by the bounds, each that is not reached being told."""
    missed = []
    if words.least is not None and 100 * found.lines < words.least:
        missed.append(f"the lines are {percent(found.lines)} alike, less than {words.least:g}%")
    if words.least_total is not None and 100 * new.whole < words.least_total * old.whole:
        share = percent(Fraction(new.whole, old.whole))
        missed.append(f"{words.new} has {share} of the counts of {words.old}, less than {words.least_total:g}%")
    for each in missed:
        cli.say(each)
    return cli.FAILED if missed else cli.DONE


def work(argv: List[str]) -> int:
    words = parser().parse_args(argv, Words())
    # Nothing that is read is in a cycle, and of millions of lines the search for cycles takes long.
    gc.disable()
    old, new = read(words.old), read(words.new)
    for path, profile in ((words.old, old), (words.new, new)):
        if not profile.whole:
            with files.open_packed(path) as file:
                helps = packed.why_empty(report_text.read(file))
            raise cli.Trouble(f"{path}: the profile is empty", cli.FAILED, helps)
        packed.judge(path, (disc for lines in profile.lines.values() for _, (_, disc) in lines))
    found = compared(old, new)
    for line in report(old, new, found, words.top):
        cli.put(line)
    cli.out().flush()
    return judged(old, new, found, words)


def main(argv: Optional[List[str]] = None) -> NoReturn:
    """The command, from its words to its status. It never returns."""
    cli.run(work, argv)
