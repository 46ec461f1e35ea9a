"""Reports, as they follow a profile's lines (docs/FORMATS.md, "Report"): where sampled branches and ranges went."""
import re
from typing import BinaryIO, Dict, List, NamedTuple

from pgo_tools.cli.files import lines_of
from pgo_tools.texts.numbers import decimal

COUNT = decimal(20)
UNMAPPED = re.compile(rf"# unmapped ([A-Za-z]+) 0x([0-9a-f]{{1,16}}) 0x([0-9a-f]{{1,16}}) {COUNT}")
SUM = re.compile(rf"# (branches|entries|inside|augmentations|ranges (?:ran|reversed|outside|crossing)) {COUNT}")
UNITS = re.compile(rf"# units read {COUNT} passed {COUNT}")
BUILD = re.compile(r"# build ([0-9a-f]+)")


class Unmapped(NamedTuple):
    reason: str
    source: int
    target: int
    times: int


class Report:
    """The sums of a report by their words ("branches", "ranges ran", "units read"), 0 where one is missing."""

    def __init__(self) -> None:
        self.sums: Dict[str, int] = {}
        self.unmapped: List[Unmapped] = []
        self.builds: List[str] = []

    def __getitem__(self, word: str) -> int:
        return self.sums.get(word, 0)

    def by_reason(self, reason: str) -> int:
        """How many branches are unmapped for this reason."""
        return sum(each.times for each in self.unmapped if each.reason == reason)


def read(file: BinaryIO) -> Report:
    """The report in a stream of bytes; other lines are passed over."""
    report = Report()
    for _, line in lines_of(file, "the report"):
        if line.startswith("#"):
            add(report, line)
    return report


def add(report: Report, line: str) -> None:
    """Adds a line to a report, where it is one."""
    if match := UNMAPPED.fullmatch(line):
        report.unmapped.append(Unmapped(match[1], int(match[2], 16), int(match[3], 16), int(match[4])))
    elif match := SUM.fullmatch(line):
        report.sums[match[1]] = int(match[2])
    elif match := UNITS.fullmatch(line):
        report.sums["units read"], report.sums["units passed"] = int(match[1]), int(match[2])
    elif match := BUILD.fullmatch(line):
        report.builds.append(match[1])
