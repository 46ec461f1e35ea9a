"""A program of a recording: its options, and what `pgo profile` made of it."""
from typing import Dict, List, NamedTuple, Optional

from pgo_tools.recording.inputs import Program
from pgo_tools.texts.profile_text import Node
from pgo_tools.texts.report import Report


class Sign(NamedTuple):
    """What is wrong, and what helps."""

    what: str
    helps: str


class Part:
    """A program of the recording: its options, and its profile once there is one.

    `built` is the build ID of another build that ran, or "", and `is_known` says whether this build is known to have
    run. `other` is the sign that another one ran, and `branches` how many branches it was found by. `made` is the file
    that pgo wrote.
    """

    def __init__(self, program: Program, base: bool, name: str) -> None:
        self.program, self.base, self.name = program, base, name
        self.profile: Dict[str, Node] = {}
        self.report = Report()
        self.built, self.made = "", ""
        self.is_known, self.branches = False, 0
        self.other: Optional[Sign] = None

    def flags(self) -> List[str]:
        return ["--base"] * self.base

    def of_it(self) -> int:
        """How many branches are of this program."""
        return self.report["branches"] - self.report.by_reason("FromOutside")
