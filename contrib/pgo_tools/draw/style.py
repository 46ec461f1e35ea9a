"""Colours and widths of a drawn repair."""
from typing import NamedTuple

from pgo_tools.draw.repair import Edge, Function

CHANGED, PLAIN, NEVER, CUT = "#c0392b", "#555555", "#b0b0b0", "#7d3c98"


class Stroke(NamedTuple):
    """A line: its colour, its width, and whether it is broken."""

    colour: str
    width: float
    broken: bool


def fill(share: float) -> str:
    """From white to a deep orange."""
    return "#" + "".join(f"{round(255 - share * (255 - end)):02x}" for end in (230, 126, 34))


def stroke(function: Function, edge: Edge) -> Stroke:
    """The line of an edge."""
    if edge.count is None:
        return Stroke(PLAIN, 1.0, False)
    colour = CHANGED if edge.has_changed() else NEVER if edge.count == 0 else PLAIN
    return Stroke(colour, 1 + 5 * edge.count / function.busiest, edge.count == 0)
