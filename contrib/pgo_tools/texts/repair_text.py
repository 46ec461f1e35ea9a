"""Repairs, as `pgo build` prints them (docs/FORMATS.md, "Repair text"): counts with prices, or a cut.

Other lines are passed over.
"""
import re
from typing import IO, Iterator, List, NamedTuple, Optional, Tuple

from pgo_tools.cli import REFUSED, Trouble
from pgo_tools.cli.files import lines_of
from pgo_tools.texts.block_text import MOST_BLOCKS, MOST_EDGES
from pgo_tools.texts.numbers import number_of

NUMBER = "[0-9]+"
WEIGHT = rf"(\?|{NUMBER})"
# The start of a repair: other lines between repairs are passed over.
FRONT = re.compile(rb"^# function ", re.M)
FUNCTION = re.compile(r"# function ([^ ]+) (?:(flow)|cut ([01]))")
FLOW_BLOCK = re.compile(rf"# block ({NUMBER}) weight {WEIGHT} count ({NUMBER}) in (-?{NUMBER}) out (-?{NUMBER})")
CUT_BLOCK = re.compile(rf"# block ({NUMBER}) weight {WEIGHT} in ([01]) out ([01])")
EDGE = re.compile(rf"# edge ({NUMBER}) ({NUMBER})(?: weight {WEIGHT})? count ({NUMBER})")
END = re.compile(rf"# end ({NUMBER})(?: ({NUMBER}))?")


class Block(NamedTuple):
    """A block: its weight (None where no sample could say), and its count with prices; of a cut its sides in it.

    The field `count` takes the place of the method of tuples that nobody needs here.
    """

    weight: Optional[int]
    count: Optional[int]  # type: ignore[assignment]
    enters: int
    leaves: int


class Edge(NamedTuple):
    tail: int
    head: int
    weight: Optional[int]
    count: int  # type: ignore[assignment]


class Repair:
    """The repair of a function: `kind` is "flow" or "cut", `end` its cost, or the two sums of the cut."""

    def __init__(self, name: str, kind: str, root: int, line: int) -> None:
        self.name, self.kind, self.root, self.line = name, kind, root, line
        self.blocks: List[Block] = []
        self.edges: List[Edge] = []
        self.end: Optional[Tuple[int, ...]] = None


def value_of(text: str) -> int:
    """The number that a text is; a ValueError where it has more than 128 bits."""
    return number_of(text.lstrip("-"), 128) * (-1 if text.startswith("-") else 1)


def weight_of(text: Optional[str]) -> Optional[int]:
    return None if text is None or text == "?" else value_of(text)


def functions(file: IO[bytes], path: str = "the repair") -> Iterator[Repair]:
    """Each repair of a stream of bytes, in its order; a Trouble at the first line that is none of a repair."""
    repair: Optional[Repair] = None
    lines = lines_of(file, path, FRONT)
    for number, line in lines:
        shown = " ".join(re.split("[ \t]+", line.strip(" \t")))
        if repair is None:
            match = FUNCTION.fullmatch(shown)
            repair = Repair(match[1], match[2] or "cut", int(match[3] or 0), number) if match else None
            good = bool(match)
        else:
            try:
                good = add(repair, shown)
            except ValueError:
                good = False
        if repair is None or not good:
            raise Trouble(f"{path}: line {number} is none of a repair: {line.rstrip()[:60]!r}", REFUSED)
        if repair.end is not None:
            yield repair
            repair = None
        lines.wanted = FRONT if repair is None else None
    if repair:
        what = f"the repair of {repair.name} is not whole"
        raise Trouble(f"{path}: {what}", REFUSED, "give what `pgo build` wrote, to its end")


def add(repair: Repair, line: str) -> bool:
    """Adds a line to a repair; False where it is none of its kind, or not the next one."""
    is_flow = repair.kind == "flow"
    match = (FLOW_BLOCK if is_flow else CUT_BLOCK).fullmatch(line)
    if match:
        if value_of(match[1]) != len(repair.blocks) or repair.edges or len(repair.blocks) == MOST_BLOCKS:
            return False
        count = value_of(match[3]) if is_flow else None
        enters, leaves = value_of(match[3 + is_flow]), value_of(match[4 + is_flow])
        repair.blocks.append(Block(weight_of(match[2]), count, enters, leaves))
        return True
    match = EDGE.fullmatch(line)
    if match and is_flow and len(repair.edges) < MOST_EDGES:
        tail, head = value_of(match[1]), value_of(match[2])
        repair.edges.append(Edge(tail, head, weight_of(match[3]), value_of(match[4])))
        return max(tail, head) < len(repair.blocks)
    match = END.fullmatch(line)
    if match and bool(match[2]) != is_flow and repair.blocks:
        repair.end = tuple(value_of(each) for each in match.groups() if each is not None)
        return True
    return False
