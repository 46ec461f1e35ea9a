"""One function of a program: its parts, its flow, its landing pads, and where its tables lead."""
from typing import Dict, Iterable, List, Optional, Sequence

from pgo_tools.blocks.flow import Flow
from pgo_tools.blocks.program import Stretch

# The landing pads of each call, by its address.
Pads = Dict[int, List[int]]


class Unit:
    """One function: its parts, the rows of its flow by address, its landing pads by call, where its tables lead."""

    def __init__(self, entry: int, parts: Sequence[Stretch], rows: Iterable[Flow], pads: Pads) -> None:
        self.entry, self.parts, self.rows, self.pads = entry, parts, sorted(rows), pads
        self.part_ends = {high for _, high in parts}
        self.addresses = [row.address for row in self.rows]
        self.tables: Dict[int, List[int]] = {}
        # Jumps by pointers that may be of a table which was not found.
        self.open: List[int] = []

    def holds(self, address: int) -> bool:
        return any(low <= address < high for low, high in self.parts)

    def part(self, address: int) -> Optional[Stretch]:
        return next((it for it in self.parts if it.low <= address < it.high), None)

    def part_at(self, address: int) -> Stretch:
        """The part of an address that is in one."""
        return next(it for it in self.parts if it.low <= address < it.high)
