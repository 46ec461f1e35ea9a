"""A block of a function as a program's map or its disassembly gives it."""
from typing import List, NamedTuple


class Row(NamedTuple):
    """A block: its addresses, the first addresses of the blocks that may come next, and whether the function can end
    there."""

    low: int
    high: int
    follow: List[int]
    leaves: bool


class Rows(NamedTuple):
    """The blocks of a function, the entry's first, and what is to be said of them as comments."""

    rows: List[Row]
    notes: List[str]
