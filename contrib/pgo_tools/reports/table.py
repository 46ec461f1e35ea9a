"""Tables and numbers of reports, as they are printed."""
from typing import Iterator, List, Sequence


def times(count: int, word: str) -> str:
    return f"{count} {word}" if count == 1 else f"{count} {word}s"


def percent(part: int, whole: int) -> str:
    """A share, of numbers of any size."""
    tenths = (2000 * part + whole) // (2 * whole)
    return f"{tenths // 10}.{tenths % 10}%"


def columns(rows: Sequence[List[str]], numbers: int) -> Iterator[str]:
    """The rows with their cells below each other, the first ones being numbers."""
    wide = [max(map(len, cells)) for cells in zip(*rows)]
    for row in rows:
        filled = (it.rjust(w) if k < numbers else it.ljust(w) for k, (it, w) in enumerate(zip(row, wide)))
        yield "  ".join(filled).rstrip()
