"""Block texts, written: the lines of a function by its blocks (docs/FORMATS.md, "Block text")."""
import re
from typing import List, Optional

from pgo_tools.blocks import graph, rare
from pgo_tools.blocks.row import Rows
from pgo_tools.blocks.touched import Touch
from pgo_tools.texts.block_text import MOST_BLOCKS, MOST_EDGES


def one_field(name: str) -> str:
    """The name as one field of a line."""
    return re.sub(r"[ \t\r\n]", "_", name)


def lines_of(name: str, found: Rows, kinds: rare.Kinds, touch: Optional[Touch]) -> List[str]:
    """The lines of a function."""
    rows, notes = found
    number_of = {row.low: n for n, row in enumerate(rows)}
    follow = [sorted({number_of[it] for it in row.follow if it in number_of}) for row in rows]
    order = sorted(graph.reached([0], follow))
    place = {n: k for k, n in enumerate(order)}
    follow = [[place[it] for it in follow[n]] for n in order]
    rows = [rows[n] for n in order]
    exits = [row.leaves or not follow[n] for n, row in enumerate(rows)]
    for n in graph.endless(follow, exits):
        exits[n] = True
        notes = notes + [f"block {n} is of a loop without an end: exit"]
    count = sum(map(len, follow))
    if len(rows) > MOST_BLOCKS or count > MOST_EDGES:
        return [f"# {name} is left out: {len(rows)} blocks and {count} edges"]
    marks, barred = rare.judged([row.low for row in rows], [row.high for row in rows], follow, exits, kinds, touch)
    lines = [f"func {name}"] + [f"# {it}" for it in notes] + marks
    for n, row in enumerate(rows):
        more = " exit" * exits[n] + " never" * (n in barred)
        lines.append(f"block {n} {row.low:#x} {row.high:#x}{more}")
    lines += [f"edge {n} {it}" for n, there in enumerate(follow) for it in there]
    return lines + ["end"]
