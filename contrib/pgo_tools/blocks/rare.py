"""Blocks that hardly ever run: those that only unwinding reaches, and those that lead to nothing but calls that never
return.

A repair takes them for short ways out of a function and sends there what is too much elsewhere. Where samples are at
hand, those that none of them touched are told `never`.
"""
import bisect
from typing import List, NamedTuple, Optional, Sequence, Set, Tuple

from pgo_tools.blocks.block_map import IS_INDIRECT, IS_PAD, BlockMap
from pgo_tools.blocks.code import Code
from pgo_tools.blocks.flow import BRANCH, CALL, JUMP, STOP
from pgo_tools.blocks.graph import Graph, reached, turned
from pgo_tools.blocks.row import Row
from pgo_tools.blocks.touched import Touch


class Kinds(NamedTuple):
    """Of a function: the edges (from, to) by which it unwinds, and the blocks whose end never returns; blocks by first
    address."""

    unwinding: Set[Tuple[int, int]]
    lost: Set[int]


class Judged(NamedTuple):
    """Comment lines on the rare blocks of a function, and those of them that are to be told `never`."""

    lines: List[str]
    barred: Set[int]


def of_code(code: Code, k: int, rows: Sequence[Row]) -> Kinds:
    """By the disassembly: what a call's table says, and calls, jumps and traps behind which nothing comes."""
    unit = code.unit(k)
    unwinding: Set[Tuple[int, int]] = set()
    lost = set()
    for low, high, there, _ in rows:
        n = bisect.bisect_left(unit.addresses, high) - 1
        if n < 0 or unit.addresses[n] < low:
            continue
        address, _, kind, target = row = unit.rows[n]
        if kind == CALL:
            unwinding.update((low, pad) for pad in unit.pads.get(address, ()) if pad in there)
        away = kind in (JUMP, BRANCH) and not unit.holds(target) and not code.may_return(target)
        if kind == STOP or away or kind == CALL and not code.comes_back(unit, row):
            lost.add(low)
    return Kinds(unwinding, lost)


def of_map(held: BlockMap, at: int, rows: Sequence[Row]) -> Kinds:
    """By the map of basic blocks, which names landing pads and blocks that return, or leave by a tail call or a
    pointer."""
    flags = {block.low: block.what for block in held.functions[at].blocks if block.low < block.high}
    unwinding = {(row.low, it) for row in rows for it in row.follow if flags.get(it, 0) & IS_PAD}
    ends = [row.low for row in rows if not row.follow and not row.leaves]
    return Kinds(unwinding, {low for low in ends if not flags[low] & IS_INDIRECT})


def marked(lows: Sequence[int], follow: Graph, exits: Sequence[bool], kinds: Kinds) -> Tuple[Set[int], Set[int]]:
    """The blocks that only unwinding reaches, and the others of which each way leads to what never returns. Of a
    function that itself never returns there are none of these: its entry is one."""
    plain = [[it for it in there if (lows[n], lows[it]) not in kinds.unwinding] for n, there in enumerate(follow)]
    unwound = set(range(len(lows))) - reached([0], plain)
    before = turned(plain)
    ends = [n for n, low in enumerate(lows) if low in kinds.lost]
    returns = [n for n, leaves in enumerate(exits) if leaves and lows[n] not in kinds.lost]
    doomed = reached(ends, before) - reached(returns, before) - unwound
    return unwound, doomed if 0 not in doomed else set()


def barred(follow: Graph, exits: Sequence[bool], rare: Set[int], touched: Set[int]) -> Set[int]:
    """The rare blocks to be told `never`: no sample touched them, and the function still has a way from its entry to an
    exit, and one through each block that was touched. So no function has a cut by it that had none."""
    wanted, before = rare - touched, turned(follow)
    dead = touched - living(follow, before, exits, wanted)
    wanted -= reached(dead, follow) | reached(dead, before)
    alive = living(follow, before, exits, wanted)
    return wanted if 0 in alive and touched <= alive else set()


def living(follow: Graph, before: Graph, exits: Sequence[bool], wanted: Set[int]) -> Set[int]:
    """The blocks on a way from the entry to an exit that passes none of the wanted ones."""
    def without(edges: Graph) -> Graph:
        return [[it for it in there if it not in wanted] for there in edges]
    start = [0] if 0 not in wanted else []
    ends = [n for n, leaves in enumerate(exits) if leaves and n not in wanted]
    return reached(start, without(follow)) & reached(ends, without(before))


def said(numbers: Set[int], what: str) -> List[str]:
    """A comment on these blocks, or none."""
    return [f"# rare: {what.format(' '.join(map(str, sorted(numbers))))}"] if numbers else []


def judged(lows: Sequence[int], highs: Sequence[int], follow: Graph, exits: Sequence[bool], kinds: Kinds,
           touch: Optional[Touch]) -> Judged:
    """What there is to say of the rare blocks of a function; `touch` is None without samples."""
    unwound, doomed = marked(lows, follow, exits, kinds)
    lines = said(unwound, "only unwinding comes to {}") + said(doomed, "every way from {} leads to what never returns")
    if touch is None:
        return Judged(lines, set())
    touched = {n for n, (low, high) in enumerate(zip(lows, highs)) if touch.holds(low, high)}
    return Judged(lines, barred(follow, exits, unwound | doomed, touched))
