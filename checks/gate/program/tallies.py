"""The built program on functions that `build --scaled` repairs: how many augmentations it tells of.

The number for the ladder was counted by a debugger: `gdb` stopped 9,715 times at the start of a search for a way, of which each led to
one augmentation. All others are sums.
"""
import re
from typing import Any, Dict

import make
from common import DONE
from judging import judge, run

ONE = make.small(1)
# The generated function, with samples of three of its blocks that do not conserve.
BLOCKS = (
    b"func f0000\nblock 0 0x401000 0x401008\nblock 1 0x401008 0x401010\nblock 2 0x401010 0x401020\n"
    b"block 3 0x401020 0x401040 exit\nedge 0 1\nedge 0 2\nedge 1 3\nedge 2 3\nend\n"
)
UNEVEN = b"0x401001/0x9 0x9/0x401001\n" * 100 + b"0x401008/0x9 0x9/0x401008\n" * 60 + b"0x401020/0x9 0x9/0x401020\n" * 100
LOOP = b"func loop\nblock 0 0x401000 0x401008\nblock 1 0x401008 0x401010\nedge 0 1\nedge 1 0\nend\n"


def ladder(width, steps, unit=1):
    """Two rows of blocks are joined by edges that take one unit each; step by step the cheapest way fills all of them, or empties
    them again, one by one. Two chains lead there and away. As bench/ladder makes it."""
    numbers: Dict[Any, int] = {}
    full, edges = b" hi=%d" % (width**2 * unit), []

    def edge(tail, head, bound=b""):
        edges.append((numbers.setdefault(tail, len(numbers)), numbers.setdefault(head, len(numbers)), bound))

    numbers.update({"start": 0, "end": 1})
    edge("start", "there 1")
    edge("away 1", "end")
    for k in range(1, 2 * steps):
        edge(f"there {k}", f"there {k + 1}")
        edge(f"away {k + 1}", f"away {k}")
    for k in range(1, 2 * steps + 1):
        edge(f"there {k}", "to left" if k % 2 else "to right", full)
        edge("from right" if k % 2 else "from left", f"away {k}", full)
    edge("to right", "to right 2")
    edge("from left 2", "from left")
    for k in range(width):
        edge("to left", f"left {k}")
        edge(f"left {k}", "from left 2")
        edge("to right 2", f"right {k}")
        edge(f"right {k}", "from right")
    for k in range(width):
        for j in range(width):
            edge(f"left {k}", f"right {j}", b" hi=%d" % unit)
    bounds = {0: b" lo=%d" % (2 * steps * width**2 * unit), 1: b" exit"}
    blocks = [b"block %d 0x%x 0x%x%s" % (n, 16 * n + 2**28, 16 * n + 2**28 + 8, bounds.get(n, b"")) for n in range(len(numbers))]
    lines = [b"func ladder", *blocks, *(b"edge %d %d%s" % one for one in edges), b"end\n"]
    return b"\n".join(lines), 16 * (len(blocks) + len(edges) + 1)


def told(out):
    """The line that tells of augmentations, and how many functions have counts."""
    return out[out.rindex(b"# "):] + b"%d counts\n" % len(re.findall(rb"^# end \d+$", out, flags=re.M))


def tells(title, blocks, tally, counts):
    wanted = b"# augmentations %d\n%d counts\n" % (tally, counts)
    judge(title, (DONE, wanted, b""), ["build", "--scaled", "bin", "perf", "cfg"], told=told, bin=ONE, perf=UNEVEN, cfg=blocks)


def tally_of(blocks):
    out = run(["build", "--scaled", "bin", "perf", "cfg"], {"bin": ONE, "perf": UNEVEN, "cfg": blocks})
    return int((out.out if hasattr(out, "out") else out.stdout).rpartition(b" ")[2])


def alike(title, blocks):
    """With `--scaled` and without it a function is repaired in one way."""
    files = {"bin": ONE, "perf": UNEVEN, "cfg": blocks}
    scaled = run(["build", "--scaled", "bin", "perf", "cfg"], files).out
    judge(title, (DONE, scaled[:scaled.rindex(b"# ")], b""), ["build", "bin", "perf", "cfg"], **files)


def phases():
    """A function that goes on in phases behind the plain run, whose augmentations are told as well, below 2^36."""
    blocks, plain = ladder(14, 24)
    assert plain == 9264 and 10000 < len(blocks) < 12000
    tells("a ladder that goes on in phases", blocks, 9715, 1)
    alike("a ladder without a number", blocks)
    tells("a ladder of great counts", ladder(14, 24, 2**24)[0], 0, 1)
    alike("a ladder of great counts without a number", ladder(14, 24, 2**24)[0])
    tells("two ladders", blocks + blocks, 2 * 9715, 2)
    tells("a ladder between others", BLOCKS + blocks + LOOP, 9715 + tally_of(BLOCKS) + tally_of(LOOP), 2)


def many():
    """A function k times has k times its augmentations; that of the text is the sum over its functions."""
    one = tally_of(BLOCKS)
    assert one > 0
    for k in (2, 63, 64, 65, 1000):
        tells(f"a function {k} times", BLOCKS * k, k * one, k)
    straight = b"func far\nblock 0 0x1 0x2 exit\nend\n"
    tells("different functions", BLOCKS * 40 + straight * 30 + LOOP, 40 * one + 30 * tally_of(straight) + tally_of(LOOP), 70)


PARTS = [phases, many]
