#!/usr/bin/env python3
"""layout.py BIN TEXT: prints the list of contrib/layout by the samples themselves, in place of repaired counts.

An edge of blocks was gone along by a branch from the one to the start of the other, or by a stretch between two branches. Where a
call that can throw ends a block, the return from it leads to the one behind.
"""
import bisect
import collections
import os
import sys

sys.dont_write_bytecode = True
from bolt_text import samples_of

sys.path.insert(0, os.path.join(os.path.dirname(os.path.realpath(__file__)), "..", "..", "contrib"))
from pgo_tools.blocks import layout as made  # noqa: E402


def counts_of(path, places):
    counts = collections.defaultdict(collections.Counter)
    branches, ranges = samples_of(path)

    def step(tail, head, times):
        if tail and head and tail.entry == head.entry:
            counts[tail.entry][tail.number, head.number] += times

    for (source, target), times in branches.items():
        head = places.at(target)
        if head and head.low == target:
            tail = places.at(source)
            is_return = not tail or tail.entry != head.entry
            step(places.at(target - 1) if is_return else tail, head, times)
    for (first, last), times in ranges.items():
        row, end = places.at(first), places.at(last)
        if row and end:
            through = places.rows[bisect.bisect_left(places.lows, row.low) : bisect.bisect_right(places.lows, end.low)]
            for tail, head in zip(through, through[1:]):
                step(tail, head, times)
    return counts


def main():
    binary, text = sys.argv[1:]
    places = made.Places(binary)
    print("\n".join(made.listed(places, counts_of(text, places))))


if __name__ == "__main__":
    if sys.argv[1:2] in (["-h"], ["--help"]):
        sys.exit(print(__doc__.strip()))
    main()
