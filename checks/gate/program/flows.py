#!/usr/bin/env python3
"""flows.py check CFG OUT: what `pgo check` has to answer to these words.

A second program, written by docs/FORMATS.md ("Block text", "Repair text") and docs/RULES.md ("Rules of repair"), and by nothing
else: it prints what `pgo` has to print, on both outputs, and ends with its status. It is slow, and as plain as it can be. Others
use its readers of both texts, and what it says of lifted counts.
"""
import re
import sys
from typing import Any, Dict, List

sys.dont_write_bytecode = True
import sums
from sums import LARGEST, Refused

MOST_BLOCKS, MOST_EDGES, BOUND_BITS, WEIGHT_BITS = 65536, 262144, 44, 44


def lines_of(text):
    """The lines, without their line feeds."""
    lines = text.split(b"\n")
    return lines if lines[-1] else lines[:-1]


def fields_of(line):
    return re.findall(rb"[^ \t]+", line)


def decimal(word, bits):
    return sums.number(word, bits) if re.fullmatch(rb"[0-9]+", word) else None


def address(word):
    digits = word[2:].lstrip(b"0") or b"0"
    return int(digits, 16) if re.fullmatch(rb"0x[0-9a-fA-F]+", word) and len(digits) <= 16 else None


def price(word):
    if not re.fullmatch(rb"-?[0-9]+", word):
        return None
    size = sums.number(word.lstrip(b"-"), 64)
    if size is None or size > (2**63 if word.startswith(b"-") else 2**63 - 1):
        return None
    return -size if word.startswith(b"-") else size


def large(word):
    digits = word.lstrip(b"0") or b"0"
    return int(digits) if re.fullmatch(rb"[0-9]+", word) and len(digits) <= 39 and int(digits) < 2**128 else None


def weight(word):
    """The weight, "?" where it is unknown, None where the word says none."""
    return "?" if word == b"?" else decimal(word, WEIGHT_BITS)


def bit(word):
    return {b"0": 0, b"1": 1}.get(word.lstrip(b"0") or b"0") if re.fullmatch(rb"[0-9]+", word) else None


def form(pattern, kinds, fields):
    """The values of the fields where they have this form, and None else: words stand for themselves, @ for a value of the next kind."""
    words = pattern.encode().split()
    if len(words) != len(fields) or any(word not in (b"@", field) for word, field in zip(words, fields)):
        return None
    values = [kind(field) for kind, field in zip(kinds, (field for word, field in zip(words, fields) if word == b"@"))]
    return None if None in values else values


number = lambda word: decimal(word, 64)


class Function:
    """Blocks as (low, high, is exit, least, most) and edges as (from, to, least, most); without a bound `most` is None."""

    def __init__(self, name):
        self.name, self.blocks, self.edges = name, [], []


def bounds(words, of_block):
    """The least and the most that these words allow, or None."""
    if words in ([], [b"never"], [b"ran"] if of_block else []):
        return (0, None) if not words else (0, 0) if words == [b"never"] else (1, None)
    found = re.fullmatch(rb"(?:lo=([0-9]+))?(?: ?hi=([0-9]+))?", b" ".join(words))
    if not found or len(words) > 2 or len(words) != sum(group is not None for group in found.groups()):
        return None
    least, most = (group and decimal(group, BOUND_BITS) for group in found.groups())
    if found[1] and least is None or found[2] and most is None:
        return None
    return least or 0, most


def block_of(words):
    """What a line of a block says: its number, and the block; or None."""
    if len(words) < 4:
        return None
    leaves = words[4:5] == [b"exit"]
    values = [decimal(words[1], 64), address(words[2]), address(words[3]), bounds(words[5 if leaves else 4 :], True)]
    return None if None in values else (values[0], (values[1], values[2], leaves, *values[3]))


def edge_of(words):
    values = [decimal(words[1], 64), decimal(words[2], 64), bounds(words[3:], False)] if len(words) > 2 else [None]
    return None if None in values else (values[0], values[1], *values[2])


def block_fault(function, count, block):
    low, high, _, least, most = block
    if len(function.blocks) == MOST_BLOCKS:
        return "TooManyBlocks"
    if count != len(function.blocks):
        return "BlockOrder"
    if high <= low:
        return "BlockEmpty"
    if any(low < other[1] and other[0] < high for other in function.blocks):
        return "BlockOverlap"
    return "BadBound" if most is not None and least > most else None


def edge_fault(function, edge):
    start, end, least, most = edge
    if len(function.edges) == MOST_EDGES:
        return "TooManyEdges"
    if max(start, end) >= len(function.blocks):
        return "EdgeEnd"
    if any(edge[:2] == other[:2] for other in function.edges):
        return "EdgeTwice"
    return "BadBound" if most is not None and least > most else None


def functions_of(text):
    """The functions of a block text."""
    functions, opened, lines = [], None, lines_of(text)
    for count, line in enumerate(lines, 1):
        words = fields_of(line)
        fault = None
        if line.startswith(b"#") or not words:
            continue
        if words[0] == b"func" and len(words) == 2 and not opened:
            opened = Function(words[1])
        elif words == [b"end"] and opened:
            fault = None if opened.blocks else "NoBlocks"
            functions.append(opened)
            opened = None
        elif words[0] == b"block" and opened and not opened.edges and block_of(words):
            fault = block_fault(opened, *block_of(words))
            opened.blocks.append(block_of(words)[1])
        elif words[0] == b"edge" and opened and edge_of(words):
            fault = edge_fault(opened, edge_of(words))
            opened.edges.append(edge_of(words))
        else:
            fault = "BadLine"
        if fault:
            raise Refused(count, fault)
    if opened:
        raise Refused(len(lines) + 1, "NoEndLine")
    return functions


class Repair:
    """A repair that was told: counts and prices of blocks, or the sides of a cut; the numbers of the lines that have a test."""

    def __init__(self, function, root):
        self.function, self.root = function, root
        # Of each block its line, its weight, and its count with its prices or its two sides; of each edge its line, weight and count.
        self.blocks, self.edges, self.end = [], [], None

    def is_cut(self):
        return self.root is not None

    def tell(self, count, words):
        """Takes one more line, and gives its fault."""
        if words[:2] == [b"#", b"block"]:
            return self.tell_block(count, words)
        if words[:2] == [b"#", b"edge"]:
            return self.tell_edge(count, words)
        if words[:2] == [b"#", b"end"]:
            values = form("# end @ @", [large, large], words) if self.is_cut() else form("# end @", [large], words)
            if values is None:
                return "BadLine"
            self.end = count, values
            return "Missing" if self.is_due() else None
        return "BadLine"

    def is_due(self):
        return len(self.blocks) < len(self.function.blocks) or not self.is_cut() and len(self.edges) < len(self.function.edges)

    def tell_block(self, count, words):
        if self.is_cut():
            values = form("# block @ weight @ in @ out @", [number, weight, bit, bit], words)
        else:
            values = form("# block @ weight @ count @ in @ out @", [number, weight, number, price, price], words)
        if values is None:
            return "BadLine"
        if len(self.blocks) == len(self.function.blocks):
            return "Extra"
        if values[0] != len(self.blocks):
            return "WrongBlock"
        self.blocks.append((count, *values[1:]))
        return None

    def tell_edge(self, count, words):
        values = form("# edge @ @ weight @ count @", [number, number, weight, number], words)
        if values is None:
            values = form("# edge @ @ count @", [number, number, number], words)
            values = values and [*values[:2], "?", values[2]]
        if values is None:
            return "BadLine"
        if len(self.blocks) < len(self.function.blocks):
            return "Missing"
        if self.is_cut() or len(self.edges) == len(self.function.edges):
            return "Extra"
        if tuple(values[:2]) != self.function.edges[len(self.edges)][:2]:
            return "WrongEdge"
        self.edges.append((count, *values[2:]))
        return None


def repairs_of(functions, text):
    """The repairs that a repair text tells of these functions."""
    repairs: List[Any] = []
    opened, lines = None, lines_of(text)
    for count, line in enumerate(lines, 1):
        words, fault = fields_of(line), None
        if opened:
            fault = opened.tell(count, words)
            if opened.end:
                opened = None
        elif line.startswith(b"# function "):
            flow = form("# function @ flow", [bytes], words)
            cut = form("# function @ cut @", [bytes, bit], words)
            if not flow and not cut:
                fault = "BadLine"
            elif len(repairs) == len(functions):
                fault = "Extra"
            elif words[2] != functions[len(repairs)].name:
                fault = "WrongFunction"
            else:
                opened = Repair(functions[len(repairs)], cut[1] if cut else None)
                repairs.append(opened)
        if fault:
            raise Refused(count, fault)
    if opened or len(repairs) < len(functions):
        raise Refused(len(lines) + 1, "Missing")
    return repairs


class Arc:
    """A way of the flow, from a side to a side: its bounds, its weight, and what a unit above and below it costs."""

    def __init__(self, tail, head, least, most, told, costs):
        self.tail, self.head, self.least, self.most = tail, head, least, most
        self.weight, (self.above, self.below) = (0 if told == "?" else told), costs

    def cost(self, count):
        return self.above * (count - self.weight) if count > self.weight else self.below * (self.weight - count)

    def passes(self, count, prices):
        """Whether a count is within the bounds, and the prices fit it."""
        if count < self.least or self.most is not None and count > self.most:
            return False
        rise = prices[self.head] - prices[self.tail]
        if (self.most is None or count < self.most) and rise > self.cost(count + 1) - self.cost(count):
            return False
        return count == self.least or -rise <= self.cost(count - 1) - self.cost(count)


def block_costs(index, told):
    if told == "?":
        return 1, 0
    return (40, 10) if index == 0 else (10, 20) if told > 0 else (11, 0)


def edge_costs(told):
    return (0, 0) if told == "?" else (2, 4) if told > 0 else (3, 0)


# The sides: 0 is outside, and each block has one where it is entered and one where it is left.
def enters(index):
    return 1 + 2 * index


def leaves(index):
    return 2 + 2 * index


class Net:
    """The arcs of a repair's function with the weights that it tells: calls, blocks, edges, and returns by block."""

    def __init__(self, repair):
        function, weights = repair.function, [block[1] for block in repair.blocks]
        self.calls = Arc(0, enters(0), int(any(told not in (0, "?") for told in weights)), None, 0, (0, 0))
        self.blocks = [
            Arc(enters(k), leaves(k), block[3], block[4], told, block_costs(k, told)) for k, (block, told) in enumerate(zip(function.blocks, weights))
        ]
        told = [edge[1] for edge in repair.edges] or ["?"] * len(function.edges)
        self.edges = [Arc(leaves(edge[0]), enters(edge[1]), edge[2], edge[3], of, edge_costs(of)) for edge, of in zip(function.edges, told)]
        self.returns = {k: Arc(leaves(k), 0, 0, None, 0, (0, 0)) for k, block in enumerate(function.blocks) if block[2]}


def failed_flow(repair):
    net, function = Net(repair), repair.function
    prices, came, went = {0: 0}, [0] * len(function.blocks), [0] * len(function.blocks)
    for index, block in enumerate(repair.blocks):
        prices[enters(index)], prices[leaves(index)] = block[3:]
    for (start, end, *_), (_, _, count) in zip(function.edges, repair.edges):
        went[start] += count
        came[end] += count
    cost = 0
    for index, (line, _, count, *_) in enumerate(repair.blocks):
        arc, calls, returns = net.blocks[index], count - came[index], count - went[index]
        cost += arc.cost(count)
        good = arc.passes(count, prices)
        good &= net.calls.passes(calls, prices) if index == 0 else calls == 0
        good &= net.returns[index].passes(returns, prices) if index in net.returns else returns == 0
        if not good:
            return line
    for arc, (line, _, count) in zip(net.edges, repair.edges):
        cost += arc.cost(count)
        if not arc.passes(count, prices):
            return line
    line, told = repair.end
    return None if told == [cost] else line


def failed_cut(repair):
    net, held = Net(repair), {0} if repair.root else set()
    for index, (_, _, enter, leave) in enumerate(repair.blocks):
        held |= {side for side, told in ((enters(index), enter), (leaves(index), leave)) if told}
    arcs = [net.calls, *net.blocks, *net.edges, *net.returns.values()]
    least = sum(arc.least for arc in arcs if arc.head in held and arc.tail not in held)
    most = [arc.most for arc in arcs if arc.tail in held and arc.head not in held]
    line, told = repair.end
    return None if None not in most and told == [least, sum(most)] and least > sum(most) else line


def failed_line(repairs):
    """The first line that fails its test, or None."""
    failed = (failed_cut(repair) if repair.is_cut() else failed_flow(repair) for repair in repairs)
    return next((line for line in failed if line is not None), None)


def lifted(key_at, repairs, text):
    """The profile in a text with the largest count of the blocks that hold a key, for each that one holds; `key_at` gives the key of
    each address that has one."""
    held: Dict[Any, int] = {}
    numbers = {thing: times for _, thing, times in sums.read(text)}
    for repair in repairs:
        for block, told in zip(repair.function.blocks, () if repair.is_cut() else repair.blocks):
            for key in (key for at, key in key_at.items() if block[0] <= at < block[1]):
                held[key] = max(held.get(key, 0), told[2])
    numbers.update({("count", *key): count for key, count in held.items()})
    return sums.text_of(numbers)


def judged(place, read):
    """What a reader gives, or the answer to a bad file in this place."""
    try:
        return read(), None
    except Refused as bad:
        return None, (4, b"", b"refused: file %d at %d: %b\n" % (place, bad.args[0], bad.args[1].encode()))


def sized(read, text):
    if len(text) > LARGEST:
        raise Refused(LARGEST, "FileTooLarge")
    return read(text)


def answer(blocks, out):
    """The answer of `check` to these two texts."""
    functions, refused = judged(1, lambda: sized(functions_of, blocks))
    if refused:
        return refused
    repairs, refused = judged(2, lambda: sized(lambda text: repairs_of(functions, text), out))
    if refused:
        return refused
    line = failed_line(repairs)
    return (0, b"checked %d\n" % len(functions), b"") if line is None else (1, b"", b"check failed at line %d\n" % line)


def answer_of_lift(key_at, blocks, out):
    """The answer of `lift` to a good binary and these two texts."""
    functions, refused = judged(2, lambda: sized(functions_of, blocks))
    if not refused:
        _, refused = judged(3, lambda: sized(sums.read, out))
    if refused:
        return refused
    repairs, refused = judged(3, lambda: repairs_of(functions, out))
    if refused:
        return refused
    line = failed_line(repairs)
    return (0, lifted(key_at, repairs, out), b"") if line is None else (1, b"", b"check failed at line %d\n" % line)


if __name__ == "__main__":
    status, out, said = answer(sums.bytes_of(sys.argv[2]), sums.bytes_of(sys.argv[3]))
    sys.stdout.buffer.write(out)
    sys.stderr.buffer.write(said)
    sys.exit(status)
