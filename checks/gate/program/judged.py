"""Repairs that another solver made, through `pgo check`.

Random functions are weighed at random and solved here: counts of least cost with prices, or a cut. The program has to accept
them, alone and all in one text. Then one number or one bit of each repair is changed, and the program has to name the first line
that fails by docs/RULES.md and docs/FORMATS.md ("Repair text"), of which this is a second program, or to accept what still holds.
"""
from common import DONE, FAILED
from judging import fail, judge


class Arc:
    """An arc from one side to another: its bounds, its weight, and what a unit above and below it costs."""

    def __init__(self, tail, head, least, most, weight, up, down):
        self.tail, self.head, self.least, self.most = tail, head, least, most
        self.weight, self.up, self.down = weight, up, down

    def cost(self, count):
        return self.up * max(count - self.weight, 0) + self.down * max(self.weight - count, 0)

    def more(self, count):
        """What one unit more costs, if there may be one."""
        return None if self.most is not None and count >= self.most else self.up if count >= self.weight else -self.down

    def less(self, count):
        return None if count <= self.least else self.down if count <= self.weight else -self.up


class Function:
    """Blocks as (least, most, weight, exit) and edges as (from, to, least, most, weight); a weight may be None."""

    def __init__(self, draw):
        size = draw.choice([1, 2, 3, 4, 5, 8])
        weigh = lambda: draw.choice([None, 0, 0, draw.randrange(9), draw.randrange(1, 90)])
        exits = {draw.randrange(size)} if draw.random() < 0.9 else set()
        self.blocks = [(*self.bounds(draw), weigh(), k in exits or draw.random() < 0.1) for k in range(size)]
        ways = {(k, k + 1) for k in range(size - 1)} | {(draw.randrange(size), draw.randrange(size)) for _ in range(size)}
        # Weights of edges are told for half of the functions, and unknown for the others.
        self.weighed = draw.random() < 0.5
        self.edges = [(*way, *self.bounds(draw), weigh() if self.weighed else None) for way in sorted(ways)]

    @staticmethod
    def bounds(draw):
        if draw.random() < 0.85:
            return 0, None
        least = draw.randrange(6)
        return least, draw.choice([None, least, least + draw.randrange(9)])

    def arcs(self):
        """The calls, the blocks, the edges and the returns: side 0 is outside, 1 + 2 b and 2 + 2 b are those of block b."""
        made = [Arc(0, 1, int(any(block[2] for block in self.blocks)), None, 0, 0, 0)]
        for k, (least, most, weight, _) in enumerate(self.blocks):
            up, down = (1, 0) if weight is None else (40, 10) if k == 0 else (10, 20) if weight else (11, 0)
            made.append(Arc(1 + 2 * k, 2 + 2 * k, least, most, weight or 0, up, down))
        for tail, head, least, most, weight in self.edges:
            up, down = (0, 0) if weight is None else (2, 4) if weight else (3, 0)
            made.append(Arc(2 + 2 * tail, 1 + 2 * head, least, most, weight or 0, up, down))
        return made + [Arc(2 + 2 * k, 0, 0, None, 0, 0, 0) for k, block in enumerate(self.blocks) if block[3]]

    def text(self):
        bounds = lambda least, most: (f" lo={least}" if least else "") + ("" if most is None else f" hi={most}")
        lines = ["func f"]
        for k, (least, most, _, leaves) in enumerate(self.blocks):
            lines.append(f"block {k} 0x{16 * k:x} 0x{16 * k + 16:x}" + (" exit" if leaves else "") + bounds(least, most))
        lines += [f"edge {tail} {head}" + bounds(least, most) for tail, head, least, most, _ in self.edges]
        return "\n".join(lines) + "\nend\n"


def steps(arcs, counts):
    """Each way that one unit may go: from, to, cost, arc, and one more or one less on it."""
    for k, (arc, count) in enumerate(zip(arcs, counts)):
        if arc.more(count) is not None:
            yield arc.tail, arc.head, arc.more(count), k, 1
        if arc.less(count) is not None:
            yield arc.head, arc.tail, arc.less(count), k, -1


def cheapest(arcs, counts, costs):
    """The cheapest ways to all sides from those that have a cost at first, and the step by which each is reached."""
    reached, moved = {}, True
    while moved:
        moved = False
        for start, end, cost, k, way in steps(arcs, counts):
            if start in costs and (end not in costs or costs[start] + cost < costs[end]):
                costs[end], reached[end], moved = costs[start] + cost, (start, k, way), True
    return reached


def solve(function):
    """Counts of all arcs with prices of all sides, or a cut: by cheapest ways from sides of too much to those of too little."""
    arcs = function.arcs()
    sides = range(1 + 2 * len(function.blocks))
    counts = [max(arc.least, arc.weight if arc.most is None else min(arc.weight, arc.most)) for arc in arcs]
    while True:
        over = [0] * len(sides)
        for arc, count in zip(arcs, counts):
            over[arc.head] += count
            over[arc.tail] -= count
        much = [side for side in sides if over[side] > 0]
        if not much:
            prices = {0: 0} | {side: 10**6 for side in sides[1:]}
            cheapest(arcs, counts, prices)
            return counts, [prices[side] for side in sides], None
        costs = {much[0]: 0}
        reached = cheapest(arcs, counts, costs)
        little = [side for side in costs if over[side] < 0]
        if not little:
            return None, None, set(costs)
        side = min(little, key=costs.__getitem__)
        while side != much[0]:
            side, k, way = reached[side]
            counts[k] += way


def lines_of(function, counts, prices, cut):
    """The fields of the lines of a repair."""
    said = lambda weight: "?" if weight is None else weight
    blocks, edges = function.blocks, function.edges
    bit = lambda side: int(side in cut)
    arcs = function.arcs()
    if cut is not None:
        made = [["function", "f", "cut", bit(0)]]
        made += [["block", k, "weight", said(b[2]), "in", bit(1 + 2 * k), "out", bit(2 + 2 * k)] for k, b in enumerate(blocks)]
        return made + [["end", *sums(arcs, cut)]]
    made = [["function", "f", "flow"]]
    for k, block in enumerate(blocks):
        made.append(["block", k, "weight", said(block[2]), "count", counts[1 + k], "in", prices[1 + 2 * k], "out", prices[2 + 2 * k]])
    for k, edge in enumerate(edges):
        weight = ["weight", said(edge[4])] if function.weighed else []
        made.append(["edge", edge[0], edge[1], *weight, "count", counts[1 + len(blocks) + k]])
    return made + [["end", sum(arc.cost(count) for arc, count in zip(arcs, counts))]]


def sums(arcs, cut):
    least = sum(arc.least for arc in arcs if arc.head in cut and arc.tail not in cut)
    leaving = [arc.most for arc in arcs if arc.tail in cut and arc.head not in cut]
    return least, None if None in leaving else sum(leaving)


def fits(arc, count, prices):
    rise, more, less = prices[arc.head] - prices[arc.tail], arc.more(count), arc.less(count)
    return (more is None or rise <= more) and (less is None or -rise <= less)


def failed(function, lines):
    """The first line that fails its test, from 1; the lines have their forms."""
    blocks, edges, size = function.blocks, function.edges, len(function.blocks)
    weights = [None if line[3] == "?" else line[3] for line in lines[1 : 1 + size]]
    told = Function.__new__(Function)
    told.blocks = [(*block[:2], weight, block[3]) for block, weight in zip(blocks, weights)]
    if lines[0][2] == "cut":
        told.edges = edges
        cut = {side for side, bit in [(0, lines[0][3])] if bit}
        for k, line in enumerate(lines[1 : 1 + size]):
            cut |= {side for side, bit in [(1 + 2 * k, line[5]), (2 + 2 * k, line[7])] if bit}
        least, most = sums(told.arcs(), cut)
        good = most is not None and lines[-1][1:] == [least, most] and most < least
        return None if good else 2 + size
    edge_weights = [None if len(line) == 5 or line[4] == "?" else line[4] for line in lines[1 + size : -1]]
    told.edges = [(*edge[:4], weight) for edge, weight in zip(edges, edge_weights)]
    arcs = told.arcs()
    prices = [0] + [price for line in lines[1 : 1 + size] for price in (line[7], line[9])]
    counts = [line[5] for line in lines[1 : 1 + size]] + [line[-1] for line in lines[1 + size : -1]]
    came, went = [0] * size, [0] * size
    for edge, count in zip(edges, counts[size:]):
        went[edge[0]] += count
        came[edge[1]] += count
    within = lambda arc, count: arc.least <= count and (arc.most is None or count <= arc.most)
    for k, count in enumerate(counts[:size]):
        arc, calls, returns = arcs[1 + k], count - came[k], count - went[k]
        good = within(arc, count) and fits(arc, count, prices)
        good &= calls >= arcs[0].least and fits(arcs[0], calls, prices) if k == 0 else calls == 0
        if blocks[k][3]:
            good &= returns >= 0 and fits(Arc(2 + 2 * k, 0, 0, None, 0, 0, 0), returns, prices)
        else:
            good &= returns == 0
        if not good:
            return 2 + k
    for k, count in enumerate(counts[size:]):
        if not (within(arcs[1 + size + k], count) and fits(arcs[1 + size + k], count, prices)):
            return 2 + size + k
    every = [counts[0] - came[0], *counts] + [counts[k] - went[k] for k, block in enumerate(blocks) if block[3]]
    cost = sum(arc.cost(count) for arc, count in zip(arcs, every))
    return None if lines[-1][1] == cost else len(lines)


def changed(lines, draw):
    """The lines with another number in one place: a weight, a count, a price, a cost, a sum or a bit of a cut."""
    lines = [list(line) for line in lines]
    places = [(k, at) for k, line in enumerate(lines) for at in range(3, len(line)) if isinstance(line[at], int)]
    places += [(len(lines) - 1, at) for at in range(1, len(lines[-1]))]
    k, at = draw.choice(places)
    is_bit = lines[0][2] == "cut" and at in (3, 5, 7) and not (k > 0 and at == 3)
    lines[k][at] = 1 - lines[k][at] if is_bit else max(lines[k][at] + draw.choice([-1, 1]), -9 if at in (7, 9) else 0)
    return lines


def text_of(lines):
    return "".join("# " + " ".join(map(str, line)) + "\n" for line in lines)


def answers(title, blocks, repairs, line, functions=1):
    """Holds `check` to the first line that fails, or to that there is none."""
    wanted = (DONE, b"checked %d\n" % functions, b"") if line is None else (FAILED, b"", b"check failed at line %d\n" % line)
    judge(title, wanted, ["check", "cfg", "out"], cfg=blocks.encode(), out=repairs.encode())


SOLVED = []


def one(draw):
    """A function, as it was solved and with one number changed."""
    function = Function(draw)
    lines = lines_of(function, *solve(function))
    if failed(function, lines) is not None:
        fail("a function is not solved here", f"line {failed(function, lines)}\n{text_of(lines)}")
    SOLVED.append((function.text(), text_of(lines)))
    answers("as it was solved", *SOLVED[-1], None)
    other = changed(lines, draw)
    answers("one number changed", function.text(), text_of(other), failed(function, other))


def all_at_once():
    """All that were solved, in one text."""
    blocks, repairs = zip(*SOLVED)
    answers(f"{len(SOLVED)} at once", "".join(blocks), "".join(repairs), None, len(SOLVED))
