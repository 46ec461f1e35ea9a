"""Where the blocks of a graph stand and through which points its edges go: blocks in layers, each edge from a layer to
a later one or, drawn the other way round, back to an earlier one."""
import collections
from typing import Dict, List, NamedTuple, Sequence, Set, Tuple, Union

GAP_X, GAP_Y, LINE, LETTER = 26, 46, 16, 7.3
# Beside a block with an edge to itself: where that one's text begins.
LOOP = 24
ORDER_TURNS, PLACE_TURNS, MOST_PASSED = 24, 30, 5000


class Box(NamedTuple):
    """A block: its width, and how wide the text of the edge to itself is (0 where it has none)."""

    width: float
    loop: float


class Line(NamedTuple):
    """An edge between two blocks, by their numbers; `pull` says how much it wants to be straight."""

    tail: int
    head: int
    pull: float


class Point(NamedTuple):
    """A place in the picture, from its upper left corner."""

    x: float
    y: float


class Loop(NamedTuple):
    """The points of a block's edge to itself, and the middle of its text."""

    points: List[Point]
    text: Point


class Port(NamedTuple):
    """How far from a block's middle the edge to a neighbour touches it, and whether two edges do."""

    place: float
    both: bool


class Text(NamedTuple):
    """A text of an edge: its middle, its height, and half its width."""

    x: float
    y: float
    half: float


class Pass(NamedTuple):
    """Where an edge, by its place among all, passes a layer."""

    edge: int
    layer: int


# A block by its number, or a place where an edge passes a layer.
Item = Union[int, Pass]
Pair = Tuple[int, int]


class Near(NamedTuple):
    """The neighbours of an item above it and below it."""

    above: List[Item]
    below: List[Item]


class Layers(NamedTuple):
    """The layer of each block, and the edges that lead back."""

    layer: List[int]
    back: Set[Pair]


class Row(NamedTuple):
    """The items of a layer: where they stand side by side from 0 on, their neighbours with the pull of each, and the
    sums of these."""

    items: List[Item]
    starts: List[float]
    near: List[List[Tuple[Item, float]]]
    weights: List[float]


def text_width(text: str) -> float:
    return LETTER * len(text)


def layers_of(count: int, edges: Sequence[Pair]) -> Layers:
    """The layers as a search in depth finds them."""
    follow: List[List[int]] = [[] for _ in range(count)]
    for tail, head in edges:
        follow[tail].append(head)
    back: Set[Pair] = set()
    order, state = [], [0] * count
    for root in range(count):
        stack = [] if state[root] else [(root, iter(follow[root]))]
        state[root] = 1
        while stack:
            at, rest = stack[-1]
            for there in rest:
                if state[there] == 1:
                    back.add((at, there))
                elif state[there] == 0:
                    state[there] = 1
                    stack.append((there, iter(follow[there])))
                    break
            else:
                state[at] = 2
                order.append(at)
                stack.pop()
    layer = [0] * count
    for at in reversed(order):
        for there in follow[at]:
            if (at, there) not in back:
                layer[there] = max(layer[there], layer[at] + 1)
    return Layers(layer, back)


class Pool(NamedTuple):
    """Things that are moved together: the sum of how far each wants to go by its weight, that of the weights, and how
    many they are."""

    moved: float
    weight: float
    size: int

    def shift(self) -> float:
        return self.moved / self.weight


def starts_of(widths: List[float]) -> List[float]:
    """Where things of these widths have their middles, side by side from 0 on."""
    starts: List[float] = []
    at = 0.0
    for before, width in zip([0.0] + widths, widths):
        at += (before + width) / 2 + GAP_X if starts else 0
        starts.append(at)
    return starts


def spread(wanted: Sequence[float], starts: Sequence[float], weights: Sequence[float]) -> List[float]:
    """The places nearest to the wanted ones at which things stand side by side (pooled adjacent violators)."""
    pools: List[Pool] = []
    for want, start, weight in zip(wanted, starts, weights):
        pools.append(Pool((want - start) * weight, weight, 1))
        while len(pools) > 1 and pools[-2].shift() > pools[-1].shift():
            last, before = pools.pop(), pools.pop()
            pools.append(Pool(before.moved + last.moved, before.weight + last.weight, before.size + last.size))
    shifts = [pool.shift() for pool in pools for _ in range(pool.size)]
    return [start + shift for start, shift in zip(starts, shifts)]


class Layout:
    """Where items stand: `x` is an item's middle, `y` its upper end."""

    def __init__(self, boxes: Dict[int, Box], lines: Sequence[Line], height: float) -> None:
        self.boxes, self.height = boxes, height
        # How wide items are, with room for texts on both sides.
        self.room: Dict[Item, float] = {
            number: box.width + (2 * (LOOP + box.loop) if box.loop else 0) for number, box in boxes.items()}
        pairs = [(line.tail, line.head) for line in lines]
        layer, self.back = layers_of(max(boxes) + 1, pairs)
        # In a large picture long edges pass the layers between as they come.
        far = 3 if sum(abs(layer[tail] - layer[head]) for tail, head in pairs) > MOST_PASSED else len(layer)
        self.rows: List[List[Item]] = [[] for _ in range(max(layer[number] for number in boxes) + 1)]
        for number in sorted(boxes, key=lambda it: (layer[it], it)):
            self.rows[layer[number]].append(number)
        self.ways: Dict[Pair, List[Item]] = {}
        self.near: Dict[Item, Near] = collections.defaultdict(lambda: Near([], []))
        self.pull: Dict[Tuple[Item, Item], float] = {}
        for place, line in enumerate(lines):
            self.lead(place, line, layer, far)
        self.ports: Dict[Item, Dict[Item, Port]] = {}
        self.texts: Dict[Pair, List[Text]] = collections.defaultdict(list)
        self.x: Dict[Item, float] = {}
        self.y: Dict[Item, float] = {}
        self.order_rows()
        self.place_rows()

    def lead(self, place: int, line: Line, layer: Sequence[int], far: int) -> None:
        """Notes the items through which an edge goes, from above to below."""
        ends = line.tail, line.head
        low, high = ends[::-1] if ends in self.back else ends
        between = range(layer[low] + 1, layer[high]) if layer[high] - layer[low] <= far else []
        passed = [Pass(place, it) for it in between]
        for item in passed:
            self.room[item] = LETTER * 4
            self.rows[item.layer].append(item)
        way: List[Item] = [low, *passed, high]
        for above, below in zip(way, way[1:]):
            self.near[below].above.append(above)
            self.near[above].below.append(below)
            self.pull[above, below] = self.pull[below, above] = line.pull
        self.ways[ends] = way if low == line.tail else way[::-1]

    def order_rows(self) -> None:
        """Each item where the middle of its neighbours is, from above and from below by turns, until nothing moves."""
        place = {item: k for row in self.rows for k, item in enumerate(row)}
        still = 0
        for turn in range(ORDER_TURNS):
            side, moved = turn % 2, False
            for row in self.rows[::-1] if side else self.rows:
                middle = {}
                for item in row:
                    near = [place[it] for it in self.near[item][side]]
                    middle[item] = sum(near) / len(near) if near else place[item]
                row.sort(key=middle.__getitem__)
                for k, item in enumerate(row):
                    moved |= place[item] != k
                    place[item] = k
            still = 0 if moved else still + 1
            if still == 2:
                return

    def place_rows(self) -> None:
        """Each item where its neighbours have it, those more that are along a frequent edge, until nothing moves."""
        rows = []
        for items in self.rows:
            starts = starts_of([self.room[item] for item in items])
            near = [[(it, self.pull[item, it]) for side in self.near[item] for it in side] for item in items]
            weights: List[float] = [sum(pull for _, pull in each) or 1 for each in near]
            rows.append(Row(items, starts, near, weights))
            self.x.update(zip(items, spread([0] * len(items), starts, [1] * len(items))))
        still = 0
        for turn in range(PLACE_TURNS):
            moved = False
            for row in rows[::-1] if turn % 2 else rows:
                moved |= self.place_row(row)
            still = 0 if moved else still + 1
            if still == 2:
                break
        self.settle()

    def place_row(self, row: Row) -> bool:
        """Places a row anew; says whether that changed anything."""
        x = self.x
        wanted = [sum(x[it] * pull for it, pull in each) / weight if each else x[item]
                  for item, each, weight in zip(row.items, row.near, row.weights)]
        found = spread(wanted, row.starts, row.weights)
        moved = any(x[item] != place for item, place in zip(row.items, found))
        x.update(zip(row.items, found))
        return moved

    def settle(self) -> None:
        """Moves all so that the picture begins at 0, and finds its size."""
        left = min(self.x[item] - self.room[item] / 2 for item in self.x)
        self.x = {item: x - left + GAP_X for item, x in self.x.items()}
        self.y = {item: 70 + k * (self.height + GAP_Y) for k, row in enumerate(self.rows) for item in row}
        self.right = max(self.x[item] + self.room[item] / 2 for item in self.x) + GAP_X + 30
        self.bottom = 70 + len(self.rows) * (self.height + GAP_Y)

    def shift(self, more: float) -> None:
        self.x = {item: x + more for item, x in self.x.items()}

    def ports_of(self, number: int) -> Dict[Item, Port]:
        """Where the edges to each neighbour of a block touch it."""
        if number not in self.ports:
            found: Dict[Item, Port] = {}
            for side in self.near[number]:
                times = collections.Counter(side)
                order = sorted(times, key=self.x.__getitem__)
                step = min(18, (self.boxes[number].width - 20) / max(1, len(order)))
                for k, other in enumerate(order):
                    found.setdefault(other, Port((k - (len(order) - 1) / 2) * step, times[other] > 1))
            self.ports[number] = found
        return self.ports[number]

    def port(self, number: int, other: Item, back: bool) -> float:
        """Where the edge between a block and this neighbour touches the block: in the order of the neighbours."""
        place, both = self.ports_of(number)[other]
        return self.x[number] + place + both * (8 if back else -8)

    def way(self, tail: int, head: int) -> List[Point]:
        """The points of an edge between two blocks."""
        back, way = (tail, head) in self.back, self.ways[tail, head]
        points: List[Point] = []
        for item in way:
            top, low = self.y[item], self.y[item] + self.height
            if item == tail:
                points.append(Point(self.port(tail, way[1], back), top if back else low))
            elif item == head:
                points.append(Point(self.port(head, way[-2], back), low + 7 if back else top - 7))
            else:
                points += [Point(self.x[item], low if back else top), Point(self.x[item], top if back else low)]
        return points

    def loop(self, number: int) -> Loop:
        """A block's edge to itself; no block covers its text."""
        box = self.boxes[number]
        x, y = self.x[number] + box.width / 2, self.y[number] + self.height / 2
        return Loop([Point(x, y + 8), Point(x + 20, y), Point(x, y - 8)], Point(x + LOOP + box.loop / 2, y + 4))

    def free(self, x: float, y: float, text: str) -> float:
        """The height nearest to y at which the text meets none before it."""
        half = text_width(text) / 2
        cells = range(int((x - half) // 64), int((x + half) // 64) + 1)
        for height in (y, y + 13, y - 13, y + 26, y - 26, y):
            near = (it for cell in cells for row in (-1, 0, 1) for it in self.texts[cell, int(height // 11) + row])
            if all(abs(height - it.y) > 11 or abs(x - it.x) > half + it.half for it in near):
                break
        for cell in cells:
            self.texts[cell, int(height // 11)].append(Text(x, height, half))
        return height
