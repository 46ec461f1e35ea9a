"""A drawn repair as a picture, which needs no Graphviz."""
import html
from typing import Iterator, Sequence

from pgo_tools.draw.picture import LINE, Box, Layout, Line, Point, text_width
from pgo_tools.draw.repair import Edge, Function
from pgo_tools.draw.style import CHANGED, CUT, NEVER, PLAIN, Stroke, fill, stroke
from pgo_tools.reports.table import times


def text_at(x: float, y: float, text: str, more: str = "") -> str:
    return f'<text x="{x:.0f}" y="{y:.0f}"{more}>{html.escape(text)}</text>'


def arrow(points: Sequence[Point], style: Stroke) -> str:
    """A line through the points: straight where an edge passes a layer, bent between layers."""
    colour, width, broken = style
    path = f"M{points[0].x:.0f} {points[0].y:.0f}"
    for (x, y), (to_x, to_y) in zip(points, points[1:]):
        bend = (to_y - y) / 2
        path += f" C{x:.0f} {y + bend:.0f} {to_x:.0f} {to_y - bend:.0f} {to_x:.0f} {to_y:.0f}"
    dash = ' stroke-dasharray="4 3"' if broken else ""
    mark = {CHANGED: "red", NEVER: "pale"}.get(colour, "grey")
    return (f'<path d="{path}" fill="none" stroke="{colour}" stroke-width="{width:.1f}" '
            f'marker-end="url(#{mark})"{dash}/>')


def svg_edge(function: Function, layout: Layout, edge: Edge) -> Iterator[str]:
    """The line of an edge, then its text."""
    style = stroke(function, edge)
    text = edge.text()
    if edge.tail == edge.head:
        points, (x, height) = layout.loop(edge.tail)
    else:
        points = layout.way(edge.tail, edge.head)
        (x, y), (to_x, to_y) = points[len(points) // 2 - 1 : len(points) // 2 + 1]
        x = (x + to_x) / 2
        height = layout.free(x, (y + to_y) / 2 + 4, text)
    yield arrow(points, style)
    if text:
        half = text_width(text) / 2
        yield (f'<rect x="{x - half:.0f}" y="{height - 11:.0f}" width="{2 * half:.0f}" height="14" '
               f'fill="white" opacity="0.85"/>')
        yield text_at(x, height, text, f' fill="{style.colour}"')


def svg_block(function: Function, layout: Layout, number: int) -> Iterator[str]:
    """A block's box, with what stands in it."""
    block = function.blocks[number]
    x, y = layout.x[number], layout.y[number]
    width, height = layout.boxes[number].width, layout.height
    colour, thick = (CHANGED, 2.5) if block.changed else (PLAIN, 1)
    yield (f'<rect x="{x - width / 2:.0f}" y="{y:.0f}" width="{width:.0f}" height="{height:.0f}" rx="4" '
           f'fill="{fill(function.share(number))}" stroke="{colour}" stroke-width="{thick}"/>')
    for held, side in zip(block.sides, (y, y + height)):
        if held:
            yield f'<path d="M{x - width / 2:.0f} {side:.0f}h{width:.0f}" stroke="{CUT}" stroke-width="6"/>'
    for k, line in enumerate(block.lines(number)):
        yield text_at(x, y + 17 + k * LINE, line, ' font-weight="bold"' if k == 0 else "")


def layout_of(function: Function) -> Layout:
    """Where the function's blocks and edges are drawn."""
    lines = {n: function.blocks[n].lines(n) for n in function.shown}
    loops = {edge.tail: text_width(edge.text()) for edge in function.drawn if edge.tail == edge.head}
    boxes = {n: Box(20 + max(map(text_width, it)), loops.get(n, 0)) for n, it in lines.items()}
    ways = [Line(edge.tail, edge.head, 1 + 9 * (edge.count or 0) / function.busiest)
            for edge in function.drawn if edge.tail != edge.head]
    return Layout(boxes, ways, LINE * max(map(len, lines.values())) + 12)


def svg(function: Function) -> Iterator[str]:
    """The lines of the picture."""
    layout = layout_of(function)
    note = "red: changed by the repair" if function.kind == "flow" else "violet: sides in the cut"
    note = f"darker: runs more often; wider: taken more often; {note}"
    wide = max(layout.right, text_width(function.title()) + 40, text_width(note))
    layout.shift((wide - layout.right) / 2)
    yield from svg_head(function, wide, layout.bottom + 24)
    # The texts stand above all lines.
    drawn = [list(svg_edge(function, layout, edge)) for edge in sorted(function.drawn, key=lambda it: it.count or 0)]
    yield from (parts[0] for parts in drawn)
    yield from (part for parts in drawn for part in parts[1:])
    for number in function.shown:
        yield from svg_block(function, layout, number)
    if function.kind == "flow":
        yield from svg_calls(function, layout)
    yield text_at(wide / 2, layout.bottom + 14, note, f' fill="{PLAIN}"')
    yield "</svg>"


def svg_head(function: Function, wide: float, high: float) -> Iterator[str]:
    yield (f'<svg xmlns="http://www.w3.org/2000/svg" viewBox="0 0 {wide:.0f} {high:.0f}" '
           f'width="{wide:.0f}" height="{high:.0f}" font-family="sans-serif" font-size="12" text-anchor="middle">')
    yield "<defs>"
    for name, colour in (("red", CHANGED), ("grey", PLAIN), ("pale", NEVER)):
        yield (f'<marker id="{name}" viewBox="0 0 8 8" refX="1" refY="4" markerWidth="8" markerHeight="8" '
               f'markerUnits="userSpaceOnUse" orient="auto"><path d="M0 0L8 4L0 8z" fill="{colour}"/></marker>')
    yield f'</defs><rect width="{wide:.0f}" height="{high:.0f}" fill="white"/>'
    yield text_at(wide / 2, 20, function.title(), ' font-size="15"')


def svg_calls(function: Function, layout: Layout) -> Iterator[str]:
    """How often the function is called, and how often it returns from which blocks."""
    x, y = layout.x[0], layout.y[0]
    yield text_at(x, y - 26, times(function.calls(), "call"))
    yield arrow([Point(x, y - 22), Point(x, y - 7)], Stroke(PLAIN, 1, False))
    for number, count in function.returns().items():
        x, y = layout.x[number] - layout.boxes[number].width / 2 + 14, layout.y[number] + layout.height
        yield arrow([Point(x, y), Point(x, y + 14)], Stroke(PLAIN, 1, False))
        yield text_at(x, y + 34, times(count, "return"))
