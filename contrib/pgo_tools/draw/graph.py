"""A drawn repair as a graph for Graphviz."""
from typing import Iterator

from pgo_tools.draw.repair import Function, drawable
from pgo_tools.draw.style import CHANGED, CUT, PLAIN, fill, stroke
from pgo_tools.reports.table import times


def quoted(text: str) -> str:
    return '"' + text.replace("\\", "\\\\").replace('"', '\\"') + '"'


def dot(function: Function) -> Iterator[str]:
    """The lines of the graph."""
    yield f"digraph {quoted(drawable(function.name))} {{"
    yield f'  graph [label={quoted(function.title())} labelloc=t fontname="sans-serif"]'
    yield '  node [shape=box style=filled fontname="sans-serif" fontsize=10]'
    yield '  edge [fontname="sans-serif" fontsize=10]'
    for number in function.shown:
        yield f"  b{number} {box(function, number)}"
    for edge in function.drawn:
        colour, width, broken = stroke(function, edge)
        style = " style=dashed" if broken else ""
        yield (f'  b{edge.tail} -> b{edge.head} [label="{edge.text()}" color="{colour}" penwidth={width:.1f} '
               f'weight={round(width * 2)}{style}]')
    if function.kind == "flow":
        yield "  node [shape=plaintext style=solid]"
        yield f"  calls [label={quoted(times(function.calls(), 'call'))}]"
        yield "  calls -> b0"
        for number, count in function.returns().items():
            yield f"  r{number} [label={quoted(times(count, 'return'))}]"
            yield f"  b{number} -> r{number}"
    yield "}"


def box(function: Function, number: int) -> str:
    """The look of a block."""
    block = function.blocks[number]
    lines = block.lines(number) + [f"in the cut: {' and '.join(block.sides.names())}"] * any(block.sides)
    colour, width = (CHANGED, 2) if block.changed else (CUT, 3) if any(block.sides) else (PLAIN, 1)
    text = "\\n".join(quoted(line)[1:-1] for line in lines)
    return f'[label="{text}" fillcolor="{fill(function.share(number))}" color="{colour}" penwidth={width}]'
