#!/usr/bin/env python3
"""fleet.py PROFILES FUNCTIONS FOLDER: the profiles of so many machines that all run one made-up program.

They are FOLDER/1.prof and so on.

The program has FUNCTIONS functions with names as of C++. A machine has sampled 24 of 25 of them, each with four lines
of text on average: its own, lines of it, some with targets, and inlined calls with a line or two. Totals are those of
the lines. The same words make the same bytes.
"""
import os
import random
import sys
from typing import List, NamedTuple, Sequence

WORDS = "arena buffer cache codec cursor digest edge frame graph hash index journal kernel lexer matrix node".split()


class Function:
    """What all machines share: the name, and where its lines and calls are."""

    def __init__(self, draw: random.Random, number: int) -> None:
        space, kind, verb = draw.choice(WORDS), draw.choice(WORDS), draw.choice(WORDS)
        inner = f"{kind}_{number}"
        spelled = "".join(f"{len(each)}{each}" for each in (space, inner, verb))
        self.name = f"_ZN{spelled}ERKNS_6StatusERNSt3mapINS_4NameENS_5ValueEEEm"
        bodies = range(draw.choice([1, 1, 2, 3]))
        self.bodies = {(draw.randrange(200), draw.choice([0, 0, 0, 1, 2, 14])) for _ in bodies}
        self.calls = {draw.randrange(200): draw.choice([1, 1, 2]) for _ in range(draw.choice([0, 0, 0, 1, 2]))}
        self.called = draw.random() < 0.7


class Lines(NamedTuple):
    """The lines of a function, and the sum of their counts."""

    total: int
    lines: List[str]


def lines_of(draw: random.Random, function: Function, names: Sequence[str]) -> Lines:
    """The lines of a machine: deeper by a space than what they belong to."""
    made: List[str] = []
    total = 0
    for offset, disc in sorted(function.bodies):
        count = int(draw.paretovariate(0.6)) % 10**9
        targets = draw.sample(names, draw.choice([1, 1, 2])) if function.called and offset % 2 else []
        times = sorted((-draw.randrange(1, 1 + count), name) for name in targets)
        told = "".join(f" {name}:{-less}" for less, name in times)
        made.append(f" {offset}{f'.{disc}' if disc else ''}: {count}{told}\n")
        total += count
    for offset, lines in sorted(function.calls.items()):
        counts = [1 + int(draw.paretovariate(0.6)) % 10**9 for _ in range(lines)]
        made.append(f" {offset}: {names[offset % len(names)]}:{sum(counts)}\n")
        made += [f"  {3 * at}: {count}\n" for at, count in enumerate(counts)]
        total += sum(counts)
    return Lines(total, made)


def profile(functions: Sequence[Function], names: Sequence[str], machine: int) -> str:
    """What one machine has sampled."""
    draw = random.Random(machine)
    made = []
    for function in functions:
        if draw.random() < 0.96:
            total, lines = lines_of(draw, function, names)
            made.append((-total, function.name, draw.randrange(1 + total), lines))
    return "".join(f"{name}:{-total}:{head}\n{''.join(lines)}" for total, name, head, lines in sorted(made))


def main() -> None:
    if sys.argv[1:2] in (["-h"], ["--help"]):
        print(__doc__.strip())
        return
    profiles, count, folder = int(sys.argv[1]), int(sys.argv[2]), sys.argv[3]
    draw = random.Random(0)
    functions = [Function(draw, number) for number in range(count)]
    names = [function.name for function in functions]
    os.makedirs(folder, exist_ok=True)
    for machine in range(1, profiles + 1):
        with open(f"{folder}/{machine}.prof", "w", encoding="ascii") as file:
            file.write(profile(functions, names, machine))


main()
