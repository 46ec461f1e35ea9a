"""The solver on made-up networks beside the solvers of LEMON, a library of C++: rows of bench/peers."""
import os
import re
from typing import Callable, Dict, List, NamedTuple, Tuple

import turns
from made import HERE, Lacks, Made
from pgo_tools.cli import programs
from turns import Call

LEMON = ("CapacityScaling", "CostScaling", "NetworkSimplex")
# What a solver prints: the cost, and LEMON's the milliseconds besides.
COST, LEMON_COST = re.compile(rb"of cost (\d+)"), re.compile(rb"(\d+) ([\d.]+)")
VERSION = re.compile(r'LEMON_VERSION "([^"]*)"')


class Network(NamedTuple):
    """A network of solver_bench, how often it is solved to take the mean, and how often by LEMON."""

    title: str
    shape: str
    number: int
    times: int
    peer_times: int


LARGE = [
    Network("ten thousand functions, of the sizes of a program's", "compiled", 10_000, 10, 10),
    Network("a thousand functions of 5 to 200 blocks", "mixed", 1000, 10, 10),
    Network("100 blocks that jump", "jumps", 100, 10_000, 1000),
    Network("100 blocks of choices of two ways", "diamonds", 100, 10_000, 1000),
    Network("50,000 blocks that jump", "jumps", 50_000, 2, 1),
    Network("50,000 blocks of choices of two ways", "diamonds", 50_000, 10, 1),
    Network("a chain of 65,536 blocks", "chain", 65_536, 20, 1),
]
SMALL = [Network("100 blocks of choices of two ways", "diamonds", 100, 1000, 1000)]


class Solved(NamedTuple):
    """The milliseconds that each solver takes to solve a network once, and why one does not."""

    times: Dict[str, float]
    failed: Dict[str, str]


class Key(NamedTuple):
    """A solver, and how often it solves a network in one call."""

    who: str
    times: int


class Solvers:
    """The programs that solve: pgo's in crates/solver_bench, and LEMON's where it is installed."""

    def __init__(self, made: Made, path: str, is_alone: bool = False) -> None:
        if not programs.is_program(path):
            raise Lacks(f"there is no {path}: `rt run` in crates/solver_bench builds it")
        self.own, self.scratch, self.lemon, self.lacks = os.path.abspath(path), made.scratch, "", ""
        try:
            self.lemon = "" if is_alone else made.compiled(f"{HERE}/lemon.cc", "-std=c++17")
        except Lacks as why:
            self.lacks = f"{why} (Debian: liblemon-dev)"

    def calls(self, network: Network) -> Dict[Key, Call]:
        """What is run by turns. Of a network it takes as long to make it once and to solve it so many times more."""
        words = [self.own, network.shape, str(network.number)]
        calls: Dict[Key, Call] = {}
        more: Tuple[str, ...]
        for who, more in (("solve", ()), ("solve_scaled", ("scaled",))):
            for times in (1, 1 + network.times):
                out = os.path.join(self.scratch, who)
                calls[Key(who, times)] = Call(f"{who}, {times} times", [*words, str(times), *more], out)
        for who in LEMON if self.lemon else ():
            words = [self.lemon, who, network.shape, str(network.number), str(network.peer_times)]
            calls[Key(who, 0)] = Call(who, words, os.path.join(self.scratch, who))
        return calls

    def solve(self, network: Network, count: int, tell: Callable[[int, str, str], object]) -> Solved:
        """How long each solver takes. All have to come to the same cost."""
        calls = self.calls(network)
        costs: Dict[str, int] = {}
        told: Dict[str, float] = {}
        keys = list(calls)

        def hear(turn: int, at: int, said: str) -> None:
            who, call = keys[at].who, calls[keys[at]]
            tell(turn, call.who, said)
            with open(call.out, "rb") as file:
                printed = (LEMON_COST if who in LEMON else COST).search(file.read())
            if printed:
                costs[who] = int(printed[1])
            if printed and who in LEMON:
                told[who] = min(float(printed[2]), told.get(who, float("inf")))

        measured = dict(zip(keys, turns.by_turns(list(calls.values()), count, self.scratch, hear)))
        failed = {who: held.failed for (who, _), held in measured.items() if held.failed}
        wrong = {who: cost for who, cost in costs.items() if cost != costs.get("solve")}
        failed.update((who, f"it comes to the cost {cost}") for who, cost in wrong.items())
        for who in ("solve", "solve_scaled"):
            if who not in failed:
                often, once = (measured[Key(who, times)].least() for times in (1 + network.times, 1))
                told[who] = 1000 * (often.seconds - once.seconds) / network.times
        return Solved({who: told[who] for who in sorted(told) if who not in failed}, failed)


def shown(value: float) -> str:
    """Milliseconds as a text."""
    return f"{value:,.0f} ms" if value >= 100 else f"{value:.1f} ms" if value >= 1 else f"{value:.3f} ms"


def peers_shown(times: Dict[str, float], ours: float) -> str:
    """What the others take, and how many times as long as ours."""
    ratios = {who: f" ({turns.ratio(value, ours)})" if ours > 0 else "" for who, value in times.items()}
    return "; ".join(f"{who}: {shown(value)}{ratios[who]}" for who, value in times.items())


def versions() -> List[str]:
    """The version of LEMON, if it is installed."""
    try:
        with open("/usr/include/lemon/config.h", encoding="utf-8") as file:
            return [f"LEMON {version}" for version in VERSION.findall(file.read())]
    except OSError:
        return []
