"""Measures calls, one after the other in turns: the processor's seconds and the most memory held."""
import os
import resource
import signal
import subprocess
import sys
import zlib
from typing import Callable, List, NamedTuple, Optional, Sequence, Set

sys.path.insert(0, os.path.join(os.path.dirname(os.path.realpath(__file__)), "../contrib"))
from pgo_tools.cli import programs  # noqa: E402
from pgo_tools.texts.names import text_of  # noqa: E402

# What takes so many seconds is not called again.
ONCE_ABOVE = 60
# What takes fewer seconds is compared with nothing.
LEAST_COMPARED = 0.05


class Call(NamedTuple):
    """The words of a program, who it is in the table, and the file that takes its output ("": one that is not kept).

    Those of a job with `is_same` have to print the same bytes.
    """

    who: str
    words: List[str]
    out: str = ""
    is_same: bool = False


class Printed(NamedTuple):
    """The size of a file and its CRC."""

    size: int
    crc: int


class Cost(NamedTuple):
    """Seconds of a processor, `user` of them in user mode, and bytes of memory; None if these are too few to see."""

    seconds: float
    memory: Optional[int]
    user: float = 0.0

    def beyond(self, other: "Cost") -> "Cost":
        """What this costs more than another."""
        memory = None if self.memory is None or other.memory is None else self.memory - other.memory
        return Cost(self.seconds - other.seconds, memory)


class Measured:
    """What became of a call in all its turns: its costs, the sums of what it printed, and why it failed, if it did."""

    def __init__(self) -> None:
        self.costs: List[Cost] = []
        self.sums: Set[Optional[Printed]] = set()
        self.failed = ""

    def least(self) -> Cost:
        """The least seconds, and the least of what it held at most."""
        held = [cost.memory for cost in self.costs if cost.memory is not None]
        return Cost(min(cost.seconds for cost in self.costs), min(held) if len(held) == len(self.costs) else None)

    def is_done(self) -> bool:
        """It is not called again."""
        return bool(self.failed) or any(cost.seconds > ONCE_ABOVE for cost in self.costs)


def own_memory() -> int:
    """The most memory that this script held: a program starts as a copy of it, and the system tells no less of any."""
    return resource.getrusage(resource.RUSAGE_SELF).ru_maxrss * 1024


class Ended(NamedTuple):
    """The status of a program, and its cost."""

    status: int
    cost: Cost


def run(words: List[str], out: str, err: str) -> Ended:
    """Runs a program, with what it prints in these files."""
    with open(out, "wb") as printed, open(err, "wb") as said:
        with programs.running(words, stdin=subprocess.DEVNULL, stdout=printed, stderr=said) as process:
            _, ended, used = os.wait4(process.pid, 0)
            process.returncode = os.waitstatus_to_exitcode(ended)
    memory = used.ru_maxrss * 1024
    held = memory if memory > own_memory() else None
    return Ended(process.returncode, Cost(used.ru_utime + used.ru_stime, held, used.ru_utime))


def reason(status: int, err: str) -> str:
    """Why a program failed: the first line that it said."""
    with open(err, "rb") as file:
        said = text_of(file.readline(200)).strip()
    how = f"it ended by {signal.Signals(-status).name}" if status < 0 else f"it ended with {status}"
    return f"{how}: {said}" if said else how


def sum_of(path: str) -> Printed:
    """The size of a file and its CRC, read piece by piece, as this script has to stay small."""
    found, size = 0, 0
    with open(path, "rb") as file:
        while piece := file.read(1 << 16):
            found, size = zlib.crc32(piece, found), size + len(piece)
    return Printed(size, found)


def take(call: Call, held: Measured, scratch: str) -> str:
    """One turn of a call: what is to be said of it."""
    out, err = call.out or os.path.join(scratch, "out"), os.path.join(scratch, "err")
    status, cost = run(call.words, out, err)
    if status:
        held.failed = reason(status, err)
        return held.failed
    held.costs.append(cost)
    held.sums.add(sum_of(out) if call.is_same else None)
    return shown(cost)


def by_turns(
    calls: Sequence[Call], turns: int, scratch: str, told: Callable[[int, int, str], object]
) -> List[Measured]:
    """Runs calls one after the other, so many times: what became of each, in their order.

    Each is told as it ends, by its turn and its place.
    """
    measured = [Measured() for _ in calls]
    for turn in range(1, turns + 1):
        for at, held in enumerate(measured):
            if not held.is_done():
                told(turn, at, take(calls[at], held, scratch))
    return measured


def seconds(value: float) -> str:
    """Seconds as a text."""
    return f"{value:,.1f} s" if abs(value) >= 10 else f"{value:.2f} s"


def memory(value: Optional[int]) -> str:
    """Bytes as megabytes, or what they are below."""
    return f"below {own_memory() / 1e6:.0f} MB" if value is None else f"{value / 1e6:,.0f} MB"


def shown(cost: Cost) -> str:
    """A cost as a text."""
    return f"{seconds(cost.seconds)}, {memory(cost.memory)}"


def ratio(value: float, by: float) -> str:
    """How many times another value one is, as a text."""
    return f"{value / by:.2f}" if value < 10 * by else f"{value / by:.1f}"


def ratios(cost: Cost, ours: Cost) -> str:
    """How many times the time and the memory of ours, where these are not too small to tell."""
    if ours.seconds < LEAST_COMPARED:
        return ""
    by_memory = ""
    if cost.memory and ours.memory and ours.memory > 0:
        by_memory = f", {ratio(cost.memory, ours.memory)}"
    return f" ({ratio(cost.seconds, ours.seconds)}{by_memory})"
