"""Runs a tree on this machine: parts side by side, each in a process of its own, which ends with this one."""
import contextlib
import heapq
import json
import os
import selectors
import signal
import traceback
from types import TracebackType
from typing import Dict, Iterator, List, NamedTuple, Optional, Tuple, Type

from pgo_tools.cli import FAILED, HEARD, NO_FILE, NO_MEMORY, READ_FAULT, REFUSED, Stopped, Trouble, fault, say
from pgo_tools.fleet import parts
from pgo_tools.fleet.children import end_with
from pgo_tools.fleet.tree import Part, Tree

# After these faults, which are those of files, the other parts are made all the same, so that each file is named.
OF_FILES = (NO_FILE, REFUSED, READ_FAULT)


class Outcome(NamedTuple):
    """How a part ended: its status, and what is said of it, each with what helps."""

    status: int
    said: List[Tuple[str, str]]


class Ended(NamedTuple):
    """A part that a process made, or failed to make."""

    part: Part
    outcome: Outcome


class Job(NamedTuple):
    """A process that makes a part, the pipe that its outcome comes by, and the pieces that came."""

    part: Part
    pid: int
    pipe: int
    pieces: List[bytes]


def outcome(tree: Tree, part: Part, pgo: str) -> Outcome:
    """Makes a part, and tells how that ended."""
    try:
        parts.make(tree, part, pgo)
        return Outcome(0, [])
    except Trouble as reason:
        return Outcome(reason.status, reason.said())
    except OSError as reason:
        status, said = fault(reason)
        return Outcome(status, [(said, "")])
    except MemoryError:
        return Outcome(NO_MEMORY, [("no memory", "fewer jobs at once (-j)")])
    except Exception:  # A mistake of this script: told whole.
        return Outcome(FAILED, [(line, "") for line in traceback.format_exc().splitlines()])


def begin(tree: Tree, part: Part, pgo: str) -> Job:
    """Starts a process that makes a part."""
    reading, writing = os.pipe()
    parent = os.getpid()
    # A signal that comes between the two processes' first steps waits until each knows which it is.
    signal.pthread_sigmask(signal.SIG_BLOCK, HEARD)
    pid = os.fork()
    if pid:
        os.close(writing)
        return Job(part, pid, reading, [])
    try:
        end_with(parent, signal.SIGTERM)
        signal.pthread_sigmask(signal.SIG_UNBLOCK, HEARD)
        told = outcome(tree, part, pgo)
        with os.fdopen(writing, "w", encoding="ascii") as pipe:
            json.dump(told, pipe)
    except Stopped:
        pass
    finally:
        os._exit(0)


class Jobs:
    """The processes that run. Left by any way, none of them goes on."""

    def __init__(self) -> None:
        self.running = selectors.DefaultSelector()
        self.held: Dict[int, Job] = {}

    def __enter__(self) -> "Jobs":
        return self

    def __exit__(
        self, _kind: Optional[Type[BaseException]], _value: Optional[BaseException], _trace: Optional[TracebackType]
    ) -> None:
        for job in self.held.values():
            with contextlib.suppress(ProcessLookupError):
                os.kill(job.pid, signal.SIGTERM)
        for job in self.held.values():
            with contextlib.suppress(ChildProcessError):
                os.waitpid(job.pid, 0)

    def start(self, tree: Tree, part: Part, pgo: str) -> None:
        """Begins a part. A signal that came meanwhile is heard once its process can be ended, too."""
        job = begin(tree, part, pgo)
        self.held[job.pipe] = job
        self.running.register(job.pipe, selectors.EVENT_READ)
        signal.pthread_sigmask(signal.SIG_UNBLOCK, HEARD)

    def ended(self) -> Iterator[Ended]:
        """Waits for processes that have ended: each part with its outcome."""
        for key, _ in self.running.select():
            piece = os.read(key.fd, 1 << 16)
            if piece:
                self.held[key.fd].pieces.append(piece)
                continue
            self.running.unregister(key.fd)
            os.close(key.fd)
            job = self.held[key.fd]
            _, how = os.waitpid(job.pid, 0)
            del self.held[key.fd]
            yield Ended(job.part, read(job.part, how, b"".join(job.pieces)))


def read(part: Part, how: int, told: bytes) -> Outcome:
    """What a process told of its part. One that told nothing was ended from outside."""
    try:
        status, said = json.loads(told)
    except ValueError:
        by = f"by signal {os.WTERMSIG(how)}" if os.WIFSIGNALED(how) else "before its end"
        return Outcome(FAILED, [(f"part {part} was ended {by}", "--resume goes on with what is done")])
    return Outcome(status, [(what, helps) for what, helps in said])


def run(tree: Tree, jobs: int, pgo: str, lasting: bool = True) -> int:
    """Makes the missing parts of a tree, so many side by side, and puts the sum of all in place. Returns the status."""
    faults = make_missing(tree, jobs, pgo)
    if not faults:
        parts.put_out(tree, lasting)
        return 0
    for _, told in sorted(faults.items()):
        for what, helps in told.said:
            say(what, helps)
    return min(faults.items())[1].status


def order(part: Part) -> Tuple[int, int]:
    """The order in which parts that can be made are begun: high levels first, whose parts below then go."""
    return -part.level, part.number


def make_missing(tree: Tree, jobs: int, pgo: str) -> Dict[Part, Outcome]:
    """Makes what is missing of a tree: the parts that failed, each with its outcome."""
    todo = parts.missing(tree)
    waits = {part: sum(1 for each in todo if tree.above(each) == part) for part in todo if part.level > 1}
    ready = [(order(part), part) for part in todo if not waits.get(part)]
    heapq.heapify(ready)
    faults: Dict[Part, Outcome] = {}
    with Jobs() as running:
        while ready or running.held:
            while ready and len(running.held) < jobs and all(each.status in OF_FILES for each in faults.values()):
                running.start(tree, heapq.heappop(ready)[1], pgo)
            if not running.held:
                break
            for part, told in running.ended():
                above = tree.above(part)
                if told.status:
                    faults[part] = told
                elif above in waits:
                    waits[above] -= 1
                    if not waits[above]:
                        heapq.heappush(ready, (order(above), above))
    return faults
