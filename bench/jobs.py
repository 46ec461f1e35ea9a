"""What bench/peers has done, on what, and by whom: the jobs of each group of rows."""
import argparse
import dataclasses
import glob
import os
import re
import shutil
from typing import Callable, Dict, Iterator, List, NamedTuple, Optional

import turns
from made import HERE, TOP, Lacks, Made, key
from pgo_tools import cli
from pgo_tools.cli import programs
from turns import Call, Cost, Measured

TOOLS = ("llvm-profgen", "llvm-profdata", "llvm-symbolizer")
VERSION = re.compile(r"version (\d+)[.\d]*")


class Tool(NamedTuple):
    """A program of LLVM: its name with its version, in short and whole."""

    who: str
    version: str
    path: str


class Pair(NamedTuple):
    """The two programs of a release."""

    pgo: str
    cold: str


@dataclasses.dataclass(eq=False)
class Job:
    """What is done, on what, and by whom; and what became of that.

    `beyond` is a job whose cost is taken away from this one's, `peer` one whose peers do this one too.
    """

    title: str
    on: str
    calls: List[Call]
    beyond: "Optional[Job]" = None
    peer: "Optional[Job]" = None
    found: Dict[str, Measured] = dataclasses.field(default_factory=dict)

    def has(self, who: str) -> bool:
        """The cost of a call can be told."""
        return who in self.found and not self.found[who].failed and (self.beyond is None or self.beyond.has(who))

    def cost(self, who: str) -> Cost:
        """The cost of a call, beyond that of the other job."""
        cost = self.found[who].least()
        return cost.beyond(self.beyond.cost(who)) if self.beyond else cost

    def cell(self, who: str) -> str:
        """What a call costs, and how many times that of pgo."""
        cost = self.cost(who)
        return turns.shown(cost) + ("" if who == "pgo" else turns.ratios(cost, self.cost("pgo")))

    def cells(self) -> Dict[str, str]:
        """The cells of all who did it, pgo first."""
        if self.peer:
            self.found = {**self.peer.found, **self.found}
        return {who: self.cell(who) for who in self.found if self.has(who)}


def size(path: str) -> str:
    """The size of a file as a text."""
    value = os.path.getsize(path)
    return f"{value / 1e6:,.{0 if value >= 2e7 else 1}f} MB" if value >= 1e6 else f"{value / 1e3:,.0f} KB"


def blocks_told(path: str) -> str:
    """How many functions, blocks and edges a block text has."""
    found = dict.fromkeys((b"func", b"block", b"edge"), 0)
    with open(path, "rb") as file:
        for line in file:
            word = line.partition(b" ")[0]
            if word in found:
                found[word] += 1
    return "{:,} functions, {:,} blocks, {:,} edges".format(*found.values())


def tools(name: str) -> List[Tool]:
    """The programs of LLVM of this name, one of each version, the oldest first."""
    places = [shutil.which(name), *(shutil.which(f"{name}-{version}") for version in range(11, 40))]
    found: Dict[int, Tool] = {}
    for path in filter(None, [*places, *sorted(glob.glob(f"/usr/lib/llvm-*/bin/{name}"))]):
        # llvm-profdata 14 tells it behind a command.
        match = VERSION.search(programs.answer(path, "--version") or programs.answer(path, "merge", "--version"))
        if match:
            found.setdefault(int(match[1]), Tool(f"{name} {match[1]}", match[0].split()[1], path))
    return [found[version] for version in sorted(found)]


def pair_of(*paths: str) -> Pair:
    """The programs at these paths."""
    for path in paths:
        if not programs.is_program(path):
            raise cli.Trouble(f"there is no program {path}", cli.NO_PROGRAM,
                              "git show REVISION:release/pgo >FOLDER/pgo, and chmod +x")
    return Pair(*(os.path.abspath(path) for path in paths))


def pair_in(folder: str) -> Pair:
    """The programs of a folder."""
    return pair_of(f"{folder}/pgo", f"{folder}/pgo-cold")


class Jobs:
    """The jobs of each group, which its method of the same name makes, and what is left out of them."""

    def __init__(self, words: argparse.Namespace, folder: str, scratch: str) -> None:
        self.words, self.scratch, self.made = words, scratch, Made(words, folder, scratch)
        self.left_out: List[str] = []
        self.now = pair_of(os.environ.get("PGO") or f"{TOP}/release/pgo",
                           os.environ.get("PGO_COLD") or f"{TOP}/release/pgo-cold")
        self.before = pair_in(words.before) if words.before else None
        self.tools = {name: tools(name) for name in TOOLS}
        self.base: List[str] = ["--base"] * words.base
        self.options = self.base + [f"--map={name}" for name in words.map]
        # What `build --edges` prints is read by the group behind.
        self.built = self.place("built")

    def place(self, name: str) -> str:
        """A path in the folder that goes with the call."""
        return os.path.join(self.scratch, name)

    def leave_out(self, what: str, why: object) -> None:
        """Notes what is not done, and why, once."""
        line = f"{what}: {why}"
        if line not in self.left_out:
            self.left_out.append(line)

    def both(self, program: str, *words: str, out: str = "") -> List[Call]:
        """The calls of pgo and of the one before. What the first prints may be kept."""
        calls = [Call("pgo", [getattr(self.now, program), *words], out, True)]
        if self.before:
            calls.append(Call("before", [getattr(self.before, program), *words], "", True))
        return calls

    def beside(self, name: str, words: Callable[[Tool], List[str]]) -> List[Call]:
        """The calls of each version of a tool of LLVM; `words` makes what stands behind its name."""
        if self.words.alone:
            return []
        if not self.tools[name]:
            self.leave_out(name, "it is not there")
        return [Call(tool.who, [tool.path, *words(tool)]) for tool in self.tools[name]]

    def profgen(self, text: str, output: str) -> List[str]:
        """The words by which llvm-profgen puts the profile of a text into a file."""
        return ["--format=text", f"--binary={self.made.binary()}", f"--perfscript={text}", f"--output={output}"]

    def profgen_output(self, tool: Tool) -> str:
        """Where the profile of a version of llvm-profgen is put."""
        return self.place(tool.who.replace(" ", "-"))

    def profile(self) -> Iterator[Job]:
        """The whole text: the profile, with cold lines too, and repairs."""
        inputs, kept = [self.made.binary(), self.made.text()], self.place("profile")
        on = f"{size(inputs[0])} of program, {size(inputs[1])} of text"
        peers = self.beside("llvm-profgen", lambda tool: self.profgen(inputs[1], self.profgen_output(tool)))
        plain = Job("`profile`", on, [*self.both("pgo", "profile", *self.options, *inputs, out=kept), *peers])
        yield plain
        yield Job("`pgo-cold profile`", on, self.both("cold", "profile", *self.options, *inputs), peer=plain)
        yield Job("`pgo-cold` of that profile", on, self.both("cold", *self.base, inputs[0], kept))
        try:
            inputs.append(self.made.blocks())
        except Lacks as why:
            self.leave_out("`build`", why)
            return
        told = blocks_told(inputs[2])
        for words, out in ((["build"], ""), (["build", "--edges"], self.built), (["build", "--scaled"], "")):
            calls = self.both("pgo", *words, *self.options, *inputs, out=out)
            yield Job(f"`{' '.join(words)}` beyond `profile`", told, calls, plain)

    def check(self) -> Iterator[Job]:
        """What `build` printed, read again."""
        blocks, binary = self.made.blocks(), self.made.binary()
        if not os.path.exists(self.built):
            words = [self.now.pgo, "build", "--edges", *self.options, binary, self.made.text(), blocks]
            self.made.printed(words, self.built)
        on = f"{blocks_told(blocks)}, {size(self.built)} of repairs"
        yield Job("`check`", on, self.both("pgo", "check", blocks, self.built))
        lifts = self.both("pgo", "lift", *self.base, binary, blocks, self.built)
        yield Job("`lift`", f"the same, {size(binary)} of program", lifts)

    def five(self) -> Iterator[Job]:
        """What does not depend on the text: five lines of it, and one address."""
        binary, text = self.made.binary(), self.made.five()
        on = f"{size(binary)} of program"
        peers = self.beside("llvm-profgen", lambda _: self.profgen(text, self.place("peer")))
        ours = self.both("pgo", "profile", *self.options, binary, text)
        yield Job("`profile`, five lines", on, [*ours, *peers, *self.scan()])
        try:
            address = self.made.address()
        except Lacks as why:
            self.leave_out("`where`", why)
            return
        peers = self.beside("llvm-symbolizer", lambda _: [f"--obj={binary}", f"0x{address}"])
        yield Job("`where`, one address", on, [*self.both("pgo", "where", *self.base, binary, address), *peers])

    def scan(self) -> List[Call]:
        """The call of the straight C program that reads a binary, if one is named."""
        if not self.words.scan or self.words.alone:
            return []
        try:
            scan = [self.made.compiled(self.words.scan), "keep", self.made.binary()]
            return [Call("a straight C program, reading alone", scan)]
        except Lacks as why:
            self.leave_out(self.words.scan, why)
            return []

    def merge(self) -> Iterator[Job]:
        """Eight profiles of one program."""
        fleet = self.made.fleet()
        pairs = [word for path in fleet for word in ("1", path)]
        theirs = ["merge", "--sample", "--text", *fleet, "-o", self.place("peer")]
        peers = self.beside("llvm-profdata", lambda _: theirs)
        yield Job("`merge`", f"eight profiles, {size(fleet[0])} each", [*self.both("pgo", "merge", *pairs), *peers])

    def one(self) -> Iterator[Job]:
        """One large profile."""
        path = programs.as_file(self.words.profile) if self.words.profile else self.large_profile()
        on = f"one profile, {size(path)}"
        peers = self.beside("llvm-profdata", lambda _: ["merge", "--sample", "--text", path, "-o", self.place("peer")])
        yield Job("`merge 1`", on, [*self.both("pgo", "merge", "1", path), *peers])
        # With the name of a function the summary is printed, and not the whole profile.
        shows = ["show", "--sample", "--detailed-summary", "--function=main", path]
        peers = self.beside("llvm-profdata", lambda _: shows)
        yield Job("`summary`", on, [*self.both("pgo", "summary", path), *peers])

    def large_profile(self) -> str:
        """The profile of the text by the oldest llvm-profgen, which may be there by now; without one a made-up one."""
        if not (self.tools["llvm-profgen"] and self.words.rest):
            return self.made.fleet()[0]
        tool, (binary, text) = self.tools["llvm-profgen"][0], self.words.rest
        there = self.profgen_output(tool)

        def make(new: str) -> None:
            if os.path.exists(there):
                shutil.copyfile(there, new)
            else:
                self.made.printed([tool.path, *self.profgen(text, new)], os.devnull)
        return self.made.made(f"{key(binary)}.{key(text)}.{os.path.basename(there)}", make)

    def counts(self) -> Iterator[Job]:
        """A text alone, beside a straight C program that prints the same."""
        straight = None if self.words.alone else self.made.compiled(f"{HERE}/counts.c")
        for kinds in self.made.sizes.kinds:
            text = self.made.kinds(kinds)
            peers = [Call("a straight C program", [straight, text], "", True)] if straight else []
            on = f"{size(text)} of text, up to {kinds:,} kinds of branches"
            yield Job("`counts`", on, [*self.both("pgo", "counts", text), *peers])

    def make(self) -> Iterator[Job]:
        """Sums that pgo makes itself."""
        number = self.made.sizes.made
        yield Job(f"`make {number} sum`", "", self.both("pgo", "make", str(number), "sum"))
