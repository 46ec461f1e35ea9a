"""Compares the code that pgo_tools.blocks reads from objdump's text with capstone: instruction starts, and the flow."""
import dataclasses
import re
from typing import Dict, Iterator, List, NamedTuple, Optional, Tuple

import capstone  # type: ignore[import]

from pgo_tools.blocks import flow
from pgo_tools.blocks.flow import BRANCH, CALL, JUMP, POINTER, RETURN, STOP, TO_STRANGER, Flow, Reader
from pgo_tools.blocks.program import EXECUTE, Functions, Program, Refused

KINDS = {JUMP: "jump", BRANCH: "branch", RETURN: "return", CALL: "call", POINTER: "jump by a pointer", STOP: "stop"}
# An instruction of objdump's text, or the sign that bytes of zero are left out.
LINE = re.compile(rb"^ *([0-9a-f]+):\t(.*)$|^\t\.\.\.$", re.M)
NUMBER = re.compile(r"0x[0-9a-f]+|[0-9]")
SLOT = re.compile(r"(?:[a-z]+ ptr )?\[rip(?: ([+-]) (0x[0-9a-f]+|[0-9]))?\]")
STOPS = ("hlt", "ud0", "ud1", "ud2", "ud2b", "int3", "sysexit")


class Difference(NamedTuple):
    """A place, both answers, and whether both know the instructions there."""

    place: str
    ours: str
    theirs: str
    is_known: bool


@dataclasses.dataclass
class Totals:
    """How much was compared: instructions, those that do not simply go on, and those that one of both does not know."""

    instructions: int = 0
    flows: int = 0
    unknown: int = 0


class Instruction(NamedTuple):
    """An instruction as capstone has it."""

    address: int
    size: int
    name: str
    operands: str


class Run(NamedTuple):
    """Instructions of objdump's text without a gap, by address, and where the last one ends if that is known."""

    lines: Dict[int, bytes]
    end: Optional[int]


class WholeSections(Functions):
    """Sections of code in place of functions, for a program without symbols of functions."""

    def __init__(self, program: Program) -> None:
        code = [it for it in program.loaded if it.flags & EXECUTE]
        self.entries = [it.address for it in code]
        self.ends = [it.address + it.size for it in code]
        self.names = [[it.name] for it in code]
        self.parents = {}


def runs(text: bytes, end: int) -> Iterator[Run]:
    """Divides the text of a piece at bytes that objdump leaves out."""
    lines: Dict[int, bytes] = {}
    for match in LINE.finditer(text):
        if match[1]:
            lines[int(match[1], 16)] = match[2]
        elif lines:
            yield Run(lines, None)
            lines = {}
    if lines:
        yield Run(lines, end)


class Second:
    """Reads code with capstone, and gives its flow as our reader does."""

    def __init__(self, program: Program, reader: Reader) -> None:
        self.program, self.reader = program, reader
        self.quick = capstone.Cs(capstone.CS_ARCH_X86, capstone.CS_MODE_64)
        self.quick.skipdata = True
        self.detailed = capstone.Cs(capstone.CS_ARCH_X86, capstone.CS_MODE_64)
        self.detailed.detail = True
        self.kinds: Dict[str, Optional[int]] = {}

    def instructions(self, data: bytes, address: int) -> List[Instruction]:
        """Returns the instructions of some bytes, with `wait` as a prefix of x87 instructions, as objdump has it."""
        found: List[Instruction] = []
        for row in map(Instruction._make, self.quick.disasm_lite(data, address)):
            if found and found[-1].name == "wait" and row.name.startswith("f"):
                row = row._replace(address=found[-1].address, size=row.size + found.pop().size)
            found.append(row)
        return found

    def kind(self, one: Instruction) -> Optional[int]:
        """Returns the kind of an instruction, or None if it simply goes on at the next."""
        if one.name not in self.kinds:
            data = self.program.read(one.address, one.size)
            held = next(self.detailed.disasm(data, one.address, 1), None)
            self.kinds[one.name] = self.kind_of(one.name.split()[-1], held.groups) if held else None
        return self.kinds[one.name]

    @staticmethod
    def kind_of(name: str, groups: List[int]) -> Optional[int]:
        if name in STOPS:
            return STOP
        if name.startswith("loop"):
            return BRANCH  # capstone puts it into no group
        if capstone.CS_GRP_CALL in groups:
            return CALL
        if capstone.CS_GRP_RET in groups or capstone.CS_GRP_IRET in groups:
            return RETURN
        if capstone.CS_GRP_JUMP in groups:
            return JUMP if name.endswith("jmp") else BRANCH
        return None

    def flow(self, one: Instruction) -> Optional[Flow]:
        kind, following = self.kind(one), one.address + one.size
        if kind not in (JUMP, BRANCH, CALL):
            return None if kind is None else Flow(one.address, following, kind, TO_STRANGER)
        if NUMBER.fullmatch(one.operands):
            return Flow(one.address, following, kind, self.reader.settled(int(one.operands, 0)))
        match = SLOT.fullmatch(one.operands)
        target = self.by_slot(following + int((match[1] or "+") + (match[2] or "0"), 0)) if match else None
        if target is None:
            return Flow(one.address, following, CALL if kind == CALL else POINTER, TO_STRANGER)
        return Flow(one.address, following, kind, target)

    def by_slot(self, slot: int) -> Optional[int]:
        """Returns where a pointer of the program leads that stays what it is, or None."""
        if slot in self.program.slots:
            return self.reader.stranger(self.program.slots[slot])
        value = self.program.word(slot) if self.program.is_fixed(slot) else None
        return self.reader.settled(value) if value else None


def shown(row: Optional[Flow]) -> str:
    if row is None:
        return "goes on"
    target = hex(row.target) if row.target >= 0 else "nowhere" if row.target == flow.TO_NOWHERE else "elsewhere"
    return f"{KINDS[row.kind]} to {target}, next {row.following:#x}"


def differences(path: str, totals: Totals) -> Iterator[Difference]:
    """Returns all that differs in the code of a program."""
    program = Program(path)
    try:
        functions = Functions(program)
    except Refused:
        functions = WholeSections(program)
    reader = Reader(program, functions)
    second = Second(program, reader)
    held: Optional[flow.Piece] = None
    for piece in [*flow.printed(program, path), None]:
        if held is not None:
            section = program.section_of(held.address)
            end = section.address + section.size if section else held.address
            if piece is not None and held.address < piece.address < end:
                end = piece.address
            yield from of_piece(program, second, held, end, totals)
        held = piece


def of_piece(program: Program, second: Second, piece: flow.Piece, end: int, totals: Totals) -> Iterator[Difference]:
    """Compares the code of one symbol, which ends at `end`."""
    ours = {row.address: row for row in second.reader.flow(piece.text, end)}
    for run in runs(piece.text, end):
        first, last = min(run.lines), max(run.lines)
        stop = end if run.end is None else run.end
        theirs = second.instructions(program.read(first, stop - first) or b"", first)
        if run.end is None:
            theirs = [it for it in theirs if it.address <= last]
        totals.instructions += len(run.lines)
        starts = {it.address: it for it in theirs}
        differing = apart(run, starts, stop)
        for low, high in differing:
            yield divided(run, starts, low, high, totals)
        for one in theirs:
            if any(low <= one.address < high for low, high in differing):
                continue
            row, other = ours.get(one.address), second.flow(one)
            totals.flows += other is not None
            if row != other:
                if row and other and row._replace(following=0) == other._replace(following=0) and one.address == last:
                    continue  # zeros follow, which objdump leaves out
                yield Difference(f"{one.address:#x}", shown(row), f"{shown(other)} ({one.name} {one.operands})", True)


def apart(run: Run, starts: Dict[int, Instruction], stop: int) -> List[Tuple[int, int]]:
    """Returns the stretches in which instructions begin at different addresses, or that one of both does not know."""
    found: List[Tuple[int, int]] = []
    common = sorted(run.lines.keys() & starts.keys())
    alone = sorted(run.lines.keys() ^ starts.keys())
    unknown = {at for at in common if b"(bad)" in run.lines[at] or starts[at].name == ".byte"}
    k = 0
    for low, high in zip(common, [*common[1:], stop]):
        begun = k
        while k < len(alone) and alone[k] < high:
            k += 1
        if k > begun or low in unknown:
            found.append((low, high))
    return found


def divided(run: Run, starts: Dict[int, Instruction], low: int, high: int, totals: Totals) -> Difference:
    """Returns the difference in a stretch."""
    ours = [(at, run.lines[at].decode(errors="replace")) for at in sorted(run.lines) if low <= at < high]
    theirs = [it for at, it in sorted(starts.items()) if low <= at < high]
    is_known = all("(bad)" not in text for _, text in ours) and all(it.name != ".byte" for it in theirs)
    totals.unknown += not is_known
    return Difference(f"{low:#x}", "; ".join(" ".join(f"{at:#x} {text}".split()) for at, text in ours),
                      "; ".join(f"{it.address:#x} {it.name} {it.operands}".strip() for it in theirs), is_known)
