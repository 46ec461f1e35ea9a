"""The functions of a program by the map of basic blocks that clang writes."""
import struct
from typing import Dict, List, NamedTuple, Set

from pgo_tools.blocks.exceptions import Bytes
from pgo_tools.blocks.program import Program, Refused
from pgo_tools.blocks.row import Row, Rows
from pgo_tools.elf import FAULTS

BLOCK_MAP = 0x6FFF4C0A
# What the map says of a block, bit by bit.
RETURNS, TAIL_CALL, IS_PAD, FALLS_THROUGH, IS_INDIRECT = 1, 2, 4, 8, 16


class Block(NamedTuple):
    """A block of the map: its number, its addresses, and the bits that say what it is."""

    number: int
    low: int
    high: int
    what: int


class Function(NamedTuple):
    """The blocks of a function in the order of the map, and the numbers of those that follow each."""

    blocks: List[Block]
    follow: Dict[int, List[int]]


class BlockMap:
    """The map of basic blocks that clang writes (LLVM, "SHT_LLVM_BB_ADDR_MAP Section").

    `numbered` has the blocks of each function, `functions` those with their successors, where it has them, by their
    entries. """

    def __init__(self, program: Program) -> None:
        self.program = program
        self.functions: Dict[int, Function] = {}
        self.numbered: List[List[Block]] = []
        # How many bytes are left to read, and steps through blocks without code to go. Whatever shares no bytes takes
        # fewer.
        self.left = self.steps = len(program.data)
        try:
            for section in program.sections:
                if section.kind == BLOCK_MAP:
                    piece = Bytes(program.data, section.offset, 0)
                    while piece.at < section.offset + section.size:
                        at = piece.at
                        self.read(piece)
                        self.left -= piece.at - at
                        if self.left < 0:
                            raise ValueError("its pieces overlap")
        except FAULTS as fault:
            raise Refused(f"the program's map of basic blocks is damaged: {fault}") from None

    def read(self, piece: Bytes) -> None:
        """Reads the entry of a function."""
        version, features = piece.number("<B"), piece.number("<B")
        if version != 2 or features & ~15:
            raise Refused(f"the program's map of basic blocks has version {version} with features {features:#x}: "
                          "only version 2 is known, as clang 19 writes it; --code does without")
        blocks = []
        for _ in range(piece.uleb() if features & 8 else 1):
            at = piece.number("<Q")
            for _ in range(piece.uleb()):
                number, gap, size, what = piece.uleb(), piece.uleb(), piece.uleb(), piece.uleb()
                blocks.append(Block(number, at + gap, at + gap + size, what))
                at += gap + size
        if features & 1:
            piece.uleb()
        follow = {}
        if features & 6:
            for block in blocks:
                if features & 2:
                    piece.uleb()
                if features & 4:
                    follow[block.number] = [(piece.uleb(), piece.uleb())[0] for _ in range(piece.uleb())]
        numbers = {block.number for block in blocks}
        if len(numbers) < len(blocks) or any(it not in numbers for there in follow.values() for it in there):
            raise ValueError("blocks of one number, or an edge to no block")
        if blocks:
            self.numbered.append(blocks)
        if blocks and features & 4:
            self.functions[blocks[0].low] = Function(blocks, follow)

    def blocks(self, at: int) -> Rows:
        """The blocks of the function with this entry, in the order of the map."""
        blocks, follow = self.functions[at]
        starts = self.starts(blocks, follow)
        rows, notes, inside = [], [], {block.low for block in blocks}
        for k, (number, low, high, what) in enumerate(blocks):
            if low == high:
                continue
            leaves = bool(what & (RETURNS | TAIL_CALL)) or self.tail_branch(low, high, inside)
            if what & FALLS_THROUGH and k + 1 < len(blocks) and high < blocks[k + 1].low < high + 64:
                high = blocks[k + 1].low
            self.go(sum(max(0, len(starts[it]) - 1) for it in follow[number]))
            there = list(dict.fromkeys(start for it in follow[number] for start in starts[it]))
            if what & IS_INDIRECT and not there:
                notes.append(f"block at {low:#x} ends in a jump that leads to places that are not known: exit")
            rows.append(Row(low, high, there, leaves))
        return Rows(rows, notes)

    def go(self, steps: int) -> None:
        """Counts steps through blocks without code. Of these a compiler leaves few, with a way or none behind each."""
        self.steps -= steps
        if self.steps < 0:
            raise Refused("the program's map of basic blocks is damaged: "
                          "too many ways lead through blocks without code")

    def starts(self, blocks: List[Block], follow: Dict[int, List[int]]) -> Dict[int, List[int]]:
        """Where the flow goes on that enters a block of this number: at its start, or, of one without code, where that
        leads.

        Behind a call that never returns clang has a block without code that leads nowhere: what stands there is another
        one. """
        found = {block.number: [block.low] for block in blocks if block.low < block.high}
        for number in [block.number for block in reversed(blocks) if block.low == block.high]:
            seen, work = {number}, [number]
            ends: Dict[int, None] = {}
            while work:
                here = work.pop()
                if here in found:
                    self.go(len(found[here]))
                    ends.update(dict.fromkeys(found[here]))
                    continue
                self.go(1 + len(follow[here]))
                there = [it for it in follow[here] if it not in seen]
                seen.update(there)
                work.extend(reversed(there))
            found[number] = list(ends)
        return found

    def tail_branch(self, low: int, high: int, inside: Set[int]) -> bool:
        """Whether a block ends in a conditional tail call, alone or in front of a jump; the map tells of others."""
        low = max(low, high - 11)
        code = self.program.read(low, high - low) or b""
        for size in (0, 2, 5):
            at = len(code) - size - 6
            if at < 0 or size == 2 and code[-2] != 0xEB or size == 5 and code[-5] != 0xE9:
                continue
            if code[at] == 0x0F and code[at + 1] >> 4 == 8:
                more: int = struct.unpack_from("<i", code, at + 2)[0]
                target = high - size + more
                if target in self.program.names and target not in inside:
                    return True
        return False
