"""Where jumps by pointers lead: tables of switches, and labels as values."""
import bisect
import re
import struct
from typing import Dict, FrozenSet, Iterable, List, NamedTuple, Optional, Sequence, Set, Union

from pgo_tools.blocks.flow import BRANCH, CALL, JUMP, POINTER, PREFIX, Flow
from pgo_tools.blocks.program import Functions, Program
from pgo_tools.blocks.unit import Unit


class Register(NamedTuple):
    """A name of a register: that of the whole one, and how many bits it has."""

    whole: str
    bits: int


def register_names() -> Dict[str, Register]:
    """Each name of a register."""
    found = {}
    for letter in "abcd":
        found.update({f"%r{letter}x": Register(f"%r{letter}x", 64), f"%e{letter}x": Register(f"%r{letter}x", 32)})
        found.update({f"%{letter}{end}": Register(f"%r{letter}x", 16) for end in "xlh"})
    for name in ("si", "di", "bp", "sp"):
        found.update({f"%r{name}": Register(f"%r{name}", 64), f"%e{name}": Register(f"%r{name}", 32)})
        found.update({f"%{name}{end}": Register(f"%r{name}", 16) for end in ("", "l")})
    for k in range(8, 16):
        for end, bits in (("", 64), ("d", 32), ("w", 16), ("b", 16)):
            found[f"%r{k}{end}"] = Register(f"%r{k}", bits)
    for k in range(32):
        found[f"%xmm{k}"] = Register(f"%xmm{k}", 128)
    return found


REGISTERS = register_names()
RESULTS = ("%rax", "%xmm0")
LINE = re.compile(rb"^ *([0-9a-f]+):\t" + PREFIX +
                  rb"([a-z0-9.]+)(?:,p[tn])?(?: +([^#\n]*[^#\s]))?(?: +# ([0-9a-f]+).*|.*)$", re.M)
OPERAND = re.compile(r"[^,(]*\([^)]*\)|[^,]+")
INDEXED = re.compile(r",[48]\)$")
MEMORY = re.compile(r"(?:%[c-gs]s:)?(-?0x[0-9a-f]+)?(?:\((%\w+)?(?:,(%\w+),(\d))?\))?$")
NO_CHANGE = re.compile(
    r"cmp|test|nop|bt$|u?comis|v?u?comis|prefetch|endbr|push|j|ret|hlt|ud|lfence|mfence|sfence|pause")
MOST_VALUES, MOST_ENTRIES, NEAR = 12, 65536, 24
# What is known of a register or a slot of the stack: an address; one behind it by some index; 8 or 4 bytes of a table,
# which the index chooses; such 4 bytes and a base; a place on the stack, from where it stood at the entry. Of 4 bytes
# it is known too which register told the table, and its value, as long as the register keeps it: another value is not
# its base.
PLACE, BEHIND, WIDE, NARROW, SUM, STACK = range(6)


class Value(NamedTuple):
    """What is known of a value: its kind, its address (of STACK its place), of NARROW the register that told the table,
    and of NARROW and SUM the base."""

    kind: int
    at: int
    register: Optional[str] = None
    base: int = 0


Values = FrozenSet[Value]
# What is known of registers by their names, and of the stack by its places.
State = Dict[Union[str, int], Values]
NOTHING: Values = frozenset()


class Line(NamedTuple):
    """An instruction: its address, its name, its operands, and the address that objdump notes."""

    address: int
    word: str
    operands: List[str]
    note: Optional[int]


class Held(NamedTuple):
    """What is known of a value, and the register that holds it, or ""."""

    values: Values
    register: str


class Tables:
    """Finds where the jumps by pointers of one function lead, by following addresses through registers and stack."""

    def __init__(self, program: Program, functions: Functions, unit: Unit, text: bytes) -> None:
        self.program, self.functions, self.unit = program, functions, unit
        self.lines = [
            Line(int(at, 16), word.decode(), OPERAND.findall(rest.decode("latin-1")), int(note, 16) if note else None)
            for at, word, rest, note in LINE.findall(text)]
        self.index = {line.address: k for k, line in enumerate(self.lines)}
        self.leaders = {unit.entry}
        for address, following, kind, target in unit.rows:
            self.leaders.update([following] if kind in (BRANCH, CALL) else [])
            self.leaders.update([target] if kind in (BRANCH, JUMP) else [])
            self.leaders.update(unit.pads.get(address, ()))
        self.flows = dict(zip(unit.addresses, unit.rows))
        self.first = {low for low, _ in unit.parts}
        self.states: Dict[int, State] = {}
        self.work: List[int] = []
        self.used: Dict[int, Set[Value]] = {}
        self.seen: Dict[int, Optional[Values]] = {}

    def find(self) -> Dict[int, List[int]]:
        """For each jump by pointer that was reached the addresses that it leads to."""
        self.arrive(self.unit.entry, {"%rsp": frozenset([Value(STACK, 0)])})
        while self.work:
            self.walk(self.work.pop())
        bases = sorted({table.at for tables in self.used.values() for table in tables if table.kind != PLACE})
        found = {}
        for address, tables in self.used.items():
            targets: Set[int] = set()
            for table in tables:
                targets.update(self.targets(address, table, bases))
            found[address] = sorted(targets)
        return found

    def arrive(self, address: int, state: State) -> None:
        if address not in self.index:
            return
        old = self.states.get(address)
        if old is None:
            self.states[address] = dict(state)
            self.work.append(address)
            return
        changed = False
        for key, values in state.items():
            kept = old.get(key, NOTHING)
            if not values <= kept and key != "%rsp" and len(kept | values) <= MOST_VALUES:
                old[key] = kept | values
                changed = True
        if changed:
            self.work.append(address)

    def walk(self, address: int) -> None:
        state, k = dict(self.states[address]), self.index[address]
        while True:
            line = self.lines[k]
            row = self.flows.get(line.address)
            if row is not None:
                self.turn(line, row, state)
                return
            self.change(line, state)
            k += 1
            if k == len(self.lines) or self.lines[k].address in self.first:
                return
            if self.lines[k].address in self.leaders:
                self.arrive(self.lines[k].address, state)
                return

    def turn(self, line: Line, row: Flow, state: State) -> None:
        address, following, kind, target = row
        if kind == CALL:
            # The rest may outlive the call, as gcc knows of functions in the same file (-fipa-ra).
            for name in RESULTS:
                state.pop(name, None)
                self.forget(name, state)
            for pad in self.unit.pads.get(address, ()):
                self.arrive(pad, state)
        if kind in (BRANCH, CALL):
            self.arrive(following, state)
        if kind in (BRANCH, JUMP) and self.unit.holds(target):
            self.arrive(target, state)
        if kind == POINTER:
            self.point(line, state)

    def point(self, line: Line, state: State) -> None:
        address, _, operands, note = line
        operand = operands[0].lstrip("*")
        is_register = operand in REGISTERS
        values = state.get(operand, NOTHING) if is_register else self.loaded(self.place(operand, note, state), 8, state)
        self.seen[address] = state.get("%rsp")
        known = self.used.setdefault(address, set())
        for value in values:
            if value.kind not in (PLACE, WIDE, SUM) or value in known:
                continue
            known.add(value)
            self.leaders.update(self.targets(address, value, []))
        for value in known:
            for target in self.targets(address, value, []):
                self.arrive(target, state)

    def targets(self, address: int, table: Value, bases: Sequence[int]) -> List[int]:
        """The addresses in the function that a table holds for the jump."""
        if table.kind == PLACE:
            return [table.at] if self.unit.holds(table.at) else []
        at, width = table.at, 8 if table.kind == WIDE else 4
        held, following = self.program.object_end(at)
        bound = self.bound(address)
        k = bisect.bisect_right(bases, at)
        most = MOST_ENTRIES
        if held is not None and held - at >= width:
            most = (held - at) // width
        elif bound is not None:
            most = bound
        else:
            ends = ([following] if following else []) + ([bases[k]] if k < len(bases) else [])
            most = min([most] + [(end - at + width - 1) // width for end in ends])
        sure = held is not None or bound is not None
        found = []
        for n in range(min(most, MOST_ENTRIES)):
            target = self.entry(table, at + n * width)
            if target is None:
                break
            if target in self.index and self.unit.holds(target):
                found.append(target)
            elif not sure and not any(target == high for _, high in self.unit.parts):
                break
        return found

    def entry(self, table: Value, at: int) -> Optional[int]:
        """Where the entry of a table at this address leads."""
        if table.kind == WIDE:
            return self.program.word(at)
        piece = self.program.read(at, 4)
        if not piece or len(piece) != 4:
            return None
        more: int = struct.unpack("<i", piece)[0]
        return (table.base + more) % (1 << 64)

    def bound(self, address: int) -> Optional[int]:
        """How many entries a comparison in front of the jump leaves, where one stands near."""
        k, index, least = self.index[address], None, None
        for _, word, operands, _ in reversed(self.lines[max(0, k - NEAR) : k + 1]):
            if index is None:
                memory = next((MEMORY.match(it.lstrip("*")) for it in operands if "(" in it), None)
                if memory and memory[3] and memory[4] in "48":
                    index = {REGISTERS[memory[3]].whole}
                continue
            if word in ("ja", "jnbe", "jae", "jnb"):
                least = 1 if word in ("ja", "jnbe") else 0
            elif word in ("jmp", "ret", "call"):
                return None
            elif len(operands) == 2:
                source, target = operands
                name = whole(target)
                if word.startswith("cmp") and source.startswith("$") and name in index and least is not None:
                    return (int(source[1:], 16) & 0xFFFFFFFF) + least
                if name in index and word.startswith("mov") and not source.startswith("$"):
                    index = {whole(source)}
                elif name in index and not NO_CHANGE.match(word):
                    return None
        return None

    def leaves(self, table: Value) -> bool:
        """Whether a table, or a place, has the entry of another function first."""
        target = table.at if table.kind == PLACE else self.entry(table, table.at)
        return target is not None and not self.unit.holds(target) and self.functions.at_entry(target) >= 0

    def looks_open(self, address: int) -> bool:
        """Whether a jump that leads nowhere in the function may all the same be one of a table of the function."""
        if any(map(self.leaves, self.used.get(address, ()))):
            return False
        stack = self.seen.get(address)
        if stack is None or Value(STACK, 0) not in stack:
            return True
        k = self.index[address]
        operand = self.lines[k].operands[0].lstrip("*")
        if operand not in REGISTERS:
            return bool(INDEXED.search(operand))
        for _, word, operands, _ in reversed(self.lines[max(0, k - NEAR) : k]):
            if word.startswith(("j", "call", "ret", "pop", "leave")) or operands and operands[-1] == "%rsp":
                return False
            if operands and operands[-1] == operand and not NO_CHANGE.match(word):
                added = word.startswith("add") and "(" not in operands[0]
                return added or bool(INDEXED.search(operands[0]))
        return False

    # What an instruction does to registers and stack.

    def change(self, line: Line, state: State) -> None:
        _, word, operands, note = line
        if not operands or NO_CHANGE.match(word):
            if word.startswith(("pushf", "popf")):
                self.shift(state, -8 if word.startswith("push") else 8)
            elif word.startswith("push"):
                values = self.value(operands[0], note, state, 8)
                self.shift(state, -8)
                self.store(state, state["%rsp"], values)
            elif word in ("leave", "leaveq"):
                state["%rsp"] = state.get("%rbp", NOTHING)
                state["%rbp"] = self.loaded(state["%rsp"], 8, state)
                self.shift(state, 8)
                self.forget("%rbp", state)
            elif word in ("cltq", "cdqe"):
                state["%rax"] = narrow(state.get("%rax", NOTHING))
                self.forget("%rax", state)
            return
        target = operands[-1]
        if word in ("pop", "popq"):
            values = self.loaded(state.get("%rsp", NOTHING), 8, state)
            self.shift(state, 8)
        else:
            values = self.result(word, operands, note, state)
        if target in REGISTERS:
            name, bits = REGISTERS[target]
            if name == "%rsp" and not values:
                return
            if bits >= 32:
                state[name] = values
            else:
                state.pop(name, None)
            self.forget(name, state)
        elif "(" in target and not word.startswith("lea"):
            self.store(state, self.place(target, note, state), values)

    def result(self, word: str, operands: Sequence[str], note: Optional[int], state: State) -> Values:
        """What is known of the value that the instruction leaves in its last operand."""
        source, target = operands[0], operands[-1]
        if word in ("mov", "movq", "movl", "movabs", "movd"):
            wide = 4 if word == "movl" or target in REGISTERS and REGISTERS[target].bits == 32 else 8
            return self.value(source, note, state, wide)
        if word.startswith("lea"):
            return self.place(source, note, state)
        if word in ("movslq", "movsxd"):
            return narrow(self.value(source, note, state, 4))
        if word.startswith("cmov"):
            return self.value(source, note, state, 8) | state.get(REGISTERS[target].whole, NOTHING)
        if word.startswith("add") and len(operands) == 2 and target in REGISTERS:
            held = Held(self.value(source, note, state, 8), REGISTERS[source].whole if source in REGISTERS else "")
            name = REGISTERS[target].whole
            return self.added(held, Held(state.get(name, NOTHING), name), source)
        if word.startswith("sub") and len(operands) == 2 and source.startswith("$") and target in REGISTERS:
            return self.moved(state.get(REGISTERS[target].whole, NOTHING), -number(source[1:]))
        if word.startswith("and") and target == "%rsp":
            return state.get("%rsp", NOTHING)
        return NOTHING

    def value(self, operand: str, note: Optional[int], state: State, wide: int) -> Values:
        """What is known of an operand of so many bytes."""
        if operand in REGISTERS:
            return state.get(REGISTERS[operand].whole, NOTHING)
        if operand.startswith("$"):
            value = number(operand[1:]) % (1 << 64)
            return frozenset([Value(PLACE, value)]) if self.program.section_of(value) else NOTHING
        return self.loaded(self.place(operand, note, state), wide, state, operand)

    def place(self, operand: str, note: Optional[int], state: State) -> Values:
        """What is known of the address of an operand in memory."""
        memory = MEMORY.match(operand)
        if not memory:
            return NOTHING
        digits, base, index, scale = memory.groups()
        more = number(digits) if digits else 0
        if base == "%rip":
            return frozenset([Value(PLACE, note)]) if note is not None else NOTHING
        bases = state.get(base, NOTHING) if base else NOTHING
        if index is None:
            found = self.moved(bases, more)
        else:
            indexes = state.get(index, NOTHING) if scale == "1" else NOTHING
            found = self.summed(self.added(Held(bases, base), Held(indexes, index), index) if base else NOTHING, more)
        if not found and (base or index) and self.program.is_data(more % (1 << 64)) and more >= 4096:
            found = frozenset([Value(BEHIND, more)])
        return found

    def added(self, some: Held, others: Held, operand: str) -> Values:
        """The sums of two values, each with the register that holds it; one that is not known counts as an index."""
        if operand.startswith("$"):
            return self.moved(others.values, number(operand[1:]))
        found: Set[Value] = set()
        for (one, name), (other, _) in ((some, others), (others, some)):
            tables = narrow(other)
            found.update(Value(SUM, it.at, base=it.base) for it in tables if it.register == name)
            for value in one:
                if value.kind == PLACE:
                    found.update(Value(SUM, it.at, base=value.at) for it in tables if it.register != name)
                if value.kind in (PLACE, BEHIND) and not tables and self.program.is_data(value.at):
                    found.add(Value(BEHIND, value.at))
        return frozenset(found)

    def summed(self, values: Values, more: int) -> Values:
        return values if more == 0 else self.moved(values, more)

    def moved(self, values: Values, more: int) -> Values:
        """The values with a number added."""
        found = {Value(it.kind, it.at + more) for it in values if it.kind in (PLACE, BEHIND, STACK)}
        if self.program.section_of(more):
            found.update(Value(SUM, it.at, base=more) for it in narrow(values))
        return frozenset(found)

    def loaded(self, places: Values, wide: int, state: State, operand: str = "") -> Values:
        """What is known of so many bytes at one of these places."""
        found: Set[Value] = set()
        memory = MEMORY.match(operand)
        base, more = (memory[2], number(memory[1] or "0")) if memory else (None, 0)
        for place in places:
            if place.kind == STACK:
                found.update(state.get(place.at, NOTHING))
            elif place.kind == BEHIND and self.program.is_data(place.at):
                value = place.at - more
                if wide == 8:
                    found.add(Value(WIDE, place.at))
                elif base and Value(PLACE, value) in state.get(base, NOTHING):
                    found.add(Value(NARROW, place.at, base, value))
                else:
                    found.add(Value(NARROW, place.at))
            elif place.kind == PLACE and wide == 8 and self.program.is_fixed(place.at):
                word = self.program.word(place.at)
                if word:
                    found.add(Value(PLACE, word))
        return frozenset(found)

    @staticmethod
    def forget(name: str, state: State) -> None:
        """Takes back that 4 bytes of a table are told by a register, which has another value now."""
        for key, values in state.items():
            if any(it.register == name for it in values):
                state[key] = frozenset(Value(it.kind, it.at) if it.register == name else it for it in values)

    @staticmethod
    def store(state: State, places: Values, values: Values) -> None:
        for place in places:
            if place.kind == STACK:
                state[place.at] = values

    def shift(self, state: State, more: int) -> None:
        state["%rsp"] = self.moved(state.get("%rsp", NOTHING), more)


def narrow(values: Iterable[Value]) -> Values:
    """The values that are 4 bytes of a table."""
    return frozenset(it for it in values if it.kind == NARROW)


def whole(operand: str) -> str:
    """The register that an operand is a part of, or the operand."""
    return REGISTERS[operand].whole if operand in REGISTERS else operand


def number(text: str) -> int:
    value = int(text, 16)
    return value - (1 << 64) if value >= 1 << 63 else value
