"""The flow of functions, as objdump prints it: the instructions that do not simply go on at the next."""
import re
from typing import Dict, Iterator, List, NamedTuple, Optional

from pgo_tools.blocks.program import EXECUTE, Functions, Program, Refused
from pgo_tools.cli import NO_PROGRAM, Trouble
from pgo_tools.cli.limits import Output, limited, limits_for
from pgo_tools.cli.programs import as_file
from pgo_tools.elf import COMPRESSED, NOBITS

# What is called and never comes back. Functions of the program itself are found out, these are those of libraries.
NO_RETURN = frozenset("""
abort exit _exit _Exit quick_exit pthread_exit thrd_exit longjmp _longjmp siglongjmp __longjmp_chk __assert_fail
__assert_perror_fail __assert __stack_chk_fail __fortify_fail __chk_fail err errx verr verrx __libc_start_main
__libc_start_call_main __cxa_throw __cxa_rethrow __cxa_bad_cast __cxa_bad_typeid __cxa_throw_bad_array_new_length
__cxa_throw_bad_array_length __cxa_pure_virtual __cxa_deleted_virtual __cxa_call_unexpected __cxa_call_terminate
__clang_call_terminate _Unwind_Resume _Unwind_Resume_or_Rethrow rust_begin_unwind rust_panic __rust_start_panic
_ZSt9terminatev _ZSt10unexpectedv _ZSt17rethrow_exceptionNSt15__exception_ptr13exception_ptrE
__ubsan_handle_builtin_unreachable
""".split())
NO_RETURN_FORM = re.compile(
    r"_ZSt\d+__throw_|_ZN(St|NSt).*__throw_|_ZN4core9panicking|_ZN3std9panicking20rust_panic_with_hook")


def never_returns(name: str) -> bool:
    name = name.split("@")[0]
    return name in NO_RETURN or NO_RETURN_FORM.match(name) is not None


HEADER = re.compile(rb"^([0-9a-f]{16}) <.*>:\n", re.M)
PREFIX = rb"(?:(?:bnd|notrack|rep[a-z]*|data16|addr32|lock|xacquire|xrelease|[c-gs]s|rex[.A-Z]*) +)*"
FLOW = re.compile(rb"^ *([0-9a-f]+):\t" + PREFIX +
                  rb"(j[a-z]+|call[a-z]*|l?ret[a-z]*|l?jmp|loop[a-z]*|hlt|ud[0-2][a-z]*|int3|iret[a-z]*|sysret[a-z]*"
                  rb"|sysexit[a-z]*|xbegin)(?:,p[tn])?(?: +(.*)|)$(?=\n *([0-9a-f]+):|)", re.M)
SLOT = re.compile(rb"\*0x[0-9a-f]+\(%rip\) +# ([0-9a-f]+)")
JUMP, BRANCH, RETURN, CALL, POINTER, STOP = range(6)
TO_NOWHERE, TO_STRANGER = -1, -2


class Flow(NamedTuple):
    """An instruction that does not simply go on at the next: its address, the next one's, its kind, and where it leads:
    an address, TO_NOWHERE or TO_STRANGER."""

    address: int
    following: int
    kind: int
    target: int


class Piece(NamedTuple):
    """Code as objdump prints it: the address at which it begins, and its lines."""

    address: int
    text: bytes


def judge_code(program: Program) -> None:
    """Refuses sections of code that share addresses, or have more bytes than the file: objdump prints each of them."""
    code = [it for it in program.sections if it.flags & EXECUTE and it.kind not in (0, NOBITS) and it.size]
    end = 0
    for section in sorted(code, key=lambda it: (it.address, it.size)):
        if section.address < end:
            raise Refused(f"the program is damaged: its sections of code overlap at {section.address:#x}")
        end = section.address + section.size
    if sum(it.size for it in code) > len(program.data) or any(it.flags & COMPRESSED for it in code):
        raise Refused("the program is damaged: its sections of code have more bytes than the file")


def printed(program: Program, path: str) -> Iterator[Piece]:
    """What objdump prints of the program's code, each address once, in pieces that each begin at a symbol."""
    judge_code(program)
    words = ["objdump", "-d", "-w", "--no-show-raw-insn", "--", as_file(path)]
    try:
        with limited(words, limits_for(path)) as said:
            yield from pieces(said)
    except FileNotFoundError:
        raise Trouble("there is no objdump", NO_PROGRAM, "the package binutils") from None
    if said.status:
        raise Refused(f"objdump failed: {' '.join(said.err[:500].split())}")


def pieces(stream: Output) -> Iterator[Piece]:
    """The code of each symbol in what objdump prints."""
    rest = b""
    while True:
        piece = stream.read(1 << 22)
        rest += piece
        cut = rest.rfind(b"\n\n") if piece else len(rest)
        if cut >= 0:
            heads = list(HEADER.finditer(rest, 0, cut))
            for head, following in zip(heads, [it.start() for it in heads[1:]] + [cut]):
                yield Piece(int(head[1], 16), rest[head.end() : following])
            rest = rest[cut:]
        if not piece:
            break


class Reader:
    """Reads the flow of each function from its text: the instructions that do not simply go on at the next."""

    def __init__(self, program: Program, functions: Functions) -> None:
        self.program, self.functions = program, functions
        self.stubs: Dict[int, int] = {}

    def flow(self, text: bytes, end: int) -> List[Flow]:
        """The flow of this text, behind which `end` comes."""
        rows = []
        for at, word, where, following in FLOW.findall(text):
            address, after = int(at, 16), int(following, 16) if following else end
            if word[0] == 106 or word[:4] == b"loop" or word == b"xbegin":  # 106 is j
                kind = JUMP if word[:3] == b"jmp" else BRANCH
            elif word[:4] == b"call":
                kind = CALL
            elif b"ret" in word:
                kind = RETURN
            else:
                kind = STOP
            target = self.target(where) if where and kind in (JUMP, BRANCH, CALL) else TO_STRANGER
            if target is None:
                kind, target = (CALL, TO_STRANGER) if kind == CALL else (POINTER, TO_STRANGER)
            rows.append(Flow(address, after, kind, target))
        return rows

    def target(self, where: bytes) -> Optional[int]:
        """Where an operand leads, or None where a pointer says it."""
        if where[0] != 42:  # *
            try:
                return self.settled(int(where.split(None, 1)[0], 16))
            except ValueError:
                return TO_STRANGER
        match = SLOT.match(where)
        if match is None:
            return None
        slot = int(match[1], 16)
        if slot in self.program.slots:
            return self.stranger(self.program.slots[slot])
        value = self.program.word(slot) if self.program.is_fixed(slot) else None
        return self.settled(value) if value else None

    def settled(self, address: int) -> int:
        """The address itself inside of a function, else what a stub there says."""
        if self.functions.holding(address) >= 0:
            return address
        if address not in self.stubs:
            name = self.program.called_by_stub(address)
            self.stubs[address] = self.stranger(name) if name else TO_STRANGER
        return self.stubs[address]

    def stranger(self, name: str) -> int:
        """What a name stands for that the loader looks up: the program's own function of this name, else one
        elsewhere."""
        own = self.program.exported.get(name.split("@")[0], -1)
        if self.functions.holding(own) >= 0:
            return own
        return TO_NOWHERE if never_returns(name) else TO_STRANGER
