"""The signs by which a profile is empty, spoiled or of another binary, each with what helps against it."""
import bisect
import functools
import os
import re
from typing import Dict, Iterable, Iterator, List, NamedTuple, Optional

from pgo_tools.cli import programs
from pgo_tools.cli.files import FOREIGN, PACKED, kind_of
from pgo_tools.dwarf import Units
from pgo_tools.elf import X86_64
from pgo_tools.recording import found, inputs
from pgo_tools.recording.inputs import Program, Text
from pgo_tools.recording.part import Part, Sign
from pgo_tools.texts import branch_text
from pgo_tools.texts.profile_text import Node
from pgo_tools.texts.report import Report
from pgo_tools.texts.names import shell_word, text_of

# A function's hot lines are those that make up this share of all counts; below this count the least of them is chance.
HOT_SHARE, FEW_SAMPLES = 0.9, 10
# Fewer branches are of ten samples or so, and those of one sample hang together.
FEW_BRANCHES = 320
# Where fewer branches than these start says too little to refuse a profile.
FEW_SOURCES = 10
# Machines by the number in a program's header: their names, and how instructions are aligned.
MACHINES = {62: "x86-64", 183: "AArch64", 243: "RISC-V", 21: "POWER", 22: "S/390", 40: "ARM", 3: "i386"}
ALIGNED = {183: 4, 243: 2, 21: 4, 22: 2, 40: 2}
SOURCES = (".c", ".cc", ".cpp", ".cxx", ".h", ".rs", ".go", ".s", ".S")
EMULATOR = "where the processor records none, contrib/pgo-record (docs/USING.md, step 2)"
# So many lines without a discriminator are no chance.
MANY_LINES = 20
# Names as rustc's old mangling has them.
OLD_RUST = re.compile(r"_ZN.*17h[0-9a-f]{16}E(?:\..*)?")
# An instruction of x86-64 has at most so many bytes.
LONGEST = 15
# Bytes that an instruction that branches begins with, behind prefixes (x86-64).
BRANCH = re.compile(
    rb"(?:[\xf2\xf3\x26\x36\x2e\x3e\x64-\x67\x40-\x4f])*"
    rb"(?:[\x70-\x7f]|[\xe0-\xe3\xe8\xe9\xeb]|[\xc2\xc3]|\x0f[\x80-\x8f\x05\x34]|\xcd"
    rb"|\xff[\x10-\x2f\x50-\x6f\x90-\xaf\xd0-\xef])")


class Aside(NamedTuple):
    """Branches that a profile leaves out: those of no loaded file, and those that start in the program's own code."""

    foreign: int
    near: int


class Loaded(NamedTuple):
    """Where code was loaded: from where on, how much, and from which offset of the file."""

    start: int
    size: int
    offset: int


class Shift(NamedTuple):
    """Addresses from the first up to the second, and how far an offset of the file is from each."""

    start: int
    end: int
    to_offset: int


class Sources(NamedTuple):
    """Of the most frequent sources of branches how many are an instruction that branches, and how many are none."""

    good: int
    bad: int


class Counted(NamedTuple):
    """How many branches start at each address: of every branch, and of those that do not lead into the kernel."""

    every: Dict[int, int]
    own: Dict[int, int]


class Line(NamedTuple):
    """A line of a text, and whether it is the last one and has no line feed."""

    text: str
    is_cut: bool


SHOW_LOADS = "perf script --show-mmap-events -F ip,brstack, which tells where files were loaded (docs/USING.md, step 2)"


def help_to_map(program: Program, text: Text, first: str = "") -> str:
    names = found.names_to_choose(program, text.loads())
    if not names:
        return SHOW_LOADS
    return f"{first}the name by which it was loaded, whole; {text.name} has\n{found.as_options(names)}"


def sums_of(report: Report, program: Program) -> Aside:
    """How many branches are of no loaded file that is wanted, and how many start in the program's own code."""
    code = program.headers().code()
    low, high = (code[0].address, code[0].address + code[0].size) if code else (0, 0)
    foreign = sum(each.times for each in report.unmapped if each.source == each.target == 0)
    near = sum(each.times for each in report.unmapped if low <= each.source < high)
    return Aside(foreign, near)


def why_empty(program: Program, text: Text, name: str, report: Report) -> Sign:
    """Why a profile has no line: the first cause that holds."""
    branches, (foreign, near) = report["branches"], sums_of(report, program)
    if not branches:
        return without_branches(text)
    if not report["units read"]:
        return without_units(program, report)
    if program.headers().is_position_independent() and is_debug_file(program):
        return debug_file_sign(program)
    if sign := of_another_machine(program, text, name):
        return sign
    if name and foreign == branches and any(load.name == name for load in text.loads()):
        return Sign(f"no branch is of {name}, though it was loaded",
                    "the program itself, no debug file of it (eu-unstrip of elfutils puts the two together); "
                    "in a recording of several programs that one's samples (perf script --comms=)")
    if name and foreign == branches:
        return Sign(f"no load line has this name: {name}", help_to_map(program, text))
    if not name and program.headers().is_position_independent():
        has_names = found.names_to_choose(program, text.loads())
        where = "no load line has its name" if has_names else "ran at other addresses than it says"
        return Sign(f"{program.name} is position-independent, and {where}",
                    help_to_map(program, text, "the binary that ran, or "))
    if near:
        return Sign(f"{near} of {branches} branches are of {program.name}, but it has no functions with lines there",
                    "build with -g, without -gsplit-dwarf; the binary that ran")
    return Sign(f"none of {branches} branches is of {program.name}",
                "the binary that ran; brstack and not brstackoff; "
                "of a recording of several programs perf script --comms= or --pid=")


def is_debug_file(program: Program) -> bool:
    code = program.headers().code()
    return bool(code) and not code[0].file_size


def debug_file_sign(program: Program) -> Sign:
    return Sign(f"{program.name} is a debug file, and has other offsets than the program that was loaded",
                "the program itself; eu-unstrip of elfutils puts the two together")


def without_branches(text: Text) -> Sign:
    if text.asked:
        return Sign(f"{text.name} has no branches of {inputs.as_given(text.asked)}",
                    f"perf script -i {shell_word(text.name)} -F comm,pid shows whose it has")
    if text.is_file() and not os.path.getsize(text.path):
        return Sign(f"{text.name} is empty", "what perf record or perf script said when it made it")
    return Sign(f"{text.name} has no branches", f"perf record -b, then perf script -F ip,brstack; {EMULATOR}")


def without_units(program: Program, report: Report) -> Sign:
    if report["units passed"]:
        return Sign(f"the debugging information of {program.name} is split, or of DWARF 2 or 3",
                    "build with -gdwarf-4 or -gdwarf-5, without -gsplit-dwarf")
    if program.debug:
        whole, debug = shell_word(program.base_name() + ".whole"), shell_word(program.debug)
        return Sign(f"{program.name} has its debugging information in {program.debug}, and the two could not be joined",
                    f"eu-unstrip -o {whole} {shell_word(program.name)} {debug} (elfutils)")
    if program.headers().section(".zdebug_info"):
        return Sign(f"{program.name} has its debugging information compressed the old way",
                    "objcopy --decompress-debug-sections")
    link = program.headers().debug_link()
    if link:
        return Sign(f"{program.name} has no debugging information of its own, and its debug file {link.name} "
                    "is not there, or is one of another build",
                    f"{link.name} beside it, or below {inputs.DEBUG_FOLDER}")
    if program.headers().section(".symtab"):
        return Sign(f"{program.name} has no debugging information",
                    "build with -g, and for clang -fdebug-info-for-profiling")
    return Sign(f"{program.name} has no debugging information, nor symbols: it is stripped",
                "the program as it was before strip, built with -g")


# Of a line that is refused, and of a file that is none.

def look_at_line(text: Text, number: int) -> str:
    """What helps with a line that is refused, and the line."""
    if not text.is_file():
        return "print the text into a file, and look at this line"
    kind = kind_of(text.path)
    if kind == "recording" and "BRANCH_STACK" in text.said:
        return f"it was recorded without branches: perf record -b; {EMULATOR}"
    if kind == "recording":
        said = f"; {text.said}" if text.said else ""
        force = "-f " * ("use -f" in said)
        return f"it is a recording: perf script {force}-i {shell_word(text.name)} -F ip,brstack prints its text{said}"
    if kind in PACKED:
        return "it is packed: unpack it"
    if kind in FOREIGN:
        return FOREIGN[kind]
    if kind == "program":
        return "it is a program: the program first, then the text"
    if text.name.endswith(SOURCES):
        return "it is a source file: the text that perf script -F ip,brstack prints"
    line, is_cut = line_at(text.path, number)
    shown = re.sub(r"[^\x20-\x7e]", "?", line[:100])
    return f"{branch_text.remedy(line, is_cut)}\n  the line: {shown}"


def line_at(path: str, number: int) -> Line:
    """A line, and whether it was cut off."""
    line = b""
    with open(path, "rb") as file:
        for count, line in enumerate(file, 1):
            if count == number:
                break
    return Line(text_of(line.rstrip(b"\n")), not line.endswith(b"\n"))


def look_at_program(program: Program, text: Text) -> str:
    """What helps with what is no program, by what it is instead; "" where pgo's own help says it."""
    kind, name = kind_of(program.path), program.name
    if kind in PACKED or kind in FOREIGN:
        return f"{name} is packed: unpack it" if kind in PACKED else f"{name}: {FOREIGN[kind]}"
    if kind_of(text.path) == "program":
        return f"the program first, then the text: {text.name} is a program, and {name} is none"
    if not kind and name.endswith(SOURCES):
        return f"{name} is a source file: the program that was built of it"
    return {
        "empty": f"{name} is empty: see what the linker said when it made it",
        "recording": f"{name} is a recording: the program first, "
                     "then what perf script -F ip,brstack prints of the recording",
        "archive": f"{name} is a static library: the program that it was linked into",
        "script": f"{name} is a script: the program that it starts",
    }.get(kind, "")


def place_in(program: Program, offset: int) -> str:
    """The section and the unit that have an offset of the program's file; "" where no section of DWARF has it."""
    if program.elf is None:
        return ""
    held = (each for each in program.elf.sections if each.name.startswith(".debug_") and each.offset <= offset)
    section = next((each for each in held if offset <= each.offset + each.size), None)
    if section is None:
        return ""
    at = offset - section.offset
    if section.name != ".debug_info":
        return f", byte {at:#x} of {section.name}"
    unit = next((each for each in Units(program.elf).each() if each.at <= at < each.end), None)
    return f", byte {at:#x} of {section.name}" + (f", in the unit at {unit.at:#x}" if unit else "")


def look_at_unread(path: str) -> str:
    """What helps where a file could not be read."""
    if os.path.isdir(path):
        return "a file: this is a folder"
    if not os.path.exists(path):
        return "its name: there is no such file"
    if not os.access(path, os.R_OK):
        return "leave to read it (chmod)"
    if any("\udc80" <= each <= "\udcff" for each in path):
        return "a name in UTF-8 (ln -s): pgo opens no other"
    return ""


# Of profiles that have lines.

def same_binary(program: Program) -> str:
    return f"the binary that ran: perf buildid-list and readelf -n {shell_word(program.name)} tell its number"


def of_program(part: Part) -> Iterator[Sign]:
    """What looks wrong with the profile of a program."""
    yield from other_binary(part)
    yield from unfit_build(part.program, part.profile)


def of_text(text: Text, parts: List[Part]) -> Iterator[Sign]:
    """What is wrong with the recording."""
    if not text.ends():
        yield Sign(f"{text.name} does not end with a line feed, so it may have been cut off, "
                   "and its last address with it",
                   "print the text again, and see that perf ended well; "
                   f"or take its last line away: sed -i '$d' {shell_word(text.name)}")
    yield from of_the_kernel(text, parts)
    yield from few_samples([part.profile for part in parts], parts[0].report["branches"])


def is_kernel(program: Program) -> bool:
    """Its code is in the upper half of the addresses. A kernel changes its code while it runs."""
    code = program.headers().code()
    return bool(code) and code[0].address >= 1 << 63


def of_the_kernel(text: Text, parts: List[Part]) -> Iterator[Sign]:
    """Most branches are of the kernel, and no program is one."""
    if any(is_kernel(part.program) for part in parts):
        return
    times = sources(text)
    kernel, whole = sum(times[at] for at in times if at >> 63), sum(times.values())
    if kernel * 2 > whole:
        yield Sign(f"{kernel} of {whole} branches are of the kernel",
                   "the program's own alone: perf record -b -e cycles:u")


def of_another_machine(program: Program, text: Text, name: str) -> Optional[Sign]:
    """The samples are of another machine than the program: they have addresses at which it has no instruction."""
    machine = program.headers().machine
    top = most_frequent(program, text, name) or sorted(sources(text))[:50]
    odd = sum(at % ALIGNED.get(machine, 1) > 0 for at in top)
    if odd * 9 <= len(top) - odd:
        return None
    what = f"{program.name} is a program for {MACHINES[machine]}, and of {len(top)} branches {odd} start"
    return Sign(f"{what} where it can have no instruction: the samples are of another machine", "the binary that ran")


def judge_binary(part: Part, text: Text) -> None:
    """Finds out whether another binary ran: by the build IDs alone where both sides have one, else by its branches."""
    program, same = part.program, same_binary(part.program)
    if part.built:
        part.other = Sign(f"the build {part.built} ran, and {program.name} is {program.headers().build_id()}", same)
    elif not part.is_known and program.headers().machine in ALIGNED:
        part.other = of_another_machine(program, text, part.name)
        part.branches = len(most_frequent(program, text, part.name))
    elif not part.is_known and program.headers().machine == X86_64:
        good, bad = branching(program, text, part.name)
        part.branches, part.is_known = good + bad, good + bad > 0 and bad * 9 <= good
        if good + bad and not part.is_known:
            what = f"of the {good + bad} most frequent branches {bad} start where {program.name} has no branch"
            part.other = Sign(f"{what}: another binary ran", same)


def other_binary(part: Part) -> Iterator[Sign]:
    """The binary may be another one than ran: by what `judge_binary` found, or else by the sums."""
    same = same_binary(part.program)
    entries, crossing = part.report["entries"], part.report["ranges crossing"]
    ran = part.report["ranges ran"] + crossing
    if part.other:
        yield part.other
    elif part.is_known:
        return
    elif part.profile and not entries:
        yield Sign("no branch enters a function: another binary may have run", same)
    elif crossing * 20 > ran:
        yield Sign(f"{crossing} of {ran} stretches lead from one function into another: "
                   "another binary may have run", same)


def places(program: Program, text: Text, name: str) -> List[Loaded]:
    """Where the program's code was loaded."""
    if name:
        return [Loaded(load.start, load.size, load.offset) for load in text.loads() if load.name == name]
    return [Loaded(each.address, each.file_size, each.offset) for each in program.headers().code()]


def laid_out(pieces: Iterable[Loaded]) -> List[Shift]:
    """The same from low to high, of which none has an address that one before it has."""
    end = 0
    rows: List[Shift] = []
    for start, size, offset in sorted(pieces):
        if start + size > end:
            rows.append(Shift(max(start, end), start + size, offset - start))
            end = start + size
    return rows


@functools.lru_cache(maxsize=1)
def counted(text: Text) -> Counted:
    """How many branches start at each address; none where the text is no file."""
    every: Dict[int, int] = {}
    own: Dict[int, int] = {}
    if not text.is_file():
        return Counted(every, own)
    status, told, _ = programs.call([programs.pgo(), "counts", programs.as_file(text.path)])
    for line in told.split(b"\n") if not status else []:
        fields = line.split()
        if len(fields) == 3 and fields[0] != b"#":
            at, times = int(fields[0], 16), int(fields[2])
            every[at] = every.get(at, 0) + times
            if not int(fields[1], 16) >> 63:
                own[at] = own.get(at, 0) + times
    return Counted(every, own)


def sources(text: Text) -> Dict[int, int]:
    """How many branches start at each address."""
    return counted(text).every


def most_frequent(program: Program, text: Text, name: str) -> List[int]:
    """The 50 most frequent sources of branches in the program, as offsets of its file.

    An interrupt or a page fault leads from any instruction into the kernel, so these are left out but for a kernel.
    """
    rows = laid_out(places(program, text, name))
    sums: Dict[int, int] = {}
    starts = [row.start for row in rows]
    for at, times in (counted(text).every if is_kernel(program) else counted(text).own).items():
        row = bisect.bisect_right(starts, at) - 1
        if row >= 0 and at < rows[row].end:
            place = at + rows[row].to_offset
            sums[place] = sums.get(place, 0) + times
    return sorted(sums, key=lambda at: (-sums[at], -at))[:50]


def branching(program: Program, text: Text, name: str) -> Sources:
    """The 50 most frequent sources of branches, by the file's instructions there."""
    top = most_frequent(program, text, name)
    good = sum(bool(BRANCH.match(program.headers().data[at : at + LONGEST])) for at in top)
    return Sources(good, len(top) - good)


def unfit_build(program: Program, profile: Dict[str, Node]) -> Iterator[Sign]:
    """The program was built in a way by which compilers find little of its profile."""
    makers = program.headers().makers()
    maker = makers[0].maker if makers else ""
    if not found.packs(maker):
        return
    ran = [each.lines for node in profile.values() for each in node.walk()]
    places_run = [place for lines in ran for place, line in lines.items() if line.count or line.targets]
    is_plain = len(places_run) >= MANY_LINES and not any(place.disc for place in places_run)
    if is_plain and not program.headers().has_discriminators():
        option = "-Z debug-info-for-profiling (nightly)" if maker == "rustc" else "-fdebug-info-for-profiling"
        yield Sign(f"{program.name} was built without {option.split(' (')[0]}: "
                   "a build by this profile can be slower than one without",
                   f"-g {option} on the build that is sampled, and on the one that takes the profile")
    old = [name for name in profile if OLD_RUST.fullmatch(name)]
    if maker == "rustc" and len(old) * 2 > len(profile):
        yield Sign("rustc spelled the names in its old way (_ZN..), and nightly builds, which read profiles, "
                   "spell them in another (_R..)",
                   "sample a build by the very rustc that takes the profile; "
                   "else -C symbol-mangling-version=v0 on both")


def few_samples(profiles: Iterable[Dict[str, Node]], branches: int) -> Iterator[Sign]:
    """The hot lines were met so seldom that chance has a say in them, or of so few samples all together."""
    nodes = [each for profile in profiles for node in profile.values() for each in node.walk()]
    counts = sorted((line.count for node in nodes for line in node.lines.values()), reverse=True)
    least, left = 0, HOT_SHARE * sum(counts)
    for least in counts:
        left -= least
        if left <= 0:
            break
    if 0 < least < FEW_SAMPLES:
        yield Sign(f"too few samples: some of the lines that make up {HOT_SHARE:.0%} of all counts were met {least} "
                   f"time{'s' * (least > 1)}",
                   f"{-(-FEW_SAMPLES // least)} times as many: record longer, or at a higher rate (perf record -F)")
    elif branches < FEW_BRANCHES:
        yield Sign(f"too few samples: {branches} branches in all",
                   "record longer, or at a higher rate (perf record -F)")
