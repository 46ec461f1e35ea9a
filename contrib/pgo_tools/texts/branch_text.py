"""Branch texts, as `perf script -F ip,brstack` prints them (docs/FORMATS.md, "Branch text"), and their load lines."""
import re
from typing import IO, Iterator, List, NamedTuple, Optional

from pgo_tools.cli import REFUSED, Trouble
from pgo_tools.texts.names import text_of

LONGEST, MOST_ENTRIES = 65536, 1024
# Texts are looked through by pieces of so many bytes.
PIECE = 1 << 20
RECORD = b"PERF_RECORD_"
LOAD = re.compile(
    rb"PERF_RECORD_MMAP2 (?:[^ \t]*[^ \t:][ \t]+)*[^ \t]*:[ \t]+\[0x([0-9a-fA-F]+)\(0x([0-9a-fA-F]+)\)"
    rb"[ \t]+@[ \t]+(0|0x[0-9a-fA-F]+)[ \t]+"
    rb"((?:(?![^ \t]*\]:[ \t])[^ \t]+[ \t]+)*[^ \t]*\]):[ \t]+([^ \t]+)[ \t](.+)", re.DOTALL)
BUILD = re.compile(rb"<([0-9a-fA-F]+)>\]$")
POINTER = re.compile(rb"(?:0x)?[0-9a-fA-F]+")
BEGINS = re.compile(rb"[ \t]*(?:0x)?[0-9a-fA-F]+[ \t]+0x[0-9a-fA-F]+/0x|[^\n]*PERF_RECORD_")
ENTRY = re.compile(rb"(0x[0-9a-fA-F]+)/(0x[0-9a-fA-F]+)(?:/.*)?", re.DOTALL)


class Load(NamedTuple):
    """A load line: at `start` are `size` bytes of a file, from its offset on. `build` is the file's number, or ""."""

    number: int
    start: int
    size: int
    offset: int
    rights: str
    name: str
    build: str

    def is_code(self) -> bool:
        return "x" in self.rights


class Branch(NamedTuple):
    """A branch that was taken."""

    source: int
    target: int


class Sample(NamedTuple):
    """A sample: the line's number, the instruction pointer or None, and the branches, newest first."""

    number: int
    pointer: Optional[int]
    branches: List[Branch]


class Line(NamedTuple):
    """A line of a text without its line feed, and its number."""

    number: int
    raw: bytes


def load_of(number: int, line: bytes) -> Optional[Load]:
    """The load of a load line; of another line None."""
    at = line.find(b"PERF_RECORD_MMAP2 ")
    match = LOAD.match(line, at) if at >= 0 and not line.startswith(b"#") else None
    if not match:
        return None
    build = BUILD.search(match[4])
    start, size, offset = (int(match[place], 16) for place in (1, 2, 3))
    name, shown = text_of(match[6]), text_of(build[1]).lower() if build else ""
    return Load(number, start, size, offset, text_of(match[5]), name, shown)


def is_at(path: str) -> bool:
    """The file at a path begins as a branch text does."""
    try:
        with open(path, "rb") as file:
            return bool(BEGINS.match(file.read(256)))
    except OSError:
        return False


def is_sample(line: bytes) -> bool:
    """A line is a sample: it is not blank, and neither a comment nor a record."""
    return not line.startswith(b"#") and bool(line.strip(b" \t")) and RECORD not in line


def lines(file: IO[bytes]) -> Iterator[Line]:
    """The lines of a stream of bytes. Of one that is too long a piece is given, which is too long as well.

    So no line is held whole however long it is.
    """
    number, is_begun = 0, False
    while piece := file.readline(LONGEST + 2):
        number += not is_begun
        if not is_begun:
            yield Line(number, piece[:-1] if piece.endswith(b"\n") else piece)
        is_begun = not piece.endswith(b"\n")


def loads(file: IO[bytes]) -> Iterator[Load]:
    """The load lines of a stream of bytes, from its first line to its last.

    Most pieces of a text have none, and are looked at whole.
    """
    number = 1
    while piece := file.read(PIECE):
        piece += file.readline(LONGEST + 1)
        if RECORD in piece:
            for at, line in enumerate(piece.split(b"\n"), number):
                load = load_of(at, line) if len(line) <= LONGEST else None
                if load is not None:
                    yield load
        number += piece.count(b"\n")
        while piece and not piece.endswith(b"\n"):
            # The rest of a line that is too long.
            piece = file.readline(LONGEST + 1)
            number += piece.count(b"\n")


def samples(file: IO[bytes], path: str = "the branch text") -> Iterator[Sample]:
    """Each sample of a stream of bytes; a Trouble at the first bad line."""
    for number, line in lines(file):
        if is_sample(line):
            yield sample_of(number, line, path)


def sample_of(number: int, line: bytes, path: str) -> Sample:
    if len(line) > LONGEST:
        raise Trouble(f"{path}: refused at {number}: LineTooLong", REFUSED)
    fields = re.split(rb"[ \t]+", line.strip(b" \t"))
    pointer = None
    if b"/" not in fields[0]:
        first = fields.pop(0)
        pointer = int(first, 16) if POINTER.fullmatch(first) else -1
    found = [match for match in map(ENTRY.fullmatch, fields) if match]
    if pointer is not None and not 0 <= pointer < 1 << 64 or len(found) < len(fields):
        raise Trouble(f"{path}: refused at {number}: BadLine", REFUSED, remedy(text_of(line)))
    branches = [Branch(int(match[1], 16), int(match[2], 16)) for match in found]
    if any(end >> 64 for branch in branches for end in branch):
        raise Trouble(f"{path}: refused at {number}: BadLine", REFUSED, remedy(text_of(line)))
    if len(branches) > MOST_ENTRIES:
        raise Trouble(f"{path}: refused at {number}: TooManyEntries", REFUSED)
    return Sample(number, pointer, branches)


# An address of more than 64 bits.
WIDE = re.compile(r"(?:^[ \t]*|0x|/)0*[1-9a-fA-F][0-9a-fA-F]{16}")
# What helps with a line that is no sample, by how it looks. What is not printed, as a tab, is a question mark.
LOOKS = [(re.compile(form), said) for form, said in [
    (r"Warning:|Processed [0-9]+ events|Check IO/CPU|\[ perf ",
     "perf's own message is in the text: perf script -F ip,brstack 2>perf.log keeps the two apart"),
    (r"[? ]*[0-9a-f]{8,}[? ]+insn: |\?[^ ?]+:(\?|$)|\?[0-9a-f]{8,}\?",
     "brstack and not brstackinsn: perf script -F ip,brstack"),
    (r"[^ ]+:[0-9]+:[0-9]+$", "it is a profile: the text that perf script -F ip,brstack prints"),
    (r"(func [^ ]+|block [0-9]+ 0x[0-9a-f]+ 0x[0-9a-f]+.*)$",
     "it is a block text: the text that perf script -F ip,brstack prints"),
    (r"(0x[0-9a-f]+(@.*)? \[0x|\. |\.$)", "perf script without -D"),
    (r".*([+][0-9a-fx]+/|\]/|\([^ ]*\)/)", "brstack without sym or dso: perf script -F ip,brstack"),
    (r" *(0x)?[0-9a-f]+ +[^0-9 ]", "no names beside the address: perf script -F ip,brstack"),
    (r" *[^ ]*[^0-9a-fx/ ][^ ]* | *[0-9a-fx]+ +[0-9a-fx]+( |$)",
     "no fields in front of the address: perf script -F ip,brstack"),
]]


def remedy(line: str, is_cut: bool = False) -> str:
    """What helps with a line that is refused."""
    if "\0" in line:
        return "it is no text: what perf script -F ip,brstack prints is one"
    # What is not printed is looked at as if it were a character, and a CR at the end as what it is.
    shown = re.sub(r"[^\x20-\x7e]", "?", line[:100])
    for form, said in LOOKS:
        if form.match(shown):
            return said
    if WIDE.search(line):
        return "it has an address of more than 64 bits, which perf does not print: print the text again"
    if "\r" in line:
        return 'take away the CR at its end: tr -d "\\r"'
    if is_cut:
        return "it is the last line, and was cut off: take it away (sed '$d'), or print the text again"
    return "perf script -F ip,brstack prints no such line"
