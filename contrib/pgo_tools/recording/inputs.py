"""A recording in whatever form it comes as a plain branch text, and a program with all that it needs in one file.

What has to be made for that is in a folder of the caller's own. What cannot be made is left as it is: pgo says why.
"""
import functools
import os
import re
import shutil
import stat
import subprocess
import zlib
from typing import IO, Iterator, List, NamedTuple, Optional, Sequence, Tuple

from pgo_tools.cli import programs
from pgo_tools.cli import USAGE, WRITE_FAULT, Trouble
from pgo_tools.cli.files import PACKED, held, kind_by, kind_of, open_packed
from pgo_tools.elf import LARGEST, Elf
from pgo_tools.texts import branch_text
from pgo_tools.texts.branch_text import LONGEST, PIECE, Load
from pgo_tools.texts.names import text_of

DEBUG_FOLDER = "/usr/lib/debug"
# A branch text has at most so many bytes (docs/LIMITS.md).
MOST_BYTES = 1 << 40


class Build(NamedTuple):
    """The number of a file's build."""

    name: str
    number: str


class Text(NamedTuple):
    """A branch text: its name as the user gave it, the plain file, and what perf said where it could not print it.

    `builds` are the numbers of builds that the recording has, `asked` the words by which its samples were chosen.
    """

    name: str
    path: str
    said: str = ""
    builds: Tuple[Build, ...] = ()
    asked: Tuple[str, ...] = ()

    def is_file(self) -> bool:
        return os.path.isfile(self.path)

    @functools.lru_cache(maxsize=1)
    def loads(self) -> List[Load]:
        """The load lines of code, each with the number of its build where it or the recording has one."""
        if not self.is_file():
            return []
        builds = dict(self.builds)
        with open(self.path, "rb") as file:
            loads = [load for load in branch_text.loads(file) if load.is_code()]
        return [load if load.build else load._replace(build=builds.get(load.name, "")) for load in loads]

    def ends(self) -> bool:
        """Its last line has a line feed; an empty text, or one that cannot be looked at, is taken to end."""
        if not self.is_file() or not os.path.getsize(self.path):
            return True
        with open(self.path, "rb") as file:
            file.seek(-1, os.SEEK_END)
            return file.read(1) == b"\n"


def is_stream(path: str) -> bool:
    """It is read once: a pipe, a socket, and the input whatever it is, which a further program would not find."""
    try:
        mode = os.stat(path).st_mode
    except OSError:
        return False
    is_input = os.path.normpath(path) in ("/dev/stdin", "/dev/fd/0", "/proc/self/fd/0")
    return stat.S_ISFIFO(mode) or stat.S_ISSOCK(mode) or is_input and not stat.S_ISDIR(mode)


def as_given(asked: Sequence[str]) -> str:
    """The words that choose samples, as pgo-profile takes them: perf script has --comms= for its --comm=."""
    return " and ".join(asked).replace("--comms=", "--comm=")


def text_in(name: str, folder: str, asked: Sequence[str]) -> Text:
    """The branch text in a file, a packed one, a recording, or a pipe.

    `asked` are words for perf script that choose samples.
    """
    path = programs.as_file(name)
    kind = kind_of(path)
    if kind in PACKED or is_stream(path):
        path = copy_of(path, f"{folder}/text")
        kind = kind_of(path)
    if kind == "recording":
        return printed(name, path, folder, asked)
    if asked:
        raise Trouble(f"{as_given(asked)}: {name} is no recording (perf.data), of which samples are chosen", USAGE)
    return Text(name, path)


def room_in(folder: str) -> int:
    """How many bytes may be made there: half of the room that is free. Others need room, too."""
    return shutil.disk_usage(folder).free // 2


def no_room(folder: str, what: str = "") -> Trouble:
    helps = "room there, or TMPDIR in front, which names another folder"
    return Trouble(f"write fault in {folder}{what}", WRITE_FAULT, helps)


def begun_line(piece: bytes, begun: int) -> Optional[int]:
    """How many bytes of the line that goes on after a piece of a text are read; None where a line is too long.

    `begun` is their number before the piece.
    """
    at = -begun
    while len(piece) - at > LONGEST:
        end = piece.rfind(b"\n", max(at, 0), at + LONGEST + 1)
        if end < 0:
            return None
        at = end + 1
    end = piece.rfind(b"\n", max(at, 0))
    return len(piece) - (at if end < 0 else end + 1)


def pieces(source: IO[bytes], path: str) -> Iterator[bytes]:
    """The content of a file, piece by piece; a fault of reading names the file."""
    try:
        while piece := source.read(PIECE):
            yield piece
    except OSError as reason:
        raise OSError(reason.errno, reason.strerror, path) from None


def copied(source: IO[bytes], path: str, copy: str) -> bool:
    """Copies a stream, that of a file of this name: whether to its end.

    A text ends where pgo refuses it in any case: a packed one may have no end.
    """
    folder = os.path.dirname(copy)
    room, size, is_text = room_in(folder), 0, False
    begun: Optional[int] = 0
    try:
        with open(copy, "wb") as target:
            for piece in pieces(source, path):
                is_text = is_text if size else kind_by(piece) != "recording"
                size += len(piece)
                if size > room:
                    raise no_room(folder, f": {path} takes more than half of the room that is free")
                target.write(piece)
                begun = begun_line(piece, begun or 0) if is_text else 0
                if begun is None or size > MOST_BYTES:
                    return False
    except OSError as reason:
        if reason.filename not in (None, copy):
            raise
        raise no_room(folder) from None
    return True


def copy_of(path: str, copy: str) -> str:
    """The content of a file or a pipe, unpacked, as a file."""
    with open_packed(path) as source:
        copied(source, path, copy)
    return copy


def printed(name: str, path: str, folder: str, asked: Sequence[str]) -> Text:
    """A recording as perf script prints it, where perf is there and can."""
    perf = programs.tool("perf")
    if not perf:
        return Text(name, path, "there is no perf here to print it")
    words = [perf, "script", "-i", os.path.abspath(path), "--show-mmap-events", "-F", "ip,brstack", *asked]
    copy = f"{folder}/printed"
    with open(f"{folder}/said", "w+b") as said:
        with programs.running(words, stdin=subprocess.DEVNULL, stdout=subprocess.PIPE, stderr=said) as process:
            is_whole = copied(held(process.stdout), name, copy)
        # Where no more of its text is taken it ends by SIGPIPE, or as a script around it does: pgo refuses the text.
        if is_whole and process.returncode:
            said.seek(0)
            last = text_of(said.read()).strip().split("\n")[-1]
            return Text(name, path, f"perf script says: {last or f'nothing, and ends with {process.returncode}'}")
    told = programs.answer(perf, "buildid-list", "-i", os.path.abspath(path))
    builds = re.findall(r"^([0-9a-f]{8,}) (/.*)$", told, re.MULTILINE)
    return Text(name, copy, "", tuple(Build(each, number) for number, each in builds), tuple(asked))


class Program(NamedTuple):
    """A program: its name as the user gave it, the file with all that it needs, and its ELF headers or None."""

    name: str
    path: str
    elf: Optional[Elf]
    debug: str = ""

    def base_name(self) -> str:
        return os.path.basename(self.name)

    def headers(self) -> Elf:
        """The ELF headers of what is known to be a program."""
        if self.elf is None:
            raise Trouble(f"the headers of {self.name} are damaged", helps="copy or link the file again")
        return self.elf


def opened(path: str) -> Optional[Elf]:
    """The ELF headers of a file, or None."""
    try:
        return Elf(path) if os.path.isfile(path) else None
    except (Trouble, OSError):
        return None


def program_in(name: str, folder: str) -> Program:
    """The program of this name, joined with its debug file and unpacked, where that is needed and can be done."""
    path, debug = programs.as_file(name), ""
    elf = opened(path)
    if elf is not None and not has_information(elf):
        debug = debug_file(path, elf)
        path, elf = made_of(path, elf, joined(path, debug, folder) if debug else None)
    if elf is not None and elf.is_compressed():
        path, elf = made_of(path, elf, decompressed(path, elf, folder))
    return Program(name, path, elf, debug)


def has_information(elf: Elf) -> bool:
    return any(elf.section(each) for each in (".debug_info", ".zdebug_info"))


def made_of(path: str, elf: Elf, made: Optional[str]) -> Tuple[str, Elf]:
    """The file that was made in place of a program, where it is loaded as the program is: load lines need that."""
    new = opened(made) if made else None
    if not made or new is None or new.segments != elf.segments:
        return path, elf
    return made, new


def decompressed(path: str, elf: Elf, folder: str) -> Optional[str]:
    """The program with its debugging information unpacked, or None: also where pgo would take no program that large."""
    objcopy = programs.tool("objcopy", "llvm-objcopy", "eu-elfcompress")
    size = elf.unpacked_size()
    if not objcopy or size > LARGEST:
        return None
    if size > room_in(folder):
        raise no_room(folder, f": {path} takes more than half of the room that is free once it is unpacked")
    made = f"{folder}/plain"
    word = "--decompress-debug-sections"
    is_elfcompress = objcopy.endswith("eu-elfcompress")
    words = [objcopy, "-t", "none", "-o", made, path] if is_elfcompress else [objcopy, word, path, made]
    return made if programs.call(words).status == 0 else None


def joined(path: str, debug: str, folder: str) -> Optional[str]:
    unstrip = programs.tool("eu-unstrip")
    made = f"{folder}/whole"
    return made if unstrip and programs.call([unstrip, "-o", made, "--", path, debug])[0] == 0 else None


def debug_file(path: str, elf: Elf) -> str:
    """The program's debug file by its build's number or by the name in it (GDB, "Separate Debug Files"), or ""."""
    number, link = elf.build_id(), elf.debug_link()
    by_number = f"{DEBUG_FOLDER}/.build-id/{number[:2]}/{number[2:]}.debug"
    if number and is_of(by_number, number, None):
        return by_number
    if link:
        beside = os.path.dirname(os.path.realpath(path))
        for place in (f"{beside}/{link.name}", f"{beside}/.debug/{link.name}", f"{DEBUG_FOLDER}{beside}/{link.name}"):
            if not same_file(place, path) and is_of(place, number, link.checksum):
                return place
    return ""


def same_file(place: str, path: str) -> bool:
    return os.path.exists(place) and os.path.samefile(place, path)


def is_of(place: str, number: str, checksum: Optional[int]) -> bool:
    """The file at a place is of the same build: by its number, else by the checksum that the program has of it."""
    debug = opened(place)
    if debug is None or not has_information(debug):
        return False
    if number and debug.build_id():
        return number == debug.build_id()
    return checksum is not None and zlib.crc32(debug.data) == checksum
