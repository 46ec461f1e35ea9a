"""Where functions begin and addresses lie in source files, as tools tell it, and what stands there.

A program names any file as its source. Lines are shown of files alone that lie below the folders that the caller
allows. """
import itertools
import os
import re
import stat
import tempfile
from typing import Dict, Iterable, Iterator, List, NamedTuple, Sequence

from pgo_tools.cli import REFUSED, Trouble
from pgo_tools.cli.limits import limited, limits_for
from pgo_tools.cli.programs import as_file, tool
from pgo_tools.texts.names import printable, text_of
from pgo_tools.texts.numbers import decimal

VERSIONS = range(30, 13, -1)
ENTRY = re.compile(r"0x[0-9a-f]+: +DW_TAG_(\w+)")
ATTRIBUTE = re.compile(r'\s*DW_AT_(\w+)\t\((?:0x[0-9a-f]+ )?(?:"(.*)"|([^)]*))\)')
MOST_BYTES, MOST_NAME, MOST_PATH, MOST_ASKED = 1 << 26, 4096, 4096, 256
# A program may name files without end, by paths of a thousand folders. So many files are looked for, each by so long an
# end of its path.
MOST_FILES, MOST_PARTS = 256, 64
# So many bytes are read of what a tool prints of an address.
MOST_PRINTED = 1 << 13
# What the kernel makes up, whatever folder is allowed.
MADE_UP = ("/proc/", "/sys/", "/dev/")


class Place(NamedTuple):
    """A line of a file, as the program's debugging information names it."""

    file: str
    line: int

    def shown(self) -> str:
        return f"{printable(os.path.basename(self.file))}:{self.line}"


class Begin(NamedTuple):
    """Where a function begins, by one entry: whether that defines it, the file, and the line."""

    defines: bool
    file: str
    line: int


def versions_of(name: str) -> List[str]:
    return [name] + [f"{name}-{number}" for number in VERSIONS]


def one_line(text: str) -> str:
    return " ".join(text.split())[:300]


def starts(binary: str, names: Iterable[str]) -> Dict[str, Place]:
    """Where functions of these names begin, by name; {} without llvm-dwarfdump."""
    dump = tool(*versions_of("llvm-dwarfdump"))
    found: Dict[str, Begin] = {}
    asked = [f"--name={name}" for name in names if len(name) <= MOST_NAME]
    if not dump:
        return {}
    for k in range(0, len(asked), MOST_ASKED):
        with limited([dump, *asked[k : k + MOST_ASKED], as_file(binary)], limits_for(binary)) as said:
            note_all(found, map(text_of, said.lines()))
        if said.status:
            # A file that is not there, or a folder, is told as such.
            open(binary, "rb").close()
            what = one_line(said.err).replace(f"error: {binary}: ", "")
            raise Trouble(f"{binary}: {what or 'llvm-dwarfdump fails'}", REFUSED)
    return {name: Place(it.file, it.line) for name, it in found.items()}


def note_all(found: Dict[str, Begin], lines: Iterable[str]) -> None:
    """Keeps where the functions begin of which these lines tell."""
    entry: Dict[str, str] = {}
    for line in itertools.chain(lines, ["0x0: DW_TAG_end"]):
        tag = ENTRY.match(line)
        attribute = ATTRIBUTE.match(line)
        if tag:
            note(found, entry)
            entry = {"tag": tag[1]}
        elif attribute:
            entry[attribute[1]] = attribute[3] if attribute[2] is None else attribute[2]


def note(found: Dict[str, Begin], entry: Dict[str, str]) -> None:
    """Keeps where a function begins: a definition says it better than a declaration."""
    line = re.fullmatch(decimal(9), entry.get("decl_line", ""))
    if entry.get("tag") != "subprogram" or not line:
        return
    defines = "declaration" not in entry
    for name in {entry.get(it) for it in ("name", "linkage_name", "specification", "abstract_origin")}:
        if name is not None and (name not in found or defines > found[name].defines):
            # A definition in the same file as its declaration does not say it again.
            file = entry.get("decl_file") or (found[name].file if name in found else "")
            found[name] = Begin(defines, file, int(line[1]))


def places(binary: str, addresses: Sequence[int]) -> Dict[int, Place]:
    """The lines of addresses, by address, of those that have one; {} without llvm-symbolizer or addr2line."""
    symbolizer = tool(*versions_of("llvm-symbolizer"))
    if symbolizer:
        words, between = [symbolizer, f"--obj={binary}", "--functions=none", "--no-inlines"], "\n\n"
    else:
        older = tool("addr2line")
        if not older:
            return {}
        words, between = [older, "-e", as_file(binary)], "\n"
    if not addresses:
        return {}
    limits = limits_for(binary)
    limits = limits._replace(printed=min(limits.printed, MOST_PRINTED * (len(addresses) + 1)))
    with tempfile.TemporaryFile() as given:
        given.write("".join(f"{each:#x}\n" for each in addresses).encode())
        given.seek(0)
        with limited(words, limits, given) as said:
            told = text_of(b"".join(iter(lambda: said.read(1 << 16), b""))).split(between)
    if said.status:
        raise Trouble(f"{binary}: {one_line(said.err) or words[0] + ' fails'}", REFUSED)
    if len(told) != len(addresses) + 1:
        return {}
    found = {}
    for address, line in zip(addresses, told):
        match = re.fullmatch(rf"(.+?):{decimal(9)}(?::[0-9]+)?(?: \(discriminator [0-9]+\))?\n?", line)
        if match and match[1] != "??" and int(match[2]):
            found[address] = Place(match[1], int(match[2]))
    return found


class Sources:
    """Source files, looked for where they were, and then by the ends of their paths, below these folders alone."""

    def __init__(self, folders: Iterable[str]) -> None:
        self.folders = list(dict.fromkeys(os.path.realpath(each or ".") for each in folders))
        self.lines: Dict[str, List[str]] = {}

    def has(self, place: Place) -> bool:
        return bool(self.of(place.file))

    def line(self, place: Place) -> str:
        """What stands there, printable, or "" where the file is not found or shorter."""
        lines = self.of(place.file)
        return printable(lines[place.line - 1].strip()) if 0 < place.line <= len(lines) else ""

    def of(self, path: str) -> List[str]:
        """The lines of a source file, none where it is not found."""
        if path not in self.lines:
            if len(self.lines) >= MOST_FILES:
                return []
            tried = map(self.read, self.candidates(path))
            self.lines[path] = next(filter(None, tried), [])
        return self.lines[path]

    def candidates(self, path: str) -> Iterator[str]:
        if len(path) > MOST_PATH or "\0" in path:
            return
        yield path
        parts = path.strip("/").split("/")[-MOST_PARTS:]
        for folder in self.folders:
            for k in range(len(parts)):
                yield os.path.join(folder, *parts[k:])

    def allows(self, place: str) -> bool:
        """The file, its links followed, lies below one of the folders, and in none there that is hidden."""
        if place.startswith(MADE_UP):
            return False
        below = [os.path.relpath(place, each) for each in self.folders]
        return any(not part.startswith(".") for part in below if "/." not in part)

    def read(self, path: str) -> List[str]:
        """The lines of a file that is allowed, [] of any other."""
        place = os.path.realpath(path)
        if not self.allows(place):
            return []
        try:
            handle = os.open(place, os.O_RDONLY | os.O_NONBLOCK | os.O_NOFOLLOW | os.O_CLOEXEC)
        except OSError:
            return []
        if not stat.S_ISREG(os.fstat(handle).st_mode):
            os.close(handle)
            return []
        with os.fdopen(handle, "rb") as file:
            return text_of(file.read(MOST_BYTES)).split("\n")
