"""What a profile's text holds, and the manifest beside each sum of profiles.

A manifest tells which files went into a sum, each with its size, SHA-256 and weight; which were left out, each with the
reason; and what the sum is. A sum is believed only where its bytes are those that its manifest tells.
"""
import hashlib
import json
import os
import re
from typing import Callable, IO, Iterable, List, NamedTuple, Optional, Sequence, Set, Tuple, TypeVar, Union

from pgo_tools.cli import FAILED, USAGE, Trouble
from pgo_tools.cli.files import MOST_TEXT, opened, put_in_place
from pgo_tools.fleet.owner import keep_own, opened_own
from pgo_tools.texts import profile_text
from pgo_tools.texts.names import raw_of
from pgo_tools.texts.numbers import decimal

FORM = "merge-tree 1"
BLOCK = 1 << 20
# How many numbers of a stamp tell whether a file was written to.
WRITTEN = 3

# A body line's count, a function's head, a report without a branch inside, a line that is neither blank nor a comment,
# and the build that was sampled.
# Behind any zeros a number has 20 digits at most: pgo refuses what has more.
COUNT = re.compile(rb"\n +[0-9.]+: %s(?![^ \n])" % decimal(20).encode())
HEAD = re.compile(rb"\n[^ \n#][^\n]*:%s(?![^\n])" % decimal(20).encode())
OUTSIDE = re.compile(rb"\n# inside 0(?![^\n])")
SAYS = re.compile(rb"\n *[^ \n#]")
BUILD = re.compile(rb"\n# build ([^\r\n]*)")
# So many builds of a text are told, and so many bytes of each: a text of strangers may name any number.
MOST_BUILDS, LONGEST_BUILD = 8, 256


class Facts(NamedTuple):
    """What a text is: its bytes, the sums of its counts and of its heads, whether it says anything, its builds, and
    whether all branches of its report are outside of the program."""

    size: int
    sha256: str
    total: int
    heads: int
    says: bool
    builds: List[str]
    outside: bool = False


class Reader:
    """Takes in a text piece by piece, so that a large one is not held."""

    def __init__(self) -> None:
        self.digest = hashlib.sha256()
        self.size = self.total = self.heads = 0
        self.says = self.outside = False
        self.builds: Set[bytes] = set()
        self.open: List[bytes] = []

    def add(self, block: bytes) -> None:
        """Takes in the next piece."""
        self.digest.update(block)
        self.size += len(block)
        end = block.rfind(b"\n")
        if end < 0:
            self.open.append(block)
            return
        self.lines(b"".join([b"\n", *self.open, block[:end]]))
        self.open = [block[end + 1 :]]

    def lines(self, lines: bytes) -> None:
        """Whole lines, each behind a line feed."""
        self.total += sum(map(int, COUNT.findall(lines)))
        self.heads += sum(map(int, HEAD.findall(lines)))
        self.says = self.says or bool(SAYS.search(lines))
        self.outside = not self.says and (self.outside or bool(OUTSIDE.search(lines)))
        for build in BUILD.findall(lines):
            if len(self.builds) < MOST_BUILDS:
                self.builds.add(build[:LONGEST_BUILD])

    def facts(self) -> Facts:
        """The facts of all that was taken in, which was the whole text."""
        self.lines(b"".join([b"\n", *self.open]))
        builds = sorted(build.decode("utf-8", "backslashreplace") for build in self.builds)
        return Facts(self.size, self.digest.hexdigest(), self.total, self.heads, self.says, builds, self.outside)


def facts_of(file: IO[bytes], copy: Optional[IO[bytes]] = None, most: Optional[int] = None) -> Facts:
    """The facts of a stream of bytes from where it stands, which is copied on the way to another one if that is given.

    If it has more than `most` bytes, and that is given, they are those of its first part, which is larger than that.
    """
    reader = Reader()
    while True:
        block = file.read(BLOCK)
        if not block or most is not None and reader.size > most:
            return reader.facts()
        reader.add(block)
        if copy is not None:
            copy.write(block)


def facts_written(file: IO[bytes]) -> Facts:
    """The facts of a new file that is open for writing. It is read by its number: another file may take its name."""
    file.flush()
    with open(f"/dev/fd/{file.fileno()}", "rb") as text:
        return facts_of(text)


def facts_within(file: IO[bytes], size: int) -> Facts:
    """The facts of a file of this size, of which no more is read than a profile may have.

    The file may grow, and hold nothing but a line.
    """
    return Facts(size, "", 0, 0, True, []) if size > MOST_TEXT else facts_of(file, most=MOST_TEXT)


class Input(NamedTuple):
    """The counts and heads that went into a sum with one input."""

    weight: int
    total: int
    heads: int


class Entry(NamedTuple):
    """A file that went in. The stamp tells whether it has been written to since."""

    name: str
    weight: int
    size: int
    sha256: str
    total: int
    heads: int
    stamp: List[int]

    def input(self) -> Input:
        """Its counts and heads, by its weight."""
        return Input(self.weight, self.total, self.heads)


class LeftOut(NamedTuple):
    """A file that did not go in: its first bad place, or another build (which is no fault of the file)."""

    name: str
    weight: int
    why: str
    status: int
    bad: bool
    stamp: List[int]

    def line(self) -> str:
        """The file and the reason."""
        return f"{self.name}: {self.why}"


class Below(NamedTuple):
    """A part that went in, by its name in the tree and its bytes."""

    name: str
    sha256: str


class Manifest(NamedTuple):
    """What stands beside a sum. `tree` and `want` tell of which tree it is, and of which files in it."""

    tree: str
    want: str
    size: int
    sha256: str
    total: int
    heads: int
    says: bool
    build: str
    merged: int
    bad: int
    files: List[Entry] = []
    parts: List[Below] = []
    left_out: List[LeftOut] = []

    def input(self) -> Input:
        """The counts and heads of the sum, once."""
        return Input(1, self.total, self.heads)


def stamp_of(seen: os.stat_result) -> List[int]:
    """The numbers of a file that change when its bytes do. The last one changes with its names and its mode, too."""
    return [seen.st_ino, seen.st_size, seen.st_mtime_ns, seen.st_ctime_ns]


def written_of(seen: os.stat_result) -> List[int]:
    """The same without what a further name changes: a snapshot by links may come while a file is read."""
    return stamp_of(seen)[:WRITTEN]


def stamp_at(path: str) -> List[int]:
    """The same of the file at a path; nothing where there is none, nor can be."""
    try:
        return stamp_of(os.stat(path))
    except (OSError, ValueError, TypeError):
        return []


def rows(key: str, entries: Sequence[Union[Entry, Below, LeftOut]]) -> str:
    """A list of entries as JSON, one a line."""
    lines = ",\n  ".join(json.dumps(entry._asdict()) for entry in entries)
    return f' "{key}": [\n  {lines}\n ]' if entries else f' "{key}": []'


def write(path: str, manifest: Manifest, more: Iterable[Tuple[str, object]] = (), lasting: bool = True) -> None:
    """Puts a manifest in place. `more` are further pairs at its front."""
    lists = ("files", "parts", "left_out")
    own_fields = ((key, value) for key, value in manifest._asdict().items() if key not in lists)
    said = [f" {json.dumps(key)}: {json.dumps(value)}" for key, value in [("form", FORM), *more, *own_fields]]
    said += [rows(key, getattr(manifest, key)) for key in lists if getattr(manifest, key) or key == "left_out"]
    with put_in_place(path, lasting=lasting) as file:
        file.write(("{\n" + ",\n".join(said) + "\n}\n").encode("ascii"))
        keep_own(file)


# A manifest or an entry of one.
Told = TypeVar("Told", bound=Tuple[object, ...])


def checked(told: Told) -> Told:
    """A manifest or an entry as it is; a TypeError or ValueError if a field has a value that is never written."""
    for value, kind in zip(told, type(told).__annotations__.values()):
        if isinstance(kind, type) and type(value) is not kind:
            raise TypeError
        if isinstance(value, str):
            raw_of(value)
    return told


def own(path: str) -> Optional[Manifest]:
    """The manifest at a path, as `read` does; a Trouble if another user owns it or may write it."""
    return read(path, opened_own)


def read(path: str, opening: Callable[[str], Tuple[IO[bytes], os.stat_result]] = opened) -> Optional[Manifest]:
    """The manifest at a path; None if there is none that was written to its end."""
    try:
        with opening(path)[0] as file:
            told = json.load(file)
        if told.get("form") != FORM:
            return None
        files = [checked(Entry(**each)) for each in told.get("files", [])]
        parts = [checked(Below(**each)) for each in told.get("parts", [])]
        left_out = [checked(LeftOut(**each)) for each in told.get("left_out", [])]
        plain = {key: told[key] for key in Manifest._fields if key not in ("files", "parts", "left_out")}
        return checked(Manifest(**plain, files=files, parts=parts, left_out=left_out))
    except (FileNotFoundError, ValueError, TypeError, KeyError, AttributeError, RecursionError):
        return None


def differs(facts: Facts, manifest: Manifest) -> str:
    """What a text is told to be and is not, or nothing."""
    if facts.size != manifest.size:
        return f"it has {facts.size} bytes, and its manifest says {manifest.size}"
    return "" if facts.sha256 == manifest.sha256 else "its bytes are others than its manifest says"


def sum_of(inputs: Iterable[Input]) -> Input:
    """The counts and heads of all inputs together."""
    listed = list(inputs)
    return Input(1, sum(each.weight * each.total for each in listed), sum(each.weight * each.heads for each in listed))


def check_sums(what: str, facts: Facts, inputs: Iterable[Input]) -> None:
    """Refuses a sum whose counts or heads do not add up to those that went in."""
    whole = sum_of(inputs)
    for of, went_in, came_out in (("total", whole.total, facts.total), ("heads", whole.heads, facts.heads)):
        if went_in != came_out:
            raise Trouble(f"{what}: {of} of {went_in} went in, and {came_out} came out", FAILED,
                          "a look at the disk and the memory")


def beside(out: str) -> str:
    """Where the manifest of an output stands."""
    return out + ".manifest"


def check_place(out: str) -> None:
    """Refuses a place for a sum and its manifest where something else stands, which would be lost."""
    if profile_text.would_go(out):
        raise Trouble(f"{out} is no profile in text, and would be lost", USAGE, "another name")
    if os.path.exists(beside(out)) and read(beside(out)) is None:
        raise Trouble(f"{beside(out)} is no manifest of merge-tree, and would be lost", USAGE, "another name")
