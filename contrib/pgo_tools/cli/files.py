"""Files: what their first bytes say that they are, packed ones read as plain ones, and outputs put in place whole."""
import bz2
import contextlib
import errno
import gzip
import io
import lzma
import os
import shutil
import stat
import subprocess
import tempfile
import threading
import zlib
from typing import IO, TYPE_CHECKING, BinaryIO, Iterable, Iterator, List, NamedTuple, Optional, Pattern, Protocol, Tuple

from pgo_tools.cli import READ_FAULT, REFUSED, USAGE, WRITE_FAULT, Trouble, given, undisturbed
from pgo_tools.texts.names import text_of

if TYPE_CHECKING:
    from _typeshed import WriteableBuffer

# What a file is by its first bytes.
MAGICS = [
    (b"\x7fELF", "program"), (b"PERFILE2", "recording"), (b"\x1f\x8b", "gz"), (b"\xfd7zXZ\0", "xz"),
    (b"\x28\xb5\x2f\xfd", "zst"), (b"BZh", "bz2"), (b"!<arch>\n", "archive"), (b"!<thin>\n", "archive"),
    (b"#!", "script"), (b"PK\3\4", "zip"), (b"7z\xbc\xaf", "7z"), (b"\x04\x22\x4d\x18", "lz4"), (b"\xff\xfe", "utf-16"),
    (b"\xfe\xff", "utf-16"),
]
PACKED = ("gz", "xz", "zst", "bz2")
# What no script here reads, and what helps.
FOREIGN = {
    "zip": "it is a zip archive: unpack it", "7z": "it is a 7z archive: unpack it",
    "lz4": "it is packed by lz4: unpack it", "tar": "it is a tar archive: unpack it",
    "utf-16": "it is text of 16 bits a letter: iconv -f UTF-16 -t UTF-8",
}
HEAD = 512
# A profile, a block text or a repair has at most so many bytes (docs/FORMATS.md).
MOST_TEXT = 1 << 28
# A text is read by pieces of so many bytes.
PIECE = 1 << 18


class Source(Protocol):
    """A stream of bytes that is read once, and closed."""

    def read(self, size: int) -> bytes:
        """The next bytes, of at most this many; none at its end."""

    def close(self) -> None:
        """Ends the reading."""


class CutLine(str):
    """A last line that has no line feed, as of a text that was cut off."""


class Opened(NamedTuple):
    """A file that is open, and what the system knows of it."""

    file: BinaryIO
    seen: os.stat_result


class Created(NamedTuple):
    """A file that was made: its number as an open one, and its name."""

    handle: int
    name: str


def kind_by(head: bytes) -> str:
    """What a file is that begins with these bytes: a word of MAGICS, "tar", "empty", or "" for anything else."""
    if not head:
        return "empty"
    if head[257:262] == b"ustar":
        return "tar"
    return next((kind for magic, kind in MAGICS if head.startswith(magic)), "")


def kind_of(path: str) -> str:
    """What the file at a path is; "" for what is no file or cannot be read."""
    try:
        if not os.path.isfile(path):
            return ""
        with open(path, "rb") as file:
            return kind_by(file.read(HEAD))
    except OSError:
        return ""


def held(stream: Optional[IO[bytes]]) -> IO[bytes]:
    """The stream of a program that was started with a pipe for it."""
    assert stream is not None
    return stream


class Unpacker:
    """What a program such as zstd unpacks of a stream."""

    def __init__(self, words: List[str], source: BinaryIO) -> None:
        self.source = source
        self.process = subprocess.Popen(words, stdin=subprocess.PIPE, stdout=subprocess.PIPE, stderr=subprocess.DEVNULL)
        threading.Thread(target=self.feed, daemon=True).start()

    def feed(self) -> None:
        stdin = held(self.process.stdin)
        with contextlib.suppress(OSError, ValueError):
            shutil.copyfileobj(self.source, stdin, 1 << 16)
        with contextlib.suppress(OSError, ValueError):
            stdin.close()

    def read(self, size: int) -> bytes:
        piece = held(self.process.stdout).read(size)
        if not piece and self.process.wait():
            raise EOFError("its end is not there")
        return piece

    def close(self) -> None:
        self.process.kill()
        held(self.process.stdout).close()
        self.process.wait()


class Checked(io.RawIOBase):
    """A packed stream whose damage is a Trouble that names the file."""

    def __init__(self, stream: Source, path: str) -> None:
        super().__init__()
        self.stream, self.path = stream, path

    def readable(self) -> bool:
        return True

    def readinto(self, buffer: "WriteableBuffer") -> int:
        view = memoryview(buffer)
        try:
            piece = self.stream.read(len(view))
        except (EOFError, OSError, lzma.LZMAError, zlib.error) as reason:
            what = f"{self.path} is packed, and damaged or cut off ({reason})"
            raise Trouble(what, READ_FAULT, "pack it again") from None
        view[: len(piece)] = piece
        return len(piece)

    def close(self) -> None:
        if not self.closed:
            self.stream.close()
        super().close()


def unpacked(file: BinaryIO, kind: str, path: str) -> Source:
    """What a packed stream holds, as a stream to read and to close."""
    if kind == "gz":
        return gzip.GzipFile(fileobj=file)
    if kind == "xz":
        return lzma.LZMAFile(file)
    if kind == "bz2":
        return bz2.BZ2File(file)
    if not shutil.which("zstd"):
        raise Trouble(f"{path} is packed by zstd, which is not there", READ_FAULT, "unpack it")
    return Unpacker(["zstd", "-dcq"], file)


@contextlib.contextmanager
def open_packed(path: str) -> Iterator[BinaryIO]:
    """The file or pipe at a path as a stream of bytes, unpacked where it is packed. It is read once, from its start."""
    with open(path, "rb") as file:
        kind = kind_by(file.peek(8)[:8])
        if kind not in PACKED:
            yield file
            return
        with io.BufferedReader(Checked(unpacked(file, kind, path), path), 1 << 16) as stream:
            yield stream


def too_large(path: str, limit: int) -> Trouble:
    return Trouble(f"{path} has more than {limit} bytes", REFUSED)


def read_packed(path: str, limit: int = MOST_TEXT) -> bytes:
    """The bytes of a file or pipe, or of the input for "-", unpacked, of at most so many."""
    try:
        with open_packed(path) if path != "-" else contextlib.nullcontext(given()) as file:
            raw = file.read(limit + 1)
    except OSError as reason:
        raise OSError(reason.errno, reason.strerror, path) from None
    if len(raw) > limit:
        raise too_large(path, limit)
    return raw


def opened(path: str) -> Opened:
    """A file that is open, and what the system tells of it. It is one that can be read again."""
    handle = os.open(path, os.O_RDONLY | os.O_CLOEXEC | os.O_NONBLOCK)
    seen = os.fstat(handle)
    if not stat.S_ISREG(seen.st_mode):
        os.close(handle)
        raise IsADirectoryError(errno.EISDIR, "it is a folder" if stat.S_ISDIR(seen.st_mode) else "it is no file", path)
    return Opened(os.fdopen(handle, "rb"), seen)


class Lines:
    """The lines of a stream of bytes as texts, without their line feeds, each with its number.

    A packed one may have no end. Where `wanted` is a pattern, which begins with ^, only lines are given at which it matches, and
    the others are passed over without a step for each. `number` is how many lines there were so far, those that were passed
    over too.
    """

    def __init__(self, file: IO[bytes], path: str, wanted: Optional[Pattern[bytes]]) -> None:
        self.file, self.path, self.wanted = file, path, wanted
        self.number = 0
        # Whole lines, and from where on they are still to be given; the front of the line behind them.
        self.held, self.at, self.front = b"", 0, b""
        self.left, self.is_over = MOST_TEXT, False

    def __iter__(self) -> Iterator[Tuple[int, str]]:
        return self

    def fill(self) -> bool:
        """Reads on up to the end of a line, or of the stream; False where nothing is left."""
        pieces = [self.front]
        while True:
            piece = b"" if self.is_over else self.file.read(min(PIECE, self.left + 1))
            if len(piece) > self.left:
                piece, self.is_over = piece[: self.left], True
            elif not piece:
                if self.is_over:
                    raise too_large(self.path, MOST_TEXT)
                self.held, self.at, self.front = b"".join(pieces), 0, b""
                return bool(self.held)
            self.left -= len(piece)
            cut = piece.rfind(b"\n") + 1
            if cut:
                self.held, self.at, self.front = b"".join([*pieces, piece[:cut]]), 0, piece[cut:]
                return True
            pieces.append(piece)

    def __next__(self) -> Tuple[int, str]:
        while True:
            if self.at >= len(self.held) and not self.fill():
                raise StopIteration
            if self.wanted is not None:
                found = self.wanted.search(self.held, self.at)
                at = found.start() if found else len(self.held)
                self.number += self.held.count(b"\n", self.at, at)
                if at == len(self.held):
                    self.number += not self.held.endswith(b"\n")
                    self.at = at
                    continue
                self.at = at
            end = self.held.find(b"\n", self.at)
            is_cut = end < 0
            end = len(self.held) if is_cut else end
            line, self.at = self.held[self.at : end], end + 1
            self.number += 1
            return self.number, CutLine(text_of(line)) if is_cut else text_of(line)


def lines_of(file: IO[bytes], path: str, wanted: Optional[Pattern[bytes]] = None) -> Lines:
    """The lines of a stream; of those that are passed over, see `Lines`."""
    return Lines(file, path, wanted)


def target_of(path: str, inputs: Iterable[str] = ()) -> str:
    """The file that an output goes to, links followed; a Trouble for a folder, a device, a pipe, or an input."""
    if path.endswith(os.sep):
        raise Trouble(f"{path}: it is the name of a folder", WRITE_FAULT)
    place = os.path.realpath(path)
    try:
        mode = os.stat(path).st_mode
    except FileNotFoundError:
        mode = stat.S_IFREG
    except OSError:
        raise Trouble(f"{path}: nothing can be written there", WRITE_FAULT) from None
    if stat.S_ISDIR(mode):
        raise Trouble(f"{path}: it is a folder", WRITE_FAULT)
    if not stat.S_ISREG(mode):
        raise Trouble(f"{path}: it is a device or a pipe, and no file", WRITE_FAULT)
    for each in inputs:
        if is_same(place, each):
            raise Trouble(f"{path}: it is read, too: {each}", USAGE)
    return place


def is_same(place: str, other: str) -> bool:
    """Two names are of one file."""
    try:
        return os.path.samefile(place, other)
    except OSError:
        return os.path.realpath(other) == place


def created(place: str) -> Created:
    """A new file beside a place, opened, with its name."""
    for number in range(1000):
        new = f"{place}.{os.getpid()}.{number}.new"
        try:
            return Created(os.open(new, os.O_WRONLY | os.O_CREAT | os.O_EXCL | os.O_CLOEXEC, 0o666), new)
        except FileExistsError:
            continue
        except OSError as reason:
            raise Trouble(f"{place}: nothing can be written there ({reason.strerror})", WRITE_FAULT) from None
    raise Trouble(f"{place}: nothing can be written there", WRITE_FAULT)


@contextlib.contextmanager
def scratch_folder(prefix: str, above: Optional[str] = None) -> Iterator[str]:
    """A new folder, which goes with the block; where TMPDIR says, or in another one."""
    path = None
    try:
        with undisturbed():
            path = tempfile.mkdtemp(prefix=prefix, dir=above)
        yield path
    finally:
        if path is not None:
            with undisturbed():
                shutil.rmtree(path, ignore_errors=True)


def keep_mode(file: IO[bytes], place: str) -> None:
    """Gives a new file the permissions of the caller's own file at a place, and not those of another user's file."""
    with contextlib.suppress(OSError):
        old = os.lstat(place)
        if stat.S_ISREG(old.st_mode) and old.st_uid == os.geteuid():
            os.fchmod(file.fileno(), old.st_mode & 0o777)


@contextlib.contextmanager
def put_in_place(path: str, inputs: Iterable[str] = (), lasting: bool = True) -> Iterator[BinaryIO]:
    """A file to write bytes to, which is at the path once the block has ended well, and else leaves nothing there.

    A link is followed, and a file of the caller's that was there keeps its permissions, but no setuid, setgid or sticky
    bit. Devices, pipes, folders and the inputs are refused. What need not outlive a loss of power is not waited for on
    its way to the disk.
    """
    place = target_of(path, inputs)
    new = None
    try:
        with undisturbed():
            handle, new = created(place)
        with os.fdopen(handle, "wb") as file:
            yield file
            file.flush()
            keep_mode(file, place)
            if lasting:
                os.fsync(file.fileno())
        os.replace(new, place)
    except OSError as reason:
        if reason.filename not in (None, new):
            raise
        raise Trouble(f"{path}: {reason.strerror}", WRITE_FAULT, "room on the disk") from None
    finally:
        if new is not None:
            with contextlib.suppress(OSError):
                os.unlink(new)
