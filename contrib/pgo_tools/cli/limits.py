"""Tools of the system that read files of strangers: each has limits of time, of memory, and of what it prints."""
import contextlib
import os
import resource
import subprocess
import tempfile
import threading
from typing import IO, Iterator, NamedTuple, Sequence

from pgo_tools.cli import REFUSED, Trouble
from pgo_tools.cli.programs import Stream, running
from pgo_tools.texts.names import text_of

# Seconds of the clock, which a tool that waits for a pipe takes too, and seconds more for each MiB of the file.
SECONDS, SECONDS_A_MIB = 60, 2
# Bytes of memory, and bytes more for each byte of the file.
MEMORY, MEMORY_A_BYTE = 1 << 31, 16
# Bytes that are printed, and bytes more for each byte of the file.
PRINTED, PRINTED_A_BYTE = 1 << 27, 64
# A line of more bytes is passed over.
LONGEST = 1 << 16


class Limits(NamedTuple):
    """Seconds of the clock, bytes of memory, and bytes that may be printed."""

    seconds: float
    memory: int
    printed: int


def limits_for(path: str) -> Limits:
    """The limits of a tool that reads this file; of one that is no file those of an empty one."""
    try:
        size = os.stat(path).st_size
    except OSError:
        size = 0
    return Limits(SECONDS + SECONDS_A_MIB * (size >> 20), MEMORY + MEMORY_A_BYTE * size, PRINTED + PRINTED_A_BYTE * size)


class Output:
    """What a tool prints, as it comes. Once the tool has ended, its status and the front of its error output are here."""

    def __init__(self, stream: IO[bytes], tool: str, most: int) -> None:
        self.stream, self.tool, self.left = stream, tool, most
        self.status, self.err = 0, ""

    def read(self, size: int) -> bytes:
        return self.counted(self.stream.read(size))

    def counted(self, piece: bytes) -> bytes:
        self.left -= len(piece)
        if self.left < 0:
            raise Trouble(f"{self.tool} prints too much of this file", REFUSED)
        return piece

    def lines(self) -> Iterator[bytes]:
        """The lines without their line feeds, but for those that are too long."""
        is_begun = False
        while piece := self.counted(self.stream.readline(LONGEST)):
            is_whole = piece.endswith(b"\n")
            if not is_begun and (is_whole or len(piece) < LONGEST):
                yield piece[:-1] if is_whole else piece
            is_begun = not is_whole


def hold_memory(most: int) -> None:
    """Sets the limit of memory of this process, where the caller's is not lower."""
    soft, hard = resource.getrlimit(resource.RLIMIT_AS)
    least = min([most, *(limit for limit in (soft, hard) if limit != resource.RLIM_INFINITY)])
    resource.setrlimit(resource.RLIMIT_AS, (least, hard))


@contextlib.contextmanager
def limited(words: Sequence[str], limits: Limits, stdin: Stream = subprocess.DEVNULL) -> Iterator[Output]:
    """A tool that runs beside the block, within limits. The block reads its output to the end; behind it the tool has ended."""
    tool, late = os.path.basename(words[0]), threading.Event()
    with tempfile.TemporaryFile() as err:
        with running(words, stdin=stdin, stdout=subprocess.PIPE, stderr=err,
                     preexec_fn=lambda: hold_memory(limits.memory)) as process:
            assert process.stdout is not None

            def end() -> None:
                late.set()
                process.kill()

            timer = threading.Timer(limits.seconds, end)
            timer.daemon = True
            timer.start()
            output = Output(process.stdout, tool, limits.printed)
            try:
                yield output
                process.stdout.close()
                output.status = process.wait()
            finally:
                timer.cancel()
        if late.is_set() and output.status:
            raise Trouble(f"{tool} takes more than {limits.seconds:g} seconds for this file", REFUSED)
        err.seek(0)
        output.err = text_of(err.read(1 << 12)).strip()
