"""How a script begins and ends: statuses, messages, signals, and an output that cannot be written.

A script ends with `cli.run(main)`. Its `main(argv)` parses its words and returns the status. A fault is a `Trouble`.
"""
import contextlib
import errno
import os
import re
import signal
import sys
import threading
from types import FrameType
from typing import BinaryIO, Callable, Iterator, List, Match, NoReturn, Optional, Tuple

from pgo_tools.texts.names import printable

# The statuses, as pgo's own (docs/FORMATS.md, "Statuses").
DONE, FAILED, USAGE, NO_FILE, REFUSED, READ_FAULT, WRITE_FAULT, NO_MEMORY = range(8)
NO_PROGRAM = 127
# Commands and pages, by their places in a clone.
NAMED = re.compile(r"(?<![\w/.-])(?:contrib/([a-z]+(?:-[a-z]+)?)(?![\w/-]|\.\w)|docs/([A-Z]+\.md))")
# By these a script ends as by Ctrl-C: what it was at is undone, and what it started ends.
HEARD = (signal.SIGINT, signal.SIGTERM, signal.SIGHUP, signal.SIGQUIT)


class Trouble(Exception):
    """Why a script ends: what, and where; perhaps what helps; and the status."""

    def __init__(self, what: str, status: int = FAILED, helps: str = "") -> None:
        super().__init__(what)
        self.what, self.status, self.helps = what, status, helps

    def said(self) -> List[Tuple[str, str]]:
        """The lines that are told of it, each with what helps."""
        return [(self.what, self.helps)]


class Stopped(BaseException):
    """A signal asked the script to end. What it was at is undone on the way out."""

    def __init__(self, number: int) -> None:
        super().__init__(number)
        self.number = number


def name() -> str:
    """The script's name, as its messages begin."""
    return os.path.basename(sys.argv[0]) or "pgo"


def as_installed(text: str) -> str:
    """The text with the names that commands and pages have in an installation; one by pip has no pages."""
    here = os.path.dirname(os.path.realpath(sys.argv[0]))
    share = os.path.dirname(here)
    has_pages = os.path.isfile(f"{share}/made")
    if not has_pages and os.path.isdir(f"{here}/pgo_tools"):
        return text
    pages = os.path.join(os.path.dirname(share), "doc", "pgo", "docs")

    def named(found: Match[str]) -> str:
        if found[2]:
            return f"{pages}/{found[2]}" if has_pages else found[0]
        return f"pgo-{found[1].replace('pgo-', '')}"

    return NAMED.sub(named, text)


def say(what: str, helps: str = "") -> None:
    """Writes a line to the error output, and below it what helps. No byte of a file reaches a terminal raw."""
    lines = [f"{name()}: {what}"] + (f"  what helps: {as_installed(helps)}".split("\n") if helps else [])
    with contextlib.suppress(OSError, ValueError, AttributeError):
        for line in lines:
            sys.stderr.write(printable(line) + "\n")
        sys.stderr.flush()


def put(line: str = "") -> None:
    """Prints a line. Names go out as the bytes that they are."""
    out().write((line + "\n").encode("utf-8", "surrogateescape"))


def out() -> BinaryIO:
    """The output as bytes; a Trouble where it is closed."""
    if sys.stdout is None:
        raise Trouble("output: it is closed", WRITE_FAULT)
    return sys.stdout.buffer


def given() -> BinaryIO:
    """The input as bytes; a Trouble where it is closed."""
    if sys.stdin is None:
        raise Trouble("the input is closed, and no file is named", USAGE)
    return sys.stdin.buffer


def stop(number: int, _frame: Optional[FrameType]) -> NoReturn:
    """The handler of signals. Only the first one counts, so that nothing cuts the way out short."""
    for each in HEARD:
        signal.signal(each, signal.SIG_IGN)
    raise Stopped(number)


@contextlib.contextmanager
def undisturbed() -> Iterator[None]:
    """A signal that comes within the block is heard after it: what began is then known, and what ended is gone."""
    late: List[int] = []
    is_main = threading.current_thread() is threading.main_thread()
    heard = [each for each in HEARD if is_main and signal.getsignal(each) == stop]
    for each in heard:
        signal.signal(each, lambda number, _: late.append(number))
    try:
        yield
    finally:
        for each in heard:
            signal.signal(each, stop)
    if late:
        stop(late[0], None)


def hear() -> None:
    """Has signals end the script as Ctrl-C does, but for what the caller has it pass over (nohup)."""
    for each in HEARD:
        if signal.getsignal(each) != signal.SIG_IGN:
            signal.signal(each, stop)


def fault(reason: OSError) -> Tuple[int, str]:
    """The status of a call of the system that failed, and what is said of it."""
    said = f"{reason.filename if reason.filename is not None else 'output'}: {reason.strerror or reason}"
    if reason.errno in (errno.ENOENT, errno.ENOTDIR):
        return NO_FILE, said
    if reason.filename is None or reason.errno in (errno.ENOSPC, errno.EFBIG, errno.EDQUOT, errno.EROFS):
        return WRITE_FAULT, said
    return READ_FAULT, said


def hold_streams() -> None:
    """Takes the numbers of streams that the caller closed, so that no file gets one; where there is /dev/null."""
    with contextlib.suppress(OSError):
        while (handle := os.open(os.devnull, os.O_RDWR)) <= 2:
            pass
        os.close(handle)


def told(main: Callable[[List[str]], Optional[int]], argv: List[str]) -> int:
    """The status of a script's main, and what is said where it fails."""
    try:
        status = main(argv) or DONE
        if sys.stdout is not None:
            sys.stdout.flush()
        return status
    except Trouble as reason:
        for what, helps in reason.said():
            say(what, helps)
        return reason.status
    except BrokenPipeError:
        # Who reads has had enough, and wants no message.
        return WRITE_FAULT
    except MemoryError:
        say("no memory", "more memory, and no lower ulimit -v")
        return NO_MEMORY
    except OSError as reason:
        status, said = fault(reason)
        say(said)
        return status


def ended(main: Callable[[List[str]], Optional[int]], argv: List[str]) -> int:
    """The status of a script's main, whatever stops it: also a signal while a message waits for its reader."""
    try:
        hear()
        hold_streams()
        return told(main, argv)
    except Stopped as reason:
        return 128 + reason.number
    except KeyboardInterrupt:
        return 128 + signal.SIGINT


def run(main: Callable[[List[str]], Optional[int]], argv: Optional[List[str]] = None) -> NoReturn:
    """Runs a script's main, and ends the process with its status. It never returns."""
    status = ended(main, sys.argv[1:] if argv is None else argv)
    # What could not be written is not tried again when Python ends.
    for stream in (sys.stdout, sys.stderr):
        with contextlib.suppress(OSError, ValueError, AttributeError):
            stream.flush()
    os._exit(status)
