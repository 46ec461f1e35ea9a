"""Finding and calling other programs: pgo itself, and tools of the system. Each is called by words, without a shell."""
import contextlib
import os
import shutil
import subprocess
import sys
from typing import IO, Callable, Dict, Iterator, Mapping, NamedTuple, Optional, Sequence, Union

from pgo_tools.cli import NO_PROGRAM, Trouble, undisturbed
from pgo_tools.texts.names import text_of


# What a program reads from or writes to: a file, or one of the constants of subprocess.
Stream = Union[int, IO[bytes], None]
Process = subprocess.Popen[bytes]
# The variables of a program: a function makes them when it is started, and None are those of the caller.
Environment = Union[Callable[[], Mapping[str, str]], Mapping[str, str], None]


class Called(NamedTuple):
    """A program that ran: its status, its output (b"" where it went to a file), and its error output."""

    status: int
    said: bytes
    err: str


def here() -> str:
    """The folder of the script that runs, behind any links to it."""
    return os.path.dirname(os.path.realpath(sys.argv[0]))


def is_program(path: str) -> bool:
    return os.path.isfile(path) and os.access(path, os.X_OK)


def pgo() -> str:
    """The program pgo: where the variable PGO says, beside the script, in the folder above, or on the PATH."""
    said = os.environ.get("PGO")
    said = said if not said or "/" in said else shutil.which(said)
    for path in (said, f"{here()}/pgo", f"{here()}/../pgo", shutil.which("pgo")):
        if path and is_program(path):
            return os.path.abspath(path)
    what = "there is no pgo beside this script, in the folder above, or on the PATH"
    raise Trouble(what, NO_PROGRAM, "PGO=/where/pgo/is in front")


def cold() -> Optional[str]:
    """The program pgo-cold: where the variable PGO_COLD says, or beside pgo; or None."""
    for path in (os.environ.get("PGO_COLD"), os.path.join(os.path.dirname(pgo()), "pgo-cold")):
        if path and is_program(path):
            return os.path.abspath(path)
    return None


def tool(*names: str) -> Optional[str]:
    """Where the first of these programs is that is on the PATH, or None."""
    return next(filter(None, map(shutil.which, names)), None)


def as_file(name: str) -> str:
    """A file's name as a word that no program takes for an option, nor for a file of more words (@FILE)."""
    return f"./{name}" if name.startswith(("-", "@")) else name


def plain_words() -> Dict[str, str]:
    """The environment in which tools print what their manuals say, and ask no server for debugging information."""
    return {**os.environ, "LC_ALL": "C", "DEBUGINFOD_URLS": ""}


@contextlib.contextmanager
def running(
    words: Sequence[str], end: Callable[[Process], None] = subprocess.Popen.kill, *, env: Environment = plain_words,
    stdin: Stream = None, stdout: Stream = None, stderr: Stream = None, pass_fds: Sequence[int] = (),
    preexec_fn: Optional[Callable[[], None]] = None, start_new_session: bool = False,
) -> Iterator[Process]:
    """A program that runs beside the block, and is ended with it where the block is left by a Trouble or a signal.

    A signal that comes while the program is started is heard once it can be ended, too.
    """
    process = None
    try:
        with undisturbed():
            process = subprocess.Popen(
                words, stdin=stdin, stdout=stdout, stderr=stderr, env=env() if callable(env) else env,
                pass_fds=pass_fds, preexec_fn=preexec_fn, start_new_session=start_new_session)
        yield process
    except BaseException:
        if process:
            end(process)
        raise
    finally:
        if process:
            with process:
                pass


def call(
    words: Sequence[str], stdin: Stream = subprocess.DEVNULL, stdout: Stream = subprocess.PIPE,
    given: Optional[bytes] = None,
) -> Called:
    """Runs a program to its end.

    `given` is what it reads, in place of `stdin`.
    """
    source = stdin if given is None else subprocess.PIPE
    with running(words, stdin=source, stdout=stdout, stderr=subprocess.PIPE) as process:
        said, err = process.communicate(given)
    return Called(process.returncode, said or b"", text_of(err).strip())


def last_line(said: str) -> str:
    """What a program of pgo says: the launcher may have said something before."""
    return said.strip().rpartition("\n")[2]


def answer(*words: str) -> str:
    """What a program prints, as a text, and nothing where it is not there or fails."""
    try:
        status, said, _ = call(list(words))
    except OSError:
        return ""
    return "" if status else text_of(said)
