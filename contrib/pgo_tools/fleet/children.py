"""Programs and processes that end with the process that started them, whatever ends it."""
import contextlib
import ctypes
import os
import resource
import signal
import subprocess
from typing import Callable, IO, Optional, Sequence, Tuple, Union

from pgo_tools.cli.programs import running
from pgo_tools.texts.names import text_of

PR_SET_PDEATHSIG = 1

PRCTL: Optional[Callable[..., object]]
try:
    PRCTL = ctypes.CDLL(None).prctl
except (OSError, AttributeError):
    # Another system than Linux: a child then ends by itself, at the end of its merge.
    PRCTL = None


def end_with(parent: int, number: int = signal.SIGKILL) -> None:
    """Has the system send this signal to this process once its parent is gone, however that came."""
    if PRCTL is not None:
        PRCTL(PR_SET_PDEATHSIG, int(number), 0, 0, 0)
    if os.getppid() != parent:
        os.kill(os.getpid(), number)


def end_all(process: "subprocess.Popen[bytes]") -> None:
    """Ends a program that has a session of its own, and what it started itself."""
    with contextlib.suppress(ProcessLookupError):
        os.killpg(process.pid, signal.SIGKILL)


def limit_seconds(most: int) -> None:
    """Has the system end this process once it used so many seconds of a processor."""
    soft, hard = resource.getrlimit(resource.RLIMIT_CPU)
    least = min([most, *(limit for limit in (soft, hard) if limit != resource.RLIM_INFINITY)])
    resource.setrlimit(resource.RLIMIT_CPU, (least, hard))
    resource.setrlimit(resource.RLIMIT_CORE, (0, 0))


def took_too_long(status: int) -> bool:
    """Returns whether a program was ended for its seconds, with this status of its own or of a shell that ran it."""
    return status in (-signal.SIGXCPU, 128 + signal.SIGXCPU)


def call(
    words: Sequence[str], stdout: Union[int, IO[bytes]], pass_fds: Sequence[int] = (), most_seconds: int = 0
) -> Tuple[int, str]:
    """Runs a program that ends with this process: its status and its error output as text.

    It has the caller's own environment, and may use so many seconds of a processor (0: any time).
    """
    parent = os.getpid()

    def prepare() -> None:
        end_with(parent)
        if most_seconds:
            limit_seconds(most_seconds)

    with running(
        list(words), end_all, env=dict(os.environ), stdin=subprocess.DEVNULL, stdout=stdout, stderr=subprocess.PIPE,
        pass_fds=pass_fds, preexec_fn=prepare, start_new_session=True,
    ) as process:
        _, said = process.communicate()
    return process.returncode, text_of(said).strip()
