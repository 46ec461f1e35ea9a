"""What the checks of this folder share: the programs that are tried, a folder for each case, one way to run a program, and why a
case is skipped.

`PGO` and `PGO_COLD` name other programs than those that were built here, or else those of release/.
"""
import contextlib
import hashlib
import importlib.machinery
import importlib.util
import os
import pathlib
import random
import re
import shlex
import shutil
import signal
import subprocess
import sys
import tempfile
import time
import types
import unittest
from typing import Any, AnyStr, Callable, Dict, Iterable, List, NamedTuple, Optional, Set, TypeVar

sys.dont_write_bytecode = True
# A shell has what it starts behind it pass signals over, and so would all that is started here, which is to be tried with them.
for each in (signal.SIGINT, signal.SIGHUP, signal.SIGQUIT):
    if signal.getsignal(each) == signal.SIG_IGN:
        signal.signal(each, signal.default_int_handler if each == signal.SIGINT else signal.SIG_DFL)
HERE = pathlib.Path(__file__).resolve().parent
TOP = HERE.parent.parent
CONTRIB = TOP / "contrib"
WORDS = TOP / "demo" / "words"
TEXT = TOP / "demo" / "words.txt"
BLOCKS = TOP / "demo" / "words.blocks"

# The exit statuses of docs/FORMATS.md.
DONE, FAILED, BAD_WORDS, MISSING, REFUSED, READ_FAULT, WRITE_FAULT, NO_MEMORY = range(8)
USAGE = b"usage: pgo counts, where, profile, build, check, make, merge, summary or lift\n"


def program(variable: str, name: str, crate: str) -> str:
    """The program that the environment names; else the one that was built here, where out/built says so; else release/'s."""
    if os.environ.get(variable):
        return os.path.abspath(os.environ[variable])
    built, record = TOP / "crates" / crate / "out" / crate, TOP / "out" / "built"
    if record.is_file() and os.access(built, os.X_OK):
        if f"{name} {hashlib.sha256(built.read_bytes()).hexdigest()}" in record.read_text().splitlines():
            return str(built)
    return str(TOP / "release" / name)


PGO = program("PGO", "pgo", "pgo_cli")
COLD = program("PGO_COLD", "pgo-cold", "pgo_cold")
# The scripts find them so.
os.environ.update(PGO=PGO, PGO_COLD=COLD)


class Ran(NamedTuple):
    """How a program ended: its status (negative for a signal), and what it wrote."""

    status: int
    out: bytes
    err: bytes

    @property
    def said(self) -> str:
        return self.err.decode(errors="backslashreplace")


def kill_group(leader):
    """Ends what a program started, and the program."""
    with contextlib.suppress(ProcessLookupError):
        os.killpg(leader, signal.SIGKILL)


def run(*words, folder=None, given=b"", limit=120, environment=None, output=None, prepare=None) -> Ran:
    """Runs a program with these words; `given` is its input, as bytes or an open file. It is killed, with what it started, and
    fails the case where it takes more than `limit` seconds. `environment` changes variables, None taking one away; `output` is a
    file in place of the output that is held; `prepare` is called in the new process."""
    held = {**os.environ, **(environment or {})}
    source = {"stdin": given} if not isinstance(given, bytes) else {"stdin": subprocess.PIPE}
    started = subprocess.Popen(
        [os.fspath(word) for word in words],
        cwd=folder, stdout=subprocess.PIPE if output is None else output, stderr=subprocess.PIPE,
        env={name: value for name, value in held.items() if value is not None},
        preexec_fn=prepare, start_new_session=True, **source,
    )
    try:
        out, err = started.communicate(given if isinstance(given, bytes) else None, timeout=limit)
    except BaseException as fault:
        kill_group(started.pid)
        started.communicate()
        if isinstance(fault, subprocess.TimeoutExpired):
            raise AssertionError(f"{words} took more than {limit} seconds") from None
        raise
    return Ran(started.returncode, out or b"", err)


def python(*words, **how) -> Ran:
    """The same for a script of Python, by the one that runs here."""
    return run(sys.executable, *words, **how)


def within(limit, *words) -> list:
    """The words that run a program within a limit of the shell's, as `ulimit -v 16000`."""
    return ["sh", "-c", f'{limit} && exec "$@"', "sh", *words]


def on_full_device(*words, **how) -> "list[Ran]":
    """How a program ends whose output is a full device: with Python's buffer and without it."""
    ran = []
    for unbuffered in (None, "1"):
        with open("/dev/full", "wb") as full:
            ran.append(run(*words, output=full, environment={"PYTHONUNBUFFERED": unbuffered}, **how))
    return ran


def on_closed_output(*words, **how) -> Ran:
    """How a program ends that has no output: its descriptor 1 is closed."""
    return run(*words, prepare=lambda: os.close(1), **how)


def into_closed_pipe(*words, **how) -> Ran:
    """How a program ends whose output nobody reads any more."""
    reading, writing = os.pipe()
    os.close(reading)
    with os.fdopen(writing, "wb") as output:
        return run(*words, output=output, **how)


def terminated(*words, folder, until: Optional[Callable[[], bool]] = None, by=signal.SIGTERM, limit=30) -> Ran:
    """How a program ends that a signal meets in the middle: once `until` says so, or half a second behind its start. A FIFO that
    nobody writes to keeps it waiting there."""
    started = subprocess.Popen(
        [os.fspath(word) for word in words], cwd=folder, stdin=subprocess.DEVNULL, stdout=subprocess.PIPE,
        stderr=subprocess.PIPE, start_new_session=True,
    )
    end = time.monotonic() + (limit if until else 0.5)
    while time.monotonic() < end and started.poll() is None and not (until and until()):
        time.sleep(0.01)
    if started.poll() is None:
        started.send_signal(by)
    try:
        out, err = started.communicate(timeout=limit)
    except subprocess.TimeoutExpired:
        raise AssertionError(f"{words} goes on behind {by.name}") from None
    finally:
        kill_group(started.pid)
    return Ran(started.returncode, out, err)


def loaded(path: pathlib.Path) -> types.ModuleType:
    """Returns the module of this file, or the package of this folder, which `import` finds by its name from then on.

    So what is run by itself needs no path for modules. checks/run sets one for the tests.
    """
    name = path.stem
    if name not in sys.modules:
        loader = importlib.machinery.SourceFileLoader(name, str(path / "__init__.py" if path.is_dir() else path))
        spec = importlib.util.spec_from_loader(name, loader)
        assert spec
        sys.modules[name] = importlib.util.module_from_spec(spec)
        loader.exec_module(sys.modules[name])
    return sys.modules[name]


def found_in(pattern: AnyStr, text: AnyStr, flags: int = 0) -> "re.Match[AnyStr]":
    """Returns the first match of a pattern that has to be there."""
    match = re.search(pattern, text, flags)
    assert match, f"{pattern!r} is not there"
    return match


def path_of(tool: str) -> str:
    """Returns where a program is that has to be there."""
    path = shutil.which(tool)
    assert path, f"there is no {tool}"
    return path


Tried = TypeVar("Tried")
# A test that takes so many seconds is long: only `checks/run --all` and the gate run it.
LONG = 30


def takes(seconds: int) -> Callable[[Tried], Tried]:
    """Marks a test, or each test of a class, with the seconds that it takes on four processors: the longest are begun first."""

    def marked(tried: Tried) -> Tried:
        setattr(tried, "takes_seconds", seconds)
        return tried

    return marked


def seconds_of(method: object, owner: object) -> int:
    """Returns the seconds of a test, or else of its class; 0 if neither is marked."""
    return getattr(method, "takes_seconds", getattr(owner, "takes_seconds", 0))


def on_signals(handler: Any) -> None:
    """Sets the handler of the signals that end a run of the checks."""
    for number in (signal.SIGINT, signal.SIGTERM, signal.SIGHUP):
        signal.signal(number, handler)


def interrupted(number: int, frame: object) -> None:
    """Ends the run, once: a second signal would stop what the first one cleans up."""
    on_signals(signal.SIG_IGN)
    raise KeyboardInterrupt


class Counts:
    """The cases of a run of the checks: those that passed and failed, and the tests with a skipped case, by the reason."""

    def __init__(self) -> None:
        self.passed, self.failed = 0, 0
        self.skipped: Dict[str, Set[str]] = {}

    def add(self, test: str, passed: int, failed: int, reasons: Iterable[str]) -> None:
        """Adds the cases of one test."""
        self.passed, self.failed = self.passed + passed, self.failed + failed
        for reason in reasons:
            self.skipped.setdefault(reason, set()).add(test)

    def lines(self) -> List[str]:
        """Returns the last lines of the run: a line for each reason to skip, and the counts."""
        skips = [f"skipped: {reason}: {', '.join(sorted(tests))}" for reason, tests in sorted(self.skipped.items())]
        skipped = len({test for tests in self.skipped.values() for test in tests})
        return [*skips, f"checks: {self.passed} passed, {self.failed} failed, {skipped} skipped"]


def needs(*tools):
    """Skips a case, or all of a class, where one of these programs is not on the PATH."""
    lacking = [tool for tool in tools if not shutil.which(tool)]
    return unittest.skipIf(lacking, f"there is no {' and no '.join(lacking)}")


def needs_file(path):
    """Skips a case where the system has not this file or device."""
    return unittest.skipUnless(os.path.exists(path), f"there is no {path}")


try:
    import hypothesis
    from hypothesis import strategies
except ImportError:
    hypothesis = None  # type: ignore[assignment]
SHRINKS = hypothesis is not None


def each_drawn(examples: int, tried: Callable) -> bool:
    """Tries what is drawn so many times, from a source of draws as random.Random is: by hypothesis where it is installed, which makes
    the draws of what fails as small as it can, and else by the seeds from 1 on. Tells whether it was by seeds."""
    if hypothesis is None:
        for seed in range(1, examples + 1):
            tried(random.Random(seed))
        return True
    checks = list(hypothesis.HealthCheck)
    settings = hypothesis.settings(max_examples=examples, deadline=None, database=None, derandomize=True, suppress_health_check=checks)
    settings(hypothesis.given(strategies.randoms(use_true_random=False))(lambda draw: tried(draw)))()
    return False


class Case(unittest.TestCase):
    """A case with a folder of its own, which is removed behind it."""

    maxDiff = 2000

    def setUp(self):
        held = tempfile.TemporaryDirectory(prefix="pgo-check-")
        self.addCleanup(held.cleanup)
        self.folder = pathlib.Path(held.name).resolve()

    def file(self, name, content=b"") -> pathlib.Path:
        """A file of the case's folder with this content, text or bytes."""
        path = self.folder / name
        path.parent.mkdir(parents=True, exist_ok=True)
        path.write_bytes(content.encode() if isinstance(content, str) else content)
        return path

    def only_tools(self, *names: str) -> Dict[str, str]:
        """Returns the environment whose PATH has these tools alone, with the Python that runs here: `python3` may be a script (pyenv)."""
        folder = self.folder / "tools"
        folder.mkdir(exist_ok=True)
        for name in names:
            (folder / name).symlink_to(sys.executable if name == "python3" else path_of(name))
        return {"PATH": str(folder)}

    def run_here(self, *words, **how) -> Ran:
        """Runs a program in the case's folder."""
        return run(*words, folder=how.pop("folder", self.folder), **how)

    def expects(self, title, ran: Ran, status, out=b"", err=b""):
        """The same as a case of its own."""
        with self.subTest(title):
            self.expect(ran, status, out, err)

    def names(self, below=".") -> "list[str]":
        """What the case's folder holds, or one below it."""
        return sorted(os.listdir(self.folder / below))

    def expect(self, ran: Ran, status, out=b"", err=b""):
        """The program ended with this status, and wrote exactly this."""
        for what, wanted, got in (("output", out, ran.out), ("error output", err, ran.err)):
            wanted = wanted.encode() if isinstance(wanted, str) else wanted
            if wanted != got:
                self.fail(f"status {ran.status}, wanted {status}; the {what} is {got[:500]!r}, wanted {wanted[:500]!r}; {ran.err[:300]!r}")
        self.assertEqual(ran.status, status, ran.said[:500])

    def tells(self, ran: Ran, status, pattern):
        """The program ended with this status, and its error output has this pattern and no traceback."""
        self.assertNotIn("Traceback", ran.said)
        self.assertEqual(ran.status, status, ran.said[:500])
        self.assertRegex(" ".join(ran.said.split()), pattern)

    def ends_on_full_device(self, name, *words, status=WRITE_FAULT, **how):
        """Its output is a full device: it ends with the status of a write fault and one line, whatever Python's buffer is."""
        for ran in on_full_device(*words, folder=self.folder, **how):
            self.assertEqual((ran.status, ran.said.strip()), (status, f"{name}: output: No space left on device"))

    def leaves_nothing_behind(self, *words, until=None, by=signal.SIGTERM):
        """A signal in the middle ends it as Ctrl-C does, and the folder is what it was before."""
        before = self.names()
        ran = terminated(*words, folder=self.folder, until=until, by=by)
        self.assertNotIn("Traceback", ran.said)
        self.assertNotEqual(ran.status, 0, ran.said)
        self.assertEqual(self.names(), before)
        return ran


if __name__ == "__main__":
    # For scripts of the shell.
    print(f"PGO={shlex.quote(PGO)} PGO_COLD={shlex.quote(COLD)}")
