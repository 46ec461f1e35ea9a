"""Plants faults in a fleet while contrib/merge-tree sums up drawn profiles. Another adder judges each answer.

A call may end with status 0 only if OUT has the bytes that `program/sums.py` makes of the same files, and if its
manifest agrees. Any other status leaves OUT as it was. Once the fault is gone, --resume gives the true sum and leaves
no folder behind.
"""
import contextlib
import hashlib
import json
import os
import pathlib
import random
import resource
import shutil
import signal
import subprocess
import sys
import tempfile
import time
from typing import Any, Callable, Dict, List, NamedTuple, Optional, Sequence

from common import CONTRIB, PGO

import sums

TREE = str(CONTRIB / "merge-tree")
BUILD = b"# build 0123456789abcdef\n"
OLD = b"old:5:5\n 1: 5\n"
NOBODY = 65534
# Not SIGINT: while Python itself starts, its answer is a traceback of its own. `test_merge_tree` sends it later.
SIGNALS = (signal.SIGKILL, signal.SIGTERM, signal.SIGHUP)
LONGEST = 60
HANGS = 999


class Wrong(AssertionError):
    """An answer that is not as it should be."""


class Skipped(Exception):
    """A fault that cannot be planted on this machine."""


class Answer(NamedTuple):
    """The status of a call, and its error output."""

    status: int
    said: str


def content(path: str) -> Optional[bytes]:
    """The bytes of a file; None if there is none."""
    try:
        return pathlib.Path(path).read_bytes()
    except OSError:
        return None


def drawn_profile(draw: random.Random, number: int) -> bytes:
    """A profile with a function of its own and some that it shares with others."""
    lines = [f"own{number}:{number + 1}:{draw.randrange(9)}", f" 1: {number + 1}"]
    for name in draw.sample(["main", "parse", "_ZN1aC2Ev", "f.llvm.7", "hash"], draw.randrange(1, 5)):
        counts = [draw.randrange(10 ** draw.randrange(1, 9)) for _ in range(3)]
        lines += [f"{name}:{sum(counts)}:{draw.randrange(99)}", f" 1: {counts[0]}"]
        lines += [f" 2.{draw.randrange(1, 4)}: {counts[1]} g:{counts[1]}"]
        lines += [f" 4: inlined:{counts[2]}", f"  1: {counts[2]}"]
    return "".join(f"{line}\n" for line in lines).encode()


def sum_of(texts: Sequence[bytes], build: bytes = b"") -> bytes:
    """The sum of profiles, by the second program."""
    made: Dict[object, int] = {}
    for text in texts:
        sums.add(made, sums.read(text), 1)
    whole = sums.text_of(made)
    assert isinstance(whole, bytes)
    return whole + build


def children(pid: int) -> List[int]:
    """The processes that a process started, which still run."""
    return [int(each) for each in (content(f"/proc/{pid}/task/{pid}/children") or b"").split()]


class Case:
    """A fresh folder with drawn profiles, and the sum of an earlier night in every other one."""

    def __init__(self, folder: str, draw: random.Random, count: int) -> None:
        self.folder, self.draw, self.count = folder, draw, count
        self.out = f"{folder}/out.prof"
        os.mkdir(f"{folder}/in")
        self.names = [f"{folder}/in/p{number}.prof" for number in range(count)]
        for number, name in enumerate(self.names):
            self.write(name, drawn_profile(draw, number))
        self.old = OLD if draw.randrange(2) else None
        if self.old:
            self.write(self.out, self.old)
        self.slow = f"{folder}/pgo"
        self.write(self.slow, f'#!/bin/sh\nsleep 0.02\nexec "{PGO}" "$@"\n'.encode())
        os.chmod(self.slow, 0o755)
        self.answers = 0

    def write(self, path: str, text: bytes) -> None:
        pathlib.Path(path).write_bytes(text)

    def texts(self) -> List[bytes]:
        """The profiles as they are now."""
        return [pathlib.Path(name).read_bytes() for name in self.names]

    def start(
        self, *more: str, names: Optional[Sequence[str]] = None, slow: bool = False, given: bytes = b"",
        before: Sequence[str] = (), most: int = 0, words: Optional[Sequence[str]] = None,
    ) -> "subprocess.Popen[bytes]":
        """Starts merge-tree for the output, of all profiles or those that are named or given."""
        files = list(self.names if names is None else names)
        call = [*before, sys.executable, TREE, *(words or ["-o", self.out, "-j2", "--part-size=3", *more, *files])]
        environment = {**os.environ, "PGO": self.slow if slow else str(PGO)}
        limited = (lambda: resource.setrlimit(resource.RLIMIT_FSIZE, (most, most))) if most else None
        process = subprocess.Popen(
            call, cwd=self.folder, env=environment, stdin=subprocess.PIPE, stdout=subprocess.PIPE,
            stderr=subprocess.PIPE, start_new_session=True, preexec_fn=limited,
        )
        assert process.stdin
        with contextlib.suppress(BrokenPipeError), process.stdin as stdin:
            stdin.write(given)
        process.stdin = None
        return process

    def ended(self, process: "subprocess.Popen[bytes]") -> Answer:
        """Waits for a call."""
        try:
            _, said = process.communicate(timeout=LONGEST)
        except subprocess.TimeoutExpired:
            os.killpg(process.pid, signal.SIGKILL)
            process.communicate()
            return Answer(HANGS, "")
        return Answer(process.returncode, said.decode("utf-8", "backslashreplace"))

    def judge(
        self, answer: Answer, wanted: Optional[bytes], may: Sequence[int] = (), names: Sequence[str] = ()
    ) -> Answer:
        """Refuses an answer that loses anything, leaves anything or says nothing."""
        self.answers += 1
        now, status = content(self.out), answer.status
        by_signal = status < 0 or status > 128
        for is_wrong, why in (
            (status == HANGS, "it hangs"),
            ("Traceback" in answer.said, "it ends by a fault of its own"),
            (status == 0 and now != wanted, "status 0, and other bytes than the sum"),
            (status != 0 and now not in (self.old, wanted), "OUT is neither what it was nor the sum"),
            (status != 0 and not by_signal and not answer.said.strip(), "it says nothing"),
            (bool(may) and status not in may, f"status {status} is none of {tuple(may)}"),
            (any(os.path.basename(name) not in answer.said for name in names), f"it does not name {names}"),
        ):
            if is_wrong:
                raise Wrong(f"{why}: {answer}")
        if status == 0:
            self.judge_manifest()
            self.old = now
        return answer

    def judge_manifest(self) -> None:
        """The manifest is that of the bytes in place, and no tree is left."""
        told = json.loads(content(self.out + ".manifest") or b"{}")
        digest = hashlib.sha256(content(self.out) or b"").hexdigest()
        if told.get("sha256") != digest or told.get("total") != told.get("total_in"):
            raise Wrong("the manifest is of other bytes")
        if os.path.lexists(self.out + ".tree"):
            raise Wrong("OUT.tree is left")

    def run(self, wanted: Optional[bytes], *more: str, may: Sequence[int] = (), **how: Any) -> Answer:
        """Calls merge-tree and judges its answer."""
        said = how.pop("names_said", ())
        return self.judge(self.ended(self.start(*more, **how)), wanted, may, said)

    def goes_on(self, *more: str) -> None:
        """The next call, once the fault is gone: the sum of the profiles as they are now."""
        self.run(sum_of(self.texts()), "--resume", *more, may=[0])

    def stopped(self) -> str:
        """A call that is killed once some parts are made: the folder of its tree."""
        process = self.start(slow=True)
        folder = self.out + ".tree"
        for _ in range(1000):
            if os.path.exists(f"{folder}/1.1.manifest") or process.poll() is not None:
                break
            time.sleep(0.005)
        with contextlib.suppress(ProcessLookupError):
            os.kill(process.pid, signal.SIGKILL)
        self.judge(self.ended(process), sum_of(self.texts()))
        return folder


# The families of faults. Each plants one, and judges all answers from there on.


def killed(case: Case) -> None:
    """The call, a part or a merge is ended at a drawn moment."""
    process = case.start(slow=True)
    time.sleep(case.draw.uniform(0.1, 0.5))
    below = children(process.pid)
    of_parts = [each for pid in below for each in children(pid)]
    target = case.draw.choice(case.draw.choice([[process.pid], below or [process.pid], of_parts or [process.pid]]))
    with contextlib.suppress(ProcessLookupError):
        os.kill(target, case.draw.choice(SIGNALS))
    case.judge(case.ended(process), sum_of(case.texts()))
    case.goes_on()


def killed_again(case: Case) -> None:
    """Killed, gone on with, and killed, until it ends."""
    for turn in range(20):
        process = case.start(*["--resume"][: turn], slow=True)
        with contextlib.suppress(subprocess.TimeoutExpired):
            process.wait(case.draw.uniform(0.1, 0.6))
        with contextlib.suppress(ProcessLookupError):
            os.kill(process.pid, case.draw.choice(SIGNALS))
        if case.judge(case.ended(process), sum_of(case.texts())).status == 0:
            break
    case.goes_on()


def harm(path: str, how: str) -> None:
    """Makes a profile one that is none."""
    raw = pathlib.Path(path).read_bytes()
    os.unlink(path)
    texts = {
        "empty": b"", "comments": b"# a\n\n#b\n", "half a line": raw[: len(raw) // 2].rstrip(b"\n") + b":",
        "NUL": raw + b"\0", "packed": b"\x1f\x8b" + raw, "page": b"<html>404</html>\n",
        "UTF-16": raw.decode().encode("utf-16"), "CR": raw.replace(b"\n", b"\r\n"),
        "large number": raw + b"x:99999999999999999999:1\n", "twice": raw + raw,
    }
    if how in texts:
        pathlib.Path(path).write_bytes(texts[how])
    elif how == "folder":
        os.mkdir(path)
    elif how == "pipe":
        os.mkfifo(path)
    elif how in ("/nowhere/at/all", "/dev/null", "/dev/zero", path):
        os.symlink(how, path)


HARMS = (
    "empty", "comments", "half a line", "NUL", "packed", "page", "UTF-16", "CR", "large number", "twice", "folder",
    "pipe", "/nowhere/at/all", "/dev/null", "/dev/zero", "missing",
)


def bad_profile(case: Case) -> None:
    """Some files are no profiles: refused, or left out and named where they are few enough."""
    how, many = case.draw.choice(HARMS), case.draw.choice((1, 1, 2))
    chosen = case.draw.sample(range(case.count), 1 if how.startswith("/dev") else many)
    held = {case.names[number]: pathlib.Path(case.names[number]).read_bytes() for number in chosen}
    rest = [text for number, text in enumerate(case.texts()) if number not in chosen]
    for name in held:
        harm(name, how)
    may_be_left_out = case.draw.randrange(2)
    percent = 100 * len(chosen) / case.count + (0.1 if may_be_left_out else -0.1)
    case.run(None, may=[3, 4, 5], names_said=held)
    may = [0] if may_be_left_out else [3, 4, 5]
    case.run(sum_of(rest), "--resume", f"--skip-bad={percent}", may=may, names_said=held)
    for name, text in held.items():
        if os.path.isdir(name):
            os.rmdir(name)
        with contextlib.suppress(FileNotFoundError):
            os.unlink(name)
        case.write(name, text)
    case.goes_on(f"--skip-bad={percent}")


def cut_profile(case: Case) -> None:
    """A file is cut off anywhere ahead of the line of its build, which all others have."""
    for name, text in zip(case.names, case.texts()):
        case.write(name, text + BUILD)
    number = case.draw.randrange(case.count)
    texts = case.texts()
    rest = [text for each, text in enumerate(texts) if each != number]
    body = texts[number][: -len(BUILD)]
    between_lines = body.rfind(b"\n", 0, case.draw.randrange(1, len(body))) + 1
    at = case.draw.choice([case.draw.randrange(len(body)), between_lines, len(body)])
    case.write(case.names[number], texts[number][:at])
    case.run(None, *case.draw.choice(((), ("--build=any",))), may=[4], names_said=[case.names[number]])
    case.run(sum_of(rest, BUILD), "--skip-bad=50", may=[0], names_said=[case.names[number]])
    case.write(case.names[number], texts[number])
    case.run(sum_of(texts, BUILD), "--resume", may=[0])


def tampered(case: Case) -> None:
    """A file in the tree's folder is changed between two calls."""
    folder = case.stopped()
    name = case.draw.choice(("1.0.prof", "1.0.manifest", "1.1.prof", "1.1.manifest", "tree"))
    raw = content(f"{folder}/{name}")
    if raw is None:
        raise Skipped("the part was not there any more")
    how = case.draw.choice(("cut", "other number", "empty", "gone", "nested", "of another part", "line less"))
    texts = {
        "cut": raw[: len(raw) // 2], "other number": raw[::-1].replace(b"1", b"2", 1)[::-1], "empty": b"",
        "nested": b"[" * 100000,
        "of another part": content(f"{folder}/{name.replace('1.0', '1.1')}") or b"",
        "line less": b"".join(raw.splitlines(keepends=True)[:-1]),
    }
    if how == "gone":
        os.unlink(f"{folder}/{name}")
    else:
        case.write(f"{folder}/{name}", texts[how])
    if case.run(sum_of(case.texts()), "--resume").status:
        shutil.rmtree(folder)
    case.goes_on()


def changed_between(case: Case) -> None:
    """Profiles are changed between a call that was killed and the next, by size and time as they were or not."""
    case.stopped()
    for path in case.draw.sample(case.names, 3):
        raw, seen = pathlib.Path(path).read_bytes(), os.stat(path)
        how = case.draw.choice(("in place", "replaced", "grown", "same time"))
        text = raw + b"late:1:1\n 1: 1\n" if how == "grown" else raw.replace(b": ", b": 1", 1)
        if how == "same time":
            text = raw.replace(b" 1: ", b" 7: ", 1)
        target = path + ".new" if how == "replaced" else path
        case.write(target, text)
        if how in ("same time", "replaced"):
            os.utime(target, ns=(seen.st_atime_ns, seen.st_mtime_ns))
        os.replace(target, path)
    case.goes_on()
    case.write(case.names[0], b"last:1:1\n 1: 1\n")
    case.goes_on()


STRANGE = (
    "a b", " lead", "trail ", "-o", "--resume", "--", "@x", "a\tb", "3\tx", "$(touch PWNED)", "`touch PWNED`",
    ";touch PWNED;", "a\nb", "'", '"', "\\", "*", "?", "\u00e9", "\udcff\udcfe", "%s", "{}", "#x", "~",
    "\x1b[31m", "a" * 250,
)


def strange_name(case: Case) -> None:
    """A file has a name that shells, lists and options would take for more than a name."""
    each = case.draw.choice(STRANGE)
    case.names[0] = f"{case.folder}/in/{each}"
    os.rename(f"{case.folder}/in/p0.prof", case.names[0])
    wanted = sum_of(case.texts())
    case.run(wanted, "--", may=[0])
    case.run(wanted, "-0", names=[], given=b"".join(os.fsencode(name) + b"\0" for name in case.names), may=[0])
    lines = b"".join(os.fsencode(name) + b"\n" for name in case.names)
    case.run(wanted, names=[], given=lines, may=[0, 3] if "\n" in each else [0])
    if any("PWNED" in names for names in (os.listdir(case.folder), os.listdir(f"{case.folder}/in")) if each != "PWNED"):
        raise Wrong("a name was run")


def within(folder: str, plant: Callable[..., object], *words: str) -> None:
    """Makes a folder and plants something there."""
    os.mkdir(folder)
    plant(*words)


def in_the_way(case: Case) -> None:
    """Something else is where OUT, its manifest, its tree or a part of that are to be."""
    dear = f"{case.folder}/dear"
    case.write(dear, OLD)
    tree, beside = case.out + ".tree", case.out + ".manifest"
    plants: Dict[str, Callable[[], object]] = {
        "tree: link": lambda: os.symlink(case.folder, tree), "tree: file": lambda: shutil.copy(dear, tree),
        "tree: other file": lambda: within(tree, shutil.copy, dear, f"{tree}/dear"),
        "tree: lock is a link": lambda: within(tree, os.symlink, dear, f"{tree}/lock"),
        "tree: part is a link": lambda: within(tree, os.symlink, dear, f"{tree}/1.0.prof"),
        "tree: pipe": lambda: within(tree, os.mkfifo, f"{tree}/tree"),
        "manifest: other file": lambda: case.write(beside, b"apiVersion: 1\n"),
        "manifest: pipe": lambda: os.mkfifo(beside), "manifest: link": lambda: os.symlink(case.names[0], beside),
        "out: link to a file": lambda: os.symlink(case.names[0], case.out),
        "out: pipe": lambda: os.mkfifo(case.out), "out: folder": lambda: os.mkdir(case.out),
        "out: program": lambda: case.write(case.out, b"int main() { return 0; }\n"),
    }
    how = case.draw.choice(sorted(plants))
    with contextlib.suppress(FileNotFoundError):
        os.unlink(case.out)
    case.old = None
    texts = case.texts()
    plants[how]()
    is_file = how.startswith("out: ") and os.path.isfile(case.out)
    case.old = content(case.out) if is_file else None
    for more in ((), ("--resume",)):
        answer = case.ended(case.start(*more))
        case.answers += 1
        if answer.status not in (2, 6) or not answer.said or (is_file and content(case.out) != case.old):
            raise Wrong(f"{how}: {answer}")
    if content(dear) != OLD or case.texts() != texts:
        raise Wrong(f"{how}: a file was written to")


def at_once(case: Case) -> None:
    """Several calls for one output, of which one may be killed."""
    calls = [case.start(*case.draw.choice(((), ("--resume",))), slow=True) for _ in range(case.draw.randrange(2, 4))]
    if case.draw.randrange(2):
        time.sleep(0.2)
        with contextlib.suppress(ProcessLookupError):
            os.kill(calls[0].pid, signal.SIGKILL)
    wanted = sum_of(case.texts())
    for answer in [case.ended(each) for each in calls]:
        case.answers += 1
        now = content(case.out)
        if answer.status == 0 and now != wanted or now not in (case.old, wanted) or answer.status == HANGS:
            raise Wrong(f"of several calls: {answer}")
    case.old = content(case.out)
    case.goes_on()


def no_room(case: Case) -> None:
    """Files may have so many bytes only."""
    wanted = sum_of(case.texts())
    case.run(wanted, most=case.draw.randrange(50, len(wanted) + 2000))
    case.goes_on()


def of_another_user(case: Case) -> None:
    """A tree, or a file in one, is another user's or open to others."""
    folder = case.stopped()
    if not os.path.isdir(folder):
        raise Skipped("the tree was not there any more")
    place = case.draw.choice([folder, *(f"{folder}/{name}" for name in ("lock", "tree", "1.1.manifest", "1.1.prof"))])
    if not os.path.exists(place):
        raise Skipped("the part was not there any more")
    if case.draw.randrange(2) and os.geteuid() == 0:
        os.chown(place, NOBODY, NOBODY)
    else:
        os.chmod(place, 0o777)
    for more in ((), ("--resume",)):
        case.run(None, *more, may=[1])
    shutil.rmtree(folder)
    case.goes_on()


def failed_call(case: Case) -> None:
    """A call of the system fails, in the driver or a part."""
    if not shutil.which("strace"):
        raise Skipped("there is no strace")
    call, error = case.draw.choice([
        ("rename", "EIO"), ("fsync", "EIO"), ("mkdir", "ENOSPC"), ("unlink", "EACCES"), ("rmdir", "EBUSY"),
        ("flock", "ENOLCK"), ("fork,clone,vfork,clone3", "EAGAIN"), ("ftruncate", "EIO"), ("fchmod", "EPERM"),
        ("pipe2", "EMFILE"), ("write", "ENOSPC"),
    ])
    inject = f"inject={call}:error={error}:when={case.draw.choice((1, 2, 3, 5, 9, 17))}"
    before = ["strace", "-f", "-qq", "-o", "/dev/null", "-e", f"trace={call}", "-e", inject]
    case.judge(case.ended(case.start(before=before)), sum_of(case.texts()))
    case.goes_on()


def failed_file(case: Case) -> None:
    """A file cannot be opened or read, by the driver or a part."""
    if not shutil.which("strace"):
        raise Skipped("there is no strace")
    tree = case.out + ".tree"
    path = case.draw.choice([case.names[5], f"{tree}/1.1.prof", f"{tree}/1.1.manifest", f"{tree}/tree", case.out])
    faults = [("openat", "EIO"), ("openat", "EMFILE"), ("openat", "ESTALE"), ("openat", "EACCES"), ("read", "EIO")]
    call, error = case.draw.choice(faults)
    inject = f"inject={call}:error={error}:when={case.draw.choice((1, 2, 3))}"
    before = ["strace", "-f", "-qq", "-o", "/dev/null", "-P", path, "-e", f"trace={call}", "-e", inject]
    case.judge(case.ended(case.start(before=before)), sum_of(case.texts()))
    case.goes_on()


def by_make(case: Case) -> None:
    """The parts are made by make, of which one is killed, or a profile is bad; then by make again."""
    if not shutil.which("make"):
        raise Skipped("there is no make")
    plan, script = f"{case.folder}/plan", f"{case.folder}/makefile"
    case.ended(case.start(words=[f"--plan={plan}", "-o", case.out, "--part-size=3", *case.names]))
    with open(script, "wb") as file:
        subprocess.run([sys.executable, TREE, "--print=make", plan], stdout=file, check=True)
    texts = case.texts()
    number = case.draw.randrange(case.count)
    is_bad = case.draw.randrange(2)
    if is_bad:
        case.write(case.names[number], texts[number][:-2] + b":")
    environment = {**os.environ, "PGO": case.slow}
    call = ["make", "-k", "-j2", "-f", script]
    process = subprocess.Popen(
        call, env=environment, stdout=subprocess.PIPE, stderr=subprocess.PIPE, start_new_session=True)
    if not is_bad:
        time.sleep(case.draw.uniform(0.1, 0.6))
        with contextlib.suppress(ProcessLookupError):
            os.killpg(process.pid, signal.SIGKILL)
    answer = case.ended(process)
    now, wanted = content(case.out), sum_of(texts)
    if answer.status == 0 and (is_bad or now != wanted) or now not in (case.old, wanted):
        raise Wrong(f"by make: {answer}")
    case.write(case.names[number], texts[number])
    case.answers += 1
    again = subprocess.run(call, env={**environment, "PGO": str(PGO)}, capture_output=True, check=False)
    case.judge(Answer(again.returncode, again.stderr.decode()), wanted, may=[0])


def written_meanwhile(case: Case) -> None:
    """Profiles are written to while they are read: the sum is that of what the manifest names, or there is none."""
    process = case.start("--skip-bad=100", slow=True)
    turn = 0
    while process.poll() is None:
        turn += 1
        case.write(case.names[turn * 7 % case.count], drawn_profile(case.draw, turn * 7 % case.count))
        time.sleep(0.003)
    answer = case.ended(process)
    case.answers += 1
    now = content(case.out)
    if "Traceback" in answer.said or answer.status and now != case.old:
        raise Wrong(f"{answer}")
    if not answer.status:
        told = json.loads(content(case.out + ".manifest") or b"")
        counted = sum(times for _, thing, times in sums.read(now) if thing[0] == "count")
        if counted != sum(each["total"] for each in told["files"]):
            raise Wrong("OUT has other counts than the files of its manifest")
        if len(told["files"]) + len(told["left_out"]) != case.count:
            raise Wrong("the manifest does not name all files")
        case.old = now
    case.goes_on()


FAMILIES: Sequence[Callable[[Case], None]] = (
    killed, bad_profile, cut_profile, tampered, changed_between, strange_name, in_the_way, at_once, no_room,
    of_another_user, failed_call, failed_file, by_make, written_meanwhile, killed_again,
)


class Planted(NamedTuple):
    """A fault that was planted, and what came of it: answers, or why it could not be planted, or what is wrong."""

    name: str
    answers: int
    skipped: str
    wrong: str


def planted(seed: int, number: int, parts: int) -> Planted:
    """Plants a fault in a folder of its own with so many profiles. Numbers go through the families."""
    family = FAMILIES[number % len(FAMILIES)]
    skipped = wrong = ""
    with tempfile.TemporaryDirectory(prefix="pgo-fleet-") as folder:
        case = Case(folder, random.Random(f"{seed}.{number}"), parts)
        try:
            family(case)
        except Skipped as reason:
            skipped = str(reason)
        except Wrong as reason:
            wrong = str(reason)
    return Planted(f"{family.__name__} {seed}.{number}", case.answers, skipped, wrong)
