"""Records the branches that a program takes, on any processor. The program runs under the emulator qemu-x86_64 with a
plugin, the recorder.

A C compiler builds the recorder once for each version, in a cache folder of the user's that nobody else may write. This
process becomes the emulator, so signals, streams and the exit status are those of the program. docs/USING.md shows it
in use.
"""
import argparse
import contextlib
import hashlib
import os
import shutil
import signal
import stat
import subprocess
import sys
import tempfile
from typing import List, NoReturn, Optional, Tuple

from pgo_tools import cli
from pgo_tools.cli import FAILED, NO_FILE, NO_PROGRAM, REFUSED, USAGE, WRITE_FAULT, Trouble
from pgo_tools.cli.words import at_least_one, named
from pgo_tools.texts.names import shell_word, text_of

CALL = "pgo-record [-o FILE] [-c N] [--depth N] [-q] PROGRAM [ARGUMENT].."
# A prime, so that the length of no loop divides it.
PERIOD, DEPTH, DEEPEST = 2999, 32, 1023
X86_64 = b"\x3e\x00"
# A recording begins with a load line, or with one that a signal cut: then it may be blank.
FRONT = 12
RECORDED = (b"", b"PERF_RECORD_", b"#ERF_RECORD_", b"\n" * FRONT)


def parser() -> argparse.ArgumentParser:
    """The options, which come before the program."""
    made = argparse.ArgumentParser(
        prog="pgo-record", usage=CALL, allow_abbrev=False, formatter_class=argparse.RawDescriptionHelpFormatter,
        description="""\
Runs PROGRAM with its arguments under the emulator qemu-x86_64, ten to twenty
times as slow as by itself, and records the branches that it takes, with its
threads and forked processes. pgo-profile makes a profile of FILE. Programs that
PROGRAM runs (exec) are not recorded.

Needs qemu-x86_64 (Debian's qemu-user) and, for its first call, a C compiler.
The exit status is that of PROGRAM.""")
    add = made.add_argument
    add("-o", "--output", metavar="FILE", default="recorded.txt", type=named,
        help="the recording (default: recorded.txt)")
    add("-c", "--period", metavar="N", default=PERIOD, type=at_least_one,
        help=f"take a sample every N taken branches (default: {PERIOD})")
    add("--depth", metavar="N", default=DEPTH, type=at_least_one,
        help=f"keep the last N branches with each sample (default: {DEPTH}, at most {DEEPEST})")
    add("-q", "--quiet", action="store_true", help="print neither the next step nor the sums of each process")
    add("command", nargs=argparse.REMAINDER, help=argparse.SUPPRESS)
    return made


# The program.

def program_at(word: str) -> str:
    """The path of a program that the emulator can run."""
    path = word if "/" in word else shutil.which(word)
    if not path or not os.path.isfile(path):
        is_here = "/" not in word and os.path.isfile(word)
        raise Trouble(f"no such program: {word}", NO_FILE, f"./{word}" if is_here else "")
    with open(path, "rb") as file:
        head = file.read(256)
    if head.startswith(b"#!"):
        interpreter = text_of(head[2:].split(b"\n")[0].strip()).split(" ")[0]
        raise Trouble(f"{word} is a script, and the emulator runs programs", REFUSED,
                      f"record its interpreter: pgo-record {shell_word(interpreter)} {shell_word(word)}")
    if head[:6] != b"\x7fELF\x02\x01" or head[18:20] != X86_64:
        raise Trouble(f"{word} is no program for x86-64", REFUSED, "the program that the compiler linked")
    if not os.access(path, os.X_OK):
        raise Trouble(f"{word} is not executable", REFUSED, f"chmod +x {shell_word(path)}")
    return path


def judge_output(out: str, path: str) -> None:
    """A Trouble if the recording cannot be written, or would replace a file that is no recording.

    A pipe or a device is not opened here: opening a pipe waits for its reader, and closing it again ends what is read.
    """
    try:
        mode = os.stat(out).st_mode
    except (FileNotFoundError, NotADirectoryError):
        mode = stat.S_IFREG
    if not stat.S_ISREG(mode) and not stat.S_ISDIR(mode):
        return
    with contextlib.suppress(FileNotFoundError, NotADirectoryError, IsADirectoryError), open(out, "rb") as file:
        if os.path.samefile(out, path) or file.read(FRONT) not in RECORDED:
            raise Trouble(f"{out} is no recording of branches, and would be lost", USAGE, "another name after -o")
    try:
        os.close(os.open(out, os.O_WRONLY | os.O_CREAT | os.O_CLOEXEC, 0o666))
    except OSError as reason:
        raise Trouble(f"{out}: {reason.strerror}", WRITE_FAULT, "a file in a folder that you may write") from None


# The recorder.

def source() -> bytes:
    """The recorder's source: of an installation, or of a clone."""
    here = os.path.dirname(os.path.realpath(sys.argv[0]))
    for path in (f"{here}/../recorder.c", f"{here}/../share/pgo/recorder.c", f"{here}/../bench/repair/recorder.c"):
        with contextlib.suppress(FileNotFoundError), open(path, "rb") as file:
            return file.read()
    raise Trouble("recorder.c, the source of the recorder, is missing", FAILED, "install pgo again (make install)")


def cache_folder() -> str:
    """The folder of the user's for what is built once: nobody else may write it, since it is run."""
    helps = "XDG_CACHE_HOME=FOLDER in front, a folder of yours"
    above = os.environ.get("XDG_CACHE_HOME", "")
    if not os.path.isabs(above):
        home = os.environ.get("HOME", os.path.expanduser("~"))
        if not os.path.isabs(home):
            raise Trouble("there is no home folder, below which the recorder is kept", FAILED, helps)
        above = os.path.join(home, ".cache")
    folder = os.path.join(above, "pgo")
    try:
        os.makedirs(above, mode=0o700, exist_ok=True)
        with contextlib.suppress(FileExistsError):
            os.mkdir(folder, 0o700)
        found = os.lstat(folder)
    except OSError as reason:
        raise Trouble(f"{folder}: {reason.strerror}", WRITE_FAULT, helps) from None
    if not stat.S_ISDIR(found.st_mode) or found.st_uid != os.geteuid() or found.st_mode & 0o022:
        raise Trouble(f"{folder} is no folder that you alone may write", FAILED,
                      f"chmod 700, or {helps}")
    return folder


def compiled(code: bytes, folder: str) -> str:
    """A new file of the folder: the recorder, as the C compiler makes it."""
    compiler = shutil.which("cc") or shutil.which("gcc") or shutil.which("clang")
    if not compiler:
        raise Trouble("there is no C compiler, which builds the recorder once", NO_PROGRAM,
                      "Debian: apt-get install gcc libc6-dev")
    handle, made = tempfile.mkstemp(prefix="recorder.", suffix=".new", dir=folder)
    os.close(handle)
    words = [compiler, "-O2", "-shared", "-fPIC", "-x", "c", "-o", made, "-"]
    try:
        ran = subprocess.run(words, input=code, capture_output=True, check=False, env={**os.environ, "LC_ALL": "C"})
        if ran.returncode:
            errors = [line for line in text_of(ran.stderr).splitlines() if "error" in line]
            said = errors[0] if errors else f"status {ran.returncode}"
            raise Trouble(f"{os.path.basename(compiler)} cannot build the recorder: {said}", FAILED,
                          "Debian: apt-get install gcc libc6-dev")
    except BaseException:
        os.unlink(made)
        raise
    return made


def recorder() -> str:
    """The recorder as a shared object. It is built if this version of its source is not yet there."""
    code = source()
    folder = cache_folder()
    place = os.path.join(folder, f"recorder-{hashlib.sha256(code).hexdigest()}.so")
    if not os.path.isfile(place):
        made = compiled(code, folder)
        os.chmod(made, 0o700)
        os.replace(made, place)
    return place


# The call.

def option(name: str) -> str:
    """A value for the emulator, in whose option a comma ends one."""
    return name.replace(",", ",,")


def words_of(argv: List[str]) -> Tuple[argparse.Namespace, List[str]]:
    """The options, and the program with its arguments."""
    words = parser()
    found = words.parse_args(argv)
    command: List[str] = found.command
    if command[:1] == ["--"]:
        del command[0]
    if not command or not command[0]:
        words.error("no program is given")
    if command[0].startswith("-"):
        words.error(f"there is no option {command[0]}: a program whose name begins with - is written ./{command[0]}")
    if found.depth > DEEPEST:
        words.error(f"--depth is at most {DEEPEST}")
    return found, command


def become(path: str, words: List[str]) -> NoReturn:
    """Runs a program in place of this process, with the signals as the caller had them."""
    for each in ("SIGPIPE", "SIGXFSZ"):
        signal.signal(getattr(signal, each), signal.SIG_DFL)
    os.execv(path, words)


def work(argv: List[str]) -> int:
    found, command = words_of(argv)
    path = program_at(command[0])
    emulator = shutil.which("qemu-x86_64")
    if not emulator:
        raise Trouble("there is no qemu-x86_64, the emulator", NO_PROGRAM, "Debian: apt-get install qemu-user")
    plugin = recorder()
    judge_output(found.output, path)
    if not found.quiet:
        beside = os.path.join(os.path.dirname(sys.argv[0]), "pgo-profile")
        maker = "pgo-profile" if shutil.which("pgo-profile") else beside
        words = [maker, path, found.output, f"{os.path.basename(path)}.prof"]
        cli.say(f"recording to {found.output}; when the program has ended: {' '.join(map(shell_word, words))}")
    quiet = ",quiet=on" if found.quiet else ""
    call = f"{option(plugin)},out={option(found.output)},branches={found.period},depth={found.depth}{quiet}"
    become(emulator, [emulator, "-0", command[0], "-plugin", call, path, *command[1:]])


def main(argv: Optional[List[str]] = None) -> NoReturn:
    """The command, from its arguments to its status. It never returns."""
    cli.run(work, argv)
