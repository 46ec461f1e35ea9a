"""Makes a profile by `pgo-cold profile`, with a line of count 0 for what never ran, and puts it in place only where it
has lines: of several programs by `pgo profile`, a merge, and `pgo-cold` after it. Where it has none, or looks as if
another binary had run, the sums of the report say why, and so what helps.

Who made the program is found in its debugging information, and by which name it was loaded in the load lines. Nor is a
profile put in place where another build ran, by the build IDs in these or by where branches start, unless --other-build
is given. docs/USING.md shows it in use.

It needs `pgo`: where the variable PGO says, beside this script, in the folder above, or on the PATH; and `pgo-cold`
beside it.
"""
import argparse
import hashlib
import itertools
import os
import re
import signal
import sys
from typing import Iterable, Iterator, List, NamedTuple, NoReturn, Optional

from pgo_tools import cli
from pgo_tools.cli import files, programs
from pgo_tools.cli import FAILED, NO_MEMORY, USAGE, WRITE_FAULT, Trouble
from pgo_tools.elf import Elf
from pgo_tools.recording import found, inputs, signs
from pgo_tools.recording.inputs import Program, Text
from pgo_tools.recording.part import Part, Sign
from pgo_tools.texts import branch_text, profile_text, report
from pgo_tools.texts.branch_text import Load
from pgo_tools.texts.names import shell_word

USAGE_LINE = "pgo-profile [--base] [--map=NAME] [--also=BIN] [--pid=N] [--comm=NAME] [--other-build] BIN PERF PROFILE"
FLAGS = ("--base", "--no-base", "--other-build", "--help", "-h")
VALUES = {"--map": "/srv/app/words", "--also": "libshape.so", "--pid": "4711", "--comm": "words"}


class Named(NamedTuple):
    """A program of a call, and the name at which it was loaded, or "" where none is given."""

    file: str
    loaded: str


class Words(NamedTuple):
    """The words of a call."""

    base: bool
    no_base: bool
    map: List[str]
    also: List[str]
    pid: Optional[str]
    comm: Optional[str]
    other_build: bool
    files: List[str]

    def out(self) -> str:
        return self.files[2]


class Done(NamedTuple):
    """A profile that is in place: the signs of what is wrong with it, and the lines about it."""

    seen: List[Sign]
    lines: List[str]


# The words.

def wrong(why: str) -> Trouble:
    print(f"usage: {USAGE_LINE}", file=sys.stderr)
    return Trouble(why, USAGE)


def judge_words(argv: List[str]) -> int:
    """Where the files begin; a Trouble for words that spell no call."""
    at = 0
    while at < len(argv) and argv[at].startswith("-") and argv[at] != "-":
        word, _, value = argv[at].partition("=")
        if argv[at] == "--":
            return at
        kind = "number" if word == "--pid" else "name"
        if word in VALUES and not value or word == "--pid" and not re.fullmatch("[0-9]+(,[0-9]+)*", value):
            raise wrong(f"the {kind} stands behind {word}= without a space: {word}={VALUES[word]}")
        if word not in VALUES and argv[at] not in FLAGS:
            raise wrong(f"there is no option {argv[at]}")
        at += 1
    for word in argv[at:]:
        if not word:
            raise wrong("a file has no name")
        if word in FLAGS or word.partition("=")[0] in VALUES:
            raise wrong(f"options stand in front of the files: {word}")
    return at


class Help(argparse.RawDescriptionHelpFormatter):
    """Options with their values behind =, as they are taken."""

    def _format_action_invocation(self, action: argparse.Action) -> str:
        return super()._format_action_invocation(action).replace(f" {action.metavar}", f"={action.metavar}")


def words_of(argv: List[str]) -> Words:
    parser = argparse.ArgumentParser(
        prog="pgo-profile", usage=USAGE_LINE, allow_abbrev=False, formatter_class=Help,
        description="""\
Makes the profile PROFILE of the program BIN by the branches that PERF has, as
perf script -F ip,brstack prints them, with lines of count 0 for what never ran
(pgo-cold). PROFILE is put in place whole, and only with a line that compilers
read; else it stays as it was, and the error output says why and what helps
(status 1, or that of pgo).

PERF is such a text, or one packed by gzip, xz, bzip2 or zstd, or perf.data itself
where perf is there to print it, or a pipe (/dev/stdin). All but a plain text is
written out first, in the folder for temporary files (TMPDIR).""")
    add = parser.add_argument
    add("--base", action="store_true",
        help="clang or rustc made BIN, and not gcc; else its debugging information tells")
    add("--no-base", action="store_true", help="gcc made BIN, whatever its debugging information tells")
    add("--map", metavar="NAME", action="append", default=[],
        help="the name by which load lines of PERF have BIN, whole; "
             "else it is found by the build's number or by BIN's own name")
    add("--also", metavar="BIN", action="append", default=[],
        help="a further program or library of the same recording, whose lines the profile has too; "
             "a further --map= is its name")
    add("--pid", metavar="N", help="of the recording perf.data the samples of this process")
    add("--comm", metavar="NAME",
        help="of the recording perf.data the samples of threads of this name, as perf script -F comm shows it; "
             "--pid= has all threads")
    add("--other-build", action="store_true",
        help="PROFILE is made, with a warning, even where another build than BIN ran, "
             "by the numbers of the builds or by where branches start")
    add("files", metavar="BIN PERF PROFILE", nargs="*", help=argparse.SUPPRESS)
    at = judge_words(argv)
    taken = parser.parse_args(argv[:at] + ["--"] + argv[at:][argv[at : at + 1] == ["--"] :])
    words = Words(**vars(taken))
    if words.files[2:] == ["-"]:
        raise wrong("the profile is a file, and - is no name of one")
    strange = [word for word in words.files if word.startswith("-")]
    if len(words.files) > 3 and strange:
        raise wrong(f"there is no option {strange[0]}: the third file is the profile")
    if len(words.files) != 3:
        raise wrong(f"it takes three files, the program, the text and the profile; here are {len(words.files)}")
    if words.base and words.no_base:
        raise wrong("--base and --no-base do not go together")
    if len(words.map) > 1 + len(words.also):
        raise wrong("--map stands twice: make a profile for each name, and merge them")
    judge_words_twice(words)
    return words


def programs_named(words: Words) -> List[Named]:
    """The programs, each with the name at which it was loaded, where one is given."""
    named = zip([words.files[0], *words.also], itertools.chain(words.map, itertools.repeat("")))
    return [Named(file, loaded) for file, loaded in named]


def judge_words_twice(words: Words) -> None:
    """A Trouble where a program is named again without another name at which it was loaded."""
    for (one, name), (other, other_name) in itertools.combinations(programs_named(words), 2):
        again = name == other_name and once_more(one, other)
        if again:
            raise wrong(again)


def once_more(one: str, other: str) -> str:
    """What is said of a program that is another one once more, and nothing where it is not."""
    is_again = files.is_same(os.path.realpath(one), other)
    return f"--also={other} is {one} once more, and would count twice" if is_again else ""


# What stands in the way of a profile.

def help_of(kind: str) -> str:
    """What helps by pgo's own help, in one line."""
    told = programs.answer(programs.pgo(), "--help", kind)
    helps = re.search(r"^What helps: (.*)", told, re.DOTALL | re.MULTILINE)
    return " ".join(helps[1].split()).rstrip(".") if helps else ""


def explained(status: int, line: str, program: Program, text: Text) -> Trouble:
    """Why pgo has ended, by its line, as a Trouble."""
    path = program.path if ": file 1" in line or line.endswith(": 1") else text.path
    refusal = re.fullmatch(r"refused: file ([12]) at ([0-9]+): ([A-Za-z0-9]+)", line)
    if refusal:
        line += f" ({text.name if refusal[1] == '2' else program.name})"
    if refusal and refusal[1] == "2" and refusal[3] == "BadLine":
        return Trouble(line, status, signs.look_at_line(text, int(refusal[2])))
    if refusal and refusal[3] == "NotElf" and refusal[2] == "0":
        return Trouble(line, status, signs.look_at_program(program, text) or help_of("NotElf"))
    if refusal and refusal[3] == "Compressed":
        plain = shell_word(program.base_name() + ".plain")
        unpack = f"objcopy --decompress-debug-sections {shell_word(program.name)} {plain}"
        return Trouble(line, status, f"{unpack}, and {plain} in its place")
    if refusal and refusal[1] == "2" and refusal[3] == "TooManyEntries":
        return Trouble(line, status, "the text as perf printed it, its lines not joined")
    if refusal and refusal[1] == "1":
        return Trouble(line + signs.place_in(program, int(refusal[2])), status, help_of(refusal[3]))
    if refusal:
        return Trouble(line, status, help_of(refusal[3]))
    if line.startswith("no such file: "):
        helps = "the input is named /dev/stdin" if text.name == "-" and line.endswith("2") else ""
        return Trouble(f"{line} ({path})", status, helps)
    if line.startswith("read fault: "):
        return Trouble(f"{line} ({path})", status, signs.look_at_unread(path))
    more = "about five times the memory that BIN has bytes, and no lower ulimit -v"
    by_status = {WRITE_FAULT: "room on the disk", NO_MEMORY: more}
    return Trouble(line or f"pgo ended with {status}", status, by_status.get(status, ""))


def judge_signal(program: str, status: int) -> None:
    """A Trouble where a program was ended by a signal, which is no status of a script."""
    if status == -signal.SIGXFSZ:
        what = "write fault: what is written on the way is larger than files may be"
        raise Trouble(what, WRITE_FAULT, "a higher ulimit -f")
    if status < 0:
        helps = "the same again; where the system ended it, more memory"
        raise Trouble(f"{program} was ended by signal {-status}", FAILED, helps)


def judge_target(out: str, read: Iterable[str]) -> None:
    """A profile can be put there; a Trouble where it cannot."""
    try:
        folder = os.path.dirname(files.target_of(out))
    except Trouble as reason:
        raise Trouble(reason.what.rpartition(": ")[2], reason.status) from None
    if not os.path.exists(folder):
        raise Trouble(f"there is no folder {folder}", WRITE_FAULT, f"mkdir -p {shell_word(folder)}")
    if not os.path.isdir(folder) or not os.access(folder, os.W_OK | os.X_OK):
        raise Trouble("nothing can be written there", WRITE_FAULT)
    for each in read:
        if files.is_same(os.path.realpath(out), programs.as_file(each)):
            raise Trouble(f"it is the program or the text: {each}", USAGE)
    if profile_text.would_go(out):
        if files.kind_of(out) in ("program", "recording", "archive", *files.PACKED) or branch_text.is_at(out):
            raise Trouble("it is a program or a recording, which would be lost", USAGE,
                          "another name; of several recordings make a profile each, and merge them (pgo merge)")
        raise Trouble("it is no profile in text, and would be lost", USAGE, "another name")


# The profile.

def part_of(program: Program, loads: List[Load], words: Words, name: str) -> Part:
    """A program with the options that are right for it: those that are given, or else those that are found."""
    base = words.base
    if program.elf is None:
        return Part(program, base, name)
    if not words.base and not words.no_base:
        base = found.wants_base(program.elf)
    if not name and program.elf.is_position_independent():
        name = found.loaded_name(program, loads)
    part = Part(program, base, name)
    # A program at fixed addresses needs no name, but load lines can have the number of its build.
    names = [name] if name else found.loaded_names(program, loads)
    part.built = found.other_build(program, loads, names[0]) if len(names) == 1 else ""
    part.is_known = found.is_known_build(program, loads, names)
    return part


def judge_twice(part: Part, parts: List[Part]) -> None:
    """A Trouble where a program counts twice by the name that was found for it, or by its own addresses."""
    for before in parts:
        may_share = part.name == before.name or "" in (part.name, before.name)
        again = may_share and once_more(before.program.name, part.program.name)
        if again:
            raise Trouble(again, USAGE, "it once, or a --map= for each time")


def parts_of(words: Words, text: Text, folder: str) -> List[Part]:
    """The programs, each in a folder of its own and none of them twice."""
    loads = text.loads()
    parts: List[Part] = []
    for number, (name, loaded) in enumerate(programs_named(words)):
        inside = f"{folder}/{number}"
        os.mkdir(inside)
        part = part_of(inputs.program_in(name, inside), loads, words, loaded)
        part.made = f"{inside}/prof"
        judge_twice(part, parts)
        parts.append(part)
    return parts


def make(part: Part, text: Text, program: str) -> None:
    """Has pgo make the profile of a program, or pgo-cold with what never ran, and reads it."""
    flags = part.flags() + [f"--map={part.name}"] * bool(part.name)
    with open(part.made, "wb") as made:
        status, _, said = programs.call([program, "profile", *flags, part.program.path, text.path], stdout=made)
    judge_signal(os.path.basename(program), status)
    if status:
        raise explained(status, programs.last_line(said), part.program, text)
    part.program.headers()
    with open(part.made, "rb") as made:
        part.profile = profile_text.read(made)
    with open(part.made, "rb") as made:
        part.report = report.read(made)


def judge(parts: List[Part], text: Text, words: Words) -> List[Sign]:
    """The signs of programs that have no line, beside others that have; a Trouble where none is put in place."""
    empty = [signs.why_empty(part.program, text, part.name, part.report) for part in parts if not part.profile]
    if len(empty) == len(parts):
        raise Trouble(empty[0].what, FAILED, empty[0].helps)
    for part in parts:
        if part.name and part.profile and signs.is_debug_file(part.program):
            sign = signs.debug_file_sign(part.program)
            raise Trouble(sign.what, FAILED, sign.helps)
        signs.judge_binary(part, text)
        may_stay = part.branches < signs.FEW_SOURCES or signs.is_kernel(part.program)
        may_differ = words.other_build or not part.built and may_stay
        if part.other and not may_differ:
            helps = f"{part.other.helps}; or --other-build, which makes the profile all the same"
            raise Trouble(part.other.what, FAILED, helps)
    return empty


def step(words: List[str], made: str) -> str:
    """Runs pgo or pgo-cold, which writes a further profile."""
    with open(made, "wb") as file:
        status, _, said = programs.call(words, stdout=file)
    judge_signal(os.path.basename(words[0]), status)
    if status:
        raise Trouble(f"{os.path.basename(words[0])}: {programs.last_line(said)}", status)
    return made


def merged(parts: List[Part], folder: str) -> str:
    """The profile of all programs in one."""
    made = [part.made for part in parts]
    while len(made) > 1:
        pairs = [word for each in made[:8] for word in ("1", each)]
        made = [step([programs.pgo(), "merge", *pairs], f"{folder}/{len(made)}.merged")] + made[8:]
    return made[0]


def with_cold(cold: str, parts: List[Part], made: str, folder: str) -> str:
    """The profile with a line of count 0 for what never ran, of one program after the other."""
    for number, part in enumerate(parts):
        made = step([cold, *part.flags(), part.program.path, made], f"{folder}/{number}.cold")
    return made


def build_of(elf: Elf) -> str:
    """Returns the number of a program's build: GNU's build ID, or else the SHA-256 of its code.

    A file of debugging information alone has no code; its information then takes that place.
    """
    return elf.build_id() or hashlib.sha256(elf.bytes_of(".text") or elf.bytes_of(".debug_info")).hexdigest()


def write(out: str, parts: List[Part], made: str) -> None:
    """Puts the profile in place: its lines, the reports, and the numbers of the builds, last that of the program."""
    with files.put_in_place(out) as file:
        with open(made, "rb") as lines:
            file.writelines(line for line in lines if not line.startswith(b"#"))
        for part in parts:
            with open(part.made, "rb") as lines:
                file.writelines(line for line in lines if line.startswith(b"#"))
        for number, part in reversed(list(enumerate(parts))):
            file.write(f"# {'also ' * (number > 0)}build {build_of(part.program.headers())}\n".encode())


# What is told of it.

def makers_sign(part: Part, words: Words) -> Iterator[Sign]:
    """The makers do not fit the options, or several made the program."""
    elf, name = part.program.headers(), part.program.name
    makers = elf.makers()
    if found.is_mixed(elf):
        with_it, without = ("with", "without") if part.base else ("without", "with")
        yield Sign(f"several compilers made {name} ({found.shares(elf)}), and the profile is made {with_it} --base",
                   f"build all of it by one; a profile {without} --base is right for the lines of the others")
    elif words.base and makers and not found.packs(makers[0].maker):
        yield Sign(f"{makers[0].maker} made {name}, and --base is for binaries of clang and rustc",
                   "the same without --base")
    elif words.no_base and makers and found.packs(makers[0].maker):
        yield Sign(f"clang or rustc made {name}: without --base compilers miss lines", "the same with --base")


def how_to_build(out: str, part: Part) -> str:
    """The options of the build that takes the profile. Its path is whole: CMake builds in a folder of its own."""
    makers = part.program.headers().makers()
    maker, profile = makers[0].maker if makers else "clang", shell_word(os.path.abspath(out))
    rest = "and the options of the sampled build"
    if maker == "rustc":
        use = f"-g -Z debug-info-for-profiling -Z profile-sample-use={profile}"
        return f"build with: rustc {use} (nightly), {rest}"
    for_whom = "clang (gcc reads no such profile)" if maker == "gcc" else "clang"
    return f"build with: {for_whom} -g -fdebug-info-for-profiling -fprofile-sample-use={profile}, {rest}"


def about(out: str, parts: List[Part], made: str) -> Iterator[str]:
    """The sums, and how to build."""
    with open(made, "rb") as lines:
        functions = sum(1 for line in lines if not line.startswith((b" ", b"#")))
    branches = parts[0].report["branches"]
    shares = [f"{part.of_it() * 100 // branches}%" for part in parts]
    of_others = "".join(f", {share} of {part.program.name}" for share, part in zip(shares[1:], parts[1:]))
    of_it = f"{shares[0]} of {branches} branches are of {parts[0].program.name}"
    yield f"{out}: {functions} function{'' if functions == 1 else 's'}; {of_it}{of_others}"
    yield how_to_build(out, parts[0])


def profile(words: Words, folder: str) -> Done:
    """Makes the profile and puts it in place."""
    name, perf, out = words.files
    judge_target(out, [name, perf, *words.also])
    asked = [f"--pid={words.pid}"] * bool(words.pid) + [f"--comms={words.comm}"] * bool(words.comm)
    text = inputs.text_in(perf, folder, asked)
    parts = parts_of(words, text, folder)
    cold = programs.cold()
    # The lines of what never ran of one program alone are made at once: a merge loses them.
    program = programs.pgo() if words.also else cold or programs.pgo()
    for part in parts:
        make(part, text, program)
    seen = judge(parts, text, words)
    made = merged(parts, folder)
    if cold and words.also:
        made = with_cold(cold, parts, made, folder)
    elif not cold:
        helps = "pgo-cold there, which says what never ran"
        seen.append(Sign(f"there is no pgo-cold beside {programs.pgo()}", helps))
    write(out, parts, made)
    for part in parts:
        seen += signs.of_program(part)
        seen += makers_sign(part, words)
    return Done(seen + list(signs.of_text(text, parts)), list(about(out, parts, made)))


def made_or_not(words: Words) -> Done:
    """The profile that is in place; a Trouble says what became of the one that was there."""
    out = words.out()
    stays = f"{out} {'stays as it was' if os.path.isfile(out) else 'was not made'}: "
    with files.scratch_folder("pgo-profile.") as folder:
        try:
            programs.pgo()
            return profile(words, folder)
        except Trouble as reason:
            is_full = reason.status == WRITE_FAULT and reason.what.startswith(f"{out}: ")
            what = f"write fault ({reason.what[len(out) + 2 :]})" if is_full else reason.what
            raise Trouble(stays + what, reason.status, reason.helps) from None
        except OSError as reason:
            if reason.filename is not None and not str(reason.filename).startswith(folder):
                raise
            raise Trouble(f"{stays}write fault in {folder} ({reason.strerror})", WRITE_FAULT,
                          "room there, or TMPDIR in front, which names another folder") from None


def work(argv: List[str]) -> int:
    words = words_of(argv)
    done = made_or_not(words)
    for sign in done.seen:
        cli.say(f"look at {words.out()} again: {sign.what}", sign.helps)
    for line in done.lines:
        cli.put(line)
    return cli.DONE


def main(argv: Optional[List[str]] = None) -> NoReturn:
    """The command, from its words to its status. It never returns."""
    cli.run(work, argv)
