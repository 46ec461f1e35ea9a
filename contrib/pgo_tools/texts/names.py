"""Names of functions and files as people read them: demangled, printable, and quoted for a shell."""
import re
import resource
import shlex
import shutil
import subprocess
import tempfile
from typing import Dict, Iterable, List, Match

# Control bytes of either set, what has no place in UTF-8, and what turns the direction of writing.
UNPRINTED = re.compile("[\x00-\x1f\x7f-\x9f\ud800-\udfff\u200e\u200f\u2028-\u202e\u2066-\u2069]")
DEMANGLERS = ["llvm-cxxfilt", "c++filt"] + [f"llvm-cxxfilt-{number}" for number in range(30, 13, -1)]
# Names that rustc mangled, for which rustfilt is asked too.
RUST = re.compile(r"_R|_ZN.*17h[0-9a-f]{16}E")

# A demangler's memory, seconds, and bytes that it prints: a name of some hundred bytes can mean one of terabytes.
DEMANGLER_LIMITS = ((resource.RLIMIT_AS, 1 << 30), (resource.RLIMIT_CPU, 20), (resource.RLIMIT_FSIZE, 1 << 28))


def text_of(raw: bytes) -> str:
    """The bytes of a name as a text, from which `raw_of` makes the same bytes again."""
    return raw.decode("utf-8", "surrogateescape")


def raw_of(text: str) -> bytes:
    """The bytes of a text, of those too that are not UTF-8."""
    return text.encode("utf-8", "surrogateescape")


def escape(match: Match[str]) -> str:
    """A character that is not printed, as \\xNN for each of its bytes."""
    return "".join(f"\\x{byte:02x}" for byte in match[0].encode("utf-8", "surrogateescape"))


def printable(text: str) -> str:
    """The text with what a terminal or a reader cannot take as \\xNN."""
    return UNPRINTED.sub(escape, text)


def shell_word(text: str) -> str:
    """The text as one word of a POSIX shell; with bytes that are not printed as one of bash."""
    if not UNPRINTED.search(text):
        return shlex.quote(text)
    return "$'" + UNPRINTED.sub(escape, text.replace("\\", "\\\\").replace("'", "\\'")) + "'"


def cut(text: str, width: int) -> str:
    """The text's first characters, with two points where some are left out."""
    return text if len(text) <= width else text[: width - 2] + ".."


def cut_middle(text: str, width: int) -> str:
    """The text's two ends, with two points between them where some is left out: names often differ at the end alone."""
    if len(text) <= width:
        return text
    first = (width - 2) // 2
    return text[:first] + ".." + text[len(text) - (width - 2 - first) :]


def within_limits() -> None:
    """Sets the limits of a demangler, in its process."""
    for kind, most in DEMANGLER_LIMITS:
        hard = resource.getrlimit(kind)[1]
        resource.setrlimit(kind, (most if hard == resource.RLIM_INFINITY else min(most, hard), hard))


def answer(tool: str, text: str) -> str:
    """What a demangler prints of these lines; "" where it fails, or would need too much."""
    try:
        with tempfile.TemporaryFile() as given, tempfile.TemporaryFile() as told:
            given.write(raw_of(text))
            given.seek(0)
            ran = subprocess.run(
                [tool], stdin=given, stdout=told, stderr=subprocess.DEVNULL, preexec_fn=within_limits, check=False)
            told.seek(0)
            return "" if ran.returncode else text_of(told.read())
    except OSError:
        # No room for it, or no such program any more: names are then told as they stand.
        return ""


def ask(tool: str, names: List[str], shown: Dict[str, str]) -> None:
    """Has a demangler say how these names are shown, if it knows all of them."""
    lines = answer(tool, "".join(f"{name}\n" for name in names)).split("\n")
    if len(lines) == len(names) + 1:
        shown.update(zip(names, lines))


def demangled(names: Iterable[str]) -> Dict[str, str]:
    """Each name as its program's source has it, where a demangler is there and knows all of them, and else as it is."""
    names = list(names)
    asked = [name for name in names if name.startswith(("_Z", "__Z", "_R")) and "\n" not in name]
    shown = {name: name for name in names}
    of_rust = [name for name in asked if RUST.match(name)]
    for tools, known in ((DEMANGLERS, asked), (["rustfilt"], of_rust)):
        tool = next(filter(shutil.which, tools), None)
        if tool and known:
            ask(tool, known, shown)
    return shown
