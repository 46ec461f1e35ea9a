"""Names of functions as a table has them: arguments are cut first, the class and the method last, and no two alike."""
import collections
import os
import re
from typing import Dict, Iterator, List, Mapping, Optional

from pgo_tools.texts.names import cut, cut_middle, printable

# A longer name is cut in the middle, without a look at its brackets.
MOST_PARSED = 1 << 14
# At most so many of the last scopes stay of a name that is cut.
MOST_SCOPES = 40
# Brackets, and the names that have some of their own.
TOKEN = re.compile(r"(?<![\w$])operator *(?:\(\)|\[\]|<=>|<<=?|>>=?|->\*?|[<>]=?)|\(anonymous namespace\)|->|[()<>]")
CLOSED = {"(": ")", "<": ">"}
OPERATOR = re.compile(r"(?<![\w$])operator")
# Two names that would be alike, each with the place where they differ.
APART = re.compile(r"(.*) \[\.\.(.*?)(?:\.\.)?\]", re.DOTALL)


def pieces(name: str) -> List[str]:
    """The text outside of brackets and the brackets, alternately; only the name if its brackets do not pair."""
    ends = [0]
    opened: List[str] = []
    for token in TOKEN.finditer(name):
        if token[0] in CLOSED:
            if not opened:
                ends.append(token.start())
            opened.append(CLOSED[token[0]])
        elif token[0] in CLOSED.values():
            if not opened or opened.pop() != token[0]:
                return [name]
            if not opened:
                ends.append(token.end())
    return [name] if opened else [name[low:high] for low, high in zip(ends, [*ends[1:], len(name)])]


def emptied(parts: List[str], bracket: str) -> List[str]:
    """The pieces with `..` in these brackets, except those that name a copy of a function, as `(.cold)`."""
    empty = f"{bracket}..{CLOSED[bracket]}"
    return [empty if k % 2 and len(it) > 2 and it[0] == bracket and it[1] != "." else it for k, it in enumerate(parts)]


def without_result(parts: List[str]) -> List[str]:
    """The pieces without the type of the result, which demanglers print before the name of a template."""
    arguments = next((k for k, it in enumerate(parts) if k % 2 and it[0] == "("), None)
    if arguments is None or re.search(" (?:to|for) ", parts[0]):
        return parts
    for k in range(arguments - 1, -1, -2):
        text = parts[k].replace("(anonymous namespace)", "(anonymous_namespace)")
        operator = OPERATOR.search(text)
        at = text.rfind(" ", 0, operator.start() if operator else None)
        if at >= 0:
            return [parts[k][at + 1 :], *parts[k + 1 :]]
    return parts


def forms(name: str) -> Iterator[str]:
    """A demangled name, and shorter and shorter forms of it. The last one has the class and the method."""
    yield name
    if len(name) > MOST_PARSED:
        return
    parts = emptied(pieces(name), "(")
    yield "".join(parts)
    parts = without_result(parts)
    yield "".join(parts)
    last = "".join(emptied(parts, "<"))
    yield last
    scopes = last.split("::")
    for k in range(max(1, len(scopes) - MOST_SCOPES), len(scopes) - 1):
        yield "::".join(["..", *scopes[k:]])


def short(name: str, width: int) -> str:
    """The first form of a name that fits, or else the last one, cut in the middle."""
    form = name
    for form in forms(name):
        if len(form) <= width:
            return form
    return cut_middle(form, width)


def whole_names(shown: Mapping[str, str]) -> Dict[str, str]:
    """Each name as it is demangled; where two are demangled alike, with the name itself."""
    often = collections.Counter(shown.values())
    return {name: text if often[text] == 1 else f"{text} [{printable(name)}]" for name, text in shown.items()}


def at_difference(text: str, width: int, start: int) -> str:
    """A name that is short, and its characters from a place on."""
    front = short(text, 2 * width // 3)
    return f"{front} [..{cut(text[max(start - 8, 0) :], width - len(front) - 5)}]"


def short_names(shown: Mapping[str, str], width: Optional[int]) -> Dict[str, str]:
    """Each name as a table has it, by its demangled form; whole without a width, and where nothing less is its own."""
    whole = whole_names(shown)
    if width is None:
        return whole
    found = {name: short(text, width) for name, text in whole.items()}
    alike: Dict[str, List[str]] = {}
    for name, form in found.items():
        alike.setdefault(form, []).append(name)
    for names in alike.values():
        if len(names) > 1:
            start = len(os.path.commonprefix([whole[name] for name in names]))
            found.update({name: at_difference(whole[name], width, start) for name in names})
    often = collections.Counter(found.values())
    return {name: form if often[form] == 1 else whole[name] for name, form in found.items()}


def is_called(wanted: str, name: str, text: str, width: int) -> bool:
    """Whether a table of names has the name in this form, whichever others it has."""
    apart = APART.fullmatch(wanted)
    wholes = (text, f"{text} [{printable(name)}]")
    return any(wanted in (whole, short(whole, width)) or
               apart and apart[1] == short(whole, 2 * width // 3) and apart[2] in whole for whole in wholes)
