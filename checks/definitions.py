"""The definitions of the crates' `specs/`, one by one: how long each is, what its comments say, and which others it names; the types and
traits of the code too.
"""
import re
from functools import lru_cache
from typing import Container, Dict, Iterable, Iterator, List, NamedTuple, Set, Tuple

from made import TOP

OPENING = re.compile(r"(?:abbrev |unfoldable )?(?:pub )?(?:(?:record|data) )?(\S+)")
WORDS = ("abbrev ", "unfoldable ", "pub ", "record ", "data ")
NAME = re.compile(r"[\w'«»]+(?:\.[\w'«»]+)*")
# Types that are read by their names alone: each variant is explained at the definition that gives it.
BY_NAME = {"Kind"}
IMPORT = re.compile(r"^(?:pub |ghost )?use Rattle\.([\w.]+?)(?:\.\{([^}]*)\}| as (\w+));?$", re.M)


class Name(NamedTuple):
    """A definition: its file, as crate/specs/File.antt, or the Rust file of a type or trait; and its name there."""

    path: str
    name: str


class Definition(NamedTuple):
    lines: int  # with its comment, without empty lines and reasons for decisions
    comment: str
    text: str  # without comments
    source: str  # as in its file, without reasons for decisions
    variants: Tuple[str, ...] = ()  # of a type that is read by its name alone


class File(NamedTuple):
    said: str  # the first comment of the file
    definitions: Dict[str, Definition]
    owners: Dict[str, str]  # of each constructor the definition that has it
    names: Dict[str, Name]  # what each name in it stands for
    modules: Dict[str, str]  # the file that a name stands for


def path_of(module: str) -> "Tuple[str, str]":
    """The file of a module below Rattle, and the type where it is one of Rust's; ("", "") of the library."""
    crate, _, rest = module.partition(".specs.")
    if not rest or not (TOP / "crates" / crate / "specs").is_dir():
        return "", ""
    if rest.startswith("declared."):
        parts = rest.split(".")
        return f"{crate}/src/{parts[1]}.rt", parts[2] if len(parts) > 2 else ""
    return f"{crate}/specs/{rest.replace('.', '/')}.antt", ""


def imported(text: str) -> "Tuple[Dict[str, Name], Dict[str, str]]":
    """What the `use` lines of a file name: definitions, and files by another name."""
    names: Dict[str, Name] = {}
    modules: Dict[str, str] = {}
    for module, listed, alias in IMPORT.findall(text):
        path, rust_type = path_of(module)
        if not path:
            continue
        if alias:
            modules[alias] = path
        for item in listed.split(",") if listed else ():
            there, _, here = item.strip().partition(" as ")
            names[here or there] = Name(path, rust_type or there)
    return names, modules


def opened(line: str) -> str:
    """The name of the definition that a line opens, or nothing."""
    match = OPENING.match(line) if line.startswith(WORDS) else None
    return match[1] if match else ""


def blocks(lines: List[str]) -> "Iterator[Tuple[str, List[str]]]":
    """Each definition of a file with its lines, comments in front of it and fixities too."""
    name = ""
    block: List[str] = []
    ahead: List[str] = []
    for line in lines:
        if line.startswith(("--", "infix")) or not line.strip():
            ahead.append(line)
            continue
        if opened(line):
            if name:
                yield name, block
            name, block = opened(line), []
        block += [*ahead, line]
        ahead = []
    if name:
        yield name, block


def without_why(block: List[str], mark: str = "--") -> List[str]:
    """The lines without those of a decision, which checks/decisions collects."""
    kept, why = [], False
    for line in block:
        why = line.strip().startswith(f"{mark} Why: ") or (why and line.strip().startswith(f"{mark} "))
        kept += [] if why else [line]
    return kept


def definition(block: List[str]) -> Definition:
    # The heading of a part of the file, and the reason for a decision, are no part of what a definition says.
    block = [line for line in without_why(block) if not line.startswith("-- ---- ")]
    comment = " ".join(line.strip()[2:].strip() for line in block if line.strip().startswith("--"))
    text = "\n".join(line for line in block if not line.strip().startswith("--"))
    return Definition(sum(bool(line.strip()) for line in block), comment, text, "\n".join(block).strip("\n"))


def rust_types(text: str) -> Dict[str, Definition]:
    """The types and traits of a Rust file, without what stands on the types. What a trait names is what its clauses do."""
    found = {}
    for match in re.finditer(r"((?:^///.*\n)*)(?:^// .*\n)*(?:^#\[.*\n)*^pub (struct|enum|trait) (\w+)[^;{]*(?:;|\{\n(?:.*\n)*?^\}$)", text, re.M):
        source = match[0] if match[3] not in BY_NAME else f"{match[1]}pub {match[2]} {match[3]} {{ .. }}"
        block = without_why(source.splitlines(), "//")
        comment = " ".join(line[3:].strip() for line in match[1].splitlines())
        clauses = re.sub(r"//.*", "", match[0]) if match[2] == "trait" else ""
        variants = re.findall(r"^    (\w+),$", match[0], re.M) if match[3] in BY_NAME else ()
        found[match[3]] = Definition(sum(bool(line.strip()) for line in block), comment, clauses, "\n".join(block), tuple(variants))
    return found


@lru_cache(maxsize=None)
def file_of(path: str) -> File:
    text = (TOP / "crates" / path).read_text(encoding="utf-8")
    if path.endswith(".rt"):
        types = rust_types(text)
        names, modules = imported(text)
        return File("", types, {}, {**names, **{name: Name(path, name) for name in types}}, modules)
    lines = text.splitlines()
    head = next((at for at, line in enumerate(lines) if not line.startswith("--")), len(lines))
    said = " ".join(line[2:].strip() for line in lines[:head])
    body = [line for line in lines[head:] if not re.match(r"(?:pub |ghost )?use ", line)]
    definitions = {name: definition(block) for name, block in blocks(body)}
    owners = {made: name for name, it in definitions.items() if re.match(r"\s*(?:pub )?data ", it.text) for made in re.findall(r"^  (\w+) :", it.text, re.M)}
    names, modules = imported(text)
    names.update({name: Name(path, name) for name in [*definitions, *owners]})
    return File(said, definitions, owners, names, modules)


def owner(name: Name) -> Name:
    """The definition itself, the one whose constructor the name is, or the one that its file hands on."""
    file = file_of(name.path)
    if name.name in file.owners:
        return Name(name.path, file.owners[name.name])
    handed_on = file.names.get(name.name, name)
    return name if name.name in file.definitions or handed_on == name else owner(handed_on)


def stands_in(operator: str, text: str) -> bool:
    """Whether a text uses an operator; a `do` block uses the one that chains."""
    if re.search(r"\bdo$", text, re.M) and operator == "◌>>=◌":
        return True
    return all(f" {sign} " in f" {text} " for sign in operator.replace("◌", " ").split())


def in_module(path: str, rest: str) -> Name:
    """What `rest` is of a file that a text calls by another name."""
    inner = rest.partition(".")[0]
    return Name(path, next(iter(file_of(path).definitions), inner) if path.endswith(".rt") else inner)


def mentioned(text: str, names: Dict[str, Name], modules: Dict[str, str]) -> List[Name]:
    """The definitions that a text names, in its order; operators come last."""
    found: Dict[Name, None] = {}
    for word in NAME.findall(text):
        head, _, rest = word.partition(".")
        if head in modules and rest:
            found[owner(in_module(modules[head], rest))] = None
        elif head in names:
            found[owner(names[head])] = None
    found.update({owner(name): None for operator, name in names.items() if "◌" in operator and stands_in(operator, text)})
    return list(found)


def definition_of(name: Name) -> Definition:
    """The definition of a name; `LookupError` where its file has none."""
    found = file_of(name.path).definitions.get(name.name)
    if not found:
        raise LookupError(f"crates/{name.path} has no definition {name.name}")
    return found


def is_made(name: Name) -> bool:
    """Whether a name is a constructor, which patterns use, and no definition, whose name a pattern binds anew."""
    file = file_of(name.path)
    if name.path.endswith(".rt") or name.name in file.owners:
        return True
    handed_on = file.names.get(name.name, name)
    return name.name not in file.definitions and handed_on != name and is_made(handed_on)


def bound_in(equation: str, names: Dict[str, Name]) -> Set[str]:
    """The parameters of an equation that have the name of a definition."""
    left = re.split(r"\s=\s", equation, maxsplit=1)[0]
    return {word for word in NAME.findall(left)[1:] if word in names and not is_made(names[word])}


def named_by(name: Name) -> List[Name]:
    """The definitions that a definition names, in its type and in each of its equations."""
    file = file_of(name.path)
    found: Dict[Name, None] = {}
    for part in re.split(rf"\n(?={re.escape(name.name)}\b)", definition_of(name).text):
        bound = bound_in(part, file.names) if part.startswith(name.name) else set()
        names = {word: other for word, other in file.names.items() if word not in bound}
        found.update(dict.fromkeys(mentioned(part, names, file.modules)))
    return [other for other in found if other != name]


def reached(roots: Iterable[Name], stops: Container[Name]) -> List[Name]:
    """All definitions that the roots lead to without the stops, each in front of those that it names."""
    seen: Set[Name] = set()
    ended: List[Name] = []

    def visit(name: Name) -> None:
        if name in seen or name in stops:
            return
        seen.add(name)
        for other in reversed(named_by(name)):
            visit(other)
        ended.append(name)

    for root in reversed(list(roots)):
        visit(root)
    return ended[::-1]
