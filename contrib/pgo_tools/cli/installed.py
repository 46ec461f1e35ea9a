"""Man pages and completions for shells, made as pgo is installed, of the tables that `--help` prints.

`python3 -m pgo_tools.cli.installed FOLDER PGO COLD` fills a folder: `man`, `bash`, `zsh` and `fish`, with a file for
each command. PGO and COLD are the two programs, which are asked for their help.
"""
import argparse
import importlib
import os
import re
import subprocess
import sys
from typing import Dict, Iterator, List, NamedTuple, NoReturn, Optional, Tuple

# The commands, each with its module.
SCRIPTS = {f"pgo-{name.replace('_', '-').replace('pgo-', '')}": name for name in (
    "blocks", "compare", "draw", "hot", "layout", "lined", "merge_tree", "pgo_profile", "record")}


class Option(NamedTuple):
    """An option: its spellings, the name of its value or "", its values if there are only these, and its help."""

    names: Tuple[str, ...]
    value: str
    choices: Tuple[str, ...]
    about: str
    joined: bool

    def long(self) -> List[str]:
        """The spellings as a completion offers them: a value that is joined comes after a `=`."""
        return [f"{name}=" if self.value and self.joined and name.startswith("--") else name for name in self.names]


class Command(NamedTuple):
    """A command: its calls, its purpose, its operands and options, the rest of its help, and its own commands."""

    name: str
    usage: List[str]
    about: str
    operands: List[Tuple[str, str]]
    options: List[Option]
    more: str
    words: List[Tuple[str, str]]


# What is told of a command.

class Shown(Exception):
    """The parser whose help was to be printed."""

    def __init__(self, parser: argparse.ArgumentParser) -> None:
        super().__init__()
        self.parser = parser


def show(parser: argparse.ArgumentParser, _file: object = None) -> NoReturn:
    raise Shown(parser)


def parser_of(name: str) -> argparse.ArgumentParser:
    """The parser of a script, as it is when it prints its help."""
    sys.argv[0] = name
    shown = argparse.ArgumentParser.print_help
    setattr(argparse.ArgumentParser, "print_help", show)
    try:
        importlib.import_module(f"pgo_tools.commands.{SCRIPTS[name]}").work(["--help"])
    except Shown as found:
        return found.parser
    finally:
        setattr(argparse.ArgumentParser, "print_help", shown)
    raise SystemExit(f"{name} --help prints no help")


def here(text: Optional[str]) -> str:
    """A text of a parser, with the names that commands have in an installation."""
    text = re.sub(r"contrib/(?:pgo-)?([a-z]+(?:-[a-z]+)?)", r"pgo-\1", text or "")
    return re.sub(r"[ \n]*\n[ \n]*(?=\n)", "\n", re.sub(r"(?m)^ +", "", text)).strip()


def option_of(parser: argparse.ArgumentParser, action: argparse.Action) -> Option:
    about = here((action.help or "") % {**vars(action), "prog": parser.prog})
    value = "" if action.nargs == 0 else str(action.metavar or action.dest.upper() if not action.choices else "WORD")
    joined = parser.usage is not None and any(f"{name}=" in parser.usage for name in action.option_strings)
    return Option(tuple(action.option_strings), value, tuple(map(str, action.choices or ())), about, joined)


def script(name: str) -> Command:
    parser = parser_of(name)
    actions = [action for action in parser._actions if action.help != argparse.SUPPRESS]
    operands = [(str(it.metavar or it.dest), here(it.help)) for it in actions if not it.option_strings]
    options = [option_of(parser, action) for action in actions if action.option_strings]
    usage = " ".join(parser.format_usage().partition(": ")[2].split())
    return Command(name, [usage], here(parser.description), operands, options, here(parser.epilog), [])


def program(name: str, path: str) -> Command:
    """One of the two programs, by the help that it prints."""
    told = subprocess.run([path, "--help"], check=True, capture_output=True, text=True).stdout
    calls = [re.split(r"\s{2,}", call) for call in re.findall(rf"(?m)^  {name} (.*(?:\n {{10,}}.*)*)", told)]
    words = [(call.split()[0], " ".join(about)) for call, *about in calls if re.match("[a-z]", call)]
    about = dict(re.findall(r"(?m)^(--[a-z]+)(?:=[A-Z]+)?  +(.*)", told))
    values = dict(re.findall(r"\[(--[a-z]+)=?([A-Z]*)\]", told))
    options = [Option((each,), values[each], (), about.get(each, "as of pgo profile"), True) for each in sorted(values)]
    for word, said in (("--help", "print help"), ("--version", "print the version")):
        options.append(Option((word,), "", (), said, True))
    return Command(name, [], told.partition("\n")[0], [], options, "", words)


# Man pages.

def roff(text: str) -> str:
    """Paragraphs as roff takes them."""
    lines = text.replace("\\", "\\e").replace("-", "\\-").splitlines()
    lines = [re.sub(r"^([.'])", r"\\&\1", re.sub(r"`([^`]*)`", r"\\fB\1\\fR", line)) for line in lines]
    return "\n".join(line or ".PP" for line in lines)


def page(command: Command, version: str) -> str:
    """The man page of a script."""
    first = re.split(r"[.:;,]\s|[.]$", " ".join(command.about.split()))[0]
    made = [f'.TH {roff(command.name.upper())} 1 "" "pgo {version}"', ".SH NAME",
            f"{roff(command.name)} \\- {roff(first[0].lower() + first[1:])}", ".SH SYNOPSIS"]
    made += [f".B {roff(usage)}" for usage in command.usage]
    made += [".SH DESCRIPTION", roff(command.about)]
    made += [".PP", roff(command.more)] if command.more else []
    for name, about in command.operands:
        made += [".TP", f".I {roff(name)}", roff(about)]
    made += [".SH OPTIONS"]
    for option in command.options:
        end = f"\\fI={roff(option.value)}\\fR" if option.joined else f" \\fI{roff(option.value)}\\fR"
        names = ", ".join(f"\\fB{roff(name)}\\fR" for name in option.names)
        made += [".TP", names + (end if option.value else ""), roff(option.about)]
        made += [roff(f"One of {', '.join(option.choices)}.")] if option.choices else []
    made += [".SH EXIT STATUS", "As of", ".BR pgo (1).", ".SH SEE ALSO", ".BR pgo (1)", ""]
    return "\n".join(made)


# Completions.

def quoted(text: str) -> str:
    """A text in single quotes, as each of the three shells takes it once its backslashes are dealt with."""
    return "'" + text.replace("'", "’") + "'"


def short(text: str) -> str:
    """The first part of a help, in one line."""
    return re.split(r"[;:(]|, ", " ".join(text.split()))[0].strip()


def function(name: str) -> str:
    return "_" + name.replace("-", "_")


def bash(command: Command) -> str:
    chosen = [(option, name) for option in command.options if option.choices for name in option.names]
    words = " ".join(each for option in command.options for each in option.long())
    made = [f"{function(command.name)}() {{", "    local word=$2 before=$3", "    COMPREPLY=()", "    case $before in"]
    for option, name in chosen:
        values = quoted(" ".join(option.choices))
        made.append(f"    {name}) COMPREPLY=($(compgen -W {values} -- \"$word\")); return ;;")
    made += ["    esac", "    if [[ $word == -* ]]; then",
             f"        COMPREPLY=($(compgen -W {quoted(words)} -- \"$word\"))",
             "        [[ ${COMPREPLY[0]} != *= ]] || compopt -o nospace"]
    if command.words:
        own = quoted(" ".join(word for word, _ in command.words))
        made += ["    elif ((COMP_CWORD == 1)); then", f"        COMPREPLY=($(compgen -W {own} -- \"$word\"))"]
    return "\n".join([*made, "    fi", "}", f"complete -o default -F {function(command.name)} {command.name}", ""])


def zsh(command: Command) -> str:
    made = []
    for option in command.options:
        about = re.sub(r"([\[\]\\:])", r"\\\1", short(option.about)).replace("'", "’")
        takes = ""
        if option.value:
            takes = f":{option.value}:({' '.join(option.choices)})" if option.choices else f":{option.value}:_files"
        made += [quoted(f"{name}{'-' if name.endswith('=') else ''}[{about}]{takes}") for name in option.long()]
    if command.words:
        made.append(quoted(f"1:command:({' '.join(word for word, _ in command.words)})"))
    made.append("'*:file:_files'")
    return f"#compdef {command.name}\n_arguments \\\n    " + " \\\n    ".join(made) + "\n"


def fish(command: Command) -> str:
    made = []
    for option in command.options:
        words = [f"-l {name[2:]}" if name.startswith("--") else f"-s {name[1:]}" for name in option.names]
        if option.choices:
            words += ["-x", "-a", quoted(" ".join(option.choices))]
        elif option.value:
            words += ["-r", "-F"]
        made.append(f"complete -c {command.name} {' '.join(words)} -d {quoted(short(option.about))}")
    for word, about in command.words:
        made.append(f"complete -c {command.name} -n __fish_use_subcommand -a {word} -d {quoted(short(about))}")
    return "\n".join(made) + "\n"


def files(commands: List[Command], version: str) -> Iterator[Tuple[str, str]]:
    """Each file to make, with its text."""
    for command in commands:
        if command.usage:
            yield f"man/{command.name}.1", page(command, version)
        yield f"bash/{command.name}", bash(command)
        yield f"zsh/_{command.name}", zsh(command)
        yield f"fish/{command.name}.fish", fish(command)


def main(argv: List[str]) -> None:
    folder, pgo, cold = argv
    version = subprocess.run([pgo, "--version"], check=True, capture_output=True, text=True).stdout.split()[1]
    commands = [program("pgo", pgo), program("pgo-cold", cold), *map(script, SCRIPTS)]
    made: Dict[str, str] = dict(files(commands, version))
    for name, text in made.items():
        path = os.path.join(folder, name)
        os.makedirs(os.path.dirname(path), exist_ok=True)
        with open(path, "w", encoding="utf-8") as file:
            file.write(text)


if __name__ == "__main__":
    main(sys.argv[1:])
