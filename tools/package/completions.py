"""Completions of the program, the mount and the page for bash, zsh and fish, from the help that each prints."""

import importlib
import re
import sys
from collections.abc import Iterator
from typing import NamedTuple

from gate.building import ROOT

MANUAL = ROOT / "docs" / "elephant.1"
PACKAGE = ROOT / "clients" / "python" / "src"
# The section of the manual for each word of the program.
SECTIONS = {
    "run": "ELEPHANT RUN", "forecast": "ELEPHANT FORECAST", "evidence": "ELEPHANT EVIDENCE", "verify": "ELEPHANT VERIFY",
    "storm": "ELEPHANT STORM",
}
# What an option may be given; `files` stands for a path.
VALUES = {
    "--policy": ["one", "all", "safe:", "landmarks:", "standard"], "--list": ["due", "kept"], "--journal": ["files"], "--past": ["files"],
}


class Option(NamedTuple):
    """An option: its words, whether it takes a value, and what it does."""

    words: list[str]
    takes_value: bool
    about: str


class Words(NamedTuple):
    """What a command takes: options, words with options of their own, what follows such a word, and whether paths may follow."""

    options: list[Option]
    commands: dict[str, tuple[str, list[Option]]]
    following: dict[str, list[str]]
    takes_paths: bool


def sections_of(page: str) -> dict[str, str]:
    """Returns the texts of a manual page by their headings, as they are read."""
    found = re.findall(r"(?ms)^\.SH ([^\n]*)\n(.*?)(?=^\.SH |\Z)", page)
    return {name: text.replace("\\-", "-").replace("\\&", "").replace("\\e", "\\") for name, text in found}


def options_in(text: str) -> list[Option]:
    """Returns the options that a text of help lists, each with its first sentence."""
    rows = re.findall(r"(?m)^ {2,6}(-\w, )?(--[\w-]+)( <\w+>)? {2,}(.*(?:\n {20,}\S.*)*)", text)
    return [Option([*short.replace(",", "").split(), long], bool(value), first_of(about)) for short, long, value, about in rows]


def first_of(about: str) -> str:
    """Returns the beginning of a description, in one line."""
    return re.split(r"; |\. |\.$| \[default", " ".join(about.split()))[0].replace("`", "")


def of_program() -> Words:
    """Returns the words of the program, from its manual page."""
    sections = sections_of(MANUAL.read_text(encoding="utf-8"))
    usage = sections["USAGE"]
    named = re.findall(r"(?m)^  (\w+) {2,}(.*)$", usage.partition("Commands:")[2].partition("Options:")[0])
    commands = {word: (first_of(about), options_in(sections.get(SECTIONS.get(word, ""), ""))) for word, about in named}
    script = sorted({it for it in re.findall(r"(?m)^    (\w+)", sections["SCRIPTS"].partition("Lines and their answers:")[2])})
    return Words(options_in(usage), commands, {"help": ["script", "policies", "refusals", "limits", *SECTIONS, *script]}, False)


def of_mount() -> Words:
    """Returns the words of `elephant-mount`, from the reader of its arguments."""
    return of_command("elephant.mount.main")


def of_browse() -> Words:
    """Returns the words of `elephant-browse`."""
    return of_command("elephant.browse.main")


def of_command(module: str) -> Words:
    sys.path.insert(0, str(PACKAGE))
    try:
        parser = importlib.import_module(module)._parser()
    finally:
        sys.path.remove(str(PACKAGE))
    actions = [it for it in parser._actions if it.option_strings]
    return Words([Option(list(it.option_strings), it.nargs != 0, first_of(it.help or "")) for it in actions], {}, {}, True)


def all_words(options: list[Option]) -> list[str]:
    return [word for it in options for word in it.words]


# bash.


def bash(name: str, words: Words) -> str:
    """Returns the completions for bash."""
    function = f"_{name.replace('-', '_')}"
    valued = "".join(f"    {word}) {bash_value(VALUES.get(word, []))}; return ;;\n" for word in valued_words(words))
    after = {word: all_words(options) for word, (_, options) in words.commands.items() if options} | words.following
    own = "".join(f"    {word}) words='{' '.join(listed)}' ;;\n" for word, listed in after.items())
    first = f"    [ \"$COMP_CWORD\" = 1 ] && words='{' '.join([*words.commands, *all_words(words.options)])}'\n"
    paths = '    [[ $word == -* ]] || { mapfile -t COMPREPLY < <(compgen -f -- "$word"); return; }\n' if words.takes_paths else ""
    chosen = f'    case ${{COMP_WORDS[1]}} in\n{own}    esac\n{first}' if own else f"    words='{' '.join(all_words(words.options))}'\n"
    return (
        f"# Completions of {name} for bash, from its help.\n{function}() {{\n    local word=${{COMP_WORDS[COMP_CWORD]}} words=\n"
        f'    case ${{COMP_WORDS[COMP_CWORD-1]}} in\n{valued}    esac\n{paths}{chosen}'
        f'    mapfile -t COMPREPLY < <(compgen -W "$words" -- "$word")\n}}\ncomplete -F {function} {name}\n'
    )


def bash_value(values: list[str]) -> str:
    """Returns the command that completes a value."""
    how = "-f" if values == ["files"] else f"-W '{' '.join(values)}'"
    return f'mapfile -t COMPREPLY < <(compgen {how} -- "$word")'


def valued_words(words: Words) -> list[str]:
    """Returns the words of options that take a value."""
    groups = [words.options, *(options for _, options in words.commands.values())]
    return sorted({word for options in groups for it in options if it.takes_value for word in it.words})


# zsh.


def in_zsh(text: str, special: str) -> str:
    """Returns a text as it stands between single quotes, where zsh's functions take some characters for their own."""
    return re.sub(f"([{special}])", r"\\\1", text).replace("'", "'\\''")


def zsh_value(values: list[str]) -> str:
    """Returns what `_arguments` takes for a value."""
    if values == ["files"]:
        return ":value:_files"
    return f":value:({in_zsh(' '.join(values), ':')})" if values else ":value: "


def zsh_options(options: list[Option]) -> Iterator[str]:
    """Yields what `_arguments` takes for each option."""
    for it in options:
        value = zsh_value(VALUES.get(it.words[-1], [])) if it.takes_value else ""
        for word in it.words:
            yield f"'*{word}[{in_zsh(it.about, '][')}]{value}'"


def zsh(name: str, words: Words) -> str:
    """Returns the completions for zsh."""
    head = f"#compdef {name}\n# Completions of {name} for zsh, from its help.\n"
    if not words.commands:
        arguments = [*zsh_options(words.options), *["'*:file:_files'"] * words.takes_paths]
        return f"{head}_arguments {' '.join(arguments)}\n"
    listed = " ".join(f"'{word}:{in_zsh(about, ':')}'" for word, (about, _) in words.commands.items())
    rows = [(word, zsh_options(options)) for word, (_, options) in words.commands.items() if options]
    own = "".join(f"    {word}) _arguments {' '.join(options)} ;;\n" for word, options in rows)
    own += "".join(f"    {word}) compadd -- {' '.join(following)} ;;\n" for word, following in words.following.items())
    return (
        f"{head}if (( CURRENT == 2 )); then\n    local -a commands=({listed})\n    _describe command commands\n"
        f"    compadd -- {' '.join(all_words(words.options))}\nelse\n    local word=$words[2]\n    shift words\n    (( CURRENT-- ))\n"
        f"    case $word in\n{own}    esac\nfi\n"
    )


# fish.


def in_fish(text: str) -> str:
    """Returns a text as fish takes it between single quotes."""
    return text.replace("\\", "\\\\").replace("'", "\\'")


def fish_options(name: str, condition: str, options: list[Option]) -> Iterator[str]:
    """Yields a line for each option."""
    for it in options:
        values = VALUES.get(it.words[-1], [])
        told = " ".join(f"-l {word[2:]}" if word.startswith("--") else f"-s {word[1:]}" for word in it.words)
        value = "" if not it.takes_value else " -r" if values == ["files"] else f" -x -a '{' '.join(values)}'"
        yield f"complete -c {name}{condition} {told}{value} -d '{in_fish(it.about)}'\n"


def fish(name: str, words: Words) -> str:
    """Returns the completions for fish."""
    lines = [f"# Completions of {name} for fish, from its help.\n"]
    lines += [] if words.takes_paths else [f"complete -c {name} -f\n"]
    lines += fish_options(name, " -n __fish_use_subcommand" if words.commands else "", words.options)
    for word, (about, options) in words.commands.items():
        lines.append(f"complete -c {name} -n __fish_use_subcommand -a {word} -d '{in_fish(about)}'\n")
        lines += fish_options(name, f" -n '__fish_seen_subcommand_from {word}'", options)
    for word, following in words.following.items():
        lines.append(f"complete -c {name} -n '__fish_seen_subcommand_from {word}' -a '{' '.join(following)}'\n")
    return "".join(lines)
