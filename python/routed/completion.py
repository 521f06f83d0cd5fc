"""Prints what a shell needs to complete the words of `routed-tools`: its tools, their options and the values of these.

    routed-tools completion bash > /etc/bash_completion.d/routed-tools

The package installs what it prints for each of the three shells. It follows from the parsers of the tools' command lines.
"""
from __future__ import annotations

import argparse
import importlib
import re
from collections.abc import Iterator
from unittest import mock

from .tools import TOOLS

SHELLS = "bash", "zsh", "fish"
MOST_VALUES = 16  # that are told of an option
SECOND = {"feed": ["bgpls"]}  # words of a tool with a command line of their own


class Found(Exception):
    """The parser of a tool, which was to read a command line."""


def parser_of(tool: str, *words: str) -> argparse.ArgumentParser:
    def found(parser: argparse.ArgumentParser, *_: object) -> None:
        raise Found(parser)

    with mock.patch.object(argparse.ArgumentParser, "parse_args", found):
        try:
            importlib.import_module(TOOLS[tool][0], __package__).main([*words])
        except Found as it:
            return it.args[0]
    raise AssertionError(f"{tool} reads no command line")


class Option:
    """An option: its spellings, what is said of it, whether a value follows, and which values there are; those of a file have none."""

    def __init__(self, action: argparse.Action) -> None:
        self.names = action.option_strings
        self.text = re.split(r"; |: | \(|\. ", action.help or "")[0].strip(" .")
        self.has_value = action.nargs != 0
        values = [str(value) for value in action.choices or ()]
        self.values = values if len(values) <= MOST_VALUES else []


class Tool:
    """A tool with its options and the words that may come in place of files."""

    def __init__(self, name: str) -> None:
        self.name, self.text = name, TOOLS[name][1].replace("`", "")
        parsers = [parser_of(name), *(parser_of(name, word) for word in SECOND.get(name, ()))]
        actions = [action for parser in parsers for action in parser._actions]
        self.options = [Option(action) for action in {it.option_strings[-1]: it for it in actions if it.option_strings}.values()]
        self.words = [*SECOND.get(name, ()), *(str(it) for action in actions if not action.option_strings for it in action.choices or ())]
        self.options.append(Option(argparse.Action(["--version"], "version", nargs=0, help="print the version")))


def bash(tools: list[Tool]) -> Iterator[str]:
    """Where no word is known, bash completes the names of files."""
    yield from ("_routed_tools()", "{", "    local tool=${COMP_WORDS[1]} words=",
                "    local before=${COMP_WORDS[COMP_CWORD-1]} now=${COMP_WORDS[COMP_CWORD]}",
                '    case "$COMP_CWORD:$tool $before:$now" in',
                f"        1:*) words='{' '.join(tool.name for tool in tools)} --help --version' ;;")
    for tool in tools:
        for values in sorted({tuple(option.values) for option in tool.options if option.has_value}, reverse=True):
            names = [name for option in tool.options if option.has_value and tuple(option.values) == values for name in option.names]
            yield f"        {'|'.join(f'*:{tool.name}' + chr(92) + f' {name}:*' for name in names)}) words='{' '.join(values)}' ;;"
        yield f"        *:{tool.name}\\ *:-*) words='{' '.join(name for option in tool.options for name in option.names)}' ;;"
        if tool.words:
            yield f"        *:{tool.name}\\ *) words='{' '.join(tool.words)}' ;;"
    yield from ("    esac", "    COMPREPLY=()",
                '    while read -r word; do COMPREPLY+=("$word"); done < <(compgen -W "$words" -- "$now")', "}",
                "complete -o default -F _routed_tools routed-tools")


def quoted(text: str) -> str:
    """A text between single quotes, for zsh and fish alike."""
    return text.replace("\\", "").replace("'", "’")


def zsh(tools: list[Tool]) -> Iterator[str]:
    yield from ("#compdef routed-tools", "", "local -a tools", "if (( CURRENT == 2 )); then", "    tools=(")
    yield from (f"        '{tool.name}:{quoted(tool.text)}'" for tool in tools)
    yield from ("    )", "    _describe tool tools", "    return", "fi", "shift words", "(( CURRENT-- ))", "case $words[1] in")
    for tool in tools:
        yield f"    {tool.name})"
        yield "        _arguments \\"
        for option in tool.options:
            text = re.sub(r"[\[\]]", "", quoted(option.text)).replace(":", "")
            value = f":value:({' '.join(option.values)})" if option.values else ":value:_files" if option.has_value else ""
            yield from (f"            '{name}[{text}]{value}' \\" for name in option.names)
        if tool.words:
            yield f"            '1:word:({' '.join(tool.words)})' \\"
        yield "            '*:file:_files'"
        yield "        ;;"
    yield "esac"


def fish(tools: list[Tool]) -> Iterator[str]:
    for tool in tools:
        yield f"complete -c routed-tools -n __fish_use_subcommand -f -a {tool.name} -d '{quoted(tool.text)}'"
    for tool in tools:
        here = f"complete -c routed-tools -n '__fish_seen_subcommand_from {tool.name}'"
        if tool.words:
            yield f"{here} -a '{' '.join(tool.words)}'"
        for option in tool.options:
            names = " ".join(f"-l {name[2:]}" if name.startswith("--") else f"-s {name[1:]}" for name in option.names)
            value = f" -x -a '{' '.join(option.values)}'" if option.values else " -r -F" if option.has_value else ""
            yield f"{here} {names}{value} -d '{quoted(option.text)}'"


def main(words: list[str] | None = None) -> int:
    """Takes the words of a command line, and answers the status."""
    asked = argparse.ArgumentParser(prog="routed-tools completion", description=__doc__,
                                    formatter_class=argparse.RawDescriptionHelpFormatter)
    asked.add_argument("shell", choices=SHELLS, help="the shell")
    shell = asked.parse_args(words).shell
    tools = [Tool(name) for name in TOOLS]
    print(*{"bash": bash, "zsh": zsh, "fish": fish}[shell](tools), sep="\n")
    return 0
