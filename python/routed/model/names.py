"""Names of routers and other addresses, from one file for all tools: a line is an address and its name."""
from __future__ import annotations

import argparse
import os
import re
from collections.abc import Iterator

from .rows import ADDRESS, Refused, is_address

VARIABLE = "ROUTED_NAMES"  # of the environment: the path of the file, where no option names one
ADDRESSES = re.compile(rf"(?<![\w.]){ADDRESS.pattern}(?!\w|\.\d)")  # in a text
LIKE_ADDRESS = re.compile(r"[0-9./]*[./][0-9./]*")  # addresses, prefixes, and parts of them
HELP = ("lines of an address and its name; files of positions (an address, x, y and a name) are read, too. Without this option the file "
        f"that the variable {VARIABLE} names is read")


class NamesRefused(Refused):
    """A file of names can't be used; the text names the file, the line and the cause."""


class Names:
    """The names of addresses. An address without a name, or without a file of names, is its own name."""

    def __init__(self) -> None:
        self.names: dict[str, str] = {}
        self.addresses: dict[str, str] = {}

    @classmethod
    def read(cls, path: str | None) -> Names:
        """The names of a file; none without a file. NamesRefused is raised for the first line that can't be used."""
        names = cls()
        if path:
            lines: dict[str, str] = {}  # of addresses and names, by which two lines of one are found
            for where, address, name in read_lines(path):
                for word in filter(None, (address, name)):
                    if word in lines:
                        raise NamesRefused(f"{where}: {word} is on {lines[word]}, too")
                    lines[word] = where.removeprefix(f"{path}: ")
                if name:
                    names.names[address], names.addresses[name] = name, address
        return names

    def name_of(self, address: str) -> str:
        """The name of an address, or the address itself where no line names it."""
        return self.names.get(address, address)

    def address_of(self, text: str) -> str | None:
        """The address that a name or an address means, None for any other text."""
        return text if is_address(text) else self.addresses.get(" ".join(text.split()))

    def behind(self, text: str) -> str:
        """A line for people, and behind it the names of its addresses."""
        named = [self.names[address] for address in dict.fromkeys(ADDRESSES.findall(text)) if address in self.names]
        return f"{text}  # {', '.join(named)}" if named else text

    def __bool__(self) -> bool:
        return bool(self.names)


def lines_of(path: str) -> Iterator[tuple[str, list[str]]]:
    """Each line's place for messages, and its words. Lines that begin with # and empty lines are passed over."""
    try:
        with open(path, "rb") as file:
            lines = file.read().removeprefix(b"\xef\xbb\xbf").splitlines()
    except OSError as fault:
        raise NamesRefused(f"{path}: {fault.strerror}") from None
    for number, line in enumerate(lines, 1):
        where = f"{path}: line {number}"
        try:
            text = line.decode()
        except UnicodeError:
            raise NamesRefused(f"{where}: the bytes are no UTF-8") from None
        if not text.isprintable() and not text.replace("\t", " ").isprintable():
            raise NamesRefused(f"{where}: the line has a character that can't be printed")
        if (words := text.split()) and not words[0].startswith("#"):
            yield where, words


def read_lines(path: str) -> Iterator[tuple[str, str, str]]:
    """Each line's place for messages, its address and its name. A line of a file of positions may have no name: then this is empty."""
    for where, (address, *words) in lines_of(path):
        if not is_address(address):
            raise NamesRefused(f"{where}: {address!r} is no address; a line is an address and its name")
        has_position = len(words) > 1 and is_axis(words[0]) and is_axis(words[1])
        name = " ".join(words[2:] if has_position else words)
        if not name and not has_position:
            raise NamesRefused(f"{where}: {address} has no name behind it")
        if "," in name:
            raise NamesRefused(f"{where}: a name has no comma")
        if LIKE_ADDRESS.fullmatch(name):
            raise NamesRefused(f"{where}: the name {name} looks like an address")
        yield where, address, name


def is_axis(word: str) -> bool:
    """Whether a word is x or y of a position."""
    return re.fullmatch(r"[+-]?(?:[0-9]+\.?[0-9]*|\.[0-9]+)(?:[eE][+-]?[0-9]+)?", word) is not None


def add_names(parser: argparse.ArgumentParser) -> None:
    """Gives a tool the option --names, whose default is the variable's file."""
    parser.add_argument("--names", metavar="FILE", default=os.environ.get(VARIABLE), help=HELP)
