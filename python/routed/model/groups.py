"""Names of administrative groups: a line is the number of a bit, 0 to 31, and its name."""
from __future__ import annotations

import argparse
import re
from collections.abc import Iterator

from .names import NamesRefused, lines_of
from .rows import Refused

MOST = 32  # groups


class Groups:
    """The names of groups. A group without a name is called by its number."""

    def __init__(self) -> None:
        self.names: dict[int, str] = {}
        self.bits: dict[str, int] = {str(bit): bit for bit in range(MOST)}

    @classmethod
    def read(cls, path: str | None) -> Groups:
        """The groups of a file; none have names without a file. NamesRefused is raised for the first line that can't be used."""
        groups = cls()
        for where, (number, *words) in lines_of(path) if path else ():
            name = " ".join(words)
            if not re.fullmatch("[0-9]|[12][0-9]|3[01]", number):
                raise NamesRefused(f"{where}: {number!r} is no bit from 0 to 31; a line is a bit and its name")
            if not name or "," in name or name.isdecimal():
                raise NamesRefused(f"{where}: a name is wanted behind {number}, which has no comma and isn't a number")
            if int(number) in groups.names or name in groups.bits:
                raise NamesRefused(f"{where}: {number} or {name} is on an earlier line, too")
            groups.names[int(number)], groups.bits[name] = name, int(number)
        return groups

    def name_of(self, bit: int) -> str:
        return self.names.get(bit, str(bit))

    def names_of(self, mask: int) -> list[str]:
        """The names of a mask's groups, from the least significant bit on."""
        return [self.name_of(bit) for bit in bits_of(mask)]

    def bit_of(self, text: str) -> int:
        """The bit of a group that is named or numbered."""
        if text.strip() not in self.bits:
            raise Refused(f"there is no group {text.strip()!r}: a group is a name of --groups, or a number from 0 to 31")
        return self.bits[text.strip()]

    def mask_of(self, text: str | None) -> int:
        """The mask of groups that commas separate."""
        mask = 0
        for word in text.split(",") if text else ():
            mask |= 1 << self.bit_of(word)
        return mask


def bits_of(mask: int) -> Iterator[int]:
    return (bit for bit in range(MOST) if mask >> bit & 1)


def add_groups(parser: argparse.ArgumentParser) -> None:
    """Gives a tool the option --groups."""
    parser.add_argument("--groups", metavar="FILE", help="lines of a group's bit, 0 to 31, and its name")
