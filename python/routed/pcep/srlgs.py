"""The shared risk link groups of links, as the feed or a planner writes them."""
from __future__ import annotations

import os
import re
from bisect import bisect_left
from collections.abc import Iterable, Iterator

from ..model.rows import ADDRESS, Key, Link, Part, value
from .link_file import LinkFile
from .network import Network

NUMBER = "(?:0|[1-9][0-9]{0,9})"
SRLG = re.compile(rf"srlg,([0-9]{{1,7}}),({ADDRESS.pattern}),({ADDRESS.pattern}),((?:{NUMBER}(?: {NUMBER})*)?)")


def groups_of(text: str) -> frozenset[int]:
    return frozenset(map(int, text.split()))


class Srlgs(LinkFile[frozenset[int]]):
    """Lines `srlg,VERSION,ROUTER,LOCAL,GROUP GROUP ..`, without groups where a link has none any more.

    A file that names no run, as a planner writes it, is of every run if all its lines are of version 0. It is read again whenever it
    has changed. A file with a line that can't be read is of no use: a group that it lacks would be missed without a word."""

    def __init__(self, path: str) -> None:
        self.stamp: tuple[int, int] | None = None  # of a file without a run, as it was read
        self.by_end: dict[str, list[Key]] = {}  # the links that have groups, by the addresses of their ends
        self.ends: list[tuple[int, str]] = []  # these addresses in their order
        self.made_of: tuple[object, object] | None = None  # the file and the network that these two were made of
        super().__init__(path, SRLG, groups_of)

    def begin(self, run: str | None) -> None:
        super().begin(run)
        self.members: dict[int, dict[Key, None]] = {}  # of each group the links that have it by a line that is kept
        self.count, self.bad, self.is_versioned = 0, 0, False  # lines, the first of them that can't be read, and any above version 0

    def look(self) -> None:
        if self.run is None and self.stamp != self.now():
            self.tail.close()
        self.stamp = self.now()
        super().look()

    def now(self) -> tuple[int, int] | None:
        """When the file was written last, and its length. None where there is no file."""
        try:
            found = os.stat(self.tail.path)
        except OSError:
            return None
        return found.st_mtime_ns, found.st_size

    def take(self, version: int, key: Key, value: frozenset[int]) -> None:
        super().take(version, key, value)
        self.count += 1
        self.is_versioned |= version > 0
        if any(group >> 32 for group in value):
            self.bad = self.bad or self.count
        for group in value:
            self.members.setdefault(group, {})[key] = None

    def drop(self, key: Key, value: frozenset[int]) -> None:
        for group in value.difference(*(kept for _, kept in self.links[key])):
            del self.members[group][key]
            if not self.members[group]:
                del self.members[group]

    def strange(self, line: str) -> None:
        self.count += 1
        if line.strip() and not line.startswith("#"):
            self.bad = self.bad or self.count

    @property
    def is_current(self) -> bool:
        return self.run == self.wanted if self.run is not None or self.is_versioned else True

    def fault(self) -> str:
        """Why the file is of no use, in words; empty where it isn't so."""
        if self.tail.file is None or self.now() is None:
            why = "it isn't there"
        elif self.tail.unread:
            why = "its last line has no end"
        elif self.bad:
            why = f"line {self.bad + (self.run is not None)} can't be read"
        elif not self.is_current:
            why = "its SRLGs aren't of this run of the server"
        else:
            return ""
        return f"{self.tail.path}: {why}"

    def fault_at(self, version: int) -> str:
        """The same for a version: it may be too old for the lines that are kept."""
        if version < self.known_from and not self.fault():
            return f"{self.tail.path}: its SRLGs of version {version} aren't known any more"
        return self.fault()

    def groups(self, key: Key, version: int) -> frozenset[int]:
        """The groups of a link at a version."""
        return self.at(key, version) or frozenset()

    def links_in(self, groups: Iterable[int], version: int) -> Iterator[Key]:
        """The links that have one of these groups at a version."""
        return (key for group in groups for key in self.members.get(group, ()) if group in self.groups(key, version))

    def links_at(self, part: Part, network: Network) -> Iterator[Key]:
        """The links of a network that have groups, and an end in a prefix: an interface or a Router ID."""
        if self.made_of != (self.state, network.shape):
            self.made_of, self.by_end = (self.state, network.shape), {}
            for key in {key for keys in self.members.values() for key in keys}:
                if isinstance(link := network.rows.get(key), Link):
                    for end in (*link.key, *link.back):
                        self.by_end.setdefault(end, []).append(key)
            self.ends = sorted((value(end), end) for end in self.by_end)
        first, last = (bisect_left(self.ends, (number << part.shift,)) for number in (part.prefix, part.prefix + 1))
        return (key for _, end in self.ends[first:last] for key in self.by_end[end])
