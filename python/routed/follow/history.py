"""The last versions of a network that is followed: what they changed, in rows and in words."""
from __future__ import annotations

import collections
import time
from collections.abc import Callable, Iterable
from typing import Any, NamedTuple

from ..model.database import Database
from ..model.rows import Batch, Drop, Key, Link, Mark, rank
from .network import Followed

MOST = 50  # versions
Words = Callable[[Batch, "list[Link]", Database], "list[str]"]


class Version(NamedTuple):
    """A version, what has led to it, and when it was read, in seconds since 1970."""

    number: int
    at: float
    rows: list[str]
    words: list[str]

    def value(self) -> dict[str, Any]:
        return {"version": self.number, "at": self.at, "rows": self.rows, "words": self.words}


class History(Followed):
    """A network, and its last versions. It is begun again where a run begins, or its journal is another file."""

    def __init__(self, path: str, words: Words, say: Callable[[str, str], object]) -> None:
        self.words, self.times_begun = words, 0
        super().__init__(path, say)

    def forget(self) -> None:
        super().forget()
        self.times_begun += 1
        self.kept: collections.deque[Version] = collections.deque()
        self.base: dict[Key, str] = {}  # the rows of the network before them
        self.is_moved = True  # a link came, went, or leads to somewhere else, since this was set to False

    def applied(self, batch: Batch, gone: list[Link]) -> None:
        if len(self.kept) == MOST:
            put_in(self.base, self.kept.popleft().rows)
        words = self.words(batch, gone, self)
        self.kept.append(Version(batch.number, time.time(), batch.text().splitlines()[:-1], words))
        had = {link.key: link.back for link in gone}
        self.is_moved = self.is_moved or any(isinstance(change, Drop) or isinstance(change, Link) and had.get(change.key) != change.back
                                             for change in batch.changes)

    def of(self, number: int) -> Version | None:
        """A version, where it is kept."""
        at = number - self.kept[0].number if self.kept else -1
        return self.kept[at] if 0 <= at < len(self.kept) else None

    def now(self) -> list[str]:
        """The rows of the network: links in the order of their keys, then marks."""
        return [*(link.text() for link in self.links()), *sorted(row.text() for row in self.rows.values() if isinstance(row, Mark))]

    def at(self, number: int) -> list[str]:
        """The same at a version that is kept."""
        found = dict(self.base)
        for version in self.kept:
            if version.number <= number:
                put_in(found, version.rows)
        return [found[key] for key in sorted(found, key=lambda key: (-len(key), rank(key)))]


def put_in(found: dict[Key, str], rows: Iterable[str]) -> None:
    """Makes the changes of rows."""
    for row in rows:
        kind, *fields = row.split(",", 3)
        key = tuple(fields[:1] if kind == "node" else fields[:2])
        if kind == "drop" or kind == "node" and fields[1] == "1":
            found.pop(key, None)
        else:
            found[key] = row
