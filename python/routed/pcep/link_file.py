"""The files that the feed writes of links: lines `WORD,VERSION,ROUTER,LOCAL,VALUE`, behind a line `run,NAME` of the server's run."""
from __future__ import annotations

import re
from collections.abc import Callable
from typing import Generic, TypeVar

from ..follow.tail import Tail
from ..model.rows import Key

RUN = re.compile(r"run,([0-9a-f]{1,64})")

Value = TypeVar("Value")


class LinkFile(Generic[Value]):
    """A line is used from its version on. The last few of each link stay, for answers at older versions.

    `form` has groups for the version, the router, the local address and the value, which `read` makes of its text."""

    KEPT = 8

    def __init__(self, path: str, form: re.Pattern[str], read: Callable[[str], Value]) -> None:
        self.tail, self.form, self.read = Tail(path), form, read
        self.wanted: str | None = None  # the run of the server that is asked
        self.is_new, self.state = False, object()  # whether something was read that `has_news` hasn't told; another one once it is read
        self.begin(None)

    def begin(self, run: str | None) -> None:
        """Lines of a run follow; None if the file doesn't name one."""
        self.links: dict[Key, list[tuple[int, Value]]] = {}  # versions and values
        self.run = run  # of which the lines are
        self.known_from = 0  # the first version at which no line is missed that isn't kept

    def look(self) -> None:
        """Reads what is new."""
        is_new, lines = self.tail.lines()
        if is_new:
            self.begin(None)
        for line in lines:
            if found := self.form.fullmatch(line):
                self.take(int(found[1]), (found[2], found[3]), self.read(found[4]))
            elif found := RUN.fullmatch(line):
                self.begin(found[1])
            else:
                self.strange(line)
        if is_new or lines:
            self.is_new, self.state = True, object()

    def has_news(self) -> bool:
        """Whether anything was new since this was asked last."""
        self.look()
        is_new, self.is_new = self.is_new, False
        return is_new

    def take(self, version: int, key: Key, value: Value) -> None:
        values = self.links.setdefault(key, [])
        values.append((version, value))
        if len(values) > self.KEPT:
            self.drop(key, values.pop(0)[1])
            self.known_from = max(self.known_from, values[0][0])

    def drop(self, key: Key, value: Value) -> None:
        """A value of a link isn't kept any more."""

    def strange(self, line: str) -> None:
        """A line that is no line of a link and names no run."""

    @property
    def is_current(self) -> bool:
        """Whether the lines are of the run of the server that is asked."""
        return self.run == self.wanted

    def at(self, key: Key, version: int) -> Value | None:
        """The value of a link at a version: that of the last line of that version or an earlier one. None where there is none."""
        found = None
        for since, value in self.links.get(key, ()):
            if since <= version:
                found = value
        return found
