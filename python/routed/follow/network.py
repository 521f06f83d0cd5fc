"""The network as the server has it at a version: the links of its journal."""
from __future__ import annotations

import time
from collections.abc import Callable, Iterable

from ..model.database import Database
from ..model.rows import Batch, Link, Refused, Reply, Request, refusal
from .tail import Tail

LOOK_AGAIN = 1  # seconds from one journal that isn't the server's to the next that is tried


class Followed(Database):
    """The database of the server at a version that only grows until the run ends.

    The journal is the server's as long as it yields the cost of each reply's route at the reply's version."""

    unfollowed = ""  # what a line says behind the words that the journal isn't the server's

    def __init__(self, path: str | None, say: Callable[[str, str], object] = lambda level, text: None) -> None:
        self.tail, self.say = Tail(path) if path else None, say
        self.begin()

    def begin(self) -> None:
        """A new run has begun: its journal is looked for, and read from the beginning."""
        self.forget()
        self.is_proved, self.is_doubted, self.look_at = False, False, 0.0
        if self.tail:
            self.tail.close()
            self.tail.rejected.clear()

    def forget(self) -> None:
        super().__init__()
        self.waiting: list[str] = []  # rows that aren't of this version yet
        self.is_bad = False  # the file has a batch that no journal has

    def reach(self, version: int) -> bool:
        """Applies batches up to a version; whether it is at that version then."""
        if self.tail and version > self.version:
            is_new, lines = self.tail.lines()
            if is_new:
                self.forget()
            self.waiting += [] if self.is_bad else lines
            at = 0
            for number, line in enumerate(self.waiting, 1):
                if line.startswith("end,"):
                    if not self.take([row.split(",") for row in self.waiting[at:number]]):
                        self.is_bad, at = True, len(self.waiting)
                        break
                    at = number
                    if self.version == version:
                        break
            del self.waiting[:at]
        return self.tail is not None and version == self.version

    def take(self, rows: list[list[str]]) -> bool:
        """Applies a batch. Whether it is one: else this is no journal."""
        try:
            if any(map(refusal, rows)):
                return False
            batch = Batch.parse(rows)
            if batch.refusal(self.version + 1, int(rows[-1][2])):
                return False
            self.applied(batch, self.apply(batch))
        except (Refused, LookupError, ValueError):
            return False
        return True

    def applied(self, batch: Batch, gone: list[Link]) -> None:
        """A batch has been applied, which has replaced or dropped these links."""

    def follows(self, asked: Request, answer: Reply) -> bool:
        """Whether the journal is that of the server which has answered: it yields the cost of the reply's route at its version. It may
        be at a later version already, by other replies."""
        if self.tail is None:
            return False
        if answer.version < self.version:
            return self.is_proved
        if self.reach(answer.version) and self.cost(asked, answer.fars) == answer.cost:
            if self.is_doubted:
                self.say("warning", f"{self.tail.path}: it is the journal of the server that is asked")
            self.is_proved, self.is_doubted = True, False
            return True
        self.doubt(self.tail)
        return False

    def doubt(self, tail: Tail) -> None:
        """The journal isn't the server's, or not yet."""
        if not self.is_doubted:
            self.say("error", f"{tail.path}: it isn't the journal of the server that is asked{self.unfollowed}")
        self.is_proved, self.is_doubted = False, True
        self.look_elsewhere(tail)

    def look_elsewhere(self, tail: Tail) -> None:
        """Of a folder another journal is tried, after a while."""
        if (now := time.monotonic()) >= self.look_at:
            self.look_at = now + LOOK_AGAIN
            tail.reject()
            if tail.file is None:
                self.forget()

    def cost(self, asked: Request, fars: Iterable[str]) -> int | None:
        """The cost of a route by the far addresses of its links; None where one of them may not be used any more."""
        at, whole = asked.head, 0
        for number, far in enumerate(fars):
            usable = self.usable(at, far, asked, number > 0)
            if not usable:
                return None
            at, whole = usable[0].neighbor, whole + (usable[0].metric if len(usable) == 1 else min(link.metric for link in usable))
        return whole if at == asked.tail else None
