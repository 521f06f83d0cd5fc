"""Turns of the relays that have many rows for `routed serve`.

If all of them had rows at the server, listen would pass on rows and lines without a pause. It would wait for a processor then, as others do
that use theirs up, and updates with it. So only as many relays as there are processors have more than one row at the server."""
from __future__ import annotations

import re
from typing import TYPE_CHECKING

from .accounts import ROW

if TYPE_CHECKING:
    from .relays import Relay

ROWS = 16  # of a stream that the server has at once, and of a turn
SILENCE = 1  # seconds without a line after which no more of them are waited for
FIRST = re.compile(rb"[\r\n]*(?:[^\r\n]+[\r\n]+){0,%d}+" % ROWS)


def first_rows(data: bytes) -> tuple[int, int]:
    """How many bytes of whole lines are the rows of one turn, and how many rows these are."""
    found = FIRST.match(data)
    end = found.end() if found else 0
    return end, len(ROW.findall(data, 0, end))


class Turns:
    """The relays that have a turn, and those that wait for one, in the order in which they came."""

    def __init__(self, most: int) -> None:
        self.most = most
        self.taken: set[Relay] = set()
        self.queue: dict[Relay, bool] = {}

    def take(self, relay: Relay) -> bool:
        """Whether the relay has a turn. Otherwise it waits for one, and is told when that begins."""
        if relay not in self.taken:
            if len(self.taken) >= self.most:
                self.queue[relay] = True
                return False
            self.taken.add(relay)
        return True

    def give_back(self, relay: Relay) -> None:
        """The relay has no turn any more: those that wait may have one."""
        self.taken.discard(relay)
        self.queue.pop(relay, None)
        while self.queue and len(self.taken) < self.most:
            following = next(iter(self.queue))
            del self.queue[following]
            self.taken.add(following)
            following.loop.after(0, following.begin_turn)
