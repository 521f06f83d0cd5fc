"""Asks of all who ask, over a few connections to `routed-tools listen`, each with an id of its own."""
from __future__ import annotations

import collections
import enum
import time
from collections.abc import Callable
from typing import Optional

from ..model.rows import row_of
from ..net.direct import direct
from ..net.endpoints import CONNECT, Endpoint
from ..net.loop import READ, WRITE, Loop

AGAIN, FREE_AGAIN = 0.2, 1  # seconds from one try to connect to the next, and to a server that was busy
SECONDS = 5.0  # that an ask has for its answer
Call = Callable[[Optional[str], Optional[str]], object]  # gets a row and its line; None where no connection can answer it


class Ask:
    """A row, and what its line is given to. It may be given to so many connections."""

    def __init__(self, row: str, call: Call, tries: int) -> None:
        self.row, self.call, self.tries, self.begun_at, self.is_over = row, call, tries, time.monotonic(), False

    def answer(self, line: str | None) -> None:
        if not self.is_over:
            self.is_over = True
            self.call(self.row if line is not None else None, line)


class Asks:
    """Rows go to the connection that has the fewest unanswered ones. One whose connection ends goes to another, at most as often
    as there are connections. One that isn't answered in time has no answer, and its connection gets no other until it has answered it."""

    def __init__(self, loop: Loop, endpoint: Endpoint, count: int, lost: Callable[[], object], seconds: float = SECONDS) -> None:
        self.loop, self.endpoint, self.wanted, self.lost, self.number, self.is_open = loop, endpoint, count, lost, 0, False
        self.seconds = seconds
        self.connections: list[Connection] = []
        self.is_busy = False  # the server has no place for them
        self.noted: Callable[[], object] = lambda: None  # is called where that changes

    def open(self) -> None:
        """Connects; and again where that fails, until it is closed."""
        self.is_open = True
        while len(self.connections) < self.wanted:
            try:
                self.connections.append(Connection(self))
            except OSError:
                self.loop.after(AGAIN, self.open_again)
                return

    def open_again(self) -> None:
        if self.is_open:
            self.open()

    def close(self) -> None:
        """Ends all connections. Asks that are unanswered have no answer."""
        self.is_open = False
        for connection in [*self.connections]:
            connection.close()

    def note(self, is_busy: bool) -> None:
        if is_busy != self.is_busy:
            self.is_busy = is_busy
            self.noted()

    def ask(self, row: str, call: Call) -> None:
        self.number += 1
        self.give(Ask(row_of(self.number, row), call, self.wanted), lambda one: (False, len(one.asks)))

    def give(self, ask: Ask, rank: Callable[[Connection], tuple[bool, int]]) -> None:
        usable = [one for one in self.connections if one.is_usable()]
        if ask.tries and usable:
            min(usable, key=rank).ask(ask)
        else:
            ask.answer(None)

    def gone(self, connection: Connection) -> None:
        """A connection has ended. Its asks go to another one, first to one that has answered."""
        state = connection.state
        self.note(state is State.BUSY)
        if connection in self.connections:
            self.connections.remove(connection)
            if self.is_open:
                self.loop.after({State.NEW: AGAIN, State.BUSY: FREE_AGAIN}.get(state, 0), self.open_again)
            if state is not State.BUSY and connection.stream.is_made:
                self.lost()
        while connection.asks:
            ask = connection.asks.popleft()
            ask.tries -= state is not State.BUSY
            self.give(ask, lambda one: (one.state is not State.SERVED, len(one.asks)))


class State(enum.Enum):
    NEW = 1
    SETTLED = 2  # it was used for a while, so its end is no reason to wait before the next try
    SERVED = 3  # it has answered
    BUSY = 4


class Connection:
    """One connection: asks in order, whose lines come in that order."""

    def __init__(self, owner: Asks) -> None:
        self.owner, self.state, self.is_watched = owner, State.NEW, False
        self.asks: collections.deque[Ask] = collections.deque()
        self.stream = direct(owner.loop, owner.endpoint) or owner.endpoint.begin(owner.loop)
        self.stream.give(self, self.go_on)
        self.stream.wait(True)
        self.stream.loop.after(AGAIN, self.settle)
        if not self.stream.is_made:
            self.stream.loop.after(CONNECT, self.give_up)

    def named(self) -> str:
        return "a connection for asks"

    def is_usable(self) -> bool:
        """Whether asks may be given to it: it is connected, and no ask of it is late."""
        return self.stream.is_made and not (self.asks and self.asks[0].is_over)

    def give_up(self) -> None:
        if not self.stream.is_made:
            self.close()

    def settle(self) -> None:
        if self.state is State.NEW and self.stream.is_made:
            self.state = State.SETTLED
            self.owner.note(False)

    def ask(self, ask: Ask) -> None:
        self.asks.append(ask)
        self.stream.write(f"{ask.row}\n".encode())
        self.stream.wait(True)
        self.watch()

    def watch(self) -> None:
        """Sees to it that asks which are late have no answer."""
        first = next((ask for ask in self.asks if not ask.is_over), None) if not self.is_watched else None
        if first:
            self.is_watched = True
            self.stream.loop.after(first.begun_at + self.owner.seconds - time.monotonic(), self.look)

    def look(self) -> None:
        self.is_watched = False
        now = time.monotonic()
        for ask in [ask for ask in self.asks if not ask.is_over and ask.begun_at + self.owner.seconds <= now]:
            ask.answer(None)
        self.watch()

    def go_on(self, events: int) -> None:
        if events & WRITE:
            self.stream.flush()
        if events & READ and not self.stream.is_ended:
            self.read()
        if self.stream.is_ended:
            self.close()
        else:
            self.stream.wait(True)

    def read(self) -> None:
        for line in self.stream.lines():
            if line == b"busy" or not self.asks:
                self.state = State.BUSY if line == b"busy" else self.state
                continue
            if self.state is not State.SERVED:
                self.state = State.SERVED
                self.owner.note(False)
            self.asks.popleft().answer(line.decode(errors="replace"))

    def close(self) -> None:
        if not self.stream.is_closed:
            self.stream.close()
            self.owner.gone(self)

    fail = close
