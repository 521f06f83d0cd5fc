"""Connections of clients whose rows routed-tools listen passes on. Each has a session of a seat of the server."""
from __future__ import annotations

import os
import socket
import time

from ..net.endpoints import Door
from ..net.loop import Loop
from ..net.stream import Stream
from .accounts import Account
from .channels import TAKING, UNHEARD, Channel
from .seats import Seat, Seats
from .turns import SILENCE, Turns, first_rows


class Relays:
    """The place where they connect. Idle ones are ended, where `idle` isn't 0."""

    def __init__(self, loop: Loop, listener: socket.socket, seats: Seats, account: Account, idle: float) -> None:
        self.loop, self.seats, self.account, self.idle = loop, seats, account, idle
        self.all: set[Relay] = set()
        self.turns = Turns(len(os.sched_getaffinity(0)))
        Door(loop, listener, self.take)
        if idle:
            loop.after(idle, self.end_idle)

    def take(self, connection: Stream) -> None:
        if taken := self.seats.take(Relay.place, connection):
            seat, server, named = taken
            relay = Relay(self, seat, server)
            relay.connection = connection  # it ends with the relay, however that begins
            relay.loop.call(relay.begin, connection, named)

    def end_idle(self) -> None:
        """Ends the connections that are idle, and comes again when the next one may be."""
        now = time.monotonic()
        for relay in tuple(self.all):
            if relay.connection and relay.moved + self.idle <= now:
                relay.loop.call(relay.end_idle, now)
        first = min((relay.moved for relay in self.all if relay.connection), default=now)
        self.loop.after(first + self.idle - now, self.end_idle)


class Relay(Channel):
    """A connection, and its session. Its rows end with the pipe, which nobody else can write.

    The server gets further rows once it has answered those before. One row is passed on at once, but more only in a turn."""

    place = "ask"
    server: Stream

    def __init__(self, relays: Relays, seat: Seat, server: Stream) -> None:
        super().__init__(relays.loop, server, relays.account, relays.account.tallies.relayed[seat.number])
        self.relays, self.seat = relays, seat
        self.moved = time.monotonic()
        self.unanswered, self.is_watched = 0, False  # how many rows are passed on that have no line yet, and whether these are waited for
        seat.begin_use(self)
        relays.all.add(self)

    def over(self) -> None:
        """The session has ended. Its lines are there to their end."""

    def settle(self) -> None:
        super().settle()
        if self.connection and self.connection.is_full:  # its rows wait for the connection then, and not for the server
            self.relays.turns.give_back(self)
        if self.state > TAKING and not self.to_server and not self.server.waiting:
            self.server.shut()

    def pass_on(self, is_held: bool) -> None:
        """Passes on one row, or those of a turn, which a connection that doesn't read has none of."""
        server = self.server
        if server.waiting:
            server.flush()
        if server.waiting or not self.to_server:
            return
        if self.unanswered:
            self.watch()
        elif self.waiting <= 1:
            server.write(self.to_server)
            self.to_server, self.unanswered, self.waiting = b"", self.waiting, 0
        elif not is_held and self.relays.turns.take(self):
            end, self.unanswered = first_rows(self.to_server)
            server.write(self.to_server[:end])
            self.to_server = self.to_server[end:]
            self.waiting -= self.unanswered
            self.watch()

    def begin_turn(self) -> None:
        """Uses a turn that it has waited for, or gives it back, as where it has ended meanwhile."""
        if self in self.relays.all:
            self.settle()
        if not self.unanswered:
            self.relays.turns.give_back(self)

    def watch(self) -> None:
        """Sees to it that a turn ends, even where a row has no line."""
        if not self.is_watched:
            self.is_watched = True
            lines = self.use.lines
            self.loop.after(SILENCE, lambda: self.look(lines))

    def look(self, lines: int) -> None:
        self.is_watched = False
        if self not in self.relays.all or not self.unanswered:
            return
        if self.use.lines == lines and not (self.connection and self.connection.is_full):
            self.account.log.say("info", f"{self.named()}: {self.unanswered} rows without a line in {SILENCE} s")
            self.answered(self.unanswered)
            self.settle()
        else:
            self.watch()

    def answered(self, count: int) -> None:
        self.unanswered = max(self.unanswered - count, 0)
        if not self.unanswered:
            self.relays.turns.give_back(self)

    def pass_lines(self, said: bytes) -> None:
        super().pass_lines(said)
        self.answered(said.count(b"\n"))

    def passed(self, end: int) -> int:
        """No row needs a quotation mark, at which the server ends a session."""
        at = self.unread.find(b'"', 0, end)
        return end if at < 0 else self.unread.rfind(b"\n", 0, at) + 1

    def release(self) -> None:
        if self in self.relays.all:
            self.relays.all.remove(self)
            self.to_server, self.unanswered = b"", 0
            self.relays.turns.give_back(self)
            connection, self.connection = self.connection, None
            if connection:
                connection.wait(False, False)
            self.server.close()
            if self.use.number:
                self.use.end()
            self.seat.leave(lambda: connection.hang_up() if connection else None)

    def fail(self) -> None:
        """Ends the connection and the session, as far as they are."""
        if self.connection:
            self.connection.close()
        self.release()

    def end_idle(self, now: float) -> None:
        """Ends a connection that neither sends nor takes anything. The lines that it doesn't take are dropped."""
        self.account.cut_off(self.place, self.use.number, "idle")
        self.moved = now
        if self.state <= TAKING:
            self.end_rows()
        if self.connection and self.connection.waiting:
            self.connection.waiting.clear()
            self.last, self.state = b"", max(self.state, UNHEARD)
        self.settle()
