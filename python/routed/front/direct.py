"""Connections of clients that have the ends of their pipes to `routed serve` themselves. routed-tools listen sees how they begin and end,
and no rows or lines."""
from __future__ import annotations

import os
import socket
import time
from collections.abc import Callable

from ..net.direct import WORD
from ..net.endpoints import Door
from ..net.ends import Ends
from ..net.loop import WRITE, Loop
from ..net.stream import Stream
from .accounts import Account
from .seats import Seat, Seats

QUOTE = b'"'  # at which the server ends a session


class Directs:
    """The place where they connect."""

    def __init__(self, loop: Loop, listener: socket.socket, seats: Seats, account: Account) -> None:
        self.loop, self.seats, self.account, self.ends = loop, seats, account, Ends(loop)
        Door(loop, listener, self.take)

    def take(self, connection: Stream) -> None:
        if taken := self.seats.take(Direct.place, connection):
            direct = Direct(self, connection, *taken)
            direct.loop.call(direct.begin)


class Direct:
    """A connection, and its session.

    Nothing comes on it. If it ends its sending side, the session ends behind its rows, and its client reads their lines. If it ends, the
    session ends, too, and it doesn't matter who still has the ends of the pipes: lines are dropped, and rows where there is no room for a
    quotation mark behind them."""

    place = "direct"

    def __init__(self, directs: Directs, connection: Stream, seat: Seat, server: Stream, named: str) -> None:
        self.loop, self.account, self.ends = directs.loop.of(self), directs.account, directs.ends
        self.connection, self.seat, self.server = connection, seat, server
        self.rows: Stream | None = None  # another end of the rows, to drop some
        self.is_quoted, self.is_hung_up, self.is_finished = False, False, False
        self.number, self.begun_at = self.account.begin(self.place, named), time.monotonic()
        server.give(self, self.go_on)
        connection.give(self, self.read)

    def named(self) -> str:
        return f"{self.place} {self.number}"

    def begin(self) -> None:
        assert self.seat.pipes
        self.connection.write_files(WORD, (self.seat.pipes.rows, self.seat.pipes.lines))
        self.seat.begin_use(self)
        self.ends.watch(self.connection, self.hang_up)
        self.connection.wait(True)

    def read(self, _: int) -> None:
        if self.connection.read():
            self.account.cut_off(self.place, self.number, "line")
            self.hang_up(b"refused\n")
        elif self.connection.is_ended:
            self.connection.wait(False)
            self.end_rows()

    def end_rows(self) -> None:
        """Writes a quotation mark behind the rows, once there is room."""
        if not self.is_quoted:
            self.is_quoted = True
            self.server.write(QUOTE)
        self.server.wait(self.is_hung_up)

    def hang_up(self, last: bytes = b"") -> None:
        """The connection has ended, or is ended."""
        self.leave(last)
        self.end_rows()
        self.go_on(WRITE)

    def leave(self, last: bytes = b"") -> None:
        if not self.is_hung_up:
            self.is_hung_up = True
            self.ends.forget(self.connection)
            self.connection.hang_up(last)

    def go_on(self, events: int) -> None:
        """Writes the quotation mark, and drops lines once nobody is there who reads them."""
        if events & WRITE:
            self.server.flush()
        if self.is_hung_up:
            self.server.read()
            if self.server.is_ended:
                self.finish(lambda: None)
                return
            if self.server.waiting:
                self.drop_rows()
        self.server.wait(self.is_hung_up)

    def drop_rows(self, _: int = 0) -> None:
        """Drops rows until there is room. Others may still write some, so this isn't done at once."""
        if not self.rows:
            self.rows = Stream(self.loop, os.open(f"/proc/self/fd/{self.server.to}", os.O_RDONLY | os.O_NONBLOCK))
            self.rows.give(self, self.drop_rows)
        self.rows.read()
        self.server.flush()
        self.rows.wait(bool(self.server.waiting))

    def over(self) -> None:
        """The session has ended."""
        self.finish(self.leave)

    def finish(self, left: Callable[[], object]) -> None:
        if not self.is_finished:
            self.is_finished = True
            self.server.close()
            if self.rows:
                self.rows.close()
            self.account.end(self.place, self.number, f"{time.monotonic() - self.begun_at:.1f} s")
            self.seat.leave(left)

    def fail(self) -> None:
        """Ends it for an exception."""
        if self.seat.pipes:  # it hasn't begun
            self.seat.begin_use(self)
        self.hang_up()
