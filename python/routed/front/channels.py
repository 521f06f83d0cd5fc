"""Connections of routed-tools listen whose rows it passes on, and whose lines: how a connection and a stream of `routed serve` go together.

One thread does everything, so nothing waits but its loop: all files are non-blocking. At each turn of the loop a
connection gets one read and one write each way, of at most 64 KiB, so that none holds another up for longer."""
from __future__ import annotations

import time
from collections.abc import Callable
from typing import Protocol

from ..net.loop import READ, Loop, Owned, Owner
from ..net.stream import LONGEST, Stream
from .accounts import Account, Use
from .tallies import Counts

MARK = b"\xef\xbb\xbf"  # the byte order mark, which the server's reader skips at the beginning of a stream alone

# What a channel does. Up to TAKING it reads the rows of its connection, and up to ENDING the server's lines are that connection's.
# NEW: the connection's first line isn't there yet. PAUSED: for a snapshot.
# ENDING: the connection has ended its rows, and lines come up to the last one. UNHEARD: nobody has these lines.
# DROPPING: of updates, the changes that were left open are dropped, of which nobody hears, nor are the lines counted.
# OVER: all lines were read, and wait for the connection. FREE: there is no connection.
NEW, TAKING, PAUSED, ENDING, UNHEARD, DROPPING, OVER, FREE = range(8)


class Served(Protocol):
    """The server's stream as a channel uses it. `waiting` has the rows that it doesn't take yet."""

    waiting: bytearray
    is_ended: bool

    def give(self, owner: Owner | None, call: Callable[[int], object]) -> None: ...

    def wait(self, is_read: bool) -> None: ...

    def flush(self) -> int: ...

    def text(self) -> bytes: ...


class Channel:
    """A stream of the server, and a connection that uses it.

    A connection is read while the server takes its rows, and the server while the connection takes its lines. So one that doesn't
    read holds itself up."""

    place = ""

    def __init__(self, loop: Loop, server: Served, account: Account, counts: Counts) -> None:
        # fewer than 30 attributes, all set here: each ask takes CPython longer where an instance has more, or gets some later
        self.loop: Owned = loop.of(self)
        self.server, self.account, self.counts = server, account, counts
        server.give(self, self.read_lines)
        self.connection: Stream | None = None
        self.use = Use(account, self.place, "", counts)  # nobody's
        self.state = FREE
        self.waited: tuple[object, ...] | None = None
        self.unread, self.last, self.moved = b"", b"", 0.0  # of the connection: rows, its last line, and when it sent or took anything
        self.to_server, self.waiting = b"", 0  # rows that aren't passed on yet, and how many these are

    def named(self) -> str:
        return f"{self.place} {self.use.number}"

    def fail(self) -> None:
        """Ends the connection for an exception."""
        raise NotImplementedError

    def begin(self, connection: Stream, named: str) -> None:
        self.connection = connection
        self.use = Use(self.account, self.place, named, self.counts)
        self.unread, self.last, self.moved, self.state = b"", b"", time.monotonic(), NEW
        connection.give(self, self.read_rows)
        self.settle()

    def settle(self) -> None:
        """Writes what can be written, and waits for what comes next."""
        connection, server = self.connection, self.server
        if connection and connection.waiting and connection.flush():
            self.moved = time.monotonic()
        is_held = bool(connection and connection.waiting)
        is_full = bool(connection and connection.is_full)
        if self.state is OVER and not is_held:
            self.release()
        if self.to_server or server.waiting:
            self.pass_on(is_held)
        # what is waited for hangs on these alone, and is the same most of the time
        before, self.waited = self.waited, (self.connection, self.state, server.is_ended, not self.to_server, not server.waiting,
                                            is_held, is_full)
        if self.waited == before:
            return
        server.wait(not is_full)
        if self.connection:
            self.connection.wait(self.state <= TAKING and not self.to_server and not server.waiting)

    def pass_on(self, is_held: bool) -> None:
        """Passes on the rows that the server may have now. It is held where lines wait for the connection."""
        self.server.waiting += self.to_server
        self.to_server, self.waiting = b"", 0
        self.server.flush()

    def read_rows(self, events: int) -> None:
        """Reads once from the connection."""
        connection = self.connection
        if connection and events & READ and self.state <= TAKING and not self.to_server and not self.server.waiting:
            data = connection.read(LONGEST - len(self.unread))
            if data or connection.is_ended:
                self.moved = time.monotonic()
            self.unread += data
            if data:
                self.take()
            elif connection.is_ended:
                self.end_rows()
        self.settle()

    def take(self) -> None:
        """Passes on the whole lines that were read, up to one that isn't passed on."""
        end = self.unread.rfind(b"\n") + 1
        if self.state is NEW and end:
            self.unread, self.state = self.unread.removeprefix(MARK), TAKING
            end = self.unread.rfind(b"\n") + 1
        passed = self.passed(end)
        if passed:
            self.waiting += self.account.rows(self.use, self.unread[:passed])
        self.to_server += self.unread[:passed]
        self.unread = self.unread[passed:]
        if passed < end:
            self.meet(self.unread[:self.unread.index(b"\n") + 1])
        elif len(self.unread) == LONGEST:
            self.refuse()

    def passed(self, end: int) -> int:
        """How far whole lines are passed on."""
        raise NotImplementedError

    def meet(self, line: bytes) -> None:
        """Takes a line that isn't passed on."""
        self.refuse()

    def refuse(self) -> None:
        self.account.cut_off(self.place, self.use.number, "line")
        self.end_rows(b"refused\n")

    def read_lines(self, events: int = READ) -> None:
        """Reads once from the server, and passes the whole lines on."""
        if events & READ:
            said = self.server.text()
            if self.server.is_ended:  # the stream alone, or the server
                self.server.waiting.clear()
                self.to_server, self.waiting = b"", 0
                self.finish()
            elif said:
                self.pass_lines(said)
            else:
                return
        self.settle()  # else it takes rows again

    def pass_lines(self, said: bytes) -> None:
        self.account.lines(self.use, said)
        if self.connection and self.state <= ENDING:
            self.connection.waiting += said

    def read_rest(self) -> None:
        """Passes on what a server that has ended has written, as far as the connection takes it."""
        while self.connection and not self.connection.waiting and not self.server.is_ended:
            self.read_lines()

    def end_rows(self, last: bytes = b"") -> None:
        """Accepts no more rows. `last` is sent after the lines of the rows that were accepted."""
        self.last = last
        self.state = ENDING

    def finish(self) -> None:
        """All lines of the connection have been read."""
        self.state = OVER
        if self.connection:
            self.connection.waiting += self.last
            self.last = b""

    def release(self) -> None:
        """The connection has ended, and doesn't see it yet."""
        raise NotImplementedError
