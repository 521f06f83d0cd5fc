"""The seats of `routed serve --reopen`, and the pipes of their sessions.

Each connection of a client has a session of its own. When a session has ended, the server opens the seat's two files again by their names,
which are numbers of this process. The pipes of the following session are there before anybody has those of the session that runs, so the
server never finds files of two sessions."""
from __future__ import annotations

import collections
import contextlib
import fcntl
import os
from collections.abc import Callable
from typing import Protocol

from ..net.loop import WRITE, Loop, Owned
from ..net.stream import Stream
from .accounts import Account

PAUSE = 0.1  # seconds until pipes are made again, where there are none
LATE = 10  # seconds in which the server begins the next session of a seat
PAGE = os.sysconf("SC_PAGE_SIZE")


class User(Protocol):
    """A connection that has a seat."""

    loop: Owned

    def over(self) -> None:
        """Its session has ended."""


class Pipes:
    """The two pipes of a session. A client has `rows` to write and `lines` to read, which block, and the server the other ends."""

    def __init__(self) -> None:
        self.theirs, self.rows = os.pipe()
        try:
            self.lines, self.their_lines = os.pipe()
        except OSError:
            for file in (self.theirs, self.rows):
                os.close(file)
            raise
        self.room = fcntl.fcntl(self.rows, fcntl.F_GETPIPE_SZ)
        fcntl.fcntl(self.rows, fcntl.F_SETPIPE_SZ, PAGE)
        os.write(self.rows, b"\n")  # it is no row, and fills a pipe of one page: once there is room, the session has begun

    def settle(self) -> None:
        """The session has begun."""
        with contextlib.suppress(OSError):  # the user has too many pipes for more room
            fcntl.fcntl(self.rows, fcntl.F_SETPIPE_SZ, self.room)

    def open(self, loop: Loop) -> Stream:
        """Ends that don't block, of this process's own: others can't change their flags."""
        paths = [f"/proc/self/fd/{file}" for file in (self.lines, self.rows)]
        lines = os.open(paths[0], os.O_RDONLY | os.O_NONBLOCK)
        try:
            return Stream(loop, lines, os.open(paths[1], os.O_WRONLY | os.O_NONBLOCK))
        except OSError:
            os.close(lines)
            raise

    def close(self) -> None:
        """Closes the client's ends."""
        for file in (self.rows, self.lines):
            os.close(file)


class Seat:
    """A client of the server. `place` has the numbers by which the server opens its files, whose pipes are those of `following`."""

    def __init__(self, loop: Loop, number: int, seats: Seats) -> None:
        self.loop, self.number, self.seats = loop.of(self), number, seats
        self.pipes: Pipes | None = None  # of the session that runs, as long as nobody has them
        self.user: User | None = None
        self.peer: int | str | None = None
        self.left: Callable[[], object] | None = None
        self.is_begun = self.is_failed = False  # the session of `following` runs; it isn't used again
        self.following = Pipes()
        self.place = self.following.theirs, self.following.their_lines
        self.await_session()

    def named(self) -> str:
        return f"seat {self.number}"

    def fail(self) -> None:
        """Takes it out of use for an exception, which may come where a session has ended."""
        self.is_failed = True
        self.seats.drop(self)
        self.seats.account.log.say("error", f"{self.named()} isn't used again")
        if self.user:
            self.user.loop.call(self.user.over)
        self.tell_left()

    def await_session(self) -> None:
        self.is_begun = False
        self.loop.want(self.following.rows, WRITE, self.begin)

    def begin(self, _: int) -> None:
        """The server has begun the following session, so the one before is over."""
        self.loop.want(self.following.rows, 0)
        self.is_begun = True
        if self.user:
            self.user.loop.call(self.user.over)
        else:
            self.renew()

    def renew(self) -> None:
        """Puts the pipes of one more session into the place. The one that has begun is for the next connection."""
        try:
            following = Pipes()
        except OSError:  # too many files are open
            self.loop.after(PAUSE, self.renew)
            return
        self.following.settle()
        self.pipes, self.following = self.following, following
        for there, file in zip(self.place, (following.theirs, following.their_lines)):
            os.dup2(file, there, inheritable=False)
            os.close(file)
        self.await_session()
        self.seats.free.append(self)
        self.tell_left()

    def tell_left(self) -> None:
        if self.left:
            left, self.left = self.left, None
            left()

    def begin_use(self, user: User) -> None:
        """A connection has the seat, and its pipes if it is to have them."""
        assert self.pipes
        self.pipes.close()
        self.user, self.pipes = user, None

    def leave(self, left: Callable[[], object]) -> None:
        """Its user needs it no more, and has closed its ends. Calls `left` once another one can have it, or where that isn't soon."""
        self.user, self.left = None, left
        self.seats.peers[self.peer] -= 1
        if self.is_failed:
            self.tell_left()
        elif self.is_begun:
            self.loop.call(self.renew)
        else:
            self.loop.after(LATE, lambda: self.look(left))

    def look(self, left: Callable[[], object]) -> None:
        if self.left is left:
            self.seats.account.log.say("error", f"{self.named()}: the server hasn't opened its files again")
            self.tell_left()


class Seats:
    """All seats, for the places where clients ask: at most `each` connections of one peer have one, where it isn't 0."""

    def __init__(self, loop: Loop, count: int, each: int, account: Account) -> None:
        self.loop, self.each, self.account = loop, each, account
        self.free: collections.deque[Seat] = collections.deque()
        self.peers: collections.Counter[int | str | None] = collections.Counter()
        self.all = [Seat(loop, number, self) for number in range(1, count + 1)]

    @property
    def are_free(self) -> bool:
        return len(self.free) == len(self.all)

    def drop(self, seat: Seat) -> None:
        """The seat is for nobody any more."""
        self.all.remove(seat)
        with contextlib.suppress(ValueError):  # it isn't free
            self.free.remove(seat)

    def take(self, place: str, connection: Stream) -> tuple[Seat, Stream, str] | None:
        """A seat for a connection, our own ends of its pipes, and how the log names the connection; or it is told that it is busy."""
        peer, named = connection.peer()
        if self.free and (not self.each or self.peers[peer] < self.each):
            with contextlib.suppress(OSError):  # too many files are open
                seat = self.free[0]
                assert seat.pipes
                server = seat.pipes.open(self.loop)
                self.free.popleft()
                self.peers[peer] += 1
                seat.peer = peer
                return seat, server, named
        self.account.busy(place, named)
        connection.hang_up(b"busy\n")
        return None
