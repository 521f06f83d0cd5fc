"""The connection of one PCC."""
from __future__ import annotations

import enum
import fcntl
import termios
from typing import TYPE_CHECKING

from ..net.loop import READ, WRITE
from ..net.stream import Stream
from . import wire
from .session import KEEP_WAIT, OVER, UP, Session

if TYPE_CHECKING:
    from .front import Front

FULL = 1 << 20  # bytes that wait for a PCC: beyond them nothing is taken from it
LINGER = 5  # seconds that a session's last bytes have


class State(enum.Enum):
    OPEN = 1
    ENDING = 2  # its last bytes are being sent
    CLOSED = 3


class Pcc:
    """The connection of one PCC, and its session."""

    def __init__(self, front: Front, stream: Stream, peer: str) -> None:
        self.front, self.stream, self.peer, self.loop = front, stream, peer, front.loop.of(self)
        self.state, self.taken_at = State.OPEN, front.clock()
        stream.most = FULL
        stream.give(self, self.go_on)
        self.session = Session(front, peer, front.number, stream.write, self.end, front.clock(), self)  # (its Open has room)
        self.session.put, self.session.wake, self.is_due = self.send, self.wait, False
        self.wait()

    def named(self) -> str:
        return self.peer

    def fail(self) -> None:
        """Ends the connection for an exception, by a Close where the PCC isn't in the middle of a message."""
        is_up, self.session.state = self.session.state == UP, OVER
        self.leave()
        self.close(wire.close(1) if is_up and not self.stream.waiting else b"")

    def is_held(self) -> bool:
        """Whether nothing more is taken from it now."""
        return self.stream.is_full or self.session.is_held(self.front.clock())

    def wait(self) -> None:
        """Waits for what comes next. Nothing is read before all that was read is taken, a slice in each turn of the loop."""
        if self.state is State.CLOSED:
            return
        has_more, is_held = self.session.has_more(), self.is_held()
        self.stream.wait(self.state is State.OPEN and not has_more and not is_held)
        if self.state is State.OPEN and has_more and not is_held and not self.is_due:
            self.is_due = True
            self.loop.after(0, self.proceed)

    def proceed(self) -> None:
        """Takes a slice of what has come."""
        self.is_due = False
        if self.state is State.OPEN and not self.is_held():
            self.session.go_on(self.front.clock())
        self.wait()

    def send(self, data: bytes) -> None:
        if self.state is State.CLOSED:
            return
        has_waited = bool(self.stream.waiting)
        self.stream.waiting += data
        if not has_waited:
            self.taken_at = self.front.clock()
            self.flush()
        elif self.stream.is_full:
            self.session.is_behind = True

    def flush(self) -> None:
        if self.stream.flush():
            self.taken_at = self.front.clock()
        if self.stream.fault:
            self.loop.after(0, lambda: self.session.stop(f"its connection is gone: {self.stream.why()}"))
        if self.state is State.ENDING and not self.stream.waiting:
            self.close()
        self.wait()
        if self.session.is_behind and not self.stream.waiting and self.state is State.OPEN:
            self.session.is_behind = False
            self.session.again()

    def go_on(self, events: int) -> None:
        if events & WRITE:
            self.flush()
        if events & READ and self.state is State.OPEN:
            data = self.stream.read()
            if data:
                self.session.hear(data)
                self.session.go_on(self.front.clock())
            elif self.stream.is_ended:
                self.session.stop("its PCC closed the connection")
        self.wait()

    def probe(self) -> None:
        """Sends a Keepalive, which TCP refuses if the PCC has begun again."""
        if self.session.state in (KEEP_WAIT, UP):
            self.session.send(wire.message(wire.KEEPALIVE))

    def look(self) -> bool:
        """Ends the session if its connection is gone. Whether it is."""
        is_gone = self.stream.peer()[0] is None
        if is_gone:
            self.session.stop("its connection is gone")
        return is_gone

    def is_alive(self) -> bool | None:
        """Whether TCP at the other side has taken all that was sent; None while that isn't known."""
        if self.look():
            return False
        unsent = bytearray(4)
        fcntl.ioctl(self.stream.source, termios.TIOCOUTQ, unsent)
        return True if not self.stream.waiting and not any(unsent) else None

    def tick(self) -> None:
        now = self.front.clock()
        if self.is_held():  # what it sends isn't read, so its Keepalives aren't heard
            self.session.heard_at = now
        self.session.tick(now)
        if self.stream.waiting and now - self.taken_at > (self.session.dead or 120):
            self.stream.waiting.clear()
            self.session.stop("its PCC reads nothing")
        self.wait()

    def end(self) -> None:
        """Ends the connection once its last bytes are sent. Another session of this PCC may begin at once."""
        self.leave()
        if self.stream.waiting:
            self.state = State.ENDING
            self.loop.after(LINGER, self.close)
            self.wait()
        else:
            self.close()

    def leave(self) -> None:
        """Another session of this PCC may begin."""
        if self.front.pccs.get(self.peer) is self:
            del self.front.pccs[self.peer]

    def close(self, last: bytes = b"") -> None:
        if self.state is not State.CLOSED:
            self.state = State.CLOSED
            self.stream.hang_up(last)
