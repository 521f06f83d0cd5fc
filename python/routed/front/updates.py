"""The connection that brings updates to routed-tools listen, one at a time."""
from __future__ import annotations

import re
import socket

from ..net.endpoints import Door
from ..net.loop import Loop, Stopped
from ..net.stream import Stream
from .accounts import Use
from .channels import DROPPING, ENDING, FREE, UNHEARD
from .writing import Writing

# Rows of the updates. A carriage return ends one, too.
UPDATES = re.compile(rb'(?:(?:(?:put|drop|node|end|ask)(?:,[^"\r\n]*)?)?[\r\n])*+')


class Updates(Writing):
    """The connections that bring updates, one after the other.

    The lines of one's rows are that connection's, also where it has gone. Changes that it leaves open are dropped."""

    place, asking = "updates", b"snapshot"

    def listen(self, loop: Loop, listener: socket.socket) -> None:
        Door(loop, listener, self.accept)

    def accept(self, connection: Stream) -> None:
        _, named = connection.peer()
        if self.server.is_ended:  # and this front ends soon, so the place isn't another's
            connection.hang_up()
        elif self.state is FREE:
            self.connection = connection  # it ends with its use, however that begins
            self.loop.call(self.begin, connection, named)
        else:
            self.account.busy(self.place, named)
            connection.hang_up(b"busy\n")

    def fail(self) -> None:
        """Ends the connection for an exception. Its rows are the server's, its lines nobody's, and the next connection has the stream
        behind the reply to a request of our own, as always."""
        self.snapshots.drop(self.loop)
        self.text, self.news = [], b""
        connection, self.connection, self.unread = self.connection, None, b""
        if connection is None:
            raise Stopped("the server's stream of updates can't be used any more")
        connection.close()
        use, self.use, self.waited = self.use, Use(self.account, self.place, "", self.counts), None
        self.end_rows()
        self.settle()
        if use.number:
            use.end()

    def passed(self, end: int) -> int:
        found = UPDATES.match(self.unread, 0, end)
        return found.end() if found else 0

    def pass_own(self, said: bytes) -> None:
        if self.state is not DROPPING:
            super().pass_own(said)

    def end_rows(self, last: bytes = b"") -> None:
        self.last = last
        self.state = ENDING if self.connection else DROPPING if self.state is DROPPING else UNHEARD
        self.ask(self.drop_changes)

    def drop_changes(self, version: int) -> None:
        """A batch that is refused takes the open changes away. Its line is nobody's."""
        if version > self.account.version:  # an exception has swallowed its line
            self.account.published(version)
        self.state = DROPPING
        self.to_server += b"end,0,0\n"
        self.ask(lambda version: self.finish())

    def release(self) -> None:
        """Is free again before the connection sees its end."""
        connection, self.connection, self.state = self.connection, None, FREE
        if connection:
            self.use.end()
            self.use = Use(self.account, self.place, "", self.counts)
            connection.hang_up()

    def begin_text(self, version: int) -> None:
        self.snapshots.begin(version, self.loop, self.go_on)
