"""Direct connections to `routed serve`: a client has the ends of its two pipes from routed-tools listen, which isn't between them then.

The first message of such a connection is WORD, and with it come the end of the rows, to write, and the end of the lines, to read. A client
ends its rows by ending the sending side of the connection, and both by closing it."""
from __future__ import annotations

import os
import socket

from .endpoints import Endpoint
from .loop import READ, Loop
from .stream import LONGEST, Stream

WORD = b"direct 1\n"
BEHIND = ".direct"  # stands behind the path where clients ask, in that where they connect directly


class Direct(Stream):
    """A client's side of one. It is a stream of the two ends once these have come; what is written before that waits."""

    __slots__ = "has_ends", "is_left"

    def __init__(self, loop: Loop, made: socket.socket) -> None:
        super().__init__(loop, made)
        self.has_ends, self.is_left = False, False

    def wait(self, is_read: bool, is_written: bool = True) -> None:
        super().wait(is_read, is_written and self.has_ends)
        if self.has_ends and self.socket and not self.is_closed:
            self.loop.want(self.socket.fileno(), 0 if self.is_left or not is_read else READ, self.leave_it)

    def read(self, most: int = LONGEST) -> bytes:
        if not self.has_ends:
            return self.take_ends()
        data = super().read(most)
        if self.is_left:
            while more := super().read():
                data += more
            self.is_ended = True
        return data

    def take_ends(self) -> bytes:
        """Takes the two ends. What it returns are other lines, as that for which no place is free."""
        data, files = self.read_files(2)
        if data == WORD and len(files) == 2:
            super().wait(False, False)
            self.to, self.source = files
            for file in files:
                os.set_blocking(file, False)
            self.has_ends = True
            return b""
        for file in files:
            os.close(file)
        return data

    def flush(self) -> int:
        return super().flush() if self.has_ends else 0

    def leave_it(self, _: int) -> None:
        """The connection has ended, and no lines come behind those that are there."""
        self.is_left = True
        self.call(READ)

    def close(self) -> None:
        if self.has_ends and self.socket and not self.is_closed:
            self.wait(False, False)
            for file in (self.source, self.to):
                os.close(file)
        super().close()


def direct(loop: Loop, ask: Endpoint) -> Stream | None:
    """A direct connection to a server, if there is a place for them beside that where clients ask, and we may connect to it."""
    if not ask.path:
        return None
    made = socket.socket(socket.AF_UNIX)
    try:
        made.setblocking(False)
        made.connect(ask.path + BEHIND)
    except OSError:
        made.close()
        return None
    return Direct(loop, made)
