"""The place that shows the network, for those who may look at it and not change it: a connection that sends `snapshot` reads the database
as the connection for updates does. Nothing of what it sends reaches the server.

All that wait read the text of one child of `Snapshots`. A text that is still that of the newest version is given again without a child.
A connection is ended by the line `refused` for any other line. It is ended where it hasn't taken its text, or has sent no whole
line, within 30 s. At most 32 connections are open, 16 of one peer; others read `busy`."""
from __future__ import annotations

import time
from socket import socket

from ..net.endpoints import Door
from ..net.loop import READ, Loop
from ..net.stream import LONGEST, Stream
from .accounts import Account
from .making import Making

MOST, EACH = 32, 16  # connections, and those of one peer
SECONDS = 30  # until a connection is ended that takes no text and sends no line
SNAPSHOT, LONGEST_LINE = b"snapshot", 16  # the line, and bytes of one that isn't whole


class Showing:
    """The connections, and the text that was made last."""

    def __init__(self, loop: Loop, listener: socket, account: Account, snapshots: Making) -> None:
        self.account, self.snapshots = account, snapshots
        self.viewers: set[Viewer] = set()
        Door(loop, listener, self.take)

    def take(self, stream: Stream) -> None:
        peer, named = stream.peer()
        if len(self.viewers) >= MOST or sum(viewer.peer == peer for viewer in self.viewers) >= EACH:
            self.account.busy("show", named)
            stream.hang_up(b"busy\n")
            return
        self.viewers.add(Viewer(self, stream, peer, self.account.begin("show", named)))


class Viewer:
    """One connection: what it has asked for, and the text that it is reading, which all share."""

    def __init__(self, showing: Showing, stream: Stream, peer: int | str | None, number: int) -> None:
        self.showing, self.stream, self.peer, self.number = showing, stream, peer, number
        self.begun_at = self.moved = time.monotonic()
        self.asked, self.told, self.is_waiting, self.is_refused = 0, 0, False, False
        self.text: memoryview | None = None
        self.at = 0  # how far the text is written
        stream.give(self, self.go_on)
        stream.wait(True)
        stream.loop.after(SECONDS, self.look)

    def named(self) -> str:
        return f"show {self.number}"

    def go_on(self, events: int) -> None:
        if events & READ:
            lines = self.stream.lines()
            for line in lines:
                self.is_refused = self.is_refused or line.removesuffix(b"\r") != SNAPSHOT
                self.asked += not self.is_refused
            self.is_refused = self.is_refused or len(self.stream.unread) > LONGEST_LINE
            if lines:
                self.moved = time.monotonic()
        self.settle()

    def settle(self) -> None:
        """Writes what can be written of the text, begins the next one, and waits for what comes next."""
        if self not in self.showing.viewers:
            return
        if self.stream.waiting:
            self.stream.flush()
        while self.text is not None and not self.stream.waiting and not self.stream.fault:
            self.stream.write(bytes(self.text[self.at:self.at + LONGEST]))
            self.at += LONGEST
            if self.at >= len(self.text):
                self.text, self.told, self.moved = None, self.told + 1, time.monotonic()
        if self.stream.fault:
            self.close()
        elif self.text is None and not self.stream.waiting and not self.is_waiting:
            self.begin()
        else:
            self.stream.wait(False)

    def begin(self) -> None:
        """Nothing is left to write: the next text, the line that refuses, the end, or the next line."""
        if self.asked:
            self.asked -= 1
            self.is_waiting, self.moved = True, time.monotonic()
            self.stream.wait(False)
            self.showing.snapshots.show(self.stream.loop, self.give)
        elif self.is_refused:
            self.showing.account.cut_off("show", self.number, "line")
            self.close(b"refused\n")
        elif self.stream.is_ended:
            self.close()
        else:
            self.stream.wait(True)

    def give(self, text: memoryview) -> None:
        """The text is there."""
        self.is_waiting, self.text, self.at, self.moved = False, text, 0, time.monotonic()
        self.settle()

    def look(self) -> None:
        """Ends the connection where it was idle for too long, or comes again when it may be."""
        if self not in self.showing.viewers:
            return
        left = self.moved + (2 * SECONDS if self.is_waiting else SECONDS) - time.monotonic()
        if left <= 0:
            self.showing.account.cut_off("show", self.number, "idle")
            self.close()
        else:
            self.stream.loop.after(left, self.look)

    def close(self, last: bytes = b"") -> None:
        if self in self.showing.viewers:
            self.showing.viewers.remove(self)
            self.text = None
            self.stream.hang_up(last)
            self.showing.account.end("show", self.number, f"{self.told} snapshots, {time.monotonic() - self.begun_at:.1f} s")

    def fail(self) -> None:
        """An exception ends it."""
        self.close()
