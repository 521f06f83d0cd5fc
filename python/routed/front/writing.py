"""Connections that write to the server's stream of rows: they bring updates, or place.

Behind the rows of a connection stands a request of our own, which nobody can guess, and the lines before its reply are that connection's.
So a line that this front answers has its answer behind those of earlier rows."""
from __future__ import annotations

from collections.abc import Callable

from ..net.loop import Loop
from ..net.stream import LONGEST, Stream
from .accounts import Account
from .channels import PAUSED, TAKING, Channel
from .sharing import Share, own_request, version_behind
from .making import Making

MOST = 1 << 20  # bytes of lines that wait for a connection, where several have turns
RUN = b"run"


class Writing(Channel):
    """A connection, and what it has asked this front for: the name of the run, or the text that the line `asking` asks for."""

    asking = b""

    def __init__(self, loop: Loop, server: Stream | Share, account: Account, snapshots: Making) -> None:
        super().__init__(loop, server, account, account.counts)
        self.snapshots = snapshots
        self.share = server if isinstance(server, Share) else None  # else the stream is its own
        # how the reply to our own request begins, and what is called with its version
        self.awaited: tuple[bytes, Callable[[int], object]] | None = None
        self.text: list[memoryview] = []  # of an answer, what doesn't wait for the connection yet
        self.news = b""  # lines that come behind the answer

    def ask(self, answered: Callable[[int], object]) -> None:
        """Sends our own request, and calls this with the version of its reply."""
        row, reply = own_request()
        self.to_server += row
        self.awaited = reply, answered
        if self.share:
            self.share.is_awaited, self.share.own = True, row

    def pass_lines(self, said: bytes) -> None:
        version = None
        if self.awaited and (at := said.find(self.awaited[0])) >= 0:
            version, said = version_behind(said, at + len(self.awaited[0])), said[:at]
        self.pass_own(said)
        if self.awaited and version is not None:
            (_, answered), self.awaited = self.awaited, None
            if self.share:
                self.share.is_awaited, self.share.own = False, b""
            answered(version)

    def pass_own(self, said: bytes) -> None:
        """Passes on the lines of its rows."""
        super().pass_lines(said)

    def pass_on(self, is_held: bool) -> None:
        """Where several have turns, a connection that doesn't read has none."""
        if not (self.share and is_held):
            super().pass_on(is_held)

    def settle(self) -> None:
        if self.text:
            self.write_on()
        super().settle()
        connection = self.connection
        if connection and connection.fault and self.text:  # it has gone, which its end shows
            self.text = []
            self.told()
            super().settle()
        if self.share and connection and len(connection.waiting) + len(self.news) > MOST:
            self.cut()

    def cut(self) -> None:
        """Ends the connection without a word, since it doesn't read."""
        self.account.cut_off(self.place, self.use.number, "unread")
        self.fail()

    def meet(self, line: bytes) -> None:
        word = line[:-1].removesuffix(b"\r")
        if word not in (RUN, self.asking):
            super().meet(line)
            return
        self.unread, self.state = self.unread[len(line):], PAUSED
        self.ask(self.begin_text if word == self.asking else lambda version: self.go_on(f"run {self.account.run}\n".encode()))

    def begin_text(self, version: int) -> None:
        """Has the text made that was asked for, at this version."""
        raise NotImplementedError

    def go_on(self, *text: bytes) -> None:
        """Passes the parts of an answer on, and then the rows behind its line."""
        if self.connection and self.state is PAUSED:
            self.text = [memoryview(part) for part in text]
            self.settle()

    def write_on(self) -> None:
        """More of an answer waits for the connection. A further part is there until all of it does."""
        connection = self.connection
        while connection and self.text and len(connection.waiting) <= LONGEST:
            connection.waiting += self.text[0][:LONGEST]
            self.text[0] = self.text[0][LONGEST:]
            if not self.text[0]:
                del self.text[0]
        if connection and not self.text:
            self.told()

    def told(self) -> None:
        """All of an answer is written, or waits."""
        if self.connection:
            self.connection.waiting += self.news
        self.news, self.state = b"", TAKING
        self.take()
