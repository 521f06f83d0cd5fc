"""The place of `routed-tools listen --placements` without a program: connections are those of the front, and the server is this file."""
import contextlib
import os
import re
import socket
import time

from routed.front.booked import BookAccount
from routed.front.placing import Placing
from routed.front.sharing import AGAIN, Sharing
from routed.front.updates import Updates
from routed.net.log import Log
from routed.net.loop import Loop
from routed.net.stream import Stream

OWN = re.compile(rb"ask,(\d+),0\.0\.0\.0,0\.0\.0\.1,0,0,0x0,0x0,0x0,\n")
RATE = 1_000_000


class Texts:
    """What stands for the texts of a book: who asked for which, and at which version."""

    def __init__(self):
        self.asked = []

    def begin(self, version, loop, say):
        self.asked.append(("snapshot", version, say))

    def book(self, version, loop, say):
        self.asked.append(("book", version, say))

    def drop(self, loop):
        pass


class Shares:
    """The stream and its loop, and connections to it: `clients` are their other ends. The first one brings updates."""

    def __init__(self, room, count, rate=RATE):
        (rows, rows_in), (lines_out, lines) = os.pipe(), os.pipe()
        self.rows, self.to = rows, lines
        os.set_blocking(rows, False)
        self.log_file, file = os.pipe()
        os.set_blocking(self.log_file, False)
        self.account = BookAccount(Log("shares", "info", file), os.path.join(room, "journal"), None, None, os.path.join(room, "keep"))
        self.loop, self.texts, self.unanswered, self.version = Loop(self.account.failed), Texts(), b"", 0
        self.count = 0  # rows that the server has answered
        self.sharing = Sharing(self.loop, Stream(self.loop, lines_out, rows_in), self.account)
        share = self.sharing.share()
        self.placing = Placing(self.loop, self.sharing, self.account, self.texts, share, rate)
        self.updates = Updates(self.loop, share, self.account, self.texts)
        self.clients = [self.connect(self.updates.accept), *(self.connect(self.placing.take) for _ in range(count))]

    def connect(self, take):
        client, connection = socket.socketpair()
        client.setblocking(False)
        take(Stream(self.loop, connection))
        self.settle()
        return client

    def settle(self):
        """Does all that can be done now."""
        while self.loop.selector.select(0) or self.loop.times and self.loop.times[0][0] <= time.monotonic():
            self.loop.turn()

    def say(self, at, rows):
        """A connection sends rows."""
        self.clients[at].sendall(rows)
        self.settle()

    def has(self):
        """The rows of the turn that the server has, without the front's own; None where there is no turn."""
        self.settle()
        with contextlib.suppress(BlockingIOError):
            while more := os.read(self.rows, 1 << 20):
                self.unanswered += more
                self.settle()
        return OWN.sub(b"", self.unanswered) if self.unanswered.endswith(b"0x0,0x0,0x0,\n") else None

    def tell(self, lines):
        """The server says these of the turn, which goes on."""
        os.write(self.to, lines)
        self.settle()

    def answer(self, lines=b""):
        """The server says these lines, answers the front's own rows, and the turn ends. Its rows."""
        return self.lack((), lines)

    def lack(self, those, lines=b""):
        """The same, and memory is refused to those of the front's own rows, from 0 on. The rows of the turn."""
        rows, numbers, told = self.has(), iter(range(len(OWN.findall(self.unanswered)))), [lines]
        for row in self.unanswered.splitlines(keepends=True):
            self.count += 1
            if own := OWN.fullmatch(row):
                told.append(b"row %d refused: memory\n" % self.count if next(numbers) in those else
                            b"ask %s v%d unknown-from\n" % (own[1], self.version))
        self.unanswered = b""
        self.tell(b"".join(told))
        return rows

    def wait(self):
        """Lets the time pass until rows are sent again that memory was refused to."""
        time.sleep(1.1 * AGAIN)
        self.settle()

    def hear(self, at):
        """What a connection reads now, and whether it has ended."""
        said = b""
        try:
            while more := self.clients[at].recv(1 << 20):
                said += more
                self.settle()
        except BlockingIOError:
            return said, False
        except ConnectionResetError:
            pass
        return said, True

    def log(self):
        try:
            return os.read(self.log_file, 1 << 16).decode()
        except BlockingIOError:
            return ""

    def close(self):
        for client in self.clients:
            client.close()
        for file in (self.rows, self.to, self.log_file):
            os.close(file)
        self.loop.selector.close()
