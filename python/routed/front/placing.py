"""The place of routed-tools listen for programs that place: the server has a book, and its stream of rows is used in turns.

A connection reads the lines of its rows, and between those of its turns the lines `over`, `lost` and `base` of the updates' batches. One
for which more than 1 MiB of lines waits is ended. The line `book` asks for the whole book."""
from __future__ import annotations

import re
import socket
import time

from ..net.endpoints import Door
from ..net.loop import Loop
from ..net.stream import Stream
from .booked import BookAccount
from .books import Books
from .channels import ENDING, PAUSED
from .sharing import MEMORY, Share, Sharing
from .writing import Writing

MOST = 64  # connections
SECONDS = 30  # in which a connection takes some of its book
AGAIN = 0.02  # seconds until rows above the rate are passed on, at the least
EVERY, AT_ONCE = 1, 1000  # seconds from one look at what is counted too much to the next, and the links of one look
# Rows of those that place. A carriage return ends one, too.
ROWS = re.compile(rb'(?:(?:(?:place|held|offer|release|ask|show|left)(?:,[^"\r\n]*)?)?[\r\n])*+')
COUNTED = re.compile(rb"(?:^|(?<=[\r\n]))(?:place|held|release)[,\r\n]")  # those of which a connection has so many a second
NEWS, BASE = re.compile(rb"(?m)^(?:over|lost|base) .*\n"), re.compile(rb"(?m)^base (\d+) ")


class Placing:
    """The connections that place. `updates` is the share of the connection for updates, whose batches are news for all of them."""

    def __init__(self, loop: Loop, sharing: Sharing, account: BookAccount, books: Books, updates: Share, rate: int) -> None:
        self.loop, self.sharing, self.account, self.books, self.rate = loop, sharing, account, books, rate
        self.placers: set[Placer] = set()
        self.looked_at = 0  # the version when it was looked at last what is counted too much
        self.keys: list[bytes] = []  # those of links that are to be looked at
        sharing.heard = lambda share, said: self.hear(said) if share is updates else None
        loop.after(EVERY, self.look)

    def listen(self, listener: socket.socket) -> None:
        Door(self.loop, listener, self.take)

    def take(self, connection: Stream) -> None:
        _, named = connection.peer()
        if self.sharing.server.is_ended:
            connection.hang_up()
        elif len(self.placers) >= MOST:
            self.account.busy(Placer.place, named)
            connection.hang_up(b"busy\n")
        else:
            placer = Placer(self, self.sharing.share())
            placer.connection = connection  # it ends with it, however that begins
            self.placers.add(placer)
            placer.loop.call(placer.begin, connection, named)

    def hear(self, said: bytes) -> None:
        """Tells all what these lines of the updates say of batches."""
        news = b"".join(NEWS.findall(said))
        for base in BASE.findall(news):
            self.account.base = int(base)
        for placer in tuple(self.placers) if news else ():
            placer.loop.call(placer.tell, news)

    def look(self) -> None:
        """Asks how much is counted on the links on which it was too much, where versions have come since."""
        if not self.keys and self.account.version != self.looked_at:
            self.looked_at, self.keys = self.account.version, [*self.account.over]
        some, self.keys = self.keys[:AT_ONCE], self.keys[AT_ONCE:]
        if some:
            self.sharing.ask(b"".join(b"left,%s\n" % key for key in some), self.looked)
        else:
            self.loop.after(EVERY, self.look)

    def looked(self, said: bytes, _: int) -> None:
        self.account.left(said)
        if MEMORY in said:  # some weren't answered
            self.looked_at = 0
        self.loop.after(EVERY, self.look)


class Placer(Writing):
    """One connection. `tokens` are the rows that it may still pass on of those that are counted, at the time `since`."""

    place, asking = "placements", b"book"

    def __init__(self, placing: Placing, share: Share) -> None:
        super().__init__(placing.loop, share, placing.account, placing.books)
        self.placing = placing
        self.tokens, self.since, self.is_waiting = float(placing.rate), time.monotonic(), False

    def passed(self, end: int) -> int:
        found = ROWS.match(self.unread, 0, end)
        return found.end() if found else 0

    def pass_on(self, is_held: bool) -> None:
        """Passes on what the rate allows, and nothing where lines wait for the connection."""
        if self.to_server and not is_held and not self.server.waiting:
            end = self.allowed()
            self.server.waiting += self.to_server[:end]
            self.to_server = self.to_server[end:]
        self.server.flush()

    def allowed(self) -> int:
        """How far its rows may be passed on now. The others come later."""
        now, rate = time.monotonic(), self.placing.rate
        self.tokens, self.since = min(self.tokens + (now - self.since) * rate, rate), now
        counted = 0
        for row in COUNTED.finditer(self.to_server):
            if counted + 1 > self.tokens:
                self.tokens -= counted
                if not self.is_waiting:
                    self.is_waiting = True
                    self.loop.after(max(AGAIN, (1 - self.tokens) / rate), self.again)
                return row.start()
            counted += 1
        self.tokens -= counted
        return len(self.to_server)

    def again(self) -> None:
        self.is_waiting = False
        self.settle()

    def tell(self, news: bytes) -> None:
        """Tells lines of the updates, behind the book where this is read."""
        if self.awaited is None and self.state is PAUSED:
            self.news += news
        elif self.connection and self.state <= ENDING:
            self.connection.waiting += news
        self.settle()

    def begin_text(self, version: int) -> None:
        self.placing.books.book(version, self.loop, self.go_on)

    def go_on(self, *text: bytes) -> None:
        super().go_on(*text)
        self.moved = time.monotonic()
        self.loop.after(SECONDS, self.look)

    def look(self) -> None:
        """Ends the connection where it takes nothing of its book, which is kept for it."""
        if self.text and self.moved + SECONDS <= time.monotonic():
            self.cut()
        elif self.text:
            self.loop.after(SECONDS, self.look)

    def end_rows(self, last: bytes = b"") -> None:
        super().end_rows(last)
        self.ask(lambda version: self.finish())

    def release(self) -> None:
        """Its place is free again before the connection sees its end."""
        if self in self.placing.placers:
            self.placing.placers.remove(self)
            self.placing.books.drop(self.loop)
            if self.share:
                self.share.close()
            self.to_server, self.text, self.news = b"", [], b""
            connection, self.connection = self.connection, None
            if self.use.number:
                self.use.end()
            if connection:
                connection.hang_up()

    def fail(self) -> None:
        """Ends the connection. The server answers its rows that have a turn, and nobody has their lines."""
        if self.connection:
            self.connection.close()
        self.release()
