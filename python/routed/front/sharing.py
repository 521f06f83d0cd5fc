"""The server's stream of rows where several connections use it in turns: the one for updates, and those that place.

A turn is whole lines of one connection, at most 64 KiB of its rows, and then a request of our own, which nobody can guess. The lines before
its reply are that connection's, also where it has gone meanwhile. Connections that have whole lines have their turns in the order in which
they came to have them. If the server has no memory for a request of our own, it is sent again, and the turn goes on."""
from __future__ import annotations

import collections
import functools
import secrets
from collections.abc import Callable

from ..net.loop import READ, WRITE, Loop, Owner
from ..net.stream import Stream
from .accounts import ROW
from .booked import BookAccount

AGAIN = 0.1  # seconds until a request of our own is sent again for which the server had no memory
MEMORY = b" refused: memory\n"
LATE = 30  # seconds in which a turn ends, unless the server takes no rows any more


def own_request() -> tuple[bytes, bytes]:
    """A request of our own, and how the line of its reply begins. No row that is there has this number, which nobody can guess."""
    number = secrets.randbits(64)
    return b"ask,%d,0.0.0.0,0.0.0.1,0,0,0x0,0x0,0x0,\n" % number, b"ask %d v" % number


def refused_row(number: int) -> bytes:
    """The line by which the server says that it has no memory for a row."""
    return b"row %d%s" % (number, MEMORY)


def version_behind(said: bytes, at: int) -> int:
    """The version that a reply names there."""
    return int(said[at:said.index(b" ", at)])


class Share:
    """One connection's use of the stream. Its channel takes it for the server's stream: what it writes waits for a turn, and what it reads
    are the lines of its turns. It takes no more rows while one turn's rows wait. `is_awaited` says that its channel has to see its lines
    before anybody's further rows are passed on, and `own` is the request that its channel awaits the reply to. No row of the connection is
    behind that one."""

    __slots__ = "sharing", "loop", "call", "waiting", "rows", "said", "own", "answered", "is_ended", "is_awaited"

    def __init__(self, sharing: Sharing) -> None:
        self.sharing = sharing
        self.waiting, self.rows, self.said = bytearray(), b"", b""  # rows of turns behind the next one, rows of that one, and lines
        self.own = b""
        self.answered: Callable[[int], object] | None = None  # called with the version, where its lines have all come
        self.is_ended = self.is_awaited = False
        self.give(None, self.drop)

    def give(self, owner: Owner | None, call: Callable[[int], object]) -> None:
        self.loop, self.call = self.sharing.loop.of(owner), call

    def wait(self, is_read: bool, is_written: bool = True) -> None:
        """Nothing is waited for: what comes for it is told at once."""

    def flush(self) -> int:
        """Takes the rows of the next turn, where none wait for it."""
        count = len(self.waiting)
        if not count or self.rows:
            return 0
        self.rows = bytes(self.waiting)
        self.waiting.clear()
        self.sharing.want(self)
        return count

    def text(self) -> bytes:
        """The whole lines that have come."""
        said, self.said = self.said, b""
        return said

    def drop(self, _: int) -> None:
        """Nobody hears the lines."""
        self.sharing.account.unheard(self.text())

    def close(self) -> None:
        """Its connection has gone. Rows that have had no turn are dropped."""
        self.waiting.clear()
        self.rows = b""
        self.give(None, self.drop)
        self.drop(0)
        self.sharing.shares.discard(self)


class Sharing:
    """The stream. `heard` is called with what the server says in each turn, before the connection that has it."""

    def __init__(self, loop: Loop, server: Stream, account: BookAccount) -> None:
        self.loop, self.server, self.account = loop, server, account
        self.shares: set[Share] = set()
        self.queue: collections.deque[Share] = collections.deque()  # those that have rows, and no turn yet
        self.turn: Share | None = None  # whose rows the server has
        self.reply = b""  # how the reply to our own request begins
        self.rows = 0  # that the server has had
        self.own: dict[bytes, bytes] = {}  # the line of the refusal by memory, and the row, of each request of our own that the server has
        self.again = b""  # those of them that memory was refused to
        self.turns, self.looked_at = 0, 0  # how many have begun, and had when it was looked last
        self.heard: Callable[[Share, bytes], object] = lambda share, said: None
        server.give(None, self.go_on)
        server.wait(True)
        loop.after(LATE, self.look)

    def look(self) -> None:
        """Says so where a turn doesn't end, since all wait for it then."""
        if self.turn and self.turns == self.looked_at:
            self.account.log.say("error", f"the server has said nothing of a turn's end for {LATE} s")
        self.looked_at = self.turns
        self.loop.after(LATE, self.look)

    def share(self) -> Share:
        """The use of a further connection."""
        made = Share(self)
        self.shares.add(made)
        return made

    def ask(self, rows: bytes, answered: Callable[[bytes, int], object]) -> None:
        """Has a turn of our own with these rows. Calls this with their lines, and with the version then, before a further turn begins."""
        own = Share(self)
        own.rows, own.is_awaited = rows, True
        own.give(None, lambda _: None)
        own.answered = lambda version: answered(own.text(), version)
        self.want(own)

    def want(self, share: Share) -> None:
        """Has a turn with its rows, once those that came before have had theirs."""
        self.queue.append(share)
        if self.turn is None:
            self.begin()

    def begin(self) -> None:
        """Begins the next turn, if there is one."""
        while self.queue and self.turn is None:
            share = self.queue.popleft()
            if share.rows or share.answered:  # else it has gone
                self.turn, rows, share.rows = share, share.rows, b""
                self.turns += 1
                self.send(share, rows)
                share.flush()
                if self.server.waiting:
                    self.server.wait(True)

    def send(self, share: Share, rows: bytes) -> None:
        """Sends rows of a turn, and a request of our own behind them."""
        row, self.reply = own_request()
        self.rows += len(ROW.findall(rows))
        self.own = {refused_row(self.rows): share.own} if share.own and rows.endswith(share.own) else {}
        self.rows += 1
        self.own[refused_row(self.rows)] = row
        self.server.write(rows + row)

    def send_again(self, share: Share) -> None:
        """Sends those requests of our own again that memory was refused to, behind which the turn ends."""
        rows, self.again = self.again, b""
        if not self.server.is_ended:
            self.send(share, rows)
            self.server.wait(True)

    def go_on(self, events: int = READ) -> None:
        if events & WRITE:
            self.server.flush()
        if events & READ:
            said = self.server.text()
            if self.server.is_ended:
                self.end()
            elif said:
                self.take(said)
        self.server.wait(True)

    def take(self, said: bytes) -> None:
        """Gives whole lines of the server to the one that has the turn, which ends with the reply to our own request."""
        share = self.turn
        if share is None:
            return
        said, is_refused = self.without_refusals(said)
        at = said.find(self.reply)
        if is_refused or at >= 0 and self.again:
            self.give(share, said if at < 0 else said[:at])
            self.loop.after(AGAIN, functools.partial(self.send_again, share))
            return
        if at < 0:
            self.give(share, said)
            return
        version, is_awaited = version_behind(said, at + len(self.reply)), share.is_awaited
        if not is_awaited:  # so the server goes on meanwhile
            self.turn = None
            self.begin()
        self.give(share, said[:at])
        if version > self.account.version:  # an exception has swallowed its line
            self.account.published(version)
        if share.answered:
            share.answered(version)
        if is_awaited:
            self.turn = None
            self.begin()

    def without_refusals(self, said: bytes) -> tuple[bytes, bool]:
        """Lines without those that refuse our own requests by memory, and whether the turn's last row is refused so."""
        if MEMORY not in said:
            return said, False
        *_, last = self.own
        lines = said.splitlines(keepends=True)
        for line in filter(self.own.__contains__, lines):
            self.account.log.say("warning", f"{line.decode().rstrip()}: a request of our own, which is sent again")
            self.again += b"" if line == last else self.own[line]
        return b"".join(line for line in lines if line not in self.own), last in lines

    def give(self, share: Share, said: bytes) -> None:
        if said:
            self.heard(share, said)
            share.said += said
        share.loop.call(share.call, READ if said else 0)

    def end(self) -> None:
        """The server has ended."""
        for share in tuple(self.shares):
            share.is_ended = True
            share.loop.call(share.call, READ)
