"""Feeds a network to `routed` as it is and as it changes, by BGP-LS (RFC 9552), from a router or a route reflector.

The feed is a BGP speaker that announces nothing. It connects to the peer, or waits for the peer where --listen is given.
Where rows go, and what the other options are, is as for the feed from OSPF. docs/run/FEED.md has what is taken from where.
"""
from __future__ import annotations

import argparse
import functools
import ipaddress
import socket
import time

from ...net.endpoints import Door, Endpoint, tried
from ...net.loop import Stopped
from ...net.stream import Stream
from ...pcep.keys import keys, set_key
from ...program import number
from ..feed import Hearing, Lost, Session, options, run
from .lsdb import PROTOCOLS, Lsdb
from .messages import HEADER, KEEPALIVE, NOTIFICATION, OPEN, UPDATE, Fault, accepted, front, message, opening, update_of

OPENING = 30.0  # seconds that the peer has for its Open
TICK = 1.0  # seconds from one look at the timers to the next
SHUTDOWN, COLLISION = message(NOTIFICATION, bytes([6, 2])), message(NOTIFICATION, bytes([6, 7]))  # RFC 4486
CODES = {1: "message header", 2: "Open", 3: "Update", 4: "hold timer expired", 5: "state", 6: "cease"}
OUT_OF_TURN = {OPEN: 1, KEEPALIVE: 2, UPDATE: 3}  # subcodes (RFC 6608), by the message that has to come


class Peer(Session):
    """A session with a BGP speaker."""

    other, last = "the peer", SHUTDOWN

    def __init__(self, asked: argparse.Namespace, feed: Hearing) -> None:
        self.lsdb = Lsdb(asked)
        super().__init__(asked, feed, self.lsdb.network, (HEADER, front), self.message)
        self.peer_as = asked.peer_as or asked.number
        self.door: Door | None = None
        self.wanted = OPEN  # the message that has to come; UPDATE once the session is up
        self.hold, self.width, self.heard_at, self.sent_at, self.identifier = OPENING, 4, 0.0, 0.0, b""
        if asked.key and not asked.secret:
            asked.secret = dict(keys(asked.key)).get(asked.peer.address[0])
            if not asked.secret:
                raise Stopped(f"--key {asked.key}: it has no key of {asked.peer.address[0]}")
        if asked.listen:
            listener = asked.listen.bind(0o600)
            self.use_key(listener)
            self.door = Door(feed.loop, listener, self.let_in)
        else:
            self.begin(asked.peer.begin(feed.loop, self.use_key))

    def use_key(self, made: socket.socket) -> None:
        """From now on the peer has to use the key of TCP-MD5, if there is one."""
        with tried("--key"):
            if self.asked.secret:
                set_key(made, self.asked.peer.address[0], self.asked.secret)

    def close(self, last: bytes | None = None) -> None:
        super().close(last)
        if self.door:
            self.door.shut()
            self.door.listener.close()

    def let_in(self, stream: Stream) -> None:
        if stream.peer()[0] != self.asked.peer.address[0]:
            stream.close()
        elif self.streams:
            stream.hang_up(COLLISION)
        else:
            self.begin(stream)

    def begin(self, stream: Stream) -> None:
        assert stream.socket
        self.heard_at = time.monotonic()
        self.watch(stream)
        self.identifier = self.asked.id.packed if self.asked.id else socket.inet_aton(stream.socket.getsockname()[0])
        self.send(opening(self.asked.number, self.identifier))
        self.feed.loop.after(0, functools.partial(self.go_on, stream, 0), self)  # which sees a connection that is refused
        self.feed.loop.after(TICK, self.tend, self)

    def send(self, data: bytes) -> None:
        self.sent_at = time.monotonic()
        self.streams[0].write(data)
        self.streams[0].wait(True)

    def tend(self) -> None:
        """Sends a Keepalive when it is time, and looks whether the peer does."""
        now = time.monotonic()
        if not self.streams:
            return
        if now >= self.heard_at + self.hold:
            self.feed.lose(Fault(4, 0, f"the peer was silent for {self.hold:g} s"))
            return
        if self.wanted == UPDATE and now >= self.sent_at + self.hold / 3 and not self.streams[0].waiting:
            self.send(message(KEEPALIVE))
        self.feed.loop.after(min(TICK, self.heard_at + self.hold - now), self.tend, self)

    def message(self, kind: int, body: bytes) -> bool | None:
        """Takes a message."""
        self.heard_at = time.monotonic()
        if kind == NOTIFICATION:
            raise Lost(f"the peer ended the session by Notification {body[0]}/{body[1]}, {CODES.get(body[0], 'unknown')}", last=b"")
        if kind != self.wanted and (kind, self.wanted) != (KEEPALIVE, UPDATE):
            raise Fault(5, OUT_OF_TURN[self.wanted], f"a message of kind {kind} out of turn")
        if kind == UPDATE:
            update = update_of(body, self.width, self.peer_as == self.asked.number)
            has_changed = self.lsdb.take(update)
            if update.is_end:
                self.feed.complete()
            return has_changed
        if kind == OPEN:
            self.hold, self.width = accepted(body, self.peer_as, self.asked.number, self.identifier)
            self.wanted = KEEPALIVE
            self.send(message(KEEPALIVE))
        elif self.wanted == KEEPALIVE:
            self.wanted = UPDATE
            self.feed.up(self)
        return None


def place(text: str) -> Endpoint:
    """An IPv4 address, and a port that is 179 where none is given."""
    found = Endpoint(text if ":" in text else f"{text}:179")
    if not found.port or not ipaddress.IPv4Address(found.address[0]):
        raise ValueError
    return found


def main(words: list[str] | None = None) -> int:
    """Takes the words of a command line, and answers the status."""
    asked = argparse.ArgumentParser(prog="routed-tools feed bgpls", description=__doc__.split("\n\n")[0])
    asked.add_argument("--peer", type=place, required=True, metavar="ADDRESS[:PORT]", help="the router or route reflector (port 179)")
    asked.add_argument("--as", type=number("number", 1, 2**32 - 1), required=True, dest="number", metavar="N", help="the feed's own AS")
    asked.add_argument("--peer-as", type=number("number", 1, 2**32 - 1), metavar="N", help="the peer's AS, if it is another one")
    asked.add_argument("--id", type=ipaddress.IPv4Address, metavar="ADDRESS", help="its BGP identifier (its address towards the peer)")
    asked.add_argument("--key", metavar="FILE", help="lines `ADDRESS KEY`; the peer's line has the key of TCP-MD5 (RFC 2385)")
    asked.add_argument("--listen", type=place, metavar="ADDRESS[:PORT]", help="wait there for the peer, and don't connect to it")
    asked.add_argument("--protocol", choices=PROTOCOLS, help="take links and nodes of this protocol alone")
    asked.add_argument("--instance", type=number("number", 0, 2**64 - 1), metavar="N", help="take links and nodes of this instance alone")
    asked.add_argument("--unreserved", choices=["announced", "maximum"], default="announced",
                       help="maximum: take the maximum bandwidth of links, from which no router takes away what is reserved")
    asked.add_argument("--quiet", type=number("seconds", 0, 86400, float), metavar="S",
                       help="seconds without an Update after which all has been told (2)")
    asked.add_argument("--most", type=number("number", 1, 2**20), default=65536, metavar="N",
                       help="nodes and links that the peer may announce")
    options(asked, where="{0.peer.address[0]} port {0.peer.address[1]}", quiet=2.0, secret=None)
    return run("bgpls", asked, words, Peer)
