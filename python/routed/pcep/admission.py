"""Which connections get a session: those of allowed addresses, one of an address, and so many at once."""
from __future__ import annotations

import ipaddress
from typing import TYPE_CHECKING

from ..net.endpoints import Stopped, tried
from ..net.stream import Stream
from . import wire
from .keys import keys

if TYPE_CHECKING:
    from .front import Front

RETURNING, LOOK = 3, 0.05  # seconds in which an old connection has to answer TCP, and from one look at it to the next
REASONS = {"address": "its address isn't allowed", "key": "it has no key", "full": "no session is free",
           "second": "it has a session already"}


class Admission:
    """What the options say of addresses, and the connections whose address has a session."""

    def __init__(self, front: Front) -> None:
        self.front, self.options = front, front.options
        self.allowed = prefixes(self.options.allow)
        self.keys = dict(keys(self.options.keys))
        self.returning: dict[str, Returning] = {}
        front.figures.counter("routed_pcep_turned_away_total", "Connections that got no session, by the reason.", "reason", REASONS)

    def read_again(self) -> None:
        """The file of --allow, again; one that can't be read changes nothing. Sessions that are up go on."""
        try:
            self.allowed = prefixes(self.options.allow)
        except Stopped as fault:
            self.front.say("error", f"{fault}; what was allowed before stays")

    def take(self, stream: Stream) -> None:
        peer, _ = stream.peer()
        if not isinstance(peer, str):  # it has gone already
            stream.close()
        elif self.allowed is not None and not any(ipaddress.IPv4Address(peer) in prefix for prefix in self.allowed):
            self.turn_away(stream, peer, "address")
        elif self.options.require_keys and peer not in self.keys:
            self.turn_away(stream, peer, "key")
        elif peer in self.front.pccs and peer not in self.returning:
            self.returning[peer] = Returning(self, stream, peer)
        elif peer in self.front.pccs:
            self.refuse_second(stream, peer)
        elif not self.has_room():
            self.turn_away(stream, peer, "full", wire.close(1))
        else:
            self.front.begin(stream, peer)

    def has_room(self) -> bool:
        """Whether a session is free. A PCC that isn't read now may have gone: such sessions are looked for first."""
        if len(self.front.pccs) >= self.options.pccs:
            for pcc in [*self.front.pccs.values()]:
                pcc.loop.call(pcc.look)
        return len(self.front.pccs) < self.options.pccs

    def refuse_second(self, stream: Stream, peer: str) -> None:
        self.front.count("errors", "9/1")
        self.turn_away(stream, peer, "second", wire.error(9, 1))

    def turn_away(self, stream: Stream, peer: str, reason: str, last: bytes = b"") -> None:
        """Ends a connection by its last bytes, or without a byte."""
        self.front.say("warning", f"{peer}: {REASONS[reason]}")
        self.front.count("turned_away", reason)
        stream.leave(last)


class Returning:
    """A connection of a PCC that has a session, until the old connection has answered TCP, or has turned out to be gone."""

    def __init__(self, admission: Admission, stream: Stream, peer: str) -> None:
        self.admission, self.front, self.stream, self.peer = admission, admission.front, stream, peer
        self.until, self.loop = self.front.clock() + RETURNING, self.front.loop.of(self)
        stream.give(self, lambda _: None)
        self.front.pccs[peer].probe()
        self.loop.after(LOOK, self.look)

    def named(self) -> str:
        return self.peer

    def look(self) -> None:
        old = self.front.pccs.get(self.peer)
        is_alive = old and old.is_alive()
        if old and is_alive is None and self.front.clock() < self.until:
            self.loop.after(LOOK, self.look)
            return
        del self.admission.returning[self.peer]
        if self.peer in self.front.pccs:
            self.admission.refuse_second(self.stream, self.peer)
        else:
            self.admission.take(self.stream)

    def fail(self) -> None:
        self.admission.returning.pop(self.peer, None)
        self.stream.close()


def prefixes(path: str | None) -> list[ipaddress.IPv4Network] | None:
    """The prefixes of a file, one in a line; None without a file."""
    if path is None:
        return None
    with tried(f"{path}: read"):
        with open(path, encoding="utf-8") as file:
            lines = file.read().splitlines()
    found = []
    for number, line in enumerate(lines, 1):
        if line.strip() and not line.startswith("#"):
            try:
                found.append(ipaddress.IPv4Network(line.strip()))
            except ValueError:
                raise Stopped(f"{path}: line {number} is no IPv4 prefix, whose bits behind its length are 0") from None
    return found
