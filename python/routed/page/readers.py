"""A page, and what it was told of: each thing once, and the newest of it alone where it is read late."""
from __future__ import annotations

import time
from typing import TYPE_CHECKING

from ..net.events import EventStream, event_of
from ..net.stream import Stream
from .pins import EACH, Pin

if TYPE_CHECKING:
    from .front import Front

BEHIND = 4  # versions that are told one by one; where more were missed the whole network is told


class Reader:
    """One page, by its name and its connection for events, with the asks that it has pinned, and how many answers of each it was told."""

    def __init__(self, front: Front, name: str, stream: Stream) -> None:
        self.front, self.name, self.events = front, name, EventStream(stream, self.following, self.ended)
        self.is_greeted, self.state, self.picture, self.has_changes = False, "", "", True
        self.shown: tuple[int, int] | None = None  # the run and the version
        self.pins: dict[Pin, int] = {}

    def tell(self) -> None:
        self.events.stream.loop.call(self.events.tell)

    def following(self) -> bytes:
        """The next event; nothing where all is told."""
        front = self.front
        if not self.is_greeted:
            self.is_greeted = True
            return event_of("hello", {"page": self.name, "names": front.names.names, "pins": EACH,
                                      "groups": {name: bit for bit, name in front.groups.names.items()}})
        if self.state != front.state_told:
            self.state = front.state_told
            return event_of("server", self.state)
        if front.shown and self.shown != front.shown:
            return self.changed(front.shown)
        if not self.has_changes:
            self.has_changes = True
            kept = [{"version": one.number, "at": one.at, "words": one.words} for one in front.network.kept]
            return event_of("changes", {"versions": kept})
        if self.picture is not front.picture:
            self.picture = front.picture
            return event_of("picture", self.picture)
        for pin, count in self.pins.items():
            if count != pin.count:
                self.pins[pin] = pin.count
                return pin.event
        return b""

    def changed(self, newest: tuple[int, int]) -> bytes:
        """The next version, or the whole network where too many were missed, or a new run has begun."""
        (run, version), (was_run, was) = newest, self.shown or (-1, 0)
        front = self.front
        following = front.network.of(was + 1) if run == was_run and version - was <= BEHIND else None
        self.shown, self.has_changes = (run, was + 1) if following else newest, self.has_changes and following is not None
        if run == was_run and not following:
            front.figures.add("routed_page_versions_skipped_total", version - was - 1)
        if run == was_run and self.shown == newest:
            front.figures.take("routed_page_event_seconds", time.monotonic() - front.told_at)
        return front.once("version", following.number, following.value) if following else front.network_event()

    def ended(self) -> None:
        self.front.left(self)
