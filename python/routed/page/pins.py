"""Asks that pages have pinned: each is asked again at each version, and has a history of its answers."""
from __future__ import annotations

import collections
import time
from typing import TYPE_CHECKING, Any

from ..ask.form import answer_of, found_of
from ..follow.again import Again
from ..model.rows import Refused, Reply, Request
from ..net.events import event_of

if TYPE_CHECKING:
    from .front import Front
    from .readers import Reader

MOST, EACH = 256, 32  # different pinned asks of all pages, and those of one
MOST_HISTORY = 20  # answers


class Pin:
    """A pinned ask: the pages that have it, what they are told of its newest answer, and how many of these there were."""

    def __init__(self, number: int, request: Request) -> None:
        self.number, self.request, self.readers, self.event, self.count = number, request, set["Reader"](), b"", 0
        self.history: collections.deque[dict[str, Any]] = collections.deque(maxlen=MOST_HISTORY)

    def told(self, front: Front, reply: Reply, line: str) -> None:
        """It has an answer."""
        found = {name: it for name, it in found_of(front.network, self.request, reply).items() if name != "hops"}
        if not self.history or {**self.history[-1], **found} != self.history[-1]:
            self.history.append({"since": reply.version, "at": time.time(), **found})
        told = {"pin": self.number, **answer_of(front.network, self.request, reply, line), "history": [*self.history]}
        self.event, self.count = event_of("pin", told), self.count + 1
        for reader in [*self.readers]:
            reader.tell()


class Pins:
    """All pinned asks. One that no page has any more stays, with its history, until another needs its place."""

    def __init__(self, front: Front) -> None:
        self.front, self.number = front, 0
        self.pins: dict[str, Pin] = {}  # by what stands behind a row's id
        self.again = Again(front.loop, front.ask, self.used, self.answered)

    def used(self) -> list[Request]:
        """What some page has pinned."""
        return [pin.request for pin in self.pins.values() if pin.readers]

    def answered(self, request: Request, line: str) -> None:
        pin, reply = self.pins.get(request.constraints()), Reply.parse(line)
        if pin and reply:
            pin.told(self.front, reply, line)
            if reply.version < self.front.version:  # its row was under way when that version came
                self.again.published()

    def pin(self, reader: Reader, request: Request) -> Pin:
        """Pins an ask for a page."""
        text = request.constraints()
        if len(reader.pins) >= EACH and self.pins.get(text) not in reader.pins:
            raise Refused(f"busy: a page pins at most {EACH} asks")
        if text not in self.pins:
            if len(self.pins) >= MOST:
                unused = next((text for text, pin in self.pins.items() if not pin.readers), None)
                if unused is None:
                    raise Refused(f"busy: all pages together pin at most {MOST} different asks")
                del self.pins[unused]
            self.number += 1
            self.pins[text] = Pin(self.number, request)
        pin = self.pins[text]
        pin.readers.add(reader)
        reader.pins.setdefault(pin, 0)
        self.again.add(request)
        return pin

    def leave(self, reader: Reader, number: int | None = None) -> None:
        """A page has this pin no more, or none at all."""
        for pin in [pin for pin in reader.pins if number in (None, pin.number)]:
            del reader.pins[pin]
            pin.readers.discard(reader)

    def forget(self) -> None:
        """A new run has begun: routes of the one before aren't compared with its own."""
        for pin in self.pins.values():
            pin.history.clear()
