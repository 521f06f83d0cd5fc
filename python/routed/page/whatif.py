"""What pinned asks are answered without some circuits and routers: by a `routed solve` of the page's own. Nothing reaches the server."""
from __future__ import annotations

import time
from collections.abc import Callable
from typing import TYPE_CHECKING, Any

from ..ask.form import found_of, name_of
from ..model.journals import in_batches
from ..model.rows import Refused, Reply
from ..sweep.beside import Beside, links_out
from .pins import Pin

if TYPE_CHECKING:
    from .front import Front
    from .readers import Reader

IDLE, SECONDS = 60, 20  # until the program ends that nobody uses, and until it has to have answered
MOST_ROWS = 500_000  # of a program, behind which another one is started
Call = Callable[[dict[str, Any]], object]


class WhatIf:
    """The program, whose it is, and what waits for its answer."""

    def __init__(self, front: Front) -> None:
        self.front, self.used_at = front, 0.0
        self.shown: tuple[int, int] | None = None  # the run and the version of its network
        self.solve: Beside | None = None
        self.reader: Reader | None = None
        self.call: Call | None = None

    def ask(self, reader: Reader, circuits: list[str], routers: list[str], call: Call) -> None:
        """Gives `call` what a page's pinned asks are answered without these. Without any the program is given back."""
        if self.reader not in (None, reader) or self.call:
            raise Refused("busy: another page tries what would be, or an answer isn't there yet; it is free within a minute")
        links, version, pins = links_out(self.front.network, circuits, routers), self.front.network.version, [*reader.pins]
        if not links:
            self.leave(reader)
            call({"version": version, "out": [], "pins": []})
            return

        def compared(replies: list[tuple[Reply, Reply]]) -> None:
            self.answer({"version": version, "out": [name_of(key) for key in links],
                         "pins": [self.effect(pin, *them) for pin, them in zip(pins, replies)]})

        solve = self.begin()
        self.reader, self.call = reader, call
        solve.compare(links, [pin.request for pin in pins], compared)

    def begin(self) -> Beside:
        """A program on the newest version."""
        if self.solve and (self.shown != self.front.shown or self.solve.rows > MOST_ROWS):
            self.end()
        self.used_at = time.monotonic()
        self.front.loop.after(SECONDS, self.look)
        if self.solve is None:
            rows, _ = in_batches(self.front.network.now())
            self.solve, self.shown = Beside(self.front.loop, self.front.program, rows, self.stopped), self.front.shown
        return self.solve

    def effect(self, pin: Pin, one: Reply, other: Reply) -> dict[str, Any]:
        """What becomes of a pinned ask."""
        if other.why:
            effect = "none" if one.why else "lost"
        else:
            effect = "longer" if other.cost > one.cost else "same" if other.fars == one.fars else "other"
        return {"pin": pin.number, "effect": effect, "before": found_of(self.front.network, pin.request, one),
                "after": found_of(self.front.network, pin.request, other)}

    def answer(self, found: dict[str, Any]) -> None:
        call, self.call = self.call, None
        self.used_at = time.monotonic()
        self.front.loop.after(IDLE, self.look)
        if call:
            call(found)

    def look(self) -> None:
        """Ends a program that is late, or that nobody has used."""
        since = time.monotonic() - self.used_at
        if self.solve and since >= (SECONDS if self.call else IDLE):
            self.stopped(f"it hasn't answered in {SECONDS} s")

    def stopped(self, why: str) -> None:
        """Ends the program, which is anybody's then."""
        self.end()
        self.reader = None
        self.answer({"refused": why})

    def leave(self, reader: Reader) -> None:
        """A page doesn't use it any more."""
        if self.reader is reader:
            self.stopped("the page has gone")

    def end(self) -> None:
        if self.solve:
            self.solve.close()
            self.solve = None
