"""Asks that are asked again at each version."""
from __future__ import annotations

import time
from collections.abc import Callable, Iterable
from typing import Optional

from ..model.rows import Request
from ..net.loop import Loop, Owner
from .slices import Form, Slices

APART = 0.5  # seconds from one time that all are asked to the next
RETRY = 1  # seconds until all are asked again, where one had no answer
Line = Callable[[Optional[str]], None]


class Again:
    """Has all that are `wanted` asked at each version, a few at a time, and the newest version alone where many come. `answered` gets each
    line; that of an ask may come more than once."""

    def __init__(self, loop: Loop, ask: Callable[[Request, Line, Optional[Owner]], object], wanted: Callable[[], Iterable[Request]],
                 answered: Callable[[Request, str], object]) -> None:
        self.loop, self.ask, self.wanted, self.answered, self.begun_at, self.is_due = loop, ask, wanted, answered, 0.0, False
        self.waiting: dict[str, Request] = {}  # by what stands behind a row's id
        self.next: dict[str, Request] = {}  # what is asked next, in the same way
        self.slices = Slices(loop, self.give)

    def named(self) -> str:
        return "what is asked again"

    def fail(self) -> None:
        """An exception ends nothing but one ask."""

    def add(self, request: Request) -> None:
        """Asks this one now."""
        self.waiting[request.constraints()] = request
        self.slices.add(self)

    def published(self) -> None:
        """Asks all, once some time has gone since they were asked last."""
        if not self.is_due:
            self.is_due = True
            self.loop.after(max(0, self.begun_at + APART - time.monotonic()), self.begin, self)

    def begin(self) -> None:
        self.is_due, self.begun_at = False, time.monotonic()
        for request in self.wanted():
            self.add(request)

    def take(self, request: Request, line: str | None) -> None:
        if line is None:
            self.loop.after(RETRY, self.published, self)
        else:
            self.answered(request, line)

    # ---- what is asked, a few at a time

    def whose(self) -> Owner:
        return self

    def has_more(self) -> bool:
        return bool(self.waiting)

    def following(self) -> Form:
        text = next(iter(self.waiting))
        request = self.next[text] = self.waiting.pop(text)
        return text, lambda line: self.take(request, line)

    def give(self, text: str, call: Line, owner: Owner | None) -> None:
        self.ask(self.next.pop(text), call, owner)
