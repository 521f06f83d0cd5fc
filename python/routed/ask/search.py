"""Looks for the reasons of a request beside a loop: what the search wants to know is asked, and it begins again with all answers that it
has, until it wants no more."""
from __future__ import annotations

from collections.abc import Callable
from dataclasses import replace

from ..model.database import Database
from ..model.rows import Reply, Request
from .ask import ROUNDS, Answer, answered

MOST_ASKS = 1000  # of a search
Ask = Callable[[Request, Callable[["str | None"], object]], object]  # asks, and gives the line to a call


class Wanted(Exception):
    """A request has no answer yet."""

    def __init__(self, request: Request) -> None:
        super().__init__()
        self.request = request


class Search:
    """One search. `done` gets what it finds; None where no answer comes, or the version has changed too often."""

    def __init__(self, request: Request, ask: Ask, read: Callable[[int], Database], done: Callable[[Answer | None], object]) -> None:
        self.request, self.ask, self.read, self.done = request, ask, read, done
        self.known: dict[str, tuple[str, str, Reply]] = {}
        self.rounds, self.count = ROUNDS, 0

    def begin(self) -> None:
        """Answers of several versions don't come together here."""

    def answer(self, request: Request) -> tuple[str, str, Reply]:
        if (text := request.constraints()) not in self.known:
            raise Wanted(request)
        return self.known[text]

    def go_on(self) -> None:
        try:
            found = answered(self, self.request, True, self.read)
        except Wanted as wanted:
            self.count += 1
            if self.count > MOST_ASKS:
                self.done(None)
            else:
                request = wanted.request
                self.ask(request, lambda line: self.take(request, line))
        else:
            self.done(found)

    def take(self, request: Request, line: str | None) -> None:
        reply = Reply.parse(line or "")
        if line is None or reply is None:
            self.done(None)
            return
        if any(other.version != reply.version for _, _, other in self.known.values()):
            self.known.clear()
            self.rounds -= 1
        if not self.rounds:
            self.done(None)
            return
        self.known[request.constraints()] = replace(request, id=reply.id).text(), line, reply
        self.go_on()
