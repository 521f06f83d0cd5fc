"""A server and its network together: each version is looked for in the journal, and each answer for the network of its version."""
from __future__ import annotations

import time
from collections.abc import Callable
from typing import Any

from ..ask.reasons import Moved
from ..model.database import Database
from ..model.rows import Reply, Request
from ..net.endpoints import Endpoint
from ..net.loop import Loop, Owner
from .equal import Equal
from .history import History, Words
from .network import LOOK_AGAIN
from .server import Server


class Follower:
    """The server's newest version, and the run and the version of the network that is shown: None until a run has one. Of what has changed
    a tool hears by `published`, `ended` and `settle`."""

    def __init__(self, loop: Loop, ask: Endpoint, watch: Endpoint, journal: str, words: Words) -> None:
        self.loop, self.journal, self.network = loop, journal, History(journal, words, self.say)
        self.server = Server(loop, ask, watch, self)
        self.server.asks.noted = self.settle
        self.equal = Equal(loop, self.server.asks, lambda: self.version)
        self.version, self.told_at, self.run, self.why = 0, 0.0, "", ""
        self.shown: tuple[int, int] | None = None
        self.is_looking = False

    # ---- what a tool hears

    def say(self, level: str, text: str) -> None:
        """A line of the log."""

    def published(self) -> None:
        """Another version is shown."""

    def ended(self) -> None:
        """The run has ended: versions of the next one are others."""

    def settle(self) -> None:
        """Anything may have changed, as the words of `fault`."""

    # ---- the server

    def begun(self, run: str) -> None:
        self.run = run

    def told(self, version: int) -> None:
        self.version, self.told_at = version, time.monotonic()
        self.look()

    def lost(self, why: str) -> None:
        self.version, self.shown, self.why, self.run = 0, None, why, ""
        self.network.begin()
        self.equal.forget()
        self.ended()
        self.settle()

    def look(self) -> None:
        """Follows the journal to the newest version; and looks again, after a while, where it isn't there."""
        if self.server.is_away:
            return
        is_there, shown = self.network.reach(self.version), self.shown
        self.shown = (self.network.times_begun, self.network.version) if is_there or self.network.version else None
        if self.shown and self.shown != shown:
            self.published()
        if self.network.tail and not is_there:
            self.network.look_elsewhere(self.network.tail)
        if not self.is_followed() and not self.is_looking:
            self.is_looking = True
            self.loop.after(LOOK_AGAIN, self.look_again)
        self.settle()

    def look_again(self) -> None:
        self.is_looking = False
        self.look()

    def is_followed(self) -> bool:
        return self.network.version == self.version and not self.network.is_doubted

    def fault(self) -> str:
        """What is wrong, in words; empty where nothing is."""
        if self.server.is_away:
            return f"{self.why or 'there is no server yet'}: what is shown may be old"
        if self.network.version != self.version:
            return f"{self.journal}: version {self.version} isn't there, so what is shown is old"
        if self.network.is_doubted:
            return f"{self.journal}: it isn't the journal of the server that is asked"
        return "the server is busy: it has no place for these asks" if self.server.asks.is_busy else ""

    def state(self) -> dict[str, Any]:
        return {"there": not self.server.is_away, "journal": self.is_followed(), "words": self.fault(),
                "run": int(self.run) if self.run.isdigit() else None}

    # ---- asks

    def ask(self, request: Request, call: Callable[[str | None], object], owner: Owner | None) -> None:
        """Asks the server, and follows the network to the version of its answer. Equal asks are asked once at a version."""
        def answered(line: str | None) -> None:
            reply = Reply.parse(line or "")
            if reply:
                self.take(request, reply)
            call(line)

        self.equal.ask(request.constraints(), answered, owner)

    def take(self, request: Request, reply: Reply) -> None:
        if reply.version > self.version:
            self.told(reply.version)
        was = self.network.is_doubted
        if not reply.why and reply.version == self.network.version:
            self.network.follows(request, reply)
        if was != self.network.is_doubted:
            self.look()

    def database_at(self, version: int) -> Database:
        if version != self.network.version:
            raise Moved
        return self.network
