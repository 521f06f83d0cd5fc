"""The places of a running server: what it is asked at one, and its versions at another. Whenever they end they are connected to again."""
from __future__ import annotations

from collections.abc import Callable
from typing import Protocol

from ..net.endpoints import Endpoint
from ..net.loop import Loop
from .asks import AGAIN, SECONDS, Asks
from .versions import Watch


class Hearer(Protocol):
    """Who hears of the server."""

    def say(self, level: str, text: str) -> None:
        """Writes a line of the log."""

    def begun(self, run: str) -> None:
        """The server has said which run it is. A run that was given no number has a longer name."""

    def told(self, version: int) -> None:
        """A version is published. The newest alone is told where several are."""

    def lost(self, why: str) -> None:
        """The server is gone. One that comes may begin again from version 0."""


class Server:
    """The connections to a server. The run that answers is known before it is asked. Without a place of versions nothing tells it, and
    `lost` is where a connection for asks ends."""

    def __init__(self, loop: Loop, ask: Endpoint, watch: Endpoint | None, hearer: Hearer, count: int = 1, seconds: float = SECONDS,
                 is_held: Callable[[], bool] = lambda: False) -> None:
        self.loop, self.place, self.hearer, self.is_held = loop, watch, hearer, is_held
        self.asks = Asks(loop, ask, count, self.cut_off, seconds)
        self.watch: Watch | None = None
        self.is_away = True

    def connect(self) -> None:
        """Connects, and tries again until the places are there."""
        try:
            self.watch = Watch(self, self.place, self.is_held()) if self.place else None
        except OSError:
            self.unreached()
            return
        if self.watch is None:
            self.reached()

    def reached(self) -> None:
        """The server is there."""
        self.is_away = False
        if not self.place:  # else it is known first which run answers
            self.asks.open()

    def unreached(self) -> None:
        """The server isn't there yet."""
        if self.watch:
            self.watch.close()
        self.loop.after(AGAIN, self.connect)

    def answers(self) -> None:
        """The place of versions has told something, and which run it is of if that has a number."""
        self.asks.open()

    def begun(self, run: str) -> None:
        self.hearer.begun(run)

    def told(self, version: int) -> None:
        self.hearer.told(version)

    def cut_off(self) -> None:
        """A connection for asks has ended: with the server, or because it was idle. A place of versions says which."""
        if not self.place:
            self.lost()

    def lost(self, why: str = "the server has ended", after: float = AGAIN) -> None:
        if self.is_away:
            return
        self.is_away = True
        self.hearer.say("warning", f"{why}: connecting again")
        self.asks.close()
        if self.watch:
            self.watch.close()
        self.hearer.lost(why)
        self.loop.after(after, self.connect)
