"""The place where the server tells versions."""
from __future__ import annotations

import re
from typing import TYPE_CHECKING

from ..net.endpoints import CONNECT, Endpoint
from ..net.loop import READ, WRITE

if TYPE_CHECKING:
    from .server import Server

LATE_AGAIN = 1  # seconds from one try to connect to the next where the place has no room, or tells something else
LONGEST = 100  # bytes of a line that has no end yet
RUN = 2  # seconds in which the place says which run it is of; versions are told behind that
VERSION = re.compile(rb"version ([0-9]{1,20})")
RUN_LINE = re.compile(rb"run ([0-9a-f]{1,64})")


class Watch:
    """A connection that tells versions and, where it is held, which run of the server they are of before that. The server hears of it
    once it is connected."""

    def __init__(self, server: Server, place: Endpoint, is_held: bool) -> None:
        self.server, self.stream, self.is_there = server, place.begin(server.loop), False
        self.stream.give(self, self.go_on)
        self.version: int | None = None  # that isn't told yet
        self.is_held = is_held
        self.is_new = True  # no line has come
        self.stream.wait(True)
        if not self.stream.is_made:
            self.stream.loop.after(CONNECT, self.give_up)

    def named(self) -> str:
        return "the connection for versions"

    def fail(self) -> None:
        if self.is_there:
            self.server.lost("the connection for versions has ended")
        else:
            self.server.unreached()

    def give_up(self) -> None:
        if not self.stream.is_made and not self.stream.is_closed:
            self.server.unreached()

    def go_on(self, events: int) -> None:
        if events & WRITE:
            self.stream.flush()
        if not self.stream.is_made:
            if self.stream.is_ended:
                self.server.unreached()
            return
        if not self.is_there:
            self.is_there = True
            self.server.reached()
            if self.is_held:
                self.stream.write(b"run\n")
                self.stream.loop.after(RUN, self.release)
            self.stream.wait(True)
        if events & READ:
            self.read()

    def read(self) -> None:
        lines = self.stream.lines()
        for found in filter(None, map(RUN_LINE.fullmatch, lines)):
            self.server.begun(found[1].decode())
            self.is_held = False
        if self.is_new and lines and lines[0] != b"busy":
            self.is_new = False  # a run that has a number has said it
            self.server.answers()
        lines = [line for line in lines if not RUN_LINE.fullmatch(line)]
        versions = [int(found[1]) for found in map(VERSION.fullmatch, lines) if found]
        if self.stream.is_ended:
            self.server.lost()
        elif b"busy" in lines:
            self.server.lost("the place of versions is busy", LATE_AGAIN)
        elif len(versions) < len(lines) or len(self.stream.unread) > LONGEST:
            self.server.lost("the place of versions tells something else", LATE_AGAIN)
        else:
            self.tell(versions)

    def tell(self, versions: list[int]) -> None:
        """Tells the newest version, once the run is known."""
        self.version = versions[-1] if versions else self.version
        if self.version is not None and not self.is_held:
            version, self.version = self.version, None
            self.server.told(version)

    def release(self) -> None:
        """A server that doesn't say which run it is."""
        if self.is_held and not self.stream.is_closed:
            self.is_held = False
            self.tell([])

    def close(self) -> None:
        self.stream.close()
