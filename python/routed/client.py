"""A client of `routed-tools listen`, for programs in Python."""
from __future__ import annotations

import contextlib
import re
from typing import TypeVar

from .model.database import Database
from .model.journals import read_snapshot
from .model.pairs import PairReply, row_of
from .model.rows import Refused, Reply, Request
from .net.direct import direct
from .net.endpoints import Endpoint
from .net.loop import Loop
from .net.stream import Lines, Stream

T = TypeVar("T", Reply, PairReply)
MOST_LINES = 40_000  # of a snapshot
VERSION, RUN = re.compile(r"version ([0-9]{1,20})"), re.compile(r"run ([0-9]{1,20})")


class Client:
    """Asks at one place of `routed-tools listen`, and waits for versions at another (--watch). A call blocks, for so many seconds at most.

    A call raises `Refused` with the server's line where that is no answer, `ConnectionError` where the connection ends, and
    `TimeoutError`. After that the client is to be closed."""

    def __init__(self, ask: str, watch: str | None = None, seconds: float = 60) -> None:
        self.version, self.asks = 0, asking(ask, seconds)  # the newest version that was told or named
        self.run: int | None = None  # the number of the run, once the place of versions has told it
        self.versions = connected(watch, seconds) if watch is not None else None

    def __enter__(self) -> Client:
        return self

    def __exit__(self, *_: object) -> None:
        self.close()

    def close(self) -> None:
        for connection in (self.asks, self.versions):
            if connection:
                connection.stream.close()

    def ask(self, request: Request) -> Reply:
        """The reply to a request. Its version is no older than one that this client, or any other, was told before."""
        return self.answer(request)[1]

    def answer(self, request: Request) -> tuple[str, Reply]:
        """The same, behind its line as it came."""
        line = self.line_to(request.text())
        return line, self.taken(request, line, Reply.parse(line))

    def pair(self, request: Request, kind: str) -> PairReply:
        """The reply to a request for two ways that share no circuit (kind `circuits`), or no router either (`routers`). A pair has neither
        hops nor what a request excludes. The server has to be started with --pairs."""
        line = self.line_to(row_of(request.id, request, kind))
        return self.taken(request, line, PairReply.parse(line))

    def line_to(self, row: str) -> str:
        """The line of a row."""
        self.asks.stream.write(f"{row}\n".encode())
        return self.asks.line()

    def taken(self, request: Request, line: str, reply: T | None) -> T:
        """The reply of a line, if it is one to this request."""
        if reply is None or reply.id != request.id:
            raise Refused(line)
        self.version = max(self.version, reply.version)
        return reply

    def wait(self, version: int) -> int:
        """Waits until this version is published, or a later one. The newest that is known."""
        while self.version < version:
            if self.versions is None:
                raise Refused("no place of versions was given")
            line = self.versions.line()
            if found := RUN.fullmatch(line):
                self.run = int(found[1])
                continue
            found = VERSION.fullmatch(line)
            if not found:
                raise Refused(line)
            self.version = max(self.version, int(found[1]))
        return self.version


def asking(place: str, seconds: float) -> Lines:
    """The lines of a place where clients ask: directly, if there is a place for that beside it."""
    loop, endpoint = Loop(), Endpoint(place)
    return Lines(loop, direct(loop, endpoint) or Stream(loop, endpoint.connect()), seconds)


def connected(place: str, seconds: float) -> Lines:
    """The lines of a place, each of which has to come within so many seconds."""
    loop = Loop()
    return Lines(loop, Stream(loop, Endpoint(place).connect()), seconds)


def ask_snapshot(place: str, seconds: float = 60) -> Database:
    """The database of a running server at its newest version, from its place of --show, or from that of updates."""
    connection = connected(place, seconds)
    with contextlib.closing(connection.stream):
        connection.stream.write(b"snapshot\n")
        lines = [connection.line()]
        while lines[-1] != "snapshot end":
            if not lines[0].startswith("version ") or len(lines) > MOST_LINES:
                raise Refused(lines[0])
            if not (line := connection.line()).startswith("held,"):  # a placement of a book
                lines.append(line)
    return read_snapshot("\n".join(lines).encode())
