"""Follows a book by its rows and the lines of `routed book` (docs/run/FORMATS.md): the base, the placements, and what they leave."""
from __future__ import annotations

import sys
from collections.abc import Container, Iterator
from dataclasses import dataclass, replace

from .database import Database
from .journals import records
from .rows import FIELDS, OF_BOOK, Batch, Key, Link, Refused, Reply, Request

PRIORITIES = 8
CHANGES = ("put", "drop", "node")


@dataclass(frozen=True)
class Step:
    """A link of the route of a held row: where it begins, and the router that it leads to. No more is known of it."""

    router: str
    local: str
    neighbor: str

    @property
    def key(self) -> Key:
        return self.router, self.local


@dataclass(frozen=True)
class Placement:
    """A tunnel: its request, whose setup priority is the holding priority, and the links and the cost of its route as it was placed. The
    row of a tunnel that was restored has no cost."""

    request: Request
    links: tuple[Link | Step, ...]
    cost: int | None


class Book:
    """A book after each row, whose lines are given in turn."""

    def __init__(self) -> None:
        self.base, self.version = Database(), 0
        self.placements: dict[int, Placement] = {}
        self.unplaced: dict[int, Request] = {}  # the last place or held row of an id had no route or was refused, and nothing is placed
        self.refused: list[str] = []  # lines
        self.changes: list[list[str]] = []

    def take(self, number: int, fields: list[str], lines: Iterator[str]) -> None:
        """Takes the row of this number. `lines` gives the lines from its own first one on, if it has any."""
        if fields[0] in CHANGES:
            self.changes.append(fields)  # a refused one is taken away by `refuse`
            return
        line = next(lines, None)
        while line is not None and line.startswith(("over ", "lost ")):
            line = next(lines, None)
        if line is None:
            raise Refused(f"row {number} has no line: these aren't the lines of this book")
        if " refused: " in line:
            self.refused.append(line)
        if fields[0] == "end":
            rows, self.changes = [*self.changes, fields], []
            if line.startswith("base "):
                self.base.apply(Batch.parse(rows))
                self.version = int(line.rpartition(" v")[2])
        elif fields[0] == "place" and not line.startswith("row "):
            self.place(Request.parse(fields), Reply.parse(line))
        elif fields[0] == "held" and not line.startswith("row "):
            self.restore(Request.parse(fields[:-1]), fields[-1], line)
        elif fields[0] == "release" and line.startswith("released "):
            del self.placements[int(fields[1])]
            self.version = int(line.rpartition(" v")[2])

    def place(self, request: Request, reply: Reply | None) -> None:
        if reply and reply.why is None:
            self.add(Placement(request, tuple(self.walk(request, reply)), reply.cost), reply.version)
        elif request.id not in self.placements:
            self.unplaced[request.id] = request

    def restore(self, request: Request, route: str, line: str) -> None:
        """Takes a held row by its line, which has no route: that is in the row."""
        if line.startswith(f"held {request.id} v"):
            self.add(Placement(request, tuple(steps_of(request.head, route)), None), int(line.rpartition(" v")[2]))
        elif request.id not in self.placements:
            self.unplaced[request.id] = request

    def add(self, placement: Placement, version: int) -> None:
        self.version = version
        self.placements[placement.request.id] = placement
        self.unplaced.pop(placement.request.id, None)

    def walk(self, request: Request, reply: Reply, out: Container[Key] = ()) -> Iterator[Link]:
        """The links of a route in the base as it is now, of which some are out in both directions."""
        at, any_rate = request.head, replace(request, bandwidth=0)
        for count, far in enumerate(reply.fars):
            links = [link for link in self.base.usable(at, far, any_rate, count > 0) if link.key not in out]
            if len(links) > 1:
                raise Refused(f"{links[0].neighbor} and {links[1].neighbor} have the same address {far}, seen from {at}")
            if not links:
                raise Refused(f"the base has no link from {at} to {far}: these aren't the lines of this book")
            yield links[0]
            at = links[0].neighbor

    def is_lost(self, placement: Placement) -> bool:
        """Whether the base doesn't admit the route, whatever the bandwidths."""
        request = replace(placement.request, bandwidth=0)
        for count, old in enumerate(placement.links):
            link = self.present(old)
            if link is None or self.base.why_not(link, request, count > 0):
                return True
        return False

    def present(self, old: Link | Step) -> Link | None:
        """The link of the base with the key of a link of a route, if it leads to the same router."""
        link = self.base.rows.get(old.key)
        return link if isinstance(link, Link) and link.neighbor == old.neighbor else None

    def cost(self, placement: Placement) -> int | None:
        """What a route cost when it was placed. That of a tunnel that was restored costs what it does in the base, None where the base
        doesn't have each of its links."""
        if placement.cost is not None:
            return placement.cost
        metrics = [link.metric for link in map(self.present, placement.links) if link]
        return sum(metrics) if len(metrics) == len(placement.links) else None

    def counted(self) -> dict[Key, list[int]]:
        """What placements take of each link, at each priority."""
        sums: dict[Key, list[int]] = {}
        for placement in self.placements.values():
            for link in placement.links:
                held = sums.setdefault(link.key, [0] * PRIORITIES)
                for priority in range(placement.request.setup, PRIORITIES):
                    held[priority] += placement.request.bandwidth
        return sums


def steps_of(head: str, route: str) -> Iterator[Step]:
    """The links of the field `route` of a held row that `routed` takes. Each has 16 hexadecimal digits."""
    data = bytes.fromhex(route)
    for at in range(0, len(data), 8):
        local, neighbor = (".".join(map(str, data[begin:begin + 4])) for begin in (at, at + 4))
        yield Step(head, local, neighbor)
        head = neighbor


def left_of(link: Link, held: list[int]) -> list[int]:
    """What a link of the base has left at each priority: the least of what it has left at this one and at more important ones."""
    found: list[int] = []
    for unreserved, taken in zip(link.unreserved, held):
        found.append(min([max(0, unreserved - taken), *found[-1:]]))
    return found


def follow(rows: bytes, lines: list[str]) -> Book:
    """The book that rows make, by all their lines."""
    book, told = Book(), iter(lines)
    coming = next(told, None)

    def rest() -> Iterator[str]:
        nonlocal coming
        while coming is not None:
            line, coming = coming, next(told, None)
            yield line

    for number, fields in enumerate(records(rows), 1):
        if coming is not None and coming.startswith(f"row {number} refused: "):
            book.refused.append(next(rest()))
        elif fields[0] in (*FIELDS, *OF_BOOK):
            book.take(number, fields, rest())
        else:
            raise Refused(f"row {number} has no line: these aren't the lines of this book")
    book.refused += [line for line in rest() if not line.startswith("version ")]
    return book


def read_rows(paths: list[str]) -> bytes:
    """The rows of some files, one after the other; - is standard input. A file whose last row has no line feed gets one."""
    parts = []
    for path in paths:
        if path == "-":
            parts.append(sys.stdin.buffer.read())
        else:
            with open(path, "rb") as file:
                parts.append(file.read())
    return b"".join(part if not part or part.endswith(b"\n") else part + b"\n" for part in parts)
