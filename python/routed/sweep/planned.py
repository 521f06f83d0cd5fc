"""What failures do to the tunnels of a book, by `routed book`: which lose their route, and which find another one.

Each scenario is a run of `routed book` over the rows that were accepted of the book, a batch that drops the links that are out, and the
tunnels that lose their route, which are placed again one after the other, that of the last `lost` line first.
"""
from __future__ import annotations

import os
import tempfile
from collections.abc import Container, Iterable

from ..model.books import PRIORITIES, follow, left_of
from ..model.journals import in_batches
from ..model.rows import MOST_CHANGES, Drop, Key, Link, Refused, Reply, Request, rank
from .failures import Outcome, Part, circuits_of, routers_of
from .ranking import TUNNELS
from .solving import Stopped, checked, run

WORST = PRIORITIES - 1  # the priority at which all tunnels count, and at which they are placed
NOTHING = [0] * PRIORITIES


class Planned:
    """A book. `requests` has what its placements ask for, in the order of their ids."""

    words = TUNNELS

    def __init__(self, program: str, rows: bytes) -> None:
        self.program = program
        with tempfile.TemporaryDirectory() as room:
            path = os.path.join(room, "kept")
            whole = follow(rows, run(program, ["book", "--keep", path], rows, may_refuse=True))
            if whole.refused:
                raise Refused(f"the book: {whole.refused[0]}")
            with open(path, "rb") as file:
                self.kept = file.read()
        self.lines = run(program, ["book"], self.kept)
        self.book = follow(self.kept, self.lines)
        self.database, self.unplaced = self.book.base, [request for _, request in sorted(whole.unplaced.items())]
        self.links = {link.key: link for link in self.database.links()}
        self.batches = sum(line.startswith("base ") for line in self.lines)
        self.placements = [placement for _, placement in sorted(self.book.placements.items())]
        self.requests = [placement.request for placement in self.placements]
        self.lost = {placement.request.id for placement in self.placements if self.book.is_lost(placement)}
        self.costs = [self.book.cost(placement) or 0 for placement in self.placements]  # a tunnel without a cost is lost already
        self.users: dict[Key, set[int]] = {}  # by a link or its reverse, the indexes of the tunnels with a route over it
        for index, placement in enumerate(self.placements):
            for old in placement.links if placement.request.id not in self.lost else ():
                for key in (old.key, self.links[old.key].back):  # the link may have another address at its far end than it had
                    self.users.setdefault(key, set()).add(index)
        self.counted = self.book.counted()
        self.least = min((request.bandwidth for request in (*self.requests, *self.unplaced) if request.bandwidth), default=1)
        self.full = {key for key in self.links if self.left(key, self.counted.get(key, NOTHING)) < self.least}

    def asked(self) -> dict[Key, int]:
        """What all tunnels take of each link."""
        return {key: held[WORST] for key, held in self.counted.items()}

    def left(self, key: Key, held: list[int]) -> int:
        """What a link has left for a tunnel. It is full where this is less than the smallest tunnel of the book needs."""
        return left_of(self.links[key], held)[WORST]

    def touches(self, part: Part) -> bool:
        """Whether a tunnel has a route over what fails."""
        return any(key in self.users for key in part.keys)

    def fact(self, key: Key, held: list[int]) -> str:
        link = self.links[key]
        return f"full {link.name} unreserved={link.unreserved[WORST]} counted={held[WORST]} left={self.left(key, held)}"

    def before(self) -> list[str]:
        """The book's own lines, those before anything is out."""
        full = [self.fact(key, self.counted.get(key, NOTHING)) for key in sorted(self.full, key=rank)]
        return [f"network version={self.book.version} routers={len(routers_of(self.database))} links={len(self.links)} "
                f"circuits={len(circuits_of(self.database))} tunnels={len(self.placements) + len(self.unplaced)}",
                *(f"before without tunnel {request.id}" for request in self.unplaced),
                *(f"before lost tunnel {name}" for name in sorted(self.lost)),
                *(f"before {fact}" for fact in full),
                f"before placed={len(self.placements)} without={len(self.unplaced)} lost={len(self.lost)} full={len(full)}"]

    def fail(self, keys: list[Key]) -> tuple[list[str], list[str], list[int]]:
        """The rows of the batches that drop these links and of the tunnels that are placed again, the first words of their lines, and
        the indexes of these tunnels."""
        rows, _ = in_batches([Drop(*key).text() for key in keys], self.batches)
        heads, lost = list[str](), list[int]()
        for number, at in enumerate(range(0, len(keys), MOST_CHANGES), 1):
            indexes = {index for key in keys[at:at + MOST_CHANGES] for index in self.users.get(key, ())}
            some = sorted(indexes.difference(lost), key=lambda index: (-self.requests[index].setup, self.requests[index].id))
            heads += [*(f"lost {self.requests[index].id}" for index in some), f"base {self.batches + number} v{self.book.version + number}"]
            lost += some
        lost.reverse()
        return ([*rows, *(f"place,{self.requests[index].id},{self.requests[index].constraints()}" for index in lost)],
                [*heads, *(f"place {self.requests[index].id}" for index in lost)], lost)

    def outcome(self, place: int, parts: Iterable[Part]) -> Outcome | Exception:
        """The text of a scenario in which these parts are out, the indexes of the tunnels that are lost and of those that are placed
        again, how many links are full that weren't, and what is counted on each link on which it changes; else the fault."""
        try:
            return self.told(place, list(parts))
        except (Refused, Stopped) as fault:
            return type(fault)(f"scenario {place}: {fault}")

    def told(self, place: int, parts: list[Part]) -> Outcome:
        keys = sorted({key for part in parts for key in part.keys}, key=rank)
        rows, heads, lost = self.fail(keys)
        lines = run(self.program, ["book"], self.kept + "".join(f"{row}\n" for row in rows).encode(), may_refuse=True)
        if lines[:len(self.lines)] != self.lines or len(lines) != len(self.lines) + len(heads):
            raise Stopped(f"{self.program} wrote other lines of the book than before")
        answers = checked(self.program, heads, lines[len(self.lines):])[len(heads) - len(lost):]
        said, out = [f"out {part.name}" for part in parts], set(keys)
        found: tuple[list[int], list[int]] = ([], [])  # lost, and placed again
        most, held = 0, dict[Key, list[int]]()
        for index, answer in zip(lost, answers):
            request, was = self.requests[index], self.costs[index]
            now = self.placed(request, answer, out)
            found[now is not None].append(index)
            if now is None:
                said.append(f"lost tunnel {request.id} {answer.split()[-1]} was={was}")
                continue
            cost, walk = now
            most = max(most, cost - was)
            said.append(f"placed tunnel {request.id} cost={cost} was={was} more={cost - was}")
            for sign, links in ((-1, self.placements[index].links), (1, walk)):
                for link in links:
                    here = held.setdefault(link.key, list(self.counted.get(link.key, NOTHING)))
                    here[request.setup:] = [count + sign * request.bandwidth for count in here[request.setup:]]
        full = [self.fact(key, held[key]) for key in sorted(held, key=rank)
                if key not in out | self.full and self.left(key, held[key]) < self.least]
        said += [*full, f"lost={len(found[0])} placed={len(found[1])} most={most} full={len(full)}"]
        return ("\n".join(f"scenario {place} {line}" for line in said), *found, len(full), {key: it[WORST] for key, it in held.items()})

    def placed(self, request: Request, answer: str, out: Container[Key]) -> tuple[int, tuple[Link, ...]] | None:
        """The cost and the links of the route that an answer has, None where it has none."""
        reply = Reply.parse(f"place {request.id} {answer}")
        if not reply and not answer.startswith("refused: "):
            raise Stopped(f"{self.program} wrote no reply to tunnel {request.id}: {answer}")
        if not reply or reply.why:
            return None
        links = tuple(self.book.walk(request, reply, out))
        if not links or links[-1].neighbor != request.tail or sum(link.metric for link in links) != reply.cost:
            raise Stopped(f"{self.program} wrote a route that the base doesn't have, to tunnel {request.id}: {answer}")
        return reply.cost, links

    def close(self) -> None:
        """Nothing runs between two scenarios."""
