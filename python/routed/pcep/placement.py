"""A placement of the server's book as a row has it, and who hears of the book."""
from __future__ import annotations

from collections.abc import Iterable, Iterator
from dataclasses import dataclass
from typing import Protocol

from ..model.rows import Key, Link


@dataclass(frozen=True, slots=True)
class Placement:
    """What the book counts under an id: the fields of its row from `from` to `hops`, of which two are numbers here, too, and its route as a
    `held` row has it."""

    constraints: str
    route: str
    hold: int
    bandwidth: int

    @classmethod
    def of(cls, constraints: str, route: str) -> Placement:
        _, _, hold, bandwidth, _ = constraints.split(",", 4)
        return cls(constraints, route, int(hold), int(bandwidth))

    def keys(self) -> Iterator[Key]:
        at, data = self.constraints.partition(",")[0], bytes.fromhex(self.route)
        for begin in range(0, len(data), 8):
            local, there = (".".join(map(str, data[here:here + 4])) for here in (begin, begin + 4))
            yield at, local
            at = there


def is_for_memory(line: str | None) -> bool:
    """Whether this line refuses a row since the server had no memory for it. The same row may come again."""
    return line is not None and line.endswith(" refused: memory")


def hexadecimal(links: Iterable[Link]) -> str:
    """A route as a `held` row has it."""
    return "".join(bytes(int(part) for address in (link.local, link.neighbor) for part in address.split(".")).hex() for link in links)


class Hearer(Protocol):
    """Who hears of the book."""

    def say(self, level: str, text: str) -> None:
        """Writes a line of the log."""

    def clock(self) -> float:
        """The time in seconds."""

    def book_is_known(self) -> None:
        """The book was read: rows may be sent."""

    def network_is_proved(self) -> None:
        """It is known now that the journal is that of the server: routes can be read."""

    def lost_placements(self, ids: list[int]) -> None:
        """A batch of the base is accepted, by which these placements have lost their routes."""

    def exceeded(self, key: Key) -> None:
        """More may be counted on a link than it has."""

    def more_may_move(self) -> None:
        """There are more LSPs that can be moved."""

    def lacks_memory(self, line: str) -> None:
        """The server had no memory for a row, as this line of it says."""

    def settled(self, number: int, has_room: bool) -> None:
        """A placement has a route, or is released. There may be more room somewhere then."""
