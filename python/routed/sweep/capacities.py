"""How full links are: capacities from a file, and the utilisation of each link before a failure and in the worst scenario."""
from __future__ import annotations

from collections.abc import Iterator, Mapping
from fractions import Fraction

from ..model.names import Names, NamesRefused, lines_of
from ..model.rows import Key, Link, Refused, is_address, rank
from ..model.units import rate_of

LOWEST = 7  # the priority at which all that is reserved counts
WANTED = "a line is a router, the address of its interface and a capacity, as in 1.1.1.1 10.0.0.1 10G"


def capacities(path: str, names: Names, links: Mapping[Key, Link]) -> dict[Key, int]:
    """The capacity of each link that a file has, in bytes per second. NamesRefused is raised for the first line that can't be used."""
    found: dict[Key, int] = {}
    for where, (*name, local, rate) in ((where, ["", "", *words][-max(len(words), 2):]) for where, words in lines_of(path)):
        router = names.address_of(" ".join(name))
        if router is None or not is_address(local):
            raise NamesRefused(f"{where}: {' '.join([*name, local]).strip()!r} is no link; {WANTED}")
        link = links.get((router, local))
        if link is None:
            raise NamesRefused(f"{where}: the network has no link from {router} at {local}; leave the line out")
        if link.key in found:
            raise NamesRefused(f"{where}: the link from {router} at {local} is on an earlier line, too; leave one of them out")
        try:
            found[link.key] = rate_of(rate)
        except Refused as fault:
            raise NamesRefused(f"{where}: {fault}") from None
        if found[link.key] < max(1, link.unreserved[LOWEST]):
            raise NamesRefused(f"{where}: the capacity {rate} is less than the {link.unreserved[LOWEST]} bytes per second that are "
                               "unreserved; give what can be reserved of the link, in bits per second, or in bytes with B")
    return found


class Utilisation:
    """The part of their capacity that links with a capacity use: what isn't unreserved in the network, and what is asked of the link."""

    def __init__(self, given: dict[Key, int], links: Mapping[Key, Link], asked: Mapping[Key, int]) -> None:
        self.capacities, self.links = given, links
        self.reserved = {key: capacity - links[key].unreserved[LOWEST] for key, capacity in given.items()}
        self.before = {key: reserved + asked.get(key, 0) for key, reserved in self.reserved.items()}
        self.worst, self.why = dict(self.before), dict.fromkeys(given, "")

    def add(self, place: int, name: str, asked: Mapping[Key, int]) -> None:
        """A scenario, with what is asked of each link of which something else is asked than before."""
        for key in asked.keys() & self.worst.keys():
            used = self.reserved[key] + asked[key]
            if used > self.worst[key]:
                self.worst[key], self.why[key] = used, f" scenario {place} out {name}"

    def lines(self) -> Iterator[str]:
        """A line for each link with a capacity, the fullest in its worst scenario first. The last line counts them, and those that are over
        their capacity."""
        def part(key: Key, used: int) -> Fraction:
            return Fraction(used, self.capacities[key])

        order = sorted(self.capacities, key=lambda key: (-part(key, self.worst[key]), -part(key, self.before[key]), rank(key)))
        for at, key in enumerate(order, 1):
            yield (f"utilisation {at} {self.links[key].name} capacity={self.capacities[key]} before={text(part(key, self.before[key]))} "
                   f"worst={text(part(key, self.worst[key]))}{self.why[key]}")
        over = [sum(used[key] > capacity for key, capacity in self.capacities.items()) for used in (self.before, self.worst)]
        yield f"capacities={len(order)} without={len(self.links) - len(order)} before={over[0]} worst={over[1]}"


def text(part: Fraction) -> str:
    """A part with three decimals, rounded up, so that what is more than a bound is seen to be more."""
    whole, thousandths = divmod(-(-part * 1000 // 1), 1000)
    return f"{whole}.{thousandths:03}"
