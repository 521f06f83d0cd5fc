"""The ranked end of a sweep: the failures that cost most, and the requests or tunnels that most failures touch."""
from __future__ import annotations

import heapq
import re
from collections.abc import Callable, Iterator, Sequence
from typing import Any, NamedTuple

from ..model.rows import Request

MOST = 10  # lines of each kind
LINE = re.compile(r"most (requests|bandwidth) \d+ scenario (\d+) lost=(\d+) longer=(\d+) bandwidth=(\d+) out (.*)")


# How the lines of a sweep name what has a route, one that gets another route, and a link that has too little. Like the types of
# failures.py it goes to other machines.
Words = NamedTuple("Words", [("one", str), ("other", str), ("full", str)])
REQUESTS, TUNNELS = Words("request", "longer", "overbooked"), Words("tunnel", "placed", "full")
# A scenario's place, how many requests it costs and gives another route, the bandwidth of those that it costs, and what is out.
Failure = tuple[int, int, int, int, str]


def by_number(failure: Failure) -> Any:
    return -failure[1], -failure[2], failure[0]


def by_bandwidth(failure: Failure) -> Any:
    return -failure[3], -failure[1], -failure[2], failure[0]


class Ranking:
    """What the scenarios so far have done. Of failures only the worst are kept; of two equal ones the earlier one comes first."""

    def __init__(self, words: Words = REQUESTS) -> None:
        self.words = words
        self.orders: dict[str, Callable[[Failure], Any]] = {f"{words.one}s": by_number, "bandwidth": by_bandwidth}
        self.worst: dict[str, list[Failure]] = {kind: [] for kind in self.orders}
        self.touched: dict[int, list[int]] = {}  # by a request's id, how many failures it is lost in, and gets another route in

    def add(self, place: int, name: str, lost: Sequence[Request], others: Sequence[Request]) -> None:
        """A scenario, with the requests that are lost in it and those that get another route."""
        for at, requests in enumerate((lost, others)):
            for request in requests:
                self.touch(request.id, at)
        failure = place, len(lost), len(others), sum(request.bandwidth for request in lost), name
        if lost or others:
            self.keep(f"{self.words.one}s", failure)
        if lost:
            self.keep("bandwidth", failure)

    def touch(self, name: int, at: int) -> None:
        """One more failure in which the request of this id is lost (0) or gets another route (1)."""
        self.touched.setdefault(name, [0, 0])[at] += 1

    def keep(self, kind: str, failure: Failure) -> None:
        self.worst[kind] = heapq.nsmallest(MOST, [*self.worst[kind], failure], key=self.orders[kind])

    def lines(self) -> Iterator[str]:
        one, other, _ = self.words
        for kind, worst in self.worst.items():
            for rank, (place, lost, others, bandwidth, name) in enumerate(worst, 1):
                yield f"most {kind} {rank} scenario {place} lost={lost} {other}={others} bandwidth={bandwidth} out {name}"
        touched = sorted((-lost - others, -lost, name) for name, (lost, others) in self.touched.items())
        for rank, (both, lost, request) in enumerate(touched[:MOST], 1):
            yield f"most failures {rank} {one} {request} lost={-lost} {other}={lost - both}"
