"""Why a request has no route, or a dear one: which of its constraints it has to give up, each found by asking again."""
from __future__ import annotations

import itertools
from collections.abc import Callable, Iterable, Sequence
from dataclasses import dataclass, replace
from typing import Protocol

from ..client import Client
from ..model.groups import bits_of
from ..model.rows import Reply, Request

MASKS = {"exclude-any": "exclude_any", "include-any": "include_any", "include-all": "include_all"}  # and the request's attribute


class Moved(Exception):
    """Another version was published between two asks."""


@dataclass(frozen=True)
class Part:
    """One thing that is relaxed: the bandwidth, down to `value`; the bits of a mask in `value`; or the hop of this index."""

    kind: str
    value: int = 0


@dataclass(frozen=True)
class Reason:
    """Parts that are relaxed together, and the reply to the request without them."""

    parts: tuple[Part, ...]
    reply: Reply


class Answering(Protocol):
    """What answers requests, all of them at one version."""

    def begin(self) -> None:
        """From now on answers may be of another version."""

    def answer(self, request: Request) -> tuple[str, str, Reply]:
        """The row that asks, its line and the reply."""


class Asker:
    """Asks on one connection, and gives each ask an id of its own. All answers since `begin` are of one version, or Moved is raised;
    none of these is asked for twice. `told` is called with each row and its line."""

    def __init__(self, client: Client, first: int = 1, told: Callable[[str, str], object] = lambda row, line: None) -> None:
        self.client, self.ids, self.told = client, itertools.count(first), told
        self.replies: dict[str, tuple[str, str, Reply]] = {}

    def begin(self) -> None:
        """From now on answers may be of another version."""
        self.replies.clear()

    def answer(self, request: Request) -> tuple[str, str, Reply]:
        """The row that asks, its line and the reply."""
        text = request.constraints()
        if text not in self.replies:
            own = replace(request, id=next(self.ids))
            line, reply = self.client.answer(own)
            self.told(own.text(), line)
            if any(other.version != reply.version for _, _, other in self.replies.values()):
                raise Moved
            self.replies[text] = own.text(), line, reply
        return self.replies[text]


def constraints_of(request: Request) -> list[Part]:
    """All that can be relaxed of a request: each as a whole, and each hop by itself."""
    found = [Part("bandwidth")] if request.bandwidth else []
    found += [Part(kind, mask) for kind, name in MASKS.items() if (mask := getattr(request, name))]
    return found + [Part("hop", at) for at in range(len(request.hops.split()))]


def relaxed(request: Request, parts: Iterable[Part]) -> Request:
    """The request without these parts."""
    left_out = set()
    for part in parts:
        if part.kind == "bandwidth":
            request = replace(request, bandwidth=part.value)
        elif part.kind == "hop":
            left_out.add(part.value)
        else:
            name = MASKS[part.kind]
            request = replace(request, **{name: getattr(request, name) & ~part.value})
    return replace(request, hops=" ".join(hop for at, hop in enumerate(request.hops.split()) if at not in left_out))


class Why:
    """Looks for the reasons of one request."""

    def __init__(self, asker: Answering, request: Request) -> None:
        self.asker, self.request, self.constraints = asker, request, constraints_of(request)

    def reply(self, *parts: Part) -> Reply:
        return self.asker.answer(relaxed(self.request, parts))[2]

    def has_route(self, parts: Iterable[Part]) -> bool:
        return self.reply(*parts).why is None

    def of_none(self) -> list[Reason]:
        """Of a request without a route: each reason by itself gives a route, and none of its parts can be left out. There is none
        where no constraint keeps the route away."""
        found: list[Reason] = []
        for part in self.constraints:
            if self.has_route([part]):
                found += [self.reason(parts) for parts in self.least_of(part)]
        hops = [part for part in self.constraints if part.kind == "hop"]
        if len(hops) > 1 and not any(part in hops for reason in found for part in reason.parts) and self.has_route(hops):
            found.append(self.reason(self.put_back(hops)))
        if not found and self.has_route(self.constraints):
            together = self.put_back(self.constraints)
            for part in together:
                others = [other for other in together if other.kind != part.kind or other.kind == "hop" and other != part]
                together = [*others, *self.least_of(part, others)[0]]
            found.append(self.reason(together))
        return found

    def of_route(self) -> list[Reason]:
        """Of a request with a route: each constraint without which there is a cheaper one; all hops, where no single one is this."""
        cost = self.reply().cost
        found = [self.reason([part]) for part in self.constraints if self.is_cheaper([part], cost)]
        hops = [part for part in self.constraints if part.kind == "hop"]
        if len(hops) > 1 and not any(part in hops for reason in found for part in reason.parts) and self.is_cheaper(hops, cost):
            found.append(self.reason(hops))
        return found

    def is_cheaper(self, parts: Iterable[Part], cost: int) -> bool:
        reply = self.reply(*parts)
        return reply.why is None and reply.cost < cost

    def reason(self, parts: Iterable[Part]) -> Reason:
        order = [part.kind for part in self.constraints]
        some = tuple(sorted(parts, key=lambda part: (order.index(part.kind), part.value)))
        return Reason(some, self.reply(*some))

    def put_back(self, parts: Sequence[Part], others: Sequence[Part] = ()) -> list[Part]:
        """Those of the parts that can't be put back: they are put back one by one while a route is left. The others stay relaxed. A
        hop that was left out can turn a strict hop behind it into another, so this goes on until none of them can be put back."""
        left, before = list(parts), -1
        while len(left) != before:
            before = len(left)
            for part in tuple(left):
                some = [other for other in left if other != part]
                if self.has_route([*some, *others]):
                    left = some
        return left

    def least_of(self, part: Part, others: Sequence[Part] = ()) -> list[list[Part]]:
        """The least of a part that has to be relaxed, where the others are, too: each list does. Of a mask with several bits these
        are single bits, or else some together. Only include-any is taken as a whole."""
        if part.kind == "bandwidth":
            return [[Part("bandwidth", self.greatest(others))]]
        bits = [Part(part.kind, 1 << bit) for bit in bits_of(part.value)] if part.kind in ("exclude-any", "include-all") else []
        if len(bits) < 2:
            return [[part]]
        return [[bit] for bit in bits if self.has_route([bit, *others])] or [self.put_back(bits, others)]

    def greatest(self, others: Sequence[Part]) -> int:
        """The greatest bandwidth that has a route, where bandwidth 0 has one and what is asked for has none."""
        low, high = 0, self.request.bandwidth
        while high - low > 1:
            middle = (low + high) // 2
            if self.has_route([Part("bandwidth", middle), *others]):
                low = middle
            else:
                high = middle
        return low
