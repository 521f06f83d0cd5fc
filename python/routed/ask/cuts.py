"""What of a database keeps two routers apart, whatever a request asks for: marked routers, circuits with one direction, or two islands."""
from __future__ import annotations

import heapq
from typing import NamedTuple

from ..model.database import Database
from ..model.rows import Link, value

Edges = dict[str, list[tuple[str, "Link | None"]]]  # by a router: where a circuit leads, and its link where it has one direction alone


class Cut(NamedTuple):
    """The fewest marked routers and links without a reverse that a way between the ends would have to use, or no way at all: then the
    routers of the islands of the two ends."""

    routers: tuple[str, ...] = ()
    links: tuple[Link, ...] = ()
    islands: tuple[list[str], list[str]] | None = None


def routers_of(database: Database) -> set[str]:
    return {router for link in database.links() for router in (link.router, link.neighbor)}


def edges_of(database: Database) -> Edges:
    """The circuits, each from both of its ends, also those that have one direction alone."""
    edges: Edges = {router: [] for router in routers_of(database)}
    for link in database.links():
        if database.reverse(link):
            edges[link.router].append((link.neighbor, None))
        else:
            edges[link.router].append((link.neighbor, link))
            edges[link.neighbor].append((link.router, link))
    return edges


def island_of(edges: Edges, router: str) -> list[str]:
    """The routers that circuits lead to, in the order of their addresses."""
    found, queue = {router}, [router]
    for one in queue:
        for other, _ in edges[one]:
            if other not in found:
                found.add(other)
                queue.append(other)
    return sorted(found, key=value)


def cut(database: Database, head: str, tail: str) -> Cut:
    """What keeps two routers of a database apart. Neither is cut off by its own mark. The result has nothing where a way is left."""
    edges, marks = edges_of(database), database.marks()
    before: dict[str, tuple[str, Link | None]] = {}  # the last step of the best way to a router
    cost, queue = {head: 0}, [(0, head)]
    while queue:
        so_far, router = heapq.heappop(queue)
        if so_far == cost[router]:
            passing = router in marks and router != head
            for other, link in edges[router]:
                whole = so_far + passing + (link is not None)
                if other not in cost or whole < cost[other]:
                    cost[other], before[other] = whole, (router, link)
                    heapq.heappush(queue, (whole, other))
    if tail not in cost:
        return Cut(islands=(island_of(edges, head), island_of(edges, tail)))
    routers, links, at = [], [], tail
    while at != head:
        at, link = before[at]
        if link:
            links.append(link)
        if at in marks and at != head:
            routers.append(at)
    return Cut(tuple(reversed(routers)), tuple(reversed(links)))

