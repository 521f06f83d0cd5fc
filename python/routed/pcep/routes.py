"""EROs as routes: which links they take, in whatever words a PCC says them (RFC 3209 4.3, RFC 8664 4.3)."""
from __future__ import annotations

from collections.abc import Iterable, Sequence

from ..model.rows import Link, value
from .network import Network
from .sids import Sids
from .wire import Hop

Route = tuple[str, ...]  # the far addresses of its links
MOST_HOPS = 2048  # of an ERO whose links are looked for


def covers(hop: Hop, address: str) -> bool:
    """Whether an address is in a hop's prefix."""
    return hop.far == address or hop.far is not None and hop.bits < 32 and (value(hop.far) ^ value(address)) >> 32 - hop.bits == 0


def plain(hops: Sequence[Hop | None]) -> Route | None:
    """The addresses of an ERO that has nothing else."""
    found = tuple(hop.far for hop in hops if hop and hop.far and hop.bits == 32)
    return found if len(found) == len(hops) else None


def route_of(network: Network, sids: Sids | None, ends: tuple[str, str], hops: Sequence[Hop | None]) -> Route | None:
    """The route of an ERO between two routers, by the links that there are or were. None if it can't be read."""
    found = walk(network, sids, ends[0], hops)
    return fars_of(found[1]) if found and found[0] == ends[1] else None


def fars_of(links: Iterable[Link]) -> Route:
    """A route by its links."""
    return tuple(link.remote for link in links)


def links_of(network: Network, head: str, fars: Iterable[str]) -> list[Link] | None:
    """The links of a route. None if it isn't of this network."""
    at, found = head, list[Link]()
    for far in fars:
        links = network.known(at, far)
        if not links:
            return None
        found.append(first_of(links))
        at = found[-1].neighbor
    return found


def first_of(links: Iterable[Link]) -> Link:
    """The link that is taken of those that lead to one address."""
    return min(links, key=lambda link: value(link.local))


def walk(network: Network, sids: Sids | None, head: str, hops: Sequence[Hop | None]) -> tuple[str, list[Link]] | None:
    """The router at which an ERO ends, and its links to there.

    It may name the routers by their Router IDs, each circuit by one end or by both, an interface by its network, and a link by its
    SID alone. Loose hops are read as the strict hops that they are to a router beside."""
    at, last = head, None
    found: list[Link] = []
    if len(hops) > MOST_HOPS:
        return None
    for hop in hops:
        if hop is None:
            return None
        if hop.far is not None and is_at(hop, at, last):
            continue
        links = one_circuit(network, candidates(network, sids, at, hop))
        if not links:
            return None
        last = first_of(links)
        at = last.neighbor
        found.append(last)
    return at, found


def is_at(hop: Hop, at: str, last: Link | None) -> bool:
    """Whether a hop names the router that the route is at, or the circuit by which it came there."""
    if hop.bits == 32 and hop.far == at:
        return True
    return last is not None and (hop.far == last.remote or hop.bits < 32 and (covers(hop, last.remote) or covers(hop, last.local)))


def candidates(network: Network, sids: Sids | None, at: str, hop: Hop) -> list[Link]:
    """The links from a router that a hop may mean, by the first of its meanings that there is."""
    links = network.from_router(at)
    if hop.far is not None and hop.bits == 32:
        for name in ("remote", "local", "neighbor"):
            found = [link for link in links if getattr(link, name) == hop.far]
            if found:
                return found
    if hop.far is not None:
        return [link for link in links if covers(hop, link.remote) or covers(hop, link.local)]
    return [link for link in links if sids and hop.label is not None and sids.has_had(link.key, hop.label)]


def one_circuit(network: Network, links: Iterable[Link]) -> list[Link]:
    """These links if they lead to one address; of those that are gone only if there is no other."""
    links = list(links)
    links = [link for link in links if network.rows.get(link.key) is link] or links
    return links if len({(link.neighbor, link.remote) for link in links}) == 1 else []


def says(hops: Sequence[Hop | None], wanted: Sequence[Hop | None]) -> bool:
    """Whether hops say a route in other words, as far as this is seen without a network: each of its addresses is met in turn."""
    rest = iter(hops)
    if any(hop and hop.label is not None for hop in wanted) and len(hops) != len(wanted):
        return False
    return bool(wanted) and all(any(meets(hop, want) for hop in rest) for want in wanted)


def meets(hop: Hop | None, want: Hop | None) -> bool:
    if hop is None or want is None or want.far is None:
        return False
    if hop.far is None:
        return hop.label is not None and hop.label == want.label
    return covers(hop, want.far) and (hop.label is None or want.label is None or hop.label == want.label)


def has_labels(hops: Sequence[Hop | None], wanted: Sequence[Hop | None]) -> bool:
    """Whether no SID of the hops differs from those that are wanted."""
    labels = [hop.label for hop in hops if hop and hop.label is not None]
    return not labels or labels == [hop.label for hop in wanted if hop]
