"""The answer to a `pair` row by trying all pairs of trails, on small networks: tests/reference/pairs.py is compared with it."""
import itertools

from reference import pairs
from reference.formats import address_text

MOST_TRAILS = 100  # of a network


def circuit_of(link):
    """Both ends of the circuit."""
    return frozenset([(link["from"], link["local"]), (link["to"], link["remote"])])


def trails(out, request):
    """All ways that have no circuit twice, with their circuits; at most a few more than are tried."""
    found, waiting = [], [(request["from"], [], frozenset())]
    while waiting and len(found) <= MOST_TRAILS:
        router, trail, used = waiting.pop()
        if trail and router == request["to"]:
            found.append((trail, used))
        for link in out.get(router, []):
            if circuit_of(link) not in used:
                waiting.append((link["to"], [*trail, link], used | {circuit_of(link)}))
    return found


def are_apart(one, other, request):
    """Whether the two ways use no router twice."""
    used = [request["from"], request["to"], *(link["from"] for link in one[1:] + other[1:])]
    return len(set(used)) == len(used)


def by_trails(network, request, kind):
    """What `outcome` of the reference has to find, where both ends are known. None where there are too many trails."""
    found, least = trails(pairs.usable(network, request), request), None
    if len(found) > MOST_TRAILS:
        return None
    ways = [trail for trail, _ in found]
    if not ways:
        return "none"
    for (one, used), (other, others) in itertools.combinations(found, 2):
        if not used & others and (kind == "circuits" or are_apart(one, other, request)):
            ordered = sorted([one, other], key=lambda way: [link["local"] for link in way])
            links = one + other
            rank = sum(link["metric"] for link in links), len(links), [[link["local"] for link in way] for way in ordered]
            if least is None or rank < least[0]:
                least = rank, sorted(ordered, key=pairs.size)
    return least[1] if least else nearest(ways, kind)


def nearest(ways, kind):
    """The first link or router that all these ways have."""
    for link in ways[0]:
        if all(link in way for way in ways):
            return f"each by {address_text(link['from'])},{address_text(link['local'])}"
        if kind == "routers" and all(any(other["from"] == link["to"] for other in way[1:]) for way in ways):
            return f"each through {address_text(link['to'])}"
    return "no reason"
