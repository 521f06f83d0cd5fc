"""Rows `pair`, from the formats' own words (docs/run/FORMATS.md): two ways of the least size that share no circuit, or no router either.

Small and slow on purpose; nothing in it is taken from the program. Two searches for a shortest way find the pair: the second may go back
over links of the first way, which both ways then leave. What that changes is undone again for the order of the addresses. Both searches
give each place a height, as far as the way there is long, so that no step of a later search has a length below 0.
"""
import heapq

from reference.formats import Refused, address_text, admissible, ask, may_leave, object_of

KINDS = ("circuits", "routers")
COST = 10 ** 6  # what a cost of 1 weighs: more than all links of a pair


def question(fields):
    """The request of a `pair` row, and what the two ways may not share."""
    if len(fields) != 10:
        raise Refused("fields")
    request = ask([*fields[:9], ""])
    if fields[9] not in KINDS:
        raise Refused("kind-of-pair")
    return request, fields[9]


def size(way):
    """The order of routes: cost, number of links, addresses."""
    return sum(link["metric"] for link in way), len(way), [link["local"] for link in way]


def usable(network, request):
    """By router the links that a way may have, in the order of their addresses, each with its key and its weight."""
    out = {}
    for (router, local), link in network.links.items():
        if may_leave(network, router, router != request["from"]) and admissible(network, link, request):
            out.setdefault(router, []).append({**link, "key": (router, local), "weight": COST * link["metric"] + 1})
    for links in out.values():
        links.sort(key=lambda link: link["local"])
    return out


def some_way(out, request, but=None, past=None):
    """The links of some way that hasn't this link and doesn't pass this router, None where there is none."""
    ways = {request["from"]: []}
    waiting = [request["from"]]
    for router in waiting:
        for link in out.get(router, []):
            to = link["to"]
            if link != but and to != past and to not in ways:
                ways[to] = [*ways[router], link]
                waiting.append(to)
    return ways.get(request["to"])


def reason(out, request, kind):
    """Why there is no pair: the first link or router of some way without which there is no way."""
    way = some_way(out, request)
    if way is None:
        return "none"
    for link in way:
        if some_way(out, request, but=link) is None:
            return f"each by {address_text(link['from'])},{address_text(link['local'])}"
        if kind == "routers" and link["to"] != request["to"] and some_way(out, request, past=link["to"]) is None:
            return f"each through {address_text(link['to'])}"
    raise AssertionError("each link and each router can be avoided, and there is no pair")


class Ways:
    """The links of the ways so far, and the routers that they pass. A place is a router where links arrive (0) or leave (1). Where the
    ways may share routers, all links arrive and leave at one place."""

    def __init__(self, out, request, kind):
        self.out, self.head, self.tail, self.split = out, request["from"], request["to"], kind == "routers"
        self.links, self.passed, self.fixed = {}, set(), set()  # the links by their keys, and the keys of those that stay
        self.heights, self.least = {}, 0  # a place without a height has the least

    def leaving(self, router):
        return router, int(self.split)

    def height(self, place):
        return self.heights.get(place, self.least)

    def steps(self, place):
        """The places behind this one, each with the length of the step, and its link or router."""
        router, side = place
        if side == self.split:
            for link in self.out.get(router, []):
                if link["key"] not in self.links:
                    yield (link["to"], 0), link["weight"], link
        if side == 0:
            for link in self.links.values():
                if link["to"] == router and link["key"] not in self.fixed:
                    yield self.leaving(link["from"]), -link["weight"], link
        if self.split and router not in (self.head, self.tail) and side == (router in self.passed):
            yield (router, 1 - side), 0, router

    def change(self, steps):
        """The ways get what they don't have of these steps, and leave what they have."""
        for it in steps:
            if isinstance(it, int):
                self.passed ^= {it}
            elif self.links.pop(it["key"], None) is None:
                self.links[it["key"]] = it

    def search(self, start, goal, most=None):
        """The steps of a shortest way between two places, None where there is none as short as `most`. Lengths are what a step adds to the
        rise of its heights. The second value is how far each place is that was reached."""
        heap, before, far, done = [(0, start)], {}, {start: 0}, {}
        while heap and goal not in done:
            length, place = heapq.heappop(heap)
            if place in done:
                continue
            done[place] = length
            length += self.height(place)
            for onward, added, step in self.steps(place):
                there = length + added - self.height(onward)
                if there < far.get(onward, there + 1) and (most is None or there <= most):
                    far[onward], before[onward] = there, (place, step)
                    heapq.heappush(heap, (there, onward))
        if goal not in done:
            return None, done
        steps, place = [], goal
        while place != start:
            place, step = before[place]
            steps.append(step)
        return steps, done

    def add(self):
        """Whether there is one way more. The ways then weigh the least, and no step that is left has a length below 0."""
        goal = self.tail, 0
        steps, done = self.search(self.leaving(self.head), goal)
        if steps is None:
            return False
        self.change(steps)
        most = done[goal]
        places = {*self.heights, *done}
        self.heights = {place: self.height(place) + min(done.get(place, most), most) for place in places}
        self.least += most
        return True

    def may_have(self, link):
        """Whether ways that weigh as little have this link beside those that stay. If so, they have it now. If they didn't have it, it has
        to be on a ring of steps that add nothing."""
        if link["key"] not in self.links:
            start, goal = (link["to"], 0), self.leaving(link["from"])
            if link["weight"] + self.height(goal) != self.height(start):
                return False
            steps, _ = self.search(start, goal, 0)
            if steps is None:
                return False
            self.change([link, *steps])
        self.fixed.add(link["key"])
        return True

    def take(self):
        """The way with the smallest list of addresses, whose links then stay."""
        router, way = self.head, []
        while router != self.tail:
            way.append(next(link for link in self.out[router] if link["key"] not in self.fixed and self.may_have(link)))
            router = way[-1]["to"]
        return way


def outcome(network, request, kind):
    """The two ways of the least pair in the order of routes, or the words that say why there is none."""
    routers = network.routers()
    if request["from"] not in routers:
        return "unknown-from"
    if request["to"] not in routers:
        return "unknown-to"
    out = usable(network, request)
    ways = Ways(out, request, kind)
    if not (ways.add() and ways.add()):
        return reason(out, request, kind)
    return sorted([ways.take(), ways.take()], key=size)


def answer(network, version, asked):
    """The line of a `pair` row, without its line feed."""
    request, kind = asked
    found = outcome(network, request, kind)
    return f"pair {request['id']} v{version} {found if isinstance(found, str) else pair_text(*found)}"


def pair_text(one, other):
    costs = [size(way)[0] for way in (one, other)]
    return (f"pair cost={sum(costs)} hops={len(one) + len(other)} cost1={costs[0]} ero1={object_of(one)} "
            f"cost2={costs[1]} ero2={object_of(other)}")
