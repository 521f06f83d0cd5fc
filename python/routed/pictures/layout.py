"""Places of routers that have none: made from the links alone, the same each time.

Each component is laid out by itself. Pivot MDS (Brandes and Pich, 2006) places routers by their distances in hops from some pivots, and
rounds of springs and of repulsion within a grid of cells make the rest even. Components are put beside each other in rows.
A place is a pair of x and y, in units of a usual circuit's length.
"""
from __future__ import annotations

import collections
import math
import random
from collections.abc import Container, Iterable, Iterator, Sequence

PIVOTS = 30
ROUNDS = 60  # half as many in a large network
STRETCHED = 2.0  # circuits that are longer pull as if they were as long as this for their length
LONGEST = 1.0  # how far a router moves in a round, at first
FARTHEST = 2.0  # how far out a router may be before the rounds, in the usual distances from the middle
REACH = 2.0  # how far routers push each other off, in lengths of a circuit; four times as far in a small network
SMALL = 100
NEAR = 0.8  # the same where some routers stay where they are
APART = 1.5  # between components

Place = tuple[float, float]
Places = dict[str, Place]  # by a router's address
Pair = tuple[str, str]  # of routers that have a circuit
Neighbors = dict[str, list[str]]


def lay_out(routers: Sequence[str], pairs: Sequence[Pair]) -> Places:
    """A place for each router."""
    neighbors = neighbors_of(routers, pairs)
    return packed([component(part, neighbors) for part in components(neighbors)])


def complete(places: Places, routers: Sequence[str], pairs: Sequence[Pair]) -> Places:
    """The places, and one for each router that has none: among its neighbors where a way leads to a router with a place, else beside all
    of these."""
    places = {router: places[router] for router in routers if router in places}
    if not places or len(places) == len(routers):
        return places or lay_out(routers, pairs)
    neighbors, given, unit = neighbors_of(routers, pairs), set(places), usual_length(places, pairs, len(routers))
    order = [router for router in hops_from(places, neighbors) if router not in given]
    for _ in range(30):
        for router in order:
            near = [places[other] for other in neighbors[router] if other in places]
            places[router] = sum(x for x, _ in near) / len(near), sum(y for _, y in near) / len(near)
    if order:
        drawn = random.Random(1)
        scaled = {router: (x / unit + drawn.uniform(-0.1, 0.1), y / unit + drawn.uniform(-0.1, 0.1)) for router, (x, y) in places.items()}
        moved = relaxed(scaled, neighbors, given)
        places.update({router: (moved[router][0] * unit, moved[router][1] * unit) for router in order})
    alone = [router for router in routers if router not in places]
    _, top, right, _ = bounds(places)
    for router, (x, y) in lay_out(alone, [pair for pair in pairs if pair[0] not in places]).items():
        places[router] = right + unit * (APART + x), top + unit * y
    return places


def usual_length(places: Places, pairs: Sequence[Pair], count: int) -> float:
    """The median length of circuits between routers with places, or what is usual for their number."""
    lengths = sorted(math.dist(places[one], places[other]) for one, other in pairs if one in places and other in places)
    left, top, right, bottom = bounds(places)
    return (lengths and lengths[len(lengths) // 2]) or max(right - left, bottom - top) / math.sqrt(count) or 1.0


def neighbors_of(routers: Sequence[str], pairs: Sequence[Pair]) -> Neighbors:
    neighbors: dict[str, set[str]] = {router: set() for router in routers}
    for one, other in pairs:
        neighbors[one].add(other)
        neighbors[other].add(one)
    return {router: sorted(near) for router, near in neighbors.items()}


def hops_from(roots: Iterable[str], neighbors: Neighbors) -> dict[str, int]:
    """How many hops each router is from the nearest of the roots, those that can be reached, the nearest first."""
    hops = {root: 0 for root in roots}
    queue = collections.deque(hops)
    while queue:
        router = queue.popleft()
        for other in neighbors[router]:
            if other not in hops:
                hops[other] = hops[router] + 1
                queue.append(other)
    return hops


def components(neighbors: Neighbors) -> list[list[str]]:
    """The routers of each component, the largest first."""
    parts: list[list[str]] = []
    seen: set[str] = set()
    for router in sorted(neighbors):
        if router not in seen:
            parts.append(sorted(hops_from([router], neighbors)))
            seen.update(parts[-1])
    return sorted(parts, key=len, reverse=True)


def component(routers: list[str], neighbors: Neighbors) -> Places:
    places = pivoted(routers, neighbors)
    return relaxed(places, neighbors) if len(routers) > 2 else places


def pivoted(routers: list[str], neighbors: Neighbors) -> Places:
    """Places by Pivot MDS, in units of a hop. Each is moved a little, so that no two are the same."""
    drawn = random.Random(1)
    columns: list[list[int]] = []
    pivot = routers[0]
    for _ in routers[:PIVOTS]:
        hops = hops_from([pivot], neighbors)
        columns.append([hops[router] ** 2 for router in routers])
        nearest = [min(row) for row in zip(*columns)]
        pivot = routers[nearest.index(max(nearest))]
    means = [sum(column) / len(routers) for column in columns]
    rows = [[square - mean for square, mean in zip(row, means)] for row in zip(*columns)]
    rows = [[(sum(row) / len(row) - it) / 2 for it in row] for row in rows]
    first = main_axis(rows, [], drawn)
    axes = [first, main_axis(rows, [first], drawn)]
    points = [[sum(a * b for a, b in zip(row, axis)) for axis in axes] for row in rows]
    usual = sorted(math.hypot(*point) for point in points)[len(points) // 2] or 1.0
    unit = math.sqrt(len(routers)) / 3 / usual  # so that about one router is on each unit of area
    places = {}
    for router, point in zip(routers, points):
        part = min(1, FARTHEST * usual / (math.hypot(*point) or 1.0))
        x, y = (it * unit * part + drawn.uniform(-0.1, 0.1) for it in point)
        places[router] = x, y
    return places


def main_axis(rows: list[list[float]], others: list[list[float]], drawn: random.Random) -> list[float]:
    """The axis along which rows are spread most, across those that are found already: by the power method."""
    axis = [drawn.uniform(-1, 1) for _ in rows[0]]
    for _ in range(25):
        lengths = [sum(a * b for a, b in zip(row, axis)) for row in rows]
        axis = [sum(length * it for length, it in zip(lengths, column)) for column in zip(*rows)]
        for other in others:
            along = sum(a * b for a, b in zip(axis, other))
            axis = [a - along * b for a, b in zip(axis, other)]
        length = math.sqrt(sum(a * a for a in axis))
        if length < 1e-9:
            return [0.0] * len(axis)
        axis = [a / length for a in axis]
    return axis


def relaxed(places: Places, neighbors: Neighbors, still: Container[str] = ()) -> Places:
    """The places behind some rounds, in which circuits pull and near routers push. Some stay where they are."""
    index = {router: at for at, router in enumerate(places)}
    reach = NEAR if still else REACH if len(places) > SMALL else 4 * REACH
    moving = [at for router, at in index.items() if router not in still]
    at = [complex(*place) for place in places.values()]
    pairs = [(index[one], index[other], 3 / (len(neighbors[one]) + len(neighbors[other])))
             for one in places for other in neighbors[one] if one < other]
    rounds = ROUNDS if len(places) <= 4 * SMALL else ROUNDS // 2
    for turn in range(rounds):
        most, forces = LONGEST * (1 - turn / rounds) + 0.02, [0j] * len(at)
        for one, other, pull in pairs:
            way = at[other] - at[one]
            force = min(math.sqrt(square(way)), STRETCHED) * pull * way
            forces[one] += force
            forces[other] -= force
        for one, other in near_pairs([(place.real, place.imag) for place in at], reach):
            way = at[other] - at[one]
            if (far := square(way) + 1e-6) < reach * reach:
                forces[one] -= way / far
                forces[other] += way / far
        for router in moving:
            far = math.sqrt(square(forces[router]))
            at[router] += forces[router] * (most / far if far > most else 1.0)
    return {router: (place.real, place.imag) for router, place in zip(places, at)}


def square(way: complex) -> float:
    """The square of its length."""
    return (way * way.conjugate()).real


def near_pairs(places: Sequence[Place], reach: float) -> Iterator[tuple[int, int]]:
    """The pairs of indexes of places that may be nearer than the reach, by a grid of cells of that size."""
    cells: dict[tuple[int, int], list[int]] = collections.defaultdict(list)
    for index, (x, y) in enumerate(places):
        cells[int(x // reach), int(y // reach)].append(index)
    for (column, row), here in list(cells.items()):
        for at, one in enumerate(here):
            for other in here[at + 1:]:
                yield one, other
        for beside in ((column + 1, row - 1), (column + 1, row), (column + 1, row + 1), (column, row + 1)):
            for other in cells.get(beside, ()):
                for one in here:
                    yield one, other


def bounds(places: Places) -> tuple[float, float, float, float]:
    xs, ys = zip(*places.values())
    return min(xs), min(ys), max(xs), max(ys)


def packed(parts: list[Places]) -> Places:
    """The places of components in one picture: beside each other in rows, the largest first."""
    across = down = high = 0.0
    places: Places = {}
    sizes = [bounds(part) for part in parts]
    area = sum((right - left + APART) * (bottom - top + APART) for left, top, right, bottom in sizes)
    wide = max([1.4 * math.sqrt(area), *(right - left for left, _, right, _ in sizes)])
    for part, (left, top, right, bottom) in zip(parts, sizes):
        if across and across + right - left > wide:
            across, down, high = 0.0, down + high + APART, 0.0
        places.update({router: (x - left + across, y - top + down) for router, (x, y) in part.items()})
        across, high = across + right - left + APART, max(high, bottom - top)
    return places
