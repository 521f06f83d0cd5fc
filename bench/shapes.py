"""Networks of other shapes than the drawn one: the circuits of each, for any number of routers from 8 to 1,024."""
import math


def isp(draw, routers):
    """A provider's network: a ring of core routers with chords, routers with two circuits each to the core, and the others with two each to
    these."""
    core, edge = max(3, routers * 24 // 1024), max(2, routers * 200 // 1024)
    ring = [(at, (at + 1) % core) for at in range(core)]
    chords = [(a, b) for a in range(core) for b in range(a) if draw.random() < 0.4]
    to_core = [(at, other) for at in range(core, core + edge) for other in draw.sample(range(core), 2)]
    to_edge = [(at, other) for at in range(core + edge, routers) for other in draw.sample(range(core, core + edge), 2)]
    return ring + chords + to_core + to_edge


def grid(_, routers):
    """Rows of as many routers as there are rows, each joined to the next in its row and in its column."""
    side = math.isqrt(routers)
    along = [(at, at + 1) for at in range(routers - 1) if (at + 1) % side]
    return along + [(at, at + side) for at in range(routers - side)]


def ladder(_, routers):
    """Two chains, and a circuit from each router of one to its neighbour in the other."""
    return [(at, at + 2) for at in range(routers - 2)] + [(at, at + 1) for at in range(0, routers - 1, 2)]


def clos(draw, routers):
    """Spines, a sixteenth of the routers, and leaves with circuits to eight spines each."""
    spines = max(2, routers // 16)
    return [(at, spine) for at in range(spines, routers) for spine in draw.sample(range(spines), min(8, spines))]


def ring(_, routers):
    """Each router is joined to the next, and the last to the first."""
    return [(at, (at + 1) % routers) for at in range(routers)]


def parallel(_, routers):
    """A chain with eight circuits from each router to the next."""
    return [(at, at + 1) for at in range(routers - 1) for _ in range(8)]


SHAPES = {shape.__name__: shape for shape in (isp, grid, ladder, clos, ring, parallel)}


def shaped(draw, name, routers):
    """Pairs of routers, each circuit in one direction and then in the other."""
    return [pair for circuit in SHAPES[name](draw, routers) for pair in (circuit, circuit[::-1])]
