"""Networks and requests that are drawn for bench/run and bench/serve."""
import random

BATCH = 4096


def address(top, number):
    return f"{top}.{number >> 16 & 255}.{number >> 8 & 255}.{number & 255}"


def network(draw, routers, links):
    """Pairs of routers, each circuit in one direction and then in the other: a ring first, then drawn ones."""
    pairs = []
    while len(pairs) < links:
        a = len(pairs) // 2
        a, b = (a, (a + 1) % routers) if a < routers else draw.sample(range(routers), 2)
        pairs += [(a, b), (b, a)]
    return pairs


def put(draw, place, pair, metrics=1000, least=500):
    """The link of a place among the pairs; its reverse is at the place beside it, and each place has an address of its own. At least so
    many million bytes per second are free at each priority."""
    free = ",".join(str(draw.randrange(least, 1000) * 1_000_000) for _ in range(8))
    a, b = pair
    return (f"put,{address(1, a)},{address(10, place)},{address(1, b)},{address(10, place ^ 1)},"
            f"{draw.randrange(1, metrics + 1)},0x{1 << draw.randrange(4):x},{free}\n")


def drop(place, pair):
    return f"drop,{address(1, pair[0])},{address(10, place)}\n"


def batch(draw, pairs, number, places, metrics=1000, least=500):
    return [put(draw, place, pairs[place], metrics, least) for place in places] + [f"end,{number},{len(places)}\n"]


def loading(draw, pairs, metrics=1000, least=500):
    """The rows that load the network, in as few batches as it takes."""
    parts = [range(at, min(at + BATCH, len(pairs))) for at in range(0, len(pairs), BATCH)]
    return [line for at, part in enumerate(parts) for line in batch(draw, pairs, at + 1, part, metrics, least)]


def marking(routers, count, number):
    """The rows of one more batch, which takes the transit of some routers away, the same ones each time."""
    marked = random.Random(count).sample(range(routers), count)
    return marked and [f"node,{address(1, router)},0\n" for router in marked] + [f"end,{number},{count}\n"]


def batches(draw, pairs, more):
    """The rows that load the network, and those of further batches."""
    load = loading(draw, pairs)
    loads = sum(line.startswith("end,") for line in load)
    changes = []
    for at in range(more):
        places = draw.sample(range(len(pairs)), min(BATCH, len(pairs)))
        changes += batch(draw, pairs, loads + at + 1, places)
    return load, changes


def hop(draw, routers, of_one):
    if of_one:
        return f"{address(1, draw.randrange(routers))}/32l"
    bits = draw.choice([24, 30, 32, 32])
    return f"{address(1, draw.randrange(routers))}/{bits}{draw.choice('llls')}"


def requests(draw, routers, count, hops, of_one=False):
    """Requests with as many hops each, any or loose ones of one router each."""
    lines = []
    for number in range(count):
        a, b = draw.sample(range(routers), 2)
        exclude = draw.choice(["0x0", "0x0", "0x1", "0x8"])
        along = " ".join(hop(draw, routers, of_one) for _ in range(hops))
        lines.append(f"ask,{number},{address(1, a)},{address(1, b)},{draw.randrange(8)},"
                     f"{draw.randrange(1, 600) * 1_000_000},{exclude},0x0,0x0,{along}\n")
    return lines
