"""How long requests take that exclude links, for bench/run: each row by itself, from its writing to its line."""
import statistics

from drawn import address, loading, requests
from timing import row_by_row

HUB = 200  # links of the router that is excluded


def with_hub(pairs):
    """The pairs, of which so many circuits begin at router 0 in place of another, that it has `HUB` links."""
    links = sum(a == 0 for a, _ in pairs)
    routers = max(a for a, _ in pairs) + 1
    pairs = list(pairs)
    for place in range(len(pairs) - 2, 2 * routers - 1, -2):
        if links >= HUB:
            break
        if 0 not in pairs[place]:
            pairs[place], pairs[place + 1] = (0, pairs[place][1]), (pairs[place][1], 0)
            links += 1
    return pairs


def excepts(program, draw, pairs, routers, count, say):
    """Prints the medians: of requests, and of the same requests that exclude nothing, a circuit, and a router of 200 links."""
    pairs = with_hub(pairs)
    load, asks = loading(draw, pairs), requests(draw, routers, count, 0)
    kinds = {"nothing": lambda: "255.255.255.255/32i", "a circuit": lambda: f"{address(10, draw.randrange(len(pairs)))}/32i",
             f"a router of {HUB} links": lambda: f"{address(1, 0)}/32r"}
    words = [program, "solve", "--except"]
    plain = statistics.median(row_by_row([*words, "--trees", "0"], load, asks)[0])
    say(f"{count} requests without trees: {plain:,.0f} microseconds in the median")
    for name, part in kinds.items():
        rows = [f"except{ask[3:].strip()},{part()}\n" for ask in asks]
        median = statistics.median(row_by_row(words, load, rows)[0])
        rest = f", {median - plain:,.0f} of them for the copy and the look at each link" if name == "nothing" else ""
        say(f"the same requests that exclude {name}: {median:,.0f} microseconds in the median{rest}")
