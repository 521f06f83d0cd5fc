"""How long requests for pairs of ways take, for bench/run: each row by itself, from its writing to its line."""
from drawn import loading, requests
from timing import median, row_by_row

KINDS = "circuits", "routers"


def share(times, part):
    """What this share of the times doesn't exceed."""
    return sorted(times)[min(int(len(times) * part), len(times) - 1)]


def pairs_of_ways(program, draw, pairs, routers, count, say):
    """Prints what requests for pairs of both kinds take, with metrics from 1 to 1,000 and all 1."""
    words = [program, "solve", "--pairs"]
    for metrics in 1000, 1:
        load, asks = loading(draw, pairs, metrics), requests(draw, routers, count, 0)
        said = f"metrics from 1 to {metrics:,}" if metrics > 1 else "metrics all 1"
        for kind in KINDS:
            rows = [f"pair{ask[3:].strip()}{kind}\n" for ask in asks]
            times, lines = row_by_row(words, load, rows)
            found = sum(" pair cost=" in line for line in lines)
            say(f"{said}, {count:,} requests for pairs by {kind}, {found:,} pairs: {median(times):,.0f} microseconds in the median, "
                f"{share(times, 0.99):,.0f} at most for 99 of 100, {max(times):,.0f} at most")
