"""How long `routed book` takes, for bench/run --book."""
import os
import subprocess
import tempfile
import threading

from drawn import BATCH, address, batch, drop, loading, requests  # beside this file

RUNS = 3  # of each stream of rows; the least processor time counts
MOST_RATE = 20  # the most bandwidth that is placed, in units
RATE = 10_000_000_000  # a unit times the number of placements, in bytes per second; with few placements a unit is 1,000,000
MORE = 1000  # rows of each kind that are timed
BATCHES = 100  # base batches of one change that are timed
FULL = 5  # base batches of 4,096 puts that are timed
LAST = "release,18446744073709551615\n"  # refused, since no placement has the id
CHAIN, LONG = 1024, 1025  # routers of a chain, and placements from one end to the other: as many links as a book may have


def placing(draw, routers, count):
    """Rows that place requests. The more they are, the less bandwidth each has, so that all find room."""
    unit, rows = min(1_000_000, RATE // count), []
    for number, row in enumerate(requests(draw, routers, count, 0)):
        fields = row.split(",")
        fields[:2] = "place", str(number)
        fields[5] = str(draw.randrange(1, MOST_RATE + 1) * unit)
        rows.append(",".join(fields))
    return rows


def run(program, rows):
    """Peak kilobytes and lines of one run over these rows."""
    with tempfile.TemporaryFile("w+") as source, tempfile.TemporaryFile("w+") as out:
        source.writelines(rows)
        source.seek(0)
        child = subprocess.Popen([program, "book"], stdin=source, stdout=out)
        _, status, usage = os.wait4(child.pid, 0)
        child.returncode = os.waitstatus_to_exitcode(status)
        if child.returncode not in (0, 2):
            raise SystemExit(f"bench/run: routed book: ended with status {child.returncode}")
        out.seek(0)
        return usage.ru_maxrss, out.read().splitlines()


def send(child, rows):
    child.stdin.writelines(rows)
    child.stdin.flush()


def busy(child):
    """Seconds of processor time that a running program of one thread has taken."""
    with open(f"/proc/{child.pid}/schedstat") as times:
        return int(times.read().split()[0]) / 1e9


def sent(child, rows):
    """Seconds of processor time that a running program takes for these rows."""
    began = busy(child)
    # by a thread, since the program waits while nobody reads its lines
    threading.Thread(target=send, args=(child, [*rows, LAST])).start()
    while "refused: absent" not in (line := child.stdout.readline()):
        if not line or line.startswith("batch"):
            raise SystemExit(f"bench/run: routed book: {line}")
    return busy(child) - began


def waits(program, rows, more):
    """Seconds of processor time for each of some groups of rows, which one running program gets after other rows."""
    with subprocess.Popen([program, "book"], stdin=subprocess.PIPE, stdout=subprocess.PIPE, text=True) as child:
        sent(child, rows)
        found = [sent(child, one) for one in more]
        child.stdin.close()
        return found


def spread(draw, pairs, count, number):
    """Batches of so many puts each, which replace links."""
    batches = BATCHES if count == 1 else FULL
    return [batch(draw, pairs, number + at, draw.sample(range(len(pairs)), count)) for at in range(batches)]


def tell(program, rows, kinds, say):
    """Prints what base batches of each kind take after these rows."""
    for kind, more in kinds:
        times = sorted(waits(program, rows, more))
        say(f"a base batch {kind}: {times[len(times) // 2] * 1e6:,.0f} microseconds, {times[-1] * 1e6:,.0f} at most")


def books(program, draw, pairs, routers, load, count, say):
    """Prints what a placement, a move and a release take in a book of so many placements, and base batches."""
    number = sum(line.startswith("end,") for line in load) + 1
    rows, last = placing(draw, routers, count), min(MORE, count // 2)
    placed = load + rows
    peak, lines = run(program, placed)
    routes = [line.split()[1] for line in lines if line.startswith("place ") and " route " in line]
    say(f"a book of {len(routes):,} placements: peak memory {peak / 1024:.1f} MB")
    drawn = draw.sample(routes, 2 * last)
    kinds = {f"a placement, of the last {last:,}": rows[-last:], "a placement again": [rows[int(name)] for name in drawn[:last]],
             "a release": [f"release,{name}\n" for name in drawn[last:]]}
    runs = [waits(program, placed[:-last], kinds.values()) for _ in range(RUNS)]
    for kind, times in zip(kinds, zip(*runs)):
        say(f"{kind}: {min(times) / last * 1e6:,.1f} microseconds")
    drops = [[drop(place, pairs[place]), f"end,{number + at},1\n"]
             for at, place in enumerate(draw.sample(range(len(pairs)), min(BATCHES, len(pairs))))]
    most = min(BATCH, len(pairs))
    batches = [("that replaces a link", spread(draw, pairs, 1, number)), ("that drops a link", drops)]
    tell(program, placed, [*batches, (f"of {most:,} puts", spread(draw, pairs, most, number))], say)


def long_routes(program, draw, say):
    """Prints what base batches take in a book of the longest routes."""
    pairs = [pair for a in range(CHAIN - 1) for pair in ((a, a + 1), (a + 1, a))]
    load = loading(draw, pairs)
    rows = load + [f"place,{name},{address(1, 0)},{address(1, CHAIN - 1)},7,1,0x0,0x0,0x0,\n" for name in range(LONG)]
    routes = sum(" route " in line for line in run(program, rows)[1])
    say(f"a chain of {CHAIN:,} routers with {routes:,} placements of {CHAIN - 1:,} links each:")
    number = sum(line.startswith("end,") for line in load) + 1
    kinds = [("that replaces a link", spread(draw, pairs, 1, number)), (f"of {len(pairs):,} puts", spread(draw, pairs, len(pairs), number))]
    tell(program, rows, kinds, say)
