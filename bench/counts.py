"""How many instructions a request takes, for bench/run --instructions."""
import os
import random
import re
import shutil
import subprocess
import sys
import tempfile

from drawn import loading, network, requests  # beside this file
from searches import compiled
from shapes import SHAPES, shaped
from timing import say

ROUTERS, LINKS = 1024, 16384  # of a network of full size
TIMES = 5  # how often a run of each program answers the requests
HOPS = (1, 7)  # the numbers of loose hops of one router whose instructions are counted, too


def counted(words):
    """The instructions of one run, as callgrind counts them, and the words that it prints."""
    with tempfile.NamedTemporaryFile() as out:
        ran = subprocess.run(["valgrind", "--tool=callgrind", f"--callgrind-out-file={out.name}", *words],
                             stdin=subprocess.DEVNULL, capture_output=True, text=True)
    found = re.search(r"Collected : (\d+)", ran.stderr)
    if ran.returncode or not found:
        sys.exit(f"bench/run: {' '.join(words)}: ended with status {ran.returncode} under valgrind")
    return int(found[1]), ran.stdout.split()


def each(program, plain, room, load, asks):
    """Instructions of a request by `best`, by a table that grows no tree, and by the plain search, without those of reading the rows."""
    journal, rows = (os.path.join(room, name) for name in ("journal", "requests"))
    for name, lines in ((journal, load), (rows, asks)):
        with open(name, "w") as file:
            file.writelines(lines)
    loads = str(sum(line.startswith("end,") for line in load))
    read, _ = counted([program, journal, rows, loads, "nothing"])
    runs = [counted([program, journal, rows, loads, search]) for search in ("best", "trees")]
    found = [(count - read) / TIMES / len(asks) for count, _ in runs]
    costs = {said[2] for _, said in runs}
    if plain:
        (none, _), (count, said) = (counted([plain, journal, rows, loads, str(times), "plain"]) for times in (0, TIMES))
        found.append((count - none) / TIMES / len(asks))
        costs.add(said[2])
    if len(costs) > 1:
        sys.exit("bench/run: the searches find routes of other costs")
    return found


def by_legs(program, room, load, asks):
    """Instructions of a request by a table that grows no tree, without those of reading the rows."""
    journal, rows = (os.path.join(room, name) for name in ("journal", "requests"))
    with open(rows, "w") as file:
        file.writelines(asks)
    loads = str(sum(line.startswith("end,") for line in load))
    (read, _), (count, _) = (counted([program, journal, rows, loads, search]) for search in ("nothing", "trees"))
    return (count - read) / TIMES / len(asks)


def instructions(program, source, names, seed, count):
    """Prints the instructions of so many requests without hops in networks of full size of these shapes."""
    if shutil.which("valgrind") is None:
        sys.exit("bench/run: --instructions needs valgrind")
    with tempfile.TemporaryDirectory() as room:
        plain = compiled(source, room)
        if plain is None:
            say("no rustc: the plain search isn't counted")
        for name in names:
            for metrics, said in [(1000, "metrics 1 to 1,000"), (1, "metrics all 1")]:
                draw = random.Random(seed)
                pairs = network(draw, ROUTERS, LINKS) if name == "drawn" else shaped(draw, name, ROUTERS)
                load = loading(draw, pairs, metrics)
                best, trees, *others = each(program, plain, room, load, requests(draw, ROUTERS, count, 0))
                ratios = "".join(f"; {best / other:.2f} and {trees / other:.2f} of the plain search's {other:,.0f}" for other in others)
                say(f"{name}, {said}: {best:,.0f} instructions a request by `best`, {trees:,.0f} by a table without trees{ratios}")
                for hops in HOPS:
                    legs = by_legs(program, room, load, requests(draw, ROUTERS, count, hops, True))
                    say(f"{name}, {said}, {hops} loose hops of one router: {legs:,.0f} instructions a request by a table without trees, "
                        f"{legs / trees / (hops + 1):.2f} of what {hops + 1} requests without hops take")


def shapes_of(shape):
    """The shapes whose instructions are counted: the one that is given, or all."""
    return [shape] if shape else ["drawn", *SHAPES]
