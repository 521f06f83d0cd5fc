"""Sweeps and joins of networks that are drawn, compared with tests/reference/sweeps.py."""
import os
import random
import re
import subprocess
import sys
import tempfile

from checks import TOP
from reference.changes import counts_mended
from reference.formats import Refused, address_number
from reference.runs import publish, whole_batches
from reference.sweeps import plain
from tools.ring import A, C, RING, ask, journal, link, sweep, wrapped

from routed.sweep.solving import MOST_ROWS, Solve


def compared(program, checks):
    """The NSFNET backbone and drawn networks, whole outputs, by one job and by three."""
    rows, asks = (open(os.path.join(TOP, f"examples/nsfnet.{kind}"), encoding="ascii").read() for kind in ("journal", "requests"))
    one, three = ("--jobs", "1"), ("--jobs", "3", "--workers", "2")
    for fail, words in (("circuits", one), ("circuits", three), ("routers", one), ("pairs", three)):
        wanted = (0, "".join(f"{line}\n" for line in plain(rows, asks, fail)), "")
        checks.same(f"NSFNET, {fail} {words}", sweep(program.path, rows, asks, "--fail", fail, *words), wanted)
    for seed in range(4):
        compare_drawn(program, checks, seed, ("circuits", "routers")[seed % 2])


def compare_drawn(program, checks, seed, fail):
    """A whole output. Where the tool's is another one, rows are left out of the journal and of the requests."""
    def streams(some):
        """The journal and the requests of rows."""
        return tuple(counts_mended("".join(row for row in some if row.startswith("ask,") == is_ask)) for is_ask in (False, True))

    def is_taken(some):
        """Whether the rows that are left are a journal of batches that fit."""
        try:
            return publish(whole_batches(streams(some)[0]))[1] is None
        except Refused:
            return False

    def found(some):
        return sweep(program.path, *streams(some), "--fail", fail) if is_taken(some) else None

    def wanted(some):
        return (0, "".join(f"{line}\n" for line in plain(*streams(some), fail)), "") if is_taken(some) else None

    rows, asks = drawn(random.Random(seed))
    checks.true(f"drawn network {seed} is a journal", is_taken([rows, asks]))
    checks.stream(f"drawn network {seed}, {fail}", (rows + asks).splitlines(keepends=True), found, wanted)


def drawn(draw):
    """A network of two components, with parallel circuits, links of one way and a router without transit, and requests, some with hops
    of each kind."""
    puts, locals_ = [], []
    for at in range(draw.randrange(8, 14)):
        (one, other), free = draw.sample(range(1, 7), 2) if at else (7, 8), draw.choice([10, 20, 30])  # two by themselves
        ends = [(f"10.0.0.{number}", f"10.1.{at}.{number}") for number in (one, other)]
        two_ways = (link(*ends[0], *ends[1], draw.randrange(1, 4), free=free), link(*ends[1], *ends[0], draw.randrange(1, 4), free=free))
        puts += two_ways[:1 if draw.random() < 0.1 else 2]
        locals_.append(ends[0][1])

    def hop():
        """An interface, all interfaces of one circuit or of several, a router, or all of it."""
        return draw.choice([f"{draw.choice(locals_)}/32", f"{draw.choice(locals_)}/32", f"{draw.choice(locals_)}/24", "10.1.0.7/22",
                            "10.1.0.0/16",
                            f"10.0.0.{draw.randrange(1, 7)}/32", "10.0.0.0/30", "0.0.0.0/0"])

    def hops():
        texts = [f"{hop()}{draw.choice('sl')}" for _ in range(draw.choice([0, 0, 1, 1, 2]))]
        return object_of(texts) if texts and draw.random() < 0.3 else " ".join(texts)

    asks = []
    for at in range(14):
        head, tail = draw.sample(range(1, 7) if at else range(1, 9), 2)
        asks.append(ask(at, f"10.0.0.{head}", f"10.0.0.{tail}", draw.randrange(8), draw.choice([5, 10, 15]), hops=hops()))
    return journal(*puts, f"node,10.0.0.{draw.randrange(1, 7)},0\n"), "".join(asks)


def object_of(hops):
    """These hops as the route object that says the same."""
    parts = [(address_number(at).to_bytes(4, "big"), int(bits[:-1]), bits[-1] == "l") for at, bits in (hop.split("/") for hop in hops)]
    data = b"".join(bytes([1 | is_loose << 7, 8, *at, bits, 0]) for at, bits, is_loose in parts)
    return f"ero:{((4 + len(data)).to_bytes(2, 'big') + bytes([20, 1]) + data).hex()}"


def streams(program, checks):
    """Another program is begun before a stream has too many rows, and no program is written to that waits to be read."""
    stream = object.__new__(Solve)
    stream.rows, stream.process = MOST_ROWS - 5, None
    checks.same("the last rows of a stream", (stream.has_room(5), stream.has_room(6), MOST_ROWS), (True, False, 1_000_000))
    rows, asks = drawn(random.Random(1))
    wanted = sweep(program.path, rows, asks, "--fail", "pairs")
    checks.true("pairs of a drawn network", wanted[0] == 0 and wanted[1].count(" lost request ") > 50, wanted)
    for most, least in ((60, 10), (300, 3)):
        with tempfile.TemporaryDirectory() as room:
            path = wrapped(program, room, f"if count > {most}:\n    stop(9)")
            checks.same(f"streams of {most} rows", small(room, rows, asks, most, path), wanted)
            starts = [name.split(".")[0] for name in os.listdir(room)].count("solve")
            checks.true(f"streams of {most} rows, programs", starts >= least, starts)
    with tempfile.TemporaryDirectory() as room:
        many = "".join(ask(at, A, C, bandwidth=1) for at in range(5000))
        status, out, err = sweep(wrapped(program, room), RING, many)
        counts = re.findall(r"(?m)^scenario \d+ (lost=\d+ longer=.*)$", out)
        checks.same("more requests and replies than pipes hold", (status, counts, err),
                    (0, [f"lost=0 longer={longer} most={most} overbooked={full}"
                         for longer, most, full in ((5000, 5, 2), (0, 0, 0), (5000, 5, 2), (0, 0, 0))], ""))


def small(room, rows, asks, most, program):
    """A sweep of pairs by this Python, with programs that take so many rows."""
    for name, text in (("journal", rows), ("asks", asks)):
        with open(f"{room}/{name}", "w", encoding="ascii") as file:
            file.write(text)
    code = ("import sys\nfrom routed.sweep import failures, solving, sweep\n"
            f"solving.MOST_ROWS, failures.MOST_ASKS = {most}, 4\nsys.exit(sweep.main(sys.argv[1:]))")
    ran = subprocess.run([sys.executable, "-c", code, f"{room}/journal", f"{room}/asks", "--fail", "pairs", "--program", program],
                         capture_output=True, text=True, env={**os.environ, "PYTHONPATH": os.path.join(TOP, "python")})
    return ran.returncode, ran.stdout, ran.stderr
