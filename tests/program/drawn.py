"""Requests on drawn networks."""
import random

from reference import runs
from reference.changes import circuits, mark_rows, mixed, row_of
from reference.formats import Network


def drawn(program, checks):
    """Requests on drawn networks with many ties, of which a tenth of the circuits has one direction alone and every third has
    routers without transit, compared with tests/reference/runs.py: by the search, and the replies by the plain one of an audit."""
    def hops(draw):
        bits = [draw.choice([0, 8, 24, 30, 31, 32, 32, 32]) for _ in range(draw.choice([0, 0, 1, 1, 2, 3, 7]))]
        ends = [(draw.choice(["10.0.0", "172.16.0"]), draw.randrange(12)) for _ in bits]
        if bits and draw.random() < 0.3:
            parts = b"".join(bytes([draw.choice([1, 129]), 8, *map(int, top.split(".")), end, n, draw.randrange(256)])
                             for (top, end), n in zip(ends, bits))
            return "ero:" + (bytes([0, 4 + len(parts), 20, 1]) + parts).hex()
        return " ".join(f"{top}.{end}/{n}{draw.choice('sl')}" for (top, end), n in zip(ends, bits))

    asked, told = 0, 0  # with routers without transit, and answered otherwise were there none
    for seed in range(120):
        draw, has_marks = random.Random(seed), seed % 3 == 2  # there with more requests that have a route
        count, network, links, rows, wanted = draw.randrange(3, 10), Network(), {}, [], []
        for version in range(1, 5):
            changes = []
            for near, far in circuits(draw, links, count, 24, draw.randrange(1, 3 * count), draw.randrange(3)).items():
                free = ",".join(str(draw.choice([0, 5, 10])) for _ in range(8))
                changes.append(row_of(near, far, f"{draw.choice([0, 1, 1, 2, 3])},0x{draw.randrange(8):x},{free}"))
            if has_marks:
                mixed(draw, changes, mark_rows(draw, count, draw.randrange(1, 1 + count // 2)))
            for row in changes:
                network.change(row.split(","))
            rows += [*(f"{row}\n" for row in changes), f"end,{version},{len(changes)}\n"]
            wanted.append(f"version {version}")
            for at in range(15 * version, 15 * version + 15):
                a, b = draw.sample(range(count + 1), 2)
                masks = ",".join(draw.choice(["0x0", "0x0"] + ["0x1", "0x6"] * (not has_marks or at % 4 == 0)) for _ in range(3))
                rate = draw.choice([0, 5, 10][:1 if has_marks and at % 2 else 3])
                rows.append(f"ask,{at},10.0.0.{a},10.0.0.{b},{draw.randrange(8)},{rate},{masks},{hops(draw)}\n")
                wanted.append(network.reply(version, rows[-1]))
                if network.marks:
                    asked += 1
                    told += wanted[-1] != Network(network.links).reply(version, rows[-1])
        kept = "".join(row for row in rows if not row.startswith("ask,"))
        last = (0, "".join(f"{line}\n" for line in [*(f"version {at}" for at in range(1, 5)), *wanted[-15:]]).encode(), b"")
        checks.same(f"drawn network {seed} as a journal", program.batch(kept, "".join(rows[-15:])), last)
        asks = "".join(row for row in rows if row.startswith("ask,"))
        judged = program.audit(kept, asks, "".join(f"{line}\n" for line in wanted))
        checks.same(f"drawn network {seed} audited", judged, (0, b"good=60 faults=0\n", b""))

        def right(some):
            status, lines = runs.solve("".join(some)) if some != rows else (0, wanted)
            return status, "".join(f"{line}\n" for line in lines).encode(), b""

        checks.stream(f"drawn network {seed}", rows, lambda some: program.solve("".join(some)), right)
    checks.true("requests where routers have no transit", asked > 2000 and told > 250, (asked, told))
    print(f"drawn: 7,200 requests, {asked:,} of them with routers without transit, {told:,} of these answered otherwise than without marks")
