"""The messages of a lab, as a router there sent them, and the rows that its configuration and its events say."""
import os
import re

from feed.played import HERE, Feed, Router, fed, raw, row

# The lab: a circuit in each line, with its two routers, their addresses, costs and metrics of the TE LSAs, the
# bandwidth and the group. The last has nothing configured, and a default of 10 Gbit/s that wrapped.
LAB = [(1, 2, "10.1.12.2", "10.1.12.3", 10, 10, 125000000, 0x1), (1, 2, "10.2.12.2", "10.2.12.3", 30, 30, 1250000000, 0x2),
       (1, 3, "10.1.13.1", "10.1.13.2", 11, 21, 125000000, 0x1), (2, 4, "10.1.24.2", "10.1.24.3", 20, 20, 125000000, 0x5),
       (3, 4, "10.1.34.1", "10.1.34.2", 500, 500, 1250000000, 0x80000000), (3, 5, "10.1.35.2", "10.1.35.3", 10, 10, 116250000, 0x1),
       (4, 6, "10.1.46.2", "10.1.46.3", 300, 300, 125000000, 0x3), (5, 6, "10.1.56.1", "10.1.56.2", 10, 10, 176258176, 0x0)]


def lab_rows():
    """The rows of the lab as it is configured, in order of their keys."""
    rows = []
    for one_end, other, local, remote, metric, back, free, group in LAB:
        ends = f"10.0.0.{one_end}", f"10.0.0.{other}"
        rows += [row(ends[0], local, ends[1], remote, metric, group, free), row(ends[1], remote, ends[0], local, back, group, free)]
    return sorted(rows, key=lambda each: [raw(part) for part in each.split(",")[1:3]])


def recorded():
    """What a real router sent, part by part, each with its seconds and its messages."""
    parts = {}
    for line in open(os.path.join(HERE, "captures/lab.messages")):
        if line.startswith("# "):
            name = line[2:].split(":")[0]
        else:
            after, data = line.split()
            parts.setdefault(name, []).append((float(after), bytes.fromhex(data)))
    return parts


def lab(checks):
    """The recorded messages of a lab make the rows that its configuration and its events say."""
    parts = {name: [data for _, data in messages] for name, messages in recorded().items()}
    router = Router()
    feed = Feed(router, "--verbose")
    router.send(b"".join(parts["base"]))
    checks.same("the lab as it is configured", feed.batch(), (lab_rows(), 1))
    taken = row("10.0.0.1", "10.1.13.1", "10.0.0.3", "10.1.13.2", 11, 1, 90000000)
    router.send(b"".join(parts["bandwidth"]))
    checks.same("bandwidth that is taken in eight commands", feed.batch(), ([taken], 2))
    here = row("10.0.0.2", "10.1.24.2", "10.0.0.4", "10.1.24.3", 20, 0x11, 125000000)
    there = row("10.0.0.4", "10.1.24.3", "10.0.0.2", "10.1.24.2", 20, 0x5, 125000000)
    router.send(b"".join(parts["group"]))
    checks.same("a group that changes", feed.batch(), ([here], 3))
    router.send(b"".join(parts["down"]))
    checks.same("a circuit that goes down", feed.batch(), (["drop,10.0.0.2,10.1.24.2", "drop,10.0.0.4,10.1.24.3"], 4))
    up = parts["up"]
    bare = next(at for at, data in enumerate(up) if data[1] == 12 and data[20 + 3] == 10 and data[28:32] == raw("10.0.0.2"))
    router.send(b"".join(up[:bare]))
    checks.same("one that comes up: the end that has told its bandwidth", feed.batch(), ([there], 5))
    router.send(b"".join(up[bare:]))
    checks.same("and then the other", feed.batch(), ([here], 6))
    router.hang_up()
    feed.again()
    again, after = [], 0.0
    for at, data in recorded()["restart"]:
        again += feed.rest(at - after)
        router.send(data)
        after = at
    checks.same("a router that starts anew: the bandwidth and group that it has again, and no drop", sorted(again + feed.rest()),
                [taken.replace("90000000", "125000000"), here.replace("0x00000011", "0x00000005")])
    said = feed.end()
    checks.true("though links were missed meanwhile", "ospf: left out, no TE LSA: 10.0.0.1 10.1.13.1\n" in said, said)
    checks.true("and all are there at last", said.endswith("ospf: 16 links; left out: none\n"), said)

    found, said = fed(*[b"".join(parts[name]) for name in ("base", "dead", "alive")], words=("--verbose",))
    gone = [each for each in lab_rows() if each.startswith("put,10.0.0.6,") or ",10.0.0.6," in each]
    checks.same("a router that dies without a word: its links and those to it go, though its LSAs stay", found[1],
                [",".join(["drop", *each.split(",")[1:3]]) for each in gone])
    checks.same("and come back with it", found[2],
                [re.sub("^(put,10.0.0.6,10.1.46.3,.*)0x00000003", r"\g<1>0x00000024", each) for each in gone])
    reasons = set(re.findall(r"^ospf: left out, (.*)$", said.split("ospf: 12 links;")[1], re.M))
    checks.same("the reasons", reasons, {"no adjacency: 10.0.0.4 10.1.46.2", "no adjacency: 10.0.0.5 10.1.56.1",
                                         "no adjacency back: 10.0.0.6 10.1.46.3", "no adjacency back: 10.0.0.6 10.1.56.2"})
