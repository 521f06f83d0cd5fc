"""The tools' test whether a route may take a link (`Database.why_not`), on drawn links, against tests/reference/formats.py."""
import random

from reference import excepts, formats

from routed.model import Batch, Database, Request
from routed.model.journals import records

LINKS = 10_000
WORDS = {"exclude-any", "include-any", "include-all", "bandwidth", "one-way", "marked", None}  # None where it may take the link
ROUTERS, INTERFACES = [f"10.0.0.{at}" for at in range(1, 9)], [f"10.1.0.{at}" for at in range(1, 7)]


def network_rows(draw):
    """Circuits, of which some lack a direction or have another far end, links and marks."""
    links = {}
    for _ in range(24):
        one, other = ((router, draw.choice(INTERFACES)) for router in draw.sample(ROUTERS, 2))
        links[one] = other
        if draw.random() < 0.9:
            links[other] = one
    free = [draw.choice((0, 1, 999, 1000, 1001, 2**64 - 1)) for _ in range(8 * len(links))]
    for at, (near, far) in enumerate(links.items()):
        yield f"put,{','.join(near + far)},{draw.randrange(9)},0x{draw.randrange(16):x},{','.join(map(str, free[8 * at:8 * at + 8]))}"
    for router in draw.sample(ROUTERS, 2):
        yield f"node,{router},0"


def ask_row(draw):
    head, tail = draw.sample(ROUTERS, 2)
    masks = ",".join(f"0x{draw.choice((0, 0, 0, 1, 2, 3, 6, 12)):x}" for _ in range(3))
    return f"ask,1,{head},{tail},{draw.randrange(8)},{draw.choice((0, 0, 1, 1000, 2**64 - 1))},{masks},"


def question_row(draw):
    """An `ask` row, or an `except` row."""
    row = ask_row(draw)
    if draw.random() < 0.6:
        return row
    parts = [f"{draw.choice(ROUTERS + INTERFACES)}/{draw.choice((32, 32, 31, 30, 29))}{draw.choice('ir')}" for _ in range(2)]
    return f"except{row.removeprefix('ask')},{' '.join(parts[draw.randrange(2):])}"


def read(row):
    """The request of a row, and the parts that it excludes."""
    fields = row.split(",")
    return excepts.question(fields) if fields[0] == "except" else (formats.row(fields)[1], [])


def word(network, link, asked, is_onward, parts=()):
    """What is excluded comes first, and then the first reason in the order of docs/run/FORMATS.md. Each is the reference's, asked of a
    request that has that one constraint."""
    if link not in excepts.without(network, parts).links.values():
        return "excluded"
    nothing = {"exclude_any": 0, "include_any": 0, "include_all": 0, "bandwidth": 0, "setup": asked["setup"]}
    for name in ("exclude_any", "include_any", "include_all", "bandwidth"):
        if not formats.accepts(link, {**nothing, name: asked[name]}):
            return name.replace("_", "-")
    if not formats.has_reverse(network, link):
        return "one-way"
    return None if formats.may_leave(network, link["from"], int(is_onward)) else "marked"


def admission(checks):
    """Each reason, and each link that is admissible, is what the reference says."""
    draw, seen, faults, count = random.Random(11), set(), [], 0
    while count < LINKS:
        rows, network, database = list(network_rows(draw)), formats.Network(), Database()
        rows.append(f"end,1,{len(rows)}")
        network = network.after([formats.row(row.split(",")) for row in rows[:-1]])
        database.apply(Batch.parse(list(records("\n".join(rows).encode()))))
        for link, wanted in zip(database.links(), (network.links[key] for key in sorted(network.links))):
            row, is_onward = question_row(draw), draw.random() < 0.5
            asked, parts = read(row)
            found, told = database.why_not(link, Request.parse(row.split(",")), is_onward), word(network, wanted, asked, is_onward, parts)
            left = excepts.without(network, parts)
            admits = wanted in left.links.values() and formats.admissible(left, wanted, asked)
            admits = admits and formats.may_leave(network, wanted["from"], int(is_onward))
            if found != told or (found is None) != admits:
                faults.append((link.text(), row, is_onward, found, told))
            seen.add(told)
            count += 1
    checks.same("links of which the tools say another word than the reference", faults[:3], [])
    checks.same("the words that were seen", seen, WORDS | {"excluded"})
