"""LSPs that are delegated: their updates, routes of earlier versions, and answers that come too late."""
import os
import random
import socket
import struct
import tempfile

from pcep.played import NORTH, SOUTH, Front, Pcc, bandwidth, hop, ip, lspa, report_of, rows, told, told_one
from reference import formats
from reference.formats import Network

from routed.pcep import wire
from routed.pcep.network import Network as Followed
from routed.pcep.requests import Request
from routed.pcep.wire import pack, tlv


def lost(pcc):
    return sum(lsp.is_lost for lsp in pcc.session.lsps.all.values())


def delegated(checks, room):
    """LSPs that are reported, moved, kept, lost and found."""
    def begun(ero=b"", **options):
        made = tempfile.mkdtemp(dir=room)
        front = Front(made, **options)
        front.publish(*rows())
        pcc = Pcc(front, is_sr=False)
        checks.same("before the end of the synchronization", pcc.report(ero=ero), [])
        return front, pcc, pcc.report(0, 0)

    north, south = (b"".join(bytes([1, 8]) + socket.inet_aton(far) + bytes([32, 0]) for far in route) for route in (NORTH, SOUTH))
    to_north, to_south = f"PCUpd {' '.join(NORTH)}", f"PCUpd {' '.join(SOUTH)}"
    front, pcc, found = begun()
    checks.same("an LSP without a path", found, [to_north])
    checks.same("it is reported", pcc.report(ero=north, srp=1), [])
    checks.same("the same version", pcc.again(), [])
    front.publish("drop,10.0.0.1,10.1.2.1")
    checks.same("a circuit goes", pcc.again(), [to_south])
    checks.same("a report of before the update", pcc.report(ero=north), [])
    checks.same("a report of the update", pcc.report(ero=south, srp=2), [])
    front.publish("drop,10.0.0.1,10.1.3.1")
    checks.same("no route", (pcc.again(), lost(pcc), front.counted["moves", "none"], "has no route" in front.said[-1]), ([], 1, 1, True))
    checks.same("said once", (pcc.again(), front.counted["moves", "none"]), ([], 1))
    front.publish(*[row for row in rows() if row.startswith("put,10.0.0.1,")])
    checks.same("all is back", (pcc.again(), lost(pcc)), ([to_north], 0))
    for gain in (0, 2, 50, 100):  # one batch takes the route away, and brings another that costs 1 % less
        front, pcc, found = begun(north, gain=gain, calm=86400)
        checks.same(f"gain {gain}: it has its route", found, [])
        front.publish("drop,10.0.0.1,10.1.2.1", *rows([(1, 3, 49), (3, 4, 50)]))
        checks.same(f"gain {gain}: a lost route", (pcc.again(), front.counted.get(("moves", "lost"))), ([to_south], 1))
    for gain, cost, wanted in [(2, 49, []), (2, 48, [to_south]), (0, 49, [to_south]), (0, 50, []), (50, 1, []), (49, 1, [to_south])]:
        front, pcc, _ = begun(north, gain=gain)
        front.publish(*rows([(1, 3, cost), (3, 4, 50)]))
        checks.same(f"gain {gain}, from 100 to {cost + 50}", pcc.again(), wanted)
    for change in ("node,10.0.0.2,0", "drop,10.0.0.2,10.1.2.2", *[row.replace("0x1", "0x2") for row in rows([(2, 4, 50)])][:1]):
        front, pcc, _ = begun(north, gain=100)
        pcc.report(ero=north, more=[lspa(all_=1)])
        front.publish(change)
        checks.same(f"lost by {change[:24]}", pcc.again(), [to_south])
    for attributes, wanted in [([lspa(exclude=2)], [to_south]), ([bandwidth(1000)], []), ([bandwidth(1001)], [to_south])]:
        front, pcc, _ = begun(north, gain=100)
        pcc.report(ero=north, more=attributes)
        front.publish(*(row.replace("0x1", "0x3").replace("125000000", "1000") for row in rows([(2, 4, 50)])),
                      *rows([(1, 3, 1), (3, 4, 1)]))
        checks.same("a circuit that is in a group, and has less to give", pcc.again(), wanted)
    front, pcc, _ = begun(north, calm=100)
    front.publish(*rows([(1, 3, 40), (3, 4, 50)]))
    checks.same("calm: the first move", pcc.again(), [to_south])
    pcc.report(ero=south, srp=1)
    front.publish(*rows([(1, 2, 30)]))
    checks.same("calm: the next waits", (pcc.again(), front.go_on(99, pcc)), ([], []))
    checks.same("calm: and comes", front.go_on(1, pcc), [to_north])
    checks.same("calm: no timer of the loop", front.laters, [])
    front, pcc, _ = begun(north)
    front.held = []
    front.publish(*rows([(1, 3, 1), (3, 4, 1)]))
    asked = pcc.again()
    front.publish("drop,10.0.0.1,10.1.3.1")
    front.network.reach(3)
    call, line = front.held.pop()
    call(line)
    checks.same("an answer of before the last version", (asked, " v2 route " in line, pcc.again(), len(front.held)), ([], True, [], 1))
    call, line = front.held.pop()
    call(line)
    checks.same("the one after it", (pcc.messages(), " v3 route " in line, front.held), ([], True, []))
    front, pcc, _ = begun(south)
    checks.same("a PCC that refuses", told_one(pcc, wire.error(23, 0, pack(33, struct.pack("!II", 0, 1)))), [])
    checks.same("isn't told the same again", pcc.again(), [])
    checks.same("revoked", (pcc.report(flags=8, ero=south), front.publish("drop,10.0.0.1,10.1.3.1"), pcc.again()), ([], None, []))
    checks.same("delegated again", pcc.report(flags=9, ero=south), [to_north])
    checks.same("removed", (pcc.report(flags=13), pcc.session.lsps.all), ([], {}))
    front, pcc, _ = begun(north)
    front.owned = True
    checks.same("an LSP of another PCC", pcc.report(2, ero=north), [f"{to_north} returned"])
    for name, objects, wanted in [("no LSP", [pack(33, bytes(8))], "PCErr 6/8"), ("nothing", [], "PCErr 6/8"),
                                  ("no ERO", [pack(32, struct.pack("!I", 9 << 12) + tlv(18, bytes(16)))], "PCErr 6/9"),
                                  ("no name", [pack(32, struct.pack("!I", 9 << 12) + tlv(18, bytes(16))), pack(7, b"")], "PCErr 6/14"),
                                  ("no identifiers", [pack(32, struct.pack("!I", 9 << 12) + tlv(17, b"a")), pack(7, b"")], "PCErr 6/11")]:
        checks.same(f"a report with {name}", told_one(pcc, wire.message(10, *objects)), [wanted])
    front, pcc, _ = begun(north)
    front.held = []
    front.publish("drop,10.0.0.1,10.1.2.1")
    pcc.again()
    front.publish(*rows([(1, 2, 50)]))
    pcc.again()
    checks.same("one ask at a time", len(front.held), 1)
    call, line = front.held.pop()
    call(line)
    checks.same("and it is asked again", len(front.held), 1)


def changes(draw, network):
    """A batch: circuits that come, change and go, and marks."""
    found = {}
    if draw.random() < 0.3:  # a link whose other direction goes elsewhere
        a, b, far = draw.sample(range(1, 9), 3)
        a, b = min(a, b), max(a, b)
        key = f"10.0.0.{a}", f"10.{a}.{b}.{a}"
        found[key] = f"put,{key[0]},{key[1]},10.0.0.{far},10.{a}.{b}.{b},1,0x7,{','.join(['4000'] * 8)}"
    for _ in range(draw.randrange(1, 8)):
        a, b = sorted(draw.sample(range(1, 9), 2))
        cost, which, group = draw.randrange(1, 9), draw.randrange(2), draw.randrange(8)
        free = sorted((draw.choice((500, 1000, 4000)) for _ in range(8)), reverse=True)
        for near, far in ((a, b), (b, a)):
            key = f"10.0.0.{near}", f"10.{a}.{b}.{near + 100 * which}"
            is_there = tuple(map(formats.address_number, key)) in network.links
            if is_there and draw.random() < 0.4:
                found[key] = f"drop,{key[0]},{key[1]}"
            else:
                there = f"10.0.0.{far},10.{a}.{b}.{far + 100 * which}"
                found[key] = f"put,{key[0]},{key[1]},{there},{cost},0x{group:x},{','.join(map(str, free))}"
    if draw.random() < 0.3:
        router = f"10.0.0.{draw.randrange(1, 9)}"
        found[router] = f"node,{router},{draw.randrange(2)}"
    return [*found.values()]


def followed(checks, room):
    """What routes of earlier versions cost now, and which of them may not be used any more, against the reference."""
    draw, front, networks, routes, faults, costs = random.Random(21), Front(room), [Network()], [], [], {True: 0, False: 0}
    for number in range(1, 81):
        batch = changes(draw, networks[-1])
        networks.append(networks[-1].after([formats.row(row.split(",")) for row in batch]))
        front.publish(*batch)
        if number % 2:  # the journal is two versions ahead
            continue
        for version in (number - 1, number):
            network = networks[version]
            if not front.network.reach(version):
                faults.append(("not at version", version))
            for request, group, asked, route in routes:
                wanted = cost_of(network, asked, route)
                costs[wanted is not None] += 1
                if len(route) > 1 and front.network.cost(request.asked(group), route[:-1]) is not None:
                    faults.append((version, "without its last link", route))
                if front.network.cost(request.asked(group), route) != wanted:
                    faults.append((version, asked, route, wanted, front.network.cost(request.asked(group), route)))
            request, group = drawn_ask(draw)
            asked = formats.row(f"ask,1,{request.row(group)}".split(","))[1]
            walk = network.least(asked)
            if walk:
                routes.append((request, group, asked, [formats.address_text(link["remote"]) for link in walk]))
    checks.same("routes of earlier versions", faults[:2], [])
    checks.true("some may be used, and some may not", min(costs.values()) > 100, costs)
    folder = os.path.join(room, "journals")
    os.mkdir(folder)
    for at, name in enumerate(("2.journal", "1.journal", "other")):
        with open(os.path.join(folder, name), "w") as file:
            file.write(f"{[*rows()][at]}\nend,1,1\n")
        os.utime(os.path.join(folder, name), (at, at))
    network = Followed(folder)
    checks.same("the newest journal of a folder", (network.reach(1), [*network.rows]), (True, [("10.0.0.2", "10.1.2.2")]))


def drawn_ask(draw):
    """A request without hops, and a group."""
    request = Request()
    request.ends = tuple(f"10.0.0.{at}" for at in draw.sample(range(1, 9), 2))
    request.setup, request.bandwidth = draw.randrange(8), draw.choice((0, 500, 1000))
    request.masks = tuple(draw.choice((0, 0, 1 << draw.randrange(3), 3)) for _ in range(3))
    return request, draw.choice((0, 0, 1))


def cost_of(network, asked, route):
    """The cost of a route by the reference's words; None where a link of it isn't admissible, or a marked router is passed."""
    at, cost = asked["from"], 0
    for number, far in enumerate(map(formats.address_number, route)):
        there = [link for link in network.links.values()
                 if link["from"] == at and link["remote"] == far and formats.admissible(network, link, asked)]
        if not there or not formats.may_leave(network, at, number):
            return None
        at, cost = there[0]["to"], cost + min(link["metric"] for link in there)
    return cost if at == asked["to"] else None


def races(checks, room):
    """Answers that come when the network, the request or the LSP is another one already."""
    north, south = wire.addresses_ero(NORTH)[4:], wire.addresses_ero(SOUTH)[4:]
    to_north, to_south = f"PCUpd {' '.join(NORTH)}", f"PCUpd {' '.join(SOUTH)}"

    def begun(*reports, **options):
        front = Front(tempfile.mkdtemp(dir=room), **options)
        front.publish(*rows())
        pcc = Pcc(front, is_sr=False)
        for number, ero in reports:
            pcc.report(number, ero=ero, name=b"%d" % number)
        pcc.report(0, 0)
        return front, pcc

    front, pcc = begun((1, north), (2, north))
    front.held = []
    front.publish("drop,10.0.0.1,10.1.2.1")
    pcc.again()
    (first, old), (second, _) = front.held
    front.publish(*rows([(1, 2, 50)]))
    front.held = []
    second(front.reference.reply(3, "ask,1,10.0.0.1,10.0.0.4,7,0,0x0,0x0,0x0,"))
    front.network.reach(3)
    first(old)
    checks.same("an answer older than the network is asked for again", ([told(*one) for one in pcc.messages()], len(front.held)), ([], 1))
    front, pcc = begun((1, north))
    front.held = []
    pcc.again()
    pcc.report(1, ero=north, name=b"1", more=[lspa(exclude=2)])
    front.publish(*(row.replace("0x1", "0x3") for row in rows([(2, 4, 50)])))
    front.version = 1
    (call, line), = front.held
    front.held = []
    call(line)
    checks.same("an answer to the request of before is asked for again", len(front.held), 1)
    front, pcc = begun((1, south), gain=60)
    front.options.gain = 0
    front.publish(*rows([(1, 3, 50), (3, 4, 50)]))
    checks.same("a route that costs as much as the best stays", pcc.again(), [])
    front, pcc = begun((1, b"".join(bytes([1, 8]) + socket.inet_aton(far) + bytes([32, 1]) for far in NORTH)))
    checks.same("the same route in another form", (pcc.again(), [key for key in front.counted if key[0] == "moves"]), ([], []))
    front, pcc = begun((1, north), gain=100)
    checks.same("an LSP with an IRO is always moved", pcc.report(1, ero=north, name=b"1", more=[pack(10, hop(3), must=True)]), [to_south])
    front, pcc = begun((1, south))
    pcc.messages()
    pcc.report(1, ero=north, name=b"1")
    checks.same("an update that is reported without its number", pcc.session.lsps.all[1].waits, False)
    for flags in (9, 1):
        front, pcc = begun()
        pcc.say(report_of(1, flags))
        (_, objects), = pcc.messages()
        checks.same(f"the flags of an update of one with {flags}", objects[1].body[3] & 15, flags)
    front, pcc = begun()
    checks.same("a setup type without SIDs is given back", pcc.report(1, ero=north, setup_type=1, srp=5), [f"{to_north} returned"])
    same_ends = tlv(17, b"a") + tlv(18, ip(1) + bytes(8) + ip(1))
    found = told_one(pcc, wire.message(10, pack(32, struct.pack("!I", 2 << 12 | 9) + same_ends), pack(7, north)))
    checks.same("ends that are the same are given back", found, [f"{to_north} returned"])
