"""PCCs that refuse updates, answer them in other words, or not at all, and LSPs that are down."""
import socket
import struct
import tempfile
import time

from pcep.played import GOING_UP, NORTH, SOUTH, Front, Pcc, report, rows

from routed.pcep import wire
from routed.pcep.lsp import WAITS
from routed.pcep.sids import Sids
from routed.pcep.wire import pack

NORTH_ERO, SOUTH_ERO = (wire.addresses_ero(route)[4:] for route in (NORTH, SOUTH))
TO_NORTH, TO_SOUTH = (f"PCUpd {' '.join(route)}" for route in (NORTH, SOUTH))


def begun(room, ero=SOUTH_ERO, more=(), **options):
    """A PCC that has delegated an LSP, whose best route is the north."""
    front = Front(tempfile.mkdtemp(dir=room), **options)
    front.publish(*rows(), *rows([(1, 4, 500)]))
    pcc = Pcc(front, is_sr=False)
    pcc.report(ero=ero, more=more)
    pcc.say(wire.message(10, *report(0, 0)))
    return front, pcc


def told_by(**words):
    """An answer by a report of this ERO, state or error."""
    return lambda srp, ero: wire.message(10, *report(srp=srp, **{"ero": SOUTH_ERO, **words}))


REFUSALS = [("its old ERO", told_by()), ("DOWN and the new ERO", told_by(ero=NORTH_ERO, state=0)), ("an empty ERO", told_by(ero=b"")),
            ("LSP-ERROR-CODE 4 and its old ERO", told_by(error=4)), ("LSP-ERROR-CODE 8 and the new ERO", told_by(ero=NORTH_ERO, error=8)),
            ("a third ERO", told_by(ero=wire.addresses_ero(["10.1.4.4"])[4:])),
            ("a PCErr", lambda srp, ero: wire.error(23, 0, pack(33, struct.pack("!II", 0, srp))))]


def refusals(checks, room):
    """An update that is refused is sent once, and again once the route that the PCC has kept is lost."""
    for name, answer in REFUSALS:
        front, pcc = begun(room)
        checks.same(f"refused by {name}: updates", (pcc.answered(answer), front.go_on(11, pcc)), (1, []))
        checks.same(f"refused by {name}: said and counted", (front.counted.get(("updates", "refused")), pcc.faults()[:1],
                                                             sum("refused the update" in line for line in front.said)), (1, ["refused"], 1))
        front.publish(*rows([(5, 6, 1)]))
        checks.same(f"refused by {name}: a version that changes nothing for it", (pcc.again(), front.go_on(100, pcc)), ([], []))
    front, pcc = begun(room)
    pcc.answered(told_by())
    front.publish("drop,10.0.0.1,10.1.3.1")
    pcc.session.again()
    checks.same("refused before: the route that was kept is lost", pcc.answered(told_by()), 1)
    checks.same("and that is said and counted", (pcc.faults(), any("may not be used any more" in line for line in front.said)),
                (["refused", "lost"], True))
    checks.same("refused before: still lost", (pcc.again(), front.go_on(300, pcc)), ([], []))
    front.publish(*rows([(1, 3, 100)]))
    checks.same("refused before: it is there again", (pcc.again(), pcc.faults()), ([], ["refused"]))
    front.publish("drop,10.0.0.1,10.1.3.1")
    checks.same("refused before: lost again", pcc.again(), [TO_NORTH])
    front, pcc = begun(room)
    pcc.answered(told_by())
    front.publish(*rows([(1, 3, 1), (3, 4, 1)]))
    checks.same("refused before: its route is the best now", (pcc.again(), pcc.faults()), ([], []))
    front.publish(*rows([(1, 3, 100), (3, 4, 100)]))
    checks.same("refused before: another best route, and the refused one again", (pcc.again(), front.go_on(10, pcc)), ([], [TO_NORTH]))
    for seconds, refused in ((0, None), (9, None), (11, 1)):
        front, pcc = begun(room)
        (srp, _), = pcc.updates()
        pcc.report(ero=NORTH_ERO, srp=srp, state=0)
        checks.same(f"DOWN for {seconds} s: refused or not", (front.go_on(seconds, pcc), front.counted.get(("updates", "refused"))),
                    ([], refused))
        checks.same("DOWN at first, and then UP: it is accepted", (pcc.report(ero=NORTH_ERO, srp=srp), pcc.faults()), ([], []))
    front, pcc = begun(room)
    (srp, _), = pcc.updates()
    checks.same("GOING-UP is no refusal", (pcc.report(ero=NORTH_ERO, srp=srp, state=GOING_UP), pcc.faults()), ([], []))
    front, pcc = begun(room)
    for _ in range(30):
        pcc.report(ero=NORTH_ERO)
        pcc.report(ero=SOUTH_ERO)
    checks.same("a PCC that goes back by itself, again and again", len([1 for key in front.counted if key[0] == "moves"]), 1)
    front, pcc = begun(room)
    for number in range(30):  # another bandwidth each time, which the best route has or hasn't
        front.network.reach(front.version)
        pcc.say(wire.message(10, *report(ero=SOUTH_ERO, more=[pack(5, struct.pack("!f", 2e8 * (number % 2)))])))
    checks.true("constraints that a PCC changes all the time", len(pcc.updates()) <= 5)


def words(far, near, label=0):
    """One hop in different words: its subobjects."""
    here, there = (socket.inet_aton(address) for address in (near, far))
    return {"both ends of each circuit": bytes([1, 8]) + here + bytes([32, 0, 1, 8]) + there + bytes([32, 0]),
            "near ends alone": bytes([1, 8]) + here + bytes([32, 0]),
            "prefixes of 29 bits": bytes([1, 8]) + there + bytes([29, 0]),
            "both ends as prefixes": bytes([1, 8]) + here + bytes([29, 0, 1, 8]) + there + bytes([29, 0]),
            "L bits": bytes([0x81, 8]) + there + bytes([32, 0]),
            "Router IDs": bytes([1, 8]) + socket.inet_aton(f"10.0.0.{far.split('.')[3]}") + bytes([32, 0]),
            "another last byte of each subobject": bytes([1, 8]) + there + bytes([32, 1])}


def nears(route):
    """The near address of each link of a route by far addresses from router 1."""
    at = "1"
    for far in route:
        _, a, b, there = far.split(".")
        yield f"10.{a}.{b}.{at}"
        at = there


def in_words(route, name):
    return b"".join(words(far, near)[name] for far, near in zip(route, nears(route)))


def other_words(checks, room):
    """EROs are compared as routes."""
    loopback = bytes([1, 8]) + socket.inet_aton("10.0.0.1") + bytes([32, 0])
    ways = {name: (lambda route, name=name: in_words(route, name)) for name in words(NORTH[0], "10.1.2.1")}
    ways["its own loopback first"] = lambda route: loopback + wire.addresses_ero(route)[4:]
    for name, write in ways.items():
        front, pcc = begun(room)
        found = pcc.answered(lambda srp, ero: wire.message(10, *report(ero=write(NORTH), srp=srp)))
        checks.same(f"in other words, {name}: updates", (found, pcc.faults()), (1, []))
        front.publish(*rows([(5, 6, 1)]))
        checks.same(f"in other words, {name}: another version", pcc.again(), [])
        front.publish("drop,10.0.0.1,10.1.2.1")
        checks.same(f"in other words, {name}: it is lost", (pcc.again(), front.counted.get(("moves", "lost"))), ([TO_SOUTH], 1))
        front, pcc = begun(room, write(NORTH), gain=100)
        checks.same(f"in other words, {name}: its best route from the beginning", pcc.messages(), [])
        front, pcc = begun(room, write(SOUTH), gain=100)
        checks.same(f"in other words, {name}: a route that is kept", (pcc.messages(), front.go_on(100, pcc)), ([], []))
    for name, ero in (("a router that isn't there", wire.addresses_ero(["10.9.9.9"])[4:]), ("IPv6", bytes([2, 20]) + bytes(18)),
                      ("an unnumbered interface", bytes([4, 12, 0, 0]) + bytes(8)), ("an AS", bytes([32, 4, 0, 1])),
                      ("a part of a route", wire.addresses_ero(NORTH[:1])[4:])):
        front, pcc = begun(room, NORTH_ERO)
        front.publish(*rows([(1, 3, 1), (3, 4, 1)]))
        pcc.session.again()
        found = pcc.answered(lambda srp, _: wire.message(10, *report(ero=ero, srp=srp)))
        checks.same(f"a route that can't be read, {name}: updates", (found, pcc.faults()), (1, ["unknown"]))
        for _ in range(3):
            front.publish(*rows([(5, 6, 1)]))
            checks.same(f"a route that can't be read, {name}: not moved at each version", (pcc.again(), front.go_on(70, pcc)), ([], []))
        checks.same(f"a route that can't be read, {name}: said once", sum("can't be read" in line for line in front.said), 1)
        front.publish("drop,10.0.0.1,10.1.3.1")
        checks.same(f"a route that can't be read, {name}: its best route changes", pcc.again(), [TO_NORTH])
    labels(checks, room)
    long(checks, room)


def long(checks, room):
    """EROs that lead to and fro, and then nowhere: they cost little time."""
    for count in (1024, 8000):
        front, pcc = begun(room, NORTH_ERO)
        front.publish(*(row for at in range(5, 60) for row in rows([(1, at, 1000)])))
        ero = wire.addresses_ero(["10.1.2.2", "10.1.2.1"] * (count // 2) + ["10.9.9.9"])[4:]
        pcc.report(ero=ero)
        pcc.report(ero=ero, srp=pcc.session.lsps.srp)
        spent = time.process_time()
        for _ in range(10):
            pcc.session.again()
        spent = time.process_time() - spent
        checks.true(f"an ERO of {count} hops: seconds of ten looks", spent < 2 and pcc.faults() == ["unknown"], (spent, pcc.faults()))
        checks.same(f"an ERO of {count} hops: updates", pcc.updates(), [])


def labels(checks, room):
    """Segments without their addresses."""
    path = tempfile.mkdtemp(dir=room) + "/sids"
    with open(path, "w") as file:
        file.writelines(f"sid,1,10.0.0.{a},10.{min(a, b)}.{max(a, b)}.{a},{15000 + 10 * a + b}\n"
                        for a, b in ((1, 2), (2, 4), (1, 3), (3, 4)))
    front = Front(tempfile.mkdtemp(dir=room), Sids(path))
    front.publish(*rows())
    pcc = Pcc(front)
    pcc.report(setup_type=1)
    pcc.say(wire.message(10, *report(0, 0)))

    def bare(srp, ero):
        hops = b"".join(struct.pack("!BBHI", 36, 8, 9, struct.unpack_from("!I", ero, at + 4)[0]) for at in range(0, len(ero), 16))
        return wire.message(10, *report(ero=hops, srp=srp, setup_type=1))

    checks.same("segments by their SIDs alone: updates", (pcc.answered(bare), pcc.faults()), (1, []))
    front.publish("drop,10.0.0.1,10.1.2.1")
    checks.same("segments by their SIDs alone: lost", (pcc.again(), front.counted.get(("moves", "lost"))),
                ([f"{TO_SOUTH} labels [15013, 15034]"], 1))
    south = wire.segments_ero([("10.1.3.1", SOUTH[0], 15013), ("10.3.4.3", SOUTH[1], 15034)])[4:]
    checks.same("segments as they were sent", pcc.report(ero=south, srp=2, setup_type=1), [])
    with open(path, "a") as file:
        file.write("sid,2,10.0.0.3,10.3.4.3,77\n")
    checks.same("segments of another label are another route", pcc.again(), [f"{TO_SOUTH} labels [15013, 77]"])
    node = struct.pack("!BBHI4s", 36, 12, 1 << 12 | 1, 16004 << 12, socket.inet_aton("10.0.0.4"))
    pcc.report(ero=node, srp=3, setup_type=1)
    checks.same("a node SID can't be read as links", (pcc.updates(), front.go_on(70, pcc), pcc.faults()), ([], [], ["unknown"]))


def silences(checks, room):
    """An update that isn't answered is no longer waited for after 10 s, and is sent again after 10, 20, 40 and then each 60 s."""
    front, pcc = begun(room)
    pcc.messages()
    found = []
    while front.time < 400:
        found += len(front.go_on(1, pcc)) * [front.time]
    checks.same("an update without an answer is sent again", found, [10.0, 30.0, 70.0, 130.0, 190.0, 250.0, 310.0, 370.0])
    checks.same("the waits have names", WAITS, (10, 20, 40, 60))
    checks.same("said once, and counted", (sum("answered no update" in line for line in front.said), pcc.faults(),
                                           front.counted["updates", "unanswered"]), (1, ["silent"], len(found) + 1))
    found = pcc.report(ero=NORTH_ERO, srp=pcc.session.lsps.srp)
    checks.same("its answer at last", (found, pcc.faults(), front.go_on(100, pcc)), ([], [], []))
    front, pcc = begun(room)
    pcc.messages()
    front.publish("drop,10.0.0.1,10.1.3.1")
    checks.same("lost while an update waits for its answer", pcc.again(), [])
    checks.same("it is sent again, though no version comes", front.go_on(10, pcc), [TO_NORTH])
    front.go_on(11, pcc)
    checks.same("and that is counted", pcc.faults(), ["silent", "lost"])
    front, pcc = begun(room, NORTH_ERO)
    front.publish(*rows([(1, 3, 1), (3, 4, 1)]))
    checks.same("an update to the south", pcc.again(), [TO_SOUTH])
    front.go_on(11, pcc)
    pcc.report(ero=NORTH_ERO)
    front.publish("drop,10.0.0.1,10.1.2.1", "drop,10.0.0.1,10.1.3.1", *rows([(1, 4, 1000)]))
    checks.same("an update that was dropped: the next report is believed", pcc.again(), ["PCUpd 10.1.4.4"])
    front, pcc = begun(room, SOUTH_ERO)
    pcc.report(ero=NORTH_ERO, srp=pcc.updates()[0][0])
    checks.same("one that goes back by itself has to wait", pcc.report(ero=SOUTH_ERO), [])
    front.publish("drop,10.0.0.1,10.1.3.1")
    checks.same("but not once that route is lost", pcc.again(), [TO_NORTH])
    front, pcc = begun(room)
    pcc.messages()
    for _ in range(30):
        front.publish(*rows([(1, 3, 1 + front.version % 2 * 200)]))
        pcc.again()
        front.go_on(4, pcc)
    checks.same("one that never answers, while each version has another route", pcc.faults(), ["silent"])


def downs(checks, room):
    """An LSP that is down on a route that may be used."""
    front, pcc = begun(room, NORTH_ERO)
    pcc.messages()
    checks.same("DOWN on its best route", (pcc.report(ero=NORTH_ERO, state=0), pcc.faults()), ([], ["down"]))
    checks.same("DOWN is said once", (pcc.report(ero=NORTH_ERO, state=0), sum("is DOWN" in line for line in front.said)), ([], 1))
    front.publish(*rows([(1, 3, 100)]))
    checks.same("DOWN: a version that doesn't touch it", (pcc.again(), front.go_on(100, pcc)), ([], []))
    for name, change in (("one of its links", [*rows([(2, 4, 50)])][:1]), ("the other direction", [*rows([(2, 4, 50)])][1:]),
                         ("the mark of a router", ["node,10.0.0.2,1"])):
        front.publish(*change)
        pcc.session.again()
        checks.same(f"DOWN: a version that touches {name}", (pcc.answered(told_by(ero=NORTH_ERO, state=0)), pcc.again()), (1, []))
    front.publish(*rows([(2, 4, 50)]))
    checks.same("DOWN: a try that succeeds", (pcc.again(), pcc.report(ero=NORTH_ERO, srp=pcc.session.lsps.srp), pcc.faults()),
                ([TO_NORTH], [], []))
    front, pcc = begun(room, SOUTH_ERO, gain=100)
    checks.same("DOWN on a route that would be kept for its gain", pcc.report(ero=SOUTH_ERO, state=0), [TO_NORTH])
    front, pcc = begun(room, NORTH_ERO)
    checks.same("DOWN as its operator wants it", (pcc.report(flags=1, ero=NORTH_ERO, state=0), pcc.faults()), ([], []))
    checks.same("an LSP-ERROR-CODE by itself is no refusal", (pcc.report(ero=NORTH_ERO, error=7, state=0), pcc.faults()), ([], ["down"]))
    checks.true("and the line has its name", front.said[-1].endswith("LSP-ERROR-CODE 7 (LSP preempted)"), front.said[-1])
