"""When LSPs that a book counts are moved and made, and what PCCs and the server refuse."""
import struct

from pcep.book_front import NORTH, SOUTH, amounts, begun, kinds, said, with_lsps
from pcep.played import lspa, metric, rows

from routed.pcep import wire
from routed.pcep.wanted import request_of
from routed.pcep.wire import pack


def circuits(checks, room):
    """A circuit fails and comes back, and one has less."""
    front, pcc = with_lsps(room, ("a", "124", 1e6), ("b", "124", 1e8), ("c", "134", 1e8), gain=100)
    front.server.base("drop,10.0.0.2,10.2.4.2")
    checks.same("the lost ones: one has room", sorted(front.server.routes().values()), [NORTH, SOUTH, SOUTH])
    checks.same("it is told so", pcc.told_, [(1, "34")])
    checks.same("the other stays, which is said once", said(front, "has no route"),
                ["10.0.0.1: LSP 'b' (2) has no route: none; its PCC keeps what it has"])
    since = len(front.server.rows)
    front.pass_time(5)
    checks.true("it isn't tried again without news", kinds(front, since).count("place") <= 1, kinds(front, since))
    front.server.base(*rows([(1, 4, 500)]))
    since = len(front.server.rows)
    pcc.remove(3)
    front.pass_time(1)
    checks.same("what is released gives room to the lost one", (sorted(front.server.routes().values()), pcc.told_[1:]),
                ([SOUTH, SOUTH], [(2, "34")]))
    front.server.base(*rows([(2, 4, 50)]))
    checks.same("a circuit that is back", (pcc.told_[2:], front.server.over), ([], []))
    front, pcc = with_lsps(room, ("a", "124", 1e6, 9, [lspa(setup=0)]), ("b", "124", 1e8, 9, [lspa(setup=5)]), gain=100)
    free = ",".join(["100000000"] * 8)
    front.server.base(f"put,10.0.0.2,10.2.4.2,10.0.0.4,10.2.4.4,50,0x1,{free}")
    checks.same("over: the least important one goes elsewhere", (pcc.told_, len(front.server.sums()), front.displaced.crowded),
                ([(2, "34")], 4, {}))
    front, pcc = with_lsps(room, ("a", "124", 1e8), ("b", "134", 1e8), gain=100)
    front.server.base(f"put,10.0.0.2,10.2.4.2,10.0.0.4,10.2.4.4,50,0x1,{','.join(['5'] * 8)}")
    front.pass_time(2)
    checks.same("over, and none can go: it is said once", said(front, "has less"),
                ["10.0.0.2,10.2.4.2 has less at priority 7 than is counted on it, and no LSP can be moved away"])
    front.server.base(*rows([(2, 4, 50)]))
    front.pass_time(1)
    checks.same("it has what it needs again", said(front, "counted on it again"), ["10.0.0.2,10.2.4.2 has what is counted on it again"])


def order(checks, room):
    """Which of several lost placements has the room that there is, and which one goes from a link that has too little."""
    for holds, first in (((7, 0), "b"), ((0, 7), "a"), ((3, 2), "b"), ((5, 5), None)):
        front, pcc = with_lsps(room, *((name, "124", 6e7, 9, [lspa(setup=hold)]) for name, hold in zip("ab", holds)))
        free = ",".join(["100000000"] * 8)
        front.server.base("drop,10.0.0.2,10.2.4.2", f"put,10.0.0.1,10.1.3.1,10.0.0.3,10.1.3.3,100,0x1,{free}")
        ids = {name: pcc.session.lsps.counting.id_of(name) for name in "ab"}
        first = first or max(ids, key=ids.get)
        checks.same(f"holding priorities {holds}: the most important lost one has the room",
                    (front.server.routes()[ids[first]], len(pcc.told_)), (SOUTH, 1))
    for holds, last in (((7, 0), "a"), ((0, 7), "b"), ((2, 3), "b"), ((5, 5), None)):
        front, pcc = with_lsps(room, *((name, "124", 6e7, 9, [lspa(setup=hold)]) for name, hold in zip("ab", holds)), gain=100)
        front.server.base(f"put,10.0.0.1,10.1.2.1,10.0.0.2,10.1.2.2,50,0x1,{free}")
        last = last or min(ids, key=ids.get)
        checks.same(f"holding priorities {holds}: the least important one goes",
                    [it for it, route in front.server.routes().items() if route == SOUTH], [ids[last]])
    front, pcc = with_lsps(room, ("a", "124", 6e7, 8), ("b", "124", 6e7, 8))
    front.server.base(f"put,10.0.0.1,10.1.2.1,10.0.0.2,10.1.2.2,50,0x1,{free}")
    checks.same("those that aren't delegated can't be moved away", [*front.server.routes().values()], [NORTH, NORTH])
    front, pcc = with_lsps(room, ("a", "124", 6e7))
    pcc.session.stop("it ends")
    front.server.base("drop,10.0.0.2,10.2.4.2")
    checks.same("without a session a lost one is placed where it may go", [*front.server.routes().values()], [SOUTH])
    front.pccs.clear()
    pcc = front.join()
    pcc.have(1, "a", "124", 6e7)
    pcc.end_sync()
    checks.same("and is moved there when it is back", (pcc.told_, [*front.server.routes().values()]), ([(1, "34")], [SOUTH]))
    front, pcc = with_lsps(room, ("a", "134", 6e7), gain=100)
    pcc.session.stop("it ends")
    front.pccs.clear()
    pcc = front.join()
    pcc.have(1, "a", "134", 6e7)
    front.server.base("drop,10.0.0.3,10.3.4.3")
    checks.same("lost before the end of the synchronization: nothing is told", pcc.told_, [])
    pcc.end_sync()
    front.pass_time(1)
    checks.same("and behind it", (pcc.told_, [*front.server.routes().values()]), ([(1, "24")], [NORTH]))


def refused(checks, room):
    """PCCs that refuse updates or don't answer, and rows that the server refuses."""
    front, pcc = with_lsps(room, ("a", "134", 1e6), gain=100)
    pcc.is_obeying = False
    front.server.base("drop,10.0.0.3,10.3.4.3")
    checks.same("a lost LSP is counted where it is to go", (list(front.server.routes().values()), pcc.told_), ([NORTH], [(1, "24")]))
    pcc.say(wire.error(23, 0, pack(33, struct.pack("!II", 0, pcc.session.lsps.all[1].last.srp))))
    front.server.go_on()
    checks.same("its PCC refuses: the lost route isn't counted again", list(front.server.routes().values()), [NORTH])
    front, pcc = with_lsps(room, ("a", "134", 1e6))
    checks.same("an LSP that its PCC moves at once", list(front.server.routes().values()), [NORTH])
    front = begun(room)
    pcc = front.join()
    pcc.is_obeying = False
    pcc.have(1, "a", "134", 1e6)
    pcc.end_sync()
    checks.same("while an update is under way the new route is counted", list(front.server.routes().values()), [NORTH])
    pcc.say(wire.error(23, 0, pack(33, struct.pack("!II", 0, pcc.session.lsps.all[1].last.srp))))
    front.server.go_on()
    checks.same("it is refused: the old one is counted", list(front.server.routes().values()), [SOUTH])
    front = begun(room)
    pcc = front.join()
    pcc.is_obeying = False
    pcc.have(1, "a", "134", 1e6)
    pcc.end_sync()
    front.pass_time(9)
    checks.same("it isn't answered yet", list(front.server.routes().values()), [NORTH])
    front.pass_time(2)
    checks.true("it isn't answered in time: the old one is counted, and the same is tried again later", len(pcc.told_) <= 2, pcc.told_)
    for name, hops in (("what it had before", "134"), ("nothing", None)):
        front = begun(room)
        pcc = front.join()
        pcc.session.lsps.counting.placing.fault = lambda *_: "a link of its path has no SID"
        pcc.have(1, "a", hops, 1e6)
        pcc.end_sync()
        rows_sent = kinds(front)
        checks.same(f"placed, and it can't be sent: {name} is counted again",
                    ([*front.server.routes().values()], rows_sent[rows_sent.index("place"):][:2], pcc.told_),
                    ([SOUTH] if hops else [], ["place", "release"], []))
    front = begun(room)
    pcc = front.join()
    number = pcc.session.lsps.counting.id_of("a")
    front.server.take([f"held,{number},10.0.0.1,10.0.0.4,7,5,0x0,0x0,0x0,,0a0102010a0000020a0204020a000004"])
    front.server.fields[number] = "10.0.0.1,10.0.0.4,7,5,0x00000000,0x00000000,0x00000000,"
    pcc.have(1, "a", "134", 1e6, 8)
    front.pass_time(1)
    checks.same("a placement that somebody else has made is replaced", [*front.server.routes().values()], [SOUTH])
    for word in ("exhausted", "stopped", "full"):
        front = begun(room)
        front.server.refusing = {"held": word, "place": word, "offer": word}
        pcc = front.join()
        pcc.have(1, "a", "134", 1e6)
        pcc.have(2, "b", None, 1e6)
        pcc.end_sync()
        checks.same(f"a server that refuses by {word}", (len(said(front, "is uncounted")), pcc.told_), (2, []))
        since = len(front.server.rows)
        front.pass_time(20)
        checks.true(f"{word}: isn't asked again without news", len(front.server.rows) - since <= 2, front.server.rows[since:])
        front.server.refusing = {}
        front.server.base(*rows([(1, 3, 100)]))
        checks.same(f"{word}: is asked again at the next base", len(front.server.routes()), 2)


def lacking(checks, room):
    """Rows for which the server has no memory are tried again each second, and nothing is lost meanwhile."""
    for word in ("memory", "unread"):
        front = begun(room)
        front.server.refusing = dict.fromkeys(("held", "place", "offer"), word)
        pcc = front.join()
        pcc.have(1, "a", "134", 1e6)
        pcc.have(2, "b", None, 1e6)
        pcc.have(3, "c", None, 2e6, flags=8)
        pcc.end_sync()
        checks.same(f"{word}: none is counted, which is said",
                    (front.server.routes(), len(said(front, " is uncounted: the server has no memory for its row"))), ({}, 3))
        since, lines = len(front.server.rows), len(said(front, "has no memory for rows"))
        front.pass_time(5)
        checks.true(f"{word}: each is tried again once a second", 12 <= len(front.server.rows) - since <= 18, front.server.rows[since:])
        checks.same(f"{word}: one line a second says so", (lines, len(said(front, "has no memory for rows"))), (1, 6))
        checks.same(f"{word}: and of each LSP one line in all", len(said(front, " is uncounted: ")), 3)
        front.server.refusing = {}
        front.pass_time(2)
        checks.same(f"{word}: once memory is there all are counted", sorted(amounts(front)), [1000000, 1000000, 2000000])
        checks.same(f"{word}: none is said to have no route", said(front, "has no route"), [])
        since = len(front.server.rows)
        front.pass_time(5)
        checks.true(f"{word}: and none is tried any more", len(front.server.rows) - since <= 3, front.server.rows[since:])
        # an LSP that is counted
        before = front.server.routes()
        front.server.refusing = dict.fromkeys(("place", "offer"), word)
        front.server.base("drop,10.0.0.2,10.2.4.2")
        front.pass_time(3)
        checks.same(f"{word}: lost ones stay counted", (front.server.routes(), said(front, "has no route")), (before, []))
        front.server.refusing = {}
        front.pass_time(2)
        checks.same(f"{word}: and go elsewhere once memory is there", {*map(tuple, front.server.routes().values())}, {tuple(SOUTH)})
        front.server.refusing = {"release": word}
        pcc.remove(1)
        front.pass_time(3)
        checks.same(f"{word}: a release", (len(front.server.routes()), len(said(front, "an LSP that isn't there")) > 0), (3, True))
        front.server.refusing = {}
        front.pass_time(2)
        checks.same(f"{word}: and it is released", len(front.server.routes()), 2)
        front.server.refusing = {"release": word}
        pcc.have(3, "c", "134", 3e6, flags=8)
        front.pass_time(3)
        checks.same(f"{word}: a placement that isn't released stays, and the book isn't read again",
                    (amounts(front), kinds(front).count("book")), ([1000000, 2000000], 1))
        front.server.refusing = {}
        front.pass_time(12)
        checks.same(f"{word}: until it is", amounts(front), [1000000, 3000000])
        front.server.refusing = {"held": word}
        pcc.have(3, "c", "134", 4e6, flags=8)
        front.pass_time(3)
        checks.same(f"{word}: one that is released and not restored is uncounted", (amounts(front), pcc.session.lsps.all[3].is_counted),
                    ([1000000], False))
        front.server.refusing = {}
        front.pass_time(3)
        checks.same(f"{word}: until it is restored", (amounts(front), pcc.session.lsps.all[3].is_counted), ([1000000, 4000000], True))
        checks.same(f"{word}: no circuit carries more than it has, ever", front.server.over, [])
    front, pcc = with_lsps(room, ("a", "124", 1e8), ("b", "134", 1e6), gain=100)
    front.server.refusing = {"left": "unread"}
    front.server.base(f"put,10.0.0.2,10.2.4.2,10.0.0.4,10.2.4.4,50,0x1,{','.join(['5'] * 8)}")
    front.pass_time(3)
    checks.same("a link that can't be looked at stays crowded",
                ([*front.displaced.crowded], len(pcc.told_), said(front, "what is counted on it")), ([("10.0.0.2", "10.2.4.2")], 0, []))
    front.server.refusing = {}
    front.pass_time(2)
    checks.same("and is looked at once memory is there", (pcc.told_, front.displaced.crowded), ([(1, "34")], {}))
    front, pcc = with_lsps(room, ("a", "124", 6e7))
    pcc.session.stop("it ends")
    front.server.refusing = {"place": "memory"}
    front.server.base("drop,10.0.0.2,10.2.4.2")
    front.pass_time(3)
    checks.same("a lost one without a session", [*front.server.routes().values()], [NORTH])
    front.server.refusing = {}
    front.pass_time(2)
    checks.same("is placed elsewhere once memory is there", [*front.server.routes().values()], [SOUTH])
    front = begun(room)
    front.made = {"red": request_of(["10.0.0.1", "10.0.0.4", "3", "100000000", "0x0", "0x0", "0x0"])}
    for kind in ("offer", "place"):
        front.server.refusing = {kind: "memory"}
        pcc = front.join()
        pcc.end_sync()
        front.pass_time(3)
        checks.same(f"an LSP isn't made without its {kind} row", (front.server.routes(), pcc.told_), ({}, []))
    front.server.refusing = {}
    front.pass_time(2)
    checks.same("it is made once memory is there", ([*front.server.routes().values()], pcc.told_), ([NORTH], [("make", "24")]))


def made(checks, room):
    """LSPs that PCInitiate makes are placed first, and released if they aren't made."""
    front = begun(room)
    front.made = {"red": request_of(["10.0.0.1", "10.0.0.4", "3", "100000000", "0x0", "0x0", "0x0"])}
    pcc = front.join()
    pcc.end_sync()
    checks.same("placed first", (kinds(front), pcc.told_), (["book", "offer", "place"], [("make", "24")]))
    (number, route), = front.server.routes().items()
    checks.same("at its holding priority", front.server.book.placements[0].request["hold"], 3)
    pcc.have(1, "blue", None, 1e8)
    checks.same("what is placed isn't given to others", pcc.told_[1:], [(1, "34")])
    pcc.say(wire.error(24, 1, pack(33, struct.pack("!II", 0, 1 << 31)), pack(33, pcc.initiated[0].body[:8])))
    front.server.go_on()
    checks.same("refused: it is released", number in front.server.routes(), False)
    pcc.session.lsps.making.reread()
    front.go_on_all()
    checks.same("once the file is read again it is placed again", number in front.server.routes(), True)
    pcc.lsps[5] = {"name": b"red", "ero": dict((one.kind, one.body) for one in pcc.initiated)[7], "flags": 0x89, "ends": None,
                   "more": [pack(wire.O_LSPA, struct.pack("!IIIBBBx", 0, 0, 0, 3, 3, 0)), pack(5, struct.pack("!f", 1e8))]}
    since = len(front.server.rows)
    pcc.tell(5)
    checks.same("it is reported as it was placed", kinds(front, since), ["offer"])
    front.made, front.unwanted = {}, lambda peer: ["red"]
    pcc.session.lsps.making.reread()
    pcc.remove(5)
    checks.same("removed: it is released", number in front.server.routes(), False)
    checks.same("no circuit carries more than it has, ever", front.server.over, [])


def constrained(checks, room):
    """Bounds, groups, hops and exclusions."""
    front, pcc = with_lsps(room, ("a", None, 1e6, 9, [metric(2, 150)]))
    front.server.base("drop,10.0.0.2,10.2.4.2")
    checks.same("above its bound: it stays counted where it was", (list(front.server.routes().values()), pcc.told_), ([NORTH], [(1, "24")]))
    checks.same("no version is made in vain", kinds(front)[-2:], ["offer", "offer"])
    since = len(front.server.rows)
    front.pass_time(30)
    checks.true("nor later", {*kinds(front, since)} <= {"offer"}, kinds(front, since))
    front, pcc = with_lsps(room, ("a", None, 1e6, 9, [pack(10, bytes([1, 8, 10, 1, 3, 7, 24, 0]))]))
    checks.same("hops have no bits past their length, as in the text of the book", front.server.rows[-1].split(",")[-1], "10.1.3.0/24l")
    front.server.hang_up()
    since = len(front.server.rows)
    front.pass_time(1)
    checks.same("so the book that is read again is the same", [*{*kinds(front, since)} - {"offer"}], ["book"])
    avoiding = [pack(wire.O_XRO, bytes(4) + bytes([1, 8, 10, 1, 2, 1, 32, 0]))]
    front, pcc = with_lsps(room, ("a", "124", 1e8, 9, avoiding), gain=100)
    checks.same("one that excludes a circuit is moved off it, and is counted there", (pcc.told_, list(front.server.routes().values())),
                ([(1, "34")], [SOUTH]))
    checks.same("by an except row and held rows", ([row.count(",") for row in front.asked], kinds(front)[-2:]),
                ([8] * len(front.asked), ["release", "held"]))
    checks.same("no row of the book lacks what is excluded", kinds(front).count("place"), 0)
    front.server.base(*rows([(1, 2, 60)]))
    checks.same("its own bandwidth doesn't make it lost", (pcc.told_[1:], said(front, "has no route")), ([], []))
    front, pcc = with_lsps(room, ("a", None, 2e8))
    checks.same("more than any circuit has", said(front, "is uncounted"), ["10.0.0.1: LSP 'a' (1) is uncounted: none"])
    checks.same("no circuit carries more than it has, ever", front.server.over, [])


MOVES = circuits, order, refused, lacking, made, constrained
