"""LSPs by segment routing that a book counts, against a place that tests/reference/books.py plays."""
import os
import struct
import tempfile

from pcep.book_front import NORTH, SOUTH, amounts, begun, ero_of, kinds, said, with_lsps
from pcep.counted_hostile import hostile, many
from pcep.counted_moves import MOVES
from pcep.counted_runs import counts
from pcep.played import lspa, report, rows

from routed.pcep import wire
from routed.pcep.wire import pack, tlv


def three(checks, room):
    """Three LSPs of 1, 100 and 100 MB/s over circuits of 125 MB/s."""
    front, pcc = with_lsps(room, ("a", "124", 1e6), ("b", "124", 1e8), ("c", "124", 1e8))
    checks.same("three LSPs take two ways", sorted(front.server.routes().values()), [NORTH, NORTH, SOUTH])
    checks.same("one is told so", [route for _, route in pcc.told_], ["34"])
    checks.same("none is asked for by ask", front.asked, [])
    front, pcc = with_lsps(room, ("b", "124", 1e8), gain=100)
    pcc.have(2, "c", "124", 1e8)
    checks.same("one that is reported later makes a link carry too much: at once one of them goes", sorted(front.server.routes().values()),
                [NORTH, SOUTH])
    front, pcc = with_lsps(room, ("a", None, 1e6), ("b", None, 1e8), ("c", None, 1e8), ("d", None, 1e8))
    checks.same("of four without a path three are placed", sorted(front.server.routes().values()), [NORTH, NORTH, SOUTH])
    checks.same("the fourth is said to be uncounted", said(front, "uncounted"), ["10.0.0.1: LSP 'd' (4) is uncounted: none"])
    checks.same("it is told nothing", sorted(pcc.told_), [(1, "24"), (2, "24"), (3, "34")])
    checks.same("no circuit carries more than it has, ever", front.server.over, [])
    front.server.base(*rows([(1, 4, 300)]))
    checks.same("without its SIDs a new way is none", (len(front.server.routes()), pcc.told_[3:]), (3, []))
    pcc.remove(3)
    checks.same("a removal releases", len(front.server.routes()), 2)
    front.pass_time(1)
    checks.same("what is released is given to the fourth", (pcc.told_[3:], said(front, "counted now")),
                ([(4, "34")], ["10.0.0.1: LSP 'd' (4) is counted now"]))


def reported(checks, room):
    """What is reported is counted where it is: without a readable route it is placed, and what is delegated is told so."""
    front, pcc = with_lsps(room, ("a", "124", 1e6))
    (number, route), = front.server.routes().items()
    checks.same("the id is of the PCC's address and its name", (number, kinds(front)), (0x0a000001ca978112, ["book", "held", "offer"]))
    checks.same("its route", route, NORTH)
    since = len(front.server.rows)
    pcc.tell(1)
    checks.same("a report of what is there already", kinds(front, since), ["offer"])
    pcc.have(1, "a", "134", 2e6)
    checks.same("its PCC has moved it, and has changed its bandwidth", front.server.rows[since + 1:][:2],
                [f"release,{number}", f"held,{number},10.0.0.1,10.0.0.4,7,2000000,0x00000000,0x00000000,0x00000000,,"
                 "0a0103010a0000030a0304030a000004"])
    checks.same("and it is moved to the better way", (pcc.told_, front.server.routes()[number]), ([(1, "24")], NORTH))
    pcc.have(2, "b", "134", 3e6, flags=8)
    pcc.have(3, "c", None, 4e6, flags=8)
    pcc.have(5, "d", None, 4e6, more=[lspa(setup=3)])
    found = {(it.request["bandwidth"], it.request["hold"]): [str(link["to"] & 255) for link in it.route]
             for it in front.server.book.placements}
    checks.same("those that aren't delegated are counted, too", found, {(2000000, 7): ["2", "4"], (3000000, 7): ["3", "4"],
                                                                      (4000000, 7): ["2", "4"], (4000000, 3): ["2", "4"]})
    checks.same("and not told", pcc.told_[1:], [(5, "24")])
    pcc.have(6, "e", None, 1e6, ends=(1, 1), flags=8)
    checks.same("one without two ends is uncounted", said(front, "uncounted"),
                ["10.0.0.1: LSP 'e' (6) is uncounted: its ends or its bandwidth can't be read"])
    pcc.have(7, "f", "124", float("inf"), flags=8)
    checks.same("nor is one of endless bandwidth counted", said(front, "(7) is uncounted"),
                ["10.0.0.1: LSP 'f' (7) is uncounted: its ends or its bandwidth can't be read"])
    for flags in (8, 13):
        pcc.say(wire.message(10, pack(32, struct.pack("!I", 2 << 12 | flags) + tlv(17, b"b")), pack(7, b"")))
    front.server.go_on()
    checks.same("a removal by its number", amounts(front), [2000000, 4000000, 4000000])
    before = dict(front.server.routes())
    pcc.have(9, "rsvp", "124", 1e8)
    pcc.say(wire.message(10, *report(10, 9, ero_of("124"), b"x")))
    front.server.go_on()
    checks.same("of RSVP-TE none is counted", len(front.server.routes()) - len(before), 1)
    checks.same("no circuit carries more than it has, ever", front.server.over, [])


def sessions(checks, room):
    """A session that ends and comes back, and a PCC that doesn't report all that the book has."""
    front, pcc = with_lsps(room, ("a", "124", 1e6), ("b", "124", 1e8), ("c", "134", 1e8))
    before = front.server.routes()
    pcc.session.stop("it ends")
    del front.pccs["10.0.0.1"]
    front.pass_time(30)
    checks.same("a lost session releases nothing", front.server.routes(), before)
    since = len(front.server.rows)
    pcc = front.join()
    pcc.have(7, "b", "124", 1e8)
    pcc.have(8, "a", "124", 1e6)
    checks.same("back by other numbers", (front.server.routes(), kinds(front, since)), (before, []))
    pcc.end_sync()
    checks.same("what isn't reported is released", (sorted(front.server.routes().values()), sorted(kinds(front, since))),
                ([NORTH, NORTH], ["offer", "offer", "release"]))
    front.server.hang_up()
    since = len(front.server.rows)
    pcc.remove(7)
    pcc.have(9, "d", "134", 5e6)
    checks.same("without the place nothing is sent", (kinds(front, since), front.placements.is_known), ([], False))
    checks.same("what is reported is uncounted", said(front, "(9) is uncounted"),
                ["10.0.0.1: LSP 'd' (9) is uncounted: the place of --placements isn't there"])
    pcc.session.again()
    checks.same("of those that the book had no line says so", len(said(front, "the place of --placements isn't there")), 1)
    checks.same("it is said once", len(said(front, "the place of --placements: ")), 1)
    checks.same("a request for such a path is unavailable", pcc.ask_for(), "NO-PATH 1")
    front.pass_time(1)
    checks.same("it is there again: what is there is counted, what is gone is released", sorted(front.server.routes().values()),
                [NORTH, NORTH])
    checks.same("a request", pcc.ask_for()[:13], "PCRep 10.1.2.")
    front.server.is_busy = True
    front.server.hang_up()
    front.pass_time(5)
    checks.same("a place that is busy", (front.placements.is_known, len(said(front, "the place of --placements: "))), (False, 2))
    front.server.is_busy = False
    front.pass_time(1)
    checks.same("and has room again", front.placements.is_known, True)
    checks.same("no circuit carries more than it has, ever", front.server.over, [])


def unproved(checks, room):
    """A journal that isn't the server's, or not yet: no route is read by it."""
    front = begun(room)
    pcc = front.join()
    pcc.end_sync()
    os.rename(front.journal, front.journal + "x")
    front.network.begin()
    front.server.hang_up()
    front.pass_time(1)
    pcc.have(1, "a", "134", 1e6, flags=8)
    checks.same("without the journal no route is counted", (front.server.routes(), said(front, "is uncounted")),
                ({}, ["10.0.0.1: LSP 'a' (1) is uncounted: the journal isn't known to be the server's"]))
    os.rename(front.journal + "x", front.journal)
    front.pass_time(3)
    checks.same("once it is there the route is", [*front.server.routes().values()], [SOUTH])
    front.network.begin()
    pcc.have(2, "b", "134", 1e6)
    checks.same("an offer says whose journal it is, too", sorted(front.server.routes().values()), [NORTH, SOUTH])


def unreleased(checks, room):
    """A release that the server refuses, and an LSP that is another PCC's."""
    front, pcc = with_lsps(room, ("a", "124", 1e6))
    front.server.refusing = {"release": "stopped"}
    pcc.remove(1)
    checks.same("a release that is refused is said",
                (len(front.server.routes()), len(said(front, "refused: stopped: bandwidth is counted"))), (1, 1))
    front.server.refusing = {}
    front.server.base(*rows([(1, 3, 100)]))
    checks.same("and tried again at the next base", front.server.routes(), {})
    front, pcc = with_lsps(room)
    front.owned = True
    pcc.have(1, "a", "124", 1e6)
    checks.same("one that another PCC has delegated is given back, and counted for that PCC alone", (kinds(front), pcc.told_),
                (["book"], [(1, "24")]))
    pcc.have(1, "a", "124", 1e6, flags=8)
    checks.same("also once it isn't delegated", kinds(front), ["book"])
    front.owned = False
    pcc.have(1, "a", "124", 1e6)
    checks.same("it is counted once it is this PCC's", kinds(front)[1:2], ["held"])


def doubles(checks, room):
    """Two names with one digest, and one name twice."""
    front = begun(room)
    pcc = front.join()
    counting = pcc.session.lsps.counting
    counting.id_of = lambda name: 0x0a000001 << 32 | len(name)
    pcc.have(1, "a", "124", 1e6)
    pcc.have(2, "b", "134", 2e6)
    pcc.end_sync()
    checks.same("two names with one digest: the first is counted", amounts(front), [1000000])
    checks.same("the second is said to be uncounted", said(front, "uncounted"),
                ["10.0.0.1: LSP 'b' (2) is uncounted: its id in the book, 720575944674246657, is that of 10.0.0.1: LSP 'a' (1)"])
    checks.same("it isn't moved, and has no rows", (pcc.told_, kinds(front)), ([], ["book", "held", "offer"]))
    pcc.have(1, "long", "124", 1e6)
    checks.same("the first has another name: the second is counted", sorted((it.request["id"] & 255, it.request["bandwidth"])
                for it in front.server.book.placements), [(1, 2000000), (4, 1000000)])
    pcc.have(3, "long", "134", 7e6)
    pcc.remove(1)
    checks.same("one name under another number", sorted((it.request["id"] & 255, it.request["bandwidth"])
                for it in front.server.book.placements), [(1, 2000000), (4, 7000000)])
    checks.same("no circuit carries more than it has, ever", front.server.over, [])


def counted(program, checks):
    with tempfile.TemporaryDirectory() as room:
        checks.parts_in(room, (three, reported, sessions, unproved, unreleased, doubles, *MOVES, hostile, many), checks)
        checks.parts_in(room, (counts,), program, checks)
