"""What a PCC and a place of placements can't do to LSPs that a book counts."""
import os
import struct
import time

from pcep.book_front import NORTH, Server, begun, ero_of, said, with_lsps
from pcep.played import report
from reference.books import MOST_PLACEMENTS

from routed.pcep import wire
from routed.pcep.wire import pack

LSPS = int(os.environ.get("LSPS", "7000"))  # 70,000 are more than any book takes


def hostile(checks, room):
    """Reports that can't be read, LSPs that change without end, and a place that says something else."""
    front, pcc = with_lsps(room, ("a", "124", 1e6))
    strange = [bytes([1, 8, 9, 9, 9, 9, 32, 0]), bytes([36, 8, 0, 0]) + bytes(4), bytes([2, 20]) + bytes(18), ero_of("12")]
    for number, ero in enumerate(strange, 20):
        for flags in (8, 9):
            pcc.lsps[10 * number + flags] = {"name": b"n%d.%d" % (number, flags), "ero": ero, "flags": flags, "ends": None,
                                             "more": [pack(5, struct.pack("!f", 1e6))]}
            pcc.tell(10 * number + flags)
    checks.same("routes that can't be read are placed", len(front.server.routes()), 1 + 2 * len(strange))
    checks.same("those that are delegated are told so", [number % 10 for number, _ in pcc.told_], [9] * len(strange))
    pcc.is_obeying = False
    before = front.server.book.version
    for count in range(200):
        pcc.have(1, "a", ("124", "134")[count % 2], 1e6 + count)
    made = front.server.book.version - before
    checks.true("an LSP that changes without end makes few versions", made < 40, made)
    front.pass_time(60)
    made = front.server.book.version - before
    checks.true("and few in a minute", made < 150, made)
    for text in ("what", "place 1 v2 none", "base", "lost x", "version 7", "refused", "\xff"):
        front = begun(room)
        pcc = front.join()
        pcc.end_sync()
        front.server.lines_ = [text]
        front.server.call(1)
        checks.same(f"a place that says {text!r} is connected again",
                    (front.placements.is_known, front.pass_time(1), front.placements.is_known), (False, None, True))
    front = begun(room)
    pcc = front.join()
    front.server.is_held = True
    pcc.have(1, "a", "124", 1e6)
    front.pass_time(59)
    checks.same("a place that is silent", front.placements.is_known, True)
    front.pass_time(3)
    checks.same("is left after a minute", front.placements.is_known, False)
    front.server.is_held = False
    front.pass_time(2)
    checks.same("and what is reported is counted then", list(front.server.routes().values()), [NORTH])


class Full(Server):
    """A server of few words, with room for some LSPs."""

    room = MOST_PLACEMENTS * LSPS // 70000

    def answer(self, row):
        kind, name, *_ = row.split(",", 2)
        self.rows.append(kind)
        if kind == "held" and self.taken >= self.room:
            self.lines_.append(f"held {name} refused: full")
        elif kind == "held":
            self.taken += 1
            self.lines_.append(f"held {name} v{self.book.version + self.taken}")
        else:
            self.lines_.append(f"{kind} {name} v{self.book.version + self.taken} none")

    taken = 0


def many(checks, room):
    """LSPs of several PCCs, and a book that has no room for some of them."""
    front = begun(room)
    front.server.__class__ = Full
    began = time.monotonic()
    for router in range(1, 1 + LSPS // 3500):
        pcc = front.join(router)
        for first in range(1, 3500, 100):
            pcc.say(b"".join(wire.message(10, *report(number, 8, ero_of("124"), b"%d" % number, 0, 1, ends=(1, 4)))
                             for number in range(first, first + 100)))
        while front.server.sent or front.placements.rows or any(at <= front.time for at, _ in front.laters):
            front.pass_time(1)
    checks.same("as many are counted as there is room for", len(front.placements.booked), Full.room)
    checks.same("the others are said to be uncounted", [len(said(front, word)) for word in ("is uncounted", "refused: full")],
                [LSPS - Full.room] * 2)
    checks.same("each was asked for once", front.server.rows.count("held"), LSPS)
    print(f"counted: {LSPS} LSPs in {time.monotonic() - began:.0f} s")
