"""The LSPs of one session that the server's book counts: those by segment routing, whose bandwidth no router counts.

The book counts an LSP where its PCC has it. The front counts one that it moves on the new route before its PCC is told."""
from __future__ import annotations

import functools
import hashlib
import socket
import typing
from collections.abc import Container
from dataclasses import replace

from ..follow.slices import Form
from ..model import rows
from ..model.rows import Reply
from ..net.loop import Owner
from .lsp import Lsp
from .placement import Placement, hexadecimal, is_for_memory
from .placements import Placements
from .placing import BY_SEGMENTS, Placing, constraints_of
from .protocol import SessionFront
from .reports import Report
from .requests import Request
from .routes import fars_of, links_of, walk
from .wire import O_BANDWIDTH, Refused

if typing.TYPE_CHECKING:
    from .lsps import Lsps
    from .session import Session

AWAY = "the place of --placements isn't there"
LACKING = "the server has no memory for its row, which is sent again"


class Counting:
    def __init__(self, lsps: Lsps):
        self.lsps = lsps
        self.session: Session = lsps.session
        self.front: SessionFront = lsps.front
        self.address = int.from_bytes(socket.inet_aton(self.session.peer), "big")
        self.owners: dict[int, Lsp] = {}  # by their ids in the book
        self.others: dict[int, dict[Lsp, None]] = {}  # those with the id of an owner, which aren't counted
        self.waiting: dict[Lsp, None] = {}  # those that are looked at, in the order of their turns
        self.lacking: dict[Lsp, None] = {}  # those that the book lacks, or that have no route
        self.unreleased: dict[int, None] = {}  # ids that the server didn't release
        self.placing: Placing = Placing(self)

    @property
    def book(self) -> Placements:
        assert self.front.placements
        return self.front.placements

    def is_on(self, setup_type: int) -> bool:
        """Whether LSPs of this path setup type are counted."""
        return self.front.placements is not None and setup_type == BY_SEGMENTS

    def counts(self, lsp: Lsp) -> bool:
        """Whether an LSP is to be counted. One that another PCC has delegated is counted for that PCC."""
        return self.is_on(lsp.setup_type) and not lsp.is_taken

    def id_of(self, name: str) -> int:
        """The id of an LSP: it is as old as its name, and each PCC has its own."""
        return self.address << 32 | int.from_bytes(hashlib.sha256(name.encode()).digest()[:4], "big")

    # ---- what is reported

    def reported(self, lsp: Lsp, one: Report) -> bool:
        """An LSP is reported. Whether it is counted."""
        number = self.id_of(lsp.name) if self.counts(lsp) else None
        if lsp.id is not None and lsp.id != number:
            self.gone(lsp)
        lsp.id, lsp.report = number, one if number is not None else None
        if number is None:
            return False
        owner = self.owners.setdefault(number, lsp)
        if owner is not lsp:
            self.others.setdefault(number, {})[lsp] = None
            self.miss(lsp, f"its id in the book, {number}, is that of {self.lsps.named(owner)}")
        return True

    def gone(self, lsp: Lsp) -> None:
        """An LSP is removed, or isn't counted under its id any more. Another one may have the id then."""
        number, lsp.id, lsp.uncounted, lsp.is_counted = lsp.id, None, "", False
        self.lacking.pop(lsp, None)
        if number is None:
            return
        others = self.others.get(number, {})
        others.pop(lsp, None)
        if self.owners.get(number) is lsp:
            del self.owners[number]
            if others:
                self.owners[number] = heir = next(iter(others))
                del others[heir]
                self.ask(heir)
            else:
                self.release(number)
        if not others:
            self.others.pop(number, None)

    def synced(self) -> None:
        """The PCC has reported all LSPs that it has: others that the book has of it are released."""
        if self.front.placements and self.book.is_known:
            for number in [number for number in self.book.booked if number >> 32 == self.address]:
                self.release(number)
            self.again()
            self.book.hearer.more_may_move()

    def release(self, number: int) -> None:
        """Releases a placement, if no LSP has its id by then."""
        self.book.turn(number, "release", functools.partial(self.let_go, number))

    def let_go(self, number: int) -> None:
        is_wanted = number in self.owners or number in self.lsps.making.placed
        if self.session.state == "up" and number in self.book.booked and not is_wanted:
            self.book.give(f"release,{number}", functools.partial(self.released, number), self.session.owner)

    def released(self, number: int, line: str | None) -> None:
        """A row that the server refuses is sent again once the base is another one."""
        self.unreleased.pop(number, None)
        if line is not None and number in self.book.booked:
            self.unreleased[number] = None
            self.front.say("error", f"{self.session.peer}: {line}: bandwidth is counted of an LSP that isn't there")

    def miss(self, lsp: Lsp, why: str) -> None:
        """The book lacks an LSP, which is said once."""
        self.lacking[lsp], lsp.is_counted = None, False
        if lsp.uncounted != why:
            lsp.uncounted = why
            self.front.say("error", f"{self.lsps.named(lsp)} is uncounted: {why}")

    def found(self, lsp: Lsp) -> None:
        """The book has an LSP."""
        lsp.is_counted = True
        if lsp.uncounted:
            lsp.uncounted = ""
            self.front.say("warning", f"{self.lsps.named(lsp)} is counted now")

    # ---- turns

    def again(self) -> None:
        """The base has changed, or more than that: each LSP is looked at."""
        for number in [*self.unreleased]:
            self.release(number)
        self.ask(*self.owners.values())

    def look_for_room(self, is_time: bool, tried: Container[int | None]) -> None:
        """There may be room where there was none, for LSPs without a route; from time to time also for others. Some are tried by others."""
        those, self.lacking = self.owners.values() if is_time else self.lacking, {}
        self.ask(*(lsp for lsp in those if lsp.id not in tried))
        if is_time:
            self.lsps.making.initiate()

    def known(self) -> None:
        """The book was read."""
        if self.lsps.is_synced:
            self.synced()
            self.lsps.making.initiate()
        else:
            self.again()
        self.session.answers.again()

    def ask(self, *those: Lsp) -> None:
        """Looks at LSPs, each in its turn."""
        self.waiting.update(dict.fromkeys(those))
        if self.waiting:
            self.book.slices.add(self)

    def whose(self) -> Owner | None:
        return self.session.owner

    def has_more(self) -> bool:
        return bool(self.waiting)

    def following(self) -> Form | None:
        """The row of the LSP whose turn it is: what the book should have, or else an offer."""
        if not self.waiting:
            return None
        lsp = next(iter(self.waiting))
        del self.waiting[lsp]
        if self.session.state != "up" or lsp.id is None or self.owners.get(lsp.id) is not lsp:
            return None
        if not self.book.is_known:
            if not lsp.is_counted:  # others are said to be there by one line for all
                self.miss(lsp, AWAY)
            return None
        if lsp.id in self.book.busy:
            self.book.turn(lsp.id, "look", functools.partial(self.ask, lsp))
            return None
        return self.settling(lsp, lsp.id) or self.placing.offering(lsp, lsp.id)

    # ---- where an LSP is

    def settling(self, lsp: Lsp, number: int) -> Form | None:
        """The row by which the book has an LSP as its PCC does. One that is being moved or removed stays as the book has it."""
        request, booked = self.request_of(lsp), self.book.booked.get(number)
        if request is None:
            self.miss(lsp, "its ends or its bandwidth can't be read")
            return None
        if booked is None and not self.front.network.is_proved:
            self.miss(lsp, "the journal isn't known to be the server's")
            return None
        asked = request.asked(self.session.group(BY_SEGMENTS))
        constraints, (route, is_usable) = constraints_of(request, asked), self.route_of(lsp, asked)
        wanted = Placement.of(constraints, route)
        if booked is None and route:
            return f"held,{number},{constraints},{route}", functools.partial(self.taken, lsp)
        if booked is None:
            return None if lsp.is_ours() else self.estimate(lsp, number, constraints)
        self.found(lsp)
        if lsp.pending or lsp.is_leaving or lsp.has_changed or not self.front.network.is_proved:
            return None
        if booked != wanted and not lsp.may_swap(now := self.front.clock()):
            self.lsps.wake(lsp, now + 1)
            return None
        if booked != wanted and is_usable:
            lsp.swaps.append(now)
            return f"release,{number}\nheld,{number},{constraints},{route}", functools.partial(self.taken, lsp)
        return None if booked.constraints == constraints or lsp.is_ours() else self.estimate(lsp, number, constraints)

    def estimate(self, lsp: Lsp, number: int, constraints: str) -> Form:
        """The row that places an LSP which isn't sent its route."""
        return f"place,{number},{constraints}", functools.partial(self.taken, lsp)

    def taken(self, lsp: Lsp, line: str | None) -> None:
        """The line of a row by which the book was to have an LSP."""
        answer = Reply.parse(line or "")
        if line is None or self.owners.get(lsp.id or 0) is not lsp or self.is_tried_again(lsp, line):
            return
        if answer and answer.why or " refused: " in line:
            self.miss(lsp, answer.why if answer and answer.why else line)
            if line.endswith(" same-id"):
                self.book.read_again()
            return
        self.found(lsp)
        if lsp.is_ours():
            self.ask(lsp)

    def is_tried_again(self, lsp: Lsp, line: str) -> bool:
        """Whether the server had no memory for the row of an LSP. The LSP stays where it is, and is looked at again a second later."""
        if is_for_memory(line) and not self.is_booked(lsp):
            self.miss(lsp, LACKING)
        return is_for_memory(line)

    def request_of(self, lsp: Lsp) -> Request | None:
        """What is counted of an LSP: what is asked for it, or, of one that isn't ours, what can be read of its constraints."""
        if lsp.request:
            return lsp.request
        assert lsp.report
        request = Request(bool(self.front.srlgs))
        for constraint in lsp.report.constraints:
            try:
                request.take(constraint._replace(must=False))
            except Refused:
                if constraint.kind == O_BANDWIDTH:
                    return None
        request.ends = self.lsps.routers(lsp.report.ends or self.lsps.ends_by_route(lsp.report))
        return request if request.ends[0] != request.ends[1] else None

    def route_of(self, lsp: Lsp, asked: rows.Request) -> tuple[str, bool]:
        """The route that its PCC has reported, as a `held` row has it, and whether it may be used; empty if it can't be read. The
        journal has to be the server's."""
        network = self.front.network
        if not lsp.ero:
            return "", False
        sent = lsp.last
        if sent and sent.ero == lsp.ero:
            links = links_of(network, asked.head, sent.route)
        else:
            found = walk(network, self.front.sids, asked.head, lsp.hops)
            links = found[1] if found and found[0] == asked.tail else None
        if not links:
            return "", False
        return hexadecimal(links), network.cost(replace(asked, bandwidth=0), fars_of(links)) is not None

    # ---- what is so

    def is_ours(self, lsp: Lsp) -> bool:
        """Whether an LSP is still counted, and may be moved."""
        return self.session.state == "up" and lsp.is_ours() and lsp.id is not None and self.owners.get(lsp.id) is lsp

    def is_booked(self, lsp: Lsp) -> bool:
        """Whether the book has an LSP."""
        return lsp.id is not None and lsp.id in self.book.booked
