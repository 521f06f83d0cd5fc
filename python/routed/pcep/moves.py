"""When the LSPs of a session are moved (RFC 8231 6.2)."""
from __future__ import annotations

import typing
from dataclasses import replace

from ..follow.slices import Form
from ..model import rows
from ..model.rows import Reply
from ..net.loop import Owner
from . import wire
from .exclusions import Unavailable
from .lsp import ANSWER, DELEGATED, MOST_AT_ONCE, Lsp, Update
from .protocol import SessionFront
from .reports import error_named
from .requests import Request
from .routes import Route, has_labels, plain, route_of, says
from .wire import Refused

if typing.TYPE_CHECKING:
    from .placing import Move
    from .lsps import Lsps

BUSY_AGAIN = 1  # seconds from an ask that no connection could take to the next


class Moves:
    def __init__(self, lsps: Lsps):
        self.lsps, self.session = lsps, lsps.session
        self.front: SessionFront = lsps.front
        self.waiting: dict[Lsp, None] = {}  # those that are to be asked for, in the order of their turns

    # ---- asks

    def again(self) -> None:
        """A new version. The book asks for LSPs that it counts where its base is another one."""
        if self.lsps.is_synced:
            counting = self.lsps.counting
            if len(counting.owners) < len(self.lsps.all):
                self.waiting.update(dict.fromkeys(lsp for lsp in self.lsps.all.values() if not counting.counts(lsp)))
            self.front.in_turn(self)

    def ask(self, lsp: Lsp) -> None:
        """Asks for the route of an LSP in its turn."""
        if self.lsps.counting.counts(lsp):
            self.lsps.counting.ask(lsp)
        else:
            self.put(lsp)

    def put(self, lsp: Lsp) -> None:
        """The same by a row of a client, also for an LSP that is counted."""
        self.waiting[lsp] = None
        self.front.in_turn(self)

    def whose(self) -> Owner | None:
        return self.session.owner

    def has_more(self) -> bool:
        return bool(self.waiting)

    def following(self) -> Form | None:
        """The row of the LSP whose turn it is. If an ask is under way its answer comes first, and asks again if it is of an older
        version."""
        if not self.waiting:
            return None
        lsp = next(iter(self.waiting))
        del self.waiting[lsp]
        if self.session.state != "up" or self.lsps.all.get(lsp.number) is not lsp or not lsp.is_ours():
            return None
        if not self.lsps.is_synced or self.front.is_away or lsp.is_asked or self.session.is_full:
            return None
        request = lsp.asked()
        try:
            sent = self.session.question(request, lsp.setup_type)
        except Unavailable as fault:
            self.lose(lsp, str(fault))
            return None
        except Refused as fault:
            self.lsps.lose(lsp, fault)
            return None
        lsp.is_asked = True
        return sent.constraints(), lambda line: self.answered(lsp, request, sent, line)

    def ask_again(self, lsp: Lsp) -> None:
        """Asks for the route of an LSP if it is still ours, or counted."""
        if self.lsps.all.get(lsp.number) is lsp and (lsp.is_ours() or lsp.id is not None):
            self.ask(lsp)

    def answered(self, lsp: Lsp, request: Request, sent: rows.Request, line: str | None) -> None:
        lsp.is_asked = False
        if self.session.state != "up" or self.lsps.all.get(lsp.number) is not lsp or not lsp.is_ours() or self.session.is_overloaded():
            return
        if line is None and not self.front.is_away:  # the server is busy
            self.lsps.wake(lsp, self.front.clock() + BUSY_AGAIN)
        answer = Reply.parse(line or "")
        if request is lsp.request and self.is_followed_up(lsp, sent, answer, line):
            return
        if answer and request is lsp.request and answer.version >= self.front.network.version:
            self.judge(lsp, sent if lsp.id is None else replace(sent, bandwidth=0), answer)
        elif line is not None and answer is None:
            self.front.say("error", f"{self.lsps.named(lsp)}: its request was refused: {line}")
        request.exclusions.settle()
        is_old = answer and answer.version < (self.front.version if lsp.id is None else self.front.network.version)
        if answer and request is not lsp.request or is_old:
            self.ask(lsp)

    def is_followed_up(self, lsp: Lsp, sent: rows.Request, answer: Reply | None, line: str | None) -> bool:
        """Whether a line is no answer for an LSP: it is asked for again, or what it excludes can't be said."""
        try:
            if not self.session.is_asked_again(lsp.asked(), sent, lsp.setup_type, answer, line):
                return False
            self.ask(lsp)
        except Unavailable as fault:
            self.lose(lsp, str(fault))
            self.lsps.wake(lsp, self.front.clock() + BUSY_AGAIN)
        except Refused as fault:
            self.lsps.lose(lsp, fault)
        return True

    # ---- routes

    def route_of(self, lsp: Lsp) -> Route | None:
        """The route that its PCC has reported, if it can be read."""
        if lsp.route is None:
            if not lsp.ero:
                lsp.route = ()
            elif self.front.network.is_proved:
                lsp.route = route_of(self.front.network, self.front.sids, lsp.asked().ends, lsp.hops)
            else:
                return plain(lsp.hops)
        return lsp.route

    def is_taken(self, lsp: Lsp, sent: Update) -> bool | None:
        """Whether the route that was reported is that of an update; None if it can't be read."""
        if lsp.request is None or lsp.ero == sent.ero:
            return lsp.ero == sent.ero
        return self.is_same(lsp, sent.ero, sent.route)

    def is_same(self, lsp: Lsp, ero: bytes, route: Route) -> bool | None:
        """Whether the route that was reported is this one, in these or in other words; None if it can't be read."""
        if lsp.ero == ero:
            return True
        had = self.route_of(lsp)
        if had == route:
            return has_labels(lsp.hops, wire.hops_of(ero))
        if (had is None or not self.front.network.is_proved) and says(lsp.hops, wire.hops_of(ero)):
            return True
        return None if had is None else False

    # ---- decisions

    def judge(self, lsp: Lsp, asked: rows.Request, answer: Reply) -> None:
        """Moves the LSP where its best route is another one, unless what it has still serves and little is gained, or its PCC has
        refused that. Of one that is counted no bandwidth is asked here: it has its own."""
        request, network = lsp.asked(), self.front.network
        if answer.why or request.broken(answer.cost):
            self.lack(lsp, asked, answer.why or "above its bound")
            return
        ero, refusal = self.session.ero(answer, request, asked, lsp.setup_type)
        if refusal:
            self.lack(lsp, asked, refusal[1])
            return
        body, is_known, lsp.is_excluding = ero[4:], network.follows(asked, answer), bool(asked.excluded)
        self.found(lsp)
        sent = lsp.pending
        route = sent.route if sent else self.route_of(lsp)
        had = None if not is_known or not route else answer.cost if route == answer.fars else network.cost(asked, route)
        needed = replace(asked, excluded=request.exclusions.needed)  # a route with what should be excluded isn't lost
        is_broken = bool(is_known and route) and had is None and network.cost(needed, route or ()) is None
        is_same = sent.ero == body if sent else self.is_same(lsp, body, answer.fars)
        is_down = not sent and bool(lsp.ero) and lsp.is_reported_down()
        if is_known and not sent and not is_broken:
            lsp.was_lost = False
        if not sent:
            self.note(lsp, is_broken, is_down and (bool(is_same) or had is not None), route is None and not is_same, answer)
        if lsp.has_changed:
            self.move(lsp, ero, "changed", answer, is_broken)
        elif is_same:
            if not sent:
                self.keep(lsp, ero, answer)
        elif self.is_refused(lsp, body, is_broken):
            return
        elif route is None and lsp.last and lsp.last.is_settled and lsp.last.is_equal(body, self.attributes(lsp)):
            return  # it was sent, and reported in words that can't be read
        elif had is None or is_down or request.hops or route == answer.fars or not self.stays(lsp, had, answer.cost):
            self.move(lsp, ero, self.reason(lsp, had, is_broken), answer, is_broken)

    def lack(self, lsp: Lsp, asked: rows.Request, why: str) -> None:
        """There is no route that an LSP could be moved to. One that is counted where it is may stay there."""
        if lsp.id is None:
            self.lose(lsp, why)
        elif why != "none" or not self.lsps.counting.is_booked(lsp) or self.front.network.cost(asked, self.route_of(lsp) or ()) is None:
            self.lsps.counting.placing.without(lsp, why)

    def reason(self, lsp: Lsp, had: int | None, is_broken: bool) -> str:
        """Why an LSP is moved, in a word."""
        if lsp.asked().hops:
            return "other" if lsp.ero else "new"
        return "gain" if had is not None else "lost" if is_broken else "other" if lsp.ero else "new"

    def keep(self, lsp: Lsp, ero: bytes, answer: Reply) -> None:
        """The LSP has its best route. If it is down nevertheless, it is tried once at each version that changes something of the route."""
        lsp.silent_since, lsp.is_silent = None, False
        if lsp.refused and lsp.refused.ero != ero[4:]:
            lsp.refused = None
        if lsp.is_down and self.front.network.touched(lsp.asked().asked().head, answer.fars) > lsp.tried:
            lsp.tried = answer.version
            self.move(lsp, ero, "down", answer, False, True)

    def is_refused(self, lsp: Lsp, body: bytes, is_broken: bool) -> bool:
        """Whether its PCC has refused this route, and it isn't sent again: that is done once the route that the PCC kept is lost."""
        refused = lsp.refused
        if refused is None or not refused.is_equal(body, self.attributes(lsp)):
            return False
        return lsp.was_lost or not is_broken

    def note(self, lsp: Lsp, is_broken: bool, is_down: bool, is_unknown: bool, answer: Reply) -> None:
        """Says once what is wrong with an LSP."""
        if is_down and not lsp.is_down:
            lsp.tried = answer.version
            why = "" if lsp.error is None else f": {error_named(lsp.error)}"
            self.front.say("warning", f"{self.lsps.named(lsp)} is DOWN, though its route may be used{why}")
        if is_unknown and not lsp.is_unknown:
            self.front.say("warning", f"{self.lsps.named(lsp)}: its route can't be read as links of the network")
        if is_broken and not lsp.is_broken and (lsp.refused or lsp.is_silent):
            self.front.say("error", f"{self.lsps.named(lsp)} is on a route that may not be used any more")
        lsp.is_broken, lsp.is_down, lsp.is_unknown = is_broken, is_down, is_unknown

    def stays(self, lsp: Lsp, had: int, cost: int) -> bool:
        """Whether a route of cost `had`, which still serves, is kept for another one."""
        options = self.front.options
        if had <= cost or 100 * (had - cost) < options.gain * had:
            return True
        if lsp.moved_at is None or self.front.clock() - lsp.moved_at >= options.calm:
            return False
        self.lsps.wake(lsp, lsp.moved_at + options.calm)
        return True

    def attributes(self, lsp: Lsp) -> bytes:
        return lsp.asked().attributes + lsp.asked().behind

    def next_at(self, lsp: Lsp, body: bytes, version: int) -> float:
        """When this update may be sent: the same thing isn't sent twice without a wait, nor many at one version."""
        sent = lsp.last
        if sent is None:
            return 0.0
        if sent.is_equal(body, self.attributes(lsp)):
            return sent.again_at()
        return sent.at + ANSWER if sent.version == version and lsp.at_once >= MOST_AT_ONCE else 0.0

    def move(self, lsp: Lsp, ero: bytes, why: str, answer: Reply, is_broken: bool, is_try: bool = False) -> None:
        """Sends an update, unless it has to wait, or the LSP has to be counted there first."""
        if not self.may_move(lsp, ero, answer, is_broken, is_try):
            return
        if lsp.id is None or self.lsps.counting.placing.has(lsp, answer):
            self.send(lsp, ero, why, answer, is_broken, is_try)
        else:
            self.lsps.counting.placing.place(lsp, why, is_broken, is_try, answer if lsp.is_excluding else None)

    def may_move(self, lsp: Lsp, ero: bytes, answer: Reply, is_broken: bool, is_try: bool) -> bool:
        """Whether an update may be sent now. One for a route that its PCC kept, and that is lost now, doesn't wait."""
        at = self.next_at(lsp, ero[4:], self.version_of(lsp, answer))
        if at > self.front.clock() and not is_try and not (is_broken and not lsp.was_lost):
            self.lsps.wake(lsp, at)
            return False
        if len(ero) + len(self.attributes_for(lsp, answer)) + 60 > wire.MOST:
            self.lose(lsp, "its path has no room in a message")
            return False
        return True

    def version_of(self, lsp: Lsp, answer: Reply) -> int:
        """The version by which updates of an LSP are bounded. Each placing of one that is counted makes a version; the base's counts."""
        return answer.version if lsp.id is None else self.lsps.counting.book.base

    def attributes_for(self, lsp: Lsp, answer: Reply) -> bytes:
        """The objects of an update behind its ERO."""
        asked = lsp.asked()
        return asked.attributes + wire.metric(wire.TE_METRIC, answer.cost, is_computed=True) + asked.behind

    def placed(self, lsp: Lsp, ero: bytes, answer: Reply, move: Move) -> None:
        """An LSP is counted on a route, and is moved there, unless it is there or on its way."""
        sent, body = lsp.pending, ero[4:]
        is_there = sent.ero == body if sent else bool(self.is_same(lsp, body, answer.fars)) and not move.is_try
        self.found(lsp)
        if (lsp.has_changed or not is_there) and self.may_move(lsp, ero, answer, move.is_broken, move.is_try):
            self.send(lsp, ero, move.why, answer, move.is_broken, move.is_try)

    def send(self, lsp: Lsp, ero: bytes, why: str, answer: Reply, is_broken: bool, is_try: bool) -> None:
        now, body, sent = self.front.clock(), ero[4:], lsp.last
        attributes = self.attributes_for(lsp, answer)
        is_again = sent is not None and sent.is_equal(body, self.attributes(lsp)) and now < sent.again_at() + ANSWER
        lsp.moved_at, lsp.has_changed, lsp.refused, lsp.was_lost = now, False, None, is_broken
        version = self.version_of(lsp, answer)
        lsp.at_once = lsp.at_once + 1 if sent and sent.version == version else 1
        if sent:
            self.lsps.updated.pop(sent.srp, None)
        self.lsps.update(lsp, ero, DELEGATED, attributes)
        tries = sent.tries + 1 if sent and is_again else 0
        lsp.last, lsp.waits = Update(self.lsps.srp, body, self.attributes(lsp), answer.fars, version, now, tries), True
        lsp.silent_since = now if lsp.silent_since is None else lsp.silent_since
        self.lsps.updated[self.lsps.srp] = lsp
        self.lsps.wake(lsp, now + ANSWER)
        self.front.count("moves", "again" if is_again and not is_try else why)
        self.front.say("info", f"PCUpd {self.lsps.named(lsp)}: {why}, cost {answer.cost} at version {answer.version}")

    def lose(self, lsp: Lsp, why: str) -> None:
        """Its route is lost, and there is no other: it stays where it is, and that is said once."""
        lsp.is_broken = False
        if not lsp.is_lost:
            lsp.is_lost = True
            self.front.count("moves", "none")
            self.front.say("error", f"{self.lsps.named(lsp)} has no route: {why}; its PCC keeps what it has")

    def found(self, lsp: Lsp) -> None:
        if lsp.is_lost:
            lsp.is_lost = False
            self.front.say("warning", f"{self.lsps.named(lsp)} has a route again")
