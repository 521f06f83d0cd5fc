"""The LSPs of one session as its PCC reports and delegates them (RFC 8231)."""
from __future__ import annotations

import functools
import struct
import typing

from . import wire
from .counting import Counting
from .lsp import ADMIN, ANSWER, CREATED, DELEGATED, REMOVED, SYNC, TAKEN, Lsp, Update
from .making import Making
from .moves import Moves
from .protocol import SessionFront
from .reports import Report, about, cut, error_named
from .requests import MOST_OBJECTS, Request
from .routes import walk
from .wire import Refused, pack

if typing.TYPE_CHECKING:
    from .session import Session

TOO_MANY = 20, 1  # the error of a report above --most-lsps, or above the next bound
MOST_BYTES = 8 << 20  # bytes of the reports of all LSPs of a PCC
# Why a delegation is returned, in words.
FAULTS = {(3, 1): "an object of an unknown class", (3, 2): "an object of an unknown type", (4, 1): "an object that no row can say",
          (4, 2): "an object of a type that no row can say", (4, 4): "a constraint that no row can say",
          (6, 11): "its ends aren't known or are the same", (10, 11): "an object that can't be read",
          (21, 1): "a path setup type that the session doesn't have", TAKEN: "another PCC has delegated it"}


STAYS_DOWN = "its PCC reports it as DOWN"


class Lsps:
    def __init__(self, session: Session):
        self.session, self.is_synced, self.size = session, False, 0
        self.front: SessionFront = session.front
        self.all: dict[int, Lsp] = {}  # by PLSP-IDs
        self.names: dict[str, Lsp] = {}
        self.updated: dict[int, Lsp] = {}  # by the SRPs of their last updates
        self.waking: dict[int, Lsp] = {}  # by PLSP-IDs: those that are looked at again at a time
        self.srp: int = (session.number - 1 << 12) % (1 << 32)  # a PCC may report numbers of an earlier session
        self.moves: Moves = Moves(self)
        self.making: Making = Making(self)
        self.counting: Counting = Counting(self)

    # ---- reports

    def reports(self, objects: list[wire.Object]) -> None:
        """One report that can't be taken leaves those behind it."""
        if not objects:
            raise Refused(6, 8)
        self.session.work.extend(functools.partial(self.take, given) for given in cut(objects))

    def take(self, given: list[wire.Object]) -> None:
        try:
            if len(given) > MOST_OBJECTS:
                raise wire.BadObject
            self.report(Report(given))
        except Refused as fault:
            self.session.refuse(*fault.args, *about(given))
            if fault.args == TOO_MANY:
                most = self.front.options.most_lsps
                self.session.stop(f"it reports more than {most} LSPs, or LSPs of more than {MOST_BYTES} bytes", wire.close(1))

    def report(self, one: Report) -> None:
        if not one.number:
            if not one.flags & SYNC:
                self.synced()
            return
        if one.flags & REMOVED:
            self.removed(one.number)
            return
        if one.ero is None:
            raise Refused(6, 9)
        lsp = self.all.get(one.number) or self.begun(one)
        before, lsp.name = lsp.name, one.tlvs.get(wire.T_NAME, lsp.name.encode()).decode(errors="replace")
        if one.setup_type is not None or one.is_by_segments():
            lsp.setup_type = 1 if one.setup_type is None else one.setup_type
        if not one.flags & DELEGATED and lsp.flags & DELEGATED:
            self.front.say("info", f"{self.named(lsp)} isn't delegated any more")
        lsp.flags = one.flags if self.session.capabilities & 1 else one.flags & ~DELEGATED  # a PCC without the U flag delegates nothing
        self.believe(lsp, one)
        lsp.request = self.request_of(lsp, one)
        self.forget(lsp, before)
        self.all[one.number] = self.names[lsp.name] = lsp
        self.size, lsp.size = self.size + one.size - lsp.size, one.size
        if self.size > MOST_BYTES:
            raise Refused(*TOO_MANY)
        lsp.has_changed |= self.making.reported(lsp)
        if lsp.flags & CREATED:
            self.making.look(lsp)
        if self.counting.reported(lsp, one):
            self.counting.ask(lsp)
        elif lsp.is_ours():
            self.moves.ask(lsp)
        elif not lsp.flags & DELEGATED:
            self.drop_updates(lsp)

    def begun(self, one: Report) -> Lsp:
        """A new LSP. Without a setup type it is of RSVP-TE, unless its PCC has no such LSPs, as FRR."""
        if wire.T_NAME not in one.tlvs:
            raise Refused(6, 14)
        if len(self.all) >= self.front.options.most_lsps:
            raise Refused(*TOO_MANY)
        lsp = Lsp(one.number)
        if one.setup_type is None:
            lsp.setup_type = 0 if 0 in self.session.setup_types and not one.is_by_segments() else 1
        else:
            lsp.setup_type = one.setup_type
        if lsp.setup_type == 0 and wire.T_LSP_IDS not in one.tlvs:
            raise Refused(6, 11)
        return lsp

    def believe(self, lsp: Lsp, one: Report) -> None:
        """Takes what a report says of the route: by itself, or as the answer to an update."""
        lsp.ero, lsp.route, lsp.error = one.ero or b"", None, one.error
        sent = lsp.last
        if sent is None:
            return
        if lsp.ero == sent.ero:
            lsp.route = sent.route
        is_taken = self.moves.is_taken(lsp, sent)
        if one.srp == sent.srp and not sent.is_settled:
            why = (error_named(one.error) if one.error is not None else "its PCC reports an empty ERO" if not one.ero
                   else "its PCC reports another ERO" if is_taken is False else None)
            if why:
                self.refuse(lsp, why)
            elif not lsp.is_reported_down():
                self.accept(lsp, sent)
            elif lsp.is_down or not lsp.waits:
                self.refuse(lsp, STAYS_DOWN)
            else:  # FRR says so at first, and GOING-UP within a millisecond
                sent.is_down, lsp.silent_since = True, None
        elif is_taken and not lsp.is_reported_down() and (lsp.waits or lsp.is_silent or lsp.refused is sent):
            self.accept(lsp, sent)

    def accept(self, lsp: Lsp, sent: Update) -> None:
        if not sent.is_settled:
            self.front.count("updates", "accepted")
        self.settle(lsp, sent)
        lsp.refused = None

    def settle(self, lsp: Lsp, sent: Update) -> None:
        """Its PCC has answered an update."""
        sent.is_settled, lsp.waits, lsp.is_silent, lsp.silent_since = True, False, False, None

    def refuse(self, lsp: Lsp, why: str) -> None:
        """Its PCC has refused the last update."""
        sent = lsp.last
        assert sent is not None
        self.settle(lsp, sent)
        lsp.refused = sent
        self.front.count("updates", "refused")
        self.front.say(self.level(lsp), f"{self.named(lsp)} stays where it is: its PCC refused the update: {why}")

    def level(self, lsp: Lsp) -> str:
        """That of a line about an LSP which isn't moved: no line is dropped of one on a route that may not be used."""
        return "error" if lsp.is_broken else "warning"

    def forget(self, lsp: Lsp, name: str) -> None:
        """The LSP has that name no more. A name is of one LSP of a PCC (RFC 8231 7.3.2)."""
        if self.names.get(name) is lsp:
            del self.names[name]

    def drop_updates(self, lsp: Lsp) -> None:
        """Nothing that was sent for it counts any more."""
        if lsp.last:
            self.updated.pop(lsp.last.srp, None)
        self.waking.pop(lsp.number, None)
        lsp.forget()

    def request_of(self, lsp: Lsp, one: Report) -> Request | None:
        """What is asked for an LSP; None, and the delegation is returned, where a row can't say it."""
        lsp.fault = None
        if not lsp.flags & DELEGATED:
            lsp.is_returned = False
        if not lsp.flags & DELEGATED or lsp.is_leaving:
            return lsp.request if lsp.is_leaving else None
        try:
            request = self.read(lsp, one)
        except Refused as fault:
            self.give_back(lsp, fault)
            return None
        lsp.is_returned = lsp.is_taken = False
        return request

    def read(self, lsp: Lsp, one: Report) -> Request:
        """The request of a delegated LSP. Its constraints have to be kept, whatever their P flags say: these are of requests alone
        (RFC 8231 7)."""
        request = Request(bool(self.front.srlgs))
        ends = one.ends or (lsp.request.ends if lsp.request else self.ends_by_route(one))
        request.ends = ends
        wanted = self.front.wanted(self.session.peer, lsp.name) if lsp.flags & CREATED else None
        if wanted and wanted.ends[1] == ends[1]:
            lsp.is_made = True
            return wanted
        request.ends = ends = self.routers(ends)
        if ends[0] == ends[1]:
            raise Refused(6, 11)
        if not self.front.claims(self.session.peer, ends[0], lsp.name):
            raise Refused(*TAKEN)
        if lsp.setup_type not in self.session.setup_types:
            raise Refused(21, 1)
        for constraint in one.constraints:
            request.take(constraint._replace(must=True))
        return request

    def routers(self, ends: tuple[str, str]) -> tuple[str, str]:
        """The Router IDs of the ends of an LSP, which may be addresses of interfaces."""
        network = self.front.network
        network.reach(self.front.version)
        if network.is_doubted:
            return ends
        here, there = (network.router_of(address) or address for address in ends)
        return here, there

    def ends_by_route(self, one: Report) -> tuple[str, str]:
        """The ends of an LSP by segment routing that has no identifiers: its PCC, and where its route ends."""
        network = self.front.network
        network.reach(self.front.version)
        head = network.router_of(self.session.peer) or self.session.peer
        found = walk(network, self.front.sids, head, one.hops)
        return head, found[0] if found else head

    def give_back(self, lsp: Lsp, fault: Refused) -> None:
        """Returns the delegation, once (RFC 8231 5.7.3), and no sooner than its PCC has reported all LSPs."""
        lsp.fault, lsp.is_taken = fault, fault.args == TAKEN
        if lsp.is_taken:
            self.counting.gone(lsp)
        if lsp.is_returned or not self.is_synced:
            return
        lsp.is_returned = True
        self.front.count("moves", "given back")
        kind, value = fault.args
        self.front.say("warning", f"{self.named(lsp)} is given back to its PCC: {kind}/{value}, {FAULTS.get((kind, value), 'unsupported')}")
        self.drop_updates(lsp)
        self.update(lsp, pack(wire.O_ERO, lsp.ero if len(lsp.ero) + 60 <= wire.MOST else b""), 0, b"")

    def lose(self, lsp: Lsp, fault: Refused | None = None) -> None:
        """The LSP isn't ours any more: the PCC at its head-end has delegated it, or its request can't be asked for this reason."""
        lsp.request = None
        self.give_back(lsp, fault or Refused(*TAKEN))

    def removed(self, number: int) -> None:
        lsp = self.all.pop(number, None)
        if lsp:
            self.size -= lsp.size
            self.drop_updates(lsp)
            self.forget(lsp, lsp.name)
            self.front.say("info", f"{self.named(lsp)} is removed")
            self.counting.gone(lsp)
            self.making.gone(lsp)

    def synced(self) -> None:
        if not self.is_synced:
            self.is_synced = True
            self.front.say("info", f"{self.session.peer}: synchronized, {len(self.all)} LSPs")
            for lsp in [*self.all.values()]:
                if lsp.fault:
                    self.give_back(lsp, lsp.fault)
            self.counting.synced()
            self.making.initiate()
            self.moves.again()

    def refused(self, srps: list[int]) -> None:
        """Its PCC refused updates, new LSPs or removals by a PCErr."""
        for srp in srps:
            lsp = self.updated.get(srp)
            if lsp and lsp.last and not lsp.last.is_settled:
                self.refuse(lsp, "by a PCErr")
                if lsp.is_ours():
                    self.moves.ask(lsp)
        self.making.refused(srps)

    # ---- updates

    def tick(self, now: float) -> None:
        """Looks at the LSPs whose time has come. An update that wasn't answered is no longer waited for."""
        for number, lsp in [*self.waking.items()]:
            if lsp.wake_at is not None and lsp.wake_at > now:
                continue
            del self.waking[number]
            lsp.wake_at = None
            if lsp.last and lsp.waits:
                self.give_up(lsp, lsp.last, now)
            self.moves.ask_again(lsp)

    def give_up(self, lsp: Lsp, sent: Update, now: float) -> None:
        """Waits no longer for the answer to an update if its time is over."""
        if lsp.silent_since is not None and now >= lsp.silent_since + ANSWER and not lsp.is_silent:
            lsp.is_silent = True
            self.front.say(self.level(lsp), f"{self.named(lsp)}: its PCC has answered no update for {ANSWER} s")
        if now >= sent.at + ANSWER and sent.is_down:
            self.refuse(lsp, STAYS_DOWN)
        elif now >= sent.at + ANSWER:
            lsp.waits = False
            self.front.count("updates", "unanswered")
        else:
            self.wake(lsp, sent.at + ANSWER)

    def wake(self, lsp: Lsp, at: float) -> None:
        """Looks at an LSP again then, or sooner if it waits for that already: one time for each LSP."""
        if lsp.wake_at is None or at < lsp.wake_at:
            lsp.wake_at = at
        self.waking[lsp.number] = lsp

    def update(self, lsp: Lsp, ero: bytes, delegated: int, attributes: bytes) -> None:
        self.next_srp()
        self.session.send(wire.message(
            wire.UPDATE, self.srp_object(0, lsp.setup_type),
            pack(wire.O_LSP, struct.pack("!I", lsp.number << 12 | delegated | lsp.flags & ADMIN)), ero, attributes))

    def named(self, lsp: Lsp) -> str:
        return f"{self.session.peer}: LSP {lsp.name!r} ({lsp.number})"

    def next_srp(self) -> int:
        self.srp = self.srp % 0xfffffffe + 1
        return self.srp

    def srp_object(self, flags: int, setup_type: int) -> bytes:
        return pack(wire.O_SRP, struct.pack("!II", flags, self.srp) + wire.setup_type_tlv(setup_type))
