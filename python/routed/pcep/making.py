"""The LSPs that the file of --initiate wants of one PCC (RFC 8281)."""
from __future__ import annotations

import struct
import typing
from dataclasses import replace

from ..follow.slices import Form
from ..model import rows
from ..model.rows import Reply
from ..net.loop import Owner
from . import wire
from .lsp import ADMIN, CREATED, DELEGATED, Lsp
from .placing import BY_SEGMENTS, constraints_of
from .protocol import SessionFront
from .requests import Request
from .wire import pack

if typing.TYPE_CHECKING:
    from .lsps import Lsps

REMOVE = 1  # a flag of an SRP object
UNREPORTED = 10  # seconds after which a line names an LSP that was to be made


class Making:
    def __init__(self, lsps: Lsps):
        self.lsps, self.session = lsps, lsps.session
        self.front: SessionFront = lsps.front
        self.initiated: dict[str, tuple[int, Request]] = {}  # names that aren't reported yet: SRP and request
        self.asked: dict[int, str] = {}  # the same names by their SRPs
        self.late: set[str] = set()  # those of them that weren't reported in time
        self.waiting: dict[str, Request] = {}  # those whose routes are to be asked for, in the order of their turns
        self.is_due = False  # it is looked again which LSPs are to be made
        self.unmade: set[str] = set()  # names that were refused
        self.leaving: dict[int, Lsp] = {}  # by the SRP of its removal
        self.kept: set[int] = set()  # PLSP-IDs whose removal was refused
        self.placed: dict[int, str] = {}  # by their ids in the book: names of LSPs that are counted, and aren't reported yet

    def reported(self, lsp: Lsp) -> bool:
        """An LSP is reported. Whether it was made for another line than the file has now."""
        lsp.is_made |= lsp.name in self.initiated
        srp, request = self.initiated.pop(lsp.name, (0, None))
        self.asked.pop(srp, None)
        self.placed = {number: name for number, name in self.placed.items() if name != lsp.name} if self.placed else self.placed
        self.late.discard(lsp.name)
        return bool(lsp.flags & CREATED) and lsp.is_ours() and request is not None and request.row() != lsp.asked().row()

    def refused(self, srps: list[int]) -> None:
        """Its PCC refused some."""
        for srp in srps:
            name = self.asked.pop(srp, None)
            if name is not None and self.initiated.get(name, (0, None))[0] == srp:
                del self.initiated[name]
                self.unmade.add(name)
                self.late.discard(name)
                self.release(name)
                self.front.say("error", f"{self.session.peer}: {name!r} isn't made: its PCC refused it")
            if lsp := self.leaving.pop(srp, None):
                self.keep(lsp, "refuses to remove it")

    def keep(self, lsp: Lsp, why: str) -> None:
        """An LSP that isn't removed is moved like others."""
        if self.lsps.all.get(lsp.number) is lsp and lsp.is_leaving:
            lsp.is_leaving = False
            self.kept.add(lsp.number)
            self.front.say("error", f"{self.lsps.named(lsp)} stays, and is moved like others: its PCC {why}")
            self.lsps.moves.ask_again(lsp)

    def reread(self) -> None:
        """The file is another one: what was refused before, or not reported, is tried again."""
        for name in self.late:
            self.asked.pop(self.initiated.pop(name, (0, None))[0], None)
            if self.front.wanted(self.session.peer, name) is None:
                self.release(name)
        self.late.clear()
        self.unmade.clear()
        self.kept.clear()
        self.leaving.clear()
        for lsp in self.lsps.all.values():
            lsp.is_leaving = False
        self.initiate()

    def is_marked(self, lsp: Lsp) -> bool:
        """Whether an LSP has a name that only this front gives."""
        mark = self.front.options.mark
        return bool(mark) and lsp.name.startswith(mark)

    def may_make(self) -> bool:
        """Whether the PCC makes LSPs now."""
        is_able = self.session.state == "up" and self.lsps.is_synced and bool(self.session.capabilities & 4)
        return is_able and not self.session.is_overloaded()

    def initiate(self) -> None:
        """Makes the LSPs of the file that this PCC doesn't have, and asks again for those whose line has changed. One whose line
        is gone is removed, and so is one whose line has another end: it is made again once it is gone."""
        self.is_due = False
        if not self.may_make():
            return
        made = self.lsps.names
        for lsp in [lsp for lsp in made.values() if lsp.flags & CREATED]:
            self.look(lsp)
        for name, request in self.front.all_wanted(self.session.peer):
            if name not in made:
                self.begin(name, request)

    def look(self, lsp: Lsp) -> None:
        """Removes an LSP that no line names any more, and asks again for one whose line has changed."""
        if not self.may_make() or not lsp.flags & CREATED:
            return
        request = self.front.wanted(self.session.peer, lsp.name)
        if request is None:
            if self.is_marked(lsp) or self.front.is_unwanted(self.session.peer, lsp.name):
                self.remove(lsp)
        elif lsp.is_ours():
            self.change(lsp, request)

    def remove(self, lsp: Lsp) -> None:
        if not lsp.is_leaving and lsp.number not in self.kept:
            lsp.is_leaving = True
            self.lsps.drop_updates(lsp)
            lsp.removal = srp = self.lsps.next_srp()
            self.leaving[srp] = lsp
            self.front.later(UNREPORTED, lambda: self.look_for_removal(srp), self.session.owner)
            self.front.count("moves", "removed")
            self.session.send(wire.message(wire.INITIATE, self.lsps.srp_object(REMOVE, lsp.setup_type),
                                           pack(wire.O_LSP, struct.pack("!I", lsp.number << 12 | DELEGATED))))

    def look_for_removal(self, srp: int) -> None:
        """Manages an LSP again whose removal isn't reported."""
        if lsp := self.leaving.pop(srp, None):
            self.keep(lsp, f"hasn't reported its removal for {UNREPORTED} s")

    def gone(self, lsp: Lsp) -> None:
        """An LSP is removed. Another one may have its number or its name."""
        self.kept.discard(lsp.number)
        if lsp.is_leaving:
            self.leaving.pop(lsp.removal, None)
            request = self.front.wanted(self.session.peer, lsp.name)
            if request and self.may_make() and lsp.name not in self.lsps.names:
                self.begin(lsp.name, request)

    def change(self, lsp: Lsp, request: Request) -> None:
        if lsp.asked().ends[1] != request.ends[1]:
            if lsp.is_made:
                self.remove(lsp)
            elif lsp.name not in self.unmade:  # FRR flags all of its LSPs as created
                self.unmade.add(lsp.name)
                self.front.say("warning", f"{self.lsps.named(lsp)} has the name of a line, and another end")
        elif lsp.asked().row() != request.row():
            lsp.request, lsp.has_changed = request, True
            self.lsps.moves.ask(lsp)

    def begin(self, name: str, request: Request) -> None:
        """Asks for the route of an LSP that is to be made, in its turn."""
        if name not in self.initiated and name not in self.unmade:
            self.initiated[name] = 0, request
            self.waiting[name] = request
            if self.is_counted():
                self.lsps.counting.book.slices.add(self)
            else:
                self.front.in_turn(self)

    def setup_type(self) -> int:
        """The path setup type of LSPs that are made."""
        return max(self.session.setup_types, default=0)

    def is_counted(self) -> bool:
        return self.lsps.counting.is_on(self.setup_type())

    def release(self, name: str) -> None:
        """An LSP isn't made: it isn't counted."""
        if self.is_counted():
            number = self.lsps.counting.id_of(name)
            if self.placed.pop(number, None) is not None:
                self.lsps.counting.release(number)

    def whose(self) -> Owner | None:
        return self.session.owner

    def has_more(self) -> bool:
        return bool(self.waiting)

    def following(self) -> Form | None:
        """The row of the name whose turn it is."""
        if not self.waiting:
            return None
        name = next(iter(self.waiting))
        request = self.waiting.pop(name)
        if not self.may_make():  # it is begun again once it may be
            self.initiated.pop(name, None)
            return None
        setup_type = self.setup_type()
        sent = self.session.question(request, setup_type)
        if self.is_counted():
            return self.counted(name, request, sent)
        return sent.constraints(), lambda line: self.create(name, request, sent, setup_type, line)

    def counted(self, name: str, request: Request, sent: rows.Request) -> Form | None:
        """The row that asks the book for the route of an LSP, which is placed then before it is made."""
        counting = self.lsps.counting
        number, constraints = counting.id_of(name), constraints_of(request, sent)
        owner = counting.owners.get(number)
        if owner or number in counting.book.busy or not counting.book.is_known:
            self.initiated.pop(name, None)
            if owner:
                self.unmade.add(name)
                self.front.say("error", f"{self.session.peer}: {name!r} isn't made: its id in the book is that of {self.lsps.named(owner)}")
            elif counting.book.is_known:
                counting.book.turn(number, "make", self.initiate)
            return None
        sent = replace(sent, bandwidth=0)

        def offered(line: str | None) -> None:
            if self.is_wanted(name, request, sent, BY_SEGMENTS, line):
                self.placed[number] = name
                counting.book.give(f"place,{number},{constraints}", placed, self.session.owner)
            elif name not in self.initiated:
                self.release(name)

        def placed(line: str | None) -> None:
            self.create(name, request, sent, BY_SEGMENTS, line)
            if name not in self.initiated:
                self.release(name)

        return f"offer,{number},{constraints}", offered

    def is_wanted(self, name: str, request: Request, sent: rows.Request, setup_type: int, line: str | None) -> bytes | None:
        """The ERO of an LSP that is to be made by its answer; None if it isn't made now."""
        if not self.may_make():  # it is begun again once it may be
            self.initiated.pop(name, None)
            return None
        answer = Reply.parse(line or "")
        if answer and not answer.why:
            ero, refusal = self.session.ero(answer, request, sent, setup_type)
            why = refusal and refusal[1]
        else:
            ero, why = b"", line or "no answer"
        if self.front.wanted(self.session.peer, name) is not request:  # its line has changed since it was asked for
            self.initiated.pop(name, None)
            self.initiate()
            return None
        if why:
            self.initiated.pop(name, None)
            self.front.say("warning", f"{self.session.peer}: {name!r} isn't made: {why}")
            if line is None and not self.front.is_away and not self.is_due:
                self.is_due = True
                self.front.later(1, self.initiate, self.session.owner)
            return None
        return ero

    def create(self, name: str, request: Request, sent: rows.Request, setup_type: int, line: str | None) -> None:
        """Makes an LSP by its answer."""
        if not (ero := self.is_wanted(name, request, sent, setup_type, line)):
            return
        self.initiated[name] = asked = self.lsps.next_srp(), request
        self.asked[asked[0]] = name
        self.front.later(UNREPORTED, lambda: self.look_for(name, asked), self.session.owner)
        self.front.count("moves", "made")
        self.session.send(wire.message(
            wire.INITIATE, self.lsps.srp_object(0, setup_type),
            pack(wire.O_LSP, struct.pack("!I", DELEGATED | ADMIN) + wire.tlv(wire.T_NAME, name.encode())),
            pack(wire.O_ENDS, wire.socket.inet_aton(request.ends[0]) + wire.socket.inet_aton(request.ends[1])), ero,
            request.attributes))

    def look_for(self, name: str, asked: tuple[int, Request]) -> None:
        """Names an LSP that was to be made if it isn't reported yet."""
        if self.initiated.get(name) is asked:
            self.late.add(name)
            self.front.say("warning", f"{self.session.peer}: {name!r} was to be made, and isn't reported")
