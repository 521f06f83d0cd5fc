"""Where the LSPs of a session that the server's book counts should be: they are placed there before they are moved."""
from __future__ import annotations

import functools
import socket
import typing
from dataclasses import replace

from ..follow.slices import Form
from ..model import rows
from ..model.rows import Reply
from .exclusions import Unavailable
from .lsp import Lsp
from .placement import Placement, hexadecimal
from .protocol import SessionFront
from .requests import Request
from .routes import links_of
from .wire import Refused

if typing.TYPE_CHECKING:
    from .counting import Counting
    from .session import Session

BY_SEGMENTS = 1  # the path setup type of LSPs that are counted


class Move(typing.NamedTuple):
    """Why an LSP is placed and moved, and the route that was found for it, if no row of the book finds it."""

    why: str
    is_broken: bool
    is_try: bool
    found: Reply | None


class Placing:
    def __init__(self, counting: Counting):
        self.counting, self.lsps = counting, counting.lsps
        self.session: Session = counting.session
        self.front: SessionFront = counting.front

    def has_rows(self, lsp: Lsp) -> bool:
        """Whether the book can be asked for the route of an LSP: its rows exclude no links."""
        try:
            return not lsp.asked().exclusions.text(self.front)
        except (Refused, Unavailable):
            return False

    def offering(self, lsp: Lsp, number: int) -> Form | None:
        """The row by which it is known where an LSP would be placed."""
        if not lsp.is_ours() or not self.lsps.is_synced or self.front.is_away or self.session.is_full:
            return None
        if not self.has_rows(lsp):
            self.lsps.moves.put(lsp)
            return None
        request, asked = lsp.asked(), self.asked(lsp)
        call = functools.partial(self.offered, lsp, request, replace(asked, bandwidth=0))
        return f"offer,{number},{constraints_of(request, asked)}", call

    def asked(self, lsp: Lsp) -> rows.Request:
        """What is asked for an LSP that is ours."""
        return lsp.asked().asked(self.session.group(BY_SEGMENTS))

    def displace(self, lsp: Lsp, why: str) -> None:
        """Places an LSP elsewhere, which can't stay where it is, if it can be moved to the route that is offered."""
        request, asked = lsp.asked(), self.asked(lsp)

        def offered(line: str | None) -> None:
            answer = Reply.parse(line or "")
            if line is None or not self.counting.is_ours(lsp) or request is not lsp.request or self.counting.is_tried_again(lsp, line):
                return
            if answer is None or answer.why:
                self.lsps.moves.lack(lsp, replace(asked, bandwidth=0), answer.why if answer and answer.why else line)
            elif fault := self.fault(request, answer):
                self.without(lsp, fault)
            else:
                self.place(lsp, why, True)

        self.counting.book.give(f"offer,{lsp.id},{constraints_of(request, asked)}", offered, self.session.owner)

    def fault(self, request: Request, answer: Reply) -> str:
        """Why an LSP can't be moved to the route of an answer; empty if it can."""
        asked = replace(request.asked(self.session.group(BY_SEGMENTS)), bandwidth=0)
        _, fault = self.session.ero(answer, request, asked, BY_SEGMENTS)
        return fault[1] if fault else "above its bound" if request.broken(answer.cost) else ""

    def offered(self, lsp: Lsp, request: Request, asked: rows.Request, line: str | None) -> None:
        if line is None or not self.counting.is_ours(lsp) or self.session.is_overloaded():
            return
        answer, was_proved = Reply.parse(line), self.front.network.is_proved
        if request is not lsp.request:
            self.counting.ask(lsp)
        elif self.counting.is_tried_again(lsp, line):
            pass
        elif answer:
            self.lsps.moves.judge(lsp, asked, answer)
            if self.front.network.is_proved and not was_proved:
                self.counting.again()
        else:
            self.without(lsp, line)
        request.exclusions.settle()

    def without(self, lsp: Lsp, why: str) -> None:
        """There is no route for an LSP. One that the book lacks is uncounted."""
        self.lsps.moves.lose(lsp, why)
        self.counting.lacking[lsp] = None
        if not self.counting.is_booked(lsp):
            self.counting.miss(lsp, why)

    def has(self, lsp: Lsp, answer: Reply) -> bool:
        """Whether the book has an LSP on the route of an answer, for what is asked now."""
        request, asked = lsp.asked(), self.asked(lsp)
        links = links_of(self.front.network, asked.head, answer.fars)
        wanted = Placement.of(constraints_of(request, asked), hexadecimal(links)) if links else None
        return wanted is not None and self.counting.book.booked.get(lsp.id or 0) == wanted

    def place(self, lsp: Lsp, why: str, is_broken: bool, is_try: bool = False, found: Reply | None = None) -> None:
        """Places an LSP before it is moved. The route of one that excludes links was found already, since no row of a book does so."""
        number, request = lsp.id, lsp.asked()
        if number is None:
            return
        asked, had = self.asked(lsp), self.counting.book.booked.get(number)
        text = f"place,{number},{constraints_of(request, asked)}"
        if found:
            links = links_of(self.front.network, asked.head, found.fars) or []
            text = f"held,{number},{constraints_of(request, asked)},{hexadecimal(links)}"
            text = f"release,{number}\n{text}" if had else text
        call = functools.partial(self.placed, lsp, request, had, Move(why, is_broken, is_try, found))
        self.counting.book.turn(number, "place", functools.partial(self.counting.book.give, text, call, self.session.owner))

    def placed(self, lsp: Lsp, request: Request, had: Placement | None, move: Move, line: str | None) -> None:
        """An LSP is placed, and is moved there. What was counted before is counted again if it can't be."""
        if line is None:
            return
        answer = move.found if move.found and line.startswith("held ") and " refused: " not in line else Reply.parse(line)
        if not self.counting.is_ours(lsp) or self.session.is_full or request is not lsp.request:
            if self.session.state == "up" and lsp.id is not None:
                self.counting.ask(lsp)
            return
        if self.counting.is_tried_again(lsp, line):
            return
        if answer is None or answer.why:
            self.without(lsp, answer.why if answer and answer.why else line)
            return
        if fault := self.fault(request, answer):
            self.undo(lsp, had, fault)
            return
        self.counting.found(lsp)
        ero, _ = self.session.ero(answer, request, replace(self.asked(lsp), bandwidth=0), BY_SEGMENTS)
        self.lsps.moves.placed(lsp, ero, answer, move)

    def undo(self, lsp: Lsp, had: Placement | None, why: str) -> None:
        """Counts again what was counted before an LSP was placed, since it can't be moved there."""
        number = lsp.id
        back = f"\nheld,{number},{had.constraints},{had.route}" if had and had.route else ""
        self.counting.book.give(f"release,{number}{back}", lambda _: self.without(lsp, why), self.session.owner)


def constraints_of(request: Request, asked: rows.Request) -> str:
    """The fields of a row of a book behind its id: as of an `ask` row, but for the holding priority. No bits stand past the length of a
    hop's prefix, so that the text of the book has the same."""
    hops = " ".join(plain(hop) for hop in asked.hops.split())
    return replace(asked, setup=request.hold, hops=hops, excluded="").constraints()


def plain(hop: str) -> str:
    address, rest = hop.split("/")
    length = int(rest[:-1])
    bits = int.from_bytes(socket.inet_aton(address), "big") >> 32 - length << 32 - length
    return f"{socket.inet_ntoa(bits.to_bytes(4, 'big'))}/{rest}"
