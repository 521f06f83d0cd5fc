"""The requests of one session, and their answers (RFC 5440 6.4 and 6.5)."""
from __future__ import annotations

import functools
import typing

from ..follow.slices import Form
from ..model.pairs import constraints_of
from ..model.rows import Reply, Request
from ..net.loop import Owner
from . import wire
from .counting import AWAY
from .exclusions import TooMany, Unavailable
from .protocol import KIND, Fault, SessionFront
from .requests import MOST_OBJECTS, UNAVAILABLE, UNKNOWN_FROM, UNKNOWN_TO, VECTORS, Asked, no_path, number_of, path, requests_of
from .svecs import Svec, Svecs, are_alike, joined, replies_of
from .wire import Object, Refused, pack

if typing.TYPE_CHECKING:
    from .session import Session

MOST_ASKED = 256  # requests of a PCC that the server hasn't answered: beyond them none is taken, and nothing is read
MOST_KEPT = 256  # requests without a path that are asked again
OLD_AGAIN = 1  # seconds from an answer of an older version to the next ask


class Answers:
    def __init__(self, session: Session):
        self.session = session
        self.front: SessionFront = session.front
        self.pending: set[Asked] = set()  # those that are asked
        self.vain: dict[int, Asked] = {}  # those that had no path, by their ids
        self.waiting: dict[Asked, None] = {}  # those of them that are to be asked again, in the order of their turns
        self.count = 0  # asks that aren't answered

    def is_full(self) -> bool:
        return self.count >= MOST_ASKED

    def take(self, objects: list[Object]) -> None:
        """The requests of a PCReq, which are begun one by one as there is room, and both of a pair at once."""
        before, requests = requests_of(objects)
        numbers = [number_of(rp) for rp, _ in requests]
        svecs, pairs = Svecs(before, numbers), dict[Svec, list[tuple[Object, list[Object]]]]()
        for number, request in zip(numbers, requests):
            svec = svecs.pairs.get(number)
            if svec is None:
                self.session.work.append(functools.partial(self.begin, *request, number in svecs.refused, svecs.returned))
            elif svec in pairs:
                pairs[svec].append(request)
            else:
                pairs[svec] = [request]
                self.session.work.append(functools.partial(self.begin_pair, pairs[svec], svec, svecs.returned))

    def begin(self, rp: Object, rest: list[Object], is_bound: bool, returned: bytes) -> None:
        """Reads a request, and asks the server."""
        if asked := self.read(rp, rest, is_bound, returned):
            self.ask(asked)

    def begin_pair(self, two: list[tuple[Object, list[Object]]], svec: Svec, returned: bytes) -> None:
        """Reads two requests that an SVEC binds, and asks the server for both."""
        both = [asked for rp, rest in two if (asked := self.read(rp, rest, False, returned))]
        if len(both) == 2 and are_alike(*both):
            self.ask_pair(both, svec)
        else:
            self.unbind(both, svec)

    def read(self, rp: Object, rest: list[Object], is_bound: bool, returned: bytes) -> Asked | None:
        """Reads a request. One that an SVEC binds to others, which has to be processed, is no row."""
        try:
            asked = Asked(rp, bool(self.front.srlgs))
        except Refused as fault:
            self.session.refuse(*fault.args, pack(rp.kind, rp.body[:8], rp.type))
            return None
        try:
            if is_bound:
                raise Refused(*wire.CLASS)
            if len(rest) >= MOST_OBJECTS:
                raise wire.BadObject
            asked.read(rest, self.session.setup_types, self.session.is_stateful)
        except Refused as fault:
            self.refused(asked, fault)
            return None
        asked.returned = returned
        self.vain.pop(asked.id, None)
        self.pending.add(asked)
        return asked

    def ask(self, asked: Asked) -> None:
        if self.is_uncounted(asked):
            self.keep_vain(asked)
            self.finish(asked, *self.unavailable(asked, AWAY))
            return
        try:
            asked.sent = self.session.question(asked.request, asked.setup_type)
        except Unavailable as fault:
            self.finish(asked, *self.unavailable(asked, str(fault)))
        except Refused as fault:
            self.finish(asked, *self.refused(asked, fault))
        else:
            self.count += 1
            self.front.ask(asked.sent.constraints(), functools.partial(self.answered, asked), self.session.owner)

    def answered(self, asked: Asked, line: str | None) -> None:
        self.count -= 1
        if self.session.state == "up" and asked in self.pending:
            answer = Reply.parse(line or "")
            has_others = answer is not None and self.has_other_ends(asked, answer)
            if has_others and asked.request.ends[0] != asked.request.ends[1]:
                self.ask(asked)
            else:  # no row has equal ends
                self.go_on(asked, None if has_others else answer, line)
        self.session.wake()

    def go_on(self, asked: Asked, answer: Reply | None, line: str | None) -> None:
        """Asks once more, or sends the answer."""
        try:
            if self.session.is_asked_again(asked.request, asked.sent, asked.setup_type, answer, line):
                self.ask(asked)
                return
            found = self.answer(asked, answer, line)
        except Unavailable as fault:
            found = self.unavailable(asked, str(fault))
        except Refused as fault:
            found = self.refused(asked, fault)
        self.finish(asked, *found)

    def is_uncounted(self, asked: Asked) -> bool:
        """Whether the LSP of a path couldn't be counted now."""
        return self.session.lsps.counting.is_on(asked.setup_type) and not self.session.lsps.counting.book.is_known

    def ask_pair(self, both: list[Asked], svec: Svec) -> None:
        if self.is_uncounted(both[0]):
            for asked in [asked for asked in both if asked in self.pending]:
                self.finish(asked, *self.unavailable(asked, AWAY))
            return
        for asked in both:
            asked.is_of_pair = True
            asked.sent = self.session.question(asked.request, asked.setup_type)  # it excludes nothing
        self.count += 1
        self.front.ask(constraints_of(both[0].sent, svec.kind), functools.partial(self.pair_answered, both, svec), self.session.owner)

    def pair_answered(self, both: list[Asked], svec: Svec, line: str | None) -> None:
        self.count -= 1
        left = [asked for asked in both if asked in self.pending]
        if self.session.state == "up" and left:
            if KIND.fullmatch(line or ""):
                self.unbind(left, svec)
            else:
                self.go_on_pair(both, left, svec, line)
        self.session.wake()

    def go_on_pair(self, both: list[Asked], left: list[Asked], svec: Svec, line: str | None) -> None:
        """Asks once more by the Router IDs of the ends, or sends both answers. If one can't be sent, the other isn't either."""
        answers = replies_of(line or "") or (None, None)
        if answers[0] and any([self.has_other_ends(asked, answers[0]) for asked in both]):
            head, tail = both[0].request.ends
            if head != tail:
                self.ask_pair(both, svec)
                return
            answers = None, None  # no row has equal ends
        faults = [fault for asked, answer in zip(both, answers) if (fault := self.fault(asked, answer))]
        for asked, answer in zip(both, answers):
            if asked in left:
                try:
                    found = self.without(asked, faults[0]) if faults else self.answer(asked, answer, line)
                except Refused as fault:
                    found = self.refused(asked, fault)
                self.finish(asked, *found)

    def fault(self, asked: Asked, answer: Reply | None) -> Fault | None:
        """Why a way of a pair can't be sent."""
        if answer is None or answer.why or asked.unknown:
            return None
        return self.session.ero(answer, asked.request, asked.sent, asked.setup_type)[1]

    def unbind(self, those: list[Asked], svec: Svec) -> None:
        """No row says what an SVEC asks for: its requests are refused if it has to be processed, or else asked for one by one."""
        for asked in those:
            asked.is_of_pair = False
            if svec.must:
                self.finish(asked, *self.refused(asked, Refused(*wire.CLASS)))
            else:
                asked.returned = joined(asked.returned, svec.objects)
                self.ask(asked)

    def finish(self, asked: Asked, data: bytes, outcome: str) -> None:
        self.pending.remove(asked)
        self.front.count("requests", outcome)
        if data:
            self.session.send(data)

    def refused(self, asked: Asked, fault: Refused, why: str = "") -> tuple[bytes, str]:
        """What became of a request that is answered by an error. A line says why if the error doesn't."""
        if why := why or (str(fault) if isinstance(fault, TooMany) else ""):
            self.warn(asked, why)
        self.session.refuse(*fault.args, asked.rp())
        return b"", "refused"

    def without(self, asked: Asked, fault: Fault) -> tuple[bytes, str]:
        """The message for a request whose route has no ERO, if it's no error, and what became of it."""
        error, why = fault
        return self.refused(asked, Refused(*error), why) if error else self.unavailable(asked, why)

    def unavailable(self, asked: Asked, why: str) -> tuple[bytes, str]:
        """The message for a request that can't be answered now, and what became of it."""
        self.warn(asked, why)
        return no_path(asked.returned + asked.rp(), UNAVAILABLE), "unavailable"

    def warn(self, asked: Asked, why: str) -> None:
        self.front.say("warning", f"{self.session.peer}: request {asked.id}: {why}")

    def has_other_ends(self, asked: Asked, answer: Reply) -> bool:
        """Whether the ends of a request are addresses of routers, but not their Router IDs. These it has from now on."""
        if asked.is_resolved:
            return False
        asked.is_resolved, network = True, self.front.network
        network.reach(answer.version)
        if network.is_doubted or network.version < answer.version:  # or there is no journal
            return False
        head, tail = (network.routers_of(address) or {address} for address in asked.request.ends)
        asked.unknown = UNKNOWN_FROM if len(head) > 1 else UNKNOWN_TO if len(tail) > 1 else 0
        ends = head.pop(), tail.pop()
        if asked.unknown or ends == asked.request.ends:
            return False
        asked.request.ends, asked.first = ends, VECTORS.get(answer.why or "", 0)
        return True

    def answer(self, asked: Asked, answer: Reply | None, line: str | None) -> tuple[bytes, str]:
        """The message for a request, and what became of it."""
        front, request = asked.returned + asked.rp(), asked.request
        if line is None:
            self.keep_vain(asked)
            return no_path(front, UNAVAILABLE), "unavailable"
        if answer is None:  # a row that was refused
            raise Refused(*wire.PARAMETER)
        if asked.first and not answer.why and not self.front.network.follows(asked.sent, answer):
            asked.unknown = asked.first  # another server's journal said whose addresses these are
        if asked.unknown or answer.why:
            self.keep_vain(asked)
            vector = asked.unknown or VECTORS[answer.why or "none"]
            return no_path(front, vector), next(word for word, bit in VECTORS.items() if bit == vector)
        broken = request.broken(answer.cost)
        if broken:
            self.keep_vain(asked)
            return no_path(front, 0, b"".join(wire.metric(wire.TE_METRIC, bound, is_bound=True) for bound in broken)), "above the bound"
        ero, why = self.session.ero(answer, request, asked.sent, asked.setup_type)
        if why:
            return self.without(asked, why)
        has_room = len(front) + len(ero) + len(request.ignored) + 16 <= wire.MOST
        return path(front, ero, answer.cost, request.ignored) if has_room else path(asked.rp(), ero, answer.cost, b""), "route"

    def keep_vain(self, asked: Asked) -> None:
        """A request without a path is asked again at each version, where the front may close the session for it. One of a pair isn't."""
        if self.front.options.reopen and not asked.is_of_pair and len(self.vain) < MOST_KEPT:
            self.vain[asked.id] = asked

    def again(self) -> None:
        """A new version: asks again for what had no path."""
        self.ask_again(*self.vain.values())

    def ask_again(self, *those: Asked) -> None:
        """Asks again for these requests, each in its turn."""
        self.waiting.update(dict.fromkeys(those))
        if self.waiting:
            self.front.in_turn(self)

    def whose(self) -> Owner | None:
        return self.session.owner

    def has_more(self) -> bool:
        return bool(self.waiting)

    def following(self) -> Form | None:
        """The row of the request whose turn it is. If an ask is under way its answer comes first. It is asked again a second later if that
        is of an older version."""
        if not self.waiting:
            return None
        asked = next(iter(self.waiting))
        del self.waiting[asked]
        if self.session.state != "up" or self.vain.get(asked.id) is not asked or asked.is_asked:
            return None
        try:
            sent = self.session.question(asked.request, asked.setup_type)
        except (Refused, Unavailable):
            return None
        asked.is_asked = True
        return sent.constraints(), functools.partial(self.vain_answered, asked, sent)

    def vain_answered(self, asked: Asked, sent: Request, line: str | None) -> None:
        asked.is_asked = False
        answer = Reply.parse(line or "")
        is_there = answer and not answer.why and not asked.unknown and not asked.request.broken(answer.cost)
        is_there = is_there and answer and asked.request.exclusions.holds(self.front, sent, answer)
        if self.session.state != "up" or self.vain.get(asked.id) is not asked:
            return
        if is_there:
            self.session.stop(f"request {asked.id}, which had no path, has one now: its PCC asks again in a new session", wire.close(1))
        elif answer and answer.version < self.front.version:
            self.front.later(OLD_AGAIN, lambda: self.ask_again(asked), self.session.owner)

    def cancel(self, objects: list[Object]) -> None:
        """The PCC doesn't want answers to these requests any more."""
        ids = {number_of(given) for given in objects if given.kind == wire.O_RP}
        for asked in [asked for asked in self.pending if asked.id in ids]:
            self.pending.remove(asked)
            self.front.count("requests", "cancelled")
        for number in ids & self.vain.keys():
            del self.vain[number]
