"""One session with a PCC: its state, its timers and its requests (RFC 5440 4.2 and appendix A).

It has no socket and no clock: it is given bytes and times, and gives bytes."""
import collections
import struct
from collections.abc import Callable

from ..model import rows
from ..model.rows import Reply
from ..net.loop import Owner
from . import wire
from .answers import Answers
from .lsps import Lsps
from .protocol import KIND, Fault, SessionFront
from .requests import Request
from .wire import Malformed, Object, Refused, pack, tlv

KEEPALIVE, DEAD = 30, 120  # seconds that this side announces
OPEN_SECONDS, KEEP_SECONDS = 10, 60  # until the Open, and from it until the Keepalive
MOST_UNKNOWN, MINUTE = 5, 60  # unknown messages in a minute
SLICE, BYTES = 8, 1 << 14  # messages, or requests and reports of them, that are taken at once; and bytes of messages
WEIGHT = 1024  # bytes of a message that count as one more message
MOST_OVERLOAD = 600  # seconds for which a PCC is left alone that says that it has too much to do
OPEN_WAIT, KEEP_WAIT, UP, OVER = "open wait", "keep wait", "up", "over"


class Session:
    """`send` takes bytes for the PCC, and `end` closes once they are sent. `wake` is called when more of what has come may be taken. An
    exception in what is called later ends `owner`."""

    def __init__(self, front: SessionFront, peer: str, number: int, send: Callable[[bytes], None], end: Callable[[], None], now: float,
                 owner: Owner | None = None):
        self.front, self.peer, self.number, self.owner = front, peer, number, owner
        self.put, self.end = send, end
        self.wake: Callable[[], object] = lambda: None
        self.state, self.unread, self.began_at, self.sent_at, self.heard_at = OPEN_WAIT, b"", now, now, now
        self.keepalive, self.dead, self.is_negotiated = KEEPALIVE, 0, False
        self.unknown: list[float] = []  # when unknown messages came
        self.capabilities, self.is_stateful, self.setup_types = 0, False, {0}
        self.most_sids: int | None = None
        self.work: collections.deque[Callable[[], object]] = collections.deque()  # what is left to do of a message
        self.second, self.count = 0, 0  # the messages of a second
        self.is_behind = False  # so much waits to be sent that LSPs aren't moved
        self.overloaded_until, self.is_resting = 0.0, False
        self.answers = Answers(self)
        self.lsps = Lsps(self)
        self.send_open(KEEPALIVE, DEAD)

    @property
    def is_full(self) -> bool:
        """Whether LSPs aren't moved now."""
        return self.is_behind or self.is_overloaded()

    def is_overloaded(self) -> bool:
        return self.front.clock() < self.overloaded_until

    def send_open(self, keepalive: int, dead: int) -> None:
        self.send(wire.message(wire.OPEN, pack(wire.O_OPEN, bytes([0x20, keepalive, dead, self.number % 256]) + self.front.capabilities())))

    def send(self, data: bytes) -> None:
        self.sent_at = self.front.clock()
        self.put(data)

    def refuse(self, kind: int, value: int, *about: bytes) -> None:
        self.front.count("errors", f"{kind}/{value}")
        self.front.say("info", f"{self.peer}: PCErr {kind}/{value}")
        self.send(wire.error(kind, value, *about))

    def stop(self, why: str, last: bytes = b"") -> None:
        if self.state != OVER:
            if self.state == UP:
                self.front.tally("sessions_ended")
            self.state = OVER
            if last:
                self.send(last)
            self.front.say("warning" if last else "info",
                           f"{self.peer}: the session ends: {why}; {len(self.lsps.all)} LSPs are its PCC's own now")
            self.end()

    # ---- time

    def tick(self, now: float) -> None:
        """Does what is due by now; called about once a second."""
        if self.has_more():
            self.heard_at = now
        if self.state == OPEN_WAIT and now - self.began_at >= OPEN_SECONDS:
            self.fail(1, 2, "no Open came")
        elif self.state == KEEP_WAIT and now - self.began_at >= KEEP_SECONDS:
            self.fail(1, 7, "no Keepalive came")
        elif self.state == UP and self.dead and now - self.heard_at >= self.dead:
            self.stop("nothing came for the dead timer", wire.close(2))
        elif self.state not in (OVER, OPEN_WAIT) and self.keepalive and now - self.sent_at >= self.keepalive:
            self.send(wire.message(wire.KEEPALIVE))
        if self.state == UP:
            self.lsps.tick(now)

    def fail(self, kind: int, value: int, why: str) -> None:
        """An error that ends the session."""
        self.refuse(kind, value)
        self.stop(why, wire.close(1) if self.state == UP else b"")

    # ---- messages

    def take(self, data: bytes, now: float) -> None:
        """Bytes of the PCC, and all that can be done with them."""
        self.hear(data)
        while self.go_on(now):
            pass

    def hear(self, data: bytes) -> None:
        if self.state != OVER:
            self.unread += data

    def has_more(self) -> bool:
        """Whether there is more to do with what has come."""
        return self.state != OVER and (bool(self.work) or wire.has_message(self.unread))

    def is_held(self, now: float) -> bool:
        """Whether nothing more is taken now: the server or the next second has to come first."""
        most = self.front.options.messages
        return self.answers.is_full() or bool(most) and not self.work and self.second == int(now) and self.count >= most

    def go_on(self, now: float) -> bool:
        """Takes a slice of what has come. Whether more can be taken now."""
        taken = 0
        for _ in range(SLICE):
            if not self.has_more() or self.is_held(now):
                return False
            if self.work:
                self.work.popleft()()
            elif taken < BYTES:
                taken += self.take_message(now)
        return True

    def take_message(self, now: float) -> int:
        """Takes a message. How many bytes it has."""
        if self.second != int(now):
            self.second, self.count = int(now), 0
        self.count += 1
        body = b""
        try:
            ((kind, body),), self.unread = wire.cut(self.unread, 1)
            self.count += len(body) // WEIGHT
            self.heard_at = now
            self.message(kind, wire.objects_of(body), now)
        except Refused as fault:
            self.refuse(*fault.args)
        except Malformed:
            self.front.count("messages", "malformed")
            if self.state == OPEN_WAIT:
                self.fail(1, 1, "no message of PCEP came first")
            else:
                self.stop("a malformed message", wire.close(wire.MALFORMED))
        return len(body)

    def message(self, kind: int, objects: list[Object], now: float) -> None:
        self.front.count("messages", str(kind))
        if self.state == OPEN_WAIT:
            self.open(kind, objects, now)
        elif self.state == KEEP_WAIT:
            self.keep(kind, objects, now)
        elif kind == wire.REQUEST:
            self.answers.take(objects)
        elif kind == wire.REPORT:
            if not self.front.options.stateful or not self.is_stateful:
                self.fail(19, 5, "an LSP was reported in a session without that capability")
            else:
                self.lsps.reports(objects)
        elif kind == wire.ERROR:
            self.errors(objects)
        elif kind == wire.CLOSE:
            self.stop(f"its PCC closed it, reason {objects[0].body[-1] if objects and objects[0].body else 'none'}")
        elif kind == wire.NOTIFICATION:
            self.notified(objects)
        elif kind == wire.OPEN:
            pass  # RFC 5440 names no answer to a second Open
        elif kind != wire.KEEPALIVE:
            self.strange(now)

    def strange(self, now: float) -> None:
        self.unknown = [at for at in self.unknown if now - at < MINUTE] + [now]
        self.refuse(2, 0)
        if len(self.unknown) >= MOST_UNKNOWN:
            self.stop("too many unknown messages", wire.close(5))

    def open(self, kind: int, objects: list[Object], now: float) -> None:
        """The first message."""
        given = objects[0] if kind == wire.OPEN and objects and objects[0].kind == wire.O_OPEN else None
        if given is None or len(given.body) < 4 or given.body[0] >> 5 != 1:
            self.fail(1, 1, "its first message is no Open")
            return
        try:
            said = wire.tlvs_of(given.body[4:])
            self.is_stateful = wire.T_STATEFUL in said
            self.capabilities = wire.fields("!I", said[wire.T_STATEFUL])[0] if self.is_stateful else 0
            self.setup_types = self.setup_types_of(said)
        except Refused as fault:
            kind, value = fault.args
            self.fail(kind, value, "its Open has a TLV that can't be read, or lacks one")
            return
        self.dead = given.body[2] if given.body[1] else 0  # one that sends no Keepalives has no dead timer (RFC 5440 7.3)
        self.state, self.began_at = KEEP_WAIT, now
        self.send(wire.message(wire.KEEPALIVE))

    def setup_types_of(self, said: dict[int, bytes]) -> set[int]:
        """RSVP-TE unless the PCC leaves it out of its list; segment routing where both sides have it, in the form of RFC 8408 or as an
        SR-PCE-CAPABILITY alone. Who lists segment routing has to have that TLV (RFC 8664 5.1)."""
        sub, found = said.get(wire.T_SR), {0}
        if wire.T_SETUP_TYPES in said:
            body = said[wire.T_SETUP_TYPES]
            count, = wire.fields("!3xB", body)
            if len(body) < 4 + count:
                raise wire.BadObject
            found &= {*body[4:4 + count]}
            if 1 in body[4:4 + count]:
                sub = wire.tlvs_of(body[4 + count + -count % 4:]).get(wire.T_SR, sub)
                if sub is None and self.front.sids:
                    raise Refused(10, 12)
        if sub is None or not self.front.sids:
            return found
        flags, most = wire.fields("!2xBB", sub)
        self.most_sids = None if flags & 1 or not most else most  # the X flag: no limit
        return found | {1}

    def keep(self, kind: int, objects: list[Object], now: float) -> None:
        """The second message."""
        if kind == wire.KEEPALIVE:
            self.state = UP
            self.front.say("info", f"{self.peer}: the session is up")
        elif kind == wire.ERROR:
            self.errors(objects)
            if any(given.kind == wire.O_ERROR and given.body[2:4] == b"\1\4" for given in objects):
                self.negotiate(objects, now)
            else:
                self.stop("its PCC refused the Open")
        elif kind != wire.CLOSE:
            self.fail(1, 1, "no Keepalive came behind its Open")
        else:
            self.stop("its PCC closed it")

    def negotiate(self, objects: list[Object], now: float) -> None:
        """Takes the timers that the PCC proposes for this side, once (RFC 5440 appendix A)."""
        offer = next((given.body for given in objects if given.kind == wire.O_OPEN and len(given.body) >= 4), None)
        if offer is None or self.is_negotiated or 0 < offer[2] < offer[1]:
            self.fail(1, 6, "its PCC proposes timers that can't be taken, or others for the second time")
            return
        self.is_negotiated, self.began_at, self.keepalive = True, now, offer[1]
        self.send_open(offer[1], offer[2] if offer[1] else 0)

    def errors(self, objects: list[Object]) -> None:
        srps = [struct.unpack_from("!I", given.body, 4)[0] for given in objects if given.kind == wire.O_SRP and len(given.body) >= 8]
        for given in objects:
            if given.kind == wire.O_ERROR and len(given.body) >= 4:
                what = f"{given.body[2]}/{given.body[3]}"
                self.front.count("refused_by_pccs", what)
                self.front.say("warning", f"{self.peer}: its PCC refused by PCErr {what}")
        self.lsps.refused(srps)

    def notified(self, objects: list[Object]) -> None:
        """Requests that are cancelled have no answer, and a PCC that has too much to do is told nothing of LSPs (RFC 5440 7.14)."""
        said = [given for given in objects if given.kind == wire.O_NOTIFICATION and len(given.body) >= 4]
        if any(given.body[2] == 1 for given in said):
            self.answers.cancel(objects)
        for given in [given for given in said if given.body[2] == 2][-1:]:
            self.rest(given)

    def rest(self, given: Object) -> None:
        """The PCC has too much to do, for as long as it says, or no longer."""
        if given.body[3] != 1:
            self.rested()
            return
        said = wire.tlvs_of(given.body[4:]).get(wire.T_OVERLOAD)
        seconds = min(wire.fields("!I", said)[0], MOST_OVERLOAD) if said else MOST_OVERLOAD
        self.overloaded_until = self.front.clock() + seconds
        self.front.say("info", f"{self.peer}: its PCC has too much to do: no LSP is moved for {seconds} s, unless it says so earlier")
        if not self.is_resting:
            self.is_resting = True
            self.front.later(seconds, self.look_up, self.owner)

    def look_up(self) -> None:
        """Looks whether the PCC has had its time. It may have asked for more."""
        self.is_resting = False
        if self.is_overloaded() and self.state == UP:
            self.is_resting = True
            self.front.later(self.overloaded_until - self.front.clock(), self.look_up, self.owner)
        else:
            self.rested()

    def rested(self) -> None:
        if self.overloaded_until:
            self.overloaded_until = 0.0
            if self.state == UP:
                self.again()

    # ---- paths

    def group(self, setup_type: int) -> int:
        """The group that links of a segment routing path have to be in."""
        return self.front.options.group if setup_type == 1 else 0

    def question(self, request: Request, setup_type: int) -> rows.Request:
        """What is asked now for a request. Refused says that more is to be excluded than a row can say."""
        return request.asked(self.group(setup_type), request.exclusions.text(self.front))

    def is_asked_again(self, request: Request, asked: rows.Request, setup_type: int, answer: Reply | None, line: str | None) -> bool:
        """Whether the line for what was asked isn't the answer to a request, so that it is asked once more. Refused and Unavailable say
        that it can't be answered."""
        exclusions = request.exclusions
        if answer is None:
            if line is None or not asked.excluded or not KIND.fullmatch(line):
                return False
            request.ignore_exclusions()
            return True
        if not exclusions.holds(self.front, asked, answer):
            exclusions.fail()
            return True
        exclusions.tries = 0
        if exclusions.is_old(answer):
            return True
        is_usable = not answer.why and not request.broken(answer.cost) and not self.too_deep(answer, request, setup_type)
        return not is_usable and exclusions.relax(answer)

    def too_deep(self, answer: Reply, request: Request, setup_type: int) -> str:
        """Why a route has too many SIDs, in words; empty if it hasn't."""
        for most, who in ((self.most_sids, "the PCC"), (request.most_sids, "its METRIC of SID depth")) if setup_type == 1 else ():
            if most is not None and len(answer.fars) > most:
                return f"its path has {len(answer.fars)} SIDs, and {who} takes {most}"
        return ""

    def ero(self, answer: Reply, request: Request, asked: rows.Request, setup_type: int) -> tuple[bytes, Fault | None]:
        """The ERO of a route, or why there is none."""
        if setup_type == 0:
            return pack(wire.O_ERO, answer.subobjects), None
        if why := self.too_deep(answer, request, setup_type):
            return b"", ((10, 3), why)
        if not self.front.network.follows(asked, answer):
            return b"", (None, "the network isn't known at its version")
        links = self.front.segments(asked.head, answer.fars, answer.version)
        if links is None:
            return b"", (None, "a link of its path has no SID")
        if 20 * len(links) > wire.MOST - 1000:
            return b"", ((10, 3), f"its path has {len(links)} SIDs, more than a message has room for")
        return wire.segments_ero(links), None

    def again(self) -> None:
        """A new version, or more than that: asks again for what had no path, and for the LSPs."""
        self.again_beside()
        if self.front.placements:
            self.lsps.counting.again()
            self.lsps.making.initiate()

    def again_beside(self) -> None:
        """A new version, which the base of a book need not have changed at: asks for what isn't counted."""
        self.answers.again()
        self.lsps.moves.again()
        if not self.front.placements:
            self.lsps.making.initiate()


def stateful(flags: int) -> bytes:
    return tlv(wire.T_STATEFUL, struct.pack("!I", flags))


def setup_types() -> bytes:
    """Both setup types; an MSD of 0 and the flags of a PCE (RFC 8664 4.1.2)."""
    return tlv(wire.T_SETUP_TYPES, bytes([0, 0, 0, 2, 0, 1, 0, 0]) + tlv(wire.T_SR, bytes(4)))
