"""What a PCC asks for as one `ask` row, and the reply line as what a PCC is told.

What a row can't say is refused by its own error where the object must be processed (the P flag), and is ignored and
returned with the I flag where it needn't be. It is never answered as if there were no path."""
from __future__ import annotations

import math
import struct

from ..model import rows
from . import wire
from .exclusions import Exclusions
from .wire import CLASS, PARAMETER, TYPE, UNKNOWN_CLASS, UNKNOWN_TYPE
from .wire import BadObject, NeverIgnored, Object, Refused, SID_DEPTH, TE_METRIC, fields, pack

MOST_HOPS = 7  # of a row
MOST_SIDS = 255  # that a limit can say (RFC 8664 4.5)
MOST_OBJECTS = 256  # of one request, or of one report
MOST_RETURNED = 1024  # bytes of ignored objects that an answer returns, and as many of SVECs
MINIMUM_COST = 1  # the objective function that a row has (RFC 5541 3.1)
UNAVAILABLE, UNKNOWN_TO, UNKNOWN_FROM = 1, 2, 4  # bits of the NO-PATH-VECTOR
REVERSE = 1 << 4  # RP: both directions
REOPTIMIZE = 1 << 3  # RP
BANDWIDTH_HELD = wire.O_BANDWIDTH, 2  # class and type of the bandwidth that an LSP has
NOWHERE = "", ""  # the ends of a request that has none yet
BEHIND_SVEC = wire.O_OF, wire.O_METRIC, wire.O_XRO  # classes of objects that are about the requests of an SVEC (RFC 5541 3.2, 5557)
VECTORS = {"none": 0, "unknown-to": UNKNOWN_TO, "unknown-from": UNKNOWN_FROM}


class Request:
    """One request: the fields of a row, bounds of the cost, and what is returned of its objects."""

    def __init__(self, has_srlgs: bool = False) -> None:
        self.ends: tuple[str, str] = NOWHERE
        self.bandwidth, self.setup, self.hops = 0, 7, ""
        self.hold = 7  # the holding priority, which a book counts by
        self.exclusions, self.has_srlgs = Exclusions(), has_srlgs  # whether it may name SRLGs
        self.masks = 0, 0, 0
        self.bounds: list[float] = []
        self.most_sids: int | None = None
        # Objects as a PCUpd returns them in front of the METRIC of its path and behind that, and with the I flag.
        self.attributes, self.behind, self.ignored = b"", b"", b""

    def take(self, given: Object) -> None:
        """Reads an object."""
        try:
            read = READERS.get(given.kind)
            if read is None:
                raise Refused(*UNKNOWN_CLASS)
            if given.type != 1:
                raise Refused(*(TYPE if (given.kind, given.type) in KNOWN else UNKNOWN_TYPE))
            read(self, given.body)
            if given.kind == wire.O_XRO:
                self.exclusions.objects.append(given)
            if given.kind in (wire.O_IRO, wire.O_XRO):
                self.behind += pack(given.kind, given.body)
            elif given.kind != wire.O_ENDS and (given.kind != wire.O_METRIC or given.body[2] & 1):  # no bound: another route's
                self.attributes += pack(given.kind, given.body, given.type)
        except (BadObject, NeverIgnored):
            raise
        except Refused:
            if given.must:
                raise
            self.ignore(given)

    def ignore(self, given: Object) -> None:
        """An object is returned with the I flag."""
        if len(self.ignored) + 4 + len(given.body) <= MOST_RETURNED:
            self.ignored += pack(given.kind, given.body, given.type, ignored=True)

    def ignore_exclusions(self) -> None:
        """Ignores the XROs, which the server's rows can't say, if none of them has the P flag."""
        for given in self.exclusions.drop():
            self.ignore(given)

    def take_ends(self, body: bytes) -> None:
        here, there = fields("!4s4s", body)
        self.ends = wire.address(here), wire.address(there)

    def take_bandwidth(self, body: bytes) -> None:
        value = wire.number(body)
        if value >= 2.0 ** 64:  # infinity, too: a path without that bandwidth would be another one
            raise NeverIgnored(*PARAMETER)
        self.bandwidth = math.ceil(value)

    def take_lspa(self, body: bytes) -> None:
        exclude, any_, all_, setup, holding, _ = fields("!IIIBBBx", body)
        if setup > 7 or holding > 7:
            raise BadObject
        self.masks, self.setup, self.hold = (exclude, any_, all_), setup, holding

    def take_metric(self, body: bytes) -> None:
        flags, kind = fields("!2xBB", body)
        value = wire.number(body[4:])
        if kind == SID_DEPTH and flags & 1:
            self.most_sids = int(min(value, MOST_SIDS if self.most_sids is None else self.most_sids))
            return
        if kind == wire.IGP_METRIC and not flags & 1:  # the path of least TE metric would be another one
            raise NeverIgnored(*PARAMETER)
        if kind != TE_METRIC:
            raise Refused(*PARAMETER)
        if flags & 1:
            self.bounds.append(value)

    def take_iro(self, body: bytes) -> None:
        hops, at = [], 0
        while at < len(body):
            kind, size = fields("!BB", body[at:])
            if size < 4 or at + size > len(body):
                raise BadObject
            if kind & 0x7f != 1:
                raise Refused(*PARAMETER)
            raw, length = fields("!2x4sB", body[at:])
            if size != 8 or length > 32:
                raise BadObject
            hops.append(f"{wire.address(raw)}/{length}l")
            at += size
        if len(hops) > MOST_HOPS:
            raise Refused(*PARAMETER)
        self.hops = " ".join(hops)

    def take_xro(self, body: bytes) -> None:
        self.exclusions.take(body, self.has_srlgs)

    def take_objective(self, body: bytes) -> None:
        if fields("!H", body)[0] != MINIMUM_COST:
            raise Refused(*PARAMETER)

    def take_unsupported(self, body: bytes) -> None:
        raise Refused(*CLASS)

    def asked(self, group: int = 0, excluded: str = "") -> rows.Request:
        """What is asked. The links that it may use are in the group, too."""
        found = rows.Request(0, *self.ends, self.setup, self.bandwidth, *self.masks, self.hops, excluded)
        return found.within(group) if group else found

    def row(self, group: int = 0) -> str:
        """An `ask` row without its word and id, by which nothing is excluded."""
        return self.asked(group).constraints()

    def broken(self, cost: int) -> list[float]:
        """The bounds that the least cost exceeds."""
        return [bound for bound in self.bounds if cost > bound]


READERS = {wire.O_ENDS: Request.take_ends, wire.O_BANDWIDTH: Request.take_bandwidth, wire.O_LSPA: Request.take_lspa,
           wire.O_METRIC: Request.take_metric, wire.O_IRO: Request.take_iro, wire.O_OF: Request.take_objective,
           wire.O_RRO: Request.take_unsupported, wire.O_XRO: Request.take_xro}
KNOWN = {(wire.O_ENDS, kind) for kind in (2, 3, 4)} | {BANDWIDTH_HELD}  # IPv6 and P2MP ends


class Asked:
    """A request of a PCReq: its RP, and what its objects ask for."""

    def __init__(self, rp: Object, has_srlgs: bool = False) -> None:
        self.flags, self.id = fields("!II", rp.body)
        if not self.id:  # it is reserved
            raise Refused(10, 1)
        self.must, self.setup_type, self.request = rp.must, 0, Request(has_srlgs)
        self.sent = self.request.asked()  # what was asked last
        self.tlvs, self.returned = rp.body[8:], b""  # the latter: what an answer returns in front of the RP
        self.is_of_pair = False  # whether one row asks for it and for another request
        self.is_resolved, self.unknown = False, 0  # whether its ends were looked up; a bit of the NO-PATH-VECTOR
        self.first = 0  # the bit of the answer before they were looked up
        self.is_asked = False  # again, after it had no path

    def rp(self) -> bytes:
        """The RP of an answer, with the flags that PCEP has from the beginning."""
        return pack(wire.O_RP, struct.pack("!II", self.flags & 0x3f, self.id) + wire.setup_type_tlv(self.setup_type), must=True)

    def read(self, objects: list[Object], setup_types: set[int], is_stateful: bool) -> None:
        """Reads the objects behind the RP. The LSP that it is about changes nothing in a session for LSPs, and is refused in another."""
        if not self.must:
            raise Refused(10, 1)
        self.setup_type = wire.setup_type_of(wire.tlvs_of(self.tlvs))
        if self.setup_type not in setup_types:
            raise Refused(21, 1)
        if self.flags & REVERSE:
            raise Refused(*PARAMETER)
        ends = next((given for given in objects if given.kind == wire.O_ENDS), None)
        if ends is None:
            raise Refused(6, 3)
        if not ends.must:
            raise Refused(10, 1)
        own: list[Object] = []
        for given in objects:
            if given.kind == wire.O_ENDS and given is not ends:  # the first counts
                continue
            if self.flags & REOPTIMIZE and is_of_own_lsp(given):
                own.append(given)
            elif given.kind == wire.O_LSP and is_stateful:
                fields("!I", given.body)
                wire.tlvs_of(given.body[4:])
            else:
                self.request.take(given)
        self.read_own(own)
        if self.request.ends[0] == self.request.ends[1]:
            raise Refused(*PARAMETER)

    def read_own(self, own: list[Object]) -> None:
        """A reoptimization is a new request if its LSP holds no bandwidth. Else the bandwidth of its own circuits would be missing."""
        if any(wire.number(given.body) > 0 for given in own if given.kind == wire.O_BANDWIDTH):
            raise Refused(*(PARAMETER if any(given.kind == wire.O_RRO for given in own) else (6, 2)))


def is_of_own_lsp(given: Object) -> bool:
    """Whether an object says what the LSP of a reoptimization has: its route, or its bandwidth."""
    return (given.kind, given.type) in ((wire.O_RRO, 1), BANDWIDTH_HELD)


def number_of(rp: Object) -> int:
    """The id of a request; 0 where its RP is too short."""
    return struct.unpack_from("!I", rp.body, 4)[0] if len(rp.body) >= 8 else 0


def requests_of(objects: list[Object]) -> tuple[list[Object], list[tuple[Object, list[Object]]]]:
    """What stands before the requests of a PCReq, and the requests, each its RP and the objects behind it."""
    starts = [at for at, given in enumerate(objects) if given.kind == wire.O_RP]
    if not starts:
        raise Refused(6, 1)
    before, has_svec = objects[:starts[0]], False
    for given in before:
        has_svec |= given.kind == wire.O_SVEC
        if given.must and given.kind != wire.O_SVEC and not (has_svec and given.kind in BEHIND_SVEC):
            raise Refused(*(UNKNOWN_CLASS if given.kind not in READERS else (6, 1)))
    return before, [(objects[at], objects[at + 1:end]) for at, end in zip(starts, [*starts[1:], len(objects)])]


def no_path(front: bytes, vector: int = 0, unmet: bytes = b"") -> bytes:
    """A PCRep of a request that has no path: the reason's bits, and the constraints that aren't met."""
    more = wire.tlv(wire.T_NO_PATH_VECTOR, struct.pack("!I", vector)) if vector else b""
    return wire.message(wire.REPLY, front, pack(wire.O_NO_PATH, bytes([0, 0x80 if unmet else 0, 0, 0]) + more), unmet)


def path(front: bytes, ero: bytes, cost: int, ignored: bytes) -> bytes:
    """A PCRep with a path and its cost."""
    return wire.message(wire.REPLY, front, ero, wire.metric(TE_METRIC, cost, is_computed=True), ignored)
