"""The reports of a PCRpt as values (RFC 8231 6.1)."""
from __future__ import annotations

from collections.abc import Iterator

from . import wire
from .lsp import OPERATIONAL
from .wire import Object, Refused, fields, pack

# What an LSP-ERROR-CODE says (RFC 8231 7.3.3).
LSP_ERRORS = {1: "unknown reason", 2: "limit reached for PCE-controlled LSPs", 3: "too many pending LSP Update requests",
              4: "unacceptable parameters", 5: "internal error", 6: "LSP administratively brought down", 7: "LSP preempted",
              8: "RSVP signaling error"}
ASSOCIATION, VENDOR = 40, 34
POLICIES = (3, 6)  # the association types of policies (RFC 9005) and of SR policies: no constraints of a path
OF_TYPE_2 = 2  # a BANDWIDTH of that type is what an LSP has
MOST_RETURNED = 1024  # bytes of an object that an error has
FIXED = {wire.O_SRP: 8, wire.O_LSP: 4}  # bytes in front of an object's TLVs


def cut(objects: list[Object]) -> Iterator[list[Object]]:
    """The objects of each report: an SRP that may be there, an LSP, and what is behind it."""
    at = 0
    while at < len(objects):
        end = at + 1
        if objects[at].kind == wire.O_SRP and end < len(objects) and objects[end].kind == wire.O_LSP:
            end += 1
        while end < len(objects) and objects[end].kind not in (wire.O_SRP, wire.O_LSP):
            end += 1
        yield objects[at:end]
        at = end


def about(given: list[Object]) -> list[bytes]:
    """The SRP and the LSP of a report, as an error about it has them; without their TLVs if these are long."""
    found = [one for one in given[:2] if one.kind in (wire.O_SRP, wire.O_LSP)]
    return [pack(one.kind, one.body if len(one.body) <= MOST_RETURNED else one.body[:FIXED[one.kind]], one.type) for one in found]


class Report:
    """The report of one LSP. Number 0 is the end of the synchronization."""

    def __init__(self, given: list[Object]) -> None:
        self.srp, self.setup_type, self.size = 0, None, sum(len(one.body) for one in given)
        if given[0].kind == wire.O_SRP:
            self.srp, = fields("!4xI", given[0].body)
            tlvs = wire.tlvs_of(given[0].body[8:])
            self.setup_type = wire.setup_type_of(tlvs) if wire.T_SETUP_TYPE in tlvs else None
            given = given[1:]
        if not given or given[0].kind != wire.O_LSP:
            raise Refused(6, 8)
        word, = fields("!I", given[0].body)
        self.number, self.flags, self.tlvs = word >> 12, word & 0xfff, wire.tlvs_of(given[0].body[4:])
        self.state = self.flags & OPERATIONAL
        self.error: int | None = None
        if wire.T_LSP_ERROR in self.tlvs:
            self.error, = fields("!I", self.tlvs[wire.T_LSP_ERROR])
        self.ero = next((one.body for one in given if one.kind == wire.O_ERO), None)
        self.hops = wire.hops_of(self.ero or b"")
        self.ends: tuple[str, str] | None = None
        found = self.tlvs.get(wire.T_LSP_IDS)
        ends = next((one.body for one in given if one.kind == wire.O_ENDS and one.type == 1), None)
        if found is not None or ends is not None:
            here, there = fields("!4s8x4s", found) if found is not None else fields("!4s4s", ends or b"")
            self.ends = wire.address(here), wire.address(there)
        self.constraints = constraints_of(given[1:])

    def is_by_segments(self) -> bool:
        """Whether its ERO begins with a segment."""
        return bool(self.ero) and (self.ero or b"")[0] & 0x7f == 36


def constraints_of(given: list[Object]) -> list[Object]:
    """The objects that say what an LSP's path has to keep. Of a BANDWIDTH or LSPA that is there twice, the last counts. In front of an
    RRO stand the values of the path as it is (RFC 8231 6.1)."""
    actual = max((at for at, one in enumerate(given) if one.kind == wire.O_RRO), default=-1)
    found = [one for at, one in enumerate(given) if not is_no_constraint(one, at < actual)]
    last = {(one.kind, one.type): at for at, one in enumerate(found) if one.kind in (wire.O_BANDWIDTH, wire.O_LSPA)}
    return [one for at, one in enumerate(found) if last.get((one.kind, one.type), at) == at]


def is_no_constraint(one: Object, is_actual: bool) -> bool:
    """Whether a path may be found without this object."""
    if one.kind == wire.O_METRIC:
        flags, = fields("!2xB", one.body)
        value = wire.number(one.body[4:])
        return not flags & 1 and (is_actual or bool(flags & 2 and value))  # the cost of the path as it is
    if one.kind == ASSOCIATION:
        return fields("!4xH", one.body)[0] in POLICIES
    return one.kind in (wire.O_ERO, wire.O_RRO, wire.O_ENDS, VENDOR) or one.kind == wire.O_BANDWIDTH and one.type == OF_TYPE_2


def error_named(code: int) -> str:
    return f"LSP-ERROR-CODE {code} ({LSP_ERRORS.get(code, 'unknown')})"

