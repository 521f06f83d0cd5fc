"""Messages of BGP-4 (RFC 4271): Opens, and Updates of link state, whose attributes are judged by RFC 7606 and RFC 9552 8.2."""
from __future__ import annotations

import struct
from collections.abc import Container
from typing import NamedTuple

from ...net.tlvs import tlvs
from ..feed import AGAIN, Lost

MARKER = b"\xff" * 16
HEADER, LONGEST = 19, 4096  # bytes; extended messages (RFC 8654) aren't announced
OPEN, UPDATE, NOTIFICATION, KEEPALIVE = 1, 2, 3, 4
LEAST = {OPEN: 29, UPDATE: 23, NOTIFICATION: 21, KEEPALIVE: HEADER}
LINK_STATE = struct.pack(">HB", 16388, 71)  # the address family (RFC 9552)
CAPABILITY = bytes([1, 4]) + struct.pack(">HBB", 16388, 0, 71)
AS_TRANS = 23456
HOLD = 90  # seconds
ORIGIN, AS_PATH, MP_REACH, MP_UNREACH, ATTRIBUTE = 1, 2, 14, 15, 29
OPTIONAL, TRANSITIVE, EXTENDED = 0x80, 0x40, 0x10
FRONTS = {MP_REACH: (9, 21, 37), MP_UNREACH: (3,)}  # bytes before the NLRIs: those of the next hop are 4, 16 or 32
# Attributes by which a route is judged: their flags, and the bytes that they may have.
JUDGED: dict[int, tuple[int, Container[int]]] = {
    ORIGIN: (TRANSITIVE, [1]), AS_PATH: (TRANSITIVE, range(LONGEST)), 3: (TRANSITIVE, [4]), 4: (OPTIONAL, [4]), 5: (TRANSITIVE, [4]),
    8: (OPTIONAL | TRANSITIVE, range(4, LONGEST, 4)), 9: (OPTIONAL, [4]), 10: (OPTIONAL, range(4, LONGEST, 4)),
    16: (OPTIONAL | TRANSITIVE, range(8, LONGEST, 8)), 32: (OPTIONAL | TRANSITIVE, range(12, LONGEST, 12))}
INTERNAL = (5, 9, 10)  # those that mean nothing from another AS
RECOGNIZED = {*JUDGED, 6, 7, MP_REACH, MP_UNREACH, ATTRIBUTE}
CUT = b"\0"  # in the place of an attribute 29 that isn't one: TLVs that can't be read
Route = tuple[int, bytes]  # the type and the bytes of an NLRI


class Fault(Lost):
    """What ends the session: the code, subcode and data of its Notification, and why."""

    def __init__(self, code: int, subcode: int, why: str, data: bytes = b"", again: float = AGAIN) -> None:
        super().__init__(why, message(NOTIFICATION, bytes([code, subcode]) + data[:LONGEST - LEAST[NOTIFICATION]]), again)


class Update(NamedTuple):
    """What an Update says of link state."""

    announced: list[Route]
    withdrawn: list[Route]
    attribute: bytes  # of those that are announced
    is_end: bool  # the End-of-RIB (RFC 4724)


def message(kind: int, body: bytes = b"") -> bytes:
    return MARKER + struct.pack(">HB", HEADER + len(body), kind) + body


def front(data: bytes, at: int) -> tuple[int, int]:
    """The kind and the bytes of the message that begins there."""
    if not data.startswith(MARKER, at):
        raise Fault(1, 1, "a message without its marker")
    size, kind = struct.unpack_from(">HB", data, at + len(MARKER))
    if not LEAST.get(kind, HEADER) <= size <= LONGEST or kind == KEEPALIVE and size != HEADER:
        raise Fault(1, 2, f"a message of kind {kind} with {size} bytes", struct.pack(">H", size))
    if kind not in LEAST:
        raise Fault(1, 3, f"a message of kind {kind}", bytes([kind]))
    return kind, size


def opening(number: int, identifier: bytes) -> bytes:
    """The Open of a speaker of this AS."""
    capabilities = CAPABILITY + bytes([65, 4]) + struct.pack(">I", number)
    short = number if number < 1 << 16 else AS_TRANS
    return message(OPEN, struct.pack(">BHH4sBBB", 4, short, HOLD, identifier, 2 + len(capabilities), 2, len(capabilities)) + capabilities)


def accepted(body: bytes, number: int, own: int, identifier: bytes) -> tuple[int, int]:
    """The hold time that goes by the Open of a peer, which has to be in the AS of this number, and the bytes of a number in its paths."""
    version, short, hold, other, size = struct.unpack_from(">BHH4sB", body)
    data, form, kinds, capabilities = body[10:], ">BB", {2}, list[tuple[int, bytes]]()
    if size and data[:1] == b"\xff" and len(data) >= 3:  # RFC 9072
        size, data, form = int.from_bytes(data[1:3], "big"), data[3:], ">BH"
    try:
        for kind, value in tlvs(data, form):
            kinds.add(kind)
            capabilities += tlvs(value, ">BB") if kind == 2 else ()
    except struct.error:
        size = -1
    long = next((value for kind, value in capabilities if kind == 65 and len(value) == 4), b"")
    found = int.from_bytes(long, "big") if long else short
    has_link_state = any(kind == 1 and value[:2] + value[3:] == LINK_STATE for kind, value in capabilities)
    for is_wrong, subcode, why, more in (
            (version != 4, 1, f"an Open of version {version}", struct.pack(">H", 4)),
            (kinds != {2}, 4, f"a parameter of kind {min(kinds - {2}, default=2)} in the Open", b""),
            (size != len(data), 0, "an Open whose lengths don't agree", b""),
            (found != number, 2, f"the peer is in AS {found}, not {number}", b""),
            (other == bytes(4) or number == own and other == identifier, 3, "the peer has the BGP identifier 0.0.0.0 or the feed's", b""),
            (hold < 3, 6, f"the peer wants a hold time of {hold} s", b""),  # without a hold timer nobody would notice that the peer is gone
            (not has_link_state, 7, "the peer doesn't announce link state, AFI 16388 and SAFI 71", CAPABILITY)):
        if is_wrong:
            raise Fault(2, subcode, why, more)
    return min(hold, HOLD), 4 if long else 2


def attributes(data: bytes) -> tuple[dict[int, tuple[int, bytes, bytes]], bool]:
    """The flags, value and all bytes of path attributes by their kinds, and whether the list is whole. The first of a kind counts."""
    found: dict[int, tuple[int, bytes, bytes]] = {}
    at = 0
    while at < len(data):
        front = 4 if data[at] & EXTENDED else 3
        end = at + front + int.from_bytes(data[at + 2:at + front], "big")
        if len(data) < max(end, at + front):
            return found, False
        kind = data[at + 1]
        if kind in found and kind in (MP_REACH, MP_UNREACH):
            raise Fault(3, 1, f"attribute {kind} twice")
        found.setdefault(kind, (data[at], data[at + front:end], data[at:end]))
        at = end
    return found, True


def is_path(data: bytes, width: int) -> bool:
    """Whether this is an AS_PATH (RFC 4271 4.3, RFC 5065), whose numbers have so many bytes."""
    at = 0
    while at + 2 <= len(data) and 1 <= data[at] <= 4 and data[at + 1]:
        at += 2 + data[at + 1] * width
    return at == len(data)


def routes(kind: int, value: bytes, raw: bytes) -> list[Route]:
    """The NLRIs of link state in attribute 14, which has a next hop before them, or in attribute 15."""
    front = 3 if kind == MP_UNREACH else 5 + int.from_bytes(value[3:4], "big")
    is_ours = value[:3] == LINK_STATE
    try:
        if len(value) < front or is_ours and front not in FRONTS[kind]:
            raise struct.error
        return list(tlvs(value[front:])) if is_ours else []
    except struct.error:
        raise Fault(3, 9, f"attribute {kind} that can't be read", raw) from None


def update_of(body: bytes, width: int, is_internal: bool) -> Update:
    """Reads an Update; numbers in its path have so many bytes."""
    before = 2 + int.from_bytes(body[:2], "big")
    end = before + 2 + int.from_bytes(body[before:before + 2], "big")
    if len(body) < max(end, before + 2):
        raise Fault(3, 1, "an Update whose lengths don't agree")
    of, is_good = attributes(body[before + 2:end])
    announced, withdrawn = (routes(kind, *of[kind][1:]) if kind in of else [] for kind in (MP_REACH, MP_UNREACH))
    for kind, (flags, value, raw) in of.items():
        if kind not in RECOGNIZED and not flags & OPTIONAL:
            raise Fault(3, 2, f"the well-known attribute {kind}, which isn't known", raw)
        if kind in JUDGED and (is_internal or kind not in INTERNAL):
            wanted, sizes = JUDGED[kind]
            is_good &= flags & (OPTIONAL | TRANSITIVE) == wanted and len(value) in sizes
            is_good &= kind != ORIGIN or value < b"\3"
            is_good &= kind != AS_PATH or is_path(value, width)
    if not is_good and MP_REACH not in of and end == len(body):  # RFC 7606 5.2
        raise Fault(3, 1, "an Update of no route with an attribute that can't be read")
    if not is_good or not {ORIGIN, AS_PATH} <= of.keys():  # its routes are treated as withdrawn
        announced, withdrawn = [], withdrawn + announced
    flags, attribute, _ = of.get(ATTRIBUTE, (OPTIONAL, b"", b""))
    is_end = of.keys() == {MP_UNREACH} and of[MP_UNREACH][1] == LINK_STATE and end == len(body)
    return Update(announced, withdrawn, attribute if flags & (OPTIONAL | TRANSITIVE) == OPTIONAL else CUT, is_end)
