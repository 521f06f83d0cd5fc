"""The bytes of PCEP: messages, their objects and the TLVs of objects (RFC 5440 6 and 7)."""
import itertools
import math
import socket
import struct
from collections.abc import Iterable
from typing import NamedTuple

from ..net.tlvs import messages, tlvs

OPEN, KEEPALIVE, REQUEST, REPLY, NOTIFICATION, ERROR, CLOSE, REPORT, UPDATE, INITIATE = 1, 2, 3, 4, 5, 6, 7, 10, 11, 12
# Classes of objects; the RFC's names of some: O_RRO the reported route, O_BANDWIDTH of type 1 a request's.
(O_OPEN, O_RP, O_NO_PATH, O_ENDS, O_BANDWIDTH, O_METRIC, O_ERO, O_RRO, O_LSPA, O_IRO, O_SVEC, O_NOTIFICATION, O_ERROR, O_CLOSE, O_XRO, O_OF,
 O_LSP, O_SRP) = 1, 2, 3, 4, 5, 6, 7, 8, 9, 10, 11, 12, 13, 15, 17, 21, 32, 33
CLASS, TYPE, PARAMETER = (4, 1), (4, 2), (4, 4)  # what isn't supported
UNKNOWN_CLASS, UNKNOWN_TYPE = (3, 1), (3, 2)
T_NO_PATH_VECTOR, T_STATEFUL, T_NAME, T_LSP_IDS, T_LSP_ERROR, T_SR, T_SETUP_TYPE, T_SETUP_TYPES = 1, 16, 17, 18, 20, 26, 28, 34
T_OVERLOAD = 2  # of a NOTIFICATION: seconds
IGP_METRIC, TE_METRIC, SID_DEPTH = 1, 2, 11
HEADER, MOST = 4, 65535  # bytes of a message
MALFORMED = 3  # the reason of a Close
NAI_ADJACENCY = 3  # an SR-ERO's NAI type: the addresses of both interfaces
IS_MPLS, NO_NAI, NO_SID = 1, 8, 4  # flags of an SR-ERO subobject: M, F, S


class Object(NamedTuple):
    kind: int  # its class
    type: int
    must: bool  # the P flag
    body: bytes  # what follows the header


class Hop(NamedTuple):
    """A hop of an ERO, strict or loose."""

    far: str | None  # its address: of the far interface, if the front has written it
    label: int | None  # the SID
    bits: int = 32  # the length of its prefix
    near: str | None = None  # the address of the near interface


class Malformed(Exception):
    """A message that can't be cut into objects."""


class Refused(Exception):
    """An Error-Type and an Error-value (RFC 5440 7.15)."""


class NeverIgnored(Refused):
    """The reason to refuse an object whether it has the P flag or not."""


class BadObject(Refused):
    """An object that is too short or has a value that it can't have (RFC 8408 8.6)."""

    def __init__(self) -> None:
        super().__init__(10, 11)


def tlv(kind: int, body: bytes) -> bytes:
    return struct.pack("!HH", kind, len(body)) + body + bytes(-len(body) % 4)


def pack(kind: int, body: bytes, type_: int = 1, must: bool = False, ignored: bool = False) -> bytes:
    """The bytes of an object."""
    return struct.pack("!BBH", kind, type_ << 4 | must << 1 | ignored, len(body) + 4) + body


def message(kind: int, *objects: bytes) -> bytes:
    body = b"".join(objects)
    return struct.pack("!BBH", 0x20, kind, len(body) + 4) + body


def front(data: bytes, at: int) -> tuple[int, int]:
    """The kind and the bytes of the message that begins there."""
    first, kind, size = struct.unpack_from("!BBH", data, at)
    if first >> 5 != 1 or size < 4:
        raise Malformed
    return kind, size


def cut(data: bytes, most: int = MOST) -> tuple[list[tuple[int, bytes]], bytes]:
    """The first whole messages of bytes, so many at most, as kinds and bodies, and what remains."""
    found = list(itertools.islice(messages(data, HEADER, front), most))
    return [(kind, body) for kind, body, _ in found], data[found[-1][2] if found else 0:]


def has_message(data: bytes) -> bool:
    """Whether the first message is there whole, or can't be one."""
    try:
        return len(data) >= HEADER and len(data) >= front(data, 0)[1]
    except Malformed:
        return True


def objects_of(body: bytes) -> list[Object]:
    found, at = [], 0
    while at < len(body):
        if len(body) - at < 4:
            raise Malformed
        kind, flags, size = struct.unpack_from("!BBH", body, at)
        if size < 4 or size % 4 or at + size > len(body):
            raise Malformed
        found.append(Object(kind, flags >> 4, bool(flags & 2), body[at + 4:at + size]))
        at += size
    return found


def tlvs_of(data: bytes) -> dict[int, bytes]:
    """The first value of each type."""
    try:
        return dict(reversed(list(tlvs(data, align=4))))
    except struct.error:
        raise BadObject from None


def fields(form: str, data: bytes) -> tuple:
    """The values at the front of an object."""
    if len(data) < struct.calcsize(form):
        raise BadObject
    return struct.unpack_from(form, data)


def number(data: bytes) -> float:
    """A float that is a number of at least 0."""
    value, = fields("!f", data)
    if math.isnan(value) or value < 0:
        raise BadObject
    return value


def address(data: bytes) -> str:
    return socket.inet_ntoa(data)


def error(kind: int, value: int, *front: bytes) -> bytes:
    """A PCErr. The objects that it is about come first."""
    return message(ERROR, *front, pack(O_ERROR, bytes([0, 0, kind, value])))


def close(reason: int) -> bytes:
    return message(CLOSE, pack(O_CLOSE, bytes([0, 0, 0, reason])))


def setup_type_tlv(setup_type: int) -> bytes:
    return tlv(T_SETUP_TYPE, bytes([0, 0, 0, setup_type])) if setup_type else b""


def setup_type_of(tlvs: dict[int, bytes]) -> int:
    """The path setup type; 0 where none is given (RFC 8408 4)."""
    return fields("!3xB", tlvs[T_SETUP_TYPE])[0] if T_SETUP_TYPE in tlvs else 0


def metric(kind: int, value: float, is_bound: bool = False, is_computed: bool = False) -> bytes:
    return pack(O_METRIC, struct.pack("!xxBBf", is_bound | is_computed << 1, kind, value))


def addresses_ero(fars: Iterable[str]) -> bytes:
    """An ERO of strict IPv4 prefixes, one for each link (RFC 3209 4.3.3.2)."""
    return pack(O_ERO, b"".join(bytes([1, 8, *socket.inet_aton(far), 32, 0]) for far in fars))


def segments_ero(links: Iterable[tuple[str, str, int]]) -> bytes:
    """An ERO of adjacency SIDs, of near and far address and label each (RFC 8664 4.3.1)."""
    parts = (struct.pack("!BBHI4s4s", 36, 16, NAI_ADJACENCY << 12 | IS_MPLS, label << 12, socket.inet_aton(near), socket.inet_aton(far))
             for near, far, label in links)
    return pack(O_ERO, b"".join(parts))


def hops_of(ero: bytes) -> list[Hop | None]:
    """The hops of an ERO; None for a hop of another kind."""
    found, at = [], 0
    while at < len(ero):
        kind, size = fields("!BB", ero[at:])
        part = ero[at:at + size]
        if size < 4 or len(part) < size:
            raise BadObject
        found.append(hop_of(kind, part))
        at += size
    return found


def hop_of(kind: int, part: bytes) -> Hop | None:
    kind &= 0x7f  # without the L bit
    if kind == 1:
        far, length = fields("!2x4sB", part)
        if length > 32:
            raise BadObject
        return Hop(address(far), None, length)
    if kind != 36:
        return None
    flags, = fields("!2xH", part)
    sid, nai = (b"", part[4:]) if flags & NO_SID else (part[4:8], part[8:])
    label = fields("!I", sid)[0] >> (12 if flags & IS_MPLS else 0) if sid or not flags & NO_SID else None
    if flags & NO_NAI or flags >> 12 != NAI_ADJACENCY:
        return Hop(None, label)
    near, far = fields("!4s4s", nai)
    return Hop(address(far), label, 32, address(near))
