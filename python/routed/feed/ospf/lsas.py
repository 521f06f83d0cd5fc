"""The LSAs that rows are made of: router LSAs (RFC 2328 A.4.2) and traffic engineering LSAs (RFC 3630 2), which have the SRLGs, too
(RFC 4203 1.3). Extended link LSAs (RFC 7684 3) have the adjacency SIDs (RFC 8665 6.1)."""
from __future__ import annotations

import dataclasses
import functools
import socket
import struct
from collections.abc import Callable
from typing import NamedTuple

from ...model.rows import Link
from ...net.tlvs import tlvs
from ..links import MAX_METRIC, OSPF_SID, Network, Tlvs, Told, Transit, label_of, link_of

ROUTER_LSA, AREA_OPAQUE_LSA = 1, 10
TE_OPAQUE, LINK_TLV = 1, 2
EXTENDED_LINK_OPAQUE, EXTENDED_LINK_TLV, ADJACENCY_SID = 8, 1, 2
OPAQUE = {TE_OPAQUE: "TE", EXTENDED_LINK_OPAQUE: "extended link"}
POINT_TO_POINT = 1  # in all these kinds of LSA
STUB_NETWORK = 3  # in a router LSA
MAX_AGE = 3600
SIZES = {kind: range(least, 1 << 16) for kind, least in ((1, 1), (2, 4), (3, 4), (4, 4), (5, 4), (6, 4), (8, 32), (9, 4))}  # of sub-TLVs
SRLGS = 16  # a sub-TLV, which is read where SRLGs are asked for
SIZES_WITH_SRLGS = SIZES | {SRLGS: range(0, 1 << 16, 4)}
PADDED = 4  # values of TLVs are padded to so many bytes (RFC 3630 2.3.2)
UNREAD = "unread"  # in the place of an LSA's content
LSA_HEADER = struct.Struct(">HBB4s4siHH")  # age, options, type, id, router, sequence number, checksum, length
BEFORE_LSA = 12  # bytes of a message's body: address of an interface, area, is it the router's own, padding
# What ospfd announces where nothing is configured for a circuit of so many Gbit/s, since the bits a
# second are counted in 32 bits.
WRAPPED = {(speed * 10**9 % 2**32) / 8: speed for speed in (10, 25, 40, 50, 100, 200, 400, 800)}

Area = tuple[str, str]  # an area and a router
dotted = socket.inet_ntoa  # an address, or the number of an LSA


class RouterLinks(NamedTuple):
    """What a router LSA tells: by the local address of each point-to-point link the neighbor and the cost."""

    adjacent: dict[str, tuple[str, int]]
    transit: Transit


class TeLsa(NamedTuple):
    """What a TE LSA tells of a link."""

    local: str
    link: Link | str  # without its router, and with metric 0 where it has none; else why there is none
    most: float | None  # the maximum bandwidth
    srlgs: frozenset[int] = frozenset()


class LinkSid(NamedTuple):
    """The adjacency SID of a link."""

    local: str
    label: int


Content = RouterLinks | TeLsa | LinkSid | str | None  # of an LSA: UNREAD where it can't be read, None where nothing of it is needed
LsaKey = tuple[str, int, bytes, str]  # area, type, id and router


def first(body: bytes, wanted: int) -> bytes | None:
    """The value of the first TLV of a kind in an LSA."""
    return next((value for kind, value in tlvs(body, align=PADDED) if kind == wanted), None)


def te_link(body: bytes, has_srlgs: bool = False) -> TeLsa | None:
    """The link of a TE LSA, None where it has none."""
    if (value := first(body, LINK_TLV)) is None:
        return None
    of = Tlvs(value, SIZES_WITH_SRLGS if has_srlgs else SIZES, PADDED)
    local, neighbor, remote = map(of.address, (3, 2, 4))
    link = link_of(local, neighbor, remote if neighbor else "", of.number(5), of.number(9), of.first(8, 32))
    is_one_to_one = of.first(1, 1) == bytes([POINT_TO_POINT])
    return TeLsa(local, link if is_one_to_one else "not point-to-point", struct.unpack(">f", of.first(6))[0] if 6 in of else None,
                 of.numbers(SRLGS) if has_srlgs else frozenset())


def link_sid(body: bytes) -> LinkSid | None:
    """The adjacency SID of the point-to-point link of an extended link LSA, None where it has none."""
    if (value := first(body, EXTENDED_LINK_TLV)) is None:
        return None
    kind, local = struct.unpack_from(">B7x4s", value)
    label = label_of(Tlvs(value[12:], {ADJACENCY_SID: range(7, 1 << 16)}, PADDED).get(ADJACENCY_SID, []), OSPF_SID)
    return LinkSid(dotted(local), label) if label and kind == POINT_TO_POINT else None


def router_links(body: bytes) -> RouterLinks:
    """The point-to-point links of a router LSA, and whether it is that of a stub router, whose links to routers and transit networks
    all have the greatest metric."""
    (count,), at = struct.unpack_from(">H", body, 2), 4
    found: dict[str, tuple[str, int]] = {}
    costs: set[int] = set()
    for _ in range(count):
        neighbor, local, kind, metrics, cost = struct.unpack_from(">4s4sBBH", body, at)
        at += 12 + 4 * metrics
        if kind != STUB_NETWORK:
            costs.add(cost)
        if kind == POINT_TO_POINT:
            found[dotted(local)] = (dotted(neighbor), cost)
    return RouterLinks(found, Transit.STUB if costs == {MAX_METRIC} else Transit.FREE)


class Lsdb:
    """The LSAs of a router that are needed, and the rows of the links that they show. With `has_sids` and `has_srlgs` it keeps adjacency
    SIDs and SRLGs, too, and with a group (0 to 31) exactly the links that have a SID are in that administrative group."""

    def __init__(self, has_sids: bool = False, group: int | None = None, has_srlgs: bool = False) -> None:
        self.opaque: dict[int, Callable[[bytes], Content]] = {TE_OPAQUE: functools.partial(te_link, has_srlgs=has_srlgs)}
        if has_sids or group is not None:
            self.opaque[EXTENDED_LINK_OPAQUE] = link_sid
        self.group = group
        self.lsas: dict[LsaKey, tuple[int, Content]] = {}  # with their sequence numbers
        self.looked: Network | None = None  # what the last look found, if nothing has changed since

    def take(self, body: bytes, is_removal: bool) -> bool:
        """One event; whether anything changed."""
        if len(body) < BEFORE_LSA + LSA_HEADER.size:
            return False
        area, lsa = dotted(body[4:8]), body[BEFORE_LSA:]
        age, _, kind, number, router, sequence, _, length = LSA_HEADER.unpack_from(lsa)
        if kind != ROUTER_LSA and (kind != AREA_OPAQUE_LSA or number[0] not in self.opaque):
            return False
        key = (area, kind, number, dotted(router))
        had, content = self.lsas.get(key), None
        if is_removal or age & 0x7fff >= MAX_AGE:
            if had is None or had[0] > sequence:  # the removal of an older instance
                return False
            del self.lsas[key]
        else:
            try:
                content = (router_links if kind == ROUTER_LSA else self.opaque[number[0]])(lsa[LSA_HEADER.size:length])
            except struct.error:
                content = UNREAD
            self.lsas[key] = sequence, content
            if had and had[1] == content:
                return False
        self.looked = None
        return True

    def network(self) -> Network:
        """What the LSAs show now. Those that were only refreshed need no new look."""
        if self.looked:
            return self.looked
        up: dict[Area, dict[str, tuple[str, int]]] = {}
        labels: dict[tuple[str, str, str], dict[bytes, int]] = {}
        links: list[tuple[LsaKey, TeLsa, str]] = []
        network = Network("TE LSAs", self.group)
        for key, (_, content) in self.lsas.items():
            area, kind, number, router = key
            if content == UNREAD:
                which = {ROUTER_LSA: "router LSA"}.get(kind) or f"{OPAQUE[number[0]]} LSA {dotted(number)}"
                network.tell(key, Told((router, which), "an LSA that can't be read"))
            elif isinstance(content, RouterLinks):
                up[area, router] = content.adjacent
                network.tell(key, Told((router,), content.transit))
            elif isinstance(content, LinkSid):
                labels.setdefault((area, router, content.local), {})[number] = content.label
            elif isinstance(content, TeLsa):
                links.append((key, content, content.local or f"TE LSA {dotted(number)}"))
        announced = set()
        for key, told, name in links:
            area, _, _, router = key
            announced.add((area, router, name))
            sids = labels.get((area, router, name), {})
            link = told.link if isinstance(told.link, str) else between(told.link, router, up, area)
            network.tell(key, Told((router, name), link, sids[min(sids)] if sids else 0, told.srlgs))  # the SID by RFC 7684 3
            if told.most in WRAPPED and isinstance(link, Link):
                network.notes[link.key] = (
                    f"{router} {name}: its bandwidth of {told.most:.0f} bytes per second looks like the default of a circuit of "
                    f"{WRAPPED[told.most]} Gbit/s, counted in 32 bits; it is put as announced")
        for area, router, local in {(*of, local) for of, adjacent in up.items() for local in adjacent} - announced:
            network.tell((area, router, local), Told((router, local), "no TE LSA"))
        self.looked = network.settle()
        return self.looked


def between(link: Link, router: str, up: dict[Area, dict[str, tuple[str, int]]], area: str) -> Link | str:
    """The link of a router, if the router LSAs of both ends have it, with its cost there in the place of a metric of 0; else why not."""
    if (area, router) not in up:
        return "no router LSA"
    if link.local not in up[area, router]:
        return "no adjacency"
    neighbor, cost = up[area, router][link.local]
    if neighbor != link.neighbor:
        return "an adjacency with another router"
    if neighbor == router:
        return "a link to itself"
    if up.get((area, neighbor), {}).get(link.remote, ("",))[0] != router:
        return "no adjacency back"
    return dataclasses.replace(link, router=router, metric=link.metric or cost)
