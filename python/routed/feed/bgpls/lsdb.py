"""The NLRIs that a peer announced (RFC 9552 5.2) with their attributes (5.3, RFC 8571, RFC 9085), and the rows that come of them."""
from __future__ import annotations

import argparse
import dataclasses
import functools
import socket
import struct
from collections import defaultdict
from collections.abc import Collection, Container, Sequence
from typing import NamedTuple

from ...model.rows import Link
from ..links import ISIS_SID, MAX_METRIC, OSPF_SID, Network, Tlvs, Told, Transit, label_of, link_of
from .messages import LINK_STATE, Fault, Route, Update

LOCAL, REMOTE, AS, DOMAIN, IGP_ROUTER, INTERFACE, NEIGHBOR, INTERFACE_6, TOPOLOGY = 256, 257, 512, 513, 515, 259, 260, 261, 263
FLAGS, OWN, OTHER, GROUP, MAXIMUM, UNRESERVED, TE_METRIC, IGP_METRIC = 1024, 1028, 1030, 1088, 1089, 1091, 1092, 1095
SRLGS, SID, APPLICATION = 1096, 1099, 1122
# How many bytes a TLV may have. An IGP Router-ID has 4 of OSPF and 6 of IS-IS, and that of a pseudonode has 8 and 7.
SIZES: dict[int, Container[int]] = {
    AS: [4], DOMAIN: [4], IGP_ROUTER: [4, 6, 7, 8], INTERFACE: [4], NEIGHBOR: [4], TOPOLOGY: [2], FLAGS: [1], OWN: [4],
    OTHER: [4], GROUP: [4], MAXIMUM: [4], UNRESERVED: [32], TE_METRIC: [4], IGP_METRIC: [1, 2, 3], SRLGS: range(0, 1 << 16, 4), SID: [7, 8]}
ENGINEERED = {GROUP, MAXIMUM, 1090, UNRESERVED, TE_METRIC}  # attributes of a link that an application needn't have as its own
NODE, LINK = 1, 2  # the types of NLRI that are read
ENDS = {NODE: (LOCAL,), LINK: (LOCAL, REMOTE)}  # their descriptors of nodes
FAMILIES = {1: "isis", 2: "isis", 3: "ospf", 6: "ospf"}  # protocols whose descriptors name the same routers
OVERLOAD = 0x80
PROTOCOLS = {"isis": (1, 2), "isis-1": (1,), "isis-2": (2,), "ospf": (3, 6), "direct": (4,), "static": (5,)}
FULL = 6, 1  # Cease: more routes than are taken (RFC 4486)
FULL_AGAIN = 60.0  # seconds until the peer is tried again that announced them


class Node(NamedTuple):
    """A router, or a pseudonode, as descriptors name it: it is the same one in all areas and levels."""

    family: object
    instance: bytes
    domain: bytes  # AS and BGP-LS identifier
    igp: bytes  # IGP Router-ID


@functools.lru_cache(4096)
def node_of(family: object, instance: bytes, data: bytes) -> Node:
    of = Tlvs(data, SIZES)
    return Node(family, instance, of.first(AS) + of.first(DOMAIN), of.first(IGP_ROUTER, 8))


class Announced(NamedTuple):
    """What an NLRI and its attribute say of a node or of a link."""

    raw: bytes  # the attribute
    link: Link | str  # without its routers; else why there is none, which is empty for a node
    ends: Sequence[Node] = ()  # none of an NLRI that can't be read
    said: tuple[str, str] = "", ""  # their addresses, where these are said
    local: str = ""
    transit: Transit | None = None
    label: int = 0
    srlgs: frozenset[int] = frozenset()


def announced(route: Route, raw: bytes, is_maximum: bool) -> Announced:
    """Reads an NLRI and its attribute."""
    (kind, nlri), attribute, why, transit = route, Tlvs(b"", SIZES), "", None
    family = FAMILIES.get(nlri[0], nlri[0])
    try:
        of = Tlvs(nlri[9:], SIZES)
        ends = [node_of(family, nlri[1:9], of[each][0]) for each in ENDS[kind]]
    except (KeyError, struct.error):
        return Announced(raw, "an NLRI that can't be read")
    try:
        attribute = Tlvs(raw, SIZES)
    except struct.error:
        why = "an attribute that can't be read"
    is_pseudonode = any(len(end.igp) > 6 for end in ends)
    link = why if kind == NODE else "a pseudonode" if is_pseudonode else link_in(of, attribute, why, is_maximum)
    if attribute.number(FLAGS) & OVERLOAD:
        transit = Transit.OVERLOADED
    elif kind == LINK and family == "ospf" and IGP_METRIC in attribute and len(ends[0].igp) == 4:  # those that count for RFC 6987
        transit = Transit.STUB if attribute.number(IGP_METRIC) == MAX_METRIC else Transit.FREE
    label = label_of(attribute.get(SID, []), OSPF_SID if family == "ospf" else ISIS_SID)
    return Announced(raw, link, ends, (attribute.address(OWN), attribute.address(OTHER)), of.address(INTERFACE), transit, label,
                     attribute.numbers(SRLGS))


def link_in(of: Tlvs, attribute: Tlvs, why: str, is_maximum: bool) -> Link | str:
    """The link that descriptors and TLVs of attribute 29 tell of, without its routers; else why there is none."""
    cost = attribute.number(IGP_METRIC) & (0x3f if len(attribute.first(IGP_METRIC)) == 1 else 0xffffff)  # RFC 9552 5.3.2.4
    free = attribute.first(MAXIMUM) * 8 if is_maximum else attribute.first(UNRESERVED, 32)
    metric = attribute.number(TE_METRIC) or cost
    link = link_of(of.address(INTERFACE), "", of.address(NEIGHBOR), metric, attribute.number(GROUP), free)
    if of.number(TOPOLOGY) & 0xfff:
        return "another topology"
    if link == "no addresses":
        return "IPv6 alone" if INTERFACE_6 in of else link
    if not why and APPLICATION in attribute and not ENGINEERED & attribute.keys():
        return "attributes of an application alone"
    if isinstance(link, Link) and IGP_METRIC not in attribute and not metric:
        return "no metric"
    return why or link


def between(link: Link | str, near: Collection[str], far: Collection[str]) -> Link | str:
    """The link between routers of these addresses; else why there is none."""
    if isinstance(link, str):
        return link
    if len(near) != 1 or len(far) != 1:
        return "two addresses of a router" if max(len(near), len(far)) > 1 else "no router ID"
    (router,), (neighbor,) = near, far
    return dataclasses.replace(link, router=router, neighbor=neighbor) if router != neighbor else "a link to itself"


class Lsdb:
    """What the peer announced of the protocols and the instance that are asked for."""

    def __init__(self, asked: argparse.Namespace) -> None:
        self.asked, self.found = asked, Network("NLRIs", asked.sid_group, is_whole=True)
        self.of: dict[Route, Announced] = {}
        self.naming: defaultdict[Node, set[Route]] = defaultdict(set)  # the NLRIs that name each node
        self.addresses: dict[Node, set[str]] = {}  # of each router
        self.changed: set[Route] = set()  # NLRIs that `found` doesn't have as they are, and the nodes of these and of others that went
        self.changed_nodes: set[Node] = set()

    def is_wanted(self, route: Route) -> bool:
        if route[0] not in ENDS or len(route[1]) < 9:
            return False
        protocol, instance = struct.unpack_from(">BQ", route[1])
        return protocol in PROTOCOLS.get(self.asked.protocol, [protocol]) and self.asked.instance in (None, instance)

    def take(self, update: Update) -> bool:
        """One Update; whether anything changed."""
        changed = [route for route in update.withdrawn if route in self.of]
        for route in changed:
            self.withdraw(route)
        for route in filter(self.is_wanted, update.announced):
            if (had := self.of.get(route)) and had.raw == update.attribute:
                continue
            if had:
                self.withdraw(route)
            if len(self.of) == self.asked.most:
                raise Fault(*FULL, f"more than {self.asked.most} NLRIs", LINK_STATE + struct.pack(">I", self.asked.most), FULL_AGAIN)
            self.of[route] = each = announced(route, update.attribute, self.asked.unreserved == "maximum")
            for node in each.ends:
                self.naming[node].add(route)
            self.changed_nodes.update(each.ends)
            self.changed.add(route)
            changed.append(route)
        return bool(changed)

    def withdraw(self, route: Route) -> None:
        """The NLRI isn't there, for now or any more."""
        self.found.tell(route)
        self.changed.discard(route)
        for node in {*self.of.pop(route).ends}:
            self.naming[node].discard(route)
            self.changed_nodes.add(node)
            if not self.naming[node]:
                del self.naming[node]
                self.changed_nodes.discard(node)
                self.addresses.pop(node, None)

    def network(self) -> Network:
        """What the NLRIs show now. Those are looked at that have changed, or that name a router whose addresses have."""
        for node in self.changed_nodes:
            if (found := self.addresses_of(node)) != self.addresses.get(node):
                self.addresses[node] = found
                self.changed |= self.naming[node]
        for route in self.changed:
            self.tell(route, self.of[route])
        self.changed.clear()
        self.changed_nodes.clear()
        return self.found.settle()

    def addresses_of(self, node: Node) -> set[str]:
        """The addresses of a router: those that TLVs say, else of OSPF the IGP Router-ID."""
        found = {said for route in self.naming[node] for end, said in zip(self.of[route].ends, self.of[route].said) if said and end == node}
        return {socket.inet_ntoa(node.igp)} if not found and node.family == "ospf" and len(node.igp) == 4 else found

    def tell(self, route: Route, each: Announced) -> None:
        """Tells the network of an NLRI, by the addresses of its routers."""
        if not each.ends:
            self.found.tell(route, Told((route[1][:64].hex(),), each.link))
            return
        near, far = self.addresses[each.ends[0]], self.addresses[each.ends[-1]]
        router = min(near, default=".".join(map(str, each.ends[0].igp)))
        name = each.local or ("no address" if route[0] == LINK else "node")
        told = [Told((router, name), between(each.link, near, far), each.label, each.srlgs)] if each.link else []
        self.found.tell(route, *told, *([Told((router,), each.transit)] if each.transit and len(near) == 1 else []))
