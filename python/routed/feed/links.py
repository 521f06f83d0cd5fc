"""The network that a session was told of, and what all protocols have in common where they tell of links."""
from __future__ import annotations

import dataclasses
import enum
import math
import socket
import struct
from collections import Counter, defaultdict
from collections.abc import Container, Iterable, Mapping
from typing import NamedTuple

from ..model.rows import Key, Link, Mark, Row
from ..net.tlvs import tlvs

MAX_METRIC = 0xffff  # of OSPF's links that nothing is to pass through the router by (RFC 6987)
FIRST_LABEL = 16  # those below have meanings of their own (RFC 3032)
# An adjacency SID that is a local label of the IPv4 link alone, and neither a backup nor of a group of links: the flags that are
# looked at, and those of them that are set (RFC 8665 6.1, RFC 8667 2.2.1).
OSPF_SID, ISIS_SID = (0xf0, 0x60), (0xf8, 0x30)

Source = tuple[object, ...]  # what tells of a link or a router: an LSA or an NLRI


class Transit(enum.Enum):
    """What a source says of the routes that pass through a router. One that is overloaded is marked, whatever others say."""

    FREE, STUB, OVERLOADED = range(3)


class Told(NamedTuple):
    """What a source tells under a key: a link, what a router is, or why a link is left out, whose name the key is then."""

    key: Key
    what: Link | Transit | str
    label: int = 0  # of the link's adjacency SID
    srlgs: frozenset[int] = frozenset()


class Network:
    """The network that a session was told of, whose sources may change one by one. Of a key of which two links differ neither is there.
    `is_whole` says that a source tells all of its link: its key isn't held then, though the link may be left out."""

    def __init__(self, which: str, group: int | None, is_whole: bool = False) -> None:
        self.which, self.group, self.is_whole = which, group, is_whole  # what its sources are, and the group of links with a SID
        self.rows: dict[Key, Row] = {}
        self.left: dict[Source, Key] = {}  # what is left out, by its source: the reason, and the name of the link
        self.notes: dict[Key, str] = {}  # what is said once of a link
        self.sids: dict[Key, int] = {}  # labels of adjacency SIDs
        self.srlgs: dict[Key, frozenset[int]] = {}
        self.sources: defaultdict[Key, dict[Source, Told]] = defaultdict(dict)  # of each link and router
        self.keys: dict[Source, tuple[Key, ...]] = {}
        self.stale: set[Key] = set()  # keys whose rows aren't what is told of them
        self.changed: set[Key] = set()  # keys whose rows may differ from those that were put

    def tell(self, source: Source, *all_told: Told) -> None:
        """The source tells this now, and nothing else."""
        self.left.pop(source, None)
        for key in self.keys.pop(source, ()):
            del self.sources[key][source]
            self.stale.add(key)
        for told in all_told:
            if isinstance(told.what, str):
                self.left[source] = told.what, *told.key
            else:
                self.sources[told.key][source] = told
                self.keys[source] = *self.keys.get(source, ()), told.key
                self.stale.add(told.key)

    def settle(self) -> Network:
        """The network, whose rows are what is told now. Links of a key that are alike are one, with the least of their labels."""
        tables: tuple[dict, ...] = self.left, self.sids, self.srlgs
        for key in self.stale:
            had = self.rows.pop(key, None)
            for table in tables:
                table.pop(key, None)
            found = self.sources[key].values()
            states = {told.what for told in found if isinstance(told.what, Transit)}
            links = {told.what for told in found if isinstance(told.what, Link)}
            if states == {Transit.STUB} or Transit.OVERLOADED in states:
                self.rows[key] = Mark(key[0])
            elif len(links) > 1:
                self.left[key] = f"two {self.which} that differ", *key
            elif links:
                labels = [told.label for told in found if told.label]
                row = grouped(links.pop(), self.group, bool(labels))
                self.rows[key] = had if had == row else row  # so that it is seen at once to be the same
                if labels:
                    self.sids[key] = min(labels)
                if srlgs := frozenset().union(*(told.srlgs for told in found)):
                    self.srlgs[key] = srlgs
            if not found:
                del self.sources[key]
        self.changed |= self.stale
        self.stale.clear()
        return self

    def whole(self) -> set[Key]:
        """The keys of which a source told all."""
        return {*self.rows, *(tuple(name) for _, *name in self.left.values())} if self.is_whole else set()

    def counts(self) -> tuple[int, int, Counter[str]]:
        """How many links and marks there are, and how many links are left out for each reason."""
        marks = sum(len(key) == 1 for key in self.rows)
        return len(self.rows) - marks, marks, Counter(why for why, *_ in self.left.values())


def grouped(row: Row, group: int | None, is_in: bool) -> Row:
    """A link in or out of the administrative group of this number, 0 to 31; as it is where there is none."""
    if group is None or not isinstance(row, Link):
        return row
    return dataclasses.replace(row, group=row.group & ~(1 << group) | is_in << group)


def link_of(local: str, neighbor: str, remote: str, metric: int, group: int, floats: bytes) -> Link | str:
    """A link whose router isn't known yet, with the bandwidths of eight floats rounded down; else why there is none."""
    found = struct.unpack(f">{len(floats) // 4}f", floats)
    if not local or not remote:
        return "no addresses"
    if not all(0 <= rate < 2**64 for rate in found):
        return "an unreserved bandwidth that is no number of a row"
    return Link("", local, neighbor, remote, metric, group, tuple(map(math.floor, found))) if found else "no unreserved bandwidth"


def label_of(sids: Iterable[bytes], flags: tuple[int, int]) -> int:
    """The label of the first adjacency SID that is the link's own, by its flags; 0 where there is none."""
    labels = (int.from_bytes(sid[4:], "big") & 0xfffff for sid in sids if len(sid) == 7 and sid[0] & flags[0] == flags[1])
    return next((label for label in labels if label >= FIRST_LABEL), 0)


class Tlvs(dict[int, list[bytes]]):
    """The values of TLVs by their kinds, of whose lengths some are known. struct.error says that one is cut, or has another length."""

    def __init__(self, data: bytes, sizes: Mapping[int, Container[int]], align: int = 1) -> None:
        super().__init__()
        for kind, value in tlvs(data, align=align):
            if kind in sizes and len(value) not in sizes[kind]:
                raise struct.error(f"TLV {kind} of {len(value)} bytes")
            self.setdefault(kind, []).append(value)

    def first(self, kind: int, most: int = 4) -> bytes:
        """So many bytes of the first value, which is the one that counts; empty where there is none."""
        return self[kind][0][:most] if kind in self else b""

    def number(self, kind: int) -> int:
        return int.from_bytes(self.first(kind), "big")

    def numbers(self, kind: int) -> frozenset[int]:
        """The numbers of 4 bytes of all values."""
        return frozenset(each for value in self.get(kind, []) for each, in struct.iter_unpack(">I", value))

    def address(self, kind: int) -> str:
        """An address; empty where it is 0.0.0.0 or missing."""
        return socket.inet_ntoa(self.first(kind)) if self.number(kind) else ""
