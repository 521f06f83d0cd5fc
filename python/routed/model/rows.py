"""Rows and reply lines as values (docs/run/FORMATS.md): links, drops, marks, batches of these, requests and replies."""
from __future__ import annotations

import re
import socket
from collections.abc import Callable, Sequence
from dataclasses import dataclass, field as attribute, replace

MOST_CHANGES = 4096  # of a batch
MOST_PARTS = 64  # of the field EXCEPT of an `except` row
KINDS = "circuits", "routers"  # of a `pair` row, in the place of hops: what its two ways don't share
OF_BOOK = "place", "held", "offer", "release", "show", "left"  # the kinds of rows that `routed book` alone has
OCTET = "(?:[0-9]|[1-9][0-9]|1[0-9][0-9]|2[0-4][0-9]|25[0-5])"
ADDRESS = re.compile(rf"{OCTET}(?:\.{OCTET}){{3}}")
NUMBER = re.compile("0|[1-9][0-9]*")
MASK = re.compile("0x[0-9A-Fa-f]{1,8}")
# A put row whose numbers have too few digits to be out of range, as nearly all have: one test in the place of fourteen.
USUAL = re.compile(f"put(?:,{ADDRESS.pattern}){{4}},(?:0|[1-9][0-9]{{0,8}}),{MASK.pattern}(?:,(?:0|[1-9][0-9]{{0,18}})){{8}}")
DIGITS = "[0-9]{1,20}"
REPLY = re.compile(rf"(?:ask|except|place|offer) ({DIGITS}) v({DIGITS}) (?:route cost=({DIGITS}) hops={DIGITS} again=(?:yes|no) "
                   "ero=([0-9a-f]{8}(?:[0-9a-f]{16})+)|(none|unknown-from|unknown-to))")  # the header, and 8 bytes of each link

Key = tuple[str, ...]  # what a change is on: a link's router and local address; for a mark the router alone


class Refused(Exception):
    """What was given can't be used; the text says why."""


Test = Callable[[str], object]  # whether a field is what it has to be


def is_number(bits: int) -> Test:
    """A test whether a field is a number below 2 to this power."""
    most = len(str(1 << bits))  # so that no field of a million digits is read
    return lambda field: NUMBER.fullmatch(field) and len(field) <= most and int(field) < 1 << bits


is_address, is_mask, is_count, is_rate = ADDRESS.fullmatch, MASK.fullmatch, is_number(32), is_number(64)
# Of each kind the fields behind its word: the test of each, and the word of its refusal. Those of asks aren't tested here.
FIELDS: dict[str, list[tuple[Test, str]]] = {
    "put": [*[(is_address, "address")] * 4, (is_count, "number"), (is_mask, "mask"), *[(is_rate, "number")] * 8],
    "drop": [(is_address, "address")] * 2,
    "node": [(is_address, "address"), (is_number(1), "number")],
    "end": [(is_count, "number")] * 2,
    "ask": [(lambda _: True, "")] * 9,
}


def refusal(fields: list[str]) -> str | None:
    """The words by which `routed` refuses a row, None where it takes it; of an ask only by its number of fields."""
    if len(fields) == 15 and fields[1] != fields[3] and USUAL.fullmatch(",".join(fields)):
        return None
    tests = FIELDS.get(fields[0])
    if tests is None:
        return "kind"
    if len(fields) != 1 + len(tests):
        return "fields"
    for at, (field, (test, word)) in enumerate(zip(fields[1:], tests), 2):
        if not test(field):
            return f"{word} {at}"
    return "self-link" if fields[0] == "put" and fields[1] == fields[3] else None


def value(address: str) -> int:
    """An address as a number; addresses are ordered by it."""
    return int.from_bytes(socket.inet_aton(address), "big")


def rank(key: Key) -> tuple[bytes, ...]:
    """By this keys are ordered."""
    return tuple(map(socket.inet_aton, key))


@dataclass(frozen=True)
class Link:
    """A `put` row: a link of one way. Unreserved bandwidths are by priority, in bytes per second."""

    router: str
    local: str
    neighbor: str
    remote: str
    metric: int
    group: int
    unreserved: tuple[int, ...]
    is_removal = False

    @classmethod
    def parse(cls, fields: Sequence[str]) -> Link:
        """The link of a row that isn't refused."""
        return cls(fields[1], fields[2], fields[3], fields[4], int(fields[5]), int(fields[6], 16), tuple(map(int, fields[7:])))

    @property
    def key(self) -> Key:
        return self.router, self.local

    @property
    def back(self) -> Key:
        """The key that its reverse has."""
        return self.neighbor, self.remote

    @property
    def name(self) -> str:
        return f"{self.router} {self.local} {self.neighbor} {self.remote}"

    @property
    def part(self) -> str:
        """The part of an `except` row that excludes its circuit. Both directions have the same: the lesser address of the interfaces."""
        return f"{min(self.local, self.remote, key=value)}/32i"

    def text(self) -> str:
        free = ",".join(map(str, self.unreserved))
        return f"put,{self.router},{self.local},{self.neighbor},{self.remote},{self.metric},0x{self.group:08x},{free}"


@dataclass(frozen=True)
class Drop:
    """A `drop` row: the link of this key goes."""

    router: str
    local: str
    is_removal = True

    @property
    def key(self) -> Key:
        return self.router, self.local

    def text(self) -> str:
        return f"drop,{self.router},{self.local}"


@dataclass(frozen=True)
class Mark:
    """A `node` row: a router is marked, so that no route passes through it, or has transit again."""

    router: str
    transit: bool = False

    @property
    def is_removal(self) -> bool:
        return self.transit

    @property
    def key(self) -> Key:
        return self.router,

    def text(self) -> str:
        return f"node,{self.router},{self.transit:d}"


Row = Link | Mark  # what a database has under a key
Change = Link | Drop | Mark


def removal_of(key: Key) -> Change:
    return Drop(*key) if len(key) == 2 else Mark(key[0], transit=True)


def change_of(fields: Sequence[str]) -> Change:
    """The change of a row that isn't refused."""
    kind, *rest = fields
    return Link.parse(fields) if kind == "put" else Drop(*rest) if kind == "drop" else Mark(rest[0], rest[1] == "1")


@dataclass(frozen=True)
class Batch:
    """The changes of a version, and its number."""

    number: int
    changes: tuple[Change, ...]

    @classmethod
    def parse(cls, rows: Sequence[Sequence[str]]) -> Batch:
        """The batch of these rows, of which none is refused and the last is its `end` row."""
        *changes, (_, number, _) = rows
        return cls(int(number), tuple(map(change_of, changes)))

    def refusal(self, wanted: int, count: int) -> str | None:
        """The words by which its end row is refused, None where it ends a batch. Whether it fits a database isn't looked at."""
        if self.number != wanted:
            return f"expected {wanted}"
        if count != len(self.changes):
            return f"counted {len(self.changes)}"
        if count > MOST_CHANGES:
            return "long"
        seen: set[Key] = set()
        for at, change in enumerate(self.changes, 1):
            if change.key in seen:
                return f"duplicate {at}"
            seen.add(change.key)
        return None

    def text(self) -> str:
        return "".join(f"{change.text()}\n" for change in self.changes) + f"end,{self.number},{len(self.changes)}\n"


@dataclass(frozen=True)
class Part:
    """A part of the field EXCEPT of an `except` row: the bits of its prefix that count, as a number, and how many bits don't."""

    prefix: int
    shift: int
    is_router: bool  # it excludes the routers that own the prefix, else the links of interfaces in it

    def covers(self, address: str) -> bool:
        return value(address) >> self.shift == self.prefix


def parts_of(excluded: str) -> tuple[Part, ...]:
    """The parts of the field EXCEPT of a row that `routed` takes."""
    found = ((value(address), int(bits[:-1]), bits[-1]) for address, bits in (part.split("/") for part in excluded.split()))
    return tuple(Part(address >> 32 - bits, 32 - bits, kind == "r") for address, bits, kind in found)


def row_of(number: int, constraints: str) -> str:
    """The row of a request with this id, by the text behind them. An `except` row has one field more than an `ask` row, and a `pair` row
    has a kind as its last field."""
    is_except = constraints.count(",") == len(FIELDS["ask"]) - 1
    return f"{'except' if is_except else 'pair' if constraints.rpartition(',')[2] in KINDS else 'ask'},{number},{constraints}"


@dataclass(frozen=True)
class Request:
    """An `ask` row, or an `except` row if something is excluded. The hops are as the row has them, and so is what is excluded."""

    id: int
    head: str
    tail: str
    setup: int = 7
    bandwidth: int = 0
    exclude_any: int = 0
    include_any: int = 0
    include_all: int = 0
    hops: str = ""
    excluded: str = ""

    @classmethod
    def parse(cls, fields: Sequence[str]) -> Request:
        """The request of a row that `routed` takes."""
        _, name, head, tail, setup, bandwidth, exclude, include, whole, hops, *excluded = fields
        return cls(int(name), head, tail, int(setup), int(bandwidth), int(exclude, 16), int(include, 16), int(whole, 16), hops, *excluded)

    def within(self, group: int) -> Request:
        """The same, by links that are all in these groups, too."""
        return replace(self, include_all=self.include_all | group)

    def constraints(self) -> str:
        """The text behind the word and the id."""
        masks = f"0x{self.exclude_any:08x},0x{self.include_any:08x},0x{self.include_all:08x}"
        excluded = f",{self.excluded}" if self.excluded else ""
        return f"{self.head},{self.tail},{self.setup},{self.bandwidth},{masks},{self.hops}{excluded}"

    def text(self) -> str:
        return row_of(self.id, self.constraints())

    def prefixes(self) -> list[tuple[int, int]]:
        """The prefixes of its hops: of each its bits that count, as a number, and how many bits don't."""
        if self.hops.startswith("ero:"):
            data = bytes.fromhex(self.hops[4:])  # of a header and subobjects of eight bytes
            found = [(int.from_bytes(data[at + 2:at + 6], "big"), data[at + 6]) for at in range(4, len(data), 8)]
        else:
            found = [(value(address), int(bits)) for address, bits in (hop[:-1].split("/") for hop in self.hops.split())]
        return [(address >> 32 - bits, 32 - bits) for address, bits in found]


@dataclass(frozen=True)
class Reply:
    """A reply line: the cost of a route, the remote address of each of its links, and the subobjects of its EXPLICIT_ROUTE object as the
    line has them; else the word that says why there is none."""

    id: int
    version: int
    why: str | None
    cost: int
    fars: tuple[str, ...]
    subobjects: bytes = attribute(default=b"", compare=False)

    @classmethod
    def parse(cls, line: str) -> Reply | None:
        """The reply of a line; None for another line."""
        found = REPLY.fullmatch(line)
        if not found:
            return None
        name, version, cost, ero, why = found.groups()
        data = bytes.fromhex(ero or "")
        return cls(int(name), int(version), why, int(cost or 0),
                   tuple(".".join(map(str, data[at + 2:at + 6])) for at in range(4, len(data), 8)), data[4:])
