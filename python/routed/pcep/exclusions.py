"""What a PCC asks to exclude (RFC 5521), as the field EXCEPT of an `except` row.

SRLGs are no part of the network. The links that have a named group are looked up in the file of SRLGs, and an answer counts only if the
same links have the named groups at its version."""
from __future__ import annotations

from collections.abc import Iterator
from dataclasses import dataclass, field
from typing import Protocol

from ..model.rows import MOST_PARTS, Key, Link, Part, Reply, Request
from . import wire
from .network import Network
from .srlgs import Srlgs
from .wire import BadObject, NeverIgnored, Object, Refused, fields

MOST_AGAIN = 3  # times that a request is asked again since the links of its SRLGs have changed
FAILED = 1  # flag F of an XRO: the path is to replace that of an LSP which has failed
SHOULD = 0x80  # the bit X of a subobject: it needn't be excluded
PREFIX, SRLG = 1, 34  # types of subobjects
INTERFACE, NODE, GROUPS = 0, 1, 2  # attributes of a subobject
LETTERS = {INTERFACE: "i", NODE: "r"}


class Unavailable(Exception):
    """Why it can't be said now which links have a group."""


class TooMany(NeverIgnored):
    """More is to be excluded than a row can say."""

    def __init__(self) -> None:
        super().__init__(*wire.PARAMETER)

    def __str__(self) -> str:
        return f"more than {MOST_PARTS} circuits and routers are to be excluded"


class Knowing(Protocol):
    """Who knows the network and the SRLGs."""

    network: Network
    srlgs: Srlgs | None
    version: int


@dataclass
class Names:
    """What subobjects name: parts of a row, groups, and prefixes of links whose groups are meant."""

    parts: dict[str, None] = field(default_factory=dict)
    groups: dict[int, None] = field(default_factory=dict)
    sharing: dict[Part, None] = field(default_factory=dict)

    def add(self, kind: int, part: bytes, has_srlgs: bool) -> None:
        """Takes a subobject, which has this type."""
        if kind not in (PREFIX, SRLG):
            raise Refused(*wire.PARAMETER)
        if len(part) != 8:
            raise BadObject
        number, bits, attribute = fields("!2xIBB", part)
        if kind == PREFIX and bits > 32:
            raise BadObject
        if kind == PREFIX and attribute in LETTERS:
            self.parts[f"{wire.address(part[2:6])}/{bits}{LETTERS[attribute]}"] = None
        elif kind == PREFIX and attribute != GROUPS:
            raise Refused(*wire.PARAMETER)
        elif not has_srlgs:
            raise Refused(*wire.UNKNOWN_CLASS)
        elif kind == PREFIX:
            self.sharing[Part(number >> 32 - bits, 32 - bits, False)] = None
        else:
            self.groups[number] = None

    def more(self, other: Names) -> Names:
        return Names(self.parts | other.parts, self.groups | other.groups, self.sharing | other.sharing)

    def __len__(self) -> int:
        return len(self.parts) + len(self.groups) + len(self.sharing)


class Exclusions:
    """What the XROs of a request or of an LSP exclude: what must be excluded, and what should be."""

    def __init__(self) -> None:
        self.must, self.should = Names(), Names()
        self.objects: list[Object] = []  # the XROs
        self.left_out_at: int | None = None  # the version at which there was no path without what should be excluded
        self.tries, self.rounds = 0, 0  # answers in a row that don't count, or that are too old
        self.needed = ""  # that part of the field of the last ask which must be excluded

    def take(self, body: bytes, has_srlgs: bool) -> None:
        """Reads an XRO. Nothing of one that is refused is taken."""
        flags, = fields("!2xH", body)
        if flags & FAILED:
            raise Refused(*wire.CLASS)
        must, should, at = Names(), Names(), 4
        while at < len(body):
            kind, size = fields("!BB", body[at:at + 2])
            if size < 4 or at + size > len(body):
                raise BadObject
            (should if kind & SHOULD else must).add(kind & ~SHOULD, body[at:at + size], has_srlgs)
            at += size
        must, should = self.must.more(must), self.should.more(should)
        if len(must.more(should)) > MOST_PARTS:
            raise TooMany
        self.must, self.should = must, should

    def drop(self) -> list[Object]:
        """Excludes nothing from now on, since the server takes no such rows. The objects that it was asked by."""
        if any(given.must for given in self.objects):
            raise Refused(*wire.UNKNOWN_CLASS)
        found, self.objects, self.must, self.should = self.objects, [], Names(), Names()
        return found

    def names(self) -> Names:
        """What is excluded at the next ask."""
        return self.must.more(self.should) if self.should and self.left_out_at is None else self.must

    # ---- asks

    def text(self, front: Knowing) -> str:
        """The field EXCEPT of a row that is asked now; empty if nothing is excluded."""
        if not self.objects:
            return ""
        names = self.names()
        found = self.at(front, names)
        self.needed = found if names is self.must else self.at(front, self.must)
        return found

    def at(self, front: Knowing, names: Names, version: int | None = None) -> str:
        """The field by the SRLGs of a version, or of the newest one."""
        found = dict(names.parts)
        if names.groups or names.sharing:
            version = max(front.version, front.network.version) if version is None else version
            self.look(front, version)
            for part in parts_with(front, names, version):
                found[part] = None
                if len(found) > MOST_PARTS:
                    break
        if len(found) > MOST_PARTS:
            raise TooMany
        return " ".join(found)

    def look(self, front: Knowing, version: int) -> None:
        """Reads the file of SRLGs, and the network up to the version."""
        assert front.srlgs is not None
        front.srlgs.look()
        front.network.reach(version)
        if why := front.srlgs.fault_at(version):
            raise Unavailable(why)

    # ---- answers

    def holds(self, front: Knowing, asked: Request, answer: Reply) -> bool:
        """Whether the links that were excluded are those that have the named groups at the answer's version, so that it counts."""
        names = self.names()
        if not names.groups and not names.sharing or (answer.why or "none") != "none":
            return True
        network = front.network
        is_known = network.is_at(answer.version) if answer.why else network.follows(asked, answer)
        try:
            found = self.at(front, names, answer.version) if is_known and network.version == answer.version else None
        except (Refused, Unavailable):  # the next ask says why
            return False
        return found is not None and {*found.split()} == {*asked.excluded.split()}

    def fail(self) -> None:
        """An answer doesn't count."""
        self.tries += 1
        if self.tries > MOST_AGAIN:
            self.tries = 0
            raise Unavailable("the links of its SRLGs have changed whenever it was asked for")

    def relax(self, answer: Reply) -> bool:
        """An answer has no path that may be used. Whether it is asked once more, without what should be excluded."""
        if not self.should or self.left_out_at is not None or (answer.why or "none") != "none":
            return False
        self.left_out_at = answer.version
        return True

    def is_old(self, answer: Reply) -> bool:
        """Whether there may be a path without what should be excluded again, since the network has changed since there was none. Then it
        is asked for again."""
        if self.left_out_at in (None, answer.version) or self.rounds == MOST_AGAIN:
            return False
        self.left_out_at = None
        self.rounds += 1
        return True

    def settle(self) -> None:
        """The next ask is a new one."""
        self.left_out_at, self.rounds = None, 0


def parts_with(front: Knowing, names: Names, version: int) -> Iterator[str]:
    """A part for each circuit of which a link has a named group."""
    network, srlgs = front.network, front.srlgs
    assert srlgs is not None
    for key in links_of(network, srlgs, names, version):
        if isinstance(link := network.rows.get(key), Link):
            yield link.part


def links_of(network: Network, srlgs: Srlgs, names: Names, version: int) -> Iterator[Key]:
    """The links that have a named group, or one of the groups of a link that is named for them."""
    yield from srlgs.links_in(names.groups, version)
    known = set(names.groups)
    for part in names.sharing:
        for key in srlgs.links_at(part, network):
            new = srlgs.groups(key, version) - known
            known |= new
            yield from srlgs.links_in(new, version)
