"""The database that batches make, version by version, and the test by which a request may use one of its links."""
from __future__ import annotations

from collections.abc import Collection

from .rows import Batch, Key, Link, Mark, Part, Refused, Request, Row, parts_of, rank

MOST_KEPT = 1024  # parts of `except` rows whose routers are kept, and fields EXCEPT whose parts are


class Database:
    """Links and marks by their keys, at a version."""

    def __init__(self) -> None:
        self.version = 0
        self.run: str | None = None  # the number of the server's run, if it is known
        self.rows: dict[Key, Row] = {}
        self.towards: dict[tuple[str, str], dict[Key, Link]] = {}  # by a router and the address that a link from it leads to
        self.owning: dict[Part, frozenset[str]] = {}  # the routers that own prefixes, as far as it was asked for at this version
        self.parts: dict[str, tuple[Part, ...]] = {}  # of fields EXCEPT, as far as they were asked for

    def apply(self, batch: Batch) -> list[Link]:
        """Makes the changes of the next batch, and returns the links that they replace or drop."""
        gone = []
        for at, change in enumerate(batch.changes, 1):
            key = change.key
            had = self.rows.pop(key, None)
            if isinstance(had, Link):
                gone.append(had)
                del self.towards[had.router, had.remote][key]
            elif len(key) == 2 and change.is_removal:
                raise Refused(f"batch {batch.number} refused: absent {at}")
            if isinstance(change, Link):
                self.rows[key] = change
                self.towards.setdefault((change.router, change.remote), {})[key] = change
            elif isinstance(change, Mark) and not change.transit:
                self.rows[key] = change
        self.version = batch.number
        self.owning.clear()
        return gone

    def links(self) -> list[Link]:
        """The links in the order of their keys."""
        return sorted((row for row in self.rows.values() if isinstance(row, Link)), key=lambda link: rank(link.key))

    def marks(self) -> set[str]:
        return {row.router for row in self.rows.values() if isinstance(row, Mark)}

    def from_to(self, router: str, far: str) -> Collection[Link]:
        """The links from a router to a far address."""
        return self.towards.get((router, far), {}).values()

    def reverse(self, link: Link) -> Link | None:
        """The other direction of a link's circuit, between the same two interfaces, None where there is none."""
        back = self.rows.get(link.back)
        return back if isinstance(back, Link) and back.back == link.key else None

    def owners(self, part: Part) -> frozenset[str]:
        """The routers that own the prefix: it covers their Router ID, or the address of one of their interfaces."""
        if part not in self.owning:
            if len(self.owning) == MOST_KEPT:
                self.owning.clear()
            links = [row for row in self.rows.values() if isinstance(row, Link)]
            self.owning[part] = frozenset(router for link in links for router, address in (
                (link.router, link.router), (link.neighbor, link.neighbor), (link.router, link.local)) if part.covers(address))
        return self.owning[part]

    def parts_in(self, excluded: str) -> tuple[Part, ...]:
        """The parts of the field EXCEPT."""
        if excluded not in self.parts:
            if len(self.parts) == MOST_KEPT:
                self.parts.clear()
            self.parts[excluded] = parts_of(excluded)
        return self.parts[excluded]

    def is_excluded(self, link: Link, part: Part) -> bool:
        """Whether a part of an `except` row excludes a link: the circuit has an interface in its prefix, or a router that owns it."""
        if part.is_router:
            return not self.owners(part).isdisjoint((link.router, link.neighbor))
        return part.covers(link.local) or part.covers(link.remote)

    def why_not(self, link: Link, request: Request, is_onward: bool) -> str | None:
        """The word for why a route of the request may not take a link, None where it may. Of several words the first counts, in this
        order: `excluded` by a part of an `except` row, `exclude-any`, `include-any`, `include-all`, `bandwidth` at the setup priority,
        `one-way` where the link has no reverse, and `marked` where a route that is onward, with links before this one, would pass
        through a marked router."""
        if request.excluded and any(self.is_excluded(link, part) for part in self.parts_in(request.excluded)):
            return "excluded"
        if link.group & request.exclude_any:
            return "exclude-any"
        if request.include_any and not link.group & request.include_any:
            return "include-any"
        if request.include_all & ~link.group:
            return "include-all"
        if link.unreserved[request.setup] < request.bandwidth:
            return "bandwidth"
        if self.reverse(link) is None:
            return "one-way"
        return "marked" if is_onward and (link.router,) in self.rows else None

    def usable(self, router: str, far: str, request: Request, is_onward: bool) -> list[Link]:
        """The links from a router to a far address that a route of the request may take."""
        return [link for link in self.from_to(router, far) if self.why_not(link, request, is_onward) is None]
