"""The network that PCCs have their LSPs in: what the journal makes, and the links that went from it."""
from __future__ import annotations

from collections.abc import Collection, Iterable, Mapping
from dataclasses import replace

from ..follow.network import Followed
from ..model.rows import Batch, Key, Link

MOST_GONE = 65536  # links that are gone, of which routes of earlier versions may be


class Network(Followed):
    """The database of the server, and the links that went from it."""

    unfollowed = ": LSPs are moved wherever their best route is another one, and paths by SIDs are unavailable"

    def forget(self) -> None:
        super().forget()
        self.seen: dict[str, dict[tuple[str, str], Link]] = {}  # by a router and both addresses: the links that are there or were
        self.count = 0  # of these
        self.homes: dict[str, dict[str, int]] = {}  # by an address of an interface: its routers, and their links there
        self.since: dict[Key, int] = {}  # by a link or a router: the version of its last change
        self.shape = object()  # another one once links come or go, or have other ends

    def applied(self, batch: Batch, gone: list[Link]) -> None:
        if {had.key: had.back for had in gone} != {change.key: change.back for change in batch.changes if isinstance(change, Link)}:
            self.shape = object()
        for had in gone:
            self.leave(had)
        for change in batch.changes:
            self.since[change.key] = batch.number
            if isinstance(change, Link):
                self.add(change)
        if self.count > len(self.rows) + MOST_GONE:
            self.prune()

    def add(self, link: Link) -> None:
        there, homes = self.seen.setdefault(link.router, {}), self.homes.setdefault(link.local, {})
        self.count += there.pop((link.local, link.remote), None) is None
        there[link.local, link.remote] = link  # the newest is the last
        homes[link.router] = homes.get(link.router, 0) + 1

    def leave(self, link: Link) -> None:
        homes = self.homes[link.local]
        homes[link.router] -= 1
        if not homes[link.router]:
            del homes[link.router]
        if not homes:
            del self.homes[link.local]

    def prune(self) -> None:
        """Forgets the links that are gone."""
        self.seen, self.count = {}, 0
        for row in self.rows.values():
            if isinstance(row, Link):
                self.seen.setdefault(row.router, {})[row.local, row.remote] = row
                self.count += 1
        self.since = {key: version for key, version in self.since.items() if key in self.rows or len(key) == 1}

    def is_at(self, version: int) -> bool:
        """Whether it is the server's network of a version at which the server has answered without a route."""
        if self.tail and not self.reach(version) and self.version < version:
            self.doubt(self.tail)
        return self.version == version and not self.is_doubted

    def compare(self, version: int, links: Mapping[Key, Link]) -> bool:
        """These are the links of the server's network of a version, whatever is unreserved on them. Whether the journal is known to be the
        server's by them, or by replies of a later version."""
        if self.tail is None or self.version > version:
            return self.is_proved
        is_there = self.reach(version)
        mine = {key: row for key, row in self.rows.items() if isinstance(row, Link)} if is_there else {}
        if is_there and len(mine) == len(links) and all(
                key in mine and replace(mine[key], unreserved=link.unreserved) == link for key, link in links.items()):
            self.is_proved, self.is_doubted = True, False
        else:
            self.doubt(self.tail)
        return self.is_proved

    # ---- routes

    def from_router(self, router: str) -> Collection[Link]:
        """The links of a router, and those that it had."""
        return self.seen.get(router, {}).values()

    def known(self, router: str, far: str) -> Iterable[Link]:
        """The links from a router to a far address; the last one of an earlier version where there is none any more."""
        return self.from_to(router, far) or [link for link in self.from_router(router) if link.remote == far][-1:]

    def router_of(self, address: str) -> str | None:
        """The router that has an address, as its Router ID or at an interface; None if there is none, or more than one."""
        found = self.routers_of(address)
        return found.pop() if len(found) == 1 else None

    def routers_of(self, address: str) -> set[str]:
        """All routers that have an address."""
        return {*self.homes.get(address, ()), *([address] if address in self.seen else [])}

    def touched(self, head: str, fars: Iterable[str]) -> int:
        """The version of the last change of a route: of a link, of its other direction, or of the mark of a router."""
        at, found = head, 0
        for far in fars:
            links = self.known(at, far)
            if not links:
                break
            for link in links:
                found = max([found, *(self.since.get(key, 0) for key in (link.key, link.back, (link.router,)))])
                at = link.neighbor
        return found
