"""The picture of a page: where routers, names and circuits are. A child process lays it out once for each set of routers. It is kept."""
from __future__ import annotations

import argparse
import collections
import json
import sys
import time
from collections.abc import Callable
from typing import NamedTuple

from ..model.database import Database
from ..model.names import Names as FileOfNames
from ..model.rows import Link
from ..net.children import Child
from ..net.loop import Loop
from ..pictures.geometry import Circuit, circuit_of
from ..pictures.layout import Places
from ..pictures.positions import called, read_places

MOST_KEPT = 8  # pictures
SPARE = 2  # times as many routers as are in the network may be in the picture that is shown of it
SECONDS = 120  # of a child, which is ended then
PAUSE = 30  # seconds from a child that failed to the next one
MOST_BYTES = 1 << 24  # of a picture
CHILD = [sys.executable, "-P", "-m", "routed.pictures.geometry"]


class Picture(NamedTuple):
    text: str  # as pages get it
    places: Places  # in the units of the layout
    circuits: frozenset[Circuit]


class Layout:
    """Lays out the routers of a network in a child process, once for each set of routers, and keeps what was laid out. Where only a
    circuit is new, the routers stay where they are. `ready` is called with the text of a picture, `say` with a line of the log."""

    def __init__(self, loop: Loop, options: argparse.Namespace, ready: Callable[[str], object], say: Callable[[str, str], object]) -> None:
        self.loop, self.ready, self.say = loop, ready, say
        known = {router: it for _, router, it in read_places(options.places)} if options.places else {}
        self.given: Places = {router: place for router, (place, _) in known.items()}
        self.names, self.found = FileOfNames.read(options.names), {router: name for router, (_, name) in known.items()}
        self.kept: collections.OrderedDict[frozenset[str], Picture] = collections.OrderedDict()
        self.wanted: tuple[frozenset[str], frozenset[Circuit]] = frozenset(), frozenset()
        self.run: Child | None = None
        self.seconds: float | None = None  # that the last child took
        self.told = ""  # the last picture

    def want(self, database: Database) -> None:
        """From now on the picture of this network is wanted. `ready` is called where that is another one, at once where it is kept."""
        circuits = frozenset(circuit_of(row) for row in database.rows.values() if isinstance(row, Link))
        self.wanted = frozenset(router for one, _, other, _ in circuits for router in (one, other)), circuits
        self.serve()

    def serve(self) -> None:
        """Tells the picture that is wanted, and lays out what it lacks."""
        routers, circuits = self.wanted
        shown = self.shown(routers)
        if shown and self.kept[shown].text is not self.told:
            self.told = self.kept[shown].text
            self.ready(self.told)
        known = self.kept[shown].circuits if shown else frozenset()
        if not self.run and not circuits <= known:
            self.begin(shown or routers, circuits | known)

    def shown(self, routers: frozenset[str]) -> frozenset[str] | None:
        """The smallest kept set of routers whose picture has these, where it doesn't have too many others."""
        found = min((kept for kept in self.kept if routers <= kept and len(kept) <= SPARE * len(routers)), key=len, default=None)
        if found is not None:
            self.kept.move_to_end(found)
        return found

    def begin(self, routers: frozenset[str], circuits: frozenset[Circuit]) -> None:
        """Starts a child. Routers stay at their places of before, where most of them have one."""
        before = self.kept.get(routers) or next(reversed(self.kept.values()), None)
        known = before.places if before and 2 * len(routers & before.places.keys()) > len(routers) else {}
        places, names, begun_at = self.given | known, called(sorted(routers), self.names, self.found), time.monotonic()
        asked = {"routers": sorted(routers), "circuits": sorted(circuits), "names": names,
                 "places": {router: places[router] for router in routers & places.keys()}}

        def end(said: bytes, fault: str) -> None:
            self.seconds = time.monotonic() - begun_at
            self.end(routers, circuits, said.decode(errors="replace").splitlines() or [""], fault)

        self.run = Child(self.loop, CHILD, json.dumps(asked).encode(), SECONDS, MOST_BYTES, end)

    def end(self, routers: frozenset[str], circuits: frozenset[Circuit], lines: list[str], fault: str) -> None:
        """A child has ended: its picture is kept. If it has failed, the next one begins after a pause."""
        if fault or len(lines) != 2 or not lines[0].startswith("{"):
            self.say("warning", f"the picture of {len(routers)} routers wasn't laid out: {fault or lines[-1]}")
            self.loop.after(PAUSE, self.go_on)
            return
        self.kept[routers] = Picture(lines[0], json.loads(lines[1]), circuits)
        if len(self.kept) > MOST_KEPT:
            self.kept.popitem(last=False)
        self.go_on()

    def go_on(self) -> None:
        self.run = None
        self.serve()

    def close(self) -> None:
        if self.run:
            self.run.kill()
