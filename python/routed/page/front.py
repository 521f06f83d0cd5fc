"""What all pages share: the server's versions and answers, the network, the picture, pinned asks, figures and signals."""
from __future__ import annotations

import argparse
import json
import os
import secrets
import signal
import time
from collections.abc import Callable

from .. import program
from ..follow.follower import Follower
from ..front import processes
from ..front.metrics import Figures
from ..model.groups import Groups
from ..model.names import Names
from ..model.rows import Reply, Request
from ..net.events import event_of
from ..net.log import Log
from ..net.loop import Loop, Owner
from ..net.notify import Supervised
from ..net.signals import take_signals
from ..net.stream import Stream
from ..show.changes import Changes
from .picture import Layout
from .pins import Pins
from .readers import Reader
from .whatif import WhatIf

OUTCOMES = "route", "none", "unknown-from", "unknown-to", "refused", "unanswered"


class Front(Follower):
    """The pages, and what they share."""

    def __init__(self, options: argparse.Namespace) -> None:
        self.options, self.log, self.program = options, Log("page", options.log_level), program.find(options.program)
        self.names, self.groups = Names.read(options.names or options.places), Groups.read(options.groups)
        super().__init__(Loop(self.failed), options.ask, options.watch, options.journal, Changes(self.names, self.groups).of_batch)
        self.readers: dict[str, Reader] = {}  # by their names
        self.state_known: dict[str, object] = {}  # of the server, whose text pages are told
        self.state_told, self.picture, self.is_over = "", "", False
        self.made_at: tuple[int, int] | None = None  # what was shown then
        self.made: dict[tuple[str, int], bytes] = {}  # events that many pages are told
        self.pins, self.what_if = Pins(self), WhatIf(self)
        self.figures = self.figured(Figures())
        self.layout = Layout(self.loop, options, self.drawn, self.say)
        self.supervised = Supervised(self.loop, self.status)
        take_signals(self.loop, (signal.SIGTERM, signal.SIGINT), self.signalled)
        self.settle()

    def figured(self, figures: Figures) -> Figures:
        figures.gauge("routed_page_open", "Pages that are open.", lambda: len(self.readers))
        figures.gauge("routed_page_connected", "Whether the server is there.", lambda: not self.server.is_away)
        figures.gauge("routed_page_journal_followed", "Whether the journal yields the server's versions and answers.", self.is_followed)
        figures.gauge("routed_page_version", "The newest version that is known.", lambda: self.version)
        figures.gauge("routed_page_pinned", "Different asks that pages have pinned.", lambda: len(self.pins.used()))
        figures.gauge("routed_page_layout_seconds", "Seconds that the last layout of the picture took.", lambda: self.layout.seconds)
        figures.counter("routed_page_asks_total", "Asks of forms and for pins, by their outcome.", "outcome", OUTCOMES)
        figures.counter("routed_page_requests_total", "Requests, by the status of their answer.", "status")
        figures.counter("routed_page_versions_skipped_total", "Versions that a page missed, since it was told a newer one.")
        figures.times("routed_page_event_seconds", "Seconds from a version's line until a page was told it.")
        figures.counter("routed_page_exceptions_total", "Connections that were ended by an exception in the code of this tool.")
        program.build_info(figures, self.program)
        processes.add(figures, lambda: {"front": os.getpid(), **({"solve": self.what_if.solve.child.pid} if self.what_if.solve else {})})
        return figures

    def say(self, level: str, text: str) -> None:
        self.log.say(level, self.names.behind(text))

    def failed(self, line: str) -> None:
        """An exception has ended a connection."""
        self.figures.add("routed_page_exceptions_total")
        self.say("error", line)

    def status(self) -> str:
        return f"version {self.version}, {len(self.readers)} pages{f'; {self.fault()}' if self.fault() else ''}"

    def signalled(self, _: bytes) -> None:
        self.is_over = True

    # ---- what is heard of the server

    def published(self) -> None:
        self.pins.again.published()
        if self.network.is_moved:
            self.network.is_moved = False
            self.layout.want(self.network)

    def ended(self) -> None:
        self.pins.forget()

    def settle(self) -> None:
        """Tells all pages what is new."""
        now = self.state()
        if now != self.state_known:
            self.state_known, self.state_told = now, json.dumps({**now, "since": time.time()})
            if now["words"] and now["there"]:  # else the connections have said so
                self.say("warning", now["words"])
        for reader in [*self.readers.values()]:
            reader.tell()

    # ---- pages

    def open(self, stream: Stream) -> None:
        """A page has come."""
        name = secrets.token_hex(8)
        self.readers[name] = Reader(self, name, stream)
        self.readers[name].tell()

    def left(self, reader: Reader) -> None:
        del self.readers[reader.name]
        self.pins.leave(reader)
        self.what_if.leave(reader)

    def drawn(self, text: str) -> None:
        self.picture = text
        self.settle()

    def ask(self, request: Request, call: Callable[[str | None], object], owner: Owner | None) -> None:
        def answered(line: str | None) -> None:
            reply = Reply.parse(line or "")
            outcome = "unanswered" if line is None else "refused" if reply is None else reply.why or "route"
            self.figures.add("routed_page_asks_total", 1, outcome)
            call(line)

        super().ask(request, answered, owner)

    # ---- events that many pages are told

    def once(self, name: str, number: int, make: Callable[[], object]) -> bytes:
        """The event of a version, which is made once for all while the newest version is the same."""
        if self.made_at != self.shown:
            self.made_at, self.made = self.shown, {}
        if (name, number) not in self.made:
            self.made[name, number] = event_of(name, make())
        return self.made[name, number]

    def network_event(self) -> bytes:
        newest = self.network.of(self.network.version)
        return self.once("network", self.network.version, lambda: {
            "version": self.network.version, "at": newest.at if newest else time.time(), "rows": self.network.now()})
