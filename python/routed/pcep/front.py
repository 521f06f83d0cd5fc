"""What all PCCs share: the server's answers and versions, the network, SIDs, the LSPs of a file, figures and signals."""
import signal
import socket
import time
from argparse import Namespace
from collections.abc import Callable, Iterable, Sequence

from .. import program
from ..follow.server import Server
from ..follow.slices import Asking, Slices
from ..front import processes
from ..front.metrics import Figures
from ..model.names import Names
from ..net.endpoints import BACKLOG, Door, say, tried
from ..net.http import Page
from ..net.log import Log
from ..net.loop import Loop, Owner, Stopped
from ..net.notify import Supervised
from ..net.signals import take_signals
from ..net.stream import Stream
from . import wire
from .admission import Admission
from .census import Census
from .counting import Counting
from .displaced import Displaced
from .keys import set_key
from .network import Network
from .pcc import Pcc
from .protocol import Link
from .replies import Replies
from .requests import Request
from .session import UP, Session, setup_types, stateful
from .sids import Sids
from .srlgs import Srlgs
from .wanted import by_pcc, wanted


MOST_VALUES = 256  # values of a figure's label: PCCs choose some of them
UPDATES = "accepted", "refused", "unanswered"  # what becomes of one
WORDS = "ask", "except", "pair"  # of rows and lines that are kept, each in files of its own
VERSIONS_APART = 0.2  # seconds, at least, from one version that PCCs' sides are told of to the next where a book counts LSPs
DIGITS = 6  # of a run's number, at most


class Front:
    """The PCCs, and what they share."""

    def __init__(self, options: Namespace):
        self.options, self.loop, self.log = options, Loop(self.failed), Log("pcep", options.log_level)
        self.names = Names.read(options.names)
        self.clock: Callable[[], float] = time.monotonic
        self.sids: Sids | None = Sids(options.sids) if options.sids else None
        self.srlgs: Srlgs | None = Srlgs(options.srlgs) if options.srlgs else None
        self.files = [file for file in (self.sids, self.srlgs) if file]
        self.network = Network(options.journal, self.say)
        self.replies = {word: Replies(options.replies, self.say, word) for word in WORDS} if options.replies else {}
        self.version, self.is_over, self.number = 0, False, int(time.time())
        self.pccs: dict[str, Pcc] = {}  # by their addresses
        self.census = Census(self.pccs)
        self.lsps_wanted = wanted(options.initiate, options.mark)
        self.wanted_of = by_pcc(self.lsps_wanted)
        self.strange_run: str | None = None  # of the SIDs, where it isn't the server's
        self.lsps_unwanted: set[tuple[str, str]] = set()
        self.server = Server(self.loop, options.ask, options.watch, self, options.connections, options.ask_seconds,
                             lambda: bool(self.files))
        self.slices = Slices(self.loop, self.ask)
        self.displaced = Displaced(self, options.placements) if options.placements else None
        self.placements = self.displaced.book if self.displaced else None
        self.is_told = False  # PCCs' sides are told of a version soon
        self.number_of_run: int | None = None
        self.figures: Figures = Figures()
        figures = self.figures
        figures.gauge("routed_pcep_sessions", "Sessions that are up.",
                      lambda: sum(pcc.session.state == UP for pcc in self.pccs.values()))
        figures.gauge("routed_pcep_lsps", "Delegated LSPs.", lambda: self.census.ours)
        figures.gauge("routed_pcep_lsps_without_route", "Delegated LSPs that have lost their route, and have no other.",
                      lambda: self.census.lost)
        figures.gauge("routed_pcep_lsps_at_fault", "Delegated LSPs that aren't as they should be, by what is wrong.",
                      lambda: self.census.faults, "fault")
        figures.gauge("routed_pcep_lsps_of_pcc", "Delegated LSPs, by the address of the PCC whose session is up.",
                      lambda: self.census.by_pcc, "pcc")
        figures.gauge("routed_pcep_connected", "Whether the server is there.", lambda: not self.is_away)
        figures.gauge("routed_pcep_journal_followed", "Whether the journal yields the server's answers.",
                      lambda: None if self.network.tail is None else not self.network.is_doubted)
        figures.gauge("routed_pcep_placements_connected", "Whether the book is there that LSPs are counted in.",
                      lambda: self.placements.is_known if self.placements else None)
        figures.gauge("routed_pcep_lsps_uncounted", "LSPs by segment routing that the book should have, and lacks.",
                      lambda: self.census.uncounted if self.placements else None)
        figures.gauge("routed_pcep_version", "The newest version that is known.", lambda: self.version)
        figures.counter("routed_pcep_messages_total", "Messages of PCCs, by their type.", "type")
        figures.counter("routed_pcep_requests_total", "Requests, by what they were answered.", "outcome")
        figures.counter("routed_pcep_errors_total", "Errors that were sent, by type and value.", "error")
        figures.counter("routed_pcep_refused_by_pccs_total", "Errors of PCCs, by type and value.", "error")
        figures.counter("routed_pcep_moves_total", "What was done with LSPs, by the reason.", "reason")
        figures.counter("routed_pcep_updates_total", "Updates of LSPs, by what their PCCs answered.", "outcome", UPDATES)
        figures.counter("routed_pcep_sessions_ended_total", "Sessions that were up, and ended.")
        figures.counter("routed_pcep_exceptions_total", "Connections that were ended by an exception in the code of this tool.")
        figures.total("routed_pcep_replies_lost", "Reply lines that the files of --replies lack, since they couldn't be written.",
                      lambda: sum(replies.lost for replies in self.replies.values()))
        figures.gauge("routed_pcep_run", "The number of the server's run; absent if it told none.", lambda: self.number_of_run)
        program.build_info(figures, program.find())
        processes.add(figures)
        self.supervised = Supervised(self.loop, self.status)
        self.admission = Admission(self)
        take_signals(self.loop, (signal.SIGTERM, signal.SIGINT, signal.SIGHUP), self.signalled)

    def say(self, level: str, text: str) -> None:
        self.log.say(level, self.names.behind(text))

    def count(self, what: str, value: str) -> None:
        name = f"routed_pcep_{what}_total"
        counts = self.figures.values[name]
        self.figures.add(name, 1, value if value in counts or len(counts) < MOST_VALUES else "other")

    def tally(self, what: str) -> None:
        self.figures.add(f"routed_pcep_{what}_total")

    def failed(self, line: str) -> None:
        """An exception has ended a connection."""
        self.figures.add("routed_pcep_exceptions_total")
        self.say("error", line)

    def later(self, seconds: float, call: Callable[[], object], owner: Owner | None) -> None:
        self.loop.after(seconds, call, owner)

    def capabilities(self) -> bytes:
        """TLVs of this side's Open."""
        flags = 1 | 4 * (self.options.initiate is not None)
        return (stateful(flags) if self.options.stateful else b"") + (setup_types() if self.sids else b"")

    def segments(self, head: str, fars: Sequence[str], version: int) -> list[Link] | None:
        assert self.sids is not None
        self.sids.look()
        if not self.sids.is_current and self.strange_run != (self.sids.run or ""):
            self.strange_run = self.sids.run or ""
            self.say("warning", f"{self.sids.tail.path}: its SIDs aren't of this run of the server: paths by SIDs are unavailable")
        self.network.reach(version)
        return self.sids.segments(self.network, head, fars, version)

    def ask(self, row: str, call: Callable[[str | None], None], owner: Owner | None) -> None:
        def answered(sent: str | None, line: str | None) -> None:
            if sent is not None and line is not None and (replies := self.replies.get(line.partition(" ")[0])):
                replies.keep(sent, line)
            self.loop.call(owner, call, line)

        self.server.asks.ask(row, answered)

    def in_turn(self, asking: Asking) -> None:
        self.slices.add(asking)

    # ---- LSPs of several PCCs

    def claims(self, peer: str, head: str, name: str) -> bool:
        """Whether a PCC may delegate the LSP of that head-end and name: the PCC at the head-end, else the first that has delegated it."""
        is_own: bool | None = None
        for pcc in [*self.pccs.values()]:
            lsp = pcc.session.lsps.names.get(name)
            if pcc.peer == peer or not lsp or not lsp.is_ours() or lsp.asked().ends[0] != head:
                continue
            is_own = self.is_at(peer, head) if is_own is None else is_own
            if not is_own or self.is_at(pcc.peer, head):
                return False
            pcc.loop.call(pcc.session.lsps.lose, lsp)
        return True

    def is_at(self, peer: str, head: str) -> bool:
        """Whether a PCC connects from an address of a router."""
        if peer != head:
            self.network.reach(self.version)
        return peer == head or not self.network.is_doubted and self.network.router_of(peer) == head

    def wanted(self, peer: str, name: str) -> Request | None:
        return self.lsps_wanted.get((peer, name))

    def all_wanted(self, peer: str) -> Iterable[tuple[str, Request]]:
        return [*self.wanted_of.get(peer, {}).items()]

    def is_unwanted(self, peer: str, name: str) -> bool:
        return (peer, name) in self.lsps_unwanted

    # ---- versions

    @property
    def is_away(self) -> bool:
        return self.server.is_away

    def lost(self, why: str) -> None:
        self.version, self.number_of_run = 0, None
        self.network.begin()
        for file in self.files:
            file.wanted = None
        for replies in self.replies.values():
            replies.of_run(None)

    def begun(self, run: str) -> None:
        """The server has said which run it is. A run that was given no number has a longer name."""
        for file in self.files:
            file.wanted = run
        number = int(run) if run.isdigit() and len(run) <= DIGITS else None
        if number != self.number_of_run:
            self.number_of_run = number
            for replies in self.replies.values():
                replies.of_run(number)

    def status(self) -> str:
        """The status line of the unit."""
        up = sum(pcc.session.state == UP for pcc in self.pccs.values())
        return f"version {self.version}, {up} sessions" if not self.is_away else f"no server, {up} sessions"

    def told(self, version: int) -> None:
        is_first, self.version = not self.version, version
        if self.placements is None or is_first:
            self.tell(Session.again)
        elif not self.is_told:  # each placing makes a version
            self.is_told = True
            self.loop.after(VERSIONS_APART, lambda: self.tell(Session.again_beside))

    def tell(self, again: Callable[[Session], None]) -> None:
        """Tells PCCs' sides of a version."""
        self.is_told = False
        for file in self.files:  # its lines of this version are there, and need no ask of their own
            file.has_news()
        self.again(again)

    def again(self, again: Callable[[Session], None] = Session.again) -> None:
        for pcc in [*self.pccs.values()]:
            if pcc.session.state == UP:
                pcc.loop.call(again, pcc.session)

    def countings(self) -> list[Counting]:
        """What the sessions that are up count in the book."""
        return [pcc.session.lsps.counting for pcc in self.pccs.values() if pcc.session.state == UP]

    # ---- PCCs

    def take(self, stream: Stream) -> None:
        self.admission.take(stream)

    def begin(self, stream: Stream, peer: str) -> None:
        """A session of a PCC begins."""
        self.number += 1
        self.pccs[peer] = Pcc(self, stream, peer)

    def tick(self) -> None:
        """Each second: SIDs and SRLGs that changed at no version of their own, and timers."""
        if any([file.has_news() for file in self.files]):
            self.again()
        if self.placements:
            self.placements.tick(self.clock())
        self.tick_next([*self.pccs.values()])

    def tick_next(self, left: list[Pcc]) -> None:
        """The timers of one PCC in each turn of the loop."""
        if left:
            pcc = left.pop()
            pcc.loop.call(pcc.tick)
        if left:
            self.loop.after(0, lambda: self.tick_next(left))
        else:
            self.loop.after(1, self.tick)

    def signalled(self, numbers: bytes) -> None:
        if signal.SIGTERM in numbers or signal.SIGINT in numbers:
            self.is_over = True
        elif signal.SIGHUP in numbers:
            self.admission.read_again()
            self.read_wanted()

    def read_wanted(self) -> None:
        """The file of --initiate, again; one that can't be read changes nothing."""
        try:
            found = wanted(self.options.initiate, self.options.mark)
        except Stopped as fault:
            self.say("error", f"{fault}; what was wanted before stays")
            return
        self.lsps_unwanted = {key for key in self.lsps_wanted.keys() | self.lsps_unwanted if key not in found}
        self.lsps_wanted, self.wanted_of = found, by_pcc(found)
        for pcc in [*self.pccs.values()]:
            pcc.loop.call(pcc.session.lsps.making.reread)

    def run(self) -> int:
        for place in (self.options.ask, self.options.watch, self.options.placements):
            if place:
                place.look_up()
        with tried(f"{self.options.address}:{self.options.port}: bind"):
            listener = socket.create_server((self.options.address, self.options.port), backlog=BACKLOG)
        for peer, key in self.admission.keys.items():
            with tried(f"the key of {peer}"):
                set_key(listener, peer, key)
        if self.options.metrics:
            Page(self.loop, self.options.metrics.bind(0o600), self.figures.text, prepare=self.census.go_on)
        Door(self.loop, listener, self.take)
        self.server.connect()
        if self.placements:
            self.placements.connect()
        self.tick()
        say(f"pcep {':'.join(map(str, listener.getsockname()[:2]))}", "ready")
        self.supervised.ready()
        while not self.is_over:
            self.loop.turn()
        for pcc in [*self.pccs.values()]:
            pcc.loop.call(pcc.session.stop, "this front ends", wire.close(1))
        return 0
