"""What every feed does: batches towards a network as a router tells it, for a program that answers each.

A session with the router calls `up` of what hears it once the router tells the network, `heard` for what comes, `complete` if the router
says that all has come, and `lose` once it can't go on."""
from __future__ import annotations

import argparse
import atexit
import contextlib
import functools
import math
import os
import re
import selectors
import signal
import sys
import time
from collections.abc import Callable

from .. import program
from ..front import processes
from ..front.metrics import Figures
from ..model.database import Database
from ..model.journals import in_batches
from ..model.rows import Key, rank
from ..net.endpoints import Endpoint, say as put_out
from ..net.http import Page
from ..net.loop import READ, WRITE, Loop, Stopped
from ..net.notify import Supervised
from ..net.stream import Stream
from ..net.tlvs import messages
from .batches import Batches
from .database import begun, run_of
from .links import Network, Source, grouped
from .program import Program
from .sids import SidFile, Values

TOGETHER = 0.02  # seconds: what comes so close together isn't cut, as a removal and its new instance
LONGEST = 1.0  # seconds that such a run of events may put a batch off
AGAIN = 1.0  # seconds from one try to connect to the next
ASK = re.compile(rb"(?:ask|except),[0-9A-Za-z.,:/ ]*")


class Lost(Exception):
    """Why the session with the router can't go on, the last bytes that the router is sent, if they aren't its usual ones, and the seconds
    after which it is tried again."""

    def __init__(self, why: object, last: bytes | None = None, again: float = AGAIN) -> None:
        super().__init__(why)
        self.last, self.again = last, again


Form = tuple[int, Callable[[bytes, int], tuple[int, int]]]  # of messages: the bytes of a header, and what reads it
Take = Callable[[int, bytes], "bool | None"]  # takes a message: whether the network changed, None for one that isn't about the network


class Session:
    """A session with a router. `network` gives what the router told of its network."""

    other, last = "the router", b""  # who is at the other side, and the last bytes that it is sent

    def __init__(self, asked: argparse.Namespace, feed: Hearing, network: Callable[[], Network], form: Form, take: Take) -> None:
        self.asked, self.feed, self.network, self.form, self.take = asked, feed, network, form, take
        self.streams: list[Stream] = []

    def named(self) -> str:
        return self.asked.where

    def fail(self) -> None:
        self.feed.lose(Lost("an exception has ended it"))

    def watch(self, stream: Stream) -> None:
        """From now on takes what this stream has."""
        self.streams.append(stream)
        stream.give(self, functools.partial(self.go_on, stream))
        stream.wait(True)

    def go_on(self, stream: Stream, events: int) -> None:
        if stream not in self.streams:  # the session has ended meanwhile
            return
        if events & WRITE:
            stream.flush()
        data = stream.unread + (stream.read() if events & READ and not stream.fault else b"")
        at, told = 0, []
        try:
            if stream.is_ended or stream.fault:
                where = " in the midst of a message" * bool(data)
                raise Lost(stream.why() if stream.fault else f"{self.other} closed the connection{where}")
            for kind, body, at in messages(data, *self.form):
                told.append(self.take(kind, body))
        except Lost as fault:
            self.feed.lose(fault)
            return
        stream.unread = data[at:]
        stream.wait(True)
        if events & READ:
            self.feed.heard(len(told) - told.count(None), any(told))

    def close(self, last: bytes | None = None) -> None:
        """Ends the session, by these last bytes or the usual ones, if the connection is still there."""
        for stream in self.streams:
            stream.leave(self.last if last is None else last)
        self.streams = []


class Hearing:
    """What hears a session. The network counts as told once nothing has come for `quiet` seconds, and `most` seconds after it is up."""

    def __init__(self, asked: argparse.Namespace, make: Connect, loop: Loop, quiet: float, most: float) -> None:
        self.asked, self.make, self.loop, self.quiet, self.most = asked, make, loop, quiet, most
        self.opened: Session | None = None  # the last one
        self.session: Session | None = None  # the last one that was up
        self.is_telling = False  # whether the network doesn't count as told yet
        self.event_at, self.told_end = 0.0, math.inf  # when the last event came, and when the network counts as told at the latest
        self.noted: set[Key] = set()  # the links whose notes were said
        self.left: dict[Source, Key] | None = None  # what was said to be left out

    def connect(self) -> None:
        try:
            self.opened = self.make(self.asked, self)
        except Lost as fault:
            self.lose(fault)
        except OSError as fault:
            self.lose(Lost(fault.strerror or fault))

    def up(self, session: Session) -> None:
        self.session, self.is_telling, self.event_at = session, True, time.monotonic()
        self.told_end = self.event_at + self.most

    def heard(self, events: int, has_changed: bool) -> None:
        """So many events came."""
        self.event_at = time.monotonic() if events else self.event_at

    def complete(self) -> None:
        """The router says that it has told all."""
        self.told_end = time.monotonic()

    @property
    def told_at(self) -> float:
        """When the network counts as told."""
        return min(self.told_end, self.event_at + self.quiet) if self.is_telling else math.inf

    def lose(self, why: Lost) -> None:
        raise Stopped(f"no connection to {self.asked.where}: {why}")

    def report(self, network: Network) -> None:
        """Says the notes of links that weren't said; and with --verbose, where it has changed, how many links are left out for each
        reason, and which are new there."""
        for key in sorted(network.notes.keys() - self.noted):
            self.asked.say(network.notes[key])
        self.noted.update(network.notes)
        if not self.asked.verbose or network.left == self.left:
            return
        links, marks, left = network.counts()
        counts = ", ".join(f"{why} {count}" for why, count in sorted(left.items()))
        self.asked.say(f"{links} links; {f'{marks} without transit; ' * (marks > 0)}left out: {counts or 'none'}")
        for why, *name in sorted({*network.left.values()} - {*(self.left or {}).values()}):
            self.asked.say(f"left out, {why}: {' '.join(name)}")
        self.left = dict(network.left)


Connect = Callable[[argparse.Namespace, Hearing], Session]  # raises Lost or OSError where there can't be a session


class Feed(Hearing):
    """A feed that runs: its program, its session and what is to be done next."""

    def __init__(self, asked: argparse.Namespace, make: Connect) -> None:
        loop = Loop(self.failed, selectors.PollSelector())  # standard input may be a regular file
        super().__init__(asked, make, loop, asked.quiet, asked.hold)
        self.figures, self.supervised = figures_of(self), Supervised(loop, self.status)
        self.files = {name: SidFile(name, path) for name, path in (("sids", asked.sids), ("srlgs", asked.srlgs)) if path}
        self.program = Program(loop, asked.command, asked.to)
        self.batches = Batches(Database(), asked.say, self.refused)
        self.is_begun, self.is_connected, self.was_lost = False, False, False  # the first: whether it is known what the program has
        self.heard_at: float | None = None
        self.asks = Stream(loop, 0, is_shared=True) if asked.command or asked.to else None
        self.try_at, self.look_at = 0.0, math.inf  # when a connection is tried, and when the network is looked at next
        self.network = Network("", None)  # as it was looked at last
        self.awaited: set[Key] = set()  # links that the program has, and the router didn't tell of yet: they are held until `told_at`
        self.awaited_values: dict[str, Values] = {}  # the same of their lines in the files

    def run(self) -> None:
        if self.asked.metrics:
            Page(self.loop, self.asked.metrics.bind(0o600), self.figures.text)
            atexit.register(self.asked.metrics.leave)
        database, published = begun(self.program, self.asked.journal)
        if self.files:
            run = run_of(self.program)
            for file in self.files.values():
                file.head = f"run,{run}\n" if run else ""
        self.batches.begin(database, published)
        self.is_begun = True
        self.supervised.ready()
        if published:
            marks = len(database.marks())
            self.asked.say(f"going on from version {published}, of {len(database.rows) - marks} links and {marks} marks; "
                           f"what the router doesn't tell of within {self.asked.hold:g} s is dropped")
        self.program.take = self.take_lines
        if self.asks:
            self.asks.give(None, self.take_asks)
        while True:
            now = time.monotonic()
            if now >= self.try_at:
                self.try_at = math.inf
                self.connect()
            if now >= self.due():
                self.look(now)
            if self.asks:
                self.asks.wait(not self.program.stream.is_full)
            self.loop.turn(min(self.try_at, self.due()) - time.monotonic())

    def status(self) -> str:
        """The status line of the unit."""
        if not self.is_begun:
            return "asking what the server has"
        return (f"version {self.batches.published}, {self.network.counts()[0]} links, "
                f"{'connected' if self.is_connected else 'no connection'} to {self.asked.where}")

    def failed(self, line: str) -> None:
        """An exception has ended a connection."""
        self.figures.add("routed_feed_exceptions_total")
        self.asked.say(line)

    def due(self) -> float:
        """When the network is looked at next; never where nothing is to be done, or a batch is on its way."""
        if self.batches.sent:
            return math.inf
        return min(self.told_at, max(self.look_at, min(self.event_at + TOGETHER, self.look_at + LONGEST)))

    def up(self, session: Session) -> None:
        super().up(session)
        self.is_connected, sent = True, {change.key for change in self.batches.sent if not change.is_removal}
        self.awaited = self.batches.database.rows.keys() | sent
        self.awaited_values = {name: dict(file.labels) for name, file in self.files.items() if self.awaited}
        self.is_telling = bool(self.awaited)
        self.heard(0, True)
        if self.was_lost:
            self.asked.say(f"connected again; links that were there are held for {self.asked.hold:g} s")

    def lose(self, why: Lost) -> None:
        """The links that were put stay, until a router tells again what there is."""
        if self.opened:
            self.opened.close(why.last)
        if self.is_connected or not self.was_lost:
            self.asked.say(f"no connection to {self.asked.where}: {why}; what was put stays")
        self.is_connected, self.was_lost, self.try_at = False, True, time.monotonic() + why.again
        self.look_at, self.is_telling = math.inf, False

    def heard(self, events: int, has_changed: bool) -> None:
        super().heard(events, has_changed)
        self.heard_at = time.monotonic()
        if has_changed:
            self.look_at = min(self.look_at, self.heard_at + self.asked.collect)

    def take_lines(self) -> None:
        while self.program.lines:
            line = self.program.line()
            if self.batches.read(line):
                if self.batches.is_cut:
                    self.look_at = min(self.look_at, time.monotonic())
            elif self.asks:
                put_out(line)

    def refused(self, word: str) -> None:
        self.figures.add("routed_feed_refused_batches_total", 1, word)
        for file in self.files.values():
            file.refused()

    def take_asks(self, _: int) -> None:
        assert self.asks is not None
        rows = self.asks.lines()
        if self.asks.is_ended:
            if self.asks.fault:
                raise Stopped(f"standard input: {self.asks.why()}")
            rows += [self.asks.unread] if self.asks.unread else []
        for row in rows:
            if ASK.fullmatch(row):
                self.program.write(row + b"\n")
                self.batches.ask()
            else:
                self.asked.say(f"no ask row, and not passed on: {row[:80].decode(errors='backslashreplace')}")

    def close(self) -> None:
        """Ends the program, and takes the lines that it still writes."""
        for file in self.files.values():
            file.close()
        if self.opened:
            self.opened.close()
        if self.asks:
            self.asks.wait(False)
        self.program.end(is_read=self.is_begun)

    def look(self, now: float) -> None:
        """Writes the next batch towards the network as it is."""
        self.look_at = math.inf
        network = self.loop.call(self.session, self.session.network) if self.session else None
        if network is None:
            return
        whole, is_telling = network.whole() if self.is_telling else set(), self.is_telling
        self.awaited = {key for key in self.awaited if key in self.batches.database.rows and key not in network.rows and key not in whole}
        if now >= self.told_at:
            if self.awaited and not network.rows and self.asked.quiet < math.inf:
                self.asked.say(f"the router tells of no link: {len(self.awaited)} links and marks are dropped")
                self.figures.add("routed_feed_emptied_total")
            self.is_telling, self.awaited, self.awaited_values = False, set(), {}
        values: dict[str, Values] = {"sids": network.sids, "srlgs": network.srlgs}
        for name, held in self.awaited_values.items():
            self.awaited_values[name] = {key: held[key] for key in held.keys() - values[name].keys() - whole}
            values[name] = {**values[name], **self.awaited_values[name]}
        held_rows = {key: grouped(self.batches.database.rows[key], self.asked.sid_group, key in values["sids"]) for key in self.awaited}
        wanted = {**network.rows, **held_rows}
        text = self.batches.next(wanted, network.changed if network is self.network and not is_telling else None)
        self.network, network.changed = network, set()
        for name, file in self.files.items():
            file.write(self.batches, values[name], wanted)
        self.program.write(text)
        self.report(network)


def figures_of(feed: Feed) -> Figures:
    """What a feed counts."""
    figures = Figures()
    figures.gauge("routed_feed_connected", "Whether there is a connection to the router, 1 or 0.", lambda: int(feed.is_connected))
    figures.age("routed_feed_heard_age_seconds", "Seconds since the router sent anything; absent where it never did.",
                lambda: feed.heard_at)
    figures.gauge("routed_feed_version", "The version of the last batch that was accepted.",
                  lambda: feed.batches.published if feed.is_begun else None)
    figures.gauge("routed_feed_links", "Links of the network.", lambda: feed.network.counts()[0])
    figures.gauge("routed_feed_marks", "Routers without transit.", lambda: feed.network.counts()[1])
    figures.gauge("routed_feed_left_out", "Links that are left out, by the reason.", lambda: feed.network.counts()[2], "reason")
    figures.counter("routed_feed_refused_batches_total", "Batches that the program refused, by the first word of the reason.", "word")
    if feed.asked.quiet < math.inf:
        figures.counter("routed_feed_emptied_total", "New sessions in which the router told of nothing, so that all was dropped.")
    figures.counter("routed_feed_exceptions_total", "Connections that were ended by an exception in the code of this tool.")
    program.build_info(figures, program.find())
    processes.add(figures)
    return figures


def once(asked: argparse.Namespace, make: Connect) -> None:
    """Writes the network of a session once it has been told."""
    times = (asked.quiet, asked.hold) if asked.quiet < math.inf else (max(asked.collect, 1.0), math.inf)
    hearing = Hearing(asked, make, Loop(selector=selectors.PollSelector()), *times)
    hearing.connect()
    while (left := hearing.told_at - time.monotonic()) > 0:
        hearing.loop.turn(left)
    assert hearing.session is not None
    hearing.session.close()
    network = hearing.session.network()
    rows, _ = in_batches([network.rows[key].text() for key in sorted(network.rows, key=rank)])
    put_out(*rows)
    hearing.report(network)


def host(text: str) -> str:
    """An address or a name that can be looked up."""
    if not text.encode("idna"):
        raise ValueError
    return text


def options(asked: argparse.ArgumentParser, **defaults: object) -> None:
    """What every feed takes. `where` among these defaults says where the router is, and `quiet` when it has told all."""
    seconds = program.number("seconds", 0, 86400, float)
    asked.add_argument("--collect", type=seconds, default=0.2, metavar="S", help="seconds that changes are collected")
    asked.add_argument("--hold", type=seconds, default=20.0, metavar="S",
                       help="seconds after a connection is there that links of before are held, of which the router doesn't tell")
    asked.add_argument("--to", type=Endpoint, metavar="PLACE", help="where listen takes updates: rows go there, and no command is run")
    asked.add_argument("--journal", metavar="FILE", help="of the program's run, where it has batches already and isn't behind listen")
    asked.add_argument("--metrics", type=Endpoint, metavar="PLACE", help="where figures are read, by HTTP at /metrics")
    asked.add_argument("--sids", metavar="FILE",
                       help="where adjacency SIDs are told, as lines sid,VERSION,ROUTER,LOCAL,LABEL; it is made anew")
    asked.add_argument("--sid-group", type=program.number("number", 0, 31), metavar="N",
                       help="the administrative group, 0 to 31, of exactly the links that have an adjacency SID")
    asked.add_argument("--srlgs", metavar="FILE",
                       help="where SRLGs are told, as lines srlg,VERSION,ROUTER,LOCAL,GROUP GROUP ..; it is made anew")
    asked.set_defaults(**{"quiet": math.inf} | defaults)
    asked.add_argument("--once", action="store_true", help="write the present network as one journal, and end")
    asked.add_argument("--verbose", action="store_true", help="say which links are left out, and why")
    asked.add_argument("command", nargs=argparse.REMAINDER, help="what takes the rows, as: routed solve")


def run(name: str, parser: argparse.ArgumentParser, words: list[str] | None, connect: Connect) -> int:
    """Runs a feed by the words of a command line, and answers the status. Its lines on standard error begin with its name."""
    def say(text: object) -> None:
        with contextlib.suppress(OSError):  # there is nobody to tell it to
            os.write(2, f"{name}: {text}\n".encode(errors="backslashreplace"))

    while (file := os.open(os.devnull, os.O_RDWR)) < 3:  # one of the first three that is closed would become a file of the feed's own
        pass
    os.close(file)
    asked = parser.parse_args(words)
    asked.say, asked.where = say, asked.where.format(asked)
    if asked.once and (asked.sids or asked.srlgs):
        parser.error(f"argument --{'sids' if asked.sids else 'srlgs'}: it tells of changes, and --once ends before any")
    if asked.command[:1] == ["--"]:
        asked.command = asked.command[1:]
    if asked.to and (asked.command or asked.once):
        parser.error(f"argument --to: not allowed with {'--once' if asked.once else 'a command'}")
    signal.signal(signal.SIGTERM, lambda *_: sys.exit(0))
    feed = None
    try:
        if asked.once:
            once(asked, connect)
        else:
            feed = Feed(asked, connect)
            feed.run()
    except (OSError, Stopped) as fault:
        say(fault)
        return 1
    except KeyboardInterrupt:
        pass
    finally:
        if feed:
            feed.close()
    return 0
