"""Lets programs connect to `routed serve`: up to 64 at once ask at one socket, and one at a time brings updates at another.

PLACE is the path of a UNIX socket, a port of 127.0.0.1, ADDRESS:PORT, or [ADDRESS]:PORT for IPv6. A path that has a colon
needs a slash. There is no sign-on: at a path its mode and its folder say who may connect, at a port everybody may who
reaches it. With port 0 the system chooses one, and a line before `ready` has it, as `updates 127.0.0.1:43211`.

A connection sends rows and reads their lines (docs/run/FORMATS.md). Where no place is free for it, it reads the line
`busy` and its end. It may shut its sending side and read on, until it is answered to its last whole line; what no
line feed ends is dropped, and so is a byte order mark at its beginning. A line of more than 65,536 bytes or with a
quotation mark, which no row needs, ends it by the line `refused`, behind the lines of its earlier rows. Where updates
come in, so does a line whose first field isn't put, drop, node, end or ask: an HTTP request publishes nothing. A
connection that doesn't read keeps its place and delays nobody else. An asking connection that neither sends nor reads
for the time of --idle is ended.

With --direct there is a place for programs of this machine, at a path. On a connection to it comes one message, the
line `direct 1`, and with it two open files (SCM_RIGHTS): the end of a pipe to which the program writes its rows, and
the end of a pipe from which it reads their lines. This front passes nothing on then. A program ends its rows by
shutting its sending side of the connection: it is answered to its last whole line, and reads the end of its lines. A
line of more than 1,048,576 bytes or with a quotation mark ends the connection without a word. Once the connection has
ended, both ends are of no use, whoever still has them. A byte order mark isn't skipped there. If anything is sent on
the connection itself, it ends by the line `refused`. Direct connections count among --clients and --each, and read
`busy` where no place is free. --idle ends none of them. `routed-tools ask`, `pcep` and `page` and the client for
Python connect directly where the path of --direct is that of --ask with `.direct` behind it.

Where updates come in, the line `snapshot` asks for the database as it is. Behind the lines of earlier rows come
`version V`, with --run `run N`, the rows of `routed snapshot` on the journal, which are batches from 1 on, and
`snapshot end`; or else the one line `snapshot refused: WORDS`. Rows behind it wait for that. The line `run` is answered
by `run NAME`, the name of this run: the number of --run, or else a name that no other run has.

With --show there is a place for those who may look at the network and not change it. The line `snapshot` is answered there as
where updates come in, at the newest version. Nothing else is taken there: any other line is answered by `refused` and the end.

With --except the server takes `except` rows of those who ask, too, as `routed-tools pcep` sends them for requests that
exclude links and routers. With --pairs it takes `pair` rows, too, which ask for two ways that share no circuit or no
router. Without these options such rows are refused by the reason `kind`.

With --placements and --keep the server has a book (`routed serve --book`), and up to 64 programs place at once at the
place of --placements. They and the connection for updates use the book's one stream of rows in turns: a turn is whole
rows of one of them, at most 64 KiB. A connection that places sends place, held, offer, release, show, left and ask rows,
and the lines `run` and `book`; any other line ends it by `refused`. It reads the lines of its rows, and between its turns
the lines over, lost and base of the updates' batches. `book` is answered by `version V`, with --run `run N`, the rows of
`routed book --compact`, and `book end`; or else by `book refused: WORDS`. So is `snapshot` of the connection for updates,
by `base N vV` and the rows of the base, and at the place of --show by `version V` and all rows. A connection for which
more than 1,048,576 bytes of lines wait is ended without a word. The file of --begin has rows of a book then, any number
of them; it can't be a pipe, since each book is made of it and of the file of --keep.

With --begin the batches of a file, as `routed snapshot` makes them, are published before any connection is taken.

The server outlives connections: what one has published is there for the next. N in `row N refused` counts the rows of a
connection that asks; where updates come in it counts those of earlier connections and of this front, too. Changes that a
connection leaves open are dropped.

`ready` is printed once rows are taken, behind `run N` with --run, and standard error has what `routed serve
--explain` says. SIGTERM or SIGINT ends the server and this front. The status is the server's (128 and the signal's
number where one ended it), 2 where a word of the command line is refused, 3 where a socket or the program can't be
had, and after --renew. Where this front is killed the server ends by itself, once programs that are connected
directly have closed their ends. The journal has whole batches then, and after a signal to the server maybe a
beginning of one more.

A unit of systemd may have Type=notify and WatchdogSec=. That of the package is started by
`systemctl enable --now routed-serve` (docs/run/OPERATORS.md).

Example: routed-tools listen --journal day.journal --ask ./ask --updates ./updates
and in other shells: nc -N -U ./updates < examples/abilene.rows, or nc -U ./ask
"""
from __future__ import annotations

import argparse
import os
import signal
import socket
import subprocess

from .. import program
from ..model.journals import Refused, texts
from ..net.endpoints import Endpoint, say, tried
from ..net.http import Page
from ..net.log import Log
from ..net.loop import Loop, Stopped
from ..net.notify import Supervised
from ..net.signals import take_signals
from ..net.stream import Stream
from . import processes
from .accounts import Account
from .booked import BookAccount
from .channels import Channel
from .direct import Directs
from .keeping import Keeping
from .making import Making
from .options import idle_of, mode_of, read
from .relays import Relays
from .renewal import Renewal
from .seats import Seats
from .showing import Showing
from .snapshots import Snapshots
from .updates import Updates
from .watch import Watch

BOUND = "updates", "ask", "watch", "metrics", "direct", "show", "placements"  # places, in the order in which they are taken and told
SOON = 0.005  # seconds from one look at the seats to the next


class Front:
    """The server, and the loop that serves its connections."""

    def __init__(self, options: argparse.Namespace) -> None:
        self.log = Log("listen", options.log_level)
        booked = BookAccount(self.log, options.journal, options.run, options.begin, options.keep) \
            if getattr(options, "placements", None) else None
        self.account = booked or Account(self.log, options.journal, options.run)
        self.loop, self.options, self.is_stopped = Loop(self.account.failed), options, False
        self.listeners: dict[str, socket.socket] = {}
        self.server: subprocess.Popen[bytes] | None = None
        self.status: int | None = None  # of the server, once it has ended
        self.is_renewed = False  # it ends for a run that can be written
        self.seats = Seats(self.loop, options.clients, options.each, self.account)
        (rows, rows_in), (lines_out, lines) = os.pipe(), os.pipe()
        stream = Stream(self.loop, lines_out, rows_in)
        self.book = Keeping(self.loop, stream, booked, options) if booked else None
        self.snapshots: Making = self.book.texts if self.book else Snapshots(self.loop, options.program, self.account)
        self.updates = Updates(self.loop, self.book.updates if self.book else stream, self.account, self.snapshots)
        self.theirs = rows, lines  # the server's ends of the pipes of updates
        self.relays: Relays | None = None
        program.build_info(self.account.figures, options.program)
        processes.add(self.account.figures, self.processes)
        self.supervised = Supervised(self.loop, self.told)
        if options.renew:
            self.account.journal_failed = Renewal(self.loop, [options.journal, *([options.keep] if booked else [])], self.renew).begin
        take_signals(self.loop, (signal.SIGTERM, signal.SIGINT, signal.SIGCHLD), self.signalled)

    def processes(self) -> dict[str, int]:
        return {"front": os.getpid(), **({"program": self.server.pid} if self.server else {})}

    def told(self) -> str:
        """The status line of the unit."""
        if not self.supervised.is_ready:
            what = "reading the book" if self.book else "publishing the batches"
            return f"{what} of {self.options.begin}" if self.options.begin else "starting"
        run = "" if self.options.run is None else f"run {self.options.run}, "
        asking = self.account.open["ask"]
        return f"{run}version {self.account.version}, {asking} asking{f'; {self.account.fault}' if self.account.fault else ''}"

    def renew(self) -> None:
        """Ends the run, since nothing can be published in it any more, and the next one has room."""
        if self.server and not self.is_stopped:
            self.log.say("error", f"{self.account.fault}: there is room again, and this run ends")
            self.is_stopped = self.is_renewed = True
            self.server.terminate()

    def begin(self) -> None:
        """Starts the server, and brings what it begins with. Rows are taken once it has answered one: all files are open then."""
        batches = [] if self.book else beginning(self.options.begin)
        ours = f"/proc/{os.getpid()}/fd"  # inherited, an end of a pipe would stay open in the server whatever it closes: it opens its own
        clients = pipe_of("".join(f"{ours}/{rows}={ours}/{lines}\n" for rows, lines in (seat.place for seat in self.seats.all)))
        words = [self.options.program, "serve", "--explain", "--journal", self.options.journal, "--clients-from", f"{ours}/{clients}",
                 "--reopen", "--figures", self.account.tallies.path, *self.options.questions, *(self.book.words() if self.book else [])]
        with tried(self.options.program, program.hint(self.options.program)):
            self.server = subprocess.Popen(words, stdin=self.theirs[0], stdout=self.theirs[1], preexec_fn=outlive_limits)
        for file in self.theirs:
            os.close(file)
        if self.book:
            self.book.begin(lambda version: self.begun(version, version, clients))
            return
        self.updates.to_server = "".join(batches).encode()
        self.updates.ask(lambda version: self.loop.after(0, lambda: self.begun(version, len(batches), clients)))
        self.updates.settle()

    def begun(self, version: int, wanted: int, clients: int) -> None:
        """The server has answered a row, so it has read the names of its clients' files."""
        os.close(clients)
        if version != wanted:
            raise Stopped(f"{self.options.begin}: batch {version + 1} wasn't published")
        self.account.version = version
        self.await_seats()

    def await_seats(self) -> None:
        """Rows are taken once all sessions have begun."""
        if self.seats.are_free:
            self.ready()
        else:
            self.loop.after(SOON, self.await_seats)

    def ready(self) -> None:
        told = []
        for kind, listener in self.listeners.items():
            self.serve(kind, listener)
            place: Endpoint = getattr(self.options, kind)
            if place.port == 0:
                host, port = listener.getsockname()[:2]
                told.append(f"{kind} {f'[{host}]' if ':' in host else host}:{port}")
        say(*told, *([] if self.options.run is None else [f"run {self.options.run}"]), "ready")
        self.supervised.ready()

    def serve(self, kind: str, listener: socket.socket) -> None:
        """Takes the connections of a place."""
        if kind == "metrics":
            Page(self.loop, listener, self.account.figures.text, lambda change: self.account.change("metrics", change),
                 self.account.read_on)
        elif kind == "watch":
            Watch(self.loop, listener, self.account)
        elif kind == "show":
            Showing(self.loop, listener, self.account, self.snapshots)
        elif kind == "updates":
            self.updates.listen(self.loop, listener)
        elif kind == "placements":
            if self.book:
                self.book.placing.listen(listener)
        elif kind == "direct":
            Directs(self.loop, listener, self.seats, self.account)
        else:
            self.relays = Relays(self.loop, listener, self.seats, self.account, idle_of(self.options))

    def signalled(self, numbers: bytes) -> None:
        if not self.server:
            return
        for number in (signal.SIGTERM, signal.SIGINT):
            if number in numbers:
                self.log.say("info", f"stopped by {number.name}")
                self.server.terminate()
                self.is_stopped = True
        (self.book.texts.guarded if self.book else self.updates.loop).call(self.snapshots.look)
        self.status = self.server.poll()

    def run(self) -> int:
        """The status of the server, once it has ended, and its last lines have been passed on."""
        self.begin()
        while (status := self.status) is None:
            self.loop.turn()
        if self.book:
            self.book.read_rest()
        channels: list[Channel] = [self.updates, *(self.relays.all if self.relays else ())]
        for channel in channels:
            if channel.connection:
                channel.loop.call(channel.read_rest)
        if status and not self.is_stopped and (not self.book or self.book.is_begun):
            what = f"ended with status {status}" if status > 0 else f"was ended by signal {-status}"
            self.log.say("error", f"{self.options.program} {what}")
        return 3 if self.is_renewed else status if status >= 0 else 128 - status


def outlive_limits() -> None:
    """A file that may not grow further, as that of figures, doesn't end the program by a signal. Its write fails."""
    signal.signal(signal.SIGXFSZ, signal.SIG_IGN)


def pipe_of(text: str) -> int:
    """The reading end of a pipe that has this text and its end. The text of 64 clients is shorter than the least pipe, 4096 bytes."""
    reading, writing = os.pipe()
    with open(writing, "wb") as file:
        file.write(text.encode())
    return reading


def beginning(path: str | None) -> list[str]:
    """The batches of a file that a run begins with; none where there is no file."""
    if path is None:
        return []
    with tried(f"{path}: read"):
        with open(path, "rb") as file:
            data = file.read()
    try:
        return texts(data)
    except Refused as fault:
        raise Stopped(f"{path}: {fault}") from None


def main(given: list[str] | None = None) -> int:
    """Takes the words of a command line, and answers the status."""
    options = read(__doc__, given)
    front = Front(options)
    try:
        for kind in BOUND:
            if place := getattr(options, kind):
                front.listeners[kind] = place.bind(mode_of(options, kind))
        return front.run()
    except (Stopped, OSError, MemoryError) as fault:
        front.log.say("error", str(fault) or "out of memory")
        return 3
    finally:
        front.snapshots.stop()
        for kind in front.listeners:
            getattr(options, kind).leave()
