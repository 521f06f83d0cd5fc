"""What the connections of routed-tools listen bring and read: their figures, and the lines of the log."""
from __future__ import annotations

import array
import collections
import os
import re
import secrets
import time
from bisect import bisect_left
from collections.abc import Callable, Sequence
from time import monotonic

from ..net.log import Log
from .metrics import TIMES, Figures
from .tallies import Counts, Tallies

VERSIONS = JOURNAL_ROWS = 1_000_000  # the most that a run publishes, and that the commands read of a journal
AT_ONCE = 1 << 18  # bytes of the journal that are read at once
MOST_ROUTES = 4096  # held rows of a connection that are passed on and have no line; a malformed one may be among them for long
ROW = re.compile(rb"[^\r\n]+")  # a carriage return ends one, too
END = re.compile(rb"(?m)^end,.*\n")
OUTCOMES = [(b" route cost=", "route"), (b" none\n", "none"), (b" unknown-from\n", "unknown-from"), (b" unknown-to\n", "unknown-to")]
OTHER = re.compile(rb"(?m)^(?:(version) (\d+)|((row|batch) \d+ refused: ([^ \n]+)[^\n]*))$")
CUT_OFF = {"line": "refused, for a line that isn't passed on", "idle": "idle for too long", "unread": "it doesn't read its lines"}
PLACES = ("ask", "direct", "updates", "watch", "show", "metrics")


class Account:
    """Counts what the connections bring and read."""

    def __init__(self, log: Log, journal: str, number: int | None = None, places: Sequence[str] = PLACES) -> None:
        self.log, self.journal, self.version, self.number = log, Journal(journal), 0, number
        self.tallies, self.counts = Tallies(), Counts()  # of clients, and of the updates
        self.run = str(number) if number else secrets.token_hex(8)  # the name of this run of the server
        self.journal_failed: Callable[[], object] = lambda: None
        self.fault = ""  # why nothing is published any more
        self.published_at: float | None = None
        self.open: collections.Counter[str] = collections.Counter()
        self.numbers: collections.Counter[str] = collections.Counter()
        self.told: list[Callable[[], object]] = []
        self.figures = figures = Figures()
        begun = time.time()
        figures.gauge("routed_start_time_seconds", "When the server began, in seconds since 1970.", lambda: begun)
        if number is not None:
            figures.gauge("routed_run", "The number of the run, which its journal has.", lambda: number)
        figures.gauge("routed_version", "The newest version.", lambda: self.version)
        figures.gauge("routed_versions_left", "How many versions the run may still publish.", lambda: VERSIONS - self.version)
        figures.age("routed_last_batch_age_seconds", "Seconds since a batch was published; absent where none was.",
                    lambda: self.published_at)
        figures.total("routed_changes_total", "Changes in the batches of the journal.", lambda: self.journal.rows - self.journal.ends)
        figures.gauge("routed_journal_bytes", "Bytes of the journal.", self.journal.size)
        figures.gauge("routed_journal_rows_left", "How many rows the journal may still have, so that the commands read it.",
                      lambda: JOURNAL_ROWS - self.journal.rows)
        figures.total("routed_asks_total", "Requests that were answered, by their outcome.",
                      lambda: self.tallies.asks(self.counts), "outcome")
        self.tallies.add(figures)
        figures.times("routed_ask_seconds", "Seconds from a row of an asking connection to its line, where both are passed on.")
        self.times = figures.values["routed_ask_seconds"]  # each ask counts there
        figures.counter("routed_refused_rows_total", "Refused rows whose lines are passed on, by the first word of the reason.", "word")
        figures.counter("routed_refused_batches_total", "Batches that were refused, by the first word of the reason.", "word")
        figures.gauge("routed_connections", "Connections that are open, by their place.",
                      lambda: {it: self.open[it] for it in places}, "place")
        figures.counter("routed_connections_total", "Connections that were taken, by their place.", "place", places)
        figures.counter("routed_busy_total", "Connections that were told busy, by their place.", "place", places)
        figures.counter("routed_cut_off_total", "Connections that were ended: for a line that isn't passed on, or as idle.", "reason",
                        ("line", "idle"))
        figures.counter("routed_exceptions_total", "Connections that were ended by an exception in the code of this tool.")
        figures.total("routed_log_dropped_total", "Lines of the log that were dropped.", lambda: log.dropped)

    def read_on(self) -> bool:
        """Reads more of the files that figures are of. Whether all of them are read."""
        return self.journal.read_on()

    def published(self, version: int) -> None:
        """This version is the newest one."""
        self.version, self.published_at = version, time.monotonic()
        for tell in self.told:
            tell()

    def failed(self, line: str) -> None:
        """An exception has ended a connection."""
        self.figures.add("routed_exceptions_total")
        self.log.say("error", line)

    # ---- connections

    def change(self, place: str, change: int) -> None:
        """A connection comes, or goes."""
        self.open[place] += change
        if change > 0:
            self.figures.add("routed_connections_total", 1, place)

    def begin(self, place: str, named: str) -> int:
        """A connection is taken; its number at the place."""
        self.change(place, 1)
        self.numbers[place] += 1
        self.log.say("info", f"{place} {self.numbers[place]}: connected, {named}")
        return self.numbers[place]

    def end(self, place: str, number: int, what: str) -> None:
        self.change(place, -1)
        self.log.say("info", f"{place} {number}: ended, {what}")

    def busy(self, place: str, named: str) -> None:
        self.figures.add("routed_busy_total", 1, place)
        self.log.say("info", f"{place}: busy, {named}")

    def cut_off(self, place: str, number: int, reason: str) -> None:
        self.figures.add("routed_cut_off_total", 1, reason)
        self.log.say("info", f"{place} {number}: {CUT_OFF[reason]}")

    # ---- rows and lines

    def rows(self, use: Use, data: bytes) -> int:
        """These bytes, whole lines, are for the server. How many rows they are."""
        is_plain = b"\r" not in data and b"\n\n" not in data and data[0] != 10
        count = data.count(b"\n") if is_plain else len(ROW.findall(data))  # a blank row has no line
        use.rows += count
        if use.place == "ask":
            use.sent.append((monotonic(), count))
        return count

    def lines(self, use: Use, said: bytes) -> None:
        """These lines of the server are a connection's."""
        count = said.count(b"\n")
        if not count:
            return
        use.lines += count
        if use.place == "ask":
            self.take_times(use.sent, count)
            use.counts["rows"] += count
        for part, outcome in OUTCOMES:
            if found := said.count(part):
                use.counts[outcome] += found
                count -= found
                if not count:
                    return
        if count:
            self.others(use, said)

    def take_times(self, sent: collections.deque[tuple[float, int]], count: int) -> None:
        """This many of the rows that were passed on first have their lines now."""
        now, buckets = monotonic(), self.times
        while count and sent:
            at, rows = sent[0]
            answered = rows if rows <= count else count
            buckets[0][bisect_left(TIMES, now - at)] += answered
            buckets[1] += (now - at) * answered
            count -= answered
            if answered == rows:
                sent.popleft()
            else:
                sent[0] = at, rows - answered

    def others(self, use: Use, said: bytes) -> None:
        version = None
        for is_version, number, line, kind, word in OTHER.findall(said):
            if is_version:
                version = int(number)
                self.log.say("debug", f"version {version}")
            else:
                batch = kind == b"batch"
                self.figures.add(f"routed_refused_{'batches' if batch else 'rows'}_total", 1, word.decode(errors="backslashreplace"))
                use.counts["refused"] += not batch
                if batch and word in (b"journal", b"stopped"):
                    self.fault = self.fault or line.decode(errors="backslashreplace")
                    self.journal_failed()
                if use.number:  # else it is of what the run begins with, and ends it
                    self.log.say("warning" if batch else "info", f"{use.place} {use.number}: {line.decode(errors='backslashreplace')}")
        if version is not None:
            self.published(version)


class Use:
    """A stream's use by one connection: what was passed on, and when the rows were that have no lines yet. Its lines are counted in
    `counts`, too, which other connections may share. `routes` has the held rows whose lines haven't come, and the links of each."""

    def __init__(self, account: Account, place: str, named: str, counts: Counts) -> None:
        self.account, self.place, self.counts, self.begun = account, place, counts, time.monotonic()
        self.rows, self.lines = 0, 0
        self.sent: collections.deque[tuple[float, int]] = collections.deque()
        self.routes: collections.deque[tuple[int, int]] = collections.deque(maxlen=MOST_ROUTES)
        self.number = account.begin(place, named) if named else 0

    def end(self) -> None:
        self.account.end(self.place, self.number, f"{self.rows} rows, {self.lines} lines, {time.monotonic() - self.begun:.1f} s")


class Journal:
    """What the journal has so far, or another file of rows. Each part of it is read once, as it grows. `end` matches the rows that end
    something."""

    def __init__(self, path: str, end: re.Pattern[bytes] = END) -> None:
        self.path, self.end, self.read, self.rows = path, end, 0, 0
        self.offsets = array.array("Q")  # bytes up to the end of each batch

    @property
    def ends(self) -> int:
        """How many batches have ended."""
        return len(self.offsets)

    def read_on(self) -> bool:
        """Counts the rows of the next part, and whether they are changes. Whether it is read to its end."""
        try:
            with open(self.path, "rb") as file:
                file.seek(self.read)
                data = file.read(AT_ONCE)
        except OSError:  # it isn't there yet
            return True
        is_all = len(data) < AT_ONCE
        data = data[:data.rfind(b"\n") + 1]
        self.rows += data.count(b"\n")
        self.offsets.extend(self.read + end.end() for end in self.end.finditer(data))
        self.read += len(data)
        return is_all

    def size(self) -> int:
        try:
            return os.stat(self.path).st_size
        except OSError:
            return 0
