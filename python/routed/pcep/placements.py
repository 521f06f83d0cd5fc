"""What the server's book counts: the connection to the place of `routed-tools listen --placements`, and the placements by its lines."""
from __future__ import annotations

import collections
import re
from collections.abc import Callable
from typing import Optional

from ..follow.slices import Slices
from ..model.books import PRIORITIES
from ..model.rows import Key, Link, Reply
from ..net.endpoints import CONNECT, Endpoint
from ..net.loop import READ, WRITE, Loop, Owner
from ..net.stream import Stream
from .network import Network
from .placement import Hearer, Placement, hexadecimal, is_for_memory
from .routes import links_of

AGAIN = 1  # seconds from one try to connect to the next
SILENT = 60  # seconds that a row or the text of the book may take: then it is connected again
LONGEST = 1 << 20  # bytes of a line that has no end yet
NEWS = re.compile(r"(over|lost|base) ([0-9.]+)(?:,([0-9.]+))?(?: v?([0-9]+))?")
Call = Callable[[Optional[str]], object]  # gets the line of a row; None where none comes


class Placements:
    """The rows of all who count here, and what the book has by their lines. At most one row of an id is under way."""

    def __init__(self, loop: Loop, place: Endpoint, network: Network, hearer: Hearer) -> None:
        self.loop, self.place, self.network, self.hearer = loop, place, network, hearer
        self.slices = Slices(loop, self.give)
        self.booked: dict[int, Placement] = {}
        self.on_link: dict[Key, dict[int, None]] = {}
        self.busy: set[int] = set()  # the ids of which a row is under way
        self.after: dict[int, dict[str, Callable[[], object]]] = {}  # what waits for that
        self.stream: Stream | None = None
        self.rows: collections.deque[tuple[str, Call]] = collections.deque()  # those that have no line yet
        self.lost: list[int] = []  # of the batch whose lines come now
        self.is_known, self.is_read, self.is_said = False, False, False
        self.heard_at = 0.0
        self.forget()

    def forget(self) -> None:
        self.booked, self.on_link, self.lost = {}, {}, []
        self.links: dict[Key, Link] = {}  # of the base, while the book is read
        self.version: int | None = None  # of the book that is read
        self.unproved: tuple[int, dict[Key, Link]] | None = None  # its version and the links of its base, until the journal has these
        self.base = 0  # the version of the newest base

    # ---- the connection

    def connect(self) -> None:
        """Connects, and tries again until the place is there."""
        try:
            self.stream = self.place.begin(self.loop)
        except OSError as fault:
            self.away(fault.strerror or str(fault))
            return
        self.is_read, self.heard_at = False, self.hearer.clock()
        self.stream.give(self, self.go_on)
        self.stream.wait(True)
        if not self.stream.is_made:
            self.stream.loop.after(CONNECT, self.give_up)
        else:
            self.begin()

    def named(self) -> str:
        return "the connection for placements"

    def fail(self) -> None:
        self.end("an exception has ended it")

    def give_up(self) -> None:
        if self.stream and not self.stream.is_made:
            self.end("it isn't accepted")

    def begin(self) -> None:
        """It is connected: the book is read before anything else."""
        assert self.stream
        self.is_read = True
        self.stream.write(b"book\n")
        self.stream.wait(True)

    def go_on(self, events: int) -> None:
        stream = self.stream
        assert stream
        if events & WRITE:
            stream.flush()
        if stream.is_made and not self.is_read:
            self.begin()
        if events & READ:
            for line in stream.lines():
                if self.stream is not stream:
                    return
                self.hear(line.decode(errors="replace"))
            if len(stream.unread) > LONGEST and self.stream is stream:
                self.end("its line is too long")
        if self.stream is stream and (stream.is_ended or stream.fault):
            self.end("the server has ended it")
        elif self.stream is stream:
            stream.wait(True)

    def end(self, why: str) -> None:
        """The connection has ended. Rows without a line may be in the book or not: it is read again."""
        if self.stream:
            self.stream.close()
        self.stream, self.is_known = None, False
        self.away(why)
        rows, self.rows = self.rows, collections.deque()
        self.forget()
        for _, call in rows:
            call(None)

    def away(self, why: str) -> None:
        if not self.is_said:
            self.is_said = True
            self.hearer.say("error", f"the place of --placements: {why}: until it is there again no LSP by segment routing is counted, "
                            "moved or made, and requests for such paths are unavailable")
        self.loop.after(AGAIN, self.connect)

    def tick(self, now: float) -> None:
        """Each second: nothing is waited for without an end."""
        if self.unproved and (self.network.is_proved or self.network.compare(*self.unproved)):
            self.unproved = None
            self.hearer.network_is_proved()
        if self.stream and (self.rows or not self.is_known) and now - self.heard_at > SILENT:
            self.end(f"nothing came for {SILENT} s")

    def read_again(self) -> None:
        """The book isn't what was taken for it."""
        if self.stream:
            self.end("the book has other placements than its lines said")

    # ---- lines

    def hear(self, line: str) -> None:
        self.heard_at = self.hearer.clock()
        news = NEWS.fullmatch(line)
        if line == "busy":
            self.end("it has no room for one more connection")
        elif not self.is_known:
            if not news or self.version is not None:
                self.read(line)
        elif news:
            self.news(*news.groups())
        elif self.rows:
            row, call = self.rows.popleft()
            self.take(row, line)
            if is_for_memory(line):
                self.hearer.lacks_memory(line)
            call(line)
        else:
            self.end(f"it says {line[:100]!r}")

    def read(self, line: str) -> None:
        """A line of the text of the book. News that comes before the text is in it."""
        kind, _, rest = line.partition(",")
        if kind == "put":
            link = Link.parse(line.split(","))
            self.links[link.key] = link
        elif kind == "held":
            number, _, rest = rest.partition(",")
            constraints, _, route = rest.rpartition(",")
            self.put(int(number), Placement.of(constraints, route))
        elif kind in ("node", "end") or line.startswith("run "):
            return
        elif line.startswith("version "):
            self.version = int(line.partition(" ")[2])
        elif line == "book end" and self.version is not None:
            self.known(self.version)
        else:
            self.end(f"it says {line[:100]!r} in the place of the book")

    def known(self, version: int) -> None:
        """The whole book was read."""
        links, self.links = self.links, {}
        self.unproved = None if self.network.compare(version, links) else (version, links)
        self.is_known, self.is_said, self.base = True, False, version
        self.hearer.say("info", f"the book has {len(self.booked)} placements at version {version}")
        crowded = [key for key, ids in self.on_link.items() if key in links and self.is_over(links[key], ids)]
        self.hearer.book_is_known()
        for key in crowded:
            self.hearer.exceeded(key)

    def is_over(self, link: Link, ids: dict[int, None]) -> bool:
        """Whether these placements count more on a link than it has."""
        sums = [0] * PRIORITIES
        for placement in map(self.booked.__getitem__, ids):
            sums[placement.hold] += placement.bandwidth
        return any(sum(sums[:at + 1]) > link.unreserved[at] for at in range(PRIORITIES))

    def news(self, kind: str, first: str, local: str | None, last: str | None) -> None:
        if kind == "over" and local:
            self.hearer.exceeded((first, local))
        elif kind == "lost":
            self.lost.append(int(first))
        elif kind == "base":
            lost, self.lost = self.lost, []
            self.base = int(last or 0)
            self.hearer.lost_placements(lost)

    # ---- what the book has

    def take(self, row: str, line: str) -> None:
        """The line of a row: what the book has now."""
        kind, _, rest = row.partition(",")
        name, _, rest = rest.partition(",")
        if kind == "place" and (reply := Reply.parse(line)) and not reply.why:
            self.network.reach(reply.version)
            head = rest.partition(",")[0]
            links = links_of(self.network, head, reply.fars)
            self.put(int(name), Placement.of(rest, hexadecimal(links) if links else ""), line)
            self.hearer.settled(int(name), True)
        elif kind == "held" and line.startswith(f"held {name} v"):
            constraints, _, route = rest.rpartition(",")
            self.put(int(name), Placement.of(constraints, route), line)
            self.hearer.settled(int(name), False)
        elif kind == "release" and line in (f"release {name} refused: absent",) or line.startswith(f"released {name} v"):
            self.drop(int(name))
            self.hearer.say("info", f"the book: {line}")
            self.hearer.settled(int(name), True)

    def put(self, number: int, placement: Placement, line: str = "") -> None:
        self.drop(number)
        self.booked[number] = placement
        for key in placement.keys():
            self.on_link.setdefault(key, {})[number] = None
        if line:
            kind, _, version = line.split(" ")[:3]
            links = " ".join(",".join(key) for key in placement.keys())
            self.hearer.say("info", f"the book: {kind} {number} {version} bandwidth={placement.bandwidth} hold={placement.hold} {links}")

    def drop(self, number: int) -> None:
        if placement := self.booked.pop(number, None):
            for key in placement.keys():
                ids = self.on_link[key]
                ids.pop(number, None)
                if not ids:
                    del self.on_link[key]

    # ---- rows

    def ask(self, row: str, call: Call) -> None:
        """Sends a row that is about no id."""
        if not self.is_known or self.stream is None:
            call(None)
            return
        self.rows.append((row, call))
        self.stream.write(f"{row}\n".encode())
        self.stream.wait(True)

    def give(self, rows: str, call: Call, owner: Owner | None) -> None:
        """Sends the row of an id of which none is under way, or such rows, one in each line, between which no other row comes: the line of
        the last one is given, or the line of a former one for which the server had no memory. An exception in `call` ends the owner."""
        *first, last = rows.split("\n")
        number = int(last.split(",", 2)[1])
        self.busy.add(number)
        lacking: list[str] = []

        def passed(line: str | None) -> None:
            if line is not None and is_for_memory(line):
                lacking.append(line)

        def answered(line: str | None) -> None:
            self.busy.discard(number)
            self.loop.call(owner, call, lacking[0] if lacking and line is not None else line)
            self.free(number)

        if not self.is_known or self.stream is None:
            answered(None)
            return
        self.rows.extend([*((row, passed) for row in first), (last, answered)])
        self.stream.write(f"{rows}\n".encode())
        self.stream.wait(True)

    def turn(self, number: int, word: str, call: Callable[[], object]) -> None:
        """Calls this once no row of the id is under way. What waits under the same word is replaced."""
        if number in self.busy:
            self.after.setdefault(number, {})[word] = call
        else:
            call()

    def free(self, number: int) -> None:
        """What waits for the id has its turn."""
        while number not in self.busy and (waiting := self.after.get(number)):
            call = waiting.pop(next(iter(waiting)))
            if not waiting:
                del self.after[number]
            call()
