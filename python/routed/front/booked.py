"""What the lines of a server with a book say, for the figures of routed-tools listen: versions, placements, and what isn't settled."""
from __future__ import annotations

import os
import re

from ..net.log import Log
from .accounts import CUT_OFF, PLACES, Account, Journal, Use

LAST_OF_PLACINGS = 900_000  # the version of a book from which on it accepts base batches alone
TAIL = 1 << 20  # bytes of the end of a file of kept rows, in which its last two accepted rows end: a batch is shorter
ACCEPTED = re.compile(rb"(?m)^(?:end|place|held|release),.*\n")
HELD = re.compile(rb"(?:^|[\r\n])held,([0-9]{1,20})(?:,[^,\r\n]*){8},((?:[0-9a-fA-F]{16})+)(?=[\r\n])")
FAULTS = (b"keep", b"journal", b"stopped")
NO_LINK = b"refused:"  # stands in the line of a `left` row in place of the version


def held_rows(data: bytes) -> list[tuple[int, int]]:
    """The id of each held row of some rows, and the number of links of its route."""
    return [(int(held[1]), len(held[2]) // 16) for held in HELD.finditer(data)]


class Placements:
    """The number of links of each placement's route. Those of the beginning come late, when some of them may be gone already."""

    def __init__(self) -> None:
        self.links: dict[int, int] = {}
        self.sum = 0  # of these numbers
        self.gone: set[int] | None = set()  # those that were released before the beginning was known; None once it is

    def add(self, number: int, links: int) -> None:
        self.sum += links - self.links.get(number, 0)
        self.links[number] = links

    def remove(self, number: int) -> None:
        self.sum -= self.links.pop(number, 0)
        if self.gone is not None:
            self.gone.add(number)

    def begin(self, data: bytes) -> None:
        """These are the held rows of the beginning."""
        gone, self.gone = self.gone or set(), None
        for number, links in held_rows(data):
            if number not in gone and number not in self.links:
                self.add(number, links)

    def known(self, value: int) -> int | None:
        """A figure of them, once the beginning is known."""
        return value if self.gone is None else None


class BookAccount(Account):
    """Counts what the connections of a server with a book bring and read, and what the lines say of the book."""

    def __init__(self, log: Log, journal: str, number: int | None, begin: str | None, keep: str) -> None:
        super().__init__(log, journal, number, (*PLACES, "placements"))
        self.keep, self.begun = Journal(keep), Journal(begin or os.devnull, ACCEPTED)
        self.first = self.base = 0  # the version after the beginning, and the number of the last batch of the base
        self.placements = Placements()
        self.lost: set[int] = set()
        self.over: dict[bytes, set[int]] = {}  # the priorities at which more is counted on a link than it has
        self.cut: int | None = None  # bytes of the file of kept rows that are the book's, where it has more
        self.nobody = Use(self, "placements", "", self.counts)
        figures = self.figures
        figures.gauge("routed_placements", "Placements of the book; absent until those of its beginning are known.",
                      lambda: self.placements.known(len(self.placements.links)))
        figures.gauge("routed_placement_links", "Links of the routes of all placements.",
                      lambda: self.placements.known(self.placements.sum))
        figures.gauge("routed_lost_placements", "Placements whose route a batch took away, and that weren't placed or released since.",
                      lambda: len(self.lost))
        figures.gauge("routed_over_bandwidths", "Links and priorities at which more is counted than the base has, of those that were told.",
                      lambda: sum(map(len, self.over.values())))
        figures.total("routed_kept_rows_total", "Rows in the file of accepted rows.", lambda: self.keep.rows)
        figures.gauge("routed_keep_bytes", "Bytes of the file of accepted rows.", self.keep.size)
        figures.gauge("routed_placings_left", "How many versions placings may still use; base batches may use more.",
                      lambda: max(LAST_OF_PLACINGS - self.begun.ends - (self.version - self.first), 0))
        figures.counter("routed_refused_placings_total", "Refused rows about placements, by the first word of the reason.", "word")
        figures.counter("routed_cut_off_total", "Connections that were ended: for a line that isn't passed on, as idle, or since they "
                        "don't read.", "reason", CUT_OFF)

    def take_beginning(self, status: int, rows: bytes) -> None:
        """These are the rows of the book with which the run begins."""
        if status:
            self.log.say("warning", f"the placements of the beginning can't be counted: {rows.decode(errors='backslashreplace')}")
        else:
            self.placements.begin(rows)

    def read_on(self) -> bool:
        return all([file.read_on() for file in (self.journal, self.keep, self.begun)])

    def rows(self, use: Use, data: bytes) -> int:
        if use.place == "placements" and b"held," in data:
            use.routes.extend(held_rows(data))
        return super().rows(use, data)

    def unheard(self, said: bytes) -> None:
        """These lines are of a connection that has gone."""
        self.lines(self.nobody, said)

    def lines(self, use: Use, said: bytes) -> None:
        if use.place == "ask":
            super().lines(use, said)
            return
        version, lines = self.version, said.split(b"\n")
        lines.pop()
        use.lines += len(lines)
        for line in lines:
            words = line.split(b" ", 6)
            kind = words[0]
            if words[2:3] == [NO_LINK]:
                self.refused(use, kind, words[3], line)
            elif kind == b"place":
                if words[3] == b"route":
                    self.placements.add(int(words[1]), int(words[5][5:]))  # hops=N
                    version = self.settled(words)
            elif kind == b"released":
                self.placements.remove(int(words[1]))
                version = self.settled(words)
            elif kind == b"held":
                self.placements.add(int(words[1]), self.links_of(use, int(words[1])))
                version = self.settled(words)
            elif kind == b"ask":
                use.counts[words[3].decode()] += 1
            elif kind == b"base":
                version = int(words[2][1:])
            elif kind == b"lost":
                self.lost.add(int(words[1]))
            elif kind == b"over":
                self.add_over(words)
        if version != self.version:
            self.published(version)

    def add_over(self, words: list[bytes]) -> None:
        self.over.setdefault(words[1], set()).add(int(words[2]))

    def settled(self, words: list[bytes]) -> int:
        """The placement of a line isn't lost any more. The version of the line."""
        self.lost.discard(int(words[1]))
        return int(words[2][1:])

    def links_of(self, use: Use, number: int) -> int:
        """The number of links of the held row to which a line has come."""
        while use.routes:
            found, links = use.routes.popleft()
            if found == number:
                return links
        return 0

    def refused(self, use: Use, kind: bytes, word: bytes, line: bytes) -> None:
        """A row was refused."""
        name = {b"row": "rows", b"batch": "batches"}.get(kind, "placings")
        self.figures.add(f"routed_refused_{name}_total", 1, word.decode(errors="backslashreplace"))
        if kind == b"held":
            self.links_of(use, int(line.split(b" ")[1]))
        use.counts["refused"] += kind == b"row"
        text = line.decode(errors="backslashreplace")
        if word in FAULTS:
            self.failed_at(word, text)
        if use.number:
            self.log.say("warning" if kind == b"batch" or word in FAULTS else "info", f"{use.place} {use.number}: {text}")

    def failed_at(self, word: bytes, line: str) -> None:
        """Nothing is published any more, for a row that was refused by this word."""
        if not self.fault:
            self.fault, self.cut = line, self.end_of_book(word == b"journal")
            self.journal_failed()

    def kept_bytes(self) -> int:
        """How many bytes of the file of kept rows the book has now, where no row is at the server."""
        return os.stat(self.keep.path).st_size if self.cut is None else self.cut

    def end_of_book(self, has_row: bool) -> int:
        """Up to where the file of kept rows has those of the book. It may end with a row, or a part of one, that the book doesn't have."""
        size = self.keep.size()
        try:
            with open(self.keep.path, "rb") as file:
                begin = max(file.seek(0, os.SEEK_END) - TAIL, 0)
                file.seek(begin)
                ends = [begin + found.end() for found in ACCEPTED.finditer(file.read())]
        except OSError:
            return size
        return ([0, 0] + ends)[-2 if has_row else -1]

    def left(self, said: bytes) -> None:
        """Takes the lines of `left` rows: what isn't over any more is settled."""
        for line in said.splitlines():
            words = line.split(b" ")
            priorities = self.over.get(words[1], set())
            if words[0] == b"row":  # memory was refused at it
                continue
            if words[2] == NO_LINK:
                priorities.clear()
            else:
                base, counted = (words[at].partition(b"=")[2].split(b",") for at in (3, 4))
                priorities -= {at for at in range(8) if int(counted[at]) <= int(base[at])}
            if not priorities:
                self.over.pop(words[1], None)
