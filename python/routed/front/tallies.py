"""What `routed serve --figures` counts: a line for each seat, written again at each published batch and at each end of a session.

What the relay has passed on is counted here at once. So of each seat the greater number is told."""
from __future__ import annotations

import collections
import os

from .metrics import Figures

OUTCOMES = "route", "none", "unknown-from", "unknown-to"
TRIES = 100  # reads of a file that is just being written
Tally = dict[str, int]  # of a seat, by the words of its line
Counts = collections.Counter[str]  # the same of lines that were passed on


class Tallies:
    """The file, which is in memory, and what was read of it last."""

    def __init__(self) -> None:
        self.file = os.memfd_create("figures")
        self.path = f"/proc/{os.getpid()}/fd/{self.file}"
        self.seats: list[Tally] = []
        self.relayed: collections.defaultdict[int, Counts] = collections.defaultdict(Counts)  # by the number of the seat

    def read(self) -> list[Tally]:
        """The seats. A file whose first and last line have another number was written meanwhile, and is read again."""
        for _ in range(TRIES):
            first, *lines = os.pread(self.file, os.fstat(self.file).st_size, 0).split(b"\n") or [b""]
            if len(lines) > 1 and first.split()[1] == lines[-2].split()[-1]:
                self.seats = [{word.decode(): int(number) for word, number in zip(words[::2], words[1::2])}
                              for words in map(bytes.split, lines[:-2])]
                break
        return self.seats

    def sum(self, word: str) -> int:
        seats = {seat["seat"]: seat[word] for seat in self.read()}
        return sum(max(seats.get(seat, 0), self.relayed[seat][word]) for seat in seats.keys() | self.relayed.keys())

    def asks(self, others: Counts) -> dict[str, int]:
        """Requests that were answered, by their outcome: of clients, and others."""
        return {outcome: self.sum(outcome) + others[outcome] for outcome in OUTCOMES}

    def add(self, figures: Figures) -> None:
        """Adds the figures of clients."""
        figures.total("routed_sessions_total", "Sessions of clients that have ended.", lambda: self.sum("sessions"))
        figures.total("routed_rows_total", "Rows of clients.", lambda: self.sum("rows"))
        figures.total("routed_client_refused_rows_total", "Rows of clients that were refused.", lambda: self.sum("refused"))
        figures.gauge("routed_seat_version", "The version of the last reply of each seat that has had one.",
                      lambda: {str(seat["seat"]): seat["version"] for seat in self.read() if any(map(seat.get, OUTCOMES))}, "seat")
