"""Requests and reply lines in files, as `routed audit` reads them: pairs N.requests and N.replies, of one run of the server each. If the
run has a number, they are RUN.N.requests and RUN.N.replies, and RUN.journal is the journal of that run in the folder of deploy/keep.
`except` rows are in pairs of their own, N.except_requests and N.except_replies, and so are `pair` rows, N.pair_requests and
N.pair_replies: an audit reads them by other options."""
from __future__ import annotations

import os
import re
import time
from collections.abc import Callable

from ..net.endpoints import tried

NAME = re.compile(r"(?:[0-9]+\.)?([0-9]+)\.\w+")
MOST = 900_000  # rows of a pair; `routed audit` reads 1,000,000
QUIET = 60  # seconds from one line about lost replies to the next


class Replies:
    """Both files of a pair get a line at once, so neither has one that the other lacks. If the disk doesn't take both lines whole, they
    are cut back, and lost: nothing else waits for the disk."""

    def __init__(self, folder: str, say: Callable[[str, str], object] = lambda level, text: None, word: str = "ask") -> None:
        self.folder, self.say, self.count, self.number, self.lost = folder, say, 0, 0, 0
        self.kinds = [f"{f'{word}_' * (word != 'ask')}{kind}" for kind in ("requests", "replies")]  # behind the dot of each name
        self.run = ""  # the front of each name
        self.files: list[int] = []
        self.sizes = [0, 0]
        self.told_at: float | None = None
        with tried(f"{folder}: open"):
            os.makedirs(folder, exist_ok=True)
            self.number = max([int(found[1]) for name in os.listdir(folder) if (found := NAME.fullmatch(name))], default=0)

    def keep(self, row: str, line: str) -> None:
        try:
            if not self.files:
                self.begin()
            self.write([f"{text}\n".encode() for text in (row, line)])
        except OSError as fault:
            self.lose(fault.strerror or str(fault))
            return
        self.count += 1
        if self.count >= MOST:
            self.roll()

    def of_run(self, number: int | None) -> None:
        """Replies from now on are of the run of this number, or of one without a number."""
        self.roll()
        self.run = "" if number is None else f"{number:06}."

    def begin(self) -> None:
        """Opens a new pair."""
        self.number += 1
        self.sizes = [0, 0]
        for kind in self.kinds:
            path = os.path.join(self.folder, f"{self.run}{self.number}.{kind}")
            try:
                self.files.append(os.open(path, os.O_WRONLY | os.O_CREAT | os.O_EXCL | os.O_CLOEXEC, 0o666))
            except OSError:
                self.roll()
                raise

    def write(self, texts: list[bytes]) -> None:
        """Writes a line to each file. Each is cut back where that fails, and a pair that can't be cut back gets no further line."""
        try:
            for file, text in zip(self.files, texts):
                if os.write(file, text) < len(text):
                    raise OSError(0, "only a part of a line was written")
        except OSError:
            try:
                for file, size in zip(self.files, self.sizes):
                    os.ftruncate(file, size)
                    os.lseek(file, size, os.SEEK_SET)
            except OSError:
                self.roll()
            raise
        self.sizes = [size + len(text) for size, text in zip(self.sizes, texts)]

    def lose(self, why: str) -> None:
        """A reply isn't kept. A line says so, once a minute."""
        self.lost += 1
        if self.told_at is None or time.monotonic() - self.told_at >= QUIET:
            self.told_at = time.monotonic()
            self.say("error", f"{self.folder}: write: {why}; {self.lost} replies were lost, and PCCs are served on")

    def roll(self) -> None:
        """The next line begins a new pair."""
        for file in self.files:
            os.close(file)
        self.files, self.count = [], 0
