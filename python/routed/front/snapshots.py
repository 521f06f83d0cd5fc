"""Snapshots of the journal of a server that runs, for routed-tools listen."""
from __future__ import annotations

import os
import time
from collections.abc import Sequence

from ..net.loop import Loop, Owned
from .accounts import Account
from .making import END, Making, Say, refusal, tell

TAIL = 1 << 16  # bytes of a journal's end in which its last row stands


class Snapshots(Making):
    """Snapshots of the running journal, which `routed snapshot` makes. A text is for all that wait: the connection for updates, and
    viewers. Where that connection begins a snapshot, the one that is made for viewers gives way."""

    def __init__(self, loop: Loop, program: str, account: Account) -> None:
        super().__init__(loop, account)
        self.journal, self.words = account.journal.path, [program, "snapshot", "--explain"]
        self.version, self.head = 0, b""  # of the snapshot that is made, and its first lines
        self.waiting: tuple[Owned, Say] | None = None  # the connection for updates

    def begin(self, version: int, loop: Owned, say: Say) -> None:
        """The journal doesn't grow until the snapshot is there."""
        self.end_child()
        self.waiting = loop, say
        try:
            self.start(version)
            if self.is_cut_in_an_end():
                self.end(1, b"the journal has failed inside an end row")
                return
            self.spawn([*self.words, "--accept-torn", "--journal", self.journal])
        except OSError as error:
            self.end(1, refusal(error, self.words[0]))

    def prepare(self) -> None:
        """It is known first how far the journal is published; that is read in parts."""
        if self.child or not self.viewers:  # the connection for updates has begun one
            self.is_preparing = False
        elif self.kept and self.kept[0] == self.account.version:
            self.is_preparing = False
            self.show_text(self.kept[1])
        elif (left := self.pause_until - time.monotonic()) > 0:
            self.loop.after(left, self.prepare)
        elif self.account.journal.read_on():
            self.is_preparing = False
            self.begin_for_viewers(self.account.version, self.account.journal.offsets)
        else:
            self.loop.after(0, self.prepare)

    def begin_for_viewers(self, version: int, offsets: Sequence[int]) -> None:
        """Makes a snapshot of the journal up to a version, as the journal grows on."""
        try:
            self.start(version)
            if version > len(offsets):
                self.end(1, b"the journal can't be read")
                return
            self.spawn_fed([*self.words, "--journal", "/dev/stdin"],
                           ["head", "-c", str(offsets[version - 1] if version else 0), "--", self.journal])
        except OSError as error:
            self.end(1, refusal(error, self.words[0]))

    def start(self, version: int) -> None:
        self.version, self.head = version, b"version %d\n" % version + self.run
        self.open_files()

    def is_cut_in_an_end(self) -> bool:
        """Whether the journal's last row could be read as the end of a batch that isn't published."""
        with open(self.journal, "rb") as kept:
            kept.seek(max(kept.seek(0, os.SEEK_END) - TAIL, 0))
            return kept.read().rpartition(b"\n")[2].startswith(b"end,")

    def end(self, status: int, text: bytes) -> None:
        self.close()
        self.pause()
        whole = self.head + text + END if status == 0 else b"snapshot refused: " + text + b"\n"
        self.kept = (self.version, whole) if status == 0 else None
        self.show_text(whole)
        waiting, self.waiting = self.waiting, None
        if waiting:
            loop, say = waiting
            loop.call(say, whole)

    def show_text(self, text: bytes) -> None:
        viewers, self.viewers = self.viewers, []
        tell(viewers, text)

    def drop(self, loop: Owned) -> None:
        """Viewers that wait get a snapshot of their own."""
        self.waiting = None
        self.end_child()
        self.prepare_soon()
