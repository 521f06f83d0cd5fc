"""Texts of the book of a server that runs, for routed-tools listen."""
from __future__ import annotations

import time
from collections.abc import Callable

from ..net.loop import Loop, Owned
from .booked import BookAccount
from .making import END, Making, Say, Viewers, refusal, tell
from .sharing import Sharing

BOOK_END = b"book end\n"
# The rows of a file, a line feed that its last row may lack, and the first bytes of another file.
FEED = 'if [ -n "$1" ]; then cat -- "$1" && echo; fi && head -c "$2" -- "$3"'


class Text:
    """The rows of one version: how many bytes of the kept rows they are made of, or why that isn't known, and who waits for them."""

    def __init__(self, account: BookAccount) -> None:
        self.size, self.refusal = 0, b""
        try:
            self.size = account.kept_bytes()
        except OSError as error:
            self.refusal = refusal(error, "")
        self.calls: list[tuple[Owned, Callable[[int, bytes], object]]] = []  # called with the status, and the rows or the reason
        self.is_shown = False  # to viewers


class Books(Making):
    """What `routed book --compact` makes of the rows with which the book began, and of those that were kept up to a version. All that ask
    at one version get one text. Versions have theirs one after the other."""

    def __init__(self, loop: Loop, program: str, account: BookAccount, begin: str | None, sharing: Sharing) -> None:
        super().__init__(loop, account)
        self.guarded = loop.of(self)  # an exception ends the text that is made
        self.booked, self.begin_path, self.sharing = account, begin or "", sharing
        self.words = [program, "book", "--compact", "--explain"]
        self.texts: dict[int, Text] = {}  # by their versions; the first one is made

    def begin(self, version: int, loop: Owned, say: Say) -> None:
        """The rows of the base, as the connection for updates gets them."""
        head = b"base %d v%d\n" % (self.booked.base, version) + self.run
        self.want(version, loop, lambda status, rows: say(*framed(status, "snapshot", head, base_of(rows), END)))

    def book(self, version: int, loop: Owned, say: Say) -> None:
        """All rows, as one that places gets them."""
        head = b"version %d\n" % version + self.run
        self.want(version, loop, lambda status, rows: say(*framed(status, "book", head, rows, BOOK_END)))

    def want(self, version: int, loop: Owned, call: Callable[[int, bytes], object]) -> Text:
        """Calls this with the rows of a version, which is the newest, and no row is at the server."""
        text = self.texts.get(version) or self.texts.setdefault(version, Text(self.booked))
        text.calls.append((loop, call))
        if not self.child:
            self.guarded.after(0, self.next)
        return text

    def next(self) -> None:
        """Makes the next text, if there is one."""
        while self.texts and not self.child:
            version, text = next(iter(self.texts.items()))
            if self.kept and self.kept[0] == version:
                self.give(version, 0, self.kept[1])
            elif not text.calls:
                del self.texts[version]
            else:
                self.make(text)

    def make(self, text: Text) -> None:
        if text.refusal:
            self.end(1, text.refusal)
            return
        try:
            self.open_files()
            self.spawn_fed(self.words, ["sh", "-c", FEED, "sh", self.begin_path, str(text.size), self.booked.keep.path], self.files[1])
        except OSError as error:
            self.end(1, refusal(error, self.words[0]))

    def is_unfed(self) -> bool:
        return bool(self.feeder and self.feeder.wait())

    def end(self, status: int, text: bytes) -> None:
        version = next(iter(self.texts))
        self.close()
        if self.texts[version].is_shown:
            self.pause()
        self.kept = (version, text) if status == 0 else self.kept
        self.give(version, status, text)
        self.next()

    def give(self, version: int, status: int, rows: bytes) -> None:
        for loop, call in self.texts.pop(version).calls:
            loop.call(call, status, rows)

    def prepare(self) -> None:
        if (left := self.pause_until - time.monotonic()) > 0:
            self.guarded.after(left, self.prepare)
        else:
            self.sharing.ask(b"", self.begin_for_viewers)

    def begin_for_viewers(self, _: bytes, version: int) -> None:
        """No row is at the server, and this is its version."""
        viewers, self.viewers, self.is_preparing = self.viewers, [], False
        text = self.want(version, self.loop.of(None), lambda status, rows: self.show_text(viewers, version, status, rows))
        text.is_shown = True

    def show_text(self, viewers: Viewers, version: int, status: int, rows: bytes) -> None:
        tell(viewers, b"".join(framed(status, "snapshot", b"version %d\n" % version + self.run, rows, END)))

    def named(self) -> str:
        return "texts"

    def fail(self) -> None:
        """An exception: those that wait for the text that was made read a line that refuses it."""
        self.end_child()
        self.is_preparing = False
        if self.texts:
            self.end(1, b"an exception")

    def drop(self, loop: Owned) -> None:
        """A text for which nobody waits any more isn't begun."""
        for text in self.texts.values():
            text.calls = [call for call in text.calls if call[0] is not loop]


def base_of(rows: bytes) -> bytes:
    """The rows of the base, which come before those of placements."""
    at = 0 if rows.startswith(b"held,") else rows.find(b"\nheld,") + 1
    return rows[:at] if at or rows.startswith(b"held,") else rows


def framed(status: int, word: str, head: bytes, rows: bytes, end: bytes) -> list[bytes]:
    """All lines of an answer in parts, or the one that refuses it."""
    return [b"%s refused: %s\n" % (word.encode(), rows)] if status else [head, rows, end]
