"""What `listen --renew` does once a file can't be written: it waits for room, and has the run end, so that the next one begins."""
from __future__ import annotations

import os
from collections.abc import Callable, Sequence

from ..net.loop import Loop

EVERY = 5.0  # seconds from one look to the next
MARGIN = 1 << 16  # bytes
MOST_SNAPSHOT = 1 << 22  # bytes: a snapshot of 16,384 links and 1,024 marks is shorter


def room_for(path: str) -> bool:
    """Whether the device of a journal has room for a snapshot of it, and for the next journal, which begins with that. The same is asked of
    the file of a book's rows."""
    try:
        size, found = os.stat(path).st_size, os.statvfs(os.path.dirname(os.path.abspath(path)))
    except OSError:
        return False
    return found.f_bavail * found.f_frsize >= 2 * min(size, MOST_SNAPSHOT) + MARGIN


class Renewal:
    """Looks for room again and again from the first failure of a file on, and calls `end` once there is some for each."""

    def __init__(self, loop: Loop, paths: Sequence[str], end: Callable[[], object]) -> None:
        self.loop, self.paths, self.end, self.is_begun = loop, paths, end, False

    def begin(self) -> None:
        """A file has failed."""
        if not self.is_begun:
            self.is_begun = True
            self.loop.after(EVERY, self.look)

    def look(self) -> None:
        if all(map(room_for, self.paths)):
            self.end()
        else:
            self.loop.after(EVERY, self.look)
