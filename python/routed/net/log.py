"""The log of a tool: lines of standard error. A line that nobody takes is dropped and counted, so that the tool goes on."""
from __future__ import annotations

import contextlib
import os
import sys
import time

from .stream import has_room

LEVELS = {"error": 3, "warning": 4, "info": 6, "debug": 7}  # by the priorities of syslog (RFC 5424 6.2.1)
LONGEST = 4000  # bytes of a line: a pipe that can be written takes so many at once
MOST = 200  # lines below an error in a second


class Log:
    """Writes lines of at least one level. Where standard error is the system's journal, a line has its priority in front."""

    def __init__(self, name: str, level: str = "warning", file: int | None = -1) -> None:
        if file == -1:  # a number that was closed at the start may be another file's by now
            file = sys.stderr.fileno() if sys.stderr else None
        self.name, self.most, self.file, self.dropped = name, LEVELS[level], file, 0
        self.second, self.count, self.told = 0, 0, 0  # the last is how many of the dropped lines were told
        self.has_priorities = is_journal(file)

    def say(self, level: str, text: str) -> None:
        """Writes a line where its level is wanted, or counts it as dropped."""
        if LEVELS[level] > self.most:
            return
        second = int(time.monotonic())
        self.second, self.count = second, self.count + 1 if second == self.second else 1
        is_kept = level == "error" or self.count <= MOST
        if is_kept and self.dropped > self.told and self.write("warning", f"{self.dropped - self.told} lines of the log were dropped"):
            self.told = self.dropped
        if not (is_kept and self.write(level, text)):
            self.dropped += 1

    def write(self, level: str, text: str) -> bool:
        """Whether the line was taken. It isn't waited for."""
        if self.file is None:
            return False
        front = f"<{LEVELS[level]}>" if self.has_priorities else ""
        line = f"{front}{self.name}: {text}".encode(errors="backslashreplace").replace(b"\n", b" ")[:LONGEST] + b"\n"
        try:
            return has_room(self.file) and os.write(self.file, line) == len(line)
        except OSError:
            return False


def is_journal(file: int | None) -> bool:
    """Whether the file is the stream that systemd names in JOURNAL_STREAM (systemd.exec(5))."""
    if file is None:
        return False
    with contextlib.suppress(OSError):
        found = os.fstat(file)
        return os.environ.get("JOURNAL_STREAM") == f"{found.st_dev}:{found.st_ino}"
    return False
