"""What systemd is told of a tool whose unit has Type=notify: that it is ready, a status line, and that its loop turns (sd_notify(3)).

Without NOTIFY_SOCKET in the environment nothing is told. A message that isn't taken at once is dropped, and what it told comes again with
the next one."""
from __future__ import annotations

import contextlib
import os
import re
import socket
import time
from collections.abc import Callable

from .loop import Loop

EVERY = 5.0  # seconds from one look at the status line to the next
PARTS = 3  # messages in the time of the watchdog, so that one may be dropped
EXTENDED = 60  # seconds that a message adds to the time of a start
LONGEST_START = 3600.0  # seconds in which the time of a start is extended
MOST_STATUS = 200  # characters of a status line


def notify(*lines: str) -> bool:
    """Sends lines to the socket that NOTIFY_SOCKET names. Whether they were taken."""
    place = os.environ.get("NOTIFY_SOCKET", "")
    if place[:1] not in ("/", "@"):
        return False
    with contextlib.suppress(OSError), socket.socket(socket.AF_UNIX, socket.SOCK_DGRAM) as made:
        made.setblocking(False)
        made.sendto("\n".join(lines).encode(errors="surrogateescape"), f"\0{place[1:]}" if place[0] == "@" else place)
        return True
    return False


def watchdog() -> float | None:
    """The seconds within which systemd wants a sign of life; None if it wants none."""
    text = os.environ.get("WATCHDOG_USEC", "")
    is_ours = os.environ.get("WATCHDOG_PID", str(os.getpid())) == str(os.getpid())
    return int(text) / 1e6 if is_ours and re.fullmatch("[1-9][0-9]{0,18}", text) else None


class Supervised:
    """A tool that tells systemd how it is. `status` returns its status line."""

    def __init__(self, loop: Loop, status: Callable[[], str]) -> None:
        self.loop, self.status, self.told, self.began = loop, status, "", time.monotonic()
        self.is_ready, self.is_told_ready = False, False
        every = watchdog()
        self.every = min(EVERY, every / PARTS) if every else EVERY
        if os.environ.get("NOTIFY_SOCKET"):
            loop.after(0, self.turn)

    def turn(self) -> None:
        """The loop turns: tells so, and the status line if it has changed."""
        lines = ["WATCHDOG=1"] if self.is_ready else []
        if not self.is_ready and time.monotonic() < self.began + LONGEST_START:
            lines.append(f"EXTEND_TIMEOUT_USEC={EXTENDED * 1_000_000}")
        self.tell(*lines)
        self.loop.after(self.every, self.turn)

    def ready(self) -> None:
        """The tool can be used. This is told until it is taken, since systemd ends a start that never says so."""
        self.is_ready = True
        self.tell()

    def tell(self, *lines: str) -> None:
        status = " ".join(self.status().split())[:MOST_STATUS]
        begun = ["READY=1"] if self.is_ready and not self.is_told_ready else []
        changed = [f"STATUS={status}"] if status != self.told else []
        if (lines or begun or changed) and notify(*begun, *lines, *changed):
            self.told, self.is_told_ready = status, self.is_ready
