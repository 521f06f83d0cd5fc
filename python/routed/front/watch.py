"""The place that tells versions: a connection reads the line of the run, if the run has a number, and the line of the newest version at
once, and each from then on.

A connection that doesn't read is told the newest version alone once it reads again, and delays nobody. The line `run` is
answered by `run NAME`, the name of the server's run; what else it sends is dropped. It ends with the server, or where it closes.
One that has ended its sending side may still read. At a path its close is noticed all the same; TCP says nothing of it, so at a
port such a connection gives way where the place is full."""
from __future__ import annotations

import socket
import time

from ..net.endpoints import Door
from ..net.ends import Ends
from ..net.loop import READ, WRITE, Loop
from ..net.stream import Stream
from .accounts import Account

MOST = 256  # connections
ASKED = b"run"  # the line that asks for the name of the run


class Watch:
    """The connections. The account knows the newest version, and tells of each."""

    def __init__(self, loop: Loop, listener: socket.socket, account: Account) -> None:
        self.account, self.ends = account, Ends(loop)
        self.watchers: set[Watcher] = set()
        self.silent: dict[Watcher, bool] = {}  # those that have ended their sending side
        account.told.append(self.tell)
        Door(loop, listener, self.take)

    def fall_silent(self, watcher: Watcher) -> None:
        self.silent[watcher] = True
        self.ends.watch(watcher.stream, watcher.close)

    def leave(self, watcher: Watcher) -> None:
        self.watchers.remove(watcher)
        self.silent.pop(watcher, None)
        self.ends.forget(watcher.stream)

    def make_room(self) -> None:
        """The first connection of TCP that has ended its sending side gives way."""
        for watcher in self.silent:
            if watcher.stream.socket and watcher.stream.socket.family != socket.AF_UNIX:
                watcher.close()
                return

    def take(self, stream: Stream) -> None:
        _, named = stream.peer()
        if len(self.watchers) >= MOST:
            self.make_room()
        if len(self.watchers) >= MOST:
            self.account.busy("watch", named)
            stream.hang_up(b"busy\n")
            return
        watcher = Watcher(self, stream, self.account.begin("watch", named))
        self.watchers.add(watcher)
        if self.account.number is not None:
            stream.write(f"run {self.account.number}\n".encode())
        stream.loop.call(watcher.tell)

    def tell(self) -> None:
        """A version is published."""
        for watcher in tuple(self.watchers):
            watcher.stream.loop.call(watcher.tell)


class Watcher:
    """One connection, and the version of the line that was begun last."""

    def __init__(self, watch: Watch, stream: Stream, number: int) -> None:
        self.watch, self.stream, self.number, self.begun_at, self.begun, self.lines = watch, stream, number, time.monotonic(), -1, 0
        stream.give(self, self.go_on)

    def named(self) -> str:
        return f"watch {self.number}"

    def tell(self) -> None:
        """Begins the newest version's line, unless one still waits."""
        newest = self.watch.account.version
        if not self.stream.waiting and self.begun != newest:
            self.begun = newest
            self.lines += 1
            self.stream.write(f"version {newest}\n".encode())
        if self.stream.fault:
            self.close()
        else:
            self.stream.wait(True)

    def go_on(self, events: int) -> None:
        if events & READ:
            lines = self.stream.lines()
            self.stream.unread = self.stream.unread[-len(ASKED):]  # a longer line is dropped
            if asked := lines.count(ASKED) * (not self.stream.is_full):
                self.stream.write(f"run {self.watch.account.run}\n".encode() * asked)
        if events & WRITE:
            self.stream.flush()
        self.tell()
        if self.stream.is_ended and self in self.watch.watchers:
            self.watch.fall_silent(self)

    def close(self) -> None:
        if self in self.watch.watchers:
            self.watch.leave(self)
            self.stream.close()
            self.watch.account.end("watch", self.number, f"{self.lines} lines, {time.monotonic() - self.begun_at:.1f} s")

    fail = close
