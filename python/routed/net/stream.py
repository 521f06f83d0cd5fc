"""A connection that never blocks: what comes is read as bytes or as lines, and what isn't taken at once waits."""
from __future__ import annotations

import collections
import contextlib
import os
import select
import socket
import struct
import time
from collections.abc import Callable, Sequence

from .loop import READ, WRITE, Loop, Owned, Owner

LONGEST = 1 << 16  # bytes of one read or write, and of a line
LINGER = 1  # seconds in which what a connection that was hung up still sends is dropped


class Stream:
    """A socket, or a pipe to read from and one to write to, which are closed with it.

    `waiting` has the bytes that aren't written yet. It is bounded by its user, who writes no more, and mostly reads no more where these
    came from, once `is_full`. `is_ended` says that no more comes. `fault` keeps the error that ended this, or the writing: what is
    written then is dropped. Until an owner takes it, and once it is hung up, a stream is its own. A shared one is of files whose
    flags others see, as standard output: they may block, so it is read where something has come alone. A socket that is still being
    connected isn't made yet: the first event to write says whether it is."""

    __slots__ = "socket", "source", "to", "loop", "call", "most", "once", "is_shared", "is_made", "waiting", "unread", "is_ended", "fault"

    def __init__(self, loop: Loop | Owned, source: socket.socket | int, to: int | None = None, most: int = LONGEST,
                 is_shared: bool = False, is_made: bool = True) -> None:
        self.socket = None if isinstance(source, int) else source
        self.source = source if isinstance(source, int) else source.fileno()
        self.to = self.source if to is None else to
        self.most, self.once, self.is_shared = most, select.PIPE_BUF if is_shared else LONGEST, is_shared
        self.is_made = is_made
        self.waiting, self.unread = bytearray(), b""  # what was read of a line that isn't whole
        self.is_ended = False
        self.fault: OSError | None = None
        self.loop = loop.of(self)
        self.call: Callable[[int], object] = self.drop
        if not is_shared:
            for file in (self.source, self.to):
                os.set_blocking(file, False)

    def give(self, owner: Owner | None, call: Callable[[int], object]) -> None:
        """From now on it is the owner's, whose `call` gets its events."""
        self.wait(False, False)
        self.loop, self.call = self.loop.of(owner), call

    def wait(self, is_read: bool, is_written: bool = True) -> None:
        """Waits for what comes, where it is read, and for room where something waits."""
        reads = READ if is_read and not self.is_ended else 0
        writes = WRITE if is_written and (self.waiting or not self.is_made and not self.is_ended) else 0
        if self.to == self.source:
            self.loop.want(self.source, reads | writes, self.call)
        else:
            self.loop.want(self.source, reads, self.call)
            self.loop.want(self.to, writes, self.call)

    def read(self, most: int = LONGEST) -> bytes:
        """What has come, up to so many bytes. None are the end where `is_ended` says so."""
        try:
            data = os.read(self.source, most)
        except BlockingIOError:
            return b""
        except OSError as fault:
            self.fault, data = fault, b""
        if not data:
            self.is_ended = True
        return data

    def read_files(self, most: int) -> tuple[bytes, list[int]]:
        """The same of a UNIX socket, with the open files that came with it, at most so many."""
        assert self.socket
        try:
            data, files, _, _ = socket.recv_fds(self.socket, LONGEST, most, socket.MSG_CMSG_CLOEXEC)
        except BlockingIOError:
            return b"", []
        except OSError as fault:
            self.fault, data, files = fault, b"", []
        self.is_ended = not data
        return data, files

    def text(self) -> bytes:
        """The whole lines of what has come."""
        data = self.read()
        end = data.rfind(b"\n") + 1
        if not end:
            self.unread += data
            return b""
        found, self.unread = self.unread + data[:end], data[end:]
        return found

    def lines(self) -> list[bytes]:
        """The same, each without its line feed."""
        return self.text().split(b"\n")[:-1]

    def write(self, data: bytes) -> None:
        """Writes it, behind what waits."""
        has_waited = bool(self.waiting)
        self.waiting += data
        if not has_waited:
            self.flush()

    def write_files(self, data: bytes, files: Sequence[int]) -> None:
        """Sends a short text and open files over a UNIX socket to which nothing was written before."""
        assert self.socket
        try:
            socket.send_fds(self.socket, [data], files)
        except OSError as fault:
            self.fault = fault

    def flush(self) -> int:
        """Writes what is taken now of what waits. How many bytes that are."""
        if self.is_shared and not has_room(self.to) or not self.is_made and not self.look():
            return 0
        try:
            count = os.write(self.to, self.waiting[:self.once])
        except BlockingIOError:
            return 0
        except OSError as fault:
            self.fault = fault
            self.waiting.clear()
            return 0
        del self.waiting[:count]
        return count

    def look(self) -> bool:
        """Whether it is connected now. If it couldn't be, it has ended."""
        number = self.socket.getsockopt(socket.SOL_SOCKET, socket.SO_ERROR) if self.socket else 0
        if number:
            self.fault, self.is_ended = OSError(number, os.strerror(number)), True
            self.waiting.clear()
            return False
        with contextlib.suppress(OSError):  # it is still being connected
            self.is_made = bool(self.socket and self.socket.getpeername() is not None)
        return self.is_made

    @property
    def is_full(self) -> bool:
        return len(self.waiting) >= self.most

    @property
    def is_closed(self) -> bool:
        return self.source < 0

    def why(self) -> str:
        """The error that ended it, in words."""
        return str(self.fault and self.fault.strerror or self.fault)

    def shut(self) -> None:
        """Writes no more, and drops what waits. It is read on."""
        self.waiting.clear()
        if self.socket:
            with contextlib.suppress(OSError):  # it has gone already
                self.socket.shutdown(socket.SHUT_WR)
        elif self.to >= 0:
            self.loop.want(self.to, 0)
            os.close(self.to)
            self.to = -1

    def hang_up(self, last: bytes = b"") -> None:
        """Ends it by its last bytes. What it still sends is read for a moment: closed before that, it could lose lines."""
        self.waiting += last
        self.flush()
        self.shut()
        if self.is_ended:
            self.close()
        else:
            self.give(self, self.drop)
            self.wait(True)
            self.loop.after(LINGER, self.close)

    def leave(self, last: bytes) -> None:
        """Ends it by these bytes; at once where there are none, or nobody to take them."""
        if last and not self.is_ended and not self.fault:
            self.hang_up(last)
        else:
            self.close()

    def drop(self, _: int) -> None:
        """Reads what nobody wants any more."""
        self.read()
        if self.is_ended:
            self.close()

    def close(self) -> None:
        if self.is_closed:
            return
        self.wait(False, False)
        if self.socket:
            self.socket.close()
        else:
            for file in {self.source, self.to} - {-1}:
                os.close(file)
        self.source = self.to = -1
        self.is_ended = True
        self.waiting.clear()

    fail = close

    def named(self) -> str:
        return "a connection"

    def peer(self) -> tuple[int | str | None, str]:
        """Who it is of, for the fairness among peers and for the log: the user at a UNIX socket, else the address."""
        if not self.socket:
            return None, "pipes"
        try:
            if self.socket.family == socket.AF_UNIX:
                process, user, group = struct.unpack("3i", self.socket.getsockopt(socket.SOL_SOCKET, socket.SO_PEERCRED, 12))
                return user, f"pid={process} uid={user} gid={group}"
            host, port = self.socket.getpeername()[:2]
            return host, f"address={host} port={port}"
        except OSError:  # it has gone already
            return None, "gone"


class Lines:
    """A stream whose lines are kept until they are taken, and waited for. One has to come within so many seconds."""

    def __init__(self, loop: Loop, stream: Stream, seconds: float) -> None:
        self.loop, self.stream, self.seconds = loop, stream, seconds
        self.lines: collections.deque[bytes] = collections.deque()  # whole ones that weren't taken yet
        stream.give(None, self.go_on)
        stream.wait(True)

    def go_on(self, events: int) -> None:
        if events & WRITE:
            self.stream.flush()
        if events & READ:
            self.lines.extend(self.stream.lines())

    def line(self) -> str:
        """The next line, by itself: nothing else is done before it comes."""
        end = time.monotonic() + self.seconds
        while not self.lines:
            if self.stream.is_ended:
                raise self.stream.fault or ConnectionError("the server ended the connection")
            if time.monotonic() >= end:
                raise TimeoutError(f"no line came in {self.seconds:g} s")
            self.stream.wait(True)
            self.loop.turn(end - time.monotonic())
        return self.lines.popleft().decode(errors="replace")


def write_all(file: int, data: bytes) -> None:
    """Writes all of it to a file that may block, and waits until then."""
    while data:
        data = data[os.write(file, data):]


def has_room(file: int) -> bool:
    """Whether a file that may block takes as many bytes as a pipe takes at once, or refuses them."""
    poll = select.poll()
    poll.register(file, select.POLLOUT)
    return bool(poll.poll(0))
