"""Endpoints where programs connect: sockets that are listened on, and how their connections are accepted."""
from __future__ import annotations

import argparse
import contextlib
import errno
import os
import pathlib
import re
import socket
import sys
from collections.abc import Callable, Iterator, Sequence

from ..program import PIPE_CLOSED
from .loop import READ, Loop, Stopped
from .stream import Stream, write_all

BACKLOG = 128  # connections that wait to be accepted; a UNIX socket refuses others to a client that does not wait
PAUSE = 0.1  # seconds until accepting is tried again
CONNECT = 5  # seconds in which a connection has to be made
# A connection that is silent: seconds until TCP asks whether its other side is there, seconds between these probes, and their number.
KEEP_IDLE, KEEP_APART, KEEP_COUNT = 30, 10, 3


@contextlib.contextmanager
def tried(what: str, hint: str = "") -> Iterator[None]:
    """Names what was tried where it fails."""
    try:
        yield
    except (OSError, UnicodeError) as error:  # the latter of a name that no host can have
        number = getattr(error, "errno", 0) or 0
        words = os.strerror(number) if number > 0 else getattr(error, "strerror", "") or error
        raise Stopped(f"{what}: {words}{hint}") from None


def say(*lines: str) -> None:
    """Writes lines to standard output, where there is one."""
    with tried("standard output: write"):
        write(lines)


def tell(*lines: str) -> None:
    """The same for a tool that ends, without a word, when nobody reads its lines any more."""
    with tried("standard output: write"):
        try:
            write(lines)
        except BrokenPipeError:
            sys.exit(PIPE_CLOSED)


def write(lines: Sequence[str]) -> None:
    if sys.stdout:
        write_all(sys.stdout.fileno(), "".join(f"{line}\n" for line in lines).encode())


class Endpoint:
    """Where a socket is listened on: the path of one, or an address and a port."""

    def __init__(self, text: str) -> None:
        port = re.fullmatch(r"(?:(?:([^/:\[\]]+)|\[([^/\[\]]+)\]):)?([0-9]+)", text)
        if not text or port and int(port[3]) >= 1 << 16 or not port and ":" in text and "/" not in text:
            raise argparse.ArgumentTypeError(f"{text!r} is no place: that is the path of a UNIX socket (with a slash where it has a colon),"
                                             " a port from 0 to 65535, ADDRESS:PORT or [ADDRESS]:PORT")
        self.text, self.path, self.port = text, None if port else text, int(port[3]) if port else None
        self.family = socket.AF_UNIX if not port else socket.AF_INET6 if port[2] else socket.AF_INET
        self.address: tuple[str, int] | str = (port[1] or port[2] or "127.0.0.1", int(port[3])) if port else text
        self.bound: tuple[int, int] | None = None  # the file of the socket that was bound here

    def bind(self, mode: int) -> socket.socket:
        """A socket that listens. At a path it replaces one on which nobody listens any more."""
        with tried(f"{self.text}: bind"):
            if not self.path:
                return socket.create_server(self.address, family=self.family, backlog=BACKLOG)
            if pathlib.Path(self.path).is_socket():
                there = self.file()
                with socket.socket(socket.AF_UNIX) as probe:
                    probe.setblocking(False)
                    if probe.connect_ex(self.path) == errno.ECONNREFUSED:
                        self.remove(there)
            listener, before = socket.socket(socket.AF_UNIX), os.umask(0o777 & ~mode)
            try:
                listener.bind(self.path)
            finally:
                os.umask(before)
            self.bound = self.file()
            listener.listen(BACKLOG)
            return listener

    def file(self) -> tuple[int, int] | None:
        """The device and inode of the file at its path."""
        with contextlib.suppress(OSError):
            found = os.lstat(self.path or "")
            return found.st_dev, found.st_ino
        return None

    def remove(self, file: tuple[int, int] | None) -> None:
        """Removes its path where it is still this file."""
        if self.path and file and self.file() == file:
            with contextlib.suppress(FileNotFoundError):
                os.unlink(self.path)

    def look_up(self) -> None:
        """Looks up the name of its host, so that no connection has to."""
        if isinstance(self.address, tuple):
            with tried(f"{self.text}: look up"):
                found = socket.getaddrinfo(*self.address, self.family, socket.SOCK_STREAM)[0][4]
                self.address = str(found[0]), int(found[1])

    def begin(self, loop: Loop, prepare: Callable[[socket.socket], object] = lambda _: None) -> Stream:
        """A stream that is being connected to it, for which nobody waits. A path whose backlog is full refuses it. `prepare` is
        called before it connects."""
        made = socket.socket(self.family)
        try:
            made.setblocking(False)
            keep_alive(made)
            prepare(made)
            number = made.connect_ex(self.address)
            if number not in (0, errno.EINPROGRESS):
                raise OSError(number, os.strerror(number))
        except BaseException:
            made.close()
            raise
        return Stream(loop, made, is_made=number == 0)

    def connect(self) -> socket.socket:
        """A socket that is connected to it. It blocks until then."""
        made = socket.socket(self.family)
        try:
            made.connect(self.address)
        except BaseException:
            made.close()
            raise
        return made

    def leave(self) -> None:
        """Removes the path of the socket that was bound, on which nobody listens any more. Another's socket stays."""
        self.remove(self.bound)


def keep_alive(made: socket.socket) -> None:
    """From now on TCP notices within a minute that the other side has gone without a word."""
    if made.family != socket.AF_UNIX:
        with contextlib.suppress(OSError):  # it has gone already, which its first read shows
            made.setsockopt(socket.IPPROTO_TCP, socket.TCP_NODELAY, 1)
            made.setsockopt(socket.SOL_SOCKET, socket.SO_KEEPALIVE, 1)
            made.setsockopt(socket.IPPROTO_TCP, socket.TCP_KEEPIDLE, KEEP_IDLE)
            made.setsockopt(socket.IPPROTO_TCP, socket.TCP_KEEPINTVL, KEEP_APART)
            made.setsockopt(socket.IPPROTO_TCP, socket.TCP_KEEPCNT, KEEP_COUNT)


class Door:
    """Accepts the connections of a socket that listens, and gives each to `take`, until it is shut. It may be opened again."""

    def __init__(self, loop: Loop, listener: socket.socket, take: Callable[[Stream], object]) -> None:
        self.loop, self.listener, self.take, self.is_open = loop, listener, take, False
        listener.setblocking(False)
        self.open()

    def open(self) -> None:
        self.is_open = True
        self.loop.want(self.listener.fileno(), READ, self.accept)

    def shut(self) -> None:
        self.is_open = False
        self.loop.want(self.listener.fileno(), 0)

    def accept(self, _: int) -> None:
        try:
            connection, _ = self.listener.accept()
        except OSError:  # it has gone already, or too many files are open
            self.loop.want(self.listener.fileno(), 0)
            self.loop.after(PAUSE, self.open_again)
            return
        stream = Stream(self.loop, connection)
        stream.loop.call(self.greet, stream, connection)

    def open_again(self) -> None:
        if self.is_open:
            self.open()

    def greet(self, stream: Stream, connection: socket.socket) -> None:
        keep_alive(connection)
        self.take(stream)
