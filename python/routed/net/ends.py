"""Ends of both sides of connections to UNIX sockets. One that has ended its sending side alone may still be read by its peer."""
from __future__ import annotations

import select
from collections.abc import Callable

from .loop import READ, Loop
from .stream import Stream


class Ends:
    """Calls what is to be done once both sides of a stream have ended. TCP doesn't say so of its streams."""

    def __init__(self, loop: Loop) -> None:
        self.streams: dict[int, tuple[Stream, Callable[[], object]]] = {}
        self.poll = select.epoll()  # which tells of the end of both sides alone
        loop.want(self.poll.fileno(), READ, self.look)

    def watch(self, stream: Stream, call: Callable[[], object]) -> None:
        if stream.source not in self.streams:
            self.streams[stream.source] = stream, call
            self.poll.register(stream.source, 0)

    def forget(self, stream: Stream) -> None:
        """The stream is about to be closed."""
        if self.streams.pop(stream.source, None):
            self.poll.unregister(stream.source)

    def look(self, _: int) -> None:
        for file, _ in self.poll.poll(0):
            if found := self.streams.get(file):  # else one before it in this turn has ended it
                stream, call = found
                stream.loop.call(call)
