"""Server-sent events to a reader, each once it can be told. Nobody waits for a reader that doesn't read."""
from __future__ import annotations

import json
from collections.abc import Callable

from .loop import READ, WRITE
from .site import FIELDS
from .stream import LONGEST, Stream

HEAD = f"HTTP/1.1 200 OK\r\nContent-Type: text/event-stream\r\n{FIELDS}Connection: close\r\n\r\nretry: 1000\n\n".encode()
HERE, EVERY = b"event: here\ndata: {}\n\n", 15  # by which a page sees that it is connected, and seconds from one to the next


def event_of(name: str, data: object) -> bytes:
    """An event, whose data are a line of JSON already, or become one."""
    return f"event: {name}\ndata: {data if isinstance(data, str) else json.dumps(data)}\n\n".encode()


class EventStream:
    """A reader, and the event that is written to it. `following` gives the next one, nothing where all is told; it is called once the
    one before is taken, so a reader is never told what has passed while it didn't read. `ended` is called at its end."""

    def __init__(self, stream: Stream, following: Callable[[], bytes], ended: Callable[[], object]) -> None:
        self.stream, self.following, self.ended, self.event, self.at = stream, following, ended, HEAD, 0
        stream.give(self, self.go_on)
        stream.loop.after(EVERY, self.stay)

    def named(self) -> str:
        return "a page"

    def go_on(self, events: int) -> None:
        if events & READ:
            self.stream.read()  # nothing is wanted of it
        if events & WRITE:
            self.stream.flush()
        self.tell()

    def tell(self) -> None:
        """Writes what is new, as far as it is taken."""
        while not self.stream.waiting and not self.stream.fault and not self.stream.is_ended:
            if self.at >= len(self.event):
                self.event, self.at = self.following(), 0
                if not self.event:
                    break
            self.stream.write(self.event[self.at:self.at + LONGEST])
            self.at += LONGEST
        if self.stream.fault or self.stream.is_ended:
            self.close()
        else:
            self.stream.wait(True)

    def stay(self) -> None:
        if not self.stream.is_closed:
            if not self.stream.waiting and self.at >= len(self.event):
                self.stream.write(HERE)
            self.tell()
            self.stream.loop.after(EVERY, self.stay)

    def close(self) -> None:
        if not self.stream.is_closed:
            self.stream.close()
            self.ended()

    fail = close
