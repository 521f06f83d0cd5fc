"""Requests over HTTP: how their heads are read, how figures are answered at an endpoint of their own, and how they are asked for.

One answer is sent on a connection, which ends behind it. A connection has 5 seconds. At most 16 are open, and others wait
for one of them to end. GET and HEAD of /metrics are answered, and everything else is refused by its status.
"""
from __future__ import annotations

import contextlib
import re
import socket
import time
from collections.abc import Callable
from typing import NamedTuple

from .endpoints import Door, Endpoint
from .loop import READ, Loop
from .stream import Stream

MOST, SECONDS, HEAD = 16, 5, 8192  # connections, the time that one has, and bytes of a request
LONGEST = 1 << 20  # bytes of an answer
TYPE = "text/plain; version=0.0.4; charset=utf-8"
LINE = re.compile(rb"[A-Za-z]{1,16} [^ \n]* HTTP/[^ \n]*\n")  # of a request, the first
PART_OF_LINE = re.compile(rb"[A-Za-z]{1,16}(?: [^ \n]*){0,2}\r*\Z")


class Request(NamedTuple):
    """The head of a request: its path and query as they came, and its fields by their names in small letters. A field that is there
    twice has both values, with a comma between them."""

    is_head: bool
    path: str
    query: str
    fields: dict[str, str]


class Page:
    """The place where figures are read: `text` gives them, and `counted` is called with 1 and -1 as connections come and go. Before an
    answer `prepare` is called, once in a turn of the loop, until it says that the figures are ready."""

    most, seconds = MOST, SECONDS

    def __init__(self, loop: Loop, listener: socket.socket, text: Callable[[], str],
                 counted: Callable[[int], object] = lambda change: None, prepare: Callable[[], bool] = lambda: True) -> None:
        self.text, self.counted, self.prepare, self.count = text, counted, prepare, 0
        self.door = Door(loop, listener, self.take)

    def take(self, stream: Stream) -> None:
        Reading(self, stream)
        self.change(1)

    def change(self, change: int) -> None:
        self.count += change
        self.counted(change)
        if self.count >= self.most:
            self.door.shut()
        elif not self.door.is_open:
            self.door.open()


class Reading:
    """One connection, and its request as far as it has come."""

    def __init__(self, page: Page, stream: Stream) -> None:
        self.page, self.stream, self.asked, self.is_asked, self.is_answered, self.is_over = page, stream, b"", False, False, False
        self.begun_at = time.monotonic()
        stream.give(self, self.go_on)
        stream.wait(True)
        stream.loop.after(page.seconds, self.close)

    def named(self) -> str:
        return "a reader of figures"

    def go_on(self, events: int) -> None:
        if events & READ:
            self.asked += self.stream.read(HEAD)
            self.is_asked = request_of(self.asked) is not None
            if self.is_asked and not self.stream.is_ended:
                self.answer()
        else:
            self.stream.flush()
        self.go_off()

    def answer(self) -> None:
        """Answers once the figures are ready, or half of its time has gone."""
        if self.is_over:
            return
        if not self.page.prepare() and time.monotonic() < self.begun_at + SECONDS / 2:
            self.stream.loop.after(0, self.answer)
            return
        self.say(answer_to(self.asked, self.page.text))

    def say(self, answer: bytes) -> None:
        """Writes the answer, behind which it ends."""
        self.is_answered = True
        self.stream.write(answer)
        self.go_off()

    def go_off(self) -> None:
        """Waits for what comes next, or ends."""
        if self.stream.is_ended or self.is_answered and not self.stream.waiting:
            self.close()
        else:
            self.stream.wait(not self.is_asked)

    def close(self) -> None:
        if not self.is_over:
            self.is_over = True
            self.stream.hang_up()
            self.page.change(-1)

    fail = close


def request_of(asked: bytes) -> Request | bytes | None:
    """The request whose head this is, or the answer that refuses it. None while more of it has to come."""
    if len(asked) > HEAD:
        return answer("431 Request Header Fields Too Large", b"The request is too long.\n")
    if not (LINE if b"\n" in asked else PART_OF_LINE).match(asked):
        return answer("400 Bad Request", b"This is no request of HTTP.\n")
    if b"\r\n\r\n" not in asked and b"\n\n" not in asked:
        return None
    line, *lines = re.split("\r*\n", re.split("\r*\n\r*\n", asked.decode("latin-1"), 1)[0])
    method, target, _ = line.split(" ", 2)
    if method not in ("GET", "HEAD"):
        return answer("405 Method Not Allowed", b"What is here is read by GET.\n", "Allow: GET, HEAD\r\n")
    fields: dict[str, str] = {}
    for name, _, value in (line.partition(":") for line in lines):
        name, value = name.lower(), value.strip()
        fields[name] = f"{fields[name]}, {value}" if name in fields else value
    path, _, query = target.partition("?")
    return Request(method == "HEAD", path, query, fields)


def answer_to(asked: bytes, text: Callable[[], str]) -> bytes:
    """The answer to a request for figures whose head is whole."""
    request = request_of(asked)
    if not isinstance(request, Request):
        return request or b""
    if request.path != "/metrics":
        return answer("404 Not Found", b"Figures are at /metrics.\n", is_head=request.is_head)
    return answer("200 OK", text().encode(), is_head=request.is_head)


def answer(status: str, body: bytes, more: str = "", is_head: bool = False, kind: str = TYPE) -> bytes:
    head = f"HTTP/1.1 {status}\r\nContent-Type: {kind}\r\nContent-Length: {len(body)}\r\n{more}Connection: close\r\n\r\n"
    return head.encode() + (b"" if is_head else body)


class Unread(Exception):
    """Its text says why the figures can't be read."""


def get(endpoint: Endpoint) -> str:
    """The figures at an endpoint."""
    loop, found = Loop(), bytearray()
    try:
        with contextlib.closing(Stream(loop, endpoint.connect())) as stream:
            stream.give(None, lambda _: found.extend(stream.read()))
            stream.write(b"GET /metrics HTTP/1.1\r\nHost: localhost\r\nConnection: close\r\n\r\n")
            stream.wait(True)
            loop.after(SECONDS, late)
            while not stream.is_ended and len(found) < LONGEST:
                loop.turn()
            if stream.fault:
                raise stream.fault
    except (OSError, UnicodeError) as fault:
        raise Unread(getattr(fault, "strerror", "") or fault) from None
    head, _, body = bytes(found).partition(b"\r\n\r\n")
    if not re.match(rb"HTTP/1\.[01] 200 ", head):
        raise Unread(f"the answer is {head.partition(chr(13).encode())[0].decode(errors='backslashreplace') or 'empty'}")
    return body.decode(errors="replace")


def late() -> None:
    raise TimeoutError("timed out")
