"""Connects standard input and output to a socket of `routed-tools listen`, as `nc -N` does.

Rows go from standard input to the socket, and lines from the socket to standard output. When standard input ends, a last row
that has no line feed gets one; then the remaining lines are read. It also ends when the socket does. It waits for a place
that isn't there yet, for as long as --wait says.

With --names a row may have names in place of its addresses, but not in place of hops. A line that has addresses with names gets
these names behind `#`; behind a reply they are those of the routers to which the route's links lead.

The status is 0 if each row was taken; a request without a route was. It is 1 if it can't connect. It is 2 if standard input or
the file of names isn't what it has to be, if a row, a batch or a snapshot was refused, if the place was busy, or if changes were
left without an `end` row, which are dropped. A line on standard error says which.
"""
from __future__ import annotations

import argparse
import contextlib
import errno
import os
import re
import socket
import stat
import threading
import time

from ..model.advice import not_rows, of_place
from ..model.journals import MARK
from ..model.names import Names, NamesRefused
from ..model.rows import refusal
from ..net.endpoints import Endpoint
from ..net.stream import LONGEST, write_all
from ..program import failed, number
from .naming import Naming

WAIT, PAUSE = 5, 0.1  # seconds until a place has to be there, and between two tries
NOT_YET = errno.ENOENT, errno.ECONNREFUSED, errno.EAGAIN
CHANGES = "put", "drop", "node"
REFUSED = re.compile(rb"busy|refused|snapshot refused: .*|(?:row|batch) \d+ refused: .*")
KIND = re.compile(rb"row \d+ refused: kind")
ADVICE = {b"busy": "another program has the place: try again when it has ended",
          b"refused": "the place takes no such line, and nothing that follows it"}
NO_SOCKET = "it is no socket; give a place of routed-tools listen"


class Sender(threading.Thread):
    """Passes standard input on, and its end. `open` counts the changes behind the last end row, and `strange` the rows that no place of
    listen takes. `fault` says why standard input can't be rows."""

    def __init__(self, made: socket.socket, naming: Naming | None) -> None:
        super().__init__(daemon=True)
        self.made, self.naming, self.rest = made, naming, b""
        self.open, self.strange, self.fault = 0, 0, ""

    def run(self) -> None:
        with contextlib.suppress(OSError):  # the socket has ended: what is read from it says so
            last, is_first = b"\n", True
            while data := os.read(0, LONGEST):
                if is_first and (told := not_rows(data)):
                    self.fault = told
                    break
                self.pass_on(data.removeprefix(MARK) if is_first and self.naming else data)
                is_first, last = False, data[-1:]
            if last != b"\n":
                self.pass_on(b"\n")
            self.made.shutdown(socket.SHUT_WR)

    def pass_on(self, data: bytes) -> None:
        sent = self.naming.take(data, True) if self.naming else data
        *lines, rest = (self.rest + sent).split(b"\n")
        self.rest = rest[:LONGEST]  # a row is shorter
        for line in lines:  # before they are sent, so that a line of the server's finds them counted
            self.count(line.removeprefix(MARK).decode("latin-1").rstrip("\r").split(","))
        self.made.sendall(sent)

    def count(self, fields: list[str]) -> None:
        if fields[0] == "end":
            self.open = 0
        elif fields[0] in CHANGES:
            self.open += refusal(fields) is None
        elif fields[0] != "ask":
            self.strange += 1


class Reader:
    """Writes what is read from the socket to standard output. `refused` has the lines that say so by their first words: of each the
    first line, and how many there are. `kinds` counts the rows whose kind was refused."""

    def __init__(self, naming: Naming | None) -> None:
        self.naming, self.rest = naming, b""
        self.refused: dict[bytes, tuple[str, int]] = {}
        self.kinds = 0

    def run(self, made: socket.socket) -> None:
        while data := made.recv(LONGEST):
            write_all(1, self.naming.take(data, False) if self.naming else data)
            *lines, rest = (self.rest + data).split(b"\n")
            self.rest = rest[:LONGEST]
            self.kinds += sum(1 for line in lines if KIND.fullmatch(line))
            for line in filter(REFUSED.fullmatch, lines):
                first, count = self.refused.get(line.split()[0], (line.decode(errors="replace"), 0))
                self.refused[line.split()[0]] = first, count + 1
        if self.naming:
            write_all(1, self.naming.take(b"", False))


def connected(place: Endpoint, seconds: float) -> socket.socket:
    """A socket that is connected to the place, which may still be made for so many seconds."""
    end = time.monotonic() + seconds
    while True:
        try:
            return place.connect()
        except OSError as fault:
            if fault.errno == errno.ECONNREFUSED and place.path and is_other(place.path):
                raise ValueError(NO_SOCKET) from None
            if fault.errno not in NOT_YET or time.monotonic() >= end:
                raise
        time.sleep(PAUSE)


def is_other(path: str) -> bool:
    """Whether the path is that of something else than a socket."""
    with contextlib.suppress(OSError):
        return not stat.S_ISSOCK(os.stat(path).st_mode)
    return False


def judged(place: str, sender: Sender, reader: Reader) -> int:
    """Says what was refused or left open, and answers the status."""
    if sender.fault:
        return failed("connect", f"standard input can't be rows: {sender.fault}", 2)
    status = 0
    for word, (line, count) in reader.refused.items():
        several = f"{count} lines of this kind, the first: " if count > 1 else ""
        status = failed("connect", f"{place}: {several}{line}", 2, ADVICE.get(word, ""))
    takes_changes = b"busy" not in reader.refused and reader.kinds <= sender.strange  # where clients ask, a change's kind is refused
    if sender.open and takes_changes:
        status = failed("connect", f"unended {sender.open}: no end row, dropped", 2, f"write end,NUMBER,{sender.open} behind the changes")
    return status


def main(words: list[str] | None = None) -> int:
    """Takes the words of a command line, and answers the status."""
    asked = argparse.ArgumentParser(prog="routed-tools connect", description=__doc__, formatter_class=argparse.RawDescriptionHelpFormatter)
    asked.add_argument("place", type=Endpoint, metavar="PLACE", help="a path, a port, ADDRESS:PORT or [ADDRESS]:PORT, as of listen")
    asked.add_argument("--names", metavar="FILE", help="lines of an address and its name; without it rows and lines are as they are")
    asked.add_argument("--wait", type=number("number of seconds", 0, 86400, float), default=WAIT, metavar="SECONDS",
                       help=f"how long a place may take until it is there ({WAIT})")
    given = asked.parse_args(words)
    place = given.place
    owners: dict[str, str] = {}
    try:
        names = Names.read(given.names)
        made = connected(place, given.wait)
    except NamesRefused as fault:
        return failed("connect", fault, 2)
    except (OSError, ValueError) as fault:
        return failed("connect", f"{place.text}: {getattr(fault, 'strerror', '') or fault}", advice=of_place(fault))
    sender, reader = Sender(made, Naming(names, owners) if names else None), Reader(Naming(names, owners) if names else None)
    sender.start()
    try:
        reader.run(made)
    except BrokenPipeError:
        raise
    except OSError as fault:
        return failed("connect", f"{place.text}: {fault.strerror or fault}")
    return judged(place.text, sender, reader)
