"""Connections that the relay of `routed-tools listen` has, and whose server is this file. It opens the other ends of the sessions' pipes,
so it sees what the server has, and says when a row is answered."""
import collections
import contextlib
import functools
import heapq
import itertools
import os
import re
import socket
import time

from program.serving import PATIENCE

from routed.front.accounts import Account
from routed.front.relays import Relays
from routed.front.seats import Seats
from routed.front.turns import Turns
from routed.front.updates import Updates
from routed.net.log import Log
from routed.net.loop import Loop
from routed.net.stream import Stream

MOST, FLOODING, EACH = 2, 6, 100  # turns at once, connections that flood, and the rows of each
SOME, LONG = 20, 1 << 15  # rows behind those of a turn, and bytes of a long line
NUMBERS, MADE = itertools.count(), []
NEVER = 1e6  # seconds by which what is to be done later is put off


def closed(call):
    """This test, with all that it makes closed at its end."""
    @functools.wraps(call)
    def called(*given):
        try:
            call(*given)
        finally:
            while MADE:
                MADE.pop().close()
    return called


def held(loop):
    """A loop in which no time passes, however slow the machine is: what is to be done later is done when a test says so."""
    after = loop.after
    loop.after = lambda seconds, call, owner=None: after(seconds + NEVER if seconds else 0, call, owner)
    return loop


class Streams:
    """The relay and its loop, a connection in each of its seats where these are taken, and the server's ends of the pipes of each
    session."""

    def __init__(self, room, count, most=MOST, front=None, each=0, is_taken=True, is_held=True):
        self.place = os.path.join(room, f"ask{next(NUMBERS)}")
        self.listener = socket.socket(socket.AF_UNIX)
        self.listener.bind(self.place)
        self.listener.listen()
        if front:
            self.loop, self.account, self.seats = held(front.loop), front.account, front.seats
            front.serve("ask", self.listener)
            self.relays = front.relays
        else:
            self.log_file, file = os.pipe()
            os.set_blocking(self.log_file, False)
            self.account = Account(Log("turns", "info", file), os.path.join(room, "journal"))
            self.loop = held(Loop(self.account.failed)) if is_held else Loop(self.account.failed)
            self.seats = Seats(self.loop, count, each, self.account)
            self.relays = Relays(self.loop, self.listener, self.seats, self.account, 0)
            self.relays.turns = Turns(most)
        MADE.append(self)
        self.clients, self.files = [], [(-1, -1)] * count
        self.part, self.unsaid, self.heard = ([b""] * count for _ in range(3))  # of the last, those of the connection that is there
        self.left = [collections.deque() for _ in range(count)]  # the rows that the server hasn't answered
        self.is_over = [False] * count  # its session, behind these
        for at in range(count):
            self.begin(at)
        for at in range(count if is_taken else 0):
            self.clients.append(self.connect(at))

    def close(self):
        for relay in tuple(self.relays.all):
            relay.fail()
        kept = [file for pair in self.files for file in pair]
        for seat in self.seats.all:
            kept += seat.place
            for pipes in (seat.following, seat.pipes):
                if pipes:
                    pipes.close()
        for file in filter(lambda file: file >= 0, kept):
            os.close(file)
        for client in [*self.clients, self.listener]:
            client.close()
        self.loop.selector.close()

    def begin(self, at):
        """The server begins a session of a seat."""
        self.files[at] = tuple(os.open(f"/proc/self/fd/{file}", how | os.O_NONBLOCK)
                               for file, how in zip(self.seats.all[at].place, (os.O_RDONLY, os.O_WRONLY)))
        self.is_over[at] = False
        self.take(at)
        self.settle()

    def add_updates(self):
        """The stream of the updates, with a connection."""
        (rows_out, rows_in), (lines_out, lines_in) = os.pipe(), os.pipe()
        stream = Updates(self.loop, Stream(self.loop, lines_out, rows_in), self.account, None)
        self.files.append((rows_out, lines_in))
        os.set_blocking(rows_out, False)
        for kept in (self.part, self.unsaid, self.heard):
            kept.append(b"")
        self.left.append(collections.deque())
        self.is_over.append(False)
        self.clients.append(self.update(stream))
        return stream

    def update(self, stream):
        """A connection that brings updates."""
        client, connection = socket.socketpair()
        client.setblocking(False)
        stream.accept(Stream(self.loop, connection))
        self.settle()
        return client

    def connect(self, at):
        """A connection, which gets this seat: the first one that is free."""
        client = socket.socket(socket.AF_UNIX)
        client.setsockopt(socket.SOL_SOCKET, socket.SO_SNDBUF, 1 << 16)
        client.connect(self.place)
        client.setblocking(False)
        self.heard[at] = b""
        self.settle()
        assert any(relay.seat is self.seats.all[at] for relay in self.relays.all)
        return client

    def relay(self, at):
        """What passes on the rows of a connection."""
        return next(relay for relay in self.relays.all if relay.seat is self.seats.all[at])

    def settle(self):
        """Does all that can be done now."""
        while self.loop.selector.select(0) or self.loop.times and self.loop.times[0][0] <= time.monotonic():
            self.loop.turn()

    def until(self, test):
        """Waits until something has come about."""
        end = time.monotonic() + PATIENCE
        while not test() and time.monotonic() < end:
            time.sleep(0.01)
            self.settle()

    def pass_time(self, at=None):
        """Does now what is to be done later, for all or for one connection."""
        those = [relay for relay in self.relays.all if at in (None, self.number(relay))]
        self.loop.times[:] = [(0 if at is None or owner in those else then, number, owner, call)
                              for then, number, owner, call in self.loop.times]
        heapq.heapify(self.loop.times)
        self.settle()

    def say(self, at, rows):
        self.clients[at].sendall(rows)
        self.settle()

    def flood(self, at):
        self.say(at, asks(at, EACH))

    def take(self, at):
        """Reads what the server has of a seat. Whether its rows have ended, and all of them have their lines."""
        with contextlib.suppress(BlockingIOError):
            while self.files[at][0] >= 0 and not self.is_over[at]:
                if not (data := os.read(self.files[at][0], 1 << 20)):
                    self.is_over[at], data = True, b"\n"  # half a row is one, too, behind which rows end
                *whole, self.part[at] = re.split(rb"[\r\n]", self.part[at] + data)
                self.left[at].extend(filter(None, whole))
        return self.is_over[at] and not self.left[at] and not self.unsaid[at]

    def at_server(self):
        """How many rows of each connection have no line. A session whose rows have ended ends, once all of them have one."""
        for at in range(len(self.files)):
            if self.take(at):
                self.end(at)
                self.begin(at)
        return [len(rows) for rows in self.left]

    def answer(self, at, count=None, long=b""):
        """Says the lines of some rows of a connection, else of all that there are, as far as its pipe takes them. How many these are."""
        self.at_server()
        before = len(self.left[at])
        while before - len(self.left[at]) != count and self.write(at) and self.left[at]:
            self.unsaid[at] = b"ask %s v1 none%s\n" % (self.left[at].popleft().split(b",")[1], long)
        self.write(at)
        return before - len(self.left[at])

    def write(self, at):
        """Whether the pipe of a connection's lines has taken all that was said. Its session ends where nobody reads them."""
        with contextlib.suppress(BlockingIOError):
            try:
                while self.unsaid[at]:
                    self.unsaid[at] = self.unsaid[at][os.write(self.files[at][1], self.unsaid[at]):]
                    self.settle()
            except BrokenPipeError:
                self.end(at)
                self.begin(at)
        return not self.unsaid[at]

    def answer_all(self, *those, long=b""):
        """Answers these connections, else all, as long as it can. The most rows that the server had of one at once."""
        most, those = 0, those or range(len(self.files))
        is_over = False
        while not is_over:
            most = max(most, *(self.at_server()[at] for at in those))
            is_over = not sum([self.answer(at, long=long) for at in those])
        self.at_server()
        return most

    def end(self, at):
        """The server ends a session, and both its files."""
        for file in self.files[at]:
            os.close(file)
        self.files[at], self.part[at], self.unsaid[at] = (-1, -1), b"", b""
        self.left[at].clear()
        self.settle()

    def hear(self, at):
        """The lines of a connection so far, and whether these are all."""
        with contextlib.suppress(BlockingIOError):
            while more := self.clients[at].recv(1 << 20):
                self.heard[at] += more
                self.settle()
            return self.heard[at], True
        return self.heard[at], False

    def leave(self, at):
        self.clients[at].shutdown(socket.SHUT_WR)
        self.settle()

    def log(self, word):
        """The lines of the log that have this word."""
        with contextlib.suppress(BlockingIOError):
            return [line for line in os.read(self.log_file, 1 << 16).decode().splitlines(keepends=True) if word in line]
        return []

    def number(self, relay):
        return self.seats.all.index(relay.seat)

    def have_turns(self):
        """Which connections have a turn, and which wait for one."""
        return sorted(map(self.number, self.relays.turns.taken)), [*map(self.number, self.relays.turns.queue)]

    def free(self):
        """The seats that the next connections get."""
        return [self.seats.all.index(seat) for seat in self.seats.free]


def asks(at, count, first=0):
    return b"".join(b"ask,%d,1.1.1.1,2.2.2.2,0,5,0x0,0x0,0x0,\n" % (at * 1000 + number) for number in range(first, first + count))


def lines(at, count, first=0, long=b""):
    return b"".join(b"ask %d v1 none%s\n" % (at * 1000 + number, long) for number in range(first, first + count))
