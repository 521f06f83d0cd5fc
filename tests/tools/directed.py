"""Direct connections to `routed-tools listen`, of well-behaved programs and of others, and judgements of what they read."""
import contextlib
import os
import re
import signal
import socket
import time

from program.serving import PATIENCE, Lines, has_come
from tools.fronts import Front

WORD = b"direct 1\n"
IDS = 100_000  # that one program has
ROW = "ask,%d,1.1.1.1,2.2.2.2,0,5,0x0,0x0,0x0,\n"


class Busy(Exception):
    """No seat is free."""


def fronted(program, room, *words):
    """A run of routed-tools listen with a place of direct connections, and its path."""
    place = os.path.join(room, "ask.direct")
    return Front(program, room, "--direct", place, "--metrics", os.path.join(room, "metrics"), *words), place


class Direct:
    """A direct connection: rows are written to one of its ends, and lines are read from the other."""

    def __init__(self, place):
        self.socket = socket.socket(socket.AF_UNIX)
        self.socket.connect(place)
        self.word, self.ends, _, _ = socket.recv_fds(self.socket, 100, 4)
        if self.word != WORD or len(self.ends) != 2:
            self.close()
            raise Busy(self.word)
        self.lines = Lines(self.ends[1])

    def say(self, rows):
        data = rows.encode("latin-1")
        while data:
            data = data[os.write(self.ends[0], data):]

    def talk(self, rows):
        self.say(rows)
        return self.lines.next()

    def leave(self):
        """Ends its rows, and hears its lines to their end. The connection ends then, too."""
        self.socket.shutdown(socket.SHUT_WR)
        lines = "".join(self.lines.rest())
        last = self.socket.recv(100)
        self.close()
        return lines, last

    def hang_up(self):
        """Closes the connection alone."""
        self.socket.close()

    def close(self):
        self.socket.close()
        for file in self.ends:
            os.close(file)
        self.ends = []


def soon(place, seconds=10):
    """A direct connection, once there is a seat for it."""
    end = time.monotonic() + seconds
    while True:
        try:
            return Direct(place)
        except (Busy, BlockingIOError):
            if time.monotonic() > end:
                raise
        time.sleep(0.005)


def files_of(front):
    """How many descriptors the front has, and its server."""
    return [len(os.listdir(f"/proc/{number}/fd")) for number in (front.child.pid, front.server())]


class Judge:
    """Whether lines are the reference's replies to a program's own rows. The row `at` has the id `first + at`."""

    def __init__(self, versions, first):
        self.versions, self.first, self.said, self.heard = versions, first, 0, 0

    def rows(self, count):
        """So many more rows."""
        asks, self.said = self.versions.asks, self.said + count
        return "".join(re.sub(r"^ask,\d+", f"ask,{self.first + at}", asks[at % len(asks)]) + "\n"
                       for at in range(self.said - count, self.said))

    def fault(self, line):
        """What is wrong with the next line, or nothing."""
        at, self.heard = self.heard, self.heard + 1
        found = re.match(r"ask (\d+) v(\d+) ", line)
        if not found or int(found[1]) != self.first + at or at >= self.said or int(found[2]) >= len(self.versions.replies):
            return f"line {at} of {self.said} rows from {self.first} on: {line!r}"
        replies = self.versions.replies[int(found[2])]
        wanted = re.sub(r"^ask \d+", f"ask {found[1]}", replies[at % len(replies)])
        return "" if line == f"{wanted}\n" else f"{line!r} in place of {wanted!r}"


    def is_own(self, line):
        """Whether a line is the reply to a row of this program, or refuses a row."""
        found = re.match(r"ask (\d+) v\d+ |row \d+ refused: ", line)
        return bool(found) and (not found[1] or int(found[1]) // IDS == self.first // IDS)


# ---- programs that go in the middle. Each is a process of its own, which may be killed at any moment


def honest(made, judge, _):
    for _ in range(20):
        yield judge.fault(made.talk(judge.rows(1)))


def ahead(made, judge, draw):
    """Many rows before their lines are read."""
    made.say(judge.rows(count := draw.randrange(1, 200)))
    for _ in range(count):
        yield judge.fault(made.lines.next())


def half_a_row(made, judge, draw):
    made.say(judge.rows(3) + judge.rows(1)[:draw.randrange(1, 30)])
    for _ in range(3):
        yield judge.fault(made.lines.next())


def open_quote(made, judge, _):
    """Its session ends at the quotation mark, and its connection with it."""
    made.say(judge.rows(2) + 'ask,"5,1.1.1.1\n' + ROW % 5 * 100)
    for _ in range(2):
        yield judge.fault(made.lines.next())
    yield "".join(made.lines.rest()) and "a line behind a quotation mark"
    yield made.socket.recv(100) and "the connection goes on behind a quotation mark"


def shut(made, judge, draw):
    """It ends its rows, with a half one, and reads its lines to their end."""
    made.say(judge.rows(draw.randrange(1, 300)) + "ask,5,1.1.1.1")
    made.socket.shutdown(socket.SHUT_WR)
    for line in made.lines.rest():
        yield judge.fault(line)
    yield judge.heard != judge.said and f"{judge.heard} lines of {judge.said} rows up to the end"


def silent(made, judge, _):
    """It never reads, and writes until nobody takes more."""
    os.set_blocking(made.ends[0], False)
    end = time.monotonic() + 0.2
    with contextlib.suppress(BlockingIOError, BrokenPipeError):
        while time.monotonic() < end:
            os.write(made.ends[0], judge.rows(50).encode())
    time.sleep(0.05)
    yield ""


def heir(made, judge, draw):
    """A child keeps the ends, and uses them when the connection has ended: it may read lines of its own rows, and no others."""
    made.say(judge.rows(5))
    if os.fork() == 0:
        made.hang_up()
        end = time.monotonic() + 0.3
        is_flooding = draw.random() < 0.5
        os.set_blocking(made.ends[0], is_flooding and draw.random() < 0.5)
        signal.setitimer(signal.ITIMER_REAL, 0.4)  # where its write blocks
        with contextlib.suppress(BrokenPipeError):
            while time.monotonic() < end:
                with contextlib.suppress(BlockingIOError):
                    os.write(made.ends[0], judge.rows(50 if is_flooding else 1).encode())
                while not is_flooding and has_come(made.ends[1], 0.01) and (line := made.lines.next()):
                    if line.endswith("\n") and not judge.is_own(line):
                        yield f"an heir of {judge.first} reads {line!r}"
        os._exit(0)
    yield ""


PROGRAMS = [honest, honest, ahead, half_a_row, open_quote, shut, silent, heir]


def run(place, kind, versions, number, draw, told):
    """Runs a program as a process, which tells what is wrong, or how many lines it read. The number of the process."""
    process = os.fork()
    if process:
        return process
    try:
        judge = Judge(versions, number * IDS)
        made = soon(place)
        for fault in kind(made, judge, draw):
            if fault:
                os.write(told, f"{kind.__name__} {number}: {fault}"[:2000].encode() + b"\n")
        os.write(told, b"%d\n" % judge.heard)
        if draw.random() < 0.1:
            time.sleep(PATIENCE)  # it stays until it is killed, however fast the machine is
        if draw.random() < 0.5:
            made.close()
    except BaseException as fault:  # it may say so, and no more
        os.write(told, f"{kind.__name__} {number}: {type(fault).__name__} {fault}"[:2000].encode() + b"\n")
    os._exit(0)
