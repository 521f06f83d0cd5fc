"""An OSPF API that is played, the LSAs that it sends, and a feed at work, whichever its protocol is.

However slow the machine is, the same comes of it: the feed goes by a clock that the test moves on, once the feed has
read all that it was sent and has nothing more to do. Where the real program is beside it, the clock is the real one,
and what has to come is waited for.
"""
import os
import re
import select
import selectors
import signal
import socket
import struct
import subprocess
import sys
import time

sys.dont_write_bytecode = True
sys.path.insert(1, os.path.dirname(os.path.dirname(os.path.abspath(__file__))))  # for a feed in a process of its own
from checks import TOOLS

HERE = os.path.dirname(os.path.abspath(__file__))
FEED = [TOOLS, "feed"]
IN_PROCESS = [sys.executable, os.path.abspath(__file__)]  # the feed, where `played` runs it
NAN, INFINITE = float("nan"), float("inf")
MANY_DIGITS = "1" * 5000  # more than Python makes a number of
A, B, C = "1.1.1.1", "2.2.2.2", "3.3.3.3"
A_B, B_A = "10.0.0.0", "10.0.0.1"  # addresses of the circuit between A and B; the first ends in .0
B_C, C_B = "10.0.0.2", "10.0.0.3"
PATIENCE = 120  # real seconds that a test waits for what has to come
COLLECT = 0.2  # seconds that the feed collects changes for
QUIET = 3 * COLLECT  # seconds in which nothing may come
LATE = 10.0  # seconds of the test's clock by which what has to come is there
HOLD = 20.0  # seconds that the feed holds links by default
NOON = 1000.0  # what the test's clock shows first
RUN = "0123456789abcdef"  # the name of the program's run
REPORT = struct.Struct("dQ")  # the time, and the bytes that were read by then


def raw(address):
    return socket.inet_aton(address)


def lsa(kind, number, router, body, sequence=1, age=1):
    return struct.pack(">HBB4s4sIHH", age, 2, kind, raw(number), raw(router), 0x80000000 + sequence, 0, 20 + len(body)) + body


def router_lsa(router, *links, **more):
    """Links as (neighbor, local, cost); a stub network and a link with a metric of its own kind of service stand first."""
    parts = [struct.pack(">4s4sBBH", raw("10.9.9.0"), raw("255.255.255.0"), 3, 1, 10) + bytes(4)]
    parts += [struct.pack(">4s4sBBH", raw(neighbor), raw(local), 1, 0, cost) for neighbor, local, cost in links]
    return lsa(1, router, router, struct.pack(">HH", 0, len(parts)) + b"".join(parts), **more)


def tlv(kind, data):
    return struct.pack(">HH", kind, len(data)) + data + bytes(-len(data) % 4)


def te_lsa(router, local, neighbor, remote, number="1.0.0.2", kind=1, metric=7, group=None, free=1000.0, most=2000.0, srlgs=(), **more):
    """A TE LSA of a link; what is None is left out. Each of `srlgs` is the numbers or the bytes of a sub-TLV 16."""
    free = [free] * 8 if isinstance(free, float) else free
    values = [(1, ">B", kind), (2, "4s", neighbor and raw(neighbor)), (3, "4s", local and raw(local)),
              (4, "4s", remote and raw(remote)), (5, ">I", metric), (6, ">f", most), (9, ">I", group)]
    link = b"".join(tlv(at, struct.pack(form, value)) for at, form, value in values if value is not None)
    link += tlv(8, struct.pack(">8f", *free)) if free else b""
    link += b"".join(tlv(16, each if isinstance(each, bytes) else struct.pack(f">{len(each)}I", *each)) for each in srlgs)
    return lsa(10, number, router, tlv(1, raw("9.9.9.9")) + tlv(2, link), **more)


def message(kind, body):
    return struct.pack(">BBHI", 1, kind, len(body), 2) + body


def update(*lsas, area="0.0.0.0"):
    return b"".join(message(12, bytes(4) + raw(area) + bytes(4) + each) for each in lsas)


def removal(*lsas):
    return b"".join(message(13, bytes(12) + each) for each in lsas)


def row(router, local, neighbor, remote, metric=7, group=0, free=1000):
    free = ",".join(map(str, free if isinstance(free, list) else [free] * 8))
    return f"put,{router},{local},{neighbor},{remote},{metric},0x{group:08x},{free}"


ROUTERS = router_lsa(A, (B, A_B, 300)), router_lsa(B, (A, B_A, 5))
PAIR = update(*ROUTERS, te_lsa(A, A_B, B, B_A), te_lsa(B, B_A, A, A_B))
PAIR_ROWS = [row(A, A_B, B, B_A), row(B, B_A, A, A_B)]


class Router:
    """An OSPF API: takes a connection, connects back, and sends what it is told."""

    name, is_reflected = "ospf", False

    def __init__(self, port=0):
        self.listening = socket.create_server(("127.0.0.1", port))
        self.listening.settimeout(PATIENCE)
        self.port = self.listening.getsockname()[1]
        self.where = f"127.0.0.1 port {self.port}"
        self.sent = 0  # bytes; the end of a connection counts as one

    def words(self):
        return ["--port", str(self.port)]

    def accept(self):
        self.asking, peer = self.listening.accept()
        self.hearing = socket.create_connection((peer[0], peer[1] + 1))
        self.asking.settimeout(PATIENCE)
        self.requests = self.take(24)
        self.asking.sendall(message(10, bytes(4)) * 2)
        self.sent += 24

    def take(self, count):
        data = b""
        while len(data) < count and (more := self.asking.recv(count - len(data))):
            data += more
        return data

    def is_waiting(self):
        """Whether somebody connects."""
        return bool(select.select([self.listening], [], [], 0)[0])

    def end_of(self):
        """The last bytes before the feed ends the connection."""
        return self.take(1)

    def send(self, data):
        self.hearing.sendall(data)
        self.sent += len(data)

    def hang_up(self):
        self.asking.close()
        self.hearing.close()
        self.sent += 1

    # ---- what scenarios of both protocols say

    @staticmethod
    def put(router, local, neighbor, remote, **more):
        return update(te_lsa(router, local, neighbor, remote, **more))

    @staticmethod
    def gone(router, local, neighbor, remote, **more):
        return removal(te_lsa(router, local, neighbor, remote, **more))

    @staticmethod
    def routers(*ways):
        """The router LSAs of circuits, each of a router, its local address, the neighbor and the remote address."""
        both = [*ways, *((neighbor, remote, router, local) for router, local, neighbor, remote in ways)]
        return update(*[router_lsa(one, *[(far, local, 300) for router, local, far, _ in both if router == one])
                        for one in sorted({router for router, *_ in both})])

    @staticmethod
    def stub(router, *links):
        return update(router_lsa(router, *[(neighbor, local, 65535) for local, neighbor in links], sequence=2))


def played(clock, reports, *words):
    """The feed in a process of its own, with all patience for connections and, where the ends of two pipes are given, by
    the clock that comes from the first. Each time that nothing is left to do, it says so to the second."""
    from routed.feed import command
    from routed.feed.ospf import ospf
    ospf.PATIENCE = PATIENCE
    if clock >= 0:
        at, count = NOON, 0
        wait, read = selectors.PollSelector.select, os.read

        def counted(source, most):
            nonlocal count
            data = read(source, most)
            count += len(data) or 1
            return data

        def selected(self, patience=None):
            nonlocal at
            if clock not in self.get_map():
                self.register(clock, selectors.EVENT_READ)
            end = None if patience is None else at + patience
            while True:
                ready = wait(self, 0)
                is_due = end is not None and at >= end
                if not ready and not is_due:
                    if not any(key.events & selectors.EVENT_WRITE for key in self.get_map().values()):
                        os.write(reports, REPORT.pack(at, count))
                    ready = wait(self)
                found = [(key, events) for key, events in ready if key.fd != clock]
                if found or is_due:
                    return found
                at, = struct.unpack("d", read(clock, 8))

        time.monotonic, selectors.PollSelector.select, os.read = lambda: at, selected, counted
    sys.exit(command.main(list(words)))


class Feed:
    """A feed at work, whose program is the test, or a command; then it goes by the real clock. The program is at a version,
    and at a greater one than 0 it answers what the feed asks next by the lines that are told."""

    def __init__(self, router, *words, command=(), version=0, told=(), is_accepted=True, run=f"run {RUN}", is_real=False):
        self.run = run
        ends = ("-1", "-1")
        self.is_real = bool(command) or is_real
        if not self.is_real:
            (clock, self.clock), (self.reports, reports) = os.pipe(), os.pipe()
            ends = str(clock), str(reports)
        self.process = subprocess.Popen([*IN_PROCESS, *ends, *router.words(), *words, *command],
                                        stdin=subprocess.PIPE, stdout=subprocess.PIPE, stderr=subprocess.PIPE, bufsize=0,
                                        pass_fds=() if self.is_real else (clock, reports))
        self.unread, self.said = b"", b""
        self.at, self.told, self.reported = NOON, 0, None
        self.router = router
        router.sent = 0
        if not self.is_real:
            os.close(clock)
            os.close(reports)
        if not command and "--once" not in words:
            self.begin(version, told)
            if {"--sids", "--srlgs"} & {*words} and version is not None:
                self.name_run()
        if is_accepted:
            router.accept()

    def __del__(self):
        for end in () if self.is_real else (self.clock, self.reports):
            os.close(end)

    def begin(self, version, told):
        """Answers the feed's first rows: at which version the program is, and what is there."""
        asked = re.fullmatch(r"ask,(\d+),0\.0\.0\.0,0\.0\.0\.1,0,0,0x0,0x0,0x0,", first := self.line() or "")
        if not asked:
            raise AssertionError(f"the feed doesn't ask for the version at first: {first}")
        if version is None:
            return
        self.say("version 9\nask 9 v9 none\nbatch 3 refused: expected 9\nrow 9 refused: kind\nover 9.9.9.9,10.9.9.9 7\nlost 9\nbase 9 v9\n"
                 f"ask {asked[1]} v{version} unknown-from")
        if version and (row := self.line()) != "snapshot":
            raise AssertionError(f"the feed doesn't ask what is there: {row}")
        for line in told:
            self.say(line)

    def name_run(self):
        """Answers the row by which the feed asks for the name of the program's run."""
        if (row := self.line()) != "run":
            raise AssertionError(f"the feed doesn't ask for the run: {row}")
        self.say(self.run)

    def ended(self):
        """The status of a feed that ends by itself, what it wrote since, and what it said."""
        status = self.process.wait(PATIENCE)
        while self.hear(0):
            pass
        return status, self.unread.decode(), self.said.decode()

    def hear(self, patience=PATIENCE):
        """Takes what the feed wrote, once there is something; whether there was."""
        out, err = self.process.stdout.fileno(), self.process.stderr.fileno()
        ready = select.select([out, err] if self.is_real else [out, err, self.reports], [], [], max(0.0, patience))[0]
        found = b""
        for source in ready:
            data = os.read(source, 1 << 16)
            found += data
            if source == out:
                self.unread += data
            elif source == err:
                self.said += data
            elif data:
                self.reported = REPORT.unpack(data[-REPORT.size:])
        return bool(found)

    def settle(self):
        """Waits until the feed has read all that it was sent, and has nothing more to do at its time."""
        while self.reported != (self.at, self.router.sent + self.told):
            if not self.hear():
                raise AssertionError(f"the feed ended or hangs at {self.reported}: {self.said.decode()}")
        while self.hear(0):
            pass

    def go(self, seconds):
        """Moves the feed's clock on."""
        self.settle()
        self.at += seconds
        os.write(self.clock, struct.pack("d", self.at))

    def waits(self, seconds):
        self.go(seconds)
        self.settle()

    def line(self, patience=None):
        """The next line, None where none comes in time."""
        real = PATIENCE if patience is None else patience
        end = time.monotonic() + real if self.is_real else self.at + (LATE if patience is None else patience)
        if not self.is_real:
            self.settle()
        while b"\n" not in self.unread:
            if self.is_real:
                if time.monotonic() > end or not self.hear(end - time.monotonic()):
                    return None
            elif self.at + 1e-6 < end:
                self.waits(min(COLLECT, end - self.at))
            else:
                return None
        line, self.unread = self.unread.split(b"\n", 1)
        return line.decode()

    def again(self):
        """Lets the feed connect again."""
        self.go(1.1)
        self.router.accept()
        self.settle()

    def batch(self, answer=None, before=lambda: None):
        """The rows of the next batch without its end row, and the number; the answer by default accepts it, and `before` is called
        before it is said."""
        rows = []
        while (line := self.line()) is not None and not line.startswith("end,"):
            rows.append(line)
        if line is None:
            raise AssertionError(f"no batch, {rows[:3]}")
        _, number, count = line.split(",")
        if int(count) != len(rows):
            raise AssertionError(f"a count of {count} for {len(rows)} rows")
        before()
        self.say(answer or f"version {number}")
        return rows, int(number)

    def say(self, text):
        self.process.stdin.write(f"{text}\n".encode())
        self.told += len(text) + 1

    def is_quiet(self):
        return self.line(QUIET) is None

    def rest(self, quiet=QUIET):
        """The changes of all batches, until nothing comes for a while."""
        rows = []
        while (line := self.line(quiet)) is not None:
            self.unread = line.encode() + b"\n" + self.unread
            rows += self.batch()[0]
        return rows

    def end(self):
        """Ends the feed, and returns what it wrote to standard error."""
        if not self.is_real and self.process.poll() is None:
            self.settle()
        self.process.send_signal(signal.SIGTERM)
        said = (self.said + self.process.communicate()[1]).decode()
        return said if self.process.returncode in (0, 1) else f"status {self.process.returncode}\n{said}"


def fed(*plays, bare=(), words=()):
    """The batches that come of plays of messages one after another, and what is said. Those of the indexes in
    `bare` are waited for as what shouldn't come."""
    router = Router()
    feed = Feed(router, *words)
    found = []
    for at, play in enumerate(plays):
        router.send(play)
        found.append(feed.rest() if at in bare else feed.batch()[0])
    said = feed.end()
    router.hang_up()
    return found, said


# ---- a feed that comes to a program which has a database


CHAIN_ROUTERS = router_lsa(A, (B, A_B, 1)), router_lsa(B, (A, B_A, 1), (C, B_C, 1)), router_lsa(C, (B, C_B, 1))
CHAIN_LINKS = te_lsa(A, A_B, B, B_A), te_lsa(B, B_A, A, A_B), te_lsa(B, B_C, C, C_B, number="1.0.0.3"), te_lsa(C, C_B, B, B_C)
CHAIN = update(*CHAIN_ROUTERS, *CHAIN_LINKS)
CHAIN_ROWS = [*PAIR_ROWS, row(B, B_C, C, C_B), row(C, C_B, B, B_C)]
# without the circuit B-C
BROKEN = update(CHAIN_ROUTERS[0], router_lsa(B, (A, B_A, 1), sequence=2), router_lsa(C, sequence=2), *CHAIN_LINKS)
BROKEN_DROPS = [f"drop,{B},{B_C}", f"drop,{C},{C_B}"]


def snapshot(version, rows):
    """What `routed-tools listen` answers to the row `snapshot`."""
    parts = [rows[first:first + 4096] for first in range(0, len(rows), 4096)]
    batches = [line for number, part in enumerate(parts, 1) for line in (*part, f"end,{number},{len(part)}")]
    return [f"version {version}", *batches, "snapshot end"]


Router.pair, Router.chain, Router.broken = PAIR, CHAIN, BROKEN
# A is gone without a word, too: its own LSAs stay
Router.without_a = update(CHAIN_ROUTERS[0], router_lsa(B, sequence=3), router_lsa(C, sequence=2), *CHAIN_LINKS)


def going_on(version, links, marks=0, hold=HOLD, name="ospf"):
    return (f"{name}: going on from version {version}, of {links} links and {marks} marks; "
            f"what the router doesn't tell of within {hold:g} s is dropped\n")


if __name__ == "__main__":
    played(int(sys.argv[1]), int(sys.argv[2]), *sys.argv[3:])
