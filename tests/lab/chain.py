"""The chain of the lab: the feed beside router 1, `routed serve` behind it, and a client that asks. All times are of one clock."""
import contextlib
import os
import re
import select
import signal
import subprocess
import threading
import time

from checks import TOOLS
from lab.routers import CIRCUITS, ROOM, address, await_file, router_id, within

HERE = os.path.dirname(os.path.abspath(__file__))
ENDS = 1, 6  # the routers that the request is from and to
ASK = f"{router_id(ENDS[0])},{router_id(ENDS[1])},0,1000,0x0,0x0,0x0,"
OWNERS = {address(a, b): a for pair in CIRCUITS for a, b in (pair[:2], pair[1::-1])}
PATIENCE = 300.0  # seconds that a line or a route is awaited; with the timers of OSPF a change takes up to some 60
STEP, LATER, LONG = 0.005, 0.05, 2.0  # seconds from one request to the next, at first and once a route is awaited for so long


class Fault(Exception):
    """Why the run can't go on."""


def path_of(line):
    """The version of a reply, and the routers of its route: none where there is no route."""
    found = re.fullmatch(r"ask \d+ v(\d+) (?:route cost=.* ero=([0-9a-f]+)|none|unknown-from|unknown-to)\n", line)
    if not found:
        raise Fault(f"no reply: {line!r}")
    hops = bytes.fromhex(found[2] or "")[4:]
    owners = [OWNERS.get(".".join(map(str, hops[at + 2:at + 6]))) for at in range(0, len(hops), 8)]
    return int(found[1]), [ENDS[0], *owners] if owners else []


def put(pipe, data):
    """Writes it all; where the reader has ended there is nobody to read it."""
    with contextlib.suppress(OSError):
        pipe.write(data)
        pipe.flush()


class Chain:
    PARTS = "all", "OSPF", "feed", "routed"

    def __init__(self, program, collect, folder):
        self.journal, self.asks, self.replies = (os.path.join(folder, f"lab.{kind}") for kind in ("journal", "asks", "replies"))
        self.begin(ENDS[0])
        self.count, self.unread = 0, b""
        rows, lines = (os.path.join(ROOM, f"client.{kind}") for kind in ("rows", "lines"))
        os.mkfifo(rows)
        os.mkfifo(lines)
        self.rows = os.open(rows, os.O_RDWR)  # both ends, so that this doesn't wait for the program
        self.lines = os.open(lines, os.O_RDONLY | os.O_NONBLOCK)
        pipes = {"stdin": subprocess.PIPE, "stdout": subprocess.PIPE}
        words = [program, "serve", "--explain", "--journal", self.journal, "--client", f"{rows}={lines}"]
        self.program = subprocess.Popen(words, **pipes)
        await_file(self.journal, self.program, "routed serve")  # it is opened last
        self.kept = [open(path, "w", encoding="ascii") for path in (self.asks, self.replies)]
        self.feed = subprocess.Popen([*within(ENDS[0]), TOOLS, "feed", "--collect", str(collect)], **pipes)
        for task in (self.take_rows, self.take_lines):
            threading.Thread(target=task, daemon=True).start()

    def begin(self, router):
        """Begins to watch the router beside which the feed is."""
        if os.path.exists(self.journal):
            raise Fault("the journal is there already")
        self.known, self.batches, self.versions = [], {}, {}  # when the router knew of a change; a batch was written; its line came
        self.told = threading.Condition()
        words = [*within(router), os.path.join(HERE, "lab"), "--watch"]
        self.watch = subprocess.Popen(words, stdin=subprocess.DEVNULL, stdout=subprocess.PIPE)
        threading.Thread(target=self.take_times, daemon=True).start()

    def take_times(self):
        for line in self.watch.stdout:
            self.known.append(float(line))

    def take_rows(self):
        """Passes the feed's asks and batches to the program, each in one write."""
        text = b""
        for row in self.feed.stdout:
            text += row
            fields = row.split(b",")
            if fields[0] == b"end":
                self.batches[int(fields[1])] = time.monotonic()
            if fields[0] in (b"ask", b"end"):
                put(self.program.stdin, text)
                text = b""
        with contextlib.suppress(OSError):
            self.program.stdin.close()

    def take_lines(self):
        """Passes the program's lines to the feed."""
        for line in self.program.stdout:
            with self.told:
                if line.startswith(b"version "):
                    self.versions[int(line.split()[1])] = time.monotonic()
                self.told.notify_all()
            put(self.feed.stdin, line)

    def ask(self):
        """The version of an answer, and its route as routers."""
        self.count += 1
        row = f"ask,{self.count},{ASK}\n"
        os.write(self.rows, row.encode())
        while b"\n" not in self.unread:
            ready = select.select([self.lines], [], [], PATIENCE)[0]
            more = os.read(self.lines, 1 << 16) if ready else b""
            if not more:
                raise Fault("no answer")
            self.unread += more
        line, _, self.unread = self.unread.partition(b"\n")
        for file, text in zip(self.kept, (row, line.decode() + "\n")):
            file.write(text)
        return path_of(line.decode() + "\n")

    def processes(self):
        return [("the feed", self.feed), ("routed serve", self.program), ("what watches the router", self.watch)]

    def look(self):
        """Checks that all parts still run."""
        for part, process in self.processes():
            if process.poll() is not None:
                raise Fault(f"{part} ended with status {process.returncode}")

    def answered(self, path):
        """Asks until the route is this one. The version of that answer, once its line has come."""
        start = time.monotonic()
        version, found = self.ask()
        while found != path:
            self.look()
            if time.monotonic() > start + PATIENCE:
                raise Fault(f"the route is {found} after {PATIENCE:g} s, and not {path}")
            time.sleep(STEP if time.monotonic() < start + LONG else LATER)
            version, found = self.ask()
        with self.told:
            if not self.told.wait_for(lambda: version in self.versions, PATIENCE):
                raise Fault(f"no line of version {version}")
        return version

    def parts(self, start, version):
        """Seconds from the start of an event to the line of this version, and their parts: until router 1 knew of the first
        change that the batch has, from there until the batch was written, and from there to the line."""
        written, told = self.batches[version], self.versions[version]
        since = max(start, self.batches.get(version - 1, start))
        known = min((at for at in self.known if since <= at <= written), default=written)
        return told - start, known - start, written - known, told - written

    def rest(self, seconds):
        """Waits until router 1 has known of no change, and no batch was written, for so long."""
        while (left := max([*self.known[-1:], *self.batches.values()]) + seconds - time.monotonic()) > 0:
            time.sleep(left)

    def pairs(self):
        """The files of asks and replies, for the audit."""
        return [(self.asks, self.replies)]

    def end(self):
        """Ends the feed, then the program and its client; that each ends as it should."""
        self.feed.send_signal(signal.SIGTERM)
        feed = self.feed.wait()
        os.close(self.rows)
        statuses = feed, self.program.wait()
        for file in self.kept:
            file.close()
        if statuses != (0, 0):
            raise Fault(f"the feed ended with status {statuses[0]}, and routed serve with {statuses[1]}")
