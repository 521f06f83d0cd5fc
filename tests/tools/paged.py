"""A run of `routed-tools page` beside one of listen, what is read of it over HTTP, and a reader of its events."""
import contextlib
import http.client
import json
import os
import re
import socket
import subprocess
import tempfile
import time
import types

from checks import TOOLS, TOP
from program.serving import PATIENCE, Lines, has_come
from tools.fronts import Connection, Front

PLACES = os.path.join(TOP, "examples/germany.places")
BERLIN, BONN = "192.168.0.3", "192.168.0.5"  # of the example
PAGE = os.environ.get("PAGE", f"{TOOLS} page").split()  # another one, to see these tests fail


def rows_of(name):
    """An example's text."""
    with open(os.path.join(TOP, "examples", name), encoding="utf-8") as file:
        return file.read()


GERMANY = rows_of("germany.journal")


class Paged:
    """A run of listen, and one of page. `url` leads to the page, and `token` is that of its start."""

    def __init__(self, path, room, *words, journal=None, listen=(), ask=None, tool=PAGE):
        self.room, self.path = room, path
        self.ask, self.updates, self.watch, self.metrics = (os.path.join(room, name) for name in ("ask", "updates", "watch", "metrics"))
        self.journal = os.path.join(room, "journal")
        self.front, self.version, self.listen = None, 0, listen
        self.updating = None
        self.words = [*tool, "--program", path, "--ask", ask or self.ask, "--watch", self.watch, "--journal", journal or self.journal,
                      "--at", "0", *words]
        self.child = None

    def begin_server(self, journal=None, *more):
        """Starts listen, and connects to its updates."""
        self.journal = journal or self.journal
        self.front = Front(types.SimpleNamespace(path=self.path), self.room, "--watch", self.watch, "--metrics", self.metrics, *self.listen,
                           *more, journal=self.journal).__enter__()
        self.updating = Connection(self.updates)

    def end_server(self):
        if self.front:
            self.updating.socket.close()
            self.front.__exit__()
            self.front = None

    def begin_page(self):
        self.child = subprocess.Popen(self.words, stdout=subprocess.PIPE, stderr=subprocess.PIPE)
        self.said = Lines(self.child.stdout.fileno())
        self.first = [self.said.next()]
        while self.first[-1] not in ("ready\n", ""):
            self.first.append(self.said.next())
        if found := re.fullmatch(r"at (.*):([0-9]+)\n", self.first[0]):
            self.address = found[1], int(found[2])
            self.url = f"http://{found[1]}:{found[2]}/"
            self.token = re.search(r"[0-9a-f]{32}", self.get("/")[2])[0]

    def end(self):
        for process in filter(None, [self.child]):
            process.kill()
            process.wait(PATIENCE)
            process.stdout.close()
            process.stderr.close()
        self.end_server()

    def publish(self, rows):
        """A batch with these changes. The version."""
        changes = [row for row in (rows.splitlines() if isinstance(rows, str) else rows) if row]
        self.version += 1
        line = self.updating.talk("".join(f"{row}\n" for row in changes) + f"end,{self.version},{len(changes)}\n")
        if line != f"version {self.version}\n":
            raise ValueError(line)
        return self.version

    def get(self, path, method="GET", host=None, is_read=True, **fields):
        """The status, the fields and the text of an answer; events, which don't end, aren't read."""
        made = http.client.HTTPConnection(*self.address, timeout=PATIENCE)
        try:
            made.putrequest(method, path, skip_host=True, skip_accept_encoding=True)
            if host != "":
                made.putheader("Host", host or "%s:%d" % self.address)
            for name, value in fields.items():
                made.putheader(name.replace("_", "-"), value)
            made.endheaders()
            answer = made.getresponse()
            return answer.status, dict(answer.getheaders()), answer.read().decode() if is_read else ""
        finally:
            made.close()

    def call(self, name, **fields):
        """The status of a request with the token, and its JSON. A field may have several values."""
        status, _, text = self.get(f"/{name}?{query({'token': self.token, **fields})}")
        return status, json.loads(text)

    def exchange(self, data):
        """What is answered to these bytes."""
        with socket.create_connection(self.address, PATIENCE) as made:
            made.sendall(data)
            said = b""
            with contextlib.suppress(ConnectionError):
                while more := made.recv(1 << 16):
                    said += more
            return said.decode("latin-1")

    def figures(self):
        found = re.findall(r'(?m)^(\w+)(?:\{\w+="([^"]*)"\})? ([-+.\w]+)$', self.get("/metrics")[2])
        return {(name, value or None): float(number) for name, value, number in found}


def query(fields):
    from urllib.parse import urlencode
    return urlencode([(name, one) for name, value in fields.items() for one in (value if isinstance(value, list) else [value])])


class Events:
    """A page that reads events, as a browser does."""

    def __init__(self, at, buffer=None):
        self.socket = socket.socket()
        if buffer:
            self.socket.setsockopt(socket.SOL_SOCKET, socket.SO_RCVBUF, buffer)
        self.socket.settimeout(PATIENCE)
        self.socket.connect(at.address)
        self.socket.sendall(f"GET /events?token={at.token} HTTP/1.1\r\nHost: localhost\r\n\r\n".encode())
        self.left, self.is_open = b"", False

    def next(self, seconds=PATIENCE):
        """The next event's name and data; None at the end, or where none comes in time."""
        end = time.monotonic() + seconds
        while True:
            if not self.is_open and b"\r\n\r\n" in self.left:
                self.head, _, self.left = self.left.partition(b"\r\n\r\n")
                self.is_open = True
            if self.is_open and b"\n\n" in self.left:
                text, _, self.left = self.left.partition(b"\n\n")
                if text.startswith(b"event: "):
                    name, data = text.decode().split("\n")
                    return name.removeprefix("event: "), json.loads(data.removeprefix("data: "))
                continue
            if not has_come(self.socket, max(0, end - time.monotonic())):
                return None
            more = self.socket.recv(1 << 20)
            if not more:
                return None
            self.left += more

    def until(self, name, test=lambda data: True, seconds=PATIENCE):
        """The data of the next event of this name that passes a test; None where none comes in time."""
        end = time.monotonic() + seconds
        while time.monotonic() < end:
            found = self.next(end - time.monotonic())
            if found is None:
                return None
            if found[0] == name and test(found[1]):
                return found[1]
        return None

    def shown(self, version, seconds=PATIENCE):
        """The data of the event by which this version is shown: its own, or that of the whole network."""
        end = time.monotonic() + seconds
        while found := self.next(end - time.monotonic()):
            if found[0] in ("network", "version") and found[1]["version"] == version:
                return found[1]
        return None

    def close(self):
        self.socket.close()


@contextlib.contextmanager
def paged(path, rows, *words, **how):
    """A server whose first version has these rows, None for no version, and its page. `path` is the program's."""
    with tempfile.TemporaryDirectory() as room:
        at = Paged(path, room, *words, **how)
        try:
            at.begin_server()
            if rows:
                at.publish([row for row in rows.splitlines() if not row.startswith("end,")])
            at.begin_page()
            yield at
        finally:
            at.end()
