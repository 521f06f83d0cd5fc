"""`routed-tools pcep` beside `routed-tools listen` and the built program, and PCCs of the test's own at real sockets."""
import os
import re
import signal
import socket
import struct
import subprocess
import time

from checks import TOOLS
from pcep.played import NORTH, PATH, SOUTH, ip, request, told
from program.serving import PATIENCE

from routed.pcep import wire
from routed.pcep.keys import set_key
from routed.pcep.wire import pack, tlv

OPENED = ["Open", "Keepalive"]
UNAVAILABLE = "NO-PATH 1"  # the server isn't there yet
SILENT = 2  # seconds without an answer
TO_NORTH, TO_SOUTH = (f"PCUpd {' '.join(route)}" for route in (NORTH, SOUTH))


class Client:
    """A PCC of the test's own."""

    def __init__(self, port, source="127.0.0.1", key=None, narrow=0, segment=0):
        self.socket = socket.socket()
        if key:
            set_key(self.socket, "127.0.0.1", key)
        if narrow:  # bytes that it takes and doesn't read
            self.socket.setsockopt(socket.SOL_SOCKET, socket.SO_RCVBUF, narrow)
        if segment:  # bytes of one
            self.socket.setsockopt(socket.IPPROTO_TCP, socket.TCP_MAXSEG, segment)
        self.socket.settimeout(SILENT if key is not None else PATIENCE)
        self.socket.bind((source, 0))
        self.socket.connect(("127.0.0.1", port))
        self.socket.settimeout(PATIENCE)
        self.file = self.socket.makefile("rb")

    def open(self):
        self.socket.sendall(wire.message(1, pack(1, bytes([0x20, 30, 120, 9]) + tlv(16, struct.pack("!I", 5)))) + wire.message(2))
        return [self.read() for _ in range(2)]

    def raw(self):
        """Kind and objects of a message; no kind at the end."""
        try:
            head = self.file.read(4)
        except ConnectionError:
            head = b""
        return (head[1], wire.objects_of(self.file.read(struct.unpack("!H", head[2:])[0] - 4))) if head else (0, [])

    def read(self):
        kind, objects = self.raw()
        return told(kind, objects) if kind else "end"

    def ask(self, data=None):
        self.socket.sendall(data or request())
        return self.read()

    def report(self, number, flags=9, ero=b"", name=b"blue", srp=0, ends=(ip(1), ip(4))):
        """Sends a report of an LSP; number 0 is the end of the synchronization."""
        more = tlv(17, name) + tlv(18, ends[0] + bytes(8) + ends[1]) if number else b""
        flags |= bool(ero) << 4  # one that has a route is UP
        self.socket.sendall(wire.message(10, *([pack(33, struct.pack("!II", 0, srp))] if srp else []),
                                         pack(32, struct.pack("!I", number << 12 | flags) + more), pack(7, ero)))

    def close(self):
        self.file.close()
        self.socket.close()


class Run:
    """`routed-tools listen` and `routed-tools pcep`."""

    def __init__(self, program, room, *words, listen=(), between=None, is_stateful=True, tool=(TOOLS, "pcep")):
        self.room, self.program, self.listen, self.words, self.version = room, program, None, listen, 0
        self.places = {word: os.path.join(room, word) for word in ("ask", "updates", "watch", "journal", "replies", "figures")}
        self.serve()
        self.held = between and between(self)
        places = self.places_of(ask="ask", metrics="figures", replies="replies")
        if is_stateful:
            places += self.places_of(watch="watch", journal="journal") + ["--stateful"]
        self.pcep = subprocess.Popen([*tool, *places, "--port", "0", *words], stdout=subprocess.PIPE,
                                     stderr=open(os.path.join(room, "said"), "wb"))
        self.port = int(self.pcep.stdout.readline().split(b":")[1])
        self.pcep.stdout.readline()

    def places_of(self, **options):
        return [word for option, name in options.items() for word in (f"--{option}", self.places[name])]

    def serve(self):
        places = self.places_of(ask="ask", updates="updates", watch="watch", journal="journal")
        self.listen = subprocess.Popen([TOOLS, "listen", "--program", self.program, *places, *self.words],
                                       stdout=subprocess.PIPE, stderr=open(os.path.join(self.room, "server"), "wb"))
        self.listen.stdout.readline()
        self.updates, self.version = socket.socket(socket.AF_UNIX), 0
        self.updates.connect(self.places["updates"])

    def publish(self, *changes):
        """Publishes a batch, and waits until the PCCs' side knows of it."""
        self.version += 1
        self.updates.sendall("".join(f"{row}\n" for row in changes).encode() + f"end,{self.version},{len(changes)}\n".encode())
        return self.updates.recv(100)

    def leave(self):
        """Ends the server."""
        self.updates.close()
        self.listen.terminate()
        self.listen.wait(PATIENCE)

    def figures(self):
        """The values of --metrics by name and label."""
        with socket.socket(socket.AF_UNIX) as reading:
            reading.connect(self.places["figures"])
            reading.sendall(b"GET /metrics HTTP/1.1\r\n\r\n")
            text = reading.makefile("rb").read().decode()
        return {name.removeprefix("routed_pcep_"): float(value) for name, value in re.findall(r"(?m)^(routed_pcep_.*) (\S+)$", text)}

    def said(self):
        with open(os.path.join(self.room, "said"), encoding="utf-8") as file:
            return file.read()

    def kept(self, number, kind):
        with open(os.path.join(self.places["replies"], f"{number}.{kind}"), encoding="ascii") as file:
            return file.read()

    def end(self):
        self.pcep.send_signal(signal.SIGTERM)
        status = self.pcep.wait(PATIENCE)
        self.leave()
        return status

    def __enter__(self):
        return self

    def __exit__(self, *_):
        for process in (self.pcep, self.listen):
            if process.poll() is None:
                process.kill()
                process.wait()


def wait(test, pause=0.05):
    end = time.monotonic() + PATIENCE
    while not test() and time.monotonic() < end:
        time.sleep(pause)


def opened(run, source="127.0.1.1"):
    """A PCC whose session is up, once the front has asked the server: one request of the PCC has been, and nothing is there yet."""
    client = Client(run.port, source)
    client.open()
    wait(lambda: client.ask() != UNAVAILABLE)
    return client


def begun(run, source="127.0.1.1"):
    """A PCC whose session is up, once the network is there."""
    client = Client(run.port, source)
    client.open()
    wait(lambda: client.ask() == PATH)
    return client


def addresses(route):
    return wire.addresses_ero(route)[4:]
