"""PCCs whose TCP connections are reset, at a `routed-tools pcep` that serves the PCC beside them each time: in each state of a session,
which KINDS has."""
import signal
import tempfile
import time

from pcep.beside import OPENED, TO_NORTH, Client, Run, addresses, begun, wait
from pcep.played import NORTH, PATH, request, rows
from tools.fronts import AT_ONCE, RESETS, reset

from routed.pcep import wire
from routed.pcep.wire import pack

ASKED = 5  # requests of a PCC that wait for the server
LARGE, REPLIES = 1000, 60  # bytes of an object that comes back in each reply, and the replies that wait for a PCC
NARROW, SEGMENT = 2304, 536  # bytes that a PCC takes unread, and of a segment: so the kernel keeps few of those that are sent to it
SOON, OF_ALL = 0.1, 0.99  # seconds in which the PCC beside them is answered, and in how many of its requests
OPEN = wire.message(wire.OPEN, pack(wire.O_OPEN, bytes([0x20, 30, 120, 9])))


class Reset(Client):
    """A PCC whose connection ends by a reset."""

    def reset(self):
        self.file.close()
        reset(self.socket)


def before_open(run, clients):
    """Every other one is reset at once, maybe before it is accepted; the others once they have read the front's Open."""
    for at, client in enumerate(clients):
        if at % 2:
            client.read()


def before_keepalive(run, clients):
    for client in clients:
        client.socket.sendall(OPEN)
        client.read()


def after_open(run, clients):
    for client in clients:
        client.open()


def in_a_message(run, clients):
    """Each has sent a beginning of a message, of another length each."""
    for at, client in enumerate(clients):
        client.open()
        client.socket.sendall(request()[:at + 1])


def requests_wait(run, clients):
    """The server stands still, and the front has read the requests once it has answered the wrong one behind them."""
    for client in clients:
        client.open()
    run.listen.send_signal(signal.SIGSTOP)
    try:
        for client in clients:
            client.ask(request() * ASKED + request(ends=b""))
        for client in clients[1:]:
            client.reset()
    finally:
        run.listen.send_signal(signal.SIGCONT)


def replies_wait(run, clients):
    """Each reply is large, and no PCC reads one."""
    before = answered(run)
    one = request(pack(99, bytes(LARGE)))[4:]
    for client in clients:
        client.open()
        client.socket.sendall(wire.message(wire.REQUEST, pack(wire.O_SVEC, bytes(LARGE)), one * REPLIES) * 2)
    wait(lambda: answered(run) == before + len(clients) * REPLIES * 2, 0.005)
    run.waiting = min(len(clients) * REPLIES * 4 * LARGE - kept(run.port), getattr(run, "waiting", 1 << 30))


def too_many_messages(run, clients):
    """Each has sent more than the front reads in a second."""
    for client in clients:
        client.open()
        client.socket.sendall(wire.message(wire.KEEPALIVE) * 2000)


def synchronizing(run, clients):
    """Each has reported some LSPs, and not their end."""
    for at, client in enumerate(clients):
        client.open()
        for number in range(at % 4 + 1):
            client.report(number + 1, ero=addresses(NORTH), name=b"%d" % number)


def updated(run, clients):
    """Each has an update that it hasn't answered."""
    for at, client in enumerate(clients):
        client.open()
        client.report(1, name=b"%d" % at)
        client.report(0, 0)
        if client.read() != TO_NORTH:
            raise OSError("there is no update")


def answered(run):
    return run.figures().get('requests_total{outcome="route"}', 0)


def kept(port):
    """Bytes that the kernel has taken from the front, or for a PCC, and that no PCC has read."""
    with open("/proc/net/tcp", encoding="ascii") as table:
        lines = [line.split() for line in table][1:]
    sent = sum(int(line[4].split(":")[0], 16) for line in lines if int(line[1].split(":")[1], 16) == port)
    return sent + sum(int(line[4].split(":")[1], 16) for line in lines if int(line[2].split(":")[1], 16) == port)


KINDS = (before_open, before_keepalive, after_open, in_a_message, requests_wait, replies_wait, too_many_messages, synchronizing, updated)


def resets(program, checks):
    with tempfile.TemporaryDirectory() as room:
        checks.part("resets", reset_all, program, checks, room)


def reset_all(program, checks, room):
    """After each few resets another PCC has a session and is answered, and so is one that was there before."""
    batches, start, times, count = -(-RESETS // AT_ONCE // len(KINDS)), time.monotonic(), [], 0
    with Run(program.path, room) as run:
        run.publish(*rows())
        first = begun(run, "127.0.15.1")
        for kind in KINDS:
            name, found = f"resets {kind.__name__.replace('_', ' ')}", []
            takes_little = {"narrow": NARROW, "segment": SEGMENT} if kind is replies_wait else {}
            for _ in range(batches):
                try:
                    numbers = range(count, count + AT_ONCE)
                    clients = [Reset(run.port, f"127.1.{number >> 8}.{number & 255}", **takes_little) for number in numbers]
                    kind(run, clients)
                    for client in clients:
                        if client.socket.fileno() >= 0:
                            client.reset()
                    count += AT_ONCE
                    following = Client(run.port, f"127.2.{count >> 8}.{count & 255}")
                    found.append((following.open(), following.ask()))
                    following.close()
                    for _ in range(4):
                        began = time.monotonic()
                        found[-1] += first.ask(),
                        times.append(time.monotonic() - began)
                except OSError as fault:
                    checks.fail(f"{name}: {fault} after {count}, and the front said {run.said()[-200:]!r}")
                    return
            checks.same(name, found, [(OPENED, *[PATH] * 5)] * batches)
        wait(lambda: run.figures()["sessions"] == 1)
        lines = [line for line in run.said().splitlines() if "delegated" not in line]
        checks.same("resets: sessions, and lines of the log", (run.figures()["sessions"], lines), (1, []))
        checks.true("resets: replies waited at the front", run.waiting > AT_ONCE * 32 * LARGE, run.waiting)
        checks.same("resets: SIGTERM", run.end(), 0)
    soon = sum(taken < SOON for taken in times)
    checks.true("resets: the PCC beside them is answered soon", count >= RESETS and soon >= OF_ALL * len(times), sorted(times)[-20:])
    print(f"resets: {count}, 99 of 100 answers beside them within {1e3 * sorted(times)[int(OF_ALL * len(times))]:.0f} ms, "
          f"{time.monotonic() - start:.0f} s")
