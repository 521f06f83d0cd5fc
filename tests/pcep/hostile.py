"""Mutated messages of many PCCs, and LSPs of many, at a `routed-tools pcep`, and a PCC beside them whose requests are answered soon.

By hand more of them: `MESSAGES=100000 LSPS=20000 tests/run --only hostile`."""
import contextlib
import os
import random
import socket
import struct
import tempfile
import time

from pace import allowed, sample
from pcep.beside import Client, Run, addresses, begun, wait
from pcep.excluded import SOFT, prefix, router, srlg, xro
from pcep.paired import NODE, objective, svec, two
from pcep.played import NORTH, SOUTH, bandwidth, hop, ip, lspa, metric, report, request, rows
from pcep.shared_risks import line, shared
from program.serving import PATIENCE, has_come

from routed.pcep import wire
from routed.pcep.wire import pack, tlv

MESSAGES, LSPS = (int(os.environ.get(name, most)) for name, most in (("MESSAGES", 6000), ("LSPS", 2000)))
ATTACKERS, AT_ONCE = 4, 30  # PCCs that send mutated messages, and messages of each before it waits until the front has taken them
MOST_SENT = 2  # times the messages that the front has to take; those behind the end of a session are lost
PCCS, VERSIONS = 5, 6  # that have the LSPs, and that move them
BY_ITSELF = "PCRep 10.3.4.4 cost 100"  # from 3 to 4, which nothing else here concerns
# Seconds within which the PCC beside them is answered, and in how many of its requests. In the gate other tests have the processors, too.
# So the seconds are longer there. Those in which the front itself runs are as many, by the pace of the processor beside the requests.
SOON, OF_ALL = 0.1, 0.99
BESIDE_TESTS = SOON if "MESSAGES" in os.environ else 1.0
MARK = 0xffffffff  # the id of the request behind each batch: its refusal says that the front has taken the batch
REFUSED = wire.error(10, 1, pack(2, struct.pack("!II", 0, MARK), must=True))


def whole():
    """Messages that are mutated."""
    by_labels = wire.segments_ero([("10.1.2.1", NORTH[0], 16), ("10.2.4.2", NORTH[1], 17)])[4:]
    ids = tlv(17, b"blue") + tlv(18, ip(1) + bytes(8) + ip(4))
    return [
        request(lspa(), bandwidth(1), metric(2, 500), pack(10, hop(3), must=True), pack(99, bytes(40))),
        request(xro(prefix("10.1.2.1"), router(3, **SOFT), shared("10.1.3.1/30"), srlg(7), srlg(8, **SOFT)), xro(srlg(9), must=False)),
        request(pack(8, hop(2)), bandwidth(0, 2), rp=8), request(pack(32, struct.pack("!I", 1 << 12 | 9) + ids, must=True)),
        wire.message(3, pack(11, bytes(12)), request()[4:] * 3), two(front=[svec(7, 8), objective(6)]),
        two(lspa(any_=1), front=[svec(8, 7, flags=NODE, must=False)]),
        wire.message(10, *report(1, ero=addresses(NORTH)), *report(2, ero=addresses(SOUTH), name=b"red")),
        wire.message(10, *report(5, ero=addresses(NORTH), name=b"grey", more=[xro(prefix("10.1.2.1", **SOFT), router(2), srlg(7))])),
        wire.message(10, *report(3, ero=by_labels, name=b"green", setup_type=1, srp=1)), wire.message(10, *report(0, 0)),
        wire.message(10, *report(4, 0x89, ero=b"", name=b"brown", srp=7, error=4)),
        wire.error(4, 4, pack(33, struct.pack("!II", 0, 1))),
        wire.message(5, pack(2, struct.pack("!II", 0, 7)), pack(12, bytes([0, 0, 1, 1]))),
        wire.message(5, pack(12, bytes([0, 0, 2, 1]) + tlv(2, struct.pack("!I", 1)))), wire.message(2)]


def places_of_sizes(data):
    """Where the lengths of a message and of its objects are."""
    found, at = [2], 4
    while at + 4 <= len(data):
        found.append(at + 2)
        at += max(struct.unpack_from("!H", data, at + 2)[0], 4)
    return found


def mutated(draw, messages):
    """One of the messages with some bytes changed, so that it is still cut into objects; some with parts doubled."""
    data = bytearray(draw.choice(messages))
    if draw.random() < 0.98:
        kept = {0, 1, 2, 3} | {at + more for at in places_of_sizes(data) for more in (0, 1)}
        changed = [at for at in range(len(data)) if at not in kept]
        for _ in range(draw.randrange(1, 5)):
            if changed:
                data[draw.choice(changed)] = draw.choice((0, 1, 2, 127, 128, 255, draw.randrange(256)))
    else:
        data += data[4:] * draw.randrange(1, 200)
        del data[65532:]
        struct.pack_into("!H", data, 2, len(data))
    return bytes(data)


def broken(draw, messages):
    """One of the messages that is cut, or has a wrong length."""
    data = bytearray(draw.choice(messages))
    if draw.random() < 0.5:
        struct.pack_into("!H", data, draw.choice(places_of_sizes(data)), draw.choice((0, 4, 5, 8, len(data), 0xffff)))
    else:
        del data[draw.randrange(1, len(data)):]
    return bytes(data)


def read_some(client):
    """Reads what has come, without waiting. Whether the connection goes on."""
    while has_come(client.socket, 0):
        try:
            if not client.socket.recv(1 << 18):
                return False
        except OSError:
            return False
    return True


class Beside:
    """A PCC whose requests are timed, and the processor time that the front takes until it has answered them."""

    def __init__(self, run, source):
        self.client, self.times, self.worked, self.paces, self.found = begun(run, source), [], [], [], set()
        self.clock = ~run.pcep.pid << 3 | 2  # that of the front's processor time (clock_getcpuclockid(3))
        self.request = request(ends=pack(4, ip(3) + ip(4), must=True))

    def ask(self):
        began, worked = time.monotonic(), time.clock_gettime(self.clock)
        answer = self.client.ask(self.request)
        while answer == "Keepalive":
            answer = self.client.read()
        self.found.add(answer)
        self.times.append(time.monotonic() - began)
        self.worked.append(time.clock_gettime(self.clock) - worked)
        self.paces.append(sample())

    def judge(self, checks, name):
        checks.same(f"{name}: the PCC beside them is answered each time", self.found, {BY_ITSELF})
        told = f"{len(self.times)} answers beside them"
        worked = allowed(SOON, self.paces)
        for what, times, most in (("soon", self.times, BESIDE_TESTS), ("after little work of the front", self.worked, worked)):
            times = sorted(times)
            checks.true(f"{name}: {what}", sum(taken < most for taken in times) >= OF_ALL * len(times), times[-20:])
            median, nearly, longest = (1e3 * times[int(part * (len(times) - 1))] for part in (0.5, OF_ALL, 1))
            told += f", {what}: the median {median:.1f} ms, 99 of 100 within {nearly:.1f} ms, all within {longest:.1f} ms"
        return told


class Attacker:
    """A PCC that sends mutated messages. Once its session has ended it comes again, from another address."""

    def __init__(self, run, draw, number):
        self.run, self.draw, self.number, self.messages, self.client = run, draw, number, whole(), None
        self.sessions, self.mutated, self.others = 0, 0, 0  # and the messages that it has sent, mutated and others
        self.left, self.heard, self.is_last, self.is_taken = b"", b"", False, True

    def begin(self):
        """Draws a batch. A message that isn't cut into objects is the last one, and a few whole ones are behind it."""
        if self.client is None:
            self.sessions += 1
            self.client = Client(self.run.port, f"127.{3 + self.number}.{self.sessions >> 8 & 255}.{self.sessions & 255}")
            self.client.socket.settimeout(0)
            self.left = opening(self.draw)
            self.others += 2
        self.is_last, self.is_taken = self.draw.random() < 0.1, False
        for _ in range(AT_ONCE):
            self.mutated += 1
            if self.draw.random() < 0.01:
                self.is_last = True
                self.left += broken(self.draw, self.messages) + b"".join(self.messages[:3])
                self.others += 3
                break
            self.left += mutated(self.draw, self.messages)
        self.left += request(must=False, number=MARK)
        self.others += 1

    def go_on(self):
        """Sends and reads what is possible now, until the front has taken the batch or ended the session."""
        made = self.client.socket
        try:
            with contextlib.suppress(BlockingIOError):
                while self.left:
                    self.left = self.left[made.send(self.left):]
                if self.is_last:
                    made.shutdown(socket.SHUT_WR)
            with contextlib.suppress(BlockingIOError):
                while data := made.recv(1 << 18):
                    self.heard += data
                    self.is_taken |= REFUSED in self.heard and not self.is_last
                    self.heard = self.heard[-len(REFUSED):]
                self.leave()
        except OSError:  # it is reset
            self.leave()

    def leave(self):
        self.client.close()
        self.client, self.left, self.heard, self.is_taken = None, b"", b"", True


def taken(run):
    """How many messages the front has taken."""
    return sum(many for name, many in run.figures().items() if name.startswith("messages_total"))


def mutations(program, checks, room):
    """Mutated messages of some PCCs at once, which come again when their sessions end. Those alone count that the front has taken."""
    draw, began, count = random.Random(31), time.monotonic(), 0
    srlgs = os.path.join(room, "srlgs")
    with open(srlgs, "w", encoding="ascii") as file:
        file.writelines(f"{line(*link, *groups, version=0)}\n" for link, groups in (((1, 2), (7, 8)), ((1, 3), (9,))))
    with Run(program.path, room, "--srlgs", srlgs, listen=["--except", "--pairs"]) as run:
        run.publish(*rows())
        beside, attackers = Beside(run, "127.0.60.1"), [Attacker(run, draw, number) for number in range(ATTACKERS)]
        before = taken(run)
        while count < MESSAGES > (sent := sum(attacker.mutated for attacker in attackers)) / MOST_SENT:
            for attacker in attackers:
                attacker.begin()
            end = time.monotonic() + PATIENCE
            while left := [attacker for attacker in attackers if not attacker.is_taken]:
                for attacker in left:
                    attacker.go_on()
                beside.ask()
                if time.monotonic() > end:
                    raise TimeoutError(f"{len(left)} PCCs wait until what they have sent is taken, after {count} messages")
            count = int(taken(run) - before - len(beside.times)) - sum(attacker.others for attacker in attackers)
        told = beside.judge(checks, "mutated messages")
        for attacker in attackers:
            if attacker.client:
                attacker.leave()
        wait(lambda: run.figures()["sessions"] == 1)
        found = run.figures()
        checks.same("mutated messages: the front goes on", (run.pcep.poll(), found["sessions"], found["exceptions_total"]), (None, 1, 0))
        checks.true("mutated messages: so many are taken", count >= MESSAGES, (count, found))
        kinds = {kind: found.get(f'messages_total{{type="{kind}"}}', 0) for kind in (2, 3, 5, 6, 10, "malformed")}
        checks.true("mutated messages: of each kind", min(kinds.values()) >= MESSAGES / 500, kinds)
        run.publish(*rows())
        checks.same("mutated messages: SIGTERM", run.end(), 0)
    print(f"hostile: {count} of {sent} mutated messages in {sum(attacker.sessions for attacker in attackers)} sessions, {told}, "
          f"{time.monotonic() - began:.0f} s")


def opening(draw):
    """An Open and a Keepalive, some of them mutated, too."""
    more = tlv(16, struct.pack("!I", draw.choice((0, 1, 5)))) + tlv(34, bytes([0, 0, 0, 2, 0, 1, 0, 0]) + tlv(26, bytes(4)))
    data = wire.message(1, pack(1, bytes([0x20, draw.choice((0, 30)), 120, 9]) + more[:draw.choice((len(more), len(more), 8, 8, 8, 0))]))
    return (mutated(draw, [data]) if draw.random() < 0.1 else data) + wire.message(2)


def behind_lsps(program, checks, room):
    """Versions that move many LSPs, and requests beside them."""
    began = time.monotonic()
    with Run(program.path, room, "--most-lsps", "20000", "--messages", "100000") as run:
        run.publish(*rows())
        beside = Beside(run, "127.0.61.1")
        clients = [Client(run.port, f"127.0.61.{at}") for at in range(2, 2 + PCCS)]
        each = LSPS // PCCS
        for at, client in enumerate(clients):
            client.open()
            data = [wire.message(10, *report(number, ero=addresses(NORTH), name=b"%d %d" % (at, number))) for number in range(1, each + 1)]
            for first in range(0, each, 100):
                client.socket.sendall(b"".join(data[first:first + 100]))
                beside.ask()
            client.socket.sendall(wire.message(10, *report(0, 0)))

        def moved():
            return sum(many for name, many in run.figures().items() if name.startswith("moves_total"))

        wait(lambda: run.figures()["lsps"] == each * PCCS)
        checks.same("LSPs that are delegated", run.figures()["lsps"], each * PCCS)
        for number in range(VERSIONS):
            before = moved()
            run.publish(*(rows([(1, 2, 50 if number % 2 else 500)])))
            end = time.monotonic() + 60
            while time.monotonic() < end:
                for _ in range(50):
                    beside.ask()
                for client in clients:
                    read_some(client)
                if moved() - before >= each * PCCS or number:
                    break
            if not number:
                checks.true("one version moves all of them", moved() - before >= each * PCCS, (before, moved()))
        told = beside.judge(checks, f"behind {each * PCCS} LSPs")
        checks.same("behind LSPs: SIGTERM", run.end(), 0)
    print(f"hostile: {each * PCCS} LSPs of {PCCS} PCCs, {told}, {time.monotonic() - began:.0f} s")


def hostile(program, checks):
    with tempfile.TemporaryDirectory() as room:
        checks.parts_in(room, (mutations, behind_lsps), program, checks)
