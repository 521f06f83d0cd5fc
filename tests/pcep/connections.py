"""Connections to PCCs that read late or nothing, and those to the server."""
import argparse
import contextlib
import os
import socket
import struct
import time

from pcep.played import PATH, SOUTH, Front, hop, report, report_of, request, rows, told, told_one
from pcep.played import Pcc as Played
from tools.fronts import reset as cut_off

from routed.follow import slices
from routed.follow.asks import Asks
from routed.follow.versions import Watch
from routed.model.rows import Reply
from routed.net.endpoints import Endpoint
from routed.net.loop import Loop
from routed.net.stream import Stream
from routed.pcep import lsps, wire
from routed.pcep.pcc import Pcc as Connected
from routed.pcep.wire import pack, tlv

LARGE = 32000  # bytes of an SVEC


class Deaf:
    """A connection that has no room, and whose other side reads late."""

    def __init__(self, loop):
        connection, self.other = socket.socketpair()
        self.stream, self.filled = Stream(loop, connection), 0
        self.other.setblocking(False)
        with contextlib.suppress(BlockingIOError):
            while True:
                self.filled += os.write(connection.fileno(), bytes(1 << 16))

    def hear(self, pcc):
        """All that the PCC has for the other side."""
        found = bytearray()
        while True:
            try:
                found += self.other.recv(1 << 20)
            except BlockingIOError:
                if not pcc.stream.waiting:
                    return bytes(found[self.filled:])
            pcc.flush()


def deaf(checks, room):
    """A PCC that sends Keepalives, but reads nothing for its dead timer."""
    front = Front(room)
    front.pccs, front.number, front.loop = {}, 1, Loop()
    there = Deaf(front.loop)
    front.pccs["10.0.0.1"] = pcc = Connected(front, there.stream, "10.0.0.1")
    pcc.session.take(wire.message(1, pack(1, bytes([0x20, 10, 40, 9]))) + wire.message(2), 0.0)
    for front.time, wanted in ((39.0, True), (40.0, True), (41.0, False)):
        if front.time < 40:
            pcc.session.take(wire.message(2), front.time)
        pcc.tick()
        checks.same(f"a PCC that reads nothing for {front.time:.0f} s", pcc.peer in front.pccs, wanted)
    checks.true("a line says so", "its PCC reads nothing" in front.said[-1], front.said)
    front.publish(*rows())
    there = Deaf(front.loop)
    pcc = Connected(front, there.stream, "10.0.0.2")
    pcc.session.take(wire.message(1, pack(1, bytes([0x20, 10, 40, 9]) + tlv(16, struct.pack("!I", 5)))) + wire.message(2), front.time)
    pcc.session.take(report_of(1, 9) + report_of(0, 0), front.time)
    pcc.stream.most = 10_000
    for number in range(300):  # it is moved by each version, and has read of none
        front.publish(*rows([(1, 2, 50 + 200 * (number % 2))]))
        pcc.session.again()
    waits = len(pcc.stream.waiting)
    checks.true("moves wait while a PCC reads nothing", 10_000 < waits < 11_000, waits)
    heard = there.hear(pcc)
    found = [told(kind, wire.objects_of(body)) for kind, body in wire.cut(heard)[0]]
    checks.same("and then it gets the newest one alone", found[-1], f"PCUpd {' '.join(SOUTH)}")
    checks.true("in one message", len(heard) - waits < 1000, len(heard))


def reset(checks, room):
    """A connection that is reset is closed as soon as that is known."""
    front = Front(room)
    front.pccs, front.number, front.loop = {}, 1, Loop()
    with socket.create_server(("127.0.0.1", 0)) as listener:
        client = socket.create_connection(listener.getsockname())
        connection = listener.accept()[0]
    front.pccs["10.0.0.1"] = Connected(front, Stream(front.loop, connection), "10.0.0.1")
    cut_off(client)
    front.loop.turn()
    checks.same("a reset: its session ends, and it is closed", (front.pccs, connection.fileno(), front.loop.keys), ({}, -1, {}))


def connected(front, deaf, source="10.0.0.1", **open_more):
    """A PCC at a connection whose other side reads late, once its session is up."""
    pcc = Connected(front, deaf.stream, source)
    pcc.session.take(opened(**open_more) + wire.message(2), front.time)
    return pcc


def opened(keepalive=10, dead=40, *more):
    return wire.message(1, pack(1, bytes([0x20, keepalive, dead, 9]) + b"".join(more)))


def collected(checks, room):
    """One message of as many requests as it has room for, and an SVEC of half its length: few are asked at once, and their answers are
    short."""
    front = Front(room)
    front.publish(*rows())
    front.pccs, front.number, front.loop = {}, 1, Loop()
    line = front.reference.reply(1, "ask,1,10.0.0.1,10.0.0.4,7,0,0x0,0x0,0x0,")
    held = []
    front.ask = lambda row, call, owner: held.append(call)
    there, one = Deaf(front.loop), request()[4:]
    pcc = connected(front, there)
    count = (wire.MOST - 4 - LARGE) // len(one)
    data, before, began = wire.message(3, pack(11, bytes(LARGE - 4)), one * count), len(pcc.stream.waiting), time.process_time()
    pcc.session.take(data, 0.0)
    turns, answered, most = 0, 0, len(held)
    while answered < count and turns < 10 * count:
        turns += 1
        front.loop.turn(0)
        most = max(most, len(held))
        if turns % 40 == 0:
            for call in held[:]:
                held.remove(call)
                answered += 1
                call(line)
    replies = len(pcc.stream.waiting) - before
    heard = there.hear(pcc)
    took = time.process_time() - began
    found = [told(kind, wire.objects_of(body)) for kind, body in wire.cut(heard)[0]]
    checks.true("one message: its replies", count > 1300 and found[2:] == [PATH] * count, (count, len(found)))
    checks.true("one message: asks at once", 200 < most <= 256, most)
    checks.true("one message: their bytes", replies < 2 * wire.MOST, replies)
    checks.true("one message: seconds of a processor", took < 2, took)


def paced(checks, room):
    """--messages: so many are taken in a second, and the dead timer stops for those that wait."""
    front = Front(room, messages=10)
    front.publish(*rows())
    front.pccs, front.number, front.loop = {}, 1, Loop()
    here, there = socket.socketpair()
    pcc = Connected(front, Stream(front.loop, here), "10.0.0.1")
    there.sendall(opened() + wire.message(2) + request() * 28)

    def answers():
        for _ in range(20):
            front.loop.turn(0)
        there.setblocking(False)
        with contextlib.suppress(BlockingIOError):
            return sum(told(kind, wire.objects_of(body)) == PATH for kind, body in wire.cut(there.recv(1 << 16))[0])
        return 0

    found = []
    for front.time in (0.0, 0.5, 1.0, 1.5, 2.0, 3.0):
        pcc.tick()
        found.append(answers())
    checks.same("--messages 10: the answers of each half second", found, [8, 0, 10, 0, 10, 0])
    there.sendall(request() * 60 + wire.message(2))
    front.time = 4.0
    pcc.tick()
    answers()
    front.time = 100.0  # the dead timer is 40 s
    pcc.tick()
    checks.same("and a PCC that waits for that isn't dead", (pcc.session.state, answers()), ("up", 10))
    there.close()
    here.close()


def heavy(checks, room):
    """Long messages: one of them is taken at once, and as many in a second as count for a thousand short ones."""
    front = Front(room, messages=1000)
    front.pccs, front.number, front.loop = {}, 1, Loop()
    there = Deaf(front.loop)
    pcc = connected(front, there)
    one = wire.message(5, bytes([12, 0x10, 0, 4]) * 16000)
    pcc.session.unread = one * 40
    sizes, before = [], 40 * len(one)
    while pcc.session.go_on(front.time):
        sizes.append(before - len(pcc.session.unread))
        before = len(pcc.session.unread)
    checks.same("long messages: bytes that are taken at once", {*sizes}, {len(one)})
    checks.true("long messages: those of a second", 14 <= len(sizes) <= 16, len(sizes))
    most, lsps.MOST_BYTES = lsps.MOST_BYTES, 200_000
    try:
        pcc, found = Played(Front(room)), []
        for number in (1, 2, 1, 2, 3, 2, 4):  # the same LSP counts once, and one that is removed not at all
            flags = 12 if found == [[]] * 5 else 8
            found.append(pcc.report(number, flags, hop(2) * 8000, b"%d" % number))
        checks.same("reports of LSPs, three of which have less bytes than the bound", (most, found), (8 << 20, [[]] * 7))
        checks.same("and one more", pcc.report(5, 8, hop(2) * 8000, b"5"), ["PCErr 20/1", "Close 1"])
    finally:
        lsps.MOST_BYTES = most


def unheard(checks, room):
    """The dead timer stops while requests wait for the server, since the PCC's Keepalives aren't read."""
    front = Front(room)
    front.publish(*rows())
    front.pccs, front.number, front.loop = {}, 1, Loop()
    front.held = []
    there = Deaf(front.loop)
    pcc = connected(front, there)
    there.hear(pcc)
    pcc.session.take(request() * 300, front.time)
    pcc.wait()
    for _ in range(100):
        front.loop.turn(0)
    asked = len(front.held)
    front.time = 41.0
    pcc.tick()
    checks.same("256 requests that wait for the server, and the dead timer", (asked, pcc.session.state), (256, "up"))
    for call, line in front.held[:]:
        call(line)
    front.time = 82.0
    for _ in range(100):
        front.loop.turn(0)
    pcc.tick()
    checks.same("then it runs again", (len(front.held), pcc.session.state), (300, "up"))
    for call, line in front.held[256:]:
        call(line)
    front.time = 122.1
    pcc.tick()
    checks.same("and ends", pcc.session.state, "over")


class Asking:
    """Rows that are asked in turn."""

    def __init__(self, name, count):
        self.rows, self.answers, self.failed = [f"{name}{at}" for at in range(count)], [], 0

    def whose(self):
        return self

    def has_more(self):
        return bool(self.rows)

    def following(self):
        row = self.rows.pop(0)
        if row.startswith("raising"):
            raise ValueError(row)
        return None if row.startswith("nothing") else (row, self.answers.append)

    def named(self):
        return "one"

    def fail(self):
        self.failed += 1


def in_slices(checks, room):
    """Rows of LSPs are asked a few at a time, those of several sessions in turn; an exception ends one session alone."""
    held, said, most = [], [], 0
    loop = Loop(said.append)
    made = slices.Slices(loop, lambda row, call, owner: held.append((row, call)))
    many, few, empty, raising = Asking("many", 300), Asking("few", 20), Asking("nothing", 100), Asking("raising", 1)
    for one in (many, few, empty, raising):
        made.add(one)
    loop.turn(0)
    checks.same("asks in slices: the first ones", [row for row, _ in held[:33]], [f"many{at}" for at in range(32)])
    order = []
    for _ in range(1000):
        most = max(most, len(held))
        if held:
            row, call = held.pop(0)
            order.append(row)
            call(f"line of {row}")
        loop.turn(0)
    checks.same("asks in slices: at once", most, slices.AT_ONCE)
    checks.same("asks in slices: all are answered", (len(many.answers), len(few.answers), made.count, made.waiting), (300, 20, 0, {}))
    last = order.index("few19")
    checks.true("asks in slices: sessions take turns", last < 32 + 2 * 20 + 10, last)
    checks.same("asks in slices: one that raises", (raising.failed, len(said), many.failed), (1, 1, 0))


def in_vain(checks, room):
    """Requests without a path are asked again a few at a time, and once more if a version comes in between."""
    front = Front(room, reopen=True)
    pcc = Played(front)
    for number in range(1, 257):
        pcc.ask(number=number)
    made = slices.Slices(Loop(), front.ask)
    front.held, front.in_turn = [], made.add
    pcc.session.again()
    checks.same("requests without a path that are asked again at once", len(front.held), slices.AT_ONCE)
    (call, line), held = front.held[0], front.held
    front.publish(*rows())
    front.held = None
    pcc.session.again()
    for call, line in held:
        call(line)
    for _, call in front.laters:
        call()
    checks.same("a version that comes while they are asked", ([told(*one) for one in pcc.messages()], pcc.is_ended), (["Close 1"], True))


def crowded(checks, room):
    """A request or a report of more objects than one needs is refused, and what is behind it is taken."""
    front = Front(room)
    front.publish(*rows())
    pcc = Played(front)
    for name, count, wanted in (("256", 254, [PATH, PATH]), ("257", 255, ["PCErr 10/11", PATH])):
        one = request(*[pack(99, b"")] * count)[4:]
        checks.same(f"a request of {name} objects", told_one(pcc, wire.message(3, one, request()[4:])), wanted)
        found = told_one(pcc, wire.message(10, *report(1, 8, more=[pack(34, bytes(4))] * count), *report(2, 8, name=b"red")))
        checks.same(f"a report of {name} objects", (found, 2 in pcc.session.lsps.all), (wanted[:-1] if "PCErr" in wanted[0] else [], True))


def places(checks, room):
    """Asks at a server that has a place for one of three connections, and says so once they have asked."""
    path, loop, found, ended = os.path.join(room, "ask"), Loop(), [], []
    with socket.socket(socket.AF_UNIX) as server:
        server.bind(path)
        server.listen()
        asks = Asks(loop, Endpoint(path), 3, lambda: ended.append(True))
        asks.open()
        there = [server.accept()[0] for _ in range(3)]
        for at in range(3):
            asks.ask(f"row {at}", lambda row, line: found.append((row, line)))
        for one in there[1:]:
            one.recv(100)
            one.sendall(b"busy\n")
            one.close()
        for _ in range(3):
            loop.after(0.05, lambda: None)
            loop.turn()
        rows_there = there[0].recv(1000).decode().splitlines()
        there[0].sendall("".join(f"line of {row}\n" for row in rows_there).encode())
        loop.turn()
        checks.same("asks of connections that were busy are answered by another", sorted(found),
                    [(f"ask,{at + 1},row {at}", f"line of ask,{at + 1},row {at}") for at in range(3)])
        asks.ask("row 3", lambda row, line: found.append((row, line)))
        there[0].close()
        loop.turn()
        checks.same("one whose connection ends has no answer", (found[3:], ended), ([(None, None)], [True]))
        asks.close()


def moved(checks, room):
    """An ask whose connection ends goes to another, at most as often as there are connections."""
    path, loop, found = os.path.join(room, "moved"), Loop(), []
    with socket.socket(socket.AF_UNIX) as server:
        server.bind(path)
        server.listen()
        asks = Asks(loop, Endpoint(path), 2, lambda: None)
        asks.open()
        for is_answered in (True, False):
            there = [server.accept()[0] for _ in range(2)]
            asks.ask("row", lambda row, line: found.append((row, line)))
            there[0].recv(100)
            there[0].close()
            loop.turn()
            if is_answered:
                there[1].sendall(b"line of " + there[1].recv(100))
            else:
                there[1].close()
            while len(found) < (1 if is_answered else 2):
                loop.turn()
            there[1].close()
            asks.close()
            asks.open()
        checks.same("asks whose connection ends", found, [("ask,1,row", "line of ask,1,row"), (None, None)])
        asks.close()


def strange(checks, room):
    """What no server tells: lines of versions that aren't any, and replies that can't be read."""
    path = os.path.join(room, "watch")
    with socket.socket(socket.AF_UNIX) as server:
        server.bind(path)
        server.listen()
        for text, wanted in [(b"version 1\nversion 7\nversion", [7]), (b"run 7\nversion 1\n", [1]),
                             (b"busy\n", ["the place of versions is busy"]), (b"", ["the server has ended"]),
                             *((text, ["the place of versions tells something else"])
                               for text in (b"version \n", b"version x\n", b"version -1\n", b"version " + b"9" * 5000 + b"\n", b"run x\n",
                                            b"version 1\nHTTP/1.1 400 Bad Request\r\n", b"\n", b"version " + b"1" * 200))]:
            found, runs, loop = [], [], Loop()
            hearer = argparse.Namespace(loop=loop, told=found.append, begun=runs.append, answers=lambda: None, reached=lambda: None,
                                        lost=lambda why="the server has ended", after=0: found.append(why))
            watch, there = Watch(hearer, Endpoint(path), False), server.accept()[0]
            there.sendall(text)
            if not text:
                there.close()
            loop.turn()
            checks.same(f"at the place of versions: {text[:40]}", found, wanted)
            checks.same(f"the run of {text[:40]}", runs, ["7"] if text.startswith(b"run 7") else [])
            watch.close()
            there.close()
    for line in ("ask 1 v1 route cost=1 hops=1 again=no ero=000c14010", "ask 1 v1 route cost=1 hops=1 again=no ero=000c14010108",
                 "ask 1 v1 route cost=1 hops=1 again=no ero=000c1401", f"ask 1 v{'1' * 5000} none",
                 f"ask 1 v1 route cost={'1' * 5000} hops=1 again=no ero=000c140101080a000c022000", "row 1 refused: kind", ""):
        checks.same(f"a reply that can't be read: {line[:60]}", Reply.parse(line), None)
    checks.same("and one that can", Reply.parse("ask 7 v1 route cost=10 hops=1 again=no ero=000c140101080a000c022000"),
                Reply(7, 1, None, 10, ("10.0.12.2",)))
