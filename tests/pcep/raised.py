"""Each method of a PCC's connection, its session and its LSPs raises once: that PCC's session alone ends, with one line."""
import contextlib
import os
import socket
import struct
import types

from pcep.paired import svec, two
from pcep.played import NORTH, PATH, SOUTH, Front, metric, reply, report, request, rows, told

from routed.model.rows import row_of
from routed.net.loop import Loop
from routed.net.stream import Stream
from routed.pcep import wire
from routed.pcep.answers import Answers
from routed.pcep.lsps import Lsps
from routed.pcep.making import Making
from routed.pcep.moves import Moves
from routed.pcep.pcc import Pcc
from routed.pcep.session import Session
from routed.follow.slices import Slices
from routed.pcep.wanted import request_of
from routed.pcep.wire import pack, tlv

CLASSES = Pcc, Session, Answers, Lsps, Moves, Making
TO_SOUTH = f"PCUpd {' '.join(SOUTH)}"
VICTIM, HONEST = "10.0.0.1", "10.0.0.2"


class Planted(Exception):
    """What is raised."""


class Whole(Front):
    """What PCCs share, on a loop as the front has it."""

    def __init__(self, room):
        super().__init__(room, initiate="file")
        self.lines, self.pccs, self.number = [], {}, 1
        self.loop = Loop(self.lines.append)
        self.slices = Slices(self.loop, self.ask)
        self.publish(*rows())
        self.made = {"red": request_of(["10.0.0.1", "10.0.0.4", "7", "1", "0x0", "0x0", "0x0"])}

    def ask(self, row, call, owner=None):
        self.loop.call(owner, call, reply(self.reference, self.version, row_of(1, row)))

    def in_turn(self, asking):
        self.slices.add(asking)

    def all_wanted(self, peer):
        return super().all_wanted(peer) if peer == VICTIM else []

    def later(self, seconds, call, owner=None):
        self.loop.after(0, call, owner)

    def turn(self):
        for _ in range(30):
            self.loop.turn(0)


class Client:
    """The other side of a PCC's connection."""

    def __init__(self, front, peer):
        here, self.socket = socket.socketpair()
        self.front, self.socket_here = front, here
        self.socket.setblocking(False)
        front.pccs[peer] = self.pcc = Pcc(front, Stream(front.loop, here), peer)

    def say(self, *messages):
        with contextlib.suppress(OSError):
            self.socket.sendall(b"".join(messages))
        self.front.turn()

    def hear(self):
        with contextlib.suppress(OSError):
            return [told(kind, wire.objects_of(body)) for kind, body in wire.cut(self.socket.recv(1 << 20))[0]]
        return []


def notification(kind, value):
    return wire.message(5, pack(2, struct.pack("!II", 0, 7)), pack(12, bytes([0, 0, kind, value])))


def played(front, victim):
    """All that a PCC does, up to its end."""
    def each(call):
        for pcc in [*front.pccs.values()]:
            pcc.loop.call(call, pcc)
        front.turn()

    north = wire.addresses_ero(NORTH)[4:]
    opened = wire.message(1, pack(1, bytes([0x20, 30, 120, 9]) + tlv(16, struct.pack("!I", 5))))
    victim.say(opened, wire.message(6, pack(13, bytes([0, 0, 1, 4])), pack(1, bytes([0x20, 20, 80, 9]))))
    victim.say(wire.message(2), request(), request(ends=b""), two(), two(metric(2, 900), front=[svec(7, 8, must=False)]), wire.message(99))
    victim.say(*(wire.message(10, *one) for one in (report(1), report(2, ero=north, name=b"green"), report(0, 0))))
    front.publish("drop,10.0.0.1,10.1.2.1")
    each(lambda pcc: pcc.session.again())
    victim.say(wire.message(10, *report(1, ero=north, srp=pcc_srp(victim), error=4)), wire.error(23, 1, pack(33, struct.pack("!II", 0, 1))),
               wire.message(10, *report(3, 0x89, ero=north, name=b"red")))
    victim.say(notification(1, 1), notification(2, 1), notification(2, 2), wire.message(10, *report(2, 12, name=b"green")))
    front.made = {}
    front.is_unwanted = lambda peer, name: True
    each(lambda pcc: pcc.session.lsps.making.reread())
    front.time += 20
    victim.say(wire.message(2), wire.message(10, *report(3, 0x8d, name=b"red")))
    each(Pcc.tick)
    front.publish(*rows())
    each(lambda pcc: pcc.session.again())
    each(lambda pcc: pcc.probe() or pcc.is_alive())
    victim.say(wire.message(10, pack(99, bytes(4)), pack(32, bytes(4))), wire.close(1))
    victim.say(wire.message(2))


def pcc_srp(client):
    return client.pcc.session.lsps.srp


def raised(checks, room):
    """Each method of CLASSES, and at first none of them."""
    places = [(None, "")] + [(where, name) for where in CLASSES for name, found in vars(where).items()
                             if isinstance(found, types.FunctionType) and name != "__init__"]
    met, faults = [], []
    for number, (where, name) in enumerate(places):
        inner = os.path.join(room, str(number))
        os.mkdir(inner)
        front = Whole(inner)
        honest, victim, hits = Client(front, HONEST), Client(front, VICTIM), []
        honest.say(wire.message(1, pack(1, bytes([0x20, 30, 120, 9]) + tlv(16, struct.pack("!I", 5)))), wire.message(2),
                   wire.message(10, *report(1, name=b"white")), wire.message(10, *report(0, 0)))
        real = where and vars(where)[name]

        def planted(one, *given, **more):
            if owner_of(one) is victim.pcc and not hits:
                hits.append(name)
                raise Planted
            return real(one, *given, **more)

        if where:
            setattr(where, name, planted)
        try:
            played(front, victim)
            honest.hear()
            honest.say(request())
            front.publish("drop,10.0.0.1,10.1.2.1")
            for pcc in [*front.pccs.values()]:
                pcc.loop.call(pcc.session.again)
            front.turn()
            ended = [line for line in front.lines if "Planted" in line]
            found = honest.hear(), HONEST in front.pccs, len(ended) == bool(hits), len(front.lines) == len(ended)
            if found != ([PATH, TO_SOUTH], True, True, True) or hits and VICTIM in front.pccs:
                faults.append((where and where.__name__, name, found, front.lines))
        except Exception as fault:
            faults.append((where and where.__name__, name, repr(fault)))
        finally:
            if where:
                setattr(where, name, real)
            for one in (honest, victim):
                one.socket.close()
                one.pcc.stream.close()
        met += hits
    checks.same("an exception in a method ends one session alone", faults[:3], [])
    checks.true("methods in which there was one", len(met) > 80 * len(places) // 100, (len(met), len(places)))


def owner_of(one):
    """The connection that an object belongs to."""
    return one if isinstance(one, Pcc) else one.owner if isinstance(one, Session) else one.session.owner
