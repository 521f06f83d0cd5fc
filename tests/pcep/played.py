"""A PCC that is played at a session without sockets, and messages in bytes and in words.

Answers come from tests/reference/formats.py."""
import argparse
import os
import socket
import struct

from reference import excepts, pairs
from reference.formats import Network

from routed.model.rows import row_of
from routed.pcep import wire
from routed.pcep.network import Network as Followed
from routed.pcep.session import Session
from routed.pcep.wire import pack, tlv

UP, GOING_UP = 1, 4  # O flags of an LSP
FREE = ",".join(["125000000"] * 8)
# From 1 to 4 by 2 of cost 100, and by 3 of cost 200.
CIRCUITS = [(1, 2, 50), (2, 4, 50), (1, 3, 100), (3, 4, 100)]


def ip(number):
    return socket.inet_aton(f"10.0.0.{number}")


def rows(circuits=CIRCUITS, group=1):
    for a, b, cost in circuits:
        for near, far in ((a, b), (b, a)):
            yield f"put,10.0.0.{near},10.{a}.{b}.{near},10.0.0.{far},10.{a}.{b}.{far},{cost},0x{group:x},{FREE}"


def fars(*pairs):
    return [f"10.{min(pair)}.{max(pair)}.{pair[1]}" for pair in pairs]


NORTH, SOUTH = fars((1, 2), (2, 4)), fars((1, 3), (3, 4))


QUESTIONS = {"except": excepts, "pair": pairs}  # by the first word of a row


def reply(network, version, row):
    """The line to an `ask` row, an `except` row or a `pair` row, by the reference."""
    fields = row.split(",")
    asked = QUESTIONS.get(fields[0])
    return asked.answer(network, version, asked.question(fields)) if asked else network.reply(version, row)


class Front:
    """What a session needs of the front: asks are answered by the reference."""

    def __init__(self, folder, sids=None, srlgs=None, **options):
        self.srlgs, self.placements, self.asked = srlgs, None, []  # and the rows that were asked
        self.time, self.said, self.counted, self.held, self.laters = 0.0, [], {}, None, []
        self.options = argparse.Namespace(stateful=True, gain=0, calm=0, group=0, reopen=False, initiate=None, mark=None, messages=0,
                                          most_lsps=4096)
        vars(self.options).update(options)
        self.journal, self.reference, self.version, self.is_away = os.path.join(folder, "journal"), Network(), 0, False
        open(self.journal, "w").close()
        self.network, self.sids, self.owned, self.made = Followed(self.journal, self.say), sids, False, {}

    def clock(self):
        return self.time

    def say(self, level, text):
        self.said.append(text)

    def go_on(self, seconds, *pccs):
        """Lets time go on, by the seconds of a clock. What the PCCs are sent."""
        found = []
        for _ in range(seconds):
            self.time += 1
            for pcc in pccs:
                pcc.say(wire.message(wire.KEEPALIVE))
                pcc.session.tick(self.time)
                found += [told(*one) for one in pcc.messages() if one[0] != wire.KEEPALIVE]
        return found

    def count(self, what, value):
        self.counted[what, value] = self.counted.get((what, value), 0) + 1

    def capabilities(self):
        return b""

    def later(self, seconds, call, owner=None):
        self.laters.append((self.time + seconds, call))

    def segments(self, head, route, version):
        self.sids.look()
        self.network.reach(version)
        return self.sids.segments(self.network, head, route, version)

    def tally(self, what):
        self.count(what, None)

    def claims(self, peer, head, name):
        return not self.owned

    def wanted(self, peer, name):
        return self.made.get(name)

    def all_wanted(self, peer):
        return [*self.made.items()]

    def unwanted(self, peer):
        return []

    def is_unwanted(self, peer, name):
        return name in self.unwanted(peer)

    def ask(self, row, call, owner=None):
        self.asked.append(row_of(1, row))
        line = reply(self.reference, self.version, row_of(1, row)) if self.version is not None else None
        call(line) if self.held is None else self.held.append((call, line))

    def in_turn(self, asking):
        while asking.has_more():
            if form := asking.following():
                self.ask(*form)

    def publish(self, *changes):
        self.version += 1
        for row in changes:
            self.reference.change(row.split(","))
        with open(self.journal, "a") as file:
            file.write("".join(f"{row}\n" for row in changes) + f"end,{self.version},{len(changes)}\n")


class Pcc:
    """A session, and what it sent."""

    def __init__(self, front, is_up=True, capability=5, is_sr=True, keepalive=30, dead=120, peer="10.0.0.1", setup_types=(0, 1)):
        self.front, self.out, self.is_ended = front, b"", False
        self.session = Session(front, peer, 1, self.take, self.ended, front.time)
        self.messages()
        if is_up:
            types = bytes([0, 0, 0, len(setup_types), *setup_types]) + bytes(-len(setup_types) % 4)
            more = tlv(34, types + tlv(26, bytes([0, 0, 0, 4]))) if is_sr else b""
            more += b"" if capability is None else tlv(16, struct.pack("!I", capability))
            self.say(wire.message(1, pack(1, bytes([0x20, keepalive, dead, 9]) + more)) + wire.message(2))
            self.messages()

    def take(self, data):
        self.out += data

    def ended(self):
        self.is_ended = True

    def messages(self):
        found, self.out = wire.cut(self.out)
        return [(kind, wire.objects_of(body)) for kind, body in found]

    def say(self, data):
        self.session.take(data, self.front.time)

    def ask(self, *objects, **more):
        self.say(request(*objects, **more))
        return [told(*one) for one in self.messages()]

    def report(self, number=1, flags=9, ero=b"", name=b"blue", srp=0, setup_type=0, more=(), **words):
        self.say(wire.message(10, *report(number, flags, ero, name, srp, setup_type, more, **words)))
        return [told(*one) for one in self.messages()]

    def updates(self):
        """The SRP and the ERO of each update that came."""
        found = [{one.kind: one.body for one in objects} for kind, objects in self.messages() if kind == wire.UPDATE]
        return [(struct.unpack("!4xI", of[33][:8])[0], of[7]) for of in found]

    def answered(self, answer, most=30):
        """How many updates come to a PCC that answers each of them at once."""
        count, sent = 0, self.updates()
        while sent and count < most:
            count += len(sent)
            for srp, ero in sent:
                self.say(answer(srp, ero))
            sent = self.updates()
        return count

    def faults(self):
        """What is wrong with its LSPs."""
        return [fault for lsp in self.session.lsps.all.values() for fault in lsp.faults()]

    def again(self):
        self.session.again()
        return [told(*one) for one in self.messages()]


def report(number=1, flags=9, ero=b"", name=b"blue", srp=0, setup_type=0, more=(), state=None, error=None, ends=(1, 4), ids=None):
    """The objects of a report. An LSP that has a route is UP."""
    front = [pack(33, struct.pack("!II", 0, srp) + wire.setup_type_tlv(setup_type))] if srp or setup_type else []
    tlvs = (tlv(17, name) if name else b"") + (tlv(18, ids or ip(ends[0]) + bytes(8) + ip(ends[1])) if ends or ids else b"")
    tlvs += tlv(20, struct.pack("!I", error)) if error is not None else b""
    state = (UP if ero else 0) if state is None else state
    return [*front, pack(32, struct.pack("!I", number << 12 | flags | state << 4) + (tlvs if number else b"")), pack(7, ero), *more]


def request(*objects, ends=None, rp=0, must=True, setup_type=0, front=(), number=7):
    ends = pack(4, ip(1) + ip(4), must=True) if ends is None else ends
    return wire.message(3, *front, pack(2, struct.pack("!II", rp, number) + wire.setup_type_tlv(setup_type), must=must), ends, *objects)


def told(kind, objects):
    """A message in words: what the mapping says of it."""
    of = {one.kind: one.body for one in reversed(objects)}  # the first of each class
    if kind == wire.ERROR:
        return f"PCErr {of[13][2]}/{of[13][3]}"
    if kind == wire.REPLY and 3 in of:
        vector = struct.unpack("!I", wire.tlvs_of(of[3][4:])[1])[0] if len(of[3]) > 4 else 0
        return f"NO-PATH {vector}" + (f" above {struct.unpack('!f', of[6][4:])[0]:g}" if 6 in of else "")
    if kind in (wire.REPLY, wire.UPDATE, wire.INITIATE):
        hops = wire.hops_of(of.get(7, b""))
        word = {4: "PCRep", 11: "PCUpd", 12: "PCInitiate"}[kind]
        labels = [hop.label for hop in hops if hop.label is not None]
        return (f"{word} {' '.join(hop.far for hop in hops)}" + (f" cost {struct.unpack('!f', of[6][4:])[0]:g}" if kind == 4 else "")
                + (f" labels {labels}" if labels else "") + ("" if kind != 11 or of[32][3] & 1 else " returned"))
    return {1: "Open", 2: "Keepalive"}.get(kind) or f"Close {of[15][3]}"


PATH = f"PCRep {' '.join(NORTH)} cost 100"


def lspa(exclude=0, any_=0, all_=0, setup=7, size=16):
    return pack(9, struct.pack("!IIIBBxx", exclude, any_, all_, setup, setup)[:size], must=True)


def bandwidth(value, type_=1, must=True):
    return pack(5, struct.pack("!f", value), type_, must)


def metric(kind, value, flags=1, must=True):
    return pack(6, struct.pack("!xxBBf", flags, kind, value), 1, must)


def hop(number, kind=1, length=32):
    return bytes([kind, 8]) + ip(number) + bytes([length, 0])


def told_one(pcc, data):
    pcc.say(data)
    return [told(*one) for one in pcc.messages()]


def report_of(number, flags):
    """A report of an LSP without a path; number 0 is the end of the synchronization."""
    more = tlv(17, b"blue") + tlv(18, ip(1) + bytes(8) + ip(4)) if number else b""
    return wire.message(10, pack(32, struct.pack("!I", number << 12 | flags) + more), pack(7, b""))
