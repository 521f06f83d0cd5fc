"""How sessions begin, and what a PCC says in them beside requests and LSPs: timers that it proposes, no U flag, cancelled requests, too
much to do."""
import os
import socket
import struct
import tempfile
import time

from pcep.played import CIRCUITS, NORTH, PATH, SOUTH, Front, Pcc, ip, report_of, request, rows, told, told_one

from routed.pcep import wire
from routed.pcep.sids import Sids
from routed.pcep.wire import pack, tlv


def refusal(value, *offers):
    """A PCErr of type 1 with the Opens that a PCC proposes."""
    return wire.message(wire.ERROR, pack(13, bytes([0, 0, 1, value])), *(pack(1, bytes([0x20, *offer, 1])) for offer in offers))


def opening(pcc):
    """What a PCC is told by its Open."""
    return told_one(pcc, wire.message(1, pack(1, bytes([0x20, 30, 120, 9]))))


def timers_of(pcc):
    """The timers of the Opens that came."""
    return [(objects[0].body[1], objects[0].body[2]) for kind, objects in pcc.messages() if kind == wire.OPEN]


def negotiated(checks, room):
    """PCErr 1/4: the timers that a PCC proposes are taken once."""
    front = Front(room)
    for name, offer, wanted in [("longer ones", (60, 240), (60, 240)), ("shorter ones", (5, 20), (5, 20)),
                                ("no dead timer", (60, 0), (60, 0)), ("no Keepalives", (0, 99), (0, 0)),
                                ("as long as each other", (60, 60), (60, 60))]:
        front.time = 0.0
        pcc = Pcc(front, False)
        opening(pcc)
        front.time = 50.0
        pcc.say(refusal(4, offer))
        checks.same(f"PCErr 1/4: {name}", (timers_of(pcc), pcc.is_ended), ([wanted], False))
        pcc.say(wire.message(2))
        checks.same(f"PCErr 1/4: {name}, then a Keepalive", (pcc.session.state, pcc.messages()), ("up", []))
        front.time = 50.0 + wanted[0] - 0.1
        pcc.session.tick(front.time)
        checks.same(f"PCErr 1/4: {name}, before a Keepalive is due", pcc.messages(), [])
        front.time += 0.2
        pcc.session.tick(front.time)
        checks.same(f"PCErr 1/4: {name}, a Keepalive of the front", [told(*one) for one in pcc.messages()], ["Keepalive"] * bool(wanted[0]))
    for name, said in [("for the second time", [refusal(4, (60, 240)), refusal(4, (5, 20))]), ("without an Open", [refusal(4)]),
                       ("whose dead timer ends before its Keepalive", [refusal(4, (60, 30))])]:
        pcc = Pcc(front, False)
        opening(pcc)
        for one in said[:-1]:
            pcc.say(one)
            pcc.messages()
        checks.same(f"PCErr 1/4 {name}", (told_one(pcc, said[-1]), pcc.is_ended), (["PCErr 1/6"], True))
    pcc = Pcc(front, False)
    opening(pcc)
    checks.same("PCErr 1/3", (told_one(pcc, refusal(3)), pcc.is_ended), ([], True))


def listed(checks, room):
    """An Open that lists segment routing has the capability for it, in its list or, as older PCCs have it, beside that."""
    path = os.path.join(room, "sids")
    with open(path, "w", encoding="ascii") as file:
        file.write("sid,1,10.0.0.1,10.1.2.1,16\nsid,1,10.0.0.2,10.2.4.2,17\n")
    both, capability = bytes([0, 0, 0, 2, 0, 1, 0, 0]), tlv(26, bytes([0, 0, 0, 1]))
    for name, more, sids, wanted in [("without the capability", tlv(34, both), path, (["PCErr 10/12"], True)),
                                     ("with it", tlv(34, both + capability), path, (["Keepalive", "PCErr 10/3"], False)),
                                     ("with it beside", tlv(34, both) + capability, path, (["Keepalive", "PCErr 10/3"], False)),
                                     ("to a front without SIDs", tlv(34, both), None, (["Keepalive", "PCErr 21/1"], False))]:
        front = Front(tempfile.mkdtemp(dir=room), sids and Sids(sids))
        front.publish(*rows())
        pcc = Pcc(front, False)
        found = told_one(pcc, wire.message(1, pack(1, bytes([0x20, 30, 120, 9]) + more)))
        found += [] if pcc.is_ended else told_one(pcc, wire.message(2) + request(setup_type=1))
        checks.same(f"an Open that lists both setup types, {name}", (found, pcc.is_ended), wanted)


def no_keepalives(checks, room):
    """A PCC that sends no Keepalives has no dead timer, whatever its Open says."""
    front = Front(room)
    pcc = Pcc(front, keepalive=0, dead=3)
    front.time = 1000.0
    pcc.session.tick(front.time)
    checks.same("Keepalive 0, DeadTimer 3", ([told(*one) for one in pcc.messages()], pcc.is_ended), (["Keepalive"], False))


def passive(checks, room):
    """A PCC without the U flag: its requests are answered, its reports kept, and no LSP of it is updated."""
    front = Front(room)
    front.publish(*rows())
    pcc = Pcc(front, capability=0, is_sr=False)
    checks.same("a PCC without the U flag: a request", pcc.ask(), [PATH])
    south = wire.addresses_ero(SOUTH)[4:]
    for flags in (8, 9):
        checks.same(f"and a report with the flags {flags}", pcc.report(flags=flags, ero=south), [])
    checks.same("the end of its reports", pcc.report(0, 0), [])
    front.publish("drop,10.0.0.1,10.1.3.1")
    checks.same("its LSP is kept, and isn't moved", (pcc.again(), [lsp.name for lsp in pcc.session.lsps.all.values()], pcc.is_ended),
                ([], ["blue"], False))


def cancelled(checks, room):
    """PCNtf: the answer of a cancelled request isn't sent."""
    front = Front(room)
    front.publish(*rows())
    pcc = Pcc(front)
    front.held = []
    pcc.say(request(number=7) + request(number=8))
    checks.same("a request is cancelled", told_one(pcc, notification(1, 1, pack(2, struct.pack("!II", 0, 7), must=True))), [])
    for call, line in front.held:
        call(line)
    found = [struct.unpack("!4xI", objects[0].body[:8])[0] for _, objects in pcc.messages()]
    checks.same("the other alone is answered", (found, front.counted["requests", "cancelled"], pcc.session.answers.count), ([8], 1, 0))


def notification(kind, value, *objects, more=b""):
    return wire.message(wire.NOTIFICATION, *objects, pack(12, bytes([0, 0, kind, value]) + more))


def overloaded(checks, room):
    """PCNtf: a PCC that has too much to do is left alone for as long as it says, and for ten minutes at most."""
    to_south = f"PCUpd {' '.join(SOUTH)}"
    for name, more, seconds in [("30 s", tlv(2, struct.pack("!I", 30)), 30), ("no time", b"", 600),
                                ("a year", tlv(2, struct.pack("!I", 31536000)), 600)]:
        for is_over in (False, True):
            front = Front(room)
            front.publish(*rows())
            pcc = Pcc(front, is_sr=False)
            pcc.report(ero=wire.addresses_ero(NORTH)[4:])
            pcc.report(0, 0)
            front.laters.clear()
            pcc.say(notification(2, 1, more=more))
            front.publish("drop,10.0.0.1,10.1.2.1")
            front.time = seconds - 1.0
            checks.same(f"an overload of {name}", (pcc.again(), pcc.ask()[-1].split()[0], [at for at, _ in front.laters]),
                        ([], "PCRep", [seconds]))
            if is_over:
                pcc.say(notification(2, 2))
            else:
                front.time = float(seconds)
                front.laters[0][1]()
            found = [told(*one) for one in pcc.messages()]
            checks.same(f"an overload of {name} is over{' as the PCC says' if is_over else ''}", found, [to_south])
    front = Front(room)
    front.publish(*rows())
    pcc = Pcc(front, is_sr=False)
    pcc.report(ero=wire.addresses_ero(NORTH)[4:])
    pcc.report(0, 0)
    front.held = []
    front.publish("drop,10.0.0.1,10.1.2.1")
    pcc.again()
    pcc.say(notification(2, 1))
    (call, line), = front.held
    call(line)
    checks.same("an answer that comes in an overload", pcc.messages(), [])
    front.held, front.time = None, 100.0
    for _ in range(100):
        pcc.say(notification(2, 1) * 10)
    waits = [at for at, _ in front.laters if at > 500]
    front.time = 600.0
    front.laters[-1][1]()
    checks.same("an overload that is told again and again", (waits, front.laters[-1][0], pcc.again()), ([600.0], 700.0, []))
    front.time = 700.0
    front.laters[-1][1]()
    checks.same("it is over, too", [told(*one) for one in pcc.messages()], [to_south])
    many = [pack(2, struct.pack("!II", 0, 7)), pack(12, bytes([0, 0, 1, 1]))] * 3200
    began = time.process_time()
    pcc.say(wire.message(wire.NOTIFICATION, *many))
    checks.true("one PCNtf of 3,200 notifications: seconds of a processor", time.process_time() - began < 1, time.process_time() - began)


def byte_for_byte(checks, room):
    """The ERO of a reply line goes out as it is, also where this code would have written another."""
    front = Front(room)
    front.publish(*rows())
    subobjects = "01080a0102022000" + "81080a0204042055"
    line = f"ask 1 v1 route cost=100 hops=2 again=no ero=00141401{subobjects}"
    front.ask = lambda row, call, owner=None: call(line)
    pcc = Pcc(front, is_sr=False)
    pcc.say(request() + report_of(1, 9) + report_of(0, 0))
    found = [(kind, one.body.hex()) for kind, objects in pcc.messages() for one in objects if one.kind == wire.O_ERO]
    checks.same("the ERO of a PCRep and of a PCUpd is the reply's", found, [(wire.REPLY, subobjects), (wire.UPDATE, subobjects)])


def addressed(checks, room):
    """END-POINTS by addresses of interfaces, by one that two routers have, and by one of which nobody knows."""
    front = Front(room)
    front.publish(*rows())
    pcc = Pcc(front)
    near, far = socket.inet_aton("10.1.2.1"), socket.inet_aton("10.3.4.4")  # of 1 and of 4

    def ask(here, there, **more):
        return pcc.ask(ends=pack(4, here + there, must=True), **more)

    for name, here, there in [("of an interface at the head-end", near, ip(4)), ("of an interface at the tail-end", ip(1), far),
                              ("of interfaces at both", near, far)]:
        checks.same(f"END-POINTS, an address {name}", ask(here, there), [PATH])
    checks.same("END-POINTS, both of one router", ask(near, ip(1)), ["PCErr 4/4"])
    nobody = socket.inet_aton("10.9.9.9")
    checks.same("END-POINTS, an address of nobody", [*ask(nobody, ip(4)), *ask(near, nobody)], ["NO-PATH 4", "NO-PATH 2"])
    front.publish(*(row.replace("10.7.8.7", "10.1.2.1") for row in rows([(7, 8, 1)])))
    checks.same("END-POINTS, an address that two routers have", [*ask(near, ip(4)), *ask(ip(4), near)], ["NO-PATH 4", "NO-PATH 2"])
    front.publish(*(row.replace("10.7.9.7", "10.0.0.1") for row in rows([(7, 9, 1)])))
    checks.same("END-POINTS, a Router ID that an interface of another router has", [*ask(ip(1), ip(4)), *ask(ip(4), ip(1))],
                ["NO-PATH 4", "NO-PATH 2"])
    other = os.path.join(room, "other")
    with open(other, "w", encoding="ascii") as file:
        batch = [row.replace("10.1.3.1,", "10.9.9.9,") for row in rows(CIRCUITS, 1) if ",50," not in row]
        file.writelines(f"{row}\n" for row in batch)
        file.write(f"end,1,{len(batch)}\n" + "".join(f"end,{number},0\n" for number in range(2, front.version + 1)))
    front.network = type(front.network)(other)
    checks.same("END-POINTS, by the journal of another server", ask(nobody, ip(4)), ["NO-PATH 4"])
    front.network = type(front.network)(None)
    checks.same("END-POINTS, without a journal", [*ask(near, ip(4)), *ask(ip(1), ip(4))], ["NO-PATH 4", PATH])


SESSIONS = addressed, negotiated, listed, no_keepalives, passive, cancelled, overloaded, byte_for_byte
