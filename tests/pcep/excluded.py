"""Requests and LSPs that exclude (RFC 5521): each kind of subobject, hard and soft, against the reference's `except` rows."""
import os
import random
import re
import shutil
import struct
import subprocess
import tempfile

from pcep.played import CIRCUITS, NORTH, PATH, SOUTH, Front, Pcc, bandwidth, hop, ip, lspa, metric, reply, report, request, rows, told
from pcep.reported import sids_of
from reference import formats

from routed.pcep import wire
from routed.pcep.sids import Sids
from routed.pcep.wire import pack

DIRECT = ["10.1.4.4"]  # from 1 to 4 by the dearest circuit
TRIANGLE = [*CIRCUITS, (1, 4, 500)]
BY_NORTH, BY_SOUTH, BY_DIRECT = PATH, f"PCRep {' '.join(SOUTH)} cost 200", f"PCRep {' '.join(DIRECT)} cost 500"
TO_NORTH, TO_SOUTH, TO_DIRECT = (f"PCUpd {' '.join(route)}" for route in (NORTH, SOUTH, DIRECT))
NORTH_ERO, SOUTH_ERO = (wire.addresses_ero(route)[4:] for route in (NORTH, SOUTH))
INTERFACE, NODE, SRLG = 0, 1, 2
NEVER = "an XRO that excludes more than 64"


def prefix(address, bits=32, attribute=INTERFACE, soft=False):
    return bytes([soft << 7 | 1, 8, *map(int, address.split(".")), bits, attribute])


def srlg(number, soft=False, attribute=SRLG):
    return struct.pack("!BBIBB", soft << 7 | 34, 8, number, 0, attribute)


def xro(*parts, must=True, flags=0, type_=1):
    return pack(17, struct.pack("!HH", 0, flags) + b"".join(parts), type_, must)


def router(number, soft=False, bits=32):
    return prefix(f"10.0.0.{number}", bits, NODE, soft)


def begun(room, circuits=TRIANGLE, **options):
    front = Front(tempfile.mkdtemp(dir=room), **options)
    front.publish(*rows(circuits))
    return front, Pcc(front, is_sr=front.sids is not None)


NEAR, FAR = prefix("10.1.2.1"), prefix("10.1.2.2")  # of the circuit between 1 and 2
SOFT = dict(soft=True)
OTHERS = [("an IPv6 prefix", bytes([2, 20, *bytes(18)])), ("an unnumbered interface", bytes([4, 12, 0, 0, *bytes(8)])),
          ("an AS", bytes([32, 4, 0, 1])), ("attribute 3", prefix("10.1.2.1", attribute=3))]
MANY = [prefix(f"10.7.0.{at}") for at in range(65)]


def exclusions(checks, room):
    """Each kind of subobject in a request."""
    front, pcc = begun(room)
    for name, wanted, row, parts in [
            ("the near interface", BY_SOUTH, "10.1.2.1/32i", [NEAR]), ("the far interface", BY_SOUTH, "10.1.2.2/32i", [FAR]),
            ("a prefix of both interfaces", BY_SOUTH, "10.1.2.0/29i", [prefix("10.1.2.0", 29)]),
            ("a prefix of two circuits", BY_DIRECT, "10.1.2.0/23i", [prefix("10.1.2.0", 23)]),
            ("a router", BY_SOUTH, "10.0.0.2/32r", [router(2)]),
            ("a router by the address of an interface", BY_SOUTH, "10.2.4.2/32r", [prefix("10.2.4.2", attribute=NODE)]),
            ("two routers by a prefix", BY_DIRECT, "10.0.0.2/31r", [router(2, bits=31)]),
            ("a circuit and a router", BY_DIRECT, "10.2.4.4/32i 10.0.0.3/32r", [prefix("10.2.4.4"), router(3)]),
            ("one part twice", BY_SOUTH, "10.1.2.1/32i", [NEAR, NEAR]),
            ("a Router ID as an interface", BY_NORTH, "10.0.0.2/32i", [prefix("10.0.0.2")]),
            ("the head-end", "NO-PATH 0", "10.0.0.1/32r", [router(1)]),
            ("the tail-end", "NO-PATH 0", "10.0.0.4/32r", [router(4)]),
            ("all interfaces", "NO-PATH 0", "0.0.0.0/0i", [prefix("0.0.0.0", 0)]),
            ("all routers", "NO-PATH 0", "0.0.0.0/0r", [prefix("0.0.0.0", 0, NODE)]),
            ("what names nothing", BY_NORTH, "192.0.2.1/32i 192.0.2.1/32r", [prefix("192.0.2.1"), prefix("192.0.2.1", 32, NODE)])]:
        for must in (True, False):
            front.asked.clear()
            checks.same(f"an XRO of {name}, P {must:d}", pcc.ask(xro(*parts, must=must)), [wanted])
            checks.same(f"an XRO of {name}, P {must:d}: one row", front.asked, [f"except,1,10.0.0.1,10.0.0.4,7,0,0x00000000,0x00000000,"
                                                                               f"0x00000000,,{row}"])
    front.asked.clear()
    checks.same("an XRO without a subobject", (pcc.ask(xro()), front.asked[0].split(",")[0]), ([BY_NORTH], "ask"))
    checks.same("two XROs", pcc.ask(xro(NEAR), xro(router(3), must=False)), [BY_DIRECT])
    checks.same("an XRO beside other constraints", pcc.ask(lspa(any_=1), bandwidth(5), xro(router(3)), pack(10, hop(2), must=True)),
                [BY_NORTH])
    checks.same("an excluded router that the IRO wants", pcc.ask(xro(router(3)), pack(10, hop(3), must=True)), ["NO-PATH 0"])
    checks.same("an unknown source", pcc.ask(xro(NEAR), ends=pack(4, ip(9) + ip(4), must=True)), ["NO-PATH 4"])
    checks.same("an unknown destination", pcc.ask(xro(NEAR, prefix("10.1.3.1", **SOFT)), ends=pack(4, ip(1) + ip(9), must=True)),
                ["NO-PATH 2"])
    checks.same("a bound that the path without the circuit exceeds", pcc.ask(xro(NEAR), metric(2, 150)), ["NO-PATH 0 above 150"])
    checks.same("the ends by interfaces", pcc.ask(xro(NEAR), ends=pack(4, bytes([10, 1, 3, 1, 10, 3, 4, 4]), must=True)), [BY_SOUTH])
    front.version = None
    checks.same("an XRO, and no server", pcc.ask(xro(NEAR)), ["NO-PATH 1"])


def unexcluded(checks, room):
    """What can't be excluded is refused by its own error, or ignored and said to be."""
    front, pcc = begun(room)
    for name, wanted, one in [*((f"an XRO of {name}", "4/4", xro(part)) for name, part in OTHERS),
                              *((f"an XRO of {name} that should be excluded", "4/4", xro(bytes([part[0] | 0x80]) + part[1:]))
                                for name, part in OTHERS),
                              ("an XRO of a prefix, and of an AS behind it", "4/4", xro(NEAR, OTHERS[2][1])),
                              ("an XRO of an SRLG without --srlgs", "3/1", xro(srlg(7))),
                              ("an XRO of an SRLG without --srlgs that should be excluded", "3/1", xro(srlg(7, True))),
                              ("an XRO of an interface's SRLGs without --srlgs", "3/1", xro(prefix("10.1.2.1", attribute=SRLG))),
                              ("an XRO with the flag F", "4/1", xro(NEAR, flags=1)),
                              ("an XRO of an unknown type", "3/2", xro(NEAR, type_=2))]:
        checks.same(name, pcc.ask(one), [f"PCErr {wanted}"])
        front.asked.clear()
        without = pack(17, one[4:], one[1] >> 4)
        pcc.say(request(without))
        (_, objects), = wire_messages(pcc)
        checks.same(f"{name}, without P: it is returned with the flag I",
                    ([body for kind, flags, body in objects if kind == 17 and flags & 1], front.asked[0].split(",")[0]), ([one[4:]], "ask"))
    for name, one in [("a subobject that is cut", xro(NEAR, FAR)[:-4]), ("a subobject of 4 bytes", xro(bytes([1, 4, 10, 1]))),
                      ("a subobject of no bytes", xro(bytes(4))), ("a prefix of 33 bits", xro(prefix("10.1.2.1", 33))),
                      ("an SRLG of 12 bytes", xro(bytes([34, 12, *bytes(10)])))]:
        for must in (True, False):
            data = bytearray(one)
            struct.pack_into("!BBH", data, 0, 17, 16 | must << 1, len(data))
            checks.same(f"an XRO with {name}, P {must:d}", pcc.ask(bytes(data)), ["PCErr 10/11"])
    checks.same("an XRO without its flags", pcc.ask(pack(17, b"", must=True)), ["PCErr 10/11"])
    for name, parts in [("of 65 interfaces", MANY), ("of 64 and one that should be excluded", [*MANY[:64], prefix("10.9.9.9", **SOFT)])]:
        for must in (True, False):
            front.said.clear()
            checks.same(f"{NEVER}: {name}, P {must:d}", pcc.ask(xro(*parts, must=must)), ["PCErr 4/4"])
            checks.same(f"{NEVER}: {name}, P {must:d}: a line says so",
                        [line for line in front.said if "more than 64 circuits and routers are to be excluded" in line], front.said[:1])
    checks.same("an XRO of 64 interfaces", pcc.ask(xro(*MANY[:63], NEAR)), [BY_SOUTH])


def wire_messages(pcc):
    """Each message as its kind and the kind, the flags and the body of each object."""
    found, pcc.out = wire.cut(pcc.out)
    messages = []
    for kind, body in found:
        objects, at = [], 0
        while at < len(body):
            of, flags, size = struct.unpack_from("!BBH", body, at)
            objects.append((of, flags, body[at + 4:at + size]))
            at += size
        messages.append((kind, objects))
    return messages


def avoided(checks, room):
    """What should be excluded is asked with the rest, and left out once there is no path with it."""
    front, pcc = begun(room)
    for name, wanted, asks, objects in [
            ("a router that should be excluded", BY_SOUTH, 1, [xro(router(2, **SOFT))]),
            ("all ways, of which one is needed", BY_NORTH, 2, [xro(router(2, **SOFT), router(3, **SOFT), prefix("10.1.4.1", **SOFT))]),
            ("one must and the others should", BY_SOUTH, 2, [xro(router(2), router(3, **SOFT), prefix("10.1.4.1", **SOFT))]),
            ("all must, and one should, too", "NO-PATH 0", 2, [xro(router(2), router(3), prefix("10.1.4.1"), prefix("10.3.4.3", **SOFT))]),
            ("all must", "NO-PATH 0", 1, [xro(router(2), router(3), prefix("10.1.4.1"))]),
            ("a bound that is kept with it", BY_SOUTH, 1, [xro(router(2, **SOFT)), metric(2, 200)]),
            ("a bound that is kept only without it", BY_NORTH, 2, [xro(router(2, **SOFT)), metric(2, 150)]),
            ("a bound that isn't kept at all", "NO-PATH 0 above 50", 2, [xro(router(2, **SOFT)), metric(2, 50)])]:
        front.asked.clear()
        checks.same(f"should be excluded: {name}", pcc.ask(*objects), [wanted])
        checks.same(f"should be excluded: {name}: asks", len(front.asked), asks)
    front = Front(tempfile.mkdtemp(dir=room), Sids(sids_of(room)))
    front.publish(*rows())
    front.publish(*(f"put,10.0.0.{a},10.{min(a, b)}.{max(a, b)}.{a + 100},10.0.0.{b},10.{min(a, b)}.{max(a, b)}.{b + 100},500,0x1,"
                    + ",".join(["125000000"] * 8) for a, b in ((1, 5), (5, 1), (5, 6), (6, 5), (6, 4), (4, 6))))
    pcc = Pcc(front)
    found = pcc.ask(xro(router(2, **SOFT), router(3, **SOFT)), metric(11, 2), setup_type=1)
    checks.same("should be excluded: a path of too many SIDs", found, [f"{BY_NORTH} labels [15012, 15024]"])
    found = pcc.ask(xro(router(2), router(3)), metric(11, 2), setup_type=1)
    checks.same("must be excluded: a path of too many SIDs", found, ["PCErr 10/3"])


def lsps_without(checks, room):
    """LSPs with an XRO are asked for by `except` rows, and are moved from what they exclude."""
    for must in (False, True):
        front, pcc = begun(room)
        pcc.report(ero=NORTH_ERO, more=[xro(router(2), must=must)])
        checks.same(f"an LSP with an XRO, P {must:d}: it is moved at once", pcc.report(0, 0), [TO_SOUTH])
        checks.same("for its path can't be used any more", front.counted.get(("moves", "lost")), 1)
        front.publish(*rows([(1, 2, 1), (2, 4, 1)]))
        checks.same("an LSP with an XRO: a cheaper path that is excluded", pcc.again(), [])
        front.publish("drop,10.0.0.1,10.1.3.1")
        found = pcc.report(ero=SOUTH_ERO, srp=pcc.session.lsps.srp, more=[xro(router(2), must=must)])
        checks.same("an LSP with an XRO: a circuit fails", found, [TO_DIRECT])
    front, pcc = begun(room)
    pcc.say(wire.message(10, *report(ero=NORTH_ERO, more=[lspa(), xro(NEAR, router(3, **SOFT)), pack(10, hop(4))]), *report(0, 0)))
    (_, objects), = pcc.messages()
    checks.same("its PCUpd has the XRO", [one.body for one in objects if one.kind == 17], [xro(NEAR, router(3, **SOFT))[4:]])
    checks.same("which is behind the METRIC, as the IRO", [one.kind for one in objects], [33, 32, 7, 9, 6, 17, 10])
    front, pcc = begun(room, gain=100)
    pcc.report(ero=SOUTH_ERO, more=[xro(prefix("192.0.2.1"))])
    checks.same("an XRO, and little is gained", pcc.report(0, 0), [])
    front, pcc = begun(room)
    pcc.report(ero=NORTH_ERO)
    pcc.report(0, 0)
    checks.same("an XRO that comes", pcc.report(ero=NORTH_ERO, more=[xro(NEAR)]), [TO_SOUTH])
    checks.same("and goes", (pcc.report(ero=SOUTH_ERO, srp=pcc.session.lsps.srp), pcc.again()), ([TO_NORTH], []))
    for name, one, fault in [("an SRLG without --srlgs", xro(srlg(7)), "3/1"), ("the flag F", xro(NEAR, flags=1), "4/1"),
                             ("an AS", xro(OTHERS[2][1]), "4/4"), ("65 interfaces", xro(*MANY), "4/4"),
                             ("a subobject that is cut", xro(NEAR)[:-4], "10/11")]:
        data = bytearray(one)
        struct.pack_into("!H", data, 2, len(data))
        for must in (False, True):
            data[1] = 16 | must << 1
            front, pcc = begun(room)
            pcc.report(ero=SOUTH_ERO, more=[bytes(data)])
            checks.same(f"an LSP with an XRO of {name}, P {must:d}: it is given back", pcc.report(0, 0), [f"{TO_SOUTH} returned"])
            is_said = f"is given back to its PCC: {fault}" in front.said[-1]
            checks.true(f"an LSP with an XRO of {name}, P {must:d}: said", is_said, front.said)
    softly(checks, room)


def softly(checks, room):
    """An LSP that should avoid something does so while there is such a path."""
    front, pcc = begun(room)
    more = [xro(router(2, **SOFT))]
    pcc.report(ero=NORTH_ERO, more=more)
    checks.same("an LSP that should avoid a router", pcc.report(0, 0), [TO_SOUTH])
    checks.same("its path wasn't lost", (front.counted.get(("moves", "lost")), front.counted.get(("moves", "other"))), (None, 1))
    pcc.report(ero=SOUTH_ERO, srp=pcc.session.lsps.srp, more=more)
    front.publish("drop,10.0.0.1,10.1.3.1", "drop,10.0.0.1,10.1.4.1")
    checks.same("and doesn't once there is no other path", pcc.again(), [TO_NORTH])
    pcc.report(ero=NORTH_ERO, srp=pcc.session.lsps.srp, more=more)
    checks.same("it stays there at each version", [(front.publish(*rows([(5, 6, 1)])), pcc.again())[1] for _ in range(6)], [[]] * 6)
    front.asked.clear()
    front.publish(*rows([(5, 6, 1)]))
    checks.same("it is asked for with all of it, and then without what should be excluded", (pcc.again(), len(front.asked)), ([], 2))
    front.publish(*rows([(1, 3, 100)]))
    checks.same("and avoids it again once there is one", pcc.again(), [TO_SOUTH])
    front, pcc = begun(room)
    pcc.report(ero=SOUTH_ERO, more=more)
    pcc.report(0, 0)
    front.publish("drop,10.0.0.1,10.1.3.1", "drop,10.0.0.1,10.1.4.1")
    front.held = []
    pcc.again()
    (call, line), = front.held
    front.held = []
    call(line)  # none
    front.publish(*rows([(1, 3, 100)]))
    (call, _), = front.held
    front.held = None
    front.asked.clear()
    call(reply(front.reference, front.version, "ask,1,10.0.0.1,10.0.0.4,7,0,0x0,0x0,0x0,"))
    checks.same("the network changes between both asks: it is asked for by all of it again",
                ([told(*one) for one in pcc.messages()], [row.rpartition(",")[2] for row in front.asked]), ([], ["10.0.0.2/32r"]))


def unsaid(checks, room):
    """A server that doesn't take `except` rows."""
    class Old(Front):
        def ask(self, row, call, owner=None):
            self.asked.append(row)
            if row.count(",") == 8:
                call("row 7 refused: kind")
            else:
                super().ask(row, call, owner)

    front = Old(tempfile.mkdtemp(dir=room))
    front.publish(*rows(TRIANGLE))
    pcc = Pcc(front, is_sr=False)
    checks.same("a server that takes no except rows: an XRO", pcc.ask(xro(NEAR)), ["PCErr 3/1"])
    pcc.say(request(xro(NEAR, must=False)))
    (_, objects), = wire_messages(pcc)
    checks.same("a server that takes no except rows: an XRO without P",
                [(flags & 1, body) for kind, flags, body in objects if kind == 17], [(1, xro(NEAR)[4:])])
    checks.same("a server that takes no except rows: two XROs, one of them with P", pcc.ask(xro(NEAR, must=False), xro(FAR)), ["PCErr 3/1"])
    checks.same("a server that takes no except rows: no XRO", pcc.ask(), [BY_NORTH])
    pcc.report(ero=SOUTH_ERO, more=[xro(NEAR, must=False)])
    checks.same("a server that takes no except rows: an LSP", pcc.report(0, 0), [f"{TO_SOUTH} returned"])
    checks.true("a server that takes no except rows: said", "is given back to its PCC: 3/1" in front.said[-1], front.said)


def drawn_exclusions(checks, room):
    """Drawn XROs in a drawn network, hard and soft: each answer is the reference's, and no path has what must be excluded."""
    draw, front, faults, outcomes = random.Random(82), Front(room), [], {}
    circuits = [(a, b, draw.randrange(1, 6)) for a in range(1, 9) for b in range(a + 1, 9) if draw.random() < 0.45]
    front.publish(*rows(circuits))
    pcc, pcc_rows = Pcc(front), list(rows(circuits))
    for _ in range(600):
        here, there = draw.sample(range(1, 9), 2)
        parts = [drawn_part(draw, circuits) for _ in range(draw.choice((1, 1, 2, 3, 6)))]
        data = xro(*(prefix(address, bits, attribute, is_soft) for address, bits, attribute, is_soft in parts))
        found, = pcc.ask(data, ends=pack(4, ip(here) + ip(there), must=True))
        texts = {is_soft: [f"{address}/{bits}{'ir'[attribute]}" for address, bits, attribute, soft_ in parts if soft_ <= is_soft]
                 for is_soft in (False, True)}
        wanted = words_of(front.reference, here, there, texts[True])
        if wanted == "NO-PATH 0" and len(texts[False]) < len(texts[True]):
            wanted = words_of(front.reference, here, there, texts[False])
        outcomes[wanted.split()[0]] = outcomes.get(wanted.split()[0], 0) + 1
        if found != wanted:
            faults.append((here, there, parts, found, wanted))
    checks.same("drawn XROs", faults[:2], [])
    checks.true("drawn XROs: paths and none", min(outcomes.values()) > 50 and len(outcomes) == 2 and pcc_rows, outcomes)


def drawn_part(draw, circuits):
    a, b, _ = draw.choice(circuits)
    address, attribute = draw.choice(((f"10.{a}.{b}.{draw.choice((a, b))}", INTERFACE), (f"10.0.0.{a}", NODE), (f"10.{a}.{b}.{a}", NODE)))
    return address, draw.choice((32, 32, 32, 31, 30)), attribute, draw.random() < 0.3


def words_of(network, here, there, parts):
    """What a PCC gets for a request that excludes these parts."""
    ask = f"ask,1,10.0.0.{here},10.0.0.{there},7,0,0x0,0x0,0x0,"
    text = reply(network, 1, f"{ask.replace('ask', 'except')},{' '.join(parts)}" if parts else ask)
    if text.endswith(" none"):
        return "NO-PATH 0"
    data = bytes.fromhex(text.partition(" ero=")[2])
    hops = " ".join(formats.address_text(int.from_bytes(data[at + 2:at + 6], "big")) for at in range(4, len(data), 8))
    return f"PCRep {hops} cost {text.partition(' cost=')[2].split(' ')[0]}"


def dissected(checks, room):
    """The XROs of these tests, as tshark reads them."""
    if not all(map(shutil.which, ("text2pcap", "tshark"))):
        print("skipped: XROs by tshark, since there is none (Debian's tshark)")
        return
    data = request(xro(NEAR, router(2, **SOFT), prefix("10.1.2.0", 29, SRLG), srlg(7), srlg(8, **SOFT), flags=1))
    text, capture = (os.path.join(room, name) for name in ("text", "capture"))
    with open(text, "w", encoding="ascii") as file:
        file.write(f"0000 {data.hex(' ')}\n")
    subprocess.run(["text2pcap", "-q", "-T", "50000,4189", text, capture], check=True, capture_output=True)
    found = subprocess.run(["tshark", "-r", capture, "-V"], capture_output=True, text=True).stdout
    words = re.findall(r"= (X): 0x(.)|(?:SUBOBJECT|IPv4): (\S+) Prefix: (\S+)|SRLG ID: 0x0*(\S)|Attribute: (\w+)|Fail \(F\): (\w+)",
                       found.partition("EXCLUDE ROUTE object (XRO)")[2])
    checks.same("an XRO as tshark reads it", [" ".join(filter(None, each)) for each in words],
                ["Set", "IPv4 10.1.2.1/32", "X 0", "Interface", "IPv4 10.0.0.2/32", "X 1", "Node", "IPv4 10.1.2.0/29", "X 0", "SRLG",
                 "X 0", "7", "SRLG", "X 1", "8", "SRLG"])


EXCLUDED = dissected, exclusions, unexcluded, avoided, lsps_without, unsaid, drawn_exclusions
