"""`routed-tools pcep` without sockets: each form of request, malformed messages, and timers on a clock that the test moves.

tests/pcep/runs.py has the whole front, beside the built program."""
import glob
import os
import random
import re
import struct
import tempfile

from checks import TOP
from pcep.connections import collected, crowded, deaf, heavy, in_slices, in_vain, moved, paced, places, reset, strange, unheard
from pcep.delegated import delegated, followed, races
from pcep.excluded import EXCLUDED, prefix, srlg, xro
from pcep.initiated import initiated, looked_at, making, segments, updated
from pcep.opening import SESSIONS
from pcep.paired import PAIRED, objective, svec, two
from pcep.played import FREE, PATH, SOUTH, Front, Pcc, bandwidth, fars, hop, ip, lspa, metric, request, rows, told, told_one
from pcep.raised import raised
from pcep.refusing import downs, other_words, refusals, silences
from pcep.reported import REPORTED, constraints, marked, mixed, owners, setups
from pcep.shared_risks import RISKS
from pcep.sources import journals

from routed.pcep import wire
from routed.pcep.wire import pack, tlv

HERE = os.path.dirname(os.path.abspath(__file__))


def mapping(checks, room):
    """Each line of the table of docs/run/PCEP.md."""
    front = Front(room)
    front.publish(*rows(), *(row.replace("125000000", "1000000") for row in rows([(4, 5, 1)])),
                  *(row.replace(FREE, "8,7,6,5,4,3,2,1") for row in rows([(4, 6, 1)])))
    pcc = Pcc(front)
    by_south, by_4 = f"PCRep {' '.join(SOUTH)} cost 200", f"PCRep {' '.join(fars((1, 2), (2, 4), (4, 6)))} cost 101"
    to_6 = {"ends": pack(4, ip(1) + ip(6), must=True)}
    for name, wanted, objects, more in [
            ("no constraint", PATH, [], {}),
            ("an unknown source", "NO-PATH 4", [], {"ends": pack(4, ip(9) + ip(4), must=True)}),
            ("an unknown destination", "NO-PATH 2", [], {"ends": pack(4, ip(1) + ip(9), must=True)}),
            ("bandwidth that is there", PATH, [bandwidth(125e6)], {}),
            ("bandwidth that isn't", "NO-PATH 0", [bandwidth(125000008)], {}),
            ("bandwidth without P", "NO-PATH 0", [bandwidth(125000008, must=False)], {}),
            ("bandwidth between two bytes", "NO-PATH 0", [bandwidth(1e6 + 0.5)], {"ends": pack(4, ip(1) + ip(5), must=True)}),
            ("bandwidth that the PCC has rounded down", PATH, [bandwidth(125000001)], {}),
            ("a negative bandwidth", "PCErr 10/11", [bandwidth(-1)], {}),
            ("bandwidth that is no number", "PCErr 10/11", [bandwidth(float("nan"))], {}),
            ("more bandwidth than a row has", "PCErr 4/4", [bandwidth(2.0 ** 64)], {}),
            ("more bandwidth than a row has, without P", "PCErr 4/4", [bandwidth(2.0 ** 64, must=False)], {}),
            ("infinite bandwidth without P", "PCErr 4/4", [bandwidth(float("inf"), must=False)], {}),
            ("affinities that exclude", "NO-PATH 0", [lspa(exclude=1)], {}),
            ("affinities of which any", "NO-PATH 0", [lspa(any_=2)], {}),
            ("affinities that are all there", PATH, [lspa(any_=3, all_=1)], {}),
            ("affinities of which one isn't there", "NO-PATH 0", [lspa(all_=3)], {}),
            ("bandwidth at its setup priority", by_4, [lspa(setup=3), bandwidth(5)], to_6),
            ("bandwidth that isn't at its setup priority", "NO-PATH 0", [lspa(setup=4), bandwidth(5)], to_6),
            ("a holding priority and local protection", PATH, [pack(9, struct.pack("!IIIBBBx", 0, 0, 0, 7, 0, 1), must=True)], {}),
            ("a setup priority above 7", "PCErr 10/11", [lspa(setup=8)], {}),
            ("a holding priority above 7", "PCErr 10/11", [pack(9, struct.pack("!IIIBBxx", 0, 0, 0, 7, 8), must=True)], {}),
            ("an IRO that is cut", "PCErr 10/11", [pack(10, bytes([1, 12]) + hop(3)[2:], must=True)], {}),
            ("an IRO of a prefix of 33 bits", "PCErr 10/11", [pack(10, hop(3, length=33), must=True)], {}),
            ("an IRO", by_south, [pack(10, hop(3), must=True)], {}),
            ("an IRO of a router further on", PATH, [pack(10, hop(4), must=True)], {}),
            ("an IRO of two prefixes", by_south, [pack(10, hop(3) + hop(4, length=31), must=True)], {}),
            ("an IRO with L bits", by_south, [pack(10, hop(3, 0x81), must=True)], {}),
            ("an IRO of 7", by_south, [pack(10, hop(3) * 7, must=True)], {}),
            ("an IRO of 8", "PCErr 4/4", [pack(10, hop(3) * 8, must=True)], {}),
            ("an IRO of 8 without P", PATH + " I [10]", [pack(10, hop(3) * 8)], {}),
            ("an IRO of an AS", "PCErr 4/4", [pack(10, bytes([32, 4, 0, 1]), must=True)], {}),
            ("a TE bound that is kept", PATH, [metric(2, 100)], {}),
            ("a TE bound that isn't", "NO-PATH 0 above 99", [metric(2, 99)], {}),
            ("a TE metric to be optimized", PATH, [metric(2, 0, 0)], {}),
            ("a hop bound", "PCErr 4/4", [metric(3, 9)], {}),
            ("a hop bound without P", PATH + " I [6]", [metric(3, 1, must=False)], {}),
            ("an IGP metric to be optimized", "PCErr 4/4", [metric(1, 0, 0)], {}),
            ("an IGP metric to be optimized, without P", "PCErr 4/4", [metric(1, 0, 0, False)], {}),
            ("an IGP bound without P", PATH + " I [6]", [metric(1, 9, must=False)], {}),
            ("a bound on delay", "PCErr 4/4", [metric(12, 9)], {}),
            ("the objective MCP", PATH, [pack(21, struct.pack("!HH", 1, 0), must=True)], {}),
            ("the objective MLP", "PCErr 4/4", [pack(21, struct.pack("!HH", 2, 0), must=True)], {}),
            ("the objective MBP without P", PATH + " I [21]", [pack(21, struct.pack("!HH", 3, 0))], {}),
            ("an XRO", by_south, [pack(17, struct.pack("!I", 0) + bytes([1, 8, 10, 1, 2, 2, 32, 0]), must=True)], {}),
            ("an XRO without P", by_south, [pack(17, struct.pack("!I", 0) + bytes([1, 8, 10, 1, 2, 2, 32, 0]))], {}),
            ("an XRO with the flag F", "PCErr 4/1", [pack(17, struct.pack("!I", 1) + hop(2), must=True)], {}),
            ("an XRO with the flag F, without P", PATH + " I [17]", [pack(17, struct.pack("!I", 1) + hop(2))], {}),
            ("an unknown class", "PCErr 3/1", [pack(99, bytes(4), must=True)], {}),
            ("an unknown class without P", PATH + " I [99]", [pack(99, bytes(4))], {}),
            ("an unknown type", "PCErr 3/2", [pack(9, bytes(16), 9, True)], {}),
            ("an unknown type without P", PATH + " I [9]", [pack(9, bytes(16), 9)], {}),
            ("an SVEC", "PCErr 4/1", [], {"front": [pack(11, struct.pack("!III", 1, 7, 8), must=True)]}),
            ("an SVEC without P", PATH + " I [11]", [], {"front": [pack(11, struct.pack("!III", 1, 7, 8))]}),
            ("IPv6 ends", "PCErr 4/2", [], {"ends": pack(4, bytes(32), 2, True)}),
            ("P2MP ends", "PCErr 4/2", [], {"ends": pack(4, bytes(16), 3, True)}),
            ("ends of an unknown type", "PCErr 3/2", [], {"ends": pack(4, bytes(32), 9, True)}),
            ("ends without P", "PCErr 10/1", [], {"ends": pack(4, ip(1) + ip(4))}),
            ("the same ends", "PCErr 4/4", [], {"ends": pack(4, ip(1) + ip(1), must=True)}),
            ("no ends", "PCErr 6/3", [], {"ends": b""}),
            ("an RP without P", "PCErr 10/1", [], {"must": False}),
            ("both directions", "PCErr 4/4", [], {"rp": 16}),
            ("a reoptimization", PATH, [pack(8, hop(2), must=True)], {"rp": 8}),
            ("a reoptimization of an LSP of bandwidth 0", PATH, [pack(8, hop(2), must=True), bandwidth(0, 2), bandwidth(9)], {"rp": 8}),
            ("a reoptimization of an LSP of bandwidth 1", "PCErr 4/4", [pack(8, hop(2), must=True), bandwidth(1, 2)], {"rp": 8}),
            ("the same without P", "PCErr 4/4", [pack(8, hop(2)), bandwidth(1, 2, False)], {"rp": 8}),
            ("the same without RRO", "PCErr 6/2", [bandwidth(1, 2)], {"rp": 8}),
            ("its bandwidth that is no number", "PCErr 10/11", [bandwidth(-1, 2)], {"rp": 8}),
            ("the request id 0", "PCErr 10/1", [], {"number": 0}),
            ("an LSP object", PATH, [pack(32, struct.pack("!I", 1 << 12 | 9) + tlv(17, b"blue"), must=True)], {}),
            ("an LSP object that is cut", "PCErr 10/11", [pack(32, struct.pack("!IHH", 1 << 12, 17, 9), must=True)], {}),
            ("two END-POINTS", PATH, [pack(4, ip(4) + ip(1), must=True)], {}),
            ("an ignored object of 1 KB", PATH + " I [99]", [pack(99, bytes(1020))], {}),
            ("an ignored object above 1 KB", PATH, [pack(99, bytes(1024))], {}),
            ("ignored objects above 1 KB together", PATH + " I [99]", [pack(99, bytes(600)), pack(98, bytes(600))], {}),
            ("an RRO", "PCErr 4/1", [pack(8, hop(2), must=True)], {}),
            ("an RRO without P", PATH + " I [8]", [pack(8, hop(2))], {}),
            ("the bandwidth of before without P", PATH + " I [5]", [bandwidth(1, 2, False)], {}),
            ("the bandwidth of before", "PCErr 4/2", [bandwidth(1, 2)], {}),
            ("a setup type without SIDs", "PCErr 21/1", [], {"setup_type": 1}),
            ("a short LSPA", "PCErr 10/11", [lspa(size=12)], {})]:
        pcc.say(request(*objects, **more))
        found = pcc.messages()
        words = [told(*one) for one in found]
        ignored = flagged(front, pcc, objects, more)
        checks.same(f"mapping: {name}", [word + ignored for word in words], [wanted])
    pcc.say(request(rp=0xffffff00 | 7))
    (_, objects), = pcc.messages()
    checks.same("mapping: the flags of RP that come back", objects[0].body[:4], bytes([0, 0, 0, 7]))
    without = Pcc(front, capability=None)
    checks.same("an LSP object in a session without LSPs", without.ask(pack(32, bytes(4), must=True)), ["PCErr 3/1"])
    front.version = None
    checks.same("mapping: no server", pcc.ask(), ["NO-PATH 1"])
    checks.same("no RP", told_one(Pcc(front), wire.message(3, pack(4, ip(1) + ip(4), must=True))), ["PCErr 6/1"])


def flagged(front, pcc, objects, more):
    """The classes that come back with the I flag, in words."""
    pcc.say(request(*objects, **more))
    found, pcc.out = wire.cut(pcc.out)
    kinds, at, body = [], 0, found[0][1]
    while at < len(body):
        kind, flags, size = struct.unpack_from("!BBH", body, at)
        kinds += [kind] * (flags & 1)
        at += size
    return f" I {kinds}" if kinds else ""


def malformed(checks, room):
    """Each message cut at each byte, wrong lengths, garbage; nothing raises, and each session goes on or ends by its word."""
    front = Front(room)
    front.publish(*rows())
    whole = [request(lspa(), bandwidth(1), metric(2, 500), pack(10, hop(3), must=True)),
             wire.message(10, pack(33, struct.pack("!II", 0, 1)),
                          pack(32, struct.pack("!I", 1 << 12 | 9) + tlv(17, b"a") + tlv(18, ip(1) + bytes(8) + ip(4))), pack(7, hop(2))),
             wire.error(4, 4), wire.close(1), request(xro(prefix("10.1.2.1"), prefix("10.1.3.0", 24, 1, True), srlg(7, True))),
             two(front=[svec(7, 8), objective(6)])]
    count = 0
    for data in whole:
        for at in range(4, len(data)):
            for size in {at, at // 4 * 4}:
                pcc = Pcc(front)
                pcc.say(struct.pack("!BBH", 0x20, data[1], size) + data[4:at] + bytes(max(0, size - at)))
                words = [told(*one) for one in pcc.messages()]
                count += size % 4 != 0 and words != ["Close 3"]
        pcc = Pcc(front)
        for at in range(len(data)):
            pcc.say(data[at:at + 1])
        alone = [told(*one) for one in pcc.messages()]
        checks.same(f"message {data[1]} byte by byte", alone, told_one(Pcc(front), data))
    checks.same("messages whose length is no multiple of 4 aren't closed", count, 0)
    closed, before = 0, front.counted.get(("messages", "malformed"), 0)
    for data in whole:
        for at in places_of_sizes(data):
            size, = struct.unpack_from("!H", data, at)
            for wrong in {*range(24), size - 4, size - 1, size + 1, size + 4, 0xffff} - {size}:
                words = told_one(Pcc(front), data[:at] + struct.pack("!H", wrong & 0xffff) + data[at + 2:])
                closed += words == ["Close 3"]
                if wrong < 4 or wrong % 4 or at - 2 + wrong > len(data):
                    checks.same(f"message {data[1]}: the length {wrong} in place of {size} at {at}", words, ["Close 3"])
    checks.same("malformed messages are counted", front.counted.get(("messages", "malformed")), before + closed)
    draw = random.Random(55)
    for _ in range(3000):
        data = bytearray(draw.choice(whole))
        for _ in range(draw.randrange(1, 4)):
            data[draw.randrange(4, len(data))] = draw.randrange(256)
        told_one(Pcc(front), bytes(data))
    pcc, size = Pcc(front), 0
    while size < 10_000_000:
        pcc.say(draw.randbytes(1 << 16))
        size += 1 << 16
    checks.true("10 MB of garbage", pcc.is_ended and len(pcc.session.unread) <= 1 << 17, len(pcc.session.unread))
    for name, first, wanted in [("no Open", wire.message(2), ["PCErr 1/1"]), ("garbage first", b"GET / HTTP/1.1\r\n\r\n", ["PCErr 1/1"]),
                                ("an Open without object", wire.message(1), ["PCErr 1/1"]),
                                ("a cut TLV", wire.message(1, pack(1, bytes([0x20, 30, 120, 1, 0, 16, 0, 99]))), ["PCErr 10/11"])]:
        pcc = Pcc(front, False)
        checks.same(f"first: {name}", (told_one(pcc, first), pcc.is_ended), (wanted, True))
    pcc = Pcc(front)
    checks.same("unknown messages", [told_one(pcc, wire.message(99)) for _ in range(5)], [["PCErr 2/0"]] * 4 + [["PCErr 2/0", "Close 5"]])
    pcc, found = Pcc(front), []
    for at in range(0, 100, 20):
        front.time = float(at)
        found += told_one(pcc, wire.message(99))
    checks.same("five unknown messages in more than a minute", found, ["PCErr 2/0"] * 5)
    checks.same("a report without capability", told_one(Pcc(front, capability=None), whole[1]), ["PCErr 19/5", "Close 1"])


def places_of_sizes(data):
    """Where the lengths of a message's objects are."""
    at = 4
    while at < len(data):
        yield at + 2
        at += struct.unpack_from("!H", data, at + 2)[0]


def timers(checks, room):
    front = Front(room)
    for name, is_up, at, wanted in [("no Open", False, 10, ["PCErr 1/2"]), ("not yet", False, 9.9, []),
                                    ("a Keepalive", True, 30, ["Keepalive"]),
                                    ("before it", True, 29.9, []), ("the dead timer", True, 120, ["Close 2"])]:
        front.time = 0.0
        pcc = Pcc(front, is_up)
        front.time = at
        pcc.session.tick(front.time)
        checks.same(f"timer: {name}", [told(*one) for one in pcc.messages()], wanted)
    front.time = 0.0
    pcc = Pcc(front, False)
    pcc.say(wire.message(1, pack(1, bytes([0x20, 30, 120, 9]))))
    pcc.messages()
    front.time = 60
    pcc.session.tick(60)
    checks.same("timer: no Keepalive behind the Open", [told(*one) for one in pcc.messages()], ["PCErr 1/7"])
    front.time = 0.0
    pcc = Pcc(front, False)
    pcc.say(wire.message(1, pack(1, bytes([0x20, 0, 0, 9]))) + wire.message(2))
    pcc.messages()
    front.time = 86400.0
    pcc.session.tick(front.time)
    checks.same("timer: a PCC whose dead timer is 0", ([told(*one) for one in pcc.messages()], pcc.is_ended), (["Keepalive"], False))
    front.time = 0.0
    pcc = Pcc(front)
    front.time = 119
    pcc.say(wire.message(2))
    front.time = 238
    pcc.session.tick(238)
    checks.true("timer: a Keepalive puts it off", not pcc.is_ended)


# Each row of the table of docs/run/PCEP.md, by its first cell, and each item of the lists of errors, and the checks of it.
TABLE = {
    "END-POINTS, IPv4": ["no constraint", "an unknown source", "an unknown destination", "END-POINTS, an address {name}",
                         "END-POINTS, an address that two routers have"],
    "BANDWIDTH": ["bandwidth that is there", "bandwidth that isn't", "bandwidth between two bytes",
                  "bandwidth that the PCC has rounded down"],
    "LSPA": ["bandwidth at its setup priority", "bandwidth that isn't at its setup priority", "affinities that exclude",
             "affinities of which any", "affinities that are all there", "a holding priority and local protection"],
    "IRO of up to 7 IPv4 prefixes": ["an IRO", "an IRO of two prefixes", "an IRO of 7", "an IRO with L bits"],
    "XRO of IPv4 prefixes with exclusion bit 0 and attribute 0 (interface) or 1 (node)": [
        "an XRO", "an XRO without P", "an XRO of {name}, P {must:d}", "two XROs", "drawn XROs"],
    "subobjects of an XRO with exclusion bit 1": ["should be excluded: {name}", "should be excluded: {name}: asks", "drawn XROs"],
    "SRLG subobjects of an XRO, and IPv4 prefixes with attribute 2 (SRLG), with `--srlgs`": [
        "SRLGs of {name}", "SRLGs of {name}: one row", "no answer has a link of a named SRLG"],
    "SVEC of two requests with the flag L (link diverse) or N (node diverse); OF 6 behind the SVEC": [
        "a pair by {kind}: {name}", "a pair by {kind}: {name}: its rows", "a pair by both flags", "no pair: {name}", "drawn pairs"],
    "METRIC of type TE, as a bound": ["a TE bound that is kept", "a TE bound that isn't"],
    "METRIC of type SID depth (11), as a bound": ["a request of at most {most} SIDs"],
    "METRIC of type TE, to be optimized; OF 1": ["a TE metric to be optimized", "the objective MCP"],
    "the flag for reoptimization of RP; RRO and BANDWIDTH of type 2 beside this flag": [
        "a reoptimization", "a reoptimization of an LSP of bandwidth 0"],
    "LSP in a request": ["an LSP object"],
    "reply `route`": ["no constraint", "SIDs", "a route of 8,183 links"],
    "line `pair` with two ways": ["two ways", "drawn pairs", "a pair by SIDs", "a pair of which one way has a link without a SID",
                                 "a pair of which one way has more SIDs than the PCC takes"],
    "reply `none`; of a pair also `each by` and `each through`": [
        "bandwidth that isn't", "affinities that exclude", "a router that all ways pass", "a circuit that all ways have", "no way at all"],
    "`unknown-from`, `unknown-to`": ["an unknown source", "an unknown destination"],
    "no connection to the server, a link of the route has no SID, or the SIDs or the journal aren't those of the server's run": [
        "mapping: no server", "without a server", "a link without a SID is no lack of a path", "a SID that is gone",
        "SIDs of the run {head.strip()!r}", "a journal {name}: a path by SIDs"],
    ("an XRO names SRLGs, and the file of `--srlgs` can't be used, or the links of these SRLGs changed each time that the front "
     "asked"): ["a file of SRLGs {name}: a request", "SRLGs that change at each ask"],
    ("a bound on the number of hops, another metric than TE, an objective function other than 1, an IRO of 8 hops or more or of other "
     "subobjects, an XRO with other subobjects or with an attribute above 2"): [
        "an IPv6 prefix", "an unnumbered interface", "an AS", "attribute 3", "an XRO of a prefix, and of an AS behind it",
        "a hop bound", "a hop bound without P", "a bound on delay", "an IGP metric to be optimized", "the objective MLP",
        "the objective MBP without P", "an IRO of 8", "an IRO of 8 without P", "an IRO of an AS"],
    "IPv6 or P2MP END-POINTS, the bandwidth of the existing LSP (BANDWIDTH of type 2) without reoptimization": [
        "IPv6 ends", "P2MP ends", "the bandwidth of before", "the bandwidth of before without P"],
    "an SVEC whose requests [aren't a pair](#pairs), RRO without reoptimization, an XRO with the flag F (for an LSP that has failed)": [
        "an SVEC", "an SVEC without P", "no pair: {name}", "no pair: {name}, without P", "a server that takes no pair rows: an SVEC",
        "an RRO", "an RRO without P", "an XRO with the flag F", "an XRO with the flag F, without P"],
    ("an XRO if the server takes no `except` rows, an XRO that names SRLGs if `--srlgs` isn't given, every other class, LSP in a session "
     "without the stateful capability"): [
        "a server that takes no except rows: an XRO", "a server that takes no except rows: an XRO without P",
        "an XRO of an SRLG without --srlgs", "an XRO of an interface's SRLGs without --srlgs", "a server without --except: an XRO",
        "an unknown class", "an unknown class without P", "an LSP object in a session without LSPs"],
    "an unknown type of a known class": ["ends of an unknown type", "an unknown type", "an unknown type without P"],
    ("the flag of RP for a path in both directions, an IGP metric to be optimized, a bandwidth of 2^64 or more, a reoptimization of an LSP "
     "that has bandwidth, END-POINTS with two equal addresses, an XRO that excludes more than 64 circuits and routers"): [
        "an XRO that excludes more than 64", "SRLGs of 65 circuits", "an SRLG of 10,000 circuits",
        "both directions", "an IGP metric to be optimized, without P", "more bandwidth than a row has",
        "more bandwidth than a row has, without P", "infinite bandwidth without P", "a reoptimization of an LSP of bandwidth 1",
        "the same without P", "the same ends", "END-POINTS, both of one router"],
    "RP or END-POINTS comes without the P flag, or the request id is 0": ["an RP without P", "ends without P", "the request id 0"],
    "an object that is too short, a subobject that is cut or has a wrong length, a float that is negative or not a number": [
        "a short LSPA", "an IRO that is cut", "an XRO with {name}, P {must:d}", "bandwidth that is no number", "a negative bandwidth",
        "a setup priority above 7"],
    "no RP, no RRO in a reoptimization of an LSP that has bandwidth, no END-POINTS": ["no RP", "the same without RRO", "no ends"],
    ("a report without LSP object or ERO, or the first report of an LSP without its name or, for RSVP-TE, without LSP identifiers"): [
        "a report with {name}", "no LSP", "no ERO", "no name", "no identifiers", "the first report of an LSP has its name"],
    "a path setup type other than 0, or 1 if `--sids` is given": ["a setup type without SIDs", "a setup type that isn't known", "SIDs"],
    "a route of more SIDs than the PCC said that it can impose, or than a message has room for": ["more SIDs than the PCC takes",
                                                                                                  "{count} SIDs"],
    "an Open that lists path setup type 1 without that TLV, if `--sids` is given": ["an Open that lists both setup types, {name}"],
    "an unknown message; five in a minute close the session": ["unknown messages", "five unknown messages in more than a minute"],
    "the first message is no Open, no Open came within 10 s, or no Keepalive came within a minute after the Open": [
        "first: {name}", "no Open", "timer: {name}", "timer: no Keepalive behind the Open"],
    "a PCC proposes other timers for the second time, or a dead timer that is shorter than the Keepalive timer": [
        "for the second time", "whose dead timer ends before its Keepalive"],
    "a second session from one address, while the first one is alive": ["two PCCs of one address", "beside one that is alive"],
    "a report in a session without the stateful capability": ["a report without capability"],
    "a report of one LSP more than `--most-lsps` says; it closes the session": ["one LSP too many"],
    "SVEC (RFC 5440 7.13)": [
        "ids in the other order", "flags that mean nothing", "two SVECs", "a third request beside it", "the flag S", "no flag", "one id",
        "the flag for links of one direction", "the flag for paths that are diverse in part", "an id that isn't in the PCReq",
        "ids in two SVECs", "an SVEC whose ids are in no request", "an SVEC {name}", "no pair: {name}: a request that no SVEC names"],
    "objects behind the SVEC (RFC 5541 3.2)": [
        "the objective MCC", "the objective MCC without P", "the objective MLL", "a metric behind it", "an XRO behind it"],
    "RP and END-POINTS of both requests": ["other ends", "the ends in the other order", "a pair of two setup types",
                                           "a pair whose ends are interfaces"],
    "LSPA and BANDWIDTH of both requests": ["affinities and bandwidth", "other bandwidth", "bandwidth of one alone", "other affinities",
                                            "another setup priority"],
    "IRO, XRO, METRIC as a bound": ["an IRO", "an XRO", "a bound", "a bound on SIDs"],
    "sends PCErr 1/4 with an Open": ["PCErr 1/4: {name}"],
    "says in its Open that it sends no Keepalives": ["Keepalive 0, DeadTimer 3"],
    "sends nothing for the time of its dead timer": ["the dead timer", "256 requests that wait for the server, and the dead timer",
                                                     "and a PCC that waits for that isn't dead"],
    "connects again, and its old connection has ended without a word": ["a PCC that begins again"],
    "has the stateful capability without the U flag": ["a PCC without the U flag: a request", "its LSP is kept, and isn't moved"],
    "cancels requests by a PCNtf": ["a request is cancelled", "the other alone is answered"],
    "says by a PCNtf that it has too much to do": ["an overload of {name}"],
    "sends a message that can't be cut into objects": ["message {data[1]}: the length"],
    "sends one message of many requests": ["one message: asks at once", "one message: their bytes"],
    "resets its connection": ["a reset: its session ends, and it is closed"],
    **REPORTED,
}


def documented(checks, _):
    """Each row of the table of docs/run/PCEP.md, and each error of its lists, has checks by name, and there are checks of these names."""
    with open(os.path.join(TOP, "docs/run/PCEP.md"), encoding="utf-8") as file:
        tables = file.read().partition("## What maps to what")[2].partition("\n## Bounds")[0]
    found = [match[1] or match[2]
             for match in re.finditer(r"(?m)^(?:\| (?!Object|A PCC)(.*?) \||- (?:\d+/\d+ \([^)]*\)(?:, |: ))+(.*)$)", tables)]
    checks.same("the rows of the page", found, [*TABLE])
    text = ""
    for path in glob.glob(os.path.join(HERE, "*.py")):
        with open(path, encoding="utf-8") as file:
            text += re.split(r"\n(?:TABLE|REPORTED) = {", file.read())[0]
    for row, names in TABLE.items():
        checks.same(f"checks of the row {row}", [name for name in names if f'"{name}' not in text], [])


def pcep(_, checks):
    with tempfile.TemporaryDirectory() as room:
        checks.parts_in(room, (mapping, malformed, timers, deaf, reset, collected, paced, unheard, heavy, in_slices, in_vain, crowded,
                               places, moved, strange, delegated, followed, races, updated, initiated, looked_at, making, segments,
                               *SESSIONS, *EXCLUDED, *RISKS, *PAIRED, refusals, other_words, silences, downs, constraints, mixed, setups,
                               owners, marked, journals, raised, documented), checks)
