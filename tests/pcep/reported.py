"""What reports say: constraints that are kept, reports that can't be read, setup types, owners, and LSPs that PCInitiate has made."""
import argparse
import functools
import os
import struct
import tempfile

from pcep.played import NORTH, SOUTH, Front, Pcc, bandwidth, hop, ip, lspa, metric, report, rows, told

from routed.net.endpoints import Stopped
from routed.net.loop import Loop
from routed.pcep import wire
from routed.pcep.front import Front as Real
from routed.pcep.sids import Sids
from routed.pcep.wanted import request_of, wanted
from routed.pcep.wire import pack, tlv

NORTH_ERO, SOUTH_ERO = (wire.addresses_ero(route)[4:] for route in (NORTH, SOUTH))
TO_NORTH, TO_SOUTH = (f"PCUpd {' '.join(route)}" for route in (NORTH, SOUTH))
MADE = 0x89  # the flags of an LSP by PCInitiate: C, A, D


def begun(room, is_sr=False, **options):
    front = Front(tempfile.mkdtemp(dir=room), Sids(sids_of(room)) if is_sr else None, **options)
    front.publish(*rows())
    return front, Pcc(front, is_sr=is_sr)


def sids_of(room):
    path = os.path.join(tempfile.mkdtemp(dir=room), "sids")
    with open(path, "w") as file:
        file.writelines(f"sid,1,10.0.0.{a},10.{min(a, b)}.{max(a, b)}.{a},{15000 + 10 * a + b}\n"
                        for a, b in ((1, 2), (2, 4), (1, 3), (3, 4)))
    return path


CONSTRAINTS = [("a bound on hops", lambda must: metric(3, 5, 1, must)),
               ("an IGP metric to be optimized", lambda must: metric(1, 0, 0, must)),
               ("a bound on delay", lambda must: metric(12, 9, 1, must)),
               ("the objective MLP", lambda must: pack(21, struct.pack("!HH", 2, 0), must=must)),
               ("an IRO of 8 hops", lambda must: pack(10, hop(3) * 8, must=must)),
               ("an IRO of an AS", lambda must: pack(10, bytes([32, 4, 0, 1]), must=must)),
               ("disjoint paths", lambda must: pack(40, struct.pack("!xxHHH4s", 0, 2, 1, ip(1)), must=must)),
               ("an object of an unknown class", lambda must: pack(99, bytes(4), must=must))]


def constraints(checks, room):
    """A constraint that no row can say is never dropped from an LSP: it is given back."""
    for name, make in CONSTRAINTS:
        for must in (False, True):
            front, pcc = begun(room)
            pcc.report(ero=SOUTH_ERO, more=[make(must)])
            found = pcc.report(0, 0), pcc.report(ero=SOUTH_ERO, more=[make(must)])
            checks.same(f"an LSP with {name}, P {must:d}", found, ([f"{TO_SOUTH} returned"], []))
            checks.same(f"an LSP with {name}, P {must:d}: said and counted",
                        (front.counted.get(("moves", "given back")), sum("is given back" in line for line in front.said)), (1, 1))
            front.publish("drop,10.0.0.1,10.1.2.1")
            checks.same(f"an LSP with {name}, P {must:d}: not moved", pcc.again(), [])
    front, pcc = begun(room)
    pcc.report(0, 0)
    checks.same("a constraint that goes", (pcc.report(ero=SOUTH_ERO, more=[metric(3, 5)]), pcc.report(ero=SOUTH_ERO)),
                ([f"{TO_SOUTH} returned"], [TO_NORTH]))
    for name, more in (("the cost of its path", metric(1, 30, 2, False)), ("the bandwidth that it has", bandwidth(1, 2, False)),
                       ("a policy's association", pack(40, struct.pack("!xxHHH4s", 0, 6, 1, ip(1)))),
                       ("a vendor's object", pack(34, bytes(8))), ("its ends", pack(4, ip(1) + ip(4)))):
        front, pcc = begun(room)
        pcc.report(0, 0)
        checks.same(f"no constraint: {name}", pcc.report(ero=SOUTH_ERO, more=[more]), [TO_NORTH])
    sid_depth(checks, room)
    flags(checks, room)


def sid_depth(checks, room):
    """A METRIC of SID depth, as a bound, is checked on the answer."""
    labels = "labels [15012, 15024]"
    for most, wanted_path, wanted_update in ((2, f"PCRep {' '.join(NORTH)} cost 100 {labels}", [f"{TO_NORTH} {labels}"]),
                                             (1, "PCErr 10/3", [])):
        for must in (False, True):
            front, pcc = begun(room, is_sr=True)
            checks.same(f"a request of at most {most} SIDs, P {must:d}", pcc.ask(metric(11, most, 1, must), setup_type=1), [wanted_path])
            pcc.report(0, 0)
            found = pcc.report(setup_type=1, more=[metric(11, most, 1, must)])
            checks.same(f"an LSP of at most {most} SIDs, P {must:d}", found, wanted_update)
    checks.same("an LSP without such a route: said", front.said[-1], "10.0.0.1: LSP 'blue' (1) has no route: its path has 2 SIDs, "
                                                                     "and its METRIC of SID depth takes 1; its PCC keeps what it has")


def flags(checks, room):
    """P and I have a meaning in requests alone."""
    front, pcc = begun(room, initiate=True)
    front.made = {"red": request_of(["10.0.0.1", "10.0.0.4", "7", "1000", "0x0", "0x0", "0x0"])}
    pcc.report(more=[lspa(), bandwidth(1)])
    pcc.say(wire.message(10, *report(0, 0)))
    found, pcc.out = wire.cut(pcc.out)
    checks.same("a PCUpd and a PCInitiate", sorted(kind for kind, _ in found), [11, 12])
    set_flags = []
    for kind, body in found:
        at = 0
        while at < len(body):
            set_flags += [(kind, body[at])] * bool(body[at + 1] & 3)
            at += struct.unpack_from("!H", body, at + 2)[0]
    checks.same("no object of them has P or I", set_flags, [])


def mixed(checks, room):
    """Reports that can't be taken, between others."""
    bad = [("without ERO", [pack(32, struct.pack("!I", 2 << 12 | 9) + tlv(17, b"b") + tlv(18, ip(1) + bytes(8) + ip(4)))], "PCErr 6/9"),
           ("without name", report(2, name=b""), "PCErr 6/14"), ("without identifiers", report(2, name=b"b", ends=None), "PCErr 6/11"),
           ("with a hop that is cut", report(2, name=b"b", ero=bytes([1, 8, 10, 0])), "PCErr 10/11"),
           ("with a TLV that is cut", [pack(32, struct.pack("!IHH", 2 << 12 | 9, 17, 9)), pack(7, b"")], "PCErr 10/11"),
           ("with an LSP that is cut", [pack(32, b""), pack(7, b"")], "PCErr 10/11"),
           ("without LSP", [pack(33, bytes(8)), pack(7, b"")], "PCErr 6/8")]
    for name, objects, wanted_error in bad:
        front, pcc = begun(room)
        pcc.say(wire.message(10, *report(1, ero=NORTH_ERO, name=b"a"), *objects, *report(3, ero=NORTH_ERO, name=b"c"), *report(0, 0)))
        found = [told(*one) for one in pcc.messages()]
        checks.same(f"a report {name} leaves those behind it", (found, [*pcc.session.lsps.all], pcc.session.lsps.is_synced),
                    ([wanted_error], [1, 3], True))
    front, pcc = begun(room)
    pcc.say(wire.message(10, *report(2, name=b"", srp=5)))
    (kind, objects), = pcc.messages()
    checks.same("an error about a report has its SRP and its LSP", ([one.kind for one in objects], objects[0].body, objects[1].body[:4]),
                ([33, 32, 13], struct.pack("!II", 0, 5), struct.pack("!I", 2 << 12 | 9)))
    pcc.say(wire.message(10, pack(32, struct.pack("!I", 2 << 12 | 9) + tlv(99, bytes(30000))), pack(7, b"")))
    (_, objects), = pcc.messages()
    checks.same("without its TLVs if they are long", [len(one.body) for one in objects], [4, 4])
    front, pcc = begun(room)
    actual = bandwidth(5e6, must=False), metric(2, 7, 0, False), metric(3, 2, 0, False)
    pcc.report(more=[*actual, pack(8, b""), lspa(), bandwidth(1e3, must=False)])
    pcc.session.lsps.synced()
    (_, objects), = pcc.messages()
    found = [struct.unpack("!f", one.body)[0] for one in objects if one.kind == 5]
    checks.same("of two BANDWIDTHs the one behind the RRO", (found, pcc.session.lsps.all[1].request.bandwidth), ([1000], 1000))
    front, pcc = begun(room)
    pcc.report(ero=SOUTH_ERO, more=[bandwidth(2e8, must=False), pack(8, b"")])
    found = pcc.report(0, 0)
    checks.same("a BANDWIDTH that stands in front of the RRO alone is kept", (found, "has no route" in front.said[-1]), ([], True))
    front, pcc = begun(room)
    checks.same("nothing is given back before the end of the synchronization", pcc.report(ero=NORTH_ERO, more=[metric(3, 5)]), [])
    checks.same("but behind it", pcc.report(0, 0), [f"{TO_NORTH} returned"])


def setups(checks, room):
    """Path setup types of LSPs (RFC 8408 4)."""
    with_labels = f"{TO_NORTH} labels [15012, 15024]"
    for name, types, words, wanted_update in [
            ("no path, no type, of a PCC that has both", (0, 1), {}, TO_NORTH),
            ("no path, no type, behind an SRP", (0, 1), {"srp": 9}, TO_NORTH),
            ("no path, no type, of a PCC that has segments alone, as FRR", (1,), {}, with_labels),
            ("segment routing by its type", (0, 1), {"setup_type": 1}, with_labels),
            ("segment routing without LSP identifiers", (0, 1),
             {"setup_type": 1, "ends": None, "more": [pack(4, ip(1) + ip(4))]}, with_labels),
            ("segment routing by its route alone, without identifiers", (0, 1),
             {"ends": None, "ero": wire.segments_ero([("10.1.3.1", SOUTH[0], 15013), ("10.3.4.3", SOUTH[1], 15034)])[4:]}, with_labels)]:
        front, pcc = begun(room, is_sr=True)
        pcc = Pcc(front, setup_types=types)
        pcc.report(**words)
        checks.same(f"setup types: {name}", pcc.report(0, 0), [wanted_update])
    front, pcc = begun(room, is_sr=True)
    pcc.report(0, 0)
    found = pcc.report(setup_type=1, ends=None)
    checks.same("segment routing without identifiers, ends or route", (found, "its ends aren't known" in front.said[-1]),
                (["PCUpd  returned"], True))
    front, pcc = begun(room)
    pcc.report(0, 0)
    near, far = (bytes(map(int, address.split("."))) for address in ("10.1.3.1", NORTH[1]))
    checks.same("the ends of an LSP by addresses of interfaces",
                pcc.report(ends=None, more=[], ids=near + bytes(8) + far), [TO_NORTH])
    front, pcc = begun(room)
    checks.same("the first report of an LSP has its name", pcc.report(name=b""), ["PCErr 6/14"])
    pcc.report(0, 0)
    checks.same("a later one needn't", (pcc.report(), pcc.report(ero=NORTH_ERO, name=b"", srp=pcc.session.lsps.srp)), ([TO_NORTH], []))


def owners(checks, room):
    """The owner of an LSP is the PCC at its head-end, else the first that has delegated it."""
    front, _ = begun(room)
    front.loop, front.pccs = Loop(), {}
    front.claims, front.is_at = functools.partial(Real.claims, front), functools.partial(Real.is_at, front)

    def pcc_at(peer):
        pcc = Pcc(front, is_sr=False, peer=peer)
        front.pccs[peer] = argparse.Namespace(session=pcc.session, peer=peer, loop=front.loop.of(None))
        pcc.report(0, 0)
        return pcc

    other = pcc_at("10.9.9.9")
    checks.same("the first that delegates another's LSP", other.report(ero=SOUTH_ERO), [TO_NORTH])
    third = pcc_at("10.9.9.8")
    checks.same("a second one", third.report(ero=SOUTH_ERO), [f"{TO_SOUTH} returned"])
    own = pcc_at("10.0.0.1")
    checks.same("the PCC at the head-end, that comes later, has it", own.report(ero=SOUTH_ERO), [TO_NORTH])
    checks.same("and the first gives it back", [told(*one) for one in other.messages()], [f"{TO_SOUTH} returned"])
    checks.same("which can't take it again", (other.report(flags=8, ero=SOUTH_ERO), other.report(ero=SOUTH_ERO)),
                ([], [f"{TO_SOUTH} returned"]))
    front.publish("drop,10.0.0.1,10.1.2.1")
    checks.same("it is moved for its owner alone", (other.again(), own.again()), ([], [TO_SOUTH]))
    near = pcc_at("10.1.3.1")
    checks.same("another address of the head-end: the first of both", near.report(ero=SOUTH_ERO), [f"{TO_SOUTH} returned"])
    checks.same("an LSP of another name", near.report(2, ero=NORTH_ERO, name=b"red"), [TO_SOUTH])
    del front.pccs["10.0.0.1"]
    front.publish(*rows([(1, 2, 50)]))
    near.report(flags=8, ero=SOUTH_ERO)
    checks.same("once the owner has gone, who delegates it", near.report(ero=SOUTH_ERO), [TO_NORTH])
    far = pcc_at("10.9.9.7")
    checks.same("an interface of the head-end counts as the head-end", (far.report(ero=SOUTH_ERO), near.messages()),
                ([f"{TO_SOUTH} returned"], []))


def marked(checks, room):
    """LSPs by PCInitiate with --mark, and those whose removal is refused."""
    def line(to=4):
        return request_of(["10.0.0.1", f"10.0.0.{to}", "7", "1000", "0x0", "0x0", "0x0"])

    def removals(pcc):
        return [struct.unpack("!I", objects[1].body[:4])[0] >> 12 for kind, objects in pcc.messages()
                if kind == wire.INITIATE and objects[0].body[3] & 1]

    for mark, wanted_removals in (("te-", [3]), (None, [])):
        front, pcc = begun(room, mark=mark)
        front.made = {"te-red": line()}
        for number, name, flag in ((1, b"te-red", MADE), (2, b"blue", MADE), (3, b"te-old", MADE), (4, b"te-own", 9)):
            pcc.report(number, flag, NORTH_ERO, name)
        pcc.say(wire.message(10, *report(0, 0)))
        checks.same(f"--mark {mark}: what no line names, after a restart", removals(pcc), wanted_removals)
        pcc.session.again()
        checks.same(f"--mark {mark}: once", removals(pcc), [])
    path = os.path.join(room, "wanted")
    with open(path, "w") as file:
        file.write("te-red,10.0.0.1,10.0.0.4,7,1000,0x0,0x1,0x0\nblue,10.0.0.1,10.0.0.4,7,1000,0x0,0x1,0x0\n")
    try:
        checks.fail(f"--mark: a name without it is taken for {wanted(path, 'te-')}")
    except Stopped as fault:
        checks.true("--mark: a name without it", "line 2: blue doesn't begin with te-" in str(fault), fault)
    checks.same("no mark: each name", len(wanted(path)), 2)
    for name, answer in (("by a PCErr", lambda pcc: pcc.say(wire.error(19, 9, pack(33, struct.pack("!II", 0, pcc.session.lsps.srp))))),
                         ("by silence", lambda pcc: pcc.front.laters[-1][1]())):
        front, pcc = begun(room)
        front.unwanted = lambda peer: ["red"]
        pcc.report(3, MADE, NORTH_ERO, b"red")
        pcc.say(wire.message(10, *report(0, 0)))
        checks.same(f"a removal that is refused {name}", removals(pcc), [3])
        answer(pcc)
        checks.same(f"a removal that is refused {name}: said", "stays, and is moved like others" in front.said[-1], True)
        front.publish("drop,10.0.0.1,10.1.2.1")
        checks.same(f"a removal that is refused {name}: it is moved like others", pcc.again(), [TO_SOUTH])
        pcc.report(3, MADE, SOUTH_ERO, b"red", pcc.session.lsps.srp)
        pcc.session.lsps.making.reread()
        checks.same(f"a removal that is refused {name}: it is tried again once the file is read again", removals(pcc), [3])
    front, pcc = begun(room)
    front.unwanted = lambda peer: ["red"]
    pcc.report(3, MADE, NORTH_ERO, b"red")
    pcc.report(0, 0)
    found = pcc.report(3, MADE | 4, name=b"red", srp=pcc.session.lsps.srp)
    checks.same("a removal that is reported", (found, pcc.session.lsps.all), ([], {}))
    front.laters[-1][1]()
    checks.true("and nothing more is said of it", "is removed" in front.said[-1], front.said)


# Each row about LSPs of the second table of docs/run/PCEP.md, by its first cell, and the checks of it.
REPORTED = {
    "answers an update by its SRP-ID and another ERO, an empty ERO, DOWN or an LSP-ERROR-CODE, or by a PCErr": [
        "its old ERO", "DOWN and the new ERO", "an empty ERO", "LSP-ERROR-CODE 8 and the new ERO", "a PCErr", "refused by {name}: updates",
        "refused before: the route that was kept is lost", "refused before: another best route"],
    "reports the LSP as UP on the path that it refused before": ["DOWN at first, and then UP: it is accepted"],
    "doesn't answer an update": ["an update without an answer is sent again", "lost while an update waits for its answer",
                                 "an update that was dropped: the next report is believed"],
    "goes back from a path by itself": ["a PCC that goes back by itself, again and again", "one that goes back by itself has to wait",
                                        "but not once that route is lost"],
    "changes the constraints of an LSP again and again": ["constraints that a PCC changes all the time"],
    ("reports an ERO in other words: its own Router ID, both ends of a circuit or the near end alone, Router IDs, prefixes of less than "
     "32 bits, the L bit, SIDs without addresses"): [
        "its own loopback first", "both ends of each circuit", "near ends alone", "Router IDs", "prefixes of 29 bits", "L bits",
        "segments by their SIDs alone", "in other words, {name}: updates", "in other words, {name}: it is lost"],
    ("reports an ERO that isn't links of the network: node SIDs, IPv6, unnumbered interfaces, autonomous systems, a part of a path, "
     "more than 2,048 hops"): [
        "an ERO of {count} hops: updates",
        "a node SID can't be read as links", "IPv6", "an unnumbered interface", "an AS", "a part of a route",
        "a route that can't be read, {name}: not moved at each version", "a route that can't be read, {name}: said once"],
    "reports an LSP as DOWN, though its path may be used": ["DOWN on its best route", "DOWN: a version that touches {name}"],
    "delegates an LSP with an XRO": ["an LSP with an XRO, P {must:d}: it is moved at once", "an LSP with an XRO: a circuit fails",
                                     "an LSP that should avoid a router", "its PCUpd has the XRO", "an LSP that names an SRLG"],
    "delegates an LSP with an XRO that would be refused in a request with the P flag": [
        "an LSP with an XRO of {name}, P {must:d}: it is given back", "an LSP whose SRLG has more than 64 circuits",
        "a server that takes no except rows: an LSP"],
    ("delegates an LSP with a constraint that no row can say, whatever its P flag: a bound on hops, another metric or objective, an "
     "IRO of 8 hops or of other kinds, an ASSOCIATION for disjoint paths, an unknown object"): [
        "a bound on hops", "an IGP metric to be optimized", "a bound on delay", "the objective MLP", "an IRO of 8 hops",
        "an IRO of an AS", "disjoint paths", "an object of an unknown class", "an LSP with {name}, P {must:d}"],
    ("reports values that are no constraint: METRICs with the flag C and a value, BANDWIDTH of type 2, an ASSOCIATION of policies, "
     "objects of vendors"): ["no constraint: {name}", "the cost of its path", "the bandwidth that it has", "a policy's association",
                             "a vendor's object"],
    "reports two BANDWIDTHs": ["of two BANDWIDTHs the one behind the RRO"],
    "sends a report that can't be taken": ["a report {name} leaves those behind it",
                                           "an error about a report has its SRP and its LSP"],
    "reports an LSP without a path setup type": ["no path, no type, of a PCC that has both",
                                                 "no path, no type, of a PCC that has segments alone, as FRR"],
    "reports an LSP by segment routing without LSP identifiers": ["segment routing without LSP identifiers",
                                                                  "segment routing by its route alone, without identifiers"],
    "delegates an LSP of another router": ["the first that delegates another's LSP", "the PCC at the head-end, that comes later, has it"],
    "refuses to remove an LSP, or doesn't report within 10 s that it is removed": ["a removal that is refused {name}: it is moved"],
}
