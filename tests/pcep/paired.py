"""Requests that an SVEC binds (RFC 5440 7.13): two that are a `pair` row of the reference's, and all others."""
import os
import random
import re
import shutil
import socket
import struct
import subprocess
import tempfile
import time

from pcep.excluded import NEAR, wire_messages, xro
from pcep.played import Front, Pcc, bandwidth, hop, ip, lspa, metric, request, rows, told, told_one
from pcep.sources import sids_of
from reference import formats, pairs

from routed.pcep import wire
from routed.pcep.sids import Sids
from routed.pcep.wire import pack

LINK, NODE, SRLG, DIRECTION, PARTIAL = 1, 2, 4, 8, 16  # flags
KINDS = {"circuits": LINK, "routers": NODE}
# 1 to 4 by 2 or by 3, from there to 7 by 5 or by 6, and to 8 by one circuit alone.
CIRCUITS = [(1, 2, 50), (2, 4, 50), (1, 3, 100), (3, 4, 100), (4, 5, 10), (5, 7, 10), (4, 6, 20), (6, 7, 20), (7, 8, 5)]
SECOND = {"number": 8}


def svec(*numbers, flags=LINK, must=True, type_=1):
    return pack(11, struct.pack(f"!{1 + len(numbers)}I", flags, *numbers), type_, must)


def objective(code, must=True):
    return pack(21, struct.pack("!HH", code, 0), must=must)


def ends(here, there):
    return {"ends": pack(4, ip(here) + ip(there), must=True)}


def bound(*requests, front=()):
    """A PCReq of these requests, each the words and objects of one, and of what stands before them."""
    return wire.message(3, *front, *(request(*objects, **words)[4:] for objects, words in requests))


def two(*objects, front=None, **words):
    """Two such requests that are alike, 7 and 8, and an SVEC before them."""
    return bound((objects, words), (objects, words | SECOND), front=[svec(7, 8)] if front is None else front)


def way(cost, *routers):
    """A PCRep with the way by these routers."""
    fars = [f"10.{min(pair)}.{max(pair)}.{pair[1]}" for pair in zip(routers, routers[1:])]
    return f"PCRep {' '.join(fars)} cost {cost}"


def answers(pcc, data):
    """What a PCC is told, by the ids of its requests, and the classes that come back with the flag I; an error without a request is under
    None."""
    pcc.say(data)
    return words_by_id(wire_messages(pcc))


def words_by_id(messages):
    found = {}
    for kind, objects in messages:
        about = [struct.unpack("!4xI", body[:8])[0] for of, _, body in objects if of == 2]
        ignored = [of for of, flags, _ in objects if flags & 1]
        words = told(kind, [wire.Object(of, flags >> 4, bool(flags & 2), body) for of, flags, body in objects if not flags & 1])
        found.setdefault(about[0] if about else None, []).append(words + (f" I {ignored}" if ignored else ""))
    return {number: each[0] if len(each) == 1 else each for number, each in found.items()}


def begun(room, circuits=CIRCUITS, **options):
    front = Front(tempfile.mkdtemp(dir=room), **options)
    front.publish(*rows(circuits))
    return front, Pcc(front, is_sr=front.sids is not None)


NORTH, SOUTH = way(100, 1, 2, 4), way(200, 1, 3, 4)
PAIR, NONE, REFUSED = {7: NORTH, 8: SOUTH}, {7: "NO-PATH 0", 8: "NO-PATH 0"}, {7: "PCErr 4/1", 8: "PCErr 4/1"}
ALONE = {7: NORTH, 8: NORTH}  # two that are asked for one by one
ASKED = [  # the name, the answers by both kinds, and a PCReq by its flags
    ("two ways", PAIR, PAIR, lambda flags: two(front=[svec(7, 8, flags=flags)])),
    ("ids in the other order", PAIR, PAIR, lambda flags: two(front=[svec(8, 7, flags=flags)])),
    ("an SVEC without P", PAIR, PAIR, lambda flags: two(front=[svec(7, 8, flags=flags, must=False)])),
    ("the objective MCC", PAIR, PAIR, lambda flags: two(front=[svec(7, 8, flags=flags), objective(6)])),
    ("the objective MCC without P", PAIR, PAIR, lambda flags: two(front=[svec(7, 8, flags=flags), objective(6, False)])),
    ("flags that mean nothing", PAIR, PAIR, lambda flags: two(front=[svec(7, 8, flags=flags | 0xffffffe0)])),
    ("affinities and bandwidth", PAIR, PAIR, lambda flags: two(lspa(any_=3, all_=1, setup=5), bandwidth(125e6),
                                                               front=[svec(7, 8, flags=flags)])),
    ("an objective of each request", PAIR, PAIR, lambda flags: two(objective(1), metric(2, 0, 0), front=[svec(7, 8, flags=flags)])),
    ("a router that all ways pass", {7: way(120, 1, 2, 4, 5, 7), 8: way(240, 1, 3, 4, 6, 7)}, NONE,
     lambda flags: two(front=[svec(7, 8, flags=flags)], **ends(1, 7))),
    ("a circuit that all ways have", NONE, NONE, lambda flags: two(front=[svec(7, 8, flags=flags)], **ends(1, 8))),
    ("no way at all", NONE, NONE, lambda flags: two(bandwidth(2e8), front=[svec(7, 8, flags=flags)])),
    ("an unknown source", {7: "NO-PATH 4", 8: "NO-PATH 4"}, {7: "NO-PATH 4", 8: "NO-PATH 4"},
     lambda flags: two(front=[svec(7, 8, flags=flags)], **ends(9, 4))),
    ("an unknown destination", {7: "NO-PATH 2", 8: "NO-PATH 2"}, {7: "NO-PATH 2", 8: "NO-PATH 2"},
     lambda flags: two(front=[svec(7, 8, flags=flags)], **ends(1, 9))),
    ("a third request beside it", {**PAIR, 9: way(20, 4, 5, 7)}, {**PAIR, 9: way(20, 4, 5, 7)},
     lambda flags: bound(([], {}), ([], {"number": 9} | ends(4, 7)), ([], SECOND), front=[svec(7, 8, flags=flags)])),
    ("two SVECs", {**PAIR, 9: NORTH, 10: SOUTH}, {**PAIR, 9: NORTH, 10: SOUTH},
     lambda flags: bound(*(([], {"number": number}) for number in (7, 8, 9, 10)),
                         front=[svec(7, 8, flags=flags), objective(6), svec(9, 10, flags=flags)])),
    ("an ignored object of each", {7: f"{NORTH} I [99]", 8: f"{SOUTH} I [99]"}, {7: f"{NORTH} I [99]", 8: f"{SOUTH} I [99]"},
     lambda flags: two(pack(99, bytes(4)), front=[svec(7, 8, flags=flags)]))]


def paired(checks, room):
    """Two requests that are a pair, by both kinds: one row, and a way for each."""
    front, pcc = begun(room)
    for name, *wanted, make in ASKED:
        for (kind, flag), found in zip(KINDS.items(), wanted):
            front.asked.clear()
            checks.same(f"a pair by {kind}: {name}", answers(pcc, make(flag)), found)
            words = [row.split(",")[0] for row in front.asked], {row.rpartition(",")[2] for row in front.asked if row.startswith("pair")}
            checks.same(f"a pair by {kind}: {name}: its rows", words, (["pair"] * (len(found) // 2) + ["ask"] * (len(found) % 2), {kind}))
    front.asked.clear()
    checks.same("a pair by both flags", (answers(pcc, two(front=[svec(7, 8, flags=LINK | NODE)], **ends(1, 7))), front.asked),
                (NONE, ["pair,1,10.0.0.1,10.0.0.7,7,0,0x00000000,0x00000000,0x00000000,routers"]))
    checks.same("figures of pairs: each request counts", (front.counted["requests", "unknown-to"], front.counted["requests", "route"] > 40),
                (4, True))
    by_interfaces = {"ends": pack(4, bytes([10, 1, 3, 1, 10, 3, 4, 4]), must=True)}
    checks.same("a pair whose ends are interfaces", answers(pcc, two(**by_interfaces)), PAIR)
    same = {"ends": pack(4, bytes([10, 1, 3, 1, 10, 1, 2, 1]), must=True)}
    checks.same("a pair whose ends are interfaces of one router", answers(pcc, two(**same)), {7: "PCErr 4/4", 8: "PCErr 4/4"})
    doubled, other = begun(room, CIRCUITS[:-1])
    doubled.publish(*(row.replace("10.7.8.7", "10.0.0.1") for row in rows([(7, 8, 5)])))
    checks.same("a pair from an address that two routers have", answers(other, two()), {7: "NO-PATH 4", 8: "NO-PATH 4"})
    front.held = []
    pcc.say(two() + wire.message(5, pack(2, struct.pack("!II", 0, 7)), pack(12, bytes([0, 0, 1, 1]))))
    (call, line), = front.held
    call(line)
    checks.same("a pair of which one request is cancelled", words_by_id(wire_messages(pcc)), {8: SOUTH})
    front.held.clear()
    pcc.say(two())
    front.held.pop()[0](None)
    checks.same("a pair that the server doesn't answer", words_by_id(wire_messages(pcc)), {7: "NO-PATH 1", 8: "NO-PATH 1"})
    pcc.say(two())
    front.held.pop()[0]("row 1 refused: bandwidth")
    checks.same("a pair whose row is refused", words_by_id(wire_messages(pcc)), {7: "PCErr 4/4", 8: "PCErr 4/4"})
    front.held, front.options.reopen = None, True
    answers(pcc, two(**ends(1, 8)))
    front.publish(*rows([(1, 8, 5)]))
    checks.same("--reopen doesn't wait for pairs", (pcc.again(), pcc.is_ended), ([], False))


UNPAIRED = [  # the name, what is before the requests, objects and words of both, and the answers where nothing has P
    ("the flag S", [(svec, (7, 8), {"flags": LINK | SRLG})], ([], {}), ([], {})),
    ("the flag S alone", [(svec, (7, 8), {"flags": SRLG})], ([], {}), ([], {})),
    ("the flag for links of one direction", [(svec, (7, 8), {"flags": LINK | DIRECTION})], ([], {}), ([], {})),
    ("the flag for paths that are diverse in part", [(svec, (7, 8), {"flags": NODE | PARTIAL})], ([], {}), ([], {})),
    ("no flag", [(svec, (7, 8), {"flags": 0})], ([], {}), ([], {})),
    ("the objective MLL", [(svec, (7, 8), {}), (objective, (5,), {})], ([], {}), ([], {})),
    ("a metric behind it", [(svec, (7, 8), {}), (metric, (2, 9), {})], ([], {}), ([], {})),
    ("an XRO behind it", [(svec, (7, 8), {}), (xro, (NEAR,), {})], ([], {}), ([], {})),
    ("another type", [(svec, (7, 8), {"type_": 2})], ([], {}), ([], {})),
    ("one id", [(svec, (7,), {})], ([], {}), None),
    ("one id twice", [(svec, (7, 7), {})], ([], {}), None),
    ("an id that isn't in the PCReq", [(svec, (7, 99), {})], ([], {}), None),
    ("ids in two SVECs", [(svec, (7, 8), {}), (svec, (8, 7), {"flags": NODE})], ([], {}), ([], {})),
    ("other ends", [(svec, (7, 8), {})], ([], {}), ([], ends(1, 2))),
    ("the ends in the other order", [(svec, (7, 8), {})], ([], {}), ([], ends(4, 1))),
    ("other bandwidth", [(svec, (7, 8), {})], ([bandwidth(5)], {}), ([bandwidth(6)], {})),
    ("bandwidth of one alone", [(svec, (7, 8), {})], ([], {}), ([bandwidth(6)], {})),
    ("other affinities", [(svec, (7, 8), {})], ([lspa(any_=1)], {}), ([lspa(all_=1)], {})),
    ("another setup priority", [(svec, (7, 8), {})], ([lspa(setup=5)], {}), ([lspa(setup=6)], {})),
    ("an IRO", [(svec, (7, 8), {})], ([pack(10, hop(3), must=True)], {}), ([pack(10, hop(3), must=True)], {})),
    ("an XRO", [(svec, (7, 8), {})], ([xro(NEAR)], {}), ([xro(NEAR)], {})),
    ("a bound", [(svec, (7, 8), {})], ([metric(2, 900)], {}), ([metric(2, 900)], {})),
    ("a bound on SIDs", [(svec, (7, 8), {})], ([metric(11, 9)], {}), ([metric(11, 9)], {}))]


def unpaired(checks, room):
    """SVECs that are no pair's. Their requests are refused, or asked for one by one and told so."""
    front, pcc = begun(room)
    for name, before, one, other in UNPAIRED:
        requests = [one] + ([(other[0], other[1] | SECOND)] if other else [])
        ids = [7, 8][:len(requests)]
        must = [make(*given, **words) for make, given, words in before]
        front.asked.clear()
        checks.same(f"no pair: {name}", (answers(pcc, bound(*requests, front=must)), front.asked), (dict.fromkeys(ids, "PCErr 4/1"), []))
        beside = answers(pcc, bound(*requests, ([], {"number": 9}), front=must))
        checks.same(f"no pair: {name}: a request that no SVEC names", beside, dict.fromkeys(ids, "PCErr 4/1") | {9: NORTH})
        single = {number: answers(pcc, bound((objects, words | {"number": number})))[number]
                  for number, (objects, words) in zip(ids, requests)}
        may = [make(*given, **words, must=False) for make, given, words in before]
        kinds = [data[0] for data in may]
        checks.same(f"no pair: {name}, without P", answers(pcc, bound(*requests, front=may)),
                    {number: f"{words} I {kinds}" for number, words in single.items()})
    for name, front_, wanted in [("of three", [svec(7, 8, 9)], "PCErr 4/1"), ("of three without P", [svec(7, 8, 9, must=False)],
                                                                             f"{NORTH} I [11]")]:
        found = answers(pcc, bound(*(([], {"number": number}) for number in (7, 8, 9)), front=front_))
        checks.same(f"an SVEC {name}", found, dict.fromkeys((7, 8, 9), wanted))
    checks.same("an SVEC without P, and an objective with P behind it",
                answers(pcc, two(front=[svec(7, 8, must=False), objective(5)])), REFUSED)
    checks.same("an SVEC whose ids are in no request", told_one(pcc, bound(([], {}), front=[svec(8, 9)])), ["PCErr 4/1"])
    checks.same("an SVEC without ids", told_one(pcc, bound(([], {}), front=[svec()])), ["PCErr 4/1"])
    checks.same("an SVEC without a body", told_one(pcc, bound(([], {}), front=[pack(11, b"", must=True)])), ["PCErr 4/1"])
    checks.same("two requests of one id in an SVEC", answers(pcc, bound(([], {}), ([], {}), ([], SECOND), front=[svec(7, 8)])),
                {7: ["PCErr 4/1"] * 2, 8: "PCErr 4/1"})
    checks.same("a pair beside an SVEC that is refused", answers(pcc, bound(*(([], {"number": number}) for number in (7, 8, 9)),
                                                                            front=[svec(7, 8), svec(9, 99)])), {**PAIR, 9: "PCErr 4/1"})
    checks.same("a pair beside an SVEC that is ignored", answers(pcc, bound(*(([], {"number": number}) for number in (7, 8, 9)),
                                                                            front=[svec(7, 8), svec(9, 99, must=False)])),
                {7: f"{NORTH} I [11]", 8: f"{SOUTH} I [11]", 9: f"{NORTH} I [11]"})
    checks.same("a pair of which one request is refused", answers(pcc, bound(([pack(99, bytes(4), must=True)], {}), ([], SECOND),
                                                                             front=[svec(7, 8)])), {7: "PCErr 3/1", 8: "PCErr 4/1"})
    checks.same("a pair of which both are refused", answers(pcc, two(pack(99, bytes(4), must=True))), {7: "PCErr 3/1", 8: "PCErr 3/1"})
    checks.same("an OF before all SVECs", told_one(pcc, two(front=[objective(6), svec(7, 8)])), ["PCErr 6/1"])
    checks.same("an association behind an SVEC", told_one(pcc, two(front=[svec(7, 8), pack(24, bytes(4), must=True)])), ["PCErr 3/1"])


def not_taken(checks, room):
    """A server that takes no `pair` rows."""
    class Old(Front):
        def ask(self, row, call, owner=None):
            if row.endswith(tuple(KINDS)):
                self.asked.append(row)
                call("row 7 refused: kind")
            else:
                super().ask(row, call, owner)

    front = Old(tempfile.mkdtemp(dir=room))
    front.publish(*rows(CIRCUITS))
    pcc = Pcc(front, is_sr=False)
    checks.same("a server that takes no pair rows: an SVEC", (answers(pcc, two()), len(front.asked)), (REFUSED, 1))
    checks.same("a server that takes no pair rows: an SVEC without P", answers(pcc, two(front=[svec(7, 8, must=False)])),
                {number: f"{words} I [11]" for number, words in ALONE.items()})
    checks.same("a server that takes no pair rows: no SVEC", pcc.ask(), [NORTH])
    front.options.reopen = True
    checks.same("a server that takes no pair rows: no path", answers(pcc, two(front=[svec(7, 8, must=False)], **ends(1, 9))),
                {7: "NO-PATH 2 I [11]", 8: "NO-PATH 2 I [11]"})
    front.publish(*rows([(8, 9, 5)]))
    checks.same("a server that takes no pair rows: a path is waited for", (pcc.again(), pcc.is_ended), (["Close 1"], True))


def by_segments(checks, room):
    """Pairs of segment routing paths: both are sent, or none."""
    front = Front(tempfile.mkdtemp(dir=room), Sids(sids_of(room)))
    front.publish(*rows([*CIRCUITS[:4], (1, 4, 500)]))
    pcc = Pcc(front)
    words = {"setup_type": 1}
    labels = {7: f"{NORTH} labels [15012, 15024]", 8: f"{SOUTH} labels [15013, 15034]"}
    checks.same("a pair by SIDs", answers(pcc, two(**words)), labels)
    checks.same("a pair of two setup types", answers(pcc, bound(([], words), ([], SECOND), front=[svec(7, 8)])), REFUSED)
    front.publish("drop,10.0.0.1,10.1.3.1")
    unavailable = {7: "NO-PATH 1", 8: "NO-PATH 1"}
    checks.same("a pair of which one way has a link without a SID", answers(pcc, two(**words)), unavailable)
    checks.same("the same pair by addresses", answers(pcc, two()), {7: NORTH, 8: way(500, 1, 4)})
    circuits = [(1, 2, 50), (2, 4, 50), (1, 3, 1), (3, 5, 1), (5, 6, 1), (6, 7, 1), (7, 4, 1)]
    links = [link for a, b, _ in circuits for link in ((a, b), (b, a))]
    front = Front(tempfile.mkdtemp(dir=room), Sids(sids_of(room, links=links)))
    front.publish(*rows(circuits))
    checks.same("a pair of which one way has more SIDs than the PCC takes", answers(Pcc(front), two(**words)),
                {7: "PCErr 10/3", 8: "PCErr 10/3"})


def drawn_pairs(checks, room):
    """Drawn pairs in drawn networks: each answer is the reference's, and no two ways share what they may not share."""
    draw, faults, outcomes = random.Random(8181), [], {}
    for _ in range(12):
        circuits = [(a, b, draw.randrange(1, 6)) for a in range(1, 9) for b in range(a + 1, 9) if draw.random() < 0.35]
        front, pcc = begun(room, circuits)
        network = front.reference
        for _ in range(50):
            (here, there), kind = draw.sample(range(1, 9), 2), draw.choice([*KINDS])
            found = answers(pcc, two(front=[svec(7, 8, flags=KINDS[kind])], **ends(here, there)))
            wanted = words_of(pairs.outcome(network, request_of(here, there), kind))
            if found != dict(zip((7, 8), wanted)) or wanted[0].startswith("PCRep") and shares(network, here, there, kind, *found.values()):
                faults.append((circuits, here, there, kind, found, wanted))
            outcomes[wanted[0].split(" ")[0]] = outcomes.get(wanted[0].split(" ")[0], 0) + 1
    checks.same("drawn pairs", faults[:2], [])
    checks.true("drawn pairs: ways and none", len(outcomes) == 2 and min(outcomes.values()) > 50, outcomes)


def many_pairs(checks, room):
    """One message of as many pairs as it has room for: few are asked at once, and each request has its answer."""
    front, pcc = begun(room)
    front.held, numbers, began, most = [], range(1, 2047), time.process_time(), 0
    pcc.say(bound(*(([], {"number": number}) for number in numbers), front=[svec(number, number + 1) for number in numbers[::2]]))
    while front.held:
        most, held = max(most, len(front.held)), front.held[:]
        front.held.clear()
        for call, line in held:
            call(line)
        pcc.say(b"")
    found = words_by_id(wire_messages(pcc))
    checks.same("many pairs", found, {number: NORTH if number % 2 else SOUTH for number in numbers})
    checks.true("many pairs: asks at once", 200 < most <= 256, most)
    checks.true("many pairs: seconds of a processor", time.process_time() - began < 4, time.process_time() - began)


def request_of(here, there):
    return formats.ask(f"ask,1,10.0.0.{here},10.0.0.{there},7,0,0x0,0x0,0x0,".split(","))


def words_of(outcome):
    """What a PCC gets for the requests of a pair."""
    if isinstance(outcome, str):
        return [{"unknown-from": "NO-PATH 4", "unknown-to": "NO-PATH 2"}.get(outcome, "NO-PATH 0")] * 2
    return [f"PCRep {' '.join(formats.address_text(link['remote']) for link in way)} cost {sum(link['metric'] for link in way)}"
            for way in outcome]


def shares(network, here, there, kind, *replies):
    """What is wrong with two ways: one isn't in the network, or has another cost, or they share a circuit or a router."""
    circuits, passed = [], []
    for words in replies:
        fars, _, cost = words.removeprefix("PCRep ").partition(" cost ")
        at, sum_ = number_of(f"10.0.0.{here}"), 0
        for far in fars.split(" "):
            links = [link for link in network.links.values() if (link["from"], link["remote"]) == (at, number_of(far))]
            if len(links) != 1:
                return f"there is no link to {far}"
            link, = links
            circuits.append(frozenset([(link["from"], link["local"]), (link["to"], link["remote"])]))
            passed.append(link["to"])
            at, sum_ = link["to"], sum_ + link["metric"]
        if at != number_of(f"10.0.0.{there}") or sum_ != int(cost):
            return f"it ends at {at} with the cost {sum_}"
        passed.pop()
    places = [*passed, number_of(f"10.0.0.{here}"), number_of(f"10.0.0.{there}")]
    if len({*circuits}) < len(circuits):
        return "a circuit"
    return "a router" if kind == "routers" and len({*places}) < len(places) else ""


def number_of(address):
    return int.from_bytes(socket.inet_aton(address), "big")


def dissected_pair(checks, room):
    """The SVEC and the OF of these tests, as tshark reads them."""
    if not all(map(shutil.which, ("text2pcap", "tshark"))):
        print("skipped: SVECs by tshark, since there is none (Debian's tshark)")
        return
    text, capture = (os.path.join(room, name) for name in ("text", "capture"))
    with open(text, "w", encoding="ascii") as file:
        file.write(f"0000 {two(front=[svec(7, 8, flags=LINK | NODE), objective(6)]).hex(' ')}\n")
    subprocess.run(["text2pcap", "-q", "-T", "50000,4189", text, capture], check=True, capture_output=True)
    found = subprocess.run(["tshark", "-r", capture, "-V"], capture_output=True, text=True).stdout
    words = re.findall(r"\((\w)\): Set|Request-ID-Number \d: 0x(\w+)|OF-Code: .*\((\w+)\) \(", found.partition("SVEC object")[2])
    checks.same("an SVEC and its OF as tshark reads them", ["".join(each) for each in words][:6], ["P", "L", "N", "7", "8", "P"])
    checks.same("the objective as tshark reads it", [each[2] for each in words if each[2]], ["MCC"])


PAIRED = paired, unpaired, not_taken, by_segments, drawn_pairs, many_pairs, dissected_pair
