"""LSPs that are made, the objects of a PCUpd, and paths by SIDs."""
import os
import socket
import struct
import tempfile

from pcep.played import NORTH, SOUTH, Front, Pcc, bandwidth, hop, lspa, metric, rows, told

from routed.net.endpoints import Stopped
from routed.pcep import wire
from routed.pcep.sids import Sids
from routed.pcep.session import Session
from routed.pcep.wanted import request_of, wanted as read_wanted
from routed.pcep.wire import pack, tlv


def making(checks, room):
    """LSPs of a file, and reports that cross."""
    def line(to=4, bandwidth=1000):
        return request_of(["10.0.0.1", f"10.0.0.{to}", "7", str(bandwidth), "0x0", "0x0", "0x0"])

    def begun(capability=5):
        front = Front(tempfile.mkdtemp(dir=room))
        front.publish(*rows())
        front.made = {"red": line()}
        pcc = Pcc(front, capability=capability, is_sr=False)
        return front, pcc, pcc.report(0, 0)

    to_north = f"PCInitiate {' '.join(NORTH)}"
    front, pcc, found = begun(1)
    checks.same("a PCC that makes none", found, [])
    front, pcc, found = begun()
    checks.same("one that makes LSPs", found, [to_north])
    front.made = {"red": line(2)}
    checks.same("another end than it was made for", pcc.report(3, 0x89, wire.addresses_ero(NORTH)[4:], b"red", 1), ["PCInitiate "])
    front = Front(tempfile.mkdtemp(dir=room))
    front.publish(*rows())
    front.made = {"red": line(2)}
    pcc = Pcc(front, is_sr=False)
    pcc.report(3, 0x89, wire.addresses_ero(NORTH)[4:], b"red")
    said = [pcc.report(0, 0), pcc.again()] + [text for text in front.said if "name of a line" in text]
    checks.same("one of that name and another end stays", said, [[], [], "10.0.0.1: LSP 'red' (3) has the name of a line, and another end"])
    front, pcc, found = begun()
    pcc.report(3, 9, wire.addresses_ero(NORTH)[4:], b"red")
    front.unwanted, front.made = lambda peer: ["red"], {}
    pcc.session.lsps.making.reread()
    checks.same("one of that name that its PCC has made itself stays", pcc.messages(), [])
    front = Front(tempfile.mkdtemp(dir=room))
    front.publish(*rows())
    front.made, front.held = {"red": line()}, []
    pcc = Pcc(front, is_sr=False)
    pcc.report(0, 0)
    front.made = {"red": line(2)}
    (call, answer), = front.held
    front.held = None
    call(answer)
    checks.same("a line that changes while it is asked for", [told(*one) for one in pcc.messages()], [f"PCInitiate {NORTH[0]}"])
    front = Front(tempfile.mkdtemp(dir=room), reopen=True)
    pcc = Pcc(front)
    pcc.ask()
    pcc.say(wire.message(5, pack(2, struct.pack("!II", 0, 7), must=True), pack(12, bytes([0, 0, 1, 1]))))
    front.publish(*rows())
    checks.same("a request that is cancelled isn't asked again", (pcc.again(), pcc.is_ended), ([], False))


def updated(checks, room):
    """What a PCUpd has beside the path: bounds, the cost of this route in place of another's, then the IRO."""
    front = Front(room)
    front.publish(*rows())
    pcc = Pcc(front, is_sr=False)
    pcc.report(more=[lspa(), bandwidth(1), metric(2, 30, 2, False), metric(2, 500), pack(10, hop(3), must=True)])
    pcc.session.lsps.synced()
    (_, objects), = pcc.messages()
    checks.same("the objects of a PCUpd", [one.kind for one in objects], [33, 32, 7, 9, 5, 6, 6, 10])
    metrics = [struct.unpack("!xxBBf", one.body) for one in objects if one.kind == 6]
    checks.same("its METRICs: the bound, and the cost", metrics, [(1, 2, 500), (2, 2, 200)])
    numbers = {Session(front, "10.0.0.1", number, lambda _: None, lambda: None, 0).lsps.next_srp() for number in (1, 2, 3)}
    checks.same("each session has other SRP numbers", len(numbers), 3)


def looked_at(checks, room):
    """At each version those LSPs alone are looked at that PCInitiate has made."""
    front = Front(room)
    front.publish(*rows())
    pcc, times = Pcc(front, is_sr=False), []
    for number in range(1, 101):
        pcc.report(number, 8, wire.addresses_ero(NORTH)[4:], b"%d" % number)
    pcc.report(0, 0)
    front.clock = lambda: times.append(None) or 0.0
    pcc.session.lsps.making.initiate()
    checks.true("LSPs that PCInitiate hasn't made aren't looked at", len(times) < 10, len(times))


def initiated(checks, room):
    """LSPs of a file, and requests that had no path."""
    path = os.path.join(room, "wanted")
    with open(path, "w") as file:
        file.write("# name and ask\nred,10.0.0.1,10.0.0.4,7,1000,0x0,0x1,0x0\n\n")
    found = read_wanted(path)
    checks.same("a file of LSPs", [(key, request.row()) for key, request in found.items()],
                [(("10.0.0.1", "red"), "10.0.0.1,10.0.0.4,7,1000,0x00000000,0x00000001,0x00000000,")])
    for line in ("red,10.0.0.1,10.0.0.4,7,1000,0x0,0x1", "red,10.0.0.1,10.0.0.1,7,1,0x0,0x1,0x0", "red,10.0.0.1,10.0.0.4,8,1,0x0,0x1,0x0",
                 ",10.0.0.1,10.0.0.4,7,1,0x0,0x1,0x0", "red,10.0.0.1,x,7,1,0x0,0x1,0x0", "red,10.0.0.1,10.0.0.4,7,1,0x0,0x1,0x0\n" * 2):
        with open(path, "w") as file:
            file.write(line)
        try:
            checks.fail(f"{line} is taken for {read_wanted(path)}")
        except Stopped as fault:
            checks.true(f"refused: {line}", "line " in str(fault), fault)
    front = Front(room, initiate=path)
    front.publish(*rows())
    front.made = {"red": found["10.0.0.1", "red"]}
    pcc = Pcc(front, is_sr=False)
    to_north = " ".join(NORTH)
    checks.same("an LSP is made behind the synchronization", pcc.report(0, 0), [f"PCInitiate {to_north}"])
    checks.same("once", pcc.again(), [])
    ero = b"".join(bytes([1, 8]) + socket.inet_aton(far) + bytes([32, 0]) for far in NORTH)
    (at, call), = front.laters
    call()
    checks.same("a line says that it isn't reported", (at, front.said[-1]), (10, "10.0.0.1: 'red' was to be made, and isn't reported"))
    checks.same("it is reported", pcc.report(3, 0x89, ero, b"red", 1), [])
    call()
    checks.same("and then none", sum("was to be made" in line for line in front.said), 1)
    late = Pcc(front, is_sr=False, peer="10.0.0.1")
    front.laters.clear()
    late.report(0, 0)
    late.session.lsps.making.reread()
    checks.same("one that may still be reported isn't made twice", late.messages(), [])
    front.laters.pop()[1]()
    late.session.lsps.making.initiate()
    checks.same("one that isn't reported is made again once the file is read again, and not before",
                (late.messages(), late.session.lsps.making.reread(), [told(*one) for one in late.messages()]),
                ([], None, [f"PCInitiate {to_north}"]))
    front.publish("drop,10.0.0.1,10.1.2.1")
    checks.same("and moved as others", pcc.again(), [f"PCUpd {' '.join(SOUTH)}"])
    front.unwanted, front.made = lambda peer: ["red"], {}
    pcc.session.lsps.making.initiate()
    (kind, objects), = pcc.messages()
    checks.same("and removed", (kind, objects[0].body[3] & 1, struct.unpack("!I", objects[1].body)[0] >> 12), (12, 1, 3))
    front = Front(room, reopen=True)
    pcc = Pcc(front)
    checks.same("a request at version 0", pcc.ask(), ["NO-PATH 4"])
    checks.same("no path yet", pcc.again(), [])
    front.publish(*rows())
    checks.same("it has a path now", (pcc.again(), pcc.is_ended), (["Close 1"], True))


def segments(checks, room):
    """SIDs of the reply's version, and the MSD."""
    path = os.path.join(room, "sids")
    with open(path, "w") as file:
        file.writelines(f"sid,1,10.0.0.{a},10.{min(a, b)}.{max(a, b)}.{a},{15000 + 10 * a + b}\n" for a, b in ((1, 2), (2, 4), (1, 3)))
        file.write("no line of SIDs\nsid,x,10.0.0.1,10.1.2.1,1\n")
    front = Front(room, Sids(path))
    front.publish(*rows())
    pcc = Pcc(front)
    with_labels = f"PCRep {' '.join(NORTH)} cost 100 labels"
    checks.same("SIDs", pcc.ask(setup_type=1), [f"{with_labels} [15012, 15024]"])
    with open(path, "a") as file:
        file.write("sid,2,10.0.0.1,10.1.2.1,99\nsid,2,10.0.0.1,10.1.2.1,16\nsid,2,10.0.0.1,10.1.2.")
    checks.same("SIDs of a later version", pcc.ask(setup_type=1), [f"{with_labels} [15012, 15024]"])
    front.publish(*rows())
    checks.same("SIDs of that version", pcc.ask(setup_type=1), [f"{with_labels} [16, 15024]"])
    checks.same("a setup type that isn't known", pcc.ask(setup_type=2), ["PCErr 21/1"])
    front.publish("drop,10.0.0.1,10.1.2.1")
    checks.same("a link without a SID is no lack of a path", pcc.ask(setup_type=1), ["NO-PATH 1"])
    front.publish(*rows())
    pcc.session.most_sids = 1
    checks.same("more SIDs than the PCC takes", pcc.ask(setup_type=1), ["PCErr 10/3"])
    for flags, most, wanted in ((0, 1, "PCErr 10/3"), (1, 1, f"{with_labels} [16, 15024]"), (0, 0, f"{with_labels} [16, 15024]")):
        sub = tlv(34, bytes([0, 0, 0, 2, 0, 1, 0, 0]) + tlv(26, bytes([0, 0, flags, most])))
        said = Pcc(front, False)
        said.say(wire.message(1, pack(1, bytes([0x20, 30, 120, 9]) + sub)) + wire.message(2))
        said.messages()
        checks.same(f"an MSD of {most} with the flags {flags}", said.ask(setup_type=1), [wanted])
    pcc.session.most_sids = None
    checks.same("two bounds on SIDs, the first of which is 0", pcc.ask(metric(11, 0), metric(11, 5), setup_type=1), ["PCErr 10/3"])
    segments_of, front.segments = front.segments, lambda *_: [("10.1.2.1", NORTH[0], 16)] * count
    for count, wanted in ((3226, 3226), (3227, "PCErr 10/3")):
        found, = pcc.ask(setup_type=1)
        checks.same(f"{count} SIDs", found if count > 3226 else found.count(NORTH[0]), wanted)
    front.segments = segments_of
    pcc.session.lsps.is_synced = True
    lines = open(path).read() + "1,16\nsid,5,10.0.0.1,10.1.2.1,17\n"
    with open(f"{path}.new", "w") as file:
        file.write(lines)
    os.replace(f"{path}.new", path)
    checks.same("a file that is made again", pcc.ask(setup_type=1), [f"{with_labels} [16, 15024]"])
    to_north = f"PCUpd {' '.join(NORTH)} labels"
    checks.same("an LSP by SIDs", pcc.report(setup_type=1), [f"{to_north} [16, 15024]"])
    ero = wire.segments_ero([("10.1.2.1", NORTH[0], 16), ("10.2.4.2", NORTH[1], 15024)])[4:]
    checks.same("it is reported", pcc.report(srp=1, setup_type=1, ero=ero), [])
    front.publish(*rows())
    checks.same("the same route by another SID", pcc.again(), [f"{to_north} [17, 15024]"])
    with open(path, "a") as file:
        file.write("sid,5,10.0.0.1,10.1.2.1,\n")
    checks.same("a SID that is gone", pcc.ask(setup_type=1), ["NO-PATH 1"])
    with open(path, "w") as file:
        file.writelines(f"sid,1,10.0.0.{a},10.{a}.{b}.{a},{40 + b}\n" for a, b in ((1, 2), (2, 4)))
    front.publish(*rows())
    checks.same("a file that is written over", pcc.ask(setup_type=1), [f"{with_labels} [42, 44]"])
    front.publish("drop,10.0.0.1,10.1.2.1")
    front.network.reach(front.version)
    found = front.segments("10.0.0.1", NORTH, front.version - 1)
    checks.same("SIDs of a link that has gone since", [label for _, _, label in found or ()], [42, 44])
    front.publish(*rows())
    front.options.group = 4
    checks.same("the group of SIDs", pcc.ask(setup_type=1), ["NO-PATH 0"])
