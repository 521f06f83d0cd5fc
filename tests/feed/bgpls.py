"""Tests of routed-tools feed bgpls, beside a BGP speaker that is played."""
import os
import socket
import struct
import tempfile

from feed.both import scenarios
from feed.hostile import attributes, cuts, dialed, doors, large, sessions, timers
from feed.played import A, A_B, B, B_A, B_C, C, CHAIN_ROWS, C_B, INFINITE, NAN, PAIR_ROWS, RUN, Feed, raw, row, snapshot
from feed.reflected import decoded, reflected
from feed.speaker import END, ISIS_1, ISIS_2, PAIR, Speaker, announce, link_nlri, message, nlri, nlris_of, node, node_nlri, sid
from feed.speaker import KEEPALIVE, system, tlv, told, withdraw


class Bgp(Speaker):
    """The same, and its feed counts the network as whole after 2 seconds."""

    more = []


class Told:
    """A feed that is told of one network after the other."""

    def __init__(self, *words):
        self.speaker = Speaker()
        self.feed = Feed(self.speaker, "--verbose", *words)

    def rows(self, *messages):
        """The changes that come of a network, and what the feed says. Then all of it is withdrawn."""
        self.feed.said = b""
        self.speaker.send(b"".join(messages))
        rows, said = self.feed.rest(), self.feed.said.decode()
        self.speaker.send(b"".join(withdraw(nlris_of(each)) for each in messages if each))
        self.feed.rest()
        return rows, said

    def end(self):
        self.feed.end()
        self.speaker.hang_up()


def rows_of(*messages, words=()):
    """The same of a feed of these words, which ends then."""
    told = Told(*words)
    found = told.rows(*messages)
    told.end()
    return found


ENDS = (A, A_B, B, B_A), (B, B_A, A, A_B)


def isis(**more):
    """The pair's links as IS-IS has them, where descriptors have no addresses."""
    return [announce(link_nlri(*ends, protocol=ISIS_2), told(**more)) for ends in ENDS]


def columns(checks):
    """What each column of a row is taken from."""
    one_feed = Told()
    rows_at = one_feed.rows
    bare = dict(metric=None, igp=b"\0\1\x2c")
    named = [announce(link_nlri(*ends, protocol=ISIS_2), told(own=ends[0], other=ends[2], **bare)) for ends in ENDS]
    nodes = [announce(node_nlri(router, ISIS_2), tlv(1026, b"name") + tlv(1028, raw(router))) for router in (A, B)]
    rows = [row(*ends, metric=300) for ends in ENDS]
    checks.same("IS-IS: routers by the link's TLVs 1028 and 1030, and a metric of 3 bytes", rows_at(*named)[0], rows)
    checks.same("IS-IS: routers by the TLV 1028 of nodes", rows_at(*isis(**bare), *nodes)[0], rows)
    checks.same("the same, nodes first", rows_at(*nodes, *isis(**bare))[0], rows)
    checks.same("IS-IS: no router without either", rows_at(*isis(**bare))[0], [])
    checks.same("IS-IS: a metric of one byte, of which 6 bits count", rows_at(*nodes, *isis(metric=0, igp=b"\xc7"))[0], PAIR_ROWS)
    checks.same("OSPF: routers by the IGP Router-ID", rows_at(PAIR)[0], PAIR_ROWS)
    one = announce(link_nlri(*ENDS[0]), told(own="7.7.7.1", other="7.7.7.2"))
    moved = [row("7.7.7.1", A_B, "7.7.7.2", B_A), row("7.7.7.2", B_A, "7.7.7.1", A_B)]
    checks.same("a router has one address in all rows", rows_at(one, Speaker.put(*ENDS[1]))[0], moved)
    other = announce(node_nlri(A), tlv(1028, raw("7.7.7.9")))
    rows, said = rows_at(one, Speaker.put(*ENDS[1]), other)
    checks.same("a router of two addresses: its links are left out", (rows, "left out: two addresses of a router 2\n" in said), ([], True))
    for name, wanted, tlvs in [
            ("a metric of 0 is none", row(*ENDS[0], metric=300), told(metric=0)),
            ("no TE metric", row(*ENDS[0], metric=300), told(metric=None)),
            ("the group", row(*ENDS[0], group=0x80000001), told(group=0x80000001)),
            ("bandwidths are rounded down", row(*ENDS[0], free=[0, 0, 1, 16777218, 33333334, 1250000000, 2**63, 3]),
             told(free=[0.0, 0.75, 1.5, 16777217.9, 33333333.3, 1.25e9, 2.0**63, 3.0])),
            ("of the same TLV twice the first counts", row(*ENDS[0]), told(more=tlv(1092, bytes(4)) + tlv(1088, b"\0\0\0\7") * 0)),
            ("other TLVs are passed over", row(*ENDS[0]), told(more=tlv(1114, bytes(4)) + tlv(65535, b"") + tlv(1122, bytes(12))))]:
        checks.same(name, rows_at(announce(link_nlri(*ENDS[0]), tlvs))[0], [wanted])
    bare = [announce(link_nlri(*ends), told(free=None, most=1.5e9)) for ends in ENDS]
    checks.same("the maximum bandwidth is taken where that is asked", rows_of(*bare, words=("--unreserved", "maximum"))[0],
                [row(*ends, free=1500000000) for ends in ENDS])
    rest = [nlri(kind, tlv(256, node(C)) + tlv(265, b"\x18\x0a\0\0"), protocol) for kind, protocol in ((3, 3), (4, 3), (6, 9), (9999, 3))]
    checks.same("other types of NLRI are passed over", rows_of(announce(rest, b""), PAIR, words=("--most", "2")),
                (PAIR_ROWS, "bgpls: 2 links; left out: none\n"))
    twice = [announce(link_nlri(*ENDS[0], instance=7), told(metric=9)),
             announce(link_nlri(*ENDS[1], protocol=ISIS_1), told(metric=9, own=B, other=A))]
    rows, said = rows_at(PAIR, *twice)
    checks.same("two instances or protocols that differ", (rows, "left out: two NLRIs that differ 2\n" in said), ([], True))
    checks.same("two instances that agree", rows_at(PAIR, announce(link_nlri(*ENDS[0], instance=7), told()))[0], PAIR_ROWS)
    chosen = [("--protocol", "ospf", "--instance", "0"), ("--instance", "7"), ("--protocol", "isis"), ("--protocol", "isis-2")]
    checks.same("the one that is asked for", [rows_of(PAIR, *twice, words=words)[0] for words in chosen],
                [PAIR_ROWS, [row(*ENDS[0], metric=9)], [row(*ENDS[1], metric=9)], []])
    one_feed.end()
    speaker = Speaker()
    feed = Feed(speaker)
    speaker.send(b"".join(isis(metric=None, igp=b"\0\1\x2c")))
    checks.true("links whose routers have no address yet", feed.is_quiet())
    speaker.send(b"".join(nodes))
    checks.same("have rows once their nodes are announced", feed.batch()[0], [row(*ends, metric=300) for ends in ENDS])
    speaker.send(announce(node_nlri(A, ISIS_2), tlv(1028, raw("0.7.7.7"))))
    checks.same("other rows with another address of a node", feed.batch()[0],
                [f"drop,{A},{A_B}", row("0.7.7.7", A_B, B, B_A, metric=300), row(B, B_A, "0.7.7.7", A_B, metric=300)])
    speaker.send(withdraw(node_nlri(B, ISIS_2)))
    checks.same("and none without a node", feed.batch()[0], [f"drop,0.7.7.7,{A_B}", f"drop,{B},{B_A}"])
    feed.end()
    speaker.hang_up()


def left_out(checks):
    """A link that was put is dropped once it is left out, in the midst of a session and in the first seconds of one."""
    speaker = Speaker()
    feed = Feed(speaker, "--verbose")
    good = Speaker.put(*ENDS[0])
    speaker.send(PAIR)
    feed.batch()

    def case(why, tlvs):
        speaker.send(announce(link_nlri(*ENDS[0]), tlvs))
        found = feed.batch()[0]
        feed.settle()
        is_said = f"left out, {why}: {A} {A_B}\n" in feed.said.decode()
        speaker.send(good)
        checks.same(f"left out: {why}", (found, is_said, feed.batch()[0]), ([f"drop,{A},{A_B}"], True, PAIR_ROWS[:1]))
        feed.said = b""

    case("no unreserved bandwidth", told(free=None))
    case("no unreserved bandwidth", b"")
    case("no metric", told(metric=None, igp=None))
    case("attributes of an application alone", told(free=None, most=None, metric=None, more=tlv(1122, bytes(12))))
    for bad in (NAN, INFINITE, -INFINITE, -1.0, -0.5, 2.0**64):
        case("an unreserved bandwidth that is no number of a row", told(free=[1.0] * 7 + [bad]))
    for bad in (tlv(1091, bytes(28)), tlv(1091, b""), tlv(1092, bytes(3)), tlv(1092, b""), tlv(1095, bytes(4)), tlv(1096, bytes(6)),
                tlv(1028, bytes(16)),
                tlv(1099, bytes(6)), tlv(1024, b""), struct.pack(">HH", 1092, 65535) + bytes(4), b"\4"):
        case("an attribute that can't be read", told(metric=None, more=bad))
    feed.end()
    speaker.hang_up()

    one_feed = Told()
    pseudonode = node(B, igp=raw(B) + raw(B_A))
    for why, name, one in [
            ("a pseudonode", f"{A} {A_B}", link_nlri(*ENDS[0], far=pseudonode)),
            ("a pseudonode", "2.2.2.2.10.0.0.1 no address", link_nlri(B, None, A, None, near=pseudonode)),
            ("a pseudonode", "0.0.1.1.1.1.7 10.0.0.0", link_nlri(*ENDS[0], protocol=ISIS_2, near=node(A, ISIS_2, igp=system(A) + b"\7"))),
            ("no addresses", f"{A} no address", link_nlri(A, None, B, B_A)), ("no addresses", f"{A} {A_B}", link_nlri(A, A_B, B, None)),
            ("no addresses", f"{A} {A_B}", link_nlri(A, A_B, B, "0.0.0.0")),
            ("IPv6 alone", f"{A} no address", link_nlri(A, None, B, None, more=tlv(261, bytes(16)) + tlv(262, bytes(16)))),
            ("a link to itself", f"{A} {A_B}", link_nlri(A, A_B, A, B_A)),
            ("another topology", f"{A} {A_B}", link_nlri(*ENDS[0], more=tlv(263, b"\0\2"))),
            ("no router ID", "0.0.1.1.1.1 10.0.0.0", link_nlri(*ENDS[0], protocol=ISIS_1))]:
        rows, said = one_feed.rows(announce(one, told()), Speaker.put(*ENDS[1]))
        checks.same(f"left out: {why}: {name}", (rows, f"bgpls: left out, {why}: {name}\n" in said), (PAIR_ROWS[1:], True))
    for name, of in [("no descriptors", tlv(259, raw(A_B))), ("a router of 5 bytes", tlv(256, tlv(515, bytes(5))) + tlv(257, node(B))),
                     ("an address of 3 bytes", tlv(256, node(A)) + tlv(257, node(B)) + tlv(259, bytes(3))),
                     ("one descriptor", tlv(256, node(A)) + tlv(259, raw(A_B))),
                     ("two topologies", tlv(256, node(A)) + tlv(257, node(B)) + tlv(263, bytes(4)))]:
        rows, said = one_feed.rows(announce(nlri(2, of), told()), PAIR)
        checks.same(f"an NLRI that can't be read: {name}", (rows, "left out: an NLRI that can't be read 1\n" in said), (PAIR_ROWS, True))
    one_feed.end()
    speaker = Speaker()
    feed = Feed(speaker, version=1, told=snapshot(1, PAIR_ROWS))
    speaker.send(announce(link_nlri(*ENDS[0]), told(metric=None, more=b"\4")))
    checks.same("nor does it stay while links are held", feed.line(1), f"drop,{A},{A_B}")
    feed.end()
    speaker.hang_up()


def marks(checks):
    """Routers in overload, by IS-IS and by OSPF."""
    mark, free, top = f"node,{A},0", f"node,{A},1", 65535
    speaker = Speaker()
    feed = Feed(speaker)
    speaker.send(PAIR)
    feed.batch()
    for name, flags, wanted in [("the overload bit", 0x80, [mark]), ("other bits", 0x7f, [free]), ("with others", 0xff, [mark])]:
        speaker.send(announce(node_nlri(A), tlv(1024, bytes([flags]))))
        checks.same(name, feed.batch()[0], wanted)
    speaker.send(withdraw(node_nlri(A)))
    checks.same("a node that is withdrawn", feed.batch()[0], [free])
    speaker.send(announce(link_nlri(*ENDS[0]), told(igp=top)))
    checks.same("OSPF: all links at the greatest metric", feed.batch()[0], [mark])
    speaker.send(announce(link_nlri(A, None, C, None, far=node(C, igp=raw(C) + raw(C_B))), told(igp=1)))
    checks.same("but not one to a transit network", feed.batch()[0], [free])
    feed.end()
    speaker.hang_up()
    stub = announce(link_nlri(*ENDS[0], protocol=ISIS_2), told(own=A, other=B, igp=b"\0\xff\xff"))
    checks.same("IS-IS: that metric is one like others", rows_of(stub)[0], PAIR_ROWS[:1])


def files(checks):
    """SIDs and SRLGs are told beside the batches."""
    with tempfile.TemporaryDirectory() as room:
        sids, srlgs = os.path.join(room, "sids"), os.path.join(room, "srlgs")
        read = lambda path: [line for line in open(path, encoding="ascii").read().splitlines() if line != f"run,{RUN}"]
        speaker = Speaker()
        feed = Feed(speaker, "--srlgs", srlgs, "--verbose")
        speaker.send(announce(link_nlri(*ENDS[0]), told(srlgs=(18, 17, 18, 2**32 - 1))) + Speaker.put(*ENDS[1]))
        checks.same("SRLGs come with the first batch", (feed.batch()[0], read(srlgs)), (PAIR_ROWS, [f"srlg,1,{A},{A_B},17 18 4294967295"]))
        speaker.send(PAIR)
        checks.same("and go at the present version", (feed.is_quiet(), read(srlgs)[1:]), (True, [f"srlg,1,{A},{A_B},"]))
        speaker.send(announce(link_nlri(*ENDS[0]), told(metric=9, srlgs=(1,), more=tlv(1096, struct.pack(">I", 2)))))
        checks.same("two TLVs of a link", (feed.batch()[0], read(srlgs)[2:]), ([row(*ENDS[0], metric=9)], [f"srlg,2,{A},{A_B},1 2"]))
        speaker.send(withdraw(link_nlri(*ENDS[0])))
        checks.same("a link takes them along", (feed.batch()[0], read(srlgs)[3:]), ([f"drop,{A},{A_B}"], [f"srlg,3,{A},{A_B},"]))
        feed.end()
        speaker.hang_up()
        speaker = Speaker()
        feed = Feed(speaker, "--sids", sids, "--sid-group", "31")
        for name, wanted, protocol, more in [
                ("OSPF", 17, 3, sid(17)), ("OSPF: the first of several", 20, 3, sid(20) + sid(21)),
                ("OSPF: not a backup's", 21, 3, sid(20, 0xe0) + sid(21)),
                ("OSPF: not a group's", None, 3, sid(20, 0x70)), ("OSPF: no index", None, 3, sid(20, 0, 4)),
                ("OSPF: no global label", None, 3, sid(20, 0x40)),
                ("OSPF: no label below 16", None, 3, sid(15)), ("a label has 20 bits", 1048575, 3, sid(0x1fffff)),
                ("IS-IS", 17, 2, sid(17, 0x30)),
                ("IS-IS: persistent", 17, 2, sid(17, 0x34)), ("IS-IS: not IPv6", None, 2, sid(17, 0xb0)),
                ("IS-IS: not a backup's", None, 2, sid(17, 0x70)),
                ("IS-IS: not a set's", None, 2, sid(17, 0x38)), ("IS-IS: no flags of OSPF", None, 2, sid(17, 0x60))]:
            one = link_nlri(*ENDS[0], protocol=protocol)
            before = len(read(sids)) if os.path.exists(sids) else 0
            speaker.send(announce(one, told(own=A, other=B, more=more)))
            rows, number = feed.batch()
            checks.same(f"SIDs: {name}", (rows, read(sids)[before:]),
                        ([row(*ENDS[0], group=(wanted is not None) << 31)], [f"sid,{number},{A},{A_B},{wanted}"] if wanted else []))
            speaker.send(withdraw(one))
            feed.batch()
        feed.end()
        speaker.hang_up()


def whole(checks):
    """The network counts as whole at End-of-RIB, after a time without an Update, or when the hold is over."""
    gone = [f"drop,{B},{B_C}", f"drop,{C},{C_B}"]

    def begun(*words, of=Bgp):
        speaker = of()
        feed = Feed(speaker, *words, version=1, told=snapshot(1, CHAIN_ROWS))
        feed.settle()
        return speaker, feed

    speaker, feed = begun(of=Speaker)
    speaker.send(PAIR)
    feed.waits(1)
    speaker.send(END)
    checks.same("End-of-RIB", (feed.line(0.01), feed.at), (gone[0], 1001.0))
    feed.end()
    speaker.hang_up()
    speaker, feed = begun()
    speaker.send(PAIR)
    feed.waits(1.5)
    speaker.send(PAIR)
    checks.same("an Update puts it off", feed.line(1.99), None)
    checks.same("and then 2 s without one", feed.line(0.02), gone[0])
    feed.end()
    speaker.hang_up()
    speaker, feed = begun("--quiet", "0.5")
    speaker.send(message(KEEPALIVE))
    checks.same("a time that is given, in which Keepalives mean nothing", (feed.line(0.49), feed.line(0.02)), (None, f"drop,{A},{A_B}"))
    feed.end()
    speaker.hang_up()
    speaker, feed = begun("--hold", "6")
    while (line := feed.line(1)) is None and feed.at < 1020:
        speaker.send(PAIR)
    checks.same("an Update each second doesn't keep a dead circuit", (line, feed.at), (gone[0], 1006.0))
    feed.end()
    speaker.hang_up()
    speaker, feed = begun()
    found = feed.rest(3)
    checks.same("a peer with an empty table", (sorted(found), feed.end().splitlines()[1:]),
                (sorted([f"drop,{A},{A_B}", f"drop,{B},{B_A}", *gone]),
                 ["bgpls: the router tells of no link: 4 links and marks are dropped"]))
    speaker.hang_up()
    for name, messages, words, wanted in [("End-of-RIB", PAIR + END, ["--quiet", "9"], 0), ("quiet", PAIR, [], 2),
                                          ("the hold", PAIR, ["--quiet", "9", "--hold", "3"], 3)]:
        speaker = Bgp()
        feed = Feed(speaker, "--once", *words)
        speaker.send(messages)
        feed.settle() if wanted else None
        if wanted:
            feed.waits(wanted - 0.01)
            checks.true(f"--once waits for {name}", feed.process.poll() is None)
            feed.go(0.02)
        out, said = feed.process.communicate()
        checks.same(f"--once until {name}", (feed.process.returncode, out.decode(), said), (0, "\n".join([*PAIR_ROWS, "end,1,2\n"]), b""))


def bgpls(program, checks):
    try:
        socket.create_server(("127.0.0.1", 0)).close()
    except OSError as fault:
        print(f"skipped: the feed from BGP-LS, since no socket can be had: {fault}")
        return
    checks.parts((columns, left_out, marks, files, whole, sessions, timers, doors, dialed, attributes, cuts, large), checks)
    checks.part("reflected", reflected, program, checks)
    checks.part("decoded", decoded, checks)
    scenarios(checks, Speaker, program)
