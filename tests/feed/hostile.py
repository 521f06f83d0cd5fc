"""Tests of the session of routed-tools feed bgpls: peers that are wrong, silent, others, or too many."""
import os
import socket
import struct
import subprocess
import tempfile

from feed.played import A, A_B, B, B_A, FEED, PAIR_ROWS, PATIENCE, Feed, raw, row
from feed.speaker import CHAIN, FAMILY, FRONT, KEEPALIVE, NOTIFICATION, NUMBER, OPEN, ORIGIN, PAIR, PATH, UPDATE, Speaker, announce
from feed.speaker import attribute
from feed.speaker import link_nlri, message, node, opening, reach, sid, tlv, told, update, withdraw
from pace import allowed

LINK = link_nlri(A, A_B, B, B_A)
RIGHT, DROP = announce(LINK, told()), [f"drop,{A},{A_B}"]
ALIVE = message(KEEPALIVE)
WHOLE = told(own=A, other=B, group=5, srlgs=(1, 2), more=sid(17) + tlv(1114, bytes(4)))


class Tried:
    """A feed whose sessions are tried one after the other."""

    def __init__(self, *words, of=Speaker):
        self.speaker = of()
        self.feed = Feed(self.speaker, *words, is_accepted=False)
        self.is_first = True

    def session(self, *messages):
        """A new session, which begins with these messages of the peer, or with the right ones."""
        if not self.is_first:
            self.feed.go(61)
        self.is_first = False
        self.speaker.accept(*messages)

    def ended(self):
        """The code and subcode of the Notification with which the feed ends the session, Keepalives before it aside."""
        while (found := self.speaker.take()) == (KEEPALIVE, b""):
            pass
        is_end = self.speaker.read(1) == b""
        if not found:  # the feed has closed it already, and reads no more
            self.speaker.to.close()
        else:
            self.speaker.hang_up()
        self.feed.settle()
        return (found[0] == NOTIFICATION and is_end, *found[1][:2]) if found else (is_end,)

    def end(self):
        said = self.feed.end()
        return said


def sessions(checks):
    """Headers, Opens and Updates that end a session, each by its Notification. The next session is as good as any."""
    tried = Tried()
    tried.speaker.accept()
    tried.is_first = False
    capabilities = b"\1\4\x40\4\0\x47\x41\4" + struct.pack(">I", NUMBER)
    checks.same("the Open", tried.speaker.opened,
                (OPEN, struct.pack(">BHH4sBBB", 4, NUMBER, 90, raw("9.9.9.8"), 14, 2, 12) + capabilities))
    tried.speaker.hang_up()
    whole, most = opening(), b"\xff" * 16
    long = opening(more=b"")
    for name, wanted, *messages in [
            ("a marker", (1, 1), b"\0" + whole[1:]), ("a length of 18", (1, 2), most + b"\0\x12\1"),
            ("a length of 0", (1, 2), most + b"\0\0\4"),
            ("a length of 4,097", (1, 2), most + b"\x10\1\2" + bytes(4078)), ("65,535 bytes", (1, 2), most + b"\xff\xff\2" + bytes(65516)),
            ("a kind that isn't known", (1, 3), most + b"\0\x13\x09"), ("a Keepalive with a body", (1, 2), most + b"\0\x14\4\0"),
            ("version 3", (2, 1), opening(version=3)), ("another AS", (2, 2), opening(NUMBER + 1)), ("a long AS", (2, 2), opening(1 << 31)),
            ("another AS of two bytes", (2, 2), opening(NUMBER + 1, has_long=False)),
            ("a hold time of 0", (2, 6), opening(hold=0)), ("a hold time of 2", (2, 6), opening(hold=2)),
            ("no identifier", (2, 3), opening(name="0.0.0.0")), ("the feed's own", (2, 3), opening(name="9.9.9.8")),
            ("authentication", (2, 4), opening(more=b"\1\0")), ("no link state", (2, 7), opening(families=((1, 1),))),
            ("another SAFI", (2, 7), opening(families=((16388, 72),))),
            ("lengths that don't agree", (2, 0), message(OPEN, whole[19:] + b"\0")),
            ("a capability that is cut", (2, 0), message(OPEN, whole[19:28] + b"\4\2\2\1\4")),
            ("a Keepalive before the Open", (5, 1), ALIVE), ("an Update before the Open", (5, 1), withdraw()),
            ("Open after Open", (5, 2), whole, whole),
            ("an Update before the Keepalive", (5, 2), whole, RIGHT), ("an Open in the session", (5, 3), whole, ALIVE, long),
            ("withdrawn routes that are too long", (3, 1), whole, ALIVE, message(UPDATE, b"\0\5\0\0")),
            ("attributes that are too long", (3, 1), whole, ALIVE, message(UPDATE, b"\0\0\0\5\0")),
            ("attribute 14 twice", (3, 1), whole, ALIVE, update(FRONT + reach(LINK) * 2)),
            ("attribute 15 twice", (3, 1), whole, ALIVE, update(withdraw()[23:] * 2)),
            ("a next hop of 5 bytes", (3, 9), whole, ALIVE, update(FRONT + attribute(14, FAMILY + b"\5" + bytes(6)))),
            ("attribute 14 that is cut", (3, 9), whole, ALIVE, update(FRONT + attribute(14, FAMILY + b"\4\0"))),
            ("attribute 15 that is cut", (3, 9), whole, ALIVE, update(attribute(15, b"\x40\4"))),
            ("an NLRI longer than its attribute", (3, 9), whole, ALIVE, update(FRONT + reach(LINK[:-1]))),
            ("one withdrawn", (3, 9), whole, ALIVE, withdraw(LINK[:-1])),
            ("an NLRI whose head is cut", (3, 9), whole, ALIVE, withdraw(b"\0\2\0")),
            ("an unknown well-known attribute", (3, 2), whole, ALIVE, update(FRONT + reach(LINK) + attribute(99, b"", 0x40))),
            ("a bad attribute of no route", (3, 1), whole, ALIVE, update(attribute(1, b"\3", 0x40))),
            ("a list of attributes that is cut, of no route", (3, 1), whole, ALIVE, update(ORIGIN + b"\x80\x1d\5"))]:
        tried.session(*messages)
        checks.same(f"a session that ends: {name}", tried.ended(), (True, *wanted))
    tried.session(whole, ALIVE, message(NOTIFICATION, b"\6\4"))
    checks.same("no Notification answers one", tried.ended(), (True,))
    tried.session()
    tried.speaker.send(PAIR[:-5])
    tried.speaker.hang_up()
    tried.session(opening(has_long=False), ALIVE)
    tried.speaker.send(PAIR)
    checks.same("the next session", tried.feed.batch(), (PAIR_ROWS, 1))
    said = tried.end()
    checks.true("what is said", "the peer ended the session by Notification 6/4, cease; what was put stays\n" in said, said[-900:])
    checks.true("of a message that is cut", "the peer closed the connection in the midst of a message" in said, said[-900:])
    tried = Tried("--most", "3")
    tried.session()
    tried.speaker.send(CHAIN)
    checks.same("more NLRIs than are taken", tried.ended(), (True, 6, 1))
    tried.feed.waits(50)
    checks.true("the peer isn't tried again soon", not tried.speaker.is_waiting())
    tried.session()
    tried.speaker.send(PAIR)
    checks.same("and is after a minute", tried.feed.batch()[0], PAIR_ROWS)
    tried.end()


def timers(checks):
    """Keepalives go out, and a silent peer is noticed."""
    speaker = Speaker()
    feed = Feed(speaker, is_accepted=False)
    speaker.accept(opening(hold=30), ALIVE)
    speaker.take()
    speaker.send(PAIR)
    feed.batch()
    for _ in range(6):
        feed.waits(9)
        speaker.send(ALIVE)
        feed.waits(1)
    checks.same("a Keepalive every third of the peer's hold time", [speaker.take() for _ in range(6)], [(KEEPALIVE, b"")] * 6)
    feed.waits(28.9)
    checks.true("nothing is lost before the hold time", b"silent" not in feed.said)
    feed.waits(0.2)
    while (found := speaker.take()) == (KEEPALIVE, b""):
        pass
    checks.same("then the session ends", (found[0], found[1][:1], b"the peer was silent for 30 s; what was put stays" in feed.said),
                (NOTIFICATION, b"\4", True))
    speaker.hang_up()
    checks.true("and drops nothing", feed.is_quiet())
    feed.end()
    for name, seconds, messages in [("says nothing", 30, ()), ("opens, and no more", 90, (opening(),))]:
        tried = Tried()
        tried.speaker.accept(*messages or [b""])
        tried.feed.waits(seconds - 0.1)
        checks.true(f"a peer that {name} has {seconds} s", b"silent" not in tried.feed.said)
        tried.feed.go(0.2)
        checks.same(f"a peer that {name}", tried.ended(), (True, 4, 0))
        checks.true(f"a peer that {name}: the line", f"the peer was silent for {seconds} s; what was put stays" in tried.end())
    tried = Tried()
    for _ in range(5):
        tried.session(opening(), opening())
        tried.ended()
    checks.same("Opens for ever are one line", tried.end().count("\n"), 1)


class Dialing(Speaker):
    """A speaker that connects to the feed."""

    def __init__(self):
        super().__init__()
        with socket.create_server(("127.0.0.1", 0)) as free:
            self.door = free.getsockname()[1]
        self.other, self.where = self.listening, "127.0.0.1 port 179"

    def words(self):
        return ["bgpls", "--peer", "127.0.0.1", "--as", str(NUMBER), "--id", "9.9.9.8", "--listen", f"127.0.0.1:{self.door}"]

    def dial(self, own="127.0.0.1"):
        return socket.create_connection(("127.0.0.1", self.door), PATIENCE, (own, 0))

    def accept(self, *messages):
        made = self.dial()
        self.listening = type("Dialed", (), {"accept": lambda _: (made, None)})()
        super().accept(*messages)


def doors(checks):
    """With --listen the feed waits for its peer, and for nobody else."""
    speaker = Dialing()
    feed = Feed(speaker, is_accepted=False)
    feed.settle()
    with speaker.dial("127.0.0.2") as other:
        checks.same("another address", other.recv(99), b"")
    feed.settle()
    speaker.accept()
    speaker.send(PAIR)
    checks.same("the peer", feed.batch(), (PAIR_ROWS, 1))
    with speaker.dial() as second:
        data = second.recv(99)
        second.shutdown(socket.SHUT_WR)
        second.recv(99)
    speaker.sent += 1
    checks.same("a second session of the same peer", data, message(NOTIFICATION, b"\6\7"))
    speaker.send(withdraw(LINK))
    checks.same("takes nothing from the first", feed.batch(), (DROP, 2))
    speaker.hang_up()
    feed.settle()
    refused = False
    try:
        speaker.dial().close()
    except ConnectionRefusedError:
        refused = True
    checks.true("who connects at once again is refused", refused)
    feed.waits(1.1)
    speaker.accept()
    speaker.send(PAIR)
    checks.same("and isn't a second later", feed.batch(), (PAIR_ROWS[:1], 3))
    checks.same("what is said", feed.end(), f"bgpls: no connection to {speaker.where}: the peer closed the connection; what was put stays\n"
                "bgpls: connected again; links that were there are held for 20 s\n")


def dialed(checks):
    """Words that are refused, and keys."""
    for words in (["--peer", "127.0.0.1:0"], ["--peer", "127.0.0.1:65536"], ["--peer", "::1"], ["--peer", "host"], ["--peer", "1.2.3"],
                  ["--as", "0"], ["--as", "4294967296"],
                  ["--peer-as", "0"], ["--id", "1"], ["--listen", "/tmp/x"], ["--listen", "[::1]:179"], ["--most", "0"],
                  ["--instance", "-1"],
                  ["--protocol", "rip"], ["--unreserved", "all"], ["--quiet", "-1"], ["--once", "--srlgs", "x"], ["--router", "127.0.0.1"]):
        ran = subprocess.run([*FEED, "bgpls", "--peer", "127.0.0.1", "--as", "1", *words], stdin=subprocess.DEVNULL, capture_output=True,
                             text=True)
        checks.true(f"refused: {words}", ran.returncode == 2 and "Traceback" not in ran.stderr, ran)
    for words in ([], ["--peer", "127.0.0.1"], ["--as", "1"]):
        ran = subprocess.run([*FEED, "bgpls", *words], stdin=subprocess.DEVNULL, capture_output=True, text=True)
        checks.true(f"refused without a peer or an AS: {words}", ran.returncode == 2 and "required" in ran.stderr, ran)
    with tempfile.TemporaryDirectory() as room:
        path = os.path.join(room, "keys")
        with open(path, "w", encoding="ascii") as file:
            file.write("127.0.0.9 other\n127.0.0.1 secret word\n")
        speaker = Speaker()
        where = struct.pack("=HH4s120x", socket.AF_INET, 0, raw("127.0.0.1"))
        try:
            speaker.listening.setsockopt(socket.IPPROTO_TCP, 14, where + struct.pack("=BBHi80s", 0, 0, 11, 0, b"secret word"))
        except OSError as fault:
            print(f"skipped: TCP-MD5, since the system refuses it: {fault}")
            return
        feed = Feed(speaker, "--key", path)
        speaker.send(PAIR)
        checks.same("a session with a key", feed.batch(), (PAIR_ROWS, 1))
        feed.end()
        found = subprocess.run([*FEED, "bgpls", "--peer", "127.0.0.2:9", "--as", "1", "--key", path, "--once"], stdin=subprocess.DEVNULL,
                               capture_output=True, text=True)
        checks.same("no key of the peer", (found.returncode, found.stderr), (1, f"bgpls: --key {path}: it has no key of 127.0.0.2\n"))


def attributes(checks):
    """RFC 7606: a route with a wrong attribute is treated as withdrawn, and the session goes on."""
    speaker = Speaker()
    feed = Feed(speaker)
    speaker.send(PAIR)
    feed.batch()
    rest = reach(LINK) + attribute(29, told(metric=9))
    aggregate = attribute(6, b"x", 0x40) + attribute(7, b"x", 0xc0)
    for name, attributes, wanted in [
            ("ORIGIN of two bytes", attribute(1, b"\0\0", 0x40) + PATH + rest, DROP), ("ORIGIN 3", b"\x40\1\1\3" + PATH + rest, DROP),
            ("ORIGIN that is optional", attribute(1, b"\0", 0xc0) + PATH + rest, DROP), ("no ORIGIN", PATH + rest, DROP),
            ("no AS_PATH", ORIGIN + rest, DROP),
            ("AS_PATH of a kind that isn't known", ORIGIN + attribute(2, b"\5\1" + bytes(4), 0x40) + rest, DROP),
            ("AS_PATH that is cut", ORIGIN + attribute(2, b"\2\2" + bytes(4), 0x40) + rest, DROP),
            ("AS_PATH of nothing", ORIGIN + attribute(2, b"\2\0", 0x40) + rest, DROP),
            ("LOCAL_PREF of a byte", ORIGIN + PATH + attribute(5, b"\1", 0x40) + rest, DROP),
            ("MED of a byte", FRONT + attribute(4, b"\1") + rest, DROP),
            ("NEXT_HOP of a byte", FRONT + attribute(3, b"\1", 0x40) + rest, DROP),
            ("communities of 5 bytes", FRONT + attribute(8, bytes(5), 0xc0) + rest, DROP),
            ("a cluster list of 5 bytes", FRONT + attribute(10, bytes(5)) + rest, DROP),
            ("a list that is cut", FRONT + rest + b"\x80\x63\5", DROP),
            ("an attribute 29 that isn't optional", FRONT + reach(LINK) + attribute(29, told(), 0x40), DROP),
            ("an attribute 29 that is transitive", FRONT + reach(LINK) + attribute(29, told(), 0xc0), DROP),
            ("no attribute 29", FRONT + reach(LINK), DROP),
            ("an attribute 29 of nothing", FRONT + reach(LINK) + attribute(29, b""), DROP),
            ("others that are wrong", FRONT + aggregate + rest, [row(A, A_B, B, B_A, metric=9)]),
            ("others that aren't known", FRONT + attribute(99, bytes(300)) + rest, [row(A, A_B, B, B_A, metric=9)]),
            ("attribute 29 twice", FRONT + rest + attribute(29, told(metric=8)), [row(A, A_B, B, B_A, metric=9)]),
            ("ORIGIN twice", ORIGIN + FRONT + rest, [row(A, A_B, B, B_A, metric=9)]),
            ("a path", ORIGIN + attribute(2, b"\2\2" + bytes(8) + b"\1\1" + bytes(4), 0x40) + rest, [row(A, A_B, B, B_A, metric=9)]),
            ("reflected", FRONT + attribute(9, bytes(4)) + attribute(10, bytes(8)) + rest, [row(A, A_B, B, B_A, metric=9)])]:
        speaker.send(update(attributes))
        found = feed.batch()[0]
        speaker.send(RIGHT)
        checks.same(f"an Update with {name}", (found, feed.batch()[0]), (wanted, PAIR_ROWS[:1]))
    speaker.send(update(FRONT + attribute(14, b"\0\1\1\4" + bytes(5) + b"\x18\1\2\3")))
    speaker.send(update(attribute(15, b"\0\1\1\x18\1\2\3")) + message(UPDATE, b"\0\4\x18\1\2\3\0\0"))
    checks.true("other families are nothing", feed.is_quiet())
    checks.same("and nothing of it ends the session", feed.end(), "")
    speaker.hang_up()


def descriptors(body):
    """Where each TLV of an NLRI's body begins, those within descriptors of nodes too."""
    found, at = [], 9
    while at < len(body):
        kind, size = struct.unpack_from(">HH", body, at)
        found += [at] if kind != 514 else []  # an area isn't read, and with a length of 0 its bytes are a TLV of kind 0
        at += 4 if kind in (256, 257) else 4 + size
    return found


def cuts(checks):
    """Attribute 29 cut at each byte, each of its TLVs with other lengths, and NLRIs cut at each byte."""
    speaker = Speaker()
    feed = Feed(speaker, "--verbose")
    mine = announce(LINK, WHOLE)
    speaker.send(mine + Speaker.put(B, B_A, A, A_B))
    there = row(A, A_B, B, B_A, group=5)
    feed.batch()
    bounds, at = [], 0
    while at < len(WHOLE):
        bounds.append(at)
        at += 4 + struct.unpack_from(">H", WHOLE, at + 2)[0]
    found = []
    for size in (size for size in range(1, len(WHOLE)) if size not in bounds):
        speaker.send(announce(LINK, WHOLE[:size]))
        gone = feed.batch()[0]
        speaker.send(mine)
        found.append((size, gone, feed.batch()[0]))
    checks.same("attribute 29 cut at each byte", [each for each in found if each[1:] != (DROP, [there])], [])
    checks.true("there are such cuts", len(found) > 90, len(found))
    found = []
    for at in bounds:
        kind, size = struct.unpack_from(">HH", WHOLE, at)
        for other in {65535, len(WHOLE) - at - 3}:
            speaker.send(announce(LINK, WHOLE[:at + 2] + struct.pack(">H", other) + WHOLE[at + 4:]))
            gone = feed.batch()[0]
            speaker.send(mine)
            found.append((kind, other, gone, feed.batch()[0]))
        if kind not in (1090, 1096, 1114):  # these may have nothing
            speaker.send(announce(LINK, WHOLE[:at] + struct.pack(">HH", kind, 0) + WHOLE[at + 4 + size:]))
            gone = feed.batch()[0]
            speaker.send(mine)
            found.append((kind, 0, gone, feed.batch()[0]))
    checks.same("each TLV with a length of 0, of too much and of 65,535", [each for each in found if each[2:] != (DROP, [there])], [])
    for at in bounds:  # the first value counts, whatever the second is
        kind, size = struct.unpack_from(">HH", WHOLE, at)
        other = bytes(each ^ 1 for each in WHOLE[at + 4:at + 4 + size])
        speaker.send(announce(LINK, WHOLE + tlv(kind, other)))
        if kind == 1096:  # SRLGs of all TLVs count, and are in no row
            continue
        checks.true(f"TLV {kind} twice", feed.is_quiet())
    speaker.send(mine)
    body, bad = LINK[4:], []
    for at in descriptors(body):
        for size in {0, 65535} - {struct.unpack_from(">H", body, at + 2)[0]}:
            bad.append(tlv(2, body[:at + 2] + struct.pack(">H", size) + body[at + 4:]))
    twice = tlv(2, body + tlv(259, raw("10.5.5.5")) + tlv(257, node("9.9.9.7")))
    speaker.send(b"".join(announce(each, told(metric=1)) for each in bad) + withdraw(LINK) + announce(twice, WHOLE))
    checks.true("descriptors with lengths of 0 and 65,535 are no row, and of two the first counts", feed.is_quiet())
    checks.true("each of them is left out", len(bad) == 2 * len(descriptors(body)) > 7, len(bad))
    speaker.send(withdraw(*bad, twice) + mine)
    checks.true("and the link is there", feed.is_quiet())
    for whole in (LINK, link_nlri("7.7.7.7", "10.7.7.7", A, "10.7.7.8"), tlv(1, struct.pack(">BQ", 3, 0) + tlv(256, node(A)))):
        for size in range(len(whole) - 4):
            body = whole[4:4 + size]
            speaker.send(announce(whole[:2] + struct.pack(">H", size) + body, told(metric=size)))
    said = len(feed.said)
    checks.true("an NLRI that is cut at each byte is no row", feed.is_quiet(), said)
    speaker.send(announce(LINK[:4] + LINK[4:17].replace(b"\1\0", b"\1\0") + LINK[17:], WHOLE))
    checks.true("and the link is there as ever", feed.is_quiet())
    said = feed.end()
    checks.true("they are counted", "left out: an NLRI that can't be read" in said.replace("links; ", ""), said[-300:])
    speaker.hang_up()


def spent(feed):
    """The seconds of a processor that a feed has taken."""
    with open(f"/proc/{feed.process.pid}/stat", encoding="ascii") as file:
        return sum(map(int, file.read().rpartition(")")[2].split()[11:13])) / os.sysconf("SC_CLK_TCK")


def large(checks):
    """A table of full size, and all of it withdrawn at once."""
    names = [f"1.0.{n >> 8}.{n & 255}" for n in range(1, 1025)]
    ways = []
    for n in range(8192):
        one, other = names[n % 1024], names[(n % 1024 + 1 + n // 1024) % 1024]
        ways += [(one, f"10.{n >> 8}.{n & 255}.1", other, f"10.{n >> 8}.{n & 255}.2")]
    ways += [(other, remote, one, local) for one, local, other, remote in ways]
    speaker = Speaker()
    feed = Feed(speaker, "--collect", "5")
    parts = [link_nlri(*way) for way in ways]
    for at in range(0, len(parts), 28):
        speaker.send(announce(parts[at:at + 28], told()))
    batches = [feed.batch() for _ in range(4)]
    checks.same("16,384 links of 1,024 routers", [(len(rows), number) for rows, number in batches], [(4096, n) for n in range(1, 5)])
    checks.same("are the rows", sorted(each for rows, _ in batches for each in rows), sorted(row(*way) for way in ways))
    before = spent(feed)
    for metric in range(20, 40):
        speaker.send(announce(parts[metric:metric + 2], told(metric=metric)))
        wanted = [row(*way, metric=metric) for way in ways[metric:metric + 2]]
        checks.same(f"two of them have the metric {metric}", sorted(feed.batch()[0]), sorted(wanted))
    took = spent(feed) - before
    checks.true("seconds of a processor for 20 batches of two links", took < allowed(0.6), took)
    for at in range(0, len(parts), 28):
        speaker.send(withdraw(*parts[at:at + 28]))
    batches = [feed.batch() for _ in range(4)]
    checks.same("all withdrawn at once", sorted(each for rows, _ in batches for each in rows),
                sorted(f"drop,{way[0]},{way[1]}" for way in ways))
    checks.same("nothing is left, and nothing is said", (feed.is_quiet(), feed.end()), (True, ""))
    speaker.hang_up()
