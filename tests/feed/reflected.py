"""Tests of routed-tools feed bgpls beside implementations of others: through gobgpd as a route reflector, and beside exabgp's decoder."""
import contextlib
import json
import os
import shutil
import socket
import subprocess
import tempfile
import time
from concurrent.futures import ThreadPoolExecutor

from checks import Checks
from feed.beside import until
from feed.both import LINKS, ROWS, Of, killed
from feed.played import A, A_B, B, BROKEN_DROPS, B_A, B_C, C, CHAIN_ROWS, C_B, IN_PROCESS, PATIENCE, Feed, going_on, raw, row, snapshot
from feed.speaker import CHAIN, END, ISIS_2, NUMBER, Speaker, announce, link_nlri, nlri, nlris_of, node, node_nlri, sid, tlv, told, withdraw

D, C_D, D_C = "4.4.4.4", "10.0.0.4", "10.0.0.5"
FLOATS = [0.0, 0.75, 1.5, 16777217.9, 33333333.3, 1.25e9, 2.0**63, 3.0]


# Every TLV that rows are made of, by both protocols; links that are left out, for each reason that comes through; and another type.
TABLE = [announce(link_nlri(A, A_B, B, B_A), told(own=A, other=B, group=0x80000001, srlgs=(7, 9), free=FLOATS, more=sid(17))),
         announce(link_nlri(B, B_A, A, A_B), told(metric=0, more=sid(18, 0xe0) + sid(19))),
         announce(node_nlri(A), tlv(1024, b"\x80") + tlv(1026, b"a")),
         announce(link_nlri(C, C_D, D, D_C, ISIS_2), told(metric=None, igp=b"\1\0\0", more=sid(20, 0x30))),
         announce(link_nlri(D, D_C, C, C_D, ISIS_2), told(own=D, other=C, igp=b"\7", metric=None)),
         announce(node_nlri(C, ISIS_2), tlv(1028, raw(C))),
         announce(link_nlri(B, B_C, C, C_B), told(free=None)), announce(link_nlri(C, C_B, B, B_C), told(metric=None, igp=None)),
         announce(link_nlri(B, "10.9.0.1", A, "10.9.0.2", far=node(A, igp=raw(A) + raw("10.9.0.2"))), told()),
         announce(link_nlri(B, None, A, None, more=tlv(258, bytes(8))), told()),
         announce(nlri(3, tlv(256, node(C)) + tlv(265, b"\x18\x0a\0\0")), b"")]


class Origin(Speaker):
    """A speaker at an address of its own, which others connect to."""

    def __init__(self, address, port=0):
        self.listening = socket.create_server((address, port))
        self.listening.settimeout(PATIENCE)
        self.port, self.sent, self.old = self.listening.getsockname()[1], 0, []


class Reflector:
    """What a feed connects to in the place of its peer: gobgpd, and behind it the originator."""

    name, is_reflected = "bgpls", True
    chain, broken, pair, without_a = CHAIN, withdraw(link_nlri(B, B_C, C, C_B), link_nlri(C, C_B, B, B_C)), Speaker.pair, Speaker.without_a

    def __init__(self, room, origin):
        with socket.create_server(("127.0.0.3", 0)) as one, socket.create_server(("127.0.0.1", 0)) as other:
            self.port, self.api = one.getsockname()[1], other.getsockname()[1]
        self.origin, self.sent, self.file, self.log = origin, 0, os.path.join(room, "gobgpd.toml"), os.path.join(room, "gobgpd.log")
        text = f'[global.config]\nas = {NUMBER}\nrouter-id = "127.0.0.3"\nport = {self.port}\nlocal-address-list = ["127.0.0.3"]\n'
        for address, how in (("127.0.0.2", f"remote-port = {origin.port}"), ("127.0.0.1", "passive-mode = true")):
            text += (f'[[neighbors]]\n[neighbors.config]\nneighbor-address = "{address}"\npeer-as = {NUMBER}\n'
                     '[neighbors.timers.config]\nconnect-retry = 1\nidle-hold-time-after-reset = 1\n'
                     f'[neighbors.transport.config]\nlocal-address = "127.0.0.3"\n{how}\n[neighbors.route-reflector.config]\n'
                     'route-reflector-client = true\nroute-reflector-cluster-id = "127.0.0.3"\n'
                     '[[neighbors.afi-safis]]\n[neighbors.afi-safis.config]\nafi-safi-name = "ls"\n')
        with open(self.file, "w", encoding="ascii") as file:
            file.write(text)

    def begin(self):
        with open(self.log, "a", encoding="ascii") as log:
            self.process = subprocess.Popen(["gobgpd", "-f", self.file, "--api-hosts", f"127.0.0.1:{self.api}"], stdout=log, stderr=log)
        self.origin.accept()

    def kill(self):
        self.process.kill()
        self.process.wait()

    def words(self):
        return ["bgpls", "--peer", f"127.0.0.3:{self.port}", "--as", str(NUMBER), "--collect", "0.5"]

    # ---- what a scenario does with a router

    def __call__(self):
        return self

    def is_waiting(self):
        """Whether a feed is connected."""
        with open("/proc/net/tcp", encoding="ascii") as file:
            there = f"0300007F:{self.port:04X}", "01"  # its address, and that the connection is established
            return any((each[2], each[3]) == there and each[1].startswith("0100007F:") for each in map(str.split, file))

    def send(self, data):
        self.origin.send(data)

    def accept(self):
        """It accepts by itself."""

    hang_up = accept


def once(*words):
    ran = subprocess.run([*IN_PROCESS, "-1", "-1", *words, "--once", "--verbose", "--quiet", "4"], stdin=subprocess.DEVNULL,
                         capture_output=True, text=True,
                         timeout=PATIENCE)
    return ran.returncode, ran.stdout, ran.stderr


def in_real_time(checks, reflector, origin):
    """The scenarios of both protocols through the reflector, by the real clock. These can't be:
    - waits that are exact to 0.01 s, 20 s of the default hold, and a database of 5,000 links: the clock has to be the test's
    - events that come 4 ms apart, and a router that is back with a part of its links at a time of its session: gobgpd sends routes when
      it likes, and the sessions are its own
    - lines of refused batches but the first sequence: they don't depend on the session
    - bad headers, Opens and attributes: gobgpd judges them itself, so that they don't come to the feed."""
    ends = [(A, A_B, B, B_A), (B, B_A, A, A_B)]

    def feed_of(*words, **more):
        return Feed(reflector, "--quiet", "86400", *words, is_real=True, is_accepted=False, **more)

    feed = feed_of()
    origin.send(CHAIN)
    rows, wanted = CHAIN_ROWS, [CHAIN_ROWS, CHAIN_ROWS[:2], CHAIN_ROWS[:1], CHAIN_ROWS[1:2], CHAIN_ROWS[2:]]
    answers = ("batch 1 refused: full",) * 3 + ("version 1", "version 2")
    checks.same("gobgpd: a start at version 0, and a refused batch", [feed.batch(answer)[0] for answer in answers], wanted)
    checks.same("gobgpd: what is said of it", feed.end(), f"bgpls: batch 1 refused: full: put {A} {A_B} is left out\n")
    for name, gone, kept in [("a circuit", BROKEN_DROPS, reflector.broken), ("a mark", [f"node,{A},1"], b""),
                             ("a router", [f"drop,{A},{A_B}", f"drop,{B},{B_A}"], reflector.without_a)]:
        marks = [f"node,{A},0"] * (name == "a mark")
        origin.send(kept)
        feed = feed_of("--hold", "3", version=7, told=snapshot(7, [*rows, *marks]))
        checks.true(f"gobgpd: {name} that went while no feed was there is held at first", feed.line(2) is None)
        checks.same(f"gobgpd: {name} is dropped when the hold is over", feed.batch(), (gone, 8))
        origin.send(CHAIN)
        if not marks:
            back = [each for each in rows if f"drop,{','.join(each.split(',')[1:3])}" in gone]
            checks.same(f"gobgpd: {name} that is back", feed.batch(), (back, 9))
        checks.true(f"gobgpd: {name}: what is said", feed.end().startswith(going_on(7, 4, len(marks), 3, "bgpls")))

    feed, begun = feed_of("--hold", "3", version=7, told=snapshot(7, [*rows, row(C, C_D, D, D_C)])), time.monotonic()
    found, metric = [], 20
    while f"drop,{C},{C_D}" not in found and time.monotonic() < begun + 30:
        metric += 1
        origin.send(announce(link_nlri(*ends[0]), told(metric=metric)))
        found += feed.rest(0.5)
    took = time.monotonic() - begun
    checks.true("gobgpd: an Update each second doesn't keep a dead circuit", took < 20 and metric > 22, (took, found[-3:]))
    checks.true("gobgpd: the Updates are put meanwhile", f"put,{A},{A_B}" in {each[:len(f'put,{A},{A_B}')] for each in found}, found)
    for circuit in (LINKS, [(ends[0], {}), (ends[1], {})]):  # figures, and then as they were
        origin.send(b"".join(Speaker.put(*one, **more) for one, more in circuit))
        wanted = sorted(ROWS) if circuit is LINKS else sorted(rows[:2])
        found = {}
        end = time.monotonic() + 15
        while sorted(found.values()) != wanted and time.monotonic() < end:
            found.update({tuple(each.split(",")[1:3]): each for each in feed.rest(0.5)})
        checks.same("gobgpd: rows of one network", sorted(found.values()), wanted)
    origin.send(Speaker.stub(A))
    checks.same("gobgpd: a mark", feed.rest(1.5), [f"node,{A},0"])
    origin.send(withdraw(node_nlri(A)))
    checks.same("gobgpd: that goes", feed.rest(1.5), [f"node,{A},1"])
    feed.process.kill()
    feed.process.wait()
    reflector.kill()
    origin.hang_up()
    feed = feed_of("--hold", "10", version=7, told=snapshot(7, rows))
    checks.true("gobgpd: a feed that starts without its reflector drops nothing", feed.line(1.5) is None)
    reflector.begin()
    origin.send(Speaker.pair)
    checks.same("gobgpd: a circuit that went while feed and reflector were killed is dropped", feed.batch(), (BROKEN_DROPS, 8))
    feed.end()
    origin.send(withdraw(nlris_of(Speaker.pair)))


def beside_reflected(checks):
    """The scenarios by the real clock, through a gobgpd of their own."""
    with tempfile.TemporaryDirectory() as room, contextlib.ExitStack() as clean:
        origin = Origin("127.0.0.2")
        reflector = Reflector(room, origin)
        clean.callback(lambda: reflector.kill())
        reflector.begin()
        in_real_time(checks, reflector, origin)


def reflected(program, checks):
    """The same through gobgpd; then a circuit and a router go, the reflector is killed and comes back, and feed and server are killed."""
    if not shutil.which("gobgpd"):
        print("skipped: the feed through gobgpd, which isn't there")
        return
    real = Checks(checks.only)
    with ThreadPoolExecutor(1) as pool:
        pool.submit(real.part, "beside_reflected", beside_reflected, real)
        checks.part("through_gobgpd", through_gobgpd, program, checks)
    checks.passed, checks.failed = checks.passed + real.passed, checks.failed + real.failed


def through_gobgpd(program, checks):
    with tempfile.TemporaryDirectory() as room, contextlib.ExitStack() as clean:
        origin, straight = Origin("127.0.0.2"), Origin("127.0.0.1")
        reflector = Reflector(room, origin)
        clean.callback(lambda: reflector.kill())
        reflector.begin()
        origin.send(b"".join(TABLE) + END)
        direct = subprocess.Popen([*IN_PROCESS, "-1", "-1", "bgpls", "--peer", f"127.0.0.1:{straight.port}", "--as", str(NUMBER), "--once",
                                   "--verbose"],
                                  stdin=subprocess.DEVNULL, stdout=subprocess.PIPE, stderr=subprocess.PIPE, text=True)
        straight.accept()
        straight.send(b"".join(TABLE) + END)
        out, said = direct.communicate(timeout=PATIENCE)
        checks.same("rows and what is left out, through gobgpd and straight", once(*reflector.words()), (0, out, said))
        checks.same("they are these links and this mark", [line.split(",")[:3] for line in out.splitlines()[:-1]],
                    [["node", A, "0"], ["put", A, A_B], ["put", B, B_A], ["put", C, C_D], ["put", D, D_C]])
        # what came of it is gone, and a chain is there
        origin.send(b"".join(withdraw(nlris_of(each)) for each in TABLE) + CHAIN)

        def reply(feed):
            feed.say(f"ask,7,{A},{C},0,1000,0x0,0x0,0x0,")
            return feed.line() or ""

        feed = Feed(reflector, "--hold", "20", "--quiet", "1.5", command=("--", program.path, "solve"), is_accepted=False)
        until(lambda: " route " in reply(feed), "a route")
        origin.send(reflector.broken)
        until(lambda: "unknown-to" in reply(feed), "a router that is gone")
        origin.send(CHAIN)
        until(lambda: " route " in reply(feed), "a router that is back")
        reflector.kill()
        origin.hang_up()
        until(lambda: (feed.hear(0), b"what was put stays" in feed.said)[1], "a line about the reflector")
        checks.true("the reflector is killed: what was put stays", " route " in reply(feed))
        reflector.begin()
        until(lambda: "unknown-" in reply(feed), "an empty table")
        until(lambda: (feed.hear(0), b"the router tells of no link: 4 links and marks are dropped" in feed.said)[1],
              "a line about the empty table")
        origin.send(CHAIN)
        until(lambda: " route " in reply(feed), "a route once more")
        checks.true("a reflector that is back before its originator: the network goes, and comes back", "what was put stays" in feed.end())
        origin.send(withdraw(nlris_of(CHAIN)))
        killed(Of(checks, "gobgpd"), reflector, program)


def decoded(checks):
    """exabgp says the same of each link."""
    if not shutil.which("exabgp"):
        print("skipped: what exabgp says of BGP-LS, which isn't there")
        return
    with tempfile.TemporaryDirectory() as room:
        os.chmod(room, 0o777)
        origin = Origin("127.0.0.1")
        found, file, script = (os.path.join(room, name) for name in ("found", "exabgp.conf", "dump.py"))
        with open(found, "w", encoding="ascii"):
            os.chmod(found, 0o666)
        with open(script, "w", encoding="ascii") as text:
            text.write("import os, select\nwith open(%r, 'ab', 0) as file:\n" % found +
                       "    while select.select([0], [], []) and (data := os.read(0, 65536)):\n        file.write(data)\n")
        with open(file, "w", encoding="ascii") as text:
            text.write(f"process dump {{ run /usr/bin/python3 {script}; encoder json; }}\nneighbor 127.0.0.1 {{ router-id 9.9.9.7;"
                       f" local-address 127.0.0.1; local-as {NUMBER}; peer-as {NUMBER}; connect {origin.port};"
                       " family { bgp-ls bgp-ls; }\n api { processes [ dump ]; receive { parsed; update; } } }\n")
        around = {**os.environ, "exabgp_daemon_user": "root", "exabgp_api_cli": "false", "exabgp_tcp_bind": ""}
        process = subprocess.Popen([shutil.which("exabgp"), file], env=around, stdin=subprocess.DEVNULL, stdout=subprocess.DEVNULL,
                                   stderr=subprocess.DEVNULL)
        try:
            origin.accept()
            links = [(A, A_B, B, B_A, dict(metric=11, group=5, srlgs=(1, 2), free=[1000.0 * n for n in range(8)])),
                     (B, B_A, A, A_B, dict(metric=12, free=2.0**30)),
                     (B, B_C, C, C_B, dict(metric=2**24 - 1, group=0x80000000))]
            sent = [announce(link_nlri(*ends), told(own=ends[0], other=ends[2], **more)) for *ends, more in links]
            origin.send(b"".join(sent) + END)
            read = lambda: [json.loads(line) for line in open(found, encoding="ascii")]
            until(lambda: sum('"announce"' in line for line in open(found, encoding="ascii")) == len(links), "exabgp's lines")
            theirs = [row_of(each["neighbor"]["message"]["update"]) for each in read()
                      if "update" in each.get("neighbor", {}).get("message", {})]
        finally:
            process.terminate()
            process.wait(PATIENCE)
        origin = Origin("127.0.0.1")
        feed = subprocess.Popen([*IN_PROCESS, "-1", "-1", "bgpls", "--peer", f"127.0.0.1:{origin.port}", "--as", str(NUMBER), "--once"],
                                stdin=subprocess.DEVNULL, stdout=subprocess.PIPE, text=True)
        origin.accept()
        origin.send(b"".join(sent) + END)
        checks.same("exabgp's JSON of the same Updates has the same links", sorted(theirs),
                    sorted(feed.communicate(timeout=PATIENCE)[0].splitlines()[:-1]))


def row_of(update):
    """The row of an Update as exabgp tells it."""
    of, (nlris,) = update["attribute"]["bgp-ls"], update["announce"]["bgp-ls bgp-ls"].values()
    link, = nlris
    free = ",".join(f"{rate:.0f}" for rate in of["unreserved-bandwidth"])
    group = of.get("admin-group-mask", [0])[0]
    return (f"put,{of['local-te-router-ids'][0]},{link['interface-address']['interface-address']},{of['remote-te-router-id']},"
            f"{link['neighbor-address']['neighbor-address']},{of['te-metric']},0x{group:08x},{free}")
