"""The whole front beside the built program: requests and LSPs that exclude, by prefixes and by SRLGs that a file or a feed tells."""
import collections
import os
import random
import struct
import subprocess
import threading
import time
from typing import NamedTuple

from checks import TOOLS
from feed.speaker import Speaker
from pcep.beside import Client, Run, addresses, wait
from pcep.excluded import BY_DIRECT, BY_NORTH, BY_SOUTH, NORTH_ERO, SOFT, TO_DIRECT, TO_SOUTH, TRIANGLE, prefix, router, srlg, words_of, xro
from pcep.played import SOUTH, ip, reply, report, request, rows, told
from pcep.shared_risks import bad_links, line, shared
from reference import formats

from routed.pcep import wire
from routed.pcep.wire import pack

OPTIONS = {"ask": [], "except": ["--except"], "pair": ["--pairs"]}  # of an audit, by the word of the rows
DRAWN, VERSIONS = 300, 40  # requests, and versions that there are meanwhile, at least
EACH = [  # of an XRO: its name, its subobjects, and the answer
    ("an interface", [prefix("10.1.2.2")], BY_SOUTH), ("a prefix", [prefix("10.1.2.0", 23)], BY_DIRECT),
    ("a router", [router(2)], BY_SOUTH),
    ("the head-end", [router(1)], "NO-PATH 0"), ("all", [prefix("0.0.0.0", 0)], "NO-PATH 0"), ("nothing", [prefix("192.0.2.1")], BY_NORTH),
    ("a router that should be excluded", [router(2, **SOFT)], BY_SOUTH),
    ("all routers, which should be excluded", [router(1, bits=24, **SOFT)], BY_NORTH),
    ("a router, and an interface that should be", [router(2), prefix("10.1.3.1", **SOFT)], BY_DIRECT),
    ("an SRLG", [srlg(7)], BY_SOUTH), ("two SRLGs", [srlg(7), srlg(9)], BY_DIRECT),
    ("an interface's SRLGs", [shared("10.1.2.2")], BY_SOUTH),
    ("an SRLG that should be excluded", [srlg(7, **SOFT)], BY_SOUTH), ("SRLGs of all ways", [srlg(7), srlg(9), srlg(11)], "NO-PATH 0"),
    ("SRLGs of all ways that should be excluded", [srlg(7, **SOFT), srlg(9, **SOFT), srlg(11, **SOFT)], BY_NORTH),
    ("SRLGs of which one should be", [srlg(9), srlg(7, **SOFT)], BY_DIRECT), ("an SRLG of no link", [srlg(99)], BY_NORTH)]


def run_of(run):
    """The name of the server's run."""
    run.updates.sendall(b"run\n")
    return run.updates.recv(100).decode().removeprefix("run ").strip()


def reports(client, ero, *more):
    """Sends a report of an LSP, and the end of the synchronization."""
    client.socket.sendall(wire.message(10, *report(1, ero=ero, more=more), *report(0, 0)))


def excluding(program, checks, room):
    """Each kind of XRO, hard and soft, and LSPs. A server without the option refuses them."""
    path = os.path.join(room, "srlgs")
    with Run(program.path, room, "--srlgs", path, listen=["--except"]) as run:
        run.publish(*rows(TRIANGLE))
        client = Client(run.port, "127.0.15.1")
        client.open()
        wait(lambda: client.ask() == BY_NORTH)
        checks.same("before there is a file of SRLGs", client.ask(request(xro(srlg(7)))), "NO-PATH 1")
        with open(path, "w", encoding="ascii") as file:
            file.write("\n".join([f"run,{run_of(run)}", line(1, 2, 7), line(1, 3, 9), line(1, 4, 11), ""]))
        for name, parts, wanted in EACH:
            for must in (True, False):
                found = client.ask(request(xro(*parts, must=must)))
                checks.same(f"beside the program: an XRO of {name}, P {must:d}", found, wanted)
        many = [prefix(f"10.7.0.{at}") for at in range(64)]
        for name, parts, wanted in (("64", [*many[1:], router(2)], BY_SOUTH), ("65", [*many, router(2)], "PCErr 4/4")):
            checks.same(f"beside the program: {name} parts", client.ask(request(xro(*parts))), wanted)
        checks.same("beside the program: an unknown source", client.ask(request(xro(router(2)), ends=pack(4, ip(9) + ip(4), must=True))),
                    "NO-PATH 4")
        reports(client, NORTH_ERO, xro(srlg(7), must=False))
        kind, objects = client.raw()
        checks.same("an LSP that names an SRLG is moved", told(kind, objects), TO_SOUTH)
        srp, = (struct.unpack("!4xI", one.body[:8])[0] for one in objects if one.kind == wire.O_SRP)
        client.socket.sendall(wire.message(10, *report(1, ero=addresses(SOUTH), srp=srp, more=[xro(srlg(7), must=False)])))
        wait(lambda: run.figures()['updates_total{outcome="accepted"}'] == 1)
        with open(path, "a", encoding="ascii") as file:
            file.write(line(1, 3, 7) + "\n")
        checks.same("and moved again once another circuit has it, at no version of its own", client.read(), TO_DIRECT)
        checks.same("no line but those of what can't be asked", [each for each in run.said().splitlines() if "error" in each], [])
        client.close()
        checks.same("SIGTERM", run.end(), 0)
        judged(program, checks, run)
    inner = os.path.join(room, "without")
    os.mkdir(inner)
    with Run(program.path, inner) as run:
        run.publish(*rows(TRIANGLE))
        client = Client(run.port, "127.0.15.2")
        client.open()
        wait(lambda: client.ask() == BY_NORTH)
        checks.same("a server without --except: an XRO", client.ask(request(xro(router(2)))), "PCErr 3/1")
        checks.same("a server without --except: an XRO without P", client.ask(request(xro(router(2), must=False))), BY_NORTH)
        checks.same("a server without --except: an SRLG", client.ask(request(xro(srlg(7)))), "PCErr 3/1")
        reports(client, addresses(SOUTH), xro(router(2)))
        checks.same("a server without --except: an LSP", client.read(), f"{TO_SOUTH} returned")


def judged(program, checks, run, words=("ask", "except")):
    """The kept rows of these words, and their lines: the reference answers each at its version, and so does an audit."""
    with open(run.places["journal"], encoding="ascii") as file:
        journal = file.read()
    networks, rows_ = [formats.Network()], []
    for text in journal.splitlines():
        if text.startswith("end,"):
            networks.append(networks[-1].after([formats.row(row.split(",")) for row in rows_]))
            rows_ = []
        else:
            rows_.append(text)
    for word in words:
        front = "" if word == "ask" else f"{word}_"
        asked, lines = (run.kept(1, f"{front}{kind}") for kind in ("requests", "replies"))
        pairs = [*zip(asked.splitlines(), lines.splitlines())]
        faults = [(row, text) for row, text in pairs if reply(networks[version_of(text)], version_of(text), row) != text]
        checks.same(f"each line of {front}replies is the reference's", faults[:2], [])
        checks.same(f"{front}replies has a line for each row, of one kind", ({row.split(",")[0] for row, _ in pairs}, asked.count("\n")),
                    ({word}, lines.count("\n")))
        status, out, _ = program.audit(journal, asked, lines, *OPTIONS[word])
        checks.true(f"the audit of {front}replies", status == 0 and f"good={len(pairs)} faults=0".encode() in out, (status, out[-200:]))
    return networks


def version_of(text):
    return int(text.split(" ")[2][1:])


class Asked(NamedTuple):
    """A drawn request, its answer, and the version of its reply line."""

    here: int
    there: int
    parts: tuple  # of routers that must be excluded, and that should be
    groups: tuple  # SRLGs in the same way
    words: str
    version: int

    @classmethod
    def drawn(cls, draw, client, run):
        here, there = draw.sample(range(1, 9), 2)
        parts = tuple({draw.randrange(1, 9) for _ in range(draw.choice((0, 0, 1)))} for _ in range(2))
        groups = tuple({draw.randrange(6) for _ in range(draw.choice((0, 1, 1, 2)))} for _ in range(2))
        objects = [router(number, is_soft) for is_soft in (False, True) for number in parts[is_soft]]
        objects += [srlg(group, is_soft) for is_soft in (False, True) for group in groups[is_soft]]
        words = client.ask(request(xro(*objects), ends=pack(4, ip(here) + ip(there), must=True)))
        kept = [text for front in ("", "except_") for text in run.kept(1, f"{front}replies").splitlines()[-1:]]
        return cls(here, there, parts, groups, words, version_of(max(kept, key=lambda text: int(text.split(" ")[1]))))

    def wanted(self, network, having):
        """The answer by the network and the SRLGs of links at the reply's version."""
        for has_soft in (True, False):
            routers, groups = (set().union(*some[:1 + has_soft]) for some in (self.parts, self.groups))
            parts = {f"10.0.0.{number}/32r" for number in routers}
            parts |= {f"10.{min(link)}.{max(link)}.{min(link)}/32i" for link, own in having.items() if own & groups}
            words = words_of(network, self.here, self.there, sorted(parts))
            if words != "NO-PATH 0":
                break
        return words

    def bad(self, having):
        return bad_links(self.words, self.here, having, self.groups[0])


class Changing(threading.Thread):
    """Publishes versions, each with another cost and other SRLGs of some links: these are written first, as a feed does it."""

    def __init__(self, run, file, circuits, links):
        super().__init__()
        self.run_, self.file, self.circuits, self.links, self.over = run, file, circuits, links, threading.Event()
        self.having, self.draw = [{}], random.Random(1)  # the SRLGs of links, version by version
        self.begin()

    def begin(self):
        self.write({link: {self.draw.randrange(6)} for link in self.links if self.draw.random() < 0.3})
        self.run_.publish(*rows(self.circuits))

    def write(self, groups):
        self.file.write("".join(f"{line(*link, *sorted(own), version=len(self.having))}\n" for link, own in groups.items()))
        self.file.flush()
        self.having.append(self.having[-1] | groups)

    def run(self):
        while not self.over.is_set():
            changed = self.draw.sample(self.links, 2)
            self.write({link: {self.draw.randrange(6) for _ in range(self.draw.choice((0, 1, 2)))} for link in changed})
            self.run_.publish(*rows([self.draw.choice(self.circuits)]))
            time.sleep(0.01)


def drawn_risks(program, checks, room):
    """Drawn XROs while the network and the SRLGs change all the time: no reply has a link of a named SRLG at its version."""
    draw, path, circuits = random.Random(4203), os.path.join(room, "srlgs"), []
    for a in range(1, 9):
        circuits += [(a, b, draw.randrange(1, 6)) for b in range(a + 1, 9) if b == a + 1 or draw.random() < 0.4]
    links = [(a, b) for one, other, _ in circuits for a, b in ((one, other), (other, one))]
    with Run(program.path, room, "--srlgs", path, listen=["--except"]) as run, open(path, "w", encoding="ascii") as file:
        file.write(f"run,{run_of(run)}\n")
        changing, client = Changing(run, file, circuits, links), Client(run.port, "127.0.16.1")
        client.open()
        wait(lambda: client.ask().startswith("PCRep"))
        changing.start()
        found = []
        while len(found) < DRAWN or len(changing.having) < VERSIONS:
            found.append(Asked.drawn(draw, client, run))
        changing.over.set()
        changing.join()
        client.close()
        checks.same("drawn XROs beside the program: SIGTERM", run.end(), 0)
        networks, having = judged(program, checks, run), changing.having
    answered = [one for one in found if one.words != "NO-PATH 1"]
    bad = [one for one in answered if one.bad(having[one.version])]
    checks.same("no reply has a link of a named SRLG", bad[:2], [])
    wrong = [one for one in answered if one.words != one.wanted(networks[one.version], having[one.version])]
    checks.same("and each is the best path without them at its version", wrong[:2], [])
    counts = collections.Counter(one.words.split(" ")[0] for one in answered)
    versions = {one.version for one in answered}
    checks.true("nearly all are answered, by many versions and outcomes",
                len(answered) > 0.9 * len(found) and len(versions) > VERSIONS / 2 and min(counts["PCRep"], counts["NO-PATH"]) > 10,
                (len(found), counts, len(versions)))
    print(f"pcep: {len(found)} requests that exclude, {dict(counts)}, at {len(versions)} of {len(having) - 1} versions")


def fed(program, checks, room):
    """The SRLGs of a network that is announced by BGP-LS: from the feed's file to the answers of the front."""
    path, speaker = os.path.join(room, "srlgs"), Speaker()
    with Run(program.path, room, "--srlgs", path, listen=["--except"]) as run:
        run.updates.close()
        feed = subprocess.Popen([TOOLS, "feed", *speaker.words(), "--to", run.places["updates"], "--srlgs", path], stderr=subprocess.PIPE,
                                stdin=subprocess.DEVNULL)
        try:
            speaker.accept()

            def announced(groups):
                """Announces all links, some of them with SRLGs."""
                for one, other, cost in TRIANGLE:
                    for a, b in ((one, other), (other, one)):
                        speaker.send(Speaker.put(f"10.0.0.{a}", f"10.{one}.{other}.{a}", f"10.0.0.{b}", f"10.{one}.{other}.{b}",
                                                 metric=cost, srlgs=groups.get((a, b), ())))

            announced({(1, 2): (7,), (3, 4): (9, 10)})
            client = Client(run.port, "127.0.17.1")
            client.open()
            wait(lambda: client.ask() == BY_NORTH)
            for name, parts, wanted in (("one", [srlg(7)], BY_SOUTH), ("another", [srlg(10)], BY_NORTH),
                                        ("two", [srlg(7), srlg(9)], BY_DIRECT)):
                checks.same(f"by BGP-LS: {name}", client.ask(request(xro(*parts))), wanted)
            announced({(1, 2): (8,), (4, 2): (7,)})
            wait(lambda: "srlg,1,10.0.0.1,10.1.2.1,8" in open(path, encoding="ascii").read())
            checks.same("by BGP-LS: SRLGs that have changed", [client.ask(request(xro(srlg(group)))) for group in (7, 8, 9)],
                        [BY_SOUTH, BY_SOUTH, BY_NORTH])
        finally:
            feed.terminate()
            feed.communicate()
        checks.same("by BGP-LS: the feed ends, and its SRLGs stay", client.ask(request(xro(srlg(8)))), BY_SOUTH)
