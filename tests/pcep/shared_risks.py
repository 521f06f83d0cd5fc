"""Requests and LSPs that name SRLGs, and the file that says which links have them: no answer has a link of a named SRLG."""
import os
import random
import tempfile
import time

from pcep.excluded import BY_DIRECT, BY_NORTH, BY_SOUTH, NORTH_ERO, SOFT, SOUTH_ERO, SRLG, TO_DIRECT, TO_NORTH, TO_SOUTH, TRIANGLE
from pcep.excluded import prefix, srlg, words_of, xro
from pcep.played import Front, Pcc, ip, reply, rows, told
from pcep.sources import OTHERS, written

from routed.pcep import wire
from routed.pcep.network import Network
from routed.pcep.srlgs import Srlgs
from routed.pcep.wire import pack

RUN = "00aa"
UNAVAILABLE = ["NO-PATH 1"]
SECONDS = 1  # of a processor, in which a request is answered


def line(a, b, *groups, version=1):
    """The line of the link from a to b."""
    return f"srlg,{version},10.0.0.{a},10.{min(a, b)}.{max(a, b)}.{a},{' '.join(map(str, groups))}"


GROUPS = [line(1, 2, 7), line(2, 4, 8, 0), line(4, 2, 8), line(1, 3, 9), line(3, 1, 9), line(3, 4, 9, 10), line(1, 4, 2**32 - 1)]


ALL = "10.1.2.1/32i 10.2.4.2/32i 10.1.3.1/32i 10.3.4.3/32i 10.1.4.1/32i"


class File:
    """A file of SRLGs, of the run of a front, and a PCC of that."""

    def __init__(self, room, lines=(), run=RUN, circuits=TRIANGLE, wanted=RUN, **options):
        self.path = os.path.join(tempfile.mkdtemp(dir=room), "srlgs")
        self.write(lines, run)
        self.front = Front(tempfile.mkdtemp(dir=room), srlgs=Srlgs(self.path), **options)
        self.front.srlgs.wanted = wanted
        self.front.publish(*rows(circuits))
        self.pcc = Pcc(self.front, is_sr=False)

    def write(self, lines, run=RUN):
        """Makes it anew, by a rename."""
        with open(f"{self.path}.new", "w", encoding="ascii") as file:
            file.write("".join(f"{text}\n" for text in ([f"run,{run}"] if run else []) + [*lines]))
        os.rename(f"{self.path}.new", self.path)

    def more(self, *lines, end="\n"):
        with open(self.path, "a", encoding="ascii") as file:
            file.write("\n".join(lines) + end)

    def ask(self, *parts, must=True, **more):
        self.front.asked.clear()
        return self.pcc.ask(xro(*parts, must=must), **more)

    def excluded(self):
        """The field EXCEPT of each row that was asked; empty of an `ask` row."""
        return [row.rpartition(",")[2] for row in self.front.asked]

    def said(self, text):
        return sum(text in each for each in self.front.said)


def shared(name):
    """A prefix whose links' SRLGs are meant."""
    address, _, bits = name.partition("/")
    return prefix(address, int(bits or 32), SRLG)


def named(checks, room):
    """Which links are excluded for each subobject."""
    file = File(room, GROUPS)
    for name, wanted, row, parts in [
            ("one direction of a circuit", BY_SOUTH, "10.1.2.1/32i", [srlg(7)]),
            ("both directions", BY_SOUTH, "10.2.4.2/32i", [srlg(8)]),
            ("number 0", BY_SOUTH, "10.2.4.2/32i", [srlg(0)]),
            ("two circuits", BY_NORTH, "10.1.3.1/32i 10.3.4.3/32i", [srlg(9)]),
            ("the greatest number", BY_NORTH, "10.1.4.1/32i", [srlg(2**32 - 1)]),
            ("an attribute, which doesn't count", BY_SOUTH, "10.1.2.1/32i", [srlg(7, attribute=0)]),
            ("two SRLGs", BY_DIRECT, "10.1.2.1/32i 10.1.3.1/32i 10.3.4.3/32i", [srlg(7), srlg(9)]),
            ("two SRLGs that share a circuit", BY_NORTH, "10.1.3.1/32i 10.3.4.3/32i", [srlg(9), srlg(10)]),
            ("an SRLG and a circuit", BY_DIRECT, "10.1.3.3/32i 10.1.2.1/32i", [srlg(7), prefix("10.1.3.3")]),
            ("all circuits", "NO-PATH 0", ALL, [srlg(7), srlg(8), srlg(9), srlg(2**32 - 1)]),
            ("no link", BY_NORTH, "", [srlg(99)]),
            ("an interface", BY_SOUTH, "10.1.2.1/32i", [shared("10.1.2.1")]),
            ("the interface at the other end", BY_SOUTH, "10.1.2.1/32i", [shared("10.1.2.2")]),
            ("an interface that has two", BY_SOUTH, "10.2.4.2/32i", [shared("10.2.4.2")]),
            ("a circuit that shares one of two", BY_NORTH, "10.1.3.1/32i 10.3.4.3/32i", [shared("10.3.4.4")]),
            ("a prefix of one circuit", BY_NORTH, "10.1.3.1/32i 10.3.4.3/32i", [shared("10.1.3.0/30")]),
            ("a prefix of one circuit, wide", BY_NORTH, "10.1.3.1/32i 10.3.4.3/32i", [shared("10.3.0.0/16")]),
            ("a prefix of Router IDs, wide", "NO-PATH 0", ALL, [shared("10.0.0.0/16")]),
            ("a prefix of none, wide", BY_NORTH, "", [shared("192.0.0.0/8")]),
            ("a prefix of two circuits", BY_DIRECT, "10.1.2.1/32i 10.1.3.1/32i 10.3.4.3/32i", [shared("10.1.2.0/23")]),
            ("a Router ID", BY_NORTH, "10.1.3.1/32i 10.3.4.3/32i", [shared("10.0.0.3")]),
            ("an interface without any", BY_NORTH, "", [shared("10.5.6.5")])]:
        checks.same(f"SRLGs of {name}", file.ask(*parts), [wanted])
        checks.same(f"SRLGs of {name}: one row", [sorted(row.split(" ")) for row in file.excluded()], [sorted(row.split(" "))])
        checks.same(f"SRLGs of {name}, without P", file.ask(*parts, must=False), [wanted])
    for name, wanted, asks, parts in [
            ("there is another path", BY_SOUTH, 1, [srlg(7, **SOFT)]), ("there is none", BY_NORTH, 2, [srlg(number, **SOFT) for number in
                                                                                                    (7, 9, 2**32 - 1)]),
            ("one must be excluded", BY_SOUTH, 2, [srlg(7), srlg(9, **SOFT), srlg(2**32 - 1, **SOFT)])]:
        checks.same(f"SRLGs that should be excluded: {name}", (file.ask(*parts), len(file.front.asked)), ([wanted], asks))
    checks.same("SRLGs: an unknown source", file.ask(srlg(7), ends=pack(4, ip(9) + ip(4), must=True)), ["NO-PATH 4"])
    checks.same("links that aren't in the network are in no row",
                (file.front.publish("drop,10.0.0.1,10.1.3.1"), file.ask(srlg(9)), file.excluded())[1:],
                ([BY_NORTH], ["10.1.3.1/32i 10.3.4.3/32i"]))
    file.front.publish("drop,10.0.0.3,10.1.3.3")
    checks.same("not even for their other direction", (file.ask(srlg(9)), file.excluded()), ([BY_NORTH], ["10.3.4.3/32i"]))


def versions(checks, room):
    """A line counts from its version on, and an answer at a version by the lines of that version."""
    file = File(room, [line(1, 2, 7), line(1, 2, version=3), line(1, 3, 7, version=4), line(1, 2, 7, version=5)])
    found = []
    for _ in range(5):
        found.append((file.ask(srlg(7))[0], file.excluded()))
        file.front.publish(*rows([(5, 6, 1)]))
    checks.same("lines of later versions don't count yet", found,
                [(BY_SOUTH, ["10.1.2.1/32i"])] * 2 + [(BY_NORTH, [""]), (BY_NORTH, ["10.1.3.1/32i"]),
                                                      (BY_DIRECT, ["10.1.2.1/32i 10.1.3.1/32i"])])
    for name, before, after, wanted in [("a link that comes", (), (7,), BY_SOUTH), ("a link that goes", (7,), (), BY_NORTH)]:
        file = File(room, [line(1, 2, *before)])
        file.front.held = []
        file.ask(srlg(7))
        file.more(line(1, 2, *after, version=2))
        file.front.publish(*rows([(5, 6, 1)]))
        call, asked = file.front.held[0][0], file.front.asked[0]
        file.front.held = None
        call(reply(file.front.reference, file.front.version, asked))
        checks.same(f"{name} while it is asked: it is asked again", (len(file.front.asked), [told(*one) for one in file.pcc.messages()]),
                    (2, [wanted]))
    file = File(room, [line(1, 2, 7), line(1, 3, 7)])
    file.front.held = []
    file.ask(srlg(7))
    file.more(*(line(1, 2, group) for group in range(100, 108)), line(1, 2, 7))  # it comes behind the other circuit now
    (call, text), = file.front.held
    file.front.held = None
    call(text)
    checks.same("the same links in another order", (len(file.front.asked), [told(*one) for one in file.pcc.messages()]), (1, [BY_DIRECT]))
    changing(checks, room)
    older(checks, room)


def changing(checks, room):
    """Links that change their SRLGs whenever it is asked for them."""
    class Changing(Front):
        def ask(self, row, call, owner=None):
            self.left, self.groups = self.left - 1, [] if self.groups else [7]
            if self.left >= 0:
                self.file.more(line(1, 2, *self.groups, version=self.version + 1))
                self.publish(*rows([(5, 6, 1)]))
            super().ask(row, call, owner)

    for left, wanted in ((3, BY_NORTH), (4, "NO-PATH 1"), (99, "NO-PATH 1")):
        file = File(room, [line(1, 2, 7)])
        file.front.__class__, file.front.file, file.front.left, file.front.groups = Changing, file, left, [7]
        found = file.ask(srlg(7))
        checks.same(f"SRLGs that change at each ask, {left} times", (found, len(file.front.asked)), ([wanted], 4))
        checks.same(f"SRLGs that change at each ask, {left} times: said", file.said("have changed whenever it was asked"), int(left > 3))
        file.front.left = 0
        checks.same(f"SRLGs that change at each ask, {left} times: the next request", file.ask(srlg(9)), [BY_NORTH])
    file = File(room, [line(1, 2, 7)])
    file.pcc.report(ero=NORTH_ERO, more=[xro(srlg(7))])
    file.front.__class__, file.front.file, file.front.left, file.front.groups = Changing, file, 99, [7]
    checks.same("SRLGs of an LSP that change at each ask", file.pcc.report(0, 0), [])
    checks.same("are said", file.said("has no route: the links of its SRLGs have changed"), 1)
    file.front.left = 0
    checks.same("and it is asked for again a second later", file.front.go_on(1, file.pcc), [TO_SOUTH])


def older(checks, room):
    """An answer of a version that the network has left, and one whose lines aren't kept any more."""
    file = File(room, [line(1, 2, 7)])
    file.front.held = []
    file.ask(srlg(7))
    (call, text), = file.front.held
    file.front.held = None
    file.front.publish(*rows([(5, 6, 1)]))
    file.front.network.reach(2)
    file.front.asked.clear()
    call(text)
    checks.same("an answer of an older version than the network's is asked for again",
                (len(file.front.asked), [told(*one) for one in file.pcc.messages()]), (1, [BY_SOUTH]))
    file = File(room, [line(1, 2, version=version) for version in range(2, 11)] + [line(1, 3, 7)])
    checks.same("lines that aren't kept any more", file.ask(srlg(7)), UNAVAILABLE)
    checks.same("are said", file.said("its SRLGs of version 1 aren't known any more"), 1)
    for _ in range(3):
        file.front.publish(*rows([(5, 6, 1)]))
    checks.same("but those of later versions count", file.ask(srlg(7)), [BY_NORTH])


BAD = [("of a link without its fields", "srlg,1,10.0.0.1"), ("of another kind", "sid,1,10.0.0.1,10.1.2.1,17"),
       ("of an address with a zero in front", "srlg,1,10.0.0.01,10.1.2.1,7"), ("of an address above 255", "srlg,1,10.0.0.256,10.1.2.1,7"),
       ("of a group that is no number", "srlg,1,10.0.0.1,10.1.2.1,seven"), ("of a group of 2^32", f"srlg,1,10.0.0.1,10.1.2.1,{2**32}"),
       ("of a group of many digits", f"srlg,1,10.0.0.1,10.1.2.1,{'1' * 5000}"), ("of a version of many digits", f"srlg,{'1' * 9},10.0.0.1,"
                                                                                "10.1.2.1,7"),
       ("of two spaces", "srlg,1,10.0.0.1,10.1.2.1,7  8"), ("of a space at the end", "srlg,1,10.0.0.1,10.1.2.1,7 "),
       ("of commas", "srlg,1,10.0.0.1,10.1.2.1,7,8"), ("of a carriage return", "srlg,1,10.0.0.1,10.1.2.1,7\r"),
       ("of a space in front", " srlg,1,10.0.0.1,10.1.2.1,7"), ("of bytes", "\udcff\udcfe")]


def files(checks, room):
    """Files that are of no use: a request that names SRLGs is unavailable, and others are answered."""
    def judge(name, file, why):
        checks.same(f"a file of SRLGs {name}: a request", (file.ask(srlg(7)), file.front.asked), (UNAVAILABLE, []))
        checks.same(f"a file of SRLGs {name}: said", file.said(f"{file.path}: {why}"), 1)
        checks.same(f"a file of SRLGs {name}: a request that names none", file.ask(prefix("10.1.3.1")), [BY_NORTH])
        file.pcc.report(ero=NORTH_ERO, more=[xro(srlg(7))])
        checks.same(f"a file of SRLGs {name}: an LSP stays", (file.pcc.report(0, 0), "has no route: " in file.front.said[-1]), ([], True))
        file.write([line(1, 2, 7)])
        file.front.srlgs.wanted = RUN
        checks.same(f"a file of SRLGs {name}: it is replaced", file.ask(srlg(7)), [BY_SOUTH])
        checks.same(f"a file of SRLGs {name}: the replaced one is news, once", (file.front.srlgs.has_news(), file.front.srlgs.has_news()),
                    (True, False))
        checks.same(f"a file of SRLGs {name}: the LSP is moved", file.pcc.again(), [TO_SOUTH])

    for name, text in BAD:
        file = File(room, [line(1, 2, 7)])
        with open(file.path, "ab") as appended:
            appended.write(text.encode(errors="surrogateescape") + b"\n" + line(1, 3, 9).encode() + b"\n")
        judge(f"with a line {name}", file, "line 3 can't be read")
    file = File(room, [line(1, 2, 7)])
    file.more(line(1, 3, 7), end="")
    judge("that is cut in a line", file, "its last line has no end")
    file = File(room, [line(1, 2, 7)])
    os.unlink(file.path)
    judge("that isn't there", file, "it isn't there")
    file = File(room, [line(1, 2, 7)])
    file.ask(srlg(7))
    os.unlink(file.path)
    judge("that has gone", file, "it isn't there")
    for name, run, wanted, version in [("of another run", "00bb", RUN, 1), ("of a run, and a server that names none", RUN, None, 1),
                                       ("of another run, with lines of version 0", "00bb", RUN, 0),
                                       ("without a run, with lines of versions", None, RUN, 1)]:
        judge(name, File(room, [line(1, 2, 7, version=version)], run, wanted=wanted), "its SRLGs aren't of this run of the server")
    file = File(room, [line(1, 2, 7)])
    file.more(line(1, 3, 7), end="")
    checks.same("a line that gets its end", (file.ask(srlg(7)), (file.more("", ""), file.ask(srlg(7)))[1]), (UNAVAILABLE, [BY_DIRECT]))
    file = File(room, [line(1, 2, 7)])
    file.front.srlgs.wanted = "00bb"
    checks.same("the server begins again: its SRLGs aren't known", file.ask(srlg(7)), UNAVAILABLE)
    file.write([line(1, 3, 7)], "00bb")
    checks.same("until the file is of its run", file.ask(srlg(7)), [BY_NORTH])
    by_hand(checks, room)
    journals(checks, room)


def by_hand(checks, room):
    """A file that a planner writes: without a run, of version 0, and changed in its place."""
    text = ["# the ducts", "", line(1, 2, 7, version=0)]
    for run in (RUN, None, "00bb"):
        file = File(room, text, None, wanted=run)
        checks.same(f"a file by hand, and a server of the run {run}", file.ask(srlg(7)), [BY_SOUTH])
    file = File(room, text, None)
    checks.same("a file by hand", file.ask(srlg(7)), [BY_SOUTH])
    for name, lines, wanted in [("a line more at its front, as long as the last", [line(1, 3, 7, version=0), *text[2:]], BY_DIRECT),
                                ("another number, of as many bytes", [line(1, 3, 8, version=0), *text[2:]], BY_SOUTH),
                                ("a line less", text[:2], BY_NORTH)]:
        with open(file.path, "w", encoding="ascii") as changed:
            changed.write("".join(f"{each}\n" for each in lines))
        os.utime(file.path, ns=(1, len(name)))
        checks.same(f"a file by hand that is changed in its place: {name}", file.ask(srlg(7)), [wanted])
        checks.same(f"a file by hand that is changed in its place: {name}: news", file.front.srlgs.has_news(), True)
    checks.same("and not again", (file.ask(srlg(7)), file.front.srlgs.has_news()), ([BY_NORTH], False))


def journals(checks, room):
    """With a journal that isn't the server's, it isn't known which circuits are meant."""
    for name, changes in OTHERS.items():
        file = File(room, [line(1, 2, 7)])
        file.front.network = Network(written(os.path.join(tempfile.mkdtemp(dir=room), "old"), changes), file.front.say)
        checks.same(f"a journal {name}: a request that names SRLGs", file.ask(srlg(7)), UNAVAILABLE)
        checks.same(f"a journal {name}: another request", file.ask(prefix("10.1.2.1")), [BY_SOUTH])
    file = File(room, [line(1, 2, 7), line(1, 3, 7), line(1, 4, 7)])
    file.front.network = Network(os.path.join(room, "nowhere"), file.front.say)
    checks.same("a journal that isn't there: a request that names SRLGs", file.ask(srlg(7)), UNAVAILABLE)
    file = File(room, [line(1, 2, 7), line(1, 3, 7), line(1, 4, 7)])
    checks.same("no path, and a journal that is the server's", file.ask(srlg(7)), ["NO-PATH 0"])


def lsps_at_risk(checks, room):
    """LSPs that name SRLGs."""
    file = File(room, [line(1, 2, 7)])
    more = [xro(srlg(7), must=False)]
    file.pcc.report(ero=NORTH_ERO, more=more)
    checks.same("an LSP that names an SRLG", file.pcc.report(0, 0), [TO_SOUTH])
    file.pcc.report(ero=SOUTH_ERO, srp=file.pcc.session.lsps.srp, more=more)
    file.more(line(1, 3, 7))
    checks.same("a link gets it", (file.front.srlgs.has_news(), file.pcc.again()), (True, [TO_DIRECT]))
    file.pcc.report(ero=wire.addresses_ero(["10.1.4.4"])[4:], srp=file.pcc.session.lsps.srp, more=more)
    file.more(line(1, 2))
    checks.same("another one loses it", file.pcc.again(), [TO_NORTH])
    many = [(1, at, 9) for at in range(10, 75)]
    for count, wanted in ((64, [TO_SOUTH]), (65, [f"{TO_NORTH} returned"])):
        file = File(room, [line(1, 3, 9)], circuits=TRIANGLE + many)
        file.pcc.report(ero=NORTH_ERO, more=more)
        file.pcc.report(0, 0)
        file.more(*(line(1, at, 7) for at in range(10, 9 + count)), line(1, 2, 7))
        checks.same(f"an LSP whose SRLG has more than 64 circuits, or not: {count}", file.pcc.again(), wanted)
        checks.same(f"an LSP whose SRLG has more than 64 circuits, or not: {count}: said", file.said("is given back to its PCC: 4/4"),
                    count - 64)


def large(checks, room):
    """SRLGs of many circuits."""
    many = [(1, at, 9) for at in range(10, 75)]
    file = File(room, [line(1, 2, 7), *(line(1, at, 5) for at in range(10, 74)), *(line(at, 1, 6) for at in range(10, 75))],
                circuits=TRIANGLE + many)
    checks.same("SRLGs of 64 circuits", (file.ask(srlg(5)), len(file.excluded()[0].split(" "))), ([BY_NORTH], 64))
    for name, parts in (("of one SRLG", [srlg(6)]), ("of two SRLGs", [srlg(5), srlg(7)]),
                        ("of an SRLG and a prefix", [srlg(5), prefix("192.0.2.1")]),
                        ("of an SRLG that should be excluded", [srlg(6, **SOFT)]), ("of the SRLGs of a router", [shared("10.0.0.1")])):
        for must in (True, False):
            file.front.said.clear()
            checks.same(f"SRLGs of 65 circuits: {name}, P {must:d}", (file.ask(*parts, must=must), file.front.asked), (["PCErr 4/4"], []))
            checks.same(f"SRLGs of 65 circuits: {name}, P {must:d}: said", file.said("more than 64 circuits and routers"), 1)
    checks.same("65 SRLGs of no circuit", file.ask(*map(srlg, range(100, 165))), ["PCErr 4/4"])
    for circuits, wanted in ((many, "PCErr 4/4"), (many[:60], BY_NORTH)):
        file = File(room, [f"srlg,1,10.{9 + at // 250}.{at % 250}.{end},10.{at // 250 + 60}.{at % 250}.{end},5" for at in range(10_000)
                           for end in (1, 2)] + [line(1, at, 5) for at in range(10, 75)], circuits=TRIANGLE + circuits)
        file.ask(srlg(5))  # which reads the file
        for name, part in (("by its number", srlg(5)), ("by an interface", shared("10.1.10.1")),
                           ("by all interfaces", shared("0.0.0.0/0"))):
            began = time.process_time()
            checks.same(f"an SRLG of 10,000 circuits {name}, {len(circuits)} of them in the network", file.ask(part), [wanted])
            took = time.process_time() - began
            checks.true(f"an SRLG of 10,000 circuits {name}: the time", took < SECONDS, took)


def churned(checks, room):
    """What isn't kept of links takes no room."""
    file = File(room, [line(1, 2, group) for group in range(5000)])
    file.ask(srlg(4999))
    srlgs = file.front.srlgs
    checks.same("5,000 SRLGs of a link, one after the other", (len(srlgs.members), [*map(len, srlgs.links.values())]), (8, [8]))


def drawn_risks(checks, room):
    """Drawn SRLGs that change, and requests that name some: each path is the best one without the links that have them at its version."""
    draw, faults, outcomes, count = random.Random(5521), [], {}, 0
    circuits = [(a, b, draw.randrange(1, 6)) for a in range(1, 9) for b in range(a + 1, 9) if draw.random() < 0.5]
    links = [(a, b) for one, other, _ in circuits for a, b in ((one, other), (other, one))]
    file, having = File(room, circuits=circuits), {}
    for version in range(2, 62):
        for a, b in draw.sample(links, draw.choice((0, 1, 3, 9))):
            having[a, b] = {draw.randrange(6) for _ in range(draw.choice((0, 1, 1, 2)))}
            file.more(line(a, b, *sorted(having[a, b]), version=version))
        file.front.publish(*rows([draw.choice(circuits)]))
        for _ in range(10):
            here, there = draw.sample(range(1, 9), 2)
            hard, avoided = ({draw.randrange(6) for _ in range(draw.choice((0, 1, 2)))} for _ in range(2))
            found, = file.ask(*map(srlg, hard), *(srlg(group, **SOFT) for group in avoided), ends=pack(4, ip(here) + ip(there), must=True))
            names = [{f"10.{min(link)}.{max(link)}.{link[0]}/32i" for link, groups in having.items() if groups & groups_out}
                     for groups_out in (hard | avoided, hard)]
            wanted = words_of(file.front.reference, here, there, sorted(names[0]))
            if wanted == "NO-PATH 0" and avoided:
                wanted = words_of(file.front.reference, here, there, sorted(names[1]))
            outcomes[found.split()[0]] = outcomes.get(found.split()[0], 0) + 1
            if found != wanted or bad_links(found, here, having, hard):
                faults.append((version, here, there, hard, avoided, found, wanted))
            count += 1
    checks.same("no answer has a link of a named SRLG, and each is the best one", faults[:2], [])
    checks.true("drawn SRLGs: paths and none", min(outcomes.values()) > 50 and len(outcomes) == 2, outcomes)


def bad_links(words, here, having, groups):
    """The links of a path that have one of these groups, themselves or in their other direction."""
    at, found = here, []
    for far in words.split()[1:-2] if words.startswith("PCRep") else ():
        to = int(far.split(".")[3])
        found += [(at, to)] * bool((having.get((at, to), set()) | having.get((to, at), set())) & groups)
        at = to
    return found


def reopened(checks, room):
    """With --reopen a request that had no path is asked again without what should be excluded, by the SRLGs of each version."""
    file = File(room, [line(1, 2, 7), line(1, 3, 7), line(1, 4, 7)], reopen=True)
    checks.same("no path without an SRLG", file.ask(srlg(7)), ["NO-PATH 0"])
    checks.same("it is asked again, and has none", (file.pcc.again(), file.front.asked), ([], [file.front.asked[0]] * 2))
    file.write([line(1, 3, 7), line(1, 4, 7)], "00bb")
    checks.same("SRLGs of another run say nothing", (file.pcc.again(), file.pcc.is_ended), ([], False))
    file.write([line(1, 3, 7), line(1, 4, 7)])
    checks.same("once a circuit hasn't the SRLG any more the session is closed", (file.pcc.again(), file.pcc.is_ended), (["Close 1"], True))
    file = File(room, reopen=True)
    file.front.publish("drop,10.0.0.1,10.1.2.1", "drop,10.0.0.1,10.1.3.1", "drop,10.0.0.1,10.1.4.1")
    checks.same("no path at all", file.ask(prefix("10.1.2.1", **SOFT)), ["NO-PATH 0"])
    file.front.publish(*rows([(1, 2, 50)]))
    checks.same("a path by what should be excluded is one", (file.pcc.again(), file.pcc.is_ended), (["Close 1"], True))


RISKS = named, versions, files, lsps_at_risk, large, churned, drawn_risks, reopened
