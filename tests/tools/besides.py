"""Tests of routed-tools beside: the row for a second path, which shares no circuit and no SRLG with the first. Replies are those of the
reference."""
import os
import random
import subprocess
import tempfile

from checks import TOOLS
from pcep.played import reply
from program.serving import PATIENCE
from reference import formats
from tools.fronts import Connection, Front

from routed import Client, Request

FREE = ",".join(["1000"] * 8)
CIRCUITS = [(1, 2, 1), (2, 4, 1), (1, 3, 2), (3, 4, 2), (1, 5, 4), (5, 4, 4), (2, 3, 1)]
TOO_MANY = "beside: except count: 65 parts are to be excluded, and a row has room for 64\n"
ASK = "ask,7,10.0.0.1,10.0.0.4,7,10,0x00000000,0x00000000,0x00000000,"


def address(a, b, end):
    return f"10.{min(a, b)}.{max(a, b)}.{end}"


def rows_of(circuits):
    return [f"put,10.0.0.{a},{address(a, b, a)},10.0.0.{b},{address(a, b, b)},{cost},0x1,{FREE}"
            for one, other, cost in circuits for a, b in ((one, other), (other, one))]


def part(a, b):
    return f"{address(a, b, min(a, b))}/32i"


def line(a, b, *groups, version=1):
    return f"srlg,{version},10.0.0.{a},{address(a, b, a)},{' '.join(map(str, groups))}"


class Kept:
    """A folder with a journal of one batch, or of several, and what else a test writes."""

    def __init__(self, room, *batches, name="day.journal"):
        self.room, self.network = tempfile.mkdtemp(dir=room), formats.Network()
        self.version, self.journal = len(batches), self.file(name, *(
            text for number, rows in enumerate(batches, 1) for text in (*rows, f"end,{number},{len(rows)}")))
        for rows in batches:
            self.network = self.network.after([formats.row(row.split(",")) for row in rows])

    def file(self, name, *lines, end="\n"):
        path = os.path.join(self.room, name)
        with open(path, "w", encoding="ascii") as file:
            file.write("\n".join(lines) + (end if lines else ""))
        return path

    def reply(self, row):
        return reply(self.network, self.version, row)

    def ran(self, row, *words, text=None, journal=None):
        """What the tool makes of a row and its reply at standard input."""
        text = f"{row}\n{self.reply(row)}\n" if text is None else text
        ran = subprocess.run([TOOLS, "beside", "--journal", journal or self.journal, *words], input=text, capture_output=True, text=True,
                             timeout=PATIENCE)
        return ran.returncode, ran.stdout, ran.stderr

    def beside(self, row, *words):
        """The row that is written."""
        status, out, said = self.ran(row, *words)
        return out.removesuffix("\n") if (status, said) == (0, "") else (status, out, said)


def second(checks, room):
    """A second path, and a third one."""
    kept = Kept(room, rows_of(CIRCUITS))
    row = kept.beside(ASK)
    checks.same("a row beside a reply", row, f"{ASK.replace('ask', 'except', 1)},{part(1, 2)} {part(2, 4)}")
    checks.same("its answer takes another way", kept.reply(row).split(" ero=")[0], "except 7 v1 route cost=4 hops=2 again=no")
    third = kept.beside(row)
    checks.same("a third path", third, f"{row} {part(1, 3)} {part(3, 4)}")
    checks.same("its answer", kept.reply(third).split(" ero=")[0], "except 7 v1 route cost=8 hops=2 again=no")
    checks.same("a fourth isn't there", kept.reply(kept.beside(third)), "except 7 v1 none")
    asked = kept.file("asked", "ask 7: by names", ASK, kept.reply(ASK), "from  to")
    checks.same("the reply in a file, with other lines", kept.ran("", asked, text=""), (0, f"{row}\n", ""))
    checks.same("another id", kept.beside(ASK, "--id", "8"), row.replace("except,7", "except,8"))
    full = ASK.replace("7,10,0x00000000,0x00000000", "3,1000,0x00000008,0x00000001") + "10.0.0.2/32l"
    checks.same("the other fields stay", kept.beside(full), f"{full.replace('ask', 'except', 1)},{part(1, 2)} {part(2, 4)}")


def risks(checks, room):
    """With SRLGs all goes that shares one with a circuit of the route, by whichever of its directions."""
    kept = Kept(room, rows_of(CIRCUITS))
    whole = f"{ASK.replace('ask', 'except', 1)},{part(1, 2)} {part(2, 4)}"
    for name, lines, more in [("none", [], []), ("of another circuit", [line(1, 3, 7)], []),
                              ("shared", [line(1, 2, 7), line(1, 3, 7)], [(1, 3)]),
                              ("of the other direction of the route", [line(2, 1, 7), line(1, 3, 7)], [(1, 3)]),
                              ("of the other direction of another circuit", [line(1, 2, 7), line(3, 1, 7)], [(1, 3)]),
                              ("of both directions", [line(2, 4, 7), line(3, 4, 7), line(4, 3, 7)], [(3, 4)]),
                              ("several", [line(1, 2, 1, 2, 3), line(1, 3, 3, 4), line(3, 4, 4), line(1, 5, 2)], [(1, 5), (1, 3)]),
                              ("of a link that isn't there", [line(1, 2, 7), line(1, 9, 7)], []),
                              ("that is gone", [line(1, 2, 7), line(1, 3, 7), line(1, 3)], []),
                              ("of a later version", [line(1, 2, 7), line(1, 3, 7, version=2)], [])]:
        srlgs = kept.file("srlgs", *lines)
        found = kept.beside(ASK, "--srlgs", srlgs) if lines == [] else kept.beside(ASK, "--srlgs", kept.file("srlgs", "run,7", *lines))
        checks.same(f"SRLGs: {name}", sorted(str(found).split(" ")), sorted([*whole.split(" "), *(part(*link) for link in more)]))
    by_hand = kept.file("srlgs", "# ducts", "", line(1, 2, 7, version=0), line(1, 3, 7, version=0))
    checks.same("SRLGs that a planner wrote", kept.beside(ASK, "--srlgs", by_hand), f"{whole} {part(1, 3)}")
    numbered = Kept(room, rows_of(CIRCUITS), name="000007.journal")
    srlgs = numbered.file("srlgs", "run,7", line(1, 2, 7), line(1, 3, 7))
    checks.same("SRLGs of the journal's run", numbered.beside(ASK, "--srlgs", srlgs), f"{whole} {part(1, 3)}")
    for head in ("run,8", "run,70", "run,00ff", "# no run"):
        srlgs = numbered.file("srlgs", head, line(1, 2, 7))
        checks.same(f"SRLGs of another run than the journal's: {head}", numbered.ran(ASK, "--srlgs", srlgs),
                    (2, "", f"beside: {srlgs}: its SRLGs aren't of this run of the server\n"))
    drawn(checks, room)


def drawn(checks, room):
    """Drawn networks and SRLGs: the parts are those circuits and no others, and the second path shares nothing with the first."""
    draw, faults, count = random.Random(64), [], 0
    for _ in range(12):
        circuits = [(a, b, draw.randrange(1, 9)) for a in range(1, 10) for b in range(a + 1, 10) if draw.random() < 0.5]
        kept, having = Kept(room, rows_of(circuits)), {}
        for one, other, _ in circuits:
            for link in ((one, other), (other, one)):
                having[link] = {draw.randrange(12) for _ in range(draw.choice((0, 0, 1, 2)))}
        srlgs = kept.file("srlgs", "run,1", *(line(*link, *sorted(groups)) for link, groups in having.items() if groups))
        row = f"ask,1,10.0.0.{draw.randrange(1, 5)},10.0.0.{draw.randrange(5, 10)},7,0,0x00000000,0x00000000,0x00000000,"
        if " route " not in kept.reply(row):
            continue
        route = links_of(kept, row)
        groups = set().union(*(having[link] | having[link[::-1]] for link in route))
        wanted = {part(*link) for link in having if link in route or link[::-1] in route or having[link] & groups}
        found = kept.beside(row, "--srlgs", srlgs)
        parts = found.rpartition(",")[2].split(" ") if isinstance(found, str) else found
        if sorted(parts) != sorted(wanted):
            faults.append((row, found, wanted))
        elif " route " in kept.reply(found):
            count += 1
            second_route = links_of(kept, found)
            if any(link in route or link[::-1] in route or (having[link] | having[link[::-1]]) & groups for link in second_route):
                faults.append((row, found, second_route))
    checks.same("drawn SRLGs beside a reply", faults[:2], [])
    checks.true("drawn SRLGs: second paths", count > 2, count)


def links_of(kept, row):
    """The links of the reply's route, each by its routers."""
    at, found = int(row.split(",")[2].rpartition(".")[2]), []
    data = bytes.fromhex(kept.reply(row).partition(" ero=")[2])
    for far in (data[at + 5] for at in range(4, len(data), 8)):
        found.append((at, far))
        at = far
    return found


def limits(checks, room):
    """A row names at most 64 circuits."""
    chain = [(at, at + 1, 1) for at in range(1, 66)]
    for count in (64, 65):
        kept = Kept(room, rows_of(chain[:count]))
        row = f"ask,1,10.0.0.1,10.0.0.{count + 1},7,0,0x00000000,0x00000000,0x00000000,"
        found = kept.ran(row)
        wanted = (0, 64, "") if count == 64 else (2, 0, TOO_MANY)
        checks.same(f"a route of {count} circuits", (found[0], found[1].count("/32i"), found[2]), wanted)
    many = rows_of([*CIRCUITS, *((1, at, 9) for at in range(10, 75))])
    for count in (62, 63):
        kept = Kept(room, many)
        srlgs = kept.file("srlgs", "run,1", line(1, 2, 7), *(line(1, at, 7) for at in range(10, 10 + count)))
        found = kept.ran(ASK, "--srlgs", srlgs)
        wanted = (0, 64, "") if count == 62 else (2, 0, TOO_MANY)
        checks.same(f"an SRLG of {count + 1} circuits", (found[0], found[1].count("/32i"), found[2]), wanted)


def mistakes(checks, room):
    """What is refused, and what it says."""
    kept = Kept(room, rows_of(CIRCUITS))
    good, other = kept.reply(ASK), Kept(room, rows_of([(1, 4, 1)]))
    for name, text, status, why in [
            ("nothing", "", 2, "there is no `ask` row or `except` row in front of a reply line"),
            ("a reply line alone", good, 2, "there is no `ask` row or `except` row in front of a reply line"),
            ("a row alone", ASK, 2, "there is no reply line behind the row"),
            ("a row without its fields", f"ask,1\n{good}", 2, "'ask,1' is no row that `routed` takes"),
            ("a row with a word for a number", f"{ASK.replace(',10,', ',ten,')}\n{good}", 2, "is no row that `routed` takes"),
            ("the line of another request", f"{ASK}\n{good.replace('ask 7', 'ask 8')}", 2,
             "the reply line is of the request 8, and the row has the id 7"),
            ("a reply without a route", f"{ASK}\nask 7 v1 none", 2, "the reply has no route: none"),
            ("a version that isn't there", f"{ASK}\n{good.replace('v1', 'v2')}", 2, "there is no version 2, the last one is 1")]:
        found = kept.ran("", text=text)
        checks.same(f"beside {name}", (found[0], found[1], why in found[2], found[2].count("\n")), (status, "", True, 1))
    found = kept.ran(ASK, journal=other.journal)
    checks.true("another server's journal", found[:2] == (2, "") and "the route isn't in this network" in found[2], found)
    for name, lines, end, why in [("cut in a line", ["run,1", line(1, 2, 7)], "", "its last line has no end"),
                                  ("with a line that can't be read", ["run,1", line(1, 2, 7), "srlg,1,10.0.0.1"], "\n",
                                   "line 3 can't be read"),
                                  ("that has left the version", ["run,1", *(line(1, 2, version=at) for at in range(2, 12))], "\n",
                                   "its SRLGs of version 1 aren't known any more")]:
        srlgs = kept.file("srlgs", *lines, end=end)
        checks.same(f"a file of SRLGs {name}", kept.ran(ASK, "--srlgs", srlgs), (2, "", f"beside: {srlgs}: {why}\n"))
    nowhere = os.path.join(room, "nowhere")
    for name, words, status in [("SRLGs", ["--srlgs", nowhere], 2), ("a journal", ["--journal", nowhere], 1), ("a reply", [nowhere], 1)]:
        found = kept.ran(ASK, *words)
        checks.true(f"beside {name} that isn't there", found[:2] == (status, "") and nowhere in found[2] and "Traceback" not in found[2],
                    found)
    ran = subprocess.run([TOOLS, "beside"], input="", capture_output=True, text=True, timeout=PATIENCE)
    checks.true("beside without a network", ran.returncode == 2 and "--journal --show is required" in ran.stderr, ran)


def served(program, checks, room):
    """From the answer of a server to the answer of the second row."""
    show = os.path.join(room, "show")
    with Front(program, room, "--except", "--show", show, "--run", "7") as front:
        updates = Connection(front.updates)
        rows = rows_of(CIRCUITS)
        updates.talk("".join(f"{row}\n" for row in rows) + f"end,1,{len(rows)}\n")
        srlgs = Kept(room).file("srlgs", "run,7", line(1, 2, 7), line(1, 3, 7))
        command = ('"$0" ask "$1" 10.0.0.1 10.0.0.4 --show "$2" | "$0" beside --show "$2" --srlgs "$3" | "$0" connect "$1"')
        ran = subprocess.run(["sh", "-c", command, TOOLS, front.ask, show, srlgs], capture_output=True, text=True, timeout=PATIENCE)
        checks.same("ask, beside and connect", (ran.stdout.split(" ero=")[0], ran.stderr), ("except 1 v1 route cost=8 hops=2 again=no", ""))
        old = Kept(room).file("srlgs", "run,6", line(1, 2, 7))
        ran = subprocess.run(["sh", "-c", command, TOOLS, front.ask, show, old], capture_output=True, text=True, timeout=PATIENCE)
        checks.true("SRLGs of another run than that of the place", "its SRLGs aren't of this run of the server" in ran.stderr, ran)
        with Client(front.ask) as client:
            costs = [client.ask(Request(1, "10.0.0.1", "10.0.0.4", excluded=text)).cost for text in ("", "10.0.0.2/32r", "10.1.2.0/23i")]
        checks.same("the client for Python, with and without what is excluded", costs, [2, 4, 8])
        asked = subprocess.run([TOOLS, "ask", front.ask, "10.0.0.1", "10.0.0.4"], capture_output=True, text=True, timeout=PATIENCE).stdout
        updates.talk("drop,10.0.0.2,10.2.3.2\nend,2,1\n")
        ran = subprocess.run([TOOLS, "beside", "--show", show], input=asked, capture_output=True, text=True, timeout=PATIENCE)
        checks.same("the network has gone on", (ran.returncode, ran.stdout, ran.stderr),
                    (2, "", "beside: the network isn't at version 1 any more: ask again, or give --journal\n"))


def besides(program, checks):
    with tempfile.TemporaryDirectory() as room:
        checks.parts_in(room, (second, risks, limits, mistakes), checks)
        checks.parts_in(room, (served,), program, checks)
