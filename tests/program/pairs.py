"""Rows `pair`: by `solve` and by clients of `serve`, compared with tests/reference/pairs.py, which is itself compared with all pairs of
trails on small networks."""
import collections
import os
import random
import re
import tempfile
import threading
import time

from program import excepts
from program.built import ASK, CIRCUIT, FREE, MASKS, OPTIONS
from program.serving import AT, BATCHES, PATIENCE, ROUTERS, Serving, ask_on, batches_of, judged
from reference import changes, pairs as reference, runs
from reference.formats import Network, address_number, row
from reference.trails import by_trails
from reference.versions import Versions

KINDS = ("pair",)
BOTH_KINDS = ("except", "pair")
TRIED = int(os.environ.get("TRIED", 1000))  # networks on which all pairs of trails are tried
STREAM = 5000  # of them in one run
NETWORKS = 500  # of 20 rows each
FULL = 200  # rows at full size
CLIENTS = 6
FORMS = {"pair", "none", "unknown-from", "unknown-to", "each by", "each through"}
FORM = re.compile(r"pair \d+ v\d+ (pair|none|unknown-from|unknown-to|each by|each through)")


def pairs(program, checks):
    checks.parts((tried, by_hand, not_asked_for, drawn, full, served, counted, at_versions), program, checks)


# ---- the reference, compared with all pairs of trails


def small_rows(draw):
    """The rows of a network of up to six routers, with ties, parallel circuits, one-way links and marks. Some links have no bandwidth."""
    count, links = draw.randrange(2, 7), {}
    top, rows = draw.choice([0, 1, 1, 3]), []
    for near, far in changes.circuits(draw, links, count, 24, draw.randrange(1, 10), 0).items():
        free = ",".join([draw.choice(["0", "5", "5", "5", "5", "5"])] * 8)
        rows.append(changes.row_of(near, far, f"{draw.randrange(top + 1)},0x0,{free}"))
    return rows + changes.mark_rows(draw, count, draw.choice([0, 0, 1, 2])), count


def undone(rows):
    """The rows that take all of these away."""
    fields = [text.split(",") for text in rows]
    return [f"drop,{each[1]},{each[2]}" if each[0] == "put" else f"node,{each[1]},1" for each in fields]


def tried_on(draw, count):
    """Rows that load so many small networks, each in place of the one before, and ask for pairs of each kind in each; the lines of an
    answer that all pairs of trails give, None for a request with too many trails; and where the reference gives another."""
    asked, lines, faults, before, version = [], [], [], [], 0
    for number in range(count):
        rows, routers = small_rows(draw)
        for batch_rows in (undone(before), rows):
            if batch_rows:
                version += 1
                asked += [*batch_rows, f"end,{version},{len(batch_rows)}"]
                lines.append(f"version {version}")
        before, network = rows, Network().after([row(text.split(",")) for text in rows])
        head, tail = (f"10.0.0.{end}" for end in draw.sample(range(routers), 2))
        request = {"from": address_number(head), "to": address_number(tail), "setup": 0, "bandwidth": 5, "exclude_any": 0,
                   "include_any": 0, "include_all": 0}
        for kind in reference.KINDS if {request["from"], request["to"]} <= network.routers() else ():
            found, wanted = reference.outcome(network, request, kind), by_trails(network, request, kind)
            asked.append(f"pair,{number},{head},{tail},0,5,{MASKS},{kind}")
            words = reference.pair_text(*wanted) if isinstance(wanted, list) else wanted
            lines.append(words and f"pair {number} v{version} {words}")
            if wanted not in (None, found):
                faults.append((number, kind, found, wanted))
    return asked, lines, faults


def tried(program, checks):
    """The program and the reference find on small networks what trying all pairs of trails finds."""
    draw, met = random.Random(81), collections.Counter()
    for at in range(0, TRIED, STREAM):
        asked, lines, faults = tried_on(draw, min(STREAM, TRIED - at))
        status, found, told = program.run(["solve", "--pairs"], "".join(f"{text}\n" for text in asked))
        found = found.decode().splitlines()
        checks.same("the reference, compared with all pairs of trails", faults[:2], [])
        checks.same("the end of rows that are compared with all pairs of trails", (status, told, len(found)), (0, b"", len(lines)))
        other = [pair for pair in zip(found, lines) if pair[1] not in (None, pair[0])]
        checks.same("lines, compared with all pairs of trails", other[:2], [])
        forms_of("".join(f"{line}\n" for line in lines if line and not line.startswith("version")).encode(), met)
        met["too many trails"] += lines.count(None)
    checks.true("forms that were tried", all(met[form] > TRIED // 50 for form in FORMS - {"unknown-from", "unknown-to"}), met)
    print(f"pairs: {met.total() - met['too many trails']:,} requests in {TRIED:,} networks were compared with all pairs of trails")


# ---- rows by hand


def circuit(one, other, metric=1, place=0, attributes=f"0x1,{FREE}"):
    """Both rows of a circuit between the routers 1.1.1.1 and such, by their digits. `place` tells circuits between the same two apart."""
    near, far = (f"{end}.{end}.{end}.{end},10.{place}.{one}{other}.{end}" for end in (one, other))
    return f"put,{near},{far},{metric},{attributes}\nput,{far},{near},{metric},{attributes}\n"


def batch(*rows, marked=()):
    """The rows as one batch, which also marks these routers."""
    text = "".join([*rows, *(f"node,{end}.{end}.{end}.{end},0\n" for end in marked)])
    return f"{text}end,1,{text.count(chr(10))}\n"


def pair_row(kind, ends="14", rest=f"0,1000,{MASKS}", name=7):
    head, tail = (f"{end}.{end}.{end}.{end}" for end in ends)
    return f"pair,{name},{head},{tail},{rest},{kind}\n"


def pair(*ways):
    """What the line says of a pair: of each way its cost, and the remote address of each link."""
    cost, hops = sum(way[0] for way in ways), sum(len(way) - 1 for way in ways)
    parts = (f"cost{at}={way[0]} ero{at}={ero(way[1:])}" for at, way in enumerate(ways, 1))
    return f"pair cost={cost} hops={hops} {' '.join(parts)}"


def ero(addresses):
    parts = "".join(f"0108{address_number(address):08x}2000" for address in addresses)
    return f"{4 + len(parts) // 2:04x}1401{parts}"


MOST = 2 ** 32 - 1
# From 1 over 2 and 3 to 4 it costs 3, and beside that way there is none. Over 2 alone and over 3 alone it costs 5.
TRAP = (circuit(1, 2), circuit(2, 3), circuit(3, 4), circuit(1, 3, 4), circuit(2, 4, 4))
TRAP_PAIR = pair((5, "10.0.12.2", "10.0.24.4"), (5, "10.0.13.3", "10.0.34.4"))
TRAP_LINE = ("pair cost=10 hops=4 cost1=5 ero1=0014140101080a000c02200001080a0018042000 "
             "cost2=5 ero2=0014140101080a000d03200001080a0022042000")
SQUARE = (circuit(1, 2), circuit(2, 4), circuit(1, 3, 2), circuit(3, 4, 2))
SQUARE_PAIR = pair((2, "10.0.12.2", "10.0.24.4"), (4, "10.0.13.3", "10.0.34.4"))
TWINS = (circuit(1, 2), circuit(1, 2, 2, 1), circuit(2, 4), circuit(2, 4, 3, 1))  # two circuits to 2, and two from there
FIVE = [circuit(1, end, 0) + circuit(end, 4, 0) for end in (2, 3, 5, 6, 7)]
ONE_WAY = circuit(1, 3, 4).splitlines(keepends=True)[0]
OTHER_GROUP, NARROW = f"0x2,{FREE}", f"0x1,{','.join(['1000', '0', '0', '0', '0', '0', '0', '999'])}"
# What is asked, and what the line says of a pair by circuits and of one by routers.
WORKED = {
    "ways that the least way is in the way of": (batch(*TRAP), "14", TRAP_PAIR, TRAP_PAIR),
    "the other way round": (batch(*TRAP), "41", pair((5, "10.0.24.2", "10.0.12.1"), (5, "10.0.34.3", "10.0.13.1")),
                            pair((5, "10.0.24.2", "10.0.12.1"), (5, "10.0.34.3", "10.0.13.1"))),
    "marked ends": (batch(*TRAP, marked=(1, 4)), "14", TRAP_PAIR, TRAP_PAIR),
    "a marked router inside": (batch(*TRAP, marked=(2,)), "14", *["each by 1.1.1.1,10.0.13.1"] * 2),
    "only marked routers inside": (batch(*TRAP, marked=(2, 3)), "14", "none", "none"),
    "a marked router that no pair needs": (batch(*SQUARE, circuit(2, 5), circuit(5, 3), marked=(5,)), "14", SQUARE_PAIR, SQUARE_PAIR),
    "ways of different cost": (batch(*SQUARE), "14", SQUARE_PAIR, SQUARE_PAIR),
    "an unknown head-end": (batch(*SQUARE), "94", "unknown-from", "unknown-from"),
    "an unknown tail-end": (batch(*SQUARE), "19", "unknown-to", "unknown-to"),
    "unknown ends": (batch(*SQUARE), "89", "unknown-from", "unknown-from"),
    "a marked address that is no router": (batch(*SQUARE, marked=(9,)), "19", "unknown-to", "unknown-to"),
    "two circuits twice": (batch(*TWINS), "14", pair((2, "10.0.12.2", "10.0.24.4"), (5, "10.1.12.2", "10.1.24.4")),
                           "each through 2.2.2.2"),
    "both circuits between the ends": (batch(circuit(1, 4, 7), circuit(1, 4, 3, 1)), "14", *[pair((3, "10.1.14.4"), (7, "10.0.14.4"))] * 2),
    "three circuits between the ends": (batch(circuit(1, 4, MOST), circuit(1, 4, MOST, 1), circuit(1, 4, 0, 2)), "14",
                                        *[pair((0, "10.2.14.4"), (MOST, "10.0.14.4"))] * 2),
    "one circuit": (batch(circuit(1, 4)), "14", *["each by 1.1.1.1,10.0.14.1"] * 2),
    "one circuit, from its other end": (batch(circuit(1, 4)), "41", *["each by 4.4.4.4,10.0.14.4"] * 2),
    "two circuits in a row": (batch(circuit(1, 2), circuit(2, 4)), "14", *["each by 1.1.1.1,10.0.12.1"] * 2),
    "a bridge between two rings": (batch(circuit(1, 2), circuit(1, 2, 1, 1), circuit(2, 3), circuit(3, 4), circuit(3, 4, 1, 1)), "14",
                                   "each by 2.2.2.2,10.0.23.2", "each through 2.2.2.2"),
    "two routers in a row": (batch(circuit(1, 2), circuit(1, 2, 1, 1), circuit(2, 3), circuit(2, 3, 1, 1), circuit(3, 4),
                                   circuit(3, 4, 1, 1)), "14",
                             pair((3, "10.0.12.2", "10.0.23.3", "10.0.34.4"), (3, "10.1.12.2", "10.1.23.3", "10.1.34.4")),
                             "each through 2.2.2.2"),
    "a second way back to the head-end": (batch(circuit(1, 2), circuit(1, 2, 1, 1), circuit(1, 4)), "14",
                                          *["each by 1.1.1.1,10.0.14.1"] * 2),
    "a way past the tail-end": (batch(circuit(1, 4), circuit(4, 5), circuit(4, 5, 1, 1)), "14", *["each by 1.1.1.1,10.0.14.1"] * 2),
    "no way": (batch(circuit(1, 2), circuit(3, 4)), "14", "none", "none"),
    "a link one way only": (batch(circuit(1, 2), circuit(2, 4), ONE_WAY, circuit(3, 4)), "14", *["each by 1.1.1.1,10.0.12.1"] * 2),
    "links one way only": (batch(*(part.splitlines(keepends=True)[0] for part in SQUARE)), "14", "none", "none"),
    "metrics of 0": (batch(*(circuit(one, other, 0) for one, other in ((1, 2), (2, 4), (1, 3), (3, 4), (2, 3), (1, 4)))), "14",
                     *[pair((0, "10.0.14.4"), (0, "10.0.12.2", "10.0.24.4"))] * 2),
    "the greatest metrics": (batch(*(circuit(one, other, MOST) for one, other in ((1, 2), (2, 4), (1, 3), (3, 4), (2, 3)))), "14",
                             *[pair((2 * MOST, "10.0.12.2", "10.0.24.4"), (2 * MOST, "10.0.13.3", "10.0.34.4"))] * 2),
    "five equal ways": (batch(*FIVE), "14", *[pair((0, "10.0.12.2", "10.0.24.4"), (0, "10.0.13.3", "10.0.34.4"))] * 2),
    "five equal ways, without the first": (batch(*FIVE, marked=(2,)), "14",
                                           *[pair((0, "10.0.13.3", "10.0.34.4"), (0, "10.0.15.5", "10.0.54.4"))] * 2),
    "another group": (batch(*SQUARE[:2], circuit(1, 3, 2, 0, OTHER_GROUP), SQUARE[3]), "14", *["each by 1.1.1.1,10.0.12.1"] * 2),
    "too little bandwidth": (batch(*SQUARE[:3], circuit(3, 4, 2, 0, NARROW)), "14", SQUARE_PAIR, SQUARE_PAIR),
    "too little bandwidth, at the setup priority": (batch(*SQUARE[:3], circuit(3, 4, 2, 0, NARROW)), "14",
                                                    *["each by 1.1.1.1,10.0.12.1"] * 2),
}
REST = {"another group": f"0,1000,0x2,{MASKS[4:]}", "too little bandwidth, at the setup priority": f"7,1000,{MASKS}"}
# What stands in place of the fields 2 to 10, and the reason. What is given of a field isn't right by itself; so are all fields behind it.
BAD = ["x", "x", "x", "8", "x", "x", "x", "x", "x"]
REASONS = ["number 2", "address 3", "address 4", "priority", "number 6", "mask 7", "mask 8", "mask 9", "kind-of-pair"]
BAD_KINDS = ["", "Circuits", "ROUTERS", "circuit", "router", "circuitss", "circuits ", " routers", "circuits routers", "links", "0", "r",
             "10.0.12.1/32s", "ero:", "circuits\t", "\0", "\"circuits", "circuits\"", "\xe9", "routers" * 100_000]
GOOD_KINDS = ['"circuits"', '"routers"', '"cir"cuits', '""routers']
LINE = f"pair 7 v1 {TRAP_LINE}"


def refused_rows():
    """Rows, each with the reason for which it is refused."""
    good = pair_row("circuits").rstrip("\n").split(",")
    for at, reason in enumerate(REASONS, 1):
        yield ",".join([*good[:at], *BAD[at - 1:]]), reason
        yield ",".join([*good[:at], BAD[at - 1], *good[at + 1:]]), reason
    for field, value, reason in [(2, "18446744073709551616", "number 2"), (2, "07", "number 2"), (3, "1.1.1", "address 3"),
                                 (4, "256.1.1.1", "address 4"), (5, "4294967296", "number 5"), (5, "", "number 5"), (5, "9", "priority"),
                                 (6, "-1", "number 6"), (7, "0", "mask 7"), (8, "0x", "mask 8"), (9, "0x100000000", "mask 9")]:
        yield ",".join([*good[:field - 1], value, *good[field:]]), reason
    same = pair_row("circuits", "11").rstrip("\n")
    yield same, "same-ends"
    yield same.replace("circuits", "x"), "same-ends"
    for kind in BAD_KINDS:
        yield pair_row(kind).rstrip("\n"), "kind-of-pair"
    for count in (1, 2, 9):
        yield ",".join(good[:count]), "fields"
    yield ",".join([*good, ""]), "fields"
    yield ",".join([*good[:9], "", "circuits"]), "fields"
    for word in ("Pair", "pairs", "pai", " pair", "pair "):
        yield ",".join([word, *good[1:]]), "kind"


def by_hand(program, checks):
    """Worked rows and refused rows, by the program and by the reference."""
    checks.same("the words of a pair", TRAP_PAIR, TRAP_LINE)

    def says(name, rows, lines, kinds=KINDS):
        status = 2 if any(" refused: " in line for line in lines) else 0
        found = program.run(["solve", *(OPTIONS[kind] for kind in kinds)], rows.encode("latin-1"))
        checks.same(f"pairs: {name}", found, (status, "".join(f"{line}\n" for line in lines).encode(), b""))
        checks.same(f"pairs: {name}, by the reference", runs.solve(rows, kinds), (status, lines))

    for name, (rows, ends, *lines) in WORKED.items():
        asked = "".join(pair_row(kind, ends, REST.get(name, f"0,1000,{MASKS}")) for kind in reference.KINDS)
        says(name, rows + asked, ["version 1", *(f"pair 7 v1 {line}" for line in lines)])
    start = batch(*TRAP)
    for at, (text, reason) in enumerate(refused_rows()):
        says(f"row {at}, {text[:70]!r}", f"{start}{text}\n{pair_row('circuits')}",
             ["version 1", f"row 12 refused: {reason}", *([] if text.endswith(',"circuits') else [LINE])])
    for kind in GOOD_KINDS:
        says(f"the kind {kind}", start + pair_row(kind), ["version 1", f"pair 7 v1 {TRAP_PAIR}"])
    says("before a batch", pair_row("circuits") + start, ["pair 7 v0 unknown-from", "version 1"])
    after = pair((1, "10.0.14.4"), (3, "10.0.12.2", "10.0.23.3", "10.0.34.4"))
    says("over open changes", start + circuit(1, 4) + pair_row("routers") + "end,2,2\n" + pair_row("routers"),
         ["version 1", f"pair 7 v1 {TRAP_PAIR}", "version 2", f"pair 7 v2 {after}"])
    says("the greatest id", start + pair_row("routers", name=2 ** 64 - 1), ["version 1", f"pair {2 ** 64 - 1} v1 {TRAP_PAIR}"])
    row_of_except = f"except,7,1.1.1.1,4.4.4.4,0,1000,{MASKS},,10.0.24.0/24i\n"
    both = start + pair_row("circuits") + row_of_except + ASK.replace("2.2.2.2", "4.4.4.4") + pair_row("x")
    route = f"route cost=3 hops=3 again=no ero={ero(('10.0.12.2', '10.0.23.3', '10.0.34.4'))}"
    pair_line, except_line, ask_line = f"pair 7 v1 {TRAP_PAIR}", f"except 7 v1 {route}", f"ask 7 v1 {route}"
    for kinds, lines in {BOTH_KINDS: [pair_line, except_line, ask_line, "row 15 refused: kind-of-pair"],
                         ("pair",): [pair_line, "row 13 refused: kind", ask_line, "row 15 refused: kind-of-pair"],
                         ("except",): ["row 12 refused: kind", except_line, ask_line, "row 15 refused: kind"],
                         (): ["row 12 refused: kind", "row 13 refused: kind", ask_line, "row 15 refused: kind"]}.items():
        says(f"options of {kinds}", both, ["version 1", *lines], kinds)
    checks.same("pairs: both options, in the other order", program.run(["solve", "--pairs", "--except"], both),
                program.run(["solve", "--except", "--pairs"], both))


def not_asked_for(program, checks):
    """Without --pairs a row is refused by `kind`, whatever is in it, and all other lines are the same."""
    for words in ([], ["--except"]):
        for text, _ in [(pair_row(kind).rstrip("\n"), "") for kind in reference.KINDS] + list(refused_rows()):
            if '"' not in text:
                checks.same(f"pairs: {text[:70]!r}, not asked for, {words}",
                            program.run(["solve", *words], f"{CIRCUIT}{text}\n{ASK}".encode("latin-1")),
                            (2, f"version 1\nrow 4 refused: kind\n{excepts.ASK_LINE}".encode(), b""))
    refused = (2, b"request row 1 refused: kind\n", b"")
    checks.same("pairs: a request of batch", program.batch(batch(*TRAP), pair_row("circuits")), refused)
    checks.same("pairs: a row of a book", program.run(["book"], batch(*TRAP) + pair_row("circuits")),
                (2, b"base 1 v1\nrow 12 refused: kind\n", b""))
    for command in ("batch", "live", "book", "snapshot"):
        status, lines, told = program.run([command, "--pairs"])
        checks.true(f"{command} has no option --pairs", (status, lines) == (1, b"") and b"--pairs" in told, (status, lines, told))


# ---- rows of clients


def served(program, checks):
    """A client of `serve` asks rows by hand, and is told each line before it sends the next row."""
    asked = [(pair_row(kind), f"pair 7 v1 {TRAP_PAIR}") for kind in [*reference.KINDS]]
    asked += [(f"{text}\n", f"refused: {reason}") for text, reason in refused_rows() if '"' not in text]
    asked += [(pair_row("routers", "49"), "pair 7 v1 unknown-to"), (pair_row("circuits", "94"), "pair 7 v1 unknown-from")]
    for words in (["--pairs"], ["--except", "--pairs"], ["--except"], []):
        with tempfile.TemporaryDirectory() as room, Serving(program, room, 2, *words) as run:
            checks.same(f"pairs before a batch, served with {words}", run.talk(1, pair_row("circuits")),
                        "pair 7 v0 unknown-from\n" if "--pairs" in words else "row 1 refused: kind\n")
            checks.same(f"a batch, served with {words}", run.talk(0, batch(*TRAP)), "version 1\n")
            checks.same(f"a pair row among updates, served with {words}", run.talk(0, pair_row("circuits")),
                        "row 12 refused: kind\n")
            for at, (text, line) in enumerate(asked, 2):
                line = line if "--pairs" in words else "refused: kind"
                checks.same(f"pairs: {text[:70]!r}, served with {words}", run.talk(1, text),
                            f"{f'row {at} ' if line.startswith('refused') else ''}{line}\n")
            row_of_except = f"except,7,1.1.1.1,4.4.4.4,0,1000,{MASKS},,10.0.24.0/24i\n"
            checks.true(f"the other kind, served with {words}", run.talk(2, row_of_except).startswith("except 7 v1 route ")
                        if "--except" in words else run.talk(2, row_of_except) == "row 1 refused: kind\n")
            checks.same(f"the end, served with {words}", run.end(), (["", "", ""], 2, ""))


def counted(program, checks):
    """The figures of a server count a pair as a route, and a circuit or a router that each way has as no route."""
    rows = [pair_row("circuits"), pair_row("routers"), pair_row("circuits", "56"), pair_row("routers", "15"), pair_row("circuits", "94"),
            pair_row("routers", "19"), pair_row("x")]
    with tempfile.TemporaryDirectory() as room:
        figures = os.path.join(room, "figures")
        with Serving(program, room, 1, "--pairs", "--figures", figures) as run:
            checks.same("a batch before figures of pairs", run.talk(0, batch(*TWINS, circuit(5, 6))), "version 1\n")
            said = [FORM.match(run.talk(1, text)) for text in rows]
            checks.same("lines before figures of pairs", [found and found[1] for found in said],
                        ["pair", "each through", "each by", "none", "unknown-from", "unknown-to", None])
            run.end()
        with open(figures, encoding="ascii") as file:
            seat = re.sub(" +", " ", file.read()).splitlines()[1]
        wanted = "seat 1 sessions 1 open 0 rows 7 route 1 none 3 unknown-from 1 unknown-to 1 refused 1 version 1"
        checks.same("figures of pairs", seat.strip(), wanted)


class Answers(Versions):
    """The lines of rows of every kind that asks, at each version."""

    def at(self, network, version):
        rows = (runs.row_or_question(text.split(","), BOTH_KINDS) for text in self.asks)
        return [runs.QUESTIONS[kind].answer(network, version, content) if kind in BOTH_KINDS else network.answer(version, content)
                for kind, content in rows]


def at_versions(program, checks):
    """Clients ask for pairs, and for routes, while batches are published. Each line is right at the version that it names."""
    draw, told, done, found = random.Random(83), [0], threading.Event(), [[] for _ in range(CLIENTS)]
    asks = []
    for at in range(4 * ROUTERS):
        request = request_of(draw, ROUTERS)
        asks.append({0: f"ask,{at},{request},", 1: f"except,{at},{request},,{excepts.field_of(draw, ROUTERS)}"}.get(
            at % 4, f"pair,{at},{request},{reference.KINDS[at % 2]}"))
    versions = Answers(changes.updates(draw, BATCHES, ROUTERS), asks)
    with tempfile.TemporaryDirectory() as room, Serving(program, room, CLIENTS, "--except", "--pairs") as run:
        threads = [threading.Thread(target=ask_on, args=(run, at + 1, versions, told, done, found[at]), daemon=True)
                   for at in range(CLIENTS)]
        for thread in threads:
            thread.start()
        for number, text in enumerate(batches_of(versions), 1):
            checks.same(f"batch {number} beside pairs", run.talk(0, text), f"version {number}\n")
            told[0] = number
            time.sleep(0.01)
        done.set()
        for thread in threads:
            thread.join(PATIENCE)
        met = collections.Counter()
        for number, lines in enumerate(found, 1):
            judged(checks, f"pairs for client {number} of {CLIENTS}", versions, lines, BATCHES)
            forms_of("".join(line for _, line in lines).encode(), met)
        named = {AT.match(line)[1] for lines in found for _, line in lines if AT.match(line)}
        checks.true("pairs at many versions", len(named) > BATCHES // 4 and met["pair"] > CLIENTS, (sorted(named, key=int), met))
        checks.same("the end beside pairs", run.end(), ([""] * (CLIENTS + 1), 0, ""))
        checks.same("the journal beside pairs", run.kept(), versions.texts[-1])


# ---- rows that are drawn


def request_of(draw, count):
    """The fields 3 to 9 of a row between two of these routers, or one that may not be there."""
    ends = draw.sample(range(count + 1), 2) if draw.random() < 0.3 else draw.sample(range(count), 2)
    masks = ",".join(draw.choice(["0x0", "0x0", "0x1"]) for _ in range(3)) if draw.random() < 0.2 else MASKS
    return f"{','.join(f'10.0.0.{end}' for end in ends)},{draw.randrange(8)},{draw.choice([0, 0, 5])},{masks}"


def drawn_rows(draw, seed):
    """Two batches of a small network, and behind each 10 `pair` rows, 5 of each kind. Every fourth network has `except` and `ask` rows,
    too."""
    count, links, rows, top = draw.randrange(3, 10), {}, [], draw.choice([0, 1, 3])
    for version in (1, 2):
        batch_rows = []
        for near, far in changes.circuits(draw, links, count, 24, draw.randrange(1, 3 * count), draw.randrange(3)).items():
            free = ",".join(str(draw.choice([0, 5, 5, 10, 10])) for _ in range(8))
            batch_rows.append(changes.row_of(near, far, f"{draw.randrange(top + 1)},0x{draw.randrange(8):x},{free}"))
        if seed % 3 == 2:
            changes.mixed(draw, batch_rows, changes.mark_rows(draw, count, draw.randrange(1, 1 + count // 2)))
        rows += [*(f"{text}\n" for text in batch_rows), f"end,{version},{len(batch_rows)}\n"]
        for at in range(10 * version, 10 * version + 10):
            request = request_of(draw, count)
            rows.append(f"pair,{at},{request},{reference.KINDS[at % 2]}\n")
            if seed % 4 == 3:
                rows.append(f"except,{at + 50},{request},,{excepts.field_of(draw, count)}\n")
                rows.append(f"ask,{at + 80},{request},\n")
    return rows


def wanted_of(rows, kinds=BOTH_KINDS):
    """What the reference says of a run of `solve`."""
    status, lines = runs.solve("".join(rows), kinds)
    return status, "".join(f"{line}\n" for line in lines).encode(), b""


def forms_of(output, met):
    """Counts the forms of the lines."""
    for form in FORM.findall(output.decode()):
        met[form] += 1


def drawn(program, checks):
    """10,000 rows on small networks with ties, one-way links and marks."""
    met = collections.Counter()
    for seed in range(NETWORKS):
        rows = drawn_rows(random.Random(seed), seed)
        words = ["solve", "--pairs", *["--except"] * (seed % 4 == 3)]
        checks.stream(f"pair rows on drawn network {seed}", rows, lambda some: program.run(words, "".join(some)), wanted_of)
        forms_of(wanted_of(rows)[1], met)
    checks.same("drawn rows for pairs", met.total(), 20 * NETWORKS)
    checks.true("forms of the lines of drawn rows", all(met[form] > NETWORKS // 5 for form in FORMS), met)
    print(f"pairs: {met.total():,} rows on small networks: {', '.join(f'{count:,} {form}' for form, count in met.most_common())}")


def full_rows():
    """1,024 routers and 16,384 links with marks and one-way links, and 200 rows for pairs of both kinds."""
    rows = [text for text in excepts.full_rows() if not text.startswith("except,")]
    draw, ends = random.Random(82), sorted({text.split(",")[1] for text in rows if text.startswith("put,")})
    for at in range(FULL):
        head, tail = draw.sample(ends, 2)
        rows.append(f"pair,{at},{head},{tail},0,1,{draw.choice(['0x0', '0x1'])},0x0,0x0,{reference.KINDS[at % 2]}\n")
    return rows


def full(program, checks):
    """200 rows at 1,024 routers and 16,384 links, with marks and one-way links."""
    rows, met = full_rows(), collections.Counter()
    wanted = wanted_of(rows)
    checks.same("pair rows at full size", program.run(["solve", "--pairs"], "".join(rows)), wanted)
    forms_of(wanted[1], met)
    checks.true("pairs at full size", met.total() == FULL and met["pair"] > FULL // 2, met)
