"""Tests of routed-tools sweep --book against tests/reference/swept_books.py and against `routed book`, and of --capacity, --names, --json
and --csv."""
import csv
import io
import json
import os
import random
import re
import subprocess
import tempfile

from checks import TOOLS, TOP
from program.drawn_books import ALL, USUAL, Drawn
from program.serving import PATIENCE
from reference import books, formats
from reference.formats import address_number, address_text
from reference.runs import publish, whole_batches
from reference.swept_books import cost, made_of, plain_book
from reference.sweeps import plain
from tools.drawn_sweeps import drawn
from tools.ring import A, AB, AD, ASKS, B, BC, BEFORE, C, CD, D, OF_CIRCUITS, RESTORED, RING, SWEEP, circuit, journal, link, wrapped

DRAWN, STEPS = 12, 60  # books, and the steps of each
MASKS = "0x0,0x0,0x0"


def swept(program, room, *words, **files):
    """Status, standard output and standard error of a sweep, where a word is the name of one of these files, whose text is given."""
    for name, text in files.items():
        with open(os.path.join(room, name), "w", encoding="utf-8", newline="") as file:
            file.write(text)
    around = {name: value for name, value in os.environ.items() if name != "ROUTED_NAMES"}
    ran = subprocess.run([*SWEEP, "--program", program, *words], cwd=room, capture_output=True, text=True, timeout=5 * PATIENCE, env=around)
    return ran.returncode, ran.stdout, ran.stderr


def text_of(name):
    with open(os.path.join(TOP, name), encoding="ascii") as file:
        return file.read()


def nsfnet_book():
    """The 40 tunnels of the example, on its first network."""
    return "".join([*text_of("examples/nsfnet.journal").splitlines(keepends=True)[:43],
                    *text_of("examples/nsfnet.book").splitlines(keepends=True)[:40]])


def accepted(rows):
    """The rows of a book that change it, place rows without a route, and rows that only look. Of the rows of a stream none is refused
    then."""
    kept = []
    for fields, (lines, text) in zip(formats.records(rows), books.steps(rows)[1]):
        if text or fields[0] in ("place", "offer", "show", "left") and "refused" not in lines[0]:
            kept.append(text or ",".join(fields) + "\n")
    return "".join(kept)


def drawn_book(seed):
    """Of each two books one has rows of all kinds."""
    book = Drawn(seed, ALL if seed % 2 else USUAL)
    for _ in range(STEPS):
        book.step()
    return accepted("".join(f"{row}\n" for row in book.rows))


def held_of(rows):
    """The ids of the tunnels of a book that are on the route of their held row."""
    return [str(it.request["id"]) for it in made_of(rows)[0].placements if "metric" not in it.route[0]]


def capacities_of(draw, links):
    """The lines of some links of a network in any order, by their keys, and their capacities."""
    some = draw.sample(sorted(links), draw.randrange(len(links) + 1))
    found = {key: min(2 ** 64 - 1, max(1, links[key]["free"][7]) + draw.choice([0, 1, 7, 50, 1000])) for key in some}
    return found, "".join(f"{address_text(key[0])} {address_text(key[1])} {capacity}B\n" for key, capacity in found.items())


def of_books(program, checks, room):
    """The example and drawn books, whole outputs with utilisation, by one job and by three."""
    draw, seen, restored = random.Random(5), "", 0
    cases = [("NSFNET", nsfnet_book(), fail, jobs) for fail, jobs in (("circuits", "1"), ("circuits", "3"), ("routers", "3"))]
    cases += [(f"book {seed}", drawn_book(seed), ("circuits", "routers", "pairs")[seed % 3], "2") for seed in range(DRAWN)]
    for name, rows, fail, jobs in cases:
        found, lines = capacities_of(draw, made_of(rows)[0].base.links)
        wanted = "".join(f"{line}\n" for line in plain_book(rows, fail, found))
        words = ["--book", "rows", "--fail", fail, "--jobs", jobs, "--capacity", "capacity"]
        checks.same(f"{name}, {fail}, {jobs} jobs", swept(program.path, room, *words, rows=rows, capacity=lines), (0, wanted, ""))
        seen += wanted
        restored += len(re.findall(rf"(?m)^scenario \d+ (?:lost|placed) tunnel (?:{'|'.join(held_of(rows)) or '-'}) ", wanted))
    checks.true("tunnels that were restored are placed again", restored > 20, restored)
    for words in ("before lost ", "before without ", "before full ", r"scenario \d+ placed ", r"scenario \d+ lost tunnel \d+ none ",
                  r"scenario \d+ full ", "more=-", "unknown-from", r"utilisation .* scenario "):
        checks.true(f"lines were seen with {words}", re.search(rf"(?m)^.*{words}", seen))


def by_the_program(program, checks, room):
    """Each scenario of a book is what `routed book` writes for the book's rows, the failure and the tunnels of the `lost` lines, the last
    one first; and each failure that it writes a `lost` line for is tried."""
    for name, rows in (("NSFNET", nsfnet_book()), *((f"book {seed}", drawn_book(seed)) for seed in (1, 2, 3))):
        base, _ = made_of(rows)
        first = program.run(["book"], rows.encode())[1].decode().splitlines()
        asked = zip((row for row in rows.splitlines() if row.startswith(("place,", "held,"))),
                    (line for line in first if line.startswith(("place ", "held "))))
        placed = {row.split(",")[1]: (",".join(["place", *row.split(",")[1:10]]), line) for row, line in asked
                  if line.startswith("held ") or " route " in line}
        costs = {str(it.request["id"]): cost(base.base, it) for it in base.placements}
        out = swept(program.path, room, "--book", "rows", rows=rows)[1].splitlines()
        tried = {tuple(line.split()[4:6]): line.split()[1] for line in out if re.match(r"scenario \d+ out ", line)}
        failing = [tuple(map(address_text, key)) for key in base.base.links]
        for key in failing:
            link_of = base.base.links[tuple(map(address_number, key))]
            far = address_text(link_of["to"]), address_text(link_of["remote"])
            back = base.base.links.get(tuple(map(address_number, far)))
            is_circuit = back is not None and (back["to"], back["remote"]) == tuple(map(address_number, key))
            drops = [key, far] if is_circuit else [key]
            if is_circuit and tuple(map(address_number, far)) < tuple(map(address_number, key)):
                continue
            failure = "".join(f"drop,{','.join(it)}\n" for it in drops) + f"end,{base.batches + 1},{len(drops)}\n"
            lines = program.run(["book"], (rows + failure).encode())[1].decode().splitlines()[len(first):]
            lost = [line.split()[1] for line in lines if line.startswith("lost ")][::-1]
            place = tried.get(key)
            if (place is None) != (not lost):
                checks.fail(f"{name}: {key} is tried as {place}, and loses {lost}")
            if place:
                again = "".join(f"{placed[tunnel][0]}\n" for tunnel in lost)
                lines = program.run(["book"], (rows + failure + again).encode())[1].decode().splitlines()[-len(lost):]
                wanted = []
                for line in lines:
                    tunnel = line.split()[1]
                    told = re.search(r"cost=(\d+)", placed[tunnel][1])
                    was = int(told[1]) if told else costs[tunnel]
                    if " route " in line:
                        now = int(re.search(r"cost=(\d+)", line)[1])
                        wanted.append(f"scenario {place} placed tunnel {tunnel} cost={now} was={was} more={now - was}")
                    else:
                        wanted.append(f"scenario {place} lost tunnel {tunnel} {line.split()[-1]} was={was}")
                found = [line for line in out if re.match(rf"scenario {place} (lost|placed) ", line)]
                checks.same(f"{name}, scenario {place} by routed book", found, wanted)


def used(program, checks, room):
    """Utilisation by requests, against the reference; today's lines come first and are the same."""
    draw = random.Random(6)
    cases = [("NSFNET", text_of("examples/nsfnet.journal"), text_of("examples/nsfnet.requests"), "circuits")]
    cases += [(f"drawn network {seed}", *drawn(random.Random(seed)), ("circuits", "routers", "pairs")[seed % 3]) for seed in range(3)]
    for name, rows, asks, fail in cases:
        found, lines = capacities_of(draw, publish(whole_batches(rows))[0][-1].links)
        wanted = "".join(f"{line}\n" for line in plain(rows, asks, fail, found))
        for jobs in ("1", "3"):
            checks.same(f"the utilisation of {name}, {fail}, {jobs} jobs", swept(
                program.path, room, "rows", "asks", "--fail", fail, "--jobs", jobs, "--capacity", "capacity", rows=rows, asks=asks,
                capacity=lines), (0, wanted, ""))
        plainly = swept(program.path, room, "rows", "asks", "--fail", fail)[1]
        checks.true(f"{name}: the other lines come first", wanted.startswith(plainly) and wanted.count("\n") > plainly.count("\n"))


EAST = f"{A} 10.0.12.1 {B} 10.0.12.2"
OF_RING = f"""utilisation 1 {A} 10.0.14.1 {D} 10.0.14.4 capacity=125 before=0.200 worst=1.160 scenario 1 out {AB}
utilisation 2 {EAST} capacity=200 before=1.100 worst=1.100
utilisation 3 {D} 10.0.14.4 {A} 10.0.14.1 capacity=130 before=0.462 worst=0.462
capacities=3 without=5 before=1 worst=2
"""


def by_hand(program, checks, room):
    """The ring, worked by hand: utilisation, the names of routers, JSON and CSV."""
    capacities, names = f"{A} 10.0.12.1 200B\n# a comment\nSouth  West 10.0.14.4 130B\n{A} 10.0.14.1 1k\n", f"{A} North\n{D} South West\n"
    files = {"rows": RING, "asks": ASKS, "capacity": capacities, "names": names}
    words = ["rows", "asks", "--capacity", "capacity", "--names", "names"]
    status, out, err = swept(program.path, room, *words, **files)
    checks.same("lines without the names behind them", (status, re.sub("(?m)  # .*$", "", out), err),
                (0, BEFORE + OF_CIRCUITS + OF_RING, ""))
    named = [line.partition("  # ")[2] for line in out.splitlines() if " out " in line or "overbooked " in line]
    checks.same("the names", named[:5], ["North", "North", "North, South West", "South West", "North, South West"])
    status, out, _ = swept(program.path, room, *words, "--json")
    told = json.loads(out)
    ends = {"id": 1, "from": "North", "to": C}
    checks.same("JSON: the network and what is before", (status, out.count("\n"), told["network"], told["before"]["counts"],
                                                         told["before"]["without"]),
                (0, 1, {"version": 1, "routers": 4, "links": 8, "circuits": 4, "requests": 4},
                 {"routes": 3, "without": 1, "overbooked": 1}, [{"id": 4, "from": "North", "to": C, "outcome": "none"}]))
    first, second = told["scenarios"][:2]
    checks.same("JSON: a scenario", (first["scenario"], first["out"], first["lost"], first["longer"][0], first["counts"]),
                (1, [{"kind": "circuit", "router": A, "name": "North", "interface": "10.0.12.1", "neighbor": B, "neighbor_name": B,
                      "remote": "10.0.12.2"}], [], {**ends, "cost": 25, "was": 20, "more": 5},
                 {"lost": 0, "longer": 2, "most": 25, "overbooked": 2}))
    checks.same("JSON: another", second["lost"], [{"id": 3, "from": "South West", "to": "North", "was": 15, "outcome": "none"}])
    checks.same("JSON: what is ranked, and counts", (told["most_failures"][0], [it["scenario"] for it in told["most_requests"]],
                                                     told["counts"]),
                ({**ends, "lost": 0, "longer": 2}, [2, 1, 3],
                 {"scenarios": 4, "lost": 1, "longer": 2, "overbooked": 1, "capacities": 3, "without": 5, "before": 1, "worst": 2}))
    checks.same("JSON: utilisation", [(it["name"], it["capacity"], it["before"], it["worst"], it.get("scenario"))
                                      for it in told["utilisation"]],
                [("North", 125, 0.2, 1.16, 1), ("North", 200, 1.1, 1.1, None), ("South West", 130, 0.462, 0.462, None)])
    status, out, _ = swept(program.path, room, *words, "--csv")
    rows = list(csv.DictReader(io.StringIO(out)))
    checks.same("CSV: the effects", [(it["scenario"], it["effect"]) for it in rows],
                [("", "without"), ("", "overbooked"), ("1", "longer"), ("1", "longer"), ("1", "overbooked"), ("1", "overbooked"),
                 ("2", "lost"), ("3", "longer"), ("1", "utilisation"), ("", "utilisation"), ("", "utilisation")])
    checks.same("CSV: a row", {name: value for name, value in rows[6].items() if value},
                {"scenario": "2", "out": "circuit North 10.0.14.1 South West 10.0.14.4", "effect": "lost", "id": "3", "outcome": "none",
                 "from": "South West", "to": "North", "was": "15"})
    checks.same("CSV: a link", {name: value for name, value in rows[8].items() if value},
                {"scenario": "1", "out": f"circuit North 10.0.12.1 {B} 10.0.12.2", "effect": "utilisation", "from": "North",
                 "interface": "10.0.14.1", "to": "South West", "capacity": "125", "before": "0.2", "worst": "1.16"})
    status, out, _ = swept(program.path, room, "--book", "book", "--csv", book=RING + f"place,7,{A},{C},0,60,{MASKS},\n", **files)
    twice = f"place,8,{A},{B},0,1,{MASKS},{D}/32l {A}/32l\n"
    said = swept(program.path, room, "--book", "book", book=RING + twice)[1]
    checks.same("a tunnel whose next route takes a link twice", re.findall("(?m)^scenario 1 lost .*", said)[:1],
                ["scenario 1 lost tunnel 8 twice was=40"])
    rows = [{name: value for name, value in it.items() if value} for it in csv.DictReader(io.StringIO(out))]
    checks.same("CSV: a tunnel", [it for it in rows if it["effect"] == "placed"][:1],
                [{"scenario": "1", "out": AB, "effect": "placed", "id": "7", "from": A, "to": C, "cost": "25", "was": "20", "more": "5"}])


OF_RESTORED = f"""network version=5 routers=4 links=8 circuits=4 tunnels=4
before lost tunnel 8
before full {EAST} unreserved=100 counted=110 left=0
before placed=4 without=0 lost=1 full=1
scenario 1 out {AB}
scenario 1 placed tunnel 7 cost=25 was=20 more=5
scenario 1 lost tunnel 6 none was=10
scenario 1 full {A} 10.0.14.1 {D} 10.0.14.4 unreserved=100 counted=90 left=10
scenario 1 full {D} 10.0.34.4 {C} 10.0.34.3 unreserved=100 counted=90 left=10
scenario 1 lost=1 placed=1 most=5 full=2
scenario 2 out {AD}
scenario 2 lost tunnel 5 none was=25
scenario 2 lost=1 placed=0 most=0 full=0
scenario 3 out {BC}
scenario 3 placed tunnel 7 cost=25 was=20 more=5
scenario 3 full {A} 10.0.14.1 {D} 10.0.14.4 unreserved=100 counted=90 left=10
scenario 3 full {D} 10.0.34.4 {C} 10.0.34.3 unreserved=100 counted=90 left=10
scenario 3 lost=0 placed=1 most=5 full=2
scenario 4 out {CD}
scenario 4 lost tunnel 5 none was=25
scenario 4 lost=1 placed=0 most=0 full=0
"""


def restored(program, checks, room):
    """Tunnels that held rows restored, and a link that has another address at its far end than when a tunnel was placed: both by hand."""
    status, out, err = swept(program.path, room, "--book", "rows", rows=RESTORED)
    checks.same("a book with restored tunnels", (status, out[:len(OF_RESTORED)], out.splitlines()[-1:], err),
                (0, OF_RESTORED, ["scenarios=4 lost=3 placed=2 full=2"], ""))
    cheaper = RING + RESTORED[len(RING):].splitlines(keepends=True)[0]
    out = swept(program.path, room, "--book", "rows", rows=cheaper)[1]
    checks.same("a restored tunnel whose next route is cheaper", [line for line in out.splitlines() if " tunnel 5 " in line],
                [*(f"scenario {at} placed tunnel 5 cost=20 was=25 more=-5" for at in (1, 2)), "most failures 1 tunnel 5 lost=0 placed=2"])
    other = "10.0.12.9"
    for name, row in (("placed", f"place,1,{A},{B},0,60,{MASKS},\n"), ("restored", f"held,1,{A},{B},0,60,{MASKS},,0a000c0102020202\n")):
        rows = journal(circuit(1, 2)) + row + link(A, "10.0.12.1", B, other) + link(B, other, A, "10.0.12.1") + "end,2,2\n"
        out = swept(program.path, room, "--book", "rows", rows=rows)
        found = [line for line in out[1].splitlines() if line.startswith("scenario")]
        checks.same(f"a tunnel that was {name} before its link got another address", (out[0], found, out[2]), (0, [
            f"scenario 1 out circuit {A} 10.0.12.1 {B} {other}", "scenario 1 lost tunnel 1 none was=10",
            "scenario 1 lost=1 placed=0 most=0 full=0", "scenarios=1 lost=1 placed=0 full=0"], ""))


def named_parts(program, checks, room):
    """Parts and pictures of lines with names are what they are without."""
    files = {"rows": RING, "asks": ASKS, "names": f"{A} North\n{D} South West\n"}
    named = [swept(program.path, room, "rows", "asks", "--names", "names", "--part", f"{at}/2", **files)[1] for at in (1, 2)]
    whole = swept(program.path, room, "rows", "asks", "--names", "names")[1]
    checks.true("names are behind lines", "  # North, South West\n" in whole)

    def run(tool, text, *words):
        ran = subprocess.run([TOOLS, tool, *words], input=text, capture_output=True, text=True, cwd=room, timeout=PATIENCE)
        return ran.returncode, ran.stdout, ran.stderr

    checks.same("joined", run("join", "".join(named)), (0, BEFORE + OF_CIRCUITS, ""))
    checks.same("joined with names", run("join", "".join(named), "--names", "names"), (0, whole, ""))
    checks.same("a picture", run("draw-failures", whole), run("draw-failures", BEFORE + OF_CIRCUITS))


def many_drops(program, checks, room):
    """A router with more links than a batch has changes: the tunnels that the first batch loses come before those of the second."""
    ends = [(A, f"10.1.{at // 250}.{at % 250}", f"10.3.{at // 250}.{at % 250}") for at in range(4100)] + [(B, "10.2.0.1", "10.3.99.1")]
    rows = [row for one, near, far in ends for row in (link(one, near, C, far), link(C, far, one, near))]
    text = "".join("".join(rows[at:at + 4096]) + f"end,{number},{len(rows[at:at + 4096])}\n"
                   for number, at in enumerate(range(0, len(rows), 4096), 1))
    text += f"place,1,{A},{C},0,10,{MASKS},\nplace,2,{B},{C},7,10,{MASKS},\n"
    out = swept(program.path, room, "--book", "rows", "--fail", "routers", rows=text)
    checks.same("tunnels that two batches lose", ([line for line in out[1].splitlines() if line.startswith("scenario 3 ")], out[2]),
                ([f"scenario 3 out router {C}", "scenario 3 lost tunnel 2 unknown-from was=10",
                  "scenario 3 lost tunnel 1 unknown-from was=10", "scenario 3 lost=2 placed=0 most=0 full=0"], ""))


def refusals(program, checks, room):
    """Capacities, books and words that can't be used, and a program that writes something else."""
    wanted = "a line is a router, the address of its interface and a capacity, as in 1.1.1.1 10.0.0.1 10G"
    reserve = "give what can be reserved of the link, in bits per second, or in bytes with B"
    for line, words in ((f"{A} 10.0.12.1", f"'{A}' is no link; {wanted}"), ("1G", f"'' is no link; {wanted}"),
                        ("North 10.0.12.1 1G", f"'North 10.0.12.1' is no link; {wanted}"),
                        (f"{A} here 1G", f"'{A} here' is no link; {wanted}"),
                        (f"{A} 10.0.12.9 1G", f"the network has no link from {A} at 10.0.12.9; leave the line out"),
                        (f"{A} 10.0.12.1 1G\n{A} 10.0.12.1 2G", f"the link from {A} at 10.0.12.1 is on an earlier line, too; leave one of "
                                                                "them out"),
                        (f"{A} 10.0.12.1 1000", "'1000' is no bandwidth: 2.5G, 400M and 64k are bits per second, and 125000000B and 125MB "
                                                "are bytes per second"),
                        (f"{A} 10.0.12.1 0.1k", f"the capacity 0.1k is less than the 100 bytes per second that are unreserved; {reserve}"),
                        (f"{A} 10.0.12.1 0", f"the capacity 0 is less than the 100 bytes per second that are unreserved; {reserve}")):
        found = swept(program.path, room, "rows", "asks", "--capacity", "capacity", rows=RING, asks=ASKS, capacity=f"{line}\n")
        at = line.count("\n") + 1
        checks.same(f"a capacity {line!r}", found, (1, "", f"sweep: capacity: line {at}: {words}\n"))
    tunnel = f"place,1,{A},{C},0,60,{MASKS},\n"
    for name, book, words in (
            ("a torn book", RING + circuit(2, 4), "the book: unended 2; write an end row behind the last change"),
            ("a refused row", RING + "place,1\n",
             "the book: row 10 refused: fields; a put row has 15 fields, a held row 11, an ask, place or offer row 10, a drop, node, end "
             "or left row 3, a release or show row 2"),
            ("a tunnel that isn't there", RING + "release,1\n",
             "the book: release 1 refused: absent; give the id of a tunnel that is placed"),
            ("a tunnel that is there", RESTORED + RESTORED.splitlines()[-1],
             "the book: held 8 refused: same-id; release the tunnel that has the id, or leave the row out"),
            ("lines", "base 1 v1\n", "book: it is lines that routed or a tool has written, not rows"),
            ("lines of a restored tunnel", "held 8 v5\n", "book: it is lines that routed or a tool has written, not rows")):
        found = swept(program.path, room, "--book", "book", book=book)
        checks.same(f"a book: {name}", found, (1, "", f"sweep: {words}\n"))
    for words, line in ((["--book", "book", "--dask", "tcp://one:1"], "a book is swept on this machine: "),
                        (["--book", "book", "--workers", "2"], "a book is swept on this machine: "),
                        (["rows", "--book", "book"], "a book is swept on this machine: "),
                        (["rows", "asks", "--json", "--csv"], "argument --csv: not allowed with argument --json"),
                        (["rows", "asks", "--json", "--part", "1/2"], "join reads plain lines of requests: "),
                        (["--book", "book", "--part", "1/2"], "join reads plain lines of requests: ")):
        status, out, err = swept(program.path, room, *words, book=RING + tunnel)
        checks.true(f"words {words}", (status, out) == (2, "") and f"sweep: error: {line}" in err, (status, out, err))
    for name, script, said in (
            ("that loses another tunnel", 'print("lost 2"); sys.exit(0)', "wrote other lines of the book than before"),
            ("that stops", 'print("routed: stopped", file=sys.stderr); sys.exit(3)', "ended with status 3: routed: stopped")):
        path = wrapped(program, room, first=f"rows = sys.stdin.buffer.read()\nif b'drop,' in rows:\n    {script}\n"
                                            f"ran = subprocess.run([{program.path!r}, *words], input=rows)\nsys.exit(ran.returncode)")
        found = swept(path, room, "--book", "book", book=RING + tunnel)
        checks.true(f"a program {name}", found[0] == 3 and found[2] == f"sweep: scenario 1: {path} {said}\n", found)


def planned(program, checks):
    with tempfile.TemporaryDirectory() as room:
        checks.parts_in(room, (of_books, by_the_program, used, by_hand, restored, named_parts, many_drops, refusals), program, checks)
