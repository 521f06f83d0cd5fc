"""Tests of routed-tools sweep --pairs: which routes have a partner, worked by hand and by tests/reference/sweeps.py."""
import csv
import itertools
import json
import os
import random
import subprocess
import tempfile

from checks import TOOLS, TOP
from reference.sweeps import plain
from tools.drawn_sweeps import drawn
from tools.ring import A, ASKS, B, BEFORE, C, D, OF_CIRCUITS, OF_ROUTERS, RING, SWEEP, ask, circuit, journal, sweep, wrapped

from routed.sweep import partners as tool
from routed.sweep.failures import Network

DA = f"{D} 10.0.14.4 {A} 10.0.14.1"
OF_RING = f"""before partner circuits request 1 pair cost=45 was=20 more=25
before partner routers request 1 pair cost=45 was=20 more=25
before partner circuits request 2 pair cost=45 was=10 more=35
before partner routers request 2 pair cost=45 was=10 more=35
before partner circuits request 3 by {DA}
before partner routers request 3 by {DA}
before partners circuits=2 routers=2
"""
# Two triangles that have one router in common, and a router behind a circuit.
JOINED = journal(circuit(1, 2), circuit(2, 3), circuit(1, 3, 25), circuit(3, 4), circuit(4, 5), circuit(3, 5), circuit(5, 6))
E, F = "5.5.5.5", "6.6.6.6"
ENDS = ask(1, A, D) + ask(2, A, B, hops=f"{C}/32l") + ask(3, F, A) + ask(4, A, B, bandwidth=101)
OF_JOINED = f"""before partner circuits request 1 pair cost=75 was=30 more=45
before partner routers request 1 through {C}
before partner circuits request 2 pair cost=45 was=30 more=15
before partner routers request 2 pair cost=45 was=30 more=15
before partner circuits request 3 by {F} 10.0.56.6 {E} 10.0.56.5
before partner routers request 3 by {F} 10.0.56.6 {E} 10.0.56.5
before partners circuits=2 routers=1
"""


def lines_of(out):
    return "".join(line for line in out.splitlines(keepends=True) if line.startswith("before partner"))


def by_hand(program, checks):
    """Partners on a ring and on two triangles; their lines are behind those of the network, and all others stay."""
    for words, wanted in (((), OF_CIRCUITS), (("--fail", "routers"), OF_ROUTERS)):
        checks.same(f"partners on a ring {words}", sweep(program.path, RING, ASKS, "--pairs", *words), (0, BEFORE + OF_RING + wanted, ""))
    status, out, err = sweep(program.path, JOINED, ENDS, "--pairs")
    checks.same("partners on two triangles", (status, lines_of(out), err), (0, OF_JOINED, ""))
    nothing = "before routes=0 without=0 overbooked=0\nbefore partners circuits=0 routers=0\n"
    checks.true("partners in an empty network", nothing in sweep(program.path, "", "", "--pairs")[1])
    parts = "".join(sweep(program.path, RING, ASKS, "--pairs", "--part", f"{at}/2")[1] for at in (1, 2))
    ran = subprocess.run([TOOLS, "join"], input=parts, capture_output=True, text=True)
    checks.same("joined parts with partners", (ran.returncode, ran.stdout, ran.stderr), (0, BEFORE + OF_RING + OF_CIRCUITS, ""))
    ran = subprocess.run([*SWEEP, "--book", "/dev/null", "--pairs"], capture_output=True, text=True)
    checks.true("no partners in a book", (ran.returncode, ran.stdout) == (2, "") and "sweep: error: pairs are asked for" in ran.stderr, ran)


def in_forms(program, checks):
    """Partners with names, as JSON and as CSV."""
    with tempfile.TemporaryDirectory() as room:
        with open(f"{room}/names", "w", encoding="ascii") as file:
            file.write(f"{A} 0 0 Ana\n{C} 0 0 Cap\n{F} 0 0 Fig\n")
        words = ("--pairs", "--names", f"{room}/names")
        out = sweep(program.path, JOINED, ENDS, *words)[1]
        checks.true("partners with names", f"before partner routers request 1 through {C}  # Cap\n" in out
                    and f"before partner circuits request 3 by {F} 10.0.56.6 {E} 10.0.56.5  # Fig\n" in out, out)
        before = json.loads(sweep(program.path, JOINED, ENDS, *words, "--json")[1])["before"]
        checks.same("partners as JSON", [before["partner_routers"], before["partners"], len(before["partner_circuits"])], [[
            {"id": 1, "from": "Ana", "to": D, "outcome": "through", "router": C, "name": "Cap"},
            {"id": 2, "from": "Ana", "to": B, "outcome": "pair", "cost": 45, "was": 30, "more": 15},
            {"id": 3, "from": "Fig", "to": "Ana", "outcome": "by", "router": F, "name": "Fig", "interface": "10.0.56.6", "neighbor": E,
             "neighbor_name": E, "remote": "10.0.56.5"}], {"circuits": 2, "routers": 1}, 3])
        rows = list(csv.DictReader(sweep(program.path, JOINED, ENDS, *words, "--csv")[1].splitlines()))
        shown = [{name: text for name, text in row.items() if text} for row in rows if row["effect"].startswith("partner")]
        checks.same("partners as CSV", [shown[1], shown[3], shown[4], len(shown)], [
            {"effect": "partner routers", "id": "1", "outcome": "through", "out": "router Cap", "from": "Ana", "to": D},
            {"effect": "partner routers", "id": "2", "outcome": "pair", "from": "Ana", "to": B, "cost": "45", "was": "30", "more": "15"},
            {"effect": "partner circuits", "id": "3", "outcome": "by", "out": f"circuit Fig 10.0.56.6 {E} 10.0.56.5", "from": "Fig",
             "to": "Ana"}, 6])


def compared(program, checks):
    """A whole sweep of the NSFNET backbone with partners, partners in drawn networks, and partners by several runs."""
    rows, asks = (open(os.path.join(TOP, f"examples/nsfnet.{kind}"), encoding="ascii").read() for kind in ("journal", "requests"))
    wanted = "".join(f"{line}\n" for line in plain(rows, asks, "circuits", has_partners=True))
    checks.same("NSFNET with partners", sweep(program.path, rows, asks, "--pairs"), (0, wanted, ""))
    kinds = set()
    for seed in range(10):
        rows, asks = drawn(random.Random(seed))
        given = Network(program.path, 1, rows.encode(), asks.encode())
        wanted = list(itertools.takewhile(lambda line: not line.startswith("scenario "), plain(rows, asks, "circuits", has_partners=True)))
        checks.same(f"partners in drawn network {seed}", [*given.before(), *tool.partner_lines(given)], wanted)
        kinds |= {tuple(line.split()[at] for at in (2, 5)) for line in wanted if line.startswith("before partner ")}
    checks.same("what is said of partners", sorted(kinds), [
        ("circuits", "by"), ("circuits", "pair"), ("routers", "by"), ("routers", "pair"), ("routers", "through")])
    given, most = Network(program.path, 1, JOINED.encode(), ENDS.encode()), tool.MOST_ROWS
    try:
        tool.MOST_ROWS = len(given.rows) + 4
        checks.same("partners by two runs", "".join(f"{line}\n" for line in tool.partner_lines(given)), OF_JOINED)
    finally:
        tool.MOST_ROWS = most


def wrong(program, checks):
    """Programs that answer pairs otherwise."""
    with tempfile.TemporaryDirectory() as room:
        for name, lines, why in (
                ("no pair", 'pair 1 v1 none', "no reply to a pair of ends with a route: none"),
                ("a link that isn't there", f"pair 1 v1 each by {A},10.0.12.9",
                 f"no reply to a pair of ends with a route: each by {A},10.0.12.9"),
                ("no line of a pair", "pair 1 v1 pair cost=45", "no reply to a pair of ends with a route: pair cost=45"),
                ("another request", "pair 2 v1 none", "'pair 2 v1 none' where 'pair 1 v1' has to be"),
                ("another version", "pair 1 v2 none", "'pair 1 v2 none' where 'pair 1 v1' has to be"),
                ("a line more", "pair 1 v1 none\\npair 1 v1 none\\npair 1 v1 none", "4 lines to 2 pairs")):
            said = f"version 1\\n{lines}" + ("" if "more" in name else "\\npair 1 v1 none")
            path = wrapped(program, room, first=f'if "--pairs" in words:\n    print("{said}"); sys.exit(0)')
            checks.same(f"a program with {name}", sweep(path, RING, ask(1, A, C), "--pairs")[::2], (3, f"sweep: {path} wrote {why}\n"))
        path = wrapped(program, room, first='if "--pairs" in words:\n    sys.exit(print("error: unexpected", file=sys.stderr) or 1)')
        checks.same("a program without --pairs", sweep(path, RING, ASKS, "--pairs"),
                    (3, "", f"sweep: {path} ended with status 1: error: unexpected\n"))


def partners(program, checks):
    checks.parts((by_hand, in_forms, compared, wrong), program, checks)
