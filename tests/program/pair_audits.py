"""Lines of rows `pair`, judged by `audit`: by hand, and drawn ones compared with tests/reference/runs.py."""
import re

from program import excepts
from program.built import ASK, MASKS
from program.pairs import BOTH_KINDS, KINDS, REST, TRAP, TRAP_PAIR, WORKED, batch, drawn_rows, ero, pair_row, refused_rows
from reference import pairs as reference

AUDITED = 60  # networks whose lines are audited

TWO = pair_row("circuits", name=8) + pair_row("routers", name=9)
ROUTE = f"route cost=1 hops=1 again=no ero={ero(['10.0.12.2'])}"
GOOD = f"ask 7 v1 {ROUTE}\npair 8 v1 {TRAP_PAIR}\npair 9 v1 {TRAP_PAIR}\n"
LEFT = "".join(f"request {name} unanswered\n" for name in (7, 8, 9))
HALVES = TRAP_PAIR.partition(" cost1=")
EXCHANGED = re.sub(r"cost1=(.*) ero1=(.*) cost2=(.*) ero2=(.*)", r"cost1=\3 ero1=\4 cost2=\1 ero2=\2", TRAP_PAIR)
UNREAD = ["pair", "pair ", "pair 8", "pair 8 ", "pair 8 v", "pair 8 v1", "pair 08 v1 none", "pair 8 v01 none", "pair 8 1 none",
          "pair  8 v1 none", "pair +8 v1 none", "Pair 8 v1 none", "pairs 8 v1 none", "pai 8 v1 none", " pair 8 v1 none",
          "pair 18446744073709551616 v1 none", "pair 8 v4294967296 none", "pair,8,1.1.1.1"]
# The lines of an audit, and the replies that it reads.
JUDGED = {
    "good lines": ("good=3 faults=0\n", GOOD),
    "lines in another order": ("good=3 faults=0\n", "".join(GOOD.splitlines(keepends=True)[::-1])),
    "lines at the first version": ("good=3 faults=0\n", "pair 9 v0 unknown-from\nask 7 v0 unknown-from\npair 8 v0 unknown-from\n"),
    "no lines": (f"{LEFT}good=0 faults=3\n", ""),
    "the ways exchanged": ("line 2 altered\ngood=2 faults=1\n", GOOD.replace(TRAP_PAIR, EXCHANGED, 1)),
    "another total": ("line 2 altered\ngood=2 faults=1\n", GOOD.replace("cost=10", "cost=9", 1)),
    "another number of links": ("line 3 altered\ngood=2 faults=1\n", GOOD.replace("9 v1 pair cost=10 hops=4", "9 v1 pair cost=10 hops=5")),
    "one way alone": ("line 2 altered\ngood=2 faults=1\n", GOOD.replace(HALVES[2].partition(" cost2=")[2], "", 1)),
    "no pair": ("line 2 altered\nline 3 altered\ngood=1 faults=2\n", GOOD.replace(TRAP_PAIR, "none")),
    "a reason": ("line 2 altered\nline 3 altered\ngood=1 faults=2\n", GOOD.replace(TRAP_PAIR, "each by 1.1.1.1,10.0.12.1")),
    "a space more": ("line 3 altered\ngood=2 faults=1\n", GOOD[:-1] + " \n"),
    "the other word": ("line 1 altered\nline 2 altered\nline 3 altered\ngood=0 faults=3\n",
                       GOOD.replace("ask", "ASK").replace("pair 8", "ask 8").replace("pair 9", "ask 9").replace("ASK", "pair")),
    "the word of a kind that isn't asked for": ("line 1 altered\nline 3 doubled\ngood=2 faults=2\n", f"except 8 v1 none\n{GOOD}"),
    "each fault": ("line 3 doubled\nline 4 foreign\nline 5 no-version\nline 6 unread\nline 7 altered\ngood=1 faults=5\n",
                   f"version 1\npair 8 v1 {TRAP_PAIR}\npair 8 v1 {TRAP_PAIR}\npair 77 v1 none\npair 9 v2 none\npair 9\nask 7 v1 none\n"),
}


def pair_audits(program, checks):
    """With --pairs lines of pairs are judged as lines of `ask` rows are; without it they aren't read."""
    audits = excepts.Audits(program, checks, KINDS)
    journal, requests = batch(*TRAP), ASK + TWO
    for name, (lines, replies) in JUDGED.items():
        audits.says(f"pairs, {name}", lines, requests, replies, journal)
    for line in UNREAD:
        audits.says(f"{line!r} before good lines", "line 1 unread\ngood=3 faults=1\n", requests, f"{line}\n{GOOD}", journal)
    for name, (rows, ends, *lines) in WORKED.items():
        for kind, line in zip(reference.KINDS, lines):
            asked = pair_row(kind, ends, REST.get(name, f"0,1000,{MASKS}"))
            audits.says(f"{name}, by {kind}", "good=1 faults=0\n", asked, f"pair 7 v1 {line}\n", rows)
    for text, reason in refused_rows():
        audits.says(f"{text[:60]!r} among requests", f"request row 4 refused: {reason}\n", f"{requests}{text}\n", GOOD, journal)
    audits.says("pairs, one id twice", "request row 4 refused: same-id\n", requests + pair_row("circuits"), GOOD, journal)
    audits.says("a pair row in the journal", "journal torn after 1\n", requests, GOOD, journal + TWO)
    audits.says("pair rows, not asked for", "request row 2 refused: kind\n", requests, GOOD, journal, False)
    for line in (f"pair 7 v1 {TRAP_PAIR}", "pair 7 v0 unknown-from", *UNREAD):
        replies = f"{line}\n{GOOD.splitlines()[0]}\n"
        audits.says(f"{line!r}, not asked for", "line 1 unread\ngood=1 faults=1\n", ASK, replies, journal, False)
    both = excepts.Audits(program, checks, BOTH_KINDS)
    excepts.judged_as_drawn(both, "pairs", lambda draw, seed: drawn_rows(draw, 4 * seed + 3), AUDITED)
