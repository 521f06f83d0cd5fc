"""Tests of the SRLGs that the feed from OSPF writes: sub-TLV 16 of a link in a TE LSA (RFC 4203 1.3), beside the batches.

No router of the tests announces SRLGs, so the LSAs are built here."""
import os
import socket
import subprocess
import tempfile

from feed.played import A, A_B, B, B_A, FEED, HOLD, PAIR, PAIR_ROWS, PATIENCE, ROUTERS, RUN, Feed, Router
from feed.played import fed, removal, row, snapshot, te_lsa, update
from feed.sids import Told, link_lsa, sid, text_of

BACK = te_lsa(B, B_A, A, A_B)


def there(*srlgs, sequence=1, **more):
    """The TE LSA of the link from A to B."""
    return te_lsa(A, A_B, B, B_A, srlgs=srlgs, sequence=sequence, **more)


def srlg(version, *groups, key=(A, A_B)):
    return f"srlg,{version},{','.join(key)},{' '.join(map(str, groups))}"


def lines(checks):
    """Lines of the version at which they count, before its batch."""
    told = Told("--verbose", name="srlgs")
    found = told.play(*ROUTERS, there((18, 17, 18, 2**32 - 1)), te_lsa(B, B_A, A, A_B, srlgs=[(0,)]))
    checks.same("SRLGs of TE LSAs, with the first batch", found, ([srlg(1, 17, 18, 2**32 - 1), srlg(1, 0, key=(B, B_A))], PAIR_ROWS))
    checks.same("the first line is the run", text_of(told.path).splitlines()[0], f"run,{RUN}")
    checks.same("SRLGs that change: at the present version", told.quiet(there((1, 2), sequence=2)), [srlg(1, 1, 2)])
    checks.same("in another order, and refreshed: nothing", (told.quiet(there((2, 1), sequence=3)), told.quiet(there((2, 1), sequence=4))),
                ([], []))
    checks.same("two sub-TLVs", told.quiet(there((3,), (4, 1), sequence=5)), [srlg(1, 1, 3, 4)])
    checks.same("a sub-TLV of none", told.quiet(there((), sequence=6)), [srlg(1)])
    checks.same("with other changes: at their batch's version", told.play(there((7,), metric=9, sequence=7)),
                ([srlg(2, 7)], [row(A, A_B, B, B_A, metric=9)]))
    checks.same("another TE LSA of the link, which differs in its SRLGs alone",
                told.quiet(te_lsa(A, A_B, B, B_A, number="1.0.0.3", metric=9, srlgs=[(8,)])), [srlg(2, 7, 8)])
    told.router.send(removal(te_lsa(A, A_B, B, B_A, number="1.0.0.3", metric=9)))
    checks.same("and that goes", told.quiet(), [srlg(2, 7)])
    told.router.send(removal(there(sequence=7)))
    (rows, _), found = told.batch()
    checks.same("a link takes its SRLGs along", (found, rows), ([srlg(3)], [f"drop,{A},{A_B}"]))
    told.end()


def malformed(checks):
    """A TE LSA whose SRLGs can't be read puts no link, where they are asked for: nobody would know what it shares."""
    for name, value in (("of 5 bytes", b"\0\0\0\7\0"), ("of 2 bytes", b"\0\7")):
        told = Told("--verbose", name="srlgs")
        checks.same(f"a sub-TLV 16 {name}", told.play(*ROUTERS, there(value), BACK), ([], PAIR_ROWS[1:]))
        checks.true(f"a sub-TLV 16 {name}: said", f"left out, an LSA that can't be read: {A} TE LSA 1.0.0.2\n" in told.end())
        found, _ = fed(update(*ROUTERS, there(value), BACK))
        checks.same(f"a sub-TLV 16 {name}, where SRLGs aren't asked for", found, [PAIR_ROWS])
    whole, told = there((17, 18)), Told(name="srlgs")
    told.play(*ROUTERS, whole, BACK)
    version, faults = 1, []
    for size in range(len(whole) - 12, len(whole)):  # in its SRLGs
        if (found := told.play(whole[:size])) != ([srlg(version + 1)], [f"drop,{A},{A_B}"]):
            faults.append((size, found))
        if (found := told.play(whole)) != ([srlg(version + 2, 17, 18)], PAIR_ROWS[:1]):
            faults.append((size, found))
        version += 2
    checks.same("each cut of the SRLGs takes the link away, and the whole brings it back", faults, [])
    told.end()


def kept(checks):
    """Batches that are refused, connections that come back, and feeds that start again."""
    told = Told(name="srlgs")
    told.router.send(update(*ROUTERS, there((17,)), te_lsa(B, B_A, A, A_B, srlgs=[(18,)])))
    both = [srlg(1, 17), srlg(1, 18, key=(B, B_A))]
    checks.same("a batch that is refused", told.batch("batch 1 refused: memory"), ((PAIR_ROWS, 1), both))
    checks.same("its half takes the number: the lines are written again", told.batch(), ((PAIR_ROWS[:1], 1), both))
    checks.same("and the other half the next", told.batch(), ((PAIR_ROWS[1:], 2), []))
    told.router.hang_up()
    told.feed.again()
    checks.same("behind a new connection nothing is told: the lines stay", told.quiet(), [])
    checks.same("one link is told with another SRLG", told.quiet(*ROUTERS, there((19,))), [srlg(2, 19)])
    told.feed.waits(HOLD)
    checks.same("what isn't told goes with its link", told.batch(), (([f"drop,{B},{B_A}"], 3), [srlg(3, key=(B, B_A))]))
    told.end()
    told = Told(name="srlgs", version=4, told=snapshot(4, PAIR_ROWS))
    told.router.send(update(*ROUTERS, there((17,)), BACK))
    checks.same("a feed that starts again: at the program's version", (told.feed.is_quiet(), told.lines()), (True, [srlg(4, 17)]))
    told.end()
    with tempfile.TemporaryDirectory() as room:
        paths = [os.path.join(room, name) for name in ("sids", "srlgs")]
        router = Router()
        feed = Feed(router, "--sids", paths[0], "--srlgs", paths[1])
        router.send(update(*ROUTERS, there((17,)), BACK, link_lsa(A, A_B, sid(99))))
        checks.same("both files", (feed.batch()[0], [text_of(path) for path in paths]),
                    (PAIR_ROWS, [f"run,{RUN}\nsid,1,{A},{A_B},99\n", f"run,{RUN}\n{srlg(1, 17)}\n"]))
        feed.end()
        ran = subprocess.run([*FEED, "--once", "--srlgs", paths[1]], stdin=subprocess.DEVNULL, capture_output=True, text=True,
                             timeout=PATIENCE)
        is_said = "--srlgs: it tells of changes, and --once ends before any" in ran.stderr
        checks.true("not with --once", ran.returncode == 2 and is_said, ran)
    checks.same("no file is made unasked", fed(PAIR)[0], [PAIR_ROWS])


def srlgs(_, checks):
    try:
        socket.create_server(("127.0.0.1", 0)).close()
    except OSError as fault:
        print(f"skipped: the feed's SRLGs, since no socket can be had: {fault}")
        return
    checks.parts((lines, malformed, kept), checks)
