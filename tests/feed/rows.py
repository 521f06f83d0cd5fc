"""Tests of routed-tools feed: the rows that it makes of the LSAs of a router that is played."""
import argparse
import os
import re
import socket
import time

from feed.begun import journals, not_begun
from feed.beside import beside_server, once, with_program, words
from feed.booked import endless, recorded_beside
from feed.both import scenarios
from feed.lab import lab
from feed.played import A, A_B, B, B_A, C, COLLECT, INFINITE, NAN, PAIR, PAIR_ROWS, PATIENCE, ROUTERS, Feed
from feed.played import Router, fed, lsa, message, raw, removal, router_lsa, row, te_lsa, tlv, update


def columns(checks):
    """What each column of a row is taken from."""
    router = Router()
    feed = Feed(router)
    checks.same("what is asked for: events and LSAs of types 1 and 10", router.requests,
                bytes.fromhex("01030004 00000001 02010200 01040004 00000002 02010200"))
    router.send(PAIR)
    checks.same("the router is the advertising one, and an address may end in .0", feed.batch(), (PAIR_ROWS, 1))
    router.send(update(te_lsa(A, A_B, B, B_A, metric=None, sequence=2)))
    checks.same("without a metric: the whole cost of the router LSA", feed.batch(), ([row(A, A_B, B, B_A, metric=300)], 2))
    router.send(update(te_lsa(A, A_B, B, B_A, metric=0, sequence=3, group=0x80000001)))
    checks.same("a metric of 0 is none; the group", feed.batch(), ([row(A, A_B, B, B_A, metric=300, group=0x80000001)], 3))
    free = [0.0, 0.75, 1.5, 16777217.9, 33333333.3, 1.25e9, 2.0**63, 3.0]
    router.send(update(te_lsa(A, A_B, B, B_A, free=free, sequence=4)))
    checks.same("bandwidths are rounded down", feed.batch(),
                ([row(A, A_B, B, B_A, free=[0, 0, 1, 16777218, 33333334, 1250000000, 2**63, 3])], 4))
    checks.same("nothing is said of it", feed.end(), "")


def left_out(checks):
    """Links that make no row, and the reason that the feed gives."""
    back = te_lsa(B, B_A, A, A_B)
    for why, name, *lsas in [
            ("no TE LSA", f"{A} {A_B}"),
            ("no unreserved bandwidth", f"{A} {A_B}", te_lsa(A, A_B, B, B_A, free=None)),
            *[("an unreserved bandwidth that is no number of a row", f"{A} {A_B}", te_lsa(A, A_B, B, B_A, free=[1.0] * 7 + [bad]))
              for bad in (NAN, INFINITE, -INFINITE, -1.0, -0.5, 2.0**64)],
            ("not point-to-point", f"{A} {A_B}", te_lsa(A, A_B, B, B_A, kind=2)),
            ("no addresses", f"{A} TE LSA 1.0.0.2", te_lsa(A, None, B, B_A)),
            ("no addresses", f"{A} {A_B}", te_lsa(A, A_B, B, None)),
            ("no addresses", f"{A} {A_B}", te_lsa(A, A_B, B, "0.0.0.0")),
            ("no adjacency", f"{A} 10.7.7.7", te_lsa(A, "10.7.7.7", B, B_A)),
            ("no adjacency back", f"{A} {A_B}", te_lsa(A, A_B, B, "10.7.7.7")),
            ("no router LSA", f"{C} 10.7.7.7", te_lsa(C, "10.7.7.7", B, B_A), te_lsa(A, A_B, B, B_A)),
            ("an adjacency with another router", f"{A} {A_B}", te_lsa(A, A_B, C, B_A)),
            ("a link to itself", f"{A} {A_B}", router_lsa(A, (A, A_B, 1), sequence=2), te_lsa(A, A_B, A, A_B)),
            ("two TE LSAs that differ", f"{A} {A_B}", te_lsa(A, A_B, B, B_A), te_lsa(A, A_B, B, B_A, number="1.0.0.3", metric=8)),
            ("an LSA that can't be read", f"{A} TE LSA 1.0.0.2", te_lsa(A, A_B, B, B_A)[:-4]),
            ("an LSA that can't be read", f"{A} TE LSA 1.0.0.2", lsa(10, "1.0.0.2", A, tlv(2, tlv(3, raw(A_B)) + b"\0\4\0\7abc"))),
            ("an LSA that can't be read", f"{A} TE LSA 1.0.0.2", lsa(10, "1.0.0.2", A, tlv(2, tlv(8, bytes(28))))),
            ("an LSA that can't be read", f"{A} router LSA", lsa(1, A, A, b"\0\0\0\2" + bytes(12), sequence=2))]:
        wanted = [] if "router LSA" in name or why == "a link to itself" else PAIR_ROWS[why != "no router LSA":]
        (rows,), said = fed(update(*ROUTERS, *lsas, back), bare=() if wanted else (0,), words=("--verbose",))
        checks.same(f"left out: {why}: {name}", (rows, f"ospf: left out, {why}: {name}\n" in said), (wanted, True))
        checks.true(f"counted: {why}", re.search(rf"^ospf: {len(wanted)} links; left out: .*{re.escape(why)} \d", said, re.M), said)
    found, said = fed(update(lsa(10, "1.0.0.1", A, tlv(1, raw(A)))) + PAIR, words=("--verbose",))
    checks.same("a TE LSA of a router's address alone is nothing", (found[0], said.splitlines()[-1:]),
                (PAIR_ROWS, ["ospf: 2 links; left out: none"]))
    twice = te_lsa(A, A_B, B, B_A), te_lsa(A, A_B, B, B_A, number="1.0.0.3")
    checks.same("two TE LSAs of one link that agree", fed(update(*ROUTERS, *twice, back))[0], [PAIR_ROWS])
    checks.same("an area of its own: no adjacency there", fed(PAIR, update(te_lsa(A, A_B, B, B_A), area="0.0.0.1"), bare=(1,))[0],
                [PAIR_ROWS, []])


def wrapped(checks):
    """A default bandwidth that lost its high bits is put as announced, and said once."""
    found, said = fed(update(*ROUTERS, te_lsa(A, A_B, B, B_A, free=176258176.0, most=176258176.0)), update(te_lsa(B, B_A, A, A_B)))
    checks.same("a wrapped default is put as announced", found, [[row(A, A_B, B, B_A, free=176258176)], [row(B, B_A, A, A_B)]])
    checks.same("and said once", said, f"ospf: {A} {A_B}: its bandwidth of 176258176 bytes per second looks like the default of "
                "a circuit of 10 Gbit/s, counted in 32 bits; it is put as announced\n")


def changes(checks):
    """Neighbors that die, links that come up, and many changes in a row."""
    alone = router_lsa(B, sequence=2)
    found, _ = fed(PAIR, update(alone), update(router_lsa(B, (A, B_A, 5), sequence=3)))
    checks.same("TE LSAs outlive an adjacency, and rows don't", found,
                [PAIR_ROWS, [f"drop,{A},{A_B}", f"drop,{B},{B_A}"], PAIR_ROWS])
    found, _ = fed(update(*ROUTERS, te_lsa(B, B_A, A, A_B)), update(te_lsa(A, A_B, B, B_A)))
    checks.same("a link that comes up has no row before its bandwidth is told", found, [PAIR_ROWS[1:], PAIR_ROWS[:1]])
    old, new = te_lsa(A, A_B, B, B_A), te_lsa(A, A_B, B, B_A, metric=9, sequence=2)
    found, _ = fed(PAIR, removal(old) + update(new))
    checks.same("a removal and the new instance are one change", found[1], [row(A, A_B, B, B_A, metric=9)])
    found, _ = fed(PAIR, update(new), removal(old), removal(new), bare=(2,))
    checks.same("the removal of an older instance removes nothing", found[1:], [[row(A, A_B, B, B_A, metric=9)], [], [f"drop,{A},{A_B}"]])
    found, _ = fed(PAIR, update(te_lsa(A, A_B, B, B_A, sequence=2, age=3600)))
    checks.same("an LSA at its maximum age is gone", found[1], [f"drop,{A},{A_B}"])
    found, _ = fed(PAIR, update(te_lsa(A, A_B, B, B_A, sequence=2, metric=9, age=0x8000)))
    checks.same("an LSA that doesn't age is there", found[1], [row(A, A_B, B, B_A, metric=9)])
    found, _ = fed(PAIR, update(te_lsa(A, A_B, B, B_A, sequence=2, age=0)), bare=(1,))
    checks.same("an LSA that is only refreshed", found[1], [])
    taken = [te_lsa(A, A_B, B, B_A, free=[90.0] * (n + 1) + [1000.0] * (7 - n), sequence=2 + n) for n in range(8)]
    router = Router()
    feed = Feed(router)
    router.send(PAIR)
    feed.batch()
    for each in taken:
        router.send(update(each))
        feed.waits(0.015)
    checks.true("changes are collected at first", feed.line(0.06) is None)
    checks.same("eight changes of bandwidth are one batch", feed.batch(), ([row(A, A_B, B, B_A, free=90)], 2))
    router.send(update(te_lsa(A, A_B, B, B_A)))
    checks.same("which is written soon", (feed.line(COLLECT - 0.01), feed.line(0.02)), (None, PAIR_ROWS[0]))
    feed.end()


def marks(checks):
    """A router whose links to other routers all have the greatest cost is a stub router, and marked as long as it is one."""
    top, mark, free = 65535, f"node,{A},0", f"node,{A},1"
    stub, other = router_lsa(A, (B, A_B, top), sequence=2), te_lsa(B, B_A, A, A_B)
    found, _ = fed(PAIR, update(stub), update(router_lsa(A, (B, A_B, top - 1), sequence=3)))
    checks.same("a stub router is marked, and used again", found, [PAIR_ROWS, [mark], [free]])
    found, _ = fed(update(stub, ROUTERS[1], te_lsa(A, A_B, B, B_A, metric=None), other), update(ROUTERS[0], ROUTERS[1]))
    checks.same("a mark comes before the router's links, whose metric may be that cost", found,
                [[mark, row(A, A_B, B, B_A, metric=top), PAIR_ROWS[1]], [free, row(A, A_B, B, B_A, metric=300)]])
    more = "10.7.7.7"
    found, _ = fed(PAIR, update(router_lsa(A, (B, A_B, top), (C, more, 1), sequence=2)), update(router_lsa(C)), bare=(1, 2))
    checks.same("one link of less is enough, and a router without links is no stub router", found, [PAIR_ROWS, [], []])
    found, _ = fed(PAIR, update(stub), update(router_lsa(A, (C, more, 1)), area="0.0.0.1"),
                   update(router_lsa(A, (C, more, top), sequence=2), area="0.0.0.1"))
    checks.same("a stub router in each of its areas", found, [PAIR_ROWS, [mark], [free], [mark]])
    found, _ = fed(update(stub) + PAIR[len(update(ROUTERS[0])):], removal(stub))
    checks.same("a stub router that goes", found, [[mark, *PAIR_ROWS], [free, f"drop,{A},{A_B}", f"drop,{B},{B_A}"]])
    _, said = fed(update(stub) + PAIR[len(update(ROUTERS[0])):], words=("--verbose",))
    checks.same("stub routers are counted", said, "ospf: 2 links; 1 without transit; left out: none\n")
    router = Router()
    feed = Feed(router)
    router.send(PAIR)
    feed.batch()
    router.send(update(stub))
    checks.same("a mark that is refused", feed.batch("batch 2 refused: marks"), ([mark], 2))
    router.send(update(te_lsa(A, A_B, B, B_A, metric=9, sequence=2)))
    checks.same("is left out", feed.batch(), ([row(A, A_B, B, B_A, metric=9)], 2))
    router.send(removal(other))
    checks.same("until something is dropped", (feed.batch(), feed.batch()), (([f"drop,{B},{B_A}"], 3), ([mark], 4)))
    checks.true("which is said", "batch 2 refused: marks: node 1.1.1.1 0 is left out\n" in feed.end())
    router.hang_up()
    router = Router()
    feed = Feed(router)
    router.send(update(stub) + PAIR[len(update(ROUTERS[0])):])
    feed.batch()
    router.hang_up()
    feed.again()
    router.send(update(ROUTERS[1], other))
    checks.true("a mark is held while the connection is new", feed.is_quiet())
    router.send(update(stub, te_lsa(A, A_B, B, B_A)))
    checks.true("and there again", feed.is_quiet())
    router.send(update(router_lsa(A, (B, A_B, 5), sequence=3)))
    checks.same("then it goes at once", feed.batch(), ([free], 2))
    feed.end()


def runs(checks):
    """Events that come one right after the other are one change, but put a batch off by a second at most."""
    old, new = te_lsa(A, A_B, B, B_A), te_lsa(A, A_B, B, B_A, metric=9)
    router = Router()
    feed = Feed(router)
    router.send(PAIR)
    feed.batch()
    for _ in range(100):
        router.send(update(new) + removal(new))
        feed.waits(0.004)
    router.send(update(new))
    checks.same("a removal is not cut from the new instance", feed.rest(), [row(A, A_B, B, B_A, metric=9)])
    feed.end()
    router = Router()
    feed = Feed(router)
    router.send(PAIR)
    feed.batch()
    began = feed.at
    while (line := feed.line(0.004)) is None and feed.at < began + 4:
        router.send(update(old) + update(new))
    took = feed.at - began
    checks.true("a router that never rests", line is not None and 1.1 < took < 1.3, f"{line} after {took:.2f} s")
    feed.end()


def streams(checks):
    """Messages in pieces, of other kinds, and connections that aren't the API's."""
    router = Router()
    feed = Feed(router)
    other = [lsa(2, "10.0.0.0", A, bytes(8)), lsa(5, "10.0.0.0", A, bytes(16)), lsa(10, "4.0.0.0", A, bytes(8)),
             lsa(11, "1.0.0.1", A, bytes(8))]
    data = message(18, bytes(8)) + update(*other) + message(12, b"short") + message(99, b"") + PAIR
    for at in range(0, len(data), 7):
        router.send(data[at:at + 7])
    checks.same("pieces of 7 bytes, and messages and LSAs of other kinds", feed.batch(), (PAIR_ROWS, 1))
    router.send(PAIR[:30])
    checks.true("half a message is waited for", feed.is_quiet())
    router.hang_up()
    checks.same("a connection that is closed drops nothing", (feed.is_quiet(), feed.process.poll()), (True, None))
    checks.true("and that is said", f"port {router.port}: the router closed the connection; what was put stays\n" in feed.end())
    for name, data in [("a message of another version", b"\2" + message(12, b"")[1:]),
                       ("a request that is refused", message(10, b"\xff\0\0\0"))]:
        router = Router()
        feed = Feed(router)
        router.send(data)
        feed.again()
        checks.true(f"{name} ends the connection, and a new one is made", feed.is_quiet() and "what was put stays" in feed.end())


def many(checks):
    """More changes than a batch may have."""
    router = Router()
    feed = Feed(router, "--collect", "2")
    for area in range(25):  # 200 links one way in each of 25 routers
        here, there = f"5.0.0.{area}", f"6.0.0.{area}"
        ends = [(f"12.{area}.{n}.1", f"12.{area}.{n}.2") for n in range(200)]
        router.send(update(router_lsa(here, *[(there, local, 1) for local, _ in ends]),
                           router_lsa(there, *[(here, remote, 1) for _, remote in ends]),
                           *[te_lsa(here, local, there, remote, number=f"1.0.0.{n}") for n, (local, remote) in enumerate(ends)]))
    checks.same("5,000 changes are two batches", [(len(rows), number) for rows, number in (feed.batch(), feed.batch())],
                [(4096, 1), (904, 2)])
    feed.end()


def queued(checks):
    """Short asks that wait for a program which takes no rows cost little, however many they are."""
    from routed.feed.feed import Feed as Real
    from routed.feed.program import Program
    from routed.net.loop import Loop
    from routed.net.stream import Stream
    feed, reading = Real.__new__(Real), os.pipe()
    feed.loop, feed.batches = Loop(), argparse.Namespace(ask=lambda: None)
    feed.asks, feed.program = Stream(feed.loop, reading[0]), Program(feed.loop, ["sleep", str(PATIENCE)], None)
    row, began = b"ask,\n", time.process_time()
    while not feed.program.stream.is_full:
        os.write(reading[1], row * 12000)  # less than the pipe holds
        feed.take_asks(0)
    took = time.process_time() - began
    with feed.program.child as sleeping:
        sleeping.kill()
    for file in reading:
        os.close(file)
    checks.same("asks that wait", feed.program.stream.waiting.count(row) * len(row), len(feed.program.stream.waiting))
    checks.true("asks that wait: seconds of a processor", took < 2, took)


def feed(program, checks):
    try:
        socket.create_server(("127.0.0.1", 0)).close()
    except OSError as fault:
        print(f"skipped: the feed, since no socket can be had: {fault}")
        return
    for part in (columns, left_out, wrapped, changes, marks, runs, streams, not_begun, journals, many, queued, endless, lab):
        part(checks)
    for part in (with_program, beside_server, recorded_beside, once, words):
        part(program, checks)
    scenarios(checks, Router, program)
