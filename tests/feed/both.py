"""What every feed does, whichever its protocol: one list of scenarios, which runs with each session that is played."""
import contextlib
import os
import signal
import socket
import subprocess
import tempfile

from checks import TOOLS
from feed.beside import to_front, until
from feed.booked import booked, placed
from feed.played import A, A_B, B, BROKEN_DROPS, B_A, B_C, C, CHAIN_ROWS, COLLECT, C_B, HOLD, MANY_DIGITS, PAIR_ROWS, PATIENCE, QUIET, Feed
from feed.played import going_on, row, snapshot


class Of:
    """Checks whose names begin with a protocol's."""

    def __init__(self, checks, name):
        self.checks, self.name = checks, name

    def same(self, name, found, wanted):
        self.checks.same(f"{self.name}: {name}", found, wanted)

    def true(self, name, test, found=""):
        self.checks.true(f"{self.name}: {name}", test, found)


def started(checks, side):
    """A start beside an empty program."""
    router = side()
    feed = Feed(router)
    router.send(side.chain)
    checks.same("a start at version 0", (feed.batch(), feed.is_quiet(), feed.end()), ((CHAIN_ROWS, 1), True, ""))
    router.hang_up()


def restarted(checks, side):
    """A feed that is killed, and one that comes to what it left behind: what went meanwhile is dropped in time."""
    router = side()
    feed = Feed(router)
    router.send(side.chain)
    checks.same("a feed that will be killed", feed.batch(), (CHAIN_ROWS, 1))
    feed.process.kill()
    feed.process.wait()
    router.hang_up()
    feed = Feed(router, version=1, told=snapshot(1, CHAIN_ROWS))
    begun = feed.at
    router.send(side.broken)
    checks.true("a circuit that went meanwhile is held at first", feed.line(HOLD - 0.01) is None)
    drops = feed.batch()
    checks.same("and dropped when the hold is over", (drops, feed.at <= begun + HOLD + 0.2), ((BROKEN_DROPS, 2), True))
    router.send(side.chain)
    checks.same("it goes on as ever", feed.batch(), (CHAIN_ROWS[2:], 3))
    checks.same("what is said of it", feed.end(), going_on(1, 4, name=side.name))
    router.hang_up()

    feed = Feed(router, "--hold", "3", version=7, told=snapshot(7, CHAIN_ROWS))
    begun = feed.at
    router.send(side.pair + side.put(A, A_B, B, B_A, metric=9, sequence=2))
    checks.same("what changed meanwhile is put at once", feed.batch(), ([row(A, A_B, B, B_A, metric=9)], 8))
    feed.waits(begun + 2.9 - feed.at)
    router.send(side.put(B, B_A, A, A_B, metric=8, sequence=2))
    checks.same("drops come first", feed.batch(), ([*BROKEN_DROPS, row(B, B_A, A, A_B, metric=8)], 9))
    feed.end()
    router.hang_up()

    feed = Feed(router, "--hold", "0", version=7, told=snapshot(7, CHAIN_ROWS))
    feed.settle()
    router.send(side.chain)
    checks.same("without a hold all that isn't told yet is dropped", [*sorted(feed.rest())],
                sorted([f"drop,{A},{A_B}", f"drop,{B},{B_A}", *BROKEN_DROPS, *CHAIN_ROWS]))
    feed.end()
    router.hang_up()

    feed = Feed(router, version=3, told=snapshot(3, []))
    router.send(side.chain)
    checks.same("a program whose links are all gone", feed.batch(), (CHAIN_ROWS, 4))
    feed.end()
    router.hang_up()

    marked, stub = f"node,{A},0", side.stub(A, (A_B, B))
    for name, play, wanted in [("that is gone meanwhile", side.pair, [f"node,{A},1"]), ("that is still there", side.pair + stub, [])]:
        feed = Feed(router, "--hold", "3", version=2, told=snapshot(2, [*PAIR_ROWS, marked]))
        router.send(play)
        checks.true(f"a mark {name} is held", feed.line(3 - 0.01) is None)
        checks.same(f"a mark {name}", (feed.rest(), feed.end()), (wanted, going_on(2, 2, 1, 3, side.name)))
        router.hang_up()

    rows = [row(A, f"12.{n >> 8}.{n & 255}.1", B, f"12.{n >> 8}.{n & 255}.2") for n in range(5000)]
    feed = Feed(router, "--hold", "3", version=2, told=snapshot(2, rows))
    begun = feed.at
    router.send(side.chain)
    checks.same("what is there is put beside a database of two batches", feed.batch(), (CHAIN_ROWS, 3))
    feed.waits(begun + 3 - feed.at)
    drops = [",".join(["drop", *each.split(",")[1:3]]) for each in rows]
    checks.same("whose links go in two batches", (feed.batch(), feed.batch(), feed.at), ((drops[:4096], 4), (drops[4096:], 5), begun + 3))
    checks.same("and no more", (feed.is_quiet(), feed.end()), (True, going_on(2, 5000, 0, 3, side.name)))
    router.hang_up()


def trickle(checks, side):
    """Links that come back one by one, and events without a pause, don't prolong the time for which links are held."""
    names = [f"10.7.0.{n}" for n in range(8)]
    rows = [row(A, name, B, name.replace("7", "8")) for name in names]
    ends = [(A, name, B, name.replace("7", "8")) for name in names]
    links, routers = [side.put(*each, number=f"1.0.0.{n}") for n, each in enumerate(ends)], side.routers(*ends)
    for name in ("restarted", "lost"):
        router = side()
        if name == "lost":
            feed = Feed(router, "--hold", "4")
            router.send(routers + b"".join(links))
            feed.batch()
            router.hang_up()
            feed.again()
        else:
            feed = Feed(router, "--hold", "4", version=1, told=snapshot(1, rows))
        begun, number = feed.at, 0
        router.send(routers)
        while number < len(links) - 1 and feed.line(0.5) is None:
            router.send(links[number])
            number += 1
        checks.same(f"{name}: while links come back nothing is dropped", (number, feed.unread), (7, b""))
        checks.true(f"{name}: nor before the time is over", feed.line(begun + 4 - 0.01 - feed.at) is None)
        checks.same(f"{name}: one that doesn't come back is dropped then", feed.line(0.02), f"drop,{A},{names[-1]}")
        feed.end()
        router.hang_up()
    router = side()
    feed = Feed(router, "--hold", "2", version=1, told=snapshot(1, rows))
    begun = feed.at
    router.send(routers + b"".join(links[:-1]))
    while (line := feed.line(0.004)) is None and feed.at < begun + 5:
        router.send(links[0] + side.gone(*ends[0], number="1.0.0.0") + links[0])
    took = feed.at - begun
    checks.true("a router that never rests", line == f"drop,{A},{names[-1]}" and took < 2 + 0.01, f"{line} after {took:.3f} s")
    feed.end()


def unreached(checks, side):
    """A feed starts beside a program with a database while its router is gone: links stay, and `--hold` begins once the router is there."""
    router = side()
    router.listening.close()
    feed = Feed(router, "--hold", "3", version=1, told=snapshot(1, CHAIN_ROWS), is_accepted=False)
    checks.true("nothing is dropped", feed.line(60) is None)
    router = feed.router = side(router.port)
    feed.told += router.sent
    feed.again()
    begun = feed.at
    router.send(side.broken)
    checks.true("what it doesn't tell of is held", feed.line(begun + 3 - 0.01 - feed.at) is None)
    checks.same("and dropped", feed.batch(), (BROKEN_DROPS, 2))
    checks.same("what is said", feed.end(), going_on(1, 4, 0, 3, side.name) +
                f"{side.name}: no connection to {router.where}: Connection refused; what was put stays\n"
                f"{side.name}: connected again; links that were there are held for 3 s\n")


def anew(checks, side):
    """A router that starts anew has nothing at first: what was there is held for a time."""
    router = side()
    feed = Feed(router, "--hold", "2")
    router.send(side.pair)
    feed.batch()
    router.hang_up()
    feed.again()
    back = feed.at
    checks.true("nothing is dropped at first", feed.is_quiet())
    router.send(side.routers((A, A_B, B, B_A)) + side.put(A, A_B, B, B_A, metric=9))
    checks.same("what is there again is put as it is", feed.batch(), ([row(A, A_B, B, B_A, metric=9)], 2))
    checks.true("what doesn't come back is held", feed.line(back + 2 - 0.01 - feed.at) is None)
    checks.same("until that time is over", feed.line(0.02), f"drop,{B},{B_A}")
    checks.same("and then dropped", (feed.line(), feed.say("version 3")), ("end,3,1", None))
    router.send(side.gone(A, A_B, B, B_A))
    checks.same("after that nothing is held", feed.batch(), ([f"drop,{A},{A_B}"], 4))
    router.send(side.pair)
    checks.same("links", feed.batch()[0], PAIR_ROWS)
    router.hang_up()
    feed.again()
    router.send(side.pair)
    feed.waits(QUIET)
    router.send(side.gone(A, A_B, B, B_A))
    checks.same("that came back and then go are dropped at once", feed.line(1), f"drop,{A},{A_B}")
    feed.end()


def refusals(checks, side):
    """The lines that come back: one batch at a time, numbered by them, and what a refused one leads to."""
    rows = CHAIN_ROWS

    def begun():
        router = side()
        feed = Feed(router)
        router.send(side.chain)
        return router, feed

    router, feed = begun()
    first = [feed.line() for _ in range(5)]
    router.send(side.put(A, A_B, B, B_A, metric=8, sequence=2))
    feed.waits(2 * COLLECT)
    feed.say("ask 1 v0 none")
    checks.same("a batch", first, [*rows, "end,1,4"])
    checks.true("is the only one before its line comes", feed.is_quiet())
    feed.say("version 1")
    checks.same("then comes the next", feed.batch(), ([row(A, A_B, B, B_A, metric=8)], 2))
    checks.true("and nothing more", feed.is_quiet())
    checks.same("nothing is said of it", feed.end(), "")

    _, feed = begun()
    batches = [feed.batch(answer)[0] for answer in ("batch 1 refused: full", "batch 1 refused: full", "batch 1 refused: full",
                                                    "version 1", "version 2")]
    checks.same("halves until it is known which change doesn't fit", batches, [rows, rows[:2], rows[:1], rows[1:2], rows[2:]])
    checks.true("which isn't tried again", feed.is_quiet())
    checks.same("and is said", feed.end(), f"{side.name}: batch 1 refused: full: put {A} {A_B} is left out\n")

    for first in (0, 4711):  # rows of earlier feeds count, too, where the program outlives them
        router, feed = begun()
        batches = [feed.batch(answer)[0] for answer in (
            f"row {first + 2} refused: number 6\nbatch 1 refused: counted 3",
            f"row {first + 7} refused: number 6\nbatch 1 refused: counted 1",
            "version 1", f"row {first + 11} refused: number 6\nbatch 2 refused: counted 1",
            f"row {first + 14} refused: number 6\nbatch 2 refused: counted 0", "version 2", "version 3")]
        checks.same("halves until it is known which row is refused", batches,
                    [rows, rows[:2], rows[:1], rows[1:3], rows[1:2], rows[2:3], rows[3:]])
        checks.true("which is left out", feed.is_quiet())
        router.send(side.gone(A, A_B, B, B_A))
        checks.same("a drop", feed.batch()[0], [f"drop,{A},{A_B}"])
        checks.same("after which it is tried again", feed.batch()[0], rows[1:2])
        checks.same("what is said of it", feed.end(), f"{side.name}: row {first + 14} refused: number 6: put {B} {B_A} is left out\n")

    _, feed = begun()
    checks.same("changes that were left open", [feed.batch("batch 1 refused: counted 6"), feed.batch()], [(rows, 1)] * 2)
    checks.same("are gone with the refused batch", (feed.is_quiet(), feed.end()),
                (True, f"{side.name}: batch 1 refused: counted 6: changes were left open, which are dropped with this batch; "
                 "trying again\n"))

    router, feed = begun()
    feed.batch()
    router.send(side.gone(A, A_B, B, B_A))
    drops = [feed.batch("batch 2 refused: memory") for _ in range(9)]
    checks.same("a drop that is refused is tried again", drops, [([f"drop,{A},{A_B}"], 2)] * 9)
    checks.same("and is never left out", feed.ended(),
                (1, "", f"{side.name}: batch 2 refused: memory: drop {A} {A_B}: for the 9th time in a row\n"))

    others = "another program has published, and the feed has to be the only one: end that program, and start the feed again"
    unknown = "the program's database isn't the one that the feed began with: start the feed again"
    for answer, said in [("batch 1 refused: exhausted", ""), ("batch 1 refused: expected 4", others),
                         ("batch 1 refused: expected 1", others),
                         ("version 2", others), ("batch 2 refused: long", others), ("batch 1 refused: absent 2", unknown),
                         (f"version {MANY_DIGITS}", others), (f"batch {MANY_DIGITS} refused: long", others)]:
        router, feed = begun()
        feed.batch(answer)
        checks.same(f"{answer[:40]} ends the feed", feed.ended(), (1, "", f"{side.name}: {answer}{said and ': '}{said}\n"))
    for answer, said in [("too many rows", "the program takes no more rows"), ("version 1\nversion 2", f"version 2: {others}"),
                         ("row 9 refused: kind\nversion 1", f"row 9 refused: kind, and then version 1: {unknown}")]:
        router, feed = begun()
        feed.batch(answer)
        checks.same(f"{answer!r} ends the feed", feed.ended(), (1, "", f"{side.name}: {said}\n"))


LINKS = [((A, A_B, B, B_A), dict(metric=1, group=0x80000001, free=[0.0, 0.75, 1.5, 16777217.9, 33333333.3, 1.25e9, 2.0**63, 3.0])),
         ((B, B_A, A, A_B), dict(metric=2**32 - 1, group=5)), ((B, B_C, C, C_B), dict(metric=None, free=1250000000.5)),
         ((C, C_B, B, B_C), dict(metric=0, free=float(2**24 + 1)))]
ROWS = [row(*LINKS[0][0], 1, 0x80000001, [0, 0, 1, 16777218, 33333334, 1250000000, 2**63, 3]), row(*LINKS[1][0], 2**32 - 1, 5),
        row(*LINKS[2][0], 300, 0, 1250000000), row(*LINKS[3][0], 300, 0, 2**24)]


def alike(checks, side):
    """The rows of one network, whose figures are those that floats of four bytes hold: they are the same by each protocol."""
    router = side()
    feed = Feed(router, "--collect", "1")
    circuits = [ends for ends, _ in LINKS[::2]]
    router.send(side.routers(*circuits) + b"".join(side.put(*ends, number=f"1.0.0.{n}", **more) for n, (ends, more) in enumerate(LINKS)))
    checks.same("rows of one network", (feed.batch()[0], feed.end()), (ROWS, ""))
    router.hang_up()


def killed(checks, side, program):
    """Behind the real routed-tools listen: a feed is killed, a circuit goes, and the next feed drops it; then the server is killed."""
    with tempfile.TemporaryDirectory() as room, contextlib.ExitStack() as clean:
        journal, ask, updates = (os.path.join(room, name) for name in ("day.journal", "ask", "updates"))
        given = [TOOLS, "listen", "--program", program.path, "--journal", journal, "--ask", ask, "--updates", updates]
        front = subprocess.Popen(given, stdout=subprocess.PIPE)
        clean.callback(front.wait)
        clean.callback(front.terminate)
        checks.same("a front", front.stdout.readline(), b"ready\n")
        asker = socket.socket(socket.AF_UNIX)
        asker.connect(ask)
        router, replies = side(), asker.makefile("r")

        def reply():
            asker.sendall(f"ask,7,{A},{C},0,1000,0x0,0x0,0x0,\n".encode())
            return replies.readline()

        def lines(said):
            """What a feed said; behind a reflector without the lines about sessions, which may need a second try."""
            return "".join(line for line in said.splitlines(True) if not side.is_reflected or "connect" not in line)

        feed = to_front(router, updates)
        router.send(side.chain)
        until(lambda: " v1 " in reply(), "version 1")
        checks.same("what a feed put is answered", reply(),
                    "ask 7 v1 route cost=14 hops=2 again=no ero=0014140101080a000001200001080a0000032000\n")
        feed.process.kill()
        feed.process.wait()
        router.hang_up()
        feed = to_front(router, updates)
        router.send(side.broken)
        until(lambda: " v1 " not in reply(), "version 2")
        checks.same("what went meanwhile isn't", reply(), "ask 7 v2 unknown-to\n")
        with open(journal, encoding="ascii") as file:
            checks.same("and nothing else was written", file.read(), "\n".join([*CHAIN_ROWS, "end,1,4", *BROKEN_DROPS, "end,2,2\n"]))
        feed.process.kill()
        feed.process.wait()
        router.hang_up()
        feed = to_front(router, updates)
        router.send(side.without_a)
        until(lambda: " v2 " not in reply(), "version 3")
        checks.same("a router that went meanwhile isn't", reply(), "ask 7 v3 unknown-from\n")
        emptied = f"{side.name}: the router tells of no link: 2 links and marks are dropped\n" * (side.name == "bgpls")
        with open(f"/proc/{front.pid}/task/{front.pid}/children", encoding="ascii") as children:
            for child in map(int, children.read().split()):
                os.kill(child, signal.SIGKILL)
        status, out, said = feed.ended()
        checks.same("the server is killed", (status, out, lines(said)),
                    (1, "", f"{going_on(2, 2, 0, 1, side.name)}{emptied}{side.name}: {updates}: the program ended\n"))
        checks.same("and the front with it", front.wait(PATIENCE), 137)
        router.hang_up()
        feed = Feed(router, command=("--to", updates), is_accepted=False)
        checks.same("nobody listens there", feed.ended(), (1, "", f"{side.name}: can't connect to {updates}: No such file or directory\n"))
        given[given.index(journal)] = os.path.join(room, "next.journal")
        front = subprocess.Popen(given, stdout=subprocess.PIPE)
        clean.callback(front.wait)
        clean.callback(front.terminate)
        checks.same("another server", front.stdout.readline(), b"ready\n")
        asker = socket.socket(socket.AF_UNIX)
        asker.connect(ask)
        replies = asker.makefile("r")
        feed = to_front(router, updates)
        router.send(side.pair)
        until(lambda: " v1 " in reply(), "version 1 of another server")
        checks.same("has what is there now", (reply(), lines(feed.end())), ("ask 7 v1 unknown-to\n", ""))
        router.hang_up()


def scenarios(checks, side, program):
    """Runs all of them with the sessions of one protocol: side() is a router, whose messages its own functions make."""
    for scenario in (started, alike, anew, refusals, restarted, trickle, unreached):
        scenario(Of(checks, side.name), side)
    booked(Of(checks, side.name), side)
    placed(Of(checks, side.name), side, program)
    killed(Of(checks, side.name), side, program)
