"""A feed whose program has a book: its batches are those of the base, other programs place between them, and their lines name both the
number of the batch and the version that is published."""
import os
import re
import tempfile

from feed.beside import to_front, until
from feed.lab import lab_rows, recorded
from feed.played import A, A_B, B, BROKEN_DROPS, B_A, B_C, C, CHAIN_ROWS, HOLD, MANY_DIGITS, PAIR_ROWS, Feed, Router, going_on
from feed.played import row, snapshot
from tools.fronts import Connection, Front

UNKNOWN = "the program's database isn't the one that the feed began with: start the feed again"
OTHERS = "another program has published, and the feed has to be the only one: end that program, and start the feed again"
PLACE = "place 5 v4 route cost=7 hops=1 again=no ero=000c140101080a0000012000"


def of_base(number, version, rows, *run):
    """What `routed-tools listen` with a book answers to the row `snapshot`."""
    return [f"base {number} v{version}", *run, *snapshot(0, rows)[1:]]


def gone_on(checks, side):
    """A feed goes on with the base of a book with placements. Versions are above the numbers of its batches, and rise without it."""
    router = side()
    for name, version, told in (("", 40, of_base(7, 40, CHAIN_ROWS)),
                                (", which others have raised meanwhile", 38, of_base(7, 40, CHAIN_ROWS)),
                                (" of a run with a number", 40, of_base(7, 40, CHAIN_ROWS, "run 12"))):
        feed = Feed(router, version=version, told=told)
        router.send(side.broken)
        checks.true(f"what the base has is held{name}", feed.line(HOLD - 0.01) is None)
        checks.same(f"the next batch has the next number of the base{name}", feed.batch("base 8 v45"), (BROKEN_DROPS, 8))
        router.send(side.chain)
        checks.same(f"and the one behind it the next{name}", feed.batch("base 9 v46"), (CHAIN_ROWS[2:], 9))
        checks.same(f"what is said{name}", (feed.is_quiet(), feed.end()), (True, going_on(40, 4, name=side.name)))
        router.hang_up()
    feed = Feed(router, version=3, told=of_base(0, 3, []))
    router.send(side.chain)
    checks.same("a base without a batch, and placements", (feed.batch("base 1 v4"), feed.end()),
                ((CHAIN_ROWS, 1), going_on(3, 0, name=side.name)))
    router.hang_up()
    feed = Feed(router)
    router.send(side.chain)
    checks.same("an empty book", (feed.batch("base 1 v1"), feed.is_quiet(), feed.end()), ((CHAIN_ROWS, 1), True, ""))
    router.hang_up()


def news(checks, side):
    """Lines of placements before that of a batch are said, and don't answer the batch."""
    router = side()
    feed = Feed(router)
    router.send(side.chain)
    feed.batch("base 1 v1")
    router.send(side.gone(A, A_B, B, B_A))
    feed.batch(f"over {B},{B_C} 0\nover {B},{B_C} 7\nlost 18446744073709551615\n{PLACE}")
    router.send(side.gone(B, B_A, A, A_B))
    checks.true("the next batch waits for the line of this one", feed.is_quiet())
    feed.say("base 2 v9")
    checks.same("and then comes", feed.batch("base 3 v10"), ([f"drop,{B},{B_A}"], 3))
    said = [f"over {B},{B_C} 0", f"over {B},{B_C} 7", "lost 18446744073709551615"]
    checks.same("each line is said with its batch", feed.end(), "".join(f"{side.name}: batch 2: {line}\n" for line in said))
    router.hang_up()


def refused(checks, side):
    """Refusals of a book that end the feed, and one that doesn't."""
    for word in ("keep 17", "journal 0", "stopped", "exhausted"):
        router = side()
        feed = Feed(router, version=40, told=of_base(7, 40, []))
        router.send(side.chain)
        feed.batch(f"batch 8 refused: {word}")
        checks.same(f"{word} ends the feed", feed.ended(),
                    (1, "", f"{going_on(40, 0, name=side.name)}{side.name}: batch 8 refused: {word}\n"))
        router.hang_up()
    router = side()
    feed = Feed(router, version=40, told=of_base(7, 40, []))
    router.send(side.chain)
    batches = [feed.batch(answer) for answer in ("batch 8 refused: full", "base 8 v50", "base 9 v60")]
    checks.same("halves of a batch", batches, [(CHAIN_ROWS, 8), (CHAIN_ROWS[:2], 8), (CHAIN_ROWS[2:], 9)])
    feed.end()
    router.hang_up()
    for answer in ("batch 8 refused: memory", "row 9 refused: memory\nbatch 8 refused: counted 3"):
        router = side()
        feed = Feed(router, version=40, told=of_base(7, 40, []))
        router.send(side.chain)
        batches = [feed.batch(line) for line in (answer, "base 8 v50", "base 9 v60")]
        checks.same(f"a batch for which there is no memory is sent again: {answer[:7]}", batches,
                    [(CHAIN_ROWS, 8), (CHAIN_ROWS[:2], 8), (CHAIN_ROWS[2:], 9)])
        checks.same(f"nothing of it is left out: {answer[:7]}", (feed.is_quiet(), feed.end()), (True, going_on(40, 0, name=side.name)))
        router.hang_up()


def wrong(checks, side):
    """Lines that no book writes at their place."""
    for answer, why in [("base 2 v2", OTHERS), ("base 0 v2", OTHERS), (f"base {MANY_DIGITS} v2", OTHERS), ("base 1 v1\nbase 2 v2", OTHERS),
                        (f"base 1 v{MANY_DIGITS}", UNKNOWN), ("base 1 v0", UNKNOWN)]:
        router = side()
        feed = Feed(router)
        router.send(side.chain)
        feed.batch(answer)
        line = answer.splitlines()[-1]
        checks.same(f"{answer[:40]!r} ends the feed", feed.ended(), (1, "", f"{side.name}: {line}: {why}\n"))
        router.hang_up()
    router = side()
    feed = Feed(router, version=40, told=of_base(7, 40, PAIR_ROWS))
    router.send(side.pair + side.put(A, A_B, B, B_A, metric=9, sequence=2))
    feed.batch("base 8 v40")
    checks.same("a version that isn't above the last", feed.ended()[2],
                f"{going_on(40, 2, name=side.name)}{side.name}: base 8 v40: {UNKNOWN}\n")
    router.hang_up()
    unknown = f"{side.name}: standard input and output: it is at version 40, and its database isn't known, for it answered: "
    for line in ("base 7 v39", "base 7", "base 7 40", "base v40", f"base 7 v{MANY_DIGITS}", f"base {MANY_DIGITS} v40", "lost 7",
                 "book refused: no"):
        feed = Feed(router, version=40, told=[line], is_accepted=False)
        checks.same(f"no base: {line[:30]}", feed.ended(), (1, "", f"{unknown}{line}\n"))
    held = "held,1,1.1.1.1,2.2.2.2,7,1,0x0,0x0,0x0,,0a00000002020202"
    feed = Feed(router, version=40, told=[*of_base(7, 40, PAIR_ROWS)[:-1], held, "snapshot end"], is_accepted=False)
    checks.same("a base with a placement", feed.ended(), (1, "", f"{side.name}: standard input and output: its snapshot has a line that is "
                                                          f"part of no batch: {held}\n"))


def strangers(checks, side):
    """Lines about placements that no batch of the feed has made are passed on as any other, and change nothing."""
    router = side()
    feed = Feed(router, command=("--", "sh", "-c", STRANGE))
    feed.say("ask,1")
    lines = [feed.line() for _ in range(5)]
    checks.same("they are passed on", lines, [PLACE, f"over {A},{A_B} 7", "lost 5", "held 5 v6", "released 5 v7"])
    router.send(side.chain)
    checks.same("and not taken for the line of a batch", feed.line(), "put")
    checks.same("nothing is said of them", feed.end(), "")
    router.hang_up()


# A program that answers the feed's first row, and the one that is passed on by lines of placements. Then it tells the next row's word.
STRANGE = f"""
IFS=, read -r _ number _
echo "ask $number v0 unknown-from"
read -r _
printf '%s\\n' '{PLACE}' 'over {A},{A_B} 7' 'lost 5' 'held 5 v6' 'released 5 v7'
IFS=, read -r word _
echo "$word"
exec sleep 60
"""


def endless(checks):
    """Lines that never end in the line of the batch end the feed, which waits for no more of them than a book can have."""
    from routed.feed.batches import MOST_NEWS, Batches
    from routed.model.database import Database
    from routed.model.rows import Link
    from routed.net.loop import Stopped
    said, link = [], Link.parse(row(A, A_B, B, B_A).split(","))
    batches = Batches(Database(), said.append, said.append)
    batches.next({link.key: link})
    checks.same("no batch has more lines than 4,096 links and 65,536 placements make", MOST_NEWS, 4096 * 8 + 65536)
    found = [batches.read(f"over {A},{A_B} 7") for _ in range(MOST_NEWS)]
    checks.same("each of them is said", (all(found), len(said)), (True, MOST_NEWS))
    try:
        batches.read("lost 1")
        checks.fail("one more is taken")
    except Stopped as fault:
        checks.same("one more ends the feed", str(fault), f"lost 1: no batch has more than {MOST_NEWS} such lines")


# ---- beside the real routed-tools listen


def with_placements(program, room):
    """A front with a book, the place for programs that place, and the file of accepted rows."""
    placements, keep = (os.path.join(room, name) for name in ("placements", "kept"))
    return Front(program, room, "--clients", "2", "--placements", placements, "--keep", keep), placements, keep


def placing(name, head, tail):
    return f"place,{name},{head},{tail},7,100,0x0,0x0,0x0,\n"


def placed(checks, side, program):
    """A feed is killed, others place meanwhile, and the next feed drops what went: the base is the feed's alone."""
    with tempfile.TemporaryDirectory() as room:
        front, placements, keep = with_placements(program, room)
        with front:
            router, placer = side(), Connection(placements)
            feed = to_front(router, front.updates)
            router.send(side.chain)
            checks.same("the feed's batch is news for those who place", placer.hear(1), "base 1 v1\n")
            route = "route cost=14 hops=2 again=no ero=0014140101080a000001200001080a0000032000\n"
            checks.same("a placing", placer.talk(placing(5, A, C)), f"place 5 v2 {route}")
            feed.process.kill()
            feed.process.wait()
            router.hang_up()
            checks.same("another without a feed", placer.talk(placing(6, A, C)), f"place 6 v3 {route}")
            feed = to_front(router, front.updates)
            router.send(side.broken)
            checks.same("what went meanwhile is dropped, in the next batch of the base", placer.hear(3), "lost 5\nlost 6\nbase 2 v4\n")
            checks.same("a release", placer.talk("release,5\n"), "released 5 v5\n")
            router.send(side.chain)
            checks.same("what comes back is the next", placer.hear(1), "base 3 v6\n")
            said = "".join(f"{side.name}: batch 2: lost {name}\n" for name in (5, 6))
            checks.same("what the feed says", feed.end(), going_on(3, 4, 0, 1, side.name) + said)
            router.hang_up()
        with open(keep, encoding="ascii") as file:
            checks.same("what is kept", file.read(), "\n".join(
                [*CHAIN_ROWS, "end,1,4", placing(5, A, C) + placing(6, A, C) + BROKEN_DROPS[0], *BROKEN_DROPS[1:], "end,2,2", "release,5",
                 *CHAIN_ROWS[2:], "end,3,2\n"]))


def recorded_beside(program, checks):
    """The messages of a real router, while a placement is in the book: its base is what the router told, and nothing less."""
    parts = {name: b"".join(data for _, data in messages) for name, messages in recorded().items()}
    with tempfile.TemporaryDirectory() as room:
        front, placements, _ = with_placements(program, room)
        with front:
            router, placer, news = Router(), Connection(placements), []

            def base():
                """The rows of the base, as the book has them; other lines are news."""
                placer.say("book\n")
                lines = list(iter(placer.lines.next, "book end\n"))
                news.extend(line for line in lines if line.startswith(("over ", "lost ")))
                return [line.rstrip("\n") for line in lines if line.startswith("put,")]

            feed = to_front(router, front.updates)
            router.send(parts["base"])
            rows = lab_rows()
            until(lambda: base() == rows, "the lab")
            line = placer.talk(placing(1, "10.0.0.2", "10.0.0.4").replace(",100,", ",50000000,"))
            checks.true("a placing over the circuit that goes down", line.startswith("place 1 v2 route cost=20 hops=1 "), line)
            router.send(parts["bandwidth"])
            taken = [each.replace("125000000", "90000000") if each.startswith("put,10.0.0.1,10.1.13.1,") else each for each in rows]
            until(lambda: base() == taken, "bandwidth that is taken")
            router.send(parts["down"])
            gone = [each for each in taken if "10.1.24.2" not in each]
            until(lambda: base() == gone, "a circuit that is gone")
            checks.same("the placement is lost", news, ["lost 1\n"])
            line = placer.talk(placing(1, "10.0.0.2", "10.0.0.4").replace(",100,", ",50000000,"))
            checks.true("and placed again", " route " in line and " hops=1 " not in line, line)
            said = feed.end()
            checks.true("the feed says which batch it was", re.search(r"(?m)^ospf: batch \d+: lost 1$", said), said)


# ---- all


def booked(checks, side):
    for scenario in (gone_on, news, refused, wrong, strangers):
        scenario(checks, side)
