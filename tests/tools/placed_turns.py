"""Turns of the connections that place, and of the one for updates, without a program: what the server gets, and who reads which lines."""
import contextlib
import os
import time

from tools.shares import Shares

from routed.front import placing, writing

ROW = b"place,%d,1.1.1.1,2.2.2.2,7,5,0x0,0x0,0x0,\n"
SHOW = b"show,%d\n"


@contextlib.contextmanager
def shares(room, count, **how):
    made = Shares(room, count, **how)
    try:
        yield made
    finally:
        made.close()


def in_turns(_, checks, room):
    """Connections have their turns in the order in which they came to have whole lines, one each, and each reads its own lines."""
    with shares(room, 3) as it:
        it.say(2, SHOW % 2)
        it.say(1, SHOW % 1 + b"show,")
        it.say(0, b"node,1.1.1.1,0\n")
        it.say(3, SHOW % 3)
        it.say(2, SHOW % 22 * 2)
        it.say(1, b"11\n")
        found = [(it.answer(b"line %d\n" % at), *(it.hear(at)[0] for at in range(4))) for at in range(6)]
        checks.same("turns and lines", found, [
            (SHOW % 2, b"", b"", b"line 0\n", b""), (SHOW % 1, b"", b"line 1\n", b"", b""),
            (b"node,1.1.1.1,0\n", b"line 2\n", b"", b"", b""), (SHOW % 3, b"", b"", b"", b"line 3\n"),
            (SHOW % 22 * 2, b"", b"", b"line 4\n", b""), (SHOW % 11, b"", b"line 5\n", b"", b"")])
        checks.same("no turn is left", it.has(), None)
        it.say(1, SHOW % 1)
        it.say(2, SHOW % 2)
        it.tell(b"a\nb")
        checks.same("lines come as they are said, whole ones", (it.hear(1), it.hear(2)), ((b"a\n", False), (b"", False)))
        it.answer(b"b\n")
        checks.same("the rest of a line", (it.hear(1), it.hear(2), it.answer()), ((b"bb\n", False), (b"", False), SHOW % 2))


def bytes_of_turns(_, checks, room):
    """Many rows of one connection are turns of at most 64 KiB, and others have theirs in between."""
    with shares(room, 2) as it:
        rows, at, found = b"".join(SHOW % number for number in range(30_000)), 0, []
        while (at < len(rows) or it.has() is not None) and len(found) < 99:
            with contextlib.suppress(BlockingIOError):
                while at < len(rows):
                    at += it.clients[1].send(rows[at:at + 5000])
            it.settle()
            if it.has() is not None and len(found) % 2 == 0:
                it.say(2, SHOW % 7)
            found.append(it.answer())
        checks.same("all rows, in order", b"".join(turn for turn in found if turn != SHOW % 7) == rows, True)
        checks.true("turns of 64 KiB at most, of whole lines",
                    all(len(turn) <= 1 << 16 and turn.endswith(b"\n") for turn in found) and len(found) < 40, [len(turn) for turn in found])
        checks.true("others between", sum(turn == SHOW % 7 for turn in found) >= 3, len(found))


def news(_, checks, room):
    """Lines of batches are for all who place, whole and between their turns; `over` lines of a held row are for the one that sent it."""
    with shares(room, 2) as it:
        it.say(1, b"held,1\n")
        it.say(0, b"end,1,0\n")
        it.say(2, SHOW % 2)
        it.answer(b"over 1.1.1.1,2.2.2.2 7\nheld 1 v1\n")
        checks.same("over lines of a held row", [it.hear(at)[0] for at in range(3)], [b"", b"over 1.1.1.1,2.2.2.2 7\nheld 1 v1\n", b""])
        it.tell(b"over 1.1.1.1,2.2.2.2 7\nlost 1\nba")
        told = b"over 1.1.1.1,2.2.2.2 7\nlost 1\n"
        checks.same("news", [it.hear(at)[0] for at in range(3)], [told] * 3)
        it.answer(b"se 1 v2\nbatch 9 refused: expected 2\nask 1 v2 none\nrow 8 refused: kind\n")
        checks.same("and the rest of them", [it.hear(at)[0] for at in range(3)],
                    [b"base 1 v2\nbatch 9 refused: expected 2\nask 1 v2 none\nrow 8 refused: kind\n", *[b"base 1 v2\n"] * 2])
        it.say(0, b"end,2,0\n")
        it.clients[0].close()
        it.answer(b"show 2\n")
        it.settle()
        it.answer(b"lost 2\nbase 2 v3\n")
        checks.same("news of updates whose connection has gone", it.hear(1)[0], b"lost 2\nbase 2 v3\n")
        checks.same("its open changes are dropped", [it.answer(), it.answer(b"batch 0 refused: expected 3\n"), it.has()],
                    [b"", b"end,0,0\n", None])
        checks.same("nobody hears of it", it.hear(1)[0], b"")


def unread(_, checks, room):
    """A connection for which more than 1 MiB of lines waits is ended, and holds nobody up before."""
    checks.same("the bounds", (writing.MOST, placing.MOST, placing.SECONDS), (1 << 20, 64, 30))
    with shares(room, 2) as it:
        line, told, heard = b"lost %s\n" % (b"1" * 994), 0, b""
        it.say(0, b"end,1,0\n")
        while len(it.placing.placers) == 2 and told < 3000:
            it.tell(line * 10)
            told += 10
            heard += it.hear(1)[0]
            it.hear(0)
        checks.true("one that reads has all", heard == line * told and it.hear(1) == (b"", False), len(heard))
        checks.true("it is ended behind 1 MiB and what a socket takes", 1048 <= told < 3000, told)
        said, is_over = it.hear(2)
        checks.true("it reads whole lines up to a point, and the end", is_over and line.startswith(said[len(said) // 1000 * 1000:])
                    and len(said) < told * 1000 - (1 << 20) + 11_000, (is_over, len(said)))
        checks.true("the log", "placements 2: it doesn't read its lines\n" in it.log())
        it.answer()
        it.say(1, SHOW % 1)
        checks.same("others go on", (it.answer(b"x\n"), it.hear(1)), (SHOW % 1, (b"x\n", False)))
    with shares(room, 1) as it:
        for at in range(2000):
            it.say(1, SHOW % at)
            if it.has() is None:
                break
            it.answer(b"x" * 999 + b"\n")
        checks.true("rows of one that doesn't read have no turn", 50 < at < 1048, at)
        said, is_over = it.hear(1)
        checks.same("and have one once it reads", (len(said), is_over, it.answer(b"y\n"), it.hear(1)),
                    (at * 1000, False, SHOW % at, (b"y\n", False)))


def books(_, checks, room):
    """The line `book`: behind earlier rows, at the version of the reply, and before further rows of anybody are passed on."""
    with shares(room, 2) as it:
        it.version, seen, begin = 4, [], it.sharing.begin
        it.say(1, SHOW % 1 + b"book\nrun\n" + SHOW % 2 + b"book\r\n")
        it.say(2, SHOW % 3)
        it.sharing.begin = lambda: (seen.append([(word, version) for word, version, _ in it.texts.asked]), begin())
        checks.same("rows behind `book` wait", it.answer(b"show 1\n"), SHOW % 1)
        it.sharing.begin = begin
        checks.same("the book is looked at before the next turn begins", (seen[:1], it.has()), ([[("book", 4)]], SHOW % 3))
        it.say(0, b"end,1,0\n")
        it.answer()
        it.answer(b"lost 1\nbase 1 v5\n")
        checks.same("news wait for a book that is made", (it.hear(1), it.hear(2)), ((b"show 1\n", False), (b"lost 1\nbase 1 v5\n", False)))
        it.texts.asked[0][2](b"version 4\n", b"rows\n" * 100_000, b"book end\n")
        said = b""
        for _ in range(100):
            it.settle()
            said += it.hear(1)[0]
        wanted = b"version 4\n" + b"rows\n" * 100_000 + b"book end\nlost 1\nbase 1 v5\n"
        checks.true("the book, and the news behind it", said == wanted, len(said))
        it.answer()
        checks.true("then the run", it.hear(1)[0] == b"run %s\n" % it.account.run.encode())
        it.say(2, b"book,\n")
        checks.same("rows behind it, up to the next book", (it.answer(), it.texts.asked[1][:2]), (SHOW % 2, ("book", 4)))
        it.answer()
        checks.same("a line that is no row ends a connection", it.hear(2), (b"refused\n", True))


def refused(_, checks, room):
    """Lines that aren't passed on end a connection behind the lines of its earlier rows; those of others and of the updates are no rows
    there."""
    for bad in (b"put,1\n", b"end,1,0\n", b"snapshot\n", b"node\n", b'place,"\n', b"version\n", b"x" * 65536, b"except,1\n", b"placed,1\n"):
        with shares(room, 2) as it:
            with contextlib.suppress(BlockingIOError):
                it.clients[1].sendall(SHOW % 1 + bad + SHOW % 2)
            it.settle()
            it.say(2, SHOW % 3)
            it.clients[1].setblocking(False)
            turns = []
            while it.has() is not None and len(turns) < 9:
                turns.append(it.answer(b"line\n" if it.has() in (SHOW % 1, SHOW % 3) else b""))
            checks.same(f"behind {bad[:9]!r}", (it.hear(1), it.hear(2)), ((b"line\nrefused\n", True), (b"line\n", False)))
            rows = b"".join(turns)
            checks.true(f"what the server gets with {bad[:9]!r}", bad.strip() not in rows and SHOW % 2 not in rows, turns)
    with shares(room, 1) as it:
        for row in (b"place,1\n", b"held\n", b"offer,\n", b"release,1\r\n", b"\n", b"ask,1\rleft,1\n", SHOW % 1):
            it.say(1, row)
            checks.same(f"passed on: {row!r}", it.answer(), row)
        it.say(0, ROW % 1)
        checks.same("turns behind one", (it.answer(), it.answer()), (b"", b"end,0,0\n"))
        checks.same("a row of those who place, from the updates", it.hear(0), (b"refused\n", True))


def lacking(_, checks, room):
    """If memory is refused to a request of the front's own, the request is sent again, and the turn goes on. Lines of other rows that are
    refused so are those of a connection."""
    with shares(room, 2) as it:
        it.say(1, SHOW % 1 + ROW % 5)
        it.say(2, SHOW % 2)
        checks.same("a turn", it.lack([0], b"row 1 refused: memory\nplace 5 refused: memory\n"), SHOW % 1 + ROW % 5)
        checks.same("its lines, without that of the front's own row", it.hear(1)[0], b"row 1 refused: memory\nplace 5 refused: memory\n")
        checks.same("no turn begins meanwhile", (it.has(), it.hear(2)[0]), (None, b""))
        it.wait()
        checks.same("the front's own row again", it.lack([0]), b"")
        it.wait()
        it.version = 3
        checks.same("and again, by which the turn ends", (it.answer(), it.account.version), (b"", 3))
        checks.same("then others have theirs", (it.answer(b"show 2 refused: absent\n"), it.hear(2)[0]),
                    (SHOW % 2, b"show 2 refused: absent\n"))
        checks.same("the log", it.log().count("a request of our own, which is sent again\n"), 2)
        it.say(1, SHOW % 1 + b"book\n" + SHOW % 3)
        it.say(2, SHOW % 2)
        checks.same("a book is asked for", it.lack([0], b"show 1\n"), SHOW % 1)
        it.version = 4
        checks.same("the request of that is refused", (it.hear(1)[0], it.has(), it.texts.asked), (b"show 1\n", None, []))
        it.wait()
        checks.same("it comes again", (it.answer(), [asked[:2] for asked in it.texts.asked]), (b"", [("book", 4)]))
        checks.same("and others behind it", (it.answer(b"x\n"), it.hear(2)[0]), (SHOW % 2, b"x\n"))
        it.texts.asked[0][2](b"version 4\n", b"book end\n")
        it.settle()
        checks.same("rows behind the book", (it.hear(1)[0], it.answer()), (b"version 4\nbook end\n", SHOW % 3))
        it.say(0, b"node,1.1.1.1,0\n")
        it.clients[0].close()
        it.settle()
        checks.same("changes are left open", it.answer(), b"node,1.1.1.1,0\n")
        checks.same("both own rows behind them are refused", it.lack([0, 1]), b"")
        it.wait()
        checks.same("they come again", it.answer(), b"")
        checks.same("the changes are dropped", it.lack([0], b"batch 0 refused: memory\n"), b"end,0,0\n")
        it.wait()
        checks.same("of which nobody hears", (it.answer(), it.has(), it.hear(1)[0], it.hear(2)[0]), (b"", None, b"", b""))
        late = it.connect(it.updates.accept)
        late.sendall(b"run\n")
        it.answer()
        checks.true("the place of updates is free again", late.recv(100).startswith(b"run "))
        it.say(1, SHOW % 1)
        it.has()
        it.tell(b"row %d refused: memory\n" % (it.count + 1))
        checks.same("a line that comes before the rest of the turn", it.hear(1)[0], b"row %d refused: memory\n" % (it.count + 1))
        it.tell(b"row %d refused: memory\n" % (it.count + 2))
        os.close(it.to)
        it.wait()
        checks.same("a server that ends before a row is sent again", (it.hear(1), it.hear(2)), ((b"", True), (b"", True)))
        it.to = os.dup(it.rows)


def many(_, checks, room):
    """64 connections; one more is busy. One that has gone leaves its place."""
    with shares(room, 64) as it:
        extra = it.connect(it.placing.take)
        checks.same("one connection too many", extra.recv(100), b"busy\n")
        for at in range(1, 65):
            it.say(at, SHOW % at)
        found = [(it.answer(b"%d\n" % at), it.hear(at)) for at in range(1, 65)]
        checks.same("each has its turn", found, [(SHOW % at, (b"%d\n" % at, False)) for at in range(1, 65)])
        it.clients[5].close()
        it.settle()
        it.answer()
        before, _ = len(it.placing.placers), it.connect(it.placing.take)
        checks.same("a place is free", (before, len(it.placing.placers)), (63, 64))


def rate(_, checks, room):
    """Of a connection so many rows a second are passed on, one second's at once; rows that only look aren't counted."""
    with shares(room, 2, rate=50) as it:
        it.say(1, b"".join(ROW % at for at in range(70)) + SHOW % 1)
        first = it.answer()
        checks.same("one second's rows at once", first, b"".join(ROW % at for at in range(50)))
        it.say(2, SHOW % 7 * 200)
        checks.same("others, whose rows aren't counted", it.answer(), SHOW % 7 * 200)
        began, rows = time.monotonic(), b""
        while SHOW % 1 not in rows and time.monotonic() < began + 20:
            if it.has() is not None:
                rows += it.answer()
            time.sleep(0.005)
        checks.same("the rest, in order", rows, b"".join(ROW % at for at in range(50, 70)) + SHOW % 1)
        checks.true("20 rows of 50 a second", 0.3 < time.monotonic() - began < 10, time.monotonic() - began)


def raising(*_):
    raise KeyError("planted")


def failed(_, checks, room):
    """An exception in the code of one connection ends it alone, in its turn and before it, and what its lines say of the book counts."""
    for name in ("pass_lines", "settle", "pass_own"):
        with shares(room, 3) as it:
            victim = next(placer for placer in it.placing.placers if placer.use.number == 1)
            it.say(1, SHOW % 1)
            it.say(2, SHOW % 2)
            it.say(1, SHOW % 11)
            setattr(victim, name, raising)
            it.version = 3
            checks.same(f"its turn, {name}", it.answer(b"place 1 v3 route cost=5 hops=2 again=no ero=00\n"), SHOW % 1)
            log = it.log()
            checks.true(f"the log, {name}", "placements 1: ended by an exception, KeyError at " in log and log.count("exception") == 1, log)
            checks.same(f"it ends and others go on, {name}", (it.hear(1), it.answer(b"x\n"), it.hear(2), it.has()),
                        ((b"", True), SHOW % 2, (b"x\n", False), None))
            checks.same(f"the version counts, {name}", (it.account.version, len(it.placing.placers)), (3, 2))
    with shares(room, 2) as it:
        it.say(1, SHOW % 1)
        it.tell(b"place 1 v1 route cost=5 hops=2 again=no ero=00\n")
        next(placer for placer in it.placing.placers if placer.use.number == 1).fail()
        it.version = 2
        it.say(2, SHOW % 2)
        rows = it.answer(b"place 2 v2 route cost=5 hops=3 again=no ero=00\n")
        checks.same("one that has gone in its turn", (rows, it.answer(b"y\n"), it.hear(2)),
                    (SHOW % 1, SHOW % 2, (b"y\n", False)))
        checks.same("its placements count", (it.account.placements.links, it.account.version), ({1: 2, 2: 3}, 2))
    with shares(room, 2) as it:
        tell = placing.Placer.tell
        try:
            placing.Placer.tell = lambda placer, news: raising() if placer.use.number == 1 else tell(placer, news)
            it.say(0, b"end,1,0\n")
            it.version = 1
            it.answer(b"base 1 v1\n")
        finally:
            placing.Placer.tell = tell
        checks.same("news that one can't be told", (it.hear(0), it.hear(1), it.hear(2)),
                    ((b"base 1 v1\n", False), (b"", True), (b"base 1 v1\n", False)))


def ended(_, checks, room):
    """The server ends: each connection reads the whole lines that are there, and its end."""
    with shares(room, 2) as it:
        it.say(1, SHOW % 1)
        it.say(2, SHOW % 2)
        it.tell(b"a\nb")
        os.close(it.to)
        it.settle()
        checks.same("lines and ends", [it.hear(at) for at in range(3)], [(b"", True), (b"a\n", True), (b"", True)])
        for _ in range(2):
            it.sharing.look()
        checks.true("a turn that doesn't end is said", it.log().endswith("shares: the server has said nothing of a turn's end for 30 s\n"))
        late = it.connect(it.placing.take)
        checks.same("one that comes then", late.recv(9), b"")
        it.to = os.dup(it.rows)


PARTS = (failed, ended, in_turns, bytes_of_turns, news, unread, books, refused, lacking, many, rate)
