"""Turns of the connections that the relay of `routed-tools listen` has: few at a time have more than one row at the server, and all get
on."""
import contextlib
import tempfile
import time

from tools.counts import TOGETHER, counted, extra, full, late, lineless, marked, real, two_fronts, without
from tools.fronts import MARK
from tools.streams import EACH, FLOODING, LONG, MOST, SOME, Streams, asks, closed, lines

from routed.front.turns import ROWS
from routed.net.stream import LONGEST


def turns(program, checks):
    start = time.monotonic()
    with tempfile.TemporaryDirectory() as room:
        checks.parts_in(room, [closed(test) for test in (
            few, one_row, in_order, updates, one_updater, short, last_row, gone, refused, ended, failed, unread, idle, lineless, extra,
            late, full, two_fronts, counted, without, marked, real)], program, checks)
    print(f"turns: {FLOODING} and {TOGETHER} connections that flood, {time.monotonic() - start:.0f} s")


# ---- which rows the server has


def few(program, checks, room):
    """Of streams that flood, as many as there are turns have rows at the server, and no more rows than a turn has."""
    streams = Streams(room, FLOODING)
    for at in range(FLOODING):
        streams.flood(at)
    wanted = [ROWS] * MOST + [0] * (FLOODING - MOST)
    checks.same("rows at the server of streams that flood", streams.at_server(), wanted)
    streams.answer(0, ROWS - 1)
    checks.same("a turn lasts until its last row is answered", streams.at_server(), [1, *wanted[1:]])
    found = [wanted]
    while any(found[-1]):
        streams.answer(max(range(FLOODING), key=found[-1].__getitem__), 1)
        found.append(streams.at_server())
    most = max(sum(map(bool, counts)) for counts in found), max(map(max, found))
    checks.same("streams with rows at the server, and the most rows of one", most, (MOST, ROWS))
    for at in range(FLOODING):
        checks.same(f"the lines of stream {at}, which floods", streams.hear(at), (lines(at, EACH), False))
    checks.same("no turn is left", streams.have_turns(), ([], []))


def one_row(program, checks, room):
    """A row of a stream that waits for its line is at the server at once, whoever floods and however it ends."""
    row = asks(0, 1)
    forms = [row, row[:-1] + b"\r\n", b"\n\r\n" + row + b"\n\r\n\n", MARK.encode("latin-1") + row, row[:-1] + b"\r\r\n"]
    streams = Streams(room, FLOODING + len(forms) + 1)
    for at in range(FLOODING):
        streams.flood(at)
    flooding = streams.at_server()
    for at, form in enumerate(forms, FLOODING):
        for number, rows in enumerate([form, row, row, row], 1):
            streams.say(at, rows)
            found = streams.at_server()[at], streams.hear(at)
            streams.answer(at)
            checks.same(f"row {number} beside streams that flood: {form!r}", (*found, *streams.hear(at)),
                        (1, (lines(0, 1) * (number - 1), False), lines(0, 1) * number, False))
    at += 1
    streams.say(at, asks(at, 1))
    streams.say(at, asks(at, 1, 1))
    checks.same("a second row before the first one's line", streams.at_server()[at], 1)
    streams.answer(at)
    checks.same("it waits for that alone", streams.at_server()[at], 1)
    streams.answer(at)
    streams.say(at, asks(at, 2, 2)[:-1])
    checks.same("a row and a part of one", streams.at_server()[at], 1)
    checks.same("streams that flood beside them", streams.at_server()[:FLOODING], flooding[:FLOODING])


def in_order(program, checks, room):
    """Streams that flood have their turns one after the other."""
    streams, order = Streams(room, FLOODING, 1), []
    for at in range(FLOODING):
        streams.flood(at)
    while any(found := streams.at_server()):
        order += [at for at, count in enumerate(found) if count]
        streams.answer(order[-1])
    checks.same("the order of turns", order, list(range(FLOODING)) * -(-EACH // ROWS))


def updates(program, checks, room):
    """The stream of the updates needs no turn, and takes none."""
    streams = Streams(room, FLOODING)
    streams.add_updates()
    for at in range(FLOODING):
        streams.flood(at)
    flooding = streams.at_server()
    streams.flood(FLOODING)
    checks.same("many rows of the updates", streams.at_server(), [*flooding[:-1], EACH])
    checks.same("streams that have turns beside them", streams.have_turns()[0], list(range(MOST)))
    streams.answer_all()
    streams.say(FLOODING, asks(FLOODING, EACH, EACH) + b"end,1,0\n")
    checks.same("and many again", streams.at_server(), [0] * FLOODING + [EACH + 1])
    checks.same("the lines of the first ones", streams.hear(FLOODING), (lines(FLOODING, EACH), False))


def one_updater(program, checks, room):
    """A second connection for updates is told that the place is another's, and one behind the server's end reads its own end alone."""
    streams = Streams(room, 0)
    stream = streams.add_updates()
    checks.same("a second connection for updates", streams.update(stream).recv(100), b"busy\n")
    streams.end(0)
    checks.same("the first one, where the server has ended", streams.hear(0), (b"", True))
    checks.same("the next one", streams.update(stream).recv(100), b"")


def short(program, checks, room):
    """A turn of few rows, rows that a carriage return ends, and blank rows: the turn ends with the last line."""
    row = asks(0, 1)
    for name, rows, count in [
        ("two rows", asks(0, 2), 2), ("a turn's rows", asks(0, ROWS), ROWS), ("a row more", asks(0, ROWS + 1), ROWS + 1),
        ("carriage returns", asks(0, EACH)[:-1].replace(b"\n", b"\r") + b"\n", EACH), ("both", asks(0, EACH).replace(b"\n", b"\r\n"), EACH),
        ("blank rows", b"\n\r\n\r" + asks(0, EACH).replace(b"\n", b"\n\n\r\n\r") + b"\n", EACH),
        ("blank rows alone", b"\n\r\n\r" * 50 + b"\n", 0),
        ("a row behind blank rows", b"\n\r" * 50 + row, 1), ("a row before blank rows", row + b"\n\r\n" * 50, 1),
    ]:
        streams = Streams(room, 2, 1)
        streams.say(0, rows)
        streams.flood(1)
        checks.same(f"at the server, with {name}", streams.at_server(), [min(count, ROWS), 0 if count > 1 else ROWS])
        most = streams.answer_all()
        checks.same(f"the lines, with {name}", (most, streams.hear(0), streams.hear(1)),
                    (ROWS, (lines(0, count), False), (lines(1, EACH), False)))
        streams.leave(0)
        checks.same(f"no row of our own, with {name}", (streams.at_server(), streams.have_turns()), ([0, 0], ([], [])))
        streams.answer_all()
        checks.same(f"the end, with {name}", (streams.hear(0), streams.free()), ((lines(0, count), True), [0]))


# ---- how a turn ends


def last_row(program, checks, room):
    """A connection ends its rows in a turn, or before it has one, and its last row has no line feed."""
    for count in (0, 1, 2, ROWS - 1, ROWS, ROWS + 1, EACH):
        for at in range(2):
            streams = Streams(room, 3, 1)
            for other in range(2):
                streams.say(other, asks(other, count) + asks(other, 1, count)[:-1] if other == at else asks(other, EACH))
            streams.leave(at)
            streams.flood(2)
            most = streams.answer_all()
            name = f"{count} rows and a part of one, as number {at}"
            checks.same(f"a connection that ends behind {name}", (most, streams.hear(at), streams.free()),
                        (ROWS, (lines(at, count), True), [at]))
            checks.same(f"others beside {name}", (streams.hear(1 - at), streams.hear(2), streams.have_turns()),
                        ((lines(1 - at, EACH), False), (lines(2, EACH), False), ([], [])))


def gone(program, checks, room):
    """A connection that closes in a turn, or waits for one: its rows are answered, turn by turn, and the next connection has none of their
    lines."""
    for at in range(2):
        streams = Streams(room, 3, 1)
        for other in range(3):
            streams.flood(other)
        streams.clients[at].close()
        streams.settle()
        most, order = 0, []
        while any(found := streams.at_server()):
            most = max(most, *found)
            order.append(next(other for other in range(3) if found[other]))
            streams.answer(order[-1])
        checks.same(f"turns beside a connection that is gone, as number {at}", (most, order[:6]), (ROWS, [0, 1, 2] * 2))
        checks.same(f"others beside it, as number {at}", (streams.hear(1 - at), streams.hear(2), streams.have_turns(), streams.free()),
                    ((lines(1 - at, EACH), False), (lines(2, EACH), False), ([], []), [at]))
        streams.clients[at] = streams.connect(at)
        streams.flood(at)
        streams.answer_all()
        checks.same(f"the next connection, as number {at}", (streams.hear(at), streams.have_turns()), ((lines(at, EACH), False), ([], [])))


def refused(program, checks, room):
    """A connection that is cut off in a turn: the lines of its rows, then `refused`."""
    for wrong in (b'ask,"\n', b"9" * 70_000):
        streams = Streams(room, 2, 1)
        streams.say(0, asks(0, SOME) + wrong[:60_000])
        streams.flood(1)
        with contextlib.suppress(BlockingIOError):
            streams.clients[0].sendall(wrong[60_000:])
        streams.settle()
        streams.answer_all()
        found = streams.hear(0), streams.hear(1), streams.have_turns(), streams.free()
        checks.same(f"a connection that is cut off for {wrong[:9]!r}", found,
                    ((lines(0, SOME) + b"refused\n", True), (lines(1, EACH), False), ([], []), [0]))


def ended(program, checks, room):
    """The server ends a session that has a turn or waits for one: the connection ends, and the turn goes on to the next one that is
    there. Its seat is another's once the server has opened the files again, and nobody's otherwise."""
    for gone_ones, order in (([0], [1, 2, 3]), ([1], [0, 2, 3]), ([1, 0], [2, 3]), ([0, 1, 2], [3]), ([2, 1], [0, 3])):
        for begins in (True, False):
            streams = Streams(room, 4, 1)
            for at in range(4):
                streams.flood(at)
            for at in gone_ones:
                streams.end(at)
                if begins:
                    streams.begin(at)
            found = []
            while any(counts := streams.at_server()):
                found.append(next(at for at in range(4) if counts[at]))
                streams.answer(found[-1])
            checks.same(f"turns where the server ends streams {gone_ones}", found[:2 * len(order)], order * 2)
            if not begins:
                checks.same(f"the server hasn't opened the files of {gone_ones} yet", [streams.hear(at) for at in gone_ones],
                            [(b"", False)] * len(gone_ones))
                streams.pass_time()
            checks.same(f"the lines where it ends streams {gone_ones}", [streams.hear(at) for at in range(4)],
                        [(b"", True) if at in gone_ones else (lines(at, EACH), False) for at in range(4)])
            checks.same(f"no turn is left where it ends streams {gone_ones}", (streams.have_turns(), streams.free()),
                        (([], []), gone_ones if begins else []))
            checks.same(f"the log where it ends streams {gone_ones}", streams.log("again"),
                        [] if begins else [f"turns: seat {at + 1}: the server hasn't opened its files again\n" for at in gone_ones])


def failed(program, checks, room):
    """An exception ends the connection of a stream that has a turn or waits for one, once or twice: others have turns, and its seat is
    another's, once."""
    for name, at, count in (("with a turn", 0, 1), ("that waits", 1, 1), ("with a turn, twice", 0, 2), ("that waits, twice", 1, 2)):
        streams = Streams(room, 3, 1)
        for each in range(3):
            streams.flood(each)
        relay = streams.relay(at)
        for _ in range(count):
            relay.loop.call(lambda: {}["key"])
            streams.settle()
        streams.answer_all()
        for _ in range(2):
            streams.pass_time()
            streams.answer_all()
        others = [each for each in range(3) if each != at]
        checks.same(f"an exception of a stream {name}: the others", [streams.hear(each) for each in others],
                    [(lines(each, EACH), False) for each in others])
        checks.same(f"an exception of a stream {name}: turns", streams.have_turns(), ([], []))
        checks.same(f"an exception of a stream {name}: its place", streams.free(), [at])
        streams.clients[at] = streams.connect(at)
        streams.flood(at)
        streams.answer_all()
        checks.same(f"an exception of a stream {name}: the next one", (streams.hear(at), streams.free()), ((lines(at, EACH), False), []))


def unread(program, checks, room):
    """A connection that doesn't read has a turn for no longer than the server needs for its rows, and all of its lines once it reads."""
    for name, count, long in (("short lines", 400, b"." * 1000), ("long lines", EACH, b"." * LONG)):
        streams = Streams(room, 3, 1)
        streams.say(0, asks(0, count))
        streams.flood(1)
        streams.answer_all(0, long=long)
        while 0 in streams.have_turns()[1] and streams.answer(1):
            streams.answer_all(0, long=long)
        held = streams.relay(0)
        kept = held.connection.waiting
        checks.true(f"a connection that doesn't read {name} is held up", kept and held.to_server, (kept[:9], held.to_server[:9]))
        checks.true(f"the lines that are kept for it, with {name}", len(kept) < 2 * LONGEST + LONG, len(kept))
        found = streams.have_turns()
        checks.true(f"and neither has a turn nor waits for one, with {name}", 0 not in found[0] + found[1], found)
        streams.flood(2)
        streams.answer_all(1, 2)
        checks.same(f"others beside a connection that doesn't read {name}", [streams.hear(at) for at in (1, 2)],
                    [(lines(at, EACH), False) for at in (1, 2)])
        wanted = lines(0, count, long=long)
        for _ in range(count):
            streams.answer_all(long=long)
            if len(streams.hear(0)[0]) == len(wanted):
                break
        checks.true(f"its lines when it reads, with {name}", streams.hear(0) == (wanted, False), len(streams.heard[0]))
        checks.same(f"no turn is left with {name}", streams.have_turns(), ([], []))


def idle(program, checks, room):
    """A connection that is ended as idle, in a turn, before it has one, or with lines that it doesn't take: its place is free in the
    end."""
    for name, at, long in (("in a turn", 0, b""), ("before its turn", 1, b""), ("with lines that it doesn't take", 0, b"." * LONG)):
        streams = Streams(room, 3, 1)
        for other in range(2):
            streams.flood(other)
        if long:
            streams.answer_all(0, long=long)
        streams.relay(at).end_idle(time.monotonic())
        streams.flood(2)
        streams.answer_all()
        found, is_all = streams.hear(at)
        wanted = lines(at, EACH, long=long)
        checks.true(f"a connection is ended that is idle {name}", is_all and (wanted.startswith(found) if long else found == wanted),
                    found[-99:])
        checks.same(f"turns after it was ended {name}", (streams.have_turns(), streams.free()), (([], []), [at]))
        checks.same(f"another one after it was ended {name}", streams.hear(2), (lines(2, EACH), False))
