"""Turns where a count of rows is wrong, at two fronts, and beside programs in processes of their own."""
import argparse
import contextlib
import fcntl
import itertools
import os
import random
import re
import signal
import threading
import time

from program.served import NARROW
from program.serving import PATIENCE, ROUTERS, batches_of, judged
from reference import changes
from reference.versions import Versions
from tools.fronts import MARK, Connection, Front
from tools.streams import EACH, FLOODING, LONG, Streams, asks, lines

from routed.front import listen
from routed.front.turns import ROWS, SILENCE

TOGETHER, MANY, SINGLE = 16, 96, 4  # connections to the program that flood, the rows of each, and connections that wait for each line
UPDATES = 20  # batches beside them


# ---- a count that is wrong, two fronts


def lineless(program, checks, room):
    """Rows that have no line hold their stream up no longer than some moments, and others neither. The log says how many they were."""
    def drop(streams, count):
        streams.at_server()
        for _ in range(count):
            streams.left[0].popleft()

    for name, rows, count, more in (("in a turn", asks(0, EACH), 6, b""), ("of a whole turn", asks(0, EACH), ROWS, b""),
                                    ("of one row", asks(0, 1), 1, asks(0, EACH - 1, 1)), ("before the end", asks(0, ROWS), 1, None)):
        streams = Streams(room, 2, 1)
        streams.say(0, rows)
        drop(streams, count)
        streams.answer(0)
        if more is None:
            streams.leave(0)
        else:
            streams.say(0, more)
        if more is not None:
            streams.flood(1)
            if len(rows) > len(asks(0, 1)):
                checks.same(f"rows without a line {name}: the others wait", streams.at_server(), [0, 0])
            for _ in range(2):
                streams.pass_time(0)
            checks.same(f"rows without a line {name}: then they have turns", streams.at_server(), [0, ROWS])
            checks.same(f"rows without a line {name}: the log", streams.log("without"),
                        [f"turns: ask 1: {count} rows without a line in 1 s\n"])
        else:  # the server ends the session
            streams.flood(1)
        streams.answer_all()
        last = ROWS if more is None else EACH
        checks.same(f"rows without a line {name}: the other lines", (streams.hear(0), streams.hear(1), streams.have_turns()),
                    ((lines(0, last - count, count), more is None), (lines(1, EACH), False), ([], [])))
    streams = Streams(room, 2, 1)
    streams.say(0, asks(0, ROWS))
    streams.flood(1)
    streams.answer(0, 4)
    streams.pass_time()
    checks.same("rows without a line behind some that have one", streams.at_server(), [ROWS - 4, 0])
    drop(streams, ROWS - 4)
    streams.pass_time()
    checks.same("others have their turns later", streams.at_server(), [0, ROWS])
    streams = Streams(room, 2, 1)
    streams.flood(1)
    streams.say(0, asks(0, 10) + b'ask,"\n')
    streams.answer(1)
    checks.same("rows of one turn before a row that isn't passed on", streams.at_server(), [10, 0])
    drop(streams, 4)
    streams.answer(0)
    streams.at_server()
    checks.same("those that have no line aren't waited for", (streams.hear(0), streams.free(), streams.have_turns()),
                ((lines(0, 6, 4) + b"refused\n", True), [0], ([1], [])))


def extra(program, checks, room):
    """Lines without rows, to a connection that doesn't read while it waits for its turn: it has none until it reads, and others have
    theirs."""
    streams = Streams(room, 3, 1)
    for at in range(3):
        streams.flood(at)
    for _ in range(EACH):
        with contextlib.suppress(BlockingIOError):
            os.write(streams.files[1][1], b"." * LONG + b"\n")
        streams.settle()
    streams.answer_all(0, 2)
    checks.same("others beside a connection that doesn't read lines without rows", [streams.hear(at) for at in (0, 2)],
                [(lines(at, EACH), False) for at in (0, 2)])
    checks.same("it has no row at the server", (streams.at_server()[1], streams.have_turns()[0]), (0, []))
    for _ in range(EACH):
        streams.hear(1)
        streams.answer_all()
    checks.same("its own lines, when it reads", streams.hear(1)[0].lstrip(b".\n"), lines(1, EACH))


def late(program, checks, room):
    """A server that takes long has rows of one turn more of a connection each second at most, and those of others. Its lines are whole."""
    streams, start = Streams(room, 2, 1, is_held=False), time.monotonic()
    for at in range(2):
        streams.flood(at)
    streams.until(lambda: streams.at_server()[1])
    checks.true("the turn of the next one begins after a second without a line", time.monotonic() >= start + SILENCE)
    streams = Streams(room, 2, 1)
    for at in range(2):
        streams.flood(at)
    for at, wanted in ((0, [ROWS, ROWS]), (0, [ROWS, ROWS]), (1, [2 * ROWS, ROWS]), (1, [2 * ROWS, ROWS]), (0, [2 * ROWS] * 2)):
        streams.pass_time(at)
        checks.same(f"rows at a late server: {wanted}", streams.at_server(), wanted)
    checks.same("the log of a late server", streams.log("without"),
                [f"turns: ask {number}: {ROWS} rows without a line in 1 s\n" for number in (1, 2, 1)])
    streams.answer_all()
    checks.same("the lines of a late server", [streams.hear(at) for at in range(2)], [(lines(at, EACH), False) for at in range(2)])
    streams.say(0, asks(0, EACH))
    streams.flood(1)
    for at in range(ROWS - 1):
        streams.answer(0, 1)
        streams.pass_time(0)
    checks.same("a server that says a line at times is waited for", streams.at_server(), [1, 0])
    streams.answer_all()
    streams.pass_time()
    streams.say(0, asks(0, 2))
    streams.leave(0)
    streams.flood(1)
    streams.pass_time(1)
    checks.same("so is one that has the last rows", streams.at_server(), [2, 0])
    streams.pass_time(0)
    checks.same("but others go on", streams.at_server(), [2, ROWS])
    streams.answer_all()
    checks.same("the end beside a late server", (streams.hear(0), streams.hear(1)),
                ((lines(0, EACH) * 2 + lines(0, 2), True), (lines(1, EACH) * 3, False)))
    streams.clients[0] = streams.connect(0)
    streams.flood(1)
    streams.say(0, asks(0, 10) + b'ask,"\n')
    streams.answer(1)
    for _ in range(3):
        streams.pass_time(0)
    checks.same("a row that isn't passed on, behind rows at a late server", (streams.at_server(), streams.hear(0)),
                ([10, ROWS], (b"", False)))
    streams.answer_all()
    checks.same("its end behind their lines", (streams.hear(0), streams.hear(1)),
                ((lines(0, 10) + b"refused\n", True), (lines(1, EACH) * 4, False)))


def full(program, checks, room):
    """Rows that fill the pipe of their stream hold nothing up that is behind them."""
    for name, rows, wanted in (("a long row", asks(0, 1)[:-1] + b"9" * 60_000 + b"\n", lines(0, 1)), ("blank rows", b"\n" * 60_000, b"")):
        streams = Streams(room, 2, 1)
        fcntl.fcntl(streams.files[0][0], fcntl.F_SETPIPE_SZ, NARROW)
        streams.say(0, rows)
        relay = streams.relay(0)
        relay.end_idle(time.monotonic())  # their end is behind them before they are written
        checks.true(f"the pipe takes a part of {name}", relay.server.waiting, streams.at_server())
        streams.flood(1)
        for _ in range(EACH):
            streams.answer_all()
            streams.settle()
        checks.same(f"the end behind {name}", streams.hear(0), (wanted, True))
        checks.same(f"another one beside {name}", (streams.hear(1), streams.have_turns()), ((lines(1, EACH), False), ([], [])))


def two_fronts(program, checks, room):
    """Two fronts in one process have turns of their own, as many as the process may use processors."""
    numbers = signal.SIGTERM, signal.SIGINT, signal.SIGCHLD
    before, allowed = [signal.getsignal(number) for number in numbers], os.sched_getaffinity(0)
    count = len(allowed) + 2

    def served(name):
        return Streams(room, count, front=listen.Front(argparse.Namespace(
            program="routed", journal=os.path.join(room, name), run=None, renew=False, log_level="error", clients=count, each=0, idle=0)))

    try:
        kept = [served("all"), served("all too")]
        os.sched_setaffinity(0, {min(allowed)})
        kept.append(served("one"))
    finally:
        os.sched_setaffinity(0, allowed)
        signal.set_wakeup_fd(-1)
        for number, handler in zip(numbers, before):
            signal.signal(number, handler)
    most = [len(allowed), len(allowed), 1]
    for streams in kept:
        for at in range(count):
            streams.flood(at)
    checks.same("rows at the servers of fronts in one process", [streams.at_server() for streams in kept],
                [[ROWS] * taking + [0] * (count - taking) for taking in most])
    for streams in kept:
        streams.answer_all()
    checks.same("lines of fronts in one process", [[streams.hear(at) for at in range(count)] for streams in kept],
                [[(lines(at, EACH), False) for at in range(count)]] * 3)


# ---- tools/listen


COUNTING = r"""#!/usr/bin/env python3
import os, select, sys
counts = open(os.path.join(os.path.dirname(sys.argv[0]), "counts"), "w")
pairs = [line.rstrip().split("=") for line in open(sys.argv[sys.argv.index("--clients-from") + 1])]
poll, by_file = select.poll(), {}
def begin(stream, rows, lines):
    stream[:] = rows, lines, b"", [], stream[4]
    by_file[rows] = stream
    poll.register(rows, select.POLLIN)
def opened(stream):
    begin(stream, os.open(stream[4][0], os.O_RDONLY), os.open(stream[4][1], os.O_WRONLY))
streams = [[0, 0, b"", [], pair] for pair in [None, *pairs]]
begin(streams[0], 0, 1)
for stream in streams[1:]:
    opened(stream)
while True:
    ready = poll.poll(30 if any(stream[3] for stream in streams) else None)
    for file, events in ready:
        stream = by_file[file]
        if data := os.read(file, 1 << 16):
            *whole, stream[2] = (stream[2] + data).split(b"\n")
            stream[3] += filter(None, whole)
            continue
        if not file:
            sys.exit()
        for each in stream[:2]:
            os.close(each)
        poll.unregister(file)
        opened(stream)
    if not ready:  # nothing more comes before an answer
        print(*(len(stream[3]) for stream in streams[1:]), file=counts, flush=True)
        stream = max(streams, key=lambda it: len(it[3]))
        os.write(stream[1], b"".join(b"ask %s v0 none\n" % row.split(b",")[1] for row in stream[3]))
        stream[3].clear()
"""


def counted(program, checks, room):
    """`routed-tools listen` gives a program rows of as many streams that flood as it may use processors, 16 of each, and their lines are
    whole."""
    for processors in sorted({1, len(os.sched_getaffinity(0))}):
        os.mkdir(inner := os.path.join(room, str(processors)))

        class Counting:
            path = os.path.join(inner, "routed")

        with open(Counting.path, "w", encoding="ascii") as script:
            script.write(COUNTING)
        os.chmod(Counting.path, 0o700)
        allowed = sorted(os.sched_getaffinity(0))[:processors]
        with Front(Counting, inner, "--clients", str(FLOODING + 1), preexec_fn=lambda: os.sched_setaffinity(0, allowed)) as front:
            together, single, rows = [Connection(front.ask) for _ in range(FLOODING)], Connection(front.ask), 4 * ROWS
            for at, taken in enumerate(together):
                taken.socket.sendall(asks(at, rows))
            wanted = [f"ask {number} v0 none\n" for number in range(3)]
            found = [single.talk(f"ask,{number}\n") for number in range(3)]
            checks.same(f"one row each time beside streams that flood {processors} processors", found, wanted)
            wanted = [lines(at, rows).decode().replace("v1", "v0") for at in range(FLOODING)]
            checks.same(f"the lines of streams that flood {processors} processors", [taken.leave() for taken in together], wanted)
            with open(os.path.join(inner, "counts"), encoding="ascii") as counts:
                found = [[int(count) for count in line.split()] for line in counts]
            checks.same(f"streams that flood {processors} processors at once, and rows of each",
                        (max(sum(count > 1 for count in line) for line in found), max(map(max, found))), (min(processors, FLOODING), 16))


LINELESS = r"""#!/usr/bin/env python3
import sys
rows, lines = open(sys.argv[sys.argv.index("--clients-from") + 1]).read().rstrip().split("=")
import threading
def answer():
    with open(rows, "rb") as asked, open(lines, "wb", buffering=0) as said:
        for at, row in enumerate(filter(bytes.strip, asked)):
            if at not in (0, 17):
                said.write(b"ask %s v0 none\n" % row.split(b",")[1])
threading.Thread(target=answer, daemon=True).start()
for row in sys.stdin.buffer:
    sys.stdout.buffer.write(b"ask %s v0 none\n" % row.split(b",")[1])
    sys.stdout.buffer.flush()
"""


def without(program, checks, room):
    """The same, of a program."""
    class Lineless:
        path = os.path.join(room, "routed")

    with open(Lineless.path, "w", encoding="ascii") as script:
        script.write(LINELESS)
    os.chmod(Lineless.path, 0o700)
    with Front(Lineless, room, "--clients", "1") as front:
        taken = Connection(front.ask)
        taken.socket.sendall(asks(0, 40))
        wanted = [line for at, line in enumerate(lines(0, 40).decode().replace("v1", "v0").splitlines(keepends=True)) if at not in (0, 17)]
        checks.same("lines behind rows that have none", taken.hear(38), "".join(wanted))


def marked(program, checks, room):
    """A second byte order mark at the beginning is a row."""
    with Front(program, room, "--clients", "2") as front:
        taken, other = Connection(front.ask), Connection(front.ask)
        taken.socket.sendall(2 * MARK.encode("latin-1") + b"\n" + asks(0, EACH))
        other.socket.sendall(asks(1, EACH))
        wanted = [re.sub("v1 none", "v0 unknown-from", lines(at, EACH).decode()) for at in range(2)]
        checks.same("rows behind a second mark", (taken.leave(), other.leave()), ("row 1 refused: kind\n" + wanted[0], wanted[1]))


def real(program, checks, room):
    """Connections that flood the program beside batches and beside others that wait for each line: all lines are whole, in order, and
    right."""
    draw = random.Random(9)
    asked = [f"ask,{at},10.0.0.{at},10.0.0.{(at * 5 + 1) % ROUTERS},{at % 8},{draw.choice([0, 5])},0x0,0x0,0x0," for at in range(ROUTERS)]
    versions, told = Versions(changes.updates(draw, UPDATES, ROUTERS), asked), [0]
    with Front(program, room) as front:
        together, found, done = [Connection(front.ask) for _ in range(TOGETHER)], [[] for _ in range(SINGLE)], threading.Event()
        text = "".join(f"{ask}\n" for ask in itertools.islice(itertools.cycle(asked), MANY))

        def ask_on(kept):
            taken = Connection(front.ask)
            for at in itertools.count():
                if done.is_set() and at % ROUTERS == 0:
                    break
                before = told[0]
                kept.append((before, taken.talk(f"{asked[at % ROUTERS]}\n")))

        threads = [threading.Thread(target=ask_on, args=(kept,), daemon=True) for kept in found]
        updating = Connection(front.updates)
        for thread in threads:
            thread.start()
        for taken in together:
            taken.say(text)
        for number, batch in enumerate(batches_of(versions), 1):
            checks.same(f"batch {number} beside connections that flood", updating.talk(batch), f"version {number}\n")
            told[0] = number
        for number, taken in enumerate(together):
            lines_of = taken.leave().splitlines()
            checks.true(f"the lines of connection {number}, which floods", len(lines_of) == MANY and versions.are_right(lines_of),
                        lines_of[-3:])
        done.set()
        for thread in threads:
            thread.join(PATIENCE)
        for number, kept in enumerate(found):
            judged(checks, f"one row each time beside connections that flood, {number}", versions, kept, UPDATES)
