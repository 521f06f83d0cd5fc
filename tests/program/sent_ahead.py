"""`routed serve` with 64 clients that send all their rows ahead: their lines are right, they take turns, and they hold up no batch."""
import array
import fcntl
import os
import re
import signal
import termios
import time

from program.serving import AT, CLIENTS, Serving
from program.threads import full_network
from reference import runs

TIMES = 150  # that a client sends its requests; its rows and its lines fit in pipes
LOADED, LAST = 4, 40  # versions: of the network, and of the last empty batch
ROOM = 1 << 17  # bytes of a pipe
PAUSE = 0.02  # seconds between two batches
LONGEST = 1  # seconds in which each batch is published
READ = 1 << 13  # bytes that a client may have ahead of the others: the first row of each read takes no turn


def sent_ahead(program, checks, room):
    rows, asks = full_network()
    replies = [AT.sub("", line) for line in runs.solve(rows + asks)[1][-2:]]
    for name, more in (("one at once", ("--at-once", "1")), ("one for each processor", ())):
        inner = os.path.join(room, name)
        os.mkdir(inner)
        with Serving(program, inner, CLIENTS, *more) as run:
            run.say(0, rows)
            checks.same(f"the network, {name}", [run.hear(0) for _ in range(LOADED)], [f"version {at}\n" for at in range(1, LOADED + 1)])
            begin(run, asks * TIMES)
            sizes = published(checks, run, name)
            said = [run.leave(number) for number in range(1, CLIENTS + 1)]
            checks.same(f"the lines of clients that send ahead, {name}", {AT.sub("", text) for text in said},
                        {"".join(f"{line}\n" for line in replies) * TIMES})
            named = [[int(version) for version in re.findall(f"^{AT.pattern}", text, re.MULTILINE)] for text in said]
            checks.true(f"their versions don't fall, {name}",
                        all(at == sorted(at) and LOADED <= at[0] and at[-1] <= LAST for at in named), named)
            if more:
                takes_turns(checks, sizes, [len(text) for text in said])
            checks.same(f"the end of clients that send ahead, {name}", run.end(), ([""] * (CLIENTS + 1), 0, ""))


def begin(run, rows):
    """All clients begin at once: the run is stopped until their rows are in the pipes."""
    run.child.send_signal(signal.SIGSTOP)
    for number in range(1, CLIENTS + 1):
        for end in (run.rows[number], run.lines[number].file):
            fcntl.fcntl(end, fcntl.F_SETPIPE_SZ, ROOM)
        run.say(number, rows)
    run.child.send_signal(signal.SIGCONT)


def published(checks, run, name):
    """Publishes empty batches: how many bytes of lines each client has after each. None of them is read yet."""
    took, sizes, size = [], [], array.array("i", [0])
    for number in range(LOADED + 1, LAST + 1):
        start = time.monotonic()
        checks.same(f"batch {number} beside clients that send ahead, {name}", run.talk(0, f"end,{number},0\n"), f"version {number}\n")
        took.append(time.monotonic() - start)
        sizes.append([])
        for lines in run.lines[1:]:
            fcntl.ioctl(lines.file, termios.FIONREAD, size)
            sizes[-1].append(size[0])
        time.sleep(PAUSE)
    checks.true(f"each batch beside clients that send ahead is published within {LONGEST} s, {name}", max(took) < LONGEST, max(took))
    return sizes


def takes_turns(checks, sizes, whole):
    """While all clients wait for turns, none gets more than twice as many as another one."""
    amid = [at for at in sizes if min(at) > 0 and all(size < most for size, most in zip(at, whole))]
    checks.true("clients that send ahead are looked at twice", len(amid) > 1, (sizes[:1], sizes[-1:], whole))
    got = [last - first for first, last in zip(amid[0], amid[-1])] if amid else [0]
    checks.true("clients that send ahead take turns", max(got) <= 2 * min(got) + READ, sorted(got))
