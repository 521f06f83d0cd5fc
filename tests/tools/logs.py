"""The log of `routed-tools listen`: the lines of each level, their priorities, and a log that nobody takes."""
import os
import re

from program.serving import PATIENCE, has_come
from tools.fronts import Connection, Front, busy
from tools.reading import ASKS, PAIR, eventually, figures_of, seen

from routed.net import log


def spoken(front, *rows):
    """One asking connection and one for updates, with a refused row and a refused batch, one after the other."""
    for place, rows in ((front.ask, ASKS["route"] + "foo\n"), (front.updates, "end,7,0\n")):
        taken = Connection(place)
        taken.say(rows)
        taken.leave()
    busy_one = Connection(front.updates)
    busy_one.talk("end,7,0\n")
    busy(front.updates)
    busy_one.say("GET / HTTP/1.1\n")
    busy_one.rest()


def logged(program, checks, room):
    """The lines of each level."""
    me = f"pid=P uid={os.getuid()} gid={os.getgid()}"
    info = [f"ask 1: connected, {me}", "ask 1: row 2 refused: kind", "ask 1: ended, 2 rows, 2 lines, T s", f"updates 1: connected, {me}",
            "!updates 1: batch 7 refused: expected 1", "updates 1: ended, 1 rows, 1 lines, T s", f"updates 2: connected, {me}",
            "!updates 2: batch 7 refused: expected 1", f"updates: busy, {me}", "updates 2: refused, for a line that isn't passed on",
            "updates 2: ended, 1 rows, 1 lines, T s", "stopped by SIGTERM"]
    for level, wanted in (("info", [line.removeprefix("!") for line in info]), ("warning", [line[1:] for line in info if line[0] == "!"]),
                          ("error", [])):
        os.mkdir(inner := os.path.join(room, level))
        with seen(program, inner, "--log-level", level) as front:
            spoken(front)
            front.child.terminate()
            lines = [re.sub(r"pid=\d+", "pid=P", re.sub(r"[0-9.]+ s$", "T s", line)) for line in front.ended()[1].splitlines()]
            checks.same(f"the log at the level {level}", lines, [f"listen: {line}" for line in wanted])
    os.mkdir(inner := os.path.join(room, "debug"))
    with seen(program, inner, "--log-level", "debug") as front:
        Connection(front.updates).talk(PAIR + "end,1,2\n")
        front.child.terminate()
        checks.true("versions at the level debug", "listen: version 1\n" in front.ended()[1])


def priorities(program, checks, room):
    """Where standard error is the stream that systemd names, a line has its priority in front."""
    reading, writing = os.pipe()
    found = os.fstat(writing)
    with Front(program, room, "--log-level", "info", env={**os.environ, "JOURNAL_STREAM": f"{found.st_dev}:{found.st_ino}"},
               stderr=writing) as front:
        spoken(front)
        front.child.terminate()
        front.child.wait(PATIENCE)
    os.close(writing)
    with open(reading) as said:
        lines = said.read().splitlines()
    checks.true("lines with priorities", lines and all(re.match(r"<[46]>listen: ", line) for line in lines), lines)
    checks.same("refused batches are warnings", [line[:3] for line in lines if "batch" in line], ["<4>"] * 2)


def blocked(program, checks, room):
    """A log that nobody takes is dropped and counted, and asks go on."""
    reading, writing = os.pipe()
    os.set_blocking(writing, False)
    while True:
        try:
            os.write(writing, b"x" * 4096)
        except BlockingIOError:
            break
    os.set_blocking(writing, True)
    with seen(program, room, "--log-level", "info", stderr=writing) as front:
        for _ in range(5):
            taken = Connection(front.ask)
            checks.same("an ask beside a log that blocks", taken.talk(ASKS["route"]), "ask 1 v0 unknown-from\n")
            taken.leave()
        eventually(checks, "dropped lines are counted", lambda: figures_of(room).get(("routed_log_dropped_total", None)), 10)
        while has_come(reading, 0):
            os.read(reading, 1 << 16)
        taken = Connection(front.ask)
        taken.talk(ASKS["route"])
        said = os.read(reading, 1 << 16).decode()
        checks.true("and told once it is read", said.startswith("listen: 10 lines of the log were dropped\nlisten: ask 6: connected, "),
                    said)
    for file in (reading, writing):
        os.close(file)
    counting = log.Log("x", "info", None)
    counting.say("info", "nobody hears this")
    checks.same("without standard error", counting.dropped, 1)
