"""Readers of `routed-tools listen` that come and go: of versions and of figures."""
import os
import socket
import time

from program.serving import PATIENCE
from tools.fronts import Connection, Front
from tools.reading import PAIR, eventually, figures_of

from routed.front import accounts, watch


def came_and_went(program, checks, room):
    """As many watchers as there is room for, which end their sending side and then go, leave room for others at once."""
    with socket.create_server(("127.0.0.1", 0)) as found:
        at_port = found.getsockname()
    for name, place in (("at a path", os.path.join(room, "watch")), ("at a port", at_port)):
        word = place if isinstance(place, str) else f"127.0.0.1:{place[1]}"
        inner = os.path.join(room, name.split()[-1])
        os.mkdir(inner)
        with Front(program, inner, "--watch", word, "--metrics", os.path.join(inner, "metrics")):
            stays = Connection(place)
            checks.same(f"{name}: one that stays", stays.lines.next(), "version 0\n")
            stays.socket.shutdown(socket.SHUT_WR)
            for number in range(watch.MOST - 1):
                made = Connection(place)
                made.socket.shutdown(socket.SHUT_WR)
                if made.lines.next() != "version 0\n":
                    checks.fail(f"{name}: watcher {number}")
                made.socket.close()
            following = [Connection(place) for _ in range(2)]
            checks.same(f"{name}: two that come then", [one.lines.next() for one in following], ["version 0\n"] * 2)
            if isinstance(place, str):
                eventually(checks, f"{name}: those that are counted", lambda: figures_of(inner)["routed_connections", "watch"], 3)
                updating = Connection(os.path.join(inner, "updates"))
                checks.same(f"{name}: a version", updating.talk(PAIR + "end,1,2\n"), "version 1\n")
                checks.same(f"{name}: is told to the one that stays, too", [one.lines.next() for one in (stays, *following)],
                            ["version 1\n"] * 3)


def in_parts(program, checks, room):
    """A long journal is read in parts of at most 256 KiB for the figures, which count all of it."""
    checks.same("bytes that are read at once", accounts.AT_ONCE, 1 << 18)
    path, count = os.path.join(room, "long"), 40000
    with open(path, "w", encoding="ascii") as file:
        for number in range(1, count // 100 + 1):
            file.write("node,10.0.0.1,0\n" * 100 + f"end,{number},100\n")
    journal, parts = accounts.Journal(path), []
    while not journal.read_on():
        parts.append(journal.read)
    sizes = [there - before for before, there in zip([0, *parts], parts)]
    checks.true("a journal in parts", 1 < len(parts) and max(sizes) <= 1 << 18, sizes)
    checks.same("its rows and batches", (journal.rows, journal.ends), (count + count // 100, count // 100))
    with Front(program, room, "--metrics", os.path.join(room, "metrics")) as front:
        updating, batches = Connection(front.updates), 60
        batch = "".join(f"put,10.0.{at}.1,10.0.0.1,10.9.9.9,10.0.0.2,1,0x0,1,1,1,1,1,1,1,1\n" for at in range(200))
        updating.say("".join(f"{batch}end,{number},200\n" for number in range(1, batches + 1)))
        end = time.monotonic() + PATIENCE
        while updating.lines.next() != f"version {batches}\n" and time.monotonic() < end:
            pass
        found = figures_of(room)
        checks.true("the figures of a journal that is read for the first time", os.stat(front.journal).st_size > 2 * accounts.AT_ONCE
                    and found["routed_changes_total", None] == 200 * batches, found["routed_changes_total", None])
