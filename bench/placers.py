"""Connections that place through `routed-tools listen`, for bench/book."""
import contextlib
import itertools
import os
import random
import selectors
import signal
import subprocess
import sys
import tempfile
import time

import drawn  # beside this file
from asking import WARMING
from books import placing
from streams import Connection, stop

HERE = os.path.dirname(os.path.abspath(__file__))
PLACERS, SMALL = 16, (8, 32)  # connections, and the routers and links of their network
REQUESTS = 2000  # that a connection places before it begins again
FILES = "keep", "journal", "ask", "updates", "placements"


@contextlib.contextmanager
def listened(program, begin, clients):
    """A run of `routed-tools listen` for so many clients, whose book begins with the rows of a file: the paths of its places."""
    with tempfile.TemporaryDirectory() as room:
        paths = {name: os.path.join(room, name) for name in FILES}
        words = [sys.executable, os.path.join(HERE, "../tools/routed-tools"), "listen", "--program", program, "--begin", begin,
                 "--clients", str(clients), "--placings", "1000000", *(word for name in FILES for word in (f"--{name}", paths[name]))]
        with subprocess.Popen(words, stdout=subprocess.PIPE) as child:
            if child.stdout.readline() != b"ready\n":
                stop(f"routed-tools listen: ended with status {child.wait()}")
            try:
                yield paths
            finally:
                child.terminate()
        if child.returncode != 128 + signal.SIGTERM:
            stop(f"routed-tools listen: ended with status {child.returncode}")


def front(program, seed, seconds):
    """The seconds from row to line of all connections to a front."""
    draw = random.Random(seed)
    network = drawn.loading(draw, drawn.network(draw, *SMALL))
    rows = placing(draw, SMALL[0], PLACERS * REQUESTS)
    with tempfile.NamedTemporaryFile("w", encoding="ascii") as begin:
        begin.writelines(network)
        begin.flush()
        with listened(program, begin.name, 1) as paths:
            connections = [Connection(paths["placements"]) for _ in range(PLACERS)]
            times = placed(connections, [turns(rows[at::PLACERS]) for at in range(PLACERS)], seconds)
            for connection in connections:
                connection.close()
    return times


def turns(rows):
    """Rows that place, each with the one that releases its id behind it, without an end."""
    for row in itertools.cycle(rows):
        yield row.encode()
        yield b"release,%s\n" % row.split(",")[1].encode()


def placed(connections, rows, seconds):
    """The seconds from row to line, where each connection says its next row once it has the line of the one before. Rows of the first
    moments don't count."""
    times, said, own = [], {}, dict(zip(connections, rows))
    with selectors.DefaultSelector() as selector:
        for connection in connections:
            selector.register(connection.socket, selectors.EVENT_READ)
            said[connection] = time.perf_counter()
            connection.say(next(own[connection]))
        of_socket = {connection.socket: connection for connection in connections}
        begin = time.perf_counter() + WARMING
        while (now := time.perf_counter()) < begin + seconds:
            for key, _ in selector.select(1):
                connection = of_socket[key.fileobj]
                connection.line()
                if now >= begin:
                    times.append(time.perf_counter() - said[connection])
                said[connection] = time.perf_counter()
                connection.say(next(own[connection]))
    return times
