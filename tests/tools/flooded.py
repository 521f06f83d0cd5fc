"""Connections to `routed-tools listen` that write rows without waiting for the lines."""
import contextlib
import os
import signal
import threading
import time

from program.serving import PATIENCE, circuit_at
from tools.directed import ROW, Direct, fronted
from tools.fronts import Connection
from tools.reading import eventually, figures_of

TOGETHER, SECONDS, UPDATES = 48, 3, 50  # connections that flood, how long, and batches meanwhile


def floods(program, checks, versions, room):
    """Batches are published while many connections write rows without a pause."""
    for kind in ("direct", "relayed"):
        os.mkdir(inner := os.path.join(room, kind))
        front, place = fronted(program, inner)
        with front:
            updating = Connection(front.updates)
            updating.talk(circuit_at(1))
            process = os.fork()
            if not process:
                with contextlib.suppress(BaseException):
                    flood([Direct(place) if kind == "direct" else Connection(front.ask) for _ in range(TOGETHER)])
                os._exit(0)
            eventually(checks, f"{kind}: connections that flood",
                       lambda: figures_of(inner).get(("routed_connections", "direct" if kind == "direct" else "ask")), TOGETHER)
            times, begin = [], time.monotonic()
            for version in range(2, UPDATES + 2):
                time.sleep(max(begin + (version - 2) * SECONDS / UPDATES - time.monotonic(), 0))
                start = time.monotonic()
                checks.same(f"{kind}: batch {version}", updating.talk(circuit_at(version)), f"version {version}\n")
                times.append(time.monotonic() - start)
            os.kill(process, signal.SIGKILL)
            os.waitpid(process, 0)
            checks.true(f"{kind}: each batch within a second", max(times) < 1, max(times))
            median = sorted(times)[len(times) // 2]
            print(f"direct: {TOGETHER} {kind} connections flood: a batch takes {median * 1000:.1f} ms in the median, "
                  f"{max(times) * 1000:.1f} ms at most")


def flood(those):
    """Writes rows as fast as they are taken, and reads the lines."""
    rows = (ROW % 1).encode() * 1000

    def write(one):
        while True:
            one.socket.sendall(rows) if isinstance(one, Connection) else one.say(rows.decode())

    for one in those:
        threading.Thread(target=write, args=(one,), daemon=True).start()
        threading.Thread(target=lambda file=one.lines.file: [None for _ in iter(lambda: os.read(file, 1 << 16), b"")], daemon=True).start()
    time.sleep(PATIENCE)
