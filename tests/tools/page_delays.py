"""How soon `routed-tools page` tells a version, at 50 routers and at full size, what many pages cost others, and its figures."""
import os
import random
import re
import shutil
import statistics
import subprocess
import threading
import time

from checks import TOP
from program.serving import PATIENCE
from tools.fronts import Connection
from tools.page_pins import PAGES
from tools.paged import BERLIN, BONN, GERMANY, Events, paged

ROUTERS, CIRCUITS, MOST_CHANGES = 1024, 8192, 4096  # of a network of full size, and of a batch
SOON, SOON_FULL = 0.15, 0.5  # seconds from a version's line to its event, at 50 routers and at full size
LOADED = 20  # times as long it may take on a machine with much other work
VERSIONS, VERSIONS_FULL = 30, 3
PUTS = [row for row in GERMANY.splitlines() if row.startswith("put")]


class Lines(threading.Thread):
    """The versions that listen tells, and when."""

    def __init__(self, at):
        super().__init__(daemon=True)
        self.connection, self.times = Connection(at.watch), {}
        self.start()

    def run(self):
        while line := self.connection.lines.next():
            self.times[line] = time.monotonic()

    def of(self, version):
        end = time.monotonic() + PATIENCE
        while f"version {version}\n" not in self.times and time.monotonic() < end:
            time.sleep(0.001)
        return self.times[f"version {version}\n"]


def delays_of(at, batches):
    """The seconds from each batch's version line until its event is read."""
    events, lines, found = Events(at), Lines(at), []
    events.until("changes")
    for batch in batches:
        version = at.publish(batch)
        if events.until("version", lambda it: it["version"] == version) is None:
            return [PATIENCE]
        found.append(time.monotonic() - lines.of(version))
    events.close()
    return found


def soon(program, checks, _):
    """50 routers."""
    with paged(program.path, GERMANY) as at:
        found = delays_of(at, [re.sub(r"(?m)(?:,\d+){8}$", f",{10**9 + number}" * 8, PUTS[number]) for number in range(VERSIONS)])
        checks.true(f"from line to event at 50 routers: {statistics.median(found):.4f} s", statistics.median(found) < LOADED * SOON, found)
        print(f"page: from a version's line to its event {1000 * statistics.median(found):.1f} ms, at most {1000 * max(found):.1f} ms")


def full_rows(draw):
    """A network of as many routers and links as there may be."""
    rows = []
    for number in range(CIRCUITS):
        one = number % ROUTERS
        other = (one + 1) % ROUTERS if number < ROUTERS else (one + draw.randrange(1, ROUTERS)) % ROUTERS
        ends = [(f"10.0.{at >> 8}.{at & 255}", f"10.64.{number >> 7}.{number % 128 * 2 + side}") for side, at in enumerate((one, other))]
        for near, far in (ends, ends[::-1]):
            rows.append(f"put,{','.join(near + far)},{draw.randrange(1, 1000)},0x{draw.randrange(16):x},"
                        f"{','.join([str(draw.randrange(10 ** 9, 10 ** 10))] * 8)}")
    return rows


def soon_full(program, checks, _):
    """A network of full size, of which each batch changes 4,096 links."""
    draw = random.Random(83)
    rows = full_rows(draw)
    with paged(program.path, None) as at:
        for number in range(0, len(rows), MOST_CHANGES):
            at.publish(rows[number:number + MOST_CHANGES])
        began, events = time.monotonic(), Events(at)
        network = events.until("network")
        took = time.monotonic() - began
        checks.same("the whole network", (len(network["rows"]), network["version"]), (len(rows), at.version))
        found = delays_of(at, [[re.sub(r"(?:,\d+){8}$", f",{10**9 + number}" * 8, row) for row in rows[:MOST_CHANGES]] for number in
                               range(VERSIONS_FULL)])
        middle = statistics.median(found)
        checks.true(f"from line to event at full size: {middle:.3f} s", middle < LOADED * SOON_FULL, found)
        print(f"page: at full size the network in {took:.2f} s, a version in {middle:.3f} s, at most {max(found):.3f} s")
        checks.same("in words", events.until("version")["words"], [f"bandwidth of {MOST_CHANGES} links"])
        status, answer = at.call("ask", head="10.0.0.5", tail="10.0.3.7", bandwidth="30G")
        checks.same("an ask", (status, answer["version"], answer["why"] is not None), (200, at.version, True))
        checks.same("a version before", len(at.call("at", version=at.version - 1)[1]["rows"]), len(rows))


def beside(program, checks, _):
    """100 pages with pinned asks and ten versions a second, beside another client."""
    row = f"ask,1,{BERLIN},{BONN},7,0,0x0,0x0,0x0,\n"
    with paged(program.path, GERMANY) as at:
        asking, waits = Connection(at.ask), {}
        for name in ("alone", "beside"):
            pages = [Events(at) for _ in range(PAGES if name == "beside" else 0)]
            for number, events in enumerate(pages):
                at.call("pin", page=events.until("hello")["page"], head=BERLIN, tail=PUTS[number % 30].split(",")[1])
            found, end, due = [], time.monotonic() + 3, time.monotonic()
            while time.monotonic() < end:
                if time.monotonic() >= due:
                    at.publish(re.sub(r"(?:,\d+){8}$", f",{10**9 + at.version}" * 8, PUTS[0]))
                    due += 0.1
                began = time.monotonic()
                asking.talk(row)
                found.append(time.monotonic() - began)
                time.sleep(0.002)
            waits[name] = statistics.median(found)
            for events in pages:
                checks.true("each page is told the newest", events.until("version", lambda it: it["version"] == at.version, 20) is not None)
                events.close()
        checks.true("asks of another client are no slower", waits["beside"] < 10 * waits["alone"] + 0.02, waits)
        print(f"page: an ask of another client {1e6 * waits['alone']:.0f} us, beside {PAGES} pages {1e6 * waits['beside']:.0f} us")


def figures(program, checks, _):
    """Its figures, by promtool and by docs/run/WATCHING.md."""
    with paged(program.path, GERMANY) as at:
        body = at.get("/metrics")[2]
        with open(os.path.join(TOP, "docs/run/WATCHING.md"), encoding="utf-8") as file:
            text = file.read()
        names = re.findall(r"(?m)^# TYPE (\w+) ", body)
        checks.same("figures that docs/run/WATCHING.md hasn't", [name for name in names if f"`{name}`" not in text], [])
        checks.true("there are figures of its own", sum(name.startswith("routed_page_") for name in names) > 8, names)
        if shutil.which("promtool"):
            ran = subprocess.run(["promtool", "check", "metrics"], input=body, capture_output=True, text=True)
            checks.same("figures of the page: promtool", (ran.returncode, ran.stdout + ran.stderr), (0, ""))
        else:
            print("figures of the page: promtool is skipped, for it isn't there (Debian's prometheus)")


delays = soon, soon_full, beside, figures
