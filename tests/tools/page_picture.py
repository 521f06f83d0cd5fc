"""The picture of a page: laid out by a child process once for each set of routers, kept, and placed as `draw` places it."""
import argparse
import contextlib
import json
import os
import tempfile
import time

from program.serving import PATIENCE
from tools.drawing import draw, link, places_in
from tools.page_seen import NETWORK, PLACES

from routed.model.database import Database
from routed.model.journals import read_database
from routed.model.rows import Batch
from routed.net.loop import Loop
from routed.page import picture

SHORT = 0.3  # seconds, in the place of a long pause
FAILING = ["sh", "-c", "echo no room >&2; exit 1"]


def network(rows):
    """The database of these rows."""
    lines = [row for row in rows.splitlines() if row]
    return read_database("".join(f"{row}\n" for row in [*lines, f"end,1,{len(lines)}"]).encode(), 1)


def circuit(one, other):
    ends = [(f"192.0.2.{at}", f"10.{min(one, other)}.{max(one, other)}.{at}") for at in (one, other)]
    return link(*ends[0], *ends[1]) + link(*ends[1], *ends[0])


class Drawn:
    """A layout, its pictures, its lines of the log, and how many children it has started."""

    def __init__(self, room, places=""):
        path = os.path.join(room, "places")
        with open(path, "w", encoding="utf-8") as file:
            file.write(places)
        self.loop, self.pictures, self.lines, self.started = Loop(), [], [], 0
        self.layout = picture.Layout(self.loop, argparse.Namespace(places=path if places else None, names=None), self.pictures.append,
                                     lambda level, line: self.lines.append((level, line)))
        self.layout.begin, begin = self.count, self.layout.begin
        self.begin = begin

    def count(self, *given):
        self.started += 1
        self.begin(*given)

    def want(self, rows):
        """The newest picture once this network's is there, and how many children have been started."""
        self.layout.want(rows if isinstance(rows, Database) else network(rows))
        self.until(lambda: not self.layout.run)
        return json.loads(self.pictures[-1]) if self.pictures else None, self.started

    def until(self, test, seconds=PATIENCE):
        end = time.monotonic() + seconds
        while not test() and time.monotonic() < end:
            self.loop.turn(0.05)
        return test()


@contextlib.contextmanager
def drawing(places=""):
    with tempfile.TemporaryDirectory() as room:
        made = Drawn(room, places)
        try:
            yield made
        finally:
            made.layout.close()


@contextlib.contextmanager
def changed(**values):
    """Other values of what bounds a layout."""
    before = {name: getattr(picture, name) for name in values}
    for name, value in values.items():
        setattr(picture, name, value)
    try:
        yield
    finally:
        for name, value in before.items():
            setattr(picture, name, value)


def as_drawn(checks):
    """Routers are where `draw` has them, with given places and without."""
    for name, places in (("given", PLACES), ("laid out", "")):
        with drawing(places) as made:
            found, _ = made.want(NETWORK)
            _, svg, _ = draw(NETWORK.replace("node,192.0.2.6,0\n", "") + "end,1,15\n", places=places or None)
            wanted = {said.split("\n")[0].rpartition(", ")[2] or said: place for said, place in places_in(svg).items()}
            checks.same(f"places that are {name}", {router: tuple(place[:2]) for router, place in found["routers"].items()}, wanted)
            checks.same(f"a curve for each circuit, {name}", len(found["circuits"]), 8)
            checks.true(f"no text is longer than its bound, {name}", all(width <= 250 for *_, width, _ in found["names"].values()),
                        found["names"])


def kept(checks):
    """A set of routers is laid out once. Routers stay where they are when others come."""
    ring = "".join(circuit(at, at % 6 + 1) for at in range(1, 7))
    with drawing() as made:
        first, count = made.want(ring)
        checks.same("one child", (count, sorted(first["routers"])), (1, [f"192.0.2.{at}" for at in range(1, 7)]))
        for name, rows in (("the same again", ring), ("another metric", ring.replace(",10,0x1", ",11,0x1")),
                           ("a circuit less", ring.replace(circuit(2, 3), "")),
                           ("a router less", "".join(circuit(at, at + 1) for at in range(1, 5)))):
            checks.same(f"{name}: nothing is laid out or told", (made.want(rows)[1], len(made.pictures)), (1, 1))
        second, count = made.want(ring + circuit(1, 4))
        checks.same("a circuit more: no router moves", (count, second["routers"], len(second["circuits"])), (2, first["routers"], 7))
        before = dict(made.layout.kept[frozenset(first["routers"])].places)
        third, count = made.want(ring + circuit(1, 7))
        places = made.layout.kept[frozenset(third["routers"])].places
        checks.same("a router more: the others stay", (count, {router: tuple(places[router]) for router in before}),
                    (3, {router: tuple(place) for router, place in before.items()}))
        checks.same("back to the first: it is kept, with all circuits", (made.want(ring)[1], len(made.pictures)), (3, 4))
        for number in range(1, 2 * picture.MOST_KEPT):
            made.want("".join(circuit(at, at + 1) for at in range(10 * number, 10 * number + 3)))
        checks.same("so many are kept", len(made.layout.kept), picture.MOST_KEPT)
        count = len(made.pictures)
        made.layout.want(network(ring))
        made.layout.want(network(circuit(1, 2)))
        made.until(lambda: not made.layout.run)
        checks.same("of several the newest alone is told", [[*json.loads(text)["routers"]] for text in made.pictures[count:]],
                    [["192.0.2.1", "192.0.2.2"]])
        empty = Database()
        empty.apply(Batch(1, ()))
        count = made.started
        checks.same("a network without routers has no picture", made.want(empty)[1], count)


def failing(checks):
    """A child that fails is told once, and another begins after a pause alone."""
    with changed(CHILD=FAILING, PAUSE=SHORT), drawing() as made:
        begun_at = time.monotonic()
        made.layout.want(network(circuit(1, 2)))
        made.until(lambda: made.lines)
        checks.same("a child that fails", made.lines, [("warning", "the picture of 2 routers wasn't laid out: no room")])
        made.layout.want(network(circuit(1, 2)))
        checks.same("no other child at once", made.started, 1)
        made.until(lambda: made.started == 2)
        checks.true("another after the pause", time.monotonic() - begun_at > SHORT and made.started == 2, made.started)
    for name, words, values, said in (
            ("that takes long", ["sleep", "60"], {"SECONDS": SHORT}, f"it took more than {SHORT:g} s"),
            ("that writes much", ["sh", "-c", "while :; do echo 12345678901234567890; done"], {"MOST_BYTES": 100000},
             "it wrote more than 100000 bytes"),
            ("that says nothing", ["true"], {}, ""), ("that says half of it", ["echo", "{}"], {}, "{}")):
        with changed(CHILD=words, **values), drawing() as made:
            made.layout.want(network(circuit(1, 2)))
            made.until(lambda: made.lines)
            checks.same(f"a child {name}", made.lines, [("warning", f"the picture of 2 routers wasn't laid out: {said}")])
    with changed(CHILD=["sleep", "60"]), drawing() as made:
        made.layout.want(network(circuit(1, 2)))
        number = made.layout.run.child.pid
        made.layout.close()
        checks.true("a child ends with the page", not os.path.exists(f"/proc/{number}"))


def page_picture(checks):
    checks.parts((as_drawn, kept, failing), checks)
