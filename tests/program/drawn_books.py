"""Streams of `routed book` that are drawn from a seed."""
import collections
import random
import re

from program import held_books, known_books
from reference import formats
from reference.changes import hop_list, mark_rows, mixed, object_text, row_of, subobject

STREAMS, ROWS = 150, 100  # drawn on small networks: how many, and the rows of each
BANDWIDTHS = [0, 1, 50, 50, 100, 100, 200, 200, 300, 500, 2 ** 64 - 1]
IDS = [0, 1, 2, 3, 9, 10, 11, 100, 2 ** 64 - 1]
USUAL = {"place": 50, "ask": 15, "release": 8, "batch": 16, "bad": 3}  # how often each kind of step is drawn
ALL = {**USUAL, "held": 30, "offer": 10, "show": 8, "left": 10}


class Drawn:
    """A stream of rows on a small network, from a seed. `links` has the far end of each link of the base, by its near end."""

    def __init__(self, seed, kinds=USUAL):
        self.draw, self.rows, self.links, self.number, self.kinds = random.Random(seed), [], {}, 0, kinds
        self.routers, self.has_marks, self.rises = self.draw.randrange(3, 7), seed % 3 == 2, seed % 4 == 3
        ring = [(at, (at + 1) % self.routers) for at in range(self.routers)]
        chords = [self.draw.sample(range(self.routers), 2) for _ in range(self.draw.randrange(1, 4))]
        self.circuits = [((near, 2 * at), (far, 2 * at + 1)) for at, (near, far) in enumerate([*ring, *chords])]
        self.batch([(near, far) for circuit in self.circuits for near, far in (circuit, circuit[::-1])])

    def figures(self):
        """The bandwidths of a link: all equal, falling with the priority, or any."""
        some = [self.draw.choice([0, 300, 500, 700, 1000, 1000, 2 ** 64 - 1]) for _ in range(8)]
        if self.rises and self.draw.random() < 0.5:
            return some
        return sorted(some, reverse=True) if self.draw.random() < 0.2 else [self.draw.choice([200, 600, 1000, 1000])] * 8

    def batch(self, changes):
        """A batch of links that are put, by both ends, or dropped, with no far end. Some are refused."""
        before, rows = dict(self.links), []
        for near, far in dict(changes).items():
            group = self.draw.choice([1, 1, 1, 1, 1, 2, 3])
            rows.append(row_of(near, far, f"{self.draw.choice([1, 1, 2, 5])},0x{group:x},{','.join(map(str, self.figures()))}"))
            self.links.pop(near, None) if far is None else self.links.update({near: far})
        self.draw.shuffle(rows)
        if self.has_marks and self.number:
            mixed(self.draw, rows, mark_rows(self.draw, self.routers, self.draw.choice([0, 1, 1, 2])))
        self.rows += rows
        if self.number and self.draw.random() < 0.15:
            self.links = before
            self.rows += self.draw.choice([
                [f"end,{self.number + 2},{len(rows)}"], [f"end,{self.number},{len(rows)}"], [f"end,{self.number + 1},{len(rows) + 1}"],
                ["drop,9.9.9.9,9.9.9.9", f"end,{self.number + 1},{len(rows) + 1}"],
                ["node,9.9.9.9,0", "node,9.9.9.9,1", f"end,{self.number + 1},{len(rows) + 2}"]])
            return
        self.number += 1
        self.rows.append(f"end,{self.number},{len(rows)}")

    def changes(self):
        """What a batch changes of a circuit: it fails, in one direction or in both, returns, has other attributes, another end, or another
        address."""
        near, far = self.draw.choice(self.circuits)[::self.draw.choice([1, -1])]
        kind = self.draw.choices(["put", "again", "fail", "withdraw", "turn", "renumber"], [8, 4, 3, 1, 1, 1])[0]
        if kind in ("put", "again"):
            return [(near, far), (far, near)][:1 if kind == "again" else 2]
        if kind in ("fail", "withdraw"):
            return [(end, None) for end in ((near, far) if kind == "fail" else (near,)) if end in self.links]
        other = (self.draw.choice([router for router in range(self.routers) if router != near[0]]) if kind == "turn" else far[0],
                 40 + near[1])
        return [(near, other), (other, near)]

    def request(self, kind, name, priority, ends=None):
        start, end = ends or self.draw.sample(range(self.routers + (self.draw.random() < 0.03)), 2)
        count = self.draw.choice([0, 0, 0, 0, 0, 1, 1, 2, 3])
        parts = hop_list(self.draw,
                         count) if self.draw.random() < 0.8 or not count else object_text([subobject(self.draw) for _ in range(count)])
        if count and self.draw.random() < 0.8:  # loose hops at single routers, so that routes turn back
            parts = " ".join(f"10.0.0.{self.draw.randrange(self.routers)}/32l" for _ in range(count))
        masks = ",".join(self.draw.choice(["0x0"] * 12 + more) for more in (["0x2"], ["0x1", "0x3"], ["0x1"]))
        return f"{kind},{name},10.0.0.{start},10.0.0.{end},{priority},{self.draw.choice(BANDWIDTHS)},{masks},{parts}"

    def way(self):
        """The ends of a way along links of the base, and of each link the local address, and the router that it leads to."""
        start = at = self.draw.choice(sorted(self.links))[0] if self.links else 0
        steps = []
        for _ in range(self.draw.choice([1, 1, 1, 2, 2, 3, 4])):
            out = [near for near in sorted(self.links) if near[0] == at]
            if out:
                near = self.draw.choice(out)
                at = self.links[near][0]
                steps.append((near[1], at))
        if at == start:  # it comes back, or there are no links
            at = (start + 1) % self.routers
            steps.append((50, at))
        return (start, at), steps

    def held(self):
        """A held row along links of the base. Some of its links are others, and some routes are broken."""
        ends, steps = self.way()
        at, change = self.draw.randrange(len(steps)), self.draw.random()
        if change < 0.08:
            steps[at] = self.draw.randrange(50), steps[at][1]
        elif change < 0.12:
            steps[at] = steps[at][0], self.draw.randrange(self.routers)
        elif change < 0.18:
            steps[at:at + 1] = [steps[at]] * 2
        elif change < 0.2:
            steps.insert(at, (60, self.routers))
        route = "".join(f"ac1000{local:02x}0a0000{router:02x}" for local, router in steps)
        if change > 0.97:
            route = self.draw.choice([route[:-1], route[:-8], route[16:], f"{route[:-1]}g", f"{route}0", f"{route}0a000000", f" {route}"])
        elif change > 0.85:
            route = route.upper()
        return f"{self.request('held', self.draw.choice(IDS), self.draw.randrange(8), ends)},{route}"

    def step(self):
        """Some rows more."""
        kind = self.draw.choices(list(self.kinds), list(self.kinds.values()))[0]
        if kind in ("place", "ask"):
            self.rows.append(self.request(kind, self.draw.choice(IDS), self.draw.randrange(8)))
        elif kind in ("release", "show"):
            self.rows.append(f"{kind},{self.draw.choice(IDS)}")
        elif kind == "held":
            row = self.held()
            self.rows += [f"release,{row.split(',')[1]}"] * (self.draw.random() < 0.7) + [row]
        elif kind == "offer":
            row = self.request(kind, self.draw.choice(IDS), self.draw.randrange(8))
            self.rows += [row, *[row.replace("offer", "place", 1)] * (self.draw.random() < 0.6)]
        elif kind == "left":
            router, interface = self.draw.choice([*sorted(self.links), (0, self.draw.randrange(50))])
            self.rows.append(f"left,10.0.0.{router},172.16.0.{interface}")
        elif kind == "batch":
            self.batch([one for _ in range(self.draw.choice([0, 1, 1, 2])) for one in self.changes()])
        else:
            self.rows.append(self.draw.choice([row for row, _ in BAD]))


BAD = [*known_books.bad_rows(), *held_books.bad_rows()]


def drawn_stream(seed, count=ROWS):
    drawn = Drawn(seed, ALL)
    while len(drawn.rows) < count:
        drawn.step()
    return "".join(f"{row}\n" for row in drawn.rows[:count])


def kinds_of(rows, lines):
    """How often the lines of a stream say each thing that a book may say."""
    said, placed, held, over = collections.Counter(), set(), set(), 0
    for line in lines:
        words = line.split()
        over += words[0] == "over"
        if "refused:" in words:
            said[f"{words[0]} refused: {words[3]}"] += 1
        elif words[0] == "place" and "route" in words:
            said["placed again" if words[1] in placed else "placed"] += 1
            said["placed again, and held before"] += words[1] in held
            placed.add(words[1])
            held.discard(words[1])
        elif words[0] == "place":
            said[f"{words[3]}, and one stays" if words[1] in placed else words[3]] += 1
        elif words[0] == "released":
            said["released"] += 1
            said["released, and held before"] += words[1] in held
            placed.discard(words[1])
            held.discard(words[1])
        elif words[0] == "offer":
            said[f"offered: {words[3]}"] += 1
        elif words[0] in ("held", "base"):
            said[words[0]] += 1
            said["over by a held row" if words[0] == "held" else "over"] += over
            over = 0
            if words[0] == "held":
                placed.add(words[1])
                held.add(words[1])
        elif words[0] != "over":
            said[words[0]] += 1
            said["lost, and held"] += words[0] == "lost" and words[1] in held
    said["rows"] += rows.count("\n")
    return said


def offers_of(rows, steps):
    """The lines of offers that stand before a place row with the same fields, each with the line of that row, without the words and the
    versions."""
    rows = list(formats.records(rows))
    for row, more, (offered, _), (placed, _) in zip(rows, rows[1:], steps, steps[1:]):
        if row[0] == "offer" and more == ["place", *row[1:]]:
            yield [OF_PLACE.sub("", line) for lines in (offered, placed) for line in lines]


OF_PLACE = re.compile(r"^(?:offer|place|row [0-9]+) | v[0-9]+(?= )")
WANTED = {"placed": 400, "placed again": 400, "none": 100, "none, and one stays": 100, "released": 200, "over": 200, "lost": 200,
          "base": 500, "ask": 700,
          "place refused: twice": 20, "release refused: absent": 100, "batch refused: expected": 20, "batch refused: counted": 10,
          "batch refused: absent": 10, "batch refused: duplicate": 10, "unknown-from": 5, "unknown-to": 3, "unended": 3,
          "held": 1000, "over by a held row": 1000, "lost, and held": 50, "placed again, and held before": 200,
          "released, and held before": 200, "held refused: same-id": 100, "held refused: twice": 40, "row refused: route": 50,
          "offered: route": 200, "offered: none": 100, "offer refused: twice": 10, "show": 200, "show refused: absent": 100, "left": 300,
          "left refused: absent": 20}


def stream(rows):
    return "".join(f"{row}\n" for row in rows)
