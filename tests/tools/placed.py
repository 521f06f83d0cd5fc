"""The place of `routed-tools listen --placements`: programs that place, a feed, and what they read (docs/run/FORMATS.md, OPERATORS.md).

Turns without a program are tried in tests/tools/placed_turns.py. Here the lines of drawn runs are those of tests/reference/served_books.py
for the rows in the order in which the server took them."""
import json
import os
import random
import re
import subprocess
import tempfile
import threading

from checks import TOOLS, TOP
from program.drawn_books import ALL, Drawn
from program.serving import PATIENCE
from reference import compacts
from reference.served_books import Run
from tools.booking import BASE, FREE, LINKS, LOW, Booked, asked, held, place, until
from tools.fronts import Connection, Front
from tools.placed_faults import PARTS as FAULTS
from tools.placed_turns import PARTS as TURNS
from tools.reading import eventually, figures_of

NUMBERED, NEWS = re.compile(r"(?m)^row \d+ "), ("over ", "lost ", "base ")
OF_FEED, OF_PLACERS = ("put", "drop", "node", "end"), ("place", "held", "offer", "release", "show", "left", "ask")
SEEDS, ROWS = 4, 260  # drawn runs, and the rows of each


# ---- what is known


def dialogue(program, checks, room):
    """Rows and lines of two programs that place and a feed, in the order in which they come."""
    with Booked(program, room, "--run", "7") as front:
        checks.same("the run", (front.first, front.said.next()), ("run 7\n", "ready\n"))
        one, other, updating, watching = front.connect(), front.connect(), Connection(front.updates), front.connect("watch")
        checks.same("the modes of sockets", oct(os.stat(os.path.join(room, "placements")).st_mode & 0o777), "0o600")
        checks.same("a batch of the base", updating.talk(f"{BASE}end,1,4\n"), "base 1 v1\n")
        checks.same("is news", (one.lines.next(), other.lines.next()), ("base 1 v1\n",) * 2)
        for row, line in (
                (place(5, 60), "place 5 v2 route cost=5 hops=1 again=no ero=000c140101080a000c022000\n"),
                (held(6, 30), "held 6 v3\n"), (place(7, 60), "place 7 v3 none\n"),
                ("offer,8,1.1.1.1,2.2.2.2,7,10,0x0,0x0,0x0,\n", "offer 8 v3 route cost=5 hops=1 again=no ero=000c140101080a000c022000\n"),
                ("ask,9,1.1.1.1,2.2.2.2,7,20,0x0,0x0,0x0,\n", "ask 9 v3 none\n"), ("release,9\n", "release 9 refused: absent\n"),
                ("show,6\n", "show 6 v3 from=1.1.1.1 to=2.2.2.2 hold=7 bandwidth=30 links=1 1.1.1.1,10.0.12.1\n"),
                ("left,1.1.1.1,10.0.12.1\n", f"left 1.1.1.1,10.0.12.1 v3 base={FREE} counted=0,0,0,0,0,0,0,90 left={FREE[:-3]}10\n"),
                ("run\n", "run 7\n")):
            checks.same(f"{row.strip()}", one.talk(row), line)
        updating.say(LOW)
        checks.same("a row between the changes of a batch and its end", other.talk("release,6\n"), "released 6 v4\n")
        updating.say("end,2,1\n")
        checks.same("the lines of a batch", updating.hear(2), "over 1.1.1.1,10.0.12.1 7\nbase 2 v5\n")
        checks.same("are news", (one.hear(2), other.hear(2)), ("over 1.1.1.1,10.0.12.1 7\nbase 2 v5\n",) * 2)
        found = until(watching, "version 5")
        checks.true("versions are told", re.fullmatch(r"run 7\n(version [0-4]\n)*version 5\n", found), found)
        checks.same("the last lines", one.leave(), "")
        other.say("put,1\n")
        checks.same("what isn't a row there", other.rest(), "refused\n")
        updating.say("release,5\n")
        checks.same("nor among the updates", updating.rest(), "refused\n")


def answers(program, checks, room):
    """`book`, `snapshot` and the place of --show, as `routed book --compact` has their rows."""
    begin = f"{BASE}end,1,4\n{held(1, 150)}{place(2)}"[:-1]  # its last row has no line feed
    with Booked(program, room, begin=begin) as front:
        checks.same("over lines of the beginning", front.errors.next(), f"listen: {room}/begin: over 1.1.1.1,10.0.12.1 7\n")
        one, updating, viewing = front.connect(), Connection(front.updates), front.connect("show")
        checks.same("placing", one.talk(place(3, 50, "2.2.2.2,1.1.1.1")).split()[:4], ["place", "3", "v2", "route"])
        checks.same("an open change", one.talk("show,1\n").split()[:3], ["show", "1", "v2"])
        updating.say(LOW)

        def rows():
            text = f"{begin}\n{front.kept_rows()}"
            compact = subprocess.run([program.path, "book", "--compact"], input=text.encode(), capture_output=True)
            wanted = compacts.run(text)[1]
            checks.same("the program's text is the reference's", compact.stdout.decode(), wanted)
            return wanted

        base = f"{''.join(sorted(BASE.splitlines(True)))}end,1,4\n"
        found = asked(one, "book"), asked(updating, "snapshot", "snapshot end\n"), asked(viewing, "snapshot", "snapshot end\n")
        checks.same("the book", found, (f"version 2\n{rows()}book end\n", f"base 1 v2\n{base}snapshot end\n",
                                        f"version 2\n{rows()}snapshot end\n"))
        checks.same("the base", updating.talk("end,2,1\n") + updating.lines.next(), "over 1.1.1.1,10.0.12.1 7\nbase 2 v3\n")
        one.hear(2)
        found = asked(updating, "snapshot", "snapshot end\n"), asked(one, "book"), asked(viewing, "snapshot", "snapshot end\n")
        low = base.replace(f"put,{LINKS[0]},5,0x00000001,{FREE}\n", LOW)
        checks.same("the next one", found, (f"base 2 v3\n{low}snapshot end\n", f"version 3\n{rows()}book end\n",
                                            f"version 3\n{rows()}snapshot end\n"))
        os.rename(front.keep, f"{front.keep}.gone")
        one.say(f"release,1\nbook\n{place(9, 0)}")
        line = until(one, "book refused")
        checks.true("a book that can't be made", line == f"released 1 v4\nbook refused: {front.keep}: No such file or directory\n", line)
        checks.same("rows behind it", one.lines.next().split()[:4], ["place", "9", "v5", "route"])
        os.rename(f"{front.keep}.gone", front.keep)
        checks.same("the next book", asked(one, "book"), f"version 5\n{rows()}book end\n")
        shown = subprocess.run([TOOLS, "show", os.path.join(room, "show"), "--json"], capture_output=True, text=True)
        links = json.loads(shown.stdout)["links"]
        checks.same("the tool that shows the base", [link["unreserved"][7] for link in links], [10, 100, 100, 100])


def beginnings(program, checks, room):
    """Runs that begin with a book: one that is refused ends the start, and the base's batches go on with their numbers."""
    for at, (begin, line) in enumerate((
            (f"{BASE}end,1,4\nrelease,5\n", "release 5 refused: absent"), (f"{BASE}end,1,4\nfoo\n", "row 6 refused: kind"),
            (BASE, "unended 4"))):
        os.mkdir(inner := os.path.join(room, str(at)))
        front = Booked(program, inner, begin=begin)
        front.first = front.said.next()
        status, said = front.ended()
        checks.same(f"a beginning with {line}", (front.first, status, f"listen: {inner}/begin: {line}\n" in said, "Traceback" in said),
                    ("", 2, True, False))
        front.child.stdout.close()
    with Booked(program, room, begin=f"{BASE}end,1,4\n{LOW}end,2,1\n") as front:
        updating = Connection(front.updates)
        checks.same("a batch with the next number", updating.talk("end,3,0\n"), "base 3 v2\n")
        checks.same("and one without", updating.talk("end,3,0\n"), "batch 3 refused: expected 4\n")
    for words in (["--placements", "p"], ["--keep", "k"], ["--placements", "p", "--keep", "k", "--placings", "0"]):
        front = Front(program, room, *words)
        status, said = front.ended()
        checks.true(f"words that are refused: {' '.join(words)}", status == 2 and "--pl" in said, (status, said))
        front.child.stdout.close()


def figures(program, checks, room):
    """The figures of a book."""
    with Booked(program, room, begin=f"{BASE}end,1,4\n{held(1, 150)}{place(2, 0, '1.1.1.1,3.3.3.3')}") as front:
        one, updating = front.connect(), Connection(front.updates)
        names = ("placements", "placement_links", "lost_placements", "over_bandwidths", "kept_rows_total", "keep_bytes", "placings_left")

        def now():
            found = figures_of(room)
            return [found.get((f"routed_{name}", None)) for name in names]

        before = 900_000 - 3
        eventually(checks, "of the beginning", now, [2, 3, 0, 1, 0, 0, before])
        one.say("release,1\nrelease,7\n" + held(1, 20) + "held,1\n" + held(1, 20) + place(3, 5, "3.3.3.3,1.1.1.1"))
        one.hear(6)
        size = len(front.kept_rows())
        eventually(checks, "of placements", now, [3, 5, 0, 0, 3, size, before - 3])
        updating.say(f"drop,2.2.2.2,10.0.23.1\nend,2,1\n{LOW}end,3,1\n")
        checks.same("lost and over", updating.hear(5), "lost 2\nlost 3\nbase 2 v5\nover 1.1.1.1,10.0.12.1 7\nbase 3 v6\n")
        one.hear(5)
        checks.same("of what isn't settled", now()[:5], [3, 5, 2, 1, 7])
        one.say("release,2\n" + place(3, 5, "2.2.2.2,1.1.1.1"))
        one.hear(2)
        eventually(checks, "of what is settled", now, [2, 2, 0, 1, 9, len(front.kept_rows()), before - 7])
        one.talk("release,1\n")
        eventually(checks, "of what isn't over any more", lambda: now()[:4], [1, 1, 0, 0])
        found = figures_of(room)
        checks.same("refused rows", {key: value for key, value in found.items() if key[0].startswith("routed_refused")},
                    {("routed_refused_placings_total", "absent"): 1, ("routed_refused_placings_total", "same-id"): 1,
                     ("routed_refused_rows_total", "fields"): 1})
        checks.same("connections", found["routed_connections", "placements"], 1)
        with open(os.path.join(TOP, "docs/run/WATCHING.md"), encoding="utf-8") as file:
            page = file.read()
        checks.same("figures that the page hasn't", [name for name, _ in found if f"`{name}`" not in page
                                                     and not name.startswith("routed_ask_seconds")], [])


# ---- drawn runs


class Placing(threading.Thread):
    """A program that places drawn rows, some at a time, each time with a request of its own behind them, by whose reply it knows the
    version."""

    def __init__(self, taken, number, turns):
        super().__init__(daemon=True)
        self.taken, self.number, self.turns, self.heard, self.sent = taken, number, turns, "", []
        self.count = (number + 1) * 10 ** 9  # no id of a drawn row

    def run(self):
        for rows in self.turns:
            self.turn(rows)

    def turn(self, rows):
        self.count += 1
        last = f"ask {self.count} v"
        rows = [*rows, f"ask,{self.count},9.9.9.9,9.9.9.8,0,0,0x0,0x0,0x0,"]
        self.taken.say("".join(f"{row}\n" for row in rows))
        said = until(self.taken, last)
        if not said.rpartition("\n")[0].rpartition("\n")[2].startswith(last):
            return
        self.heard += said
        self.sent.append((int(said.splitlines()[-1].split()[2][1:]), said, rows))


def in_parts(draw, rows):
    while rows:
        count = draw.choice([1, 1, 2, 3, 8])
        yield rows[:count]
        rows = rows[count:]


def drawn(program, checks, room):
    """Programs that place, and a feed whose changes come in several turns: the lines, put in the order of the versions, are those of the
    reference, and each program reads its own and the news between them."""
    for seed in range(SEEDS):
        os.mkdir(inner := os.path.join(room, str(seed)))
        draw, stream = random.Random(f"placed {seed}"), Drawn(seed, {**ALL, "bad": 0})
        while len(stream.rows) < ROWS:
            stream.step()
        feed, others = ([row for row in stream.rows if row.split(",")[0] in kinds] for kinds in (OF_FEED, OF_PLACERS))
        count = 0 if seed % 2 else 1 + next(at for at, row in enumerate(feed) if row.startswith("end,"))
        begin, feed = "".join(f"{row}\n" for row in feed[:count]), feed[count:]
        with Booked(program, inner, begin=begin or None) as front:
            updating = Placing(Connection(front.updates), 9, [*in_parts(draw, feed)])
            placing = [Placing(front.connect(), number, [*in_parts(draw, others[number::3])]) for number in range(3)]
            for one in (updating, *placing):
                one.start()
            for one in (updating, *placing):
                one.join(PATIENCE * 3)
            for one in (updating, *placing):
                one.turn([])
            book = asked(placing[0].taken, "book")
            judge(checks, f"drawn {seed}", front, begin, updating, placing, book)


def is_accepted(line, is_feed):
    """Whether a line of a turn says that a version was made. A line `base` among those of one that places is news."""
    words = line.split()
    return words[0] in ("held", "released") and words[2] != "refused:" or words[0] == "place" and words[3] == "route" \
        or words[0] == "base" and is_feed


def judge(checks, name, front, begin, updating, placing, book):
    """What was heard is what the reference says to the rows in the order in which they were taken."""
    turns = [(version, not any(is_accepted(line, one is updating) for line in said.splitlines()), one, rows)
             for one in (updating, *placing) for version, said, rows in one.sent]
    turns.sort(key=lambda turn: turn[:2])
    run = Run("".join(f"{row}\n" for turn in turns for row in turn[3]), begin)
    steps = iter(run.steps[1:])
    wanted = {one: "" for one in (updating, *placing)}
    for _, _, one, rows in turns:
        lines = "".join(f"{line}\n" for row in rows for line in next(steps).lines)
        wanted[one] += lines
        if one is updating:
            news = "".join(f"{line}\n" for line in lines.splitlines() if line.startswith(NEWS))
            for other in placing:
                wanted[other] += news
    for one in (updating, *placing):
        checks.same(f"{name}: the lines of connection {one.number}", NUMBERED.sub("row ", one.heard), NUMBERED.sub("row ", wanted[one]))
    checks.same(f"{name}: what is kept", front.kept_rows(), run.kept)
    checks.same(f"{name}: the journal", front.kept(), run.journal)
    version = len(run.networks) - 1
    checks.same(f"{name}: the book", book, f"version {version}\n{compacts.run(begin + run.kept)[1]}book end\n")
    checks.true(f"{name}: versions and turns", version > 20 and len(turns) > 40, (version, len(turns)))


def placed(program, checks):
    with tempfile.TemporaryDirectory() as room:
        checks.parts_in(room, (*TURNS, dialogue, answers, beginnings, figures, *FAULTS, drawn), program, checks)
