"""A run of `routed serve --book` whose clients ask beside its rows, and judgements of what they read."""
import contextlib
import itertools
import os
import random
import re
import threading
import time

from program.serving import AT, PATIENCE, Lines, Serving
from reference import runs
from reference.formats import records

KINDS = "except", "pair"
VERSION = re.compile(r"(?:base|ask|place|released|held|offer|show|left) \S+ v(\d+)\b")
MOMENT = 0.004  # seconds between two rows at most
ROUTERS, INTERFACES = 7, 24  # of drawn streams


def begun_at(path, rows):
    """The words that give a beginning, if there are rows of one."""
    if rows:
        with open(path, "w", encoding="latin-1") as file:
            file.write(rows)
    return ["--begin", path] if rows else []


class ServingBook(Serving):
    """A run with clients, and rows that it begins with. `told` is the version that was read last, and `first` the one before that. The
    lines of the updates come by a pipe whose name is `lines0`."""

    def __init__(self, program, room, clients, *more, begin="", first=0, **how):
        self.keep, self.told = os.path.join(room, "keep"), first
        words = ["--book", "--keep", self.keep, *begun_at(os.path.join(room, "begin"), begin)]
        name = os.path.join(room, "lines0")
        os.mkfifo(name)
        lines = Lines(os.open(name, os.O_RDONLY | os.O_NONBLOCK))
        with open(name, "wb") as written:
            os.set_blocking(lines.file, True)
            super().__init__(program, room, clients, *words, *more, stdout=written, **how)
        self.lines[0] = lines

    def next_line(self):
        """The next line of the updates. What it says of a version is known then."""
        line = self.hear(0)
        named = VERSION.match(line)
        if named:
            self.told = int(named[1])
        return line

    def feed(self, rows, steps, draw=None):
        """Says rows, and hears as many lines of each as its step has: each row some moments after the lines of the one before or, without
        a draw, all rows at once. Answers the lines up to where they end."""
        found, pouring = [], threading.Thread(target=self.pour, args=("" if draw else "".join(rows),), daemon=True)
        pouring.start()
        for row, step in zip(["", *rows], steps):
            if draw and row:
                time.sleep(draw.random() * MOMENT)
                self.pour(row)
            lines = list(itertools.takewhile(bool, (self.next_line() for _ in step.lines)))
            found += lines
            if len(lines) < len(step.lines) or lines and not lines[-1].endswith("\n"):
                break
        pouring.join(PATIENCE)
        return found

    def pour(self, rows):
        """Says rows to a run that may have ended."""
        with contextlib.suppress(BrokenPipeError):
            self.say(0, rows)

    def texts(self):
        """What is kept, and the journal, which is read first. A file that isn't made yet has nothing."""
        found = []
        for path in (self.journal, self.keep):
            found.append("")
            if os.path.exists(path):
                with open(path, encoding="latin-1", newline="") as file:
                    found[-1] = file.read()
        return found[::-1]


def questions(seed, kinds=()):
    """Requests without an end, each with another id: those of a client with this number."""
    draw = random.Random(f"questions {seed}")
    for name in itertools.count(seed << 32):
        start, end = draw.sample(range(ROUTERS), 2)
        masks = ",".join(draw.choice(["0x0"] * 6 + ["0x1", "0x2"]) for _ in range(3))
        kind = draw.choice(["ask", "ask", *kinds])
        hops = draw.choice(["", "", f"10.0.0.{draw.randrange(ROUTERS)}/32l"])
        last = {"ask": hops, "except": f"{hops},172.16.0.{draw.randrange(INTERFACES)}/32i", "pair": draw.choice(["circuits", "routers"])}
        bandwidth = draw.choice([0, 1, 50, 100, 200, 500])
        yield f"{kind},{name},10.0.0.{start},10.0.0.{end},{draw.randrange(8)},{bandwidth},{masks},{last[kind]}"


class Answers:
    """The replies to requests at each version of a served book, by the reference."""

    def __init__(self, networks):
        self.networks, self.known = networks, {}

    def at(self, version, row):
        """The reply line, without its line feed. Requests that differ by their ids alone are answered once."""
        word, name, rest = row.split(",", 2)
        if (version, word, rest) not in self.known:
            kind, content = runs.row_or_question(next(records(f"{word},0,{rest}")), KINDS)
            network = self.networks[version]
            line = runs.QUESTIONS[kind].answer(network, version, content) if kind in KINDS else network.answer(version, content)
            self.known[version, word, rest] = line.split(" ", 2)[2]
        return f"{word} {name} {self.known[version, word, rest]}"

    def judge(self, checks, name, asked, last):
        """Each reply is the reference's at its version, which doesn't fall, isn't below what was read before the row was written, and is
        no later than the last one."""
        least, bad = 0, []
        for told, row, line in asked:
            named = AT.match(line)
            version = int(named[1]) if named else -1
            if not max(told, least) <= version <= last or line != f"{self.at(version, row)}\n":
                bad.append((told, least, row, line))
            least = max(least, version)
        checks.same(f"replies that aren't right: {name}", bad[:2], [])


def ask_on(run, number, rows, done, asked):
    """Asks on one client until it is done or the run is killed: each row with the version that was read before, and its line."""
    for row in rows:
        if done.is_set():
            return
        told = run.told
        try:
            line = run.talk(number, f"{row}\n")
        except (BrokenPipeError, TimeoutError) as fault:
            line = str(fault)
        if run.killed and not line.endswith("\n"):
            return
        asked.append((told, row, line))
        if not line.endswith("\n"):  # the judgement fails
            return
