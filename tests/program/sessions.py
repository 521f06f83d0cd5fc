"""`routed serve --reopen` and `--figures`: each session has streams of its own, and the figures are those of the lines that were read.

Sessions over named pipes end in each way that a session may end, while batches are published. Pipes of another process, by their names
in /proc, are replaced between two sessions. The end of standard input, of the names and of a device of the updates ends the run.
"""
import contextlib
import itertools
import os
import random
import resource
import subprocess
import sys
import threading
import time

from program.known_books import BASE, FREE, held_row, offer, place
from program.known_served_books import put
from program.serving import AT, MOMENT, PATIENCE, Lines, circuit_at, reply_at, wait_for

ASK, ROW = "ask,{},1.1.1.1,2.2.2.2,0,5,0x0,0x0,0x0,\n", "row {} refused: {}\n"
LONGEST = 1 << 20  # the most bytes of a client's line
TURNS, CLIENTS = 30, 4  # sessions of each client beside batches, and these clients
ENDED = 0.5  # seconds in which a run has seen the end of its updates
SMALL = 600  # bytes of a file at most, fewer than the figures of one client take
KEPT = 300  # sessions after which memory is compared
# Rows of a book whose beginning is at version 1, how their lines begin, and the version that is new in the last one, if it is
BOOK_ROWS = [
    ("ask,1,1.1.1.1,2.2.2.2,0,5,0x0,0x0,0x0,\n", ["ask 1 v1"], 1),
    ("show,7\n", ["show 7 refused: absent\n"], None),
    (place(6), ["place 6 v2"], 2),
    (place(7, bandwidth=5000), ["place 7 v2 none\n"], None),
    (offer(7), ["offer 7 v2"], None),
    ("release,8\n", ["release 8 refused: absent\n"], None),
    (held_row(9, bandwidth=2000), ["over 1.1.1.1,10.0.12.1 7\n", "held 9 v3\n"], 3),
    ("release,9\n", ["released 9 v4\n"], 4),
    ("drop,1.1.1.1,10.0.12.1\nend,2,2\n", ["batch 2 refused: counted 1\n"], None),
    ("drop,1.1.1.1,10.0.12.1\nend,2,1\n", ["lost 5\n", "lost 6\n", "base 2 v5\n"], 5),
    (put(FREE) + "end,3,1\n", ["base 3 v6\n"], 6),
]
# opens two pipes, and says its process and their ends
HOLDER = """
import os, sys
ends = []
for at in range(2):
    ends += os.pipe()
print(os.getpid(), *ends, flush=True)
sys.stdin.readline()
"""


class Sessions:
    """A run of `routed serve --reopen`, whose clients open named pipes for each session."""

    def __init__(self, program, room, clients, *more, **how):
        os.mkdir(room)
        self.room, self.figures = room, os.path.join(room, "figures")
        words = [program.path, "serve", "--journal", os.path.join(room, "journal"), "--reopen", "--figures", self.figures, *more]
        for number in range(1, clients + 1):
            for kind in ("rows", "lines"):
                os.mkfifo(self.name(kind, number))
            words += ["--client", f"{self.name('rows', number)}={self.name('lines', number)}"]
        self.child = subprocess.Popen(words, stdin=subprocess.PIPE, stderr=subprocess.PIPE, bufsize=0, **{"stdout": subprocess.PIPE, **how})
        self.said = Lines(self.child.stdout.fileno()) if self.child.stdout else None
        self.clients = clients

    def __enter__(self):
        return self

    def __exit__(self, *fault):
        self.child.kill()
        self.child.wait()
        for file in (self.child.stdin, self.child.stdout, self.child.stderr):
            if file:
                file.close()

    def name(self, kind, number):
        return os.path.join(self.room, f"{kind}{number}")

    def opened(self, number):
        """The two ends of a new session."""
        rows = os.open(self.name("rows", number), os.O_WRONLY)
        return rows, Lines(os.open(self.name("lines", number), os.O_RDONLY))

    def first(self):
        """The first sessions of all clients, which are opened in order before anything is read."""
        return [self.opened(number) for number in range(1, self.clients + 1)]

    def renew(self, number):
        """Puts new pipes in the places of a client's, so that the next session can't have the ends of this one."""
        for kind in ("rows", "lines"):
            os.mkfifo(self.name("new", number))
            os.rename(self.name("new", number), self.name(kind, number))

    def session(self, number, rows):
        """All lines of a session with these rows."""
        return spoken(self.opened(number), rows)

    def publish(self, version):
        self.child.stdin.write(circuit_at(version).encode())
        return self.said.next()

    def read(self):
        return whole(self.figures)


def whole(figures):
    """The figures of a file that isn't being written: of all, and of each seat, by name; and the file's lines."""
    end = time.monotonic() + PATIENCE
    while time.monotonic() < end:
        with open(figures, encoding="ascii") as file:
            lines = file.read().split("\n")
        words = [line.split() for line in lines]
        if len(words) > 2 and words[-1] == [] and words[-2][:1] == ["end"] and words[-2][1] == words[0][1]:
            named = [{key: int(value) for key, value in zip(line[::2], line[1::2])} for line in words[:-2]]
            return named[0], named[1:], lines
    raise TimeoutError("figures that are never whole")


def spoken(ends, rows, half_close=True):
    """Writes rows, ends them, and returns all lines."""
    number, lines = ends
    with contextlib.suppress(BrokenPipeError):
        data = rows.encode("latin-1")
        while data:
            data = data[os.write(number, data):]
    if half_close:
        os.close(number)
    said = "".join(lines.rest())
    os.close(lines.file)
    if not half_close:
        os.close(number)
    return said


def sessions(program, checks, room):
    os.mkdir(room)

    def at(name):
        return os.path.join(room, name)

    ends(program, checks, at("ends"))
    counted(program, checks, at("counted"))
    of_books(program, checks, at("of_books"))
    beside(program, checks, at("beside"))
    memory(program, checks, at("memory"))
    other_names(program, checks, at("names"))
    failures(program, checks, at("failures"))
    without(program, checks, at("without"))


def ends(program, checks, room):
    """After each kind of end a session begins with row 1, no byte of another session, and a version that isn't lower."""
    kinds = [("the end of rows", "", True), ("half a row", "ask,9", True), ("a quotation mark", 'as"k\n' + ASK.format(8), False),
             ("a line that is too long", "9" * (LONGEST + 1), False), ("an open quotation mark", '"', False)]
    with Sessions(program, room, 2, "--explain") as run:
        first = run.first()
        checks.same("a first session", spoken(first[0], ASK.format(1) + "x\n"), "ask 1 v0 unknown-from\n" + ROW.format(2, "kind"))
        version = 0
        for name, rows, closes in kinds:
            version += 1
            checks.same(f"a batch before {name}", run.publish(version), f"version {version}\n")
            said = "x\n" + ASK.format(version) + "end,1,0\n"
            lines = ROW.format(1, "kind") + reply_at(version, version) + ROW.format(3, "kind")
            if rows == "ask,9":
                lines += ROW.format(4, "fields")
            ends_of = run.opened(1)
            if not closes:
                run.renew(1)
            checks.same(f"a session before {name}", spoken(ends_of, said + rows, closes), lines)
            checks.same(f"a session after {name}", run.session(1, "y\n" + ASK.format(7)), ROW.format(1, "kind") + reply_at(7, version))
        checks.same("a client beside them", spoken(first[1], ASK.format(2)), reply_at(2, version))
        rows, lines = run.opened(2)
        run.renew(2)
        os.close(lines.file)  # a session whose lines can't be written
        os.write(rows, ASK.format(1).encode())
        os.close(rows)
        checks.same("a session after lines that nobody reads", run.session(2, ASK.format(3)), reply_at(3, version))
        open_ends = run.opened(1), run.opened(2)
        run.child.stdin.close()
        time.sleep(ENDED)
        checks.same("a session at the end of the updates", spoken(open_ends[0], ASK.format(4)), reply_at(4, version))
        checks.same("the last session ends at a quotation mark", spoken(open_ends[1], 'x\n"', False), ROW.format(1, "kind"))
        checks.same("the end of sessions", (run.child.wait(PATIENCE), run.child.stderr.read().decode()),
                    (2, f"routed: client 2: {run.name('rows', 2)}: a quotation mark\n"))


def counted(program, checks, room):
    """The figures are those of the lines that were read, and the file keeps its size."""
    with Sessions(program, room, 3) as run:
        wait_for(lambda: os.path.exists(run.figures) and os.stat(run.figures).st_size > 0)
        wanted = {number: {"sessions": 0, "rows": 0, "route": 0, "none": 0, "unknown-from": 0, "unknown-to": 0, "refused": 0, "version": 0}
                  for number in (1, 2, 3)}
        size = os.stat(run.figures).st_size
        checks.same("the figures before a session", [(seat["seat"], seat["open"]) for seat in run.read()[1]], [(1, 0), (2, 0), (3, 0)])
        first = run.first()
        checks.same("two batches", [run.publish(1), run.publish(2)], ["version 1\n", "version 2\n"])
        wait_for(lambda: run.read()[0]["version"] == 2)
        checks.same("the figures in the first sessions", [(seat["open"], seat["sessions"]) for seat in run.read()[1]], [(1, 0)] * 3)
        kinds = [(ASK.format(1), "route"), ("ask,2,2.2.2.2,1.1.1.1,0,6,0x0,0x0,0x0,\n", "none"),
                 ("ask,3,9.9.9.9,1.1.1.1,0,6,0x0,0x0,0x0,\n", "unknown-from"), ("ask,4,1.1.1.1,9.9.9.9,0,6,0x0,0x0,0x0,\n", "unknown-to"),
                 ("x\n", "refused"), ("ask,5\n", "refused"), (ASK.format(1 << 63), "route")]
        draw = random.Random(5)
        for turn, number in itertools.product(range(6), (1, 2, 3)):
            chosen = [draw.choice(kinds) for _ in range(draw.randrange(9))]
            said = spoken(first[number - 1] if turn == 0 else run.opened(number), "".join(row for row, _ in chosen))
            checks.same("a line for each row", said.count("\n"), len(chosen))
            own = wanted[number]
            own["sessions"] += 1
            own["rows"] += len(chosen)
            for _, kind in chosen:
                own[kind] += 1
                if kind != "refused":
                    own["version"] = 2
        wait_for(lambda: sum(seat["sessions"] for seat in run.read()[1]) == 18)
        head, seats, lines = run.read()
        checks.same("the published version in the figures", (head["version"], head["seats"]), (2, 3))
        checks.same("the figures of all seats", {seat["seat"]: {name: seat[name] for name in wanted[1]} for seat in seats}, wanted)
        checks.same("the size of the figures", os.stat(run.figures).st_size, size)
        checks.same("the lengths of their lines", len({len(line) for line in lines[1:-2]}), 1)
        before = head["figures"]
        checks.same("another batch", run.publish(3), "version 3\n")
        wait_for(lambda: run.read()[0]["version"] == 3)
        checks.same("the figures after a batch", (run.read()[0]["version"], run.read()[0]["figures"]), (3, before + 1))
        let_go(run)
        checks.same("the end beside figures", run.child.wait(PATIENCE), 2)


def of_books(program, checks, room):
    """With a book the figures are written once a line has a new version, whatever row has it."""
    begin, keep = f"{room}.begin", f"{room}.keep"
    with open(begin, "w", encoding="ascii") as file:
        file.write(BASE + place(5))
    with Sessions(program, room, 1, "--book", "--keep", keep, "--begin", begin) as run:
        wait_for(lambda: os.path.exists(run.figures) and os.stat(run.figures).st_size > 0)
        ends_of, before = run.first()[0], run.read()[0]["figures"]
        checks.same("the version in the figures of a beginning", run.read()[0]["version"], 0)
        for row, lines, version in BOOK_ROWS:
            run.child.stdin.write(row.encode())
            checks.same(f"the lines of {row}", [run.said.next().split(" route")[0] for _ in lines], lines)
            before += version is not None
            wait_for(lambda: run.read()[0]["figures"] >= before)
            head = run.read()[0]
            newest = head["version"] if version is None else version
            checks.same(f"the figures after {row}", (head["figures"], head["version"]), (before, newest))
        checks.same("a session beside a book", spoken(ends_of, ASK.format(9)).split(" route")[0], "ask 9 v6")
        wait_for(lambda: run.read()[1][0]["sessions"] == 1)
        checks.same("its figures", [run.read()[1][0][name] for name in ("rows", "route", "version")], [1, 1, 6])
        let_go(run)
        checks.same("the end of a book beside figures", run.child.wait(PATIENCE), 2)


def let_go(run):
    """Ends the updates, and opens each pipe that a client waits for, until the run has ended."""
    run.child.stdin.close()
    end = time.monotonic() + PATIENCE
    while run.child.poll() is None and time.monotonic() < end:
        for number in range(1, run.clients + 1):
            with contextlib.suppress(OSError):  # nobody waits for rows
                rows = os.open(run.name("rows", number), os.O_WRONLY | os.O_NONBLOCK)
                lines = os.open(run.name("lines", number), os.O_RDONLY | os.O_NONBLOCK)
                time.sleep(MOMENT)
                os.close(rows)
                os.close(lines)
        time.sleep(MOMENT)


def beside(program, checks, room):
    """Clients end their sessions at random while batches are published: each reply is right, and versions never fall along a client."""
    with Sessions(program, room, CLIENTS) as run:
        told, wrong = [0], []
        first = run.first()

        def go_on(number):
            draw, least = random.Random(number), 0
            for turn in range(TURNS):
                before = told[0]
                count = draw.randrange(6)
                tail = draw.choice(["", "ask,1,1.", '"', "x"])
                ended = first[number - 1] if turn == 0 else run.opened(number)
                if tail == '"':
                    run.renew(number)
                said = spoken(ended, "".join(ASK.format(at) for at in range(count)) + tail, tail != '"').splitlines(keepends=True)
                behind = {"": [], '"': [], "x": [ROW.format(count + 1, "kind")], "ask,1,1.": [ROW.format(count + 1, "fields")]}[tail]
                found = [int(AT.match(line)[1]) for line in said[:count] if AT.match(line)]
                right = [reply_at(at, version) if version else f"ask {at} v0 unknown-from\n" for at, version in enumerate(found)] + behind
                if said != right or found != sorted(found) or (found and found[0] < max(least, before)):
                    wrong.append((number, turn, before, least, said))
                least = max([least, *found])

        threads = [threading.Thread(target=go_on, args=(number,), daemon=True) for number in range(1, CLIENTS + 1)]
        for thread in threads:
            thread.start()
        while any(thread.is_alive() for thread in threads):
            if run.publish(told[0] + 1) != f"version {told[0] + 1}\n":
                wrong.append("no version")
                break
            told[0] += 1
            run.read()
        checks.same("sessions beside batches", wrong, [])
        checks.true("batches beside sessions", told[0] > 1, told)
        let_go(run)
        checks.same("the end of sessions beside batches", run.child.wait(PATIENCE), 2)


def memory(program, checks, room):
    """Neither memory nor descriptors grow with the sessions of a client."""
    with Sessions(program, room, 1) as run:
        spoken(run.first()[0], "")

        def held():
            with open(f"/proc/{run.child.pid}/statm", encoding="ascii") as file:
                return int(file.read().split()[1])

        for _ in range(KEPT):
            run.session(1, ASK.format(1) + '"')
        before, files = held(), len(os.listdir(f"/proc/{run.child.pid}/fd"))
        for _ in range(KEPT):
            run.session(1, ASK.format(1) + '"')
        wait_for(lambda: len(os.listdir(f"/proc/{run.child.pid}/fd")) <= files)
        checks.true("pages after more sessions", held() <= before + 2, (before, held()))
        checks.true("descriptors after more sessions", len(os.listdir(f"/proc/{run.child.pid}/fd")) <= files, files)
        let_go(run)
        checks.same("the end of many sessions", run.child.wait(PATIENCE), 0)


def other_names(program, checks, room):
    """A run over the pipes of a process ends by itself if this process is killed."""
    os.mkdir(room)
    with subprocess.Popen([sys.executable, "-c", HOLDER], stdin=subprocess.PIPE, stdout=subprocess.PIPE, bufsize=0) as holder:
        pid, *held = holder.stdout.readline().split()
        names = [f"/proc/{pid.decode()}/fd/{number.decode()}" for number in held]
        figures = os.path.join(room, "figures")
        child = subprocess.Popen([program.path, "serve", "--journal", os.path.join(room, "journal"), "--reopen", "--figures", figures,
                                  "--client", f"{names[0]}={names[3]}"], stdin=subprocess.PIPE, stdout=subprocess.PIPE, bufsize=0)
        for turn in range(3):
            rows, lines = os.open(names[1], os.O_WRONLY), Lines(os.open(names[2], os.O_RDONLY))
            os.write(rows, ASK.format(turn).encode() + b"x\n")
            checks.same(f"session {turn} over the pipes of another process", [lines.next(), lines.next()],
                        [f"ask {turn} v0 unknown-from\n", ROW.format(2, "kind")])
            os.write(rows, b'"')  # the holder has a write end, too
            os.close(rows)
            os.close(lines.file)
            wait_for(lambda: whole(figures)[1][0]["sessions"] > turn)
        holder.kill()
        holder.wait()
        checks.same("the updates after the names have gone", update(child, "end,1,0\n"), b"version 1\n")
        child.stdin.close()
        checks.same("the end without names", child.wait(PATIENCE), 2)
        child.stdout.close()


def update(child, rows):
    child.stdin.write(rows.encode())
    return child.stdout.readline()


def failures(program, checks, room):
    """No session follows if the updates end by a fault, or for plain files. A file of figures that can't be written ends nothing."""
    os.mkdir(room)
    with open("/dev/full", "wb") as full, Sessions(program, os.path.join(room, "full"), 1, stdout=full) as run:
        ends_of = run.first()[0]
        run.child.stdin.write(b"end,1,0\n")
        time.sleep(MOMENT * 10)  # the line of the batch fails meanwhile
        checks.same("a session after a fault of the updates", spoken(ends_of, ASK.format(1)), "ask 1 v1 unknown-from\n")
        checks.same("the end after a fault of the updates", (run.child.wait(PATIENCE), run.child.stderr.read()), (3, b"routed: stopped\n"))

    def plain(name, *more, before=None, most=None):
        inner = os.path.join(room, name)
        os.mkdir(inner)
        if before is not None:
            before(os.path.join(inner, "figures"))
        with open(os.path.join(inner, "rows"), "w", encoding="ascii") as file:
            file.write("x\n")
        ran = subprocess.run([program.path, "serve", "--journal", "journal", "--client", "rows=lines", *more], input=b"end,1,0\n",
                             cwd=inner, capture_output=True, timeout=PATIENCE,
                             preexec_fn=most and (lambda: resource.setrlimit(resource.RLIMIT_FSIZE, (most, most))))
        with open(os.path.join(inner, "lines"), encoding="ascii") as file:
            return ran.returncode, ran.stdout.decode(), ran.stderr.decode(), file.read()

    right = (2, "version 1\n", "", ROW.format(1, "kind"))
    checks.same("plain files have one session", plain("plain", "--reopen"), right)
    checks.same("figures of plain files", plain("counted", "--figures", "figures"), right)
    with open(os.path.join(room, "counted", "figures"), encoding="ascii") as file:
        checks.same("what they say", file.read().split()[6:27],
                    "seat 1 sessions 1 open 0 rows 1 route 0 none 0 unknown-from 0 unknown-to 0 refused 1 version 0 end".split())
    for name, make, why in [("folder", os.mkdir, "open"), ("pipe", os.mkfifo, "open"),
                            ("full", lambda path: os.symlink("/dev/full", path), "open"),
                            ("nowhere", lambda path: os.symlink("no/where", path), "open")]:
        status, said, fault, lines = plain(f"figures in a {name}", "--figures", "figures", "--explain", before=make)
        checks.same(f"a run whose figures are a {name}", (status, said, lines), (right[0], right[1], right[3]))
        checks.true(f"its line about them, {name}", fault.startswith(f"routed: figures figures: {why}: ") and fault.count("\n") == 1, fault)
        checks.same(f"without --explain, {name}", plain(f"quiet {name}", "--figures", "figures", before=make), right)
    status, said, fault, lines = plain("limited", "--figures", "figures", "--explain", most=SMALL)
    checks.same("a run whose figures are too large", (status, said, lines), (right[0], right[1], right[3]))
    checks.true("its line about them", fault.startswith("routed: figures figures: open: ") and fault.count("\n") == 1, fault)
    twice = subprocess.run([program.path, "serve", "--journal", "journal", "--client", "rows=lines", "--figures", "lines"], cwd=room,
                           capture_output=True, timeout=PATIENCE, stdin=subprocess.DEVNULL)
    checks.same("figures in a file of lines", (twice.returncode, twice.stderr), (1, b"routed: a file is named twice: lines\n"))


def without(program, checks, room):
    """Without --reopen a client has one session, whatever opens its pipes."""
    os.mkdir(room)
    names = [os.path.join(room, kind) for kind in ("rows", "lines")]
    for name in names:
        os.mkfifo(name)
    with subprocess.Popen([program.path, "serve", "--journal", os.path.join(room, "journal"), "--client", "=".join(names)],
                          stdin=subprocess.PIPE, stdout=subprocess.PIPE, bufsize=0) as child:
        rows, lines = os.open(names[0], os.O_WRONLY), Lines(os.open(names[1], os.O_RDONLY))
        checks.same("a client without --reopen", spoken((rows, lines), "x\n"), ROW.format(1, "kind"))
        checks.same("the updates after it", update(child, "end,1,0\n"), b"version 1\n")
        child.stdin.close()
        checks.same("the end without --reopen", child.wait(PATIENCE), 2)
