"""Tests of kills with `deploy/keep --book`: of the script at each of its steps, of a command of it alone, of the whole server, and of
runs of `routed serve --book`, by default 20, with BOOK_KILLS=N in the environment N. Each row whose line was read is in the next
beginning, and one more at most.
"""
import contextlib
import os
import random
import signal
import subprocess
import tempfile
import threading
import time

from program.known_books import BASE, held_row, place
from program.serving import PATIENCE, Lines
from reference.compacts import compact
from tools.fronts import Connection
from tools.kept import DEPLOY, kill, started
from tools.kept_books import HAS_BOOK, KEPT, left, of_book

KILLS = int(os.environ.get("BOOK_KILLS", "20"))
NEXT = "000003"
# A command of the script that ends all by a signal, where it is called with a word: before its work, behind it, or in its midst.
DYING = """#!/bin/sh
case " $* " in
*" {word} "*) ;;
*) {real} "$@"; exit ;;
esac
{work}
kill -KILL 0
"""
WORKS = {"before": "", "behind": '{real} "$@"', "in the midst of": '{real} "$@" | head -c 99'}
STEPS = [("cat", "000002.kept"), ("routed", "--compact"), ("sync", f"{NEXT}.new"), ("mv", f"{NEXT}.new"), ("sync", "."), ("rm", "-f"),
         ("grep", "-vc")]
# What `keep` runs in place of listen: the run's number isn't the server's.
SERVED = ["sh", "-c", 'shift 2; exec routed serve --book --client /dev/null=/dev/zero "$@"', "served"]


def kept_kills(program, checks):
    with tempfile.TemporaryDirectory() as room:
        checks.parts_in(room, (steps, unread, served, kills), program, checks)


# ---- steps that a kill ends


def dying(runs, command, word, moment):
    """Has a command of the script end all."""
    path = os.path.join(runs.env["PATH"].split(":")[0], command)
    real = f"command -p {command}"
    if command == "routed":
        os.rename(path, f"{path}.real")
        real = f"{path}.real"
    with open(path, "w", encoding="ascii") as script:
        script.write(DYING.format(real=real, word=word, work=WORKS[moment].format(real=real)))
    os.chmod(path, 0o755)
    return path


def steps(program, checks, room):
    """At whichever step all is killed, the next start has the whole book, and one of its two places has it meanwhile."""
    runs, begin, found = of_book(program, room), BASE + held_row(9), {}
    for kept, journal, of_these in ((KEPT + "release,2", BASE, STEPS[:5]), ("", "", STEPS[5:])):
        wanted = left(runs, begin, kept, journal)
        for command, word in of_these:
            for moment in WORKS:
                left(runs, begin, kept, journal)
                path = dying(runs, command, word, moment)
                status = runs.keep()[0]
                found.setdefault((command, word), set()).add(status == -signal.SIGKILL)
                os.unlink(path)
                if command == "routed":
                    os.rename(f"{path}.real", path)
                name = f"{moment} {command} {word}, {len(kept)} bytes kept"
                names = runs.names()
                if "000003.begin" in names:
                    checks.same(f"the next beginning is whole: {name}", runs.read("000003.begin"), wanted)
                else:
                    checks.same(f"the book before is whole: {name}", (runs.read("000002.begin"), runs.read("000002.kept")), (begin, kept))
                is_made = "000003.begin" in names
                status, out, err = runs.keep()
                said = ["keep: 000003 was not begun: it begins now"] if is_made else []
                checks.same(f"the next start: {name}", (status, out, [line for line in err.splitlines() if line.startswith("keep: ")]),
                            (0, runs.ran("000003")[1], said))
                checks.same(f"begins with all: {name}", runs.read("000003.begin"), wanted)
    checks.same("steps at which all was killed", [step for step in STEPS if True in found[step]], STEPS)


def unread(program, checks, room):
    """A part of the rows is no book: where a command of the script fails or is killed alone, no run begins."""
    runs = of_book(program, room)
    why = f"keep: 000002.begin and 000002.kept: its snapshot can't be written to {runs.folder}: status "
    for command, script, status in (("cat", "command -p cat 000002.begin; exit 1", 1),
                                    ("cat", "command -p cat 000002.begin; kill -KILL $$", 1),
                                    ("cat", 'command -p cat "$@"; kill -KILL $PPID', 1), ("routed", "cat >/dev/null; kill -KILL $$", 137)):
        left(runs, BASE, KEPT, BASE)
        path = os.path.join(room, "bin", command)
        real = os.readlink(path) if os.path.islink(path) else None
        with contextlib.suppress(FileNotFoundError):
            os.unlink(path)
        with open(path, "w", encoding="ascii") as file:
            file.write(f"#!/bin/sh\n{script}\n")
        os.chmod(path, 0o755)
        ended, out, err = runs.keep()
        checks.same(f"{command}: {script}", (ended, out, err.splitlines()[-1:], "000003.begin" in runs.names()),
                    (1, "", [f"{why}{status}"], False))
        os.unlink(path)
        if real:
            os.symlink(real, path)
    checks.same("afterwards all is there", (runs.keep(), runs.read("000003.begin")), (runs.ran("000003"), compact(BASE + KEPT)[1]))


# ---- the whole server


def served(program, checks, room):
    """Runs of deploy/serve with ROUTED_PLACEMENTS: what is placed at its socket is in the next run, however the run before ended."""
    runs = of_book(program, room)
    env, held = {**runs.env, "ROUTED_PLACEMENTS": os.path.join(room, "placements")}, []
    wanted = BASE.replace("0x1,", "0x00000001,")
    for number, end in ((1, signal.SIGKILL), (2, signal.SIGTERM), (3, signal.SIGKILL)):
        with started([os.path.join(DEPLOY, "serve"), "--clients", "2"], env=env, stderr=subprocess.DEVNULL) as child:
            checks.same(f"run {number}", [child.stdout.readline() for _ in range(2)], [f"run {number}\n", "ready\n"])
            placer, updating = Connection(env["ROUTED_PLACEMENTS"]), Connection(env["ROUTED_UPDATES"])
            checks.same(f"the mode of the socket in run {number}", os.stat(env["ROUTED_PLACEMENTS"]).st_mode & 0o777, 0o660)
            if number == 1:
                checks.same("a base", (updating.talk(BASE), placer.hear(1)), ("base 1 v1\n",) * 2)
            placer.say("book\n")
            lines = list(iter(placer.lines.next, "book end\n"))
            checks.same(f"the book of run {number}", lines, ["version 1\n", f"run {number}\n", *wanted.splitlines(True), *held])
            checks.true(f"a placing in run {number}", placer.talk(place(number)).startswith(f"place {number} v2 route "))
            held.append(held_row(number).replace("0x0,0x0,0x0", ",".join(["0x00000000"] * 3)))
            os.killpg(child.pid, end)
            child.wait(PATIENCE)
    checks.same("the journal of each run stays", [name for name in runs.names() if name.endswith(".journal")],
                [f"{number:06}.journal" for number in (1, 2, 3)])
    del env["ROUTED_PLACEMENTS"]
    ran = subprocess.run([os.path.join(DEPLOY, "serve")], env=env, capture_output=True, text=True, timeout=PATIENCE)
    checks.same("without the place", (ran.returncode, ran.stdout, ran.stderr), (1, "", f"keep: {runs.folder}: {HAS_BOOK}\n"))


# ---- kills


class Placer:
    """Sends rows one at a time to a run of `routed serve --book`, and knows which were accepted."""

    def __init__(self):
        self.begin, self.told, self.sent, self.count, self.lines = "", "", "", 0, 0

    def learn(self, begin):
        """Whether a beginning is what was told, with or without the row that had no line yet."""
        books = [compact(self.begin + self.told + more) for more in dict.fromkeys(("", self.sent))]
        good = (0, begin) in books
        self.begin, self.told, self.sent = begin, "", ""
        return good

    def next(self, draw):
        """Rows of one line: a placing, a release, a placement that is restored, or a batch of the base."""
        self.count += 1
        name = draw.randrange(12)
        number = 1 + (self.begin + self.told).count("end,")
        return draw.choice((place(name, bandwidth=draw.randrange(99)), f"release,{name}\n", held_row(1000 + self.count, bandwidth=1),
                            f"{BASE.replace('end,1,', f'end,{number},').replace(',10,0x1,', f',{self.count},0x1,')}"))

    def bring(self, child, draw, begun):
        """Sends rows until the run is gone, and says so once it has accepted one."""
        lines = Lines(child.stdout.fileno())
        with contextlib.suppress(OSError, ValueError):
            while True:
                self.sent = self.next(draw)
                child.stdin.write(self.sent)
                child.stdin.flush()
                while (line := lines.next()).startswith(("over ", "lost ")):
                    pass
                if not line.endswith("\n"):
                    return
                if " refused: " not in line:
                    self.told += self.sent
                    self.lines += 1
                    begun()
                    begun = int
                self.sent = ""


def kills(program, checks, room):
    """Runs that are killed, each at a drawn moment: half of them while they start, the others while rows are sent."""
    start, draw, placer, runs = time.monotonic(), random.Random(31), Placer(), of_book(program, room)
    wrong_ones, phases, took, names = [], {"starting": 0, "serving": 0}, 1.0, []
    for at in range(KILLS + 1):
        began, before = time.monotonic(), runs.names()
        with started([os.path.join(DEPLOY, "keep"), "--book", runs.folder, *SERVED], env=runs.env, stdin=subprocess.PIPE,
                     stderr=subprocess.DEVNULL) as child:
            is_served = at % 2 or at in (0, KILLS)
            if not is_served:
                timer = threading.Timer(draw.uniform(0, took), kill, [child, at // 2 % 4])
                timer.start()
            while child.poll() is None and not (new := [name for name in runs.names() if name.endswith(".kept") and name not in before]):
                time.sleep(0.005)
            if is_served:
                number, took = new[0].partition(".")[0], time.monotonic() - began
                if not placer.learn(runs.read(f"{number}.begin")):
                    wrong_ones.append(at)
                names.append(number)
                timer = threading.Timer(draw.uniform(0, took / 2), kill, [child, at // 2 % 4])
                placer.bring(child, draw, timer.start)
            timer.join()
            child.wait(PATIENCE)
            subprocess.run(["flock", os.path.join(runs.folder, "lock"), "true"], timeout=PATIENCE)  # commands of a killed script end
            with contextlib.suppress(BrokenPipeError):  # rows that it hasn't read
                child.stdin.close()
        phases["serving" if is_served else "starting"] += 1
    checks.same("what was told is in each beginning", wrong_ones, [])
    checks.true("the number of each run is above that of the run before", names == sorted(set(names)), names)
    checks.true("rows were accepted", placer.lines > KILLS // 2, placer.lines)
    print(f"kept books: {KILLS} kills, {placer.lines} rows, {phases}, in {time.monotonic() - start:.0f} s")
