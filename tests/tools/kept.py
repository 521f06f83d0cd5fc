"""Tests of deploy/keep and deploy/serve: what a run begins with, whatever the run before left.

100 runs of deploy/serve are killed, half of them while they start: each batch whose version was printed is there after the next start.
"""
import contextlib
import os
import random
import signal
import subprocess
import sys
import tempfile
import threading
import time

from checks import TOP
from program.serving import PATIENCE
from program.snapshots import snapshot_of
from reference.runs import publish, whole_batches
from tools.fronts import Connection

DEPLOY = os.path.join(TOP, "deploy")
KILLS, SERVING = 100, 0.2  # and the seconds of a run in which it is killed
FREE = ",".join(["7"] * 8)
KINDS = {"kept": "keep"}  # options whose word isn't the kind of their file
TOOLS = f"""#!/bin/sh
PYTHONPATH={TOP}/python PYTHONDONTWRITEBYTECODE=1 exec {sys.executable} -m routed "$@"
"""


def around(program, room):
    """An environment whose path has `routed`, `routed-tools` and the scripts' own words, and folders in the room."""
    bin_ = os.path.join(room, "bin")
    os.makedirs(bin_)
    os.symlink(program.path, os.path.join(bin_, "routed"))
    with open(os.path.join(bin_, "routed-tools"), "w", encoding="utf-8") as script:
        script.write(TOOLS)
    os.chmod(script.name, 0o755)
    os.makedirs(os.path.join(room, "runs"))
    return {"PATH": f"{bin_}:/usr/local/bin:/usr/bin:/bin", "ROUTED_FOLDER": os.path.join(room, "runs"),
            "ROUTED_ASK": os.path.join(room, "ask"), "ROUTED_UPDATES": os.path.join(room, "updates")}


@contextlib.contextmanager
def started(words, **how):
    """A program that runs, whose lines are read. Where it hasn't ended it is killed afterwards, with what it has started."""
    with subprocess.Popen(words, stdout=subprocess.PIPE, text=True, start_new_session=True, **how) as child:
        try:
            yield child
        finally:
            if child.poll() is None:
                os.killpg(child.pid, signal.SIGKILL)


def last_of(journal):
    """The snapshot of a journal's whole batches."""
    return snapshot_of(publish(whole_batches(journal, True))[0][-1])


# ---- what a run begins with


class Runs:
    """The folder of runs in a room, and what the script `keep` makes of it."""

    def __init__(self, program, room, *options, kinds=("begin", "journal")):
        self.env, self.folder, self.options, self.kinds = around(program, room), os.path.join(room, "runs"), options, kinds

    def keep(self, *more, **env):
        """The status of the script, and what it prints; its command prints its words."""
        ran = subprocess.run([os.path.join(DEPLOY, "keep"), *self.options, *more, self.folder, "echo"], env={**self.env, **env},
                             capture_output=True, text=True, timeout=60, start_new_session=True)
        return ran.returncode, ran.stdout, ran.stderr

    def ran(self, number, *said):
        """The same of a run that begins."""
        words = " ".join(f"--{KINDS.get(kind, kind)} {self.folder}/{number}.{kind}" for kind in self.kinds)
        return 0, f"--run {int(number)} {words}\n", "".join(f"keep: {line}\n" for line in said)

    def write(self, name, text):
        with open(os.path.join(self.folder, name), "w", encoding="ascii") as file:
            file.write(text)

    def read(self, name):
        with open(os.path.join(self.folder, name), encoding="ascii") as file:
            return file.read()

    def names(self):
        return sorted(name for name in os.listdir(self.folder) if name != "lock")


def beginnings(program, checks):
    with open(os.path.join(TOP, "examples/nsfnet.journal"), encoding="ascii") as file:
        whole = file.read()
    with tempfile.TemporaryDirectory() as room:
        runs = Runs(program, room)
        env, folder, keep, ran, write, read = runs.env, runs.folder, runs.keep, runs.ran, runs.write, runs.read
        checks.same("a first run", keep(), ran("000001", f"{folder}: there is no run yet", "000001 begins with an empty network"))
        checks.same("a run that was not begun", keep(), ran("000001", "000001 was not begun: it begins now"))
        write("000001.journal", "")
        checks.same("an empty journal", keep(), ran("000002", "000001.journal is empty", "000002 begins with an empty network"))
        write("000002.journal", whole)
        checks.same("the run before", keep(), ran("000003"))
        begin = last_of(whole)
        checks.same("its last network", read("000003.begin"), begin)
        checks.same("which is not nothing", begin.count("put,"), 42)
        more = "drop,203.0.113.1,10.1.2.1\nend,2,1\n".replace("203.0.113.1,10.1.2.1", ",".join(begin.split(",")[1:3]))
        write("000003.journal", begin + more + "put,1.1")
        said = ["000003.journal: journal torn after 2: what stands behind is left out"]
        status, out, err = keep()
        checks.same("a torn journal", (status, out, [line for line in err.splitlines() if line.startswith("keep: ")]),
                    (0, ran("000004")[1], [f"keep: {line}" for line in said]))
        torn = last_of(begin + more)
        checks.same("its whole batches", (read("000004.begin"), torn.count("put,")), (torn, 41))
        for number, name, text in ((4, "cut inside its beginning", torn[:len(torn) // 2]), (5, "without its last byte", torn[:-1]),
                                   (6, "of other bytes", "\0" * len(torn))):
            write(f"{number:06}.journal", text)
            checks.same(f"a journal {name}", keep(), ran(f"{number + 1:06}", f"{number:06}.journal ends inside its beginning: "
                                                         f"{number + 1:06} begins as {number:06} was to begin"))
            checks.same(f"the same beginning: {name}", read(f"{number + 1:06}.begin"), torn)
        write("000007.journal", "")
        checks.same("an empty journal where the beginning isn't", keep(), ran("000008", "000007.journal ends inside its beginning: "
                    "000008 begins as 000007 was to begin", "000007.journal is empty"))
        checks.same("its beginning", read("000008.begin"), torn)
        write("000008.journal", torn)
        with open(os.path.join(room, "bin/cmp"), "w", encoding="ascii") as script:
            script.write("#!/bin/sh\nexit 137\n")
        os.chmod(script.name, 0o755)
        checks.same("a comparison that is killed decides nothing", keep(),
                    (1, "", "keep: 000008.journal can't be compared with 000008.begin: status 137\n"))
        os.unlink(script.name)
        checks.same("a journal that is its beginning", (keep(), read("000009.begin")), (ran("000009"), torn))
        checks.same("beginnings that are in the journal are removed", os.path.exists(os.path.join(folder, "000008.begin")), False)
        write("000009.journal", torn + "drop,9.9.9.9,9.9.9.9\nend,2,1\n")
        status, out, err = keep()
        checks.same("a journal that is refused", (status, out, err.splitlines()[-1:]),
                    (1, "", ["keep: 000009.journal: batch 2 refused: absent 1"]))
        checks.same("nothing is made of it", os.path.exists(os.path.join(folder, "000010.begin")), False)
        os.unlink(os.path.join(folder, "000009.journal"))
        with started([os.path.join(DEPLOY, "keep"), folder, "sh", "-c", "echo ready; sleep 60"], env=env,
                     stderr=subprocess.DEVNULL) as held:
            held.stdout.readline()
            checks.same("another server in the folder", keep(), (1, "", f"keep: {folder}: another server runs here\n"))
        checks.true("a folder that isn't there", subprocess.run([os.path.join(DEPLOY, "keep"), "/nowhere", "echo"],
                                                                capture_output=True).returncode)


# ---- kills


class Updater:
    """Brings batches of one change each, and knows which it was told of."""

    def __init__(self):
        self.told, self.sent, self.count = {}, None, 0  # the row of each key that was told, and the change without its line
        self.runs = []  # the number of each run that told it

    def learn(self, links):
        """Compares what a server has with what was told; the one change without its line may be there or not."""
        if self.sent:
            key, row = self.sent
            if links.get(key) == row:
                self.keep(key, row)
            self.sent = None
        return links == self.told

    def keep(self, key, row):
        if row:
            self.told[key] = row
        else:
            del self.told[key]

    def next(self, draw):
        """A change: a link that is new or has another metric, or one that goes."""
        self.count += 1
        key = f"1.1.1.1,10.0.0.{draw.randrange(100)}"
        gone = key in self.told and draw.random() < 0.3
        row = None if gone else f"{key},2.2.2.2,10.0.1.1,{self.count},0x00000001,{FREE}"
        self.sent = key, row
        return f"drop,{key}\n" if gone else f"put,{row}\n"

    def bring(self, place, draw, child, begun):
        """Brings batches until the server is gone, and says so when it begins; whether what the server had at first was what was told,
        None where nobody was told."""
        while True:
            if child.poll() is not None:
                return None
            with contextlib.suppress(OSError):
                taken = Connection(place)
                break
            time.sleep(0.002)
        try:
            return self.talk(taken, draw, begun)
        finally:
            taken.socket.close()

    def talk(self, taken, draw, begun):
        good = None
        with contextlib.suppress(OSError, EOFError):
            version = int(heard(taken, "snapshot\n").split()[1])
            links, self.runs = {}, self.runs + [int(heard(taken).split()[1])]
            while (line := heard(taken)) != "snapshot end\n":
                kind, rest = line.rstrip("\n").split(",", 1)
                if kind == "put":
                    links[",".join(rest.split(",")[:2])] = rest
            good = self.learn(links)
            begun()
            while heard(taken, f"{self.next(draw)}end,{version + 1},1\n") == f"version {version + 1}\n":
                self.keep(*self.sent)
                self.sent, version = None, version + 1
        return good


def heard(taken, rows=""):
    """The next line of a connection, to these rows."""
    taken.say(rows)
    line = taken.lines.next()
    if not line.endswith("\n"):
        raise EOFError
    return line


def child_of(child):
    """The first process that it started: the server, or a command of the script; None where there is none."""
    with contextlib.suppress(OSError, IndexError):
        with open(f"/proc/{child.pid}/task/{child.pid}/children", encoding="ascii") as children:
            return int(children.read().split()[0])
    return None


def kill(child, kind):
    """By the kind the script or what it has become, all of it, or what it has started; or a signal to end."""
    with contextlib.suppress(ProcessLookupError):
        if kind == 0:
            child.kill()
        elif kind == 1:
            os.killpg(child.pid, signal.SIGKILL)
        elif kind == 2:
            with contextlib.suppress(ProcessLookupError):  # a command of the script may have ended since
                os.kill(child_of(child) or child.pid, signal.SIGKILL)
            time.sleep(SERVING)
            child.kill()  # a script may go on without one of its commands
        else:
            child.terminate()


def kills(program, checks):
    """100 runs of deploy/serve, each killed at a drawn moment: half of them of a start, the others while batches are brought as fast as
    they are told. One more start shows what the last left."""
    start, draw, updater = time.monotonic(), random.Random(29), Updater()
    with tempfile.TemporaryDirectory() as room:
        env = around(program, room)
        wrong, phases, took = [], {"starting": 0, "serving": 0}, 0.0
        for at in range(KILLS + 1):
            begun = time.monotonic()
            with started([os.path.join(DEPLOY, "serve"), "--clients", "2"], env=env, stderr=subprocess.DEVNULL) as child:
                is_served = at % 2 or at in (0, KILLS)
                timer = threading.Timer(draw.uniform(0, SERVING if is_served else took), kill, [child, at // 2 % 4])
                if is_served:
                    said = [child.stdout.readline() for _ in range(2)]
                    checks.true(f"start {at} is ready", said[0].startswith("run ") and said[1] == "ready\n", said)
                    took = time.monotonic() - begun  # (not the longest: one slow start would move later kills out of starts)
                else:
                    timer.start()
                good = updater.bring(env["ROUTED_UPDATES"], draw, child, timer.start if is_served else lambda: None)
                timer.join()
                child.wait(PATIENCE)
            phases["starting" if good is None else "serving"] += 1
            if good is False:
                wrong.append(at)
    checks.same("what was told is there after each start", wrong, [])
    checks.true("the number of each run is above that of the run before", updater.runs == sorted(set(updater.runs)), updater.runs)
    checks.true("the kills are spread over starts and runs", min(phases.values()) > KILLS // 5, phases)
    print(f"kept: {KILLS} kills, {updater.count} batches, {phases}, in {time.monotonic() - start:.0f} s")


def kept(program, checks):
    beginnings(program, checks)
    kills(program, checks)
