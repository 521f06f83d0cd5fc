"""Tests of what the tools tell systemd, and of the figures that say what runs: its version, its logic and its processes."""
import contextlib
import hashlib
import json
import os
import re
import resource
import shutil
import signal
import socket
import subprocess
import tempfile
import time

from checks import TOOLS, TOP
from feed.played import PAIR as LSAS
from feed.played import Router
from program.serving import PATIENCE
from tools.fronts import Connection, Front
from tools.reading import FREE, PAIR, figures_of, got, seen

from routed import program as of_tools

FIRST = PAIR + "end,1,2\n"
EXTENDED = "EXTEND_TIMEOUT_USEC=60000000"


def told(program, checks):
    with tempfile.TemporaryDirectory() as room:
        checks.parts_in(room, (ready, slow, full, turning, refused_places, strange, of_feed, of_pcep, build, processes, severities,
                               dashboard), program, checks)


class Supervisor:
    """The socket of NOTIFY_SOCKET, and the environment that names it."""

    def __init__(self, room, **more):
        self.socket = socket.socket(socket.AF_UNIX, socket.SOCK_DGRAM)
        self.socket.bind(os.path.join(room, "notify"))
        self.socket.settimeout(PATIENCE)
        self.env = {**os.environ, "NOTIFY_SOCKET": os.path.join(room, "notify"), **more}

    def next(self):
        return self.socket.recv(4096).decode().split("\n")

    def until(self, word):
        """The lines up to the message that has this one, and those of this message."""
        before, end = [], time.monotonic() + PATIENCE
        while word not in (lines := self.next()):
            before += lines
            if time.monotonic() > end:
                raise TimeoutError(f"no {word} in {PATIENCE} s")
        return before, lines

    def status(self, text):
        """Whether a status line comes that begins so."""
        end = time.monotonic() + PATIENCE
        while time.monotonic() < end:
            if any(line.startswith(f"STATUS={text}") for line in self.next()):
                return True
        return False


# ---- systemd


def ready(program, checks, room):
    """READY=1 comes once rows are answered, with the status line."""
    begin = os.path.join(room, "begin")
    with open(begin, "w", encoding="ascii") as file:
        file.write(FIRST)
    listening = Supervisor(room)
    with Front(program, room, "--run", "4", "--begin", begin, env=listening.env) as front:
        before, lines = listening.until("READY=1")
        checks.true("a start asks for time", EXTENDED in before, before)
        checks.true("and says what it does", f"STATUS=publishing the batches of {begin}" in before, before)
        checks.same("the message that it is ready", lines, ["READY=1", "STATUS=run 4, version 1, 0 asking"])
        asking = Connection(front.ask)
        checks.true("a row is answered then", asking.talk("ask,1,1.1.1.1,2.2.2.2,0,1,0x0,0x0,0x0,\n").startswith("ask 1 v1 route "))
        Connection(front.updates).talk(f"put,3.3.3.3,10.0.13.1,1.1.1.1,10.0.13.2,1,0x0,{FREE}\nend,2,1\n")
        checks.true("the status line changes", listening.status("run 4, version 2, 1 asking"))


def slow(program, checks, room):
    """A server that begins late: nothing says that it is ready before it is."""
    late = os.path.join(room, "late")
    with open(late, "w", encoding="ascii") as script:
        script.write(f"#!/bin/sh\nsleep 1.5\nexec {program.path} \"$@\"\n")
    os.chmod(late, 0o755)
    listening = Supervisor(room, WATCHDOG_USEC="600000")
    stand_in = type(program)(late)
    began = time.monotonic()
    with Front(stand_in, room, env=listening.env):
        before, _ = listening.until("READY=1")
        checks.true("it is ready late", time.monotonic() - began > 1.5)
        checks.true("it asks for time again and again", before.count(EXTENDED) > 2, before)
        checks.true("a start has no sign of life", "WATCHDOG=1" not in before, before)


def full(program, checks, room):
    """A socket that takes no message when the server is ready: that it is ready is told once there is room."""
    listening, other = Supervisor(room, WATCHDOG_USEC="600000"), socket.socket(socket.AF_UNIX, socket.SOCK_DGRAM)
    other.setblocking(False)
    with contextlib.closing(other):
        with contextlib.suppress(BlockingIOError):
            while True:
                other.sendto(b"OTHER=1", listening.env["NOTIFY_SOCKET"])
        with Front(program, room, env=listening.env) as front:
            checks.same("a row is answered", Connection(front.ask).talk("ask,1,1.1.1.1,2.2.2.2,0,1,0x0,0x0,0x0,\n"),
                        "ask 1 v0 unknown-from\n")
            before, lines = listening.until("READY=1")
            checks.same("the messages before have no word of the server's", set(before), {"OTHER=1"})
            checks.true("the message that it is ready has its state, too", any(line.startswith("STATUS=") for line in lines), lines)


def turning(program, checks, room):
    """Signs of life come while the loop turns, and no others."""
    listening = Supervisor(room, WATCHDOG_USEC="600000")
    with Front(program, room, env=listening.env) as front:
        listening.until("READY=1")
        found, times = [], []
        for _ in range(3):  # other tests run beside this one
            began = time.monotonic()
            found += ["WATCHDOG=1" in listening.next() for _ in range(5)]
            times.append(time.monotonic() - began)
        checks.true("five of them within the time of three", all(found) and min(times) < 5 * 0.6, (found, times))
        front.child.send_signal(signal.SIGSTOP)
        time.sleep(0.3)
        listening.socket.settimeout(1)
        count = 0
        with contextlib.suppress(TimeoutError):
            while True:
                listening.next()
                count += 1
        front.child.send_signal(signal.SIGCONT)
        checks.true("a front that is stopped gives none", count < 4, count)


def refused_places(program, checks, room):
    """A place that isn't there, is no place, or is full, changes nothing."""
    full = Supervisor(room)
    for at, place in enumerate((os.path.join(room, "nothing"), "relative", "@routed of a test", full.env["NOTIFY_SOCKET"])):
        inner = os.path.join(room, str(at))
        os.mkdir(inner)
        env = {**os.environ, "NOTIFY_SOCKET": place, "WATCHDOG_USEC": "1000"}
        with Front(program, inner, env=env) as front:
            checks.same(f"with NOTIFY_SOCKET={os.path.basename(place)} it is ready", front.first, "ready\n")
            time.sleep(0.3)
            checks.same("and is used", Connection(front.updates).talk(FIRST), "version 1\n")
    with socket.socket(socket.AF_UNIX, socket.SOCK_DGRAM) as abstract:
        abstract.bind("\0routed of a test")
        abstract.settimeout(PATIENCE)
        inner = os.path.join(room, "abstract")
        os.mkdir(inner)
        with Front(program, inner, env={**os.environ, "NOTIFY_SOCKET": "@routed of a test"}):
            checks.true("an abstract socket", b"STATUS=starting" in abstract.recv(4096))


def strange(program, checks, room):
    """A name that is no text, and a time that is none."""
    begin = os.path.join(room, "begin\udcff")
    with open(begin, "w", encoding="ascii") as file:
        file.write(FIRST)
    listening = Supervisor(room, WATCHDOG_USEC="9" * 5000)
    with Front(program, room, "--begin", begin, env=listening.env) as front:
        said = listening.socket.recv(4096)
        checks.true("a path that is no text", said.endswith(b"/begin\xff"), said)
        checks.same("the front is ready", front.first, "ready\n")


def of_feed(program, checks, room):
    with Front(program, room) as front:
        listening, router = Supervisor(room), Router()
        with subprocess.Popen([TOOLS, "feed", "--port", str(router.port), "--to", front.updates, "--collect", "0"], env=listening.env,
                              stdin=subprocess.DEVNULL, stderr=subprocess.DEVNULL) as feeding:
            _, lines = listening.until("READY=1")
            checks.same("a feed is ready", lines[0], "READY=1")
            router.accept()
            router.send(LSAS)
            checks.true("its status line", listening.status(f"version 1, 2 links, connected to 127.0.0.1 port {router.port}"))
            router.hang_up()
            checks.true("without a router", listening.status("version 1, 2 links, no connection to 127.0.0.1"))
            feeding.terminate()
        inner = os.path.join(room, "late")
        os.mkdir(inner)
        late = Supervisor(inner)
        with socket.socket(socket.AF_UNIX) as silent:
            silent.bind(os.path.join(inner, "silent"))
            silent.listen()
            with subprocess.Popen([TOOLS, "feed", "--to", os.path.join(inner, "silent")], env=late.env, stdin=subprocess.DEVNULL,
                                  stderr=subprocess.DEVNULL) as feeding:
                checks.true("a feed whose server is silent", late.status("asking what the server has"))
                late.socket.settimeout(1)
                found = []
                with contextlib.suppress(TimeoutError):
                    while True:
                        found += late.next()
                checks.true("isn't ready", "READY=1" not in found, found)
                feeding.kill()


def of_pcep(program, checks, room):
    with Front(program, room, "--watch", os.path.join(room, "watch")) as front:
        listening = Supervisor(room, WATCHDOG_USEC="600000")
        Connection(front.updates).talk(FIRST)
        with subprocess.Popen([TOOLS, "pcep", "--ask", front.ask, "--watch", os.path.join(room, "watch"), "--port", "0"],
                              env=listening.env, stdout=subprocess.PIPE, stderr=subprocess.DEVNULL) as answering:
            _, lines = listening.until("READY=1")
            checks.same("pcep is ready once routers may connect", answering.stdout.readline()[:15], b"pcep 127.0.0.1:")
            is_told = "STATUS=version 1, 0 sessions" in lines or listening.status("version 1, 0 sessions")
            checks.true("its status line", is_told, lines)
            front.child.terminate()
            checks.true("without a server", listening.status("no server, 0 sessions"))
            answering.terminate()
            checks.same("its status", answering.wait(PATIENCE), 0)


# ---- what runs


def build(program, checks, room):
    """The logic of a program is that of its own record alone."""
    copy, record, bin_ = (os.path.join(room, name) for name in ("routed", "logic", "bin"))
    shutil.copy(program.path, copy)
    checks.same("a program without a record", of_tools.logic(copy), "unknown")
    os.mkdir(bin_)
    with open(os.path.join(bin_, "rt"), "w", encoding="ascii") as script:
        script.write("#!/bin/sh\n[ \"$*\" = version ] && echo \"$SAID\"\n")
    os.chmod(script.name, 0o755)

    def recorded(said):
        ran = subprocess.run([os.path.join(TOP, "tools/logic"), copy], env={"PATH": f"{bin_}:/usr/bin:/bin", "SAID": said},
                             capture_output=True, text=True)
        return ran.returncode, ran.stderr

    checks.same("a kit that says no logic", (recorded("rattle-kit-9"), os.path.exists(record)),
                ((1, "tools/logic: rt version prints no logic\n"), False))
    checks.same("tools/logic", recorded("rattle-kit-9 of a test, logic 0123abcd, and more"), (0, ""))
    with open(program.path, "rb") as file:
        digest = hashlib.sha256(file.read()).hexdigest()
    with open(record, encoding="ascii") as file:
        checks.same("its record", file.read(), f"0123abcd {digest}\n")
    with seen(type(program)(copy), room):
        lines = [line for line in got(room)[1].splitlines() if line.startswith("routed_build_info")]
    with open(os.path.join(TOP, "VERSION"), encoding="ascii") as file:
        checks.same("the figure", lines, [f'routed_build_info{{version="{file.read().strip()}",logic="0123abcd"}} 1'])
    with open(copy, "ab") as file:
        file.write(b"\0")
    checks.same("another program beside the record", of_tools.logic(copy), "unknown")
    with open(record, "w", encoding="ascii") as file:
        file.write("\n")
    checks.same("a record that can't be read", of_tools.logic(copy), "unknown")
    installed, out = os.path.join(room, "installed"), os.path.join(room, "out")
    os.mkdir(out)
    shutil.copy(program.path, out)
    subprocess.run([os.path.join(TOP, "tools/logic"), os.path.join(out, "routed")], check=True,
                   env={"PATH": f"{bin_}:/usr/bin:/bin", "SAID": "kit logic fedc"})
    subprocess.run(["make", "-s", "install", f"DESTDIR={installed}", f"PROGRAM={out}/routed", "LIBRARY="], cwd=TOP, check=True,
                   capture_output=True)
    checks.same("make install takes the record along", of_tools.logic(os.path.join(installed, "usr/local/bin/routed")), "fedc")


def settled(room, label, number):
    """The figures, and what /proc has of a process: once both have the same virtual memory, which threads still take at the start."""
    end = time.monotonic() + PATIENCE
    while True:
        now = figures_of(room)
        with open(f"/proc/{number}/status", encoding="ascii") as file:
            status = dict(line.rstrip().split(":\t") for line in file if line.startswith("Vm"))
        if now.get(("process_virtual_memory_bytes", label)) == 1024 * int(status["VmSize"].split()[0]) or time.monotonic() > end:
            return now, status
        time.sleep(0.05)


def processes(program, checks, room):
    before = time.time()
    with seen(program, room) as front:
        Connection(front.updates).talk(FIRST)
        numbers = {"front": front.child.pid, "program": front.server()}
        for label, number in numbers.items():
            now, status = settled(room, label, number)
            checks.same(f"virtual memory of the {label}", now.get(("process_virtual_memory_bytes", label)),
                        1024 * int(status["VmSize"].split()[0]))
            resident = now.get(("process_resident_memory_bytes", label), 0)
            checks.true(f"resident memory of the {label}", 0.5 < resident / (1024 * int(status["VmRSS"].split()[0])) < 2, resident)
            files = now.get(("process_open_fds", label), 0)
            checks.true(f"open files of the {label}", abs(files - len(os.listdir(f"/proc/{number}/fd"))) < 4, files)
            checks.same(f"how many files the {label} may open", now.get(("process_max_fds", label)),
                        resource.prlimit(number, resource.RLIMIT_NOFILE)[0])
            began = now.get(("process_start_time_seconds", label), 0)
            checks.true(f"when the {label} began", before - 1 < began < time.time() + 1, began - before)
            checks.true(f"processor time of the {label}", 0 <= now.get(("process_cpu_seconds_total", label), -1) < PATIENCE)
        os.kill(numbers["program"], signal.SIGKILL)
        front.ended()
    checks.true("figures of two processes", len(numbers) == 2)


def severities(program, checks, room):
    """Each alarm has one."""
    with open(os.path.join(TOP, "deploy/alarms.yml"), encoding="utf-8") as file:
        rules = file.read().split("- alert: ")[1:]
    found = {rule.split()[0]: re.findall(r"(?m)^        labels:\n          severity: (critical|warning|info)$", rule) for rule in rules}
    checks.true("there are alarms", len(found) > 10, found)
    checks.same("alarms without one severity", [name for name, its in found.items() if len(its) != 1], [])


def dashboard(program, checks, room):
    """The fields that a dashboard has to have, and figures that are there."""
    with open(os.path.join(TOP, "deploy/dashboard.json"), encoding="utf-8") as file:
        made = json.load(file)
    checks.same("its fields", {name: type(made.get(name)) for name in ("title", "uid", "schemaVersion", "panels", "templating", "time")},
                {"title": str, "uid": str, "schemaVersion": int, "panels": list, "templating": dict, "time": dict})
    cells, names = set(), set()
    for panel in made["panels"]:
        place = panel["gridPos"]
        its = {(x, y) for x in range(place["x"], place["x"] + place["w"]) for y in range(place["y"], place["y"] + place["h"])}
        checks.true(f"{panel['title']} has a place of its own", not its & cells and place["x"] + place["w"] <= 24, place)
        cells |= its
        checks.true(f"{panel['title']} has a kind and figures", panel["type"] in ("stat", "timeseries", "table") and panel["targets"]
                    and all(target["expr"] and target["refId"] for target in panel["targets"]))
        for target in panel["targets"]:
            names |= set(re.findall(r"\b(?:routed|process)_\w+", target["expr"]))
    checks.same("the numbers of panels", sorted(panel["id"] for panel in made["panels"]), list(range(1, len(made["panels"]) + 1)))
    page = "".join(open(os.path.join(TOP, "docs/run", name), encoding="utf-8").read() for name in ("WATCHING.md", "PCEP.md"))
    checks.same("figures that are on no page", [name for name in sorted(names) if f"`{name.removesuffix('_bucket')}`" not in page], [])
