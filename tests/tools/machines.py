"""Tests of routed-tools sweep over more machines: by workers of Dask's distributed and by GNU parallel over ssh, both on this machine."""
import contextlib
import getpass
import io
import json
import os
import re
import shutil
import socket
import subprocess
import sys
import tempfile
import time
import types

from checks import TOP
from tools.ring import A, ASKS, B, BEFORE, DROPS, HANGS, OF_CIRCUITS, OF_ROUTERS, RING, SWEEP, THIRD, ask, link, sweep, wrapped

from routed.model.rows import Link
from routed.sweep.failures import read_requests
from routed.sweep.machines import Connections, Lost
from routed.sweep.solving import Stopped

WHOLE = (0, BEFORE + OF_CIRCUITS, "")
STOPS = 'if row == "drop,1.1.1.1,10.0.14.1":\n    stop(3, "routed: stopped\\n")'  # in the second scenario
GOES = "if words[0] == 'snapshot':\n    os.remove(sys.argv[0])"
TWO = DROPS + ('touch(f"at.{os.getpid()}"); '
               'wait(lambda: sum(name.startswith("at.") for name in os.listdir(room)) > 1)')  # until two scenarios are worked on at once
SECOND = OF_CIRCUITS.index("scenario 2")
CIRCUIT = link(A, "10.0.12.1", B, "10.0.12.2")
FAR = ["perl", "rm", "sh", "tr"]  # what the far side has beside the program


def run(python, program, *words, rows=RING, asks=ASKS, environment=None):
    """Status, standard output and standard error of a sweep by this Python."""
    with tempfile.TemporaryDirectory() as room:
        for name, text in (("journal", rows), ("requests", asks)):
            with open(os.path.join(room, name), "w", encoding="ascii") as file:
                file.write(text)
        ran = subprocess.run([*python, *SWEEP, f"{room}/journal", f"{room}/requests", "--program", program, *words],
                             capture_output=True, text=True, env=environment, timeout=120)
        return ran.returncode, ran.stdout, ran.stderr


def ends(process):
    process.kill()
    process.wait()


def await_(what, seconds=60):
    """What is there, as soon as it is; None if it never is."""
    end = time.monotonic() + seconds
    while not (found := what()) and time.monotonic() < end:
        time.sleep(0.02)
    return found or None


def connections(program, checks):
    """What connections of ssh wrote is taken for what was sent to them: each names itself, and none is passed over."""
    def lines(number, status=0, version=2, more=""):
        return f"connection {number} far\nversion 1\nversion {version}\nask 1 v2 none\nversion 3\n{more}\nstatus {status}\n"

    given = types.SimpleNamespace(rows=[CIRCUIT.strip(), "end,1,1"], requests=read_requests(ask(1, A, B).encode()), program="routed")
    for name, text, wanted in (
            ("two connections", lines(1) + lines(2), [["none"], ["none"], None]),
            ("the second is lost", lines(1) + lines(3), [["none"], "lost"]),
            ("the last is lost", lines(1), [["none"], "lost"]),
            ("the first is cut", lines(1)[:27] + lines(2), ["lost"]),
            ("the first is not at its version", lines(1, version=3) + lines(2),
             ["far: routed wrote 'version 3' where 'version 2' has to be"]),
            ("the first fails at its end", lines(1, status=3) + lines(2), [["none"], "far: routed ended with status 3"]),
            ("the first fails before", lines(1, status=3, version=3) + lines(2), ["far: routed ended with status 3: version 3"]),
            ("the second has a line more", lines(1) + lines(2, more="more\n"),
             [["none"], ["none"], "far: routed ended with status 0: more"])):
        taken, found = Connections(given, 1, io.BytesIO(text.encode())), []
        try:
            for _ in range(2):
                found.append(taken.ask({(A, "10.0.12.1"): Link.parse(CIRCUIT.strip().split(","))}, [0]))
            found.append(taken.end())
        except Lost:
            found.append("lost")
        except Stopped as fault:
            found.append(str(fault))
        checks.same(name, found, wanted)


def alone(program, checks):
    """Without an engine, and command lines that are refused."""
    status, out, err = run([sys.executable, "-S"], program.path, "--dask", "tcp://127.0.0.1:9")
    checks.true("no distributed", (status, out) == (3, BEFORE) and re.fullmatch(r"sweep: \S+: No module named '\w+'\n", err), err)
    found = run([sys.executable], program.path, "--ssh", "nowhere", environment={"PATH": "/nowhere"})
    checks.same("no parallel", found, (3, BEFORE, "sweep: parallel: No such file or directory; give the path of a file that is there\n"))
    for words in (["--dask", "x"], ["--dask", "tcp://127.0.0.1:9", "--jobs", "1"], ["--dask", "tcp://127.0.0.1:9", "--ssh", "x"]):
        status, out, err = run([sys.executable], program.path, *words)
        checks.true(f"a command line {words}", (status, out) == (2, "") and "sweep: error: " in err, err)


def dask(program, checks):
    """A scheduler and two workers."""
    pythons = [path for path in (sys.executable, "/usr/bin/python3")
               if not subprocess.run([path, "-c", "import distributed"], capture_output=True).returncode]
    if not pythons:
        print("skipped: sweeps by Dask, since no Python here has distributed")
        return
    python = pythons[0]
    with tempfile.TemporaryDirectory() as room, contextlib.ExitStack() as started:
        def start(module, *words):
            command = [python, "-m", f"distributed.cli.{module}", *words, "--no-dashboard", "--host", "127.0.0.1"]
            child = subprocess.Popen(command, stdout=subprocess.DEVNULL, stderr=subprocess.DEVNULL, cwd=room)
            started.callback(ends, child)
            return child

        def address():
            with contextlib.suppress(OSError, ValueError), open(f"{room}/scheduler") as file:
                return json.load(file)["address"]

        scheduler = start("dask_scheduler", "--port", "0", "--scheduler-file", f"{room}/scheduler")
        far = ("--dask", await_(address))
        checks.same("a scheduler without workers", run([python], program.path, *far), (3, BEFORE, f"sweep: {far[1]}: there is no worker\n"))
        workers = [start("dask_worker", far[1], "--nthreads", "1", "--no-nanny", "--local-directory", f"{room}/{at}") for at in (1, 2)]
        code = "import distributed, sys; distributed.Client(sys.argv[1]).wait_for_workers(2, timeout=60)"
        subprocess.run([python, "-c", code, far[1]], check=True, capture_output=True, timeout=90)
        checks.same("two workers, each with a scenario at the same time", run([python], wrapped(program, room, TWO), *far), WHOLE)
        checks.same("two workers, routers", run([python], program.path, *far, "--fail", "routers"), (0, BEFORE + OF_ROUTERS, ""))
        rows, asks = (open(os.path.join(TOP, f"examples/nsfnet.{kind}"), encoding="ascii").read() for kind in ("journal", "requests"))
        for words in ([], ["--fail", "pairs", "--part", "2/3"]):
            wanted = sweep(program.path, rows, asks, *words)
            checks.true(f"NSFNET {words}, one process", wanted[0] == 0 and wanted[1].count("\n") > 90, wanted)
            checks.same(f"NSFNET {words}, two workers", run([python], program.path, *far, *words, rows=rows, asks=asks), wanted)
        checks.same("an empty network, two workers", run([python], program.path, *far, rows="", asks=""), sweep(program.path, "", ""))
        checks.true("no program is left at a worker", await_(lambda: not any(children(worker) for worker in workers), 20),
                    [children(worker) for worker in workers])
        path = wrapped(program, room, STOPS)
        status, out, err = run([python], path, *far)
        checks.true("a worker's program that stops in the second scenario",
                    (status, out) == (3, BEFORE + OF_CIRCUITS[:SECOND]) and re.fullmatch(
            rf"sweep: tcp://127.0.0.1:\d+: scenario 2: {path} ended with status 3: routed: stopped\n", err), (status, out, err))
        path = wrapped(program, room, first=GOES)
        status, out, err = run([python], path, *far)
        checks.true("a program that isn't there at a worker", (status, out) == (3, BEFORE) and re.fullmatch(
            rf"sweep: tcp://127.0.0.1:\d+: scenario 1: {path}: No such file or directory; .*\n", err), (status, out, err))
        dies = THIRD + 'if not os.path.exists(room + "/once"):\n        touch("once"); os.kill(os.getppid(), signal.SIGKILL); stop(0)'
        status, out, err = run([python], wrapped(program, room, dies), *far)
        checks.true("a worker that dies", status == 3 and (BEFORE + OF_CIRCUITS).startswith(out) and out.startswith(BEFORE)
                    and re.fullmatch(
            r"sweep: scenario \d: the worker tcp://127.0.0.1:\d+ is gone\n", err), (status, out, err))
        checks.same("the worker that is left", run([python], program.path, *far), WHOLE)
        ends(scheduler)
        status, out, err = run([python], program.path, *far)
        checks.true("a scheduler that isn't there", (status, out) == (3, BEFORE) and re.fullmatch(
            rf"sweep: {far[1]}: OSError: Timed out trying to connect to .*\n", err), (status, out, err))


def children(process):
    """The processes that a process has started, but for those of Python itself."""
    found = subprocess.run(["ps", "-o", "comm=", "--ppid", str(process.pid)], capture_output=True, text=True).stdout.split()
    return [name for name in found if not name.startswith("python")]


@contextlib.contextmanager
def ssh_server(room, port):
    """A server of ssh for this user on loopback alone, with keys of its own; what GNU parallel takes for two machines that are both this
    one."""
    for name in ("host", "key"):
        subprocess.run(["ssh-keygen", "-q", "-t", "ed25519", "-N", "", "-f", f"{room}/{name}"], check=True)
    for name in ("bin", "far"):
        os.mkdir(f"{room}/{name}")
    for name in FAR:
        os.symlink(shutil.which(name), f"{room}/bin/{name}")
    with open(f"{room}/host.pub") as key, open(f"{room}/known", "w") as known:
        known.write(f"[127.0.0.1]:{port},[localhost]:{port} {key.read()}")
    with open(f"{room}/config", "w") as config:
        config.write(f"ListenAddress 127.0.0.1:{port}\nHostKey {room}/host\nAuthorizedKeysFile {room}/key.pub\nPidFile none\nUsePAM no\n"
                     f"StrictModes no\nPasswordAuthentication no\nKbdInteractiveAuthentication no\n"
                     f'ForceCommand TMPDIR="{room}/far" PATH="{room}/bin" sh -c "$SSH_ORIGINAL_COMMAND"\n')
    made = os.getuid() == 0 and not os.path.exists("/run/sshd")  # where it separates its privileges
    if made:
        os.mkdir("/run/sshd", 0o755)
    server = subprocess.Popen([shutil.which("sshd", path="/usr/sbin:/usr/bin"), "-D", "-e", "-f", f"{room}/config"],
                              stderr=subprocess.DEVNULL)
    try:
        login = (f"ssh -F none -p {port} -i {room}/key -o UserKnownHostsFile={room}/known -o BatchMode=yes -o LogLevel=ERROR "
                 f"-l {getpass.getuser()}")
        yield f"{login} 127.0.0.1", f"{login} localhost"
    finally:
        ends(server)
        if made:
            os.rmdir("/run/sshd")


def free_port():
    with socket.socket() as taken:
        taken.bind(("127.0.0.1", 0))
        return taken.getsockname()[1]


def ssh(program, checks):
    """Two machines that GNU parallel reaches by ssh."""
    absent = [name for name in ("parallel", "sshd", "ssh", "ssh-keygen", "perl")
              if not shutil.which(name, path=f"{os.environ['PATH']}:/usr/sbin")]
    if absent:
        print(f"skipped: sweeps over ssh, since there is no {absent[0]}")
        return
    with tempfile.TemporaryDirectory() as room, ssh_server(room, free_port()) as (one, other):
        def far(*words):
            return subprocess.run([*one.split(), *words], capture_output=True, text=True)

        if not await_(lambda: far("true").returncode == 0, 10):
            print(f"skipped: sweeps over ssh, since this user can't come in: {far('true').stderr.strip()}")
            return
        checks.same("no Python on the far side", far("command -v python3; command -v perl").stdout, f"{room}/bin/perl\n")
        both, python = ("--ssh", f"{one},{other}"), [sys.executable]
        checks.same("two machines, each with a scenario at the same time", run(python, wrapped(program, room, TWO), *both), WHOLE)
        rows, asks = (open(os.path.join(TOP, f"examples/nsfnet.{kind}"), encoding="ascii").read() for kind in ("journal", "requests"))
        wanted = sweep(program.path, rows, asks)
        checks.true("NSFNET, here", wanted[0] == 0 and wanted[1].count("\n") > 90, wanted)
        checks.same("NSFNET, two machines", run(python, program.path, *both, "--workers", "2", rows=rows, asks=asks), wanted)
        for name, rows, asks in (("an empty network", "", ""), ("no requests", RING, "")):
            checks.same(f"{name}, two machines", run(python, program.path, *both, rows=rows, asks=asks), sweep(program.path, rows, asks))
        path = wrapped(program, room, STOPS)
        status, out, err = run(python, path, *both)
        checks.true("a far program that stops in the second scenario", (status, out) == (3, BEFORE + OF_CIRCUITS[:SECOND]) and re.fullmatch(
            rf"sweep: scenario 2: (127.0.0.1|localhost): {path} ended with status 3: routed: stopped\n", err), (status, out, err))
        path = wrapped(program, room, first=GOES)
        status, out, err = run(python, path, *both)
        checks.true("a program that isn't there at the far side", (status, out) == (3, BEFORE) and re.fullmatch(
            rf"sweep: scenario 1: (127.0.0.1|localhost): {path} ended with status 127: sh: .*{path}: not found\n", err), (status, out, err))
        status, out, err = run(python, wrapped(program, room, THIRD + "os.kill(os.getppid(), signal.SIGKILL); stop(0)"), "--ssh", one)
        checks.true("a far side that ends in the third scenario",
                    (status, out) == (3, BEFORE + OF_CIRCUITS[:OF_CIRCUITS.index("scenario 3")])
                    and err == "sweep: scenario 3: 127.0.0.1 ended with status 137\n", (status, out, err))
        port = free_port()
        closed = re.sub(r"-p \d+", f"-p {port}", other)
        status, out, err = run(python, program.path, "--ssh", f"{one},{closed}")
        checks.true("a machine that can't be reached",
                    status == 3 and out.startswith(BEFORE) and (BEFORE + OF_CIRCUITS).startswith(out) and re.fullmatch(
            rf"sweep: scenario \d: localhost ended with status 255: ssh: connect to host localhost port {port}: "
            r"Connection refused; .*\n", err),
            (status, out, err))
        ended(program, checks, room, one)


def ended(program, checks, room, login):
    """A sweep that is ended ends the far program, too, and leaves nothing there."""
    hangs = wrapped(program, room, HANGS)
    for name, text in (("journal", RING), ("requests", ASKS)):
        with open(os.path.join(room, name), "w", encoding="ascii") as file:
            file.write(text)
    def folders():
        return {name for name in os.listdir(f"{room}/far") if os.path.isdir(f"{room}/far/{name}")}

    there = folders()
    running = subprocess.Popen([*SWEEP, f"{room}/journal", f"{room}/requests", "--program", hangs, "--ssh", login], stdout=subprocess.PIPE)
    await_(lambda: os.path.exists(f"{room}/hangs") or running.poll() is not None)
    hung, shell = open(f"{room}/hangs").read().split()
    running.terminate()
    out, _ = running.communicate(timeout=60)
    left = await_(lambda: not any(os.path.exists(f"/proc/{process}") for process in (hung, shell)))
    checks.same("a sweep that is ended, and its far program with it", (running.returncode, out, left), (143, BEFORE.encode(), True))
    checks.same("folders there", folders(), there)


def machines(program, checks):
    checks.parts((connections, alone, dask, ssh), program, checks)
