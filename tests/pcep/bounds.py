"""What one neighbour can't do to others, at the whole front beside the built program: bounds on LSPs, answers that don't come, addresses
that aren't allowed, a full disk, places that don't take connections, a PCC that begins again, and a front that is started twice."""
import contextlib
import os
import resource
import signal
import socket
import subprocess
import tempfile
import time

from checks import TOOLS
from pcep.beside import OPENED, Client, Run, addresses, begun, wait
from pcep.played import NORTH, PATH, request, rows
from program.serving import PATIENCE
from tools.fronts import reset

from routed.net import endpoints
from routed.net.endpoints import Endpoint
from routed.net.loop import Loop
from routed.pcep import wire

LATE = 10  # seconds: what isn't late takes a part of one, but other tests run beside this one
TCP_REPAIR = 19  # a socket option of Linux: a socket that has it is closed without a word


def limits(program, checks, room):
    """--most-lsps: a PCC that reports one more has PCErr 20/1 and a Close, and others go on."""
    with Run(program.path, room, "--most-lsps", "3") as run:
        run.publish(*rows())
        honest, client = begun(run, "127.0.40.1"), Client(run.port, "127.0.40.2")
        client.open()
        for number in range(1, 5):
            client.report(number, 8, addresses(NORTH), b"%d" % number)
        checks.same("one LSP too many", [client.read() for _ in range(3)], ["PCErr 20/1", "Close 1", "end"])
        large = Client(run.port, "127.0.40.3")
        large.open()
        large.socket.sendall(b"".join(wire.error(kind, value) for kind in range(256) for value in (1, 2)))
        wait(lambda: 'refused_by_pccs_total{error="other"}' in run.figures())
        checks.same("figures of errors that a PCC has chosen", len([name for name in run.figures() if name.startswith("refused_by")]), 257)
        honest.report(1, ero=addresses(NORTH))
        honest.report(1, ero=addresses(NORTH))
        honest.report(2, ero=addresses(NORTH), name=b"red")
        honest.report(2, 13, addresses(NORTH), b"red")
        honest.report(3, ero=addresses(NORTH), name=b"green")
        honest.report(4, ero=addresses(NORTH), name=b"brown")
        checks.same("reports of three LSPs, and of one that was removed", (honest.ask(), run.figures()["lsps"]), (PATH, 3))


def gone_unread(program, checks, room):
    """PCCs that are reset while they aren't read, since they have sent too much, keep no place."""
    with Run(program.path, room, "--pccs", "3", "--messages", "100") as run:
        run.publish(*rows())
        honest, found = begun(run, "127.0.52.1"), []
        for batch in range(5):
            clients = [Client(run.port, f"127.0.52.{2 * batch + at}") for at in (2, 3)]
            for client in clients:
                client.open()
                client.socket.sendall(wire.message(wire.KEEPALIVE) * 1000)
            honest.ask()
            for client in clients:
                client.file.close()
                reset(client.socket)
            found.append(honest.ask())
        checks.same("PCCs that are reset while they aren't read", found, [PATH] * 5)
        checks.same("a place for the next", (Client(run.port, "127.0.52.99").open(), run.said().count("no session")), (OPENED, 0))


def late(program, checks, room):
    """--ask-seconds: where the server gives no answer in time, the PCC is told that there is none, and later ones at once."""
    with Run(program.path, room, "--ask-seconds", "0.5") as run:
        run.publish(*rows())
        client = begun(run, "127.0.41.1")
        run.listen.send_signal(signal.SIGSTOP)
        began = time.monotonic()
        client.socket.sendall(request(number=1) + request(number=2))
        found = [client.read() for _ in range(2)]
        taken = time.monotonic() - began
        checks.same("a server that stands still", found, ["NO-PATH 1"] * 2)
        checks.true("its answer is given up after half a second", 0.4 < taken < LATE, taken)
        for _ in range(7):  # two for each connection that isn't late
            client.ask(request(number=9))
        found, times = [], []
        for _ in range(5):
            began = time.monotonic()
            found.append(client.ask())
            times.append(time.monotonic() - began)
        checks.same("once all connections are late", found, ["NO-PATH 1"] * 5)
        checks.true("that is said at once", min(times) < 0.3, times)
        run.listen.send_signal(signal.SIGCONT)
        wait(lambda: client.ask() == PATH)
        found = [client.ask() for _ in range(5)]
        checks.same("a server that goes on: late lines are nobody's answers", found, [PATH] * 5)


def allowed(program, checks, room):
    """--allow: other addresses are closed without a byte; SIGHUP reads the file again."""
    path = os.path.join(room, "allowed")

    def write(*lines):
        with open(path, "w", encoding="ascii") as file:
            file.writelines(f"{line}\n" for line in lines)

    def silent(source):
        """Whether a connection ends without a byte."""
        client = Client(run.port, source)
        with contextlib.suppress(ConnectionError):
            return client.socket.recv(100) == b""
        return True

    write("# PCCs", "127.0.42.0/24", "", "127.0.43.7/32")
    with Run(program.path, room, "--allow", path) as run:
        run.publish(*rows())
        first = begun(run, "127.0.42.1")
        checks.same("--allow: an address alone", Client(run.port, "127.0.43.7").open(), OPENED)
        checks.same("--allow: others", [silent(source) for source in ("127.0.43.8", "127.0.41.255", "127.0.1.1")], [True] * 3)
        checks.same("--allow: they are counted", run.figures()['turned_away_total{reason="address"}'], 3)
        checks.true("--allow: and told", "127.0.43.8: its address isn't allowed" in run.said(), run.said())
        write("127.0.44.0/24")
        run.pcep.send_signal(signal.SIGHUP)
        wait(lambda: silent("127.0.42.9"))
        checks.same("--allow: another file", (Client(run.port, "127.0.44.1").open(), first.ask()), (OPENED, PATH))
        write("127.0.44.1/24")
        run.pcep.send_signal(signal.SIGHUP)
        wait(lambda: "what was allowed before stays" in run.said())
        checks.same("--allow: a file that can't be read", Client(run.port, "127.0.44.2").open(), OPENED)
        checks.same("--allow: SIGTERM", run.end(), 0)
    for line in ("router", "127.0.0.1/33", "127.0.0.1/8", "::1/128"):
        write("127.0.0.0/8", line)
        ran = subprocess.run([TOOLS, "pcep", "--ask", "1", "--port", "0", "--allow", path], capture_output=True, timeout=PATIENCE)
        checks.same(f"--allow: refused: {line}", (ran.returncode, b"line 2 is no IPv4 prefix" in ran.stderr), (3, True))
    keys = os.path.join(room, "keys")
    with open(keys, "w", encoding="ascii") as file:
        file.write("127.0.45.1 a key\n")
    inner = os.path.join(room, "keyed")
    os.mkdir(inner)
    with Run(program.path, inner, "--keys", keys, "--require-keys") as run:
        checks.same("--require-keys: one without a line", silent("127.0.45.2"), True)
        try:
            checks.same("--require-keys: one with its key", Client(run.port, "127.0.45.1", b"a key").open(), OPENED)
        except OSError as fault:
            print(f"skipped: --require-keys with a key: {fault}")
    ran = subprocess.run([TOOLS, "pcep", "--ask", "1", "--require-keys"], capture_output=True, timeout=PATIENCE)
    checks.same("--require-keys without --keys", (ran.returncode, b"--require-keys needs --keys" in ran.stderr), (2, True))


def full_disk(program, checks, room):
    """--replies where the disk is full for a while: PCCs are served, what is lost is counted, and what was kept is whole."""
    with Run(program.path, room) as run:
        run.publish(*rows())
        client = begun(run, "127.0.46.1")
        for _ in range(20):
            client.ask()
        size = os.stat(os.path.join(run.places["replies"], "1.replies")).st_size
        for extra in (10, 50, 0):  # within a line of one file, within that of the other, and without a byte
            resource.prlimit(run.pcep.pid, resource.RLIMIT_FSIZE, (size + extra, resource.RLIM_INFINITY))
            checks.same(f"a full disk, {extra} bytes further on", [client.ask() for _ in range(10)], [PATH] * 10)
        lost = run.figures()["replies_lost"]
        checks.same("replies that are lost", (lost, run.said().count("replies were lost")), (30, 1))
        resource.prlimit(run.pcep.pid, resource.RLIMIT_FSIZE, (resource.RLIM_INFINITY, resource.RLIM_INFINITY))
        checks.same("room again", [client.ask() for _ in range(5)], [PATH] * 5)
        checks.same("none is lost then", run.figures()["replies_lost"], 30)
        checks.same("SIGTERM", run.end(), 0)
        numbers = sorted({int(name.split(".")[0]) for name in os.listdir(run.places["replies"])})
        lines = 0
        for number in numbers:
            asked, told = run.kept(number, "requests"), run.kept(number, "replies")
            lines += told.count("\n")
            judged = program.audit(open(run.places["journal"]).read(), asked, told)
            checks.true(f"the audit of pair {number}", judged[0] == 0 and b" faults=0\n" in judged[1], judged)
        checks.true("what was kept", lines >= 25, lines)


def started_twice(program, checks, room):
    """A second front, or a second server, that is started by mistake removes no socket of the first."""
    with Run(program.path, room) as run:
        run.publish(*rows())
        client = begun(run, "127.0.47.1")
        before = {name: os.stat(path).st_ino for name, path in run.places.items() if name in ("ask", "updates", "watch", "figures")}
        second = subprocess.run([TOOLS, "pcep", *run.places_of(ask="ask", metrics="figures"), "--port", "0"], capture_output=True,
                                timeout=PATIENCE)
        checks.same("a second front", (second.returncode, b"bind" in second.stderr), (3, True))
        other = ["--journal", os.path.join(room, "other")]
        server = subprocess.run([TOOLS, "listen", "--program", program.path, *run.places_of(ask="ask", updates="updates", watch="watch"),
                                 *other], capture_output=True, timeout=PATIENCE)
        checks.same("a second server", (server.returncode, b"bind" in server.stderr), (3, True))
        there = {name: os.stat(run.places[name]).st_ino if os.path.exists(run.places[name]) else None for name in before}
        checks.same("the sockets of the first", there, before)
        checks.same("which serves on", (client.ask(), run.figures()["sessions"]), (PATH, 1))
        os.unlink(run.places["figures"])  # another program has its socket there now
        with socket.socket(socket.AF_UNIX) as another:
            another.bind(run.places["figures"])
            checks.same("the first ends", run.end(), 0)
            checks.true("another's socket stays", os.path.exists(run.places["figures"]))
    checks.same("its own are gone", [name for name in ("ask", "updates", "watch") if os.path.exists(run.places[name])], [])


def swallowed(program, checks, room):
    """Places of the server that take no connection, since nobody accepts and their backlog is full: PCCs are answered, SIGTERM ends it."""
    path = os.path.join(room, "place")
    for name, family, where in (("at a path", socket.AF_UNIX, path), ("at an address", socket.AF_INET, ("127.0.0.1", 0))):
        with socket.socket(family) as listener, contextlib.ExitStack() as held:
            listener.bind(where)
            listener.listen(0)
            for _ in range(4):
                one = held.enter_context(socket.socket(family))
                one.setblocking(False)
                one.connect_ex(listener.getsockname())
            place = path if family == socket.AF_UNIX else "127.0.0.1:{}".format(listener.getsockname()[1])
            said = open(os.path.join(room, "said"), "wb")
            made = subprocess.Popen([TOOLS, "pcep", "--ask", place, "--watch", place, "--port", "0", "--stateful"],
                                    stdout=subprocess.PIPE, stderr=said)
            try:
                os.set_blocking(made.stdout.fileno(), False)
                lines = b""
                end = time.monotonic() + 30
                while b"ready" not in lines and time.monotonic() < end:
                    lines += made.stdout.read() or b""
                    time.sleep(0.02)
                checks.true(f"a server that accepts nothing {name}: the front is ready", b"ready" in lines, lines)
                if b"ready" not in lines:
                    continue
                client = Client(int(lines.split(b"\n")[0].rsplit(b":", 1)[1]), "127.0.48.1")
                began = time.monotonic()
                found = client.open(), client.ask()
                taken = time.monotonic() - began
                checks.same(f"a server that accepts nothing {name}: a PCC", found, (OPENED, "NO-PATH 1"))
                checks.true(f"a server that accepts nothing {name}: soon", taken < LATE, taken)
                began = time.monotonic()
                made.send_signal(signal.SIGTERM)
                checks.same(f"a server that accepts nothing {name}: SIGTERM", made.wait(PATIENCE), 0)
                checks.true(f"a server that accepts nothing {name}: it ends soon", time.monotonic() - began < LATE)
            finally:
                made.kill()
                made.wait()
                made.stdout.close()
                said.close()


def by_address(program, checks, room):
    """A server at ports: the front connects to it, and again once it is there."""
    with socket.create_server(("127.0.0.1", 0)) as one, socket.create_server(("127.0.0.1", 0)) as other:
        ports = [one.getsockname()[1], other.getsockname()[1]]
    words = ["--ask", f"127.0.0.1:{ports[0]}", "--watch", f"localhost:{ports[1]}"]
    made = subprocess.Popen([TOOLS, "pcep", *words, "--port", "0", "--stateful", "--log-level", "error"], stdout=subprocess.PIPE)
    server = None
    try:
        port = int(made.stdout.readline().split(b":")[1])
        client = Client(port, "127.0.49.1")
        checks.same("a server that isn't there yet", (client.open(), client.ask()), (OPENED, "NO-PATH 1"))
        server = subprocess.Popen([TOOLS, "listen", "--program", program.path, *words, "--updates", os.path.join(room, "updates"),
                                   "--journal", os.path.join(room, "journal")], stdout=subprocess.PIPE)
        server.stdout.readline()
        with socket.socket(socket.AF_UNIX) as updates:
            updates.connect(os.path.join(room, "updates"))
            batch = [*rows()]
            updates.sendall("".join(f"{row}\n" for row in batch).encode() + f"end,1,{len(batch)}\n".encode())
            checks.same("its first batch", updates.recv(100), b"version 1\n")
        wait(lambda: client.ask() == PATH)
        checks.same("a server at ports, once it is there", client.ask(), PATH)
    finally:
        for process in filter(None, (made, server)):
            process.kill()
            process.wait()
            process.stdout.close()


def returned(program, checks, room):
    """A PCC that begins again without a word to the old connection has its session at once; where the old one is alive it is refused."""
    with Run(program.path, room) as run:
        run.publish(*rows())
        old = begun(run, "127.0.51.1")
        try:
            old.socket.setsockopt(socket.IPPROTO_TCP, TCP_REPAIR, 1)
        except OSError as fault:
            print(f"skipped: a PCC that begins again: {fault}")
            return
        old.close()
        began = time.monotonic()
        following = Client(run.port, "127.0.51.1")
        checks.same("a PCC that begins again", (following.open(), following.ask()), (OPENED, PATH))
        checks.true("soon", time.monotonic() - began < LATE, time.monotonic() - began)
        began = time.monotonic()
        second = Client(run.port, "127.0.51.1")
        checks.same("beside one that is alive", (second.read(), second.read()), ("PCErr 9/1", "end"))
        checks.true("that is said soon", time.monotonic() - began < LATE, time.monotonic() - began)
        checks.same("which has heard a Keepalive", (following.read(), following.ask()), ("Keepalive", PATH))
        checks.same("sessions", (run.figures()["sessions"], run.figures()['turned_away_total{reason="second"}']), (1, 1))


def accepted(_, checks, room):
    """TCP keepalive of what is accepted, and of what connects."""
    loop, taken = Loop(), []
    with socket.create_server(("127.0.0.1", 0)) as listener:
        endpoints.Door(loop, listener, taken.append)
        ours = Endpoint("127.0.0.1:{}".format(listener.getsockname()[1])).begin(loop)
        while not taken:
            loop.turn()
        for name, made in (("accepted", taken[0].socket), ("connected", ours.socket)):
            found = [made.getsockopt(socket.SOL_SOCKET, socket.SO_KEEPALIVE),
                     *(made.getsockopt(socket.IPPROTO_TCP, option)
                       for option in (socket.TCP_KEEPIDLE, socket.TCP_KEEPINTVL, socket.TCP_KEEPCNT))]
            checks.same(f"TCP keepalive of a connection that was {name}", found, [1, 30, 10, 3])
        taken[0].close()
        ours.close()


def bounds(program, checks):
    with tempfile.TemporaryDirectory() as room:
        checks.parts_in(room, (limits, gone_unread, late, allowed, full_disk, started_twice, swallowed, by_address, returned, accepted),
                        program, checks)
