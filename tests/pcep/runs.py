"""The whole front of `routed-tools pcep`, beside the built program: its sockets, its limits, and the replies that it keeps."""
import os
import shutil
import signal
import socket
import subprocess
import tempfile
import time

from checks import TOOLS
from pcep.answers import drawn, long
from pcep.beside import OPENED, SILENT, TO_NORTH, TO_SOUTH, Client, Run, begun, wait
from pcep.excluding import drawn_risks, excluding, fed
from pcep.lsps import figures, names_of_pccs, shared, wanted_again
from pcep.named import named
from pcep.pairing import drawn_ways, pairing
from pcep.played import PATH, SOUTH, request, rows
from program.serving import PATIENCE
from reference import formats
from pcep.storms import storm
from tools.fronts import reset

from routed.pcep import replies, wire
from routed.pcep.keys import set_key
from routed.pcep.wire import pack

WATCHERS = 256  # as many as `listen` takes at its place of versions


def sockets(program, checks, room):
    """64 PCCs at once, each judged; a PCC that doesn't read; two of one address; a server that ends and begins again."""
    with Run(program.path, room) as run:
        checks.same("the first batch", run.publish(*rows()), b"version 1\n")
        begun(run).close()
        clients = [Client(run.port, f"127.0.2.{at}", narrow=4096 if at == 2 else 0) for at in range(1, 65)]
        checks.same("64 PCCs open", [client.open() for client in clients], [["Open", "Keepalive"]] * 64)
        for client in clients[2:]:
            client.socket.sendall(request() * 50)
        checks.same("64 PCCs, 50 requests each", {client.read() for client in clients[2:] for _ in range(50)}, {PATH})
        twice = Client(run.port, "127.0.2.1")
        checks.same("two PCCs of one address", (twice.read(), twice.read()), ("PCErr 9/1", "end"))
        checks.same("the first of them is asked by TCP whether it is there", clients[0].read(), "Keepalive")
        checks.same("the first of them goes on", clients[0].ask(), PATH)
        clients[1].socket.settimeout(SILENT)
        one = request(pack(99, bytes(1000)))[4:]  # whose answer is large, too
        sent, large = 0, wire.message(wire.REQUEST, *[one] * 60)
        try:
            while sent < 1 << 26:
                sent += clients[1].socket.send(large)
        except TimeoutError:  # nothing is read from it any more
            pass
        checks.same("beside a PCC that doesn't read", (sent < 1 << 26, clients[2].ask()), (True, PATH))
        client = clients[3]
        client.report(1)
        client.report(0, 0)
        checks.same("an LSP", client.read(), TO_NORTH)
        start = time.monotonic()
        run.publish("drop,10.0.0.1,10.1.2.1")
        checks.same("it moves", client.read(), TO_SOUTH)
        taken = time.monotonic() - start
        shutil.copy(run.places["journal"], os.path.join(room, "first"))
        run.leave()
        checks.same("without a server", client.ask(), "NO-PATH 1")
        os.unlink(run.places["journal"])
        run.serve()
        run.publish(*rows())
        checks.same("a server that begins again", client.read(), TO_NORTH)
        wait(lambda: client.ask() == PATH)
        times = []
        for _ in range(500):
            start = time.perf_counter()
            client.ask()
            times.append(time.perf_counter() - start)
        checks.same("SIGTERM ends it", run.end(), 0)
        checks.same("and its sessions", client.read(), "Close 1")
        for number, journal in enumerate((os.path.join(room, "first"), run.places["journal"]), 1):
            judged = program.audit(open(journal).read(), run.kept(number, "requests"), run.kept(number, "replies"))
            checks.true(f"audit of run {number}", judged[0] == 0 and b" faults=0\n" in judged[1] and b"good=0" not in judged[1], judged)
        print(f"pcep: PCReq to PCRep {1e3 * sorted(times)[250]:.2f} ms in the median, "
              f"an LSP moved {1e3 * taken:.0f} ms after its batch was sent")


def keys(program, checks, room):
    """TCP-MD5: a PCC with its key, with another key, without; one that has no line."""
    with socket.socket() as probe:
        try:
            set_key(probe, "127.0.0.1", b"key")
        except OSError:
            print("skipped: TCP-MD5, since the kernel has none")
            return
    path = os.path.join(room, "keys")

    def joins(port, source, key):
        try:
            client = Client(port, source, key)
        except TimeoutError:
            return "silence"
        found = client.open()
        client.close()
        return found

    with open(path, "w") as file:
        file.write("127.0.3.1 a key\n\n127.0.3.2 another\n" + "".join(f"127.0.4.{at} {'k' * 80}\n" for at in range(256)))
    with Run(program.path, room, "--keys", path) as run:
        for name, source, key, wanted in [("its key", 1, b"a key", OPENED), ("another's key", 1, b"another", "silence"),
                                          ("no key", 1, b"", "silence"), ("its key again", 2, b"another", OPENED),
                                          ("no line and no key", 9, b"", OPENED),
                                          ("a key without a line", 9, b"a key", "silence")]:
            checks.same(f"TCP-MD5: a PCC with {name}", joins(run.port, f"127.0.3.{source}", key), wanted)
        checks.same("TCP-MD5: the last of 258 keys", joins(run.port, "127.0.4.255", b"k" * 80), OPENED)
    for line in ("127.0.3.1", "127.0.3.1 ", f"127.0.3.1 {'k' * 81}", "router key"):
        with open(path, "w") as file:
            file.write(f"127.0.3.2 key\n{line}\n")
        ran = subprocess.run([TOOLS, "pcep", "--ask", "1", "--port", "0", "--keys", path], capture_output=True, timeout=PATIENCE)
        is_said = b"line 2 is no address with a key" in ran.stderr
        checks.same(f"TCP-MD5: refused: {line[:12]}", (ran.returncode, ran.stdout, is_said), (3, b"", True))


def gone(program, checks, room):
    """Connections that are reset before they are accepted."""
    with Run(program.path, room) as run:
        run.pcep.send_signal(signal.SIGSTOP)
        for _ in range(8):
            client = Client(run.port)
            client.file.close()
            reset(client.socket)
        run.pcep.send_signal(signal.SIGCONT)
        checks.same("after connections that were reset", Client(run.port).open(), OPENED)
        checks.same("and it goes on", run.end(), 0)


def full(program, checks, room):
    """--pccs: the one above it is refused, and taken once another has gone."""
    with Run(program.path, room, "--pccs", "2") as run:
        clients = [Client(run.port, f"127.0.5.{at}") for at in (1, 2, 3)]
        checks.same("--pccs 2: two open", [client.open() for client in clients[:2]], [["Open", "Keepalive"]] * 2)
        checks.same("--pccs 2: the third is closed", (clients[2].read(), clients[2].read()), ("Close 1", "end"))
        wait(lambda: "no session is free" in run.said())
        checks.true("--pccs 2: a line says so", "127.0.5.3: no session is free" in run.said(), run.said())
        clients[0].close()
        opened = []
        wait(lambda: opened.append(Client(run.port, "127.0.5.3").open()) or opened[-1][0] == "Open")
        checks.same("--pccs 2: one has gone", opened[-1], ["Open", "Keepalive"])


def busy(program, checks, room):
    """A server that has fewer places than --connections, and one that has none for a while."""
    for name, places, is_held in (("two places", "2", False), ("none", "1", True)):
        inner = os.path.join(room, places)
        os.mkdir(inner)

        def taken(run):
            held = socket.socket(socket.AF_UNIX)
            held.connect(run.places["ask"])
            held.sendall(b"ask,1,10.0.0.1,10.0.0.4,7,0,0x0,0x0,0x0,\n")
            held.recv(100)
            return held

        with Run(program.path, inner, listen=["--clients", places], between=taken if is_held else None) as run:
            run.publish(*rows())
            client = Client(run.port, "127.0.6.1")
            client.open()
            if is_held:
                checks.same(f"a server with {name}", client.ask(), "NO-PATH 1")
                client.report(1)
                client.report(0, 0)
                time.sleep(1)
                checks.same("and an LSP there", client.ask(), "NO-PATH 1")
                run.held.close()
                checks.same("it is asked for once a place is free", client.read(), TO_NORTH)
            else:
                wait(lambda: client.ask() == PATH)
            found = []
            for _ in range(40):
                client.socket.sendall(request() * 5)
                found += [client.read() for _ in range(5)]
                time.sleep(0.05)
            checks.same(f"a server with {name}: all are answered", (found.count(PATH), run.said().count("has ended")), (200, 0))


def crowded(program, checks, room):
    """A place of versions that is full: the front waits for room there, and tries each second."""
    def watching(run):
        held = [socket.socket(socket.AF_UNIX) for _ in range(WATCHERS)]
        for one in held:
            one.connect(run.places["watch"])
            one.recv(100)
        return held

    began = time.monotonic()
    with Run(program.path, room, between=watching) as run:
        def busy():
            return run.said().count("the place of versions is busy")

        run.publish(*rows())
        client = Client(run.port, "127.0.14.1")
        client.open()
        wait(lambda: busy() > 2)
        checks.true("a place of versions that is full is said each second", 2 < busy() < time.monotonic() - began + 1, run.said())
        checks.same("nothing else is said", run.said().count("has ended"), 0)
        for one in run.held:
            one.close()
        wait(lambda: client.ask() == PATH)
        client.report(1)
        client.report(0, 0)
        checks.same("once there is room LSPs are asked for", client.read(), TO_NORTH)


def stateless(program, checks, room):
    """A front that knows nothing but where to ask."""
    with Run(program.path, room, is_stateful=False) as run:
        run.publish(*rows())
        client = begun(run, "127.0.13.1")
        run.leave()
        checks.same("stateless: without a server", client.ask(), "NO-PATH 1")
        os.unlink(run.places["journal"])
        run.serve()
        run.publish(*(row for row in rows() if "10.1.2." not in row))
        found = []
        wait(lambda: found.append(client.ask()) or found[-1].startswith("PCRep"))
        checks.same("stateless: a server that begins again", found[-1], f"PCRep {' '.join(SOUTH)} cost 200")
        client.report(1)
        checks.same("stateless: a report", [client.read() for _ in range(3)], ["PCErr 19/5", "Close 1", "end"])
        checks.same("stateless: SIGTERM", run.end(), 0)
        pairs = [f"{number}.{kind}" for number in (1, 2) for kind in ("replies", "requests")]
        checks.same("stateless: replies of each run of the server", sorted(os.listdir(run.places["replies"])), pairs)


def idle(program, checks, room):
    """A server that ends connections on which nobody asks."""
    with Run(program.path, room, listen=["--idle", "0.5"]) as run:
        run.publish(*rows())
        client = begun(run, "127.0.12.1")
        found = []
        for _ in range(4):
            time.sleep(0.8)
            found.append(client.ask())
        checks.same("a server that ends idle connections", found, [PATH] * 4)
        checks.true("it hasn't ended", "has ended" not in run.said(), run.said())
        checks.same("its replies are one run's", sorted(os.listdir(run.places["replies"])), ["1.replies", "1.requests"])


def rolled(program, checks, room):
    """Pairs of --replies have as many rows as one may have, and each is audited."""
    most, replies.MOST = replies.MOST, 100
    try:
        checks.true("replies: fewer rows than an audit reads", most <= 1_000_000)
        network, journal = formats.Network(), "".join(f"{row}\n" for row in rows()) + f"end,1,{len([*rows()])}\n"
        for row in rows():
            network.change(row.split(","))
        for begun_at, count in ((0, 250), (3, 100)):
            kept = replies.Replies(room)
            for number in range(count):
                row = f"ask,{number},10.0.0.1,10.0.0.{number % 4 + 2},7,0,0x0,0x0,0x0,"
                kept.keep(row, network.reply(1, row))
            kept.roll()
            for number in range(begun_at + 1, begun_at + 1 + -(-count // 100)):
                asked, told_by = (open(os.path.join(room, f"{number}.{kind}")).read() for kind in ("requests", "replies"))
                lines = min(100, count - 100 * (number - begun_at - 1))
                judged = program.audit(journal, asked, told_by)
                checks.same(f"replies: pair {number}", (asked.count("\n"), told_by.count("\n")), (lines, lines))
                checks.true(f"replies: the audit of pair {number}", judged[0] == 0 and f"good={lines} ".encode() in judged[1], judged)
        checks.same("replies: no other file", len(os.listdir(room)), 8)
    finally:
        replies.MOST = most


def pcep_runs(program, checks):
    with tempfile.TemporaryDirectory() as room:
        checks.parts_in(room, (sockets, keys, gone, full, busy, crowded, stateless, idle, shared, wanted_again, figures,
                               names_of_pccs, rolled, long, drawn, named, excluding, drawn_risks, fed, pairing, drawn_ways, storm),
                        program, checks)
