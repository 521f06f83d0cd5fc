"""Direct connections to `routed-tools listen`: what they get, who may connect, how sessions end, clients for Python and in C, floods, and
programs that are killed or keep their ends."""
import contextlib
import os
import random
import re
import signal
import subprocess
import tempfile
import threading
import time

from checks import TOOLS, TOP
from program.refusal import COMPILER
from program.serving import BATCHES, PATIENCE, ROUTERS, batches_of
from reference import changes
from reference.versions import Versions
from tools.directed import IDS, PROGRAMS, ROW, Busy, Direct, Judge, files_of, fronted, run, soon
from tools.flooded import TOGETHER, floods
from tools.fronts import Connection, Front
from tools.handed import HANDED
from tools.honest import asking, overdue, sleeping
from tools.reading import PAIR, eventually, figures_of
from tools.streams import closed

from routed import Client, Refused, Request
from routed.follow import asks
from routed.net import direct as client_side
from routed.net.endpoints import Endpoint
from routed.net.loop import Loop

TURNS = int(os.environ.get("TURNS", "500"))  # connections in turn; the gate has few
SOON = 3  # seconds until the place of a program that has hung up is another's
LATE = 0.1  # seconds in which another client is answered, but for those in which somebody on the way waits for a processor
SLEEPERS = 2  # programs that only sleep: how late they are woken says how late the server and the client are. The kernel says it of listen
WARNINGS = ["-std=c11", "-Wall", "-Wextra", "-Werror", "-pedantic"]


def direct(program, checks):
    start = time.monotonic()
    draw = random.Random(9)
    updates = changes.updates(draw, BATCHES, ROUTERS)
    rows = [f"ask,{at},10.0.0.{at},10.0.0.{(at * 5 + 1) % ROUTERS},{at % 8},{draw.choice([0, 5])},0x0,0x0,0x0," for at in range(ROUTERS)]
    versions = Versions(updates, rows)
    with tempfile.TemporaryDirectory() as room:
        checks.parts_in(room, (ends, modes, refusals, heirs, shares, tallied, clients, shared, in_c, floods, in_turn,
                               *map(closed, HANDED)), program, checks, versions)
    print(f"direct: {TURNS} connections in turn, {TOGETHER} that flood, {time.monotonic() - start:.0f} s")


def ends(program, checks, versions, room):
    """A session ends behind its last whole row where its client ends its rows; each row is numbered from 1."""
    front, place = fronted(program, room, "--clients", "2")
    with front:
        before = files_of(front)
        for at in range(20):
            made = soon(place)
            checks.same(f"connection {at}: asks", [made.talk(ROW % number) for number in range(3)],
                        [f"ask {number} v0 unknown-from\n" for number in range(3)])
            checks.same(f"connection {at}: a row that is refused", made.talk("foo\n"), "row 4 refused: kind\n")
            made.say(ROW % 7 * 500 + "ask,8,1.1.1.1")
            checks.same(f"connection {at}: the rest, and its end", made.leave(), ("ask 7 v0 unknown-from\n" * 500, b""))
        made = soon(place)
        made.say(ROW % 1 + 'ask,"2\n' + ROW % 3)
        checks.same("a quotation mark ends a session, and its connection", ("".join(made.lines.rest()), made.socket.recv(100)),
                    ("ask 1 v0 unknown-from\n", b""))
        made.close()
        made = soon(place)
        checks.same("the next one has nothing of it", (made.talk(ROW % 4), made.leave()), ("ask 4 v0 unknown-from\n", ("", b"")))
        made = soon(place)
        made.say("9" * ((1 << 20) + 1))
        checks.same("a line too long ends a session, too", ("".join(made.lines.rest()), made.socket.recv(100)), ("", b""))
        made.close()
        eventually(checks, "descriptors at the end as at the begin", lambda: files_of(front), before)


def modes(program, checks, versions, room):
    """The place has a mode of its own, and is a path."""
    for at, (words, wanted) in enumerate([([], 0o600), (["--direct-mode", "666"], 0o666), (["--ask-mode", "660"], 0o660)]):
        os.mkdir(inner := os.path.join(room, str(at)))
        front, place = fronted(program, inner, *words)
        with front:
            checks.same(f"the mode by {words}", os.stat(place).st_mode & 0o777, wanted)
    with Front(program, room, "--direct", "8001") as front:
        status, said = front.ended()
        checks.same("a port", (status, said.splitlines()[-1]),
                    (2, "routed-tools listen: error: argument --direct: files are passed at the path of a UNIX socket alone"))


def refusals(program, checks, versions, room):
    """What is sent on the connection itself ends it, and no idle one is ended."""
    front, place = fronted(program, room, "--clients", "1", "--idle", "0.2")
    with front:
        made = soon(place)
        made.socket.sendall(ROW.encode())
        checks.same("rows on the connection itself", made.socket.recv(100), b"refused\n")
        checks.same("its session has ended", made.lines.rest(), [])
        made.close()
        made = soon(place)
        time.sleep(0.5)
        checks.same("an idle one isn't ended", made.talk(ROW % 1), "ask 1 v0 unknown-from\n")
        os.kill(front.server(), signal.SIGKILL)
        checks.same("where the server is killed", (made.lines.rest(), made.socket.recv(100)), ([], b""))


def heirs(program, checks, versions, room):
    """A child keeps the ends of a connection that has ended, and writes rows without a pause: the place is another's while it does."""
    front, place = fronted(program, room, "--clients", "1")
    with front:
        for count, is_blocking in ((0, True), (1, True), (1000, True), (1, False), (1000, False), (30_000, False)):
            made, name = soon(place), f"{count} rows at once, {'blocking' if is_blocking else 'not blocking'}"
            process = os.fork()
            if not process:
                made.hang_up()
                pour(made, count, is_blocking)
            time.sleep(0.2)
            made.close()
            start = time.monotonic()
            following = soon(place)
            took = time.monotonic() - start
            checks.same(f"the next one, {name}", following.talk(ROW % 7), "ask 7 v0 unknown-from\n")
            checks.true(f"its place is free soon, {name}", took < SOON, took)
            checks.same(f"the child is still there, {name}", os.waitpid(process, os.WNOHANG), (0, 0))
            os.kill(process, signal.SIGKILL)
            os.waitpid(process, 0)
            checks.same(f"its lines, {name}", following.leave(), ("", b""))


def pour(made, count, is_blocking):
    """Writes so many rows at once, again and again, as long as anybody reads them."""
    rows = (ROW % 5).encode() * count
    os.set_blocking(made.ends[0], is_blocking)
    with contextlib.suppress(BrokenPipeError):
        while rows:
            with contextlib.suppress(BlockingIOError):
                os.write(made.ends[0], rows)
    time.sleep(PATIENCE)
    os._exit(0)


def shares(program, checks, versions, room):
    """Both places share the seats, and one user's bound."""
    front, place = fronted(program, room, "--clients", "4", "--each", "3")
    with front:
        relayed, made = Connection(front.ask), [soon(place), soon(place)]
        checks.same("one relayed, two direct", [relayed.talk(ROW % 1), *(one.talk(ROW % 2) for one in made)],
                    ["ask 1 v0 unknown-from\n"] + ["ask 2 v0 unknown-from\n"] * 2)
        checks.same("a fourth by the relay", Connection(front.ask).rest(), "busy\n")
        for _ in range(3):
            raised = None
            try:
                Direct(place)
            except Busy as fault:
                raised = fault.args
            checks.same("a fourth that is direct", raised, (b"busy\n",))
        checks.same("the relayed one ends", relayed.leave(), "")
        third = soon(place)
        checks.same("then there is room", third.talk(ROW % 3), "ask 3 v0 unknown-from\n")
        figures = figures_of(room)
        for one in (*made, third):
            one.close()
        checks.same("figures", {it: figures.get((it, "direct")) for it in ("routed_connections", "routed_connections_total",
                                                                             "routed_busy_total")},
                    {"routed_connections": 3, "routed_connections_total": 3, "routed_busy_total": 3})


def tallied(program, checks, versions, room):
    """Asks are counted by the server, whichever way they come."""
    front, place = fronted(program, room, "--clients", "2")
    with front:
        updating, made, relayed = Connection(front.updates), soon(place), Connection(front.ask)
        updating.talk(PAIR + "end,1,2\n")
        for one in (made, relayed):
            one.say("".join(ROW % number for number in range(5)) + "ask,9,1.1.1.1,3.3.3.3,0,5,0x0,0x0,0x0,\nfoo\n")
            for _ in range(7):
                one.lines.next()
        updating.talk(ROW % 1)
        checks.same("a batch", updating.talk("end,2,0\n"), "version 2\n")
        made.leave()
        relayed.leave()

        def found():
            figures = figures_of(room)
            return {f"{name} {label or ''}".strip(): number for (name, label), number in figures.items() if number and name in (
                "routed_asks_total", "routed_rows_total", "routed_client_refused_rows_total", "routed_ask_seconds_count",
                "routed_sessions_total")}

        eventually(checks, "figures of clients", found, {
            "routed_asks_total route": 11, "routed_asks_total unknown-to": 2, "routed_rows_total": 14, "routed_sessions_total": 2,
            "routed_client_refused_rows_total": 2, "routed_ask_seconds_count": 7})


def clients(program, checks, versions, room):
    """The client for Python connects directly where there is a place for it, and otherwise by the relay."""
    front, place = fronted(program, room, "--clients", "2")
    request = Request(1, "1.1.1.1", "2.2.2.2", 0, 5)
    with front:
        updating = Connection(front.updates)
        updating.talk(PAIR + "end,1,2\n")
        with Client(front.ask) as one, Client(front.ask) as other:
            checks.same("both are direct", [type(it.asks.stream) for it in (one, other)], [client_side.Direct] * 2)
            checks.same("their replies", [it.ask(request).cost for it in (one, other)], [10, 10])
            with Client(front.ask) as third:
                checks.same("no seat is free", raised_by(lambda: third.ask(request)), (Refused, "busy"))
            checks.same("a row that is refused", raised_by(lambda: one.ask(Request(1, "x", "2.2.2.2"))),
                        (Refused, "row 2 refused: address 3"))
        eventually(checks, "their seats are free", lambda: figures_of(room)[("routed_connections", "direct")], 0)
        os.rename(place, f"{place}.away")
        with Client(front.ask) as one:
            checks.same("by the relay", (type(one.asks.stream) is client_side.Direct, one.ask(request).cost), (False, 10))
        os.rename(f"{place}.away", place)
        with Client(front.ask, seconds=20) as one:
            one.ask(request)
            front.child.kill()
            checks.same("where listen is killed", raised_by(lambda: [one.ask(request) for _ in range(100_000)])[0], ConnectionError)


def raised_by(call):
    try:
        return call()
    except (Refused, OSError) as fault:
        return type(fault), str(fault)


def shared(program, checks, versions, room):
    """The connections that pcep and page share, and `routed-tools ask`, are direct, too."""
    front, place = fronted(program, room, "--clients", "4")
    with front:
        Connection(front.updates).talk(PAIR + "end,1,2\n")
        made, told, lost = Loop(), [], []
        asking = asks.Asks(made, Endpoint(front.ask), 3, lambda: lost.append(True))
        asking.open()
        for number in range(200):
            asking.ask("1.1.1.1,2.2.2.2,0,5,0x0,0x0,0x0,", lambda row, line: told.append((row, line)))
        end = time.monotonic() + PATIENCE
        while len(told) < 200 and time.monotonic() < end:
            made.turn(1)
        checks.same("connections that are shared", [type(one.stream) for one in asking.connections], [client_side.Direct] * 3)
        checks.same("their asks", sum(line.split(" ", 2)[2].startswith("v1 route cost=10 ") and line.split()[1] == row.split(",")[1]
                                      for row, line in told), 200)
        ran = subprocess.run([TOOLS, "ask", front.ask, "1.1.1.1", "2.2.2.2"], capture_output=True, text=True, timeout=PATIENCE)
        checks.true("routed-tools ask", ran.returncode == 0 and " route cost=10 " in ran.stdout, (ran.stdout, ran.stderr))
        checks.same("connections", [figures_of(room)[("routed_connections_total", kind)] for kind in ("direct", "ask")], [4, 0])
        busy = asks.Asks(made, Endpoint(front.ask), 2, lambda: None)
        busy.open()
        while not busy.is_busy and time.monotonic() < end:
            made.turn(1)
        checks.same("where no place is free", (busy.is_busy, lost), (True, []))
        busy.close()
        asking.close()


def in_c(program, checks, versions, room):
    """The example in C, over the place of direct connections."""
    if COMPILER is None:
        print("direct: the example in C is skipped, there is no C compiler")
        return
    path = os.path.join(room, "direct")
    words = [COMPILER, *WARNINGS, "-O1", "-o", path, os.path.join(TOP, "examples/c/direct.c")]
    made = subprocess.run(words, capture_output=True, text=True)
    checks.same("the example is compiled", (made.returncode, made.stderr), (0, ""))
    front, place = fronted(program, room, "--clients", "1")

    def ran(rows):
        done = subprocess.run([path, place], input=rows, capture_output=True, text=True, timeout=PATIENCE)
        return done.returncode, done.stdout, done.stderr

    with front:
        Connection(front.updates).talk(versions.texts[1])
        wanted = [f"{line}\n" for line in versions.replies[1]]
        checks.same("its lines", ran("".join(f"{ask}\n" for ask in versions.asks)), (0, "".join(wanted), ""))
        with contextlib.closing(soon(place)):
            checks.same("where no seat is free", ran("foo\n"), (1, "", f"direct: {place}: no ends came: busy\n\n"))
    checks.same("where nobody listens", ran("foo\n"), (1, "", ""))


# ---- connections in turn


def in_turn(program, checks, versions, room):
    """Programs that come one after the other, some of which are killed: each line is a reply to its own program's row."""
    front, place = fronted(program, room)
    draw, batches = random.Random(10), batches_of(versions)
    with front:
        updating = Connection(front.updates)
        updating.talk(batches[0])
        before = files_of(front)
        others = [asking(soon(place), Judge(versions, 1)), asking(Connection(front.ask), Judge(versions, IDS // 2), front.child.pid)]
        sleepers = [sleeping() for _ in range(SLEEPERS)]
        hearing, told = os.pipe()
        said, running, killed, version = [], {}, 0, 1
        reading = threading.Thread(target=lambda: said.extend(iter(lambda: os.read(hearing, 1 << 16), b"")))
        reading.start()
        for number in range(1, TURNS + 1):
            kind = draw.choice(PROGRAMS)
            running[run(place, kind, versions, number, random.Random(number), told)] = time.monotonic() + draw.choice([0.02, 0.1, 0.5, 3])
            if number % max(TURNS // (BATCHES - 1), 1) == 0 and version < BATCHES:
                version += 1
                checks.same(f"batch {version} meanwhile", updating.talk(batches[version - 1]), f"version {version}\n")
            killed += ended(running, 40)
        while running:
            killed += ended(running, 0)
        os.close(told)
        asked, naps = [other.end() for other in others], [sleeper.end() for sleeper in sleepers]
        reading.join(PATIENCE)
        lines = b"".join(said).decode().splitlines()
        heard = [int(line) for line in lines if re.fullmatch(r"\d+", line)]
        faults = [line for line in lines if not re.fullmatch(r"\d+", line)]
        checks.same("what programs found wrong", faults[:5], [])
        found = len(heard), sum(heard), killed
        checks.true("programs that read lines, their lines, and programs that were killed",
                    all(map(int.__gt__, found, (TURNS // 4, TURNS, TURNS // 20))), found)
        for name, asks_of in zip(("direct", "relayed"), asked):
            checks.same(f"another client, {name}: its lines", [fault for *_, fault in asks_of if fault][:5], [])
            times = [(end - start, waited + sum(overdue(nap, start, end) for nap in naps)) for start, end, waited, _ in asks_of]
            late = [(took, waited) for took, waited in times if took > LATE + waited]
            checks.same(f"another client, {name}, is answered soon, but for waits for a processor", late[:5], [])
            longest = [1000 * seconds for seconds in max(times)]
            print(f"direct: beside them another client, {name}: {len(times)} asks, {longest[0]:.1f} ms at most, with waits for a processor "
                  f"of {longest[1]:.1f} ms")
        eventually(checks, "all have ended", lambda: figures_of(room).get(("routed_connections", "direct")), 0)
        together = [soon(place) for _ in range(64)]
        checks.same("each seat can be had", {re.sub(r" v\d+ .*", "", one.talk(ROW % 7)) for one in together}, {"ask 7\n"})
        for one in together:
            one.close()
        eventually(checks, "descriptors at the end as at the begin", lambda: files_of(front), before)
        checks.same("no exception", figures_of(room)[("routed_exceptions_total", None)], 0)


def ended(running, most):
    """Waits until so few programs run, and kills those whose time has come. How many these are."""
    killed = 0
    while True:
        for process, end in tuple(running.items()):
            if time.monotonic() > end:
                with contextlib.suppress(ProcessLookupError):
                    os.kill(process, signal.SIGKILL)
            found, status = os.waitpid(process, os.WNOHANG)
            if found:
                killed += os.WIFSIGNALED(status)
                del running[process]
        if len(running) <= most:
            return killed
        time.sleep(0.005)
