"""`routed-tools listen` by real sockets: 64 connections at once, and some that don't read, flood or are idle; signals."""
import argparse
import contextlib
import ctypes
import functools
import os
import random
import re
import resource
import signal
import socket
import subprocess
import tempfile
import threading
import time

from program.serving import BATCHES, CLIENTS, PATIENCE, ROUTERS, batches_of, circuit_at, judged, reply_at
from reference import changes
from reference.versions import Versions
from tools.fronts import LISTEN, Connection, Front, admitted, busy
from tools.places import begun, causes, connected, marks, modes, places, ports, posted, server_ends
from tools.snapshots import beside_asks, failed_journal, failed_snapshots, snapshot

from routed.front import listen

FRESH = ((2, 300), (CLIENTS, 20))  # the connections of a run, and its batches
CONNECTIONS, LEFT = 200, 20  # connections one after another, and such as go before their replies
SIGNALS, SOON = 20, 10  # runs that are ended by SIGTERM, and the seconds that they may take on a machine that others use
TGKILL = functools.partial(ctypes.CDLL(None).syscall, 234)  # sends a signal to one thread (x86-64)


def listened(program, checks):
    start = time.monotonic()
    draw = random.Random(8)
    updates = changes.updates(draw, BATCHES, ROUTERS)
    asks = [f"ask,{at},10.0.0.{at},10.0.0.{(at * 5 + 1) % ROUTERS},{at % 8},{draw.choice([0, 5])},0x0,0x0,0x0," for at in range(ROUTERS)]
    versions = Versions(updates, asks)
    with tempfile.TemporaryDirectory() as room:
        checks.parts_in(room, (listening, stopping, held_up, one_thread, signals, places, ports, modes, posted, marks, idle, begun,
                               connected,
                               snapshot, beside_asks, failed_journal, failed_snapshots, server_ends, causes, fresh), program, checks,
                               versions)
    print(f"listened: {CONNECTIONS} connections, {SIGNALS} signals, {time.monotonic() - start:.0f} s")


# ---- connections


def listening(program, checks, versions, room):
    """Many connections, one too many, updates by one at a time, and a kill of the front in the middle."""
    batches, asks = batches_of(versions), [f"{ask}\n" for ask in versions.asks]
    with Front(program, room) as front:
        checks.same("routed-tools listen is ready", front.first, "ready\n")
        checks.same("its sockets are its user's alone", [os.stat(path).st_mode & 0o777 for path in (front.ask, front.updates)], [0o600] * 2)
        with open(f"/proc/{front.server()}/cmdline", encoding="utf-8") as file:
            words = file.read().split("\0")
        checks.true("the server's command line names no client", "--clients-from" in words and "--client" not in words, words)
        updating = Connection(front.updates)
        for number, batch in enumerate(batches[:20], 1):
            checks.same(f"batch {number} by a socket", updating.talk(batch), f"version {number}\n")
        checks.same("a second connection for updates", busy(front.updates), "busy\n")
        found = []
        for at in range(CONNECTIONS):
            taken = Connection(front.ask)
            found.append((20, taken.talk(asks[at % len(asks)])))
            checks.same(f"the end of connection {at}", taken.leave(), "")
        judged(checks, f"{CONNECTIONS} connections one after another", versions, found, 20)
        together = [Connection(front.ask) for _ in range(CLIENTS)]
        found = [(20, taken.talk(asks[at % len(asks)])) for at, taken in enumerate(together)]
        judged(checks, f"{CLIENTS} connections at once", versions, found, 20)
        checks.same("one connection too many", busy(front.ask), "busy\n")
        silent_peer(checks, together, updating, versions)
        updating.say("drop,10.0.0.1,10.0.0.1\n")  # left open: the next connection doesn't have it
        for taken in [*together, updating]:
            taken.socket.close()
        updating, line = admitted(front.updates, asks[0])
        judged(checks, "an ask by the updates' socket", versions, [(25, line)], 25)
        checks.same("changes that a connection left open are dropped", updating.talk(batches[25]), "version 26\n")
        taken, line = admitted(front.ask, asks[0])
        judged(checks, "a place that is free again", versions, [(26, line)], 26)
        *most, last = batches[26:]
        updating.say("".join(most) + last[:last.index("end,")])  # its end row never comes
        told = updating.lines.next()
        front.child.kill()
        front.ended()
        heard = [told, *until_reset(updating.lines)]
        with open(front.journal, encoding="ascii") as kept:
            text = kept.read()
        checks.true("the journal is whole where routed-tools listen is killed", text in versions.texts[27:-1], text[-200:])
        wanted = [f"version {at}\n" for at in range(27, versions.texts.index(text) + 1 if text in versions.texts else 27)]
        checks.true("what it told before is in the journal", heard == wanted[:len(heard)], heard)
        checks.same("a client of the killed front reads its end", taken.lines.rest(), [])


def until_reset(lines):
    """All lines up to the end, or up to where the other end was killed with rows that it hadn't read."""
    with contextlib.suppress(ConnectionResetError):
        while line := lines.next():
            yield line


def silent_peer(checks, together, updating, versions):
    """A connection that doesn't read keeps no other waiting."""
    text, asks = "".join(f"{ask}\n" for ask in versions.asks).encode() * 2000, versions.asks  # a megabyte
    together[0].socket.setblocking(False)
    sent, quiet = 0, time.monotonic()
    while time.monotonic() < quiet + 0.2:  # until no more is taken
        try:
            sent, quiet = sent + together[0].socket.send(text[sent:sent + (1 << 16)]), time.monotonic()
        except BlockingIOError:
            time.sleep(0.01)
    checks.true("a connection that doesn't read holds its own rows up", 0 < sent < len(text), sent)
    found = [[] for _ in together]
    for number, batch in enumerate(batches_of(versions)[20:25], 21):
        checks.same(f"batch {number} beside a connection that doesn't read", updating.talk(batch), f"version {number}\n")
        for at, taken in enumerate(together[1:]):
            found[at].append((number, taken.talk(f"{asks[len(found[at]) % len(asks)]}\n")))
    checks.true("others beside a connection that doesn't read",
                all(versions.are_right([line.strip() for _, line in lines]) for lines in found))


def stopping(program, checks, versions, room):
    """Connections that end in the middle leave nothing to the next one; loopback TCP; modes, SIGTERM, and sockets that can't be had."""
    ask, batch = f"{versions.asks[0]}\n", versions.texts[1]
    said = subprocess.run([*LISTEN, "--help"], capture_output=True, text=True).stdout
    for word in ["--journal", "--begin", "--ask", "--updates", "--clients", "--mode", "--ask-mode", "--updates-mode", "--idle", "--program",
                 "busy", "refused",
                 "snapshot end", "snapshot refused", "ready", "SIGTERM", "127.0.0.1", "[ADDRESS]:PORT", "65,536", "300"]:
        checks.true(f"help of routed-tools listen names {word}", word in said, said)
    with Front(program, room, "--clients", "1", "--mode", "660") as front:
        checks.same("the mode of its sockets", [os.stat(path).st_mode & 0o777 for path in (front.ask, front.updates)], [0o660] * 2)
        for at in range(LEFT):
            taken, line = admitted(front.ask, f"ask,{900 + at},1.1.1.1,2.2.2.2,0,5,0x0,0x0,0x0,\n")
            checks.same(f"connection {at} has no other's lines", line, f"ask {900 + at} v0 unknown-from\n")
            taken.say(ask * 200 + "ask,5,1.1")  # half a row, and gone
            taken.socket.close()
        taken, _ = admitted(front.ask, ask)
        taken.say(ask * 3 + "ask,5")
        checks.same("a half-closed connection is answered to its last whole line", taken.leave(), f"{versions.replies[0][0]}\n" * 3)
        for name, row in [("a quotation mark", 'ask,"5\n'), ("a line too long", "9" * 70_000 + "\n"), ("no end of a line", "9" * 200_000)]:
            taken, _ = admitted(front.ask, ask)
            taken.say(ask + row)
            checks.same(f"a connection with {name}", "".join(taken.lines.rest()), f"{versions.replies[0][0]}\nrefused\n")
            taken.socket.close()
        taken, _ = admitted(front.ask, ask)
        taken.say("9" * 60_000 + "\n")
        checks.true("a long line is passed on", re.fullmatch(r"row \d+ refused: kind\n", taken.lines.next()))
        updating, _ = admitted(front.updates, ask)
        checks.same("a batch before the end", updating.talk(batch), "version 1\n")
        with Front(program, room) as second:
            checks.same("sockets that are listened on", (second.first, *second.ended()),
                        ("", 3, f"listen: {front.updates}: bind: Address already in use\n"))
        front.child.send_signal(signal.SIGTERM)
        checks.same("after SIGTERM", (front.ended(), updating.lines.rest()), ((128 + signal.SIGTERM, ""), []))
        checks.same("its sockets are gone", sorted(os.listdir(room)), ["journal"])
        with open(front.journal, encoding="ascii") as kept:
            checks.same("the journal after SIGTERM", kept.read(), batch)
    with Front(program, room) as front:
        found = (front.first, *front.ended())
        checks.same("a journal that is there", found,
                    ("", 3, f"routed: journal {front.journal}: open: File exists (os error 17)\nrouted: stopped\n"
                                                           f"listen: {program.path} ended with status 3\n"))
        checks.same("no socket stays", os.listdir(room), ["journal"])
    os.remove(front.journal)
    with socket.socket(socket.AF_UNIX) as stale:
        stale.bind(front.updates)
    with socket.create_server(("127.0.0.1", 0)) as one, socket.create_server(("127.0.0.1", 0)) as other:
        ports = [one.getsockname()[1], other.getsockname()[1]]
    with Front(program, room, ask=str(ports[0])) as front:
        updating, taken = Connection(front.updates), Connection(("127.0.0.1", ports[0]))
        checks.same("a socket in place of one that nobody listens on", updating.talk(batch), "version 1\n")
        checks.same("a port", (taken.talk(ask), taken.leave()), (f"{versions.replies[1][0]}\n", ""))
        with socket.socket() as probe:
            checks.true("it listens on 127.0.0.1 alone", probe.connect_ex(("127.0.0.2", ports[0])) != 0)
    os.remove(front.journal)
    with Front(program, room, ask=f"127.0.0.2:{ports[0]}", updates=str(ports[1])) as front:
        updating, taken = Connection(("127.0.0.1", ports[1])), Connection(("127.0.0.2", ports[0]))
        found = [updating.talk(batch), taken.talk(ask), taken.leave(), updating.leave()]
        checks.same("an address and a port", found, ["version 1\n", f"{versions.replies[1][0]}\n", "", ""])


LONG_LINES = '''#!/usr/bin/env python3
import sys, threading
def serve(rows, lines):
    for row in filter(bytes.strip, rows):
        lines.write(b"ask %s v0 %s\\n" % (row.split(b",")[1], b"x" * 100_000))
        lines.flush()
def sit(rows, lines):
    while True:
        with open(rows, "rb") as opened, open(lines, "wb") as written:
            serve(opened, written)
pairs = [line.rstrip().split("=") for line in open(sys.argv[sys.argv.index("--clients-from") + 1])]
threads = [threading.Thread(target=sit, args=pair, daemon=True) for pair in pairs]
for thread in threads:
    thread.start()
serve(sys.stdin.buffer, sys.stdout.buffer)
'''


def held_up(program, checks, versions, room):
    """A connection that doesn't read holds the server's lines up, too: they don't fill the memory of routed-tools listen. By a program of
    long lines."""
    class Long:
        path = os.path.join(room, "routed")

    with open(Long.path, "w", encoding="ascii") as script:
        script.write(LONG_LINES)
    os.chmod(Long.path, 0o700)
    with Front(Long, room, "--clients", "2") as front:
        before, many, line = memory_of(front, "VmRSS"), 300, f"ask 1 v0 {'x' * 100_000}\n"
        silent, taken = Connection(front.ask), Connection(front.ask)
        silent.say("ask,1,\n" * many)
        found = [taken.talk("ask,1,\n") == line for _ in range(100)]
        checks.same("beside a connection that doesn't read long lines", found, [True] * 100)
        more = memory_of(front, "VmRSS") - before
        checks.true("lines that aren't read don't fill the memory", more < 8 << 20, more)
        checks.true("a connection that reads long lines late", all(silent.lines.next() == line for _ in range(many)))
        checks.same("and its end", silent.leave(), "")


def memory_of(front, kind):
    """Bytes of the front's memory."""
    with open(f"/proc/{front.child.pid}/status", encoding="ascii") as status:
        return next(int(line.split()[1]) for line in status if line.startswith(kind)) << 10


def one_thread(program, checks, versions, room):
    """64 connections need no thread, and next to no memory."""
    with Front(program, room) as front:
        resource.prlimit(front.child.pid, resource.RLIMIT_AS, (memory_of(front, "VmSize") + (24 << 20),) * 2)  # the stacks of three threads
        together = [Connection(front.ask) for _ in range(CLIENTS)]
        for taken in together:
            taken.socket.settimeout(SOON)
            taken.say(f"{versions.asks[0]}\n")
        found = [taken.socket.recv(1 << 16).decode() for taken in together]
        checks.same("64 connections where no thread can be had", found, [f"{versions.replies[0][0]}\n"] * CLIENTS)
        with open(f"/proc/{front.child.pid}/status", encoding="ascii") as status:
            checks.true("its threads", "Threads:\t1\n" in status.read())


def signals(program, checks, versions, room):
    """SIGTERM is heard, whichever thread takes it, where connections have just ended."""
    with contextlib.ExitStack() as kept:
        fronts, ended = [], []
        for at in range(SIGNALS):
            os.mkdir(inner := os.path.join(room, str(at)))
            fronts.append(Front(program, inner, "--clients", "8"))
        for front in fronts:
            kept.enter_context(front)
        for at, front in enumerate(fronts):
            together = [Connection(front.ask) for _ in range(8)]
            for taken in together:
                taken.say(f"{versions.asks[0]}\n")
            for taken in together:
                taken.lines.next()
                taken.socket.close()
            if at % 2:
                front.child.terminate()
            else:  # the system may choose any thread that there is
                first, *more = sorted(map(int, os.listdir(f"/proc/{front.child.pid}/task")))
                checks.same("a signal is sent to a thread", TGKILL(front.child.pid, (more or [first])[0], signal.SIGTERM), 0)
            with contextlib.suppress(subprocess.TimeoutExpired):
                ended.append(front.child.wait(SOON))
        checks.same("SIGTERM behind connections that have ended", ended, [128 + signal.SIGTERM] * SIGNALS)


def idle(program, checks, versions, room):
    """An asking connection that neither sends nor reads is ended, and its place is free then."""
    ask, reply = f"{versions.asks[0]}\n", f"{versions.replies[0][0]}\n"
    with Front(program, room, "--clients", "4", "--idle", "1.5") as front:
        start, updating = time.monotonic(), Connection(front.updates)
        silent, half, asking, reading = (Connection(front.ask) for _ in range(4))
        half.say(ask + "ask,1")
        text = ask * 40_000  # more than all pipes and sockets hold: it waits for its reader

        def pour():
            with contextlib.suppress(OSError):
                reading.say(text)

        pouring = threading.Thread(target=pour, daemon=True)
        pouring.start()
        checks.same("what was sent is answered", half.hear(1), reply)
        for at in range(20):
            time.sleep(0.1)
            checks.same(f"a connection that asks, {at}", asking.talk(ask), reply)
            checks.same(f"a connection whose lines are read, {at}", reading.hear(50), reply * 50)
        checks.same("a silent connection, and one in the middle of a row, read their ends", (silent.rest(), half.rest()), ("", ""))
        checks.true("after the time of --idle", time.monotonic() - start < PATIENCE)
        checks.same("a connection that brings updates isn't ended", updating.talk("end,1,0\n"), "version 1\n")
        taken = [admitted(front.ask, ask)[0] for _ in range(4)]  # now one doesn't read
        checks.same("places are free again", len(taken), 4)
        pouring.join(PATIENCE)
        checks.true("one that doesn't read is let go", not pouring.is_alive())
        reading.socket.close()
        checks.same("the end of the one that asked", asking.rest(), "")
        checks.same("others are ended in their turn", [connection.rest() for connection in taken], [""] * 4)
    found = [listen.idle_of(argparse.Namespace(idle=given, ask=listen.Endpoint(text))) for given, text in [
        (None, "8001"), (None, "[::1]:8001"), (None, "./8001"), (0, "8001"), (7, "8001"), (7, "./ask")]]
    checks.same("the seconds of --idle, by default and given", found, [300, 300, 0, 0, 7, 7])


# ---- freshness


def fresh(program, checks, versions, room):
    """A connection that asks once `version V` was read is answered at V."""
    for count, batches in FRESH:
        os.mkdir(inner := os.path.join(room, str(count)))
        with Front(program, inner, "--clients", str(count)) as front:
            updating, together, found, wanted = Connection(front.updates), [Connection(front.ask) for _ in range(count)], [], []
            for version in range(1, batches + 1):
                found.append(updating.talk(circuit_at(version)))
                found += [taken.talk(f"ask,{name},1.1.1.1,2.2.2.2,0,5,0x0,0x0,0x0,\n") for name, taken in enumerate(together)]
                wanted += [f"version {version}\n", *(reply_at(name, version) for name in range(count))]
            checks.same(f"{count} connections are answered at the version that was read", found, wanted)
