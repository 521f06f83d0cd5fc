"""Exceptions in the code of one connection of `listen`, `pcep` or a feed: it alone ends, with a line of the log and a figure. The tools run
with exceptions that tests/tools/planted.py plants."""
import contextlib
import os
import re
import signal
import socket
import tempfile
import time

from program.serving import PATIENCE
from tools.directed import Busy, Direct, soon
from tools.ended import of_feed, of_pcep, of_server
from tools.fronts import Connection, Front, admitted, busy
from tools.plants import ENDED, left, plant, planted
from tools.reading import ASKS, PAIR, answered, eventually, figures_of, sent

from routed.front.seats import LATE
from routed.net import endpoints, http, loop
from routed.net.endpoints import Stopped

ASK, REPLY = ASKS["route"], re.compile(r"ask 1 v\d+ (?:route .*|unknown-from)\n")


def exceptions(program, checks):
    with tempfile.TemporaryDirectory() as room:
        checks.parts_in(room, (of_loop, of_door, of_listen, of_streams, of_direct, of_seats, of_updates, of_idle, of_pcep, of_server,
                               of_feed), program, checks)


# ---- without sockets


class Owner:
    """A connection of a loop."""

    def __init__(self, is_bad=False):
        self.is_bad, self.ended = is_bad, 0

    def named(self):
        return "one"

    def fail(self):
        self.ended += 1
        if self.is_bad:
            raise ValueError("in its end")


def of_loop(_, checks, room):
    """Files and times with an owner and without."""
    def raising(fault):
        def call(*_):
            raise fault
        return call

    reading, writing = os.pipe()
    os.write(writing, b"x")
    for name, owner, lines in [
            ("a file", Owner(), 1), ("a file of an owner whose end raises", Owner(True), 2)]:
        said = []
        made = loop.Loop(said.append)
        made.of(owner).want(reading, loop.READ, raising(KeyError("key")))
        for _ in range(3):
            made.after(0, lambda: None)
            made.turn()
        checks.same(f"{name}: it ends once, and is told", (owner.ended, len(said)), (1, lines))
        checks.true(f"{name}: its line", re.fullmatch(rf"one: ended by an exception, KeyError at {__file__}:\d+: 'key'", said[0]), said)
    said, owner, called = [], Owner(), []
    made = loop.Loop(said.append)
    made.of(owner).after(0, lambda: http.answer_to(None, str))
    made.of(owner).after(0, lambda: endpoints.Endpoint(None))
    made.of(owner).after(0, lambda: called.append("third"))
    made.turn()
    checks.same("times: the others come", (owner.ended, len(said), called), (2, 2, ["third"]))
    checks.true("times: a line names the line of the tools", re.fullmatch(
        rf"one: ended by an exception, TypeError at routed/net/http\.py:{line_of('net/http.py', 'len(asked)')}: "
        r".*'NoneType'.*", said[0]), said)
    checks.true("times: and the one that called another's code", re.fullmatch(
        rf"one: ended by an exception, TypeError at {re.escape(re.__file__)}:\d+, called at "
        rf"routed/net/endpoints\.py:{line_of('net/endpoints.py', 're.fullmatch(')}: .*",
        said[1]), said)
    for name, who, fault in [("no owner", None, KeyError("key")), ("what ends the tool", Owner(), Stopped("word")),
                             ("a key of the user", Owner(), KeyboardInterrupt()), ("an end", Owner(), SystemExit(0))]:
        made = loop.Loop(said.append)
        made.after(0, raising(fault), who)
        try:
            made.turn()
            checks.fail(f"{name}: it goes on")
        except BaseException as found:
            checks.same(f"{name}: it is raised", (found, who and who.ended), (fault, who and 0))
    for file in (reading, writing):
        os.close(file)


def line_of(name, text):
    """The number of the first line of a file of the tools that has this text."""
    with open(os.path.join(os.path.dirname(os.path.dirname(loop.__file__)), name), encoding="utf-8") as file:
        return next(at for at, line in enumerate(file, 1) if text in line)


class Gone(socket.socket):
    """A connection whose options are refused, since it has gone already."""

    def setsockopt(self, *_):
        raise OSError(22, "Invalid argument")


def of_door(_, checks, room):
    """A connection that goes before it has its options delays no other."""
    listener, made, taken = socket.create_server(("127.0.0.1", 0)), loop.Loop(), []
    accept = listener.accept

    class Listening:
        setblocking, fileno = listener.setblocking, listener.fileno

        def accept(self):
            connection, peer = accept()
            return Gone(fileno=connection.detach()), peer

    endpoints.Door(made, Listening(), taken.append)
    both, began = [socket.create_connection(listener.getsockname()) for _ in range(2)], time.monotonic()
    while len(taken) < 2 and time.monotonic() < began + PATIENCE:
        made.turn()
    checks.same("connections that go before they have their options", (len(taken), made.times), (2, []))
    for one in [*both, *taken, listener]:
        one.close()


# ---- listen


class Seen:
    """A run of `listen` with exceptions planted, an asking connection and a watcher that go on, and how many exceptions there were."""

    def __init__(self, program, room, *words):
        self.room, self.count, self.front = room, 0, Front(
            program, room, "--watch", os.path.join(room, "watch"), "--metrics", os.path.join(room, "metrics"), *words,
            tool=planted(room, "listen"))

    def __enter__(self):
        self.front.__enter__()
        self.version = 0
        self.honest, self.watcher = Connection(self.front.ask), Connection(os.path.join(self.room, "watch"))
        return self

    def __exit__(self, *fault):
        self.front.__exit__(*fault)

    def plant(self, *lines):
        plant(self.room, *lines)

    def publish(self, updating, rows=""):
        """A batch of its own, and the lines of it."""
        self.version += 1
        return updating.talk(f"{rows}end,{self.version},{rows.count(chr(10))}\n")

    def judge(self, checks, name, who, *lines):
        """What is there behind an exception: its line, those that follow it, and a figure."""
        self.count += 1
        line = self.front.errors.next()
        checks.true(f"{name}: a line", re.fullmatch(f"listen: {who}: {ENDED}\n", line), line)
        checks.same(f"{name}: further lines", [self.front.errors.next() for _ in lines], [f"listen: {line}\n" for line in lines])
        checks.same(f"{name}: what was planted", left(self.room), "")
        checks.same(f"{name}: a figure", figures_of(self.room)["routed_exceptions_total", None], self.count)
        self.good(checks, name)

    def good(self, checks, name):
        answer = self.honest.talk(ASK)
        checks.true(f"{name}: another connection is answered", REPLY.fullmatch(answer), answer)


def heard(taken):
    """What a connection reads to its end, which is a reset where not all was read that it had sent."""
    lines = []
    with contextlib.suppress(ConnectionError):
        while line := taken.lines.next():
            lines.append(line)
    taken.socket.close()
    return "".join(lines)


def of_listen(program, checks, room):
    """One connection at each place of `listen`."""
    with Seen(program, room, "--clients", "2") as seen:
        updating = Connection(seen.front.updates)
        checks.same("a batch", seen.publish(updating, PAIR), "version 1\n")
        checks.same("versions", [seen.watcher.lines.next() for _ in range(2)], ["version 0\n", "version 1\n"])
        for place in ("Channel.take", "Channel.begin", "Channel.begin!", "Channel.settle", "Account.rows", "Account.lines",
                      "Channel.read_lines!"):
            seen.plant(*[place] if "begin" in place else [])
            victim = Connection(seen.front.ask)
            if "begin" not in place:
                victim.talk(ASK)
                seen.plant(place)
                victim.say("ask,99,1.1.1.1,2.2.2.2,0,5,0x0,0x0,0x0,\n" * 50)
            found = heard(victim)
            checks.true(f"{place}: it ends", re.fullmatch(r"(ask 99 v1 route .*\n)*", found) and found.count("\n") <= 50, found)
            seen.judge(checks, place, r"ask \d+")
            taken, line = admitted(seen.front.ask, "ask,77,3.3.3.3,2.2.2.2,0,5,0x0,0x0,0x0,\n")
            checks.same(f"{place}: the next connection reads its own lines alone", (line, taken.leave()), ("ask 77 v1 unknown-from\n", ""))
        for place in ("Channel.finish", "Channel.finish!"):
            victim = Connection(seen.front.ask)
            victim.talk(ASK)
            seen.plant(place)
            victim.socket.shutdown(socket.SHUT_WR)
            checks.same(f"{place}: it ends", heard(victim), "")
            seen.judge(checks, place, r"ask \d+")
            taken, line = admitted(seen.front.ask, ASK)
            checks.true(f"{place}: a next connection", REPLY.fullmatch(line), line)
            taken.leave()
        for place in ("Watcher.tell 2", "Watcher.go_on 3"):
            victim = Connection(os.path.join(room, "watch"))
            victim.lines.next()
            seen.plant(place)
            if place == "Watcher.go_on 3":
                victim.say("x\n")
            else:
                checks.same(f"{place}: a version", (seen.publish(updating), seen.watcher.lines.next()), (f"version {seen.version}\n",) * 2)
            checks.same(f"{place}: it ends", heard(victim), "")
            seen.judge(checks, place, r"watch \d+")
            checks.same(f"{place}: another watcher goes on", (seen.publish(updating), seen.watcher.lines.next()),
                        (f"version {seen.version}\n",) * 2)
        for place in ("http.answer_to", "Reading.close"):
            seen.plant(place)
            reader = sent(room, b"GET /metrics HTTP/1.1\r\n\r\n")
            seen.judge(checks, place, "a reader of figures")
            checks.same(f"{place}: readers that are there", figures_of(room)["routed_connections", "metrics"], 1)
            found = answered(reader)[0].partition("\r\n")[0]
            checks.same(f"{place}: it ends", found, "HTTP/1.1 200 OK" if place == "Reading.close" else "")
        for place, others in (("Stream.peer", 0), ("Stream.drop", 1)):
            others = [admitted(seen.front.ask, ASK)[0] for _ in range(others)]
            seen.plant(place)
            victim = Connection(seen.front.ask)
            with contextlib.suppress(BrokenPipeError):
                victim.say(ASK)
            checks.same(f"{place}: it ends", heard(victim), "busy\n" * len(others))
            seen.judge(checks, place, "a connection")
            for one in others:
                one.leave()
        eventually(checks, "connections that are open",
                   lambda: [figures_of(room)["routed_connections", place] for place in ("ask", "updates", "watch")], [1, 1, 1])
        seen.plant("Front.signalled")
        seen.front.child.send_signal(signal.SIGTERM)
        found, said = seen.front.ended()
        checks.true("an exception in the front's own code ends it", found == 1 and "Planted: of two\nlines" in said, (found, said))


def of_streams(program, checks, room):
    """A seat is free again behind an exception of a connection. The stream of the updates that fails without one ends the front."""
    with Seen(program, room, "--clients", "2") as seen:
        for at in range(3):
            victim = admitted(seen.front.ask, ASK)[0]
            seen.plant("Channel.read_lines")
            victim.say(ASK)
            checks.same(f"connection {at} ends", heard(victim), "")
            seen.judge(checks, f"connection {at}", r"ask \d+")
        updating = Connection(seen.front.updates)
        seen.publish(updating, PAIR)
        seen.plant("Channel.read_lines", "Channel.read_lines")
        updating.say("end,2,0\n")
        found, said = seen.front.ended()
        checks.true("the stream of updates that fails again ends the front",
                    found == 3 and re.fullmatch(rf"listen: updates 1: {ENDED}\nlisten: updates 0: {ENDED}\n"
                                                "listen: the server's stream of updates can't be used any more\n", said), (found, said))
        with open(seen.front.journal, encoding="ascii") as kept:
            checks.same("the journal then", kept.read().count("end,"), 2)


def of_direct(program, checks, room):
    """A direct connection ends, and its seat is free again: there are two, and another connection goes on."""
    with Seen(program, room, "--clients", "2", "--direct", os.path.join(room, "direct")) as seen:
        for place in ("Direct.begin", "Direct.begin!", "Direct.read", "Direct.hang_up", "Direct.over", "Direct.finish"):
            victim = None if "begin" in place else soon(os.path.join(room, "direct"))
            seen.plant(place)
            if place in ("Direct.over", "Direct.finish"):
                victim.say('"')
            elif victim:  # what is read there ends it; a session may end before a client's own end is seen
                victim.socket.sendall(b"x")
            while victim is None and left(room):  # the seat may be busy yet
                with contextlib.suppress(Busy):
                    victim = Direct(os.path.join(room, "direct"))
            seen.judge(checks, place, r"direct \d+")
            if victim:
                checks.same(f"{place}: it has no more lines", victim.lines.rest(), [])
                victim.close()
            following = soon(os.path.join(room, "direct"))
            checks.true(f"{place}: the next one", REPLY.fullmatch(following.talk(ASK)))
            following.close()


def of_seats(program, checks, room):
    """A seat that fails where a session ends isn't used again: its connection ends, others go on, and there is one place fewer."""
    kinds = [(place, is_direct) for place in ("Seat.begin", "Seat.renew", "Seat.renew!") for is_direct in (False, True)]
    with Seen(program, room, "--clients", str(len(kinds) + 1), "--direct", os.path.join(room, "direct")) as seen:
        for at, (place, is_direct) in enumerate(kinds):
            name = f"{place}, {'direct' if is_direct else 'relayed'}"
            others = [admitted(seen.front.ask, ASK)[0] for _ in range(len(kinds) - at - 1)]
            victim = Direct(os.path.join(room, "direct")) if is_direct else Connection(seen.front.ask)
            checks.true(f"{name}: its lines", REPLY.fullmatch(victim.talk(ASK)))
            seen.plant(place)
            start = time.monotonic()
            checks.same(f"{name}: it ends", victim.leave(), ("", b"") if is_direct else "")
            checks.true(f"{name}: it ends soon", time.monotonic() < start + LATE / 2)
            seen.judge(checks, name, r"seat \d+")
            line = seen.front.errors.next()
            checks.true(f"{name}: a second line", re.fullmatch(r"listen: seat \d+ isn't used again\n", line), line)
            checks.same(f"{name}: one place fewer", [busy(seen.front.ask) for _ in range(2)], ["busy\n"] * 2)
            for one in others:
                checks.true(f"{name}: others go on", REPLY.fullmatch(one.talk(ASK)))
                one.leave()
        checks.same("places that are left", [busy(seen.front.ask) for _ in range(2)], ["busy\n"] * 2)
        checks.same("connections that are open", [figures_of(room)["routed_connections", place] for place in ("ask", "direct")], [1, 0])


def of_updates(program, checks, room):
    """A connection that brings updates: what it left open is dropped, versions are told, and a next one has snapshots."""
    with Seen(program, room) as seen:
        checks.same("at first", seen.watcher.lines.next(), "version 0\n")

        def fails(name, place, rows):
            victim = admitted(seen.front.updates, ASK)[0]
            seen.plant(place)
            victim.say(rows)
            found = heard(victim)
            is_cut = place.endswith("!") and found.startswith(f"version {seen.version}\n")  # a part of a snapshot may have been written
            checks.true(f"{name}: it ends", not found or is_cut, found)
            seen.judge(checks, name, r"updates \d+")

        def goes_on(name, rows=""):
            """A connection that comes then, and finds no change left open."""
            seen.version += 1
            taken, line = admitted(seen.front.updates, f"{rows}end,{seen.version},{rows.count(chr(10))}\n")
            checks.same(f"{name}: the next batch, and a watcher", (line, seen.watcher.lines.next()), (f"version {seen.version}\n",) * 2)
            return taken

        goes_on("a first connection", PAIR).leave()
        fails("changes that are left open", "Channel.take!", "drop,1.1.1.1,10.0.12.1\n")
        goes_on("changes that were left open").leave()
        seen.version += 1
        fails("a version that nobody reads", "Account.lines", f"end,{seen.version},0\n")
        checks.same("a version that nobody reads: a watcher is told", seen.watcher.lines.next(), f"version {seen.version}\n")
        for place in ("Updates.go_on", "Updates.go_on!", "Snapshots.begin", "Snapshots.begin!", "Snapshots.look", "Snapshots.look!"):
            fails(f"a snapshot, {place}", place, "snapshot\n")
            taken = goes_on(f"a snapshot, {place}")
            taken.say(f"snapshot\n{ASK}")
            found = []
            while (line := taken.lines.next()) != "snapshot end\n" and line:
                found.append(line)
            journal = [line for line in found if line.startswith("put,")]
            checks.same(f"a snapshot, {place}: the next", (found[:1], sorted(journal)),
                        ([f"version {seen.version}\n"], sorted(dressed_pair())))
            line = taken.lines.next()
            checks.true(f"a snapshot, {place}: rows behind it", REPLY.fullmatch(line), line)
            taken.leave()


def dressed_pair():
    """The rows of PAIR as a snapshot has them."""
    return [line.replace(",0x1,", ",0x00000001,") + "\n" for line in PAIR.splitlines()]


def of_idle(program, checks, room):
    """The clock by which idle connections end goes on."""
    with Seen(program, room, "--idle", "0.5") as seen:
        seen.plant("Relay.end_idle")
        checks.same("one that is ended as idle", heard(seen.honest), "")
        seen.honest = Connection(seen.front.ask)
        seen.judge(checks, "one that is ended as idle", r"ask \d+")
        checks.same("and the next", heard(seen.honest), "")
        checks.same("which is idle", figures_of(room)["routed_cut_off_total", "idle"], 1)
