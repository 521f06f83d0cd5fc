"""Exceptions in the code of one connection of `pcep` or of a feed: it ends, and the others go on."""
import contextlib
import os
import re
import signal
import socket
import subprocess

from feed import played as feeds
from feed.speaker import Speaker
from pcep.beside import OPENED, TO_NORTH, TO_SOUTH, Client, Run, begun, wait
from pcep.played import PATH, request, rows
from program.serving import PATIENCE
from tools.plants import ENDED, left, plant, planted
from tools.reading import eventually, figures_of

from routed.front import status
from routed.net.endpoints import Endpoint
from routed.pcep import wire


def of_pcep(program, checks, room):
    """One PCC of several."""
    wanted = os.path.join(room, "wanted")
    with open(wanted, "w", encoding="ascii") as file:
        file.write("red,127.0.30.9,10.0.0.4,7,1,0x0,0x0,0x0\n")
    with Run(program.path, room, "--initiate", wanted, "--reopen", tool=planted(room, "pcep")) as run:
        run.publish(*rows())
        honest, count = begun(run, "127.0.30.1"), 0

        def said():
            return run.said().splitlines()

        def judge(name, who, *before):
            nonlocal count
            count += 1
            wait(lambda: len(said()) > len(before) and re.fullmatch(f"pcep: {who}: {ENDED}", said()[-1]))
            checks.true(f"{name}: a line", re.fullmatch(f"pcep: {who}: {ENDED}", said()[-1]), said())
            checks.same(f"{name}: what was planted", left(room), "")
            checks.same(f"{name}: a figure", run.figures()["exceptions_total"], count)
            checks.same(f"{name}: another PCC is answered", honest.ask(), PATH)

        for number, (place, act) in enumerate([
                ("Pcc.go_on", lambda one: one.socket.sendall(request())), ("Pcc.go_on!", lambda one: one.socket.sendall(request())),
                ("Session.message", lambda one: one.socket.sendall(request())),
                ("Answers.begin", lambda one: one.socket.sendall(request())),
                ("Answers.answered", lambda one: one.socket.sendall(request())),
                ("Answers.answered!", lambda one: one.socket.sendall(request())),
                ("Pcc.proceed", lambda one: one.socket.sendall(request() * 100)),
                ("Pcc.flush", lambda one: one.socket.sendall(request())), ("Pcc.flush!", lambda one: one.socket.sendall(request())),
                ("Pcc.tick", lambda one: None), ("Pcc.tick!", lambda one: None),
                ("Session.again", lambda one: run.publish(*rows())), ("Moves.again", lambda one: run.publish(*rows())),
                ("Moves.following", lambda one: one.report(0, 0)), ("Moves.following!", lambda one: one.report(0, 0)),
                ("Moves.answered", lambda one: one.report(0, 0)), ("Making.reread", lambda one: run.pcep.send_signal(signal.SIGHUP)),
                ("Pcc.close", lambda one: one.socket.sendall(wire.close(1)))], 2):
            source = f"127.0.30.{number}"
            victim = Client(run.port, source)
            victim.open()
            victim.ask()
            if place.startswith(("Moves.answered", "Moves.following")):
                victim.report(1, name=place.encode())
                victim.ask()
            plant(room, f"{place} {source}")
            act(victim)
            found = [victim.read()]
            while found[-1] not in ("end", "Close 1"):
                found.append(victim.read())
            checks.true(f"{place}: its session ends", set(found) <= {PATH, "Close 1", "end"}, found)
            judge(place, re.escape(source))
            wait(lambda: run.figures()["sessions"] == 1)
            following = Client(run.port, source)
            checks.same(f"{place}: a next session of the same PCC", (following.open(), following.ask()), (OPENED, PATH))
            following.close()
            wait(lambda: run.figures()["sessions"] == 1)
        plant(room, "Returning.look 127.0.30.1")
        second = Client(run.port, "127.0.30.1")
        checks.same("Returning.look: it ends", second.read(), "end")
        checks.same("Returning.look: the first session goes on", honest.read(), "Keepalive")
        judge("Returning.look", "127.0.30.1")
        plant(room, "Front.take")
        checks.same("Front.take: it ends", Client(run.port, "127.0.30.99").read(), "end")
        judge("Front.take", "a connection")
        plant(room, "http.answer_to")
        with socket.socket(socket.AF_UNIX) as reading:
            reading.connect(run.places["figures"])
            reading.sendall(b"GET /metrics HTTP/1.1\r\n\r\n")
            checks.same("http.answer_to: it ends", reading.recv(100), b"")
        judge("http.answer_to", "a reader of figures")
        plant(room, "Front.signalled")
        run.pcep.send_signal(signal.SIGHUP)
        checks.same("an exception in the front's own code ends it", run.pcep.wait(PATIENCE), 1)
        checks.true("and is told", "Planted: of two\nlines" in run.said(), run.said())


def of_server(program, checks, room):
    """The connections of `pcep` to its server are made again, and LSPs are moved by what follows."""
    with Run(program.path, room, "--connections", "2", tool=planted(room, "pcep")) as run:
        run.publish(*rows())
        client = begun(run, "127.0.31.1")
        client.report(1)
        client.report(0, 0)
        checks.same("an LSP", client.read(), TO_NORTH)
        plant(room, "Connection.read")
        checks.same("Connection.read: the request goes to another connection", client.ask(), PATH)
        plant(room, "Watch.read")
        run.publish("drop,10.0.0.1,10.1.2.1")
        checks.same("Watch.read: a version is told again", client.read(), TO_SOUTH)
        lines = [line for line in run.said().splitlines() if "connecting again" not in line]
        names = ("a connection for asks", "the connection for versions")
        checks.true("lines", len(lines) == 2 and all(re.fullmatch(f"pcep: {who}: {ENDED}", line) for who, line in zip(names, lines)), lines)
        checks.same("figures", (run.figures()["exceptions_total"], run.figures()["lsps"]), (2, 1))
        checks.same("SIGTERM", run.end(), 0)


# ---- a feed


def of_feed(program, checks, room):
    """The connection to the router ends and comes again, and so does a reader of figures."""
    for router in (feeds.Router(), Speaker()):
        feed_ended(program, checks, room, router)


def feed_ended(program, checks, room, router):
    place = os.path.join(room, "feed")
    words = *router.words(), "--collect", "0.05", "--metrics", place, "--", program.path, "solve"
    made = subprocess.Popen([*planted(room, "feed"), *words], stdin=subprocess.PIPE, stdout=subprocess.PIPE, stderr=subprocess.PIPE,
                            text=True)
    try:
        for count, called in enumerate(("Lsdb.take", "Lsdb.network"), 1):
            plant(room, called)
            router.accept()
            router.send(router.pair)
            eventually(checks, f"{called}: a figure", lambda: figures_of(room, "feed").get(("routed_feed_exceptions_total", None)), count)
            checks.same(f"{called}: the connection ends", router.end_of(), b"")
            router.hang_up()
        router.accept()
        router.send(router.pair)
        eventually(checks, "and the next has its rows", lambda: figures_of(room, "feed").get(("routed_feed_version", None)), 1)
        plant(room, "http.answer_to")
        with contextlib.suppress(status.Unread):
            checks.fail(f"a reader of figures: {status.read(Endpoint(place))}")
        eventually(checks, "a reader of figures: a figure", lambda: figures_of(room, "feed").get(("routed_feed_exceptions_total", None)), 3)
    finally:
        made.terminate()
        said = [line for line in made.communicate(timeout=PATIENCE)[1].splitlines() if "connected again" not in line]
    name = router.name
    lost = f"{name}: no connection to {router.where}: an exception has ended it; what was put stays"
    wanted = [f"{name}: {re.escape(router.where)}: {ENDED}", re.escape(lost)] * 2 + [f"{name}: a reader of figures: {ENDED}"]
    checks.true("the lines of the feed", len(said) == len(wanted) and all(map(re.fullmatch, wanted, said)), said)
    router.hang_up()
