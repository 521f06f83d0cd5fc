"""The client for Python: the program of its page, and what it raises where it has no answer."""
import os
import re
import socket
import subprocess
import sys
import tempfile

from checks import TOP
from program.serving import PATIENCE
from tools.fronts import Connection
from tools.reading import PAIR, seen

from routed import Client, PairReply, Refused, Reply, Request

PAGE = os.path.join(TOP, "docs/run/PYTHON.md")
ROUTE, OTHER = Request(1, "1.1.1.1", "2.2.2.2", 0, 5), Request(2, "3.3.3.3", "2.2.2.2")


def client(program, checks):
    for part in (page, answers, pairs, raised):
        with tempfile.TemporaryDirectory() as room:
            checks.part(f"client: {part.__name__}", part, program, checks, room)


def page(program, checks, room):
    """The program of the page prints what the page says."""
    with open(PAGE, encoding="utf-8") as file:
        text = file.read()
    code, printed = (re.search(rf"^```{kind}\n(.*?)^```$", text, re.M | re.S)[1] for kind in ("python", "text"))
    with seen(program, room) as front, open(os.path.join(TOP, "examples/abilene.journal"), encoding="ascii") as journal:
        updating = Connection(front.updates)
        updating.say(journal.read())
        updating.leave()
        around = {**os.environ, "PYTHONPATH": os.path.join(TOP, "python"), "PYTHONDONTWRITEBYTECODE": "1"}
        words = [sys.executable, "-c", code, front.ask, os.path.join(room, "watch")]
        ran = subprocess.run(words, env=around, capture_output=True, text=True, timeout=PATIENCE)
        checks.same("the program of the page", (ran.stdout, ran.stderr), (printed, ""))


def answers(program, checks, room):
    """Requests, refused rows and versions, in turn."""
    with seen(program, room, "--clients", "1") as front:
        updating = Connection(front.updates)
        with Client(front.ask, os.path.join(room, "watch")) as one:
            checks.same("before a batch", (one.wait(0), one.ask(OTHER)), (0, Reply(2, 0, "unknown-from", 0, ())))
            updating.say(PAIR + "end,1,2\n")
            checks.same("once a batch is there", (one.wait(1), one.ask(ROUTE), one.version), (1, Reply(1, 1, None, 10, ("10.0.12.2",)), 1))
            for number in range(2, 50):
                updating.say(f"end,{number},0\n")
                checks.same(f"at version {number}", (one.wait(number), one.ask(OTHER).version), (number, number))
            checks.same("a version that is there already", one.wait(7), 49)
            with Client(front.ask) as other:
                raises(checks, "a place that is taken", lambda: other.ask(ROUTE), Refused, "busy")
            raises(checks, "a row that is refused", lambda: one.ask(Request(1, "x", "2.2.2.2")), Refused, "row 51 refused: address 3")
            checks.same("and on", one.ask(OTHER).version, 49)


def pairs(program, checks, room):
    """Pairs, and the circuit that each way has."""
    with seen(program, room, "--pairs") as front, Client(front.ask, os.path.join(room, "watch")) as one:
        updating = Connection(front.updates)
        updating.say(PAIR + "end,1,2\n" + PAIR.replace("10.0.12.", "10.0.21.") + "end,2,2\ndrop,2.2.2.2,10.0.21.2\nend,3,1\n")
        one.wait(3)
        checks.same("a circuit that each way has", one.pair(ROUTE, "circuits"), PairReply(1, 3, each=("1.1.1.1", "10.0.12.1")))
        raises(checks, "a kind that is none", lambda: one.pair(ROUTE, "links"), Refused, "row 2 refused: kind-of-pair")
        checks.same("an unknown end", one.pair(OTHER, "routers"), PairReply(2, 3, why="unknown-from"))
        updating.say(PAIR.replace("10.0.12.", "10.0.21.").splitlines(keepends=True)[1] + "end,4,1\n")
        one.wait(4)
        found = one.pair(ROUTE, "routers")
        checks.same("a pair", (found, found.cost, one.version),
                    (PairReply(1, 4, tuple(Reply(1, 4, None, 10, (f"10.0.{circuit}.2",)) for circuit in (12, 21))), 20, 4))


def raised(program, checks, room):
    """Places where nobody answers, that end, or tell something else."""
    path = os.path.join(room, "silent")
    with socket.socket(socket.AF_UNIX) as silent:
        silent.bind(path)
        silent.listen()
        with Client(path, path, seconds=0.2) as one:
            raises(checks, "no reply", lambda: one.ask(ROUTE), TimeoutError, "no line came in 0.2 s")
            raises(checks, "no version", lambda: one.wait(1), TimeoutError, "no line came in 0.2 s")
            asked, told = (silent.accept()[0] for _ in range(2))
            told.sendall(b"hello\n")
            raises(checks, "no line of a version", lambda: one.wait(1), Refused, "hello")
            asked.sendall(b"ask 9 v1 none\n")
            raises(checks, "another's reply", lambda: one.ask(ROUTE), Refused, "ask 9 v1 none")
            asked.close()
            raises(checks, "its end", lambda: one.ask(ROUTE), ConnectionError, None)
            told.close()
            raises(checks, "the end of versions", lambda: one.wait(1), ConnectionError, "the server ended the connection")
        with Client(path) as one:
            raises(checks, "no place of versions", lambda: one.wait(1), Refused, "no place of versions was given")
    raises(checks, "nobody listens", lambda: Client(os.path.join(room, "absent")), FileNotFoundError, None)


def raises(checks, name, call, kind, words):
    try:
        checks.fail(f"{name}: {call()}")
    except kind as fault:
        checks.same(name, str(fault) if words else words, words)
