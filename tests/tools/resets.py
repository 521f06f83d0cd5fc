"""Connections that are reset in each of their states, at each place of `listen` and of a feed: others are served beside and behind them.

tests/pcep/resets.py does so to PCCs."""
import re
import socket
import tempfile
import time

from feed.played import PAIR, PAIR_ROWS, Feed, Router, message
from tools.fronts import AT_ONCE, RESETS, Connection, Front, admitted, reset
from tools.reading import ASKS

from routed.net import http
from routed.net.endpoints import Endpoint

ASK, LINE = ASKS["unknown-from"], re.compile(r"ask 3 v(\d+) unknown-from\n")


def reset_fronts(program, checks):
    for part in (of_listen, of_watch, of_metrics):
        start = time.monotonic()
        with tempfile.TemporaryDirectory() as room:
            checks.part(f"resets: {part.__name__}", part, program, checks, room)
        print(f"resets: {part.__name__}, {time.monotonic() - start:.0f} s")


def reset_all(checks, name, places, served):
    """Connections at each place in each of its states, a few at once, which are reset; and then others are served."""
    states = [(place, state) for place, those in places.items() for state in those]
    for place, state in states:
        found = []
        for _ in range(RESETS // len(states) // AT_ONCE):
            together = [Connection(place) for _ in range(AT_ONCE)]
            for one in together:
                try:
                    state(one)
                except ConnectionError:  # it was busy, and has ended
                    pass
            for one in together:
                reset(one.socket)
            found.append(served())
        checks.same(f"{name}: {len(found) * AT_ONCE} resets, {state.__name__}", found, [True] * len(found))


class Ports:
    """A run of `listen` at ports, with an asking connection, one that brings updates and a watcher that go on."""

    def __init__(self, program, room, *words):
        self.front = Front(program, room, "--watch", "0", "--metrics", "0", "--log-level", "error", *words, ask="0", updates="0")

    def __enter__(self):
        self.front.__enter__()
        self.places = dict(self.place(line) for line in [self.front.first, *(self.front.said.next() for _ in range(3))])
        self.front.said.next()
        self.version, self.honest, self.watcher = 0, Connection(self.places["ask"]), Connection(self.places["watch"])
        self.watcher.lines.next()
        return self

    def __exit__(self, *fault):
        self.front.__exit__(*fault)

    def place(self, line):
        kind, host, port = re.fullmatch(r"(\w+) (.*):(\d+)\n", line).groups()
        return kind, (host, int(port))

    def serves(self):
        """Whether another connection has its line, and so has a next one for asks, and one for updates, whose version a watcher is told."""
        taken, line = admitted(self.places["ask"], ASK)
        is_answered = LINE.fullmatch(line) and not taken.leave() and LINE.fullmatch(self.honest.talk(ASK))
        updating, line = admitted(self.places["updates"], ASK)
        told, self.version = self.version, int(LINE.fullmatch(line)[1])
        published = updating.talk(f"end,{self.version + 1},0\n")
        updating.leave()
        lines = [f"version {version}\n" for version in range(told + 1, self.version + 2)]
        self.version += 1
        while (heard := self.watcher.lines.next()) in lines[:-1]:
            pass
        return bool(is_answered and published == heard == lines[-1])


def nothing(one):
    """A connection that sends nothing."""


def half_a_line(one):
    one.say("ask,1,1.1.1.1")


def answered(one):
    one.talk(ASK)


def unread(one):
    one.say(ASK)


def many_rows(one):
    one.say(ASK * 200)


def half_closed(one):
    one.say(ASK)
    one.socket.shutdown(socket.SHUT_WR)


def refused(one):
    one.say(f'{ASK}ask,"\n')


def open_changes(one):
    one.say("node,1.1.1.1,0\n")


def published(one):
    one.say("".join(f"end,{number},0\n" for number in range(1, 200)))


def snapshot(one):
    one.say("snapshot\n" * 3)


def of_listen(program, checks, room):
    """Where rows come in. Of those that bring updates all but one are busy."""
    with Ports(program, room, "--clients", "16") as ports:
        reset_all(checks, "listen", {ports.places["ask"]: (nothing, half_a_line, answered, unread, many_rows, half_closed, refused),
                                     ports.places["updates"]: (nothing, open_changes, published, snapshot)}, ports.serves)
        goes_on(checks, "listen", ports.front)


def of_watch(program, checks, room):
    with Ports(program, room) as ports:
        def told(one):
            one.lines.next()

        def told_and_silent(one):
            one.lines.next()
            one.socket.shutdown(socket.SHUT_WR)

        reset_all(checks, "watch", {ports.places["watch"]: (nothing, told, half_a_line, told_and_silent)}, ports.serves)
        goes_on(checks, "watch", ports.front)


def of_metrics(program, checks, room):
    with Ports(program, room) as ports:
        endpoint, count = Endpoint("{}:{}".format(*ports.places["metrics"])), iter(range(1 << 20))

        def half_a_head(one):
            one.say("GET /metrics HTTP/1.1\r\n")

        def asked(one):
            one.say("GET /metrics HTTP/1.1\r\n\r\n")

        def half_read(one):
            one.talk("GET /metrics HTTP/1.1\r\n\r\n")

        def wrong(one):
            one.say("\n")

        def serves():
            is_asked = next(count) % 10 == 0
            return "routed_version 0\n" in http.get(endpoint) and (not is_asked or LINE.fullmatch(ports.honest.talk(ASK)) is not None)

        reset_all(checks, "metrics", {ports.places["metrics"]: (nothing, half_a_head, asked, half_read, wrong)}, serves)
        goes_on(checks, "metrics", ports.front)


def goes_on(checks, name, front):
    front.child.terminate()
    checks.same(f"{name}: its end, and what it said", front.ended(), (143, ""))


def reset_feed(_, checks):
    """The connection to a router, which is made again each time: either of its two sockets is reset."""
    router = Router()
    feed = Feed(router)
    states = b"", message(12, bytes(100))[:30], PAIR
    found = []
    for at in range(RESETS):
        state = states[at % len(states)]
        router.send(state)
        if at == 2:
            found.append(feed.batch()[0])
        feed.settle()
        one, other = (router.asking, router.hearing) if at % 2 else (router.hearing, router.asking)
        reset(one)
        while feed.said.count(b"; what was put stays\n") <= at:
            feed.hear()
        other.close()
        feed.again()
    router.send(PAIR)
    checks.same("feed: the rows of the network once", (found, feed.is_quiet()), ([PAIR_ROWS], True))
    lines = set(feed.end().splitlines())
    router.hang_up()
    here = f"ospf: no connection to 127.0.0.1 port {router.port}"
    checks.same(f"feed: lines of {RESETS} resets", lines - {"ospf: connected again; links that were there are held for 20 s"},
                {f"{here}: Connection reset by peer; what was put stays"})
