"""What `routed-tools page` says and does where its server, its journal, names or browsers aren't as they should be."""
import contextlib
import json
import os
import random
import re
import socket
import sys
import threading
import time

from checks import TOP
from program.serving import PATIENCE
from tools.fronts import Connection
from tools.page_delays import full_rows
from tools.page_pins import PUTS, circuit_of, cost_of, network_without
from tools.paged import BERLIN, BONN, GERMANY, Events, Paged, paged
from tools.reading import eventually

from routed.follow.again import APART

SPARSE = [sys.executable, "-c", f"import sys; sys.path.insert(0, {os.path.join(TOP, 'python')!r}); from routed.net import events; "
          "events.EVERY = 0.2; from routed.tools import main; sys.exit(main(['page', *sys.argv[1:]]))"]
RAISING = [sys.executable, "-c", f"import sys; sys.path.insert(0, {os.path.join(TOP, 'python')!r}); " + """
from routed.page import page, readers
asked, following = page.Page.asked, readers.Reader.following
def planted(self, query):
    if query.get('setup') == ['3']:
        raise ArithmeticError
    return asked(self, query)
def planted_too(self):
    if any(pin.request.setup == 4 for pin in self.pins):
        raise LookupError
    return following(self)
page.Page.asked, readers.Reader.following = planted, planted_too
from routed.tools import main
sys.exit(main(['page', *sys.argv[1:]]))"""]
SLOW_VERSIONS, SLOW_LINKS = 24, 1000  # that a browser doesn't read, and links that each changes: more than sockets keep
MOST_MEMORY = 60 << 20  # bytes by which the page may grow
MARKUP = ["<script>alert(1)</script>", "\"onload='x'&amp;</script><img src=x>", "]]>--></title>{{TOKEN}}", "x" * 1000,
          "Zürich Цюрих 苏黎世 زيورخ", "'; DROP TABLE routers; --", "data: x\\n\\nevent: hello", "\u202eright to left"]


def state(events, test):
    """The next state of the server that a page is told, and passes a test."""
    return events.until("server", test)


def restarted(program, checks, room):
    """A server that ends and begins again: its versions begin again, and pages are told so. Of a folder its newest journal is followed."""
    folder = os.path.join(room, "runs")
    os.mkdir(folder)
    at = Paged(program.path, room, journal=folder)
    try:
        at.begin_page()
        events = Events(at)
        name = events.until("hello")["page"]
        checks.same("a page before its server", events.next()[1]["there"], False)
        checks.same("an ask before it", at.call("ask", head=BERLIN, tail=BONN)[0], 503)
        at.begin_server(os.path.join(folder, "1.journal"), "--run", "1")
        checks.same("the server comes", state(events, lambda it: it["there"])["journal"], True)
        at.publish(PUTS)
        before = at.call("ask", head=BERLIN, tail=BONN, setup=3)[1]
        at.publish("node,192.168.0.3,0")
        at.call("pin", page=name, head=BERLIN, tail=BONN)
        checks.true("its network", events.shown(2) is not None)
        first = events.until("pin")
        checks.same("its run", at.call("ask", head=BERLIN, tail=BONN)[0], 200)
        at.end_server()
        gone = state(events, lambda it: not it["there"])
        checks.true("the server goes", "the server has ended" in gone["words"] and abs(time.time() - gone["since"]) < PATIENCE, gone)
        status, found = at.call("ask", head=BERLIN, tail=BONN)
        checks.true("an ask then", status == 503 and "server" in found["refused"], (status, found))
        second = Events(at)
        checks.same("a page that opens then is told no network", second.until("network", seconds=0.5), None)
        at.version = 0
        at.begin_server(os.path.join(folder, "2.journal"), "--run", "2")
        out = circuit_of(before["links"][0])
        at.publish([row for row in PUTS if row not in out])
        for one in (events, second):
            found = one.shown(1)
            checks.same("the new run's network", (found["version"], len(found["rows"])), (1, len(PUTS) - 2))
        again = events.until("pin", lambda it: it["version"] == 1)
        checks.true("a pinned ask of the new run, whose history begins again",
                    again["pin"] == first["pin"] and len(again["history"]) <= 2 and again["history"][0]["links"] != first["links"]
                    or len(again["history"]) == 1, again)
        checks.same("versions of the run before aren't kept", at.call("at", version=2)[0], 404)
        network = network_without({tuple(row.split(",")[1:3]) for row in out})
        found = at.call("ask", head=BERLIN, tail=BONN, setup=3)[1]
        checks.same("an ask of the new run at the same version", (found["version"], found["cost"], found["hops"]),
                    (before["version"], *cost_of(network, BERLIN, BONN)))
        checks.same("its number", state(Events(at), lambda it: True)["run"], 2)
    finally:
        at.end()


def journals(program, checks, room):
    """A journal that isn't there, is torn, or is another server's: the page says so, asks go on, and it is followed once it is right."""
    path = os.path.join(room, "copied")
    at = Paged(program.path, room, journal=path)
    try:
        at.begin_server()
        at.publish(PUTS)
        at.begin_page()
        events = Events(at)
        found = state(events, lambda it: it["there"])
        checks.true("a journal that isn't there", not found["journal"] and "version 1 isn't there" in found["words"], found)
        status, found = at.call("ask", head=BERLIN, tail=BONN)
        checks.same("an ask is answered", (status, found["version"], found["links"], found["why"]), (200, 1, [], None))
        with open(at.journal, encoding="ascii") as file:
            whole = file.read()
        for name, text in (("bytes", bytes(range(256)) * 9), ("nothing", b""), ("torn", whole[:len(whole) // 2].encode()),
                           ("a wrong batch", whole.replace("end,1", "end,7").encode()),
                           ("one row too few", whole.partition("\n")[2].encode())):
            write(path, text)
            time.sleep(1.3)
            found = at.call("at", version=1)[0], at.figures()["routed_page_journal_followed", None]
            checks.same(f"a journal that is {name}", found, (404, 0))
        write(path, whole.encode())
        checks.same("once it is right", (state(events, lambda it: it["journal"])["words"], events.until("network")["version"]), ("", 1))
        write(path, re.sub(r"(?m)^(put,(?:[^,]*,){4})", r"\g<1>1", whole).encode())
        at.publish("")
        found = state(events, lambda it: not it["journal"])
        checks.true("it is replaced by another server's", "version 2 isn't there" in found["words"], found)
        with open(path, "a", encoding="ascii") as file:
            file.write("end,2,0\n")
        state(events, lambda it: it["journal"])
        at.call("ask", head=BERLIN, tail=BONN)
        found = state(events, lambda it: not it["journal"])
        checks.true("an answer shows that it isn't this server's", "isn't the journal of the server" in found["words"], found)
        write(path, whole.encode() + b"end,2,0\n")
        at.publish("")
        with open(path, "a", encoding="ascii") as file:
            file.write("end,3,0\n")
        eventually(checks, "and another answer that it is", lambda: (
            at.call("ask", head=BERLIN, tail=BONN)[0], at.figures()["routed_page_journal_followed", None]), (200, 1))
        checks.same("no exception was met", at.figures()["routed_page_exceptions_total", None], 0)
    finally:
        at.end()


def write(path, text):
    """Replaces a file, as programs do that write a new one."""
    with open(f"{path}.new", "wb") as file:
        file.write(text)
    os.replace(f"{path}.new", path)


def named(program, checks, room):
    """Names like markup, of 1,000 characters and in several scripts come as they are, in JSON alone."""
    path, groups = os.path.join(room, "names"), os.path.join(room, "groups")
    routers = sorted({row.split(",")[1] for row in PUTS})
    named_ = [name for name in MARKUP if name.isprintable()]
    with open(path, "w", encoding="utf-8") as file:
        file.writelines(f"{router} {name}\n" for router, name in zip(routers, named_))
    with open(groups, "w", encoding="utf-8") as file:
        file.write(f"3 {named_[0]}\n4 gold\n")
    with paged(program.path, GERMANY, "--names", path, "--groups", groups) as at:
        events = Events(at)
        hello = events.until("hello")
        checks.same("names as they are", (hello["names"], hello["groups"]),
                    (dict(zip(routers, (" ".join(name.split()) for name in named_))), {named_[0]: 3, "gold": 4}))
        checks.true("none is in the page", not any(name in at.get("/")[2] for name in named_ if name != "{{TOKEN}}"))
        at.publish(f"node,{routers[0]},0")
        checks.same("in words of a version", events.until("version")["words"], [f"router {named_[0]} without transit"])
        status, found = at.call("ask", head=named_[0], tail=named_[3], exclude=f"{named_[0]},gold")
        checks.same("an ask by such names", (status, found["form"]["head"], found["form"]["exclude"]), (200, routers[0], "0x18"))
        status, fields, text = at.get(f"/ask?token={at.token}&head=%3Cscript%3Ealert(1)&tail=%22")
        found = status, fields["Content-Type"], "<script>alert(1)" in json.loads(text)["refused"]
        checks.same("words that are refused come as JSON", found, (400, "application/json", True))


def slow(program, checks, room):
    """A browser that doesn't read holds up nobody, takes little memory, and is told the newest version once it reads."""
    rows = full_rows(random.Random(7))[:SLOW_LINKS]
    with paged(program.path, "\n".join(rows)) as at:
        reading, slow_one = Events(at), Events(at, 4096)
        reading.until("changes")
        before, waits = at.figures()["process_resident_memory_bytes", "front"], []
        for number in range(SLOW_VERSIONS):
            began = time.monotonic()
            at.publish([re.sub(r"(?:,\d+){8}$", f",{10**18 + number}" * 8, row) for row in rows])
            if reading.until("version") is None:
                break
            waits.append(time.monotonic() - began)
        checks.true("others are told each version", len(waits) == SLOW_VERSIONS and max(waits) < PATIENCE / 2, waits)
        checks.true("what waits for it is bounded", at.figures()["process_resident_memory_bytes", "front"] - before < MOST_MEMORY)
        told = []
        while (found := slow_one.next(2)) is not None:
            told.append(found)
        shown = [data["version"] for name, data in told if name in ("network", "version")]
        checks.true("it is told the newest at last", shown[-1] == at.version, (shown[-1], at.version))
        rows, version, is_broken = {}, 0, False
        for name, data in told:
            if name in ("network", "version"):
                is_broken = is_broken or name == "version" and data["version"] != version + 1
                rows = ({} if name == "network" else rows) | {tuple(row.split(",")[1:3]): row for row in data["rows"]}
                version = data["version"]
        checks.same("a version follows the one before it, or the whole network is told", is_broken, False)
        wanted = {tuple(row.split(",")[1:3]): row for row in at.call("at", version=at.version)[1]["rows"]}
        checks.same("its network is the newest", rows, wanted)
        skipped = at.figures()["routed_page_versions_skipped_total", None]
        checks.same("versions that it wasn't told", skipped, SLOW_VERSIONS + 1 - len(shown))
        checks.true("are some", len(shown) < SLOW_VERSIONS - 4, len(shown))
        for events in (reading, slow_one):
            events.close()


def nightly(program, checks, room):
    """A page that is open for long, and a browser that goes without a word."""
    with paged(program.path, GERMANY, tool=SPARSE) as at:
        events = Events(at)
        events.until("changes")
        events.socket.settimeout(5)
        found = b""
        while found.count(b"event: here\ndata: {}\n\n") < 5:
            found += events.socket.recv(1 << 16)
        signs = re.fullmatch(rb"(?:event: here\ndata: {}\n\n|event: picture\n.*\n\n)*", found)
        checks.true("signs of life alone while nothing happens", signs, found[:200])
        version = at.publish("")
        checks.same("and the next version", events.until("version")["version"], version)
        for way in (socket.SHUT_WR, socket.SHUT_RDWR):
            other = Events(at)
            other.until("changes")
            other.socket.shutdown(way)
            eventually(checks, f"one that ends its side ({way})", lambda: at.figures()["routed_page_open", None], 1)
        silent = [socket.create_connection(at.address) for _ in range(300)]
        checks.same("an ask beside 300 connections that send nothing", at.call("ask", head=BERLIN, tail=BONN)[0], 200)
        for one in silent:
            one.close()


def busy(program, checks, room):
    """A server that has no place for the page's asks."""
    at = Paged(program.path, room, listen=("--clients", "1"))
    try:
        at.begin_server()
        at.publish(PUTS)
        holder = Connection(at.ask)
        holder.talk("ask,1,1.1.1.1,2.2.2.2,7,0,0x0,0x0,0x0,\n")
        at.begin_page()
        events = Events(at)
        name = events.until("hello")["page"]
        found = state(events, lambda it: "busy" in it["words"])
        checks.true("busy: pages are told", found and found["there"] and found["journal"], found)
        status, found = at.call("ask", head=BERLIN, tail=BONN)
        checks.true("busy: an ask is refused in words", status == 503 and "place" in found["refused"], (status, found))
        at.call("pin", page=name, head=BERLIN, tail=BONN)
        version = at.publish("")
        checks.true("busy: versions go on", events.shown(version) is not None)
        holder.socket.close()
        checks.same("a pinned ask is asked by itself once a place is free", events.until("pin")["version"], version)
        checks.same("and pages are told", Events(at).until("server")["words"], "")
        checks.same("an ask then", at.call("ask", head=BERLIN, tail=BONN)[0], 200)
    finally:
        at.end()


def raised(program, checks, room):
    """An exception in the code of one request or of one page ends that alone, with a line and a figure."""
    with paged(program.path, GERMANY, tool=RAISING) as at:
        events, other = Events(at), Events(at)
        name = events.until("hello")["page"]
        events.until("changes")
        other.until("changes")
        checks.same("a request that raises reads nothing", at.exchange(
            f"GET /ask?token={at.token}&head={BERLIN}&tail={BONN}&setup=3 HTTP/1.1\r\nHost: localhost\r\n\r\n".encode()), "")
        checks.same("others are answered", at.call("ask", head=BERLIN, tail=BONN)[0], 200)
        at.call("pin", page=name, head=BERLIN, tail=BONN, setup=4)
        checks.same("a page that raises ends", events.until("pin", seconds=20), None)
        version = at.publish("")
        checks.same("others are told", other.shown(version)["version"], version)
        eventually(checks, "figures", lambda: (at.figures()["routed_page_exceptions_total", None], at.figures()["routed_page_open", None]),
                   (2, 1))
        at.child.terminate()
        said = at.child.communicate(timeout=PATIENCE)[1].decode()
        checks.same("the status after a signal", at.child.returncode, 0)
        lines = re.findall(r"(?m)^page: (a request to the page|a page): ended by an exception, (\w+) at ", said)
        checks.same("the lines of the log", lines, [("a request to the page", "ArithmeticError"), ("a page", "LookupError")])


class Held(threading.Thread):
    """A place of asks, which has the line of each of its `rows` and lets them go one by one."""

    def __init__(self, path, to):
        super().__init__(daemon=True)
        self.listener, self.to, self.go, self.rows = socket.socket(socket.AF_UNIX), to, threading.Semaphore(0), []
        self.listener.bind(path)
        self.listener.listen()
        self.start()

    def run(self):
        made, asking = self.listener.accept()[0], Connection(self.to)
        with contextlib.suppress(ConnectionError):
            while row := made.recv(1 << 16).decode():
                for one in row.splitlines():
                    line = asking.talk(f"{one}\n")
                    self.rows.append(one)
                    self.go.acquire()
                    made.sendall(line.encode())


def late(program, checks, room):
    """An answer that comes when the network has moved on is said to be stale; one that doesn't come is waited for five seconds."""
    at = Paged(program.path, room, ask=os.path.join(room, "held"))
    try:
        at.begin_server()
        at.publish(PUTS)
        held = Held(os.path.join(room, "held"), at.ask)
        at.begin_page()
        events, found = Events(at), []
        events.shown(1)
        asking = threading.Thread(target=lambda: found.append(at.call("ask", head=BERLIN, tail=BONN)))
        asking.start()
        end = time.monotonic() + PATIENCE
        while not held.rows and time.monotonic() < end:
            time.sleep(0.01)
        at.publish("node,192.168.0.3,0")
        events.shown(2)
        held.go.release()
        asking.join(PATIENCE)
        status, answer = found[0]
        told = status, answer["version"], answer["newest"], answer["stale"], answer["why"]
        checks.same("a stale answer", told, (200, 1, 2, True, None))
        held.go.release()
        answer = at.call("ask", head=BERLIN, tail=BONN)[1]
        checks.same("asked again", (answer["version"], answer["stale"], answer["why"] is not None), (2, False, True))
        checks.same("equal asks are one row", (at.call("ask", head=BERLIN, tail=BONN)[1]["row"], len(held.rows)), (answer["row"], 2))
        began = time.monotonic()
        status, answer = at.call("ask", head=BONN, tail=BERLIN)
        checks.true("an answer that doesn't come", status == 503 and "answer" in answer["refused"], (status, answer))
        checks.true("is waited for five seconds", 4 < time.monotonic() - began < PATIENCE)
    finally:
        at.end()


def pinned_late(program, checks, room):
    """A pinned ask whose answer comes when the network has moved on is asked again."""
    at = Paged(program.path, room, ask=os.path.join(room, "held"))
    try:
        at.begin_server()
        at.publish(PUTS)
        held = Held(os.path.join(room, "held"), at.ask)
        at.begin_page()
        events = Events(at)
        name = events.until("hello")["page"]
        events.shown(1)
        at.call("pin", page=name, head=BERLIN, tail=BONN)
        end = time.monotonic() + PATIENCE
        while not held.rows and time.monotonic() < end:
            time.sleep(0.01)
        at.publish("node,192.168.0.3,0")
        events.shown(2)
        time.sleep(2 * APART)  # the ask of version 2 joins the row that is under way
        held.go.release()
        held.go.release()
        found = events.until("pin")
        checks.same("a pinned ask that is answered late", (found["version"], found["stale"]), (1, True))
        checks.true("is asked again", events.until("pin", lambda it: it["version"] == 2))
        checks.same("once", len(held.rows), 2)
    finally:
        at.end()


bad_input = raised, late, pinned_late, restarted, journals, named, slow, nightly, busy
