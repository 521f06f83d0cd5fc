"""A session's front whose LSPs a book counts: the place of `listen --placements` and the server behind it are played by
tests/reference/books.py."""
import copy
import os
import struct
import tempfile
import types

from pcep.played import CIRCUITS, Front, Pcc, reply, report, request, rows, told
from reference import books, runs
from reference.formats import address_text

from routed.model.rows import row_of
from routed.pcep import wire
from routed.pcep.displaced import Displaced
from routed.pcep.session import UP, Session
from routed.pcep.sids import Sids

FULL = 125_000_000  # bytes per second of each circuit
NORTH, SOUTH = ["10.0.0.2", "10.0.0.4"], ["10.0.0.3", "10.0.0.4"]  # the routers of the two ways from 1 to 4


class Server:
    """A book, its journal, and the connection that places, which is a stream and the place that it is connected to, too."""

    is_made, is_ended, fault, unread = True, False, None, b""

    def __init__(self, journal):
        self.book, self.journal, self.changes = books.Book(), journal, []
        self.sent, self.lines_, self.rows, self.is_held, self.is_busy = b"", [], [], False, False
        self.fields = {}  # of rows that place, by their ids
        self.refusing = {}  # by kinds of rows: the words by which they are refused; "unread" is memory before the fields are read
        self.over = []  # versions at which a link has less than is counted, with no line that says so
        self.front = None

    # what the front does with its place and stream

    def begin(self, loop):
        self.loop, self.is_ended, self.lines_, self.sent = loop, False, [], b""
        return self

    def give(self, owner, call):
        self.call = call

    def wait(self, *_):
        pass

    def flush(self):
        pass

    def close(self):
        self.is_ended = True

    def write(self, data):
        self.sent += data

    def lines(self):
        lines, self.lines_ = self.lines_, []
        return [line.encode() for line in lines]

    # what the server does

    def go_on(self):
        """Answers all that was sent."""
        while (self.sent or self.lines_) and not self.is_held:
            rows, self.sent = self.sent.decode().splitlines(), b""
            for row in rows:
                self.answer(row)
            self.call(1)

    def hang_up(self):
        self.is_ended = True
        self.call(1)

    def answer(self, row):
        self.rows.append(row)
        kind, *fields = row.split(",")
        if kind in ("place", "held"):
            self.fields[int(fields[0])] = ",".join(fields[1:9])
        if row == "book":
            self.lines_ += ["busy"] if self.is_busy else [f"version {self.book.version}", *self.text(), "book end"]
        elif self.refusing.get(kind) == "unread":
            self.lines_.append(f"row {len(self.rows)} refused: memory")
        elif kind in self.refusing:
            self.lines_.append(f"{kind} {row.split(',')[1]} refused: {self.refusing[kind]}")
        else:
            self.lines_ += self.take([row])

    def text(self):
        for link in self.book.base.links.values():
            yield runs.batch_text(1, [("put", link)]).splitlines()[0]
        yield f"end,1,{len(self.book.base.links)}"
        for it in self.book.placements:
            route = "".join(f"{link['local']:08x}{link['to']:08x}" for link in it.route)
            yield f"held,{it.request['id']},{self.fields[it.request['id']]},{route}"

    def base(self, *rows):
        """A batch of the base, whose lines are news."""
        self.lines_ += self.take([*rows, f"end,{self.book.batches + 1},{len(rows)}"])
        self.front.told(self.book.version)
        self.front.go_on_all()

    def take(self, rows):
        found, before = [], copy.copy(self.book)
        for step in books.walked("".join(f"{row}\n" for row in rows), book=self.book):
            self.book = step.book
            found += step.lines
        if self.book.version > before.version:
            self.publish(before)
            self.judge(found)
        return found

    def publish(self, before):
        old, new = (books.effective(one.base, one.placements) for one in (before, self.book))
        changes = [("put", link) for key, link in new.links.items() if old.links.get(key) != link]
        changes += [("drop", {"from": key[0], "local": key[1]}) for key in old.links if key not in new.links]
        changes += [("node", {"router": it, "transit": it in old.marks}) for it in old.marks ^ new.marks]
        with open(self.journal, "a") as file:
            file.write(runs.batch_text(self.book.version, changes))

    def judge(self, lines):
        """Whether a link carries more than it has without a line that says so."""
        said = {line.split(" ")[1] for line in lines if line.startswith("over ")}
        for key, sums in books.counted(self.book.placements).items():
            link = self.book.base.links.get(key)
            if link and any(more > has for has, more in zip(link["free"], sums)):
                name = books.key_text(link)
                if name not in said and name not in self.crowded:
                    self.over.append((self.book.version, name))
        self.crowded = {books.key_text(link) for key, link in self.book.base.links.items()
                        if any(more > has for has, more in zip(link["free"], books.counted(self.book.placements).get(key, [0] * 8)))}

    crowded = frozenset()

    def routes(self):
        """The far routers of each placement, by its id."""
        return {it.request["id"]: [address_text(link["to"]) for link in it.route] for it in self.book.placements}

    def sums(self):
        """What is counted at the last priority, by the ends of links."""
        return {(address_text(key[0])[-1], address_text(self.book.base.links[key]["to"])[-1]): sums[7]
                for key, sums in books.counted(self.book.placements).items() if key in self.book.base.links}


class Loop:
    """Time goes on where the test says so."""

    def __init__(self, front):
        self.front, self.selector = front, None

    def of(self, owner):
        return self

    def after(self, seconds, call, owner=None):
        self.front.laters.append((self.front.time + seconds, call))

    def call(self, owner, call, *given):
        return call(*given)


class CountedFront(Front):
    """A front beside a book."""

    def __init__(self, folder, circuits, **options):
        path = os.path.join(folder, "sids")
        with open(path, "w") as file:
            for a, b, _ in circuits:
                for near, far in ((a, b), (b, a)):
                    file.write(f"sid,0,10.0.0.{near},10.{a}.{b}.{near},{15000 + 10 * near + far}\n")
        super().__init__(folder, Sids(path), **options)
        self.loop, self.pccs, self.server = Loop(self), {}, Server(self.journal)
        self.server.front = self
        self.displaced = Displaced(self, self.server)
        self.placements = self.displaced.book
        self.placements.connect()
        self.server.go_on()

    def told(self, version):
        is_first, self.version = not self.version, version
        self.again(Session.again if is_first else Session.again_beside)

    def again(self, again=Session.again):
        for one in [*self.pccs.values()]:
            if one.session.state == UP:
                again(one.session)

    def countings(self):
        return [one.session.lsps.counting for one in self.pccs.values() if one.session.state == UP]

    def ask(self, row, call, owner=None):
        network = books.effective(self.server.book.base, self.server.book.placements)
        self.asked.append(row)
        call(reply(network, self.server.book.version, row_of(1, row)))

    def join(self, number=1, **more):
        """A PCC of router 1, or of another one, whose session is up."""
        pcc = CountedPcc(self, peer=f"10.0.0.{number}", **more)
        self.pccs[pcc.session.peer] = types.SimpleNamespace(session=pcc.session, peer=pcc.session.peer, pcc=pcc)
        return pcc

    def go_on_all(self):
        """The server answers all rows, and the PCCs take all updates."""
        self.server.go_on()
        for one in [*self.pccs.values()]:
            one.pcc.obey()

    def pass_time(self, seconds):
        """Lets seconds pass, with all that is called in them."""
        for _ in range(seconds):
            self.time += 1
            due = [call for at, call in self.laters if at <= self.time]
            self.laters = [(at, call) for at, call in self.laters if at > self.time]
            for call in due:
                call()
            for one in [*self.pccs.values()]:
                if one.session.state == UP:
                    one.session.heard_at = self.time
                    one.session.tick(self.time)
            self.placements.tick(self.time)
            self.go_on_all()


class CountedPcc(Pcc):
    """A PCC of LSPs by segment routing that takes each update, and reports it."""

    def __init__(self, front, **more):
        super().__init__(front, **more)
        self.lsps = {}  # by PLSP-IDs: name, route and what else its reports have
        self.is_obeying = True
        self.told_ = []  # what it was told

    def have(self, number, name, hops=None, amount=0, flags=9, more=(), ends=None):
        """Reports an LSP by its routers, or one that has no path."""
        self.lsps[number] = {"name": name.encode(), "ero": ero_of(hops) if hops else b"", "flags": flags, "ends": ends,
                             "more": [*more, *([wire.pack(wire.O_BANDWIDTH, struct.pack("!f", amount))] if amount else [])]}
        self.tell(number)

    def tell(self, number, srp=0):
        it = self.lsps[number]
        ends = it["ends"] or (self.router, 4)
        self.say(wire.message(10, *report(number, it["flags"], it["ero"], it["name"], srp, 1, it["more"], ends=ends)))
        self.front.server.go_on()
        self.obey()

    @property
    def router(self):
        return int(self.session.peer.rpartition(".")[2])

    def end_sync(self):
        self.say(wire.message(10, *report(0, 0, setup_type=1)))
        self.front.server.go_on()
        self.obey()

    def remove(self, number):
        it = self.lsps.pop(number)
        self.say(wire.message(10, *report(number, 13, b"", it["name"], 0, 1)))
        self.front.server.go_on()
        self.obey()

    def ask_for(self):
        """What a request for a path by segment routing is answered by."""
        self.say(request(setup_type=1))
        return [told(*one) for one in self.messages()][0]

    def obey(self):
        """Takes the updates that have come, until none comes."""
        while messages := self.messages():
            for kind, objects in messages:
                of = {one.kind: one.body for one in objects}
                if kind == wire.UPDATE:
                    number, srp = int.from_bytes(of[32][:4], "big") >> 12, int.from_bytes(of[33][4:8], "big")
                    self.told_.append((number, routers_of(of[7])))
                    if self.is_obeying and of[32][3] & 1 and number in self.lsps:
                        self.lsps[number]["ero"] = of[7]
                        self.tell(number, srp)
                elif kind == wire.INITIATE:
                    self.told_.append(("make", routers_of(of.get(7, b""))))
                    self.initiated = objects
            self.front.server.go_on()


def ero_of(hops):
    """An ERO of prefixes by the routers of a path, whose circuits the test's network has."""
    pairs = [(int(a), int(b)) for a, b in zip(hops, hops[1:])]
    return wire.addresses_ero([f"10.{min(pair)}.{max(pair)}.{pair[1]}" for pair in pairs])[4:]


def routers_of(ero):
    return "".join(hop.far[-1] for hop in wire.hops_of(ero))


def begun(room, circuits=CIRCUITS, **options):
    front = CountedFront(tempfile.mkdtemp(dir=room), circuits, **options)
    front.server.base(*rows(circuits))
    return front


def with_lsps(room, *lsps, **options):
    """A front, and a PCC that has reported LSPs from 1 on: of each its name, its routers and its bandwidth."""
    front = begun(room, **options)
    pcc = front.join()
    for number, lsp in enumerate(lsps, 1):
        pcc.have(number, *lsp)
    pcc.end_sync()
    return front, pcc


def said(front, word):
    return [text for text in front.said if word in text]


def amounts(front):
    """The bandwidths of placements."""
    return sorted(it.request["bandwidth"] for it in front.server.book.placements)


def kinds(front, since=0):
    """The kinds of the rows that were sent."""
    return [row.partition(",")[0] for row in front.server.rows[since:]]
