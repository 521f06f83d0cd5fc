"""Many LSPs, and versions that move them: the PCUpds of 64 PCCs, of which one refuses everything, one answers in other words, and one is
silent. Sessions are real, their sockets and their clock aren't, and the built program answers the asks.

`tests/storms` has more of both, and the memory of a long run."""
import argparse
import collections
import gc
import os
import random
import socket
import struct
import time

from pcep.delegated import cost_of
from pcep.played import FREE, Front, Pcc, UP
from reference import formats

from routed.model.rows import Reply
from routed.pcep import wire
from routed.pcep.lsp import ANSWER, WAITS
from routed.pcep.wire import pack, tlv
from routed.program import BUILT

SIDE = 8  # routers of a row: each of the torus has a PCC
ROUTERS, SECONDS = SIDE * SIDE, 5  # from one version to the next
REFUSES, WORDS, SILENT = 1, 2, 3  # the PCCs that aren't as others
MOST_ROUNDS = 20  # of PCUpds and their answers, at one time
KINDS = [(0, 0), (1000, 0), (0, 1), (500, 2)]  # bandwidths and excluded groups of LSPs


def name(router):
    return f"10.0.0.{router}"


class Torus:
    """A network of circuits that come and go, and its links as rows."""

    def __init__(self, draw):
        self.draw, self.costs, self.gone = draw, {}, set()
        for at in range(ROUTERS):
            row, column = divmod(at, SIDE)
            for other in (row * SIDE + (column + 1) % SIDE, (row + 1) % SIDE * SIDE + column):
                self.costs[tuple(sorted((at + 1, other + 1)))] = draw.randrange(1, 100)

    def links(self, pair):
        (a, b), group = pair, 1 << self.costs[pair] % 3
        free = FREE if self.costs[pair] % 4 else ",".join(["700"] * 8)
        for near, far in ((a, b), (b, a)):
            yield f"put,{name(near)},10.{a}.{b}.{near},{name(far)},10.{a}.{b}.{far},{self.costs[pair]},0x{group:x},{free}"

    def rows(self):
        return [row for pair in self.costs if pair not in self.gone for row in self.links(pair)]

    def change(self):
        """The rows of the next batch."""
        found = []
        for pair in self.draw.sample(sorted(self.costs), 4):
            if pair in self.gone:
                self.gone.remove(pair)
                found += self.links(pair)
            elif self.draw.random() < 0.6 and len(self.gone) < ROUTERS // 4:
                self.gone.add(pair)
                a, b = pair
                found += [f"drop,{name(near)},10.{a}.{b}.{near}" for near in pair]
            else:
                self.costs[pair] = self.draw.randrange(1, 100)
                found += self.links(pair)
        return found


class Answering(Front):
    """The front, whose asks the program answers, all of a version at once."""

    def __init__(self, folder, program, keeps_lines=True, **options):
        super().__init__(folder, **options)
        self.program, self.rows, self.lines, self.keeps_lines = program, {}, {}, keeps_lines

    def say(self, level, text):
        if self.keeps_lines:
            self.said.append(text)

    def claims(self, peer, head, name):
        return True

    def ask(self, row, call, owner=None):
        call(self.lines[self.rows.setdefault(row, len(self.rows))])

    def begin(self, network, changes):
        """A version of the network, and the answers to all rows that are asked."""
        self.version += 1
        with open(self.journal, "a") as file:
            file.write("".join(f"{row}\n" for row in changes) + f"end,{self.version},{len(changes)}\n")
        text = "".join(f"{row}\n" for row in network) + f"end,1,{len(network)}\n"
        _, lines, _ = self.program.solve(text + "".join(f"ask,{number},{row}\n" for row, number in self.rows.items()))
        words = f" v{self.version} "
        self.lines = [line.replace(" v1 ", words, 1) for line in lines.decode().splitlines()[1:]]


class Lsp:
    """An LSP as its PCC has it, and what the test counts of it."""

    def __init__(self, number, router, tail, kind):
        self.number, self.router, self.tail, self.kind = number, router, tail, kind
        self.has, self.count, self.allowed = (), 0, 0  # its route; PCUpds that came, and that may come
        self.best, self.since, self.tries, self.was_lost = None, 0.0, 0, False

    def row(self):
        bandwidth, exclude = KINDS[self.kind]
        return f"{name(self.router)},{name(self.tail)},7,{bandwidth},0x{exclude:08x},0x00000000,0x00000000,"

    def report(self, ero, srp=0):
        bandwidth, exclude = KINDS[self.kind]
        tlvs = tlv(17, f"lsp-{self.router}-{self.number}".encode())
        tlvs += tlv(18, socket.inet_aton(name(self.router)) + bytes(8) + socket.inet_aton(name(self.tail)))
        return [*([pack(33, struct.pack("!II", 0, srp))] if srp else []),
                pack(32, struct.pack("!I", self.number << 12 | 9 | UP << 4) + tlvs), pack(7, ero),
                pack(9, struct.pack("!IIIBBxx", exclude, 0, 0, 7, 7)), pack(5, struct.pack("!f", bandwidth))]

    def judge(self, best, is_kept_lost, now):
        """Counts how many PCUpds may have come by now: one where its best route changes, or the kept one is lost; after silence one
        after each wait."""
        if best != self.best:
            self.allowed, self.since, self.tries = self.allowed + (best is not None), now, 0
        elif is_kept_lost and not self.was_lost:
            self.allowed, self.since, self.tries = self.allowed + 1, now, 0
        self.best, self.was_lost = best, is_kept_lost

    def wait(self, now):
        """A PCC that doesn't answer is asked again."""
        while self.best is not None and now >= self.since + WAITS[min(self.tries, len(WAITS) - 1)]:
            self.since, self.tries, self.allowed = self.since + WAITS[min(self.tries, len(WAITS) - 1)], self.tries + 1, self.allowed + 1


class Storm:
    """All of it."""

    def __init__(self, program, folder, lsps, seed=7, keeps_lines=True):
        self.draw = random.Random(seed)
        self.torus, self.front = Torus(self.draw), Answering(folder, program, keeps_lines)
        self.front.begin([], [])
        self.lsps = {router: {} for router in range(1, ROUTERS + 1)}
        for at in range(lsps):
            router = at % ROUTERS + 1
            tail = self.draw.choice([other for other in range(1, ROUTERS + 1) if other != router])
            number = len(self.lsps[router]) + 1
            self.lsps[router][number] = Lsp(number, router, tail, at % len(KINDS))
        for lsp in self.all():
            self.front.rows.setdefault(lsp.row(), len(self.front.rows))
        self.front.begin(self.torus.rows(), self.torus.rows())
        self.pccs = {router: Pcc(self.front, is_sr=False, peer=name(router)) for router in self.lsps}
        for router, pcc in self.pccs.items():
            for lsp in self.lsps[router].values():
                lsp.has = self.best_of(lsp) or ()
                lsp.best = lsp.has or None
                pcc.say(wire.message(10, *lsp.report(wire.addresses_ero(lsp.has)[4:])))
            pcc.say(wire.message(10, pack(32, bytes(4)), pack(7, b"")))
        self.settle()

    def all(self):
        return (lsp for lsps in self.lsps.values() for lsp in lsps.values())

    def best_of(self, lsp):
        answer = Reply.parse(self.front.lines[self.front.rows[lsp.row()]])
        return None if answer.why else answer.fars

    def settle(self):
        """Each PCC answers what it is sent, until nothing more comes."""
        for _ in range(MOST_ROUNDS):
            if not any([self.answer(router, pcc) for router, pcc in self.pccs.items() if pcc.out]):
                return
        raise AssertionError(f"PCUpds come without end: {sum(lsp.count for lsp in self.all())} by now")

    def answer(self, router, pcc):
        for kind, objects in pcc.messages():
            if kind != wire.UPDATE:
                continue
            of = {one.kind: one.body for one in objects}
            lsp, srp = self.lsps[router][struct.unpack("!I", of[32][:4])[0] >> 12], struct.unpack("!4xI", of[33][:8])[0]
            lsp.count += 1
            if router == REFUSES:
                old = wire.addresses_ero(lsp.has)[4:]
                pcc.say(wire.message(10, *lsp.report(old, srp)) if lsp.number % 2 else wire.error(24, 2, pack(33, of[33])))
            elif router != SILENT:
                lsp.has = tuple(hop.far for hop in wire.hops_of(of[7]))
                pcc.say(wire.message(10, *lsp.report(of[7] if router != WORDS else in_words(lsp), srp)))
        return True

    def go_on(self):
        """The next version, and some seconds."""
        changes = self.torus.change()
        self.front.begin(self.torus.rows(), changes)
        network = self.network()
        for router in (REFUSES, SILENT):
            for lsp in self.lsps[router].values():
                is_lost = bool(lsp.has) and cost_of(network, asked(lsp), lsp.has) is None
                lsp.judge(self.best_of(lsp), is_lost, self.front.time)
        for router, lsps in self.lsps.items():
            if router not in (REFUSES, SILENT):
                for lsp in lsps.values():
                    best = self.best_of(lsp)
                    lsp.allowed, lsp.best = lsp.allowed + (best is not None and best != lsp.best), best
        for pcc in self.pccs.values():
            pcc.session.again()
        self.settle()
        self.rest(SECONDS)

    def rest(self, seconds):
        for _ in range(seconds):
            self.front.go_on(1)
            for pcc in self.pccs.values():
                pcc.say(wire.message(wire.KEEPALIVE))
                pcc.session.tick(self.front.time)
            self.settle()
        for lsp in self.lsps[SILENT].values():
            lsp.wait(self.front.time)

    def network(self):
        """The network by the reference."""
        found = {}
        for fields in map(str.split, self.torus.rows(), [","] * len(self.torus.rows())):
            key, link = formats.Network().after([formats.row(fields)]).links.popitem()
            found[key] = link
        return formats.Network(found)


def asked(lsp):
    return formats.row(f"ask,1,{lsp.row()}".split(","))[1]


def in_words(lsp):
    """The route with its own loopback, and both ends of each circuit."""
    found, at = [name(lsp.router)], str(lsp.router)
    for far in lsp.has:
        _, a, b, there = far.split(".")
        found += [f"10.{a}.{b}.{at}", far]
        at = there
    return wire.addresses_ero(found)[4:]


def storm(program, checks, room, lsps=2000, versions=30):
    """No more PCUpds than there have to be, and no LSP on a route that can't be used without a figure and a line."""
    began = time.process_time()
    all_of = Storm(program, room, lsps)
    checks.same("a storm: nothing is sent where each LSP has its route", sum(lsp.count for lsp in all_of.all()), 0)
    for _ in range(versions):
        all_of.go_on()
    all_of.rest(ANSWER + 1)
    for kind, routers in (("refuses", [REFUSES]), ("answers in other words", [WORDS]), ("is silent", [SILENT]),
                          ("is as others", [router for router in all_of.lsps if router > SILENT])):
        own = [lsp for router in routers for lsp in all_of.lsps[router].values()]
        checks.same(f"a storm: PCUpds that a PCC which {kind} shouldn't have had",
                    [(lsp.router, lsp.number, lsp.count, lsp.allowed) for lsp in own if lsp.count > lsp.allowed][:3], [])
        checks.true(f"a storm: PCUpds that a PCC which {kind} has had", sum(lsp.count for lsp in own) >= len(own) // 4,
                    sum(lsp.count for lsp in own))
    network, said, unsaid, faults, lost = all_of.network(), set(), [], collections.Counter(), 0
    for line in all_of.front.said:
        if any(word in line for word in ("has no route", "refused the update", "answered no update", "may not be used")):
            said.update(line.split("'")[1:2])
    for lsp in all_of.all():
        one = all_of.pccs[lsp.router].session.lsps.all[lsp.number]
        faults.update(one.faults())
        if lsp.has and cost_of(network, asked(lsp), lsp.has) is None:
            lost += 1
            if not (one.is_lost or "lost" in one.faults() or "silent" in one.faults()) or one.name not in said:
                unsaid.append((one.name, one.faults()))
            if lsp.router not in (REFUSES, SILENT) and not one.is_lost:
                checks.fail(f"a storm: {one.name} of an honest PCC is on a route that may not be used")
    checks.same("a storm: LSPs on routes that may not be used, without a figure or a line", unsaid[:3], [])
    checks.true("a storm: there are such LSPs", lost > 0 and faults["refused"] and faults["silent"], (lost, faults))
    checks.same("a storm: timers of the loop", len(all_of.front.laters), 0)
    count = sum(lsp.count for lsp in all_of.all())
    print(f"pcep: {lsps} LSPs, {versions} versions, {count} PCUpds, {lost} LSPs on lost routes, {time.process_time() - began:.0f} s")


def memory(program, room, lsps, first, last):
    """The bytes of this process after the first versions, and after the last."""
    all_of, found = Storm(program, room, lsps, keeps_lines=False), []
    for number in range(1, last + 1):
        all_of.go_on()
        if number in (first, last):
            gc.collect()
            with open("/proc/self/statm", encoding="ascii") as file:
                found.append(int(file.read().split()[1]) * os.sysconf("SC_PAGE_SIZE"))
            print(f"after {number} versions: {found[-1] >> 10} KiB", flush=True)
    return found


def main():
    words = argparse.ArgumentParser(description=__doc__)
    words.add_argument("--program", default=BUILT, metavar="FILE", help="the built program")
    words.add_argument("--lsps", type=int, default=20000, metavar="N")
    words.add_argument("--versions", type=int, default=300, metavar="N")
    words.add_argument("--memory", type=int, metavar="N", help="the memory of N versions in place of all this, against that of --versions")
    return words.parse_args()
