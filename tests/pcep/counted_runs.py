"""LSPs that a book counts, beside `routed-tools listen --placements` and the built program."""
import os
import re
import select
import struct
import subprocess
import time

from pcep.beside import Client, Run, wait
from pcep.book_front import FULL, ero_of, routers_of
from pcep.played import CIRCUITS, report, request, rows, told
from program.serving import PATIENCE
from reference import books

from routed.pcep import wire
from routed.pcep.wire import pack, tlv

NORTH, SOUTH = "24", "34"


class Counting(Run):
    """The front of placements, and `routed-tools pcep` that counts there."""

    def __init__(self, program, room, *words, listen=()):
        self.sids, self.number = os.path.join(room, "sids"), 0
        self.place = os.path.join(room, "place")
        super().__init__(program, room, "--placements", self.place, "--sids", self.sids, "--log-level", "info", *words, listen=listen)

    def serve(self):
        """Begins the server, with the book of the one before."""
        self.number += 1
        with open(self.sids, "a") as file:
            file.write(f"run,{self.number}\n")
            for a, b, _ in CIRCUITS:
                for near, far in ((a, b), (b, a)):
                    file.write(f"sid,0,10.0.0.{near},10.{a}.{b}.{near},{15000 + 10 * near + far}\n")
        begin = os.path.join(self.room, f"{self.number}.begin")
        if self.number > 1:
            os.unlink(self.places["journal"])
            with open(begin, "wb") as file:
                text = b"".join(open(path, "rb").read() for path in self.texts())
                file.write(subprocess.run([self.program, "book", "--compact", "--accept-torn"], input=text, capture_output=True).stdout)
        begun = ("--begin", begin) if self.number > 1 else ()
        listen, self.listen = self.words, None
        self.words = (*listen, "--placements", self.place, "--keep", os.path.join(self.room, f"{self.number}.kept"), "--run",
                      str(self.number), *begun)
        super().serve()
        self.words = listen

    def texts(self):
        """The beginning of the last run, and what it kept."""
        last = self.number - 1
        return [path for path in (os.path.join(self.room, f"{last}.{kind}") for kind in ("begin", "kept")) if os.path.exists(path)]

    def base(self, *changes):
        """A batch of the base; its lines."""
        said = self.publish(*changes).decode()
        while "base " not in said and "refused" not in said:
            said += self.updates.recv(65536).decode()
        return said

    def book(self):
        """The book by the rows that were kept: its placements."""
        self.number += 1
        text = "".join(open(path).read() for path in self.texts())
        self.number -= 1
        found, self.over = books.Book(), []
        for step in books.walked(text[:text.rfind("\n") + 1]):
            found = step.book
            for key, sums in books.counted(found.placements).items():
                link = found.base.links.get(key)
                if link and sums[7] > link["free"][7]:
                    self.over.append((found.version, books.key_text(link), sums[7]))
        return found

    def routes(self):
        return sorted("".join(str(link["to"] & 255) for link in it.route) for it in self.book().placements)


class Head(Client):
    """A PCC of LSPs by segment routing that takes each update."""

    def __init__(self, port, source="127.0.1.1", router=1):
        super().__init__(port, source)
        self.router, self.lsps, self.told, self.made, self.unread = router, {}, [], [], b""
        types = tlv(34, bytes([0, 0, 0, 2, 0, 1, 0, 0]) + tlv(26, bytes([0, 0, 0, 4])))
        self.socket.sendall(wire.message(1, pack(1, bytes([0x20, 30, 120, 9]) + types + tlv(16, struct.pack("!I", 5)))) + wire.message(2))
        self.opened = [self.read() for _ in range(2)]

    def have(self, number, name, hops=None, amount=0.0, flags=9):
        self.lsps[number] = [name.encode(), ero_of(hops) if hops else b"", amount, flags]
        self.tell(number)

    def tell(self, number, srp=0):
        name, ero, amount, flags = self.lsps[number]
        more = [pack(5, struct.pack("!f", amount))] if amount else []
        self.socket.sendall(wire.message(10, *report(number, flags, ero, name, srp, 1, more, ends=(self.router, 4))))

    def end_sync(self):
        self.socket.sendall(wire.message(10, *report(0, 0, setup_type=1)))

    def remove(self, number):
        name = self.lsps.pop(number)[0]
        self.socket.sendall(wire.message(10, *report(number, 13, b"", name, 0, 1)))

    def obey(self, seconds=0.3):
        """Takes updates until none comes for so long."""
        while select.select([self.socket], [], [], seconds)[0]:
            data = self.socket.recv(65536)
            if not data:
                return False
            messages, self.unread = wire.cut(self.unread + data)
            for kind, body in messages:
                of = {one.kind: one.body for one in wire.objects_of(body)}
                if kind == wire.UPDATE:
                    number, srp = struct.unpack("!I", of[32][:4])[0] >> 12, struct.unpack("!I", of[33][4:8])[0]
                    self.told.append((number, routers_of(of[7])))
                    if of[32][3] & 1 and number in self.lsps:
                        self.lsps[number][1] = of[7]
                        self.tell(number, srp)
                elif kind == wire.INITIATE:
                    self.made.append(of)
                elif kind == wire.REPLY:
                    self.told.append(told(kind, wire.objects_of(body)))
        return True

    def until(self, test):
        """Takes updates until this is so."""
        end = time.monotonic() + PATIENCE
        while not test() and time.monotonic() < end:
            self.obey(0.05)
        self.obey(0.1)


def counts(program, checks, room):
    """Three LSPs, a circuit that fails and comes back, a server that begins again, and a session that does."""
    with Counting(program.path, room) as run:
        checks.same("the first base", run.base(*rows()), "base 1 v1\n")
        head = Head(run.port)
        for number, (name, amount) in enumerate((("a", 1e6), ("b", 1e8), ("c", 1e8)), 1):
            head.have(number, name, "124", amount)
        head.end_sync()
        head.until(lambda: run.routes() == [NORTH, NORTH, SOUTH])
        checks.same("three LSPs take two ways", (run.routes(), [route for _, route in head.told]), ([NORTH, NORTH, SOUTH], [SOUTH]))
        checks.same("over no longer than they were reported so", [it for it in run.over if it[2] > FULL and it[0] > 6], [])
        head.have(4, "d", None, 1e8)
        head.until(lambda: "is uncounted" in run.said())
        checks.same("a fourth is uncounted", run.said().count("(4) is uncounted: none"), 1)
        head.socket.sendall(request(pack(5, struct.pack("!f", 1e8), must=True), setup_type=1))
        head.until(lambda: "NO-PATH 0" in head.told)
        checks.same("a request for more than what is left", head.told[-1], "NO-PATH 0")
        head.remove(3)
        head.until(lambda: (4, SOUTH) in head.told)
        checks.same("a removal makes room for it", run.routes(), [NORTH, NORTH, SOUTH])
        said = run.base("drop,10.0.0.2,10.2.4.2")
        checks.same("a circuit fails", re.sub("[0-9]{4,}", "ID", said).split("\n")[:2], ["lost ID", "lost ID"])
        head.until(lambda: (1, SOUTH) in head.told)
        checks.same("one has room elsewhere", run.routes(), [NORTH, SOUTH, SOUTH])
        run.base(*(row for row in rows() if row.startswith("put,10.0.0.2,10.2.4.2")))
        head.until(lambda: run.routes() == [NORTH, NORTH, SOUTH])
        checks.same("the circuit is back", run.routes(), [NORTH, NORTH, SOUTH])
        before = {it.request["id"] for it in run.book().placements}
        run.leave()
        wait(lambda: "the place of --placements" in run.said())
        run.serve()
        run.version = 0
        head.obey()
        wait(lambda: run.said().count("the book has 3 placements") > 0)
        checks.same("a server that begins again has the same book", {it.request["id"] for it in run.book().placements}, before)
        head.close()
        wait(lambda: "the session ends" in run.said())
        head = Head(run.port)
        head.have(9, "b", "124", 1e8)
        head.end_sync()
        head.until(lambda: run.routes() == [NORTH])
        checks.same("a session that begins again, and reports one LSP alone", run.routes(), [NORTH])
        checks.true("figures", {"lsps_uncounted": 0.0, "placements_connected": 1.0}.items() <= run.figures().items(), run.figures())
        checks.same("SIGTERM ends it", run.end(), 0)
        checks.true("no exception", "Error" not in run.said() and "exception" not in run.said(), run.said())
