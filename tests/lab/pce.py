"""The chain of the lab with a PCE: beside router 5 the feed, listen and pcep, and at router 1 `pathd`, which asks for its LSPs and
delegates them. What these two say is read off the wire. All times are of one clock."""
import os
import signal
import struct
import subprocess
import threading
import time

from checks import TOOLS
from lab import chain
from lab.chain import OWNERS, Chain, Fault
from lab.routers import HEAD, LSPS, MADE, PCE, ROOM, TAIL, router_id, within

from routed.pcep import wire

GROUP = "31"  # the administrative group of links that have a SID
DELEGATED, REMOVED = 1, 4  # flags of an LSP that is reported


def path_of(ero):
    """The routers of an ERO; none where it is empty."""
    hops = wire.hops_of(ero)
    return [HEAD, *(OWNERS.get(hop and hop.far) for hop in hops)] if hops else []


def lsps_of(objects):
    """The number, the flags and the ERO of each LSP of a report or an update."""
    number = flags = 0
    for one in objects:
        if one.kind == wire.O_LSP:
            word, = struct.unpack_from("!I", one.body)
            number, flags = word >> 12, word & 0xfff
        elif one.kind == wire.O_ERO and number:
            yield number, flags, one.body


class PceChain(Chain):
    PARTS = "all", "OSPF", "feed", "PCE", "pathd"

    def __init__(self, program, collect, folder):
        self.journal, self.sids, self.replies, lines, capture = (os.path.join(folder, f"lab.{kind}")
                                                                 for kind in ("journal", "sids", "replies", "messages", "pcap"))
        self.begin(PCE)
        self.batches = self.versions
        self.lsps = {}  # by number: whether it is delegated, its path, and since when
        self.updates, self.removed_at = [], 0.0  # when each PCUpd or PCInitiate was sent, and the newest version then
        self.pce, self.count = None, len(LSPS)
        self.places = [os.path.join(ROOM, place) for place in ("ask", "updates", "watch")]
        self.wanted = os.path.join(ROOM, "wanted")
        self.want("")
        ask, updates, told = self.places
        self.program = self.run("listen", [], "--program", program, "--journal", self.journal, "--ask", ask, "--updates", updates,
                                "--watch", told)
        self.messages = open(lines, "w", encoding="ascii")
        self.wire = subprocess.Popen([*within(PCE), os.path.join(chain.HERE, "lab"), "--wire", told, capture],
                                     stdin=subprocess.DEVNULL, stdout=subprocess.PIPE, text=True)
        self.feed = subprocess.Popen([*within(PCE), TOOLS, "feed", "--collect", str(collect), "--sids", self.sids,
                                      "--sid-group", GROUP, "--to", updates],
                                     stdin=subprocess.DEVNULL, stdout=subprocess.DEVNULL)
        threading.Thread(target=self.take_lines, daemon=True).start()
        self.published(lambda: None)
        self.start_pce(0)

    def run(self, tool, before, *words, said=None):
        """Starts a tool, and waits for its line `ready`."""
        process = subprocess.Popen([*before, TOOLS, tool, *words], stdin=subprocess.DEVNULL, stdout=subprocess.PIPE, stderr=said,
                                   text=True)
        for line in process.stdout:
            if line == "ready\n":
                return process
        raise Fault(f"{tool} ended with status {process.wait()}")

    def start_pce(self, gain):
        ask, _, told = self.places
        self.pce = self.run("pcep", within(PCE), "--address", router_id(PCE), "--ask", ask, "--watch", told, "--journal", self.journal,
                            "--sids", self.sids, "--sid-group", GROUP, "--stateful", "--gain", str(gain), "--initiate", self.wanted,
                            "--replies", self.replies, "--log-level", "error")

    def want(self, text):
        """What the PCE is to make, in its file."""
        with open(self.wanted, "w", encoding="ascii") as file:
            file.write(text)
        if self.pce:
            self.pce.send_signal(signal.SIGHUP)

    def make(self):
        self.count += 1
        self.want(f"{MADE[0]},{router_id(HEAD)},{router_id(TAIL)},7,{MADE[1]},0x0,0x0,0x0\n")

    def remove(self):
        self.count -= 1
        self.want("")

    def kill_pce(self):
        self.pce.kill()
        self.pce.wait()
        self.pce = None
        with self.told:
            self.lsps.clear()

    def processes(self):
        parts = [("the feed", self.feed), ("listen", self.program), ("pcep", self.pce), ("what watches the router", self.watch),
                 ("what watches the wire", self.wire)]
        return [(name, process) for name, process in parts if process]

    def take_lines(self):
        """Takes versions and messages as they come."""
        for line in self.wire.stdout:
            at, source, text = line.split()
            self.messages.write(line)
            with self.told:
                if source == "version":
                    self.versions[int(text)] = float(at)
                else:
                    self.take_message(float(at), bytes.fromhex(text))
                self.told.notify_all()

    def take_message(self, at, data):
        if data[1] == wire.OPEN:
            self.lsps.clear()
        elif data[1] in (wire.UPDATE, wire.INITIATE):
            self.updates.append((at, max(self.versions)))
        elif data[1] == wire.REPORT:
            for number, flags, ero in lsps_of(wire.objects_of(data[4:])):
                path = path_of(ero)
                _, had, since = self.lsps.get(number, (None, None, None))
                if flags & REMOVED:
                    self.lsps.pop(number, None)
                    self.removed_at = at
                else:
                    self.lsps[number] = bool(flags & DELEGATED), path, since if path == had else at

    def published(self, do):
        """Makes a change, and waits for the next version."""
        with self.told:
            before = max(self.versions, default=0)
        do()
        self.wait(lambda: max(self.versions, default=0) > before, lambda: "no version was published")

    def wait(self, test, why):
        end = time.monotonic() + chain.PATIENCE
        with self.told:
            while not test():
                self.look()
                if time.monotonic() > end:
                    raise Fault(f"{why()} after {chain.PATIENCE:g} s")
                self.told.wait(1.0)

    def answered(self, path):
        """Waits until each LSP is reported, delegated and on this path. The newest version then."""
        def why():
            return f"the LSPs are {[*self.lsps.values()]}, and not delegated on {path},"

        self.wait(lambda: [lsp[:2] for lsp in self.lsps.values()] == [(True, path)] * self.count, why)
        return max(self.versions)

    def parts(self, start, _):
        """Seconds from the start of an event to the last PCUpd or PCInitiate, and their parts: until router 5 knew of the first change,
        from there to the version, and from there to that message. Then seconds from there to the last report. None where none was sent."""
        if not self.updates or self.updates[-1][0] < start:
            return None
        last, version = self.updates[-1]
        told = max(start, self.versions[version])
        since = max(start, self.versions.get(version - 1, start))
        known = min((at for at in self.known if since <= at <= told), default=told)
        reported = max(self.removed_at, *(since for _, _, since in self.lsps.values()))
        return last - start, known - start, told - known, last - told, reported - last

    def pairs(self):
        numbers = sorted({int(name.split(".")[0]) for name in os.listdir(self.replies)})
        return [tuple(os.path.join(self.replies, f"{number}.{kind}") for kind in ("requests", "replies")) for number in numbers]

    def end(self):
        """Ends the feed, then the PCE and the server; that each ends as it should."""
        statuses = []
        for process in (self.feed, self.pce, self.program):
            process.send_signal(signal.SIGTERM)
            statuses.append(process.wait())
        self.wire.wait()
        self.messages.close()
        if statuses != [0, 0, 128 + signal.SIGTERM]:
            raise Fault("the feed ended with status {}, pcep with {}, and listen with {}".format(*statuses))
