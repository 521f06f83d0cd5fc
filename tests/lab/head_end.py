"""`tests/lab/lab --pcep`: FRR's `pathd` as a head-end of `routed-tools pcep`, on a real OSPF network.

What the two said is cut here from the lab's messages. Each path that was sent is the reference's at its version, with the SIDs of the
feed's file, and comes back in a report. Where `tshark` is there, it reads the capture, too."""
import os
import random
import re
import shutil
import struct
import subprocess
import tempfile
from collections import namedtuple

from lab import wire
from reference import formats, runs

LAB = os.path.join(os.path.dirname(os.path.abspath(__file__)), "lab")
PATIENCE = 900  # seconds for a whole run of the lab
DEAD = 40  # seconds of silence until a neighbor is gone: no event here is a silence, and a busy machine makes none
SOON = 500  # milliseconds from before a circuit's end to the last PCUpd
OPEN, REQUEST, REPLY, ERROR, REPORT, UPDATE, INITIATE = 1, 3, 4, 6, 10, 11, 12
HEAD, PCE = "10.0.0.1", "10.0.0.5"
LSPS = {"blue-lab": 1_000_000, "green-lab": 2_500_000, "red-lab": 100_000_000, "gold": 1_000}  # as they are reported, with bandwidths
MADE, REMOVED = "gold", 4  # by the PCE; a flag of a report
DIRECT, ROUND, WITHOUT_4 = "1 2 4 6", "1 3 4 6", "1 3 5 6"
STAYS = "cost as before, gain 20"
EVENTS = [("LSP gold by PCInitiate", DIRECT), ("circuit 2-4 down", ROUND), ("circuit 2-4 up", DIRECT),
          ("router 4 a stub router", WITHOUT_4), ("router 4 as before", DIRECT), ("PCE killed, cost raised", ROUND),
          (STAYS, ROUND), ("PCE killed, gain 0", DIRECT), ("LSP gold removed", DIRECT)]
PATHS = [[DIRECT, ROUND, DIRECT, WITHOUT_4, DIRECT], [DIRECT, ROUND], [ROUND, DIRECT]]  # that are reported in each session
TIMES = ", ".join(f"{part} ([0-9.]+)" for part in ("all", "OSPF", "feed", "PCE", "pathd")) + " ms"
LINE = rf"(.{{24}}) v(\d+) +([1-6 ]+)   (?:it stays|{TIMES})"
ROW = re.compile(r"ask,\d+,10\.0\.0\.1,10\.0\.0\.6,7,(\d+),0x00000000,0x00000000,0x80000000,")  # of a path whose links have SIDs

# One LSP, or one request, of a message: who sent it, its kind, the newest version then, and what it has.
Said = namedtuple("Said", "source kind version number flags name srp ero cost bandwidth")


def objects(data):
    """The classes and bodies of a message's objects."""
    at = 4
    while at < len(data):
        size, = struct.unpack_from("!H", data, at + 2)
        yield data[at], data[at + 4:at + size]
        at += size


def said(text):
    """Each LSP and request of each message, and each message that has none."""
    version = 0
    for line in text.splitlines():
        _, source, data = line.split()
        if source == "version":
            version = int(data)
            continue
        data, srp, found = bytes.fromhex(data), 0, []
        for kind, body in objects(data):
            if kind == 33:
                srp, = struct.unpack_from("!I", body, 4)
            elif kind == 2:
                found.append(Said(source, data[1], version, struct.unpack_from("!I", body, 4)[0], 0, None, 0, None, None, None))
            elif kind == 32:
                word, name = struct.unpack_from("!I", body)[0], re.search(rb"\0\x11\0.([a-z-]+)", body)
                found.append(Said(source, data[1], version, word >> 12, word & 0xfff, name and name[1].decode(), srp, None, None, None))
            elif kind == 7:
                found[-1] = found[-1]._replace(ero=body)
            elif kind == 6:
                found[-1] = found[-1]._replace(cost=struct.unpack_from("!f", body, 4)[0])
            elif kind == 5 and found:
                found[-1] = found[-1]._replace(bandwidth=struct.unpack("!f", body)[0])
        yield from found or [Said(source, data[1], version, 0, 0, None, 0, None, None, None)]


def hops(ero):
    """The addresses of both ends of each adjacency of an ERO, and its label."""
    parts = [struct.unpack_from("!BBHI4s4s", ero, at) for at in range(0, len(ero), 16)]
    return [[".".join(map(str, end)) for end in (near, far)] + [word >> 12] for _, _, _, word, near, far in parts]


def path_of(ero):
    return " ".join(["1", *(router_of(far) for _, far, _ in hops(ero))])


def router_of(end):
    """The router of an address 10.0.AB.1 or 10.0.AB.2: A or B."""
    *_, pair, side = end.split(".")
    return pair[int(side) - 1]


def sid_of(sids, near, version):
    """The label of the link of a local address at a version, by the feed's file."""
    found = [line.split(",")[4] for line in sids if line.split(",")[3] == near and int(line.split(",")[1]) <= version]
    return int(found[-1]) if found and found[-1] else None


def shortened(values):
    """The values, without those that repeat the one before."""
    return [value for at, value in enumerate(values) if not at or value != values[at - 1]]


def packets(_, checks):
    """Segments of any length, twice and in any order, are the messages that were sent."""
    draw = random.Random(4)

    def packet(number, data, flags=24, ports=(4189, 4189)):
        tcp = struct.pack("!HHIIBBHHH", *ports, number % (1 << 32), 0, 5 << 4, flags, 0, 0, 0) + data
        return struct.pack("!BBHHHBBH4s4s", 0x45, 0, 20 + len(tcp), 0, 0, 64, 6, 0, bytes([10, 0, 0, 1]), bytes([10, 0, 0, 5])) + tcp

    for first in (0, 12345, (1 << 32) - 100):
        streams = wire.Streams()
        checks.same("another port", streams.take(packet(first, b"x" * 8, ports=(4188, 50000))), None)
        checks.same("a connection whose beginning wasn't seen", streams.take(packet(first, bytes([0x20, 2, 0, 4]))), (HEAD, []))
        for _ in range(20):  # each a new connection of the same ends
            sent = [bytes([0x20, 2, 0, size]) + draw.randbytes(size - 4) for size in (draw.choice((4, 8, 40, 200)) for _ in range(30))]
            data = b"".join(sent)
            cuts = sorted({0, len(data), *draw.sample(range(len(data)), 20)})
            segments = [(first + start, data[start:end]) for start, end in zip(cuts, cuts[1:])]
            segments += [(first + start, data[start:start + 30]) for start in draw.sample(range(len(data)), 5)]
            draw.shuffle(segments)
            streams.take(packet(first - 1, b"", flags=2))
            found = [message for number, part in segments for message in streams.take(packet(number, part))[1]]
            checks.same(f"messages of segments from {first}", found, sent)


def head_end(program, checks):
    with tempfile.TemporaryDirectory() as room:
        words = [LAB, "--pcep", "--dead", str(DEAD), "--program", program, "--folder", room]
        ran = subprocess.run(words, capture_output=True, text=True, timeout=PATIENCE)
        print(f"tests/chain: {ran.stdout}", end="")
        checks.same("a run with a PCE", (ran.returncode, ran.stderr), (0, ""))
        texts = {name: open(os.path.join(room, f"lab.{name}"), encoding="ascii").read() for name in ("journal", "sids", "messages")}
        pairs = [[open(os.path.join(room, "lab.replies", f"{number}.{kind}"), encoding="ascii").read() for kind in ("requests", "replies")]
                 for number in (1, 2, 3)]
        events(checks, ran.stdout)
        found = [*said(texts["messages"])]
        starts = [at for at, one in enumerate(found) if (one.source, one.kind) == (PCE, OPEN)] + [len(found)]
        checks.same("sessions", len(starts), 4)
        networks = runs.publish(runs.whole_batches(texts["journal"]))[0]
        run, *sids = texts["sids"].splitlines()
        checks.true("the SIDs say which run they are of", re.fullmatch("run,[0-9a-f]{16}", run), run)
        for number, (start, end) in enumerate(zip(starts, starts[1:]), 1):
            session(checks, number, found[start:end], networks, sids)
        audited(checks, texts["journal"], pairs, ran.stdout)
        capture(checks, os.path.join(room, "lab.pcap"), texts["messages"])


def events(checks, text):
    found = [match for line in text.splitlines() if (match := re.fullmatch(LINE, line))]
    checks.same("events and paths with a PCE", [(match[1].strip(), match[3]) for match in found], EVENTS)
    checks.same("the LSPs stay where little is gained", [match[1].strip() for match in found if match[4] is None], [STAYS])
    times = {match[1].strip(): [float(match[at]) for at in range(4, 9)] for match in found if match[4]}
    checks.true("their times", all(min(parts) >= 0 and abs(parts[0] - sum(parts[1:4])) < 0.3 for parts in times.values()), times)
    down = times["circuit 2-4 down"][0]
    checks.true(f"the last PCUpd comes within {SOON} ms of the circuit's end", down < SOON, down)
    print(f"tests/chain: from circuit down to the last PCUpd: {down:.0f} ms")


def session(checks, number, found, networks, sids):
    """The first begins with requests. In each further one the LSPs are delegated as they are."""
    def of(source, kind):
        return [one for one in found if (one.source, one.kind) == (source, kind)]

    reports, updates, replies, made = [one for one in of(HEAD, REPORT) if one.number], of(PCE, UPDATE), of(PCE, REPLY), of(PCE, INITIATE)
    checks.same(f"session {number}: no error", of(HEAD, ERROR) + of(PCE, ERROR), [])
    requests = [one.bandwidth for one in of(HEAD, REQUEST)]
    checks.same(f"session {number}: requests", sorted(requests), sorted(LSPS[name] for name in LSPS if name != MADE) if number == 1 else [])
    checks.same(f"session {number}: replies", sorted(one.number for one in replies), sorted(one.number for one in of(HEAD, REQUEST)))
    checks.same(f"session {number}: LSPs, each delegated", {(one.name, one.bandwidth, one.flags & 1) for one in reports},
                {(name, bandwidth, 1) for name, bandwidth in LSPS.items()})
    for name in LSPS:
        own = [one for one in reports if one.name == name]
        checks.same(f"session {number}: paths of {name}", shortened([path_of(one.ero) for one in own]), PATHS[number - 1])
        sent = [(at, one) for at, one in enumerate(found) if own and one.kind == UPDATE and one.number == own[0].number]
        checks.same(f"session {number}: paths that {name} is sent", [path_of(one.ero) for _, one in sent], PATHS[number - 1][1:])
        # the first reports of a session have the SRP of the session before
        reported = [{(report.ero, report.cost) for report in found[at:] if report in own and report.srp == one.srp} for at, one in sent]
        checks.same(f"session {number}: {name} is reported as it was sent", reported, [{(one.ero, one.cost)} for _, one in sent])
        if number == 1:
            answered = {(one.ero, one.cost) for one in (made if name == MADE else replies)}
            checks.same(f"the first path of {name} is what was answered", {(one.ero, one.cost) for one in own[:1]}, answered)
    request = formats.row(f"ask,1,{HEAD},10.0.0.6,7,{max(LSPS.values())},0x0,0x0,0x80000000,".split(","))[1]
    gold = [one for one in reports if one.name == MADE]
    checks.same(f"session {number}: LSPs that are made and removed", [(one.name, one.number) for one in made],
                [[(MADE, 0)], [], [(None, gold[0].number)]][number - 1])
    removed = [one.srp for one in gold if one.flags & REMOVED]
    checks.same(f"session {number}: reports that {MADE} is removed", removed, [one.srp for one in made if one.number])
    for one in replies + updates:
        walk = networks[one.version].least(request)
        ends = [[formats.address_text(link[end]) for end in ("local", "remote")] for link in walk]
        wanted = [[near, far, sid_of(sids, near, one.version)] for near, far in ends]
        checks.same(f"session {number}: the path at version {one.version}", hops(one.ero), wanted)
        checks.same(f"session {number}: its cost at version {one.version}", one.cost, sum(link["metric"] for link in walk))


def audited(checks, journal, pairs, text):
    """The files of --replies, one pair for each start of the PCE."""
    for number, (requests, replies) in enumerate(pairs, 1):
        rows = [ROW.fullmatch(row) for row in requests.splitlines()]
        checks.same(f"requests {number} are those of the LSPs", {row and int(row[1]) for row in rows}, {*LSPS.values()})
        judged = f"good={len(rows)} faults=0"
        checks.same(f"the audit {number} by the reference", runs.audit(journal, requests, replies), (0, [judged]))
        checks.true(f"the audit {number}", f"audit of {len(rows)} answers: {judged}\n" in text, text)


def capture(checks, path, messages):
    if not shutil.which("tshark"):
        print("tests/chain: skipped what tshark says of the capture: there is no tshark")
        return
    words = ["tshark", "-r", path, "-Y", "pcep", "-T", "fields", "-e", "pcep.msg", "-e", "_ws.malformed"]
    rows = [line.split("\t") for line in subprocess.run(words, capture_output=True, text=True).stdout.splitlines()]
    kinds = [int(kind) for kinds, _ in rows for kind in kinds.split(",") if kind]
    sent = [int(line.split()[2][2:4], 16) for line in messages.splitlines() if " version " not in line]
    checks.same("the kinds of the capture's messages", kinds, sent)
    checks.same("malformed messages", [row for row in rows if row[1]], [])
