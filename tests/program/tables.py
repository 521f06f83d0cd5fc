"""Runs over journals, updates and requests that are lines of tables, by 1, 4 and 64 workers, and whole batches and too many rows."""
import os
import tempfile

HERE = os.path.dirname(os.path.abspath(__file__))
# What letters of a table stand for. P is the row that puts the link from 1.1.1.1 to 2.2.2.2, Q the one that puts its reverse, and J that of
# P in
# a journal. F is eight bandwidths of 1000, O eight of 0, Z three masks of no group, B a byte order mark, R a carriage return, | a line
# feed, _ nothing.
LETTERS = {
    "P": "put,1.1.1.1,10.0.12.1,2.2.2.2,10.0.12.2,10,0x1," + ",".join(["1000"] * 8),
    "Q": "put,2.2.2.2,10.0.12.2,1.1.1.1,10.0.12.1,10,0x1," + ",".join(["0"] * 8),
    "J": "put,1.1.1.1,10.0.12.1,2.2.2.2,10.0.12.2,10,0x00000001," + ",".join(["1000"] * 8),
    "F": ",".join(["1000"] * 8), "O": ",".join(["0"] * 8), "Z": "0x0,0x0,0x0", "B": "\ufeff", "R": "\r", "|": "\n", "_": "",
}
ASK = b"ask,7,1.1.1.1,2.2.2.2,0,0,0x0,0x0,0x0,\n"
DROP = b"drop,1.1.1.1,10.0.0.1\n"


def bytes_of(field):
    return "".join(LETTERS.get(letter, letter) for letter in field).encode()


def table(name):
    """The first fields of a table's lines, each with the bytes of the others."""
    with open(os.path.join(HERE, "tables", name), encoding="ascii") as lines:
        for line in lines:
            if not line.startswith("#"):
                first, *others = line.rstrip("\n").split(" > ")
                yield first, [bytes_of(field) for field in others]


def ran_live(program, updates, requests, workers, *words):
    """Status, standard output and error of a live run, and its journal."""
    with tempfile.TemporaryDirectory() as room:
        kept = os.path.join(room, "kept")
        found = program.over("live", ["--journal", kept, "--workers", workers, *words], updates=updates, requests=requests)
        with open(kept, "rb") as journal:
            return found, journal.read()


def tables(program, checks):
    for first, (journal, requests, lines) in table("batches"):
        accept = ["--accept-torn"] if first.startswith("accept") else []
        for workers in ["1", "4", "64"]:
            found = program.batch(journal, requests, "--workers", workers, *accept)
            checks.same(f"{journal} {requests} by {workers} workers", found, (int(first[-1]), lines, b""))
    for first, (updates, requests, lines, kept) in table("live"):
        for workers in ["1", "4", "64"]:
            found = ran_live(program, updates, requests, workers)
            checks.same(f"live: {updates} {requests} by {workers} workers", found, ((int(first), lines, b""), kept))
    one = bytes_of("P|end,1,1|")
    for updates, requests in [(DROP * 1_000_001, b""), (one, ASK * 1_000_001)]:
        checks.same(f"live: too many rows behind {updates[:5]}", ran_live(program, updates, requests, "1"),
                    ((2, b"too many rows\n", b""), b""))
    both, ask = bytes_of("P|Q|end,1,2|"), bytes_of("ask,7,1.1.1.1,2.2.2.2,0,1000,Z,|")
    (status, lines, errors), kept = ran_live(program, both, ask, "1")
    replies = b"ask 7 v0 unknown-from\napplied 1\n", b"ask 7 v1 route cost=10 hops=1 again=no ero=000c140101080a000c022000\napplied 1\n"
    checks.true("live: a request is answered before the batch or after it", (status, errors) == (0, b"") and lines in replies, lines)
    checks.same("live: the journal of both rows", kept, both.replace(b",0x1,", b",0x00000001,"))
    many = program.batch(b"", ASK * 1_000_000, "--workers", "2")
    checks.true("1,000,000 requests are answered", many == (0, b"ask 7 v0 unknown-from\n" * 1_000_000, b""), many[0])
    whole = b"".join(b"put,1.1.1.1,0.0.%d.%d,2.2.2.2,10.0.12.2,10,0x00000001,1,1,1,1,1,1,1,1\n" % divmod(number, 256)
                     for number in range(4096)) + b"end,1,4096\n"
    checks.true("a whole batch is longer than a buffer", len(whole) > 262_144)
    checks.true("a whole batch goes live", ran_live(program, whole, b"", "1") == ((0, b"applied 1\n", b""), whole))
    checks.same("a whole batch of a journal", program.batch(whole, b"", "--workers", "1"), (0, b"version 1\n", b""))
    marks = b"".join(b"node,0.0.%d.%d,0\n" % divmod(number, 256) for number in range(1024)) + b"end,1,1024\nnode,0.0.4.0,0\nend,2,1\n"
    checks.same("a mark more than are kept", program.batch(marks, b"", "--workers", "1"), (2, b"version 1\nbatch 2 refused: marks\n", b""))
