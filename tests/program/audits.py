"""`audit` judges reply lines by a journal and requests.

Its lines are the formats' own (docs/run/FORMATS.md), or computed by tests/reference/runs.py.
"""
import glob
import os
import random
import re
import subprocess
import tempfile
import time

from checks import TOP
from reference import changes, runs

FREE = ",".join(["1000"] * 8)
MASKS = "0x0,0x0,0x0"
LINK = f"put,1.1.1.1,10.0.12.1,2.2.2.2,10.0.12.2,10,0x1,{FREE}\n"
BACK = f"put,2.2.2.2,10.0.12.2,1.1.1.1,10.0.12.1,10,0x1,{','.join(['0'] * 8)}\n"
JOURNAL = LINK + BACK + "end,1,2\n"
ASK = f"ask,7,1.1.1.1,2.2.2.2,0,1000,{MASKS},\n"
ASKS = ASK + ASK.replace("ask,7", "ask,8")
ROUTE = "route cost=10 hops=1 again=no ero=000c140101080a000c022000"
GOOD = f"ask 7 v1 {ROUTE}\n"


def latin(text):
    return text if isinstance(text, str) else text.decode("latin-1")


class Audit:
    """Runs of `audit`, and what they have to say."""

    def __init__(self, program, checks):
        self.program, self.checks = program, checks

    def says(self, name, status, lines, journal="", requests="", replies=""):
        """These lines are written, and nothing else."""
        self.checks.same(f"audit: {name}", self.program.audit(journal, requests, replies), (status, lines.encode("latin-1"), b""))

    def refuses(self, name, line, journal="", requests="", replies=""):
        self.says(name, 2, f"{line}\n", journal, requests, replies)

    def is_right(self, name, journal, requests, replies):
        """The lines of the reference are written."""
        def wanted(some):
            status, lines = runs.audit(*map(latin, (journal, requests, "".join(some))))
            return status, "".join(f"{line}\n" for line in lines).encode("latin-1"), b""

        def found(some):
            return self.program.audit(journal, requests, "".join(some).encode("latin-1"))

        self.checks.stream(f"audit: {name}", latin(replies).splitlines(keepends=True), found, wanted)


FAULTS = {
    "unread": ["hello", "", "ask", "ask ", "ask 7", "ask 7 ", "ask 7 v", "ask 7 v1", "ask 7 v1\t", "ask 07 v1 none", "ask 7 v01 none",
               "ask 7 1 none",
               "ask 7 V1 none", "ask 7  v1 none", "ask  7 v1 none", "ask\t7 v1 none", "ask +7 v1 none", "ask 7 v-1 none", "Ask 7 v1 none",
               " ask 7 v1 none",
               "asks 7 v1 none", "ask 18446744073709551616 v1 none", "ask 7 v4294967296 none", "ask 100000000000000000000 v1 none",
               "ask,7,1.1.1.1",
               "row 1 refused: kind", "request 7 unanswered", "unended 1", "too many rows", "journal torn after 1", "good=1 faults=0",
               "versions 1", "version\t1", " version 1", "Version 1", "batch\r", "applied=1"],
    "foreign": ["ask 9 v1 none", "ask 0 v1 none", "ask 77 v1 none", "ask 18446744073709551615 v4294967295 none", f"ask 9 v1 {ROUTE}",
                "ask 9 v1 "],
    "no-version": ["ask 7 v2 none", "ask 7 v4294967295 none", "ask 7 v10 unknown-from", f"ask 7 v2 {ROUTE}"],
    "altered": ["ask 7 v1 none", "ask 7 v0 none", "ask 7 v1 ", f"ask 7 v1 {ROUTE} ", f"ask 7 v0 {ROUTE}", "ask 7 v1 unknown-from",
                f"ask 7 v1 {ROUTE}\r", f"ask 7 v1 {ROUTE[:-2]}", f"ask 7 v1 {ROUTE}00", *(f"ask 7 v1 {ROUTE.replace(*pair)}" for pair in
                                         (("cost=10", "cost=9"), ("cost=10", "cost=010"), ("hops=1", "hops=2"), ("again=no", "again=yes"),
                                          (" again=no", ""),
                                          ("c022000", "c012000"), ("c022000", "C022000"), ("route", "none")))],
}
PASSED_OVER = ["version 1", "version", "version ", "version x y", "applied 1", "applied", "batch 1 refused: full", "batch"]


def worked(audit):
    """Worked by hand."""
    mixed = f"version 1\n{GOOD}{GOOD}ask 9 v1 none\nask 8 v2 none\nhello\n"
    audit.says("the faults in order", 2, "line 3 doubled\nline 4 foreign\nline 5 no-version\nline 6 unread\ngood=1 faults=4\n", JOURNAL,
               ASKS, mixed)
    audit.says("altered and unanswered", 2, "line 1 altered\nrequest 8 unanswered\ngood=0 faults=2\n", JOURNAL, ASKS, "ask 7 v1 none\n")
    audit.says("nothing", 0, "good=0 faults=0\n")
    audit.refuses("two requests with one id", "request row 2 refused: same-id", JOURNAL, ASK + ASK, GOOD)
    audit.says("an older version", 0, "good=2 faults=0\n", JOURNAL, ASKS, GOOD.replace("7", "8", 1) + "ask 7 v0 unknown-from\n")
    audit.says("a foreign id twice", 2, "line 1 foreign\nline 2 foreign\nrequest 7 unanswered\ngood=0 faults=3\n", JOURNAL, ASK,
               "ask 9 v1 none\n" * 2)
    audit.says("a line behind one of no version", 2, "line 1 no-version\nline 2 doubled\ngood=0 faults=2\n", JOURNAL, ASK,
               "ask 7 v2 none\n" + GOOD)
    one_way, three = LINK + "end,1,1\n", "".join(ASK.replace("ask,7", f"ask,{name}") for name in (1, 2, 3))
    audit.says("a route over a link that runs one way", 2, "line 1 altered\ngood=0 faults=1\n", one_way, ASK, GOOD)
    audit.says("no route over a link that runs one way", 0, "good=1 faults=0\n", one_way, ASK, "ask 7 v1 none\n")
    withdrawn = JOURNAL + "drop,2.2.2.2,10.0.12.2\nend,2,1\n" + BACK + "end,3,1\n"
    audit.says("a direction that is withdrawn and put back", 0, "good=3 faults=0\n", withdrawn, three,
               f"ask 1 v1 {ROUTE}\nask 2 v2 none\nask 3 v3 {ROUTE}\n")
    further = (LINK + BACK).replace("2.2.2.2", "3.3.3.3").replace("1.1.1.1", "2.2.2.2").replace("10.0.12.", "10.0.23.")
    marked = LINK + BACK + further + "end,1,4\nnode,2.2.2.2,0\nend,2,1\nnode,2.2.2.2,1\nend,3,1\n"
    through = "route cost=20 hops=2 again=no ero=0014140101080a000c02200001080a0017022000"
    asks = three.replace("2.2.2.2", "3.3.3.3")
    audit.says("a mark that comes and goes", 0, "good=3 faults=0\n", marked, asks,
               f"ask 1 v1 {through}\nask 2 v2 none\nask 3 v3 {through}\n")
    audit.says("a route through a marked router", 2, "line 1 altered\nline 2 altered\ngood=1 faults=2\n", marked, asks,
               f"ask 1 v2 {through}\nask 2 v3 none\nask 3 v1 {through}\n")
    audit.says("a line behind one that names no id", 2, "line 1 unread\ngood=1 faults=1\n", JOURNAL, ASK, GOOD.replace("v1", "1") + GOOD)


def faults(audit):
    """Each fault alone, first and behind a good line; and each pair in both orders."""
    for fault, lines in FAULTS.items():
        for line in lines:
            left = "" if fault in ("no-version", "altered") else "request 7 unanswered\n"
            audit.says(f"{line!r} is {fault}", 2, f"line 1 {fault}\n{left}good=0 faults={2 if left else 1}\n", JOURNAL, ASK, f"{line}\n")
            audit.is_right(f"{line!r} behind a good line", JOURNAL, ASKS, f"{GOOD}{line}\n")
    for line in PASSED_OVER:
        audit.says(f"{line!r} is passed over", 0, "good=1 faults=0\n", JOURNAL, ASK, f"{line}\n{GOOD}{line}")
    one = [*(lines[0] for lines in FAULTS.values()), GOOD.strip(), "ask 8 v1 none", GOOD.strip().replace("7", "8", 1), "ask 9 v0 none",
           PASSED_OVER[0]]
    for first in one:
        for second in one:
            audit.is_right(f"{first!r}, {second!r}", JOURNAL, ASKS, f"{first}\n{second}\n")


def streams(audit):
    """Empty streams, lines of any bytes and any length, and as many as there may be."""
    for at in range(8):
        texts = [text if at & 1 << place else "" for place, text in enumerate((JOURNAL, ASKS, GOOD + "ask 8 v0 unknown-from\n"))]
        audit.is_right(f"streams of {[len(text) for text in texts]} bytes", *texts)
    audit.says("no last line feed", 0, "good=1 faults=0\n", JOURNAL, ASK, GOOD.strip())
    audit.says("a last line feed twice", 2, "line 2 unread\ngood=1 faults=1\n", JOURNAL, ASK, GOOD + "\n")
    audit.says("line feeds alone", 2, "line 1 unread\nline 2 unread\ngood=0 faults=2\n", "", "", "\n\n")
    audit.is_right("bytes that are no text", JOURNAL, ASK, b"\xff\xfe\0\n\0\nask 7 v1 \xff\n\n")
    audit.is_right("lines that end as on other systems", JOURNAL, ASKS, GOOD.replace("\n", "\r\n") * 2)
    audit.is_right("a byte order mark", JOURNAL, ASK, b"\xef\xbb\xbf" + GOOD.encode())
    audit.is_right("lines of a megabyte", JOURNAL, ASKS, "a" * 1_000_000 + f"\n{GOOD}ask 8 v1 " + "b" * 1_000_000)
    audit.is_right("a word of a megabyte", JOURNAL, ASK, "ask " + "7" * 1_000_000 + f" v1 none\nversion {'1' * 1_000_000}\n{GOOD}")
    audit.says("1,000,000 lines", 0, "good=0 faults=0\n", "", "", "version 1\n" * 1_000_000)
    audit.says("the last of 1,000,000 lines", 2, "line 1000000 altered\ngood=0 faults=1\n", JOURNAL, ASK,
               "batch\n" * 999_999 + "ask 7 v1 none")
    audit.refuses("1,000,001 lines", "too many rows", JOURNAL, ASK, "version 1\n" * 1_000_000 + "v")
    audit.refuses("1,000,001 empty lines", "too many rows", JOURNAL, ASK, "\n" * 1_000_001)


def refusals(audit):
    """What isn't audited is named by the first of the journal, its batches, the requests, their ids and the replies."""
    drop, many = "drop,9.9.9.9,1.1.1.1\n", "drop,1.1.1.1,10.0.0.1\n" * 1_000_001
    lines = "\n" * 1_000_001
    for name, line, journal, requests in [
        ("a torn journal", "journal torn after 1", JOURNAL + "put,1\n", "foo\n"),
        ("an open change", "journal torn after 1", JOURNAL + LINK, "foo\n"),
        ("an ask in the journal", "journal torn after 1", JOURNAL + ASK, "foo\n"),
        ("a batch of another number", "journal torn after 1", JOURNAL + "end,3,0\n", "foo\n"),
        ("a batch of another count", "journal torn after 0", LINK + "end,1,2\n", "foo\n"),
        ("too many rows of the journal", "too many rows", many, "foo\n"),
        ("a batch that doesn't fit", "batch 2 refused: absent 1", JOURNAL + drop + "end,2,1\n", "foo\n"),
        ("a change of one link twice", "batch 2 refused: duplicate 2", JOURNAL + LINK * 2 + "end,2,2\n", "foo\n"),
        ("4,097 changes", "batch 1 refused: long", drop * 4097 + "end,1,4097\n", "foo\n"),
        ("a batch behind one that doesn't fit", "batch 1 refused: absent 1", drop + "end,1,1\n" + drop * 2 + "end,2,2\n", "foo\n"),
        ("a torn journal with a batch that doesn't fit", "journal torn after 1", drop + "end,1,1\nfoo\n", "foo\n"),
        ("a bad request", "request row 2 refused: kind", JOURNAL, ASK + "foo\n"),
        ("a request that asks nothing", "request row 2 refused: kind", JOURNAL, ASK + LINK),
        ("a bad hop", "request row 1 refused: hops 1", JOURNAL, ASK.replace(",\n", ",x\n")),
        ("a bad request before one id twice", "request row 3 refused: kind", JOURNAL, ASK * 2 + "foo\n"),
        ("too many requests before one id twice", "too many rows", JOURNAL, ASK * 1_000_001),
        ("one id twice", "request row 2 refused: same-id", JOURNAL, ASK + ASK.replace("1000", "999")),
        ("one id behind another", "request row 3 refused: same-id", JOURNAL, ASKS + ASK),
        ("one id three times", "request row 3 refused: same-id", JOURNAL, ASKS + ASK * 2),
        ("two ids twice", "request row 3 refused: same-id", JOURNAL, ASKS + ASK.replace("ask,7", "ask,8") + ASK),
        ("empty lines between requests", "request row 2 refused: same-id", JOURNAL, "\n\n" + ASK + "\n" + ASK),
    ]:
        audit.refuses(name, line, journal, requests, lines)
    full = "".join("".join(f"put,1.1.1.1,10.0.{n >> 8}.{n & 255},2.2.2.2,10.0.12.2,10,0x1,{FREE}\n"
                           for n in range(at, min(at + 4096, 16385)))
                   + f"end,{number},{min(4096, 16385 - at)}\n" for number, at in enumerate(range(0, 16385, 4096), 1))
    audit.refuses("a link too many", "batch 5 refused: full", full, ASK, GOOD)
    routers = "".join(f"put,1.0.{n >> 8}.{n & 255},10.0.0.1,2.0.{n >> 8}.{n & 255},10.0.0.2,10,0x1,{FREE}\n" for n in range(513))
    marks = "".join(f"node,3.0.{n >> 8}.{n & 255},0\n" for n in range(1024))
    audit.refuses("a mark too many", "batch 2 refused: marks", marks + "end,1,1024\nnode,4.4.4.4,0\nend,2,1\n", ASK, GOOD)
    audit.refuses("two routers too many", "batch 1 refused: routers", routers + "end,1,513\n", ASK, GOOD)


def cut_journals(audit):
    """Journals that are cut at each byte, with a reply at each version."""
    journal = JOURNAL + "drop,1.1.1.1,10.0.12.1\ndrop,2.2.2.2,10.0.12.2\nend,2,2\n" + LINK + BACK + "end,3,2\n"
    requests = "".join(ASK.replace("ask,7", f"ask,{version}") for version in range(4))
    replies = "".join(f"ask {version} v{version} {ROUTE if version % 2 else 'unknown-from'}\n" for version in range(4))
    audit.says("a journal that isn't cut", 0, "good=4 faults=0\n", journal, requests, replies)
    for at in range(len(journal)):
        audit.is_right(f"a journal cut at {at}", journal[:at], requests, replies)


def changed_bytes(audit):
    """A good line of each kind, cut at each byte, and with each byte as each other one."""
    for start, end, words in [("1.1.1.1", "2.2.2.2", ROUTE), ("2.2.2.2", "1.1.1.1", "none"), ("3.3.3.3", "1.1.1.1", "unknown-from"),
                              ("1.1.1.1", "3.3.3.3", "unknown-to")]:
        ask = f"{start},{end},0,1000,{MASKS},\n"
        line = f"ask 7 v1 {words}"
        audit.says(f"{line!r}", 0, "good=1 faults=0\n", JOURNAL, f"ask,7,{ask}", line)
        for at in range(len(line)):
            audit.is_right(f"{line!r} cut at {at}", JOURNAL, f"ask,7,{ask}", line[:at])
        # a request for each other byte, so that none of the lines is doubled but by its change
        ids = range(100, 355)
        requests = "".join(f"ask,{name},{ask}" for name in ids)
        lines = [f"ask {name} v1 {words}".encode() for name in ids]
        for at in range(len(lines[0])):
            replies = b"\n".join(text[:at] + bytes([(text[at] + step) % 256]) + text[at + 1:] for step, text in enumerate(lines, 1))
            audit.is_right(f"{words!r} with byte {at} as each other one", JOURNAL, requests, replies)


def live_runs(audit):
    """What a live run by four workers writes is good, in any order of its lines; lines that are altered by a seed are found."""
    for seed in range(4):
        draw = random.Random(seed)
        updates = changes.updates(draw, 200)
        requests = "".join(changes.ask_row(draw, name, changes.hop_list(draw, draw.choice([0, 0, 1, 2]))) + "\n" for name in range(500))
        journal, out = live(audit, updates, requests)
        audit.says(f"live run {seed}", 0, "good=500 faults=0\n", journal, requests, out)
        lines = out.splitlines(keepends=True)
        draw.shuffle(lines)
        audit.says(f"live run {seed} in another order", 0, "good=500 faults=0\n", journal, requests, b"".join(lines))
        for at in draw.sample(range(500), 60):
            lines[at] = draw.choice([b"", lines[at] * 2, lines[draw.randrange(500)], lines[at].replace(b" v", b" v9"),
                                     lines[at].replace(b" v1", b" v"),
                                     lines[at].replace(b"cost=1", b"cost=2"), lines[at][1:], lines[at].replace(b"1", b"2", 1),
                                     lines[at].replace(b"again=no", b"again=yes"), lines[at].replace(b"none", b"unknown-to")])
        audit.is_right(f"live run {seed} with lines altered", journal, requests, b"".join(lines))


def live(audit, updates, requests):
    """The journal and the lines of a live run by four workers."""
    with tempfile.TemporaryDirectory() as room:
        paths = {name: os.path.join(room, name) for name in ("updates", "requests", "journal")}
        for name, text in (("updates", updates), ("requests", requests)):
            with open(paths[name], "w", encoding="ascii") as file:
                file.write(text)
        status, out, err = audit.program.run(["live", *(word for name, path in paths.items() for word in (f"--{name}", path)), "--workers",
                                              "4"])
        audit.checks.same("audit: a live run ends well", (status, err), (0, b""))
        with open(paths["journal"], encoding="ascii") as file:
            return file.read(), out


def other_runs(audit):
    """What `batch` and `solve` write is good, too."""
    def held(name):
        with open(os.path.join(TOP, "examples", name), encoding="ascii") as file:
            return file.read()

    for name, count in (("nsfnet", 8), ("abilene", 9)):
        journal, requests = held(f"{name}.journal"), held(f"{name}.requests")
        _, out, _ = audit.program.batch(journal, requests)
        audit.says(f"a batch run over {name}", 0, f"good={count} faults=0\n", journal, requests, out)
    _, out, _ = audit.program.solve(held("abilene.rows"))
    audit.says("a run of rows", 0, "good=9 faults=0\n", held("abilene.journal"), held("abilene.requests"), out)


def files(audit):
    """Files that can't be opened or read stop a run; they are opened in the order of their options."""
    stopped = (3, b"", b"routed: stopped\n")
    with tempfile.TemporaryDirectory() as room:
        paths = {name: os.path.join(room, name) for name in ("journal", "requests", "replies")}
        for path, text in zip(paths.values(), (JOURNAL, ASK, GOOD)):
            with open(path, "w", encoding="ascii") as file:
                file.write(text)
        absent, pipe = os.path.join(room, "absent"), os.path.join(room, "pipe")
        os.mkfifo(pipe)

        def run(given, **how):
            return audit.program.run(["audit", *(word for name, path in {**paths, **given}.items() for word in (f"--{name}", path))], **how)

        good = (0, b"good=1 faults=0\n", b"")
        audit.checks.same("audit: standard input isn't read", run({}, rows=b"foo\n"), good)
        for at, name in enumerate(paths):
            for path in absent, room:
                audit.checks.same(f"audit: {name} is {os.path.basename(path)}", run({name: path}), stopped)
            # nobody writes to the pipe, so that opening it would wait
            behind = {later: pipe for later in list(paths)[at + 1:]}
            audit.checks.same(f"audit: {name} is opened before {list(behind)}", run({name: absent, **behind}, timeout=60), stopped)
        audit.checks.same("audit: an empty file as all", run(dict.fromkeys(paths, os.devnull)), (0, b"good=0 faults=0\n", b""))
        audit.checks.same("audit: one file as all", run(dict.fromkeys(paths, paths["journal"])), (2, b"request row 1 refused: kind\n", b""))
        with open("/dev/full", "wb") as full:
            words = ["audit", *(word for name, path in paths.items() for word in (f"--{name}", path))]
            ran = subprocess.run([audit.program.path, *words], stdout=full, stderr=subprocess.PIPE)
        audit.checks.same("audit: standard output is full", (ran.returncode, ran.stderr), stopped[::2])


def speed(audit):
    """Prints how many lines a second are judged: of a live run on NSFNET, all good."""
    with open(os.path.join(TOP, "examples/nsfnet.journal"), encoding="ascii") as file:
        updates = file.read()
    with open(os.path.join(TOP, "examples/nsfnet.requests"), encoding="ascii") as file:
        asks = file.read().splitlines()
    count = 20_000
    requests = "".join(re.sub("^ask,[0-9]+", f"ask,{name}", asks[name % len(asks)]) + "\n" for name in range(count))
    journal, out = live(audit, updates, requests)
    start = time.perf_counter()
    audit.says("a live run of many requests", 0, f"good={count} faults=0\n", journal, requests, out)
    print(f"audits: {count / (time.perf_counter() - start):,.0f} lines a second are judged, of {count:,} on NSFNET")


def search(audit):
    """Outcomes are computed by the plain search. No clause says so, since both searches have one contract: the sources do."""
    named = set()
    for path in glob.glob(os.path.join(TOP, "crates/cspf_judge/src/**/*.rt"), recursive=True):
        with open(path, encoding="utf-8") as source:
            named.update(re.findall(r"cspf_search::(\w+|\{[^}]*\}|\*)", source.read()))
    audit.checks.same("what the audit takes from the search", named, {"best_by_rounds"})


def audits(program, checks):
    audit = Audit(program, checks)
    checks.parts((worked, faults, streams, refusals, cut_journals, changed_bytes, live_runs, other_runs, files, search, speed), audit)
