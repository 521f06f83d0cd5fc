"""Rows `except`: by `solve` and by a client of `serve`, compared with tests/reference/excepts.py. Their lines, judged by `audit`, compared
with tests/reference/runs.py."""
import collections
import itertools
import os
import random
import subprocess
import tempfile

from program.built import ASK, CIRCUIT, FREE, LINK, MASKS, OPTIONS
from reference import runs
from reference.changes import circuits, mark_rows, mixed, row_of

NETWORKS = 500  # of 20 rows each
FULL = 200  # rows at full size
AUDITED = 150  # networks whose lines are audited
KINDS = ("except",)
EXCEPT = ASK.replace("ask,7", "except,7").strip()
NONE = "except 7 v1 none\n"
ROUTE = "except 7 v1 route cost=10 hops=1 again=no ero=000c140101080a000c022000\n"
# The field of the exclusions, and the line of the row over one circuit from 1.1.1.1, 10.0.12.1, to 2.2.2.2, 10.0.12.2.
FIELDS = {
    "10.0.12.0/31i": NONE, "10.0.12.1/32i": NONE, "10.0.12.2/32i": NONE, "0.0.0.0/0i": NONE, "0.0.0.0/0r": NONE, "1.1.1.1/32r": NONE,
    "2.2.2.2/32r": NONE, "10.0.12.1/32r": NONE, "10.0.12.2/32r": NONE, "10.0.13.0/24i 10.0.12.2/32i": NONE,
    "10.0.13.0/24i": ROUTE, "1.1.1.1/32i": ROUTE, "3.3.3.3/32r": ROUTE, "10.0.12.3/32i": ROUTE, " ".join(["9.9.9.9/32i"] * 64): ROUTE,
    " ".join(["9.9.9.9/32i"] * 65): "row 5 refused: except count\n", " ".join(["x"] * 65): "row 5 refused: except count\n",
    "": "row 5 refused: except 1\n", "10.0.12.0/31": "row 5 refused: except 1\n", "10.0.12.0/31s": "row 5 refused: except 1\n",
    "i": "row 5 refused: except 1\n", "10.0.12.0i": "row 5 refused: except 1\n", "10.0.12.0/33i": "row 5 refused: except 1\n",
    "10.0.12.0/031i": "row 5 refused: except 1\n", "10.0.12.0/31I": "row 5 refused: except 1\n",
    " 10.0.12.0/31i": "row 5 refused: except 1\n",
    "10.0.12.0/31i ": "row 5 refused: except 2\n", "10.0.12.0/31i  10.0.12.0/31i": "row 5 refused: except 2\n",
    "10.0.13.0/31i 10.0.13.0/31x": "row 5 refused: except 2\n", "10.0.12.0/31i,": "row 5 refused: fields\n",
}


def excepts(program, checks):
    checks.parts((by_hand, drawn, full, not_audited, audited), program, checks)


def by_hand(program, checks):
    """Over one circuit, by the program and by the reference; and what is refused where the rows aren't asked for."""
    for field, line in FIELDS.items():
        rows = CIRCUIT + ASK + f"{EXCEPT}{field}\n".replace(f"{MASKS},", f"{MASKS},,")
        wanted = "version 1\n" + ASK_LINE + line
        status = 2 if "refused" in line else 0
        checks.same(f"except {field[:40]!r}", program.run(["solve", "--except"], rows), (status, wanted.encode(), b""))
        checks.same(f"except {field[:40]!r} by the reference", runs.solve(rows, KINDS), (status, wanted.splitlines()))
        checks.same(f"except {field[:40]!r}, not asked for", program.solve(rows),
                    (2, f"version 1\n{ASK_LINE}row 5 refused: kind\n".encode(), b""))
    for row, line in ROWS.items():
        rows = CIRCUIT + ASK + row + "\n"
        wanted = f"version 1\n{ASK_LINE}{line}\n"
        checks.same(f"the row {row[:50]!r}", program.run(["solve", "--except"], rows)[1:], (wanted.encode(), b""))
        checks.same(f"the row {row[:50]!r} by the reference", runs.solve(rows, KINDS)[1], wanted.splitlines())
    with tempfile.TemporaryDirectory() as room:
        served(program, checks, room)


ASK_LINE = "ask 7 v1 route cost=10 hops=1 again=no ero=000c140101080a000c022000\n"
ROWS = {
    f"except,7,1.1.1.1,9.9.9.9,0,1,{MASKS},,1.1.1.1/32r": "except 7 v1 unknown-to",
    f"except,7,9.9.9.9,1.1.1.1,0,1,{MASKS},,1.1.1.1/32r": "except 7 v1 unknown-from",
    f"except,7,1.1.1.1,1.1.1.1,0,1,{MASKS},,1.1.1.1/32r": "row 5 refused: same-ends",
    f"except,7,1.1.1.1,2.2.2.2,8,1,{MASKS},,x": "row 5 refused: priority",
    f"except,7,1.1.1.1,2.2.2.2,0,1,{MASKS},x,x": "row 5 refused: hops 1",
    f"except,7,1.1.1.1,2.2.2.2,0,1,{MASKS},10.0.12.1/32s,10.0.12.1/32i": "except 7 v1 none",
    f"except,7,1.1.1.1,2.2.2.2,0,1,{MASKS},,": "row 5 refused: except 1",
    f"except,7,1.1.1.1,2.2.2.2,0,1,{MASKS},": "row 5 refused: fields",
    "except": "row 5 refused: fields",
    "Except,7": "row 5 refused: kind",
}


def served(program, checks, room):
    """A client of `serve` asks the same rows."""
    pipes = [os.path.join(room, name) for name in ("asks", "replies")]
    for pipe in pipes:
        os.mkfifo(pipe)
    rows = "".join(f"{EXCEPT}{field}\n".replace(f"{MASKS},", f"{MASKS},,") for field in FIELDS) + ASK
    wanted = "".join(FIELDS.values()) + ASK_LINE
    for place, line in enumerate(FIELDS.values(), 1):
        if "refused" in line:
            wanted = wanted.replace("row 5 refused", f"row {place} refused", 1)
    for words in (["--except"], []):
        journal = os.path.join(room, f"journal{len(words)}")
        with subprocess.Popen([program.path, "serve", *words, "--journal", journal, "--client", "=".join(pipes)], stdin=subprocess.PIPE,
                              stdout=subprocess.PIPE, text=True) as run:
            with open(pipes[0], "w") as asking, open(pipes[1]) as answered:
                run.stdin.write(CIRCUIT)
                run.stdin.flush()
                told = run.stdout.readline()
                asking.write(rows)
                asking.close()
                found = answered.read()
            run.communicate("")
        if words:
            checks.same("except rows of a client", (told, found, run.returncode), ("version 1\n", wanted, 2))
        else:
            refused = "".join(f"row {place} refused: kind\n" for place in range(1, len(FIELDS) + 1))
            checks.same("except rows of a client, not asked for", (told, found, run.returncode), ("version 1\n", refused + ASK_LINE, 2))


def field_of(draw, count):
    """Some parts: interfaces, circuits, routers, and prefixes that cover several or none."""
    parts = []
    for _ in range(draw.choice([1, 1, 1, 2, 3, 5])):
        top, end = draw.choice(["10.0.0", "172.16.0", "172.16.0"]), draw.randrange(24 if draw.random() < 0.7 else count + 1)
        parts.append(f"{top}.{end}/{draw.choice([32, 32, 32, 31, 30, 28, 24, 0])}{draw.choice('iir')}")
    return " ".join(parts)


def hops_of(draw):
    return " ".join(f"{draw.choice(['10.0.0', '172.16.0'])}.{draw.randrange(12)}/{draw.choice([24, 30, 31, 32, 32])}{draw.choice('sl')}"
                    for _ in range(draw.choice([0, 0, 0, 1, 2])))


def drawn_rows(draw, seed):
    """Two batches of a small network, and behind each 10 `except` rows, each with the `ask` row of the same fields."""
    count, links, rows = draw.randrange(3, 10), {}, []
    for version in (1, 2):
        changes = []
        for near, far in circuits(draw, links, count, 24, draw.randrange(1, 3 * count), draw.randrange(3)).items():
            free = ",".join(str(draw.choice([0, 5, 10])) for _ in range(8))
            changes.append(row_of(near, far, f"{draw.choice([0, 1, 1, 2, 3])},0x{draw.randrange(8):x},{free}"))
        if seed % 3 == 2:
            mixed(draw, changes, mark_rows(draw, count, draw.randrange(1, 1 + count // 2)))
        rows += [*(f"{row}\n" for row in changes), f"end,{version},{len(changes)}\n"]
        for at in range(10 * version, 10 * version + 10):
            a, b = draw.sample(range(count + 1), 2)
            masks = ",".join(draw.choice(["0x0", "0x0", "0x1"]) for _ in range(3)) if draw.random() < 0.2 else MASKS
            request = f"{at},10.0.0.{a},10.0.0.{b},{draw.randrange(8)},{draw.choice([0, 0, 5])},{masks},{hops_of(draw)}"
            rows += [f"except,{request},{field_of(draw, count)}\n", f"ask,{request}\n"]
    return rows


def drawn(program, checks):
    """10,000 rows on small networks with ties, one-way links, marks and hops."""
    asked, told = 0, 0  # rows, and those answered otherwise than without exclusions
    for seed in range(NETWORKS):
        rows = drawn_rows(random.Random(seed), seed)

        def right(some):
            status, lines = runs.solve("".join(some), KINDS)
            return status, "".join(f"{line}\n" for line in lines).encode(), b""

        checks.stream(f"except rows on drawn network {seed}", rows, lambda some: program.run(["solve", "--except"], "".join(some)), right)
        lines = [line.partition(" ")[2] for line in runs.solve("".join(rows), KINDS)[1] if line[:4] in ("exce", "ask ")]
        asked += len(lines) // 2
        told += sum(a != b for a, b in zip(lines[::2], lines[1::2]))
    checks.true("drawn rows with exclusions", asked == 20 * NETWORKS and told > asked // 6, (asked, told))
    print(f"excepts: {asked:,} rows on small networks, {told:,} of them answered otherwise than without exclusions")


def full_rows():
    """1,024 routers and 16,384 links with marks and one-way links, and 200 rows, some with hops."""
    draw, rows, ends = random.Random(7), [], set()
    routers = [f"10.1.{number >> 8}.{number & 255}" for number in range(1024)]
    numbers = iter(range(1, 1 << 16))

    def put(a, b, one_way):
        near, far = ((router, f"10.{2 + (next_ >> 16)}.{next_ >> 8 & 255}.{next_ & 255}") for router, next_ in
                     ((a, next(numbers)), (b, next(numbers))))
        attributes = f"{draw.randrange(1, 20)},0x{draw.randrange(8):x},{FREE}"
        rows.append(f"put,{near[0]},{near[1]},{far[0]},{far[1]},{attributes}\n")
        if not one_way:
            rows.append(f"put,{far[0]},{far[1]},{near[0]},{near[1]},{attributes}\n")
        ends.update((near[1], far[1]))

    for at in range(1024):
        put(routers[at], routers[(at + 1) % 1024], False)
    while len(rows) < 16_383:
        put(*draw.sample(routers, 2), draw.random() < 0.05)
    rows = [row for at, row in enumerate(rows) if at < 16_384]
    marks = [f"node,{router},0\n" for router in draw.sample(routers[10:], 20)]
    stream = []
    for version, at in enumerate(range(0, len(rows), 4096), 1):
        changes = rows[at:at + 4096] + (marks if at + 4096 > 16_384 else [])
        stream += [*changes, f"end,{version},{len(changes)}\n"]
    stream += [*marks, f"end,{version + 1},{len(marks)}\n"]
    interfaces = sorted(ends)
    for at in range(FULL):
        a, b = draw.sample(routers, 2)
        hops = f"{draw.choice(routers)}/32l" if at % 4 == 0 else ""
        parts = [f"{draw.choice(interfaces)}/32i" if draw.random() < 0.6 else f"{draw.choice(routers)}/{draw.choice([32, 32, 28])}r"
                 for _ in range(draw.choice([1, 2, 8, 64]))]
        stream.append(f"except,{at},{a},{b},0,1,{draw.choice(['0x0', '0x1'])},0x0,0x0,{hops},{' '.join(parts)}\n")
    return stream


def full(program, checks):
    """200 rows at 1,024 routers and 16,384 links, with hops, marks and one-way links."""
    stream = "".join(full_rows())
    status, lines = runs.solve(stream, KINDS)
    found = program.run(["solve", "--except"], stream)
    checks.same("except rows at full size", found, (status, "".join(f"{line}\n" for line in lines).encode(), b""))
    routes = sum(" route " in line for line in lines)
    checks.true("routes at full size", routes > FULL // 2, routes)


# ---- lines that are audited


AVOIDS, KEEPS, ROUTED = "10.0.12.0/31i", "10.0.13.0/24i", ASK_LINE.partition(" v1 ")[2].strip()


def ask_of(name):
    return ASK.replace("ask,7", f"ask,{name}")


def except_of(name, field):
    return f"except,{name},1.1.1.1,2.2.2.2,0,1000,{MASKS},,{field}\n"


BOTH = ask_of(7) + except_of(8, AVOIDS) + except_of(9, KEEPS)
RIGHT = f"ask 7 v1 {ROUTED}\nexcept 8 v1 none\nexcept 9 v1 {ROUTED}\n"
OTHER = {"ask": "except", "except": "ask", "pair": "ask"}
LEFT = "".join(f"request {name} unanswered\n" for name in (7, 8, 9))
UNREAD = ["except", "except ", "except 8", "except 8 ", "except 8 v", "except 8 v1", "except 8 v1\t", "except 08 v1 none",
          "except 8 v01 none", "except 8 1 none", "except 8 V1 none", "except  8 v1 none", "except 8  v1 none", "except\t8 v1 none",
          "except +8 v1 none", "Except 8 v1 none", "excepts 8 v1 none", "excep 8 v1 none", " except 8 v1 none", "ask except 8 v1 none",
          "except ask 8 v1 none", "except 18446744073709551616 v1 none", "except 8 v4294967296 none",
          "except 100000000000000000000 v1 none", "except,8,1.1.1.1", "row 1 refused: except 1"]
# The lines of an audit, over BOTH where nothing else is said, and what it reads.
JUDGED = {
    "rows of both kinds": ("good=3 faults=0\n", RIGHT),
    "lines in another order": ("good=3 faults=0\n", "".join(RIGHT.splitlines(keepends=True)[::-1])),
    "lines among others of a run": ("good=3 faults=0\n", f"version 1\n{RIGHT}applied 1\nbatch 2 refused: full"),
    "lines at the first version": ("good=3 faults=0\n", "except 9 v0 unknown-from\nask 7 v0 unknown-from\nexcept 8 v0 unknown-from\n"),
    "no lines": (f"{LEFT}good=0 faults=3\n", ""),
    "no lines of one kind": ("request 8 unanswered\nrequest 9 unanswered\ngood=1 faults=2\n", RIGHT.partition("except")[0]),
    "each fault": ("line 3 doubled\nline 4 foreign\nline 5 no-version\nline 6 unread\nline 7 altered\ngood=1 faults=5\n",
                   "version 1\nexcept 8 v1 none\nexcept 8 v1 none\nexcept 77 v1 none\nexcept 9 v2 none\nexcept 9\nask 7 v1 none\n"),
    "foreign lines": (f"line 1 foreign\nline 2 foreign\nline 3 foreign\n{LEFT}good=0 faults=6\n",
                      "except 18446744073709551615 v4294967295 none\nexcept 0 v1 none\nask 0 v1 none\n"),
    "a route over an excluded circuit": ("line 2 altered\ngood=2 faults=1\n", RIGHT.replace("8 v1 none", f"8 v1 {ROUTED}")),
    "no route though none is excluded": ("line 3 altered\ngood=2 faults=1\n", RIGHT.replace(f"9 v1 {ROUTED}", "9 v1 none")),
    "the word of the other kind": ("line 1 altered\nline 2 altered\nline 3 altered\ngood=0 faults=3\n",
                                   RIGHT.replace("ask", "EXCEPT").replace("except", "ask").replace("EXCEPT", "except")),
    "the word of the other kind, and no version": ("line 1 no-version\nline 2 no-version\nrequest 9 unanswered\ngood=0 faults=3\n",
                                                   "ask 8 v2 none\nexcept 7 v2 none\n"),
    "an id behind a good line of the other kind": ("line 4 doubled\nline 5 doubled\ngood=3 faults=2\n",
                                                   f"{RIGHT}ask 8 v1 none\nexcept 7 v1 {ROUTED}\n"),
    "an id behind an altered line of the other kind": ("line 1 altered\nline 4 doubled\ngood=2 faults=2\n",
                                                       RIGHT.replace("ask 7", "except 7") + f"ask 7 v1 {ROUTED}\n"),
    "an id behind a line that isn't read": ("line 1 unread\ngood=3 faults=1\n", f"except 8 1 none\n{RIGHT}"),
}
# The line that refuses the requests, and these.
REFUSED = {
    "request row 2 refused: same-id": [one + other for one, other in
                                       itertools.product((ask_of(7), except_of(7, AVOIDS), except_of(7, KEEPS)), repeat=2)],
    "request row 3 refused: same-id": [ask_of(7) + except_of(8, AVOIDS) + except_of(7, AVOIDS),
                                       except_of(7, KEEPS) + ask_of(8) + ask_of(7),
                                       ask_of(7) + except_of(8, AVOIDS) + ask_of(8) + except_of(7, AVOIDS)],
    "request row 3 refused: except 1": [ask_of(7) + except_of(7, AVOIDS) + except_of(8, "x")],
    "request row 2 refused: kind": [except_of(7, AVOIDS) + row for row in (LINK, "Except,8\n", "\nend,1,0\nfoo\n", "excep\n")],
}


class Audits:
    """What audits of questions of these kinds write: by the program, and by the reference."""

    def __init__(self, program, checks, kinds=KINDS):
        self.program, self.checks, self.kinds = program, checks, kinds
        self.words = [OPTIONS[kind] for kind in kinds]

    def says(self, name, lines, requests, replies, journal=CIRCUIT, asked=True):
        """These lines are written, and nothing else."""
        status = 0 if lines.endswith(" faults=0\n") else 2
        found = self.program.audit(journal, requests, replies, *self.words * asked)
        self.checks.same(f"audit: {name}", found, (status, lines.encode(), b""))
        found = runs.audit(journal, requests, replies, self.kinds * asked)
        self.checks.same(f"audit: {name}, by the reference", found, (status, lines.splitlines()))

    def is_right(self, name, journal, requests, replies):
        """The lines of the reference are written. The result is those of all the replies."""
        def wanted(some):
            status, lines = runs.audit(journal, requests, "".join(some), self.kinds)
            return status, "".join(f"{line}\n" for line in lines).encode("latin-1"), b""

        def found(some):
            return self.program.audit(journal, requests, "".join(some).encode("latin-1"), *self.words)

        self.checks.stream(f"audit: {name}", replies, found, wanted)
        return wanted(replies)[1].decode().splitlines()


def not_audited(program, checks):
    """Where `except` rows aren't asked for, they are of no kind, and their lines aren't read."""
    audits = Audits(program, checks)

    def says(name, lines, requests, replies):
        audits.says(f"{name}, not asked for", lines, requests, replies, asked=False)

    for row in [except_of(7, AVOIDS), *(except_of(8, field) for field in FIELDS), *(f"{row}\n" for row in ROWS)]:
        says(f"{row[:60]!r}", "request row 2 refused: kind\n", ask_of(7) + row, RIGHT)
    for line in [f"except 7 v1 {ROUTED}", "except 7 v0 unknown-from", "except 8 v1 none", "except 7 v9 none", *UNREAD]:
        says(f"{line!r}", "line 1 unread\nrequest 7 unanswered\ngood=0 faults=2\n", ask_of(7), f"{line}\n")
        says(f"{line!r} before a good line", "line 1 unread\ngood=1 faults=1\n", ask_of(7), f"{line}\nask 7 v1 {ROUTED}")


def audited(program, checks):
    """With --except they are judged as lines of `ask` rows are."""
    audits = Audits(program, checks)
    judged_by_hand(audits)
    refused_by_hand(audits)
    told_why(audits)
    judged_as_drawn(audits, "excepts", drawn_rows, AUDITED)
    judged_at_full_size(audits)


def judged_by_hand(audits):
    for name, (lines, replies) in JUDGED.items():
        audits.says(name, lines, BOTH, replies)
    for line in UNREAD:
        audits.says(f"{line!r} is unread", f"line 1 unread\n{LEFT}good=0 faults=4\n", BOTH, f"{line}\n")
        audits.says(f"{line!r} before good lines", "line 1 unread\ngood=3 faults=1\n", BOTH, f"{line}\n{RIGHT}")
    rows = {except_of(7, field): line for field, line in FIELDS.items()} | {f"{row}\n": f"{line}\n" for row, line in ROWS.items()}
    for row, line in rows.items():
        if "refused" in line:
            audits.says(f"{row[:60]!r} among requests", line.replace("row 5", "request row 2"), ask_of(8) + row, RIGHT)
        else:
            audits.says(f"the line of {row[:60]!r}", "good=1 faults=0\n", row, line)
            longer = line.replace("\n", " \n")
            audits.says(f"the line of {row[:60]!r}, with a space more", "line 1 altered\ngood=0 faults=1\n", row, longer)
    audits.says("an ask row alone", "good=1 faults=0\n", ask_of(7), ASK_LINE)
    audits.says("an ask row, and the other word", "line 1 altered\ngood=0 faults=1\n", ask_of(7), ASK_LINE.replace("ask", "except"))
    audits.says("nothing", "good=0 faults=0\n", "", "", "")


def refused_by_hand(audits):
    """What isn't audited is named by the first of the journal, its batches, the requests, their ids and the replies."""
    for line, some in REFUSED.items():
        for at, requests in enumerate(some):
            audits.says(f"{line}, {at}", f"{line}\n", requests, RIGHT)
    bad, long = except_of(8, "x"), "\n" * 1_000_001
    audits.says("an except row in the journal", "journal torn after 1\n", bad, RIGHT, CIRCUIT + except_of(8, AVOIDS))
    audits.says("a batch that doesn't fit", "batch 2 refused: absent 1\n", bad, RIGHT, CIRCUIT + "drop,9.9.9.9,1.1.1.1\nend,2,1\n")
    audits.says("a bad row before too many lines", "request row 1 refused: except 1\n", bad, long)
    audits.says("one id twice before too many lines", "request row 4 refused: same-id\n", BOTH + except_of(7, AVOIDS), long)
    audits.says("too many lines", "too many rows\n", BOTH, long)
    found = audits.program.audit(CIRCUIT, ask_of(7) + except_of(7, AVOIDS) * 1_000_000, RIGHT, "--except")
    audits.checks.same("audit: too many rows before one id twice", found, (2, b"too many rows\n", b""))


def told_why(audits):
    """With --explain the row is named for which the requests are refused, and none where they aren't."""
    faulty = RIGHT.replace("again=no", "again=yes")
    for requests, replies, asked, said in [
        (BOTH, RIGHT, True, ""), (BOTH, faulty, True, ""), (BOTH + except_of(7, AVOIDS), RIGHT, True, ""),
        (BOTH + except_of(6, "x"), RIGHT, True, "row 4: except 1"), (BOTH + except_of(6, ""), RIGHT, True, "row 4: except 1"),
        (except_of(6, " ".join(["x"] * 65)), RIGHT, True, "row 1: except count"),
        (f"{BOTH}except,1\n{LINK}", RIGHT, True, "row 4: fields"),
        (BOTH + except_of(6, AVOIDS).replace(",0,1000", ",8,1000"), RIGHT, True, "row 4: priority"),
        (BOTH + LINK, RIGHT, True, "row 4: kind"), (BOTH, RIGHT, False, "row 2: kind"),
    ]:
        with tempfile.TemporaryDirectory() as room:
            words = ["audit", *["--except"] * asked]
            for name, text in (("journal", CIRCUIT), ("requests", requests), ("replies", replies)):
                words += [f"--{name}", os.path.join(room, name)]
                with open(words[-1], "w", encoding="ascii") as file:
                    file.write(text)
            plain, told = audits.program.run(words), audits.program.run([*words, "--explain"])
            line = f"routed: requests {os.path.join(room, 'requests')}: {said}\n" if said else ""
            audits.checks.same(f"audit: explained by {said!r}", told, (*plain[:2], line.encode()))
            is_good = (requests, replies, asked) == (BOTH, RIGHT, True)
            audits.checks.same(f"audit: not explained by {said!r}", (plain[0], plain[2]), (0 if is_good else 2, b""))


def judged_as_drawn(audits, part, rows_of, networks):
    """What `solve` writes over drawn networks is good. Lines that a seed spoils get the faults that the reference finds."""
    judged, faults = 0, collections.Counter()
    for seed in range(networks):
        draw = random.Random(f"audits {seed}")
        rows = rows_of(draw, seed)
        asked = [row for row in rows if is_asked(row)]
        rows = named_anew(draw, [*draw.sample(asked, 4), *rows])  # the first four at version 0
        journal = "".join(row for row in rows if not is_asked(row))
        asked = [row for row in rows if is_asked(row)]
        _, out, _ = audits.program.run(["solve", *audits.words], "".join(rows))
        lines = out.decode().splitlines(keepends=True)
        draw.shuffle(asked)
        draw.shuffle(lines)
        audits.says(f"{part}, drawn network {seed}", f"good={len(asked)} faults=0\n", "".join(asked), "".join(lines), journal)
        lines = spoiled(draw, lines)
        if seed % 3 == 0:
            asked.pop()
        judged += len(asked) + len(lines)
        for line in audits.is_right(f"{part}, drawn network {seed}, spoiled", journal, "".join(asked), lines):
            faults[line.split(" ")[-1]] += 1
    wanted = ("unread", "foreign", "doubled", "no-version", "altered", "unanswered")
    audits.checks.true(f"{part}, drawn lines with each fault", min(faults[fault] for fault in wanted) > networks // 8, faults)
    print(f"{part}: {judged:,} lines are audited, {sum(faults[fault] for fault in wanted):,} of them with a fault")


def is_asked(row):
    return row.partition(",")[0] in OTHER


def named_anew(draw, rows):
    """Each row that asks has an id of its own. Two ids may have the same digits in front."""
    names = iter(draw.sample([*range(90), *range(10 ** 19, 10 ** 19 + 90)], 180))
    texts = (row.split(",", 2) for row in rows)
    return [f"{word},{next(names)},{rest}" if word in OTHER else ",".join([word, name, rest]) for word, name, rest in texts]


def spoiled(draw, lines):
    """Some of the lines with a byte changed, of another version or with the word of another kind, and some that are lost or doubled."""
    lines = list(lines)
    for at in draw.sample(range(len(lines)), 14):
        line = lines[at]
        word, _, rest = line.partition(" ")
        name, _, rest = rest.partition(" v")
        version, _, words = rest.partition(" ")
        place = draw.randrange(len(line))
        lines[at] = draw.choice([
            "", line * 2, line[:place] + chr(draw.randrange(256)) + line[place + 1:], line[:place] + line[place + 1:],
            f"{word} {name} v{draw.choice([0, 1, 2, 3, 2 ** 32])} {words}", f"{OTHER.get(word, word)} {name} v{version} {words}",
            f"{word} {draw.randrange(90)} v{version} {words}", line.replace("\n", " \n")])
    return lines


def judged_at_full_size(audits):
    """The lines of 200 rows at full size, all good, and then two of them changed."""
    rows = full_rows()
    at = next(place for place, row in enumerate(rows) if row.startswith("except,"))
    _, out, _ = audits.program.run(["solve", "--except"], "".join(rows))
    journal, asked, replies = "".join(rows[:at]), "".join(rows[at:]), out.decode()
    found = audits.program.audit(journal, asked, replies, "--except")
    audits.checks.same("audit: 200 rows at full size", found, (0, f"good={FULL} faults=0\n".encode(), b""))
    lines = replies.splitlines(keepends=True)
    first = lines.index(next(line for line in lines if line.startswith("except ")))
    lines[first], lines[first + 1] = lines[first].replace("except", "ask"), lines[first + 1].replace(" v", " v9")
    found = audits.program.audit(journal, asked, "".join(lines), "--except")
    wanted = f"line {first + 1} altered\nline {first + 2} no-version\ngood={FULL - 2} faults=2\n"
    audits.checks.same("audit: 200 rows at full size, two of them spoiled", found, (2, wanted.encode(), b""))
