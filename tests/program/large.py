"""The longest routes through `serve`, a search in which many states wait, and journals of 100,000 batches through `live`, `audit` and
`snapshot`."""
import os
import re
import subprocess
import tempfile
import time

from reference import runs

BATCHES = 100_000
ROUTERS = 1024  # the most that a table takes
LEGS = 8  # the most of a request
FREE = ",".join(["1000"] * 8)
FIRST, LAST = "2.0.0.0", "2.0.3.255"
PATIENCE = 300  # seconds that a run may take on a machine that others use


def large(program, checks):
    start = time.monotonic()
    with tempfile.TemporaryDirectory() as room:
        served_routes(program, checks, room)
        long_journal(program, checks, room)
    waiting(program, checks)
    print(f"large: {BATCHES} batches, {time.monotonic() - start:.0f} s")


def address(top, number):
    return f"{top}.{number >> 16 & 255}.{number >> 8 & 255}.{number & 255}"


def put(start, local, end, remote, metric):
    return f"put,{start},{local},{end},{remote},{metric},0x00000001,{FREE}\n"


def ask(name, end, hops=""):
    """A request from the first router."""
    return f"ask,{name},{FIRST},{end},0,1,0x0,0x0,0x0,{hops}\n"


def longest_routes():
    """Rows of 1,024 routers in a ring of one direction, with requests for its longest routes, and their lines by the reference.

    No bandwidth is unreserved in the other direction. The first request goes from the first router to the last. The second has seven hops,
    each right before the one before it, and a tail-end right before the last of them: each of its eight legs goes round to there."""
    rows, none = "", ",".join(["0"] * 8)
    for number in range(ROUTERS):
        end = (number + 1) % ROUTERS
        near, far = (address(2, number), address(10, number)), (address(2, end), address(11, end))
        rows += put(*near, *far, 4294967295) + put(*far, *near, 4294967295).replace(FREE, none)
    hops = " ".join(f"{address(2, ROUTERS - leg)}/32l" for leg in range(1, LEGS))
    rows += f"end,1,{2 * ROUTERS}\n" + ask(1, LAST) + ask(2, address(2, ROUTERS - LEGS), hops)
    return rows, "".join(f"{line}\n" for line in runs.solve(rows)[1])


def served_routes(program, checks, room):
    """The lines come whole by `solve`, by a client of `serve` and by its updates, also that of more than 65,536 bytes."""
    rows, lines = longest_routes()
    sizes = [len(ero) // 2 for ero in re.findall("ero=([0-9a-f]*)\n", lines)]
    checks.same("the sizes of the longest routes", sizes, [4 + 8 * (ROUTERS - 1), 4 + 8 * LEGS * (ROUTERS - 1)])
    checks.same("the longest routes through solve", program.solve(rows), (0, lines.encode(), b""))
    begin = rows.index("ask,")
    pipes = [os.path.join(room, name) for name in ("asks", "replies")]
    for pipe in pipes:
        os.mkfifo(pipe)
    words = [program.path, "serve", "--explain", "--journal", os.path.join(room, "ring"), "--client", "=".join(pipes)]
    with subprocess.Popen(words, stdin=subprocess.PIPE, stdout=subprocess.PIPE, stderr=subprocess.PIPE, text=True) as run:
        with open(pipes[0], "w") as asking, open(pipes[1]) as answered:
            run.stdin.write(rows[:begin])
            run.stdin.flush()
            told = run.stdout.readline()
            asking.write(rows[begin:])
            asking.close()
            found = told + answered.read()
        rest, said = run.communicate(rows[begin:], timeout=PATIENCE)
    checks.same("the longest routes through serve", (found, told + rest, said, run.returncode), (lines, lines, "", 0))


def waiting(program, checks):
    """8,176 keys wait in the heap of a search at once.

    A hub has a link to each of 1,022 routers, and the first of these leads on to the tail-end. Seven hops admit any router, so the hub is
    as near to the tail-end in each of the eight legs. It is settled in all of them before any other router, which has one link more. In
    each leg its links give 1,022 routers a key."""
    ends = [((FIRST, address(10, number)), (address(2, number), address(11, number)), min(number, 9)) for number in range(1, ROUTERS - 1)]
    ends.append(((address(2, 1), "10.9.0.1"), (LAST, "10.9.0.2"), 1))
    rows = "".join(put(*near, *far, metric) + put(*far, *near, metric) for near, far, metric in ends)
    rows += f"end,1,{2 * len(ends)}\n" + ask(1, LAST, " ".join(["0.0.0.0/0l"] * (LEGS - 1)))
    wanted = "version 1\nask 1 v1 route cost=2 hops=2 again=no ero=0014140101080b000001200001080a0900022000\n"
    checks.same("8,176 keys wait", program.solve(rows), (0, wanted.encode(), b""))
    checks.same("their answer by the reference", runs.solve(rows), (0, wanted.splitlines()))


def long_journal(program, checks, room):
    """A journal of 100,000 batches: a circuit, and then its metric, which is the batch's number."""
    ends = [("1.1.1.1", "10.0.12.1", "2.2.2.2", "10.0.12.2"), ("2.2.2.2", "10.0.12.2", "1.1.1.1", "10.0.12.1")]
    back = put(*ends[1], 7)
    text = [put(*ends[0], 1) + back + "end,1,2\n"] + [put(*ends[0], number) + f"end,{number},1\n" for number in range(2, BATCHES + 1)]
    updates, requests, journal = (os.path.join(room, name) for name in ("updates", "requests", "journal"))
    write(updates, "".join(text))
    versions = (1, 2, 4097, 65536, BATCHES - 1, BATCHES)
    write(requests, "".join(f"ask,{number},1.1.1.1,2.2.2.2,0,5,0x0,0x0,0x0,\n" for number in range(len(versions))))
    status, out, err = program.run(["live", "--updates", updates, "--requests", requests, "--journal", journal], timeout=PATIENCE)
    *replied, last = out.splitlines() or [b""]
    named = [re.match(rb"ask \d+ v(\d+) ", line) for line in replied]
    wanted = [reply(number, int(at[1])) if at and at[1] != b"0" else b"ask %d v0 unknown-from" % number for number, at in enumerate(named)]
    checks.same("live applies 100,000 batches", (status, last, err), (0, f"applied {BATCHES}".encode(), b""))
    checks.same("its replies", (len(replied), replied), (len(versions), wanted))
    checks.true("its journal is the updates", open(journal).read() == "".join(text))
    status, out, err = program.run(["batch", "--journal", journal, "--requests", requests], timeout=PATIENCE)
    wanted = [*(b"version %d" % version for version in range(1, BATCHES + 1)), *(reply(number, BATCHES) for number in range(len(versions)))]
    checks.same("all versions of the journal", (status, out.splitlines(), err), (0, wanted, b""))
    status, out, err = program.run(["snapshot", "--journal", journal], timeout=PATIENCE)
    checks.same("its snapshot", (status, out.decode(), err), (0, put(*ends[0], BATCHES) + back + "end,1,2\n", b""))
    replies = os.path.join(room, "judged")
    for name, shift, wanted in (("true", 0, (0, f"good={len(versions)} faults=0\n")), ("false", 1, (2, ""))):
        write(replies, b"".join(reply(number, version, version + shift) + b"\n" for number, version in enumerate(versions)).decode())
        status, out, err = program.run(["audit", "--journal", journal, "--requests", requests, "--replies", replies], timeout=PATIENCE)
        lines = "".join(f"line {number} altered\n" for number in range(1, len(versions) + 1)) + f"good=0 faults={len(versions)}\n"
        checks.same(f"{name} replies at six of its versions", (status, out.decode(), err), (wanted[0], wanted[1] or lines, b""))


def write(path, text):
    with open(path, "w") as file:
        file.write(text)


def reply(number, version, cost=None):
    """The reply at a version, whose circuit has the metric of the version's number."""
    return f"ask {number} v{version} route cost={cost or version} hops=1 again=no ero=000c140101080a000c022000".encode()
