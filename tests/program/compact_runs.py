"""Runs of `routed book --compact` that concern the program alone: more rows than other streams may have, rows in pieces, devices that fail,
command lines, and calls that are refused."""
import os
import random
import re
import resource
import select
import signal
import subprocess
import tempfile
import time

from program import held_books
from program.compact_books import ROWS, compacted, latin, wanted_of
from program.drawn_books import drawn_stream
from program.kept_books import Kept
from program.known_books import BASE, CIRCUIT, HERE, MASKS, held, held_row, place
from program.known_compacts import EXPLAIN, TORN, WRITTEN, written
from program.refusal import COMPILER, Refuser, each
from program.refused import REFUSALS, is_stopped
from reference import books

BATCHES = 600_000  # of five rows each
STOPPED = b"routed: stopped\n"
FULL = b"routed: standard output: (write|flush): No space left on device \\(os error 28\\)\n"


# ---- many rows


def many_rows():
    """3,000,001 rows: a placement, and batches of two circuits, of which the last batch stays. Pieces of the stream."""
    free = ",".join(["0"] * 8)
    yield f"held,1,1.1.1.1,3.3.3.3,7,0,{MASKS},,0a000c02020202020a00170303030303\n"
    batch = "".join(f"put,{ends},%d,0x1,{free}\n" for ends in CHAIN) + "end,%d,4\n"
    for first in range(1, BATCHES + 1, 2000):
        yield "".join(batch % (at, at, at, at, at) for at in range(first, min(first + 2000, BATCHES + 1)))


CHAIN = ("1.1.1.1,10.0.12.2,2.2.2.2,10.0.12.1", "2.2.2.2,10.0.12.1,1.1.1.1,10.0.12.2", "2.2.2.2,10.0.23.3,3.3.3.3,10.0.23.2",
         "3.3.3.3,10.0.23.2,2.2.2.2,10.0.23.3")  # in order of their keys


def fed(program, pieces, *words):
    """A run over rows that come piece by piece."""
    with tempfile.TemporaryFile() as out, tempfile.TemporaryFile() as err:
        words = [program.path, "book", "--compact", *words]
        with subprocess.Popen(words, stdin=subprocess.PIPE, stdout=out, stderr=err, bufsize=0) as child:
            try:
                for piece in pieces:
                    child.stdin.write(piece.encode())
                child.stdin.close()
            except BrokenPipeError:  # it has ended
                pass
            status = child.wait()
        return status, *(read_again(file) for file in (out, err))


def read_again(file):
    file.seek(0)
    return file.read()


def compact_many_rows(program, checks):
    """More rows than other streams may have, and the most versions."""
    start = time.monotonic()
    text = "".join(f"put,{ends},{BATCHES},0x00000001,{','.join(['0'] * 8)}\n" for ends in CHAIN) + "end,1,4\n" + (
        "held,1,1.1.1.1,3.3.3.3,7,0,0x00000000,0x00000000,0x00000000,,0a000c02020202020a00170303030303\n")
    checks.same("compacted: 3,000,001 rows", fed(program, many_rows(), EXPLAIN), (0, text.encode(), b""))
    print(f"compacted: 3,000,001 rows, {time.monotonic() - start:.0f} s")
    change = "drop,1.1.1.1,10.0.0.1\n"
    checks.same("compacted: 1,000,001 rows and no end", compacted(program, change * 1_000_001, EXPLAIN),
                (2, b"unended 1000001\n", b"routed: standard input: unended 1000001\n"))
    checks.same("compacted: 1,000,001 rows and no end, torn", compacted(program, change * 1_000_001, TORN, EXPLAIN),
                (0, b"", f"routed: standard input: {len(change) * 1_000_001} bytes left out\n".encode()))
    batches = "".join(f"end,{at},0\n" for at in range(1, 1_000_001))
    checks.same("compacted: the most versions", compacted(program, batches, EXPLAIN), (0, b"", b""))
    line = "batch 1000001 refused: exhausted\n"
    checks.same("compacted: one version more", compacted(program, f"{batches}end,1000001,0\n", EXPLAIN),
                (2, line.encode(), f"routed: standard input: row 1000001: {line}".encode()))
    pairs = BASE + (place(1) + "release,1\n") * 449_999 + held_row(1)
    for rows, wanted in [(pairs + "end,2,0\n", (0, (WRITTEN + written(1)).encode(), b"")),
                         *((f"{pairs}{row}", (2, f"{name} refused: exhausted\n".encode(), b"")) for row, name in (
                             (place(1), "place 1"), (held_row(2), "held 2"), ("release,1\n", "release 1")))]:
        checks.same(f"compacted: the most placings, and {rows[len(pairs):-1]}", compacted(program, rows), wanted)


def compact_many_links(program, checks):
    """Rows of held placements whose routes are the longest, and have as many links as all may have, are their own compaction."""
    route, _ = held_books.way(held_books.LONGEST)
    count = books.MOST_ROUTES_LINKS // held_books.LONGEST
    rows = WRITTEN + "".join(written(name, route=route) for name in range(count, 0, -1))
    for words in ([], [TORN]):
        checks.same(f"compacted: the most links of all routes {words}", compacted(program, rows, *words), (0, rows.encode(), b""))
    checks.same("compacted: one link more", compacted(program, rows + held_row(0), EXPLAIN),
                (2, b"held 0 refused: links\n", f"routed: standard input: row {count + 4}: held 0 refused: links\n".encode()))


# ---- how rows come, and where lines go


def compact_pieces(program, checks):
    """Rows that come in pieces, and torn ones: byte by byte, and cut anywhere. Nothing is written before they end."""
    draw = random.Random(5)
    for seed in range(3):
        kept = Kept(drawn_stream(seed, ROWS // 2)).text.decode()
        for rows, words in [(kept, [EXPLAIN]), (kept[:-5], [TORN, EXPLAIN])]:
            for sizes in ([1], [1, 2, 3, 50, 500]):
                pieces, at = [], 0
                while at < len(rows):
                    pieces.append(rows[at:at + draw.choice(sizes)])
                    at += len(pieces[-1])
                checks.same(f"compacted: pieces {sizes} of drawn {seed} {words}", fed(program, pieces, *words), wanted_of(rows, words))


def compact_ends(program, checks):
    """Nothing is written before the last row is read; but a run ends at a refused row, whether more could come or not."""
    for rows, wanted in [(BASE + place(1), (0, WRITTEN + written(1))), (CIRCUIT, (2, "unended 2\n")), ("", (0, "")),
                         (BASE + "foo\n", (2, "row 4 refused: kind\n"))]:
        is_over = "foo" in rows
        with subprocess.Popen([program.path, "book", "--compact"], stdin=subprocess.PIPE, stdout=subprocess.PIPE, bufsize=0) as child:
            child.stdin.write(rows.encode())
            is_said = bool(select.select([child.stdout], [], [], 20 if is_over else 0.3)[0])
            checks.same(f"compacted: whether anything is written before the end of {rows[-8:]!r}", is_said, is_over)
            if is_over:
                checks.same("compacted: a run that ends at a refused row", child.wait(20), 2)
            child.stdin.close()
            checks.same(f"compacted: what is written at the end of {rows[-8:]!r}", (child.wait(), child.stdout.read().decode()), wanted)


def compact_devices(program, checks):
    """A device that fails ends a compaction with status 3, and where nothing can be read, nothing is written."""
    words = [program.path, "book", "--compact"]
    for rows in (BASE + place(1), BASE + "foo\n", CIRCUIT):
        for more, said in (([], b""), ([EXPLAIN], FULL)):
            with open("/dev/full", "wb") as device:
                ran = subprocess.run([*words, *more], input=rows.encode(), stdout=device, stderr=subprocess.PIPE)
            refused = wanted_of(rows, more)[2]  # it may be said first
            checks.true(f"compacted: a full device, {rows[-8:]!r} {more}", ran.returncode == 3
                        and re.fullmatch(b"(" + re.escape(refused) + b")?" + said + STOPPED, ran.stderr), (ran.returncode, ran.stderr))
        reader, writer = os.pipe()
        os.close(reader)
        ran = subprocess.run(words, input=rows.encode(), stdout=writer, stderr=subprocess.PIPE)
        os.close(writer)
        checks.same(f"compacted: the reader is gone, {rows[-8:]!r}", (ran.returncode, ran.stderr), (3, STOPPED))
    for more in ([], [TORN]):
        folder = os.open(HERE, os.O_RDONLY)
        ran = subprocess.run([*words, *more, EXPLAIN], stdin=folder, capture_output=True)
        os.close(folder)
        checks.same(f"compacted: standard input is a folder {more}", (ran.returncode, ran.stdout, ran.stderr),
                    (3, b"", b"routed: standard input: read: Is a directory (os error 21)\n" + STOPPED))
    with tempfile.TemporaryDirectory() as room:
        with open(os.path.join(room, "rows"), "wb") as file:
            file.write((BASE + place(1)).encode())
        line = f'"{program.path}" book --compact'
        for streams, wanted in [("< rows >&-", (3, b"", STOPPED)), ("<&-", (3, b"", STOPPED)),
                                ("< rows 2>&-", (0, (WRITTEN + written(1)).encode(), b""))]:
            ran = subprocess.run(["sh", "-c", f"{line} {streams}"], cwd=room, capture_output=True, timeout=60)
            checks.same(f"compacted: {streams}", (ran.returncode, ran.stdout, ran.stderr), wanted)

        def narrow():
            signal.signal(signal.SIGXFSZ, signal.SIG_IGN)
            resource.setrlimit(resource.RLIMIT_FSIZE, (100, 100))

        with open(os.path.join(room, "out"), "wb") as file:
            ran = subprocess.run(words, input=(BASE + place(1)).encode(), stdout=file, stderr=subprocess.PIPE, preexec_fn=narrow)
        checks.same("compacted: a file that takes 100 bytes", (ran.returncode, ran.stderr, held(os.path.join(room, "out"))),
                    (3, STOPPED, WRITTEN[:100].encode()))


def compact_command_line(program, checks):
    """What is refused, and leaves no file; and what the help names."""
    with tempfile.TemporaryDirectory() as room:
        path = os.path.join(room, "kept")
        for words in (["book", "--compact", "--keep", path], ["book", "--keep", path, "--compact"],
                      ["book", "--compact", TORN, EXPLAIN, "--keep", path], ["book", TORN], ["book", TORN, EXPLAIN],
                      ["book", TORN, "--keep", path], ["book", "--compact", "more"], ["book", "--compact", "--journal", path],
                      ["book", "--compacted"], ["--compact"], *([command, "--compact"] for command in ("solve", "snapshot", "serve"))):
            status, out, err = program.run(words, BASE)
            checks.true(f"compacted: refused words {words}", (status, out) == (1, b"") and err and not os.path.exists(path),
                        (status, out, err))
    text = program.run(["book", "--help"])[2]
    for word in (b"--compact", TORN.encode()):
        checks.true(f"compacted: help of book names {word.decode()}", word in text, text)


# ---- calls that are refused


class Run:
    """A compaction while calls are refused."""

    def __init__(self, program, room, name, rows, *words):
        self.words, self.name = [program.path, "book", "--compact", EXPLAIN, *words], name
        self.source = os.path.join(room, name.replace(" ", "-"))
        self.status, self.out, self.err = wanted_of(rows, self.words)
        with open(self.source, "wb") as file:
            file.write(latin(rows))

    def judge(self, refuser, number, flags):
        """Whether anything was refused, and the fault of the run, if it has one. Where it stops, what it says of the rows may come first,
        and only where a write fails there is a beginning of the text."""
        ran = refuser.run(self.words, flags[0], number, *flags[1:], stdin=self.source)
        first = b"".join(b"(" + re.escape(line) + b")?" for line in self.err.splitlines(keepends=True))
        is_write = flags[0] == "write" and "short" not in flags
        whole = (ran.status, ran.out, ran.err) == (self.status, self.out, self.err)
        is_silent = flags == ("write", "on") and ran.status == 3 and re.fullmatch(first, ran.err)  # nobody can be told why it stops
        is_part = is_write and self.out.startswith(ran.out) and ran.out != self.out or ran.out == b""
        part = is_part and (is_stopped(ran, flags, first) or is_silent)
        lines = iter(self.err.splitlines())
        mute = is_write and (ran.status, ran.out) == (self.status, self.out) and ran.err != self.err and all(
            line in lines for line in ran.err.splitlines())
        fault, is_full = ran.fault(), flags in (("write",), ("write", "on"))
        if fault is None and not (whole if ran.refused == 0 or "short" in flags else whole and not is_full or part or mute):
            fault = f"status {ran.status}, {ran.out[-200:]}, {ran.err[-200:]}"
        return ran.refused != 0, fault


def compact_refused_calls(program, checks):
    """While the C library refuses calls, each in turn, a compaction ends whole or stopped."""
    if COMPILER is None:
        print("refused calls of a compaction: skipped, there is no C compiler")
        return
    refuser, tried, start = Refuser(), 0, time.monotonic()
    room, kept = refuser.room.name, Kept(drawn_stream(2, ROWS)).text
    for run in [Run(program, room, "a placement", BASE + place(1)), Run(program, room, "drawn", kept),
                Run(program, room, "torn", kept[:-20], TORN), Run(program, room, "refused", BASE + held_row(1) + "foo\n" + BASE),
                Run(program, room, "torn and refused", BASE + place(1) + "release,2\n" + CIRCUIT, TORN)]:
        for flags in REFUSALS:
            count, faults = each(lambda number: run.judge(refuser, number, flags))
            checks.same(f"compacted: {run.name} while calls are refused {flags}", faults, [])
            tried += count
    checks.true("calls of compactions are refused", tried > 100, tried)
    print(f"refused calls of compactions: {tried}, {time.monotonic() - start:.0f} s")


PARTS = (compact_many_rows, compact_many_links, compact_pieces, compact_ends, compact_devices, compact_command_line,
         compact_refused_calls)
