#!/usr/bin/env python3
"""Tests of `routed book`: worked streams (tests/program/scripts/book), refusals, limits, and drawn streams compared with
tests/reference/books.py; and those of `routed book --compact` (tests/program/compact_books.py, tests/program/compact_runs.py).

    tests/program/book.py
    tests/program/book.py --full

Run by itself it tries the reference alone, on all whose lines are known, and counts the drawn streams that tell each wrong book
(tests/reference/wrong.py) apart. As a part of tests/run it tries the built program beside the reference, on drawn streams and while calls
are refused, too. With --full it tries the program with the most placements, which takes a minute or more.
"""
import argparse
import collections
import os
import random
import resource
import signal
import subprocess
import sys
import tempfile
import time

sys.dont_write_bytecode = True
sys.path.insert(1, os.path.dirname(os.path.dirname(os.path.abspath(__file__))))
from checks import Checks
from program import compact_books, compact_runs, held_books, kept_books, known_books
from program.drawn_books import IDS, ROWS, STREAMS, WANTED, Drawn, drawn_stream, kinds_of, offers_of, stream
from program.known_books import BASE, CIRCUIT, DIRECT, ENDS, FREE, HERE, MASKS, SCRIPTS, Reference, address, held, held_row, offer, place
from program.known_books import status_of, worked
from program.refusal import COMPILER, Refuser, each
from program.refused import REFUSALS, is_stopped
from reference import books, runs, wrong
from reference.changes import changed

from routed.program import BUILT

LARGE = 200  # rows at full size
KEPT_ROWS = 1000  # of the book whose runs are killed
STOPPED = 3, b"routed: stopped\n"


def known():
    return [*known_books.known(), *held_books.known()]


def lowered(module):
    """The lines of a reference whose limits are low, and of one whose file of `--keep` is full."""
    return known_books.lowered(module), held_books.lowered(module), held_books.cut_short(module)


LOWERED = known_books.LOWERED, held_books.LOWERED, held_books.CUT_SHORT


def streams(program, checks):
    """The program and the reference on streams whose lines are known; other commands know no row of a book."""
    for name, rows, lines in [*worked(), *known()]:
        rows = rows if isinstance(rows, bytes) else rows.encode("latin-1")
        for kind, one in (("program", program), ("reference", len(rows) < 10 ** 7 and Reference())):
            if one:
                checks.same(f"book: {name}: {kind}", one.run(["book"], rows), (status_of(lines), lines.encode(), b""))
    for found, wanted in zip(lowered(books), LOWERED):
        checks.same("book: limits that are lowered, and files that are full: reference", found, wanted)
    if program:
        others(program, checks)


def others(program, checks):
    """The other commands know no row of a book."""
    rows = [place(1), "release,1\n", held_row(1), offer(1), "show,1\n", "left,1.1.1.1,10.0.12.1\n"]
    lines = "".join(f"row {at} refused: kind\n" for at in range(4, 10))
    checks.same("solve has no rows of a book", program.run(["solve"], BASE + "".join(rows)), (2, f"version 1\n{lines}".encode(), b""))
    for row in rows:
        kind = row.partition(",")[0]
        checks.same(f"batch: a request {kind}", program.batch(BASE, row), (2, b"request row 1 refused: kind\n", b""))
        checks.same(f"batch: a journal with {kind}", program.batch(BASE + row, ""), (2, b"journal torn after 1\n", b""))
        checks.same(f"audit: a request {kind}", program.audit(BASE, row, ""), (2, b"request row 1 refused: kind\n", b""))


def full(path, checks):
    """65,536 placements, and one more: of another id it is refused, of the same it is moved. It is tried by hand, since each is counted
    anew."""
    most = books.MOST_PLACEMENTS
    rows = BASE + "".join(place(name, bandwidth=0) for name in range(most))
    more = place(most) + place(most, ends="1.1.1.1,9.9.9.9") + offer(most) + held_row(most) + held_row(0) + offer(0) + place(0) + (
        "release,1\n" + offer(1) + held_row(most) + held_row(1) + place(1) + "release,0\n" + place(1))
    lines = "".join(f"place {name} v{name + 2} {DIRECT}\n" for name in range(most))
    lines = f"base 1 v1\n{lines}" + f"place {most} refused: full\n" * 2 + (
        f"offer {most} refused: full\nheld {most} refused: full\nheld 0 refused: same-id\noffer 0 v{most + 1} {DIRECT}\n"
        f"place 0 v{most + 2} {DIRECT}\nreleased 1 v{most + 3}\noffer 1 v{most + 3} {DIRECT}\nheld {most} v{most + 4}\n"
        f"held 1 refused: full\nplace 1 refused: full\nreleased 0 v{most + 5}\nplace 1 v{most + 6} {DIRECT}\n")
    start = time.monotonic()
    ran = subprocess.run([path, "book"], input=(rows + more).encode(), capture_output=True)
    checks.same("65,536 placements", (ran.returncode, ran.stdout, ran.stderr), (2, lines.encode(), b""))
    print(f"book: {most:,} placements on one circuit, {time.monotonic() - start:.0f} s")


def drawn(program, checks):
    """Drawn streams, line by line; some with changed bytes. Offers are answered as the place rows after them."""
    said, offers, start = collections.Counter(), [], time.monotonic()
    for seed in range(STREAMS):
        rows = drawn_stream(seed)
        said += kinds_of(rows, compared(program, checks, f"drawn book {seed}", rows))
        offers += offers_of(rows, books.steps(rows)[1])
    checks.same("offers that aren't answered as the place rows after them", [pair for pair in offers if len(set(pair)) != 1], [])
    checks.true("offers stand before place rows", len(offers) > 200, len(offers))
    for seed in range(STREAMS):
        rows, names = changed(random.Random(f"book {seed}"), drawn_stream(seed, ROWS // 2))
        compared(program, checks, f"changed book {seed} ({', '.join(names)})", rows)
    few = {what: said[what] for what, least in WANTED.items() if said[what] < least}
    checks.same("what the drawn streams say too seldom", few, {})
    print(f"book: {', '.join(f'{what} {count:,}' for what, count in sorted(said.items()))}, {time.monotonic() - start:.0f} s")


def compared(program, checks, name, rows):
    """The lines of the reference. Those of the program have to be the same."""
    wanted = Reference().run(["book"], rows)
    if program:
        def right(some):
            text = "".join(some)
            return wanted if text == rows else Reference().run(["book"], text)

        checks.stream(name, rows.splitlines(keepends=True), lambda some: program.run(["book"], "".join(some).encode("latin-1")), right)
    return wanted[1].decode("latin-1").splitlines()


def released(program, checks):
    """Once all are released, a book answers as `solve` over the base's rows alone, where the base's figures don't rise."""
    for seed in range(40):
        drawn = Drawn(4 * seed)
        base = [row for row in drawn.rows]
        while len(drawn.rows) < 60:
            drawn.rows.append(drawn.request("place", drawn.draw.choice(IDS), drawn.draw.randrange(8)))
            drawn.rows.append(drawn.held())
        asks = [drawn.request("ask", name, drawn.draw.randrange(8)) for name in range(20)]
        book = stream([*drawn.rows, *(f"release,{name}" for name in IDS), *asks])
        solve = stream([*base, *asks])
        outcomes = [runs.solve(solve)[1][-20:], books.book(book)[1][-20:]]
        if program:
            outcomes += [program.run([command], rows)[1].decode().splitlines()[-20:]
                         for command, rows in (("solve", solve), ("book", book))]
        for lines in outcomes:
            lines[:] = [" ".join([*line.split()[:2], *line.split()[3:]]) for line in lines]
        checks.true(f"a book whose placements are all released {seed}", all(lines == outcomes[0] for lines in outcomes), outcomes)


def large_rows():
    """1,024 routers, 16,384 links in four batches, and then rows of all kinds. Each router has eight circuits to the next ones on a
    ring."""
    draw, count, rows, number, names = random.Random(1), 1024, [], 0, [0]
    reach = [1, 2, 5, 13, 34, 89, 233, 500]
    ends = [((router, at), ((router + step) % count, 8 + at)) for at, step in enumerate(reach) for router in range(count)]

    def put(near, far, metric):
        free = sorted((draw.randrange(200, 1001) for _ in range(8)), reverse=True)
        return (f"put,{address(2, near[0])},{address(10, near[0] * 16 + near[1])},{address(2, far[0])},{address(10, far[0] * 16 + far[1])},"
                f"{metric},0x1,{','.join(map(str, free))}")

    def batch(changes):
        nonlocal number
        number += 1
        return [*changes, f"end,{number},{len(changes)}"]

    for at in range(0, len(ends), 2048):
        changes = []
        for near, far in ends[at:at + 2048]:
            metric = draw.randrange(1, 20)
            changes += [put(near, far, metric), put(far, near, metric)]
        rows += batch(changes)
    for at in range(LARGE):
        kind = draw.choices(["place", "ask", "release", "fail", "return", "held", "offer", "show", "left"],
                            [70, 12, 5, 8, 5, 20, 5, 5, 5])[0]
        start, end = draw.choice([0, 1, 2]), draw.randrange(3, count)
        hops, route = draw.choice(["", "", f"{address(2, draw.randrange(3, count))}/32l"]), ""
        if kind == "held":
            end = start
            while end < 3:
                way, size = draw.choice(list(enumerate(reach)))
                near, end = draw.choice([(16 * end + way, (end + size) % count), (16 * end + 8 + way, (end - size) % count)])
                route += f"{10 << 24 | near:08x}{2 << 24 | end:08x}"
        if kind in ("place", "ask", "held", "offer"):
            name, priority, bandwidth = draw.randrange(120), draw.randrange(8), draw.choice([50, 150, 300])
            names.append(name)
            row = f"{kind},{name},{address(2, start)},{address(2, end)},{priority},{bandwidth},{MASKS},{hops}"
            rows.append(f"{row},{route}" if route else row)
        elif kind == "release":
            rows.append(f"release,{draw.randrange(120)}")
        elif kind == "show":
            rows.append(f"show,{draw.choice(names)}")
        elif kind == "left":
            rows.append(f"left,{address(2, start)},{address(10, start * 16 + draw.randrange(17))}")
        else:  # circuits at the head-ends fail, or come with less
            chosen = draw.sample([pair for pair in ends if pair[0][0] < 3 or pair[1][0] < 3], 4)
            changes = ["put," + ",".join(f"{address(2, at)},{address(10, at * 16 + way)}" for at, way in pair) + ",3,0x1,"
                       + ",".join([str(300 if kind == "return" else 10)] * 8) for pair in chosen]
            marks = [f"node,{address(2, draw.randrange(3, count))},{draw.choice([0, 1])}"]
            rows += batch([*changes, *marks])
    return rows


def full_size(program, checks):
    start = time.monotonic()
    rows = large_rows()
    text = stream(rows)
    said = kinds_of(text, compared(program, checks, "a book at full size", text))
    wanted = {"placed": 50, "placed again": 20, "over": 20, "lost": 0, "base": 12, "released": 2, "held": 20, "over by a held row": 10,
              "offered: route": 3, "show": 2, "left": 5}
    few = {what: said[what] for what, least in wanted.items() if said[what] < least}
    checks.same("what a book at full size says too seldom", few, {})
    print(f"book at full size: {', '.join(f'{what} {count:,}' for what, count in sorted(said.items()))}, {time.monotonic() - start:.0f} s")


# ---- the program alone


def pieces(program, checks):
    """Rows that come in pieces: byte by byte, and cut anywhere."""
    draw = random.Random(5)
    for name, rows in [("over and lost", held(os.path.join(SCRIPTS, "over_and_lost.rows"))),
                       *((f"drawn {seed}", drawn_stream(seed).encode()) for seed in range(4))]:
        wanted = Reference().run(["book"], rows)
        for sizes in ([1], [1, 2, 3, 50, 500]):
            with tempfile.TemporaryFile() as out, tempfile.TemporaryFile() as err:
                child, at = subprocess.Popen([program.path, "book"], stdin=subprocess.PIPE, stdout=out, stderr=err, bufsize=0), 0
                while at < len(rows):
                    size = draw.choice(sizes)
                    child.stdin.write(rows[at:at + size])
                    at += size
                child.stdin.close()
                status = child.wait()
                checks.same(f"book: {name} in pieces {sizes}", (status, *(written(file) for file in (out, err))), wanted)


def written(file):
    file.seek(0)
    return file.read()


def dialogue(program, checks):
    """The lines of each row are on standard output before the next row is sent."""
    with subprocess.Popen([program.path, "book"], stdin=subprocess.PIPE, stdout=subprocess.PIPE, bufsize=0) as child:
        reader = os.fdopen(os.dup(child.stdout.fileno()), "rb")
        for rows, lines in [
            (BASE, ["base 1 v1"]), (place(1), [f"place 1 v2 {DIRECT}"]), (place(2, bandwidth=1000), ["place 2 v2 none"]),
            ("foo\n", ["row 6 refused: kind"]), (offer(3), [f"offer 3 v2 {DIRECT}"]),
            (held_row(3, bandwidth=1000), ["over 1.1.1.1,10.0.12.1 7", "held 3 v3"]), (held_row(3), ["held 3 refused: same-id"]),
            ("show,3\n", ["show 3 v3 from=1.1.1.1 to=2.2.2.2 hold=7 bandwidth=1000 links=1 1.1.1.1,10.0.12.1"]),
            ("left,1.1.1.1,10.0.12.1\n", [f"left 1.1.1.1,10.0.12.1 v3 base={FREE} counted=0,0,0,0,0,0,0,1001 left={FREE[:35]}0"]),
            ("release,3\n", ["released 3 v4"]),
            (f"put,{ENDS[0]},10,0x1,{'0,' * 7}0\ndrop,2.2.2.2,10.0.12.2\nend,2,2\n", ["over 1.1.1.1,10.0.12.1 7", "lost 1", "base 2 v5"]),
            ("release,1\n", ["released 1 v6"]), ("release,1\n", ["release 1 refused: absent"]),
            ("end,2,0\n", ["batch 2 refused: expected 3"]),
        ]:
            child.stdin.write(rows.encode())
            checks.same(f"a dialogue with a book: {rows[:8].strip()}", [reader.readline().decode().rstrip("\n") for _ in lines], lines)
        child.stdin.close()
        checks.same("the end of a dialogue with a book", (reader.read(), child.wait()), (b"", 2))
        reader.close()


def devices(program, checks):
    """A device that fails ends a book with status 3; what was written before stands."""
    rows, words = (BASE + place(1)).encode(), [program.path, "book"]

    def fault(name, rows=rows, **streams):
        child = subprocess.Popen(words, stderr=subprocess.PIPE, **streams)
        _, err = child.communicate(rows if streams.get("stdin") == subprocess.PIPE else None)
        checks.same(f"book: {name}", (child.returncode, err), STOPPED)

    with open("/dev/full", "wb") as device:
        fault("standard output is full", stdin=subprocess.PIPE, stdout=device)
    reader, writer = os.pipe()
    os.close(reader)
    fault("the reader of standard output is gone", stdin=subprocess.PIPE, stdout=writer)
    os.close(writer)
    folder = os.open(HERE, os.O_RDONLY)
    fault("standard input is a folder", stdin=folder, stdout=subprocess.DEVNULL)
    os.close(folder)
    with tempfile.NamedTemporaryFile() as source, tempfile.TemporaryDirectory() as room:
        source.write(rows)
        source.flush()
        ran = subprocess.run(["sh", "-c", f'"{program.path}" book < "{source.name}" >&-'], capture_output=True)
        checks.same("book: standard output is closed", (ran.returncode, ran.stderr), STOPPED)

        def narrow():
            signal.signal(signal.SIGXFSZ, signal.SIG_IGN)
            resource.setrlimit(resource.RLIMIT_FSIZE, (16, 16))

        out = os.path.join(room, "out")
        with open(out, "wb") as written:
            child = subprocess.Popen(words, stdin=subprocess.PIPE, stdout=written, stderr=subprocess.PIPE, preexec_fn=narrow)
            _, err = child.communicate(rows)
        checks.same("book: what was written before a fault", (child.returncode, err, held(out)), (*STOPPED, b"base 1 v1\nplace "))
    for command in (["book", "--explain"], ["book"]):
        with open("/dev/full", "wb") as device:
            ran = subprocess.run([program.path, *command], input=rows, stdout=device, stderr=subprocess.PIPE)
        said = b"routed: standard output: write: No space left on device (os error 28)\n" if "--explain" in command else b""
        checks.same(f"explained: {command}", (ran.returncode, ran.stderr), (3, said + b"routed: stopped\n"))


def command_line(program, checks):
    for words in (["book", "more"], ["book", "--rows"], ["book", "--journal", "/dev/null"], ["book", "--workers", "2"], ["books"],
                  ["help", "book"]):
        status, out, err = program.run(words, BASE)
        checks.true(f"refused: {words}", status == 1 and out == b"" and err != b"", f"{status} {out} {err}")
    status, out, text = program.run(["book", "--help"])
    for word in [b"put", b"drop", b"node", b"end", b"ask", b"place", b"release", b"held", b"offer", b"show", b"left", b"over", b"lost",
                 b"status", b"--keep", b"--explain"]:
        checks.true(f"help of book names {word.decode()}", (status, out) == (1, b"") and word in b" ".join(text.lower().split()), text)


class Rows:
    """A run of `book` on some rows."""

    def __init__(self, program, room, name, rows):
        self.name, self.words, self.rows = name, [program.path, "book", "--explain"], os.path.join(room, name)
        self.status, self.lines, _ = Reference().run(["book"], rows)
        with open(self.rows, "wb") as file:
            file.write(rows)

    def judge(self, refuser, number, flags):
        """Whether anything was refused, and the fault of the run, if it has one."""
        ran = refuser.run(self.words, flags[0], number, *flags[1:], stdin=self.rows)
        whole = (ran.status, ran.out, ran.err) == (self.status, self.lines, b"")
        is_as_ever, is_full = ran.refused == 0 or "short" in flags, flags in (("write",), ("write", "on"))
        right = whole or is_stopped(ran, flags) and self.lines.startswith(ran.out)
        fault = ran.fault()
        if fault is None and not (whole if is_as_ever else right and not (whole and is_full)):
            fault = f"status {ran.status}, {ran.out[-200:]}, {ran.err[-200:]}"
        return ran.refused != 0, fault


def refused_calls(program, checks):
    """While the C library refuses calls, each in turn, a book ends whole or stopped, and what it wrote is a prefix of the right lines."""
    if COMPILER is None:
        print("refused calls of a book: skipped, there is no C compiler")
        return
    refuser, tried = Refuser(), 0
    runs = [Rows(program, refuser.room.name, name, held(os.path.join(SCRIPTS, f"{name}.rows")))
            for name in ("over_and_lost", "a_route_that_uses_a_link_twice", "over_of_a_held_row", "show_and_left_before_and_after")]
    runs.append(Rows(program, refuser.room.name, "drawn", drawn_stream(2).encode()))
    for run in runs:
        for flags in REFUSALS:
            count, faults = each(lambda number: run.judge(refuser, number, flags))
            checks.same(f"book: {run.name} while calls are refused {flags}", faults, [])
            tried += count
    checks.true("calls of a book are refused", tried > 100, tried)
    print(f"refused calls of a book: {tried}")


def keeps(program, checks):
    """What `--keep` leaves."""
    known_ones = [(name, rows) for name, rows, _ in known() if len(rows) < 100_000]
    kept_books.remade(program, checks, [*((name, rows) for name, rows, _ in worked()), *known_ones,
                                        *((f"drawn {seed}", drawn_stream(seed)) for seed in range(20))])
    changed = CIRCUIT.replace(",10,0x1,", ",20,0x1,").splitlines(keepends=True)
    among = BASE + changed[0] + held_row(1) + place(1) + changed[1] + place(2) + "end,2,2\nnode,2.2.2.2,0\nrelease,1\nend,9,1\n"
    among += "node,1.1.1.1,0\n" + place(3) + held_row(4) + "end,3,1\n"
    kept_books.gone_on(program, checks, [*((name, rows) for name, rows, _ in worked()), ("rows among open changes", among)])
    kept_books.most_rows(program, checks, BASE + place(1))
    kept_books.refused_files(program, checks)
    rows = held(os.path.join(SCRIPTS, "over_and_lost.rows"))
    kept_books.full(program, checks, "over and lost", rows)
    kept_books.full(program, checks, "held rows", held_books.CUT.encode())
    for seed in range(5):
        kept_books.full(program, checks, f"drawn {seed}", drawn_stream(seed), 97)
    kept_books.refused_calls(program, checks, rows)
    kept_books.killed(program, checks, drawn_stream(3, KEPT_ROWS))


def replayed(program, checks):
    """The book of what is kept is the book: of both `show` and `left` say the same."""
    kept_books.same_book(program, checks, [*((name, rows.decode("latin-1")) for name, rows, _ in worked()),
                                           *((f"drawn {seed}", drawn_stream(seed)) for seed in range(20))])


# ---- wrong books


def told_apart(_, checks, seeds=0):
    """Each wrong book is told apart by streams whose lines are known; by hand also how many drawn streams tell it apart."""
    cases = [(name, rows, (status_of(lines), lines.encode(), b"")) for name, rows, lines in [*worked(), *known()] if len(rows) < 30_000]
    streams = [(rows, Reference().run(["book"], rows)) for rows in map(drawn_stream, range(seeds))]
    count = 0
    for name, module in wrong.books():
        one = Reference(module)
        where = next((case for case, rows, wanted in cases if one.run(["book"], rows) != wanted), None)
        where = where or lowered(module) != LOWERED and "low limits or full files"
        checks.true(f"a book that {name} is told apart", where)
        count += 1
        if seeds:
            print(f"a book that {name}: told apart by {where} and by {sum(one.run(['book'], rows) != wanted for rows, wanted in streams)} "
                  f"of {seeds} drawn streams")
    checks.true("there are wrong books", count >= 140, count)


def book(program, checks):
    checks.parts((streams, drawn, released, full_size, pieces, dialogue, devices, command_line, refused_calls, keeps, replayed,
                  told_apart, *compact_books.PARTS, *compact_runs.PARTS), program, checks)


def main():
    words, checks = argparse.ArgumentParser(description=__doc__, formatter_class=argparse.RawDescriptionHelpFormatter), Checks()
    words.add_argument("--full", action="store_true")
    if words.parse_args().full:
        full(BUILT, checks)
    else:
        checks.parts((streams, drawn, released, full_size, replayed, *compact_books.PARTS), None, checks)
        told_apart(None, checks, 20)
    checks.end()


if __name__ == "__main__":
    main()
