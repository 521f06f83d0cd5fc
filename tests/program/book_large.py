#!/usr/bin/env python3
"""Runs of `routed serve --book` on large books, and such as go on from a compaction. With ROWS=N in the environment N / 50 rows are tried
at full size, and with BOOKS=N N books go on from a compaction.

    [ROWS=10000] tests/program/book_large.py

Run by itself it tries the reference alone, on the rows at full size.
"""
import os
import random
import sys
import tempfile
import time

if __name__ == "__main__":
    sys.path.insert(0, os.path.dirname(os.path.dirname(os.path.abspath(__file__))))
from checks import Checks
from program.book import large_rows
from program.book_served import VERSIONS, networks_of
from program.compact_books import bare, batches_of, difference, gone_on, latin, moved
from program.drawn_books import kinds_of, stream
from program.kept_books import Kept
from program.known_books import BASE, DIRECT, held_row, offer, place
from program.known_compacts import WRITTEN
from program.known_served_books import left, put
from program.served_calls import Served, texts_of
from reference import books, compacts, runs
from reference.served_books import Run

FULL_SIZE = VERSIONS // 50  # rows at full size
BOOKS, MORE = int(os.environ.get("BOOKS", "4")), 3000  # that go on from a compaction, and the rows of each after it
PLACEMENTS, PUTS, LONG = 10_000, 4096, 12  # placements below a batch, the puts of the batch, and the links of the longest route


# ---- full size


def loading(rows):
    """How many rows put the network."""
    return next(at for at, row in enumerate(rows, 1) if row.startswith("end,4,"))


def large_full_size(program, checks):
    """1,024 routers, 16,384 links, and then rows of all kinds: lines, kept rows and journal."""
    start, rows = time.monotonic(), large_rows()
    rows = stream(rows[:loading(rows) + FULL_SIZE])
    run = Run(rows)
    networks_of(checks, "a served book at full size", run)
    if program:
        with tempfile.TemporaryDirectory() as room:
            checks.same("a served book at full size", Served(program, room).run(rows), texts_of(run))
    said = kinds_of(rows, run.lines.splitlines())
    few = {what for what in ("placed", "placed again", "held", "over by a held row", "offered: route", "ask", "left", "base")
           if not said[what]}
    checks.same("what a served book at full size never says", few, set())
    print(f"served book at full size: {FULL_SIZE} rows, {len(run.networks) - 5} versions, {time.monotonic() - start:.0f} s")


def walks(base, count):
    """Placements on drawn walks along links of a base, each link once."""
    draw, out, found = random.Random(23), {}, []
    for link in base.links.values():
        out.setdefault(link["from"], []).append(link)
    while len(found) < count:
        at, route = draw.choice(list(out)), []
        while len(route) < LONG and (not route or draw.random() < 0.8):
            route.append(draw.choice(out[at]))
            at = route[-1]["to"]
        if route[0]["from"] != at and len(set(map(books.key_of, route))) == len(route):
            request = {**dict.fromkeys(compacts.MASKS, 0), "id": len(found) * 7919, "from": route[0]["from"], "to": at,
                       "setup": books.SETUP, "hold": draw.randrange(8), "bandwidth": draw.randrange(30), "hops": []}
            found.append(books.Placement(request, tuple(route)))
    return found


def large_batch(program, checks):
    """A batch of the most puts over many placements: some links have less than is counted then, and some lead to another address."""
    start, draw, rows = time.monotonic(), random.Random(29), large_rows()
    rows, book = rows[:loading(rows)], books.Book()
    book.base, book.batches = runs.publish(runs.whole_batches(stream(rows)))[0][-1], 4
    book.placements = walks(book.base, PLACEMENTS)
    begin, changes = stream(rows) + "".join(map(compacts.held_text, book.placements)), []
    for row in draw.sample([row for row in rows if row.startswith("put,")], PUTS):
        fields, change = row.split(","), draw.random()
        fields[4] = "10.255.0.1" if change < 0.05 else fields[4]
        fields[7:] = [draw.choice(["0", "50", "1000"])] * 8 if change < 0.5 else fields[7:]
        changes.append(",".join(fields))
    more = [f"{kind},{it.request['id']}" for kind, it in zip(("release", "show"), draw.sample(book.placements, 2))]
    last = stream([*changes, f"end,5,{PUTS}", *more])
    run = Run(last, book)
    said = kinds_of(last, run.lines.splitlines())
    checks.true("placements count more than links have, and many are lost", min(said["over"], said["lost"]) > 500, said)
    if program:
        with tempfile.TemporaryDirectory() as room:
            checks.same("a batch of the most puts over many placements", Served(program, room).run(last, begin), texts_of(run))
    print(f"served book: a batch of {PUTS:,} puts over {PLACEMENTS:,} placements, over {said['over']:,}, lost {said['lost']:,}, "
          f"{time.monotonic() - start:.0f} s")


def large_most(program, checks):
    """65,536 placements, and one more: of another id it is refused, of the same it is moved."""
    start, most = time.monotonic(), books.MOST_PLACEMENTS
    begin = BASE + "".join(held_row(name, bandwidth=0) for name in range(most))
    rows = place(most) + place(most, ends="1.1.1.1,9.9.9.9") + offer(most) + held_row(most) + held_row(0) + offer(0) + place(0) + (
        "release,1\n" + offer(1) + held_row(most) + held_row(1) + place(1) + "release,0\n" + place(1) + "show,65535\n")
    lines = f"place {most} refused: full\n" * 2 + f"offer {most} refused: full\nheld {most} refused: full\nheld 0 refused: same-id\n" + (
        f"offer 0 v1 {DIRECT}\nplace 0 v2 {DIRECT}\nreleased 1 v3\noffer 1 v3 {DIRECT}\nheld {most} v4\nheld 1 refused: full\n"
        f"place 1 refused: full\nreleased 0 v5\nplace 1 v6 {DIRECT}\n"
        "show 65535 v6 from=1.1.1.1 to=2.2.2.2 hold=7 bandwidth=0 links=1 1.1.1.1,10.0.12.1\n")
    kept = place(0) + "release,1\n" + held_row(most) + "release,0\n" + place(1)
    batches = "".join(f"{put(left(figure))}end,{at},1\n" for at, figure in enumerate((999, 999, 998, 999, 998), 2))
    with tempfile.TemporaryDirectory() as room:
        served = Served(program, room)
        checks.same("a served book of 65,536 placements", served.run(rows, begin), (2, *map(latin, (lines, "", kept, WRITTEN + batches))))
        checks.same("a beginning of 65,537 placements", served.run(rows, begin + held_row(most)),
                    (2, latin(f"held {most} refused: full\n"), b"", b"", b""))
    print(f"served book: {most:,} placements on one circuit, {time.monotonic() - start:.0f} s")


# ---- the rows after a compaction


def large_gone_on(program, checks):
    """A run that begins with a compaction says of its rows what a run says that has them behind the rows of the book, but for versions and
    for numbers of batches and rows. Its last published database is that one's, and it keeps the same rows."""
    start, said = time.monotonic(), 0
    for seed in range(BOOKS):
        begin, more = gone_on(seed, MORE)
        kept = Kept(begin)
        text = program.run(["book", "--compact"], kept.text)[1].decode()
        by = batches_of(text) - batches_of(kept.text.decode())
        found = []
        for rows, first in ((begin + more, None), (moved(more, by), text)):
            with tempfile.TemporaryDirectory() as room:
                status, lines, said_of_it, keep, journal = Served(program, room).run(rows, first)
            snapshot = program.over("snapshot", [], journal=journal)
            found.append((status, lines.decode().splitlines(), said_of_it, keep.decode(), snapshot))
        one, other = found
        over = first_over(text)  # behind them the first row may have such lines, too
        said_over = [f"{line}\n" for line in other[1][:len(over)]]
        lines = bare(one[1][kept.lines.count(b"\n"):]), bare(other[1][len(over):])
        checks.true(f"the rows of a served book after a compaction {seed}", lines[0] == lines[1], difference(*lines))
        checks.same(f"the `over` lines before them {seed}", said_over, over)
        checks.same(f"the end of both runs {seed}", (one[2], other[2], other[0]), (b"", b"", 2 if status_is_bad(other[1]) else 0))
        checks.same(f"what is kept of the rows after a compaction {seed}", moved(one[3][len(kept.text):], by), other[3])
        checks.same(f"the last database after a compaction {seed}", other[4], one[4])
        said += len(lines[0])
    checks.true("rows after compactions have lines", said > BOOKS * MORE // 2, said)
    print(f"served books: {said:,} lines after {BOOKS} compactions, {time.monotonic() - start:.0f} s")


def first_over(text):
    """The `over` lines of a run that begins with these rows, by the reference."""
    return [f"{line}\n" for line in Run("", text).steps[0].lines]


def status_is_bad(lines):
    return any(" refused: " in line for line in lines) or lines[-1:] and lines[-1].startswith("unended ")


PARTS = large_full_size, large_batch, large_most, large_gone_on


def book_large(program, checks):
    checks.parts(PARTS, program, checks)


def main():
    checks = Checks()
    checks.parts((large_full_size, large_batch), None, checks)
    checks.end()


if __name__ == "__main__":
    main()
