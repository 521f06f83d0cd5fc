#!/usr/bin/env python3
"""Runs of `routed serve --book` over whole streams: known ones (tests/program/known_served_books.py), drawn ones compared with
tests/reference/served_books.py, with and without a beginning, and what concerns the program alone (tests/program/book_served_files.py).

    tests/program/book_served.py

Run by itself it tries the reference alone, and counts the drawn streams that tell each wrong server of a book apart. Clients ask in
tests/program/book_clients.py. Files are full in tests/program/book_faults.py, and runs are killed in tests/program/book_kills.py.
"""
import collections
import os
import random
import sys
import tempfile
import time

if __name__ == "__main__":
    sys.path.insert(0, os.path.dirname(os.path.dirname(os.path.abspath(__file__))))
from checks import Checks
from program import book_served_files, held_books, known_books
from program.compact_books import batches_of, gone_on, latin, moved
from program.drawn_books import drawn_stream, kinds_of
from program.kept_books import Kept
from program.known_books import BASE, status_of, worked
from program.known_served_books import full, known
from program.served_calls import Served, texts_of, wanted_of
from reference import compacts, runs, wrong
from reference.changes import changed
from reference.served_books import Run

VERSIONS, ROWS = int(os.environ.get("ROWS", "2500")), 80  # accepted rows of drawn streams, and the rows of each stream


# ---- what is known


def served_known(program, checks):
    """Runs whose lines, kept rows and journal are known, and the journal of each makes the effective databases of its versions."""
    with tempfile.TemporaryDirectory() as room:
        served = Served(program, room) if program else None
        for name, begin, rows, *texts in known():
            wanted = status_of(texts[0]), *map(latin, (texts[0], "", *texts[1:]))
            found = [wanted_of(rows, begin), *([served.run(rows, begin)] if served else [])]
            checks.same(f"a book is served: {name}", found, [wanted] * len(found))
    for rows, size, lines, kept, journal in full():
        wanted = 2, *map(latin, (lines, "", kept, journal))
        checks.same(f"a book whose files take {size} bytes: reference", wanted_of(rows, None, size, size), wanted)


def served_rows(program, checks):
    """The streams whose lines in a book are known, such as bad rows of each kind, have these lines in a server's book, too."""
    refused = 0
    with tempfile.TemporaryDirectory() as room:
        served = Served(program, room) if program else None
        for name, rows, lines in [*worked(), *known_books.known(), *held_books.known()]:
            if len(rows) < 100_000:
                wanted = wanted_of(rows)
                checks.same(f"lines of a served book: {name}: reference", wanted[:2], (status_of(lines), latin(lines)))
                refused += lines.count(" refused: ")
                if served:
                    checks.same(f"a served book: {name}", served.run(rows), wanted)
    checks.true("rows of a served book are refused", refused > 500, refused)


def networks_of(checks, name, run):
    """The batches of a journal make the databases that the book says, from the first version on."""
    networks, fault = runs.publish(runs.whole_batches(run.journal))
    found, wanted = ([(it.links, it.marks) for it in some] for some in (networks, run.networks))
    checks.true(f"the databases of {name}", fault is None and found == wanted, (fault, len(found), len(wanted)))


# ---- drawn streams


def beginnings(seed):
    """A beginning and the rows after it: what is kept of a book, or its compaction, behind which the numbers of batches are others."""
    begin, more = gone_on(seed, ROWS)
    kept = Kept(begin).text.decode("latin-1")
    if seed % 2:
        return kept, more
    text = compacts.run(kept)[1]
    return text, moved(more, batches_of(text) - batches_of(kept))


def served_drawn(program, checks):
    """Drawn streams, some with changed bytes, and such as follow a beginning: lines, kept rows and journal."""
    start, said = time.monotonic(), collections.Counter()
    with tempfile.TemporaryDirectory() as room:
        served = Served(program, room) if program else None
        while said["versions"] < VERSIONS:
            seed = said["rounds"]
            said["rounds"] += 1
            compared(served, checks, f"drawn {seed}", drawn_stream(seed, ROWS), None, said)
            begin, rows = beginnings(seed)
            compared(served, checks, f"drawn {seed} behind a beginning", rows, begin, said)
            rows, names = changed(random.Random(f"served {seed}"), drawn_stream(seed, ROWS // 2))
            compared(served, checks, f"changed {seed} ({', '.join(names)})", rows, None, said)
            begin, names = changed(random.Random(f"begun {seed}"), Kept(drawn_stream(seed, ROWS // 2)).text.decode("latin-1"))
            compared(served, checks, f"behind a changed beginning {seed} ({', '.join(names)})", BASE, begin, said)
    few = {what: said[what] for what, least in WANTED.items() if said[what] < least * VERSIONS // 2500}
    checks.same("what drawn runs of served books say too seldom", few, {})
    print(f"served books: {', '.join(f'{what} {count:,}' for what, count in sorted(said.items()))}, {time.monotonic() - start:.0f} s")


WANTED = {"batches without changes": 20, "batches with more than one change": 500, "beginnings": 35, "beginnings with over lines": 10,
          "refused beginnings": 10, "refused rows": 500, "placed": 300, "placed again": 200, "held": 300, "base": 200, "released": 100,
          "none, and one stays": 50, "offered: route": 50, "show": 50, "left": 50, "ask": 100, "lost": 50, "over": 50,
          "over by a held row": 100, "place refused: twice": 3, "release refused: absent": 30, "held refused: same-id": 30,
          "held refused: twice": 5, "row refused: route": 10}


def compared(served, checks, name, rows, begin, said):
    """The program writes what the reference does, and the reference's journal has its databases."""
    run = Run(rows, begin or "")
    said.update(kinds_of(rows, run.lines.splitlines()))
    rows = rows.splitlines(keepends=True)
    networks_of(checks, name, run)
    said["versions"] += len(run.networks) - 1 - run.first
    said["batches without changes"] += sum(step.published.startswith("end,") for step in run.steps)
    said["batches with more than one change"] += sum(step.published.count("\n") > 2 for step in run.steps[1:])
    said["refused rows"] += sum(" refused: " in line for step in run.steps[1:] for line in step.lines)
    if begin is not None:
        said["refused beginnings" if run.server.status else "beginnings"] += 1
        said["beginnings with over lines"] += any(line.startswith("over ") for line in run.steps[0].lines)
    if served:
        checks.stream(f"a served book: {name}", rows, lambda some: served.run("".join(some), begin),
                      lambda some: wanted_of("".join(some), begin))


def served_snapshots(program, checks):
    """A run that begins with what another one kept publishes the snapshot of that one's last database, and nothing else."""
    with tempfile.TemporaryDirectory() as room:
        served = Served(program, room) if program else None
        for seed in range(10):
            run = Run(drawn_stream(seed, ROWS))
            wanted = runs.snapshot_of(run.networks[-1])
            checks.same(f"the journal of a run that begins with what another kept {seed}: reference", Run("", run.kept).journal, wanted)
            if served:
                *_, kept, journal = served.run(drawn_stream(seed, ROWS))
                snapshot = program.over("snapshot", [], journal=journal)
                checks.same(f"the snapshot of a journal {seed}", snapshot, (0, wanted.encode(), b""))
                checks.same(f"the journal of a run that begins with what another kept {seed}", served.run("", kept)[4], wanted.encode())


# ---- wrong servers


def served_told_apart(_, checks, seeds=0):
    """Each wrong server of a book is told apart by a run whose lines, kept rows and journal are known."""
    cases = [(name, (rows, begin or ""), status_of(texts[0]), texts) for name, begin, rows, *texts in known()]
    cases += [(f"{size} bytes", (rows, "", size, size), 2, texts) for rows, size, *texts in full()]
    streams = [*((drawn_stream(seed, ROWS), "") for seed in range(seeds)), *(beginnings(seed)[::-1] for seed in range(seeds))]
    wanted, count = [texts_of(Run(*given)) for given in streams], 0
    for name, module in wrong.servers():
        found = [case for case, given, status, texts in cases
                 if texts_of(module.Run(*given)) != (status, *map(latin, (texts[0], "", *texts[1:])))]
        checks.true(f"a served book that {name} is told apart", found)
        count += 1
        if seeds:
            some = sum(texts_of(module.Run(*given)) != texts for given, texts in zip(streams, wanted))
            print(f"a served book that {name}: told apart by {found[:1]} and by {some} of {2 * seeds} drawn streams")
    checks.true("there are wrong servers of books", count >= 15, count)


def book_served(program, checks):
    checks.parts((served_known, served_rows, served_drawn, served_snapshots, *book_served_files.PARTS, served_told_apart), program, checks)


def main():
    checks = Checks()
    checks.parts((served_known, served_rows, served_drawn, served_snapshots), None, checks)
    served_told_apart(None, checks, 10)
    checks.end()


if __name__ == "__main__":
    main()
