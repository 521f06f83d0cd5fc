"""What `routed book --compact` writes: the shortest stream that makes the same book, or the one line by which its rows are refused.

Worked streams, drawn ones, files that are torn at each byte, and runs that go on from a compaction. The program is compared with
tests/reference/compacts.py, and with texts that are known. tests/program/compact_runs.py has what concerns the program alone.
"""
import collections
import os
import random
import re
import subprocess
import tempfile
import time

from program import held_books, known_books, known_compacts
from program.drawn_books import ALL, BAD, Drawn, drawn_stream, stream
from program.kept_books import CHANGES, Kept
from program.known_books import BASE, held, held_row, worked
from program.known_compacts import EXPLAIN, TORN
from reference import books, compacts, wrong

STREAMS, ROWS = 100, 100  # drawn ones, and the rows of each
GONE_ON, MORE, ALONE = 100, 3000, 5  # books that go on from a compaction, the rows of each after it, and how many the reference tries alone
TORN_FILES, LAST = 6, 300  # files that are torn, and at how many of their last bytes
CHAINS, ROUNDS = 8, 5
WAYS = ([], [EXPLAIN], [TORN], [TORN, EXPLAIN])


def latin(rows):
    return rows if isinstance(rows, bytes) else rows.encode("latin-1")


def wanted_of(rows, words, module=compacts):
    """The status, what is written on standard output, and what on standard error."""
    status, text, said = module.run(latin(rows), TORN in words)
    return status, text.encode(), said.encode() if EXPLAIN in words else b""


def compacted(program, rows, *words):
    return program.run(["book", "--compact", *words], latin(rows))


def compared(program, checks, name, rows, ways=WAYS):
    """The program writes what the reference does, and where that is a book, it is its own compaction. Answers each status and text."""
    found = []
    for words in ways:
        status, text, _ = wanted_of(rows, words)
        if program:
            checks.stream(f"compacted: {name} {words}", latin(rows).decode("latin-1").splitlines(keepends=True),
                          lambda some: compacted(program, "".join(some), *words), lambda some: wanted_of("".join(some), words))
        if status == 0:
            own = [wanted_of(text, [EXPLAIN]), *([compacted(program, text, *words)] if program else [])]
            checks.same(f"compacted: {name} {words}: its own", own, [(0, text, b"")] * len(own))
        found.append((status, text))
    return found


def lines_of(rows):
    """The lines of a run over rows of which none is refused but the last."""
    return books.book(rows)[1]


# ---- what is known


def compact_known(program, checks):
    """Streams whose outcome is known, and each row that no run can read."""
    for name, rows, words, status, text, said in known_compacts.known():
        wanted = status, text.encode(), said.encode()
        checks.same(f"compacted: {name}: reference", wanted_of(rows, [*words, EXPLAIN]), wanted)
        if program:
            checks.same(f"compacted: {name}", compacted(program, rows, *words, EXPLAIN), wanted)
            checks.same(f"compacted: {name}, not explained", compacted(program, rows, *words), (*wanted[:2], b""))
            if status == 0:
                checks.same(f"compacted: {name}: its own", compacted(program, text, *words, EXPLAIN), (0, wanted[1], b""))
    begin = BASE + held_row(1)
    for row, words in BAD:
        rows, line = f"{begin}{row}\n{held_row(2)}", f"row 5 refused: {words}\n"
        wanted = 2, line.encode(), f"routed: standard input: row 5: {line}".encode()
        found = [wanted_of(rows, [EXPLAIN]), *([compacted(program, rows, EXPLAIN)] if program else [])]
        checks.same(f"compacted: a bad row {row[:80]!r}", found, [wanted] * len(found))


def first_refused(lines):
    """What a compaction writes of a stream whose lines in a book are known, if it is refused. It has no limit of its rows."""
    found = [line for line in lines.splitlines() if " refused: " in line]
    if found or not lines:
        return f"{found[0]}\n" if found else None
    last = lines.splitlines()[-1]
    return "unended 1000001\n" if last == "too many rows" else f"{last}\n" if last.startswith("unended ") else None


def compact_streams(program, checks):
    """The streams whose lines in a book are known: of a refused one the first line that refuses it, and of the others, and of what is kept
    of any, what the reference writes."""
    refused = 0
    for name, rows, lines in [*worked(), *known_books.known(), *held_books.known()]:
        line, is_short = first_refused(lines), len(rows) < 100_000
        refused += line is not None
        found = [wanted_of(rows, [])] if is_short else []
        if program and line:
            found.append(compacted(program, rows))
        if line:
            checks.same(f"compacted: {name}", found, [(2, line.encode(), b"")] * len(found))
        if is_short:
            compared(program, checks, name, rows, WAYS[1::2])
            compared(program, checks, f"what is kept of {name}", Kept(rows).text, WAYS[1::2])
    checks.true("streams of books are refused", refused > 30, refused)


def compact_drawn(program, checks):
    """Drawn streams, what is kept of each, and refused rows among it."""
    said, start = collections.Counter(), time.monotonic()
    for seed in range(STREAMS):
        rows = drawn_stream(seed, ROWS)
        found = compared(program, checks, f"drawn {seed}", rows, WAYS[1::2])
        found += compared(program, checks, f"kept of drawn {seed}", Kept(rows).text, WAYS[1::2])
        for kind, some in refusals(rows).items():
            found += compared(program, checks, f"a refused {kind} of drawn {seed}", some, WAYS[1:2])
        for status, text in found:
            line = text.decode().split(" refused: ")
            said["refused" if status else "a book"] += 1
            said["by a row" if line[0].startswith("row ") else line[0].split()[0] if status else "placements"] += 1
            said["placements in another order than that of their ids"] += status == 0 and is_mixed(text.decode())
    few = {what: said[what] for what, least in WANTED.items() if said[what] < least}
    checks.same("what drawn compactions say too seldom", few, {})
    print(f"compacted: {', '.join(f'{what} {count:,}' for what, count in sorted(said.items()))}, {time.monotonic() - start:.0f} s")


WANTED = {"a book": STREAMS, "refused": STREAMS, "by a row": 50, "batch": 50, "place": 10, "held": 50, "release": 50, "offer": 10,
          "show": 50, "left": 20, "placements in another order than that of their ids": 50}


def refusals(rows):
    """For each kind of refused rows in a stream the last one, behind what is kept until then and the changes that are open there."""
    found, kept, changes = {}, [], []
    for row, step in zip(rows.splitlines(keepends=True), books.walked(rows)):
        if step.is_refused:
            found[step.lines[0].split()[0]] = "".join([*kept, *changes, row])
        elif row.startswith(CHANGES):
            changes.append(row)
        if row.startswith("end,"):
            changes = []
        kept.append(step.kept)
    return found


def is_mixed(text):
    names = [int(row.split(",")[1]) for row in text.splitlines() if row.startswith("held,")]
    return names != sorted(names)


# ---- the rows after a compaction


def batches_of(text):
    return len(re.findall(r"(?m)^end,", text))


def moved(rows, by):
    """The rows with other numbers of batches."""
    return re.sub(r"(?m)^end,(\d+),", lambda found: f"end,{int(found[1]) + by},", rows)


def bare(lines):
    """Lines without versions, and without the numbers of batches and rows."""
    return [re.sub(r" v\d+\b|(?<=^base )\d+|(?<=^batch )\d+|(?<=^row )\d+|(?<= refused: expected )\d+", "", line) for line in lines]


def gone_on(seed, count):
    """Rows of a book, and more rows of it. No change is open between them."""
    drawn = Drawn(seed, ALL)
    while len(drawn.rows) < ROWS:
        drawn.step()
    begin, drawn.rows = stream(drawn.rows), []
    while len(drawn.rows) < count:
        drawn.step()
    return begin, stream(drawn.rows[:count])


def compact_gone_on(program, checks):
    """After a compaction rows have the lines that they have without it, but for versions and for numbers of batches and rows."""
    start, said = time.monotonic(), 0

    def lines(text):
        return program.run(["book"], text)[1].decode().splitlines() if program else lines_of(text)

    for seed in range(GONE_ON if program else ALONE):
        begin, more = gone_on(seed, MORE if program else MORE // 10)
        kept = Kept(begin).text.decode("latin-1")
        status, text = compared(program, checks, f"a book that goes on {seed}", kept, WAYS[:1])[0]
        other = moved(more, batches_of(text.decode()) - batches_of(kept))
        found = [bare(lines(front + rest)[len(lines(front)):]) for front, rest in ((begin, more), (text.decode(), other))]
        checks.true(f"the rows after a compaction {seed}", found[0] == found[1], difference(*found))
        said += len(found[0])
    checks.true("rows after compactions have lines", said > (GONE_ON * MORE if program else ALONE * MORE // 10) // 2, said)
    print(f"compacted: {said:,} lines after compactions, {time.monotonic() - start:.0f} s")


def difference(one, other):
    """The first lines that differ, and how many lines there are of each."""
    return next((pair for pair in zip(one, other) if pair[0] != pair[1]), None), len(one), len(other)


# ---- torn files


def fronts(kept):
    """The sizes at which a file of `--keep` is whole."""
    sizes = [0]
    for _, text in kept.steps:
        if text:
            sizes.append(sizes[-1] + len(text))
    return sizes


def compact_torn(program, checks):
    """Files of `--keep` that are torn at each of their last bytes: what is left is the book of the batches and rows that are whole."""
    cut, start = 0, time.monotonic()
    for seed in range(TORN_FILES):
        kept, faults, known = Kept(drawn_stream(seed, ROWS)), [], {}
        sizes, text = fronts(kept), kept.text
        for size in range(max(0, len(text) - LAST), len(text) + 1):
            front = max(it for it in sizes if it <= size)
            if front not in known:
                known[front] = wanted_of(text[:front], [])
            said = f"routed: standard input: {size - front} bytes left out\n".encode() if size > front else b""
            wanted = 0, known[front][1], said
            found = compacted(program, text[:size], TORN, EXPLAIN) if program else wanted
            if found != wanted or compacts.settled(text[:size]) != text[:front] or known[front][0]:
                faults.append((size, found, wanted))
            cut += size > front
        checks.same(f"compacted: a file that is torn at each byte: {seed}", faults[:1], [])
    checks.true("files are torn", cut > TORN_FILES * LAST // 2, cut)
    print(f"compacted: files torn at {cut:,} bytes, {time.monotonic() - start:.0f} s")


def compact_chained(program, checks):
    """Books that go on from a compaction, again and again. What a run keeps after it is torn, and compacted together with it. That is the
    compaction of all rows from the first on."""
    draw = random.Random(11)
    for seed in range(CHAINS):
        texts = [text.decode() for _, text in Kept(drawn_stream(seed, ROUNDS * ROWS)).steps if text]
        size, begin = len(texts) // ROUNDS, ""
        for first in range(0, len(texts), size):
            before, more = "".join(texts[:first]), "".join(texts[first:first + size])
            rows = begin + moved(more, batches_of(begin) - batches_of(before))
            behind = "".join(texts[first + size:first + size + 1])
            torn = behind[:draw.randrange(len(behind))] if behind else ""
            wanted = wanted_of(before + more, [])
            found = [(rows.encode(), *wanted_of(rows + torn, [TORN]))]
            if program:
                found.append(chained(program, begin, rows, torn))
            checks.same(f"compacted: a chain of books {seed} {first}", found, [(rows.encode(), *wanted)] * len(found))
            begin = wanted[1].decode()


def chained(program, begin, rows, torn):
    """What a run over these rows keeps, and what comes of a compaction of `begin`, of what is kept after it, and of a torn row."""
    with tempfile.TemporaryDirectory() as room:
        program.run(["book", "--keep", os.path.join(room, "whole")], rows)
        kept = held(os.path.join(room, "whole"))
        for name, text in (("begin", begin.encode()), ("kept", kept[len(begin):] + torn.encode())):
            with open(os.path.join(room, name), "wb") as file:
                file.write(text)
        ran = subprocess.run(["sh", "-c", f'cat begin kept | "{program.path}" book --compact {TORN}'], cwd=room, capture_output=True,
                             timeout=300)
        return kept, ran.returncode, ran.stdout, ran.stderr


# ---- wrong compactions


def compact_told_apart(_, checks):
    """Each wrong compaction is told apart by a stream whose outcome is known."""
    cases, count = list(known_compacts.known()), 0
    for name, module in wrong.compactions():
        found = [case for case, rows, words, *wanted in cases if list(module.run(latin(rows), TORN in words)) != wanted]
        checks.true(f"a compaction that {name} is told apart", found)
        count += 1
    checks.true("there are wrong compactions", count >= 15, count)


PARTS = compact_known, compact_streams, compact_drawn, compact_gone_on, compact_torn, compact_chained, compact_told_apart
