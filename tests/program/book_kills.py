"""Runs of `routed serve --book` that are killed: a run that begins with what is left has each line that was read.

By default 4 runs are killed at each point of an accepted row, and with KILLS=N in the environment N / 5: before its text is kept, in the
middle of its text, behind it, in the middle of its batch in the journal, behind its batch, before its lines or in the middle of them, and
behind its lines. As many are killed at drawn moments, half of them while all is written byte by byte. What is kept is at most one row
ahead of the journal, and the journal never ahead of it. For each published version the journal has the effective database of the kept
rows. The next run begins by `cat BEGIN KEPT | routed book --compact --accept-torn > NEXT` and `--begin NEXT`.
"""
import collections
import fcntl
import os
import random
import subprocess
import tempfile
import threading
import time

from program.book_faults import FILES, refusing, settled
from program.book_served import beginnings
from program.compact_books import bare, batches_of, latin, moved
from program.drawn_books import drawn_stream
from program.kept_books import rows_again
from program.known_books import BASE, DIRECT, MASKS, held_row, place
from program.known_compacts import TORN, WRITTEN
from program.known_served_books import DROPS, put, left
from program.refusal import COMPILER, Refuser
from program.served_calls import Served, texts_of
from program.serving import PATIENCE, wait_for
from program.serving_book import Answers, ServingBook, ask_on, questions
from reference import compacts, runs
from reference.served_books import Run

KILLS, ROWS = int(os.environ.get("KILLS", "20")) // 5, 150  # at each point, and the rows of a drawn stream
SHORT = BASE + place(1) + held_row(2, 0, 30) + "release,1\n" + place(2, 3, 40) + "ask,7,1.1.1.1,2.2.2.2,0,1,0x0,0x0,0x0,\nshow,2\n" + (
    f"{DROPS}end,2,2\nrelease,2\n{BASE.replace('end,1,', 'end,3,')}") + "".join(place(name) + f"release,{name}\n" for name in range(9, 60))
LINES, PAUSE = "/lines0", 0.005  # seconds between two requests
WHOLE = 1 << 30  # bytes, more than any write has
NARROW = 4096  # bytes that a pipe of lines holds


class Left:
    """What a killed run leaves: its lines that were read, its two files, and what its client asked."""

    def __init__(self, run, lines, asked):
        self.lines, (self.kept, self.journal), self.asked = "".join(lines), run.texts(), asked
        self.settle()

    def settle(self):
        """Finds what is whole in the files."""
        self.text = settled(self.kept)
        self.batches = runs.whole_batches(self.journal, accept_torn=True)

    def texts(self):
        return self.kept, self.journal, self.lines


# ---- where a run is killed


class Accepted:
    """An accepted row of a run: how many writes there are to each file before its own, what is written until then, and its texts. The
    text of a row is one write to the file of `--keep`, each batch one to the journal, and the lines of a row one to standard output."""

    def __init__(self, wanted, at):
        before = [written(step) for step in wanted.steps[:at]]
        self.texts, self.before = written(wanted.steps[at]), ["".join(texts) for texts in zip(*before)]
        rows, batches, lines = (sum(map(bool, texts)) for texts in zip(*before))
        self.writes = rows, batches + wanted.first - bool(wanted.first), lines  # what a beginning publishes is some batches

    def points(self, draw):
        """Of each point: its file, the write that is the last one, how many bytes are moved then, and what is left of the run."""
        for name, file, sizes in [("before its row is kept", 0, [0]), ("in its row", 0, [None]), ("behind its row", 0, [WHOLE]),
                                  ("in its batch", 1, [None]), ("behind its batch", 1, [WHOLE]), ("before its lines", 2, [0, None]),
                                  ("behind its lines", 2, [WHOLE])]:
            size, text = draw.choice(sizes), self.texts[file]
            size = draw.randrange(1, len(text)) if size is None else size
            sizes = [WHOLE] * file + [size] + [0] * 2
            yield name, (*FILES.values(), LINES)[file], self.writes[file] + 1, size, tuple(
                front + text[:size] for front, text, size in zip(self.before, self.texts, sizes))


def written(step):
    """What is written of a row: to the file of `--keep`, to the journal, and to standard output."""
    return step.kept, step.published, "".join(f"{line}\n" for line in step.lines)


def slowly(rows):
    """Rows of a client that asks some hundred times a second."""
    for row in rows:
        time.sleep(PAUSE)
        yield row


def drawn_run(seed):
    """A beginning, or none, and rows."""
    return ("", SHORT) if seed % 4 == 3 else beginnings(seed) if seed % 2 else ("", drawn_stream(seed, ROWS))


def kills_at_points(program, checks, room):
    """Runs that are killed at each point of a drawn row that is accepted: what is left is what was written until then."""
    if COMPILER is None:
        print("served books that are killed at points: skipped, there is no C compiler")
        return
    start, draw, refuser, said, kinds = time.monotonic(), random.Random(19), Refuser(), collections.Counter(), collections.Counter()
    for at in range(KILLS):
        begin, rows = drawn_run(at)
        wanted = Run(rows, begin)
        taken = draw.choice([number for number, step in enumerate(wanted.steps) if step.kept])
        for point, file, number, moved_bytes, left_texts in Accepted(wanted, taken).points(draw):
            inner, name = os.path.join(room, f"{at} {point}"), f"kill {at} of a served book {point}"
            os.mkdir(inner)
            env = refusing(refuser, AT=number, KILL=1, FILE=file, **({"SHORT": moved_bytes} if moved_bytes else {}))
            run = ServingBook(program, inner, 1, begin=begin, first=wanted.first, env=env)
            found = killed_run(run, rows, wanted, None, draw)
            checks.same(f"what is left of {name}", found.texts(), left_texts)
            said[point] += found.texts() == left_texts
            judged(checks, name, wanted, begin, found)
            goes_on(program, checks, f"after {name}", inner, wanted, begin, rows, found)
        kinds[wanted.steps[taken].kept.rpartition("\n")[0].rpartition("\n")[2].partition(",")[0]] += 1
    checks.same("kills of served books at each point", sorted(set(said.values())), [KILLS])
    print(f"killed: served books {', '.join(f'{point} {count}' for point, count in said.items())}, of rows "
          f"{', '.join(f'{kind} {count}' for kind, count in sorted(kinds.items()))}, {time.monotonic() - start:.0f} s")


def kills_at_moments(program, checks, room):
    """Runs that are killed at drawn moments."""
    start, draw, points = time.monotonic(), random.Random(17), collections.Counter()
    refuser = Refuser() if COMPILER else None
    for at in range(KILLS):
        inner = os.path.join(room, str(at))
        os.mkdir(inner)
        begin, rows = beginnings(at) if at % 4 < 2 else ("", drawn_stream(at, ROWS))
        wanted = Run(rows, begin)
        env = refusing(refuser, AT=1, ON=1, SHORT=1) if refuser and at % 2 else dict(os.environ)
        run = ServingBook(program, inner, 1, begin=begin, first=wanted.first, env=env)
        found = killed_run(run, rows, wanted, draw.randrange(len(wanted.kept)), draw)
        points[judged(checks, f"kill {at}", wanted, begin, found)] += 1
        goes_on(program, checks, f"after kill {at}", inner, wanted, begin, rows, found)
    checks.true("runs are killed at several points", len(points) > 2 or KILLS < 20, points)
    print(f"killed: served books at {KILLS} moments, {', '.join(f'{what} {count}' for what, count in sorted(points.items()))}, "
          f"{time.monotonic() - start:.0f} s")


def killed_run(run, rows, wanted, length, draw):
    """Kills a run once so much is kept, or awaits that it is killed at a write. Meanwhile rows come, and a client asks."""
    done, asked, lines = threading.Event(), [], []
    run.killed = length is None
    with run:
        pace = random.Random(length) if length is None or length % 3 else None
        threads = [threading.Thread(target=lambda: lines.extend(run.feed(rows.splitlines(keepends=True), wanted.steps, pace)), daemon=True),
                   threading.Thread(target=ask_on, args=(run, 1, slowly(questions(1)), done, asked), daemon=True)]
        for thread in threads:
            thread.start()
        if length is None:
            wait_for(lambda: run.child.poll() is not None or not threads[0].is_alive())
        else:
            wait_for(lambda: os.path.exists(run.keep) and os.path.getsize(run.keep) >= length or run.child.poll() is not None)
            time.sleep(draw.random() * draw.choice([0, 0.0005, 0.003]))
        run.killed = True
        done.set()
        run.child.kill()
        run.child.wait()
        for thread in threads:
            thread.join(PATIENCE)
        return Left(run, lines, asked)


def rules(wanted, begin, found):
    """What has to hold of what is left of a run, wherever it ended: its words, whether it holds, and what is seen."""
    whole, count = Run(found.text, begin), len(found.batches)
    yield "what is kept are rows of the run", (wanted.kept.startswith(found.kept) and whole.kept == found.text
                                               and whole.status == 0), found.kept[-200:]
    yield "the journal isn't ahead of what is kept", whole.journal.startswith(found.journal), found.journal[-200:]
    published, effective = ([(it.links, it.marks) for it in some] for some in (runs.publish(found.batches)[0],
                                                                               whole.networks[:count + 1]))
    yield "the journal has the databases of the kept rows", published == effective, count
    is_torn, lacks, is_begun = found.kept != found.text, len(whole.networks) - 1 - count, count >= whole.first
    yield "what is kept is at most one row ahead", lacks in (0, 1) if is_begun else found.kept == "", (lacks, is_torn)
    yield "a row is kept behind the batch of the row before", not is_torn or found.journal == whole.journal, is_torn
    allowed = lines_within(wanted, len(found.kept), len(found.journal))
    yield "lines are of rows that are kept and published", (allowed.startswith(found.lines)
                                                            and wanted.lines.startswith(allowed)), (allowed[-200:], found.lines[-200:])


def judged(checks, name, wanted, begin, found):
    """What may be left of a run, by the rules. Answers between which steps it was killed."""
    for words, holds, seen in rules(wanted, begin, found):
        checks.true(f"{words}: {name}", holds, seen)
    whole = Run(found.text, begin)
    Answers(whole.networks).judge(checks, f"before {name}", found.asked,
                                  min(len(found.batches), len(whole.networks) - 1))
    if found.kept != found.text:
        return "in a kept row"
    if found.journal != whole.journal:
        return "before a batch" if found.journal == "".join(runs.batch_text(*it) for it in enumerate(found.batches, 1)) else "in a batch"
    return "before lines" if found.lines != lines_of(wanted, len(found.text)) else "after lines"


def lines_within(wanted, kept, journal):
    """The lines of the rows before the first that isn't whole within so many kept and published bytes."""
    lines = ""
    for step in wanted.steps:
        kept, journal = kept - len(step.kept), journal - len(step.published)
        if kept < 0 or journal < 0:
            break
        lines += "".join(f"{line}\n" for line in step.lines)
    return lines


def lines_of(wanted, kept):
    """The lines up to those of the last row that is kept within so many bytes."""
    lines = last = ""
    for step in wanted.steps:
        kept -= len(step.kept)
        if kept < 0:
            break
        lines += "".join(f"{line}\n" for line in step.lines)
        last = lines if step.kept or not last else last
    return last


def goes_on(program, checks, name, room, wanted, begin, rows, found):
    """The next run begins with a compaction of the beginning and of what is kept, and goes on with the rows that weren't kept. They have
    the lines that they have without a kill, but for versions and numbers."""
    with open(os.path.join(room, "cut"), "wb") as file:
        file.write(latin(begin + found.kept))
    ran = subprocess.run(["sh", "-c", f'"{program.path}" book --compact {TORN} < cut'], cwd=room, capture_output=True, timeout=PATIENCE)
    status, text = compacts.compact(latin(begin + found.kept), True)
    checks.same(f"the next beginning {name}", (ran.returncode, ran.stdout, ran.stderr), (status, text.encode(), b""))
    steps = wanted.steps[1:]
    read = next((at for at in range(len(steps) + 1) if "".join(step.kept for step in steps[:at]) == found.text), None)
    if read is None:  # a check of what is kept has failed
        return
    unkept = rows_again(rows.splitlines(keepends=True), [(step.lines, latin(step.kept)) for step in steps], read)[1].decode("latin-1")
    again = moved(unkept, batches_of(text) - batches_of(begin + found.text))
    asked = "".join(f"show,{at.request['id']}\n" for at in Run("", text).server.book.placements)
    expected, inner = Run(asked + again, text), os.path.join(room, "next")
    os.mkdir(inner)
    ran = Served(program, inner).run(asked + again, text)
    checks.same(f"the next run {name}", ran, texts_of(expected))
    front = sum(len(step.lines) for step in expected.steps[:1 + asked.count("\n")])
    rest = [line for step in steps[read:] for line in step.lines]
    checks.same(f"the rows that are said again {name}", bare(ran[1].decode("latin-1").splitlines()[front:]), bare(rest))


# ---- a line that can't be written


def kills_before_a_line(program, checks, room):
    """While the line of a row can't be written, the row is kept, its batch is in the journal, and clients are answered at its version. Then
    the run is killed."""
    kinds = [("place", place(1, bandwidth=990), WRITTEN + place(1, bandwidth=990), put(left(10)) + "end,2,1\n"),
             ("held", held_row(1, bandwidth=990), WRITTEN + held_row(1, bandwidth=990), put(left(10)) + "end,2,1\n"),
             ("release", "release,1\n" * 2, WRITTEN + place(1, bandwidth=990) + "release,1\n", put(left(10)) + "end,2,1\n" + put(left(1000))
              + "end,3,1\n"),
             ("end", DROPS + "end,2,2\n", WRITTEN + DROPS + "end,2,2\n", DROPS + "end,2,2\n")]
    ask = f"ask,7,1.1.1.1,2.2.2.2,7,100,{MASKS},\n"
    for kind, row, kept, journal in kinds:
        inner = os.path.join(room, kind)
        os.mkdir(inner)
        with ServingBook(program, inner, 1) as run:
            fcntl.fcntl(run.lines[0].file, fcntl.F_SETPIPE_SZ, NARROW)
            first = [BASE] + [place(1, bandwidth=990)] * (kind == "release")
            lines = ["base 1 v1\n", f"place 1 v2 {DIRECT}\n"][:len(first)]
            checks.same(f"lines before a narrow pipe: {kind}", [run.talk(0, some) for some in first], lines)
            rows, full = filling(3 + len(first))
            run.say(0, rows)
            version = len(first) + 1
            run.say(0, "release,1\n" if kind == "release" else row)
            replies = []

            def is_known():
                replies.append(run.talk(1, ask))
                return f" v{version} " in replies[-1]

            wait_for(is_known)
            word = {"release": f"v{version} {DIRECT}", "end": f"v{version} unknown-from"}.get(kind, f"v{version} none")
            checks.same(f"a client while the line of a row can't be written: {kind}", replies[-1], f"ask 7 {word}\n")
            run.killed = True
            run.child.kill()
            run.child.wait()
            checks.same(f"what is left of a run whose line wasn't written: {kind}", run.texts(), [kept, WRITTEN + journal])
            checks.same(f"its lines: {kind}", "".join(run.lines[0].rest()), full)


def filling(number):
    """Rows from this number on that are refused, and their lines, which fill a pipe."""
    full, last = "", "show {} refused: absent\n"
    while len(full) + len(f"row {number} refused: kind\n") <= NARROW - 2 * len(last.format(1)):
        full, number = f"{full}row {number} refused: kind\n", number + 1
    digits = NARROW - len(full) - 2 * len(last.format(""))  # of two ids of at most 20 digits
    names = ["1" * (digits // 2), "1" * (digits - digits // 2)]
    return "x\n" * full.count("\n") + "".join(f"show,{name}\n" for name in names), full + "".join(map(last.format, names))


PARTS = kills_at_points, kills_at_moments, kills_before_a_line


def book_kills(program, checks):
    with tempfile.TemporaryDirectory() as room:
        checks.parts_in(room, PARTS, program, checks)
