"""Clients of `routed serve --book`: each reply is the reference's at its version, which is no older than the last one that was read
before the request was written; and `routed audit` over the journal finds no fault.

The published database is the effective one: the base with what placements leave of its bandwidths (tests/reference/served_books.py).
"""
import os
import random
import tempfile
import threading
import time

from program.book_served import beginnings
from program.built import OPTIONS
from program.compact_books import latin
from program.drawn_books import drawn_stream
from program.known_books import BASE, DIRECT, MASKS, held_row, place
from program.known_compacts import FIRST, WRITTEN
from program.known_served_books import put, left
from program.serving_book import Answers, ServingBook, ask_on, questions
from reference.served_books import Run

RUNS, CLIENTS, ROWS = 12, 4, 150  # runs on drawn streams, the clients of each, and the rows of those without a beginning
CHANGE = FIRST.replace(",10,0x", ",30,0x")
ASKED = f"ask,7,1.1.1.1,2.2.2.2,7,100,{MASKS},\n"


def clients_dialogue(program, checks, room):
    """When a line is read, the row is kept, its batch is in the journal, and clients are answered at its version."""
    for number, more in enumerate([("--explain",), ("--trees", "0", "--at-once", "1", "--except", "--pairs")]):
        inner = os.path.join(room, str(number))
        os.mkdir(inner)
        dialogue(program, checks, inner, *more)


def dialogue(program, checks, room, *more):
    dear = DIRECT.replace("cost=10", "cost=30")
    kept = journal = ""
    with ServingBook(program, room, 2, *more) as run:
        checks.same("a client before any row", run.talk(1, ASKED), "ask 7 v0 unknown-from\n")
        for rows, lines, text, batch, reply in [
            (BASE, ["base 1 v1"], WRITTEN, WRITTEN, f"v1 {DIRECT}"),
            (place(1, bandwidth=901), [f"place 1 v2 {DIRECT}"], place(1, bandwidth=901), put(left(99)) + "end,2,1\n", "v2 none"),
            ("show,2\n", ["show 2 refused: absent"], "", "", "v2 none"),
            ("release,1\n", ["released 1 v3"], "release,1\n", FIRST + "end,3,1\n", f"v3 {DIRECT}"),
            (CHANGE, [], "", "", f"v3 {DIRECT}"),
            (held_row(3, bandwidth=900), ["held 3 v4"], held_row(3, bandwidth=900), put(left(100)) + "end,4,1\n", f"v4 {DIRECT}"),
            (place(1), [f"place 1 v5 {DIRECT}"], place(1), put(left(99)) + "end,5,1\n", "v5 none"),
            ("end,2,1\n", ["base 2 v6"], CHANGE + "end,2,1\n", put(left(99), metric=30) + "end,6,1\n", "v6 none"),
            ("release,3\n", ["released 3 v7"], "release,3\n", put(left(999), metric=30) + "end,7,1\n", f"v7 {dear}"),
            ("end,2,0\n", ["batch 2 refused: expected 3"], "", "", f"v7 {dear}"),
            ("end,3,0\n", ["base 3 v8"], "end,3,0\n", "end,8,0\n", f"v8 {dear}"),
            ("drop,2.2.2.2,10.0.12.2\nend,4,1\n", ["lost 1", "base 4 v9"], "drop,2.2.2.2,10.0.12.2\nend,4,1\n",
             "drop,2.2.2.2,10.0.12.2\nend,9,1\n", "v9 none"),
        ]:
            kept, journal = kept + text, journal + batch
            run.say(0, rows)
            checks.same(f"a served book says of {rows[-12:]!r}", [run.hear(0) for _ in lines], [f"{line}\n" for line in lines])
            checks.same(f"what is kept and published after {rows[-12:]!r}", run.texts(), [kept, journal])
            checks.same(f"a client after {rows[-12:]!r}", [run.talk(number, ASKED) for number in (1, 2)], [f"ask 7 {reply}\n"] * 2)
        for at, row in enumerate([place(1), "release,1\n", held_row(4), "end,5,0\n", "show,1\n", BASE.partition("\n")[0] + "\n"], 14):
            checks.same(f"a client's row {row[:8]!r}", run.talk(1, row), f"row {at} refused: kind\n")
        checks.same("a client ends alone", run.leave(1), "")
        checks.same("changes are left open", (run.say(0, FIRST), run.end()), (None, (["unended 1\n", "", ""], 2, "")))
        checks.same(f"what is kept and published in a dialogue {more}", run.texts(), [kept, journal])


def clients_refused(program, checks, room):
    """A row of a client that is refused gives the status of the run."""
    for number, (rows, line, status) in enumerate([(ASKED, f"ask 7 v1 {DIRECT}\n", 0), (place(1), "row 1 refused: kind\n", 2),
                                                   ("ask\n", "row 1 refused: fields\n", 2)]):
        inner = os.path.join(room, str(number))
        os.mkdir(inner)
        with ServingBook(program, inner, 1) as run:
            checks.same(f"a served book beside {rows[:5]!r}", [run.talk(0, BASE), run.talk(1, rows)], ["base 1 v1\n", line])
            checks.same(f"the end beside {rows[:5]!r}", (run.end(), run.texts()), ((["", ""], status, ""), [WRITTEN, WRITTEN]))


def clients_begun(program, checks, room):
    """The first version is the last batch of the beginning, for rows and for clients."""
    begin = BASE + place(1, bandwidth=950) + place(2, bandwidth=1) + "release,2\n"
    with ServingBook(program, room, 2, begin=begin, first=1) as run:
        found = [run.talk(1, ASKED), run.talk(0, ASKED), run.talk(0, "release,1\n"), run.talk(2, ASKED), run.talk(0, "end,2,0\n"),
                 run.talk(1, ASKED)]
        checks.same("a book that begins anew", found, [f"{line}\n" for line in (
            "ask 7 v1 none", "ask 7 v1 none", "released 1 v2", f"ask 7 v2 {DIRECT}", "base 2 v3", f"ask 7 v3 {DIRECT}")])
        checks.same("the end of a book that begins anew", run.end(), (["", "", ""], 0, ""))
        checks.same("what is kept and published of it", run.texts(), [
            "release,1\nend,2,0\n", put(left(50)) + WRITTEN[len(FIRST):] + FIRST + "end,2,1\nend,3,0\n"])


def clients_beside(program, checks, room):
    """Clients ask on while rows of drawn streams come, one by one or all at once, and `audit` judges all that they read."""
    versions, replies, start = 0, [], time.monotonic()
    for seed in range(RUNS):
        inner, kinds = os.path.join(room, str(seed)), [(), ("except",), ("pair",), ("except", "pair")][seed % 4]
        os.mkdir(inner)
        begin, rows = beginnings(seed) if seed % 3 == 2 else ("", drawn_stream(seed, ROWS))
        run = Run(rows, begin)
        lines, asked, texts, ended = asked_beside(program, inner, seed, run, rows, begin, kinds)
        checks.same(f"lines beside clients {seed}", "".join(lines), run.lines)
        checks.same(f"what is kept and published beside clients {seed}", texts, [run.kept, run.journal])
        checks.same(f"the end beside clients {seed}", ended, ([""] * (CLIENTS + 1), run.status, ""))
        answers = Answers(run.networks)
        for number, some in enumerate(asked, 1):
            answers.judge(checks, f"client {number} of run {seed}", some, len(run.networks) - 1)
        replies += [line for some in asked for _, _, line in some]
        versions += len({line.split()[2] for some in asked for _, _, line in some if line.endswith("\n")})
        audited(program, checks, seed, run.journal, [one for some in asked for one in some], kinds)
    routes = sum(" route " in line or " pair cost" in line for line in replies)
    checks.true("clients ask all the while", len(replies) > 40 * RUNS and versions > 10 * RUNS, (len(replies), versions))
    checks.true("some requests have routes", len(replies) > routes > len(replies) // 10, (len(replies), routes))
    print(f"clients of served books: {len(replies):,} replies, {routes:,} of them routes or pairs, {time.monotonic() - start:.0f} s")


def asked_beside(program, room, seed, wanted, rows, begin, kinds):
    """The lines of a run, what each client asked and read, what is left in the files, and its end."""
    done, asked = threading.Event(), [[] for _ in range(CLIENTS)]
    with ServingBook(program, room, CLIENTS, *(OPTIONS[kind] for kind in kinds), begin=begin, first=wanted.first) as run:
        threads = [threading.Thread(target=ask_on, args=(run, at + 1, questions(at + 1, kinds), done, asked[at]), daemon=True)
                   for at in range(CLIENTS)]
        for thread in threads:
            thread.start()
        lines = run.feed(rows.splitlines(keepends=True), wanted.steps, random.Random(seed) if seed % 2 else None)
        end = time.monotonic() + 5
        while min(map(len, asked)) < 3 and time.monotonic() < end:
            time.sleep(0.01)
        done.set()
        for thread in threads:
            thread.join()
        said, status, errors = run.end()
        return [*lines, said[0]], asked, run.texts(), (["", *said[1:]], status, errors)


def audited(program, checks, seed, journal, asked, kinds):
    """The judgement of all replies by `audit`, over the journal that the rules give."""
    words = [OPTIONS[kind] for kind in kinds]
    requests, replies = (latin("".join(texts)) for texts in ([f"{row}\n" for _, row, _ in asked], [line for *_, line in asked]))
    checks.same(f"the replies of run {seed} audited", program.audit(latin(journal), requests, replies, *words),
                (0, f"good={len(asked)} faults=0\n".encode(), b""))


PARTS = clients_dialogue, clients_refused, clients_begun, clients_beside


def book_clients(program, checks):
    with tempfile.TemporaryDirectory() as room:
        checks.parts_in(room, PARTS, program, checks)
