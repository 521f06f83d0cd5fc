"""Files of `routed serve --book` that are full or fail: the row is refused by `keep W` or `journal W`, later ones by `stopped`, and clients
are answered on at the last version that is published. Also how soon a client learns of a row.
"""
import collections
import os
import random
import resource
import tempfile
import threading

from program.book_served import beginnings
from program.compact_books import latin
from program.drawn_books import drawn_stream
from program.known_books import BASE, MASKS, place
from program.known_served_books import full
from program.refusal import COMPILER, Refuser
from program.served_calls import Served, texts_of
from program.serving_book import Answers, ServingBook, ask_on, questions
from reference import compacts, runs
from reference.served_books import Run

FILES = {"keep": "/keep", "journal": "/journal"}
PAUSE, STEP = 150, 89  # milliseconds, and bytes between two sizes of a file
ASK = f"ask,7,1.1.1.1,2.2.2.2,7,0,{MASKS},\n"


def narrow(size):
    """What a run does first whose files take so many bytes."""
    return {"preexec_fn": lambda: resource.setrlimit(resource.RLIMIT_FSIZE, (size, size))}


def words_of(lines):
    """How often rows are refused by each file."""
    return collections.Counter(word for word in FILES for line in lines.splitlines() if f" refused: {word} " in line)


def refusing(refuser, **refusal):
    """The environment of a run of which some writes are refused (tests/program/refuse.c)."""
    refusal = {f"REFUSE_{name}": str(value) for name, value in {"CALL": "write", **refusal}.items()}
    return {**os.environ, "LD_PRELOAD": refuser.library, **refusal}


def settled(kept):
    """The rows that are whole in a file of `--keep`."""
    return compacts.settled(latin(kept)).decode("latin-1")


def faults_full(program, checks, room):
    """Files that take so many bytes: known lines, and each size of short streams, with and without a beginning."""
    served, said = Served(program, room), collections.Counter()
    for rows, size, lines, kept, journal in full():
        checks.same(f"a served book whose files take {size} bytes of {rows[-20:]!r}", served.run(rows, **narrow(size)),
                    (2, *map(latin, (lines, "", kept, journal))))
    for seed in range(4):
        begin, rows, faults = *(("", drawn_stream(seed, 40)) if seed % 2 else beginnings(seed)), []
        whole = Run(rows, begin)
        first = len(whole.steps[0].published)  # what a beginning publishes fits
        for size in range(first, max(len(whole.kept), len(whole.journal)) + STEP, STEP):
            run = Run(rows, begin, size, size - first)
            found, wanted = served.run(rows, begin, **narrow(size)), texts_of(run)
            said += words_of(run.lines)
            if found != wanted:
                faults.append((size, found, wanted))
        checks.same(f"drawn books whose files are full {seed}", faults[:1], [])
    checks.true("each file is full", min(said["keep"], said["journal"]) > 5, said)


def faults_refused(program, checks, room):
    """Writes to one of the files that fail, each in turn: what is written until then stays, and the other file is as it has to be."""
    if COMPILER is None:
        print("refused writes of a served book: skipped, there is no C compiler")
        return
    refuser, served, said = Refuser(), Served(program, room), collections.Counter()
    for seed, word in [(seed, word) for seed in range(2) for word in FILES]:
        begin, rows = ("", drawn_stream(seed, 50)) if seed % 2 else beginnings(seed)
        first = len(Run("", begin).journal)
        for at, flag in [(1, "SHORT"), *((at, flag) for at in range(1, 9) for flag in ("", "ON", "BREAK"))]:
            flags = {"ON": 1, "SHORT": 1} if flag == "SHORT" else {flag: 1} if flag else {}
            found = served.run(rows, begin, env=refusing(refuser, AT=at, FILE=FILES[word], **flags))
            kept, journal = found[3:]
            if len(journal) < first:  # the rules say nothing of a beginning that isn't published
                continue
            run = Run(rows, begin, **{"keep": {"room": len(kept)}, "journal": {"journal_room": len(journal) - first}}[word])
            said += words_of(run.lines)
            checks.same(f"a served book {seed} whose {word} fails at write {at} {flag}", found, texts_of(run))
            checks.true(f"one that writes byte by byte {seed} {word}", flag != "SHORT" or run.status == Run(rows, begin).status
                        and " refused: stopped" not in run.lines, run.lines[-200:])
    checks.true("writes to each file fail", min(said["keep"], said["journal"]) > 10, said)


def faults_beside(program, checks, room):
    """Clients are answered on: at the versions before the row that is refused."""
    said = collections.Counter()
    for seed in range(6):
        inner, done, asked = os.path.join(room, str(seed)), threading.Event(), []
        os.mkdir(inner)
        rows = drawn_stream(seed, 80)
        whole = Run(rows)
        size = random.Random(seed).randrange(len(whole.kept) // 2)
        wanted = Run(rows, "", size, size)
        with ServingBook(program, inner, 2, **narrow(size)) as run:
            thread = threading.Thread(target=ask_on, args=(run, 1, questions(1), done, asked), daemon=True)
            thread.start()
            lines = run.feed(rows.splitlines(keepends=True), wanted.steps, random.Random(seed))
            last = f" v{len(wanted.networks) - 1} "
            reply = run.talk(2, ASK)
            done.set()
            thread.join()
            ended = run.end()
            checks.true(f"a client after the fault {seed}", last in reply, (last, reply))
            checks.same(f"lines beside clients and a fault {seed}", "".join([*lines, ended[0][0]]), wanted.lines)
            checks.same(f"the end after a fault {seed}", (ended[0][1:], *ended[1:]), (["", ""], 2, ""))
            checks.same(f"what is kept and published before a fault {seed}", run.texts(), [wanted.kept, wanted.journal])
        Answers(wanted.networks).judge(checks, f"beside a fault {seed}", asked, len(wanted.networks) - 1)
        checks.true(f"a client asks beside a fault {seed}", len(asked) > 5, len(asked))
        said += words_of(wanted.lines)
    checks.true("files are full beside clients", said["keep"] + said["journal"] == 6, said)


def faults_late(program, checks, room):
    """While the write of a batch takes long, clients are answered at the version before it: what they are told is in the journal."""
    if COMPILER is None:
        print("late writes of a served book: skipped, there is no C compiler")
        return
    refuser, rows = Refuser(), [BASE, place(1, bandwidth=5), place(1, bandwidth=7), "release,1\n", "end,2,0\n"]
    for name in FILES.values():
        inner, found = os.path.join(room, name[1:]), []
        os.mkdir(inner)
        with ServingBook(program, inner, 1, env=refusing(refuser, AT=1, ON=1, FILE=name, PAUSE=PAUSE)) as run:
            for row in rows:
                run.say(0, row)
                reader = threading.Thread(target=run.next_line, daemon=True)
                reader.start()
                while reader.is_alive():
                    told, version = run.told, int(run.talk(1, ASK).split()[2][1:])
                    kept, journal = run.texts()
                    found.append((told, version, len(runs.whole_batches(journal, True)), len(Run(settled(kept)).networks) - 1))
            checks.same(f"the end of late writes to {name}", run.end(), (["", ""], 0, ""))
        bad = [it for it in found if not it[0] <= it[1] <= it[2] <= it[3]]
        checks.same(f"replies beside late writes to {name} that aren't in the journal, or whose row isn't kept", bad[:3], [])
        checks.true(f"a client is answered beside late writes to {name}", len(found) > 3 * len(rows), len(found))


PARTS = faults_full, faults_refused, faults_beside, faults_late


def book_faults(program, checks):
    with tempfile.TemporaryDirectory() as room:
        checks.parts_in(room, PARTS, program, checks)
