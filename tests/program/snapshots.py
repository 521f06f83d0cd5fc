"""`routed snapshot`: the batches that make a journal's last database from nothing, or the line by which the journal is refused."""
import os
import random
import re
import subprocess
import time

from reference import changes
from reference.formats import MOST_CHANGES, MOST_LINKS, MOST_MARKS, MOST_ROUTERS, Refused
from reference.runs import MOST_ROWS, batch_text, publish, snapshot_of, whole_batches

HERE = os.path.dirname(os.path.abspath(__file__))
TORN = "--accept-torn"
JOURNALS, LONG, CHANGED = 40, 10, 200  # drawn journals, such as have 60 batches, and such as have changed bytes
STOPPED = (3, b"", b"routed: stopped\n")
ABSENT, FOLDER, FULL = (f"{text}\n".encode() for text in (
    "No such file or directory (os error 2)", "Is a directory (os error 21)", "No space left on device (os error 28)"))


def snapshots(program, checks):
    start, draw = time.monotonic(), random.Random(13)
    requests = changes.stream_of(row for first in (0, 4, 8) for row in changes.ask_rows(draw, first))
    texts = [*held(), *(changes.journal(draw) for _ in range(JOURNALS)), *(changes.updates(draw, 60) for _ in range(LONG))]
    texts += [changes.changed(draw, changes.journal(draw))[0] for _ in range(CHANGED)]
    made = sum(compared(program, checks, place, text, words, requests) for place, text in enumerate(texts) for words in ([], [TORN]))
    checks.true("journals with a snapshot, and without", len(texts) < made < 2 * len(texts), made)
    for place in range(JOURNALS):
        continued(program, checks, place, draw)
    full(program, checks, draw)
    many_rows(program, checks)
    stops(program, checks)
    print(f"snapshots: {len(texts)} journals, {time.monotonic() - start:.0f} s")


def held():
    """The journals of tests/program/journals."""
    folder = os.path.join(HERE, "journals")
    for name in sorted(os.listdir(folder)):
        if name.endswith(".journal"):
            with open(os.path.join(folder, name), encoding="latin-1", newline="") as kept:
                yield kept.read()


# ---- what is written


def wanted_of(journal, accept_torn):
    """The status, and what is written."""
    try:
        networks, fault = publish(whole_batches(journal, accept_torn))
    except Refused as line:
        return 2, f"{line}\n"
    return (2, f"{fault}\n") if fault else (0, snapshot_of(networks[-1]))


def taken(program, journal, *words):
    """A run over a journal."""
    return program.over("snapshot", words, journal=journal.encode("latin-1"))


def replies(ran):
    """What requests are answered, but for the version, and what else is written but versions."""
    return [re.sub(rb"^(ask [0-9]+) v[0-9]+ ", rb"\1 ", line) for line in ran[1].splitlines() if not line.startswith(b"version ")]


def compared(program, checks, place, journal, words, requests):
    """A journal's snapshot is the reference's, its own snapshot, and answers requests as the journal does. Answers whether there is one."""
    name = f"snapshot of journal {place} {words}"
    status, text = wanted_of(journal, bool(words))

    def right(some):
        status, text = wanted_of("".join(some), bool(words))
        return status, text.encode(), b""

    checks.stream(name, journal.splitlines(keepends=True), lambda some: taken(program, "".join(some), *words), right)
    if status:
        return False
    checks.same(f"{name}: its own", taken(program, text), (0, text.encode(), b""))
    of_journal, of_text = program.batch(journal.encode("latin-1"), requests, *words), program.batch(text, requests)
    checks.same(f"{name}: its answers", (of_text[0], replies(of_text), of_text[2]), (0, replies(of_journal), b""))
    checks.same(f"{name}: its versions", of_text[1].count(b"version "), text.count("end,"))
    return True


def continued(program, checks, place, draw):
    """A journal that is cut to a snapshot in its midst goes on, with other numbers, to the same database."""
    batches = whole_batches(changes.updates(draw, 12))
    cut = draw.randrange(len(batches) + 1)
    front = snapshot_of(publish(batches[:cut])[0][-1])
    rest = "".join(batch_text(number, rows) for number, rows in enumerate(batches[cut:], front.count("end,") + 1))
    whole = snapshot_of(publish(batches)[0][-1])
    checks.same(f"a snapshot of {cut} batches, continued: {place}", taken(program, front + rest), (0, whole.encode(), b""))


# ---- limits


def full_rows(links, marks):
    """Rows that put links of all routers, each to its next, and mark as many, in order of their keys."""
    each = MOST_LINKS // MOST_ROUTERS

    def router(at):
        return f"10.{at // 256}.{at % 256}.1"

    for link in range(links):
        near, number = divmod(link, each)
        far, free = router((near + 1) % MOST_ROUTERS), ",".join(map(str, range(link, link + 8)))
        yield f"put,{router(near)},172.16.0.{number},{far},172.16.1.{number},{link},0x{link:08x},{free}"
    for mark in range(marks):
        yield f"node,{router(mark)},0"


def numbered(rows):
    """The text of rows in full batches but for the last."""
    cuts = [rows[first:first + MOST_CHANGES] for first in range(0, len(rows), MOST_CHANGES)]
    return changes.stream_of(row for number, cut in enumerate(cuts, 1) for row in (*cut, f"end,{number},{len(cut)}"))


def full(program, checks, draw):
    """Databases at the edges of a batch, and a full one, whatever the order in which they came about."""
    for links, marks, sizes in [
        (MOST_CHANGES - 1, 0, [4095]), (MOST_CHANGES, 0, [4096]), (MOST_CHANGES, 1, [4096, 1]), (0, MOST_MARKS, [1024]),
        (MOST_LINKS, MOST_MARKS, [4096, 4096, 4096, 4096, 1024]),
    ]:
        rows = list(full_rows(links, marks))
        text, mixed = numbered(rows), rows[:]
        draw.shuffle(mixed)
        ends = [int(row.split(",")[2]) for row in text.splitlines() if row.startswith("end,")]
        checks.same(f"sizes of {links} links and {marks} marks", ends, sizes)
        for order, given in (("in order", rows), ("mixed", mixed)):
            checks.same(f"snapshot of {links} links and {marks} marks, {order}", taken(program, numbered(given)), (0, text.encode(), b""))
    for more, words in [("put,10.0.0.1,172.17.0.0,10.0.1.1,172.17.1.0,1,0x0,0,0,0,0,0,0,0,0", "full"), ("node,10.9.9.9,0", "marks")]:
        checks.same(f"one more than a full database: {words}", taken(program, f"{text}{more}\nend,6,1\n"),
                    (2, f"batch 6 refused: {words}\n".encode(), b""))


def many_rows(program, checks):
    """The most rows of a journal, and one more."""
    batch = f"{next(full_rows(1, 0))}\nend,1,1\n"
    mark = "node,10.0.0.1,0\n"
    most = batch + mark * (MOST_ROWS - 2)
    checks.same("the most rows, torn", taken(program, most), (2, b"journal torn after 1\n", b""))
    checks.same("the most rows, torn and accepted", taken(program, most, TORN), (0, batch.encode(), b""))
    for words in ([], [TORN]):
        checks.same(f"one row more {words}", taken(program, most + mark, *words), (2, b"too many rows\n", b""))


# ---- stops


def stops(program, checks):
    """A journal that can't be opened or read, an output that can't be written, and words that are refused."""
    absent = os.path.join(HERE, "journals", "absent")
    for path, said in ((absent, b"open: " + ABSENT), (HERE, b"read: " + FOLDER)):
        words = ["snapshot", "--journal", path]
        checks.same(f"a journal that can't be read: {said}", program.run(words), STOPPED)
        checks.same(f"a journal that can't be read, explained: {said}", program.run([*words, "--explain"]),
                    (3, b"", f"routed: journal {path}: ".encode() + said + STOPPED[2]))
    journal = os.path.join(HERE, "journals", "one_link.journal")
    with open("/dev/full", "wb") as out:
        ran = subprocess.run([program.path, "snapshot", "--journal", journal, "--explain"], stdout=out, stderr=subprocess.PIPE, check=False)
    checks.true("a full device", ran.returncode == 3
                and re.fullmatch(b"routed: standard output: (write|flush): " + re.escape(FULL + STOPPED[2]), ran.stderr), ran.stderr)
    for words in ([], ["--journal"], ["--journal", journal, "more"], ["--journal", journal, "--requests", journal],
                  ["--journal", journal, "--workers", "2"]):
        status, out, err = program.run(["snapshot", *words])
        checks.true(f"words that are refused: {words}", (status, out) == (1, b"") and err, (status, out))
