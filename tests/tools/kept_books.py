"""Tests of `deploy/keep --book`: a run begins with the book of the run before, which is in its files N.begin and N.kept.

A beginning is what tests/reference/compacts.py makes of the rows of both. Kills are in tests/tools/kept_kills.py.
"""
import os
import tempfile
import time

from checks import TOP
from program.known_books import BASE, CIRCUIT, FREE, held_row, place
from reference.compacts import compact
from tools.kept import Runs, last_of

KINDS = ("begin", "kept", "journal")
KEPT = place(1, 3, 40) + "release,1\n" + place(2) + f"{CIRCUIT}end,2,2\n" + held_row(3, 0, 30)
HAS_BOOK = "the newest run has a book, whose journal lacks the bandwidth of placements: --book is wanted"


def kept_books(program, checks):
    with tempfile.TemporaryDirectory() as room:
        checks.parts_in(room, (begun, wrong, of_both_kinds, removed), program, checks)


def of_book(program, room, *options):
    return Runs(program, room, "--book", *options, kinds=KINDS)


def left(runs, begin, kept, journal=""):
    """The files of a second run, and what the third begins with."""
    for name in runs.names():
        os.unlink(os.path.join(runs.folder, name))
    for kind, text in zip(KINDS, (begin, kept, journal)):
        if text is not None:
            runs.write(f"000002.{kind}", text)
    status, text = compact(begin + (kept or ""), True)
    assert status == 0
    return text


# ---- what a run begins with


def begun(program, checks, room):
    runs = of_book(program, room)
    checks.same("a first run", (runs.keep(), runs.names()),
                (runs.ran("000001", f"{runs.folder}: there is no run yet", "000001 begins with an empty network"), ["000001.begin"]))
    checks.same("a run that was not begun", runs.keep(), runs.ran("000001", "000001 was not begun: it begins now"))
    runs.write("000001.kept", BASE + KEPT)
    runs.write("000001.journal", "")
    wanted = compact(BASE + KEPT)[1]
    checks.same("the run before, whose journal isn't read", (runs.keep(), runs.read("000002.begin")), (runs.ran("000002"), wanted))
    checks.same("its rows are a base and placements", [wanted.count(word) for word in ("put,", "end,", "held,")], [2, 1, 2])
    checks.same("both files of its book stay", runs.names(), ["000001.begin", "000001.journal", "000001.kept", "000002.begin"])
    runs.write("000002.kept", "release,2\nrelease,3\n")
    runs.write("000002.journal", "put,1.1.1.1\n")
    checks.same("a book goes on from both files", (runs.keep(), runs.read("000003.begin")),
                (runs.ran("000003"), BASE.replace("0x1", "0x00000001")))
    for name, kept in (("whole", KEPT), ("without its last line feed", KEPT[:-1]), ("cut in its last row", KEPT[:-30]),
                       ("cut in a batch", KEPT[:KEPT.index("end,2")]), ("cut in an end row", KEPT[:KEPT.index("end,2") + 6]),
                       ("cut in a number", KEPT + "release,2"), ("of a part of a row", "pla"), ("that is empty", "")):
        wanted = left(runs, BASE + held_row(9), kept, "x")
        status, out, err = runs.keep()
        said = [line for line in err.splitlines() if not line.endswith(" bytes left out")]
        checks.same(f"kept rows, {name}", (status, out, said, runs.read("000003.begin")), (0, runs.ran("000003")[1], [], wanted))
        is_torn = compact(BASE + held_row(9) + kept)[1] != wanted or kept.endswith("release,2")
        checks.same(f"what is left out is said: {name}", "routed: standard input: " in err, is_torn)
    wanted = left(runs, BASE + held_row(9), "", None)
    checks.same("kept rows without a journal", (runs.keep(), runs.names(), runs.read("000003.begin")),
                (runs.ran("000003"), ["000003.begin"], wanted))


def wrong(program, checks, room):
    """What is refused stops the script by its line, and all files stay."""
    runs = of_book(program, room)
    folder = runs.folder

    def stopped(name, why, **env):
        before = runs.names()
        checks.same(name, runs.keep(**env)[::2], (1, f"keep: {why}\n"))
        checks.same(f"{name}: all files stay", [name for name in runs.names() if not name.endswith(".new")], before)

    both = "000002.begin and 000002.kept"
    left(runs, BASE, "")
    runs.write("000002.kept", "release,5\n" + place(1))
    status, out, err = runs.keep()
    checks.same("a row that is refused", (status, out, err.splitlines()[-1:]), (1, "", [f"keep: {both}: release 5 refused: absent"]))
    checks.same("nothing is made of it", (runs.keep()[0], "000003.begin" in runs.names()), (1, False))
    runs.write("000002.kept", "")
    runs.write("000002.begin", BASE + CIRCUIT)
    status, _, err = runs.keep()
    checks.same("a beginning from elsewhere with open changes", (status, err.splitlines()[-1:]), (1, [f"keep: {both}: unended 2"]))
    left(runs, BASE, KEPT, "")
    os.unlink(os.path.join(folder, "000002.begin"))
    stopped("kept rows without the beginning", f"{folder}: 000002.begin isn't there, and 000002.kept is no book without it")
    left(runs, BASE + held_row(9), None, BASE)
    stopped("a beginning with placements, and a journal alone",
            f"{folder}: 000002.kept isn't there, and 000002.begin has placements: 000002.journal is no book")
    for name, begin, kept, journal in (("a book", BASE, KEPT, BASE), ("a book that has accepted nothing", BASE, "", BASE),
                                       ("a book that was not begun", BASE + held_row(9), None, None)):
        left(runs, begin, kept, journal)
        runs.options = ()
        stopped(f"{name}, without the word", f"{folder}: {HAS_BOOK}")
        runs.options = ("--book",)
    left(runs, BASE, KEPT)
    with open(os.path.join(room, "full"), "w", encoding="ascii") as script:
        script.write("#!/bin/sh\ncat >/dev/null\necho put,1.1.1.1\nexit 3\n")
    os.chmod(script.name, 0o755)
    for _ in range(2):
        stopped("without room", f"{both}: its snapshot can't be written to {folder}: status 3", ROUTED_PROGRAM=script.name)
    checks.same("with room", runs.keep(), runs.ran("000003"))


def of_both_kinds(program, checks, room):
    """A folder that had no book goes on with one, and its last network is the base."""
    runs = of_book(program, room)
    with open(os.path.join(TOP, "examples/nsfnet.journal"), encoding="ascii") as file:
        whole = file.read()
    had_none = "000001.journal is of a run without a book: 000002 begins with its network, and without placements"
    runs.write("000001.journal", whole)
    runs.write("000001.begin", whole[:whole.index("end,1,")])
    os.truncate(os.path.join(runs.folder, "000001.begin"), 0)
    checks.same("the run before had no book", (runs.keep(), runs.read("000002.begin")), (runs.ran("000002", had_none), last_of(whole)))
    checks.same("its journal has what it began with", runs.names(), ["000001.journal", "000002.begin"])
    runs.write("000002.kept", "")
    runs.write("000002.journal", last_of(whole))
    checks.same("its book is the next beginning", (runs.keep(), runs.read("000003.begin")), (runs.ran("000003"), last_of(whole)))
    left(runs, BASE, None, BASE[:50])
    checks.same("a journal that ends inside its beginning", (runs.keep(), runs.read("000003.begin")),
                (runs.ran("000003", had_none.replace("000001.", "000002.").replace("000002 begins", "000003 begins"),
                          "000002.journal ends inside its beginning: 000003 begins as 000002 was to begin"), last_of(BASE)))
    left(runs, BASE, None, None)
    checks.same("a run without a book that was not begun", runs.keep(), runs.ran("000002", "000002 was not begun: it begins now"))
    runs.options, runs.kinds = (), ("begin", "journal")
    checks.same("nor is one without placements, without the word", runs.keep(), runs.ran("000002", "000002 was not begun: it begins now"))


def removed(program, checks, room):
    """Old files of a book go with their journal, and a run in which nobody was told anything leaves none."""
    for options, stay, count in (((), (1, 2, 3, 4), 0), (("--journals", "3"), (2, 3, 4), 1), (("--days", "2"), (3, 4), 2)):
        inner = os.path.join(room, "-".join(options) or "all")
        os.mkdir(inner)
        runs = of_book(program, inner, *options)
        for number in range(1, 5):
            for kind, text in zip(KINDS, (BASE, KEPT, BASE)):
                runs.write(f"{number:06}.{kind}", text)
                os.utime(os.path.join(runs.folder, f"{number:06}.{kind}"), (time.time() - (9 - 2 * number) * 86400,) * 2)
        checks.same(f"the files that stay with {options}", (runs.keep(), runs.names()),
                    (runs.ran("000005", *[f"{count} old journals were removed"] * bool(count)),
                     [f"{number:06}.{kind}" for number in stay for kind in ("begin", "journal", "kept")] + ["000005.begin"]))
    os.mkdir(os.path.join(room, "told"))
    runs, begin = of_book(program, os.path.join(room, "told"), "--journals", "2"), BASE + held_row(9) + held_row(8)
    effective = BASE.replace(FREE, ",".join(["998"] * 8), 1).replace("0x1,", "0x00000001,")
    for name, kept, journal, is_told in (("a journal that isn't there", "", None, False), ("an empty journal", "", "", False),
                                         ("a journal that is cut in its beginning", "", effective[:-1], False),
                                         ("a journal that has its beginning", "", effective, True),
                                         ("an empty journal, and kept rows", "release,9\n", "", True)):
        left(runs, begin, kept, journal)
        runs.keep()
        there = [f"000002.{kind}" for kind in ("begin", "journal", "kept")] if is_told else []
        checks.same(f"what is left with {name}", runs.names(), there + ["000003.begin"])
    left(runs, held_row(9), "", "")
    runs.keep()
    checks.same("a base without rows has begun in an empty journal", len(runs.names()), 4)
