"""Tests of tests/checks.py and reference/shortened.py: which checks count, and by which rows a stream that differs is printed."""
import contextlib
import io
import os
import subprocess

from checks import TOP, Checks
from reference.shortened import shortened


def checked(checks):
    checks.parts((streams, printed, names, options), checks)


def numbered(count):
    """Rows that are numbers from 0 on."""
    return [f"{number}" for number in range(count)]


def streams(checks):
    """Streams that differ by rules that are known."""
    rows = numbered(100)
    for name, wanted, differs in [
        ("one row of a hundred", ["17"], lambda some: "17" in some),
        ("the first and the last row", ["0", "99"], lambda some: {"0", "99"} <= set(some)),
        ("five rows apart", ["3", "31", "32", "64", "98"], lambda some: {"3", "31", "32", "64", "98"} <= set(some)),
        ("a row that needs another one before it", ["40", "60"], lambda some: "60" in some and "40" in some[:some.index("60")]),
        ("rows of which each needs the next one", rows[95:], lambda some: some[-5:] == rows[95:]),
        ("a pair of rows, of which none differs alone", ["4", "5"],
         lambda some: "5" in some and all(str(int(row) ^ 1) in some for row in some)),
        ("no row at all", [], lambda some: True),
        ("all rows", rows, lambda some: some == rows),
    ]:
        checks.same(f"shortened to {name}", shortened(rows, differs), wanted)
        checks.same(f"the rows that were shortened to {name} are as before", rows, numbered(100))
    tries = []
    late = shortened(rows, lambda some: tries.append(some) or "5" in some, 3, lambda: len(tries))  # a second for each try
    checks.same("the time is up after three tries", (len(tries), late), (3, [*rows[:32], *rows[96:]]))
    batches = [row for number in range(1, 6) for row in (*(f"put,{number},{at}\n" for at in range(4)), f"end,{number},4\n",
                                                         f"ask,{number}\n")]
    checks.same("batches are shortened to one change", shortened(batches, lambda some: ("ask,4\n", "put,2,3\n") in published(some)),
                ["put,2,3\n", "end,1,1\n", "ask,4\n"])
    wrong = ["put,1,0\n", "end,1,2\n", "put,1,1\n", "end,1,1\n"]
    checks.same("a wrong count stays where it is what differs", shortened(wrong, lambda some: "end,1,2\n" in some), ["end,1,2\n"])


def published(rows):
    """Each ask with each change before it that is in a batch of the right number and count."""
    number, changes, known, found = 1, [], [], set()
    for row in rows:
        if row.startswith("end,"):
            if row == f"end,{number},{len(changes)}\n":
                known, number = known + changes, number + 1
            changes = []
        elif row.startswith("put,"):
            changes.append(row)
        else:
            found |= {(row, change) for change in known}
    return found


def printed(checks):
    """What `Checks.stream` prints and counts: a stream that differs fails by its shortest rows."""
    def length(some):
        return len("".join(some))

    def judged(rows, found):
        own, said = Checks(), io.StringIO()
        with contextlib.redirect_stdout(said):
            own.stream("a stream", rows, found, length)
        return own.passed, own.failed, said.getvalue()

    rows = numbered(60)
    checks.same("a stream that doesn't differ", judged(rows, length), (1, 0, ""))
    passed, failed, said = judged(rows, lambda some: length(some) + ("17" in some))
    checks.same("a stream that differs fails once", (passed, failed), (0, 1))
    checks.same("what is said of it", said.splitlines(),
                ["FAILED a stream", "  wanted 110", "  found  111", "  shortest ['17']", "  wanted of it 2", "  found of it  3"])
    answers = iter([1, 2])
    passed, failed, said = judged([], lambda some: next(answers, 0))
    checks.same("one that differs once alone fails, too", (passed, failed, said.splitlines()[:1]), (0, 1, ["FAILED a stream"]))


def names(checks):
    """Which checks count where some alone are asked for."""
    def judged(only, call):
        own, said = Checks(only), io.StringIO()
        with contextlib.redirect_stdout(said):
            call(own)
            own.met("part")
        return own.passed, own.failed, [line for line in said.getvalue().splitlines() if line.startswith("FAILED")]

    def three(own):
        own.same("a link", 1, 1)
        own.same("a link and a mark", 1, 2)
        own.true("no link", False)

    def links(own):
        own.same("one", 1, 1)
        own.same("two", 2, 2)

    def marks(own):
        own.same("one mark", 1, 1)
        raise ValueError("marks end here")

    def both(own):
        own.parts((links, marks), own)

    for only, call, wanted in [
        ("", three, (1, 2, ["FAILED a link and a mark", "FAILED no link"])),
        ("a link", three, (1, 1, ["FAILED a link and a mark"])),
        ("a link and", three, (0, 1, ["FAILED a link and a mark"])),
        ("a mark", three, (0, 1, ["FAILED part: no check has a name that begins with 'a mark'"])),
        ("links", both, (2, 0, [])),
        ("two", both, (1, 1, ["FAILED marks: Traceback (most recent call last):"])),
        ("", both, (3, 1, ["FAILED marks: Traceback (most recent call last):"])),
    ]:
        checks.same(f"checks that begin with {only!r} of {call.__name__}", judged(only, call), wanted)


def options(checks):
    """What tests/texts prints for --only."""
    def ran(*words):
        found = subprocess.run([os.path.join(TOP, "tests/texts"), *words], capture_output=True, text=True, timeout=60)
        return found.returncode, found.stdout, found.stderr

    checks.same("--only with a check", ran("--only", "crates/crates/routed has"), (0, "1 passed, 0 failed\n", ""))
    checks.same("--only with no check's name", ran("--only", "crates/nothing"),
                (1, "FAILED crates: no check has a name that begins with 'nothing'\n0 passed, 1 failed\n", ""))
    status, out, said = ran("--only", "crate")
    checks.true("--only with no part", (status, out) == (2, "") and "there is no part 'crate': crates, " in said, said)
