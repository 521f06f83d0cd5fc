"""What `solve`, `batch`, `live` and `serve` answer by `--trees 0`, by default and with a megabyte is the same, byte for byte, on streams
that ask often enough for trees. A reply of `live` beside updates names the version of its moment, so it is the reference's at that version.

    tests/run --trees MB

runs all parts by a program that adds the option to each such command (tests/program/option.c).
"""
import os
import random
import shutil
import subprocess
import tempfile

from checks import TOP
from program.refusal import COMPILER
from program.serving import Serving, batches_of
from program.tables import ran_live, table
from reference import changes, runs
from reference.versions import Versions

HERE = os.path.dirname(os.path.abspath(__file__))
OFTEN = 20  # rounds of all requests at each version, in solve and serve: 800 requests pay for a first tree
ALL_AT_ONCE = 300  # rounds of all requests, in batch and live: their requests pay for trees by each of 4 workers
WAYS = [[], ["--trees", "0"], ["--trees", "1"], ["--trees", "1024"]]
WRONG = ["-1", "1025", "x", "", "1.5", "65536", "18446744073709551617"]
CLIENTS = 3


def adding(program, megabytes, room):
    """The path of a program that is this one with the option in each command that takes it. Both are in a folder that everybody may
    read."""
    os.chmod(room, 0o755)
    copied, path = os.path.join(room, "program"), os.path.join(room, "routed")
    shutil.copy(program, copied)
    defined = [f'-D{name}="{text}"' for name, text in (("PROGRAM", copied), ("MEGABYTES", megabytes))]
    subprocess.run([COMPILER, "-static", "-O1", *defined, "-o", path, os.path.join(HERE, "option.c")], check=True)
    return path


def trees(program, checks):
    draw = random.Random(3)
    asks = [f"ask,{at},10.0.0.{at},10.0.0.{(at * 5 + 1) % 12},{at % 8},{draw.choice([0, 5])},0x0,{draw.choice(['0x0', '0x6'])},0x0,"
            for at in range(12)]
    nets = [Versions(text_of("examples/nsfnet.journal"), text_of("examples/nsfnet.requests").splitlines()),
            Versions(changes.updates(draw, 12, 12), asks)]
    for words in WAYS:
        for name, rows, lines in worked("scripts", ".rows", ".out"):
            checks.same(f"{name} {words}", program.run(["solve", *words], rows)[1], lines)
        for name, journal, requests, lines in worked("journals", ".journal", ".requests", ".out"):
            found = program.batch(journal, requests, *words, *worked_words(name))
            checks.same(f"{name} {words}", found[1], lines)
        for first, (updates, requests, lines, kept) in table("live"):
            checks.same(f"live: {updates} {requests} {words}", ran_live(program, updates, requests, "4", *words),
                        ((int(first), lines, b""), kept))
        for versions in nets:
            answered(program, checks, versions, words)
    refused(program, checks)


def text_of(path):
    with open(os.path.join(TOP, path), encoding="ascii") as file:
        return file.read()


def worked(folder, *ends):
    """Each stream of a folder whose name has the first end: its name, and the bytes of the files with these ends, none where there is
    none."""
    for name in sorted(os.listdir(os.path.join(HERE, folder))):
        if name.endswith(ends[0]):
            paths = [os.path.join(HERE, folder, name[:-len(ends[0])] + end) for end in ends]
            yield name, *(open(path, "rb").read() if os.path.exists(path) else b"" for path in paths)


def worked_words(name):
    """The options of a journal of tests/program/journals."""
    path = os.path.join(HERE, "journals", name.replace(".journal", ".words"))
    return open(path, encoding="ascii").read().split() if os.path.exists(path) else []


def joined(lines):
    return "".join(f"{line}\n" for line in lines)


def answered(program, checks, versions, words):
    """Runs over the batches of a network and many rounds of its requests."""
    last, rounds = len(versions.replies) - 1, joined(versions.asks) * OFTEN
    rows = "".join(batch + rounds for batch in batches_of(versions))
    solved = "".join(f"version {at}\n" + joined(versions.replies[at]) * OFTEN for at in range(1, last + 1))

    def right(some):
        text = "".join(some)
        status, lines = runs.solve(text) if text != rows else (0, solved.splitlines())
        return status, joined(lines).encode(), b""

    checks.stream(f"solve {words}", rows.splitlines(keepends=True), lambda some: program.run(["solve", *words], "".join(some)), right)
    many = joined(versions.asks) * ALL_AT_ONCE
    lines = joined(f"version {at}" for at in range(1, last + 1)) + joined(versions.replies[last]) * ALL_AT_ONCE
    for workers in ("1", "4"):
        found = program.batch(versions.texts[last], many, "--workers", workers, *words)
        checks.same(f"batch by {workers} workers {words}", found, (0, lines.encode(), b""))
    (status, out, err), kept = ran_live(program, versions.texts[last], many, "4", *words)
    replies, end = out.decode().splitlines()[:-1], out.decode().splitlines()[-1:]
    checks.true(f"live {words}", (status, err, end) == (0, b"", [f"applied {last}"]) and len(replies) == ALL_AT_ONCE * len(versions.asks)
                and versions.are_right(replies), (status, err, end))
    checks.same(f"the journal of live {words}", kept, versions.texts[last].encode())
    with tempfile.TemporaryDirectory() as room, Serving(program, room, CLIENTS, *words) as run:
        for at, batch in enumerate(batches_of(versions), 1):
            checks.same(f"serve {words}: batch {at}", run.talk(0, batch), f"version {at}\n")
            for client in range(1, CLIENTS + 1):
                run.say(client, rounds)
                heard = "".join(run.hear(client) for _ in range(OFTEN * len(versions.asks)))
                checks.same(f"serve {words}: client {client} at {at}", heard, joined(versions.replies[at]) * OFTEN)
        checks.same(f"serve {words}: its end", run.end(), ([""] * (CLIENTS + 1), 0, ""))


def refused(program, checks):
    """A number that isn't one of 0 to 1024 is refused by name, and so is the option where no trees are grown."""
    read = ["--journal", "/dev/null", "--requests", "/dev/null"]
    live = ["live", "--updates", "/dev/null", "--requests", "/dev/null", "--journal", "/nowhere/journal"]
    serve = ["serve", "--journal", "/nowhere/journal", "--client", "/dev/null=/nowhere/out"]
    for words in (["solve"], ["batch", *read], live, serve):
        for number in WRONG:
            status, out, err = program.run([*words, "--trees", number], b"end,1,0\n")
            named = "'-1'" if number == "-1" else f"'{number}' for '--trees <MB>'"
            checks.true(f"{words[0]} --trees {number}", (status, out) == (1, b"") and named in err.decode(), (status, out, err))
        _, _, text = program.run([words[0], "--help"])
        checks.true(f"help of {words[0]} names the option", b"--trees <MB>" in text and b"[default: 64]" in text, text)
    for words in (["snapshot", "--journal", "/dev/null"], ["audit", *read, "--replies", "/dev/null"], ["book"]):
        status, out, err = program.run([*words, "--trees", "1"])
        checks.true(f"{words[0]} takes no trees", (status, out) == (1, b"") and b"'--trees'" in err, (status, out, err))
