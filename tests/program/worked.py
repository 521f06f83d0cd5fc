"""The worked streams, journals and requests beside this file, and the lines that stand beside each."""
import os

from checks import TOP
from program.built import status_of

HERE = os.path.dirname(os.path.abspath(__file__))


def scripts(program, checks):
    """Each stream of tests/program/scripts is answered as the file beside it says."""
    folder = os.path.join(HERE, "scripts")
    for name in sorted(os.listdir(folder)):
        if name.endswith(".rows"):
            rows = open(os.path.join(folder, name), "rb").read()
            lines = open(os.path.join(folder, name[:-5] + ".out"), "rb").read()
            checks.same(name, program.solve(rows), (status_of(lines), lines, b""))


def journals(program, checks):
    """Each journal of tests/program/journals, with the requests beside it, is answered as the file beside them says."""
    folder = os.path.join(HERE, "journals")

    def held(name):
        path = os.path.join(folder, name)
        return open(path, "rb").read() if os.path.exists(path) else b""

    for name in sorted(os.listdir(folder)):
        if name.endswith(".journal"):
            stem = name[:-8]
            lines = held(stem + ".out")
            found = program.batch(held(name), held(stem + ".requests"), *held(stem + ".words").decode().split())
            checks.same(name, found, (status_of(lines), lines, b""))


def workers(program, checks):
    """However many workers answer, the lines of a journal and requests are the same."""
    journal = open(os.path.join(TOP, "examples/nsfnet.journal"), "rb").read()
    requests = open(os.path.join(TOP, "examples/nsfnet.requests"), "rb").read()
    wanted = program.batch(journal, requests)
    checks.true("a run by one worker", wanted[0] == 0 and wanted[1].count(b"\n") == 18, wanted)
    for count in [1, 2, 3, 4, 8, 64]:
        checks.same(f"{count} workers", program.batch(journal, requests, "--workers", str(count)), wanted)
    folder = os.path.join(HERE, "journals")
    for stem in ["one_link", "a_torn_journal", "a_second_bad_request", "a_refused_batch_behind_others", "nothing",
                 "requests_are_answered_at_the_last_version", "a_marked_router"]:
        kept, asked, lines = (open(os.path.join(folder, f"{stem}.{kind}"), "rb").read() for kind in ("journal", "requests", "out"))
        checks.same(f"{stem} by 4 workers", program.batch(kept, asked, "--workers", "4"), (status_of(lines), lines, b""))
