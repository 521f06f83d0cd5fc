"""A live run that is killed at any moment leaves a journal that is a prefix of its batches, and answers over it are right.

A run of 200 batches is killed at 100 moments, half of them while its journal is written byte by byte. `batch --accept-torn` answers
over what is left as the reference does at that version.
"""
import os
import random
import subprocess
import tempfile
import time

from program.refusal import COMPILER, Refuser
from reference import changes
from reference.versions import Versions

BATCHES, KILLS, ROUTERS = 200, 100, 12


def network():
    """The updates of 200 batches on a small network, and requests."""
    draw = random.Random(5)
    asks = [f"ask,{at},10.0.0.{at},10.0.0.{(at * 5 + 1) % ROUTERS},{at % 8},{draw.choice([0, 5])},0x0,0x0,0x0," for at in range(ROUTERS)]
    return changes.updates(draw, BATCHES, ROUTERS), asks


def killed(program, checks):
    start = time.monotonic()
    updates, asks = network()
    versions, refuser = Versions(updates, asks), Refuser() if COMPILER else None
    found = []
    with tempfile.TemporaryDirectory() as room:
        paths = [os.path.join(room, name) for name in ("updates", "requests")]
        for path, text in zip(paths, (updates, "".join(f"{ask}\n" for ask in asks))):
            with open(path, "w", encoding="ascii") as file:
                file.write(text)
        for at in range(KILLS):
            journal = os.path.join(room, f"journal{at}")
            words = [program.path, "live", "--updates", paths[0], "--requests", paths[1], "--workers", "2", "--journal", journal]
            kill(words, journal, len(updates) * at // (KILLS - 10), at, refuser)
            found.append(judge(program, checks, versions, journal, paths[1], at))
    torn = sum(is_torn for _, is_torn in found)
    lengths = len({length for length, _ in found})
    # one write for each batch leaves few torn journals, and few lengths where the machine is busy; writes of one byte leave many
    checks.true("the kills are spread over the run", refuser is None or lengths > KILLS // 3 and torn > KILLS // 5, (lengths, torn))
    print(f"killed: {KILLS} live runs, {lengths} lengths of journals, {torn} torn, in {time.monotonic() - start:.0f} s")


def kill(words, journal, length, at, refuser):
    """Starts a run, and kills it once its journal has this length, or a little behind its last batch."""
    env = dict(os.environ)
    if refuser and at % 2:  # every other run writes its journal byte by byte
        env.update(LD_PRELOAD=refuser.library, REFUSE_CALL="write", REFUSE_AT="1", REFUSE_ON="1", REFUSE_SHORT="1")
    child = subprocess.Popen(words, env=env, stdout=subprocess.DEVNULL, stderr=subprocess.DEVNULL)
    if length:
        end = time.monotonic() + 10
        while child.poll() is None and time.monotonic() < end:
            try:
                if os.stat(journal).st_size >= length:
                    break
            except FileNotFoundError:
                pass
        else:
            length = 0
    time.sleep(0.0002 * (at % 10))
    child.kill()
    child.wait()


def judge(program, checks, versions, journal, requests, at):
    """The length of the journal that is left, and whether it is torn."""
    with open(journal, "a+", encoding="ascii") as kept:  # empty where it wasn't made yet
        kept.seek(0)
        text = kept.read()
    recorded = versions.recorded(text)
    checks.true(f"a journal after kill {at} is a front of the updates", recorded is not None, text[-200:])
    if recorded is None:
        return 0, False
    lines = [*(f"version {version}" for version in range(1, recorded + 1)), *versions.replies[recorded]]
    ran = program.run(["batch", "--accept-torn", "--journal", journal, "--requests", requests])
    checks.same(f"answers after kill {at}", ran, (0, "".join(f"{line}\n" for line in lines).encode(), b""))
    return len(text), len(text) > len(versions.texts[recorded])
