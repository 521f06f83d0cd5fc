"""Runs a program while the C library refuses its calls (tests/program/refuse.c)."""
import concurrent.futures
import itertools
import os
import shutil
import subprocess
import tempfile
from typing import NamedTuple

HERE = os.path.dirname(os.path.abspath(__file__))
COMPILER = shutil.which(os.environ.get("CC", "cc"))
AT_ONCE = 4  # runs beside one another
SECONDS = 60  # after which a run hangs


class Ran(NamedTuple):
    """A run: its status (None: it hung), what it wrote, its calls of the kind, and how many were refused (None: not told)."""
    status: int
    out: bytes
    err: bytes
    calls: int
    refused: int

    def fault(self):
        """What no run may do, whatever is refused."""
        if self.status is None:
            return f"no end after {SECONDS} s"
        if self.status < 0:
            return f"signal {-self.status}"
        return "its calls are not counted" if self.refused is None else None


class Refuser:
    """The library, built in a folder of its own."""

    def __init__(self):
        self.room = tempfile.TemporaryDirectory()
        self.library = os.path.join(self.room.name, "refuse.so")
        source = os.path.join(HERE, "refuse.c")
        subprocess.run([COMPILER, "-shared", "-fPIC", "-O1", "-o", self.library, source, "-ldl"], check=True)
        self.numbers = itertools.count()

    def refusing(self, call, at, *flags, **more):
        """The environment of a run whose call `at` of this kind is refused, and the file that gets the counts of its calls."""
        counts = os.path.join(self.room.name, f"counts{next(self.numbers)}")
        more = {**dict.fromkeys(flags, 1), **more}
        return {**os.environ, "LD_PRELOAD": self.library, "REFUSE_CALL": call, "REFUSE_AT": str(at), "REFUSE_COUNTS": counts,
                **{f"REFUSE_{flag.upper()}": str(value) for flag, value in more.items()}}, counts

    def run(self, words, call, at, *flags, stdin=None, **how):
        """One run whose call `at` of this kind is refused: "on" refuses each later one too, "short" moves one byte, "break" is EINTR."""
        env, counts = self.refusing(call, at, *flags)
        source = open(stdin, "rb") if stdin else subprocess.DEVNULL
        try:
            ran = subprocess.run(words, stdin=source, capture_output=True, timeout=SECONDS, env=env, **how)
            status, out, err = ran.returncode, ran.stdout, ran.stderr
        except subprocess.TimeoutExpired as late:
            status, out, err = None, late.stdout or b"", late.stderr or b""
        finally:
            if stdin:
                source.close()
        return Ran(status, out, err, *counted(counts))


def counted(counts):
    """How many calls there were, and how many were refused, by the file of a run; None where it has no file."""
    if not os.path.exists(counts):
        return None, None
    with open(counts, encoding="ascii") as told:
        calls, refused = map(int, told.read().split())
    os.remove(counts)
    return calls, refused


def each(judge):
    """Calls judge(N) for N from 1 until runs are untouched, some beside one another.

    How often threads call may differ from run to run, so it ends once no run of a whole block is touched, or after four faults.
    It answers how many refusals were tried, and the faults as pairs of N and text. `judge` answers whether anything was refused,
    and a fault or None.
    """
    tried, faults = 0, []
    with concurrent.futures.ThreadPoolExecutor(AT_ONCE) as pool:
        for first in itertools.count(1, 8 * AT_ONCE):
            numbers = range(first, first + 8 * AT_ONCE)
            found = list(pool.map(judge, numbers))
            touched = sum(is_touched for is_touched, _ in found)
            tried += touched
            faults += [(number, fault) for number, (_, fault) in zip(numbers, found) if fault]
            if not touched or len(faults) > 3:
                return tried, faults
