"""Runs `routed audit`, and shows on a terminal how far it is.

    routed-tools audit --journal FILE --requests FILE --replies FILE [--except] [--pairs] [--explain] [--program FILE]

The words are those of `routed audit`, and so are its lines and its status. Where standard error is a terminal, a line there says how
much of the replies has been read, and how long the rest will take.
"""
from __future__ import annotations

import argparse
import contextlib
import functools
import os
import subprocess
import sys
import time

from . import program
from .model.advice import format_of

OFTEN = 0.5  # seconds between two looks
ERASE = "\r\033[K"


def read_of(process: int, path: str) -> float | None:
    """Which part of a file a process has read, from 0 to 1; None while it isn't open there."""
    with contextlib.suppress(OSError):  # it has ended
        for file in os.listdir(f"/proc/{process}/fd"):
            if os.path.realpath(f"/proc/{process}/fd/{file}") == os.path.realpath(path):
                with open(f"/proc/{process}/fdinfo/{file}", encoding="ascii") as told:
                    return int(told.readline().split()[1]) / max(os.stat(path).st_size, 1)
    return None


def line_of(part: float, seconds: float) -> str:
    """What is said of a part that took these seconds."""
    left = seconds / part - seconds if part > 0 else 0
    return f"audit: {100 * part:.0f} % of the replies are read" + (f", {left:.0f} s left" if 0 < part < 1 else "")


def watch(run: subprocess.Popen, path: str) -> int:
    """Waits for the end of a run, and says how far it is."""
    begun, show = time.monotonic(), functools.partial(print, end="", file=sys.stderr, flush=True)
    while True:
        try:
            status = run.wait(OFTEN)
        except subprocess.TimeoutExpired:
            if (part := read_of(run.pid, path)) is not None:
                show(ERASE + line_of(part, time.monotonic() - begun))
        else:
            show(ERASE)
            return status


def main(words: list[str] | None = None) -> int:
    """Takes the words of a command line, and answers the status."""
    asked = argparse.ArgumentParser(prog="routed-tools audit", description=__doc__, formatter_class=argparse.RawDescriptionHelpFormatter)
    for name in ("journal", "requests", "replies"):
        asked.add_argument(f"--{name}", required=True, metavar="FILE")
    asked.add_argument("--except", action="store_true", dest="takes_except", help="take `except` rows, too, and judge their lines")
    asked.add_argument("--pairs", action="store_true", help="take `pair` rows, too, and judge their lines")
    asked.add_argument("--explain", action="store_true", help="the default, which says why a run stops, or which row a file is refused for")
    program.add_option(asked)
    given = asked.parse_args(words)
    path = program.find(given.program)
    run_words = [path, "audit", "--journal", given.journal, "--requests", given.requests, "--replies", given.replies, "--explain",
                 *(["--except"] if given.takes_except else []), *(["--pairs"] if given.pairs else [])]
    for name in (given.journal, given.requests, given.replies):
        if os.path.isfile(name) or not os.path.exists(name) or os.path.isdir(name):  # a pipe can't be read twice
            try:
                with open(name, "rb") as file:
                    told = format_of(file.read(4096))
            except OSError as fault:
                return program.failed("audit", fault, 3)
            if told:
                return program.failed("audit", f"{name}: {told}", 2)
    try:
        with subprocess.Popen(run_words) as run:
            status = watch(run, given.replies) if sys.stderr and sys.stderr.isatty() else run.wait()
    except OSError as fault:
        return program.failed("audit", f"{path}: {fault.strerror}{program.hint(path)}", 3)
    except KeyboardInterrupt:
        return 130
    return status if status >= 0 else 128 - status
