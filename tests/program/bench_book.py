"""bench/book as it is typed, on a small network: the lines of its part that measures through `routed-tools listen`."""
import os
import subprocess
import sys

from checks import TOP

SMALL = ["--routers", "8", "--links", "32", "--placements", "20", "--clients", "6", "--flooding", "4"]
SECONDS = 2, 20  # for each line; the longer time where no row was timed in the shorter one, on a machine that others use
NAMES = "placing through listen, flooded", "a base batch through listen, flooded"
NAME, FIGURES = 38, 7  # columns of a line's name; asks a second and two times of those who ask; rows a second and three times of those rows


def figure(text):
    return float(text.replace(",", ""))


def benched(program, checks):
    """Both lines have all their figures, and their times are in order."""
    for seconds in SECONDS:
        words = [*SMALL, "--seconds", str(seconds), "--only", "flooded", "--program", program.path]
        ran = subprocess.run([sys.executable, os.path.join(TOP, "bench/book"), *words], stdin=subprocess.DEVNULL, capture_output=True,
                             text=True)
        if ": 0 rows were timed" not in ran.stderr:
            break
    checks.same("bench/book: what goes wrong", (ran.returncode, ran.stderr), (0, ""))
    lines = ran.stdout.splitlines()[3:]  # behind the head of the table
    checks.same("bench/book: lines", [line[:NAME].rstrip() for line in lines], [*NAMES])
    for line in lines:
        name, (clients, *texts) = line[:NAME].rstrip(), line[NAME:].split()
        _, median, most, _, *times = figures = [figure(text) for text in texts]
        checks.same(f"bench/book: {name}: who asks, and how many figures", (clients, len(figures)), ("1+4", FIGURES))
        checks.true(f"bench/book: {name}: times", 0 < median <= most and 0 < times[0] <= times[1] <= times[2], line)
