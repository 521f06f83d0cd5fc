"""How long several workers, processes and askers take, for bench/run."""
import os
import subprocess
import sys
import tempfile
import time

from drawn import BATCH, batch, requests
from timing import median, say, stop


def elapsed(runs):
    """Seconds of runs that are started together, with nothing beside them that takes a processor."""
    start = time.perf_counter()
    children = [subprocess.Popen(words, stdin=subprocess.DEVNULL, stdout=subprocess.DEVNULL) for words in runs]
    for words, child in zip(runs, children):
        if child.wait():
            stop(words, child.returncode)
    return time.perf_counter() - start


def answer(program, load, asks, said):
    """Prints how many requests a second 1, 2 and 4 workers answer, and as many processes of one worker."""
    with tempfile.TemporaryDirectory() as room:
        journal = os.path.join(room, "journal")
        with open(journal, "w") as file:
            file.writelines(load)

        def seconds(parts, workers):
            """Seconds of a process for each part of the requests, the least of five runs."""
            runs = []
            for at, part in enumerate(parts):
                rows = os.path.join(room, f"requests{at}")
                with open(rows, "w") as file:
                    file.writelines(part)
                runs.append([program, "batch", "--journal", journal, "--requests", rows, "--workers", str(workers)])
            return min(elapsed(runs) for _ in range(5))

        for count in [1, 2, 4]:
            workers = seconds([asks], count) - seconds([[]], count)
            processes = seconds([asks[at::count] for at in range(count)], 1) - seconds([[]] * count, 1)
            say(f"{said}, {count} workers: {len(asks) / workers:,.0f} requests per second, "
                  f"{processes / workers:.2f} of what {count} processes of one worker answer")


def unequal(draw, routers, count):
    """Requests without hops, but for a tenth of them with 7."""
    asks = requests(draw, routers, count // 10, 7) + requests(draw, routers, count - count // 10, 0)
    draw.shuffle(asks)
    return asks


def publish(program, draw, pairs, load, asks):
    """Prints the times of a publisher and its askers."""
    loads = sum(line.startswith("end,") for line in load)
    sizes = [size for size, times in [(1, 21), (min(100, len(pairs)), 11), (min(BATCH, len(pairs)), 5)] for _ in range(times)]
    with tempfile.NamedTemporaryFile("w") as journal, tempfile.NamedTemporaryFile("w") as requests:
        journal.writelines(load)
        for at, size in enumerate(sizes):
            journal.writelines(batch(draw, pairs, loads + at + 1, draw.sample(range(len(pairs)), size)))
        requests.writelines(asks)
        journal.flush()
        requests.flush()
        ran = subprocess.run([program, journal.name, requests.name, str(loads)], stdout=subprocess.PIPE, text=True)
    if ran.returncode != 0:
        stop(ran.args, ran.returncode)
    lines = [line.split() for line in ran.stdout.splitlines()]
    applied = [(int(line[1]), int(line[2])) for line in lines if line[0] == "apply"]
    # the first batch also brings the load to the second replica
    for size in sorted({size for size, _ in applied}):
        times = [micros for changes, micros in applied[1:] if changes == size]
        say(f"a batch of {size:,} puts published: {median(times):,} microseconds, {max(times):,} at most")
    plain = next(int(line[2]) / int(line[1]) for line in lines if line[0] == "plain")
    say(f"a request from a plain table: {plain:,.0f} microseconds")
    for _, askers, answers, published, micros in (line for line in lines if line[0] == "askers"):
        each = int(micros) * int(askers) / int(answers)
        say(f"{askers} askers, {published} batches meanwhile: {int(answers) / int(micros) * 1e6:,.0f} answers per second, "
              f"{each:,.0f} microseconds each, {each / plain:.2f} of the plain table's")


def divide(program, draw, routers, load, count):
    """Prints how long requests of unequal cost take, in fixed shares and drawn: a tenth has 7 hops,
    and stands where the first of 4 fixed shares has it."""
    dear, cheap = iter(requests(draw, routers, count // 10, 7)), iter(requests(draw, routers, count - count // 10, 0))
    asks = [next(dear, None) or next(cheap) if at % 4 == 0 else next(cheap, None) or next(dear) for at in range(count)]
    loads = sum(line.startswith("end,") for line in load)
    with tempfile.NamedTemporaryFile("w") as journal, tempfile.NamedTemporaryFile("w") as rows:
        for file, lines in [(journal, load), (rows, asks)]:
            file.writelines(lines)
            file.flush()
        runs = [subprocess.run([program, journal.name, rows.name, str(loads)], stdout=subprocess.PIPE, text=True) for _ in range(3)]
    for run in runs:
        if run.returncode != 0:
            stop(run.args, run.returncode)
    times = {}
    for line in (line.split() for run in runs for line in run.stdout.splitlines()):
        if line[0] in ("shares", "draws"):
            if int(line[2]) != count:
                sys.exit("bench/run: not all requests were answered")
            times.setdefault((line[0], int(line[1])), []).append(int(line[3]))
    for workers in (1, 2, 4):
        shares, draws = (min(times[kind, workers]) / 1000 for kind in ("shares", "draws"))
        say(f"{count} requests, a tenth with 7 hops, {workers} workers: {shares:,.0f} ms in fixed shares, "
              f"{draws:,.0f} ms drawn: {shares / draws:.2f} times as fast")
