"""Runs of programs that are timed, and the lines that bench/run prints."""
import os
import subprocess
import sys
import tempfile
import time

from routed.sweep.progress import Progress

PROGRESS = Progress(1, "bench/run", "parts")
RUNS = 5  # of each program whose processor time is taken


def high_water(process):
    """The most kilobytes that a running process has had resident, 0 once it is gone."""
    try:
        with open(f"/proc/{process}/status") as status:
            return next((int(line.split()[1]) for line in status if line.startswith("VmHWM")), 0)
    except (FileNotFoundError, ProcessLookupError):
        return 0


def stop(words, status):
    """Ends where a program that was run did not do what is timed."""
    sys.exit(f"bench/run: {' '.join(words)}: ended with status {status}")


def timed(words, source, wanted):
    """Seconds, peak kilobytes and output of one run, which has to end with this status."""
    with tempfile.TemporaryFile("w+") as out:
        start = time.perf_counter()
        child = subprocess.Popen(words, stdin=source, stdout=out)
        peak = 0
        while child.poll() is None:
            peak = max(peak, high_water(child.pid))
            time.sleep(0.0005)
        seconds = time.perf_counter() - start
        if child.returncode != wanted:
            stop(words, child.returncode)
        out.seek(0)
        return seconds, peak, out.read().splitlines()


def run(program, lines):
    """Seconds, peak kilobytes and output of `routed solve` over these lines."""
    with tempfile.TemporaryFile("w+") as source:
        source.writelines(lines)
        source.seek(0)
        return timed([program, "solve"], source, 0)


def row_by_row(words, load, rows):
    """What each of these rows takes the program after the rows that load the network, in microseconds by the clock, and its line."""
    with subprocess.Popen(words, stdin=subprocess.PIPE, stdout=subprocess.PIPE) as child:
        child.stdin.write("".join(load).encode())
        child.stdin.flush()
        for row in load:
            if row.startswith("end,"):
                child.stdout.readline()
        times, lines = [], []
        for row in rows:
            start = time.perf_counter()
            child.stdin.write(row.encode())
            child.stdin.flush()
            lines.append(child.stdout.readline().decode())
            times.append((time.perf_counter() - start) * 1e6)
        child.stdin.close()
    if child.returncode:
        stop(words, child.returncode)
    return times, lines


def ran(words):
    """What a program prints of its times, by the first word of each line, and the seconds of processor time that it takes."""
    with tempfile.TemporaryFile("w+") as out:
        child = subprocess.Popen(words, stdin=subprocess.DEVNULL, stdout=out)
        _, status, usage = os.wait4(child.pid, 0)
        child.returncode = os.waitstatus_to_exitcode(status)
        if child.returncode:
            stop(words, child.returncode)
        out.seek(0)
        lines = {}
        for line in out:
            lines.setdefault(line.split()[0], []).append([int(word) for word in line.split()[1:]])
        return lines, usage.ru_utime + usage.ru_stime


def searched(words):
    """What a program prints of its times, by the first word of each line."""
    return ran(words)[0]


def used(runs):
    """Seconds of processor time that each run takes beyond one that only reads, the least of each. The runs take turns."""
    rounds = [[ran(words)[1] for both in runs for words in both] for _ in range(RUNS)]
    least = [min(times) for times in zip(*rounds)]
    return [max(whole - reading, 1e-9) for whole, reading in zip(least[::2], least[1::2])]


def median(numbers):
    return sorted(numbers)[len(numbers) // 2]


def say(text):
    """Prints a line, in place of the one that says how far the run is."""
    PROGRESS.make_room()
    print(text, flush=True)
    PROGRESS.show()
