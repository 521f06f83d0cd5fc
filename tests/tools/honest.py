"""Programs of their own that wait for each line, beside others that may do anything, and programs that only sleep: how long an ask takes,
and how late a program is woken meanwhile."""
import json
import os
import time

from program.serving import Lines, has_come

PAUSE, NAP = 0.002, 0.001  # seconds between two asks, and that a sleeper sleeps


class Apart:
    """A process that does something again and again, as long as it is wanted. Each time it notes what that returns."""

    def __init__(self, call):
        (wanted, self.wanted), (self.told, telling) = os.pipe(), os.pipe()
        self.process = os.fork()
        if not self.process:
            os.close(self.wanted)
            found = []
            try:
                while not has_come(wanted, 0):
                    found.append(call())
            except BaseException as fault:  # which is told
                found.append((0, 0, 0, f"{type(fault).__name__} {fault}"))
            with open(telling, "w", encoding="utf-8") as file:
                file.write(f"{json.dumps(found)}\n")
            os._exit(0)
        for file in (wanted, telling):
            os.close(file)

    def end(self):
        """What it noted."""
        os.write(self.wanted, b"x")  # others have been started meanwhile, which have this end, too, so that it can't be closed
        found = json.loads(Lines(self.told).next())
        os.waitpid(self.process, 0)
        for file in (self.wanted, self.told):
            os.close(file)
        return found


def asking(made, judge, between=None):
    """A client that waits for each line: when an ask begins, when its line is there, for how long a process between it and the server
    waited for a processor meanwhile, and what is wrong with the line."""
    def ask():
        time.sleep(PAUSE)
        start, before = time.monotonic(), waiting(between)
        line = made.talk(judge.rows(1))
        return start, time.monotonic(), waiting(between) - before, judge.fault(line)
    return Apart(ask)


def waiting(process):
    """For how many seconds a process has been ready without a processor so far, as the kernel counts them; 0 where it doesn't."""
    try:
        with open(f"/proc/{process}/schedstat", encoding="ascii") as file:
            return int(file.read().split()[1]) / 1e9
    except OSError:
        return 0


def sleeping():
    """A program that only sleeps: when it should be woken, and when it is."""
    def sleep():
        due = time.monotonic() + NAP
        time.sleep(NAP)
        return due, time.monotonic()
    return Apart(sleep)


def overdue(naps, start, end):
    """The seconds between two moments in which a sleeper should have been awake."""
    return sum(max(min(woken, end) - max(due, start), 0) for due, woken, *_ in naps if woken > start and due < end)
