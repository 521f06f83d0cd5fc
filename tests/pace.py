"""How slow a processor is here and now, so that a bound on processor seconds means as much work on each machine."""
import statistics
import time

ADDITIONS, SECONDS = 50_000, 0.002  # and the processor seconds that they take on a processor of 2.5 GHz that does nothing else
SAMPLES = 9


def sample():
    """How many times as long the additions take now."""
    began, total = time.thread_time(), 0
    for number in range(ADDITIONS):
        total += number
    return (time.thread_time() - began) / SECONDS


def allowed(seconds, samples=()):
    """The processor seconds for work that takes so many on a processor that does nothing else, where it is these. `samples` were taken
    beside the work; without them, some are taken now. Additions need no memory, and work that does loses as much once more."""
    return seconds * max(1, statistics.median(samples or [sample() for _ in range(SAMPLES)])) ** 2
