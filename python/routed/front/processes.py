"""Figures of processes, by the names that Prometheus' own clients give them. They are read in /proc, and absent without it."""
from __future__ import annotations

import os
import resource
import time
from collections.abc import Callable
from typing import NamedTuple

from .metrics import Figures

TICK, PAGE = os.sysconf("SC_CLK_TCK"), os.sysconf("SC_PAGE_SIZE")


class Process(NamedTuple):
    """What /proc says of a process."""

    cpu: float  # seconds
    began: float  # in seconds since 1970
    virtual: int  # bytes
    resident: int
    files: int
    most_files: float


def read(number: int) -> Process | None:
    """The process of this number; None if there is none, or it may not be read."""
    try:
        with open(f"/proc/{number}/stat", encoding="ascii", errors="replace") as file:
            words = file.read().rpartition(")")[2].split()  # from the third field of proc(5) on
        files = len(os.listdir(f"/proc/{number}/fd"))
        most = resource.prlimit(number, resource.RLIMIT_NOFILE)[0]
    except (OSError, IndexError):
        return None
    age = time.clock_gettime(time.CLOCK_BOOTTIME) - int(words[19]) / TICK
    return Process((int(words[11]) + int(words[12])) / TICK, time.time() - age, int(words[20]), int(words[21]) * PAGE, files,
                   float("inf") if most == resource.RLIM_INFINITY else most)


def add(figures: Figures, numbers: Callable[[], dict[str, int]] = lambda: {"front": os.getpid()}) -> None:
    """Adds the figures of processes. `numbers` returns their numbers by the names that the label `process` has."""
    def each(name: str) -> Callable[[], dict[str, float]]:
        return lambda: {label: getattr(found, name) for label, number in numbers().items() if (found := read(number))}

    figures.total("process_cpu_seconds_total", "Seconds of processor time.", each("cpu"), "process")
    figures.gauge("process_start_time_seconds", "When the process began, in seconds since 1970.", each("began"), "process")
    figures.gauge("process_virtual_memory_bytes", "Bytes of virtual memory.", each("virtual"), "process")
    figures.gauge("process_resident_memory_bytes", "Bytes of resident memory.", each("resident"), "process")
    figures.gauge("process_open_fds", "Open files.", each("files"), "process")
    figures.gauge("process_max_fds", "How many files may be open.", each("most_files"), "process")
