"""Scenarios of a sweep on other machines: by Dask's distributed, and by GNU parallel over ssh."""
from __future__ import annotations

import collections
import contextlib
import csv
import functools
import itertools
import logging
import operator
import re
import shlex
import subprocess
import sys
import tempfile
import threading
from collections.abc import Callable, Iterable, Iterator, Mapping
from typing import IO, Any

from ..model.journals import MOST_ROWS
from ..model.rows import MOST_CHANGES, Key, Link, Refused
from .failures import Network, Outcomes, Part
from .solving import MOST_ASKS, Question, Stopped, checked, ended, heads_of

AHEAD = 2  # tasks for each thread of Dask's workers that are handed out
MOST_IN_TASK = 64  # scenarios
MOST_AT_ONCE = 500  # scenarios in one connection of ssh
SHARES = 4  # tasks of a thread, or connections of a job, where there are scenarios enough
# On standard input there is a line of rows with a semicolon between each two, which make the network, and one such line for each question.
ANSWER = ("printf \"connection %s %s\\n\" \"$PARALLEL_SEQ\" \"$PARALLEL_SSHHOST\"; "
          "tr \";\" \"\\n\" | {program} solve 2>&1; printf \"\\nstatus %s\\n\" $?")
COMMAND = "exec sh -c"
BEGINS = re.compile(r"connection (\d+) (\S+)\n")
ENDS = re.compile(r"status (\d+)")

Scenario = tuple[int, Iterable[Part]]  # its place, and what is out in it
Scenarios = Callable[[], Iterator[Scenario]]


def tell(given: Network, scenarios: list[Scenario]) -> tuple[str, list[tuple]]:
    """At a worker of Dask: its address, and in plain types the outcomes of these scenarios, up to the first fault: its kind and its
    text."""
    from distributed import get_worker
    said: list[tuple] = []
    for place, parts in scenarios:
        found = given.outcome(place, parts)
        if isinstance(found, Exception):
            return get_worker().address, [*said, (type(found).__name__, str(found))]
        said.append(found)
    return get_worker().address, said


class ByValue:
    """What arrives with its classes and functions, so that the other side doesn't need this package."""

    def __init__(self, sent: object) -> None:
        self.sent = sent

    def __reduce__(self) -> tuple[Callable, tuple[bytes]]:
        import cloudpickle  # type: ignore[import]
        cloudpickle.register_pickle_by_value(sys.modules[__package__.partition(".")[0]])
        return cloudpickle.loads, (cloudpickle.dumps(self.sent),)


def over_dask(address: str, given: Network, scenarios: Scenarios, count: int) -> Outcomes:
    """The scenarios' outcomes, in their order, from the workers of the scheduler at this address. All that are there have to stay."""
    try:
        import distributed
    except ImportError as fault:
        raise Stopped(f"{sys.executable}: {fault}") from None
    logging.disable()  # what goes wrong is told once, below
    try:
        with distributed.Client(address, timeout=5, set_as_default=False) as client:
            workers = client.scheduler_info()["workers"]
            if not workers:
                raise Stopped(f"{address}: there is no worker")
            # Each worker has its own copy and its own tasks. What a worker fetches from another may get lost there, and then its tasks
            # wait for ever.
            far, left = {worker: client.scatter(ByValue(functools.partial(tell, given)), workers=[worker], hash=False)
                         for worker in workers}, scenarios()
            waiting: collections.deque[tuple[int, Any]] = collections.deque()
            threads = sum(worker["nthreads"] for worker in workers.values())
            size = max(1, min(MOST_IN_TASK, count // (SHARES * threads)))
            handed: dict[str, list[Any]] = {worker: [] for worker in workers}
            while some := [(place, [tuple(part) for part in parts]) for place, parts in itertools.islice(left, size)]:
                if len(waiting) == AHEAD * threads:
                    yield from results(client, workers, distributed.TimeoutError, *waiting.popleft())
                worker = least_busy(handed, workers)
                handed[worker].append(client.submit(operator.call, far[worker], some, pure=False, workers=[worker]))
                waiting.append((some[0][0], handed[worker][-1]))
            while waiting:
                yield from results(client, workers, distributed.TimeoutError, *waiting.popleft())
    except (Refused, Stopped):
        raise
    except Exception as fault:
        raise Stopped(f"{address}: {type(fault).__name__}: {fault}") from None


def least_busy(handed: dict[str, list[Any]], workers: Mapping[str, Any]) -> str:
    """The worker that has the fewest tasks to do for each of its threads. Tasks that are done are taken off the lists."""
    for tasks in handed.values():
        tasks[:] = [task for task in tasks if not task.done()]
    return min(handed, key=lambda worker: len(handed[worker]) / workers[worker]["nthreads"])


def results(client: Any, workers: Iterable[str], late: type[Exception], place: int, future: Any) -> Outcomes:
    """The outcomes of a task, which begins with the scenario at this place, as soon as they are there."""
    found = fault = None
    while found is None:
        try:
            found = future.result(timeout=1)
        except late:
            pass
        except Exception as raised:  # a worker that goes takes with it what was sent to it, and then the task is cancelled
            fault = raised
            if client.status != "running":
                raise Stopped(f"scenario {place}: the scheduler is gone") from None
        gone = sorted(set(workers) - set(client.scheduler_info()["workers"]))
        if gone:
            raise Stopped(f"scenario {place}: the worker {gone[0]} is gone")
        if fault:
            raise fault
    worker, outcomes = found
    for outcome in outcomes:
        if outcome[0] == "Refused":
            yield Refused(outcome[1])
        else:
            yield Stopped(f"{worker}: {outcome[1]}") if outcome[0] == "Stopped" else outcome


def over_ssh(logins: str, jobs: int, given: Network, scenarios: Scenarios, count: int, most_links: int) -> Outcomes:
    """The scenarios' outcomes, in their order, from what `routed solve` says on these machines, which need no Python."""
    most_rows = 2 * (most_links + most_links // MOST_CHANGES + 1) + min(len(given.requests), MOST_ASKS)
    most = max(1, min(MOST_AT_ONCE, count // (SHARES * jobs * len(logins.split(","))), (MOST_ROWS - len(given.rows)) // most_rows))
    with tempfile.NamedTemporaryFile() as log, tempfile.TemporaryFile() as said:
        far = ANSWER.format(program=shlex.quote(given.program))
        command = ["parallel", "--plain", "--pipe", "--keep-order", "--header", "1", "-N", str(most), "--jobs", str(jobs),
                   "--sshlogin", logins, "--joblog", log.name, f"{COMMAND} {shlex.quote(far)}"]
        try:
            running = subprocess.Popen(command, stdin=subprocess.PIPE, stdout=subprocess.PIPE, stderr=said)
        except OSError as fault:
            raise Stopped(f"parallel: {fault.strerror}") from None
        assert running.stdin and running.stdout
        connections = Connections(given, most, running.stdout)
        writer = threading.Thread(target=write, args=(running.stdin, Connections(given, most, running.stdout), scenarios))
        writer.start()
        try:
            for at, parts in scenarios():
                place = f"scenario {at}"
                yield given.outcome(at, parts, connections.ask)
            place = "behind the last scenario"
            connections.end()
            if running.stdout.read() or running.wait():
                raise Lost
        except Lost:  # what parallel says of it stands before later lines
            running.terminate()
            running.wait()
            raise Stopped(f"{place}: {cause(log.name, said)}") from None
        finally:
            running.terminate()
            running.stdout.close()
            running.wait()
            writer.join()


class Lost(Exception):
    """A connection ended before its lines did."""


class Connections:
    """The questions that connections share, and the lines that come back of them."""

    def __init__(self, given: Network, most: int, stream: IO[bytes]) -> None:
        self.given, self.most, self.stream, self.asked = given, most, stream, 0
        self.heads, self.version, self.name, self.read = heads_of(given.rows), 0, "", ""

    def questions(self, links: dict[Key, Link], indexes: list[int]) -> Iterator[tuple[Question, bool]]:
        """The questions of a scenario, and of each whether a connection begins with it."""
        for at in range(0, len(indexes), MOST_ASKS):
            is_first = self.asked % self.most == 0
            self.version = len(self.heads) if is_first else self.version
            question = Question(links, [self.given.requests[index] for index in indexes[at:at + MOST_ASKS]], self.version)
            self.asked, self.version = self.asked + 1, question.version
            yield question, is_first

    def ask(self, links: dict[Key, Link], indexes: list[int]) -> list[str]:
        """What the far programs say of these requests without these links."""
        texts: list[str] = []
        for question, is_first in self.questions(links, indexes):
            if is_first:
                self.begin()
            texts += self.checked(question.heads)[question.replies]
        return texts

    def begin(self) -> None:
        """Reads the lines before the answers to a connection's first question."""
        number = (self.asked - 1) // self.most + 1
        self.end()
        found = BEGINS.fullmatch(self.stream.readline().decode(errors="replace"))
        if not found or int(found[1]) != number:
            raise Lost
        self.name = f"{found[2]}: {self.given.program}"
        self.checked(self.heads)

    def end(self) -> None:
        """Reads the end of the connection so far, if there is one. It has only the program's status."""
        if self.name:
            status, lines = self.rest()
            if status or lines != [""]:
                raise ended(self.name, status, lines)

    def line(self) -> str:
        """The next line of the connection."""
        line = self.stream.readline().decode(errors="replace")
        if not line or BEGINS.fullmatch(line):
            raise Lost
        self.read = line.rstrip("\n")
        return self.read

    def checked(self, heads: list[str]) -> list[str]:
        """What the next lines say after these first words. If the program has failed, the fault says how."""
        try:
            return checked(self.name, heads, iter(self.line, None))
        except Stopped:
            read, (status, lines) = self.read, self.rest()
            if status:
                raise ended(self.name, status, [read, *lines]) from None
            raise

    def rest(self) -> tuple[int, list[str]]:
        """The program's status, and the lines that stand before it."""
        lines = []
        while not (found := ENDS.fullmatch(line := self.line())):
            lines.append(line)
        return int(found[1]), lines


def write(stream: IO[bytes], connections: Connections, scenarios: Scenarios) -> None:
    """The network, with which each connection begins, and the questions, one line each."""
    with contextlib.suppress(BrokenPipeError), stream:
        stream.write(line_of(connections.given.rows))
        for _, parts in scenarios():
            for question, _ in connections.questions(*connections.given.question(parts)):
                stream.write(line_of(question.rows))


def line_of(rows: list[str]) -> bytes:
    return f"{';'.join(rows)}\n".encode()


def cause(log: str, said: IO[bytes]) -> str:
    """Why GNU parallel ended: which machine failed first, and the last line on standard error that isn't parallel's own."""
    said.seek(0)
    lines = [line for line in said.read().decode(errors="replace").splitlines() if line and not line.startswith(("parallel:", COMMAND))]
    with open(log, newline="") as rows:
        table = csv.DictReader(rows, delimiter="\t", quoting=csv.QUOTE_NONE)
        failed = [row for row in table if (row["Exitval"], row["Signal"]) != ("0", "0")]
    who = f"{failed[0]['Host'].split()[-1]} ended with status {failed[0]['Exitval']}" if failed else "parallel ended"
    return ": ".join([who, *lines[-1:]])
