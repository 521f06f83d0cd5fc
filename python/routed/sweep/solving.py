"""Runs of `routed`: over whole files, and `routed solve` that stays up while links are dropped and put back."""
from __future__ import annotations

import os
import select
import subprocess
import tempfile
from collections.abc import Iterable, Sequence

from ..model.journals import MOST_ROWS, in_batches  # each version takes a row, so a stream has no more versions
from ..model.rows import Drop, Key, Link, Refused, Request

MOST_ASKS = 4096  # of a question
STOPPED = "routed: stopped"  # the last line of a run that stopped, behind the line that says why


class Stopped(Exception):
    """A program or a machine stopped, or wrote what it can't write."""


def ended(program: str, status: int, lines: list[str]) -> Stopped:
    """How a program ended that had to go on or to say no more, and the last that it said."""
    how = f"ended with status {status}" if status >= 0 else f"was ended by signal {-status}"
    said = [line for line in lines if line and line != STOPPED] or [line for line in lines if line]
    return Stopped(f"{program} {how}" + "".join(f": {line}" for line in said[-1:]))


def run(program: str, words: list[str], data: bytes, pass_fds: Sequence[int] = (), may_refuse: bool = False) -> list[str]:
    """The lines that a run of the program over this standard input writes. Where it has refused something, its last line is raised,
    unless the caller takes refusals."""
    try:
        ran = subprocess.run([program, *words, "--explain"], input=data, capture_output=True, pass_fds=pass_fds)
    except OSError as fault:
        raise Stopped(f"{program}: {fault.strerror}") from None
    lines = ran.stdout.decode(errors="replace").splitlines()
    if ran.returncode == 2 and lines:
        if may_refuse:
            return lines
        raise Refused(lines[-1])
    if ran.returncode != 0:
        raise ended(program, ran.returncode, ran.stderr.decode(errors="replace").splitlines())
    return lines


def heads_of(rows: list[str]) -> list[str]:
    """The lines of `routed solve` to the batches of a network."""
    return [f"version {row.split(',')[1]}" for row in rows if row.startswith("end,")]


def checked(program: str, heads: list[str], lines: Iterable[str]) -> list[str]:
    """What these lines say after the first words that they have to have."""
    said = []
    for head, line in zip(heads, lines):
        if not f"{line} ".startswith(f"{head} "):
            raise Stopped(f"{program} wrote {line!r} where {head!r} has to be")
        said.append(line[len(head) + 1:])
    return said


class Question:
    """Some requests without some links: the rows that drop the links, ask the requests and put the links back."""

    def __init__(self, links: dict[Key, Link], requests: list[Request], version: int) -> None:
        drops, without = in_batches([Drop(*key).text() for key in links], version)
        puts, self.version = in_batches([link.text() for link in links.values()], without)  # the one that is left
        self.rows = [*drops, *(request.text() for request in requests), *puts]
        self.heads = [*(f"version {at}" for at in range(version + 1, without + 1)),
                      *(f"ask {request.id} v{without}" for request in requests),
                      *(f"version {at}" for at in range(without + 1, self.version + 1))]
        self.replies = slice(without - version, without - version + len(requests))


class Solve:
    """A running `routed solve` on the network that some rows make."""

    process: subprocess.Popen[bytes] | None = None

    def __init__(self, program: str, rows: list[str]) -> None:
        self.program, self.rows, self.version = program, 0, len(heads_of(rows))
        self.said = tempfile.TemporaryFile()
        try:
            self.process = subprocess.Popen([program, "solve", "--explain"], stdin=subprocess.PIPE, stdout=subprocess.PIPE,
                                            stderr=self.said, bufsize=0)
        except OSError as fault:
            raise Stopped(f"{program}: {fault.strerror}") from None
        assert self.process.stdin and self.process.stdout
        self.into, self.out = self.process.stdin, self.process.stdout.fileno()
        os.set_blocking(self.into.fileno(), False)
        try:
            self.exchange(rows, heads_of(rows))
        except BaseException:
            self.close()
            raise

    def has_room(self, count: int) -> bool:
        return self.rows + count <= MOST_ROWS

    def ask(self, question: Question) -> list[str]:
        """What the program says of each request."""
        said = self.exchange(question.rows, question.heads)
        self.version = question.version
        return said[question.replies]

    def exchange(self, rows: list[str], heads: list[str]) -> list[str]:
        """Writes rows, and returns what their lines say after these first words. The program is read while it is written to, so neither
        waits for the other."""
        self.rows += len(rows)
        left, found, missing, waiting = memoryview("".join(f"{row}\n" for row in rows).encode()), b"", len(heads), select.poll()
        waiting.register(self.into, select.POLLOUT)
        waiting.register(self.out, select.POLLIN)
        while missing > 0:
            for file, _ in waiting.poll():
                if file == self.out:
                    data = os.read(self.out, 1 << 20)
                    found, missing = found + data, missing - data.count(b"\n")
                    if not data:
                        raise self.gone()
                else:
                    left = left[self.write(left):]
                    if not left:
                        waiting.unregister(self.into)
        lines = found.decode(errors="replace").split("\n")
        said = checked(self.program, heads, lines)
        if len(lines) > len(heads) + 1 or lines[-1]:
            raise Stopped(f"{self.program} wrote a line that nobody asked for: {lines[len(heads)]}")
        return said

    def write(self, data: memoryview) -> int:
        """How many bytes are written without waiting; all where the program reads no more, which its output shows."""
        try:
            return self.into.write(data) or 0  # None where it would wait
        except BrokenPipeError:
            return len(data)

    def gone(self) -> Stopped:
        """Why the program writes no more."""
        assert self.process
        self.process.communicate()
        self.said.seek(0)
        return ended(self.program, self.process.returncode, self.said.read().decode(errors="replace").splitlines())

    def close(self) -> None:
        if self.process:
            self.process.kill()
            with self.process, self.said:  # which waits for it, and closes its pipes
                self.process = None

    __del__ = close  # at a worker of Dask nobody says when the sweep has ended
