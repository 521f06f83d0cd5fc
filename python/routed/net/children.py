"""A program that is run beside the loop: it reads what it is given, and what it has written is told once it has ended."""
from __future__ import annotations

import ctypes
import functools
import os
import signal
import subprocess
from collections.abc import Callable, Sequence

from .loop import TOP, Loop
from .stream import Stream

PR_SET_PDEATHSIG = 1
DIE_WITH_US = functools.partial(ctypes.CDLL(None).prctl, PR_SET_PDEATHSIG, signal.SIGKILL)  # if this is killed its child is killed, too


class Child:
    """One run of a program, for so many seconds and bytes at most. `told` is called with what it has written, on standard error, too, and
    with the words for why it didn't end by itself, else an empty text."""

    def __init__(self, loop: Loop, words: Sequence[str], given: bytes, seconds: float, most: int,
                 told: Callable[[bytes, str], object]) -> None:
        self.seconds, self.most, self.told, self.said, self.is_over = seconds, most, told, bytearray(), False
        with os.fdopen(os.memfd_create("given"), "w+b") as rows:
            rows.write(given)
            rows.seek(0)
            self.child = subprocess.Popen(words, stdin=rows, stdout=subprocess.PIPE, stderr=subprocess.STDOUT, preexec_fn=DIE_WITH_US,
                                          env={**os.environ, "PYTHONPATH": TOP})
        assert self.child.stdout
        with self.child.stdout as source:
            self.stream = Stream(loop, os.dup(source.fileno()))
        self.stream.give(self, self.go_on)
        self.stream.wait(True)
        loop.after(seconds, self.late, self)

    def named(self) -> str:
        return f"process {self.child.pid}"

    def go_on(self, _: int) -> None:
        self.said += self.stream.read()
        if len(self.said) > self.most:
            self.end(f"it wrote more than {self.most} bytes")
        elif self.stream.is_ended:
            self.end("")

    def late(self) -> None:
        self.end(f"it took more than {self.seconds:g} s")

    def fail(self) -> None:
        self.end("an exception")

    def end(self, fault: str) -> None:
        if not self.is_over:
            self.kill()
            self.told(bytes(self.said), fault)

    def kill(self) -> None:
        self.is_over = True
        self.stream.close()
        self.child.kill()
        self.child.wait()
