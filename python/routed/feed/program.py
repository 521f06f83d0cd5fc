"""Where the rows of a feed go, and where their lines come from."""
from __future__ import annotations

import contextlib
import os
import shlex
import subprocess
import time
from collections.abc import Callable

from ..net.endpoints import Endpoint, tried
from ..net.loop import READ, WRITE, Loop, Stopped
from ..net.stream import Lines, Stream

ANSWER = 60.0  # seconds that the program has for each line by which it tells what it has
PATIENCE = 5.0  # seconds that the program has to end, or to say why, once it takes no more rows
FULL = 1 << 20  # bytes that wait for the program before asks wait too


class Program(Lines):
    """What takes rows and writes lines: a command, a place of `routed-tools listen`, or whatever is at standard output and input."""

    def __init__(self, loop: Loop, command: list[str], endpoint: Endpoint | None) -> None:
        self.take: Callable[[], object] = lambda: None  # is called once there are lines
        self.child: subprocess.Popen | None = None
        self.is_broken, self.heard_at = False, 0.0  # it takes no more rows
        if endpoint:
            self.name = endpoint.text
            with tried(f"can't connect to {self.name}"):
                stream = Stream(loop, endpoint.connect())
        elif command:
            self.name = " ".join(shlex.join(command).split())  # one line
            (rows_out, rows_in), (lines_out, lines_in) = os.pipe(), os.pipe()
            try:
                with tried(f"can't start {self.name}"):
                    self.child = subprocess.Popen(command, stdin=rows_out, stdout=lines_in)
            finally:
                os.close(rows_out)
                os.close(lines_in)
            stream = Stream(loop, lines_out, rows_in)
        else:
            self.name = "standard input and output"
            stream = Stream(loop, 0, 1, is_shared=True)
        stream.most = FULL
        super().__init__(loop, stream, ANSWER)

    def write(self, text: str | bytes) -> None:
        """Writes rows. Where they aren't taken any more the program's last lines say why, or the error does."""
        self.stream.write(text.encode() if isinstance(text, str) else text)
        self.look()
        self.stream.wait(True)

    def look(self) -> None:
        """Sees whether rows are still taken."""
        if self.stream.fault and not self.stream.is_ended and not self.is_broken:
            self.is_broken = True
            if not isinstance(self.stream.fault, (BrokenPipeError, ConnectionError)):
                self.give_up()
            self.loop.after(PATIENCE, self.give_up)

    def give_up(self) -> None:
        raise Stopped(f"{self.name}: rows can't be written: {self.stream.why()}")

    def go_on(self, events: int) -> None:
        super().go_on(events & WRITE)
        self.look()
        if events & READ:
            count, self.heard_at = len(self.lines), time.monotonic()
            super().go_on(READ)
            if len(self.lines) > count:
                self.take()
            if self.stream.is_ended:
                if self.stream.fault and not self.is_broken:
                    raise Stopped(f"{self.name}: lines can't be read: {self.stream.why()}")
                raise Stopped(f"{self.name}: the program ended")
        self.stream.wait(True)

    def line(self) -> str:
        """The next line, by itself."""
        try:
            return super().line()
        except TimeoutError:
            raise Stopped(f"{self.name}: no line came for {ANSWER:g} s, by which the feed learns what is there") from None

    def end(self, is_read: bool) -> None:
        """Writes no more rows. The lines that it still writes are taken, where they are read, and its own child ends."""
        if not self.child and not self.stream.socket:
            return
        self.stream.shut()
        self.heard_at = time.monotonic()
        with contextlib.suppress(Stopped):
            while is_read and (left := self.heard_at + PATIENCE - time.monotonic()) > 0:
                self.loop.turn(left)
        self.stream.close()
        if self.child:
            self.child.terminate()
            self.child.wait()
