"""Texts that `routed` makes beside the loop of routed-tools listen, one at a time."""
from __future__ import annotations

import os
import subprocess
import time
from collections.abc import Callable, Sequence

from ..net.children import DIE_WITH_US
from ..net.loop import Loop, Owned
from .accounts import Account

END = b"snapshot end\n"

Say = Callable[..., object]  # called with the parts of an answer
Give = Callable[[memoryview], object]
Viewers = Sequence[tuple[Owned, Give]]


class Making:
    """The program that makes a text, and viewers that wait for one. A text for viewers alone begins after a pause, which is as long as the
    last one took: so these take half of a processor at most."""

    def __init__(self, loop: Loop, account: Account) -> None:
        self.loop, self.account = loop, account
        self.guarded = loop.of(None)  # for what is done later
        self.run = b"" if account.number is None else f"run {account.number}\n".encode()
        self.child: subprocess.Popen[bytes] | None = None
        self.feeder: subprocess.Popen[bytes] | None = None  # it gives the child the part of a file that it may see
        self.files: list[int] = []  # its rows, and standard error
        self.viewers: list[tuple[Owned, Give]] = []
        self.is_preparing, self.begun_at, self.pause_until = False, 0.0, 0.0
        self.kept: tuple[int, bytes] | None = None  # the last text, and its version

    def begin(self, version: int, loop: Owned, say: Say) -> None:
        """Gives the connection for updates all lines of a snapshot once they are there, or the one that refuses it."""
        raise NotImplementedError

    def drop(self, loop: Owned) -> None:
        """This connection waits no more."""
        raise NotImplementedError

    def prepare(self) -> None:
        """Begins a text for viewers once that can be done."""
        raise NotImplementedError

    def end(self, status: int, text: bytes) -> None:
        """Gives all that wait the text, or the words for why there is none."""
        raise NotImplementedError

    def show(self, loop: Owned, give: Give) -> None:
        """Gives a viewer the snapshot of the newest version, or of a later one."""
        self.viewers.append((loop, give))
        self.prepare_soon()

    def prepare_soon(self) -> None:
        if self.viewers and not self.is_preparing:
            self.is_preparing = True
            self.guarded.after(0, self.prepare)

    def open_files(self) -> None:
        """The next text is begun."""
        self.begun_at = time.monotonic()
        self.files += [os.memfd_create(name) for name in ("rows", "errors")]

    def spawn(self, words: Sequence[str], rows: int = subprocess.DEVNULL) -> None:
        self.child = subprocess.Popen(words, stdin=rows, stdout=self.files[0], stderr=self.files[1], preexec_fn=DIE_WITH_US)

    def spawn_fed(self, words: Sequence[str], feeder: Sequence[str], errors: int = subprocess.DEVNULL) -> None:
        """Begins the program with what another one writes."""
        self.feeder = subprocess.Popen(feeder, stdin=subprocess.DEVNULL, stdout=subprocess.PIPE, stderr=errors, preexec_fn=DIE_WITH_US)
        assert self.feeder.stdout
        with self.feeder.stdout as rows:
            self.spawn(words, rows.fileno())

    def look(self) -> None:
        """Sees whether the program has ended."""
        if self.child and self.child.poll() is not None:
            rows, errors = (os.pread(file, os.fstat(file).st_size, 0) for file in self.files)
            status, self.child = self.child.returncode, None
            if not status and self.is_unfed():
                status, errors = 3, errors or b"its rows can't be read"
            said = (rows if status == 2 else errors).partition(b"\n")[0]
            self.end(status, (said or f"{'status' if status > 0 else 'signal'} {abs(status)}".encode()) if status else rows)

    def is_unfed(self) -> bool:
        """Whether the program hasn't got all that it was to have, though it has said nothing."""
        return False

    def pause(self) -> None:
        """The text of viewers is there, or the words for why there is none."""
        self.pause_until = 2 * time.monotonic() - self.begun_at

    def close(self) -> None:
        while self.files:
            os.close(self.files.pop())
        if self.feeder:
            self.feeder.kill()
            self.feeder.wait()
            self.feeder = None

    def end_child(self) -> None:
        """Ends the program. Nobody is told of it."""
        if self.child:
            self.child.kill()
            self.child.wait()
            self.child = None
        self.close()

    stop = end_child


def tell(viewers: Viewers, text: bytes) -> None:
    for loop, give in viewers:
        loop.call(give, memoryview(text))  # an exception there ends that viewer alone


def refusal(error: OSError, program: str) -> bytes:
    """The words for why a program can't be run."""
    return f"{error.filename or program}: {error.strerror}".encode()
