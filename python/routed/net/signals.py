"""Signals, for which a loop waits beside its files."""
from __future__ import annotations

import os
import signal
from collections.abc import Callable, Iterable

from .loop import Loop
from .stream import Stream


def take_signals(loop: Loop, numbers: Iterable[signal.Signals], take: Callable[[bytes], object]) -> None:
    """From now on gives `take` the numbers of those that have come. An exception in it ends the tool."""
    reading, writing = os.pipe()  # a signal is a byte here
    stream = Stream(loop, reading, writing)
    stream.give(None, lambda _: take(stream.read()))
    stream.wait(True)
    signal.set_wakeup_fd(writing, warn_on_full_buffer=False)
    for number in numbers:
        signal.signal(number, lambda *_: None)
