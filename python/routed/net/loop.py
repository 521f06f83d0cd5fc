"""The event loop of the tools that are connected to, and what becomes of an exception in the code of one connection."""
from __future__ import annotations

import heapq
import itertools
import math
import os
import selectors
import time
import traceback
from collections.abc import Callable
from typing import Any, Protocol, TypeVar

READ, WRITE = selectors.EVENT_READ, selectors.EVENT_WRITE
TOP = os.path.dirname(os.path.dirname(os.path.dirname(os.path.abspath(__file__)))) + "/"
MOST_TEXT = 500  # characters of an exception's text in a line of the log
Result = TypeVar("Result")


class Stopped(Exception):
    """Its text is what was tried, and why it failed. It ends the tool, wherever it is raised."""


class Owner(Protocol):
    """A connection: how a line of the log names it, and what ends it for an exception."""

    def named(self) -> str: ...

    def fail(self) -> None: ...


class Loop:
    """Calls what is to be done when a file can be read or written, and when a time has come.

    A callback may have an owner: a connection, which `named` names and `fail` ends. An exception in that callback ends its owner
    alone, and `failed` is called with a line about it. In a callback without an owner it ends the tool.

    The selector of a loop that watches regular files, or the null device, is poll's, which finds them ready: epoll refuses them."""

    def __init__(self, failed: Callable[[str], None] | None = None, selector: selectors.BaseSelector | None = None) -> None:
        self.selector, self.numbers, self.failed = selector or selectors.DefaultSelector(), itertools.count(), failed
        self.keys: dict[int, selectors.SelectorKey] = {}
        self.times: list[tuple[float, int, Any, Any]] = []  # what is called then, and for whom

    def of(self, owner: Owner | None) -> Owned:
        """This loop, for the callbacks of an owner."""
        return Owned(self, owner)

    def want(self, file: int, events: int, call: Callable[[int], object] | None = None, owner: Owner | None = None) -> None:
        """From now on calls `call` with the events of a file; without events it is no longer watched."""
        key = self.keys.get(file)
        if events == (key.events if key else 0):
            return
        if not events:
            self.selector.unregister(self.keys.pop(file).fd)
        else:
            self.keys[file] = (self.selector.modify if key else self.selector.register)(file, events, (owner, call))

    def after(self, seconds: float, call: Callable[[], object], owner: Owner | None = None) -> None:
        heapq.heappush(self.times, (time.monotonic() + seconds, next(self.numbers), owner, call))

    def turn(self, most: float = math.inf) -> None:
        """Waits for an event or a time, so many seconds at most, and makes all calls that are due."""
        if self.times:
            most = min(most, self.times[0][0] - time.monotonic())
        ready = self.selector.select(max(most, 0) if most < math.inf else None)
        for key, events in ready:
            if self.keys.get(key.fd) is key:  # else it was changed in this turn
                owner, call = key.data
                try:  # as `call` does, without one more call for each event
                    call(events)
                except Exception as fault:
                    self.end(owner, fault)
        due = time.monotonic()  # what these calls put off, by no time at all, comes in the next turn: files have theirs before it
        while self.times and self.times[0][0] <= due:
            self.call(*heapq.heappop(self.times)[2:])

    def call(self, owner: Owner | None, call: Callable[..., Result], *given: Any) -> Result | None:
        """Calls this for its owner. What it returns; None where an exception has ended its owner."""
        try:
            return call(*given)
        except Exception as fault:
            self.end(owner, fault)
            return None

    def end(self, owner: Owner | None, fault: Exception) -> None:
        """Ends an owner for an exception. Its files are no longer waited for then, so that an exception in its end can't come again."""
        if owner is None or self.failed is None or isinstance(fault, Stopped):
            raise fault
        self.failed(ended_by(owner.named(), fault))
        for file in [file for file, key in self.keys.items() if key.data[0] is owner]:
            self.want(file, 0)
        try:
            owner.fail()
        except Stopped:
            raise
        except Exception as another:
            self.failed(ended_by(owner.named(), another))


class Owned:
    """A loop for the callbacks of one owner."""

    def __init__(self, loop: Loop, owner: Owner | None) -> None:
        self.loop, self.owner, self.of = loop, owner, loop.of

    def want(self, file: int, events: int, call: Callable[[int], object] | None = None) -> None:
        self.loop.want(file, events, call, self.owner)

    def after(self, seconds: float, call: Callable[[], object]) -> None:
        self.loop.after(seconds, call, self.owner)

    def call(self, call: Callable[..., object], *given: Any) -> None:
        self.loop.call(self.owner, call, *given)


def ended_by(name: str, fault: BaseException) -> str:
    """The line about a connection that an exception has ended: the exception's type, where it was raised and, if that isn't in these
    tools, where they called that, and its text."""
    places = [f"{frame.f_code.co_filename.removeprefix(TOP)}:{line}" for frame, line in traceback.walk_tb(fault.__traceback__)]
    ours, where = [place for place in places if place.startswith("routed/") and not place.startswith("routed/net/loop.py:")], places[-1]
    if ours and ours[-1] != where:
        where += f", called at {ours[-1]}"
    return f"{name}: ended by an exception, {type(fault).__name__} at {where}: {' '.join(str(fault).split())[:MOST_TEXT]}"
