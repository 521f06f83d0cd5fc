"""Asks again for many routes, a few at a time, so that a request of somebody else never waits behind many of them."""
from __future__ import annotations

from collections.abc import Callable
from typing import Optional, Protocol

from ..net.loop import Loop, Owner

AT_ONCE = 32  # such asks that have no answer yet
Form = tuple[str, Callable[[Optional[str]], object]]  # a row, and what its line is given to


class Asking(Protocol):
    """What one session has to be asked for, as its LSPs."""

    def has_more(self) -> bool:
        """Whether anything waits to be asked for."""

    def following(self) -> Form | None:
        """Takes what has waited longest. None if there is nothing to ask for it now."""

    def whose(self) -> Owner | None:
        """Whom an exception ends."""


class Slices:
    """The sessions take turns, and each has one ask in its turn."""

    def __init__(self, loop: Loop, ask: Callable[[str, Callable[[Optional[str]], None], Optional[Owner]], None]) -> None:
        self.loop, self.ask = loop, ask
        self.waiting: dict[Asking, Owner | None] = {}  # in the order of their turns, and whom an exception ends
        self.count, self.is_going, self.is_due = 0, False, False

    def add(self, asking: Asking) -> None:
        """This session has something to be asked for."""
        if asking not in self.waiting:
            self.waiting[asking] = asking.whose()
        self.go_on()

    def go_on(self) -> None:
        """Asks for as many as there is room for. If there is room for more, they are asked for in the next turn of the loop."""
        if self.is_going:  # an ask has been answered at once
            return
        self.is_going = True
        for _ in range(AT_ONCE):
            if not self.waiting or self.count >= AT_ONCE:
                break
            asking = next(iter(self.waiting))
            owner = self.waiting.pop(asking)
            self.loop.call(owner, self.take, asking, owner)
        self.is_going = False
        if self.waiting and self.count < AT_ONCE and not self.is_due:
            self.is_due = True
            self.loop.after(0, self.go_later)

    def go_later(self) -> None:
        self.is_due = False
        self.go_on()

    def take(self, asking: Asking, owner: Owner | None) -> None:
        """One turn of a session."""
        form = asking.following()
        if asking.has_more():
            self.waiting[asking] = owner
        if form is None:
            return
        row, call = form
        self.count += 1

        def answered(line: str | None) -> None:
            self.count -= 1
            try:
                call(line)
            finally:
                self.go_on()

        self.ask(row, answered, owner)
