"""Equal asks of all who ask are asked once at a version."""
from __future__ import annotations

import collections
from collections.abc import Callable
from typing import Optional

from ..model.rows import Reply
from ..net.loop import Loop, Owner
from .asks import Asks

MOST_KEPT = 512  # lines
Call = Callable[[Optional[str]], object]  # gets a line, and None where there is none


class Equal:
    """Asks, of which equal ones that are asked at the same time have one row. The lines of the newest version are kept. A line never
    comes before `ask` has returned."""

    def __init__(self, loop: Loop, asks: Asks, newest: Callable[[], int]) -> None:
        self.loop, self.asks, self.newest = loop, asks, newest
        self.asked: dict[str, list[tuple[Call, Owner | None]]] = {}  # by what stands behind a row's id
        self.kept: collections.OrderedDict[str, tuple[int, str]] = collections.OrderedDict()

    def ask(self, text: str, call: Call, owner: Owner | None) -> None:
        version, line = self.kept.get(text, (-1, None))
        if version == self.newest():
            self.loop.after(0, lambda: call(line), owner)
        elif text in self.asked:
            self.asked[text].append((call, owner))
        else:
            self.asked[text] = [(call, owner)]
            self.loop.after(0, lambda: self.asks.ask(text, lambda row, line: self.answered(text, line)))

    def answered(self, text: str, line: str | None) -> None:
        reply = Reply.parse(line or "")
        if line is not None and reply:
            self.kept[text] = reply.version, line
            self.kept.move_to_end(text)
            if len(self.kept) > MOST_KEPT:
                self.kept.popitem(last=False)
        for call, owner in self.asked.pop(text):
            self.loop.call(owner, call, line)

    def forget(self) -> None:
        """A new run has begun, whose versions are others."""
        self.kept.clear()
