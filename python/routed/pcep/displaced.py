"""Placements that have to go elsewhere: those that have lost their routes, and the least important ones of links that have less than is
counted on them."""
from __future__ import annotations

import functools
import re
from collections.abc import Callable
from typing import TYPE_CHECKING

from ..model.rows import Key
from ..net.endpoints import Endpoint
from .lsp import Lsp
from .placement import is_for_memory
from .placements import Placements

if TYPE_CHECKING:
    from .counting import Counting
    from .front import Front

AGAIN = 1  # seconds from one try of the same placement or link to the next
CHEAPER = 10  # seconds from one time at which all LSPs are offered routes, since there may be more room, to the next
AT_ONCE = 32  # lost placements whose rows have no line yet
LEAST_OWN = 1 << 32  # lesser ids are those of other programs
LEFT = re.compile(r"left \S+ v[0-9]+ base=([0-9,]+) counted=([0-9,]+) left=[0-9,]+")


class Displaced:
    """It hears of the book for the front."""

    def __init__(self, front: Front, place: Endpoint) -> None:
        self.front, self.book = front, Placements(front.loop, place, front.network, self)
        self.room_at, self.has_news, self.is_late, self.is_lacking = -float(CHEAPER), False, False, False
        self.said: set[Key] = set()  # links of which a line said that too much is counted there
        self.forget()

    def forget(self) -> None:
        self.lost: dict[int, float] = {}  # by the ids of those that have no route yet: when they were tried last
        self.waiting: dict[int, None] = {}  # those of them that are tried next, in that order
        self.trying: set[int] = set()
        self.is_going = False
        self.crowded: dict[Key, float] = {}  # links on which more may be counted than they have, and when they were looked at last
        self.looking: dict[Key, None] = {}  # those of them that are looked at next
        self.link: Key | None = None  # the one that is looked at
        self.doubted: set[Key] = set()  # those from which nothing could be moved away at the last look

    def lsp_of(self, number: int) -> tuple[Counting, Lsp] | None:
        """The LSP that has an id, if its PCC has a session."""
        pcc = self.front.pccs.get(".".join(map(str, (number >> 32).to_bytes(4, "big"))))
        counting = pcc.session.lsps.counting if pcc else None
        lsp = counting.owners.get(number) if counting else None
        return (counting, lsp) if counting and lsp else None

    # ---- what is heard of the book

    def say(self, level: str, text: str) -> None:
        self.front.say(level, text)

    def clock(self) -> float:
        return self.front.clock()

    def book_is_known(self) -> None:
        """What had lost its route before hasn't been placed since."""
        lost = self.lost
        self.forget()
        for counting in self.front.countings():
            self.front.loop.call(counting.session.owner, counting.known)
        self.lose([number for number in lost if number in self.book.booked])

    def network_is_proved(self) -> None:
        for counting in self.front.countings():
            self.front.loop.call(counting.session.owner, counting.again)

    def lost_placements(self, ids: list[int]) -> None:
        """Those without a route go first, and then each LSP may have a better one."""
        self.lose(ids)
        self.front.again()

    def lose(self, ids: list[int]) -> None:
        """These have lost their routes. The last one is the most important. Others may have routes again."""
        self.lost.update(dict.fromkeys((number for number in ids if number >= LEAST_OWN), -float(AGAIN)))
        self.again()

    def exceeded(self, key: Key) -> None:
        self.crowded.setdefault(key, -float(AGAIN))
        self.looking[key] = None
        self.look()

    def more_may_move(self) -> None:
        self.crowded = dict.fromkeys(self.crowded, -float(AGAIN))
        self.again()

    def lacks_memory(self, line: str) -> None:
        """What was refused is tried again a second later: all is looked at as after a base, which one line says for all."""
        if not self.is_lacking:
            self.is_lacking = True
            self.front.say("warning", f"the book: {line}: the server has no memory for rows, which are tried again")
            self.front.loop.after(AGAIN, self.try_again, self.book)

    def try_again(self) -> None:
        self.is_lacking = False
        self.lost_placements([])

    def settled(self, number: int, has_room: bool) -> None:
        """There may be room then where there was none."""
        self.lost.pop(number, None)
        self.waiting.pop(number, None)
        if has_room and not self.has_news:
            self.has_news = True
            self.front.loop.after(AGAIN, self.look_for_room, self.book)

    def look_for_room(self) -> None:
        self.has_news = False
        now = self.front.clock()
        is_time = now - self.room_at >= CHEAPER
        self.room_at = now if is_time else self.room_at
        for counting in self.front.countings():
            self.front.loop.call(counting.session.owner, counting.look_for_room, is_time, self.lost)
        self.again()

    # ---- when

    def again(self) -> None:
        """Tries those again that weren't tried in the last second: the most important ones first."""
        self.is_late = False
        now, booked = self.front.clock(), self.book.booked
        due = [number for number, at in self.lost.items() if now - at >= AGAIN and number in booked and number not in self.trying]
        for _, number in sorted((booked[number].hold, -number) for number in due):
            self.waiting[-number] = None
        self.looking.update(dict.fromkeys(key for key, at in self.crowded.items() if now - at >= AGAIN))
        if any(now - at < AGAIN for at in (*self.lost.values(), *self.crowded.values())):
            self.again_later()
        self.go_on()
        self.look()

    def again_later(self) -> None:
        if not self.is_late:
            self.is_late = True
            self.front.loop.after(AGAIN, self.again, self.book)

    def place(self, number: int, why: str, then: Callable[[], object]) -> None:
        """Places again. An LSP that is the front's to move is moved there. Of others that have lost their routes the bandwidth is kept
        where they may go; others that carry traffic stay counted where they are."""
        counting, lsp = self.lsp_of(number) or (None, None)
        if counting and lsp and counting.is_ours(lsp):
            if not counting.placing.has_rows(lsp):
                counting.ask(lsp)
            elif counting.lsps.is_synced and not counting.session.is_full:
                counting.placing.displace(lsp, why)
        elif why == "lost" and (placement := self.book.booked.get(number)):
            self.book.give(f"place,{number},{placement.constraints}", lambda _: None, None)
        self.book.turn(number, why, then)

    # ---- routes that are lost

    def go_on(self) -> None:
        if self.is_going:  # one was tried at once
            return
        self.is_going = True
        try:
            while self.waiting and len(self.trying) < AT_ONCE and self.book.is_known:
                number = next(iter(self.waiting))
                del self.waiting[number]
                self.trying.add(number)
                self.book.turn(number, "lost", functools.partial(self.try_one, number))
        finally:
            self.is_going = False

    def try_one(self, number: int) -> None:
        if number in self.lost:
            self.lost[number] = self.front.clock()
            self.place(number, "lost", functools.partial(self.tried, number))
        else:
            self.tried(number)

    def tried(self, number: int) -> None:
        self.trying.discard(number)
        self.go_on()

    # ---- links that have too little

    def look(self) -> None:
        """Looks at the next link, one at a time."""
        if self.link is None and self.looking and self.book.is_known:
            self.link = next(iter(self.looking))
            del self.looking[self.link]
            self.crowded[self.link] = self.front.clock()
            ids = sorted(self.book.on_link.get(self.link, ()), key=lambda number: (-self.book.booked[number].hold, number))
            self.step(self.link, [number for number in ids if number >= LEAST_OWN])

    def step(self, key: Key, ids: list[int]) -> None:
        if self.link == key:
            self.book.ask(f"left,{key[0]},{key[1]}", functools.partial(self.left, key, ids))

    def left(self, key: Key, ids: list[int], line: str | None) -> None:
        """Places the least important of these placements again that counts where the link has too little."""
        if self.link != key:
            return
        if is_for_memory(line):  # it stays crowded, and is looked at again
            self.link = None
            self.look()
            return
        name = ",".join(key)
        priority = too_little(line or "")
        if priority is None:
            self.crowded.pop(key, None)
            self.doubted.discard(key)
            if key in self.said:
                self.said.discard(key)
                self.front.say("warning", f"{name} has what is counted on it again")
        else:
            number = next((number for number in ids if self.may_go(key, number, priority)), None)
            if number is not None:
                ids.remove(number)
                then = functools.partial(self.step, key, ids)
                self.book.turn(number, "over", functools.partial(self.place, number, "over", then))
                return
            if key not in self.doubted:  # LSPs may not have been reported yet
                self.doubted.add(key)
                self.again_later()
            elif key not in self.said:
                self.said.add(key)
                self.front.say("error", f"{name} has less at priority {priority} than is counted on it, and no LSP can be moved away")
        self.link = None
        self.look()

    def may_go(self, key: Key, number: int, priority: int) -> bool:
        """Whether it helps a link at a priority to move a placement, and its LSP is the front's to move."""
        placement, found = self.book.booked.get(number), self.lsp_of(number)
        if placement is None or found is None or placement.hold > priority or not placement.bandwidth:
            return False
        counting, lsp = found
        is_ready = counting.is_ours(lsp) and counting.lsps.is_synced and not counting.session.is_full and counting.placing.has_rows(lsp)
        return is_ready and lsp.is_willing(self.front.clock()) and number in self.book.on_link.get(key, ())


def too_little(line: str) -> int | None:
    """The first priority at which the line of a `left` row says that more is counted than there is."""
    found = LEFT.fullmatch(line)
    if not found:
        return None
    base, counted = (tuple(map(int, figures.split(","))) for figures in found.groups())
    return next((at for at, (has, needs) in enumerate(zip(base, counted)) if needs > has), None)
