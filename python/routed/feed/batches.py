"""Numbered batches of rows: what the program was given, and what its lines say of it."""
from __future__ import annotations

import re
from collections.abc import Callable, Collection

from ..model.database import Database
from ..model.rows import MOST_CHANGES, Batch, Change, Drop, Key, Row, rank, removal_of
from ..net.loop import Stopped

MOST_VAIN = 8  # refusals in a row from which nothing followed
MOST_NEWS = 8 * MOST_CHANGES + 65_536  # lines `over` and `lost` of a batch: for each priority of its links, and for each placement
REFUSED_ROW = re.compile(r"row \d+ refused: .+")
NEWS = re.compile(r"over [0-9.]+,[0-9.]+ [0-7]|lost \d+")  # what a batch does to placements, before the batch's own line
OTHERS = "another program has published, and the feed has to be the only one: end that program, and start the feed again"
UNKNOWN = "the program's database isn't the one that the feed began with: start the feed again"
# The first words of refusals behind which no batch is taken any more, and what the feed adds to their lines.
LAST = {"exhausted": "", "keep": "", "journal": "", "stopped": "", "expected": f": {OTHERS}", "absent": f": {UNKNOWN}"}


def named(change: Change) -> str:
    """The change without its figures: its word, the router and the local address, or what a mark is."""
    return " ".join(change.text().split(",")[:3])


class Batches:
    """One batch at a time: the next is written once the line of the last has come. `database` is the program's: of a server with a book
    the base, whose version counts the batches of the base alone."""

    def __init__(self, database: Database, say: Callable[[str], None], count: Callable[[str], None]) -> None:
        self.say, self.count = say, count  # the latter is called with the first word of each refusal of a batch
        self.begin(database, database.version)
        self.barred: dict[Key, Row] = {}  # those that the program refused
        self.sent: list[Change] = []  # the changes of the batch whose line hasn't come
        self.before, self.behind = 0, 0  # asks whose lines haven't come: sent before that batch, and behind it
        self.row = ""  # the last line by which a row of that batch was refused
        self.size = MOST_CHANGES
        self.is_cut = False  # whether there is more to do than that batch
        self.vain = 0  # refusals in a row from which nothing followed
        self.news = 0  # lines `over` and `lost` of that batch

    def begin(self, database: Database, published: int) -> None:
        """Goes on from the program's database, at the version that the program has published last."""
        self.database, self.published = database, published

    def next(self, wanted: dict[Key, Row], changed: Collection[Key] | None = None) -> str:
        """The text of the next batch towards the wanted rows, drops first; empty where there is none. If it is known which keys have
        changed since the last look, others are looked at only where that left something to be done."""
        given = self.database.rows
        keys = given.keys() | wanted.keys() if changed is None or self.is_cut else changed
        if self.barred:
            wanted = {key: row for key, row in wanted.items() if self.barred.get(key) != row}
        gone = [key for key in keys if key in given and key not in wanted]
        puts = [key for key in keys if (row := wanted.get(key)) and (had := given.get(key)) is not row and had != row]
        changes = [*map(removal_of, sorted(gone, key=rank)), *(wanted[key] for key in sorted(puts, key=rank))]
        self.sent, self.is_cut, self.row = changes[:self.size], len(changes) > self.size, ""
        return self.batch().text() if self.sent else ""

    def batch(self) -> Batch:
        """The batch that was sent."""
        return Batch(self.database.version + 1, tuple(self.sent))

    def ask(self) -> None:
        """Counts an ask row that was sent. Its line comes in its turn."""
        if self.sent:
            self.behind += 1
        else:
            self.before += 1

    def read(self, line: str) -> bool:
        """Takes a line of the program; whether it was about batches and their rows."""
        if line == "too many rows":
            raise Stopped("the program takes no more rows")
        is_row = REFUSED_ROW.fullmatch(line)
        if re.match(r"(?:ask|except) \d+ v", line) or is_row and (self.before or not self.sent):
            self.before = max(0, self.before - 1)
            return False
        if is_row:
            self.row = line
            return True
        if self.sent and NEWS.fullmatch(line):
            self.say(f"batch {self.database.version + 1}: {line}")
            self.news += 1
            if self.news > MOST_NEWS:
                raise Stopped(f"{line}: no batch has more than {MOST_NEWS} such lines")
            return True
        found = re.fullmatch(r"version (\d+)|batch (\d+) refused: (.+)|base (\d+) v(\d+)", line)
        if not found:
            return False
        number = found[1] or found[2] or found[4]
        if not self.sent or number != str(self.database.version + 1):
            raise Stopped(f"{line}: {OTHERS}")
        self.before, self.behind, self.news = self.behind, 0, 0
        if found[2]:
            self.refused(line, found[3].split())
        else:
            self.accepted(line, found[5] or number)
        return True

    def accepted(self, line: str, version: str) -> None:
        if self.row:  # a change that was left open made up for it
            raise Stopped(f"{self.row}, and then {line}: {UNKNOWN}")
        if len(version) > 20 or int(version) <= self.published:
            raise Stopped(f"{line}: {UNKNOWN}")
        self.published = int(version)
        self.database.apply(self.batch())
        if any(change.is_removal for change in self.sent):  # there is room again
            self.is_cut |= bool(self.barred)
            self.barred.clear()
        self.sent, self.vain = [], 0
        self.size = min(MOST_CHANGES, 2 * self.size)

    def refused(self, line: str, why: list[str]) -> None:
        """Goes on with what can be put: in smaller batches, until the change that is at fault is the only one of its batch."""
        changes, self.sent, self.is_cut = self.sent, [], True
        self.count(why[0])
        if why[0] in LAST:
            raise Stopped(line + LAST[why[0]])
        self.vain += 1
        if why[0] == "counted" and not self.row:
            self.say(f"{line}: changes were left open, which are dropped with this batch; trying again")
        elif len(changes) > 1:
            self.size, self.vain = len(changes) // 2, 0
        elif not isinstance(first := changes[0], Drop) and not first.is_removal:  # it is left out until it changes, or a link is dropped
            self.say(f"{self.row or line}: {named(first)} is left out")
            self.barred[first.key] = first
            self.vain = 0
        if self.vain > MOST_VAIN:
            raise Stopped(f"{line}: {named(changes[0])}: for the {self.vain}th time in a row")
