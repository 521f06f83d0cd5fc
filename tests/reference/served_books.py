"""What `routed serve --book` writes, by tests/reference/books.py: its lines, what it keeps, and the batches of the effective database.

Small and slow on purpose; nothing in it is taken from the program.
"""
import collections
import math

from reference import books, compacts, runs
from reference.books import Fault, key_of
from reference.formats import Network

# A row that was read: its lines, and what is written to `--keep` and to the journal for it.
Served = collections.namedtuple("Served", "lines kept published")


def changes_of(before, after, changes):
    """What a row changes of the effective database, from the book before it and after it, and the changes of a base batch. These come in
    their order. A placement comes or goes with a put for each key of the old route and then of the new one that the base has."""
    left = books.effective(after.base, after.placements).links
    if after.batches > before.batches:
        return [(kind, left[key_of(change)] if kind == "put" else change) for kind, change in changes]
    here = set(map(id, before.placements)), set(map(id, after.placements))
    gone, come = ([it for it in book.placements if id(it) not in others] for book, others in ((before, here[1]), (after, here[0])))
    keys = dict.fromkeys(key_of(link) for placement in [*gone, *come] for link in placement.route)
    return [("put", left[key]) for key in keys if key in left]


class Server:
    """A run that begins with the rows of a book, or with a book, and how many bytes its two files take. `networks` are the effective
    databases from version 0 on, those of a beginning too; `first` is the first version, and `begun` are the lines before those of any
    row. `lacking` has the rows that are refused by `memory`, as `books.walked` has them."""

    def __init__(self, begin="", room=math.inf, journal_room=math.inf, lacking=None):
        self.room, self.journal_room, self.networks, self.status = room, journal_room, [Network()], 0
        self.lacking = lacking
        self.book, line, _ = (begin, "", "") if isinstance(begin, books.Book) else compacts.whole(begin)
        if self.book is None:
            self.status, self.begun, self.snapshot = 2, [line], ""
            return
        effective = books.effective(self.book.base, self.book.placements)
        self.snapshot, self.written = runs.snapshot_of(effective), ""
        self.networks = runs.publish(runs.whole_batches(self.snapshot))[0]
        self.first = self.book.version = len(self.networks) - 1
        puts = [("put", link) for _, link in sorted(self.book.base.links.items())]
        self.begun = list(books.over(puts, self.book.placements))

    def publish(self, before, after, changes):
        """Writes the batch of a row to the journal, and shows it to the clients."""
        text = runs.batch_text(after.version, changes_of(before, after, changes))
        self.written = text[:min(len(text), self.journal_room)]
        self.journal_room -= len(self.written)
        if self.written != text:
            raise Fault(f"journal {len(self.written)}")
        self.networks.append(books.effective(after.base, after.placements))

    def run(self, rows):
        """The status, what is written before any row, and then for each row. The last line comes after them. Where the beginning is
        refused, no row is read."""
        found = [Served(self.begun, "", self.snapshot)]
        if self.status:
            return self.status, found
        status, _, last = books.ended(self.walked(rows, found))
        return status, [*found, *([Served(last, "", "")] if last else [])]

    def walked(self, rows, found):
        """The steps of the book, each with what is written for its row."""
        for step in books.walked(rows, self.room, self.book, self.publish, self.lacking):
            found.append(Served(step.lines, step.kept, self.written))
            self.written = ""
            yield step


class Run:
    """A whole run over some rows: its status, its steps and, as texts, all its lines, what it keeps, and its journal."""

    def __init__(self, rows, begin="", room=math.inf, journal_room=math.inf, lacking=None):
        self.server = Server(begin, room, journal_room, lacking)
        self.status, self.steps = self.server.run(rows)
        self.lines = "".join(f"{line}\n" for step in self.steps for line in step.lines)
        self.kept, self.journal = ("".join(texts) for texts in list(zip(*self.steps))[1:])
        self.networks, self.first = self.server.networks, len(runs.whole_batches(self.server.snapshot))
