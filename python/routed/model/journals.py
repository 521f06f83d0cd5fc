"""Reads journals and other streams of rows as `routed` does (docs/run/FORMATS.md): the one reader of all tools."""
from __future__ import annotations

import csv
import io
import os
import re
import sys
from collections.abc import Iterator

from .database import Database
from .rows import MOST_CHANGES, Batch, Refused, refusal

MARK = b"\xef\xbb\xbf"  # the byte order mark
MOST_ROWS = 1_000_000
# What listen says: the lines before the rows, the rows, and the line behind them. Each is empty where it isn't there.
HELD = re.compile(rb"(?m)^held,.*\n")  # a placement, among the rows of a book
ROUND = re.compile(rb"(?:version ([0-9]{1,20})\n(?:run ([0-9]{1,20})\n)?)?(.*?)(snapshot end\n?)?", re.S)

csv.field_size_limit(sys.maxsize)


def records(data: bytes) -> Iterator[list[str]]:
    """The records of a stream, each a list of fields: a byte order mark at the front is left out, and so are empty lines."""
    text = data.removeprefix(MARK).decode("latin-1")  # each byte is one character
    return filter(None, csv.reader(io.StringIO(text, newline="")))


def batches(data: bytes, has_asks: bool = False, most: int = MOST_ROWS) -> Iterator[Batch]:
    """The batches of a stream, from 1 on. The first row or batch that `routed` refuses by itself is refused, and so is an ask, which
    a journal doesn't have and a stream may. Changes behind the last `end` row are passed over. Whether a batch fits the database
    isn't looked at."""
    number, rows = 1, []
    for place, fields in enumerate(records(data), 1):
        if place > most:
            raise Refused("too many rows")
        if why := refusal(fields) or ("kind" if fields[0] == "ask" and not has_asks else None):
            raise Refused(f"row {place} refused: {why}")
        if fields[0] != "ask":
            rows.append(fields)
        if fields[0] == "end":
            batch = Batch.parse(rows)
            if why := batch.refusal(number, int(fields[2])):
                raise Refused(f"batch {batch.number} refused: {why}")
            yield batch
            number, rows = number + 1, []


def read_journal(path: str | os.PathLike[str]) -> Iterator[Batch]:
    """The batches of a journal's file, one after the other; Refused says what `routed` takes no batch for."""
    with open(path, "rb") as file:
        return batches(file.read())


def read_database(data: bytes, until: int | None = None, has_asks: bool = False) -> Database:
    """The last version of a stream's batches, or this one. A stream may have asks."""
    database, found = Database(), batches(data, has_asks)
    while database.version != until and (batch := next(found, None)):
        database.apply(batch)
    if until is not None and database.version < until:
        raise Refused(f"there is no version {until}, the last one is {database.version}")
    return database


def read_snapshot(data: bytes) -> Database:
    """The database of a snapshot: of `routed snapshot`, or of `routed-tools listen` with the lines round its rows, of which the first
    has the version. Behind the rows of a base may stand those of placements, which aren't read."""
    head, run, rows, tail = ROUND.fullmatch(data).groups()  # type: ignore[union-attr]
    rows = HELD.sub(b"", rows)
    if head and not tail:
        raise Refused("the snapshot has no line `snapshot end`, so it isn't whole")
    database = read_database(rows)
    if head:
        database.version, database.run = int(head), run.decode() if run else None
    return database


def texts(data: bytes) -> list[str]:
    """The text of each batch of a journal, which has nothing else."""
    found = list(batches(data))
    if left := sum(1 for _ in records(data)) - sum(len(batch.changes) + 1 for batch in found):
        raise Refused(f"unended {left}")
    return [batch.text() for batch in found]


def in_batches(rows: list[str], version: int = 0) -> tuple[list[str], int]:
    """Change rows as batches after a version, most often as one, and the version after them."""
    found = []
    for at in range(0, len(rows), MOST_CHANGES):
        some, version = rows[at:at + MOST_CHANGES], version + 1
        found += [*some, f"end,{version},{len(some)}"]
    return found, version
