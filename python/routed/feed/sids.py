"""The file of adjacency SIDs (`feed --sids FILE`): lines `sid,VERSION,ROUTER,LOCAL,LABEL`, without a label where the SID is gone.
The first line is `run,NAME` where the program says the name of its run, as `routed-tools listen` does: versions are of that run.

A reply at version V goes by the last line of each link whose version isn't above V. Each line is written before the batch
that makes its version is sent. Where the program has a book, placings may come between, and the batch makes a later version than
the one in its lines. The file of SRLGs (`--srlgs FILE`) is the same, of lines `srlg,VERSION,ROUTER,LOCAL,GROUP GROUP ..`.
"""
from __future__ import annotations

import contextlib
import os
from collections.abc import Mapping

from ..model.rows import Key, Row, rank
from ..net.endpoints import tried
from ..net.loop import Stopped
from ..net.stream import write_all
from .batches import Batches

Values = Mapping[Key, int | frozenset[int]]  # what is told of links: labels, or SRLGs


class SidFile:
    """It is made anew beside FILE, and takes its place by a rename once the first SIDs are in it. So a reader has the file of
    before until then, never one that lacks SIDs, and sees by the inode that it is another one."""

    def __init__(self, name: str, path: str) -> None:
        self.path, self.length, self.head = path, 0, ""  # the last is the first line, which has the run
        self.word, self.option = name[:-1], f"--{name} {path}"
        self.beside: str | None = f"{path}.new"
        self.labels: Values = {}  # by link: what the last lines say
        self.before: Values = {}  # what they said before the batch that is on its way
        self.open: set[Key] = set()  # the links of lines whose batch is on its way
        self.again: set[Key] = set()  # those whose batch was refused
        with tried(self.option):
            if os.path.exists(path) and not os.path.isfile(path):
                raise Stopped(f"{self.option}: it is no regular file")
            self.file = os.open(self.beside, os.O_WRONLY | os.O_CREAT | os.O_TRUNC, 0o644)

    def write(self, batches: Batches, known: Values, rows: dict[Key, Row]) -> None:
        """Writes what changes, before the batch that `batches` has made or, where there is none, for the present version."""
        wanted = {**known, **self.put_off(batches, known, rows)}
        number = batches.published + bool(batches.sent)
        keys = {key for key in self.labels.keys() | wanted.keys() if self.labels.get(key) != wanted.get(key)}
        if batches.sent:
            keys, self.again = keys | self.again, set()
        lines = []
        for key in sorted(keys, key=rank):
            # a link that the program had before the feed came has the label at the program's version, too
            since = batches.published if self.beside and key in batches.database.rows else number
            value = wanted.get(key, "")
            text = " ".join(map(str, sorted(value))) if isinstance(value, frozenset) else value
            lines.append(f"{self.word},{since},{','.join(key)},{text}\n")
        self.append("".join(lines))
        self.labels, self.before, self.open = wanted, self.labels, keys

    def put_off(self, batches: Batches, known: Values, rows: dict[Key, Row]) -> Values:
        """The labels of links whose SID is gone, if a later batch changes the link."""
        sent = {change.key for change in batches.sent}
        return {key: label for key, label in self.labels.items()
                if key not in known and key in batches.database.rows and key not in sent and batches.database.rows[key] != rows.get(key)}

    def append(self, text: str) -> None:
        """Writes whole lines; what is cut is taken back."""
        data = (self.head * (not self.length) + text).encode()
        with tried(self.option):
            try:
                write_all(self.file, data)
            except OSError:
                os.ftruncate(self.file, self.length)
                raise
            self.length += len(data)
            if self.beside:
                os.rename(self.beside, self.path)
                self.beside = None

    def refused(self) -> None:
        """Another batch takes the number of the one that was on its way: its lines are written again."""
        self.labels, self.again = self.before, self.again | self.open

    def close(self) -> None:
        os.close(self.file)
        if self.beside:
            with contextlib.suppress(OSError):
                os.unlink(self.beside)
