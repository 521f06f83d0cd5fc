"""The database that a program has when the feed comes to it: as listen tells it, or from the journal of the program's run. Where the
program has a book this is the base, whose version counts the batches of the base."""
from __future__ import annotations

import contextlib
import re
import secrets
import sys

from ..model.database import Database
from ..model.journals import batches
from ..model.rows import Refused
from ..net.endpoints import tried
from ..net.loop import Stopped
from .program import Program

RUN = re.compile(r"run [0-9]{1,20}")  # listen --run
# Lines of rows that an earlier feed sent, which it didn't read.
EARLIER = re.compile(r"(?:version|base|lost|batch|row|ask) \d+( .*)?|over .*")


def after(data: bytes) -> tuple[Database, int]:
    """The database after the whole batches at the front of a journal, and how many rows these have."""
    database, count = Database(), 0
    with contextlib.suppress(Refused):
        for batch in batches(data, most=sys.maxsize):
            database.apply(batch)
            count += len(batch.changes) + 1
    return database, count


def from_journal(path: str, version: int) -> Database:
    """That of the program that writes this journal, in which there may be the beginning of a batch behind the last."""
    with tried(f"--journal {path}"), open(path, "rb") as journal:
        database, _ = after(journal.read())
    if database.version != version:
        raise Stopped(f"--journal {path}: it has {database.version} batches, and the program is at version {version}: "
                    "give the journal of its run")
    return database


def from_front(program: Program, version: int, line: str) -> tuple[Database, int]:
    """That which `routed-tools listen` tells, and the version that is published, which placings may have raised since. This line came
    first."""
    found = re.fullmatch(r"base ([0-9]{1,20}) v([0-9]{1,20})", line)
    if int(found[2]) < version if found else line != f"version {version}":
        raise Stopped(f"{program.name}: it is at version {version}, and its database isn't known, for it answered: {line}")
    lines = list(iter(program.line, "snapshot end"))
    if lines and RUN.fullmatch(lines[0]):
        del lines[0]
    database, count = after("\n".join(lines).encode())
    if count != len(lines):
        raise Stopped(f"{program.name}: its snapshot has a line that is part of no batch: {lines[count]}")
    database.version = int(found[1]) if found else version
    return database, int(found[2]) if found else version


def run_of(program: Program) -> str | None:
    """The name of the program's run, if it has one: `routed-tools listen` does."""
    program.write("run\n")
    found = re.fullmatch("run ([0-9a-f]{1,64})", program.line())
    return found[1] if found else None


def begun(program: Program, path: str | None) -> tuple[Database, int]:
    """What the program has before anything is put, and the version that it has published. At version 0 it has nothing."""
    number = secrets.randbits(64)  # that of nobody else
    program.write(f"ask,{number},0.0.0.0,0.0.0.1,0,0,0x0,0x0,0x0,\n")
    while not (found := re.match(rf"ask {number} v([0-9]{{1,20}}) ", line := program.line())):
        if not EARLIER.fullmatch(line):
            raise Stopped(f"{program.name}: its version was asked for, and it answered: {line}")
    version = int(found[1])
    if not version and not program.stream.socket:  # a front has to be asked: batches of a book's base may have made nothing
        return Database(), 0
    program.write("snapshot\n")
    line = program.line()
    if not re.fullmatch(r"row \d+ refused: kind", line):
        return from_front(program, version, line)
    if path is None:
        raise Stopped(f"{program.name}: it is at version {version}, and its database isn't known: "
                    "give --journal FILE, the journal of its run, or start the program again, too")
    return from_journal(path, version), version
