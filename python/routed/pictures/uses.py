"""What a link has left at each version of a journal, and how the replies of clients use its circuit."""
from __future__ import annotations

import re
from collections.abc import Iterable, Iterator
from typing import NamedTuple

from ..model.database import Database
from ..model.journals import MOST_ROWS, batches
from ..model.pairs import PairReply
from ..model.rows import Key, Link, Refused, Reply
from .draw import shared_ends, walks_of, ways_of

SHORT = 100  # characters of a line that a refusal has
REPLY_LINE = re.compile("(?:ask|except|pair) [0-9]{1,20} v([0-9]{1,20}) .*")
OTHERS = {"version", "applied", "batch", "row", "base", "place", "held", "offer", "release", "released", "show", "left", "over", "lost",
          "unended"}  # first words of other lines of `routed`
USES = "used", "back", "other", "none"  # the route has the link, its reverse, neither of them; there is no route

Lines = dict[int, list[tuple[str, str]]]  # reply lines by their versions, each with its place for messages


class Told(NamedTuple):
    """A reply: its version, a word of USES, and its first words."""

    version: int
    use: str
    reply: str


class Followed(NamedTuple):
    """The link as its last version has it, what it has left at each version from 0 on, None where it isn't there, and the replies."""

    link: Link
    lefts: list[int | None]
    told: list[Told]


def read_replies(paths: Iterable[str]) -> Lines:
    """The reply lines of files by their versions, each with its place for messages. Other lines of `routed` are passed over."""
    found: Lines = {}
    count = 0
    for path in paths:
        with open(path, encoding="utf-8", errors="replace") as lines:
            for at, line in enumerate(map(str.rstrip, lines), 1):
                count += 1
                if count > MOST_ROWS:
                    raise ValueError(f"the replies have more than {MOST_ROWS} lines")
                if reply := REPLY_LINE.fullmatch(line):
                    found.setdefault(int(reply[1]), []).append((f"{path}: line {at}", line))
                elif line.partition(" ")[0] not in OTHERS:
                    raise ValueError(f"{path}: line {at}: no line of routed: {short(line)}")
    return found


def short(line: str) -> str:
    return line if len(line) <= SHORT else f"{line[:SHORT]}.."


def use_of(database: Database, line: str, key: Key) -> str:
    """The word of USES for a reply line and the circuit of a link. The route has to be one of the database."""
    pair, reply = PairReply.parse(line), Reply.parse(line)
    if pair:
        if pair.each:
            shared_ends(database, pair.each, line)
        ways = ways_of(database, pair, line) if pair.ways else []
    elif reply:
        ways = [] if reply.why else walks_of(database, reply, line)[:1]
    else:
        raise ValueError(f"no line of routed: {line}")
    links = [link for way in ways for link in way]
    if any(link.key == key for link in links):
        return "used"
    return "back" if any(link.back == key for link in links) else "other" if links else "none"


def told_at(database: Database, lines: Iterable[tuple[str, str]], key: Key) -> Iterator[Told]:
    """The replies of lines at the version of a database. Lines that differ by their ids alone are looked at once."""
    known: dict[str, str] = {}
    for where, line in lines:
        kind, name, rest = line.split(" ", 2)
        asked = f"{kind} {rest}"
        if asked not in known:
            try:
                known[asked] = use_of(database, line, key)
            except ValueError as fault:
                raise ValueError(f"{where}: version {database.version}: {short(str(fault))}") from None
        yield Told(database.version, known[asked], f"{kind} {name} v{database.version}")


def follow(data: bytes, key: Key, priority: int, lines: Lines) -> Followed:
    """The link and the replies through all versions of a journal."""
    database, found = Database(), batches(data)
    last: Link | None = None
    lefts, told = list[int | None](), list[Told]()
    while True:
        link = database.rows.get(key)
        lefts.append(link.unreserved[priority] if isinstance(link, Link) else None)
        last = link if isinstance(link, Link) else last
        told += told_at(database, lines.get(database.version, ()), key)
        batch = next(found, None)
        if batch is None:
            break
        database.apply(batch)
    if not database.version:
        raise Refused("the journal has no batch")
    if last is None:
        raise Refused(f"no version has the link {','.join(key)}")
    late = min((version for version in lines if version > database.version), default=None)
    if late is not None:
        where, line = lines[late][0]
        raise ValueError(f"{where}: the journal has no version {late}, the last one is {database.version}: {short(line)}")
    return Followed(last, lefts, told)
