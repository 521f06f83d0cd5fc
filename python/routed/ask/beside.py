"""Writes the row that asks for a second path beside that of a reply.

    routed-tools beside --journal FILE|--show PLACE [--srlgs FILE] [REPLY]

REPLY is a file with a row and the line that answers it, as `routed-tools ask` prints them; - or nothing is standard input. The
row that is written is an `except` row: the same request, without the circuits of the reply's route. With --srlgs it is without
all circuits, too, that share an SRLG with one of these. What the first row excludes stays excluded, so a third path is found in
the same way. A server takes such rows where `routed-tools listen` has the option --except.

The network is that of the reply's version, from the journal of the server's run (--journal), or from the place of --show of
`routed-tools listen` while the server is at that version. --srlgs names a file of lines `srlg,VERSION,ROUTER,LOCAL,GROUP
GROUP ..`, as a feed or a planner writes it. docs/run/PCEP.md says how it is read. A file of another run is refused, if the
number of the run is known: --show tells it, and so does the name of a journal that is a number.

A row has room for 64 parts. If more circuits are to be excluded, no row is written, and the words `except count` say so. It is
proved that a route takes none of the circuits that the row names. It isn't proved that no other circuit shares an SRLG with the
first route: that depends on the file.

The status is 0 where a row was written, 1 where REPLY, the journal or the place can't be read, and 2 where a word, a row, a reply, the
journal or the file of SRLGs is refused.

Example: routed-tools ask ./ask 10.0.0.1 10.0.0.6 | routed-tools beside --show ./show --srlgs ./srlgs | routed-tools connect ./ask
"""
from __future__ import annotations

import argparse
import os
import re
import sys
from collections.abc import Iterator
from dataclasses import replace

from ..model.advice import of_place
from ..model.database import Database
from ..model.rows import MOST_PARTS, Link, Refused, Reply, Request
from ..net.endpoints import Endpoint, tell
from ..pcep.srlgs import Srlgs
from ..program import failed
from .ask import database_at, links_of
from .reasons import Moved

ROW = re.compile(r"(?:ask|except),\S[^\n]*")
RUN = re.compile(r"0*([1-9][0-9]*)\.journal")


def answered(text: str) -> tuple[Request, Reply]:
    """The request of the first row of a text, and the reply behind it."""
    lines = text.splitlines()
    at = next((at for at, line in enumerate(lines) if ROW.fullmatch(line)), None)
    if at is None:
        raise Refused("there is no `ask` row or `except` row in front of a reply line")
    try:
        request = Request.parse(lines[at].split(","))
    except (ValueError, TypeError):
        raise Refused(f"{lines[at]!r} is no row that `routed` takes") from None
    reply = next(filter(None, map(Reply.parse, lines[at + 1:])), None)
    if reply is None:
        raise Refused("there is no reply line behind the row")
    if reply.id != request.id:
        raise Refused(f"the reply line is of the request {reply.id}, and the row has the id {request.id}")
    if reply.why:
        raise Refused(f"the reply has no route: {reply.why}")
    return request, reply


def srlgs_of(path: str, run: str | None, version: int) -> Srlgs:
    """The SRLGs of a file, of the run if its number is known."""
    found = Srlgs(path)
    found.look()
    found.wanted = run if run is not None else found.run
    if why := found.fault_at(version):
        raise Refused(why)
    return found


def parts(database: Database, srlgs: Srlgs | None, route: list[Link], version: int) -> Iterator[str]:
    """The parts for the circuits of a route, and for those that share an SRLG with one of them."""
    circuits = [*route, *filter(None, map(database.reverse, route))]
    yield from (link.part for link in circuits)
    if srlgs:
        groups = sorted({group for link in circuits for group in srlgs.groups(link.key, version)})
        for key in srlgs.links_in(groups, version):
            if isinstance(link := database.rows.get(key), Link):
                yield link.part


def row(asked: argparse.Namespace, text: str) -> str:
    """The row of a path beside that of a reply."""
    request, reply = answered(text)
    read = database_at(asked)
    assert read is not None
    try:
        database = read(reply.version)
    except Moved:
        raise Refused(f"the network isn't at version {reply.version} any more: ask again, or give --journal") from None
    number = RUN.fullmatch(os.path.basename(asked.journal)) if asked.journal else None
    run = number[1] if number else database.run
    srlgs = srlgs_of(asked.srlgs, run, reply.version) if asked.srlgs else None
    route = links_of(database, request, reply)
    found = [*dict.fromkeys([*request.excluded.split(), *parts(database, srlgs, route, reply.version)])]
    if len(found) > MOST_PARTS:
        raise Refused(f"except count: {len(found)} parts are to be excluded, and a row has room for {MOST_PARTS}")
    return replace(request, id=request.id if asked.id is None else asked.id, excluded=" ".join(found)).text()


def main(given: list[str] | None = None) -> int:
    """Takes the words of a command line, and answers the status."""
    words = argparse.ArgumentParser(prog="routed-tools beside", description=__doc__, formatter_class=argparse.RawDescriptionHelpFormatter)
    words.add_argument("reply", nargs="?", default="-", metavar="REPLY", help="a row and its reply line, as `ask` prints them (-)")
    place = words.add_mutually_exclusive_group(required=True)
    place.add_argument("--journal", metavar="FILE", help="read the network of the reply's version from the server's journal")
    place.add_argument("--show", type=Endpoint, metavar="PLACE", help="read the network there instead (--show of listen)")
    words.add_argument("--srlgs", metavar="FILE", help="exclude all that shares an SRLG of this file, too")
    words.add_argument("--id", type=int, metavar="N", help="the id of the row that is written (that of the first row)")
    asked = words.parse_args(given)
    try:
        if asked.reply == "-":
            text = sys.stdin.read()
        else:
            with open(asked.reply, encoding="utf-8") as file:
                text = file.read()
        tell(row(asked, text))
    except Refused as fault:
        return failed("beside", fault, 2)
    except (OSError, UnicodeError) as fault:
        where = getattr(fault, "filename", None) or (asked.show.text if asked.show else "standard input")
        return failed("beside", f"{where}: {getattr(fault, 'strerror', '') or fault}", advice=of_place(fault))
    return 0
