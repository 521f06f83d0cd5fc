"""Asks a running server for one route, by names and units, and says why there is none or why the route is dear.

    routed-tools ask PLACE FROM TO [--bandwidth 2.5G] [--via HOP[:strict],..] [--why] ...

PLACE is where clients ask (--ask of `routed-tools listen`). FROM and TO are addresses, or names of the file of --names. It
prints the row that was sent and the line as it came. With --show or --journal a table of the route follows.

--why asks again on the same connection, each time with something relaxed. Without a route it prints what has to be given up:
each way is at least one constraint with the least of it that helps. With a route it prints the constraints without which there
is a cheaper one. Each reason is an answer of the server, and all are of one version.

The status is 0 where the request is answered, with a route or without one. It is 1 where the server can't be reached, or where
the network changed while --why asked, four times; and 2 where a word, a file or the row is refused.
"""
from __future__ import annotations

import argparse
import contextlib
import re
from collections.abc import Callable, Iterator
from typing import NamedTuple

from ..client import Client, ask_snapshot
from ..model.advice import of_place
from ..model.database import Database
from ..model.groups import Groups, add_groups
from ..model.journals import read_database
from ..model.names import Names, add_names
from ..model.rows import Link, Refused, Reply, Request
from ..model.units import rate_of
from ..net.endpoints import Endpoint, tell
from ..net.loop import Stopped
from ..program import failed
from .cuts import Cut, cut
from .reasons import Answering, Asker, Moved, Reason, Why
from .telling import Telling

ROUNDS = 4  # of asks: the first one, and three more where the version changed
MOST_HOPS = 7
PREFIX = re.compile(r"(.+)/(3[0-2]|[12]?[0-9])")


class Answer(NamedTuple):
    """What one round of asks has found, all of it at one version."""

    row: str
    line: str
    reply: Reply
    request: Request
    route: list[Link] | None  # None where there is no route, or no database to read it from
    reasons: list[Reason] | None  # None where they weren't asked for, or where the version changed too often
    cut: Cut | None
    database: Database | None


def hop_of(text: str, names: Names) -> str:
    """A hop as a row has it, of HOP, HOP:strict or HOP:loose."""
    place, _, kind = text.strip().rpartition(":") if text.strip().endswith((":strict", ":loose")) else (text.strip(), "", "loose")
    found = PREFIX.fullmatch(place)
    address, bits = (found[1], found[2]) if found and not names.address_of(place) else (place, "32")
    return f"{address_of(address, names)}/{bits}{kind[0]}"


def address_of(text: str, names: Names) -> str:
    """The address that a word means."""
    if address := names.address_of(text):
        return address
    raise Refused(f"{text!r} is no address, and no name of a file of names (--names, or the variable ROUTED_NAMES)")


def request_of(asked: argparse.Namespace, names: Names, groups: Groups) -> Request:
    """The request that the words of the command line mean."""
    head, tail = address_of(asked.head, names), address_of(asked.tail, names)
    if head == tail:
        raise Refused(f"FROM and TO are both {head}")
    hops = [hop_of(hop, names) for hop in asked.via.split(",")] if asked.via else []
    if len(hops) > MOST_HOPS:
        raise Refused(f"a request has at most {MOST_HOPS} hops")
    exclude, include, whole = (groups.mask_of(text) for text in (asked.exclude, asked.include_any, asked.include_all))
    return Request(1, head, tail, asked.setup, rate_of(asked.bandwidth), exclude, include, whole, " ".join(hops))


def links_of(database: Database, request: Request, reply: Reply) -> list[Link]:
    """The links of a reply's route in the database of its version."""
    found: list[Link] = []
    at = request.head
    for far in reply.fars:
        links = database.usable(at, far, request, bool(found))
        if not links:
            raise Refused(f"the route isn't in this network: {at} has no link to {far}, so the journal or the place is another server's")
        found.append(links[0])
        at = links[0].neighbor
    return found


def database_at(asked: argparse.Namespace) -> Callable[[int], Database] | None:
    """What reads the database of a version, where there is a place or a journal to read it from."""
    def shown(version: int) -> Database:
        database = ask_snapshot(asked.show.text)
        if database.version != version:
            raise Moved
        return database

    def kept(version: int) -> Database:
        with open(asked.journal, "rb") as file:
            return read_database(file.read(), version)

    return shown if asked.show else kept if asked.journal else None


def answered(asker: Answering, request: Request, is_explained: bool, read: Callable[[int], Database] | None) -> Answer:
    """Asks, and looks for reasons, as often as it takes until all is of one version."""
    for _ in range(ROUNDS):
        asker.begin()
        row, line, reply = asker.answer(request)
        with contextlib.suppress(Moved):
            database = read(reply.version) if read else None
            reasons, found = None, None
            if is_explained and not (reply.why or "").startswith("unknown"):
                why = Why(asker, request)
                reasons = why.of_none() if reply.why else why.of_route()
            if is_explained and reply.why == "none" and not reasons and database:
                found = cut(database, request.head, request.tail)
            route = links_of(database, request, reply) if database and not reply.why else None
            return Answer(row, line, reply, request, route, reasons, found, database)
    return Answer(row, line, reply, request, None, None, None, None)


def told_to(path: str | None, stack: contextlib.ExitStack) -> Callable[[str, str], object]:
    """What keeps each row and its line for `routed audit`, in PATH.requests and PATH.replies."""
    if not path:
        return lambda row, line: None
    files = [stack.enter_context(open(f"{path}.{kind}", "w", encoding="utf-8")) for kind in ("requests", "replies")]

    def tell(*texts: str) -> None:
        for file, text in zip(files, texts):
            file.write(f"{text}\n")

    return tell


def run(asked: argparse.Namespace, stack: contextlib.ExitStack) -> Iterator[tuple[list[str], int]]:
    """The lines of each answer, and the status that it leads to."""
    names, groups = Names.read(asked.names), Groups.read(asked.groups)
    request, telling = request_of(asked, names, groups), Telling(names, groups)
    watch = asked.versions.text if asked.versions else None
    client = stack.enter_context(Client(asked.place.text, watch))
    asker, read, before = Asker(client, asked.id, told_to(asked.proof, stack)), database_at(asked), None
    while True:
        answer = answered(asker, request, asked.why, read)
        is_moved = asked.why and answer.reasons is None and not (answer.reply.why or "").startswith("unknown")
        if before is None or (before.why, before.cost, before.fars) != (answer.reply.why, answer.reply.cost, answer.reply.fars):
            lines = [telling.json(answer)] if asked.json else list(telling.lines(answer, asked.why, before))
            if is_moved:
                lines.append(f"why: the version changed in each of {ROUNDS} rounds of asks, so no reason is given")
            yield lines, int(bool(is_moved))
        if not asked.versions:
            return
        before = answer.reply
        client.wait(before.version + 1)


def parser() -> argparse.ArgumentParser:
    words = argparse.ArgumentParser(prog="routed-tools ask", description=__doc__, formatter_class=argparse.RawDescriptionHelpFormatter)
    words.add_argument("place", type=Endpoint, metavar="PLACE", help="a path, a port, ADDRESS:PORT or [ADDRESS]:PORT, as of --ask")
    words.add_argument("head", metavar="FROM", help="the router from which the route leads, by its name or Router ID")
    words.add_argument("tail", metavar="TO", help="the router to which it leads")
    words.add_argument("--bandwidth", default="0", metavar="RATE", help="2.5G, 400M or 64k bits per second, rounded up to whole bytes; "
                                                                        "or bytes per second with B behind, as 125000000B (0)")
    words.add_argument("--setup", type=int, choices=range(8), default=7, metavar="N", help="the setup priority, 0 to 7 (7)")
    words.add_argument("--exclude", metavar="GROUP,..", help="groups of which no link of the route is in any, by names or numbers")
    words.add_argument("--include-any", metavar="GROUP,..", help="groups of which each link is in at least one")
    words.add_argument("--include-all", metavar="GROUP,..", help="groups of which each link is in all")
    words.add_argument("--via", metavar="HOP[:strict],..", help="at most seven hops in order: names, addresses or prefixes; loose, where "
                                                                "`:strict` isn't behind them")
    words.add_argument("--why", action="store_true", help="say why there is no route, or why it is dear")
    place = words.add_mutually_exclusive_group()
    place.add_argument("--show", type=Endpoint, metavar="PLACE", help="read the network there (--show of listen), for a table of the route")
    place.add_argument("--journal", metavar="FILE", help="read the network from the server's journal instead")
    words.add_argument("--versions", type=Endpoint, metavar="PLACE", help="ask again at each version that is told there (--watch of "
                                                                          "listen), and print the answers that differ")
    add_names(words)
    add_groups(words)
    words.add_argument("--json", action="store_true", help="print a line of JSON for each answer")
    words.add_argument("--id", type=int, default=1, metavar="N", help="the id of the first ask; each further one has the next (1)")
    words.add_argument("--proof", metavar="PATH", help="write each row to PATH.requests and each line to PATH.replies, for `routed audit`")
    return words


def main(given: list[str] | None = None) -> int:
    """Takes the words of a command line, and answers the status."""
    asked, status = parser().parse_args(given), 0
    try:
        with contextlib.ExitStack() as stack:
            for lines, status in run(asked, stack):
                tell(*lines)
    except Refused as fault:
        return failed("ask", fault, 2)
    except Stopped as fault:
        return failed("ask", fault)
    except (OSError, UnicodeError) as fault:
        where = getattr(fault, "filename", None) or asked.place.text
        return failed("ask", f"{where}: {getattr(fault, 'strerror', '') or fault}", advice=of_place(fault))
    return status
