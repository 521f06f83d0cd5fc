"""Tables of a book: its tunnels with their routes, and its links by what is left.

    routed-tools book-report BOOK .. [--names FILE] [--below 100M] [--json]

BOOK has rows of `routed book`: those of the base and of the tunnels, as a file of `routed book --keep` has them. Rows may be in
several files, which are read one after the other; - is standard input. The rows are run by `routed book`, and the tables
follow from the rows and its lines. A tunnel is `lost` where the base doesn't have its route, and `not placed` where it has none.
Links come with the least left first. `over` is a link on which the tunnels count for more than it has at some priority.

The status is that of `routed book`: 0, or 2 where it refused a row; then the first line that refuses is on standard error. It is 1
where a file can't be read.
"""
from __future__ import annotations

import argparse
import collections
import json
from collections.abc import Iterator
from typing import Any

from .. import program
from ..model.books import PRIORITIES, Book, Placement, follow, left_of, read_rows
from ..model.names import Names, add_names
from ..model.rows import Refused, rank
from ..model.units import rate_of, rate_text
from ..net.endpoints import tell
from ..net.loop import Stopped
from ..sweep import solving
from ..tables import table

NOTHING = [0] * PRIORITIES


class Report:
    """The tables of a book."""

    def __init__(self, book: Book, names: Names, priority: int, below: int | None) -> None:
        self.book, self.names, self.priority, self.below = book, names, priority, below

    def tunnels(self) -> list[dict[str, Any]]:
        """Each placement, and then each tunnel that isn't placed, by their ids."""
        found = [self.tunnel(placement) for _, placement in sorted(self.book.placements.items())]
        return found + [{**self.asked(request.id, request.head, request.tail, request.setup, request.bandwidth), "state": "not placed"}
                        for _, request in sorted(self.book.unplaced.items())]

    def tunnel(self, placement: Placement) -> dict[str, Any]:
        request, links, cost = placement.request, placement.links, self.book.cost(placement)
        return {**self.asked(request.id, request.head, request.tail, request.setup, request.bandwidth),
                "state": "lost" if self.book.is_lost(placement) else "placed", **({} if cost is None else {"cost": cost}),
                "route": [[link.router, link.local] for link in links], "routers": [self.name(link.neighbor) for link in links]}

    def asked(self, name: int, head: str, tail: str, hold: int, bandwidth: int) -> dict[str, Any]:
        return {"id": name, "from": self.name(head), "to": self.name(tail), "hold": hold, "bandwidth": bandwidth}

    def links(self) -> list[dict[str, Any]]:
        """Each link of the base, the one with the least left at the priority first."""
        sums = self.book.counted()
        count = collections.Counter(link.key for placement in self.book.placements.values() for link in placement.links)
        lefts = {link.key: left_of(link, sums.get(link.key, NOTHING)) for link in self.book.base.links()}
        links = [link for link in self.book.base.links() if self.below is None or lefts[link.key][self.priority] < self.below]
        return [{"router": link.router, "interface": link.local, "from": self.name(link.router), "to": self.name(link.neighbor),
                 "unreserved": list(link.unreserved), "counted": sums.get(link.key, NOTHING), "left": lefts[link.key],
                 "tunnels": count[link.key],
                 "over": any(taken > free for taken, free in zip(sums.get(link.key, NOTHING), link.unreserved))}
                for link in sorted(links, key=lambda link: (lefts[link.key][self.priority], rank(link.key)))]

    def name(self, address: str) -> str:
        return self.names.name_of(address)

    def summary(self, tunnels: list[dict[str, Any]]) -> str:
        states = [it["state"] for it in tunnels]
        return (f"version {self.book.version}: {len(self.book.placements)} tunnels placed, {states.count('lost')} of them lost, "
                f"{states.count('not placed')} not placed; {len(self.book.base.links())} links")

    def lines(self) -> Iterator[str]:
        """Both tables, under a line that counts."""
        tunnels = self.tunnels()
        yield self.summary(tunnels)
        yield "tunnels:"
        yield from table([" id", "from", "to", " hold", " bandwidth", " cost", "state", "by"],
                         [[it["id"], it["from"], it["to"], it["hold"], rate_text(it["bandwidth"]), it.get("cost", ""),
                           it["state"] if it["state"] != "placed" else "", ", ".join(it.get("routers", [])[:-1])] for it in tunnels])
        yield "links:"
        at = self.priority
        yield from table(["from", "interface", "to", f" unreserved at {at}", " counted", " left", " tunnels", ""],
                         [[it["from"], it["interface"], it["to"], rate_text(it["unreserved"][at]), rate_text(it["counted"][at]),
                           rate_text(it["left"][at]), it["tunnels"], "over" if it["over"] else ""] for it in self.links()])


def run(asked: argparse.Namespace) -> int:
    """Runs the book, and prints its tables."""
    names, below, rows = Names.read(asked.names), None if asked.below is None else rate_of(asked.below), read_rows(asked.book)
    path = program.find(asked.program)
    try:
        book = follow(rows, solving.run(path, ["book"], rows, may_refuse=True))
    except solving.Stopped as fault:
        raise Stopped(f"{fault}{program.hint(path)}") from None
    report = Report(book, names, asked.priority, below)
    if asked.json:
        tell(json.dumps({"version": book.version, "tunnels": report.tunnels(), "links": report.links()}, ensure_ascii=False))
    else:
        tell(*report.lines())
    if book.refused:
        more = f", and {len(book.refused) - 1} more" if len(book.refused) > 1 else ""
        return program.failed("book-report", f"{book.refused[0]}{more}", 2)
    return 0


def main(given: list[str] | None = None) -> int:
    """Takes the words of a command line, and answers the status."""
    words = argparse.ArgumentParser(prog="routed-tools book-report", description=__doc__,
                                    formatter_class=argparse.RawDescriptionHelpFormatter)
    words.add_argument("book", nargs="+", metavar="BOOK", help="files of rows of `routed book`, which are read in this order")
    words.add_argument("--below", metavar="RATE", help="links alone that have less left than this: 1G, 400M, 64k or 125000000B")
    words.add_argument("--priority", type=int, choices=range(PRIORITIES), default=7, metavar="N",
                       help="at which the bandwidth of links is told, 0 to 7 (7)")
    add_names(words)
    words.add_argument("--json", action="store_true", help="print one line of JSON")
    program.add_option(words)
    asked = words.parse_args(given)
    try:
        return run(asked)
    except Refused as fault:
        return program.failed("book-report", fault, 2)
    except Stopped as fault:
        return program.failed("book-report", fault, 3)
    except OSError as fault:
        return program.failed("book-report", f"{fault.filename}: {fault.strerror}")
