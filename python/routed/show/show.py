"""Shows the network of a running server as a table, by names and units. It can't change anything.

    routed-tools show PLACE [links|routers|marks] [--router ROUTER] [--group GROUP] [--below 1G] [--json]
    routed-tools show PLACE diff FILE

PLACE is that of --show of `routed-tools listen`, or that of updates while nobody brings updates. A line before the table has the
version. `links`, the default, is one row for each link, with what is unreserved at the priority of --priority. A link without its
reverse has `one-way` in the last column. `diff` compares with a snapshot that was kept in FILE, as this command keeps one:

    echo snapshot | routed-tools connect PLACE > FILE

In a line of `diff` + is a link or a mark that came since, - one that went, and ~ a link that is another one now.

The status is 0; 1 where the server can't be reached; and 2 where a word, a file or a snapshot is refused.
"""
from __future__ import annotations

import argparse
import json
from collections.abc import Iterator
from typing import Any

from ..client import ask_snapshot
from ..model.advice import of_place
from ..model.database import Database
from ..model.groups import Groups, add_groups
from ..model.journals import read_snapshot
from ..model.names import Names, add_names
from ..model.rows import Link, Refused, rank
from ..model.units import rate_of, rate_text
from ..net.endpoints import Endpoint, tell
from ..net.loop import Stopped
from ..program import failed
from ..tables import table
from .changes import Changes

Values = list[dict[str, Any]]
KINDS = ("links", "routers", "marks", "diff")


class Show:
    """What is asked for, and the tables of it."""

    def __init__(self, asked: argparse.Namespace, database: Database) -> None:
        self.names, self.groups, self.database, self.priority = Names.read(asked.names), Groups.read(asked.groups), database, asked.priority
        self.changes = Changes(self.names, self.groups)
        self.router = asked.router and self.names.address_of(asked.router)
        if asked.router and not self.router:
            raise Refused(f"{asked.router!r} is no address, and no name of a file of names")
        self.group = None if asked.group is None else 1 << self.groups.bit_of(asked.group)
        self.below = None if asked.below is None else rate_of(asked.below)

    def is_wanted(self, link: Link) -> bool:
        """Whether a link passes the filters."""
        return ((self.router is None or self.router in (link.router, link.neighbor))
                and (self.group is None or bool(link.group & self.group))
                and (self.below is None or link.unreserved[self.priority] < self.below))

    def links(self) -> Values:
        return [{**self.ends(link), "metric": link.metric, "groups": self.groups.names_of(link.group), "unreserved": list(link.unreserved),
                 "one-way": self.database.reverse(link) is None} for link in self.database.links() if self.is_wanted(link)]

    def ends(self, link: Link) -> dict[str, Any]:
        return {"router": link.router, "name": self.name(link.router), "interface": link.local, "neighbor": link.neighbor,
                "neighbor_name": self.name(link.neighbor), "remote": link.remote}

    def routers(self) -> Values:
        """Each router that has a link which passes the filters, or each that is asked for."""
        links, marks = [link for link in self.database.links() if self.is_wanted(link)], self.database.marks()
        leaving: dict[str, list[Link]] = {router: [] for link in links for router in (link.router, link.neighbor)
                                          if self.router in (None, router)}
        for link in links:
            if link.router in leaving:
                leaving[link.router].append(link)
        return [{"router": router, "name": self.name(router), "links": len(found),
                 "one-way": sum(self.database.reverse(link) is None for link in found), "marked": router in marks,
                 "unreserved": sum(link.unreserved[self.priority] for link in found)}
                for router, found in sorted(leaving.items(), key=lambda it: rank((it[0],)))]

    def marks(self) -> Values:
        known = {router for link in self.database.links() for router in (link.router, link.neighbor)}
        return [{"router": router, "name": self.name(router), "has_links": router in known}
                for router in sorted(self.database.marks(), key=lambda it: rank((it,))) if self.router in (None, router)]

    def diff(self, before: Database) -> Values:
        """What came, went and changed since, in the order of the keys."""
        found: Values = []
        there = [link for link in (*before.links(), *self.database.links()) if self.is_wanted(link)]
        for key in sorted({link.key for link in there}, key=rank):
            old, new = before.rows.get(key), self.database.rows.get(key)
            if old != new:
                link = new or old
                assert isinstance(link, Link)
                found.append({"sign": "~" if old and new else "+" if new else "-", "link": link.key, **self.ends(link),
                              "changes": self.changes.of_link(old, new) if isinstance(old, Link) and isinstance(new, Link) else []})
        marks = sorted(before.marks() ^ self.database.marks(), key=lambda it: rank((it,)))
        return found + [{"sign": "+" if router in self.database.marks() else "-", "mark": router, "name": self.name(router)}
                        for router in marks if self.router in (None, router)]

    def name(self, address: str) -> str:
        return self.names.name_of(address)

    # ---- tables

    def lines(self, kind: str, values: Values) -> Iterator[str]:
        """The values as a table."""
        if kind == "diff":
            for it in values:
                link = f"{it['interface']} to {it['neighbor_name']} {it['remote']}" if "link" in it else "is marked"
                what = f"{it['name']} {link}"
                yield f"{it['sign']} {what}{': ' if it.get('changes') else ''}{', '.join(it.get('changes', ()))}"
        elif kind == "links":
            yield from table(["router", "interface", "neighbor", "remote", " metric", "groups", " unreserved", ""],
                             [[it["name"], it["interface"], it["neighbor_name"], it["remote"], it["metric"],
                               "+".join(it["groups"]) or "none",
                               rate_text(it["unreserved"][self.priority]), "one-way" if it["one-way"] else ""] for it in values])
        elif kind == "routers":
            yield from table(["router", "name", " links", " one-way", " unreserved", ""],
                             [[it["router"], it["name"], it["links"], it["one-way"], rate_text(it["unreserved"]),
                               "marked" if it["marked"] else ""] for it in values])
        else:
            yield from table(["router", "name", ""], [[it["router"], it["name"], "" if it["has_links"] else "no links"] for it in values])


def shown(asked: argparse.Namespace) -> Iterator[str]:
    """The lines that are asked for."""
    if (asked.what == "diff") != (asked.file is not None):
        raise Refused("FILE is wanted by `diff`, and by nothing else")
    Names.read(asked.names)  # refused before anything is asked for
    before = None
    if asked.file is not None:
        with open(asked.file, "rb") as file:
            try:
                before = read_snapshot(file.read())
            except Refused as fault:
                raise Refused(f"{asked.file}: {fault}") from None
    database = ask_snapshot(asked.place.text)
    show = Show(asked, database)
    values = show.diff(before) if before else getattr(show, asked.what)()
    if asked.json:
        yield json.dumps({"version": database.version, asked.what: values}, ensure_ascii=False)
        return
    yield f"version {database.version}, {len(database.links())} links" + (f", compared with version {before.version}" if before else "")
    yield from show.lines(asked.what, values)


def parser() -> argparse.ArgumentParser:
    words = argparse.ArgumentParser(prog="routed-tools show", description=__doc__, formatter_class=argparse.RawDescriptionHelpFormatter)
    words.add_argument("place", type=Endpoint, metavar="PLACE", help="a path, a port, ADDRESS:PORT or [ADDRESS]:PORT, as of --show")
    words.add_argument("what", nargs="?", choices=KINDS, default="links", help="what is shown (links)")
    words.add_argument("file", nargs="?", metavar="FILE", help="of diff: a snapshot that was kept, or a journal")
    words.add_argument("--router", metavar="ROUTER", help="links from or to this router alone, by its name or Router ID")
    words.add_argument("--group", metavar="GROUP", help="links that are in this group alone, by its name or number")
    words.add_argument("--below", metavar="RATE", help="links alone that have less unreserved than this: 1G, 400M, 64k or 125000000B")
    words.add_argument("--priority", type=int, choices=range(8), default=7, metavar="N",
                       help="at which bandwidth is unreserved, 0 to 7 (7)")
    add_names(words)
    add_groups(words)
    words.add_argument("--json", action="store_true", help="print one line of JSON")
    return words


def main(given: list[str] | None = None) -> int:
    """Takes the words of a command line, and answers the status."""
    asked = parser().parse_args(given)
    try:
        tell(*shown(asked))
    except Refused as fault:
        return failed("show", fault, 2)
    except Stopped as fault:
        return failed("show", fault)
    except (OSError, UnicodeError) as fault:
        where = getattr(fault, "filename", None) or asked.place.text
        return failed("show", f"{where}: {getattr(fault, 'strerror', '') or fault}", advice=of_place(fault))
    return 0
