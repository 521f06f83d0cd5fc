"""An answer in words, and in JSON."""
from __future__ import annotations

import json
from collections.abc import Iterator
from typing import TYPE_CHECKING, Any

from ..model.database import Database
from ..model.groups import Groups
from ..model.names import Names
from ..model.rows import Link, Reply, Request, value
from ..model.units import rate_text
from ..tables import table
from .cuts import Cut, routers_of
from .reasons import Part, Reason

if TYPE_CHECKING:
    from .ask import Answer

MOST_NAMED = 5  # routers of an island


class Telling:
    """Says what was found, by the names of addresses and groups."""

    def __init__(self, names: Names, groups: Groups) -> None:
        self.names, self.groups = names, groups

    # ---- lines

    def lines(self, answer: Answer, is_explained: bool, before: Reply | None = None) -> Iterator[str]:
        """The row, the line, the table of the route, and why. `before` is the last answer that differs from this one."""
        if before:
            yield f"version {answer.reply.version}: {outcome_of(answer.reply)}; version {before.version}: {outcome_of(before)}"
        yield answer.row
        yield answer.line
        if answer.route is not None:
            yield from self.route(answer.route, answer.request.setup)
        if not is_explained:
            return
        unknown = (answer.reply.why or "").removeprefix("unknown-")
        if answer.reply.why and unknown != answer.reply.why:
            yield f"why: {self.unknown(answer, unknown)}"
        elif answer.reasons:
            yield from self.reasons(answer, answer.reasons)
        elif answer.reasons is not None and not answer.reply.why:
            yield "why: this is the least route of all; no constraint makes it dearer"
        elif answer.reasons is not None:
            yield from self.cut(answer)

    def route(self, route: list[Link], priority: int) -> Iterator[str]:
        """The table of a route."""
        yield from table(["router", "interface", "neighbor", " metric", " unreserved"],
                         [[self.name(link.router), link.local, self.name(link.neighbor), link.metric, rate_text(link.unreserved[priority])]
                          for link in route])

    def reasons(self, answer: Answer, reasons: list[Reason]) -> Iterator[str]:
        """What can be given up, each line by itself."""
        if answer.reply.why:
            yield "why: there is a route once " + ("one of these lines" if len(reasons) > 1 else "this") + " is given up:"
        else:
            yield f"why: the route of cost {answer.reply.cost} is cheaper without " + ("each of these:" if len(reasons) > 1 else "this:")
        rows = []
        for reason in reasons:
            what = " and ".join(self.part(part, answer.request, answer.database) for part in reason.parts)
            less = [] if answer.reply.why else [answer.reply.cost - reason.reply.cost]
            rows.append([what, reason.reply.cost, *less, len(reason.reply.fars)])
        yield from table(["constraint", " cost", *([] if answer.reply.why else [" less"]), " hops"], rows)

    def part(self, part: Part, request: Request, database: Database | None) -> str:
        """A part of a request that is given up, in words."""
        if part.kind == "bandwidth":
            asked = f"bandwidth {rate_text(request.bandwidth)}"
            return f"{asked} (at most {rate_text(part.value)})" if part.value else asked
        if part.kind == "hop":
            hop = request.hops.split()[part.value]
            nobody = ", of no router" if database and not has_owner(database, hop) else ""
            return f"hop {part.value + 1} ({self.hop(hop)}{nobody})"
        return f"{part.kind} {', '.join(self.groups.names_of(part.value))}"

    def hop(self, hop: str) -> str:
        """A hop of a row, in words."""
        address, bits = hop[:-1].split("/")
        return f"{self.name(address) if bits == '32' else hop[:-1]}{' strict' if hop[-1] == 's' else ''}"

    def unknown(self, answer: Answer, end: str) -> str:
        address = answer.request.head if end == "from" else answer.request.tail
        text = f"version {answer.reply.version} has no router {self.name(address)}"
        text += f" ({address})" if self.name(address) != address else ""
        links = answer.database.links() if answer.database else []
        owner = next((link.router for link in links if link.local == address), None)
        return text + (f"; this is the address of an interface of {self.name(owner)}" if owner else "")

    def cut(self, answer: Answer) -> Iterator[str]:
        """What keeps the ends apart, whatever is asked for."""
        found, head, tail = answer.cut, self.name(answer.request.head), self.name(answer.request.tail)
        if found is None:
            yield "why: no constraint keeps the route away; with --show or --journal this says what does"
        elif found.islands:
            one, other = (self.island(routers, len(routers)) for routers in found.islands)
            yield f"why: {head} and {tail} are on two islands, which no circuit joins: {one}; and {other}"
        elif not found.routers and not found.links:
            yield "why: this network has a way between the ends, so it isn't that of the server"
        for router in found.routers if found else ():
            yield f"why: {self.name(router)} is marked, so no route passes through it"
        for link in found.links if found else ():
            yield (f"why: the circuit between {self.name(link.router)} {link.local} and {self.name(link.neighbor)} {link.remote} "
                   f"has one direction, from {self.name(link.router)}")

    def island(self, routers: list[str], count: int) -> str:
        some = ", ".join(map(self.name, routers[:MOST_NAMED])) + (", .." if count > MOST_NAMED else "")
        return f"{count} {'router' if count == 1 else 'routers'} ({some})"

    def name(self, address: str) -> str:
        return self.names.name_of(address)

    # ---- JSON

    def json(self, answer: Answer) -> str:
        """The same as one line."""
        reply = answer.reply
        told: dict[str, Any] = {"row": answer.row, "line": answer.line, "version": reply.version, "outcome": reply.why or "route"}
        if not reply.why:
            told |= {"cost": reply.cost, "hops": len(reply.fars)}
        if answer.route is not None:
            told["route"] = [link_value(link, self.names, answer.request.setup) for link in answer.route]
        if answer.reasons is not None:
            told["why"] = [{"cost": reason.reply.cost, "hops": len(reason.reply.fars),
                            "constraints": [self.part_value(part, answer.request) for part in reason.parts]} for reason in answer.reasons]
        if answer.cut is not None:
            told["apart"] = self.cut_value(answer.cut)
        return json.dumps(told, ensure_ascii=False)

    def part_value(self, part: Part, request: Request) -> dict[str, Any]:
        if part.kind == "bandwidth":
            return {"constraint": part.kind, "most": part.value}
        if part.kind == "hop":
            return {"constraint": part.kind, "place": part.value + 1, "hop": request.hops.split()[part.value]}
        return {"constraint": part.kind, "groups": self.groups.names_of(part.value)}

    def cut_value(self, found: Cut) -> dict[str, Any]:
        if found.islands:
            return {"islands": [[self.name(router) for router in routers] for routers in found.islands]}
        return {"marked": [self.name(router) for router in found.routers],
                "one-way": [link_value(link, self.names) for link in found.links]}


def outcome_of(reply: Reply) -> str:
    return reply.why or f"cost={reply.cost} hops={len(reply.fars)}"


def link_value(link: Link, names: Names, priority: int | None = None) -> dict[str, Any]:
    """A link in JSON, with what is unreserved at one priority or at all."""
    return {"router": link.router, "router_name": names.name_of(link.router), "interface": link.local, "neighbor": link.neighbor,
            "neighbor_name": names.name_of(link.neighbor), "remote": link.remote, "metric": link.metric, "group": f"0x{link.group:08x}",
            "unreserved": list(link.unreserved) if priority is None else link.unreserved[priority]}


def has_owner(database: Database, hop: str) -> bool:
    """Whether a router, or a link's interface, has an address in a hop's prefix."""
    (prefix, unused), = Request(0, "", "", hops=hop).prefixes()
    addresses = routers_of(database) | {link.local for link in database.links()}
    return any(value(address) >> unused == prefix for address in addresses)
