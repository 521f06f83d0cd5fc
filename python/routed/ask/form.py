"""The request of a form, whose fields have the words of `routed-tools ask`, and what a form is told of its answer."""
from __future__ import annotations

import argparse
import re
from dataclasses import replace
from typing import Any

from ..model.database import Database
from ..model.groups import Groups, bits_of
from ..model.names import Names
from ..model.rows import MASK, Key, Refused, Reply, Request
from ..model.units import rate_text
from .ask import links_of, request_of

LONGEST = 2000  # characters of a field
HOP_OF_ROW = re.compile(r"([0-9.]+/[0-9]+)([ls])")
KINDS = {"l": "loose", "s": "strict"}
MASKS = {"exclude": "exclude_any", "include": "include_any", "all": "include_all"}  # and the request's attribute


def asked_of(given: dict[str, str], names: Names, groups: Groups) -> Request:
    """The request that the fields of a form mean. Masks and hops may be as rows have them, too."""
    if long := [name for name, text in given.items() if len(text) > LONGEST]:
        raise Refused(f"{long[0]} has more than {LONGEST} characters")
    setup = given.get("setup") or "7"
    if setup not in tuple("01234567"):
        raise Refused(f"{setup!r} is no setup priority: that is a number from 0 to 7")
    exclude, include, whole = (groups_in(given.get(name, "").strip()) for name in MASKS)
    hops = [HOP_OF_ROW.fullmatch(hop) for hop in given.get("hops", "").split()]
    via = ",".join(f"{hop[1]}:{KINDS[hop[2]]}" for hop in hops if hop) if all(hops) else given["hops"]
    return request_of(argparse.Namespace(
        head=given.get("head", ""), tail=given.get("tail", ""), bandwidth=(given.get("bandwidth") or "0").strip(), setup=int(setup),
        exclude=exclude, include_any=include, include_all=whole, via=via), names, groups)


def groups_in(text: str) -> str:
    """Groups that commas separate, of such or of a mask."""
    return ",".join(map(str, bits_of(int(text, 16)))) if MASK.fullmatch(text) else text


def form_of(request: Request) -> dict[str, Any]:
    return {"head": request.head, "tail": request.tail, "bandwidth": rate_text(request.bandwidth), "setup": request.setup,
            **{name: f"0x{getattr(request, mask):x}" for name, mask in MASKS.items()}, "hops": request.hops}


# ---- answers


def name_of(key: Key) -> str:
    """How pages name a link."""
    return " ".join(key)


def links_in(database: Database, request: Request, reply: Reply) -> list[str]:
    """The links of a reply's route; none where the network hasn't got them any more."""
    try:
        return [name_of(link.key) for link in links_of(database, request, reply)]
    except Refused:
        return []


def found_of(database: Database, request: Request, reply: Reply) -> dict[str, Any]:
    """What a reply has found."""
    has_route = reply.why is None
    return {"outcome": reply.why or "route", "cost": reply.cost if has_route else None, "hops": len(reply.fars) if has_route else None,
            "links": links_in(database, request, reply)}


def answer_of(database: Database, request: Request, reply: Reply, line: str) -> dict[str, Any]:
    """What pages are told of an answer, beside the network as it is now."""
    row = replace(request, id=reply.id).text()
    return {"form": form_of(request), "row": row, "line": line, "version": reply.version, **found_of(database, request, reply),
            "newest": database.version, "stale": reply.version < database.version}


def reasons_of(database: Database, request: Request) -> dict[str, list[str]]:
    """The links that a request may not use, by the word for why."""
    found: dict[str, list[str]] = {}
    for link in database.links():
        if why := database.why_not(link, request, link.router != request.head):
            found.setdefault(why, []).append(name_of(link.key))
    return found
