"""SVECs (RFC 5440 7.13): which two requests of a PCReq are asked for by one `pair` row, and what other SVECs mean for their requests."""
from __future__ import annotations

import collections
import struct

from ..model.pairs import PairReply
from ..model.rows import Reply
from . import wire
from .requests import MOST_RETURNED, Asked
from .wire import Object, Refused, pack

LINK_DIVERSE, NODE_DIVERSE = 1, 2  # flags L and N
FLAGS = 0x1f  # those that mean something: S, and D and P of RFC 8306, too
KINDS = {LINK_DIVERSE: "circuits", NODE_DIVERSE: "routers", LINK_DIVERSE | NODE_DIVERSE: "routers"}
CUMULATIVE_COST = 6  # the objective function that a pair has (RFC 5541 4)


class Svec:
    """An SVEC and the objects behind it, which are about the requests that it names."""

    def __init__(self, objects: list[Object]) -> None:
        self.objects, self.must = objects, any(given.must for given in objects)
        words = struct.unpack(f"!{len(objects[0].body) // 4}I", objects[0].body)
        self.ids = words[1:]
        is_ours = len(self.ids) == 2 and objects[0].type == 1 and all(map(is_cumulative, objects[1:]))
        self.kind = KINDS.get(words[0] & FLAGS, "") if is_ours else ""  # of the pair that it may ask for


def is_cumulative(given: Object) -> bool:
    """Whether an object is the objective function of a pair."""
    return (given.kind, given.type) == (wire.O_OF, 1) and given.body[:2] == struct.pack("!H", CUMULATIVE_COST)


class Svecs:
    """What stands before the requests of a PCReq with these ids."""

    def __init__(self, before: list[Object], ids: list[int]) -> None:
        starts = [at for at, given in enumerate(before) if given.kind == wire.O_SVEC]
        svecs = [Svec(before[at:end]) for at, end in zip(starts, [*starts[1:], len(before)])]
        named, there = collections.Counter(number for svec in svecs for number in svec.ids), collections.Counter(ids)
        self.pairs: dict[int, Svec] = {}  # by the ids of their requests
        self.refused: set[int] = set()  # ids of requests that are named by an SVEC which has to be processed, and can't be
        self.returned = joined(b"", before[:starts[0]] if starts else before)
        for svec in svecs:
            if svec.kind and all(number and named[number] == there[number] == 1 for number in svec.ids):
                self.pairs.update(dict.fromkeys(svec.ids, svec))
            elif not svec.must:
                self.returned = joined(self.returned, svec.objects)
            elif there.keys().isdisjoint(svec.ids):
                raise Refused(*wire.CLASS)
            else:
                self.refused.update(svec.ids)


def joined(before: bytes, objects: list[Object]) -> bytes:
    """Ignored objects that an answer returns, and these behind them, as far as there is room."""
    for given in objects:
        if len(before) + 4 + len(given.body) <= MOST_RETURNED:
            before += pack(given.kind, given.body, given.type, ignored=True)
    return before


def are_alike(one: Asked, other: Asked) -> bool:
    """Whether a `pair` row says both requests: they ask for the same, and for nothing that such a row doesn't have."""
    return said(one) == said(other) and not any(has_more(asked) for asked in (one, other))


def said(asked: Asked) -> tuple:
    request = asked.request
    return request.ends, request.masks, request.setup, request.bandwidth, asked.setup_type


def has_more(asked: Asked) -> bool:
    request = asked.request
    return bool(request.hops or request.bounds or request.exclusions.objects) or request.most_sids is not None


def replies_of(line: str) -> tuple[Reply, ...]:
    """The reply to each request of a pair; none where the line is no pair's."""
    found = PairReply.parse(line)
    if found is None:
        return ()
    return found.ways or (Reply(found.id, found.version, found.why or "none", 0, ()),) * 2
