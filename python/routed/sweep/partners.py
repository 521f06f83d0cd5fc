"""Which routes of a sweep have a partner: two ways of the request that share no circuit, or no router. Where there are none, it is said
which circuit each way has, or which router it passes. `routed solve --pairs` answers that while nothing is out."""
from __future__ import annotations

from collections.abc import Iterator

from ..model.journals import MOST_ROWS
from ..model.pairs import PairReply, row_of
from ..model.rows import KINDS, Request
from .failures import Network
from .solving import Stopped, checked, heads_of, run


def partner_lines(given: Network) -> Iterator[str]:
    """A line for each kind of pair and each request that has a route, and how many of them have a pair."""
    counts = dict.fromkeys(KINDS, 0)
    costs = {request.id: answer.cost for request, answer in zip(given.requests, given.answers) if answer.cost is not None}
    asked = [(request, kind) for request in given.requests if request.id in costs for kind in KINDS]
    for (request, kind), text in zip(asked, replies(given, asked)):
        counts[kind] += text.startswith("pair ")
        yield f"before partner {kind} request {request.id} {said(given, text, costs[request.id])}"
    yield "before partners " + " ".join(f"{kind}={count}" for kind, count in counts.items())


def replies(given: Network, asked: list[tuple[Request, str]]) -> Iterator[str]:
    """What the program says of each pair behind the version. One run takes as many rows as a stream may have."""
    heads, most = heads_of(given.rows), MOST_ROWS - len(given.rows)
    for at in range(0, len(asked), most):
        some = asked[at:at + most]
        rows = [*given.rows, *(row_of(request.id, request, kind) for request, kind in some)]
        wanted = [*heads, *(f"pair {request.id} v{len(heads)}" for request, _ in some)]
        lines = run(given.program, ["solve", "--pairs"], "\n".join(rows).encode())
        if len(lines) != len(wanted):
            raise Stopped(f"{given.program} wrote {len(lines)} lines to {len(some)} pairs")
        yield from checked(given.program, wanted, lines)[len(heads):]


def said(given: Network, text: str, cost: int) -> str:
    """What a line says of a pair, beside the cost of the one route."""
    reply = PairReply.parse(f"pair 1 v1 {text}")
    if reply and reply.ways:
        return f"pair cost={reply.cost} was={cost} more={reply.cost - cost}"
    if reply and reply.each in given.links:
        return f"by {given.links[reply.each].name}"
    if reply and len(reply.each) == 1:
        return f"through {reply.each[0]}"
    raise Stopped(f"{given.program} wrote no reply to a pair of ends with a route: {text}")
