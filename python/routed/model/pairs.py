"""Rows and lines of pairs (docs/run/FORMATS.md): two ways that share no circuit, or no router."""
from __future__ import annotations

import re
from dataclasses import dataclass, replace

from .rows import ADDRESS, DIGITS, Key, Reply, Request

OBJECT = "[0-9a-f]{8}(?:[0-9a-f]{16})+"
LINE = re.compile(rf"pair ({DIGITS}) v({DIGITS}) (?:pair cost=({DIGITS}) hops={DIGITS} cost1=({DIGITS}) ero1=({OBJECT}) "
                  rf"cost2=({DIGITS}) ero2=({OBJECT})|(none|unknown-from|unknown-to)|each by ({ADDRESS.pattern}),({ADDRESS.pattern})"
                  rf"|each through ({ADDRESS.pattern}))")


def constraints_of(request: Request, kind: str) -> str:
    """The text behind the word and the id of a row that asks for a pair of this kind, with the constraints of a request. A pair has no
    hops."""
    return replace(request, hops=kind, excluded="").constraints()


def row_of(name: int, request: Request, kind: str) -> str:
    """The row that asks for such a pair."""
    return f"pair,{name},{constraints_of(request, kind)}"


@dataclass(frozen=True)
class PairReply:
    """A line of a pair: its two ways, each as the reply with this route; else what each way has, as the key of a link or of a router;
    else the word that says why there is no way."""

    id: int
    version: int
    ways: tuple[Reply, ...] = ()
    each: Key = ()
    why: str | None = None

    @property
    def cost(self) -> int:
        return sum(way.cost for way in self.ways)

    @classmethod
    def parse(cls, line: str) -> PairReply | None:
        """The pair of a line; None for another line."""
        found = LINE.fullmatch(line)
        if not found:
            return None
        name, version, cost, cost1, ero1, cost2, ero2, why, router, local, through = found.groups()
        if not cost:
            return cls(int(name), int(version), each=(router, local) if router else (through,) if through else (), why=why)
        ways = [Reply.parse(f"ask {name} v{version} route cost={cost} hops=0 again=no ero={ero}")
                for cost, ero in ((cost1, ero1), (cost2, ero2))]
        return cls(int(name), int(version), tuple(way for way in ways if way))
