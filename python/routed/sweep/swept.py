"""Reads what `sweep` prints: what each circuit's failure does, and which links are overbooked while nothing fails."""
from __future__ import annotations

import collections
import re
from collections.abc import Iterable
from typing import NamedTuple

OUT = re.compile(r"scenario (\d+) out (circuit|link) (\S+) (\S+) (\S+) (\S+)")
REQUEST = re.compile(r"scenario (\d+) (lost|longer) request (\d+) .*")
OVERBOOKED = re.compile(r"(?:before|scenario (\d+)) overbooked (\S+ \S+ \S+ \S+) priority=(\d) asked=(\d+) above=(\d+) unreserved=(\d+)")
COUNTS = re.compile(r"scenario (\d+) lost=(\d+) longer=(\d+) most=\d+ overbooked=\d+")
WHOLE = re.compile(r"scenarios=(\d+) lost=\d+ longer=\d+ overbooked=\d+")


def plain(line: str) -> str:
    """A line without the names behind it."""
    return line.partition("  # ")[0]


class Overbooked(NamedTuple):
    """A link's setup priority, what is asked of it at that priority and above, and what it has unreserved."""

    priority: int
    asked: int
    unreserved: int


class Failure(NamedTuple):
    """A circuit that is out, by a link of it; the requests that lose their route and those that get a longer one, and how many; and the
    links that are overbooked without it, and not as much with it."""

    link: str
    one: str
    other: str
    is_circuit: bool
    lost: int
    longer: int
    lost_ids: tuple[str, ...]
    longer_ids: tuple[str, ...]
    overbooked: tuple[str, ...]


def overbooked_before(lines: Iterable[str]) -> dict[str, list[Overbooked]]:
    """What is overbooked while nothing fails, by the lines of a sweep: of each link, by its name."""
    found: dict[str, list[Overbooked]] = collections.defaultdict(list)
    for line in lines:
        if (over := OVERBOOKED.fullmatch(line)) and over[1] is None:
            found[over[2]].append(Overbooked(int(over[3]), int(over[4]) + int(over[5]), int(over[6])))
    return dict(found)


def failures(lines: Iterable[str]) -> list[Failure]:
    """What each scenario does, all being there and each having one circuit out."""
    outs: dict[str, tuple[str, str, str, bool]] = {}
    requests: dict[tuple[str, str], list[str]] = collections.defaultdict(list)
    over: dict[str, set[str]] = collections.defaultdict(set)
    before: dict[tuple[str, str], int] = collections.defaultdict(int)
    found, count = [], None
    for line in lines:
        if out := OUT.fullmatch(line):
            if out[1] in outs:
                raise ValueError(f"scenario {out[1]} has two circuits out")
            outs[out[1]] = " ".join(out.groups()[2:]), out[3], out[5], out[2] == "circuit"
        elif request := REQUEST.fullmatch(line):
            requests[request[1], request[2]].append(request[3])
        elif it := OVERBOOKED.fullmatch(line):
            asked = int(it[4]) + int(it[5])
            if it[1] is None:
                before[it[2], it[3]] = asked
            elif asked > before[it[2], it[3]]:
                over[it[1]].add(it[2])
        elif counts := COUNTS.fullmatch(line):
            if counts[1] not in outs:
                raise ValueError(f"scenario {counts[1]} has no circuit out")
            lost, longer = (tuple(requests[counts[1], kind]) for kind in ("lost", "longer"))
            found.append(Failure(*outs[counts[1]], int(counts[2]), int(counts[3]), lost, longer, tuple(sorted(over[counts[1]]))))
        elif whole := WHOLE.fullmatch(line):
            count = int(whole[1])
    if count is None or count != len(found):
        raise ValueError("the sweep isn't whole")
    return found
