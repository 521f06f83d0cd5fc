"""Makes one sweep of the parts of one: what `routed-tools sweep --part I/N` prints for I from 1 to N, one after the other.

They come from the files that are named, else from standard input. Names behind the lines are left out. Standard output is, byte for
byte, what the sweep of all scenarios prints with the same names. All parts have to be there, whole, in order, and of one network.
Otherwise one line on standard error says what is wrong, and the status is 1.
"""
from __future__ import annotations

import argparse
import fileinput
import itertools
import re
import sys
from collections.abc import Iterable, Iterator
from typing import NamedTuple

from ..model.names import Names, NamesRefused, add_names
from ..model.rows import Refused
from ..program import failed
from .ranking import LINE, MOST, Ranking
from .swept import COUNTS, REQUEST, plain
from .telling import in_lines

LAST = re.compile(r"part (\d+)/(\d+) input=([0-9a-f]{16}) scenarios=(\d+) lost=(\d+) longer=(\d+) overbooked=(\d+)")
SCENARIO = re.compile(r"scenario \d+ .*")


class Part(NamedTuple):
    """The lines before its scenarios, those of the scenarios, the ranked ones, and what its last line says."""

    before: list[str]
    scenarios: list[str]
    ranked: list[str]
    at: int
    of: int
    source: str
    counts: list[int]


def parts(lines: Iterable[str]) -> Iterator[Part]:
    said: list[list[str]] = [[], [], []]
    for line in lines:
        if last := LAST.fullmatch(line):
            at, of, source, *counts = last.groups()
            yield Part(said[0], said[1], said[2], int(at), int(of), source, [int(count) for count in counts])
            said = [[], [], []]
            continue
        kind = 1 if SCENARIO.fullmatch(line) else 2 if line.startswith("most ") else 0
        if any(said[kind + 1:]):  # it stands behind a line of a later kind
            break
        said[kind].append(line)
    if together := list(itertools.chain(*said)):
        raise Refused(f"a part ends by {together[-1]!r}, and not by a line that says which part it is")


def rank(ranking: Ranking, part: Part) -> None:
    """Adds a part to a ranking: from the scenarios the requests that they touch, and from the part's own ranking the failures."""
    for found in filter(None, map(REQUEST.fullmatch, part.scenarios)):
        ranking.touch(int(found[3]), found[2] == "longer")
    for found in filter(None, map(LINE.fullmatch, part.ranked)):
        ranking.keep(found[1], (int(found[2]), int(found[3]), int(found[4]), int(found[5]), found[6]))


def join(lines: Iterable[str]) -> Iterator[str]:
    """The lines of the whole."""
    first: Part | None = None
    at, of, totals, ranking = 0, 1, [0, 0, 0, 0], Ranking()
    for part in parts(lines):
        at, of = at + 1, of if first else part.of
        if (part.at, part.of) != (at, of):
            raise Refused(f"part {part.at}/{part.of} stands where part {at}/{of} has to be")
        if first and (part.source, part.before) != (first.source, first.before):
            raise Refused(f"part {at}/{of} is of another journal, other requests, other failures or another program")
        ended = [[int(number) for number in found.groups()] for found in map(COUNTS.fullmatch, part.scenarios) if found]
        if [place for place, _, _ in ended] != list(range(totals[0] + 1, totals[0] + part.counts[0] + 1)):
            raise Refused(f"part {at}/{of} hasn't the scenarios from {totals[0] + 1} to {totals[0] + part.counts[0]}")
        own = Ranking()
        rank(own, part)
        counted = {"requests": sum(lost + longer > 0 for _, lost, longer in ended), "bandwidth": part.counts[1]}
        if list(own.lines()) != part.ranked or any(len(own.worst[kind]) != min(count, MOST) for kind, count in counted.items()):
            raise Refused(f"part {at}/{of} hasn't the ranking of its scenarios")
        rank(ranking, part)
        yield from part.scenarios if first else part.before + part.scenarios
        first, totals = part, [total + count for total, count in zip(totals, part.counts)]
    if at != of or not first:
        raise Refused(f"part {at + 1}/{of} isn't there")
    yield from ranking.lines()
    yield "scenarios={} lost={} longer={} overbooked={}".format(*totals)


def main(words: list[str] | None = None) -> int:
    """Takes the words of a command line, and answers the status."""
    asked = argparse.ArgumentParser(prog="routed-tools join", description=__doc__, formatter_class=argparse.RawDescriptionHelpFormatter)
    asked.add_argument("files", nargs="*", metavar="FILE")
    add_names(asked)
    given = asked.parse_args(words)
    try:
        names = Names.read(given.names)
        with fileinput.input(given.files, encoding="utf-8") as lines:
            for text in in_lines(join(plain(line.rstrip("\r\n")) for line in lines), names):
                print(text, end="")
        sys.stdout.flush()
    except NamesRefused as fault:
        return failed("join", fault)
    except Refused as fault:
        return failed("join", fault, advice="give what sweep --part I/N printed, for I from 1 to N")
    except UnicodeError:
        return failed("join", "a part is no text", advice="unpack it, where it is compressed")
    except OSError as fault:
        return failed("join", fault)
    return 0
